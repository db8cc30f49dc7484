/*
 * An input method for trials, driven by lines: weston_method WIDTH HEIGHT LAYOUT. Its window of candidates is always there,
 * so that it shows where the compositor doesn't hide it. Prints `ready`, and a line for each of: `rectangle X Y W H`,
 * `key CODE STATE`, `mods D L K G`, `unavailable`, `activate`, `deactivate`. Lines: `grab`, `release`, `string TEXT`,
 * `board KEY STATE`, `shift MODIFIERS`, `hide` (no buffer), `drop` (the popup ends), `quit`.
 */
#define _GNU_SOURCE
#include "input-method-unstable-v2-client-protocol.h"
#include "virtual-keyboard-unstable-v1-client-protocol.h"
#include <poll.h>
#include <stdio.h>
#include <stdlib.h>
#include <string.h>
#include <sys/mman.h>
#include <time.h>
#include <unistd.h>
#include <wayland-client.h>
#include <xkbcommon/xkbcommon.h>

static struct wl_compositor *compositor;
static struct wl_shm *memory;
static struct wl_seat *seat;
static struct zwp_input_method_manager_v2 *methods;
static struct zwp_virtual_keyboard_manager_v1 *boards;
static struct wl_display *display;
static struct wl_surface *surface;
static struct zwp_input_method_v2 *method;
static struct zwp_input_popup_surface_v2 *popup;
static struct zwp_input_method_keyboard_grab_v2 *grab;
static struct zwp_virtual_keyboard_v1 *board;
static uint32_t dones;

static void on_global(void *data, struct wl_registry *registry, uint32_t name, const char *is, uint32_t version)
{
	(void)data, (void)version;
	if (strcmp(is, "wl_compositor") == 0)
		compositor = wl_registry_bind(registry, name, &wl_compositor_interface, 4);
	else if (strcmp(is, "wl_shm") == 0)
		memory = wl_registry_bind(registry, name, &wl_shm_interface, 1);
	else if (strcmp(is, "wl_seat") == 0 && !seat)
		seat = wl_registry_bind(registry, name, &wl_seat_interface, 1);
	else if (strcmp(is, "zwp_input_method_manager_v2") == 0)
		methods = wl_registry_bind(registry, name, &zwp_input_method_manager_v2_interface, 1);
	else if (strcmp(is, "zwp_virtual_keyboard_manager_v1") == 0)
		boards = wl_registry_bind(registry, name, &zwp_virtual_keyboard_manager_v1_interface, 1);
}

static void on_gone(void *data, struct wl_registry *registry, uint32_t name)
{
	(void)data, (void)registry, (void)name;
}

static const struct wl_registry_listener on_registry = { on_global, on_gone };

static void on_activate(void *data, struct zwp_input_method_v2 *of) { (void)data, (void)of, puts("activate"); }
static void on_deactivate(void *data, struct zwp_input_method_v2 *of) { (void)data, (void)of, puts("deactivate"); }
static void on_unavailable(void *data, struct zwp_input_method_v2 *of) { (void)data, (void)of, puts("unavailable"); }
static void on_done(void *data, struct zwp_input_method_v2 *of) { (void)data, (void)of, dones++; }

static void on_surrounding(void *data, struct zwp_input_method_v2 *of, const char *text, uint32_t cursor,
	uint32_t anchor)
{
	(void)data, (void)of, (void)text, (void)cursor, (void)anchor;
}

static void on_cause(void *data, struct zwp_input_method_v2 *of, uint32_t cause)
{
	(void)data, (void)of, (void)cause;
}

static void on_content(void *data, struct zwp_input_method_v2 *of, uint32_t hint, uint32_t purpose)
{
	(void)data, (void)of, (void)hint, (void)purpose;
}

static const struct zwp_input_method_v2_listener on_method = {
	on_activate, on_deactivate, on_surrounding, on_cause, on_content, on_done, on_unavailable,
};

static void on_rectangle(void *data, struct zwp_input_popup_surface_v2 *of, int32_t x, int32_t y, int32_t width,
	int32_t height)
{
	(void)data, (void)of;
	printf("rectangle %d %d %d %d\n", x, y, width, height);
}

static const struct zwp_input_popup_surface_v2_listener on_popup = { on_rectangle };

static void on_keymap(void *data, struct zwp_input_method_keyboard_grab_v2 *of, uint32_t format, int32_t file,
	uint32_t size)
{
	(void)data, (void)of, (void)format, (void)size;
	close(file);
}

static void on_key(void *data, struct zwp_input_method_keyboard_grab_v2 *of, uint32_t serial, uint32_t time,
	uint32_t key, uint32_t state)
{
	(void)data, (void)of, (void)serial, (void)time;
	printf("key %u %u\n", key, state);
}

static void on_mods(void *data, struct zwp_input_method_keyboard_grab_v2 *of, uint32_t serial, uint32_t depressed,
	uint32_t latched, uint32_t locked, uint32_t group)
{
	(void)data, (void)of, (void)serial;
	printf("mods %u %u %u %u\n", depressed, latched, locked, group);
}

static void on_repeat(void *data, struct zwp_input_method_keyboard_grab_v2 *of, int32_t rate, int32_t delay)
{
	(void)data, (void)of, (void)rate, (void)delay;
}

static const struct zwp_input_method_keyboard_grab_v2_listener on_grab = { on_keymap, on_key, on_mods, on_repeat };

static struct wl_buffer *buffer_of(int width, int height)
{
	int size = width * height * 4, file = memfd_create("popup", MFD_CLOEXEC);
	uint32_t *pixels = ftruncate(file, size) == 0 ?
		mmap(NULL, size, PROT_READ | PROT_WRITE, MAP_SHARED, file, 0) : MAP_FAILED;
	if (pixels == MAP_FAILED)
		exit(1);
	for (int at = 0; at < width * height; at++)
		pixels[at] = 0xffffd060;
	return wl_shm_pool_create_buffer(wl_shm_create_pool(memory, file, size), 0, width, height, width * 4,
		WL_SHM_FORMAT_ARGB8888);
}

static void board_keymap(const char *layout)
{
	struct xkb_context *context = xkb_context_new(XKB_CONTEXT_NO_FLAGS);
	const struct xkb_rule_names names = { .layout = layout };
	char *text = xkb_keymap_get_as_string(xkb_keymap_new_from_names(context, &names, 0), XKB_KEYMAP_FORMAT_TEXT_V1);
	int file = memfd_create("keymap", MFD_CLOEXEC);
	if (write(file, text, strlen(text) + 1) < 0)
		exit(1);
	zwp_virtual_keyboard_v1_keymap(board, 1, file, strlen(text) + 1);
}

static void show(struct wl_buffer *buffer)
{
	wl_surface_attach(surface, buffer, 0, 0);
	wl_surface_damage(surface, 0, 0, 4096, 4096);
	wl_surface_commit(surface);
}

static void take_line(const char *line)
{
	unsigned key, state;
	if (strcmp(line, "grab") == 0) {
		grab = zwp_input_method_v2_grab_keyboard(method);
		zwp_input_method_keyboard_grab_v2_add_listener(grab, &on_grab, NULL);
	} else if (strcmp(line, "release") == 0) {
		zwp_input_method_keyboard_grab_v2_release(grab);
	} else if (strncmp(line, "string ", 7) == 0) {
		zwp_input_method_v2_commit_string(method, line + 7);
		zwp_input_method_v2_commit(method, dones);
	} else if (sscanf(line, "board %u %u", &key, &state) == 2) {
		zwp_virtual_keyboard_v1_key(board, (uint32_t)time(NULL), key, state);
	} else if (sscanf(line, "shift %u", &state) == 1) {
		zwp_virtual_keyboard_v1_modifiers(board, state, 0, 0, 0);
	} else if (strcmp(line, "hide") == 0) {
		show(NULL);
	} else if (strcmp(line, "drop") == 0) {
		zwp_input_popup_surface_v2_destroy(popup);
	} else {
		exit(0);
	}
	wl_display_roundtrip(display);
	puts("ok");
}

int main(int count, char **words)
{
	char line[512];
	display = wl_display_connect(NULL);
	if (!display || count < 4)
		return 1;
	setvbuf(stdout, NULL, _IOLBF, 0);
	wl_registry_add_listener(wl_display_get_registry(display), &on_registry, NULL);
	wl_display_roundtrip(display);
	if (!methods || !boards || !seat || !memory || !compositor)
		return 4;
	surface = wl_compositor_create_surface(compositor);
	method = zwp_input_method_manager_v2_get_input_method(methods, seat);
	zwp_input_method_v2_add_listener(method, &on_method, NULL);
	wl_display_roundtrip(display);
	popup = zwp_input_method_v2_get_input_popup_surface(method, surface);
	zwp_input_popup_surface_v2_add_listener(popup, &on_popup, NULL);
	show(buffer_of(atoi(words[1]), atoi(words[2])));
	board = zwp_virtual_keyboard_manager_v1_create_virtual_keyboard(boards, seat);
	board_keymap(words[3]);
	if (wl_display_roundtrip(display) < 0)
		return 3;
	puts("ready");
	struct pollfd ready[] = { { wl_display_get_fd(display), POLLIN, 0 }, { STDIN_FILENO, POLLIN, 0 } };
	while (wl_display_flush(display) >= 0 && poll(ready, 2, -1) > 0) {
		if (ready[0].revents && wl_display_dispatch(display) < 0)
			return 2;
		if (ready[1].revents && fgets(line, sizeof line, stdin)) {
			line[strcspn(line, "\n")] = 0;
			take_line(line);
		}
	}
	return 2;
}
