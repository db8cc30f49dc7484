/*
 * A compositor without a screen, on wlroots 0.15: windows of xdg_shell, one seat with a keyboard that is driven by
 * lines, and the glue. It shows how the glue is used, and lets real programs be typed into.
 *
 *     compositor        prints `ready SOCKET`, and then an answer for each line that it reads:
 *
 *     windows           the application ids of all windows, in a line
 *     focus ID, unfocus `ok`, or `no` where there is no such window
 *     key CODE STATE    `ok`; a key of evdev's numbers, 0 released or 1 pressed
 *     popups            of each popup of a method that is shown: `X Y WIDTH HEIGHT`, with ; between
 *     look              the labels of the field, the method and the grab that have the seat; 0 is none
 *     quit
 */
#define _GNU_SOURCE
#include "wlim_glue.h"
#include <stdio.h>
#include <stdlib.h>
#include <string.h>
#include <sys/stat.h>
#include <time.h>
#include <unistd.h>
#include <wlr/backend.h>
#include <wlr/backend/headless.h>
#include <wlr/interfaces/wlr_keyboard.h>
#include <wlr/render/allocator.h>
#include <wlr/render/pixman.h>
#include <wlr/types/wlr_compositor.h>
#include <wlr/types/wlr_data_device.h>
#include <wlr/types/wlr_keyboard.h>
#include <wlr/types/wlr_output.h>
#include <wlr/types/wlr_scene.h>
#include <wlr/types/wlr_seat.h>
#include <wlr/types/wlr_xdg_shell.h>
#include <wlr/util/log.h>
#include <xkbcommon/xkbcommon.h>

struct window {
	struct wlr_xdg_surface *xdg;
	bool mapped;
	struct wl_list link;
	struct wl_listener map, unmap, destroy, commit;
};

static struct {
	struct wl_display *display;
	struct wlr_renderer *renderer;
	struct wlr_allocator *allocator;
	struct wlr_scene *scene;
	struct wlr_scene_output *scene_output;
	struct wlr_seat *seat;
	struct wl_list windows, popups;
	struct wlim_glue *glue;
	struct wlr_input_device *own;   /* the keyboard that lines drive */
	struct wlr_input_device *other; /* has the keymap of a virtual keyboard, where that is another */
	uint32_t other_keymap;          /* its number */
	struct wl_listener new_output, frame, new_window, focus, key, modifiers, selection;
	char line[4096];
	size_t length;
} self;

/* ---- The keyboard, and the glue's hooks: what no grab has goes to the focused surface ---- */

static void set_keymap(struct wlr_input_device *device, const struct wlim_glue_keymap *from)
{
	struct xkb_context *context = xkb_context_new(XKB_CONTEXT_NO_FLAGS);
	struct xkb_keymap *keymap = from ?
		xkb_keymap_new_from_buffer(context, from->text, strnlen(from->text, from->size),
			XKB_KEYMAP_FORMAT_TEXT_V1, XKB_KEYMAP_COMPILE_NO_FLAGS) :
		xkb_keymap_new_from_names(context, NULL, XKB_KEYMAP_COMPILE_NO_FLAGS);
	if (keymap)
		wlr_keyboard_set_keymap(device->keyboard, keymap);
	xkb_keymap_unref(keymap);
	xkb_context_unref(context);
}

/* Clients are sent a keymap only where it is another one than before. */
static void set_keyboard(const struct wlim_glue_keymap *keymap)
{
	const struct wlim_glue_keymap *own = wlim_glue_own_keymap(self.glue);
	bool other = keymap && own && keymap->number != own->number;
	if (other && self.other_keymap != keymap->number) {
		set_keymap(self.other, keymap);
		self.other_keymap = keymap->number;
	}
	wlr_seat_set_keyboard(self.seat, other ? self.other : self.own);
}

static void send_key(void *data, const struct wlim_glue_keyboard *from, uint32_t time, uint32_t key, uint32_t state)
{
	(void)data;
	set_keyboard(from->keymap);
	wlr_seat_keyboard_notify_key(self.seat, time, key, state);
}

static void send_modifiers(void *data, const struct wlim_glue_keyboard *from)
{
	struct wlr_keyboard_modifiers modifiers = { from->depressed, from->latched, from->locked, from->group };
	(void)data;
	set_keyboard(from->keymap);
	wlr_seat_keyboard_notify_modifiers(self.seat, &modifiers);
}

/* ---- Popups: shown only where the glue has them placed ---- */

struct popup {
	struct wlr_surface *surface;
	struct wlr_scene_surface *shown;
	struct wl_list link;
	struct wl_listener commit, destroy;
};

static void on_popup_commit(struct wl_listener *listener, void *data)
{
	struct popup *popup = wl_container_of(listener, popup, commit);
	const struct wlr_surface_state *now = &popup->surface->current;
	(void)data;
	wlim_glue_popup_size(self.glue, popup->surface->resource, now->width, now->height);
}

static void on_popup_destroy(struct wl_listener *listener, void *data)
{
	struct popup *popup = wl_container_of(listener, popup, destroy);
	(void)data;
	wl_list_remove(&popup->link);
	wl_list_remove(&popup->commit.link);
	wl_list_remove(&popup->destroy.link);
	free(popup);
}

static const struct wlr_surface_role popup_role = { .name = "zwp_input_popup_surface_v2" };

static bool make_popup(void *data, struct wl_resource *resource)
{
	struct wlr_surface *surface = wlr_surface_from_resource(resource);
	struct popup *popup = surface->data;
	(void)data;
	if (surface->role == &popup_role)
		return popup; /* it was one before */
	if (!wlr_surface_set_role(surface, &popup_role, NULL, NULL, 0) || !(popup = calloc(1, sizeof *popup)))
		return false;
	surface->data = popup;
	popup->surface = surface;
	wl_list_insert(&self.popups, &popup->link);
	popup->shown = wlr_scene_surface_create(&self.scene->node, surface);
	wlr_scene_node_set_enabled(&popup->shown->node, false);
	popup->commit.notify = on_popup_commit;
	wl_signal_add(&surface->events.commit, &popup->commit);
	popup->destroy.notify = on_popup_destroy;
	wl_signal_add(&surface->events.destroy, &popup->destroy);
	return true;
}

static void place_popup(void *data, struct wl_resource *resource, int32_t x, int32_t y)
{
	struct popup *popup = wlr_surface_from_resource(resource)->data;
	(void)data;
	wlr_scene_node_set_position(&popup->shown->node, x, y);
	wlr_scene_node_raise_to_top(&popup->shown->node);
	wlr_scene_node_set_enabled(&popup->shown->node, true);
}

static void hide_popup(void *data, struct wl_resource *resource)
{
	struct popup *popup = wlr_surface_from_resource(resource)->data;
	(void)data;
	wlr_scene_node_set_enabled(&popup->shown->node, false);
}

/* ---- Who may be an input method: the user's programs, but none in a sandbox, which has other mounts ---- */

static bool is_trusted(void *data, struct wl_client *client)
{
	struct stat own, theirs;
	char mounts[64];
	pid_t process;
	uid_t user;
	(void)data;
	wl_client_get_credentials(client, &process, &user, NULL);
	snprintf(mounts, sizeof mounts, "/proc/%d/ns/mnt", (int)process);
	return user == getuid() && stat("/proc/self/ns/mnt", &own) == 0 && stat(mounts, &theirs) == 0 &&
		own.st_dev == theirs.st_dev && own.st_ino == theirs.st_ino;
}

static bool is_our_seat(void *data, struct wl_resource *resource)
{
	struct wlr_seat_client *client = wlr_seat_client_from_resource(resource);
	(void)data;
	return client && client->seat == self.seat;
}

static const struct wlim_glue_hooks hooks = {
	send_key, send_modifiers, make_popup, place_popup, hide_popup, is_trusted, is_our_seat,
};

static void on_key(struct wl_listener *listener, void *data)
{
	struct wlr_event_keyboard_key *event = data;
	(void)listener;
	wlim_glue_key(self.glue, event->time_msec, event->keycode, event->state);
}

static void on_modifiers(struct wl_listener *listener, void *data)
{
	struct wlr_keyboard_modifiers *now = &self.own->keyboard->modifiers;
	(void)listener, (void)data;
	wlim_glue_modifiers(self.glue, now->depressed, now->latched, now->locked, now->group);
}

/* The glue follows the keyboard focus of wlroots' seat. */
static void on_focus(struct wl_listener *listener, void *data)
{
	struct wlr_seat_keyboard_focus_change_event *event = data;
	(void)listener;
	wlim_glue_focus(self.glue, event->new_surface ? event->new_surface->resource : NULL);
}

/* Who copies, owns what is pasted. */
static void on_selection(struct wl_listener *listener, void *data)
{
	struct wlr_seat_request_set_selection_event *event = data;
	(void)listener;
	wlr_seat_set_selection(self.seat, event->source, event->serial);
}

static void add_keyboards(struct wlr_backend *backend)
{
	self.own = wlr_headless_add_input_device(backend, WLR_INPUT_DEVICE_KEYBOARD);
	self.other = wlr_headless_add_input_device(backend, WLR_INPUT_DEVICE_KEYBOARD);
	struct wlr_keyboard *keyboard = self.own->keyboard;
	set_keymap(self.own, NULL);
	wlr_keyboard_set_repeat_info(keyboard, 25, 600);
	wlr_seat_set_keyboard(self.seat, self.own);
	wlr_seat_set_capabilities(self.seat, WL_SEAT_CAPABILITY_KEYBOARD);
	wlim_glue_keymap(self.glue, WL_KEYBOARD_KEYMAP_FORMAT_XKB_V1, keyboard->keymap_fd, keyboard->keymap_size);
	wlim_glue_repeat(self.glue, 25, 600);
	self.key.notify = on_key;
	wl_signal_add(&keyboard->events.key, &self.key);
	self.modifiers.notify = on_modifiers;
	wl_signal_add(&keyboard->events.modifiers, &self.modifiers);
}

/* ---- Windows: the newest has the focus, until a line says otherwise ---- */

static void focus(struct window *to)
{
	struct window *window;
	wl_list_for_each(window, &self.windows, link)
		if (window->mapped)
			wlr_xdg_toplevel_set_activated(window->xdg, window == to);
	if (to)
		wlr_seat_keyboard_notify_enter(self.seat, to->xdg->surface, NULL, 0, &self.own->keyboard->modifiers);
	else
		wlr_seat_keyboard_notify_clear_focus(self.seat);
}

static void on_map(struct wl_listener *listener, void *data)
{
	struct window *window = wl_container_of(listener, window, map);
	(void)data;
	window->mapped = true;
	focus(window);
}

static void on_unmap(struct wl_listener *listener, void *data)
{
	struct window *window = wl_container_of(listener, window, unmap);
	(void)data;
	window->mapped = false;
	if (self.seat->keyboard_state.focused_surface == window->xdg->surface)
		focus(NULL);
}

static void on_commit(struct wl_listener *listener, void *data)
{
	struct window *window = wl_container_of(listener, window, commit);
	struct wlr_surface *surface = window->xdg->surface;
	(void)data;
	if (window->mapped)
		wlim_glue_area(self.glue, surface->resource, 0, 0, surface->current.width, surface->current.height);
}

static void on_window_destroy(struct wl_listener *listener, void *data)
{
	struct window *window = wl_container_of(listener, window, destroy);
	(void)data;
	wl_list_remove(&window->link);
	wl_list_remove(&window->map.link);
	wl_list_remove(&window->unmap.link);
	wl_list_remove(&window->commit.link);
	wl_list_remove(&window->destroy.link);
	free(window);
}

static void on_new_window(struct wl_listener *listener, void *data)
{
	struct wlr_xdg_surface *xdg = data;
	(void)listener;
	if (xdg->role == WLR_XDG_SURFACE_ROLE_POPUP) {
		struct wlr_xdg_surface *parent = wlr_xdg_surface_from_wlr_surface(xdg->popup->parent);
		xdg->data = wlr_scene_xdg_surface_create(parent->data, xdg);
		return;
	}
	struct window *window = calloc(1, sizeof *window);
	window->xdg = xdg;
	xdg->data = wlr_scene_xdg_surface_create(&self.scene->node, xdg);
	wl_list_insert(&self.windows, &window->link);
	window->map.notify = on_map;
	wl_signal_add(&xdg->events.map, &window->map);
	window->unmap.notify = on_unmap;
	wl_signal_add(&xdg->events.unmap, &window->unmap);
	window->destroy.notify = on_window_destroy;
	wl_signal_add(&xdg->events.destroy, &window->destroy);
	window->commit.notify = on_commit;
	wl_signal_add(&xdg->surface->events.commit, &window->commit);
}

/* ---- The output, which paints into memory ---- */

static void on_frame(struct wl_listener *listener, void *data)
{
	struct timespec now;
	(void)listener, (void)data;
	wlr_scene_output_commit(self.scene_output);
	clock_gettime(CLOCK_MONOTONIC, &now);
	wlr_scene_output_send_frame_done(self.scene_output, &now);
}

static void on_new_output(struct wl_listener *listener, void *data)
{
	struct wlr_output *output = data;
	(void)listener;
	wlr_output_init_render(output, self.allocator, self.renderer);
	self.scene_output = wlr_scene_output_create(self.scene, output);
	self.frame.notify = on_frame;
	wl_signal_add(&output->events.frame, &self.frame);
	wlr_output_create_global(output);
	wlr_output_enable(output, true);
	wlr_output_commit(output);
	wlim_glue_screen(self.glue, 0, 0, output->width, output->height);
}

/* ---- Lines ---- */

static const char *id_of(const struct window *window)
{
	const char *id = window->xdg->toplevel->app_id;
	return id ? id : "-";
}

static void focus_line(const char *id)
{
	struct window *window, *found = NULL;
	wl_list_for_each(window, &self.windows, link)
		if (window->mapped && strcmp(id_of(window), id) == 0)
			found = window;
	if (found)
		focus(found);
	puts(found ? "ok" : "no");
}

static void key_line(uint32_t code, uint32_t state)
{
	struct timespec now;
	clock_gettime(CLOCK_MONOTONIC, &now);
	struct wlr_event_keyboard_key event = {
		.time_msec = now.tv_sec * 1000 + now.tv_nsec / 1000000,
		.keycode = code,
		.update_state = true,
		.state = state ? WL_KEYBOARD_KEY_STATE_PRESSED : WL_KEYBOARD_KEY_STATE_RELEASED,
	};
	wlr_keyboard_notify_key(self.own->keyboard, &event);
	puts("ok");
}

static void look_line(void)
{
	struct wlim_shown shown = { 0 };
	wlim_glue_look(self.glue, &shown);
	printf("%u %u %u\n", shown.holder, shown.serving, shown.standing);
}

static void popups_line(void)
{
	struct popup *popup;
	wl_list_for_each(popup, &self.popups, link) {
		const struct wlr_scene_node *node = &popup->shown->node;
		const struct wlr_surface_state *is = &popup->surface->current;
		if (node->state.enabled && popup->surface->buffer)
			printf("%d %d %d %d;", node->state.x, node->state.y, is->width, is->height);
	}
	puts("");
}

static void take_line(const char *line)
{
	char id[256];
	unsigned code, state;
	struct window *window;
	if (sscanf(line, "focus %255s", id) == 1) {
		focus_line(id);
	} else if (strcmp(line, "unfocus") == 0) {
		focus(NULL);
		puts("ok");
	} else if (sscanf(line, "key %u %u", &code, &state) == 2) {
		key_line(code, state);
	} else if (strcmp(line, "look") == 0) {
		look_line();
	} else if (strcmp(line, "popups") == 0) {
		popups_line();
	} else if (strcmp(line, "windows") == 0) {
		wl_list_for_each(window, &self.windows, link)
			if (window->mapped)
				printf("%s ", id_of(window));
		puts("");
	} else {
		wl_display_terminate(self.display);
	}
	fflush(stdout);
}

static int on_input(int file, uint32_t mask, void *data)
{
	ssize_t got = read(file, self.line + self.length, sizeof self.line - 1 - self.length);
	char *end;
	(void)mask, (void)data;
	if (got <= 0)
		wl_display_terminate(self.display);
	else
		self.length += got;
	while ((end = memchr(self.line, '\n', self.length))) {
		*end = 0;
		take_line(self.line);
		self.length -= end + 1 - self.line;
		memmove(self.line, end + 1, self.length);
	}
	return 0;
}

int main(void)
{
	wlr_log_init(WLR_ERROR, NULL);
	self.display = wl_display_create();
	struct wlr_backend *backend = wlr_headless_backend_create(self.display);
	self.renderer = wlr_pixman_renderer_create();
	wlr_renderer_init_wl_display(self.renderer, self.display);
	self.allocator = wlr_allocator_autocreate(backend, self.renderer);
	wlr_compositor_create(self.display, self.renderer);
	wlr_data_device_manager_create(self.display);
	self.scene = wlr_scene_create();
	wl_list_init(&self.windows);
	wl_list_init(&self.popups);
	self.seat = wlr_seat_create(self.display, "seat0");
	self.glue = wlim_glue_create(self.display, &hooks, NULL);
	if (!self.glue)
		return 1;
	self.focus.notify = on_focus;
	wl_signal_add(&self.seat->keyboard_state.events.focus_change, &self.focus);
	self.selection.notify = on_selection;
	wl_signal_add(&self.seat->events.request_set_selection, &self.selection);
	self.new_window.notify = on_new_window;
	wl_signal_add(&wlr_xdg_shell_create(self.display)->events.new_surface, &self.new_window);
	self.new_output.notify = on_new_output;
	wl_signal_add(&backend->events.new_output, &self.new_output);
	add_keyboards(backend);
	wlr_headless_add_output(backend, 800, 600);
	const char *socket = wl_display_add_socket_auto(self.display);
	if (!socket || !wlr_backend_start(backend))
		return 1;
	struct wl_event_source *input = wl_event_loop_add_fd(wl_display_get_event_loop(self.display), STDIN_FILENO,
		WL_EVENT_READABLE, on_input, NULL);
	printf("ready %s\n", socket);
	fflush(stdout);
	wl_display_run(self.display);
	wl_event_source_remove(input);
	wl_display_destroy_clients(self.display);
	wlim_glue_destroy(self.glue);
	wl_display_destroy(self.display);
	return 0;
}
