/* Windows, plain surfaces, and what the keyboard tells of them. */
#define _GNU_SOURCE
#include "client.h"
#include "xdg-shell-client-protocol.h"
#include <stdlib.h>
#include <string.h>
#include <sys/mman.h>
#include <unistd.h>

/* ---- Keyboard ---- */

static void keymap(void *data, struct wl_keyboard *of, uint32_t format, int32_t file, uint32_t size)
{
	(void)data, (void)of;
	close(file);
	told_seat("keymap %u %u", format, size);
}

static void enter(void *data, struct wl_keyboard *of, uint32_t serial, struct wl_surface *surface,
	struct wl_array *keys)
{
	(void)data, (void)of, (void)serial, (void)keys;
	told_seat("enter %s", surface_name(surface));
}

static void leave(void *data, struct wl_keyboard *of, uint32_t serial, struct wl_surface *surface)
{
	(void)data, (void)of, (void)serial;
	told_seat("leave %s", surface_name(surface));
}

static void key(void *data, struct wl_keyboard *of, uint32_t serial, uint32_t time, uint32_t key, uint32_t state)
{
	(void)data, (void)of, (void)serial, (void)time;
	told_seat("key %u %u", key, state);
}

static void modifiers(void *data, struct wl_keyboard *of, uint32_t serial, uint32_t depressed, uint32_t latched,
	uint32_t locked, uint32_t group)
{
	(void)data, (void)of, (void)serial;
	told_seat("modifiers %u %u %u %u", depressed, latched, locked, group);
}

static void repeat_info(void *data, struct wl_keyboard *of, int32_t rate, int32_t delay)
{
	(void)data, (void)of, (void)rate, (void)delay;
}

static const struct wl_keyboard_listener keyboard_events = { keymap, enter, leave, key, modifiers, repeat_info };

static void capabilities(void *data, struct wl_seat *seat, uint32_t has)
{
	(void)data;
	if ((has & WL_SEAT_CAPABILITY_KEYBOARD) && !self.keyboard) {
		self.keyboard = wl_seat_get_keyboard(seat);
		wl_keyboard_add_listener(self.keyboard, &keyboard_events, NULL);
	}
}

static void seat_name(void *data, struct wl_seat *seat, const char *name)
{
	(void)data, (void)seat, (void)name;
}

static const struct wl_seat_listener seat_events = { capabilities, seat_name };

void keyboard_begin(struct wl_seat *seat)
{
	wl_seat_add_listener(seat, &seat_events, NULL);
}

/* ---- Windows ---- */

static void ping(void *data, struct xdg_wm_base *of, uint32_t serial)
{
	(void)data;
	xdg_wm_base_pong(of, serial);
}

const struct xdg_wm_base_listener shell_events = { ping };

/* Pixels of one colour, of the window's size. */
static struct wl_buffer *pixels(int32_t width, int32_t height)
{
	int32_t size = width * height * 4;
	int file = memfd_create("pixels", MFD_CLOEXEC);
	if (file < 0 || ftruncate(file, size) < 0)
		return NULL;
	struct wl_shm_pool *pool = wl_shm_create_pool(self.memory, file, size);
	struct wl_buffer *buffer = wl_shm_pool_create_buffer(pool, 0, width, height, width * 4, WL_SHM_FORMAT_XRGB8888);
	wl_shm_pool_destroy(pool);
	close(file);
	return buffer;
}

static void xdg_configure(void *data, struct xdg_surface *xdg, uint32_t serial)
{
	struct thing *window = data;
	xdg_surface_ack_configure(xdg, serial);
	struct wl_surface *surface = (struct wl_surface *)window->proxy;
	struct wl_buffer *had = window->buffer;
	window->buffer = pixels(window->width, window->height);
	wl_surface_attach(surface, window->buffer, 0, 0);
	wl_surface_damage(surface, 0, 0, window->width, window->height);
	wl_surface_commit(surface);
	wl_display_flush(self.display);
	if (had)
		wl_buffer_destroy(had);
	if (!window->mapped)
		told(window, "mapped");
	window->mapped = true;
}

static const struct xdg_surface_listener xdg_events = { xdg_configure };

static void top_configure(void *data, struct xdg_toplevel *top, int32_t width, int32_t height, struct wl_array *states)
{
	struct thing *window = data;
	(void)top, (void)states;
	window->width = width > 0 ? width : 64;
	window->height = height > 0 ? height : 64;
}

static void top_close(void *data, struct xdg_toplevel *top)
{
	(void)data, (void)top;
}

static const struct xdg_toplevel_listener top_events = { .configure = top_configure, .close = top_close };

static struct thing *surface_new(const char *name, enum kind kind)
{
	struct thing *thing = thing_new(name, kind);
	struct wl_surface *surface = wl_compositor_create_surface(self.compositor);
	wl_surface_set_user_data(surface, thing);
	thing->proxy = (struct wl_proxy *)surface;
	return thing;
}

static void window_line(struct thing *of, char **words)
{
	const char *name = words[1];
	struct thing *window = surface_new(name, WINDOW);
	(void)of;
	window->width = window->height = 64;
	window->xdg = xdg_wm_base_get_xdg_surface(self.shell, (struct wl_surface *)window->proxy);
	xdg_surface_add_listener(window->xdg, &xdg_events, window);
	window->top = xdg_surface_get_toplevel(window->xdg);
	xdg_toplevel_add_listener(window->top, &top_events, window);
	xdg_toplevel_set_app_id(window->top, name);
	xdg_toplevel_set_title(window->top, name);
	wl_surface_commit((struct wl_surface *)window->proxy);
}

static void close_line(struct thing *window, char **words)
{
	(void)words;
	if (window->top)
		xdg_toplevel_destroy(window->top);
	if (window->xdg)
		xdg_surface_destroy(window->xdg);
	if (window->proxy)
		wl_surface_destroy((struct wl_surface *)window->proxy);
	window->top = NULL;
	window->xdg = NULL;
	window->proxy = NULL;
}

/* Gives a surface without a role a buffer, as a popup's has. */
static void paint_line(struct thing *surface, char **words)
{
	(void)words;
	struct wl_surface *of = (struct wl_surface *)surface->proxy;
	surface->buffer = pixels(20, 10);
	wl_surface_attach(of, surface->buffer, 0, 0);
	wl_surface_damage(of, 0, 0, 20, 10);
	wl_surface_commit(of);
}

static void surface_line(struct thing *of, char **words)
{
	(void)of;
	surface_new(words[1], SURFACE);
}

const struct row window_rows[] = {
	{ "window", 2, NEW, window_line }, { "surface", 2, NEW, surface_line }, { "paint", 2, SURFACE, paint_line },
	{ "close", 2, ANY, close_line }, { 0 },
};
