/*
 * A client of tests/embed_glue.c: its objects, and each event that it is told as a line, under its name.
 */
#ifndef EMBED_CLIENTS_H
#define EMBED_CLIENTS_H

#include "input-method-unstable-v2-client-protocol.h"
#include "text-input-unstable-v3-client-protocol.h"
#include "virtual-keyboard-unstable-v1-client-protocol.h"
#include <stdarg.h>
#include <stdbool.h>
#include <stdio.h>
#include <string.h>
#include <unistd.h>
#include <wayland-client.h>
#include <wayland-server-core.h>

static char told[1 << 16]; /* the lines */

static void say(const char *form, ...)
{
	size_t at = strlen(told);
	va_list of;
	va_start(of, form);
	vsnprintf(told + at, sizeof told - at, form, of);
	va_end(of);
}

struct client {
	const char *name;
	struct wl_client *server;
	struct wl_display *display;
	struct wl_registry *registry;
	struct wl_compositor *compositor;
	struct wl_seat *seat, *other_seat;
	struct zwp_text_input_manager_v3 *fields;
	struct zwp_input_method_manager_v2 *methods;
	struct zwp_virtual_keyboard_manager_v1 *boards;
	struct wl_surface *surface;
	struct wl_resource *at; /* the surface, at the compositor */
	struct zwp_text_input_v3 *field;
	struct zwp_input_method_v2 *method;
	struct zwp_input_method_keyboard_grab_v2 *grab;
	struct zwp_input_popup_surface_v2 *popup;
	struct zwp_virtual_keyboard_v1 *board;
	struct wl_proxy *earlier[80]; /* what it has besides of fields, methods and boards */
	int earlier_count;
	struct wl_listener gone;
	bool dead;
};

#define NAME (((struct client *)data)->name)

static void enter(void *data, struct zwp_text_input_v3 *of, struct wl_surface *s)
{
	(void)of, (void)s;
	say("%s enter\n", NAME);
}

static void leave(void *data, struct zwp_text_input_v3 *of, struct wl_surface *s)
{
	(void)of, (void)s;
	say("%s leave\n", NAME);
}

static void preedit(void *data, struct zwp_text_input_v3 *of, const char *text, int32_t begin, int32_t end)
{
	(void)of;
	say("%s preedit %s %d %d\n", NAME, text, begin, end);
}

static void string(void *data, struct zwp_text_input_v3 *of, const char *text)
{
	(void)of;
	say("%s string %s\n", NAME, text);
}

static void delete(void *data, struct zwp_text_input_v3 *of, uint32_t before, uint32_t after)
{
	(void)of;
	say("%s delete %u %u\n", NAME, before, after);
}

static void done(void *data, struct zwp_text_input_v3 *of, uint32_t serial)
{
	(void)of;
	say("%s done %u\n", NAME, serial);
}

static const struct zwp_text_input_v3_listener field_events = { enter, leave, preedit, string, delete, done };

static void activate(void *data, struct zwp_input_method_v2 *of)
{
	(void)of;
	say("%s activate\n", NAME);
}

static void deactivate(void *data, struct zwp_input_method_v2 *of)
{
	(void)of;
	say("%s deactivate\n", NAME);
}

static void surrounding(void *data, struct zwp_input_method_v2 *of, const char *text, uint32_t cursor, uint32_t anchor)
{
	(void)of;
	say("%s surrounding %s %u %u\n", NAME, text, cursor, anchor);
}

static void cause(void *data, struct zwp_input_method_v2 *of, uint32_t cause)
{
	(void)of;
	say("%s cause %u\n", NAME, cause);
}

static void content(void *data, struct zwp_input_method_v2 *of, uint32_t hint, uint32_t purpose)
{
	(void)of;
	say("%s content %u %u\n", NAME, hint, purpose);
}

static void method_done(void *data, struct zwp_input_method_v2 *of)
{
	(void)of;
	say("%s done\n", NAME);
}

static void unavailable(void *data, struct zwp_input_method_v2 *of)
{
	(void)of;
	say("%s unavailable\n", NAME);
}

static const struct zwp_input_method_v2_listener method_events = {
	activate, deactivate, surrounding, cause, content, method_done, unavailable,
};

static void grab_keymap(void *data, struct zwp_input_method_keyboard_grab_v2 *of, uint32_t format, int32_t file,
	uint32_t size)
{
	char text[64] = { 0 };
	(void)of;
	if (pread(file, text, size, 0) < 0)
		say("unreadable ");
	close(file);
	say("%s keymap %u %s\n", NAME, format, text);
}

static void grab_key(void *data, struct zwp_input_method_keyboard_grab_v2 *of, uint32_t serial, uint32_t time,
	uint32_t key, uint32_t state)
{
	(void)of, (void)serial, (void)time;
	say("%s key %u %u\n", NAME, key, state);
}

static void grab_mods(void *data, struct zwp_input_method_keyboard_grab_v2 *of, uint32_t serial, uint32_t depressed,
	uint32_t latched, uint32_t locked, uint32_t group)
{
	(void)of, (void)serial;
	say("%s mods %u %u %u %u\n", NAME, depressed, latched, locked, group);
}

static void grab_repeat(void *data, struct zwp_input_method_keyboard_grab_v2 *of, int32_t rate, int32_t delay)
{
	(void)of;
	say("%s repeat %d %d\n", NAME, rate, delay);
}

static const struct zwp_input_method_keyboard_grab_v2_listener grab_events = {
	grab_keymap, grab_key, grab_mods, grab_repeat,
};

static void rectangle(void *data, struct zwp_input_popup_surface_v2 *of, int32_t x, int32_t y, int32_t width,
	int32_t height)
{
	(void)of;
	say("%s rectangle %d %d %d %d\n", NAME, x, y, width, height);
}

static const struct zwp_input_popup_surface_v2_listener popup_events = { rectangle };

static void global(void *data, struct wl_registry *registry, uint32_t name, const char *interface, uint32_t version)
{
	struct client *client = data;
	(void)version;
	if (!strcmp(interface, wl_compositor_interface.name))
		client->compositor = wl_registry_bind(registry, name, &wl_compositor_interface, 1);
	else if (!strcmp(interface, wl_seat_interface.name))
		*(client->seat ? &client->other_seat : &client->seat) =
			wl_registry_bind(registry, name, &wl_seat_interface, 1);
	else if (!strcmp(interface, zwp_text_input_manager_v3_interface.name))
		client->fields = wl_registry_bind(registry, name, &zwp_text_input_manager_v3_interface, 1);
	else if (!strcmp(interface, zwp_input_method_manager_v2_interface.name))
		client->methods = wl_registry_bind(registry, name, &zwp_input_method_manager_v2_interface, 1);
	else if (!strcmp(interface, zwp_virtual_keyboard_manager_v1_interface.name))
		client->boards = wl_registry_bind(registry, name, &zwp_virtual_keyboard_manager_v1_interface, 1);
}

static void global_gone(void *data, struct wl_registry *registry, uint32_t name)
{
	(void)data, (void)registry, (void)name;
}

static const struct wl_registry_listener registry_events = { global, global_gone };

#endif
