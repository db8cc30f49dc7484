/*
 * The seat's keyboard. What Weston's default grab does with keys is replaced, so that Weston's bindings and its other
 * grabs, as the switcher, come first; the glue says which of the rest go to the focused clients.
 */
#define _GNU_SOURCE
#include "plugin.h"
#include <dlfcn.h>
#include <stdlib.h>
#include <string.h>
#include <unistd.h>

#define DOWN_MOST 256
#define NO_KEY UINT32_MAX

static const struct weston_keyboard_grab_interface *weston_keys; /* Weston's own default grab */
static const struct timespec *now; /* of the seat's key in hand */
static uint32_t time_of_last;
static struct xkb_keymap *keymap; /* told to the glue; a reference, so that no other has its address */
static struct weston_surface *focus;
static bool focus_refused;
static uint32_t shown; /* which virtual keyboard's keymap the focused clients have; 0 is Weston's */
static struct wl_listener focus_changed;

/* ---- What no grab has: to the focused clients ---- */

static uint32_t next_serial(void)
{
	return wl_display_next_serial(plugin.compositor->wl_display);
}

static void send_keymap(struct wl_resource *resource, const struct wlim_glue_keymap *from)
{
	int file = wlim_glue_keymap_file(from);
	if (file < 0) {
		wl_resource_post_no_memory(resource);
		return;
	}
	wl_keyboard_send_keymap(resource, from->format, file, from->size);
	close(file);
}

static bool is_own(const struct wlim_glue_keymap *from)
{
	const struct wlim_glue_keymap *own = wlim_glue_own_keymap(plugin.glue);
	return !from || !own || from->number == own->number;
}

static void use_keymap(const struct wlim_glue_keymap *from)
{
	struct wl_resource *resource;
	uint32_t number = is_own(from) ? 0 : from->number;
	if (shown == number)
		return;
	shown = number;
	wl_resource_for_each(resource, &plugin.keyboard->focus_resource_list) {
		if (number)
			send_keymap(resource, from);
		else
			weston_keyboard_send_keymap(plugin.keyboard, resource);
	}
}

void keyboard_key(void *data, const struct wlim_glue_keyboard *from, uint32_t time, uint32_t key, uint32_t state)
{
	const struct timespec at = { time / 1000, time % 1000 * 1000000 };
	(void)data, (void)from;
	if (!plugin.keyboard)
		return;
	weston_keyboard_send_key(plugin.keyboard, now ? now : &at, key, state);
	/* A client may open a menu by the serial of a key that a method gave back. */
	if (!now)
		plugin.keyboard->grab_serial = wl_display_get_serial(plugin.compositor->wl_display);
}

void keyboard_modifiers(void *data, const struct wlim_glue_keyboard *from)
{
	(void)data;
	if (!plugin.keyboard)
		return;
	use_keymap(from->keymap);
	weston_keyboard_send_modifiers(plugin.keyboard, next_serial(), from->depressed, from->latched, from->locked,
		from->group);
}

/* ---- Following Weston ---- */

static void follow_keymap(void)
{
	struct xkb_keymap *is = plugin.keyboard->xkb_info->keymap;
	if (keymap == is)
		return;
	char *text = xkb_keymap_get_as_string(is, XKB_KEYMAP_FORMAT_TEXT_V1);
	if (!text)
		return;
	struct wlim_glue_keymap told = { 0, WL_KEYBOARD_KEYMAP_FORMAT_XKB_V1, (uint32_t)strlen(text) + 1, text };
	int file = wlim_glue_keymap_file(&told);
	if (file >= 0 && wlim_glue_keymap(plugin.glue, told.format, file, told.size)) {
		xkb_keymap_unref(keymap);
		keymap = xkb_keymap_ref(is);
		shown = 0; /* Weston has sent it to all */
	}
	if (file >= 0)
		close(file);
	free(text);
}

/* Releases that went elsewhere are found: to another grab, or the host took the focus. The key in hand is as before. */
static void follow_keys(uint32_t in_hand, bool was_down)
{
	uint32_t down[DOWN_MOST + 1], count = 0;
	const uint32_t *key;
	wl_array_for_each(key, &plugin.keyboard->keys)
		if (*key != in_hand && count < DOWN_MOST)
			down[count++] = *key;
	if (was_down)
		down[count++] = in_hand;
	wlim_glue_keys(plugin.glue, time_of_last, down, count);
}

static void follow_modifiers(void)
{
	const struct weston_keyboard *is = plugin.keyboard;
	wlim_glue_modifiers(plugin.glue, is->modifiers.mods_depressed, is->modifiers.mods_latched,
		is->modifiers.mods_locked, is->modifiers.group);
}

static void follow_focus(void)
{
	struct weston_surface *is = plugin.keyboard->focus;
	if (focus == is && !focus_refused)
		return;
	focus = is;
	focus_refused = !wlim_glue_focus(plugin.glue, is ? is->resource : NULL);
}

static void follow_place(void)
{
	struct box at, output;
	if (!focus || !weston_place_of(focus, &at, &output))
		return;
	wlim_glue_screen(plugin.glue, output.x, output.y, output.width, output.height);
	wlim_glue_area(plugin.glue, focus->resource, at.x, at.y, at.width, at.height);
}

static void follow(uint32_t in_hand, bool was_down)
{
	follow_keymap();
	follow_keys(in_hand, was_down);
	follow_modifiers();
	follow_focus();
	follow_place();
}

static void grab_key(struct weston_keyboard_grab *grab, const struct timespec *time, uint32_t key, uint32_t state)
{
	(void)grab;
	time_of_last = (uint32_t)(time->tv_sec * 1000 + time->tv_nsec / 1000000);
	follow(key, state == WL_KEYBOARD_KEY_STATE_RELEASED);
	now = time;
	wlim_glue_key(plugin.glue, time_of_last, key, state);
	now = NULL;
}

static void grab_modifiers(struct weston_keyboard_grab *grab, uint32_t serial, uint32_t depressed, uint32_t latched,
	uint32_t locked, uint32_t group)
{
	(void)grab, (void)serial, (void)depressed, (void)latched, (void)locked, (void)group;
	follow(NO_KEY, false);
}

static void grab_cancel(struct weston_keyboard_grab *grab)
{
	(void)grab;
	follow(NO_KEY, false);
}

static const struct weston_keyboard_grab_interface wlim_keys = { grab_key, grab_modifiers, grab_cancel };

static void on_focus_changed(struct wl_listener *listener, void *data)
{
	struct weston_keyboard *keyboard = data;
	struct wl_resource *resource;
	(void)listener;
	/* Who loses the focus has the keymap of a virtual keyboard, and may gain it again. */
	if (shown) {
		shown = 0;
		wl_resource_for_each(resource, &keyboard->resource_list)
			weston_keyboard_send_keymap(keyboard, resource);
		wl_resource_for_each(resource, &keyboard->focus_resource_list)
			weston_keyboard_send_keymap(keyboard, resource);
		weston_keyboard_send_modifiers(keyboard, next_serial(), keyboard->modifiers.mods_depressed,
			keyboard->modifiers.mods_latched, keyboard->modifiers.mods_locked, keyboard->modifiers.group);
	}
	follow(NO_KEY, false);
}

/*
 * While a menu or popover is open, libweston-desktop's grab sends keys to the focused client past the default grab. The
 * keyboard's part of it does nothing else, and its end looks whether it still stands; so it ends as soon as the menu is
 * shown. The pointer's part still closes menus.
 */
static void end_menu_grab(struct weston_keyboard *keyboard)
{
	Dl_info from;
	if (keyboard->grab != &keyboard->default_grab && dladdr(keyboard->grab->interface, &from) &&
			strstr(from.dli_fname, "/libweston-desktop"))
		weston_keyboard_end_grab(keyboard);
}

void keyboard_moved(struct weston_surface *surface)
{
	if (!plugin.keyboard)
		return;
	end_menu_grab(plugin.keyboard);
	if (surface == focus)
		follow_place();
}

void keyboard_take(struct weston_keyboard *keyboard)
{
	plugin.keyboard = keyboard;
	weston_keys = keyboard->default_grab.interface;
	keyboard->default_grab.interface = &wlim_keys;
	listen_to(&keyboard->focus_signal, &focus_changed, on_focus_changed);
	follow(NO_KEY, false);
}

void keyboard_give_back(bool dead)
{
	if (!plugin.keyboard)
		return;
	if (!dead) {
		wl_list_remove(&focus_changed.link);
		plugin.keyboard->default_grab.interface = weston_keys;
	}
	plugin.keyboard = NULL;
	focus = NULL;
	wlim_glue_keys(plugin.glue, time_of_last, NULL, 0);
	wlim_glue_focus(plugin.glue, NULL);
}
