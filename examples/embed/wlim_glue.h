/*
 * libwlim over libwayland-server: zwp_text_input_manager_v3, zwp_input_method_manager_v2 and
 * zwp_virtual_keyboard_manager_v1 for one wl_seat of a display. Copy this file and wlim_glue.c into your compositor;
 * protocols.sh makes the headers that they include.
 *
 * You say where the keyboard focus is and what the keyboard does; you are called with what no input method grabbed.
 * Which edit goes to which field libwlim decides; the rest of a compositor's part, as docs/EMBEDDING.md lists it, is
 * here.
 */
#ifndef WLIM_GLUE_H
#define WLIM_GLUE_H

#include <stdbool.h>
#include <stdint.h>
#include <wayland-server-core.h>
#include <wlim.h>

/* A keymap, of your keyboard or of a virtual one: `text` has `size` bytes, and a zero after. */
struct wlim_glue_keymap {
	uint32_t number; /* from 1; the same number is the same keymap */
	uint32_t format; /* as of wl_keyboard.keymap */
	uint32_t size;
	char *text;
};

/* Your keyboard or a virtual one, as it stands. */
struct wlim_glue_keyboard {
	const struct wlim_glue_keymap *keymap; /* NULL: it has none */
	uint32_t depressed, latched, locked, group;
};

/* What you are called with. None of these may call the glue, but wlim_glue_own_keymap and _file. */
struct wlim_glue_hooks {
	/* A key that no grab has: send it to the focused surface. Its keyboard is the one of the last `modifiers`, or
	 * yours where none came since the focus moved. */
	void (*key)(void *data, const struct wlim_glue_keyboard *from, uint32_t time, uint32_t key, uint32_t state);
	/* The focused surface reads keys by this keyboard now: send it the keymap, where that has another number than the
	 * one it has, and then the modifiers. */
	void (*modifiers)(void *data, const struct wlim_glue_keyboard *from);
	/* A surface becomes a popup of a method: false where it has another role. NULL: each may. */
	bool (*popup)(void *data, struct wl_resource *surface);
	/* Show a popup's surface here, in your coordinates. NULL: you show none. */
	void (*placed)(void *data, struct wl_resource *surface, int32_t x, int32_t y);
	/* Hide one that was placed: its method, its field, that one's cursor or the popup ended. */
	void (*hidden)(void *data, struct wl_resource *surface);
	/* Whether a client may be an input method and a virtual keyboard, and so see and type all: asked where it binds
	 * their globals. To others the method is unavailable, and the keyboard an error. NULL: none may. */
	bool (*trusted)(void *data, struct wl_client *client);
	/* Whether a wl_seat is the one that you tell of. NULL: the display has one. */
	bool (*seat)(void *data, struct wl_resource *seat);
};

struct wlim_glue;

/*
 * Opens a seat and offers the three globals, in version 1: create no others of these. NULL: there is no memory. A
 * client counts from its first text input, input method or virtual keyboard. At most 64 count, with 256 objects each;
 * applications leave 8 of these places to trusted clients, and those of one process have 16. One too many: its text
 * inputs do nothing, its method is unavailable. An object too many: the client is ended with an error.
 */
struct wlim_glue *wlim_glue_create(struct wl_display *display, const struct wlim_glue_hooks *hooks, void *data);

/* The same with other limits. */
struct wlim_glue *wlim_glue_create_with(struct wl_display *display,
	const struct wlim_glue_hooks *hooks, void *data, uint32_t clients, uint32_t objects);

/* Comes before wl_display_destroy. What clients have then does nothing any more. */
void wlim_glue_destroy(struct wlim_glue *glue);

/* Whether a global is for trusted clients: for wl_display_set_global_filter, to hide it from others. */
bool wlim_glue_is_for_methods(const struct wlim_glue *glue, const struct wl_global *global);

/*
 * Takes a new seat in the place of one that took many acts: clients see a leave and an enter, and the releases of
 * keys that are down pass. The glue does it before the seat's last act. False: there is no memory, and all is as
 * before.
 */
bool wlim_glue_renew(struct wlim_glue *glue);

/* What stands on the seat now. */
bool wlim_glue_look(struct wlim_glue *glue, struct wlim_shown *shown);

/* Of all below, false: there is no memory, and all is as before. Then call again. What you told of a state, as an area
 * or modifiers, is nothing where it is told again: tell it as often as you like. */

/* The keyboard focus goes to a wl_surface, or with NULL is taken away. Where it is false it is taken away, as far as
 * there is memory, so that no field keeps the seat. */
bool wlim_glue_focus(struct wlim_glue *glue, struct wl_resource *surface);

/* Your keyboard: each key and all modifiers, also those that pass; state is 0 or 1. A press of a key that is down comes
 * after a release of it. */
bool wlim_glue_key(struct wlim_glue *glue, uint32_t time, uint32_t key, uint32_t state);
bool wlim_glue_modifiers(struct wlim_glue *glue, uint32_t depressed, uint32_t latched, uint32_t locked, uint32_t group);

/* No other keys are down, before the key in hand: those whose release you didn't see, or a binding took, are released. */
bool wlim_glue_keys(struct wlim_glue *glue, uint32_t time, const uint32_t *keys, uint32_t count);

/* Its keymap, which is read and copied; the file stays yours. Also false: it can't be read. */
bool wlim_glue_keymap(struct wlim_glue *glue, uint32_t format, int file, uint32_t size);
const struct wlim_glue_keymap *wlim_glue_own_keymap(const struct wlim_glue *glue);
bool wlim_glue_repeat(struct wlim_glue *glue, int32_t rate, int32_t delay);

/* A new file with a keymap, for one client, which it can't make shorter; it is yours. -1: none. */
int wlim_glue_keymap_file(const struct wlim_glue_keymap *keymap);

/* Where the focused wl_surface stands, others as you like, and its output: popups are placed by them. In your
 * coordinates, of pixels that are logical ones. */
bool wlim_glue_area(struct wlim_glue *glue, struct wl_resource *surface, int32_t x, int32_t y,
	int32_t width, int32_t height);
bool wlim_glue_screen(struct wlim_glue *glue, int32_t x, int32_t y, int32_t width, int32_t height);

/* How large a popup's surface is: at each commit of it. Without it a popup isn't kept inside. */
bool wlim_glue_popup_size(struct wlim_glue *glue, struct wl_resource *surface, int32_t width, int32_t height);

#endif
