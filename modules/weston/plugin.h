/*
 * wlim.so, a plug-in for Weston. One Weston has one, so what it keeps is here, once.
 *
 * The plug-in serves one seat, Weston's first. Weston doesn't signal all that changes there, as what goes to another
 * grab, so `follow` tells the glue what stands, at each occasion; what it knows already it takes for nothing.
 */
#ifndef WLIM_PLUGIN_H
#define WLIM_PLUGIN_H

#include "wlim_glue.h"
#include <libweston/libweston.h>

struct box {
	int32_t x, y, width, height;
};

extern struct plugin {
	struct weston_compositor *compositor;
	struct wlim_glue *glue;
	struct weston_seat *seat; /* NULL: there is none, or it has no keyboard */
	struct weston_keyboard *keyboard;
} plugin;

static inline void listen_to(struct wl_signal *signal, struct wl_listener *listener, wl_notify_func_t notify)
{
	listener->notify = notify;
	wl_signal_add(signal, listener);
}

/* ---- keyboard.c: what the keyboard does, and where its focus is ---- */

/* The hooks of keys that no grab has. */
void keyboard_key(void *data, const struct wlim_glue_keyboard *from, uint32_t time, uint32_t key, uint32_t state);
void keyboard_modifiers(void *data, const struct wlim_glue_keyboard *from);

/* Takes the seat's keyboard into service, and gives it back as it was; `dead`, it has gone already. */
void keyboard_take(struct weston_keyboard *keyboard);
void keyboard_give_back(bool dead);

/* The surface was moved, or another was: menus are among them. */
void keyboard_moved(struct weston_surface *surface);

/* ---- popups.c: an input method's own windows ---- */

/* The hooks of popups. */
bool popup_make(void *data, struct wl_resource *surface);
void popup_placed(void *data, struct wl_resource *surface, int32_t x, int32_t y);
void popup_hidden(void *data, struct wl_resource *surface);

void popups_start(void);
void popups_end(void);

/* ---- weston_10.c: what other versions of Weston have otherwise ---- */

/* Where a shown surface stands, and its output: false, it isn't shown. */
bool weston_place_of(struct weston_surface *surface, struct box *at, struct box *output);

/* Shows a view of a popup at a place, in the layer of popups; hides all views of a surface. */
void weston_show(struct weston_view *view, struct weston_layer *layer, int32_t x, int32_t y);
void weston_hide(struct weston_surface *surface);

/* Calls at each commit of the surface; NULL: none any more. False: another listens there. */
bool weston_on_commit(struct weston_surface *surface, void (*committed)(void *data), void *data);

/* What was given there with this call; NULL where another or none listens. */
void *weston_committed_data(struct weston_surface *surface, void (*committed)(void *data));

#endif
