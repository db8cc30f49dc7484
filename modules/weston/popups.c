/* An input method's own windows, as that of the candidates: each is a view in a layer over all windows, shown where the
 * glue has it placed and its surface has a buffer. */
#include "plugin.h"
#include <stdio.h>
#include <stdlib.h>

struct popup {
	struct weston_surface *surface;
	struct weston_view *view;
	bool placed;
	int32_t x, y;
	struct wl_list link;
	struct wl_listener surface_destroyed;
};

static struct weston_layer layer;
static struct wl_list popups;

static void show(struct popup *popup)
{
	if (popup->placed && popup->surface->width > 0)
		weston_show(popup->view, &layer, popup->x, popup->y);
}

/* Where it stands depends on its size. Without a buffer Weston has unmapped it. */
static void committed(void *data)
{
	struct popup *popup = data;
	struct weston_surface *surface = popup->surface;
	wlim_glue_popup_size(plugin.glue, surface->resource, surface->width, surface->height);
	show(popup);
}

static struct popup *popup_of(struct wl_resource *resource)
{
	return weston_committed_data(wl_resource_get_user_data(resource), committed);
}

static int label_of(struct weston_surface *surface, char *text, size_t size)
{
	(void)surface;
	return snprintf(text, size, "popup of an input method");
}

static void popup_destroy(struct popup *popup)
{
	wl_list_remove(&popup->surface_destroyed.link);
	wl_list_remove(&popup->link);
	weston_on_commit(popup->surface, NULL, NULL);
	weston_surface_set_label_func(popup->surface, NULL);
	weston_view_destroy(popup->view);
	free(popup);
}

static void on_surface_destroyed(struct wl_listener *listener, void *data)
{
	struct popup *popup = wl_container_of(listener, popup, surface_destroyed);
	(void)data;
	popup_destroy(popup);
}

bool popup_make(void *data, struct wl_resource *resource)
{
	struct weston_surface *surface = wl_resource_get_user_data(resource);
	(void)data;
	if (popup_of(resource))
		return true; /* it was one before */
	struct popup *popup = weston_surface_get_role(surface) ? NULL : calloc(1, sizeof *popup);
	if (!popup || !weston_on_commit(surface, committed, popup)) {
		free(popup);
		return false;
	}
	popup->surface = surface;
	listen_to(&surface->destroy_signal, &popup->surface_destroyed, on_surface_destroyed);
	wl_list_insert(&popups, &popup->link);
	popup->view = weston_view_create(surface);
	if (!popup->view || weston_surface_set_role(surface, "zwp_input_popup_surface_v2", NULL, 0) < 0) {
		popup_destroy(popup);
		return false;
	}
	weston_surface_set_label_func(surface, label_of);
	return true;
}

void popup_placed(void *data, struct wl_resource *resource, int32_t x, int32_t y)
{
	struct popup *popup = popup_of(resource);
	(void)data;
	if (!popup)
		return;
	popup->placed = true;
	popup->x = x;
	popup->y = y;
	show(popup);
}

void popup_hidden(void *data, struct wl_resource *resource)
{
	struct popup *popup = popup_of(resource);
	(void)data;
	if (!popup)
		return;
	popup->placed = false;
	weston_hide(popup->surface);
}

void popups_start(void)
{
	wl_list_init(&popups);
	weston_layer_init(&layer, plugin.compositor);
	weston_layer_set_position(&layer, WESTON_LAYER_POSITION_TOP_UI);
}

void popups_end(void)
{
	struct popup *popup, *next;
	wl_list_for_each_safe(popup, next, &popups, link)
		popup_destroy(popup);
	weston_layer_fini(&layer);
}
