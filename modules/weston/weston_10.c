/* What the plug-in needs of libweston 10 that later versions have otherwise: places, layers, commits. */
#include "plugin.h"
#include <stdlib.h>

/* The view that is shown: desktop-shell has a second one of each window, to fade where it is closed. */
static struct weston_view *shown_view(struct weston_surface *surface)
{
	struct weston_view *view;
	wl_list_for_each(view, &surface->views, surface_link)
		if (view->layer_link.layer)
			return view;
	return NULL;
}

bool weston_place_of(struct weston_surface *surface, struct box *at, struct box *output)
{
	struct weston_view *view = shown_view(surface);
	float x, y;
	if (!view || !view->output)
		return false;
	weston_view_to_global_float(view, 0, 0, &x, &y);
	*at = (struct box){ (int32_t)x, (int32_t)y, surface->width, surface->height };
	*output = (struct box){ view->output->x, view->output->y, view->output->width, view->output->height };
	return true;
}

void weston_show(struct weston_view *view, struct weston_layer *layer, int32_t x, int32_t y)
{
	weston_view_set_position(view, (float)x, (float)y);
	if (!weston_view_is_mapped(view)) {
		weston_layer_entry_insert(&layer->view_list, &view->layer_link);
		weston_view_geometry_dirty(view);
		view->surface->is_mapped = true;
		view->is_mapped = true;
		weston_surface_damage(view->surface);
	}
	weston_view_update_transform(view);
	weston_view_schedule_repaint(view);
}

void weston_hide(struct weston_surface *surface)
{
	if (weston_surface_is_mapped(surface))
		weston_surface_unmap(surface);
}

struct call {
	void (*committed)(void *data);
	void *data;
};

static void on_commit(struct weston_surface *surface, int32_t dx, int32_t dy)
{
	struct call *call = surface->committed_private;
	(void)dx, (void)dy;
	call->committed(call->data);
}

bool weston_on_commit(struct weston_surface *surface, void (*committed)(void *data), void *data)
{
	struct call *call = surface->committed == on_commit ? surface->committed_private : NULL;
	if (surface->committed && !call)
		return false;
	if (committed && !call && !(call = malloc(sizeof *call)))
		return false;
	if (committed)
		*call = (struct call){ committed, data };
	else
		free(call);
	surface->committed = committed ? on_commit : NULL;
	surface->committed_private = committed ? call : NULL;
	return true;
}

void *weston_committed_data(struct weston_surface *surface, void (*committed)(void *data))
{
	const struct call *call = surface->committed == on_commit ? surface->committed_private : NULL;
	return call && call->committed == committed ? call->data : NULL;
}
