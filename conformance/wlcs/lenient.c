/*
 * WLCS 1.5 gives a window its pixels before it was told a size, which xdg_shell forbids and wlroots ends. So where WLCS
 * is run, the compositor takes each window for one that was told. Linked with --wrap=wlr_scene_xdg_surface_create.
 */
#include <wlr/types/wlr_scene.h>
#include <wlr/types/wlr_xdg_shell.h>

struct wlr_scene_node *__real_wlr_scene_xdg_surface_create(struct wlr_scene_node *parent, struct wlr_xdg_surface *window);

struct wlr_scene_node *__wrap_wlr_scene_xdg_surface_create(struct wlr_scene_node *parent, struct wlr_xdg_surface *window)
{
	window->configured = true;
	return __real_wlr_scene_xdg_surface_create(parent, window);
}
