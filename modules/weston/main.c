/*
 * wlim.so: text-input-v3, input-method-v2 and virtual-keyboard-v1 for an unmodified Weston, relayed by libwlim.
 * README.md says how it is configured.
 *
 * Who may be an input method or a virtual keyboard, and so see and type all? `methods=started`, the default: whom Weston
 * itself started, as the program of [input-method], which a shell with Weston's own text backend starts (desktop-shell)
 * and else this plug-in does. `methods=user`: each program of the user who runs Weston.
 */
#define _GNU_SOURCE
#include "plugin.h"
#include <stdlib.h>
#include <string.h>
#include <unistd.h>
#include <weston.h>

#define STARTS_MOST 5    /* of a method, */
#define STARTS_WITHIN 10 /* seconds */

struct plugin plugin;

static bool by_user; /* methods=user */

static struct {
	char *path;
	struct wl_client *client; /* NULL: it doesn't run, or another started it */
	struct timespec since; /* the first of these starts */
	int starts;
	struct wl_listener ended;
} method;

static struct wl_listener seat_created, seat_caps, seat_destroyed, transformed, compositor_destroyed;

/* ---- Whom Weston started has a socket whose other end was made by Weston's own process ---- */

static bool is_trusted(void *data, struct wl_client *client)
{
	pid_t process;
	uid_t user;
	(void)data;
	wl_client_get_credentials(client, &process, &user, NULL);
	return process == getpid() || (by_user && user == getuid());
}

static bool is_our_seat(void *data, struct wl_resource *seat)
{
	(void)data;
	return wl_resource_get_user_data(seat) == plugin.seat;
}

static const struct wlim_glue_hooks hooks = {
	.key = keyboard_key,
	.modifiers = keyboard_modifiers,
	.popup = popup_make,
	.placed = popup_placed,
	.hidden = popup_hidden,
	.trusted = is_trusted,
	.seat = is_our_seat,
};

/* ---- The input method that the plug-in starts, where no text backend of Weston's does ---- */

static void method_start(void);

static void on_method_ended(struct wl_listener *listener, void *data)
{
	struct timespec now;
	(void)listener, (void)data;
	method.client = NULL;
	weston_compositor_get_time(&now);
	if (now.tv_sec - method.since.tv_sec > STARTS_WITHIN)
		method.starts = 0;
	if (method.starts < STARTS_MOST)
		method_start();
	else
		weston_log("wlim: %s ends again and again, and isn't started any more\n", method.path);
}

static void method_start(void)
{
	if (!method.path || !*method.path || method.client)
		return;
	if (method.starts++ == 0)
		weston_compositor_get_time(&method.since);
	method.client = weston_client_start(plugin.compositor, method.path);
	if (!method.client)
		return;
	method.ended.notify = on_method_ended;
	wl_client_add_destroy_listener(method.client, &method.ended);
}

/* ---- The seat ---- */

static void seat_join(void);

static void seat_leave(bool dead)
{
	if (!plugin.seat)
		return;
	wl_list_remove(&seat_caps.link);
	wl_list_remove(&seat_destroyed.link);
	keyboard_give_back(dead);
	plugin.seat = NULL;
}

static void on_seat_caps(struct wl_listener *listener, void *data)
{
	(void)listener, (void)data;
	if (!plugin.keyboard && plugin.seat->keyboard_state)
		keyboard_take(plugin.seat->keyboard_state);
}

static void on_seat_destroyed(struct wl_listener *listener, void *data)
{
	(void)listener, (void)data;
	seat_leave(true);
	seat_join();
}

static void seat_join(void)
{
	struct wl_list *seats = &plugin.compositor->seat_list;
	if (plugin.seat || wl_list_empty(seats))
		return;
	plugin.seat = wl_container_of(seats->next, plugin.seat, link);
	listen_to(&plugin.seat->updated_caps_signal, &seat_caps, on_seat_caps);
	listen_to(&plugin.seat->destroy_signal, &seat_destroyed, on_seat_destroyed);
	on_seat_caps(NULL, NULL);
	if (!plugin.seat->input_method)
		method_start();
}

static void on_seat_created(struct wl_listener *listener, void *data)
{
	(void)listener, (void)data;
	seat_join();
}

static void on_transformed(struct wl_listener *listener, void *data)
{
	(void)listener;
	keyboard_moved(data);
}

/* ---- The plug-in ---- */

/*
 * Weston ends no client, and some end after this. Listeners of the compositor stay where they are, since desktop-shell
 * has freed some beside them that were linked still: what they lie in is never freed.
 */
static void on_compositor_destroyed(struct wl_listener *listener, void *data)
{
	(void)listener, (void)data;
	if (method.client) {
		wl_list_remove(&method.ended.link);
		wl_client_destroy(method.client);
	}
	seat_leave(false);
	popups_end();
	wlim_glue_destroy(plugin.glue);
	free(method.path);
}

static bool read_config(void)
{
	struct weston_config *config = wet_get_config(plugin.compositor);
	char *methods = NULL;
	weston_config_section_get_string(weston_config_get_section(config, "input-method", NULL, NULL), "path",
		&method.path, "");
	weston_config_section_get_string(weston_config_get_section(config, "wlim", NULL, NULL), "methods", &methods,
		"started");
	by_user = methods && strcmp(methods, "user") == 0;
	bool known = by_user || (methods && strcmp(methods, "started") == 0);
	if (!known)
		weston_log("wlim: methods= is `started` or `user`\n");
	free(methods);
	return known;
}

WL_EXPORT int wet_module_init(struct weston_compositor *compositor, int *argc, char *argv[])
{
	(void)argc, (void)argv;
	if (!weston_compositor_add_destroy_listener_once(compositor, &compositor_destroyed, on_compositor_destroyed))
		return 0; /* it is loaded already */
	plugin.compositor = compositor;
	if (wlim_version() == WLIM_VERSION && read_config())
		plugin.glue = wlim_glue_create(compositor->wl_display, &hooks, NULL);
	if (!plugin.glue) {
		weston_log("wlim: it can't be started\n");
		wl_list_remove(&compositor_destroyed.link);
		free(method.path);
		return -1;
	}
	wlim_glue_repeat(plugin.glue, compositor->kb_repeat_rate, compositor->kb_repeat_delay);
	popups_start();
	listen_to(&compositor->seat_created_signal, &seat_created, on_seat_created);
	listen_to(&compositor->transform_signal, &transformed, on_transformed);
	seat_join();
	return 0;
}
