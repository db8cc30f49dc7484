/* A desk: moves the focus to other clients' windows, by a list of toplevels, which a taskbar has. */
#include "client.h"
#include "wlr-foreign-toplevel-management-unstable-v1-client-protocol.h"
#include <stdio.h>
#include <stdlib.h>
#include <string.h>

struct top {
	char app[64];
	struct zwlr_foreign_toplevel_handle_v1 *handle;
	bool closed;
	struct top *next;
};

static struct top *tops;

static void title(void *data, struct zwlr_foreign_toplevel_handle_v1 *of, const char *text)
{
	(void)data, (void)of, (void)text;
}

static void app_id(void *data, struct zwlr_foreign_toplevel_handle_v1 *of, const char *text)
{
	struct top *top = data;
	(void)of;
	snprintf(top->app, sizeof top->app, "%s", text);
}

static void output(void *data, struct zwlr_foreign_toplevel_handle_v1 *of, struct wl_output *output)
{
	(void)data, (void)of, (void)output;
}

static void state(void *data, struct zwlr_foreign_toplevel_handle_v1 *of, struct wl_array *states)
{
	(void)data, (void)of, (void)states;
}

static void done(void *data, struct zwlr_foreign_toplevel_handle_v1 *of)
{
	(void)data, (void)of;
}

static void closed(void *data, struct zwlr_foreign_toplevel_handle_v1 *of)
{
	struct top *top = data;
	top->closed = true;
	zwlr_foreign_toplevel_handle_v1_destroy(of);
}

static void parent(void *data, struct zwlr_foreign_toplevel_handle_v1 *of,
	struct zwlr_foreign_toplevel_handle_v1 *parent)
{
	(void)data, (void)of, (void)parent;
}

static const struct zwlr_foreign_toplevel_handle_v1_listener top_events = {
	title, app_id, output, output, state, done, closed, parent,
};

static void toplevel(void *data, struct zwlr_foreign_toplevel_manager_v1 *manager,
	struct zwlr_foreign_toplevel_handle_v1 *handle)
{
	struct top *top = calloc(1, sizeof *top);
	(void)data, (void)manager;
	top->handle = handle;
	top->next = tops;
	tops = top;
	zwlr_foreign_toplevel_handle_v1_add_listener(handle, &top_events, top);
}

static void finished(void *data, struct zwlr_foreign_toplevel_manager_v1 *manager)
{
	(void)data, (void)manager;
}

static const struct zwlr_foreign_toplevel_manager_v1_listener manager_events = { toplevel, finished };

void desk_begin(struct zwlr_foreign_toplevel_manager_v1 *manager)
{
	zwlr_foreign_toplevel_manager_v1_add_listener(manager, &manager_events, NULL);
}

static void activate_line(struct thing *of, char **words)
{
	(void)of;
	for (struct top *top = tops; top; top = top->next) {
		if (!top->closed && strcmp(top->app, words[1]) == 0) {
			zwlr_foreign_toplevel_handle_v1_activate(top->handle, self.seat);
			return;
		}
	}
	complain("no window %s", words[1]);
}

const struct row desk_rows[] = {
	{ "activate", 2, NONE, activate_line }, { 0 },
};
