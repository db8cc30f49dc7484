/*
 * One client of a compositor, driven by lines: an application, an input method, a keyboard or a desk. See client.c.
 */
#ifndef CONFORMANCE_CLIENT_H
#define CONFORMANCE_CLIENT_H

#include <stdbool.h>
#include <stdint.h>
#include <wayland-client.h>

#define WORDS_MOST 16

enum kind { WINDOW, SURFACE, FIELD, METHOD, GRAB, POPUP, BOARD, ANY, NEW, NONE };

/* What a line gave a name: a surface, or an object of the text protocols. */
struct thing {
	char name[32];
	enum kind kind;
	struct wl_proxy *proxy; /* of a window and of a surface its wl_surface; NULL once destroyed */
	struct thing *next;
	/* Of a window. */
	struct xdg_surface *xdg;
	struct xdg_toplevel *top;
	struct wl_buffer *buffer;
	int32_t width, height;
	bool mapped;
};

struct self {
	struct wl_display *display;
	struct wl_registry *registry;
	struct wl_compositor *compositor;
	struct wl_shm *memory;
	struct wl_seat *seat;
	struct wl_keyboard *keyboard;
	struct xdg_wm_base *shell;
	struct zwp_text_input_manager_v3 *fields;
	struct zwp_input_method_manager_v2 *methods;
	struct zwp_virtual_keyboard_manager_v1 *boards;
	struct zwlr_foreign_toplevel_manager_v1 *tops;
	struct thing *things;
	bool paused; /* nothing is read */
	bool hung;   /* the compositor hung up meanwhile */
	bool ended;  /* the connection is, and that was told */
};

extern struct self self;

/* Writes a line of what was told to an object: `told MICROSECONDS OBJECT EVENT ..`. */
void told(const struct thing *of, const char *form, ...) __attribute__((format(printf, 2, 3)));
void told_seat(const char *form, ...) __attribute__((format(printf, 1, 2)));

/* A text in hex, `-` where it is empty or null; good until the call after the next one. */
const char *hex(const char *text);
/* Reads hex: a text of its own, which the caller frees. */
char *text_of(const char *hex);

/* A new name; the newest thing of a name is meant. */
struct thing *thing_new(const char *name, enum kind kind);
/* NULL, with a complaint, where there is none of the kind. */
struct thing *thing_named(const char *name, enum kind kind);
const char *surface_name(struct wl_surface *surface);

/*
 * A line that a client takes: its name, how many words it has, and the kind of what its second word names, which is
 * given as `of`: NEW where the word is a new name, which `of` has not yet, NONE where it names nothing.
 */
struct row {
	const char *name;
	int count;
	enum kind kind;
	void (*does)(struct thing *of, char **words);
};

#define NUMBER(at) ((int32_t)strtoll(words[at], NULL, 10))

extern const struct row window_rows[], text_rows[], method_rows[], board_rows[], desk_rows[]; /* up to one without name */

/* What the registry tells. */
void desk_begin(struct zwlr_foreign_toplevel_manager_v1 *manager);
void keyboard_begin(struct wl_seat *seat);
extern const struct xdg_wm_base_listener shell_events;

void complain(const char *form, ...) __attribute__((format(printf, 1, 2)));

#endif
