/* The popups of methods: the gateway is the compositor of their surfaces, and shows them in the focused window. */
#pragma once
#include "gateway.h"

enum {
	POPUPS = 16, FRAMES = 8, BUFFERS = 4, HELD_MAX = 128, SIDE_MAX = 4096,
	PIXELS_MAX = 8388608, /* bytes of a popup: its copy takes some 2 ms, at most one in each of the compositor's frames */
	COPIED_MAX = 16777216, COPY_BURST = 100000, /* bytes of a method's that are copied in a second; microseconds at once */
	FRAME_LATE = 100000, /* microseconds after which a method's frame is told without the compositor's */
	SINCE_FRAMES = 5, SINCE_SCALE = 3, SINCE_REPOSITION = 3, /* versions of wl_pointer, wl_surface, xdg_wm_base */
};

/* What shows a popup in a program's connection: its ids are those at the compositor. */
struct mirror {
	struct client *program; /* NULL: there is none */
	uint32_t parent; /* the program's surface that it is on */
	uint64_t number; /* of that */
	struct wanted at;
	int32_t width, height;
	uint32_t surface, sub, xdg, popup, view, frame, buffers[BUFFERS];
	uint64_t asked; /* when the frame was */
	bool waits; /* a subsurface that its parent's next commit places */
	bool is_configured; /* an xdg_popup that may have pixels */
	unsigned content; /* that it shows; 0: none yet */
};

/* What the next commit of a popup's surface brings, and what the last one did. */
struct state {
	int32_t scale, view_width, view_height; /* of its wp_viewport; 0: it has no such size */
	uint32_t source[4]; /* of that, as wl_fixed; no width: the whole */
	bool has_source;
};

struct frames { unsigned count; uint32_t ids[FRAMES]; }; /* callbacks of a method's */

struct popup {
	struct client *method; /* NULL: there is none */
	uint32_t id, surface; /* the popup's and its surface's, at the method */
	bool is_cursor, sets; /* it is a pointer's image, of no popup; the compositor is to be told so anew */
	uint32_t serial, x, y; /* of that: of the pointer's enter; the point in it */
	bool attaches; /* a buffer or 0 comes with the next commit */
	uint32_t attached;
	struct state next, now;
	struct frames next_frames, frames; /* of the next commit, and that wait to be told */
	uint64_t since; /* the first of those waits */
	int32_t width, height; /* of what is to be shown; 0: nothing is */
	unsigned content; /* the number of what was committed */
	struct pixels pixels; /* that; the token is 0 once it is copied */
	uint32_t held; /* its buffer, which the method may not use until then; 0: none */
	uint64_t held_number;
	uint32_t copy, copying; /* tokens of a copy, and of one that is made */
	unsigned copied; /* the content of that */
	struct mirror mirror, dismissed; /* what shows it; where the compositor took it away, until it is to be elsewhere */
};

extern struct popup popups[POPUPS];

#define ASK(program, id, request, kinds, ...) ask(program, draft(id, request, kinds, ##__VA_ARGS__))
static inline void ask(struct client *program, const struct message *message) {
	wire_send(&program->far, message->bytes, message->size, NULL, 0);
}

static inline uint32_t own_id(const struct client *program, unsigned which) {
	return program->owns[which].id;
}

/* The gateway's own objects in a program's connection (popup_own.c). False: they can't be had. */
bool has_own(struct client *program);
/* Shows it where it is to be, or not (popup_show.c). And hides it. */
void popup_update(struct popup *popup);
void mirror_close(struct mirror *mirror);
/* Shows what was committed last, and asks when the next is worth drawing (popup_pixels.c). Nothing is seen of it. */
void mirror_present(struct popup *popup, struct mirror *mirror);
void mirror_clear(struct popup *popup, struct mirror *mirror);
/* The method may use its buffer again; its frames are told, or end untold. */
void popup_let_go(struct popup *popup);
/* In how many microseconds its pixels may be copied; 0: now. */
uint64_t popup_copies_in(const struct popup *popup);
void popup_end_frames(struct popup *popup, struct frames *frames, bool tells, uint32_t time);
/* A method's pool is made; a request of it. Whether the compositor will take a buffer: of wl_shm's ARGB or XRGB, in the
 * pool, not too large (popup_pools.c). */
void pool_make(struct client *client, struct object *pool, uint32_t token, int32_t size);
void pool_request(struct client *client, struct object *pool, const struct message *message);
bool pixels_good(const struct pixels *pixels);
/* A new one on a method's surface, or NULL. The one that is; NULL: none. */
struct popup *popup_new(struct client *method, uint32_t surface);
struct popup *popup_on(const struct client *method, uint32_t surface);
/* A method's surface had a buffer before it was a popup's or a pointer's: it is shown, as if it was committed now. */
void popup_had(struct popup *popup, uint32_t buffer);
void surface_make(struct popup *popup, struct mirror *mirror);
/* The pointer's image on popups (popup_cursor.c): a method sets it; it is shown, or not. */
void cursor_set(struct client *method, const struct message *message);
void cursor_update(struct popup *popup);
void cursor_end(const struct popup *popup);
/* Nothing of it is pointed at any more (popup_input.c). A method makes a wl_pointer, as it may once there is one, which is
 * on its popup. The popup that the pointer is in; NULL: none. Events of the gateway's own seat, pointer and touch. */
void pointed_leave(const struct popup *popup);
void pointed_joins(struct client *method, uint32_t id);
struct popup *pointed_at(void);
void input_event(struct client *program, uint32_t far, const struct interface *interface, struct message *message);
