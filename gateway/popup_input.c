/* Pointer and touch on popups: what the gateway's own seat tells goes to the method, nothing of it to the program. */
#include "popups.h"
#include <string.h>

enum { CAPABILITY_POINTER = 1, CAPABILITY_TOUCH = 4 };

/* Where the pointer is, and the points of touch that began on a popup. */
static struct { struct popup *popup; uint32_t surface, serial, x, y; } pointed;
static struct { struct popup *popup; uint32_t points; } touched;

/* An event, to each of the method's objects of that kind and version. */
static void tell(const struct popup *popup, const struct listed *listed, uint32_t since,
		const struct message *message) {
	for (unsigned at = 0; at < listed->count; at++) {
		const struct object *object = object_live(popup->method, listed->ids[at]);
		if (!object || object->version < since)
			continue;
		memcpy(message->bytes, &listed->ids[at], sizeof listed->ids[at]);
		client_send(popup->method, message);
	}
}

static void pointer_leaves(void) {
	struct popup *popup = pointed.popup;
	if (!popup)
		return;
	pointed.popup = NULL;
	tell(popup, &popup->method->pointers, 1, draft(0, wl_pointer_event_leave, "uu", 0, popup->surface));
	tell(popup, &popup->method->pointers, SINCE_FRAMES, draft(0, wl_pointer_event_frame, ""));
}

static void touch_ends(void) {
	struct popup *popup = touched.popup;
	if (popup && touched.points != 0)
		tell(popup, &popup->method->touches, 1, draft(0, wl_touch_event_cancel, ""));
	touched.popup = NULL;
	touched.points = 0;
}

void pointed_joins(struct client *method, uint32_t id) {
	struct listed made = { .ids = { id }, .count = 1 };
	struct popup *popup = pointed.popup;
	if (!popup || popup->method != method)
		return;
	tell(popup, &made, 1, draft(0, wl_pointer_event_enter, "uuuu", pointed.serial, popup->surface, pointed.x, pointed.y));
	tell(popup, &made, SINCE_FRAMES, draft(0, wl_pointer_event_frame, ""));
}

struct popup *pointed_at(void) {
	return pointed.popup;
}

void pointed_leave(const struct popup *popup) {
	if (pointed.popup == popup)
		pointer_leaves();
	if (touched.popup == popup)
		touch_ends();
}

/* The popup whose mirror's surface it is; NULL: none's. */
static struct popup *popup_with(struct client *program, uint32_t far) {
	const struct private *private = private_of(program, far);
	struct popup *popup = private && private->interface == &wl_surface_table ? private->owner : NULL;
	return popup && popup->mirror.program == program && popup->mirror.surface == far ? popup : NULL;
}

static bool is_here(const struct popup *popup, const struct client *program) {
	return popup && popup->mirror.program == program;
}

static void pointer_event(struct client *program, const struct message *message) {
	const uint32_t *w = message->numbers;
	if (message->opcode == wl_pointer_event_enter) {
		pointer_leaves();
		pointed.popup = popup_with(program, w[1]);
		pointed.surface = w[1];
		pointed.serial = w[0];
		pointed.x = w[2];
		pointed.y = w[3];
		if (pointed.popup)
			tell(pointed.popup, &pointed.popup->method->pointers, 1, draft(0, wl_pointer_event_enter, "uuuu", w[0],
				pointed.popup->surface, w[2], w[3]));
	} else if (message->opcode == wl_pointer_event_leave) {
		if (is_here(pointed.popup, program) && pointed.surface == w[1])
			pointer_leaves();
	} else if (is_here(pointed.popup, program)) {
		bool moves = message->opcode == wl_pointer_event_motion;
		pointed.x = moves ? w[1] : pointed.x;
		pointed.y = moves ? w[2] : pointed.y;
		tell(pointed.popup, &pointed.popup->method->pointers, message->opcode >= wl_pointer_event_frame ? SINCE_FRAMES : 1,
			message);
	}
}

/* The bit of the event's point; 0: it has none. */
static uint32_t point_of(const struct message *message) {
	const uint32_t *w = message->numbers;
	switch (message->opcode) {
	case wl_touch_event_down:
		return 1u << w[3] % 32;
	case wl_touch_event_up:
		return 1u << w[2] % 32;
	case wl_touch_event_motion:
		return 1u << w[1] % 32;
	case wl_touch_event_frame:
	case wl_touch_event_cancel:
		return 0;
	}
	return 1u << w[0] % 32;
}

static void touch_event(struct client *program, const struct message *message) {
	const uint32_t *w = message->numbers;
	uint32_t point = point_of(message);
	if (message->opcode == wl_touch_event_down) {
		struct popup *popup = popup_with(program, w[2]);
		if (!popup || (touched.popup && touched.popup != popup))
			return;
		touched.popup = popup;
		touched.points |= point;
		return tell(popup, &popup->method->touches, 1, draft(0, wl_touch_event_down, "uuuuuu", w[0], w[1], popup->surface,
			w[3], w[4], w[5]));
	}
	if (!is_here(touched.popup, program))
		return;
	if (message->opcode == wl_touch_event_cancel)
		return touch_ends();
	if (message->opcode == wl_touch_event_frame || (message->opcode <= wl_touch_event_motion && (touched.points & point)))
		tell(touched.popup, &touched.popup->method->touches, 1, message);
	if (message->opcode == wl_touch_event_up)
		touched.points &= ~point;
	if (message->opcode == wl_touch_event_frame && touched.points == 0)
		touched.popup = NULL;
}

static void seat_event(struct client *program, uint32_t capabilities) {
	if ((capabilities & CAPABILITY_POINTER) && program->own_pointer == 0) {
		program->own_pointer = private_make(program, &wl_pointer_table, NULL);
		ASK(program, own_id(program, OWN_SEAT), wl_seat_request_get_pointer, "u", program->own_pointer);
	}
	if ((capabilities & CAPABILITY_TOUCH) && program->own_touch == 0) {
		program->own_touch = private_make(program, &wl_touch_table, NULL);
		ASK(program, own_id(program, OWN_SEAT), wl_seat_request_get_touch, "u", program->own_touch);
	}
}

void input_event(struct client *program, uint32_t far, const struct interface *interface, struct message *message) {
	if (IS(message, wl_seat, event, capabilities) && far == own_id(program, OWN_SEAT) && ids_left(program))
		seat_event(program, message->numbers[0]);
	else if (interface == &wl_pointer_table)
		pointer_event(program, message);
	else if (interface == &wl_touch_table)
		touch_event(program, message);
}

/* ---- What programs aren't told ---- */

/* Of touch: a point that began on a popup. */
static bool hides_touch(struct hidden *hidden, const struct message *message, bool names_private) {
	uint32_t point = point_of(message);
	bool down = message->opcode == wl_touch_event_down;
	if (point == 0)
		return false;
	bool hides = down ? names_private : hidden->points & point;
	hidden->points &= ~point;
	if (hides && message->opcode != wl_touch_event_up)
		hidden->points |= point;
	return hides;
}

static bool is_named(const struct message *message, const char *const names[3]) {
	for (int at = 0; at < 3; at++)
		if (strcmp(message->signature->name, names[at]) == 0)
			return true;
	return false;
}

bool popups_hide(struct object *object, const struct message *message, bool names_private) {
	static const char *const begins[3] = { "enter", "proximity_in", "begin" };
	static const char *const ends[3] = { "leave", "proximity_out", "end" };
	struct hidden *hidden = &object->known.hidden;
	if (object->interface == &wl_touch_table)
		return hides_touch(hidden, message, names_private);
	bool can_hide = object->interface->counts[0] > 0 && object->is_input;
	if (!names_private && !can_hide)
		return false;
	object->is_input = true;
	if (names_private)
		return hidden->is_inside = !is_named(message, ends), hidden->conceals = true;
	if (strpbrk(message->signature->kinds, "oOn")) { /* it is of something else, as of a surface of the program's own */
		hidden->passes = true;
		hidden->is_inside &= !is_named(message, begins);
		return false;
	}
	bool hides = hidden->is_inside;
	hidden->is_inside &= !is_named(message, ends);
	if (IS(message, wl_pointer, event, frame)) {
		hides = hidden->conceals && !hidden->passes;
		hidden->passes = hidden->conceals = false;
		return hides;
	}
	hidden->passes |= !hides;
	hidden->conceals |= hides;
	return hides;
}
