/* The popups of methods: what a method asks of their surfaces, which the compositor never hears of. */
#include "popups.h"
#include <string.h>

struct popup popups[POPUPS];

struct popup *popup_on(const struct client *method, uint32_t surface) {
	struct popup *popup = popups;
	while (popup < popups + POPUPS && (popup->method != method || popup->surface != surface))
		popup++;
	return popup < popups + POPUPS ? popup : NULL;
}

struct popup *popup_new(struct client *method, uint32_t surface) {
	struct popup *popup = popups;
	while (popup < popups + POPUPS && popup->method)
		popup++;
	if (popup == popups + POPUPS)
		return out(OUT_PROBLEMS, "client %u's popup isn't shown: there are too many\n", method->number), NULL;
	*popup = (struct popup){ .method = method, .surface = surface, .next.scale = 1, .now.scale = 1 };
	return popup;
}

void popup_make(struct client *client, uint32_t id, uint32_t surface) {
	struct popup *popup = popup_on(client, surface) ? NULL : popup_new(client, surface);
	if (popup)
		popup->id = id;
}

void popup_let_go(struct popup *popup) {
	const struct object *buffer = popup->held > 0 ? object_live(popup->method, popup->held) : NULL;
	if (buffer && buffer->number == popup->held_number)
		client_send(popup->method, draft(popup->held, wl_buffer_event_release, ""));
	popup->held = 0;
}

static void end_frame(struct client *method, uint32_t id, bool tells, uint32_t time) {
	if (tells)
		client_send(method, draft(id, wl_callback_event_done, "u", time));
	client_send(method, draft(DISPLAY, wl_display_event_delete_id, "u", id));
	object_free(method, id);
}

void popup_end_frames(struct popup *popup, struct frames *frames, bool tells, uint32_t time) {
	for (unsigned at = 0; at < frames->count; at++)
		end_frame(popup->method, frames->ids[at], tells, time);
	frames->count = 0;
}

/* One too many is told at once. */
static void add_frame(struct popup *popup, struct frames *frames, uint32_t id) {
	if (frames->count < FRAMES)
		frames->ids[frames->count++] = id;
	else
		end_frame(popup->method, id, true, (uint32_t)(gateway.moment / 1000));
}

static void popup_end(struct popup *popup) {
	mirror_close(&popup->mirror);
	pointed_leave(popup);
	popup_let_go(popup);
	popup_end_frames(popup, &popup->frames, false, 0);
	popup_end_frames(popup, &popup->next_frames, false, 0);
	cursor_end(popup);
	token_drop(popup->pixels.token);
	token_drop(popup->copy);
	token_drop(popup->copying);
	*popup = (struct popup){ 0 };
}

void popup_destroy(struct client *client, uint32_t id) {
	for (struct popup *popup = popups; popup < popups + POPUPS; popup++)
		if (popup->method == client && (popup->id == id || popup->surface == id))
			popup_end(popup);
}

void popups_client_ends(struct client *client) {
	for (struct popup *popup = popups; popup < popups + POPUPS; popup++) {
		if (popup->mirror.program == client)
			mirror_close(&popup->mirror);
		if (popup->dismissed.program == client)
			popup->dismissed.program = NULL;
		if (popup->method == client)
			popup_end(popup);
	}
}

void popups_leave(const struct client *program, uint32_t surface) {
	for (struct popup *popup = popups; popup < popups + POPUPS; popup++)
		if (popup->mirror.program == program && popup->mirror.parent == surface)
			mirror_close(&popup->mirror);
}

void popups_committed(const struct client *program, uint32_t surface) {
	for (struct popup *popup = popups; popup < popups + POPUPS; popup++)
		if (popup->mirror.program == program && popup->mirror.parent == surface)
			popup->mirror.waits = false;
}

void popups_round(void) {
	for (struct popup *popup = popups; popup < popups + POPUPS; popup++) {
		if (!popup->method || popup->method->ending)
			continue;
		if (popup->frames.count > 0 && gateway.moment - popup->since >= FRAME_LATE)
			popup_end_frames(popup, &popup->frames, true, (uint32_t)(gateway.moment / 1000));
		popup_update(popup);
	}
}

int popups_wait(void) {
	int least = -1;
	for (const struct popup *popup = popups; popup < popups + POPUPS; popup++) {
		uint64_t passed = gateway.moment - popup->since, left = UINT64_MAX;
		if (popup->method && popup->frames.count > 0)
			left = passed < FRAME_LATE ? FRAME_LATE - passed : 0;
		if (popup->method && popup->mirror.program && popup->copied != popup->content && popup_copies_in(popup) > 0)
			left = popup_copies_in(popup) < left ? popup_copies_in(popup) : left;
		if (left < UINT64_MAX && (least < 0 || left / 1000 < (uint64_t)least))
			least = (int)(left / 1000) + 1;
	}
	return least;
}

/* Whether the compositor will take the scale and the viewport's source: else it would end the program. */
static bool can_be_shown(const struct popup *popup) {
	const struct state *now = &popup->now;
	const struct pixels *p = &popup->pixels;
	uint64_t right = (uint64_t)now->source[0] + now->source[2], bottom = (uint64_t)now->source[1] + now->source[3];
	uint64_t width = (uint64_t)(p->width / now->scale), height = (uint64_t)(p->height / now->scale);
	bool is_whole = now->view_width > 0 || (now->source[2] % 256 == 0 && now->source[3] % 256 == 0);
	return p->width % now->scale == 0 && p->height % now->scale == 0 && is_whole
		&& (!now->has_source || (right <= width * 256 && bottom <= height * 256));
}

/* The size on the screen: its viewport's, its source's, or its own, of which `scale` pixels are one. */
static void resize(struct popup *popup) {
	const struct state *now = &popup->now;
	int32_t width = popup->pixels.width / now->scale, height = popup->pixels.height / now->scale;
	if (now->view_width > 0) {
		width = now->view_width;
		height = now->view_height;
	} else if (now->has_source) {
		width = (int32_t)(now->source[2] / 256);
		height = (int32_t)(now->source[3] / 256);
	}
	bool is_large = width > SIDE_MAX || height > SIDE_MAX || (height > 0 && width > PIXELS_MAX / 4 / height);
	bool shows = can_be_shown(popup) && width > 0 && height > 0 && !is_large;
	popup->width = shows ? width : 0;
	popup->height = shows ? height : 0;
}

static void take_buffer(struct popup *popup) {
	const struct object *buffer = popup->attached > 0 ? object_live(popup->method, popup->attached) : NULL;
	bool is_buffer = buffer && buffer->interface == &wl_buffer_table;
	if (popup->held != popup->attached || (buffer && buffer->number != popup->held_number))
		popup_let_go(popup);
	token_drop(popup->pixels.token);
	popup->pixels = (struct pixels){ 0 };
	popup->held = is_buffer ? popup->attached : 0;
	popup->held_number = is_buffer ? buffer->number : 0;
	popup->content++;
	if (is_buffer && pixels_good(&buffer->known.pixels)) {
		popup->pixels = buffer->known.pixels;
		token_keep(popup->pixels.token);
	} else if (is_buffer) {
		out(OUT_PROBLEMS, "client %u's popup isn't shown: its buffer isn't wl_shm's ARGB8888 or XRGB8888, or is too large\n",
			popup->method->number);
		popup_let_go(popup);
	}
}

static void commit(struct popup *popup) {
	const struct state *next = &popup->next, *now = &popup->now;
	bool resizes = next->scale != now->scale || next->view_width != now->view_width
		|| next->view_height != now->view_height || next->has_source != now->has_source
		|| memcmp(next->source, now->source, sizeof now->source) != 0;
	if (popup->frames.count == 0)
		popup->since = gateway.moment;
	for (unsigned at = 0; at < popup->next_frames.count; at++)
		add_frame(popup, &popup->frames, popup->next_frames.ids[at]);
	popup->next_frames.count = 0;
	popup->now = popup->next;
	if (popup->attaches) {
		take_buffer(popup);
	} else if (resizes) { /* the same pixels are another content */
		popup->copied += popup->copied == popup->content;
		popup->content++;
	}
	if (popup->pixels.width == 0)
		popup->width = popup->height = 0;
	else if (popup->attaches || resizes)
		resize(popup);
	popup->attaches = false;
}

void popup_had(struct popup *popup, uint32_t buffer) {
	popup->attaches = true;
	popup->attached = buffer;
	commit(popup);
	popup->held = 0; /* it is the compositor's to release */
}

/* A request of a popup's surface: the compositor hears of none but its end. */
static bool surface_asks(struct popup *popup, const struct message *message) {
	const uint32_t *w = message->numbers;
	struct state *next = &popup->next;
	switch (message->opcode) {
	case wl_surface_request_destroy:
		return popup_end(popup), true;
	case wl_surface_request_attach:
		popup->attaches = true;
		popup->attached = w[0];
		break;
	case wl_surface_request_set_buffer_scale:
		next->scale = (int32_t)w[0] >= 1 && w[0] <= 8 ? (int32_t)w[0] : 1;
		break;
	case wl_surface_request_frame:
		object_at(popup->method, w[0])->is_ours = true;
		add_frame(popup, &popup->next_frames, w[0]);
		break;
	case wl_surface_request_commit:
		commit(popup);
	}
	return false;
}

static void view_asks(struct popup *popup, const struct message *message) {
	struct state *next = &popup->next;
	if (IS(message, wp_viewport, request, set_source)) {
		next->has_source = (int32_t)message->numbers[2] > 0 && (int32_t)message->numbers[3] > 0
			&& (int32_t)message->numbers[0] >= 0 && (int32_t)message->numbers[1] >= 0;
		for (int at = 0; at < 4; at++)
			next->source[at] = next->has_source ? message->numbers[at] : 0;
		return;
	}
	bool has_size = IS(message, wp_viewport, request, set_destination) && (int32_t)message->numbers[0] > 0
		&& (int32_t)message->numbers[1] > 0;
	next->view_width = has_size ? (int32_t)message->numbers[0] : 0;
	next->view_height = has_size ? (int32_t)message->numbers[1] : 0;
	if (IS(message, wp_viewport, request, destroy)) {
		next->has_source = false;
		memset(next->source, 0, sizeof next->source);
	}
}

static void list(struct listed *listed, uint32_t id) {
	if (listed->count < LISTED_MAX)
		listed->ids[listed->count++] = id;
}

static void unlist(struct listed *listed, uint32_t id) {
	for (unsigned at = 0; at < listed->count; at++)
		if (listed->ids[at] == id)
			listed->ids[at--] = listed->ids[--listed->count];
}

bool popup_request(struct client *client, struct object *object, const struct message *message,
		const uint32_t *tokens) {
	const uint32_t *w = message->numbers;
	struct popup *popup;
	if (IS(message, wl_shm, request, create_pool)) {
		pool_make(client, object_at(client, w[0]), tokens[0], (int32_t)w[2]);
	} else if (object->interface == &wl_shm_pool_table && object->known.pixels.token > 0) {
		pool_request(client, object, message);
	} else if (object->interface == &wl_surface_table && (popup = popup_on(client, message->object))) {
		return surface_asks(popup, message);
	} else if (IS(message, wl_surface, request, attach)) {
		object->known.surface.buffer = w[0];
	} else if (IS(message, wl_pointer, request, set_cursor)) {
		cursor_set(client, message);
	} else if (IS(message, wp_viewporter, request, get_viewport)) {
		object_at(client, w[0])->known.view.popup = w[1];
	} else if (object->interface == &wp_viewport_table && (popup = popup_on(client, object->known.view.popup))) {
		view_asks(popup, message);
	} else if (IS(message, wl_seat, request, get_pointer)) {
		list(&client->pointers, w[0]);
		pointed_joins(client, w[0]);
	} else if (IS(message, wl_seat, request, get_touch)) {
		list(&client->touches, w[0]);
	} else if (IS(message, wl_pointer, request, release)) {
		unlist(&client->pointers, message->object);
	} else if (IS(message, wl_touch, request, release)) {
		unlist(&client->touches, message->object);
	}
	return true;
}
