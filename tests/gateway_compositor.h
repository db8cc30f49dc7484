/*
 * What the gateway's tests have in the place of a compositor: it knows the objects by the ids that it was asked for,
 * keeps what is asked, and says when an id is free. What a compositor would refuse ends the test.
 */
#ifdef OVER_SOCKETS
#include "gateway_sockets.h"
#else
#include "gateway_harness.h"
#endif

enum { ASKED_MAX = 4096 };

struct asked_of { /* a request, by the compositor's ids */
	uint32_t object;
	const struct interface *face;
	const struct signature *row;
	uint32_t numbers[ARGUMENTS_MAX];
};

struct compositor {
	const struct interface *faces[OBJECTS_MAX]; /* of its objects by ids */
	uint32_t count; /* of ids that were used */
	unsigned asked_count;
	struct asked_of asked[ASKED_MAX]; /* since the last look */
	const char *wrong; /* what it would refuse; NULL: nothing */
	bool has_gap; /* that was a new id, which is the gateway's fault alone */
};

static inline bool ends_it(const struct signature *row)
{
	return strcmp(row->name, "destroy") == 0 || (strcmp(row->name, "release") == 0);
}

/* One request. Answers why a compositor would end the client; NULL: it would not. */
static inline const char *hear_request(struct compositor *compositor, struct place *place, struct message *message)
{
	const struct interface *face = message->object < OBJECTS_MAX ? compositor->faces[message->object] : NULL;
	if (!face || message->opcode >= face->counts[1] || !message_read(message, &face->rows[1][message->opcode]))
		return "a request of no object";
	const struct signature *row = message->signature;
	for (unsigned at = 0; at < message->count; at++) {
		uint32_t id = message->numbers[at];
		if (row->kinds[at] == 'n') {
			if (id == 0 || id > compositor->count || id >= OBJECTS_MAX || compositor->faces[id])
				return compositor->has_gap = true, "a new id that leaves a gap, or is used";
			compositor->count += id == compositor->count;
			compositor->faces[id] = row->made ? row->made : interface_named(message->texts[1]);
		} else if ((row->kinds[at] == 'o' || row->kinds[at] == 'O') && id > 0 && id < FIRST_SERVER_ID
				&& (id >= OBJECTS_MAX || !compositor->faces[id])) {
			return "an argument that names nothing";
		}
	}
	if (compositor->asked_count < ASKED_MAX) {
		struct asked_of *asked = &compositor->asked[compositor->asked_count++];
		*asked = (struct asked_of){ .object = message->object, .face = face, .row = row };
		memcpy(asked->numbers, message->numbers, sizeof asked->numbers);
	}
	if (ends_it(row)) {
		const struct message *event = draft(DISPLAY, wl_display_event_delete_id, "u", message->object);
		compositor->faces[message->object] = NULL;
		write_far(place, event->bytes, event->size, NULL, 0);
	}
	return NULL;
}

/* Takes what the compositor was asked, and frees ids. */
static inline void look_far(struct compositor *compositor, struct place *place)
{
	struct message message;
	size_t at = 0;
	if (compositor->count == 0) {
		compositor->count = 2;
		compositor->faces[DISPLAY] = &wl_display_table;
	}
	compositor->asked_count = 0;
	for (; message_front(place->asked.bytes + at, place->asked.size - at, &message) == FRONT_WHOLE; at += message.size) {
		if (!compositor->wrong) /* else it would have ended the client */
			compositor->wrong = hear_request(compositor, place, &message);
	}
	place->asked.size -= at;
	memmove(place->asked.bytes, place->asked.bytes + at, place->asked.size);
}

/* How often it was asked, where `object` isn't 0 of that; the last such request, and its object. NULL: it wasn't. */
static inline unsigned asked_times(const struct compositor *compositor, uint32_t object, const struct signature *row)
{
	unsigned found = 0;
	for (unsigned at = 0; at < compositor->asked_count; at++)
		found += compositor->asked[at].row == row && (object == 0 || compositor->asked[at].object == object);
	return found;
}

static inline const struct asked_of *asked_last(const struct compositor *compositor, uint32_t object,
	const struct signature *row)
{
	for (unsigned at = compositor->asked_count; at-- > 0; )
		if (compositor->asked[at].row == row && (object == 0 || compositor->asked[at].object == object))
			return &compositor->asked[at];
	return NULL;
}

#define ROW(interface, name) &interface##_requests[interface##_request_##name]
