/*
 * text-input-v2, which Qt speaks: to the broker it is a text input of version 3. State goes there with the client's
 * update, since version 3 has it after an enable; a batch becomes events of version 2 at its done.
 */
#include "gateway.h"
#include <stdlib.h>
#include <string.h>

enum {
	TEXT_MAX = 4000, /* bytes, as version 3 has it */
	REASON_RESET = 2, REASON_ENTER = 3, /* of update_state */
	PURPOSE_DATE = 9, /* from here on a purpose's number is one higher in version 3 */
	EVENT_TEXT = 4096, /* more than the broker tells; the last byte is zero */
};

struct older {
	uint32_t enabled; /* the surface that it is for; 0: it is disabled */
	uint32_t entered; /* the surface that has the focus; 0: none of it */
	uint32_t serial; /* of the last enter or leave */
	bool is_new; /* the next state is a new activation's */
	bool has_text, has_content, has_cursor; /* what comes with the next update */
	uint32_t cursor, anchor, hint, purpose;
	struct box rectangle;
	char around[EVENT_TEXT]; /* the surrounding text */
	/* A batch, until its done. */
	char string[EVENT_TEXT], preedit[EVENT_TEXT];
	uint32_t before, after, preedit_cursor;
	bool shows; /* a preedit is shown */
	struct field field; /* as version 3 has it */
};

bool older_make(struct client *client, struct object *object) {
	object->known.older = calloc(1, sizeof *object->known.older);
	client->held += object->known.older != NULL;
	return object->known.older;
}

/* To the broker, as of a text input of version 3. */
static void to_field(struct client *client, uint32_t id, const struct message *message) {
	struct message copy = *message;
	if (!message_read(&copy, &zwp_text_input_v3_requests[message->opcode]))
		return;
	field_request(client, &object_at(client, id)->known.older->field, &copy);
	broker_receive(client, &copy, 0);
}

static void commit(struct client *client, uint32_t id) {
	object_at(client, id)->count++;
	to_field(client, id, draft(id, zwp_text_input_v3_request_commit, ""));
}

static void disable(struct client *client, uint32_t id, struct older *older) {
	older->enabled = 0;
	if (older->entered == 0)
		return;
	to_field(client, id, draft(id, zwp_text_input_v3_request_disable, ""));
	commit(client, id);
}

static void update(struct client *client, uint32_t id, struct older *older, uint32_t reason) {
	const struct box *box = &older->rectangle;
	if (older->enabled == 0 || older->entered != older->enabled)
		return;
	if (older->is_new || reason == REASON_RESET || reason == REASON_ENTER)
		to_field(client, id, draft(id, zwp_text_input_v3_request_enable, ""));
	if (older->has_text)
		to_field(client, id, draft(id, zwp_text_input_v3_request_set_surrounding_text, "suu", older->around, older->cursor,
			older->anchor));
	if (older->has_content)
		to_field(client, id, draft(id, zwp_text_input_v3_request_set_content_type, "uu", older->hint, older->purpose));
	if (older->has_cursor)
		to_field(client, id, draft(id, zwp_text_input_v3_request_set_cursor_rectangle, "uuuu", box->x, box->y, box->width,
			box->height));
	commit(client, id);
	older->is_new = older->has_text = older->has_content = false;
}

static void keep(char text[EVENT_TEXT], const struct message *message) {
	bool fits = message->texts[0] && message->numbers[0] < EVENT_TEXT;
	strcpy(text, fits ? message->texts[0] : "");
}

void older_request(struct client *client, const struct message *message) {
	uint32_t id = message->object;
	const uint32_t *w = message->numbers;
	struct older *older = object_at(client, id)->known.older;
	switch (message->opcode) {
	case zwp_text_input_v2_request_destroy:
		return to_field(client, id, draft(id, zwp_text_input_v3_request_destroy, ""));
	case zwp_text_input_v2_request_enable:
		older->enabled = w[0];
		older->is_new = true;
		break;
	case zwp_text_input_v2_request_disable:
		if (older->enabled == w[0])
			disable(client, id, older);
		break;
	case zwp_text_input_v2_request_set_surrounding_text:
		older->has_text = w[0] <= TEXT_MAX;
		older->cursor = w[1];
		older->anchor = w[2];
		if (older->has_text)
			keep(older->around, message);
		break;
	case zwp_text_input_v2_request_set_content_type:
		older->has_content = true;
		older->hint = w[0];
		older->purpose = w[1] + (w[1] >= PURPOSE_DATE);
		break;
	case zwp_text_input_v2_request_set_cursor_rectangle:
		older->has_cursor = true;
		memcpy(&older->rectangle, w, sizeof older->rectangle);
		break;
	case zwp_text_input_v2_request_update_state:
		update(client, id, older, w[1]);
	}
}

/* In version 2 what is deleted is a part of the string after it, and a preedit's cursor comes before it. */
static void done(struct client *client, uint32_t id, struct older *older) {
	bool deletes = older->before > 0 || older->after > 0;
	if (deletes)
		client_send(client, draft(id, zwp_text_input_v2_event_delete_surrounding_text, "uu", older->before, older->after));
	if (deletes || older->string[0])
		client_send(client, draft(id, zwp_text_input_v2_event_commit_string, "s", older->string));
	if (older->preedit[0] || older->shows) {
		client_send(client, draft(id, zwp_text_input_v2_event_preedit_cursor, "u", older->preedit_cursor));
		client_send(client, draft(id, zwp_text_input_v2_event_preedit_string, "ss", older->preedit, ""));
	}
	older->shows = older->preedit[0];
	older->string[0] = older->preedit[0] = 0;
	older->before = older->after = 0;
}

void older_event(struct client *client, const struct message *message) {
	const uint32_t *w = message->numbers;
	struct older *older = object_at(client, message->object)->known.older;
	switch (message->opcode) {
	case zwp_text_input_v3_event_enter:
	case zwp_text_input_v3_event_leave:
		older->entered = message->opcode == zwp_text_input_v3_event_enter ? w[0] : 0;
		older->is_new = true;
		older->shows = false;
		client_send(client, draft(message->object, message->opcode == zwp_text_input_v3_event_enter
			? zwp_text_input_v2_event_enter : zwp_text_input_v2_event_leave, "uu", ++older->serial, w[0]));
		break;
	case zwp_text_input_v3_event_preedit_string:
		keep(older->preedit, message);
		older->preedit_cursor = w[2];
		break;
	case zwp_text_input_v3_event_commit_string:
		keep(older->string, message);
		break;
	case zwp_text_input_v3_event_delete_surrounding_text:
		older->before = w[0];
		older->after = w[1];
		break;
	case zwp_text_input_v3_event_done:
		done(client, message->object, older);
	}
}
