/* What a message of a client does: it goes to the broker, where its object lives there, and else to the compositor. */
#include "gateway.h"
#include <string.h>

/* What a client sends that is refused goes nowhere. */
static void forward(struct client *client, struct message *message, const uint32_t *tokens) {
	uint32_t object = message->object;
	if (!client->ending && ids_to_far(client, message))
		return wire_send(&client->far, message->bytes, message->size, tokens, message->descriptors);
	client_refuse(client, object, ERROR_METHOD, "an argument names no object of the compositor's");
	tokens_drop(tokens, message->descriptors);
}

/* An object is made at the broker, and will be so at another. */
static void make_there(struct client *client, struct object *object, const struct message *message) {
	memcpy(object->made, message->bytes, message->size);
	broker_receive(client, message, 0);
}

bool request_mirror(struct client *client, uint32_t surface) {
	struct object *object = object_live(client, surface);
	if (!object || object->interface != &wl_surface_table || object->is_gone)
		return false;
	if (object->made[0] == 0)
		make_there(client, object, draft(OWN + GLOBAL_COMPOSITOR, wl_compositor_request_create_surface, "u", surface));
	return true;
}

/* The broker has one seat and one manager of each kind, by the gateway's ids, whichever the client names. */
static void make_at_broker(struct client *client, struct message *message, int made) {
	const struct interface *interface = message->signature->made;
	const struct object *maker = object_at(client, message->object);
	const struct offer *offer = offer_of(maker->interface);
	uint32_t id = message->numbers[made], own = offer ? OWN + offer->broker : message->object;
	struct object *object = object_at(client, id);
	object->is_ours = true;
	if (offer ? client->peer == 0 && !broker_join(client) : maker->made[0] == 0) { /* it lives nowhere */
		if (interface == &zwp_input_method_v2_table)
			client_send(client, draft(id, zwp_input_method_v2_event_unavailable, ""));
		return;
	}
	if (interface == &zwp_input_method_v2_table && client->serves == 0)
		client->serves = id, client->is_active = client->activating = false;
	if (interface == &zwp_input_popup_surface_v2_table && !request_mirror(client, message->numbers[1]))
		return client_refuse(client, message->object, ERROR_OBJECT, "wrong object");
	if (interface == &zwp_input_method_keyboard_grab_v2_table)
		object->never_stands = message->object != client->serves || wlim_broker_grab(broker) > 0;
	memcpy(message->bytes, &own, sizeof own);
	if (offer)
		message_set(message, 1 - (unsigned)made, OWN + GLOBAL_SEAT);
	if (interface == &zwp_text_input_v2_table && !older_make(client, object))
		return; /* there is no memory, and it lives nowhere */
	make_there(client, object, message);
	if (interface == &zwp_input_popup_surface_v2_table)
		popup_make(client, id, message->numbers[1]);
}

/* A board's keymap: the board has its number, which is the broker's token. */
static void board_keymap(struct client *client, const struct message *message, uint32_t token) {
	uint32_t number = keymap_take(client->process, message->numbers[0], client->text, message->numbers[2]);
	struct object *board = object_at(client, message->object);
	token_drop(token);
	if (number == 0)
		return client_refuse(client, message->object, ERROR_OBJECT, "the keymap can't be read, or is one too many");
	broker_receive(client, message, number);
	client->held += board->keymap == 0;
	keymap_drop(board->keymap);
	board->keymap = number;
}

/* A key of a board, which the broker was told. */
static void board_key(struct client *client, uint32_t board, const uint32_t *words) {
	struct down *down = client->down, *end = down + client->down_count;
	while (down < end && (down->board != board || down->key != words[1]))
		down++;
	if (words[2] == 0 && down < end)
		*down = client->down[--client->down_count];
	if (words[2] != 0 && down == end && client->down_count < DOWN_MAX)
		client->down[client->down_count++] = (struct down){ board, words[1], words[0] };
}

void request_release(struct client *client, uint32_t board) {
	for (unsigned at = client->down_count; at-- > 0; ) {
		struct down down = client->down[at];
		if (board > 0 && down.board != board)
			continue;
		client->down[at] = client->down[--client->down_count];
		broker_receive(client, draft(down.board, zwp_virtual_keyboard_v1_request_key, "uuu", down.time, down.key, 0), 0);
	}
}

void request_lose(struct client *client, const struct message *message) {
	const struct object *object = object_live(client, message->object);
	if (!object || !object->is_ours || !message->signature || !message->signature->ends)
		return;
	popup_destroy(client, message->object);
	object_free(client, message->object);
	client_send(client, draft(DISPLAY, wl_display_event_delete_id, "u", message->object));
}

void request_press(struct client *client) {
	for (const struct down *down = client->down; down < client->down + client->down_count; down++)
		if (client->peer > 0 && !client->ending && !keyboard_has(client, down->board, down->key))
			broker_receive(client, draft(down->board, zwp_virtual_keyboard_v1_request_key, "uuu", down->time, down->key, 1), 0);
}

static void to_broker(struct client *client, struct message *message, const uint32_t *tokens) {
	struct object *object = object_at(client, message->object);
	int made = message->signature->new_id;
	log_message(client, "->", message);
	if (made < 0 && object->made[0] == 0) { /* it or what made it lives nowhere, or it is a manager */
		tokens_drop(tokens, message->descriptors);
		return request_lose(client, message);
	}
	if (object->interface == &zwp_text_input_v2_table)
		return older_request(client, message);
	if (object->interface == &zwp_text_input_v3_table)
		field_request(client, &object->known.field, message);
	else if (IS(message, zwp_input_popup_surface_v2, request, destroy))
		popup_destroy(client, message->object);
	if (made >= 0)
		return make_at_broker(client, message, made);
	if (message->descriptors > 0)
		return board_keymap(client, message, tokens[0]);
	object->count += IS(message, zwp_text_input_v3, request, commit);
	if (IS(message, zwp_input_method_v2, request, commit))
		message_set(message, 0, message->numbers[0] - object->base);
	if (IS(message, zwp_virtual_keyboard_v1, request, destroy))
		request_release(client, message->object);
	broker_receive(client, message, 0);
	if (IS(message, zwp_virtual_keyboard_v1, request, key))
		board_key(client, message->object, message->numbers);
	if (IS(message, zwp_virtual_keyboard_v1, request, destroy))
		keyboard_board_ended(client, message->object);
	if (message->object == client->serves && IS(message, zwp_input_method_v2, request, destroy)) {
		client->serves = 0;
		keyboard_method_ended(client);
	}
}

/* Makes the object of a message's new id. False: the client was refused. */
static bool make(struct client *client, const struct message *message) {
	int new_id = message->signature->new_id;
	bool names_it = IS(message, wl_registry, request, bind);
	const struct interface *made = names_it ? interface_named(message->texts[1]) : message->signature->made;
	if (!made)
		client_refuse(client, message->object, ERROR_OBJECT, "no such global");
	else if (!object_make(client, message->numbers[new_id], made, false))
		client_refuse(client, DISPLAY, ERROR_OBJECT, "bad new id");
	if (client->ending)
		return false;
	struct object *object = object_at(client, message->numbers[new_id]);
	object->version = names_it ? message->numbers[2] : object_at(client, message->object)->version;
	object->global = names_it ? message->numbers[0] : 0;
	return true;
}

void request_play(struct client *client, struct message *message, const uint32_t *tokens) {
	if (message->signature->new_id >= 0 && !make(client, message))
		return forward(client, message, tokens);
	struct object *object = object_at(client, message->object);
	if (object->is_ours)
		return to_broker(client, message, tokens);
	if (IS(message, wl_registry, request, bind) && !globals_bind(client, message))
		return;
	if (IS(message, wl_display, request, get_registry))
		globals_offer(client, message->numbers[0]);
	if (IS(message, wl_seat, request, get_keyboard)) {
		object_at(client, message->numbers[0])->of_seat = object->of_seat;
		client->keyboards += object->of_seat;
	}
	if (IS(message, wl_keyboard, request, release) && object->of_seat) {
		object->of_seat = false; /* it is told nothing more, no leave either */
		if (--client->keyboards == 0)
			keyboard_leave(client, 0);
	}
	if (IS(message, wl_surface, request, destroy)) {
		keyboard_leave(client, message->object);
		if (object->made[0] > 0)
			broker_receive(client, message, 0);
		object->made[0] = 0;
		object->is_gone = true;
	}
	if (client->role == PROGRAM)
		surface_request(client, object, message);
	else if (!popup_request(client, object, message, tokens))
		return tokens_drop(tokens, message->descriptors);
	forward(client, message, tokens);
}
