/* A client: a program or a method, its connection to the compositor, and what it is told. */
#include "gateway.h"
#include <stdlib.h>

enum { CAPABILITY_KEYBOARD = 2 /* of wl_seat.capabilities */ };

struct client *client_open(enum role role, struct process *process) {
	static unsigned last_number;
	struct client *client = calloc(1, sizeof *client);
	if (!client)
		return NULL;
	client->next = gateway.clients;
	gateway.clients = client;
	client->number = ++last_number;
	client->role = role;
	client->process = process;
	client->counts[0] = client->far_count = 1; /* no object has the id 0 */
	object_make(client, DISPLAY, &wl_display_table, false)->far = far_make(client, DISPLAY);
	return client;
}

void client_close(struct client *client) {
	popups_client_ends(client);
	keyboard_leave(client, 0);
	request_release(client, 0);
	if (client->peer > 0)
		broker_order(gone, "gone %u", client->peer);
	if (client->serves > 0)
		keyboard_method_ended(client);
	else
		keyboard_board_ended(client, 0);
	wire_close(&client->near);
	wire_close(&client->far);
	for (uint32_t id = 1; client->held > 0 && id < client->counts[0]; id++)
		object_free(client, id);
	process_leave(client->process);
	free(client);
}

void client_end(struct client *client, const char *why) {
	if (!client->ending)
		out(OUT_PROBLEMS, "client %u (%s) ends: %s\n", client->number, process_named(client->process), why);
	client->ending = true;
}

void client_refuse(struct client *client, uint32_t object, enum error code, const char *why) {
	if (!client->ending)
		client_send(client, draft(DISPLAY, wl_display_event_error, "uus", object, code, why));
	client_end(client, why);
}

void client_send(struct client *client, const struct message *message) {
	wire_send(&client->near, message->bytes, message->size, NULL, 0);
}

/* Reads a message's arguments. Answers why it is none; NULL: it is read. */
static const char *read_message(struct client *client, bool request, struct message *message) {
	const struct object *object = object_live(client, message->object);
	if (!object)
		return "unknown object";
	const struct interface *interface = object->interface;
	if (!request && interface == &zwp_text_input_v2_table)
		interface = &zwp_text_input_v3_table; /* as the broker has it */
	if (message->opcode >= interface->counts[request])
		return "unknown opcode";
	return message_read(message, &interface->rows[request][message->opcode]) ? NULL : "malformed message";
}

/* Whether the client is told that an id is free: not of one that it doesn't know. */
static bool end_id(struct client *client, struct message *message) {
	uint32_t far = message->numbers[0], id = far < FIRST_SERVER_ID && far != DISPLAY ? near_of(client, far) : 0;
	if (id > 0 || private_of(client, far))
		far_end(client, far);
	if (id == 0)
		return false;
	object_free(client, id);
	message_set(message, 0, id);
	return true;
}

/* What a message of the compositor does, and whether the client gets it. */
static bool event_play(struct client *client, struct message *message) {
	const struct signature *signature = message->signature;
	const struct object *object = object_at(client, message->object);
	if (signature->new_id >= 0 && (!signature->made
			|| !object_make(client, message->numbers[signature->new_id], signature->made, true)))
		client_refuse(client, DISPLAY, ERROR_COMPOSITOR, "the compositor's new id is none");
	if (object->interface == &wl_keyboard_table && object->of_seat)
		return keyboard_event(client, message);
	if (object->interface == &xdg_popup_table)
		surface_event(client, object_at(client, message->object), message);
	else if (IS(message, wl_seat, event, capabilities) && object->of_seat && !(message->numbers[0] & CAPABILITY_KEYBOARD))
		keyboard_leave(client, 0); /* its keyboards are told nothing more */
	else if (IS(message, wl_registry, event, global))
		return globals_add(client, message);
	else if (IS(message, wl_registry, event, global_remove))
		globals_remove(client, message->numbers[0]);
	else if (IS(message, wl_display, event, delete_id))
		return end_id(client, message);
	else if (IS(message, wl_display, event, error))
		client_end(client, message->texts[2]);
	return true;
}

/* Whether the message waits for what the shell is asked now: a keymap's text, or what the last focus was told. */
static bool asks(struct client *client, enum side side, const struct message *message) {
	struct wire *wire = wire_of(client, side);
	const struct object *object = object_at(client, message->object);
	bool is_keymap = side == FAR ? IS(message, wl_keyboard, event, keymap) && object->of_seat
		: IS(message, zwp_virtual_keyboard_v1, request, keymap) && object->is_ours;
	const struct client *first = side == FAR && object->of_seat ? keyboard_reads_first(client, message) : NULL;
	struct effect effect = { .kind = EFFECT_READ, .link = client->link, .side = side };
	if (first)
		effect.from = first->link;
	else if (is_keymap && message->numbers[2] > 0 && message->numbers[2] <= KEYMAP_MAX && wire->token_count > 0)
		effect = (struct effect){ EFFECT_TEXT, client->link, side, .from = wire->tokens[0], .size = message->numbers[2] };
	else
		return false;
	ask_shell(effect);
	return true;
}

static const char *const no_descriptor = "a descriptor is missing", *const no_object = "an argument names no object";

static void play_request(struct client *client, struct message *message, const char *why) {
	enum error code = object_live(client, message->object) ? ERROR_METHOD : ERROR_OBJECT;
	uint32_t tokens[ARGUMENTS_MAX];
	if (!why && !wire_take_tokens(&client->near, message->descriptors, tokens))
		why = no_descriptor;
	if (why)
		client_refuse(client, message->object, code, why);
	else
		request_play(client, message, tokens);
}

static void play_event(struct client *client, struct message *message, const char *why) {
	uint32_t tokens[ARGUMENTS_MAX];
	message_address(message, message->object);
	enum named named = why ? NAMED_OBJECTS : ids_to_near(client, message);
	if (named == NAMED_NOTHING)
		why = no_object;
	else if (!why && !wire_take_tokens(&client->far, message->descriptors, tokens))
		why = no_descriptor;
	if (why)
		return client_refuse(client, DISPLAY, ERROR_COMPOSITOR, why);
	bool may_hide = client->own_pointer > 0 || client->own_touch > 0 || named == NAMED_PRIVATE;
	bool hides = may_hide && popups_hide(object_at(client, message->object), message, named == NAMED_PRIVATE);
	if (!hides && event_play(client, message))
		wire_send(&client->near, message->bytes, message->size, tokens, message->descriptors);
	else
		tokens_drop(tokens, message->descriptors);
}

/* False: the message waits. */
static bool play(struct client *client, enum side side, struct message *message) {
	struct wire *wire = wire_of(client, side);
	struct private *private = side == FAR ? private_of(client, message->object) : NULL;
	if (private)
		return private_event(client, message->object, private, message), true;
	if (side == FAR)
		message->object = near_of(client, message->object);
	const char *why = read_message(client, side == NEAR, message);
	if (!why && wire->stands != ANSWERED && asks(client, side, message))
		return wire->stands = WAITS, false;
	wire->stands = PLAYS;
	budget_spend(client, PASSING, message->size);
	(side == NEAR ? play_request : play_event)(client, message, why);
	return true;
}

void client_play(struct client *client, enum side side) {
	struct wire *wire = wire_of(client, side);
	enum front front = FRONT_WAITS;
	struct message message = { 0 };
	while (!client->ending && wire->stands != WAITS
			&& (front = message_front(wire->in + wire->in_from, wire->in_to - wire->in_from, &message)) == FRONT_WHOLE) {
		if (play(client, side, &message))
			wire->in_from += message.size;
		client->text = NULL;
	}
	if (front == FRONT_BAD)
		client_refuse(client, DISPLAY, ERROR_METHOD, "bad size");
}

/* The serving method is told something: whether it is active, with its done. */
static void method_told(struct client *client, const struct message *message) {
	if (IS(message, zwp_input_method_v2, event, activate) || IS(message, zwp_input_method_v2, event, deactivate))
		client->activating = message->opcode == zwp_input_method_v2_event_activate;
	else if (IS(message, zwp_input_method_v2, event, done))
		client->is_active = client->activating;
	else if (IS(message, zwp_input_method_v2, event, unavailable))
		client->serves = 0;
}

/* What happens to the gateway's own objects is nothing to the client; nor is at a renewal what it was told before. */
static void tell(struct client *client, struct message *message, uint32_t keymap) {
	struct object *object = object_at(client, message->object), *ended = object_live(client, message->numbers[0]);
	if (IS(message, wl_display, event, error))
		client_end(client, message->texts[2]);
	if (IS(message, wl_display, event, delete_id) && (!ended || !ended->is_ours))
		return;
	if (IS(message, wl_display, event, delete_id))
		object_free(client, message->numbers[0]);
	if (IS(message, zwp_text_input_v3, event, done))
		message_set(message, 0, message->numbers[0] + object->base);
	if (gateway.renews)
		return;
	log_message(client, "<-", message);
	object->count += IS(message, zwp_input_method_v2, event, done);
	if (message->object == client->serves && object->interface == &zwp_input_method_v2_table)
		method_told(client, message);
	if (object->interface == &zwp_text_input_v2_table)
		return older_event(client, message);
	uint32_t token = message->descriptors > 0 ? keymap_token(keymap) : 0;
	wire_send(&client->near, message->bytes, message->size, &token, message->descriptors);
}

void client_told(struct client *client, uint8_t *bytes, size_t size, const uint32_t *numbers) {
	struct message message;
	for (size_t at = 0; message_front(bytes + at, size - at, &message) == FRONT_WHOLE; at += message.size)
		if (!read_message(client, false, &message)) /* else it is of an object of the gateway's own */
			tell(client, &message, message.descriptors > 0 ? *numbers++ : 0);
}
