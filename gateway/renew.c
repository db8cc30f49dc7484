/* Another broker. Clients see a leave and an enter; their objects live on, and so do counts that they were told. */
#include "gateway.h"

/* When it is made again: the serving method before all others, so that it serves; popups and grabs after theirs. */
static int round_of(const struct client *client, uint32_t id, const struct object *object) {
	bool last = object->interface == &zwp_input_popup_surface_v2_table
		|| object->interface == &zwp_input_method_keyboard_grab_v2_table;
	return id == client->serves ? 0 : last ? 2 : 1;
}

/* Whether the id is of what lives at the broker, and was there when the object was made on it. */
static bool stays(struct client *client, uint32_t id, const struct object *object) {
	const struct object *under = object_live(client, id);
	return under && under->made[0] > 0 && under->number < object->number;
}

/* Not an unavailable method, which stays so; a grab that never stood; a grab or a popup whose method or surface ended. */
static bool is_made_again(struct client *client, uint32_t id, const struct object *object) {
	if (object->interface == &zwp_input_method_v2_table)
		return id == client->serves;
	if (object->interface == &zwp_input_method_keyboard_grab_v2_table)
		return !object->never_stands && stays(client, object->made[0], object);
	return object->interface != &zwp_input_popup_surface_v2_table
		|| (stays(client, object->made[0], object) && stays(client, object->made[3], object));
}

/* Makes an object again, by the message that made it, or it lives nowhere from now on. */
static void make(struct client *client, uint32_t id, struct object *object) {
	const struct keymap *keymap = keymap_find(object->keymap);
	struct message message = { 0 };
	message_front((uint8_t *)object->made, sizeof object->made, &message);
	object->base = object->count;
	if (!is_made_again(client, id, object))
		object->made[0] = 0;
	if (object->made[0] > 0)
		broker_receive(client, &message, 0);
	if (keymap)
		broker_receive(client, draft(id, zwp_virtual_keyboard_v1_request_keymap, "uu", keymap->format, keymap->size),
			object->keymap);
}

/* Makes all again, and presses the keys that a grab has; a release of one that isn't down goes to the window. */
static void make_all(void) {
	for (int round = 0; round < 3; round++)
		for (struct client *client = gateway.clients; client; client = client->next)
			for (uint32_t id = 1; id < client->counts[0]; id++) {
				struct object *object = object_live(client, id);
				if (object && object->made[0] > 0 && round_of(client, id, object) == round
						&& !client->ending && (client->peer > 0 || broker_join(client)))
					make(client, id, object);
			}
	keyboard_press();
	for (struct client *client = gateway.clients; client; client = client->next)
		request_press(client);
}

void renew(void) {
	if (!broker_prepare())
		return;
	broker_order(unfocus, "unfocus");
	broker_close();
	for (struct client *client = gateway.clients; client; client = client->next)
		client->peer = 0, client->waits = false;
	if (!broker_open())
		return;
	gateway.renews = true;
	make_all();
	gateway.renews = false;
	keyboard_join_broker();
}
