/*
 * Ids of one client's objects: its own, and the compositor's. The compositor's are used in the order in which they are
 * made, and again once it says that they are free, in any order. Some are of objects that the client doesn't know.
 */
#include "gateway.h"
#include <string.h>

uint32_t far_make(struct client *client, uint32_t id) {
	uint32_t far = client->far_free;
	if (far == 0 && client->far_count == OBJECTS_MAX)
		return 0;
	if (far > 0)
		client->far_free = client->nears[far] & ~FREE;
	else
		far = client->far_count++;
	client->nears[far] = id;
	return far;
}

void far_end(struct client *client, uint32_t far) {
	struct private *private = private_of(client, far);
	if (private) {
		*private = (struct private){ 0 };
		client->private_count--;
	}
	client->nears[far] = FREE | client->far_free;
	client->far_free = far;
}

uint32_t far_of(struct client *client, uint32_t id) {
	const struct object *object = object_live(client, id);
	return !object ? 0 : id >= FIRST_SERVER_ID ? id : object->far;
}

uint32_t near_of(const struct client *client, uint32_t far) {
	if (far >= FIRST_SERVER_ID)
		return far;
	return far < client->far_count && !(client->nears[far] & (FREE | PRIVATE)) ? client->nears[far] : 0;
}

bool ids_left(const struct client *client) {
	return client->far_count <= OBJECTS_MAX - PRIVATES_KEPT && client->private_count <= PRIVATES_MAX - PRIVATES_KEPT;
}

uint32_t private_make(struct client *client, const struct interface *interface, struct popup *owner) {
	uint32_t place = 0;
	while (place + 1 < PRIVATES_MAX && client->privates[place].is_used)
		place++;
	client->private_count++;
	client->privates[place] = (struct private){ interface, owner, true };
	return far_make(client, PRIVATE | place);
}

struct private *private_of(struct client *client, uint32_t far) {
	bool is_private = far < client->far_count && (client->nears[far] & (FREE | PRIVATE)) == PRIVATE;
	return is_private ? &client->privates[client->nears[far] & ~PRIVATE] : NULL;
}

void private_forget(struct client *client, uint32_t far) {
	struct private *private = private_of(client, far);
	if (private)
		private->interface = NULL;
}

bool ids_to_far(struct client *client, struct message *message) {
	const char *kinds = message->signature->kinds;
	bool is_full = client->far_free == 0 && client->far_count > OBJECTS_MAX - PRIVATES_KEPT;
	for (unsigned at = 0; at < message->count; at++) {
		uint32_t id = message->numbers[at], far = id;
		if (kinds[at] == 'n' && is_full)
			return false;
		if (kinds[at] == 'n')
			far = object_at(client, id)->far = far_make(client, id);
		else if ((kinds[at] == 'o' || kinds[at] == 'O') && id > 0)
			far = far_of(client, id);
		if (far == 0 && id > 0)
			return false;
		if (far != id)
			message_set(message, at, far);
	}
	message_address(message, far_of(client, message->object));
	return true;
}

enum named ids_to_near(struct client *client, struct message *message) {
	const char *kinds = message->signature->kinds;
	enum named named = NAMED_OBJECTS;
	for (unsigned at = 0; at < message->count; at++) {
		uint32_t far = message->numbers[at];
		if ((kinds[at] != 'o' && kinds[at] != 'O') || far == 0)
			continue;
		uint32_t id = near_of(client, far);
		if (id == 0 && IS(message, wl_display, event, error))
			id = DISPLAY; /* of an object that the client doesn't know */
		else if (id == 0 && !private_of(client, far))
			return NAMED_NOTHING;
		else if (id == 0)
			named = NAMED_PRIVATE;
		message_set(message, at, id);
	}
	return named;
}
