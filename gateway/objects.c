/* The objects of one client by their ids. */
#include "gateway.h"

struct object *object_at(struct client *client, uint32_t id) {
	bool by_server = id >= FIRST_SERVER_ID;
	uint32_t place = by_server ? id - FIRST_SERVER_ID : id;
	return place < client->counts[by_server] ? &client->objects[by_server][place] : NULL;
}

struct object *object_live(struct client *client, uint32_t id) {
	struct object *object = object_at(client, id);
	return object && object->interface ? object : NULL;
}

struct object *object_make(struct client *client, uint32_t id, const struct interface *interface, bool by_server) {
	static uint64_t last;
	uint32_t *count = &client->counts[by_server], place = by_server ? id - FIRST_SERVER_ID : id;
	if (id == 0 || place > *count || place >= OBJECTS_MAX || (!by_server && object_live(client, id)))
		return NULL;
	*count += place == *count;
	struct object *object = object_at(client, id);
	*object = (struct object){ .interface = interface, .number = ++last };
	return object;
}

void object_free(struct client *client, uint32_t id) {
	struct object *object = object_at(client, id);
	if (object)
		object_ends(client, object);
	if (object)
		*object = (struct object){ 0 };
}
