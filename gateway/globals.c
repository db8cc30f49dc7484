/* Globals: the compositor's as far as the tables go, and the broker's in the place of those that it has itself. */
#include "gateway.h"
#include <string.h>

enum { SEAT_MAX = 9 /* from version 10 on a key may be repeated by the compositor, which the broker doesn't know */ };

#define OFFERED 0xffff0000u /* and the broker's name for it: so what is offered is named to clients */

const struct offer offers[] = {
	{ GLOBAL_COMPOSITOR, GLOBAL_COMPOSITOR, ALL, &wl_compositor_table },
	{ GLOBAL_SEAT, GLOBAL_SEAT, ALL, &wl_seat_table },
	{ GLOBAL_FIELDS, GLOBAL_FIELDS, PROGRAM, &zwp_text_input_manager_v3_table },
	{ GLOBAL_METHODS, GLOBAL_METHODS, METHOD, &zwp_input_method_manager_v2_table },
	{ GLOBAL_BOARDS, GLOBAL_BOARDS, METHOD, &zwp_virtual_keyboard_manager_v1_table },
	{ GLOBAL_OLDER, GLOBAL_FIELDS, PROGRAM, &zwp_text_input_manager_v2_table },
	{ 0 },
};

const struct offer *offer_of(const struct interface *manager) {
	const struct offer *offer = offers;
	while (offer->interface && (offer->interface != manager || offer->role == ALL))
		offer++;
	return offer->interface ? offer : NULL;
}

/* Whether the compositor's own is hidden from the role. Programs may have virtual keyboards at the compositor. */
static bool is_hidden(enum role role, const struct interface *interface) {
	const struct offer *offer = offer_of(interface);
	return offer && (offer->global != GLOBAL_BOARDS || role == METHOD);
}

uint32_t globals_version(enum role role, const struct interface *interface, uint32_t version) {
	uint32_t most = interface == &wl_seat_table ? SEAT_MAX : version;
	if (!interface || is_hidden(role, interface))
		return 0;
	most = interface->version < most ? interface->version : most;
	return version < most ? version : most;
}

void globals_offer(struct client *client, uint32_t registry) {
	for (const struct offer *offer = offers; offer->interface; offer++)
		if (offer->role == client->role)
			client_send(client, draft(registry, wl_registry_event_global, "usu", OFFERED + offer->global,
				offer->interface->name, 1));
}

bool globals_add(struct client *client, struct message *message) {
	uint32_t name = message->numbers[0];
	const struct interface *interface = interface_named(message->texts[1]);
	popups_global(client, name, message->texts[1], message->numbers[2]);
	if (interface == &wl_seat_table && (gateway.seat == 0 || name < gateway.seat))
		gateway.seat = name;
	uint32_t version = globals_version(client->role, interface, message->numbers[2]);
	memcpy(message->bytes + message->size - 4, &version, 4);
	return version > 0;
}

void globals_remove(struct client *client, uint32_t name) {
	popups_global_gone(client, name);
	gateway.seat = name == gateway.seat ? 0 : gateway.seat;
}

bool globals_bind(struct client *client, const struct message *message) {
	uint32_t name = message->numbers[0], id = message->numbers[3];
	struct object *object = object_at(client, id);
	const struct offer *offer = offer_of(object->interface);
	object->of_seat = object->interface == &wl_seat_table && name == gateway.seat;
	if (!is_hidden(client->role, object->interface))
		return true;
	if (name != OFFERED + offer->global || offer->role != client->role || message->numbers[2] != 1)
		client_refuse(client, message->object, ERROR_OBJECT, "no such global");
	else
		object->is_ours = true; /* it lives nowhere; what it makes lives at the broker */
	return false;
}
