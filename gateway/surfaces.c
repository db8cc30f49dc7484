/* What programs' surfaces are: windows or not, what their next commit brings, which popup grabbed last; fields. */
#include "gateway.h"
#include <string.h>

enum { ANCHOR_TOP = 1, ANCHOR_BOTTOM = 2 /* of zwlr_layer_surface_v1 */ };

static struct object *live_of(struct client *client, uint32_t id, const struct interface *interface) {
	struct object *object = id > 0 ? object_live(client, id) : NULL;
	return object && object->interface == interface ? object : NULL;
}

static struct object *surface_of(struct client *client, uint32_t id) {
	return live_of(client, id, &wl_surface_table);
}

/* Whether it is what makes a surface a window: an xdg_surface or a layer surface, or what is on the first. */
static bool is_role(const struct object *object) {
	return object->interface == &xdg_surface_table || object->interface == &xdg_toplevel_table
		|| object->interface == &xdg_popup_table || object->interface == &zwlr_layer_surface_v1_table;
}

/* Whether nothing that is made or asked so is of the surface's next commit. */
static bool is_beside(const struct object *object, const struct message *message) {
	static const struct interface *const beside[] = { &zwp_idle_inhibitor_v1_table,
		&zwp_keyboard_shortcuts_inhibitor_v1_table, &wp_fractional_scale_v1_table };
	for (size_t at = 0; at < sizeof beside / sizeof *beside; at++)
		if (message->signature->made == beside[at] || object->interface == beside[at])
			return true;
	if (object->interface == &wl_subsurface_table)
		return message->opcode == wl_subsurface_request_destroy || message->opcode >= wl_subsurface_request_set_sync;
	return object->interface == &xdg_toplevel_table && !IS(message, xdg_toplevel, request, set_min_size)
		&& !IS(message, xdg_toplevel, request, set_max_size);
}

/* The surface that a request writes to, so that its next commit brings that; what is made of a surface knows it. */
static uint32_t written(struct client *client, const struct object *object, const struct message *message) {
	int made = message->signature->new_id;
	uint32_t under = object->is_of_surface ? object->known.role.under : 0;
	if (object->interface == &wl_surface_table)
		under = message->object;
	for (unsigned at = 0; made >= 0 && at < message->count; at++) {
		struct object *child = object_at(client, message->numbers[made]);
		if (!strchr("oO", message->signature->kinds[at]) || !surface_of(client, message->numbers[at]))
			continue;
		child->known.role.under = under = message->numbers[at]; /* of a subsurface: its parent, which is the last */
		child->is_of_surface = true;
	}
	return under;
}

/* The surface is shown no more: what the gateway has on it goes first, and the focus, which sway doesn't say. */
static void unmap(struct client *client, uint32_t id) {
	struct object *surface = surface_of(client, id);
	popups_leave(client, id);
	keyboard_unmapped(client, id);
	if (surface)
		surface->known.surface.is_mapped = false;
}

static void commit(struct client *client, uint32_t id, struct surface *surface) {
	if (surface->attaches && !surface->attached && surface->is_mapped)
		unmap(client, id);
	if (surface->attaches && surface->attached) {
		if (!surface->is_mapped)
			keyboard_mapped(client, id);
		surface->is_mapped = true;
	}
	surface->attaches = surface->pends = false;
	popups_committed(client, id);
}

static void role_request(struct client *client, struct object *object, const struct message *message) {
	struct part *role = &object->known.role;
	if (IS(message, xdg_surface, request, get_toplevel) || IS(message, xdg_surface, request, get_popup)) {
		bool is_popup = message->opcode == xdg_surface_request_get_popup;
		object_at(client, message->numbers[0])->known.role = (struct part){
			.under = role->under, .parent = is_popup ? message->numbers[1] : 0,
		};
		object_at(client, message->numbers[0])->is_of_surface = true;
		role->is_popup = is_popup;
		role->made = message->numbers[0];
	} else if (IS(message, xdg_popup, request, grab)) {
		role->below = client->top;
		client->top = message->object;
	} else if (IS(message, zwlr_layer_surface_v1, request, set_anchor)) {
		role->is_at_bottom = (message->numbers[0] & (ANCHOR_TOP | ANCHOR_BOTTOM)) == ANCHOR_BOTTOM;
	} else if (IS(message, xdg_surface, request, set_window_geometry)) {
		memcpy(&role->box, message->numbers, sizeof role->box);
	} else if (message->signature->ends) {
		struct object *surface = surface_of(client, role->under);
		unmap(client, role->under);
		if (client->top == message->object)
			client->top = role->below;
		if (surface && surface->known.surface.role == message->object)
			surface->known.surface.role = 0;
	}
}

void surface_request(struct client *client, struct object *object, const struct message *message) {
	uint32_t under = written(client, object, message);
	struct object *surface = surface_of(client, under);
	if (surface && !is_beside(object, message))
		surface->known.surface.pends = true;
	const struct interface *made = message->signature->made;
	if (surface && (made == &xdg_surface_table || made == &zwlr_layer_surface_v1_table))
		surface->known.surface.role = message->numbers[message->signature->new_id];
	if (is_role(object))
		return role_request(client, object, message);
	if (object->interface != &wl_surface_table)
		return;
	if (message->opcode == wl_surface_request_attach) {
		object->known.surface.attaches = true;
		object->known.surface.attached = message->numbers[0] > 0;
	} else if (message->opcode == wl_surface_request_commit) {
		commit(client, message->object, &object->known.surface);
	} else if (message->opcode == wl_surface_request_destroy) {
		popups_leave(client, message->object);
	}
}

void surface_event(struct client *client, struct object *object, const struct message *message) {
	if (IS(message, xdg_popup, event, configure))
		memcpy(&object->known.role.box, message->numbers, sizeof object->known.role.box);
	else if (IS(message, xdg_popup, event, popup_done) && client->top == message->object)
		client->top = object->known.role.below;
}

bool surface_commits(struct client *client, uint32_t id) {
	struct object *surface = surface_of(client, id);
	if (!surface || surface->is_gone || !surface->known.surface.is_mapped || surface->known.surface.pends)
		return false;
	const struct message *message = draft(surface->far, wl_surface_request_commit, "");
	wire_send(&client->far, message->bytes, message->size, NULL, 0);
	return true;
}

void field_request(struct client *client, struct field *field, const struct message *message) {
	if (IS(message, zwp_text_input_v3, request, enable)) {
		*field = (struct field){ .enables = true };
	} else if (IS(message, zwp_text_input_v3, request, disable)) {
		field->enables = false;
	} else if (IS(message, zwp_text_input_v3, request, set_cursor_rectangle)) {
		field->has_cursor = true;
		memcpy(&field->cursor, message->numbers, sizeof field->cursor);
	} else if (IS(message, zwp_text_input_v3, request, commit) && field->enables) {
		client->field = message->object;
		client->has_cursor = field->has_cursor;
		client->cursor = field->cursor;
	} else if (client->field == message->object && (IS(message, zwp_text_input_v3, request, destroy)
			|| (IS(message, zwp_text_input_v3, request, commit) && !field->enables))) {
		client->field = 0;
	}
}
