/* The gateway's own objects in a program's connection, of its own registry. */
#include "popups.h"
#include <string.h>

static const struct { const struct interface *interface; uint32_t version; bool may_lack; } owns[OWNS] = {
	[OWN_COMPOSITOR] = { &wl_compositor_table, 4, false }, [OWN_MEMORY] = { &wl_shm_table, 1, false },
	[OWN_SUBSURFACES] = { &wl_subcompositor_table, 1, false }, [OWN_SHELL] = { &xdg_wm_base_table, 3, true },
	[OWN_VIEWS] = { &wp_viewporter_table, 1, true }, [OWN_SEAT] = { &wl_seat_table, 5, false },
};

void popups_global(struct client *client, uint32_t name, const char *interface, uint32_t version) {
	for (unsigned at = 0; at < OWNS; at++)
		if (client->owns[at].name == 0 && strcmp(interface, owns[at].interface->name) == 0) {
			client->owns[at].name = name;
			client->owns[at].version = version < owns[at].version ? version : owns[at].version;
		}
	client->is_wlroots |= strcmp(interface, "zwlr_screencopy_manager_v1") == 0;
}

void popups_global_gone(struct client *client, uint32_t name) {
	for (unsigned at = 0; at < OWNS; at++)
		if (client->owns[at].name == name && client->owns[at].id == 0)
			client->owns[at].name = 0;
}

bool has_own(struct client *program) {
	for (unsigned at = 0; at < OWNS; at++)
		if (program->owns[at].name == 0 && !owns[at].may_lack)
			return false;
	if (!ids_left(program) || wire_waiting(&program->far) > WIRE_SLOW)
		return false;
	if (program->owns[OWN_COMPOSITOR].id > 0)
		return true;
	uint32_t registry = private_make(program, &wl_registry_table, NULL);
	ASK(program, DISPLAY, wl_display_request_get_registry, "u", registry);
	for (unsigned at = 0; at < OWNS; at++) {
		struct own *own = &program->owns[at];
		if (own->name == 0)
			continue;
		own->id = private_make(program, owns[at].interface, NULL);
		ASK(program, registry, wl_registry_request_bind, "usuu", own->name, owns[at].interface->name, own->version, own->id);
	}
	return true;
}
