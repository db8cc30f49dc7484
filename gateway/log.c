/* Lines of the log: messages of text inputs and input methods by name, and what is shown. */
#include "gateway.h"
#include <ctype.h>
#include <stdio.h>
#include <string.h>

/* Which argument of a message is a key; -1: none is. */
static int key_of(const struct message *message) {
	bool is_grab = IS(message, zwp_input_method_keyboard_grab_v2, event, key);
	return is_grab ? 2 : IS(message, zwp_virtual_keyboard_v1, request, key) ? 1 : -1;
}

/* What is typed is hidden but for how long it is, where it isn't asked for. */
static void log_argument(const struct message *message, unsigned at) {
	bool text = strchr("sS", message->signature->kinds[at]) != NULL, hides = !outlets[OUT_LOG_TEXT];
	if (hides && ((int)at == key_of(message) || (text && message->numbers[at] > 0)))
		return out(OUT_LOG, text ? "<%u bytes>" : "<key>", message->numbers[at]);
	out(OUT_LOG, text ? "\"" : "%d", (int)message->numbers[at]);
	for (uint32_t from = 0; text && from < message->numbers[at]; from++)
		out(OUT_LOG, "%c", iscntrl((unsigned char)message->texts[at][from]) ? '?' : message->texts[at][from]);
	out(OUT_LOG, "%s", text ? "\"" : "");
}

void log_message(struct client *client, const char *way, const struct message *message) {
	if (!outlets[OUT_LOG])
		return;
	out(OUT_LOG, "%.6f %u %s %s@%u.%s(", (double)gateway.moment / 1e6, client->number, way,
		object_at(client, message->object)->interface->name, message->object, message->signature->name);
	for (unsigned at = 0; at < message->count; at++) {
		out(OUT_LOG, at > 0 ? ", " : "");
		log_argument(message, at);
	}
	out(OUT_LOG, ")\n");
}

const char *client_state(const struct client *client) {
	static char text[200];
	uint32_t surface;
	bool has_focus = keyboard_focus(&surface) == client;
	const char *what = client->role == PROGRAM ? (has_focus ? ", has the focus" : "")
		: client->serves == 0 ? ", doesn't serve" : client->is_active ? ", serves a text input" : ", serves";
	size_t size = (size_t)snprintf(text, sizeof text, "%s %u%s", client->role == METHOD ? "method" : "program",
		client->number, what);
	if (client->field > 0)
		size += (size_t)snprintf(text + size, sizeof text - size, ", %s text input %u",
			has_focus ? "holds the seat with its" : "enabled", client->field);
	snprintf(text + size, sizeof text - size, ": %s", process_named(client->process));
	return text;
}

void log_note(const struct client *client, const char *what, const struct box *box) {
	if (outlets[OUT_LOG])
		out(OUT_LOG, "%.6f %u %s (%d, %d, %d, %d)\n", (double)gateway.moment / 1e6, client->number, what, box->x, box->y,
			box->width, box->height);
}
