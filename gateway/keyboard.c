/* The keyboard of the seat: who has the focus, which keys went where, and what is given back of them. */
#include "gateway.h"
#include <string.h>

enum {
	KEYS = 1024, /* evdev's numbers of keys are lower; larger ones are taken for those */
};

static struct {
	struct client *focus; /* NULL: nobody has it */
	uint32_t surface, serial, time; /* the focused surface; the last serial that its client was told; of the last key */
	uint64_t number; /* the focused surface's, whose id may be used again */
	bool is_unmapped; /* it isn't shown: nobody has the focus, but the compositor never said so to `last` */
	const struct client *last;
	uint32_t entered, key_serial; /* of the last enter; of the last key, which each of the client's keyboards is told */
	bool key_given, fresh; /* the client got that key; it got the focus and no modifiers yet */
	bool has_modifiers, repeats; /* what follows was told */
	uint32_t keymap, modifiers[4], rate, delay;
	enum { UP, AT_WINDOW, AT_GRAB } down[KEYS]; /* keys that the broker was told are down, and who has them */
	struct given { /* by which board it is pressed at the client */
		unsigned client; /* the number of the board's; 0: by none */
		uint32_t board;
	} given[KEYS];
} seat;

/* Sends an event of each of its wl_keyboards of the seat, where a keymap's number is given with its descriptor. */
static void send_all(const struct message *message, uint32_t keymap) {
	for (uint32_t id = 0; id < seat.focus->counts[0]; id++) {
		const struct object *object = object_at(seat.focus, id);
		if (object->interface != &wl_keyboard_table || !object->of_seat)
			continue;
		uint32_t token = keymap_token(keymap);
		memcpy(message->bytes, &id, sizeof id);
		wire_send(&seat.focus->near, message->bytes, message->size, &token, keymap > 0);
	}
}

static void send_modifiers(const uint32_t m[4]) {
	memmove(seat.focus->modifiers, m, sizeof seat.focus->modifiers);
	seat.fresh = false;
	send_all(draft(0, wl_keyboard_event_modifiers, "uuuuu", seat.serial, m[0], m[1], m[2], m[3]), 0);
}

/* A key of a board, or of none. */
static void send_key(struct given giver, uint32_t time, uint32_t key, uint32_t state) {
	seat.given[key % KEYS] = state != 0 ? giver : (struct given){ 0 };
	send_all(draft(0, wl_keyboard_event_key, "uuuu", seat.serial, time, key, state), 0);
}

/* The keymap, where the client has another one; its modifiers begin anew with it. */
static void send_keymap(uint32_t number) {
	const struct keymap *keymap = keymap_find(number);
	if (!keymap || seat.focus->keymap == number)
		return;
	seat.focus->keymap = number;
	send_all(draft(0, wl_keyboard_event_keymap, "uu", keymap->format, keymap->size), number);
	if (!seat.fresh)
		send_modifiers(seat.focus->modifiers);
}

/* Tells the broker a key. Answers whether the client gets it: no grab has it, or has what a board pressed there. */
static bool order_key(uint32_t key, uint32_t state) {
	int64_t way = broker_order(key, "key %u %u %u", seat.time, key, state);
	bool given = seat.given[key % KEYS].client > 0 && state == 0;
	seat.down[key % KEYS] = state == 0 || way == WLIM_TOO_MANY ? UP : way == WLIM_TO_GRAB ? AT_GRAB : AT_WINDOW;
	if (way == WLIM_TO_GRAB)
		typed_key(seat.number, seat.time, key, state);
	if (way == WLIM_NOWHERE) /* the grab that had the press is gone: who was given it back gets the release */
		seat.given[key % KEYS].client = 0;
	return way == WLIM_NOWHERE ? given : way != WLIM_TO_GRAB;
}

/* Nobody will tell the releases of keys that are down: they come before the focus goes. */
static void release_all(void) {
	for (uint32_t key = 0; key < KEYS; key++)
		if (seat.down[key] != UP)
			order_key(key, 0);
}

static void tell_focus(void) {
	if (seat.focus && seat.focus->peer && request_mirror(seat.focus, seat.surface))
		broker_order(focus, "focus %u %u", seat.focus->peer, seat.surface);
	else
		broker_order(unfocus, "unfocus");
}

/* Connections are read in any order, but the compositor's serials rise. What it wrote to the last one comes first. */
struct client *keyboard_reads_first(const struct client *client, const struct message *message) {
	bool enters = IS(message, wl_keyboard, event, enter);
	return enters && seat.focus && seat.focus != client && !seat.focus->ending ? seat.focus : NULL;
}

static void on_enter(struct client *client, uint32_t serial, uint32_t surface) {
	const struct object *object = object_live(client, surface);
	if ((seat.focus == client && seat.surface == surface) || (int32_t)(serial - seat.entered) < 0)
		return; /* another keyboard of the client, or the focus went on since */
	release_all();
	memset(seat.given, 0, sizeof seat.given);
	seat.is_unmapped = false;
	seat.focus = object && !object->is_gone ? client : NULL; /* a destroyed one's id is another's soon */
	seat.surface = surface;
	seat.number = object ? object->number : 0;
	seat.serial = seat.entered = serial;
	seat.fresh = true;
	tell_focus();
}

void keyboard_leave(const struct client *client, uint32_t surface) {
	if (seat.last == client && (surface == 0 || seat.surface == surface))
		seat.is_unmapped = false;
	if (seat.focus != client || (surface > 0 && seat.surface != surface))
		return;
	release_all();
	seat.focus = NULL;
	tell_focus();
}

struct client *keyboard_focus(uint32_t *surface) {
	*surface = seat.surface;
	return seat.focus;
}

void keyboard_unmapped(const struct client *client, uint32_t surface) {
	if (seat.focus != client || seat.surface != surface)
		return;
	keyboard_leave(client, surface);
	seat.is_unmapped = true;
	seat.last = client;
}

void keyboard_mapped(struct client *client, uint32_t surface) {
	if (!seat.is_unmapped || seat.last != client || seat.surface != surface
			|| seat.number != object_at(client, surface)->number)
		return;
	seat.is_unmapped = false;
	seat.focus = client;
	tell_focus();
}

void keyboard_client_joined(const struct client *client) {
	if (client == seat.focus && !gateway.renews)
		tell_focus();
}

void keyboard_board_ended(const struct client *client, uint32_t board) {
	for (uint32_t key = 0; seat.focus && key < KEYS; key++) {
		struct given given = seat.given[key];
		if (given.client == client->number && (board == 0 || given.board == board))
			send_key((struct given){ 0 }, seat.time, key, 0);
	}
}

bool keyboard_has(const struct client *client, uint32_t board, uint32_t key) {
	return seat.given[key % KEYS].client == client->number && seat.given[key % KEYS].board == board;
}

void keyboard_press(void) {
	for (uint32_t key = 0; key < KEYS; key++)
		if (seat.down[key] == AT_GRAB)
			broker_order(key, "key %u %u %u", seat.time, key, 1);
}

void keyboard_method_ended(const struct client *client) {
	keyboard_board_ended(client, 0);
	broker_order(unfocus, "unfocus");
	tell_focus();
}

/* Whether the client gets a key. Its keyboards are the seat's again before it, whatever boards sent. */
static bool on_key(struct client *client, uint32_t serial, uint32_t time, uint32_t key, uint32_t state) {
	if (client != seat.focus || serial == seat.key_serial)
		return client != seat.focus || seat.key_given;
	seat.key_serial = seat.serial = serial;
	seat.time = time;
	seat.key_given = order_key(key, state);
	if (seat.key_given && client->keymap > 0) /* else its own isn't kept here: nothing older is told in its place */
		send_keymap(seat.keymap);
	if (seat.key_given && seat.has_modifiers && memcmp(client->modifiers, seat.modifiers, sizeof seat.modifiers) != 0)
		send_modifiers(seat.modifiers);
	return seat.key_given;
}

/*
 * Whether the client's keyboard gets modifiers. Where a grab does, the method gives them back, behind the keys before
 * them: a keyboard that was entered after another one is told what that was.
 */
static bool on_modifiers(struct client *client, uint32_t keyboard, uint32_t serial, const uint32_t m[4]) {
	struct object *object = object_at(client, keyboard);
	const uint32_t *last = client->modifiers;
	bool fresh = object->is_fresh;
	if (client != seat.focus)
		return true;
	seat.serial = serial;
	object->is_fresh = false;
	if (!seat.has_modifiers || memcmp(seat.modifiers, m, sizeof seat.modifiers) != 0) {
		seat.has_modifiers = true;
		memcpy(seat.modifiers, m, sizeof seat.modifiers);
		broker_order(mods, "mods %u %u %u %u", m[0], m[1], m[2], m[3]);
	}
	bool grabbed = wlim_broker_grab(broker) > 0;
	if (grabbed)
		typed_modifiers(seat.number, m);
	if (grabbed && !seat.fresh) {
		if (fresh)
			client_send(client, draft(keyboard, wl_keyboard_event_modifiers, "uuuuu", serial, last[0], last[1], last[2],
				last[3]));
		return false;
	}
	memcpy(client->modifiers, m, sizeof client->modifiers);
	seat.fresh = false;
	return true;
}

bool keyboard_event(struct client *client, const struct message *message) {
	const uint32_t *words = message->numbers;
	switch (message->opcode) {
	case wl_keyboard_event_keymap:
		client->keymap = keymap_take(NULL, words[0], client->text, words[2]);
		if (client->keymap > 0 && client->keymap != seat.keymap)
			broker_order(keymap, "keymap %u %u %u", words[0], client->keymap, words[2]);
		if (client->keymap > 0) {
			keymap_drop(seat.keymap);
			seat.keymap = client->keymap;
		}
		return true;
	case wl_keyboard_event_enter:
		client_send(client, message); /* before its field hears of it */
		object_at(client, message->object)->is_fresh = true;
		on_enter(client, words[0], words[1]);
		return false;
	case wl_keyboard_event_leave:
		keyboard_leave(client, words[1]);
		return true;
	case wl_keyboard_event_key:
		return on_key(client, words[0], words[1], words[2], words[3]);
	case wl_keyboard_event_modifiers:
		return on_modifiers(client, message->object, words[0], &words[1]);
	case wl_keyboard_event_repeat_info:
		seat.repeats = true;
		seat.rate = words[0];
		seat.delay = words[1];
		broker_order(repeat, "repeat %d %d", (int32_t)seat.rate, (int32_t)seat.delay);
	}
	return true;
}

void keyboard_give(const struct client *from, uint32_t keymap, const struct wlim_told *told) {
	const uint32_t words[] = { told->first, told->second, (uint32_t)told->third, (uint32_t)told->fourth };
	uint32_t repeats = told->kind == WLIM_PASS && seat.repeats && seat.down[words[1] % KEYS] ? seat.delay / 2 : UINT32_MAX;
	if (!seat.focus || !(told->kind == WLIM_PASS ? typed_key_here(seat.number, words[0], words[1], repeats)
			: typed_modifiers_here(seat.number, words)))
		return;
	send_keymap(keymap);
	if (told->kind == WLIM_PASS)
		send_key((struct given){ from->number, told->id }, words[0], words[1], words[2]);
	else
		send_modifiers(words);
}

void keyboard_join_broker(void) {
	const struct keymap *keymap = keymap_find(seat.keymap);
	const uint32_t *m = seat.modifiers;
	if (keymap)
		broker_order(keymap, "keymap %u %u %u", keymap->format, seat.keymap, keymap->size);
	if (seat.repeats)
		broker_order(repeat, "repeat %d %d", (int32_t)seat.rate, (int32_t)seat.delay);
	if (seat.has_modifiers)
		broker_order(mods, "mods %u %u %u %u", m[0], m[1], m[2], m[3]);
	tell_focus();
}
