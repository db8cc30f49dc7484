/*
 * The core's parts by themselves: messages, objects by ids, where a popup is to be, bytes and tokens, keymaps. Built by
 * tests/gateway.sh. Prints what doesn't hold.
 */
#include "gateway.h"
#include "tables.h"
#include <stdio.h>
#include <string.h>

static int failed;

#define HOLDS(what) (void)((what) || (failed = 1, printf("%s, line %d: %s\n", __FILE__, __LINE__, #what)))

/* Words, as a message's bytes. */
#define WORDS(...) ((uint8_t *)(uint32_t[]){ __VA_ARGS__ })
#define HEAD(size, opcode) ((uint32_t)(size) << 16 | (opcode))

static bool reads(uint8_t *bytes, const char *kinds, struct message *message)
{
	static struct signature signature;
	signature = (struct signature){ .name = "test", .kinds = kinds, .new_id = -1 };
	return message_front(bytes, 65532, message) == FRONT_WHOLE && message_read(message, &signature);
}

static void fronts(void)
{
	struct message message;
	HOLDS(message_front(WORDS(1, HEAD(8, 0)), 7, &message) == FRONT_WAITS);
	HOLDS(message_front(WORDS(1, HEAD(12, 3)), 8, &message) == FRONT_WAITS);
	HOLDS(message_front(WORDS(7, HEAD(12, 3), 9), 12, &message) == FRONT_WHOLE);
	HOLDS(message.object == 7 && message.opcode == 3 && message.size == 12);
	HOLDS(message_front(WORDS(1, HEAD(4, 0)), 8, &message) == FRONT_BAD);
	HOLDS(message_front(WORDS(1, HEAD(10, 0)), 12, &message) == FRONT_BAD);
	HOLDS(message_front(WORDS(1, HEAD(0, 0)), 8, &message) == FRONT_BAD);
}

static void arguments(void)
{
	struct message message;
	HOLDS(reads(WORDS(1, HEAD(16, 0), 5, 0xfffffffe), "ui", &message) && message.count == 2);
	HOLDS(message.numbers[0] == 5 && (int32_t)message.numbers[1] == -2);
	HOLDS(!reads(WORDS(1, HEAD(12, 0), 5), "uu", &message));
	HOLDS(!reads(WORDS(1, HEAD(16, 0), 5, 6), "u", &message));
	HOLDS(reads(WORDS(1, HEAD(16, 0), 2, 'a'), "s", &message) && message.numbers[0] == 1);
	HOLDS(strcmp(message.texts[0], "a") == 0);
	HOLDS(!reads(WORDS(1, HEAD(16, 0), 2, 'a' | 'b' << 8), "s", &message));
	HOLDS(!reads(WORDS(1, HEAD(16, 0), 3, 'a'), "s", &message));
	HOLDS(!reads(WORDS(1, HEAD(12, 0), 2), "s", &message));
	HOLDS(!reads(WORDS(1, HEAD(16, 0), 0xffffffff, 0), "s", &message));
	HOLDS(!reads(WORDS(1, HEAD(12, 0), 0), "s", &message));
	HOLDS(reads(WORDS(1, HEAD(12, 0), 0), "S", &message) && !message.texts[0]);
	HOLDS(reads(WORDS(1, HEAD(20, 0), 5, 1, 2), "a", &message) && message.numbers[0] == 5);
	HOLDS(!reads(WORDS(1, HEAD(16, 0), 5, 1), "a", &message));
	HOLDS(reads(WORDS(1, HEAD(12, 0), 0), "O", &message) && !reads(WORDS(1, HEAD(12, 0), 0), "o", &message));
	HOLDS(!reads(WORDS(1, HEAD(12, 0), 0), "n", &message));
	HOLDS(reads(WORDS(1, HEAD(12, 0), 4), "uh", &message) && message.descriptors == 1 && message.count == 2);
	HOLDS(reads(WORDS(1, HEAD(16, 0), 4, 9), "hun", &message) && message.count == 3);
}

static void drafts(void)
{
	const struct message *made = draft(3, 2, "usu", 7, "wl_seat", 1);
	struct message copy = *made;
	HOLDS(made->size == 28 && memcmp(made->bytes, WORDS(3, HEAD(28, 2), 7, 8), 16) == 0);
	HOLDS(memcmp(made->bytes + 16, "wl_seat", 8) == 0 && memcmp(made->bytes + 24, WORDS(1), 4) == 0);
	HOLDS(message_read(&copy, &wl_registry_events[wl_registry_event_global]));
	made = draft(1, 0, "ss", "", "abcd");
	HOLDS(memcmp(made->bytes, WORDS(1, HEAD(28, 0), 1, 0, 5), 20) == 0 && memcmp(made->bytes + 20, "abcd\0\0\0", 8) == 0);
	HOLDS(reads(WORDS(4, HEAD(16, 1), 5, 6), "uu", &copy));
	message_set(&copy, 1, 9);
	HOLDS(memcmp(copy.bytes, WORDS(4, HEAD(16, 1), 5, 9), 16) == 0 && copy.numbers[1] == 9);
	char text[5000];
	memset(text, 'x', sizeof text);
	text[sizeof text - 1] = 0;
	made = draft(1, 0, "uus", 1, 2, text);
	copy = *made;
	HOLDS(made->size < 4200 && message_read(&copy, &wl_display_events[wl_display_event_error]));
}

static void tables(void)
{
	HOLDS(interface_named("wl_seat") == &wl_seat_table && !interface_named("wl_nothing") && !interface_named(""));
	HOLDS(strcmp(wl_registry_requests[wl_registry_request_bind].kinds, "usun") == 0);
	HOLDS(wl_seat_requests[wl_seat_request_get_keyboard].made == &wl_keyboard_table);
	HOLDS(strcmp(wl_keyboard_events[wl_keyboard_event_keymap].kinds, "uhu") == 0);
}

static void ids(void)
{
	static struct client client = { .counts = { 1, 0 } };
	HOLDS(object_make(&client, DISPLAY, &wl_display_table, false) && object_live(&client, DISPLAY));
	HOLDS(!object_make(&client, 0, &wl_seat_table, false) && !object_make(&client, DISPLAY, &wl_seat_table, false));
	HOLDS(!object_make(&client, 3, &wl_seat_table, false) && object_make(&client, 2, &wl_seat_table, false));
	HOLDS(!object_make(&client, FIRST_SERVER_ID, &wl_seat_table, false));
	HOLDS(!object_make(&client, 3, &wl_seat_table, true));
	HOLDS(!object_make(&client, FIRST_SERVER_ID + 1, &wl_seat_table, true));
	HOLDS(object_make(&client, FIRST_SERVER_ID, &wl_seat_table, true));
	HOLDS(object_make(&client, FIRST_SERVER_ID, &wl_surface_table, true)->interface == &wl_surface_table);
	object_free(&client, 2);
	HOLDS(!object_live(&client, 2) && object_make(&client, 2, &wl_surface_table, false));
	for (uint32_t id = 3; id < OBJECTS_MAX; id++)
		if (!object_make(&client, id, &wl_surface_table, false))
			HOLDS(id == 0);
	HOLDS(!object_make(&client, OBJECTS_MAX, &wl_surface_table, false));
	HOLDS(!object_at(&client, OBJECTS_MAX) && !object_at(&client, 0xffffffff));
}

/* The compositor's ids are used in order, and again when they are free; each names one of the client's, or nothing. */
static void far_ids(void)
{
	static struct client client = { .counts = { 1, 0 }, .far_count = 1 };
	for (uint32_t id = 1; id <= 4; id++)
		HOLDS(object_make(&client, id, &wl_surface_table, false));
	HOLDS(near_of(&client, 0) == 0 && near_of(&client, 1) == 0 && far_of(&client, 4) == 0);
	object_at(&client, 4)->far = far_make(&client, 4);
	object_at(&client, 2)->far = far_make(&client, 2);
	HOLDS(far_of(&client, 4) == 1 && far_of(&client, 2) == 2 && far_of(&client, 3) == 0 && far_of(&client, 99) == 0);
	HOLDS(near_of(&client, 1) == 4 && near_of(&client, 2) == 2 && near_of(&client, 3) == 0);
	HOLDS(near_of(&client, 3000000) == 0);
	HOLDS(near_of(&client, FIRST_SERVER_ID + 7) == FIRST_SERVER_ID + 7 && far_of(&client, FIRST_SERVER_ID) == 0);
	HOLDS(object_make(&client, FIRST_SERVER_ID, &wl_buffer_table, true));
	HOLDS(far_of(&client, FIRST_SERVER_ID) == FIRST_SERVER_ID);
	far_end(&client, 1);
	far_end(&client, 2);
	HOLDS(near_of(&client, 1) == 0 && near_of(&client, 2) == 0);
	HOLDS(far_make(&client, 3) == 2 && far_make(&client, 2) == 1 && far_make(&client, 1) == 3);
	for (uint32_t far = 4; far < OBJECTS_MAX; far++)
		if (far_make(&client, far) != far)
			HOLDS(far == 0);
	HOLDS(far_make(&client, 9) == 0 && near_of(&client, OBJECTS_MAX) == 0);
}

/* A message's ids become those of the other side, behind texts too; what names nothing there is refused. */
static void translated(void)
{
	static struct client client = { .counts = { 1, 0 }, .far_count = 1 };
	struct message message;
	uint8_t *bind = WORDS(2, HEAD(32, 0), 1, 8, 'w' | 'l' << 8 | '_' << 16 | 's' << 24, 'e' | 'a' << 8 | 't' << 16, 1, 3);
	for (uint32_t id = 1; id <= 3; id++)
		HOLDS(object_make(&client, id, &wl_surface_table, false));
	far_make(&client, DISPLAY);
	object_at(&client, 2)->far = far_make(&client, 2);
	far_make(&client, 7);
	HOLDS(reads(bind, "usun", &message) && ids_to_far(&client, &message));
	HOLDS(message.numbers[3] == 4 && ((uint32_t *)bind)[7] == 4);
	HOLDS(object_at(&client, 3)->far == 4 && near_of(&client, 4) == 3);
	HOLDS(reads(WORDS(2, HEAD(20, 0), 0, 3, 5), "Oou", &message) && ids_to_far(&client, &message));
	HOLDS(memcmp(message.bytes, WORDS(2, HEAD(20, 0), 0, 4, 5), 20) == 0);
	HOLDS(reads(WORDS(2, HEAD(12, 0), 9), "o", &message) && !ids_to_far(&client, &message));
	HOLDS(reads(WORDS(2, HEAD(16, 0), 4, 4), "uO", &message) && ids_to_near(&client, &message) == NAMED_OBJECTS);
	HOLDS(memcmp(message.bytes, WORDS(2, HEAD(16, 0), 4, 3), 16) == 0);
	HOLDS(reads(WORDS(2, HEAD(12, 0), 5), "o", &message) && ids_to_near(&client, &message) == NAMED_NOTHING);
	HOLDS(message_front(WORDS(1, HEAD(24, 0), 5, 0, 1, 0), 24, &message) == FRONT_WHOLE);
	HOLDS(message_read(&message, &wl_display_events[wl_display_event_error]));
	HOLDS(ids_to_near(&client, &message) == NAMED_OBJECTS && message.numbers[0] == DISPLAY);
}

/* Ids of the gateway's own: an event that names one says so, nothing of the client's does; they are used again. */
static void private_ids(void)
{
	static struct client client = { .counts = { 1, 0 }, .far_count = 1 };
	struct message message;
	HOLDS(object_make(&client, DISPLAY, &wl_display_table, false) && far_make(&client, DISPLAY) == 1 && ids_left(&client));
	uint32_t one = private_make(&client, &wl_surface_table, NULL), two = private_make(&client, &wl_callback_table, NULL);
	HOLDS(one == 2 && two == 3 && near_of(&client, one) == 0 && private_of(&client, one)->interface == &wl_surface_table);
	HOLDS(!private_of(&client, 1) && !private_of(&client, 4) && !private_of(&client, 0xff000000));
	HOLDS(reads(WORDS(1, HEAD(16, 0), 2, 1), "oo", &message) && ids_to_near(&client, &message) == NAMED_PRIVATE);
	HOLDS(message.numbers[0] == 0);
	HOLDS(message_front(WORDS(1, HEAD(24, 0), 2, 0, 1, 0), 24, &message) == FRONT_WHOLE);
	HOLDS(message_read(&message, &wl_display_events[wl_display_event_error]));
	HOLDS(ids_to_near(&client, &message) == NAMED_OBJECTS && message.numbers[0] == DISPLAY);
	private_forget(&client, one);
	HOLDS(!private_of(&client, one)->interface && private_of(&client, one)->is_used);
	far_end(&client, one);
	HOLDS(!private_of(&client, one) && far_make(&client, 7) == one && near_of(&client, one) == 7);
	while (ids_left(&client))
		private_make(&client, &wl_callback_table, NULL);
	for (int at = 0; at < PRIVATES_KEPT - 1; at++)
		HOLDS(private_make(&client, &wl_callback_table, NULL) > 0);
}

/* What a buffer or a pool holds is let go elsewhere. */
void object_ends(struct client *client, struct object *object)
{
	HOLDS(client && object);
}

/* Where a popup is to be. */
static void places(void)
{
	static const struct place { struct asked asked; struct wanted wanted; const char *what; } table[] = {
		{ { { 0, 0, 640, 480 }, { 100, 50, 2, 20 }, true, 200, 60, false, false, false }, { INSIDE, { 100, 70, 200, 60 } },
			"below the cursor" },
		{ { { 0, 0, 640, 480 }, { 100, 440, 2, 20 }, true, 200, 60, false, false, false }, { INSIDE, { 100, 380, 200, 60 } },
			"above it, at the bottom" },
		{ { { 0, 0, 640, 480 }, { 600, 50, 2, 20 }, true, 200, 60, false, false, false }, { INSIDE, { 440, 70, 200, 60 } },
			"as far right as it fits" },
		{ { { 20, 30, 640, 480 }, { 0, 0, 2, 20 }, true, 200, 60, false, false, false }, { INSIDE, { 20, 30, 200, 60 } },
			"in the geometry, not in its shadow" },
		{ { { 0, 0, 640, 100 }, { 10, 50, 2, 20 }, true, 200, 90, false, false, false }, { INSIDE, { 10, 10, 200, 90 } },
			"neither below nor above: as far down as it fits" },
		{ { { 0, 0, 640, 480 }, { 0, 0, 0, 0 }, false, 200, 60, false, false, false }, { INSIDE, { 0, 420, 200, 60 } },
			"nobody said where: at the bottom, at the left" },
		{ { { 0, 0, 150, 40 }, { 10, 10, 2, 20 }, true, 200, 60, false, false, false }, { INSIDE, { 0, 0, 200, 60 } },
			"it doesn't fit: its beginning is seen" },
		{ { { 0, 0, 150, 40 }, { 10, 10, 2, 20 }, true, 200, 60, false, true, false }, { INSIDE, { 10, 30, 200, 60 } },
			"what lies outside is shown too" },
		{ { { 0, 0, 150, 40 }, { -300, 10, 2, 20 }, true, 200, 60, false, true, false }, { INSIDE, { 0, 30, 200, 60 } },
			"but at the window" },
		{ { { 0, 0, 0, 0 }, { 100, 5, 2, 20 }, true, 200, 60, true, true, false }, { INSIDE, { 100, -55, 200, 60 } },
			"at the bottom of the screen: above" },
		{ { { 0, 0, 150, 40 }, { 10, 10, 2, 20 }, true, 200, 60, false, false, true }, { BESIDE, { 10, 10, 2, 20 } },
			"an xdg_popup, where it doesn't fit" },
		{ { { 5, 6, 150, 40 }, { 10, 10, 2, 20 }, true, 200, 60, false, false, true }, { BESIDE, { 5, 4, 2, 20 } },
			"the anchor is in the geometry's numbers" },
		{ { { 0, 0, 150, 40 }, { 400, -7, 0, 0 }, true, 200, 60, false, false, true }, { BESIDE, { 149, 0, 1, 1 } },
			"and lies in it" },
		{ { { 0, 0, 150, 40 }, { 100, 30, 900, 900 }, true, 200, 60, false, false, true }, { BESIDE, { 100, 30, 50, 10 } },
			"as a whole" },
		{ { { 0, 0, 640, 480 }, { 100, 50, 2, 20 }, true, 200, 60, false, false, true }, { INSIDE, { 100, 70, 200, 60 } },
			"it fits: no xdg_popup" },
		{ { { 0, 0, 0, 0 }, { 100, 50, 2, 20 }, true, 200, 60, false, false, false }, { INSIDE, { 100, 70, 200, 60 } },
			"nobody knows the geometry" },
		{ { { 0, 0, 0, 0 }, { 100, 50, 0, 0 }, true, 200, 60, false, false, true }, { BESIDE, { 100, 50, 1, 1 } },
			"nor here" },
		{ { { 0, 0, 640, 480 }, { 100, 50, 2, 20 }, true, 0, 60, false, false, true }, { NOWHERE, { 0, 0, 0, 0 } }, "nothing" },
		{ { { 0, 0, 640, 480 }, { INT32_MAX, INT32_MIN, INT32_MAX, INT32_MAX }, true, 200, 60, false, false, false },
			{ INSIDE, { 440, 0, 200, 60 } }, "no sum overflows" },
		{ { { INT32_MIN, INT32_MAX, INT32_MAX, INT32_MAX }, { 1, 2, INT32_MIN, 4 }, true, 200, 60, false, false, true },
			{ INSIDE, { -200, 1 << 20, 200, 60 } }, "nor here" },
	};
	for (size_t at = 0; at < sizeof table / sizeof *table; at++) {
		struct wanted found = popup_want(&table[at].asked);
		if (found.way != table[at].wanted.way || memcmp(&found.box, &table[at].wanted.box, sizeof found.box) != 0) {
			failed = 1;
			printf("%s: %d (%d, %d, %d, %d)\n", table[at].what, found.way, found.box.x, found.box.y, found.box.width,
				found.box.height);
		}
	}
}

/* Messages of some tokens each come whole, with theirs, however much is written at once; a token is used till then. */
static void wires(void)
{
	static struct wire from, to;
	struct message message;
	struct written next;
	uint32_t sent = 0, came = 0, id = 1;
	for (uint32_t at = 0; at < 60; at++) {
		uint32_t tokens[3], count = at % 4 == 3 ? 0 : at % 4 + 1;
		for (uint32_t each = 0; each < count; each++) {
			tokens[each] = token_make();
			HOLDS(tokens[each] == ++sent);
		}
		const struct message *made = draft(at + 1, (uint16_t)count, "u", at);
		wire_send(&from, made->bytes, made->size, tokens, count);
	}
	while (wire_next(&from, &next)) {
		uint32_t bytes = next.size > 5 ? 5 : (uint32_t)next.size;
		HOLDS(next.count <= TOKENS_AT_ONCE);
		for (unsigned each = 0; each < next.count; each++)
			token_keep(next.tokens[each]);
		HOLDS(wire_keep(&to, next.bytes, bytes, next.tokens, next.count));
		wire_wrote(&from, bytes);
		while (message_front(to.in + to.in_from, to.in_to - to.in_from, &message) == FRONT_WHOLE) {
			uint32_t tokens[3];
			HOLDS(message.object == id++ && wire_take_tokens(&to, message.opcode, tokens));
			for (int each = 0; each < message.opcode; each++) {
				HOLDS(tokens[each] == ++came);
				token_drop(tokens[each]);
			}
			to.in_from += message.size;
		}
	}
	HOLDS(id == 61 && came == sent && wire_waiting(&from) == 0 && from.parcel_count == 0);
	while (token_close() > 0)
		;
	HOLDS(tokens_used() == 0 && !wire_take_tokens(&to, 1, &id));
	wire_close(&from);
	wire_close(&to);
}

/* Who doesn't take what it is sent has a bounded queue, of tokens too; and who sends tokens that no message takes. */
static void bounds(void)
{
	static struct wire from, files, to;
	static uint8_t bytes[4096];
	uint32_t token;
	for (int at = 0; at < 1000; at++)
		wire_send(&from, bytes, sizeof bytes, NULL, 0);
	HOLDS(from.full && wire_waiting(&from) <= WIRE_FULL);
	for (int at = 0; at <= WIRE_TOKENS_OUT; at++) {
		token = token_make();
		HOLDS(!files.full);
		wire_send(&files, bytes, 4, &token, 1);
	}
	HOLDS(files.full);
	for (int at = 0; at < WIRE_TOKENS_IN; at++) {
		token = token_make();
		HOLDS(wire_keep(&to, bytes, 1, &token, 1));
	}
	token = token_make();
	HOLDS(!wire_keep(&to, bytes, 1, &token, 1));
	wire_close(&files);
	wire_close(&to);
	while (token_close() > 0)
		;
	HOLDS(tokens_used() == 0);
	token = 0;
	HOLDS(!wire_keep(&from, bytes, 1, &token, 1)); /* one that couldn't be kept */
}

/* Who takes nothing of what comes has a bounded buffer, and room again where it took some; none while it waits. */
static void comes_without_taking(void)
{
	static struct wire to;
	static uint8_t bytes[WIRE_READ];
	for (int at = 0; at < 8; at++) {
		size_t room = wire_room(&to);
		HOLDS(room == (at < 5 ? WIRE_READ : 0) && wire_keep(&to, bytes, room, NULL, 0));
		HOLDS(to.in_to <= sizeof to.in);
	}
	to.in_from = 100;
	HOLDS(!wire_keep(&to, bytes, 101, NULL, 0) && wire_room(&to) == 100);
	to.stands = WAITS;
	HOLDS(wire_room(&to) == 0);
	to.stands = PLAYS;
	HOLDS(wire_keep(&to, bytes, 100, NULL, 0) && to.in_to == sizeof to.in);
}

/* There are so many tokens, and one that is closed is made again. */
static void all_tokens(void)
{
	uint32_t token = 0, count = 0;
	while ((token = token_make()) > 0)
		count++;
	HOLDS(count == TOKENS_MAX - 1 && tokens_used() == count);
	token_keep(7);
	token_drop(7);
	HOLDS(token_close() == 0);
	token_drop(7);
	HOLDS(token_make() == 0 && token_close() == 7 && token_close() == 0 && token_make() == 7);
	for (token = 1; token < TOKENS_MAX; token++)
		token_drop(token);
	while (token_close() > 0)
		;
	HOLDS(tokens_used() == 0);
}

static struct effect asked;

void ask_shell(struct effect effect)
{
	asked = effect;
}

/* The same text has the same number; the shell is asked once for a file of it, from bytes that stay till it is made. */
static void keymaps(void)
{
	static const uint8_t text[] = "xkb_keymap {}", other[] = "xkb_keymap ()";
	HOLDS(keymap_take(NULL, 1, NULL, sizeof text) == 0);
	uint32_t number = keymap_take(NULL, 1, text, sizeof text), token = asked.token;
	HOLDS(number > 0 && keymap_find(number)->size == sizeof text);
	HOLDS(memcmp(keymap_find(number)->text, text, sizeof text) == 0);
	HOLDS(asked.kind == EFFECT_FILE && token > 0 && asked.size == sizeof text && asked.bytes == keymap_find(number)->text);
	asked.token = 0;
	HOLDS(keymap_take(NULL, 1, text, sizeof text) == number && asked.token == 0 && keymap_token(number) == token);
	HOLDS(keymap_take(NULL, 1, other, sizeof other) > number && asked.token > 0 && asked.token != token);
	HOLDS(keymap_take(NULL, 2, text, sizeof text) > number && keymap_token(0) == 0 && !keymap_find(0));
	keymap_drop(number);
	keymaps_sweep(false);
	HOLDS(keymap_find(number));
	keymap_drop(number);
	HOLDS(keymap_find(number) && keymap_take(NULL, 1, text, sizeof text) == number);
	keymap_drop(number);
	keymaps_sweep(false);
	HOLDS(!keymap_find(number) && keymap_token(number) == 0 && keymap_take(NULL, 1, text, sizeof text) > number);
	token_drop(token);
	keymaps_sweep(true);
	while (token_close() > 0)
		;
	HOLDS(tokens_used() == 0);
}

/* A process has its share, others theirs, and the compositor always one; what is let go makes room. */
static void shares_of_keymaps(void)
{
	const struct process *const processes[] = { (void *)&asked, (void *)&failed };
	static char many[200];
	uint32_t first = 0;
	for (uint8_t at = 0; at < 200; at++) {
		uint32_t number = keymap_take(processes[0], 1, &at, 1);
		HOLDS((number > 0) == (at < 8));
		first = at == 0 ? number : first;
	}
	HOLDS(keymap_take(processes[1], 2, (const uint8_t *)"a", 1) > 0 && keymap_take(NULL, 2, (const uint8_t *)"b", 1) > 0);
	keymap_drop(first);
	keymaps_sweep(false);
	HOLDS(keymap_take(processes[0], 2, (const uint8_t *)"c", 1) > 0 && keymap_take(processes[0], 2, (const uint8_t *)"d", 1) == 0);
	for (uint8_t at = 0; at < 200; at++)
		if (keymap_take((const struct process *)&many[at], 3, &at, 1) == 0)
			HOLDS(at >= 46);
	HOLDS(keymap_take(NULL, 4, (const uint8_t *)"e", 1) > 0);
	keymaps_sweep(true);
	while (token_close() > 0)
		;
	HOLDS(tokens_used() == 0);
}

int main(void)
{
	fronts();
	arguments();
	drafts();
	tables();
	ids();
	far_ids();
	translated();
	private_ids();
	places();
	wires();
	bounds();
	comes_without_taking();
	all_tokens();
	keymaps();
	shares_of_keymaps();
	printf("the gateway's parts: %s\n", failed ? "not as they should be" : "ok");
	return failed;
}
