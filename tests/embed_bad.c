/*
 * What C can do wrong, and what a client can: closed seats, bad texts, labels of other kinds, too little room, fields
 * without a text, each allocation failing in turn, a million requests of no effect or beyond the limits, and a second
 * seat in the place of the first. Then the same by bytes: closed brokers, numbers out of range, peers that aren't there
 * or ended, too little room, a full journal, lost events. Built by tests/embed.sh, with
 * -Wl,--wrap=malloc,--wrap=realloc,--wrap=free. Prints what doesn't hold.
 */
#include <malloc.h>
#include <stdio.h>
#include <stdlib.h>
#include <string.h>
#include <wlim.h>

void *__real_malloc(size_t size);
void *__real_realloc(void *at, size_t size);
void __real_free(void *at);

static long fails_at = -1; /* which allocation fails, from 0; below 0 none */
static long held; /* bytes that are allocated */
static int failed;

static int refuses(void)
{
	return fails_at >= 0 && fails_at-- == 0;
}

void *__wrap_malloc(size_t size)
{
	void *at = refuses() ? NULL : __real_malloc(size);
	held += at ? (long)malloc_usable_size(at) : 0;
	return at;
}

void *__wrap_realloc(void *at, size_t size)
{
	long before = at ? (long)malloc_usable_size(at) : 0;
	void *now = refuses() ? NULL : __real_realloc(at, size);
	held += now ? (long)malloc_usable_size(now) - before : 0;
	return now;
}

void __wrap_free(void *at)
{
	held -= at ? (long)malloc_usable_size(at) : 0;
	__real_free(at);
}

#define HOLDS(what) (void)((what) || (failed = 1, printf("line %d: %s\n", __LINE__, #what)))

/* One string's way: peer 1 with surface 2 and field 3, peer 4 with method 5. */
static int64_t step(struct wlim *seat, int at)
{
	switch (at) {
	case 0: return wlim_peer(seat);
	case 1: return wlim_surface(seat, 1, 20);
	case 2: return wlim_field(seat, 1, 30);
	case 3: return wlim_peer(seat);
	case 4: return wlim_method(seat, 4, 50);
	case 5: return wlim_focus(seat, 2);
	case 6: return wlim_enable(seat, 3);
	case 7: return wlim_surround(seat, 3, "abc", 3, 1, 2);
	case 8: return wlim_commit(seat, 3);
	case 9: return wlim_mstring(seat, 5, "hello", 5);
	case 10: return wlim_mpreedit(seat, 5, "wor", 3, 0, 3);
	default: return wlim_mcommit(seat, 5, 1);
	}
}
#define STEPS 12

/* What is told of these steps, as a sum; an act that is refused for want of memory is given again. */
static unsigned long told(struct wlim *seat)
{
	struct wlim_event event;
	char text[WLIM_TEXT_MAX];
	unsigned long sum = 0;
	for (int at = 0; at < STEPS; at++) {
		int64_t answer = step(seat, at);
		if (answer == WLIM_NO_MEMORY)
			answer = step(seat, at);
		HOLDS(answer == at + 1);
	}
	while (wlim_next(seat, &event, text, sizeof text) == WLIM_GIVEN) {
		HOLDS(event.number == event.to * 10);
		HOLDS(strlen(text) == event.length);
		sum = sum * 31 + event.kind * 7 + event.to + (unsigned long)event.first + (unsigned char)text[0];
	}
	return sum;
}

static void closed(void)
{
	struct wlim seat = { 0 };
	struct wlim_event event;
	struct wlim_shown shown;
	char text[WLIM_TEXT_MAX];
	for (int at = 0; at < STEPS; at++)
		HOLDS(step(&seat, at) == WLIM_CLOSED);
	HOLDS(wlim_gone(&seat, 1) == WLIM_CLOSED && wlim_drop(&seat, 1) == WLIM_CLOSED && wlim_grab(&seat, 1, 2) == WLIM_CLOSED);
	HOLDS(wlim_next(&seat, &event, text, sizeof text) == WLIM_CLOSED);
	HOLDS(!wlim_look(&seat, &shown) && wlim_number(&seat, 3) == 0);
	HOLDS(wlim_batch(&seat, 5, 1, &(struct wlim_batch){ 0 }) == WLIM_CLOSED);
	wlim_close(&seat);
	HOLDS(!seat.live && seat.place == NULL && held == 0);
}

static void bad_requests(void)
{
	struct wlim seat = { 0 };
	struct wlim_event event;
	struct wlim_shown shown;
	static char long_text[5000], text[WLIM_TEXT_MAX];
	memset(long_text, 'a', sizeof long_text);
	HOLDS(wlim_open(&seat) && wlim_version() == WLIM_VERSION);
	HOLDS(told(&seat) != 0);
	HOLDS(wlim_mstring(&seat, 5, NULL, 0) > 0 && wlim_surround(&seat, 3, NULL, 0, 0, 0) > 0);
	HOLDS(wlim_mstring(&seat, 5, "\xff", 1) == WLIM_NO_TEXT && wlim_mstring(&seat, 5, "a\0b", 3) == WLIM_NO_TEXT);
	HOLDS(wlim_mstring(&seat, 5, long_text, 4083) > 0 && wlim_mstring(&seat, 5, long_text, 4084) == WLIM_LONG);
	HOLDS(wlim_surround(&seat, 3, long_text, 4075, 0, 0) > 0 && wlim_surround(&seat, 3, long_text, 4076, 0, 0) == WLIM_LONG);
	HOLDS(wlim_mpreedit(&seat, 5, long_text, 4076, 0, 0) == WLIM_LONG);
	HOLDS(wlim_enable(&seat, 1) == WLIM_NOTHING && wlim_commit(&seat, 5) == WLIM_NOTHING && wlim_focus(&seat, 3) == WLIM_NOTHING);
	HOLDS(wlim_gone(&seat, 2) == WLIM_NOTHING && wlim_drop(&seat, 0) == WLIM_NOTHING && wlim_drop(&seat, UINT32_MAX) == WLIM_NOTHING);
	HOLDS(wlim_rect(&seat, 3, 0, 0, -1, 1) == WLIM_NOTHING && wlim_surround(&seat, 3, "ab", 2, -1, 0) == WLIM_NOTHING);
	HOLDS(wlim_look(&seat, &shown) && shown.focus == 2 && shown.holder == 3 && shown.serving == 5 && shown.standing == 0);
	/* What a batch comes to, before it is committed. */
	struct wlim_batch batch = { 7, 7 };
	HOLDS(wlim_batch(&seat, 5, 1, &batch) == WLIM_RELAYED && batch.field == 3 && batch.serial == 1);
	HOLDS(wlim_batch(&seat, 5, 9, &batch) == WLIM_NAMES_NO_DONE && batch.field == 0 && batch.serial == 0);
	HOLDS(wlim_batch(&seat, 4, 1, &batch) == WLIM_NOT_SERVING && wlim_batch(&seat, 99, 1, &batch) == WLIM_NOT_SERVING);
	/* The string of 4,083 bytes is told, and fits WLIM_TEXT_MAX alone. */
	HOLDS(wlim_mcommit(&seat, 5, 1) > 0);
	HOLDS(wlim_next(&seat, &event, NULL, 0) == WLIM_SHORT && wlim_next(&seat, &event, text, 4083) == WLIM_SHORT);
	HOLDS(wlim_next(&seat, &event, text, sizeof text) == WLIM_GIVEN && event.length == 4083 && strlen(text) == 4083);
	/* A number goes with its object, also for what waits. */
	HOLDS(wlim_drop(&seat, 3) > 0 && wlim_number(&seat, 3) == 0 && wlim_number(&seat, 2) == 20);
	HOLDS(wlim_next(&seat, &event, text, sizeof text) == WLIM_GIVEN && event.to == 3 && event.number == 0);
	HOLDS(wlim_open(&seat) && wlim_look(&seat, &shown) && shown.acts == 0);
	HOLDS(wlim_next(&seat, &event, text, sizeof text) == WLIM_NOTHING);
	wlim_close(&seat);
	wlim_close(&seat);
	HOLDS(held == 0);
}

/* A client or an object beyond the limits is refused, also a million times, and takes no memory; others go on. */
static void limits(void)
{
	struct wlim seat = { 0 };
	HOLDS(wlim_open_with(&seat, 2, 3));
	HOLDS(wlim_peer(&seat) == 1 && wlim_peer(&seat) == 2 && wlim_peer(&seat) == WLIM_MANY);
	for (int64_t number = 3; number <= 5; number++)
		HOLDS(wlim_field(&seat, 1, 0) == number);
	HOLDS(wlim_surface(&seat, 1, 9) == WLIM_MANY);
	long before = held;
	for (int at = 0; at < 1000000; at++)
		HOLDS(wlim_field(&seat, 1, 0) == WLIM_MANY);
	HOLDS(held == before);
	HOLDS(wlim_method(&seat, 2, 0) == 6 && wlim_grab(&seat, 6, 0) == 7 && wlim_grab(&seat, 6, 0) == 8);
	HOLDS(wlim_grab(&seat, 6, 0) == WLIM_MANY && wlim_drop(&seat, 3) == 9 && wlim_surface(&seat, 1, 9) == 10);
	HOLDS(wlim_gone(&seat, 2) == 11 && wlim_peer(&seat) == 12 && wlim_peer(&seat) == WLIM_MANY);
	HOLDS(wlim_open_with(&seat, 0, 0) && wlim_peer(&seat) == WLIM_MANY);
	wlim_close(&seat);
	HOLDS(held == 0);
}

/* A field takes memory for its texts with its first one, and keeps it; one without a text has none. */
static void small_fields(void)
{
	struct wlim seat = { 0 };
	HOLDS(wlim_open(&seat) && wlim_peer(&seat) == 1 && wlim_surface(&seat, 1, 0) == 2);
	for (int64_t number = 3; number <= 202; number++)
		HOLDS(wlim_field(&seat, 1, 0) == number);
	HOLDS(held < 200 * 1024);
	HOLDS(wlim_focus(&seat, 2) == 203 && wlim_surround(&seat, 3, "a", 1, 0, 0) == 204);
	long before = held;
	HOLDS(wlim_surround(&seat, 3, "ab", 2, 1, 1) == 205 && held - before <= 8192);
	before = held;
	for (uint32_t at = 0; at < 1000; at++)
		HOLDS(wlim_surround(&seat, 3, "abc", 3, 2, 2) == 206 + at);
	HOLDS(held == before);
	wlim_close(&seat);
	HOLDS(held == 0);
}

static void allocations(void)
{
	struct wlim seat = { 0 };
	wlim_open(&seat);
	unsigned long wanted = told(&seat);
	long most = 0;
	for (int done = 0; !done; most++) {
		fails_at = most;
		if (!wlim_open(&seat)) {
			HOLDS(!seat.live);
			HOLDS(wlim_open(&seat));
		}
		HOLDS(told(&seat) == wanted);
		done = fails_at >= 0;
		fails_at = -1;
		wlim_close(&seat);
		HOLDS(held == 0);
	}
	printf("%ld allocations failed in turn\n", most - 1);
}

static void hostile_client(void)
{
	struct wlim seat = { 0 };
	struct wlim_shown shown;
	HOLDS(wlim_open(&seat));
	told(&seat);
	HOLDS(wlim_peer(&seat) == STEPS + 1);
	long before = held;
	for (uint32_t at = 0; at < 250000; at++) {
		HOLDS(wlim_enable(&seat, at + 100) == WLIM_NOTHING);
		HOLDS(wlim_mstring(&seat, at + 100, "x", 1) == WLIM_NOTHING);
		HOLDS(wlim_drop(&seat, at + 100) == WLIM_NOTHING);
		HOLDS(wlim_popup(&seat, at + 100, 2, 7) == WLIM_NOTHING);
	}
	HOLDS(held == before);
	HOLDS(wlim_look(&seat, &shown) && shown.acts == STEPS + 1);
	HOLDS(wlim_mstring(&seat, 5, "on", 2) > 0 && wlim_mcommit(&seat, 5, 1) > 0);
	wlim_close(&seat);
	HOLDS(held == 0);
}

/* What clients see of two seats in turn: how often the field was entered and left, its last serial, the method's dones. */
struct seen {
	int entered, left, strings;
	int64_t serial;
	uint32_t dones;
};

static void see(struct wlim *seat, struct seen *seen, uint32_t commits_before)
{
	struct wlim_event event;
	char text[WLIM_TEXT_MAX];
	while (wlim_next(seat, &event, text, sizeof text) == WLIM_GIVEN) {
		seen->entered += event.kind == WLIM_ENTER;
		seen->left += event.kind == WLIM_LEAVE;
		seen->strings += event.kind == WLIM_COMMIT_STRING;
		seen->dones += event.kind == WLIM_METHOD_DONE;
		if (event.kind == WLIM_FIELD_DONE)
			seen->serial = event.first + commits_before;
	}
}

/* A seat is opened in the place of one that is near its end: its clients see a leave and an enter, and serials go on. */
static void second_seat(void)
{
	struct wlim first = { 0 }, second = { 0 };
	struct seen seen = { 0 };
	HOLDS(wlim_open(&first) && wlim_open(&second));
	for (int at = 0; at < STEPS; at++)
		HOLDS(step(&first, at) == at + 1);
	see(&first, &seen, 0);
	HOLDS(seen.entered == 1 && seen.strings == 1 && seen.serial == 1);
	HOLDS(wlim_unfocus(&first) > 0);
	see(&first, &seen, 0);
	wlim_close(&first);
	HOLDS(seen.left == 1);
	uint32_t dones_before = seen.dones;
	for (int at = 0; at < 9; at++) /* all that lives, the focus, and what the field says when it is entered */
		HOLDS(step(&second, at) == at + 1);
	see(&second, &seen, 1);
	HOLDS(seen.entered == 2 && seen.dones > dones_before);
	HOLDS(wlim_mstring(&second, 5, "on", 2) > 0 && wlim_mcommit(&second, 5, seen.dones - dones_before) > 0);
	see(&second, &seen, 1);
	HOLDS(seen.left == 1 && seen.strings == 2 && seen.serial == 2);
	wlim_close(&second);
	HOLDS(held == 0);
}

/* ---- By bytes ---- */

static int64_t sends(struct wlim_broker *broker, uint32_t peer, const char *hex)
{
	uint8_t bytes[256];
	size_t length = 0;
	for (; hex[2 * length]; length++)
		HOLDS(sscanf(hex + 2 * length, "%2hhx", &bytes[length]) == 1);
	return wlim_broker_receive(broker, 1, peer, bytes, length, NULL, 0);
}

/* One string's way: the text input 7 of peer 1 on its surface 6, the method 5 of peer 2. */
#define REGISTRY "0100000001000c0002000000"
#define SEAT "02000000000020000200000008000000776c5f736561740001000000"
static int64_t app_step(struct wlim_broker *broker, uint32_t peer, int at)
{
	switch (at) {
	case 0: return wlim_broker_join(broker, 1, WLIM_APP);
	case 1: return sends(broker, peer, REGISTRY SEAT "04000000");
	case 2: return sends(broker, peer, "0200000000002800010000000e000000776c5f636f6d706f7369746f720000000100000003000000");
	case 3: return sends(broker, peer, "0200000000003400030000001a0000007a77705f746578745f696e7075745f6d616e616765725f7633"
		"0000000100000005000000");
	default: return sends(broker, peer, "0300000000000c000600000005000000010010000700000004000000");
	}
}

static int64_t broker_step(struct wlim_broker *broker, int at)
{
	switch (at) {
	case 0: case 1: case 2: case 3: case 4: return app_step(broker, 1, at);
	case 5: return wlim_broker_join(broker, 1, WLIM_METHOD);
	case 6: return sends(broker, 2, REGISTRY SEAT "03000000");
	case 7: return sends(broker, 2, "0200000000003400040000001c0000007a77705f696e7075745f6d6574686f645f6d616e616765725f76"
		"32000100000004000000" "04000000000010000300000005000000");
	case 8: return wlim_broker_focus(broker, 1, 1, 6);
	case 9: return sends(broker, 1, "07000000010008000700000007000800");
	case 10: return sends(broker, 2, "050000000000100003000000686900000500000003000c0001000000");
	default: return wlim_broker_key(broker, 1, 12, 30, 1);
	}
}
static const int64_t broker_answers[] = { 1, 1, 1, 1, 1, 2, 1, 1, 1, 1, 1, WLIM_PASSED };
#define BROKER_STEPS (int)(sizeof broker_answers / sizeof broker_answers[0])

/* A sum of all that is taken for a peer; what is refused for want of memory is asked again. */
static unsigned long all_taken(struct wlim_broker *broker, uint32_t peer)
{
	uint8_t bytes[4096];
	uint32_t tokens[256];
	struct wlim_taken taken = { 0, 0 };
	unsigned long sum = 0;
	int64_t answer;
	do {
		answer = wlim_broker_take(broker, 1, peer, bytes, 64, tokens, 256, &taken);
		for (size_t at = 0; answer == WLIM_GIVEN && at < taken.bytes; at++)
			sum = sum * 31 + bytes[at] + 1;
	} while (answer == WLIM_GIVEN || answer == WLIM_NO_MEMORY);
	HOLDS(answer == WLIM_NOTHING);
	return sum;
}

/* What is told of these steps, as a sum. 0 where there was no memory for what a peer sent: it has ended then. */
static unsigned long broker_tells(struct wlim_broker *broker)
{
	struct wlim_told told;
	for (int at = 0; at < BROKER_STEPS; at++) {
		int64_t answer = broker_step(broker, at);
		uint32_t peer = at < 5 || at == 9 ? 1 : 2;
		if (answer == WLIM_NO_MEMORY && at != 0 && at != 5 && at != 8 && at != 11) {
			HOLDS(wlim_broker_standing(broker, peer) == WLIM_GONE && sends(broker, peer, REGISTRY) == WLIM_ENDED);
			HOLDS(wlim_broker_gone(broker, 1, peer) == WLIM_ENDED);
			return 0;
		}
		if (answer == WLIM_NO_MEMORY)
			answer = broker_step(broker, at);
		HOLDS(answer == broker_answers[at]);
	}
	HOLDS(wlim_broker_next(broker, &told) == WLIM_GIVEN && told.kind == WLIM_PASS && told.peer == 0 && told.second == 30);
	HOLDS(wlim_broker_next(broker, &told) == WLIM_NOTHING);
	return all_taken(broker, 1) * 31 + all_taken(broker, 2);
}

static void broker_closed(void)
{
	struct wlim_broker broker = { 0 };
	struct wlim_told told = { .kind = 7 };
	struct wlim_taken taken = { 7, 7 };
	struct wlim_used used = { 7, 7 };
	uint8_t bytes[16] = { 0 };
	uint32_t tokens[256] = { 0 };
	for (int at = 0; at < BROKER_STEPS; at++)
		HOLDS(broker_step(&broker, at) == WLIM_CLOSED);
	HOLDS(wlim_broker_join(&broker, 1, 9) == WLIM_CLOSED && wlim_broker_gone(&broker, 1, 1) == WLIM_CLOSED);
	HOLDS(wlim_broker_take(&broker, 1, 1, bytes, 16, tokens, 256, &taken) == WLIM_CLOSED && taken.bytes == 7);
	HOLDS(wlim_broker_take(&broker, 1, 1, NULL, 0, NULL, 0, &taken) == WLIM_CLOSED && taken.tokens == 7);
	HOLDS(wlim_broker_standing(&broker, 1) == WLIM_CLOSED && wlim_broker_stored(&broker, 1) == WLIM_CLOSED);
	HOLDS(wlim_broker_ready(&broker, 0) == WLIM_CLOSED && wlim_broker_peers(&broker) == WLIM_CLOSED);
	HOLDS(wlim_broker_grab(&broker) == WLIM_CLOSED && wlim_broker_used(&broker, &used) == WLIM_CLOSED && used.weight == 7);
	HOLDS(wlim_broker_unfocus(&broker, 1) == WLIM_CLOSED && wlim_broker_area(&broker, 1, 1, 6, 0, 0, -1, 0) == WLIM_CLOSED);
	HOLDS(wlim_broker_screen(&broker, 1, 1, 1) == WLIM_CLOSED && wlim_broker_mods(&broker, 1, 0, 0, 0, 0) == WLIM_CLOSED);
	HOLDS(wlim_broker_keymap(&broker, 1, 1, 2, 3) == WLIM_CLOSED && wlim_broker_repeat(&broker, 1, 25, 600) == WLIM_CLOSED);
	HOLDS(wlim_broker_next(&broker, &told) == WLIM_CLOSED && told.kind == 7);
	wlim_broker_close(&broker);
	HOLDS(!broker.live && broker.place == NULL && held == 0);
}

static void broker_ranges(void)
{
	struct wlim_broker broker = { 0 };
	struct wlim_taken taken = { 7, 7 };
	uint8_t bytes[5000];
	uint32_t tokens[257] = { 0 };
	HOLDS(wlim_broker_open(&broker, 0, 1, 1) == WLIM_RANGE && wlim_broker_open(&broker, 1048577, 1, 1) == WLIM_RANGE);
	HOLDS(wlim_broker_open(&broker, 1, 0, 1) == WLIM_RANGE && wlim_broker_open(&broker, 1, 4000001, 1) == WLIM_RANGE);
	HOLDS(wlim_broker_open(&broker, 1, 1, 0) == WLIM_RANGE && wlim_broker_open(&broker, 1, 1, 536870913) == WLIM_RANGE);
	HOLDS(wlim_broker_open(&broker, 1048576, 4000000, 536870912) == WLIM_GIVEN && broker.live);
	HOLDS(wlim_broker_open(&broker, UINT32_MAX, 1, 1) == WLIM_RANGE && !broker.live && held == 0);
	HOLDS(wlim_broker_open(&broker, 4096, 1000, 100000) == WLIM_GIVEN);
	HOLDS(wlim_broker_join(&broker, 1, 0) == WLIM_RANGE && wlim_broker_join(&broker, 1, 4) == WLIM_RANGE);
	HOLDS(wlim_broker_join(&broker, 1, WLIM_KEYED) == 1 && wlim_broker_peers(&broker) == 1);
	HOLDS(wlim_broker_receive(&broker, 1, 1, NULL, 0, tokens, 257) == WLIM_RANGE);
	HOLDS(wlim_broker_receive(&broker, 1, 1, NULL, 0, tokens, 256) == WLIM_GIVEN);
	HOLDS(wlim_broker_receive(&broker, 1, 1, NULL, 0, NULL, 0) == WLIM_GIVEN);
	HOLDS(wlim_broker_area(&broker, 1, 1, 6, 0, 0, -1, 1) == WLIM_RANGE);
	HOLDS(wlim_broker_area(&broker, 1, 1, 6, 0, 0, 1, INT32_MIN) == WLIM_RANGE);
	HOLDS(wlim_broker_area(&broker, 1, 9, 6, INT32_MIN, -1, 0, INT32_MAX) == WLIM_GIVEN);
	HOLDS(wlim_broker_screen(&broker, 1, -1, 1) == WLIM_RANGE && wlim_broker_screen(&broker, 1, 1, -1) == WLIM_RANGE);
	HOLDS(wlim_broker_key(&broker, 1, 1, 30, 2) == WLIM_RANGE && wlim_broker_key(&broker, 1, 1, 30, UINT32_MAX) == WLIM_RANGE);
	HOLDS(wlim_broker_focus(&broker, 1, 0, 0) == WLIM_GIVEN && wlim_broker_focus(&broker, 1, 9, 9) == WLIM_GIVEN);
	/* Cut anywhere; too little room; then more room than is taken at once. */
	HOLDS(sends(&broker, 1, "01000000") == WLIM_GIVEN && sends(&broker, 1, "01000c000200") == WLIM_GIVEN);
	HOLDS(wlim_broker_ready(&broker, 0) == 0 && sends(&broker, 1, "0000") == WLIM_GIVEN && wlim_broker_ready(&broker, 0) == 1);
	int64_t stored = wlim_broker_stored(&broker, 1);
	HOLDS(wlim_broker_take(&broker, 1, 1, NULL, 0, tokens, 256, &taken) == WLIM_SHORT && taken.bytes == 7);
	HOLDS(wlim_broker_take(&broker, 1, 1, bytes, 5000, tokens, 255, &taken) == WLIM_SHORT && taken.tokens == 7);
	HOLDS(wlim_broker_take(&broker, 1, 1, bytes, 1, tokens, 256, &taken) == WLIM_GIVEN && taken.bytes == 1 && bytes[0] == 2);
	HOLDS(wlim_broker_take(&broker, 1, 1, bytes, 5000, tokens, 256, &taken) == WLIM_GIVEN);
	HOLDS(stored > 1 && taken.bytes == (size_t)stored - 1 && taken.tokens == 0);
	HOLDS(wlim_broker_take(&broker, 1, 1, bytes, 5000, tokens, 256, &taken) == WLIM_NOTHING);
	wlim_broker_close(&broker);
	wlim_broker_close(&broker);
	HOLDS(held == 0);
}

/* Peers that aren't there, end by a bad message, or don't fit their store. */
static void broker_ends(void)
{
	struct wlim_broker broker = { 0 };
	struct wlim_taken taken;
	uint8_t bytes[64];
	uint32_t tokens[256];
	HOLDS(wlim_broker_open(&broker, 100, 1000, 100000) == WLIM_GIVEN);
	HOLDS(wlim_broker_join(&broker, 1, WLIM_APP) == 1 && wlim_broker_join(&broker, 1, WLIM_APP) == 2);
	static const uint32_t nobody[] = { 0, 3, UINT32_MAX };
	for (int at = 0; at < 3; at++) {
		HOLDS(sends(&broker, nobody[at], REGISTRY) == WLIM_NOBODY && wlim_broker_gone(&broker, 1, nobody[at]) == WLIM_NOBODY);
		HOLDS(wlim_broker_standing(&broker, nobody[at]) == WLIM_NOBODY);
		HOLDS(wlim_broker_stored(&broker, nobody[at]) == WLIM_NOBODY);
		HOLDS(wlim_broker_take(&broker, 1, nobody[at], bytes, 64, tokens, 256, &taken) == WLIM_NOBODY);
	}
	HOLDS(sends(&broker, 1, "0100000001000700") == WLIM_GIVEN && wlim_broker_standing(&broker, 1) == WLIM_BAD);
	HOLDS(sends(&broker, 1, REGISTRY) == WLIM_ENDED && wlim_broker_gone(&broker, 1, 1) == WLIM_ENDED);
	HOLDS(wlim_broker_stored(&broker, 1) == 32); /* wl_display.error(1, 1, "bad size") */
	HOLDS(wlim_broker_take(&broker, 1, 1, bytes, 64, tokens, 256, &taken) == WLIM_GIVEN && taken.bytes == 32);
	HOLDS(memcmp(bytes + 20, "bad size", 9) == 0);
	HOLDS(wlim_broker_take(&broker, 1, 1, bytes, 64, tokens, 256, &taken) == WLIM_ENDED);
	/* The globals of an application have 112 bytes. What comes behind the message that ends a peer says nothing. */
	HOLDS(sends(&broker, 2, REGISTRY REGISTRY) == WLIM_ENDED && wlim_broker_standing(&broker, 2) == WLIM_OVER);
	wlim_broker_close(&broker);
	HOLDS(held == 0);
}

/* A full journal takes no more but the ends of peers, 64 peers are the most, and 1,024 events wait for the shell. */
static void broker_limits(void)
{
	struct wlim_broker broker = { 0 };
	struct wlim_used used;
	struct wlim_told told;
	HOLDS(wlim_broker_open(&broker, 4096, 1, 1000) == WLIM_GIVEN && wlim_broker_join(&broker, 1, WLIM_APP) == 1);
	HOLDS(wlim_broker_join(&broker, 1, WLIM_APP) == WLIM_FULL && wlim_broker_unfocus(&broker, 1) == WLIM_FULL);
	HOLDS(wlim_broker_standing(&broker, 1) == WLIM_ALIVE && sends(&broker, 1, REGISTRY) == WLIM_FULL);
	HOLDS(wlim_broker_standing(&broker, 1) == WLIM_GONE && wlim_broker_gone(&broker, 1, 1) == WLIM_ENDED);
	HOLDS(wlim_broker_used(&broker, &used) == WLIM_GIVEN && used.entries == 1 && used.weight == 16);
	HOLDS(wlim_broker_open(&broker, 4096, 10000, 1000000) == WLIM_GIVEN);
	for (int64_t number = 1; number <= 64; number++)
		HOLDS(wlim_broker_join(&broker, 1, WLIM_METHOD) == number);
	HOLDS(wlim_broker_join(&broker, 1, WLIM_METHOD) == WLIM_MANY && wlim_broker_gone(&broker, 1, 3) == WLIM_GIVEN);
	HOLDS(wlim_broker_join(&broker, 1, WLIM_METHOD) == 65 && wlim_broker_peers(&broker) == 65);
	for (uint32_t time = 0; time < 1025; time++)
		HOLDS(wlim_broker_key(&broker, 1, time, 30, (time + 1) % 2) == WLIM_PASSED);
	for (uint32_t time = 0; time < 1024; time++)
		HOLDS(wlim_broker_next(&broker, &told) == WLIM_GIVEN && told.first == time);
	HOLDS(wlim_broker_next(&broker, &told) == WLIM_MISSED && wlim_broker_next(&broker, &told) == WLIM_NOTHING);
	for (uint32_t key = 0; key < 64; key++)
		wlim_broker_key(&broker, 1, 1, 100 + key, 1);
	HOLDS(wlim_broker_key(&broker, 1, 1, 99, 1) == WLIM_TOO_MANY);
	wlim_broker_close(&broker);
	HOLDS(held == 0);
}

/* A million requests of a client beside the string's way: no memory stays for them, and the next string goes its way. */
static void broker_hostile(void)
{
	struct wlim_broker broker = { 0 };
	static uint8_t enables[4096];
	struct wlim_used used;
	HOLDS(wlim_broker_open(&broker, 65536, 4000000, 536870912) == WLIM_GIVEN);
	for (int at = 0; at < BROKER_STEPS; at++)
		HOLDS(broker_step(&broker, at) == broker_answers[at]);
	HOLDS(app_step(&broker, 3, 0) == 3);
	for (int at = 1; at < 5; at++)
		HOLDS(app_step(&broker, 3, at) == WLIM_GIVEN);
	for (size_t at = 0; at < sizeof enables; at += 8)
		memcpy(enables + at, "\7\0\0\0\1\0\10", 8);
	long before = 0;
	for (int at = 0; at < 2000; at++) {
		size_t cut = (size_t)at % sizeof enables;
		HOLDS(wlim_broker_receive(&broker, 1, 3, enables, cut, NULL, 0) == WLIM_GIVEN);
		HOLDS(wlim_broker_receive(&broker, 1, 3, enables + cut, sizeof enables - cut, NULL, 0) == WLIM_GIVEN);
		HOLDS(all_taken(&broker, 1) + all_taken(&broker, 2) + all_taken(&broker, 3) == 0 || at == 0);
		before = at < 2 ? held : before;
	}
	HOLDS(held == before && wlim_broker_used(&broker, &used) == WLIM_GIVEN && used.entries > 1024000);
	HOLDS(broker_step(&broker, 10) == WLIM_GIVEN && wlim_broker_stored(&broker, 1) > 0);
	wlim_broker_close(&broker);
	HOLDS(held == 0);
}

static void broker_allocations(void)
{
	struct wlim_broker broker = { 0 };
	HOLDS(wlim_broker_open(&broker, 4096, 1000, 100000) == WLIM_GIVEN);
	unsigned long wanted = broker_tells(&broker);
	long most = 0;
	HOLDS(wanted != 0);
	for (int done = 0; !done; most++) {
		fails_at = most;
		if (wlim_broker_open(&broker, 4096, 1000, 100000) != WLIM_GIVEN) {
			HOLDS(!broker.live);
			HOLDS(wlim_broker_open(&broker, 4096, 1000, 100000) == WLIM_GIVEN);
		}
		unsigned long sum = broker_tells(&broker);
		done = fails_at >= 0;
		fails_at = -1;
		HOLDS(sum == wanted || sum == 0);
		HOLDS(wlim_broker_open(&broker, 4096, 1000, 100000) == WLIM_GIVEN && broker_tells(&broker) == wanted);
		wlim_broker_close(&broker);
		HOLDS(held == 0);
	}
	printf("%ld allocations by bytes failed in turn\n", most - 1);
}

int main(void)
{
	closed();
	bad_requests();
	limits();
	small_fields();
	allocations();
	hostile_client();
	second_seat();
	broker_closed();
	broker_ranges();
	broker_ends();
	broker_limits();
	broker_hostile();
	broker_allocations();
	puts(failed ? "something doesn't hold" : "all holds");
	return failed;
}
