/*
 * What a program or a process may have of what all share: who takes more is slowed or ended, and others notice nothing.
 * Built by tests/gateway.sh. Prints what doesn't hold.
 */
#include "gateway_users.h"

enum { CROWD = 72, PLACES_OF_PROGRAMS = 56, PLACES_OF_METHODS = 8, SHARE = 16 };
enum { TURN = 4096, PIECE = 512, LITTLE = 256 }; /* bytes that are read of a process, a client, one that owes much */
enum { START = 1000, DRAWN = 10, FLOODERS = 12 }; /* syncs at a start, and in a millisecond; clients that flood */

static struct user crowd[CROWD], method, honest, bad;
static uint32_t serial;

static void close_user(struct user *user)
{
	close_client(&user->place);
}

static void start_of(unsigned of, struct user *user, void (*start_it)(struct user *user))
{
	process = of;
	start_it(user);
	process = 0;
}

static void with_field(struct user *user)
{
	start_program(user, true);
}

static void enable(struct user *user)
{
	request(user, draft(FIELD, zwp_text_input_v3_request_enable, ""));
	request(user, draft(FIELD, zwp_text_input_v3_request_commit, ""));
}

/* A batch comes to the field, at once. */
static void batch_comes(struct user *to, struct user *from)
{
	static uint32_t dones;
	look(from);
	dones = from->place.client ? object_at(from->place.client, METHOD_1)->count : dones;
	look(to);
	request(from, draft(METHOD_1, zwp_input_method_v2_request_commit_string, "s", "z"));
	request(from, draft(METHOD_1, zwp_input_method_v2_request_commit, "u", dones));
	look(to);
	HOLDS(HEARD(to, FIELD, zwp_text_input_v3_event_commit_string, 2, 'z') == 1);
}

static void enters(struct user *user, struct user *last)
{
	if (last && last->place.link > 0) {
		event(last, wl_keyboard_event_leave, ++serial);
		read_events(last);
	}
	enter(user, ++serial);
	look(user);
}

static unsigned with_places(unsigned from, unsigned to)
{
	unsigned found = 0;
	for (; from < to; from++)
		found += crowd[from].place.client->peer > 0;
	return found;
}

/* Binding takes no place. The 57th program runs on without one, and has one when another has gone; methods have theirs. */
static void places(void)
{
	struct user *last = &crowd[69];
	for (unsigned at = 0; at < 70; at++) {
		start_of(100 + at, &crowd[at], with_field);
		look(&crowd[at]);
		HOLDS(HEARD(&crowd[at], DISPLAY, wl_display_event_error) == 0);
	}
	start_program(&honest, false);
	HOLDS(with_places(0, 70) == PLACES_OF_PROGRAMS && with_places(0, PLACES_OF_PROGRAMS) == PLACES_OF_PROGRAMS);
	HOLDS(honest.place.client->peer == 0);
	start_grab(&method);
	look(&method);
	HOLDS(method.place.client->serves == METHOD_1 && HEARD(&method, METHOD_1, zwp_input_method_v2_event_unavailable) == 0);
	for (unsigned at = 0; at < PLACES_OF_PROGRAMS; at++) {
		enters(&crowd[at], at > 0 ? &crowd[at - 1] : NULL);
		enable(&crowd[at]);
		batch_comes(&crowd[at], &method);
	}
	enters(last, &crowd[PLACES_OF_PROGRAMS - 1]);
	enable(last);
	look(last);
	HOLDS(!last->entered && last->place.client->field == 0);
	request(last, draft(FIELD, zwp_text_input_v3_request_destroy, ""));
	look(last);
	HOLDS(HEARD(last, DISPLAY, wl_display_event_delete_id, FIELD) == 1);
	close_user(&crowd[3]);
	make_field(last);
	look(last);
	HOLDS(last->place.client->peer > 0 && last->entered);
	enable(last);
	batch_comes(last, &method);
	renew();
	look(last);
	HOLDS(last->place.client->peer > 0 && with_places(60, 69) == 0);
	close_user(&method);
	for (unsigned at = 0; at < 70; at++)
		close_user(&crowd[at]);
	close_user(&honest);
}

/* A process has its share of places; one method too many is told that it is unavailable. */
static void shares(void)
{
	for (unsigned at = 0; at < 20; at++)
		start_of(9, &crowd[at], with_field);
	HOLDS(with_places(0, 20) == SHARE);
	start_of(10, &honest, with_field);
	HOLDS(honest.place.client->peer > 0);
	for (unsigned at = 20; at < 60; at++)
		start_of(100 + at, &crowd[at], with_field);
	HOLDS(with_places(0, 60) + 1 == PLACES_OF_PROGRAMS);
	for (unsigned at = 60; at < 60 + PLACES_OF_METHODS + 1; at++) {
		start_of(100 + at, &crowd[at], start_board);
		make_method(&crowd[at]);
		look(&crowd[at]);
		HOLDS(HEARD(&crowd[at], METHOD_1, zwp_input_method_v2_event_unavailable) == (at == 60 ? 0 : 1));
	}
	HOLDS(with_places(60, 68) == PLACES_OF_METHODS && crowd[68].place.client->peer == 0);
	press(&crowd[68], A, 1);
	request(&crowd[68], draft(METHOD_1, zwp_input_method_v2_request_commit, "u", 0));
	make_grab(&crowd[68], METHOD_1 + 1);
	request(&crowd[68], draft(METHOD_1, zwp_input_method_v2_request_destroy, ""));
	look(&crowd[68]);
	HOLDS(HEARD(&crowd[68], DISPLAY, wl_display_event_delete_id, METHOD_1) == 1);
	for (unsigned at = 0; at < 69; at++)
		close_user(&crowd[at]);
	close_user(&honest);
}

static uint32_t entries_used(void)
{
	struct wlim_used used = { 0 };
	wlim_broker_used(broker, &used);
	return used.entries;
}

/* As many commits of its field as are read of it in a round. */
static unsigned long flood_on(struct user *user)
{
	static uint8_t bytes[16384];
	size_t room = core_room(user->place.link, NEAR) / HEADER_SIZE * HEADER_SIZE;
	for (size_t at = 0; at < room; at += HEADER_SIZE)
		memcpy(bytes + at, draft(FIELD, zwp_text_input_v3_request_commit, "")->bytes, HEADER_SIZE);
	if (room > 0)
		send_client(&user->place, bytes, room, NULL, 0);
	return room / HEADER_SIZE;
}

/* Who floods is read less, and then ended; the broker isn't renewed for it; each batch of others comes at once. */
static void floods(void)
{
	unsigned long sent = 0, second = 0, milliseconds = 0;
	start_of(11, &honest, with_field);
	start_of(12, &method, start_grab);
	enters(&honest, NULL);
	enable(&honest);
	batch_comes(&honest, &method);
	uint32_t before = entries_used(), peer = honest.place.client->peer;
	start_of(13, &bad, with_field);
	for (; bad.place.link > 0 && milliseconds < 100000; milliseconds++) {
		unsigned long went = flood_on(&bad);
		now += 1000;
		sent += went;
		second += milliseconds >= 20000 && milliseconds < 21000 ? went : 0;
		if (milliseconds % 100 == 0)
			batch_comes(&honest, &method);
		finish_round();
	}
	HOLDS(bad.place.link == 0 && milliseconds > 20000 && milliseconds < 60000);
	HOLDS(second > 2000 && second < 8000 && entries_used() - before < 300000);
	HOLDS(honest.place.client->peer == peer);
	batch_comes(&honest, &method);
	close_user(&bad);
	process = 13; /* the same process again: it still owes */
	open_client(&bad.place, PROGRAM);
	HOLDS(core_room(bad.place.link, NEAR) <= LITTLE && core_room(honest.place.link, NEAR) == PIECE);
	now += 20000000;
	finish_round();
	HOLDS(core_room(bad.place.link, NEAR) == PIECE);
	close_user(&bad);
	start_of(13, &bad, with_field);
	look(&bad);
	close_user(&bad);
	close_user(&method);
	close_user(&honest);
}

/* So many syncs at most as are read of it in a round, and what the compositor answers. */
static unsigned syncs_of(struct user *user, unsigned count)
{
	uint32_t first = KEYBOARD_2, done = 0; /* ids that nothing has */
	while (done < count && core_room(user->place.link, NEAR) >= 12) {
		request(user, draft(DISPLAY, wl_display_request_sync, "u", first + done));
		if (user->place.client->ending)
			break;
		put_event(user, draft(first + done, wl_callback_event_done, "u", 0));
		put_event(user, draft(DISPLAY, wl_display_event_delete_id, "u", first + done));
		done++;
	}
	read_events(user);
	return done;
}

/* A toolkit's start isn't slowed: so many requests at once, and each millisecond as many as a program that draws has. */
static void starts(void)
{
	start_of(51, &honest, with_field);
	for (unsigned sent = 0, rounds = 0; sent < START; rounds++) {
		unsigned went = syncs_of(&honest, START - sent);
		HOLDS(went == START - sent || went * 12 > PIECE - 12);
		sent += went;
		finish_round();
		HOLDS(budgets_wait() == -1 && rounds < START);
	}
	for (unsigned milliseconds = 0; milliseconds < 40000; milliseconds++) {
		now += 1000;
		HOLDS(syncs_of(&honest, DRAWN) == DRAWN && budgets_wait() == -1);
		finish_round();
	}
	look(&honest);
	close_user(&honest);
}

/* Who floods the compositor through the gateway: in each round it has its share, however many clients it has; then it is
 * read a little at a time, then more seldom, and ends after 30 s. Another program is read as ever. */
static void floods_passing(void)
{
	unsigned long second = 0, round, most = 0, milliseconds = 0;
	int longest = 0; /* wait till somebody may be read again */
	start_of(61, &honest, with_field);
	for (unsigned at = 0; at < FLOODERS; at++)
		start_of(62, &crowd[at], with_field);
	now += 1000000;
	finish_round();
	for (; crowd[0].place.link > 0 && milliseconds < 100000; milliseconds++) {
		round = 0;
		for (unsigned at = 0; at < FLOODERS; at++)
			round += crowd[at].place.link > 0 ? syncs_of(&crowd[at], 1000) : 0;
		longest = budgets_wait() > longest ? budgets_wait() : longest;
		HOLDS(core_room(honest.place.link, NEAR) == PIECE);
		now += 1000;
		finish_round();
		most = round > most ? round : most;
		second += milliseconds >= 20000 && milliseconds < 21000 ? round : 0;
	}
	HOLDS(most * 12 <= TURN && second > 10000 && second < 20000);
	HOLDS(milliseconds > 30000 && milliseconds < 32000 && longest > 0 && longest < 1000);
	look(&honest);
	for (unsigned at = 0; at < FLOODERS; at++)
		close_user(&crowd[at]);
	HOLDS(budgets_wait() == -1);
	close_user(&honest);
}

/* A renewal waits for a pause of who types, not of who floods. */
static void pauses(void)
{
	start_of(21, &honest, with_field);
	start_of(22, &method, start_grab);
	start_of(23, &bad, with_field);
	enters(&honest, NULL);
	enable(&honest);
	gateway.entries = entries_used() + 10;
	flood_on(&bad);
	batch_comes(&honest, &method);
	HOLDS(broker_renewal() > 0);
	for (int at = 0; at < 10; at++) {
		now += 60000;
		budgets_round();
		flood_on(&bad);
	}
	HOLDS(broker_renewal() == 0);
	gateway.entries = 3000000;
	renew();
	look(&honest);
	HOLDS(honest.entered);
	close_user(&bad);
	close_user(&method);
	close_user(&honest);
}

/* Where descriptors run short who holds most ends, not who came with one; where nobody holds many, nobody does. */
static void descriptors(void)
{
	uint32_t token;
	unsigned before = tokens_used();
	start_of(31, &honest, with_field);
	start_of(32, &bad, with_field);
	look(&honest);
	look(&bad);
	HOLDS(!core_short(now) && honest.place.link > 0);
	for (int at = 0; at < 200; at++) {
		token = make_file("x", 1);
		core_receive(now, bad.place.link, NEAR, (const uint8_t *)"\1", at == 0, &token, 1);
		do_effects();
	}
	token = make_file("x", 1);
	request(&honest, draft(REGISTRY, wl_registry_request_bind, "usuu", 1, "wl_seat", 1, KEYBOARD_2));
	core_receive(now, honest.place.link, NEAR, (const uint8_t *)"\1", 1, &token, 1);
	HOLDS(core_short(now) && core_short(now));
	finish_round();
	HOLDS(bad.place.link == 0 && honest.place.link > 0 && tokens_used() == before + 1);
	close_user(&bad);
	close_user(&honest);
}

/* A keymap of the compositor's, of that number. */
static void told_keymap(struct user *user, int number)
{
	const struct message *message = draft(far_of(user->place.client, KEYBOARD), wl_keyboard_event_keymap, "uu", 1, 40);
	uint32_t token = keymap_file(number);
	write_far(&user->place, message->bytes, message->size, &token, 1);
	read_events(user);
}

static void board_keymap(struct user *user, uint32_t board, int number)
{
	const struct message *message = draft(board, zwp_virtual_keyboard_v1_request_keymap, "uu", 1, 40);
	uint32_t token = keymap_file(number);
	send_client(&user->place, message->bytes, message->size, &token, 1);
}

/* A process with many keymaps ends at its share; a grab is told each of the compositor's, and none stays. */
static void keymaps(void)
{
	unsigned before = tokens_used();
	start_of(41, &honest, with_field);
	start_of(42, &method, start_grab);
	start_of(43, &bad, start_board);
	enters(&honest, NULL);
	enable(&honest);
	for (int number = 1; number <= 200; number++) {
		told_keymap(&honest, number);
		look(&method);
		HOLDS(HEARD(&method, GRAB, zwp_input_method_keyboard_grab_v2_event_keymap, 1, 40) == 1);
		if (number < 100)
			board_keymap(&bad, BOARD, 1000 + number); /* each in the place of the last */
		look(&honest);
	}
	HOLDS(tokens_used() == before + 3 && bad.place.link > 0);
	for (uint32_t id = BOARD + 1; id < BOARD + 20 && bad.place.link > 0; id++) {
		request(&bad, draft(BOARDS, zwp_virtual_keyboard_manager_v1_request_create_virtual_keyboard, "uu", SEAT, id));
		board_keymap(&bad, id, 2000 + (int)id);
		finish_round();
	}
	finish_round();
	do_effects();
	HOLDS(bad.place.link == 0 && tokens_used() == before + 2);
	batch_comes(&honest, &method);
	close_user(&bad);
	close_user(&method);
	close_user(&honest);
}

int main(void)
{
	if (!core_open(now, 3000000))
		return 1;
	places();
	shares();
	floods();
	starts();
	floods_passing();
	pauses();
	descriptors();
	keymaps();
	core_close();
	do_effects();
	HOLDS(tokens_used() == 0);
	printf("what each may have: %s\n", failed ? "not as it should be" : "ok");
	return failed;
}
