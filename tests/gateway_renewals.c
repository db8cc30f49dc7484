/*
 * Renewals of the broker while somebody composes and holds keys, and where there is no memory for the next one. Built by
 * tests/gateway.sh, which wraps wlim_broker_open. Prints what doesn't hold.
 */
#include "gateway_users.h"

static unsigned refusals; /* so many brokers aren't opened for want of memory */

int64_t __real_wlim_broker_open(struct wlim_broker *place, uint32_t store, uint32_t entries, uint64_t weight);
int64_t __wrap_wlim_broker_open(struct wlim_broker *place, uint32_t store, uint32_t entries, uint64_t weight);

int64_t __wrap_wlim_broker_open(struct wlim_broker *place, uint32_t store, uint32_t entries, uint64_t weight)
{
	if (refusals == 0)
		return __real_wlim_broker_open(place, store, entries, weight);
	refusals--;
	return WLIM_NO_MEMORY;
}

/* A key of the seat's keyboard goes up. */
static void lift(struct user *user, uint32_t serial, uint32_t key)
{
	put_event(user, draft(KEYBOARD, wl_keyboard_event_key, "uuuu", serial, 1, key, 0));
	read_events(user);
}

static void enable(struct user *user)
{
	request(user, draft(FIELD, zwp_text_input_v3_request_enable, ""));
	request(user, draft(FIELD, zwp_text_input_v3_request_commit, ""));
}

/* The method's batch, whose serial is how many dones it was told. */
static void commit_text(struct user *method, const char *text, uint32_t serial)
{
	request(method, draft(METHOD_1, zwp_input_method_v2_request_commit_string, "s", text));
	request(method, draft(METHOD_1, zwp_input_method_v2_request_commit, "u", serial));
}

/* The number of the field's last done. */
static uint32_t last_done(struct user *user)
{
	struct message message;
	uint32_t serial = 0;
	for (size_t at = 0; message_front(user->told + at, user->size - at, &message) == FRONT_WHOLE; at += message.size)
		if (message.object == FIELD && message.opcode == zwp_text_input_v3_event_done)
			memcpy(&serial, message.bytes + HEADER_SIZE, sizeof serial);
	return serial;
}

static void renew_at_pause(void)
{
	core_renew(++now);
	HOLDS(broker_renewal() > 0);
	now += 600000;
	finish_round();
	HOLDS(broker_renewal() == -1);
}

/*
 * A user composes, and holds three keys: one that the window has of the seat's keyboard, one that the grab has, and one
 * that it was given back. The preedit is lost; no key is told to be up before it is, and then it is to who has it.
 * Another program hears nothing, and text comes after it as before.
 */
static void composing(void)
{
	static struct user one, other, first;
	start_program(&other, true);
	start_program(&one, true);
	enter(&one, 11);
	enable(&one);
	type(&one, 12, 100, C); /* before there is a grab: the window's */
	start_grab(&first);
	type(&one, 13, 101, A);
	type(&one, 14, 102, B);
	press(&first, B, 1);
	request(&first, draft(METHOD_1, zwp_input_method_v2_request_set_preedit_string, "sii", "ni", 2, 2));
	request(&first, draft(METHOD_1, zwp_input_method_v2_request_commit, "u", 1));
	look(&one);
	HOLDS(HEARD(&one, FIELD, zwp_text_input_v3_event_preedit_string) == 1);
	HOLDS(HEARD(&one, KEYBOARD, wl_keyboard_event_key, B, 1) == 1);
	look(&first);
	look(&other);
	renew_at_pause();
	look(&other);
	HOLDS(other.size == 0);
	look(&one);
	HOLDS(HEARD(&one, KEYBOARD, wl_keyboard_event_key) == 0 && one.entered);
	HOLDS(HEARD(&one, FIELD, zwp_text_input_v3_event_leave) == 1 && HEARD(&one, FIELD, zwp_text_input_v3_event_enter) == 1);
	look(&first);
	HOLDS(HEARD(&first, GRAB, zwp_input_method_keyboard_grab_v2_event_key) == 0);
	HOLDS(HEARD(&first, METHOD_1, zwp_input_method_v2_event_deactivate) == 1);
	enable(&one);
	look(&first);
	HOLDS(HEARD(&first, METHOD_1, zwp_input_method_v2_event_activate) == 1);
	lift(&one, 15, A);
	lift(&one, 16, B);
	press(&first, B, 0);
	lift(&one, 17, C);
	commit_text(&first, "你", 3);
	look(&first);
	look(&one);
	HOLDS(HEARD(&first, GRAB, zwp_input_method_keyboard_grab_v2_event_key, A, 0) == 1);
	HOLDS(HEARD(&first, GRAB, zwp_input_method_keyboard_grab_v2_event_key, B, 0) == 1);
	HOLDS(HEARD(&first, GRAB, zwp_input_method_keyboard_grab_v2_event_key, C, 0) == 0);
	HOLDS(HEARD(&one, KEYBOARD, wl_keyboard_event_key, A, 0) == 0);
	HOLDS(HEARD(&one, KEYBOARD, wl_keyboard_event_key, B, 0) == 1);
	HOLDS(HEARD(&one, KEYBOARD, wl_keyboard_event_key, C, 0) == 1);
	HOLDS(HEARD(&one, FIELD, zwp_text_input_v3_event_commit_string) == 1 && last_done(&one) == 2);
	look(&other);
	HOLDS(other.size == 0);
	close_client(&first.place);
	close_client(&one.place);
	close_client(&other.place);
}

/* A board of another client holds a key that the grab has: it is told that it is up when it is, also after two renewals. */
static void board_holds(void)
{
	static struct user one, first, second;
	start_program(&one, true);
	start_grab(&first);
	start_board(&second);
	enter(&one, 21);
	press(&second, A, 1);
	look(&first);
	HOLDS(HEARD(&first, GRAB, zwp_input_method_keyboard_grab_v2_event_key, A, 1) == 1);
	renew_at_pause();
	renew_at_pause();
	look(&first);
	HOLDS(HEARD(&first, GRAB, zwp_input_method_keyboard_grab_v2_event_key) == 0);
	press(&second, A, 0);
	look(&first);
	look(&one);
	HOLDS(HEARD(&first, GRAB, zwp_input_method_keyboard_grab_v2_event_key, A, 0) == 1);
	HOLDS(HEARD(&one, KEYBOARD, wl_keyboard_event_key) == 0);
	/* The grab goes with a key that it has, which the window isn't told as pressed then. */
	press(&second, C, 1);
	request(&first, draft(GRAB, zwp_input_method_keyboard_grab_v2_request_release, ""));
	renew_at_pause();
	look(&one);
	HOLDS(HEARD(&one, KEYBOARD, wl_keyboard_event_key) == 0);
	close_client(&second.place);
	close_client(&first.place);
	close_client(&one.place);
}

/* The next broker has no memory: the last one goes on, and it is tried again, some seconds later. */
static void no_memory(void)
{
	static struct user one, first;
	start_program(&one, true);
	start_grab(&first);
	enter(&one, 31);
	enable(&one);
	refusals = 2;
	core_renew(++now);
	now += 600000;
	finish_round();
	HOLDS(refusals == 1 && broker_renewal() > 9000);
	commit_text(&first, "a", 1);
	look(&one);
	HOLDS(one.entered && HEARD(&one, FIELD, zwp_text_input_v3_event_leave) == 0);
	HOLDS(HEARD(&one, FIELD, zwp_text_input_v3_event_commit_string) == 1);
	now += 10000000;
	finish_round();
	HOLDS(refusals == 0 && broker_renewal() > 9000);
	now += 10000000;
	finish_round();
	HOLDS(broker_renewal() == -1);
	look(&one);
	HOLDS(one.entered && HEARD(&one, FIELD, zwp_text_input_v3_event_leave) == 1);
	close_client(&first.place);
	close_client(&one.place);
}

/* Fills the broker up to so many entries. */
static void fill(struct user *user, uint32_t entries)
{
	struct wlim_used used = { 0 };
	while (used.entries < entries && !user->place.client->ending) {
		for (int at = 0; at < 10000; at++)
			request(user, draft(FIELD, zwp_text_input_v3_request_set_text_change_cause, "u", 0));
		wlim_broker_used(broker, &used);
	}
}

/*
 * Nor is there any when the last one is full: it closes before the next one opens, and until that has memory there is
 * none. Programs live on, get their keys, make and destroy objects and fields; who comes then joins the next.
 */
static void no_broker(void)
{
	static struct user one, late, first;
	start_program(&one, true);
	start_grab(&first);
	enter(&one, 41);
	enable(&one);
	look(&one);
	refusals = 100;
	fill(&one, 3550000);
	HOLDS(broker_renewal() == 0);
	finish_round();
	HOLDS(refusals == 99 && broker->live && broker_renewal() > 9000);
	fill(&one, 3900000); /* within these 10 seconds */
	HOLDS(!one.place.client->ending && broker_renewal() == 0);
	finish_round();
	HOLDS(refusals == 97 && !broker->live && broker_renewal() > 9000);
	look(&one);
	HOLDS(!one.entered && !one.place.client->ending);
	type(&one, 42, 200, A);
	look(&one);
	HOLDS(HEARD(&one, KEYBOARD, wl_keyboard_event_key, A, 1) == 1);
	start_program(&late, true);
	request(&one, draft(FIELD, zwp_text_input_v3_request_destroy, ""));
	look(&one);
	HOLDS(HEARD(&one, DISPLAY, wl_display_event_delete_id, FIELD) == 1);
	make_field(&one);
	enable(&one);
	make_grab(&first, GRAB + 1);
	request(&first, draft(GRAB + 1, zwp_input_method_keyboard_grab_v2_request_release, ""));
	request(&first, draft(BOARD, zwp_virtual_keyboard_v1_request_key, "uuu", 1, B, 1));
	look(&first);
	HOLDS(HEARD(&first, DISPLAY, wl_display_event_delete_id, GRAB + 1) == 1);
	look(&late);
	refusals = 0;
	now += 10000000;
	finish_round();
	HOLDS(broker->live && broker_renewal() == -1);
	look(&one);
	HOLDS(one.entered);
	enable(&one);
	look(&first);
	HOLDS(HEARD(&first, METHOD_1, zwp_input_method_v2_event_activate) == 1);
	event(&one, wl_keyboard_event_leave, 43);
	read_events(&one);
	enter(&late, 44);
	look(&late);
	HOLDS(late.entered);
	close_client(&first.place);
	close_client(&late.place);
	close_client(&one.place);
}

int main(void)
{
	if (!core_open(now, 3000000))
		return 1;
	composing();
	board_holds();
	no_memory();
	no_broker();
	core_close();
	do_effects();
	HOLDS(tokens_used() == 0);
	printf("renewals while somebody composes, and without memory: %s\n", failed ? "not as they should be" : "ok");
	return failed;
}
