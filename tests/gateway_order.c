/*
 * What comes in an order that sockets seldom show: the compositor's events of two programs, a surface's end and its
 * focus, ends of clients with keys down, renewals of the broker. Built by tests/gateway.sh. Prints what doesn't hold.
 */
#include "gateway_users.h"

static void focus(void)
{
	static struct user one, two;
	start_program(&one, true);
	start_program(&two, true);
	enter(&one, 1);
	look(&one);
	HOLDS(one.entered);
	/* The new one is read before the last one. */
	event(&one, wl_keyboard_event_leave, 2);
	enter(&two, 3);
	read_events(&one);
	look(&one);
	look(&two);
	HOLDS(!one.entered && two.entered);
	/* To the first and back, where the second is read as a whole before the first. */
	event(&two, wl_keyboard_event_leave, 4);
	event(&one, wl_keyboard_event_enter, 5);
	event(&one, wl_keyboard_event_leave, 6);
	enter(&two, 7);
	read_events(&one);
	look(&one);
	look(&two);
	HOLDS(!one.entered && two.entered);
	/* The second ends in this round: of it nothing is read, however often the first hears of what was. */
	client_end(two.place.client, "a test");
	for (int at = 0; at < 8; at++) {
		static uint8_t bytes[WIRE_READ];
		write_far(&two.place, bytes, sizeof bytes, NULL, 0);
		enter(&one, 5);
	}
	HOLDS(two.place.coming.size == 8 * WIRE_READ);
	close_client(&two.place);
	close_client(&one.place);
}

/* A surface is destroyed before the compositor's enter comes: its id is free at the broker too, once it is here. */
static void destroyed_surface(void)
{
	static struct user one;
	start_program(&one, true);
	enter(&one, 11);
	event(&one, wl_keyboard_event_leave, 12);
	read_events(&one);
	request(&one, draft(SURFACE, wl_surface_request_destroy, ""));
	enter(&one, 13);
	event(&one, wl_keyboard_event_leave, 14);
	put_event(&one, draft(DISPLAY, wl_display_event_delete_id, "u", SURFACE));
	read_events(&one);
	look(&one);
	HOLDS(!one.entered && HEARD(&one, DISPLAY, wl_display_event_delete_id, SURFACE) == 1);
	request(&one, draft(COMPOSITOR, wl_compositor_request_create_surface, "u", SURFACE));
	enter(&one, 15);
	look(&one);
	HOLDS(one.entered);
	close_client(&one.place);
}

/* A client ends, or its board does, with a key down: who got the key is told its release, and no other board's. */
static void boards_end(void)
{
	static struct user one, first, second, third;
	start_program(&one, true);
	start_board(&first);
	start_board(&second);
	start_board(&third);
	enter(&one, 21);
	press(&first, A, 1);
	press(&second, B, 1);
	look(&one);
	HOLDS(HEARD(&one, KEYBOARD, wl_keyboard_event_key, A, 1) == 1);
	HOLDS(HEARD(&one, KEYBOARD, wl_keyboard_event_key, B, 1) == 1);
	/* A second board of the second client comes and goes. */
	request(&second, draft(BOARDS, zwp_virtual_keyboard_manager_v1_request_create_virtual_keyboard, "uu", SEAT, BOARD + 1));
	request(&second, draft(BOARD + 1, zwp_virtual_keyboard_v1_request_destroy, ""));
	look(&one);
	HOLDS(HEARD(&one, KEYBOARD, wl_keyboard_event_key, B, 0) == 0);
	make_method(&third);
	make_grab(&third, GRAB);
	press(&first, C, 1);
	look(&third);
	HOLDS(HEARD(&third, GRAB, zwp_input_method_keyboard_grab_v2_event_key, C, 1) == 1);
	close_client(&first.place);
	look(&one);
	HOLDS(HEARD(&one, KEYBOARD, wl_keyboard_event_key, A, 0) == 1);
	HOLDS(HEARD(&one, KEYBOARD, wl_keyboard_event_key, B, 0) == 0);
	look(&third);
	HOLDS(HEARD(&third, GRAB, zwp_input_method_keyboard_grab_v2_event_key, C, 0) == 1);
	press(&second, C, 1);
	request(&second, draft(BOARD, zwp_virtual_keyboard_v1_request_destroy, ""));
	look(&one);
	HOLDS(HEARD(&one, KEYBOARD, wl_keyboard_event_key, B, 0) == 1);
	look(&third);
	HOLDS(HEARD(&third, GRAB, zwp_input_method_keyboard_grab_v2_event_key, C, 0) == 1);
	close_client(&third.place);
	close_client(&second.place);
	close_client(&one.place);
}

/* Each wl_keyboard of a program is told the modifiers at an enter, also where a grab gets them. */
static void keyboards(void)
{
	static struct user one, first;
	start_program(&one, true);
	start_grab(&first);
	request(&one, draft(SEAT, wl_seat_request_get_keyboard, "u", KEYBOARD_2));
	for (uint32_t id = KEYBOARD; id <= KEYBOARD_2; id += KEYBOARD_2 - KEYBOARD)
		put_event(&one, draft(id, wl_keyboard_event_enter, "uuu", 31, SURFACE, 0));
	for (int times = 0; times < 2; times++)
		for (uint32_t id = KEYBOARD; id <= KEYBOARD_2; id += KEYBOARD_2 - KEYBOARD)
			put_event(&one, draft(id, wl_keyboard_event_modifiers, "uuuuu", 32 + times, 4 - times, 0, 0, 0));
	read_events(&one);
	look(&one);
	HOLDS(HEARD(&one, KEYBOARD, wl_keyboard_event_modifiers, 4, 0, 0, 0) == 1);
	HOLDS(HEARD(&one, KEYBOARD_2, wl_keyboard_event_modifiers, 4, 0, 0, 0) == 1);
	HOLDS(HEARD(&one, KEYBOARD, wl_keyboard_event_modifiers, 3, 0, 0, 0) == 0);
	HOLDS(HEARD(&one, KEYBOARD_2, wl_keyboard_event_modifiers, 3, 0, 0, 0) == 0);
	/* A third that comes later is told what the others were, by the method too. */
	request(&first, draft(BOARD, zwp_virtual_keyboard_v1_request_modifiers, "uuuu", 1, 0, 0, 0));
	request(&one, draft(SEAT, wl_seat_request_get_keyboard, "u", KEYBOARD_2 + 1));
	put_event(&one, draft(KEYBOARD_2 + 1, wl_keyboard_event_enter, "uuu", 34, SURFACE, 0));
	put_event(&one, draft(KEYBOARD_2 + 1, wl_keyboard_event_modifiers, "uuuuu", 35, 3, 0, 0, 0));
	read_events(&one);
	look(&one);
	HOLDS(HEARD(&one, KEYBOARD, wl_keyboard_event_modifiers, 1, 0, 0, 0) == 1);
	HOLDS(HEARD(&one, KEYBOARD_2 + 1, wl_keyboard_event_modifiers, 1, 0, 0, 0) > 0);
	HOLDS(HEARD(&one, KEYBOARD_2 + 1, wl_keyboard_event_modifiers, 3, 0, 0, 0) == 0);
	close_client(&first.place);
	close_client(&one.place);
}

/* A renewal: who has a manager alone can use it then, and a method that is unavailable stays so. */
static void renewals(void)
{
	static struct user one, first, second, third;
	start_program(&one, false);
	start_board(&first);
	start_board(&second);
	start_method(&third);
	make_method(&first);
	make_method(&second);
	look(&second);
	HOLDS(HEARD(&second, METHOD_1, zwp_input_method_v2_event_unavailable) == 1);
	request(&first, draft(METHOD_1, zwp_input_method_v2_request_destroy, ""));
	renew();
	make_field(&one);
	make_board(&third);
	make_method(&third);
	enter(&one, 41);
	request(&one, draft(FIELD, zwp_text_input_v3_request_enable, ""));
	request(&one, draft(FIELD, zwp_text_input_v3_request_commit, ""));
	for (int times = 0; times < 2; times++) {
		look(&one);
		look(&second);
		look(&third);
		HOLDS(one.entered && HEARD(&second, METHOD_1, zwp_input_method_v2_event_activate) == 0);
		HOLDS(HEARD(&third, METHOD_1, zwp_input_method_v2_event_unavailable) == 0);
		HOLDS(HEARD(&third, METHOD_1, zwp_input_method_v2_event_activate) == 1);
		renew();
		request(&one, draft(FIELD, zwp_text_input_v3_request_enable, ""));
		request(&one, draft(FIELD, zwp_text_input_v3_request_commit, ""));
	}
	request(&second, draft(METHOD_1, zwp_input_method_v2_request_destroy, ""));
	look(&second);
	close_client(&third.place);
	close_client(&second.place);
	close_client(&first.place);
	close_client(&one.place);
}

/* Who fills the broker by weight brings its renewal, also without a pause. */
static void weight(void)
{
	enum { TEXT = 4072, MESSAGES = 130000 };
	static struct user one;
	static uint32_t words[(HEADER_SIZE + 4 + TEXT + 8) / 4] = { FIELD, 0, TEXT };
	struct message message;
	start_program(&one, true);
	words[1] = sizeof words << 16 | zwp_text_input_v3_request_set_surrounding_text;
	memset(&words[3], 'a', TEXT - 1);
	HOLDS(message_front((uint8_t *)words, sizeof words, &message) == FRONT_WHOLE);
	int sent = 0;
	while (sent < MESSAGES && !one.place.client->ending && broker_renewal() != 0) {
		broker_receive(one.place.client, &message, 0);
		sent++;
	}
	HOLDS(sent > 90000 && broker_renewal() == 0);
	look(&one);
	renew();
	HOLDS(broker_renewal() == -1);
	enter(&one, 51);
	look(&one);
	HOLDS(one.entered);
	close_client(&one.place);
}

/* As many objects as there may be, the last a method that is unavailable: a renewal ends nobody, and it stays so. */
static void full_renewal(void)
{
	enum { LAST = BOARD + 250 /* and the gateway's own five */, LAST_GRAB };
	static struct user first, second;
	start_board(&first);
	make_method(&first);
	start_method(&second);
	for (uint32_t id = BOARD; id < LAST; id++)
		request(&second, draft(BOARDS, zwp_virtual_keyboard_manager_v1_request_create_virtual_keyboard, "uu", SEAT, id));
	request(&second, draft(METHODS, zwp_input_method_manager_v2_request_get_input_method, "uu", SEAT, LAST));
	look(&second);
	HOLDS(HEARD(&second, LAST, zwp_input_method_v2_event_unavailable) == 1);
	renew();
	request(&second, draft(LAST, zwp_input_method_v2_request_commit, "u", 0));
	request(&second, draft(LAST, zwp_input_method_v2_request_grab_keyboard, "u", LAST_GRAB));
	renew();
	request(&second, draft(LAST, zwp_input_method_v2_request_destroy, ""));
	request(&second, draft(LAST_GRAB, zwp_input_method_keyboard_grab_v2_request_release, ""));
	look(&second);
	HOLDS(HEARD(&second, DISPLAY, wl_display_event_delete_id, LAST) == 1);
	HOLDS(HEARD(&second, DISPLAY, wl_display_event_delete_id, LAST_GRAB) == 1);
	close_client(&second.place);
	close_client(&first.place);
}

/* A surface's id is used again, and a method's: the popup and the grab of the first aren't made again on the second. */
static void used_again(void)
{
	enum { COMPOSITOR_1 = GRAB + 1, SURFACE_1, POPUP, POPUP_2 };
	static struct user one, first;
	start_program(&one, true);
	start_grab(&first);
	bind_global(&first, 2, "wl_compositor", COMPOSITOR_1);
	request(&first, draft(COMPOSITOR_1, wl_compositor_request_create_surface, "u", SURFACE_1));
	request(&first, draft(METHOD_1, zwp_input_method_v2_request_get_input_popup_surface, "uu", POPUP, SURFACE_1));
	request(&first, draft(SURFACE_1, wl_surface_request_destroy, ""));
	put_event(&first, draft(DISPLAY, wl_display_event_delete_id, "u", SURFACE_1));
	read_events(&first);
	request(&first, draft(COMPOSITOR_1, wl_compositor_request_create_surface, "u", SURFACE_1));
	request(&first, draft(METHOD_1, zwp_input_method_v2_request_get_input_popup_surface, "uu", POPUP_2, SURFACE_1));
	renew();
	look(&first);
	request(&first, draft(POPUP, zwp_input_popup_surface_v2_request_destroy, ""));
	look(&first);
	HOLDS(HEARD(&first, DISPLAY, wl_display_event_delete_id, POPUP) == 1);
	request(&first, draft(METHOD_1, zwp_input_method_v2_request_destroy, ""));
	make_method(&first);
	renew();
	enter(&one, 55);
	type(&one, 56, 9000, B);
	look(&one);
	HOLDS(HEARD(&one, KEYBOARD, wl_keyboard_event_key, 9000, B, 1) == 1);
	close_client(&first.place);
	close_client(&one.place);
}

/* A surface's id is used again: a key that was typed at the first doesn't come to the second when it is given back. */
static void typed_before(void)
{
	static struct user one, first;
	start_program(&one, true);
	start_grab(&first);
	enter(&one, 61);
	type(&one, 62, 7000, A);
	look(&first);
	HOLDS(HEARD(&first, GRAB, zwp_input_method_keyboard_grab_v2_event_key, 7000, A, 1) == 1);
	request(&one, draft(SURFACE, wl_surface_request_destroy, ""));
	enter(&one, 63); /* the compositor doesn't know yet */
	type(&one, 64, 7001, B);
	put_event(&one, draft(DISPLAY, wl_display_event_delete_id, "u", SURFACE));
	read_events(&one);
	look(&first);
	HOLDS(HEARD(&first, GRAB, zwp_input_method_keyboard_grab_v2_event_key, 7001, B, 1) == 0);
	request(&one, draft(COMPOSITOR, wl_compositor_request_create_surface, "u", SURFACE));
	enter(&one, 65);
	request(&first, draft(BOARD, zwp_virtual_keyboard_v1_request_key, "uuu", 7000, A, 1));
	look(&one);
	HOLDS(one.entered && HEARD(&one, KEYBOARD, wl_keyboard_event_key, 7000, A, 1) == 0);
	close_client(&first.place);
	close_client(&one.place);
}

static void press_at(struct user *user, uint32_t time, uint32_t key, uint32_t state)
{
	request(user, draft(BOARD, zwp_virtual_keyboard_v1_request_key, "uuu", time, key, state));
}

/* A held key repeats after a change of windows, where the same was typed before in the other; late ones come nowhere. */
static void repeats(void)
{
	static struct user one, two, first;
	start_program(&one, true);
	start_program(&two, true);
	start_grab(&first);
	enter(&one, 401);
	put_event(&one, draft(KEYBOARD, wl_keyboard_event_repeat_info, "uu", 25, 600));
	put_event(&one, draft(KEYBOARD, wl_keyboard_event_modifiers, "uuuuu", 402, 0, 0, 0, 0));
	type(&one, 403, 9000, A);
	put_event(&one, draft(KEYBOARD, wl_keyboard_event_modifiers, "uuuuu", 404, 4, 0, 0, 0));
	read_events(&one);
	enter(&two, 405);
	put_event(&two, draft(KEYBOARD, wl_keyboard_event_modifiers, "uuuuu", 406, 0, 0, 0, 0));
	type(&two, 407, 9100, A);
	look(&two);
	request(&first, draft(BOARD, zwp_virtual_keyboard_v1_request_modifiers, "uuuu", 4, 0, 0, 0));
	press_at(&first, 9000, A, 1);
	press_at(&first, 9150, A, 1);
	look(&two);
	HOLDS(HEARD(&two, KEYBOARD, wl_keyboard_event_key) == 0 && HEARD(&two, KEYBOARD, wl_keyboard_event_modifiers) == 0);
	press_at(&first, 9100, A, 1);
	press_at(&first, 9700, A, 1);
	look(&two);
	HOLDS(HEARD(&two, KEYBOARD, wl_keyboard_event_key, 9100, A, 1) == 1);
	HOLDS(HEARD(&two, KEYBOARD, wl_keyboard_event_key, 9700, A, 1) == 1);
	put_event(&two, draft(KEYBOARD, wl_keyboard_event_modifiers, "uuuuu", 408, 8, 0, 0, 0));
	read_events(&two);
	look(&two);
	request(&first, draft(BOARD, zwp_virtual_keyboard_v1_request_modifiers, "uuuu", 8, 0, 0, 0));
	request(&first, draft(BOARD, zwp_virtual_keyboard_v1_request_modifiers, "uuuu", 1, 0, 0, 0)); /* the method's own */
	look(&two);
	HOLDS(HEARD(&two, KEYBOARD, wl_keyboard_event_modifiers, 8, 0, 0, 0) == 1);
	HOLDS(HEARD(&two, KEYBOARD, wl_keyboard_event_modifiers, 1, 0, 0, 0) == 1);
	close_client(&first.place);
	close_client(&two.place);
	close_client(&one.place);
}

/* A program whose keyboards are told nothing more has no focus: the seat has none any more, or it released its last. */
static void keyboards_go(void)
{
	static struct user one;
	start_program(&one, true);
	request(&one, draft(SEAT, wl_seat_request_get_keyboard, "u", KEYBOARD_2));
	enter(&one, 71);
	look(&one);
	HOLDS(one.entered);
	put_event(&one, draft(SEAT, wl_seat_event_capabilities, "u", 1));
	read_events(&one);
	look(&one);
	HOLDS(!one.entered);
	put_event(&one, draft(SEAT, wl_seat_event_capabilities, "u", 3));
	enter(&one, 72);
	request(&one, draft(KEYBOARD, wl_keyboard_request_release, ""));
	look(&one);
	HOLDS(one.entered);
	request(&one, draft(KEYBOARD_2, wl_keyboard_request_release, ""));
	look(&one);
	HOLDS(!one.entered);
	close_client(&one.place);
}

/* A grab that was made beside another never stands, at the next broker neither. */
static void grabs(void)
{
	static struct user one, first;
	start_program(&one, true);
	start_grab(&first);
	make_grab(&first, GRAB + 1);
	request(&first, draft(GRAB, zwp_input_method_keyboard_grab_v2_request_release, ""));
	enter(&one, 121);
	type(&one, 122, 8000, A);
	look(&one);
	HOLDS(HEARD(&one, KEYBOARD, wl_keyboard_event_key, 8000, A, 1) == 1);
	renew();
	type(&one, 123, 8000, B);
	look(&one);
	HOLDS(HEARD(&one, KEYBOARD, wl_keyboard_event_key, 8000, B, 1) == 1);
	close_client(&first.place);
	close_client(&one.place);
}

/* However many keymaps came, nothing older is told before a key; and a board's is taken back. */
static void many_keymaps(void)
{
	static struct user one, first;
	start_program(&one, false);
	start_board(&first);
	enter(&one, 131);
	for (int number = 1; number <= 70; number++) {
		const struct message *message = draft(far_of(one.place.client, KEYBOARD), wl_keyboard_event_keymap, "uu", 1, 40);
		uint32_t token = keymap_file(number);
		write_far(&one.place, message->bytes, message->size, &token, 1);
		read_events(&one);
	}
	look(&one);
	type(&one, 132, 1, A);
	look(&one);
	HOLDS(HEARD(&one, KEYBOARD, wl_keyboard_event_key, A, 1) == 1);
	HOLDS(HEARD(&one, KEYBOARD, wl_keyboard_event_keymap) == 0);
	press(&first, C, 1);
	type(&one, 133, 2, B);
	look(&one);
	HOLDS(HEARD(&one, KEYBOARD, wl_keyboard_event_key, C, 1) == 1);
	HOLDS(HEARD(&one, KEYBOARD, wl_keyboard_event_keymap) == 2);
	close_client(&first.place);
	close_client(&one.place);
}

int main(void)
{
	if (!core_open(now, 3000000))
		return 1;
	focus();
	destroyed_surface();
	boards_end();
	keyboards();
	renewals();
	weight();
	full_renewal();
	used_again();
	typed_before();
	keyboards_go();
	grabs();
	many_keymaps();
	repeats();
	core_close();
	do_effects();
	HOLDS(tokens_used() == 0);
	printf("focus, ends and renewals in any order: %s\n", failed ? "not as they should be" : "ok");
	return failed;
}
