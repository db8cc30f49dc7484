/*
 * Text inputs of version 2, as a program and a method see them. Built by tests/gateway.sh. Prints what doesn't hold.
 */
#include "gateway_scene.h"

/* text-input-v2: its state comes with its update, a batch comes as its events, at an enter it is asked again. */
static void version_2(void)
{
	enum { OLDER = FIELD, SEEN = KEYBOARD_2 };
	start_program(&one, false);
	start_grab(&first);
	bind_global(&one, 0xffff0000 + GLOBAL_OLDER, "zwp_text_input_manager_v2", OLDER);
	request(&one, draft(OLDER, zwp_text_input_manager_v2_request_get_text_input, "uu", SEEN, SEAT));
	request(&one, draft(SEEN, zwp_text_input_v2_request_enable, "u", SURFACE));
	enter(&one, ++serial);
	look(&one);
	HOLDS(HEARD(&one, SEEN, zwp_text_input_v2_event_enter, 1, SURFACE) == 1);
	look(&first);
	HOLDS(HEARD(&first, METHOD_1, zwp_input_method_v2_event_activate) == 0);
	request(&one, draft(SEEN, zwp_text_input_v2_request_set_surrounding_text, "suu", "abc", 1, 2));
	request(&one, draft(SEEN, zwp_text_input_v2_request_set_content_type, "uu", 0x80, 9));
	request(&one, draft(SEEN, zwp_text_input_v2_request_set_cursor_rectangle, "uuuu", 1, 2, 3, 4));
	request(&one, draft(SEEN, zwp_text_input_v2_request_update_state, "uu", 1, 1));
	look(&first);
	HOLDS(HEARD(&first, METHOD_1, zwp_input_method_v2_event_activate) == 1);
	HOLDS(HEARD(&first, METHOD_1, zwp_input_method_v2_event_surrounding_text, 1, 2) == 1);
	HOLDS(HEARD(&first, METHOD_1, zwp_input_method_v2_event_content_type, 0x80, 10) == 1);
	HOLDS(one.place.client->field == SEEN && one.place.client->cursor.height == 4);
	request(&first, draft(METHOD_1, zwp_input_method_v2_request_set_preedit_string, "suu", "xy", 1, 1));
	request(&first, draft(METHOD_1, zwp_input_method_v2_request_commit, "u", 1));
	look(&one);
	HOLDS(HEARD(&one, SEEN, zwp_text_input_v2_event_preedit_cursor, 1) == 1);
	HOLDS(HEARD(&one, SEEN, zwp_text_input_v2_event_preedit_string, 3, 'x' | 'y' << 8, 1, 0) == 1);
	request(&first, draft(METHOD_1, zwp_input_method_v2_request_commit_string, "s", "z"));
	request(&first, draft(METHOD_1, zwp_input_method_v2_request_delete_surrounding_text, "uu", 1, 2));
	request(&first, draft(METHOD_1, zwp_input_method_v2_request_commit, "u", 1));
	look(&one);
	HOLDS(HEARD(&one, SEEN, zwp_text_input_v2_event_delete_surrounding_text, 1, 2) == 1);
	HOLDS(HEARD(&one, SEEN, zwp_text_input_v2_event_commit_string, 2, 'z') == 1);
	HOLDS(HEARD(&one, SEEN, zwp_text_input_v2_event_preedit_string, 1, 0, 1, 0) == 1);
	request(&first, draft(METHOD_1, zwp_input_method_v2_request_commit, "u", 1));
	look(&one);
	HOLDS(one.size == 0);
	/* A reset is a new activation: what was for the one before comes to nobody. */
	request(&one, draft(SEEN, zwp_text_input_v2_request_update_state, "uu", 1, 2));
	look(&first);
	HOLDS(HEARD(&first, METHOD_1, zwp_input_method_v2_event_activate) == 1);
	request(&first, draft(METHOD_1, zwp_input_method_v2_request_commit_string, "s", "late"));
	request(&first, draft(METHOD_1, zwp_input_method_v2_request_commit, "u", 1));
	look(&one);
	HOLDS(HEARD(&one, SEEN, zwp_text_input_v2_event_commit_string) == 0);
	request(&one, draft(SEEN, zwp_text_input_v2_request_disable, "u", SURFACE));
	look(&first);
	HOLDS(HEARD(&first, METHOD_1, zwp_input_method_v2_event_deactivate) == 1 && one.place.client->field == 0);
	renew();
	event(&one, wl_keyboard_event_leave, ++serial);
	read_events(&one);
	request(&one, draft(SEEN, zwp_text_input_v2_request_destroy, ""));
	look(&one);
	HOLDS(HEARD(&one, SEEN, zwp_text_input_v2_event_leave) > 0);
	HOLDS(HEARD(&one, DISPLAY, wl_display_event_delete_id, SEEN) == 1);
	fall();
}

int main(void)
{
	if (!core_open(now, 3000000))
		return 1;
	version_2();
	core_close();
	do_effects();
	HOLDS(tokens_used() == 0);
	printf("text inputs of version 2: %s\n", failed ? "not as they should be" : "ok");
	return failed;
}
