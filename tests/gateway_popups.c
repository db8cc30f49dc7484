/*
 * Popups of methods in programs' windows, as a compositor and both sides see them: where they stand, who is told what,
 * and each way in which a popup's window, program or method ends. Built by tests/gateway.sh. Prints what doesn't hold.
 */
#include "gateway_scene.h"

/* As a subsurface: what is copied, who commits, what is told of frames. */
static void inside(void)
{
	stand(true, 640, 480);
	uint32_t window = far_of(one.place.client, SURFACE);
	uint32_t sub = of_row(ROW(wl_subcompositor, get_subsurface), 0);
	uint32_t surface = of_row(ROW(wl_subcompositor, get_subsurface), 1);
	HOLDS(sub > 0 && of_row(ROW(wl_subcompositor, get_subsurface), 2) == window);
	HOLDS(asked_times(&desktop, sub, ROW(wl_subsurface, set_desync)) == 1);
	HOLDS(of_row(ROW(wl_subsurface, set_position), 0) == 100 && of_row(ROW(wl_subsurface, set_position), 1) == 70);
	HOLDS(asked_times(&desktop, window, ROW(wl_surface, commit)) == 1);
	HOLDS(asked_times(&desktop, surface, ROW(wl_surface, commit)) == 1 && one.place.asked.files == 1);
	HOLDS(of_row(ROW(wl_shm, create_pool), 2) == STRIDE * HEIGHT && of_row(ROW(wl_shm_pool, create_buffer), 2) == WIDTH);
	uint32_t buffer = of_row(ROW(wl_surface, attach), 0), frame = of_row(ROW(wl_surface, frame), 0);
	HOLDS(near_of(one.place.client, surface) == 0 && private_of(one.place.client, surface) && buffer > 0 && frame > 0);
	look(&first);
	HOLDS(HEARD(&first, BUFFER, wl_buffer_event_release) == 1);
	look(&one);
	/* At most one in each of the compositor's frames; the method is told of that. */
	for (uint32_t at = 0; at < 3; at++)
		draw(&first, FRAME + at);
	round_ends();
	HOLDS(desktop.asked_count == 0);
	look(&first);
	HOLDS(HEARD(&first, FRAME, wl_callback_event_done) == 0);
	say_far(draft(buffer, wl_buffer_event_release, ""));
	say_far(draft(frame, wl_callback_event_done, "u", 5));
	say_far(draft(DISPLAY, wl_display_event_delete_id, "u", frame));
	desktop.faces[frame] = NULL;
	read_events(&one);
	look(&first);
	look(&one);
	HOLDS(HEARD(&first, FRAME, wl_callback_event_done, 5) == 1);
	HOLDS(HEARD(&first, FRAME + 2, wl_callback_event_done, 5) == 1);
	HOLDS(HEARD(&first, DISPLAY, wl_display_event_delete_id, FRAME) == 1 && one.size == 0);
	round_ends();
	HOLDS(asked_times(&desktop, buffer, ROW(wl_buffer, destroy)) == 1);
	HOLDS(asked_times(&desktop, surface, ROW(wl_surface, commit)) == 1);
	fall();
}

/* Where the cursor moves it is placed by a commit of the gateway's, or of the program's, which has something pending. */
static void moves(void)
{
	stand(true, 640, 480);
	uint32_t window = far_of(one.place.client, SURFACE), sub = of_row(ROW(wl_subcompositor, get_subsurface), 0);
	enable_at(&one, 300, 60);
	round_ends();
	HOLDS(of_row(ROW(wl_subsurface, set_position), 0) == 300);
	HOLDS(asked_times(&desktop, window, ROW(wl_surface, commit)) == 1);
	request(&one, draft(SURFACE, wl_surface_request_damage, "uuuu", 0, 0, 1, 1));
	request(&one, draft(TOP, xdg_toplevel_request_set_title, "s", "nothing pending"));
	enable_at(&one, 310, 60);
	round_ends();
	HOLDS(of_row(ROW(wl_subsurface, set_position), 0) == 310);
	HOLDS(asked_times(&desktop, window, ROW(wl_surface, commit)) == 0);
	request(&one, draft(SURFACE, wl_surface_request_commit, ""));
	round_ends();
	HOLDS(asked_times(&desktop, window, ROW(wl_surface, commit)) == 1 && desktop.asked_count == 1);
	/* Its method hides it, and draws it again. */
	request(&first, draft(PIXELS, wl_surface_request_attach, "uuu", 0, 0, 0));
	request(&first, draft(PIXELS, wl_surface_request_commit, ""));
	round_ends();
	HOLDS(asked_times(&desktop, sub, ROW(wl_subsurface, destroy)) == 1);
	HOLDS(asked_times(&desktop, window, ROW(wl_surface, damage)) == 1);
	HOLDS(asked_times(&desktop, window, ROW(wl_surface, commit)) == 1);
	draw(&first, 0);
	round_ends();
	HOLDS(of_row(ROW(wl_subcompositor, get_subsurface), 2) == window);
	/* The field goes, and the method with it. */
	request(&one, draft(FIELD, zwp_text_input_v3_request_disable, ""));
	request(&one, draft(FIELD, zwp_text_input_v3_request_commit, ""));
	round_ends();
	HOLDS(asked_times(&desktop, 0, ROW(wl_subsurface, destroy)) == 1);
	fall();
}

/* As an xdg_popup, where it doesn't fit and the compositor isn't of wlroots: configured, moved, taken away. */
static void beside(void)
{
	stand(false, 640, 12);
	uint32_t popup = of_row(ROW(xdg_surface, get_popup), 0), xdg = of_row(ROW(xdg_wm_base, get_xdg_surface), 0);
	uint32_t surface = of_row(ROW(xdg_wm_base, get_xdg_surface), 1);
	HOLDS(popup > 0 && of_row(ROW(xdg_surface, get_popup), 1) == far_of(one.place.client, XDG));
	HOLDS(of_row(ROW(xdg_positioner, set_anchor_rect), 0) == 90 && of_row(ROW(xdg_positioner, set_anchor_rect), 1) == 11);
	HOLDS(asked_times(&desktop, surface, ROW(wl_surface, attach)) == 0 && one.place.asked.files == 0);
	say_far(draft(popup, xdg_popup_event_configure, "uuuu", 100, 210, WIDTH, HEIGHT));
	say_far(draft(xdg, xdg_surface_event_configure, "u", 77));
	read_events(&one);
	round_ends();
	HOLDS(of_row(ROW(xdg_surface, ack_configure), 0) == 77);
	HOLDS(asked_times(&desktop, surface, ROW(wl_surface, attach)) == 1);
	enable_at(&one, 300, 60);
	round_ends();
	HOLDS(asked_times(&desktop, popup, ROW(xdg_popup, reposition)) == 1);
	HOLDS(of_row(ROW(xdg_positioner, set_anchor_rect), 0) == 290);
	/* The compositor takes it away, until it is to be elsewhere. */
	say_far(draft(popup, xdg_popup_event_popup_done, ""));
	read_events(&one);
	round_ends();
	HOLDS(asked_times(&desktop, popup, ROW(xdg_popup, destroy)) == 1);
	draw(&first, 0);
	round_ends();
	HOLDS(of_row(ROW(xdg_surface, get_popup), 0) == 0);
	enable_at(&one, 400, 60);
	round_ends();
	popup = of_row(ROW(xdg_surface, get_popup), 0);
	HOLDS(popup > 0);
	/* It fits: a subsurface. The window goes, and before it the popup. */
	request(&one, draft(XDG, xdg_surface_request_set_window_geometry, "uuuu", 10, 20, 640, 480));
	request(&one, draft(SURFACE, wl_surface_request_commit, ""));
	round_ends();
	HOLDS(asked_times(&desktop, popup, ROW(xdg_popup, destroy)) == 1);
	HOLDS(of_row(ROW(wl_subcompositor, get_subsurface), 0) > 0);
	fall();
}

/* In a program's own popup that grabs, its place is counted from there. */
static void menu(void)
{
	stand(true, 640, 480);
	request(&one, draft(COMPOSITOR, wl_compositor_request_create_surface, "u", MENU));
	request(&one, draft(SHELL, xdg_wm_base_request_create_positioner, "u", POSITIONER - 2));
	request(&one, draft(SHELL, xdg_wm_base_request_get_xdg_surface, "uu", POSITIONER - 1, MENU));
	request(&one, draft(POSITIONER - 1, xdg_surface_request_get_popup, "uuu", POSITIONER, XDG, POSITIONER - 2));
	request(&one, draft(POSITIONER - 1, xdg_surface_request_set_window_geometry, "uuuu", 5, 5, 80, 30));
	request(&one, draft(POSITIONER, xdg_popup_request_grab, "uu", SEAT, serial));
	put_event(&one, draft(POSITIONER, xdg_popup_event_configure, "uuuu", 50, 30, 80, 30));
	read_events(&one);
	request(&one, draft(MENU, wl_surface_request_attach, "uuu", SEAT, 0, 0));
	request(&one, draft(MENU, wl_surface_request_commit, ""));
	round_ends();
	HOLDS(of_row(ROW(wl_subcompositor, get_subsurface), 2) == far_of(one.place.client, MENU));
	HOLDS(of_row(ROW(wl_subsurface, set_position), 0) == 100 - 10 - 50 + 5);
	HOLDS(of_row(ROW(wl_subsurface, set_position), 1) == 70 - 20 - 30 + 5);
	for (uint32_t at = 0; at < 16; at++) { /* no number overflows */
		static const uint32_t numbers[] = { 0x7fffffff, 0x80000000, 0, 5 };
		const uint32_t x = numbers[at % 4], y = numbers[at / 4];
		request(&one, draft(POSITIONER - 1, xdg_surface_request_set_window_geometry, "uuuu", x, y, y, x));
		request(&one, draft(XDG, xdg_surface_request_set_window_geometry, "uuuu", y, x, x, y));
		put_event(&one, draft(POSITIONER, xdg_popup_event_configure, "uuuu", y, x, x, y));
		read_events(&one);
		enable_at(&one, x, y);
		round_ends();
	}
	request(&one, draft(POSITIONER, xdg_popup_request_destroy, ""));
	round_ends();
	HOLDS(desktop.asked_count > 2 && asked_times(&desktop, 0, ROW(wl_subsurface, destroy)) == 1);
	HOLDS(desktop.asked[desktop.asked_count - 1].row != ROW(wl_subsurface, destroy));
	HOLDS(of_row(ROW(wl_subcompositor, get_subsurface), 2) == far_of(one.place.client, SURFACE));
	fall();
}

/* On a panel: all of it is shown, or it is an xdg_popup that the layer surface gets. */
static void panel(void)
{
	enum { LAYERS = SHELL, LAYER };
	for (int is_wlroots = 0; is_wlroots < 2; is_wlroots++) {
		desktop = (struct compositor){ 0 };
		start_program(&one, true);
		request(&one, draft(SEAT, wl_seat_request_get_keyboard, "u", KEYBOARD_2));
		if (is_wlroots)
			global_at(&one, 9, "zwlr_screencopy_manager_v1", 1);
		global_at(&one, 3, "wl_shm", 1);
		global_at(&one, 4, "xdg_wm_base", 3);
		global_at(&one, 5, "wl_subcompositor", 1);
		global_at(&one, 8, "zwlr_layer_shell_v1", 1);
		bind_global(&one, 8, "zwlr_layer_shell_v1", LAYERS);
		request(&one, draft(LAYERS, zwlr_layer_shell_v1_request_get_layer_surface, "uuuus", LAYER, SURFACE, 0, 1, "a panel"));
		start_popup(&first, POOL_SIZE);
		show(&one);
		enter(&one, ++serial);
		enable_at(&one, 100, 5);
		draw(&first, 0);
		round_ends();
		uint32_t layer = far_of(one.place.client, LAYER);
		if (is_wlroots) {
			HOLDS(of_row(ROW(wl_subsurface, set_position), 0) == 100);
			HOLDS(of_row(ROW(wl_subsurface, set_position), 1) == 15);
		} else {
			HOLDS(of_row(ROW(xdg_surface, get_popup), 0) > 0 && of_row(ROW(xdg_surface, get_popup), 1) == 0);
			HOLDS(asked_times(&desktop, layer, ROW(zwlr_layer_surface_v1, get_popup)) == 1);
		}
		request(&one, draft(LAYER, zwlr_layer_surface_v1_request_set_anchor, "u", 2 | 4 | 8));
		request(&one, draft(SURFACE, wl_surface_request_commit, ""));
		round_ends();
		HOLDS(!is_wlroots || (int32_t)of_row(ROW(wl_subsurface, set_position), 1) == 5 - HEIGHT);
		request(&one, draft(LAYER, zwlr_layer_surface_v1_request_destroy, ""));
		look(&one);
		HOLDS(!one.entered);
		round_ends();
		HOLDS(desktop.asked[desktop.asked_count - 1].object == layer);
		fall();
	}
}

/* The image that a method sets for the pointer on its popup, which had its pixels before; it goes with the pointer. */
static void cursor_image(uint32_t surface, uint32_t pointer)
{
	request(&first, draft(MAKER, wl_compositor_request_create_surface, "u", FRAME));
	request(&first, draft(FRAME, wl_surface_request_attach, "uuu", BUFFER, 0, 0));
	request(&first, draft(FRAME, wl_surface_request_commit, ""));
	request(&first, draft(MOUSE, wl_pointer_request_set_cursor, "uuuu", 152, FRAME, 3, 4));
	round_ends();
	HOLDS(desktop.asked_count == 0); /* the pointer isn't on it */
	say_far(draft(pointer, wl_pointer_event_enter, "uuuu", 156, surface, 512, 768));
	read_events(&one);
	request(&first, draft(MOUSE, wl_pointer_request_set_cursor, "uuuu", 156, FRAME, 3, 4));
	round_ends();
	uint32_t image = of_row(ROW(wl_pointer, set_cursor), 1);
	HOLDS(image > 0 && of_row(ROW(wl_pointer, set_cursor), 0) == 156 && of_row(ROW(wl_pointer, set_cursor), 3) == 4);
	HOLDS(asked_times(&desktop, image, ROW(wl_surface, attach)) == 1 && of_row(ROW(wl_shm_pool, create_buffer), 2) == WIDTH);
	say_far(draft(pointer, wl_pointer_event_leave, "uu", 157, surface));
	read_events(&one);
	round_ends();
	HOLDS(asked_times(&desktop, image, ROW(wl_surface, destroy)) == 1);
}

/* The pointer goes from the window to the popup: the method hears of it, the program of a leave. So do fingers. */
static void pointer_on_it(void)
{
	stand(true, 640, 480);
	uint32_t own = one.place.client->owns[OWN_SEAT].id, surface = of_row(ROW(wl_subcompositor, get_subsurface), 1);
	uint32_t window = far_of(one.place.client, SURFACE), theirs = far_of(one.place.client, POINTER);
	uint32_t their_touch = far_of(one.place.client, TOUCH);
	say_far(draft(own, wl_seat_event_capabilities, "u", 7));
	read_events(&one);
	round_ends();
	uint32_t pointer = of_row(ROW(wl_seat, get_pointer), 0), touch = of_row(ROW(wl_seat, get_touch), 0);
	HOLDS(pointer > 0 && touch > 0);
	look(&one);
	say_far(draft(theirs, wl_pointer_event_enter, "uuuu", 150, window, 256, 256));
	say_far(draft(theirs, wl_pointer_event_leave, "uu", 151, window));
	say_far(draft(theirs, wl_pointer_event_enter, "uuuu", 152, surface, 512, 768));
	say_far(draft(theirs, wl_pointer_event_motion, "uuu", 1, 512, 768));
	say_far(draft(theirs, wl_pointer_event_button, "uuuu", 153, 2, 0x110, 1));
	say_far(draft(pointer, wl_pointer_event_enter, "uuuu", 152, surface, 512, 768));
	say_far(draft(pointer, wl_pointer_event_button, "uuuu", 153, 2, 0x110, 1));
	say_far(draft(pointer, wl_pointer_event_leave, "uu", 154, surface));
	say_far(draft(theirs, wl_pointer_event_leave, "uu", 154, surface));
	say_far(draft(theirs, wl_pointer_event_enter, "uuuu", 155, window, 256, 256));
	say_far(draft(theirs, wl_pointer_event_motion, "uuu", 3, 99, 99));
	read_events(&one);
	look(&one);
	look(&first);
	HOLDS(HEARD(&one, POINTER, wl_pointer_event_enter) == 2 && HEARD(&one, POINTER, wl_pointer_event_leave) == 1);
	HOLDS(HEARD(&one, POINTER, wl_pointer_event_motion) == 1 && HEARD(&one, POINTER, wl_pointer_event_button) == 0);
	HOLDS(HEARD(&first, MOUSE, wl_pointer_event_enter, 152, PIXELS, 512, 768) == 1);
	HOLDS(HEARD(&first, MOUSE, wl_pointer_event_button, 153, 2, 0x110, 1) == 1);
	HOLDS(HEARD(&first, MOUSE, wl_pointer_event_leave) == 1);
	cursor_image(surface, pointer);
	for (int each = 0; each < 2; each++) { /* one finger on the window, another on the popup */
		uint32_t id = each ? touch : their_touch;
		say_far(draft(id, wl_touch_event_down, "uuuuuu", 160, 1, window, 0, 256, 256));
		say_far(draft(id, wl_touch_event_down, "uuuuuu", 161, 1, surface, 1, 512, 512));
		say_far(draft(id, wl_touch_event_motion, "uuuu", 2, 1, 600, 600));
		say_far(draft(id, wl_touch_event_motion, "uuuu", 2, 0, 300, 300));
		say_far(draft(id, wl_touch_event_up, "uuu", 162, 3, 1));
		say_far(draft(id, wl_touch_event_frame, ""));
	}
	read_events(&one);
	look(&one);
	look(&first);
	HOLDS(HEARD(&one, TOUCH, wl_touch_event_down) == 1 && HEARD(&one, TOUCH, wl_touch_event_motion) == 1);
	HOLDS(HEARD(&one, TOUCH, wl_touch_event_up) == 0 && HEARD(&one, TOUCH, wl_touch_event_frame) == 1);
	HOLDS(HEARD(&first, FINGER, wl_touch_event_down, 161, 1, PIXELS, 1, 512, 512) == 1);
	HOLDS(HEARD(&first, FINGER, wl_touch_event_motion) == 1 && HEARD(&first, FINGER, wl_touch_event_up) == 1);
	/* Where the method's own comes after the pointer is on it, as the compositor's first does, it hears where that is. */
	say_far(draft(pointer, wl_pointer_event_enter, "uuuu", 170, surface, 512, 768));
	say_far(draft(pointer, wl_pointer_event_motion, "uuu", 4, 600, 700));
	read_events(&one);
	uint32_t late = first.place.client->counts[0];
	request(&first, draft(SEAT, wl_seat_request_get_pointer, "u", late));
	say_far(draft(pointer, wl_pointer_event_button, "uuuu", 171, 5, 0x110, 1));
	read_events(&one);
	look(&first);
	HOLDS(HEARD(&first, late, wl_pointer_event_enter, 170, PIXELS, 600, 700) == 1);
	HOLDS(HEARD(&first, late, wl_pointer_event_button, 171, 5, 0x110, 1) == 1);
	request(&first, draft(late, wl_pointer_request_release, ""));
	/* It goes with the pointer in it: the method hears of a leave. */
	request(&one, draft(FIELD, zwp_text_input_v3_request_disable, ""));
	request(&one, draft(FIELD, zwp_text_input_v3_request_commit, ""));
	round_ends();
	look(&first);
	HOLDS(HEARD(&first, MOUSE, wl_pointer_event_leave) == 1);
	fall();
}

/* What the compositor says of private objects, or of ids that nobody knows, names nothing to the program. */
static void unnamed(void)
{
	stand(true, 640, 480);
	uint32_t surface = of_row(ROW(wl_subcompositor, get_subsurface), 1);
	look(&one);
	say_far(draft(DISPLAY, wl_display_event_error, "uus", surface, 7, "of a popup"));
	read_events(&one);
	finish_round();
	one.size = one.place.told.size;
	memcpy(one.told, one.place.told.bytes, one.size);
	HOLDS(one.place.link == 0 && HEARD(&one, DISPLAY, wl_display_event_error) == 1 && one.size > 12);
	HOLDS(memcmp(one.told + 8, (const uint32_t[]){ DISPLAY, 7 }, 8) == 0);
	fall();
	stand(true, 640, 480);
	look(&one);
	say_far(draft(3000, wl_callback_event_done, "u", 1));
	read_events(&one);
	finish_round();
	HOLDS(one.place.link == 0 && memcmp(one.place.told.bytes + 8, (const uint32_t[]){ DISPLAY }, 4) == 0);
	fall();
}

/* Each way in which the window of a popup goes, and its program, its field, its focus and its method. */
static void ends(void)
{
	enum { SURFACE_GOES, TOP_GOES, UNMAPPED, PROGRAM_GOES, PROGRAM_HUNG_UP, FOCUS_GOES, METHOD_GOES, METHOD_ENDS,
		PIXELS_GO, POPUP_GOES, WAYS };
	for (int way = 0; way < 2 * WAYS; way++) {
		stand(way % 2, way % 2 ? 640 : 8, way % 2 ? 480 : 8);
		uint32_t sub = of_row(ROW(wl_subcompositor, get_subsurface), 0), popup = of_row(ROW(xdg_surface, get_popup), 0);
		const struct signature *row = way % 2 ? ROW(wl_subsurface, destroy) : ROW(xdg_popup, destroy);
		HOLDS((sub > 0) == (way % 2 == 1) && (popup > 0) == (way % 2 == 0));
		switch (way / 2) {
		case SURFACE_GOES:
			request(&one, draft(SURFACE, wl_surface_request_destroy, ""));
			break;
		case TOP_GOES:
			request(&one, draft(TOP, xdg_toplevel_request_destroy, ""));
			break;
		case UNMAPPED:
			request(&one, draft(SURFACE, wl_surface_request_attach, "uuu", 0, 0, 0));
			request(&one, draft(SURFACE, wl_surface_request_commit, ""));
			break;
		case PROGRAM_GOES:
		case PROGRAM_HUNG_UP:
			core_hung_up(++now, one.place.link, way / 2 == PROGRAM_GOES ? NEAR : FAR, NULL);
			break;
		case FOCUS_GOES:
			event(&one, wl_keyboard_event_leave, ++serial);
			read_events(&one);
			break;
		case METHOD_GOES:
			request(&first, draft(METHOD_1, zwp_input_method_v2_request_destroy, ""));
			break;
		case METHOD_ENDS:
			core_hung_up(++now, first.place.link, NEAR, NULL);
			break;
		case PIXELS_GO:
			request(&first, draft(PIXELS, wl_surface_request_destroy, ""));
			break;
		case POPUP_GOES:
			request(&first, draft(POPUP, zwp_input_popup_surface_v2_request_destroy, ""));
		}
		round_ends();
		bool lives = way / 2 != PROGRAM_GOES && way / 2 != PROGRAM_HUNG_UP;
		HOLDS((one.place.link > 0) == lives && (first.place.link > 0) == (way / 2 != METHOD_ENDS));
		HOLDS(!lives || asked_times(&desktop, 0, row) == 1);
		if (way / 2 <= UNMAPPED) /* it comes before what the program asked last */
			HOLDS(desktop.asked_count > 1 && desktop.asked[desktop.asked_count - 1].row != row);
		fall();
	}
}

/* A window that isn't shown has no focus, though the compositor doesn't say so; shown again it has. */
static void unmapped(void)
{
	static struct user two;
	stand(true, 640, 480);
	look(&one);
	HOLDS(one.entered);
	request(&one, draft(SURFACE, wl_surface_request_attach, "uuu", 0, 0, 0));
	look(&one);
	HOLDS(one.entered);
	request(&one, draft(SURFACE, wl_surface_request_commit, ""));
	look(&one);
	HOLDS(!one.entered);
	show(&one);
	look(&one);
	HOLDS(one.entered);
	request(&one, draft(TOP, xdg_toplevel_request_destroy, ""));
	look(&one);
	HOLDS(!one.entered);
	start_window(&two, true, 640, 480);
	enter(&two, ++serial);
	show(&one);
	look(&one);
	look(&two);
	HOLDS(!one.entered && two.entered);
	close_client(&two.place);
	fall();
}

int main(void)
{
	if (!core_open(now, 3000000))
		return 1;
	inside();
	moves();
	beside();
	menu();
	panel();
	pointer_on_it();
	unnamed();
	ends();
	unmapped();
	core_close();
	do_effects();
	HOLDS(tokens_used() == 0);
	printf("popups in windows: %s\n", failed ? "not as they should be" : "ok");
	return failed;
}
