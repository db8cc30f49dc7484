/*
 * What popups show: which pixels are taken, how many, how often, at which size. Built by tests/gateway.sh. Prints what
 * doesn't hold.
 */
#include "gateway_scene.h"

/* A file that is shorter than its pool ends the method; pixels that the compositor wouldn't take aren't shown. */
static void lies(void)
{
	static const uint32_t bad[][5] = { /* offset, width, height, stride, format */
		{ 40, WIDTH, HEIGHT, STRIDE - 4, 0 }, { 40, WIDTH, HEIGHT, STRIDE + 2, 0 }, { 40, 0, HEIGHT, STRIDE, 0 },
		{ POOL_SIZE, WIDTH, HEIGHT, STRIDE, 0 }, { 40, WIDTH, 0x7fffffff, STRIDE, 0 },
		{ 40, WIDTH, HEIGHT, STRIDE, 0x34324241 }, { 0xffffffff, WIDTH, HEIGHT, STRIDE, 0 },
		{ 40, 0x40000000, 1, 0xffffffff, 0 },
	};
	stand(true, 640, 480);
	for (size_t at = 0; at < sizeof bad / sizeof *bad; at++) {
		const uint32_t *b = bad[at];
		request(&first, draft(POOL, wl_shm_pool_request_create_buffer, "uuuuuu", FRAME + at, b[0], b[1], b[2], b[3], b[4]));
		request(&first, draft(PIXELS, wl_surface_request_attach, "uuu", FRAME + at, 0, 0));
		request(&first, draft(PIXELS, wl_surface_request_commit, ""));
		round_ends();
		look(&first);
		HOLDS(one.place.link > 0 && HEARD(&first, FRAME + at, wl_buffer_event_release) == 1);
		HOLDS(asked_times(&desktop, 0, ROW(wl_subsurface, destroy)) == (at == 0));
	}
	fall();
	desktop = (struct compositor){ 0 };
	start_window(&one, true, 640, 480);
	start_popup(&first, POOL_SIZE / 2);
	show(&one);
	enter(&one, ++serial);
	enable_at(&one, 100, 60);
	draw(&first, 0);
	round_ends();
	HOLDS(one.place.link > 0 && first.place.link == 0); /* of it there was nothing but what is clear */
	HOLDS(asked_times(&desktop, 0, ROW(wl_surface, attach)) == 2);
	HOLDS(asked_times(&desktop, 0, ROW(wl_subsurface, destroy)) == 1);
	fall();
}

/* 20,000 commits at once cost two copies; each buffer comes back; 100 popups are as many as are shown, and no more. */
static void many(void)
{
	stand(true, 640, 480);
	look(&first);
	for (int at = 0; at < 20000; at++)
		draw(&first, 0);
	round_ends();
	look(&first);
	HOLDS(HEARD(&first, BUFFER, wl_buffer_event_release) == 0 && desktop.asked_count == 0 && tokens_used() < 10);
	for (uint32_t at = 0, id = FRAME; at < 100; at++, id += 2) {
		request(&first, draft(MAKER, wl_compositor_request_create_surface, "u", id));
		request(&first, draft(METHOD_1, zwp_input_method_v2_request_get_input_popup_surface, "uu", id + 1, id));
		request(&first, draft(id, wl_surface_request_attach, "uuu", BUFFER, 0, 0));
		request(&first, draft(id, wl_surface_request_commit, ""));
	}
	round_ends();
	HOLDS(one.place.link > 0 && first.place.link > 0);
	HOLDS(asked_times(&desktop, 0, ROW(wl_subcompositor, get_subsurface)) == 15);
	fall();
}

/* So many bytes of a method's are copied in a second, and no more; what isn't copied yet is, later. */
static void too_fast(void)
{
	unsigned copies = 0;
	stand(true, 640, 480);
	uint64_t begun = now;
	while (now < begun + 1000000) {
		uint32_t buffer = of_row(ROW(wl_surface, attach), 0);
		if (buffer > 0)
			say_far(draft(buffer, wl_buffer_event_release, ""));
		now += 101000;
		read_events(&one);
		draw(&first, 0);
		round_ends();
		copies += asked_times(&desktop, 0, ROW(wl_surface, attach));
	}
	HOLDS(copies == 10);
	first.place.client->copies_from = now + 500000;
	now += 101000;
	draw(&first, 0);
	round_ends();
	int wait = core_wait(now);
	HOLDS(asked_times(&desktop, 0, ROW(wl_surface, attach)) == 0 && wait > 390 && wait < 402);
	now += 400000;
	round_ends();
	HOLDS(asked_times(&desktop, 0, ROW(wl_surface, attach)) == 1);
	fall();
}

/* A destroyed buffer was committed already; one with its id isn't released in its place. */
static void destroyed_buffer(void)
{
	desktop = (struct compositor){ 0 };
	start_window(&one, true, 640, 480);
	start_popup(&first, POOL_SIZE);
	draw(&first, 0);
	request(&first, draft(BUFFER, wl_buffer_request_destroy, ""));
	put_event(&first, draft(DISPLAY, wl_display_event_delete_id, "u", BUFFER));
	read_events(&first);
	request(&first, draft(POOL, wl_shm_pool_request_create_buffer, "uuuuuu", BUFFER, 40, WIDTH, HEIGHT, STRIDE, 0));
	show(&one);
	enter(&one, ++serial);
	enable_at(&one, 100, 60);
	round_ends();
	look(&first);
	HOLDS(asked_times(&desktop, 0, ROW(wl_surface, attach)) == 2 && HEARD(&first, BUFFER, wl_buffer_event_release) == 0);
	fall();
}

/* Of a scale, of a viewport: the size on the screen; what the compositor would refuse isn't shown. */
static void sizes(void)
{
	stand(true, 640, 480);
	request(&first, draft(PIXELS, wl_surface_request_set_buffer_scale, "u", 2));
	draw(&first, 0);
	enable_at(&one, 635, 60);
	now += 200000;
	round_ends();
	HOLDS(of_row(ROW(wl_subsurface, set_position), 0) == 650 - WIDTH / 2);
	HOLDS(of_row(ROW(wl_surface, set_buffer_scale), 0) == 2);
	request(&first, draft(PIXELS, wl_surface_request_set_buffer_scale, "u", 4));
	draw(&first, 0); /* 30 isn't of fours */
	now += 200000;
	round_ends();
	HOLDS(asked_times(&desktop, 0, ROW(wl_subsurface, destroy)) == 1);
	request(&first, draft(PIXELS, wl_surface_request_set_buffer_scale, "u", 1));
	bind_global(&first, 6, "wp_viewporter", FRAME);
	request(&first, draft(FRAME, wp_viewporter_request_get_viewport, "uu", VIEWS, PIXELS));
	request(&first, draft(VIEWS, wp_viewport_request_set_destination, "uu", 15, 10));
	draw(&first, 0);
	round_ends();
	HOLDS(of_row(ROW(wl_subsurface, set_position), 0) == 635 && of_row(ROW(wp_viewport, set_destination), 1) == 10);
	request(&first, draft(VIEWS, wp_viewport_request_set_source, "uuuu", 0, 0, 31 * 256, 256));
	draw(&first, 0); /* the source lies outside */
	now += 200000;
	round_ends();
	HOLDS(one.place.link > 0 && asked_times(&desktop, 0, ROW(wl_subsurface, destroy)) == 1);
	fall();
}

/* Where the compositor tells no frame, a timer does. */
static void late_frames(void)
{
	stand(true, 640, 480);
	draw(&first, FRAME);
	round_ends();
	look(&first);
	HOLDS(HEARD(&first, FRAME, wl_callback_event_done) == 0);
	int wait = core_wait(now);
	HOLDS(wait > 0 && wait <= 101);
	now += 101000;
	round_ends();
	look(&first);
	HOLDS(HEARD(&first, FRAME, wl_callback_event_done) == 1 && core_wait(now) == -1);
	fall();
}

int main(void)
{
	if (!core_open(now, 3000000))
		return 1;
	lies();
	many();
	too_fast();
	destroyed_buffer();
	sizes();
	late_frames();
	core_close();
	do_effects();
	HOLDS(tokens_used() == 0);
	printf("the pixels of popups: %s\n", failed ? "not as they should be" : "ok");
	return failed;
}
