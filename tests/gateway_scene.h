/* A program with a window and a field, a method with a popup, and the compositor of the first, for tests. */
#include "gateway_users.h"

enum { SHELL = KEYBOARD_2 + 1, XDG, TOP, POINTER, TOUCH, MENU, MENU_XDG, MENU_POPUP, POSITIONER }; /* of a program */
enum { MAKER = GRAB + 1, MEMORY, POOL, BUFFER, PIXELS, POPUP, MOUSE, FINGER, FRAME, VIEWS }; /* of a method */
enum { WIDTH = 30, HEIGHT = 20, STRIDE = 4 * WIDTH, POOL_SIZE = 4096 };

static struct user one, first;
static struct compositor desktop;
static uint32_t serial;

static inline void global_at(struct user *user, uint32_t name, const char *interface, uint32_t version)
{
	put_event(user, draft(REGISTRY, wl_registry_event_global, "usu", name, interface, version));
	read_events(user);
}

/* A program with a window of the size and a field; the compositor maybe one of wlroots. */
static inline void start_window(struct user *user, bool is_wlroots, uint32_t width, uint32_t height)
{
	start_program(user, true);
	request(user, draft(SEAT, wl_seat_request_get_keyboard, "u", KEYBOARD_2));
	if (is_wlroots)
		global_at(user, 9, "zwlr_screencopy_manager_v1", 1);
	global_at(user, 3, "wl_shm", 1);
	global_at(user, 4, "xdg_wm_base", 3);
	global_at(user, 5, "wl_subcompositor", 1);
	global_at(user, 6, "wp_viewporter", 1);
	bind_global(user, 4, "xdg_wm_base", SHELL);
	request(user, draft(SHELL, xdg_wm_base_request_get_xdg_surface, "uu", XDG, SURFACE));
	request(user, draft(XDG, xdg_surface_request_get_toplevel, "u", TOP));
	request(user, draft(XDG, xdg_surface_request_set_window_geometry, "uuuu", 10, 20, width, height));
	request(user, draft(SEAT, wl_seat_request_get_pointer, "u", POINTER));
	request(user, draft(SEAT, wl_seat_request_get_touch, "u", TOUCH));
}

/* The window has a buffer, of which nobody asks more: it is the surface's seat that has an id. */
static inline void show(struct user *user)
{
	request(user, draft(SURFACE, wl_surface_request_attach, "uuu", SEAT, 0, 0));
	request(user, draft(SURFACE, wl_surface_request_commit, ""));
}

static inline void make_pool(struct user *user, uint32_t id, uint32_t size, size_t true_size)
{
	static uint8_t bytes[POOL_SIZE];
	const struct message *message = draft(MEMORY, wl_shm_request_create_pool, "uu", id, size);
	for (size_t at = 0; at < sizeof bytes; at++)
		bytes[at] = (uint8_t)at;
	uint32_t token = make_file(bytes, true_size);
	send_client(&user->place, message->bytes, message->size, &token, 1);
}

static inline void start_popup(struct user *user, size_t true_size)
{
	start_grab(user);
	global_at(user, 3, "wl_shm", 1);
	global_at(user, 6, "wp_viewporter", 1);
	bind_global(user, 2, "wl_compositor", MAKER);
	bind_global(user, 3, "wl_shm", MEMORY);
	make_pool(user, POOL, POOL_SIZE, true_size);
	request(user, draft(POOL, wl_shm_pool_request_create_buffer, "uuuuuu", BUFFER, 40, WIDTH, HEIGHT, STRIDE, 0));
	request(user, draft(MAKER, wl_compositor_request_create_surface, "u", PIXELS));
	request(user, draft(METHOD_1, zwp_input_method_v2_request_get_input_popup_surface, "uu", POPUP, PIXELS));
	request(user, draft(SEAT, wl_seat_request_get_pointer, "u", MOUSE));
	request(user, draft(SEAT, wl_seat_request_get_touch, "u", FINGER));
}

static inline void draw(struct user *user, uint32_t frame)
{
	request(user, draft(PIXELS, wl_surface_request_attach, "uuu", BUFFER, 0, 0));
	if (frame)
		request(user, draft(PIXELS, wl_surface_request_frame, "u", frame));
	request(user, draft(PIXELS, wl_surface_request_commit, ""));
}

static inline void enable_at(struct user *user, uint32_t x, uint32_t y)
{
	request(user, draft(FIELD, zwp_text_input_v3_request_enable, ""));
	request(user, draft(FIELD, zwp_text_input_v3_request_set_cursor_rectangle, "uuuu", x, y, 2, 10));
	request(user, draft(FIELD, zwp_text_input_v3_request_commit, ""));
}

/* A round ends, and the compositor hears of it. */
static inline void round_ends(void)
{
	finish_round();
	if (one.place.link > 0)
		look_far(&desktop, &one.place);
	HOLDS(!desktop.wrong);
	if (desktop.wrong)
		printf("%s\n", desktop.wrong);
	desktop.wrong = NULL;
}

/* What the compositor says of the gateway's own objects. */
static inline void say_far(const struct message *message)
{
	write_far(&one.place, message->bytes, message->size, NULL, 0);
}

static inline uint32_t of_row(const struct signature *row, unsigned argument)
{
	const struct asked_of *asked = asked_last(&desktop, 0, row);
	return asked ? asked->numbers[argument] : 0;
}

/* Both stand, a popup is drawn, and the window has the focus. */
static inline void stand(bool is_wlroots, uint32_t width, uint32_t height)
{
	desktop = (struct compositor){ 0 };
	start_window(&one, is_wlroots, width, height);
	start_popup(&first, POOL_SIZE);
	show(&one);
	round_ends();
	enter(&one, ++serial);
	enable_at(&one, 100, 60);
	draw(&first, 0);
	round_ends();
}

static inline void fall(void)
{
	if (first.place.link > 0)
		close_client(&first.place);
	if (one.place.link > 0)
		close_client(&one.place);
	HOLDS(tokens_used() <= 2); /* a keymap's, and that of what is clear */
}
