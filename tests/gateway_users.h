/* What the gateway's tests have of programs and methods: their requests, the compositor's events, what they are told. */
#include "gateway_compositor.h"

enum { REGISTRY = 2, SEAT, COMPOSITOR, KEYBOARD, SURFACE, FIELDS, FIELD, KEYBOARD_2 }; /* of a program */
enum { METHODS = COMPOSITOR, BOARDS, BOARD, METHOD_1, GRAB }; /* of a method */
enum { A = 30, B = 48, C = 46 }; /* keys */

/* A program or a method. */
struct user {
	struct place place;
	bool entered; /* its field was told so, and no leave since */
	size_t size; /* of what it was told last */
	uint8_t told[400000];
};

static int failed;

#define HOLDS(what) (void)((what) || (failed = 1, printf("%s, line %d: %s\n", __FILE__, __LINE__, #what)))

/* An event of the compositor's with the client's ids in it, which here become those of the compositor. */
static inline void put_event(struct user *user, const struct message *event)
{
	struct client *client = user->place.client;
	struct message message = *event;
	const struct object *object = object_live(client, message.object);
	if (!object || !message_read(&message, &object->interface->rows[0][message.opcode]))
		exit(1);
	for (unsigned at = 0; at < message.count; at++)
		if (message.signature->kinds[at] == 'o' || IS(&message, wl_display, event, delete_id))
			message_set(&message, at, far_of(client, message.numbers[at]));
	message_address(&message, object->far);
	write_far(&user->place, message.bytes, message.size, NULL, 0);
}

/* A request, which is read; an event, which is read later; and reads those. */
static inline void request(struct user *user, const struct message *message)
{
	send_client(&user->place, message->bytes, message->size, NULL, 0);
}

static inline void event(struct user *user, uint16_t opcode, uint32_t serial)
{
	put_event(user, draft(KEYBOARD, opcode, opcode == wl_keyboard_event_enter ? "uuu" : "uu", serial, SURFACE, 0));
}

static inline void read_events(struct user *user)
{
	now++;
	read_far(&user->place);
}

static inline void enter(struct user *user, uint32_t serial)
{
	event(user, wl_keyboard_event_enter, serial);
	read_events(user);
}

static inline void global(struct user *user, uint32_t name, const char *interface)
{
	put_event(user, draft(REGISTRY, wl_registry_event_global, "usu", name, interface, 5));
	read_events(user);
}

static inline void bind_global(struct user *user, uint32_t name, const char *interface, uint32_t id)
{
	request(user, draft(REGISTRY, wl_registry_request_bind, "usuu", name, interface, 1, id));
}

static inline void start(struct user *user, enum role role)
{
	open_client(&user->place, role);
	request(user, draft(DISPLAY, wl_display_request_get_registry, "u", REGISTRY));
	global(user, 1, "wl_seat");
	global(user, 2, "wl_compositor");
	bind_global(user, 1, "wl_seat", SEAT);
}

static inline void make_field(struct user *user)
{
	request(user, draft(FIELDS, zwp_text_input_manager_v3_request_get_text_input, "uu", FIELD, SEAT));
}

/* A program with a window, and maybe with a field. */
static inline void start_program(struct user *user, bool with_field)
{
	start(user, PROGRAM);
	bind_global(user, 2, "wl_compositor", COMPOSITOR);
	request(user, draft(SEAT, wl_seat_request_get_keyboard, "u", KEYBOARD));
	request(user, draft(COMPOSITOR, wl_compositor_request_create_surface, "u", SURFACE));
	bind_global(user, 0xffff0000 + GLOBAL_FIELDS, "zwp_text_input_manager_v3", FIELDS);
	if (with_field)
		make_field(user);
}

/* A keymap with a number. */
static inline uint32_t keymap_file(int number)
{
	char text[40] = { 0 };
	snprintf(text, sizeof text, "xkb_keymap {%d}", number);
	return make_file(text, sizeof text);
}

static inline void make_method(struct user *user)
{
	request(user, draft(METHODS, zwp_input_method_manager_v2_request_get_input_method, "uu", SEAT, METHOD_1));
}

static inline void make_board(struct user *user)
{
	request(user, draft(BOARDS, zwp_virtual_keyboard_manager_v1_request_create_virtual_keyboard, "uu", SEAT, BOARD));
	const struct message *message = draft(BOARD, zwp_virtual_keyboard_v1_request_keymap, "uu", 1, 40);
	uint32_t token = keymap_file(0);
	send_client(&user->place, message->bytes, message->size, &token, 1);
}

/* A method, with no object but its managers. */
static inline void start_method(struct user *user)
{
	start(user, METHOD);
	bind_global(user, 0xffff0000 + GLOBAL_METHODS, "zwp_input_method_manager_v2", METHODS);
	bind_global(user, 0xffff0000 + GLOBAL_BOARDS, "zwp_virtual_keyboard_manager_v1", BOARDS);
}

/* One with a board; and one that serves besides, where none does, and gets all keys. */
static inline void start_board(struct user *user)
{
	start_method(user);
	make_board(user);
}

static inline void make_grab(struct user *user, uint32_t id)
{
	request(user, draft(METHOD_1, zwp_input_method_v2_request_grab_keyboard, "u", id));
}

static inline void start_grab(struct user *user)
{
	start_board(user);
	make_method(user);
	make_grab(user, GRAB);
}

/* A key of a board; and one of the seat's keyboard. */
static inline void press(struct user *user, uint32_t key, uint32_t state)
{
	request(user, draft(BOARD, zwp_virtual_keyboard_v1_request_key, "uuu", 1, key, state));
}

static inline void type(struct user *user, uint32_t serial, uint32_t time, uint32_t key)
{
	put_event(user, draft(KEYBOARD, wl_keyboard_event_key, "uuuu", serial, time, key, 1));
	read_events(user);
}

/* Takes what a user was told since the last look. It lives. */
static inline void look(struct user *user)
{
	struct message message;
	finish_round();
	HOLDS(user->place.link > 0);
	user->size = user->place.told.size;
	memcpy(user->told, user->place.told.bytes, user->size);
	user->place.told.size = 0;
	for (size_t at = 0; message_front(user->told + at, user->size - at, &message) == FRONT_WHOLE; at += message.size)
		if (message.object == FIELD && message.opcode <= zwp_text_input_v3_event_leave)
			user->entered = message.opcode == zwp_text_input_v3_event_enter;
}

/* How many events of an object there were in that, whose last words are these, where any are given. */
static inline unsigned heard(struct user *user, uint32_t id, uint16_t opcode, const uint32_t *words, size_t count)
{
	struct message message;
	unsigned found = 0;
	size_t size = count * sizeof *words;
	for (size_t at = 0; message_front(user->told + at, user->size - at, &message) == FRONT_WHOLE; at += message.size)
		found += message.object == id && message.opcode == opcode && message.size >= HEADER_SIZE + size
			&& memcmp(message.bytes + message.size - size, words, size) == 0;
	return found;
}

#define HEARD(user, id, opcode, ...) heard(user, id, opcode, (const uint32_t[]){ __VA_ARGS__ }, \
	sizeof((uint32_t[]){ __VA_ARGS__ }) / sizeof(uint32_t))
