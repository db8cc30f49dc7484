/*
 * Random messages of clients and of a compositor, good, bent and cut, through the gateway's core:
 *
 *     gateway_fuzz [ROUNDS [SEED [honest]]]
 *
 * Each program begins with a window, and the method with a popup that is shown in the last one's. Where the compositor
 * is honest, what it is asked is held against its rules for new ids. Built with the address sanitizer by
 * tests/gateway.sh. Says how many messages were read, how many clients ended, and for how many rounds the gateway had
 * objects in a program.
 */
#include "gateway_users.h"

enum { CLIENTS = 4, LONGEST = 70000 };

static struct user users[CLIENTS];
static struct compositor compositors[CLIENTS];
static bool honest; /* the compositor says no more than what follows from what it was asked */

static uint64_t state;
static unsigned long messages, ended;

static uint32_t random_below(uint32_t bound)
{
	state = state * UINT64_C(6364136223846793005) + UINT64_C(1442695040888963407);
	return (uint32_t)(state >> 33) % bound;
}

/* An id that mostly names something. */
static uint32_t random_id(struct client *client)
{
	uint32_t count = client->counts[0], servers = client->counts[1], id = DISPLAY;
	if (random_below(400) == 0)
		return random_below(2) ? (uint32_t)state : OWN + random_below(8);
	for (int tries = 0; tries < 20; tries++) {
		id = servers > 0 && random_below(5) == 0 ? FIRST_SERVER_ID + random_below(servers) : random_below(count);
		if (object_live(client, id))
			return id;
	}
	return DISPLAY;
}

/* The compositor's id of what a client's names; else the same. */
static uint32_t far_id(struct client *client, uint32_t id)
{
	uint32_t far = far_of(client, id);
	return far > 0 ? far : id;
}

/* An id that the compositor mostly knows, as that of a seat. */
static uint32_t argument_id(struct client *client)
{
	uint32_t id = random_id(client);
	for (int tries = 0; tries < 20 && far_of(client, id) == 0 && random_below(200); tries++)
		id = random_id(client);
	return id;
}

static uint32_t new_id(struct client *client, bool by_server)
{
	if (random_below(300) == 0)
		return random_id(client);
	for (uint32_t id = 2; !by_server && id < client->counts[0]; id++)
		if (!object_live(client, id))
			return id;
	return by_server ? FIRST_SERVER_ID + random_below(client->counts[1] + 1) : client->counts[0];
}

static size_t put(uint8_t *bytes, size_t at, uint32_t word)
{
	memcpy(bytes + at, &word, 4);
	return at + 4;
}

static size_t put_text(uint8_t *bytes, size_t at, const char *text, size_t length)
{
	at = put(bytes, at, (uint32_t)length + 1);
	memset(bytes + at, 0, (length + 4) / 4 * 4);
	memcpy(bytes + at, text, length);
	return at + (length + 4) / 4 * 4;
}

static size_t put_some_text(uint8_t *bytes, size_t at)
{
	static char filler[5000];
	memset(filler, 'a' + (int)random_below(26), sizeof filler);
	return put_text(bytes, at, filler, random_below(random_below(20) ? 40 : sizeof filler));
}

/* What a global and a bind say: a name, mostly of the interface that goes with it, and a version. */
static size_t put_global(const struct client *client, uint8_t *bytes, size_t at)
{
	static const char *const usual[] = {
		"wl_seat", "wl_compositor", "xdg_wm_base", "zwp_text_input_manager_v3", "zwp_input_method_manager_v2",
		"zwp_virtual_keyboard_manager_v1",
	};
	uint32_t offer = client->role == PROGRAM ? 3 : 4 + random_below(2), kind = random_below(2) ? random_below(3) : offer;
	const char *name = random_below(10) ? usual[kind] : interfaces[random_below(100)]->name;
	at = put(bytes, at, kind < 3 ? kind + 1 : 0xffff0000 + kind);
	return put(bytes, put_text(bytes, at, name, strlen(name)), 1);
}

static uint32_t random_number(void)
{
	static const uint32_t usual[] = { 0, 1, 2, 3, 1, 30, 0xffff0003, 0xffff0004, 0xffff0005, 0x7fffffff };
	return random_below(6) ? usual[random_below(10)] : (uint32_t)state;
}

/* A message of the row. Answers its size, and its descriptors. */
static size_t write_message(struct client *client, uint32_t id, uint16_t opcode, const struct signature *row,
	bool by_server, uint8_t *bytes, unsigned *files)
{
	size_t at = put(bytes, put(bytes, 0, by_server ? far_id(client, id) : id), opcode);
	const char *kind = row->kinds;
	*files = 0;
	if (strncmp(kind, "usu", 3) == 0) {
		at = put_global(client, bytes, at);
		kind += 3;
	}
	for (; *kind; kind++) {
		if (*kind == 'h')
			++*files;
		else if (*kind == 's' || *kind == 'S')
			at = put_some_text(bytes, at);
		else if (*kind == 'a')
			at = put_text(bytes, at, "12345678", random_below(9));
		else if (*kind == 'n')
			at = put(bytes, at, new_id(client, by_server));
		else
			at = put(bytes, at, *kind != 'o' && *kind != 'O' ? random_number()
				: by_server ? far_id(client, argument_id(client)) : argument_id(client));
	}
	put(bytes, 4, (uint32_t)at << 16 | opcode);
	if (random_below(200) == 0)
		bytes[random_below((uint32_t)at)] ^= (uint8_t)(1u << random_below(8));
	if (random_below(400) == 0)
		at = random_below((uint32_t)at + 1);
	return at;
}

/* One message, from the client or from the compositor. */
static void play(struct place *place, bool near)
{
	static uint8_t bytes[LONGEST];
	uint32_t id = near ? random_id(place->client) : argument_id(place->client);
	const struct object *object = object_live(place->client, id);
	const struct interface *interface = object ? object->interface : &wl_display_table;
	if (honest && !near)
		return read_far(place);
	uint32_t rows = interface->counts[near], opcode = rows ? random_below(rows) : 0;
	unsigned count;
	uint32_t tokens[60];
	if (rows == 0 || (!near && interface == &wl_display_table && opcode == 0 && random_below(20)))
		return;
	const struct signature *row = &interface->rows[near][opcode];
	size_t size = write_message(place->client, id, (uint16_t)opcode, row, !near, bytes, &count);
	if (random_below(300) == 0)
		count = random_below(60);
	for (unsigned at = 0; at < count; at++)
		tokens[at] = make_file(bytes, random_below(10) ? 4 : 4096);
	if (near) {
		send_client(place, bytes, size, tokens, count);
	} else {
		write_far(place, bytes, size, tokens, count);
		read_far(place);
	}
	messages++;
}

/* A program with a window that has the focus and a field; a method with a popup. */
static void begin(unsigned at)
{
	enum { SHELL = KEYBOARD_2 + 1, XDG, TOP, POINTER, MAKER = GRAB + 1, MEMORY, POOL, BUFFER, PIXELS, POPUP, VIEWS, VIEW };
	static uint32_t serial;
	static uint8_t bytes[4096];
	struct user *user = &users[at];
	compositors[at] = (struct compositor){ 0 };
	if (at == 0)
		start_grab(user);
	else
		start_program(user, true);
	if (at % 2 == 0)
		global(user, 9, "zwlr_screencopy_manager_v1");
	global(user, 3, "wl_shm");
	global(user, 4, "xdg_wm_base");
	global(user, 5, "wl_subcompositor");
	global(user, 6, "wp_viewporter");
	if (at == 0) {
		bind_global(user, 2, "wl_compositor", MAKER);
		bind_global(user, 3, "wl_shm", MEMORY);
		const struct message *message = draft(MEMORY, wl_shm_request_create_pool, "uu", POOL, (uint32_t)sizeof bytes);
		uint32_t token = make_file(bytes, sizeof bytes);
		send_client(&user->place, message->bytes, message->size, &token, 1);
		request(user, draft(POOL, wl_shm_pool_request_create_buffer, "uuuuuu", BUFFER, 0, 30, 20, 120, 0));
		request(user, draft(MAKER, wl_compositor_request_create_surface, "u", PIXELS));
		request(user, draft(METHOD_1, zwp_input_method_v2_request_get_input_popup_surface, "uu", POPUP, PIXELS));
		bind_global(user, 6, "wp_viewporter", VIEWS);
		request(user, draft(VIEWS, wp_viewporter_request_get_viewport, "uu", VIEW, PIXELS));
		request(user, draft(PIXELS, wl_surface_request_attach, "uuu", BUFFER, 0, 0));
		request(user, draft(PIXELS, wl_surface_request_commit, ""));
		return;
	}
	request(user, draft(SEAT, wl_seat_request_get_keyboard, "u", KEYBOARD_2));
	bind_global(user, 4, "xdg_wm_base", SHELL);
	request(user, draft(SHELL, xdg_wm_base_request_get_xdg_surface, "uu", XDG, SURFACE));
	request(user, draft(XDG, xdg_surface_request_get_toplevel, "u", TOP));
	request(user, draft(XDG, xdg_surface_request_set_window_geometry, "uuuu", 0, 0, at == 1 ? 20 : 640, 480));
	request(user, draft(SEAT, wl_seat_request_get_pointer, "u", POINTER));
	request(user, draft(SURFACE, wl_surface_request_attach, "uuu", SEAT, 0, 0));
	request(user, draft(SURFACE, wl_surface_request_commit, ""));
	enter(user, ++serial);
	request(user, draft(FIELD, zwp_text_input_v3_request_enable, ""));
	request(user, draft(FIELD, zwp_text_input_v3_request_commit, ""));
}

static void finish(struct place *place, unsigned at)
{
	if (honest && place->link > 0)
		look_far(&compositors[at], place);
	HOLDS(!compositors[at].has_gap);
	if (place->link > 0 && !compositors[at].wrong && random_below(5000))
		return;
	close_client(place);
	ended++;
	begin(at);
}

/* Whether the window of a program that stands a popup is shown in; it has the focus again now and then. */
static void stir(unsigned long round, unsigned long *shown)
{
	unsigned at = 1 + random_below(CLIENTS - 1);
	for (unsigned each = 1; each < CLIENTS; each++)
		*shown += users[each].place.link > 0 && users[each].place.client->owns[OWN_COMPOSITOR].id > 0;
	if (round % 50 == 0 && users[at].place.link > 0)
		close_client(&users[at].place);
	if (round % 1000 == 0)
		close_client(&users[0].place);
}

int main(int count, char **words)
{
	unsigned long rounds = count > 1 ? strtoul(words[1], NULL, 10) : 200000, shown = 0;
	state = count > 2 ? strtoull(words[2], NULL, 10) : 1;
	honest = count > 3;
	for (enum outlet outlet = OUT_LOG; outlet < OUTLETS && state % 2 == 0; outlet++)
		outlets[outlet] = true;
	open_gateway();
	for (unsigned at = 0; at < CLIENTS; at++)
		begin(at);
	for (unsigned long round = 0; round < rounds && !failed; round++) {
		unsigned at = random_below(CLIENTS);
		now += random_below(3000);
		if (users[at].place.link > 0) /* it may have ended while another began */
			play(&users[at].place, random_below(3) > 0);
		stir(round, &shown);
		finish_round();
		for (unsigned each = 0; each < CLIENTS; each++)
			finish(&users[each].place, each);
		if (random_below(20000) == 0 || broker_renewal() == 0)
			renew();
	}
	for (unsigned at = 0; at < CLIENTS; at++)
		close_client(&users[at].place);
	close_gateway();
	printf("%lu messages, %lu clients ended; the gateway had objects in a program for %lu rounds\n", messages,
		ended + CLIENTS, shown);
	HOLDS(tokens_used() == 0 && shown > 0);
	return failed;
}
