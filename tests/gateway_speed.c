/*
 * How long things take through the gateway and at the compositor alone, in turns in one run:
 *
 *     gateway_speed COMPOSITOR PROGRAMS METHODS [TURNS]
 *
 * The words are sockets. A turn has 200 each of a round trip (`sync`), a key from the compositor's keyboard to the
 * focused window, and a batch from the method to its field. swaymsg moves the focus. Prints p50 and p99, in us.
 */
#include "message.h"
#include "tables.h"
#include <stdio.h>
#include <stdlib.h>
#include <string.h>
#include <sys/mman.h>
#include <sys/socket.h>
#include <sys/un.h>
#include <time.h>
#include <unistd.h>

enum { DISPLAY = 1, AT_ONCE = 200, GLOBALS = 100, KINDS = 3 };

struct peer {
	int socket;
	uint8_t bytes[65536];
	size_t size;
	uint32_t last, registry, dones; /* the last id; done events of its method */
	struct { const struct interface *interface; uint32_t name, version; } globals[GLOBALS];
	unsigned global_count;
	uint32_t seat, keyboard, shell, xdg, field, method; /* ids */
};

struct side {
	const char *name;
	struct peer program, method;
	double *times[KINDS];
	size_t counts[KINDS];
};

static void give_up(const char *why)
{
	fprintf(stderr, "gateway_speed: %s\n", why);
	exit(1);
}

static double now(void)
{
	struct timespec time;
	clock_gettime(CLOCK_MONOTONIC, &time);
	return time.tv_sec * 1e6 + time.tv_nsec / 1e3;
}

static void send_file(struct peer *peer, const struct message *message, int file)
{
	_Alignas(struct cmsghdr) char control[CMSG_SPACE(sizeof file)] = { 0 };
	struct iovec place = { (void *)(uintptr_t)message->bytes, message->size };
	struct msghdr header = { .msg_iov = &place, .msg_iovlen = 1 };
	if (file >= 0) {
		header.msg_control = control;
		header.msg_controllen = sizeof control;
		struct cmsghdr *part = CMSG_FIRSTHDR(&header);
		*part = (struct cmsghdr){ CMSG_LEN(sizeof file), SOL_SOCKET, SCM_RIGHTS };
		memcpy(CMSG_DATA(part), &file, sizeof file);
	}
	if (sendmsg(peer->socket, &header, MSG_NOSIGNAL) != message->size)
		give_up("a message wasn't sent");
}

static void send_message(struct peer *peer, const struct message *message)
{
	send_file(peer, message, -1);
}

static void on_event(struct peer *peer, struct message *message)
{
	uint32_t first = 0;
	if (message->size > HEADER_SIZE)
		memcpy(&first, message->bytes + HEADER_SIZE, sizeof first);
	if (message->object == DISPLAY && message->opcode == wl_display_event_error)
		give_up("an error was told");
	if (message->object == peer->registry && message->opcode == wl_registry_event_global && peer->global_count < GLOBALS
			&& message_read(message, &wl_registry_events[wl_registry_event_global])) {
		peer->globals[peer->global_count].interface = interface_named(message->texts[1]);
		peer->globals[peer->global_count].version = message->numbers[2];
		peer->globals[peer->global_count++].name = first;
	}
	if (peer->shell && message->object == peer->shell)
		send_message(peer, draft(peer->shell, xdg_wm_base_request_pong, "u", first));
	if (peer->xdg && message->object == peer->xdg)
		send_message(peer, draft(peer->xdg, xdg_surface_request_ack_configure, "u", first));
	if (peer->method && message->object == peer->method && message->opcode == zwp_input_method_v2_event_done)
		peer->dones++;
}

/* Reads until the event comes. What comes with it is taken too. */
static void wait_for(struct peer *peer, uint32_t id, uint16_t opcode)
{
	bool came = false;
	while (!came) {
		struct message message;
		ssize_t size = recv(peer->socket, peer->bytes + peer->size, sizeof peer->bytes - peer->size, 0);
		if (size <= 0)
			give_up("a connection ended");
		peer->size += (size_t)size;
		size_t at = 0;
		for (; message_front(peer->bytes + at, peer->size - at, &message) == FRONT_WHOLE; at += message.size) {
			on_event(peer, &message);
			came |= message.object == id && message.opcode == opcode;
		}
		memmove(peer->bytes, peer->bytes + at, peer->size - at);
		peer->size -= at;
	}
}

static void round_trip(struct peer *peer)
{
	send_message(peer, draft(DISPLAY, wl_display_request_sync, "u", ++peer->last));
	wait_for(peer, peer->last--, wl_callback_event_done);
}

static void connect_to(struct peer *peer, const char *path)
{
	struct sockaddr_un address = { .sun_family = AF_UNIX };
	struct timeval most = { .tv_sec = 20 };
	snprintf(address.sun_path, sizeof address.sun_path, "%s", path);
	peer->socket = socket(AF_UNIX, SOCK_STREAM | SOCK_CLOEXEC, 0);
	if (connect(peer->socket, (struct sockaddr *)&address, sizeof address) < 0)
		give_up(path);
	setsockopt(peer->socket, SOL_SOCKET, SO_RCVTIMEO, &most, sizeof most);
	peer->last = peer->registry = 2;
	send_message(peer, draft(DISPLAY, wl_display_request_get_registry, "u", peer->registry));
	round_trip(peer);
}

static uint32_t bind_global(struct peer *peer, const struct interface *interface)
{
	for (unsigned at = 0; at < peer->global_count; at++) {
		if (peer->globals[at].interface != interface)
			continue;
		send_message(peer, draft(peer->registry, wl_registry_request_bind, "usuu", peer->globals[at].name, interface->name,
			1, ++peer->last));
		return peer->last;
	}
	give_up(interface->name);
	return 0;
}

/* A window of 8 by 8 pixels, with a text input. */
static void make_window(struct peer *peer, const char *name)
{
	uint32_t compositor = bind_global(peer, &wl_compositor_table), memory = bind_global(peer, &wl_shm_table);
	peer->seat = bind_global(peer, &wl_seat_table);
	uint32_t shell = bind_global(peer, &xdg_wm_base_table), surface = ++peer->last;
	send_message(peer, draft(compositor, wl_compositor_request_create_surface, "u", surface));
	send_message(peer, draft(shell, xdg_wm_base_request_get_xdg_surface, "uu", ++peer->last, surface));
	peer->shell = shell;
	peer->xdg = peer->last;
	send_message(peer, draft(peer->xdg, xdg_surface_request_get_toplevel, "u", ++peer->last));
	send_message(peer, draft(peer->last, xdg_toplevel_request_set_app_id, "s", name));
	send_message(peer, draft(surface, wl_surface_request_commit, ""));
	wait_for(peer, peer->xdg, xdg_surface_event_configure);
	int file = memfd_create("pixels", MFD_CLOEXEC);
	if (ftruncate(file, 4096) < 0)
		give_up("no memory");
	send_file(peer, draft(memory, wl_shm_request_create_pool, "uu", ++peer->last, 4096), file);
	close(file);
	send_message(peer, draft(peer->last, wl_shm_pool_request_create_buffer, "uuuuuu", peer->last + 1, 0, 8, 8, 32, 0));
	send_message(peer, draft(surface, wl_surface_request_attach, "uuu", ++peer->last, 0, 0));
	send_message(peer, draft(surface, wl_surface_request_commit, ""));
	send_message(peer, draft(peer->seat, wl_seat_request_get_keyboard, "u", peer->keyboard = ++peer->last));
	uint32_t manager = bind_global(peer, &zwp_text_input_manager_v3_table);
	peer->field = ++peer->last;
	send_message(peer, draft(manager, zwp_text_input_manager_v3_request_get_text_input, "uu", peer->field, peer->seat));
	round_trip(peer);
}

static void make_method(struct peer *peer)
{
	uint32_t seat = bind_global(peer, &wl_seat_table), manager = bind_global(peer, &zwp_input_method_manager_v2_table);
	peer->method = ++peer->last;
	send_message(peer, draft(manager, zwp_input_method_manager_v2_request_get_input_method, "uu", seat, peer->method));
	round_trip(peer);
}

/* A keyboard at the compositor; its keymap is read from standard input. */
static uint32_t make_board(struct peer *peer)
{
	static char text[262144];
	size_t size = fread(text, 1, sizeof text, stdin);
	int file = memfd_create("keymap", MFD_CLOEXEC);
	uint32_t seat = bind_global(peer, &wl_seat_table), manager = bind_global(peer, &zwp_virtual_keyboard_manager_v1_table);
	uint32_t board = ++peer->last;
	if (write(file, text, size) != (ssize_t)size)
		give_up("no memory");
	send_message(peer, draft(manager, zwp_virtual_keyboard_manager_v1_request_create_virtual_keyboard, "uu", seat, board));
	send_file(peer, draft(board, zwp_virtual_keyboard_v1_request_keymap, "uu", 1, (uint32_t)size), file);
	round_trip(peer);
	return board;
}

static void focus(struct side *side)
{
	char line[128];
	snprintf(line, sizeof line, "swaymsg -q '[app_id=\"^%s$\"] focus'", side->name);
	if (system(line) != 0)
		give_up(line);
	wait_for(&side->program, side->program.field, zwp_text_input_v3_event_enter);
	send_message(&side->program, draft(side->program.field, zwp_text_input_v3_request_enable, ""));
	send_message(&side->program, draft(side->program.field, zwp_text_input_v3_request_commit, ""));
	wait_for(&side->method, side->method.method, zwp_input_method_v2_event_done);
	round_trip(&side->program);
	round_trip(&side->method);
}

static void batch(struct side *side)
{
	uint32_t method = side->method.method;
	send_message(&side->method, draft(method, zwp_input_method_v2_request_commit_string, "s", "a"));
	send_message(&side->method, draft(method, zwp_input_method_v2_request_commit, "u", side->method.dones));
	wait_for(&side->program, side->program.field, zwp_text_input_v3_event_done);
}

static void turn(struct side *side, struct peer *typist, uint32_t board)
{
	focus(side);
	for (int at = 0; at < AT_ONCE * KINDS; at++) {
		int kind = at / AT_ONCE;
		double start = now();
		if (kind == 0) {
			round_trip(&side->program);
		} else if (kind == 1) {
			send_message(typist, draft(board, zwp_virtual_keyboard_v1_request_key, "uuu", (uint32_t)at, 30, at % 2 == 0));
			wait_for(&side->program, side->program.keyboard, wl_keyboard_event_key);
		} else {
			batch(side);
		}
		side->times[kind][side->counts[kind]++] = now() - start;
	}
}

static int by_size(const void *one, const void *other)
{
	double a = *(const double *)one, b = *(const double *)other;
	return (a > b) - (a < b);
}

int main(int count, char **words)
{
	static const char *const kinds[KINDS] = { "a round trip", "a key", "a batch" };
	static struct side sides[2] = { { .name = "alone" }, { .name = "beside" } };
	static struct peer typist;
	size_t turns = count > 4 ? strtoul(words[4], NULL, 10) : 20;
	if (count < 4)
		give_up("COMPOSITOR PROGRAMS METHODS [TURNS]");
	connect_to(&typist, words[1]);
	uint32_t board = make_board(&typist);
	for (int at = 0; at < 2; at++) {
		connect_to(&sides[at].program, at ? words[2] : words[1]);
		make_window(&sides[at].program, sides[at].name);
		connect_to(&sides[at].method, at ? words[3] : words[1]);
		make_method(&sides[at].method);
		for (int kind = 0; kind < KINDS; kind++)
			sides[at].times[kind] = malloc((turns + 1) * AT_ONCE * sizeof(double));
	}
	if (system("swaymsg -q workspace empty") != 0)
		give_up("swaymsg");
	for (size_t at = 0; at < turns * 2; at++)
		turn(&sides[at % 2], &typist, board);
	for (int kind = 0; kind < KINDS; kind++) {
		double p50[2], p99[2];
		for (int at = 0; at < 2; at++) {
			size_t number = sides[at].counts[kind];
			qsort(sides[at].times[kind], number, sizeof(double), by_size);
			p50[at] = sides[at].times[kind][number / 2];
			p99[at] = sides[at].times[kind][number * 99 / 100];
		}
		printf("%s: alone p50 %.1f us, p99 %.1f; through the gateway %.1f, %.1f: %.2f times, %.2f\n", kinds[kind], p50[0],
			p99[0], p50[1], p99[1], p50[1] / p50[0], p99[1] / p99[0]);
	}
	return 0;
}
