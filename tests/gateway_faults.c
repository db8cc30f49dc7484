/*
 * The gateway where memory, files or sockets fail: each call fails in turn while a program is typed into by a method.
 * Nobody is ended, and afterwards all goes on. Built by tests/gateway.sh, which wraps the calls. Prints what doesn't hold.
 */
#include "../gateway/sockets.c"
#include "gateway.h"
#include <stdarg.h>
#include <stdio.h>
#include <stdlib.h>

enum fault { MALLOC, CALLOC, REALLOC, SENDMSG, RECVMSG, MEMFD, MMAP, FAULTS };
enum { REGISTRY = 2, SEAT, COMPOSITOR, KEYBOARD, SURFACE, FIELDS, FIELD };
enum { METHODS = 4, BOARDS, BOARD, METHOD_1, GRAB };

static const char *const names[] = { "malloc", "calloc", "realloc", "sendmsg", "recvmsg", "memfd_create", "mmap" };
static int failed;
static bool shows; /* what the gateway says */
static enum fault fails;
static unsigned long left; /* calls till the one that fails; 0: none does */
static uint64_t skew; /* microseconds by which the clock goes ahead */
bool outlets[OUTLETS];

#define HOLDS(what) (void)((what) || (failed = 1, printf("%s, line %d: %s\n", __FILE__, __LINE__, #what)))

static bool fails_now(enum fault fault)
{
	return fault == fails && left > 0 && --left == 0;
}

#define WRAP(fault, type, call, error, failing, parameters, ...) \
	type __real_##call parameters; \
	type __wrap_##call parameters; \
	type __wrap_##call parameters \
	{ \
		if (!fails_now(fault)) \
			return __real_##call(__VA_ARGS__); \
		errno = error; \
		return failing; \
	}
WRAP(MALLOC, void *, malloc, ENOMEM, NULL, (size_t size), size)
WRAP(CALLOC, void *, calloc, ENOMEM, NULL, (size_t count, size_t size), count, size)
WRAP(REALLOC, void *, realloc, ENOMEM, NULL, (void *had, size_t size), had, size)
WRAP(SENDMSG, ssize_t, sendmsg, ENOBUFS, -1, (int to, const struct msghdr *header, int flags), to, header, flags)
WRAP(RECVMSG, ssize_t, recvmsg, ENOMEM, -1, (int from, struct msghdr *header, int flags), from, header, flags)
WRAP(MEMFD, int, memfd_create, ENFILE, -1, (const char *name, unsigned flags), name, flags)
WRAP(MMAP, void *, mmap, ENOMEM, MAP_FAILED, (void *at, size_t size, int may, int flags, int file, off_t from), at, size,
	may, flags, file, from)

int __real_clock_gettime(clockid_t clock, struct timespec *time);
int __wrap_clock_gettime(clockid_t clock, struct timespec *time);
int __wrap_clock_gettime(clockid_t clock, struct timespec *time)
{
	int answer = __real_clock_gettime(clock, time);
	time->tv_sec += (time_t)(skew / 1000000);
	return answer;
}

void out(enum outlet outlet, const char *format, ...)
{
	va_list arguments;
	HOLDS(format && outlet < OUTLETS);
	va_start(arguments, format);
	if (outlet == OUT_PROBLEMS && shows)
		vprintf(format, arguments);
	va_end(arguments);
}

void out_begin(unsigned number)
{
	HOLDS(number > 0);
}

/* A link, its client, and the other ends of its sockets, which the test has in the place of client and compositor. */
struct ends {
	unsigned link;
	struct client *client;
	int sockets[2];
	size_t size; /* of what the client was told */
	uint8_t told[200000];
};

static void finish_round(void)
{
	HOLDS(wait_all(0)); /* the time goes on */
	core_round(moment());
	do {
		perform();
		links_flush();
	} while (core_sweep(moment()));
}

static void open_ends(struct ends *ends, enum role role)
{
	*ends = (struct ends){ 0 };
	for (int tries = 0; tries < 2 && ends->link == 0; tries++) /* who isn't let in for want of memory comes again */
		ends->link = core_join(moment(), role, 0, "test");
	ends->client = gateway.clients;
	HOLDS(ends->link > 0);
	int pairs[2][2];
	for (enum side side = NEAR; side <= FAR; side++) {
		HOLDS(socketpair(AF_UNIX, SOCK_STREAM | SOCK_CLOEXEC | SOCK_NONBLOCK, 0, pairs[side]) == 0);
		ends->sockets[side] = pairs[side][1];
	}
	link_open(ends->link, pairs[NEAR][0], pairs[FAR][0]);
}

static bool lives(const struct ends *ends)
{
	return links[ends->link][NEAR].file > 0;
}

/* Writes a message to the gateway, which reads all. */
static void put(struct ends *ends, enum side side, const struct message *message, int file)
{
	_Alignas(struct cmsghdr) char control[CMSG_SPACE(sizeof file)] = { 0 };
	if (!lives(ends))
		return;
	struct iovec place = { message->bytes, message->size };
	struct msghdr header = { .msg_iov = &place, .msg_iovlen = 1 };
	if (file >= 0) {
		header.msg_control = control;
		header.msg_controllen = sizeof control;
		*CMSG_FIRSTHDR(&header) = (struct cmsghdr){ CMSG_LEN(sizeof file), SOL_SOCKET, SCM_RIGHTS };
		memcpy(CMSG_DATA(CMSG_FIRSTHDR(&header)), &file, sizeof file);
	}
	HOLDS(__real_sendmsg(ends->sockets[side], &header, MSG_NOSIGNAL) == message->size);
	for (int reads = 0; reads < 3; reads++)
		link_read(ends->link, side);
	finish_round();
}

static void request(struct ends *ends, const struct message *message)
{
	put(ends, NEAR, message, -1);
}

/* An event of the compositor's: its first argument may be a surface's id there. */
static void event(struct ends *ends, uint32_t id, uint16_t opcode, const char *kinds, const uint32_t *w, int file)
{
	if (lives(ends))
		put(ends, FAR, draft(far_of(ends->client, id), opcode, kinds, w[0], w[1], w[2], w[3], w[4]), file);
}

static void start(struct ends *ends, enum role role)
{
	open_ends(ends, role);
	request(ends, draft(DISPLAY, wl_display_request_get_registry, "u", REGISTRY));
	put(ends, FAR, draft(2, wl_registry_event_global, "usu", 1, "wl_seat", 5), -1);
	put(ends, FAR, draft(2, wl_registry_event_global, "usu", 2, "wl_compositor", 5), -1);
	request(ends, draft(REGISTRY, wl_registry_request_bind, "usuu", 1, "wl_seat", 1, SEAT));
}

static void bind_ours(struct ends *ends, uint32_t global, const char *name, uint32_t id)
{
	request(ends, draft(REGISTRY, wl_registry_request_bind, "usuu", 0xffff0000 + global, name, 1, id));
}

static void start_program(struct ends *ends)
{
	start(ends, PROGRAM);
	request(ends, draft(REGISTRY, wl_registry_request_bind, "usuu", 2, "wl_compositor", 1, COMPOSITOR));
	request(ends, draft(SEAT, wl_seat_request_get_keyboard, "u", KEYBOARD));
	request(ends, draft(COMPOSITOR, wl_compositor_request_create_surface, "u", SURFACE));
	bind_ours(ends, GLOBAL_FIELDS, "zwp_text_input_manager_v3", FIELDS);
	request(ends, draft(FIELDS, zwp_text_input_manager_v3_request_get_text_input, "uu", FIELD, SEAT));
}

/* A keymap of 16 bytes. */
static int keymap_file(const char *text)
{
	int file = __real_memfd_create("keymap", 0);
	HOLDS(write(file, text, 16) == 16);
	return file;
}

static void start_method(struct ends *ends)
{
	start(ends, METHOD);
	bind_ours(ends, GLOBAL_METHODS, "zwp_input_method_manager_v2", METHODS);
	bind_ours(ends, GLOBAL_BOARDS, "zwp_virtual_keyboard_manager_v1", BOARDS);
	request(ends, draft(BOARDS, zwp_virtual_keyboard_manager_v1_request_create_virtual_keyboard, "uu", SEAT, BOARD));
	request(ends, draft(METHODS, zwp_input_method_manager_v2_request_get_input_method, "uu", SEAT, METHOD_1));
	request(ends, draft(METHOD_1, zwp_input_method_v2_request_grab_keyboard, "u", GRAB));
}

/* Takes what the client was told: how often an event of an object came. */
static unsigned told(struct ends *ends, uint32_t id, uint16_t opcode)
{
	_Alignas(struct cmsghdr) char control[CMSG_SPACE(28 * sizeof(int))];
	struct message message;
	unsigned found = 0;
	ssize_t came;
	ends->size = 0;
	do {
		struct iovec place = { ends->told + ends->size, sizeof ends->told - ends->size };
		struct msghdr header = { .msg_iov = &place, .msg_iovlen = 1, .msg_control = control,
			.msg_controllen = sizeof control };
		came = __real_recvmsg(ends->sockets[NEAR], &header, MSG_DONTWAIT);
		ends->size += came > 0 ? (size_t)came : 0;
		for (struct cmsghdr *part = CMSG_FIRSTHDR(&header); came > 0 && part; part = CMSG_NXTHDR(&header, part))
			for (size_t at = CMSG_LEN(0); at < part->cmsg_len; at += sizeof(int)) {
				int file;
				memcpy(&file, (char *)part + at, sizeof file);
				close(file);
			}
	} while (came > 0);
	for (size_t at = 0; message_front(ends->told + at, ends->size - at, &message) == FRONT_WHOLE; at += message.size)
		found += message.object == id && message.opcode == opcode;
	return found;
}

static uint32_t serial;

/* The focus comes, the field is enabled, a key goes to the grab, a batch and the key come back; the focus goes. */
static unsigned type(struct ends *program, struct ends *method, const char *keymap)
{
	static uint32_t time;
	int file = keymap_file(keymap), own = keymap_file("xkb_keymap own  ");
	uint32_t surface = lives(program) ? far_of(program->client, SURFACE) : 0;
	event(program, KEYBOARD, wl_keyboard_event_keymap, "uu", (uint32_t[5]){ 1, 16 }, file);
	event(program, KEYBOARD, wl_keyboard_event_enter, "uuu", (uint32_t[5]){ ++serial, surface, 0 }, -1);
	event(program, KEYBOARD, wl_keyboard_event_modifiers, "uuuuu", (uint32_t[5]){ ++serial }, -1);
	request(program, draft(FIELD, zwp_text_input_v3_request_enable, ""));
	request(program, draft(FIELD, zwp_text_input_v3_request_commit, ""));
	event(program, KEYBOARD, wl_keyboard_event_key, "uuuu", (uint32_t[5]){ ++serial, ++time, 30, 1 }, -1);
	put(method, NEAR, draft(BOARD, zwp_virtual_keyboard_v1_request_keymap, "uu", 1, 16), own);
	request(method, draft(METHOD_1, zwp_input_method_v2_request_commit_string, "s", "z"));
	request(method, draft(METHOD_1, zwp_input_method_v2_request_commit, "u",
		lives(method) ? object_at(method->client, METHOD_1)->count : 0));
	request(method, draft(BOARD, zwp_virtual_keyboard_v1_request_key, "uuu", time, 30, 1));
	event(program, KEYBOARD, wl_keyboard_event_key, "uuuu", (uint32_t[5]){ ++serial, ++time, 30, 0 }, -1);
	request(method, draft(BOARD, zwp_virtual_keyboard_v1_request_key, "uuu", time, 30, 0));
	event(program, KEYBOARD, wl_keyboard_event_leave, "uu", (uint32_t[5]){ ++serial, surface }, -1);
	close(file);
	close(own);
	told(method, 0, 0);
	return told(program, FIELD, zwp_text_input_v3_event_commit_string);
}

static void close_ends(struct ends *ends)
{
	for (enum side side = NEAR; side <= FAR; side++)
		close(ends->sockets[side]);
	link_read(ends->link, NEAR);
	finish_round();
}

/* The call with this number fails. Answers whether there was one. */
static bool trial(enum fault fault, unsigned long number)
{
	static struct ends program, method;
	static const struct { char text[17]; } keymaps[] = { { "xkb_keymap one  " }, { "xkb_keymap two  " } };
	fails = fault;
	left = number;
	start_program(&program);
	start_method(&method);
	type(&program, &method, keymaps[number % 2].text);
	bool is_over = left > 0;
	left = 0;
	for (int rounds = 0; rounds < 3; rounds++) { /* what was lost is made again at a pause */
		skew += 20000000;
		finish_round();
	}
	bool live = lives(&program) && lives(&method), goes_on = live && type(&program, &method, keymaps[1 - number % 2].text) == 1;
	if (!goes_on) {
		failed = 1;
		printf("%s number %lu fails: %s\n", names[fault], number, live ? "nothing is typed afterwards" : "somebody ends");
	}
	close_ends(&program);
	close_ends(&method);
	return !is_over;
}

int main(int count, char **words)
{
	unsigned long trials = 0;
	shows = count > 1 && words[1];
	if (!core_open(moment(), 3000000))
		return 1;
	for (enum fault fault = 0; fault < FAULTS; fault++)
		for (unsigned long number = 1; trial(fault, number) && number < 2000; number++)
			trials++;
	core_close();
	perform();
	HOLDS(tokens_used() == 0);
	printf("%lu calls that fail: %s\n", trials, failed ? "not as it should be" : "ok");
	return failed;
}
