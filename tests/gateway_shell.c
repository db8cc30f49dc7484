/*
 * The gateway's shell over pairs of sockets: descriptors come with their messages, files that nobody can change, who
 * doesn't read, who is gone. Built by tests/gateway.sh. Prints what doesn't hold.
 */
#include "../gateway/sockets.c"
#include "gateway.h"
#include <stdio.h>
#include <sys/stat.h>

static int failed;

#define HOLDS(what) (void)((what) || (failed = 1, printf("%s, line %d: %s\n", __FILE__, __LINE__, #what)))

bool outlets[OUTLETS];

void out(enum outlet outlet, const char *format, ...)
{
	HOLDS(format && outlet < OUTLETS);
}

void out_begin(unsigned number)
{
	HOLDS(number > 0);
}

struct ends { unsigned link; int near, far; }; /* the other ends of a link's sockets */

static struct ends open_ends(void)
{
	int near[2], far[2];
	HOLDS(socketpair(AF_UNIX, SOCK_STREAM | SOCK_CLOEXEC | SOCK_NONBLOCK, 0, near) == 0);
	HOLDS(socketpair(AF_UNIX, SOCK_STREAM | SOCK_CLOEXEC | SOCK_NONBLOCK, 0, far) == 0);
	struct ends ends = { core_join(moment(), PROGRAM, 0, "test"), near[1], far[1] };
	link_open(ends.link, near[0], far[0]);
	return ends;
}

static bool lives(unsigned link)
{
	return links[link][NEAR].file > 0;
}

static void close_ends(struct ends ends)
{
	close(ends.near);
	close(ends.far);
	link_read(ends.link, NEAR);
	while (core_sweep(moment()))
		perform();
}

/* A file whose length is a number. */
static int numbered_file(int number)
{
	int file = memfd_create("number", MFD_CLOEXEC);
	HOLDS(file >= 0 && ftruncate(file, number) == 0);
	return file;
}

static void put(int socket, const struct message *message, int file)
{
	_Alignas(struct cmsghdr) char control[CMSG_SPACE(sizeof file)] = { 0 };
	struct iovec place = { message->bytes, message->size };
	struct msghdr header = { .msg_iov = &place, .msg_iovlen = 1 };
	if (file >= 0) {
		header.msg_control = control;
		header.msg_controllen = sizeof control;
		struct cmsghdr *part = CMSG_FIRSTHDR(&header);
		*part = (struct cmsghdr){ CMSG_LEN(sizeof file), SOL_SOCKET, SCM_RIGHTS };
		memcpy(CMSG_DATA(part), &file, sizeof file);
	}
	HOLDS(sendmsg(socket, &header, MSG_NOSIGNAL) == message->size);
}

/* Pools of a file each: each comes to the compositor with its own, and is closed here. */
static void descriptors(void)
{
	enum { REGISTRY = 2, SHM, FIRST, POOLS = 100 };
	static struct wire to;
	struct ends ends = open_ends();
	struct message message;
	uint32_t next = 1;
	put(ends.near, draft(DISPLAY, wl_display_request_get_registry, "u", REGISTRY), -1);
	put(ends.near, draft(REGISTRY, wl_registry_request_bind, "usuu", 1, "wl_shm", 1, SHM), -1);
	for (uint32_t at = 0; at < POOLS; at++) {
		int file = numbered_file((int)at);
		put(ends.near, draft(SHM, wl_shm_request_create_pool, "uu", FIRST + at, 1), file);
		close(file);
	}
	for (int reads = 0; reads < POOLS + 2; reads++)
		link_read(ends.link, NEAR);
	HOLDS(tokens_used() == POOLS);
	link_flush(ends.link, FAR);
	HOLDS(tokens_used() == 0);
	for (int tries = 0; tries < POOLS; tries++) {
		_Alignas(struct cmsghdr) char control[CMSG_SPACE(TOKENS_AT_ONCE * sizeof(int))];
		struct iovec place = { to.in + to.in_to, sizeof to.in - to.in_to };
		struct msghdr header = {
			.msg_iov = &place, .msg_iovlen = 1, .msg_control = control, .msg_controllen = sizeof control,
		};
		ssize_t came = recvmsg(ends.far, &header, MSG_DONTWAIT);
		to.in_to += came > 0 ? (size_t)came : 0;
		for (struct cmsghdr *part = CMSG_FIRSTHDR(&header); came > 0 && part; part = CMSG_NXTHDR(&header, part))
			for (size_t at = CMSG_LEN(0); at < part->cmsg_len; at += sizeof(int))
				memcpy(&to.tokens[to.token_count++], (char *)part + at, sizeof(int));
		while (message_front(to.in + to.in_from, to.in_to - to.in_from, &message) == FRONT_WHOLE) {
			struct stat state;
			uint32_t file;
			to.in_from += message.size;
			if (message.object < SHM || message.size != 16 || next++ == 0)
				continue;
			HOLDS(wire_take_tokens(&to, 1, &file) && fstat((int)file, &state) == 0);
			HOLDS(state.st_size == (off_t)next - 2 && close((int)file) == 0);
		}
	}
	HOLDS(next == POOLS + 1 && to.token_count == 0);
	close_ends(ends);
}

/* Too many that no message takes end the client; they are closed. */
static void too_many(void)
{
	struct ends ends = open_ends();
	int file = numbered_file(1);
	put(ends.near, &(struct message){ .bytes = (uint8_t *)(uint32_t[]){ DISPLAY, 0xfff80000 }, .size = HEADER_SIZE }, -1);
	link_read(ends.link, NEAR);
	for (int at = 0; at < 257; at++) {
		put(ends.near, &(struct message){ .bytes = (uint8_t *)"", .size = 1 }, file);
		link_read(ends.link, NEAR);
	}
	HOLDS(tokens_used() == 256 && core_sweep(moment()));
	perform();
	HOLDS(tokens_used() == 0 && !lives(ends.link));
	close(file);
	close(ends.near);
	close(ends.far);
}

/* What a file held is what others get, whatever happens to it; they can't change it, nor its length. */
static void sealed(void)
{
	static const char text[] = "xkb_keymap {}", other[] = "xkb_keymap ()";
	char found[sizeof text];
	bool is_short = false;
	int from = memfd_create("keymap", MFD_CLOEXEC);
	HOLDS(write(from, text, sizeof text) == sizeof text);
	int given = sealed_file((const uint8_t *)text, -1, 0, sizeof text, &is_short);
	HOLDS(pwrite(given, other, sizeof other, 0) < 0 && ftruncate(given, 0) < 0 && ftruncate(given, 4096) < 0);
	HOLDS(fcntl(given, F_ADD_SEALS, F_SEAL_WRITE) < 0);
	HOLDS(mmap(NULL, sizeof text, PROT_READ | PROT_WRITE, MAP_SHARED, given, 0) == MAP_FAILED);
	HOLDS(read(given, found, sizeof found) == sizeof found && strcmp(found, text) == 0);
	for (int flags = MAP_SHARED; flags <= MAP_PRIVATE; flags++) {
		char *mapped = mmap(NULL, sizeof text, PROT_READ, flags, given, 0);
		HOLDS(mapped != MAP_FAILED && strcmp(mapped, text) == 0);
		munmap(mapped, sizeof text);
	}
	int copy = sealed_file(NULL, from, 4, sizeof text - 4, &is_short);
	HOLDS(!is_short && pwrite(from, other, sizeof other, 0) == sizeof other && ftruncate(from, 1) == 0);
	HOLDS(read(copy, found, sizeof text - 4) == sizeof text - 4 && strcmp(found, text + 4) == 0 && ftruncate(copy, 1) < 0);
	close(copy);
	copy = sealed_file(NULL, from, 0, sizeof text, &is_short);
	HOLDS(copy >= 0 && is_short && sealed_file(NULL, from, 0, 0, &is_short) == -1);
	close(copy);
	close(given);
	close(from);
}

/* Who doesn't read has a bounded queue, and then ends; who hung up ends. */
static void who_does_not_read(void)
{
	struct ends ends = open_ends(), gone = open_ends();
	for (uint32_t id = 3; id < 150000 && core_room(ends.link, NEAR) > 0; id++) {
		put(ends.near, draft(DISPLAY, wl_display_request_sync, "u", id < 60000 ? id - 1 : 1), -1);
		HOLDS(wait_all(0)); /* the time goes on */
		core_round(moment());
		link_read(ends.link, NEAR);
		link_flush(ends.link, FAR);
	}
	HOLDS(core_room(ends.link, NEAR) == 0 && core_writes(ends.link, FAR));
	close(gone.far);
	put(gone.near, draft(DISPLAY, wl_display_request_sync, "u", 2), -1);
	link_read(gone.link, NEAR);
	link_flush(gone.link, FAR);
	HOLDS(core_sweep(moment()) && lives(gone.link));
	perform();
	HOLDS(!lives(gone.link) && lives(ends.link));
	close(gone.near);
	close_ends(ends);
}

enum { PAIRS = 100 };

/* Waits until each that is ready was told. Answers how many are, and that what they are is this. */
static int told(struct waited *waits, short events)
{
	int count = 0;
	for (int times = 0; times < 3; times++)
		HOLDS(wait_all(0));
	for (int at = 0; at < PAIRS; at++) {
		HOLDS(waits[at].came == 0 || waits[at].came == events);
		count += waits[at].came != 0;
		waits[at].came = 0;
	}
	return count;
}

/* What came is told of whom it came to, whatever changed since the last time. */
static void waits(void)
{
	static struct waited waits[PAIRS];
	int ends[PAIRS][2];
	for (int at = 0; at < PAIRS; at++) {
		HOLDS(socketpair(AF_UNIX, SOCK_STREAM | SOCK_CLOEXEC, 0, ends[at]) == 0);
		waits[at].file = ends[at][0];
		HOLDS(wait_begin(&waits[at], POLLIN));
	}
	HOLDS(told(waits, POLLIN) == 0);
	for (int at = 0; at < PAIRS; at += 3)
		HOLDS(write(ends[at][1], "a", 1) == 1);
	HOLDS(told(waits, POLLIN) == 34);
	wait_for(&waits[3], 0);
	wait_for(&waits[6], 0);
	HOLDS(told(waits, POLLIN) == 32);
	for (int at = 0; at < PAIRS; at++)
		wait_for(&waits[at], at % 4 == 0 ? 0 : POLLOUT);
	HOLDS(told(waits, POLLOUT) == 75);
	for (int at = 0; at < PAIRS; at++) /* the numbers of what is closed are used again */
		for (int end = 0; end < 2; end++)
			close(ends[at][end]);
	for (int at = 0; at < PAIRS; at++) {
		HOLDS(socketpair(AF_UNIX, SOCK_STREAM | SOCK_CLOEXEC, 0, ends[at]) == 0);
		waits[at] = (struct waited){ .file = ends[at][0] };
		HOLDS(wait_begin(&waits[at], 0));
	}
	HOLDS(told(waits, 0) == 0 && close(ends[7][1]) == 0 && told(waits, POLLHUP) == 1);
	HOLDS(wait_all(0) && waits[7].came == POLLHUP && waits[8].came == 0);
	int file = numbered_file(1);
	HOLDS(!wait_begin(&(struct waited){ .file = file }, POLLIN)); /* a file can't be waited for */
	uint64_t before = moment();
	usleep(1000);
	HOLDS(moment() == before && wait_all(0) && moment() >= before + 1000);
	close(file);
	for (int at = 0; at < PAIRS; at++) {
		close(ends[at][0]);
		if (at != 7)
			close(ends[at][1]);
	}
}

int main(void)
{
	if (!core_open(moment(), 3000000))
		return 1;
	descriptors();
	too_many();
	sealed();
	who_does_not_read();
	waits();
	core_close();
	perform();
	printf("the gateway's shell: %s\n", failed ? "not as it should be" : "ok");
	return failed;
}
