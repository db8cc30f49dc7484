/*
 * In the place of tests/gateway_harness.h: the same calls, over sockets, through all of the gateway as it is: its loop,
 * sockets, files and what it answers to --check. Only the time is the test's: clock_gettime is wrapped.
 */
#include "gateway.h"
#define main gateway_main
#define finish_round write_all
#include "../gateway/gateway.c"
#undef finish_round
#undef main
#include <ftw.h>
#include <sys/mman.h>
#include <time.h>

enum { OPEN_MAX = 128, TRIES = 200, FILES_MAX = 253, STRANGERS = 61, CHECKS = 97 };

struct pile {
	size_t size;
	unsigned files;
	uint8_t bytes[400000];
};

struct place {
	struct client *client;
	unsigned link, number; /* 0: it has ended; the client's number */
	int sockets[2]; /* the other ends, which the test has */
	struct pile told, asked; /* what the client was sent since the last look, and the compositor */
};

static uint64_t now = 1000000;
static struct place *open_places[OPEN_MAX];
static int compositor_door, compositor_watched; /* the compositor's socket; by which the gateway sees that it lives */
static char folder[] = "/tmp/wlim-gateway-XXXXXX";

int __wrap_clock_gettime(clockid_t clock, struct timespec *time);
int __wrap_clock_gettime(clockid_t clock, struct timespec *time)
{
	(void)clock;
	*time = (struct timespec){ (time_t)(now / 1000000), (long)(now % 1000000) * 1000 };
	return 0;
}

static inline void needs(bool holds, const char *what)
{
	if (holds)
		return;
	perror(what);
	abort();
}

/* A descriptor of a file with the bytes. */
static inline uint32_t make_file(const void *bytes, size_t size)
{
	int file = memfd_create("test", MFD_CLOEXEC);
	needs(file >= 0 && write(file, bytes, size) == (ssize_t)size, "a file");
	return (uint32_t)file;
}

/* Takes what came at a place's end; descriptors are closed. */
static inline void collect_side(struct place *place, enum side side)
{
	struct pile *pile = side == NEAR ? &place->told : &place->asked;
	ssize_t came;
	do {
		_Alignas(struct cmsghdr) char control[CMSG_SPACE(FILES_MAX * sizeof(int))];
		if (pile->size == sizeof pile->bytes)
			pile->size = 0; /* nobody looks at so much */
		struct iovec to = { pile->bytes + pile->size, sizeof pile->bytes - pile->size };
		struct msghdr header = {
			.msg_iov = &to, .msg_iovlen = 1, .msg_control = control, .msg_controllen = sizeof control,
		};
		came = recvmsg(place->sockets[side], &header, MSG_DONTWAIT | MSG_CMSG_CLOEXEC);
		pile->size += came > 0 ? (size_t)came : 0;
		for (struct cmsghdr *part = CMSG_FIRSTHDR(&header); came > 0 && part; part = CMSG_NXTHDR(&header, part))
			for (size_t at = CMSG_LEN(0); at < part->cmsg_len; at += sizeof(int), pile->files++) {
				int file;
				memcpy(&file, (char *)part + at, sizeof file);
				needs(close(file) == 0, "a descriptor that came");
			}
	} while (came > 0);
}

static inline bool has_ended(const struct place *place)
{
	const struct client *client = gateway.clients;
	while (client && client->number != place->number)
		client = client->next;
	return !client;
}

/* A turn of the gateway's loop that waits for nothing; and what it wrote is taken. */
static inline void take_turn(void)
{
	write_all();
	for (unsigned at = 0; at < OPEN_MAX; at++)
		for (enum side side = NEAR; open_places[at] && side <= FAR; side++)
			collect_side(open_places[at], side);
	wait_round(0);
	play_all();
	write_all();
	for (unsigned at = 0; at < OPEN_MAX; at++)
		if (open_places[at] && has_ended(open_places[at]))
			open_places[at]->link = 0;
}

static inline void close_files(const uint32_t *files, size_t count)
{
	for (size_t at = 0; at < count; at++)
		close((int)files[at]);
}

/* Writes to a place's end, of which the gateway reads meanwhile, and closes the descriptors. */
static inline void put_bytes(struct place *place, enum side side, const uint8_t *bytes, size_t size,
	const uint32_t *files, size_t count)
{
	_Alignas(struct cmsghdr) char control[CMSG_SPACE(FILES_MAX * sizeof(int))] = { 0 };
	size_t at = 0;
	for (int tries = 0; at < size && tries < TRIES && place->link > 0; tries++) {
		struct iovec from = { (void *)(uintptr_t)(bytes + at), size - at };
		struct msghdr header = { .msg_iov = &from, .msg_iovlen = 1 };
		if (at == 0 && count > 0) {
			header.msg_control = control;
			header.msg_controllen = CMSG_SPACE(count * sizeof(int));
			*CMSG_FIRSTHDR(&header) = (struct cmsghdr){ CMSG_LEN(count * sizeof(int)), SOL_SOCKET, SCM_RIGHTS };
			memcpy(CMSG_DATA(CMSG_FIRSTHDR(&header)), files, count * sizeof(int));
		}
		ssize_t went = sendmsg(place->sockets[side], &header, MSG_DONTWAIT | MSG_NOSIGNAL);
		if (went < 0 && errno != EAGAIN)
			break;
		at += went > 0 ? (size_t)went : 0;
		now += went > 0 ? 1 : 100000; /* who sent too much is read again after a while */
		if (went < 0)
			take_turn();
	}
	close_files(files, count);
}

static inline void do_effects(void)
{
	perform();
}

/* What the compositor wrote to the client comes. */
static inline void read_far(struct place *place)
{
	if (place->link > 0)
		take_turn();
}

static inline void open_client(struct place *place, enum role role)
{
	unsigned at = 0, last = gateway.clients ? gateway.clients->number : 0;
	while (open_places[at] && open_places[at] != place)
		at++;
	*place = (struct place){ .sockets = { connect_to(role == PROGRAM ? "wlim-programs" : "wlim-methods"), -1 } };
	for (int tries = 0; tries < TRIES && place->sockets[FAR] < 0; tries++) {
		now += 1000;
		take_turn();
		place->sockets[FAR] = accept4(compositor_door, NULL, NULL, SOCK_CLOEXEC | SOCK_NONBLOCK);
	}
	open_places[at] = place;
	place->client = gateway.clients;
	needs(place->sockets[FAR] >= 0 && place->client && place->client->number != last, "a client");
	place->link = place->client->link;
	place->number = place->client->number;
}

static inline void send_client(struct place *place, const uint8_t *bytes, size_t size, const uint32_t *files,
	size_t count)
{
	put_bytes(place, NEAR, bytes, size, files, count);
	take_turn();
}

static inline void write_far(struct place *place, const uint8_t *bytes, size_t size, const uint32_t *files,
	unsigned count)
{
	put_bytes(place, FAR, bytes, size, files, count);
}

/* Who connects and goes at once; and who asks how the gateway stands is answered. */
static inline void come_by(void)
{
	static unsigned long rounds;
	char answer[65536];
	if (++rounds % STRANGERS == 0) {
		close(connect_to(rounds % 2 ? "wlim-programs" : "wlim-methods"));
		take_turn();
		close(accept4(compositor_door, NULL, NULL, SOCK_CLOEXEC | SOCK_NONBLOCK));
	}
	if (rounds % (100 * CHECKS) == 0)
		raise(SIGHUP);
	if (rounds % CHECKS != 0)
		return;
	int file = connect_to("wlim-programs.check");
	take_turn();
	ssize_t came = recv(file, answer, sizeof answer - 1, MSG_DONTWAIT);
	needs(came > 0, "an answer to who asks how it stands");
	answer[came] = 0;
	needs(strncmp(answer, "wayland-0\nthe gateway: process ", 31) == 0 && strstr(answer, "input method serves\n"), answer);
	close(file);
}

/* A round ends: all that is to be sent is, and who ends has ended. */
static inline void finish_round(void)
{
	now++;
	take_turn();
	come_by();
}

static inline void close_side(struct place *place, enum side side)
{
	if (place->sockets[side] >= 0)
		close(place->sockets[side]);
	place->sockets[side] = -1;
}

static inline void close_client(struct place *place)
{
	close_side(place, NEAR);
	for (int tries = 0; tries < TRIES && place->link > 0; tries++) {
		now += 100000;
		take_turn();
	}
	needs(place->link == 0, "the end of who has gone");
	close_side(place, FAR);
	for (unsigned at = 0; at < OPEN_MAX; at++)
		if (open_places[at] == place)
			open_places[at] = NULL;
}

static inline void make_folder(void)
{
	needs(mkdtemp(folder) && setenv("XDG_RUNTIME_DIR", folder, 1) == 0, "a folder");
}

/* The gateway with all that it writes to, in a folder of its own, beside a compositor that the test is. */
static inline void open_gateway(void)
{
	static struct door door = { .name = "wayland-0" };
	static char record[100], taken[100], calls[100];
	if (access(folder, F_OK) != 0)
		make_folder();
	snprintf(record, sizeof record, "%s/session", folder);
	snprintf(taken, sizeof taken, "%s/taken", folder);
	snprintf(calls, sizeof calls, "%s/calls", folder);
	compositor_door = listen_at(&door);
	char *words[] = { "gateway", "--compositor", "wayland-0", "--record", record, "--taken", taken, "--calls", calls };
	needs(compositor_door >= 0 && read_words(sizeof words / sizeof *words, words), "the words");
	outlets_open();
	needs(open_all(), "the gateway");
	compositor_watched = accept4(compositor_door, NULL, NULL, SOCK_CLOEXEC);
}

static inline int remove_file(const char *path, const struct stat *state, int kind, struct FTW *where)
{
	(void)state, (void)kind, (void)where;
	return remove(path);
}

/* It is asked to end, which leaves no socket. */
static inline void close_gateway(void)
{
	char path[100];
	raise(SIGTERM);
	run();
	snprintf(path, sizeof path, "%s/wlim-programs", folder);
	needs(access(path, F_OK) != 0 && gateway.clients == NULL, "its end");
	nftw(folder, remove_file, 8, FTW_DEPTH | FTW_PHYS);
}
