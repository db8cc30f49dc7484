/* The shell's sockets and files: what came is told to the core, what it asks for is done. */
#include "shell.h"
#include <errno.h>
#include <fcntl.h>
#include <linux/magic.h>
#include <poll.h>
#include <ctype.h>
#include <stdio.h>
#include <string.h>
#include <sys/mman.h>
#include <sys/socket.h>
#include <sys/vfs.h>
#include <unistd.h>

enum {
	FILES_READ = 253, /* as Linux sends at most */
	KEPT_FREE = FILES_READ + 50, /* descriptors, for those of a read, and the gateway's own */
	READ = 16384,
	TEXT_MAX = 1048576, /* bytes of a keymap */
	READ_AWAY = 64, /* times: who ends is read so far */
	SEALS = F_SEAL_SEAL | F_SEAL_SHRINK | F_SEAL_GROW, /* and where nobody may write: it can still be mapped, shared too */
};

static struct waited links[LINKS_MAX + 1][2]; /* each side's socket; 0: there is none */
static unsigned highest; /* link that there was */
static int files[TOKENS_MAX]; /* of tokens; 0 or below: there is none */
static size_t held, most = SIZE_MAX; /* descriptors of links and tokens; so many may be */

unsigned peer_of(int socket, char command[COMMAND]) {
	struct ucred other = { 0 };
	socklen_t size = sizeof other;
	char path[40];
	getsockopt(socket, SOL_SOCKET, SO_PEERCRED, &other, &size);
	snprintf(path, sizeof path, "/proc/%d/comm", other.pid);
	int file = open(path, O_RDONLY | O_CLOEXEC);
	ssize_t came = file >= 0 ? read(file, command, COMMAND - 1) : 0;
	if (file >= 0)
		close(file);
	command[came > 0 ? came : 0] = 0;
	for (char *letter = command; *letter; letter++)
		*letter = isgraph((unsigned char)*letter) ? *letter : letter[1] ? '_' : 0;
	return other.pid > 0 ? (unsigned)other.pid : 0;
}

void links_limit(size_t limit) {
	most = limit;
}

void link_open(unsigned link, int near, int far) {
	highest = link > highest ? link : highest;
	held += 2;
	links[link][NEAR].file = near;
	links[link][FAR].file = far;
	if (!wait_begin(&links[link][NEAR], POLLIN) || !wait_begin(&links[link][FAR], POLLIN))
		core_hung_up(moment(), link, NEAR, "there is no memory to wait for it");
}

/* What isn't read away would have the other side see a reset and not the error that it is told. */
static void link_close(unsigned link) {
	static uint8_t bytes[READ];
	for (enum side side = NEAR; side <= FAR; side++) {
		int socket = links[link][side].file;
		for (int reads = 0; reads < READ_AWAY && recv(socket, bytes, sizeof bytes, MSG_DONTWAIT) > 0; reads++)
			;
		close(socket);
		held--;
		links[link][side] = (struct waited){ 0 };
	}
}

static void file_close(uint32_t token) {
	if (files[token] > 0 && close(files[token]) == 0)
		held--;
	files[token] = 0;
}

/* Tokens of the descriptors that came. Answers how many. */
static unsigned take_files(struct msghdr *header, uint32_t *tokens) {
	unsigned count = 0;
	for (struct cmsghdr *part = CMSG_FIRSTHDR(header); part; part = CMSG_NXTHDR(header, part)) {
		for (size_t at = CMSG_LEN(0); at < part->cmsg_len; at += sizeof(int), count++) {
			int file;
			memcpy(&file, (char *)part + at, sizeof file);
			tokens[count] = core_token();
			held++;
			files[tokens[count]] = file;
			if (tokens[count] == 0)
				file_close(0);
		}
	}
	if (header->msg_flags & MSG_CTRUNC)
		tokens[count++] = 0;
	return count;
}

/* What failed may go another time. */
static bool is_later(void) {
	return errno == EAGAIN || errno == EINTR || errno == ENOBUFS || errno == ENOMEM || errno == ETOOMANYREFS;
}

/* Whether the side is there and something came, which the core is told. */
static bool read_once(unsigned link, enum side side) {
	static uint8_t bytes[READ];
	_Alignas(struct cmsghdr) char control[CMSG_SPACE(FILES_READ * sizeof(int))];
	uint32_t tokens[FILES_READ + 1];
	size_t room = core_room(link, side);
	if (room == 0 || (held + KEPT_FREE > most && core_short(moment())))
		return false; /* who holds most ends first */
	struct iovec place = { bytes, room < sizeof bytes ? room : sizeof bytes };
	struct msghdr header = {
		.msg_iov = &place, .msg_iovlen = 1, .msg_control = control, .msg_controllen = sizeof control,
	};
	ssize_t came = recvmsg(links[link][side].file, &header, MSG_DONTWAIT | MSG_CMSG_CLOEXEC);
	if (came < 0 && is_later())
		return false;
	unsigned count = came >= 0 ? take_files(&header, tokens) : 0;
	if (came > 0 || count > 0)
		core_receive(moment(), link, side, bytes, (size_t)came, tokens, count);
	if (came <= 0)
		core_hung_up(moment(), link, side, NULL);
	return came > 0;
}

static void link_read(unsigned link, enum side side) {
	read_once(link, side);
	perform();
}

static void link_flush(unsigned link, enum side side) {
	struct written next;
	while (core_next(link, side, &next)) {
		_Alignas(struct cmsghdr) char control[CMSG_SPACE(TOKENS_AT_ONCE * sizeof(int))] = { 0 };
		struct cmsghdr *part = (struct cmsghdr *)control;
		struct iovec place = { (void *)(uintptr_t)next.bytes, next.size };
		struct msghdr header = { .msg_iov = &place, .msg_iovlen = 1, .msg_control = control };
		for (unsigned at = 0; at < next.count; at++) {
			if (files[next.tokens[at]] <= 0 && !core_missing(moment(), next.tokens[at]))
				return core_hung_up(moment(), link, side, "there is no descriptor for what it is sent");
			perform();
			if (files[next.tokens[at]] <= 0)
				return (void)poll(NULL, 0, 1); /* it waits till one can be made */
			memcpy(CMSG_DATA(part) + at * sizeof(int), &files[next.tokens[at]], sizeof(int));
		}
		*part = (struct cmsghdr){ CMSG_LEN(next.count * sizeof(int)), SOL_SOCKET, SCM_RIGHTS };
		header.msg_controllen = next.count > 0 ? CMSG_SPACE(next.count * sizeof(int)) : 0;
		ssize_t went = sendmsg(links[link][side].file, &header, MSG_DONTWAIT | MSG_NOSIGNAL);
		if (went < 0 && is_later())
			return;
		for (int reads = 0; went < 0 && side == FAR && reads < READ_AWAY && read_once(link, FAR); reads++)
			perform(); /* what the compositor said before it hung up, as why */
		if (went < 0)
			return core_hung_up(moment(), link, side, side == FAR ? "the compositor takes no more of it" : NULL);
		core_wrote(link, side, (size_t)went);
		perform();
	}
}

void links_flush(void) {
	for (unsigned link = 1; link <= highest; link++) {
		link_flush(link, FAR);
		link_flush(link, NEAR);
	}
}

void links_wait(void) {
	for (unsigned link = 1; link <= highest; link++)
		for (enum side side = NEAR; side <= FAR && links[link][side].file > 0; side++)
			wait_for(&links[link][side], (core_room(link, side) > 0 ? POLLIN : 0) | (core_writes(link, side) ? POLLOUT : 0));
}

void links_read(void) {
	for (unsigned link = 1; link <= highest; link++)
		for (enum side side = NEAR; side <= FAR; side++) {
			short came = links[link][side].came;
			links[link][side].came = 0;
			if (came & POLLHUP && !(links[link][side].events & POLLIN)) /* what it wrote isn't waited for */
				core_hung_up(moment(), link, side, NULL);
			else if (came & ~POLLOUT)
				link_read(link, side);
		}
}

/* A client's file of FUSE could keep all waiting: it isn't read. */
static bool read_file(int file, uint8_t *to, uint32_t size, uint32_t offset) {
	struct statfs on;
	return fstatfs(file, &on) == 0 && on.f_type != FUSE_SUPER_MAGIC && pread(file, to, size, offset) == (ssize_t)size;
}

/* A file of the bytes, which nobody can change; or of what a file has from there on, which nobody can cut off. */
static int sealed_file(const uint8_t *bytes, int from, uint32_t offset, uint32_t size, bool *is_short) {
	int file = memfd_create("wlim-gateway", MFD_CLOEXEC | MFD_ALLOW_SEALING);
	void *place = file >= 0 && ftruncate(file, size) == 0
		? mmap(NULL, size, PROT_READ | PROT_WRITE, MAP_SHARED, file, 0) : MAP_FAILED;
	if (place != MAP_FAILED && bytes)
		memcpy(place, bytes, size);
	else if (place != MAP_FAILED && from > 0)
		*is_short = !read_file(from, place, size, offset);
	int seals = SEALS | (bytes ? F_SEAL_FUTURE_WRITE : 0);
	if (place != MAP_FAILED && munmap(place, size) == 0 && fcntl(file, F_ADD_SEALS, seals) == 0)
		return file;
	if (file >= 0)
		close(file);
	return -1;
}

static void read_text(const struct effect *effect) {
	static uint8_t text[TEXT_MAX];
	bool whole = effect->size <= TEXT_MAX && read_file(files[effect->from], text, effect->size, 0);
	core_text(moment(), effect->link, effect->side, whole ? text : NULL, effect->size);
}

void perform(void) {
	struct effect effect;
	while (core_effect(&effect)) {
		bool is_short = false;
		switch (effect.kind) {
		case EFFECT_READ:
			read_once(effect.from, FAR);
			perform();
			core_go_on(moment(), effect.link, effect.side);
			break;
		case EFFECT_TEXT:
			read_text(&effect);
			break;
		case EFFECT_FILE:
		case EFFECT_COPY:
			files[effect.token] = sealed_file(effect.bytes, effect.from > 0 ? files[effect.from] : -1, effect.offset,
				effect.size, &is_short);
			held += files[effect.token] > 0;
			if (effect.kind == EFFECT_COPY)
				core_copied(moment(), effect.token, files[effect.token] > 0 && !is_short, is_short);
			break;
		case EFFECT_CLOSE:
			file_close(effect.token);
			break;
		case EFFECT_END:
			link_close(effect.link);
		}
	}
}
