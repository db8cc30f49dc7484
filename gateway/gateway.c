/* wlim-gateway, between clients and a compositor as it is: its words, files and loop. README.md says what it does. */
#include "shell.h"
#include "usage.h" /* the text of usage.txt, as `usage` */
#include <errno.h>
#include <fcntl.h>
#include <signal.h>
#include <stdio.h>
#include <stdlib.h>
#include <string.h>
#include <sys/resource.h>
#include <sys/signalfd.h>
#include <sys/socket.h>
#include <sys/stat.h>
#include <unistd.h>

/* What the loop waits for beside links. */
enum wait { WAIT_PROGRAMS, WAIT_METHODS, WAIT_CHECKS, WAIT_COMPOSITOR, WAIT_SIGNALS, WAIT_KINDS };
enum { ENTRIES_MAX = 3500000, RESTS = 100 /* milliseconds after a client couldn't be let in */ };

static struct {
	struct door doors[WAIT_CHECKS + 1]; /* at which clients are let in, and who asks how it stands */
	const char *compositor; /* the name of its socket */
	struct waited waits[WAIT_KINDS];
	uint64_t rests_until; /* nobody is let in before: it failed */
	int spare; /* a descriptor that lets a client in and out where they run short */
	unsigned long entries; /* of a broker */
	const char *checks; /* not NULL: it only asks how the gateway stands that runs */
	const char *ends; /* why; NULL: it goes on */
} self = { .doors = { { .name = "wlim-programs" }, { .name = "wlim-methods" } }, .compositor = "wayland-0" };

/* A descriptor that tells of signals: of SIGHUP the broker is renewed, of the others the gateway ends. */
static int signals(void) {
	sigset_t set;
	sigemptyset(&set);
	sigaddset(&set, SIGTERM);
	sigaddset(&set, SIGINT);
	sigaddset(&set, SIGHUP);
	sigprocmask(SIG_BLOCK, &set, NULL);
	return signalfd(-1, &set, SFD_CLOEXEC | SFD_NONBLOCK);
}

/* Nobody is let in for a while: one who waits is closed, with the place of the spare descriptor. */
static void turn_away(enum wait which) {
	say("a client isn't let in: %m");
	core_short(moment());
	self.rests_until = moment() + RESTS * 1000;
	if (self.spare >= 0)
		close(self.spare);
	close(accept(self.waits[which].file, NULL, NULL));
	self.spare = open("/dev/null", O_RDONLY | O_CLOEXEC);
}

static void let_in(enum wait which) {
	char command[COMMAND];
	int near = accept4(self.waits[which].file, NULL, NULL, SOCK_CLOEXEC | SOCK_NONBLOCK);
	if (near < 0 && (errno == EAGAIN || errno == EINTR || errno == ECONNABORTED))
		return;
	if (near < 0)
		return turn_away(which);
	if (which == WAIT_CHECKS) {
		check_answer(near, self.compositor);
		close(near);
		return;
	}
	int far = connect_to(self.compositor);
	if (far < 0) {
		say("a client isn't let in: %m");
		core_short(moment());
	}
	unsigned process = peer_of(near, command);
	unsigned link = far >= 0 ? core_join(moment(), which == WAIT_PROGRAMS ? PROGRAM : METHOD, process, command) : 0;
	if (link > 0)
		return link_open(link, near, far);
	close(near);
	if (far >= 0)
		close(far);
}

/* Writes to all, and closes those that end, which may tell others something: all are written to once more then. */
static void finish_round(void) {
	core_round(moment());
	do {
		perform();
		links_flush();
	} while (core_sweep(moment()));
	outlets_flush();
}

/* Waits for something, at most so long. */
static void wait_round(int milliseconds) {
	bool rests = moment() < self.rests_until;
	for (enum wait which = WAIT_PROGRAMS; which <= WAIT_CHECKS; which++)
		wait_for(&self.waits[which], rests ? 0 : POLLIN);
	links_wait();
	if (!wait_all(rests ? RESTS : milliseconds) && errno != EINTR)
		say("nothing is waited for: %m");
}

/* Whether something came to it with the last wait. */
static bool came(enum wait which) {
	bool did = self.waits[which].came;
	self.waits[which].came = 0;
	return did;
}

/* Reads what came; clients that come new are let in last. */
static void play_all(void) {
	struct signalfd_siginfo signal;
	links_read();
	for (enum wait which = WAIT_PROGRAMS; which <= WAIT_CHECKS; which++)
		if (came(which))
			let_in(which);
	if (came(WAIT_SIGNALS) && read(self.waits[WAIT_SIGNALS].file, &signal, sizeof signal) == sizeof signal) {
		if (signal.ssi_signo == SIGHUP)
			core_renew(moment());
		else
			self.ends = "it was asked to";
	}
	if (self.waits[WAIT_COMPOSITOR].came)
		self.ends = "the compositor has ended";
}

static void turn(void) {
	finish_round();
	wait_round(core_wait(moment()));
	play_all();
}

static void run(void) {
	while (!self.ends)
		turn();
	say("ends: %s", self.ends);
	core_end();
	finish_round();
	core_close();
	perform();
	for (enum wait which = WAIT_PROGRAMS; which <= WAIT_CHECKS; which++)
		listen_end(&self.doors[which]);
	outlets_close();
}

/* Reads the options. False: one is none. */
static bool read_words(int count, char **words) {
	static char checks[sizeof self.doors->address.sun_path];
	const char *display = getenv("WAYLAND_DISPLAY"), *entries = "3000000";
	const struct option { const char *name, **value, *alone; } options[] = {
		{ "--programs", &self.doors[WAIT_PROGRAMS].name, NULL }, { "--methods", &self.doors[WAIT_METHODS].name, NULL },
		{ "--compositor", &self.compositor, NULL }, { "--record", &outlet_names[OUT_RECORD], NULL },
		{ "--taken", &outlet_names[OUT_TAKEN], NULL }, { "--calls", &outlet_names[OUT_CALLS], NULL },
		{ "--entries", &entries, NULL }, { "--log", &outlet_names[OUT_LOG], "" },
		{ "--log-text", &outlet_names[OUT_LOG_TEXT], "" }, { "--check", &self.checks, "" }, { 0 },
	};
	if (display)
		self.compositor = display;
	for (int at = 1; at < count; at++) {
		const struct option *option = options;
		while (option->name && strcmp(option->name, words[at]) != 0)
			option++;
		if (!option->name || (!option->alone && at + 1 == count))
			return false;
		*option->value = option->alone ? option->alone : words[++at];
	}
	char *end;
	self.entries = strtoul(entries, &end, 10);
	snprintf(checks, sizeof checks, "%s.check", self.doors[WAIT_PROGRAMS].name);
	self.doors[WAIT_CHECKS].name = checks;
	return *end == 0 && self.entries > 0 && self.entries <= ENTRIES_MAX;
}

/* Opens what is waited for. False: something isn't there, or the compositor is to be the gateway itself. */
static bool open_waits(void) {
	for (enum wait which = WAIT_PROGRAMS; which < WAIT_KINDS; which++) {
		struct door *door = which <= WAIT_CHECKS ? &self.doors[which] : NULL;
		const char *name = door ? door->name : which == WAIT_COMPOSITOR ? self.compositor : "signals";
		if (door && strcmp(name, self.compositor) == 0)
			return say("%s is the gateway's own socket: name the compositor's", name), false;
		int file = door ? listen_at(door) : which == WAIT_COMPOSITOR ? connect_to(name) : signals();
		self.waits[which].file = file;
		if (file < 0 || !wait_begin(&self.waits[which], POLLIN | POLLRDHUP))
			return say("%s: %m", name), false;
	}
	return true;
}

static bool open_all(void) {
	struct rlimit files;
	umask(0077);
	signal(SIGPIPE, SIG_IGN);
	signal(SIGXFSZ, SIG_IGN);
	getrlimit(RLIMIT_NOFILE, &files);
	files.rlim_cur = files.rlim_max;
	setrlimit(RLIMIT_NOFILE, &files);
	links_limit(files.rlim_cur);
	self.spare = open("/dev/null", O_RDONLY | O_CLOEXEC);
	return open_waits() && core_open(moment(), self.entries) && outlets_all();
}

int main(int count, char **words) {
	bool help = count == 2 && strcmp(words[1], "--help") == 0, read = !help && read_words(count, words);
	if (!read)
		fputs(usage, help ? stdout : stderr);
	if (!read)
		return help ? 0 : 2;
	outlets_open();
	if (self.checks)
		return check(self.doors[WAIT_CHECKS].name, self.compositor) ? 0 : 1;
	if (!open_all())
		return 2;
	printf("ready %s %s\n", self.doors[WAIT_PROGRAMS].name, self.doors[WAIT_METHODS].name);
	run();
	return self.waits[WAIT_COMPOSITOR].came ? 1 : 0;
}
