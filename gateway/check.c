/* How the gateway stands, for `wlim-gateway --check`: a running one tells, and the compositor offers its globals. */
#include "gateway.h"
#include "shell.h"
#include <fcntl.h>
#include <stdio.h>
#include <stdlib.h>
#include <string.h>
#include <sys/socket.h>
#include <sys/time.h>
#include <unistd.h>

enum { REGISTRY = 2, CALLBACK, ANSWER_MAX = 262144, PATIENCE = 5 /* seconds */ };

static const char serves[] = "an input method serves\n", serves_not[] = "no input method serves\n";

void check_answer(int file, const char *compositor) {
	char *text = NULL;
	size_t size;
	FILE *to = open_memstream(&text, &size);
	if (!to)
		return;
	fprintf(to, "%s\nthe gateway: process %d\n", compositor, getpid());
	for (unsigned link = 1; link <= LINKS_MAX; link++) {
		const char *state = core_state(link);
		if (state)
			fprintf(to, "%s\n", state);
	}
	fputs(core_serves() ? serves : serves_not, to);
	if (fclose(to) == 0)
		send(file, text, size, MSG_DONTWAIT | MSG_NOSIGNAL);
	free(text);
}

/* A socket that is waited for; -1: nobody listens there. */
static int connect_patiently(const char *name) {
	struct timeval patience = { .tv_sec = PATIENCE };
	int file = connect_to(name);
	if (file < 0)
		return say("%s: %m", name), -1;
	fcntl(file, F_SETFL, 0);
	setsockopt(file, SOL_SOCKET, SO_RCVTIMEO, &patience, sizeof patience);
	return file;
}

static void print_global(const char *name, uint32_t version) {
	const struct interface *interface = interface_named(name);
	uint32_t offered = globals_version(PROGRAM, interface, version);
	printf("  %s %u", name, version);
	puts(!interface ? ": hidden, the gateway doesn't know it" : offered == 0 ? ": hidden, the gateway has its own" : "");
	if (offered > 0 && offered < version)
		printf("    programs see version %u\n", offered);
}

/* Prints the globals that the compositor told from there on. Whether it told all. */
static bool print_told(uint8_t *bytes, size_t size, size_t *at) {
	struct message message;
	while (message_front(bytes + *at, size - *at, &message) == FRONT_WHOLE) {
		*at += message.size;
		if (message.object == CALLBACK)
			return true;
		if (message.object == REGISTRY && message_read(&message, &wl_registry_events[wl_registry_event_global]))
			print_global(message.texts[1], message.numbers[2]);
	}
	return false;
}

/* Prints the compositor's globals. False: it doesn't answer. */
static bool print_globals(const char *name) {
	static uint8_t bytes[ANSWER_MAX];
	const uint32_t asks[] = { DISPLAY, 12 << 16 | wl_display_request_get_registry, REGISTRY,
		DISPLAY, 12 << 16 | wl_display_request_sync, CALLBACK };
	int file = connect_patiently(name);
	bool whole = false, goes_on = file >= 0 && send(file, asks, sizeof asks, MSG_NOSIGNAL) == sizeof asks;
	size_t size = 0, at = 0;
	for (ssize_t came; goes_on && !whole && (came = read(file, bytes + size, sizeof bytes - size)) > 0; ) {
		size += (size_t)came;
		whole = print_told(bytes, size, &at);
	}
	if (file >= 0)
		close(file);
	return whole;
}

bool check(const char *socket, const char *compositor) {
	static char answer[ANSWER_MAX];
	size_t size = 0;
	int file = connect_patiently(socket);
	for (ssize_t came; file >= 0 && (came = read(file, answer + size, sizeof answer - 1 - size)) > 0; )
		size += (size_t)came;
	char *rest = strchr(answer, '\n');
	if (rest)
		*rest++ = 0;
	printf("the compositor: %s\n", rest ? answer : compositor);
	bool offers = print_globals(rest ? answer : compositor);
	printf("%s", rest ? rest : "no gateway runs\n");
	return offers && rest && size >= sizeof serves && strcmp(answer + size - strlen(serves), serves) == 0;
}
