/*
 * A client of a compositor, driven by lines on standard input. Each names what it makes:
 *
 *     window NAME              a toplevel with that app id, which maps itself; close NAME
 *     surface NAME             a surface without a role, for a popup
 *     field NAME               a text input; enable, disable, commit NAME, surround NAME HEX CURSOR ANCHOR,
 *                              cause NAME N, content NAME HINT PURPOSE, rect NAME X Y WIDTH HEIGHT
 *     method NAME              an input method; mstring NAME HEX, mpreedit NAME HEX BEGIN END,
 *                              mdelete NAME BEFORE AFTER, mcommit NAME SERIAL, grab NAME METHOD,
 *                              popup NAME METHOD SURFACE
 *     board NAME               a virtual keyboard; vkeymap NAME LAYOUT, vkey NAME TIME KEY STATE,
 *                              vmods NAME DEPRESSED LATCHED LOCKED GROUP
 *     drop NAME                destroys it
 *     raw NAME OPCODE HEX      a message to it as bytes, good or bad
 *     activate APPID           of a desk: the window of another client gets the focus
 *     globals                  `global INTERFACE VERSION` for each
 *     pause, resume            stops reading what the compositor sends, goes on; `hung` where it hung up meanwhile
 *     sync N                   `synced N` once all that was sent is done; where the connection ended, `ended ..` first
 *
 * Requests wait until a sync or a `flush`, which is answered by `flushed`. What comes is written as it comes:
 * `told MICROSECONDS OBJECT EVENT ..`, with texts in hex. `ended CODE INTERFACE ERROR` is written once, at the
 * connection's end.
 */
#define _GNU_SOURCE
#include "client.h"
#include "input-method-unstable-v2-client-protocol.h"
#include "text-input-unstable-v3-client-protocol.h"
#include "virtual-keyboard-unstable-v1-client-protocol.h"
#include "wlr-foreign-toplevel-management-unstable-v1-client-protocol.h"
#include "xdg-shell-client-protocol.h"
#include <errno.h>
#include <poll.h>
#include <stdarg.h>
#include <stdio.h>
#include <stdlib.h>
#include <string.h>
#include <time.h>
#include <unistd.h>

struct self self;
static bool lists_globals;

/* ---- What is written ---- */

static void told_words(const char *name, const char *form, va_list words)
{
	struct timespec now;
	clock_gettime(CLOCK_MONOTONIC, &now);
	printf("told %lld %s ", (long long)now.tv_sec * 1000000 + now.tv_nsec / 1000, name);
	vprintf(form, words);
	putchar('\n');
}

void told(const struct thing *of, const char *form, ...)
{
	va_list words;
	va_start(words, form);
	told_words(of->name, form, words);
	va_end(words);
}

void told_seat(const char *form, ...)
{
	va_list words;
	va_start(words, form);
	told_words("keyboard", form, words);
	va_end(words);
}

void complain(const char *form, ...)
{
	va_list words;
	va_start(words, form);
	printf("wrong ");
	vprintf(form, words);
	putchar('\n');
	va_end(words);
}

const char *hex(const char *text)
{
	static char *kept[2];
	static int at;
	size_t length = text ? strlen(text) : 0;
	if (length == 0)
		return "-";
	at = !at;
	free(kept[at]);
	kept[at] = malloc(2 * length + 1);
	for (size_t i = 0; i < length; i++)
		sprintf(kept[at] + 2 * i, "%02x", (unsigned char)text[i]);
	return kept[at];
}

char *text_of(const char *hex)
{
	size_t length = strcmp(hex, "-") == 0 ? 0 : strlen(hex) / 2;
	char *text = calloc(1, length + 1);
	for (size_t i = 0; i < length; i++) {
		unsigned byte = 0;
		sscanf(hex + 2 * i, "%2x", &byte);
		text[i] = (char)byte;
	}
	return text;
}

/* ---- Names ---- */

struct thing *thing_new(const char *name, enum kind kind)
{
	struct thing *thing = calloc(1, sizeof *thing);
	snprintf(thing->name, sizeof thing->name, "%s", name);
	thing->kind = kind;
	thing->next = self.things;
	self.things = thing;
	return thing;
}

struct thing *thing_named(const char *name, enum kind kind)
{
	for (struct thing *thing = self.things; thing; thing = thing->next)
		if (strcmp(thing->name, name) == 0 && (kind == ANY || thing->kind == kind))
			return thing;
	complain("no %s", name);
	return NULL;
}

const char *surface_name(struct wl_surface *surface)
{
	struct thing *thing = surface ? wl_surface_get_user_data(surface) : NULL;
	return thing ? thing->name : "-";
}

/* ---- The registry ---- */

static void global(void *data, struct wl_registry *registry, uint32_t name, const char *face, uint32_t version)
{
#define BIND(slot, interface, most) \
	if (strcmp(face, interface.name) == 0 && !self.slot) \
		self.slot = wl_registry_bind(registry, name, &interface, version < most ? version : most)
	(void)data;
	if (lists_globals)
		printf("global %s %u\n", face, version);
	BIND(compositor, wl_compositor_interface, 4u);
	BIND(memory, wl_shm_interface, 1u);
	BIND(seat, wl_seat_interface, 5u);
	BIND(shell, xdg_wm_base_interface, 1u);
	BIND(fields, zwp_text_input_manager_v3_interface, 1u);
	BIND(methods, zwp_input_method_manager_v2_interface, 1u);
	BIND(boards, zwp_virtual_keyboard_manager_v1_interface, 1u);
	BIND(tops, zwlr_foreign_toplevel_manager_v1_interface, 1u);
}

static void global_gone(void *data, struct wl_registry *registry, uint32_t name)
{
	(void)data, (void)registry, (void)name;
}

static const struct wl_registry_listener registry_events = { global, global_gone };

static void list_globals(void)
{
	static const struct wl_registry_listener list = { global, global_gone };
	struct wl_registry *registry = wl_display_get_registry(self.display);
	lists_globals = true;
	wl_registry_add_listener(registry, &list, NULL);
	wl_display_roundtrip(self.display);
	lists_globals = false;
	wl_registry_destroy(registry);
}

/* ---- The connection ---- */

/* Tells the end of the connection, once. */
static void look_whether_ended(void)
{
	const struct wl_interface *face = NULL;
	uint32_t id = 0;
	int error = wl_display_get_error(self.display);
	if (!error || self.ended)
		return;
	self.ended = true;
	if (error == EPROTO) {
		uint32_t code = wl_display_get_protocol_error(self.display, &face, &id);
		printf("ended %u %s error\n", code, face ? face->name : "-");
	} else {
		printf("ended %d - hung-up\n", error);
	}
}

/* The compositor hung up while nothing was read: what it sent before is read on. */
static void hang_up(void)
{
	self.hung = true;
	puts("hung");
}

static void on_synced(void *data, struct wl_callback *callback, uint32_t serial)
{
	(void)serial;
	wl_callback_destroy(callback);
	*(bool *)data = true;
}

static const struct wl_callback_listener synced_events = { on_synced };

static void sync_line(struct thing *of, char **words)
{
	(void)of;
	bool done = false;
	if (!self.ended) {
		struct wl_callback *callback = wl_display_sync(self.display);
		wl_callback_add_listener(callback, &synced_events, &done);
		while (!done && wl_display_dispatch(self.display) >= 0)
			;
		if (!done)
			wl_callback_destroy(callback);
	}
	look_whether_ended();
	printf("synced %s\n", words[1]);
}

/* A message as bytes, past the library; what it made before goes first. */
static void raw_line(struct thing *of, char **words)
{
	char *body = text_of(words[3]);
	uint32_t length = strcmp(words[3], "-") == 0 ? 0 : strlen(words[3]) / 2;
	uint32_t head[2] = { wl_proxy_get_id(of->proxy), (8 + length) << 16 | (uint32_t)NUMBER(2) };
	wl_display_flush(self.display);
	if (write(wl_display_get_fd(self.display), head, sizeof head) < 0 ||
			write(wl_display_get_fd(self.display), body, length) < 0)
		complain("the bytes can't be written");
	free(body);
}

static void flush_line(struct thing *of, char **words)
{
	struct pollfd file = { wl_display_get_fd(self.display), POLLOUT, 0 };
	(void)of, (void)words;
	while (wl_display_flush(self.display) < 0 && errno == EAGAIN)
		poll(&file, 1, 1000);
	puts("flushed");
}

static void pause_line(struct thing *of, char **words)
{
	(void)of, (void)words;
	self.paused = true;
}

static void resume_line(struct thing *of, char **words)
{
	(void)of, (void)words;
	self.paused = self.hung = false;
}

static void globals_line(struct thing *of, char **words)
{
	(void)of, (void)words;
	list_globals();
}

/* ---- Lines ---- */

static const struct row own_rows[] = {
	{ "sync", 2, NONE, sync_line }, { "flush", 1, NONE, flush_line }, { "pause", 1, NONE, pause_line },
	{ "resume", 1, NONE, resume_line }, { "globals", 1, NONE, globals_line }, { "raw", 4, ANY, raw_line }, { 0 },
};

static const struct row *const all_rows[] = { own_rows, window_rows, text_rows, method_rows, board_rows, desk_rows };

static const struct row *row_of(const char *name, int count)
{
	for (size_t i = 0; i < sizeof all_rows / sizeof *all_rows; i++)
		for (const struct row *row = all_rows[i]; row->name; row++)
			if (row->count == count && strcmp(row->name, name) == 0)
				return row;
	return NULL;
}

static void take_line(char *line)
{
	char *words[WORDS_MOST], *rest = NULL;
	int count = 0;
	for (char *word = strtok_r(line, " ", &rest); word && count < WORDS_MOST; word = strtok_r(NULL, " ", &rest))
		words[count++] = word;
	const struct row *row = count ? row_of(words[0], count) : NULL;
	struct thing *of = NULL;
	if (!row)
		complain("line %s", count ? words[0] : "");
	else if (self.ended && row->does != sync_line)
		return;
	else if (row->kind == NEW || row->kind == NONE || ((of = thing_named(words[1], row->kind)) && of->proxy))
		row->does(of, words);
}

/* Whether there was something to read. */
static bool take_lines(void)
{
	static char buffer[1 << 17];
	static size_t length;
	ssize_t got = read(STDIN_FILENO, buffer + length, sizeof buffer - 1 - length);
	if (got <= 0)
		return false;
	length += got;
	char *end;
	while ((end = memchr(buffer, '\n', length))) {
		*end = 0;
		take_line(buffer);
		length -= end + 1 - buffer;
		memmove(buffer, end + 1, length);
	}
	return true;
}

int main(void)
{
	static char out[1 << 16];
	setvbuf(stdout, out, _IOFBF, sizeof out);
	self.display = wl_display_connect(NULL);
	if (!self.display) {
		puts("wrong no compositor");
		return 1;
	}
	self.registry = wl_display_get_registry(self.display);
	wl_registry_add_listener(self.registry, &registry_events, NULL);
	wl_display_roundtrip(self.display);
	if (self.seat)
		keyboard_begin(self.seat);
	if (self.shell)
		xdg_wm_base_add_listener(self.shell, &shell_events, NULL);
	if (self.tops)
		desk_begin(self.tops);
	wl_display_roundtrip(self.display);
	puts("ready");
	for (bool goes = true; goes;) {
		struct pollfd files[2] = { { STDIN_FILENO, POLLIN, 0 }, { wl_display_get_fd(self.display), POLLIN, 0 } };
		fflush(stdout);
		files[1].events = self.paused ? 0 : POLLIN;
		if (poll(files, self.ended || self.hung ? 1 : 2, -1) < 0)
			return 1;
		if (files[1].revents && self.paused)
			hang_up();
		else if (files[1].revents)
			wl_display_dispatch(self.display);
		look_whether_ended();
		if (files[0].revents)
			goes = take_lines();
		look_whether_ended();
	}
	return 0;
}
