/*
 * What a batch costs in a Wayland compositor. A client with a text field and one that is the input method, of one
 * connection each to WAYLAND_DISPLAY, are both in this program.
 *
 *     embed_speed BATCHES SINGLES
 *
 * A batch is the method's commit_string and commit, until the field has the string and its done. Printed in one line:
 * how many came a second where the method doesn't wait for each (at most 1,000 are under way), the compositor's
 * processor time for one of these in microseconds, and of SINGLES that are sent one at a time how many microseconds
 * half of them and 99 of 100 take at most. Each batch is held against what was sent: where one is lost, doubled, out of
 * order or another, or anything else comes, the program says so and ends with 1.
 */
#define _GNU_SOURCE
#include "input-method-unstable-v2-client-protocol.h"
#include "text-input-unstable-v3-client-protocol.h"
#include "xdg-shell-client-protocol.h"
#include <pthread.h>
#include <semaphore.h>
#include <signal.h>
#include <stdbool.h>
#include <stdio.h>
#include <stdlib.h>
#include <string.h>
#include <sys/mman.h>
#include <sys/socket.h>
#include <time.h>
#include <unistd.h>
#include <wayland-client.h>

enum { AHEAD = 1000, TOGETHER = 100, SINGLES_MOST = 100000, SIDE = 64 };

static void give_up(const char *why)
{
	fprintf(stderr, "embed_speed: %s\n", why);
	exit(1);
}

static double seconds(clockid_t clock)
{
	struct timespec t;
	if (clock_gettime(clock, &t) != 0)
		give_up("no such clock");
	return t.tv_sec + t.tv_nsec / 1e9;
}

/* ---- A connection, and what it bound ---- */

enum global { COMPOSITOR, MEMORY, SHELL, SEAT, FIELDS, METHODS, GLOBALS };

struct client {
	struct wl_display *display;
	void *bound[GLOBALS];
};

static void add_global(void *data, struct wl_registry *registry, uint32_t name, const char *interface, uint32_t version)
{
	static const struct wl_interface *const wanted[GLOBALS] = {
		[COMPOSITOR] = &wl_compositor_interface,
		[MEMORY] = &wl_shm_interface,
		[SHELL] = &xdg_wm_base_interface,
		[SEAT] = &wl_seat_interface,
		[FIELDS] = &zwp_text_input_manager_v3_interface,
		[METHODS] = &zwp_input_method_manager_v2_interface,
	};
	struct client *client = data;
	(void)version;
	for (int at = 0; at < GLOBALS; at++)
		if (strcmp(interface, wanted[at]->name) == 0 && !client->bound[at])
			client->bound[at] = wl_registry_bind(registry, name, wanted[at], 1);
}

static void drop_global(void *data, struct wl_registry *registry, uint32_t name)
{
	(void)data, (void)registry, (void)name;
}

static void join(struct client *client)
{
	static const struct wl_registry_listener events = { add_global, drop_global };
	client->display = wl_display_connect(NULL);
	if (!client->display)
		give_up("no compositor");
	wl_registry_add_listener(wl_display_get_registry(client->display), &events, client);
	wl_display_roundtrip(client->display);
	for (int at = 0; at < GLOBALS; at++)
		if (!client->bound[at])
			give_up("the compositor lacks a global");
}

static void dispatch(struct client *client)
{
	if (wl_display_dispatch(client->display) < 0)
		give_up("the compositor ended a connection");
}

/* The compositor's process: who listens at its socket. */
static clockid_t processor_of(struct client *client)
{
	struct ucred other;
	socklen_t size = sizeof other;
	clockid_t clock;
	if (getsockopt(wl_display_get_fd(client->display), SOL_SOCKET, SO_PEERCRED, &other, &size) != 0)
		give_up("the compositor's process isn't known");
	if (clock_getcpuclockid(other.pid, &clock) != 0)
		give_up("the compositor's processor time isn't known");
	return clock;
}

/* ---- The method ---- */

static struct client typist;
static struct zwp_input_method_v2 *method;
static bool active;
static uint32_t serial; /* how many dones the method was told */

static void activate(void *data, struct zwp_input_method_v2 *of)
{
	(void)data, (void)of;
	active = true;
}

static void deactivate(void *data, struct zwp_input_method_v2 *of)
{
	(void)data, (void)of;
	give_up("the method was deactivated");
}

static void surrounding(void *data, struct zwp_input_method_v2 *of, const char *text, uint32_t cursor, uint32_t anchor)
{
	(void)data, (void)of, (void)text, (void)cursor, (void)anchor;
}

static void cause(void *data, struct zwp_input_method_v2 *of, uint32_t cause)
{
	(void)data, (void)of, (void)cause;
}

static void content(void *data, struct zwp_input_method_v2 *of, uint32_t hint, uint32_t purpose)
{
	(void)data, (void)of, (void)hint, (void)purpose;
}

static void method_done(void *data, struct zwp_input_method_v2 *of)
{
	(void)data, (void)of;
	serial++;
}

static void unavailable(void *data, struct zwp_input_method_v2 *of)
{
	(void)data, (void)of;
	give_up("there is another method");
}

static const struct zwp_input_method_v2_listener method_events = {
	activate, deactivate, surrounding, cause, content, method_done, unavailable,
};

/* The text of a batch: three digits, of its number. */
static void spell(long number, char text[4])
{
	text[0] = '0' + number / 100 % 10;
	text[1] = '0' + number / 10 % 10;
	text[2] = '0' + number % 10;
	text[3] = 0;
}

static void send_batch(long number)
{
	char text[4];
	spell(number, text);
	zwp_input_method_v2_commit_string(method, text);
	zwp_input_method_v2_commit(method, serial);
}

static void flush(void)
{
	if (wl_display_flush(typist.display) < 0)
		give_up("the method can't write");
}

/* ---- The field ---- */

static struct client program;
static bool entered, configured;
static long strings, dones; /* of all batches */
static sem_t room;          /* so many times TOGETHER batches may be sent */

static void enter(void *data, struct zwp_text_input_v3 *of, struct wl_surface *surface)
{
	(void)data, (void)of, (void)surface;
	entered = true;
}

static void leave(void *data, struct zwp_text_input_v3 *of, struct wl_surface *surface)
{
	(void)data, (void)of, (void)surface;
	give_up("the field lost the focus");
}

static void preedit(void *data, struct zwp_text_input_v3 *of, const char *text, int32_t begin, int32_t end)
{
	(void)data, (void)of, (void)text, (void)begin, (void)end;
	give_up("the field was told a preedit");
}

static void string(void *data, struct zwp_text_input_v3 *of, const char *text)
{
	char wanted[4];
	(void)data, (void)of;
	spell(strings++, wanted);
	if (!text || strcmp(text, wanted) != 0)
		give_up("the field was told another text");
}

static void delete(void *data, struct zwp_text_input_v3 *of, uint32_t before, uint32_t after)
{
	(void)data, (void)of, (void)before, (void)after;
	give_up("the field was told a deletion");
}

static void field_done(void *data, struct zwp_text_input_v3 *of, uint32_t commits)
{
	(void)data, (void)of;
	if (++dones != strings || commits != 1)
		give_up("a done isn't that of its batch");
	if (dones % TOGETHER == 0)
		sem_post(&room);
}

static const struct zwp_text_input_v3_listener field_events = { enter, leave, preedit, string, delete, field_done };

static void ping(void *data, struct xdg_wm_base *of, uint32_t serial)
{
	(void)data;
	xdg_wm_base_pong(of, serial);
}

static void configure(void *data, struct xdg_surface *of, uint32_t serial)
{
	(void)data;
	xdg_surface_ack_configure(of, serial);
	configured = true;
}

static const struct xdg_wm_base_listener shell_events = { ping };
static const struct xdg_surface_listener surface_events = { configure };

static struct wl_buffer *make_buffer(void)
{
	int32_t size = SIDE * SIDE * 4;
	int file = memfd_create("buffer", MFD_CLOEXEC);
	if (file < 0 || ftruncate(file, size) != 0)
		give_up("no buffer");
	struct wl_shm_pool *pool = wl_shm_create_pool(program.bound[MEMORY], file, size);
	close(file);
	return wl_shm_pool_create_buffer(pool, 0, SIDE, SIDE, SIDE * 4, WL_SHM_FORMAT_XRGB8888);
}

/* A window, which both compositors focus when it is mapped. */
static void open_window(void)
{
	struct wl_surface *surface = wl_compositor_create_surface(program.bound[COMPOSITOR]);
	struct xdg_surface *shown = xdg_wm_base_get_xdg_surface(program.bound[SHELL], surface);
	xdg_wm_base_add_listener(program.bound[SHELL], &shell_events, NULL);
	xdg_surface_add_listener(shown, &surface_events, NULL);
	xdg_toplevel_set_app_id(xdg_surface_get_toplevel(shown), "embed_speed");
	wl_surface_commit(surface);
	while (!configured)
		dispatch(&program);
	wl_surface_attach(surface, make_buffer(), 0, 0);
	wl_surface_damage(surface, 0, 0, SIDE, SIDE);
	wl_surface_commit(surface);
}

/* The method serves the field of the focused window. */
static void set_up(void)
{
	join(&typist);
	method = zwp_input_method_manager_v2_get_input_method(typist.bound[METHODS], typist.bound[SEAT]);
	zwp_input_method_v2_add_listener(method, &method_events, NULL);
	wl_display_roundtrip(typist.display);
	join(&program);
	struct zwp_text_input_v3 *field =
		zwp_text_input_manager_v3_get_text_input(program.bound[FIELDS], program.bound[SEAT]);
	zwp_text_input_v3_add_listener(field, &field_events, NULL);
	open_window();
	while (!entered)
		dispatch(&program);
	zwp_text_input_v3_enable(field);
	zwp_text_input_v3_commit(field);
	wl_display_roundtrip(program.display);
	while (!active || serial == 0)
		dispatch(&typist);
}

static void out_of_time(int of)
{
	(void)of;
	dprintf(STDERR_FILENO, "embed_speed: out of time: entered %d, active %d, %ld dones\n", entered, active, dones);
	_exit(1);
}

/* ---- What is measured ---- */

static void *send_batches(void *count)
{
	for (long sent = 0; sent < *(long *)count;) {
		sem_wait(&room);
		for (int at = 0; at < TOGETHER; at++)
			send_batch(sent++);
		flush();
	}
	return NULL;
}

/* The first batches of all: how many a second, and the compositor's processor time for each. */
static void pipelined(long count)
{
	pthread_t thread;
	clockid_t processor = processor_of(&program);
	sem_init(&room, 0, AHEAD / TOGETHER);
	double begun = seconds(CLOCK_MONOTONIC), spent = seconds(processor);
	if (pthread_create(&thread, NULL, send_batches, &count) != 0)
		give_up("no thread");
	while (dones < count)
		dispatch(&program);
	double took = seconds(CLOCK_MONOTONIC) - begun;
	spent = seconds(processor) - spent;
	pthread_join(thread, NULL);
	printf("%.0f %.3f ", count / took, spent / count * 1e6);
}

static int by_size(const void *a, const void *b)
{
	double d = *(const double *)a - *(const double *)b;
	return (d > 0) - (d < 0);
}

static void one_by_one(int count)
{
	static double times[SINGLES_MOST];
	for (int at = 0; at < count; at++) {
		double begun = seconds(CLOCK_MONOTONIC);
		long number = dones;
		send_batch(number);
		flush();
		while (dones == number)
			dispatch(&program);
		times[at] = (seconds(CLOCK_MONOTONIC) - begun) * 1e6;
	}
	qsort(times, count, sizeof *times, by_size);
	printf("%.1f %.1f\n", times[count / 2], times[count / 100 * 99]);
}

/* Nothing more comes than what was sent. */
static void settle(long count)
{
	wl_display_roundtrip(typist.display);
	wl_display_roundtrip(program.display);
	if (dones != count || strings != count)
		give_up("more came than was sent");
}

int main(int count, char **words)
{
	if (count != 3)
		give_up("embed_speed BATCHES SINGLES");
	long batches = atol(words[1]) / TOGETHER * TOGETHER;
	int singles = atoi(words[2]);
	if (batches < TOGETHER || singles < 0 || singles > SINGLES_MOST)
		give_up("at least 100 batches, and at most 100,000 one at a time");
	signal(SIGALRM, out_of_time);
	alarm(60);
	set_up();
	pipelined(batches);
	one_by_one(singles);
	settle(batches + singles);
	wl_display_disconnect(program.display);
	wl_display_disconnect(typist.display);
	return 0;
}
