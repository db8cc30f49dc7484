/*
 * The glue without a compositor: libwayland's clients over socket pairs against examples/embed/wlim_glue.c, in one
 * process. Holds what each is told, line by line, also where a client is one too many; then again with each allocation
 * of the glue and of libwlim failing in turn, where nothing may reach another field. Built by tests/embed_glue.sh with
 * -Wl,--wrap=malloc and its kin, and of fstatfs, by which the glue asks what file a keymap is.
 */
#define _GNU_SOURCE
#include "embed_clients.h"
#include "wlim_glue.h"
#include <poll.h>
#include <stdio.h>
#include <linux/magic.h>
#include <stdlib.h>
#include <string.h>
#include <sys/mman.h>
#include <sys/socket.h>
#include <sys/vfs.h>
#include <unistd.h>
#include <wayland-server.h>

static long fails_at = -1; /* which allocation of the glue and of libwlim fails, from 0; below 0 none */
static bool all_fail; /* and all after it */
static bool failing; /* an allocation fails in this run */
static int failed;

void *__real_malloc(size_t size);
void *__real_calloc(size_t count, size_t size);
void *__real_realloc(void *at, size_t size);
void *__wrap_malloc(size_t size);
void *__wrap_calloc(size_t count, size_t size);
void *__wrap_realloc(void *at, size_t size);

static bool refuses(void)
{
	bool now = fails_at == 0;
	if (fails_at > 0)
		fails_at--;
	else if (!all_fail)
		fails_at = -1;
	return now;
}

void *__wrap_malloc(size_t size) { return refuses() ? NULL : __real_malloc(size); }
void *__wrap_calloc(size_t count, size_t size) { return refuses() ? NULL : __real_calloc(count, size); }
void *__wrap_realloc(void *at, size_t size) { return refuses() ? NULL : __real_realloc(at, size); }

static bool on_fuse; /* each file is one of FUSE */

int __real_fstatfs(int file, struct statfs *on);
int __wrap_fstatfs(int file, struct statfs *on);

int __wrap_fstatfs(int file, struct statfs *on)
{
	int answer = __real_fstatfs(file, on);
	if (on_fuse)
		on->f_type = FUSE_SUPER_MAGIC;
	return answer;
}

/* ---- The compositor: surfaces, a seat without keyboards, and the glue ---- */

static struct wl_display *display;
static struct wlim_glue *glue;
static struct wl_resource *last_surface;
static struct wl_client *killed_with_it; /* by the next surface that goes, */
static struct wl_resource *focused_then; /* and this has the focus then */

static void surface_gone(struct wl_resource *surface)
{
	struct wl_client *victim = killed_with_it;
	if (last_surface == surface)
		last_surface = NULL;
	killed_with_it = NULL;
	if (!victim)
		return;
	wl_client_destroy(victim);
	wlim_glue_focus(glue, focused_then);
}

static void surface_destroy(struct wl_client *client, struct wl_resource *surface)
{
	(void)client;
	wl_resource_destroy(surface);
}

static const struct wl_surface_interface surface_requests = { .destroy = surface_destroy };

static void create_surface(struct wl_client *client, struct wl_resource *from, uint32_t id)
{
	(void)from;
	last_surface = wl_resource_create(client, &wl_surface_interface, 1, id);
	wl_resource_set_implementation(last_surface, &surface_requests, NULL, surface_gone);
}

static const struct wl_compositor_interface compositor_requests = { .create_surface = create_surface };

static void bind_compositor(struct wl_client *client, void *data, uint32_t version, uint32_t id)
{
	(void)data, (void)version;
	wl_resource_set_implementation(wl_resource_create(client, &wl_compositor_interface, 1, id),
		&compositor_requests, NULL, NULL);
}

static void bind_seat(struct wl_client *client, void *data, uint32_t version, uint32_t id)
{
	(void)version;
	wl_resource_set_implementation(wl_resource_create(client, &wl_seat_interface, 1, id), NULL, data, NULL);
}

static void key(void *data, const struct wlim_glue_keyboard *from, uint32_t time, uint32_t key, uint32_t state)
{
	(void)data, (void)time;
	say("pass %u %u by %u\n", key, state, from->keymap ? from->keymap->number : 0);
}

static void modifiers(void *data, const struct wlim_glue_keyboard *from)
{
	(void)data;
	say("mods %u %u %u %u by %u\n", from->depressed, from->latched, from->locked, from->group,
		from->keymap ? from->keymap->number : 0);
}

static bool popup(void *data, struct wl_resource *surface)
{
	(void)data, (void)surface;
	return true;
}

static void placed(void *data, struct wl_resource *surface, int32_t x, int32_t y)
{
	(void)data, (void)surface;
	say("placed %d %d\n", x, y);
}

static void hidden(void *data, struct wl_resource *surface)
{
	(void)data, (void)surface;
	say("hidden\n");
}

static bool strange; /* who joins now is trusted with nothing */

static bool trusted(void *data, struct wl_client *client)
{
	(void)data, (void)client;
	return !strange;
}

static bool is_ours(void *data, struct wl_resource *seat)
{
	(void)data;
	return wl_resource_get_user_data(seat) == NULL;
}

static const struct wlim_glue_hooks hooks = { key, modifiers, popup, placed, hidden, trusted, is_ours };

/* ---- Clients of it ---- */

static void on_gone(struct wl_listener *listener, void *data)
{
	struct client *client = wl_container_of(listener, client, gone);
	(void)data;
	client->server = NULL;
	client->at = NULL;
}

static void dispatch(struct client *client)
{
	struct pollfd ready = { .fd = wl_display_get_fd(client->display), .events = POLLIN };
	bool was = client->dead;
	wl_display_dispatch_pending(client->display);
	client->dead = client->dead || wl_display_flush(client->display) < 0;
	while (!client->dead && poll(&ready, 1, 0) > 0)
		client->dead = wl_display_dispatch(client->display) < 0;
	if (client->dead && !was)
		say("%s is ended\n", client->name);
}

#define CLIENTS 24
static struct client clients[CLIENTS];
enum { A, B, M, N, OTHERS }; /* two applications and two methods */

/* Everything that was sent is read, and answered. */
static void turn(void)
{
	for (int round = 0; round < 4; round++) {
		for (int i = 0; i < CLIENTS; i++)
			if (clients[i].display)
				dispatch(&clients[i]);
		wl_event_loop_dispatch(wl_display_get_event_loop(display), 0);
		wl_display_flush_clients(display);
	}
}

static void holds(const char *what, const char *wanted)
{
	turn();
	if (!failing && strcmp(told, wanted) != 0 && ++failed)
		printf("%s: told\n%swanted\n%s", what, told, wanted);
	if ((strstr(told, "a string for b") || strstr(told, "b string for a")) && ++failed)
		printf("%s: told to another field\n%s", what, told);
	told[0] = 0;
}

static void join(int i, const char *name)
{
	struct client *client = &clients[i];
	int ends[2];
	*client = (struct client){ .name = name };
	if (socketpair(AF_UNIX, SOCK_STREAM | SOCK_CLOEXEC, 0, ends) != 0)
		abort();
	client->server = wl_client_create(display, ends[0]);
	client->gone.notify = on_gone;
	wl_client_add_destroy_listener(client->server, &client->gone);
	client->display = wl_display_connect_to_fd(ends[1]);
	client->registry = wl_display_get_registry(client->display);
	wl_registry_add_listener(client->registry, &registry_events, client);
	turn();
	client->surface = wl_compositor_create_surface(client->compositor);
	last_surface = NULL;
	turn();
	client->at = last_surface;
}

/* A client is killed: its socket closes, and no request is sent. */
static void kill_client(int i)
{
	struct client *client = &clients[i];
	struct wl_proxy *of[] = {
		(void *)client->registry, (void *)client->compositor, (void *)client->seat, (void *)client->other_seat,
		(void *)client->fields,
		(void *)client->methods, (void *)client->boards, (void *)client->surface, (void *)client->field,
		(void *)client->method, (void *)client->grab, (void *)client->popup, (void *)client->board,
	};
	if (!client->display)
		return;
	for (size_t at = 0; at < sizeof of / sizeof of[0]; at++)
		if (of[at])
			wl_proxy_destroy(of[at]);
	while (client->earlier_count)
		wl_proxy_destroy(client->earlier[--client->earlier_count]);
	wl_display_disconnect(client->display);
	client->display = NULL;
	turn();
}

/* A client makes another of these, and has that one still. */
static void keep(struct client *client, void *earlier)
{
	if (earlier)
		client->earlier[client->earlier_count++] = earlier;
}

static void make_field(int i)
{
	struct client *client = &clients[i];
	keep(client, client->field);
	client->field = zwp_text_input_manager_v3_get_text_input(client->fields, client->seat);
	zwp_text_input_v3_add_listener(client->field, &field_events, client);
}

static void make_method(int i)
{
	struct client *client = &clients[i];
	keep(client, client->method);
	client->method = zwp_input_method_manager_v2_get_input_method(client->methods, client->seat);
	zwp_input_method_v2_add_listener(client->method, &method_events, client);
}

static void make_board(int i)
{
	keep(&clients[i], clients[i].board);
	clients[i].board = zwp_virtual_keyboard_manager_v1_create_virtual_keyboard(clients[i].boards, clients[i].seat);
}

static int file_of(const char *text)
{
	int file = memfd_create("keymap", MFD_CLOEXEC);
	if (write(file, text, strlen(text)) < 0)
		abort();
	return file;
}

static void board_keymap(int i, const char *text)
{
	int file = file_of(text);
	zwp_virtual_keyboard_v1_keymap(clients[i].board, 1, file, strlen(text));
	close(file);
}

static void enable(int i)
{
	zwp_text_input_v3_enable(clients[i].field);
	zwp_text_input_v3_set_content_type(clients[i].field, 1, 2);
	zwp_text_input_v3_commit(clients[i].field);
}

static void commits(int i, const char *text, uint32_t serial)
{
	zwp_input_method_v2_commit_string(clients[i].method, text);
	zwp_input_method_v2_commit(clients[i].method, serial);
}

/* ---- What happens ---- */

static void typing(void)
{
	make_field(A);
	make_field(B);
	make_method(M);
	holds("objects", "");
	wlim_glue_focus(glue, clients[A].at);
	holds("the focus", "a enter\n");
	enable(A);
	holds("enable", "m activate\nm content 1 2\nm done\n");
	zwp_input_method_v2_set_preedit_string(clients[M].method, "ni", 2, 2);
	zwp_input_method_v2_commit(clients[M].method, 1);
	holds("a preedit", "a preedit ni 2 2\na done 1\n");
	zwp_input_method_v2_delete_surrounding_text(clients[M].method, 1, 0);
	commits(M, "nǐ", 1);
	holds("a string", "a delete 1 0\na string nǐ\na done 1\n");
	zwp_text_input_v3_set_surrounding_text(clients[A].field, "nǐ", 3, 3);
	zwp_text_input_v3_set_text_change_cause(clients[A].field, 0);
	zwp_text_input_v3_commit(clients[A].field);
	holds("an update", "m surrounding nǐ 3 3\nm cause 0\nm content 1 2\nm done\n");
	commits(M, "no", 3);
	holds("a serial of no done", "");
}

static void moving(void)
{
	commits(M, "for a", 2);
	wl_display_flush(clients[M].display); /* it is sent, and not read before the focus moves */
	wlim_glue_focus(glue, clients[B].at);
	holds("the focus moves", "a leave\nb enter\nm deactivate\nm done\n");
	enable(B);
	commits(M, "for a", 2);
	holds("the other field", "m activate\nm content 1 2\nm done\n");
	commits(M, "for b", 4);
	holds("the method types on", "b string for b\nb done 1\n");
	make_method(N);
	holds("a second method", "n unavailable\n");
}

static void keys(void)
{
	int file = file_of("keymap of the seat");
	wlim_glue_keymap(glue, 1, file, 18);
	close(file);
	wlim_glue_repeat(glue, 25, 600);
	wlim_glue_modifiers(glue, 1, 0, 0, 0);
	wlim_glue_key(glue, 1, 30, 1);
	wlim_glue_key(glue, 2, 30, 0);
	holds("keys that pass", "mods 1 0 0 0 by 1\npass 30 1 by 1\npass 30 0 by 1\n");
	clients[M].grab = zwp_input_method_v2_grab_keyboard(clients[M].method);
	zwp_input_method_keyboard_grab_v2_add_listener(clients[M].grab, &grab_events, &clients[M]);
	holds("a grab", "m keymap 1 keymap of the seat\nm repeat 25 600\nm mods 1 0 0 0\n");
	wlim_glue_key(glue, 3, 28, 1);
	wlim_glue_modifiers(glue, 4, 0, 0, 0);
	holds("keys are grabbed", "m key 28 1\nm mods 4 0 0 0\n");
	make_board(M);
	board_keymap(M, "keymap of the seat");
	commits(M, "x", 4);
	zwp_virtual_keyboard_v1_key(clients[M].board, 4, 28, 1);
	zwp_virtual_keyboard_v1_modifiers(clients[M].board, 4, 0, 0, 0);
	holds("a key is given back", "mods 0 0 0 0 by 1\npass 28 1 by 1\nmods 4 0 0 0 by 1\nb string x\nb done 1\n");
	make_board(N);
	board_keymap(N, "another keymap");
	zwp_virtual_keyboard_v1_key(clients[N].board, 4, 44, 1);
	holds("another client's keys are grabbed", "m key 44 1\n");
	zwp_input_method_keyboard_grab_v2_release(clients[M].grab);
	clients[M].grab = NULL;
	holds("the grab ends", "mods 4 0 0 0 by 1\n");
	zwp_virtual_keyboard_v1_key(clients[N].board, 5, 45, 1);
	holds("another client's keys pass", "mods 0 0 0 0 by 2\npass 45 1 by 2\n");
}

static void popups(void)
{
	wlim_glue_screen(glue, 0, 0, 800, 600);
	if (clients[B].at)
		wlim_glue_area(glue, clients[B].at, 100, 100, 300, 200);
	if (clients[M].at)
		wlim_glue_popup_size(glue, clients[M].at, 50, 20);
	zwp_text_input_v3_set_cursor_rectangle(clients[B].field, 10, 20, 1, 15);
	zwp_text_input_v3_commit(clients[B].field);
	clients[M].popup = zwp_input_method_v2_get_input_popup_surface(clients[M].method, clients[M].surface);
	zwp_input_popup_surface_v2_add_listener(clients[M].popup, &popup_events, &clients[M]);
	holds("a popup", "placed 110 135\nm content 1 2\nm done\nm rectangle 0 -15 1 15\n");
}

/* A new seat in the place of the first: all goes on with the serials that clients count. */
static void renewed(void)
{
	clients[M].grab = zwp_input_method_v2_grab_keyboard(clients[M].method);
	zwp_input_method_keyboard_grab_v2_add_listener(clients[M].grab, &grab_events, &clients[M]);
	holds("a grab", "m keymap 1 keymap of the seat\nm repeat 25 600\nm mods 4 0 0 0\n");
	wlim_glue_renew(glue);
	holds("a new seat", "hidden\nb leave\nb enter\nm deactivate\nm done\n"
		"m keymap 1 keymap of the seat\nm repeat 25 600\nm mods 4 0 0 0\n");
	commits(M, "too late", 6);
	enable(B);
	holds("the field is enabled", "m activate\nm content 1 2\nm done\n");
	commits(M, "in time", 7);
	holds("the method types", "b string in time\nb done 3\n");
	wlim_glue_renew(glue);
	enable(B);
	commits(M, "again", 9);
	holds("a third seat", "b leave\nb enter\nb string again\nb done 4\nm deactivate\nm done\n"
		"m keymap 1 keymap of the seat\nm repeat 25 600\nm mods 4 0 0 0\nm activate\nm content 1 2\nm done\n");
	zwp_input_method_keyboard_grab_v2_release(clients[M].grab);
	clients[M].grab = NULL;
	holds("the grab ends", "mods 4 0 0 0 by 1\n");
}

/* Clients that end, in order of who depends on them. */
static void ends(void)
{
	zwp_input_method_v2_set_preedit_string(clients[M].method, "left over", 0, 0);
	zwp_input_method_v2_commit(clients[M].method, 9);
	holds("a preedit that stays", "b preedit left over 0 0\nb done 4\n");
	kill_client(M);
	holds("the method is killed", "pass 28 0 by 1\nb leave\nb enter\n");
	join(M, "m");
	make_method(M);
	enable(B);
	holds("another serves", "m activate\nm content 1 2\nm done\n");
	kill_client(B);
	holds("the application is killed", "m deactivate\nm done\n");
	zwp_virtual_keyboard_v1_destroy(clients[N].board);
	clients[N].board = NULL;
	make_board(N);
	/* The press of 44 went to a grab of an earlier seat, and that of 45 passed in it: both releases pass. */
	holds("a board ends", "mods 0 0 0 0 by 2\npass 45 0 by 2\npass 44 0 by 2\n");
	zwp_virtual_keyboard_v1_key(clients[N].board, 6, 30, 1);
	holds("a key without keymap", "n is ended\n");
	wlim_glue_focus(glue, clients[A].at);
	enable(A);
	commits(M, "still", 2);
	holds("all goes on", "a enter\nm activate\nm content 1 2\nm done\n");
	commits(M, "still", 3);
	holds("all goes on", "a string still\na done 3\n");
	zwp_text_input_v3_set_surrounding_text(clients[A].field, "\xff", 0, 0);
	holds("a text that is no UTF-8", "a is ended\nm deactivate\nm done\n");
}

static void all_scenes(void)
{
	typing();
	moving();
	keys();
	popups();
	renewed();
	ends();
}

/* What a client makes from now on is for its other seat. */
static void change_seat(int i)
{
	struct wl_seat *seat = clients[i].seat;
	clients[i].seat = clients[i].other_seat;
	clients[i].other_seat = seat;
}

/* A text input, a method and a virtual keyboard for a seat that isn't the glue's. */
static void other_seats(void)
{
	make_field(A);
	change_seat(A);
	make_field(A);
	wlim_glue_focus(glue, clients[A].at);
	holds("two fields, one of our seat", "a enter\n");
	change_seat(M);
	make_method(M);
	make_board(M);
	holds("a method of another seat", "m unavailable\n");
	board_keymap(M, "a keymap");
	zwp_virtual_keyboard_v1_key(clients[M].board, 1, 30, 1);
	zwp_virtual_keyboard_v1_modifiers(clients[M].board, 1, 0, 0, 0);
	wlim_glue_renew(glue);
	holds("after a renewal too", "a leave\na enter\n");
}

/* Who isn't trusted has a text input, and neither a method nor a virtual keyboard. */
static void strangers(void)
{
	kill_client(N);
	strange = true;
	join(N, "n");
	strange = false;
	make_field(N);
	make_method(N);
	wlim_glue_focus(glue, clients[N].at);
	holds("a stranger", "n enter\nn unavailable\n");
	clients[N].popup = zwp_input_method_v2_get_input_popup_surface(clients[N].method, clients[N].surface);
	clients[N].grab = zwp_input_method_v2_grab_keyboard(clients[N].method);
	commits(N, "for nobody", 1);
	wlim_glue_key(glue, 1, 30, 1);
	holds("its grab gets no key", "pass 30 1 by 0\n");
	make_method(M);
	holds("a trusted one serves", "");
	enable(N);
	holds("a trusted one is activated", "m activate\nm content 1 2\nm done\n");
	make_board(N);
	holds("a virtual keyboard", "m deactivate\nm done\nn is ended\n");
}

/* What is told twice tells nobody anything; a release that wasn't seen is found. */
static void twice(void)
{
	const uint32_t down[] = { 31 };
	int file = file_of("keymap of the seat");
	make_field(A);
	make_method(M);
	clients[M].grab = zwp_input_method_v2_grab_keyboard(clients[M].method);
	zwp_input_method_keyboard_grab_v2_add_listener(clients[M].grab, &grab_events, &clients[M]);
	clients[M].popup = zwp_input_method_v2_get_input_popup_surface(clients[M].method, clients[M].surface);
	zwp_input_popup_surface_v2_add_listener(clients[M].popup, &popup_events, &clients[M]);
	turn();
	for (int round = 0; round < 2; round++) {
		wlim_glue_keymap(glue, 1, file, 18);
		wlim_glue_repeat(glue, 25, 600);
		wlim_glue_modifiers(glue, 0, 0, 0, 0);
		wlim_glue_screen(glue, 0, 0, 800, 600);
		wlim_glue_focus(glue, clients[A].at);
		wlim_glue_area(glue, clients[A].at, 10, 10, 300, 200);
		wlim_glue_popup_size(glue, clients[M].at, 50, 20);
		if (round == 0) {
			zwp_text_input_v3_set_cursor_rectangle(clients[A].field, 1, 2, 3, 4);
			enable(A);
			zwp_text_input_v3_set_cursor_rectangle(clients[A].field, 1, 2, 3, 4);
			zwp_text_input_v3_commit(clients[A].field);
			turn();
			told[0] = 0;
		}
		holds(round ? "told twice" : "told first", "");
	}
	close(file);
	wlim_glue_key(glue, 1, 30, 1);
	wlim_glue_key(glue, 2, 30, 1);
	wlim_glue_key(glue, 3, 31, 1);
	wlim_glue_keys(glue, 4, down, 1);
	wlim_glue_keys(glue, 5, down, 1);
	holds("missed releases", "m key 30 1\nm key 30 0\nm key 30 1\nm key 31 1\nm key 30 0\n");
	wlim_glue_area(glue, clients[A].at, 11, 10, 300, 200);
	holds("it moves", "placed 12 16\nm rectangle 0 -4 3 4\n");
}

/* Keys have their own keyboard's modifiers: Shift of the board, not of the seat's. */
static void keyboards(void)
{
	int file = file_of("keymap of the seat");
	wlim_glue_keymap(glue, 1, file, 18);
	close(file);
	make_board(M);
	board_keymap(M, "keymap of the seat");
	wlim_glue_focus(glue, clients[A].at);
	zwp_virtual_keyboard_v1_modifiers(clients[M].board, 1, 0, 0, 0);
	zwp_virtual_keyboard_v1_key(clients[M].board, 1, 30, 1);
	holds("the board's a", "mods 1 0 0 0 by 1\npass 30 1 by 1\n");
	wlim_glue_key(glue, 2, 48, 1);
	holds("the seat's b", "mods 0 0 0 0 by 1\npass 48 1 by 1\n");
	zwp_virtual_keyboard_v1_key(clients[M].board, 3, 46, 1);
	holds("the board's c", "mods 1 0 0 0 by 1\npass 46 1 by 1\n");
	wlim_glue_focus(glue, clients[B].at);
	wlim_glue_key(glue, 4, 48, 0);
	zwp_virtual_keyboard_v1_key(clients[M].board, 5, 46, 0);
	holds("another window", "pass 48 0 by 1\nmods 1 0 0 0 by 1\npass 46 0 by 1\n");
	zwp_virtual_keyboard_v1_destroy(clients[M].board);
	clients[M].board = NULL;
	holds("the board ends", "pass 30 0 by 1\n");
	wlim_glue_key(glue, 6, 48, 1);
	holds("the seat's b", "mods 0 0 0 0 by 1\npass 48 1 by 1\n");
}

/* Equal keymaps are one; there is an end to how many there are; one on FUSE isn't read. */
static void keymaps(void)
{
	char text[16];
	wlim_glue_focus(glue, clients[A].at);
	make_board(M);
	make_board(N);
	board_keymap(M, "the same");
	board_keymap(N, "the same");
	zwp_virtual_keyboard_v1_key(clients[M].board, 1, 30, 1);
	holds("a keymap", "mods 0 0 0 0 by 1\npass 30 1 by 1\n");
	zwp_virtual_keyboard_v1_key(clients[N].board, 1, 31, 1);
	holds("an equal one", "pass 31 1 by 1\n");
	for (int i = 0; i < 70; i++) {
		make_board(M);
		board_keymap(M, i < 7 ? "the same" : "another keymap");
	}
	holds("any number of equal ones", "");
	for (int i = 0; i < 62; i++) {
		snprintf(text, sizeof text, "number %d", i);
		board_keymap(M, text);
		make_board(B);
		board_keymap(B, text);
	}
	holds("64 keymaps", "");
	kill_client(M);
	kill_client(B);
	join(M, "m");
	holds("their keyboards end", "pass 30 0 by 1\n");
	make_board(M);
	board_keymap(M, "another");
	holds("they were let go", "");
	on_fuse = true;
	board_keymap(M, "one more");
	turn();
	on_fuse = false;
	holds("a file that may block", "m is ended\n");
	for (int i = 0; i < 65; i++) {
		make_board(N);
		snprintf(text, sizeof text, "number %d", i);
		board_keymap(N, text);
	}
	holds("65 keymaps", "pass 31 0 by 1\nn is ended\n");
}

/* A client counts from its first text input, also where it has the focus before; its area is told then. */
static void late(void)
{
	struct wlim_shown shown;
	wlim_glue_screen(glue, 0, 0, 800, 600);
	wlim_glue_focus(glue, clients[A].at);
	wlim_glue_area(glue, clients[A].at, 100, 100, 300, 200);
	if (wlim_glue_look(glue, &shown) && shown.acts > 2 && ++failed)
		printf("a client without a text input counts\n");
	make_method(M);
	make_field(A);
	holds("the focused client makes a text input", "a enter\n");
	enable(A);
	zwp_text_input_v3_set_cursor_rectangle(clients[A].field, 10, 20, 1, 15);
	zwp_text_input_v3_commit(clients[A].field);
	clients[M].popup = zwp_input_method_v2_get_input_popup_surface(clients[M].method, clients[M].surface);
	zwp_input_popup_surface_v2_add_listener(clients[M].popup, &popup_events, &clients[M]);
	holds("its area was told", "placed 110 135\nm activate\nm content 1 2\nm done\nm content 1 2\nm done\n"
		"m rectangle 0 -15 1 15\n");
}

static void a_popup(void)
{
	enable(A);
	zwp_text_input_v3_set_cursor_rectangle(clients[A].field, 10, 20, 1, 15);
	zwp_text_input_v3_commit(clients[A].field);
	if (!clients[M].popup)
		clients[M].popup = zwp_input_method_v2_get_input_popup_surface(clients[M].method, clients[M].surface);
	turn();
	if (!strstr(told, "placed 110 135\n") && ++failed)
		printf("a popup isn't placed: told\n%s", told);
	told[0] = 0;
}

/* A popup is hidden where its field, its cursor, its method or it itself ends. */
static void popups_end(void)
{
	make_field(A);
	make_method(M);
	wlim_glue_screen(glue, 0, 0, 800, 600);
	wlim_glue_area(glue, clients[A].at, 100, 100, 300, 200);
	wlim_glue_focus(glue, clients[A].at);
	turn();
	told[0] = 0;
	a_popup();
	wlim_glue_focus(glue, NULL);
	holds("the focus goes", "hidden\na leave\nm deactivate\nm done\n");
	wlim_glue_focus(glue, clients[A].at);
	a_popup();
	zwp_text_input_v3_enable(clients[A].field);
	zwp_text_input_v3_commit(clients[A].field);
	turn();
	if (!strstr(told, "hidden\n") && ++failed)
		printf("no cursor: told\n%s", told);
	told[0] = 0;
	a_popup();
	zwp_text_input_v3_disable(clients[A].field);
	zwp_text_input_v3_commit(clients[A].field);
	turn();
	if (!strstr(told, "hidden\n") && ++failed)
		printf("disabled: told\n%s", told);
	told[0] = 0;
	a_popup();
	zwp_input_popup_surface_v2_destroy(clients[M].popup);
	clients[M].popup = NULL;
	holds("it ends", "hidden\n");
	a_popup();
	kill_client(M);
	holds("its method is killed", "hidden\na leave\na enter\n");
	told[0] = 0;
	join(M, "m");
	make_method(M);
	a_popup();
	wl_surface_destroy(clients[M].surface);
	clients[M].surface = NULL;
	holds("its surface goes, which the compositor sees", "");
}

/* A surface has one popup at a time. */
static void second_popup(void)
{
	make_method(M);
	clients[M].popup = zwp_input_method_v2_get_input_popup_surface(clients[M].method, clients[M].surface);
	zwp_input_popup_surface_v2_destroy(clients[M].popup);
	clients[M].popup = zwp_input_method_v2_get_input_popup_surface(clients[M].method, clients[M].surface);
	holds("one after another", "");
	keep(&clients[M], zwp_input_method_v2_get_input_popup_surface(clients[M].method, clients[M].surface));
	holds("a second one", "m is ended\n");
}

/* The output of the focus has its corner elsewhere: all is in the compositor's coordinates. */
static void outputs(void)
{
	make_field(A);
	make_method(M);
	wlim_glue_screen(glue, 800, 100, 400, 300);
	wlim_glue_focus(glue, clients[A].at);
	wlim_glue_area(glue, clients[A].at, 1000, 150, 100, 100);
	clients[M].popup = zwp_input_method_v2_get_input_popup_surface(clients[M].method, clients[M].surface);
	turn();
	wlim_glue_popup_size(glue, clients[M].at, 250, 20);
	enable(A);
	turn();
	told[0] = 0;
	zwp_text_input_v3_set_cursor_rectangle(clients[A].field, 10, 20, 1, 15);
	zwp_text_input_v3_commit(clients[A].field);
	holds("inside of the second output", "placed 950 185\nm content 1 2\nm done\n");
	wlim_glue_screen(glue, 700, 100, 400, 300);
	turn();
	if (!strstr(told, "placed 850 185\n") && ++failed)
		printf("the output moved: told\n%s", told);
}

/* Of the 64 places a process has 16, which doesn't keep a method out. */
static void many(void)
{
	static const char *const name = "x";
	struct wlim_shown shown;
	make_field(A);
	for (int i = OTHERS; i < OTHERS + 16; i++) {
		join(i, name);
		make_field(i);
	}
	turn();
	for (int i = OTHERS; i < OTHERS + 16; i++) {
		wlim_glue_focus(glue, clients[i].at);
		wlim_glue_look(glue, &shown);
		if ((shown.focus != 0) != (i < OTHERS + 15) && ++failed)
			printf("client %d: the focus is %u\n", i, shown.focus);
	}
	turn();
	told[0] = 0;
	make_method(M);
	wlim_glue_focus(glue, clients[A].at);
	enable(A);
	holds("a method has a place", "a enter\nm activate\nm content 1 2\nm done\n");
	kill_client(OTHERS);
	kill_client(OTHERS + 1);
	make_field(OTHERS + 15);
	wlim_glue_focus(glue, clients[OTHERS + 15].at);
	holds("a place became free", "a leave\nm deactivate\nm done\nx enter\n");
}

/* A client's end destroys another client, and then another surface of the first has the focus. */
static void ends_with_another(void)
{
	make_field(A);
	make_field(B);
	make_method(M);
	struct wl_surface *second = wl_compositor_create_surface(clients[A].compositor);
	turn();
	focused_then = last_surface;
	wlim_glue_focus(glue, clients[A].at);
	holds("the focus", "a enter\n");
	killed_with_it = clients[B].server;
	keep(&clients[A], second);
	kill_client(A);
	turn();
	told[0] = 0;
	join(A, "a");
	make_field(A);
	wlim_glue_focus(glue, clients[A].at);
	enable(A);
	holds("all goes on", "a enter\nm activate\nm content 1 2\nm done\n");
}

/* The glue is destroyed, and its clients live on. */
static void destroyed(void)
{
	make_field(A);
	wlim_glue_focus(glue, clients[A].at);
	make_method(M);
	make_board(M);
	board_keymap(M, "a keymap");
	zwp_virtual_keyboard_v1_key(clients[M].board, 1, 30, 1);
	clients[M].grab = zwp_input_method_v2_grab_keyboard(clients[M].method);
	clients[M].popup = zwp_input_method_v2_get_input_popup_surface(clients[M].method, clients[M].surface);
	enable(A);
	turn();
	wlim_glue_destroy(glue);
	glue = NULL;
	told[0] = 0;
	enable(A);
	commits(M, "for nobody", 1);
	zwp_virtual_keyboard_v1_key(clients[M].board, 1, 30, 0);
	zwp_virtual_keyboard_v1_modifiers(clients[M].board, 1, 0, 0, 0);
	board_keymap(M, "another");
	zwp_input_method_keyboard_grab_v2_release(clients[M].grab);
	clients[M].grab = zwp_input_method_v2_grab_keyboard(clients[M].method);
	zwp_text_input_v3_destroy(clients[A].field);
	clients[A].field = NULL;
	make_field(A);
	make_method(M);
	make_board(M);
	holds("without the glue", "m unavailable\n");
	wl_surface_destroy(clients[A].surface);
	clients[A].surface = NULL;
	kill_client(M);
	holds("clients end", "");
}

/* Two clients count: the application B is one too many, and its focus takes the seat from A. */
static void crowded(void)
{
	struct wlim_shown shown;
	make_field(A);
	make_method(M);
	holds("objects", "");
	make_field(B);
	wlim_glue_focus(glue, clients[A].at);
	enable(A);
	holds("two clients", "a enter\nm activate\nm content 1 2\nm done\n");
	wlim_glue_focus(glue, clients[B].at);
	if (wlim_glue_look(glue, &shown) && shown.focus && ++failed)
		printf("a client too many has the focus\n");
	enable(B);
	commits(M, "for a", 1);
	holds("a client too many", "a leave\nm deactivate\nm done\n");
	wlim_glue_focus(glue, clients[A].at);
	enable(A);
	holds("the focus is back", "a enter\nm activate\nm content 1 2\nm done\n");
}

/* A scene over a glue for so many clients. */
static void play(uint32_t most, void (*scene)(void))
{
	told[0] = 0;
	display = wl_display_create();
	wl_global_create(display, &wl_compositor_interface, 1, NULL, bind_compositor);
	wl_global_create(display, &wl_seat_interface, 1, NULL, bind_seat);
	wl_global_create(display, &wl_seat_interface, 1, &glue, bind_seat); /* another seat */
	glue = wlim_glue_create_with(display, &hooks, NULL, most, 256);
	const char *names[] = { "a", "b", "m", "n" };
	for (int i = 0; i < 4 && glue; i++)
		join(i, names[i]);
	if (glue)
		scene();
	for (int i = 0; i < CLIENTS; i++)
		kill_client(i);
	wl_display_destroy_clients(display);
	if (glue)
		wlim_glue_destroy(glue);
	wl_display_destroy(display);
}

static void quiet(const char *form, va_list of)
{
	(void)form, (void)of;
}

int main(void)
{
	wl_log_set_handler_client(quiet);
	wl_log_set_handler_server(quiet);
	play(2, crowded);
	void (*scenes[])(void) = { other_seats, strangers, twice, keyboards, keymaps, late, popups_end, second_popup, outputs, many,
		ends_with_another, destroyed };
	for (size_t i = 0; i < sizeof scenes / sizeof scenes[0]; i++)
		play(64, scenes[i]);
	play(64, all_scenes);
	long runs[2] = { 0 };
	failing = true;
	for (int all = 0; all < 2; all++) {
		all_fail = all;
		for (bool reached = true; reached && !failed; runs[all]++) {
			fails_at = runs[all];
			play(64, all_scenes);
			reached = fails_at <= 0;
		}
	}
	if (!failed)
		printf("the glue: all as it should be, also where one of %ld allocations fails, or all after it\n", runs[0] - 1);
	return failed != 0;
}
