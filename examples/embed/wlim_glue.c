/* The glue of wlim_glue.h: each request is one act, and each event goes to its object. */
#define _GNU_SOURCE
#include "wlim_glue.h"
#include "input-method-unstable-v2-protocol.h"
#include "text-input-unstable-v3-protocol.h"
#include "virtual-keyboard-unstable-v1-protocol.h"
#include <fcntl.h>
#include <linux/magic.h>
#include <stdlib.h>
#include <string.h>
#include <sys/mman.h>
#include <sys/vfs.h>
#include <unistd.h>

#define KEYMAP_MOST (1u << 20) /* bytes */
#define KEYMAPS_MOST 64        /* of all keyboards */
#define DOWN_MOST 64
#define ACTS_MOST 4294000000u /* then the seat is renewed */

/* What has a label: a client, a surface, or an object of the three protocols. */
enum kind { CLIENT, SURFACE, FIELD, METHOD, POPUP, GRAB, BOARD, MANAGER };

/* A keymap, which keyboards share. */
struct kept {
	struct wlim_glue_keymap keymap;
	uint32_t users;
	struct wl_list link;
};

struct keys {
	uint32_t down[DOWN_MOST], count;
};

struct object {
	struct wlim_glue *glue;
	enum kind kind;
	uint32_t label; /* 0: it has none, and its requests do nothing */
	uint32_t next;  /* at a renewal, in the new seat */
	struct wl_client *client;
	struct wl_resource *resource; /* NULL of a client */
	struct wl_list link;          /* in `objects`; once it ended without memory, in `owed` */
	struct wl_listener destroy;   /* of a client and of a surface */
	bool trusted; /* of a manager */
	/* Of a surface, in your coordinates; and whether the seat was told it. */
	int32_t area[4];
	bool has_area, told_area;
	/* Of a field its commits, of a method its dones, and how many were before this seat. */
	uint32_t count, before;
	bool unavailable; /* the method was told so */
	/* Of a popup and of a grab: the label of its method; of a popup, its surface. */
	uint32_t method, popup_surface;
	struct wl_resource *surface; /* NULL once it is gone */
	struct wl_listener surface_destroy;
	bool is_shown;
	/* Of a board. */
	struct wlim_glue_keyboard keyboard;
	struct keys keys;
	uint32_t time; /* of its last key */
};

struct wlim_glue {
	struct wlim *seat; /* the one of the two that is open; both are at a renewal */
	struct wlim seats[2];
	uint32_t clients_most, objects_most;
	struct wl_display *display;
	const struct wlim_glue_hooks *hooks;
	void *data;
	struct wl_global *fields, *methods, *boards_global;
	struct wl_list objects, owed; /* those that live, in the order of their making */
	enum { NOTHING, LEAVE, ENTER } focus_owed; /* a field's method ended: see pay_focus */
	struct object *focused; /* the surface that is entered then; NULL once it is gone */
	struct object *at;      /* the surface that you said has the focus */
	struct wl_list keymaps;
	uint32_t last_keymap;          /* its number */
	struct wlim_glue_keyboard own; /* the seat's keyboard */
	struct keys keys;
	struct wlim_glue_keyboard shown; /* by which the focused clients read keys */
	uint32_t shown_keymap;           /* its number */
	bool has_modifiers, has_repeat, has_screen;
	int32_t repeat[2], screen[4];
	bool standing; /* a grab stood after the last act */
	bool pulling, dead;
	const struct wlim_glue_keyboard *from; /* whose act is told */
};

static uint32_t number_of(const struct wlim_glue_keyboard *keyboard)
{
	return keyboard->keymap ? keyboard->keymap->number : 0;
}

static bool same_modifiers(const struct wlim_glue_keyboard *a, const struct wlim_glue_keyboard *b)
{
	return a->depressed == b->depressed && a->latched == b->latched && a->locked == b->locked && a->group == b->group;
}

/* The focused clients read keys by this keyboard from now on. */
static void show_keyboard(struct wlim_glue *glue, const struct wlim_glue_keyboard *keyboard)
{
	glue->shown = *keyboard;
	glue->shown_keymap = number_of(keyboard);
	glue->hooks->modifiers(glue->data, keyboard);
}

/* ---- Events ---- */

static struct object *object_of(struct wlim_glue *glue, int64_t label)
{
	return (void *)(uintptr_t)wlim_number(glue->seat, (uint32_t)label);
}

static void tell_field(struct wlim_glue *glue, struct object *field, const struct wlim_event *event, const char *text)
{
	struct wl_resource *to = field->resource;
	struct object *surface;
	switch (event->kind) {
	case WLIM_ENTER:
		if ((surface = object_of(glue, event->first)))
			zwp_text_input_v3_send_enter(to, surface->resource);
		break;
	case WLIM_LEAVE:
		if ((surface = object_of(glue, event->first)))
			zwp_text_input_v3_send_leave(to, surface->resource);
		break;
	case WLIM_PREEDIT: zwp_text_input_v3_send_preedit_string(to, text, event->first, event->second); break;
	case WLIM_COMMIT_STRING: zwp_text_input_v3_send_commit_string(to, text); break;
	case WLIM_DELETE: zwp_text_input_v3_send_delete_surrounding_text(to, event->first, event->second); break;
	case WLIM_FIELD_DONE: zwp_text_input_v3_send_done(to, field->before + event->first); break;
	}
}

static void tell_method(struct object *method, const struct wlim_event *event, const char *text)
{
	struct wl_resource *to = method->resource;
	switch (event->kind) {
	case WLIM_ACTIVATE: zwp_input_method_v2_send_activate(to); break;
	case WLIM_DEACTIVATE: zwp_input_method_v2_send_deactivate(to); break;
	case WLIM_SURROUNDING: zwp_input_method_v2_send_surrounding_text(to, text, event->first, event->second); break;
	case WLIM_CHANGE_CAUSE: zwp_input_method_v2_send_text_change_cause(to, event->first); break;
	case WLIM_CONTENT_TYPE: zwp_input_method_v2_send_content_type(to, event->first, event->second); break;
	case WLIM_METHOD_DONE:
		method->count++;
		zwp_input_method_v2_send_done(to);
		break;
	case WLIM_UNAVAILABLE:
		method->unavailable = true;
		zwp_input_method_v2_send_unavailable(to);
		break;
	}
}

static void tell_grab(struct wlim_glue *glue, struct wl_resource *to, const struct wlim_event *event)
{
	int file;
	switch (event->kind) {
	case WLIM_KEYMAP:
		if ((file = wlim_glue_keymap_file(glue->own.keymap)) < 0) {
			wl_resource_post_no_memory(to);
			break;
		}
		zwp_input_method_keyboard_grab_v2_send_keymap(to, event->first, file, event->third);
		close(file);
		break;
	case WLIM_KEY:
		zwp_input_method_keyboard_grab_v2_send_key(to, wl_display_next_serial(glue->display),
			event->second, event->third, event->fourth);
		break;
	case WLIM_MODS:
		zwp_input_method_keyboard_grab_v2_send_modifiers(to, wl_display_next_serial(glue->display),
			event->second, event->third, event->fourth, event->group);
		break;
	case WLIM_REPEAT: zwp_input_method_keyboard_grab_v2_send_repeat_info(to, event->first, event->second); break;
	}
}

static void hide(struct object *popup)
{
	struct wlim_glue *glue = popup->glue;
	if (popup->is_shown && popup->surface && glue->hooks->hidden)
		glue->hooks->hidden(glue->data, popup->surface);
	popup->is_shown = false;
}

static void tell_shell(struct wlim_glue *glue, const struct wlim_event *event)
{
	const struct wlim_glue_keyboard *from = glue->from;
	struct object *popup;
	switch (event->kind) {
	case WLIM_PASS:
		if (glue->shown_keymap != number_of(from) || !same_modifiers(&glue->shown, from))
			show_keyboard(glue, from);
		glue->hooks->key(glue->data, from, event->first, event->second, event->third);
		break;
	case WLIM_VMODS: show_keyboard(glue, from); break;
	case WLIM_PLACED:
		popup = object_of(glue, event->first);
		if (!popup || !popup->surface || !glue->hooks->placed)
			break;
		popup->is_shown = true;
		glue->hooks->placed(glue->data, popup->surface, glue->screen[0] + event->second, glue->screen[1] + event->third);
		break;
	case WLIM_HIDDEN:
		if ((popup = object_of(glue, event->first)))
			hide(popup);
		break;
	}
}

static void tell(struct wlim_glue *glue, const struct wlim_event *event, const char *text)
{
	struct object *object = (void *)(uintptr_t)event->number;
	if (event->to == 0)
		tell_shell(glue, event);
	else if (!object || !object->resource)
		return;
	else if (event->kind <= WLIM_FIELD_DONE)
		tell_field(glue, object, event, text);
	else if (event->kind <= WLIM_UNAVAILABLE)
		tell_method(object, event, text);
	else if (event->kind == WLIM_POPUP_RECT)
		zwp_input_popup_surface_v2_send_text_input_rectangle(object->resource, event->first,
			event->second, event->third, event->fourth);
	else
		tell_grab(glue, object->resource, event);
}

static void drain(struct wlim_glue *glue)
{
	struct wlim_event event;
	char text[WLIM_TEXT_MAX];
	if (glue->pulling)
		return;
	glue->pulling = true;
	while (wlim_next(glue->seat, &event, text, sizeof text) == WLIM_GIVEN)
		tell(glue, &event, text);
	glue->pulling = false;
}

static void pull(struct wlim_glue *glue)
{
	struct wlim_shown shown;
	drain(glue);
	if (!wlim_look(glue->seat, &shown))
		return;
	/* Where a grab ends, the focused client doesn't know what the modifiers became meanwhile. */
	if (glue->standing && !shown.standing)
		show_keyboard(glue, &glue->own);
	glue->standing = shown.standing != 0;
	if (shown.acts >= ACTS_MOST)
		wlim_glue_renew(glue);
}

/* ---- Acts: each goes through ACT, which first pays what is owed ---- */

static void keymap_drop(const struct wlim_glue_keymap *keymap)
{
	struct kept *kept = keymap ? wl_container_of(keymap, kept, keymap) : NULL;
	if (!kept || --kept->users)
		return;
	wl_list_remove(&kept->link);
	free(kept->keymap.text);
	free(kept);
}

static void unlink_from(struct wl_list *link)
{
	wl_list_remove(link);
	wl_list_init(link);
}

static void object_free(struct object *object)
{
	if (!object)
		return;
	unlink_from(&object->link);
	unlink_from(&object->destroy.link);
	unlink_from(&object->surface_destroy.link);
	keymap_drop(object->keyboard.keymap);
	free(object);
}

static int64_t ends(const struct object *object)
{
	struct wlim *seat = object->glue->seat;
	return object->kind == CLIENT ? wlim_gone(seat, object->label) : wlim_drop(seat, object->label);
}

static int64_t hear(struct object *surface);
static void board_releases(struct object *board);

/* A field is told nothing where its method ends: left and entered, it shows no preedit on. */
static void pay_focus(struct wlim_glue *glue)
{
	struct wlim_shown shown = { 0 };
	if (glue->focus_owed == LEAVE && wlim_look(glue->seat, &shown)) {
		glue->focused = object_of(glue, shown.focus);
		if (!shown.holder)
			glue->focus_owed = NOTHING;
		else if (wlim_unfocus(glue->seat) >= 0)
			glue->focus_owed = ENTER;
	}
	if (glue->focus_owed == ENTER && (!glue->focused || (hear(glue->focused) >= 0 &&
			wlim_focus(glue->seat, glue->focused->label) >= 0)))
		glue->focus_owed = NOTHING;
}

/* What there was no memory for is done now: objects that ended are dropped. */
static void pay(struct wlim_glue *glue)
{
	struct object *object, *next;
	wl_list_for_each_safe(object, next, &glue->owed, link) {
		if (ends(object) == WLIM_NO_MEMORY)
			return;
		object_free(object);
	}
	pay_focus(glue);
}

static int64_t took(struct wlim_glue *glue, struct wl_client *client, int64_t answer)
{
	if (glue->dead)
		return WLIM_NOTHING;
	if (client && answer == WLIM_NO_MEMORY)
		wl_client_post_no_memory(client);
	else if (client && answer < 0)
		wl_client_post_implementation_error(client, "wlim takes no such request: %d", (int)answer);
	pull(glue);
	return answer;
}

#define ACT(glue, client, call) (pay(glue), took(glue, client, call))

/* ---- Objects ---- */

static struct object *object_new(struct wlim_glue *glue, enum kind kind, struct wl_client *client)
{
	struct object *object = calloc(1, sizeof *object);
	if (!object)
		return NULL;
	object->glue = glue;
	object->kind = kind;
	object->client = client;
	wl_list_insert(glue->objects.prev, &object->link);
	wl_list_init(&object->destroy.link);
	wl_list_init(&object->surface_destroy.link);
	return object;
}

/* What was made has its label before its first event goes. */
static void label(struct object *object, int64_t answer)
{
	object->label = answer > 0 ? (uint32_t)answer : 0;
	took(object->glue, object->client, answer);
}

/* The client of the serving method, NULL where none serves. */
static struct wl_client *serving(struct wlim_glue *glue)
{
	struct wlim_shown shown;
	struct object *method = wlim_look(glue->seat, &shown) ? object_of(glue, shown.serving) : NULL;
	return method ? method->client : NULL;
}

/* The object has ended: the seat forgets it, and so does the glue. */
static void object_end(struct object *object)
{
	struct wlim_glue *glue = object->glue;
	if (glue->dead) {
		object_free(object);
		if (wl_list_empty(&glue->objects))
			free(glue);
		return;
	}
	struct wl_client *served = serving(glue);
	hide(object);
	unlink_from(&object->link);
	unlink_from(&object->destroy.link);
	unlink_from(&object->surface_destroy.link);
	object->resource = NULL;
	if (glue->focused == object)
		glue->focused = NULL;
	if (glue->at == object)
		glue->at = NULL;
	pay(glue);
	if (ends(object) == WLIM_NO_MEMORY)
		wl_list_insert(glue->owed.prev, &object->link);
	else
		object_free(object);
	if (served && !serving(glue)) {
		glue->focus_owed = LEAVE;
		pay(glue);
	}
	pull(glue);
}

/* ---- Clients and surfaces: the seat hears of them when it first has to ---- */

static void on_client_destroy(struct wl_listener *listener, void *data)
{
	struct object *client = wl_container_of(listener, client, destroy), *board;
	(void)data;
	wl_list_for_each(board, &client->glue->objects, link)
		if (board->kind == BOARD && board->client == client->client)
			board_releases(board);
	object_end(client);
}

/* What the glue has of a client that counts; else NULL. */
static struct object *client_object(struct wl_client *client)
{
	struct wl_listener *known = wl_client_get_destroy_listener(client, on_client_destroy);
	struct object *object;
	return known ? wl_container_of(known, object, destroy) : NULL;
}

/* Applications leave an eighth of the places to methods, and those of a process have a quarter. */
static bool has_no_place(struct wlim_glue *glue, struct wl_client *client)
{
	uint32_t all = 0, own = 0, most = glue->clients_most;
	pid_t process, other;
	struct object *object;
	wl_client_get_credentials(client, &process, NULL, NULL);
	wl_list_for_each(object, &glue->objects, link) {
		if (object->kind == CLIENT) {
			wl_client_get_credentials(object->client, &other, NULL, NULL);
			own += other == process;
			all++;
		}
	}
	return all >= most - most / 8 || own >= (most < 16 ? most : most / 4);
}

/* The label of a client that sent a request, which counts from now on; 0 where it is one too many or there is no
 * memory. Where a surface of it has the focus already, the seat hears so. */
static uint32_t client_label(struct wlim_glue *glue, struct wl_client *client, bool trusted)
{
	struct object *object = client_object(client);
	if (object || glue->dead)
		return object ? object->label : 0;
	if (!trusted && has_no_place(glue, client))
		return 0;
	pay(glue);
	object = object_new(glue, CLIENT, client);
	int64_t answer = object ? wlim_peer(glue->seat) : WLIM_NO_MEMORY;
	if (answer < 0) {
		object_free(object);
		if (answer != WLIM_MANY)
			wl_client_post_no_memory(client);
		return 0;
	}
	object->label = answer;
	object->destroy.notify = on_client_destroy;
	wl_client_add_destroy_listener(client, &object->destroy);
	if (glue->at && glue->at->client == client) {
		glue->focused = glue->at;
		glue->focus_owed = ENTER;
		pay(glue);
	}
	return object->label;
}

static void on_surface_destroy(struct wl_listener *listener, void *data)
{
	struct object *surface = wl_container_of(listener, surface, destroy);
	(void)data;
	object_end(surface);
}

/* NULL where there is no memory. */
static struct object *surface_object(struct wlim_glue *glue, struct wl_resource *surface)
{
	struct wl_listener *known = wl_resource_get_destroy_listener(surface, on_surface_destroy);
	struct object *object;
	if (known)
		return wl_container_of(known, object, destroy);
	if (!(object = object_new(glue, SURFACE, wl_resource_get_client(surface))))
		return NULL;
	object->resource = surface;
	object->destroy.notify = on_surface_destroy;
	wl_resource_add_destroy_listener(surface, &object->destroy);
	return object;
}

static int64_t tell_area(struct wlim *to, const struct object *surface, uint32_t label)
{
	const int32_t *is = surface->area, *origin = surface->glue->screen;
	return surface->has_area ? wlim_area(to, label, is[0] - origin[0], is[1] - origin[1], is[2], is[3]) : 0;
}

static bool area_is_told(struct object *surface)
{
	if (surface->label && !surface->told_area)
		surface->told_area = tell_area(surface->glue->seat, surface, surface->label) >= 0;
	return !surface->label || surface->told_area;
}

/* Has the seat hear of a surface: its label, 0 where its client doesn't count or it is one too many, WLIM_NO_MEMORY. */
static int64_t hear(struct object *surface)
{
	struct object *client = client_object(surface->client);
	int64_t answer = surface->label;
	if (!client)
		return 0;
	if (!answer)
		answer = wlim_surface(surface->glue->seat, client->label, (uintptr_t)surface);
	surface->label = answer > 0 ? (uint32_t)answer : 0;
	return area_is_told(surface) && answer != WLIM_NO_MEMORY ? surface->label : (int64_t)WLIM_NO_MEMORY;
}

static void on_resource_destroy(struct wl_resource *resource)
{
	struct object *object = wl_resource_get_user_data(resource);
	if (object)
		object_end(object);
}

/* An object of a protocol; NULL where there is no memory, which its client is told. */
static struct object *resource_new(struct wlim_glue *glue, enum kind kind, struct wl_client *client,
	uint32_t id, const struct wl_interface *interface, const void *requests)
{
	struct wl_resource *resource = wl_resource_create(client, interface, 1, id);
	struct object *object = resource ? object_new(glue, kind, client) : NULL;
	if (resource)
		wl_resource_set_implementation(resource, requests, object, on_resource_destroy);
	if (!object) {
		wl_client_post_no_memory(client);
		return NULL;
	}
	object->resource = resource;
	return object;
}

static void destroy(struct wl_client *client, struct wl_resource *resource)
{
	(void)client;
	wl_resource_destroy(resource);
}

/* A request is the act of its name. */
#define REQUEST(name, ...) \
	struct object *object = wl_resource_get_user_data(resource); \
	ACT(object->glue, client, wlim_##name(object->glue->seat, object->label, ##__VA_ARGS__))

/* Objects for another seat are told nothing, and what they request does nothing. */
static bool is_ours(struct wlim_glue *glue, struct wl_resource *seat)
{
	return !glue->dead && (!glue->hooks->seat || glue->hooks->seat(glue->data, seat));
}

/* ---- zwp_text_input_v3 ---- */

static void field_enable(struct wl_client *client, struct wl_resource *resource)
{ REQUEST(enable); }
static void field_disable(struct wl_client *client, struct wl_resource *resource)
{ REQUEST(disable); }
static void field_surround(struct wl_client *client, struct wl_resource *resource, const char *text,
	int32_t cursor, int32_t anchor)
{ REQUEST(surround, text, strlen(text), cursor, anchor); }
static void field_cause(struct wl_client *client, struct wl_resource *resource, uint32_t cause)
{ REQUEST(cause, cause); }
static void field_content(struct wl_client *client, struct wl_resource *resource, uint32_t hint, uint32_t purpose)
{ REQUEST(content, hint, purpose); }
static void field_rect(struct wl_client *client, struct wl_resource *resource, int32_t x, int32_t y,
	int32_t width, int32_t height)
{ REQUEST(rect, x, y, width, height); }

static void field_commit(struct wl_client *client, struct wl_resource *resource)
{
	struct object *field = wl_resource_get_user_data(resource);
	field->count++;
	ACT(field->glue, client, wlim_commit(field->glue->seat, field->label));
}

static const struct zwp_text_input_v3_interface field_requests = {
	.destroy = destroy,
	.enable = field_enable,
	.disable = field_disable,
	.set_surrounding_text = field_surround,
	.set_text_change_cause = field_cause,
	.set_content_type = field_content,
	.set_cursor_rectangle = field_rect,
	.commit = field_commit,
};

static void get_field(struct wl_client *client, struct wl_resource *manager, uint32_t id, struct wl_resource *seat)
{
	struct object *from = wl_resource_get_user_data(manager);
	struct wlim_glue *glue = from->glue;
	struct object *field = resource_new(glue, FIELD, client, id, &zwp_text_input_v3_interface, &field_requests);
	if (field && is_ours(glue, seat))
		label(field, wlim_field(glue->seat, client_label(glue, client, false), (uintptr_t)field));
}

/* ---- zwp_input_method_v2 ---- */

static void method_string(struct wl_client *client, struct wl_resource *resource, const char *text)
{ REQUEST(mstring, text, strlen(text)); }
static void method_preedit(struct wl_client *client, struct wl_resource *resource, const char *text,
	int32_t begin, int32_t end)
{ REQUEST(mpreedit, text, strlen(text), begin, end); }
static void method_delete(struct wl_client *client, struct wl_resource *resource, uint32_t before, uint32_t after)
{ REQUEST(mdelete, before, after); }
static void method_commit(struct wl_client *client, struct wl_resource *resource, uint32_t serial)
{ REQUEST(mcommit, serial - object->before); }

static const struct zwp_input_popup_surface_v2_interface popup_requests = { .destroy = destroy };
static const struct zwp_input_method_keyboard_grab_v2_interface grab_requests = { .release = destroy };

static void on_popup_surface_destroy(struct wl_listener *listener, void *data)
{
	struct object *popup = wl_container_of(listener, popup, surface_destroy);
	(void)data;
	popup->surface = NULL;
	popup->is_shown = false;
	unlink_from(&popup->surface_destroy.link);
}

static void method_popup(struct wl_client *client, struct wl_resource *resource, uint32_t id,
	struct wl_resource *surface)
{
	struct object *method = wl_resource_get_user_data(resource);
	struct wlim_glue *glue = method->glue;
	bool has_one = wl_resource_get_destroy_listener(surface, on_popup_surface_destroy);
	if (method->label && (has_one || (glue->hooks->popup && !glue->hooks->popup(glue->data, surface)))) {
		wl_resource_post_error(resource, ZWP_INPUT_METHOD_V2_ERROR_ROLE, "it has another role");
		return;
	}
	struct object *popup = resource_new(glue, POPUP, client, id,
		&zwp_input_popup_surface_v2_interface, &popup_requests);
	if (!popup || !method->label)
		return;
	popup->method = method->label;
	popup->surface = surface;
	popup->surface_destroy.notify = on_popup_surface_destroy;
	wl_resource_add_destroy_listener(surface, &popup->surface_destroy);
	struct object *of = surface_object(glue, surface);
	int64_t heard = of ? hear(of) : WLIM_NO_MEMORY;
	popup->popup_surface = heard > 0 ? (uint32_t)heard : 0;
	label(popup, heard < 0 ? heard : wlim_popup(glue->seat, method->label, popup->popup_surface, (uintptr_t)popup));
}

static void method_grab(struct wl_client *client, struct wl_resource *resource, uint32_t id)
{
	struct object *method = wl_resource_get_user_data(resource);
	struct object *grab = resource_new(method->glue, GRAB, client, id,
		&zwp_input_method_keyboard_grab_v2_interface, &grab_requests);
	if (!grab)
		return;
	grab->method = method->label;
	label(grab, wlim_grab(method->glue->seat, method->label, (uintptr_t)grab));
}

static const struct zwp_input_method_v2_interface method_requests = {
	.commit_string = method_string,
	.set_preedit_string = method_preedit,
	.delete_surrounding_text = method_delete,
	.commit = method_commit,
	.get_input_popup_surface = method_popup,
	.grab_keyboard = method_grab,
	.destroy = destroy,
};

static void get_method(struct wl_client *client, struct wl_resource *manager, struct wl_resource *seat, uint32_t id)
{
	struct object *from = wl_resource_get_user_data(manager);
	struct wlim_glue *glue = from->glue;
	struct object *method = resource_new(glue, METHOD, client, id, &zwp_input_method_v2_interface, &method_requests);
	if (!method)
		return;
	uint32_t peer = from->trusted && is_ours(glue, seat) ? client_label(glue, client, true) : 0;
	if (peer)
		label(method, wlim_method(glue->seat, peer, (uintptr_t)method));
	else
		zwp_input_method_v2_send_unavailable(method->resource);
}

/* ---- zwp_virtual_keyboard_v1 ---- */

/* The keymap of a file, one for all that are equal; NULL: it can't be read, or there are too many. */
static const struct wlim_glue_keymap *keymap_read(struct wlim_glue *glue, uint32_t format, int file, uint32_t size)
{
	struct kept *kept, *same = NULL;
	struct statfs on;
	char *text = size <= KEYMAP_MOST ? calloc(1, (size_t)size + 1) : NULL;
	/* A file of FUSE could keep the compositor waiting. */
	bool read = text && fstatfs(file, &on) == 0 && on.f_type != FUSE_SUPER_MAGIC &&
		pread(file, text, size, 0) == (ssize_t)size;
	wl_list_for_each(kept, &glue->keymaps, link)
		if (read && kept->keymap.format == format && kept->keymap.size == size &&
				memcmp(kept->keymap.text, text, size) == 0)
			same = kept;
	if (read && !same && wl_list_length(&glue->keymaps) < KEYMAPS_MOST && (same = calloc(1, sizeof *same))) {
		same->keymap = (struct wlim_glue_keymap){ ++glue->last_keymap, format, size, text };
		wl_list_insert(&glue->keymaps, &same->link);
		text = NULL;
	}
	free(text);
	if (same)
		same->users++;
	return same ? &same->keymap : NULL;
}

static void board_keymap(struct wl_client *client, struct wl_resource *resource, uint32_t format,
	int32_t file, uint32_t size)
{
	struct object *board = wl_resource_get_user_data(resource);
	struct wlim_glue *glue = board->glue;
	const struct wlim_glue_keymap *now = board->label ? keymap_read(glue, format, file, size) : NULL;
	if (now) {
		keymap_drop(board->keyboard.keymap);
		board->keyboard.keymap = now;
		ACT(glue, client, wlim_vkeymap(glue->seat, board->label, format, 0, size));
	} else if (board->label) {
		wl_client_post_implementation_error(client, "the keymap can't be read");
	}
	close(file);
}

static bool board_sends(struct object *board)
{
	if (board->label && !board->keyboard.keymap)
		wl_resource_post_error(board->resource, ZWP_VIRTUAL_KEYBOARD_V1_ERROR_NO_KEYMAP, "no keymap");
	board->glue->from = &board->keyboard;
	return board->label && board->keyboard.keymap;
}

/* At which place of the list the key stands; `count` where it isn't there. */
static uint32_t place_of(uint32_t key, const uint32_t *keys, uint32_t count)
{
	uint32_t at = 0;
	while (at < count && keys[at] != key)
		at++;
	return at;
}

static void keys_note(struct keys *keys, uint32_t key, bool pressed)
{
	uint32_t at = place_of(key, keys->down, keys->count);
	if (pressed && at == keys->count && at < DOWN_MOST)
		keys->down[keys->count++] = key;
	if (!pressed && at < keys->count)
		keys->down[at] = keys->down[--keys->count];
}

static void board_key(struct wl_client *client, struct wl_resource *resource, uint32_t time,
	uint32_t key, uint32_t state)
{
	struct object *board = wl_resource_get_user_data(resource);
	if (state > 1)
		wl_client_post_implementation_error(client, "a key's state is 0 or 1");
	else if (board_sends(board) && ACT(board->glue, client,
			wlim_vkey(board->glue->seat, board->label, time, key, state)) > 0)
		keys_note(&board->keys, key, state);
	board->time = time;
}

/* No release is told when a board ends: the keys that are down are released before. */
static void board_releases(struct object *board)
{
	struct wlim_glue *glue = board->glue;
	glue->from = &board->keyboard;
	while (board->keys.count)
		ACT(glue, NULL, wlim_vkey(glue->seat, board->label, board->time, board->keys.down[--board->keys.count], 0));
}

static void board_modifiers(struct wl_client *client, struct wl_resource *resource,
	uint32_t depressed, uint32_t latched, uint32_t locked, uint32_t group)
{
	struct object *board = wl_resource_get_user_data(resource);
	if (!board_sends(board))
		return;
	board->keyboard = (struct wlim_glue_keyboard){ board->keyboard.keymap, depressed, latched, locked, group };
	ACT(board->glue, client, wlim_vmods(board->glue->seat, board->label, depressed, latched, locked, group));
}

static void on_board_destroy(struct wl_resource *resource)
{
	struct object *board = wl_resource_get_user_data(resource);
	if (!board)
		return;
	board_releases(board);
	object_end(board);
}

static const struct zwp_virtual_keyboard_v1_interface board_requests = {
	.keymap = board_keymap,
	.key = board_key,
	.modifiers = board_modifiers,
	.destroy = destroy,
};

static void create_board(struct wl_client *client, struct wl_resource *manager, struct wl_resource *seat, uint32_t id)
{
	struct object *from = wl_resource_get_user_data(manager);
	struct wlim_glue *glue = from->glue;
	if (!from->trusted) {
		wl_resource_post_error(manager, ZWP_VIRTUAL_KEYBOARD_MANAGER_V1_ERROR_UNAUTHORIZED, "it isn't trusted");
		return;
	}
	struct object *board = resource_new(glue, BOARD, client, id, &zwp_virtual_keyboard_v1_interface, &board_requests);
	if (!board)
		return;
	wl_resource_set_destructor(board->resource, on_board_destroy);
	if (is_ours(glue, seat))
		label(board, wlim_vboard(glue->seat, client_label(glue, client, true), (uintptr_t)board));
}

/* ---- Globals ---- */

static const struct zwp_text_input_manager_v3_interface fields_requests = {
	.destroy = destroy, .get_text_input = get_field,
};
static const struct zwp_input_method_manager_v2_interface methods_requests = {
	.get_input_method = get_method, .destroy = destroy,
};
static const struct zwp_virtual_keyboard_manager_v1_interface boards_requests = {
	.create_virtual_keyboard = create_board,
};

static void bind(struct wl_client *client, struct wlim_glue *glue, uint32_t id,
	const struct wl_interface *interface, const void *requests)
{
	struct object *manager = resource_new(glue, MANAGER, client, id, interface, requests);
	if (manager)
		manager->trusted = glue->hooks->trusted && glue->hooks->trusted(glue->data, client);
}

#define BIND(name, interface) \
	static void bind_##name(struct wl_client *client, void *glue, uint32_t version, uint32_t id) \
	{ (void)version, bind(client, glue, id, &interface, &name##_requests); }
BIND(fields, zwp_text_input_manager_v3_interface)
BIND(methods, zwp_input_method_manager_v2_interface)
BIND(boards, zwp_virtual_keyboard_manager_v1_interface)
#undef BIND

/* ---- A new seat in the place of one that took too many acts ---- */

/* What a label of the old seat is in the new one. */
static uint32_t next_of(struct wlim_glue *glue, uint32_t label)
{
	struct object *object = object_of(glue, label);
	return object ? object->next : 0;
}

/* Makes an object in the new seat: of the grabs the one that stands, no unavailable method. */
static int64_t make_again(struct wlim *to, struct object *object, uint32_t standing)
{
	struct wlim_glue *glue = object->glue;
	struct object *of = object->kind == CLIENT ? NULL : client_object(object->client);
	uint32_t client = of ? of->next : 0;
	uint64_t number = (uintptr_t)object;
	if (!object->label)
		return 0;
	switch (object->kind) {
	case CLIENT: return wlim_peer(to);
	case SURFACE: return wlim_surface(to, client, number);
	case FIELD: return wlim_field(to, client, number);
	case METHOD: return object->unavailable ? 0 : wlim_method(to, client, number);
	case POPUP: return wlim_popup(to, next_of(glue, object->method), next_of(glue, object->popup_surface), number);
	case GRAB: return object->label == standing ? wlim_grab(to, next_of(glue, object->method), number) : 0;
	case BOARD: return wlim_vboard(to, client, number);
	case MANAGER: break;
	}
	return 0;
}

/* And tells it what the old seat was told of it. */
static int64_t tell_again(struct wlim *to, const struct object *object)
{
	const struct wlim_glue_keymap *keymap = object->keyboard.keymap;
	if (keymap)
		return wlim_vkeymap(to, object->next, keymap->format, 0, keymap->size);
	return tell_area(to, object, object->next);
}

static bool build_again(struct wlim_glue *glue, struct wlim *to, const struct wlim_shown *shown)
{
	const struct wlim_glue_keyboard *own = &glue->own;
	struct object *object;
	bool fits = wlim_open_with(to, glue->clients_most, glue->objects_most) &&
		wlim_mods(to, own->depressed, own->latched, own->locked, own->group) >= 0;
	if (fits && glue->has_screen)
		fits = wlim_screen(to, glue->screen[2], glue->screen[3]) >= 0;
	if (fits && glue->has_repeat)
		fits = wlim_repeat(to, glue->repeat[0], glue->repeat[1]) >= 0;
	if (fits && own->keymap)
		fits = wlim_keymap(to, own->keymap->format, 0, own->keymap->size) >= 0;
	/* First the clients, then their surfaces, then the rest in the order of its making. */
	for (enum kind first = CLIENT; first <= FIELD; first++) {
		wl_list_for_each(object, &glue->objects, link) {
			if (object->kind < first || (object->kind > first && first < FIELD))
				continue;
			int64_t answer = fits ? make_again(to, object, shown->standing) : 0;
			object->next = answer > 0 ? (uint32_t)answer : 0;
			fits = fits && answer >= 0 && tell_again(to, object) >= 0;
		}
	}
	return fits && wlim_focus(to, next_of(glue, shown->focus)) >= 0;
}

bool wlim_glue_renew(struct wlim_glue *glue)
{
	struct wlim *had = glue->seat, *to = &glue->seats[had == &glue->seats[0]];
	struct object *object, *next;
	struct wlim_shown shown;
	if (glue->pulling || !wlim_look(had, &shown))
		return false;
	if (!build_again(glue, to, &shown) || wlim_unfocus(had) < 0) {
		wlim_close(to);
		return false;
	}
	drain(glue);
	wl_list_for_each(object, &glue->objects, link) {
		object->before = object->count;
		object->label = object->next;
		object->method = next_of(glue, object->method);
		object->popup_surface = next_of(glue, object->popup_surface);
	}
	wlim_close(had);
	glue->seat = to;
	wl_list_for_each_safe(object, next, &glue->owed, link)
		object_free(object);
	drain(glue);
	return true;
}

/* ---- What you call ---- */

bool wlim_glue_focus(struct wlim_glue *glue, struct wl_resource *surface)
{
	struct object *of = surface ? surface_object(glue, surface) : NULL;
	if (of != glue->at) {
		glue->shown = glue->own; /* you send it with the enter */
		glue->shown_keymap = number_of(&glue->own);
	}
	glue->at = of;
	pay(glue);
	/* A surface that the seat can't have takes the focus away all the same. */
	int64_t to = of ? hear(of) : 0;
	bool taken = (to > 0 ? wlim_focus(glue->seat, (uint32_t)to) : wlim_unfocus(glue->seat)) >= 0;
	if (taken)
		glue->focus_owed = NOTHING;
	pull(glue);
	return taken && to >= 0 && (of || !surface);
}

bool wlim_glue_key(struct wlim_glue *glue, uint32_t time, uint32_t key, uint32_t state)
{
	/* Where it is down its release went elsewhere. */
	bool missed = state && place_of(key, glue->keys.down, glue->keys.count) < glue->keys.count;
	if (missed && !wlim_glue_key(glue, time, key, 0))
		return false;
	glue->from = &glue->own;
	int64_t answer = ACT(glue, NULL, wlim_key(glue->seat, time, key, state));
	if (answer > 0)
		keys_note(&glue->keys, key, state);
	return answer >= 0;
}

bool wlim_glue_keys(struct wlim_glue *glue, uint32_t time, const uint32_t *keys, uint32_t count)
{
	bool taken = true;
	for (uint32_t at = glue->keys.count; at > 0; at--)
		if (place_of(glue->keys.down[at - 1], keys, count) == count)
			taken = wlim_glue_key(glue, time, glue->keys.down[at - 1], 0) && taken;
	return taken;
}

bool wlim_glue_modifiers(struct wlim_glue *glue, uint32_t depressed, uint32_t latched, uint32_t locked, uint32_t group)
{
	const struct wlim_glue_keyboard had = glue->own;
	const struct wlim_glue_keyboard now = { had.keymap, depressed, latched, locked, group };
	if (glue->has_modifiers && same_modifiers(&had, &now))
		return true;
	glue->own = now;
	if (ACT(glue, NULL, wlim_mods(glue->seat, depressed, latched, locked, group)) < 0) {
		glue->own = had;
		return false;
	}
	glue->has_modifiers = true;
	if (!glue->standing)
		show_keyboard(glue, &glue->own);
	return true;
}

bool wlim_glue_keymap(struct wlim_glue *glue, uint32_t format, int file, uint32_t size)
{
	const struct wlim_glue_keymap *had = glue->own.keymap;
	const struct wlim_glue_keymap *now = keymap_read(glue, format, file, size);
	if (!now)
		return false;
	glue->own.keymap = now;
	bool taken = now == had || ACT(glue, NULL, wlim_keymap(glue->seat, format, 0, size)) >= 0;
	if (!taken)
		glue->own.keymap = had;
	keymap_drop(taken ? had : now);
	return taken;
}

const struct wlim_glue_keymap *wlim_glue_own_keymap(const struct wlim_glue *glue)
{
	return glue->own.keymap;
}

int wlim_glue_keymap_file(const struct wlim_glue_keymap *keymap)
{
	int file = memfd_create("keymap", MFD_CLOEXEC | MFD_ALLOW_SEALING);
	if (file >= 0 && (write(file, keymap->text, keymap->size) != (ssize_t)keymap->size ||
			fcntl(file, F_ADD_SEALS, F_SEAL_SHRINK | F_SEAL_GROW | F_SEAL_SEAL) < 0)) {
		close(file);
		file = -1;
	}
	return file;
}

bool wlim_glue_repeat(struct wlim_glue *glue, int32_t rate, int32_t delay)
{
	if (glue->has_repeat && glue->repeat[0] == rate && glue->repeat[1] == delay)
		return true;
	memcpy(glue->repeat, (int32_t[2]){ rate, delay }, sizeof glue->repeat);
	glue->has_repeat = ACT(glue, NULL, wlim_repeat(glue->seat, rate, delay)) >= 0;
	return glue->has_repeat;
}

bool wlim_glue_area(struct wlim_glue *glue, struct wl_resource *resource, int32_t x, int32_t y,
	int32_t width, int32_t height)
{
	struct object *surface = surface_object(glue, resource);
	const int32_t now[4] = { x, y, width, height };
	if (!surface)
		return false;
	if (!surface->has_area || memcmp(surface->area, now, sizeof now) != 0) {
		memcpy(surface->area, now, sizeof now);
		surface->has_area = true;
		surface->told_area = false;
	}
	return surface->told_area || ACT(glue, NULL, area_is_told(surface));
}

bool wlim_glue_popup_size(struct wlim_glue *glue, struct wl_resource *surface, int32_t width, int32_t height)
{
	return wlim_glue_area(glue, surface, 0, 0, width, height);
}

bool wlim_glue_screen(struct wlim_glue *glue, int32_t x, int32_t y, int32_t width, int32_t height)
{
	const int32_t now[4] = { x, y, width, height };
	struct object *object;
	if (glue->has_screen && memcmp(glue->screen, now, sizeof now) == 0)
		return true;
	wl_list_for_each(object, &glue->objects, link)
		if (glue->screen[0] != x || glue->screen[1] != y)
			object->told_area = false;
	memcpy(glue->screen, now, sizeof now);
	glue->has_screen = ACT(glue, NULL, wlim_screen(glue->seat, width, height)) >= 0;
	wl_list_for_each(object, &glue->objects, link)
		if (object->kind == SURFACE && !ACT(glue, NULL, area_is_told(object)))
			glue->has_screen = false;
	return glue->has_screen;
}

bool wlim_glue_look(struct wlim_glue *glue, struct wlim_shown *shown)
{
	return wlim_look(glue->seat, shown);
}

bool wlim_glue_is_for_methods(const struct wlim_glue *glue, const struct wl_global *global)
{
	return global == glue->methods || global == glue->boards_global;
}

struct wlim_glue *wlim_glue_create(struct wl_display *display, const struct wlim_glue_hooks *hooks, void *data)
{
	return wlim_glue_create_with(display, hooks, data, 64, 256);
}

struct wlim_glue *wlim_glue_create_with(struct wl_display *display,
	const struct wlim_glue_hooks *hooks, void *data, uint32_t clients, uint32_t objects)
{
	struct wlim_glue *glue = calloc(1, sizeof *glue);
	if (!glue)
		return NULL;
	*glue = (struct wlim_glue){ .seat = &glue->seats[0], .display = display, .hooks = hooks, .data = data,
		.clients_most = clients, .objects_most = objects };
	wl_list_init(&glue->objects);
	wl_list_init(&glue->owed);
	wl_list_init(&glue->keymaps);
	glue->fields = wl_global_create(display, &zwp_text_input_manager_v3_interface, 1, glue, bind_fields);
	glue->methods = wl_global_create(display, &zwp_input_method_manager_v2_interface, 1, glue, bind_methods);
	glue->boards_global = wl_global_create(display, &zwp_virtual_keyboard_manager_v1_interface, 1, glue, bind_boards);
	if (wlim_open_with(glue->seat, clients, objects) && glue->fields && glue->methods && glue->boards_global)
		return glue;
	wlim_glue_destroy(glue);
	return NULL;
}

void wlim_glue_destroy(struct wlim_glue *glue)
{
	struct wl_global *globals[] = { glue->fields, glue->methods, glue->boards_global };
	struct object *object, *next;
	glue->dead = true;
	for (int i = 0; i < 3; i++)
		if (globals[i])
			wl_global_destroy(globals[i]);
	wl_list_for_each_safe(object, next, &glue->owed, link)
		object_free(object);
	/* What clients still have goes on without a label, and does nothing. */
	wl_list_for_each_safe(object, next, &glue->objects, link) {
		object->label = object->keys.count = 0;
		unlink_from(&object->surface_destroy.link);
		if (object->kind == CLIENT || object->kind == SURFACE)
			object_free(object);
	}
	wlim_close(glue->seat);
	keymap_drop(glue->own.keymap);
	if (wl_list_empty(&glue->objects))
		free(glue);
}
