/* The core's parts over messages and wires: clients and their objects, globals, the broker, the seat's keyboard. */
#pragma once
#include "core.h"
#include "tables.h"
#include "popup_want.h"
#include "wire.h"
#include <wlim.h>

enum {
	DISPLAY = 1, OBJECTS_MAX = 65536 /* ids of each side */, DOWN_MAX = 64, LISTED_MAX = 16,
	PRIVATES_MAX = 512, PRIVATES_KEPT = 64 /* of each client's ids so many stay for the gateway's own objects */,
};
/* Globals of which the gateway has objects of its own in a program's connection, in the order of binding. */
enum { OWN_COMPOSITOR, OWN_MEMORY, OWN_SUBSURFACES, OWN_SHELL, OWN_VIEWS, OWN_SEAT, OWNS };
#define FIRST_SERVER_ID 0xff000000u /* ids from here on are the compositor's, and the same at the client */

/* What is known of an object besides, by what it is. */
union known {
	struct surface { /* a program's wl_surface (surfaces.c) */
		uint32_t role; /* its xdg_surface or layer surface */
		uint32_t buffer; /* of a method's: what it attached last */
		bool attaches, attached; /* its next commit brings a buffer, or none; what it is to have then */
		bool is_mapped; /* it has a buffer and a role */
		bool pends; /* its next commit brings something */
	} surface;
	struct part { /* what is made of a surface, and of that */
		uint32_t under, parent; /* the surface; an xdg_popup's parent, an xdg_surface */
		uint32_t below; /* an xdg_popup: the one that grabbed before it */
		uint32_t made; /* an xdg_surface: its xdg_toplevel or xdg_popup */
		bool is_popup; /* that is an xdg_popup */
		bool is_at_bottom; /* a layer surface: of the screen */
		struct box box; /* an xdg_surface: its geometry; an xdg_popup: where it is on its parent's */
	} role;
	struct field { /* a text input: what its next commit brings */
		bool enables, has_cursor;
		struct box cursor;
	} field;
	struct pixels { /* a method's pool or buffer in a file, or 0 */
		uint32_t token, format;
		int32_t size, offset, width, height, stride;
	} pixels;
	struct view { uint32_t popup; } view; /* a method's wp_viewport of a surface */
	struct older *older; /* a text input of version 2 (text_input_v2.c) */
	struct hidden { /* a pointer, touch and the like: what its client isn't told, being about a popup */
		bool is_inside, conceals, passes; /* it is on one; of this frame something is hidden, something is not */
		uint32_t points; /* of touch, that began on one */
	} hidden;
};

struct object {
	const struct interface *interface; /* NULL: the id names nothing */
	uint64_t number; /* in the order of making, of all clients' objects: who has its id later has another */
	uint32_t far; /* its id at the compositor; 0: the compositor doesn't know it */
	uint32_t made[4]; /* the message by which it was made at the broker; all 0: it isn't there */
	uint32_t count, base; /* commits of a field or dones of a method, and as many of them at an earlier broker */
	uint32_t keymap; /* of a board: the number of its keymap */
	uint32_t version, global; /* a bound one's name */
	union known known;
	bool is_ours; /* it lives at the broker or the gateway, a manager nowhere */
	bool of_seat; /* a wl_seat or a wl_keyboard of the one seat that the broker has */
	bool is_input; /* a pointer and the like that was on a popup */
	bool is_of_surface; /* made of a surface that it knows, and asked things of its next commit */
	bool is_fresh; /* a wl_keyboard of that seat that was told an enter, and no modifiers of it yet */
	bool is_gone; /* a surface that its client destroyed, whose id the compositor hasn't freed yet */
	bool never_stands; /* a grab that was made beside one that stood, or of a method that doesn't serve */
};

struct popup;
struct process;

struct client {
	struct client *next;
	unsigned link, number; /* as the shell knows it; from 1, in the order of coming */
	enum role role;
	struct process *process; /* whose it is */
	uint32_t peer; /* its number at the broker; 0: it isn't there */
	bool waits; /* it was there, and joins the next */
	bool ending; /* nothing of it is read any more; it ends when the round does */
	uint32_t serves; /* the id of its first input method that wasn't told that it is unavailable; 0 none */
	unsigned keyboards; /* its wl_keyboards of the seat that it didn't release */
	uint32_t keymap, modifiers[4]; /* what its wl_keyboards of the seat were told: a keymap's number, 0 none we know */
	struct down { uint32_t board, key, time; } down[DOWN_MAX]; /* keys that its boards hold down, those that fit */
	unsigned down_count;
	struct wire near, far; /* to the client, and for it to the compositor */
	const uint8_t *text; /* what the message that is played asked for */
	uint32_t counts[2]; /* of ids that ever named something: the client's, and the compositor's */
	struct object objects[2][OBJECTS_MAX];
	bool activating, is_active; /* its serving method was told so, and a done with it */
	unsigned held; /* its pools and buffers whose files are kept, and what else is let go with its object */
	uint32_t field; /* its text input that is enabled; 0 none */
	bool has_cursor;
	struct box cursor; /* of that */
	uint32_t top; /* its xdg_popup that grabbed last, and lives */
	bool is_wlroots; /* the compositor is of wlroots: it may end who has an xdg_popup, when the focus goes */
	struct listed { uint32_t ids[LISTED_MAX]; unsigned count; } pointers, touches; /* a method's */
	uint64_t copies_from; /* the moment from which on its pixels are copied */
	struct own { uint32_t name, version, id; } owns[OWNS]; /* globals, and the gateway's objects of them there */
	uint32_t own_pointer, own_touch;
	unsigned private_count;
	struct private { /* an object of the gateway's at the compositor */
		const struct interface *interface; /* NULL: there is none, or nobody hears of it */
		struct popup *owner; /* NULL: it is the connection's */
		bool is_used; /* the compositor hasn't freed its id */
	} privates[PRIVATES_MAX];
	uint32_t far_count, far_free; /* ids that were ever used at the compositor; the first that can be used again, or 0 */
	/* Of each of them the client's id, or PRIVATE and a place in privates, or FREE and the next that can be used again. */
	uint32_t nears[OBJECTS_MAX];
};

extern struct gateway {
	uint64_t moment; /* of the last call */
	unsigned long entries; /* after so many of them the broker is renewed */
	bool renews; /* what is told now was told before */
	uint32_t clear; /* the token of zeros, for popups that go; 0: there is none yet */
	struct client *clients;
	uint32_t seat; /* the name of the wl_seat global whose keyboard is the broker's; 0 none yet */
} gateway;

/* A line of the log: who told what to whom; one that says what is shown (log.c). */
void log_message(struct client *client, const char *way, const struct message *message);
void log_note(const struct client *client, const char *what, const struct box *box);
/* Who a client is and what it has, until the next (log.c). */
const char *client_state(const struct client *client);
/* Bytes as hexadecimal numbers, as many as a store has at most; until the next (broker.c). */
const char *spell(const uint8_t *bytes, size_t size);
/* The shell is asked (core.c). */
void ask_shell(struct effect effect);

/* ---- Objects (objects.c) ---- */
/* The place of an id that named something before or does; NULL: it never did. And only if it does. */
struct object *object_at(struct client *client, uint32_t id);
struct object *object_live(struct client *client, uint32_t id);
/* NULL: the id isn't of this side, is live (the compositor's may be: it tells no end), leaves a gap, or is too high. */
struct object *object_make(struct client *client, uint32_t id, const struct interface *interface, bool by_server);
void object_free(struct client *client, uint32_t id);
/* What it holds besides is let go (popup_pools.c). */
void object_ends(struct client *client, struct object *object);

/* ---- Ids: an object of the client's has one of its own, and another at the compositor (ids.c) ---- */
#define FREE 0x80000000u /* with an id of `nears`: it names nothing */
#define PRIVATE 0x40000000u /* with a place: it names an object of the gateway's own */
/* An id at the compositor, which has to hear of it before the next is made: it takes no gaps. 0: there is none. */
uint32_t far_make(struct client *client, uint32_t id);
/* It can be used again: the compositor said so. */
void far_end(struct client *client, uint32_t far);
/* The one for the other; 0: it names nothing, or nothing there. */
uint32_t far_of(struct client *client, uint32_t id);
uint32_t near_of(const struct client *client, uint32_t far);
/* Gives a request the compositor's ids, its new one too. False: an argument names nothing there, or there is no id. */
bool ids_to_far(struct client *client, struct message *message);
/* Gives an event the client's ids. Whether it names an object of the gateway's own, which is 0 then; or nothing. */
enum named { NAMED_OBJECTS, NAMED_PRIVATE, NAMED_NOTHING };
enum named ids_to_near(struct client *client, struct message *message);
/* A new id of the gateway's own at the compositor; there has to be one (ids_left). What has the id, or NULL. Nobody
 * hears of it any more. */
bool ids_left(const struct client *client);
uint32_t private_make(struct client *client, const struct interface *interface, struct popup *owner);
struct private *private_of(struct client *client, uint32_t far);
void private_forget(struct client *client, uint32_t far);

/* ---- Clients (client.c; requests.c plays their messages) ---- */
/* A new client, before the others, or NULL: there is no memory. One that isn't in the list any more is closed. */
struct client *client_open(enum role role, struct process *process);
void client_close(struct client *client);
static inline struct wire *wire_of(struct client *client, enum side side) {
	return side == NEAR ? &client->near : &client->far;
}
/* Does what the messages say that came, up to one that waits for the shell. Tokens are the calls'. */
void client_play(struct client *client, enum side side);
void request_play(struct client *client, struct message *message, const uint32_t *tokens);
/* The client ends with the round, and why is said, unless it ended first; and it is told, by wl_display.error. */
enum error { ERROR_OBJECT, ERROR_METHOD, ERROR_MEMORY, ERROR_COMPOSITOR };
void client_end(struct client *client, const char *why);
void client_refuse(struct client *client, uint32_t object, enum error code, const char *why);
/* Sends the client a message of the gateway's; the broker's whole messages, where a token is a keymap's number. */
void client_send(struct client *client, const struct message *message);
void client_told(struct client *client, uint8_t *bytes, size_t size, const uint32_t *numbers);
/* The surface is known to the broker too, from now on. False: it is none of the client's, or destroyed. */
bool request_mirror(struct client *client, uint32_t surface);
/* The keys that are down on the board are released at the broker, which tells nobody when a board ends; 0: on each. And
 * those of all its boards that no window has are pressed at a new one. */
void request_release(struct client *client, uint32_t board);
void request_press(struct client *client);
/* A message to an object of ours isn't heard, as there is no broker: where it ends the object, that is told. */
void request_lose(struct client *client, const struct message *message);

/* ---- What a process may have of what all share (budgets.c) ---- */
/* A client of the process comes, 0: of one that nobody knows, and goes. NULL: it has its share of clients. */
struct process *process_join(unsigned pid, const char *command);
void process_leave(struct process *process);
const char *process_named(const struct process *process); /* until the next */
/* Whether the client may be a peer. It spends a message of this size at the broker, of 0 a place; or one of its own, or
 * of the compositor's to it, that passes. */
enum spent { AT_BROKER, PASSING, PRICES };
bool budget_place(const struct client *client);
void budget_spend(struct client *client, enum spent what, size_t size);
/* How many of these bytes may be read of it in this round; so many were, which may end it. Another round begins. In how
 * many milliseconds more may be read of who isn't read now; -1: all are. */
size_t budget_room(const struct client *client, size_t room);
void budget_came(struct client *client, size_t size);
void budgets_round(void);
int budgets_wait(void);
/* Descriptors run short: who holds most ends. False: nobody holds many. */
bool budgets_short(void);

/* ---- Globals (globals.c) ---- */
/* The broker's globals by their names there; and the gateway's own objects at each peer, which no client reaches. */
enum { GLOBAL_COMPOSITOR = 1, GLOBAL_SEAT, GLOBAL_FIELDS, GLOBAL_METHODS, GLOBAL_BOARDS, GLOBAL_OLDER };
enum { OWN = 0x7e000000 /* its registry; and that and a global's name: what was bound of it */ };
/* What the broker offers to a role, where the gateway alone binds what is ALL's; the last has no interface. */
extern const struct offer {
	uint32_t global, broker; /* as clients know it, and the broker */
	enum role role;
	const struct interface *interface;
} offers[];
/* The offer of a manager, or NULL. */
const struct offer *offer_of(const struct interface *manager);
/* The version in which the compositor's global is offered to a role; 0: it is hidden. */
uint32_t globals_version(enum role role, const struct interface *interface, uint32_t version);
/* A registry is told what is offered. The compositor tells a global, a client binds one: whether that goes on. */
void globals_offer(struct client *client, uint32_t registry);
bool globals_add(struct client *client, struct message *message);
void globals_remove(struct client *client, uint32_t name);
bool globals_bind(struct client *client, const struct message *message);

/* ---- The broker: libwlim's family of bytes, and the session's record (broker.c, renew.c) ---- */
extern struct wlim_broker *broker; /* while there is no memory for any it isn't open, and messages to it are lost */
/* Opens the broker, whose session begins. False: it said why, and it is tried again. */
bool broker_open(void);
/* Closes it; the next is in its place. Before that: makes room for the next. False: there is none, and this one lasts. */
void broker_close(void);
bool broker_prepare(void);
/* The client is a peer from now on. False: there is no place for it. */
bool broker_join(struct client *client);
/* A whole message of the client; where it has a descriptor, its token. After it what clients are told is sent. */
void broker_receive(struct client *client, const struct message *message, uint32_t token);
/* An order of the gateway's, as that: what to call, and its line in a session, both with the arguments. Its answer. */
#define broker_order(call, format, ...) \
	broker_done(broker_record(wlim_broker_##call(broker, gateway.moment, ##__VA_ARGS__), format, ##__VA_ARGS__))
int64_t broker_record(int64_t answer, const char *format, ...) __attribute__((format(printf, 2, 3)));
int64_t broker_done(int64_t answer);
/* In how many milliseconds it is to be renewed: 0 now, -1 not yet; it is at the next pause; and moves all peers to a new
 * one, between rounds. */
int broker_renewal(void);
void broker_ask(void);
void renew(void);

/* ---- What programs' surfaces are (surfaces.c) ---- */
/* A program's request, before the compositor hears of it. And an event of one of its xdg_popups. */
void surface_request(struct client *client, struct object *object, const struct message *message);
void surface_event(struct client *client, struct object *object, const struct message *message);
/* The gateway has its own commit of a mapped surface: where its client has nothing pending. */
bool surface_commits(struct client *client, uint32_t surface);
/* A text input's request. */
void field_request(struct client *client, struct field *field, const struct message *message);

/* ---- text-input-v2 (text_input_v2.c) ---- */
/* A text input is made: false: there is no memory. A request of it; an event of version 3 that it is told. */
bool older_make(struct client *client, struct object *object);
void older_request(struct client *client, const struct message *message);
void older_event(struct client *client, const struct message *message);

/* ---- Popups of methods (popups.c, popup_show.c, popup_input.c) ---- */
void popups_round(void);
int popups_wait(void); /* milliseconds; -1: nothing is due */
void popups_copied(uint32_t token, bool is_whole, bool is_short);
/* Asks the shell for the zeros that popups go by. False: the token isn't theirs. */
bool popup_clear_again(uint32_t token);
/* A method's popup is made on its surface; it ends. A request of a method's: whether the compositor hears of it. */
void popup_make(struct client *client, uint32_t id, uint32_t surface);
void popup_destroy(struct client *client, uint32_t id);
bool popup_request(struct client *client, struct object *object, const struct message *message, const uint32_t *tokens);
/* A program's surface or its role goes: so does what the gateway has on it. It was committed. A client ends. */
void popups_leave(const struct client *program, uint32_t surface);
void popups_committed(const struct client *program, uint32_t surface);
void popups_client_ends(struct client *client);
/* A global of the compositor's. An event of an object of the gateway's own. Whether a client isn't told an event. */
void popups_global(struct client *client, uint32_t name, const char *interface, uint32_t version);
void popups_global_gone(struct client *client, uint32_t name);
void private_event(struct client *program, uint32_t far, struct private *private, struct message *message);
bool popups_hide(struct object *object, const struct message *message, bool names_private);

#include "seat.h"
