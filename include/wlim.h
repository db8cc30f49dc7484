/*
 * wlim: the text-input and input-method relay of one Wayland seat, for a compositor; and for who has its clients' bytes and
 * no Wayland library the whole broker, by the functions wlim_broker_..
 *
 * You own the wire, the clients and the loop. The seat is told what happens (acts), each by one call, and says what each
 * object is to be told (events), which wlim_next hands out one at a time, in order. It makes no system call, starts no
 * thread, keeps no pointer of yours and calls nothing of yours but malloc, realloc and free.
 *
 * Proved: each call keeps that the events which wlim_next handed out and those that wait are all that the acts tell by
 * the rules of docs/MODEL.md, in order. docs/EMBEDDING.md says how a compositor uses it, and what is trusted.
 *
 * An act that does something has a number, from 1; the number of the act that made an object is its label, and is never
 * used anew. Label 0 is the shell, which is you. An act on a label that isn't alive or is of another kind does nothing.
 */
#ifndef WLIM_H
#define WLIM_H

#include <stdbool.h>
#include <stddef.h>
#include <stdint.h>

#ifdef __cplusplus
extern "C" {
#endif

/* What wlim_version answers; it grows where a function of this header changes or goes, and where there is a new event. */
#define WLIM_VERSION 2
uint32_t wlim_version(void);

/*
 * A seat, or none. All zero is none: `struct wlim seat = {0};`. Only the functions here change what is in it. Don't copy
 * or move it while a seat is open, and call them for one seat from one thread at a time.
 */
struct wlim {
	bool live;
	void *place;
};

/* Opens a seat that took no act, of at most 64 clients with at most 256 objects each; one that is open is closed before.
 * False: there is no memory, and none is open. */
bool wlim_open(struct wlim *seat);

/* As wlim_open, of at most so many clients with at most so many objects each. */
bool wlim_open_with(struct wlim *seat, uint32_t peers, uint32_t objects);

/* Closes the seat, and gives back all its memory. What isn't open stays so. */
void wlim_close(struct wlim *seat);

/*
 * What a call answers that takes an act: above 0 the act's number, which is the label of what it made; WLIM_NOTHING; or
 * why it was not taken. In all cases but the first the seat is as before.
 */
enum {
	WLIM_GIVEN = 1,      /* of wlim_next: an event was handed out */
	WLIM_NOTHING = 0,    /* the act does nothing; of wlim_next: no event waits */
	WLIM_NO_MEMORY = -1, /* there is no memory */
	WLIM_FULL = -2,      /* the seat took 4,294,967,295 acts, or the broker's journal is full: close it and open another */
	WLIM_LONG = -3,      /* the text has more than 4,083 bytes, or 4,075 beside two numbers */
	WLIM_NO_TEXT = -4,   /* the bytes are no UTF-8, or one of them is zero */
	WLIM_CLOSED = -5,    /* no seat is open, or no broker */
	WLIM_SHORT = -6,     /* of wlim_next: there is no room for the event's text and the zero behind it */
	WLIM_MANY = -7,      /* it makes one too many: a client or an object beyond what wlim_open allows, or a 65th peer */
};

/*
 * ---- Clients and their objects, as they are made and end ----
 *
 * An object has a number of yours, as a pointer to what you have of it: it comes with each event that is told to the
 * object, until wlim_drop names its label.
 */

/* A client joins. */
int64_t wlim_peer(struct wlim *seat);

/* A client ends, and with it all its objects. Their numbers stay until wlim_drop names them. */
int64_t wlim_gone(struct wlim *seat, uint32_t peer);

/* wl_compositor.create_surface */
int64_t wlim_surface(struct wlim *seat, uint32_t peer, uint64_t number);

/* zwp_text_input_manager_v3.get_text_input */
int64_t wlim_field(struct wlim *seat, uint32_t peer, uint64_t number);

/* zwp_input_method_manager_v2.get_input_method */
int64_t wlim_method(struct wlim *seat, uint32_t peer, uint64_t number);

/* zwp_input_method_v2.get_input_popup_surface */
int64_t wlim_popup(struct wlim *seat, uint32_t method, uint32_t surface, uint64_t number);

/* zwp_input_method_v2.grab_keyboard */
int64_t wlim_grab(struct wlim *seat, uint32_t method, uint64_t number);

/* zwp_virtual_keyboard_manager_v1.create_virtual_keyboard */
int64_t wlim_vboard(struct wlim *seat, uint32_t peer, uint64_t number);

/*
 * An object is destroyed by its client: a surface, a field, a method, a popup, a grab (release) or a board. Its number is
 * forgotten, whatever is answered, also for events that wait.
 */
int64_t wlim_drop(struct wlim *seat, uint32_t label);

/* ---- What you say: the keyboard focus, the keyboard, and where things are ---- */

/* The keyboard focus goes to a surface (wl_keyboard.enter). */
int64_t wlim_focus(struct wlim *seat, uint32_t surface);

/* The keyboard focus is taken away (wl_keyboard.leave). */
int64_t wlim_unfocus(struct wlim *seat);

/* A key of the seat's keyboard: state 0 is released, 1 pressed; time in milliseconds. With 64 keys down, a press of
 * another does nothing. */
int64_t wlim_key(struct wlim *seat, uint32_t time, uint32_t key, uint32_t state);

/* The modifiers of the seat's keyboard. */
int64_t wlim_mods(struct wlim *seat, uint32_t depressed, uint32_t latched, uint32_t locked, uint32_t group);

/* The keymap of the seat's keyboard. The token is a number of yours, and comes back with WLIM_KEYMAP. */
int64_t wlim_keymap(struct wlim *seat, uint32_t format, uint32_t token, uint32_t size);

/* How keys repeat: how many a second, and after how many milliseconds. */
int64_t wlim_repeat(struct wlim *seat, int32_t rate, int32_t delay);

/* Where a surface stands on the screen, in pixels. A popup is placed by it. */
int64_t wlim_area(struct wlim *seat, uint32_t surface, int32_t x, int32_t y, int32_t width, int32_t height);

/* How large the screen is, in pixels. */
int64_t wlim_screen(struct wlim *seat, int32_t width, int32_t height);

/* ---- zwp_text_input_v3 ---- */

/* enable */
int64_t wlim_enable(struct wlim *seat, uint32_t field);

/* disable */
int64_t wlim_disable(struct wlim *seat, uint32_t field);

/* set_surrounding_text: cursor and anchor are offsets in bytes */
int64_t wlim_surround(struct wlim *seat, uint32_t field, const char *text, size_t length, int32_t cursor, int32_t anchor);

/* set_text_change_cause */
int64_t wlim_cause(struct wlim *seat, uint32_t field, uint32_t cause);

/* set_content_type */
int64_t wlim_content(struct wlim *seat, uint32_t field, uint32_t hint, uint32_t purpose);

/* set_cursor_rectangle */
int64_t wlim_rect(struct wlim *seat, uint32_t field, int32_t x, int32_t y, int32_t width, int32_t height);

/* commit */
int64_t wlim_commit(struct wlim *seat, uint32_t field);

/* ---- zwp_input_method_v2 ---- */

/* commit_string */
int64_t wlim_mstring(struct wlim *seat, uint32_t method, const char *text, size_t length);

/* set_preedit_string: where its cursor begins and ends, in bytes */
int64_t wlim_mpreedit(struct wlim *seat, uint32_t method, const char *text, size_t length, int32_t begin, int32_t end);

/* delete_surrounding_text: how many bytes before the cursor and after it */
int64_t wlim_mdelete(struct wlim *seat, uint32_t method, uint32_t before, uint32_t after);

/* commit: the serial names one of the dones that the method was told */
int64_t wlim_mcommit(struct wlim *seat, uint32_t method, uint32_t serial);

/* What a batch comes to. */
enum wlim_fate {
	WLIM_RELAYED = 1,            /* it is relayed to the field that holds the seat */
	WLIM_NOT_SERVING = 2,        /* the method doesn't serve the seat, or is none */
	WLIM_NO_ACTIVATION = 3,      /* no field holds the seat, so no activation stands */
	WLIM_NAMES_NO_DONE = 4,      /* the serial names no done that the method was told */
	WLIM_EARLIER_ACTIVATION = 5, /* the serial names a done of an earlier activation */
};

struct wlim_batch {
	uint32_t field;  /* the field that it is relayed to; 0 where it is to none */
	uint32_t serial; /* the serial of that field's WLIM_FIELD_DONE */
};

/* What a batch comes to that the method commits next with this serial: ask before wlim_mcommit. One of wlim_fate, or
 * WLIM_CLOSED, and nothing is written. The seat stays as it is. */
int64_t wlim_batch(struct wlim *seat, uint32_t method, uint32_t serial, struct wlim_batch *batch);

/* ---- zwp_virtual_keyboard_v1 ---- */

/* keymap: it is told to nobody; a board sends no key before it */
int64_t wlim_vkeymap(struct wlim *seat, uint32_t board, uint32_t format, uint32_t token, uint32_t size);

/* key: state 0 is released, 1 pressed. Before the board's keymap, and with 64 of its keys down at a press of another, it
 * does nothing. */
int64_t wlim_vkey(struct wlim *seat, uint32_t board, uint32_t time, uint32_t key, uint32_t state);

/* modifiers; before the board's keymap they do nothing */
int64_t wlim_vmods(struct wlim *seat, uint32_t board, uint32_t depressed, uint32_t latched, uint32_t locked, uint32_t group);

/* ---- Events ---- */

/* Which event it is; behind each, to what it is told, and its arguments: first, second, third, fourth. */
enum wlim_kind {
	WLIM_ENTER = 1,          /* to a field: the surface */
	WLIM_LEAVE = 2,          /* to a field: the surface */
	WLIM_PREEDIT = 3,        /* preedit_string, to a field: text; where its cursor begins and ends */
	WLIM_COMMIT_STRING = 4,  /* to a field: text */
	WLIM_DELETE = 5,         /* delete_surrounding_text, to a field: bytes before the cursor, and after it */
	WLIM_FIELD_DONE = 6,     /* done, to a field: the serial */
	WLIM_ACTIVATE = 7,       /* to a method */
	WLIM_DEACTIVATE = 8,     /* to a method */
	WLIM_SURROUNDING = 9,    /* surrounding_text, to a method: text; the cursor and the anchor */
	WLIM_CHANGE_CAUSE = 10,  /* text_change_cause, to a method: the cause */
	WLIM_CONTENT_TYPE = 11,  /* to a method: the hint and the purpose */
	WLIM_METHOD_DONE = 12,   /* done, to a method */
	WLIM_UNAVAILABLE = 13,   /* to a method */
	WLIM_POPUP_RECT = 14,    /* text_input_rectangle, to a popup: x, y, width, height */
	WLIM_KEYMAP = 15,        /* to a grab: the format, your token, the size */
	WLIM_KEY = 16,           /* to a grab: the serial, the time, the key, its state */
	WLIM_MODS = 17,          /* modifiers, to a grab: the serial, depressed, latched, locked; and the group */
	WLIM_REPEAT = 18,        /* repeat_info, to a grab: the rate and the delay */
	WLIM_PASS = 19,          /* to you: a key that no grab has, for the focused surface: the time, the key, its state */
	WLIM_PLACED = 20,        /* to you: where a popup stands on the screen: its label, x, y */
	WLIM_VMODS = 21,         /* to you: modifiers of a board that no grab has: depressed, latched, locked; and the group */
	WLIM_HIDDEN = 22,        /* to you: a popup that was placed is to be shown no more, until it is placed again: its label */
};

/* The serial of WLIM_KEY and WLIM_MODS is the number of the act that told it. */
struct wlim_event {
	uint32_t kind;   /* one of wlim_kind */
	uint32_t to;     /* the label of what it is told to; 0 is you */
	size_t length;   /* how many bytes its text has */
	int64_t first;   /* its arguments, as wlim_kind says; the others are 0 */
	int64_t second;
	int64_t third;
	int64_t fourth;
	int64_t group;   /* the group of WLIM_MODS and WLIM_VMODS */
	uint64_t number; /* your number of what it is told to; 0 where it has none */
};

/* The most bytes of a text, with the zero behind it. */
#define WLIM_TEXT_MAX 4084

/*
 * Hands out the event that waits longest: writes it to `event`, and to `text` its text with a zero behind it, and nothing
 * behind that. Answers WLIM_GIVEN, or WLIM_NOTHING where none waits. Where `room` is too little it answers WLIM_SHORT, the
 * event waits on, and nothing is written; WLIM_TEXT_MAX is always enough.
 */
int64_t wlim_next(struct wlim *seat, struct wlim_event *event, char *text, size_t room);

/* ---- What stands on the seat ---- */

/* A label is 0 where there is none. */
struct wlim_shown {
	uint32_t acts;     /* how many acts the seat took; near 4,294,967,295 it is time for a new seat */
	uint32_t focus;    /* the surface that has the keyboard focus */
	uint32_t holder;   /* the field that holds the seat */
	uint32_t serving;  /* the method that serves the seat */
	uint32_t standing; /* the grab that stands: the modifiers of the seat's keyboard go to it, else to your clients */
};

/* Writes what stands on the seat, which stays as it is. False: none is open, and nothing is written. */
bool wlim_look(struct wlim *seat, struct wlim_shown *shown);

/* Your number of a label, as of the surface of WLIM_ENTER; 0 where it has none, or no seat is open. */
uint64_t wlim_number(struct wlim *seat, uint32_t label);

/*
 * ==== By bytes: all peers of one seat, for who has their bytes and no Wayland library ====
 *
 * A broker reads the bytes that its peers send, however cut, and keeps what each is to be sent. Peers are numbered from 1
 * in the order in which they join; a peer's objects have the ids that it gave them. Each call that tells the broker
 * something has a moment, in a unit of yours, which never falls (a lesser one counts as the last).
 *
 * A step that is taken may end peers besides: one whose message was refused (WLIM_BAD), one whose store had no room for a
 * whole group of events (WLIM_OVER). So after a call ask wlim_broker_ready, and wlim_broker_standing of each peer that you
 * have a link of. What was stored of a peer that ended can still be taken; of one whose message was refused its
 * wl_display.error is the last, where it fitted.
 */

/*
 * A broker, or none. All zero is none: `struct wlim_broker broker = {0};`. As with struct wlim, don't copy or move it
 * while it is open, and call the functions for one broker from one thread at a time.
 */
struct wlim_broker {
	bool live;
	void *place;
};

/* What is answered besides WLIM_GIVEN (it is done), WLIM_NOTHING, WLIM_NO_MEMORY, WLIM_FULL, WLIM_CLOSED, WLIM_SHORT and
 * WLIM_MANY. Below 0 all is as before, but where a function says otherwise. */
enum {
	WLIM_TO_GRAB = 2,  /* of a key: it went to a grab, as an event of the grab's peer */
	WLIM_PASSED = 3,   /* of a key: no grab has it, send it to the focused surface */
	WLIM_NOWHERE = 4,  /* of a key: the grab that had its press doesn't stand any more */
	WLIM_TOO_MANY = 5, /* of a key: 64 others are down, and the press is refused */
	WLIM_MISSED = 6,   /* of wlim_broker_next: no event waits, and some are lost, since 1,024 waited. It is said once */
	WLIM_RANGE = -8,   /* a number is out of its range */
	WLIM_NOBODY = -9,  /* no peer has the number */
	WLIM_ENDED = -10,  /* the peer has ended: wlim_broker_standing says why */
};

/* Opens a broker whose peers have a store of so many bytes each, 1 to 1,048,576 (65,536 is enough for most), whose journal
 * may have so many entries, 1 to 4,000,000, and weigh so much, 1 to 536,870,912. One that is open is closed before.
 * WLIM_GIVEN; WLIM_RANGE, WLIM_NO_MEMORY: none is open then. */
int64_t wlim_broker_open(struct wlim_broker *broker, uint32_t store, uint32_t entries, uint64_t weight);

/* Closes the broker, and gives back all its memory. What isn't open stays so. */
void wlim_broker_close(struct wlim_broker *broker);

/* What a peer is offered (wl_registry.global). */
enum wlim_role {
	WLIM_APP = 1,    /* wl_compositor (name 1), wl_seat (2), zwp_text_input_manager_v3 (3) */
	WLIM_METHOD = 2, /* wl_compositor (1), wl_seat (2), zwp_input_method_manager_v2 (4) */
	WLIM_KEYED = 3,  /* as a method, and zwp_virtual_keyboard_manager_v1 (5) */
};

/* A peer joins. Above 0 its number. WLIM_MANY: 64 are alive. WLIM_FULL, WLIM_NO_MEMORY; WLIM_RANGE: no such role. */
int64_t wlim_broker_join(struct wlim_broker *broker, uint64_t moment, uint32_t role);

/*
 * Bytes of a peer, as they come: any number, cut anywhere; and the tokens of the descriptors that came with them, at most
 * 256, numbers of yours. The tokens wait for the messages that take them, then each message that the bytes complete is a
 * step; what isn't whole waits for more.
 *
 * WLIM_GIVEN: all steps were taken, the last of which may have ended the peer. WLIM_ENDED: the peer had ended, or did by a
 * step before the last; the rest says nothing. WLIM_FULL, WLIM_NO_MEMORY: the first steps were taken, and the peer has
 * ended (WLIM_GONE, unless a step before ended it), since its bytes can't be read on: close its link. WLIM_NOBODY;
 * WLIM_RANGE: more than 256 tokens.
 */
int64_t wlim_broker_receive(struct wlim_broker *broker, uint64_t moment, uint32_t peer, const uint8_t *bytes, size_t length,
	const uint32_t *tokens, size_t count);

/* The peer's link has ended; it ends, and all its objects. WLIM_GIVEN; WLIM_ENDED: it had ended; WLIM_NOBODY. */
int64_t wlim_broker_gone(struct wlim_broker *broker, uint64_t moment, uint32_t peer);

struct wlim_taken {
	size_t bytes;  /* how many bytes were taken */
	size_t tokens; /* how many tokens came with them */
};

/*
 * Takes of what is stored for the peer, alive or ended: the first bytes, as many as fit, at most 4,096 at once, and the
 * tokens whose messages begin in them. There must be room for 1 byte and places for 256 tokens: else WLIM_SHORT.
 *
 * WLIM_GIVEN: some were taken, and `taken` says how many; in all other cases nothing is written. WLIM_NOTHING: nothing is
 * stored yet. WLIM_ENDED: nothing is stored, and the peer has ended, so that its link can be closed. WLIM_FULL,
 * WLIM_NO_MEMORY, WLIM_NOBODY.
 */
int64_t wlim_broker_take(struct wlim_broker *broker, uint64_t moment, uint32_t peer, uint8_t *bytes, size_t room,
	uint32_t *tokens, size_t places, struct wlim_taken *taken);

/* ---- How it stands; the broker stays as it is ---- */

/* How a peer stands. */
enum wlim_standing {
	WLIM_ALIVE = 1,
	WLIM_GONE = 2, /* its link ended, or there was no memory or room in the journal for what it sent */
	WLIM_BAD = 3,  /* its last message was refused */
	WLIM_OVER = 4, /* a group of events did not fit its store */
};

/* One of wlim_standing; WLIM_NOBODY. */
int64_t wlim_broker_standing(struct wlim_broker *broker, uint32_t peer);

/* How many bytes are stored for the peer, alive or ended; WLIM_NOBODY. */
int64_t wlim_broker_stored(struct wlim_broker *broker, uint32_t peer);

/* The lowest number of a peer above `after` for which bytes are stored; 0 where there is none. What it costs grows with the
 * peers that live or have bytes stored, not with those that came and went. */
int64_t wlim_broker_ready(struct wlim_broker *broker, uint32_t after);

/* How many peers joined, alive or not. */
int64_t wlim_broker_peers(struct wlim_broker *broker);

/* Above 0 where a grab stands, to which the modifiers of the seat's keyboard go; 0 where they are for the focused
 * surface. */
int64_t wlim_broker_grab(struct wlim_broker *broker);

struct wlim_used {
	uint32_t entries; /* how many entries were counted: of joins, messages, tokens, what you say, what is taken */
	uint64_t weight;  /* what they weigh: 16 each, a message the bytes of its arguments besides, tokens 4 each besides */
};

/* Writes how much of what wlim_broker_open allows is used up. At its end a broker takes no more (WLIM_FULL): before it,
 * open a second one, and have its peers join there. WLIM_GIVEN. */
int64_t wlim_broker_used(struct wlim_broker *broker, struct wlim_used *used);

/*
 * ---- What you say: each WLIM_GIVEN, or WLIM_FULL, WLIM_NO_MEMORY, WLIM_RANGE with all as before ----
 *
 * A surface is named by its peer and its id there. A name of none does nothing, and is WLIM_GIVEN.
 */

/* The keyboard focus goes to a surface (wl_keyboard.enter). */
int64_t wlim_broker_focus(struct wlim_broker *broker, uint64_t moment, uint32_t peer, uint32_t id);

/* The keyboard focus goes away. */
int64_t wlim_broker_unfocus(struct wlim_broker *broker, uint64_t moment);

/* Where a surface stands on the screen, in pixels; WLIM_RANGE where its size is negative. */
int64_t wlim_broker_area(struct wlim_broker *broker, uint64_t moment, uint32_t peer, uint32_t id, int32_t x, int32_t y,
	int32_t width, int32_t height);

/* How large the screen is, in pixels; WLIM_RANGE where it is negative. */
int64_t wlim_broker_screen(struct wlim_broker *broker, uint64_t moment, int32_t width, int32_t height);

/* A key of the seat's keyboard: state 0 is released, 1 pressed, another WLIM_RANGE; time in milliseconds. In place of
 * WLIM_GIVEN it is WLIM_TO_GRAB, WLIM_PASSED, WLIM_NOWHERE or WLIM_TOO_MANY. */
int64_t wlim_broker_key(struct wlim_broker *broker, uint64_t moment, uint32_t time, uint32_t key, uint32_t state);

/* The modifiers of the seat's keyboard. While a grab stands they go to it; else send them to the focused surface. */
int64_t wlim_broker_mods(struct wlim_broker *broker, uint64_t moment, uint32_t depressed, uint32_t latched, uint32_t locked,
	uint32_t group);

/* The keymap of the seat's keyboard. The token is a number of yours, and comes back with wlim_broker_take. */
int64_t wlim_broker_keymap(struct wlim_broker *broker, uint64_t moment, uint32_t format, uint32_t token, uint32_t size);

/* How keys repeat: how many a second, and after how many milliseconds. */
int64_t wlim_broker_repeat(struct wlim_broker *broker, uint64_t moment, int32_t rate, int32_t delay);

/*
 * ---- What you are told ----
 *
 * Keys and modifiers of a method's virtual keyboard that no grab has, for the focused surface, and where popups stand.
 */
struct wlim_told {
	uint32_t kind;   /* WLIM_PASS, WLIM_PLACED, WLIM_VMODS */
	uint32_t peer;   /* WLIM_PASS, WLIM_VMODS: whose message told it; 0 where none did, as with a key of the seat's keyboard.
	                  * WLIM_PLACED: 0, also where a message placed it, as a field's commit */
	uint32_t id;     /* to which object the message went, as a virtual keyboard: its id there; 0 where peer is 0 */
	uint32_t first;  /* WLIM_PASS: the time;  WLIM_PLACED: the popup's peer; WLIM_VMODS: depressed */
	uint32_t second; /* WLIM_PASS: the key;   WLIM_PLACED: its id there;     WLIM_VMODS: latched */
	int64_t third;   /* WLIM_PASS: its state; WLIM_PLACED: x;                WLIM_VMODS: locked */
	int64_t fourth;  /*                       WLIM_PLACED: y;                WLIM_VMODS: the group */
};

/* Hands out what you were told and waits longest: WLIM_GIVEN. Else WLIM_NOTHING or WLIM_MISSED, and nothing is written. A
 * key of the seat's keyboard that passes is told here as WLIM_PASS too, in order with the others, of peer 0: send it once,
 * by the answer or by this. */
int64_t wlim_broker_next(struct wlim_broker *broker, struct wlim_told *told);

#ifdef __cplusplus
}
#endif
#endif
