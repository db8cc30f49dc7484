/* The seat, a part of gateway.h: its keyboard, what was typed, keymaps. */
#pragma once

/* ---- The keyboard of the seat (keyboard.c) ---- */
/* An event of a wl_keyboard of the seat: whether the client gets it. The focus leaves its surface; 0: any of its. */
bool keyboard_event(struct client *client, const struct message *message);
/* Of an enter: the client that had the focus, for which what the compositor told is to be read before; or NULL. */
struct client *keyboard_reads_first(const struct client *client, const struct message *message);
void keyboard_leave(const struct client *client, uint32_t surface);
/* A key or modifiers that a client's board sent and no grab has: for who has the focus, with the board's keymap. */
void keyboard_give(const struct client *from, uint32_t keymap, const struct wlim_told *told);
/* A board of the client ends, of 0 all of them: the keys that it pressed are released. The serving method does, which is
 * the client's: the field is left and entered besides, and keeps no preedit. */
void keyboard_board_ended(const struct client *client, uint32_t board);
void keyboard_method_ended(const struct client *client);
/* Whether the key went to the focused window when the board pressed it. */
bool keyboard_has(const struct client *client, uint32_t board, uint32_t key);
/* The client is a peer from now on. A new broker is told the keys that a grab has, and at last what else stands. */
void keyboard_client_joined(const struct client *client);
void keyboard_press(void);
void keyboard_join_broker(void);

/* A key or modifiers go to a grab, typed at a surface, by its number; whether they were typed there that are given back: a
 * key so many milliseconds after its press may be a repeat of it (typed.c). */
void typed_key(uint64_t surface, uint32_t time, uint32_t key, uint32_t state);
void typed_modifiers(uint64_t surface, const uint32_t modifiers[4]);
bool typed_key_here(uint64_t surface, uint32_t time, uint32_t key, uint32_t repeats);
bool typed_modifiers_here(uint64_t surface, const uint32_t modifiers[4]);

/* Who has the focus, and on which surface; NULL: nobody. */
struct client *keyboard_focus(uint32_t *surface);
/* A surface isn't shown any more, which the compositor may not say; it is again, and the compositor never said else. */
void keyboard_unmapped(const struct client *client, uint32_t surface);
void keyboard_mapped(struct client *client, uint32_t surface);

/* ---- Keymaps: the same text has the same number, which is its token at the broker (keymaps.c) ---- */
enum { KEYMAP_MAX = 1048576 /* bytes */ };
struct keymap {
	uint32_t format, size, token; /* the token is of a copy that nobody can change */
	uint8_t *text;
	uint32_t number, users;
	const struct process *process; /* whose board brought it first; NULL: the compositor */
};
/* The number of a keymap with the text, from 1, which has a user more. 0: there is none (NULL), or the process has its
 * share of them. And it has a user less. */
uint32_t keymap_take(const struct process *process, uint32_t format, const uint8_t *text, uint32_t size);
void keymap_drop(uint32_t number);
/* The keymap with the number, and its token to be sent; NULL and 0: there is none any more. */
struct keymap *keymap_find(uint32_t number);
uint32_t keymap_token(uint32_t number);
/* Asks the shell for the keymap's file. False: the token is of none. */
bool keymap_again(uint32_t token);
/* Those without users are let go, or all, once the shell has made their files. */
void keymaps_sweep(bool all);
