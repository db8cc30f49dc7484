/*
 * The gateway as a machine without I/O. The shell (gateway.c, sockets.c) tells it what came and when, does what it asks
 * for, and writes what is to be sent. The same calls have the same answers: a run can be written down and played again.
 *
 * A descriptor is a token: a number that core_token gives out, of which the shell keeps the file. 0 is none.
 */
#pragma once
#include <stdbool.h>
#include <stddef.h>
#include <stdint.h>

enum { LINKS_MAX = 1000, TOKENS_MAX = 65536, TOKENS_AT_ONCE = 28 /* as libwayland sends and reads */ };
enum side { NEAR, FAR }; /* a link's two: the client, and for it the compositor */
enum role { ALL, PROGRAM, METHOD }; /* by which socket a client came; never ALL */

/* ---- What happened. Each is at a moment, in microseconds, which never falls ---- */

/* Opens the machine: after so many entries the broker is renewed. False: there is no memory. */
bool core_open(uint64_t moment, unsigned long entries);
void core_close(void);
/* A client came, of a process and its command, 0 where nobody knows which: its link, from 1, which isn't another's until
 * EFFECT_END names it. 0: it isn't let in. */
unsigned core_join(uint64_t moment, enum role role, unsigned process, const char *command);
/* How many bytes may come at once; 0: what came before waits, or so much is still to be written to the compositor. And a
 * token for a descriptor; 0: there is none. */
size_t core_room(unsigned link, enum side side);
uint32_t core_token(void);
/* What came: bytes, however cut, and the tokens of what came with them; 0: one that couldn't be kept. */
void core_receive(uint64_t moment, unsigned link, enum side side, const uint8_t *bytes, size_t size,
	const uint32_t *tokens, size_t count);
/* That side hung up, or takes no more; why is NULL where it did so by itself. */
void core_hung_up(uint64_t moment, unsigned link, enum side side, const char *why);
/* A file that was asked for couldn't be made, and is to be sent: it is asked for again. False: it isn't known any more. */
bool core_missing(uint64_t moment, uint32_t token);
/* Descriptors run short: who holds most ends. False: nobody holds many, and nobody does. */
bool core_short(uint64_t moment);
/* After what came: what is to be shown is. Then ends what is to end, once the rest was written: whether anybody did. */
void core_round(uint64_t moment);
bool core_sweep(uint64_t moment);
/* All clients end. */
void core_end(void);
/* In how many milliseconds a round is due also where nothing comes; -1: none is. */
int core_wait(uint64_t moment);
/* The broker is renewed at the next pause, and a record begins a new file. */
void core_renew(uint64_t moment);
/* What stands of a link's client, in words, until the next; NULL: it has none. And whether an input method serves. */
const char *core_state(unsigned link);
bool core_serves(void);

/* ---- What is to be written ---- */

/* The next bytes, and the tokens that go with the first of them. False: nothing is to be written. */
struct written { const uint8_t *bytes; size_t size; unsigned count; uint32_t tokens[TOKENS_AT_ONCE]; };
bool core_next(unsigned link, enum side side, struct written *next);
/* So many bytes were written, with all those tokens. */
void core_wrote(unsigned link, enum side side, size_t size);
/* Whether something is to be written. */
bool core_writes(unsigned link, enum side side);

/* ---- What the shell is to do, at once and in this order ---- */

struct effect {
	enum { EFFECT_READ, EFFECT_TEXT, EFFECT_FILE, EFFECT_COPY, EFFECT_CLOSE, EFFECT_END } kind;
	unsigned link;
	enum side side;
	uint32_t token, from, offset, size;
	const uint8_t *bytes;
};
/*
 * False: there is nothing to do. Else
 * EFFECT_READ:  read once what the compositor has for the client whose link is `from`, and do what comes of that; then
 *               core_go_on with `link` and `side`;
 * EFFECT_TEXT:  core_text with `link` and `side`, and the first `size` bytes of `from`;
 * EFFECT_FILE:  `token` is a file of `size` bytes, as they are at `bytes` now, that nobody can change; NULL: of zeros;
 * EFFECT_COPY:  `token` is a file of `size` bytes that `from` has from `offset` on, which nobody can cut off; then
 *               core_copied;
 * EFFECT_CLOSE: `token` is nothing any more;
 * EFFECT_END:   close both sides of `link`.
 */
bool core_effect(struct effect *effect);
void core_go_on(uint64_t moment, unsigned link, enum side side);
/* So many bytes; NULL: it can't be read, or has less. */
void core_text(uint64_t moment, unsigned link, enum side side, const uint8_t *bytes, size_t size);
/* Whether it was copied. Where `from` has less than that, `is_short`. */
void core_copied(uint64_t moment, uint32_t token, bool is_whole, bool is_short);

/* ---- What the shell gives: where lines go, which answers nothing ---- */

enum outlet {
	OUT_PROBLEMS, OUT_LOG, /* lines for people; messages of text inputs and input methods */
	OUT_LOG_TEXT, /* whether those have what is typed */
	OUT_RECORD, OUT_TAKEN, /* the broker's session, and what clients got of it */
	OUT_CALLS, /* the calls of this header, to play them again */
	OUTLETS
};
extern bool outlets[OUTLETS]; /* whether anybody listens */
/* Text that may be a part of a line. And the record and what was taken go on in other files, of a broker's number. */
void out(enum outlet outlet, const char *format, ...) __attribute__((format(printf, 2, 3)));
void out_begin(unsigned number);
