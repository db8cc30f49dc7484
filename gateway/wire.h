/* One side of a link: the bytes and tokens that came from it and aren't played, and those that are to be written. */
#pragma once
#include "core.h"

enum {
	WIRE_READ = 16384, /* bytes that come at once: who floods keeps the others waiting no longer than these take */
	WIRE_TOKENS_IN = 256, /* descriptors that wait for their messages */
	WIRE_SLOW = 262144, /* who has so many bytes to take keeps who sends them waiting */
	WIRE_FULL = 1048576, /* who has more bytes to take than these is ended, and who has more descriptors than those */
	WIRE_TOKENS_OUT = 1024,
};

/* All zero it is empty. */
struct wire {
	bool full; /* more was to be sent than WIRE_FULL or WIRE_TOKENS_OUT */
	enum { PLAYS, WAITS, ANSWERED } stands; /* the first message waits for what the shell is asked; it is there */
	size_t in_from, in_to, out_from, out_to;
	unsigned token_count, parcel_count;
	uint64_t sent; /* bytes, since it was opened: messages begin at numbers of these */
	struct parcel { uint32_t token; uint64_t message; } parcels[WIRE_TOKENS_OUT]; /* to send; where its message begins */
	uint32_t tokens[WIRE_TOKENS_IN]; /* that came */
	uint8_t in[65536 + WIRE_READ], out[WIRE_FULL];
};

/* How many bytes may come; and keeps those that came. False: too many tokens wait for their messages. */
size_t wire_room(const struct wire *wire);
bool wire_keep(struct wire *wire, const uint8_t *bytes, size_t size, const uint32_t *tokens, size_t count);
/* Takes the first tokens that wait. False: fewer do, and all of them stay. */
bool wire_take_tokens(struct wire *wire, unsigned count, uint32_t *tokens);
/* Sends the bytes of a message, later; its tokens are the wire's from now on. */
void wire_send(struct wire *wire, const uint8_t *bytes, size_t size, const uint32_t *tokens, unsigned count);
/* How many bytes wait to be sent. */
static inline size_t wire_waiting(const struct wire *wire) { return wire->out_to - wire->out_from; }
/* What is to be written next; so much of it was. And lets go what waits. */
bool wire_next(const struct wire *wire, struct written *next);
void wire_wrote(struct wire *wire, size_t size);
void wire_close(struct wire *wire);

/* ---- Tokens (tokens.c): one that has no user any more is closed by the shell, and then is another's ---- */
uint32_t token_make(void); /* 0: there is none */
void token_keep(uint32_t token);
void token_drop(uint32_t token);
void tokens_drop(const uint32_t *tokens, size_t count);
/* The next one that is to be closed; 0: there is none. */
uint32_t token_close(void);
unsigned tokens_used(void);
