/*
 * What the gateway's tests have in the place of its shell: clients whose bytes go to the core and come from it without
 * sockets, and files that are bytes here. The core's lines are left out.
 */
#include "gateway.h"
#include <stdarg.h>
#include <stdio.h>
#include <stdlib.h>
#include <string.h>

bool outlets[OUTLETS];

struct pile {
	size_t size;
	unsigned files;
	uint8_t bytes[400000];
};

struct place {
	struct client *client;
	unsigned link; /* 0: it has ended */
	struct pile told, asked; /* what the client was sent since the last look, and the compositor */
	struct pile coming; /* what the compositor wrote and the gateway hasn't read; its files are tokens already */
	uint32_t tokens[64];
};

static uint64_t now = 1000000;
enum { OPEN_MAX = 128 };
static struct place *open_places[OPEN_MAX];
static unsigned process; /* of whom comes next; 0: one that nobody knows */
static struct { uint8_t *bytes; size_t size; } files[TOKENS_MAX];

void out(enum outlet outlet, const char *format, ...)
{
	static char line[20000];
	va_list arguments;
	if (!format || outlet >= OUTLETS)
		abort();
	va_start(arguments, format);
	if (outlets[outlet])
		vsnprintf(line, sizeof line, format, arguments);
	va_end(arguments);
}

void out_begin(unsigned number)
{
	if (number == 0)
		abort();
}

/* A token of a file with the bytes. */
static inline uint32_t make_file(const void *bytes, size_t size)
{
	uint32_t token = core_token();
	files[token].bytes = malloc(size + 1);
	files[token].size = size;
	memcpy(files[token].bytes, bytes, size);
	return token;
}

static inline struct place *place_of(unsigned link)
{
	for (unsigned at = 0; at < OPEN_MAX; at++)
		if (open_places[at] && open_places[at]->link == link)
			return open_places[at];
	abort();
}

static void do_effects(void);

/* What the compositor wrote to the client comes. */
static inline void read_far(struct place *place)
{
	size_t at = 0, room;
	while (at < place->coming.size && (room = core_room(place->link, FAR)) > 0) {
		size_t size = place->coming.size - at < room ? place->coming.size - at : room;
		core_receive(now, place->link, FAR, place->coming.bytes + at, size, place->tokens, at == 0 ? place->coming.files : 0);
		at += size;
		if (at == size)
			place->coming.files = 0;
		do_effects();
	}
	place->coming.size -= at;
	memmove(place->coming.bytes, place->coming.bytes + at, place->coming.size);
}

static inline void do_effect(const struct effect *effect)
{
	bool has = effect->from > 0 && effect->kind != EFFECT_READ
		&& files[effect->from].size >= (size_t)effect->offset + effect->size;
	const uint8_t *bytes = effect->bytes;
	if (effect->kind == EFFECT_READ) {
		read_far(place_of(effect->from));
		core_go_on(now, effect->link, effect->side);
	} else if (effect->kind == EFFECT_TEXT) {
		core_text(now, effect->link, effect->side, has ? files[effect->from].bytes : NULL, effect->size);
	} else if (effect->kind == EFFECT_FILE || effect->kind == EFFECT_COPY) {
		files[effect->token].bytes = calloc(1, effect->size + 1);
		files[effect->token].size = effect->size;
		if (effect->kind == EFFECT_COPY)
			bytes = has ? files[effect->from].bytes + effect->offset : NULL;
		if (bytes)
			memcpy(files[effect->token].bytes, bytes, effect->size);
		if (effect->kind == EFFECT_COPY)
			core_copied(now, effect->token, has, !has);
	} else if (effect->kind == EFFECT_CLOSE) {
		free(files[effect->token].bytes);
		files[effect->token].bytes = NULL;
	} else {
		place_of(effect->link)->link = 0;
	}
}

static inline void do_effects(void)
{
	struct effect effect;
	while (core_effect(&effect))
		do_effect(&effect);
}

static inline void open_client(struct place *place, enum role role)
{
	unsigned at = 0;
	while (open_places[at] && open_places[at] != place)
		at++;
	open_places[at] = place;
	*place = (struct place){ .link = core_join(++now, role, process, "test") };
	place->client = gateway.clients;
	if (place->link == 0)
		exit(1);
}

static inline void send_client(struct place *place, const uint8_t *bytes, size_t size, const uint32_t *tokens,
	size_t count)
{
	for (size_t at = 0, part; at == 0 || at < size; at += part) {
		part = size - at < 16384 ? size - at : 16384;
		core_receive(++now, place->link, NEAR, bytes + at, part, tokens, at == 0 ? count : 0);
		do_effects();
		if (part == 0 || place->link == 0)
			return;
	}
}

/* The compositor writes something, which isn't read yet. */
static inline void write_far(struct place *place, const uint8_t *bytes, size_t size, const uint32_t *tokens,
	unsigned count)
{
	if (place->coming.size + size > sizeof place->coming.bytes || place->coming.files + count > 64)
		exit(1);
	memcpy(place->coming.bytes + place->coming.size, bytes, size);
	for (unsigned at = 0; at < count; at++)
		place->tokens[place->coming.files++] = tokens[at];
	place->coming.size += size;
}

static inline void collect_side(struct place *place, enum side side)
{
	struct pile *pile = side == NEAR ? &place->told : &place->asked;
	struct written next;
	while (core_next(place->link, side, &next)) {
		if (pile->size + next.size > sizeof pile->bytes)
			pile->size = 0; /* nobody looks at so much */
		if (next.size > sizeof pile->bytes)
			next.size = sizeof pile->bytes;
		memcpy(pile->bytes + pile->size, next.bytes, next.size);
		pile->size += next.size;
		pile->files += next.count;
		for (unsigned at = 0; at < next.count; at++)
			if (!files[next.tokens[at]].bytes)
				abort(); /* what is sent is there */
		core_wrote(place->link, side, next.size);
	}
}

/* A round ends: all that is to be sent is, and who ends has ended. */
static inline void finish_round(void)
{
	core_round(++now);
	do {
		do_effects();
		for (unsigned at = 0; at < OPEN_MAX; at++)
			if (open_places[at] && open_places[at]->link > 0) {
				collect_side(open_places[at], FAR);
				collect_side(open_places[at], NEAR);
			}
	} while (core_sweep(now));
}

static inline void close_client(struct place *place)
{
	if (place->link > 0)
		core_hung_up(++now, place->link, NEAR, NULL);
	finish_round();
	for (unsigned at = 0; at < OPEN_MAX; at++)
		if (open_places[at] == place)
			open_places[at] = NULL;
	for (unsigned at = 0; at < place->coming.files; at++)
		token_drop(place->tokens[at]);
	do_effects();
}

/* The gateway; and all that it has goes. */
static inline void open_gateway(void)
{
	if (!core_open(now, 3000000))
		exit(1);
}

static inline void close_gateway(void)
{
	core_close();
	do_effects();
}
