/* Where keys and modifiers were typed that went to a grab: given back, they go there or nowhere. Surfaces are numbers. */
#include "gateway.h"
#include <string.h>

enum { KEYS_MAX = 256, CHANGES_MAX = 64, LATELY = 5000000 /* microseconds; so long something comes back */ };

static struct {
	struct typed {
		uint32_t time, key, state;
		uint64_t surface, moment; /* surface 0: there is none */
	} keys[KEYS_MAX]; /* a ring, as the next */
	struct changed {
		uint32_t modifiers[4];
		uint64_t surface, moment;
	} changes[CHANGES_MAX];
	unsigned keys_next, changes_next;
} all;

void typed_key(uint64_t surface, uint32_t time, uint32_t key, uint32_t state) {
	all.keys[all.keys_next++ % KEYS_MAX] = (struct typed){ time, key, state, surface, gateway.moment };
}

void typed_modifiers(uint64_t surface, const uint32_t m[4]) {
	all.changes[all.changes_next++ % CHANGES_MAX] = (struct changed){ { m[0], m[1], m[2], m[3] }, surface, gateway.moment };
}

/*
 * A method repeats the key's time. Where it has another, it is a repeat of the last press, if it comes so long after it:
 * else each such key of the last seconds has to have been typed here: better lost than in another window.
 */
bool typed_key_here(uint64_t surface, uint32_t time, uint32_t key, uint32_t repeats) {
	const struct typed *last = NULL;
	bool lately_here = true;
	for (unsigned at = 0; at < KEYS_MAX; at++) {
		const struct typed *typed = &all.keys[(all.keys_next + at) % KEYS_MAX]; /* the oldest first */
		if (typed->surface == 0 || typed->key != key)
			continue;
		if (typed->time == time)
			return typed->surface == surface;
		lately_here &= typed->surface == surface || gateway.moment - typed->moment > LATELY;
		last = typed;
	}
	uint32_t after = last && last->state != 0 ? time - last->time : 0;
	return after >= repeats && after < INT32_MAX ? last->surface == surface : lately_here;
}

bool typed_modifiers_here(uint64_t surface, const uint32_t modifiers[4]) {
	bool elsewhere = false;
	for (const struct changed *changed = all.changes; changed < all.changes + CHANGES_MAX; changed++) {
		if (changed->surface == 0 || memcmp(changed->modifiers, modifiers, sizeof changed->modifiers) != 0)
			continue;
		if (changed->surface == surface)
			return true;
		elsewhere |= gateway.moment - changed->moment <= LATELY;
	}
	return !elsewhere;
}
