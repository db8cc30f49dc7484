/* Tokens of descriptors: who uses them, and which the shell is to close. */
#include "wire.h"

static struct {
	uint32_t count, free, closing; /* ever made, but 0; the first of those that may be made again, of those to be closed */
	unsigned used;
	uint32_t users[TOKENS_MAX], next[TOKENS_MAX];
} all;

uint32_t token_make(void) {
	uint32_t token = all.free;
	if (token > 0)
		all.free = all.next[token];
	else if (all.count + 1 < TOKENS_MAX)
		token = ++all.count;
	else
		return 0;
	all.users[token] = 1;
	all.used++;
	return token;
}

void token_keep(uint32_t token) {
	all.users[token]++;
}

void token_drop(uint32_t token) {
	if (token == 0 || --all.users[token] > 0)
		return;
	all.next[token] = all.closing;
	all.closing = token;
}

void tokens_drop(const uint32_t *tokens, size_t count) {
	for (size_t at = 0; at < count; at++)
		token_drop(tokens[at]);
}

uint32_t token_close(void) {
	uint32_t token = all.closing;
	if (token == 0)
		return 0;
	all.closing = all.next[token];
	all.next[token] = all.free;
	all.free = token;
	all.used--;
	return token;
}

unsigned tokens_used(void) {
	return all.used;
}
