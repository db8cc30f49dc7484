/*
 * Plays again what `wlim-gateway --calls FILE` wrote: the core is told the same, has to ask for the same and to write
 * the same bytes.
 *
 *     gateway_play < FILE
 */
#include "gateway.h"
#include <inttypes.h>
#include <stdio.h>
#include <stdlib.h>
#include <string.h>

enum { TOKENS = 300, BYTES = 2000000 };

bool outlets[OUTLETS];

static unsigned long line_number;

/* What a line says: a call's words, its bytes and its tokens. */
struct line {
	uint64_t moment;
	char call[40];
	unsigned words[4];
	size_t size, count;
	uint8_t bytes[BYTES];
	uint32_t tokens[TOKENS];
};

void out(enum outlet outlet, const char *format, ...)
{
	if (!format || outlet >= OUTLETS)
		abort();
}

void out_begin(unsigned number)
{
	if (number == 0)
		abort();
}

static void check(bool holds, const char *what)
{
	if (holds)
		return;
	printf("call %lu: %s\n", line_number, what);
	exit(1);
}

/* The bytes and tokens of a line, after its first words. */
static void read_bytes(struct line *line, char *at)
{
	char *end = at;
	line->size = strtoul(at, &end, 10);
	line->count = strtoul(end, &end, 10);
	check(line->size <= sizeof line->bytes && line->count <= TOKENS && *end == ' ', "a line's length");
	end++;
	for (size_t byte = 0; byte < line->size; byte++, end += 2) {
		unsigned number;
		check(sscanf(end, "%2x", &number) == 1, "a byte");
		line->bytes[byte] = (uint8_t)number;
	}
	for (size_t token = 0; token < line->count; token++)
		line->tokens[token] = (uint32_t)strtoul(end, &end, 10);
}

static void effect(const unsigned *words)
{
	struct effect effect;
	check(core_effect(&effect), "the core asks for nothing");
	bool same = effect.kind == words[0] && effect.link == words[1] && effect.token == words[2];
	check(same, "the core asks for another thing");
}

static void wrote(const unsigned *words)
{
	struct written next;
	uint32_t sum = 0;
	check(core_next(words[0], words[1], &next) && next.size >= words[2], "fewer bytes are to be written");
	for (unsigned byte = 0; byte < words[2]; byte++)
		sum = sum * 16777619 + next.bytes[byte] + 1;
	check(sum == words[3], "other bytes are to be written");
	core_wrote(words[0], words[1], words[2]);
}

static void play(struct line *line)
{
	const unsigned *words = line->words;
	const char *call = line->call;
	if (strcmp(call, "open") == 0)
		check(core_open(line->moment, words[0]), "it isn't opened");
	else if (strcmp(call, "join") == 0)
		check(core_join(line->moment, words[0], words[1], "") > 0, "nobody is let in");
	else if (strcmp(call, "token") == 0)
		check(core_token() > 0, "there is no token");
	else if (strcmp(call, "receive") == 0)
		core_receive(line->moment, words[0], words[1], line->bytes, line->size, line->tokens, line->count);
	else if (strcmp(call, "text") == 0)
		core_text(line->moment, words[0], words[1], line->bytes, line->size);
	else if (strcmp(call, "no_text") == 0)
		core_text(line->moment, words[0], words[1], NULL, 0);
	else if (strcmp(call, "hung_up") == 0)
		core_hung_up(line->moment, words[0], words[1], NULL);
	else if (strcmp(call, "go_on") == 0)
		core_go_on(line->moment, words[0], words[1]);
	else if (strcmp(call, "copied") == 0)
		core_copied(line->moment, words[0], words[1], words[2]);
	else if (strcmp(call, "missing") == 0)
		core_missing(line->moment, words[0]);
	else if (strcmp(call, "short") == 0)
		core_short(line->moment);
	else if (strcmp(call, "renew") == 0)
		core_renew(line->moment);
	else if (strcmp(call, "round") == 0)
		core_round(line->moment);
	else if (strcmp(call, "sweep") == 0)
		core_sweep(line->moment);
	else if (strcmp(call, "end") == 0)
		core_end();
	else if (strcmp(call, "close") == 0)
		core_close();
	else if (strcmp(call, "effect") == 0)
		effect(words);
	else if (strcmp(call, "wrote") == 0)
		wrote(words);
	else
		check(false, call);
}

int main(void)
{
	static struct line line;
	static char text[4 * BYTES];
	while (fgets(text, sizeof text, stdin)) {
		int at = 0, end = 0;
		line_number++;
		line.moment = 0;
		memset(line.words, 0, sizeof line.words);
		if (text[0] >= '0' && text[0] <= '9')
			check(sscanf(text, "%" SCNu64 " %n", &line.moment, &at) == 1, "a moment");
		check(sscanf(text + at, "%39s%n", line.call, &end) == 1, "a call");
		at += end;
		bool has_bytes = strcmp(line.call, "receive") == 0 || strstr(line.call, "text");
		for (int word = 0; word < (has_bytes ? 2 : 4) && sscanf(text + at, "%u%n", &line.words[word], &end) == 1; word++)
			at += end;
		if (has_bytes)
			read_bytes(&line, text + at);
		play(&line);
	}
	check(line_number > 0, "there is no call");
	printf("%lu calls\n", line_number);
	return 0;
}
