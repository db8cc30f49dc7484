/*
 * Plays a session (docs/FORMATS.md) by bytes through libwlim. Prints what is taken and what the shell is told, as it comes;
 * at the end how each peer stands, with how many bytes are stored for it, how many entries there are, and what is left.
 * tests/embed_bytes.py holds that against what `wlim replay` prints. A line `at` isn't played.
 *
 *     play_session < one_batch.session
 */
#include <inttypes.h>
#include <stdio.h>
#include <stdlib.h>
#include <string.h>
#include <wlim.h>

enum { MOST_BYTES = 4096, MOST_TOKENS = 256, MOST_WORDS = 4 + MOST_TOKENS };

static struct wlim_broker broker;
static uint64_t moment;

static const char *const standings[] = { [WLIM_ALIVE] = "alive", [WLIM_GONE] = "gone", [WLIM_BAD] = "bad", [WLIM_OVER] = "full" };

/* Takes of what is stored for a peer, and prints it with its tokens. */
static int64_t take(uint32_t peer, size_t room)
{
	uint8_t bytes[MOST_BYTES];
	uint32_t tokens[MOST_TOKENS];
	struct wlim_taken taken;
	int64_t answer = wlim_broker_take(&broker, moment, peer, bytes, room, tokens, MOST_TOKENS, &taken);
	if (answer != WLIM_GIVEN)
		return answer;
	printf("took %" PRIu32 " ", peer);
	for (size_t at = 0; at < taken.bytes; at++)
		printf("%02x", bytes[at]);
	for (size_t at = 0; at < taken.tokens; at++)
		printf(" %" PRIu32, tokens[at]);
	putchar('\n');
	return answer;
}

/* Prints what the shell is told. */
static void show_told(void)
{
	struct wlim_told told;
	int64_t answer;
	while ((answer = wlim_broker_next(&broker, &told)) == WLIM_GIVEN) {
		const char *name = told.kind == WLIM_PASS ? "pass" : told.kind == WLIM_PLACED ? "placed" : "vmods";
		printf("%s %" PRIu32 " %" PRIu32 " %" PRId64, name, told.first, told.second, told.third);
		if (told.kind != WLIM_PASS)
			printf(" %" PRId64, told.fourth);
		putchar('\n');
	}
	if (answer == WLIM_MISSED)
		puts("missed");
}

static int64_t receive(uint32_t peer, const char *hex)
{
	uint8_t bytes[MOST_BYTES];
	size_t length = 0;
	for (; hex[0] && hex[1] && length < sizeof bytes; hex += 2)
		length += sscanf(hex, "%2hhx", &bytes[length]) == 1;
	return wlim_broker_receive(&broker, moment, peer, bytes, length, NULL, 0);
}

static int64_t receive_tokens(uint32_t peer, char **word)
{
	uint32_t tokens[MOST_TOKENS];
	size_t count = 0;
	for (; word[count] && count < MOST_TOKENS; count++)
		tokens[count] = (uint32_t)strtoul(word[count], NULL, 10);
	return wlim_broker_receive(&broker, moment, peer, NULL, 0, tokens, count);
}

/* What a line of a session says, without its stamp. */
static int64_t step(char **word)
{
	uint32_t n[7] = { 0 };
	for (int at = 1; at < 8 && word[at]; at++)
		n[at - 1] = (uint32_t)strtoll(word[at], NULL, 10);
#define IS(name) (strcmp(word[0], name) == 0)
	if (IS("join")) return wlim_broker_join(&broker, moment,
		strcmp(word[1], "app") == 0 ? WLIM_APP : strcmp(word[1], "method") == 0 ? WLIM_METHOD : WLIM_KEYED);
	if (IS("bytes")) return receive(n[0], word[2]);
	if (IS("tokens")) return receive_tokens(n[0], word + 2);
	if (IS("gone")) return wlim_broker_gone(&broker, moment, n[0]);
	if (IS("take")) return take(n[0], n[1]);
	if (IS("focus")) return wlim_broker_focus(&broker, moment, n[0], n[1]);
	if (IS("unfocus")) return wlim_broker_unfocus(&broker, moment);
	if (IS("area")) return wlim_broker_area(&broker, moment, n[0], n[1], n[2], n[3], n[4], n[5]);
	if (IS("screen")) return wlim_broker_screen(&broker, moment, n[0], n[1]);
	if (IS("key")) return wlim_broker_key(&broker, moment, n[0], n[1], n[2]);
	if (IS("mods")) return wlim_broker_mods(&broker, moment, n[0], n[1], n[2], n[3]);
	if (IS("keymap")) return wlim_broker_keymap(&broker, moment, n[0], n[1], n[2]);
	if (IS("repeat")) return wlim_broker_repeat(&broker, moment, n[0], n[1]);
	exit(3);
}

/* How all stand, and what is left. Each end of a peer is an entry that isn't counted. */
static void show_end(const char *how)
{
	struct wlim_used used;
	uint32_t peers = (uint32_t)wlim_broker_peers(&broker), ends = 0;
	if (wlim_broker_used(&broker, &used) != WLIM_GIVEN)
		exit(4);
	for (uint32_t peer = 1; peer <= peers; peer++) {
		int64_t standing = wlim_broker_standing(&broker, peer);
		ends += standing != WLIM_ALIVE;
		printf("stands %" PRIu32 " %s %" PRId64 "\n", peer, standings[standing], wlim_broker_stored(&broker, peer));
	}
	printf("%s %" PRIu32 "\n", how, used.entries + (strcmp(how, "end") == 0 ? ends : 0));
	for (int64_t peer = 0; (peer = wlim_broker_ready(&broker, (uint32_t)peer)) > 0; ) {
		int64_t answer;
		while ((answer = take((uint32_t)peer, MOST_BYTES)) == WLIM_GIVEN)
			;
		if (answer == WLIM_FULL)
			printf("full for %" PRId64 "\n", peer);
	}
}

/* Opens the broker as the header says. Answers its form. */
static int header(void)
{
	uint32_t entries, store;
	uint64_t weight = 134217728;
	int form;
	if (scanf("session %d %" SCNu32 " %" SCNu32, &form, &entries, &store) != 3 ||
	    (form == 2 && scanf(" %" SCNu64, &weight) != 1) || getchar() != '\n' ||
	    wlim_broker_open(&broker, store, entries, weight) != WLIM_GIVEN)
		exit(3);
	return form;
}

int main(void)
{
	static char line[1 << 14];
	int form = header();
	const char *how = "end";
	while (fgets(line, sizeof line, stdin) && strncmp(line, "end", 3) != 0) {
		char *word[MOST_WORDS + 1] = { NULL }, *at = line;
		line[strcspn(line, "\n")] = '\0';
		for (int of = 0; of < MOST_WORDS && (word[of] = strsep(&at, " ")); of++)
			;
		if (form == 2)
			moment = strtoull(word[0], NULL, 10);
		int64_t answer = step(word + (form == 2 ? 2 : 0));
		show_told();
		if (answer == WLIM_FULL) {
			how = "journal full";
			break;
		}
		if (answer == WLIM_NO_MEMORY || answer == WLIM_RANGE)
			exit(4);
	}
	show_end(how);
	wlim_broker_close(&broker);
	return 0;
}
