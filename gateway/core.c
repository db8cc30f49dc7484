/* The machine's calls, by links: each sets the moment, and is written down where somebody listens. */
#include "gateway.h"
#include <inttypes.h>

enum {
	ASKED_MAX = 8192, /* each side of a link waits for one thing at a time, and ends once */
	CALLS_PIECE = 4096, /* bytes that are spelled at once */
};

struct gateway gateway;

static struct {
	struct client *links[LINKS_MAX + 1];
	bool held[LINKS_MAX + 1]; /* the shell hasn't closed it yet */
	struct effect asked[ASKED_MAX]; /* a ring */
	unsigned first, count;
} core;

static void set_moment(uint64_t moment) {
	if (core.count == 0) /* the shell has made what it was asked for */
		keymaps_sweep(false);
	gateway.moment = moment > gateway.moment ? moment : gateway.moment;
}

/* A line of the calls; of one that comes at a moment. */
#define CALLED(format, ...) (void)(outlets[OUT_CALLS] && (out(OUT_CALLS, format "\n", ##__VA_ARGS__), 1))
#define CALLED_AT(when, format, ...) \
	(set_moment(when), CALLED("%" PRIu64 " " format, gateway.moment, ##__VA_ARGS__))

static void called_with(const char *call, unsigned link, enum side side, const uint8_t *bytes, size_t size,
	const uint32_t *tokens, size_t count) {
	if (!outlets[OUT_CALLS])
		return;
	out(OUT_CALLS, "%" PRIu64 " %s %u %d %zu %zu ", gateway.moment, call, link, side, size, count);
	for (size_t at = 0, part; at < size; at += part) {
		part = size - at < CALLS_PIECE ? size - at : CALLS_PIECE;
		out(OUT_CALLS, "%s", spell(bytes + at, part));
	}
	for (size_t at = 0; at < count; at++)
		out(OUT_CALLS, " %u", tokens[at]);
	out(OUT_CALLS, "\n");
}

void ask_shell(struct effect effect) {
	if (core.count < ASKED_MAX)
		core.asked[(core.first + core.count++) % ASKED_MAX] = effect;
}

bool core_effect(struct effect *effect) {
	*effect = (struct effect){ .kind = EFFECT_CLOSE, .token = token_close() };
	if (effect->token == 0 && core.count == 0)
		return false;
	if (effect->token == 0) {
		*effect = core.asked[core.first++ % ASKED_MAX];
		core.count--;
		if (effect->kind == EFFECT_END)
			core.held[effect->link] = false;
	}
	CALLED("effect %d %u %u", effect->kind, effect->link, effect->token);
	return true;
}

bool core_open(uint64_t moment, unsigned long entries) {
	gateway.moment = moment;
	gateway.entries = entries;
	CALLED("%" PRIu64 " open %lu", moment, entries);
	return broker_open();
}

void core_close(void) {
	CALLED("close");
	keymaps_sweep(true);
	token_drop(gateway.clear);
	gateway.clear = 0;
	broker_close();
}

unsigned core_join(uint64_t moment, enum role role, unsigned process, const char *command) {
	unsigned link = 1;
	set_moment(moment);
	while (link <= LINKS_MAX && core.held[link])
		link++;
	struct process *of = link <= LINKS_MAX ? process_join(process, command) : NULL;
	struct client *client = of ? client_open(role, of) : NULL;
	if (of && !client)
		process_leave(of);
	if (!client)
		return out(OUT_PROBLEMS, "a client of process %u, %s, isn't let in: there %s\n", process, command,
			of ? "is no memory" : "are too many"), 0;
	CALLED("%" PRIu64 " join %d %u %s", gateway.moment, role, process, command);
	client->link = link;
	core.links[link] = client;
	core.held[link] = true;
	return link;
}

size_t core_room(unsigned link, enum side side) {
	struct client *client = core.links[link];
	size_t room = client && !client->ending ? wire_room(wire_of(client, side)) : 0;
	if (room > 0 && side == NEAR)
		room = wire_waiting(&client->far) < WIRE_SLOW ? budget_room(client, room) : 0;
	return room;
}

bool core_missing(uint64_t moment, uint32_t token) {
	CALLED_AT(moment, "missing %u", token);
	return keymap_again(token) || popup_clear_again(token);
}

bool core_short(uint64_t moment) {
	CALLED_AT(moment, "short");
	return budgets_short();
}

uint32_t core_token(void) {
	CALLED("token");
	return token_make();
}

void core_receive(uint64_t moment, unsigned link, enum side side, const uint8_t *bytes, size_t size,
		const uint32_t *tokens, size_t count) {
	struct client *client = core.links[link];
	set_moment(moment);
	called_with("receive", link, side, bytes, size, tokens, count);
	bool lost = false;
	for (size_t each = 0; each < count; each++)
		lost |= tokens[each] == 0;
	if (lost)
		budgets_short(); /* before who sent it */
	if (client && !client->ending) {
		if (side == NEAR)
			budget_came(client, size);
		if (!wire_keep(wire_of(client, side), bytes, size, tokens, count))
			client_refuse(client, DISPLAY, ERROR_METHOD, lost ? "there is no room for its descriptors"
				: "too many descriptors wait for their messages");
		return client_play(client, side);
	}
	tokens_drop(tokens, count);
}

void core_hung_up(uint64_t moment, unsigned link, enum side side, const char *why) {
	struct client *client = core.links[link];
	CALLED_AT(moment, "hung_up %u %d %s", link, side, why ? why : "");
	if (client && (why || side == FAR))
		client_end(client, why ? why : "the compositor closed its connection");
	else if (client)
		client->ending = true;
}

/* The first message, which waited, is played, and those after it. */
static void answered(struct client *client, enum side side) {
	struct wire *wire = client ? wire_of(client, side) : NULL;
	if (!wire || wire->stands != WAITS)
		return;
	wire->stands = ANSWERED;
	client_play(client, side);
}

void core_go_on(uint64_t moment, unsigned link, enum side side) {
	struct client *client = core.links[link];
	CALLED_AT(moment, "go_on %u %d", link, side);
	answered(client, side);
}

void core_text(uint64_t moment, unsigned link, enum side side, const uint8_t *bytes, size_t size) {
	struct client *client = core.links[link];
	set_moment(moment);
	called_with(bytes ? "text" : "no_text", link, side, bytes, bytes ? size : 0, NULL, 0);
	if (client)
		client->text = bytes;
	answered(client, side);
}

void core_copied(uint64_t moment, uint32_t token, bool is_whole, bool is_short) {
	CALLED_AT(moment, "copied %u %d %d", token, is_whole, is_short);
	popups_copied(token, is_whole, is_short);
}

void core_round(uint64_t moment) {
	CALLED_AT(moment, "round");
	budgets_round();
	if (broker_renewal() == 0)
		renew();
	popups_round();
}

bool core_sweep(uint64_t moment) {
	bool ended = false;
	CALLED_AT(moment, "sweep");
	for (struct client **place = &gateway.clients, *client; (client = *place); ) {
		if (client->far.full)
			client_end(client, "the compositor takes no more of it");
		if (client->near.full)
			client_end(client, "it doesn't read");
		if (!client->ending) {
			place = &client->next;
			continue;
		}
		*place = client->next;
		core.links[client->link] = NULL;
		ask_shell((struct effect){ .kind = EFFECT_END, .link = client->link });
		client_close(client);
		ended = true;
	}
	return ended;
}

void core_end(void) {
	CALLED("end");
	for (struct client *client = gateway.clients; client; client = client->next)
		client->ending = true;
}

int core_wait(uint64_t moment) {
	set_moment(moment);
	const int waits[] = { broker_renewal(), popups_wait(), budgets_wait() };
	int least = -1;
	for (size_t each = 0; each < sizeof waits / sizeof *waits; each++)
		if (waits[each] >= 0 && (least < 0 || waits[each] < least))
			least = waits[each];
	return least;
}

void core_renew(uint64_t moment) {
	CALLED_AT(moment, "renew");
	broker_ask();
}

const char *core_state(unsigned link) {
	return core.links[link] ? client_state(core.links[link]) : NULL;
}

bool core_serves(void) {
	const struct client *client = gateway.clients;
	while (client && client->serves == 0)
		client = client->next;
	return client;
}

bool core_next(unsigned link, enum side side, struct written *next) {
	struct client *client = core.links[link];
	return client && wire_next(wire_of(client, side), next);
}

void core_wrote(unsigned link, enum side side, size_t size) {
	struct wire *wire = wire_of(core.links[link], side);
	uint32_t sum = 0;
	for (size_t byte = 0; outlets[OUT_CALLS] && byte < size; byte++)
		sum = sum * 16777619 + wire->out[wire->out_from + byte] + 1;
	CALLED("wrote %u %d %zu %u", link, side, size, sum);
	wire_wrote(wire, size);
}

bool core_writes(unsigned link, enum side side) {
	struct client *client = core.links[link];
	return client && wire_waiting(wire_of(client, side)) > 0;
}
