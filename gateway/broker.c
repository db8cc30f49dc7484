/* The broker: libwlim's family of bytes, and the session's record. After each call what clients are told is sent. */
#include "gateway.h"
#include <inttypes.h>
#include <stdarg.h>
#include <stdio.h>
#include <string.h>

enum {
	STORE = 65536, ENTRIES = 4000000, WEIGHT = 536870912, /* what a broker holds at most, as wlim.h says */
	WEIGHT_OLD = 400000000, /* so heavy it is renewed */
	FULL = 8, SPENT = 32, /* such a part is left where it is renewed without a pause, and closed before there is another */
	QUIET = 500000, /* microseconds without a step, after which a renewal cuts nothing in two */
	AGAIN = 10000000, /* microseconds after which a renewal is tried again that couldn't be made */
	PIECE = 4096, /* bytes of a line of the session, and of one taking */
	LINE = 2 * PIECE + 100, /* characters of a line of the session */
};

static struct wlim_broker brokers[2]; /* the next one opens before the last one closes */
struct wlim_broker *broker = brokers;

static struct {
	unsigned number; /* of the broker, from 1: each has a record */
	uint64_t moment, again; /* of the last step of who types, and for whom; no renewal comes before */
	bool is_idle; /* what is done now is another's */
	bool asked, lost; /* for a renewal; it missed an order, and is renewed at once */
} self;

/* Writes a call's line, if it was taken. Answers the answer. */
int64_t broker_record(int64_t answer, const char *format, ...) {
	static char line[LINE];
	va_list arguments;
	if (!self.is_idle)
		self.moment = gateway.moment;
	self.lost |= answer == WLIM_NO_MEMORY || answer == WLIM_FULL;
	if (self.lost)
		out(OUT_PROBLEMS, "there is no memory for a step\n");
	if (answer < WLIM_GIVEN || !outlets[OUT_RECORD])
		return answer;
	va_start(arguments, format);
	vsnprintf(line, sizeof line, format, arguments);
	va_end(arguments);
	out(OUT_RECORD, "%" PRIu64 " 0 %s\n", gateway.moment, line);
	return answer;
}

const char *spell(const uint8_t *bytes, size_t size) {
	static char text[2 * (STORE + PIECE) + 1];
	text[2 * size] = 0;
	for (size_t at = 0; at < 2 * size; at++)
		text[at] = "0123456789abcdef"[bytes[at / 2] >> (at % 2 ? 0 : 4) & 15];
	return text;
}

static bool open_at(struct wlim_broker *place) {
	if (place->live || wlim_broker_open(place, STORE, ENTRIES, WEIGHT) == WLIM_GIVEN)
		return true;
	self.again = gateway.moment + AGAIN;
	return out(OUT_PROBLEMS, "there is no memory for a broker: in %d s it is tried again\n", AGAIN / 1000000), false;
}

bool broker_open(void) {
	if (!open_at(broker))
		return false;
	self.asked = self.lost = false;
	out_begin(++self.number);
	if (outlets[OUT_RECORD])
		out(OUT_RECORD, "session 2 %d %d %d\n", ENTRIES, STORE, WEIGHT);
	return true;
}

void broker_close(void) {
	if (outlets[OUT_RECORD] && broker->live)
		out(OUT_RECORD, "end\n");
	wlim_broker_close(broker);
	broker = brokers + (broker == brokers);
}

static struct wlim_used broker_used(void) {
	struct wlim_used used = { .entries = ENTRIES }; /* where none is open */
	wlim_broker_used(broker, &used);
	return used;
}

/* Whether less than such a part of it is left. */
static bool is_used(unsigned part) {
	struct wlim_used used = broker_used();
	return used.entries > ENTRIES - ENTRIES / part || used.weight > WEIGHT - WEIGHT / part;
}

bool broker_prepare(void) {
	return open_at(brokers + (broker == brokers)) || is_used(SPENT);
}

void broker_ask(void) {
	self.asked = true;
}

int broker_renewal(void) {
	struct wlim_used used = broker_used();
	if (!self.asked && !self.lost && used.entries <= gateway.entries && used.weight <= WEIGHT_OLD)
		return -1;
	uint64_t quiet = self.lost || is_used(FULL) ? 0 : self.moment + QUIET, due = quiet > self.again ? quiet : self.again;
	bool is_due = gateway.moment >= due || (broker->live && is_used(SPENT));
	return is_due ? 0 : (int)((due - gateway.moment) / 1000) + 1;
}

static struct client *client_of(uint32_t peer) {
	struct client *client = peer > 0 ? gateway.clients : NULL;
	while (client && client->peer != peer)
		client = client->next;
	return client;
}

/* There was no memory for what it sent or is told: it joins the next broker, at a pause. */
static void miss(struct client *client) {
	broker_record(WLIM_GIVEN, "gone %u", client->peer);
	wlim_broker_gone(broker, gateway.moment, client->peer);
	out(OUT_PROBLEMS, "client %u (%s) waits for another broker\n", client->number, process_named(client->process));
	client->peer = 0;
	client->waits = true;
	broker_ask();
}

/* Takes all that is stored for a peer: whole messages. */
static void take(uint32_t peer) {
	static uint8_t bytes[STORE + PIECE];
	static uint32_t tokens[STORE / 16 + 256];
	struct wlim_taken taken;
	struct client *client = client_of(peer);
	size_t size = 0, count = 0;
	int64_t answer;
	while ((answer = wlim_broker_take(broker, gateway.moment, peer, bytes + size, PIECE, tokens + count, 256, &taken))
			== WLIM_GIVEN) {
		broker_record(WLIM_GIVEN, "take %u %zu", peer, taken.bytes);
		size += taken.bytes;
		count += taken.tokens;
	}
	if (outlets[OUT_TAKEN])
		out(OUT_TAKEN, "%u %s\n", peer, spell(bytes, size));
	if (client)
		client_told(client, bytes, size, tokens);
	if (client && (answer == WLIM_NO_MEMORY || answer == WLIM_FULL))
		miss(client);
	else if (client && wlim_broker_standing(broker, peer) != WLIM_ALIVE)
		client_refuse(client, DISPLAY, ERROR_MEMORY, "what it was to be told didn't fit its store");
}

/* Sends what clients are told, and then what boards gave back, which so stands behind the batches before it. */
int64_t broker_done(int64_t answer) {
	struct wlim_told told;
	int64_t next;
	for (int64_t peer = 0; (peer = wlim_broker_ready(broker, (uint32_t)peer)) > 0; )
		take((uint32_t)peer);
	while ((next = wlim_broker_next(broker, &told)) == WLIM_GIVEN) {
		struct client *client = client_of(told.peer);
		const struct object *board = client ? object_live(client, told.id) : NULL;
		if (board && told.kind != WLIM_PLACED && !gateway.renews)
			keyboard_give(client, board->keymap, &told);
	}
	if (next == WLIM_MISSED)
		out(OUT_PROBLEMS, "more keys were given back at once than wait: some are lost\n");
	return answer;
}

void broker_receive(struct client *client, const struct message *message, uint32_t token) {
	uint32_t surface;
	if (!gateway.renews)
		budget_spend(client, AT_BROKER, message->size);
	if (!broker->live || client->peer == 0)
		return request_lose(client, message);
	self.is_idle = client->serves == 0 && keyboard_focus(&surface) != client;
	int64_t answer = wlim_broker_receive(broker, gateway.moment, client->peer, message->bytes, message->size, &token,
		token > 0);
	if (token > 0 && answer >= WLIM_GIVEN)
		broker_record(answer, "tokens %u %u", client->peer, token);
	for (size_t at = 0; outlets[OUT_RECORD] && answer >= WLIM_GIVEN && at < message->size; at += PIECE)
		broker_record(answer, "bytes %u %s", client->peer,
			spell(message->bytes + at, message->size - at < PIECE ? message->size - at : PIECE));
	if (answer == WLIM_NO_MEMORY || answer == WLIM_FULL)
		miss(client), request_lose(client, message);
	else if (answer < WLIM_GIVEN)
		client_refuse(client, DISPLAY, ERROR_MEMORY, "the broker can't take its message");
	broker_done(answer);
	self.is_idle = false;
}

bool broker_join(struct client *client) {
	bool method = client->role == METHOD;
	int64_t answer = WLIM_MANY;
	if (!broker->live || client->waits)
		return true; /* it joins the next */
	if (budget_place(client))
		answer = wlim_broker_join(broker, gateway.moment, method ? WLIM_KEYED : WLIM_APP);
	if (answer == WLIM_NO_MEMORY || answer == WLIM_FULL) {
		broker_ask();
		return client->waits = true;
	}
	if (answer < WLIM_GIVEN)
		return out(OUT_PROBLEMS, "client %u (%s) has no place at the broker\n", client->number,
			process_named(client->process)), false;
	broker_record(answer, method ? "join keyed" : "join app");
	if (!gateway.renews)
		budget_spend(client, AT_BROKER, 0);
	client->peer = (uint32_t)answer;
	broker_receive(client, draft(DISPLAY, wl_display_request_get_registry, "u", OWN), 0);
	for (const struct offer *offer = offers; offer->interface; offer++)
		if (offer->global == offer->broker && (offer->role == ALL || offer->role == client->role))
			broker_receive(client, draft(OWN, wl_registry_request_bind, "usuu", offer->global, offer->interface->name, 1,
				OWN + offer->global), 0);
	keyboard_client_joined(client);
	return true;
}
