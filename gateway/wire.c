/* One side of a link: bytes, and tokens of descriptors, which come no later than their messages. */
#include "wire.h"
#include <string.h>

size_t wire_room(const struct wire *wire) {
	size_t room = sizeof wire->in - (wire->in_to - wire->in_from);
	return wire->stands == WAITS ? 0 : room < WIRE_READ ? room : WIRE_READ;
}

bool wire_keep(struct wire *wire, const uint8_t *bytes, size_t size, const uint32_t *tokens, size_t count) {
	bool kept = size <= sizeof wire->in - (wire->in_to - wire->in_from);
	for (size_t at = 0; at < count; at++) {
		kept &= tokens[at] > 0 && wire->token_count < WIRE_TOKENS_IN;
		if (kept)
			wire->tokens[wire->token_count++] = tokens[at];
		else
			token_drop(tokens[at]);
	}
	if (!kept)
		return false;
	if (wire->in_from > 0) {
		wire->in_to -= wire->in_from;
		memmove(wire->in, wire->in + wire->in_from, wire->in_to);
		wire->in_from = 0;
	}
	memcpy(wire->in + wire->in_to, bytes, size);
	wire->in_to += size;
	return true;
}

bool wire_take_tokens(struct wire *wire, unsigned count, uint32_t *tokens) {
	if (wire->token_count < count)
		return false;
	memcpy(tokens, wire->tokens, count * sizeof *tokens);
	wire->token_count -= count;
	memmove(wire->tokens, wire->tokens + count, wire->token_count * sizeof *tokens);
	return true;
}

void wire_send(struct wire *wire, const uint8_t *bytes, size_t size, const uint32_t *tokens, unsigned count) {
	size_t waits = wire_waiting(wire);
	wire->full |= waits + size > WIRE_FULL || wire->parcel_count + count > WIRE_TOKENS_OUT;
	for (unsigned at = 0; at < count; at++) {
		if (wire->full)
			token_drop(tokens[at]);
		else
			wire->parcels[wire->parcel_count++] = (struct parcel){ tokens[at], wire->sent + waits };
	}
	if (wire->full)
		return;
	if (wire->out_to + size > WIRE_FULL) {
		memmove(wire->out, wire->out + wire->out_from, waits);
		wire->out_from = 0;
		wire->out_to = waits;
	}
	memcpy(wire->out + wire->out_to, bytes, size);
	wire->out_to += size;
}

bool wire_next(const struct wire *wire, struct written *next) {
	*next = (struct written){ .bytes = wire->out + wire->out_from, .size = wire_waiting(wire) };
	while (next->count < wire->parcel_count && next->count < TOKENS_AT_ONCE
			&& wire->parcels[next->count].message <= wire->sent) {
		next->tokens[next->count] = wire->parcels[next->count].token;
		next->count++;
	}
	if (next->count < wire->parcel_count) /* the next one's message waits, but where it is this one */
		next->size = next->count < TOKENS_AT_ONCE ? wire->parcels[next->count].message - wire->sent : 1;
	return next->size > 0;
}

void wire_wrote(struct wire *wire, size_t size) {
	unsigned count = 0;
	while (count < wire->parcel_count && count < TOKENS_AT_ONCE && wire->parcels[count].message <= wire->sent)
		token_drop(wire->parcels[count++].token);
	wire->parcel_count -= count;
	memmove(wire->parcels, wire->parcels + count, wire->parcel_count * sizeof *wire->parcels);
	wire->sent += size;
	wire->out_from += size;
	if (wire->out_from == wire->out_to)
		wire->out_from = wire->out_to = 0;
}

void wire_close(struct wire *wire) {
	tokens_drop(wire->tokens, wire->token_count);
	for (unsigned at = 0; at < wire->parcel_count; at++)
		token_drop(wire->parcels[at].token);
	wire->token_count = wire->parcel_count = 0;
}
