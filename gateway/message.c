/* Messages of the wire: interfaces by name, a message's arguments by its signature, and messages of our own. */
#include "message.h"
#include <stdarg.h>
#include <string.h>

enum { DRAFT_TEXT = 4096 /* bytes of a text at most, of which a draft has two at most */ };

const struct interface *interface_named(const char *name) {
	const struct interface *const *at = interfaces;
	while (*at && strcmp((*at)->name, name) != 0)
		at++;
	return *at;
}

enum front message_front(uint8_t *bytes, size_t length, struct message *message) {
	uint32_t header[2];
	if (length < HEADER_SIZE)
		return FRONT_WAITS;
	memcpy(header, bytes, sizeof header);
	message->bytes = bytes;
	message->object = header[0];
	message->opcode = header[1] & 0xffff;
	message->size = header[1] >> 16;
	if (message->size < HEADER_SIZE || message->size % 4 != 0)
		return FRONT_BAD;
	return length < message->size ? FRONT_WAITS : FRONT_WHOLE;
}

/* A string or an array, whose length is read; the place goes on behind it. */
static bool read_bytes(struct message *message, unsigned argument, char kind, size_t *at) {
	size_t length = message->numbers[argument], filled = (length + 3) / 4 * 4;
	const char *text = (const char *)message->bytes + *at;
	if (filled > message->size - *at)
		return false;
	*at += filled;
	message->texts[argument] = length > 0 ? text : NULL;
	message->numbers[argument] -= kind != 'a' && length > 0;
	return kind == 'a' || (length == 0 ? kind != 's' : memchr(text, 0, length) == text + length - 1);
}

bool message_read(struct message *message, const struct signature *signature) {
	size_t at = HEADER_SIZE;
	message->signature = signature;
	message->count = message->descriptors = 0;
	for (const char *kind = signature->kinds; *kind; kind++) {
		unsigned argument = message->count++;
		size_t word = *kind == 'h' ? 0 : 4; /* bytes of it, behind which a text's follow */
		message->descriptors += *kind == 'h';
		message->numbers[argument] = 0;
		message->places[argument] = (uint16_t)at;
		if (message->size - at < word)
			return false;
		memcpy(&message->numbers[argument], message->bytes + at, word);
		at += word;
		if (strchr("on", *kind) && message->numbers[argument] == 0)
			return false;
		if (strchr("sSa", *kind) && !read_bytes(message, argument, *kind, &at))
			return false;
	}
	return at == message->size;
}

void message_set(struct message *message, unsigned argument, uint32_t word) {
	message->numbers[argument] = word;
	memcpy(message->bytes + message->places[argument], &word, sizeof word);
}

void message_address(struct message *message, uint32_t object) {
	message->object = object;
	memcpy(message->bytes, &object, sizeof object);
}

const struct message *draft(uint32_t object, uint16_t opcode, const char *kinds, ...) {
	static uint32_t words[2 * DRAFT_TEXT / 4 + 16];
	static struct message made;
	size_t at = HEADER_SIZE / 4;
	va_list arguments;
	va_start(arguments, kinds);
	for (; *kinds; kinds++) {
		const char *text = *kinds == 's' ? va_arg(arguments, const char *) : NULL;
		size_t length = text ? strnlen(text, DRAFT_TEXT) : 0;
		words[at++] = text ? (uint32_t)length + 1 : va_arg(arguments, uint32_t);
		if (!text)
			continue;
		words[at + length / 4] = 0; /* the last zero, and what fills up */
		memcpy(&words[at], text, length);
		at += length / 4 + 1;
	}
	va_end(arguments);
	words[0] = object;
	words[1] = (uint32_t)at * 4 << 16 | opcode;
	message_front((uint8_t *)words, at * 4, &made);
	return &made;
}
