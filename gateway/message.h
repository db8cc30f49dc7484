/* Messages of the wire: interfaces by name, a message's arguments by its signature, and messages of our own. */
#pragma once
#include <stdbool.h>
#include <stddef.h>
#include <stdint.h>

enum { HEADER_SIZE = 8, ARGUMENTS_MAX = 20 };

/*
 * A request or an event, of the tables that are made from XML files: its name, and a letter for each argument: u uint,
 * i int, f fixed, s string, S string or null, a array, o object, O object or null, n new id, h descriptor (no bytes).
 */
struct signature {
	const char *name, *kinds;
	int new_id; /* the number of that argument; -1: the message makes nothing */
	const struct interface *made; /* what the new id is; NULL where the string two before it says so */
	bool ends; /* the message destroys its object */
};

struct interface {
	const char *name;
	uint32_t version; /* the highest whose messages the table has */
	uint16_t counts[2]; /* of events and of requests, which are here by opcode */
	const struct signature *rows[2];
};

/* All that the XML files have, and a NULL; and the one with the name, or NULL. */
extern const struct interface *const interfaces[];
const struct interface *interface_named(const char *name);

struct message {
	uint32_t object;
	uint16_t opcode, size; /* in bytes, with the header */
	uint8_t *bytes;
	const struct signature *signature; /* set by message_read, as what follows */
	unsigned count, descriptors;
	uint16_t places[ARGUMENTS_MAX]; /* where each begins */
	uint32_t numbers[ARGUMENTS_MAX]; /* the arguments; of an array, or a string without its last zero, its size */
	const char *texts[ARGUMENTS_MAX]; /* the bytes of those; NULL: the null string, or none */
};

/* Whether the bytes begin with a whole message; FRONT_BAD: its size is under 8 or no multiple of 4. */
enum front { FRONT_WAITS, FRONT_WHOLE, FRONT_BAD };
enum front message_front(uint8_t *bytes, size_t length, struct message *message);
/* Reads the arguments. False: the body isn't a spelling of them. And gives it another word, or another object. */
bool message_read(struct message *message, const struct signature *signature);
void message_set(struct message *message, unsigned argument, uint32_t word);
void message_address(struct message *message, uint32_t object);

/* Whether it is the message of the tables, as in IS(message, wl_surface, request, destroy). */
#define IS(message, interface, way, name) \
	((message)->signature == &interface##_##way##s[interface##_##way##_##name])

/* A message of our own, in bytes that the next one takes: u and s in the kinds, which say what follows. */
const struct message *draft(uint32_t object, uint16_t opcode, const char *kinds, ...);
