/* Keymaps by their content: the same text has the same number, and is the same token at the broker. */
#include "gateway.h"
#include <string.h>

enum { KEPT = 64, KEPT_FOR_SEAT = 8, KEPT_SHARE = 8 /* of the boards of a process */ };

static struct keymap kept[KEPT]; /* one without a text is none */
static uint8_t texts[KEPT][KEYMAP_MAX]; /* of those: there is always memory for them */

struct keymap *keymap_find(uint32_t number) {
	for (struct keymap *each = kept; each < kept + KEPT; each++)
		if (each->text && each->number == number)
			return each;
	return NULL;
}

static bool is_left(const struct process *process) {
	unsigned all = 0, own = 0;
	for (struct keymap *each = kept; each < kept + KEPT; each++) {
		all += each->text != NULL;
		own += each->text && each->process == process;
	}
	return all < KEPT && (!process || (own < KEPT_SHARE && all < KEPT - KEPT_FOR_SEAT));
}

bool keymap_again(uint32_t token) {
	for (struct keymap *each = kept; each < kept + KEPT; each++) {
		if (!each->text || each->token != token)
			continue;
		ask_shell((struct effect){ .kind = EFFECT_FILE, .token = token, .size = each->size, .bytes = each->text });
		return true;
	}
	return false;
}

uint32_t keymap_take(const struct process *process, uint32_t format, const uint8_t *text, uint32_t size) {
	static uint32_t last; /* number: none is used again */
	struct keymap *place = NULL;
	for (struct keymap *each = kept; text && each < kept + KEPT; each++) {
		if (!each->text)
			place = each;
		else if (each->format == format && each->size == size && memcmp(each->text, text, size) == 0)
			return each->users++, each->number;
	}
	uint32_t token = place && is_left(process) ? token_make() : 0;
	if (token == 0)
		return 0;
	uint8_t *own = memcpy(texts[place - kept], text, size);
	*place = (struct keymap){ format, size, token, own, ++last, 1, process };
	return keymap_again(token), last;
}

void keymap_drop(uint32_t number) {
	struct keymap *keymap = keymap_find(number);
	if (keymap)
		keymap->users--;
}

uint32_t keymap_token(uint32_t number) {
	const struct keymap *keymap = keymap_find(number);
	if (keymap)
		token_keep(keymap->token);
	return keymap ? keymap->token : 0;
}

void keymaps_sweep(bool all) {
	for (struct keymap *each = kept; each < kept + KEPT; each++) {
		if (!each->text || (each->users > 0 && !all))
			continue;
		token_drop(each->token);
		*each = (struct keymap){ 0 };
	}
}
