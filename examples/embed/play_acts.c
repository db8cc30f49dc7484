/*
 * Plays an act list (docs/FORMATS.md) through libwlim, and prints what `wlim replay-acts` prints, and which popups each act
 * hides, as `13 0 hidden 7`.
 *
 *     play_acts < one_string.acts
 *
 * The list numbers all its acts; the seat numbers those that do something. So a label of the list is looked up by its
 * number, and what the seat says is told by the list's numbers again.
 */
#include <inttypes.h>
#include <stdio.h>
#include <stdlib.h>
#include <string.h>
#include <wlim.h>

#define MOST 100001

static struct wlim seat;
static uint32_t label_of[MOST]; /* by the list's number: the seat's, 0 where it has none */
static uint32_t number_of[MOST]; /* by the seat's number: the list's, also of an act that made nothing */

/* Each event's name, and which arguments it has: x a text, l a label, s the number of an act, n a number, g the group. */
static const char *const events[][2] = {
	[WLIM_ENTER] = { "enter", "l" },
	[WLIM_LEAVE] = { "leave", "l" },
	[WLIM_PREEDIT] = { "preedit_string", "xnn" },
	[WLIM_COMMIT_STRING] = { "commit_string", "x" },
	[WLIM_DELETE] = { "delete_surrounding_text", "nn" },
	[WLIM_FIELD_DONE] = { "done", "n" },
	[WLIM_ACTIVATE] = { "activate", "" },
	[WLIM_DEACTIVATE] = { "deactivate", "" },
	[WLIM_SURROUNDING] = { "surrounding_text", "xnn" },
	[WLIM_CHANGE_CAUSE] = { "text_change_cause", "n" },
	[WLIM_CONTENT_TYPE] = { "content_type", "nn" },
	[WLIM_METHOD_DONE] = { "done", "" },
	[WLIM_UNAVAILABLE] = { "unavailable", "" },
	[WLIM_POPUP_RECT] = { "text_input_rectangle", "nnnn" },
	[WLIM_KEYMAP] = { "keymap", "nnn" },
	[WLIM_KEY] = { "key", "snnn" },
	[WLIM_MODS] = { "modifiers", "snnng" },
	[WLIM_REPEAT] = { "repeat_info", "nn" },
	[WLIM_PASS] = { "pass", "nnn" },
	[WLIM_PLACED] = { "placed", "lnn" },
	[WLIM_VMODS] = { "vmods", "nnng" },
	[WLIM_HIDDEN] = { "hidden", "l" },
};

/* The list's number of what an event is told to came back as the object's own. */
static void show(const struct wlim_event *event, const char *text, uint32_t number)
{
	const int64_t arguments[] = { event->first, event->second, event->third, event->fourth };
	int at = 0;
	printf("%" PRIu32 " %" PRIu32 " %s", number, (uint32_t)event->number, events[event->kind][0]);
	for (const char *of = events[event->kind][1]; *of; of++) {
		putchar(' ');
		if (*of == 'x') {
			for (size_t i = 0; i < event->length; i++)
				printf("%02x", (unsigned char)text[i]);
			if (event->length == 0)
				putchar('-');
		} else if (*of == 'g') {
			printf("%" PRId64, event->group);
		} else {
			int64_t argument = arguments[at++];
			printf("%" PRId64, *of == 'n' ? argument : number_of[argument]);
		}
	}
	putchar('\n');
}

static int64_t act(char **word, uint32_t number)
{
	uint32_t n[6] = { 0 };
	char text[8192];
	size_t length = 0;
	for (int i = 1; i < 7 && word[i]; i++)
		n[i - 1] = (uint32_t)strtoll(word[i], NULL, 10);
	uint32_t a = n[0] < MOST ? label_of[n[0]] : 0; /* the object of a request */
	for (const char *hex = word[1] ? word[2] : NULL; hex && hex[0] && hex[1] && length < sizeof text; hex += 2)
		length += sscanf(hex, "%2hhx", (unsigned char *)&text[length]) == 1;
#define IS(name) (strcmp(word[0], name) == 0)
	if (IS("peer")) return wlim_peer(&seat);
	if (IS("gone")) return wlim_gone(&seat, a);
	if (IS("surface")) return wlim_surface(&seat, a, number);
	if (IS("field")) return wlim_field(&seat, a, number);
	if (IS("method")) return wlim_method(&seat, a, number);
	if (IS("popup")) return wlim_popup(&seat, a, n[1] < MOST ? label_of[n[1]] : 0, number);
	if (IS("grab")) return wlim_grab(&seat, a, number);
	if (IS("vboard")) return wlim_vboard(&seat, a, number);
	if (IS("drop")) return wlim_drop(&seat, a);
	if (IS("focus")) return wlim_focus(&seat, a);
	if (IS("unfocus")) return wlim_unfocus(&seat);
	if (IS("area")) return wlim_area(&seat, a, n[1], n[2], n[3], n[4]);
	if (IS("screen")) return wlim_screen(&seat, n[0], n[1]);
	if (IS("key")) return wlim_key(&seat, n[0], n[1], n[2]);
	if (IS("mods")) return wlim_mods(&seat, n[0], n[1], n[2], n[3]);
	if (IS("keymap")) return wlim_keymap(&seat, n[0], n[1], n[2]);
	if (IS("repeat")) return wlim_repeat(&seat, n[0], n[1]);
	if (IS("enable")) return wlim_enable(&seat, a);
	if (IS("disable")) return wlim_disable(&seat, a);
	if (IS("surround")) return wlim_surround(&seat, a, text, length, n[2], n[3]);
	if (IS("cause")) return wlim_cause(&seat, a, n[1]);
	if (IS("content")) return wlim_content(&seat, a, n[1], n[2]);
	if (IS("rect")) return wlim_rect(&seat, a, n[1], n[2], n[3], n[4]);
	if (IS("commit")) return wlim_commit(&seat, a);
	if (IS("mstring")) return wlim_mstring(&seat, a, text, length);
	if (IS("mpreedit")) return wlim_mpreedit(&seat, a, text, length, n[2], n[3]);
	if (IS("mdelete")) return wlim_mdelete(&seat, a, n[1], n[2]);
	if (IS("mcommit")) return wlim_mcommit(&seat, a, n[1]);
	if (IS("vkeymap")) return wlim_vkeymap(&seat, a, n[1], n[2], n[3]);
	if (IS("vkey")) return wlim_vkey(&seat, a, n[1], n[2], n[3]);
	if (IS("vmods")) return wlim_vmods(&seat, a, n[1], n[2], n[3], n[4]);
	exit(3);
}

int main(void)
{
	static char line[1 << 14];
	char text[WLIM_TEXT_MAX];
	struct wlim_event event;
	uint32_t number = 0;
	if (!wlim_open_with(&seat, UINT32_MAX, UINT32_MAX)) /* a list may have any number of peers */
		return 6;
	while (fgets(line, sizeof line, stdin) && strcmp(line, "end\n") != 0 && number + 1 < MOST) {
		char *word[16] = { strtok(line, " \n") };
		for (int i = 1; i < 15 && word[i - 1]; i++)
			word[i] = strtok(NULL, " \n");
		int64_t answer = act(word, ++number);
		if (answer > 0) {
			label_of[number] = (uint32_t)answer;
			number_of[answer] = number;
		}
		if (answer < 0)
			return fprintf(stderr, "act %" PRIu32 " was not taken: %" PRId64 "\n", number, answer), 1;
		while (wlim_next(&seat, &event, text, sizeof text) == WLIM_GIVEN)
			show(&event, text, number);
	}
	printf("end %" PRIu32 "\n", number);
	wlim_close(&seat);
	return 0;
}
