/* Text inputs: their requests by lines, and what they are told. */
#include "client.h"
#include "text-input-unstable-v3-client-protocol.h"
#include <stdlib.h>

static void enter(void *data, struct zwp_text_input_v3 *of, struct wl_surface *surface)
{
	(void)of;
	told(data, "enter %s", surface_name(surface));
}

static void leave(void *data, struct zwp_text_input_v3 *of, struct wl_surface *surface)
{
	(void)of;
	told(data, "leave %s", surface_name(surface));
}

static void preedit(void *data, struct zwp_text_input_v3 *of, const char *text, int32_t begin, int32_t end)
{
	(void)of;
	told(data, "preedit_string %s %d %d", hex(text), begin, end);
}

static void string(void *data, struct zwp_text_input_v3 *of, const char *text)
{
	(void)of;
	told(data, "commit_string %s", hex(text));
}

static void deletion(void *data, struct zwp_text_input_v3 *of, uint32_t before, uint32_t after)
{
	(void)of;
	told(data, "delete_surrounding_text %u %u", before, after);
}

static void field_done(void *data, struct zwp_text_input_v3 *of, uint32_t serial)
{
	(void)of;
	told(data, "done %u", serial);
}

static const struct zwp_text_input_v3_listener field_events = { enter, leave, preedit, string, deletion, field_done };

static void field_line(struct thing *of, char **words)
{
	struct thing *field = thing_new(words[1], FIELD);
	struct zwp_text_input_v3 *input = zwp_text_input_manager_v3_get_text_input(self.fields, self.seat);
	(void)of;
	field->proxy = (struct wl_proxy *)input;
	zwp_text_input_v3_add_listener(input, &field_events, field);
}

#define INPUT ((struct zwp_text_input_v3 *)of->proxy)

static void enable_line(struct thing *of, char **words)
{
	(void)words;
	zwp_text_input_v3_enable(INPUT);
}

static void disable_line(struct thing *of, char **words)
{
	(void)words;
	zwp_text_input_v3_disable(INPUT);
}

static void commit_line(struct thing *of, char **words)
{
	(void)words;
	zwp_text_input_v3_commit(INPUT);
}

static void cause_line(struct thing *of, char **words)
{
	zwp_text_input_v3_set_text_change_cause(INPUT, NUMBER(2));
}

static void content_line(struct thing *of, char **words)
{
	zwp_text_input_v3_set_content_type(INPUT, NUMBER(2), NUMBER(3));
}

static void rect_line(struct thing *of, char **words)
{
	zwp_text_input_v3_set_cursor_rectangle(INPUT, NUMBER(2), NUMBER(3), NUMBER(4), NUMBER(5));
}

static void surround_line(struct thing *of, char **words)
{
	char *text = text_of(words[2]);
	zwp_text_input_v3_set_surrounding_text(INPUT, text, NUMBER(3), NUMBER(4));
	free(text);
}

const struct row text_rows[] = {
	{ "field", 2, NEW, field_line }, { "enable", 2, FIELD, enable_line }, { "disable", 2, FIELD, disable_line },
	{ "commit", 2, FIELD, commit_line }, { "cause", 3, FIELD, cause_line }, { "content", 4, FIELD, content_line },
	{ "rect", 6, FIELD, rect_line }, { "surround", 5, FIELD, surround_line }, { 0 },
};
