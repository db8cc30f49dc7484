/* Input methods, their grabs and popups, virtual keyboards, and how an object is dropped. */
#define _GNU_SOURCE
#include "client.h"
#include "input-method-unstable-v2-client-protocol.h"
#include "text-input-unstable-v3-client-protocol.h"
#include "virtual-keyboard-unstable-v1-client-protocol.h"
#include <stdlib.h>
#include <string.h>
#include <sys/mman.h>
#include <unistd.h>
#include <xkbcommon/xkbcommon.h>

/* ---- What a method is told ---- */

static void activate(void *data, struct zwp_input_method_v2 *of)
{
	(void)of;
	told(data, "activate");
}

static void deactivate(void *data, struct zwp_input_method_v2 *of)
{
	(void)of;
	told(data, "deactivate");
}

static void surrounding(void *data, struct zwp_input_method_v2 *of, const char *text, uint32_t cursor, uint32_t anchor)
{
	(void)of;
	told(data, "surrounding_text %s %u %u", hex(text), cursor, anchor);
}

static void cause(void *data, struct zwp_input_method_v2 *of, uint32_t cause)
{
	(void)of;
	told(data, "text_change_cause %u", cause);
}

static void content(void *data, struct zwp_input_method_v2 *of, uint32_t hint, uint32_t purpose)
{
	(void)of;
	told(data, "content_type %u %u", hint, purpose);
}

static void done(void *data, struct zwp_input_method_v2 *of)
{
	(void)of;
	told(data, "done");
}

static void unavailable(void *data, struct zwp_input_method_v2 *of)
{
	(void)of;
	told(data, "unavailable");
}

static const struct zwp_input_method_v2_listener method_events = {
	activate, deactivate, surrounding, cause, content, done, unavailable,
};

/* ---- What a grab and a popup are told ---- */

static void keymap(void *data, struct zwp_input_method_keyboard_grab_v2 *of, uint32_t format, int32_t file,
	uint32_t size)
{
	(void)of;
	close(file);
	told(data, "keymap %u %u", format, size);
}

static void key(void *data, struct zwp_input_method_keyboard_grab_v2 *of, uint32_t serial, uint32_t time, uint32_t key,
	uint32_t state)
{
	(void)of, (void)serial;
	told(data, "key %u %u %u", time, key, state);
}

static void modifiers(void *data, struct zwp_input_method_keyboard_grab_v2 *of, uint32_t serial, uint32_t depressed,
	uint32_t latched, uint32_t locked, uint32_t group)
{
	(void)of, (void)serial;
	told(data, "modifiers %u %u %u %u", depressed, latched, locked, group);
}

static void repeat(void *data, struct zwp_input_method_keyboard_grab_v2 *of, int32_t rate, int32_t delay)
{
	(void)of;
	told(data, "repeat_info %d %d", rate, delay);
}

static const struct zwp_input_method_keyboard_grab_v2_listener grab_events = { keymap, key, modifiers, repeat };

static void rectangle(void *data, struct zwp_input_popup_surface_v2 *of, int32_t x, int32_t y, int32_t width,
	int32_t height)
{
	(void)of;
	told(data, "text_input_rectangle %d %d %d %d", x, y, width, height);
}

static const struct zwp_input_popup_surface_v2_listener popup_events = { rectangle };

/* ---- Lines of a method ---- */

#define INPUT_METHOD ((struct zwp_input_method_v2 *)of->proxy)

static void method_line(struct thing *of, char **words)
{
	struct thing *method = thing_new(words[1], METHOD);
	struct zwp_input_method_v2 *made = zwp_input_method_manager_v2_get_input_method(self.methods, self.seat);
	(void)of;
	method->proxy = (struct wl_proxy *)made;
	zwp_input_method_v2_add_listener(made, &method_events, method);
}

static void mstring_line(struct thing *of, char **words)
{
	char *text = text_of(words[2]);
	zwp_input_method_v2_commit_string(INPUT_METHOD, text);
	free(text);
}

static void mpreedit_line(struct thing *of, char **words)
{
	char *text = text_of(words[2]);
	zwp_input_method_v2_set_preedit_string(INPUT_METHOD, text, NUMBER(3), NUMBER(4));
	free(text);
}

static void mdelete_line(struct thing *of, char **words)
{
	zwp_input_method_v2_delete_surrounding_text(INPUT_METHOD, NUMBER(2), NUMBER(3));
}

static void mcommit_line(struct thing *of, char **words)
{
	zwp_input_method_v2_commit(INPUT_METHOD, NUMBER(2));
}

static void grab_line(struct thing *of, char **words)
{
	struct thing *method = thing_named(words[2], METHOD);
	(void)of;
	if (!method || !method->proxy)
		return;
	struct thing *grab = thing_new(words[1], GRAB);
	struct zwp_input_method_keyboard_grab_v2 *made =
		zwp_input_method_v2_grab_keyboard((struct zwp_input_method_v2 *)method->proxy);
	grab->proxy = (struct wl_proxy *)made;
	zwp_input_method_keyboard_grab_v2_add_listener(made, &grab_events, grab);
}

static void popup_line(struct thing *of, char **words)
{
	struct thing *method = thing_named(words[2], METHOD), *surface = thing_named(words[3], ANY);
	(void)of;
	if (!method || !method->proxy || !surface || !surface->proxy)
		return;
	struct thing *popup = thing_new(words[1], POPUP);
	popup->proxy = (struct wl_proxy *)zwp_input_method_v2_get_input_popup_surface(
		(struct zwp_input_method_v2 *)method->proxy, (struct wl_surface *)surface->proxy);
	zwp_input_popup_surface_v2_add_listener((struct zwp_input_popup_surface_v2 *)popup->proxy, &popup_events, popup);
}

const struct row method_rows[] = {
	{ "method", 2, NEW, method_line }, { "mstring", 3, METHOD, mstring_line }, { "mpreedit", 5, METHOD, mpreedit_line },
	{ "mdelete", 4, METHOD, mdelete_line }, { "mcommit", 3, METHOD, mcommit_line }, { "grab", 3, NEW, grab_line },
	{ "popup", 4, NEW, popup_line }, { 0 },
};

/* ---- Lines of a virtual keyboard ---- */

#define KEYBOARD ((struct zwp_virtual_keyboard_v1 *)of->proxy)

static void board_line(struct thing *of, char **words)
{
	struct thing *board = thing_new(words[1], BOARD);
	(void)of;
	board->proxy = (struct wl_proxy *)zwp_virtual_keyboard_manager_v1_create_virtual_keyboard(self.boards, self.seat);
}

static void vkeymap_line(struct thing *of, char **words)
{
	struct xkb_rule_names names = { .layout = words[2] };
	struct xkb_context *context = xkb_context_new(XKB_CONTEXT_NO_FLAGS);
	struct xkb_keymap *map = xkb_keymap_new_from_names(context, &names, XKB_KEYMAP_COMPILE_NO_FLAGS);
	char *text = map ? xkb_keymap_get_as_string(map, XKB_KEYMAP_FORMAT_TEXT_V1) : strdup("");
	size_t size = strlen(text) + 1;
	int file = memfd_create("keymap", MFD_CLOEXEC);
	if (file >= 0 && write(file, text, size) == (ssize_t)size)
		zwp_virtual_keyboard_v1_keymap(KEYBOARD, WL_KEYBOARD_KEYMAP_FORMAT_XKB_V1, file, size);
	close(file);
	free(text);
	xkb_keymap_unref(map);
	xkb_context_unref(context);
}

static void vkey_line(struct thing *of, char **words)
{
	zwp_virtual_keyboard_v1_key(KEYBOARD, NUMBER(2), NUMBER(3), NUMBER(4));
}

static void vmods_line(struct thing *of, char **words)
{
	zwp_virtual_keyboard_v1_modifiers(KEYBOARD, NUMBER(2), NUMBER(3), NUMBER(4), NUMBER(5));
}

static void drop_line(struct thing *of, char **words)
{
	struct wl_proxy *proxy = of->proxy;
	(void)words;
	switch (of->kind) {
	case FIELD: zwp_text_input_v3_destroy((struct zwp_text_input_v3 *)proxy); break;
	case METHOD: zwp_input_method_v2_destroy((struct zwp_input_method_v2 *)proxy); break;
	case POPUP: zwp_input_popup_surface_v2_destroy((struct zwp_input_popup_surface_v2 *)proxy); break;
	case GRAB:
		zwp_input_method_keyboard_grab_v2_release((struct zwp_input_method_keyboard_grab_v2 *)proxy);
		break;
	case BOARD: zwp_virtual_keyboard_v1_destroy((struct zwp_virtual_keyboard_v1 *)proxy); break;
	case SURFACE: wl_surface_destroy((struct wl_surface *)proxy); break;
	default: complain("%s can't be dropped", of->name); return;
	}
	of->proxy = NULL;
}

const struct row board_rows[] = {
	{ "board", 2, NEW, board_line }, { "vkeymap", 3, BOARD, vkeymap_line }, { "vkey", 5, BOARD, vkey_line },
	{ "vmods", 6, BOARD, vmods_line }, { "drop", 2, ANY, drop_line }, { 0 },
};
