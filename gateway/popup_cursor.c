/* The pointer's image on popups: a method's surface, shown as the image of the gateway's own pointer there. */
#include "popups.h"

/* The image that the method set since the pointer came to its popup; NULL: none. */
static struct popup *image;

void cursor_set(struct client *method, const struct message *message) {
	const uint32_t *w = message->numbers;
	const struct popup *on = pointed_at();
	const struct object *surface = w[1] > 0 ? object_live(method, w[1]) : NULL;
	if (!on || on->method != method || !on->mirror.program || on->mirror.program->own_pointer == 0)
		return;
	struct client *program = on->mirror.program;
	image = NULL;
	if (!surface || surface->interface != &wl_surface_table)
		return ASK(program, program->own_pointer, wl_pointer_request_set_cursor, "uuuu", w[0], 0, 0, 0);
	image = popup_on(method, w[1]);
	if (!image && (image = popup_new(method, w[1]))) {
		image->is_cursor = true;
		popup_had(image, surface->known.surface.buffer);
	}
	if (!image || !image->is_cursor) { /* a popup's surface is none */
		image = NULL;
		return;
	}
	image->sets = true;
	image->serial = w[0];
	image->x = w[2];
	image->y = w[3];
}

void cursor_end(const struct popup *popup) {
	if (image == popup)
		image = NULL;
}

void cursor_update(struct popup *popup) {
	struct mirror *mirror = &popup->mirror;
	const struct popup *on = pointed_at();
	struct client *program = on && on->method == popup->method ? on->mirror.program : NULL;
	bool wanted = image == popup && program && program->own_pointer > 0 && popup->width > 0 && ids_left(program);
	if (mirror->program && (!wanted || mirror->program != program))
		mirror_close(mirror);
	if (!wanted)
		return;
	if (!mirror->program) {
		mirror->program = program;
		surface_make(popup, mirror);
		popup->sets = true;
	}
	if (popup->sets)
		ASK(program, program->own_pointer, wl_pointer_request_set_cursor, "uuuu", popup->serial, mirror->surface, popup->x,
			popup->y);
	popup->sets = false;
	if (mirror->frame == 0 || gateway.moment - mirror->asked >= FRAME_LATE)
		mirror_present(popup, mirror);
}
