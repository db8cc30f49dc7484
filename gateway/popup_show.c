/* Popups in programs' windows: subsurfaces and xdg_popups of the gateway's own. */
#include "popups.h"
#include <string.h>

enum { BOTTOM_LEFT = 6, BOTTOM_RIGHT = 8, SLIDE_AND_FLIP = 1 | 2 | 8 /* of xdg_positioner: in x and y; in y */ };

static void forget(struct mirror *mirror) {
	const uint32_t ids[] = { mirror->surface, mirror->sub, mirror->xdg, mirror->popup, mirror->view, mirror->frame };
	for (size_t at = 0; at < sizeof ids / sizeof *ids; at++)
		private_forget(mirror->program, ids[at]);
	for (unsigned at = 0; at < BUFFERS; at++)
		private_forget(mirror->program, mirror->buffers[at]);
}

void mirror_close(struct mirror *mirror) {
	struct client *program = mirror->program;
	struct private *private = program ? private_of(program, mirror->surface) : NULL;
	if (!program)
		return;
	struct popup *popup = private->owner;
	pointed_leave(popup);
	if (mirror->sub > 0)
		mirror_clear(popup, mirror);
	else if (mirror->view > 0)
		ASK(program, mirror->view, wp_viewport_request_destroy, "");
	for (unsigned at = 0; at < BUFFERS; at++)
		if (mirror->buffers[at] > 0)
			ASK(program, mirror->buffers[at], wl_buffer_request_destroy, "");
	if (mirror->sub > 0) {
		ASK(program, mirror->sub, wl_subsurface_request_destroy, "");
	} else if (mirror->popup > 0) {
		ASK(program, mirror->popup, xdg_popup_request_destroy, "");
		ASK(program, mirror->xdg, xdg_surface_request_destroy, "");
	}
	ASK(program, mirror->surface, wl_surface_request_destroy, "");
	const struct object *parent = mirror->sub > 0 ? object_live(program, mirror->parent) : NULL;
	if (parent && parent->number == mirror->number && !parent->is_gone) {
		ASK(program, parent->far, wl_surface_request_damage, "uuuu", mirror->at.box.x, mirror->at.box.y, mirror->width,
			mirror->height);
		surface_commits(program, mirror->parent);
	}
	if (!popup->is_cursor)
		log_note(program, "popup is hidden", &mirror->at.box);
	forget(mirror);
	*mirror = (struct mirror){ 0 };
}

void surface_make(struct popup *popup, struct mirror *mirror) {
	struct client *program = mirror->program;
	mirror->surface = private_make(program, &wl_surface_table, popup);
	ASK(program, own_id(program, OWN_COMPOSITOR), wl_compositor_request_create_surface, "u", mirror->surface);
}

/* As a subsurface, for which nothing is configured: a compositor that takes popups away can't meet a request of it. */
static void place_inside(struct popup *popup, struct mirror *mirror, const struct mirror *want) {
	struct client *program = want->program;
	bool is_new = !mirror->program, moves = mirror->at.box.x != want->at.box.x || mirror->at.box.y != want->at.box.y;
	if (is_new) {
		mirror->program = program;
		surface_make(popup, mirror);
		mirror->sub = private_make(program, &wl_subsurface_table, popup);
		ASK(program, own_id(program, OWN_SUBSURFACES), wl_subcompositor_request_get_subsurface, "uuu", mirror->sub,
			mirror->surface, far_of(program, want->parent));
		ASK(program, mirror->sub, wl_subsurface_request_set_desync, "");
	}
	if (is_new || moves) {
		ASK(program, mirror->sub, wl_subsurface_request_set_position, "uu", want->at.box.x, want->at.box.y);
		mirror->waits = true;
	}
	if (is_new || moves || mirror->width != want->width || mirror->height != want->height)
		log_note(program, is_new ? "popup is shown inside" : "popup is moved inside",
			&(struct box){ want->at.box.x, want->at.box.y, want->width, want->height });
}

static uint32_t positioner_make(const struct mirror *want) {
	struct client *program = want->program;
	const struct box *box = &want->at.box;
	uint32_t positioner = private_make(program, &xdg_positioner_table, NULL);
	ASK(program, own_id(program, OWN_SHELL), xdg_wm_base_request_create_positioner, "u", positioner);
	ASK(program, positioner, xdg_positioner_request_set_size, "uu", want->width, want->height);
	ASK(program, positioner, xdg_positioner_request_set_anchor_rect, "uuuu", box->x, box->y, box->width, box->height);
	ASK(program, positioner, xdg_positioner_request_set_anchor, "u", BOTTOM_LEFT);
	ASK(program, positioner, xdg_positioner_request_set_gravity, "u", BOTTOM_RIGHT);
	ASK(program, positioner, xdg_positioner_request_set_constraint_adjustment, "u", SLIDE_AND_FLIP);
	return positioner;
}

static bool is_placed(const struct mirror *mirror, const struct mirror *want) {
	return mirror->width == want->width && mirror->height == want->height
		&& memcmp(&mirror->at, &want->at, sizeof want->at) == 0;
}

/* As an xdg_popup, which the compositor keeps on the screen. */
static void place_beside(struct popup *popup, struct mirror *mirror, const struct mirror *want) {
	struct client *program = want->program;
	const struct object *role = object_at(program, object_at(program, want->parent)->known.surface.role);
	bool is_new = !mirror->program, is_xdg = role->interface == &xdg_surface_table;
	if (!is_new && is_placed(mirror, want))
		return;
	mirror->program = program;
	if (is_new)
		surface_make(popup, mirror);
	uint32_t positioner = positioner_make(want);
	if (is_new) {
		mirror->xdg = private_make(program, &xdg_surface_table, popup);
		ASK(program, own_id(program, OWN_SHELL), xdg_wm_base_request_get_xdg_surface, "uu", mirror->xdg, mirror->surface);
		mirror->popup = private_make(program, &xdg_popup_table, popup);
		ASK(program, mirror->xdg, xdg_surface_request_get_popup, "uuu", mirror->popup, is_xdg ? role->far : 0, positioner);
		if (!is_xdg)
			ASK(program, role->far, zwlr_layer_surface_v1_request_get_popup, "u", mirror->popup);
		ASK(program, mirror->surface, wl_surface_request_commit, "");
	} else {
		ASK(program, mirror->popup, xdg_popup_request_reposition, "uu", positioner, 0);
	}
	ASK(program, positioner, xdg_positioner_request_destroy, "");
	private_forget(program, positioner);
	log_note(program, is_new ? "popup is shown beside" : "popup is moved beside", &want->at.box);
}

/* ---- Where they are to be ---- */

/* The program's own popup that grabbed last, which covers its window: and where its surface is on the window's. */
static const struct object *top_popup(struct client *program, uint32_t window, struct box *place) {
	const struct object *top = program->top > 0 ? object_live(program, program->top) : NULL, *at = top;
	*place = (struct box){ 0 };
	for (int depth = 0; at && at->interface == &xdg_popup_table && depth < LISTED_MAX; depth++) {
		const struct object *parent = object_live(program, at->known.role.parent);
		if (!parent || parent->interface != &xdg_surface_table)
			return NULL;
		place->x += box_bounded(at->known.role.box).x;
		place->y += box_bounded(at->known.role.box).y;
		if (at->known.role.parent == window)
			return top;
		at = object_live(program, parent->known.role.made);
	}
	return NULL;
}

/* The cursor's numbers are the window's; but GTK 4 tells those of the program's own popup, where its parent is at 0. */
static void move_cursor(struct asked *asked, int32_t x, int32_t y) {
	const struct box *cursor = &asked->cursor, *own = &asked->window;
	bool is_own = cursor->x >= own->x && cursor->x <= own->x + own->width && cursor->y >= own->y
		&& cursor->y <= own->y + own->height;
	bool is_moved = cursor->x + x >= own->x && cursor->x + x <= own->x + own->width && cursor->y + y >= own->y
		&& cursor->y + y <= own->y + own->height;
	asked->cursor.x += is_own && !is_moved ? 0 : x;
	asked->cursor.y += is_own && !is_moved ? 0 : y;
}

/* What is asked of the place, on which surface. False: the popup isn't to be shown. */
static bool is_asked(const struct popup *popup, struct mirror *want, struct asked *asked) {
	const struct client *method = popup->method;
	struct client *program = want->program = keyboard_focus(&want->parent);
	if (popup->width < 1 || !method->is_active || method->serves == 0)
		return false;
	if (!program || program->ending || program->field == 0)
		return false;
	const struct object *surface = object_live(program, want->parent);
	const struct object *role = surface && !surface->is_gone && surface->known.surface.is_mapped
		? object_live(program, surface->known.surface.role) : NULL;
	if (!role || !has_own(program))
		return false;
	struct box place, window = box_bounded(role->known.role.box);
	const struct object *top = top_popup(program, surface->known.surface.role, &place);
	*asked = (struct asked){ .window = window, .cursor = box_bounded(program->cursor), .width = popup->width,
		.height = popup->height, .has_cursor = program->has_cursor };
	const struct object *over = top ? object_live(program, top->known.role.under) : NULL;
	if (over && over->interface == &wl_surface_table && over->known.surface.is_mapped) {
		want->parent = top->known.role.under;
		surface = over;
		role = object_live(program, over->known.surface.role);
		if (!role)
			return false;
		asked->window = box_bounded(role->known.role.box);
		move_cursor(asked, asked->window.x - window.x - place.x, asked->window.y - window.y - place.y);
	}
	bool is_window = role->interface == &xdg_surface_table && !role->known.role.is_popup;
	asked->is_free = program->is_wlroots && !is_window;
	asked->is_above = asked->is_free && role->known.role.is_at_bottom;
	asked->may_pop = !program->is_wlroots && own_id(program, OWN_SHELL) > 0;
	want->number = surface->number;
	return true;
}

static bool is_same(const struct mirror *one, const struct mirror *other) {
	return one->program == other->program && one->number == other->number && is_placed(one, other);
}

void popup_update(struct popup *popup) {
	struct mirror want = { .width = popup->width, .height = popup->height }, *mirror = &popup->mirror;
	struct asked asked = { 0 };
	if (popup->is_cursor)
		return cursor_update(popup);
	bool wanted = is_asked(popup, &want, &asked);
	if (wanted)
		want.at = popup_want(&asked);
	if (want.at.way == INSIDE) /* it may have another size without being placed anew */
		want.at.box.width = want.at.box.height = 0;
	wanted &= want.at.way != NOWHERE;
	bool may_stay = wanted && mirror->program == want.program && mirror->number == want.number
		&& mirror->at.way == want.at.way;
	bool may_move = want.at.way == INSIDE || is_same(mirror, &want)
		|| (want.program && want.program->owns[OWN_SHELL].version >= SINCE_REPOSITION);
	if (mirror->program && !(may_stay && may_move))
		mirror_close(mirror);
	if (!wanted || is_same(&popup->dismissed, &want))
		return;
	popup->dismissed.program = NULL;
	(want.at.way == INSIDE ? place_inside : place_beside)(popup, mirror, &want);
	mirror->at = want.at;
	mirror->parent = want.parent;
	mirror->number = want.number;
	mirror->width = want.width;
	mirror->height = want.height;
	if ((mirror->sub > 0 || mirror->is_configured)
			&& (mirror->frame == 0 || gateway.moment - mirror->asked >= FRAME_LATE))
		mirror_present(popup, mirror);
	if (mirror->waits && surface_commits(mirror->program, mirror->parent))
		mirror->waits = false;
}

/* ---- What the compositor says of them ---- */

/* The method's surface is on an output, or isn't any more. */
static void output_event(struct popup *popup, uint16_t opcode, uint32_t far) {
	struct client *method = popup->method, *program = popup->mirror.program;
	const struct object *output = object_live(program, near_of(program, far));
	for (uint32_t id = 1; output && id < method->counts[0]; id++) {
		const struct object *own = object_at(method, id);
		if (own->interface == &wl_output_table && own->global == output->global)
			client_send(method, draft(popup->surface, opcode, "u", id));
	}
}

static void mirror_event(struct popup *popup, uint32_t far, const struct interface *interface,
		struct message *message) {
	struct mirror *mirror = &popup->mirror;
	if (interface == &xdg_surface_table) {
		ASK(mirror->program, far, xdg_surface_request_ack_configure, "u", message->numbers[0]);
		mirror->is_configured = true;
		if (mirror->content > 0)
			ASK(mirror->program, mirror->surface, wl_surface_request_commit, "");
	} else if (IS(message, xdg_popup, event, popup_done)) {
		popup->dismissed = *mirror;
		mirror_close(mirror);
	} else if (interface == &wl_callback_table) {
		private_forget(mirror->program, far);
		mirror->frame = 0;
		popup_end_frames(popup, &popup->frames, true, message->numbers[0]);
	} else if (interface == &wl_surface_table) {
		if (message->opcode <= wl_surface_event_leave)
			output_event(popup, message->opcode, message->numbers[0]);
	} else if (interface == &wl_buffer_table) {
		for (unsigned at = 0; at < BUFFERS; at++)
			mirror->buffers[at] = mirror->buffers[at] == far ? 0 : mirror->buffers[at];
		ASK(mirror->program, far, wl_buffer_request_destroy, "");
		private_forget(mirror->program, far);
	}
}

void private_event(struct client *program, uint32_t far, struct private *private, struct message *message) {
	const struct interface *interface = private->interface;
	if (!interface)
		return;
	if (message->opcode >= interface->counts[0] || !message_read(message, &interface->rows[0][message->opcode]))
		return client_refuse(program, DISPLAY, ERROR_COMPOSITOR, "malformed message");
	if (private->owner)
		mirror_event(private->owner, far, interface, message);
	else if (IS(message, xdg_wm_base, event, ping))
		ASK(program, far, xdg_wm_base_request_pong, "u", message->numbers[0]);
	else
		input_event(program, far, interface, message);
}
