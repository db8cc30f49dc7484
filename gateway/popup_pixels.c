/* What popups show: copies of the pixels that methods commit, at most one in each of the compositor's frames. */
#include "popups.h"

/* A buffer of the size in a file. Its id; the pool is nothing any more. */
static uint32_t buffer_make(struct popup *popup, struct client *program, uint32_t token, const struct pixels *p) {
	uint32_t pool = private_make(program, &wl_shm_pool_table, popup);
	const struct message *message = draft(own_id(program, OWN_MEMORY), wl_shm_request_create_pool, "uu", pool,
		(uint32_t)(p->stride * p->height));
	token_keep(token);
	wire_send(&program->far, message->bytes, message->size, &token, 1);
	uint32_t buffer = private_make(program, &wl_buffer_table, popup);
	ASK(program, pool, wl_shm_pool_request_create_buffer, "uuuuuu", buffer, 0, p->width, p->height, p->stride, p->format);
	ASK(program, pool, wl_shm_pool_request_destroy, "");
	private_forget(program, pool);
	return buffer;
}

static void attach(struct mirror *mirror, uint32_t buffer, int32_t scale) {
	struct client *program = mirror->program;
	if (program->owns[OWN_COMPOSITOR].version >= SINCE_SCALE)
		ASK(program, mirror->surface, wl_surface_request_set_buffer_scale, "u", scale);
	ASK(program, mirror->surface, wl_surface_request_attach, "uuu", buffer, 0, 0);
	ASK(program, mirror->surface, wl_surface_request_damage, "uuuu", 0, 0, SIDE_MAX, SIDE_MAX);
}

static void set_view(struct popup *popup, struct mirror *mirror) {
	const struct state *now = &popup->now;
	struct client *program = mirror->program;
	bool has_view = now->view_width > 0 || now->has_source;
	if (has_view && mirror->view == 0) {
		mirror->view = private_make(program, &wp_viewport_table, popup);
		ASK(program, own_id(program, OWN_VIEWS), wp_viewporter_request_get_viewport, "uu", mirror->view, mirror->surface);
	}
	if (mirror->view == 0)
		return;
	bool has_size = now->view_width > 0;
	uint32_t no_source = (uint32_t)-256;
	ASK(program, mirror->view, wp_viewport_request_set_destination, "uu", has_size ? now->view_width : -1,
		has_size ? now->view_height : -1);
	if (now->has_source)
		ASK(program, mirror->view, wp_viewport_request_set_source, "uuuu", now->source[0], now->source[1], now->source[2],
			now->source[3]);
	else
		ASK(program, mirror->view, wp_viewport_request_set_source, "uuuu", no_source, no_source, no_source, no_source);
}

uint64_t popup_copies_in(const struct popup *popup) {
	uint64_t from = popup->method->copies_from;
	return from > gateway.moment ? from - gateway.moment : 0;
}

/* What was committed last is copied, once it is to be shown: whoever has a pool could cut its file off. */
static void copy(struct popup *popup) {
	const struct pixels *p = &popup->pixels;
	uint64_t *from = &popup->method->copies_from, size = (uint64_t)p->stride * (uint64_t)p->height;
	if (popup->copying > 0 || p->token == 0 || popup_copies_in(popup) > 0)
		return;
	*from = (*from + COPY_BURST > gateway.moment ? *from : gateway.moment - COPY_BURST) + size * 1000000 / COPIED_MAX;
	popup->copying = token_make();
	if (popup->copying == 0)
		return;
	ask_shell((struct effect){ .kind = EFFECT_COPY, .token = popup->copying, .from = p->token,
		.offset = (uint32_t)p->offset, .size = (uint32_t)(p->stride * p->height) });
}

void popups_copied(uint32_t token, bool is_whole, bool is_short) {
	struct popup *popup = popups;
	while (popup < popups + POPUPS && (popup->copying != token || !popup->method))
		popup++;
	if (popup == popups + POPUPS)
		return;
	popup->copying = 0;
	token_drop(is_whole ? popup->copy : token);
	token_drop(popup->pixels.token);
	popup->pixels.token = 0;
	popup_let_go(popup);
	if (!is_whole) {
		popup->width = popup->height = 0;
		if (is_short)
			client_refuse(popup->method, DISPLAY, ERROR_METHOD, "its file is shorter than its pool");
		return;
	}
	popup->copy = token;
	popup->copied = popup->content;
	popup_update(popup);
}

void mirror_present(struct popup *popup, struct mirror *mirror) {
	struct client *program = mirror->program;
	unsigned slot = 0;
	while (slot < BUFFERS && mirror->buffers[slot])
		slot++;
	bool draws = mirror->content != popup->content && slot < BUFFERS;
	if (draws && popup->copied != popup->content)
		return copy(popup);
	if ((!draws && popup->frames.count == 0) || mirror->content + draws == 0)
		return;
	if (draws) {
		mirror->buffers[slot] = buffer_make(popup, program, popup->copy, &popup->pixels);
		set_view(popup, mirror);
		attach(mirror, mirror->buffers[slot], popup->now.scale);
		mirror->content = popup->content;
	}
	private_forget(program, mirror->frame);
	mirror->frame = private_make(program, &wl_callback_table, popup);
	mirror->asked = gateway.moment;
	ASK(program, mirror->surface, wl_surface_request_frame, "u", mirror->frame);
	ASK(program, mirror->surface, wl_surface_request_commit, "");
}

bool popup_clear_again(uint32_t token) {
	if (token > 0 && token == gateway.clear)
		ask_shell((struct effect){ .kind = EFFECT_FILE, .token = token, .size = PIXELS_MAX });
	return token > 0 && token == gateway.clear;
}

/* Also where its parent isn't committed: sway 1.7 paints only what it is told of. */
void mirror_clear(struct popup *popup, struct mirror *mirror) {
	struct pixels p = { .width = mirror->width, .height = mirror->height, .stride = 4 * mirror->width };
	if (gateway.clear == 0 && (gateway.clear = token_make()) > 0)
		popup_clear_again(gateway.clear);
	uint32_t buffer = gateway.clear > 0 ? buffer_make(popup, mirror->program, gateway.clear, &p) : 0;
	if (mirror->view > 0)
		ASK(mirror->program, mirror->view, wp_viewport_request_destroy, "");
	attach(mirror, buffer, 1);
	ASK(mirror->program, mirror->surface, wl_surface_request_commit, "");
	if (buffer > 0)
		ASK(mirror->program, buffer, wl_buffer_request_destroy, "");
	private_forget(mirror->program, buffer);
}
