/* Pools and buffers that methods share pixels by: whose files are kept, and which the compositor will take. */
#include "popups.h"
#include <stdlib.h>

void object_ends(struct client *client, struct object *object) {
	if (object->keymap > 0) {
		keymap_drop(object->keymap);
		client->held--;
	}
	bool is_file = object->interface == &wl_shm_pool_table || object->interface == &wl_buffer_table;
	if (is_file && object->known.pixels.token > 0) {
		token_drop(object->known.pixels.token);
		client->held--;
	} else if (object->interface == &zwp_text_input_v2_table && object->known.older) {
		free(object->known.older);
		client->held--;
	}
}

static void keep_file(struct client *client, struct object *object, struct pixels pixels) {
	if (pixels.token == 0 || client->held >= HELD_MAX)
		return;
	token_keep(pixels.token);
	client->held++;
	object->known.pixels = pixels;
}

void pool_make(struct client *client, struct object *pool, uint32_t token, int32_t size) {
	keep_file(client, pool, (struct pixels){ .token = token, .size = size });
}

void pool_request(struct client *client, struct object *pool, const struct message *message) {
	const int32_t *w = (const int32_t *)message->numbers;
	struct pixels *pixels = &pool->known.pixels;
	if (IS(message, wl_shm_pool, request, resize) && w[0] > pixels->size)
		pixels->size = w[0];
	else if (IS(message, wl_shm_pool, request, create_buffer))
		keep_file(client, object_at(client, message->numbers[0]), (struct pixels){ pixels->token, message->numbers[5],
			pixels->size, w[1], w[2], w[3], w[4] });
}

bool pixels_good(const struct pixels *p) {
	return p->token > 0 && p->format <= 1 && p->width > 0 && p->width <= SIDE_MAX && p->height > 0 && p->height <= SIDE_MAX
		&& p->stride % 4 == 0 && p->stride / 4 >= p->width && p->stride <= PIXELS_MAX / p->height && p->offset >= 0
		&& p->stride * p->height <= p->size && p->offset <= p->size - p->stride * p->height;
}
