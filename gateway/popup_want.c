/* Where a popup is to be: below the cursor, else above it, in the window where it fits. */
#include "popup_want.h"

enum { FAR_AWAY = 1 << 20 /* no number of a window is as large */ };

static int32_t within(int32_t number, int32_t low, int32_t high) {
	return number > high && high >= low ? high : number < low || high < low ? low : number;
}

struct box box_bounded(struct box box) {
	return (struct box){ within(box.x, -FAR_AWAY, FAR_AWAY), within(box.y, -FAR_AWAY, FAR_AWAY),
		within(box.width, 0, FAR_AWAY), within(box.height, 0, FAR_AWAY) };
}

static struct wanted inside(const struct asked *asked, struct box window, struct box cursor) {
	struct wanted wanted = { INSIDE, { cursor.x, cursor.y + cursor.height, asked->width, asked->height } };
	int32_t right = window.x + window.width - asked->width, bottom = window.y + window.height - asked->height;
	if (asked->is_above) {
		wanted.box.y = cursor.y - asked->height;
	} else if (asked->is_free && window.width > 0) { /* at the window at least, whatever cursor is told */
		wanted.box.x = within(wanted.box.x, window.x, window.x + window.width);
		wanted.box.y = within(wanted.box.y, window.y, window.y + window.height);
	}
	if (asked->is_free || window.width == 0)
		return wanted;
	if (wanted.box.y > bottom && cursor.y - asked->height >= window.y)
		wanted.box.y = cursor.y - asked->height;
	wanted.box.x = within(wanted.box.x, window.x, right);
	wanted.box.y = within(wanted.box.y, window.y, bottom);
	return wanted;
}

/* The anchor lies in the window and has a size, as the protocol wants. */
static struct wanted beside(struct box window, struct box cursor) {
	struct box anchor = { cursor.x - window.x, cursor.y - window.y, cursor.width, cursor.height };
	if (window.width > 0) {
		anchor.x = within(anchor.x, 0, window.width - 1);
		anchor.y = within(anchor.y, 0, window.height - 1);
		anchor.width = within(anchor.width, 1, window.width - anchor.x);
		anchor.height = within(anchor.height, 1, window.height - anchor.y);
	}
	anchor.width += anchor.width == 0;
	anchor.height += anchor.height == 0;
	return (struct wanted){ BESIDE, anchor };
}

struct wanted popup_want(const struct asked *asked) {
	struct box window = box_bounded(asked->window), cursor = box_bounded(asked->cursor);
	if (asked->width < 1 || asked->height < 1 || asked->width > FAR_AWAY || asked->height > FAR_AWAY)
		return (struct wanted){ NOWHERE, { 0 } };
	if (!asked->has_cursor) /* nobody said where: at the bottom, at the left */
		cursor = (struct box){ window.x, window.y + window.height, 0, 0 };
	bool fits = asked->width <= window.width && asked->height <= window.height;
	return fits || asked->is_free || !asked->may_pop ? inside(asked, window, cursor) : beside(window, cursor);
}
