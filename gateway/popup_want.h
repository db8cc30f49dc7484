/* Where a popup is to be. A pure function: it knows numbers alone. */
#pragma once
#include <stdbool.h>
#include <stdint.h>

struct box { int32_t x, y, width, height; };

struct asked {
	struct box window; /* the window's geometry on its surface; no width: nobody knows it */
	struct box cursor; /* the field's, on the surface */
	bool has_cursor;
	int32_t width, height; /* the popup's */
	bool is_above; /* it has to be above the cursor: the window lies at the screen's bottom */
	bool is_free; /* what lies outside of the window is shown too: it is an xdg_popup, or a panel */
	bool may_pop; /* an xdg_popup may be made */
};

struct wanted {
	enum way { NOWHERE, INSIDE, BESIDE } way; /* a subsurface; an xdg_popup */
	struct box box; /* INSIDE: where, on the surface; BESIDE: the anchor, in the window's geometry */
};

struct wanted popup_want(const struct asked *asked);
/* With numbers of which some can be summed. */
struct box box_bounded(struct box box);
