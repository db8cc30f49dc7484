/* A method's string on its way to the field that has the focus: cc relay.c $(pkg-config --cflags --libs wlim) */
#include <inttypes.h>
#include <stdio.h>
#include <wlim.h>

static void print_events(struct wlim *seat)
{
	struct wlim_event event;
	char text[WLIM_TEXT_MAX];
	while (wlim_next(seat, &event, text, sizeof text) == WLIM_GIVEN)
		if (event.kind == WLIM_COMMIT_STRING)
			printf("object %" PRIu64 " is told the string %s\n", event.number, text);
}

int main(void)
{
	struct wlim seat = {0};
	if (!wlim_open(&seat))
		return 1;
	uint32_t program = wlim_peer(&seat), input_method = wlim_peer(&seat);
	uint32_t surface = wlim_surface(&seat, program, 6), field = wlim_field(&seat, program, 7);
	uint32_t method = wlim_method(&seat, input_method, 5);
	wlim_focus(&seat, surface);
	wlim_enable(&seat, field);
	wlim_commit(&seat, field);
	wlim_mstring(&seat, method, "hello", 5);
	wlim_mcommit(&seat, method, 1);
	print_events(&seat);
	wlim_close(&seat);
	return 0;
}
