/* A text field: it prints the id of its surface, enables itself when it is entered, and prints what is typed. */
#include "globals.h"
#include "text-input-unstable-v3-client-protocol.h"

static char typed[4096];
static int finished;

static void on_enter(void *data, struct zwp_text_input_v3 *field, struct wl_surface *surface) {
    zwp_text_input_v3_enable(field);
    zwp_text_input_v3_commit(field);
}

static void on_leave(void *data, struct zwp_text_input_v3 *field, struct wl_surface *surface) {}

static void on_preedit(void *data, struct zwp_text_input_v3 *field, const char *text, int32_t begin, int32_t end) {}

static void on_commit(void *data, struct zwp_text_input_v3 *field, const char *text) {
    snprintf(typed, sizeof typed, "%s", text ? text : "");
}

static void on_delete(void *data, struct zwp_text_input_v3 *field, uint32_t before, uint32_t after) {}

static void on_done(void *data, struct zwp_text_input_v3 *field, uint32_t serial) {
    printf("typed %s, done %u\n", typed, serial);
    finished = 1;
}

static const struct zwp_text_input_v3_listener on_field = {on_enter, on_leave, on_preedit, on_commit, on_delete, on_done};

int main(void) {
    struct wanted wanted[] = {{&wl_compositor_interface}, {&wl_seat_interface}, {&zwp_text_input_manager_v3_interface}, {0}};
    struct wl_display *display = connect_and_bind(wanted);
    struct wl_surface *surface = wl_compositor_create_surface(wanted[0].bound);
    struct zwp_text_input_v3 *field = zwp_text_input_manager_v3_get_text_input(wanted[2].bound, wanted[1].bound);
    zwp_text_input_v3_add_listener(field, &on_field, NULL);
    wl_display_roundtrip(display);
    printf("surface %u\n", wl_proxy_get_id((struct wl_proxy *)surface));
    fflush(stdout);
    while (!finished && wl_display_dispatch(display) != -1)
        ;
    wl_display_disconnect(display);
    return finished ? 0 : 1;
}
