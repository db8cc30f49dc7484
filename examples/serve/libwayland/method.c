/* An input method: where a field is active it types "hello" once, and ends. */
#include "globals.h"
#include "input-method-unstable-v2-client-protocol.h"

static uint32_t serial;
static int active, finished;

static void on_activate(void *data, struct zwp_input_method_v2 *method) { active = 1; }

static void on_deactivate(void *data, struct zwp_input_method_v2 *method) { active = 0; }

static void on_surrounding(void *data, struct zwp_input_method_v2 *method, const char *text, uint32_t cursor, uint32_t anchor) {}

static void on_cause(void *data, struct zwp_input_method_v2 *method, uint32_t cause) {}

static void on_content(void *data, struct zwp_input_method_v2 *method, uint32_t hint, uint32_t purpose) {}

static void on_done(void *data, struct zwp_input_method_v2 *method) {
    serial++;
    if (active && !finished) {
        zwp_input_method_v2_commit_string(method, "hello");
        zwp_input_method_v2_commit(method, serial);
        printf("typed hello after done %u\n", serial);
        finished = 1;
    }
}

static void on_unavailable(void *data, struct zwp_input_method_v2 *method) {
    fprintf(stderr, "another method serves\n");
    exit(1);
}

static const struct zwp_input_method_v2_listener on_method = {
    on_activate, on_deactivate, on_surrounding, on_cause, on_content, on_done, on_unavailable,
};

int main(void) {
    struct wanted wanted[] = {{&wl_seat_interface}, {&zwp_input_method_manager_v2_interface}, {0}};
    struct wl_display *display = connect_and_bind(wanted);
    struct zwp_input_method_v2 *method = zwp_input_method_manager_v2_get_input_method(wanted[1].bound, wanted[0].bound);
    zwp_input_method_v2_add_listener(method, &on_method, NULL);
    while (!finished && wl_display_dispatch(display) != -1)
        ;
    wl_display_roundtrip(display);
    wl_display_disconnect(display);
    return finished ? 0 : 1;
}
