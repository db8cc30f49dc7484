/* What both clients bind, found in the registry by name. */
#include <stdint.h>
#include <stdio.h>
#include <stdlib.h>
#include <string.h>
#include <wayland-client.h>

struct wanted {
    const struct wl_interface *interface;
    void *bound;
};

/* The list ends with an interface that is null. */
static void on_global(void *data, struct wl_registry *registry, uint32_t name, const char *interface,
                      uint32_t version) {
    for (struct wanted *want = data; want->interface; want++)
        if (strcmp(interface, want->interface->name) == 0)
            want->bound = wl_registry_bind(registry, name, want->interface, 1);
}

static void on_global_remove(void *data, struct wl_registry *registry, uint32_t name) {}

static const struct wl_registry_listener on_registry = {on_global, on_global_remove};

static struct wl_display *connect_and_bind(struct wanted *wanted) {
    struct wl_display *display = wl_display_connect(NULL);
    if (!display) {
        fprintf(stderr, "no display\n");
        exit(1);
    }
    wl_registry_add_listener(wl_display_get_registry(display), &on_registry, wanted);
    wl_display_roundtrip(display);
    for (; wanted->interface; wanted++)
        if (!wanted->bound) {
            fprintf(stderr, "no %s\n", wanted->interface->name);
            exit(1);
        }
    return display;
}
