/*
 * A plug-in for Weston, for trials: makes a seat with a keyboard and a pointer, and drives and shows Weston by lines. It
 * listens at the socket WESTON_DRIVE, and answers each line by one:
 *
 *     key CODE STATE       a key of evdev's numbers, 0 released or 1 pressed
 *     point X Y, button STATE     the pointer; its left button
 *     windows              of each mapped window: `label|x|y|width|height|output|focus`, with ; between
 *     focus TEXT, unfocus  the window whose label has TEXT; `no` where there is none
 *     move TEXT X Y        that window's place
 *     popups               of each popup of a method that is shown: `x y width height`, with ; between
 *     count MESSAGE        how often `interface.message` passed, in both directions, since the first such line
 *     keymap LAYOUT        the keyboard's layout
 *     host STATE           the host of a nested Weston takes the keyboard focus (0) and gives it back (1)
 *     seat STATE           the keyboard is released (0) and made (1)
 *     shot FILE OUTPUT     what the output of this number shows, as a PPM
 *
 * WESTON_OUTPUTS=2 makes a second output.
 */
#define _GNU_SOURCE
#include <libweston/libweston.h>
#include <libweston/windowed-output-api.h>
#include <linux/input.h>
#include <stdio.h>
#include <stdlib.h>
#include <string.h>
#include <sys/socket.h>
#include <sys/un.h>
#include <unistd.h>
#include <weston.h>

/* Of libweston, but not in its public headers. */
void weston_seat_init(struct weston_seat *seat, struct weston_compositor *compositor, const char *name);
void weston_seat_init_pointer(struct weston_seat *seat);
int weston_seat_init_keyboard(struct weston_seat *seat, struct xkb_keymap *keymap);
void weston_seat_release_keyboard(struct weston_seat *seat);
void weston_seat_release(struct weston_seat *seat);
void weston_seat_update_keymap(struct weston_seat *seat, struct xkb_keymap *keymap);
void notify_key(struct weston_seat *seat, const struct timespec *time, uint32_t key, enum wl_keyboard_key_state state,
	enum weston_key_state_update update);
void notify_motion_absolute(struct weston_seat *seat, const struct timespec *time, double x, double y);
void notify_button(struct weston_seat *seat, const struct timespec *time, int32_t button,
	enum wl_pointer_button_state state);
void notify_pointer_frame(struct weston_seat *seat);
void notify_keyboard_focus_in(struct weston_seat *seat, struct wl_array *keys, enum weston_key_state_update update);
void notify_keyboard_focus_out(struct weston_seat *seat);

#define COUNTED_MOST 512

static struct {
	struct weston_compositor *compositor;
	struct weston_seat seat;
	struct wl_listener destroyed;
	int listens;
	struct wl_protocol_logger *logger;
	struct {
		char name[64];
		unsigned count;
	} counted[COUNTED_MOST];
} self;

struct link {
	int file;
	struct wl_event_source *source;
	char line[4096];
	size_t length;
};

static struct timespec now(void)
{
	struct timespec time;
	weston_compositor_get_time(&time);
	return time;
}

static void on_message(void *data, enum wl_protocol_logger_type type, const struct wl_protocol_logger_message *message)
{
	char name[64];
	(void)data, (void)type;
	snprintf(name, sizeof name, "%s.%s", wl_resource_get_class(message->resource), message->message->name);
	for (int at = 0; at < COUNTED_MOST; at++) {
		if (!self.counted[at].count)
			memcpy(self.counted[at].name, name, sizeof name);
		if (strcmp(self.counted[at].name, name) == 0) {
			self.counted[at].count++;
			return;
		}
	}
}

/* From the first time on that it is asked. */
static unsigned count_of(const char *name)
{
	if (!self.logger)
		self.logger = wl_display_add_protocol_logger(self.compositor->wl_display, on_message, NULL);
	for (int at = 0; at < COUNTED_MOST; at++)
		if (self.counted[at].count && strcmp(self.counted[at].name, name) == 0)
			return self.counted[at].count;
	return 0;
}

/* ---- Views ---- */

static bool is_popup(const struct weston_view *view)
{
	const char *role = weston_surface_get_role(view->surface);
	return role && strcmp(role, "zwp_input_popup_surface_v2") == 0;
}

static void label_of(const struct weston_view *view, char *label, size_t size)
{
	label[0] = 0;
	if (view->surface->get_label)
		view->surface->get_label(view->surface, label, size);
}

static struct weston_view *view_with(const char *text)
{
	struct weston_view *view;
	char label[512];
	wl_list_for_each(view, &self.compositor->view_list, link) {
		label_of(view, label, sizeof label);
		if (weston_view_is_mapped(view) && !is_popup(view) && strstr(label, text))
			return view;
	}
	return NULL;
}

static void views_line(FILE *to, bool popups)
{
	const struct weston_keyboard *keyboard = self.seat.keyboard_state;
	struct weston_view *view;
	char label[512];
	float x, y;
	wl_list_for_each(view, &self.compositor->view_list, link) {
		if (!weston_view_is_mapped(view) || is_popup(view) != popups)
			continue;
		const struct weston_surface *surface = view->surface;
		weston_view_to_global_float(view, 0, 0, &x, &y);
		label_of(view, label, sizeof label);
		if (popups)
			fprintf(to, "%d %d %d %d;", (int)x, (int)y, surface->width, surface->height);
		else
			fprintf(to, "%s|%d|%d|%d|%d|%s|%d;", label, (int)x, (int)y, surface->width, surface->height,
				view->output ? view->output->name : "-", keyboard && keyboard->focus == surface);
	}
}

static bool shoot(const char *file, unsigned number)
{
	struct weston_output *output;
	wl_list_for_each(output, &self.compositor->output_list, link)
		if (number-- == 0)
			break;
	if (&output->link == &self.compositor->output_list)
		return false;
	int width = output->current_mode->width, height = output->current_mode->height;
	uint32_t *pixels = malloc((size_t)width * height * 4);
	FILE *to = fopen(file, "wb");
	bool taken = pixels && to && self.compositor->renderer->read_pixels(output, PIXMAN_a8r8g8b8, pixels, 0, 0, width,
		height) == 0;
	if (taken) {
		fprintf(to, "P6 %d %d 255\n", width, height);
		for (int at = 0; at < width * height; at++) {
			const unsigned char rgb[] = { pixels[at] >> 16, pixels[at] >> 8, pixels[at] };
			fwrite(rgb, 1, 3, to);
		}
	}
	free(pixels);
	if (to)
		fclose(to);
	return taken;
}

/* ---- Lines ---- */

static struct xkb_keymap *keymap_of(const char *layout)
{
	struct xkb_context *context = xkb_context_new(XKB_CONTEXT_NO_FLAGS);
	const struct xkb_rule_names names = { .layout = layout };
	struct xkb_keymap *keymap = xkb_keymap_new_from_names(context, &names, XKB_KEYMAP_COMPILE_NO_FLAGS);
	xkb_context_unref(context);
	return keymap;
}

static void focus_line(FILE *to, const char *text)
{
	struct weston_view *view = view_with(text);
	if (view)
		weston_view_activate_input(view, &self.seat, WESTON_ACTIVATE_FLAG_NONE);
	fputs(view ? "ok" : "no", to);
}

static void host_line(unsigned state)
{
	struct wl_array none;
	wl_array_init(&none);
	if (state)
		notify_keyboard_focus_in(&self.seat, &none, STATE_UPDATE_AUTOMATIC);
	else
		notify_keyboard_focus_out(&self.seat);
}

static void take_line(FILE *to, const char *line)
{
	char text[512];
	unsigned code, state;
	int x, y;
	struct timespec time = now();
	struct weston_view *view;
	if (sscanf(line, "key %u %u", &code, &state) == 2) {
		notify_key(&self.seat, &time, code, state, STATE_UPDATE_AUTOMATIC);
	} else if (sscanf(line, "point %d %d", &x, &y) == 2) {
		notify_motion_absolute(&self.seat, &time, x, y);
		notify_pointer_frame(&self.seat);
	} else if (sscanf(line, "button %u", &state) == 1) {
		notify_button(&self.seat, &time, BTN_LEFT, state);
		notify_pointer_frame(&self.seat);
	} else if (strcmp(line, "windows") == 0 || strcmp(line, "popups") == 0) {
		views_line(to, line[0] == 'p');
	} else if (sscanf(line, "focus %511[^\n]", text) == 1) {
		focus_line(to, text);
	} else if (strcmp(line, "unfocus") == 0) {
		weston_seat_set_keyboard_focus(&self.seat, NULL);
	} else if (sscanf(line, "move %511s %d %d", text, &x, &y) == 3) {
		if ((view = view_with(text)))
			weston_view_set_position(view, x, y);
		weston_compositor_schedule_repaint(self.compositor);
	} else if (sscanf(line, "count %511s", text) == 1) {
		fprintf(to, "%u", count_of(text));
	} else if (sscanf(line, "keymap %511s", text) == 1) {
		struct xkb_keymap *keymap = keymap_of(text);
		weston_seat_update_keymap(&self.seat, keymap);
		xkb_keymap_unref(keymap);
	} else if (sscanf(line, "host %u", &state) == 1) {
		host_line(state);
	} else if (sscanf(line, "seat %u", &state) == 1) {
		if (state)
			weston_seat_init_keyboard(&self.seat, NULL);
		else
			weston_seat_release_keyboard(&self.seat);
	} else if (sscanf(line, "shot %511s %u", text, &code) == 2) {
		fputs(shoot(text, code) ? "ok" : "no", to);
	} else {
		fputs("what?", to);
	}
}

static int on_input(int file, uint32_t mask, void *data)
{
	struct link *link = data;
	ssize_t got = read(file, link->line + link->length, sizeof link->line - 1 - link->length);
	char *end, *answer;
	size_t size;
	(void)mask;
	if (got <= 0) {
		wl_event_source_remove(link->source);
		close(file);
		free(link);
		return 0;
	}
	link->length += got;
	while ((end = memchr(link->line, '\n', link->length))) {
		FILE *to = open_memstream(&answer, &size);
		*end = 0;
		take_line(to, link->line);
		fputc('\n', to);
		fclose(to);
		if (write(file, answer, size) < 0)
			weston_log("drive: no answer\n");
		free(answer);
		link->length -= end + 1 - link->line;
		memmove(link->line, end + 1, link->length);
	}
	return 0;
}

static int on_link(int file, uint32_t mask, void *data)
{
	struct link *link = calloc(1, sizeof *link);
	(void)mask, (void)data;
	link->file = accept4(file, NULL, NULL, SOCK_CLOEXEC);
	link->source = wl_event_loop_add_fd(wl_display_get_event_loop(self.compositor->wl_display), link->file,
		WL_EVENT_READABLE, on_input, link);
	return 0;
}

static void on_destroyed(struct wl_listener *listener, void *data)
{
	(void)listener, (void)data;
	if (self.logger)
		wl_protocol_logger_destroy(self.logger);
	weston_seat_release(&self.seat);
}

WL_EXPORT int wet_module_init(struct weston_compositor *compositor, int *argc, char *argv[])
{
	struct wl_event_loop *loop = wl_display_get_event_loop(compositor->wl_display);
	struct sockaddr_un at = { .sun_family = AF_UNIX };
	const char *outputs = getenv("WESTON_OUTPUTS"), *path = getenv("WESTON_DRIVE");
	(void)argc, (void)argv;
	if (!path || strlen(path) >= sizeof at.sun_path)
		return -1;
	self.compositor = compositor;
	strcpy(at.sun_path, path);
	self.listens = socket(AF_UNIX, SOCK_STREAM | SOCK_CLOEXEC, 0);
	if (bind(self.listens, (struct sockaddr *)&at, sizeof at) != 0 || listen(self.listens, 4) != 0)
		return -1;
	wl_event_loop_add_fd(loop, self.listens, WL_EVENT_READABLE, on_link, NULL);
	weston_seat_init(&self.seat, compositor, "trial");
	weston_seat_init_pointer(&self.seat);
	weston_seat_init_keyboard(&self.seat, NULL);
	self.destroyed.notify = on_destroyed;
	wl_signal_add(&compositor->destroy_signal, &self.destroyed);
	if (outputs && atoi(outputs) == 2)
		weston_windowed_output_get_api(compositor)->create_head(compositor, "second");
	return 0;
}
