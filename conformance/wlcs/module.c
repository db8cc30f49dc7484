/*
 * The example compositor for WLCS, Mir's conformance suite: a module that starts it as a process, one for each test.
 * WLIM_COMPOSITOR names the program. It has no pointer and no touch, so that tests of these can't be run.
 */
#define _GNU_SOURCE
#include <signal.h>
#include <stdio.h>
#include <stdlib.h>
#include <string.h>
#include <sys/socket.h>
#include <sys/un.h>
#include <sys/wait.h>
#include <unistd.h>
#include <wlcs/display_server.h>
#include <wlcs/pointer.h>
#include <wlcs/touch.h>

struct server {
	WlcsDisplayServer calls; /* the first member: WLCS has its address */
	pid_t process;
	int lines;       /* the compositor's standard input; it ends when that is closed */
	char folder[64]; /* its XDG_RUNTIME_DIR */
	char socket[64];
};

static void die(const char *what)
{
	perror(what);
	exit(1);
}

/* ---- The process ---- */

static void run_compositor(const struct server *server, const int in[2], const int out[2])
{
	const char *program = getenv("WLIM_COMPOSITOR");
	dup2(in[0], STDIN_FILENO);
	dup2(out[1], STDOUT_FILENO);
	close(in[1]);
	close(out[0]);
	setenv("XDG_RUNTIME_DIR", server->folder, 1);
	execl(program ? program : "compositor", "compositor", (char *)NULL);
	_exit(127);
}

static void start(WlcsDisplayServer *calls)
{
	struct server *server = (struct server *)calls;
	int in[2], out[2];
	snprintf(server->folder, sizeof server->folder, "/tmp/wlim-wlcs-XXXXXX");
	if (!mkdtemp(server->folder) || pipe(in) < 0 || pipe(out) < 0)
		die("wlim's module");
	server->process = fork();
	if (server->process == 0)
		run_compositor(server, in, out);
	close(in[0]);
	close(out[1]);
	server->lines = in[1];
	FILE *said = fdopen(out[0], "r");
	if (fscanf(said, "ready %63s", server->socket) != 1)
		die("the compositor doesn't start: WLIM_COMPOSITOR");
	fclose(said);
}

static void stop(WlcsDisplayServer *calls)
{
	struct server *server = (struct server *)calls;
	char path[160];
	close(server->lines);
	waitpid(server->process, NULL, 0);
	snprintf(path, sizeof path, "rm -rf %s", server->folder);
	if (system(path) != 0)
		perror("the compositor's folder stays");
}

static int create_client_socket(WlcsDisplayServer *calls)
{
	struct server *server = (struct server *)calls;
	struct sockaddr_un at = { .sun_family = AF_UNIX };
	int file = socket(AF_UNIX, SOCK_STREAM | SOCK_CLOEXEC, 0);
	snprintf(at.sun_path, sizeof at.sun_path, "%.40s/%.60s", server->folder, server->socket);
	if (file < 0 || connect(file, (struct sockaddr *)&at, sizeof at) < 0)
		die("connect");
	return file;
}

/* ---- What the compositor hasn't ---- */

static void position(WlcsDisplayServer *calls, wl_display *client, wl_surface *surface, int x, int y)
{
	(void)calls, (void)client, (void)surface, (void)x, (void)y;
}

static void pointer_moves(WlcsPointer *pointer, wl_fixed_t x, wl_fixed_t y)
{
	(void)pointer, (void)x, (void)y;
}

static void pointer_button(WlcsPointer *pointer, int button)
{
	(void)pointer, (void)button;
}

static void pointer_ends(WlcsPointer *pointer)
{
	(void)pointer;
}

static WlcsPointer *create_pointer(WlcsDisplayServer *calls)
{
	static WlcsPointer none = { WLCS_POINTER_VERSION, pointer_moves, pointer_moves, pointer_button, pointer_button,
		pointer_ends };
	(void)calls;
	return &none;
}

static void touch_moves(WlcsTouch *touch, wl_fixed_t x, wl_fixed_t y)
{
	(void)touch, (void)x, (void)y;
}

static void touch_ends(WlcsTouch *touch)
{
	(void)touch;
}

static WlcsTouch *create_touch(WlcsDisplayServer *calls)
{
	static WlcsTouch none = { WLCS_TOUCH_VERSION, touch_moves, touch_moves, touch_ends, touch_ends };
	(void)calls;
	return &none;
}

/* ---- What WLCS loads ---- */

static const WlcsExtensionDescriptor extensions[] = {
	{ "wl_compositor", 4 }, { "wl_shm", 1 }, { "wl_seat", 7 }, { "xdg_wm_base", 2 },
	{ "zwp_text_input_manager_v3", 1 }, { "zwp_input_method_manager_v2", 1 },
};

static const WlcsIntegrationDescriptor *get_descriptor(const WlcsDisplayServer *calls)
{
	static const WlcsIntegrationDescriptor descriptor = { 1, sizeof extensions / sizeof *extensions, extensions };
	(void)calls;
	return &descriptor;
}

static WlcsDisplayServer *create_server(int count, const char **words)
{
	struct server *server = calloc(1, sizeof *server);
	(void)count, (void)words;
	signal(SIGPIPE, SIG_IGN);
	server->calls = (WlcsDisplayServer){ .version = 2, .start = start, .stop = stop,
		.create_client_socket = create_client_socket, .position_window_absolute = position,
		.create_pointer = create_pointer, .create_touch = create_touch, .get_descriptor = get_descriptor };
	return &server->calls;
}

static void destroy_server(WlcsDisplayServer *calls)
{
	free(calls);
}

const WlcsServerIntegration wlcs_server_integration = { WLCS_SERVER_INTEGRATION_VERSION, create_server, destroy_server };
