/*
 * The gateway's words, sockets by name, files that lines go to, --check, and the loop beside a compositor that the test
 * is. Built by tests/gateway.sh. Prints what doesn't hold.
 */
#include "gateway_users.h"
#include <sys/wait.h>

/* Whether the words are read; they set what was the last's. */
#define READS(...) read_words(sizeof((char *[]){ "gateway", __VA_ARGS__ }) / sizeof(char *), \
	(char *[]){ "gateway", __VA_ARGS__ })

static void words(void)
{
	HOLDS(READS("--programs", "p", "--methods", "m", "--compositor", "c", "--entries", "3500000"));
	HOLDS(strcmp(self.doors[WAIT_PROGRAMS].name, "p") == 0 && strcmp(self.doors[WAIT_METHODS].name, "m") == 0);
	HOLDS(strcmp(self.doors[WAIT_CHECKS].name, "p.check") == 0 && strcmp(self.compositor, "c") == 0);
	HOLDS(self.entries == 3500000 && !self.checks && !outlet_names[OUT_LOG]);
	HOLDS(READS("--check", "--log", "--record", "--log") && self.checks && outlet_names[OUT_LOG]);
	HOLDS(strcmp(outlet_names[OUT_RECORD], "--log") == 0); /* a value may be any word */
	HOLDS(!READS("--record") && !READS("--what") && !READS("p") && !READS("--log", "p") && !READS("--lo"));
	HOLDS(!READS("--entries", "0") && !READS("--entries", "3500001") && !READS("--entries", "1x") && !READS("--entries", "-1"));
	static char name[200];
	memset(name, 'n', sizeof name - 1);
	HOLDS(READS("--programs", name) && strlen(self.doors[WAIT_CHECKS].name) < sizeof self.doors->address.sun_path);
	HOLDS(READS("--programs", "wlim-programs", "--methods", "wlim-methods"));
	outlet_names[OUT_LOG] = outlet_names[OUT_RECORD] = self.checks = NULL;
}

static const char *path_of(const char *name)
{
	static char path[200];
	snprintf(path, sizeof path, "%s/%s", folder, name);
	return path;
}

/* Who listens does so at the user's own socket; nobody takes it from another, nor what is no socket. */
static void doors(void)
{
	static char name[200];
	struct door door = { .name = "door" }, other = { .name = path_of("door") }, file = { .name = "file" };
	struct door longest = { .name = name }, nowhere = { .name = "no/door" };
	struct stat state;
	memset(name, 'n', sizeof name - 1);
	HOLDS(listen_at(&longest) < 0 && errno == ENAMETOOLONG && connect_to(name) < 0 && errno == ENAMETOOLONG);
	HOLDS(listen_at(&nowhere) < 0 && connect_to("door") < 0);
	int first = listen_at(&door);
	HOLDS(first >= 0 && door.is_own && lstat(path_of("door"), &state) == 0 && S_ISSOCK(state.st_mode));
	HOLDS((state.st_mode & 077) == 0 && listen_at(&other) < 0 && errno == EADDRINUSE);
	int client = connect_to("door");
	HOLDS(client >= 0 && close(client) == 0 && close(first) == 0);
	HOLDS(connect_to("door") < 0 && errno == ECONNREFUSED); /* left behind, as by one that was killed */
	first = listen_at(&other);
	HOLDS(first >= 0 && connect_to("door") >= 0 && close(first) == 0);
	listen_end(&other);
	HOLDS(access(path_of("door"), F_OK) < 0);
	HOLDS(close(open(path_of("file"), O_CREAT | O_WRONLY, 0600)) == 0 && listen_at(&file) < 0 && errno == EEXIST);
	HOLDS(lstat(path_of("file"), &state) == 0 && S_ISREG(state.st_mode) && unlink(path_of("file")) == 0);
	HOLDS(unsetenv("XDG_RUNTIME_DIR") == 0 && listen_at(&door) < 0 && errno == ENOENT);
	HOLDS(setenv("XDG_RUNTIME_DIR", folder, 1) == 0);
}

/* A socket that systemd opened is taken by its address, and stays when the gateway ends. */
static void given_doors(void)
{
	char pid[20];
	struct door door = { .name = "given" }, other = { .name = "other" };
	int file = listen_at(&door);
	snprintf(pid, sizeof pid, "%d", getpid());
	HOLDS(file > 3 && dup2(file, 3) == 3 && setenv("LISTEN_PID", pid, 1) == 0 && setenv("LISTEN_FDS", "1", 1) == 0);
	HOLDS(close(file) == 0 && listen_at(&door) == 3 && !door.is_own && fcntl(3, F_GETFD) == FD_CLOEXEC);
	listen_end(&door);
	HOLDS(access(path_of("given"), F_OK) == 0);
	int own = listen_at(&other);
	HOLDS(own > 3 && other.is_own && close(own) == 0);
	listen_end(&other);
	HOLDS(setenv("LISTEN_PID", "1", 1) == 0 && listen_at(&door) < 0 && errno == EADDRINUSE); /* they are another's */
	close(3);
	HOLDS(unlink(path_of("given")) == 0 && unsetenv("LISTEN_PID") == 0 && unsetenv("LISTEN_FDS") == 0);
}

static bool has_text(const char *name, const char *text)
{
	char found[200] = { 0 };
	FILE *file = fopen(path_of(name), "re");
	bool same = file && fread(found, 1, sizeof found - 1, file) == strlen(text) && strcmp(found, text) == 0;
	if (file)
		fclose(file);
	return same;
}

/* Lines go to new files, the user's alone, one for each broker; what can't be written ends its file, and that alone. */
static void files_of_lines(void)
{
	char record[200], taken[200];
	struct rlimit limit, small;
	struct stat state;
	snprintf(record, sizeof record, "%s", path_of("lines"));
	snprintf(taken, sizeof taken, "%s", path_of("others"));
	outlet_names[OUT_RECORD] = record;
	outlet_names[OUT_TAKEN] = taken;
	outlets_open();
	HOLDS(!outlets[OUT_RECORD] && !outlets_all());
	umask(0);
	out_begin(1);
	umask(0077);
	HOLDS(outlets[OUT_RECORD] && outlets[OUT_TAKEN] && !outlets[OUT_LOG] && outlets_all());
	out(OUT_RECORD, "%d %s\n", 1, "one");
	out_begin(2);
	out(OUT_RECORD, "two\n");
	outlets_flush();
	HOLDS(has_text("lines", "1 one\n") && has_text("lines.2", "two\n") && stat(record, &state) == 0);
	HOLDS((state.st_mode & 0777) == 0600);
	out_begin(1); /* there is one: it stays as it is */
	HOLDS(!outlets[OUT_RECORD] && !outlets_all() && has_text("lines", "1 one\n"));
	HOLDS(symlink("/dev/null", path_of("lines.3")) == 0);
	out_begin(3);
	HOLDS(!outlets[OUT_RECORD] && outlets[OUT_TAKEN]);
	out(OUT_RECORD, "nowhere\n");
	out_begin(4);
	getrlimit(RLIMIT_FSIZE, &limit);
	small = (struct rlimit){ 100, limit.rlim_max };
	HOLDS(outlets_all() && setrlimit(RLIMIT_FSIZE, &small) == 0);
	out(OUT_RECORD, "%0200d\n", 0);
	outlets_flush();
	HOLDS(setrlimit(RLIMIT_FSIZE, &limit) == 0 && !outlets[OUT_RECORD] && outlets[OUT_TAKEN]);
	outlets_close();
	HOLDS(!outlets[OUT_TAKEN]);
	outlet_names[OUT_RECORD] = outlet_names[OUT_TAKEN] = NULL;
}

/* What `--check` prints beside this gateway, and its status; the compositor answers with these messages. */
static int check_prints(char *text, size_t room, const struct message *const *answers, size_t count)
{
	int pipes[2], status = -1;
	size_t size = 0;
	HOLDS(pipe(pipes) == 0 && fflush(stdout) == 0);
	pid_t child = fork();
	if (child == 0) {
		dup2(pipes[1], STDOUT_FILENO);
		status = check(self.doors[WAIT_CHECKS].name, "nobody") ? 0 : 1;
		fflush(stdout);
		_exit(status);
	}
	close(pipes[1]);
	int asks = -1;
	for (int tries = 0; tries < 3000 && asks < 0; tries++) {
		take_turn();
		usleep(1000);
		asks = accept(compositor_door, NULL, NULL);
	}
	HOLDS(asks >= 0);
	for (size_t at = 0; at < count; at++)
		HOLDS(send(asks, answers[at]->bytes, answers[at]->size, MSG_NOSIGNAL) == answers[at]->size);
	shutdown(asks, SHUT_WR);
	for (ssize_t came; (came = read(pipes[0], text + size, room - 1 - size)) > 0; )
		size += (size_t)came;
	text[size] = 0;
	HOLDS(waitpid(child, &status, 0) == child && close(asks) == 0 && close(pipes[0]) == 0);
	return WEXITSTATUS(status);
}

/* A message that stays, unlike a draft. */
static const struct message *kept(const struct message *message)
{
	static uint8_t bytes[10][100];
	static struct message all[10];
	static unsigned count;
	struct message *kept = &all[count % 10];
	*kept = *message;
	kept->bytes = memcpy(bytes[count++ % 10], message->bytes, message->size);
	return kept;
}

static void checks(struct user *user)
{
	char text[4000], program[200], seat[200];
	const struct message *const answers[] = {
		kept(draft(2, wl_registry_event_global, "usu", 1, "wl_seat", 10)),
		kept(draft(2, wl_registry_event_global, "usu", 2, "of_nobody", 1)),
		kept(draft(2, wl_registry_event_global_remove, "u", 2)),
		kept(draft(2, wl_registry_event_global, "usu", 3, "zwp_text_input_manager_v3", 1)),
		kept(draft(3, wl_callback_event_done, "u", 0)),
	};
	snprintf(program, sizeof program, "\nprogram %u: process %d, ", user->place.number, getpid());
	HOLDS(check_prints(text, sizeof text, answers, 5) == 1); /* no method serves */
	snprintf(seat, sizeof seat, "the compositor: wayland-0\n  wl_seat 10\n    programs see version %u\n",
		wl_seat_table.version < 9 ? wl_seat_table.version : 9);
	HOLDS(strncmp(text, seat, strlen(seat)) == 0);
	HOLDS(strstr(text, "\n  of_nobody 1: hidden, the gateway doesn't know it\n"));
	HOLDS(strstr(text, "\n  zwp_text_input_manager_v3 1: hidden, the gateway has its own\nthe gateway: process "));
	HOLDS(strstr(text, program) && strstr(text, "\nno input method serves\n"));
	static struct user method;
	start_grab(&method);
	HOLDS(check_prints(text, sizeof text, answers, 5) == 0 && strstr(text, "\nan input method serves\n"));
	HOLDS(check_prints(text, sizeof text, answers, 4) == 1 && strstr(text, "  wl_seat 10\n")); /* its answer isn't whole */
	close_client(&method.place);
}

/* Where descriptors run short who comes is closed, others live on, and later ones are let in again. */
static void runs_short(struct user *user)
{
	struct rlimit limit, small;
	static struct user other;
	char byte;
	int file = connect_to("wlim-programs"), next = open("/dev/null", O_RDONLY | O_CLOEXEC);
	getrlimit(RLIMIT_NOFILE, &limit);
	small = (struct rlimit){ (rlim_t)next, limit.rlim_max };
	HOLDS(file >= 0 && next >= 0 && close(next) == 0 && setrlimit(RLIMIT_NOFILE, &small) == 0);
	take_turn();
	HOLDS(recv(file, &byte, 1, MSG_DONTWAIT) == 0 && self.spare >= 0);
	HOLDS(setrlimit(RLIMIT_NOFILE, &limit) == 0 && close(file) == 0 && user->place.link > 0);
	now += RESTS * 1000 + 1;
	start_program(&other, true);
	look(&other);
	HOLDS(self.doors[WAIT_PROGRAMS].is_own);
	close_client(&other.place);
}

/* SIGHUP begins another record, and nobody notices. */
static void renews(struct user *user)
{
	char path[200];
	raise(SIGHUP);
	for (int rounds = 0; rounds < 4; rounds++) {
		now += 1000000;
		take_turn();
	}
	snprintf(path, sizeof path, "%s.2", outlet_names[OUT_RECORD]);
	HOLDS(access(path, F_OK) == 0 && user->place.link > 0 && !self.ends);
	request(user, draft(DISPLAY, wl_display_request_sync, "u", KEYBOARD_2));
	look(user);
}

int main(void)
{
	static struct user user;
	make_folder();
	umask(0077);
	signal(SIGXFSZ, SIG_IGN);
	words();
	doors();
	given_doors();
	files_of_lines();
	open_gateway();
	HOLDS(!READS("--programs", "p", "--x"));
	start_program(&user, true);
	checks(&user);
	runs_short(&user);
	renews(&user);
	close_client(&user.place);
	close_gateway();
	HOLDS(tokens_used() == 0 && strcmp(self.ends, "it was asked to") == 0);
	printf("the gateway's loop: %s\n", failed ? "not as it should be" : "ok");
	return failed;
}
