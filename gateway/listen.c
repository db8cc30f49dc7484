/* Sockets by name: the compositor's, and those that clients connect to, which systemd may have opened. */
#include "shell.h"
#include <errno.h>
#include <fcntl.h>
#include <stdio.h>
#include <stdlib.h>
#include <string.h>
#include <sys/socket.h>
#include <sys/stat.h>
#include <unistd.h>

enum { FIRST_GIVEN = 3 /* the descriptor of the first socket that systemd opened */ };

/* The address of a socket's name. False: it is too long, or there is no folder. */
static bool name_address(const char *name, struct sockaddr_un *address) {
	const char *folder = strchr(name, '/') ? NULL : getenv("XDG_RUNTIME_DIR");
	size_t room = sizeof address->sun_path;
	*address = (struct sockaddr_un){ .sun_family = AF_UNIX };
	if (!folder && !strchr(name, '/'))
		return say("XDG_RUNTIME_DIR isn't set"), errno = ENOENT, false;
	bool fits = (size_t)snprintf(address->sun_path, room, "%s%s%s", folder ? folder : "", folder ? "/" : "", name) < room;
	address->sun_path[0] = fits ? address->sun_path[0] : 0;
	return errno = ENAMETOOLONG, fits;
}

static int stream(void) {
	return socket(AF_UNIX, SOCK_STREAM | SOCK_CLOEXEC | SOCK_NONBLOCK, 0);
}

int connect_to(const char *name) {
	struct sockaddr_un address;
	int file = name_address(name, &address) ? stream() : -1;
	if (file < 0 || connect(file, (struct sockaddr *)&address, sizeof address) == 0)
		return file;
	return close(file), -1;
}

/* The socket of that address that systemd opened, as sd_listen_fds(3) says; -1: it opened none such. */
static int given_socket(const struct sockaddr_un *address) {
	const char *process = getenv("LISTEN_PID"), *files = getenv("LISTEN_FDS");
	int count = process && files && atoi(process) == getpid() ? atoi(files) : 0;
	for (int file = FIRST_GIVEN; file < FIRST_GIVEN + count; file++) {
		struct sockaddr_un found = { 0 };
		socklen_t size = sizeof found;
		if (getsockname(file, (struct sockaddr *)&found, &size) != 0 || found.sun_family != AF_UNIX
				|| strncmp(found.sun_path, address->sun_path, sizeof found.sun_path) != 0)
			continue;
		fcntl(file, F_SETFD, FD_CLOEXEC);
		fcntl(file, F_SETFL, O_NONBLOCK);
		return file;
	}
	return -1;
}

int listen_at(struct door *door) {
	struct sockaddr *address = (struct sockaddr *)&door->address;
	struct stat state;
	int file = name_address(door->name, &door->address) ? given_socket(&door->address) : -1;
	door->is_own = file < 0;
	if (file >= 0 || door->address.sun_path[0] == 0)
		return file;
	if (lstat(door->address.sun_path, &state) == 0 && !S_ISSOCK(state.st_mode))
		return errno = EEXIST, -1;
	file = stream();
	if (file >= 0 && (connect(file, address, sizeof door->address) == 0 || errno == EAGAIN))
		return errno = EADDRINUSE, -1;
	if (file >= 0)
		unlink(door->address.sun_path);
	bool bound = file >= 0 && bind(file, address, sizeof door->address) == 0;
	return bound && listen(file, 128) == 0 ? file : -1;
}

void listen_end(const struct door *door) {
	if (door->is_own)
		unlink(door->address.sun_path);
}
