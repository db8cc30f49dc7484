/* The shell: sockets and files, by which the core is told and does what it asks for; and where its lines go. */
#pragma once
#include "core.h"
#include <poll.h>
#include <sys/un.h>

#define say(format, ...) out(OUT_PROBLEMS, format "\n", ##__VA_ARGS__)
/* The names of files that lines go to (outlets.c); NULL: none, but of OUT_PROBLEMS. Of OUT_LOG and its text any: standard
 * output. */
extern const char *outlet_names[OUTLETS];
void outlets_open(void);
bool outlets_all(void); /* whether each that has a name has a file */
void outlets_flush(void); /* what can't be written ends its file, which is said */
void outlets_close(void);

/* The process at the other end, 0 where nobody knows, and its command. */
enum { COMMAND = 16 };
unsigned peer_of(int socket, char command[COMMAND]);
/* A socket that clients connect to, by its path or its name in XDG_RUNTIME_DIR: one that systemd opened, or our own, the
 * user's alone. -1: there is none, as where somebody listens at it, or it is no socket. And takes its name away. */
struct door { const char *name; struct sockaddr_un address; bool is_own; };
int listen_at(struct door *door);
void listen_end(const struct door *door);
int connect_to(const char *name); /* -1: nobody listens there */

/* Tells who asks how it stands: the compositor's socket, then who is connected. And asks that of the gateway at the socket,
 * and prints it, with what the compositor offers; whether all is well. */
void check_answer(int file, const char *compositor);
bool check(const char *socket, const char *compositor);

/* What is waited for, till it is closed, for poll's events, and which of them came with the last wait (waits.c). */
struct waited { int file; short events, came; };
bool wait_begin(struct waited *waited, short events); /* false: the system has no memory for it */
void wait_for(struct waited *waited, short events);
bool wait_all(int milliseconds); /* false: it couldn't, or a signal came */
uint64_t moment(void); /* microseconds, of a clock that never falls and goes on while the shell waits */

/* So many descriptors may be open (sockets.c). The sockets of a link are the shell's from now on. */
void links_limit(size_t files);
void link_open(unsigned link, int near, int far);
/* Of all links: says what is waited for, reads once what came and does what the core asks then, writes what they take. */
void links_wait(void);
void links_read(void);
void links_flush(void);
/* Does all that the core asks for. */
void perform(void);
