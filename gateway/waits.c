/* What the loop waits for: the system is told only what changed since the last time. And the time, which stands still
 * from one wait to the next. */
#include "shell.h"
#include <sys/epoll.h>
#include <time.h>

enum { AT_ONCE = 64 /* of so many what came is told; the others' comes the next time */ };

static struct {
	int file; /* 0: nothing was waited for yet */
	uint64_t moment; /* of the first question after the last wait; 0: nobody asked */
} self;

uint64_t moment(void) {
	struct timespec time;
	if (self.moment == 0 && clock_gettime(CLOCK_MONOTONIC, &time) == 0)
		self.moment = (uint64_t)time.tv_sec * 1000000 + (uint64_t)time.tv_nsec / 1000;
	return self.moment;
}

static bool tell(int what, struct waited *waited, short events) {
	struct epoll_event event = { .events = (uint16_t)events, .data.ptr = waited };
	if (epoll_ctl(self.file, what, waited->file, &event) < 0)
		return false;
	waited->events = events;
	return true;
}

bool wait_begin(struct waited *waited, short events) {
	if (self.file <= 0)
		self.file = epoll_create1(EPOLL_CLOEXEC);
	waited->came = 0;
	return tell(EPOLL_CTL_ADD, waited, events);
}

void wait_for(struct waited *waited, short events) {
	if (waited->events != events)
		tell(EPOLL_CTL_MOD, waited, events);
}

bool wait_all(int milliseconds) {
	struct epoll_event events[AT_ONCE];
	int came = epoll_wait(self.file, events, AT_ONCE, milliseconds);
	self.moment = 0;
	for (int at = 0; at < came; at++)
		((struct waited *)events[at].data.ptr)->came = (short)events[at].events;
	return came >= 0;
}
