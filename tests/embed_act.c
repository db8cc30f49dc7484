/*
 * How long an act of a keystroke takes, with its events pulled: a string of the method and its commit, and the two
 * events that the field is told. Prints nanoseconds of processor time an act.
 *
 *     embed_act [BATCHES]
 */
#include <inttypes.h>
#include <stdio.h>
#include <stdlib.h>
#include <time.h>
#include <wlim.h>

static double processor_time(void)
{
	struct timespec now;
	clock_gettime(CLOCK_PROCESS_CPUTIME_ID, &now);
	return now.tv_sec * 1e9 + now.tv_nsec;
}

/* Pulls all that waits, and counts it. */
static long pull(struct wlim *seat)
{
	struct wlim_event event;
	char text[4096];
	long events = 0;
	while (wlim_next(seat, &event, text, sizeof text) == WLIM_GIVEN)
		events++;
	return events;
}

int main(int count, char **words)
{
	long batches = count > 1 ? atol(words[1]) : 1000000;
	struct wlim seat = { 0 };
	if (!wlim_open(&seat))
		return 1;
	int64_t app = wlim_peer(&seat), surface = wlim_surface(&seat, app, 1), field = wlim_field(&seat, app, 2);
	int64_t peer = wlim_peer(&seat), method = wlim_method(&seat, peer, 3);
	if (wlim_focus(&seat, surface) <= 0 || wlim_enable(&seat, field) <= 0 || wlim_commit(&seat, field) <= 0)
		return 1;
	pull(&seat);
	long events = 0;
	double began = processor_time();
	for (long i = 0; i < batches; i++) {
		if (wlim_mstring(&seat, method, "a", 1) <= 0 || wlim_mcommit(&seat, method, 1) <= 0)
			return 1;
		events += pull(&seat);
	}
	double took = processor_time() - began;
	wlim_close(&seat);
	if (events != 2 * batches)
		return 1;
	printf("%.0f ns an act, %ld events of %ld acts\n", took / (2 * batches), events, 2 * batches);
	return 0;
}
