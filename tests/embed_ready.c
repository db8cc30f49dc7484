/*
 * Who has output, among peers that come and go: wlim_broker_ready is held against wlim_broker_stored of each peer that
 * ever joined. Of the peers that went some were taken from before, some after, some never.
 *
 *     embed_ready PEERS [CALLS]
 *
 * With CALLS it only lets so many peers come and go, takes all, and then asks so often who has output; by callgrind with
 * --toggle-collect=wlim_broker_ready that counts what a call costs.
 */
#include <inttypes.h>
#include <stdio.h>
#include <stdlib.h>
#include <wlim.h>

enum { KEPT = 8, LEFT = 50 /* one in so many keeps what is stored for it */ };

static struct wlim_broker broker;
static uint64_t moment;

static void give_up(const char *why)
{
	fprintf(stderr, "embed_ready: %s\n", why);
	exit(1);
}

/* A peer that asked for a registry, so that something is stored for it. */
static uint32_t come(void)
{
	static const uint8_t registry[12] = { 1, 0, 0, 0, 1, 0, 12, 0, 2 };
	int64_t peer = wlim_broker_join(&broker, moment, WLIM_APP);
	if (peer <= 0)
		give_up("a peer can't join");
	if (wlim_broker_receive(&broker, moment, (uint32_t)peer, registry, sizeof registry, NULL, 0) != WLIM_GIVEN)
		give_up("a message isn't taken");
	return (uint32_t)peer;
}

static void go(uint32_t peer)
{
	if (wlim_broker_gone(&broker, moment, peer) != WLIM_GIVEN)
		give_up("a peer can't go");
}

/* Takes from the peer, at most so many bytes at once, until nothing is left. */
static void take(uint32_t peer, size_t most)
{
	static uint8_t bytes[4096];
	uint32_t tokens[256];
	struct wlim_taken taken;
	while (wlim_broker_take(&broker, moment, peer, bytes, most, tokens, 256, &taken) == WLIM_GIVEN)
		;
	if (wlim_broker_stored(&broker, peer) != 0)
		give_up("something is left");
}

/* Those that are ready, one after the other, are those that have something stored. */
static void hold(void)
{
	int64_t count = wlim_broker_peers(&broker), ready = wlim_broker_ready(&broker, 0);
	for (uint32_t peer = 1; peer <= count; peer++) {
		if (wlim_broker_stored(&broker, peer) == 0)
			continue;
		if (ready != peer)
			give_up("another peer is ready");
		ready = wlim_broker_ready(&broker, peer);
	}
	if (ready != 0 || wlim_broker_ready(&broker, (uint32_t)count) != 0 || wlim_broker_ready(&broker, UINT32_MAX) != 0)
		give_up("a peer is ready that isn't there");
}

/* At most KEPT live at once. Which goes, and when what is stored is taken, is by the number of the peer. */
static void play(long peers)
{
	uint32_t kept[KEPT] = { 0 };
	for (long at = 0; at < peers; at++, moment++) {
		uint32_t *place = &kept[at * 5 % KEPT], gone = *place;
		if (gone > 0 && gone % 3 == 0)
			take(gone, 1 + gone % 4096);
		if (gone > 0)
			go(gone);
		if (gone > 0 && gone % LEFT != 0 && gone % 3 != 0)
			take(gone, 4096);
		*place = come();
		if (at < 300 || at % 97 == 0)
			hold();
	}
	hold();
	for (uint32_t peer = 1; peer <= peers; peer++) {
		take(peer, 4096);
		if (peer % 53 == 0)
			hold();
	}
	hold();
	if (wlim_broker_ready(&broker, 0) != 0)
		give_up("a peer is ready that has nothing");
}

static void ask(long peers, long calls)
{
	take(come(), 4096);
	for (long at = 0; at < peers; at++) {
		uint32_t peer = come();
		take(peer, 4096);
		go(peer);
	}
	for (long at = 0; at < calls; at++)
		if (wlim_broker_ready(&broker, 0) != 0)
			give_up("a peer is ready that has nothing");
}

int main(int count, char **words)
{
	long peers = count > 1 ? atol(words[1]) : 0, calls = count > 2 ? atol(words[2]) : 0;
	if (peers <= 0 || peers > 1000000)
		give_up("how many peers come and go?");
	if (wlim_broker_open(&broker, 65536, 4000000, 536870912) != WLIM_GIVEN)
		give_up("there is no memory");
	if (calls > 0)
		ask(peers, calls);
	else
		play(peers);
	wlim_broker_close(&broker);
	printf("%ld peers came\n", peers);
	return 0;
}
