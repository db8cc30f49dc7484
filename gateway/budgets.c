/* Processes: what each may have of what all share. Who takes more is slowed, and then ended; nobody else is. */
#include "gateway.h"
#include <stdio.h>

enum {
	PROCESSES = 2 * LINKS_MAX, /* a process that ended is remembered while there is room */
	LINKS_SHARE = 128, /* clients of a process */
	PLACES = 64, PLACES_KEPT = 8, PLACES_SHARE = 16, /* at the broker; of them for methods alone; of a process */
	OVER = 30000000, /* microseconds: who owes too much for so long is ended */
	STEP_BYTES = 256, JOIN_STEPS = 50, /* a message counts as a step for each of these; a peer as these */
	TURN = 4096, PIECE = 512, LITTLE = 256, /* bytes of a round: a process's, a client's, and a process's that owes much */
	FEW = 64, /* descriptors: who has no more isn't ended for them */
};

/* In how many microseconds a step is paid back, and how many may be owed: who owes more isn't read. */
static const struct { uint64_t step, burst; const char *why; } prices[] = {
	[AT_BROKER] = { 250, 10000000, "it sends more than the broker takes" },
	[PASSING] = { 20, 500000, "it sends more than the gateway takes" },
};

struct process {
	unsigned pid, links; /* as the system names it; its clients that live */
	char command[16];
	struct debt { uint64_t due, over; } debts[PRICES]; /* when all is paid back; since when it owes too much, or 0 */
	uint64_t round; /* in which it was read last, */
	size_t came; /* and so many bytes */
	unsigned files; /* counted where descriptors run short */
};

static struct process processes[PROCESSES];
static uint64_t latest, rounds; /* the moment from which on nobody owes too much; rounds that there were */

/* What is owed beyond such a part of what may be; 0: it isn't so much. */
static uint64_t beyond(const struct process *process, unsigned part) {
	uint64_t most = 0;
	for (enum spent what = AT_BROKER; what < PRICES; what++) {
		uint64_t may = gateway.moment + prices[what].burst / part, due = process->debts[what].due;
		most = due > may && due - may > most ? due - may : most;
	}
	return most;
}

struct process *process_join(unsigned pid, const char *command) {
	struct process *found = NULL;
	for (struct process *each = processes; each < processes + PROCESSES; each++) {
		if (pid > 0 && each->pid == pid) {
			found = each;
			break;
		}
		if (each->links == 0 && (!found || beyond(each, 1000) < beyond(found, 1000)))
			found = each;
	}
	if (found && (found->pid != pid || pid == 0))
		*found = (struct process){ .pid = pid };
	if (!found || found->links == LINKS_SHARE)
		return NULL;
	snprintf(found->command, sizeof found->command, "%s", command);
	found->links++;
	return found;
}

void process_leave(struct process *process) {
	process->links--;
}

const char *process_named(const struct process *process) {
	static char text[60];
	snprintf(text, sizeof text, "process %u, %s", process->pid, process->command);
	return text;
}

bool budget_place(const struct client *client) {
	unsigned all = 0, programs = 0, own = 0;
	for (const struct client *each = gateway.clients; each && !gateway.renews; each = each->next) {
		if (each->peer == 0)
			continue;
		all++;
		programs += each->role == PROGRAM;
		own += each->process == client->process;
	}
	return all < PLACES && own < PLACES_SHARE && (client->role != PROGRAM || programs < PLACES - PLACES_KEPT);
}

/* Since when it owes too much: it does till half of that is paid back. */
static uint64_t owes_since(const struct debt *debt, enum spent what) {
	uint64_t burst = prices[what].burst, now = gateway.moment;
	if (debt->due <= now + burst / 2)
		return 0;
	return debt->over > 0 || debt->due <= now + burst ? debt->over : now;
}

void budget_spend(struct client *client, enum spent what, size_t size) {
	struct debt *debt = &client->process->debts[what];
	uint64_t now = gateway.moment, burst = prices[what].burst, steps = size == 0 ? JOIN_STEPS : 1 + size / STEP_BYTES;
	debt->over = owes_since(debt, what);
	debt->due = (debt->due > now ? debt->due : now) + steps * prices[what].step;
	debt->over = owes_since(debt, what);
	latest = debt->due > latest + burst ? debt->due - burst : latest;
}

void budgets_round(void) {
	rounds++;
}

void budget_came(struct client *client, size_t size) {
	struct process *process = client->process;
	process->came = (process->round == rounds ? process->came : 0) + size;
	process->round = rounds;
	for (enum spent what = AT_BROKER; what < PRICES; what++) {
		struct debt *debt = &process->debts[what];
		debt->over = owes_since(debt, what);
		if (debt->over > 0 && gateway.moment - debt->over > OVER)
			client_refuse(client, DISPLAY, ERROR_COMPOSITOR, prices[what].why);
	}
}

size_t budget_room(const struct client *client, size_t room) {
	const struct process *process = client->process;
	size_t came = process->round == rounds ? process->came : 0, turn = beyond(process, 8) > 0 ? LITTLE : TURN;
	size_t most = turn > came && beyond(process, 1) == 0 ? turn - came : 0;
	most = most < PIECE ? most : PIECE;
	return room < most ? room : most;
}

int budgets_wait(void) {
	uint64_t least = UINT64_MAX;
	for (const struct client *client = gateway.clients; client && latest > gateway.moment; client = client->next) {
		uint64_t over = beyond(client->process, 1);
		least = over > 0 && over < least ? over : least;
	}
	return least == UINT64_MAX ? -1 : (int)(least / 1000) + 1;
}

static unsigned files_of(const struct client *client) {
	return 2 + client->near.token_count + client->near.parcel_count + client->far.token_count + client->far.parcel_count
		+ client->held;
}

bool budgets_short(void) {
	struct client *most = NULL;
	for (struct client *client = gateway.clients; client; client = client->next)
		client->process->files = 0;
	for (struct client *client = gateway.clients; client; client = client->next) {
		client->process->files += files_of(client);
		if (client->ending)
			return true; /* what it has is free soon */
	}
	for (struct client *client = gateway.clients; client; client = client->next) {
		unsigned files = client->process->files, other = most ? most->process->files : FEW;
		if (files > other || (most && files == other && files_of(client) > files_of(most)))
			most = client;
	}
	if (most)
		client_refuse(most, DISPLAY, ERROR_MEMORY, "descriptors run short, and its process holds the most");
	return most;
}
