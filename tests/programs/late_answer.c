/* A request that is answered later, while its worker is in one that takes longer than a front end waits for
 * answers; the memory of the guest is to change meanwhile. The answer goes into the memory that it was asked in, and
 * before that changes. test_memory.py links it with the queues of a vhost-user device and the library nizwarf_border. */
#define _GNU_SOURCE
#include <stdio.h>
#include <string.h>
#include <sys/eventfd.h>
#include <sys/mman.h>
#include <unistd.h>
#include "vhost_queue.h"

/* Where the guest has its rings, requests and replies; a page for each. */
enum {
	PAGE = 4096,
	DESCRIPTORS = 0,
	AVAILABLE = PAGE,
	USED = 2 * PAGE,
	REQUESTS = 3 * PAGE,
	REPLIES = 5 * PAGE
};
enum { SIZE = 8 * PAGE, SECONDS = 2 };

static const char reply[] = "sixteen bytes ..";
static nizwarf_request *_Atomic kept;
static atomic_int calls;

/* The first request is kept, the second takes long. */
static int32_t serve(void *user, unsigned worker, const struct iovec *request, size_t segments,
		     const struct iovec *room, size_t rooms, size_t *len)
{
	(void)user, (void)worker, (void)request, (void)segments, (void)room, (void)rooms, (void)len;
	if (atomic_fetch_add(&calls, 1) == 0) {
		kept = nizwarf_request_keep();
		return kept ? NIZWARF_CALL : NIZWARF_OK;
	}
	sleep(SECONDS);
	return NIZWARF_OK;
}

/* The first request is answered once it is to be. */
static void recall(void *user)
{
	nizwarf_request *const one = atomic_exchange(&kept, NULL);

	(void)user;
	if (one)
		nizwarf_request_complete(one, NIZWARF_OK, reply, 16);
}

/* Two chains of a request and a room each. */
static void place_chains(unsigned char *memory)
{
	struct vring_desc *chain = (void *)(memory + DESCRIPTORS);
	struct vring_avail *available = (void *)(memory + AVAILABLE);

	for (uint16_t i = 0; i < 4; i += 2) {
		chain[i] = (struct vring_desc){ REQUESTS + i / 2 * PAGE, 64, VRING_DESC_F_NEXT, i + 1 };
		chain[i + 1] = (struct vring_desc){ REPLIES + i / 2 * PAGE, 256, VRING_DESC_F_WRITE, 0 };
		available->ring[i / 2] = i;
	}
	available->idx = 2;
}

static int wrong(const char *what)
{
	fprintf(stderr, "late_answer: %s\n", what);
	return 1;
}

int main(void)
{
	static const nizwarf_machine machine = { .recall = recall };
	static const nizwarf_transport with = { .size = sizeof(with),
						.program = "late_answer",
						.workers = 1,
						.serve = serve,
						.machine = &machine };
	unsigned char *memory = mmap(NULL, SIZE, PROT_READ | PROT_WRITE, MAP_SHARED | MAP_ANONYMOUS, -1, 0);
	const int kick = eventfd(0, 0);
	const uint64_t once = 1;
	const struct vring_used *used = (void *)(memory + USED);
	struct guest *guest;
	struct queue *queue;
	int status = 0;

	if (memory == MAP_FAILED || kick < 0 || queues_begin(&with))
		return wrong("it could not begin");
	guest = vhost_guest;
	queue = &guest->queue[0];
	place_chains(memory);
	if (queues_hold(-1, -1))
		return wrong("it could not begin");
	guest->region[0] = (struct region){ memory, memory, SIZE };
	guest->vhost_regions[0] = (struct vhost_region){ .size = SIZE };
	guest->shared[0] = (nizwarf_region){ 0, SIZE };
	guest->regions = 1;
	queue->size = 8;
	queue->descriptors_user = DESCRIPTORS;
	queue->available_user = AVAILABLE;
	queue->used_user = USED;
	queue->enabled = 1;
	queue_place(queue);
	queue_kick(queue, kick);
	queues_go();
	if (write(kick, &once, sizeof(once)) < 0)
		return wrong("it could not kick");
	/* (up to ten seconds, for a machine that is busy) */
	for (int i = 0; i < 1000 && atomic_load(&calls) < 2; i++)
		usleep(10000);

	/* (so the memory is about to change: what is kept is to be answered, and the queues held) */
	queues_recall();
	if (queues_hold_answered(-1, -1))
		return wrong("nothing is held");
	if (used->idx != 2)
		status = wrong("not both chains were given back before the memory changed");
	if (memcmp(memory + REPLIES, reply, 16) != 0)
		status = wrong("the answer is not in the memory that it was asked in");
	guest_unshare(guest);
	queue_place(queue);
	queues_keep();
	queues_go();
	if (queues_end())
		return wrong("a worker does not end");
	return status;
}
