/* Requests of one client by the codec of nizwarf.h on eight threads: each is asked on one thread and
 * answered on another, with a slot a thread and hundreds in flight. Replies are those of one thread
 * alone.
 *
 * test_libraries.py links it with the library, and runs it with -fsanitize=thread too. Status 0:
 * all is as it should be. */
#define _GNU_SOURCE
#include <errno.h>
#include <linux/fuse.h>
#include <pthread.h>
#include <sched.h>
#include <stdatomic.h>
#include <stdio.h>
#include <stdlib.h>
#include <string.h>
#include "nizwarf.h"

/* EACH requests for each thread; BEHIND: how many requests later one is answered, by the thread before; ROOM in bytes. */
enum { THREADS = 8, EACH = 1000, ALL = THREADS * EACH, BEHIND = 50, ROOM = 1024 };

/* A request and all that becomes of it. The thread that asks writes all but `answer`; then it sets `is_asked`, and
 * the one that answers has it. */
struct work {
	uint8_t request[128];
	size_t len;
	nizwarf_answer answer;
	nizwarf_call call;
	nizwarf_result result;
	int32_t code;
	uint8_t room[ROOM];
	atomic_int is_asked;
};

/* The same requests: on eight threads, and before on one, which says what is right. */
static struct work works[ALL], alone[ALL];
/* Read by all threads, and changed by none: there is no INIT. */
static nizwarf_session session = { 0, 4096, 1 << 20 };

static const nizwarf_dirent items[] = {
	{ .ino = 1, .offset = 1, .name = (const uint8_t *)".", .name_size = 2, .type = 4 },
	{ .ino = 5, .offset = 2, .name = (const uint8_t *)"name", .name_size = 5, .type = 8 },
};

/* The request of a number, and what will be answered. */
static void make(struct work *work, uint32_t number)
{
	static const uint32_t opcodes[] = { FUSE_GETATTR,   FUSE_LOOKUP,   FUSE_READ,	 FUSE_OPEN,
					    FUSE_STATFS,    FUSE_READLINK, FUSE_READDIR, FUSE_FORGET,
					    FUSE_INTERRUPT, 9999,	   FUSE_WRITE };
	/* of each in bytes, with its header */
	static const uint32_t lengths[] = { 56, 45, 80, 48, 40, 40, 80, 48, 48, 40, 100 };
	const uint32_t kind = number % (sizeof(opcodes) / sizeof(*opcodes));
	const struct fuse_in_header header = { .len = lengths[kind],
					       .opcode = opcodes[kind],
					       .unique = number + 1,
					       .nodeid = number + 2,
					       .pid = number };
	const struct fuse_read_in read = { .offset = number, .size = 900 };

	work->len = lengths[kind];
	memcpy(work->request, &header, sizeof(header));
	if (opcodes[kind] == FUSE_LOOKUP)
		memcpy(work->request + sizeof(header), "name", 5);
	else if (opcodes[kind] == FUSE_READ || opcodes[kind] == FUSE_READDIR)
		memcpy(work->request + sizeof(header), &read, sizeof(read));
	work->answer.error = number % 13 ? 0 : ENOENT;
	work->answer.entry.node = work->answer.handle = number;
	work->answer.has_handle = 1;
	work->answer.count = number % 900;
	work->answer.text = (const uint8_t *)"of a link";
	work->answer.text_len = number % 10;
	work->answer.items = items;
	work->answer.items_len = number % 3;
}

/* Asks, and lets another thread answer: what came is in `work`. */
static void ask(nizwarf_scratch *slot, struct work *work)
{
	const struct iovec piece = { work->request, work->len };
	const struct iovec room = { work->room, sizeof(work->room) };

	work->code = nizwarf_decode(slot, &session, 0, &piece, 1, &room, 1, &work->call, &work->result);
	/* (nobody looks at it any more) (a call doesn't point into its request: what the reply wants is in the
	 * call) */
	memset(work->request, 0xff, sizeof(work->request));
	/* (after this store all of `work` is the other thread's) */
	atomic_store_explicit(&work->is_asked, 1, memory_order_release);
}

/* Waits until it was asked, and answers, if there is a call. */
static void answer(nizwarf_scratch *slot, struct work *work)
{
	const struct iovec rooms[] = { { work->room, 10 }, { work->room + 10, ROOM - 10 } };

	/* (the other thread may be late) */
	while (!atomic_load_explicit(&work->is_asked, memory_order_acquire))
		sched_yield();
	if (work->code == NIZWARF_CALL)
		work->code =
			nizwarf_encode(slot, &session, &work->call, &work->answer, rooms, 2, &work->result);
}

/* Asks the requests of its own, and answers those of the next thread some time later. */
static void *run(void *own)
{
	/* (its first request says which thread it is) */
	const size_t thread = (size_t)((struct work *)own - works), next = (thread + 1) % THREADS;
	nizwarf_scratch slot = NIZWARF_SCRATCH_INIT;
	size_t i;

	/* (so at most BEHIND of each thread are in flight) */
	for (i = 0; i < EACH + BEHIND; i++) {
		if (i < EACH)
			ask(&slot, &works[i * THREADS + thread]);
		if (i >= BEHIND)
			answer(&slot, &works[(i - BEHIND) * THREADS + next]);
	}
	nizwarf_scratch_free(&slot);
	return NULL;
}

int main(void)
{
	nizwarf_scratch slot = NIZWARF_SCRATCH_INIT;
	pthread_t threads[THREADS];
	size_t i, replies = 0;

	for (i = 0; i < ALL; i++) {
		make(&works[i], (uint32_t)i);
		make(&alone[i], (uint32_t)i);
		ask(&slot, &alone[i]);
		answer(&slot, &alone[i]);
	}
	nizwarf_scratch_free(&slot);
	for (i = 0; i < THREADS; i++)
		if (pthread_create(&threads[i], NULL, run, &works[i])) {
			perror("pthread_create");
			return 2;
		}
	for (i = 0; i < THREADS; i++)
		pthread_join(threads[i], NULL);
	for (i = 0; i < ALL; i++) {
		if (works[i].code != NIZWARF_OK || alone[i].code != NIZWARF_OK ||
		    memcmp(&works[i].result, &alone[i].result, sizeof(nizwarf_result)) ||
		    /* (also what no reply writes: it's 0) */
		    memcmp(works[i].room, alone[i].room, ROOM)) {
			fprintf(stderr, "codec-threads.c: request %zu has another reply\n", i);
			return 1;
		}
		replies += works[i].result.len > 0;
	}
	printf("%d requests on %d threads, each answered on another than asked it: %zu replies.\n", ALL,
	       THREADS, replies);
	return 0;
}
