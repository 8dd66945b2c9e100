/* The heap of a program that keeps files in memory: heap.h.
 *
 * The kernel clears each page that it allocates. If a server faults pages in one by one as it writes to them,
 * to extend a file takes twice as long as to overwrite it. So the heap grows by many pages at once, and a
 * separate thread populates them while the server serves requests. */
#define _GNU_SOURCE
#include <malloc.h>
#include <pthread.h>
#include <signal.h>
#include <stdatomic.h>
#include <stdint.h>
#include <sys/eventfd.h>
#include <sys/mman.h>
#include <unistd.h>
#include "heap.h"

/* In bytes: the least growth of the heap (GROWTH); how much is populated by one call (STEP); and how much
 * must be free at the end of the heap before it shrinks (TRIMMED). */
enum { GROWTH = 8 << 20, STEP = 256 << 10, TRIMMED = 64 << 20 };

#ifndef MADV_POPULATE_WRITE
#define MADV_POPULATE_WRITE 23
#endif

/* The end of the heap at the last check, and an eventfd that is written when it has changed. */
static _Atomic(uintptr_t) ends;
static int moved = -1;

/* Populates the pages up to the end of the heap. madvise() may fail for pages that are freed meanwhile, which
 * is harmless. */
static void *hand_out(void *unused)
{
	uintptr_t done = atomic_load(&ends), end;
	uint64_t times;

	(void)unused;
	while (read(moved, &times, sizeof(times)) == sizeof(times)) {
		while (done < (end = atomic_load(&ends))) {
			const size_t len = end - done < STEP ? end - done : STEP;

			madvise((void *)done, len, MADV_POPULATE_WRITE);
			done += len;
		}
		done = end;
	}
	return NULL;
}

void heap_begin(void)
{
	const uintptr_t page = (uintptr_t)sysconf(_SC_PAGESIZE), end = (uintptr_t)sbrk(0);
	sigset_t all, before;
	pthread_t thread;

	mallopt(M_ARENA_MAX, 1);
	mallopt(M_TOP_PAD, GROWTH);
	mallopt(M_TRIM_THRESHOLD, TRIMMED);
	atomic_store(&ends, (end + page - 1) / page * page);
	moved = eventfd(0, EFD_CLOEXEC);
	/* Signals are for the thread that serves. */
	sigfillset(&all);
	pthread_sigmask(SIG_SETMASK, &all, &before);
	if (moved >= 0 && !pthread_create(&thread, NULL, hand_out, NULL))
		pthread_detach(thread);
	pthread_sigmask(SIG_SETMASK, &before, NULL);
}

void heap_look(void)
{
	const uintptr_t end = (uintptr_t)sbrk(0);
	const uint64_t one = 1;

	if (end == atomic_load(&ends))
		return;
	atomic_store(&ends, end);
	if (write(moved, &one, sizeof(one)) < 0)
		moved = -1;
}
