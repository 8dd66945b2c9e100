/* A table of nizwarf_ops.h with one session on several threads: on one INIT and DESTROY, on the others
 * LOOKUPs and INTERRUPTs. What is agreed on comes to all of them.
 *
 * test_libraries.py links it with the library, and runs it with -fsanitize=thread too. Status 0:
 * all is as it should be. */
#include <linux/fuse.h>
#include <pthread.h>
#include <stdio.h>
#include <stdlib.h>
#include <string.h>
#include "nizwarf_ops.h"

enum { THREADS = 4, EACH = 2000, ROOM = 4096 }; /* EACH: rounds of a thread */

/* All threads serve by this one; INIT and DESTROY change its options. */
static nizwarf_session session = { 0, 4096, 1 << 20 };
static unsigned long looked, interrupted; /* calls, of all threads */

/* Called on three threads, beside an INIT or a DESTROY. */
static int look_up(const nizwarf_req *req, uint64_t parent, const char *name, nizwarf_entry_param *e)
{
	const uint64_t options = req->call->options;

	__atomic_add_fetch(&looked, 1, __ATOMIC_RELAXED);
	e->ino = 2;
	/* (before INIT and after DESTROY none, else what was agreed on: nothing that is half written) */
	if (options && options != FUSE_ASYNC_READ) {
		fprintf(stderr, "ops-threads.c: options %#llx\n", (unsigned long long)options);
		exit(1);
	}
	return parent == FUSE_ROOT_ID && !strcmp(name, "a") ? 0 : EIO;
}

static void interrupt(void *user, uint64_t unique)
{
	(void)user, (void)unique;
	__atomic_add_fetch(&interrupted, 1, __ATOMIC_RELAXED);
}

static const nizwarf_ops ops = { .lookup = look_up, .interrupt = interrupt };

/* Serves a request, which must be answered without an error. */
static void serve(nizwarf_scratch *slot, uint32_t opcode, const void *record, size_t len)
{
	const struct fuse_in_header header = {
		.len = (uint32_t)(sizeof(header) + len), .opcode = opcode, .unique = 2, .nodeid = FUSE_ROOT_ID
	};
	uint8_t request[128], room[ROOM]; /* of the thread alone, as is its slot */
	size_t reply_len;

	memcpy(request, &header, sizeof(header));
	memcpy(request + sizeof(header), record, len);
	if (nizwarf_serve_ops(&ops, NULL, slot, &session, request, header.len, room, ROOM, NULL, 0,
			      &reply_len) != NIZWARF_OK ||
	    (reply_len && ((struct fuse_out_header *)(void *)room)->error)) {
		fprintf(stderr, "ops-threads.c: opcode %u\n", (unsigned)opcode);
		exit(1);
	}
}

/* The first thread: one session after another. */
static void *begin_and_end(void *none)
{
	const struct fuse_init_in init = { .major = 7, .minor = 38, .flags = FUSE_ASYNC_READ };
	nizwarf_scratch slot = NIZWARF_SCRATCH_INIT;

	for (int i = 0; i < EACH; i++) {
		serve(&slot, FUSE_INIT, &init, sizeof(init));
		serve(&slot, FUSE_DESTROY, &init, 0);
	}
	nizwarf_scratch_free(&slot);
	return none;
}

/* The other threads: names, and interrupts, which have no reply. */
static void *look(void *none)
{
	const struct fuse_interrupt_in number = { 2 };
	nizwarf_scratch slot = NIZWARF_SCRATCH_INIT;

	for (int i = 0; i < EACH; i++) {
		serve(&slot, FUSE_LOOKUP, "a", 2);
		serve(&slot, FUSE_INTERRUPT, &number, sizeof(number));
	}
	nizwarf_scratch_free(&slot);
	return none;
}

int main(void)
{
	pthread_t threads[THREADS];

	for (int i = 0; i < THREADS; i++)
		if (pthread_create(&threads[i], NULL, i ? look : begin_and_end, NULL))
			return perror("pthread_create"), 2;
	for (int i = 0; i < THREADS; i++)
		pthread_join(threads[i], NULL);
	if (looked != (THREADS - 1) * EACH || interrupted != looked)
		return fputs("ops-threads.c: not all were called\n", stderr), 1;
	printf("%lu requests beside INIT and DESTROY, by one session.\n", looked + interrupted);
	return 0;
}
