/* A front end that writes its memory while a server reads it, for test_hostile.py: descriptors, indirect tables, requests and
 * both rings are changed by a thread of their own, indices jump, queues stop and begin anew, with and without
 * VIRTIO_RING_F_EVENT_IDX, and at the end the memory is cut while requests are in flight.
 *
 * Usage: rings SOCKET SEED MILLISECONDS
 * It writes how many chains came back. Status 0: the server went on up to the end; 3: it did not. */
#define _GNU_SOURCE
#include "../lib/front.h"

#include <pthread.h>
#include <stdatomic.h>

/* Each chain has four descriptors of the queue's table, or of a table of its own. */
enum {
	ENTRIES = 256,
	CHAINS = 32,
	EACH = 4,
	TABLES = 1 << 19,
	DATA = 1 << 20,
	SLOT = 1 << 14,
	MEMORY = 2 << 20
};
enum { MESSAGES = 8, OPCODES = 48, HEADER = 40 };

/* Whether the thread that writes is to end; and what was agreed on last. */
static atomic_int over;
static uint64_t features;

/* The same numbers of the same seed (xorshift), of which each thread has its own. */
static uint64_t next_number(uint64_t *state)
{
	*state ^= *state << 13;
	*state ^= *state >> 7;
	return *state ^= *state << 17;
}

static struct vring_avail *available(void)
{
	return (void *)(memory + QUEUE + AVAILABLE);
}

/* A number of a kind that is at a limit, or any. */
static uint64_t some_number(uint64_t *state)
{
	static const uint64_t limits[] = { 0,	    1,		 15,	 16,	     64,	ENTRIES - 1,
					   ENTRIES, MEMORY - 16, MEMORY, UINT32_MAX, UINT64_MAX };
	const uint64_t number = next_number(state);

	return number & 1 ? limits[(number >> 1) % (sizeof(limits) / sizeof(*limits))] :
			    number >> (number >> 58);
}

/* The four descriptors of a chain: a header and a body, and room for a header and a body. */
static void put_chain(struct vring_desc *table, uint16_t chain, uint16_t first, uint64_t *state)
{
	const uint64_t at = DATA + (uint64_t)chain * SLOT;
	const uint32_t body = (uint32_t)(next_number(state) % 512);
	const struct {
		uint32_t len, opcode;
		uint64_t unique, node;
		uint32_t rest[4];
	} header = { HEADER + body, (uint32_t)(next_number(state) % OPCODES + 1), chain + 1u, 1, { 0 } };

	memcpy(memory + at, &header, sizeof(header));
	for (uint16_t i = 0; i < EACH; i++) {
		const uint32_t len[EACH] = { HEADER, body, 16, 4096 };

		table[i] = (struct vring_desc){ at + i * 4096ul, len[i],
						(uint16_t)((i > 1 ? VRING_DESC_F_WRITE : 0) |
							   (i + 1 < EACH ? VRING_DESC_F_NEXT : 0)),
						(uint16_t)(first + i + 1) };
	}
}

/* Changes what a guest can change, as fast as it goes. */
static void *scribble(void *given)
{
	uint64_t state = *(const uint64_t *)given;

	while (!atomic_load(&over)) {
		const uint64_t what = next_number(&state), chain = (what >> 8) % CHAINS;
		struct vring_desc *tables[] = { descriptors() + chain * EACH,
						(void *)(memory + TABLES + chain * 64) };
		struct vring_desc *d = tables[what & 1] + (what >> 16) % EACH;

		/* (fields are written one at a time, without a lock: the server may read half of a
		 * change, as of a guest that does so) */
		switch ((what >> 1) % 8) {
		case 0:
			d->addr = some_number(&state);
			break;
		case 1:
			d->len = (uint32_t)some_number(&state);
			break;
		case 2:
			d->flags = (uint16_t)(what >> 20 & 7);
			break;
		case 3:
			d->next = (uint16_t)some_number(&state);
			break;
		case 4:
			memory[DATA + chain * SLOT + (what >> 24) % 600] = (unsigned char)(what >> 40);
			break;
		case 5:
			available()->ring[(what >> 24) % (ENTRIES + 1)] = (uint16_t)some_number(&state);
			break;
		case 6:
			memory[QUEUE + USED + (what >> 24) % (4 + 8 * ENTRIES)] = (unsigned char)(what >> 40);
			break;
		default:
			put_chain(tables[what & 1], (uint16_t)chain, what & 1 ? 0 : (uint16_t)(chain * EACH),
				  &state);
		}
	}
	return NULL;
}

/* Puts chains of both kinds into the ring, more than there can be once in a while, and kicks. */
static void put_some(uint64_t *state)
{
	const uint64_t what = next_number(state);
	const uint16_t index = available()->idx, count = (uint16_t)(what % CHAINS + 1);

	for (uint16_t i = 0; i < count; i++) {
		const uint16_t chain = (uint16_t)(next_number(state) % CHAINS),
			       head = (uint16_t)(chain * EACH);

		if (next_number(state) % 2)
			put_chain(descriptors() + head, chain, head, state);
		else
			descriptors()[head] =
				(struct vring_desc){ TABLES + chain * 64u, 64, VRING_DESC_F_INDIRECT, 0 };
		put_chain((void *)(memory + TABLES + chain * 64), chain, 0, state);
		available()->ring[(uint16_t)(index + i) % ENTRIES] = head;
	}
	__atomic_store_n(&available()->idx,
			 (uint16_t)(index + ((what >> 32) % 64 ? count : some_number(state))),
			 __ATOMIC_RELEASE);
	need(write(kick[1], &(uint64_t){ 1 }, 8) == 8, "kick");
}

/* Stops the queue, and begins it anew where its ring is: it was left if its index jumped. Gives how many chains came back. */
static uint64_t begin_anew(uint64_t *state, uint64_t *done)
{
	uint32_t said[5];
	uint16_t came;

	/* (11: GET_VRING_BASE, by which the queue stops. 2: SET_FEATURES; 10: SET_VRING_BASE; 12:
	 * SET_VRING_KICK) */
	tell(11, (const uint32_t[]){ 1, 0 }, 8, -1);
	need(recv(connection, said, sizeof(said), MSG_WAITALL) == sizeof(said), "an answer");
	came = (uint16_t)(said[4] - *done);
	*done = said[4];
	features ^= 1ull << VIRTIO_RING_F_EVENT_IDX;
	tell_number(2, features, -1);
	if (next_number(state) % 4 == 0)
		*done = next_number(state) % 65536;
	tell_state(10, 1, (uint32_t)*done);
	__atomic_store_n(&available()->idx, (uint16_t)*done, __ATOMIC_RELEASE);
	tell_number(12, 1, kick[1]);
	return came;
}

int main(int count, char **words)
{
	uint64_t state, seed, done = 0, total = 0;
	struct timespec from, now;
	pthread_t writer;
	long most;

	if (count != 4) {
		fprintf(stderr, "Usage: rings SOCKET SEED MILLISECONDS\n");
		return 2;
	}
	state = strtoull(words[2], NULL, 10) * 2654435761u + 1;
	most = strtol(words[3], NULL, 10);
	/* A server that answers nothing must not hold it up. */
	alarm((unsigned)(most / 1000) + 60);
	meet(words[1]);
	features = begin_queues(2, MEMORY, ENTRIES,
				1ull << VIRTIO_RING_F_EVENT_IDX | 1ull << VIRTIO_RING_F_INDIRECT_DESC);
	seed = next_number(&state);
	need(!pthread_create(&writer, NULL, scribble, &seed), "a thread");
	clock_gettime(CLOCK_MONOTONIC, &from);
	do {
		for (int i = 0; i < MESSAGES; i++)
			put_some(&state);
		total += begin_anew(&state, &done);
		clock_gettime(CLOCK_MONOTONIC, &now);
	} while ((now.tv_sec - from.tv_sec) * 1000 + (now.tv_nsec - from.tv_nsec) / 1000000 < most);
	put_some(&state);
	atomic_store(&over, 1);
	pthread_join(writer, NULL);
	/* (reading it is SIGBUS from here on: a server that is not ready for that ends) */
	need(!ftruncate(memory_file, 0), "memory that is cut");
	need(write(kick[1], &(uint64_t){ 1 }, 8) == 8, "kick");
	printf("%llu\n", (unsigned long long)total);
	return 0;
}
