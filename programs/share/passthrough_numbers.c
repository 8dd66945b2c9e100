/* Inode numbers of a passthrough: passthrough_numbers.h. A replacement is created with the first number that needs
 * it, and is never removed, because the client may use such numbers until it disconnects. The lock is held for
 * reading to find one, and for writing to add one. */
#define _GNU_SOURCE
#include <pthread.h>
#include <stdbool.h>
#include <stdlib.h>
#include "passthrough_numbers.h"

/* An inode number has 64 bits: the lower LOW_BITS are kept, and the upper ones are replaced by one of PREFIXES
 * values. HEADS chains contain the known replacements. */
enum { LOW_BITS = 48, PREFIXES = 65536, HEADS = 1024 };

/* A device, upper bits of its inode numbers, and their replacement. */
struct prefix {
	uint64_t device;
	uint16_t high, result;
	/* The next one in its chain, counted from 1. */
	uint32_t next;
};

/* (pages that are never used take no memory) */
struct numbers {
	pthread_rwlock_t lock;
	uint64_t own;
	uint32_t count, heads[HEADS];
	bool is_taken[PREFIXES];
	struct prefix known[PREFIXES];
};

/* Hashes a number, so that numbers which differ in one bit have unrelated results (the last step of splitmix64). */
static uint64_t mix(uint64_t number)
{
	number = (number ^ number >> 30) * UINT64_C(0xbf58476d1ce4e5b9);
	number = (number ^ number >> 27) * UINT64_C(0x94d049bb133111eb);
	return number ^ number >> 31;
}

/* Hashes two numbers, whose order matters. */
static uint64_t mix_both(uint64_t device, uint64_t number)
{
	return mix(number ^ mix(device + UINT64_C(0x9e3779b97f4a7c15)));
}

struct numbers *numbers_new(uint64_t device)
{
	struct numbers *all = calloc(1, sizeof(*all));

	if (!all)
		return NULL;
	pthread_rwlock_init(&all->lock, NULL);
	all->own = device;
	/* For the directory's own file system. */
	all->is_taken[0] = true;
	return all;
}

void numbers_free(struct numbers *all)
{
	if (!all)
		return;
	pthread_rwlock_destroy(&all->lock);
	free(all);
}

/* Returns the replacement of these upper bits, or -1. The lock must be held. */
static int find(const struct numbers *all, uint64_t device, uint16_t high)
{
	uint32_t at = all->heads[mix_both(device, high) % HEADS];

	while (at && (all->known[at - 1].device != device || all->known[at - 1].high != high))
		at = all->known[at - 1].next;
	return at ? all->known[at - 1].result : -1;
}

/* Adds a replacement of these upper bits, or returns -1 if all are used. The lock must be held. */
static int add(struct numbers *all, uint64_t device, uint16_t high)
{
	uint32_t *head = &all->heads[mix_both(device, high) % HEADS];
	/* (with the uppermost bit a number would be negative for programs that use signed numbers) */
	uint16_t result = device == all->own ? high : (uint16_t)(mix_both(device, high) >> LOW_BITS & 0x7fff);

	/* One of them belongs to the directory's own file system. */
	if (all->count >= PREFIXES - 1)
		return -1;
	/* (it ends, because fewer than PREFIXES are used) */
	while (all->is_taken[result])
		result++;
	all->is_taken[result] = true;
	all->known[all->count] = (struct prefix){ device, high, result, *head };
	*head = ++all->count;
	return result;
}

uint64_t numbers_tell(struct numbers *all, uint64_t device, uint64_t inode)
{
	const uint16_t high = (uint16_t)(inode >> LOW_BITS);
	int result;

	if (device == all->own && !high)
		return inode;
	pthread_rwlock_rdlock(&all->lock);
	result = find(all, device, high);
	pthread_rwlock_unlock(&all->lock);
	if (result < 0) {
		pthread_rwlock_wrlock(&all->lock);
		/* (another thread may have added it between the two locks) */
		result = find(all, device, high);
		if (result < 0)
			result = add(all, device, high);
		pthread_rwlock_unlock(&all->lock);
	}
	if (result < 0)
		return mix_both(device, inode);
	return (uint64_t)result << LOW_BITS | (inode & ((UINT64_C(1) << LOW_BITS) - 1));
}
