/* The functions that the analysed sources call, included before them: those of the proved library by their
 * contracts (crates/nizwarf_border/src/chains.rt, vhost.rt), as far as memory depends on them, and atomic
 * accesses as plain ones. Accesses to memory that a guest writes too are volatile: each reads any value. */
#ifndef SPECIFICATIONS_H
#define SPECIFICATIONS_H

#include <pthread.h>
#include <stddef.h>
#include <stdint.h>
#include "chain.h"
#include "border.h"

/* ---- what of C11 Frama-C refuses: _Atomic(T), _Alignas */

#define _Alignas(type)
#define __FC_STDATOMIC
#define _Atomic(type) type
typedef int atomic_int;
typedef unsigned long atomic_ulong;
#define atomic_load(at) (*(at))
#define atomic_store(at, value) ((void)(*(at) = (value)))
#define atomic_exchange(at, value)                 \
	({                                         \
		__typeof__(*(at)) before_ = *(at); \
		*(at) = (value);                   \
		before_;                           \
	})
#define __atomic_load_n(at, order) (*(volatile __typeof__(*(at)) *)(at))
#define __atomic_store_n(at, value, order) ((void)(*(at) = (value)))
#define __atomic_fetch_or(at, value, order) ((void)(*(at) |= (value)))
#define __atomic_signal_fence(order) ((void)0)

#define atomic_fetch_add(at, value)                \
	({                                         \
		__typeof__(*(at)) before_ = *(at); \
		*(at) += (value);                  \
		before_;                           \
	})

/* ---- lines on standard error, which are not analysed, in place of say.h */

#define SAY_H
/*@ assigns \nothing; */
void transport_say(const char *program, const char *format, ...);

/* ---- chains */

/*@ requires \valid(walk);
    assigns *walk, \result \from size, most, head;
    ensures \result == NIZWARF_CHAIN_MORE || \result == NIZWARF_CHAIN_OUTSIDE_TABLE;
    ensures \result == NIZWARF_CHAIN_MORE <==> head < size;
    ensures \result == NIZWARF_CHAIN_MORE ==> \initialized(walk);
    ensures \result == NIZWARF_CHAIN_MORE ==> walk->at == head && walk->entries == size;
    ensures \result == NIZWARF_CHAIN_MORE ==> walk->left == size && walk->most == most;
    ensures \result == NIZWARF_CHAIN_MORE ==> walk->indirect == 0 && walk->writable == 0; */
int32_t nizwarf_chain_begin_at(uint32_t size, uint32_t most, uint32_t head, nizwarf_walk *walk);

/*@ requires \valid(walk) && \valid(piece);
    requires regions == 0 || \valid_read(region + (0 .. regions - 1));
    requires walk->at < walk->entries;
    assigns *walk, *piece, \result \from *walk, first, second, region[0 .. regions - 1], regions;
    ensures NIZWARF_CHAIN_LAST <= \result <= NIZWARF_CHAIN_TOO_MANY_ENTRIES;
    ensures \result <= NIZWARF_CHAIN_MORE ==> \initialized(piece);
    ensures \result <= NIZWARF_CHAIN_TABLE ==> \initialized(&piece->region) && \initialized(&piece->offset);
    ensures \result <= NIZWARF_CHAIN_TABLE ==> piece->region < regions;
    ensures \result <= NIZWARF_CHAIN_MORE ==> piece->offset + piece->len <= region[piece->region].size;
    ensures \result == NIZWARF_CHAIN_MORE ==> walk->entries == \old(walk->entries);
    ensures \result == NIZWARF_CHAIN_MORE ==> walk->left < \old(walk->left);
    ensures \result == NIZWARF_CHAIN_MORE ==> walk->indirect == \old(walk->indirect);
    ensures \result == NIZWARF_CHAIN_MORE || \result == NIZWARF_CHAIN_TABLE ==> walk->at < walk->entries;
    ensures \result == NIZWARF_CHAIN_TABLE ==> piece->offset + 16 * walk->entries <= region[piece->region].size;
    ensures \result == NIZWARF_CHAIN_TABLE ==> walk->entries <= walk->most && walk->left == walk->entries;
    ensures \result == NIZWARF_CHAIN_TABLE ==> \old(walk->indirect) == 0 && walk->indirect == 1;
    ensures walk->most == \old(walk->most); */
int32_t nizwarf_chain_step_at(nizwarf_walk *walk, uint64_t first, uint64_t second,
			      const nizwarf_region *region, size_t regions, nizwarf_piece *piece);

/*@ assigns \result \from index, next, size;
    ensures -1 <= \result <= 65535;
    ensures \result >= 0 ==> \result <= size; */
int32_t nizwarf_ring_waiting_at(uint16_t index, uint16_t next, uint32_t size);

/*@ requires size != 0;
    assigns \result \from index, size;
    ensures \result == index % size;
    ensures \result < size; */
uint32_t nizwarf_ring_slot_at(uint16_t index, uint32_t size);

/*@ assigns \result \from event, new_index, old;
    ensures \result == 0 || \result == 1; */
uint32_t nizwarf_ring_needs_event_at(uint16_t event, uint16_t new_index, uint16_t old);

/* ---- messages */

/*@ requires \valid(place);
    requires regions == 0 || \valid_read(region + (0 .. regions - 1));
    assigns *place, \result \from region[0 .. regions - 1], regions, address, len;
    ensures \result == 0 || \result == 1;
    ensures \result == 0 ==> \initialized(place) && place->region < regions;
    ensures \result == 0 ==> place->offset + len <= region[place->region].size; */
uint32_t nizwarf_vhost_user_at(const struct vhost_region *region, size_t regions, uint64_t address,
			       uint64_t len, struct vhost_place *place);

/* ---- what Frama-C's C library lacks */

#define MAP_NORESERVE 0x4000
#define POLLRDHUP 0x2000
enum { PTHREAD_RWLOCK_PREFER_WRITER_NONRECURSIVE_NP = 2 };

/*@ assigns *of \from which;
    assigns \result \from which; */
int pthread_rwlockattr_setkind_np(pthread_rwlockattr_t *of, int which);
/*@ requires \valid(of);
    assigns *of;
    ensures \initialized(of); */
int pthread_rwlockattr_init(pthread_rwlockattr_t *of);
/*@ requires \valid(lock) && \valid_read(of);
    assigns *lock \from *of;
    assigns \result \from \nothing; */
int pthread_rwlock_init(pthread_rwlock_t *restrict lock, const pthread_rwlockattr_t *restrict of);
#define OF_LOCK                \
	requires \valid(lock); \
	assigns *lock, \result \from *lock;
/*@ OF_LOCK */ int pthread_rwlock_destroy(pthread_rwlock_t *lock);
/*@ OF_LOCK */ int pthread_rwlock_rdlock(pthread_rwlock_t *lock);
/*@ OF_LOCK */ int pthread_rwlock_unlock(pthread_rwlock_t *lock);
/*@ requires \valid(lock) && \valid_read(most);
    assigns *lock, \result \from *lock, *most; */
int pthread_rwlock_timedwrlock(pthread_rwlock_t *restrict lock, const struct timespec *restrict most);
/*@ assigns \result \from thread;
    assigns *result \from thread; */
int pthread_tryjoin_np(pthread_t thread, void **result);
/*@ assigns \result \from thread, signal; */ int pthread_kill(pthread_t thread, int signal);

/*@ assigns \nothing; */ int sched_yield(void);
/*@ assigns \result \from number; */ long syscall(long number, ...);

#endif
