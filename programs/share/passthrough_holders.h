/* The locks of a client by owner, for passthrough_locks.c: what the host has granted, and the system calls that
 * lock and unlock without waiting. */
#ifndef PASSTHROUGH_HOLDERS_H
#define PASSTHROUGH_HOLDERS_H

#include <signal.h>
#include "passthrough_call.h"

/* MOST_RANGES limits the memory of a client's locks, here and in the host's kernel. */
enum { CHAINS = 256, MOST_RANGES = 1000000 };

/* A locked range of bytes, including the last one. */
struct range {
	uint64_t first, last;
	uint32_t type;
};

/* The fcntl(2) locks of one owner in one file. It is in the table as long as a call uses it, or a lock is granted. */
struct holder {
	uint64_t node, owner;
	/* It keeps its number even if the file is opened again for writing. */
	int fd;
	/* Locked while the host locks or unlocks without waiting, until the result is noted. It protects
	 * `is_writable`; `ranges`, `count` and `size` may be changed only while both it and the lock of the table
	 * are held. */
	pthread_mutex_t turn;
	bool is_writable;
	/* The granted locks. There is memory for two more ranges for each user that locks or unlocks. */
	struct range *ranges;
	size_t count, size;
	/* The number of calls that use it; whether it is in the table; the open file and the process of the client
	 * that locked last. They are protected by the lock. */
	unsigned users;
	bool is_listed;
	uint64_t handle;
	uint32_t pid;
	struct holder *next;
};

/* A request that waits for a lock: an fcntl(2) lock of a holder, or a flock(2) lock of an open file. */
struct waiter {
	struct locks *of;
	struct holder *holder;
	struct open_file *file;
	nizwarf_call asked;
	nizwarf_request *later;
	pthread_t thread;
	/* The error that ends the wait; 0: it continues. */
	atomic_int stop;
	/* The search for a deadlock has reached this waiter; and the waiter that it visits next. */
	bool is_reached;
	struct waiter *reached_next;
	struct waiter *next, **at;
};

struct locks {
	struct nodes *nodes;
	pthread_mutex_t lock;
	struct holder *chains[CHAINS];
	/* The number of ranges of all holders. */
	size_t ranges;
	struct waiter *waiters;
	/* The number of threads that wait, or have not ended yet. */
	unsigned waiting;
	/* For requests that do not wait, or not yet. */
	nizwarf_interrupts early;
	pthread_mutex_t replying;
	nizwarf_scratch slot;
};

/* The signal that ends a wait. (The transports use SIGRTMIN.) */
static inline int kick_signal(void)
{
	return SIGRTMIN + 1;
}

/* Returns the chain that contains all holders of a file. The lock must be held while the chain is used. */
struct holder **chain_of(struct locks *all, uint64_t node);
/* Returns the holder of this call's owner, which the caller must put. If there is none and `makes` is set, one is
 * created. Returns NULL if there is none, or none can be created. */
struct holder *holder_take(const struct call *call, bool makes);
/* Ends the use of a holder. If it is the last one and no lock is granted, the descriptor is closed. */
void holder_put(struct locks *all, struct holder *h);
/* Allocates the memory that the calling user needs to lock or unlock. Returns false if out of memory, or at the
 * limit of ranges. */
bool holder_reserve(struct locks *all, struct holder *h, const nizwarf_lock *lock);
/* Unlocks all ranges of a holder, and puts it. */
void holder_drop(struct locks *all, struct holder *h);

/* Returns whether two ranges have a byte in common. */
bool ranges_meet(const struct range *a, const struct range *b);
/* Convert a lock to a range, and a range to and from the host's struct. */
struct range range_of(const nizwarf_lock *lock);
struct flock to_host(const struct range *range);
struct range from_host(const struct flock *host);

/* Lock or unlock on the host. Return 0 or an error: EAGAIN if the lock is not free, EINTR if a signal arrived
 * during the wait. */
int lock_host(int fd, const struct range *range, bool waits);
int flock_host(const struct open_file *file, uint32_t type, bool waits);
/* Locks or unlocks by fcntl(2) without waiting, and notes the result. The caller must have called
 * holder_reserve(). Returns 0 or an error: ENOLCK if the client has disconnected or sent INIT again. */
int try_range(struct locks *all, struct holder *h, const nizwarf_lock *lock);
/* The same by flock(2). */
int try_flock(struct open_file *file, uint64_t owner, uint32_t type);
/* Releases a flock(2) lock that this call's owner has by another open file, and returns whether there was one.
 * Linux uses the same owner for two open files only if the first one is closed but its RELEASE, for which it does
 * not wait, is not served yet. */
bool unlock_closed(const struct call *call);

#endif
