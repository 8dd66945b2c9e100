/* Locks by owner: passthrough_holders.h. Threads and locks are those of passthrough_locks.c. */
#define _GNU_SOURCE
#include <errno.h>
#include <fcntl.h>
#include <pthread.h>
#include <stdlib.h>
#include <sys/file.h>
#include <unistd.h>
#include "passthrough_holders.h"

/* The flags with which a file is opened again. */
enum { AGAIN = O_CLOEXEC | O_NONBLOCK | O_NOCTTY };

struct holder **chain_of(struct locks *all, uint64_t node)
{
	return &all->chains[(uint32_t)node % CHAINS];
}

/* Returns the holder of an owner in a file, or NULL. The lock must be held. */
static struct holder *find(struct locks *all, uint64_t node, uint64_t owner)
{
	struct holder *h = *chain_of(all, node);

	while (h && (h->node != node || h->owner != owner))
		h = h->next;
	return h;
}

/* Removes a holder from the table. The lock must be held. */
static void unlist(struct locks *all, struct holder *h)
{
	struct holder **at = chain_of(all, h->node);

	while (*at != h)
		at = &(*at)->next;
	*at = h->next;
	h->is_listed = false;
}

/* (the descriptor is closed without the lock, because that may take long) */
void holder_put(struct locks *all, struct holder *h)
{
	bool is_last;

	pthread_mutex_lock(&all->lock);
	is_last = !--h->users && (!h->is_listed || !h->count);
	if (is_last && h->is_listed)
		unlist(all, h);
	if (is_last)
		all->ranges -= h->count;
	pthread_mutex_unlock(&all->lock);
	if (!is_last)
		return;
	fd_let_go(all->nodes, h->fd);
	pthread_mutex_destroy(&h->turn);
	free(h->ranges);
	free(h);
}

/* Opens the file again with the access of the client's open file. If that is only for reading, this one is too,
 * because a file that is open for writing cannot be executed. If the client may write, it may request locks of
 * both types. */
static int open_description(const struct call *call, bool *is_writable)
{
	const struct nodes *nodes = &call->all->nodes;
	const int of = call->file->counted.fd, mode = fcntl(of, F_GETFL) & O_ACCMODE;
	int fd;

	*is_writable = mode != O_RDONLY;
	fd = *is_writable ? open_again(nodes, of, O_RDWR | AGAIN) : -1;
	return fd >= 0 ? fd : open_again(nodes, of, mode | AGAIN);
}

/* Creates a holder that is in no table yet, with the caller as its user. Returns NULL if out of memory or
 * descriptors, or if the host does not open the file again. */
static struct holder *new_holder(const struct call *call)
{
	struct nodes *nodes = &call->all->nodes;
	struct holder *h;

	if (fd_reserve(nodes, 1))
		return NULL;
	h = calloc(1, sizeof(*h));
	if (h)
		h->fd = open_description(call, &h->is_writable);
	if (!h || h->fd < 0) {
		free(h);
		fd_give_back(nodes, 1);
		return NULL;
	}
	h->node = call->asked->node;
	h->owner = call->asked->lock_owner;
	h->users = 1;
	pthread_mutex_init(&h->turn, NULL);
	return h;
}

struct holder *holder_take(const struct call *call, bool makes)
{
	struct locks *all = call->all->locks;
	const nizwarf_call *asked = call->asked;
	struct holder *h, *made, **chain = chain_of(all, asked->node);
	bool is_late;

	pthread_mutex_lock(&all->lock);
	h = is_there(call) ? find(all, asked->node, asked->lock_owner) : NULL;
	if (h)
		h->users++;
	pthread_mutex_unlock(&all->lock);
	if (h || !makes)
		return h;
	/* The file is opened without the lock, so another worker may have added a holder of the same owner by
	 * then. It is searched again, and the second holder is not used. */
	made = new_holder(call);
	if (!made)
		return NULL;
	pthread_mutex_lock(&all->lock);
	is_late = !is_there(call);
	h = is_late ? NULL : find(all, asked->node, asked->lock_owner);
	if (h) {
		h->users++;
	} else if (!is_late) {
		h = made;
		h->is_listed = true;
		h->next = *chain;
		*chain = h;
	}
	pthread_mutex_unlock(&all->lock);
	/* (another call of this owner came first, or the client has disconnected) */
	if (h != made)
		holder_put(all, made);
	return h;
}

/* ---- granted locks */

/* Returns whether an unlock splits a range. */
static bool divides(const struct holder *h, const struct range *cut)
{
	for (size_t i = 0; i < h->count; i++)
		if (h->ranges[i].first < cut->first && h->ranges[i].last > cut->last)
			return true;
	return false;
}

/* Frees memory of ranges that were joined or unlocked, except memory that users have reserved. */
static void trim(struct holder *h)
{
	const size_t wanted = 2 * (h->count + 2 * (size_t)h->users);
	struct range *less = h->size / 4 > wanted ? realloc(h->ranges, wanted * sizeof(*less)) : NULL;

	if (less) {
		h->ranges = less;
		h->size = wanted;
	}
}

/* Allocates memory for two more ranges for each user: a lock or an unlock splits at most one range, and adds one.
 * So a lock that the host grants can always be noted. */
bool holder_reserve(struct locks *all, struct holder *h, const nizwarf_lock *lock)
{
	const struct range range = range_of(lock);
	struct range *more;
	size_t wanted;
	bool may_be;

	pthread_mutex_lock(&h->turn);
	pthread_mutex_lock(&all->lock);
	wanted = h->count + 2 * (size_t)h->users;
	may_be = all->ranges < MOST_RANGES || (range.type == F_UNLCK && !divides(h, &range));
	if (may_be && wanted > h->size) {
		more = realloc(h->ranges, 2 * wanted * sizeof(*more));
		may_be = more;
		if (more) {
			h->ranges = more;
			h->size = 2 * wanted;
		}
	}
	pthread_mutex_unlock(&all->lock);
	pthread_mutex_unlock(&h->turn);
	return may_be;
}

bool ranges_meet(const struct range *a, const struct range *b)
{
	return a->first <= b->last && b->first <= a->last;
}

/* Removes bytes from the range at `i`, which overlaps them. Returns whether some of the range is left. */
static bool cut_range(struct holder *h, size_t i, const struct range *cut)
{
	struct range *old = &h->ranges[i];
	const struct range left = { old->first, cut->first - 1, old->type };
	const struct range right = { cut->last + 1, old->last, old->type };
	const bool has_left = old->first < cut->first;
	const bool has_right = old->last > cut->last;

	if (has_left && has_right)
		h->ranges[h->count++] = right;
	*old = has_left ? left : has_right ? right : h->ranges[--h->count];
	return has_left || has_right;
}

/* Notes that the host has locked or unlocked these bytes. Like the host, it joins adjacent ranges of one type, so
 * that a range which F_OFD_GETLK returns is found here unchanged. */
static void note_range(struct holder *h, struct range new)
{
	size_t i = 0;

	while (i < h->count) {
		struct range *old = &h->ranges[i];

		if (old->type == new.type && old->first <= new.last + 1 && new.first <= old->last + 1) {
			new.first = old->first < new.first ? old->first : new.first;
			new.last = old->last > new.last ? old->last : new.last;
			*old = h->ranges[--h->count];
		} else if (!ranges_meet(old, &new) || cut_range(h, i, &new)) {
			i++;
		}
	}
	if (new.type != F_UNLCK)
		h->ranges[h->count++] = new;
}

/* ---- locks of the host */

/* (FUSE sends the last byte, or INT64_MAX for no end) */
struct range range_of(const nizwarf_lock *lock)
{
	return (struct range){ lock->start, lock->end < INT64_MAX ? lock->end : INT64_MAX, lock->type };
}

/* (the host uses a length, of which 0 means up to the end of the file) */
struct flock to_host(const struct range *range)
{
	return (struct flock){ .l_type = (short)range->type,
			       .l_whence = SEEK_SET,
			       .l_start = (off_t)range->first,
			       .l_len = range->last < INT64_MAX ? (off_t)(range->last - range->first + 1) :
								  0 };
}

/* (FUSE uses Linux's numbers of the types) */
struct range from_host(const struct flock *host)
{
	const uint64_t first = (uint64_t)host->l_start;

	return (struct range){ first, host->l_len ? first + (uint64_t)host->l_len - 1 : (uint64_t)INT64_MAX,
			       (uint32_t)host->l_type };
}

int lock_host(int fd, const struct range *range, bool waits)
{
	struct flock host = to_host(range);
	const int error = failed(fcntl(fd, waits ? F_OFD_SETLKW : F_OFD_SETLK, &host));

	/* (POSIX allows both errors for fcntl(2)) */
	return error == EACCES ? EAGAIN : error;
}

int flock_host(const struct open_file *file, uint32_t type, bool waits)
{
	const int kind = type == F_UNLCK ? LOCK_UN : type == F_RDLCK ? LOCK_SH : LOCK_EX;

	return failed(flock(file->counted.fd, kind | (waits ? 0 : LOCK_NB)));
}

/* Unlocks all bytes. */
static void unlock_host(int fd)
{
	const struct range none = { 0, INT64_MAX, F_UNLCK };

	lock_host(fd, &none, false);
}

/* Interrupts the threads that wait by this holder, so that they call the host again. */
static void kick_waiters_of(struct locks *all, const struct holder *h)
{
	pthread_mutex_lock(&all->lock);
	for (struct waiter *w = all->waiters; w; w = w->next)
		if (w->holder == h)
			pthread_kill(w->thread, kick_signal());
	pthread_mutex_unlock(&all->lock);
}

/* Moves a holder's read locks to another open file description, and then its descriptor. In between both have the
 * locks, which does not conflict. Returns 0, or ENOLCK if nothing has changed. */
static int move_to(struct holder *h, int fd)
{
	const int before = fcntl(h->fd, F_DUPFD_CLOEXEC, 0);
	int error = before < 0 ? ENOLCK : 0;

	for (size_t i = 0; i < h->count && !error; i++)
		error = lock_host(fd, &h->ranges[i], false);
	if (!error && dup3(fd, h->fd, O_CLOEXEC) < 0)
		error = ENOLCK;
	/* (a thread that still waits with the old descriptor keeps it open, and would keep its locks) */
	if (!error)
		unlock_host(before);
	if (before >= 0)
		close(before);
	return error ? ENOLCK : 0;
}

/* Opens a holder's file again for writing, which an exclusive lock requires. The caller must have its turn. (A
 * waiting thread is interrupted, and then waits with the new descriptor.) */
static int make_writable(struct locks *all, struct holder *h)
{
	int fd, error;

	if (h->is_writable)
		return 0;
	fd = open_again(all->nodes, h->fd, O_RDWR | AGAIN);
	if (fd < 0)
		return ENOLCK;
	error = move_to(h, fd);
	close(fd);
	if (error)
		return error;
	h->is_writable = true;
	kick_waiters_of(all, h);
	return 0;
}

int try_range(struct locks *all, struct holder *h, const nizwarf_lock *lock)
{
	const struct range range = range_of(lock);
	int error;

	pthread_mutex_lock(&h->turn);
	error = range.type == F_WRLCK ? make_writable(all, h) : 0;
	if (!error)
		error = lock_host(h->fd, &range, false);
	if (!error) {
		pthread_mutex_lock(&all->lock);
		all->ranges -= h->count;
		note_range(h, range);
		all->ranges += h->count;
		trim(h);
		error = h->is_listed ? 0 : ENOLCK;
		pthread_mutex_unlock(&all->lock);
	}
	pthread_mutex_unlock(&h->turn);
	return error;
}

/* (A lock of the other type is lost if it cannot be changed at once. Linux does so, and other file systems are
 * treated the same.) */
int try_flock(struct open_file *file, uint64_t owner, uint32_t type)
{
	int error;

	pthread_mutex_lock(&file->lock);
	error = flock_host(file, type, false);
	if (error == EAGAIN && atomic_load(&file->has_flock))
		flock_host(file, F_UNLCK, false);
	if (!error || error == EAGAIN)
		atomic_store(&file->has_flock, !error && type != F_UNLCK);
	atomic_store(&file->flock_owner, owner);
	pthread_mutex_unlock(&file->lock);
	return error;
}

void holder_drop(struct locks *all, struct holder *h)
{
	pthread_mutex_lock(&h->turn);
	unlock_host(h->fd);
	pthread_mutex_lock(&all->lock);
	all->ranges -= h->count;
	h->count = 0;
	pthread_mutex_unlock(&all->lock);
	pthread_mutex_unlock(&h->turn);
	holder_put(all, h);
}

bool unlock_closed(const struct call *call)
{
	const uint64_t owner = call->asked->lock_owner;
	/* (a client that does not send owners uses 0 for all) */
	struct open_file *file = owner ? file_with_flock(&call->all->nodes, call->file, owner) : NULL;
	bool was_locked;

	if (!file)
		return false;
	pthread_mutex_lock(&file->lock);
	was_locked = atomic_load(&file->has_flock);
	if (was_locked && !flock_host(file, F_UNLCK, false))
		atomic_store(&file->has_flock, false);
	pthread_mutex_unlock(&file->lock);
	file_put(file);
	return was_locked;
}
