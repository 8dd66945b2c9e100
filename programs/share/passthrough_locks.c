/* Locks of a passthrough: passthrough_locks.h.
 *
 * A flock(2) lock belongs to an open file, as in Linux. So it is a lock of the descriptor of the client's open
 * file here, which both SETLK and RELEASE identify by the handle, and it is released when that descriptor is
 * closed. The lock owner is not used for it: Linux derives the owner from the address of its open file, which the
 * next open file may get before the RELEASE of the earlier one is served. (Then the owner shows that the earlier
 * one is closed, so its lock is released for the later one: unlock_closed.)
 *
 * An fcntl(2) lock belongs to a lock owner. The host keeps it by F_OFD_SETLK for a separate descriptor for each
 * owner and file: a holder. So both are locks against other clients and against programs of the host. The locks
 * that the host has granted are noted in the holder or the open file.
 *
 * A call that locks or unlocks without waiting runs alone: it has the `turn` of its holder (or the `lock` of its
 * open file) from before the system call until the result is noted, so the note and the host agree whatever the
 * order of calls. Waiting is done without it, and success there is only a hint: the lock is then taken again in
 * turn, which does nothing if it still exists. So a lock that another thread released or closed meanwhile is taken
 * again or waited for again, and is never reported as granted without being held.
 *
 * A separate thread, and not a worker, waits for a lock that is not free. A signal ends the wait.
 *
 * Workers make the calls, among them INIT and DESTROY, which release all locks. The transport's own thread ends
 * waits, checks whether locks are held, and releases all locks once a client has disconnected.
 *
 * `lock` protects the table of holders, their counts and ranges, and the list of waiters. No system call is made
 * while it is held, because the file system may not respond: the caller counts as a user of the holder or the open
 * file, so the descriptor stays open. It must be locked last. `replying` protects the scratch memory, and is
 * locked alone.
 *
 * A malicious client may send any owner and any node. It gets holders only for files that it has open, each with a
 * descriptor that counts towards its limit, and can release only its own locks. A request whose client has
 * disconnected adds no holder, removes none and ends no wait: that is checked under the lock, and the table is
 * emptied after the client is known to have disconnected. */
#define _GNU_SOURCE
#include <errno.h>
#include <fcntl.h>
#include <limits.h>
#include <pthread.h>
#include <stdlib.h>
#include <string.h>
#include <time.h>
#include "passthrough_holders.h"

/* MOST_WAITERS: how many threads may wait at once; STACK: the stack size of each. KICKS and TRIES are in
 * milliseconds: how long a worker signals a waiter, and how long a reply is retried when out of memory.
 * MOST_REACHED limits the search for a deadlock. */
enum { MOST_WAITERS = 4096, STACK = 65536, KICKS = 50, TRIES = 10000, MOST_REACHED = 256 };

/* Does nothing. Without a handler the signal would end the process, and an ignored signal interrupts no system
 * call. */
static void kicked(int number)
{
	(void)number;
}

struct locks *locks_new(struct nodes *nodes)
{
	const struct sigaction kicks = { .sa_handler = kicked };
	struct locks *all = calloc(1, sizeof(*all));

	if (!all)
		return NULL;
	all->nodes = nodes;
	pthread_mutex_init(&all->lock, NULL);
	pthread_mutex_init(&all->replying, NULL);
	/* (without SA_RESTART, so that a blocked system call fails with EINTR) */
	sigaction(kick_signal(), &kicks, NULL);
	return all;
}

/* Returns the client's process that has a lock which the host reports, in the file of this call, or 0. (The host
 * reports no process for a lock of F_OFD_SETLK.) */
static uint32_t pid_of(struct locks *all, const nizwarf_call *asked, const struct range *found)
{
	uint32_t pid = 0;

	pthread_mutex_lock(&all->lock);
	for (const struct holder *h = *chain_of(all, asked->node); h && !pid; h = h->next)
		for (size_t i = 0; h->node == asked->node && h->owner != asked->lock_owner && i < h->count;
		     i++)
			if (h->ranges[i].first == found->first && h->ranges[i].last == found->last &&
			    h->ranges[i].type == found->type)
				pid = h->pid;
	pthread_mutex_unlock(&all->lock);
	return pid;
}

/* GETLK: returns a conflicting lock, or F_UNLCK. For an owner without a holder it uses the client's own open file,
 * which never has locks. */
int get_lock(const struct call *call)
{
	const nizwarf_lock asked = nizwarf_lock_of(call->asked);
	const struct range range = range_of(&asked);
	struct flock host = to_host(&range);
	nizwarf_lock result = asked;
	struct holder *h;
	int error;

	if (asked.start > range.last)
		return EINVAL;
	h = holder_take(call, false);
	/* (while its descriptor is exchanged, its locks belong to another one too) */
	if (h)
		pthread_mutex_lock(&h->turn);
	error = failed(fcntl(h ? h->fd : call->file->counted.fd, F_OFD_GETLK, &host));
	if (h) {
		pthread_mutex_unlock(&h->turn);
		holder_put(call->all->locks, h);
	}
	if (error)
		return error;
	result.type = F_UNLCK;
	if (host.l_type != F_UNLCK) {
		const struct range found = from_host(&host);

		result = (nizwarf_lock){ found.first, found.last, found.type,
					 pid_of(call->all->locks, call->asked, &found) };
	}
	memcpy(call->worker->text, &result, sizeof(result));
	call->answer->text = (const uint8_t *)call->worker->text;
	call->answer->text_len = sizeof(result);
	return 0;
}

/* ---- deadlocks */

/* Returns whether a lock of a holder conflicts with that of a waiter of another owner. */
static bool is_in_the_way(const struct holder *h, const struct waiter *w)
{
	const nizwarf_lock lock = nizwarf_lock_of(&w->asked);
	const struct range wanted = range_of(&lock);

	if (h->node != w->holder->node || h->owner == w->holder->owner)
		return false;
	for (size_t i = 0; i < h->count; i++)
		if (ranges_meet(&h->ranges[i], &wanted) &&
		    (wanted.type == F_WRLCK || h->ranges[i].type == F_WRLCK))
			return true;
	return false;
}

/* Appends the waiters of an owner to a list. Returns the last one of the list. */
static struct waiter *reach(struct locks *all, uint64_t owner, struct waiter *last, unsigned *left)
{
	for (struct waiter *w = all->waiters; w && *left; w = w->next)
		if (w->holder && w->holder->owner == owner && !w->is_reached) {
			w->is_reached = true;
			w->reached_next = NULL;
			last->reached_next = w;
			last = w;
			--*left;
		}
	return last;
}

/* Returns whether this waiter, which is in no list yet, would wait for an owner that waits for its own: then Linux
 * returns EDEADLK, and searches for it as here, by owners and up to a limit. The lock must be held. Waits of the
 * host's programs, or of another server's clients, are not known. */
static bool is_deadlock(struct locks *all, struct waiter *asked)
{
	struct waiter *last = asked;
	unsigned left = MOST_REACHED;

	for (struct waiter *w = all->waiters; w; w = w->next)
		w->is_reached = false;
	asked->reached_next = NULL;
	for (const struct waiter *w = asked; w; w = w->reached_next)
		for (const struct holder *h = *chain_of(all, w->holder->node); h; h = h->next) {
			if (!is_in_the_way(h, w))
				continue;
			if (h->owner == asked->holder->owner)
				return true;
			last = reach(all, h->owner, last, &left);
		}
	return false;
}

/* ---- waiting */

/* Waits for a millisecond. */
static void let_pass(void)
{
	const struct timespec pause = { 0, 1000000 };

	nanosleep(&pause, NULL);
}

/* Adds a waiter to the list, so that it gets signals. The lock must be held. */
static void link_waiter(struct waiter *w)
{
	w->at = &w->of->waiters;
	w->next = w->of->waiters;
	if (w->next)
		w->next->at = &w->next;
	w->of->waiters = w;
}

/* Removes a waiter from the list, so that it gets no more signals. The lock must be held. */
static void unlink_waiter(struct waiter *w)
{
	*w->at = w->next;
	if (w->next)
		w->next->at = w->at;
}

/* Replies to the request and ends the wait. (If out of memory, it retries for about ten seconds, because the owner
 * of a lock should know that it has it.) */
static void finish(struct waiter *w, int error)
{
	struct locks *all = w->of;
	const nizwarf_session session = { w->asked.options, 4096, NIZWARF_MAX_PAYLOAD };
	uint8_t reply[HEADER];
	const struct iovec room = { reply, sizeof(reply) };
	nizwarf_answer answer = NIZWARF_ANSWER_INIT;
	nizwarf_result result;
	int32_t code;

	answer.error = error;
	/* (the reply is only a header, and so is its buffer) */
	w->asked.reply_size = sizeof(reply);
	pthread_mutex_lock(&all->replying);
	code = nizwarf_encode(&all->slot, &session, &w->asked, &answer, &room, 1, &result);
	for (int i = 0; i < TRIES && code == NIZWARF_OUT_OF_MEMORY; i++) {
		let_pass();
		code = nizwarf_encode(&all->slot, &session, &w->asked, &answer, &room, 1, &result);
	}
	pthread_mutex_unlock(&all->replying);
	pthread_mutex_lock(&all->lock);
	if (w->at)
		unlink_waiter(w);
	pthread_mutex_unlock(&all->lock);
	/* (before the reply, so that closing the file after it releases the locks at once) */
	if (w->holder)
		holder_put(all, w->holder);
	file_put(w->file);
	nizwarf_request_complete(w->later, code, reply, result.len);
	free(w);
	pthread_mutex_lock(&all->lock);
	all->waiting--;
	pthread_mutex_unlock(&all->lock);
}

/* Waits until the host grants the lock, and then takes it again in turn. Returns 0 or an error: EAGAIN, if another
 * thread of the client has released it meanwhile and it is not free. */
static int wait_once(const struct waiter *w)
{
	const nizwarf_lock lock = nizwarf_lock_of(&w->asked);
	const struct range range = range_of(&lock);
	int error;

	if (w->file) {
		error = flock_host(w->file, lock.type, true);
		return error ? error : try_flock(w->file, w->asked.lock_owner, lock.type);
	}
	error = lock_host(w->holder->fd, &range, true);
	return error ? error : try_range(w->of, w->holder, &lock);
}

/* The thread of a waiter. A signal between the check of `stop` and the system call is missed, and is sent again. A
 * lock that was granted is reported as granted, even if the wait was to end meanwhile. */
static void *wait_for_lock(void *given)
{
	struct waiter *w = given;
	int error = EINTR, stop = 0;

	while ((error == EINTR || error == EAGAIN) && !(stop = atomic_load(&w->stop)))
		error = wait_once(w);
	finish(w, error == EINTR || error == EAGAIN ? stop : error);
	return NULL;
}

/* Starts the thread of a waiter. Returns false on error. The lock must be held. */
static bool start_thread(struct waiter *w)
{
	pthread_attr_t attributes;
	bool is_started;

	pthread_attr_init(&attributes);
	pthread_attr_setdetachstate(&attributes, PTHREAD_CREATE_DETACHED);
	pthread_attr_setstacksize(&attributes, STACK < PTHREAD_STACK_MIN ? PTHREAD_STACK_MIN : STACK);
	is_started = !pthread_create(&w->thread, &attributes, wait_for_lock, w);
	pthread_attr_destroy(&attributes);
	return is_started;
}

/* Checks whether a request may wait, and sets `later`. Returns 0 or an error. The lock must be held. */
static int may_wait(const struct call *call, struct waiter *w)
{
	struct locks *all = w->of;

	if (is_there(call) && nizwarf_take_interrupt(&all->early, w->asked.unique))
		return EINTR;
	if (w->holder && is_deadlock(all, w))
		return EDEADLK;
	/* (the limit is reached, or the virtual machine is pausing) */
	w->later = all->waiting < MOST_WAITERS ? nizwarf_request_keep() : NULL;
	return w->later ? 0 : ENOLCK;
}

/* Starts a thread that waits for a lock of a holder, of which it takes over the caller's reference, or of an open
 * file. Returns LOCK_WAITS, or an error; then the caller keeps the reference. The waiter is added to the list
 * under the lock under which `early` is checked, so an INTERRUPT either came before, and is found there, or finds
 * the waiter. */
static int start_waiter(const struct call *call, struct holder *h)
{
	struct locks *all = call->all->locks;
	struct waiter *w = calloc(1, sizeof(*w));
	bool is_started = false;
	int error;

	if (!w)
		return ENOMEM;
	w->of = all;
	w->holder = h;
	w->asked = *call->asked;
	pthread_mutex_lock(&all->lock);
	error = may_wait(call, w);
	if (!error) {
		w->file = h ? NULL : file_share(call->file);
		all->waiting++;
		is_started = start_thread(w);
	}
	/* (the thread cannot end yet, because it needs the lock for that) */
	if (is_started)
		link_waiter(w);
	pthread_mutex_unlock(&all->lock);
	if (error) {
		free(w);
		return error;
	}
	/* (the request is kept already, so its worker must not reply to it) */
	if (!is_started)
		finish(w, ENOLCK);
	/* cppcheck-suppress memleak */
	return LOCK_WAITS;
}

/* Ends waits: that of this request, which is remembered if it does not wait yet; or all, with ENOLCK, because on
 * EINTR Linux assumes that a signal has arrived. (A thread that has not started to wait misses the signal, and
 * gets it again.) For a client that has disconnected nothing is done: the waiters belong to the next one. */
static void kick_each(struct locks *all, unsigned client, const uint64_t *unique, bool keeps, bool *is_left)
{
	bool is_late;

	*is_left = false;
	pthread_mutex_lock(&all->lock);
	is_late = !is_client(all->nodes, client);
	for (struct waiter *w = is_late ? NULL : all->waiters; w; w = w->next)
		if (!unique || w->asked.unique == *unique) {
			atomic_store(&w->stop, unique ? EINTR : ENOLCK);
			pthread_kill(w->thread, kick_signal());
			*is_left = true;
		}
	if (keeps && !is_late && !*is_left)
		nizwarf_keep_interrupt(&all->early, *unique);
	pthread_mutex_unlock(&all->lock);
}

/* INTERRUPT. The worker signals the waiter for at most about 50 milliseconds; if the host has not returned by
 * then, the waiter replies with the error once it does. An INTERRUPT that another worker handles before its SETLKW
 * is remembered. */
void locks_interrupt(struct locks *all, unsigned client, uint64_t unique)
{
	bool is_left;

	kick_each(all, client, &unique, true, &is_left);
	for (int i = 0; i < KICKS && is_left; i++) {
		let_pass();
		kick_each(all, client, &unique, false, &is_left);
	}
}

/* ---- calls */

/* A flock(2) lock, by the descriptor of the client's open file. */
static int set_flock(const struct call *call, uint32_t type)
{
	const uint64_t owner = call->asked->lock_owner;
	int error = try_flock(call->file, owner, type);

	if (error == EAGAIN && unlock_closed(call))
		error = try_flock(call->file, owner, type);
	return error == EAGAIN && call->asked->opcode == NIZWARF_SETLKW ? start_waiter(call, NULL) : error;
}

/* An fcntl(2) lock, by the holder of its owner. Like Linux, it requires that the file is open for writing for an
 * exclusive lock, because a client that may only read must not lock out writers. */
static int set_range(const struct call *call, const nizwarf_lock *lock)
{
	struct locks *all = call->all->locks;
	const bool locks = lock->type != F_UNLCK, is_all = !locks && !lock->start && lock->end >= INT64_MAX;
	struct holder *h;
	int error;

	if (lock->type == F_WRLCK && (fcntl(call->file->counted.fd, F_GETFL) & O_ACCMODE) == O_RDONLY)
		return EBADF;
	h = holder_take(call, locks);
	if (!h)
		return locks ? ENOLCK : 0;
	if (locks) {
		pthread_mutex_lock(&all->lock);
		h->pid = lock->pid;
		h->handle = call->asked->handle;
		pthread_mutex_unlock(&all->lock);
	}
	/* (unlocking the whole file needs no memory, and so cannot fail) */
	error = is_all || holder_reserve(all, h, lock) ? try_range(all, h, lock) : ENOLCK;
	if (error == EAGAIN && call->asked->opcode == NIZWARF_SETLKW)
		error = start_waiter(call, h);
	if (error != LOCK_WAITS)
		holder_put(all, h);
	return error;
}

/* SETLK and SETLKW. ENOLCK: there is no descriptor for the lock, or the limit of waiters is reached. EAGAIN: it is
 * not free, and SETLK does not wait. EDEADLK: its owner waits for this owner. */
int set_lock(const struct call *call)
{
	const nizwarf_lock lock = nizwarf_lock_of(call->asked);

	if (lock.type != F_UNLCK && lock.type != F_RDLCK && lock.type != F_WRLCK)
		return EINVAL;
	if (call->file->is_directory)
		return ENOLCK;
	if (call->asked->has & NIZWARF_LK_FLOCK)
		return set_flock(call, lock.type);
	return lock.start <= range_of(&lock).last ? set_range(call, &lock) : EINVAL;
}

/* Returns the next holder with locks in the file of this call that has its owner, or with `by_handle`, that was
 * last locked by its open file. The lock must be held. */
static struct holder *find_locked(const struct call *call, bool by_handle)
{
	const nizwarf_call *asked = call->asked;
	struct holder *h = is_there(call) ? *chain_of(call->all->locks, asked->node) : NULL;

	while (h && (h->node != asked->node || !h->count ||
		     (by_handle ? h->handle != asked->handle : h->owner != asked->lock_owner)))
		h = h->next;
	return h;
}

/* Releases all locks of such holders. */
static void drop_each(const struct call *call, bool by_handle)
{
	struct locks *all = call->all->locks;
	struct holder *h;

	do {
		pthread_mutex_lock(&all->lock);
		h = find_locked(call, by_handle);
		if (h)
			h->users++;
		pthread_mutex_unlock(&all->lock);
		if (h)
			holder_drop(all, h);
	} while (h && by_handle);
}

/* In POSIX, closing any descriptor of a file releases all fcntl(2) locks that the process has in it: that is
 * FLUSH. A lock of F_OFD_SETLK lasts until the last close of the open file, as a flock(2) lock, which belongs to
 * the descriptor. Linux sends the same requests for it, with an owner of its own, but no FLUSH. So RELEASE
 * releases the locks that were taken by that open file; an owner of the other kind has none left by then. */
void locks_close(const struct call *call)
{
	const nizwarf_call *asked = call->asked;

	if (asked->opcode == NIZWARF_FLUSH || asked->has & NIZWARF_RELEASE_FLUSH)
		drop_each(call, false);
	if (asked->opcode == NIZWARF_RELEASE)
		drop_each(call, true);
}

/* It signals once: the transport calls it again while a request is kept, because a signal may be missed. */
void locks_recall(struct locks *all)
{
	bool is_left;

	kick_each(all, client_now(all->nodes), NULL, false, &is_left);
}

/* Ends all waits of this client, within a second, because a thread may wait for a host that does not respond.
 * Returns whether they ended, or belong to another client. */
static bool end_waiting(struct locks *all, unsigned client)
{
	bool is_left, is_idle = false;

	for (int i = 0; i < 20 * KICKS && !is_idle; i++) {
		kick_each(all, client, NULL, false, &is_left);
		pthread_mutex_lock(&all->lock);
		is_idle = !all->waiting || !is_client(all->nodes, client);
		pthread_mutex_unlock(&all->lock);
		if (!is_idle)
			let_pass();
	}
	return is_idle;
}

/* Removes all holders from the table and returns them as a list, of whose holders the caller is a user; or NULL if
 * the client has disconnected. Requests that were interrupted before they arrived are forgotten. */
static struct holder *take_all(struct locks *all, unsigned client)
{
	struct holder *gone = NULL, *h;
	bool is_late;

	pthread_mutex_lock(&all->lock);
	is_late = !is_client(all->nodes, client);
	/* (the next client uses the same request numbers) */
	if (!is_late)
		memset(&all->early, 0, sizeof(all->early));
	for (unsigned i = 0; i < CHAINS && !is_late; i++)
		while ((h = all->chains[i])) {
			all->chains[i] = h->next;
			h->is_listed = false;
			h->users++;
			h->next = gone;
			gone = h;
		}
	pthread_mutex_unlock(&all->lock);
	return gone;
}

bool locks_are_held(struct locks *all)
{
	bool are_held;

	pthread_mutex_lock(&all->lock);
	/* (a lock of a waiter may be granted) */
	are_held = all->waiters;
	for (unsigned i = 0; i < CHAINS && !are_held; i++)
		for (const struct holder *h = all->chains[i]; h && !are_held; h = h->next)
			are_held = h->count;
	pthread_mutex_unlock(&all->lock);
	return are_held || files_have_flock(all->nodes);
}

/* A thread that still waits after a second, because the host does not return, keeps its holder, and puts it when
 * it ends. */
struct holder *locks_take_all(struct locks *all, unsigned client)
{
	end_waiting(all, client);
	return take_all(all, client);
}

void locks_let_go(struct locks *all, struct holder *first)
{
	struct holder *next;

	for (struct holder *h = first; h; h = next) {
		next = h->next;
		holder_put(all, h);
	}
}

void locks_forget_all(struct locks *all, unsigned client)
{
	locks_let_go(all, locks_take_all(all, client));
}

bool locks_free(struct locks *all)
{
	const unsigned client = client_now(all->nodes);

	locks_forget_all(all, client);
	if (!end_waiting(all, client))
		return false;
	nizwarf_scratch_free(&all->slot);
	free(all);
	return true;
}
