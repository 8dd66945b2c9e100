/* Queues of a virtio-fs device, and their workers: vhost_queue.h.
 *
 * The guest may write all of its memory at any time. So a descriptor is copied before it is checked, and a
 * request before it is served, both only once, and the reply buffer is not read. The library decodes the
 * copies and finds the pieces in the shared memory: chain.h. So an invalid index, a cycle of descriptors or
 * an unmapped address stops the guest's own queue, or is completed with a reply of no bytes, and cannot lead
 * outside the guest's own memory.
 *
 * Threads. Each worker waits for kicks, takes a chain from the queue that was kicked, has the request served,
 * completes the chain, and takes the next one. Several workers may serve one queue at once; chains may then
 * be completed in a different order, which virtio permits. The calling thread, that of vhost_user.c, takes no
 * chains: it changes queues and memory in between.
 *
 * Locks, in the order in which they must be taken. A worker must hold `in_flight` of its guest for reading as
 * long as it accesses the guest's memory or queues, and the calling thread must hold it for writing while it
 * changes them. The `lock` of a queue protects its counters, its rings and its late replies; no descriptor of
 * the front end may be written while it is held. The lock of later.c may be taken with `in_flight`, but never
 * with that of a queue. `guests` must be taken alone. */
#define _GNU_SOURCE
#include <errno.h>
#include <fcntl.h>
#include <poll.h>
#include <sched.h>
#include <stdlib.h>
#include <string.h>
#include <sys/epoll.h>
#include <sys/eventfd.h>
#include <sys/mman.h>
#include <sys/syscall.h>
#include <time.h>
#include <unistd.h>
#include "say.h"
#include "vhost_queue.h"

/* Bytes after the longest request are ignored, and no more of a reply buffer is used. A header and its record
 * take less than a page, and a guest that observes the limits of INIT has no larger payload. PIECES limits
 * the pieces of a request, the pieces of its reply buffer, and the entries of an indirect table; a longer
 * chain is invalid. */
enum { PIECES = 1024, LONGEST = NIZWARF_MAX_PAYLOAD + 4096 };
/* The opcode is the second word of a fuse_in_header, so it ends at byte 8. A WRITE begins with WRITE_HEAD
 * bytes: 40 of that header and 40 of a fuse_write_in. */
enum { OPCODE_WRITE = 16, OPCODE_END = 8, WRITE_HEAD = 80 };

/* The guest passes memory from one worker to another through indices that it reads and writes. The thread
 * sanitizer does not see the guest, so it needs these hints. */
#ifdef __SANITIZE_THREAD__
void __tsan_acquire(void *at);
void __tsan_release(void *at);
static char from_guest;
#define FROM_GUEST() __tsan_acquire(&from_guest)
#define TO_GUEST() __tsan_release(&from_guest)
#else
#define FROM_GUEST() ((void)0)
#define TO_GUEST() ((void)0)
#endif

/* How many bytes of memory a bit of the log covers. This is VHOST_LOG_PAGE of vhost-user, regardless of the
 * page size of this machine. */
enum { LOG_PAGE = 4096 };

struct guest *vhost_guest;
/* Must be held to change the pointer or the number of the guest's users. */
static pthread_mutex_t guests = PTHREAD_MUTEX_INITIALIZER;

/* Workers wait for `events`, an epoll descriptor. It has two descriptors of each queue, its kick and its own
 * event (queue_look), both with the number of the queue, and the event that ends the workers. */
enum { STOP = QUEUES };
static int events, stop;
/* These events wake the calling thread when a worker has failed, or shared memory is lost. */
static int over, lost;

/* In milliseconds: how long the calling thread waits for requests at a time (HOLD), and pauses in between
 * (REST); after which time it interrupts them (INTERRUPTS); and after which time it gives up (MOST). */
enum { HOLD = 200, REST = 5, INTERRUPTS = 250, MOST = 1000 };

/* A worker and its current chain. It is larger than 1 MiB, so start_worker() allocates it, and join_workers()
 * frees it. */
struct worker {
	unsigned number;
	pthread_t thread;
	/* The guest that it serves now, or NULL. */
	_Atomic(struct guest *) serves;
	/* A chain. Its request has `len` bytes, of which the first `copied` are in `request`: all, unless the
	 * data of a WRITE stay in the guest's memory. The first segment has the copied bytes; the other
	 * segments are in the guest's memory, and so is the reply buffer, whose pieces have `room_len` bytes
	 * together. */
	size_t len, copied, segments, rooms, room_len;
	/* How many descriptors of the queue it uses. A chain in an indirect table uses one. */
	unsigned places;
	struct iovec segment[PIECES + 1];
	struct iovec room[PIECES];
	unsigned char request[LONGEST];
};

/* Counts the results of requests, by code, and violations of the protocol by a guest or its front end. A
 * guest must not be able to fill a log by repeated violations. So only the first violation of each kind is
 * reported for a front end, and their numbers when it has disconnected. For malformed chains only the number
 * is reported. */
enum { OUTCOMES = 32 };
enum fault { NO_FAULT, BAD_CHAIN, BAD_QUEUE, BAD_CALL, BAD_LOG_EVENT, FAULTS };
static atomic_ulong outcomes[OUTCOMES], faults[FAULTS];
static const char *const fault_names[FAULTS] = {
	[BAD_CHAIN] = "malformed descriptor chains",
	[BAD_QUEUE] = "queues stopped because their rings are invalid",
	[BAD_CALL] = "call descriptors of a queue that cannot be written",
	[BAD_LOG_EVENT] = "log descriptors that cannot be written",
};

/* The transport, and its workers, which only the calling thread starts and joins. `this_worker` is the worker
 * of a thread, and NULL in other threads. */
static const nizwarf_transport *by;
static const nizwarf_machine *machine;
static struct worker *workers[NIZWARF_MAX_WORKERS];
static unsigned started;
static _Thread_local const struct worker *this_worker;

/* Prints what failed and why, by errno, and returns -1. */
static int failed(const char *what)
{
	transport_say(by->program, "cannot %s: %s", what, strerror(errno));
	return -1;
}

/* Counts a violation, and reports the first one of a front end. No lock of a queue may be held. */
static void note(enum fault fault)
{
	if (fault && !atomic_fetch_add(&faults[fault], 1) && fault != BAD_CHAIN)
		transport_say(by->program, "protocol violation by the guest or its front end: %s",
			      fault_names[fault]);
}

/* Wakes the thread that waits for an eventfd of this process. It never blocks, because an eventfd is full
 * only after 2^64 - 2 writes. A signal handler calls it too. */
static void tell(int event)
{
	const uint64_t one = 1;

	if (write(event, &one, sizeof(one)) < 0)
		failed("write to an eventfd");
}

/* ---- the dirty log, by workers: bytes must be marked after they were written, because the reader clears a
 * mark before it reads the bytes */

/* Marks bytes by their address in the guest. Addresses past the end of the log are ignored: they are not
 * memory, or the front end has made the log too short, which harms only itself. Other workers set marks and
 * the front end clears them at the same time, so a bit must be set atomically. `size` of the log is in
 * bytes. */
static void mark(const struct log *log, uint64_t address, uint64_t len)
{
	uint64_t page = address / LOG_PAGE, left;

	if (!len)
		return;
	for (left = (address % LOG_PAGE + len - 1) / LOG_PAGE + 1; left && page / 8 < log->size;
	     left--, page++)
		__atomic_fetch_or(&log->at[page / 8], (unsigned char)(1u << page % 8), __ATOMIC_SEQ_CST);
}

/* Marks bytes by their address in this process. All must be in the region of the first one, and must have
 * been written. */
static void mark_at(const struct guest *g, const void *at, size_t len)
{
	const uintptr_t from = (uintptr_t)at;

	if (!g->logs || !g->log.at)
		return;
	for (size_t i = 0; i < g->regions; i++) {
		const uintptr_t begin = (uintptr_t)g->region[i].at;

		if (from >= begin && from - begin < g->shared[i].size) {
			mark(&g->log, g->shared[i].address + (from - begin), len);
			return;
		}
	}
}

/* Marks the whole reply buffer, because a request that failed or has a shorter reply may have written any of
 * it. */
static void mark_rooms(const struct guest *g, const struct iovec *room, size_t rooms)
{
	if (g->logs)
		for (size_t i = 0; i < rooms; i++)
			mark_at(g, room[i].iov_base, room[i].iov_len);
}

/* Marks bytes of a used ring. If SET_VRING_ADDR had VHOST_VRING_F_LOG, its address counts, which need not be
 * in shared memory, and otherwise the address of the bytes. */
static void mark_used(const struct guest *g, const struct queue *q, const void *at, size_t len)
{
	const uint64_t offset = (uint64_t)((const char *)at - (const char *)q->used);

	if (!q->has_log_address)
		mark_at(g, at, len);
	else if (g->logs && g->log.at && q->log_address <= UINT64_MAX - offset)
		mark(&g->log, q->log_address + offset, len);
}

/* Marks the entry of the used ring that has completed the last chain, and the index. The lock of the queue
 * must be held. */
static void mark_given(const struct guest *g, const struct queue *q)
{
	const uint32_t slot = nizwarf_ring_slot_at((uint16_t)(q->done - 1), q->size);

	mark_used(g, q, &q->used->ring[slot], sizeof(q->used->ring[slot]));
	mark_used(g, q, &q->used->idx, sizeof(q->used->idx));
}

/* Notifies the front end of new marks, if it has set a descriptor for that. This may block, as in
 * call_guest(). */
static void tell_log(const struct guest *g)
{
	const uint64_t one = 1;

	if (g->logs && g->log.event >= 0 && write(g->log.event, &one, sizeof(one)) < 0 && errno != EAGAIN &&
	    errno != EINTR)
		note(BAD_LOG_EVENT);
}

/* ---- chains, by workers */

/* Copies the next bytes of a request until `most` bytes are copied, and advances `at` and `len` past them.
 * `most` must not exceed LONGEST, so the bytes fit. */
static void copy_up_to(struct worker *w, size_t most, const unsigned char **at, size_t *len)
{
	size_t n = w->copied < most ? most - w->copied : 0;

	n = n < *len ? n : *len;
	memcpy(w->request + w->copied, *at, n);
	w->copied += n;
	*at += n;
	*len -= n;
}

/* Adds bytes of a request. All are copied, except the data of a WRITE if these stay in the guest's memory.
 * The opcode is taken from the copy, so that a guest cannot change it afterwards. Returns -1 if the request
 * has too many pieces. */
static int add_request(struct worker *w, const unsigned char *at, size_t len)
{
	uint32_t opcode = 0;

	w->len += len;
	if (machine->writes_in_place) {
		if (w->copied < OPCODE_END)
			copy_up_to(w, OPCODE_END, &at, &len);
		if (w->copied >= OPCODE_END)
			memcpy(&opcode, w->request + OPCODE_END - sizeof(opcode), sizeof(opcode));
	}
	copy_up_to(w, opcode == OPCODE_WRITE ? WRITE_HEAD : LONGEST, &at, &len);
	w->segment[0].iov_len = w->copied;
	if (!len)
		return 0;
	if (w->segments > PIECES)
		return -1;
	w->segment[w->segments++] = (struct iovec){ (void *)(uintptr_t)at, len };
	return 0;
}

/* Adds a piece of the guest's memory to the chain, and ignores bytes after the longest request or reply
 * buffer. Returns -1 if there are too many pieces. */
static int add_piece(struct worker *w, unsigned char *at, const nizwarf_piece *piece)
{
	const size_t left = LONGEST - (piece->writable ? w->room_len : w->len);
	const size_t len = piece->len < left ? piece->len : left;

	if (!piece->writable)
		return add_request(w, at, len);
	if (w->rooms == PIECES)
		return -1;
	w->room[w->rooms++] = (struct iovec){ (void *)(uintptr_t)at, len };
	w->room_len += len;
	return 0;
}

/* Reads the chain that begins at the descriptor `head`: the pieces of the request come first, then those of
 * the reply buffer. Returns -1 if it is invalid. A descriptor has two words of 8 bytes. The walk limits the
 * number of descriptors, so it also ends for a cycle. */
static int take_chain(struct worker *w, const struct guest *g, const struct queue *q, uint16_t head)
{
	const unsigned char *table = q->descriptors;
	uint64_t word[sizeof(struct vring_desc) / sizeof(uint64_t)];
	unsigned char *at;
	nizwarf_walk walk;
	nizwarf_piece piece;
	int step;

	w->len = w->copied = w->rooms = w->room_len = 0;
	w->places = 0;
	w->segments = 1;
	w->segment[0] = (struct iovec){ w->request, 0 };
	if (nizwarf_chain_begin_at(q->size, PIECES, head, &walk) != NIZWARF_CHAIN_MORE)
		return -1;
	do {
		w->places += table == q->descriptors;
		memcpy(word, table + (size_t)walk.at * sizeof(word), sizeof(word));
		/* The copy must be checked, so the compiler must not read the guest's memory again. */
		__atomic_signal_fence(__ATOMIC_SEQ_CST);
		step = nizwarf_chain_step_at(&walk, word[0], word[1], g->shared, g->regions, &piece);
		if (step > NIZWARF_CHAIN_TABLE)
			return -1;
		/* A piece, or an indirect table, lies completely in this region. */
		at = g->region[piece.region].at + piece.offset;
		if (step == NIZWARF_CHAIN_TABLE)
			table = at;
		else if (add_piece(w, at, &piece))
			return -1;
	} while (step != NIZWARF_CHAIN_LAST);
	return 0;
}

/* The data of a chain whose request is completed later: its queue, its head, and its reply buffer, as the
 * memory was mapped when the chain was taken. A request whose reply buffer has more than KEPT_ROOMS pieces
 * cannot be kept, so that these data have a fixed size. */
enum { KEPT_ROOMS = 8 };
struct kept {
	struct queue *q;
	uint16_t head;
	size_t rooms;
	struct iovec room[KEPT_ROOMS];
};

/* A late reply, in a list of its queue. send_kept() allocates it, and the thread that completes or drops the
 * chain frees it. */
struct late {
	struct late *next;
	struct kept kept;
	int32_t code;
	size_t len;
	unsigned char reply[];
};

/* Queues a late reply for a worker, which copies it into the guest's memory. Without memory for the reply the
 * request is completed as a rejected one, because the guest would wait for ever otherwise. Any thread may
 * call this, by nizwarf_request_complete(), so it does not hold `in_flight` and must not access the guest's
 * memory. */
static void send_kept(void *about, int32_t code, const void *reply, size_t len)
{
	const struct kept *kept = about;
	struct late *late = malloc(sizeof(*late) + len);

	if (!late) {
		code = NIZWARF_OUT_OF_MEMORY;
		len = 0;
	}
	while (!late && !(late = malloc(sizeof(*late))))
		sched_yield();
	late->kept = *kept;
	late->code = code;
	late->len = len;
	if (len)
		memcpy(late->reply, reply, len);
	pthread_mutex_lock(&kept->q->lock);
	late->next = kept->q->late;
	__atomic_store_n(&kept->q->late, late, __ATOMIC_RELAXED);
	pthread_mutex_unlock(&kept->q->lock);
	queue_look(kept->q);
}

/* The number belongs to the guest, so it does not change when the front end disconnects. */
unsigned vhost_user_client(void)
{
	return this_worker ? atomic_load(&this_worker->serves)->client : 0;
}

/* Passes a chain to `serve`, which may keep the request if it can be recalled. Returns whether it was kept:
 * it may then be completed already, and the worker may take the next chain. nizwarf_request_keep() copies
 * `kept`, so that may be on the stack. Kept requests may use at most half of the queue, because they may wait
 * for another request, such as one that releases a lock, which needs a place too. */
static int ask(struct worker *w, struct guest *g, struct queue *q, uint16_t head, int32_t *code, size_t *len)
{
	struct kept kept;
	struct later_source source = { .list = &g->later,
				       .send = send_kept,
				       .about = &kept,
				       .size = sizeof(kept),
				       .taken = &q->taken,
				       .places = w->places,
				       .most_places = q->size / 2 };
	const int can_keep = machine->recall && w->rooms <= KEPT_ROOMS;

	if (can_keep) {
		kept.q = q;
		kept.head = head;
		kept.rooms = w->rooms;
		memcpy(kept.room, w->room, w->rooms * sizeof(*w->room));
	}
	later_serve(can_keep ? &source : NULL);
	*code = by->serve(by->user, w->number, w->segment, w->segments, w->room, w->rooms, len);
	later_serve(NULL);
	return later_keeps(&source, *code);
}

/* Serves the chain, and returns the length that completes it, or -1 if it is completed later. The length is 0
 * for a rejected request, and for one without a reply, such as FORGET, INTERRUPT and DESTROY. These must be
 * completed too, and also an invalid chain, because the guest would wait for ever otherwise. */
static int64_t answer(struct worker *w, struct guest *g, struct queue *q, uint16_t head)
{
	size_t len = 0;
	int32_t code;

	if (take_chain(w, g, q, head)) {
		note(BAD_CHAIN);
		return 0;
	}
	/* Reading a guest's memory may take as long as its front end wants. A front end that has disconnected
	 * meanwhile needs no reply. */
	if (atomic_load(&g->gone))
		return 0;
	transport_withhold(by, w->request, w->copied);
	if (ask(w, g, q, head, &code, &len))
		return -1;
	outcomes[code >= 0 && code < OUTCOMES ? code : 0]++;
	return (int64_t)len;
}

/* Wakes a worker for this queue, unless one was woken that has not looked at it yet. Each queue must have an
 * event of its own: the edges of a shared one would merge, so that a worker could be busy with one queue
 * while others wait and workers sleep. A queue without an event was never kicked, so it has no chains. Any
 * thread may call this. */
void queue_look(struct queue *q)
{
	if (q->look >= 0 && !atomic_exchange(&q->is_woken, 1))
		tell(q->look);
}

/* Returns how many chains wait, by the `idx` of the available ring, which the guest may have set to any
 * value, or -1 if these are more than possible. */
static int32_t count_waiting(const struct queue *q)
{
	return nizwarf_ring_waiting_at(__atomic_load_n(&q->available->idx, __ATOMIC_SEQ_CST), q->next,
				       q->size);
}

/* Enables the kick for the next chain by `avail_event`, which follows the last entry of the used ring, and
 * counts the waiting chains again. The guest writes its index before it reads this one, so at least one side
 * sees the other's write. Without VIRTIO_RING_F_EVENT_IDX it returns 0: the guest then kicks for each chain,
 * because no flag of the used ring is ever set here. */
static int32_t await_kick(const struct guest *g, struct queue *q)
{
	if (!q->has_events)
		return 0;
	__atomic_store_n((uint16_t *)(q->used->ring + q->size), q->next, __ATOMIC_SEQ_CST);
	if (g->logs)
		mark_used(g, q, q->used->ring + q->size, sizeof(q->next));
	return count_waiting(q);
}

/* Disables kicks until await_kick() is called, by an index that has passed, with VIRTIO_RING_F_EVENT_IDX. The
 * caller must look at the queue again before it sleeps, because a chain that arrives meanwhile wakes nobody.
 * The lock of the queue must be held. */
static void hold_kicks(const struct guest *g, struct queue *q)
{
	if (!q->has_events)
		return;
	__atomic_store_n((uint16_t *)(q->used->ring + q->size), (uint16_t)(q->next - 1), __ATOMIC_RELAXED);
	if (g->logs)
		mark_used(g, q, q->used->ring + q->size, sizeof(q->next));
}

/* Results other than a chain: none waits; a message or a late reply must be handled before the next chain; or
 * the rings are invalid. */
enum { NO_CHAIN = -1, NOT_YET = -2, INVALID = -3 };

/* Takes the number of the next chain. Returns NO_CHAIN if the queue is disabled, or stopped because it has no
 * kick. A queue whose rings are invalid is stopped until a message sets them again. The lock of the queue
 * must be held. */
static int take_head(const struct guest *g, struct queue *q)
{
	int32_t waiting;
	uint16_t head;

	if (!q->available || !q->enabled || q->kick < 0)
		return NO_CHAIN;
	waiting = count_waiting(q);
	if (!waiting)
		waiting = await_kick(g, q);
	if (!waiting)
		return NO_CHAIN;
	FROM_GUEST();
	head = __atomic_load_n(&q->available->ring[nizwarf_ring_slot_at(q->next, q->size)], __ATOMIC_RELAXED);
	if (waiting < 0 || head >= q->size) {
		q->available = NULL;
		return INVALID;
	}
	q->next++;
	/* This request may take long, so another worker should serve the next chain. */
	if (by->workers > 1 && (await_kick(g, q) || waiting > 1))
		queue_look(q);
	return head;
}

/* Whether the guest must be notified of the chain that was completed last: by the flag
 * VRING_AVAIL_F_NO_INTERRUPT, or by `used_event`, which follows the last entry of the available ring. A guest
 * that sets these incorrectly only delays itself. The lock of the queue must be held. */
static int wants_call(struct queue *q)
{
	if (!q->calls)
		return 0;
	if (!q->has_events)
		return !(__atomic_load_n(&q->available->flags, __ATOMIC_SEQ_CST) &
			 VRING_AVAIL_F_NO_INTERRUPT);
	if (q->calls_anyway) {
		q->calls_anyway = 0;
		return 1;
	}
	return (int)nizwarf_ring_needs_event_at(
		__atomic_load_n(&q->available->ring[q->size], __ATOMIC_SEQ_CST), q->done,
		(uint16_t)(q->done - 1));
}

/* Completes a chain with `len` bytes of its reply buffer. The entry must be written before the index, which
 * makes it valid. Returns whether the guest must be notified. Does nothing if the queue is stopped. The lock
 * of the queue must be held. */
static int complete(const struct guest *g, struct queue *q, uint16_t head, uint32_t len)
{
	if (!q->available)
		return 0;
	q->used->ring[nizwarf_ring_slot_at(q->done, q->size)] = (struct vring_used_elem){ head, len };
	q->done++;
	TO_GUEST();
	/* The guest sets its flag or index before it reads this index, so at least one side sees the other's
	 * write. */
	__atomic_store_n(&q->used->idx, q->done, __ATOMIC_SEQ_CST);
	if (g->logs)
		mark_given(g, q);
	return wants_call(q);
}

/* Notifies the guest of completed chains. The write blocks if the event is full and the front end has cleared
 * O_NONBLOCK, which it can because it shares the open file; the worker is then interrupted after the front
 * end has disconnected. So the lock of the queue must not be held, but `in_flight` must be, so that nobody
 * closes the descriptor. After another error the guest is no longer notified. */
static void call_guest(struct queue *q)
{
	const uint64_t one = 1;

	if (write(q->call, &one, sizeof(one)) >= 0 || errno == EAGAIN || errno == EINTR)
		return;
	note(BAD_CALL);
	pthread_mutex_lock(&q->lock);
	q->calls = 0;
	pthread_mutex_unlock(&q->lock);
}

/* Whether there is a late reply. A stale result is harmless, because the thread that has queued the reply
 * wakes a worker afterwards. */
static int has_late(struct queue *q)
{
	return __atomic_load_n(&q->late, __ATOMIC_RELAXED) != NULL;
}

/* Takes the next late reply, which the caller must free, or returns NULL. */
static struct late *take_late(struct queue *q)
{
	struct late *late;

	pthread_mutex_lock(&q->lock);
	late = q->late;
	if (late)
		__atomic_store_n(&q->late, late->next, __ATOMIC_RELAXED);
	pthread_mutex_unlock(&q->lock);
	return late;
}

/* Completes the chain of a late reply, if there is one, and returns whether there was. A reply that is longer
 * than the reply buffer is truncated. Bytes must be marked after they are written, and the chain must be
 * completed after both, so that a machine that migrates has all data that its guest was notified of. */
static int serve_late(struct guest *g, struct queue *q)
{
	struct late *late = take_late(q);
	size_t put = 0, i;
	int calls;

	if (!late)
		return 0;
	for (i = 0; i < late->kept.rooms && put < late->len; i++) {
		const struct iovec *room = &late->kept.room[i];
		const size_t part = late->len - put < room->iov_len ? late->len - put : room->iov_len;

		memcpy(room->iov_base, late->reply + put, part);
		put += part;
	}
	outcomes[late->code >= 0 && late->code < OUTCOMES ? late->code : 0]++;
	mark_rooms(g, late->kept.room, late->kept.rooms);
	pthread_mutex_lock(&q->lock);
	calls = !atomic_load(&g->gone) && complete(g, q, late->kept.head, (uint32_t)put);
	pthread_mutex_unlock(&q->lock);
	tell_log(g);
	if (calls)
		call_guest(q);
	free(late);
	return 1;
}

/* Takes the next chain and returns its number, or why there is none. Nothing is taken after the front end has
 * disconnected. The lock of the queue must be held. */
static int take_next(const struct guest *g, struct queue *q)
{
	if (atomic_load(&g->gone))
		return NO_CHAIN;
	return atomic_load(&g->wanted) || has_late(q) ? NOT_YET : take_head(g, q);
}

/* Completes the chain `head`, unless that is negative, and takes the next one. Returns its number, or why
 * there is none. If a chain waits already, it is taken under the same lock. Otherwise the guest is notified
 * before the queue is checked again: that takes about as long as a guest with one request in flight needs for
 * the next one. This then needs no kick, and the worker does not fall asleep only to be woken at once. After
 * the front end has disconnected nothing is completed. */
static int next_chain(struct guest *g, struct queue *q, int head, int64_t len)
{
	int calls, calls_first, next = NO_CHAIN;

	pthread_mutex_lock(&q->lock);
	calls = head >= 0 && !atomic_load(&g->gone) && complete(g, q, (uint16_t)head, (uint32_t)len);
	calls_first = calls && !count_waiting(q);
	if (calls_first)
		hold_kicks(g, q);
	else
		next = take_next(g, q);
	pthread_mutex_unlock(&q->lock);
	if (head >= 0)
		tell_log(g);
	if (calls)
		call_guest(q);
	if (calls_first) {
		pthread_mutex_lock(&q->lock);
		next = take_next(g, q);
		pthread_mutex_unlock(&q->lock);
		tell_log(g);
	}
	note(next == INVALID ? BAD_QUEUE : NO_FAULT);
	return next;
}

/* Serves the chains of a queue until none is left, or something else must be done first. Returns whether the
 * latter is the case. The caller must hold `in_flight` and no other lock, because a request may take any
 * time. */
static int serve_chains(struct worker *w, struct guest *g, struct queue *q)
{
	int head = NO_CHAIN;
	int64_t len = 0;

	for (;;) {
		head = next_chain(g, q, head, len);
		if (head < 0)
			return head == NOT_YET;
		len = answer(w, g, q, (uint16_t)head);
		if (len < 0)
			head = NO_CHAIN;
		else
			mark_rooms(g, w->room, w->rooms);
	}
}

/* Returns the current guest with an additional user. It stays valid until put_guest(), even if its front end
 * disconnects. */
static struct guest *take_guest(void)
{
	struct guest *g;

	pthread_mutex_lock(&guests);
	g = vhost_guest;
	g->users++;
	pthread_mutex_unlock(&guests);
	return g;
}

static void drop_late(struct guest *g)
{
	struct late *late;

	for (int i = 0; i < QUEUES; i++)
		while ((late = take_late(&g->queue[i])))
			free(late);
}

/* Drops a user of a guest. The last one frees the guest, with the memory and the descriptors that the front
 * end has shared. No other thread can have it then, so this needs no lock. */
static void put_guest(struct guest *g)
{
	unsigned users;

	pthread_mutex_lock(&guests);
	users = --g->users;
	pthread_mutex_unlock(&guests);
	if (users)
		return;
	later_end(&g->later, LATER_ALL);
	drop_late(g);
	guest_unshare(g);
	guest_end_log(g);
	for (int i = 0; i < QUEUES; i++) {
		struct queue *q = &g->queue[i];

		if (q->kick >= 0)
			close(q->kick);
		if (q->call >= 0)
			close(q->call);
		queue_end_look(q);
		pthread_mutex_destroy(&q->lock);
	}
	pthread_rwlock_destroy(&g->in_flight);
	free(g);
}

/* Serves the chains of a queue. If the calling thread waits for `in_flight`, the worker releases it, and
 * takes it again afterwards. */
static void serve_queue(struct worker *w, uint32_t number)
{
	struct guest *g = take_guest();
	struct queue *q = &g->queue[number];
	int more;

	atomic_store(&w->serves, g);
	/* This must come first: a thread that wants this queue served from here on either wakes another
	 * worker, or this one sees its chain. */
	atomic_store(&q->is_woken, 0);
	do {
		pthread_rwlock_rdlock(&g->in_flight);
		while (has_late(q) && serve_late(g, q))
			;
		more = serve_chains(w, g, q);
		pthread_rwlock_unlock(&g->in_flight);
	} while (more);
	atomic_store(&w->serves, NULL);
	put_guest(g);
}

/* The thread of a worker. It ends after the event `stop`, which stays readable for the others, or when it
 * fails, and then writes the event `over`. If `begin` fails, `end` must not be called. */
static void *run(void *given)
{
	struct worker *w = given;
	struct epoll_event event;

	this_worker = w;
	if (by->begin && by->begin(by->user, w->number)) {
		tell(over);
		return NULL;
	}
	for (;;) {
		const int got = epoll_wait(events, &event, 1, -1);

		if (got < 0 && errno == EINTR)
			continue;
		if (got < 0) {
			failed("wait for events");
			tell(over);
			break;
		}
		if (event.data.u32 == STOP)
			break;
		serve_queue(w, event.data.u32);
	}
	if (by->end)
		by->end(by->user, w->number);
	return NULL;
}

/* The handler of SIGBUS, which comes if a front end truncates the file of its memory. It maps zeros in place
 * of the region, so that the worker can continue until the front end is disconnected. The new mapping has the
 * same place and length, so that it can be unmapped like the region. The handler may call only
 * async-signal-safe functions. A fault at any other address, or in a thread that serves no guest, is a bug of
 * the program. */
static void lose_memory(int number, siginfo_t *about, void *context)
{
	const uintptr_t at = (uintptr_t)about->si_addr;
	const struct guest *g = this_worker ? atomic_load(&this_worker->serves) : NULL;
	/* The interrupted code may be about to read errno. */
	const int kept = errno;

	(void)context;
	/* The log follows the regions. */
	for (size_t i = 0; g && i <= g->regions; i++) {
		unsigned char *map = i < g->regions ? g->region[i].map : g->log.map;
		const size_t mapped = i < g->regions ? g->region[i].mapped : g->log.mapped;
		const uintptr_t from = (uintptr_t)map;

		if (at < from || at - from >= mapped)
			continue;
		/* This is a direct system call, because a sanitizer regards mmap() as a write to memory that
		 * another worker reads. */
		if (syscall(SYS_mmap, map, mapped, PROT_READ | PROT_WRITE,
			    MAP_PRIVATE | MAP_ANONYMOUS | MAP_NORESERVE | MAP_FIXED, -1, 0) == -1)
			break;
		if (!atomic_load(&g->gone))
			tell(lost);
		errno = kept;
		return;
	}
	/* The fault is repeated, and ends the process. */
	signal(number, SIG_DFL);
}

/* ---- queues and workers, by the calling thread */

/* Returns the pointer to a ring, whose address in the front end is that of SET_VRING_ADDR, or NULL if it is
 * not in one region or not aligned. The address itself is aligned, but a region may begin anywhere in a
 * page. */
static void *ring_at(uint64_t address, uint64_t len, uintptr_t align)
{
	unsigned char *at;
	struct vhost_place place;

	if (nizwarf_vhost_user_at(vhost_guest->vhost_regions, vhost_guest->regions, address, len, &place))
		return NULL;
	at = vhost_guest->region[place.region].at + place.offset;
	return (uintptr_t)at % align == 0 ? at : NULL;
}

/* An available ring has two fields of 2 bytes and an entry of 2 bytes for each chain, a used ring the same
 * fields and entries of 8 bytes. With VIRTIO_RING_F_EVENT_IDX each has 2 more bytes at its end. If
 * `available` is NULL, no chain is taken. */
void queue_place(struct queue *q)
{
	const uint64_t size = q->size, event = q->has_events ? sizeof(uint16_t) : 0;

	q->descriptors =
		ring_at(q->descriptors_user, size * sizeof(struct vring_desc), VRING_DESC_ALIGN_SIZE);
	q->available = ring_at(q->available_user, 4 + 2 * size + event, VRING_AVAIL_ALIGN_SIZE);
	q->used = ring_at(q->used_user, 4 + 8 * size + event, VRING_USED_ALIGN_SIZE);
	if (!size || !q->descriptors || !q->available || !q->used)
		q->available = NULL;
}

/* The caller must hold `in_flight` for writing, so that no worker writes to the old descriptor. */
void queue_call(struct queue *q, int fd)
{
	if (q->call >= 0)
		close(q->call);
	q->call = fd;
	q->calls = fd >= 0;
	/* The guest was not notified of chains that were completed meanwhile. */
	q->calls_anyway = 1;
	if (fd >= 0)
		fcntl(fd, F_SETFL, O_NONBLOCK);
}

/* Adds an event of a queue to those that wake workers. Each write to it is an edge of its own and wakes a
 * worker, so it need not be read. Returns -1 with errno on failure. */
static int await_event(const struct queue *q, int fd)
{
	struct epoll_event event = { .events = EPOLLIN | EPOLLET,
				     .data.u32 = (uint32_t)(q - vhost_guest->queue) };

	return epoll_ctl(events, EPOLL_CTL_ADD, fd, &event);
}

/* Makes the event of a queue. It stays until the front end disconnects, because late replies may come after
 * the kick was removed. Returns -1 with errno on failure. */
static int begin_look(struct queue *q)
{
	const int event = eventfd(0, EFD_CLOEXEC | EFD_NONBLOCK);

	if (event < 0)
		return -1;
	if (await_event(q, event)) {
		close(event);
		return -1;
	}
	q->look = event;
	return 0;
}

/* No request of the queue is kept any more, so no thread will write to the event. It may be closed before a
 * worker has handled it, so the queue must not count as woken. */
void queue_end_look(struct queue *q)
{
	if (q->look >= 0)
		close(q->look);
	q->look = -1;
	atomic_store(&q->is_woken, 0);
}

/* A front end that kicks continuously only makes a worker look at an empty queue. A descriptor that epoll
 * does not support, such as a regular file, is rejected. */
int queue_kick(struct queue *q, int fd)
{
	if (q->kick >= 0) {
		epoll_ctl(events, EPOLL_CTL_DEL, q->kick, NULL);
		close(q->kick);
	}
	q->kick = fd;
	if (fd < 0)
		return 0;
	fcntl(fd, F_SETFL, O_NONBLOCK);
	return (q->look < 0 && begin_look(q)) || await_event(q, fd) ? -1 : 0;
}

/* Returns the time after this number of milliseconds. */
static struct timespec after(int milliseconds, clockid_t clock)
{
	struct timespec time;

	clock_gettime(clock, &time);
	time.tv_nsec += (long)milliseconds * 1000000;
	time.tv_sec += time.tv_nsec / 1000000000;
	time.tv_nsec %= 1000000000;
	return time;
}

static int has_passed(const struct timespec *time)
{
	const struct timespec now = after(0, CLOCK_MONOTONIC);

	return now.tv_sec > time->tv_sec || (now.tv_sec == time->tv_sec && now.tv_nsec > time->tv_nsec);
}

/* Waits a limited time until no request is in flight, and takes `in_flight` for writing. Returns 0, or an
 * error number if it was not taken. (pthread_rwlock_timedwrlock() uses CLOCK_REALTIME.) */
static int try_hold(int milliseconds)
{
	const struct timespec most = after(milliseconds, CLOCK_REALTIME);
	int late;

	atomic_store(&vhost_guest->wanted, 1);
	late = pthread_rwlock_timedwrlock(&vhost_guest->in_flight, &most);
	atomic_store(&vhost_guest->wanted, 0);
	return late;
}

/* While this waits for the lock, no worker takes a chain. So it pauses in between, and a request that takes
 * long delays the others for only a part of the time. After -1 the caller must disconnect the front end. */
int queues_hold(int signals, int client)
{
	struct pollfd wait[] = { { signals, POLLIN, 0 }, { client, POLLRDHUP, 0 } };

	while (try_hold(HOLD))
		if (poll(wait, 2, REST) > 0)
			return -1;
	return 0;
}

void queues_go(void)
{
	pthread_rwlock_unlock(&vhost_guest->in_flight);
}

/* Makes workers look at each queue with a late reply. Returns whether there is one. */
static int look_at_late(struct guest *g)
{
	int any = 0;

	for (int i = 0; i < QUEUES; i++) {
		if (has_late(&g->queue[i])) {
			queue_look(&g->queue[i]);
			any = 1;
		}
	}
	return any;
}

/* A late reply is copied into memory as that was mapped when its request was taken. So workers must complete
 * all of them before the mapping may change. No more come after queues_recall(). Busy workers may not have
 * looked yet, so this repeats. Returns -1 also if a worker has failed. */
int queues_hold_answered(int signals, int client)
{
	struct pollfd wait[] = { { signals, POLLIN, 0 }, { client, POLLRDHUP, 0 }, { over, POLLIN, 0 } };

	while (!queues_hold(signals, client)) {
		if (!look_at_late(vhost_guest))
			return 0;
		queues_go();
		if (poll(wait, 3, REST) > 0)
			return -1;
	}
	return -1;
}

/* No worker may use the memory: the caller must hold `in_flight` for writing, or be the last user. */
void guest_unshare(struct guest *g)
{
	while (g->regions > 0) {
		g->regions--;
		if (munmap(g->region[g->regions].map, g->region[g->regions].mapped))
			failed("unmap a memory region");
	}
}

void guest_unmap_log(struct guest *g)
{
	if (g->log.at && munmap(g->log.map, g->log.mapped))
		failed("unmap the dirty log");
	g->log.at = g->log.map = NULL;
	g->log.mapped = 0;
}

void guest_end_log(struct guest *g)
{
	guest_unmap_log(g);
	if (g->log.event >= 0)
		close(g->log.event);
	g->log = (struct log){ .event = -1 };
	g->logs = 0;
}

int queues_over(void)
{
	return over;
}

int queues_lost(void)
{
	return lost;
}

void queues_tell(void)
{
	unsigned long count;

	for (int i = 0; i < OUTCOMES; i++) {
		count = atomic_exchange(&outcomes[i], 0);
		if (!count || machine->quiet)
			continue;
		if (i == NIZWARF_OK)
			transport_say(by->program, "%lu requests served", count);
		else
			transport_say(by->program, "%lu requests malformed or failed: code %d of nizwarf.h",
				      count, i);
	}
	for (int i = 0; i < FAULTS; i++) {
		count = atomic_exchange(&faults[i], 0);
		if (count && !machine->quiet)
			transport_say(by->program, "%lu %s", count, fault_names[i]);
	}
}

/* Allocates the guest of the next front end, with the calling thread as its user. Returns NULL if out of
 * memory. `in_flight` must prefer writers, because workers that take turns could otherwise keep the calling
 * thread out for ever. */
static struct guest *new_guest(void)
{
	struct guest *g = calloc(1, sizeof(*g));
	pthread_rwlockattr_t writer_first;

	if (!g)
		return NULL;
	g->users = 1;
	g->log.event = -1;
	pthread_rwlockattr_init(&writer_first);
	pthread_rwlockattr_setkind_np(&writer_first, PTHREAD_RWLOCK_PREFER_WRITER_NONRECURSIVE_NP);
	pthread_rwlock_init(&g->in_flight, &writer_first);
	for (int i = 0; i < QUEUES; i++) {
		pthread_mutex_init(&g->queue[i].lock, NULL);
		g->queue[i].kick = g->queue[i].call = g->queue[i].look = -1;
	}
	return g;
}

/* The handler of SIGRTMIN does nothing. Because it is installed without SA_RESTART, a call that blocks fails
 * with EINTR. */
static void interrupted(int number)
{
	(void)number;
}

/* Makes the events. The event `stop` is never read, so it wakes all workers. Returns -1 after printing an
 * error; queues_end() closes the events that were made. */
static int make_events(void)
{
	struct epoll_event stops = { .events = EPOLLIN, .data.u32 = STOP };
	const struct sigaction loses = { .sa_sigaction = lose_memory, .sa_flags = SA_SIGINFO };
	const struct sigaction interrupts = { .sa_handler = interrupted };

	sigaction(SIGBUS, &loses, NULL);
	sigaction(SIGRTMIN, &interrupts, NULL);
	vhost_guest = new_guest();
	events = epoll_create1(EPOLL_CLOEXEC);
	stop = eventfd(0, EFD_CLOEXEC | EFD_NONBLOCK);
	over = eventfd(0, EFD_CLOEXEC | EFD_NONBLOCK);
	lost = eventfd(0, EFD_CLOEXEC | EFD_NONBLOCK);
	if (!vhost_guest || events < 0 || stop < 0 || over < 0 || lost < 0 ||
	    epoll_ctl(events, EPOLL_CTL_ADD, stop, &stops))
		return failed("set up the queues");
	return 0;
}

/* Starts the next worker, whose number is how many there were before. Returns -1 after printing an error. */
static int start_worker(void)
{
	struct worker *w = calloc(1, sizeof(*w));

	errno = ENOMEM;
	if (w)
		w->number = started;
	if (!w || (errno = pthread_create(&w->thread, NULL, run, w))) {
		free(w);
		return failed("start a worker");
	}
	workers[started++] = w;
	return 0;
}

int queues_begin(const nizwarf_transport *with)
{
	by = with;
	machine = transport_machine(with);
	if (make_events())
		return -1;
	while (started < by->workers && started < NIZWARF_MAX_WORKERS)
		if (start_worker())
			return -1;
	return 0;
}

/* Interrupts requests that take long, such as a blocked system call or a write to the front end's event,
 * which then fail with EINTR. A worker that was only about to block is interrupted by the next call, because
 * this is repeated until all have returned. */
static void interrupt(void)
{
	for (unsigned i = 0; i < started; i++)
		if (workers[i] && atomic_load(&workers[i]->serves))
			pthread_kill(workers[i]->thread, SIGRTMIN);
}

/* Joins finished workers, and returns how many are still running. */
static unsigned join_workers(void)
{
	unsigned left = 0;

	for (unsigned i = 0; i < started; i++) {
		if (workers[i] && pthread_tryjoin_np(workers[i]->thread, NULL) == EBUSY) {
			left++;
			continue;
		}
		free(workers[i]);
		workers[i] = NULL;
	}
	return left;
}

/* Leaves the guest to the workers that still use it, and starts others in their place, up to the limit.
 * Returns 1, or -1 after printing an error. The last of these workers frees the guest. If some never return,
 * successive front ends may exhaust NIZWARF_MAX_WORKERS, and then fewer workers serve. */
static int leave_guest(void)
{
	struct guest *gone = vhost_guest, *next = new_guest();
	unsigned are_free = 0;

	if (!next)
		return failed("accept another front end");
	next->client = gone->client + 1;
	/* The kicks are closed with the guest, and must not wake workers until then. */
	for (int i = 0; i < QUEUES; i++)
		if (gone->queue[i].kick >= 0)
			epoll_ctl(events, EPOLL_CTL_DEL, gone->queue[i].kick, NULL);
	pthread_mutex_lock(&guests);
	vhost_guest = next;
	pthread_mutex_unlock(&guests);
	for (unsigned i = 0; i < started; i++) {
		const struct guest *served = atomic_load(&workers[i]->serves);

		are_free += !served || served == next;
	}
	put_guest(gone);
	while (are_free++ < by->workers && started < NIZWARF_MAX_WORKERS)
		if (start_worker())
			return -1;
	return 1;
}

/* Whether no request is kept and no late reply is left. Nothing more may be kept when it is called. The kept
 * requests must be checked first, because one becomes a late reply, but never vice versa. */
static int is_answered(struct guest *g)
{
	if (!later_is_empty(&g->later))
		return 0;
	for (int i = 0; i < QUEUES; i++)
		if (has_late(&g->queue[i]))
			return 0;
	return 1;
}

/* This is called without `in_flight`, so that workers can complete the requests. */
void queues_recall(void)
{
	const struct timespec most = after(MOST, CLOCK_MONOTONIC), pause = { 0, 1000000 };
	struct guest *g = vhost_guest;

	later_close(&g->later);
	while (machine->recall && !is_answered(g) && !has_passed(&most)) {
		machine->recall(by->user);
		nanosleep(&pause, NULL);
	}
	later_end(&g->later, LATER_ALL);
}

void queues_keep(void)
{
	later_open(&vhost_guest->later);
}

/* Once `gone` is set, no chain is taken or completed. If it returns 0, `in_flight` is held for writing, and
 * the same guest serves the next front end. */
int queues_part(int signals)
{
	const struct timespec interrupts = after(INTERRUPTS, CLOCK_MONOTONIC),
			      most = after(MOST, CLOCK_MONOTONIC);
	struct pollfd wait = { signals, POLLIN, 0 };

	atomic_store(&vhost_guest->gone, 1);
	later_end(&vhost_guest->later, LATER_ALL);
	while (try_hold(REST)) {
		if (has_passed(&interrupts))
			interrupt();
		if (poll(&wait, 1, 0) > 0 && has_passed(&interrupts))
			return -1;
		if (machine->has_spare && has_passed(&most))
			return leave_guest();
	}
	drop_late(vhost_guest);
	vhost_guest->client++;
	later_open(&vhost_guest->later);
	atomic_store(&vhost_guest->gone, 0);
	return 0;
}

/* The event `stop` is never read, so it wakes all workers. A blocked worker is interrupted repeatedly. After
 * -1 nothing is freed, because that worker may use it; the process must end then. */
int queues_end(void)
{
	const struct timespec interrupts = after(INTERRUPTS, CLOCK_MONOTONIC),
			      most = after(MOST, CLOCK_MONOTONIC);
	const struct timespec pause = { 0, REST * 1000000L };
	unsigned left = started;

	if (vhost_guest)
		atomic_store(&vhost_guest->gone, 1);
	tell(stop);
	while (left && !has_passed(&most)) {
		if (has_passed(&interrupts))
			interrupt();
		left = join_workers();
		if (left)
			nanosleep(&pause, NULL);
	}
	if (left)
		return -1;
	started = 0;
	if (vhost_guest)
		put_guest(vhost_guest);
	vhost_guest = NULL;
	close(events);
	close(stop);
	close(over);
	close(lost);
	return 0;
}
