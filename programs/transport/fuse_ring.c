/* Requests of /dev/fuse over io_uring: fuse_ring.h. Linux supports it since 6.14, if root has enabled it by
 * /sys/module/fuse/parameters/enable_uring.
 *
 * The kernel has a queue for each processor, with the requests that are made there. Each queue has workers
 * here. A worker has a ring and an entry, which is memory for one request and its reply, and it stays on the
 * processor of the queue. So client and worker run on the same processor, and no other one has to be woken.
 * The kernel uses the entry that was returned last, and so one worker of a queue, unless that has a request.
 *
 * A command passes an entry to the kernel, and completes once the kernel has put a request into it. The next
 * command returns the entry with the reply. One system call does this and waits for the next request.
 *
 * A request that is kept also keeps its entry, into which its reply is copied by the thread that completes
 * it. Because only its worker may use the ring, that thread wakes the worker by an event, and the worker
 * returns the entry. A worker without another entry makes one. But the kernel takes the requests that wait in
 * a queue only when an entry is returned, and gives none to a new entry. So the last worker of a queue begins
 * with as many additional entries as may be kept, and there is always an entry of the queue that is returned
 * without waiting.
 *
 * The kernel reads ahead for a client that reads large data, so that both have work at once. So a worker
 * leaves its processor while that happens on this processor only. */
#define _GNU_SOURCE
#include <errno.h>
#include <fcntl.h>
#include <pthread.h>
#include <sched.h>
#include <stdatomic.h>
#include <stdio.h>
#include <stdlib.h>
#include <sys/mman.h>
#include <sys/uio.h>
#include <time.h>
#include <unistd.h>
#include "fuse_ring.h"
#include "later.h"
#include "say.h"
#include "uring.h"

enum { REGISTER = 1, COMMIT_AND_FETCH = 2 };

/* The memory of an entry: the header of the request or of the reply, the record of the request, and the
 * description of the payload, which is in other memory. */
struct header {
	unsigned char in_out[128], record[128];
	uint64_t flags, commit;
	uint32_t payload;
	uint32_t padding;
	uint64_t reserved;
};

/* The fields of a command that are specific to FUSE, after the general ones. */
struct command {
	uint64_t flags, commit;
	uint16_t queue;
	uint8_t padding[6];
};
/* These are struct fuse_uring_req_header and struct fuse_uring_cmd_req of linux/fuse.h, which older headers
 * lack. */
_Static_assert(sizeof(struct header) == 288, "a header is as Linux has it");
_Static_assert(sizeof(struct command) == 24 && sizeof(struct command) <= URING_OWN,
	       "what a command has of its own is as Linux has it, and fits");

enum { PAGE = 4096, HEAD = sizeof(struct fuse_out_header) };
/* The number of bytes from which on data count as large (BULK), and by how many such requests must outnumber
 * the others before a worker leaves its processor (BULKS). */
enum { BULK = 1 << 16, BULKS = 8 };

/* A header, and one page after its beginning the payload. If the request is kept, the entry belongs to the
 * thread that completes it, and then, in a list, to the worker again. */
struct entry {
	struct worker *of;
	struct header *header;
	struct iovec memory[2];
	uint16_t queue;
	struct entry *next;
};

struct worker {
	struct fuse_rings *of;
	unsigned number, bulks;
	int roams, has_ended;
	pthread_t thread;
	struct uring ring;
	/* The largest number of entries, their current number, and the number of those whose requests are not
	 * kept. */
	unsigned most, count, left;
	struct entry *entries;
	/* The entries of kept requests that have a reply now. The thread that completes a request adds its
	 * entry, under the lock. */
	pthread_mutex_t lock;
	struct entry *completed;
};

struct fuse_rings {
	const nizwarf_transport *by;
	struct device *of;
	int device, over;
	unsigned queues, workers, started;
	/* The requests that are completed later, by queue. */
	struct later_list *later;
	/* Where a worker may run after it has left its processor. */
	cpu_set_t anywhere;
	atomic_int stop, failed;
	/* The last queue that had a request for large data. */
	atomic_uint bulky;
	/* Under the lock: the number of workers that are ready to begin, of those that have failed, and of
	 * last workers that have passed their entries to the kernel; and whether all may begin. Each change
	 * is signalled. */
	pthread_mutex_t lock;
	pthread_cond_t change;
	unsigned ready, broken, handed_over;
	int begun;
	struct worker worker[];
};

/* Prints an error and returns -1. io_uring returns errors as numbers, not by errno. */
static int say(const struct fuse_rings *r, int error)
{
	transport_say(r->by->program, "io_uring: %s", strerror(error));
	return -1;
}

/* Puts a command for an entry into the ring, which has a place for one command for each entry. */
static void put_command(struct worker *w, const struct entry *e, uint32_t what)
{
	const struct command own = { .commit = e->header->commit, .queue = e->queue };
	const int registers = what == REGISTER;

	uring_put(&w->ring, what, (uint64_t)(e - w->entries), registers ? e->memory : NULL,
		  registers ? sizeof(e->memory) / sizeof(*e->memory) : 0, &own, sizeof(own));
}

/* Moves a worker to the processors of its queues or, with `roams`, to the others, so that the clients have
 * the former. It uses only processors that the program may use, and all of them if none is left otherwise. */
static void roam(struct worker *w, int roams)
{
	const cpu_set_t *anywhere = &w->of->anywhere;
	cpu_set_t own, there;

	CPU_ZERO(&own);
	for (unsigned i = 0; i < w->count; i++)
		CPU_SET(w->entries[i].queue, &own);
	CPU_AND(&own, &own, anywhere);
	CPU_XOR(&there, &own, anywhere);
	if (!roams)
		there = own;
	sched_setaffinity(0, sizeof(there), CPU_COUNT(&there) ? &there : anywhere);
	w->roams = roams;
}

/* Counts requests for large data on this processor, as long as no other processor has any. If several have,
 * each has enough work. */
static void count_bulk(struct worker *w, const struct fuse_in_header *asked, size_t room)
{
	if (asked->opcode != FUSE_READ || room < BULK)
		w->bulks -= w->bulks > 0;
	else if (atomic_exchange(&w->of->bulky, w->entries->queue) != w->entries->queue)
		w->bulks = 0;
	else
		w->bulks += w->bulks < 2 * BULKS;
	if (w->roams ? !w->bulks : w->bulks >= BULKS)
		roam(w, !w->roams);
}

/* A copy of the request's data, for a request that is completed later. */
struct kept {
	struct entry *entry;
	struct fuse_in_header asked;
};

/* Completes such a request on any thread; its worker returns the entry. The kernel checks the reply, and
 * completes the request with an error if that is invalid. */
static void send_kept(void *about, int32_t code, const void *reply, size_t len)
{
	const struct kept *kept = about;
	struct entry *e = kept->entry;
	struct worker *w = e->of;
	struct fuse_out_header refused = { HEAD, -EIO, kept->asked.unique };

	if (code != NIZWARF_OK)
		fuse_device_refuse(w->of->by, &kept->asked, code, &refused);
	if (code != NIZWARF_OK || len < HEAD || len - HEAD > NIZWARF_MAX_PAYLOAD) {
		reply = &refused;
		len = HEAD;
	}
	memcpy(e->header->in_out, reply, HEAD);
	memcpy(e->memory[1].iov_base, (const unsigned char *)reply + HEAD, len - HEAD);
	e->header->payload = (uint32_t)(len - HEAD);
	pthread_mutex_lock(&w->lock);
	e->next = w->completed;
	w->completed = e;
	pthread_mutex_unlock(&w->lock);
	uring_tell(&w->ring);
}

/* Returns the entries of kept requests that have a reply now. */
static void hand_back(struct worker *w)
{
	struct entry *e;

	uring_clear(&w->ring);
	pthread_mutex_lock(&w->lock);
	e = w->completed;
	w->completed = NULL;
	pthread_mutex_unlock(&w->lock);
	for (; e; e = e->next) {
		put_command(w, e, COMMIT_AND_FETCH);
		w->left++;
	}
}

/* Passes a request to `serve`, with a reply buffer of two segments. Returns the length of the reply, or -1 if
 * the request is kept, and the entry with it. */
static ssize_t serve_request(struct worker *w, struct entry *e, const struct fuse_in_header *asked,
			     size_t record, struct fuse_out_header *reply)
{
	const struct kept kept = { e, *asked };
	struct later_source source = {
		.list = &w->of->later[e->queue], .send = send_kept, .about = &kept, .size = sizeof(kept)
	};
	unsigned char *payload = e->memory[1].iov_base, *front = payload - record - sizeof(*asked);
	const size_t wanted = fuse_device_room(asked, e->header->record, record) - HEAD;
	const struct iovec request = { front, sizeof(*asked) + record + e->header->payload };
	const struct iovec rooms[] = {
		{ reply, HEAD }, { payload, wanted < NIZWARF_MAX_PAYLOAD ? wanted : NIZWARF_MAX_PAYLOAD }
	};
	size_t len = 0;
	int32_t code;

	/* The page before the payload begins with the header of the entry, and has space for the request's
	 * header and record at its end. */
	memcpy(front, asked, sizeof(*asked));
	memcpy(front + sizeof(*asked), e->header->record, record);
	count_bulk(w, asked, rooms[1].iov_len);
	later_serve(&source);
	code = fuse_device_ask(w->of->of, w->number, &request, 1, rooms, 2, &len);
	later_serve(NULL);
	/* This must be checked before `code`, because the thread that completes the request may use the entry
	 * already. */
	if (source.is_kept)
		return -1;
	return (ssize_t)(code == NIZWARF_OK ? len : fuse_device_refuse(w->of->by, asked, code, reply));
}

/* Makes an entry of a queue, unless there are `most`. Returns 0, or -1. */
static int make_entry(struct worker *w, unsigned queue)
{
	struct entry *e = &w->entries[w->count];
	unsigned char *memory = MAP_FAILED;

	if (w->count < w->most)
		memory = mmap(NULL, PAGE + NIZWARF_MAX_PAYLOAD, PROT_READ | PROT_WRITE,
			      MAP_PRIVATE | MAP_ANONYMOUS | MAP_NORESERVE, -1, 0);
	if (memory == MAP_FAILED)
		return -1;
	e->of = w;
	e->header = (struct header *)(void *)memory;
	e->memory[0] = (struct iovec){ memory, sizeof(struct header) };
	e->memory[1] = (struct iovec){ memory + PAGE, NIZWARF_MAX_PAYLOAD };
	e->queue = (uint16_t)queue;
	w->count++;
	w->left++;
	return 0;
}

/* Makes another entry in place of one whose request is kept, if the worker has no other. Without memory for
 * it, other workers of the queue serve. */
static void replace(struct worker *w, unsigned queue)
{
	if (!--w->left && !make_entry(w, queue))
		put_command(w, &w->entries[w->count - 1], REGISTER);
}

/* Whether the reply to a request may be an error of earlier writes, which Linux reports once for each open
 * file. A synchronous WRITE may also have written its data. */
static int reports_once(const struct entry *e, const struct fuse_in_header *asked, size_t record)
{
	struct fuse_write_in written = { 0 };

	switch (asked->opcode) {
	case NIZWARF_FLUSH:
	case NIZWARF_FSYNC:
	case NIZWARF_FSYNCDIR:
	case NIZWARF_SYNCFS:
		return 1;
	case NIZWARF_WRITE:
		memcpy(&written, e->header->record, record < sizeof(written) ? record : sizeof(written));
		return (written.flags & O_DSYNC) != 0;
	default:
		return 0;
	}
}

/* Whether a request that failed with this error may succeed after the FORGETs that wait, because it lacks
 * space, a descriptor, or one more file that the client may know. If ENOSPC may be an error of earlier
 * writes, it must not be repeated: that would succeed although their data are lost. */
static int waits_for_forgets(const struct entry *e, const struct fuse_in_header *asked, size_t record,
			     int error)
{
	return error == EMFILE || error == ENFILE || (error == ENOSPC && !reports_once(e, asked, record));
}

/* Serves the request in an entry, or keeps both. Returns 0, or -1 after printing an error.
 *
 * The space of a removed file is free only after its FORGET, which comes by read(2), and a client that has
 * removed it relies on that. So FORGETs are read before the free space is reported, and before a request
 * fails for lack of space. */
static int answer(struct worker *w, struct entry *e)
{
	struct header *h = e->header;
	struct fuse_out_header reply = { 0 };
	struct fuse_in_header asked;
	size_t record;
	ssize_t len;

	memcpy(&asked, h->in_out, sizeof(asked));
	record = asked.len - sizeof(asked) - h->payload;
	if (asked.len < sizeof(asked) + h->payload || record > sizeof(h->record) ||
	    h->payload > NIZWARF_MAX_PAYLOAD)
		return say(w->of, EPROTO);
	if (asked.opcode == FUSE_STATFS)
		fuse_device_drain(w->of->of);
	len = serve_request(w, e, &asked, record, &reply);
	if (len == HEAD && waits_for_forgets(e, &asked, record, -reply.error)) {
		fuse_device_drain(w->of->of);
		len = serve_request(w, e, &asked, record, &reply);
	}
	if (len < 0) {
		replace(w, e->queue);
		return 0;
	}
	if (!len) {
		/* Without a reply the kernel would not get the entry back. */
		reply = (struct fuse_out_header){ .len = HEAD, .unique = asked.unique };
		len = HEAD;
	}
	memcpy(h->in_out, &reply, HEAD);
	h->payload = (uint32_t)(len - HEAD);
	put_command(w, e, COMMIT_AND_FETCH);
	return 0;
}

/* Whether this error means that the file system was unmounted, so that no more requests come. */
static int is_end(int error)
{
	return error == ENOTCONN || error == ECONNABORTED || error == ECANCELED;
}

/* Handles a completion of the event. Returns 0, or -1 after printing an error. */
static int take_event(struct worker *w, const struct io_uring_cqe *done)
{
	if (done->res < 0)
		return say(w->of, -done->res);
	hand_back(w);
	if (!(done->flags & IORING_CQE_F_MORE))
		uring_put_event(&w->ring);
	return 0;
}

/* Handles all completions. Returns 0, 1 if the file system was unmounted, or -1 after printing an error. */
static int answer_each(struct worker *w)
{
	struct io_uring_cqe done;

	while (uring_take(&w->ring, &done)) {
		if (done.user_data == URING_EVENT) {
			if (take_event(w, &done))
				return -1;
			continue;
		}
		if (done.res < 0)
			return is_end(-done.res) ? 1 : say(w->of, -done.res);
		if (answer(w, &w->entries[done.user_data]))
			return -1;
	}
	return 0;
}

/* Whether a worker is the last one of its queues, which has the additional entries for kept requests. */
static int is_last(const struct worker *w)
{
	return w->number + w->of->queues > w->of->workers;
}

/* Passes its entries to the kernel. The last workers must do so first: then the kernel prefers the entries of
 * the others, which have only one each. So no request is put into a second entry of a worker that is busy
 * with a long request, while others are free. */
static int hand_over(struct worker *w)
{
	struct fuse_rings *r = w->of;
	const unsigned last = r->queues < r->workers ? r->queues : r->workers;
	int error = 0;

	uring_put_event(&w->ring);
	for (unsigned i = 0; i < w->count; i++)
		put_command(w, &w->entries[i], REGISTER);
	if (is_last(w) && uring_enter(&w->ring, 0))
		error = errno;
	pthread_mutex_lock(&r->lock);
	r->handed_over += is_last(w);
	pthread_cond_broadcast(&r->change);
	while (!is_last(w) && r->handed_over < last && !atomic_load(&r->stop))
		pthread_cond_wait(&r->change, &r->lock);
	pthread_mutex_unlock(&r->lock);
	return error ? say(r, error) : 0;
}

/* Serves until the file system is unmounted or the worker must stop. Returns 0, or -1 after printing an
 * error. */
static int serve(struct worker *w)
{
	int over;

	roam(w, 0);
	over = hand_over(w);
	while (!over && !atomic_load(&w->of->stop)) {
		if (uring_enter(&w->ring, 1))
			return say(w->of, errno);
		over = answer_each(w);
	}
	return over < 0 ? -1 : 0;
}

/* Makes the entries of each queue of this worker. Returns 0, or -1. */
static int make_entries(struct worker *w)
{
	const struct fuse_rings *r = w->of;
	const unsigned first = (w->number - 1) % r->queues, kept = r->by->io_uring_kept;

	w->most = (r->queues / r->workers + 1) * (1 + kept);
	w->entries = calloc(w->most, sizeof(*w->entries));
	if (!w->entries)
		return -1;
	for (unsigned queue = first; queue < r->queues; queue += r->workers)
		for (unsigned i = 0; i < 1 + (is_last(w) ? kept : 0); i++)
			if (make_entry(w, queue))
				return -1;
	return 0;
}

static void free_worker(struct worker *w)
{
	/* The ring must be freed first, because the kernel may write into the entries until then. */
	uring_free(&w->ring);
	for (unsigned i = 0; i < w->count; i++)
		munmap(w->entries[i].header, PAGE + NIZWARF_MAX_PAYLOAD);
	free(w->entries);
	pthread_mutex_destroy(&w->lock);
}

/* Reports whether this worker is ready, and waits until all may begin. Returns whether this one must
 * serve. */
static int await_begin(struct worker *w, int is_ready)
{
	struct fuse_rings *r = w->of;
	int serves;

	pthread_mutex_lock(&r->lock);
	*(is_ready ? &r->ready : &r->broken) += 1;
	pthread_cond_broadcast(&r->change);
	while (!r->begun && !atomic_load(&r->stop))
		pthread_cond_wait(&r->change, &r->lock);
	serves = r->begun && is_ready;
	pthread_mutex_unlock(&r->lock);
	return serves;
}

/* Reports a fatal error to the thread that serves the device, which then ends all workers. */
static void fail(struct fuse_rings *r)
{
	const uint64_t one = 1;

	atomic_store(&r->failed, 1);
	if (write(r->over, &one, sizeof(one)) < 0)
		say(r, errno);
}

/* The thread of a worker. `end` must be called by the thread that has called `begin`, and only if that
 * succeeded. */
static void *run(void *given)
{
	struct worker *w = given;
	const nizwarf_transport *by = w->of->by;
	const int begun = !by->begin || !by->begin(by->user, w->number);

	if (await_begin(w, begun && !uring_begin(&w->ring)) && serve(w))
		fail(w->of);
	if (begun && by->end)
		by->end(by->user, w->number);
	return NULL;
}

/* Whether root has enabled io_uring for FUSE. Without the parameter it is assumed. */
static int may_be(void)
{
	FILE *file = fopen("/sys/module/fuse/parameters/enable_uring", "re");
	const int said = file ? getc(file) : 'Y';

	if (file)
		fclose(file);
	return said == 'Y';
}

/* Counts the possible processors as the kernel counts its queues. Returns 0 if it does not report them. */
unsigned fuse_ring_count(void)
{
	FILE *file = may_be() ? fopen("/sys/devices/system/cpu/possible", "re") : NULL;
	unsigned first, last, count = 0;
	int more = ',';

	while (file && more == ',' && fscanf(file, "%u", &first) == 1) {
		last = first;
		more = getc(file);
		if (more == '-' && fscanf(file, "%u", &last) == 1)
			more = getc(file);
		count += last - first + 1;
	}
	if (file)
		fclose(file);
	return count;
}

/* Joins all workers. A worker that does not return must not delay the others. */
static void join_each(struct fuse_rings *r)
{
	const struct timespec pause = { 0, 5000000 };
	unsigned left = r->started;

	for (; left; nanosleep(&pause, NULL))
		for (unsigned i = 0; i < r->started; i++) {
			struct worker *w = &r->worker[i];

			if (w->has_ended || !fuse_device_joins(w->thread))
				continue;
			w->has_ended = 1;
			left--;
		}
}

/* The order is required: first requests that are completed later, then the workers, then the memory that both
 * use. */
int fuse_ring_end(struct fuse_rings *r)
{
	int failed;

	/* Kept requests use their entries until then. */
	for (unsigned i = 0; i < r->queues; i++)
		later_end(&r->later[i], LATER_ALL);
	pthread_mutex_lock(&r->lock);
	atomic_store(&r->stop, 1);
	pthread_cond_broadcast(&r->change);
	pthread_mutex_unlock(&r->lock);
	for (unsigned i = 0; i < r->started; i++)
		uring_tell(&r->worker[i].ring);
	join_each(r);
	for (unsigned i = 0; i < r->workers; i++)
		free_worker(&r->worker[i]);
	failed = atomic_load(&r->failed);
	pthread_cond_destroy(&r->change);
	pthread_mutex_destroy(&r->lock);
	free(r->later);
	free(r);
	return failed;
}

static int make_each(struct fuse_rings *r)
{
	for (unsigned i = 0; i < r->workers; i++) {
		struct worker *w = &r->worker[i];

		if (make_entries(w) || uring_make(&w->ring, w->most, r->device))
			return -1;
	}
	return 0;
}

/* Each queue has as many workers as are wanted, or fewer to keep their total within the limit. The kernel has
 * a queue for each processor, and requires all of them to be served; so if there are more queues than
 * workers, a worker has several. */
unsigned fuse_ring_count_workers(const nizwarf_transport *by, unsigned queues)
{
	const unsigned most = NIZWARF_MAX_WORKERS - 1,
		       wanted = by->io_uring_workers ? by->io_uring_workers : 1;
	const unsigned fit = queues && queues < most ? most / queues : 1;

	return queues < most ? queues * (wanted < fit ? wanted : fit) : most;
}

static void set_out(struct fuse_rings *r, const nizwarf_transport *by, int device, unsigned queues)
{
	r->by = by;
	r->device = device;
	r->queues = queues;
	r->workers = fuse_ring_count_workers(by, queues);
	sched_getaffinity(0, sizeof(r->anywhere), &r->anywhere);
	pthread_mutex_init(&r->lock, NULL);
	pthread_cond_init(&r->change, NULL);
	for (unsigned i = 0; i < r->workers; i++) {
		struct worker *w = &r->worker[i];

		w->of = r;
		w->number = i + 1;
		w->ring.fd = w->ring.event = -1;
		pthread_mutex_init(&w->lock, NULL);
	}
	for (unsigned i = 0; i < queues; i++) {
		r->later[i].most = by->io_uring_kept;
		r->later[i].is_closed = !by->io_uring_kept;
	}
}

struct fuse_rings *fuse_ring_make(const nizwarf_transport *by, int device, unsigned queues)
{
	const size_t workers = fuse_ring_count_workers(by, queues);
	struct fuse_rings *r;

	if (!queues || queues > UINT16_MAX)
		return NULL;
	r = calloc(1, sizeof(*r) + workers * sizeof(*r->worker));
	if (r)
		r->later = calloc(queues, sizeof(*r->later));
	if (!r || !r->later) {
		free(r);
		return NULL;
	}
	set_out(r, by, device, queues);
	if (!make_each(r))
		return r;
	fuse_ring_end(r);
	return NULL;
}

/* Starts all workers, and waits until they are ready. Returns whether all are. */
static int start_each(struct fuse_rings *r)
{
	int are_ready;

	for (; r->started < r->workers; r->started++) {
		struct worker *w = &r->worker[r->started];

		if (pthread_create(&w->thread, NULL, run, w))
			return 0;
	}
	pthread_mutex_lock(&r->lock);
	while (r->ready + r->broken < r->workers)
		pthread_cond_wait(&r->change, &r->lock);
	are_ready = !r->broken;
	pthread_mutex_unlock(&r->lock);
	return are_ready;
}

/* The kernel sets this flag of INIT from Linux 6.14 on, if its parameter fuse.enable_uring is set. */
int fuse_ring_is_offered(const unsigned char *request, size_t len)
{
	return (nizwarf_init_capable_at(request, len) & TRANSPORT_OVER_IO_URING) != 0;
}

/* Whether the largest payload that the kernel may send or request fits into an entry. */
static int has_room(const unsigned char *reply, size_t len)
{
	const size_t page = (size_t)sysconf(_SC_PAGESIZE), usual_pages = 32;
	struct fuse_out_header head;
	struct fuse_init_out init;
	size_t pages;

	if (len < sizeof(head) + sizeof(init))
		return 0;
	memcpy(&init, reply + sizeof(head), sizeof(init));
	pages = init.flags & FUSE_MAX_PAGES ? init.max_pages : usual_pages;
	return init.max_write <= NIZWARF_MAX_PAYLOAD && pages <= NIZWARF_MAX_PAYLOAD / page;
}

/* Starts the workers, and sets the flag in the reply to INIT. If it returns -1, the reply is unchanged, and
 * requests come by read(2). */
int fuse_ring_start(struct fuse_rings *r, struct device *of, int over, unsigned char *reply, size_t len)
{
	const nizwarf_init_params more = { .want = TRANSPORT_OVER_IO_URING };

	r->of = of;
	r->over = over;
	if (!has_room(reply, len) || !start_each(r))
		return -1;
	return nizwarf_add_to_init_at(reply, len, TRANSPORT_OVER_IO_URING, &more) ? 0 : -1;
}

void fuse_ring_begin(struct fuse_rings *r)
{
	pthread_mutex_lock(&r->lock);
	r->begun = 1;
	pthread_cond_broadcast(&r->change);
	pthread_mutex_unlock(&r->lock);
}
