/* A transport for /dev/fuse: nizwarf_fuse.h.
 *
 * A read of the device returns one request. The kernel copies it into the worker's memory, so nothing changes
 * it while it is served. A write sends one reply. Reads block, so a request takes two system calls. Each
 * worker but the first has a descriptor of its own for the device, by FUSE_DEV_IOC_CLONE, and starts after
 * INIT.
 *
 * The kernel wakes blocked readers in turn, so a single client would be served by one cold worker after
 * another. So only as many workers take requests as are wanted, one at first, and the others rest. A worker
 * that takes a request while others wait, and nobody reads, calls a resting one: at once if there are data to
 * copy, otherwise only if this repeats, and always before a request that may take long. While requests come,
 * the calling thread checks periodically whether some wait and nobody reads, and then also calls one. In calm
 * periods it reduces the number of wanted workers by one.
 *
 * To sleep and be woken takes longer than many clients need from a reply to the next request. So a worker
 * that is alone, and was repeatedly woken soon, polls for about that long before it sleeps.
 *
 * Large data go through a pipe, which holds references to pages. Those of a READ are copied from the file's
 * pages to the client's, and those of a WRITE from the client's to the file's. A worker reads requests
 * through its pipe as long as each has such data.
 *
 * With io_uring, other workers take the requests (fuse_ring.c). INIT, FORGET and INTERRUPT are still read, by
 * the first worker. */
#define _GNU_SOURCE
#include <errno.h>
#include <fcntl.h>
#include <poll.h>
#include <pthread.h>
#include <signal.h>
#include <stdatomic.h>
#include <stdio.h>
#include <stdlib.h>
#include <string.h>
#include <sys/eventfd.h>
#include <sys/ioctl.h>
#include <sys/signalfd.h>
#include <sys/stat.h>
#include <sys/uio.h>
#include <time.h>
#include <unistd.h>
#include "fuse_ring.h"
#include "later.h"
#include "say.h"

/* The longest request and reply: a header and its record take less than a page. The data of a WRITE follow 80
 * bytes, and those of the reply to a READ 16. */
enum { PAGE = 4096, LONGEST = NIZWARF_MAX_PAYLOAD + PAGE, BEFORE_WRITE = 80, BEFORE_READ = 16 };

/* In milliseconds: the period of the calling thread's checks if only one worker is wanted and no request
 * waits (LONG_TICK), and otherwise (TICK); the time without requests after which it stops checking (QUIET);
 * and the calm time after which it reduces the number of wanted workers (CALM). */
enum { LONG_TICK = 16, TICK = 1, QUIET = 50, CALM = 20 };
/* The number of ticks in turn with a waiting request after which the calling thread calls a worker: if no
 * request was taken meanwhile (STUCK_TICKS), and otherwise (WAITED_TICKS). */
enum { STUCK_TICKS = 2, WAITED_TICKS = 4 };
/* The number of bytes from which on data count as large (BULK). Of the other requests, one in LOOK_EACH
 * checks whether more wait, and BACKLOGS such results in turn call a worker. */
enum { BULK = 32768, LOOK_EACH = 8, BACKLOGS = 3 };
/* In nanoseconds: a request that arrives within LEAST_WAIT was waiting already, and one that arrives within
 * SHORT_WAIT came soon. The latter is about the time to sleep and be woken, because to poll longer costs
 * more. A worker polls before it sleeps once requests that came soon outnumber those that waited by
 * SHORT_WAITS. */
enum { LEAST_WAIT = 1500, SHORT_WAIT = 5000, SHORT_WAITS = 4 };
/* In nanoseconds: how long requests that are read beside io_uring may gather. */
enum { GATHER = 1000000 };
/* In bytes: the size of a pipe, which has a place for each page (PIPE); the size from which on data go
 * through it, because that takes less time than a copy (LEAST_PIPED); and the data that fit after a header if
 * they do not begin at a page (MOST_PIPED). */
enum { PIPE = 2 * NIZWARF_MAX_SPLICE, LEAST_PIPED = 1 << 16, MOST_PIPED = PIPE - 2 * PAGE };

/* In milliseconds after a signal: the period of the checks (LOOK_TICK); the times of the first and the last
 * check of requests (LOOK_FROM, LOOK_UNTIL); and the times after which the process exits although a request
 * does not return (MOST_JOIN), or a worker without one (MOST_IDLE). */
enum { LOOK_TICK = 50, LOOK_FROM = 300, LOOK_UNTIL = 1300, MOST_JOIN = 600, MOST_IDLE = 2000 };
/* In seconds: how long the transport waits at its end for replies that are being sent. */
enum { MOST_LATE = 1 };

enum outcome { SERVED, ENDED, FAILED };

struct device;

struct worker {
	struct device *of;
	unsigned number;
	int fd;
	pthread_t thread;
	unsigned char *memory, *request, *room;
	/* A page for the replies that fit, because the cost to Linux depends on the pages of a reply buffer;
	 * and the reply buffer of the current request. */
	unsigned char *page, *reply;
	/* The number of short waits, less the requests that were waiting already, since the last long
	 * wait. */
	unsigned short_waits;
	/* A pipe, or -1, and whether it has its size already; how many bytes of a WRITE are in it, or of the
	 * reply to a READ, which begins with `header`; and whether the last request was a large WRITE. */
	int pipe[2], is_large;
	size_t written, piped;
	struct fuse_out_header header;
	int writes;
};

/* The worker of this thread. */
static _Thread_local struct worker *serving;

struct device {
	const nizwarf_transport *by;
	/* An eventfd that each worker writes when it ends. */
	int over;
	atomic_int stop, failed;
	/* The number of workers that the first one has started. Each is counted after its thread was
	 * created. */
	atomic_uint others;
	/* The rings for io_uring, which the first worker starts instead of other workers, or NULL; other
	 * threads read the pointer. `made` are rings that the program has made before, until the first worker
	 * takes them. */
	_Atomic(struct fuse_rings *) rings;
	struct fuse_rings *made;
	struct fuse_prepared prepared;
	/* The number of workers that read now, and the number of requests that were taken. */
	atomic_uint readers;
	atomic_ulong taken;
	/* The number of workers that do not rest, the number that are wanted, and how many requests in turn
	 * found others waiting. */
	atomic_uint active, wanted, backlogs;
	/* Is set while the calling thread waits without ticks, until a worker writes the eventfd `busy`. */
	atomic_int sleeps;
	int busy;
	/* The number of resting workers, and how many of these are called, under the lock. `wanted` changes
	 * under the lock too, but is read without it. */
	pthread_mutex_t lock;
	pthread_cond_t call;
	unsigned resting, called;
	/* The requests that are completed later. */
	struct later_list later;
	/* With io_uring: must be held to read as the first worker, because that uses its memory. */
	pthread_mutex_t reading;
	struct worker worker[NIZWARF_MAX_WORKERS];
	/* Is incremented before and after each request of a worker, so it is odd while the worker has one.
	 * The counts are in different cache lines. */
	struct {
		atomic_uint count;
		char apart[60];
	} turns[NIZWARF_MAX_WORKERS];
	/* After a signal this thread unmounts `folder`, while requests are still checked. */
	const char *folder;
	pthread_t unmounts;
	int is_unmounting;
	atomic_int unmount_failed;
};

/* Prints what failed and why, by errno, and returns -1. */
static int say(const nizwarf_transport *by, const char *what)
{
	transport_say(by->program, "cannot %s: %s", what, strerror(errno));
	return -1;
}

/* The same for a worker. It ends, and so do all others. */
static enum outcome failed(const struct worker *w, const char *what)
{
	say(w->of->by, what);
	return FAILED;
}

/* A rejected request has no reply of the server's, but the kernel waits for one, so it gets an error. There
 * is no reply to the four requests below. (The number of a NOTIFY_REPLY is that of the notice, and another
 * request may have it too.) */
size_t fuse_device_refuse(const nizwarf_transport *by, const struct fuse_in_header *asked, int32_t code,
			  void *room)
{
	struct fuse_out_header reply = { .len = sizeof(reply), .unique = asked->unique };
	static atomic_flag reported = ATOMIC_FLAG_INIT;

	/* A NIZWARF_LATER without a kept request is an error of the program. It is reported once, because
	 * every request may have it. */
	if (code != NIZWARF_CALL)
		transport_say(by->program, "request with opcode %u failed: code %d of nizwarf.h",
			      (unsigned)asked->opcode, (int)code);
	else if (!atomic_flag_test_and_set(&reported))
		transport_say(by->program,
			      "opcode %u returned NIZWARF_LATER, but kept no request: replying EIO",
			      (unsigned)asked->opcode);
	if (asked->opcode == FUSE_FORGET || asked->opcode == FUSE_BATCH_FORGET ||
	    asked->opcode == FUSE_INTERRUPT || asked->opcode == FUSE_NOTIFY_REPLY)
		return 0;
	reply.error = code == NIZWARF_OUT_OF_MEMORY ? -ENOMEM : -EIO;
	memcpy(room, &reply, sizeof(reply));
	return sizeof(reply);
}

int32_t fuse_device_ask(struct device *of, unsigned worker, const struct iovec *request, size_t segments,
			const struct iovec *room, size_t rooms, size_t *len)
{
	atomic_uint *turn = &of->turns[worker].count;
	int32_t code;

	atomic_fetch_add(turn, 1);
	code = of->by->serve(of->by->user, worker, request, segments, room, rooms, len);
	atomic_fetch_add(turn, 1);
	return code;
}

/* Wakes the thread that polls an eventfd. Several writes before it reads count as one. */
static void tell(const struct device *d, int event)
{
	const uint64_t one = 1;

	if (write(event, &one, sizeof(one)) < 0)
		say(d->by, "write to an eventfd");
}

/* Calls a resting worker, if there is one, and increases the number of wanted workers accordingly. */
static void call_one(struct device *d)
{
	pthread_mutex_lock(&d->lock);
	if (d->resting > d->called) {
		d->called++;
		atomic_store(&d->wanted, atomic_load(&d->active) + d->called);
		pthread_cond_signal(&d->call);
	}
	pthread_mutex_unlock(&d->lock);
}

/* Reduces the number of wanted workers by one, or to one. */
static void want_less(struct device *d, int alone)
{
	pthread_mutex_lock(&d->lock);
	if (atomic_load(&d->wanted) > 1)
		atomic_store(&d->wanted, alone ? 1 : atomic_load(&d->wanted) - 1);
	pthread_mutex_unlock(&d->lock);
}

/* Whether a request waits to be read. */
static int is_waited_for(const struct worker *w)
{
	struct pollfd device = { w->fd, POLLIN, 0 };

	return poll(&device, 1, 0) > 0;
}

/* Rests until another thread calls this worker. */
static void rest(struct device *d)
{
	pthread_mutex_lock(&d->lock);
	d->resting++;
	atomic_fetch_sub(&d->active, 1);
	while (!d->called && !atomic_load(&d->stop))
		pthread_cond_wait(&d->call, &d->lock);
	if (d->called)
		d->called--;
	d->resting--;
	atomic_fetch_add(&d->active, 1);
	pthread_mutex_unlock(&d->lock);
}

/* Rests if this worker is not wanted, another one reads, and no request waits. */
static void rest_if_idle(const struct worker *w)
{
	struct device *d = w->of;

	if (atomic_load(&d->active) > atomic_load(&d->wanted) && atomic_load(&d->readers) &&
	    !is_waited_for(w))
		rest(d);
}

/* Whether a request may take long regardless of its size. */
static int is_slow(const struct fuse_in_header *asked)
{
	return asked->opcode == FUSE_FSYNC || asked->opcode == FUSE_FSYNCDIR ||
	       asked->opcode == FUSE_SYNCFS || asked->opcode == FUSE_FALLOCATE ||
	       asked->opcode == FUSE_COPY_FILE_RANGE;
}

/* Whether a request has large data, or a reply buffer for them. */
static int is_bulk(const struct fuse_in_header *asked, size_t room)
{
	return asked->len >= BULK ||
	       (room >= BULK && (asked->opcode == FUSE_READ || asked->opcode == FUSE_READDIR ||
				 asked->opcode == FUSE_READDIRPLUS));
}

/* Whether no client waits for the result. A single client may have several of these requests at once, so they
 * must not call another worker. */
static int is_let_go(const struct fuse_in_header *asked)
{
	return asked->opcode == FUSE_FORGET || asked->opcode == FUSE_BATCH_FORGET ||
	       asked->opcode == FUSE_RELEASE || asked->opcode == FUSE_RELEASEDIR;
}

/* Calls a resting worker if this request is slow, or if others would wait for it. */
static void call_if_late(const struct worker *w, const struct fuse_in_header *asked, size_t room)
{
	struct device *d = w->of;
	const int slow = is_slow(asked), soon = slow || is_bulk(asked, room);

	if (atomic_load(&d->active) >= d->by->workers || is_let_go(asked) ||
	    (!soon && atomic_load(&d->taken) % LOOK_EACH))
		return;
	if (atomic_load(&d->readers) || (!slow && !is_waited_for(w))) {
		atomic_store(&d->backlogs, 0);
	} else if (soon || atomic_fetch_add(&d->backlogs, 1) + 1 >= BACKLOGS) {
		atomic_store(&d->backlogs, 0);
		call_one(d);
	}
}

/* Returns the monotonic time in nanoseconds. */
static uint64_t now(void)
{
	struct timespec time;

	clock_gettime(CLOCK_MONOTONIC, &time);
	return (uint64_t)time.tv_sec * 1000000000 + (uint64_t)time.tv_nsec;
}

/* Makes a pipe, by which the data of a WRITE or a READ are moved between the device and a file. Without it
 * they are copied. */
static void make_pipe(struct worker *w)
{
	if (pipe2(w->pipe, O_CLOEXEC))
		w->pipe[0] = w->pipe[1] = -1;
}

/* Closes the pipe with the data that are left in it, because the next request must not find them. */
static void close_pipe(struct worker *w)
{
	for (int i = 0; i < 2; i++) {
		if (w->pipe[i] >= 0)
			close(w->pipe[i]);
		w->pipe[i] = -1;
	}
	w->is_large = 0;
	w->written = w->piped = 0;
}

/* Whether a worker has a pipe. The pipe gets its size when it is first used. */
static int has_pipe(struct worker *w)
{
	if (w->is_large || w->pipe[1] < 0)
		return w->is_large;
	w->is_large = fcntl(w->pipe[1], F_SETPIPE_SZ, PIPE) >= PIPE;
	if (!w->is_large)
		close_pipe(w);
	return w->is_large;
}

/* Reads `len` bytes from the pipe, which must have them. Returns 0, or -1 with errno. */
static int empty_pipe(struct worker *w, unsigned char *to, size_t len)
{
	while (len) {
		const ssize_t got = read(w->pipe[0], to, len);

		if (got <= 0) {
			close_pipe(w);
			errno = EIO;
			return -1;
		}
		to += got;
		len -= (size_t)got;
	}
	return 0;
}

/* Reads a request through the pipe, and leaves the data of a large WRITE there. Returns its length, or -1
 * with errno. */
static ssize_t take_by_pipe(struct worker *w)
{
	const ssize_t got = splice(w->fd, NULL, w->pipe[1], NULL, LONGEST, 0);
	const size_t len = got < 0 ? 0 : (size_t)got, head = len < BEFORE_WRITE ? len : BEFORE_WRITE;
	struct fuse_in_header asked;

	/* If the device caused this error, the next read returns it. */
	w->writes = 0;
	if (got < 0 && errno != ENODEV)
		errno = EAGAIN;
	if (empty_pipe(w, w->request, head))
		return -1;
	memcpy(&asked, w->request, sizeof(asked));
	if (len < BEFORE_WRITE + LEAST_PIPED || asked.opcode != FUSE_WRITE)
		return empty_pipe(w, w->request + head, len - head) ? -1 : got;
	w->written = len - head;
	return got;
}

/* Reads one request, because the kernel returns only whole ones. Returns its length, or -1 with errno. */
static ssize_t take(struct worker *w)
{
	return w->writes && has_pipe(w) ? take_by_pipe(w) : read(w->fd, w->request, LONGEST);
}

ssize_t nizwarf_fuse_write_to(int fd, uint64_t offset, size_t size)
{
	struct worker *w = serving;
	off_t at = (off_t)offset;
	size_t done = 0;
	ssize_t put = 1;

	if (!w || !w->written)
		return 0;
	size = size < w->written ? size : w->written;
	while (put > 0 && done < size) {
		put = splice(w->pipe[0], NULL, fd, &at, size - done, 0);
		done += put > 0 ? (size_t)put : 0;
	}
	/* The caller writes the other data without the pipe, and so gets the error itself. */
	size = w->written - done;
	w->written = 0;
	return empty_pipe(w, w->request + BEFORE_WRITE + done, size) ? -1 : (ssize_t)done;
}

ssize_t nizwarf_fuse_read_from(int fd, uint64_t offset, size_t size)
{
	struct fuse_out_header header = { .len = (uint32_t)(sizeof(header) + size) };
	struct worker *w = serving;
	off_t at = (off_t)offset;
	size_t done = 0;
	ssize_t got = 1;

	if (!w || w->piped || size < LEAST_PIPED || size > MOST_PIPED || !has_pipe(w))
		return -1;
	header.unique = w->header.unique;
	w->header = header;
	if (write(w->pipe[1], &header, sizeof(header)) != (ssize_t)sizeof(header))
		return -1;
	while (got > 0 && done < size) {
		got = splice(fd, &at, w->pipe[1], NULL, size - done, SPLICE_F_NONBLOCK);
		done += got > 0 ? (size_t)got : 0;
	}
	w->piped = sizeof(header) + done;
	if (got >= 0)
		return (ssize_t)done;
	/* The caller reads without the pipe, and so gets the error itself. */
	empty_pipe(w, w->room, w->piped);
	w->piped = 0;
	return -1;
}

/* Sends the reply that is in the pipe, or an error if that fails. */
static ssize_t put_piped(struct worker *w)
{
	const struct fuse_out_header reply = { sizeof(reply), -EIO, w->header.unique };
	const ssize_t put = splice(w->pipe[0], NULL, w->fd, NULL, w->header.len, 0);
	const int error = errno;

	if (put >= 0)
		return put;
	close_pipe(w);
	errno = error;
	if (error != ENOENT)
		return error == ENODEV ? put : write(w->fd, &reply, sizeof(reply));
	make_pipe(w);
	errno = error;
	return put;
}

/* Sends a reply: from the pipe if that has all the announced data, and otherwise from the reply buffer. */
static ssize_t put_reply(struct worker *w, size_t len)
{
	const size_t piped = w->piped;
	struct fuse_out_header reply;

	if (!piped)
		return write(w->fd, w->reply, len);
	w->piped = 0;
	memcpy(&reply, w->room, sizeof(reply));
	if (piped == len && !memcmp(&reply, &w->header, sizeof(reply)))
		return put_piped(w);
	if (empty_pipe(w, w->room, piped))
		return -1;
	memcpy(w->room, &reply, sizeof(reply));
	return write(w->fd, w->room, len);
}

/* Sends a reply. If Linux rejects it, the client gets EIO, unless it no longer waits, and the mount goes on.
 * Returns 0, or -1 with errno. */
static int put_or_refuse(struct worker *w, const struct fuse_in_header *asked, size_t len)
{
	const struct fuse_out_header reply = { sizeof(reply), -EIO, asked->unique };

	if (put_reply(w, len) >= 0)
		return 0;
	/* ENOENT means that the client no longer waits, and ENODEV that the file system is unmounted. */
	if (errno == ENOENT || errno == ENODEV)
		return 0;
	transport_say(w->of->by->program, "the kernel refused the reply to opcode %u: %s",
		      (unsigned)asked->opcode, strerror(errno));
	return write(w->fd, &reply, sizeof(reply)) < 0 && errno != ENOENT && errno != ENODEV ? -1 : 0;
}

/* Reads a request, and may poll for it first. */
static ssize_t read_alone(struct worker *w)
{
	const uint64_t from = now();
	uint64_t waited;
	ssize_t got;
	int error;

	if (w->short_waits >= SHORT_WAITS)
		while (!is_waited_for(w) && now() - from < SHORT_WAIT)
			;
	got = take(w);
	error = errno;
	waited = now() - from;
	if (waited >= SHORT_WAIT)
		w->short_waits = 0;
	else if (waited > LEAST_WAIT)
		w->short_waits += w->short_waits < 2 * SHORT_WAITS;
	else
		w->short_waits -= w->short_waits > 0;
	errno = error;
	return got;
}

/* Whether a worker that reads is alone, so that it may poll. Unless it has short waits, it measures only some
 * of its waits. */
static int may_look(const struct worker *w)
{
	const struct device *d = w->of;

	return !atomic_load(&d->rings) && atomic_load(&d->wanted) == 1 && atomic_load(&d->readers) == 1 &&
	       (w->short_waits || atomic_load(&d->taken) % LOOK_EACH == 0);
}

/* Reads a request, and counts the readers. */
static ssize_t read_request(struct worker *w)
{
	struct device *d = w->of;
	ssize_t got;
	int error;

	atomic_fetch_add(&d->readers, 1);
	got = may_look(w) ? read_alone(w) : take(w);
	error = errno;
	atomic_fetch_sub(&d->readers, 1);
	atomic_fetch_add(&d->taken, 1);
	if (atomic_load(&d->sleeps) && atomic_exchange(&d->sleeps, 0))
		tell(d, d->busy);
	errno = error;
	return got;
}

/* Data, names and attributes have a reply buffer of the requested size, other replies less than a page,
 * because `serve` may allocate and keep as much memory as its reply buffer has. */
size_t fuse_device_room(const struct fuse_in_header *asked, const void *record, size_t len)
{
	struct fuse_read_in read;

	switch (asked->opcode) {
	case FUSE_READ:
	case FUSE_READDIR:
	case FUSE_READDIRPLUS:
		if (len < sizeof(read))
			return LONGEST;
		memcpy(&read, record, sizeof(read));
		return read.size < NIZWARF_MAX_PAYLOAD ? sizeof(struct fuse_out_header) + read.size : LONGEST;
	case FUSE_GETXATTR:
	case FUSE_LISTXATTR:
	case FUSE_READLINK:
	case FUSE_IOCTL:
		return LONGEST;
	default:
		return PAGE;
	}
}

/* Whether a descriptor is a device. (A socket would take up pages for messages, and has no rings.) */
static int is_device(int fd)
{
	struct stat seen;

	return !fstat(fd, &seen) && S_ISCHR(seen.st_mode);
}

/* Returns the rings for this device, or NULL. A program that has prepared rings is in a sandbox, and cannot
 * make others. */
static struct fuse_rings *take_rings(struct device *d, int fd)
{
	struct fuse_rings *made = d->made;

	d->made = NULL;
	return d->prepared.rings ? made : fuse_ring_make(d->by, fd, fuse_ring_count());
}

/* Starts the workers for io_uring if possible, and enables it in the reply to INIT, which has `len` bytes.
 * `code` is the result of INIT, and `offered` says whether its request has the flag of io_uring. */
static void start_rings(struct worker *w, int offered, int32_t code, size_t len)
{
	struct device *d = w->of;
	const nizwarf_transport *by = d->by;
	struct fuse_rings *rings = NULL;

	if (!by->io_uring || atomic_load(&d->rings) || code != NIZWARF_OK)
		return;
	if (offered && is_device(w->fd))
		rings = take_rings(d, w->fd);
	if (rings && fuse_ring_start(rings, d, d->over, w->reply, len)) {
		fuse_ring_end(rings);
		rings = NULL;
	}
	atomic_store(&d->rings, rings);
	if (!rings && by->io_uring_warn)
		transport_say(by->program,
			      "warning: io_uring is not available: falling back to read(2) and write(2)");
}

/* A copy of the request's data, for a request that is completed later. */
struct kept {
	const nizwarf_transport *by;
	int fd;
	struct fuse_in_header asked;
};

/* Completes such a request. ENOENT means that the request was interrupted and no longer exists. */
static void send_kept(void *about, int32_t code, const void *reply, size_t len)
{
	const struct kept *kept = about;
	struct fuse_out_header refused;

	if (code != NIZWARF_OK) {
		reply = &refused;
		len = fuse_device_refuse(kept->by, &kept->asked, code, &refused);
	}
	if (!len || write(kept->fd, reply, len) >= 0 || errno == ENOENT || errno == ENODEV)
		return;
	transport_say(kept->by->program, "the kernel refused the reply to opcode %u: %s",
		      (unsigned)kept->asked.opcode, strerror(errno));
	refused = (struct fuse_out_header){ sizeof(refused), -EIO, kept->asked.unique };
	if (write(kept->fd, &refused, sizeof(refused)) < 0 && errno != ENOENT && errno != ENODEV)
		say(kept->by, "write to /dev/fuse");
}

/* Passes a request to `serve`, which may keep it. Returns whether it was kept. */
static int ask(struct worker *w, const struct fuse_in_header *asked, const struct iovec *request,
	       const struct iovec *room, int32_t *code, size_t *len)
{
	struct device *d = w->of;
	/* A request must be completed by the descriptor that has read it. */
	const struct kept kept = { d->by, w->fd, *asked };
	struct later_source source = {
		.list = &d->later, .send = send_kept, .about = &kept, .size = sizeof(kept)
	};

	later_serve(&source);
	*code = fuse_device_ask(d, w->number, request, 1, room, 1, len);
	later_serve(NULL);
	return later_keeps(&source, *code);
}

/* Lets notices be sent to `device` from now on, or to none if it is -1. Returns -1 if a notice is still being
 * sent after a second, because the kernel waits for a request while it handles the notice. */
static int let_notify(const nizwarf_transport *by, int device)
{
	nizwarf_fuse_notices *const notices = by->notices;
	struct timespec until;
	int error = 0;

	if (!notices)
		return 0;
	clock_gettime(CLOCK_REALTIME, &until);
	until.tv_sec++;
	pthread_mutex_lock(&notices->lock);
	notices->device = device;
	while (device < 0 && notices->senders && !error)
		error = pthread_cond_timedwait(&notices->idle, &notices->lock, &until);
	pthread_mutex_unlock(&notices->lock);
	return error ? -1 : 0;
}

/* The lock is not held during writev(2), so that no notice waits for another. Otherwise a worker could wait
 * with its notice for one that waits in the kernel for a request, which only this worker would serve: for
 * ever, because that wait cannot be killed. `senders` keeps the device open meanwhile. */
int nizwarf_fuse_notify(nizwarf_fuse_notices *notices, const void *notice, size_t len, const void *data,
			size_t data_len)
{
	struct iovec pieces[] = { { (void *)(uintptr_t)notice, len }, { (void *)(uintptr_t)data, data_len } };
	int device, error;

	pthread_mutex_lock(&notices->lock);
	device = notices->device;
	if (device >= 0)
		notices->senders++;
	pthread_mutex_unlock(&notices->lock);
	if (device < 0)
		return ENOTCONN;
	error = writev(device, pieces, data_len ? 2 : 1) < 0 ? errno : 0;
	pthread_mutex_lock(&notices->lock);
	if (!--notices->senders)
		pthread_cond_broadcast(&notices->idle);
	pthread_mutex_unlock(&notices->lock);
	return error == ENODEV ? ENOTCONN : error;
}

/* Whether an error of read(2) means that the file system was unmounted. ECONNABORTED comes if that happens
 * while a request is taken, which then needs no reply, or after an abort, if INIT has enabled that. */
static int is_end(int error)
{
	return error == ENODEV || error == ECONNABORTED;
}

/* Reads a request and serves it. `*opcode` is that of the request, or 0 if there was none. */
static enum outcome serve_one(struct worker *w, uint32_t *opcode)
{
	const ssize_t got = read_request(w);
	const struct iovec segment = { w->request, (size_t)got };
	const nizwarf_transport *by = w->of->by;
	struct fuse_in_header asked;
	struct iovec room;
	int is_kept, offered;
	size_t len = 0;
	int32_t code;

	*opcode = 0;
	if (got == 0 || (got < 0 && is_end(errno)))
		return ENDED;
	/* ENOENT means that the request was interrupted before it was read. */
	if (got < 0)
		return errno == EAGAIN || errno == EINTR || errno == ENOENT ?
			       SERVED :
			       failed(w, "read from /dev/fuse");
	if ((size_t)got < sizeof(asked)) {
		errno = EPROTO;
		return failed(w, "read from /dev/fuse");
	}
	memcpy(&asked, w->request, sizeof(asked));
	*opcode = asked.opcode;
	offered = asked.opcode == FUSE_INIT && by->io_uring && fuse_ring_is_offered(w->request, (size_t)got);
	transport_withhold(by, w->request, (size_t)got);
	room.iov_len = fuse_device_room(&asked, w->request + sizeof(asked), (size_t)got - sizeof(asked));
	/* The data of a READ begin at a page, because a read with O_DIRECT may require that. */
	room.iov_base = w->reply = room.iov_len > PAGE || asked.opcode == FUSE_READ ? w->room : w->page;
	call_if_late(w, &asked, room.iov_len);
	w->header.unique = asked.unique;
	is_kept = ask(w, &asked, &segment, &room, &code, &len);
	if (is_kept)
		len = 0;
	else if (code != NIZWARF_OK)
		len = fuse_device_refuse(by, &asked, code, w->reply);
	if (w->written) {
		empty_pipe(w, w->request + BEFORE_WRITE, w->written);
		w->written = 0;
	}
	if (asked.opcode == FUSE_INIT && w->number == 0)
		start_rings(w, offered, code, len);
	w->writes = asked.opcode == FUSE_WRITE && asked.len >= BEFORE_WRITE + LEAST_PIPED;
	if (!len && w->piped)
		close_pipe(w);
	if (len && put_or_refuse(w, &asked, len))
		return failed(w, "write to /dev/fuse");
	if (asked.opcode == FUSE_INIT && code == NIZWARF_OK)
		let_notify(by, w->of->worker[0].fd);
	return SERVED;
}

static void *run(void *given);

/* Starts a worker for a descriptor, which then belongs to it. If the descriptor is negative, errno has the
 * reason. */
static int start(struct device *d, unsigned number, int fd)
{
	const int error = errno;
	struct worker *w = &d->worker[number];
	unsigned char *memory = aligned_alloc(PAGE, 2 * LONGEST + 4 * PAGE);

	w->of = d;
	w->number = number;
	w->fd = fd;
	w->pipe[0] = w->pipe[1] = -1;
	if (d->by->splices && is_device(fd))
		make_pipe(w);
	w->memory = memory;
	if (memory) {
		w->request = memory + PAGE - BEFORE_WRITE;
		w->room = memory + (size_t)(LONGEST + 3 * PAGE - BEFORE_READ);
		w->page = memory + (size_t)(2 * LONGEST + 3 * PAGE);
	}
	atomic_fetch_add(&d->active, 1);
	errno = fd < 0 ? error : ENOMEM;
	if (memory && fd >= 0 && !(errno = pthread_create(&w->thread, NULL, run, w)))
		return 0;
	atomic_fetch_sub(&d->active, 1);
	say(d->by, "start a worker");
	close_pipe(w);
	free(memory);
	if (fd >= 0)
		close(fd);
	return -1;
}

/* Opens /dev/fuse again. `first` is a descriptor of it. */
static int open_anew(const struct device *d, int first)
{
	char name[16];

	if (!d->prepared.descriptors)
		return open("/dev/fuse", O_RDWR | O_CLOEXEC);
	snprintf(name, sizeof(name), "%d", first);
	return openat(d->prepared.descriptors, name, O_RDWR | O_CLOEXEC);
}

/* Starts the other workers. If a descriptor cannot be cloned, because it is a socket, all workers read from
 * it. */
static void start_others(struct device *d)
{
	const uint32_t first = (uint32_t)d->worker[0].fd;

	for (unsigned number = 1; number < d->by->workers; number++) {
		int fd = open_anew(d, d->worker[0].fd);

		if (fd < 0 || ioctl(fd, FUSE_DEV_IOC_CLONE, &first)) {
			if (fd >= 0)
				close(fd);
			fd = fcntl((int)first, F_DUPFD_CLOEXEC, 0);
		}
		if (start(d, number, fd))
			return;
		atomic_store(&d->others, number);
	}
}

/* Starts the other workers after INIT was served, or those of io_uring. */
static void begin_others(struct device *d)
{
	struct fuse_rings *rings = atomic_load(&d->rings);
	const int fd = d->worker[0].fd;

	if (!rings) {
		start_others(d);
		return;
	}
	fcntl(fd, F_SETFL, fcntl(fd, F_GETFL) | O_NONBLOCK);
	fuse_ring_begin(rings);
}

/* Serves the requests that wait to be read beside io_uring. */
static enum outcome serve_waiting(struct device *d)
{
	enum outcome outcome;
	uint32_t opcode;

	pthread_mutex_lock(&d->reading);
	do
		outcome = serve_one(&d->worker[0], &opcode);
	while (outcome == SERVED && opcode);
	pthread_mutex_unlock(&d->reading);
	return outcome;
}

void fuse_device_drain(struct device *of)
{
	if (serve_waiting(of) != FAILED)
		return;
	atomic_store(&of->failed, 1);
	tell(of, of->over);
}

/* Waits for requests that are read beside io_uring, and serves them. Most are FORGETs, each of which would
 * wake a worker that waits for the next one. So this worker lets some gather first. */
static enum outcome serve_beside(struct device *d)
{
	const struct timespec pause = { 0, GATHER };
	struct pollfd device = { d->worker[0].fd, POLLIN, 0 };

	nanosleep(&pause, NULL);
	poll(&device, 1, -1);
	return serve_waiting(d);
}

/* The thread of a worker. The first worker serves INIT before the others start, which then rest until they
 * are called. */
static void *run(void *given)
{
	struct worker *w = given;
	struct device *d = w->of;
	enum outcome outcome = FAILED;
	uint32_t opcode;

	serving = w;
	if (!d->by->begin || !d->by->begin(d->by->user, w->number)) {
		if (w->number)
			rest(d);
		do {
			outcome = serve_one(w, &opcode);
			if (outcome == SERVED && opcode == FUSE_INIT && w->number == 0)
				begin_others(d);
			if (outcome == SERVED)
				rest_if_idle(w);
			while (atomic_load(&d->rings) && outcome == SERVED && !atomic_load(&d->stop))
				outcome = serve_beside(d);
		} while (outcome == SERVED && !atomic_load(&d->stop));
		if (w->number == 0 && atomic_load(&d->rings) && fuse_ring_end(atomic_load(&d->rings)))
			outcome = FAILED;
		if (d->by->end)
			d->by->end(d->by->user, w->number);
	}
	if (outcome == FAILED)
		atomic_store(&d->failed, 1);
	tell(d, d->over);
	return NULL;
}

int fuse_device_joins(pthread_t thread)
{
	if (pthread_tryjoin_np(thread, NULL) != EBUSY)
		return 1;
	pthread_kill(thread, SIGRTMIN);
	return 0;
}

static int is_answering(struct device *d)
{
	for (int i = 0; i < NIZWARF_MAX_WORKERS; i++)
		if (atomic_load(&d->turns[i].count) % 2)
			return 1;
	return 0;
}

/* Whether the end has waited long enough since this time. It waits longer for a worker without a request,
 * because only a busy machine delays that. */
static int was_awaited(struct device *d, uint64_t since)
{
	const uint64_t most = is_answering(d) ? MOST_JOIN : MOST_IDLE;

	return now() - since > most * 1000000;
}

/* Joins a worker and frees its memory. Returns -1 if it is still blocked, and then frees nothing, because the
 * worker may use it. */
static int end(struct worker *w, uint64_t since)
{
	const struct timespec pause = { 0, 5000000 };

	while (pthread_tryjoin_np(w->thread, NULL) == EBUSY) {
		if (was_awaited(w->of, since))
			return -1;
		pthread_kill(w->thread, SIGRTMIN);
		nanosleep(&pause, NULL);
	}
	close_pipe(w);
	close(w->fd);
	free(w->memory);
	return 0;
}

/* Does nothing. Because it is installed without SA_RESTART, a blocked call fails with EINTR, so that its
 * thread checks whether it must end. */
static void interrupted(int number)
{
	(void)number;
}

/* The state of the calling thread's last check: the number of requests taken, the number of ticks in turn
 * with a waiting request, the calm time and the time without requests in milliseconds, and the tick since
 * then. */
struct seen {
	unsigned long taken;
	unsigned waited, calm, quiet, tick;
};

/* Calls a resting worker if requests wait and nobody reads, or reduces the number of wanted workers if it is
 * calm. */
static void look(struct device *d, struct seen *seen, unsigned long taken)
{
	const int is_late = !atomic_load(&d->readers) && is_waited_for(&d->worker[0]);

	seen->waited = is_late ? seen->waited + 1 : 0;
	if (seen->waited >= (taken == seen->taken ? STUCK_TICKS : WAITED_TICKS)) {
		seen->waited = seen->calm = 0;
		call_one(d);
	} else if (!is_late && (seen->calm += seen->tick) >= CALM) {
		seen->calm = 0;
		want_less(d, 0);
	}
}

/* Returns how long to wait for the next tick, in milliseconds, or -1 to wait until a worker is busy. */
static int next_tick(struct device *d, struct seen *seen)
{
	const unsigned long now = atomic_load(&d->taken);

	/* With io_uring no worker rests, and the first one, which waits in poll(2), never reads. */
	if (d->by->workers == 1 || atomic_load(&d->rings))
		return -1;
	look(d, seen, now);
	seen->quiet = now == seen->taken && atomic_load(&d->readers) ? seen->quiet + seen->tick : 0;
	seen->taken = now;
	seen->tick = seen->waited || atomic_load(&d->wanted) > 1 ? TICK : LONG_TICK;
	if (seen->quiet < QUIET)
		return (int)seen->tick;
	want_less(d, 1);
	/* Either a worker that takes a request from now on sees this, or the check below sees the request. */
	atomic_store(&d->sleeps, 1);
	if (atomic_load(&d->taken) == now && atomic_load(&d->readers))
		return -1;
	atomic_store(&d->sleeps, 0);
	seen->quiet = 0;
	return (int)seen->tick;
}

/* The state of requests after a first signal: the time of the signal, that of the last check, and how long
 * the checks have waited. Each check adds at most twice LOOK_TICK, because on a busy machine, where this
 * thread is late, other threads are late too. */
struct asked {
	uint64_t at, last, waited;
	int looks;
	unsigned turns[NIZWARF_MAX_WORKERS];
};

/* Unmounts. This needs a thread of its own, because data that are still to be written may wait for a
 * request. */
static void *unmount(void *given)
{
	struct device *d = given;

	if (nizwarf_fuse_unmount(d->by, d->folder)) {
		atomic_store(&d->unmount_failed, 1);
		tell(d, d->over);
	}
	return NULL;
}

/* Begins to unmount after a first signal, unless another process does. */
static void begin_end(struct device *d, struct asked *asked)
{
	asked->at = asked->last = now();
	if (!d->folder)
		return;
	d->is_unmounting = !pthread_create(&d->unmounts, NULL, unmount, d);
	if (!d->is_unmounting)
		unmount(d);
}

/* Whether a request has been blocked since the first check. There is only one such check, because later
 * requests end with their clients. */
static int is_stuck(struct device *d, struct asked *asked)
{
	const uint64_t at = now(), more = (at - asked->last) / 1000, most = UINT64_C(2000) * LOOK_TICK;
	const uint64_t since = (asked->waited += more < most ? more : most) / 1000;

	asked->last = at;
	if (!asked->looks && since >= LOOK_FROM) {
		asked->looks = 1;
		for (int i = 0; i < NIZWARF_MAX_WORKERS; i++)
			asked->turns[i] = atomic_load(&d->turns[i].count);
	}
	if (asked->looks != 1 || since < LOOK_UNTIL)
		return 0;
	asked->looks = 2;
	for (int i = 0; i < NIZWARF_MAX_WORKERS; i++)
		if (asked->turns[i] % 2 && asked->turns[i] == atomic_load(&d->turns[i].count))
			return 1;
	return 0;
}

/* Reads a signal. Returns whether it ends the process, and not only the mount. */
static int is_last(int signals, struct device *d, const struct asked *asked)
{
	struct signalfd_siginfo said;

	if (read(signals, &said, sizeof(said)) != sizeof(said))
		return 0;
	return asked->at ||
	       !(d->folder || (said.ssi_code == SI_QUEUE && said.ssi_int == NIZWARF_FUSE_UNMOUNTED));
}

/* Waits until a worker has ended, or until a signal ends the process. */
static void wait_for_end(struct device *d, int signals)
{
	struct pollfd wait[] = { { signals, POLLIN, 0 }, { d->over, POLLIN, 0 }, { d->busy, POLLIN, 0 } };
	struct asked asked = { 0 };
	struct seen seen = { 0 };
	uint64_t times;

	while (!wait[1].revents && !(asked.at && is_stuck(d, &asked))) {
		int tick = next_tick(d, &seen);

		if (asked.at && asked.looks < 2 && (tick < 0 || tick > LOOK_TICK))
			tick = LOOK_TICK;
		if (poll(wait, 3, tick) < 0) {
			if (errno == EINTR)
				continue;
			say(d->by, "poll");
			atomic_store(&d->failed, 1);
			return;
		}
		if (wait[2].revents && read(d->busy, &times, sizeof(times)) == sizeof(times))
			seen.quiet = 0;
		if (!wait[0].revents)
			continue;
		if (is_last(signals, d, &asked))
			return;
		begin_end(d, &asked);
	}
	if (atomic_load(&d->unmount_failed))
		atomic_store(&d->failed, 1);
}

/* Blocks the signals that end the process, and returns a signalfd for them. */
static int await_signals(void)
{
	const struct sigaction interrupts = { .sa_handler = interrupted };
	const sigset_t ending = transport_hold_signals(SIG_BLOCK);

	signal(SIGPIPE, SIG_IGN);
	sigaction(SIGRTMIN, &interrupts, NULL);
	return signalfd(-1, &ending, SFD_CLOEXEC);
}

/* Ends the process although a worker is blocked. */
static _Noreturn void leave(struct device *d)
{
	transport_say(d->by->program, "exiting although a %s is still blocked",
		      is_answering(d) ? "request" : "worker");
	if (d->folder && atomic_load(&d->failed))
		nizwarf_fuse_detach(d->by, d->folder);
	if (d->by->left)
		d->by->left(d->by->user);
	_exit(atomic_load(&d->failed));
}

/* Ends the workers and the thread that unmounts. Returns -1 if one is still blocked. */
static int end_all(struct device *d)
{
	const struct timespec pause = { 0, 5000000 };
	const uint64_t since = now();
	int left;

	pthread_mutex_lock(&d->lock);
	atomic_store(&d->stop, 1);
	pthread_cond_broadcast(&d->call);
	pthread_mutex_unlock(&d->lock);
	/* A first worker that does not return may still start others, but those that it has counted have a
	 * thread. */
	left = end(&d->worker[0], since);
	for (unsigned i = 1; i <= atomic_load(&d->others); i++)
		left |= end(&d->worker[i], since);
	while (d->is_unmounting && pthread_tryjoin_np(d->unmounts, NULL) == EBUSY) {
		if (was_awaited(d, since))
			return -1;
		nanosleep(&pause, NULL);
	}
	return left;
}

/* Serves until the workers have ended. Returns whether they failed. */
static int serve(struct device *d, int device, int signals)
{
	if (start(d, 0, device))
		return 1;
	wait_for_end(d, signals);
	/* If the device is a socket, sending a reply may take as long as its peer wants. */
	if (later_end(&d->later, MOST_LATE) || let_notify(d->by, -1) || end_all(d))
		leave(d);
	return atomic_load(&d->failed);
}

/* Descriptors below 0 were never open. */
static void close_each(const int *fds, size_t count)
{
	for (size_t i = 0; i < count; i++)
		if (fds[i] >= 0)
			close(fds[i]);
}

int fuse_device_serve(const nizwarf_transport *by, const struct fuse_prepared *prepared, int device,
		      const char *folder)
{
	struct device *d = calloc(1, sizeof(*d));
	const int own[] = { await_signals(), eventfd(0, EFD_CLOEXEC), eventfd(0, EFD_CLOEXEC) };
	int is_wrong = 1;

	if (d && own[0] >= 0 && own[1] >= 0 && own[2] >= 0) {
		d->by = by;
		d->over = own[1];
		d->busy = own[2];
		atomic_store(&d->wanted, 1);
		pthread_mutex_init(&d->lock, NULL);
		pthread_cond_init(&d->call, NULL);
		pthread_mutex_init(&d->reading, NULL);
		d->folder = folder;
		if (prepared)
			d->prepared = *prepared;
		d->made = d->prepared.rings;
		is_wrong = serve(d, device, own[0]);
		if (d->made)
			fuse_ring_end(d->made);
	} else {
		say(by, "create a signalfd or an eventfd");
		if (prepared && prepared->rings)
			fuse_ring_end(prepared->rings);
		close(device);
	}
	if (is_wrong && folder)
		nizwarf_fuse_detach(by, folder);
	close_each(own, sizeof(own) / sizeof(*own));
	free(d);
	return is_wrong;
}

/* If the struct is of an earlier header, the fields that it lacks are 0. */
int nizwarf_fuse_serve(const nizwarf_transport *by, int device, const char *folder)
{
	nizwarf_transport own = { .size = sizeof(own) };

	if (transport_check(by))
		return close(device), 1;
	memcpy(&own, by, by->size);
	return fuse_device_serve(&own, NULL, device, folder);
}
