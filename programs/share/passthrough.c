/* A passthrough, for the transports: passthrough.h. passthrough_new() creates the objects that workers share,
 * passthrough_begin() those of each worker, on its own thread, and passthrough_serve() replies to a request there.
 * passthrough_end() must be called after the last worker has ended; a thread that still waits for a lock of the
 * host may remain, and then nothing is freed. */
#define _GNU_SOURCE
#include <errno.h>
#include <linux/fuse.h>
#include <linux/magic.h>
#include <stdio.h>
#include <stdlib.h>
#include <string.h>
#include <sys/stat.h>
#include <sys/vfs.h>
#include <time.h>
#include <unistd.h>
#include "passthrough_call.h"
#include "passthrough_watch.h"
#include "say.h"

/* In milliseconds: how long a client may cache something. */
enum { NO_TIME = 0, LONG_TIME = 86400000 };
/* The enabled features, besides locks. */
enum { OFFERS = NIZWARF_FEATURE_STATX | NIZWARF_FEATURE_COPY_64 | NIZWARF_FEATURE_TMPFILE };
/* How many descriptors a worker's call opens and closes: those of two nodes, and one more. */
enum { PASSING = 3 };

/* ---- pieces of requests and reply buffers */

/* Adds a piece of at most `*left` bytes. */
static bool add_piece(struct worker *w, size_t *count, void *at, size_t len, size_t *left)
{
	len = len < *left ? len : *left;
	*left -= len;
	if (!len)
		return true;
	if (!grow(&w->pieces, &w->pieces_size, (*count + 1) * sizeof(*w->pieces)))
		return false;
	w->pieces[(*count)++] = (struct iovec){ at, len };
	return true;
}

/* Finds the data of a WRITE in the request. Returns the number of pieces, or -1. */
static ssize_t find_data(struct worker *w, const nizwarf_call *asked, const struct iovec *request,
			 size_t segments)
{
	size_t count = 0, skip = asked->data.at, left = asked->data.len;

	left = left < asked->size ? left : asked->size;
	for (size_t i = 0; i < segments && left; i++) {
		const size_t past = skip < request[i].iov_len ? skip : request[i].iov_len;

		skip -= past;
		/* (pwritev(2) requires pointers to non-constant data) */
		if (!add_piece(w, &count, (uint8_t *)(uintptr_t)request[i].iov_base + past,
			       request[i].iov_len - past, &left))
			return -1;
	}
	return (ssize_t)count;
}

/* Finds the part of the reply buffer for the data of a READ. Returns the number of pieces, or -1. */
static ssize_t find_room(struct worker *w, const nizwarf_call *asked, const struct iovec *room, size_t rooms)
{
	size_t count = 0, skip = HEADER, left = nizwarf_read_max(asked);

	left = left < asked->size ? left : asked->size;
	for (size_t i = 0; i < rooms && left; i++) {
		const size_t past = skip < room[i].iov_len ? skip : room[i].iov_len;

		skip -= past;
		if (!add_piece(w, &count, (uint8_t *)room[i].iov_base + past, room[i].iov_len - past, &left))
			return -1;
	}
	return (ssize_t)count;
}

/* ---- requests */

/* How many times an operation that must not fail is retried when out of memory. */
enum { TRIES = 10000 };

/* Waits for a millisecond. */
static void let_pass(void)
{
	const struct timespec pause = { 0, 1000000 };

	nanosleep(&pause, NULL);
}

/* Stores the negotiated options of a client, unless it has disconnected. */
static void agree_on(struct passthrough *all, unsigned client, uint64_t options)
{
	pthread_mutex_lock(&all->agreeing);
	if (is_client(&all->nodes, client))
		atomic_store(&all->agreed, options);
	pthread_mutex_unlock(&all->agreeing);
}

/* Makes the call, and undoes lookups and opens that the client does not get. */
static int32_t answer_call(struct call *call, const nizwarf_session *session, const struct iovec *room,
			   size_t rooms, ssize_t pieces, nizwarf_result *result)
{
	struct passthrough *all = call->all;
	const nizwarf_call *asked = call->asked;
	nizwarf_answer *answer = call->answer;
	int32_t code;

	call->data = call->worker->pieces;
	call->pieces = pieces < 0 ? 0 : (size_t)pieces;
	answer->error = pieces < 0 ? ENOMEM : make_call(call);
	/* (the thread that waits for the lock replies) */
	if (answer->error == LOCK_WAITS && asked->opcode == NIZWARF_SETLKW)
		return NIZWARF_CALL;
	/* (the scratch memory that decoded the request suffices for the reply) */
	code = nizwarf_encode(&call->worker->slot, session, asked, answer, room, rooms, result);
	if (asked->opcode == NIZWARF_INIT || asked->opcode == NIZWARF_DESTROY)
		agree_on(all, call->client, result->options);
	if (result->forget)
		node_forget(&all->nodes, call->client, result->forget, 1);
	if (asked->opcode == NIZWARF_READDIR)
		for (size_t i = result->entries; i < answer->items_len; i++)
			if (answer->items[i].entry.node)
				node_forget(&all->nodes, call->client, answer->items[i].entry.node, 1);
	if (code != NIZWARF_OK && answer->has_handle)
		file_release(&all->nodes, call->client, answer->handle);
	return code;
}

/* Returns whether a request releases something. Its client assumes that it did, whatever the reply is. */
static bool gives_back(const struct iovec *request)
{
	struct fuse_in_header header;

	if (request->iov_len < sizeof(header))
		return false;
	memcpy(&header, request->iov_base, sizeof(header));
	return header.opcode == FUSE_FORGET || header.opcode == FUSE_BATCH_FORGET ||
	       header.opcode == FUSE_RELEASE || header.opcode == FUSE_RELEASEDIR ||
	       header.opcode == FUSE_DESTROY;
}

/* Returns the request in one piece, which the codec decodes faster. (If it is not in one piece, it is a WRITE, of
 * which the codec reads only the first piece; the memory after that suffices for all of it.) */
static struct iovec in_one(const struct iovec *request, size_t segments)
{
	struct iovec whole = { request->iov_base, 0 };

	for (size_t i = 0; i < segments; i++)
		whole.iov_len += request[i].iov_len;
	return whole;
}

/* Decodes a request. If memory is short, a request that releases something waits for up to ten seconds. */
static int32_t ask(struct worker *w, const nizwarf_session *session, uint32_t offers,
		   const struct iovec *request, const struct iovec *room, size_t rooms, nizwarf_call *asked,
		   nizwarf_result *result)
{
	int32_t code = NIZWARF_OUT_OF_MEMORY;

	for (int tries = 0; code == NIZWARF_OUT_OF_MEMORY && tries < TRIES; tries++) {
		if (tries && !gives_back(request))
			break;
		if (tries)
			let_pass();
		code = nizwarf_decode(&w->slot, session, offers, request, 1, room, rooms, asked, result);
	}
	return code;
}

int32_t passthrough_serve(void *user, unsigned worker, const struct iovec *request, size_t segments,
			  const struct iovec *room, size_t rooms, size_t *len)
{
	struct passthrough *all = user;
	struct worker *w = all->worker[worker];
	const struct iovec whole = in_one(request, segments);
	const nizwarf_session session = { atomic_load(&all->agreed), 4096, all->options.payload };
	nizwarf_answer answer = NIZWARF_ANSWER_INIT;
	nizwarf_call asked;
	nizwarf_result result = { 0 };
	struct call call = { .all = all,
			     .worker = w,
			     .client = vhost_user_client(),
			     .asked = &asked,
			     .request = request->iov_base,
			     .data = NULL,
			     .pieces = 0,
			     .node = { NULL, -1, -1 },
			     .other = { NULL, -1, -1 },
			     .file = NULL,
			     .answer = &answer };
	ssize_t pieces = 0;
	int32_t code;

	code = ask(w, &session, all->offers, &whole, room, rooms, &asked, &result);
	if (result.interrupts && all->locks)
		locks_interrupt(all->locks, call.client, result.interrupts);
	if (code != NIZWARF_CALL) {
		*len = result.len;
		return code;
	}
	if (asked.opcode == NIZWARF_WRITE)
		pieces = find_data(w, &asked, request, segments);
	else if (asked.opcode == NIZWARF_READ)
		pieces = find_room(w, &asked, room, rooms);
	code = answer_call(&call, &session, room, rooms, pieces, &result);
	*len = result.len;
	return code;
}

/* ---- start and end */

int passthrough_begin(void *user, unsigned worker)
{
	struct passthrough *all = user;

	/* (a worker may replace another one) */
	if (!all->worker[worker])
		all->worker[worker] = calloc(1, sizeof(struct worker));
	if (!all->worker[worker]) {
		transport_say("nizwarf-share", "cannot start a worker: out of memory");
		return 1;
	}
	if (begin_worker(all->worker[worker], &all->options)) {
		transport_say("nizwarf-share", "cannot start a worker: %s", strerror(errno));
		return 1;
	}
	if (!worker && all->nodes.watch && (errno = watch_start(all->nodes.watch))) {
		transport_say("nizwarf-share", "cannot start --watch: %s", strerror(errno));
		return 1;
	}
	return 0;
}

void passthrough_finish(void *user, unsigned worker)
{
	struct worker *w = ((struct passthrough *)user)->worker[worker];

	nizwarf_scratch_free(&w->slot);
}

/* The objects of a client that has disconnected, removed from the tables. It is freed by the thread that closes
 * them. */
struct left {
	struct passthrough *all;
	struct holder *locks;
	struct gone gone;
};

static void *close_left(void *given)
{
	struct left *left = given;
	struct passthrough *all = left->all;

	nodes_let_go(&left->gone);
	if (all->locks)
		locks_let_go(all->locks, left->locks);
	files_let_go(&left->gone);
	free(left);
	atomic_fetch_sub(&all->closing, 1);
	return NULL;
}

/* Closes them on a separate thread, and waits for it for a second, as for a request: otherwise the next client
 * would lack these descriptors and meet these locks; but a file system that does not respond must not block it. */
static void await_closed(struct left *left)
{
	struct timespec until;
	pthread_t thread;

	atomic_fetch_add(&left->all->closing, 1);
	if (pthread_create(&thread, NULL, close_left, left)) {
		close_left(left);
		return;
	}
	clock_gettime(CLOCK_REALTIME, &until);
	until.tv_sec++;
	if (pthread_timedjoin_np(thread, NULL, &until))
		pthread_detach(thread);
}

void passthrough_parted(void *user)
{
	struct passthrough *all = user;
	struct left *left = calloc(1, sizeof(*left));
	/* (first, so that a late request of the old client adds and removes nothing) */
	const unsigned next = atomic_fetch_add(&all->nodes.clients, 1) + 1;

	if (left) {
		left->all = all;
		left->locks = all->locks ? locks_take_all(all->locks, next) : NULL;
		nodes_take_all(&all->nodes, next, &left->gone);
	} else {
		if (all->locks)
			locks_forget_all(all->locks, next);
		nodes_forget_all(&all->nodes, next);
	}
	agree_on(all, next, 0);
	atomic_store(&all->lacks_option, false);
	if (left)
		await_closed(left);
}

/* Ends all waits for locks. */
void passthrough_recall(void *user)
{
	struct passthrough *all = user;

	if (all->locks)
		locks_recall(all->locks);
}

/* Checks whether the directory is on a local file system. There, closing a descriptor has no effect on the data,
 * and a read that ends within a page has reached the end of the file. Returns -1 on error. */
static int look_at_folder(struct passthrough *all, int root)
{
	struct statfs result;
	struct stat seen;

	if (fstatfs(root, &result) || fstat(root, &seen))
		return -1;
	all->is_local = result.f_type == EXT4_SUPER_MAGIC || result.f_type == XFS_SUPER_MAGIC ||
			result.f_type == BTRFS_SUPER_MAGIC || result.f_type == TMPFS_MAGIC;
	all->local_device = seen.st_dev;
	/* (the smallest depth that suffices, so that another file system can be stacked on the mount) */
	all->stack_depth = result.f_type == OVERLAYFS_SUPER_MAGIC || result.f_type == ECRYPTFS_SUPER_MAGIC ||
					   result.f_type == FUSE_SUPER_MAGIC ?
				   2 :
				   1;
	all->numbers = numbers_new(seen.st_dev);
	return all->numbers ? 0 : -1;
}

static void free_passthrough(struct passthrough *all)
{
	if (all->nodes.chains)
		nodes_end(&all->nodes);
	watch_free(all->nodes.watch);
	numbers_free(all->numbers);
	for (unsigned i = 0; i < NIZWARF_MAX_WORKERS; i++) {
		struct worker *w = all->worker[i];

		if (!w)
			continue;
		free(w->items);
		free(w->names);
		free(w->pieces);
		free(w);
	}
	backings_free(all->backings);
	pthread_mutex_destroy(&all->agreeing);
	free(all);
}

/* Sets how long a client may cache names and attributes. */
static void set_times(struct passthrough *all)
{
	const struct passthrough_options *options = &all->options;
	const uint64_t time = options->cache == CACHE_NEVER ? NO_TIME :
			      options->cache == CACHE_AUTO  ? SHORT_TIME :
							      LONG_TIME;

	all->entry_time = options->entry_time == AS_CACHE_SAYS ? time : options->entry_time;
	all->attr_time = options->attr_time == AS_CACHE_SAYS ? time : options->attr_time;
	all->file_time = all->attr_time;
	/* (with passthrough, a client does not notice the times that change by writes to its mappings) */
	if (options->passthrough && options->attr_time == AS_CACHE_SAYS && time > SHORT_TIME)
		all->file_time = SHORT_TIME;
}

struct passthrough *passthrough_new(int root, int proc, const struct passthrough_options *options)
{
	struct passthrough *all = calloc(1, sizeof(*all));

	if (!all)
		return NULL;
	all->options = *options;
	pthread_mutex_init(&all->agreeing, NULL);
	set_times(all);
	all->offers = OFFERS | (options->flock || options->posix_lock ? NIZWARF_FEATURE_LOCKS : 0) |
		      (options->passthrough ? NIZWARF_FEATURE_INIT : 0);
	/* Without a cache of attributes there is no writeback cache: the kernel would return wrong times. */
	if (options->cache == CACHE_NEVER || options->cache == CACHE_METADATA)
		all->options.writeback = false;
	for (unsigned i = 0; i < options->workers && i < NIZWARF_MAX_WORKERS; i++) {
		all->worker[i] = calloc(1, sizeof(struct worker));
		if (!all->worker[i]) {
			free_passthrough(all);
			return NULL;
		}
	}
	if (look_at_folder(all, root) ||
	    nodes_begin(&all->nodes, root, proc, options->file_handles, options->no_devices,
			options->most_nodes, options->other_descriptors + PASSING * options->workers)) {
		free_passthrough(all);
		return NULL;
	}
	if (((options->flock || options->posix_lock) && !(all->locks = locks_new(&all->nodes))) ||
	    (options->passthrough && !(all->backings = backings_new(options->backing)))) {
		free_passthrough(all);
		return NULL;
	}
	return all;
}

int passthrough_watch(struct passthrough *all)
{
	const struct passthrough_options *options = &all->options;
	struct watch *watch;

	if (!options->notices)
		return 0;
	watch = watch_new(all->nodes.proc, options->notices, options->negative_time != 0);
	if (!watch)
		return -1;
	/* (on other file systems, others may change a file where this host does not notice it) */
	if (!all->is_local)
		fputs("nizwarf-share: warning: --watch: the directory is not on ext4, xfs, btrfs or tmpfs: names and "
		      "attributes are cached for one second\n",
		      stderr);
	nodes_watch(&all->nodes, watch, all->is_local ? all->local_device : 0);
	return 0;
}

void passthrough_end(struct passthrough *all)
{
	/* (a thread that waits for the host still uses the objects) */
	if (!atomic_load(&all->closing) && (!all->locks || locks_free(all->locks)))
		free_passthrough(all);
}
