/* Files that a client's kernel reads and writes itself: passthrough_backing.h. As long as a file is open, Linux
 * accesses it either by its cache or by passthrough, and with a single backing file: an open of the other kind
 * fails. So the first open of a node decides for all, until the RELEASE of the last one, which Linux sends once it
 * has released the backing file. A file that cannot be registered, because of memory, a limit, or too many stacked
 * file systems, is read and written by requests as usual.
 *
 * If an open requires something that Linux would not do, the file is registered, but used only for its mappings;
 * reads and writes are requests that bypass the cache. This applies to O_APPEND, which Linux keeps as it was at
 * first; to O_DIRECT, whose rules differ from those of requests; and to a file with a set-user-ID or set-group-ID
 * bit, which not every writer clears.
 *
 * Workers call it. `lock` protects the chains, and how often each node is open; `asking` is held while the other
 * process handles a request, which may take seconds. The two locks are never held together. */
#define _GNU_SOURCE
#include <errno.h>
#include <fcntl.h>
#include <linux/fuse.h>
#include <stdio.h>
#include <stdlib.h>
#include <string.h>
#include <sys/stat.h>
#include <unistd.h>
#include "passthrough_backing.h"
#include "passthrough_call.h"
#include "say.h"

enum { CHAINS = 1024 };

struct backing {
	struct backings *of;
	uint64_t node;
	/* 0: the file is read and written by requests. */
	int number;
	/* Under the lock. */
	unsigned opens;
	struct backing *next;
};

struct backings {
	int socket;
	/* No more files can be registered. */
	atomic_bool is_over;
	/* Serializes requests to the other process. */
	pthread_mutex_t asking;
	pthread_mutex_t lock;
	struct backing *chains[CHAINS];
};

struct backings *backings_new(int socket)
{
	struct backings *all = calloc(1, sizeof(*all));

	if (!all)
		return NULL;
	all->socket = socket;
	pthread_mutex_init(&all->asking, NULL);
	pthread_mutex_init(&all->lock, NULL);
	return all;
}

void backings_free(struct backings *all)
{
	if (!all)
		return;
	close(all->socket);
	pthread_mutex_destroy(&all->asking);
	pthread_mutex_destroy(&all->lock);
	free(all);
}

/* Stops registering files, and prints a message once. */
static void end_numbers(struct backings *all, int error)
{
	if (!atomic_exchange(&all->is_over, true))
		transport_say("nizwarf-share",
			      "warning: --passthrough failed: %s: files are read and written by requests",
			      strerror(error));
}

/* Opens the file again for registration, because the owner of a file that is open for writing could not execute it
 * as long as somebody reads it. Returns -1 on error. */
static int open_to_name(const struct call *call, int fd)
{
	return open_again(&call->all->nodes, fd, O_RDONLY | O_NONBLOCK | O_NOCTTY);
}

/* Registers an open file and returns its number, or 0. */
static int number_of(const struct call *call, int fd)
{
	struct backings *all = call->all->backings;
	const bool is_read = (fcntl(fd, F_GETFL) & O_ACCMODE) == O_RDONLY;
	const int named = is_read ? fd : open_to_name(call, fd);
	int number = 0;

	if (named < 0)
		return 0;
	pthread_mutex_lock(&all->asking);
	if (!atomic_load(&all->is_over))
		number = fuse_backing_open(all->socket, named);
	pthread_mutex_unlock(&all->asking);
	/* (other errors may concern only this file: the next one is tried again) */
	if (number == -EPIPE || number == -EPERM)
		end_numbers(all, -number);
	if (!is_read)
		close(named);
	return number > 0 ? number : 0;
}

/* Returns whether the file supports O_DIRECT, because Linux opens it with that too. */
static bool takes_direct(const struct call *call, int fd)
{
	const int direct = open_again(&call->all->nodes, fd, O_RDONLY | O_DIRECT | O_NONBLOCK | O_NOCTTY);

	return direct >= 0 && !close(direct);
}

/* Returns whether Linux would fail this open: it has O_DIRECT, and the file does not support that. */
static bool is_refused(const struct call *call, int fd)
{
	return call->asked->flags & O_DIRECT && !takes_direct(call, fd);
}

/* ---- the table */

static struct backing **chain_of(struct backings *all, uint64_t node)
{
	return &all->chains[(node ^ node >> 10) % CHAINS];
}

/* Adds an open of a node. If it is the first one, it becomes `made`, unless that is NULL. Returns the open, or
 * NULL. */
static struct backing *add_open(struct backings *all, uint64_t node, struct backing *made)
{
	struct backing *found, **chain = chain_of(all, node);

	pthread_mutex_lock(&all->lock);
	found = *chain;
	while (found && found->node != node)
		found = found->next;
	if (!found && made) {
		found = made;
		made->next = *chain;
		*chain = made;
	}
	if (found)
		found->opens++;
	pthread_mutex_unlock(&all->lock);
	return found;
}

/* (this does not wait for a reply, so any thread may do it while another one waits for one) */
static void free_backing(struct backing *backing)
{
	if (backing->number)
		fuse_backing_close(backing->of->socket, backing->number);
	free(backing);
}

int backing_take(const struct call *call, uint64_t node, int fd, struct backing **taken)
{
	struct backings *all = call->all->backings;
	struct backing *found, *made;

	*taken = NULL;
	if (!all || !(atomic_load(&call->all->agreed) & NIZWARF_PASSTHROUGH))
		return 0;
	/* The file is registered without the lock, so another open of the node may be the first one meanwhile;
	 * then that one decides. */
	found = add_open(all, node, NULL);
	if (!found) {
		made = calloc(1, sizeof(*made));
		if (!made)
			return ENOMEM;
		*made = (struct backing){ .of = all,
					  .node = node,
					  .number = is_refused(call, fd) ? 0 : number_of(call, fd) };
		found = add_open(all, node, made);
		/* (another open came first and decides; this registration is undone) */
		if (found != made)
			free_backing(made);
	}
	if (found->number && is_refused(call, fd)) {
		backing_put(found);
		return EINVAL;
	}
	*taken = found;
	return 0;
}

void backing_put(struct backing *backing)
{
	struct backings *all = backing ? backing->of : NULL;
	struct backing **at;
	bool is_last;

	if (!all)
		return;
	at = chain_of(all, backing->node);
	pthread_mutex_lock(&all->lock);
	is_last = !--backing->opens;
	while (is_last && *at != backing)
		at = &(*at)->next;
	if (is_last)
		*at = backing->next;
	pthread_mutex_unlock(&all->lock);
	if (is_last)
		free_backing(backing);
}

int backing_tell(const struct call *call, const struct backing *backing, int fd)
{
	nizwarf_answer *answer = call->answer;
	struct stat seen;

	if (!backing)
		return 0;
	/* (data that were read by requests may be outdated) */
	answer->open_flags &= ~(uint32_t)FOPEN_KEEP_CACHE;
	if (!backing->number)
		return 0;
	answer->open_flags = 0;
	if (call->asked->flags & (O_APPEND | O_DIRECT) || fstat(fd, &seen) ||
	    seen.st_mode & (S_ISUID | S_ISGID))
		answer->open_flags = FOPEN_DIRECT_IO;
	nizwarf_answer_backing(answer, (uint32_t)backing->number);
	return 1;
}
