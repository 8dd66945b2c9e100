/* A watch of the files that a client knows: passthrough_watch.h. It uses fanotify(7), which reports changes of a
 * file by whichever name, and whether this process made them. A client's own changes need no notification. Only
 * single files are marked, which requires no capability, and no file is reported that the server cannot open.
 * Files are identified by their handles.
 *
 * A separate thread sends the notifications, because the kernel may wait in one for requests that must be served
 * meanwhile. A name that is looked up meanwhile is dropped after the reply, for which the notification waits;
 * attributes that are sent meanwhile are dropped by the kernel, if it has the file already. So attributes are
 * cached for long if GETATTR or STATX returned them, and for a second if the entry of a new file did.
 *
 * If there are more events than the thread can read, or events are lost, all that the client caches is invalid:
 * its names by INC_EPOCH, which Linux supports since 6.16, and the attributes and data of each file. Before 6.16
 * names are cached for a minute. Writes to a mapping are reported once it is closed.
 *
 * Workers add and remove files, each under the lock of its part. The thread finds files under one such lock at a
 * time, and sends no notification under any. A node may be removed between the two: no other node gets its number,
 * and the kernel refuses a notification for a node that it does not know. */
#define _GNU_SOURCE
#include <errno.h>
#include <fcntl.h>
#include <poll.h>
#include <pthread.h>
#include <stdatomic.h>
#include <stddef.h>
#include <stdio.h>
#include <stdlib.h>
#include <string.h>
#include <sys/eventfd.h>
#include <sys/fanotify.h>
#include <time.h>
#include <unistd.h>
#include "passthrough_mounts.h"
#include "passthrough_watch.h"
#include "say.h"

/* PARTS: the number of parts of the table; FIRST_CHAINS: the initial number of chains of each; EVENTS: the size of
 * a read; MOST_ALIKE: how many nodes of one file there may be; CHANGED: how many changed files are collected, of
 * which half are used so that a free place is near; EACH: how many nodes of a chain are reported under one lock. */
enum { PARTS = 64, FIRST_CHAINS = 64, EVENTS = 65536, MOST_ALIKE = 64, CHANGED = 4096, EACH = 256 };
/* In milliseconds: how long events are collected; how long the thread rests after events were lost; how often it
 * checks whether there is a client; and how long names are cached if they cannot be invalidated all at once. */
enum { GATHER = 1, REST = 100, LOOK = 20, MINUTE = 60000 };
/* How many times pending events are read and ignored, because everything is invalidated. */
enum { MOST_DRAINED = 64 };

/* The fanotify events: for a directory, changes of its entries, also those that are directories, and of its own
 * attributes; for a file, changes of its data and attributes, and that it was closed after it was open for
 * writing. */
#define IN_DIRECTORY (FAN_CREATE | FAN_DELETE | FAN_MOVED_FROM | FAN_MOVED_TO)
#define OF_DIRECTORY (IN_DIRECTORY | FAN_ATTRIB | FAN_ONDIR)
#define OF_FILE (FAN_MODIFY | FAN_CLOSE_WRITE | FAN_ATTRIB)

/* A watched file. It belongs to its node, and is freed with it. `next` is protected by the lock of its part;
 * fields without a comment do not change. */
struct watched {
	struct watched *next;
	/* 0: no client knows the file yet. */
	atomic_ullong node;
	uint64_t hash;
	bool is_directory;
	/* The type of the handle, and its bytes. */
	uint32_t size, type;
	unsigned char bytes[];
};

/* Files by their handles. A mark is added and removed under the lock, because another node may have the same file. */
struct part {
	pthread_mutex_t lock;
	struct watched **chains;
	size_t size, count;
};

/* A file whose attributes, or data too, must be invalidated. */
struct changed {
	uint64_t node;
	bool has_data;
};

struct watch {
	/* The descriptors of the fanotify group, of /proc/self/fd, which it does not own, and of an eventfd that
	 * ends the thread. `own` is the id of this process in events. */
	int group, proc, stop;
	pid_t own;
	nizwarf_fuse_notices *notices;
	bool knows_none, is_started;
	/* Whether all names can be invalidated at once: 1, or -1 if not, or 0 if it is not known yet. */
	atomic_int has_epoch;
	atomic_bool said;
	pthread_t thread;
	struct part parts[PARTS];
	/* Used only by the thread: events were lost; and the files that have changed. */
	bool is_lost;
	size_t count;
	struct changed changed[CHANGED];
	_Alignas(struct fanotify_event_metadata) char events[EVENTS];
};

/* FNV-1a over the type and the bytes of a handle, with a last step because chains use the lower bits. */
static uint64_t hash_of(const struct file_handle *handle)
{
	uint64_t hash = UINT64_C(0xcbf29ce484222325) ^ (uint32_t)handle->handle_type;

	for (unsigned i = 0; i < handle->handle_bytes; i++)
		hash = (hash ^ handle->f_handle[i]) * UINT64_C(0x100000001b3);
	return hash ^ hash >> 29;
}

static struct part *part_of(struct watch *all, uint64_t hash)
{
	return &all->parts[hash % PARTS];
}

static struct watched **chain_of(const struct part *part, uint64_t hash)
{
	return &part->chains[hash / PARTS % part->size];
}

/* Returns whether a handle is that of a watched file. */
static bool is_of(const struct watched *watched, uint64_t hash, const struct file_handle *handle)
{
	return watched->hash == hash && watched->type == (uint32_t)handle->handle_type &&
	       watched->size == handle->handle_bytes &&
	       !memcmp(watched->bytes, handle->f_handle, watched->size);
}

struct watch *watch_new(int proc, nizwarf_fuse_notices *notices, bool knows_none)
{
	struct watch *all = calloc(1, sizeof(*all));

	if (!all)
		return NULL;
	all->group = fanotify_init(FAN_CLASS_NOTIF | FAN_CLOEXEC | FAN_NONBLOCK | FAN_REPORT_FID |
					   FAN_REPORT_DFID_NAME,
				   O_RDONLY | O_CLOEXEC);
	all->stop = all->group < 0 ? -1 : eventfd(0, EFD_CLOEXEC);
	if (all->stop < 0) {
		if (all->group >= 0)
			close(all->group);
		free(all);
		return NULL;
	}
	all->proc = proc;
	all->own = getpid();
	all->notices = notices;
	all->knows_none = knows_none;
	for (int i = 0; i < PARTS; i++)
		pthread_mutex_init(&all->parts[i].lock, NULL);
	return all;
}

void watch_free(struct watch *all)
{
	const uint64_t one = 1;

	if (!all)
		return;
	if (all->is_started && write(all->stop, &one, sizeof(one)) == sizeof(one))
		pthread_join(all->thread, NULL);
	close(all->group);
	close(all->stop);
	for (int i = 0; i < PARTS; i++) {
		pthread_mutex_destroy(&all->parts[i].lock);
		free(all->parts[i].chains);
	}
	free(all);
}

uint64_t watch_longest(const struct watch *all)
{
	return atomic_load(&all->has_epoch) > 0 ? UINT64_MAX : MINUTE;
}

/* ---- files */

/* Doubles the number of chains. Returns false if out of memory and there are no chains yet. */
static bool grow_part(struct part *part)
{
	const size_t size = part->size ? 2 * part->size : FIRST_CHAINS;
	struct watched **old = part->chains;
	const size_t count = part->size;
	struct watched **chain, *next;

	if (part->count < part->size)
		return true;
	part->chains = calloc(size, sizeof(struct watched *));
	if (!part->chains) {
		part->chains = old;
		return count > 0;
	}
	part->size = size;
	for (size_t i = 0; i < count; i++)
		for (struct watched *each = old[i]; each; each = next) {
			next = each->next;
			chain = chain_of(part, each->hash);
			each->next = *chain;
			*chain = each;
		}
	free(old);
	return true;
}

/* Adds or removes the mark of a file. It uses the path in /proc, because fanotify accepts no descriptor made with
 * O_PATH. */
static int mark(const struct watch *all, unsigned how, int fd, bool is_directory)
{
	return fanotify_mark(all->group, how, is_directory ? OF_DIRECTORY : OF_FILE, all->proc,
			     name_fd(fd).bytes);
}

/* Prints once that a file cannot be watched. */
static void say_unwatched(struct watch *all, int error)
{
	if (!atomic_exchange(&all->said, true))
		transport_say(
			"nizwarf-share",
			"warning: --watch: cannot watch all files: %s: the others are cached for one second",
			strerror(error));
}

struct watched *watch_add(struct watch *all, int fd, bool is_directory)
{
	union handle_room room;
	const struct file_handle *handle = &room.handle;
	struct watched *made = NULL, **chain;
	struct part *part;
	int error = EOPNOTSUPP;

	if (handle_by(fd, &room) && (made = malloc(sizeof(*made) + handle->handle_bytes))) {
		atomic_init(&made->node, 0);
		made->is_directory = is_directory;
		made->hash = hash_of(handle);
		made->type = (uint32_t)handle->handle_type;
		made->size = handle->handle_bytes;
		memcpy(made->bytes, handle->f_handle, made->size);
		/* (an existing mark is not an error, because the host has only one for a file) */
		part = part_of(all, made->hash);
		pthread_mutex_lock(&part->lock);
		error = !grow_part(part) ? ENOMEM : mark(all, FAN_MARK_ADD, fd, is_directory) < 0 ? errno : 0;
		if (!error) {
			chain = chain_of(part, made->hash);
			made->next = *chain;
			*chain = made;
			part->count++;
		}
		pthread_mutex_unlock(&part->lock);
	}
	if (!error)
		return made;
	free(made);
	say_unwatched(all, error);
	return NULL;
}

/* (until then the thread ignores it, because the client cannot have cached anything of it) */
void watch_name(struct watched *watched, uint64_t node)
{
	atomic_store(&watched->node, node);
}

/* Returns whether another node has the same file. The lock must be held. */
static bool has_other(const struct part *part, const struct watched *watched)
{
	const struct watched *each = *chain_of(part, watched->hash);

	while (each && (each == watched || each->hash != watched->hash || each->type != watched->type ||
			each->size != watched->size || memcmp(each->bytes, watched->bytes, each->size) != 0))
		each = each->next;
	return each != NULL;
}

void watch_remove(struct watch *all, struct watched *watched, int fd)
{
	struct part *part = part_of(all, watched->hash);
	struct watched **at;

	pthread_mutex_lock(&part->lock);
	/* (if this fails, events of a file that is not watched here are ignored) */
	if (!has_other(part, watched))
		mark(all, FAN_MARK_REMOVE, fd, watched->is_directory);
	at = chain_of(part, watched->hash);
	while (*at != watched)
		at = &(*at)->next;
	*at = watched->next;
	part->count--;
	pthread_mutex_unlock(&part->lock);
	free(watched);
}

/* Finds the nodes of a file. Returns how many there are, at most MOST_ALIKE. */
static unsigned find(struct watch *all, const struct file_handle *handle, uint64_t *nodes)
{
	const uint64_t hash = hash_of(handle);
	struct part *part = part_of(all, hash);
	unsigned count = 0;

	pthread_mutex_lock(&part->lock);
	for (struct watched *each = part->size ? *chain_of(part, hash) : NULL; each && count < MOST_ALIKE;
	     each = each->next)
		if (is_of(each, hash, handle) && (nodes[count] = atomic_load(&each->node)))
			count++;
	pthread_mutex_unlock(&part->lock);
	return count;
}

/* ---- notices */

/* Sends a notification. Returns 0 or an error: ENOTCONN before INIT was replied to or after unmounting, ENOENT if
 * the kernel does not know the node or the name. Only look_for_epoch() uses the result, because the client caches
 * nothing of a node that it does not know. */
static int send_notice(struct watch *all, const void *notice, size_t len)
{
	return len ? nizwarf_fuse_notify(all->notices, notice, len, NULL, 0) : EINVAL;
}

/* Invalidates the cached attributes of a file, or its data too. (With offset -1 no data are invalidated, and with
 * length 0 all up to the end.) */
static void tell_file(struct watch *all, uint64_t node, bool has_data)
{
	unsigned char notice[64];

	send_notice(all, notice,
		    nizwarf_notice_inval_inode(node, has_data ? 0 : -1, 0, notice, sizeof(notice)));
}

/* Invalidates a name. It is dropped, instead of being looked up again, because a reply in flight could make it
 * valid again. */
static void tell_name(struct watch *all, uint64_t directory, const char *name)
{
	unsigned char notice[512];

	send_notice(all, notice,
		    nizwarf_notice_inval_entry(directory, 0, name, strlen(name), notice, sizeof(notice)));
}

/* Invalidates all names. Returns 0 or an error. */
static int tell_all_names(struct watch *all)
{
	unsigned char notice[64];

	return send_notice(all, notice, nizwarf_notice_inc_epoch(notice, sizeof(notice)));
}

/* Checks whether the client supports INC_EPOCH, once there is a client. */
static void look_for_epoch(struct watch *all)
{
	const int error = atomic_load(&all->has_epoch) ? ENOTCONN : tell_all_names(all);

	if (error != ENOTCONN)
		atomic_store(&all->has_epoch, error ? -1 : 1);
}

/* Copies the nodes of a chain from a position on. Returns how many, at most EACH, or -1 if there is no such chain. */
static int copy_chain(struct part *part, size_t at, size_t skip, uint64_t *nodes)
{
	int count = -1;

	pthread_mutex_lock(&part->lock);
	if (at < part->size) {
		count = 0;
		for (struct watched *each = part->chains[at]; each && count < EACH; each = each->next)
			if (skip)
				skip--;
			else
				nodes[count++] = atomic_load(&each->node);
	}
	pthread_mutex_unlock(&part->lock);
	return count;
}

/* Invalidates everything. (While the number of chains grows, a file may move to a chain that was not visited yet.) */
static void tell_all(struct watch *all)
{
	uint64_t nodes[EACH];

	if (atomic_load(&all->has_epoch) > 0)
		tell_all_names(all);
	for (int i = 0; i < PARTS; i++) {
		size_t at = 0, skip = 0;
		int count;

		while ((count = copy_chain(&all->parts[i], at, skip, nodes)) >= 0) {
			for (int j = 0; j < count; j++)
				if (nodes[j])
					tell_file(all, nodes[j], true);
			skip = count == EACH ? skip + EACH : 0;
			at += count < EACH;
		}
	}
}

/* ---- events */

/* Sends notifications for the collected files. */
static void tell_changed(struct watch *all)
{
	for (size_t i = 0; i < CHANGED && all->count; i++) {
		struct changed *changed = &all->changed[i];

		if (!changed->node)
			continue;
		tell_file(all, changed->node, changed->has_data);
		changed->node = 0;
		all->count--;
	}
}

/* Collects a changed file in a table with open addressing, so that a node that changes often is reported once.
 * When the table is half full it is reported and emptied, so a free place is always found. */
static void note(struct watch *all, uint64_t node, bool has_data)
{
	size_t at = (node ^ node >> 32) % CHANGED;

	if (all->count >= CHANGED / 2)
		tell_changed(all);
	while (all->changed[at].node && all->changed[at].node != node)
		at = (at + 1) % CHANGED;
	if (!all->changed[at].node) {
		all->changed[at] = (struct changed){ node, false };
		all->count++;
	}
	all->changed[at].has_data |= has_data;
}

/* Handles an event of one file: of itself, or of a name in it. (A client that knows a file by several nodes does
 * not know that its change by one of them concerns the others.) */
static void take_record(struct watch *all, uint64_t mask, bool is_own, const struct file_handle *handle,
			const char *name)
{
	const bool is_inside = name && strcmp(name, ".") != 0;
	uint64_t nodes[MOST_ALIKE];
	const unsigned count = find(all, handle, nodes);

	for (unsigned i = 0; i < count && (!is_own || count > 1); i++) {
		/* (a new name concerns only a client that caches that it does not exist) */
		if (is_inside && (mask & (IN_DIRECTORY & ~(uint64_t)FAN_CREATE) || all->knows_none))
			tell_name(all, nodes[i], name);
		note(all, nodes[i], is_inside || mask & (FAN_MODIFY | FAN_CLOSE_WRITE));
	}
}

/* Handles an event. Its records are of a file, or of a directory with a name in it, or of both if the file is
 * watched. With FAN_Q_OVERFLOW the host has lost events. */
static void take_event(struct watch *all, const struct fanotify_event_metadata *event, const char *at,
		       const char *end)
{
	const bool is_entry = event->mask & IN_DIRECTORY, is_own = event->pid == all->own;

	if (event->mask & FAN_Q_OVERFLOW) {
		all->is_lost = true;
		return;
	}
	/* Each record consists of a header, a handle, and with DFID_NAME a name that ends with a 0. The header
	 * contains the length. The kernel makes the records, so they are not checked. */
	while ((size_t)(end - at) >= sizeof(struct fanotify_event_info_fid) + sizeof(struct file_handle)) {
		const struct fanotify_event_info_fid *record = (const void *)at;
		const struct file_handle *handle = (const void *)record->handle;
		const char *name = (const char *)handle->f_handle + handle->handle_bytes;

		/* (events of a file itself also have a directory and a name, which are not needed here; "." is a
		 * directory itself) */
		if (record->hdr.info_type == FAN_EVENT_INFO_TYPE_FID ||
		    record->hdr.info_type == FAN_EVENT_INFO_TYPE_DFID)
			take_record(all, event->mask & ~(uint64_t)IN_DIRECTORY, is_own, handle, NULL);
		else if (record->hdr.info_type == FAN_EVENT_INFO_TYPE_DFID_NAME &&
			 (is_entry || !strcmp(name, ".")))
			take_record(all, event->mask, is_own, handle, name);
		at += record->hdr.len;
	}
}

/* Handles the pending events. Returns whether there were any. */
static bool take_events(struct watch *all)
{
	const ssize_t got = read(all->group, all->events, sizeof(all->events));
	const char *at = all->events, *end = got < 0 ? at : at + got;
	struct fanotify_event_metadata event;

	while ((size_t)(end - at) >= sizeof(event)) {
		/* (events are aligned to 4 bytes only) */
		memcpy(&event, at, sizeof(event));
		take_event(all, &event, at + event.metadata_len, at + event.event_len);
		at += event.event_len;
	}
	return got > 0;
}

static void let_pass(long milliseconds)
{
	const struct timespec pause = { 0, milliseconds * 1000000 };

	nanosleep(&pause, NULL);
}

/* Handles lost events. The pending events need not be read, because everything is invalidated. To limit the time,
 * it reads at most MOST_DRAINED times; later events are handled as usual. */
static void begin_anew(struct watch *all)
{
	for (int i = 0; i < MOST_DRAINED && read(all->group, all->events, sizeof(all->events)) > 0; i++)
		;
	all->is_lost = false;
	tell_all(all);
	/* (the processes that cause so much may continue) */
	let_pass(REST);
}

/* The thread, from watch_start() to watch_free(). Until it is known whether Linux supports INC_EPOCH it checks
 * every 20 milliseconds, because a notification can be sent only after INIT was replied to; then it sleeps until
 * there are events. */
static void *run(void *given)
{
	struct watch *all = given;
	struct pollfd wait[] = { { all->group, POLLIN, 0 }, { all->stop, POLLIN, 0 } };

	while (!wait[1].revents) {
		const bool is_known = atomic_load(&all->has_epoch) != 0;

		if (poll(wait, 2, is_known ? -1 : LOOK) < 0)
			continue;
		look_for_epoch(all);
		if (!take_events(all))
			continue;
		tell_changed(all);
		if (all->is_lost)
			begin_anew(all);
		else
			let_pass(GATHER);
	}
	return NULL;
}

int watch_start(struct watch *all)
{
	const int error = pthread_create(&all->thread, NULL, run, all);

	all->is_started = !error;
	return error;
}
