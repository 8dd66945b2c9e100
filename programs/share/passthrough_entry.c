/* Entries and attributes of a passthrough, and how long the client may cache them. Any number of workers may run
 * at once, without a lock.
 *
 * An entry in a reply increments the lookup count of its node, which the client decrements by FORGET. A function
 * that makes an entry but cannot return it must undo that (answer_call). */
#define _GNU_SOURCE
#include <errno.h>
#include <fcntl.h>
#include <linux/fuse.h>
#include <sys/stat.h>
#include <sys/sysmacros.h>
#include <unistd.h>
#include "passthrough_call.h"
#include "passthrough_mounts.h"
#include "passthrough_watch.h"

/* Returns whether submounts are announced to the client, which then shows each as a device of its own. */
static bool announces(const struct call *call)
{
	return call->all->options.announce_submounts && atomic_load(&call->all->agreed) & FUSE_SUBMOUNTS;
}

uint64_t inode_of(const struct call *call, uint64_t device, uint64_t inode, bool is_apart)
{
	return announces(call) && !is_apart ? inode : numbers_tell(call->all->numbers, device, inode);
}

/* Puts each field. */
static void put_attr(const struct call *call, const struct statx *seen, bool is_apart, nizwarf_attr *attr)
{
	const struct passthrough_options *options = &call->all->options;

	attr->ino = inode_of(call, device_of(seen), seen->stx_ino, is_apart);
	attr->size = seen->stx_size;
	attr->blocks = seen->stx_blocks;
	attr->atime = (uint64_t)seen->stx_atime.tv_sec;
	attr->mtime = (uint64_t)seen->stx_mtime.tv_sec;
	attr->ctime = (uint64_t)seen->stx_ctime.tv_sec;
	attr->atimensec = seen->stx_atime.tv_nsec;
	attr->mtimensec = seen->stx_mtime.tv_nsec;
	attr->ctimensec = seen->stx_ctime.tv_nsec;
	attr->mode = seen->stx_mode;
	attr->nlink = seen->stx_nlink;
	attr->uid = ids_to_client(&options->users, seen->stx_uid);
	attr->gid = ids_to_client(&options->groups, seen->stx_gid);
	attr->rdev = (uint32_t)makedev(seen->stx_rdev_major, seen->stx_rdev_minor);
	attr->blksize = seen->stx_blksize;
	/* (the caller sets it for a mount point) */
	attr->flags = 0;
}

/* Returns whether the client is notified if the attributes of this answer change: the file is watched, and the
 * client knows it already. Then it drops an answer that was in flight. */
static bool is_told_of(const struct call *call)
{
	return (call->asked->opcode == NIZWARF_GETATTR || call->asked->opcode == NIZWARF_STATX) &&
	       call->node.node->watched;
}

uint64_t name_time(const struct call *call, const struct node *directory, uint64_t time)
{
	const struct watch *watch = call->all->nodes.watch;
	/* (without --watch the configured times apply; with it, a directory that is not watched has a short time) */
	const uint64_t most = !watch ? UINT64_MAX : directory->watched ? watch_longest(watch) : SHORT_TIME;

	return time < most ? time : most;
}

/* A client with a writeback cache or passthrough does not request the mode of a file that it changed, and which
 * lost its set-user-ID bit by that. So the attributes of a file with such a bit are not cached. */
void tell_attr(const struct call *call, const struct statx *seen, bool is_apart, nizwarf_entry *entry)
{
	const struct passthrough *all = call->all;
	const bool is_file = S_ISREG(seen->stx_mode);
	const bool may_lose = is_file && seen->stx_mode & (S_ISUID | S_ISGID);
	uint64_t time = is_file ? all->file_time : all->attr_time;

	if (may_lose && (all->options.writeback || all->backings))
		time = 0;
	if (time > SHORT_TIME && all->nodes.watch && !is_told_of(call))
		time = SHORT_TIME;

	put_attr(call, seen, is_apart, &entry->attr);
	entry->attr_seconds = time / 1000;
	entry->attr_nanoseconds = (uint32_t)(time % 1000) * 1000000;
}

void tell_entry(const struct call *call, uint64_t number, const struct statx *seen, nizwarf_entry *entry)
{
	const struct passthrough *all = call->all;
	/* (a LINK is about the file's own node) */
	const struct node *node = call->node.node;
	const bool across = is_across(node, seen), is_directory = S_ISDIR(seen->stx_mode);
	const bool is_link = call->asked->opcode == NIZWARF_LINK;
	uint64_t time = name_time(call, is_link ? call->other.node : node, all->entry_time);

	/* (nothing notifies the client when the mount is removed) */
	if (across && all->nodes.watch && time > SHORT_TIME)
		time = SHORT_TIME;
	/* (tell_attr() sets the other fields) */
	entry->node = number;
	/* (a node's number is never reused, so the generation is always 0) */
	entry->generation = 0;
	entry->entry_seconds = time / 1000;
	entry->entry_nanoseconds = (uint32_t)(time % 1000) * 1000000;
	tell_attr(call, seen, node->is_apart || (across && !is_directory), entry);
	if (across && is_directory && announces(call))
		entry->attr.flags = FUSE_ATTR_SUBMOUNT;
}

struct found found_in(const struct grip *directory, const char *name)
{
	return (struct found){ directory->fd, directory->node, name };
}

int look_at(int fd, struct statx *seen)
{
	return statx(fd, "", AT_EMPTY_PATH | AT_SYMLINK_NOFOLLOW, WANTED, seen);
}

int enter(const struct call *call, const struct found *found, int fd, const struct statx *seen,
	  nizwarf_entry *entry, bool *is_new)
{
	uint64_t number;
	const int error = node_enter(&call->all->nodes, call->client, found, fd, seen, &number, is_new);

	if (!error)
		tell_entry(call, number, seen, entry);
	return error;
}

int enter_name(const struct call *call, const struct found *found, nizwarf_entry *entry, bool *is_new)
{
	const int fd = openat(found->directory, found->name, O_PATH | O_NOFOLLOW | O_CLOEXEC);
	struct statx seen;
	int error;

	if (fd >= 0 && !look_at(fd, &seen))
		return enter(call, found, fd, &seen, entry, is_new);
	error = errno;
	if (fd >= 0)
		close(fd);
	/* (nothing was opened, so neither the reserved node nor its descriptor is used) */
	node_give_back(&call->all->nodes);
	return error;
}

/* Fills in the entry of a name if its file is known, because no node can be reserved for a new one. Otherwise
 * returns `error`. */
static int find_known(const struct call *call, const struct found *found, int error, nizwarf_entry *entry)
{
	/* (for a moment, one of the descriptors that are reserved for calls) */
	const int fd = openat(found->directory, found->name, O_PATH | O_NOFOLLOW | O_CLOEXEC);
	struct statx seen;
	uint64_t number = 0;

	if (fd < 0)
		return errno;
	if (!look_at(fd, &seen))
		number = node_find_opened(&call->all->nodes, call->client, fd, &seen);
	close(fd);
	if (!number)
		return error;
	tell_entry(call, number, &seen, entry);
	return 0;
}

int look_up_new(const struct call *call, const struct found *found, nizwarf_entry *entry, bool *is_new)
{
	const int error = node_reserve(&call->all->nodes);

	return error ? find_known(call, found, error, entry) : enter_name(call, found, entry, is_new);
}

int look_up(const struct call *call, const struct found *found, nizwarf_entry *entry)
{
	bool *expects_new = &call->worker->expects_new;
	struct statx seen;
	uint64_t number;

	/* A known file is not opened again, and for a missing one this is faster too. But the result is usually of
	 * the same kind as that of the last name, so a new file is opened at once. */
	if (!*expects_new) {
		if (statx(found->directory, found->name, AT_SYMLINK_NOFOLLOW | AT_NO_AUTOMOUNT, WANTED,
			  &seen))
			return errno;
		number = node_find(&call->all->nodes, call->client, &seen);
		if (number) {
			tell_entry(call, number, &seen, entry);
			return 0;
		}
	}
	*expects_new = false;
	return look_up_new(call, found, entry, expects_new);
}
