/* Directories and extended attributes of a passthrough: READDIR and READDIRPLUS, called by passthrough_data.c, and
 * the calls of attributes, called by passthrough_call.c. Any number of workers may run at once.
 *
 * An open directory has one position and one buffer, so only one READDIR of it runs at a time, under its lock. The
 * items, names and text of a reply belong to the worker until its next call. */
#define _GNU_SOURCE
#include <dirent.h>
#include <errno.h>
#include <stdlib.h>
#include <string.h>
#include <sys/xattr.h>
#include <unistd.h>
#include "passthrough_call.h"

/* How many bytes of a directory are read at once, and how many open directories may keep a buffer of unsent
 * entries, because a client may open any number of them. */
enum { ENTRIES = 32768, MOST_BUFFERS = 256 };

/* ---- directories */

/* Seeks to an offset, if it is not where the last read ended. */
static int move_to(struct open_file *file, uint64_t offset)
{
	const bool is_first = !file->buffer;

	/* (it is freed with the open directory, or by drop_buffer()) */
	if (is_first) {
		file->buffer = malloc(ENTRIES);
		if (!file->buffer)
			return ENOMEM;
		atomic_fetch_add(&file->of->buffers, 1);
	}
	/* (at offset 0 the directory is read again, except the first time, so that rewinddir(3) shows new entries) */
	if (offset == file->offset && (offset || is_first))
		return 0;
	if (offset > INT64_MAX)
		return EINVAL;
	/* (the host refuses an invalid offset, or uses it for another position in the same directory) */
	if (lseek(file->counted.fd, (off_t)offset, SEEK_SET) < 0)
		return errno;
	file->at = file->end = 0;
	file->offset = offset;
	file->is_at_end = false;
	return 0;
}

/* Drops a buffer of unsent entries, if there are many. The host then continues after the entry that was sent last;
 * if it cannot seek there, the buffer is kept. */
static void drop_buffer(struct open_file *file)
{
	atomic_uint *buffers = &file->of->buffers;

	if (!file->buffer || atomic_load(buffers) <= MOST_BUFFERS ||
	    (file->at < file->end && lseek(file->counted.fd, (off_t)file->offset, SEEK_SET) < 0))
		return;
	free(file->buffer);
	file->buffer = NULL;
	file->at = file->end = 0;
	atomic_fetch_sub(buffers, 1);
}

/* Returns the next entry of a directory, or NULL; errno is 0 at its end. The entry is in the buffer until the next
 * read. It counts as sent once the caller has moved `at` past it. */
static const struct dirent64 *next_item(struct open_file *file)
{
	if (file->at == file->end) {
		const ssize_t got = getdents64(file->counted.fd, file->buffer, ENTRIES);

		errno = got < 0 ? errno : 0;
		file->is_at_end = !got;
		if (got <= 0)
			return NULL;
		file->at = 0;
		file->end = (size_t)got;
	}
	return (const void *)(file->buffer + file->at);
}

/* The space that the items of a listing use: of the reply, and of the worker's names. */
struct space {
	size_t room, names, count;
	bool lacks_memory;
};

/* Adds an item without an entry. Returns NULL if out of memory. New memory is zeroed, and each entry that a
 * listing used is zeroed before the next one, so that an item without an entry shows that nothing was looked up. */
static nizwarf_dirent *add_item(struct worker *w, size_t count)
{
	const size_t size = w->items_size;

	if (count < size / sizeof(nizwarf_dirent))
		return &w->items[count];
	if (!grow(&w->items, &w->items_size, 2 * size + 64 * sizeof(nizwarf_dirent)))
		return NULL;
	memset(&w->items[count], 0, w->items_size - size);
	return &w->items[count];
}

/* Removes the entries of the previous listing from its items. */
static void clear_entries(struct worker *w)
{
	for (size_t i = 0; i < w->entries; i++)
		memset(&w->items[i].entry, 0, sizeof(w->items[i].entry));
	w->entries = 0;
}

/* Fills in the entry of an item. If the file cannot be looked up, the item has only the name. Each entry counts as
 * a lookup; answer_call() undoes those that do not fit. If the name leads to another file meanwhile, the entry is
 * that file's, as with LOOKUP. */
static void find_entry(const struct call *call, const struct dirent64 *found, nizwarf_entry *entry)
{
	const struct found at = found_in(&call->node, found->d_name);

	if (node_may_be_known(&call->all->nodes, call->node.node, found->d_ino) ?
		    look_up(call, &at, entry) :
		    look_up_new(call, &at, entry, NULL))
		memset(entry, 0, sizeof(*entry));
}

/* Returns whether a listing has entries. A kernel requests them at the beginning of each listing, and continues to
 * do so if they are used. If it does not, a directory is listed by names only until one of them is looked up. */
static bool tells_entries(const struct call *call)
{
	const bool plus = call->asked->has & NIZWARF_PLUS;

	if (!plus && call->asked->offset)
		atomic_store(&call->node.node->lists_names, true);
	return plus && (call->asked->offset || !atomic_load(&call->node.node->lists_names));
}

/* Adds a directory entry to the worker's items. Returns false if it does not fit, or if out of memory. */
static bool put_item(const struct call *call, const struct dirent64 *found, bool entries, struct space *space)
{
	const bool plus = call->asked->has & NIZWARF_PLUS;
	const size_t len = strlen(found->d_name) + 1, size = nizwarf_record_size(len, plus);
	struct worker *w = call->worker;
	nizwarf_dirent *item;

	if (size > space->room)
		return false;
	item = add_item(w, space->count);
	space->lacks_memory = !item;
	if (!item)
		return false;
	/* (for a mount point this is the inode below it, as on the host; and on a file system with several
	 * devices, such as overlayfs, statx(2) may return another number) */
	item->ino = inode_of(call, call->node.node->on->device, found->d_ino, false);
	item->offset = (uint64_t)found->d_off;
	item->type = found->d_type;
	item->name = memcpy(w->names + space->names, found->d_name, len);
	item->name_size = len;
	if (entries && is_plain(found->d_name))
		find_entry(call, found, &item->entry);
	/* The directory above the shared one is not shown: `..` is the shared directory itself, as in /. */
	if (call->node.node->counted.number == ROOT_NODE && !strcmp(found->d_name, ".."))
		item->ino = inode_of(call, call->node.node->on->device, call->node.node->inode, false);
	space->names += len;
	space->room -= size;
	space->count++;
	return true;
}

/* Adds the items that fit to the worker's, under the lock of the file. Returning 0 without an item means the end
 * of the directory. (Linux always leaves space for at least one.) An error after some items is ignored: if it
 * persists, the next READDIR returns it. */
static int list(const struct call *call)
{
	struct worker *w = call->worker;
	struct open_file *file = call->file;
	struct space space = { .room = call->asked->size };
	const struct dirent64 *next = NULL;
	int error = move_to(file, call->asked->offset);
	bool entries;

	clear_entries(w);
	/* Names are copied, because the buffer changes; each record in the reply is longer than its name. */
	if (!error && !grow(&w->names, &w->names_size, space.room))
		error = ENOMEM;
	/* The end of the listing is returned once to a client that continues to read. */
	if (!error && file->is_at_end) {
		file->is_at_end = false;
		return 0;
	}
	next = error ? NULL : next_item(file);
	entries = next && tells_entries(call);
	for (; next && put_item(call, next, entries, &space); next = next_item(file)) {
		file->offset = (uint64_t)next->d_off;
		file->at += next->d_reclen;
	}
	if (!error && !next && !space.count)
		error = errno;
	/* (a listing without an item means the end of the directory) */
	if (!space.count)
		file->is_at_end = false;
	if (!error && next && !space.count && space.lacks_memory)
		error = ENOMEM;
	w->entries = entries ? space.count : 0;
	call->answer->items = w->items;
	call->answer->items_len = space.count;
	return error;
}

int read_directory(const struct call *call)
{
	int error;

	if (!call->file->is_directory)
		return ENOTDIR;
	pthread_mutex_lock(&call->file->lock);
	error = list(call);
	drop_buffer(call->file);
	pthread_mutex_unlock(&call->file->lock);
	return error;
}

/* ---- extended attributes */

/* Without --posix-acl, access control lists are not shown as attributes, because the client would keep them
 * without enforcing them. */
static bool is_list(const char *name)
{
	return !strncmp(name, "system.posix_acl_", 17);
}

/* Returns 0 if an attribute is served, or an error. ENOSYS means that no attribute ever is. */
static int refused(const struct call *call, const char *name)
{
	if (!call->all->options.xattr)
		return ENOSYS;
	return name && is_list(name) && !call->all->options.posix_acl ? EOPNOTSUPP : 0;
}

/* Translates the client's name of an attribute to the host's. Returns 0, or an error if it is not served. `*name`
 * then points to the request or to `host`, which must be valid as long. */
static int find_name_of(const struct call *call, const char **name, struct xattr_name *host)
{
	const struct xattr_map *map = call->all->options.xattr_map;
	int error = refused(call, *name);

	if (error || !map)
		return error;
	error = xattr_map_to_host(map, *name, host);
	*name = host->bytes;
	return error;
}

/* With --xattrmap, file capabilities may have a name that the host does not know. So the host does not remove them
 * when the file is changed, as it does under their own name. */
int lose_capability(const struct call *call, int fd)
{
	const char *name = call->all->options.capability;
	struct fd_name file;
	int error;

	if (!name)
		return 0;
	file = name_fd(fd);
	error = failed(removexattr(file.bytes, name));
	/* (no attribute can be removed from a file that is append-only) */
	if (error == EPERM && getxattr(file.bytes, name, NULL, 0) < 0)
		error = errno;
	return error == ENODATA || error == EOPNOTSUPP ? 0 : error;
}

/* If it fails, the call fails too and removes the file, so that no file without its label remains. */
int label(const struct call *call, int fd)
{
	const nizwarf_call *asked = call->asked;
	const char *name = name_of(call, asked->context_name);
	struct xattr_name host;
	int error = find_name_of(call, &name, &host);

	return error ? error :
		       failed(setxattr(name_fd(fd).bytes, name, call->request + asked->context.at,
				       asked->context.len, 0));
}

int set_xattr(const struct call *call)
{
	const nizwarf_call *asked = call->asked;
	const char *name = name_of(call, asked->name);
	struct xattr_name host;
	int error = find_name_of(call, &name, &host);

	if (error)
		return error;
	lose_fsetid(call);
	/* (the path leads to the node itself, because the process is in /proc/self/fd. A link there is followed
	 * once, so for a symbolic link this is the link's own attribute.) */
	error = failed(setxattr(name_fd(call->node.fd).bytes, name, call->request + asked->data.at,
				asked->data.len, (int)asked->flags));
	regain_fsetid(call);
	return error;
}

int remove_xattr(const struct call *call)
{
	const char *name = name_of(call, call->asked->name);
	struct xattr_name host;
	int error = find_name_of(call, &name, &host);

	if (!error && removexattr(name_fd(call->node.fd).bytes, name))
		error = errno;
	return error;
}

/* Fills in a text of the worker, or its length if the client passed no buffer. ERANGE: the buffer is too small.
 * `got` is negative if the system call failed, with errno. */
static int tell_text(const struct call *call, ssize_t got)
{
	nizwarf_answer *answer = call->answer;

	if (got < 0)
		return errno;
	if (call->asked->size && (size_t)got > call->asked->size)
		return ERANGE;
	answer->has_count = !call->asked->size;
	answer->count = (uint64_t)got;
	answer->text = (const uint8_t *)call->worker->text;
	answer->text_len = answer->has_count ? 0 : (size_t)got;
	return 0;
}

int get_xattr(const struct call *call)
{
	const char *asked = name_of(call, call->asked->name), *name = asked;
	struct xattr_name host;
	int error = find_name_of(call, &name, &host);

	/* (if a rule refuses the name, there is no such attribute) */
	if (error)
		return error == EPERM ? ENODATA : error;
	error = tell_text(call,
			  getxattr(name_fd(call->node.fd).bytes, name, call->worker->text, LONGEST_VALUE));
	/* (on a file system without access control lists the mode decides) */
	return error == EOPNOTSUPP && is_list(asked) && call->all->options.posix_acl ? ENODATA : error;
}

/* LISTXATTR. The host's list consists of names that end with a 0. They are translated in place from the first to
 * the last: because no name becomes longer, a write never reaches a name that has not been read. */
int list_xattr(const struct call *call)
{
	const struct xattr_map *map = call->all->options.xattr_map;
	char *text = call->worker->text;
	int error = refused(call, NULL);
	ssize_t got, from, to = 0;

	if (error)
		return error;
	got = listxattr(name_fd(call->node.fd).bytes, text, LONGEST_VALUE);
	if (got < 0)
		return errno;
	/* (the buffer has one more byte, so that a truncated name would end there) */
	text[got] = 0;
	for (from = 0; from < got;) {
		const char *name = text + from;

		from += (ssize_t)strlen(name) + 1;
		if (map)
			name = xattr_map_to_client(map, name);
		if (name && !refused(call, name)) {
			const size_t len = strlen(name) + 1;

			memmove(text + to, name, len);
			to += (ssize_t)len;
		}
	}
	return tell_text(call, to);
}
