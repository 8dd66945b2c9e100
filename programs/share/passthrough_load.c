/* Loads the state of a passthrough (passthrough_state.h), with which this server continues to serve a virtual
 * machine.
 *
 * A state may be forged, so nothing outside of the shared directory is opened. A node is opened by its name in a
 * directory that was opened before, from the shared directory on, and no symbolic link is followed. Handles are
 * opened only if --migration-mode permits it, and only those of files in the directory. The handle of a file
 * without a name does not show where the file was. So such a file is opened only with --migration-unlinked-files,
 * and not after MOST_STRAYS wrong handles, because somebody who does not know a handle must not find it by trying.
 * Numbers, flags and sizes are checked as those of a client.
 *
 * The transport's own thread does it, while no request is in flight, so no worker changes nodes or files. Others
 * may change the directory at any time. A file that is found by a name was that file when it was checked, and is
 * held by its descriptor from then on. */
#define _GNU_SOURCE
#include <errno.h>
#include <fcntl.h>
#include <linux/fuse.h>
#include <stdio.h>
#include <stdlib.h>
#include <string.h>
#include <sys/stat.h>
#include <unistd.h>
#include "passthrough_call.h"
#include "passthrough_mounts.h"
#include "passthrough_search.h"
#include "passthrough_state.h"

enum { MOST_MOUNTS = 1024, FIRST_ENTRIES = 256 };
/* Options of INIT that the library negotiates itself, besides FUSE_SUBMOUNTS. */
#define OF_LIBRARY (FUSE_HAS_IOCTL_DIR | FUSE_INIT_EXT | NIZWARF_WANT_ALLOW_IDMAP)
/* How many lost files are printed on standard error. */
enum { MOST_TOLD = 20 };
/* How many handles may be wrong while the server runs, before files without a name are not opened any more. */
enum { MOST_STRAYS = 4096 };

/* An entry: a node, or a directory that the client does not know, with a descriptor; or an error, if it was not
 * found. */
struct entry {
	uint64_t number;
	int fd, error;
};

struct loading {
	struct passthrough *all;
	transport_state *from;
	struct paths paths;
	struct state_header header;
	struct state_end end;
	/* The sum of all bytes before the current record. */
	uint64_t sum_before;
	struct entry *entries;
	size_t count, size, directories;
	size_t lost, mount_count;
	int mounts[MOST_MOUNTS];
	/* The client has not sent INIT, so it knows only the shared directory. */
	bool has_no_session;
	char path[PATH_MAX];
	/* The rest of the current record, with a 0 at its end. */
	size_t len;
	unsigned char body[STATE_LONGEST + 1];
};

/* Receives `len` bytes, and adds them to the sum. Fewer bytes are an error. On error it prints a message and
 * returns -1, as do all functions here that return an int, unless they say otherwise. */
static int get(struct loading *l, void *bytes, size_t len)
{
	const ssize_t got = transport_get_state(l->from, bytes, len);

	if (got < 0)
		return state_refuse("cannot receive the state: %s", strerror(errno));
	if ((size_t)got < len)
		return state_refuse("the state is truncated");
	l->end.sum = state_sum(l->end.sum, bytes, len);
	return 0;
}

/* Returns a name without control characters, for a message. It modifies the name. */
static const char *printable(char *name)
{
	for (unsigned char *at = (unsigned char *)name; *at; at++)
		/* (U+0080 to U+009F are controls, too; a 0 ends the name, so a byte follows this one) */
		if (*at < 32 || *at == 127 || (*at == 0xc2 && (at[1] & 0xe0) == 0x80))
			*at = '?';
	return name;
}

/* Handles a node or an open file that cannot be restored. Returns -1, or 0 if the client gets errors for it. An
 * error that ends the loading is printed, and otherwise the first MOST_TOLD. It may modify `name`. */
static int lose(struct loading *l, const char *what, uint64_t number, char *name, int error)
{
	if (!l->all->options.loses_files || l->lost++ < MOST_TOLD)
		state_refuse("cannot restore %s %llu%s%s: %s", what, (unsigned long long)number,
			     *name ? ", " : "", printable(name),
			     error == EXDEV ? "it is a different file or outside of the directory" :
					      strerror(error));
	return l->all->options.loses_files ? 0 : -1;
}

/* ---- entries */

/* Adds an entry. */
static int add_entry(struct loading *l, uint64_t number, int fd, int error)
{
	if (l->count == l->size) {
		const size_t size = l->size ? 2 * l->size : FIRST_ENTRIES;
		struct entry *more = realloc(l->entries, size * sizeof(*more));

		if (!more)
			return state_refuse("out of memory");
		l->entries = more;
		l->size = size;
	}
	l->entries[l->count++] = (struct entry){ number, fd, error };
	return 0;
}

/* Opens a name in the directory of an entry. Returns -1 with errno on error. The parent must be below `l->count`. */
static int open_name(struct loading *l, uint32_t parent, const char *name, int flags)
{
	const struct entry *entry = &l->entries[parent];
	struct grip grip;
	int fd, error;

	errno = entry->error;
	if (entry->error)
		return -1;
	if (!entry->number)
		return open_in(entry->fd, name, flags);
	errno = node_get(&l->all->nodes, entry->number, &grip);
	if (errno)
		return -1;
	fd = open_in(grip.fd, name, flags);
	error = errno;
	node_put(&grip);
	errno = error;
	return fd;
}

/* A DIRECTORY. Its descriptor is open until the end of the loading. If it is not found, only the files in it are
 * lost. */
static int load_directory(struct loading *l)
{
	struct state_directory result;
	int fd = -1, error;

	if (!state_decode_directory(l->body, l->len, &result) || result.parent >= l->count)
		return state_refuse("invalid directory record");
	/* (the limit is that of passthrough_save()) */
	if (++l->directories > (size_t)l->all->options.most_nodes + STATE_SPARE_DIRECTORIES)
		return state_refuse("too many directory records");
	error = fd_reserve(&l->all->nodes, 1);
	if (!error && (fd = open_name(l, result.parent, result.name, O_PATH | O_DIRECTORY)) < 0) {
		error = errno;
		fd_give_back(&l->all->nodes, 1);
	}
	if (!add_entry(l, 0, fd, error))
		return 0;
	if (fd >= 0)
		fd_let_go(&l->all->nodes, fd);
	return -1;
}

/* A MOUNT. They are numbered in the order of the state, and nodes refer to them by number. */
static int load_mount(struct loading *l)
{
	if (l->header.mode != MIGRATES_BY_HANDLES || l->mount_count == MOST_MOUNTS ||
	    !state_is_path((const char *)l->body, l->len))
		return state_refuse("invalid file system record");
	/* (It is open only while no request is in flight. If it cannot be opened, files of its handles are lost.) */
	l->mounts[l->mount_count++] = open_below(&l->paths, (const char *)l->body, O_RDONLY | O_DIRECTORY);
	return 0;
}

/* ---- nodes */

/* Returns whether the file of a descriptor has this handle. */
static bool has_handle(int fd, const struct state_node *result)
{
	union handle_room room;

	return handle_by(fd, &room) && room.handle.handle_type == result->handle_type &&
	       room.handle.handle_bytes == result->handle_size &&
	       !memcmp(room.handle.f_handle, result->handle, result->handle_size);
}

/* Returns whether `fd` is the file with these attributes, and closes it. */
static bool is_file(int fd, const struct statx *seen)
{
	struct statx there;
	bool is_so;

	if (fd < 0)
		return false;
	is_so = !look_at(fd, &there) && is_same(seen, &there);
	close(fd);
	return is_so;
}

/* Returns whether a file that was opened by its handle may be used: it is in the shared directory, by a path that
 * Linux knows or by the place in the state; or it has no name, and such files are permitted. A handle can open any
 * file of the file system, so without this check the sender of a state could get a file from outside. */
static bool is_in_folder(struct loading *l, int fd, const struct state_node *result)
{
	struct statx seen;

	if (look_at(fd, &seen))
		return false;
	if (find_path(&l->paths, fd, &seen, l->path) >= 0 &&
	    is_file(open_below(&l->paths, l->path, O_PATH), &seen))
		return true;
	if (result->parent != NOWHERE && is_file(open_name(l, result->parent, result->name, O_PATH), &seen))
		return true;
	return l->all->options.takes_unlinked && l->all->strays < MOST_STRAYS && !S_ISDIR(seen.stx_mode) &&
	       !seen.stx_nlink;
}

/* Opens a file by its handle. Returns -1 with errno on error. */
static int open_handle(struct loading *l, const struct state_node *result)
{
	const int mount = result->mount < l->mount_count ? l->mounts[result->mount] : -1;
	union handle_room room;
	int fd, error = ESTALE;

	/* (`room` has MAX_HANDLE_SZ bytes, against which the size was checked) */
	room.handle.handle_type = result->handle_type;
	room.handle.handle_bytes = result->handle_size;
	memcpy(room.handle.f_handle, result->handle, result->handle_size);
	fd = mount < 0 ? -1 : open_by_handle_at(mount, &room.handle, O_PATH | O_NOFOLLOW | O_CLOEXEC);
	/* (A truncated or forged handle may open some file. So the handle of the open file is compared with it.) */
	if (fd >= 0 && has_handle(fd, result) && is_in_folder(l, fd, result))
		return fd;
	if (fd >= 0) {
		close(fd);
		error = EXDEV;
	}
	l->all->strays += l->all->strays < MOST_STRAYS;
	errno = error;
	return -1;
}

/* Opens a file by its name. If the node has a handle, the file must have the same. Returns -1 with errno on error:
 * EXDEV, if not. */
static int open_place(struct loading *l, const struct state_node *result)
{
	int fd;

	errno = ENOENT;
	fd = result->parent == NOWHERE ? -1 : open_name(l, result->parent, result->name, O_PATH);
	if (fd >= 0 && result->handle_size && !has_handle(fd, result)) {
		close(fd);
		fd = -1;
		errno = EXDEV;
	}
	return fd;
}

/* The shared directory, which must be the first entry, and no other. It is not opened, because this server has its
 * own. If files are verified, its handle shows whether it is the other server's directory; with file handles it
 * may be a different one. */
static int load_root(struct loading *l, const struct state_node *result)
{
	if (l->count || result->parent != NOWHERE)
		return state_refuse("invalid record of the shared directory");
	if (result->handle_size && l->header.mode != MIGRATES_BY_HANDLES &&
	    !has_handle(l->paths.root, result))
		return state_refuse("the shared directory is a different one");
	return add_entry(l, ROOT_NODE, -1, 0);
}

/* Opens a file and restores its node. Returns 0 or an error. */
static int restore_node(struct loading *l, const struct state_node *result)
{
	struct statx seen;
	const int fd = l->header.mode == MIGRATES_BY_HANDLES ? open_handle(l, result) : open_place(l, result);
	int error;

	if (fd < 0)
		return errno;
	/* (the type must be the same as before) */
	error = look_at(fd, &seen) ? errno : (seen.stx_mode & S_IFMT) != result->type ? EXDEV : 0;
	/* (node_restore() takes over the descriptor, also on error) */
	if (!error)
		return node_restore(&l->all->nodes, fd, &seen, result->number, result->lookups,
				    result->is_apart);
	close(fd);
	return error;
}

/* A NODE. A record that no server sends ends the loading; a file that is not found is lost. */
static int load_node(struct loading *l)
{
	struct state_node result;
	int error;

	if (!state_decode_node(l->body, l->len, &result))
		return state_refuse("invalid node record");
	l->end.nodes++;
	if (result.number == ROOT_NODE)
		return load_root(l, &result);
	if (!l->count || (result.parent != NOWHERE && result.parent >= l->count))
		return state_refuse("node record with an unknown directory");
	if (l->has_no_session)
		return state_refuse("node record of a client without a session");
	/* (the lower half of a number is below the other server's --node-limit) */
	if (l->end.nodes > l->all->options.most_nodes || (uint32_t)result.number > l->all->options.most_nodes)
		return state_refuse("the state has more files than --node-limit allows");
	error = restore_node(l, &result);
	if (error == EEXIST)
		return state_refuse("duplicate node number");
	if (add_entry(l, result.number, -1, error))
		return -1;
	if (!error)
		return 0;
	/* (the client knows a file by this number, so no other node may get it) */
	if (node_lose(&l->all->nodes, result.number))
		return state_refuse("out of memory");
	/* (the 0 after the record ends the name) */
	return lose(l, "node", result.number,
		    (char *)l->body + ((const unsigned char *)result.name - l->body), error);
}

/* ---- open files */

/* Opens the file of a node with the flags of the state. Returns -1 with errno on error. Only a file or a directory
 * is opened, by its own descriptor, and with no access that this server does not permit: not for writing if it is
 * read-only, and without O_DIRECT unless that is allowed. */
static int open_as(struct loading *l, const struct node *node, int of, int flags)
{
	const struct passthrough_options *options = &l->all->options;
	int fd;

	errno = EXDEV;
	if (node->type != (flags & O_DIRECTORY ? S_IFDIR : S_IFREG))
		return -1;
	errno = EROFS;
	if (options->read_only && (flags & O_ACCMODE) != O_RDONLY)
		return -1;
	if (!options->allow_direct)
		flags &= ~O_DIRECT;
	fd = open_again(&l->all->nodes, of, flags);
	return fd < 0 && errno == EPERM && flags & O_NOATIME && !options->keeps_noatime ?
		       open_again(&l->all->nodes, of, flags & ~O_NOATIME) :
		       fd;
}

/* Opens a file and restores the open file. Returns 0 or an error. A descriptor is reserved first, as for an OPEN. */
static int restore_file(struct loading *l, const struct state_file *result)
{
	struct nodes *nodes = &l->all->nodes;
	struct grip grip;
	int fd = -1, error = node_get(nodes, result->node, &grip);

	if (error)
		return error;
	error = fd_reserve(nodes, 1);
	if (!error && (fd = open_as(l, grip.node, grip.fd, (int)result->flags)) < 0) {
		error = errno;
		fd_give_back(nodes, 1);
	}
	node_put(&grip);
	if (fd >= 0 && (error = file_restore(nodes, result->node, fd, (int)result->flags, result->number)))
		fd_let_go(nodes, fd);
	return error;
}

/* A FILE, which must follow its node. */
static int load_file(struct loading *l)
{
	struct state_file result;
	char no_name[] = "";
	int error;

	if (!state_decode_file(l->body, l->len, &result))
		return state_refuse("invalid open file record");
	if (l->has_no_session)
		return state_refuse("open file record of a client without a session");
	l->end.files++;
	error = restore_file(l, &result);
	if (error == EEXIST)
		return state_refuse("duplicate open file number");
	if (!error)
		return 0;
	if (file_lose(&l->all->nodes, result.number))
		return state_refuse("out of memory");
	return lose(l, "open file", result.number, no_name, error);
}

/* ---- the whole state */

/* Compares the end record with the records that were loaded. */
static int load_end(struct loading *l)
{
	struct state_end result;
	char more;

	if (!state_decode_end(l->body, l->len, &result))
		return state_refuse("invalid end record");
	if (!l->count || result.nodes != l->end.nodes || result.files != l->end.files ||
	    result.sum != l->sum_before)
		return state_refuse("the state is corrupted");
	return transport_get_state(l->from, &more, 1) ?
		       state_refuse("the state has data after its end record") :
		       0;
}

/* Loads one record. Returns 0, or 1 if it was the end, or -1 on error. */
static int load_record(struct loading *l)
{
	unsigned char begin[STATE_RECORD];
	uint32_t kind, len;

	l->sum_before = l->end.sum;
	if (get(l, begin, sizeof(begin)))
		return -1;
	state_decode_record(begin, &kind, &len);
	if (len > STATE_LONGEST)
		return state_refuse("record is too long");
	l->len = len;
	if (get(l, l->body, len))
		return -1;
	/* (names and paths are at the end of a record) */
	l->body[len] = 0;
	switch (kind) {
	case STATE_MOUNT:
		return load_mount(l);
	case STATE_NODE:
		return load_node(l);
	case STATE_DIRECTORY:
		return load_directory(l);
	case STATE_FILE:
		return load_file(l);
	case STATE_END:
		return load_end(l) ? -1 : 1;
	default:
		return state_refuse("unknown record type");
	}
}

/* Compares the features that the client negotiated by INIT with those of this server. A client with more would use
 * them; one that lacks a required feature would have been refused by INIT. One without any has sent no INIT yet. */
static int check_agreed(struct loading *l)
{
	const struct passthrough *all = l->all;
	const uint64_t agreed = l->header.agreed, more = agreed & ~(wanted(all) | OF_LIBRARY);
	const char *lacking = lacking_option(all, agreed);

	if (more)
		return state_refuse(
			"the client has negotiated features that this server was not started with: 0x%llx",
			(unsigned long long)more);
	if (lacking && agreed)
		return state_refuse("%s", lacking);
	l->has_no_session = lacking && !agreed;
	return 0;
}

static int load_header(struct loading *l)
{
	unsigned char bytes[STATE_HEADER];
	struct state_header *header = &l->header;
	const bool by_handles = l->all->options.migration_mode == MIGRATES_BY_HANDLES;

	if (get(l, bytes, sizeof(bytes)))
		return -1;
	if (!state_decode_header(bytes, header))
		return state_refuse("not a state of nizwarf-share");
	if (header->version != STATE_VERSION)
		return state_refuse("unsupported state version %u: this server supports version %d",
				    header->version, STATE_VERSION);
	if (header->mode > MIGRATES_BY_HANDLES)
		return state_refuse("unknown --migration-mode in the state");
	if (header->mode == MIGRATES_BY_HANDLES && !by_handles)
		return state_refuse("the state has file handles and requires --migration-mode=file-handles");
	return check_agreed(l);
}

/* Loads everything that the other server saved. A file that is not found is not an error: the client gets an error
 * when it uses it. */
static int load_all(struct loading *l)
{
	int came = 0;

	if (paths_begin(&l->paths, &l->all->nodes))
		return state_refuse("cannot find the path of the shared directory");
	if (load_header(l))
		return -1;
	while (!came)
		came = load_record(l);
	if (came > 0 && l->lost)
		state_refuse("%zu nodes and open files are lost: the client gets errors for them", l->lost);
	return came > 0 ? 0 : -1;
}

static void end_loading(struct loading *l)
{
	for (size_t i = 0; i < l->mount_count; i++)
		if (l->mounts[i] >= 0)
			close(l->mounts[i]);
	for (size_t i = 0; i < l->count; i++)
		if (l->entries[i].fd >= 0)
			fd_let_go(&l->all->nodes, l->entries[i].fd);
	free(l->entries);
	free(l);
}

/* The current state is removed first. If the loading fails, everything that was loaded is removed too. */
int passthrough_load(void *user, transport_state *from)
{
	struct passthrough *all = user;
	struct loading *l = calloc(1, sizeof(*l));
	int failed;

	if (!l)
		return state_refuse("out of memory");
	l->all = all;
	l->from = from;
	l->end.sum = STATE_FIRST_SUM;
	if (all->locks)
		locks_forget_all(all->locks, client_now(&all->nodes));
	atomic_store(&all->agreed, 0);
	nodes_empty(&all->nodes);
	failed = load_all(l);
	if (failed)
		nodes_forget_all(&all->nodes, client_now(&all->nodes));
	else
		atomic_store(&all->agreed, l->header.agreed);
	nodes_settle(&all->nodes);
	end_loading(l);
	return failed;
}
