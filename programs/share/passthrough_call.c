/* The calls of a passthrough: passthrough.h. The library has decoded a request; here it becomes system calls of
 * the host, and the results are filled into the call. Any number of workers may run at once.
 *
 * They call make_call(). make_with_node() gets references to the objects of a call, which are the node, and an
 * open file or a second node, and drops them at the end, whatever the call returns. So the functions between them
 * may use the objects, and must not close or free them. */
#define _GNU_SOURCE
#include <errno.h>
#include <fcntl.h>
#include <limits.h>
#include <linux/fuse.h>
#include <stdio.h>
#include <stdlib.h>
#include <string.h>
#include <sys/stat.h>
#include <sys/statvfs.h>
#include <sys/sysmacros.h>
#include <unistd.h>
#include "passthrough_call.h"
#include "passthrough_mounts.h"
#include "say.h"

/* Options of INIT that older headers lack. */
#define SETXATTR_EXT (UINT64_C(1) << 29)
#define SECURITY_LABELS (UINT64_C(1) << 32)
#define CREATE_SUPP_GROUP (UINT64_C(1) << 34)
#define ALLOWS_MMAP (UINT64_C(1) << 36)
/* The options of INIT of a client that supports access control lists. */
#define HAS_LISTS (FUSE_POSIX_ACL | FUSE_DONT_MASK | SETXATTR_EXT)

/* ---- helpers: those that return an int return 0 or an error */

int failed(int result)
{
	return result < 0 ? errno : 0;
}

bool grow(void *buffer, size_t *size, size_t wanted)
{
	void *more;

	if (*size >= wanted)
		return true;
	more = realloc(*(void **)buffer, wanted);
	if (!more)
		return false;
	*(void **)buffer = more;
	*size = wanted;
	return true;
}

const char *name_of(const struct call *call, nizwarf_range range)
{
	return (const char *)call->request + range.at;
}

bool is_plain(const char *name)
{
	return *name && strcmp(name, ".") != 0 && strcmp(name, "..") != 0 && !strchr(name, '/');
}

/* Opens a file or a directory, and no other type. */
static int open_node(const struct call *call, int flags)
{
	const mode_t type = call->node.node->type;
	int fd;

	if (type != S_IFREG && type != S_IFDIR) {
		errno = type == S_IFLNK ? ELOOP : ENXIO;
		return -1;
	}
	/* (a directory is opened by its own descriptor, whatever has its name now, unless the server may not
	 * search it) */
	fd = type == S_IFDIR ? openat(call->node.fd, ".", flags | O_CLOEXEC) :
			       open_by_name(&call->all->nodes, call->node.node, flags);
	/* (by /proc, which takes longer, but requires neither a name nor permissions of the directory) */
	return fd >= 0 ? fd : open_again(&call->all->nodes, call->node.fd, flags);
}

/* ---- attributes */

static int get_attr(const struct call *call)
{
	const int fd = call->file ? call->file->counted.fd : call->node.fd;
	struct statx seen;

	if (look_at(fd, &seen))
		return errno;
	tell_attr(call, &seen, call->node.node->is_apart, &call->answer->entry);
	return 0;
}

/* Returns the host's time for a reply, whose padding must be 0. */
static nizwarf_sx_time time_of(const struct statx_timestamp *time)
{
	return (nizwarf_sx_time){ .tv_sec = time->tv_sec, .tv_nsec = time->tv_nsec };
}

/* STATX: the attributes of GETATTR, and the time of birth if the host knows it. */
static int get_statx(const struct call *call)
{
	const int fd = call->file ? call->file->counted.fd : call->node.fd;
	const unsigned asked = nizwarf_statx_mask(call->asked) & (STATX_BASIC_STATS | STATX_BTIME);
	nizwarf_statx result = { 0 };
	nizwarf_entry entry;
	struct statx seen;

	if (statx(fd, "",
		  AT_EMPTY_PATH | AT_SYMLINK_NOFOLLOW | (int)(call->asked->flags & AT_STATX_SYNC_TYPE),
		  asked | WANTED, &seen))
		return errno;
	tell_attr(call, &seen, call->node.node->is_apart, &entry);
	result.attr_seconds = entry.attr_seconds;
	result.attr_nanoseconds = entry.attr_nanoseconds;
	result.mask = seen.stx_mask & (STATX_BASIC_STATS | STATX_BTIME);
	result.blksize = seen.stx_blksize;
	result.nlink = seen.stx_nlink;
	result.uid = entry.attr.uid;
	result.gid = entry.attr.gid;
	result.mode = seen.stx_mode;
	result.ino = entry.attr.ino;
	result.size = seen.stx_size;
	result.blocks = seen.stx_blocks;
	result.atime = time_of(&seen.stx_atime);
	result.btime = time_of(&seen.stx_btime);
	result.ctime = time_of(&seen.stx_ctime);
	result.mtime = time_of(&seen.stx_mtime);
	result.rdev_major = seen.stx_rdev_major;
	result.rdev_minor = seen.stx_rdev_minor;
	/* (the answer points to its text until the reply is encoded, so the text is in the worker's memory) */
	memcpy(call->worker->text, &result, sizeof(result));
	call->answer->text = (const uint8_t *)call->worker->text;
	call->answer->text_len = sizeof(result);
	return 0;
}

/* Linux cannot set the mode of a symbolic link. */
static int set_mode(const struct call *call)
{
	if (call->file)
		return failed(fchmod(call->file->counted.fd, call->asked->attr.mode & 07777));
	/* (the name in /proc leads to the node itself) */
	return call->node.node->type == S_IFLNK ?
		       EOPNOTSUPP :
		       failed(fchmodat(call->all->nodes.proc, name_fd(call->node.fd).bytes,
				       call->asked->attr.mode & 07777, 0));
}

static int set_size(const struct call *call)
{
	const off_t size = (off_t)call->asked->attr.size;
	int fd, error;

	/* (a client's size has 64 bits without a sign, and the host's has one) */
	if (size < 0)
		return EFBIG;
	fd = call->file ? call->file->counted.fd : open_node(call, O_WRONLY);
	if (fd < 0)
		return errno;
	/* (so that ftruncate(2) clears set-ID bits if the client wants that) */
	lose_fsetid(call);
	error = lose_capability(call, fd);
	if (!error)
		error = failed(ftruncate(fd, size));
	regain_fsetid(call);
	if (!call->file)
		close(fd);
	return error;
}

static int set_owner(const struct call *call, uint32_t valid)
{
	const struct passthrough_options *options = &call->all->options;
	const nizwarf_setattr *to = &call->asked->attr;
	/* (-1 does not change an owner) */
	uint32_t uid = UINT32_MAX, gid = UINT32_MAX;
	int error = 0;

	if (valid & FATTR_UID)
		error = ids_to_host(&options->users, to->uid, &uid);
	if (!error && valid & FATTR_GID)
		error = ids_to_host(&options->groups, to->gid, &gid);
	/* (the kernel clears capabilities when the owner changes, but not under a name that it does not know) */
	if (!error && call->node.node->type == S_IFREG)
		error = lose_capability(call, call->node.fd);
	return error ? error :
		       failed(fchownat(call->node.fd, "", uid, gid, AT_EMPTY_PATH | AT_SYMLINK_NOFOLLOW));
}

/* With NOW, Linux requests the time of the server's clock, which may differ from that of the client. */
static int set_times(const struct call *call)
{
	const nizwarf_setattr *to = &call->asked->attr;
	const uint32_t valid = nizwarf_setattr_fields(call->asked);
	const struct timespec times[] = {
		{ (time_t)to->atime, valid & FATTR_ATIME_NOW ? UTIME_NOW :
				     valid & FATTR_ATIME     ? to->atimensec :
							       UTIME_OMIT },
		{ (time_t)to->mtime, valid & FATTR_MTIME_NOW ? UTIME_NOW :
				     valid & FATTR_MTIME     ? to->mtimensec :
							       UTIME_OMIT },
	};

	return failed(utimensat(call->node.fd, "", times, AT_EMPTY_PATH | AT_SYMLINK_NOFOLLOW));
}

/* Clears set-ID bits as a chown(2) does that changes neither owner nor group. Errors are ignored: if the host may
 * not clear the bits here, it does so when the file's data change. */
static void clear_bits(const struct call *call)
{
	int ignored;

	lose_fsetid(call);
	ignored = fchownat(call->node.fd, "", (uid_t)-1, (gid_t)-1, AT_EMPTY_PATH | AT_SYMLINK_NOFOLLOW);
	(void)ignored;
	regain_fsetid(call);
}

/* Sets attributes one after another up to the first error; those that were set stay. The owner is set after the
 * mode, because a change of owner clears bits of the mode; so the mode is read last for the reply. */
static int set_attr(const struct call *call)
{
	const uint32_t valid = nizwarf_setattr_fields(call->asked);
	int error = 0;

	if (sets_nothing(call->asked))
		clear_bits(call);
	if (valid & FATTR_MODE)
		error = set_mode(call);
	if (!error && valid & (FATTR_UID | FATTR_GID))
		error = set_owner(call, valid);
	if (!error && valid & FATTR_SIZE)
		error = set_size(call);
	if (!error && valid & (FATTR_ATIME | FATTR_MTIME))
		error = set_times(call);
	return error ? error : get_attr(call);
}

/* Returns whether the mode grants the caller access. */
static int access_node(const struct call *call)
{
	const struct passthrough_options *options = &call->all->options;
	const nizwarf_call *asked = call->asked;
	struct statx seen;
	uint32_t bits;

	if (look_at(call->node.fd, &seen))
		return errno;
	if (nizwarf_access_mask(asked) & W_OK && options->read_only)
		return EROFS;
	bits = seen.stx_mode & 7;
	if (asked->uid == ids_to_client(&options->users, seen.stx_uid))
		bits = seen.stx_mode >> 6 & 7;
	else if (asked->gid == ids_to_client(&options->groups, seen.stx_gid))
		bits = seen.stx_mode >> 3 & 7;
	/* (root may read and write everything, and execute files that somebody may execute) */
	if (!asked->uid)
		bits = R_OK | W_OK | (S_ISDIR(seen.stx_mode) || seen.stx_mode & 0111 ? X_OK : 0);
	return nizwarf_access_mask(asked) & 7 & ~bits ? EACCES : 0;
}

static int read_link(const struct call *call)
{
	ssize_t got;

	if (call->node.node->type != S_IFLNK)
		return EINVAL;
	got = readlinkat(call->node.fd, "", call->worker->text, PATH_MAX);
	if (got < 0)
		return errno;
	call->answer->text = (const uint8_t *)call->worker->text;
	call->answer->text_len = (size_t)got;
	return 0;
}

/* ---- open files */

/* Returns the flags of open(2) that a client may choose. */
static int flags_of(const struct call *call)
{
	const uint32_t flags = call->asked->flags;
	const unsigned direct = call->all->options.allow_direct ? O_DIRECT : 0;
	/* (the server chooses the other flags, such as O_CREAT or O_PATH, so that a client cannot create a file or
	 * follow a link) */
	int made = (int)(flags & (O_ACCMODE | O_APPEND | O_TRUNC | O_SYNC | O_DSYNC | O_NOATIME | direct));

	/* The kernel reads a page before it writes a part of it, and determines the end of the file itself. */
	if (writes_later(call)) {
		if ((made & O_ACCMODE) == O_WRONLY)
			made = (made & ~O_ACCMODE) | O_RDWR;
		made &= ~O_APPEND;
	}
	return made;
}

/* (a new file is on the device of its directory) */
bool is_local(const struct call *call)
{
	return call->all->is_local && call->node.node->on->device == call->all->local_device;
}

/* Returns whether an existing file is watched. (A client has cached nothing of a new file.) */
static bool is_watched(const struct call *call)
{
	return (call->asked->opcode == NIZWARF_OPEN || call->asked->opcode == NIZWARF_OPENDIR) &&
	       call->node.node->watched;
}

/* Fills in the answer for an open file with this handle. */
static void tell_open(const struct call *call, bool is_directory, int fd, const struct backing *backing)
{
	nizwarf_answer *answer = call->answer;

	answer->has_handle = 1;
	switch (call->all->options.cache) {
	case CACHE_NEVER:
		answer->open_flags = is_directory ? 0 : FOPEN_DIRECT_IO;
		break;
	case CACHE_METADATA:
		answer->open_flags = is_directory ? FOPEN_CACHE_DIR | FOPEN_KEEP_CACHE : FOPEN_DIRECT_IO;
		break;
	case CACHE_ALWAYS:
		answer->open_flags = FOPEN_KEEP_CACHE | (is_directory ? FOPEN_CACHE_DIR : 0);
		break;
	case CACHE_AUTO:
		break;
	}
	/* (nothing would invalidate the cache of a file that is not watched) */
	if (call->all->nodes.watch && !is_watched(call))
		answer->open_flags &= ~(uint32_t)(FOPEN_KEEP_CACHE | FOPEN_CACHE_DIR);
	backing_tell(call, backing, fd);
	/* (a file that was only read has nothing to flush except locks, and a client with a writeback cache
	 * flushes anyway) */
	if (!is_directory && !call->all->locks &&
	    ((call->asked->flags & O_ACCMODE) == O_RDONLY || is_local(call)))
		answer->open_flags |= FOPEN_NOFLUSH;
}

/* Adds an open file of a node. It takes over the descriptor and the open of `backing`. Returns 0 or an error. (A
 * client that guesses the number may have released it already.) */
static int add_file(const struct call *call, uint64_t node, int fd, int flags, struct backing *backing)
{
	tell_open(call, flags & O_DIRECTORY, fd, backing);
	call->answer->handle = file_add(&call->all->nodes, call->client, node, fd, flags, backing);
	if (call->answer->handle)
		return 0;
	backing_put(backing);
	return ENOMEM;
}

static int open_file(const struct call *call)
{
	const bool is_directory = call->asked->opcode == NIZWARF_OPENDIR;
	const int flags = is_directory ? O_RDONLY | O_DIRECTORY : flags_of(call);
	struct nodes *nodes = &call->all->nodes;
	struct backing *backing = NULL;
	/* (before the file is opened, because an open with O_TRUNC would truncate it even if the descriptor cannot
	 * be kept) */
	int fd, error = fd_reserve(nodes, 1);

	if (error)
		return error;
	lose_fsetid(call);
	fd = open_node(call, flags);
	/* (only the owner may use O_NOATIME, and the server needs not be the owner) */
	if (fd < 0 && errno == EPERM && flags & O_NOATIME && !call->all->options.keeps_noatime)
		fd = open_node(call, flags & ~O_NOATIME);
	error = fd < 0 ? errno : 0;
	regain_fsetid(call);
	if (error) {
		fd_give_back(nodes, 1);
		return error;
	}
	if (flags & O_TRUNC)
		error = lose_capability(call, fd);
	if (!is_directory && !error)
		error = backing_take(call, call->asked->node, fd, &backing);
	if (!error)
		error = add_file(call, call->asked->node, fd, flags, backing);
	if (error)
		fd_let_go(nodes, fd);
	return error;
}

/* Opens a new file without a name with O_PATH by its descriptor, and gets its attributes. Returns -1 with errno on
 * error. */
static int open_unnamed(const struct call *call, int fd, struct statx *seen)
{
	/* (the node has its own descriptor with O_PATH, because this one is closed by RELEASE) */
	const int path = open_again(&call->all->nodes, fd, O_PATH);
	int error;

	if (path < 0 || !look_at(path, seen))
		return path;
	error = errno;
	close(path);
	errno = error;
	return -1;
}

/* Opens a file that was just created with O_PATH, and gets its attributes: by its name, which is faster, or by its
 * descriptor if the name leads to another file by now. Returns -1 with errno on error. */
static int open_made(const struct call *call, const char *name, int fd, struct statx *seen)
{
	const int path = openat(call->node.fd, name, O_PATH | O_NOFOLLOW | O_CLOEXEC);
	struct stat made;

	if (path >= 0 && !fstat(fd, &made) && !look_at(path, seen) && made.st_ino == seen->stx_ino &&
	    made.st_dev == device_of(seen))
		return path;
	if (path >= 0)
		close(path);
	return open_unnamed(call, fd, seen);
}

/* Sets the label of a new file. On error it removes the file. */
static int label_new(const struct call *call, const char *name, int fd)
{
	int error = label(call, fd);

	if (error && call->asked->opcode == NIZWARF_CREATE)
		error = unmake_of(call->node.fd, name, fd, error);
	if (error)
		close(fd);
	return error;
}

/* Creates a file, with this name or without one, as the caller of the request. Reserves a node and a descriptor.
 * Returns 0 or an error. */
static int open_new(const struct call *call, const char *name, int flags, int *fd)
{
	struct nodes *nodes = &call->all->nodes;
	int error = node_reserve(nodes);

	if (!error && (error = fd_reserve(nodes, 1)))
		node_give_back(nodes);
	if (error)
		return error;
	error = become(call);
	if (!error) {
		*fd = openat(call->node.fd, name, flags_of(call) | flags | O_CLOEXEC,
			     call->asked->mode & 07777);
		error = *fd < 0 ? errno : 0;
	}
	become_root(call);
	if (!error && has_label(call))
		error = label_new(call, name, *fd);
	if (error) {
		node_give_back(nodes);
		fd_give_back(nodes, 1);
	}
	return error;
}

/* Fills in the answer for a new file. `path` is a descriptor of it made with O_PATH, or -1 with errno if that
 * failed. On error the caller keeps the descriptors, but not the reserved node. */
static int tell_new(const struct call *call, const char *name, int fd, int path, const struct statx *seen)
{
	const struct found found = found_in(&call->node, name);
	struct nodes *nodes = &call->all->nodes;
	const nizwarf_entry *entry = &call->answer->entry;
	int error = path < 0 ? errno : enter(call, &found, path, seen, &call->answer->entry, NULL);
	struct backing *backing;

	if (path < 0)
		node_give_back(nodes);
	if (error)
		return error;
	error = backing_take(call, entry->node, fd, &backing);
	if (!error)
		error = add_file(call, entry->node, fd, flags_of(call), backing);
	if (error)
		node_forget(nodes, call->client, entry->node, 1);
	return error;
}

/* A file without a name, to which LINK may give one. */
static int create_unnamed(const struct call *call)
{
	int fd = -1, path, error;
	struct statx seen;

	error = open_new(call, ".", O_TMPFILE | (int)(call->asked->flags & O_EXCL), &fd);
	if (error)
		return error;
	path = open_unnamed(call, fd, &seen);
	error = tell_new(call, "", fd, path, &seen);
	if (error)
		fd_let_go(&call->all->nodes, fd);
	return error;
}

static int create_file(const struct call *call)
{
	const nizwarf_call *asked = call->asked;
	const char *name = name_of(call, asked->name);
	int fd = -1, path, error;
	struct statx seen;

	/* (an existing name may be that of a pipe, which would block) */
	error = open_new(call, name, O_CREAT | O_EXCL | O_NOFOLLOW, &fd);
	/* The client assumes that a file which CREATE opens is new, and does not check permissions. So a file that
	 * was created meanwhile is not opened, and the client looks the name up again. */
	if (error)
		return error == EEXIST && !(asked->flags & O_EXCL) ? ESTALE : error;
	path = open_made(call, name, fd, &seen);
	error = tell_new(call, name, fd, path, &seen);
	if (error) {
		error = unmake_of(call->node.fd, name, fd, error);
		fd_let_go(&call->all->nodes, fd);
	}
	return error;
}

/* SYNCFS: syncs the whole file system of the node, as syncfs(2) does. */
static int sync_all(const struct call *call)
{
	const int fd = open_node(call, O_RDONLY);
	int error;

	if (fd < 0)
		return errno;
	error = failed(syncfs(fd));
	close(fd);
	return error;
}

/* STATFS: the numbers of the node's file system, which may be another one than the directory's. */
static int statistics(const struct call *call)
{
	struct statvfs result;

	if (fstatvfs(call->node.fd, &result))
		return errno;
	call->answer->statfs = (nizwarf_statfs){
		.bsize = result.f_bsize,
		.frsize = result.f_frsize,
		.blocks = result.f_blocks,
		.bfree = result.f_bfree,
		.bavail = result.f_bavail,
		.files = result.f_files,
		.ffree = result.f_ffree,
		.namemax = result.f_namemax,
	};
	return 0;
}

/* UNLINK and RMDIR. */
static int remove_name(const struct call *call, const char *name, int flags)
{
	struct nodes *nodes = &call->all->nodes;
	struct node *kept = node_keep(nodes, call->node.fd, name);
	const int error = failed(unlinkat(call->node.fd, name, flags));

	node_kept(nodes, kept, !error);
	return error;
}

/* ---- selection of a call */

/* Returns whether a call modifies the directory. */
static bool changes(const nizwarf_call *asked)
{
	switch (asked->opcode) {
	case NIZWARF_SETATTR:
	case NIZWARF_SYMLINK:
	case NIZWARF_MKNOD:
	case NIZWARF_MKDIR:
	case NIZWARF_UNLINK:
	case NIZWARF_RMDIR:
	case NIZWARF_RENAME:
	case NIZWARF_LINK:
	case NIZWARF_WRITE:
	case NIZWARF_SETXATTR:
	case NIZWARF_REMOVEXATTR:
	case NIZWARF_CREATE:
	case NIZWARF_FALLOCATE:
	case NIZWARF_COPY:
	case NIZWARF_COPY_64:
	case NIZWARF_TMPFILE:
		return true;
	case NIZWARF_OPEN:
		/* (Linux also truncates a file that is opened for reading) */
		return (asked->flags & O_ACCMODE) != O_RDONLY || asked->flags & O_TRUNC;
	default:
		return false;
	}
}

/* Returns whether a call uses only its open file, and no descriptor of its node. */
static bool needs_file_alone(const nizwarf_call *asked)
{
	switch (asked->opcode) {
	/* (READDIR looks up names in the node, and SETATTR sets owner and times by it) */
	case NIZWARF_READDIR:
	case NIZWARF_SETATTR:
		return false;
	default:
		return wants_file(asked);
	}
}

/* Checks that the names of a call are valid. Returns 0 or an error. */
static int check_names(const struct call *call)
{
	const nizwarf_call *asked = call->asked;
	/* (any valid name, if the call has only one) */
	const char *name = name_of(call, asked->name), *other = "other";

	switch (asked->opcode) {
	case NIZWARF_RENAME:
		other = name_of(call, asked->other_name);
		break;
	case NIZWARF_LOOKUP:
	case NIZWARF_SYMLINK:
	case NIZWARF_MKNOD:
	case NIZWARF_MKDIR:
	case NIZWARF_UNLINK:
	case NIZWARF_RMDIR:
	case NIZWARF_LINK:
	case NIZWARF_CREATE:
		break;
	default:
		return 0;
	}
	/* (in POSIX, ENOENT is the error of an empty name) */
	if (!*name || !*other)
		return ENOENT;
	return is_plain(name) && is_plain(other) ? 0 : EINVAL;
}

/* A call about a referenced node. */
static int make_of_node(const struct call *call)
{
	const nizwarf_call *asked = call->asked;
	const char *name = name_of(call, asked->name);

	switch (asked->opcode) {
	case NIZWARF_LOOKUP:
		return find_name(call, name);
	case NIZWARF_GETATTR:
		return get_attr(call);
	case NIZWARF_SETATTR:
		return set_attr(call);
	case NIZWARF_ACCESS:
		return access_node(call);
	case NIZWARF_READLINK:
		return read_link(call);
	case NIZWARF_SYMLINK:
	case NIZWARF_MKNOD:
	case NIZWARF_MKDIR:
		return make_node(call);
	case NIZWARF_UNLINK:
		return remove_name(call, name, 0);
	case NIZWARF_RMDIR:
		return remove_name(call, name, AT_REMOVEDIR);
	case NIZWARF_RENAME:
		return rename_node(call);
	case NIZWARF_LINK:
		return link_node(call);
	case NIZWARF_STATFS:
		return statistics(call);
	case NIZWARF_SETXATTR:
		return set_xattr(call);
	case NIZWARF_GETXATTR:
		return get_xattr(call);
	case NIZWARF_LISTXATTR:
		return list_xattr(call);
	case NIZWARF_REMOVEXATTR:
		return remove_xattr(call);
	case NIZWARF_SYNCFS:
		return sync_all(call);
	case NIZWARF_OPEN:
	case NIZWARF_OPENDIR:
		return open_file(call);
	case NIZWARF_CREATE:
		return create_file(call);
	case NIZWARF_TMPFILE:
		return create_unnamed(call);
	case NIZWARF_STATX:
		return get_statx(call);
	default:
		return ENOSYS;
	}
}

/* Returns whether a call is about a node, which it may identify by an open file. */
static bool is_of_node(const nizwarf_call *asked)
{
	return asked->opcode == NIZWARF_GETATTR || asked->opcode == NIZWARF_SETATTR ||
	       asked->opcode == NIZWARF_STATX;
}

/* Gets references to the objects of a call, and makes it. */
static int make_with_node(struct call *call)
{
	const nizwarf_call *asked = call->asked;
	struct nodes *nodes = &call->all->nodes;
	int error = needs_file_alone(asked) ? node_hold(nodes, asked->node, &call->node) :
					      node_get(nodes, asked->node, &call->node);

	if (error)
		return error;
	if (wants_file(asked)) {
		call->file = file_get(nodes, asked->handle);
		error = call->file ? 0 : EBADF;
	}
	if (!error && (asked->opcode == NIZWARF_RENAME || asked->opcode == NIZWARF_LINK))
		error = node_get(nodes, asked->other_node, &call->other);
	/* (meanwhile the client may have disconnected, and the number may belong to the next one) */
	if (!error && !is_there(call))
		error = ESTALE;
	if (!error)
		error = check_names(call);
	if (!error)
		error = call->file && !is_of_node(asked) ? make_of_file(call) : make_of_node(call);
	/* (each may be NULL) */
	file_put(call->file);
	if (call->other.node)
		node_put(&call->other);
	if (call->node.node)
		node_put(&call->node);
	return error;
}

uint64_t wanted(const struct passthrough *all)
{
	const struct passthrough_options *options = &all->options;
	/* (these are wanted from every client, the others depend on the server's options) */
	uint64_t wants = FUSE_ASYNC_READ | FUSE_BIG_WRITES | FUSE_ATOMIC_O_TRUNC | FUSE_AUTO_INVAL_DATA |
			 FUSE_ASYNC_DIO | FUSE_PARALLEL_DIROPS | FUSE_MAX_PAGES | CREATE_SUPP_GROUP;

	if (options->readdirplus)
		wants |= FUSE_DO_READDIRPLUS | FUSE_READDIRPLUS_AUTO;
	if (options->writeback)
		wants |= FUSE_WRITEBACK_CACHE;
	if (options->announce_submounts)
		wants |= FUSE_SUBMOUNTS;
	if (options->posix_acl)
		wants |= HAS_LISTS;
	if (options->security_label)
		wants |= SECURITY_LABELS;
	if (options->kills_bits)
		wants |= FUSE_HANDLE_KILLPRIV_V2;
	if (options->allow_mmap)
		wants |= ALLOWS_MMAP;
	if (options->flock)
		wants |= FUSE_FLOCK_LOCKS;
	if (options->posix_lock)
		wants |= FUSE_POSIX_LOCKS;
	return wants;
}

/* Requests that the client reads and writes files itself, if that is enabled and the client supports it. */
static void want_further(const struct call *call)
{
	struct passthrough *all = call->all;
	nizwarf_init_params *more = &call->worker->init_params;

	if (!all->backings)
		return;
	if (!(nizwarf_init_ext_flags(call->asked) & NIZWARF_PASSTHROUGH)) {
		transport_say(
			"nizwarf-share",
			"warning: --passthrough requires Linux 6.9: files are read and written by requests");
		return;
	}
	*more = (nizwarf_init_params){ .want = NIZWARF_PASSTHROUGH, .max_stack_depth = all->stack_depth };
	call->answer->init_params = more;
}

/* INIT and DESTROY: removes all objects of the client, unless it has disconnected while the host did not respond. */
static void forget_all(const struct call *call)
{
	struct passthrough *all = call->all;

	if (all->locks)
		locks_forget_all(all->locks, call->client);
	nodes_forget_all(&all->nodes, call->client);
}

const char *lacking_option(const struct passthrough *all, uint64_t options)
{
	/* (otherwise users whom the lists deny would have access) */
	if (all->options.posix_acl && ~options & HAS_LISTS)
		return "--posix-acl: the client does not support access control lists";
	/* (otherwise files would be created without a label) */
	if (all->options.security_label && !(options & SECURITY_LABELS))
		return "--security-label: the client does not support security labels";
	return NULL;
}

/* INIT of a new client, or of one that starts again. */
static int agree(const struct call *call)
{
	struct passthrough *all = call->all;
	const uint64_t offered = nizwarf_init_capable(call->asked);
	const char *lacking = lacking_option(all, offered);

	forget_all(call);
	if (lacking) {
		if (!atomic_exchange(&all->lacks_option, true))
			transport_say("nizwarf-share", "%s", lacking);
		return EPROTO;
	}
	nizwarf_answer_options(call->answer, wanted(all) & offered);
	want_further(call);
	return 0;
}

/* BATCH_FORGET: pairs of a node and the number by which its lookup count is decremented. The library has checked
 * their number against the length of the request. */
static void forget_each(const struct call *call)
{
	const uint8_t *pairs = call->request + call->asked->data.at;
	uint64_t pair[2];

	for (uint64_t i = 0; i < nizwarf_batch_forget_pairs(call->asked); i++) {
		/* (pairs are not aligned) */
		memcpy(pair, pairs + i * sizeof(pair), sizeof(pair));
		node_forget(&call->all->nodes, call->client, pair[0], pair[1]);
	}
}

int make_call(struct call *call)
{
	const nizwarf_call *asked = call->asked;
	struct passthrough *all = call->all;

	switch (asked->opcode) {
	case NIZWARF_INIT:
		return agree(call);
	case NIZWARF_DESTROY:
		forget_all(call);
		return 0;
	case NIZWARF_FORGET:
		node_forget(&all->nodes, call->client, asked->node, nizwarf_forget_lookups(asked));
		return 0;
	case NIZWARF_BATCH_FORGET:
		forget_each(call);
		return 0;
	case NIZWARF_RELEASE:
		if (all->locks)
			locks_close(call);
		return file_release(&all->nodes, call->client, asked->handle);
	case NIZWARF_RELEASEDIR:
		return file_release(&all->nodes, call->client, asked->handle);
	/* If locks are not enabled, they are ENOSYS, and the client locks files locally. The others are ENOSYS
	 * too. */
	case NIZWARF_GETLK:
	case NIZWARF_SETLK:
	case NIZWARF_SETLKW:
		return all->locks ? make_with_node(call) : ENOSYS;
	case NIZWARF_BMAP:
	case NIZWARF_IOCTL:
	case NIZWARF_POLL:
	case NIZWARF_NOTIFY_REPLY:
		return ENOSYS;
	default:
		return all->options.read_only && changes(asked) ? EROFS : make_with_node(call);
	}
}
