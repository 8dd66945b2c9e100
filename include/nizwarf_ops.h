/* nizwarf_ops.h - a FUSE file system as a table of functions, modelled on libfuse's fuse_lowlevel_ops.
 *
 * Fill in a nizwarf_ops, then call nizwarf_fuse_main() of nizwarf_fuse.h, which mounts it, or
 * nizwarf_serve_ops() for each request: it decodes the request, calls the function of the table, and encodes
 * the reply. Members have libfuse's names where they mean the same. The examples have hello.c, a file system
 * of one file, and news.c, which uses the optional operations except copy_file_range.
 *
 * Names that begin with FUSE_, FATTR_ and FOPEN_ are those of linux/fuse.h, which a program must include
 * itself, as it must the headers of other constants: poll.h, dirent.h, sys/xattr.h, sys/mount.h, and stdio.h
 * with _GNU_SOURCE for RENAME_NOREPLACE.
 *
 * Return values. A function returns 0 or a positive error number of errno.h, such as ENOENT; a negative
 * number is an error of the program and is replied as EIO. Results are stored through the pointers at the end
 * of the argument list. They point to zeroed memory, unless the function's description says otherwise, and
 * are ignored if the function returns an error. All arguments are valid until the function returns, so a
 * function must copy data that it needs later.
 *
 * NULL functions. A NULL function replies ENOSYS. The exceptions are open, opendir, release, releasedir and
 * statfs, which succeed, and init, conn, destroy, forget, forget_multi, interrupt and bad_error, which are
 * skipped. The operations that virtiofsd lacks are enabled only if the table has their function: getlk,
 * setlk, flock, bmap, ioctl, poll, tmpfile, statx, retrieve_reply, conn, and the long form of
 * copy_file_range.
 *
 * ENOSYS. Linux remembers ENOSYS for many operations: it then stops sending the operation, for all files of
 * the mount. So a function must not return ENOSYS because of one file or one argument; it should return
 * EOPNOTSUPP or EINVAL. The description of each function says whether ENOSYS has a lasting effect and how
 * Linux continues.
 *
 * Nodes. A node is a file or directory, named by a number that the file system chooses; the root is 1. Each
 * entry that a function returns counts one lookup of its node, because Linux keeps the number until it has
 * forgotten as many lookups: entries of lookup, mknod, mkdir, symlink, link, create and tmpfile, and those of
 * readdirplus except `.` and `..`. The root needs no lookup and is never forgotten. The file system must keep
 * a node while it has lookups or open files, even if no name refers to it any more, because Linux goes on
 * using an unlinked file that is open, mapped, or a working directory. Once a node has neither, its memory
 * may be freed (and its data, if no name refers to it), and its number may be used again with another
 * generation. A function should return ESTALE for a number that it does not know.
 *
 * Order. Linux sends the forget of a file after it has closed the file's last handle by release. It may send
 * release, releasedir and forget in the background, so they may arrive some time after close(2) or unlink(2)
 * returned. A forget may run at the same time as a lookup of the same node, so the count must be changed
 * under a lock, or atomically, and a lookup must be counted before its function returns.
 *
 * Deferred replies. A function may return NIZWARF_LATER, after it has copied `*req->call` and all data it
 * needs. nizwarf_serve_ops then returns NIZWARF_CALL, and the program must reply once, by
 * nizwarf_finish_ops, on any thread and possibly before nizwarf_serve_ops has returned. The library uses
 * neither the request nor the reply buffer after the function has returned. So a lock request that waits
 * blocks no thread. With nizwarf_fuse_serve of nizwarf_fuse.h, the function must call nizwarf_request_keep
 * first, and the program must pass the reply to nizwarf_request_complete. init, conn, readdir and readdirplus must
 * not return NIZWARF_LATER (it is replied as EIO there), nor may functions without a result.
 *
 * Rejected answers. An answer that Linux would reject is replaced by an error: EIO for an error number below
 * 0 or above 511 (bad_error is called), for a link target of more than 4095 bytes, and for more bytes read,
 * written or copied than requested; ERANGE for an extended attribute that is longer than requested or than
 * the reply buffer. A timeout below 0 counts as 0. The session goes on.
 *
 * Threads. Any number of threads may serve one client with one table and one session; each must have its own
 * scratch memory, request, reply buffer and array of directory entries. Functions run at the same time, also
 * for the same node, so they must lock their own data. Linux holds i_rwsem of the directory in create, mknod,
 * mkdir, symlink, link, unlink, rmdir and rename (of both directories), so these run one at a time in a
 * directory. It holds that of the node in setattr, setxattr, removexattr, fsync and fsyncdir, in write unless
 * the file was opened with FOPEN_PARALLEL_DIRECT_WRITES or the data come from the page cache, and in
 * copy_file_range that of the destination. Lookups and listings of one directory run in parallel if
 * PARALLEL_DIROPS is negotiated, as it is by default, and one at a time otherwise; a lookup that revalidates
 * a cached name takes no lock. A file system must not rely on these locks for its integrity, because a guest
 * need not take them.
 *
 * `session->options` are read and written atomically here, and by nothing else. The options that a call was
 * decoded with are `req->call->options`.
 *
 * This header compiles as C99, C11 and C++11.
 */
#ifndef NIZWARF_OPS_H
#define NIZWARF_OPS_H

#include <errno.h>
#include <fcntl.h>
/* (in strict C99 this one has struct timespec, and time.h has not) */
#include <sched.h>
#include <sys/file.h>
#include <sys/stat.h>
#include <sys/statvfs.h>
#include <time.h>
#include "nizwarf.h"

#ifdef __cplusplus
extern "C" {
#endif

/* The context of a call. `user` is the pointer that was passed to nizwarf_serve_ops. `call` has the caller
 * (`uid`, `gid`, `pid`, `umask`), the number of the request (`unique`), and for a new node its security
 * context and supplementary group. Ranges of `call` are offsets into `request`.
 *
 * Permissions. If the file system is mounted with default_permissions, Linux checks them. Otherwise each
 * function must check them by `uid` and `gid`. With NIZWARF_WANT_ALLOW_IDMAP both are 2^32 - 1, except in
 * calls that create a node. Requests that Linux sends in the background, such as release and the writing of
 * cached pages, need not have the caller that caused them.
 *
 * When the library itself calls forget, release or releasedir, because a result did not reach the client,
 * `call` is the call that had this result, and `request` must not be read. */
typedef struct {
	void *user;
	const nizwarf_call *call;
	const uint8_t *request;
} nizwarf_req;

/* Returned by a function whose reply is sent later, by nizwarf_finish_ops. It is neither an error number nor
 * a negated one. */
enum { NIZWARF_LATER = -0x10000 };

/* An open file or directory.
 *
 * `fh` is chosen by open, opendir, create or tmpfile, and passed to all later calls for the open file.
 * `lock_owner` identifies the owner of locks: in read, write and release it is set only if `req->call->has`
 * has NIZWARF_HAS_OWNER, in flush, getlk, setlk and flock always. `flags` are those of open(2), in open,
 * opendir, create, tmpfile, read, write, release and releasedir. Fields that a call does not have are 0.
 *
 * open, opendir, create and tmpfile may set three fields. `open_flags` are FOPEN_KEEP_CACHE and others of
 * linux/fuse.h; unknown bits are ignored. A `backing_id` that is not 0 lets Linux read and write the file
 * directly: see nizwarf_answer_backing. */
typedef struct {
	uint64_t fh, lock_owner;
	uint32_t flags, open_flags;
	uint32_t backing_id, padding;
} nizwarf_file_info;

/* A directory entry: a name's node and its attributes. `ino` is the number of the node; `attr.ino` is the
 * inode number that stat(2) shows, which may differ. `ino` must not be 1, the root, nor 0 except in lookup;
 * `attr` must have the file type in `mode`, and a `size` of at most INT64_MAX. Linux fails with EIO
 * otherwise. The pair of `ino` and `generation` must be unique for as long as the file system exists, because
 * an NFS client may remember it. Linux may use the attributes for `attr_timeout` and the name for
 * `entry_timeout` without asking again. */
typedef struct {
	uint64_t ino, generation;
	nizwarf_attr attr;
	struct timespec attr_timeout, entry_timeout;
} nizwarf_entry_param;

/* A directory listing in progress, valid until readdir or readdirplus returns. Its fields must not be used;
 * see nizwarf_add_direntry and nizwarf_add_direntry_plus. */
typedef struct nizwarf_dir nizwarf_dir;

/* Parameters of INIT, for conn. `capable` has the options that the client supports. `want` is preset and
 * interpreted as `*want` of init, and may also have the extension options that are described at
 * nizwarf_init_params. The other fields are preset to 0, which leaves the default, and mean the same as the
 * fields of a nizwarf_init_params. */
typedef struct {
	uint64_t capable, want;
	uint32_t max_readahead, max_write, time_gran, max_stack_depth, request_timeout;
	uint16_t max_background, congestion_threshold;
} nizwarf_conn_info;

/* A number of lookups of a node to be dropped, for forget_multi. */
typedef struct {
	uint64_t ino, nlookup;
} nizwarf_forget;

/* The largest `count` of forget_multi. Longer lists are passed in several calls, each from an aligned
 * copy. */
enum { NIZWARF_MAX_FORGETS = 64 };

/* The functions of a file system. The table must not change while requests are served, because all threads
 * read it.
 *
 * `ino` and `parent` are node numbers, `parent` that of a directory. `name` is a string that ends in NUL.
 * Linux sends no empty name, no name with a slash, and `.` and `..` only to lookup, for NFS. Other clients
 * may, so a file system that uses names in the host's file system must reject these. `size` and `len` count
 * bytes. `off` and `offset` are bytes from the beginning of the file; in a directory `off` is a position that
 * an earlier entry had. */
typedef struct nizwarf_ops {
	/* Begins a session (INIT). `capable` has the options that the client supports: FUSE_ASYNC_READ and
	 * others of linux/fuse.h, `flags2` in bits 32 to 63. `*want` is preset to the options of
	 * NIZWARF_WANT_DEFAULT and NIZWARF_WANT_READDIRPLUS that are in `capable` and that the table can
	 * serve (nizwarf_served). The function may clear bits and set others; bits that are not in `capable`,
	 * or that the table cannot serve, are ignored.
	 *
	 * A table with getlk and setlk must set FUSE_POSIX_LOCKS, and one with flock FUSE_FLOCK_LOCKS,
	 * because Linux otherwise keeps these locks itself and sends no request for them.
	 * NIZWARF_WANT_ALLOW_IDMAP must be set only if the mount has default_permissions. Otherwise, and if
	 * the function returns an error, Linux refuses all later requests with ECONNREFUSED.
	 *
	 * A client may send INIT again, for example because a guest has restarted. This begins a new session,
	 * so the file system should drop all lookups and open files of the previous one. */
	int (*init)(const nizwarf_req *req, uint64_t capable, uint64_t *want);
	/* Ends the session (DESTROY, or nizwarf_end_ops). The client has no lookups and no open files any
	 * more: the file system must free those that remain here, because no forget, release or releasedir
	 * follows for them. A later INIT begins a new session. Linux sends DESTROY over virtio-fs and for
	 * block devices (fuseblk), and not when another mount of /dev/fuse ends; so the program should call
	 * nizwarf_end_ops when it stops. */
	void (*destroy)(const nizwarf_req *req);
	/* Looks up a name in a directory, and fills in `*e`. Success counts one lookup of `e->ino`. If there
	 * is no such name, the function must return ENOENT, or 0 with `e->ino` 0; the latter lets Linux cache
	 * the absence of the name for `e->entry_timeout` and counts no lookup.
	 *
	 * Linux also sends it to revalidate a name whose `entry_timeout` has passed; that counts as well. If
	 * the node or its generation is then another one, Linux drops the cached entry. ENOSYS has no lasting
	 * effect. A table must have lookup and getattr to be of use. */
	int (*lookup)(const nizwarf_req *req, uint64_t parent, const char *name, nizwarf_entry_param *e);
	/* Drops `nlookup` lookups of a node (FORGET). When none is left, the client does not use the node any
	 * more, and it may be freed if no name refers to it. There is no reply. A hostile client may drop
	 * more lookups than the node has, so the function must not let the count go below 0.
	 *
	 * It is called once for each pair of a BATCH_FORGET if forget_multi is NULL. The library also calls
	 * it, with `nlookup` 1, for an entry that did not reach the client: because its reply did not fit, or
	 * because it is an entry of readdirplus that was not sent. */
	void (*forget)(const nizwarf_req *req, uint64_t ino, uint64_t nlookup);
	/* Returns the attributes of a node and, in `*attr_timeout`, how long Linux may cache them. `fi` is
	 * NULL unless the request names an open file; otherwise `fi->fh` is set. `attr->mode` must have the
	 * file type, and the type of a node must never change, because Linux then marks the inode as bad:
	 * each later use fails with EIO. With FUSE_WRITEBACK_CACHE Linux keeps its own size, mtime and ctime
	 * of a regular file. ENOSYS has no lasting effect. */
	int (*getattr)(const nizwarf_req *req, uint64_t ino, const nizwarf_file_info *fi, nizwarf_attr *attr,
		       struct timespec *attr_timeout);
	/* Changes attributes, and returns all of them as getattr does. `to_set` says which: FATTR_MODE,
	 * FATTR_UID, FATTR_GID, FATTR_SIZE, FATTR_ATIME, FATTR_MTIME and FATTR_CTIME name fields of `set`;
	 * the other fields are undefined and must not be used. FATTR_ATIME_NOW and FATTR_MTIME_NOW come with
	 * FATTR_ATIME and FATTR_MTIME and request the current time. FATTR_KILL_SUIDGID requests that S_ISUID
	 * is cleared, and S_ISGID if the group may execute the file; it comes only with
	 * FUSE_HANDLE_KILLPRIV_V2.
	 *
	 * `fi` is NULL unless the request names an open file, as that of ftruncate(2) does. FATTR_SIZE with
	 * size 0 is also sent for open(2) with O_TRUNC, unless ATOMIC_O_TRUNC is negotiated. FATTR_CTIME
	 * comes only with FUSE_WRITEBACK_CACHE. ENOSYS has no lasting effect. */
	int (*setattr)(const nizwarf_req *req, uint64_t ino, const nizwarf_setattr *set, uint32_t to_set,
		       const nizwarf_file_info *fi, nizwarf_attr *attr, struct timespec *attr_timeout);
	/* Reads the target of a symbolic link: at most `size` bytes into `link`, and their number into
	 * `*len`. No NUL is needed. `size` is at most 4095, the longest target that Linux accepts; if `*len`
	 * is larger than `size`, EIO is replied. ENOSYS has no lasting effect. */
	int (*readlink)(const nizwarf_req *req, uint64_t ino, char *link, size_t size, size_t *len);
	/* Creates a regular file, a device, a FIFO or a socket. `mode` has the file type and the permissions;
	 * `rdev` is the number of a device, encoded as by makedev(3). Linux has applied the umask, unless
	 * FUSE_DONT_MASK is negotiated; the function must then apply `req->call->umask`, or the default
	 * access control list of the directory. Fills in `*e` as lookup does, and counts one lookup. The type
	 * in `e->attr.mode` must be that of `mode`, because Linux fails with EIO otherwise. It must return
	 * EEXIST if the name exists.
	 *
	 * Linux sends mknod, and then open, for open(2) with O_CREAT if create returned ENOSYS. ENOSYS of
	 * mknod itself has no lasting effect. */
	int (*mknod)(const nizwarf_req *req, uint64_t parent, const char *name, uint32_t mode, uint32_t rdev,
		     nizwarf_entry_param *e);
	/* Creates a directory. `mode` has the permissions, without a file type. The umask is handled as in
	 * mknod. Fills in `*e` as lookup does, for a directory, and counts one lookup. It must return EEXIST
	 * if the name exists. ENOSYS has no lasting effect. */
	int (*mkdir)(const nizwarf_req *req, uint64_t parent, const char *name, uint32_t mode,
		     nizwarf_entry_param *e);
	/* Removes a name that refers to anything but a directory. The node must stay valid, with its data,
	 * while it has lookups or open files: Linux may send any request for it, such as read, write or
	 * getattr (with `nlink` 0 if this was its last name). It may be freed after the last forget, which
	 * follows the last release. If the function returns ENOENT, Linux drops its cached entry. ENOSYS has
	 * no lasting effect. */
	int (*unlink)(const nizwarf_req *req, uint64_t parent, const char *name);
	/* Removes the name of a directory. It must return ENOTEMPTY if the directory has entries besides `.`
	 * and `..`, and ENOTDIR if the name refers to something else. The node must stay valid while it has
	 * lookups or is open, as in unlink, because it may be a working directory. ENOSYS has no lasting
	 * effect. */
	int (*rmdir)(const nizwarf_req *req, uint64_t parent, const char *name);
	/* Creates a symbolic link whose target is `link`. The target may be any string that is not empty, and
	 * must not be interpreted. Fills in `*e` as lookup does, for a link, and counts one lookup. It must
	 * return EEXIST if the name exists. ENOSYS has no lasting effect. */
	int (*symlink)(const nizwarf_req *req, const char *link, uint64_t parent, const char *name,
		       nizwarf_entry_param *e);
	/* Renames an entry, within a directory or into another one. With `flags` 0 an existing `newname` must
	 * be replaced atomically; its node must stay valid as after unlink. The function must return EISDIR
	 * if a directory would be replaced by something else, ENOTDIR in the reverse case, and ENOTEMPTY if
	 * the replaced directory has entries.
	 *
	 * With RENAME_NOREPLACE it must return EEXIST if `newname` exists. With RENAME_EXCHANGE both names
	 * must exist, and exchange their nodes atomically. With RENAME_WHITEOUT a character device with
	 * device number 0 must remain at `name`. It must return EINVAL for flags that it does not support.
	 * Linux sends no other flags. If a rename with flags returns ENOSYS, Linux lets all later ones with
	 * flags fail with EINVAL; those without flags are still sent. */
	int (*rename)(const nizwarf_req *req, uint64_t parent, const char *name, uint64_t newparent,
		      const char *newname, uint32_t flags);
	/* Creates another name, `newname` in `newparent`, for the node `ino`, which is not a directory. Fills
	 * in `*e` for this node, with the new `nlink` in its attributes, and counts one lookup. It must
	 * return EEXIST if the name exists, and EPERM if the file system has no hard links. ENOSYS has no
	 * lasting effect. */
	int (*link)(const nizwarf_req *req, uint64_t ino, uint64_t newparent, const char *newname,
		    nizwarf_entry_param *e);
	/* Opens a file that exists. `fi->flags` are those of open(2) without O_CREAT, O_EXCL and O_NOCTTY.
	 * O_TRUNC is among them only if ATOMIC_O_TRUNC is negotiated; the function must then truncate the
	 * file, and clear the set-ID bits if `req->call->has` has NIZWARF_KILL_SUIDGID. The function may set
	 * `fi->fh`, `fi->open_flags` and `fi->backing_id`. Without default_permissions it must check the
	 * access mode.
	 *
	 * With FUSE_WRITEBACK_CACHE Linux also reads files that are opened with O_WRONLY, and computes the
	 * offset of writes with O_APPEND itself, so the function should ignore that flag. Each success is
	 * followed by one release. If the reply does not fit, the library calls release itself.
	 *
	 * A NULL open succeeds with handle 0, and ATOMIC_O_TRUNC is not negotiated. ENOSYS has a lasting
	 * effect: this and all later opens succeed with handle 0 and FOPEN_KEEP_CACHE, and Linux sends
	 * neither open nor release any more, not even for files that create has opened. */
	int (*open)(const nizwarf_req *req, uint64_t ino, nizwarf_file_info *fi);
	/* Reads at most `size` bytes from `off` on into `buf`, and stores their number in `*len`. It must
	 * fill in all `size` bytes unless the file ends before, because Linux takes a shorter reply for the
	 * end of the file; a file that was opened with FOPEN_DIRECT_IO may return fewer. `buf` has undefined
	 * contents; it lies in the reply buffer, so that nothing is copied. `size` is limited by this buffer.
	 * If `*len` is larger than `size`, EIO is replied. ENOSYS has no lasting effect. */
	int (*read)(const nizwarf_req *req, uint64_t ino, size_t size, uint64_t off,
		    const nizwarf_file_info *fi, void *buf, size_t *len);
	/* Writes `size` bytes of `buf` from `off` on, and stores in `*len` how many were written. It should
	 * write all or return an error such as ENOSPC; write(2) returns a smaller number as it is. If `*len`
	 * is larger than `size`, EIO is replied.
	 *
	 * If `fi->flags` have O_APPEND and FUSE_WRITEBACK_CACHE is not negotiated, the data should be
	 * appended, because the file may have grown since Linux computed `off`. Bits of `req->call->has`:
	 * NIZWARF_WRITE_CACHE, the data come from the page cache, so that the caller is not known and
	 * `fi->fh` may be any open file of the node; NIZWARF_KILL_SUIDGID, the set-ID bits must be cleared.
	 * ENOSYS has no lasting effect. */
	int (*write)(const nizwarf_req *req, uint64_t ino, const void *buf, size_t size, uint64_t off,
		     const nizwarf_file_info *fi, size_t *len);
	/* A descriptor of an open file was closed (FLUSH). close(2) returns the result. A file that was
	 * opened once may have many of them, because of dup(2) and fork(2), and descriptors that are closed
	 * when a process ends count too. The function may report errors of earlier writes, and need not
	 * synchronise anything. With setlk it must release all locks of fcntl(2) that `fi->lock_owner` has on
	 * the node, because Linux sends no other request for that.
	 *
	 * ENOSYS, and so a NULL flush, has a lasting effect: close(2) succeeds, and Linux sends no flush any
	 * more. A file that was opened with FOPEN_NOFLUSH has none either, unless FUSE_WRITEBACK_CACHE is
	 * negotiated. */
	int (*flush)(const nizwarf_req *req, uint64_t ino, const nizwarf_file_info *fi);
	/* The last descriptor and the last mapping of an open file are gone (RELEASE). It is called once for
	 * each success of open, create or tmpfile, unless the connection ends before; `fi->flags` are those
	 * of the open file. Linux ignores the result, so errors should be reported by flush or fsync. The
	 * node stays valid until it is forgotten, which happens later.
	 *
	 * If `req->call->has` has NIZWARF_RELEASE_FLOCK_UNLOCK (NIZWARF_HAS_OWNER is then set too), the
	 * function must release the lock of flock(2) that `fi->lock_owner` has. The library calls it as well
	 * if the reply to open, create or tmpfile did not reach the client. */
	int (*release)(const nizwarf_req *req, uint64_t ino, const nizwarf_file_info *fi);
	/* Writes a file to stable storage, for fsync(2) and fdatasync(2), and for O_SYNC. If `datasync` is
	 * not 0, metadata that reading the data does not need may be left out. ENOSYS, and so a NULL fsync,
	 * has a lasting effect: fsync(2) succeeds, and Linux sends no fsync for files any more. */
	int (*fsync)(const nizwarf_req *req, uint64_t ino, int datasync, const nizwarf_file_info *fi);
	/* Opens a directory. The function may set `fi->fh` and `fi->open_flags`: with FOPEN_CACHE_DIR Linux
	 * caches the entries, and with FOPEN_KEEP_CACHE it keeps those of an earlier listing. Each success is
	 * followed by one releasedir. A NULL opendir succeeds with handle 0.
	 *
	 * ENOSYS has a lasting effect since Linux 5.1: this and all later calls succeed, Linux sends neither
	 * opendir nor releasedir any more, and it caches listings as with both flags. */
	int (*opendir)(const nizwarf_req *req, uint64_t ino, nizwarf_file_info *fi);
	/* Lists a directory, from the position `off` on: 0 is the beginning, any other is the `off` of the
	 * entry that was returned last. Calls nizwarf_add_direntry for one entry after another until that
	 * returns 0, which means that the reply is full, or the directory ends. If no entry is added, the
	 * listing ends. Entries count no lookups. If the function returns an error, entries that it has added
	 * are discarded.
	 *
	 * A position must stay usable while entries are created and removed: an entry that exists all the
	 * time must be listed just once. So an index into a list that shrinks does not suffice. `.` and `..`
	 * should be listed, because Linux does not add them. ENOSYS has no lasting effect. */
	int (*readdir)(const nizwarf_req *req, uint64_t ino, uint64_t off, const nizwarf_file_info *fi,
		       nizwarf_dir *dir);
	/* Lists a directory as readdir does, with attributes: calls nizwarf_add_direntry_plus, which counts
	 * one lookup of each entry's node except for `.` and `..`. Lookups of entries that do not reach the
	 * client are dropped by forget. Linux sends it if FUSE_DO_READDIRPLUS is negotiated, and with
	 * FUSE_READDIRPLUS_AUTO only where it seems of use: for the beginning of a directory, and while
	 * programs look up the names that they have listed. So a table must have readdir too. A NULL
	 * readdirplus clears both options. */
	int (*readdirplus)(const nizwarf_req *req, uint64_t ino, uint64_t off, const nizwarf_file_info *fi,
			   nizwarf_dir *dir);
	/* An open directory was closed (RELEASEDIR). It is called once for each success of opendir. Linux
	 * ignores the result. The library calls it as well if the reply to opendir did not reach the
	 * client. */
	int (*releasedir)(const nizwarf_req *req, uint64_t ino, const nizwarf_file_info *fi);
	/* Writes the entries of a directory to stable storage, as fsync does. ENOSYS, and so a NULL fsyncdir,
	 * has a lasting effect: fsync(2) of directories succeeds, and Linux sends no fsyncdir any more. */
	int (*fsyncdir)(const nizwarf_req *req, uint64_t ino, int datasync, const nizwarf_file_info *fi);
	/* Returns statistics of the file system, as statvfs(3) has them. `*stat` is preset to names of at
	 * most 255 bytes and blocks of 512 bytes, and its other fields to 0; a NULL statfs returns that.
	 * `ino` is any node of the file system. ENOSYS has no lasting effect. */
	int (*statfs)(const nizwarf_req *req, uint64_t ino, nizwarf_statfs *stat);
	/* Sets an extended attribute to the `size` bytes of `value`. With XATTR_CREATE in `flags` it must
	 * return EEXIST if the attribute exists, and with XATTR_REPLACE ENODATA if it does not. With
	 * FUSE_SETXATTR_EXT nizwarf_setxattr_ext_flags returns further flags of `req->call`. A file system
	 * that does not support the name should return EOPNOTSUPP.
	 *
	 * ENOSYS, and so a NULL setxattr, has a lasting effect: this and all later calls fail with
	 * EOPNOTSUPP, and Linux sends none any more. */
	int (*setxattr)(const nizwarf_req *req, uint64_t ino, const char *name, const void *value,
			size_t size, uint32_t flags);
	/* Reads an extended attribute: into `value`, which has `size` bytes, and its length into `*len`. If
	 * `size` is 0, only the length is requested, and nothing may be stored in `value`. If the attribute
	 * is longer than `size`, ERANGE is replied, whether the function returns that or a larger `*len`. If
	 * there is no such attribute, it must return ENODATA.
	 *
	 * ENOSYS, and so a NULL getxattr, has a lasting effect: this and all later calls fail with
	 * EOPNOTSUPP, and Linux sends none any more. */
	int (*getxattr)(const nizwarf_req *req, uint64_t ino, const char *name, size_t size, void *value,
			size_t *len);
	/* Lists the names of a node's extended attributes, each followed by a NUL, one after another. `size`
	 * and `*len` are as in getxattr. Linux fails with EIO if an empty name is listed or the last NUL is
	 * missing.
	 *
	 * ENOSYS, and so a NULL listxattr, has a lasting effect: this and all later calls fail with
	 * EOPNOTSUPP, and Linux sends none any more. */
	int (*listxattr)(const nizwarf_req *req, uint64_t ino, size_t size, char *list, size_t *len);
	/* Removes an extended attribute. If there is no such attribute, it must return ENODATA. ENOSYS, and
	 * so a NULL removexattr, has a lasting effect: this and all later calls fail with EOPNOTSUPP, and
	 * Linux sends none any more. */
	int (*removexattr)(const nizwarf_req *req, uint64_t ino, const char *name);
	/* Checks whether the caller may access a node, for access(2) and chdir(2). `mask` is a combination of
	 * R_OK, W_OK and X_OK, or F_OK. It must return EACCES if not. It is called only without
	 * default_permissions, and not before other operations, which must check permissions themselves.
	 * ENOSYS, and so a NULL access, has a lasting effect: this and all later calls succeed, and Linux
	 * sends none any more. */
	int (*access)(const nizwarf_req *req, uint64_t ino, uint32_t mask);
	/* Creates and opens a regular file, for open(2) with O_CREAT. Linux sends it if its lookup found no
	 * such name. The name may exist nevertheless, because another client may have created it since. With
	 * O_EXCL in `fi->flags` the function must then return EEXIST; without O_EXCL it must open the
	 * existing file, and truncate it with O_TRUNC.
	 *
	 * `mode` has the file type S_IFREG and the permissions; the umask is handled as in mknod. `fi` is
	 * used as in open, with all flags of open(2) except O_NOCTTY. Fills in `*e` as lookup does, for a
	 * regular file, and counts one lookup; Linux sends release before it forgets that. If the reply does
	 * not fit, the library calls release and then forget.
	 *
	 * ENOSYS, and so a NULL create, has a lasting effect: Linux sends mknod and then open instead, for
	 * this and all later files. */
	int (*create)(const nizwarf_req *req, uint64_t parent, const char *name, uint32_t mode,
		      nizwarf_file_info *fi, nizwarf_entry_param *e);
	/* Allocates or frees space of a file, as fallocate(2). `mode` is 0, which also extends a file that is
	 * shorter, or a combination of FALLOC_FL_KEEP_SIZE, FALLOC_FL_PUNCH_HOLE and FALLOC_FL_ZERO_RANGE;
	 * Linux sends no other bits. For a mode that the file system does not support it should return
	 * EOPNOTSUPP. ENOSYS, and so a NULL fallocate, has a lasting effect: this and all later calls fail
	 * with EOPNOTSUPP, and Linux sends none any more. */
	int (*fallocate)(const nizwarf_req *req, uint64_t ino, uint32_t mode, uint64_t offset,
			 uint64_t length, const nizwarf_file_info *fi);
	/* Finds data or a hole of a file. `whence` is SEEK_DATA or SEEK_HOLE; Linux handles the others
	 * itself. Stores the offset of the next one, at or after `off`, in `*found`; the end of the file
	 * counts as a hole. It must return ENXIO if `off` is not before the end of the file, or if there is
	 * no more data. ENOSYS, and so a NULL lseek, has a lasting effect: Linux then treats each file as
	 * data without holes. */
	int (*lseek)(const nizwarf_req *req, uint64_t ino, uint64_t off, uint32_t whence,
		     const nizwarf_file_info *fi, uint64_t *found);
	/* Copies at most `size` bytes between two files, or two places of one file, and stores in `*len` how
	 * many were copied: fewer, if the source ends before, and then the caller of copy_file_range(2)
	 * continues. `flags` are those of copy_file_range(2), 0 in Linux today. If `*len` is larger than
	 * `size`, EIO is replied.
	 *
	 * Up to Linux 6.17 `size` is at most NIZWARF_MAX_COPY, because the reply to opcode 47 has 32 bits
	 * for the number; opcode 53 of later versions has 64. For files that it cannot copy the function
	 * should return EOPNOTSUPP or EXDEV: Linux then reads and writes the data itself. ENOSYS, and so a
	 * NULL copy_file_range, does the same for all files, and Linux sends none any more. */
	int (*copy_file_range)(const nizwarf_req *req, uint64_t ino_in, uint64_t off_in,
			       const nizwarf_file_info *fi_in, uint64_t ino_out, uint64_t off_out,
			       const nizwarf_file_info *fi_out, uint64_t size, uint64_t flags, size_t *len);
	/* Writes the whole file system to stable storage, for sync(2) and syncfs(2). Linux sends it over
	 * virtio-fs, and not for an ordinary mount of /dev/fuse. ENOSYS, and so a NULL syncfs, has a lasting
	 * effect: syncfs(2) succeeds, and Linux sends none any more. */
	int (*syncfs)(const nizwarf_req *req, uint64_t ino);
	/* The caller of the request `unique` (`call->unique`) was interrupted by a signal (INTERRUPT). A call
	 * that is in progress or deferred may then return EINTR early; otherwise the caller goes on waiting
	 * for its reply. The function may be called on any thread, after the call has ended, or before it has
	 * begun: see nizwarf_interrupts. Linux sends it through /dev/fuse only, not over virtio-fs. */
	void (*interrupt)(void *user, uint64_t unique);
	/* Begins a session, in place of init, which is not called then. It may negotiate further parameters:
	 * see nizwarf_conn_info. All rules of init apply to `conn->want`. */
	int (*conn)(const nizwarf_req *req, nizwarf_conn_info *conn);
	/* Drops lookups of several nodes (BATCH_FORGET), in place of forget, and with the same rules. `count`
	 * is at most NIZWARF_MAX_FORGETS; a longer request is passed in several calls. */
	void (*forget_multi)(const nizwarf_req *req, size_t count, const nizwarf_forget *forgets);
	/* Tests for a lock of fcntl(2), for F_GETLK. `*lock` is preset to the requested lock;
	 * `fi->lock_owner` is its owner. The function must replace `*lock` by a conflicting lock of another
	 * owner, or set its `type` to F_UNLCK if no lock conflicts. The library enables it if the table has
	 * setlk too, and Linux sends it if init has set FUSE_POSIX_LOCKS. ENOSYS has no lasting effect. */
	int (*getlk)(const nizwarf_req *req, uint64_t ino, const nizwarf_file_info *fi, nizwarf_lock *lock);
	/* Sets or releases a lock of fcntl(2). `lock->type` is F_RDLCK, F_WRLCK or F_UNLCK. The locks of one
	 * owner, `fi->lock_owner`, are merged and split as POSIX requires. If another owner has a conflicting
	 * lock and `sleep` is 0, it must return EAGAIN. If `sleep` is not 0 (F_SETLKW), it must wait for the
	 * lock: it should return NIZWARF_LATER, because waiting in the function blocks a thread, and must end
	 * with EINTR when interrupt names the request, because the caller goes on waiting otherwise. F_UNLCK
	 * never waits. The function may return EDEADLK; Linux does not detect deadlocks between these locks.
	 *
	 * A table with setlk must have getlk, and flush, which releases all locks of an owner. Linux sends
	 * setlk if init has set FUSE_POSIX_LOCKS, and otherwise keeps locks itself. ENOSYS has no lasting
	 * effect. */
	int (*setlk)(const nizwarf_req *req, uint64_t ino, const nizwarf_file_info *fi,
		     const nizwarf_lock *lock, int sleep);
	/* Sets or releases a lock of flock(2), on the whole file. `op` is LOCK_SH, LOCK_EX or LOCK_UN, with
	 * LOCK_NB if the function must return EWOULDBLOCK instead of waiting. The owner, `fi->lock_owner`, is
	 * the open file. It must drop the lock in release, if `req->call->has` has
	 * NIZWARF_RELEASE_FLOCK_UNLOCK there. Linux sends flock if init has set FUSE_FLOCK_LOCKS, and
	 * otherwise keeps these locks itself. Waiting is as in setlk. */
	int (*flock)(const nizwarf_req *req, uint64_t ino, const nizwarf_file_info *fi, int op);
	/* Maps block `idx` of a file, of `blocksize` bytes, to a block of the device, in `*block`. Linux
	 * sends it for block devices (fuseblk) only. An error, and a NULL bmap, means that the block is not
	 * mapped. ENOSYS has a lasting effect: Linux sends none any more. */
	int (*bmap)(const nizwarf_req *req, uint64_t ino, size_t blocksize, uint64_t idx, uint64_t *block);
	/* Carries out ioctl(2) with the request `cmd` and the argument `arg`. `in_buf` has the `in_size`
	 * bytes that the caller passes; at most `out_size` bytes may be stored in `out_buf`, and their number
	 * in `*len`; more are replied as EIO. Linux takes both sizes from the direction and size in `cmd`, so
	 * `arg` must not be followed as a pointer. `out->result` is the return value of ioctl(2). `flags` has
	 * FUSE_IOCTL_COMPAT for a 32-bit caller, and FUSE_IOCTL_DIR for a directory.
	 *
	 * For an unknown `cmd` it must return ENOTTY. ENOSYS becomes ENOTTY, and has no lasting effect. */
	int (*ioctl)(const nizwarf_req *req, uint64_t ino, uint32_t cmd, uint64_t arg,
		     const nizwarf_file_info *fi, uint32_t flags, const void *in_buf, size_t in_size,
		     nizwarf_ioctl *out, void *out_buf, size_t out_size, size_t *len);
	/* Returns in `*revents` which of `events`, POLLIN and others of poll(2), are ready. If `notify` is
	 * not 0, the caller waits: when an event becomes ready, the program must send nizwarf_notice_poll
	 * with `kh`, which identifies the open file. One notice per change suffices, and it may be sent even
	 * if nobody waits. The function itself must not wait. Other errors than ENOSYS are reported to the
	 * caller as POLLERR.
	 *
	 * A file whose readers poll should be opened with FOPEN_DIRECT_IO. Otherwise a reader that is woken
	 * by a write may still find the old size in Linux's cache, because Linux updates it only after the
	 * reply to the write; to send the notice after the reply does not suffice.
	 *
	 * ENOSYS, and so a NULL poll, has a lasting effect: Linux then reports each file as readable and
	 * writable. */
	int (*poll)(const nizwarf_req *req, uint64_t ino, const nizwarf_file_info *fi, uint32_t events,
		    uint64_t kh, int notify, uint32_t *revents);
	/* Creates and opens a file without a name in the file system of the directory `parent`, for open(2)
	 * with O_TMPFILE (Linux 6.2 and later). `nlink` in its attributes is 0. `mode`, `fi` and `*e` are as
	 * in create. A later link may give it a name, unless `fi->flags` have O_EXCL. ENOSYS, and so a NULL
	 * tmpfile, has a lasting effect: this and all later calls fail with EOPNOTSUPP, and Linux sends none
	 * any more. */
	int (*tmpfile)(const nizwarf_req *req, uint64_t parent, uint32_t mode, nizwarf_file_info *fi,
		       nizwarf_entry_param *e);
	/* Returns attributes for statx(2), of which `mask` says which are requested and `flags`,
	 * AT_STATX_SYNC_TYPE, how current they must be. The function must set in `statx->mask` the bits of
	 * the fields that it has filled in, and may set `*timeout`. `fi` is NULL unless the request names an
	 * open file. Linux 6.6 and later sends it when the birth time is requested, and getattr otherwise.
	 * ENOSYS, and so a NULL statx, has a lasting effect: Linux sends getattr only. */
	int (*statx)(const nizwarf_req *req, uint64_t ino, uint32_t flags, uint32_t mask,
		     const nizwarf_file_info *fi, nizwarf_statx *statx, struct timespec *timeout);
	/* Passes the data that nizwarf_notice_retrieve has requested: `cookie` is its `unique`. `size` is
	 * less than requested, or 0, if Linux does not have all of the data in its cache. There is no
	 * reply. */
	void (*retrieve_reply)(const nizwarf_req *req, uint64_t cookie, uint64_t ino, uint64_t offset,
			       const void *data, size_t size);
	/* A function of the table, or nizwarf_finish_ops, has returned `error`, which is no error number of
	 * Linux: it is below 0, such as -ENOENT, or above NIZWARF_MAX_ERRNO. EIO is replied in its place. A
	 * program should log the first one, because its users see EIO alone. nizwarf_fuse_main does so if
	 * the table has no bad_error; a program that calls nizwarf_serve_ops must do it itself. It may be
	 * called on any thread. */
	void (*bad_error)(void *user, const nizwarf_call *call, int error);
} nizwarf_ops;

/* Options of INIT, by the names of linux/fuse.h: FUSE_DO_READDIRPLUS and FUSE_READDIRPLUS_AUTO,
 * FUSE_ATOMIC_O_TRUNC, and FUSE_ALLOW_IDMAP, which older headers lack. */
enum { NIZWARF_WANT_READDIRPLUS = 3 << 13 };
#define NIZWARF_WANT_ATOMIC_O_TRUNC (UINT64_C(1) << 3)
#define NIZWARF_WANT_ALLOW_IDMAP (UINT64_C(1) << 40)
/* The options that a table negotiates by default, where the client supports them: FUSE_ASYNC_READ,
 * ATOMIC_O_TRUNC, BIG_WRITES, AUTO_INVAL_DATA, ASYNC_DIO, PARALLEL_DIROPS, MAX_PAGES, SUBMOUNTS, INIT_EXT and
 * CREATE_SUPP_GROUP. */
#define NIZWARF_WANT_DEFAULT UINT64_C(0x448449029)

/* The length of the longest link target that Linux accepts, in bytes, without a NUL. */
enum { NIZWARF_MAX_LINK = 4095 };

/* The most bytes that one COPY_FILE_RANGE of opcode 47 copies: the largest number of whole pages that the 32
 * bits of its reply can hold. copy_file_range(2) returns this number, and its caller continues with the
 * remainder. */
#define NIZWARF_MAX_COPY UINT32_C(0xfffff000)

/* Returns those of `options` that a table can serve. HAS_INODE_DAX is never among them. POSIX_LOCKS requires
 * getlk and setlk, FLOCK_LOCKS flock, HAS_IOCTL_DIR ioctl, ATOMIC_O_TRUNC open, DO_READDIRPLUS and
 * READDIRPLUS_AUTO readdirplus, WRITEBACK_CACHE write, and SETXATTR_EXT setxattr; all others are kept. */
uint64_t nizwarf_served(const nizwarf_ops *ops, uint64_t options);

/* Returns the features (NIZWARF_FEATURE_LOCKS and others) whose functions a table has. nizwarf_serve_ops
 * decodes each request with these. */
uint32_t nizwarf_features_of(const nizwarf_ops *ops);

/* Converts a number of seconds to a timeout. A negative number and a NaN become 0. */
struct timespec nizwarf_timeout(double seconds);

/* Converts the result of stat(2) to attributes. A number that the protocol has 32 bits for is truncated to
 * these. */
nizwarf_attr nizwarf_attr_of(const struct stat *st);

/* Converts the result of statvfs(3). */
nizwarf_statfs nizwarf_statfs_of(const struct statvfs *st);

/* An entry as the codec takes it. */
nizwarf_entry nizwarf_entry_of(const nizwarf_entry_param *e);

/* Adds an entry, for readdir. `name` is copied. `ino` is the inode number that readdir(3) shows; `type` is
 * DT_REG or another constant of dirent.h, or 0 if it is unknown. `off` is the position after the entry, from
 * which the client continues; it must not be 0, which is the beginning. Returns 1, or 0 if the entry was not
 * added, because the reply is full: readdir must then return without adding another one. */
int nizwarf_add_direntry(nizwarf_dir *dir, const char *name, uint64_t ino, uint32_t type, uint64_t off);

/* Adds an entry with attributes, for readdirplus. `*e` is as lookup would return it, and counts one lookup of
 * `e->ino`, which the caller must have counted already. For `.` and `..` no lookup counts, and only the
 * attributes are used. `name`, `off` and the result are as in nizwarf_add_direntry. If the entry is not
 * added, the library drops its lookup by calling forget before it returns; so it does for each entry if it is
 * called by readdir. */
int nizwarf_add_direntry_plus(nizwarf_dir *dir, const char *name, const nizwarf_entry_param *e, uint64_t off);

/* Encodes the deferred reply to a call whose function returned NIZWARF_LATER. It must be called once for each
 * such call, on any thread. `call` is the copy that the function made. `answer` is filled in as for
 * nizwarf_encode, with `error` 0 or the error that the function would have returned. The reply buffer must
 * have room for the reply to this call: 16 bytes for a call without a result, such as setlk or flock, and at
 * most as many bytes as the buffer that the request was served with. For a READ the program must store the
 * data after its first 16 bytes. The scratch memory must not be in use by another call.
 *
 * Returns a code as nizwarf_serve_ops does, and the length of the reply in `*reply_len`.
 * NIZWARF_OUT_OF_MEMORY is returned only if the scratch memory is not the one that the request was served
 * with, and NIZWARF_NULL if a pointer but `user` is NULL. If the entry or the handle did not reach the
 * client, release and forget are called before this function returns; so the program must not hold a lock
 * that these take. */
int32_t nizwarf_finish_ops(const nizwarf_ops *ops, void *user, nizwarf_scratch *scratch,
			   const nizwarf_session *session, const nizwarf_call *call,
			   const nizwarf_answer *answer, void *reply, size_t *reply_len);

/* Serves one request: decodes it, calls the function of the table, and encodes the reply into a buffer of
 * `reply_size` bytes. `request` has `len` bytes and must not change during the call. `user` is passed to the
 * functions. `items` is an array of `most` directory entries for listings, with any contents: the client
 * reads again for entries that do not fit, but `most` 0 lets each listing fail with EIO.
 *
 * The reply buffer should have the largest size of a reply, max_buffer + 4096 bytes, because a READ gets no
 * more data than it has space for. It must be memory that nobody else can write to, because the library reads
 * back data that it has stored there; so the buffers of a guest must not be passed, and the reply must be
 * copied to them. It must not overlap the request: NIZWARF_BAD_CALL is returned then, and nothing is done.
 *
 * Returns NIZWARF_OK if the first `*reply_len` bytes of the buffer are the reply, or if no reply is due
 * (`*reply_len` is 0). Returns NIZWARF_CALL if the function deferred its reply. Any other code means that
 * there is no reply, because the request was rejected or its reply does not fit: a virtio request must be
 * completed with length 0, but /dev/fuse needs a reply nevertheless, so write a header with EIO, or with
 * ENOMEM after NIZWARF_OUT_OF_MEMORY, as fuse_device.c does. After NIZWARF_OUT_OF_MEMORY no function was
 * called. NIZWARF_NULL is returned, and nothing is done, if a pointer is NULL; but `user` may be NULL, and so
 * may `items` if `most` is 0.
 *
 * INIT and DESTROY change `session->options`. If an entry or a handle did not reach the client, release or
 * releasedir is called first, because it may need the node, and then forget. */
int32_t nizwarf_serve_ops(const nizwarf_ops *ops, void *user, nizwarf_scratch *scratch,
			  nizwarf_session *session, const void *request, size_t len, void *reply,
			  size_t reply_size, nizwarf_dirent *items, size_t most, size_t *reply_len);

/* Ends the session by calling destroy, for clients that send no DESTROY, such as Linux when /dev/fuse is
 * unmounted. It does nothing if no INIT has negotiated options, after a DESTROY, or when it is called again.
 * No request must be served at the same time. */
void nizwarf_end_ops(const nizwarf_ops *ops, void *user, nizwarf_session *session);

#ifdef __cplusplus
}
#endif

#endif
