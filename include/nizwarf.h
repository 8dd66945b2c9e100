/* nizwarf.h - FUSE requests and replies as data: a codec without I/O ("sans-I/O").
 *
 * The library speaks FUSE 7.38, and optional operations of later versions. It opens no file and no socket,
 * starts no thread, and calls no function of yours. To serve a request that a kernel or a virtual machine has
 * sent:
 *
 *   1. nizwarf_decode() decodes it. It returns NIZWARF_CALL and fills in `call` if the file system must act,
 *      NIZWARF_OK if the reply is already in the reply buffer (or none is due), and any other code if the
 *      request is malformed.
 *   2. The program makes the call, on any thread and at any later time.
 *   3. nizwarf_encode() encodes the answer into the reply buffer.
 *
 * For example:
 *
 *	nizwarf_scratch scratch = NIZWARF_SCRATCH_INIT;
 *	nizwarf_session session = { 0, 4096, 1 << 20 };
 *	..
 *	code = nizwarf_decode(&scratch, &session, 0, request, request_count, reply, reply_count, &call, &result);
 *	if (code == NIZWARF_CALL) {
 *		nizwarf_answer answer = NIZWARF_ANSWER_INIT;
 *
 *		answer.error = make_call(&call, &answer);
 *		nizwarf_encode(&scratch, &session, &call, &answer, reply, reply_count, &result);
 *		if (result.forget)
 *			take_back(result.forget, 1);
 *		if (call.opcode == NIZWARF_INIT || call.opcode == NIZWARF_DESTROY)
 *			session.options = result.options;
 *	}
 *	complete(result.len);
 *
 * Here make_call, take_back and complete are functions of the program. make_call sets the fields of the
 * answer that the call's kind of answer has, and returns 0 or an error number such as ENOENT; an answer is
 * initialised as an error (EIO), so `error` must be set even on success. take_back drops lookups of a node.
 *
 * nizwarf_ops.h has a table of functions on top of these two, which is easier to use, and nizwarf_fuse.h, in a
 * library of its own, mounts and serves such a table. nizwarf_tree.h has a server over a file system in memory.
 * This file has the session, the functions that decode, the calls, the answers, the function that encodes,
 * checks and messages as text, notices, and the functions that other languages link, in this order.
 *
 * Rejected requests. A request that is rejected has no reply. A virtio request must then be completed with
 * length 0. The kernel that uses /dev/fuse waits for a reply to each request except FORGET, BATCH_FORGET,
 * INTERRUPT and NOTIFY_REPLY, so the program must write a header with EIO, or with ENOMEM after
 * NIZWARF_OUT_OF_MEMORY.
 *
 * Requirements. The library cannot check these, and to break one of the first four is undefined behaviour.
 *
 *   - All pointers must be valid for the stated lengths, which must not exceed SSIZE_MAX. All bytes must be
 *     initialised. No alignment is required. A NULL pointer is returned as NIZWARF_NULL, even one to a length
 *     of 0.
 *   - A request must not change while it is decoded. So a program must copy it first if a guest can write to
 *     it.
 *   - Scratch memory must be used by one call at a time.
 *   - All fields of a session, a call and an answer must be set.
 *   - Each decoded call must be made once and answered once, with a reply buffer of the size that it was
 *     decoded with.
 *   - Lookups that a result names (`forget`, and directory entries beyond `entries`) must be dropped, because the
 *     client does not know of them and so never sends a FORGET for them.
 *
 * Ownership. The program owns all structs. Memory of a nizwarf_scratch belongs to the library until
 * nizwarf_scratch_free. A request is used by nizwarf_decode only: nizwarf_encode reads the call, which may be
 * copied, and none of its ranges. Texts, directory entries and names of an answer are used until
 * nizwarf_encode returns.
 *
 * Buffers. Both functions write the first `written` bytes of the reply buffer, as their last step, and no
 * others. So the reply buffer may overlap the request, and the texts and names of an answer. For a READ the
 * program must store the data itself, after the first 16 bytes of the reply buffer; nizwarf_encode writes
 * these 16.
 *
 * Threads. The functions have no state besides their arguments, and any number of threads may call them. One
 * piece of scratch memory per thread suffices for any number of requests in flight, even if a request is
 * decoded on one thread and answered on another. A session is only read. If a guest sends other requests
 * during an INIT or a DESTROY, which a Linux kernel does not, the program must pass a copy of the session
 * whose options were read atomically. No function may be called from a signal handler, or in the child of a
 * fork of a process with threads.
 *
 * Memory. The library uses malloc, realloc and free. Scratch memory grows to the size of the largest reply
 * buffer that a call was decoded or answered with (16 bytes for a READ), and 80 bytes for requests without a
 * call. A program that serves a guest should limit the size of its reply buffers, because the guest chooses
 * them.
 *
 * ABI. A function keeps the layout of its structs forever. If a struct must grow, the library gets a new
 * function for the new layout, which the functions of this header then call, and keeps the old one at its
 * symbol version. So a program that was built with an earlier header runs with a later library of the same
 * major version. Parts of a program that pass structs to each other must be built with one header.
 */
#ifndef NIZWARF_H
#define NIZWARF_H

#include <stddef.h>
#include <stdint.h>
#include <sys/uio.h>

/* The version of this header. NIZWARF_VERSION has one byte for each number.
 *
 * A later patch version changes nothing here. A later minor version may add functions, codes, calls, kinds of
 * answers and bits, but moves no field and changes no number. So that a program runs with it unchanged, the
 * program must return ENOSYS for a call that it does not know, and must treat an unknown code as a rejected
 * request. A major version may change anything. */
#define NIZWARF_VERSION_MAJOR 0
#define NIZWARF_VERSION_MINOR 4
#define NIZWARF_VERSION_PATCH 0
#define NIZWARF_VERSION (NIZWARF_VERSION_MAJOR << 16 | NIZWARF_VERSION_MINOR << 8 | NIZWARF_VERSION_PATCH)

#ifdef __cplusplus
extern "C" {
#endif

/* Returns the version of the library that is linked, in the form of NIZWARF_VERSION, which is that of the
 * header. Any thread may call it. */
uint32_t nizwarf_version(void);

/* ---- A session --------------------------------------------------------------------------------- */

/* A session with a client: the parameters that requests are decoded with. All fields must be set.
 *
 * `options` are the options that INIT has negotiated: `flags` of its reply are bits 0 to 31, `flags2` bits 32
 * to 63. They must be 0 at the beginning. After each INIT and DESTROY the program must set them to `options`
 * of the result; the library only reads a session. `page_size` is that of the machine, at least 4096.
 * `max_buffer` is the largest payload of a request or a reply in bytes, from 4096 to 134217728; virtiofsd
 * uses 1048576. These two must not change during a session, because INIT reports them to the client. */
typedef struct {
	uint64_t options;
	uint32_t page_size;
	uint32_t max_buffer;
} nizwarf_session;

/* Scratch memory, which must be used by one call at a time. It must be initialised with NIZWARF_SCRATCH_INIT
 * and must not be copied, because the memory at `at` belongs to the library until nizwarf_scratch_free frees
 * it. It keeps no data from one call to the next, so each thread needs one, however many requests are in
 * flight. */
typedef struct {
	void *at;
} nizwarf_scratch;

/* The initial value of scratch memory, and of a nizwarf_server and a nizwarf_reply_buf of nizwarf_tree.h. */
#define NIZWARF_SCRATCH_INIT \
	{                    \
		0            \
	}

/* Status codes. After each of the codes 0 to 10 the request must be completed with the length in the result,
 * and the session goes on. A rejected request has length 0. */
enum {
	/* Success. For a request: the reply is in the reply buffer, or there is no reply (length 0), as for
	 * FORGET, INTERRUPT and DESTROY. */
	NIZWARF_OK = 0,
	/* Rejected: the request is shorter than its record, or has an invalid value. */
	NIZWARF_DECODE_MESSAGE = 1,
	/* The reply does not fit into the reply buffer; or the buffer of a READ or READDIR has no space for a
	 * header (16 bytes), in which case no call was made. */
	NIZWARF_ENCODE_MESSAGE = 2,
	/* The reply could not be flushed. Never returned. */
	NIZWARF_FLUSH_MESSAGE = 3,
	/* Rejected: a name or another part is missing. */
	NIZWARF_MISSING_PARAMETER = 4,
	/* Rejected: a name does not end in its only NUL. */
	NIZWARF_INVALID_C_STRING = 5,
	/* A name has no bytes. Never returned. */
	NIZWARF_INVALID_C_STRING_2 = 6,
	/* Rejected: a length in the request is smaller than the part that it describes. */
	NIZWARF_INVALID_HEADER_LENGTH = 7,
	/* Rejected: the value of an extended attribute does not have the length that the request says. */
	NIZWARF_INVALID_XATTR_SIZE = 8,
	/* Rejected: the security context is missing, although SECURITY_CTX was negotiated. */
	NIZWARF_MISSING_EXTENSION = 9,
	/* Out of memory. From nizwarf_decode: no call was made. nizwarf_encode returns it
	 * only if it is called with other scratch memory than the call was decoded with. The session stays
	 * usable. */
	NIZWARF_OUT_OF_MEMORY = 10,
	/* The server does not exist, or the scratch memory is empty already. */
	NIZWARF_NO_SERVER = 11,
	/* The page size or the largest payload is out of range. */
	NIZWARF_WRONG_SIZE = 12,
	/* The lengths of the parts of a request or a reply buffer add up to more than SIZE_MAX. */
	NIZWARF_TOO_LONG = 13,
	/* A pointer is NULL that must not be. Nothing was done. */
	NIZWARF_NULL = 14,
	/* The request was decoded, and its call must be made. Nothing was written to the reply buffer. */
	NIZWARF_CALL = 15,
	/* The call is not one that nizwarf_decode can decode, or the reply buffer has another size than the
	 * call was decoded with; or the reply buffer of nizwarf_serve_ops overlaps the request. Nothing was
	 * written to the reply buffer. */
	NIZWARF_BAD_CALL = 16,
};

/* ---- Decoding ---------------------------------------------------------------------------------- */

/* The result of nizwarf_decode and nizwarf_encode. Both set all fields. */
typedef struct {
	/* The length of the reply in bytes. The request must be completed with it. 0 means that there is no
	 * reply. */
	uint64_t len;
	/* How many of these bytes the library has written: all, or the first 16 for a READ without an error,
	 * whose data the program has stored after them. */
	uint64_t written;
	/* The session's options from now on: after an INIT those that its reply has negotiated, extension
	 * options included, and 0 after a DESTROY. */
	uint64_t options;
	/* A node of which the program must drop one lookup, because its NIZWARF_REPLY_ENTRY or
	 * NIZWARF_REPLY_CREATE did not reach the client. 0: none. */
	uint64_t forget;
	/* How many directory entries are in the reply: the first ones. With NIZWARF_PLUS the program must
	 * drop one lookup of each entry after these, except of `.` and `..`, of node 0, and of entries whose
	 * `error` is not 0. */
	uint64_t entries;
	/* The number (`unique`) of the request that an INTERRUPT names. 0: none. */
	uint64_t interrupts;
} nizwarf_result;

typedef struct nizwarf_call nizwarf_call;

/* Features: optional operations, which virtiofsd 1.13.2 does not pass to a file system, because it replies an
 * error to each, or nothing. Without any, each reply is virtiofsd's, byte for byte. A program may pass
 * different features with each request, but Linux remembers ENOSYS for most of these operations and does not
 * send them again. */
enum {
	/* NIZWARF_GETLK, NIZWARF_SETLK and NIZWARF_SETLKW. The answer to INIT must have POSIX_LOCKS (bit 1)
	 * or FLOCK_LOCKS (bit 10) too, because Linux otherwise keeps locks itself. */
	NIZWARF_FEATURE_LOCKS = 1 << 0,
	/* NIZWARF_BMAP, which Linux sends for block devices (fuseblk) only. */
	NIZWARF_FEATURE_BMAP = 1 << 1,
	/* NIZWARF_IOCTL. */
	NIZWARF_FEATURE_IOCTL = 1 << 2,
	/* NIZWARF_POLL. */
	NIZWARF_FEATURE_POLL = 1 << 3,
	/* NIZWARF_STATX. */
	NIZWARF_FEATURE_STATX = 1 << 4,
	/* NIZWARF_COPY_64. */
	NIZWARF_FEATURE_COPY_64 = 1 << 5,
	/* NIZWARF_TMPFILE. */
	NIZWARF_FEATURE_TMPFILE = 1 << 6,
	/* NIZWARF_NOTIFY_REPLY, the reply to nizwarf_notice_retrieve. */
	NIZWARF_FEATURE_NOTIFY_REPLY = 1 << 7,
	/* Not an operation: the call of INIT has the client's extension options, and its answer may have
	 * `init_params`. */
	NIZWARF_FEATURE_INIT = 1 << 8,
};

/* Decodes a request of `request_count` parts. The reply buffer has `reply_count` parts. The request must not
 * change during the call. `features` is 0, or a combination of NIZWARF_FEATURE_ constants for a program that
 * serves these optional operations. A request of one of them is rejected with NIZWARF_DECODE_MESSAGE if its
 * record is too short, or if fewer bytes follow than the record says.
 *
 * Returns NIZWARF_CALL if the file system must act: `call` is filled in, and the program must make it once
 * and pass the answer to nizwarf_encode once. The fields of the result mean nothing then. Returns NIZWARF_OK
 * if the reply is in the reply buffer, or none is due: its length is in the result. Any other code means that
 * the request was rejected and has no reply.
 *
 * After NIZWARF_CALL the scratch memory suffices for any answer to this call, so nizwarf_encode does not run
 * out of memory with it. It also suffices for later requests whose reply buffer is not larger, unless the
 * call was a READ. Some requests may allocate more: those in more than four parts, those with a name or a
 * value in two parts, BATCH_FORGET, and requests that create a node under SECURITY_CTX. */
int32_t nizwarf_decode(nizwarf_scratch *scratch, const nizwarf_session *session, uint32_t features,
		       const struct iovec *request, size_t request_count, const struct iovec *reply,
		       size_t reply_count, nizwarf_call *call, nizwarf_result *result);

/* ---- The call ---------------------------------------------------------------------------------- */

/* Calls, with the fields of a nizwarf_call that each has, and in parentheses the kind of its answer. The
 * numbers are the opcodes of linux/fuse.h, except that RENAME2 is decoded as NIZWARF_RENAME and READDIRPLUS
 * as NIZWARF_READDIR. `node` is the file or directory that the request is about; the directory, if the call
 * has a name in it. All calls have `unique`, `options`, `opcode`, `reply` and the size of the reply buffer;
 * all have the caller (`uid`, `gid`, `pid`), except INIT, DESTROY and calls with no fields. Fields that are
 * not listed are 0. A function that is listed after a field reads this field, because in this call the field
 * has another meaning than its name. */
enum {
	/* node, name (REPLY_ENTRY) */
	NIZWARF_LOOKUP = 1,
	/* node, length: nizwarf_forget_lookups (REPLY_NONE) */
	NIZWARF_FORGET = 2,
	/* node, handle if HAS_HANDLE (REPLY_ATTR) */
	NIZWARF_GETATTR = 3,
	/* node, attr, flags: nizwarf_setattr_fields, handle if HAS_HANDLE (REPLY_ATTR) */
	NIZWARF_SETATTR = 4,
	/* node (REPLY_BYTES) */
	NIZWARF_READLINK = 5,
	/* node, name, other_name: nizwarf_symlink_text, extensions (REPLY_ENTRY) */
	NIZWARF_SYMLINK = 6,
	/* node, name, mode, rdev, umask, extensions (REPLY_ENTRY) */
	NIZWARF_MKNOD = 8,
	/* node, name, mode, umask, extensions (REPLY_ENTRY) */
	NIZWARF_MKDIR = 9,
	/* node, name (REPLY_STATUS) */
	NIZWARF_UNLINK = 10,
	NIZWARF_RMDIR = 11,
	/* node, name, other_node and other_name: the new parent and name, flags: RENAME_NOREPLACE ..
	 * (REPLY_STATUS) */
	NIZWARF_RENAME = 12,
	/* node: the node that gets a name, other_node: the directory of the new name, name (REPLY_ENTRY) */
	NIZWARF_LINK = 13,
	/* node, flags: O_RDONLY .., KILL_SUIDGID (REPLY_OPEN) */
	NIZWARF_OPEN = 14,
	/* node, handle, offset, size, length: nizwarf_read_max, flags, lock_owner if HAS_OWNER
	 * (REPLY_DATA) */
	NIZWARF_READ = 15,
	/* node, handle, offset, size, data: all bytes after the record, of which the first `size` bytes must
	 * be written, flags, lock_owner if HAS_OWNER, WRITE_CACHE, KILL_SUIDGID (REPLY_COUNT) */
	NIZWARF_WRITE = 16,
	/* node (REPLY_STATFS) */
	NIZWARF_STATFS = 17,
	/* node, handle, flags, RELEASE_FLUSH, RELEASE_FLOCK_UNLOCK, lock_owner if HAS_OWNER (REPLY_STATUS) */
	NIZWARF_RELEASE = 18,
	/* node, handle, FSYNC_FDATASYNC (REPLY_STATUS) */
	NIZWARF_FSYNC = 20,
	/* node, name: the name of the attribute, data: its value, flags: XATTR_CREATE .., more:
	 * nizwarf_setxattr_ext_flags (REPLY_STATUS) */
	NIZWARF_SETXATTR = 21,
	/* node, name: the name of the attribute, size: 0 requests the length only (REPLY_BYTES_OR_SIZE) */
	NIZWARF_GETXATTR = 22,
	/* node, size: 0 requests the length only (REPLY_BYTES_OR_SIZE) */
	NIZWARF_LISTXATTR = 23,
	/* node, name: the name of the attribute (REPLY_STATUS) */
	NIZWARF_REMOVEXATTR = 24,
	/* node, handle, lock_owner (REPLY_STATUS) */
	NIZWARF_FLUSH = 25,
	/* length: nizwarf_init_capable, readahead; with the feature INIT, nizwarf_init_ext_flags, more:
	 * nizwarf_init_takes_params (REPLY_INIT) */
	NIZWARF_INIT = 26,
	/* node, flags (REPLY_OPEN) */
	NIZWARF_OPENDIR = 27,
	/* node, handle, offset: that of the entry returned last, or 0 for the beginning, size: of all records
	 * together, PLUS (REPLY_DIRECTORY) */
	NIZWARF_READDIR = 28,
	/* node, handle, flags (REPLY_STATUS) */
	NIZWARF_RELEASEDIR = 29,
	/* node, handle, FSYNC_FDATASYNC (REPLY_STATUS) */
	NIZWARF_FSYNCDIR = 30,
	/* no fields (REPLY_ERROR_OR_NONE); with the feature LOCKS, node, handle, lock_owner, LK_FLOCK, and
	 * the lock: nizwarf_lock_of. SETLKW waits for its lock (GETLK REPLY_BYTES: a nizwarf_lock, the others
	 * REPLY_STATUS) */
	NIZWARF_GETLK = 31,
	NIZWARF_SETLK = 32,
	NIZWARF_SETLKW = 33,
	/* node, more: nizwarf_access_mask (REPLY_STATUS) */
	NIZWARF_ACCESS = 34,
	/* node, name, mode, flags, umask, KILL_SUIDGID, extensions (REPLY_CREATE) */
	NIZWARF_CREATE = 35,
	/* no fields (REPLY_ERROR_OR_NONE); with the feature BMAP, node, offset: the number of a block, size:
	 * of a block (REPLY_OFFSET: the block of the device) */
	NIZWARF_BMAP = 37,
	/* no fields: the session ends, and all lookups are dropped (REPLY_NONE) */
	NIZWARF_DESTROY = 38,
	/* no fields (REPLY_ERROR_OR_NONE); with the feature IOCTL, node, handle, flags: FUSE_IOCTL_COMPAT ..,
	 * more: nizwarf_ioctl_command, offset: nizwarf_ioctl_argument, data: the input, size: the most bytes
	 * of output (REPLY_BYTES: a nizwarf_ioctl, followed by the output) */
	NIZWARF_IOCTL = 39,
	/* no fields (REPLY_ERROR_OR_NONE); with the feature POLL, node, handle, offset: the number for a
	 * notice, flags: FUSE_POLL_SCHEDULE_NOTIFY, more: nizwarf_poll_events (REPLY_COUNT: the events that
	 * are ready) */
	NIZWARF_POLL = 40,
	/* no fields (REPLY_ERROR_OR_NONE); with the feature NOTIFY_REPLY, unique: that of the notice, node,
	 * offset, size, data (REPLY_NONE) */
	NIZWARF_NOTIFY_REPLY = 41,
	/* length: nizwarf_batch_forget_pairs, data: pairs of 16 bytes, 8 for the node and 8 for the number of
	 * its lookups (REPLY_NONE) */
	NIZWARF_BATCH_FORGET = 42,
	/* node, handle, mode, offset, length (REPLY_STATUS) */
	NIZWARF_FALLOCATE = 43,
	/* node, handle, offset, more: nizwarf_lseek_whence (REPLY_OFFSET) */
	NIZWARF_LSEEK = 46,
	/* node, handle, offset, other_node, other_handle, other_offset: the destination, length, lock_owner:
	 * nizwarf_copy_flags (REPLY_COUNT) */
	NIZWARF_COPY = 47,
	/* node (REPLY_STATUS) */
	NIZWARF_SYNCFS = 50,
	/* no fields (REPLY_ERROR); with the feature TMPFILE, as CREATE, but the file has no name and `name`
	 * must be ignored (REPLY_CREATE) */
	NIZWARF_TMPFILE = 51,
	/* with the feature STATX, node, handle if HAS_HANDLE, flags: those of statx(2), more:
	 * nizwarf_statx_mask (REPLY_BYTES: a nizwarf_statx) */
	NIZWARF_STATX = 52,
	/* with the feature COPY_64, as COPY, with another answer (REPLY_OFFSET: the number of bytes) */
	NIZWARF_COPY_64 = 53,
};

/* Bits of `has`. The extensions of a call that creates a node are HAS_CONTEXT and HAS_GROUP with their
 * fields. */
enum {
	/* `handle` is set: the request names an open file. */
	NIZWARF_HAS_HANDLE = 1 << 0,
	/* `lock_owner` is set. */
	NIZWARF_HAS_OWNER = 1 << 1,
	/* The new node must get a security attribute, atomically: `context_name` is its name, `context` its
	 * value. */
	NIZWARF_HAS_CONTEXT = 1 << 2,
	/* `group` is a supplementary group of the caller, which the new node may inherit. */
	NIZWARF_HAS_GROUP = 1 << 3,
	/* The set-user-ID and set-group-ID bits of the file must be cleared. */
	NIZWARF_KILL_SUIDGID = 1 << 4,
	/* The data come from the kernel's page cache (FUSE_WRITE_CACHE), so the caller need not be the
	 * process that wrote them. */
	NIZWARF_WRITE_CACHE = 1 << 5,
	/* Only the data must be synchronised, not the metadata (FUSE_FSYNC_FDATASYNC). */
	NIZWARF_FSYNC_FDATASYNC = 1 << 6,
	/* The release must do the work of a FLUSH too (FUSE_RELEASE_FLUSH). */
	NIZWARF_RELEASE_FLUSH = 1 << 7,
	/* The owner's lock of flock(2) must be released (FUSE_RELEASE_FLOCK_UNLOCK). */
	NIZWARF_RELEASE_FLOCK_UNLOCK = 1 << 8,
	/* Each directory entry has attributes and counts a lookup (READDIRPLUS). */
	NIZWARF_PLUS = 1 << 9,
	/* The lock is one of flock(2); without this bit it is one of fcntl(2). */
	NIZWARF_LK_FLOCK = 1 << 10,
};

/* A range of bytes of a request: a name, a value or data. `at` counts from the first byte of the header, over
 * the parts of the request as if they were contiguous. A name has no NUL in it and one after it, so in a
 * request of one part it is a C string. A range that the call does not have is { 0, 0 }. The library does not
 * look at the data of a WRITE. */
typedef struct {
	uint64_t at;
	uint64_t len;
} nizwarf_range;

/* The record of a SETATTR, laid out as fuse_setattr_in of linux/fuse.h. nizwarf_setattr_fields says which of
 * the fields are valid; the others are undefined. Times are seconds and nanoseconds since 1970. */
typedef struct {
	uint32_t valid, padding;
	uint64_t fh, size, lock_owner, atime, mtime, ctime;
	uint32_t atimensec, mtimensec, ctimensec, mode, unused4, uid, gid, unused5;
} nizwarf_setattr;

/* A decoded call. It may be copied and kept, because it has no pointers: nizwarf_encode needs it, but not the
 * request. Its fields must not be changed, except by nizwarf_init_keep. A field that the call does not have
 * is 0.
 *
 *   - `unique` is the number of the request, which an INTERRUPT may name. `options` are those of the session
 *     that the request was decoded with. `reply_size` is the size of the reply buffer in bytes.
 *   - `node` is the file or directory that the request is about, `handle` the open file (`fh`), `offset` the
 *     place in it. `length`, `size`, `flags` and `more` depend on the call. `lock_owner` identifies the owner
 *     of locks.
 *   - `other_node` and `other_name` are the new parent and name of a RENAME, or for a LINK the directory of
 *     the new name; `other_node`, `other_handle` and `other_offset` are the destination of a COPY.
 *   - `name`, `other_name`, `data`, `context_name` and `context` are ranges of the request. `attr` is the
 *     record of a SETATTR.
 *   - `opcode` is the number of the call, NIZWARF_LOOKUP and others; `reply` the kind of its answer; `has`
 *     bits that say which optional fields are set.
 *   - `uid`, `gid` and `pid` are the caller, `group` a supplementary group. `mode`, `umask` and `rdev` are
 *     those of a new node. `readahead` is the most that the client of an INIT reads ahead, in bytes. */
struct nizwarf_call {
	uint64_t unique, options, reply_size;
	uint64_t node, handle, offset, length, lock_owner;
	uint64_t other_node, other_handle, other_offset;
	nizwarf_range name, other_name, data, context_name, context;
	nizwarf_setattr attr;
	uint32_t opcode, reply, has;
	uint32_t uid, gid;
	int32_t pid;
	uint32_t flags, mode, umask, rdev, size, more, group, readahead;
};

/* Accessors for fields that have another meaning than their name. Each is for the call in its own name. (They
 * are functions, and not unnamed unions, because neither C99 nor cgo has names for the members of those.) */

/* Returns how many lookups of the node must be dropped. */
static inline uint64_t nizwarf_forget_lookups(const nizwarf_call *call)
{
	return call->length;
}

/* Returns how many pairs `data` has. */
static inline uint64_t nizwarf_batch_forget_pairs(const nizwarf_call *call)
{
	return call->length;
}

/* Returns which fields of `attr` must be set: FATTR_MODE and others, without FATTR_FH and FATTR_LOCKOWNER. */
static inline uint32_t nizwarf_setattr_fields(const nizwarf_call *call)
{
	return call->flags;
}

/* Returns the target of the link. */
static inline nizwarf_range nizwarf_symlink_text(const nizwarf_call *call)
{
	return call->other_name;
}

/* Returns how many bytes of data the reply buffer can hold after the header. `size` may be larger. */
static inline uint64_t nizwarf_read_max(const nizwarf_call *call)
{
	return call->length;
}

/* Returns the extension flags: bit 0 requests that the set-group-ID bit is cleared
 * (FUSE_SETXATTR_ACL_KILL_SGID). */
static inline uint32_t nizwarf_setxattr_ext_flags(const nizwarf_call *call)
{
	return call->more;
}

/* Returns the access to be checked: a combination of R_OK, W_OK and X_OK, or F_OK. */
static inline uint32_t nizwarf_access_mask(const nizwarf_call *call)
{
	return call->more;
}

/* Returns SEEK_DATA or SEEK_HOLE. */
static inline uint32_t nizwarf_lseek_whence(const nizwarf_call *call)
{
	return call->more;
}

/* Returns the flags of copy_file_range(2). */
static inline uint64_t nizwarf_copy_flags(const nizwarf_call *call)
{
	return call->lock_owner;
}

/* Returns the options that the client supports, without its extension options. */
static inline uint64_t nizwarf_init_capable(const nizwarf_call *call)
{
	return call->length;
}

/* A lock, laid out as fuse_file_lock of linux/fuse.h. `start` and `end` are its first and its last byte; a
 * lock to the end of the file has an `end` of INT64_MAX. `type` is F_RDLCK, F_WRLCK or F_UNLCK. `pid` is the
 * process that has it. */
typedef struct {
	uint64_t start, end;
	uint32_t type, pid;
} nizwarf_lock;

/* Returns the requested lock. For a lock of flock(2) the range is 0 to INT64_MAX. */
nizwarf_lock nizwarf_lock_of(const nizwarf_call *call);

/* Returns the second argument of ioctl(2), the request. */
static inline uint32_t nizwarf_ioctl_command(const nizwarf_call *call)
{
	return call->more;
}

/* Returns the third argument of ioctl(2), which is an address in the caller's memory or a number. */
static inline uint64_t nizwarf_ioctl_argument(const nizwarf_call *call)
{
	return call->offset;
}

/* Returns the events that the caller waits for: POLLIN and others of poll(2). */
static inline uint32_t nizwarf_poll_events(const nizwarf_call *call)
{
	return call->more;
}

/* Returns the number that nizwarf_notice_poll takes to wake the callers that wait for the file. */
static inline uint64_t nizwarf_poll_number(const nizwarf_call *call)
{
	return call->offset;
}

/* Returns the requested fields: STATX_SIZE and others of statx(2). */
static inline uint32_t nizwarf_statx_mask(const nizwarf_call *call)
{
	return call->more;
}

/* Returns the extension options that the client supports: bits that virtiofsd 1.13.2 does not know. */
static inline uint64_t nizwarf_init_ext_flags(const nizwarf_call *call)
{
	return call->other_offset;
}

/* Returns whether NIZWARF_FEATURE_INIT was among the features that the INIT was decoded with. If not,
 * `init_params` of the answer are ignored, so that the reply is virtiofsd's. */
static inline uint32_t nizwarf_init_takes_params(const nizwarf_call *call)
{
	return call->more;
}

/* Restricts the options that the client supports to these, before an INIT is answered, because the library
 * negotiates some options even if the answer does not have them: ATOMIC_O_TRUNC, which requires that OPEN
 * truncates the file, and ALLOW_IDMAP (bit 40), which requires a mount with default_permissions; without that
 * Linux fails all later requests. A program that does not meet these requirements must remove the option. */
static inline void nizwarf_init_keep(nizwarf_call *call, uint64_t options)
{
	call->length &= options;
}

/* ---- The answer -------------------------------------------------------------------------------- */

/* Kinds of answers, with the fields of a nizwarf_answer that are read if its `error` is 0. With an `error` no
 * other field is read, and the reply has no data. */
enum {
	/* None, not even `error`: there is no reply. */
	NIZWARF_REPLY_NONE = 0,
	/* None. */
	NIZWARF_REPLY_STATUS = 1,
	/* None. An `error` must be set: 0 is replied as EIO. Only for NIZWARF_NOTIFY_REPLY 0 means that there
	 * is no reply, and Linux waits for none. */
	NIZWARF_REPLY_ERROR_OR_NONE = 2,
	/* `count`: how many bytes the program has stored in the reply buffer, after its first 16. It must not
	 * exceed `size`, nor the result of nizwarf_read_max. */
	NIZWARF_REPLY_DATA = 3,
	/* `count`: set by nizwarf_answer_options. With the feature INIT also `init_params`. */
	NIZWARF_REPLY_INIT = 4,
	/* `entry` */
	NIZWARF_REPLY_ENTRY = 5,
	/* Of `entry` only the attributes, and how long they are valid. */
	NIZWARF_REPLY_ATTR = 6,
	/* `has_handle`, `handle`, `open_flags`, `count`: set by nizwarf_answer_backing. */
	NIZWARF_REPLY_OPEN = 7,
	/* `entry`, and all of NIZWARF_REPLY_OPEN. */
	NIZWARF_REPLY_CREATE = 8,
	/* `statfs` */
	NIZWARF_REPLY_STATFS = 9,
	/* `text` */
	NIZWARF_REPLY_BYTES = 10,
	/* `text`; or `count`, the length, if `has_count` is not 0. */
	NIZWARF_REPLY_BYTES_OR_SIZE = 11,
	/* `count`: set by nizwarf_answer_offset. */
	NIZWARF_REPLY_OFFSET = 12,
	/* `count`: the number of bytes, or the events of a POLL. */
	NIZWARF_REPLY_COUNT = 13,
	/* `items` */
	NIZWARF_REPLY_DIRECTORY = 14,
	/* None. An `error` must be set: 0 is replied as EIO. */
	NIZWARF_REPLY_ERROR = 15,
};

/* Attributes, laid out as fuse_attr of linux/fuse.h, which have the meaning of stat(2). `ino` is the inode
 * number that programs see, `size` is in bytes, `blocks` are of 512 bytes, times are seconds and nanoseconds
 * since 1970, and `mode` has the file type and the permissions. `blksize` is the preferred size of reads and
 * writes; 0 leaves the default. `flags` are FUSE_ATTR_SUBMOUNT and FUSE_ATTR_DAX. */
typedef struct {
	uint64_t ino, size, blocks, atime, mtime, ctime;
	uint32_t atimensec, mtimensec, ctimensec, mode, nlink, uid, gid, rdev, blksize, flags;
} nizwarf_attr;

/* The result of a lookup or of a creation, laid out like fuse_entry_out of linux/fuse.h. The client counts
 * one lookup of `node` when it gets the entry, and drops it by a FORGET. Node 0 means that the name does not
 * exist; that is valid for the time of the entry, and counts no lookup. The pair of `node` and `generation`
 * must be unique for as long as the file system exists. `entry_seconds` and `attr_seconds`, with their
 * nanoseconds, say how long the client may use the name and the attributes. Nanoseconds above 999999999 count
 * as 999999999. */
typedef struct {
	uint64_t node, generation, entry_seconds, attr_seconds;
	uint32_t entry_nanoseconds, attr_nanoseconds;
	nizwarf_attr attr;
} nizwarf_entry;

/* Statistics of a file system. The fields have the meaning of those of statvfs(3) with the prefix f_. */
typedef struct {
	uint64_t bsize, frsize, blocks, bfree, bavail, files, ffree, namemax;
} nizwarf_statfs;

/* A directory entry. `ino` and `type` (DT_REG and others of dirent.h) are what readdir(3) returns. `offset`
 * is the position after the entry, from which the client continues; it must not be 0, which is the beginning.
 * `name` must end in its only NUL, which `name_size` counts, although no range counts it; an entry with any
 * other name is replied as EIO. With NIZWARF_PLUS each entry but `.` and `..` must have an `entry`, which
 * counts one lookup, or the `error` of its lookup, at most NIZWARF_MAX_ERRNO. The listing then ends before
 * this entry; if it is the first one, the listing fails with this error. */
typedef struct {
	uint64_t ino, offset;
	const uint8_t *name;
	size_t name_size;
	nizwarf_entry entry;
	uint32_t type;
	int32_t error;
} nizwarf_dirent;

/* Further parameters of a session, for `init_params` of the answer to an INIT with the feature INIT.
 *
 * `want` has extension options (nizwarf_init_ext_flags): PASSTHROUGH (bit 37), for which `max_stack_depth` is
 * the most file systems on top of one another, NO_EXPORT_SUPPORT (38), HAS_RESEND (39), OVER_IO_URING (41),
 * and REQUEST_TIMEOUT (42), for which `request_timeout` is in seconds, at most 65535. Bits that the client
 * does not support are ignored.
 *
 * For each other field 0 leaves the default, which is virtiofsd's. `max_readahead` and `max_write`, in bytes,
 * can only make the default smaller; `max_write` is at least 4096. `max_background` and
 * `congestion_threshold` limit the requests that the client has in flight in the background. `padding` must
 * be 0. */
typedef struct {
	uint64_t want;
	uint32_t max_readahead, max_write;
	/* The granularity of file times in nanoseconds: a power of 10, up to 1000000000. */
	uint32_t time_gran;
	uint32_t max_stack_depth, request_timeout;
	uint16_t max_background, congestion_threshold;
	uint64_t padding;
} nizwarf_init_params;

/* The answer to a call. It must be initialised with NIZWARF_ANSWER_INIT.
 *
 * `error` is 0 or an error number from 1 to 511, the range that Linux accepts; any other number is replied as
 * EIO. So is a `count` of a READ that is larger than requested, a `count` of 2^32 or more if the reply has 32
 * bits for it, and a `text` of a GETLK, a STATX or an IOCTL that is not such a record. A `text` of 2^32 - 16
 * bytes or more is replied as ERANGE. The library does not check two limits, which the program must keep: a
 * link has at most 4095 bytes, the most that Linux accepts, and an attribute at most the requested `size`.
 * Bits of `open_flags` and of options that the protocol does not have are removed.
 *
 *   - `handle` is passed with later requests for the open file, if `has_handle` is not 0. `open_flags` are
 *     FOPEN_KEEP_CACHE and others.
 *   - `text` is `text_len` bytes: the target of a link, the value of an attribute, a list of names, or a
 *     record. It is read during nizwarf_encode only.
 *   - `items` is an array of `items_len` directory entries, read during nizwarf_encode only.
 *   - `init_params` are further parameters of a session, read during nizwarf_encode only. They are ignored
 *     unless the INIT was decoded with NIZWARF_FEATURE_INIT.
 *   - `count`, `has_count`, `entry` and `statfs` are as the kind of the answer says. */
typedef struct {
	int32_t error;
	uint32_t has_handle;
	uint64_t handle, count;
	uint32_t open_flags, has_count;
	nizwarf_entry entry;
	nizwarf_statfs statfs;
	/* May be NULL if `text_len` is 0; so may `items` if `items_len` is 0. */
	const uint8_t *text;
	size_t text_len;
	const nizwarf_dirent *items;
	size_t items_len;
	/* May be NULL, which leaves the defaults. */
	const nizwarf_init_params *init_params;
} nizwarf_answer;

/* The record that the answer to an IOCTL begins with, laid out as fuse_ioctl_out of linux/fuse.h. `result` is
 * the return value of ioctl(2). With FUSE_IOCTL_RETRY in `flags`, `in_iovs` and `out_iovs` pairs of an
 * address and a length (8 bytes each) follow in place of the output, at most 256 in all (FUSE_IOCTL_MAX_IOV):
 * the client sends the request again with the input that these describe. Linux accepts that from CUSE
 * only. */
typedef struct {
	int32_t result;
	uint32_t flags, in_iovs, out_iovs;
} nizwarf_ioctl;

/* A time of a nizwarf_statx, since 1970. `reserved` must be 0. */
typedef struct {
	int64_t tv_sec;
	uint32_t tv_nsec;
	int32_t reserved;
} nizwarf_sx_time;

/* The answer to a STATX, laid out as fuse_statx_out of linux/fuse.h: how long the attributes are valid, and
 * the fields of statx(2) without their prefix. `mask` must say which of them are set. The spare fields must
 * be 0. */
typedef struct {
	uint64_t attr_seconds;
	uint32_t attr_nanoseconds, out_flags;
	uint64_t spare[2];
	uint32_t mask, blksize;
	uint64_t attributes;
	uint32_t nlink, uid, gid;
	uint16_t mode, spare0[1];
	uint64_t ino, size, blocks, attributes_mask;
	nizwarf_sx_time atime, btime, ctime, mtime;
	uint32_t rdev_major, rdev_minor, dev_major, dev_minor;
	uint64_t spare2[14];
} nizwarf_statx;

/* The largest error number that Linux accepts. */
enum { NIZWARF_MAX_ERRNO = 511 };

/* The initial value of an answer. Its `error` is -1, which is replied as EIO, so that a call which the
 * program forgets to answer fails, instead of succeeding with attributes of zeros. So `error` must be set to
 * 0 or to an error number. */
#define NIZWARF_ANSWER_INIT                                                                                  \
	{                                                                                                    \
		-1, 0, 0, 0, 0, 0, { 0, 0, 0, 0, 0, 0, { 0, 0, 0, 0, 0, 0, 0, 0, 0, 0, 0, 0, 0, 0, 0, 0 } }, \
			{ 0, 0, 0, 0, 0, 0, 0, 0 }, 0, 0, 0, 0, 0                                            \
	}

/* Sets the options that the file system wants, for the answer to an INIT. Options that the client does not
 * support are ignored. */
static inline void nizwarf_answer_options(nizwarf_answer *answer, uint64_t options)
{
	answer->count = options;
}

/* The option FUSE_PASSTHROUGH of INIT, which older headers of Linux lack. */
#define NIZWARF_PASSTHROUGH (UINT64_C(1) << 37)

/* Lets the client read and write a file directly, for the answer to an OPEN or a CREATE: `backing_id` is a
 * number that ioctl(2) with FUSE_DEV_IOC_BACKING_OPEN on /dev/fuse has returned. It is ignored unless the
 * session's options have NIZWARF_PASSTHROUGH. */
static inline void nizwarf_answer_backing(nizwarf_answer *answer, uint32_t backing_id)
{
	answer->count = backing_id;
}

/* Sets the offset of the answer to an LSEEK, the block of a BMAP, or the number of bytes of a COPY_64. */
static inline void nizwarf_answer_offset(nizwarf_answer *answer, uint64_t offset)
{
	answer->count = offset;
}

/* Returns how many bytes a directory entry takes of the `size` of a READDIR: `name_size` counts the NUL, and
 * `plus` says whether the call has NIZWARF_PLUS. A program that adds these up can stop before the reply is
 * full, and then has no lookup to drop. */
size_t nizwarf_record_size(size_t name_size, int plus);

/* ---- Encoding ---------------------------------------------------------------------------------- */

/* Encodes the answer to a call that nizwarf_decode has decoded, into a reply buffer of
 * the same size. The parts of the buffer may differ, and so may the thread. The session must have the same
 * sizes.
 *
 * Returns NIZWARF_OK if the reply is in the reply buffer: its length is in the result. Returns
 * NIZWARF_ENCODE_MESSAGE if it does not fit: there is no reply then. Returns NIZWARF_OUT_OF_MEMORY only with
 * other scratch memory than the call was decoded with: the program may call it again with the same arguments,
 * and must not drop any lookups before; or it may give up, and must then drop them. After each of these the
 * program must drop the lookups that the result names (`forget`, `entries`). Any other code is an error of
 * the program, and the result means nothing. */
int32_t nizwarf_encode(nizwarf_scratch *scratch, const nizwarf_session *session, const nizwarf_call *call,
		       const nizwarf_answer *answer, const struct iovec *reply, size_t reply_count,
		       nizwarf_result *result);

/* Frees scratch memory. It may be used again afterwards. Returns NIZWARF_NO_SERVER if there was nothing to
 * free. */
int32_t nizwarf_scratch_free(nizwarf_scratch *scratch);

/* How many interrupts a nizwarf_interrupts keeps. */
enum { NIZWARF_MAX_INTERRUPTS = 64 };

/* Recent interrupts whose requests were not found, because an interrupt may arrive before its request, or
 * after its end. It must be initialised with zeros, and used under a lock of the program: an interrupt
 * handler that does not find the request calls nizwarf_keep_interrupt, and a call that is about to wait calls
 * nizwarf_take_interrupt first. When it is full, the oldest numbers are overwritten. Its fields must not be
 * used. */
typedef struct {
	uint64_t unique[NIZWARF_MAX_INTERRUPTS];
	unsigned next;
} nizwarf_interrupts;

/* Keeps the number of an interrupted request that was not found. */
void nizwarf_keep_interrupt(nizwarf_interrupts *kept, uint64_t unique);

/* Returns 1 if the call with this number was interrupted before it began, and forgets the interrupt; 0
 * otherwise. The call should return EINTR after 1. */
int nizwarf_take_interrupt(nizwarf_interrupts *kept, uint64_t unique);

/* ---- Checks, and messages as text -------------------------------------------------------------- */

/* Checks and messages as text. A check is for a program between an untrusted client and a server that trusts
 * its requests: see check.c of the examples. The functions of this section have no state and no scratch
 * memory, so any number of threads may call them. The bytes of a message must not change during a call.
 *
 * nizwarf_check tests a request in one part as nizwarf_decode would decode it for a reply buffer of this size
 * (`reply_size`), but produces no reply. It returns NIZWARF_CALL if the request is well-formed and its call
 * must be made; `call` is then filled in. It returns NIZWARF_OK if the request needs no file system, so that
 * nizwarf_decode would return NIZWARF_OK; for an INTERRUPT it stores the number of the interrupted request in
 * `*interrupts`, and otherwise 0. Any other code means that the request is rejected, as nizwarf_decode would
 * reject it. An INIT of a later major version is NIZWARF_OK here even if its reply of 80 bytes does not fit.
 * Whether the request has as many bytes as its header says is not checked, because not all servers rely on
 * that.
 *
 * Memory is allocated only for a BATCH_FORGET and for a security context: no other request returns
 * NIZWARF_OUT_OF_MEMORY. */
int32_t nizwarf_check(const nizwarf_session *session, uint32_t features, const void *request, size_t len,
		      size_t reply_size, nizwarf_call *call, uint64_t *interrupts);

/* Formats a request as a line of text without a newline. Like snprintf(3), it writes at most `size` bytes,
 * the last of them a NUL, and returns the length of the whole line without the NUL; the line was truncated if
 * this is not less than `size`. The line has the opcode and each field; those of an optional operation, such
 * as GETLK, only if its record is complete. For example:
 *
 *	LOOKUP unique=3 node=1 uid=0 gid=0 pid=77 name="a"
 *
 * The line has only printable ASCII: other bytes of a name are written as `\x` and two hexadecimal digits. A
 * request that cannot be decoded, or that is replied ENOSYS or EPROTO without a call, ends in `refused=` and
 * the reason. `options` are those of the session. `text` may be NULL if `size` is 0, and must not overlap the
 * messages. A message that is NULL counts as one of no bytes. Nothing is allocated. */
size_t nizwarf_print_request(const void *request, size_t len, uint64_t options, char *text, size_t size);

/* Formats the reply to a request in the same way. For example:
 *
 *	-> unique=3 entry node=2 generation=0 ..
 *
 * The first 48 bytes of the request suffice, because they say which record the reply has. A reply of no bytes
 * is formatted as `-> no reply`. */
size_t nizwarf_print_reply(const void *request, size_t len, const void *reply, size_t reply_len, char *text,
			   size_t size);

/* ---- Notices ----------------------------------------------------------------------------------- */

/* Notices, which a server sends to Linux on its own account. The program must write a notice to /dev/fuse in
 * one piece, as it writes a reply. It may do so on any thread, but must not do so inside a call for the same
 * node or name, except with a nizwarf_notice_poll, and must not hold a lock that a call needs, because Linux
 * may wait for a request in progress before it handles the notice. The write fails with ENOENT if Linux has
 * nothing cached for the node or name, and with EINVAL if it does not support the notice. Virtio-fs has no
 * notices.
 *
 * Each function encodes a notice into the first of the `size` bytes at `out`, and returns its length: at most
 * 48 bytes, or 41 bytes and the name. It returns 0 and writes nothing if the notice is longer than `size`, if
 * it would be longer than 4 GiB with the data that follow, or if a pointer is NULL. The functions have no
 * state and allocate nothing, so any number of threads may call them. */

/* Bits of `flags` of nizwarf_notice_inval_entry. NIZWARF_EXPIRE_ONLY: the name is not dropped, but looked up
 * again when it is used next. */
enum { NIZWARF_EXPIRE_ONLY = 1 << 0 };

/* Wakes the callers that wait for events of a file. `kh` is the number of a POLL that had
 * FUSE_POLL_SCHEDULE_NOTIFY; they poll again. `kh` is the same for all polls of one open file, and may be
 * forgotten after its release; Linux ignores a number that it does not know. Linux waits for nothing when it
 * handles this notice, so it may be sent inside any call, also a write to the same file. */
size_t nizwarf_notice_poll(uint64_t kh, void *out, size_t size);

/* Invalidates the cached attributes of a node, and `len` bytes of its cached data from `offset` on; all from
 * there if `len` is 0 or less, and none if `offset` is negative. */
size_t nizwarf_notice_inval_inode(uint64_t node, int64_t offset, int64_t len, void *out, size_t size);

/* Invalidates a cached name in a directory. `name` has `name_len` bytes and needs no NUL. */
size_t nizwarf_notice_inval_entry(uint64_t parent, uint32_t flags, const char *name, size_t name_len,
				  void *out, size_t size);

/* Stores data in the page cache of a node: the `count` bytes from `offset` on, which must follow the notice
 * in the same write. */
size_t nizwarf_notice_store(uint64_t node, uint64_t offset, uint32_t count, void *out, size_t size);

/* Requests cached data of a node: at most `count` bytes from `offset` on. They arrive as a NOTIFY_REPLY with
 * this `unique`, for which the feature NIZWARF_FEATURE_NOTIFY_REPLY must be enabled. */
size_t nizwarf_notice_retrieve(uint64_t unique, uint64_t node, uint64_t offset, uint32_t count, void *out,
			       size_t size);

/* Removes a cached name in a directory that referred to the node `child`, because the file was deleted.
 * Unlike nizwarf_notice_inval_entry, it also reports the deletion to processes that watch the file by
 * inotify(7). */
size_t nizwarf_notice_delete(uint64_t parent, uint64_t child, const char *name, size_t name_len, void *out,
			     size_t size);

/* Requests that Linux sends all requests again that have no reply yet, for a server that takes over from
 * another one. Bit 63 of their `unique` is set. */
size_t nizwarf_notice_resend(void *out, size_t size);

/* Invalidates all cached names: each is looked up again when it is used next. */
size_t nizwarf_notice_inc_epoch(void *out, size_t size);

/* Requests that Linux forgets nodes that are not in use. Their numbers, `count` of them with 8 bytes each,
 * must follow the notice in the same write. */
size_t nizwarf_notice_prune(uint32_t count, void *out, size_t size);

/* ---- The functions of the library -------------------------------------------------------------- */

/* For programs in other languages, which link these functions and lay out the structs as follows. Their
 * contracts are in crates/nizwarf_codec/src. No pointer may be NULL here; one to a list or a text of length 0
 * may point anywhere. */
#if defined(__cplusplus) && __cplusplus >= 201103L
#define NIZWARF_HOLDS(fact) static_assert(fact, #fact)
#elif !defined(__cplusplus) && defined(__STDC_VERSION__) && __STDC_VERSION__ >= 201112L
#define NIZWARF_HOLDS(fact) _Static_assert(fact, #fact)
#else
#define NIZWARF_HOLDS(fact) struct nizwarf_holds
#endif

NIZWARF_HOLDS(sizeof(void *) == 8 && sizeof(size_t) == 8);
NIZWARF_HOLDS(sizeof(struct iovec) == 16);
NIZWARF_HOLDS(sizeof(nizwarf_scratch) == 8 && sizeof(nizwarf_range) == 16);
NIZWARF_HOLDS(sizeof(nizwarf_session) == 16 && sizeof(nizwarf_result) == 48);
NIZWARF_HOLDS(sizeof(nizwarf_setattr) == 88 && sizeof(nizwarf_call) == 312);
NIZWARF_HOLDS(sizeof(nizwarf_attr) == 88 && sizeof(nizwarf_entry) == 128);
NIZWARF_HOLDS(sizeof(nizwarf_statfs) == 64 && sizeof(nizwarf_dirent) == 168);
NIZWARF_HOLDS(sizeof(nizwarf_answer) == 264);
NIZWARF_HOLDS(sizeof(nizwarf_init_params) == 40);
NIZWARF_HOLDS(sizeof(nizwarf_lock) == 24 && sizeof(nizwarf_ioctl) == 16 && sizeof(nizwarf_statx) == 288);
#undef NIZWARF_HOLDS

/* Decode, encode, copy the reply, and free scratch memory. The functions above call these.
 *
 * The result must be zeroed before, except for its `options`, which must be those of the session for
 * nizwarf_decode_at, and those of the call for nizwarf_encode_at. `call->opcode` must be 0 for
 * nizwarf_decode_at. `features` has no NIZWARF_FEATURE_INIT. `reply_size` is the size of the reply buffer. Of
 * `answer` the first 224 bytes are read, because its text and entries are passed as arguments, and its
 * `init_params` to nizwarf_add_to_init_at. After both
 * functions the first `written` bytes of the reply must be copied into the reply buffer:
 * nizwarf_scratch_copy_at copies bytes from the position `at` on, as many as there are and `piece` can hold,
 * and returns how many.
 *
 * Two checks of nizwarf_encode are left to the caller, who must reply EIO in these cases: an error number
 * above 511 is replied as it is, and a listing ends before an entry with an invalid name or error. */
int32_t nizwarf_decode_at(nizwarf_scratch *scratch, const nizwarf_session *session, uint32_t features,
			  const struct iovec *request, size_t request_count, size_t reply_size,
			  nizwarf_call *call, nizwarf_result *result);
int32_t nizwarf_encode_at(nizwarf_scratch *scratch, const nizwarf_session *session, const nizwarf_call *call,
			  const nizwarf_answer *answer, const uint8_t *text, size_t text_len,
			  const nizwarf_dirent *items, size_t items_len, nizwarf_result *result);
size_t nizwarf_scratch_copy_at(nizwarf_scratch *scratch, size_t at, uint8_t *piece, size_t piece_len);
int32_t nizwarf_scratch_free_at(nizwarf_scratch *scratch);
/* nizwarf_init_capable_at returns the extension options that the client of an INIT supports; the first
 * NIZWARF_INIT_FRONT bytes of the request suffice. nizwarf_add_to_init_at adds parameters to the reply to an
 * INIT, and returns the extension options that are negotiated. NIZWARF_LONGEST_CHANGED is the length of the
 * longest reply that these functions, or nizwarf_add_backing_at, change. */
enum { NIZWARF_INIT_FRONT = 104, NIZWARF_LONGEST_CHANGED = 160 };
uint64_t nizwarf_init_capable_at(const uint8_t *request, size_t len);
uint64_t nizwarf_add_to_init_at(uint8_t *reply, size_t len, uint64_t offered,
				const nizwarf_init_params *more);
/* Check and format. `call->opcode` and `*interrupts` must be 0 before. */
int32_t nizwarf_check_at(const nizwarf_session *session, uint32_t features, const uint8_t *request,
			 size_t len, size_t reply_size, nizwarf_call *call, uint64_t *interrupts);
size_t nizwarf_print_request_at(const uint8_t *request, size_t len, uint64_t options, uint8_t *text,
				size_t text_len);
size_t nizwarf_print_reply_at(const uint8_t *request, size_t len, const uint8_t *reply, size_t reply_len,
			      uint8_t *text, size_t text_len);

/* Encode notices. A name must be in one piece; it has no NUL. */
size_t nizwarf_notice_poll_at(uint64_t kh, uint8_t *out, size_t size);
size_t nizwarf_notice_inval_inode_at(uint64_t node, int64_t offset, int64_t len, uint8_t *out, size_t size);
size_t nizwarf_notice_inval_entry_at(uint64_t parent, uint32_t flags, const uint8_t *name, size_t name_len,
				     uint8_t *out, size_t size);
size_t nizwarf_notice_store_at(uint64_t node, uint64_t offset, uint32_t count, uint8_t *out, size_t size);
size_t nizwarf_notice_retrieve_at(uint64_t unique, uint64_t node, uint64_t offset, uint32_t count,
				  uint8_t *out, size_t size);
size_t nizwarf_notice_delete_at(uint64_t parent, uint64_t child, const uint8_t *name, size_t name_len,
				uint8_t *out, size_t size);
size_t nizwarf_notice_resend_at(uint8_t *out, size_t size);
size_t nizwarf_notice_inc_epoch_at(uint8_t *out, size_t size);
size_t nizwarf_notice_prune_at(uint32_t count, uint8_t *out, size_t size);
/* Adds the number of a backing file to the reply to an OPEN or a CREATE, which must have negotiated
 * PASSTHROUGH. Returns 1, or 0 if the reply is an error or incomplete, and is left unchanged. */
int32_t nizwarf_add_backing_at(uint8_t *reply, size_t len, int32_t id);

#ifdef __cplusplus
}
#endif

#endif
