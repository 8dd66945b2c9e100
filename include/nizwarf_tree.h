/* nizwarf_tree.h - a FUSE server over a file system in memory.
 *
 * The file system is a tree of directories, files and links. A transport takes a request from its queue,
 * passes it to nizwarf_server_handle() with a reply buffer, and completes the request with the length that
 * this returns. For example:
 *
 *	nizwarf_server server = NIZWARF_SERVER_INIT;
 *
 *	nizwarf_server_new(&server, 4096, 1 << 20, NULL);
 *	..
 *	nizwarf_server_handle(&server, request, request_count, reply, reply_count, &len);
 *	complete(len);
 *	..
 *	nizwarf_server_free(&server);
 *
 * nizwarf_server_handle_take() does the same without copying the reply. nizwarf.h includes this file; for a
 * file system of your own see there.
 *
 * Guarantees. These hold from nizwarf_server_new on, for any requests and any calls in any order:
 *
 *   - Each request that nizwarf_server_handle passes to the server is answered as the next one of one session.
 *   - For each node but 0, the lookups that the file system has counted, less those that accepted requests
 *     have forgotten, are the lookups that the client has received, less those that it has forgotten.
 *   - The files form a tree, within the limits of the settings.
 *   - If the client never forgets more lookups than it has, only nodes with a name or with a lookup since the
 *     last INIT are kept; so after it has forgotten all, or sent DESTROY, only nodes with a name remain.
 *
 * The last two are properties of this tree; a library over another file system has its own. A TMPFILE is
 * passed to the server as the CREATE of the same bytes. STATX and IOCTL, which change nothing, are not passed
 * to it. The functions of the library, whose names end in `_at`, are proved to keep these promises
 * (crates/nizwarf_tree); the others check pointers and copy replies.
 *
 * Ownership. A nizwarf_server must be initialised with NIZWARF_SERVER_INIT, and must not be copied; only the
 * functions of this file may read or write it. Its memory belongs to the library from nizwarf_server_new
 * until nizwarf_server_free. The same is true of a nizwarf_reply_buf, from the first call that uses it until
 * nizwarf_reply_buf_free; it belongs to no server, so the reply in it stays valid after the server is freed.
 * Requests and reply buffers, whose rules are those of nizwarf.h, are used during a call only. A reply buffer
 * may overlap the request, because it is written after the request was read, but must not overlap the server
 * or `*len`. A server keeps memory of the size of the largest reply buffer that was passed to it.
 *
 * Threads. A server, and a nizwarf_reply_buf, must be used by one call at a time, on any thread. If two calls
 * are on different threads, a lock, the start or join of a thread, or a sequentially consistent atomic must
 * order them. A taken reply must not be read during a call with its nizwarf_reply_buf. Two servers are
 * independent.
 */
#ifndef NIZWARF_TREE_H
#define NIZWARF_TREE_H

#include "nizwarf.h"

#ifdef __cplusplus
extern "C" {
#endif

/* A server. It must be initialised with NIZWARF_SERVER_INIT, which is no server. */
typedef struct {
	void *at;
} nizwarf_server;

/* The initial value of a nizwarf_server. */
#define NIZWARF_SERVER_INIT \
	{                   \
		0           \
	}

/* Memory of a reply, for nizwarf_server_handle_take. It must be initialised with NIZWARF_REPLY_BUF_INIT, and
 * freed by nizwarf_reply_buf_free. */
typedef struct {
	void *at;
} nizwarf_reply_buf;

/* The initial value of a nizwarf_reply_buf. */
#define NIZWARF_REPLY_BUF_INIT \
	{                      \
		0              \
	}

/* The position of a taken reply: `len` bytes, which begin `start` bytes after `at`. `at` may point anywhere
 * if `len` is 0. */
typedef struct {
	const uint8_t *at;
	size_t start, len;
} nizwarf_reply_range;

/* Settings of a new file system. The struct has no padding. All fields must be set, for which
 * NIZWARF_SERVER_CONFIG may be used. A library over another file system may ignore fields. */
typedef struct {
	/* The time of creation in seconds since 1970, which is the time of the root. */
	uint64_t seconds;
	/* Limits: the number of nodes, the root included; the number of bytes of all files, links and
	 * attributes; and the size of one file in bytes. */
	uint64_t nodes, bytes, file;
	/* The nanoseconds of the time of creation. */
	uint32_t nanoseconds;
	/* Owner, group and permissions of the root. */
	uint32_t uid, gid, mode;
	/* NIZWARF_WRITEBACK, or 0. */
	uint64_t flags;
} nizwarf_server_config;

/* A flag of the settings: negotiate FUSE_WRITEBACK_CACHE, so that the kernel caches writes and sends them
 * later. Because of that, lack of space is reported by fsync(2) or close(2), and not by write(2). */
#define NIZWARF_WRITEBACK 1

/* The default settings: 2^20 nodes, 4 GiB of data, links and attributes, and files as large as Linux allows;
 * a root with owner and group 0, which only the owner may write; time 0; no flags. Nodes and their names take
 * memory besides the 4 GiB. */
#define NIZWARF_SERVER_CONFIG                                                        \
	{                                                                            \
		0, UINT64_C(1) << 20, UINT64_C(1) << 32, INT64_MAX, 0, 0, 0, 0755, 0 \
	}

/* For programs in other languages, which link these functions; those below call them. No pointer may be NULL
 * here; one to an empty list may point anywhere. Their contracts are in crates/nizwarf_tree/src/lib.rt.
 * nizwarf_server_copy_at copies the bytes of the last reply from position `at` on, as many as there are and
 * `piece` can hold, and returns how many. nizwarf_server_take_at moves the last reply out of the server,
 * together with its memory, and stores its position; the server gets the memory that `taken` had. */
int32_t nizwarf_server_new_at(nizwarf_server *server, uint32_t page_size, uint32_t max_buffer,
			      const nizwarf_server_config *settings);
int32_t nizwarf_server_set_time_at(nizwarf_server *server, uint64_t seconds, uint32_t nanoseconds);
int32_t nizwarf_server_handle_at(nizwarf_server *server, const struct iovec *request, size_t request_count,
				 size_t reply_size, size_t *len);
size_t nizwarf_server_copy_at(nizwarf_server *server, size_t at, uint8_t *piece, size_t piece_len);
int32_t nizwarf_server_take_at(nizwarf_server *server, nizwarf_reply_buf *taken, nizwarf_reply_range *place);
int32_t nizwarf_reply_buf_free_at(nizwarf_reply_buf *taken);
uint64_t nizwarf_server_options_at(nizwarf_server *server);
uint32_t nizwarf_server_max_buffer_at(nizwarf_server *server);
int32_t nizwarf_server_free_at(nizwarf_server *server);

/* Creates a server. `page_size` is that of the machine, at least 4096. `max_buffer` is the largest payload of
 * a request or a reply in bytes, from 4096 to 134217728; virtiofsd uses 1048576. `settings` may be NULL for
 * NIZWARF_SERVER_CONFIG. A server that exists already is freed. Returns NIZWARF_OK; or NIZWARF_OUT_OF_MEMORY,
 * NIZWARF_WRONG_SIZE or NIZWARF_NULL, and then changes nothing. */
int32_t nizwarf_server_new(nizwarf_server *server, uint32_t page_size, uint32_t max_buffer,
			   const nizwarf_server_config *settings);

/* Sets the time of the file system, since 1970, which is used for everything that is created, changed or read
 * from now on. Until the first call it is the time of the settings, so a transport should call this before
 * each request, or regularly. Returns NIZWARF_OK, or NIZWARF_NO_SERVER. */
int32_t nizwarf_server_set_time(nizwarf_server *server, uint64_t seconds, uint32_t nanoseconds);

/* Serves one request. The first `*len` bytes of the reply buffer are the reply, and its other bytes are
 * unchanged. `*len` is 0 if there is no reply, as for FORGET, INTERRUPT and DESTROY.
 *
 * Returns a status code of nizwarf.h. After the codes 0 to 10 the request must be completed with `*len`, and
 * the session goes on. After NIZWARF_ENCODE_MESSAGE the call may have been made, but `*len` is 0, and the
 * reply buffer is filled with the beginning of the reply (unless it has less than 16 bytes), which must not
 * be used. After any other error the reply buffer is unchanged. */
int32_t nizwarf_server_handle(nizwarf_server *server, const struct iovec *request, size_t request_count,
			      const struct iovec *reply, size_t reply_count, size_t *len);

/* Serves one request as nizwarf_server_handle does, but moves the reply out of the server instead of copying
 * it. The reply is the `*len` bytes at `*reply`. They are valid until the next call with `taken`, even if the
 * server is used or freed before. The size argument, in bytes, limits the reply as a reply buffer would. If
 * there is no reply, and after each error, NIZWARF_ENCODE_MESSAGE too, `*reply` is NULL and `*len` is 0. */
int32_t nizwarf_server_handle_take(nizwarf_server *server, const struct iovec *request, size_t request_count,
				   size_t reply_size, nizwarf_reply_buf *taken, const void **reply,
				   size_t *len);

/* Frees the memory of a taken reply, and so the reply. Returns NIZWARF_NO_SERVER if there was none. */
int32_t nizwarf_reply_buf_free(nizwarf_reply_buf *taken);

/* Returns the options that the last INIT has negotiated: `flags` are bits 0 to 31, `flags2` bits 32 to 63.
 * Returns 0 if none are, or if there is no server. */
uint64_t nizwarf_server_options(nizwarf_server *server);

/* Returns the largest payload in bytes, or 0 if there is no server. */
uint32_t nizwarf_server_max_buffer(nizwarf_server *server);

/* Ends the session as a DESTROY does, and frees the server and all files in it. Returns NIZWARF_NO_SERVER if
 * the server was freed before. */
int32_t nizwarf_server_free(nizwarf_server *server);

#ifdef __cplusplus
}
#endif

#endif
