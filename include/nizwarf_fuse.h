/* nizwarf_fuse.h - mounts a FUSE file system and serves it over /dev/fuse.
 *
 * The library libnizwarf-fuse has these functions, and uses libnizwarf. A program links both:
 *
 *	cc hello.c $(pkg-config --cflags --libs nizwarf-fuse)
 *
 * Most programs need one function: nizwarf_fuse_main() parses the command line, mounts, and serves a table of
 * nizwarf_ops.h, as hello.c of the examples shows. A program that needs more than its options fills in a
 * nizwarf_transport, mounts with nizwarf_fuse_mount(), and serves with nizwarf_fuse_serve(), as news.c does:
 *
 *	const nizwarf_transport by = { .size = sizeof(by), .program = "news", .workers = 2, .serve = serve };
 *	int device = nizwarf_fuse_mount(&by, "news", "/mnt", MS_NOSUID | MS_NODEV, "default_permissions");
 *	..
 *	status = nizwarf_fuse_serve(&by, device, "/mnt");
 *
 * Users. Only root may call mount(2). For other users the library runs fusermount3 of the package fuse3, as
 * libfuse does, which lets a user mount on a directory that the user owns. fusermount3 rejects the option
 * allow_other unless /etc/fuse.conf has user_allow_other.
 *
 * Workers. A worker is a thread that calls `begin`, then `serve` for one request after another, then `end`. So
 * each worker should have its own scratch memory and reply buffer, by its number. The thread that calls
 * nizwarf_fuse_serve() waits for signals. SIGINT, SIGTERM and SIGHUP unmount; the library blocks them in the
 * calling thread from the mount on, so that none can end the process and leave the mount behind. A program
 * must therefore start threads of its own after the mount, or must block these signals in them.
 *
 * Requests. A request is in one segment. The reply buffer is one segment too, but two over io_uring: 16 bytes
 * for the header, and the payload. nizwarf_serve_ops() needs a reply buffer in one segment, so a program that
 * enables io_uring must then pass it a buffer of its own, and copy the reply to the two. The data of a WRITE,
 * and those of the reply to a READ, begin at a page.
 *
 * Errors. A function that fails prints the reason to standard error, after the name of the program, and returns
 * -1 or 1; the line is dropped if standard error is a full pipe. If `serve` rejects a request, the client gets
 * EIO, or ENOMEM after NIZWARF_OUT_OF_MEMORY. If Linux rejects a reply, the client gets EIO. The mount goes on.
 *
 * Processes. A process may make one mount, because the library remembers where it is: nizwarf_fuse_unmount()
 * then unmounts what was mounted, even if the path leads elsewhere meanwhile. The functions are not
 * async-signal-safe.
 *
 * ABI. `size` of a nizwarf_transport lets the struct grow: the library reads only the fields within it, and
 * refuses a size that it does not know, which is that of a later header.
 *
 * This header compiles as C99, C11 and C++11.
 */
#ifndef NIZWARF_FUSE_H
#define NIZWARF_FUSE_H

#include <pthread.h>
#include <sys/types.h>
#include "nizwarf_ops.h"

#ifdef __cplusplus
extern "C" {
#endif

/* NIZWARF_MAX_PAYLOAD is the largest payload of a request or a reply in bytes: `max_buffer` of the session must not
 * exceed it. It must not exceed NIZWARF_MAX_SPLICE in a transport with `splices`, because pipes are no larger
 * for users other than root. A transport has at most NIZWARF_MAX_WORKERS workers, those of io_uring included. */
enum { NIZWARF_MAX_PAYLOAD = 1 << 20, NIZWARF_MAX_SPLICE = 1 << 19, NIZWARF_MAX_WORKERS = 64 };

/* Where notices are sent, for nizwarf_fuse_notify(). It must be initialised with NIZWARF_FUSE_NOTICES_INIT, and
 * must be valid until nizwarf_fuse_serve() has returned and no thread uses it. Its fields must not be used. */
typedef struct {
	pthread_mutex_t lock;
	pthread_cond_t idle;
	int device;
	unsigned senders;
} nizwarf_fuse_notices;

/* The initial value of a nizwarf_fuse_notices. */
#define NIZWARF_FUSE_NOTICES_INIT                                          \
	{                                                                  \
		PTHREAD_MUTEX_INITIALIZER, PTHREAD_COND_INITIALIZER, -1, 0 \
	}

/* How a file system is served. The fields `size`, `program`, `workers` and `serve` must be set; the others may be 0,
 * so a program should use designated initialisers. The struct must not change while it is served, and
 * may be freed afterwards. */
typedef struct {
	/* sizeof(nizwarf_transport). */
	size_t size;
	/* The name of the program, with which each message begins. It is also the subtype of the mount: the
	 * type in /proc/mounts is `fuse.NAME`. */
	const char *program;
	/* Passed to each of the functions. */
	void *user;
	/* How many workers serve, from 1 to NIZWARF_MAX_WORKERS. Each but the first has its own descriptor of
	 * /dev/fuse. */
	unsigned workers;
	/* Not 0: nizwarf_fuse_read_from() and nizwarf_fuse_write_to() may be used. The data of a WRITE may then be
	 * missing from the request until nizwarf_fuse_write_to() has returned. */
	int splices;
	/* Options of INIT that are removed from each INIT before `serve` gets it. For example, Linux truncates with a
	 * SETATTR if FUSE_ATOMIC_O_TRUNC is withheld, so a file system without handles needs no `open`. */
	uint64_t withheld;
	/* Not 0: requests come over io_uring if Linux supports it (6.14, with fuse.enable_uring=Y), and by read(2)
	 * otherwise, about which `io_uring_warn` requests a message. There are `io_uring_workers` for each
	 * processor, at least one, beside the others.
	 *
	 * A request whose reply is ENOSPC, EMFILE or ENFILE is passed to `serve` a second time, after the FORGETs that
	 * Linux has queued, because these may free space or descriptors. So `serve` must have changed nothing
	 * if it fails with one of these errors, neither the file system nor the request. FLUSH, FSYNC,
	 * FSYNCDIR, SYNCFS and a WRITE with O_DSYNC or O_SYNC are not repeated after ENOSPC, because it may be
	 * an error of earlier writes, which is reported only once. */
	int io_uring, io_uring_warn;
	unsigned io_uring_workers;
	/* How many requests of each processor may be kept at a time over io_uring (nizwarf_request_keep). Each needs
	 * a buffer of its own. By read(2) there is no limit. */
	unsigned io_uring_kept;
	/* Where notices are sent, or NULL. */
	nizwarf_fuse_notices *notices;
	/* Called by each worker before its first request and after its last. Both may be NULL. If `begin` returns
	 * another value than 0, nizwarf_fuse_serve() fails; `begin` should have printed why, and `end` is not
	 * called for this worker. */
	int (*begin)(void *user, unsigned worker);
	void (*end)(void *user, unsigned worker);
	/* Called before the process ends because a request or a worker does not return after a signal. It should remove
	 * what must not remain, such as a file of the process, and must not wait. May be NULL. */
	void (*left)(void *user);
	/* Serves one request. It must return a code as nizwarf_serve_ops() does and store the length of the reply
	 * in `*reply_len`, which is preset to 0. NIZWARF_CALL means that the request was kept with
	 * nizwarf_request_keep(); without that it is a rejected request. `worker` is below `workers`, or
	 * below NIZWARF_MAX_WORKERS with io_uring; no two calls have the same number at the same time. All arguments
	 * are valid until it returns. */
	int32_t (*serve)(void *user, unsigned worker, const struct iovec *request, size_t request_count,
			 const struct iovec *reply, size_t reply_count, size_t *reply_len);
	/* NULL. It is for programs that compile a transport for virtual machines; this library ignores it. */
	const struct nizwarf_machine *machine;
} nizwarf_transport;

/* A request that is completed later: see nizwarf_request_keep. */
typedef struct nizwarf_request nizwarf_request;

/* Runs a file system: the `main` of a program that needs no options of its own. `argc` and `argv` are those of
 * main, and may be reordered. The command line is `[OPTION..] MOUNTPOINT`:
 *
 *   - `-o OPTIONS`: mount options, separated by commas: those of mount(8) that every file system has, such as ro,
 *     noexec or noatime, and fsname=NAME, max_read=N and allow_other.
 *   - `-f`: serve in the foreground. This is always so; the option is accepted because libfuse has it.
 *   - `--workers N`: how many threads serve, from 1 to 64, by default 1. Functions must be thread-safe
 *     nevertheless, because the user may choose more.
 *   - `--fd N`: serve the descriptor N instead of a mount: one of /dev/fuse that somebody else has mounted,
 *     or a socket that preserves message boundaries (SOCK_SEQPACKET), which is useful for tests.
 *   - `-h`, `--help` and `-V`, `--version`: print the usage, or the version of the library.
 *
 * It mounts with nosuid, nodev and default_permissions, so Linux checks permissions by the attributes that the
 * functions return, and serves until the file system is unmounted or a signal comes. It calls `destroy` of
 * the table last. `user` is passed to the functions of the table. If the table has no bad_error, the first number that
 * is not an error number is reported on standard error. Functions must not return NIZWARF_LATER here,
 * because the session is the library's: use nizwarf_fuse_serve() for that. The first one is reported on
 * standard error, and EIO is replied.
 *
 * Returns the exit status: 0 on success, 1 on failure, 2 if the arguments are invalid. */
int nizwarf_fuse_main(int argc, char **argv, const nizwarf_ops *ops, void *user);

/* Mounts on the directory `mountpoint` and returns a descriptor of /dev/fuse, which must be passed to
 * nizwarf_fuse_serve() or closed, or -1. `source` is the first field of /proc/mounts. `flags` are those of mount(2),
 * such as MS_NODEV, and `options` the mount options of FUSE, separated by commas (default_permissions,
 * allow_other, max_read=N), or NULL. A user other than root mounts by fusermount3: that must answer within 10
 * seconds, and a signal that ends the program ends the attempt. Blocks SIGINT, SIGTERM and SIGHUP in
 * the calling thread. */
int nizwarf_fuse_mount(const nizwarf_transport *by, const char *source, const char *mountpoint,
		       unsigned long flags, const char *options);

/* The same in two steps, for a program that enters a sandbox in between: the first opens /dev/fuse and returns
 * its descriptor, the second mounts it and returns 0. Both return -1 on failure. They require CAP_SYS_ADMIN:
 * fusermount3 is not used. */
int nizwarf_fuse_open(const nizwarf_transport *by);
int nizwarf_fuse_mount_on(const nizwarf_transport *by, int device, const char *source, const char *mountpoint,
			  unsigned long flags, const char *options);

/* Unmounts what this process has mounted on `mountpoint`. If that is in use, it is detached, and unmounted when it is
 * no longer used. Any thread may call it. Returns 0, also if it was unmounted already, or -1. nizwarf_fuse_serve()
 * calls it after a signal, so a program needs it only to end by itself. */
int nizwarf_fuse_unmount(const nizwarf_transport *by, const char *mountpoint);
/* The same for a program that fails before it serves: nothing is printed, and a mount that is in use is detached. */
void nizwarf_fuse_detach(const nizwarf_transport *by, const char *mountpoint);

/* Serves requests until the file system is unmounted, or the connection is aborted, as by umount -f; the mount may
 * then remain, and nizwarf_fuse_unmount() removes it. Closes `device`. A first signal unmounts `mountpoint`. If
 * that is in use, serving ends when it is no longer used, at a second signal, or about a second later if a call
 * of `serve` does not return; a request that was kept does not count. If the call does not return even then,
 * the process calls `left` and ends. `mountpoint` must be NULL if another process has mounted the device: a
 * signal then ends the serving, except one with the value NIZWARF_FUSE_UNMOUNTED, as sigqueue(3) sends it, which
 * says that the other process unmounts. `device` may also be a socket that preserves message boundaries; it is
 * served until its peer closes it.
 *
 * Linux sends no DESTROY when /dev/fuse is unmounted, so the program should call nizwarf_end_ops() afterwards.
 * Returns 0 on success and 1 on failure. SIGPIPE is ignored from then on, and SIGRTMIN is used to interrupt workers. */
int nizwarf_fuse_serve(const nizwarf_transport *by, int device, const char *mountpoint);

/* The value of a signal that announces an unmount: see nizwarf_fuse_serve. */
enum { NIZWARF_FUSE_UNMOUNTED = 0x756d6e74 };

/* Moves data of the reply to a READ from the file `fd` to the kernel without a copy: at most `size` bytes
 * from `offset` on. It must be called by `serve`, in a transport with `splices`, at most once for a request.
 * The data then count as if they were in the reply buffer after its first 16 bytes. Returns how many bytes were taken,
 * or -1 if that is not possible; the program must then store the data in the reply buffer itself. */
ssize_t nizwarf_fuse_read_from(int fd, uint64_t offset, size_t size);

/* Moves the first `size` bytes of the data of a WRITE to the file `fd` at `offset`. It must be called by `serve`,
 * in a transport with `splices`. Returns how many bytes were moved, which may be 0; the others are in the
 * request from then on. Returns -1 with errno if data were lost. */
ssize_t nizwarf_fuse_write_to(int fd, uint64_t offset, size_t size);

/* Sends a notice of nizwarf.h, such as that of nizwarf_notice_inval_inode, to the kernel: `len` bytes at `notice`, then
 * `data_len` bytes at `data`, which may be NULL if there are none. Any thread may call it. The caller must
 * hold no lock that `serve` takes, and must not send it inside a call for the same node or name, except a
 * nizwarf_notice_poll, because the kernel may wait for a request while it handles a notice. Returns 0 or an error
 * number: ENOTCONN before INIT was answered and after the end of the mount, ENOENT if the kernel does not know
 * the node or the name. */
int nizwarf_fuse_notify(nizwarf_fuse_notices *notices, const void *notice, size_t len, const void *data,
			size_t data_len);

/* Keeps the request that `serve` has on this thread, so that it can be completed later, without a worker that
 * waits. After a success `serve` must return NIZWARF_CALL (a function of a table NIZWARF_LATER), and the program
 * must call nizwarf_request_complete() once. Returns NULL if there is no memory or the limit `io_uring_kept` is
 * reached; the request must then be served at once. Returns NULL also if the request was kept already or if this
 * thread serves no request. */
nizwarf_request *nizwarf_request_keep(void);

/* Completes a request that was kept, and frees it: with the reply of `len` bytes if `code` is NIZWARF_OK, and
 * otherwise with an error, as if `serve` had returned `code`. Any thread may call it, also before `serve` has
 * returned. Requests that are still kept when nizwarf_fuse_serve() has returned must be completed as well, because
 * their memory is not freed otherwise; nothing is sent. */
void nizwarf_request_complete(nizwarf_request *request, int32_t code, const void *reply, size_t len);

#ifdef __cplusplus
}
#endif

#endif
