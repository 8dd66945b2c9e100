/* Definitions that the transports share: fuse_device.c, which serves /dev/fuse, and vhost_user.c, which
 * serves the virtio-fs device of a virtual machine. Both take requests, pass each to a function of a
 * nizwarf_transport, and complete it with the result. The part for /dev/fuse is the library libnizwarf-fuse:
 * nizwarf_fuse.h declares its functions, and defines workers and requests.
 *
 * The reply buffer of a virtual machine may have any number of pieces, which are in the machine's memory. The
 * reply is written there and must not be read back, so a table of functions needs a reply buffer of the
 * program's own, to be copied. Requests are copied into one segment, because a machine may change its memory
 * at any time. With `writes_in_place` the data of a WRITE are not copied: they are in the segments after the
 * first, which has the header and the record. A program must not rely on reading the same data twice; the
 * codec reads none of them, so only the first segment needs to be passed to it. */
#ifndef TRANSPORT_H
#define TRANSPORT_H

#include <linux/fuse.h>
#include <signal.h>
#include <string.h>
#include "nizwarf_fuse.h"

/* Blocks the signals that end a transport, or unblocks them with SIG_UNBLOCK. Returns their set. */
static inline sigset_t transport_hold_signals(int how)
{
	sigset_t ending;

	sigemptyset(&ending);
	sigaddset(&ending, SIGINT);
	sigaddset(&ending, SIGTERM);
	sigaddset(&ending, SIGHUP);
	pthread_sigmask(how, &ending, NULL);
	return ending;
}

/* The transports handle this flag of INIT themselves, and hide it from `serve`. Older headers lack it. */
#define TRANSPORT_OVER_IO_URING (UINT64_C(1) << 41)

/* The state of a machine's client, while it migrates to another server or from one. */
typedef struct transport_state transport_state;

/* The additional properties of a transport for virtual machines. Each function may be NULL. */
typedef struct nizwarf_machine {
	int writes_in_place;
	/* Not 0: no statistics of the requests are printed when a front end has disconnected. */
	int quiet;
	/* Not 0: if a request does not return although its front end has disconnected, it does not delay
	 * others, because another worker starts in place of its own, with a different number below
	 * NIZWARF_MAX_WORKERS. */
	int has_spare;
	/* Is called after a front end has disconnected and no request of it is in flight. With `has_spare`,
	 * requests that do not return may remain; vhost_user_client() distinguishes them from those of the
	 * next front end. */
	void (*parted)(void *user);
	/* Must complete the kept requests, because the machine pauses or its memory changes. If it is NULL,
	 * no request of a virtual machine can be kept (nizwarf_request_keep). */
	void (*recall)(void *user);
	/* Save and load the state of the client by transport_put_state() and transport_get_state(), while no
	 * request is in flight. The loaded state replaces the current one. Both return 0, or -1 after
	 * printing an error. If one is NULL, machines cannot migrate. */
	int (*save)(void *user, transport_state *to), (*load)(void *user, transport_state *from);
} nizwarf_machine;

static inline const nizwarf_machine *transport_machine(const nizwarf_transport *by)
{
	static const nizwarf_machine none;

	return by->machine ? by->machine : &none;
}

/* transport_put_state() writes bytes of a state, and returns 0 or -1. transport_get_state() reads at most
 * `len` bytes; it returns their number, which is less than `len` only at the end, or -1.
 * transport_wants_state() returns 0 if the transfer should go on, and otherwise -1. After -1 the front end
 * has disconnected, a signal came, or errno has the reason. */
int transport_put_state(transport_state *to, const void *bytes, size_t len);
ssize_t transport_get_state(transport_state *from, void *bytes, size_t len);
int transport_wants_state(transport_state *of);

/* Clears the withheld flags in a request, whose bytes must be the transport's own. A request that is not an
 * INIT, or too short to have flags, is unchanged. */
static inline void transport_withhold(const nizwarf_transport *by, unsigned char *request, size_t len)
{
	const size_t at = sizeof(struct fuse_in_header) + offsetof(struct fuse_init_in, flags);
	struct fuse_in_header asked;
	const uint64_t withheld = by->withheld | TRANSPORT_OVER_IO_URING;
	uint32_t flags[2] = { 0, 0 };
	/* The second word of flags follows the first, if the request has it. */
	const size_t size = len < at + sizeof(flags) ? sizeof(flags[0]) : sizeof(flags);

	if (len < at + size)
		return;
	memcpy(&asked, request, sizeof(asked));
	memcpy(flags, request + at, size);
	flags[0] &= ~(uint32_t)withheld;
	flags[1] &= ~(uint32_t)(withheld >> 32);
	if (asked.opcode == FUSE_INIT)
		memcpy(request + at, flags, size);
}

struct fuse_rings;

/* Objects that a program must make before it enters a sandbox: rings (fuse_ring_make), which then belong to
 * the transport, or NULL; and a descriptor of /proc/self/fd, by which /dev/fuse is opened again although it
 * has no path there, or 0. */
struct fuse_prepared {
	struct fuse_rings *rings;
	int descriptors;
};

/* The same as nizwarf_fuse_serve(), with such objects. `prepared` may be NULL. */
int fuse_device_serve(const nizwarf_transport *by, const struct fuse_prepared *prepared, int device,
		      const char *mountpoint);

/* Returns 0 if the library supports the size of the struct and its number of workers, and otherwise -1 after
 * printing an error. */
int transport_check(const nizwarf_transport *by);

/* Starts a process that registers files with Linux which it reads and writes by itself
 * (nizwarf_answer_backing), on a device that is mounted now or later. The process keeps only CAP_SYS_ADMIN,
 * which this requires. It calls `limit` with `user` last, and exits if that does not return 0. Returns a
 * socket to the process, or -1 after printing an error. The process exits when all copies of the socket are
 * closed. */
int fuse_backing_start(const nizwarf_transport *by, int device, int (*limit)(void *user));

/* Registers an open file, and returns its number, which is positive and must be closed when the client has no
 * open file for it, or a negative error number. -EPIPE means that the process has ended, so that no other
 * call can succeed, and -EPERM that Linux does not permit it. Only one thread may call it at a time. */
int fuse_backing_open(int socket, int fd);
/* Closes a number. Any thread may call it. Returns -1 if the process has ended. */
int fuse_backing_close(int socket, int number);

/* Listens on a new socket at this path, and replaces a socket on which nobody listens. Returns its
 * descriptor, -1 on failure, or -2 if the path is unsuitable, both after printing an error. A process may
 * make one such socket. */
int vhost_user_listen(const nizwarf_transport *by, const char *path);

/* Removes that socket, if it exists and its path still leads to it. Another server may have removed it,
 * because nobody listened, and made its own. Any thread may call it, more than once. */
void vhost_user_remove_socket(void);
/* Makes vhost_user_remove_socket() do nothing in this process. A process must call it before it enters a
 * sandbox in which the path leads elsewhere. */
void vhost_user_leave_socket(void);

/* Serves the front ends that connect to this socket, such as QEMU, one after another, with the same workers,
 * until a signal comes, and closes the socket. A front end that violates the protocol, or sends an
 * unsupported message, is reported and disconnected. Returns 0 after a signal, and 1 on failure, after
 * printing an error. */
int vhost_user_serve(const nizwarf_transport *by, int listener);

/* The same for one front end that is connected already, until it disconnects. */
int vhost_user_serve_one(const nizwarf_transport *by, int client);

/* Returns how many front ends had disconnected before that of the request which `serve` has on this thread;
 * more may have disconnected since. Returns 0 over /dev/fuse. */
unsigned vhost_user_client(void);

#endif
