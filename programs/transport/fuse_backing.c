/* Registers files that Linux reads and writes by itself while a client has them open (passthrough):
 * transport.h.
 *
 * To register a file requires CAP_SYS_ADMIN, with which a server could leave its sandbox. So a process of its
 * own keeps this capability, and no other, with two descriptors: the device, and a socket to the server. The
 * server sends it a descriptor, to which it replies with the number of the file, or a number, which it
 * closes. It exits after any other message, and when the server ends.
 *
 * The process opens nothing by name. But Linux opens the file of a descriptor anew, for reading and writing,
 * without a check of permissions. So the process accepts only a descriptor that was opened for reading, and
 * no file that even root may not write, or may only append to. Linux also writes to the file with the
 * privileges of this process. Because it lacks CAP_FSETID, each write clears the set-user-ID and set-group-ID
 * bits, whoever writes. */
#define _GNU_SOURCE
#include <errno.h>
#include <fcntl.h>
#include <linux/capability.h>
#include <signal.h>
#include <stdio.h>
#include <string.h>
#include <sys/ioctl.h>
#include <sys/prctl.h>
#include <sys/resource.h>
#include <sys/socket.h>
#include <sys/stat.h>
#include <sys/syscall.h>
#include <sys/time.h>
#include <unistd.h>
#include "fuse_backing.h"
#include "say.h"
#include "transport.h"

/* In seconds: how long the server waits for the process. After that it regards the process as dead, so nobody
 * reads a later reply. */
enum { PATIENCE = 10 };

/* A message of the server: the number to close, or 0 if a descriptor comes with it. Only a descriptor has a
 * reply, of 4 bytes: the number of the file, or a negative error number. */
struct asked {
	uint32_t number;
};

/* Space for one descriptor, and for a second, so that a message with more than one is noticed. */
union beside {
	char bytes[CMSG_SPACE(2 * sizeof(int))];
	struct cmsghdr aligned;
};

/* Prints what failed and why, by errno, and returns -1. */
static int say(const nizwarf_transport *by, const char *what)
{
	transport_say(by->program, "--passthrough: cannot %s: %s", what, strerror(errno));
	return -1;
}

/* ---- the process */

/* Keeps the two descriptors of the process, and closes all others, such as those of the shared directory.
 * They are duplicated first, so that neither overwrites the other. Returns 0, or -1. */
static int keep_descriptors(int device, int socket)
{
	int ends[2] = { fcntl(device, F_DUPFD, 3), fcntl(socket, F_DUPFD, 3) };

	return ends[0] < 0 || ends[1] < 0 || dup2(ends[0], BACKING_DEVICE) < 0 ||
			       dup2(ends[1], BACKING_SOCKET) < 0 ||
			       syscall(SYS_close_range, BACKING_SOCKET + 1, ~0U, 0) ?
		       -1 :
		       0;
}

/* Drops all capabilities but CAP_SYS_ADMIN. The bounding set must be emptied first, because that requires
 * CAP_SETPCAP; so a program that this process executes would have no capability. Returns 0, or -1. */
static int keep_capability(void)
{
	struct __user_cap_header_struct header = { _LINUX_CAPABILITY_VERSION_3, 0 };
	const struct __user_cap_data_struct one[2] = { { 1U << CAP_SYS_ADMIN, 1U << CAP_SYS_ADMIN, 0 } };

	for (unsigned long i = 0; prctl(PR_CAPBSET_READ, i, 0, 0, 0) >= 0; i++)
		prctl(PR_CAPBSET_DROP, i, 0, 0, 0);
	return syscall(SYS_capset, &header, one) || prctl(PR_SET_NO_NEW_PRIVS, 1, 0, 0, 0) ? -1 : 0;
}

/* Stores the first two descriptors of a message, which the caller must close. Returns how many were
 * stored. */
static unsigned take_descriptors(struct msghdr *message, int fds[2])
{
	struct cmsghdr *part = CMSG_FIRSTHDR(message);
	size_t len;

	if (!part || part->cmsg_level != SOL_SOCKET || part->cmsg_type != SCM_RIGHTS)
		return 0;
	len = part->cmsg_len - CMSG_LEN(0);
	if (len > 2 * sizeof(int))
		len = 2 * sizeof(int);
	memcpy(fds, CMSG_DATA(part), len);
	return (unsigned)(len / sizeof(int));
}

/* The number of registered files, and its limit, which is that of the open files of a process. */
static unsigned long named, most_named;

/* Registers a file, and returns its number, or a negative error number. The caller keeps the descriptor,
 * because Linux holds a reference of its own. The descriptor must be checked here, because an attacker may
 * control the server. */
static int32_t open_file(int fd)
{
	struct backing_map map = { .fd = fd };
	const int flags = fcntl(fd, F_GETFL);
	struct statx seen;
	int number;

	if (flags < 0 || flags & O_PATH || (flags & O_ACCMODE) == O_WRONLY)
		return -EBADF;
	if (statx(fd, "", AT_EMPTY_PATH, STATX_TYPE, &seen))
		return -errno;
	if (!S_ISREG(seen.stx_mode) || seen.stx_attributes & (STATX_ATTR_IMMUTABLE | STATX_ATTR_APPEND))
		return -EINVAL;
	if (named >= most_named)
		return -EMFILE;
	number = ioctl(BACKING_DEVICE, BACKING_OPEN, &map);
	named += number > 0;
	return number < 0 ? -errno : number;
}

/* Closes a number. Returns whether the number was valid. ENOENT counts as valid, because the file may be
 * closed already; after any other error the process exits. */
static int close_number(uint32_t number)
{
	const int error = ioctl(BACKING_DEVICE, BACKING_CLOSE, &number) ? errno : 0;

	named -= !error && named;
	return !error || error == ENOENT;
}

/* Handles one message. Returns whether another one may follow; it may not after an invalid message, or if the
 * server has ended. The process then exits, which closes the descriptors that came with the message. */
static int answer_one(void)
{
	struct asked asked;
	struct iovec bytes = { &asked, sizeof(asked) };
	union beside beside;
	struct msghdr message = { .msg_iov = &bytes,
				  .msg_iovlen = 1,
				  .msg_control = beside.bytes,
				  .msg_controllen = sizeof(beside) };
	ssize_t got;
	unsigned count;
	int fds[2];
	int32_t result;

	do
		got = recvmsg(BACKING_SOCKET, &message, MSG_CMSG_CLOEXEC);
	while (got < 0 && errno == EINTR);
	if (got != sizeof(asked) || message.msg_flags & (MSG_TRUNC | MSG_CTRUNC))
		return 0;
	count = take_descriptors(&message, fds);
	if (asked.number)
		return !count && close_number(asked.number);
	if (count != 1)
		return 0;
	result = open_file(fds[0]);
	close(fds[0]);
	return send(BACKING_SOCKET, &result, sizeof(result), MSG_NOSIGNAL) == sizeof(result);
}

/* Runs the process after fork(2), with one thread. `limit` filters its system calls, so it must come last. */
static _Noreturn void name_files(const nizwarf_transport *by, int device, int socket,
				 int (*limit)(void *user))
{
	struct rlimit files;

	/* Signals of a terminal or a service manager are for the server; this process ends after it. */
	signal(SIGINT, SIG_IGN);
	signal(SIGTERM, SIG_IGN);
	signal(SIGHUP, SIG_IGN);
	prctl(PR_SET_NAME, "nizwarf-backing");
	if (getrlimit(RLIMIT_NOFILE, &files) || chdir("/") || keep_capability()) {
		say(by, "start the process that registers files");
		_exit(1);
	}
	most_named = files.rlim_cur;
	/* From here on standard error is closed. If this fails, the server reports that it serves the files
	 * by requests. */
	if (keep_descriptors(device, socket) || limit(by->user))
		_exit(1);
	while (answer_one())
		;
	_exit(0);
}

int fuse_backing_start(const nizwarf_transport *by, int device, int (*limit)(void *user))
{
	const struct timeval patience = { PATIENCE, 0 };
	int ends[2];
	pid_t child;

	/* SOCK_SEQPACKET preserves message boundaries: a message arrives whole or not at all, with its
	 * descriptor. */
	if (socketpair(AF_UNIX, SOCK_SEQPACKET | SOCK_CLOEXEC, 0, ends))
		return say(by, "create a socket pair");
	/* The process replies soon or never, so the server must not wait for ever. */
	if (setsockopt(ends[0], SOL_SOCKET, SO_RCVTIMEO, &patience, sizeof(patience)) ||
	    setsockopt(ends[0], SOL_SOCKET, SO_SNDTIMEO, &patience, sizeof(patience)))
		return say(by, "set the timeouts of a socket");
	child = fork();
	if (child < 0)
		return say(by, "fork");
	if (!child)
		name_files(by, device, ends[1], limit);
	close(ends[1]);
	return ends[0];
}

/* ---- the server */

/* Sends a message, with a descriptor if `fd` is not NULL. Returns a negative number if nobody reads it, or
 * not in time. */
static ssize_t send_asked(int socket, uint32_t number, const int *fd)
{
	const struct asked asked = { number };
	struct iovec bytes = { (void *)(uintptr_t)&asked, sizeof(asked) };
	union {
		char bytes[CMSG_SPACE(sizeof(int))];
		struct cmsghdr head;
	} beside = { { 0 } };
	struct msghdr message = { .msg_iov = &bytes, .msg_iovlen = 1 };
	ssize_t sent;

	if (fd) {
		message.msg_control = beside.bytes;
		message.msg_controllen = sizeof(beside);
		beside.head = (struct cmsghdr){ CMSG_LEN(sizeof(int)), SOL_SOCKET, SCM_RIGHTS };
		memcpy(CMSG_DATA(&beside.head), fd, sizeof(int));
	}
	do
		sent = sendmsg(socket, &message, MSG_NOSIGNAL);
	while (sent < 0 && errno == EINTR);
	return sent;
}

int fuse_backing_open(int socket, int fd)
{
	int32_t result;
	ssize_t got;

	if (send_asked(socket, 0, &fd) < 0)
		return -EPIPE;
	do
		got = recv(socket, &result, sizeof(result), 0);
	while (got < 0 && errno == EINTR);
	return got != sizeof(result) || !result ? -EPIPE : result;
}

int fuse_backing_close(int socket, int number)
{
	return send_asked(socket, (uint32_t)number, NULL) < 0 ? -1 : 0;
}
