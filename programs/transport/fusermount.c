/* Mounts and unmounts by fusermount3: fusermount.h.
 *
 * fusermount3 is a set-user-ID program. It checks whether the user may mount there, opens /dev/fuse, mounts
 * it, and sends the descriptor over the socket that the environment variable _FUSE_COMMFD names. It prints
 * its own errors.
 *
 * It runs in the parent directory of the mount point, so that no link leads elsewhere. Signals stay blocked
 * in it, because one that ended it between the mount and the message would leave a mount without a server. It
 * may be blocked by a file system that does not reply, so it is killed after MOST_WAIT; a signal to this
 * process ends the wait for a mount. */
#define _GNU_SOURCE
#include <errno.h>
#include <poll.h>
#include <signal.h>
#include <spawn.h>
#include <stdio.h>
#include <stdlib.h>
#include <string.h>
#include <sys/mount.h>
#include <sys/socket.h>
#include <sys/wait.h>
#include <time.h>
#include <unistd.h>
#include "fusermount.h"
#include "say.h"

/* In milliseconds: how long fusermount3 may take (MOST_WAIT), and how long after a signal (INTERRUPTED_WAIT);
 * and the period of this process's checks (TICK). CHANNEL is the descriptor of the socket in fusermount3. */
enum { MOST_WAIT = 10000, INTERRUPTED_WAIT = 1000, TICK = 20, CHANNEL = 3 };

const struct mount_flag mount_flags[] = {
	{ "ro", MS_RDONLY, 1 },
	{ "rw", MS_RDONLY, 0 },
	{ "nosuid", MS_NOSUID, 1 },
	{ "suid", MS_NOSUID, 0 },
	{ "nodev", MS_NODEV, 1 },
	{ "dev", MS_NODEV, 0 },
	{ "noexec", MS_NOEXEC, 1 },
	{ "exec", MS_NOEXEC, 0 },
	{ "sync", MS_SYNCHRONOUS, 1 },
	{ "async", MS_SYNCHRONOUS, 0 },
	{ "dirsync", MS_DIRSYNC, 1 },
	{ "noatime", MS_NOATIME, 1 },
	{ "nodiratime", MS_NODIRATIME, 1 },
	{ NULL, 0, 0 },
};

/* Prints a message, with a reason if `why` is not NULL, and returns -1. */
static int say(const struct mount_point *at, const char *what, const char *why)
{
	if (at->program)
		transport_say(at->program, "%s: %s%s%s", at->folder, what, why ? ": " : "", why ? why : "");
	return -1;
}

/* Returns the environment with the number of the socket, or NULL if out of memory. */
static char **environment(void)
{
	static char channel[] = "_FUSE_COMMFD=3";
	size_t count = 0, used = 0;
	char **made;

	while (environ && environ[count])
		count++;
	made = malloc((count + 2) * sizeof(*made));
	for (size_t i = 0; made && i < count; i++)
		if (strncmp(environ[i], channel, strcspn(channel, "=") + 1) != 0)
			made[used++] = environ[i];
	if (made) {
		made[used++] = channel;
		made[used] = NULL;
	}
	return made;
}

/* Sets the working directory and the socket, which is -1 if there is none. Returns 0, or an error number. */
static int set_descriptors(posix_spawn_file_actions_t *actions, int above, int channel)
{
	int error = above < 0 ? 0 : posix_spawn_file_actions_addfchdir_np(actions, above);

	/* A descriptor that has this number already stays open too, because POSIX says so of adddup2. */
	if (!error && channel >= 0)
		error = posix_spawn_file_actions_adddup2(actions, channel, CHANNEL);
	return error;
}

/* Starts fusermount3 with these arguments. Returns its process ID, or -1 after printing an error. */
static pid_t start(const struct mount_point *at, int channel, const char *const *arguments)
{
	char **with = environment();
	posix_spawn_file_actions_t actions;
	posix_spawnattr_t attributes;
	pid_t process = -1;
	sigset_t reset;
	int error;

	posix_spawn_file_actions_init(&actions);
	posix_spawnattr_init(&attributes);
	/* Signals that this process ignores would be ignored in fusermount3 too, which may wait for a child
	 * of its own. */
	sigemptyset(&reset);
	sigaddset(&reset, SIGCHLD);
	sigaddset(&reset, SIGPIPE);
	posix_spawnattr_setsigdefault(&attributes, &reset);
	posix_spawnattr_setflags(&attributes, POSIX_SPAWN_SETSIGDEF);
	error = with ? set_descriptors(&actions, at->above, channel) : ENOMEM;
	if (!error)
		error = posix_spawnp(&process, *arguments, &actions, &attributes, (char *const *)arguments,
				     with);
	posix_spawnattr_destroy(&attributes);
	posix_spawn_file_actions_destroy(&actions);
	free(with);
	if (!error)
		return process;
	return say(at, "cannot execute fusermount3, which mounts for users other than root", strerror(error));
}

/* Whether a signal that ends this process is pending. */
static int is_interrupted(void)
{
	sigset_t waiting;

	return !sigpending(&waiting) && (sigismember(&waiting, SIGINT) || sigismember(&waiting, SIGTERM) ||
					 sigismember(&waiting, SIGHUP));
}

/* Waits for the end of fusermount3, and kills it if that takes too long, or at once if `is_wanted` is 0.
 * Returns 0 if it succeeded, or if this process ignores its children, and otherwise -1 after printing an
 * error. */
static int finish(const struct mount_point *at, pid_t process, int is_wanted)
{
	const struct timespec pause = { 0, TICK * 1000000L };
	int status = 0;

	for (int waited = 0; waitpid(process, &status, WNOHANG) == 0; waited += TICK) {
		if (!is_wanted || waited >= MOST_WAIT) {
			kill(process, SIGKILL);
			/* It may be in a call that no signal ends, so nobody waits for it. */
			return say(at, is_wanted ? "fusermount3 did not end in time" : "interrupted", NULL);
		}
		nanosleep(&pause, NULL);
	}
	return status ? say(at, "fusermount3 failed", NULL) : 0;
}

/* Returns the descriptor that was sent, or -1 if there is none. */
static int receive(int channel)
{
	union {
		struct cmsghdr header;
		char bytes[CMSG_SPACE(sizeof(int))];
	} control;
	char byte;
	struct iovec data = { &byte, 1 };
	struct msghdr message = {
		.msg_iov = &data, .msg_iovlen = 1, .msg_control = &control, .msg_controllen = sizeof(control)
	};
	const struct cmsghdr *header;
	int device;

	if (recvmsg(channel, &message, MSG_CMSG_CLOEXEC | MSG_DONTWAIT) <= 0)
		return -1;
	header = CMSG_FIRSTHDR(&message);
	if (!header || header->cmsg_type != SCM_RIGHTS || header->cmsg_len != CMSG_LEN(sizeof(device)))
		return -1;
	memcpy(&device, CMSG_DATA(header), sizeof(device));
	return device;
}

/* Waits for the descriptor, or until the other end is closed or the time is up. After a signal it waits a
 * little longer, because fusermount3 may have mounted already: without its descriptor nobody would serve the
 * mount. */
static int await_device(int channel)
{
	struct pollfd wait = { channel, POLLIN, 0 };
	int most = MOST_WAIT;

	for (int waited = 0; waited < most; waited += TICK) {
		if (poll(&wait, 1, TICK) > 0)
			return receive(channel);
		if (most == MOST_WAIT && is_interrupted())
			most = waited + INTERRUPTED_WAIT;
	}
	return -1;
}

/* Returns the options for fusermount3, which the caller must free, or NULL if out of memory. A comma in the
 * source is escaped, because it would end the source. */
static char *options_for(const char *subtype, const char *source, unsigned long flags, const char *options)
{
	char *made = NULL;
	size_t len;
	FILE *to = open_memstream(&made, &len);

	if (!to)
		return NULL;
	fprintf(to, "subtype=%s,fsname=", subtype);
	for (; *source; source++)
		fprintf(to, *source == ',' || *source == '\\' ? "\\%c" : "%c", *source);
	for (const struct mount_flag *it = mount_flags; it->name; it++)
		if (it->is_set && flags & it->flag)
			fprintf(to, ",%s", it->name);
	if (options && *options)
		fprintf(to, ",%s", options);
	return fclose(to) ? free(made), NULL : made;
}

int fusermount_mount(const struct mount_point *at, const char *subtype, const char *source,
		     unsigned long flags, const char *options)
{
	char *words = options_for(subtype, source, flags, options);
	const char *const arguments[] = { "fusermount3", "-o", words, "--", at->name, NULL };
	int ends[2], device = -1;
	pid_t process;

	if (!words || socketpair(AF_UNIX, SOCK_STREAM | SOCK_CLOEXEC, 0, ends)) {
		free(words);
		return say(at, "fusermount3", strerror(errno));
	}
	process = start(at, ends[1], arguments);
	close(ends[1]);
	free(words);
	if (process > 0) {
		device = await_device(ends[0]);
		/* Once the descriptor was sent, the file system is mounted, whatever the exit status is. */
		if (!finish(at, process, device >= 0 || !is_interrupted()) && device < 0)
			say(at, "fusermount3 sent no descriptor", NULL);
	}
	close(ends[0]);
	return device;
}

int fusermount_unmount(const struct mount_point *at)
{
	/* With -z a file system that is in use is detached. */
	const char *const arguments[] = { "fusermount3", "-u", "-q", "-z", "--", at->name, NULL };
	const pid_t process = start(at, -1, arguments);

	return process < 0 ? -1 : finish(at, process, 1);
}
