/* Does one thing that code could try which got into a sandboxed server, for test_sandbox.py. It enters the sandbox, and has
 * its capabilities limited and its system calls filtered, by the functions and in the order of programs/share/share.c.
 *
 * Usage: sandboxed namespace|chroot DIRECTORY ATTEMPT [NUMBER]
 * ATTEMPT is one of those of main(), NUMBER the process at which it is aimed.
 * Prints "done", or the name of the error. A call that the filter refuses ends it by SIGSYS, which the process that stands
 * by prints. */
#define _GNU_SOURCE
#include <errno.h>
#include <fcntl.h>
#include <linux/sched.h>
#include <pthread.h>
#include <sched.h>
#include <signal.h>
#include <stdio.h>
#include <stdlib.h>
#include <string.h>
#include <sys/prctl.h>
#include <sys/resource.h>
#include <sys/stat.h>
#include <sys/syscall.h>
#include <sys/sysmacros.h>
#include <unistd.h>
#include "../../programs/share/passthrough.h"
#include "../../programs/share/share_sandbox.h"

/* /dev/null, which a container may open too, unlike a disk. */
static int open_device(int root, const char *directory)
{
	const int at = openat(root, directory, O_PATH | O_DIRECTORY | O_CLOEXEC);
	const int made = mknodat(at, "device", S_IFCHR | 0600, makedev(1, 3));
	const int fd = made ? -1 : openat(at, "device", O_RDONLY | O_CLOEXEC);
	const int why = errno;

	if (!made)
		unlinkat(at, "device", 0);
	errno = why;
	return fd;
}

static void *leave_thread(void *none)
{
	return none;
}

static int start_thread(void)
{
	pthread_t thread;

	errno = pthread_create(&thread, NULL, leave_thread, NULL);
	return errno ? -1 : pthread_join(thread, NULL);
}

static int attempt(const char *what, int root, pid_t process)
{
	struct clone_args with_clone3 = { .flags = CLONE_NEWUSER, .exit_signal = SIGCHLD };
	const struct rlimit none = { 0, 0 };
	struct rlimit own;

	if (!strcmp(what, "device"))
		return open_device(root, ".");
	if (!strcmp(what, "device-below"))
		return open_device(root, "below");
	if (!strcmp(what, "signal"))
		return (int)syscall(SYS_tgkill, process, process, SIGTERM);
	if (!strcmp(what, "own-signal"))
		return (int)syscall(SYS_tgkill, getpid(), gettid(), SIGCHLD);
	if (!strcmp(what, "limit"))
		return (int)syscall(SYS_prlimit64, process, RLIMIT_CORE, &none, NULL);
	if (!strcmp(what, "own-limit"))
		return getrlimit(RLIMIT_NOFILE, &own);
	if (!strcmp(what, "owner"))
		return fcntl(root, F_SETOWN, process);
	if (!strcmp(what, "flags"))
		return fcntl(root, F_GETFL);
	if (!strcmp(what, "namespace"))
		return (int)syscall(SYS_clone, CLONE_NEWUSER | SIGCHLD, NULL, NULL, NULL, NULL);
	if (!strcmp(what, "process"))
		return (int)syscall(SYS_clone, SIGCHLD, NULL, NULL, NULL, NULL);
	if (!strcmp(what, "clone3"))
		return (int)syscall(SYS_clone3, &with_clone3, sizeof(with_clone3));
	if (!strcmp(what, "thread"))
		return start_thread();
	exit(2);
}

int main(int count, char **given)
{
	const struct passthrough_options options = { .file_handles = HANDLES_NEVER };
	const struct id_map own = { .count = 0 };
	const struct outside outside = { .end = NULL };
	const enum sandbox sandbox =
		count > 1 && !strcmp(given[1], "chroot") ? SANDBOX_CHROOT : SANDBOX_NAMESPACE;
	int root, proc, came;
	bool no_devices;

	if (count < 4 || sandbox_fork(sandbox, &own, &own, &outside) ||
	    sandbox_enter(sandbox, given[2], &root, &proc, &no_devices) || passthrough_limit(&options) ||
	    prctl(PR_SET_NO_NEW_PRIVS, 1, 0, 0, 0) || sandbox_filter(FILTER_KILL, 0))
		return 2;
	came = attempt(given[3], root, count > 4 ? atoi(given[4]) : 0);
	printf("%s\n", came < 0 ? strerrorname_np(errno) : "done");
	return 0;
}
