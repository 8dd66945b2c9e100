/* Sandbox and system call filter of nizwarf-share: share_sandbox.h. All of it runs before there are workers:
 * main() forks (sandbox_fork), and the child enters the sandbox, creates everything that the filter forbids to
 * create, and loads the filter before it receives a request.
 *
 * With a sandbox there are two processes. The child serves, and can reach only the shared directory, /proc/self/fd
 * and open files. The parent stays outside of the sandbox, and does all that requires a path: it mounts, unmounts,
 * and removes the socket and the pid file. They communicate by two pipes, a byte at a time. A child that a client
 * has compromised can make the parent do nothing but that one mount. */
#define _GNU_SOURCE
#include <errno.h>
#include <fcntl.h>
#include <linux/capability.h>
#include <poll.h>
#include <sched.h>
#include <signal.h>
#include <stdio.h>
#include <stdlib.h>
#include <string.h>
#include <sys/mount.h>
#include <sys/prctl.h>
#include <sys/signalfd.h>
#include <sys/syscall.h>
#include <sys/wait.h>
#include <unistd.h>
#ifdef WITH_SECCOMP
#include <linux/fuse.h>
#include <linux/io_uring.h>
#include <seccomp.h>
#include <sys/fanotify.h>
#include <sys/ioctl.h>
#include "fuse_backing.h"
#endif
#include "say.h"
#include "share_sandbox.h"
#include "transport.h"

/* Prints that an action failed, and why by errno. Returns -1. */
static int failed(const char *action)
{
	transport_say("nizwarf-share", "cannot %s: %s", action, strerror(errno));
	return -1;
}

/* The pipes by which the server requests the mount and reports that it is ready, and by which the parent confirms
 * the mount. The first end of each pipe is for reading. */
static int asks[2] = { -1, -1 }, tells[2] = { -1, -1 };
enum { MOUNT = 'm', READY = 'r' };

/* (if the mount fails, the parent closes the pipe instead of replying) */
int sandbox_mount(void)
{
	const char mounts = MOUNT;
	char result;

	return write(asks[1], &mounts, 1) == 1 && read(tells[0], &result, 1) == 1 ? 0 : -1;
}

void sandbox_ready(void)
{
	const char is_ready = READY;

	/* (the parent has exited without notifying the child) */
	if (write(asks[1], &is_ready, 1) != 1)
		_exit(1);
	close(asks[1]);
	close(tells[0]);
}

/* In seconds: how long the parent waits for the child to exit after a signal, and after SIGKILL. */
enum { PATIENCE = 3 };

/* The state of the end: the server runs; it ends with its last user; it was told to end; it was killed. */
enum end { NOT_ASKED, UNMOUNTED, TOLD, KILLED };

/* The server, as the parent sees it. It may send requests until it is ready or has exited. */
struct server {
	pid_t child;
	const struct outside *outside;
	bool may_ask, is_mounted;
	enum end end;
};

/* Handles a request of the server. A server that exits closes its end of the pipe. */
static void do_asked(struct server *server)
{
	const struct outside *outside = server->outside;
	char asked;
	const ssize_t got = read(asks[0], &asked, 1);

	if (got == 1 && asked == READY) {
		outside->ready(outside->user);
	} else if (got == 1 && !server->is_mounted) {
		server->is_mounted = !outside->mount(outside->user);
		if (server->is_mounted && write(tells[1], "", 1) == 1)
			return;
	}
	server->may_ask = false;
	close(asks[0]);
	close(tells[1]);
}

/* Waits for a signal of the signalfd `signals`, and handles requests of the server meanwhile, so that a signal
 * also ends a server that does not become ready because a file system does not respond. Returns the number of the
 * signal, or 0 if none has arrived, or -1 if the server has not exited in time. */
static int await_signal(struct server *server, int signals)
{
	const bool is_to_end = server->end >= TOLD || (server->end == UNMOUNTED && server->may_ask);
	/* (poll(2) ignores a negative descriptor) */
	struct pollfd wait[] = { { signals, POLLIN, 0 }, { server->may_ask ? asks[0] : -1, POLLIN, 0 } };
	const int came = poll(wait, 2, is_to_end ? PATIENCE * 1000 : -1);
	struct signalfd_siginfo said;

	if (!came)
		return -1;
	if (wait[1].revents)
		do_asked(server);
	if (!wait[0].revents || read(signals, &said, sizeof(said)) != sizeof(said))
		return 0;
	return (int)said.ssi_signo;
}

/* Forwards a signal, or ends the child in a stronger way if an earlier signal did not end it. A negative number
 * means that its time is over. */
static void pass_on(struct server *server, int signal)
{
	const union sigval unmounted = { .sival_int = NIZWARF_FUSE_UNMOUNTED };

	if (signal < 0) {
		transport_say("nizwarf-share", "the server does not exit: killing it");
		kill(server->child, SIGKILL);
		server->end = KILLED;
		return;
	}
	/* (A mount that is in use is unmounted when its last user closes it, and then the server ends. The signal
	 * is sent first, with a value by which the server knows that it is unmounted here.) */
	if (server->is_mounted && server->end == NOT_ASKED && !sigqueue(server->child, SIGTERM, unmounted)) {
		if (!server->outside->unmount(server->outside->user)) {
			server->end = UNMOUNTED;
			return;
		}
		/* (another signal of the same number would be lost while the first one is pending) */
		signal = SIGHUP;
	}
	kill(server->child, signal);
	if (server->end != KILLED)
		server->end = TOLD;
}

/* Waits for the child and exits with its status; or with 1 if a signal killed it, but with 0 if the parent sent
 * that; or with 1 if the mount remains. Signals are blocked except while it waits. After a signal, the child has
 * PATIENCE seconds to exit. */
static _Noreturn void stand_by(pid_t child, int signals, const struct outside *outside)
{
	struct server server = { .child = child, .outside = outside, .may_ask = true, .end = NOT_ASKED };
	bool is_left;
	int status = W_EXITCODE(1, 0);

	/* (otherwise the parent would not notice that the child has exited) */
	close(asks[1]);
	close(tells[0]);
	for (;;) {
		const int signal = await_signal(&server, signals);

		/* (SIGCHLD is also sent for the process that registers files, for which the parent does not wait
		 * here) */
		if (signal == SIGCHLD && waitpid(child, &status, WNOHANG) == child)
			break;
		if (!signal || signal == SIGCHLD)
			continue;
		/* (the child does not exit even after SIGKILL, because an uninterruptible system call blocks) */
		if (signal < 0 && server.end == KILLED)
			break;
		pass_on(&server, signal);
	}
	/* (the child may have exited by itself; if nothing is mounted any more, this does nothing) */
	is_left = server.is_mounted && outside->unmount(outside->user);
	if (outside->end)
		outside->end(outside->user);
	if (WIFSIGNALED(status))
		transport_say("nizwarf-share", "the server was killed by signal %d", WTERMSIG(status));
	_exit(is_left ? 1 : WIFEXITED(status) ? WEXITSTATUS(status) : server.end != KILLED);
}

/* Blocks the signals that the server or the parent waits for. */
static void block_signals(sigset_t *awaited)
{
	sigemptyset(awaited);
	sigaddset(awaited, SIGINT);
	sigaddset(awaited, SIGTERM);
	sigaddset(awaited, SIGHUP);
	sigaddset(awaited, SIGCHLD);
	sigprocmask(SIG_BLOCK, awaited, NULL);
}

int sandbox_fork(enum sandbox sandbox, const struct id_map *uids, const struct id_map *gids,
		 const struct outside *outside)
{
	sigset_t awaited, child_ended;
	int signals;
	pid_t child;

	if (sandbox == SANDBOX_NONE)
		return 0;
	if (sandbox == SANDBOX_NAMESPACE && geteuid() != 0 && users_leave(uids, gids))
		return -1;
	/* (the process namespace begins with the child; the other namespaces are entered only by the child) */
	if (sandbox == SANDBOX_NAMESPACE && unshare(CLONE_NEWPID))
		return failed("create the namespaces of --sandbox=namespace");
	if (pipe2(asks, O_CLOEXEC) || pipe2(tells, O_CLOEXEC))
		return failed("create a pipe");
	/* (before the fork, so that neither process loses an early signal) */
	block_signals(&awaited);
	signals = signalfd(-1, &awaited, SFD_CLOEXEC);
	if (signals < 0)
		return failed("create a signalfd");
	child = fork();
	if (child < 0)
		return failed("fork");
	/* (the parent does not return from this) */
	if (child)
		stand_by(child, signals, outside);
	close(signals);
	close(asks[0]);
	close(tells[1]);
	/* (so that signals of a terminal are sent only to the parent) */
	setpgid(0, 0);
	/* The others stay blocked, because the first process of a namespace would lose a signal that arrives
	 * before it waits for signals. */
	sigemptyset(&child_ended);
	sigaddset(&child_ended, SIGCHLD);
	sigprocmask(SIG_UNBLOCK, &child_ended, NULL);
	if (users_be_root(uids, gids))
		return -1;
	/* (the child must not outlive the parent, which alone can unmount. If the parent has exited before this,
	 * sandbox_mount() or sandbox_ready() fails.) */
	prctl(PR_SET_PDEATHSIG, SIGTERM);
	return 0;
}

/* (such a descriptor only names a file, and does not open it) */
enum { KEEPS_PATH = O_PATH | O_DIRECTORY | O_CLOEXEC };

/* Opens /proc/self/fd in its own mount namespace as the root of a mount that is attached nowhere, so that `..`
 * does not lead out of it. Returns -1 with errno on error. */
static int open_apart(void)
{
	int fd;

	/* (/proc is only a temporary mount point, because it always exists) */
	if (mount("/proc/self/fd", "/proc", NULL, MS_BIND, NULL))
		return -1;
	fd = open("/proc", KEEPS_PATH);
	if (fd >= 0 && umount2("/proc", MNT_DETACH)) {
		close(fd);
		return -1;
	}
	return fd;
}

/* The same without a namespace. It requires CAP_SYS_ADMIN, which root may lack in a container. Without that, `..`
 * leads out of the directory that is opened. */
static int open_copy(void)
{
	int fd = -1;

#ifdef SYS_open_tree
	/* (OPEN_TREE_CLONE, which older headers lack: a copy of the mount that is attached nowhere) */
	fd = (int)syscall(SYS_open_tree, AT_FDCWD, "/proc/self/fd", 1 | O_CLOEXEC);
#endif
	if (fd >= 0)
		return fd;
	fputs("nizwarf-share: warning: --sandbox=chroot without CAP_SYS_ADMIN or before Linux 5.2: "
	      "a compromised server could leave the directory\n",
	      stderr);
	return open("/proc/self/fd", KEEPS_PATH);
}

/* Makes the shared directory the root of the process, in new namespaces, with nothing else in it. Opens
 * /proc/self/fd before that. On error prints a message and returns -1.
 *
 * Mounts become slaves: a mount that the host makes or removes below the directory later is visible here, but not
 * the other way round. The directory is mounted on itself, because pivot_root(2) requires a mount. With "." for
 * both arguments the old root is mounted on the new one, and is unmounted from there. */
static int pivot(const char *folder, int *proc)
{
	if (unshare(CLONE_NEWNS | CLONE_NEWNET | CLONE_NEWIPC | CLONE_NEWUTS) ||
	    mount(NULL, "/", NULL, MS_REC | MS_SLAVE, NULL) || (*proc = open_apart()) < 0 ||
	    mount(folder, folder, NULL, MS_BIND | MS_REC, NULL) || chdir(folder) ||
	    syscall(SYS_pivot_root, ".", ".") || umount2(".", MNT_DETACH) || chdir("/")) {
		const bool is_no_mount = errno == EINVAL;

		failed("enter --sandbox=namespace");
		if (is_no_mount)
			fputs("nizwarf-share: the root directory is not a mount point, as in a chroot: "
			      "use --sandbox=chroot or --sandbox=none\n",
			      stderr);
		return -1;
	}
	return 0;
}

/* Drops the capabilities that a user other than root has in its own namespaces, because with them it could do more
 * with its own files. (Root's workers drop theirs in passthrough_who.c.) */
static int drop_capabilities(void)
{
	struct __user_cap_header_struct header = { _LINUX_CAPABILITY_VERSION_3, 0 };
	const struct __user_cap_data_struct none[2] = { 0 };

	return syscall(SYS_capset, &header, none) ? failed("drop capabilities") : 0;
}

/* Makes the mount of the root and the mounts below it nodev, so that no device in them can be opened, because
 * root's server may create a device in any of them. A mount that the host makes below the directory later has the
 * flags that the host gives it. Returns false if Linux is older than 5.12. */
static bool refuse_devices(void)
{
#ifdef MOUNT_ATTR_NODEV
	struct mount_attr attributes = { .attr_set = MOUNT_ATTR_NODEV };

	return !mount_setattr(AT_FDCWD, "/", AT_RECURSIVE, &attributes, sizeof(attributes));
#else
	return false;
#endif
}

/* Empties the capability bounding set, so that executing a program cannot regain capabilities. It requires
 * CAP_SETPCAP. */
static void empty_bound(void)
{
	for (unsigned long i = 0; prctl(PR_CAPBSET_READ, i, 0, 0, 0) >= 0; i++)
		prctl(PR_CAPBSET_DROP, i, 0, 0, 0);
}

/* Steps that require a path or a capability come first, and those that drop them last. The caller must close the
 * descriptors, and must exit on error. */
int sandbox_enter(enum sandbox sandbox, const char *folder, int *root, int *proc, bool *no_devices)
{
	*no_devices = false;
	*proc = -1;
	if (sandbox == SANDBOX_NAMESPACE) {
		if (pivot(folder, proc))
			return -1;
		*no_devices = refuse_devices();
		folder = "/";
	} else {
		*proc = sandbox == SANDBOX_CHROOT ? open_copy() : open("/proc/self/fd", KEEPS_PATH);
		if (*proc < 0)
			return failed("open '/proc/self/fd'");
	}
	if (sandbox == SANDBOX_CHROOT) {
		if (chdir(folder) || chroot(".") || chdir("/"))
			return failed("enter --sandbox=chroot");
		folder = "/";
	}
	/* (from here on files are named by these two descriptors, and not by paths) */
	*root = open(folder, KEEPS_PATH);
	if (*root < 0) {
		transport_say("nizwarf-share", "cannot open '%s': %s", folder, strerror(errno));
		return -1;
	}
	/* (for system calls that require a path, a descriptor is then named by its number) */
	if (fchdir(*proc))
		return failed("change to '/proc/self/fd'");
	empty_bound();
	return sandbox == SANDBOX_NAMESPACE && geteuid() != 0 ? drop_capabilities() : 0;
}

#ifdef WITH_SECCOMP
const bool has_filter = true;

/* The system calls of the server, its threads and its C library; some have other names on other processors. None
 * executes a program, traces another process, mounts, or creates a socket. Calls that are permitted only with some
 * arguments are in let_limited(). */
static const char *const calls[] = {
	"accept4",
	"brk",
	"capget",
	"capset",
	"clock_gettime",
	"clock_nanosleep",
	"close",
	"copy_file_range",
	"dup",
	"dup2",
	"dup3",
	"epoll_create1",
	"epoll_ctl",
	"epoll_pwait",
	"epoll_wait",
	"eventfd2",
	"exit",
	"exit_group",
	"fallocate",
	"fchdir",
	"fchmod",
	"fchmodat",
	"fchownat",
	"fdatasync",
	"fgetxattr",
	"flistxattr",
	"flock",
	"fstat",
	"fstatfs",
	"fsync",
	"ftruncate",
	"futex",
	"getdents64",
	"getegid",
	"geteuid",
	"getpid",
	"getrandom",
	"gettid",
	"getxattr",
	"linkat",
	"listxattr",
	"lseek",
	"lstat",
	"madvise",
	"mkdirat",
	"mknodat",
	"mmap",
	"mprotect",
	"mremap",
	"munmap",
	"nanosleep",
	"newfstatat",
	"openat",
	"openat2",
	"pipe2",
	"poll",
	"ppoll",
	"prctl",
	"pread64",
	"preadv",
	"pwrite64",
	"pwritev",
	"pwritev2",
	"read",
	"readlinkat",
	"recvfrom",
	"recvmsg",
	"removexattr",
	"renameat",
	"renameat2",
	"restart_syscall",
	"rseq",
	"rt_sigaction",
	"rt_sigprocmask",
	"rt_sigreturn",
	"sched_getaffinity",
	"sched_yield",
	"sendmsg",
	"sendto",
	"set_robust_list",
	"setgroups",
	"setfsgid",
	"setresgid",
	"setresuid",
	"setsockopt",
	"setxattr",
	"sigaltstack",
	"signalfd4",
	"splice",
	"statfs",
	"statx",
	"symlinkat",
	"syncfs",
	"timer_create",
	"timer_delete",
	"timer_settime",
	"umask",
	"unlink",
	"unlinkat",
	"utimensat",
	"write",
	"writev",
};

/* The system calls for file handles. With an invented handle, open_by_handle_at(2) can open any file of the file
 * system. */
static const char *const handle_calls[] = { "name_to_handle_at", "open_by_handle_at" };

/* The permitted ioctls: cloning the device for a worker, and checking whether a descriptor is a terminal. (With
 * others the server could type at a terminal.) */
static const uint32_t controls[] = { FUSE_DEV_IOC_CLONE, TCGETS };

/* The permitted commands of fcntl(2): flags, copies of descriptors, the size of a pipe, and locks of open files.
 * Others, such as F_SETOWN, would let the server send signals to processes outside of a chroot. A command that the
 * server starts to use must be added here, or the filter ends the server. */
static const uint32_t commands[] = { F_GETFL,	  F_DUPFD_CLOEXEC, F_SETPIPE_SZ,
				     F_OFD_GETLK, F_OFD_SETLK,	   F_OFD_SETLKW };

/* The flags of clone(2) that create a thread, and those that create a namespace. */
static const uint64_t of_thread = CLONE_THREAD, of_namespace = CLONE_NEWNS | CLONE_NEWCGROUP | CLONE_NEWUTS |
							       CLONE_NEWIPC | CLONE_NEWUSER | CLONE_NEWPID |
							       CLONE_NEWNET;

/* Permits system calls by their names. Returns 0 or a negative error. For a call that this processor lacks,
 * libseccomp uses a number of its own, and the rule does nothing. */
static int let(scmp_filter_ctx rules, const char *const *names, size_t count)
{
	int error = 0;

	for (size_t i = 0; i < count && !error; i++)
		error = seccomp_rule_add(rules, SCMP_ACT_ALLOW, seccomp_syscall_resolve_name(names[i]), 0);
	return error;
}

/* Permits a system call if the argument `at` has one of these values. Returns 0 or a negative error. The kernel
 * uses only the lower 32 bits of the argument, and so does the rule. */
static int let_values(scmp_filter_ctx rules, int call, unsigned at, const uint32_t *values, size_t count)
{
	int error = 0;

	for (size_t i = 0; i < count && !error; i++)
		error = seccomp_rule_add(rules, SCMP_ACT_ALLOW, call, 1,
					 SCMP_CMP(at, SCMP_CMP_MASKED_EQ, UINT32_MAX, values[i]));
	return error;
}

/* Permits the system calls that a server needs only with some arguments. Without a process namespace other
 * arguments would affect processes of the host, for example a signal by tgkill(2) or a limit by prlimit64(2); and
 * serving needs no new processes or namespaces. The flags of clone3(2) are in memory, which a filter cannot read,
 * so it fails with ENOSYS, and the C library falls back to clone(2). */
static int let_limited(scmp_filter_ctx rules)
{
#ifdef __s390__
	const unsigned flags_at = 1;
#else
	const unsigned flags_at = 0;
#endif
	const uint32_t own = (uint32_t)getpid(), itself = 0, only_files = CLONE_FS;
	int error = let_values(rules, SCMP_SYS(ioctl), 1, controls, sizeof(controls) / sizeof(*controls));

	if (!error)
		error = let_values(rules, SCMP_SYS(fcntl), 1, commands, sizeof(commands) / sizeof(*commands));
	/* (With O_ASYNC a terminal sends signals to its foreground processes. It is an error instead of ending the
	 * server, because a front end may have set it for a descriptor whose flags are changed here.) */
	if (!error)
		error = seccomp_rule_add(rules, SCMP_ACT_ALLOW, SCMP_SYS(fcntl), 2,
					 SCMP_A1(SCMP_CMP_MASKED_EQ, UINT32_MAX, F_SETFL),
					 SCMP_A2(SCMP_CMP_MASKED_EQ, O_ASYNC, 0));
	if (!error)
		error = seccomp_rule_add(rules, SCMP_ACT_ERRNO(EPERM), SCMP_SYS(fcntl), 2,
					 SCMP_A1(SCMP_CMP_MASKED_EQ, UINT32_MAX, F_SETFL),
					 SCMP_A2(SCMP_CMP_MASKED_EQ, O_ASYNC, O_ASYNC));
	/* (as abort(3) does) */
	if (!error)
		error = let_values(rules, SCMP_SYS(tgkill), 0, &own, 1);
	/* (0 is the calling process, as in getrlimit(3)) */
	if (!error)
		error = let_values(rules, SCMP_SYS(prlimit64), 0, &itself, 1);
	/* (each worker has its own umask) */
	if (!error)
		error = let_values(rules, SCMP_SYS(unshare), 0, &only_files, 1);
	if (!error)
		error = seccomp_rule_add(
			rules, SCMP_ACT_ALLOW, SCMP_SYS(clone), 1,
			SCMP_CMP(flags_at, SCMP_CMP_MASKED_EQ, of_thread | of_namespace, of_thread));
	if (!error)
		error = seccomp_rule_add(rules, SCMP_ACT_ERRNO(ENOSYS), SCMP_SYS(clone3), 0);
	return error;
}

/* Permits the use of existing rings. With a ring that it creates itself a server could make any system call, so
 * io_uring_register(2) may only enable a ring that was created disabled. A thread may change only its own
 * processor. */
static int let_rings(scmp_filter_ctx rules)
{
	const uint32_t itself = 0, enable = IORING_REGISTER_ENABLE_RINGS;
	int error = seccomp_rule_add(rules, SCMP_ACT_ALLOW, SCMP_SYS(io_uring_enter), 0);

	if (!error)
		error = let_values(rules, SCMP_SYS(sched_setaffinity), 0, &itself, 1);
	if (!error)
		error = let_values(rules, SCMP_SYS(io_uring_register), 1, &enable, 1);
	return error;
}

/* Creates an empty filter, with an action for all other system calls. On error prints a message and returns NULL. */
static scmp_filter_ctx begin_rules(enum calls_filter filter)
{
	const uint32_t otherwise = filter == FILTER_KILL ? SCMP_ACT_KILL_PROCESS :
				   filter == FILTER_TRAP ? SCMP_ACT_TRAP :
							   SCMP_ACT_LOG;
	scmp_filter_ctx rules = seccomp_init(otherwise);

	if (!rules)
		failed("create the --seccomp filter");
	return rules;
}

/* Loads a filter, unless there was an error. It applies to this thread and all that it creates, and cannot be
 * removed. */
static int end_rules(scmp_filter_ctx rules, int error)
{
	if (!error)
		error = seccomp_load(rules);
	seccomp_release(rules);
	errno = -error;
	return error ? failed("load the --seccomp filter") : 0;
}

/* The system calls of the process that registers files; ioctl(2) and fcntl(2) are permitted only for the device
 * and for files that it was given. */
static const char *const backing_calls[] = { "close",  "exit_group", "recvmsg",
					     "sendto", "statx",	     "restart_syscall" };

/* Permits to watch files by an existing fanotify group, and to get their handles. */
static int let_watch(scmp_filter_ctx rules)
{
	static const uint32_t how[] = { FAN_MARK_ADD, FAN_MARK_REMOVE };
	int error = seccomp_rule_add(rules, SCMP_ACT_ALLOW, SCMP_SYS(name_to_handle_at), 0);

	for (size_t i = 0; i < sizeof(how) / sizeof(*how) && !error; i++)
		error = seccomp_rule_add(rules, SCMP_ACT_ALLOW, SCMP_SYS(fanotify_mark), 1,
					 SCMP_A1(SCMP_CMP_MASKED_EQ, UINT32_MAX, how[i]));
	return error;
}

int sandbox_filter_backing(enum calls_filter filter)
{
	static const uint32_t asked[] = { BACKING_OPEN, BACKING_CLOSE };
	scmp_filter_ctx rules = filter == FILTER_NONE ? NULL : begin_rules(filter);
	int error;

	if (!rules)
		return filter == FILTER_NONE ? 0 : -1;
	error = let(rules, backing_calls, sizeof(backing_calls) / sizeof(*backing_calls));
	/* (Linux uses only the lower 32 bits of the number, and so do the rules) */
	for (size_t i = 0; i < sizeof(asked) / sizeof(*asked) && !error; i++)
		error = seccomp_rule_add(rules, SCMP_ACT_ALLOW, SCMP_SYS(ioctl), 2,
					 SCMP_A0(SCMP_CMP_EQ, BACKING_DEVICE),
					 SCMP_A1(SCMP_CMP_MASKED_EQ, UINT32_MAX, asked[i]));
	if (!error)
		error = seccomp_rule_add(rules, SCMP_ACT_ALLOW, SCMP_SYS(fcntl), 1,
					 SCMP_A1(SCMP_CMP_MASKED_EQ, UINT32_MAX, F_GETFL));
	return end_rules(rules, error);
}

int sandbox_filter(enum calls_filter filter, unsigned may)
{
	scmp_filter_ctx rules = filter == FILTER_NONE ? NULL : begin_rules(filter);
	int error;

	if (!rules)
		return filter == FILTER_NONE ? 0 : -1;
	error = let(rules, calls, sizeof(calls) / sizeof(*calls));
	if (!error && may & MAY_OPEN_HANDLES)
		error = let(rules, handle_calls, sizeof(handle_calls) / sizeof(*handle_calls));
	if (!error && may & MAY_TELL_HANDLES)
		error = let(rules, handle_calls, 1);
	if (!error && may & MAY_USE_RINGS)
		error = let_rings(rules);
	if (!error)
		error = let_limited(rules);
	if (!error && may & MAY_WATCH)
		error = let_watch(rules);
	/* (without a sandbox the server unmounts itself) */
	if (!error && may & MAY_UNMOUNT)
		error = seccomp_rule_add(rules, SCMP_ACT_ALLOW, SCMP_SYS(umount2), 0);
	return end_rules(rules, error);
}
#else
const bool has_filter = false;

int sandbox_filter_backing(enum calls_filter filter)
{
	return sandbox_filter(filter, 0);
}

int sandbox_filter(enum calls_filter filter, unsigned may)
{
	(void)may;
	if (filter == FILTER_NONE)
		return 0;
	fputs("nizwarf-share: --seccomp is not supported: built without libseccomp\n", stderr);
	return -1;
}
#endif
