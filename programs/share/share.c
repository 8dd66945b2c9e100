/* nizwarf-share: mounts a directory of the host over /dev/fuse, or serves it to a virtual machine over vhost-user,
 * as its virtio-fs device.
 *
 * --help lists the options. Errors are printed on standard error. Exit status 0: it was unmounted, or a signal
 * ended it; 1: an error occurred; 2: the command line is invalid.
 *
 * main() parses the options (share_words.c), opens everything that requires a path or root, and forks into the
 * sandbox (share_sandbox.c). There serve() creates the passthrough (passthrough.c) and runs a transport, which
 * starts the workers. The order matters: each privilege is dropped as soon as nothing later needs it. */
#define _GNU_SOURCE
#include <errno.h>
#include <fcntl.h>
#include <grp.h>
#include <limits.h>
#include <linux/fuse.h>
#include <poll.h>
#include <pthread.h>
#include <signal.h>
#include <stdatomic.h>
#include <stddef.h>
#include <stdio.h>
#include <stdlib.h>
#include <string.h>
#include <sys/mount.h>
#include <sys/prctl.h>
#include <sys/resource.h>
#include <sys/signalfd.h>
#include <sys/socket.h>
#include <sys/stat.h>
#include <sys/un.h>
#include <unistd.h>
#include "fuse_ring.h"
#include "guard.h"
#include "passthrough.h"
#include "say.h"
#include "share_pid.h"
#include "share_refuse.h"
#include "share_sandbox.h"
#include "share_syslog.h"
#include "share_words.h"
#include "trace.h"

enum { LARGE_TABLE = 65536 };
/* Descriptors besides those of files: for a mount, including a device and a pipe for each worker; for a socket,
 * including two for each queue, if there are as many queues as workers. */
enum { OF_MOUNT = 16, OF_MOUNT_WORKER = 3, OF_RING_WORKER = 2, OF_SOCKET = 24, OF_SOCKET_WORKER = 2 };
/* How many requests of each processor may wait for locks over io_uring. */
enum { MOST_WAITING = 63 };

/* Prints that an action failed, on which object if it is not NULL, and why by errno. Returns -1. */
static int failed(const char *action, const char *object)
{
	if (object)
		transport_say("nizwarf-share", "cannot %s '%s': %s", action, object, strerror(errno));
	else
		transport_say("nizwarf-share", "cannot %s: %s", action, strerror(errno));
	return -1;
}

/* Opens /dev/null for each standard descriptor that is closed. Otherwise a file of the directory could get its
 * number, and messages would be written to that file. (A new descriptor has the lowest number that is free.) */
static int fill_standard(void)
{
	for (int fd = 0; fd <= 2; fd++)
		if (fcntl(fd, F_GETFD) < 0 && open("/dev/null", O_RDWR) != fd)
			return -1;
	return 0;
}

/* Forwards signals that arrived before there was a child. */
static void pass_signals(pid_t child)
{
	static const int ending[] = { SIGINT, SIGTERM, SIGHUP };
	sigset_t came;

	sigpending(&came);
	for (size_t i = 0; i < sizeof(ending) / sizeof(*ending); i++)
		if (sigismember(&came, ending[i]) > 0)
			kill(child, ending[i]);
}

/* Raises the limit of descriptors, because each file that a client knows may have one. Without root it cannot
 * exceed the hard limit; then the client may know fewer files. */
static void raise_limit(void)
{
	struct rlimit limit = { words.most_files, words.most_files };

	if (!words.most_files || !setrlimit(RLIMIT_NOFILE, &limit) || getrlimit(RLIMIT_NOFILE, &limit))
		return;
	limit.rlim_cur = limit.rlim_max;
	setrlimit(RLIMIT_NOFILE, &limit);
	/* (no warning about the default, which is only an upper limit) */
	if (words.says_more && words.wants_files)
		fprintf(stderr,
			"nizwarf-share: warning: --rlimit-nofile=%lu exceeds the hard limit: using %llu\n",
			words.most_files, (unsigned long long)limit.rlim_max);
}

/* Grows the table of descriptors to a size that suffices for most directories. Growing it later, with several
 * threads, takes milliseconds each time, during which no request is served. */
static void grow_table(int root)
{
	struct rlimit limit;
	int fd;

	if (getrlimit(RLIMIT_NOFILE, &limit) || !limit.rlim_cur)
		return;
	/* (duplicating a descriptor to this number grows the table, which never shrinks) */
	fd = fcntl(root, F_DUPFD_CLOEXEC,
		   limit.rlim_cur < LARGE_TABLE ? (int)limit.rlim_cur - 1 : LARGE_TABLE - 1);
	if (fd >= 0)
		close(fd);
}

/* Connects to the socket of the service manager and returns it, or -1. (As in sd_notify(3), it is a path, or an
 * abstract name that begins with @ in place of a 0. The path is not valid in the sandbox, so it is connected
 * before.) */
static int meet_manager(void)
{
	const char *path = getenv("NOTIFY_SOCKET");
	struct sockaddr_un address = { .sun_family = AF_UNIX };
	const size_t len = path ? strlen(path) : 0;
	int fd;

	if (!len || len >= sizeof(address.sun_path) || (*path != '/' && *path != '@'))
		return -1;
	memcpy(address.sun_path, path, len);
	if (*path == '@')
		address.sun_path[0] = 0;
	fd = socket(AF_UNIX, SOCK_DGRAM | SOCK_CLOEXEC, 0);
	if (fd >= 0 && connect(fd, (struct sockaddr *)&address,
			       (socklen_t)(offsetof(struct sockaddr_un, sun_path) + len))) {
		failed("connect to NOTIFY_SOCKET", path);
		close(fd);
		return -1;
	}
	return fd;
}

/* Forks and returns in the child, while the parent waits until the child serves. Returns the descriptor by which
 * to notify the parent, or -1. If the child exits before, the pipe is closed, and the parent exits with status 1. */
static int go_to_background(void)
{
	int ends[2];
	pid_t child;
	char result = 1;

	if (pipe2(ends, O_CLOEXEC))
		return failed("create a pipe", NULL);
	child = fork();
	if (child < 0)
		return failed("fork", NULL);
	if (child) {
		close(ends[1]);
		pass_signals(child);
		transport_hold_signals(SIG_UNBLOCK);
		_exit(read(ends[0], &result, 1) == 1 ? 0 : 1);
	}
	close(ends[0]);
	/* (so that it gets no signals of the terminal) */
	setsid();
	/* (only for a mount, because the path of a socket may be relative) */
	if (is_mount() && chdir("/"))
		return failed("change to directory", "/");
	return ends[1];
}

/* The sockets of the service manager and of the parent process, which wait until the server is ready; and
 * /dev/null, if the server goes to the background or prints nothing. -1 if unused. Both the server and the process
 * outside of the sandbox have these descriptors, and both close them. */
static int manager = -1, starter = -1, nothing = -1;

/* Closes the descriptors of those who wait, and standard output and error, unless messages are logged. */
static void go_quiet(void)
{
	for (int i = words.daemonizes ? 0 : 2; nothing >= 0 && i <= (words.logs && !words.is_off ? 1 : 2);
	     i++)
		dup2(nothing, i);
	if (nothing >= 0)
		close(nothing);
	if (starter >= 0)
		close(starter);
	if (manager >= 0)
		close(manager);
}

/* Notifies the service manager. It waits until the manager accepts the message, but not longer than until a signal
 * arrives or, if signals cannot be waited for, GUARD_MOST milliseconds. */
static void tell_manager(void)
{
	static const char ready[] = "READY=1\n";
	const sigset_t ending = transport_hold_signals(SIG_BLOCK);
	struct pollfd wait[] = { { signalfd(-1, &ending, SFD_CLOEXEC), POLLIN, 0 }, { manager, POLLOUT, 0 } };
	ssize_t result;

	/* (the manager's socket has a queue, and the manager may wait itself) */
	do
		result = send(manager, ready, sizeof(ready) - 1, MSG_NOSIGNAL | MSG_DONTWAIT);
	while (result < 0 && errno == EAGAIN && poll(wait, 2, wait[0].fd < 0 ? GUARD_MOST : -1) > 0 &&
	       !wait[0].revents);
	if (result < 0)
		failed("notify the service manager", NULL);
	if (wait[0].fd >= 0)
		close(wait[0].fd);
}

/* Reports that the server is ready. With a sandbox, the process outside of it calls this function. */
static void tell_ready(void *user)
{
	(void)user;
	if (words.says_more)
		transport_say("nizwarf-share", "serving %s on %s", words.folder,
			      words.mount_point ? words.mount_point :
			      words.socket_path ? words.socket_path :
						  "the socket of --fd");
	if (manager >= 0)
		tell_manager();
	if (starter >= 0 && write(starter, "", 1) != 1)
		failed("notify the parent process", NULL);
	go_quiet();
}

/* Changes the group of a new socket. It uses a descriptor, because a user who can write to the socket's directory
 * may have replaced the socket by a link. */
static int give_to_group(const char *path, gid_t group)
{
	const int fd = open(path, O_PATH | O_NOFOLLOW | O_CLOEXEC);
	int error = -1, why;
	struct stat is;

	if (fd < 0)
		return -1;
	errno = ENOTSOCK;
	if (!fstat(fd, &is) && S_ISSOCK(is.st_mode))
		error = fchownat(fd, "", (uid_t)-1, group, AT_EMPTY_PATH);
	why = errno;
	close(fd);
	errno = why;
	return error;
}

static void *remove_both(void *none)
{
	vhost_user_remove_socket();
	pid_file_remove();
	return none;
}

/* Removes the socket and then the pid file, whose lock keeps another server from creating a socket meanwhile. It
 * is called when the process exits: by the transport if a request is blocked, and by the process outside of a
 * sandbox. It does nothing in the sandbox, or if neither was created. If the file system of their directory does
 * not respond, they are left. */
static void remove_socket(void *user)
{
	(void)user;
	if (words.socket_path)
		guard_call(remove_both);
}

static void remove_at_exit(void)
{
	remove_socket(NULL);
}

/* Checks whether the socket can be created in its directory, so that the message names the socket and not the pid
 * file beside it. On error prints a message and returns -1. */
static int look_at_socket(const char *path)
{
	char directory[PATH_MAX];
	const char *name = strrchr(path, '/');
	const size_t len = name ? (size_t)(name - path) : 0,
		     most = sizeof(((struct sockaddr_un *)0)->sun_path) - 1;

	if (strlen(path) > most)
		refuse("--socket-path must not be longer than %zu bytes: '%s'", most, path);
	/* (the directory is /, the working directory, or the path without its last name) */
	snprintf(directory, sizeof(directory), "%.*s", name ? (int)(len ? len : 1) : 1, name ? path : ".");
	return faccessat(AT_FDCWD, directory, W_OK | X_OK, AT_EACCESS) ? failed("create socket", path) : 0;
}

/* Listens on the socket, which only the owner and the group of --socket-group may connect to, because a client has
 * the same access to the directory as the server. On error it exits: with status 2 if an option is invalid,
 * otherwise with 1. */
static int listen_on_socket(const nizwarf_transport *of)
{
	const struct group *group = words.socket_group ? getgrnam(words.socket_group) : NULL;
	mode_t before;
	int listener;

	if (words.fd >= 0) {
		int listens = 0;
		socklen_t len = sizeof(listens);

		if (getsockopt(words.fd, SOL_SOCKET, SO_ACCEPTCONN, &listens, &len) || !listens)
			refuse("--fd=%d is not a listening socket", words.fd);
		return words.fd;
	}
	if (words.socket_group && !group)
		refuse("--socket-group: unknown group '%s'", words.socket_group);
	if (look_at_socket(words.socket_path))
		exit(1);
	if (pid_file_take(words.socket_path))
		exit(1);
	/* (so that any error from here on removes both files) */
	atexit(remove_at_exit);
	/* (so that the socket has its mode from the beginning, and nobody else can connect in between) */
	before = umask(group ? 0117 : 0177);
	listener = vhost_user_listen(of, words.socket_path);
	umask(before);
	if (listener < 0)
		exit(-listener);
	if (group && give_to_group(words.socket_path, group->gr_gid)) {
		failed("change the group of socket", words.socket_path);
		exit(1);
	}
	return listener;
}

/* Returns whether a path is that of the directory or of a file below it. (Both must be resolved by realpath(3).) */
static bool is_below(const char *path, const char *folder)
{
	const size_t len = strlen(folder);

	return !strncmp(path, folder, len) && (!path[len] || path[len] == '/' || folder[len - 1] == '/');
}

/* The transport, and the device of a mount. */
static nizwarf_machine machine = { .writes_in_place = 1,
				   .parted = passthrough_parted,
				   .recall = passthrough_recall,
				   .save = passthrough_save,
				   .load = passthrough_load,
				   .has_spare = 1 };
static nizwarf_transport by = { .size = sizeof(by),
				.program = "nizwarf-share",
				.splices = 1,
				.begin = passthrough_begin,
				.end = passthrough_finish,
				.left = remove_socket,
				.serve = passthrough_serve,
				.machine = &machine };
static struct fuse_prepared prepared;
static int device = -1;
static nizwarf_fuse_notices notices = NIZWARF_FUSE_NOTICES_INIT;
/* Without a sandbox: the server has mounted, and must unmount. */
static atomic_bool is_mounted;

/* Without a process outside, this function ends the process at a signal during operations on file systems that may
 * not respond: that of the socket, and without a sandbox that of the shared directory until it is served. */
static void leave(void)
{
	/* (otherwise the mount there is not this server's) */
	if (atomic_load(&is_mounted))
		nizwarf_fuse_detach(&by, words.mount_point);
	remove_socket(NULL);
}

/* Creates the socket. A file system that does not respond does not block signals. */
static int listen_guarded(void)
{
	int listener;

	if (guard_begin(by.program, leave))
		exit(1);
	listener = listen_on_socket(&by);
	guard_end();
	return listener;
}

static int write_pid_guarded(void)
{
	int error;

	if (words.mount_point)
		return 0;
	error = guard_begin(by.program, leave) || pid_file_write();
	if (!error)
		guard_end();
	return error;
}

/* How many queues and workers there are over io_uring. */
static unsigned queues, ring_workers;

/* Checks whether a mount can be served over io_uring. (In the sandbox Linux does not show that.) */
static void look_for_rings(void)
{
	if (!words.by_ring || device < 0)
		return;
	by.io_uring_workers = by.workers;
	/* (only requests that wait for locks are kept) */
	by.io_uring_kept = words.files.flock || words.files.posix_lock ? MOST_WAITING : 0;
	by.io_uring_warn = 1;
	queues = fuse_ring_count();
	ring_workers = queues ? fuse_ring_count_workers(&by, queues) : 0;
}

/* Creates rings, from within the sandbox and before its filter. */
static void make_rings(void)
{
	if (queues)
		prepared.rings = fuse_ring_make(&by, device, queues);
	if (prepared.rings)
		by.io_uring = 1;
	else if (words.by_ring && device >= 0)
		fputs("nizwarf-share: warning: io_uring is not available: falling back to read(2) and write(2)\n",
		      stderr);
}

/* Computes the number of workers, and of descriptors besides those of files. Over io_uring, worker 0 reads the
 * device, and the others serve the rings. */
static void count_workers(void)
{
	const unsigned of_socket = OF_SOCKET + OF_SOCKET_WORKER * by.workers;
	const unsigned of_mount = OF_MOUNT + OF_MOUNT_WORKER * by.workers + OF_RING_WORKER * ring_workers;

	words.files.other_descriptors = is_mount() ? of_mount : of_socket;
	if (words.files.workers < 1 + ring_workers)
		words.files.workers = 1 + ring_workers;
}

/* Mounts the directory, in the process outside of the sandbox or, without one, in the server. The kernel checks
 * permissions (default_permissions) by the modes that the server returns. On error prints a message and returns
 * -1. */
static int mount_folder(void *user)
{
	char options[80];
	int error;

	(void)user;
	snprintf(options, sizeof(options), "default_permissions,max_read=%lu%s", words.max_read,
		 words.allow_other);
	error = nizwarf_fuse_mount_on(&by, device, words.source ? words.source : words.folder,
				      words.mount_point, words.flags, options);
	/* (otherwise this copy of the device would keep the mount alive after the server's end, and that of the
	 * socket the other process) */
	if (words.sandbox != SANDBOX_NONE) {
		close(device);
		if (words.files.backing >= 0)
			close(words.files.backing);
	}
	return error;
}

static int unmount_folder(void *user)
{
	(void)user;
	return nizwarf_fuse_unmount(&by, words.mount_point);
}

/* Restricts the process that registers files to the system calls that it needs (fuse_backing_start). */
static int limit_backing(void *user)
{
	(void)user;
	return sandbox_filter_backing((enum calls_filter)words.filter);
}

/* Drops all privileges that serving does not need. On error prints a message and returns -1. */
static int limit(struct passthrough *all)
{
	const bool mounts = words.mount_point && words.sandbox == SANDBOX_NONE;
	const bool opens_handles = words.files.file_handles != HANDLES_NEVER ||
				   words.files.migration_mode == MIGRATES_BY_HANDLES;

	/* (unmounting requires more capabilities than serving, so with a mount each worker reduces its own) */
	if ((!mounts && passthrough_limit(&words.files)) || prctl(PR_SET_NO_NEW_PRIVS, 1, 0, 0, 0))
		return failed("drop privileges", NULL);
	if (passthrough_watch(all))
		return failed("watch directory", words.folder);
	/* (the last step, because from here on only the system calls of the filter are possible) */
	return sandbox_filter((enum calls_filter)words.filter,
			      (mounts ? MAY_UNMOUNT : 0) | (words.files.notices ? MAY_WATCH : 0) |
				      (is_mount() ? 0 : MAY_TELL_HANDLES) |
				      (opens_handles ? MAY_OPEN_HANDLES : 0) |
				      (by.io_uring ? MAY_USE_RINGS : 0));
}

/* Mounts the directory, from within the sandbox if there is one. */
static int begin_mount(void)
{
	if (!words.mount_point)
		return 0;
	if (words.sandbox != SANDBOX_NONE)
		return sandbox_mount();
	if (mount_folder(NULL))
		return -1;
	atomic_store(&is_mounted, true);
	return 0;
}

/* Reports that the server is ready. (A service manager accepts messages only from the process that it started.) */
static void tell_outside(void)
{
	if (words.sandbox == SANDBOX_NONE) {
		tell_ready(NULL);
	} else {
		sandbox_ready();
		go_quiet();
	}
}

/* Enters the sandbox and serves. Returns the exit status. Rings are created before the filter forbids that, and
 * the server reports that it is ready once nothing except serving can fail. */
static int serve(int listener)
{
	/* With a sandbox, the process outside unmounts. */
	const bool is_alone = words.sandbox == SANDBOX_NONE;
	const char *unmounts = is_alone ? words.mount_point : NULL;
	struct passthrough *all;
	int root, proc, status = 1;

	if (is_alone && guard_begin(by.program, leave))
		return 1;
	if (sandbox_enter((enum sandbox)words.sandbox, words.folder, &root, &proc, &words.files.no_devices))
		return 1;
	/* (a client applies its umask itself, or sends it) */
	umask(0);
	grow_table(root);
	all = passthrough_new(root, proc, &words.files);
	if (!all)
		return failed("serve directory", words.folder), 1;
	by.user = all;
	prepared.descriptors = proc;
	if (!begin_mount()) {
		make_rings();
		if (!limit(all)) {
			tell_outside();
			if (is_alone)
				guard_end();
			status = words.mount_point ? fuse_device_serve(&by, &prepared, device, unmounts) :
						     vhost_user_serve(&by, listener);
		} else if (unmounts) {
			nizwarf_fuse_detach(&by, unmounts);
		}
	}
	passthrough_end(all);
	close(proc);
	return status;
}

/* Checks whether the directory can be shared, because a message about the sandbox would not name it. Returns
 * status 2 on error. (In a user namespace with several ids the server may enter more directories than the user who
 * started it.) */
static int look_at_folder(void)
{
	struct stat seen;

	if (stat(words.folder, &seen))
		return failed("open", words.folder), 2;
	errno = ENOTDIR;
	if (!S_ISDIR(seen.st_mode))
		return failed("open", words.folder), 2;
	if (!words.uids.count && faccessat(AT_FDCWD, words.folder, X_OK, AT_EACCESS))
		return failed("open", words.folder), 2;
	return 0;
}

/* Resolves the paths of the directory and the mount point. Returns status 2 on error. (A user who can write to a
 * directory above them can replace them until the sandbox is entered.) */
static int find_places(void)
{
	static char folder[PATH_MAX], mount_point[PATH_MAX];

	if (!realpath(words.folder, folder)) {
		if (errno == ENOENT && words.may_be_missing)
			exit(0);
		return failed("open", words.folder), 2;
	}
	words.folder = folder;
	if (look_at_folder())
		return 2;
	if (!words.mount_point)
		return 0;
	if (!realpath(words.mount_point, mount_point))
		return failed("open mount point", words.mount_point), 2;
	words.mount_point = mount_point;
	/* Otherwise the server would send requests to itself. */
	if (is_below(mount_point, folder) && strcmp(mount_point, folder) != 0)
		refuse("mount point '%s' is inside the shared directory", mount_point);
	return 0;
}

int main(int count, char **given)
{
	struct outside outside = { 0 };
	int listener = -1, status;

	if (fill_standard())
		return failed("open", "/dev/null"), 1;
	take_words(count, given);
	if (words.logs && syslog_start())
		return 1;
	if (words.tag && words.says_more)
		fprintf(stderr,
			"nizwarf-share: warning: ignoring --tag=%s: the tag is an option of the virtual machine\n",
			words.tag);
	by.workers = words.files.workers;
	/* (for a mount, data may go through a pipe, whose size must be one that requires no privilege) */
	words.files.payload = is_mount() ? NIZWARF_MAX_SPLICE : NIZWARF_MAX_PAYLOAD;
	machine.quiet = !words.says_more;
	/* (a client that clears set-ID bits itself does so for truncate(2), but not if OPEN truncates the file; so
	 * it must truncate by a separate request) */
	if (!words.files.kills_bits)
		by.withheld = FUSE_ATOMIC_O_TRUNC;
	if (words.watches)
		by.notices = words.files.notices = &notices;
	if (words.says_more && *words.allow_other && is_mount() && !words.files.posix_acl)
		fputs("nizwarf-share: warning: allow_other without --posix-acl ignores access control lists: add it if "
		      "files of the directory have any\n",
		      stderr);
	if (words.traces && trace_begin(&by, words.trace_file))
		return 1;
	if ((status = find_places()))
		return status;
	/* (so that a write beyond the largest size of a file is an error, and does not end the process) */
	signal(SIGXFSZ, SIG_IGN);
	signal(SIGPIPE, SIG_IGN);
	raise_limit();
	manager = meet_manager();
	/* (there is no /dev/null in a sandbox) */
	if ((words.daemonizes || words.is_off) && (nothing = open("/dev/null", O_RDWR | O_CLOEXEC)) < 0)
		return failed("open", "/dev/null"), 1;
	/* (a signal before the server is ready would otherwise leave the pid file) */
	transport_hold_signals(SIG_BLOCK);
	/* (both must be opened while their paths are valid, and before the program goes to the background, so that
	 * errors are seen) */
	if (words.mount_point && (device = nizwarf_fuse_open(&by)) < 0)
		return 1;
	if (!words.mount_point)
		listener = listen_guarded();
	look_for_rings();
	count_workers();
	if (words.daemonizes && (starter = go_to_background()) < 0)
		return 1;
	if (write_pid_guarded())
		return 1;
	/* (outside of the sandbox, because the process that is forked here keeps CAP_SYS_ADMIN) */
	if (words.files.passthrough &&
	    (words.files.backing = fuse_backing_start(&by, device, limit_backing)) < 0)
		return 1;
	outside.end = remove_socket;
	outside.ready = tell_ready;
	outside.mount = words.mount_point ? mount_folder : NULL;
	outside.unmount = unmount_folder;
	if (sandbox_fork((enum sandbox)words.sandbox, &words.uids, &words.gids, &outside))
		return 1;
	/* (their paths are not valid in a sandbox: the process outside removes them) */
	if (words.sandbox != SANDBOX_NONE) {
		vhost_user_leave_socket();
		pid_file_leave();
	}
	/* (while /proc is accessible) */
	words.files.keeps_groups = users_keep_groups();
	return serve(listener);
}
