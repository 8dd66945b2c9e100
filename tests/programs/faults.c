/* Loaded before a program by a test: functions of the C library are late or fail, as the environment variable FAULT says.
 * conftest.py compiles it, and the comments below say what each of its values does. */
#define _GNU_SOURCE
#include <dlfcn.h>
#include <errno.h>
#include <fcntl.h>
#include <pthread.h>
#include <signal.h>
#include <stdarg.h>
#include <stdatomic.h>
#include <stdio.h>
#include <stdlib.h>
#include <string.h>
#include <sys/mount.h>
#include <sys/prctl.h>
#include <sys/signalfd.h>
#include <sys/socket.h>
#include <sys/stat.h>
#include <sys/un.h>
#include <sys/vfs.h>
#include <time.h>
#include <unistd.h>

/* The function of the C library in whose place another one stands. */
#define OWN(name) ((__typeof__(name) *)dlsym(RTLD_NEXT, #name))

static int fault_is(const char *name)
{
	const char *fault = getenv("FAULT");

	return fault && !strcmp(fault, name);
}

/* (a signal must not make it shorter) */
static void take(time_t seconds)
{
	struct timespec left = { seconds, 200000000 };

	while (nanosleep(&left, &left) && errno == EINTR)
		;
}

/* As on a network file system whose server is gone: a signal does not end it either. */
static void wait_for_ever(void)
{
	/* (a filter of calls has none for pause(2)) */
	for (;;)
		sleep(1000);
}

static int fail(int error)
{
	errno = error;
	return -1;
}

/* no_answer: the file system of the shared directory does not answer, before it is served. */
int fstatfs(int fd, struct statfs *result)
{
	if (fault_is("no_answer"))
		wait_for_ever();
	return OWN(fstatfs)(fd, result);
}

/* no_answer_mounted: it does not answer once it is mounted. (The server calls this right after that.) */
int prctl(int what, ...)
{
	unsigned long given[4];
	va_list more;

	va_start(more, what);
	for (int i = 0; i < 4; i++)
		given[i] = va_arg(more, unsigned long);
	va_end(more);
	if (what == PR_SET_NO_NEW_PRIVS && fault_is("no_answer_mounted"))
		wait_for_ever();
	return OWN(prctl)(what, given[0], given[1], given[2], given[3]);
}

/* full_disk: what was written to a file does not fit on the disk, which is found out when the cache is written back. As Linux
 * does, one call for an open file reports that, and the next one succeeds. Returns whether this call reports it. */
static int is_full(int fd)
{
	static _Atomic ino_t reported;
	struct stat is;

	return fault_is("full_disk") && !fstat(fd, &is) && S_ISREG(is.st_mode) && is.st_size &&
	       !(OWN(fcntl)(fd, F_GETFL) & O_PATH) && atomic_exchange(&reported, is.st_ino) != is.st_ino;
}

ssize_t pwrite(int fd, const void *data, size_t len, off_t at)
{
	const ssize_t written = OWN(pwrite)(fd, data, len, at);

	return written >= 0 && OWN(fcntl)(fd, F_GETFL) & O_DSYNC && is_full(fd) ? fail(ENOSPC) : written;
}

/* slow_disk: what is to be on the disk takes a second until it is. */
int fsync(int fd)
{
	if (is_full(fd))
		return fail(ENOSPC);
	return fault_is("slow_disk") ? take(1), 0 : OWN(fsync)(fd);
}

int fdatasync(int fd)
{
	if (is_full(fd))
		return fail(ENOSPC);
	return fault_is("slow_disk") ? take(1), 0 : OWN(fdatasync)(fd);
}

/* no_bind: the directory of the socket does not answer. swap_socket: once the socket is bound, its mode must be that of a
 * group's, and a link to $TARGET takes its place. */
int bind(int fd, const struct sockaddr *to, socklen_t len)
{
	const char *path = ((const struct sockaddr_un *)to)->sun_path;
	struct stat is;

	if (fault_is("no_bind"))
		wait_for_ever();
	if (!fault_is("swap_socket"))
		return OWN(bind)(fd, to, len);
	/* (99 is no status of the server: so it is seen that this failed) */
	if (OWN(bind)(fd, to, len) || lstat(path, &is) || (is.st_mode & 07777) != 0660)
		_exit(99);
	return OWN(unlink)(path) || symlink(getenv("TARGET"), path);
}

/* no_unlink: the directory of the socket does not answer when that is removed. */
int unlink(const char *path)
{
	if (fault_is("no_unlink"))
		wait_for_ever();
	return OWN(unlink)(path);
}

/* no_listen: a socket that is bound cannot be listened on. early_signal: a signal that ends the program comes as soon as
 * there is a socket, or a mount. */
int listen(int fd, int most)
{
	if (fault_is("no_listen"))
		return fail(EADDRINUSE);
	return OWN(listen)(fd, most) || (fault_is("early_signal") && kill(getpid(), SIGTERM));
}

int mount(const char *from, const char *to, const char *type, unsigned long flags, const void *options)
{
	const int came = OWN(mount)(from, to, type, flags, options);

	/* (mounts of the sandbox itself are let be) */
	if (!came && type && strncmp(type, "fuse.", 5) == 0 && fault_is("early_signal"))
		return kill(getpid(), SIGTERM);
	return came;
}

/* no_unmount: the server may not unmount what it mounted. unmount_first: another program unmounts what the server cannot
 * because it is in use, and is just quicker. */
int umount2(const char *place, int flags)
{
	/* (as the server has it where it ends alone) */
	if (flags & UMOUNT_NOFOLLOW && fault_is("no_unmount"))
		return fail(EPERM);
	const int came = OWN(umount2)(place, flags);

	if (came && errno == EBUSY && fault_is("unmount_first")) {
		OWN(umount2)(place, flags | MNT_DETACH);
		return fail(EBUSY);
	}
	return came;
}

/* late_read: as on a busy machine, a reader of the device is late to see that it was unmounted. aborted_read: Linux says so
 * to it as to one who takes a request just then. */
ssize_t read(int fd, void *to, size_t len)
{
	const ssize_t got = OWN(read)(fd, to, len);

	if (got < 0 && errno == ENODEV && (fault_is("late_read") || fault_is("aborted_read"))) {
		/* (well after the program that unmounted is done) */
		take(1);
		return fail(fault_is("aborted_read") ? ECONNABORTED : ENODEV);
	}
	return got;
}

/* late_forgets: the thread that reads FORGETs beside io_uring, and lets them gather for a millisecond, is not run for half a
 * second, as on a busy machine. */
int nanosleep(const struct timespec *time, struct timespec *left)
{
	const struct timespec late = { 0, 500000000 };
	const int gathers = time->tv_sec == 0 && time->tv_nsec == 1000000;

	return OWN(nanosleep)(gathers && fault_is("late_forgets") ? &late : time, left);
}

/* Whether this process has a descriptor of signalfd(2). */
static int has_signalfd(void)
{
	char name[40], leads[40];

	for (int fd = 0; fd < 100; fd++) {
		snprintf(name, sizeof(name), "/proc/self/fd/%d", fd);
		memset(leads, 0, sizeof(leads));
		if (readlinkat(AT_FDCWD, name, leads, sizeof(leads) - 1) > 0 && strstr(leads, "[signalfd]"))
			return 1;
	}
	return 0;
}

/* no_signalfd: the process that keeps the sandbox has no descriptor left for a second one. */
int signalfd(int fd, const sigset_t *signals, int flags)
{
	return fault_is("no_signalfd") && has_signalfd() ? fail(EMFILE) : OWN(signalfd)(fd, signals, flags);
}

/* late_lock: which lock is in the way is reported late, as over a network. (Late, and not never: of two workers the other
 * one must go on.) */
int fcntl(int fd, int what, ...)
{
	va_list more;
	void *given;

	va_start(more, what);
	given = va_arg(more, void *);
	va_end(more);
	if (what == F_OFD_GETLK && fault_is("late_lock"))
		take(5);
	return OWN(fcntl)(fd, what, given);
}

/* (where an offset has 64 bits anyway the two are one) */
int fcntl64(int fd, int what, ...) __attribute__((alias("fcntl")));

/* late: it takes three seconds to close an open file of 4242 bytes, to open one of 4243, to open one of 4244 for its first
 * lock, and to look at a file named `slow`. With --trace a request of the user 4245 is held up for as long before it is
 * served, and one of 4246 before it takes its first mutex. */
static _Thread_local int is_held_up;

int fprintf(FILE *to, const char *format, ...)
{
	char said[1000];
	va_list more;
	int len;

	va_start(more, format);
	len = fault_is("late") ? vsnprintf(said, sizeof(said), format, more) : vfprintf(to, format, more);
	va_end(more);
	if (!fault_is("late"))
		return len;
	if (strstr(said, "uid=4245"))
		take(3);
	is_held_up = strstr(said, "uid=4246") != NULL;
	return fputs(said, to);
}

int pthread_mutex_lock(pthread_mutex_t *lock)
{
	if (is_held_up)
		take(3);
	is_held_up = 0;
	return OWN(pthread_mutex_lock)(lock);
}

/* Whether it is an open file of that size: one of O_PATH, as of a node, is let be. */
static int is_late(int fd, off_t size)
{
	struct stat is;

	return fault_is("late") && !fstat(fd, &is) && is.st_size == size &&
	       !(OWN(fcntl)(fd, F_GETFL) & O_PATH);
}

int close(int fd)
{
	const int full = is_full(fd);

	if (is_late(fd, 4242))
		take(3);
	return OWN(close)(fd) ? -1 : full ? fail(ENOSPC) : 0;
}

/* full_table: the kernel has no file left for a moment, which is when the server opens `made` without O_CREAT, by this name or by
 * its descriptor. (The name is that of a descriptor in /proc/self/fd if it is a number.) */
static int is_refused(const char *name, int flags)
{
	static atomic_int refused[2];
	const int is_name = !strcmp(name, "made");

	return fault_is("full_table") && flags & O_PATH && (is_name || strspn(name, "0123456789")) &&
	       !atomic_fetch_add(&refused[is_name], 1);
}

int openat(int directory, const char *name, int flags, ...)
{
	static int had_lock;
	unsigned mode = 0;
	va_list more;
	int fd;

	va_start(more, flags);
	if (flags & O_CREAT || (flags & O_TMPFILE) == O_TMPFILE)
		mode = va_arg(more, unsigned);
	va_end(more);
	fd = OWN(openat)(directory, name, flags, mode);
	if (fd >= 0 && is_refused(name, flags)) {
		OWN(close)(fd);
		return fail(ENFILE);
	}
	if (fd >= 0 && (is_late(fd, 4243) || (flags & O_NOCTTY && is_late(fd, 4244) && !had_lock++)))
		take(3);
	return fd;
}

int statx(int directory, const char *name, int flags, unsigned mask, struct statx *seen)
{
	if (fault_is("late") && !strcmp(name, "slow"))
		take(3);
	return OWN(statx)(directory, name, flags, mask, seen);
}
