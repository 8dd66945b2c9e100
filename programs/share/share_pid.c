/* The pid file of nizwarf-share: share_pid.h. */
#define _GNU_SOURCE
#include <errno.h>
#include <fcntl.h>
#include <limits.h>
#include <stdatomic.h>
#include <stdbool.h>
#include <stdio.h>
#include <stdlib.h>
#include <string.h>
#include <sys/file.h>
#include <sys/stat.h>
#include <unistd.h>
#include "share_pid.h"

/* A process has at most one pid file. -1: it has none, or has left it. */
static char path[PATH_MAX];
/* (atomic, because two threads may remove it if the process ends late) */
static atomic_int file = -1;

/* Prints that an operation on the file failed, and why by errno. Returns -1. */
static int failed(void)
{
	fprintf(stderr, "nizwarf-share: cannot use pid file '%s': %s\n", path, strerror(errno));
	return -1;
}

/* Returns whether the file still has its name, because another server may have removed it before it was locked
 * here. */
static bool is_there(const struct stat *opened)
{
	struct stat seen;

	return !lstat(path, &seen) && seen.st_ino == opened->st_ino && seen.st_dev == opened->st_dev;
}

/* Opens and locks the file. Returns 1, or 0 if it was removed meanwhile, or -1 with errno. */
static int open_locked(void)
{
	struct stat opened;

	/* (a user who can write to its directory may have replaced it by a link or a pipe) */
	file = open(path, O_RDWR | O_CREAT | O_NOFOLLOW | O_NONBLOCK | O_CLOEXEC, 0600);
	if (file < 0 || fstat(file, &opened))
		return -1;
	if (!S_ISREG(opened.st_mode) || opened.st_nlink > 1 || opened.st_uid != geteuid()) {
		/* (another server has just removed its name, so it is tried again) */
		errno = opened.st_nlink ? EPERM : EAGAIN;
		return opened.st_nlink ? -1 : 0;
	}
	if (flock(file, LOCK_EX | LOCK_NB))
		return -1;
	return is_there(&opened);
}

/* Makes the path absolute, because the server changes its working directory. */
static void keep_whole_path(void)
{
	char whole[PATH_MAX];

	if (realpath(path, whole))
		memcpy(path, whole, strlen(whole) + 1);
}

int pid_file_take(const char *socket_path)
{
	enum { TRIES = 100 };
	int come = 0;

	/* (virtiofsd uses the same name, so that only one server of either kind uses a socket) */
	if (snprintf(path, sizeof(path), "%s.pid", socket_path) >= (int)sizeof(path)) {
		errno = ENAMETOOLONG;
		return failed();
	}
	for (int i = 0; i < TRIES && !come; i++) {
		come = open_locked();
		if (!come)
			pid_file_leave();
	}
	if (come > 0) {
		keep_whole_path();
		return 0;
	}
	if (come < 0 && errno != EWOULDBLOCK)
		failed();
	else
		fprintf(stderr, "nizwarf-share: socket '%s' is in use: another server has locked '%s'\n",
			socket_path, path);
	/* (the file with this name is not this server's, and stays) */
	pid_file_leave();
	return -1;
}

int pid_file_write(void)
{
	char text[16];
	int len;

	if (file < 0)
		return 0;
	/* (only now, because the process may have forked before, and its id would be another one) */
	len = snprintf(text, sizeof(text), "%d\n", (int)getpid());
	return ftruncate(file, 0) || pwrite(file, text, (size_t)len, 0) != len ? failed() : 0;
}

void pid_file_leave(void)
{
	const int left = atomic_exchange(&file, -1);

	if (left >= 0)
		close(left);
}

void pid_file_remove(void)
{
	const int left = atomic_exchange(&file, -1);
	struct stat own;

	if (left < 0)
		return;
	/* (a file that another server created meanwhile is not removed) */
	if (!fstat(left, &own) && is_there(&own))
		unlink(path);
	/* (closing releases the lock: a server that waits for it sees that the name is gone) */
	close(left);
}
