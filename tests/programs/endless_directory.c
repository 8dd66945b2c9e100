/* Preloaded into a server: a directory has no end, since reading it begins anew there. With READ_DELAY each read of a
 * directory takes that many milliseconds besides. */
#define _GNU_SOURCE
#include <dirent.h>
#include <stdlib.h>
#include <sys/syscall.h>
#include <time.h>
#include <unistd.h>

ssize_t getdents64(int fd, void *buffer, size_t size)
{
	const char *delay = getenv("READ_DELAY");
	const struct timespec pause = { 0, (delay ? atol(delay) : 0) * 1000000 };
	ssize_t got = syscall(SYS_getdents64, fd, buffer, size);

	if (delay)
		nanosleep(&pause, NULL);
	if (got || lseek(fd, 0, SEEK_SET))
		return got;
	return syscall(SYS_getdents64, fd, buffer, size);
}
