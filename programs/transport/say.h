/* Messages on standard error. They must not block anybody, because a pipe may be full for as long as its
 * reader wants. */
#ifndef SAY_H
#define SAY_H

#include <errno.h>
#include <limits.h>
#include <poll.h>
#include <stdarg.h>
#include <stdio.h>
#include <sys/stat.h>
#include <sys/uio.h>
#include <unistd.h>

/* Writes a line to standard error if that does not block, and drops it otherwise. It does not use stdio,
 * because another thread may block with the lock of the stream. A pipe that poll(2) reports as ready takes
 * PIPE_BUF bytes, but another thread or process may fill it before the write. So pipes and sockets are
 * written with RWF_NOWAIT, if Linux supports that for them (since 6.5). */
__attribute__((format(printf, 2, 3))) static inline void transport_say(const char *program,
								       const char *format, ...)
{
	struct pollfd error = { STDERR_FILENO, POLLOUT, 0 };
	char line[PIPE_BUF], said[PIPE_BUF / 2];
	struct iovec bytes = { line, 0 };
	struct stat is;
	va_list more;

	va_start(more, format);
	vsnprintf(said, sizeof(said), format, more);
	va_end(more);
	bytes.iov_len = (size_t)snprintf(line, sizeof(line), "%.100s: %s\n", program, said);
	if (poll(&error, 1, 0) <= 0 || !(error.revents & POLLOUT))
		return;
	if (!fstat(STDERR_FILENO, &is) && (S_ISFIFO(is.st_mode) || S_ISSOCK(is.st_mode)) &&
	    (pwritev2(STDERR_FILENO, &bytes, 1, -1, RWF_NOWAIT) >= 0 ||
	     (errno != EOPNOTSUPP && errno != ENOSYS)))
		return;
	if (write(STDERR_FILENO, line, bytes.iov_len) < 0)
		return;
}

#endif
