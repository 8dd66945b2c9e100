/* Messages in the system log: share_syslog.h. */
#define _GNU_SOURCE
#include <errno.h>
#include <fcntl.h>
#include <limits.h>
#include <paths.h>
#include <signal.h>
#include <stdbool.h>
#include <stdio.h>
#include <string.h>
#include <sys/socket.h>
#include <sys/syscall.h>
#include <sys/un.h>
#include <sys/wait.h>
#include <syslog.h>
#include <unistd.h>
#include "share_syslog.h"

/* Prints on standard error that an action failed, and why by errno. Returns -1. */
static int failed(const char *action)
{
	fprintf(stderr, "nizwarf-share: --syslog: cannot %s: %s\n", action, strerror(errno));
	return -1;
}

/* Returns whether a system log listens. (syslog(3) does not report that.) */
static bool is_there(void)
{
	const struct sockaddr_un log = { AF_UNIX, _PATH_LOG };
	const int fd = socket(AF_UNIX, SOCK_DGRAM | SOCK_CLOEXEC, 0);
	const bool came =
		fd >= 0 && (!connect(fd, (const struct sockaddr *)&log, sizeof(log)) || errno == EPROTOTYPE);

	if (fd >= 0)
		close(fd);
	return came;
}

/* Logs each line until end of file. */
static _Noreturn void log_lines(int from)
{
	static const char name[] = "nizwarf-share: ";
	FILE *lines = fdopen(from, "r");
	char line[1024];

	/* (signals of a terminal are for the other processes, whose last messages must be logged too) */
	signal(SIGINT, SIG_IGN);
	signal(SIGTERM, SIG_IGN);
	signal(SIGHUP, SIG_IGN);
	openlog("nizwarf-share", LOG_PID | LOG_NDELAY, LOG_USER);
	/* (the log adds the program's name) */
	while (lines && fgets(line, sizeof(line), lines))
		syslog(LOG_NOTICE, "%s", line + (strncmp(line, name, strlen(name)) ? 0 : strlen(name)));
	_exit(0);
}

/* Starts a separate process, for which nobody waits, and which has none of the caller's descriptors. */
static _Noreturn void begin_log(const int ends[2])
{
	const pid_t child = fork();

	if (child)
		/* (the process in between exits at once, so that nobody must wait for the logging process) */
		_exit(child < 0);
	dup2(ends[0], STDIN_FILENO);
	/* (a process that waits for the server's output to end must not wait for the log) */
	for (int fd = STDOUT_FILENO; fd <= STDERR_FILENO; fd++)
		close(fd);
#ifdef SYS_close_range
	syscall(SYS_close_range, STDERR_FILENO + 1, UINT_MAX, 0);
#endif
	close(ends[0]);
	close(ends[1]);
	log_lines(STDIN_FILENO);
}

int syslog_start(void)
{
	int ends[2], status;
	pid_t child;

	if (!is_there())
		/* (not an error, because a log that disappears later would not be noticed either) */
		return failed("connect to '" _PATH_LOG "'"), 0;
	if (pipe2(ends, O_CLOEXEC))
		return failed("create a pipe");
	child = fork();
	if (!child)
		begin_log(ends);
	close(ends[0]);
	if (child < 0 || waitpid(child, &status, 0) != child || status || dup2(ends[1], STDERR_FILENO) < 0) {
		close(ends[1]);
		return failed("start the logging process");
	}
	close(ends[1]);
	/* (a slow log must not block a request: lines that it does not accept are dropped) */
	return fcntl(STDERR_FILENO, F_SETFL, O_WRONLY | O_NONBLOCK) ? failed("set up the pipe") : 0;
}
