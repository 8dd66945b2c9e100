/* Lets a signal end a process although a file system does not reply: guard.h. A call that no signal can end,
 * such as one of NFS, nevertheless keeps the process until its server replies. */
#define _GNU_SOURCE
#include <errno.h>
#include <fcntl.h>
#include <poll.h>
#include <pthread.h>
#include <string.h>
#include <sys/eventfd.h>
#include <sys/signalfd.h>
#include <sys/stat.h>
#include <time.h>
#include <unistd.h>
#include "guard.h"
#include "say.h"
#include "transport.h"

/* `done` is an eventfd that guard_end() writes. */
static struct guard {
	pthread_t thread;
	void (*leave)(void);
	int signals, done;
	unsigned long tasks;
} guard;

/* Returns the number of this process's threads plus two, or 0 if Linux does not report it. */
static unsigned long count_tasks(void)
{
	struct stat seen;

	return fstatat(AT_FDCWD, "/proc/self/task", &seen, 0) ? 0 : (unsigned long)seen.st_nlink;
}

static void *keep_guard(void *given)
{
	const struct guard *g = given;
	struct pollfd wait[] = { { g->done, POLLIN, 0 }, { g->signals, POLLIN, 0 } };

	while (poll(wait, 2, -1) < 0 && errno == EINTR)
		;
	while (!wait[0].revents && poll(wait, 1, GUARD_MOST) < 0 && errno == EINTR)
		;
	if (wait[0].revents)
		return NULL;
	g->leave();
	_exit(0);
}

int guard_begin(const char *program, void (*leave)(void))
{
	const sigset_t ending = transport_hold_signals(SIG_BLOCK);

	guard.leave = leave;
	guard.signals = signalfd(-1, &ending, SFD_CLOEXEC);
	guard.done = eventfd(0, EFD_CLOEXEC);
	guard.tasks = count_tasks();
	if (guard.signals >= 0 && guard.done >= 0)
		errno = pthread_create(&guard.thread, NULL, keep_guard, &guard);
	if (guard.signals >= 0 && guard.done >= 0 && !errno)
		return 0;
	transport_say(program, "cannot start the thread that waits for signals: %s", strerror(errno));
	return -1;
}

/* Linux still counts the thread for a moment after it was joined, and a process with several threads cannot
 * enter a new user namespace. So this waits until it is gone. */
void guard_end(void)
{
	enum { TRIES = 1000 };
	const struct timespec pause = { 0, 1000000 };
	const uint64_t one = 1;

	/* An eventfd that only this program writes is never full, so it does not block. */
	while (write(guard.done, &one, sizeof(one)) < 0 && errno == EINTR)
		;
	pthread_join(guard.thread, NULL);
	for (int i = 0; i < TRIES && count_tasks() > guard.tasks; i++)
		nanosleep(&pause, NULL);
	close(guard.signals);
	close(guard.done);
}

void guard_call(void *(*call)(void *))
{
	struct timespec until;
	pthread_t thread;
	const int error = pthread_create(&thread, NULL, call, NULL);

	if (error) {
		if (error == EINVAL)
			alarm(1);
		call(NULL);
		if (error == EINVAL)
			alarm(0);
		return;
	}
	clock_gettime(CLOCK_REALTIME, &until);
	until.tv_sec++;
	if (pthread_timedjoin_np(thread, NULL, &until))
		pthread_detach(thread);
}
