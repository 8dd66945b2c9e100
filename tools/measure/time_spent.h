/* How long a server was on a processor, for the programs that measure servers: pace.c and share_speed.c. */
#ifndef NIZWARF_TIME_SPENT_H
#define NIZWARF_TIME_SPENT_H

#include <dirent.h>
#include <stdio.h>
#include <stdlib.h>
#include <sys/types.h>
#include <time.h>

/* Returns the nanoseconds of processor time, the kernel's part included, that a process and its descendants have taken.
 * The descendants count because a server may serve from a child, which its sandbox makes. Threads that have ended count
 * too. Linux adds a thread's time when the thread sleeps, so the caller should wait until the server is idle. */
static inline unsigned long long time_spent(pid_t pid)
{
	unsigned long long sum = 0;
	char path[sizeof("/proc//task//children") + 40];
	const struct dirent *task;
	struct timespec ran;
	clockid_t clock;
	DIR *tasks;
	long child;

	if (!clock_getcpuclockid(pid, &clock) && !clock_gettime(clock, &ran))
		sum = (unsigned long long)ran.tv_sec * 1000000000 + (unsigned long long)ran.tv_nsec;
	snprintf(path, sizeof(path), "/proc/%ld/task", (long)pid);
	tasks = opendir(path);
	while (tasks && (task = readdir(tasks))) {
		FILE *children;

		if (task->d_name[0] == '.')
			continue;
		snprintf(path, sizeof(path), "/proc/%ld/task/%ld/children", (long)pid, atol(task->d_name));
		children = fopen(path, "re");
		while (children && fscanf(children, "%ld", &child) == 1)
			sum += time_spent((pid_t)child);
		if (children)
			fclose(children);
	}
	if (tasks)
		closedir(tasks);
	return sum;
}

#endif
