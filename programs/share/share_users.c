/* The user namespace of a server that does not run as root: share_users.h. share_sandbox.c enters it first, in the
 * parent and before it forks, because it provides the capabilities that the other namespaces require. There is one
 * thread.
 *
 * Without privileges a user may map only its own id. newuidmap(1) and newgidmap(1), which are set-user-ID, map
 * more ids if root has assigned them to this user. They must run outside of the namespace, so a process is forked
 * before it is created. */
#define _GNU_SOURCE
#include <errno.h>
#include <fcntl.h>
#include <sched.h>
#include <stdio.h>
#include <string.h>
#include <sys/wait.h>
#include <unistd.h>
#include "say.h"
#include "share_users.h"

/* Prints that an action failed, and why by errno. Returns -1. */
static int failed(const char *action)
{
	transport_say("nizwarf-share", "--sandbox=namespace: cannot %s: %s", action, strerror(errno));
	return -1;
}

/* Writes a text to a file with a single write(2), as the kernel requires for a map. Returns 0, or -1 with errno. */
static int put(const char *path, const char *text)
{
	const int fd = open(path, O_WRONLY | O_CLOEXEC);
	const bool is_put = fd >= 0 && write(fd, text, strlen(text)) == (ssize_t)strlen(text);

	if (fd >= 0)
		close(fd);
	return is_put ? 0 : -1;
}

/* Returns whether a map contains only the own id, which the kernel lets everyone write. */
static bool is_own(const struct id_map *map, uint32_t own)
{
	return map->count == 1 && map->ranges[0].outside == own && map->ranges[0].count == 1;
}

/* Writes a map of one id. (40 bytes are enough for two numbers of ten digits, and a 1.) */
static int put_own(const char *path, const struct id_map *map)
{
	char text[40];

	snprintf(text, sizeof(text), "%u %u 1", map->ranges[0].inside, map->ranges[0].outside);
	return put(path, text);
}

/* Runs newuidmap or newgidmap, which check the map against subuid(5) or subgid(5). Returns whether it was written.
 * (The program is found in PATH, and runs with the privileges of the user who started the server.) */
static bool run(const char *program, pid_t of, const struct id_map *map)
{
	/* (the process, and three numbers for each range, of at most ten digits) */
	static char numbers[1 + 3 * MOST_RANGES][12];
	char *words[3 + 3 * MOST_RANGES] = { (char *)(uintptr_t)program, numbers[0] };
	int status;
	pid_t child;

	snprintf(numbers[0], sizeof(numbers[0]), "%d", (int)of);
	for (size_t i = 0; i < 3 * map->count; i++) {
		const struct id_range *range = &map->ranges[i / 3];
		const uint32_t value[] = { range->inside, range->outside, range->count };

		words[2 + i] = numbers[1 + i];
		snprintf(numbers[1 + i], sizeof(numbers[1 + i]), "%u", value[i % 3]);
	}
	child = fork();
	if (!child) {
		execvp(program, words);
		transport_say("nizwarf-share", "--sandbox=namespace: cannot run '%s': %s", program,
			      strerror(errno));
		_exit(1);
	}
	return child > 0 && waitpid(child, &status, 0) == child && WIFEXITED(status) && !WEXITSTATUS(status);
}

/* Forks a process that stays outside of the namespace. Once a byte arrives through the pipe, it writes those maps
 * of this process that contain more than its own id, and exits with 0 on success. If the pipe is closed before, it
 * writes nothing. */
static pid_t begin_outside(const int ends[2], const struct id_map *uids, const struct id_map *gids)
{
	const pid_t of = getpid();
	const bool by_uid = !is_own(uids, geteuid()), by_gid = !is_own(gids, getegid());
	const pid_t child = fork();
	char result;

	if (child)
		return child;
	close(ends[1]);
	_exit(read(ends[0], &result, 1) != 1 || (by_uid && !run("newuidmap", of, uids)) ||
	      (by_gid && !run("newgidmap", of, gids)));
}

/* Creates the namespace and has its maps written. On error prints a message and returns -1. Without root, Linux
 * permits to map the own group only after setgroups(2) is disabled, because with that call a process could leave a
 * group that denies it access. */
static int leave(const int ends[2], const struct id_map *uids, const struct id_map *gids)
{
	const bool own_uid = is_own(uids, geteuid()), own_gid = is_own(gids, getegid());
	const pid_t child = begin_outside(ends, uids, gids);
	int status;

	if (child < 0)
		return failed("fork");
	if (unshare(CLONE_NEWUSER) || (own_gid && put("/proc/self/setgroups", "deny")) ||
	    (own_uid && put_own("/proc/self/uid_map", uids)) ||
	    (own_gid && put_own("/proc/self/gid_map", gids))) {
		failed("create a user namespace");
		transport_say("nizwarf-share", "use --sandbox=none to serve without a sandbox");
		return -1;
	}
	/* (the namespace exists now, so maps with more ids can be written from outside) */
	if (write(ends[1], "", 1) != 1 || waitpid(child, &status, 0) != child)
		return failed("map user ids");
	if (!WIFEXITED(status) || WEXITSTATUS(status)) {
		transport_say(
			"nizwarf-share",
			"--uid-map, --gid-map: these ids may not be mapped: see subuid(5) and subgid(5)");
		return -1;
	}
	return 0;
}

int users_leave(const struct id_map *uids, const struct id_map *gids)
{
	const struct id_map uid = { .ranges = { { geteuid(), geteuid(), 1 } }, .count = 1 };
	const struct id_map gid = { .ranges = { { getegid(), getegid(), 1 } }, .count = 1 };
	int ends[2], status;

	if (pipe2(ends, O_CLOEXEC))
		return failed("create a pipe");
	/* (by default a map contains the own id) */
	status = leave(ends, uids->count ? uids : &uid, gids->count ? gids : &gid);
	close(ends[0]);
	close(ends[1]);
	return status;
}

/* Returns whether the namespace has the id 0. */
static bool has_root(const struct id_map *map)
{
	for (size_t i = 0; i < map->count; i++)
		if (!map->ranges[i].inside)
			return true;
	return false;
}

int users_be_root(const struct id_map *uids, const struct id_map *gids)
{
	/* (by the capabilities that it has in its own namespace) */
	if ((has_root(gids) && setresgid(0, 0, 0)) || (has_root(uids) && setresuid(0, 0, 0)))
		return failed("become root in the user namespace");
	return 0;
}

/* (if that cannot be read, groups are assumed to be changeable; if they are not, setgroups(2) fails) */
bool users_keep_groups(void)
{
	char text[8] = "";
	const int fd = open("/proc/self/setgroups", O_RDONLY | O_CLOEXEC);
	const bool is_denied = fd >= 0 && read(fd, text, sizeof(text) - 1) > 0 && !strncmp(text, "deny", 4);

	if (fd >= 0)
		close(fd);
	return is_denied;
}
