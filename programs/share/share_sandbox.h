/* The sandbox of nizwarf-share: what its process can reach besides the shared directory. */
#ifndef SHARE_SANDBOX_H
#define SHARE_SANDBOX_H

#include <stdbool.h>
#include "share_users.h"

enum sandbox {
	/* All that its user can reach. */
	SANDBOX_NONE,
	/* The directory is the root of the process. */
	SANDBOX_CHROOT,
	/* The same by a mount namespace, and in its own namespaces of processes, network and IPC. */
	SANDBOX_NAMESPACE,
};

enum calls_filter { FILTER_NONE, FILTER_KILL, FILTER_TRAP, FILTER_LOG };

/* Whether the program was built with libseccomp. */
extern const bool has_filter;

/* The callbacks of the process that stays outside of the sandbox. */
struct outside {
	/* Removes files when the server has ended; or NULL. */
	void (*end)(void *user);
	/* Called once the server is ready. */
	void (*ready)(void *user);
	/* Mounts for sandbox_mount(), and unmounts at the first signal. They return 0; on error they print a
	 * message and return -1. NULL: there is no mount. */
	int (*mount)(void *user), (*unmount)(void *user);
	void *user;
};

/* With a sandbox, forks, and returns in the child. The parent stays outside: it forwards signals, waits for the
 * child, and exits with its status. The ids are those of the user namespace of a server that does not run as root.
 * On error it prints a message and returns -1. */
int sandbox_fork(enum sandbox sandbox, const struct id_map *uids, const struct id_map *gids,
		 const struct outside *outside);

/* Lets the process outside mount. On error it prints a message and returns -1. */
int sandbox_mount(void);

/* Notifies the process outside that the server is ready. */
void sandbox_ready(void);

/* Enters the sandbox. It fills in descriptors of the shared directory and of /proc/self/fd, which becomes the
 * working directory, and whether no device can be opened in the mount of the directory. In a sandbox, `..` does
 * not lead out of either one. On error it prints a message and returns -1. */
int sandbox_enter(enum sandbox sandbox, const char *folder, int *root, int *proc, bool *no_devices);

/* What a process may do besides serving: unmount, open files by handles, watch files, use existing rings, which
 * only receive requests (uring.h), get the handles of files. */
enum { MAY_UNMOUNT = 1, MAY_OPEN_HANDLES = 2, MAY_WATCH = 4, MAY_USE_RINGS = 8, MAY_TELL_HANDLES = 16 };

/* Sets the action at a system call that serving does not need. On error it prints a message and returns -1. */
int sandbox_filter(enum calls_filter filter, unsigned may);

/* The same for the process that registers files with Linux (fuse_backing_start), which needs few system calls. */
int sandbox_filter_backing(enum calls_filter filter);

#endif
