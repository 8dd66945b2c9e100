/* The mounts of the host that contain the nodes of a passthrough, and the handles that they open. All functions
 * are thread-safe. */
#ifndef PASSTHROUGH_MOUNTS_H
#define PASSTHROUGH_MOUNTS_H

#include <fcntl.h>
#include "passthrough_nodes.h"

/* A handle of the largest size. */
union handle_room {
	struct file_handle handle;
	char bytes[sizeof(struct file_handle) + MAX_HANDLE_SZ];
};

/* The device of a file, and the number of its mount. */
uint64_t device_of(const struct statx *seen);
uint64_t mount_of(const struct statx *seen);
/* Gets a reference to the mount on which a file was found. Returns NULL if out of memory. */
struct host_mount *mount_take(struct nodes *all, const struct found *found, const struct statx *seen);
void mount_put(struct host_mount *mount);
/* Fills in the handle of a file. Returns false if it has none. */
bool handle_by(int fd, union handle_room *room);
/* Returns whether a handle of this mount can be opened, and if so counts it as that of one more node. `fd` is a
 * descriptor of the file. */
bool mount_hold(struct host_mount *mount, const struct found *found, int fd, const struct statx *seen,
		struct file_handle *handle);
void mount_let_go(struct host_mount *mount);
/* Opens a file of a mount by its handle, with O_PATH. */
int open_by_handle(const struct host_mount *mount, struct file_handle *handle);

#endif
