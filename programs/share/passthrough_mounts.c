/* Mounts of the host, and handles of a passthrough: passthrough_mounts.h. `mounts_lock` protects the list,
 * `handles` and `fd` of each mount, and the change of `users` to 0. It is never held together with the lock of the
 * nodes. Nothing is opened under it, neither a handle nor the descriptor of a mount, which stays open as long as a
 * node has a handle.
 *
 * Descriptors of nodes, or those by which their handles are opened, keep a mount busy: umount(8) fails as long as
 * the client knows one of its files. */
#define _GNU_SOURCE
#include <errno.h>
#include <stdlib.h>
#include <sys/sysmacros.h>
#include <unistd.h>
#include "passthrough_mounts.h"

uint64_t device_of(const struct statx *seen)
{
	return makedev(seen->stx_dev_major, seen->stx_dev_minor);
}

/* (Linux has it since 5.8; before, files are distinguished only by their devices) */
uint64_t mount_of(const struct statx *seen)
{
	return seen->stx_mask & STATX_MNT_ID ? seen->stx_mnt_id : 0;
}

bool is_across(const struct node *node, const struct statx *seen)
{
	return node->on->device != device_of(seen) || node->on->id != mount_of(seen);
}

/* ---- mounts */

struct host_mount *mount_take(struct nodes *all, const struct found *found, const struct statx *seen)
{
	struct host_mount *mount = found->node && !is_across(found->node, seen) ? found->node->on : NULL;

	/* (the referenced node keeps it, so no lock is needed) */
	if (mount) {
		atomic_fetch_add(&mount->users, 1);
		return mount;
	}
	pthread_mutex_lock(&all->mounts_lock);
	mount = all->mounts;
	while (mount && (mount->id != mount_of(seen) || mount->device != device_of(seen)))
		mount = mount->next;
	/* (mount_put() frees it with its last node) */
	if (!mount && (mount = calloc(1, sizeof(*mount)))) {
		mount->of = all;
		mount->device = device_of(seen);
		mount->id = mount_of(seen);
		mount->fd = -1;
		mount->next = all->mounts;
		all->mounts = mount;
	}
	if (mount)
		atomic_fetch_add(&mount->users, 1);
	pthread_mutex_unlock(&all->mounts_lock);
	return mount;
}

/* Drops a reference. The last one takes the lock before the count becomes 0, because mount_take() may find the
 * mount in the list until then; the others need no lock. */
void mount_put(struct host_mount *mount)
{
	unsigned users = atomic_load(&mount->users);
	struct host_mount **at;
	bool is_last;

	while (users > 1)
		if (atomic_compare_exchange_weak(&mount->users, &users, users - 1))
			return;
	pthread_mutex_lock(&mount->of->mounts_lock);
	is_last = atomic_fetch_sub(&mount->users, 1) == 1;
	at = &mount->of->mounts;
	while (is_last && *at != mount)
		at = &(*at)->next;
	if (is_last)
		*at = mount->next;
	pthread_mutex_unlock(&mount->of->mounts_lock);
	if (is_last)
		free(mount);
}

/* ---- handles */

/* A file system may not support handles (EOPNOTSUPP), such as some stacked or network file systems. */
bool handle_by(int fd, union handle_room *room)
{
	int id;

	room->handle.handle_bytes = MAX_HANDLE_SZ;
	return !name_to_handle_at(fd, "", &room->handle, &id, AT_EMPTY_PATH);
}

/* It requires CAP_DAC_READ_SEARCH, and can open any file of the file system, also outside of the shared directory.
 * So only handles are opened that the host has returned, or that passthrough_load.c compares with the directory.
 * ESTALE: the file does not exist any more. */
int open_by_handle(const struct host_mount *mount, struct file_handle *handle)
{
	return open_by_handle_at(mount->fd, handle, O_PATH | O_NOFOLLOW | O_CLOEXEC);
}

/* Opens the descriptor by which handles of a mount are opened: the file if that is a directory, or else its
 * directory, because an open file would exist after its owner has removed it. Returns -1 if neither can be opened.
 * (A descriptor made with O_PATH does not suffice.) */
static int open_mount(const struct host_mount *mount, const struct found *found, int fd,
		      const struct statx *seen)
{
	const struct nodes *all = mount->of;

	if (S_ISDIR(seen->stx_mode))
		return open_again(all, fd, O_RDONLY | O_DIRECTORY);
	if (found->node && found->node->on->id == mount->id)
		return open_again(all, found->directory, O_RDONLY | O_DIRECTORY);
	/* (a file on which another one is mounted) */
	return S_ISREG(seen->stx_mode) ? open_again(all, fd, O_RDONLY) : -1;
}

void mount_let_go(struct host_mount *mount)
{
	int fd = -1;

	pthread_mutex_lock(&mount->of->mounts_lock);
	/* With the last handle it is closed, so that the host can unmount it. */
	if (!--mount->handles) {
		fd = mount->fd;
		mount->fd = -1;
	}
	pthread_mutex_unlock(&mount->of->mounts_lock);
	if (fd >= 0)
		fd_let_go(mount->of, fd);
}

/* Opens a mount, and counts one more handle. Returns false on error. It is opened without the lock, because its
 * file system may not respond: then only users of this mount are blocked. If two workers open it, the first
 * descriptor is kept. */
static bool mount_open(struct host_mount *mount, const struct found *found, int fd, const struct statx *seen)
{
	int own = -1;
	bool is_open;

	if (!fd_reserve(mount->of, 1)) {
		own = open_mount(mount, found, fd, seen);
		if (own < 0)
			fd_give_back(mount->of, 1);
	}
	pthread_mutex_lock(&mount->of->mounts_lock);
	if (mount->fd < 0) {
		mount->fd = own;
		own = -1;
	}
	is_open = mount->fd >= 0;
	mount->handles += is_open;
	pthread_mutex_unlock(&mount->of->mounts_lock);
	if (own >= 0)
		fd_let_go(mount->of, own);
	return is_open;
}

/* Opens the handle once to check that this is possible, because a file system may return handles that it cannot
 * open, and the file's own descriptor is closed afterwards. On false, the node keeps the descriptor, or is not
 * created with --inode-file-handles=mandatory. */
bool mount_hold(struct host_mount *mount, const struct found *found, int fd, const struct statx *seen,
		struct file_handle *handle)
{
	bool is_open;
	int opened;

	pthread_mutex_lock(&mount->of->mounts_lock);
	is_open = mount->fd >= 0;
	mount->handles += is_open;
	pthread_mutex_unlock(&mount->of->mounts_lock);
	if (!is_open && !mount_open(mount, found, fd, seen))
		return false;
	opened = open_by_handle(mount, handle);
	if (opened >= 0)
		return !close(opened);
	mount_let_go(mount);
	return false;
}
