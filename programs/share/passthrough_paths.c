/* Paths of a passthrough: passthrough_paths.h. They are needed only when a virtual machine migrates
 * (passthrough_save.c and passthrough_load.c), on the transport's own thread; requests are served without paths. A
 * path that /proc shows is only a hint, because anyone who can write to the directory can rename, replace or
 * unlink its parts at any time. So each path is checked from the shared directory on, and is used only if it leads
 * to the same file. */
#define _GNU_SOURCE
#include <fcntl.h>
#include <linux/openat2.h>
#include <string.h>
#include <sys/syscall.h>
#include <unistd.h>
#include "passthrough_call.h"
#include "passthrough_mounts.h"
#include "passthrough_paths.h"

int paths_begin(struct paths *paths, struct nodes *nodes)
{
	struct grip root;
	ssize_t got;

	paths->nodes = nodes;
	if (node_get(nodes, ROOT_NODE, &root))
		return -1;
	/* (the root node stays, and so does its descriptor) */
	paths->root = root.fd;
	node_put(&root);
	/* (the path of a deleted directory ends with " (deleted)", and nothing is found below it) */
	got = readlinkat(nodes->proc, name_fd(paths->root).bytes, paths->folder, sizeof(paths->folder));
	if (got <= 0 || (size_t)got >= sizeof(paths->folder) || *paths->folder != '/')
		return -1;
	/* (below / a path begins after the slash) */
	paths->len = got == 1 ? 0 : (size_t)got;
	return 0;
}

/* With RESOLVE_BENEATH, Linux refuses a path that leads out of the directory, by `..`, by / or by a symbolic link,
 * even if a part of it is renamed meanwhile. A mount below the directory is entered. */
int open_in(int directory, const char *path, int flags)
{
	struct open_how how = { .flags = (uint64_t)(flags | O_CLOEXEC | O_NOFOLLOW),
				.resolve = RESOLVE_BENEATH | RESOLVE_NO_SYMLINKS | RESOLVE_NO_MAGICLINKS };

	return (int)syscall(SYS_openat2, directory, path, &how, sizeof(how));
}

int open_below(const struct paths *paths, const char *path, int flags)
{
	return open_in(paths->root, *path ? path : ".", flags);
}

struct file_id id_of(const struct statx *seen)
{
	return (struct file_id){ seen->stx_ino, device_of(seen), mount_of(seen) };
}

/* (An inode number is reused once its file is gone, but not while a descriptor keeps the file.) */
bool is_id(const struct file_id *one, const struct file_id *other)
{
	return one->inode == other->inode && one->device == other->device && one->mount == other->mount;
}

bool is_same(const struct statx *one, const struct statx *other)
{
	const struct file_id id = id_of(one), other_id = id_of(other);

	return is_id(&id, &other_id);
}

bool is_in(int directory, const char *name, const struct statx *seen)
{
	struct statx there;

	return !statx(directory, name, AT_SYMLINK_NOFOLLOW | AT_NO_AUTOMOUNT, WANTED, &there) &&
	       is_same(seen, &there);
}

ssize_t find_path(const struct paths *paths, int fd, const struct statx *seen, char *path)
{
	char result[PATH_MAX];
	ssize_t len = readlinkat(paths->nodes->proc, name_fd(fd).bytes, result, sizeof(result));

	if (len <= 0 || (size_t)len >= sizeof(result) || (size_t)len <= paths->len + 1 ||
	    memcmp(result, paths->folder, paths->len) != 0 || result[paths->len] != '/')
		return -1;
	len -= (ssize_t)paths->len + 1;
	memcpy(path, result + paths->len + 1, (size_t)len);
	path[len] = 0;
	/* (/proc shows a deleted file with a name that does not exist, and a file that was moved meanwhile with
	 * its old name. Symbolic links on the way are followed, which is harmless, because the file is only
	 * checked, and open_below() follows none.) */
	return is_in(paths->root, path, seen) ? len : -1;
}
