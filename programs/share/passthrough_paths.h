/* Paths of files below the directory of a passthrough. */
#ifndef PASSTHROUGH_PATHS_H
#define PASSTHROUGH_PATHS_H

#include <limits.h>
#include "passthrough_nodes.h"

/* The shared directory, and its path as in /proc/self/fd. */
struct paths {
	struct nodes *nodes;
	int root;
	size_t len;
	char folder[PATH_MAX];
};

/* Identifies a file of the host: no two existing files have the same values. */
struct file_id {
	uint64_t inode, device, mount;
};

/* Returns -1 if the path of the directory cannot be determined. */
int paths_begin(struct paths *paths, struct nodes *nodes);

/* Opens a path below a directory: names separated by slashes, shorter than PATH_MAX. No symbolic link is followed,
 * so that nothing outside of the directory is opened. Returns a descriptor, which the caller must close, or -1
 * with errno. */
int open_in(int directory, const char *path, int flags);
/* The same below the shared directory, which is the empty path. */
int open_below(const struct paths *paths, const char *path, int flags);

struct file_id id_of(const struct statx *seen);
bool is_id(const struct file_id *one, const struct file_id *other);
/* Returns whether both are the same file. */
bool is_same(const struct statx *one, const struct statx *other);

/* Finds a path of the file of a descriptor, whose attributes are `seen`. Returns its length, or -1. `path` must
 * have PATH_MAX bytes. */
ssize_t find_path(const struct paths *paths, int fd, const struct statx *seen, char *path);
/* Returns whether a file has this name in a directory. */
bool is_in(int directory, const char *name, const struct statx *seen);

#endif
