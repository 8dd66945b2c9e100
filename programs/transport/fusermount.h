/* Mounts for users other than root, by the program fusermount3 of the package fuse3, as libfuse does. It is
 * used by fuse_mount.c. */
#ifndef FUSERMOUNT_H
#define FUSERMOUNT_H

/* The options of mount(8) that set or clear a flag of mount(2). The last entry has no name. */
extern const struct mount_flag {
	const char *name;
	unsigned long flag;
	int is_set;
} mount_flags[];

/* A mount point: the directory `name` in the directory `above`, or the path `name` if `above` is -1. Messages
 * begin with `program` and mention `folder`; if `program` is NULL, nothing is printed. */
struct mount_point {
	const char *program, *folder;
	int above;
	const char *name;
};

/* Mounts. The other arguments are those of nizwarf_fuse_mount(), and `subtype` follows `fuse.` in the type of
 * the mount. Returns a descriptor of /dev/fuse, or -1 after printing an error. */
int fusermount_mount(const struct mount_point *at, const char *subtype, const char *source,
		     unsigned long flags, const char *options);

/* Unmounts. Returns 0, or -1 after printing an error. */
int fusermount_unmount(const struct mount_point *at);

#endif
