/* Definitions for passthrough, shared by fuse_backing.c and the filters of its system calls. */
#ifndef FUSE_BACKING_H
#define FUSE_BACKING_H

#include <linux/fuse.h>

/* Definitions that the headers before Linux 6.9 lack. */
struct backing_map {
	int32_t fd;
	uint32_t flags;
	uint64_t padding;
};
#define BACKING_OPEN _IOW(229, 1, struct backing_map)
#define BACKING_CLOSE _IOW(229, 2, uint32_t)

/* The descriptors of the process that registers files. */
enum { BACKING_DEVICE = 0, BACKING_SOCKET = 1 };

#endif
