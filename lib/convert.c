/* The functions of nizwarf_ops.h that make values of the protocol from those of the C library. */
#include <string.h>
#include "internal.h"
#include "nizwarf_ops.h"

struct timespec nizwarf_timeout(double seconds)
{
	struct timespec time = { 0, 0 };

	if (seconds >= 9223372036854775808.0) {
		time.tv_sec = (time_t)INT64_MAX;
	} else if (seconds > 0) {
		time.tv_sec = (time_t)seconds;
		time.tv_nsec = (long)((seconds - (double)time.tv_sec) * 1e9);
	}
	return time;
}

nizwarf_attr nizwarf_attr_of(const struct stat *st)
{
	nizwarf_attr attr;

	memset(&attr, 0, sizeof(attr));
	attr.ino = st->st_ino;
	attr.size = (uint64_t)st->st_size;
	attr.blocks = (uint64_t)st->st_blocks;
	attr.mode = st->st_mode;
	attr.nlink = (uint32_t)st->st_nlink;
	attr.uid = st->st_uid;
	attr.gid = st->st_gid;
	attr.rdev = (uint32_t)st->st_rdev;
	attr.blksize = (uint32_t)st->st_blksize;
	attr.atime = (uint64_t)st->st_atime;
	attr.mtime = (uint64_t)st->st_mtime;
	attr.ctime = (uint64_t)st->st_ctime;
	/* (before POSIX.1-2008 seconds are fields, and so are nanoseconds) */
#ifdef st_atime
	attr.atimensec = (uint32_t)st->st_atim.tv_nsec;
	attr.mtimensec = (uint32_t)st->st_mtim.tv_nsec;
	attr.ctimensec = (uint32_t)st->st_ctim.tv_nsec;
#else
	attr.atimensec = (uint32_t)st->st_atimensec;
	attr.mtimensec = (uint32_t)st->st_mtimensec;
	attr.ctimensec = (uint32_t)st->st_ctimensec;
#endif
	return attr;
}

nizwarf_statfs nizwarf_statfs_of(const struct statvfs *st)
{
	nizwarf_statfs statfs;

	statfs.bsize = st->f_bsize;
	statfs.frsize = st->f_frsize;
	statfs.blocks = st->f_blocks;
	statfs.bfree = st->f_bfree;
	statfs.bavail = st->f_bavail;
	statfs.files = st->f_files;
	statfs.ffree = st->f_ffree;
	statfs.namemax = st->f_namemax;
	return statfs;
}

nizwarf_entry nizwarf_entry_of(const nizwarf_entry_param *e)
{
	return entry_of(e);
}
