/* Mounts and unmounts over /dev/fuse: nizwarf_fuse.h. Users who may not call mount(2) mount by fusermount3:
 * fusermount.h.
 *
 * The place of the mount is remembered, so that this mount is unmounted and no other. Otherwise a user with
 * write permission for a parent directory could rename it meanwhile, put a link in its place, or mount
 * something else there, so that a program of root would unmount that. A process makes one mount, and `made`
 * does not change afterwards, so any thread may unmount. */
#define _GNU_SOURCE
#include <errno.h>
#include <fcntl.h>
#include <limits.h>
#include <stdio.h>
#include <stdlib.h>
#include <string.h>
#include <sys/mount.h>
#include <sys/stat.h>
#include <unistd.h>
#include "fusermount.h"
#include "say.h"
#include "transport.h"

/* Prints what failed and why, by errno, and returns -1. */
static int say(const nizwarf_transport *by, const char *action, const char *path)
{
	transport_say(by->program, "cannot %s '%s': %s", action, path, strerror(errno));
	return -1;
}

/* The same for a mount. EINVAL may be caused by an option, so the message then contains the options. */
static int say_mount(const nizwarf_transport *by, const char *path, const char *options)
{
	if (errno != EINVAL || !options || !*options)
		return say(by, "mount on", path);
	transport_say(by->program, "cannot mount on '%s' with options '%s': %s", path, options,
		      strerror(errno));
	return -1;
}

/* The place of the mount: its parent directory, even if that was moved, and the name in it; then the IDs of
 * the mount and of its parent mount, 0 if unknown. The directory stays open until the process ends. It is -1
 * before the mount, and if it cannot be opened, for example without /proc. `by_helper` means that fusermount3
 * has mounted. */
static struct {
	int directory;
	char name[NAME_MAX + 1];
	uint64_t own, above;
	int by_helper;
} made = { .directory = -1 };

/* Returns the ID of the mount that a path leads to, or 0 if it is unknown, as before Linux 5.8. The flags
 * ensure that no file system has to reply, because the mounted one may be this one, which would wait for
 * itself. */
static uint64_t number_of_mount(int directory, const char *name)
{
#ifdef STATX_MNT_ID
	const int how = AT_SYMLINK_NOFOLLOW | AT_NO_AUTOMOUNT | AT_STATX_DONT_SYNC | AT_EMPTY_PATH;
	struct statx seen;

	if (!statx(directory, name, how, STATX_MNT_ID, &seen) && seen.stx_mask & STATX_MNT_ID)
		return seen.stx_mnt_id;
#else
	(void)directory, (void)name;
#endif
	return 0;
}

/* Returns the mount point by its parent directory, so that no link leads elsewhere, or `folder` if that is
 * not open. */
static const char *mount_point(const char *folder, char *place, size_t size)
{
	if (made.directory < 0)
		return folder;
	snprintf(place, size, "/proc/self/fd/%d/%s", made.directory, made.name);
	return place;
}

/* Opens the parent directory of the mount point. If that fails, the path of the caller is used instead. */
static void find_mount_point(const char *folder)
{
	char path[PATH_MAX], *name;

	if (!realpath(folder, path) || access("/proc/self/fd", F_OK))
		return;
	/* realpath() has resolved the path, so it has a slash and no links. Only the root directory has no
	 * name. */
	name = strrchr(path, '/');
	snprintf(made.name, sizeof(made.name), "%s", name[1] ? name + 1 : ".");
	*name = 0;
	made.directory = open(*path ? path : "/", O_PATH | O_DIRECTORY | O_CLOEXEC);
}

/* Returns 1 if the file system that is mounted there is the one that was made, as far as that is known, 0 if
 * there is no mount, and -1 after printing an error if it is another one. */
static int is_there(const nizwarf_transport *by, const char *folder)
{
	const uint64_t there = made.own ? number_of_mount(made.directory, made.name) : 0;

	if (there == made.own || !there)
		return 1;
	if (there == made.above)
		return 0;
	transport_say(by->program, "cannot unmount '%s': another file system is mounted there", folder);
	return -1;
}

/* Unmounts by a path, unless it is unmounted already. Returns 0, or -1 with errno: EBUSY if it is in use,
 * EPERM if this process lacks permission. */
static int unmount(const char *point, int flags)
{
	/* EINVAL, and ENOENT for a directory that was removed, mean that another process has unmounted it
	 * meanwhile. */
	return umount2(point, flags | UMOUNT_NOFOLLOW) && errno != EINVAL && errno != ENOENT ? -1 : 0;
}

/* Returns the mount point for fusermount3. */
static struct mount_point helped(const char *program, const char *folder)
{
	return (struct mount_point){ program, folder, made.directory,
				     made.directory < 0 ? folder : made.name };
}

int nizwarf_fuse_unmount(const nizwarf_transport *by, const char *folder)
{
	char place[NAME_MAX + 40];
	const char *point = mount_point(folder, place, sizeof(place));
	const struct mount_point at = helped(by->program, folder);
	const int found = is_there(by, folder);

	if (found <= 0)
		return found;
	if (made.by_helper)
		return fusermount_unmount(&at);
	if (!unmount(point, 0))
		return 0;
	if (errno != EBUSY || unmount(point, MNT_DETACH))
		return say(by, "unmount", folder);
	transport_say(by->program, "'%s' is in use: it is unmounted once nobody uses it", folder);
	return 0;
}

void nizwarf_fuse_detach(const nizwarf_transport *by, const char *folder)
{
	const struct mount_point at = helped(NULL, folder);
	char place[NAME_MAX + 40];

	if (is_there(by, folder) <= 0)
		return;
	if (made.by_helper)
		fusermount_unmount(&at);
	else
		unmount(mount_point(folder, place, sizeof(place)), MNT_DETACH);
}

int transport_check(const nizwarf_transport *by)
{
	const size_t known = sizeof(*by);

	if (by->size != known) {
		transport_say("nizwarf-fuse",
			      "the size of a nizwarf_transport is %zu, but this library supports %zu",
			      by->size, known);
		return -1;
	}
	if (by->workers >= 1 && by->workers <= NIZWARF_MAX_WORKERS)
		return 0;
	transport_say(by->program, "the number of workers is %u, but must be 1 to %d", by->workers,
		      NIZWARF_MAX_WORKERS);
	return -1;
}

int nizwarf_fuse_open(const nizwarf_transport *by)
{
	int device;

	if (transport_check(by))
		return -1;
	device = open("/dev/fuse", O_RDWR | O_CLOEXEC);
	return device < 0 ? say(by, "open", "/dev/fuse") : device;
}

/* Finds the place of the mount, and blocks signals, so that none can end the process and leave a mount
 * without a server. */
static void prepare(const char *folder)
{
	find_mount_point(folder);
	if (made.directory >= 0)
		made.above = number_of_mount(made.directory, made.name);
	transport_hold_signals(SIG_BLOCK);
}

/* Mounts by mount(2). Returns 0, or -1 with errno. The option `fd` is the number of the device, and
 * `rootmode` says in octal that the root is a directory. Unless the options have allow_other, only the given
 * user and group may use the mount. The type is shown in /proc/mounts. */
static int mount_device(const nizwarf_transport *by, int device, const char *source, const char *folder,
			unsigned long flags, const char *options)
{
	char words[512], place[NAME_MAX + 40], type[64];
	const int len = snprintf(words, sizeof(words), "fd=%d,rootmode=40000,user_id=%u,group_id=%u%s%s",
				 device, (unsigned)geteuid(), (unsigned)getegid(),
				 options && *options ? "," : "", options ? options : "");

	snprintf(type, sizeof(type), "fuse.%s", by->program);
	errno = E2BIG;
	return len < 0 || (size_t)len >= sizeof(words) ?
		       -1 :
		       mount(source, mount_point(folder, place, sizeof(place)), type, flags, words);
}

/* Remembers the mount for nizwarf_fuse_unmount(). */
static void note(int by_helper)
{
	made.by_helper = by_helper;
	if (made.directory >= 0)
		made.own = number_of_mount(made.directory, made.name);
}

int nizwarf_fuse_mount_on(const nizwarf_transport *by, int device, const char *source, const char *folder,
			  unsigned long flags, const char *options)
{
	if (transport_check(by))
		return -1;
	prepare(folder);
	if (mount_device(by, device, source, folder, flags, options))
		return say_mount(by, folder, options);
	note(0);
	return 0;
}

int nizwarf_fuse_mount(const nizwarf_transport *by, const char *source, const char *folder,
		       unsigned long flags, const char *options)
{
	struct mount_point at;
	int device, error;

	if (transport_check(by))
		return -1;
	prepare(folder);
	device = open("/dev/fuse", O_RDWR | O_CLOEXEC);
	if (device >= 0 && !mount_device(by, device, source, folder, flags, options))
		return note(0), device;
	error = errno;
	if (device >= 0)
		close(device);
	if (geteuid() && (error == EPERM || error == EACCES)) {
		at = helped(by->program, folder);
		device = fusermount_mount(&at, by->program, source, flags, options);
		if (device >= 0)
			note(1);
		return device;
	}
	errno = error;
	return device < 0 ? say(by, "open", "/dev/fuse") : say_mount(by, folder, options);
}
