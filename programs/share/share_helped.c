/* Options of mount(8): share_helped.h. */
#define _GNU_SOURCE
#include <errno.h>
#include <limits.h>
#include <stdio.h>
#include <stdlib.h>
#include <string.h>
#include <sys/mount.h>
#include <sys/syscall.h>
#include <unistd.h>
#include "share_helped.h"
#include "share_refuse.h"
#include "share_words.h"

struct helped helped;

bool is_started_by_mount(const char *name)
{
	const char *last = name ? strrchr(name, '/') : NULL;

	/* (mount(8) calls mount.TYPE, which is a link to the program) */
	return name && !strncmp(last ? last + 1 : name, "mount.", 6);
}

void take_from_mount(int count, char **given)
{
	if (count < 3)
		refuse("as a helper of mount(8) it requires a directory and a mount point");
	helped.is_there = true;
	/* (mount(8) waits for this process to exit, and prints nothing itself; so it exits once the directory is
	 * mounted) */
	words.daemonizes = true;
	words.says_more = false;
	/* (descriptors that mount(8) left open would stay open as long as the server runs) */
#ifdef SYS_close_range
	syscall(SYS_close_range, STDERR_FILENO + 1, UINT_MAX, 0);
#endif
	for (int found; (found = getopt(count - 2, given + 2, ":sfnvo:t:")) != -1;) {
		if (found == '?' || found == ':')
			refuse("unrecognized option '%s' of mount(8)", given[optind + 1]);
		helped.is_fake |= found == 'f';
		helped.is_sloppy |= found == 's';
		words.says_more |= found == 'v';
		if (found == 'o')
			take_options(optarg);
	}
	/* (an option such as virtiofsd's source= does not change the directory) */
	words.folder = given[1];
	words.mount_point = given[2];
	if (optind + 2 < count)
		refuse("unexpected argument '%s'", given[optind + 2]);
}

void end_helped(void)
{
	if (!helped.is_fake && !helped.remounts)
		return;
	/* (a remount changes the flags of the mount, but not the server) */
	if (!helped.is_fake && mount(NULL, words.mount_point, NULL, MS_REMOUNT | words.flags, NULL)) {
		fprintf(stderr, "nizwarf-share: cannot remount '%s': %s\n", words.mount_point,
			strerror(errno));
		exit(1);
	}
	exit(0);
}
