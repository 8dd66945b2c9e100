/* nizwarf-share as a helper of mount(8), with the name mount.fuse.nizwarf-share. */
#ifndef SHARE_HELPED_H
#define SHARE_HELPED_H

#include <stdbool.h>

/* Whether it is one, and the options of mount(8): -f, only check the arguments; -s, ignore unknown options;
 * remount, change the flags of an existing mount, whose options the kernel has listed. */
extern struct helped {
	bool is_there, is_fake, is_sloppy, remounts;
} helped;

/* Returns whether mount(8) started the program, by its name. */
bool is_started_by_mount(const char *name);

/* Parses the arguments of mount(8): DIRECTORY MOUNTPOINT [-sfnv] [-o OPTIONS] [-t TYPE]. The first two may begin
 * with any character. */
void take_from_mount(int count, char **given);

/* Does what mount(8) wants and exits, unless that is a new mount. */
void end_helped(void);

#endif
