/* Inode numbers for a client that sees a single device for all files below the shared directory, where the host
 * has one device for each file system. No two files get the same number:
 *
 *   the directory's own file system  a number stays the same; from 2^48 on, if its upper 16 bits are not
 *                                    those of another file system yet
 *   another file system              the upper 16 bits are replaced by others for each device
 *
 * If the upper bits of a device's numbers vary, as on some network file systems, each value gets its own
 * replacement. It is derived from the device's number, so that it is mostly the same when the server runs again.
 * There are 65,535 replacements. Once all are used, a number is a hash of device and inode, which equals that of
 * another file with a probability of one in 2^64. */
#ifndef PASSTHROUGH_NUMBERS_H
#define PASSTHROUGH_NUMBERS_H

#include <stdint.h>

struct numbers;

/* Creates the numbers for a directory on this device. Returns NULL if out of memory. */
struct numbers *numbers_new(uint64_t device);
void numbers_free(struct numbers *all);
/* Returns the number for an inode of a device. It is thread-safe. */
uint64_t numbers_tell(struct numbers *all, uint64_t device, uint64_t inode);

#endif
