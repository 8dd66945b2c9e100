/* A watch of the files that a client knows: it notifies the client of changes that others make, so that the client
 * may cache everything else for long. */
#ifndef PASSTHROUGH_WATCH_H
#define PASSTHROUGH_WATCH_H

#include <stdbool.h>
#include <stdint.h>
#include "transport.h"

struct watch;
/* A watched file. */
struct watched;

/* `proc` is a descriptor of /proc/self/fd, which the caller must keep open. `knows_none` is set if the client also
 * caches that a name does not exist. Returns NULL with errno on error. */
struct watch *watch_new(int proc, nizwarf_fuse_notices *notices, bool knows_none);
/* Starts to notify the client, on a thread with the capabilities of the calling one. Returns 0 or an error. */
int watch_start(struct watch *all);
/* Frees a watch, which must have no watched files. */
void watch_free(struct watch *all);

/* Watches a file, which must be opened with O_PATH. Changes are reported once watch_name() has set the number of
 * its node. Returns NULL if it cannot be watched. watch_remove() frees it, and must be called before the
 * descriptor is closed. */
struct watched *watch_add(struct watch *all, int fd, bool is_directory);
void watch_name(struct watched *watched, uint64_t node);
void watch_remove(struct watch *all, struct watched *watched, int fd);

/* Returns the longest time, in milliseconds, that names in a watched directory may be cached. */
uint64_t watch_longest(const struct watch *all);

#endif
