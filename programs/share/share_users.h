/* The user namespace of a server that does not run as root. */
#ifndef SHARE_USERS_H
#define SHARE_USERS_H

#include <stdbool.h>
#include <stddef.h>
#include <stdint.h>

enum { MOST_RANGES = 32 };

/* The ids in the namespace, and the ids of the host to which they are mapped. */
struct id_map {
	struct id_range {
		uint32_t inside, outside, count;
	} ranges[MOST_RANGES];
	size_t count;
};

/* Enters a new user namespace with these ids, or with only the own ids if a map is empty. The user stays the same.
 * On error it prints a message and returns -1. */
int users_leave(const struct id_map *uids, const struct id_map *gids);

/* Becomes root in the namespace, if it has the id 0. On error it prints a message and returns -1. */
int users_be_root(const struct id_map *uids, const struct id_map *gids);

/* Returns whether nobody may change supplementary groups there. */
bool users_keep_groups(void);

#endif
