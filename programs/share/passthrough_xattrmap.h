/* The translation of names of extended attributes between a passthrough's client and the host, by virtiofsd's
 * --xattrmap. */
#ifndef PASSTHROUGH_XATTRMAP_H
#define PASSTHROUGH_XATTRMAP_H

#include <linux/limits.h>

/* A name on the host, or an empty one. */
struct xattr_name {
	char bytes[XATTR_NAME_MAX + 1];
};

struct xattr_map;

/* Parses rules, which are never freed. On error it returns NULL, and fills in a message and the number of the
 * rule, from 1 on; 0: all rules. */
const struct xattr_map *xattr_map_read(const char *text, const char **why, unsigned *rule);

/* Translates a client's name to the host's. Returns 0 or an error: EPERM or EOPNOTSUPP if a rule says so, ERANGE
 * if the name becomes too long. */
int xattr_map_to_host(const struct xattr_map *map, const char *name, struct xattr_name *host);

/* Translates a host's name to the client's, which is its end. Returns NULL if the client must not see it. */
const char *xattr_map_to_client(const struct xattr_map *map, const char *name);

#endif
