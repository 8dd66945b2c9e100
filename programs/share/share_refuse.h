/* Refuses invalid command lines, with status 2. */
#ifndef SHARE_REFUSE_H
#define SHARE_REFUSE_H

#include <getopt.h>
#include <stdbool.h>
#include "passthrough_xattrmap.h"

/* Prints a message and exits. */
__attribute__((format(printf, 1, 2))) _Noreturn void refuse(const char *format, ...);
/* The same for an option or argument that is unknown or missing: it points to --help. */
__attribute__((format(printf, 1, 2))) _Noreturn void refuse_usage(const char *format, ...);
/* The same for an option that is not in `known`, which must end with an entry without a name. It suggests an
 * option with a similar name. */
_Noreturn void refuse_unknown(const struct option *known, const char *word);

/* Returns whether an attribute has another name on the host, and fills that in. An attribute that the map refuses
 * has none. */
bool xattr_is_renamed(const char *name, struct xattr_name *host);

/* Refuses options that cannot be combined, or that the user may not use. It must be called after all options are
 * parsed, so that their order does not matter. */
void hold_together(void);

#endif
