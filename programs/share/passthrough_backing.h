/* Files that a client's kernel reads and writes itself while they are open, which Linux calls passthrough. */
#ifndef PASSTHROUGH_BACKING_H
#define PASSTHROUGH_BACKING_H

#include <stdint.h>

struct call;
/* An open file that the client's kernel may access. */
struct backing;
struct backings;

/* `socket` is connected to the process that registers files, and is closed by backings_free(). Returns NULL if out
 * of memory. */
struct backings *backings_new(int socket);
void backings_free(struct backings *all);

/* Registers another open of a node, by this descriptor, if the client negotiated passthrough. Returns 0 or an
 * error. `*taken` is NULL if the client did not. */
int backing_take(const struct call *call, uint64_t node, int fd, struct backing **taken);
/* Unregisters an open. `backing` may be NULL. */
void backing_put(struct backing *backing);

/* Fills in how the file of an OPEN, of which `fd` is a descriptor, is opened. Returns whether the client's kernel
 * accesses it itself; then the flags of the answer are set too. */
int backing_tell(const struct call *call, const struct backing *backing, int fd);

#endif
