/* Locks of a passthrough's client that are taken on the host. */
#ifndef PASSTHROUGH_LOCKS_H
#define PASSTHROUGH_LOCKS_H

#include <stdbool.h>
#include <stdint.h>
#include "nizwarf.h"

struct call;
struct holder;
struct locks;
struct nodes;

/* Returns NULL if out of memory. The nodes must outlive the locks, because they count the descriptors of locks. */
struct locks *locks_new(struct nodes *nodes);
/* Returns false if a thread still waits for the host and uses the locks; then they are not freed. */
bool locks_free(struct locks *all);

/* GETLK, SETLK and SETLKW. They return 0, an error, or LOCK_WAITS: the reply is sent later. */
enum { LOCK_WAITS = -1 };
int get_lock(const struct call *call);
int set_lock(const struct call *call);

/* At a FLUSH or a RELEASE, releases the locks of its owner by fcntl(2) or flock(2). */
void locks_close(const struct call *call);
/* Ends the wait of this request for a lock, unless that client has disconnected. */
void locks_interrupt(struct locks *all, unsigned client, uint64_t unique);
/* Ends all waits for locks, now or soon. */
void locks_recall(struct locks *all);
/* Returns whether a client has locks, while no request is in flight. */
bool locks_are_held(struct locks *all);
/* Releases all locks of a client, and ends its waits. If that client has disconnected, the locks belong to the
 * next one and stay. With the number of a client that has not connected yet, the locks of the client before it are
 * released. */
void locks_forget_all(struct locks *all, unsigned client);
/* The same in two steps: the first returns the locks as a list, and the second releases them. */
struct holder *locks_take_all(struct locks *all, unsigned client);
void locks_let_go(struct locks *all, struct holder *first);

#endif
