/* Requests that are completed later, for the transports. */
#ifndef LATER_H
#define LATER_H

#include "transport.h"

/* The kept requests of a transport, as long as they can be completed. */
struct later_list {
	nizwarf_request *first;
	/* Not 0: no more requests may be kept. */
	int is_closed;
	/* The number of kept requests, and its limit; 0 means no limit. */
	unsigned kept, most;
	/* The number of replies that are being sent. */
	unsigned sending;
};

/* The request that a thread serves, as the transport describes it: `size` bytes at `about`, which are copied
 * if it is kept, and the function that completes it. Requests may take places in a queue: then this one takes
 * `places` of them, and the kept ones together at most `most_places`, counted in `*taken`, which must be
 * valid as long as the list is used. If they take none, `taken` is NULL. */
struct later_source {
	struct later_list *list;
	void (*send)(void *about, int32_t code, const void *reply, size_t len);
	const void *about;
	size_t size;
	int is_kept;
	unsigned *taken, places, most_places;
};

/* Sets the request that this thread serves from now on. With NULL it cannot be kept. */
void later_serve(struct later_source *source);

/* Whether the request was kept, so that the transport must not complete it. `code` is the result of
 * `serve`. */
int later_keeps(const struct later_source *source, int32_t code);

/* Allow or forbid that requests are kept. */
void later_open(struct later_list *list);
void later_close(struct later_list *list);
/* Whether no request is kept, and none is being sent. */
int later_is_empty(struct later_list *list);
/* Forbids that requests are kept, and ensures that those that were kept can no longer be completed. Waits at
 * most `most` seconds for replies that are being sent, because `send` may wait for a reader. With LATER_ALL
 * it waits for all of them, so the caller must know that its `send` waits for nobody. Returns -1 if a reply
 * is still being sent, and then the list must not be freed. */
enum { LATER_ALL = -1 };
int later_end(struct later_list *list, int most);

#endif
