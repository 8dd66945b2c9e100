/* Requests that are completed later: transport.h. There is one lock for all of them, because such requests
 * are few; so the thread that completes a request and the one that ends the transport need not know each
 * other.
 *
 * A kept request is in a list of its transport until it is completed, or until later_end() removes it.
 * Afterwards its transport may not exist any more, and nizwarf_request_complete() only frees the request. No
 * other lock may be taken while this one is held, and `send` must be called without it, because it may
 * block. */
#define _GNU_SOURCE
#include <pthread.h>
#include <stdlib.h>
#include <time.h>
#include "later.h"

/* A kept request. nizwarf_request_keep() allocates it, and nizwarf_request_complete(), which must be called
 * once, frees it. The lock protects all fields but `send` and `about`, which do not change. */
struct nizwarf_request {
	/* NULL: it can no longer be completed. */
	struct later_list *list;
	/* The counter of its places, or NULL if it has none. */
	unsigned *taken, places;
	/* The next request in the list, and the pointer to this one. */
	nizwarf_request *next, **at;
	void (*send)(void *about, int32_t code, const void *reply, size_t len);
	/* A copy of the transport's data. They are a struct of the transport, so they need the alignment of
	 * any struct. */
	_Alignas(max_align_t) unsigned char about[];
};

static pthread_mutex_t lock = PTHREAD_MUTEX_INITIALIZER;
static pthread_cond_t sent = PTHREAD_COND_INITIALIZER;
/* The request that this thread serves now, on its stack, or NULL if that cannot be kept. */
static _Thread_local struct later_source *serving;

void later_serve(struct later_source *source)
{
	serving = source;
}

/* `is_kept` is read by the thread that has set it, so without the lock. */
int later_keeps(const struct later_source *source, int32_t code)
{
	return code == NIZWARF_CALL && source->is_kept;
}

/* Inserts a request into the list. The lock must be held. */
static void link_later(nizwarf_request *later, struct later_list *list)
{
	later->list = list;
	later->at = &list->first;
	later->next = list->first;
	if (later->next)
		later->next->at = &later->next;
	list->first = later;
	list->kept++;
}

/* Whether one more request may be kept. The lock must be held. */
static int has_room(const struct later_source *source)
{
	const struct later_list *list = source->list;

	return !list->is_closed && (!list->most || list->kept < list->most) &&
	       (!source->taken || *source->taken + source->places <= source->most_places);
}

/* Only this thread uses `is_kept`. Memory is allocated before the lock is taken, so that the lock is held
 * only briefly. */
nizwarf_request *nizwarf_request_keep(void)
{
	struct later_source *source = serving;
	nizwarf_request *later;

	if (!source || source->is_kept)
		return NULL;
	later = malloc(sizeof(*later) + source->size);
	if (!later)
		return NULL;
	memcpy(later->about, source->about, source->size);
	later->send = source->send;
	pthread_mutex_lock(&lock);
	/* From here on another thread may remove the request from the list. */
	source->is_kept = has_room(source);
	if (source->is_kept) {
		later->taken = source->taken;
		later->places = source->places;
		if (later->taken)
			*later->taken += later->places;
		link_later(later, source->list);
	}
	pthread_mutex_unlock(&lock);
	if (source->is_kept)
		return later;
	free(later);
	return NULL;
}

/* Removes a request from the list, so that the transport no longer uses it. The lock must be held. */
static void unlink_later(struct later_list *list, nizwarf_request *later)
{
	*later->at = later->next;
	if (later->next)
		later->next->at = later->at;
	list->kept--;
	if (later->taken)
		*later->taken -= later->places;
	later->list = NULL;
}

/* later_end() waits while `sending` is not 0, so the transport exists until `send` returns. */
void nizwarf_request_complete(nizwarf_request *later, int32_t code, const void *reply, size_t len)
{
	struct later_list *list;

	pthread_mutex_lock(&lock);
	list = later->list;
	if (list) {
		unlink_later(list, later);
		list->sending++;
	}
	pthread_mutex_unlock(&lock);
	if (list) {
		later->send(later->about, code, reply, len);
		pthread_mutex_lock(&lock);
		list->sending--;
		pthread_cond_broadcast(&sent);
		pthread_mutex_unlock(&lock);
	}
	free(later);
}

void later_open(struct later_list *list)
{
	pthread_mutex_lock(&lock);
	list->is_closed = 0;
	pthread_mutex_unlock(&lock);
}

void later_close(struct later_list *list)
{
	pthread_mutex_lock(&lock);
	list->is_closed = 1;
	pthread_mutex_unlock(&lock);
}

/* A reply that is being sent is in no list any more, but the transport still has to take it. */
int later_is_empty(struct later_list *list)
{
	int is_empty;

	pthread_mutex_lock(&lock);
	is_empty = !list->first && !list->sending;
	pthread_mutex_unlock(&lock);
	return is_empty;
}

/* A request that is removed here is only freed when it is completed; nothing is sent. */
int later_end(struct later_list *list, int most)
{
	struct timespec until;
	int error = 0, left;

	clock_gettime(CLOCK_REALTIME, &until);
	until.tv_sec += most;
	pthread_mutex_lock(&lock);
	list->is_closed = 1;
	while (list->first)
		unlink_later(list, list->first);
	while (list->sending && !error)
		error = most == LATER_ALL ? pthread_cond_wait(&sent, &lock) :
					    pthread_cond_timedwait(&sent, &lock, &until);
	left = list->sending > 0;
	pthread_mutex_unlock(&lock);
	return left ? -1 : 0;
}
