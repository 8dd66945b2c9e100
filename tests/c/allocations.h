/* Allocations of a program that is linked with --wrap=malloc, --wrap=realloc and --wrap=free: they are
 * counted, and one of them can be refused. For one source file of a program. */
#ifndef C_ALLOCATIONS_H
#define C_ALLOCATIONS_H

#include <stddef.h>

void *__real_malloc(size_t size);
void *__real_realloc(void *at, size_t size);
void __real_free(void *at);

/* How many were asked for; which one is refused, where 0 is none; how many pieces are not given back. */
static long asked, refused, live;

/* (calloc isn't counted: the libraries don't call it) */
void *__wrap_malloc(size_t size)
{
	void *at = ++asked == refused ? NULL : __real_malloc(size);

	live += at != NULL;
	return at;
}

/* (where it is refused the old piece stays, and so does `live`) */
void *__wrap_realloc(void *old, size_t size)
{
	void *at = ++asked == refused ? NULL : __real_realloc(old, size);

	live += !old && at;
	return at;
}

void __wrap_free(void *at)
{
	live -= at != NULL;
	__real_free(at);
}

#endif
