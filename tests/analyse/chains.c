/* What WP proves: that functions of vhost_queue.c keep to contracts.h. */
#ifdef __FRAMAC__
#include <string.h>
#include "nizwarf.h"

/* memcpy() by the type of what is written, since WP's memory has types. */

/*@ requires \valid(to + (0 .. n - 1)) && \valid_read(from + (0 .. n - 1));
    requires \separated(to + (0 .. n - 1), from + (0 .. n - 1));
    assigns to[0 .. n - 1] \from from[0 .. n - 1]; */
void copy_bytes(unsigned char *to, const unsigned char *from, size_t n);
/*@ requires n == sizeof(*to) && \valid(to) && \valid_read(from + (0 .. n - 1));
    assigns *to \from from[0 .. n - 1]; */
void copy_number(uint32_t *to, const unsigned char *from, size_t n);
/*@ requires n == 2 * sizeof(*to) && \valid(to + (0 .. 1)) && \valid_read(from + (0 .. n - 1));
    assigns to[0 .. 1] \from from[0 .. n - 1]; */
void copy_words(uint64_t *to, const unsigned char *from, size_t n);
/*@ requires n % sizeof(*to) == 0;
    requires \valid(to + (0 .. n / sizeof(*to) - 1)) && \valid_read(from + (0 .. n / sizeof(*to) - 1));
    assigns to[0 .. n / sizeof(*to) - 1] \from from[0 .. n / sizeof(*to) - 1]; */
void copy_rooms(struct iovec *to, const struct iovec *from, size_t n);
/*@ requires \false;
    assigns \nothing; */
void copy_else(void *to, const void *from, size_t n);

#define memcpy(to, from, n)                                                   \
	(sizeof(*(to)) == 1  ? copy_bytes((void *)(to), (void *)(from), n) :  \
	 sizeof(*(to)) == 4  ? copy_number((void *)(to), (void *)(from), n) : \
	 sizeof(*(to)) == 8  ? copy_words((void *)(to), (void *)(from), n) :  \
	 sizeof(*(to)) == 16 ? copy_rooms((void *)(to), (void *)(from), n) :  \
			       copy_else((to), (from), n))

/* (the copy with annotations, which includes contracts.h) */
#include "vhost_queue.c"

#endif
