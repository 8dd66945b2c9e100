/* What WP proves of the C files of the library: that they keep to codec.acsl, tree.acsl and table.acsl. */
#ifdef __FRAMAC__
#include <stddef.h>
#include <stdint.h>
#include <string.h>

/* Functions of the C library by the type of what is written, since WP's memory has types. */

/*@ requires to: \valid(to + (0 .. n - 1));
    requires from: \valid_read(from + (0 .. n - 1));
    requires apart: \separated(to + (0 .. n - 1), from + (0 .. n - 1));
    assigns to[0 .. n - 1] \from from[0 .. n - 1]; */
void copy_bytes(uint8_t *to, const uint8_t *from, size_t n);
/*@ requires \valid_read(s + (0 .. n - 1));
    assigns \result \from s, s[0 .. n - 1], c, n; */
const uint8_t *find_byte(const uint8_t *s, int c, size_t n);

#define memcpy copy_bytes
#define memchr find_byte
/* (zeros are only put into all of a struct) */
#define memset(to, value, n)                                             \
	({                                                               \
		_Static_assert((n) == sizeof(*(to)) && !(value), "all"); \
		*(to) = (__typeof__(*(to))){ 0 };                        \
	})

#define __atomic_load_n(at, order) (*(at))
#define __atomic_store_n(at, value, order) ((void)(*(at) = (value)))
uint64_t __atomic_exchange_n(uint64_t *at, uint64_t value, int order);

/* (fields that the struct stat of Frama-C lacks) */
#define st_atimensec st_dev
#define st_mtimensec st_dev
#define st_ctimensec st_dev

/* (the copies with annotations) */
#include "codec.c"
#include "convert.c"
#include "ops.c"
#include "server.c"

#endif
