/* Refuses allocations and descriptors to a program that is linked with --wrap=malloc, --wrap=calloc,
 * --wrap=realloc, --wrap=aligned_alloc and --wrap=openat, by what the environment says. REFUSE_FROM=N: the
 * allocation of this number, counted from 1. With REFUSE_ONE_IN=M it is one in M from there on, by chance, and
 * always the same. REFUSE_OPEN=N: the openat of this number. A line on standard error tells of the first. */
#define _GNU_SOURCE
#include <errno.h>
#include <fcntl.h>
#include <stdarg.h>
#include <stdatomic.h>
#include <stdbool.h>
#include <stdint.h>
#include <stdlib.h>
#include <unistd.h>

/* The linker gives the C library's own functions these names. */
void *__real_malloc(size_t size);
void *__real_calloc(size_t count, size_t size);
void *__real_realloc(void *at, size_t size);
void *__real_aligned_alloc(size_t alignment, size_t size);
int __real_openat(int directory, const char *name, int flags, mode_t mode);

/* 0: nothing is said, and nothing refused. */
static unsigned long number_in(const char *name)
{
	const char *text = getenv(name);

	return text ? strtoul(text, NULL, 10) : 0;
}

/* Whether an allocation is to be refused, of which this is the number. */
static bool is_chosen(uint64_t number)
{
	static unsigned long from, one_in;
	static atomic_bool is_read;

	if (!atomic_load(&is_read)) {
		from = number_in("REFUSE_FROM");
		one_in = number_in("REFUSE_ONE_IN");
		atomic_store(&is_read, true);
	}
	if (!from || number < from)
		return false;
	/* (the number's bits are mixed, so that every pattern of calls is hit) */
	return one_in ? ((number * UINT64_C(0x9e3779b97f4a7c15)) >> 33) % one_in == 0 : number == from;
}

/* Counts an allocation, of any function and thread, and says whether it is refused. */
static bool refuses(void)
{
	static const char said[] = "an allocation is refused\n";
	static atomic_ulong asked;
	static atomic_bool is_told;

	if (!is_chosen(atomic_fetch_add(&asked, 1) + 1))
		return false;
	if (!atomic_exchange(&is_told, true) && write(2, said, sizeof(said) - 1) < 0)
		_exit(3);
	errno = ENOMEM;
	return true;
}

void *__wrap_malloc(size_t size)
{
	return refuses() ? NULL : __real_malloc(size);
}

void *__wrap_calloc(size_t count, size_t size)
{
	return refuses() ? NULL : __real_calloc(count, size);
}

void *__wrap_realloc(void *old, size_t size)
{
	return refuses() ? NULL : __real_realloc(old, size);
}

void *__wrap_aligned_alloc(size_t alignment, size_t size)
{
	return refuses() ? NULL : __real_aligned_alloc(alignment, size);
}

int __wrap_openat(int directory, const char *name, int flags, ...)
{
	static const char said[] = "an openat is refused\n";
	static atomic_ulong asked;
	mode_t mode = 0;
	va_list more;

	if (flags & O_CREAT) {
		va_start(more, flags);
		mode = va_arg(more, mode_t);
		va_end(more);
	}
	if (atomic_fetch_add(&asked, 1) + 1 != number_in("REFUSE_OPEN"))
		return __real_openat(directory, name, flags, mode);
	if (write(2, said, sizeof(said) - 1) < 0)
		_exit(3);
	/* (that the machine has no more: EMFILE is what a server that counts its own may avoid) */
	errno = ENFILE;
	return -1;
}
