/* Refuses one allocation of a program that is started with this library preloaded, and counts them.
 *
 * A part of a run goes from a line on standard output that begins with `request ` to the next line
 * there; the parts count from 1, and 0 is all that lies outside of them. REFUSE_PART says of
 * which part an allocation is refused, and REFUSE_ALLOCATION which of that part's, counted from 1.
 * REFUSE_COUNTS names a file that gets a line for each part, from 0 on, as the program ends: how
 * many allocations were asked for in it, the refused one too.
 *
 * cc -shared -fPIC -o refuse_allocation.so refuse_allocation.c -ldl
 */
#define _GNU_SOURCE
#include <dlfcn.h>
#include <stdio.h>
#include <stdlib.h>
#include <string.h>
#include <sys/types.h>

#define MOST_PARTS 65536

static const char begins[] = "request ";

static unsigned long asked[MOST_PARTS]; /* of each part */
static unsigned long parts, part;	/* how many there were, and which one it is now */
static int has_ended;			/* what is allocated to write the counts is none of the program's */

/* The number in a variable of the environment, 0 where it is not there. */
static unsigned long number_in(const char *name)
{
	const char *text = getenv(name);

	return text ? strtoul(text, NULL, 10) : 0;
}

/* Whether the allocation that is asked for now is the one to refuse. */
static int is_refused(void)
{
	static unsigned long of_part, number;
	static int is_read;

	if (has_ended)
		return 0;
	/* (once: getenv is no thing for each allocation) */
	if (!is_read) {
		of_part = number_in("REFUSE_PART");
		number = number_in("REFUSE_ALLOCATION");
		is_read = 1;
	}
	asked[part]++;
	return part == of_part && asked[part] == number;
}

void *malloc(size_t size)
{
	static void *(*next)(size_t);

	if (!next)
		next = dlsym(RTLD_NEXT, "malloc");
	return is_refused() ? NULL : next(size);
}

void *realloc(void *old, size_t size)
{
	static void *(*next)(void *, size_t);

	if (!next)
		next = dlsym(RTLD_NEXT, "realloc");
	return is_refused() ? NULL : next(old, size);
}

/* Sees where a part begins and where it ends. */
ssize_t write(int file, const void *bytes, size_t size)
{
	static ssize_t (*next)(int, const void *, size_t);

	if (!next)
		next = dlsym(RTLD_NEXT, "write");
	/* (a line that begins with other words ends the part) */
	if (file == 1) {
		part = 0;
		if (size >= strlen(begins) && !memcmp(bytes, begins, strlen(begins)) &&
		    parts + 1 < MOST_PARTS)
			part = ++parts;
	}
	return next(file, bytes, size);
}

__attribute__((destructor)) static void report(void)
{
	const char *path = getenv("REFUSE_COUNTS");
	FILE *file;

	has_ended = 1;
	file = path ? fopen(path, "w") : NULL;
	if (file) {
		for (unsigned long i = 0; i <= parts; i++)
			fprintf(file, "%lu\n", asked[i]);
		fclose(file);
	}
}
