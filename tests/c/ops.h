/* What tests/c/ops.c and tests/c/offered.c share: functions of a table that note how they are called. */
#ifndef C_OPS_H
#define C_OPS_H

#include <fcntl.h>
#include <stdarg.h>
#include "nizwarf_ops.h"
#include "allocations.h"
#include "codec.h"

/* The calls since the last request, as names and arguments; what each function returns: an error,
 * NIZWARF_LATER, or 0; and by how many bytes an answer is longer than what was requested. */
static char said[512];
static int failure;
static size_t excess;

enum { LATE = 7 }; /* in the room, of a reply that another thread has put there */

/* Adds to what is said, and returns `failure`. */
static int say(const char *format, ...)
{
	const size_t len = strlen(said);
	va_list arguments;

	va_start(arguments, format);
	vsnprintf(said + len, sizeof(said) - len, format, arguments);
	va_end(arguments);
	if (failure == NIZWARF_LATER)
		memset(ours, LATE, 4096);
	return failure;
}

/* The first parameters of most functions, an open file, and what is noted of them. */
#define REQ const nizwarf_req *req, uint64_t ino
#define FI const nizwarf_file_info *fi
#define INO ((void)req, (unsigned)ino)
#define FH ((unsigned)fi->fh)

/* A function that notes its name and arguments; NOTES_AND also evaluates an expression, which fills in the
 * answer. */
#define NOTES(name, parameters, ...) NOTES_AND((void)0, name, parameters, __VA_ARGS__)
#define NOTES_AND(fills_in, name, parameters, ...) \
	static int note_##name parameters          \
	{                                          \
		fills_in;                          \
		return say(#name " " __VA_ARGS__); \
	}

/* Serves what is in `request`: the functions that are called are these, with these arguments, and the reply
 * has this length. */
static inline void expect_of(const nizwarf_ops *table, int32_t code, size_t space, nizwarf_dirent *items,
			     size_t most, const char *words, size_t len)
{
	size_t reply_len;

	said[0] = 0;
	CHECK(nizwarf_serve_ops(table, said, &slot, &session, request, request_len, ours, space, items, most,
				&reply_len) == code);
	if (strcmp(said, words) || reply_len != len)
		fprintf(stderr, "%s, and %zu bytes\n", said, reply_len);
	CHECK(!strcmp(said, words) && reply_len == len);
}

#endif
