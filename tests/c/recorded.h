/* Requests in a file, for tests/c/codec.c and tests/c/text.c: a line has a number, a blank, and the bytes as
 * two digits each, with a `+` between pieces, as crates/test_sessions/stdin has them. */
#ifndef C_RECORDED_H
#define C_RECORDED_H

#include <stdint.h>
#include <stdio.h>
#include <string.h>

/* Reads the bytes of a line's request, up to `most`, and returns how many these are; 0, where the line has
 * none. `*cut` is the length of the first piece, or 0, where the request is in one piece. */
static inline size_t read_request(const char *line, uint8_t *request, size_t most, size_t *cut)
{
	const char *at = strchr(line, ' ');
	unsigned byte;
	size_t len = 0;

	*cut = 0;
	if (*line < '0' || *line > '9' || !at)
		return 0;
	for (at++; len < most && (*at == '+' || sscanf(at, "%2x", &byte) == 1); at++) {
		if (*at == '+') {
			*cut = *cut ? *cut : len;
			continue;
		}
		request[len++] = (uint8_t)byte;
		at++;
	}
	return len;
}

#endif
