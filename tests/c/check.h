/* The check of a test. */
#ifndef C_CHECK_H
#define C_CHECK_H

#include <stdio.h>
#include <stdlib.h>

/* Which case it is, as arguments of printf(3): a file may define its own before it includes this. */
#ifndef CASE
#define CASE "%s\n", __func__
#endif

/* Ends the program with status 1 if a fact does not hold. */
#define CHECK(fact)                                                                              \
	do {                                                                                     \
		if (!(fact)) {                                                                   \
			fprintf(stderr, "%s, line %d: not %s, in: ", __FILE__, __LINE__, #fact); \
			fprintf(stderr, CASE);                                                   \
			exit(1);                                                                 \
		}                                                                                \
	} while (0)

#endif
