/* A transport over nizwarf_tree.h, which has a file system in memory: it passes an INIT, a MKDIR and a LOOKUP, and
 * checks the replies. A real transport takes requests from a queue, and must complete each one with the length that
 * nizwarf_server_handle returns.
 *
 * tests/c/test_libraries.py builds and runs it. Exit status: 0 if all checks succeed, 1 otherwise. */
#include <linux/fuse.h>
#include <stdio.h>
#include "nizwarf_tree.h"

/* Returns 1 from main if the fact is false. */
#define CHECK(fact)                                                                             \
	do {                                                                                    \
		if (!(fact)) {                                                                  \
			fprintf(stderr, "serve: line %d: check failed: %s\n", __LINE__, #fact); \
			return 1;                                                               \
		}                                                                               \
	} while (0)

int main(void)
{
	struct {
		struct fuse_in_header header;
		struct fuse_init_in body;
	} init = { .header = { .len = sizeof(init),
			       .opcode = FUSE_INIT,
			       .unique = 1 }, /* (minor 27 or later is required) */
		   .body = { .major = 7, .minor = 38, .flags = FUSE_DO_READDIRPLUS } };
	struct {
		struct fuse_in_header header;
		struct fuse_mkdir_in body;
	} make = { .header = { .len = sizeof(make) + 2, /* `+ 2`: the name and its NUL */
			       .opcode = FUSE_MKDIR,
			       .unique = 2,
			       .nodeid = FUSE_ROOT_ID },
		   .body = { .mode = 0755 } };
	struct fuse_in_header lookup = {
		.len = sizeof(lookup) + 2, .opcode = FUSE_LOOKUP, .unique = 3, .nodeid = FUSE_ROOT_ID
	};
	struct fuse_out_header header;
	struct fuse_init_out agreed;
	struct fuse_entry_out entry;
	nizwarf_server server = NIZWARF_SERVER_INIT;
	size_t len;

	/* INIT, with a reply buffer of two segments */
	const struct iovec asked[] = { { &init, sizeof(init) } };
	const struct iovec result[] = { { &header, sizeof(header) }, { &agreed, sizeof(agreed) } };

	/* (there is no server yet, and 100 bytes are too few for a page) */
	CHECK(nizwarf_server_handle(&server, asked, 1, result, 2, &len) == NIZWARF_NO_SERVER && len == 0);
	CHECK(nizwarf_server_new(&server, 100, 1 << 20, NULL) == NIZWARF_WRONG_SIZE);
	/* The page size and the largest payload, in bytes. */
	CHECK(nizwarf_server_new(&server, 4096, 1 << 20, NULL) == NIZWARF_OK);
	CHECK(nizwarf_server_handle(&server, asked, 1, result, 2, &len) == NIZWARF_OK && len == 80);
	CHECK(header.len == len && header.error == 0 && header.unique == 1 && agreed.minor == 38);
	/* (without FUSE_INIT_EXT only the 32 bits of `flags` are negotiated) */
	CHECK(nizwarf_server_options(&server) == agreed.flags && agreed.max_write == 1 << 20);

	/* MKDIR of `a`, 7 seconds after the epoch */
	const struct iovec made[] = { { &make, sizeof(make) }, { "a", 2 } };
	const struct iovec found[] = { { &header, sizeof(header) }, { &entry, sizeof(entry) } };

	/* (the program must set the time, because the library reads no clock) */
	CHECK(nizwarf_server_set_time(&server, 7, 0) == NIZWARF_OK);
	CHECK(nizwarf_server_handle(&server, made, 2, found, 2, &len) == NIZWARF_OK && len == 144);
	CHECK(header.len == len && header.error == 0 && header.unique == 2 && entry.nodeid == 2);
	CHECK(entry.attr.mode == 040755 && entry.attr.mtime == 7);

	/* LOOKUP of `a`, whose name lies in two segments, and then with a reply buffer that is too small */
	const struct iovec name[] = { { &lookup, sizeof(lookup) }, { "a", 1 }, { "", 1 } };

	CHECK(nizwarf_server_handle(&server, name, 3, found, 2, &len) == NIZWARF_OK && len == 144);
	CHECK(header.len == len && header.error == 0 && header.unique == 3 && entry.nodeid == 2);
	/* (the library does not count this lookup, because the client gets no entry) */
	CHECK(nizwarf_server_handle(&server, name, 3, found, 1, &len) == NIZWARF_ENCODE_MESSAGE && len == 0);
	CHECK(header.len == 144 && nizwarf_server_handle(NULL, name, 3, found, 2, &len) == NIZWARF_NULL);
	/* (the second call does nothing, because the first one has freed the server) */
	CHECK(nizwarf_server_free(&server) == NIZWARF_OK &&
	      nizwarf_server_free(&server) == NIZWARF_NO_SERVER);
	puts("INIT, MKDIR and LOOKUP succeeded.");
	return 0;
}
