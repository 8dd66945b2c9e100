/* Holds what INIT agrees on besides, and backing files, against the structs of the kernel's header: whose options
 * are agreed on, how far each number goes, and which replies stay as they are. Status 0: all is as it should be. */
#include <errno.h>
#include <linux/fuse.h>
#include <string.h>
#include "nizwarf.h"
#include "check.h"

/* Those that a header of 7.38 has not. */
#define EXPIRE_ONLY (UINT64_C(1) << 35)
#define PASSTHROUGH (UINT64_C(1) << 37)
#define NO_EXPORT_SUPPORT (UINT64_C(1) << 38)
#define RESEND (UINT64_C(1) << 39)
#define OVER_IO_URING (UINT64_C(1) << 41)
#define REQUEST_TIMEOUT (UINT64_C(1) << 42)
#define ALL (EXPIRE_ONLY | PASSTHROUGH | NO_EXPORT_SUPPORT | RESEND | OVER_IO_URING | REQUEST_TIMEOUT)
enum { FOPEN_PASSED = 1 << 7 };

/* struct fuse_init_out of 7.43. (older headers have the last fields as unused bytes) */
struct init_out {
	uint32_t major, minor, max_readahead, flags;
	uint16_t max_background, congestion_threshold;
	uint32_t max_write, time_gran;
	uint16_t max_pages, map_alignment;
	uint32_t flags2, max_stack_depth;
	uint16_t request_timeout, unused[11];
};

_Static_assert(sizeof(struct init_out) == sizeof(struct fuse_init_out), "as long as it always was");

struct request {
	struct fuse_in_header header;
	struct fuse_init_in init;
};

struct reply {
	struct fuse_out_header header;
	struct init_out init;
};

/* Which of the options besides are offered by the first `len` bytes of an INIT. */
static uint64_t offered(const struct request *request, size_t len)
{
	return nizwarf_init_capable_at((const uint8_t *)request, len);
}

/* Options besides are bits of `flags2`, from 32 on, and count with INIT_EXT alone. */
static void hold_offered(void)
{
	struct request request = { { .len = sizeof(request), .opcode = FUSE_INIT },
				   { 7, 45, 0, FUSE_INIT_EXT, UINT32_MAX, { 0 } } };
	size_t len;
	int bit;

	CHECK(offered(&request, sizeof(request)) == ALL);
	for (len = 0; len < sizeof(request); len++) /* cut short, it offers none */
		CHECK(offered(&request, len) == 0);
	/* (each bit alone: only those that are known count) */
	for (bit = 32; bit < 64; bit++) {
		request.init.flags2 = 1U << (bit - 32);
		CHECK(offered(&request, sizeof(request)) == (ALL & UINT64_C(1) << bit));
	}
	request.init.flags2 = UINT32_MAX;
	request.init.flags = ~(uint32_t)FUSE_INIT_EXT; /* without it `flags2` isn't looked at */
	CHECK(offered(&request, sizeof(request)) == 0);
	request.init.flags = FUSE_INIT_EXT;
	request.header.opcode = FUSE_GETATTR; /* no INIT */
	CHECK(offered(&request, sizeof(request)) == 0);
}

/* A reply that agrees on INIT_EXT, as the library puts it. */
static struct reply agreed(void)
{
	const struct reply reply = {
		{ sizeof(reply), 0, 9 },
		{ 7, 38, 1 << 17, FUSE_INIT_EXT, 65535, 49149, 1 << 20, 1, 256, 0, 1, 0, 0, { 0 } }
	};

	return reply;
}

/* Adds to a reply what `more` wants of what is offered besides (`further`); tells which options were agreed on. */
static uint64_t add(struct reply *reply, uint64_t further, const nizwarf_init_params *more)
{
	return nizwarf_add_to_init_at((uint8_t *)reply, sizeof(*reply), further, more);
}

/* Whether what was added is this, and else the reply is what it was. */
static int is_added(struct reply reply, const struct reply *wanted, uint64_t further,
		    const nizwarf_init_params *more, uint64_t on)
{
	return add(&reply, further, more) == on && !memcmp(&reply, wanted, sizeof(reply));
}

/* Each number that is wanted, in the field of its own, and 0, which leaves what the reply has. */
static void hold_numbers(void)
{
	const nizwarf_init_params none = { 0 };
	/* (want, max_readahead, max_write, time_gran, max_stack_depth, request_timeout, max_background,
	 * congestion_threshold) */
	nizwarf_init_params more = { ALL, 1 << 16, 1, 1000, 2, 100000, 12, 9, 0 };
	struct reply reply = agreed(), wanted = reply;

	CHECK(is_added(reply, &wanted, ALL, &none, 0));
	wanted.init.flags2 |= (uint32_t)(ALL >> 32);
	wanted.init.max_readahead = 1 << 16;
	wanted.init.max_write = 4096; /* 1 was wanted: a page is the least */
	wanted.init.time_gran = 1000;
	wanted.init.max_stack_depth = 2;
	wanted.init.request_timeout = 65535; /* of 100,000 seconds: the most of 16 bits */
	wanted.init.max_background = 12;
	wanted.init.congestion_threshold = 9;
	CHECK(is_added(reply, &wanted, UINT64_MAX, &more, ALL));
	/* none is more than the reply says, and of what is not offered nothing is said */
	more.max_readahead = more.max_write = UINT32_MAX;
	wanted.init.max_readahead = 1 << 17;
	wanted.init.max_write = 1 << 20;
	wanted.init.flags2 = 1 | (uint32_t)(RESEND >> 32); /* 1 is what the reply had */
	wanted.init.max_stack_depth = wanted.init.request_timeout = 0;
	CHECK(is_added(reply, &wanted, RESEND, &more, RESEND));
	/* a reply without INIT_EXT agrees on none, which are in `flags2` */
	reply.init.flags = wanted.init.flags = 0;
	wanted.init.flags2 = 1;
	CHECK(is_added(reply, &wanted, ALL, &more, 0));
}

/* Replies to which nothing is added: one that is an error, that says another length, that agrees on nothing, or that
 * is cut. */
static void hold_others(void)
{
	const nizwarf_init_params more = { ALL, 0, 0, 1000, 2, 60, 12, 9, 0 };
	struct reply reply = agreed(), was;
	size_t len;

	reply.header.error = -EIO;
	CHECK(is_added(reply, &reply, ALL, &more, 0));
	reply = agreed();
	reply.header.len = 79;
	CHECK(is_added(reply, &reply, ALL, &more, 0));
	reply = (struct reply){ { sizeof(reply), 0, 9 }, { .major = 7, .minor = 38 } };
	CHECK(is_added(reply, &reply, ALL, &more, 0));
	reply = was = agreed();
	for (len = 0; len < sizeof(reply); len++)
		CHECK(nizwarf_add_to_init_at((uint8_t *)&reply, len, ALL, &more) == 0 &&
		      !memcmp(&reply, &was, sizeof(was)));
}

/* A reply to OPEN, or with an entry before to CREATE, names a backing file in its last four bytes. `entry` is how
 * many bytes of an entry there are: 0 with OPEN. */
static void hold_backing(size_t entry)
{
	struct fuse_out_header header = { .unique = 9 };
	const struct fuse_open_out opened = { .fh = 3, .open_flags = FOPEN_KEEP_CACHE };
	uint8_t reply[16 + 128 + 16] = { 0 }, was[sizeof(reply)];
	const size_t len = 16 + entry + 16;
	const int32_t id = -2; /* any 32 bits */
	uint32_t flags;
	size_t cut;

	header.len = (uint32_t)len;
	memset(reply + 16, 7, entry);
	memcpy(reply, &header, 16);
	memcpy(reply + len - 16, &opened, 16);
	memcpy(was, reply, sizeof(was));
	for (cut = 0; cut < len; cut++)
		CHECK(nizwarf_add_backing_at(reply, cut, id) == 0 && !memcmp(reply, was, sizeof(was)));
	CHECK(nizwarf_add_backing_at(reply, len, id) == 1 && !memcmp(reply, was, len - 8));
	memcpy(&flags, reply + len - 8, 4);
	CHECK(flags == (FOPEN_KEEP_CACHE | FOPEN_PASSED) && !memcmp(reply + len - 4, &id, 4));
	header.error = -ENOENT; /* an error names no file */
	memcpy(was, &header, 16);
	memcpy(reply, was, sizeof(was));
	CHECK(nizwarf_add_backing_at(reply, len, id) == 0 && !memcmp(reply, was, sizeof(was)));
}

int main(void)
{
	hold_offered();
	hold_numbers();
	hold_others();
	hold_backing(0);
	hold_backing(sizeof(struct fuse_entry_out));
	puts("INIT agrees on what is offered and wanted besides, and replies name backing files.");
	return 0;
}
