/* How tests/c/codec.c and tests/c/codec-cases.c make requests, ask and answer. */
#ifndef C_CODEC_H
#define C_CODEC_H

#include <linux/fuse.h>
#include "codec-call.h"
#define CASE "opcode %u, length %zu\n", (unsigned)u32(request + 4), request_len
#include "check.h"
#include "nizwarf_tree.h"

/* The largest room, in bytes; and what is in a room before, so that it shows what was written. */
enum { ROOM = 1 << 20, FILL = 0xaa };

/* The server over the tree; and what the codec is asked with, which holds what the server agreed on. */
static nizwarf_server server = NIZWARF_SERVER_INIT;
static nizwarf_session session = { 0, 4096, ROOM };
static nizwarf_scratch slot = NIZWARF_SCRATCH_INIT;

/* The request, and the replies of the server and of the codec. */
static uint8_t request[1 << 17], theirs[ROOM], ours[ROOM];
static size_t request_len;
static uint64_t unique; /* of the last request */

/* Begins a request, whose header lacks its length until something is added, be it nothing. */
static inline void begin(uint32_t opcode, uint64_t node)
{
	const struct fuse_in_header header = {
		.opcode = opcode, .unique = ++unique, .nodeid = node, .uid = 1000, .gid = 1001, .pid = 77
	};

	memcpy(request, &header, sizeof(header));
	request_len = sizeof(header);
}

/* Adds bytes, for which there is room, and says the length in the header. */
static inline void add(const void *bytes, size_t len)
{
	const uint32_t total = (uint32_t)(request_len + len);

	memcpy(request + request_len, bytes, len);
	request_len += len;
	memcpy(request, &total, sizeof(total));
}

static inline void add_name(const char *name)
{
	add(name, strlen(name) + 1);
}

/* Begins a request with a record. Of nobody's right to anything: the codec judges none. */
static inline void begin_with(uint32_t opcode, uint64_t node, const void *record, size_t len)
{
	begin(opcode, node);
	add(record, len);
}

/* Whether an entry was answered. */
static inline int has_entry(const nizwarf_call *call, const nizwarf_answer *answer)
{
	return !answer->error && (call->reply == NIZWARF_REPLY_ENTRY || call->reply == NIZWARF_REPLY_CREATE);
}

/* Asks, and holds what comes of it against the rules, and against the server where it is finished. `len` is that of
 * all pieces, of which `request` has the bytes. */
static inline int32_t ask(const struct iovec *pieces, size_t count, size_t len, size_t space,
			  nizwarf_call *call, nizwarf_result *result)
{
	static const nizwarf_call none;
	const size_t first = space / 3;
	const struct iovec rooms[] = { { ours, first }, { ours + first, space - first } };
	const struct iovec their_room = { theirs, space };
	nizwarf_call expected;
	uint64_t interrupts = 0;
	int32_t code;
	size_t their_len;

	/* (what stays 1 was not set) */
	memset(call, 1, sizeof(*call));
	memset(result, 1, sizeof(*result));
	memset(ours, FILL, space < 4096 ? space : 4096);
	code = nizwarf_decode(&slot, &session, 0, pieces, count, rooms, 2, call, result);
	/* (an ask changes no options, and so far nothing is to be given back) */
	CHECK(result->options == session.options && !result->forget && !result->entries);
	if (code == NIZWARF_CALL) {
		expected = call_of(request, len, session.options, space);
		CHECK(!memcmp(call, &expected, sizeof(expected)));
		CHECK(!result->len && !result->written && !result->interrupts);
		return code;
	}
	/* (finished, or refused: the server does the same, and has no call) */
	CHECK(code == nizwarf_server_handle(&server, pieces, count, &their_room, 1, &their_len));
	CHECK(result->len == their_len && result->written == their_len && !memcmp(ours, theirs, their_len));
	CHECK(!memcmp(call, &none, sizeof(none)));
	/* (40 is where the header ends; what has a reply was refused) */
	if (len >= 48 && u32(request + 4) == INTERRUPT && !their_len)
		interrupts = u64(request + 40);
	CHECK(result->interrupts == interrupts);
	/* (no byte after the reply was written) */
	CHECK(their_len >= space || their_len >= 4096 || ours[their_len] == FILL);
	return code;
}

/* Answers what was asked, in a room of three pieces. */
static inline int32_t reply(const nizwarf_call *call, const nizwarf_answer *answer, size_t cut,
			    nizwarf_result *result)
{
	const size_t first = cut < call->reply_size ? cut : call->reply_size; /* the second piece is empty */
	const struct iovec rooms[] = { { ours, first },
				       { ours, 0 },
				       { ours + first, call->reply_size - first } };

	memset(result, 1, sizeof(*result));
	return nizwarf_encode(&slot, &session, call, answer, rooms, 3, result);
}

#endif
