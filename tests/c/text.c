/* Holds nizwarf_check, nizwarf_print_request and nizwarf_print_reply against their header, with the requests of a
 * file, whole and cut after each of their bytes: a check says what an ask does, and a line has its length,
 * is printable, and ends in a 0 within each memory.
 *
 * Usage: text LINES
 * LINES are those of a session, as crates/test_sessions/stdin has them; others than requests are left out.
 * test_libraries.py links it with --wrap=malloc, --wrap=realloc and --wrap=free. Status 0: all is as it
 * should be. */
#include <linux/fuse.h>
#include <string.h>
#include "allocations.h"
#include "nizwarf.h"
#include "recorded.h"
#define CASE "request %lu, %zu bytes\n", requests, length
#include "check.h"

enum { MOST = 1 << 16 }; /* bytes of a request */

static unsigned long requests, lines;
static size_t length; /* of the request that is held now */
static nizwarf_scratch slot = NIZWARF_SCRATCH_INIT;
static unsigned char space[(1 << 20) + 4096]; /* a room of the largest size */

/* A line in memory of each of some sizes is the beginning of the whole one, and nothing after it changes. `print`
 * writes the line of `of` as snprintf(3) does, and tells its whole length. */
static void hold_line(size_t (*print)(const void *of, char *text, size_t size), const void *of)
{
	const size_t len = print(of, NULL, 0), sizes[] = { 0, 1, 2, len / 2, len, len + 1, len + 9 };
	char *whole = malloc(len + 1);
	size_t i;

	CHECK(whole && print(of, whole, len + 1) == len && strlen(whole) == len && len > 0);
	for (i = 0; i < len; i++)
		CHECK(whole[i] >= ' ' && whole[i] <= '~'); /* a terminal obeys no byte of a message */
	for (i = 0; i < sizeof(sizes) / sizeof(*sizes); i++) {
		const size_t size = sizes[i], shown = size && size - 1 < len ? size - 1 : len;
		char *text = malloc(size + 1);

		CHECK(text);
		memset(text, 1, size + 1);
		CHECK(print(of, text, size) == len && text[size] == 1); /* the byte after the memory stays */
		if (size) {
			CHECK(!memcmp(text, whole, shown) && text[shown] == 0);
			CHECK(shown + 1 >= size || text[shown + 1] == 1);
		}
		free(text);
	}
	free(whole);
	lines++;
}

/* A request, what is taken for its reply, their lengths, and what was agreed on. */
struct messages {
	const void *request, *reply;
	size_t len, reply_len;
	uint64_t options;
};

/* The two lines that are held, in one form, so that both are tried with each size of the text. */
static size_t request_line(const void *of, char *text, size_t size)
{
	const struct messages *m = of;

	return nizwarf_print_request(m->request, m->len, m->options, text, size);
}

static size_t reply_line(const void *of, char *text, size_t size)
{
	const struct messages *m = of;

	return nizwarf_print_reply(m->request, m->len, m->reply, m->reply_len, text, size);
}

/* Holds a check against an ask with a room of this size. */
static void hold_check(const struct messages *m, size_t size)
{
	const nizwarf_session session = { m->options, 4096, 1 << 20 };
	const struct iovec piece = { (void *)(uintptr_t)m->request, m->len };
	const struct iovec room = { space, size };
	nizwarf_call call, checked;
	uint64_t interrupts;
	long before;
	nizwarf_result result;
	int32_t code;

	memset(&call, 0, sizeof(call)); /* so that both are equal in bytes that neither sets */
	memset(&checked, 0, sizeof(checked));
	code = nizwarf_decode(&slot, &session, 0, &piece, 1, &room, 1, &call, &result);
	before = asked;
	CHECK(nizwarf_check(&session, 0, m->request, m->len, size, &checked, &interrupts) == code);
	CHECK(!memcmp(&call, &checked, sizeof(call)) && interrupts == result.interrupts);
	/* (a check allocates for nothing else) */
	CHECK(asked == before || checked.opcode == NIZWARF_BATCH_FORGET ||
	      checked.has & NIZWARF_HAS_CONTEXT || code != NIZWARF_CALL);
}

/* (in memory of just its length, so that a sanitizer sees a byte read after it) */
static void hold(const unsigned char *request, size_t len, uint64_t options)
{
	static const size_t rooms[] = { 0, 15, 16, 79, 80, 4096, sizeof(space) };
	unsigned char *own = malloc(len ? len : 1);
	/* the reply is the request: bytes of no sense */
	const struct messages m = { own, request, len, len, options };
	size_t i;

	length = len;
	CHECK(own);
	memcpy(own, request, len);
	for (i = 0; i < sizeof(rooms) / sizeof(*rooms); i++)
		hold_check(&m, rooms[i]);
	hold_line(request_line, &m);
	hold_line(reply_line, &m);
	free(own);
}

/* What the words of an example say. */
static void hold_examples(void)
{
	static const char line[] = "LOOKUP unique=3 node=1 uid=0 gid=0 pid=77 name=\"a\\x1b\"";
	const struct fuse_in_header header = {
		.len = 43, .opcode = FUSE_LOOKUP, .unique = 3, .nodeid = 1, .pid = 77
	};
	const struct fuse_out_header refused = { .len = 16, .error = -2, .unique = 3 };
	unsigned char request[43];
	char text[100];

	memcpy(request, &header, sizeof(header));
	memcpy(request + 40, "a\x1b", 3);
	CHECK(nizwarf_print_request(request, 43, 0, text, sizeof(text)) == strlen(line) &&
	      !strcmp(text, line));
	CHECK(nizwarf_print_request(request, 43, 0, text, 7) == strlen(line) && !strcmp(text, "LOOKUP"));
	CHECK(nizwarf_print_request(NULL, 0, 0, text, sizeof(text)) == 21 &&
	      !strcmp(text, "refused=DecodeMessage"));
	nizwarf_print_reply(request, 43, &refused, sizeof(refused), text, sizeof(text));
	CHECK(!strcmp(text, "-> unique=3 error=ENOENT (2)"));
	nizwarf_print_reply(request, 43, NULL, 0, text, sizeof(text));
	CHECK(!strcmp(text, "-> no reply"));
	nizwarf_print_reply(request, 43, &refused, sizeof(refused) - 1, text, sizeof(text));
	CHECK(!strcmp(text, "-> refused=DecodeMessage"));
	CHECK(nizwarf_check(NULL, 0, request, 43, 0, NULL, NULL) == NIZWARF_NULL);
}

/* A request's line under these options has these words. */
static int has_words(const unsigned char *request, size_t len, uint64_t options, const char *words)
{
	char text[400];

	CHECK(nizwarf_print_request(request, len, options, text, sizeof(text)) < sizeof(text));
	return strstr(text, words) != NULL;
}

/* What is printed goes by each option that changes what a request's bytes mean: SETXATTR_EXT (bit 29) its record,
 * SECURITY_CTX (bit 32) and CREATE_SUPP_GROUP (bit 34) what is after a name. */
static void hold_options(void)
{
	/* (blocks as in codec-cases.c) */
	static const uint32_t group[] = { 16, 32, 1, 4242 }, context[] = { 32, 1, 5, 0 };
	static const uint32_t set[] = { 5, 0, 1, 0 };
	const uint64_t ext = UINT64_C(1) << 29, contexts = UINT64_C(1) << 32, groups = UINT64_C(1) << 34;
	struct fuse_in_header header = { .len = 98, .opcode = FUSE_MKDIR, .unique = 3, .nodeid = 1 };
	unsigned char request[98] = { 0 };

	memcpy(request, &header, sizeof(header));
	memcpy(request + 48, "a", 2);
	memcpy(request + 50, group, sizeof(group));
	memcpy(request + 66, context, sizeof(context));
	memcpy(request + 82, "security.x", 11);
	memcpy(request + 93, "value", 5);
	CHECK(has_words(request, 98, contexts | groups, "security.x"));
	CHECK(has_words(request, 98, contexts | groups, "4242"));
	CHECK(has_words(request, 98, ~contexts, "refused=DecodeMessage"));
	CHECK(has_words(request, 98, ~groups, "refused=DecodeMessage"));
	CHECK(!has_words(request, 98, ~(contexts | groups), "security.x"));
	CHECK(!has_words(request, 98, ~(contexts | groups), "refused"));
	header.len = 68;
	header.opcode = FUSE_SETXATTR;
	memcpy(request, &header, sizeof(header));
	memcpy(request + 40, set, sizeof(set));
	memcpy(request + 56, "user.a", 7);
	memcpy(request + 63, "value", 5);
	CHECK(has_words(request, 68, ext, "name=\"user.a\""));
	CHECK(has_words(request, 68, ~ext, "refused=InvalidXattrSize"));
}

int main(int count, char **words)
{
	static unsigned char request[MOST];
	static char line[8 * MOST];
	static const uint64_t options[] = { 0, ~UINT64_C(0) };
	FILE *file = count == 2 ? fopen(words[1], "r") : NULL;
	size_t len, i, at, cut;

	if (!file)
		return fputs("Usage: text LINES\n", stderr), 2;
	hold_examples();
	hold_options();
	while (fgets(line, sizeof(line), file)) {
		len = read_request(line, request, MOST, &cut);
		if (!len || requests++ % 16) /* one of sixteen, of which there are enough */
			continue;
		for (i = 0; i < 2; i++)
			for (at = len < 200 ? 0 : len; at <= len; at++) /* a long one is not cut */
				hold(request, at, options[i]);
	}
	fclose(file);
	nizwarf_scratch_free(&slot);
	CHECK(requests > 0 && live == 0);
	printf("%lu lines of messages, and a check as each ask.\n", lines);
	return 0;
}
