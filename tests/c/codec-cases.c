/* Cases of the codec of nizwarf.h that no server over the tree shows, with replies by hand: what the
 * tree doesn't agree on, limits, counts and errors that can't be, what is given back, calls that
 * were not asked, and allocations that are refused.
 *
 * test_libraries.py links it with both libraries, and --wrap=malloc, --wrap=realloc and
 * --wrap=free. Status 0: all is as it should be, and no memory is left. */
#include <errno.h>
#include "allocations.h"
#include "codec.h"

static uint8_t text[ROOM];

/* The last call, and the results of the last function of the codec. */
static nizwarf_call call;
static nizwarf_result result;

/* Decodes a request in two pieces, and compares the call with the one that the rules have. `space` is the
 * length of the reply buffer, and the first piece has `cut` bytes at most. */
static void ask_call(size_t space, size_t cut)
{
	const size_t first = cut < request_len ? cut : request_len;
	const struct iovec pieces[] = { { request, first }, { request + first, request_len - first } };

	CHECK(ask(pieces, 2, request_len, space, &call, &result) == NIZWARF_CALL);
}

/* The same of a request of a record and a name, if there is one, in one piece. */
static void ask_for(uint32_t opcode, uint64_t node, const void *record, size_t len, const char *name,
		    size_t space)
{
	begin_with(opcode, node, record, len);
	if (name)
		add_name(name);
	ask_call(space, 0);
}

/* Whether the reply is the error of this number, and nothing else. (a header alone: 16 bytes, of which 4 to 7 are the
 * error below 0) */
static int has_error(int error)
{
	return result.len == 16 && result.written == 16 && u32(ours) == 16 &&
	       (int32_t)u32(ours + 4) == -error && u64(ours + 8) == unique;
}

/* Replies to the call with a success, of which the reply has this length; or with this error. */
#define EXPECT_REPLY(answer, cut, reply_len) \
	CHECK(reply(&call, answer, cut, &result) == NIZWARF_OK && result.len == (reply_len))
#define EXPECT_ERROR(answer, cut, error) \
	CHECK(reply(&call, answer, cut, &result) == NIZWARF_OK && has_error(error))

/* A request that makes a name, with a security context, and a group in front of it or after it. */
static void begin_maker(uint32_t opcode, int group_first)
{
	/* Blocks of extensions, as fuse_ext_header has them: how many bytes, the kind (below 32 a number of security
	 * contexts), and then what the kind says: one group; or the length of a value, padding, a name and the
	 * value. */
	static const uint32_t group[] = { 16, 32, 1, 4242 }, context[] = { 30, 1, 5, 0 };
	static const uint8_t record[16];

	/* (of zeros, as long as the opcode's) */
	begin_with(opcode, 1, record, forms[opcode].record);
	add_name("name");
	if (opcode == NIZWARF_SYMLINK)
		add_name("text");
	add(group, group_first ? sizeof(group) : 0);
	add(context, sizeof(context));
	add_name("security");
	add("value", 5);
	add(group, group_first ? 0 : sizeof(group));
}

/* One of those, in two pieces. */
static void ask_maker(uint32_t opcode, size_t cut)
{
	const nizwarf_answer answer = { .entry = { .node = 5 }, .has_handle = 1, .handle = 6 };
	const size_t len = opcode == NIZWARF_CREATE ? 160 : 144; /* of the reply: an entry, and a handle */

	ask_call(4096, cut);
	CHECK(call.group == 4242 && call.context.len == 5);
	CHECK(!memcmp(request + call.context.at, "value", 5));
	CHECK(!memcmp(request + call.context_name.at, "security", 9));
	CHECK(!memcmp(request + call.name.at, "name", 5));
	CHECK(!reply(&call, &answer, cut, &result) && result.len == len);
	CHECK(u64(ours + 16) == 5 && (len < 160 || u64(ours + 144) == 6));
	CHECK(result.options == session.options);
}

/* Security contexts and groups, which the tree does not agree on, in each cutting. */
static void extensions(void)
{
	static const uint32_t makers[] = { NIZWARF_SYMLINK, NIZWARF_MKNOD, NIZWARF_MKDIR, NIZWARF_CREATE };
	size_t i, cut;

	session.options = SECURITY_CTX | CREATE_SUPP_GROUP;
	for (i = 0; i < 8; i++) {
		begin_maker(makers[i / 2], i & 1);
		for (cut = 0; cut <= request_len; cut++)
			ask_maker(makers[i / 2], cut);
	}
	session.options = 0;
}

/* What a block of security contexts is refused with, or NIZWARF_CALL. `size` is the block's, with its header. */
static int32_t code_of_context(const uint8_t *block, size_t size, uint32_t type)
{
	const uint8_t *end;

	if (type > 1 || (type == 1 && (size < 16 || !u32(block + 8))))
		return NIZWARF_DECODE_MESSAGE;
	if (type == 0)
		return NIZWARF_CALL;
	if (size == 16) /* no byte for a name */
		return NIZWARF_MISSING_PARAMETER;
	end = memchr(block + 16, 0, size - 16);
	if (!end || u32(block + 8) > (size_t)(block + size - end - 1))
		return NIZWARF_DECODE_MESSAGE;
	return NIZWARF_CALL;
}

/* What the extensions between two places are refused with, or NIZWARF_CALL: contexts and groups
 * are agreed on. */
static int32_t code_of_extensions(const uint8_t *at, const uint8_t *end)
{
	int contexts = 0, groups = 0;

	/* (a block's length was looked at in the round before) */
	for (; at < end; at += u32(at)) {
		const size_t left = (size_t)(end - at);
		uint32_t size, type;
		int32_t code = NIZWARF_CALL;

		if (left < 8 || u32(at) > left)
			return NIZWARF_DECODE_MESSAGE;
		size = u32(at);
		type = u32(at + 4);
		if (size < 8)
			return NIZWARF_INVALID_HEADER_LENGTH;
		/* (a second block of one kind is refused) */
		if (type < 32 && !contexts++)
			code = code_of_context(at, size, type);
		else if (type != 32 || groups++ || size < 16 || u32(at + 8) != 1)
			code = NIZWARF_DECODE_MESSAGE;
		if (code != NIZWARF_CALL)
			return code;
	}
	/* (contexts must be there where they are agreed on, be it none; a group need not) */
	return contexts ? NIZWARF_CALL : NIZWARF_MISSING_EXTENSION;
}

/* What the first bytes of a request that makes a name are refused with: NIZWARF_OK where its `len` is above the
 * limit, which is answered, and NIZWARF_CALL where it is a call. The order is that of docs/PROTOCOL.md. */
static int32_t code_of_maker(size_t len)
{
	const uint32_t opcode = u32(request + 4), total = u32(request);
	const uint8_t *name = request + 40 + forms[opcode].record, *end = request + total;
	const uint8_t *zero;
	int32_t code;

	if (len < 40)
		return NIZWARF_DECODE_MESSAGE;
	if (total > ROOM + 4096) /* more than the largest payload and its header */
		return NIZWARF_OK;
	if (len < 40u + forms[opcode].record)
		return NIZWARF_DECODE_MESSAGE;
	if (total < 40u + forms[opcode].record)
		return NIZWARF_INVALID_HEADER_LENGTH;
	if (total > len)
		return NIZWARF_DECODE_MESSAGE;
	if (opcode == NIZWARF_SYMLINK) {
		name = memchr(name, 0, (size_t)(end - name));
		if (!name++) /* the link's text has no 0 */
			return NIZWARF_MISSING_PARAMETER;
	}
	if (name == end)
		return NIZWARF_MISSING_PARAMETER;
	/* (without one all is the name, and there are no extensions) */
	zero = memchr(name, 0, (size_t)(end - name));
	code = code_of_extensions(zero ? zero + 1 : end, end);
	return code == NIZWARF_CALL && !zero ? NIZWARF_INVALID_C_STRING : code;
}

/* The first bytes of such a request, in two pieces, by those rules. (not by ask(): the server over the tree agrees on
 * none of this) */
static void ask_hostile(size_t len, size_t cut)
{
	const struct iovec pieces[] = { { request, cut }, { request + cut, len - cut } };
	const struct iovec room = { ours, 4096 };
	const int32_t expected_code = code_of_maker(len);
	nizwarf_call expected;

	CHECK(nizwarf_decode(&slot, &session, 0, pieces, 2, &room, 1, &call, &result) == expected_code);
	if (expected_code == NIZWARF_OK)
		CHECK(has_error(ENOMEM));
	if (expected_code != NIZWARF_CALL)
		return;
	expected = call_of(request, len, session.options, 4096);
	CHECK(!memcmp(&call, &expected, sizeof(expected)));
}

/* Extensions that are cut short, or have bytes changed, of each request that has some. */
static void hostile_extensions(void)
{
	static const uint32_t makers[] = { NIZWARF_SYMLINK, NIZWARF_MKNOD, NIZWARF_MKDIR, NIZWARF_CREATE };
	size_t i, n, len;

	session.options = SECURITY_CTX | CREATE_SUPP_GROUP;
	for (i = 0; i < 8; i++) {
		begin_maker(makers[i / 2], i & 1);
		len = request_len;
		for (n = 0; n <= len; n++) {
			ask_hostile(n, n / 2);
			/* (and so cut that it says so itself) */
			memcpy(request, &(uint32_t){ (uint32_t)n }, 4);
			ask_hostile(len, n);
			begin_maker(makers[i / 2], i & 1);
		}
		/* (mostly a byte after the header, else one of the length; up to four changes add up) */
		for (n = 0; n < 20000; n++) {
			const size_t at = rand() % 4 ? 40 + (size_t)rand() % (len - 40) : (size_t)rand() % 4;

			request[at] = (uint8_t)(rand() % 2 ? rand() % 4 : 1 << rand() % 8);
			ask_hostile(len, (size_t)rand() % len);
			if (n % 4 == 0)
				begin_maker(makers[i / 2], i & 1);
		}
	}
	session.options = 0;
}

/* The longer record of a SETXATTR, which the tree does not agree on. */
static void longer_record(void)
{
	const uint32_t record[] = { 5, 1, 3, 0 }; /* the value's length, flags, more flags, padding */
	size_t cut;

	session.options = SETXATTR_EXT;
	for (cut = 0; cut < 80; cut++) {
		begin_with(NIZWARF_SETXATTR, 2, record, sizeof(record));
		add_name("user.a");
		add("value", 5);
		ask_call(64, cut);
		CHECK(nizwarf_setxattr_ext_flags(&call) == 1 && call.flags == 1 && call.data.len == 5);
		CHECK(!memcmp(request + call.data.at, "value", 5));
	}
	session.options = 0;
}

/* The request as it is asked for a call, or answered ENOMEM without one. (the request has a room for 8192 bytes) */
static void ask_bounded(int fits)
{
	const struct iovec piece = { request, request_len };
	int32_t code = ask(&piece, 1, request_len, 8192, &call, &result);

	CHECK(code == (fits ? NIZWARF_CALL : NIZWARF_OK));
	CHECK(fits || has_error(ENOMEM));
}

/* What the largest payload of a session bounds, 4096 bytes: that many are asked for, and one more
 * isn't. */
static void limits(void)
{
	uint32_t over; /* how many bytes above the bound */

	CHECK(nizwarf_server_new(&server, 4096, 4096, NULL) == NIZWARF_OK);
	session.max_buffer = 4096;
	for (over = 0; over < 2; over++) {
		const struct fuse_read_in read = { .size = 4096 + over };
		/* padding after each */
		const uint32_t size[] = { 4096 + over, 0 }, count[] = { 4096 / 16 + over, 0 };
		const uint32_t len = 8192 + over;

		begin_with(NIZWARF_READDIR, 1, &read, sizeof(read));
		ask_bounded(!over);
		begin_with(READDIRPLUS, 1, &read, sizeof(read));
		ask_bounded(!over);
		begin_with(NIZWARF_LISTXATTR, 1, size, sizeof(size));
		ask_bounded(!over);
		begin_with(NIZWARF_GETXATTR, 1, size, sizeof(size));
		add_name("user.a");
		ask_bounded(!over);
		begin_with(NIZWARF_BATCH_FORGET, 0, count, sizeof(count));
		add(text, 16 * count[0]);
		ask_bounded(!over);
		begin(NIZWARF_STATFS, 1);
		/* (it says so alone; what lacks is found later) */
		memcpy(request, &len, sizeof(len));
		ask_bounded(!over);
		/* (a READ and a WRITE are served, however long they are) */
		begin_with(NIZWARF_READ, 1, &read, sizeof(read));
		ask_bounded(1);
	}
	session.max_buffer = ROOM;
	CHECK(nizwarf_server_new(&server, 4096, ROOM, NULL) == NIZWARF_OK);
}

/* A READ of 4096 bytes with a reply buffer of this length gets that many bytes of data. Of a READ the codec
 * puts the header alone. `reply_len` is the length of the reply, or 0, where the count is too large and the
 * reply is EIO. */
static void read_count(size_t space, uint64_t count, size_t reply_len)
{
	const struct fuse_read_in read = { .size = 4096 };
	const nizwarf_answer answer = { .count = count };

	ask_for(NIZWARF_READ, 2, &read, sizeof(read), NULL, space);
	CHECK(nizwarf_read_max(&call) == space - 16);
	memset(ours, FILL, space);
	CHECK(reply(&call, &answer, 20, &result) == NIZWARF_OK && !result.forget);
	CHECK(reply_len ? result.len == reply_len && result.written == 16 && u32(ours) == reply_len &&
				  !u32(ours + 4) :
			  has_error(EIO));
	CHECK(space == 16 || ours[16] == FILL);
}

/* Counts that can be, and such that can't. */
static void counts(void)
{
	const struct fuse_write_in write = { .size = 4 };
	const uint32_t record[] = { 0, 0 };
	/* (one more than the 32 bits of a WRITE's reply say) */
	nizwarf_answer answer = { .count = UINT64_C(1) << 32, .has_count = 1 };

	read_count(8192, 4096, 4112);
	read_count(1000, 984, 1000);
	read_count(16, 0, 16);
	read_count(8192, 4097, 0);
	read_count(1000, 985, 0); /* one more than there is room for */
	read_count(8192, UINT64_MAX, 0);
	begin_with(NIZWARF_WRITE, 2, &write, sizeof(write));
	add("data", 4);
	ask_call(64, 0);
	EXPECT_ERROR(&answer, 0, EIO);
	answer.count--;
	EXPECT_REPLY(&answer, 0, 24);
	CHECK(u32(ours + 16) == UINT32_MAX && !u32(ours + 20));
	ask_for(NIZWARF_LISTXATTR, 2, record, sizeof(record), NULL, 64);
	EXPECT_REPLY(&answer, 0, 24);
	answer.count++;
	EXPECT_ERROR(&answer, 0, EIO);
}

/* Errors: a number that Linux takes, others, and 0 where there must be one. */
static void errors(void)
{
	/* (INT32_MIN has no number above 0) */
	static const int32_t wrong[] = { NIZWARF_MAX_ERRNO + 1, INT32_MAX, -1, INT32_MIN };
	const nizwarf_answer none = NIZWARF_ANSWER_INIT;
	nizwarf_answer answer = { .error = NIZWARF_MAX_ERRNO };

	ask_for(NIZWARF_STATFS, 1, "", 0, NULL, 96);
	EXPECT_ERROR(&answer, 3, NIZWARF_MAX_ERRNO);
	for (size_t i = 0; i < sizeof(wrong) / sizeof(*wrong); i++) {
		answer.error = wrong[i];
		EXPECT_ERROR(&answer, 3, EIO);
	}
	EXPECT_ERROR(&none, 3, EIO);
	ask_for(NIZWARF_TMPFILE, 1, "", 0, NULL, 16);
	answer = none;
	answer.error = 0;
	EXPECT_ERROR(&answer, 3, EIO);
	/* (it has no reply, and ends what was agreed on) */
	session.options = KNOWN_OPTIONS;
	ask_for(NIZWARF_DESTROY, 1, "", 0, NULL, 0);
	answer.error = EIO;
	CHECK(reply(&call, &answer, 0, &result) == NIZWARF_OK && !result.len && !result.options);
	session.options = 0;
}

/* Options are agreed on also where the reply to INIT doesn't fit; a fault leaves them. */
static void options(void)
{
	const struct fuse_init_in init = { .major = 7, .minor = 38, .flags = UINT32_MAX };
	nizwarf_answer answer = { .count = FUSE_DO_READDIRPLUS | FUSE_POSIX_ACL };
	/* (those, and what the server has by itself of what is offered) */
	const uint64_t agreed = 0x10448449829 & UINT32_MAX; /* the client offers no more than 32 */
	size_t space;

	begin_with(NIZWARF_INIT, 0, &init, sizeof(init));
	for (space = 0; space < 81; space++) { /* the reply has 80 bytes */
		session.options = FUSE_WRITEBACK_CACHE;
		ask_call(space, 50);
		CHECK(reply(&call, &answer, 9, &result) == (space < 80 ? NIZWARF_ENCODE_MESSAGE : 0));
		CHECK(result.options == (agreed | answer.count) && result.len == (space < 80 ? 0 : 80));
	}
	answer.error = EDOM;
	EXPECT_ERROR(&answer, 9, EDOM);
	CHECK(result.options == FUSE_WRITEBACK_CACHE);
	session.options = 0;
}

/* Long texts, and nanoseconds beyond a second. */
static void long_answers(void)
{
	/* (with the header one more than 32 bits say: there aren't as many bytes) */
	static const nizwarf_answer long_text = { .text = text, .text_len = UINT32_MAX - 15 };
	static const nizwarf_answer long_time = {
		.entry = { .node = 3, .entry_nanoseconds = UINT32_MAX, .attr_nanoseconds = 1000000000 }
	};
	static const struct fuse_getattr_in getattr;
	static const uint32_t size[] = { 4096, 0 }; /* and padding */
	nizwarf_answer answer = { .text = text, .text_len = sizeof(text) - 16 };

	ask_for(NIZWARF_READLINK, 2, "", 0, NULL, ROOM);
	memset(text, 'x', sizeof(text));
	EXPECT_REPLY(&answer, 9, ROOM);
	CHECK(result.written == ROOM && u32(ours) == ROOM && !memcmp(ours + 16, text, ROOM - 16));
	answer.text_len++;
	CHECK(reply(&call, &answer, 9, &result) == NIZWARF_ENCODE_MESSAGE && !result.len && !result.written);
	/* (so long a text is not looked at) */
	EXPECT_ERROR(&long_text, 9, ERANGE);
	ask_for(NIZWARF_LISTXATTR, 2, size, sizeof(size), NULL, ROOM);
	EXPECT_ERROR(&long_text, 9, ERANGE);
	ask_for(NIZWARF_LOOKUP, 1, "", 0, "a", 144);
	EXPECT_REPLY(&long_time, 9, 144);
	/* (a second has 10^9 nanoseconds, and Linux takes none above) */
	CHECK(u32(ours + 48) == 999999999 && u32(ours + 52) == 999999999);
	ask_for(NIZWARF_GETATTR, 2, &getattr, sizeof(getattr), NULL, 120);
	EXPECT_REPLY(&long_time, 9, 120);
	CHECK(!u64(ours + 16) && u32(ours + 24) == 999999999);
}

/* Flags of what was opened: of an OPEN and a CREATE those that version 7.38 has, bits 0 to 6. */
static void open_flags(void)
{
	const struct fuse_open_in open = { .flags = 2 };
	const struct fuse_create_in create = { .mode = 0100600 };
	const nizwarf_answer answer = { .has_handle = 1, .handle = 6, .open_flags = UINT32_MAX };

	ask_for(NIZWARF_OPEN, 2, &open, sizeof(open), NULL, 32);
	EXPECT_REPLY(&answer, 9, 32);
	CHECK(u64(ours + 16) == 6 && u32(ours + 24) == 0x7f);
	ask_for(NIZWARF_CREATE, 1, &create, sizeof(create), "a", 160);
	EXPECT_REPLY(&answer, 9, 160);
	CHECK(u64(ours + 144) == 6 && u32(ours + 152) == 0x7f);
}

/* Items that are none, among others: a name that does not end at its only 0, and an error that is no number
 * of one. All of them are given back. */
static void wrong_items(void)
{
	static const nizwarf_dirent wrong[] = {
		{ .name = (const uint8_t *)"b", .name_size = 1 },
		{ .name = (const uint8_t *)"b", .name_size = 0 },
		{ .name = (const uint8_t *)"b\0c", .name_size = 4 },
		{ .name = (const uint8_t *)"b", .name_size = 2, .error = NIZWARF_MAX_ERRNO + 1 },
	};
	nizwarf_dirent listed[] = {
		{ .ino = 2, .offset = 1, .name = (const uint8_t *)"a", .name_size = 2 },
		{ .ino = 3, .offset = 2, .name = (const uint8_t *)"b", .name_size = 2 },
		{ .ino = 4, .offset = 3, .name = (const uint8_t *)"c", .name_size = 2 },
	};
	const struct fuse_read_in read = { .size = 4096 };
	nizwarf_answer answer = { .items = listed, .items_len = 3 };
	size_t i;

	ask_for(READDIRPLUS, 1, &read, sizeof(read), NULL, 8192);
	CHECK(reply(&call, &answer, 9, &result) == NIZWARF_OK && result.len == 16 + 3 * 160 &&
	      result.entries == 3);
	for (i = 0; i < 3 * sizeof(wrong) / sizeof(*wrong); i++) {
		const nizwarf_dirent right = listed[i % 3]; /* put back after it */

		listed[i % 3] = wrong[i / 3];
		EXPECT_ERROR(&answer, 9, EIO);
		/* (no item came to the client) */
		CHECK(!result.entries && !result.options);
		listed[i % 3] = right;
	}
	listed[0] = wrong[0];
	answer.error = ENOTDIR;
	CHECK(reply(&call, &answer, 9, &result) == NIZWARF_OK && has_error(ENOTDIR) && !result.entries);
	answer.error = 0;
	listed[0] = listed[1];
	/* (without PLUS no error is looked at) */
	listed[1].error = NIZWARF_MAX_ERRNO + 1;
	ask_for(NIZWARF_READDIR, 1, &read, sizeof(read), NULL, 8192);
	CHECK(reply(&call, &answer, 9, &result) == NIZWARF_OK && result.len == 112 && result.entries == 3);
	CHECK(u64(ours + 16) == 3 && ours[40] == 'b');
}

/* `.` and `..` are not looked up, so an `error` of theirs means nothing, whether they fit or not. Other names that begin
 * with a dot are names like any. */
static void errors_of_dots(void)
{
	static const int32_t errors[] = { 0, ENOENT, NIZWARF_MAX_ERRNO + 1, INT32_MAX, INT32_MIN };
	static const char *const others[] = { ".a", "...", "a.", "a" };
	struct fuse_read_in read = { .size = 0 };
	nizwarf_dirent listed[] = {
		{ .ino = 1, .offset = 1, .name = (const uint8_t *)".", .name_size = 2 },
		{ .ino = 1, .offset = 2, .name = (const uint8_t *)"..", .name_size = 3 },
	};
	const nizwarf_answer answer = { .items = listed, .items_len = 2 };
	size_t i, fit;

	for (i = 0; i < sizeof(errors) / sizeof(*errors); i++) {
		listed[0].error = listed[1].error = errors[i];
		for (fit = 0; fit <= 2; fit++) {
			/* (a record of such a name has 160 bytes, with its entry) */
			read.size = (uint32_t)(160 * fit);
			ask_for(READDIRPLUS, 1, &read, sizeof(read), NULL, 8192);
			CHECK(reply(&call, &answer, 9, &result) == NIZWARF_OK && !u32(ours + 4));
			CHECK(result.len == 16 + 160 * fit && result.entries == fit);
		}
	}
	read.size = 4096;
	ask_for(READDIRPLUS, 1, &read, sizeof(read), NULL, 8192);
	listed[1].error = NIZWARF_MAX_ERRNO + 1;
	for (i = 0; i < sizeof(others) / sizeof(*others); i++) {
		listed[1].name = (const uint8_t *)others[i];
		listed[1].name_size = strlen(others[i]) + 1;
		EXPECT_ERROR(&answer, 9, EIO);
	}
}

/* The parameters of an INIT's answer are read where NIZWARF_FEATURE_INIT was among the offers of the ask, and nowhere else:
 * the reply is then that to the same answer without them, which is virtiofsd's. */
static void params_of_init(void)
{
	const struct fuse_init_in init = {
		.major = 7, .minor = 45, .flags = FUSE_INIT_EXT, .flags2 = 1 << 7
	};
	const nizwarf_init_params more = { .max_write = 8192, .time_gran = 1000, .max_background = 7 };
	const nizwarf_answer plain = { .count = FUSE_INIT_EXT };
	const struct iovec room = { ours, ROOM };
	nizwarf_answer answer = plain;
	struct iovec piece;
	struct fuse_init_out out;
	uint8_t whole[80];
	uint32_t offers;

	answer.init_params = &more;
	begin_with(NIZWARF_INIT, 0, &init, sizeof(init));
	piece.iov_base = request;
	piece.iov_len = request_len;
	ask_call(ROOM, 0);
	CHECK(reply(&call, &plain, 9, &result) == NIZWARF_OK && result.len == 80 && !u32(ours + 4));
	memcpy(whole, ours, 80);
	CHECK(!nizwarf_init_takes_params(&call));
	CHECK(reply(&call, &answer, 9, &result) == NIZWARF_OK && result.len == 80 &&
	      !memcmp(ours, whole, 80));
	/* (each bit of the offers but this one, and then all) */
	for (offers = 1; offers < 1 << 16; offers <<= 1) {
		CHECK(nizwarf_decode(&slot, &session, offers, &piece, 1, &room, 1, &call, &result) ==
		      NIZWARF_CALL);
		CHECK(!nizwarf_init_takes_params(&call) == (offers != NIZWARF_FEATURE_INIT));
		EXPECT_REPLY(&answer, 9, 80);
		CHECK(!memcmp(ours, whole, 80) == (offers != NIZWARF_FEATURE_INIT));
		if (offers == NIZWARF_FEATURE_INIT) {
			memcpy(&out, ours + 16, sizeof(out));
			CHECK(out.max_write == 8192 && out.time_gran == 1000 && out.max_background == 7);
			/* (a text of this length is none) */
			answer = (nizwarf_answer){ .count = FUSE_INIT_EXT,
						   .text = (const uint8_t *)&more,
						   .text_len = sizeof(more) };
			CHECK(reply(&call, &answer, 9, &result) == NIZWARF_OK && !memcmp(ours, whole, 80));
			answer = (nizwarf_answer){ .count = FUSE_INIT_EXT, .init_params = &more };
		}
	}
	session.options = 0;
}

/* Who waits gets an answer, where nothing is told and no fault is answered. */
static void silences(void)
{
	static const uint32_t untold[] = { NIZWARF_GETLK, NIZWARF_SETLK, NIZWARF_SETLKW,
					   NIZWARF_BMAP,  NIZWARF_IOCTL, NIZWARF_POLL };
	const nizwarf_answer answer = { .error = 0 };
	size_t i;

	for (i = 0; i < sizeof(untold) / sizeof(*untold); i++) {
		ask_for(untold[i], 1, "", 0, NULL, ROOM);
		EXPECT_ERROR(&answer, 9, EIO);
	}
	ask_for(NIZWARF_NOTIFY_REPLY, 1, "", 0, NULL, ROOM);
	CHECK(reply(&call, &answer, 9, &result) == NIZWARF_OK && !result.len && !result.written);
}

/* Items of a READDIRPLUS whose lookup failed, and those that have no entry. */
static void entries(void)
{
	static const nizwarf_dirent listed[] = {
		{ .ino = 1, .name = (const uint8_t *)".", .name_size = 2, .type = 4, .entry = { .node = 7 } },
		{ .ino = 2, .name = (const uint8_t *)"a", .name_size = 2, .entry = { .node = 8 } },
		{ .ino = 3, .name = (const uint8_t *)"b", .name_size = 2, .error = ENOENT },
		{ .ino = 4, .name = (const uint8_t *)"c", .name_size = 2, .entry = { .node = 9 } },
	};
	const struct fuse_read_in read = { .size = 4096 };
	nizwarf_answer answer = { .items = listed, .items_len = 4 };

	ask_for(READDIRPLUS, 1, &read, sizeof(read), NULL, 8192);
	EXPECT_REPLY(&answer, 9, 16 + 2 * 160);
	/* (up to the item with an error: what follows is asked for again) */
	CHECK(result.entries == 2 && !result.forget);
	/* (of `.` the entry is one of zeros, but for its number and its type) */
	CHECK(!u64(ours + 16) && u64(ours + 56) == 1 && u32(ours + 116) == 040000);
	CHECK(u64(ours + 16 + 160) == 8);
	answer.items = listed + 2;
	answer.items_len = 2;
	EXPECT_ERROR(&answer, 9, ENOENT);
	CHECK(!result.entries && !result.forget);
}

/* Entries whose reply does not fit, and calls that were not asked. A request whose client has no reply leaves a
 * lookup that nobody gives back: so that is told. */
static void give_back(void)
{
	static const struct fuse_create_in create = { .mode = 0100600 };
	const nizwarf_answer answer = { .entry = { .node = 77 } };
	nizwarf_call other;
	size_t space;

	ask_for(NIZWARF_CREATE, 1, &create, sizeof(create), "xyz", 159);
	CHECK(reply(&call, &answer, 9, &result) == NIZWARF_ENCODE_MESSAGE && result.forget == 77);
	begin(NIZWARF_LOOKUP, 1);
	add_name("xyz");
	for (space = 0; space < 144; space++) {
		ask_call(space, 0);
		CHECK(reply(&call, &answer, 9, &result) == NIZWARF_ENCODE_MESSAGE);
		CHECK(result.forget == 77 && !result.len && !result.written);
	}
	ask_call(144, 0);
	CHECK(reply(&call, &answer, 9, &result) == NIZWARF_OK && result.len == 144 && !result.forget);
	/* (kinds of answers that there are not) */
	for (other = call, other.reply = NIZWARF_REPLY_ERROR + 1; other.reply; other.reply <<= 1) {
		memset(ours, FILL, 144);
		CHECK(reply(&other, &answer, 9, &result) == NIZWARF_BAD_CALL);
		CHECK(!result.len && !result.written && !result.forget && ours[0] == FILL);
	}
}

/* The functions of the header: NULL, another room, sizes out of bounds, lengths that sum too
 * far. */
static void codes(void)
{
	const struct iovec piece = { request, request_len }, null = { NULL, 0 };
	/* whose lengths are together more than a size_t */
	const struct iovec huge[] = { { request, SIZE_MAX / 2 }, { request, SIZE_MAX / 2 }, { request, 2 } };
	const struct iovec room = { ours, 144 }, nowhere = { NULL, 0 };
	const struct iovec wide[] = { { ours, SIZE_MAX }, { ours, 1 } };
	const nizwarf_dirent item = { 0 };
	/* A page that is none, and payloads below and above what there may be. */
	nizwarf_session wrong[] = { { 0, 4095, ROOM }, { 0, 4096, 4095 }, { 0, 4096, 134217729 } };
	nizwarf_answer answer = { .text_len = 1 };
	nizwarf_call none;
	int i;

	ask_call(144, 0);
	CHECK(nizwarf_decode(NULL, &session, 0, &piece, 1, &room, 1, &none, &result) == NIZWARF_NULL);
	CHECK(nizwarf_decode(&slot, NULL, 0, &piece, 1, &room, 1, &none, &result) == NIZWARF_NULL);
	CHECK(nizwarf_decode(&slot, &session, 0, &piece, 1, &room, 1, NULL, &result) == NIZWARF_NULL);
	CHECK(nizwarf_decode(&slot, &session, 0, &piece, 1, &room, 1, &none, NULL) == NIZWARF_NULL);
	CHECK(nizwarf_decode(&slot, &session, 0, NULL, 1, &room, 1, &none, &result) == NIZWARF_NULL);
	CHECK(nizwarf_decode(&slot, &session, 0, &null, 1, &room, 1, &none, &result) == NIZWARF_NULL);
	CHECK(nizwarf_decode(&slot, &session, 0, &piece, 1, NULL, 1, &none, &result) == NIZWARF_NULL);
	CHECK(nizwarf_decode(&slot, &session, 0, &piece, 1, &nowhere, 1, &none, &result) == NIZWARF_NULL);
	CHECK(nizwarf_decode(&slot, &session, 0, &piece, 1, wide, 2, &none, &result) == NIZWARF_TOO_LONG);
	CHECK(nizwarf_decode(&slot, &session, 0, huge, 3, &room, 1, &none, &result) == NIZWARF_TOO_LONG);
	CHECK(nizwarf_decode(&slot, &session, 0, NULL, 0, NULL, 0, &none, &result) == NIZWARF_DECODE_MESSAGE);
	CHECK(!none.opcode && !result.len && !result.written);
	CHECK(nizwarf_encode(NULL, &session, &call, &answer, &room, 1, &result) == NIZWARF_NULL);
	CHECK(nizwarf_encode(&slot, NULL, &call, &answer, &room, 1, &result) == NIZWARF_NULL);
	CHECK(nizwarf_encode(&slot, &session, NULL, &answer, &room, 1, &result) == NIZWARF_NULL);
	CHECK(nizwarf_encode(&slot, &session, &call, NULL, &room, 1, &result) == NIZWARF_NULL);
	CHECK(nizwarf_encode(&slot, &session, &call, &answer, &room, 1, NULL) == NIZWARF_NULL);
	CHECK(nizwarf_encode(&slot, &session, &call, &answer, &room, 1, &result) == NIZWARF_NULL);
	answer = (nizwarf_answer){ .items_len = 1 };
	CHECK(nizwarf_encode(&slot, &session, &call, &answer, &room, 1, &result) == NIZWARF_NULL);
	answer.items = &item;
	CHECK(nizwarf_encode(&slot, &session, &call, &answer, &room, 1, &result) == NIZWARF_NULL);
	answer = (nizwarf_answer){ .error = ENOENT };
	/* (with an error no other field is read) */
	answer.text_len = answer.items_len = 1;
	CHECK(nizwarf_encode(&slot, &session, &call, &answer, &room, 1, &result) == NIZWARF_OK);
	CHECK(result.len == 16 && u32(ours + 4) == (uint32_t)-ENOENT);
	/* (the room is another than was asked with) */
	CHECK(nizwarf_encode(&slot, &session, &call, &answer, NULL, 0, &result) == NIZWARF_BAD_CALL);
	CHECK(nizwarf_encode(&slot, &session, &call, &answer, &room, 1, &result) == NIZWARF_OK);
	for (i = 0; i < 3; i++) {
		CHECK(nizwarf_decode(&slot, &wrong[i], 0, &piece, 1, &room, 1, &none, &result) ==
		      NIZWARF_WRONG_SIZE);
		CHECK(nizwarf_encode(&slot, &wrong[i], &call, &answer, &room, 1, &result) ==
		      NIZWARF_WRONG_SIZE);
		CHECK(!result.len && !result.written);
	}
	CHECK(nizwarf_scratch_free(NULL) == NIZWARF_NULL);
	CHECK(nizwarf_scratch_free(&slot) == NIZWARF_OK && !slot.at);
	CHECK(nizwarf_scratch_free(&slot) == NIZWARF_NO_SERVER);
}

/* Asks and answers, also where an allocation is refused: then it is asked again. Its slot has memory for the answer;
 * another slot may lack it, and then it is answered again. `len` is the reply's. */
static void survive(size_t cut, size_t space, const nizwarf_answer *answer, size_t len)
{
	const struct iovec pieces[] = { { request, cut }, { request + cut, request_len - cut } };
	const struct iovec room = { ours, space };
	const nizwarf_scratch none = NIZWARF_SCRATCH_INIT;
	nizwarf_scratch asked_with;
	int32_t code;
	long before;

	memset(ours, FILL, space);
	code = nizwarf_decode(&slot, &session, 0, pieces, 2, &room, 1, &call, &result);
	if (code == NIZWARF_OUT_OF_MEMORY) {
		/* (nothing was written, and nothing is kept: it can be asked again as it was) */
		CHECK(refused && !call.opcode && !result.len && !result.written && ours[0] == FILL);
		code = nizwarf_decode(&slot, &session, 0, pieces, 2, &room, 1, &call, &result);
	}
	CHECK(code == NIZWARF_CALL);
	before = asked;
	code = reply(&call, answer, 5, &result);
	CHECK(asked == before);
	CHECK(code == NIZWARF_OK && result.len == len && !result.forget);
	CHECK(result.entries == answer->items_len && ours[len] == FILL);
	asked_with = slot;
	/* (a slot that never asked, as that of another thread) */
	slot = none;
	memset(ours, FILL, space);
	code = reply(&call, answer, 5, &result);
	if (code == NIZWARF_OUT_OF_MEMORY) {
		CHECK(refused && !result.len && !result.written && !result.entries && ours[0] == FILL);
		/* (for who leaves it at that; who answers again gives nothing back) */
		CHECK(result.forget == (has_entry(&call, answer) ? answer->entry.node : 0));
		CHECK(result.options == session.options);
		code = reply(&call, answer, 5, &result);
	}
	CHECK(code == NIZWARF_OK && result.len == len && !result.forget);
	CHECK(result.entries == answer->items_len && ours[len] == FILL);
	CHECK(nizwarf_scratch_free(&slot) == NIZWARF_OK);
	slot = asked_with;
}

/* Requests with rooms of any length are asked with one slot, and answered in the other order: no answer wants memory. */
static void answers_in_flight(void)
{
	static const size_t spaces[] = { 200, 4096, 16, 70000, 300 };
	enum { COUNT = sizeof(spaces) / sizeof(*spaces) };
	const nizwarf_answer missing = { .error = ENOENT };
	nizwarf_call calls[COUNT];
	long before;
	int i;

	for (i = 0; i < COUNT; i++) {
		const struct iovec room = { ours, spaces[i] };
		struct iovec whole = { request, 0 };
		int32_t code;

		/* (a LOOKUP is told at once, and a READLINK by a reader) */
		begin(i % 2 ? NIZWARF_READLINK : NIZWARF_LOOKUP, 1);
		add("abc", i % 2 ? 0 : 4);
		whole.iov_len = request_len;
		code = nizwarf_decode(&slot, &session, 0, &whole, 1, &room, 1, &calls[i], &result);
		if (code == NIZWARF_OUT_OF_MEMORY) {
			CHECK(refused && !calls[i].opcode);
			code = nizwarf_decode(&slot, &session, 0, &whole, 1, &room, 1, &calls[i], &result);
		}
		CHECK(code == NIZWARF_CALL);
	}
	before = asked;
	for (i = COUNT; i--;)
		CHECK(reply(&calls[i], &missing, 5, &result) == NIZWARF_OK && result.len == 16);
	CHECK(asked == before);
}

/* Requests that want memory, with rooms that grow, by a slot of their own. */
static void requests_that_want_memory(void)
{
	/* two pairs of a node and a count, by halves */
	static const uint32_t pairs[] = { 2, 0, 5, 0, 1, 0, 6, 0, 1, 0 };
	static const nizwarf_dirent listed[] = {
		{ .ino = 2, .name = (const uint8_t *)"a", .name_size = 2, .entry = { .node = 8 } },
		{ .ino = 3, .name = (const uint8_t *)"b", .name_size = 2, .entry = { .node = 9 } },
	};
	const struct fuse_read_in read = { .size = 4096 };
	const nizwarf_answer entry = { .entry = { .node = 77 } };
	const nizwarf_answer words = { .text = text, .text_len = 3000 };
	const nizwarf_answer directory = { .items = listed, .items_len = 2 };

	begin(NIZWARF_LOOKUP, 1);
	add_name("abc");
	survive(41, 200, &entry, 144);
	begin_with(NIZWARF_BATCH_FORGET, 0, pairs, sizeof(pairs));
	survive(60, 16, &entry, 0);
	session.options = SECURITY_CTX | CREATE_SUPP_GROUP;
	begin_maker(NIZWARF_MKDIR, 1);
	survive(90, 300, &entry, 144);
	session.options = 0;
	begin(NIZWARF_READLINK, 2);
	add("", 0);
	survive(5, 4096, &words, 3016);
	begin_with(READDIRPLUS, 1, &read, sizeof(read));
	survive(50, 8192, &directory, 16 + 2 * 160);
	answers_in_flight();
	CHECK(nizwarf_scratch_free(&slot) == NIZWARF_OK);
}

int main(void)
{
	long all;

	extensions();
	hostile_extensions();
	longer_record();
	limits();
	counts();
	errors();
	options();
	long_answers();
	open_flags();
	wrong_items();
	errors_of_dots();
	params_of_init();
	silences();
	entries();
	give_back();
	codes();
	CHECK(nizwarf_server_free(&server) == NIZWARF_OK && live == 0);
	asked = 0;
	requests_that_want_memory();
	/* (first without a refusal, to learn how many there are) */
	all = asked;
	for (refused = 1; refused <= all; refused++) {
		asked = 0;
		requests_that_want_memory();
		CHECK(live == 0);
	}
	printf("Each of %ld allocations of the codec was refused, and each request went on.\n", all);
	return 0;
}
