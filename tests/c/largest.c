/* Asks each place of both libraries that takes memory for as much as it is ever asked for, and sees that it has it: no
 * contract says when memory is refused, so that one refuses too early shows here. A slot, a server and a reply that was
 * taken keep what they have: then nothing is allocated.
 *
 * test_libraries.py links it with --wrap=malloc, --wrap=realloc and --wrap=free. Status 0: all is as it should be, and
 * no memory is left. It takes half a GiB. */
#include <errno.h>
#include <linux/fuse.h>
#include <string.h>
#include "allocations.h"
#include "nizwarf_tree.h"
#define CASE "opcode %u, %zu bytes\n", (unsigned)header->opcode, (size_t)header->len
#include "check.h"

/* WIDE is what the largest requests and replies here carry: 16,384 pages. MOST is the largest payload that a session
 * has. NAME is the longest name without its 0, NAMES how many a directory gets, PAGE a page: in bytes. CUTS is the
 * most pieces of a request or a room. */
enum { WIDE = 1 << 26, MOST = 1 << 27, NAME = 255, NAMES = 70000, PAGE = 4096, CUTS = 8192 };

#define SECURITY_CTX (UINT64_C(1) << 32)

static union {
	struct fuse_in_header header;
	uint8_t bytes[WIDE + (1 << 17)]; /* WIDE, and what is before and after it */
} request;
static struct fuse_in_header *const header = &request.header;
static union {
	struct fuse_out_header header;
	uint8_t bytes[WIDE + PAGE];
} reply;
static struct iovec pieces[CUTS]; /* of the request: the first `count` */
static size_t count;
static nizwarf_session session = { 0, PAGE, MOST };
static nizwarf_scratch slot = NIZWARF_SCRATCH_INIT;
static nizwarf_server server = NIZWARF_SERVER_INIT;
static char name[NAME + 1];

/* A request, with a record, in one piece; what is added is after it. */
static void begin(uint32_t opcode, uint64_t node, const void *record, size_t len)
{
	static uint64_t unique;

	*header = (struct fuse_in_header){
		.len = (uint32_t)(sizeof(*header) + len), .opcode = opcode, .unique = ++unique, .nodeid = node
	};
	if (len)
		memcpy(request.bytes + sizeof(*header), record, len);
	pieces[0] = (struct iovec){ request.bytes, header->len };
	count = 1;
}

/* (before it is cut) */
static void add(const void *bytes, size_t len)
{
	CHECK(header->len + len <= sizeof(request));
	memcpy(request.bytes + header->len, bytes, len);
	header->len += (uint32_t)len;
	pieces[0].iov_len = header->len;
}

/* That many bytes that are no 0. */
static void fill(size_t len)
{
	CHECK(header->len + len <= sizeof(request));
	memset(request.bytes + header->len, 'x', len);
	header->len += (uint32_t)len;
	pieces[0].iov_len = header->len;
}

/* Cuts it into two pieces, at a place. */
static void cut_in_two(size_t at)
{
	pieces[0].iov_len = at;
	pieces[1] = (struct iovec){ request.bytes + at, header->len - at };
	count = 2;
}

/* Cuts it into as many pieces as there are, but for the last of a byte each. */
static void cut_in_many(void)
{
	const size_t most = header->len < CUTS ? header->len : CUTS;

	for (count = 0; count < most; count++)
		pieces[count] = (struct iovec){ request.bytes + count, 1 };
	pieces[count - 1].iov_len = header->len - (count - 1); /* the last has the rest */
}

/* Puts empty pieces before it, as many as there are but one. (an empty piece costs as much memory as another) */
static void put_behind_empty(void)
{
	for (count = 0; count < CUTS - 1; count++)
		pieces[count] = (struct iovec){ request.bytes, 0 };
	pieces[count++] = (struct iovec){ request.bytes, header->len };
}

/* The name of this number, which is as long as a name may be. */
static void set_name(unsigned number)
{
	memset(name, 'n', NAME);
	name[snprintf(name, NAME, "%u", number)] = '-';
}

/* ---- The codec: a request asks, and is answered. */

/* Asks, with `space` bytes of room. The slot keeps memory for an answer in that room. */
static nizwarf_call ask(size_t space)
{
	const struct iovec room = { reply.bytes, space };
	nizwarf_call call;
	nizwarf_result result;

	CHECK(nizwarf_decode(&slot, &session, 0, pieces, count, &room, 1, &call, &result) == NIZWARF_CALL);
	CHECK(call.reply_size == space);
	return call;
}

/* Answers what was asked: how many items were taken. `len` is the reply's. */
static uint64_t answer(const nizwarf_call *call, const nizwarf_answer *with, size_t len)
{
	const struct iovec room = { reply.bytes, call->reply_size };
	nizwarf_result result;

	CHECK(nizwarf_encode(&slot, &session, call, with, &room, 1, &result) == NIZWARF_OK);
	CHECK(result.len == len &&
	      result.written == (call->reply == NIZWARF_REPLY_DATA && len > 16 ? 16 : len));
	CHECK(!len || (reply.header.len == len && reply.header.error == 0));
	return result.entries;
}

/* As many requests as a slot answers without new memory: what is told keeps its memory, and what is finished. */
static void nothing_is_allocated(void)
{
	static const uint32_t opcodes[] = { FUSE_LOOKUP, FUSE_GETATTR, FUSE_READ,    FUSE_WRITE,
					    FUSE_STATFS, FUSE_FLUSH,   FUSE_DESTROY, FUSE_READLINK };
	static const nizwarf_answer none;
	static const uint8_t record[64];
	const struct iovec room = { reply.bytes, WIDE };
	const long before = asked;
	nizwarf_call call;
	nizwarf_result result;
	size_t i;

	for (i = 0; i < sizeof(opcodes) / sizeof(*opcodes); i++) {
		begin(opcodes[i], 1, record, opcodes[i] == FUSE_LOOKUP ? 0 : sizeof(record));
		if (opcodes[i] == FUSE_LOOKUP)
			add("a", 2);
		call = ask(WIDE);
		CHECK(nizwarf_encode(&slot, &session, &call, &none, &room, 1, &result) == NIZWARF_OK);
		CHECK(asked == before);
	}
	begin(99, 1, record, sizeof(record)); /* no such opcode */
	CHECK(nizwarf_decode(&slot, &session, 0, pieces, count, &room, 1, &call, &result) == NIZWARF_OK);
	CHECK(reply.header.error == -ENOSYS && asked == before);
}

/* Replies that are as long as the room: the value of an attribute, the names of a directory. */
static void long_replies(void)
{
	const struct fuse_getxattr_in get = { .size = WIDE };
	const struct fuse_read_in read = { .size = WIDE };
	/* bytes of an item, and how many there is room for */
	const size_t record = 24 + NAME + 1, most = WIDE / record;
	nizwarf_dirent *items = malloc((most + 1) * sizeof(*items));
	nizwarf_answer with = { .text = request.bytes, .text_len = WIDE };
	nizwarf_call call;
	size_t i;

	CHECK(items);
	begin(FUSE_GETXATTR, 1, &get, sizeof(get));
	add("user.a", 7);
	call = ask(WIDE + 16);
	answer(&call, &with, WIDE + 16);
	CHECK(!memcmp(reply.bytes + 16, request.bytes, WIDE));
	for (i = 0; i <= most; i++)
		items[i] = (nizwarf_dirent){
			.ino = 2 + i, .offset = 1 + i, .name = (uint8_t *)name, .name_size = NAME + 1
		};
	begin(FUSE_READDIR, 1, &read, sizeof(read));
	call = ask(WIDE + 16);
	with = (nizwarf_answer){ .items = items, .items_len = most + 1 }; /* one too many */
	CHECK(answer(&call, &with, most * record + 16) == most);
	/* (the slot has seen the largest room) */
	nothing_is_allocated();
	CHECK(nizwarf_scratch_free(&slot) == NIZWARF_OK);
	free(items);
}

/* A value of an attribute, and pairs of nodes and counts, as long as a request has them, in two pieces; and so a
 * security context. */
static void long_requests(void)
{
	const struct fuse_setxattr_in set = { .size = WIDE };
	const struct fuse_batch_forget_in forget = { .count = WIDE / 16 };
	const struct fuse_mkdir_in make = { .mode = 0755 };
	/* the block, one context; the value, padding */
	const uint32_t context[] = { 8 + 8 + 16 + (1 << 20), 1, 1 << 20, 0 };
	nizwarf_call call, checked;
	uint64_t interrupts;
	size_t names;

	begin(FUSE_SETXATTR, 1, &set, FUSE_COMPAT_SETXATTR_IN_SIZE);
	add("user.a", 7);
	fill(WIDE);
	cut_in_two(100);
	CHECK(ask(16).data.len == WIDE);
	begin(FUSE_BATCH_FORGET, 0, &forget, sizeof(forget));
	fill(WIDE);
	CHECK(nizwarf_check(&session, 0, request.bytes, header->len, 0, &checked, &interrupts) ==
	      NIZWARF_CALL);
	cut_in_two(100);
	call = ask(0);
	CHECK(call.data.len == WIDE && !memcmp(&call, &checked, sizeof(call)));
	session.options = SECURITY_CTX;
	/* First the value is long, and the name short, then the other way round. */
	for (names = 0; names < 2; names++) {
		begin(FUSE_MKDIR, 1, &make, sizeof(make));
		add(name, sizeof(name));
		add(context, sizeof(context));
		fill(names ? (1 << 20) - 1 : 15);
		add("", 1);
		fill(names ? 16 : 1 << 20);
		/* the value's length */
		((uint32_t *)(void *)(request.bytes + 48 + sizeof(name)))[2] = names ? 16 : 1 << 20;
		CHECK(nizwarf_check(&session, 0, request.bytes, header->len, 160, &checked, &interrupts) ==
		      NIZWARF_CALL);
		cut_in_two(header->len / 2);
		call = ask(160);
		CHECK(!memcmp(&call, &checked, sizeof(call)));
		CHECK(call.context.len == context[2] || names);
	}
	session.options = 0;
	CHECK(nizwarf_scratch_free(&slot) == NIZWARF_OK);
}

/* Requests in thousands of pieces, and the reply in as many. */
static void many_pieces(void)
{
	static struct iovec rooms[CUTS];
	const struct fuse_write_in write = { .size = PAGE };
	const nizwarf_answer written = { .count = PAGE };
	nizwarf_call call;
	nizwarf_result result;
	size_t i;

	begin(FUSE_WRITE, 2, &write, sizeof(write));
	fill(PAGE);
	cut_in_many();
	CHECK(count == header->len); /* a piece for each byte */
	for (i = 0; i < CUTS; i++)
		rooms[i] = (struct iovec){ reply.bytes + i, 1 };
	CHECK(nizwarf_decode(&slot, &session, 0, pieces, count, rooms, CUTS, &call, &result) == NIZWARF_CALL);
	CHECK(call.data.len == PAGE);
	CHECK(nizwarf_encode(&slot, &session, &call, &written, rooms, CUTS, &result) == NIZWARF_OK &&
	      result.len == 24);
	CHECK(nizwarf_scratch_free(&slot) == NIZWARF_OK);
}

/* ---- The tree: a request is served. */

/* Serves a request: the error, as the reply has it. `space` is the room's length. */
static int serve(size_t space)
{
	const struct iovec room = { reply.bytes, space };
	size_t len;

	CHECK(nizwarf_server_handle(&server, pieces, count, &room, 1, &len) == NIZWARF_OK && len >= 16);
	CHECK(reply.header.len == len && reply.header.unique == header->unique);
	return -reply.header.error;
}

/* Serves a request of a record and `name`, likewise. */
static int serve_name(uint32_t opcode, uint64_t node, const void *record, size_t len, size_t space)
{
	begin(opcode, node, record, len);
	add(name, sizeof(name));
	return serve(space);
}

/* Makes a file of this name. Gives its node. In the root. */
static uint64_t make_file(void)
{
	const struct fuse_mknod_in make = { .mode = 0100644 };

	CHECK(serve_name(FUSE_MKNOD, 1, &make, sizeof(make), 144) == 0);
	return ((struct fuse_entry_out *)(reply.bytes + 16))->nodeid;
}

/* A file of thousands of pages, by one WRITE and by a FALLOCATE, and read back at once. Then a reply in a room that is no
 * longer takes no memory. */
static void long_files(void)
{
	const struct fuse_write_in write = { .size = WIDE };
	const struct fuse_fallocate_in hold = { .offset = WIDE, .length = WIDE };
	const struct fuse_read_in read = { .offset = WIDE - PAGE, .size = WIDE };
	uint64_t file;
	long before;

	set_name(0);
	file = make_file();
	begin(FUSE_WRITE, file, &write, sizeof(write));
	fill(WIDE);
	CHECK(serve(24) == 0);
	begin(FUSE_FALLOCATE, file, &hold, sizeof(hold));
	CHECK(serve(16) == 0);
	begin(FUSE_READ, file, &read, sizeof(read));
	CHECK(serve(WIDE + 16) == 0 && reply.header.len == WIDE + 16);
	/* (where the WRITE ends, and what is held begins) */
	CHECK(reply.bytes[15 + PAGE] == 'x' && reply.bytes[16 + PAGE] == 0);
	before = asked;
	begin(FUSE_STATFS, 1, NULL, 0);
	CHECK(serve(96) == 0 && asked == before);
	CHECK(serve(WIDE) == 0 && asked == before);
}

/* Replies that are taken out of the server: those in rooms that are no longer than earlier ones take no memory. */
static void long_replies_taken(void)
{
	const struct fuse_read_in read = { .size = WIDE };
	nizwarf_reply_buf taken = NIZWARF_REPLY_BUF_INIT;
	const void *at;
	size_t len, i;
	long before;

	begin(FUSE_READDIR, 1, &read, sizeof(read));
	for (i = 0; i < 4; i++) {
		CHECK(nizwarf_server_handle_take(&server, pieces, 1, WIDE + 16, &taken, &at, &len) ==
		      NIZWARF_OK);
		/* (all names, of which each is longer than NAME with its record) */
		CHECK(len > NAMES * NAME && ((const struct fuse_out_header *)at)->len == len);
	}
	begin(FUSE_STATFS, 1, NULL, 0);
	for (i = 0; i < 4; i++) {
		before = asked;
		CHECK(nizwarf_server_handle_take(&server, pieces, 1, WIDE, &taken, &at, &len) == NIZWARF_OK &&
		      len == 96);
		CHECK(asked == before);
	}
	CHECK(nizwarf_reply_buf_free(&taken) == NIZWARF_OK);
}

/* A link's text and name, which are as long as Linux allows, and what else gets a name. */
static void long_names(void)
{
	static char text[PAGE];
	const struct fuse_mkdir_in make = { .mode = 0755 };
	const struct fuse_create_in create = { .mode = 0100644, .flags = 2 };
	struct fuse_link_in link = { 0 };
	uint64_t node;

	memset(text, 't', sizeof(text) - 1);
	set_name(2);
	begin(FUSE_SYMLINK, 1, NULL, 0);
	add(name, sizeof(name));
	add(text, sizeof(text));
	CHECK(serve(144) == 0);
	node = ((struct fuse_entry_out *)(reply.bytes + 16))->nodeid;
	begin(FUSE_READLINK, node, NULL, 0);
	CHECK(serve(2 * PAGE) == 0 && reply.header.len == 16 + PAGE - 1); /* without a 0 */
	CHECK(!memcmp(reply.bytes + 16, text, PAGE - 1));
	set_name(3);
	CHECK(serve_name(FUSE_MKDIR, 1, &make, sizeof(make), 144) == 0);
	set_name(4);
	CHECK(serve_name(FUSE_CREATE, 1, &create, sizeof(create), 160) == 0);
	link.oldnodeid = ((struct fuse_entry_out *)(reply.bytes + 16))->nodeid;
	set_name(5);
	CHECK(serve_name(FUSE_LINK, 1, &link, sizeof(link), 144) == 0);
	CHECK(serve_name(FUSE_LOOKUP, 1, NULL, 0, 144) == 0);
	begin(FUSE_RENAME, 1, &(struct fuse_rename_in){ 1 }, sizeof(struct fuse_rename_in));
	add(name, sizeof(name));
	set_name(6);
	add(name, sizeof(name));
	CHECK(serve(16) == 0);
}

/* Attributes of a node: 65,536 bytes with their names and 128 for each, by one, and by as many as there can be. */
static void long_attributes(void)
{
	const struct fuse_getxattr_in get = { .size = 1 << 16 };
	struct fuse_setxattr_in set = { .size = (1 << 16) - 128 - 6 }; /* less an attribute, and its name */
	const unsigned most = (1 << 16) / (128 + NAME);
	unsigned i;

	begin(FUSE_SETXATTR, 1, &set, FUSE_COMPAT_SETXATTR_IN_SIZE);
	add("user.a", 7);
	fill(set.size);
	CHECK(serve(16) == 0);
	begin(FUSE_GETXATTR, 1, &get, sizeof(get));
	add("user.a", 7);
	CHECK(serve((1 << 16) + 16) == 0 && reply.header.len == 16 + set.size);
	begin(FUSE_REMOVEXATTR, 1, NULL, 0);
	add("user.a", 7);
	CHECK(serve(16) == 0);
	set.size = 0;
	for (i = 0; i <= most; i++) {
		set_name(i);
		memmove(name + 5, name, NAME - 5); /* `user.` goes before it */
		memcpy(name, "user.", 5);
		/* (one more than there may be is refused, and not for want of memory) */
		CHECK(serve_name(FUSE_SETXATTR, 1, &set, FUSE_COMPAT_SETXATTR_IN_SIZE, 16) ==
		      (i < most ? 0 : ENOSPC));
	}
	begin(FUSE_LISTXATTR, 1, &get, sizeof(get));
	CHECK(serve((1 << 16) + 16) == 0 && reply.header.len == 16 + most * sizeof(name));
}

/* A directory of that many names, each as long as it may be, which are read at once. */
static void many_names(void)
{
	struct fuse_read_in read = { .size = WIDE };
	const size_t record = 24 + NAME + 1;
	size_t i, before; /* bytes of the listing without them */

	begin(FUSE_READDIR, 1, &read, sizeof(read));
	CHECK(serve(WIDE + 16) == 0);
	before = reply.header.len;
	for (i = 0; i < NAMES; i++) {
		set_name((unsigned)(1000 + i));
		make_file();
	}
	begin(FUSE_READDIR, 1, &read, sizeof(read));
	CHECK(serve(WIDE + 16) == 0 && reply.header.len == before + NAMES * record);
	begin(FUSE_READDIRPLUS, 1, &read, sizeof(read));
	CHECK(serve(WIDE + 16) == 0 && reply.header.len > NAMES * (record + sizeof(struct fuse_entry_out)));
}

/* Requests in thousands of pieces: a WRITE, pairs, and a TMPFILE, which is handed on with another opcode. */
static void pieces_of_the_tree(void)
{
	const struct fuse_write_in write = { .size = PAGE };
	const struct fuse_batch_forget_in forget = { .count = 1 << 16 };
	const struct fuse_create_in create = { .mode = 0100644, .flags = 2 };
	const struct iovec none = { reply.bytes, 0 };
	uint64_t file;
	size_t len;

	set_name(7);
	file = make_file();
	begin(FUSE_WRITE, file, &write, sizeof(write));
	fill(PAGE);
	cut_in_many();
	CHECK(serve(24) == 0 && ((struct fuse_write_out *)(reply.bytes + 16))->size == PAGE);
	begin(FUSE_BATCH_FORGET, 0, &forget, sizeof(forget));
	fill(1 << 20);
	cut_in_many();
	/* it has no reply */
	CHECK(nizwarf_server_handle(&server, pieces, count, &none, 1, &len) == NIZWARF_OK && !len);
	begin(FUSE_TMPFILE, 1, &create, sizeof(create));
	add("/", 2);
	put_behind_empty();
	CHECK(serve(160) == 0);
}

int main(void)
{
	const nizwarf_server_config settings = {
		.nodes = 1 << 20, .bytes = UINT64_C(1) << 32, .file = INT64_MAX, .mode = 0755
	};

	set_name(0);
	long_replies();
	long_requests();
	many_pieces();
	CHECK(nizwarf_server_new(&server, PAGE, MOST, &settings) == NIZWARF_OK);
	long_names();
	long_attributes();
	pieces_of_the_tree();
	many_names();
	long_files();
	long_replies_taken();
	CHECK(nizwarf_server_free(&server) == NIZWARF_OK && live == 0);
	puts("Each place that takes memory had as much as it may be asked for.");
	return 0;
}
