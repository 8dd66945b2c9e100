/* Holds the library for transports in C against its header: a session of INIT, MKDIR, LOOKUP and GETATTR, in
 * which each allocation is refused in turn; replies that are taken out; codes of what can't be done; settings; what
 * stays in the rooms and after the library's own calls.
 *
 * test_libraries.py links it with --wrap=malloc, --wrap=realloc and --wrap=free. Status 0: all is as
 * it should be, and no memory is left. */
#include <errno.h>
#include <linux/fuse.h>
#include <string.h>
#include "allocations.h"
#include "nizwarf_tree.h"
#define CASE "allocation %ld\n", refused
#include "check.h"

static struct {
	struct fuse_in_header header;
	struct fuse_init_in body;
} init = { .header = { .len = sizeof(init), .opcode = FUSE_INIT, .unique = 1 },
	   .body = { .major = 7, .minor = 38 } };
static struct {
	struct fuse_in_header header;
	struct fuse_mkdir_in body;
	char name[2];
} make = { .header = { .len = 50, .opcode = FUSE_MKDIR, .unique = 4, .nodeid = 1 },
	   .body = { .mode = 0755 },
	   .name = "a" };
static struct {
	struct fuse_in_header header;
	char name[2];
} lookup = { .header = { .len = 42, .opcode = FUSE_LOOKUP, .unique = 2, .nodeid = 1 }, .name = "a" };
static struct {
	struct fuse_in_header header;
	struct fuse_getattr_in body;
} getattr = { .header = { .len = sizeof(getattr), .opcode = FUSE_GETATTR, .unique = 3, .nodeid = 2 } };

static uint8_t reply[1 << 16], large[8 << 20]; /* rooms, in bytes */

/* Asks with a request in two pieces, of which the first has that many bytes, after that many empty ones, and with two
 * pieces of room. What is refused for want of memory, by the server or in the file system's reply, is asked again,
 * and the outcome told. `space` is both pieces' room; the first has a header's. */
static int ask(nizwarf_server *server, void *request, size_t cut, size_t empty, size_t space, size_t *len)
{
	const struct fuse_out_header *header = (const struct fuse_out_header *)reply;
	size_t total = ((struct fuse_in_header *)request)->len, i;
	struct iovec pieces[8]; /* up to six are empty */
	const struct iovec room[] = { { reply, 16 }, { reply + 16, space - 16 } };
	int code, again;

	for (i = 0; i < empty; i++)
		pieces[i] = (struct iovec){ request, 0 };
	pieces[empty] = (struct iovec){ request, cut };
	pieces[empty + 1] = (struct iovec){ (char *)request + cut, total - cut };
	for (again = 0; again < 2; again++) {
		memset(reply, 0xaa, sizeof(reply));
		code = nizwarf_server_handle(server, pieces, empty + 2, room, 2, len);
		if (code == NIZWARF_OK && *len == 16 && header->error == -ENOMEM) {
			CHECK(refused && again == 0); /* once, and only where one was refused */
			continue;
		}
		if (code != NIZWARF_OUT_OF_MEMORY)
			break;
		CHECK(refused && again == 0 && *len == 0 && reply[0] == 0xaa);
	}
	for (i = *len; i < sizeof(reply); i++)
		/* (after a reply nothing is written; one that doesn't fit may leave its begin) */
		CHECK(code == NIZWARF_ENCODE_MESSAGE || reply[i] == 0xaa);
	return code;
}

/* One session, in which each thing that wants memory comes. Cuts lie in a header, in a record, in a name. */
static void session(void)
{
	nizwarf_server server = NIZWARF_SERVER_INIT;
	struct fuse_out_header *header = (struct fuse_out_header *)reply;
	int code = nizwarf_server_new(&server, 4096, 4096, NULL);
	size_t len;

	if (code == NIZWARF_OUT_OF_MEMORY) {
		CHECK(refused && !server.at);
		code = nizwarf_server_new(&server, 4096, 4096, NULL);
	}
	CHECK(code == NIZWARF_OK && nizwarf_server_max_buffer(&server) == 4096 &&
	      nizwarf_server_options(&server) == 0);
	CHECK(ask(&server, &init, 40, 0, 80, &len) == NIZWARF_OK && len == 80 && header->len == 80);
	CHECK(nizwarf_server_set_time(&server, 7, 9) == NIZWARF_OK);
	CHECK(ask(&server, &make, 49, 2, 144, &len) == NIZWARF_OK && len == 144 && header->error == 0);
	/* (all in the first piece) */
	CHECK(ask(&server, &getattr, 56, 0, 8192, &len) == NIZWARF_OK && len == 120 && header->unique == 3);
	CHECK(((struct fuse_attr_out *)(reply + 16))->attr.mtime == 7);
	CHECK(ask(&server, &lookup, 41, 5, 144, &len) == NIZWARF_OK && len == 144 && header->error == 0);
	CHECK(ask(&server, &getattr, 50, 6, 1 << 16, &len) == NIZWARF_OK && len == 120 &&
	      header->unique == 3);
	CHECK(ask(&server, &lookup, 40, 0, 20, &len) == NIZWARF_ENCODE_MESSAGE && len == 0);
	/* (20 bytes were written, as many as there was room for) */
	CHECK(header->len == 144 && reply[16] == 2 && reply[20] == 0xaa);
	CHECK(ask(&server, &getattr, 39, 1, 120, &len) == NIZWARF_OK && len == 120);
	CHECK(nizwarf_server_free(&server) == NIZWARF_OK && !server.at && live == 0);
}

/* Asks with a request in one piece, whose reply is taken out. What is refused for want of memory is asked again.
 * `*head` is the reply, or NULL. */
static int take(nizwarf_server *server, void *request, size_t space, nizwarf_reply_buf *taken,
		const struct fuse_out_header **head, size_t *len)
{
	const struct iovec whole = { request, ((struct fuse_in_header *)request)->len };
	const void *at;
	int code = nizwarf_server_handle_take(server, &whole, 1, space, taken, &at, len);

	if (code == NIZWARF_OUT_OF_MEMORY) {
		CHECK(refused && !at && *len == 0);
		code = nizwarf_server_handle_take(server, &whole, 1, space, taken, &at, len);
	}
	CHECK(at ? *len >= sizeof(**head) : *len == 0);
	*head = at;
	return code;
}

/* Replies that are taken out: which they are, what they outlive, and what has none. What is taken belongs to the
 * caller, until it's given back or taken with anew: so it outlives the server. */
static void takes(void)
{
	static struct {
		struct fuse_in_header header;
		struct fuse_forget_in body;
	} forget = { .header = { .len = sizeof(forget), .opcode = FUSE_FORGET, .nodeid = 2 }, .body = { 1 } };
	const struct iovec whole = { &init, sizeof(init) };
	nizwarf_server server = NIZWARF_SERVER_INIT;
	nizwarf_reply_buf one = NIZWARF_REPLY_BUF_INIT, other = NIZWARF_REPLY_BUF_INIT;
	const struct fuse_out_header *first, *second;
	const void *at = &whole;
	size_t len = 1, more;

	CHECK(nizwarf_server_handle_take(&server, &whole, 1, 80, &one, &at, &len) == NIZWARF_NO_SERVER &&
	      !at && !len);
	CHECK(nizwarf_server_handle_take(&server, &whole, 1, 80, NULL, &at, &len) == NIZWARF_NULL);
	CHECK(nizwarf_server_handle_take(&server, &whole, 1, 80, &one, NULL, &len) == NIZWARF_NULL);
	CHECK(nizwarf_server_handle_take(&server, NULL, 1, 80, &one, &at, &len) == NIZWARF_NULL);
	CHECK(nizwarf_reply_buf_free(&one) == NIZWARF_NO_SERVER &&
	      nizwarf_reply_buf_free(NULL) == NIZWARF_NULL);
	while (nizwarf_server_new(&server, 4096, 4096, NULL) != NIZWARF_OK)
		CHECK(refused && !server.at);
	CHECK(take(&server, &init, 80, &one, &first, &len) == NIZWARF_OK && len == 80 && first->len == 80);
	/* no such name */
	CHECK(take(&server, &lookup, 144, &other, &second, &more) == NIZWARF_OK && more == 16);
	CHECK(second->error == -ENOENT && second->unique == 2);
	/* (the first one is what it was, after a second one) */
	CHECK(first->len == 80 && first->unique == 1 &&
	      ((const struct fuse_init_out *)(first + 1))->major == 7);
	CHECK(take(&server, &lookup, 15, &other, &second, &more) == NIZWARF_ENCODE_MESSAGE && !second);
	CHECK(take(&server, &forget, 0, &other, &second, &more) == NIZWARF_OK && !second);
	CHECK(take(&server, &lookup, 4096, &other, &second, &more) == NIZWARF_OK && more == 16);
	CHECK(nizwarf_server_free(&server) == NIZWARF_OK && second->error == -ENOENT && first->len == 80);
	CHECK(nizwarf_reply_buf_free(&one) == NIZWARF_OK && nizwarf_reply_buf_free(&other) == NIZWARF_OK &&
	      live == 0);
	CHECK(nizwarf_reply_buf_free(&one) == NIZWARF_NO_SERVER);
}

/* What needs no session: NULL, no server, sizes out of bounds, lengths that sum past SIZE_MAX; a room too
 * small, and one of 8 MiB. */
static void codes(void)
{
	nizwarf_server server = NIZWARF_SERVER_INIT;
	/* more than a size_t together */
	const struct iovec huge[] = { { &init, SIZE_MAX / 2 }, { &init, SIZE_MAX / 2 }, { &init, 2 } };
	const struct iovec whole = { &init, sizeof(init) }, null = { NULL, 0 };
	const struct iovec nowhere = { NULL, 0 }, small = { reply, 15 }, ample = { large, sizeof(large) };
	const struct iovec wide[] = { { reply, SIZE_MAX }, { reply, 1 } };
	size_t len = 1;

	CHECK(nizwarf_server_new(NULL, 4096, 4096, NULL) == NIZWARF_NULL &&
	      nizwarf_server_free(NULL) == NIZWARF_NULL);
	CHECK(nizwarf_server_set_time(NULL, 1, 0) == NIZWARF_NULL);
	CHECK(nizwarf_server_set_time(&server, 1, 0) == NIZWARF_NO_SERVER);
	CHECK(nizwarf_server_options(NULL) == 0 && nizwarf_server_max_buffer(NULL) == 0);
	CHECK(nizwarf_server_options(&server) == 0 && nizwarf_server_max_buffer(&server) == 0);
	CHECK(nizwarf_server_free(&server) == NIZWARF_NO_SERVER);
	CHECK(nizwarf_server_handle(&server, &whole, 1, NULL, 0, &len) == NIZWARF_NO_SERVER && len == 0);
	CHECK(nizwarf_server_new(&server, 4095, 4096, NULL) == NIZWARF_WRONG_SIZE);
	CHECK(nizwarf_server_new(&server, 4096, 4095, NULL) == NIZWARF_WRONG_SIZE);
	/* above 128 MiB */
	CHECK(nizwarf_server_new(&server, 4096, 134217729, NULL) == NIZWARF_WRONG_SIZE && !server.at);
	CHECK(nizwarf_server_new(&server, 4096, 4096, NULL) == NIZWARF_OK);
	/* (in place of the one that was there, which is freed) */
	CHECK(nizwarf_server_new(&server, 4096, 8192, NULL) == NIZWARF_OK);
	CHECK(nizwarf_server_max_buffer(&server) == 8192);
	CHECK(nizwarf_server_handle(&server, NULL, 1, NULL, 0, &len) == NIZWARF_NULL && len == 0);
	CHECK(nizwarf_server_handle(&server, &null, 1, NULL, 0, &len) == NIZWARF_NULL);
	CHECK(nizwarf_server_handle(&server, &whole, 1, &nowhere, 1, &len) == NIZWARF_NULL);
	CHECK(nizwarf_server_handle(&server, &whole, 1, NULL, 1, &len) == NIZWARF_NULL);
	CHECK(nizwarf_server_handle(&server, &whole, 1, NULL, 0, NULL) == NIZWARF_NULL);
	CHECK(nizwarf_server_handle(&server, &whole, 1, wide, 2, &len) == NIZWARF_TOO_LONG && len == 0);
	CHECK(nizwarf_server_handle(&server, huge, 3, NULL, 0, &len) == NIZWARF_TOO_LONG && len == 0);
	CHECK(nizwarf_server_handle(&server, NULL, 0, NULL, 0, &len) == NIZWARF_DECODE_MESSAGE);
	memset(reply, 0xaa, sizeof(reply));
	CHECK(nizwarf_server_handle(&server, &whole, 1, &small, 1, &len) == NIZWARF_ENCODE_MESSAGE &&
	      reply[0] == 0xaa);
	CHECK(nizwarf_server_handle(&server, &whole, 1, &ample, 1, &len) == NIZWARF_OK && len == 80 &&
	      large[0] == 80);
	CHECK(nizwarf_server_free(&server) == NIZWARF_OK && live == 0);
}

/* A file system of one node, made at a time, with an owner and permission bits. */
static void settings(void)
{
	const nizwarf_server_config set = { .seconds = 5,
					    .nanoseconds = 6,
					    .nodes = 1, /* the root's */
					    .bytes = 4096,
					    .file = 512,
					    .uid = 7,
					    .gid = 8,
					    .mode = 01711 };
	const nizwarf_server_config defaults = NIZWARF_SERVER_CONFIG;
	const struct fuse_out_header *header = (struct fuse_out_header *)reply;
	const struct fuse_attr *attr = &((struct fuse_attr_out *)(reply + 16))->attr;
	nizwarf_server server = NIZWARF_SERVER_INIT;
	size_t len;

	CHECK(sizeof(set) == 56 && defaults.flags == 0 && defaults.nodes == 1 << 20 &&
	      defaults.bytes == UINT64_C(4) << 30 && defaults.file == INT64_MAX && defaults.mode == 0755);
	CHECK(nizwarf_server_new(&server, 4096, 4096, &set) == NIZWARF_OK);
	getattr.header.nodeid = 1;
	CHECK(ask(&server, &getattr, 40, 0, 120, &len) == NIZWARF_OK && len == 120 && header->error == 0);
	CHECK(attr->mode == 041711 && attr->uid == 7 && attr->gid == 8);
	CHECK(attr->mtime == 5 && attr->mtimensec == 6 && attr->ctime == 5 && attr->atime == 5);
	/* (a directory would be a second node) */
	CHECK(ask(&server, &make, 49, 0, 144, &len) == NIZWARF_OK && len == 16 && header->error == -ENOSPC);
	CHECK(nizwarf_server_new(&server, 4096, 4096, NULL) == NIZWARF_OK);
	CHECK(ask(&server, &getattr, 40, 0, 120, &len) == NIZWARF_OK && len == 120 && header->error == 0);
	CHECK(attr->mode == 040755 && attr->uid == 0 && attr->gid == 0 && attr->mtime == 0);
	CHECK(nizwarf_server_free(&server) == NIZWARF_OK && live == 0);
	getattr.header.nodeid = 2; /* as session() has it */
}

/* The library's own functions, between calls of which the inline ones have no other: of no server they do nothing; of a
 * new one, and of one whose reply was taken, nothing is there to be copied; and a server that is not made in its place
 * stays. */
static void handles(void)
{
	const struct iovec whole = { &init, sizeof(init) };
	const nizwarf_server_config defaults = NIZWARF_SERVER_CONFIG;
	nizwarf_server server = NIZWARF_SERVER_INIT, was;
	nizwarf_reply_buf taken = NIZWARF_REPLY_BUF_INIT, none = NIZWARF_REPLY_BUF_INIT;
	nizwarf_reply_range place = { reply, 1, 2 };
	size_t len = 1;
	long before;

	memset(reply, 0xaa, 80);
	CHECK(nizwarf_server_handle_at(&server, &whole, 1, 80, &len) == NIZWARF_NO_SERVER && !len &&
	      !server.at);
	CHECK(nizwarf_server_copy_at(&server, 0, reply, 80) == 0 && reply[0] == 0xaa);
	CHECK(nizwarf_server_take_at(&server, &taken, &place) == NIZWARF_NO_SERVER && !server.at);
	CHECK(!memcmp(&taken, &none, sizeof(taken)) && place.at == reply && place.start == 1 &&
	      place.len == 2);
	CHECK(nizwarf_server_set_time_at(&server, 1, 0) == NIZWARF_NO_SERVER && !server.at);
	CHECK(nizwarf_server_new_at(&server, 4096, 4096, &defaults) == NIZWARF_OK);
	CHECK(nizwarf_server_copy_at(&server, 0, reply, 80) == 0 && reply[0] == 0xaa);
	init.body.flags = FUSE_ASYNC_READ;
	CHECK(nizwarf_server_handle_at(&server, &whole, 1, 80, &len) == NIZWARF_OK && len == 80);
	init.body.flags = 0; /* as session() has it */
	CHECK(nizwarf_server_options_at(&server) == FUSE_ASYNC_READ);
	CHECK(nizwarf_server_copy_at(&server, 4, reply, 76) == 76 && reply[4] == 1); /* `unique`, at 8 */
	CHECK(nizwarf_server_copy_at(&server, 0, reply, 80) == 80 && reply[0] == 80);
	was = server;
	CHECK(nizwarf_server_new_at(&server, 4095, 4096, &defaults) == NIZWARF_WRONG_SIZE);
	CHECK(!memcmp(&server, &was, sizeof(was)) && nizwarf_server_options_at(&server) == FUSE_ASYNC_READ);
	CHECK(nizwarf_server_take_at(&server, &taken, &place) == NIZWARF_OK && place.len == 80);
	CHECK(!memcmp(place.at + place.start, reply, 80));
	CHECK(nizwarf_server_options_at(&server) == FUSE_ASYNC_READ &&
	      nizwarf_server_max_buffer_at(&server) == 4096);
	reply[0] = 0xaa;
	CHECK(nizwarf_server_copy_at(&server, 0, reply, 80) == 0 && reply[0] == 0xaa);
	/* (what `taken` had is the server's then) */
	before = asked;
	CHECK(nizwarf_server_take_at(&server, &taken, &place) == NIZWARF_OK && place.len == 0 &&
	      asked == before);
	CHECK(nizwarf_server_handle_at(&server, &whole, 1, 80, &len) == NIZWARF_OK && len == 80 &&
	      asked == before);
	CHECK(nizwarf_server_free_at(&server) == NIZWARF_OK && !server.at &&
	      nizwarf_reply_buf_free_at(&taken) == NIZWARF_OK);
	CHECK(!taken.at && live == 0);
}

int main(void)
{
	long all;

	codes();
	settings();
	handles();
	asked = 0;
	session();
	takes();
	all = asked;
	/* (as many as were counted without a refusal; a second attempt counts on) */
	for (refused = 1; refused <= all; refused++) {
		asked = 0;
		session();
		takes();
	}
	printf("Each of %ld allocations of two sessions was refused, and each session went on.\n", all);
	return 0;
}
