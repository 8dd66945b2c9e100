/* Where Eva begins: requests in any pieces, of any bytes, and reply buffers in any pieces, over a library
 * that returns anything that its contracts allow (crates/nizwarf_codec/src, crates/nizwarf_tree/src), and a
 * table of functions that return anything. */
#ifdef __FRAMAC__
#include "__fc_builtin.h"
#include <stddef.h>
#include <stdint.h>
/* Frama-C knows no such builtins. What another thread may write is read as volatile: any value may come. */
#define __atomic_load_n(at, order) (*(volatile __typeof__(*(at)) *)(at))
#define __atomic_store_n(at, value, order) ((void)(*(at) = (value)))
#define __atomic_exchange_n(at, value, order)      \
	({                                         \
		__typeof__(*(at)) before_ = *(at); \
		*(at) = (value);                   \
		before_;                           \
	})
/* (fields that the struct stat of Frama-C lacks) */
#define st_atimensec st_dev
#define st_mtimensec st_dev
#define st_ctimensec st_dev
#include "codec.c"
#include "convert.c"
#include "messages.c"
#include "ops.c"
#include "server.c"

enum { PIECES = 3, LONGEST = 1 << 20 }; /* of a request or a reply buffer; and the bytes of each at most */

static volatile int any; /* each read is any number */

/* All of a variable is anything; and a length up to one. */
#define ANY(of) Frama_C_make_unknown((char *)&(of), sizeof(of))
#define ANY_LENGTH(most) Frama_C_unsigned_long_interval(0, most)

/* ---- the library */

static volatile uint8_t seen; /* where what is read goes, so that no read is left out */

/* Reads the first byte and the last. Memory that is passed to the library may be empty, but is never NULL. */
static void look_at(const uint8_t *at, size_t len)
{
	//@ assert given: at != \null;
	if (len) {
		seen = at[0];
		seen = at[len - 1];
	}
}

/* (by itself, so that what Eva can't show of a text is apart) */
static void look_at_text(const uint8_t *text, size_t len)
{
	//@ assert given: text != \null;
	if (len) {
		seen = text[0];
		seen = text[len - 1];
	}
}

/* Names of a listing, each from its first byte to its last. (The library ends a name at its first 0.) */
static void look_at_items(const nizwarf_dirent *items, size_t count)
{
	for (size_t i = 0; i < count; i++) {
		//@ assert given: items[i].name != \null;
		if (items[i].name_size) {
			seen = items[i].name[0];
			seen = items[i].name[items[i].name_size - 1];
		}
	}
}

/* Pieces of no length too, because they are passed on as they are. */
static void look_at_request(const struct iovec *request, size_t request_count)
{
	for (size_t i = 0; i < request_count; i++)
		look_at(request[i].iov_base, request[i].iov_len);
}

/* Each code that the library has. */
static int32_t any_code(void)
{
	return Frama_C_interval(NIZWARF_OK, NIZWARF_BAD_CALL);
}

/* Features change which calls are decoded, and here each may be. (The result is cleared before, so that
 * nothing of an earlier call is left where the library sets nothing.) */
int32_t nizwarf_decode_at(nizwarf_scratch *scratch, const nizwarf_session *session, uint32_t features,
			  const struct iovec *request, size_t request_count, size_t reply_size,
			  nizwarf_call *call, nizwarf_result *result)
{
	const uint64_t options = result->options;

	/*@ assert nothing: call->opcode == 0 && result->len == 0 && result->written == 0 &&
	      result->interrupts == 0; */
	look_at_request(request, request_count);
	scratch->at = &seen;
	ANY(*call);
	if (any) {
		result->len = result->written = ANY_LENGTH(reply_size);
		result->interrupts = ANY_LENGTH(UINT64_MAX);
		return any_code();
	}
	call->reply_size = reply_size;
	return any ? NIZWARF_CALL : any_code();
}

/* Any length up to the size that the call was decoded with, which nizwarf_encode compares with the reply
 * buffer. */
int32_t nizwarf_encode_at(nizwarf_scratch *scratch, const nizwarf_session *session, const nizwarf_call *call,
			  const nizwarf_answer *answer, const uint8_t *text, size_t text_len,
			  const nizwarf_dirent *items, size_t items_len, nizwarf_result *result)
{
	/*@ assert nothing: result->len == 0 && result->written == 0 && result->forget == 0 &&
	      result->entries == 0; */
	look_at_text(text, text_len);
	look_at_items(items, items_len);
	seen = (uint8_t)(session->options + answer->count);
	scratch->at = &seen;
	result->len = result->written = ANY_LENGTH(call->reply_size);
	result->options = ANY_LENGTH(UINT64_MAX);
	result->forget = ANY_LENGTH(UINT64_MAX);
	result->entries = ANY_LENGTH(items_len);
	return any_code();
}

/* Writes all of the memory, and returns any length up to its size. */
static size_t fill(uint8_t *piece, size_t len)
{
	//@ assert given: piece != \null;
	if (len)
		Frama_C_make_unknown((char *)piece, len);
	return ANY_LENGTH(len);
}

uint64_t nizwarf_init_capable_at(const uint8_t *request, size_t len)
{
	/* (not by look_at, so that what Eva can't show of copy_front is apart) */
	if (len)
		seen = request[len - 1];
	return ANY_LENGTH(UINT64_MAX);
}

/* clang-format off */

#define OUT uint8_t *out, size_t size
#define TEXT uint8_t *text, size_t text_len
#define REQUEST const uint8_t *request, size_t len
#define NAME const uint8_t *name, size_t name_len
#define SERVER nizwarf_server *server

/* A function of the library as a list of expressions: those that read and write, and at last its result. */
#define FUNCTION(type, name, parameters, ...) type nizwarf_##name##_at parameters { return __VA_ARGS__; }

FUNCTION(int32_t, check,
	 (const nizwarf_session *session, uint32_t features, REQUEST, size_t reply_size, nizwarf_call *call,
	  uint64_t *interrupts),
	 look_at(request, len), seen = (uint8_t)session->options, ANY(*call),
	 *interrupts = ANY_LENGTH(UINT64_MAX), any_code())
/* Any number of bytes is copied, up to all. */
FUNCTION(size_t, scratch_copy, (nizwarf_scratch *scratch, size_t at, uint8_t *piece, size_t piece_len),
	 scratch->at = &seen, fill(piece, piece_len))
/* Scratch memory that was freed is empty, and may be used again. */
FUNCTION(int32_t, scratch_free, (nizwarf_scratch *scratch), scratch->at = NULL, any_code())

/* These change a reply where it is, in its own length. */
FUNCTION(uint64_t, add_to_init,
	 (uint8_t *reply, size_t len, uint64_t offered, const nizwarf_init_params *more),
	 fill(reply, len), more->want)
FUNCTION(int32_t, add_backing, (uint8_t *reply, size_t len, int32_t id), fill(reply, len), any)

FUNCTION(size_t, print_request, (REQUEST, uint64_t options, TEXT),
	 look_at(request, len), fill(text, text_len))
FUNCTION(size_t, print_reply, (REQUEST, const uint8_t *reply, size_t reply_len, TEXT),
	 look_at(request, len), look_at(reply, reply_len), fill(text, text_len))

/* Notices: each writes its buffer, and returns any length up to that. */
FUNCTION(size_t, notice_poll, (uint64_t kh, OUT), fill(out, size))
FUNCTION(size_t, notice_inval_inode, (uint64_t node, int64_t offset, int64_t len, OUT), fill(out, size))
FUNCTION(size_t, notice_inval_entry, (uint64_t parent, uint32_t flags, NAME, OUT),
	 look_at(name, name_len), fill(out, size))
FUNCTION(size_t, notice_store, (uint64_t node, uint64_t offset, uint32_t count, OUT), fill(out, size))
FUNCTION(size_t, notice_retrieve, (uint64_t unique, uint64_t node, uint64_t offset, uint32_t count, OUT),
	 fill(out, size))
FUNCTION(size_t, notice_delete, (uint64_t parent, uint64_t child, NAME, OUT),
	 look_at(name, name_len), fill(out, size))
FUNCTION(size_t, notice_resend, (OUT), fill(out, size))
FUNCTION(size_t, notice_inc_epoch, (OUT), fill(out, size))
FUNCTION(size_t, notice_prune, (uint32_t count, OUT), fill(out, size))

/* Of the server over a tree. A server that was freed may be passed to each: `at` may be NULL. */
FUNCTION(int32_t, server_new,
	 (SERVER, uint32_t page_size, uint32_t max_buffer, const nizwarf_server_config *settings),
	 seen = (uint8_t)settings->nodes, server->at = &seen, any_code())
FUNCTION(int32_t, server_set_time, (SERVER, uint64_t seconds, uint32_t nanoseconds),
	 server->at = &seen, any_code())
FUNCTION(int32_t, server_handle,
	 (SERVER, const struct iovec *request, size_t request_count, size_t reply_size, size_t *len),
	 look_at_request(request, request_count), server->at = &seen, *len = ANY_LENGTH(reply_size),
	 any_code())
FUNCTION(size_t, server_copy, (SERVER, size_t at, uint8_t *piece, size_t piece_len),
	 server->at = &seen, fill(piece, piece_len))
/* A reply that was taken and freed must not be read any more. */
FUNCTION(int32_t, reply_buf_free, (nizwarf_reply_buf *taken), taken->at = NULL, any_code())
FUNCTION(uint64_t, server_options, (SERVER), server->at != NULL)
FUNCTION(uint32_t, server_max_buffer, (SERVER), server->at != NULL)
FUNCTION(int32_t, server_free, (SERVER), server->at = NULL, any_code())

#undef NAME
/* clang-format on */

static uint8_t taken_reply[LONGEST]; /* memory of the library */

int32_t nizwarf_server_take_at(nizwarf_server *server, nizwarf_reply_buf *taken, nizwarf_reply_range *place)
{
	server->at = taken->at = &seen;
	if (any)
		return NIZWARF_OUT_OF_MEMORY;
	place->at = taken_reply;
	place->start = ANY_LENGTH(LONGEST / 2); /* so that the two together are within it */
	place->len = ANY_LENGTH(LONGEST / 2);
	return NIZWARF_OK;
}

/* ---- what is handed in */

static uint8_t bytes[PIECES][LONGEST], memory[PIECES][LONGEST]; /* requests, and reply buffers */

/* Pieces of any lengths, of which any may be NULL. */
static void any_request(struct iovec *list)
{
	for (size_t i = 0; i < PIECES; i++)
		list[i] = (struct iovec){ any ? bytes[i] : NULL, ANY_LENGTH(LONGEST) };
}

/* Pieces of a reply buffer, each in memory of its own. */
static void any_reply(struct iovec *list)
{
	for (size_t i = 0; i < PIECES; i++)
		list[i] = (struct iovec){ any ? memory[i] : NULL, ANY_LENGTH(LONGEST) };
}

static void any_items(nizwarf_dirent *items)
{
	for (size_t i = 0; i < PIECES; i++) {
		ANY(items[i]);
		items[i].name = any ? bytes[0] : NULL;
		items[i].name_size = ANY_LENGTH(LONGEST); /* with or without a 0 in it */
	}
}

/* (each pointer is NULL in one round, and none in the last; lists have each number of pieces) `gone` is which
 * pointer. */
#define ROUNDS(most) for (int gone = most; gone >= 0; gone--)
#define OR_NULL(number, at) (gone == (number) ? NULL : (at))
#define COUNTS for (size_t count = 0; count <= PIECES; count++)

static void decodes(void)
{
	nizwarf_scratch scratch = NIZWARF_SCRATCH_INIT;
	nizwarf_session session;
	struct iovec request[PIECES];
	struct iovec reply[PIECES];
	nizwarf_call call;
	nizwarf_result result;

	ANY(session);
	ROUNDS(6) COUNTS
	{
		any_request(request);
		any_reply(reply);
		ANY(call);
		nizwarf_decode(OR_NULL(1, &scratch), OR_NULL(2, &session), 0, OR_NULL(3, request), count,
			       OR_NULL(4, reply), PIECES - count, OR_NULL(5, &call), OR_NULL(6, &result));
		nizwarf_decode(OR_NULL(1, &scratch), OR_NULL(2, &session), (uint32_t)any, OR_NULL(3, request),
			       count, OR_NULL(4, reply), PIECES - count, OR_NULL(5, &call),
			       OR_NULL(6, &result));
	}
	nizwarf_scratch_free(&scratch);
	/* (each function accepts NULL, and returns a code then) */
	nizwarf_scratch_free(NULL);
}

/* A call of any number: up to that of INIT, it, and above. */
static uint32_t any_number(int range)
{
	return range == 0 ? Frama_C_unsigned_int_interval(0, NIZWARF_INIT - 1) :
	       range == 1 ? NIZWARF_INIT :
			    Frama_C_unsigned_int_interval(NIZWARF_INIT + 1, UINT32_MAX);
}

static void encodes(void)
{
	nizwarf_scratch scratch = NIZWARF_SCRATCH_INIT;
	nizwarf_session session;
	struct iovec reply[PIECES];
	nizwarf_dirent items[PIECES];
	nizwarf_init_params params;
	nizwarf_answer answer;
	nizwarf_call call;
	nizwarf_result result;

	ANY(session);
	ANY(params);
	/* (INIT apart from calls below and above it: by it alone options change, and Eva joins states that it
	 * does not keep apart) */
	ROUNDS(9) COUNTS for (int range = 0; range < 3; range++)
	{
		any_reply(reply);
		any_items(items);
		ANY(call);
		ANY(answer);
		call.opcode = any_number(range);
		answer.text = OR_NULL(7, bytes[1]);
		/* (a text that is NULL has any length too: nizwarf_encode must refuse it) */
		answer.text_len = count ? Frama_C_unsigned_long_interval(1, LONGEST) : 0;
		answer.items = OR_NULL(8, items);
		answer.items_len = count;
		answer.init_params = OR_NULL(9, &params);
		nizwarf_encode(OR_NULL(1, &scratch), OR_NULL(2, &session), OR_NULL(3, &call),
			       OR_NULL(4, &answer), OR_NULL(5, reply), PIECES - count, OR_NULL(6, &result));
	}
}

static void checks(void)
{
	nizwarf_session session;
	nizwarf_call call;
	uint64_t interrupts;

	ANY(session);
	ROUNDS(4)
	{
		nizwarf_check(OR_NULL(1, &session), 0, OR_NULL(2, bytes[0]), ANY_LENGTH(LONGEST),
			      ANY_LENGTH(SIZE_MAX), OR_NULL(3, &call), OR_NULL(4, &interrupts));
		nizwarf_check(OR_NULL(1, &session), (uint32_t)any, OR_NULL(2, bytes[0]), ANY_LENGTH(LONGEST),
			      ANY_LENGTH(SIZE_MAX), OR_NULL(3, &call), OR_NULL(4, &interrupts));
	}
}

static void texts(void)
{
	const size_t size = ANY_LENGTH(LONGEST), len = ANY_LENGTH(LONGEST);

	ROUNDS(4)
	{
		char *text = OR_NULL(1, (char *)memory[0]);
		const char *name = OR_NULL(2, (const char *)bytes[1]);
		void *out = OR_NULL(3, memory[1]);

		nizwarf_print_request(OR_NULL(2, bytes[0]), len, ANY_LENGTH(UINT64_MAX), text, size);
		nizwarf_print_reply(OR_NULL(2, bytes[0]), len, OR_NULL(4, bytes[1]), len, text, size);
		nizwarf_notice_poll(1, out, size);
		nizwarf_notice_inval_inode(1, any, any, out, size);
		nizwarf_notice_inval_entry(1, 0, name, len, out, size);
		nizwarf_notice_store(1, 0, (uint32_t)any, out, size);
		nizwarf_notice_retrieve(1, 1, 0, (uint32_t)any, out, size);
		nizwarf_notice_delete(1, 2, name, len, out, size);
		nizwarf_notice_resend(out, size);
		nizwarf_notice_inc_epoch(out, size);
		nizwarf_notice_prune((uint32_t)any, out, size);
	}
}

/* Any numbers are kept, also a count of them that is none. */
static void interrupts(void)
{
	nizwarf_interrupts kept;

	ANY(kept);
	nizwarf_keep_interrupt(&kept, ANY_LENGTH(UINT64_MAX));
	nizwarf_take_interrupt(&kept, ANY_LENGTH(UINT64_MAX));
}

/* A server, by each of its calls, and of each pointer once without it. */
static void servers(void)
{
	nizwarf_server server = NIZWARF_SERVER_INIT;
	nizwarf_reply_buf taken = NIZWARF_REPLY_BUF_INIT;
	nizwarf_server_config settings = NIZWARF_SERVER_CONFIG;
	struct iovec request[PIECES];
	struct iovec reply[PIECES];
	const void *taken_at;
	size_t len;

	ROUNDS(6) COUNTS
	{
		any_request(request);
		any_reply(reply);
		nizwarf_server_new(OR_NULL(1, &server), (uint32_t)any, (uint32_t)any, OR_NULL(2, &settings));
		nizwarf_server_set_time(OR_NULL(1, &server), ANY_LENGTH(UINT64_MAX), (uint32_t)any);
		nizwarf_server_handle(OR_NULL(1, &server), OR_NULL(2, request), count, OR_NULL(3, reply),
				      PIECES - count, OR_NULL(4, &len));
		nizwarf_server_handle_take(OR_NULL(1, &server), OR_NULL(2, request), count,
					   ANY_LENGTH(LONGEST), OR_NULL(5, &taken), OR_NULL(6, &taken_at),
					   OR_NULL(4, &len));
		nizwarf_reply_buf_free(OR_NULL(5, &taken));
		nizwarf_server_options(OR_NULL(1, &server));
		nizwarf_server_max_buffer(OR_NULL(1, &server));
		nizwarf_server_free(OR_NULL(1, &server));
	}
}

/* ---- a table */

/* The functions of the table return any number, of an error or not, and fill in anything where they fill in
 * something. Those with a loop, or without a result, come first. */

/* As many bytes as it may; and it returns any length, of more than that too. */
static int fill_all(void *buf, size_t size, size_t *len)
{
	if (size)
		Frama_C_make_unknown(buf, size);
	*len = ANY_LENGTH(SIZE_MAX);
	return any;
}

static void op_destroy(const nizwarf_req *req)
{
	seen = (uint8_t)req->call->unique;
}

static void op_forget(const nizwarf_req *req, uint64_t ino, uint64_t nlookup)
{
	seen = (uint8_t)req->call->unique;
}

static void op_forget_multi(const nizwarf_req *req, size_t count, const nizwarf_forget *forgets)
{
	//@ assert some: 1 <= count <= NIZWARF_MAX_FORGETS;
	seen = (uint8_t)(forgets[0].ino + forgets[count - 1].nlookup);
}

/* A name of any length. */
static char any_name[4096];

/* Any number of items, of which as many are taken as the reply buffer can hold. */
static int op_readdir(const nizwarf_req *req, uint64_t ino, uint64_t off, const nizwarf_file_info *fi,
		      nizwarf_dir *dir)
{
	while (any)
		if (!nizwarf_add_direntry(dir, any_name, ANY_LENGTH(UINT64_MAX), (uint32_t)any, off))
			break;
	return any;
}

static int op_readdirplus(const nizwarf_req *req, uint64_t ino, uint64_t off, const nizwarf_file_info *fi,
			  nizwarf_dir *dir)
{
	nizwarf_entry_param e;

	ANY(e);
	while (any)
		if (!nizwarf_add_direntry_plus(dir, any_name, &e, off))
			break;
	return any;
}

static void op_interrupt(void *user, uint64_t unique)
{
}

static void op_bad_error(void *user, const nizwarf_call *call, int error)
{
	seen = (uint8_t)call->opcode;
}

static void op_retrieve_reply(const nizwarf_req *req, uint64_t cookie, uint64_t ino, uint64_t offset,
			      const void *data, size_t size)
{
}

/* clang-format off */

#define REQ const nizwarf_req *req, uint64_t ino
#define NAME const char *name
#define FI const nizwarf_file_info *fi
#define OPENED nizwarf_file_info *fi
#define ENTRY nizwarf_entry_param *e
#define ATTR nizwarf_attr *attr, struct timespec *attr_timeout
#define SEE(number) (seen = (uint8_t)(number))

/* The other functions: the name, the parameters, and expressions, of which the last is the result. `init`
 * wants also options that the client does not support, and `open` and `create` set fields that are no part of
 * an answer: the library must ignore these. `write` and `copy_file_range` return more bytes than there were,
 * which it must not reply. */
#define OPS(F) \
	F(init, (const nizwarf_req *req, uint64_t capable, uint64_t *want), \
	  *want = ANY_LENGTH(UINT64_MAX), any) \
	F(conn, (const nizwarf_req *req, nizwarf_conn_info *conn), ANY(*conn), any) \
	F(lookup, (REQ, NAME, ENTRY), ANY(*e), any) \
	F(getattr, (REQ, FI, ATTR), fi ? SEE(fi->fh) : 0, ANY(*attr), ANY(*attr_timeout), any) \
	F(setattr, (REQ, const nizwarf_setattr *set, uint32_t to_set, FI, ATTR), \
	  SEE(set->size), op_getattr(req, ino, fi, attr, attr_timeout)) \
	F(readlink, (REQ, char *link, size_t size, size_t *len), fill_all(link, size, len)) \
	F(mknod, (REQ, NAME, uint32_t mode, uint32_t rdev, ENTRY), ANY(*e), any) \
	F(mkdir, (REQ, NAME, uint32_t mode, ENTRY), ANY(*e), any) \
	F(unlink, (REQ, NAME), any) \
	F(rmdir, (REQ, NAME), any) \
	F(symlink, (const nizwarf_req *req, const char *link, uint64_t parent, NAME, ENTRY), ANY(*e), any) \
	F(rename, (REQ, NAME, uint64_t newparent, const char *newname, uint32_t flags), any) \
	F(link, (REQ, uint64_t newparent, NAME, ENTRY), ANY(*e), any) \
	F(open, (REQ, OPENED), ANY(*fi), any) \
	F(read, (REQ, size_t size, uint64_t off, FI, void *buf, size_t *len), \
	  SEE(fi->fh), fill_all(buf, size, len)) \
	F(write, (REQ, const void *buf, size_t size, uint64_t off, FI, size_t *len), \
	  SEE(fi->fh), *len = ANY_LENGTH(SIZE_MAX), any) \
	F(flush, (REQ, FI), SEE(fi->fh), any) \
	F(release, (REQ, FI), SEE(fi->fh), any) \
	F(fsync, (REQ, int datasync, FI), SEE(fi->fh), any) \
	F(opendir, (REQ, OPENED), ANY(*fi), any) \
	F(releasedir, (REQ, FI), SEE(fi->fh), any) \
	F(fsyncdir, (REQ, int datasync, FI), SEE(fi->fh), any) \
	F(statfs, (REQ, nizwarf_statfs *stat), ANY(*stat), any) \
	F(setxattr, (REQ, NAME, const void *value, size_t size, uint32_t flags), any) \
	F(getxattr, (REQ, NAME, size_t size, void *value, size_t *len), fill_all(value, size, len)) \
	F(listxattr, (REQ, size_t size, char *list, size_t *len), fill_all(list, size, len)) \
	F(removexattr, (REQ, NAME), any) \
	F(access, (REQ, uint32_t mask), any) \
	F(create, (REQ, NAME, uint32_t mode, OPENED, ENTRY), ANY(*fi), ANY(*e), any) \
	F(fallocate, (REQ, uint32_t mode, uint64_t offset, uint64_t length, FI), SEE(fi->fh), any) \
	F(lseek, (REQ, uint64_t off, uint32_t whence, FI, uint64_t *found), \
	  *found = ANY_LENGTH(UINT64_MAX), SEE(fi->fh), any) \
	F(copy_file_range, (REQ, uint64_t off_in, FI, uint64_t ino_out, uint64_t off_out, \
			    const nizwarf_file_info *fi_out, uint64_t size, uint64_t flags, size_t *len), \
	  *len = ANY_LENGTH(SIZE_MAX), SEE(fi->fh), SEE(fi_out->fh), any) \
	F(syncfs, (REQ), any) \
	F(getlk, (REQ, FI, nizwarf_lock *lock), ANY(*lock), SEE(fi->fh), any) \
	F(setlk, (REQ, FI, const nizwarf_lock *lock, int sleep), SEE(lock->start), SEE(fi->fh), any) \
	F(flock, (REQ, FI, int op), SEE(fi->fh), any) \
	F(bmap, (REQ, size_t blocksize, uint64_t idx, uint64_t *block), \
	  *block = ANY_LENGTH(UINT64_MAX), any) \
	F(ioctl, (REQ, uint32_t cmd, uint64_t arg, FI, uint32_t flags, const void *in_buf, size_t in_size, \
		  nizwarf_ioctl *out, void *out_buf, size_t out_size, size_t *len), \
	  ANY(*out), fill_all(out_buf, out_size, len)) \
	F(poll, (REQ, FI, uint32_t events, uint64_t kh, int notify, uint32_t *revents), \
	  *revents = (uint32_t)any, SEE(fi->fh), any) \
	F(tmpfile, (REQ, uint32_t mode, OPENED, ENTRY), ANY(*fi), ANY(*e), any) \
	F(statx, (REQ, uint32_t flags, uint32_t mask, FI, nizwarf_statx *statx, struct timespec *timeout), \
	  fi ? SEE(fi->fh) : 0, ANY(*statx), ANY(*timeout), any)

#define DEFINE(name, parameters, ...) static int op_##name parameters { return __VA_ARGS__; }
OPS(DEFINE)

/* clang-format on */

/* A table that lacks any of them. */
static nizwarf_ops any_table(void)
{
	nizwarf_ops ops;

#define OR_NONE(name, ...) ops.name = any ? op_##name : NULL; /* each is there, or isn't */
	OPS(OR_NONE)
	OR_NONE(destroy)
	OR_NONE(forget)
	OR_NONE(forget_multi)
	OR_NONE(readdir)
	OR_NONE(readdirplus)
	OR_NONE(interrupt)
	OR_NONE(retrieve_reply)
	OR_NONE(bad_error)
	return ops;
}

static void tables(void)
{
	const nizwarf_ops ops = any_table();
	nizwarf_scratch scratch = NIZWARF_SCRATCH_INIT;
	nizwarf_session session;
	nizwarf_dirent items[PIECES];
	nizwarf_answer answer = NIZWARF_ANSWER_INIT;
	nizwarf_call call;
	size_t len;

	ANY(session);
	Frama_C_make_unknown(any_name, sizeof(any_name) - 1);
	ROUNDS(4)
	COUNTS nizwarf_serve_ops(&ops, NULL, OR_NULL(1, &scratch), OR_NULL(2, &session), OR_NULL(3, bytes[0]),
				 ANY_LENGTH(LONGEST), OR_NULL(4, memory[0]), ANY_LENGTH(LONGEST), items,
				 count, &len);
	ANY(call);
	call.reply_size = ANY_LENGTH(LONGEST);
	answer.text = bytes[1];
	answer.text_len = ANY_LENGTH(LONGEST);
	answer.error = any;
	answer.handle = ANY_LENGTH(UINT64_MAX);
	answer.has_handle = (uint32_t)any;
	/* (a call that is answered later, though it may never have been decoded) */
	nizwarf_finish_ops(&ops, NULL, &scratch, &session, &call, &answer, memory[0], &len);
	nizwarf_end_ops(&ops, NULL, &session);
}

static void values(void)
{
	struct stat st;
	struct statvfs held;

	ANY(st);
	ANY(held);
	nizwarf_attr_of(&st);
	nizwarf_statfs_of(&held);
	nizwarf_timeout(Frama_C_double_interval(-1e308, 1e308)); /* any number of seconds */
}

static void fill_memory(void)
{
	Frama_C_make_unknown((char *)bytes, sizeof(bytes));
	Frama_C_make_unknown((char *)memory, sizeof(memory));
}

/* lib/codec.c, lib/messages.c and lib/server.c. */
void codecs(void)
{
	fill_memory();
	decodes();
	encodes();
	checks();
	texts();
	interrupts();
	servers();
}

/* lib/ops.c and lib/convert.c. */
void ops(void)
{
	fill_memory();
	tables();
	values();
}

#endif
