/* A file system over libfuse whose answers are wrong, and one whose memory is refused.
 *
 * Usage: wrong answers|memory|keys|threads
 * It hands requests to a session by fuse_session_process_buf, and takes the replies by custom io. With `answers` the
 * file system answers by a number that is no error, by a text that is too long, by the record of another call: each is
 * to come to who asked as an error that Linux takes, and the next request is served; and interrupts come to their
 * requests. With `memory` each allocation of each of some requests is refused in turn, on a new thread: one reply comes,
 * of an error or of success, and each entry and each lookup that is given back is told; and what a sanitizer takes for
 * a fault of the file system, as a request that is answered twice, loses nothing. With `keys` the process has no key of
 * pthread_key_create(3) left when the library begins: a request is answered ENOMEM, and nobody else's key is used. With
 * `threads` others answer, and interrupts come meanwhile. It prints how many of how many did so. Status 0: all. */
#define _GNU_SOURCE
#define FUSE_USE_VERSION 317
#include <cuse_lowlevel.h>
#include <errno.h>
#include <fcntl.h>
#include <fuse_lowlevel.h>
#include <limits.h>
#include <linux/fuse.h>
#include <malloc.h>
#include <pthread.h>
#include <sched.h>
#include <stdatomic.h>
#include <stdio.h>
#include <stdlib.h>
#include <string.h>
#include <sys/mman.h>
#include <sys/uio.h>
#include <unistd.h>

/* (not each function of libfuse's looks at all that it is handed) */
#pragma GCC diagnostic ignored "-Wunused-parameter"

/* Bytes of a message at most, and of a link that is too long for Linux. */
enum { SIZE = 1 << 16, LONGEST = 5000 };

static struct fuse_session *session;
static char reply[SIZE]; /* the last one, of `reply_len` bytes */
static size_t reply_len;
static int replies, passed, tried; /* to the last request; judgements */
static char text[LONGEST + 1];
/* How many entries the client holds, and how many it should. */
static long held, owed;
/* Which allocation is refused: 0 none. (of a thread: what the others allocate goes on) */
static _Thread_local long refused, allocated;

#ifdef REFUSE
/* (by which glibc's own functions go too, so that those are not refused) */
void *__libc_malloc(size_t size);
void *__libc_calloc(size_t count, size_t size);
void *__libc_realloc(void *at, size_t size);

/* Whether the allocation that is asked for now is the one. */
static int is_refused(void)
{
	return refused && ++allocated == refused;
}

/* (in place of the C library's: so libfuse's own allocations can be refused, one after another) */
void *malloc(size_t size)
{
	return is_refused() ? NULL : __libc_malloc(size);
}

void *calloc(size_t count, size_t size)
{
	return is_refused() ? NULL : __libc_calloc(count, size);
}

void *realloc(void *at, size_t size)
{
	return is_refused() ? NULL : __libc_realloc(at, size);
}
#endif

/* Takes what libfuse writes to a kernel: a reply, or a notice. (in as many pieces as writev(2) takes) */
static ssize_t take_reply(int fd, struct iovec *iov, int count, void *user)
{
	size_t at = 0;
	int i;

	if (count > IOV_MAX) {
		errno = EINVAL;
		return -1;
	}
	for (i = 0; i < count; i++) {
		if (at + iov[i].iov_len > sizeof(reply))
			abort();
		memcpy(reply + at, iov[i].iov_base, iov[i].iov_len);
		at += iov[i].iov_len;
	}
	reply_len = at;
	replies++;
	return (ssize_t)at;
}

/* The next message of the client. */
static const char *next_message;
static size_t next_len;

/* Gives the next message as a kernel does, to who reads, or into libfuse's pipe. */
static ssize_t give_request(int fd, void *at, size_t len, void *user)
{
	if (next_len > len)
		abort();
	memcpy(at, next_message, next_len);
	return (ssize_t)next_len;
}

/* (by splice(2) a kernel gives a message whole, or an error) */
static ssize_t give_to_pipe(int fd, off_t *from, int pipe, off_t *to, size_t len, unsigned int flags,
			    void *user)
{
	return next_len > len ? -1 : write(pipe, next_message, next_len);
}

/* ---- The file system: what it does with a name is the name --------------------------------------- */

/* Counts the lookup that the client gets with it. */
static void give_entry(fuse_req_t req)
{
	struct fuse_entry_param entry = { .ino = 2, .attr = { .st_ino = 2, .st_mode = S_IFREG | 0644 } };

	held++;
	/* (the client didn't get it: so it holds no lookup) */
	if (fuse_reply_entry(req, &entry) == -ENOENT)
		held--;
}

/* Times as libfuse spells them. */
static const struct {
	double time;
	uint64_t seconds;
	uint32_t nanoseconds;
} times[] = {
	{ 0, 0, 0 },
	{ 1, 1, 0 },
	{ 0.5, 0, 500000000 },
	{ 86400.25, 86400, 250000000 },
	{ 0.9999999999, 0, 999999999 },
	/* the least bit of a number this large is still a part of a second */
	{ 1e14 + 0.5, 100000000000000, 500000000 },
	{ 1e15, 1000000000000000, 0 },
	{ 1e18, 1000000000000000000, 0 },
	{ 2e19, UINT64_MAX, 999999999 }, /* more than 64 bits */
	{ -1, 0, 0 },
	{ -0.0, 0, 0 },
};

enum { TIMES = sizeof(times) / sizeof(*times) };

/* Gives an entry with one of the times, and the next one for its attributes. */
static void give_times(fuse_req_t req, size_t i)
{
	struct fuse_entry_param entry = { .ino = 2, .attr = { .st_ino = 2, .st_mode = S_IFREG | 0644 } };

	entry.entry_timeout = times[i].time;
	entry.attr_timeout = times[(i + 1) % TIMES].time;
	fuse_reply_entry(req, &entry);
}

/* A request that waits for its answer, and how often it was told of an interrupt. (on_getattr answers nothing: end()
 * does) */
static fuse_req_t waiting;
static int interrupts;

/* Called by libfuse as an interrupt comes, or at once if it came before. */
static void on_interrupt(fuse_req_t req, void *data)
{
	interrupts += req == waiting;
}

/* How many answers to one request were taken. */
static int taken; /* as libfuse says by 0 */

/* Answers in several ways, after the request has ended. */
static void answer_again(fuse_req_t req)
{
	struct fuse_entry_param entry = { .ino = 2 };
	struct fuse_bufvec data = FUSE_BUFVEC_INIT(3);

	data.buf[0].mem = text;
	taken = !fuse_reply_err(req, ENOENT);
	taken += !fuse_reply_err(req, ENOENT);
	taken += !fuse_reply_entry(req, &entry);
	taken += !fuse_reply_write(req, 1);
	taken += !fuse_reply_buf(req, text, 3);
	taken += !fuse_reply_data(req, &data, 0);
	taken += !fuse_reply_readlink(req, "link");
	fuse_req_interrupt_func(req, on_interrupt, NULL);
	taken += fuse_req_interrupted(req);
	fuse_reply_none(req);
}

/* What is wrong is the answer's kind or its number, never the call. */
static void on_lookup(fuse_req_t req, fuse_ino_t parent, const char *name)
{
	const struct statvfs st = { .f_bsize = 1 };

	if (*name == 'e')
		fuse_reply_err(req, atoi(name + 1));
	else if (!strcmp(name, "none"))
		fuse_reply_err(req, 0);
	else if (!strcmp(name, "statfs"))
		fuse_reply_statfs(req, &st);
	else if (!strcmp(name, "bytes"))
		fuse_reply_buf(req, "bytes", 5);
	else if (!strcmp(name, "good"))
		give_entry(req);
	else if (!strcmp(name, "again"))
		answer_again(req);
	else if (*name == 't')
		give_times(req, (size_t)atoi(name + 1));
	else
		fuse_reply_err(req, ENOENT);
}

/* Of node 2 a text that Linux takes, of others one that it doesn't. */
static void on_readlink(fuse_req_t req, fuse_ino_t ino)
{
	fuse_reply_readlink(req, ino == 2 ? "short" : text);
}

/* Of node 2 what was asked for, of 4 more than there is memory for, of others a byte more; of no size the value
 * itself, which isn't its length. */
static void on_getxattr(fuse_req_t req, fuse_ino_t ino, const char *name, size_t size)
{
	struct fuse_bufvec endless = FUSE_BUFVEC_INIT(SIZE_MAX);

	endless.buf[0].mem = text;
	if (!size)
		fuse_reply_buf(req, text, 3);
	else if (ino == 4)
		fuse_reply_data(req, &endless, 0);
	else
		fuse_reply_buf(req, text, ino == 2 ? size : size + 1);
}

/* Answers by pieces whose lengths have the sum 8, if nobody looks for an overflow. */
static void answer_around(fuse_req_t req)
{
	const struct iovec pieces[] = { { text, 16 }, { text, SIZE_MAX - 7 } };

	fuse_reply_iov(req, pieces, 2);
}

/* Answers by as many pieces as a kernel takes from nobody, of a byte each. */
enum { PIECES = 2000 };

/* As many pieces as a reply may have, of a byte each: a reply that is built in pieces has no room of a
 * fixed size. */
static void answer_by_pieces(fuse_req_t req)
{
	struct iovec pieces[PIECES];
	size_t i;

	for (i = 0; i < PIECES; i++) {
		pieces[i].iov_base = text + i;
		pieces[i].iov_len = 1;
	}
	fuse_reply_iov(req, pieces, PIECES);
}

/* As on_getxattr; of node 5 by pieces that are too long, and of node 6 by many. */
static void on_read(fuse_req_t req, fuse_ino_t ino, size_t size, off_t off, struct fuse_file_info *fi)
{
	struct fuse_bufvec endless = FUSE_BUFVEC_INIT(SIZE_MAX);

	endless.buf[0].mem = text;
	if (ino == 4)
		fuse_reply_data(req, &endless, 0);
	else if (ino == 5)
		answer_around(req);
	else if (ino == 6)
		answer_by_pieces(req);
	else
		fuse_reply_buf(req, text, ino == 2 ? size : size + 1);
}

/* What came of a WRITE. */
static char written[SIZE];
static size_t written_len;

/* By write_buf, so that data stay in the pipe until they are copied here. */
static void on_write(fuse_req_t req, fuse_ino_t ino, struct fuse_bufvec *from, off_t off,
		     struct fuse_file_info *fi)
{
	struct fuse_bufvec to = FUSE_BUFVEC_INIT(fuse_buf_size(from));

	to.buf[0].mem = written;
	/* (of node 3 a part is left where it is) */
	if (ino == 3)
		to.buf[0].size /= 2;
	written_len = (size_t)fuse_buf_copy(&to, from, 0);
	fuse_reply_write(req, written_len);
}

/* A record of a name of `len` bytes, of which one is 0 if there are as many, is told as a node from NAMES on. The
 * node is NAMES, and PLACES for each byte of the name, and where the 0 is, or NONE. */
enum { NAMES = 1000, LONGEST_NAME = 40, PLACES = 64, NONE = PLACES - 1 };

/* (libfuse's function takes a name up to its 0: so that is put in after it) */
static void list_name(fuse_req_t req, size_t len, size_t zero)
{
	const struct stat st = { .st_ino = 2, .st_mode = S_IFREG };
	char name[LONGEST_NAME + 1];
	_Alignas(8) char at[128];
	size_t whole;

	memset(at, 'x', sizeof(at)); /* so that what fills the record up shows */
	memcpy(name, text, len);
	name[len] = 0;
	whole = fuse_add_direntry(req, at, sizeof(at), name, &st, 1);
	if (zero < len)
		at[24 + zero] = 0;
	fuse_reply_buf(req, at, whole);
}

/* Two records, in as many pieces. */
static void list_by_pieces(fuse_req_t req)
{
	const struct stat st = { .st_ino = 2, .st_mode = S_IFREG };
	_Alignas(8) char at[64] = { 0 };
	const size_t len = fuse_add_direntry(req, at, sizeof(at), "name", &st, 1);
	/* (cut within the first record, and within the second) */
	const struct iovec pieces[] = { { at, len - 1 }, { at + len - 1, 9 }, { at + len + 8, len - 8 } };

	fuse_add_direntry(req, at + len, sizeof(at) - len, "other", &st, 2);
	fuse_reply_iov(req, pieces, 3);
}

/* A listing of many records, which is replied with as it is here, in memory of its own length. */
enum { MANY = 60 }; /* records, some 3 KiB */
static _Alignas(8) char listing[SIZE];
static size_t listing_len;

/* A copy of the listing, which goes as soon as it is handed over: nobody may read it later. */
static void list_many(fuse_req_t req)
{
	char *at = malloc(listing_len);

	if (!at)
		exit(2);
	memcpy(at, listing, listing_len);
	fuse_reply_buf(req, at, listing_len);
	free(at);
}

static void on_readdirplus(fuse_req_t req, fuse_ino_t ino, size_t size, off_t off, struct fuse_file_info *fi)
{
	list_many(req);
}

/* A directory's records: whole, with a name that ends after them, without a name, with a 0 in it, or too many. */
static void on_readdir(fuse_req_t req, fuse_ino_t ino, size_t size, off_t off, struct fuse_file_info *fi)
{
	const struct stat st = { .st_ino = 2, .st_mode = S_IFREG };
	_Alignas(8) char at[64] = { 0 };
	uint32_t long_name = 40, none = 0; /* put in place of the name's length */
	size_t len = fuse_add_direntry(req, at, sizeof(at), "name", &st, 1);

	if (ino >= NAMES) {
		list_name(req, (ino - NAMES) / PLACES, (ino - NAMES) % PLACES);
		return;
	}
	if (ino == 7) {
		list_by_pieces(req);
		return;
	}
	if (ino == 8) {
		list_many(req);
		return;
	}
	if (ino == 9) {
		answer_around(req);
		return;
	}
	if (ino == 3)
		memcpy(at + 16, &long_name, 4);
	else if (ino == 4)
		memcpy(at + 16, &none, 4);
	else if (ino == 5)
		at[25] = 0;
	/* more than the caller asked for */
	fuse_reply_buf(req, ino == 6 ? text : at, ino == 6 ? size + 8 : len);
}

/* Node 3 is answered as a WRITE, node 4 by no handle. */
static void on_open(fuse_req_t req, fuse_ino_t ino, struct fuse_file_info *fi)
{
	if (ino == 2)
		fuse_reply_open(req, fi);
	else if (ino == 3)
		taken = !fuse_reply_write(req, 1);
	else
		fuse_reply_err(req, 0);
}

/* Of node 4 half a record, of 3 a byte more than was asked for, of 5 and 6 by a length that is -1. */
static void on_ioctl(fuse_req_t req, fuse_ino_t ino, unsigned int cmd, void *arg, struct fuse_file_info *fi,
		     unsigned flags, const void *in, size_t in_size, size_t out_size)
{
	if (ino == 4)
		fuse_reply_buf(req, text, 8);
	else if (ino == 5)
		fuse_reply_ioctl(req, 0, text, SIZE_MAX);
	else if (ino == 6)
		fuse_reply_buf(req, text, SIZE_MAX);
	else
		fuse_reply_ioctl(req, 0, text, ino == 2 ? out_size : out_size + 1);
}

/* Takes back lookups that the client holds: those that the file system was told of. */
static void on_forget(fuse_req_t req, fuse_ino_t ino, uint64_t lookups)
{
	held -= (long)lookups;
	fuse_reply_none(req);
}

/* (the memory of a request stays its own until it's answered) */
static void on_getattr(fuse_req_t req, fuse_ino_t ino, struct fuse_file_info *fi)
{
	waiting = req;
}

/* How many bytes came of what a notice asked for. */
static size_t retrieved;
static char kept[1 << 17]; /* what was retrieved */

/* What the kernel had: its reply is a request, with no reply of its own. */
static void on_retrieved(fuse_req_t req, void *cookie, fuse_ino_t ino, off_t off, struct fuse_bufvec *bufv)
{
	struct fuse_bufvec to = FUSE_BUFVEC_INIT(sizeof(kept));

	to.buf[0].mem = kept;
	retrieved = (size_t)fuse_buf_copy(&to, bufv, 0);
	fuse_reply_none(req);
}

static const struct fuse_lowlevel_ops ops = {
	.lookup = on_lookup,
	.getattr = on_getattr,
	.readlink = on_readlink,
	.getxattr = on_getxattr,
	.read = on_read,
	.write_buf = on_write,
	.readdir = on_readdir,
	.readdirplus = on_readdirplus,
	.open = on_open,
	.ioctl = on_ioctl,
	.forget = on_forget,
	.retrieve_reply = on_retrieved,
};

/* ---- Requests -------------------------------------------------------------------------------------- */

struct request {
	uint32_t opcode;
	uint64_t node;
	const void *record;
	size_t size;
	/* What it is to be answered by: 0, the number of an error, or below 0 no reply. */
	int error;
	const char *what; /* how it's called where it's wrong */
	/* How many entries it gives back. */
	int forgets;
};

/* Lays a message out, and answers its length. The number of each request here is 7, since one is served at a time. */
static size_t put_message(char *at, const struct request *r)
{
	const struct fuse_in_header in = {
		.len = (uint32_t)(sizeof(in) + r->size), .opcode = r->opcode, .unique = 7, .nodeid = r->node
	};

	memcpy(at, &in, sizeof(in));
	if (r->size)
		memcpy(at + sizeof(in), r->record, r->size);
	return in.len;
}

/* (a copy of its own length: what is after it isn't the request's) */
static void send_request(const struct request *r)
{
	static _Thread_local _Alignas(8) char room[SIZE];
	struct fuse_buf buf = { .mem = room };

	buf.size = put_message(room, r);
	replies = 0;
	fuse_session_process_buf(session, &buf);
}

/* Has the session go by custom io, on a descriptor that nothing is read from: it's standard input again. */
static int begin_io(const struct fuse_custom_io *io)
{
#if FUSE_VERSION >= FUSE_MAKE_VERSION(3, 17)
	return fuse_session_custom_io(session, io, sizeof(*io), dup(0));
#else
	return fuse_session_custom_io(session, io, dup(0));
#endif
}

/* Has the session receive a request itself, by a pipe if it is long; with some bytes after it. (libfuse reads a
 * message into the pipe if it's longer than some pages) */
static void receive_request(const struct request *r, size_t more)
{
	static _Alignas(8) char room[SIZE];
	struct fuse_buf buf = { .size = 0 };

	next_message = room;
	next_len = put_message(room, r) + more;
	replies = 0;
	if (fuse_session_receive_buf(session, &buf) == (int)next_len)
		fuse_session_process_buf(session, &buf);
	free(buf.mem); /* libfuse's, which it allocates at the first message */
}

/* Zeros, if there is none. */
static struct fuse_out_header header_of_reply(void)
{
	struct fuse_out_header out = { 0 };

	if (replies)
		memcpy(&out, reply, sizeof(out));
	return out;
}

/* What requests are made of: records as linux/fuse.h has them. Sizes are in bytes. */
static const struct fuse_init_in init = {
	.major = 7, .minor = 38, .max_readahead = 65536, .flags = FUSE_BIG_WRITES
};
static const struct fuse_getxattr_in attribute[] = { { .size = 8 }, { .size = 0 } };
static const struct fuse_read_in reading = { .size = 64 }, much = { .size = 4096 },
				 most = { .size = SIZE / 2 };
static const struct fuse_open_in opening = { 0 };
static const struct fuse_ioctl_in asking = { .out_size = 8 };
static const struct fuse_forget_in one_forget = { .nlookup = 1 };
static const struct {
	struct fuse_batch_forget_in in;
	struct fuse_forget_one one[2];
} two_forgets = { { .count = 2 }, { { 2, 1 }, { 2, 1 } } };
static struct {
	struct fuse_getxattr_in in;
	char name[8];
} value = { { .size = 8 }, "user.a" }, length = { { .size = 0 }, "user.a" };

#define NAME(name, error)                                                    \
	{                                                                    \
		FUSE_LOOKUP, 1, name, sizeof(name), error, "LOOKUP " name, 0 \
	}

static const struct request wrong[] = {
	NAME("none", EIO),
	NAME("statfs", EIO),
	NAME("bytes", EIO),
	{ FUSE_READLINK, 3, NULL, 0, EIO, "a link of 5000 bytes", 0 },
	{ FUSE_GETXATTR, 3, &value, sizeof(value.in) + 7, ERANGE, "a value of 9 bytes for 8", 0 },
	{ FUSE_GETXATTR, 2, &length, sizeof(length.in) + 7, EIO, "a value for its length", 0 },
	{ FUSE_READ, 3, &reading, sizeof(reading), EIO, "65 bytes for 64", 0 },
	{ FUSE_READ, 4, &reading, sizeof(reading), EIO, "2^64 - 1 bytes for 64", 0 },
	{ FUSE_READ, 5, &reading, sizeof(reading), EIO, "2^64 + 8 bytes for 64", 0 },
	{ FUSE_READDIR, 3, &reading, sizeof(reading), EIO, "a name past its record", 0 },
	{ FUSE_READDIR, 4, &reading, sizeof(reading), EIO, "a record without a name", 0 },
	{ FUSE_READDIR, 5, &reading, sizeof(reading), EIO, "a name with a 0", 0 },
	{ FUSE_READDIR, 6, &reading, sizeof(reading), EIO, "records for more than the size", 0 },
	{ FUSE_READDIR, 9, &reading, sizeof(reading), EIO, "2^64 + 8 bytes of records", 0 },
	{ FUSE_OPEN, 3, &opening, sizeof(opening), EIO, "an OPEN that was written", 0 },
	{ FUSE_OPEN, 4, &opening, sizeof(opening), EIO, "an OPEN without a handle", 0 },
	{ FUSE_IOCTL, 3, &asking, sizeof(asking), EIO, "9 bytes for 8 of an IOCTL", 0 },
	{ FUSE_IOCTL, 4, &asking, sizeof(asking), EIO, "half a record of an IOCTL", 0 },
	{ FUSE_IOCTL, 5, &asking, sizeof(asking), EIO, "2^64 - 1 bytes after a record", 0 },
	{ FUSE_IOCTL, 6, &asking, sizeof(asking), EIO, "2^64 - 1 bytes of a record", 0 },
};

/* What comes by a pipe. */
static struct {
	struct fuse_batch_forget_in in;
	struct fuse_forget_one one[300];
} many_forgets = { .in.count = 300 };
static struct {
	struct fuse_write_in in;
	char data[8000];
} writing = { .in.size = 8000 };
static const struct request forgets_by_pipe = {
	FUSE_BATCH_FORGET, 0, &many_forgets, sizeof(many_forgets), -1, "BATCH_FORGET by a pipe", 300
};

static const struct request good[] = {
	{ FUSE_LOOKUP, 1, "good", 5, 0, "LOOKUP", 0 },
	{ FUSE_READLINK, 2, NULL, 0, 0, "READLINK", 0 },
	{ FUSE_GETXATTR, 2, &value, sizeof(value.in) + 7, 0, "GETXATTR", 0 },
	{ FUSE_READ, 2, &reading, sizeof(reading), 0, "READ", 0 },
	{ FUSE_READ, 6, &much, sizeof(much), 0, "READ by many pieces", 0 },
	{ FUSE_READDIR, 2, &reading, sizeof(reading), 0, "READDIR", 0 },
	{ FUSE_READDIR, 7, &reading, sizeof(reading), 0, "READDIR by pieces", 0 },
	{ FUSE_WRITE, 2, &writing, sizeof(writing), 0, "WRITE", 0 },
	{ FUSE_OPEN, 2, &opening, sizeof(opening), 0, "OPEN", 0 },
	{ FUSE_IOCTL, 2, &asking, sizeof(asking), 0, "IOCTL", 0 },
	{ FUSE_FORGET, 2, &one_forget, sizeof(one_forget), -1, "FORGET", 1 },
	{ FUSE_BATCH_FORGET, 0, &two_forgets, sizeof(two_forgets), -1, "BATCH_FORGET", 2 },
};

/* Counts whether something is so, and prints what isn't. */
static void judge(const char *what, int good_so)
{
	tried++;
	passed += good_so;
	if (!good_so)
		printf("%s: %d replies, of %zu bytes, error %d; %ld entries held, %ld owed\n", what, replies,
		       reply_len, replies ? header_of_reply().error : 0, held, owed);
}

/* Whether a request is answered by one reply, of this error. */
static int is_answered(const struct request *r)
{
	const struct fuse_out_header out = header_of_reply();

	if (r->error < 0)
		return !replies;
	return replies == 1 && out.unique == 7 && out.len == reply_len && out.error == -r->error &&
	       (!r->error || out.len == sizeof(out));
}

/* A descriptor with this in it, as a pipe has it. */
static int fill_file(const char *at, size_t len)
{
	const int fd = memfd_create("message", 0);

	if (fd < 0 || write(fd, at, len) != (ssize_t)len || lseek(fd, 0, SEEK_SET))
		exit(2);
	return fd;
}

/* What a notice asks for comes whole, however long it is. */
static void try_retrieve(size_t size, int by_file)
{
	struct fuse_notify_retrieve_out asked;
	struct fuse_notify_retrieve_in in = { .size = (uint32_t)size };
	static _Alignas(8) char room[sizeof(kept)];
	struct fuse_in_header head = { .len = (uint32_t)(sizeof(head) + sizeof(in) + size),
				       .opcode = FUSE_NOTIFY_REPLY,
				       .nodeid = 2 };
	struct fuse_buf buf = { .size = head.len, .mem = room };
	size_t i;

	retrieved = 0;
	for (i = 0; i < size; i++)
		room[sizeof(head) + sizeof(in) + i] = (char)(i * 7 >> 3); /* bytes that don't repeat soon */
	/* (so libfuse waits for a reply with a number of its own) */
	fuse_lowlevel_notify_retrieve(session, 2, size, 0, NULL);
	memcpy(&asked, reply + sizeof(struct fuse_out_header), sizeof(asked));
	head.unique = asked.notify_unique;
	memcpy(room, &head, sizeof(head));
	memcpy(room + sizeof(head), &in, sizeof(in));
	replies = 0;
	if (by_file) {
		buf.flags = FUSE_BUF_IS_FD;
		buf.fd = fill_file(room, buf.size);
	}
	fuse_session_process_buf(session, &buf);
	if (by_file)
		close(buf.fd);
	judge("what was retrieved",
	      !replies && retrieved == size && !memcmp(kept, room + sizeof(head) + sizeof(in), size));
}

/* Whether the session takes the next request for what it is. (what is left in the pipe would be taken for its
 * begin) */
static int goes_on(void)
{
	static const struct request next = { FUSE_READLINK, 2, NULL, 0, 0, "READLINK", 0 };

	receive_request(&next, 0);
	return is_answered(&next) && reply_len == sizeof(struct fuse_out_header) + 5 &&
	       !memcmp(reply + sizeof(struct fuse_out_header), "short", 5);
}

/* What comes by a pipe, as if by a kernel: the next request begins after it. */
static void try_pipes(void)
{
	struct request request = { FUSE_WRITE, 2, &writing, sizeof(writing), 0, "a WRITE by a pipe", 0 };
	struct fuse_write_out out;
	const long before = held;
	size_t i;

	for (i = 0; i < sizeof(writing.data); i++)
		writing.data[i] = (char)(i * 11 >> 3);
	for (i = 0; i < sizeof(many_forgets.one) / sizeof(*many_forgets.one); i++)
		many_forgets.one[i] = (struct fuse_forget_one){ 2, 1 };
	receive_request(&request, 0);
	memcpy(&out, reply + sizeof(struct fuse_out_header), sizeof(out));
	judge(request.what, is_answered(&request) && out.size == sizeof(writing.data) &&
				    !memcmp(written, writing.data, sizeof(writing.data)) && goes_on());
	request.node = 3;
	receive_request(&request, 0);
	judge("half a WRITE", replies == 1 && goes_on());
	receive_request(&request, 100);
	judge("a WRITE with bytes after it", replies == 1 && goes_on());
	writing.in.size += 100;
	receive_request(&request, 0);
	judge("a WRITE of more than there is", replies == 1 && header_of_reply().error < 0 && goes_on());
	writing.in.size -= 100;
	receive_request(&forgets_by_pipe, 0);
	judge(forgets_by_pipe.what, !replies && held == before - forgets_by_pipe.forgets && goes_on());
}

/* An INTERRUPT of the request with this number, which has a number of its own, 7 too. */
static void interrupt(uint64_t unique)
{
	const struct fuse_interrupt_in in = { .unique = unique };
	const struct request r = { FUSE_INTERRUPT, 0, &in, sizeof(in), -1, "INTERRUPT", 0 };

	send_request(&r);
}

/* Begins a request that waits, after its interrupt, or before that, or without. */
static void begin(int before, int after)
{
	static const struct fuse_getattr_in none;
	static const struct request r = { FUSE_GETATTR, 1, &none, sizeof(none), -1, "GETATTR", 0 };

	if (before)
		interrupt(7);
	send_request(&r);
	if (after)
		interrupt(7);
}

/* Answers the request that waits, and judges; `good_so` was looked at before it. */
static void end(const char *what, int good_so)
{
	replies = 0;
	fuse_reply_err(waiting, EINTR);
	judge(what, good_so && replies == 1 && header_of_reply().error == -EINTR);
}

/* An interrupt comes to its request, whichever of the two is first, and whenever the file system asks. */
static void try_interrupts(void)
{
	int i, calls;

	begin(0, 0);
	end("no interrupt", !fuse_req_interrupted(waiting));
	begin(0, 1);
	end("an interrupt", fuse_req_interrupted(waiting));
	begin(1, 0);
	end("an interrupt before its request", fuse_req_interrupted(waiting));
	begin(0, 0);
	i = fuse_req_interrupted(waiting);
	interrupt(7);
	end("an interrupt after it was asked for", !i && fuse_req_interrupted(waiting));
	begin(0, 0);
	fuse_req_interrupt_func(waiting, on_interrupt, NULL);
	interrupt(8);
	i = interrupts;
	interrupt(7);
	end("an interrupt for a function", !i && interrupts == 1);
	begin(0, 1);
	fuse_req_interrupt_func(waiting, on_interrupt, NULL);
	end("a function for an interrupt", interrupts == 2);
	begin(0, 1);
	end("an interrupt that nobody asks for", 1);
	begin(0, 0);
	end("an interrupt of the one before", !fuse_req_interrupted(waiting));
	for (i = 0; i < 100; i++)
		interrupt(1000 + (uint64_t)i);
	begin(0, 0);
	/* (the oldest is sent back as a call comes: more than 64 are kept) */
	i = replies == 1 && header_of_reply().error == -EAGAIN;
	end("the oldest of 100 that have no request", i);
	/* (so is each after some calls, that of number 8 too, and none is left for each request to look at) */
	for (i = calls = 0; calls < 5000; calls++) {
		replies = 0;
		begin(0, 0);
		i += replies;
		fuse_reply_err(waiting, EINTR);
	}
	judge("the others, and each once", i == 100);
}

/* Names of each length, with a 0 at each place: Linux takes those that have none, and what fills the last eight up is
 * 0. */
static void try_names(void)
{
	struct request asked = { FUSE_READDIR, 0, &much, sizeof(much), 0, "a name", 0 };
	struct fuse_dirent record;
	char expected[LONGEST_NAME];
	size_t len, zero, right = 0, whole;

	for (len = 1; len <= LONGEST_NAME; len++)
		for (zero = 0; zero <= len; zero++) {
			asked.node = NAMES + len * PLACES + (zero < len ? zero : NONE);
			asked.error = zero < len ? EIO : 0;
			send_request(&asked);
			/* of the reply: its header, the record's, and the name, filled up */
			whole = 16 + 24 + (len + 7) / 8 * 8;
			memset(expected, 0, sizeof(expected));
			memcpy(expected, text, len);
			memcpy(&record, reply + 16, sizeof(record));
			if (zero < len)
				right += is_answered(&asked) != 0;
			else
				right += is_answered(&asked) && reply_len == whole && record.namelen == len &&
					 record.type == S_IFREG >> 12 && record.ino == 2 && record.off == 1 &&
					 !memcmp(reply + 40, expected, whole - 40);
		}
	/* (of a name of n bytes there are n + 1 cases) */
	judge("names of each length", right == LONGEST_NAME * (LONGEST_NAME + 3) / 2);
}

/* Data and records come whole by any number of pieces. */
static void try_pieces(void)
{
	static const struct request many = { FUSE_READ, 6, &much, sizeof(much), 0, "data by pieces", 0 };
	static const struct request asked = { FUSE_READDIR, 7, &reading, sizeof(reading), 0, "pieces", 0 };
	struct fuse_dirent record[2];
	const char *at = reply + sizeof(struct fuse_out_header);

	send_request(&asked);
	memcpy(&record[0], at, sizeof(*record));
	memcpy(&record[1], at + 32, sizeof(*record));
	judge("a listing by pieces", is_answered(&asked) &&
					     reply_len == sizeof(struct fuse_out_header) + 64 &&
					     record[0].namelen == 4 && record[1].namelen == 5 &&
					     !memcmp(at + 24, "name", 4) && !memcmp(at + 56, "other", 5));
	send_request(&many);
	judge(many.what, is_answered(&many) && reply_len == sizeof(struct fuse_out_header) + PIECES &&
				 !memcmp(at, text, PIECES));
}

/* Makes a listing: with types, without, or with inode numbers that look like the length of a name and a type. */
static void make_listing(size_t front, int kind)
{
	const struct fuse_entry_param e = { .ino = 2,
					    .attr = { .st_ino = kind == 2 ? UINT64_C(0x800000005) : 2,
						      .st_mode = kind == 1 ? 0 : S_IFREG } };
	char name[LONGEST_NAME + 1], *at = listing;
	size_t i, len;

	for (i = 1; i <= MANY; i++) {
		len = 1 + i * 7 % LONGEST_NAME; /* each length comes */
		memcpy(name, text, len);
		name[len] = 0;
		if (front)
			at += fuse_add_direntry_plus(NULL, at, SIZE, name, &e, (off_t)i);
		else
			at += fuse_add_direntry(NULL, at, SIZE, name, &e.attr, (off_t)i);
	}
	listing_len = (size_t)(at - listing);
}

/* How many bytes of the listing Linux takes, record by record: up to one that is cut. 0: it is to be refused. */
static size_t taken_of_listing(size_t front)
{
	size_t at, whole;
	uint32_t len;

	for (at = 0; listing_len - at >= front + 24; at += whole) {
		memcpy(&len, listing + at + front + 16, sizeof(len));
		whole = front + 24 + ((size_t)len + 7) / 8 * 8;
		if (!len)
			return 0;
		if (whole > listing_len - at)
			/* (as bindings/libfuse/listings.h says of Linux) */
			return len > 4096 ? 0 : at;
		if (memchr(listing + at + front + 24, 0, len))
			return 0;
	}
	return at;
}

/* Whether that many bytes of it come to the client, or EIO. */
static int is_listed(size_t front)
{
	const size_t taken_len = taken_of_listing(front);
	const struct request asked = { front ? FUSE_READDIRPLUS : FUSE_READDIR,
				       8,
				       &most,
				       sizeof(most),
				       taken_len ? 0 : EIO,
				       "a listing",
				       0 };

	send_request(&asked);
	if (!taken_len)
		return is_answered(&asked);
	return is_answered(&asked) && reply_len == sizeof(struct fuse_out_header) + taken_len &&
	       !memcmp(reply + sizeof(struct fuse_out_header), listing, taken_len);
}

/* Long listings: whole, cut anywhere, and with up to three bytes that are others. */
static void try_listings(size_t front)
{
	enum { EDITED = 20000 };
	size_t right = 0, asked = 0, whole;
	int kind, i, edits;

	srandom(1); /* the same each time */
	for (kind = 0; kind < 3; kind++) {
		make_listing(front, kind);
		whole = listing_len;
		judge("a long listing", taken_of_listing(front) == whole && is_listed(front));
		for (listing_len = 1; listing_len < whole; listing_len++, asked++)
			right += is_listed(front);
		for (i = 0; i < EDITED; i++, asked++) {
			make_listing(front, kind);
			/* (any byte, or a 0) */
			for (edits = i % 3; edits >= 0; edits--)
				listing[(size_t)random() % whole] = (char)(random() & 1 ? random() : 0);
			right += is_listed(front);
		}
	}
	judge("long listings that are wrong", right == asked);
}

/* Each time as libfuse's own functions make it of a double. */
static void try_times(void)
{
	struct request asked = { FUSE_LOOKUP, 1, NULL, 0, 0, "a time", 0 };
	struct fuse_entry_out entry;
	size_t i, next, right = 0;
	char name[8];

	for (i = 0; i < TIMES; i++) {
		next = (i + 1) % TIMES;
		asked.record = name;
		asked.size = (size_t)snprintf(name, sizeof(name), "t%zu", i) + 1;
		send_request(&asked);
		memcpy(&entry, reply + 16, sizeof(entry));
		right += is_answered(&asked) && entry.entry_valid == times[i].seconds &&
			 entry.entry_valid_nsec == times[i].nanoseconds &&
			 entry.attr_valid == times[next].seconds &&
			 entry.attr_valid_nsec == times[next].nanoseconds;
	}
	judge("times of entries", right == TIMES);
}

/* ---- A character device ---------------------------------------------------------------------------- */

/* libfuse's functions of a device have no node. */
static void on_device_open(fuse_req_t req, struct fuse_file_info *fi)
{
	fi->fh = 5;
	fuse_reply_open(req, fi);
}

/* Nine bytes, where the handle is that of the open. */
static void on_device_read(fuse_req_t req, size_t size, off_t off, struct fuse_file_info *fi)
{
	fuse_reply_buf(req, text, fi->fh == 5 && size > 9 ? 9 : size);
}

/* All of it, if it's the bytes that were sent. */
static void on_device_write(fuse_req_t req, const char *buf, size_t size, off_t off,
			    struct fuse_file_info *fi)
{
	fuse_reply_write(req, size == 6 && !memcmp(buf, "bytes", 6) ? 6 : 0);
}

/* Asks for what its argument points to, before it answers. */
static void on_device_ioctl(fuse_req_t req, int cmd, void *arg, struct fuse_file_info *fi, unsigned int flags,
			    const void *in, size_t in_size, size_t out_size)
{
	const struct iovec asked = { arg, 8 };

	if (in_size)
		fuse_reply_ioctl(req, cmd, NULL, 0);
	else
		fuse_reply_ioctl_retry(req, &asked, 1, NULL, 0);
}

static const struct cuse_lowlevel_ops device_ops = {
	.open = on_device_open, .read = on_device_read, .write = on_device_write, .ioctl = on_device_ioctl
};

/* What the last reply has after its header. */
static int has_reply(const void *record, size_t size)
{
	const struct fuse_out_header out = header_of_reply();

	return replies == 1 && out.unique == 7 && !out.error && out.len == reply_len &&
	       reply_len == sizeof(out) + size && !memcmp(reply + sizeof(out), record, size);
}

/* The calls of a device, whose requests have no node: libfuse turns them into those of a file. */
static void try_device_calls(void)
{
	static const struct fuse_open_in open = { 0 };
	static const struct fuse_read_in read = { .fh = 5, .size = 64 };
	static const struct {
		struct fuse_write_in in;
		char data[8];
	} write = { { .fh = 5, .size = 6 }, "bytes" };
	struct {
		struct fuse_ioctl_in in;
		char data[8];
	} ioctl = { { .fh = 5, .flags = FUSE_IOCTL_UNRESTRICTED, .cmd = 3, .arg = 4096, .in_size = 8 }, "" };
	const struct fuse_open_out opened = { .fh = 5 };
	const struct fuse_write_out six = { .size = 6 };
	const struct {
		struct fuse_ioctl_out out;
		struct fuse_ioctl_iovec in;
	} retry = { { .flags = FUSE_IOCTL_RETRY, .in_iovs = 1 }, { 4096, 8 } };
	const struct fuse_ioctl_out three = { .result = 3 };

	send_request(&(struct request){ FUSE_OPEN, 0, &open, sizeof(open), 0, "", 0 });
	judge("OPEN of a device", has_reply(&opened, sizeof(opened)));
	send_request(&(struct request){ FUSE_READ, 0, &read, sizeof(read), 0, "", 0 });
	judge("READ of a device", has_reply(text, 9));
	send_request(&(struct request){ FUSE_WRITE, 0, &write, sizeof(write.in) + 6, 0, "", 0 });
	judge("WRITE of a device", has_reply(&six, sizeof(six)));
	send_request(&(struct request){ FUSE_IOCTL, 0, &ioctl, sizeof(ioctl), 0, "", 0 });
	judge("IOCTL of a device", has_reply(&three, sizeof(three)));
	ioctl.in.in_size = 0;
	send_request(&(struct request){ FUSE_IOCTL, 0, &ioctl, sizeof(ioctl.in), 0, "", 0 });
	judge("IOCTL of a device, which asks for more", has_reply(&retry, sizeof(retry)));
}

/* A device's first request is of another kind: what comes before it reaches nobody, and it comes once. */
static void try_device(const struct fuse_custom_io *io)
{
	static const char *info[] = { "DEVNAME=wrong" };
	static const struct cuse_info device = { .dev_major = 7,
						 .dev_minor = 9,
						 .dev_info_argc = 1,
						 .dev_info_argv = info,
						 .flags = CUSE_UNRESTRICTED_IOCTL };
	static const struct cuse_init_in init_in = { .major = 7, .minor = 38 };
	static const struct request first = {
		CUSE_INIT, 0, &init_in, sizeof(init_in), ENOSYS, "CUSE_INIT", 0
	};
	struct fuse_session *before = session;
	char *name[] = { "device", NULL };
	struct fuse_args args = FUSE_ARGS_INIT(1, name);
	struct cuse_init_out out;

	session = cuse_lowlevel_new(&args, &device, &device_ops, NULL);
	if (!session || begin_io(io))
		exit(2);
	send_request(&(struct request){ FUSE_OPEN, 0, &opening, sizeof(opening), EIO, "", 0 });
	judge("a request before CUSE_INIT", replies == 1 && header_of_reply().error == -EIO);
	send_request(&first);
	memcpy(&out, reply + sizeof(struct fuse_out_header), sizeof(out));
	judge(first.what,
	      replies == 1 && !header_of_reply().error && out.major == 7 &&
		      out.flags == CUSE_UNRESTRICTED_IOCTL && out.dev_major == 7 && out.dev_minor == 9 &&
		      reply_len == sizeof(struct fuse_out_header) + sizeof(out) + strlen(*info) + 1 &&
		      !strcmp(reply + sizeof(struct fuse_out_header) + sizeof(out), *info));
	send_request(&first);
	judge("a second CUSE_INIT", is_answered(&first));
	try_device_calls();
	fuse_session_destroy(session);
	fuse_opt_free_args(&args);
	session = before;
}

/* The last line of the log. */
static char logged[256];

static __attribute__((format(printf, 2, 0))) void note_log(enum fuse_log_level level, const char *format,
							   va_list arguments)
{
	vsnprintf(logged, sizeof(logged), format, arguments);
	fputs(logged, stderr);
}

/* Errors as fuse_reply_err(3) is called with them. libfuse sends those from 1 to 999, or from 3.18 on those that glibc
 * describes; in place of any other it sends ERANGE, and logs the negated number. Linux takes those up to 511: one above
 * that is EIO here. */
static void try_errors(void)
{
	static const struct {
		int number, error;
		const char *line;
	} errors[] = {
		{ 1, EPERM, "" },
		{ ENOENT, ENOENT, "" },
		{ EHWPOISON, EHWPOISON, "" }, /* the last that glibc describes */
#if FUSE_VERSION >= FUSE_MAKE_VERSION(3, 18)
		{ 134, ERANGE, "fuse: bad error value: -134\n" },
		{ 511, ERANGE, "fuse: bad error value: -511\n" },
		{ 600, ERANGE, "fuse: bad error value: -600\n" },
#else
		{ 134, 134, "" },
		{ 511, 511, "" },
		{ 512, EIO, "" },
		{ 999, EIO, "" },
#endif
		{ 1000, ERANGE, "fuse: bad error value: -1000\n" },
		{ INT_MAX, ERANGE, "fuse: bad error value: -2147483647\n" },
		{ -1, ERANGE, "fuse: bad error value: 1\n" },
		{ -ENOSYS, ERANGE, "fuse: bad error value: 38\n" },
		{ -600, ERANGE, "fuse: bad error value: 600\n" },
		{ -INT_MAX, ERANGE, "fuse: bad error value: 2147483647\n" },
	};
	char name[16];
	size_t i;

	fuse_set_log_func(note_log);
	for (i = 0; i < sizeof(errors) / sizeof(*errors); i++) {
		const int len = snprintf(name, sizeof(name), "e%d", errors[i].number) + 1;
		const struct request r = { FUSE_LOOKUP, 1, name, (size_t)len, errors[i].error, name, 0 };

		*logged = 0;
		send_request(&r);
		judge(name, is_answered(&r) && !strcmp(logged, errors[i].line));
	}
	fuse_set_log_func(NULL);
}

/* Wrong answers first; then what is right is served as if none had been. */
static void try_answers(const struct fuse_custom_io *io)
{
	size_t i;

	for (i = 0; i < sizeof(wrong) / sizeof(*wrong); i++) {
		send_request(&wrong[i]);
		judge(wrong[i].what, is_answered(&wrong[i]));
	}
	try_errors();
	for (i = 0; i < sizeof(good) / sizeof(*good); i++) {
		send_request(&good[i]);
		judge(good[i].what, is_answered(&good[i]));
	}
	judge("told that it is no answer", !taken);
	try_pieces();
	try_names();
	try_listings(0);
	try_listings(sizeof(struct fuse_entry_out));
	try_times();
	try_retrieve(1, 0);
	try_retrieve(64, 0);
	try_retrieve(4096, 0);
	try_retrieve(4096, 1);
	try_retrieve(100000, 1);
	try_pipes();
	try_interrupts();
	try_device(io);
}

struct attempt {
	const struct request *request;
	long nth;
	int receives, reached;
};

/* One request, with one allocation refused. */
static void *attempt_on_thread(void *at)
{
	struct attempt *a = at;

	allocated = 0;
	refused = a->nth;
	if (a->receives)
		receive_request(a->request, 0);
	else
		send_request(a->request);
	/* (else it has no allocation of that number: all were refused once) */
	a->reached = allocated >= a->nth;
	refused = 0;
	return NULL;
}

/* Whether a request that lacked memory once was answered, and lost nothing. */
static int is_whole(const struct request *r)
{
	const struct fuse_out_header out = header_of_reply();

	if (r->error < 0)
		owed -= r->forgets;
	else if (r->opcode == FUSE_LOOKUP && replies == 1 && !out.error)
		owed++;
	/* (an entry that was lost, or that the client was told of and the file system wasn't) */
	if (held != owed)
		return 0;
	if (r->error < 0)
		return !replies;
	return replies == 1 && out.unique == 7 && out.len == reply_len &&
	       (!out.error || out.error == -ENOMEM);
}

/* Refuses each allocation of a request in turn. */
static void refuse_each(const struct request *r, int receives)
{
	struct attempt a = { .request = r, .receives = receives };
	pthread_t thread;

	/* (on a new thread, which has no memory of an earlier request) */
	for (a.nth = 1, a.reached = 1; a.reached && a.nth < 100; a.nth++) {
		if (pthread_create(&thread, NULL, attempt_on_thread, &a) || pthread_join(thread, NULL))
			exit(2);
		judge(r->what, is_whole(r));
	}
}

/* A request that is answered twice is answered once. */
static void try_again(void)
{
	static const struct request r = { FUSE_LOOKUP, 1, "again", 6, ENOENT, "again", 0 };
	const int before = interrupts;
	int i;

	send_request(&r);
	judge("answers to one request", is_answered(&r) && taken == 1);
	send_request(&good[0]);
	owed++;
	judge("a request after it", is_answered(&good[0]) && held == owed);
	/* (the next request has its memory, and not what was set after the end) */
	begin(0, 0);
	i = fuse_req_interrupted(waiting);
	interrupt(7);
	end("a function that was set after the end", !i && interrupts == before);
}

/* Interrupts alone, of requests that never come, take no more memory than some do. */
static void try_many_interrupts(void)
{
	enum { MANY = 30000, MOST_MEMORY = 8 << 20 }; /* bytes */
	const size_t before = mallinfo2().uordblks;
	int i;

	for (i = 0; i < MANY; i++)
		interrupt(1000 + (uint64_t)i);
	judge("interrupts of no request", mallinfo2().uordblks < before + MOST_MEMORY);
	send_request(&good[1]);
}

/* In bytes, of all threads. */
static size_t memory_taken(void)
{
	const struct mallinfo2 info = mallinfo2();

	return info.uordblks + info.hblkhd;
}

/* Serves requests, and tells what is kept then: 0, one was answered wrongly. */
static void *keep_on_thread(void *at)
{
	const size_t before = memory_taken();
	size_t i, *kept = at;
	int whole = 1;

	for (i = 0; i < sizeof(good) / sizeof(*good); i++) {
		send_request(&good[i]);
		whole &= is_whole(&good[i]);
	}
	*kept = whole ? memory_taken() - before : 0;
	return NULL;
}

/* A thread keeps no more than small requests take, whatever a client may ask of it. */
static void try_thread(void)
{
	enum { MOST_KEPT = 32 << 10 }; /* bytes */
	pthread_t thread;
	size_t kept;

	if (pthread_create(&thread, NULL, keep_on_thread, &kept) || pthread_join(thread, NULL))
		exit(2);
	judge("what a thread keeps", kept && kept < MOST_KEPT);
}

/* (no sanitizer: those have an allocator of their own) */
static void try_memory(void)
{
	static const struct request endless = {
		FUSE_GETXATTR, 4, &value, sizeof(value.in) + 7, ENOMEM, "2^64 - 1 bytes of a value", 0
	};
	size_t i;

	for (i = 0; i < sizeof(good) / sizeof(*good); i++)
		refuse_each(&good[i], 0);
	refuse_each(&good[0], 1);
	for (i = 0; i < sizeof(many_forgets.one) / sizeof(*many_forgets.one); i++)
		many_forgets.one[i] = (struct fuse_forget_one){ 2, 1 };
	refuse_each(&forgets_by_pipe, 1);
	send_request(&endless);
	judge(endless.what, is_answered(&endless));
	try_again();
	try_thread();
	try_many_interrupts();
}

/* ---- Without a key ----------------------------------------------------------------------------------- */

/* A key that was made before the library began, which has the number that a key has which was never made. */
static const pthread_key_t own_key;
/* The last one that there was: libfuse wants one for each session, which it is given back for. */
static pthread_key_t last_key;

/* (before the library's own function: those without a number come later) */
static __attribute__((constructor(101))) void take_keys(int count, char **words)
{
	while (count == 2 && !strcmp(words[1], "keys") && !pthread_key_create(&last_key, NULL))
		;
}

/* What came of an INIT, which is the first request. */
static void try_keys(const struct request *first)
{
	const struct fuse_out_header out = header_of_reply();

	judge(first->what, replies == 1 && out.error == -ENOMEM && out.unique == 7);
	judge("what another has by its key", pthread_getspecific(own_key) == text);
}

/* ---- Others that answer ---------------------------------------------------------------------------- */

enum { REQUESTS = 4000, ANSWERERS = 4, ASKERS = 2, FIRST = 100 }; /* FIRST: the first request's number */

/* Requests that wait: each is answered by a thread of its own choice, which asks for interrupts of every other one. */
static fuse_req_t queue[REQUESTS];
/* how many came, and were taken; were sent; replies to each */
static atomic_int queued, fetched, begun, answered[REQUESTS];
/* Leaves the request to the threads that answer. */
static void on_getattr_queue(fuse_req_t req, fuse_ino_t ino, struct fuse_file_info *fi)
{
	static pthread_mutex_t lock = PTHREAD_MUTEX_INITIALIZER;

	pthread_mutex_lock(&lock);
	queue[queued] = req; /* before it is counted: who takes it reads it without the lock */
	queued++;
	pthread_mutex_unlock(&lock);
}

/* (that there is one is what counts: it is called if the kernel interrupts the request) */
static void on_told(fuse_req_t req, void *data)
{
}

/* Half of the requests are asked about first, so that they are known to others; the others end without a lock. */
static void *answer_some(void *none)
{
	const struct stat st = { .st_ino = 2, .st_mode = S_IFREG };
	int i;

	while ((i = fetched++) < REQUESTS) {
		while (queued <= i)
			sched_yield();
		if (i % 4 == 1)
			fuse_req_interrupted(queue[i]);
		else if (i % 4 == 3)
			fuse_req_interrupt_func(queue[i], on_told, NULL);
		if (i % 8 == 5)
			fuse_reply_err(queue[i], EINTR);
		else
			fuse_reply_attr(queue[i], &st, 1);
	}
	return none;
}

/* Sends requests, and interrupts of them, of some before they come or after they ended. */
static void *ask_some(void *none)
{
	static const struct fuse_getattr_in in;
	struct {
		struct fuse_in_header head;
		struct fuse_interrupt_in in;
	} stop = { { .len = sizeof(stop), .opcode = FUSE_INTERRUPT }, { 0 } };
	struct {
		struct fuse_in_header head;
		struct fuse_getattr_in in;
	} ask = { { .len = sizeof(ask), .opcode = FUSE_GETATTR, .nodeid = 2 }, in };
	struct fuse_buf buf;
	int i;

	while ((i = begun++) < REQUESTS) {
		ask.head.unique = FIRST + (uint64_t)i;
		buf = (struct fuse_buf){ .size = sizeof(ask), .mem = &ask };
		fuse_session_process_buf(session, &buf);
		stop.head.unique = FIRST + REQUESTS + (uint64_t)i;
		stop.in.unique = FIRST + (uint64_t)(i * 7 % REQUESTS); /* any request, early or late */
		buf = (struct fuse_buf){ .size = sizeof(stop), .mem = &stop };
		fuse_session_process_buf(session, &buf);
	}
	return none;
}

/* (of an interrupt, whose number is a later one, it may say that it is to be sent again) */
static ssize_t count_reply(int fd, struct iovec *iov, int count, void *user)
{
	struct fuse_out_header out;
	size_t len = 0;
	int i;

	memcpy(&out, iov->iov_base, sizeof(out));
	for (i = 0; i < count; i++)
		len += iov[i].iov_len;
	if (out.unique >= FIRST && out.unique < FIRST + REQUESTS && out.len == len)
		answered[out.unique - FIRST]++;
	return (ssize_t)len;
}

/* (thread sanitizer finds what two threads look at without a lock) */
static void try_threads(void)
{
	pthread_t threads[ANSWERERS + ASKERS];
	int i, right = 0;

	for (i = 0; i < ANSWERERS + ASKERS; i++)
		if (pthread_create(&threads[i], NULL, i < ANSWERERS ? answer_some : ask_some, NULL))
			exit(2);
	for (i = 0; i < ANSWERERS + ASKERS; i++)
		pthread_join(threads[i], NULL);
	for (i = 0; i < REQUESTS; i++)
		right += answered[i] == 1;
	judge("each request is answered once", right == REQUESTS);
}

int main(int count, char **words)
{
	const int by_others = count == 2 && !strcmp(words[1], "threads");
	const int has_no_key = count == 2 && !strcmp(words[1], "keys");
	const struct fuse_custom_io io = { .read = give_request,
					   .writev = by_others ? count_reply : take_reply,
					   .splice_receive = give_to_pipe };
	static const struct request first = { FUSE_INIT, 0, &init, sizeof(init), 0, "INIT", 0 };
	struct fuse_lowlevel_ops own = ops;
	char *name[] = { "wrong", NULL };
	struct fuse_args args = FUSE_ARGS_INIT(1, name);

	memset(text, 'a', LONGEST);
	if (by_others)
		own.getattr = on_getattr_queue;
	if (has_no_key)
		pthread_key_delete(last_key);
	session = fuse_session_new(&args, &own, sizeof(own), NULL);
	if (count != 2 || !session || begin_io(&io))
		return 2;
	if (has_no_key)
		pthread_setspecific(own_key, text);
	send_request(&first);
	if (has_no_key)
		try_keys(&first);
	else if (!by_others)
		judge("INIT", is_answered(&first));
	if (by_others)
		try_threads();
	else if (!strcmp(words[1], "answers"))
		try_answers(&io);
	else if (!has_no_key)
		try_memory();
	fuse_session_destroy(session);
	fuse_opt_free_args(&args);
	printf("%d of %d %s\n", passed, tried, words[1]);
	return passed == tried ? 0 : 1;
}
