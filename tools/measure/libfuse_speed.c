/* Serves requests of some classes by libfuse's low level without a kernel, for tools/measure/libfuse-speed.sh.
 *
 * Usage: speed CLASS COUNT
 * CLASS is lookup, getattr, read-4k, write-4k, write-1m, read-1m, readdir or readdirplus. It hands the same request to a
 * session COUNT times, by a file system that answers at once, and takes the replies by custom io. It prints the
 * nanoseconds of processor time and of the clock that a request took: the medians of 40 parts, since a part is mostly
 * too short for other processes to come between. Status 2: it could not start. */
#define _GNU_SOURCE
#define FUSE_USE_VERSION 312
#include <errno.h>
#include <fuse_lowlevel.h>
#include <linux/fuse.h>
#include <stdio.h>
#include <stdlib.h>
#include <string.h>
#include <sys/uio.h>
#include <time.h>
#include <unistd.h>

/* Sizes in bytes; ENTRIES is how many items a directory has. */
enum { MEGABYTE = 1 << 20, PAGE = 4096, FRONT = sizeof(struct fuse_in_header), ENTRIES = 100 };

/* (not each function looks at all that it is handed) */
#pragma GCC diagnostic ignored "-Wunused-parameter"

static char data[MEGABYTE], room[MEGABYTE + PAGE]; /* what is answered; the request */
static size_t replied;

/* (it copies nothing: a kernel's part is not the library's) */
static ssize_t take_reply(int fd, struct iovec *iov, int count, void *user)
{
	ssize_t len = 0;
	int i;

	for (i = 0; i < count; i++)
		len += (ssize_t)iov[i].iov_len;
	replied++;
	return len;
}

/* (requests are handed over: the session receives none) */
static ssize_t no_request(int fd, void *at, size_t len, void *user)
{
	return 0;
}

static const struct fuse_entry_param entry = { .ino = 2, .attr = { .st_ino = 2, .st_mode = S_IFREG | 0644 } };

/* (laid out anew each time, as a file system does) */
static void list(fuse_req_t req, size_t size, int plus)
{
	size_t len = 0, one;
	int i;

	for (i = 1; i <= ENTRIES; i++) {
		one = plus ? fuse_add_direntry_plus(req, data + len, size - len, "a-name-of-a-file", &entry,
						    i) :
			     fuse_add_direntry(req, data + len, size - len, "a-name-of-a-file", &entry.attr,
					       i);
		if (one > size - len)
			break;
		len += one;
	}
	fuse_reply_buf(req, data, len);
}

/* clang-format off */

#define REQ fuse_req_t req, fuse_ino_t ino
#define PIECE size_t size, off_t off, struct fuse_file_info *fi

/* The functions answer at once, by the same data. */
#define OPS(F) \
	F(lookup, (REQ, const char *name), fuse_reply_entry(req, &entry)) \
	F(getattr, (REQ, struct fuse_file_info *fi), fuse_reply_attr(req, &entry.attr, 1.0)) \
	F(read, (REQ, PIECE), fuse_reply_buf(req, data, size)) \
	F(write, (REQ, const char *buf, PIECE), fuse_reply_write(req, size)) \
	F(readdir, (REQ, PIECE), list(req, size, 0)) \
	F(readdirplus, (REQ, PIECE), list(req, size, 1))

#define DEFINE(name, parameters, reply) static void on_##name parameters { reply; }
OPS(DEFINE)

#define IN_TABLE(name, ...) .name = on_##name,
static const struct fuse_lowlevel_ops ops = { OPS(IN_TABLE) };

/* clang-format on */

/* Puts a request with a record, and `more` bytes of data after it, which are what is there: its length. */
static size_t put(uint32_t opcode, const void *record, size_t size, size_t more)
{
	const struct fuse_in_header in = {
		.len = (uint32_t)(FRONT + size + more), .opcode = opcode, .unique = 7, .nodeid = 1
	};

	memcpy(room, &in, FRONT);
	memcpy(room + FRONT, record, size);
	return in.len;
}

/* Puts the request of a class, and answers its length: 0, there is no such class. */
static size_t put_class(const char *name)
{
	static const struct fuse_read_in page = { .size = PAGE }, megabyte = { .size = MEGABYTE },
					 records = { .size = 32768 };
	static const struct fuse_write_in few = { .size = PAGE }, many = { .size = MEGABYTE };
	static const struct fuse_getattr_in attr;
	static const struct {
		const char *name;
		uint32_t opcode;
		const void *record;
		size_t size, data;
	} classes[] = {
		{ "lookup", FUSE_LOOKUP, "a-name", 7, 0 },
		{ "getattr", FUSE_GETATTR, &attr, sizeof(attr), 0 },
		{ "read-4k", FUSE_READ, &page, sizeof(page), 0 },
		{ "read-1m", FUSE_READ, &megabyte, sizeof(megabyte), 0 },
		{ "write-4k", FUSE_WRITE, &few, sizeof(few), PAGE },
		{ "write-1m", FUSE_WRITE, &many, sizeof(many), MEGABYTE },
		{ "readdir", FUSE_READDIR, &records, sizeof(records), 0 },
		{ "readdirplus", FUSE_READDIRPLUS, &records, sizeof(records), 0 },
	};
	size_t i;

	for (i = 0; i < sizeof(classes) / sizeof(*classes); i++)
		if (!strcmp(name, classes[i].name))
			return put(classes[i].opcode, classes[i].record, classes[i].size, classes[i].data);
	return 0;
}

enum { PARTS = 40 };

/* Of times, for the median. */
static int compare(const void *a, const void *b)
{
	const double x = *(const double *)a, y = *(const double *)b;

	return (x > y) - (x < y);
}

/* In nanoseconds. */
static double now(clockid_t clock)
{
	struct timespec t;

	clock_gettime(clock, &t);
	return (double)t.tv_sec * 1e9 + (double)t.tv_nsec;
}

/* (the INIT's reply counts as one) */
int main(int count, char **words)
{
	static const struct fuse_init_in init = {
		.major = 7, .minor = 38, .max_readahead = 65536, .flags = FUSE_BIG_WRITES | FUSE_MAX_PAGES
	};
	static const struct fuse_custom_io io = { .read = no_request, .writev = take_reply };
	char *name[] = { "speed", NULL };
	struct fuse_args args = FUSE_ARGS_INIT(1, name);
	struct fuse_session *session = fuse_session_new(&args, &ops, sizeof(ops), NULL);
	struct fuse_buf buf = { .mem = room };
	const long times = count == 3 ? atol(words[2]) : 0;
	double processor[PARTS], clock[PARTS];
	long i, part;

	if (!times || !session || fuse_session_custom_io(session, &io, dup(0)))
		return 2;
	buf.size = put(FUSE_INIT, &init, sizeof(init), 0);
	fuse_session_process_buf(session, &buf);
	buf.size = put_class(words[1]);
	if (!buf.size || replied != 1)
		return 2;
	for (part = 0; part < PARTS; part++) {
		processor[part] = -now(CLOCK_PROCESS_CPUTIME_ID);
		clock[part] = -now(CLOCK_MONOTONIC);
		/* (parts may differ by one request) */
		for (i = times * part / PARTS; i < times * (part + 1) / PARTS; i++)
			fuse_session_process_buf(session, &buf);
		clock[part] += now(CLOCK_MONOTONIC);
		processor[part] += now(CLOCK_PROCESS_CPUTIME_ID);
	}
	qsort(processor, PARTS, sizeof(*processor), compare);
	qsort(clock, PARTS, sizeof(*clock), compare);
	printf("%.1f %.1f\n", processor[PARTS / 2] * PARTS / (double)times,
	       clock[PARTS / 2] * PARTS / (double)times);
	fuse_session_destroy(session);
	fuse_opt_free_args(&args);
	return replied == (size_t)times + 1 ? 0 : 1;
}
