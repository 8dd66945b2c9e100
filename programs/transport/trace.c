/* A trace of the requests and replies of a transport: trace.h.
 *
 * It is called between the transport and its function. It copies data that are in several pieces, or in the
 * memory of a virtual machine, before it prints them. Requests are decoded by the options of the last reply
 * to an INIT. A guest may change its memory after the copy; then the trace shows other data of a WRITE, or
 * another reply, than were sent. A trace is for debugging: it costs a copy of each request and reply, and a
 * trace of bytes contains the data of all files that were read and written.
 *
 * Each worker traces its own requests on its own thread. A line is written at once, so lines of several
 * workers are interleaved but never mixed. For a request that is completed later the trace says so, in a file
 * by the name AnsweredLater in place of an error; its reply is not traced. */
#define _GNU_SOURCE
#include <errno.h>
#include <fcntl.h>
#include <linux/fuse.h>
#include <stdatomic.h>
#include <stdbool.h>
#include <stdio.h>
#include <stdlib.h>
#include <string.h>
#include <unistd.h>
#include "trace.h"

/* Names of the codes 1 to 10, NIZWARF_DECODE_MESSAGE and its successors in nizwarf.h, as nizwarf-decode reads
 * them. */
static const char *const refusals[] = {
	"DecodeMessage",   "EncodeMessage",	  "FlushMessage",     "MissingParameter", "InvalidCString",
	"InvalidCString2", "InvalidHeaderLength", "InvalidXattrSize", "MissingExtension", "OutOfMemory",
};

/* The traced transport, and the file for bytes, or NULL if names are printed. Both must be set before workers
 * start. The options are those that INIT has enabled; there are none before it, and after a DESTROY. */
static nizwarf_transport of;
static FILE *file;
static _Atomic uint64_t options;

/* A copy of bytes. gather() allocates it, and its owner must free it. */
struct bytes {
	unsigned char *at;
	size_t len;
};

/* Copies the first `most` bytes of pieces into one. `at` is NULL if out of memory; it is not NULL for 0
 * bytes. */
static struct bytes gather(const struct iovec *piece, size_t pieces, size_t most)
{
	struct bytes all = { NULL, 0 };
	size_t len = 0, i;

	for (i = 0; i < pieces; i++)
		len += piece[i].iov_len;
	len = len < most ? len : most;
	all.at = malloc(len ? len : 1);
	if (!all.at)
		return all;
	for (i = 0; i < pieces && all.len < len; i++) {
		const size_t part = piece[i].iov_len < len - all.len ? piece[i].iov_len : len - all.len;

		memcpy(all.at + all.len, piece[i].iov_base, part);
		all.len += part;
	}
	return all;
}

/* Prints a line, and frees it. Without memory for the line it prints that instead, and the request is served
 * nevertheless. */
static void put_line(char *line)
{
	fprintf(stderr, "%s\n", line ? line : "(out of memory for a line of the trace)");
	free(line);
}

/* nizwarf_print_request() is called twice: for the length of the line, and for the line. It accepts any
 * bytes, even if they are not a request. */
static void print_request(const struct bytes *request)
{
	const size_t size = nizwarf_print_request(request->at, request->len, options, NULL, 0) + 1;
	char *line = malloc(size);

	if (line)
		nizwarf_print_request(request->at, request->len, options, line, size);
	put_line(line);
}

static void print_reply(const struct bytes *request, const struct bytes *reply)
{
	const size_t size =
		nizwarf_print_reply(request->at, request->len, reply->at, reply->len, NULL, 0) + 1;
	char *line = malloc(size);

	if (line)
		nizwarf_print_reply(request->at, request->len, reply->at, reply->len, line, size);
	put_line(line);
}

/* Returns the name of a code other than NIZWARF_OK, which must be one word for nizwarf-decode. NIZWARF_CALL
 * is not an error: the request was kept. The other codes mean that a server or the codec was used
 * incorrectly. */
static const char *name_of(int32_t code)
{
	if (code == NIZWARF_CALL)
		return "AnsweredLater";
	return code >= 1 && code <= NIZWARF_OUT_OF_MEMORY ? refusals[code - 1] : "WrongUse";
}

/* Writes the two sizes of a SETXATTR that was rejected because of them: the size in its record, and that of
 * the bytes after the name. The record is longer if SETXATTR_EXT is enabled. A guest may have changed the
 * request after it was copied, and another worker the options, so nothing past the copy may be read, whatever
 * the header says. */
static void record_sizes(const struct bytes *request)
{
	const size_t at = sizeof(struct fuse_in_header) + (options & FUSE_SETXATTR_EXT ?
								   sizeof(struct fuse_setxattr_in) :
								   FUSE_COMPAT_SETXATTR_IN_SIZE);
	struct fuse_in_header header;
	uint32_t size = 0;
	size_t end, name, value = 0;

	if (request->len >= at) {
		memcpy(&header, request->at, sizeof(header));
		memcpy(&size, request->at + sizeof(header), sizeof(size));
		end = header.len < request->len ? header.len : request->len;
		end = end > at ? end : at;
		name = strnlen((const char *)request->at + at, end - at);
		value = name < end - at ? end - at - name - 1 : 0;
	}
	fprintf(file, " %u %zu", (unsigned)size, value);
}

static void record_bytes(const struct bytes *bytes)
{
	for (size_t i = 0; i < bytes->len; i++)
		fprintf(file, "%02x", bytes->at[i]);
}

/* Writes a request and its result as two lines, of which the first begins with the length of the reply
 * buffer. The lock of the file is held for both, so that no other worker writes in between. An incomplete
 * trace is reported once, and does not end the server, for example if the disk is full. */
static void record(const struct bytes *request, size_t room, int32_t code, const struct bytes *reply)
{
	static bool is_told;

	flockfile(file);
	fprintf(file, "%zu ", room);
	record_bytes(request);
	if (code != NIZWARF_OK) {
		fprintf(file, "\nerr %s", name_of(code));
		if (code == NIZWARF_INVALID_XATTR_SIZE)
			record_sizes(request);
	} else {
		fprintf(file, "\nok %zu%s", reply->len, reply->len ? " " : "");
		record_bytes(reply);
	}
	putc('\n', file);
	if ((fflush(file) || ferror(file)) && !is_told) {
		fprintf(stderr, "%s: the trace is incomplete: %s\n", of.program, strerror(errno));
		is_told = true;
	}
	funlockfile(file);
}

/* Sets the options from the reply to an INIT. A reply that is shorter than a fuse_init_out is ignored. */
static void agree(const struct bytes *request, const struct bytes *reply)
{
	struct fuse_init_out agreed = { 0 };
	struct fuse_out_header head;
	struct fuse_in_header asked;

	if (request->len < sizeof(asked))
		return;
	memcpy(&asked, request->at, sizeof(asked));
	if (asked.opcode == FUSE_DESTROY)
		options = 0;
	if (asked.opcode != FUSE_INIT || reply->len < sizeof(head) + sizeof(agreed))
		return;
	memcpy(&head, reply->at, sizeof(head));
	memcpy(&agreed, reply->at + sizeof(head), sizeof(agreed));
	if (!head.error)
		options = agreed.flags | (uint64_t)agreed.flags2 << 32;
}

/* Prints the result of a request. A reply is the first `len` bytes of the reply buffer, which is read here.
 * If the request was rejected, there is none. */
static void tell(const struct bytes *request, const struct iovec *room, size_t rooms, int32_t code,
		 size_t len)
{
	size_t space = 0;
	struct iovec *pieces = calloc(rooms ? rooms : 1, sizeof(*pieces));
	struct bytes reply = { NULL, 0 };

	for (size_t i = 0; i < rooms; i++) {
		if (pieces)
			pieces[i] = (struct iovec){ room[i].iov_base, room[i].iov_len };
		space += room[i].iov_len;
	}
	if (pieces)
		reply = gather(pieces, rooms, code == NIZWARF_OK ? len : 0);
	if (!reply.at)
		put_line(NULL);
	else if (file)
		record(request, space, code, &reply);
	else if (code == NIZWARF_CALL)
		fputs("-> replied later\n", stderr);
	else if (code != NIZWARF_OK)
		fprintf(stderr, "-> refused=%s\n", name_of(code));
	else
		print_reply(request, &reply);
	if (reply.at)
		agree(request, &reply);
	free(reply.at);
	free(pieces);
}

/* Is called in place of the transport's function. It prints the request before it calls that function, so
 * that a request that never returns is visible. Without memory for a copy the request is served nevertheless,
 * and a line reports the lack. */
static int32_t serve(void *user, unsigned worker, const struct iovec *request, size_t segments,
		     const struct iovec *room, size_t rooms, size_t *len)
{
	struct bytes asked = gather(request, segments, SIZE_MAX);
	int32_t code;

	if (!asked.at)
		put_line(NULL);
	else if (!file)
		print_request(&asked);
	code = of.serve(user, worker, request, segments, room, rooms, len);
	if (asked.at)
		tell(&asked, room, rooms, code, *len);
	free(asked.at);
	return code;
}

int trace_begin(nizwarf_transport *by, const char *path)
{
	/* The file may contain the data of all files, so only its owner may read it. */
	const int fd = path ? open(path, O_WRONLY | O_CREAT | O_EXCL | O_CLOEXEC, 0600) : -1;

	if (path && (fd < 0 || !(file = fdopen(fd, "w")))) {
		fprintf(stderr, "%s: cannot create '%s': %s\n", by->program, path, strerror(errno));
		if (fd >= 0)
			close(fd);
		return -1;
	}
	of = *by;
	by->serve = serve;
	/* Replies are printed from the reply buffer, in which data of a pipe would be missing. */
	by->splices = 0;
	return 0;
}
