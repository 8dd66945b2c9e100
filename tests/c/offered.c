/* Holds the calls that a file system may offer (NIZWARF_FEATURE_LOCKS ..) against linux/fuse.h: by the codec, where each
 * is told of a request in pieces of any lengths, where its record is cut short, what its answer is, and how it is
 * printed; and by a table of nizwarf_ops.h.
 *
 * test_libraries.py links it with the library, and --wrap=malloc, --wrap=realloc and --wrap=free. Status 0: all is as it
 * should be. */
#define _GNU_SOURCE
#include <poll.h>
#include "ops.h"

enum { ALL = 0xff, LONGEST = 200 }; /* each row is offered */

/* What newer headers than some have. As Linux 6.6 has it. */
struct statx_in {
	uint32_t getattr_flags, reserved;
	uint64_t fh;
	uint32_t sx_flags, sx_mask;
};

/* The records that follow have a number in each field that is no other's. */
static const struct fuse_lk_in lock = {
	.fh = 4, .owner = 5, .lk = { .start = 6, .end = 7, .type = F_WRLCK, .pid = 8 }, .lk_flags = 0
};
/* (of flock(2)) */
static const struct fuse_lk_in whole = {
	.fh = 4, .owner = 5, .lk = { .end = INT64_MAX, .type = F_RDLCK, .pid = 8 }, .lk_flags = FUSE_LK_FLOCK
};
static const struct fuse_bmap_in bmap = { .block = 6, .blocksize = 512 };
static const struct fuse_ioctl_in ioctl = {
	.fh = 4, .flags = 2, .cmd = 9, .arg = 10, .in_size = 4, .out_size = 100
};
static const struct fuse_poll_in poll_in = {
	.fh = 4, .kh = 11, .flags = FUSE_POLL_SCHEDULE_NOTIFY, .events = POLLIN
};
static const struct fuse_notify_retrieve_in retrieved = { .offset = 6, .size = 4 };
static const struct fuse_create_in unnamed = { .flags = O_RDWR, .mode = 0640, .umask = 022 };
static const struct statx_in statx_in = {
	.getattr_flags = 1, .fh = 4, .sx_flags = 3, .sx_mask = STATX_BTIME
};
static const struct fuse_copy_file_range_in copy = { 4, 6, 3, 5, 7, 9, 15 };

/* A call that is offered: its request, the line by which it is printed, how it is decoded, and how a table
 * has it. */
static const struct {
	uint32_t opcode, offer, answer;
	const void *record;
	size_t len;
	const char *rest;	   /* what follows the record */
	const char *name, *fields; /* printed, but for the fields of the header */
	const char *words;	   /* the function that is called, and its arguments */
	size_t reply_len;
	nizwarf_call call; /* but for the fields of the header */
} rows[] = {
/* clang-format off */
#define ROW(name, offer, answer, record) \
	NIZWARF_##name, NIZWARF_FEATURE_##offer, NIZWARF_REPLY_##answer, &(record), sizeof(record)
#define LOCK_FIELDS .handle = 4, .lock_owner = 5, .offset = 6, .other_offset = 7, .flags = F_WRLCK, .more = 8
	{ ROW(GETLK, LOCKS, BYTES, lock), "",
	  "GETLK", " fh=4 owner=5 start=6 end=7 type=1 pid=8 lk_flags=0", "getlk 2 4 5 6 7 1 8", 40,
	  { LOCK_FIELDS, .has = NIZWARF_HAS_OWNER } },
	{ ROW(SETLK, LOCKS, STATUS, lock), "",
	  "SETLK", " fh=4 owner=5 start=6 end=7 type=1 pid=8 lk_flags=0", "setlk 2 4 5 6 7 1 0", 16,
	  { LOCK_FIELDS, .has = NIZWARF_HAS_OWNER } },
	{ ROW(SETLKW, LOCKS, STATUS, whole), "",
	  "SETLKW", " fh=4 owner=5 start=0 end=9223372036854775807 type=0 pid=8 lk_flags=FLOCK",
	  "flock 2 4 5 1", 16,
	  { .handle = 4, .lock_owner = 5, .other_offset = INT64_MAX, .flags = F_RDLCK, .more = 8,
	    .has = NIZWARF_HAS_OWNER | NIZWARF_LK_FLOCK } },
	{ ROW(BMAP, BMAP, OFFSET, bmap), "",
	  "BMAP", " block=6 blocksize=512", "bmap 2 512 6", 24, { .offset = 6, .size = 512 } },
	/* (`data` comes after the header and the record) */
	{ ROW(IOCTL, IOCTL, BYTES, ioctl), "four", "IOCTL",
	  " fh=4 flags=IOCTL_UNRESTRICTED cmd=0x9 arg=0xa in_size=4 out_size=100 data[4]=\"four\"",
	  "ioctl 2 9 10 4 2 four 100", 35,
	  { .handle = 4, .flags = 2, .more = 9, .offset = 10, .length = 4, .data = { 72, 4 }, .size = 100 } },
	{ ROW(POLL, POLL, COUNT, poll_in), "",
	  "POLL", " fh=4 kh=11 flags=SCHEDULE_NOTIFY events=0x1", "poll 2 4 1 11 1", 24,
	  { .handle = 4, .offset = 11, .flags = 1, .more = POLLIN } },
	{ ROW(NOTIFY_REPLY, NOTIFY_REPLY, NONE, retrieved), "four",
	  "NOTIFY_REPLY", " offset=6 size=4 data[4]=\"four\"", "retrieved 1 2 6 four", 0,
	  { .offset = 6, .size = 4, .data = { 80, 4 } } },
	{ ROW(STATX, STATX, BYTES, statx_in), "",
	  "STATX", " getattr_flags=FH fh=4 sx_flags=0x3 sx_mask=0x800", "statx 2 3 2048 4", 304,
	  { .handle = 4, .has = NIZWARF_HAS_HANDLE, .flags = 3, .more = STATX_BTIME } },
	{ ROW(COPY_64, COPY_64, OFFSET, copy), "",
	  "COPY_FILE_RANGE_64", " fh_in=4 off_in=6 node_out=3 fh_out=5 off_out=7 len=9 flags=0xf",
	  "copy_file_range 2 6 3 7 5 9 15", 24,
	  { .handle = 4, .offset = 6, .other_node = 3, .other_handle = 5, .other_offset = 7, .length = 9,
	    .lock_owner = 15 } },
	/* clang-format on */
};
enum { ROWS = sizeof(rows) / sizeof(*rows) };

/* A check of the first bytes of what is in `request`. Of no row it wants memory, nor of a TMPFILE without a context. */
static int32_t check_cut(uint32_t offers, size_t len, nizwarf_call *call, uint64_t *interrupts)
{
	const long before = asked;
	const int32_t code = nizwarf_check(&session, offers, request, len, 4096, call, interrupts);

	CHECK(asked == before);
	return code;
}

/* Asks what is in `request`, in two pieces. `len` bytes of it, of which the first piece has `cut`. */
static int32_t ask_cut(uint32_t offers, size_t cut, size_t len, nizwarf_call *call, nizwarf_result *result)
{
	const struct iovec pieces[] = { { request, cut }, { request + cut, len - cut } };
	const struct iovec room = { ours, 4096 };

	memset(call, 1, sizeof(*call)); /* what stays 1 was not set */
	memset(result, 1, sizeof(*result));
	return nizwarf_decode(&slot, &session, offers, pieces, 2, &room, 1, call, result);
}

/* A request of a row, as it comes from Linux. */
static void begin_row(size_t i)
{
	begin_with(rows[i].opcode, 2, rows[i].record, rows[i].len);
	add(rows[i].rest, strlen(rows[i].rest));
}

/* What is told of a row, however it is cut; one without its end is refused; and where it is not offered it is what it
 * is without any. A check says the same as an ask. */
static void told_as_asked(size_t i)
{
	static const nizwarf_call none;
	nizwarf_call call, expected = rows[i].call, before;
	uint64_t interrupts;
	nizwarf_result result;
	int32_t code;
	size_t cut;

	begin_row(i);
	expected.unique = unique;
	expected.reply_size = 4096;
	expected.node = 2;
	expected.opcode = rows[i].opcode;
	expected.reply = rows[i].answer;
	expected.uid = 1000;
	expected.gid = 1001;
	expected.pid = 77;
	memset(ours, FILL, 4096);
	for (cut = 0; cut <= request_len; cut++) {
		CHECK(ask_cut(rows[i].offer, cut, request_len, &call, &result) == NIZWARF_CALL);
		CHECK(!memcmp(&call, &expected, sizeof(call)));
		CHECK(!result.len && !result.written && !result.interrupts &&
		      result.options == session.options);
	}
	CHECK(check_cut(rows[i].offer, request_len, &call, &interrupts) == NIZWARF_CALL);
	CHECK(!memcmp(&call, &expected, sizeof(call)) && !interrupts);
	for (cut = 40; cut < request_len; cut++) { /* a whole header, and less than a whole record or data */
		CHECK(ask_cut(ALL, cut / 2, cut, &call, &result) == NIZWARF_DECODE_MESSAGE);
		CHECK(!memcmp(&call, &none, sizeof(call)));
		CHECK(!result.len && !result.written && !result.interrupts &&
		      result.options == session.options);
		CHECK(check_cut(ALL, cut, &call, &interrupts) == NIZWARF_DECODE_MESSAGE);
		CHECK(!memcmp(&call, &none, sizeof(call)) && !interrupts);
	}
	for (cut = 0; cut < 4096; cut++) /* the room is as it was */
		CHECK(ours[cut] == FILL);
	code = ask_cut(0, 41, request_len, &before, &result); /* nothing is offered */
	CHECK(ask_cut(ALL & ~rows[i].offer, 41, request_len, &call, &result) == code);
	CHECK(!memcmp(&call, &before, sizeof(call)));
}

/* The line of what is in `request` says so, after the fields of its header. */
static void hold_line(const char *name, const char *fields)
{
	char line[512], expected[512];

	snprintf(expected, sizeof(expected), "%s unique=%llu node=2 uid=1000 gid=1001 pid=77%s", name,
		 (unsigned long long)unique, fields);
	CHECK(nizwarf_print_request(request, request_len, 0, line, sizeof(line)) == strlen(expected));
	CHECK(!strcmp(line, expected));
}

/* Each row is printed by the names of linux/fuse.h; of a record that is cut, how many bytes there are. */
static void printed_by_name(void)
{
	char cut[32];
	size_t i;

	for (i = 0; i < ROWS; i++) {
		begin_row(i);
		hold_line(rows[i].name, rows[i].fields);
		/* (a byte less than a record: it can't be printed by fields) */
		begin_with(rows[i].opcode, 2, rows[i].record, rows[i].len - 1);
		snprintf(cut, sizeof(cut), " ignored=%zu", rows[i].len - 1);
		hold_line(rows[i].name, cut);
	}
	begin_with(NIZWARF_TMPFILE, 2, &unnamed, sizeof(unnamed));
	add("/", 2);
	hold_line("TMPFILE", " flags=02 mode=0640 umask=022 open_flags=0 name=\"/\"");
}

/* More data than there are, by as little as one byte. */
static void data_that_lack(void)
{
	struct fuse_notify_retrieve_in many = retrieved;
	struct fuse_ioctl_in long_one = ioctl;
	const uint32_t sizes[] = { 5, 6, 1 << 20, INT32_MAX, UINT32_MAX };
	nizwarf_call call;
	nizwarf_result result;
	size_t i;

	for (i = 0; i < sizeof(sizes) / sizeof(*sizes); i++) {
		long_one.in_size = many.size = sizes[i]; /* of 4 that are there */
		begin_with(NIZWARF_IOCTL, 2, &long_one, sizeof(long_one));
		add("four", 4);
		CHECK(ask_cut(ALL, 50, request_len, &call, &result) == NIZWARF_DECODE_MESSAGE);
		begin_with(NIZWARF_NOTIFY_REPLY, 2, &many, sizeof(many));
		add("four", 4);
		CHECK(ask_cut(ALL, 50, request_len, &call, &result) == NIZWARF_DECODE_MESSAGE);
	}
	/* (a request that says to be longer than any is left to the table) */
	begin_row(0);
	memset(request, 0xff, 4); /* its length */
	CHECK(ask_cut(ALL, 50, request_len, &call, &result) == NIZWARF_OK &&
	      u32(ours + 4) == (uint32_t)-ENOMEM);
}

/* A TMPFILE is a CREATE of the same bytes, but for its number; so is what is refused. */
static void unnamed_files(void)
{
	static const char *const tails[] = { "/", "", "a name", "not ended" };
	nizwarf_call call, other;
	nizwarf_result result, others;
	uint64_t interrupts;
	size_t i;

	for (i = 0; i < 4; i++) {
		begin_with(NIZWARF_CREATE, 2, &unnamed, sizeof(unnamed));
		add(tails[i], strlen(tails[i]) + (i != 3));
		CHECK(ask_cut(ALL, 57, request_len, &other, &others) ==
			      (i == 3 ? NIZWARF_INVALID_C_STRING : NIZWARF_CALL) ||
		      i == 3);
		request[4] = NIZWARF_TMPFILE; /* the opcode, and nothing else */
		CHECK((ask_cut(ALL, 57, request_len, &call, &result) == NIZWARF_CALL) == (i != 3));
		if (i != 3)
			other.opcode = NIZWARF_TMPFILE;
		CHECK(!memcmp(&call, &other, sizeof(call)) && !memcmp(&result, &others, sizeof(result)));
		CHECK(check_cut(ALL, request_len, &call, &interrupts) ==
		      (i == 3 ? NIZWARF_INVALID_C_STRING : NIZWARF_CALL));
		CHECK(!memcmp(&call, &other, sizeof(call)) && !interrupts);
	}
	begin_with(NIZWARF_TMPFILE, 2, &unnamed, 15); /* a byte less than a record */
	CHECK(ask_cut(ALL, 50, request_len, &call, &result) == NIZWARF_DECODE_MESSAGE);
}

/* Answers a row by that many bytes of text: the error of the reply, 0 if it has these bytes after its header. (it
 * must be one of the two) */
static int answered(size_t i, const void *text, size_t len)
{
	nizwarf_answer answer = NIZWARF_ANSWER_INIT;
	const struct iovec room = { ours, 4096 };
	nizwarf_call call;
	nizwarf_result result;

	begin_row(i);
	CHECK(ask_cut(ALL, 50, request_len, &call, &result) == NIZWARF_CALL);
	/* (NIZWARF_ANSWER_INIT is EIO) */
	answer.error = 0;
	answer.text = text;
	answer.text_len = len;
	CHECK(nizwarf_encode(&slot, &session, &call, &answer, &room, 1, &result) == NIZWARF_OK);
	CHECK(result.len == u32(ours) && result.written == result.len && u64(ours + 8) == unique);
	if (u32(ours + 4)) {
		CHECK(result.len == 16);
		return -(int)u32(ours + 4);
	}
	CHECK(result.len == 16 + len && !memcmp(ours + 16, text, len));
	return 0;
}

/* Records of another length than theirs are EIO. */
static void records(void)
{
	static const uint8_t text[3000] = { 1, 2, 3 };
	uint8_t retry[16 + 16 * 257] = { 0 };
	const uint32_t flags = FUSE_IOCTL_RETRY;
	size_t len;

	for (len = 0; len < 400; len++) {
		/* (a lock has 24 bytes, a STATX 288, an IOCTL 16 and as many as were asked for, 100) */
		CHECK(answered(0, text, len) == (len == 24 ? 0 : EIO));
		CHECK(answered(7, text, len) == (len == 288 ? 0 : EIO));
		CHECK(answered(4, text + 16, len) == (len >= 16 && len <= 116 ? 0 : EIO));
	}
	/* (the lengths of the two lists may be any) */
	memcpy(retry + 4, &flags, 4);
	for (uint32_t in = 0; in <= 2; in++)
		for (uint32_t out = 0; out <= 2; out++) {
			memcpy(retry + 8, &in, 4);
			memcpy(retry + 12, &out, 4);
			for (len = 0; len < 100; len++)
				CHECK(answered(4, retry, len) == (len == 16 + 16 * (in + out) ? 0 : EIO));
		}
	memcpy(retry + 8, &(uint32_t){ 256 }, 4); /* 257 pairs: one more than both may have */
	memcpy(retry + 12, &(uint32_t){ 1 }, 4);
	CHECK(answered(4, retry, sizeof(retry)) == EIO);
}

/* ---- a table */

/* clang-format off */

/* The functions note their arguments, each of which is another number of the record, and return something
 * that the reply must show. */
/* `sleep`: the caller waits for the lock. SETLK and SETLKW differ by this alone. */
NOTES(setlk, (REQ, FI, const nizwarf_lock *asked, int sleep), "%u %u %u %u %u %u %d", INO, FH,
      (unsigned)fi->lock_owner, (unsigned)asked->start, (unsigned)asked->end, asked->type, sleep)
/* By flock(2)'s numbers, without LOCK_NB where the caller waits. */
NOTES(flock, (REQ, FI, int op), "%u %u %u %d", INO, FH, (unsigned)fi->lock_owner, op)
/* The block of the device that has a block of a file, in blocks of this size. */
NOTES_AND(*block = 77, bmap, (REQ, size_t blocksize, uint64_t idx, uint64_t *block),
	  "%u %zu %u", INO, blocksize, (unsigned)idx)
#define IOCTL REQ, uint32_t cmd, uint64_t arg, FI, uint32_t flags, const void *in_buf, size_t in_size, \
	      nizwarf_ioctl *out, void *out_buf, size_t out_size, size_t *len
/* As many bytes as there is room for, of which it returns three, or too many. */
NOTES_AND((memset(out_buf, 1, out_size), memcpy(out_buf, "out", out_size < 3 ? out_size : 3), out->result = 5,
	   *len = excess ? out_size + excess : 3), ioctl, (IOCTL),
	  "%u %u %u %u %u %.*s %zu", INO, cmd, (unsigned)arg, FH, flags, (int)in_size, (const char *)in_buf,
	  out_size)
/* A notice names `kh` to wake the caller; there must be one only if `notify` is set. */
NOTES_AND(*revents = POLLIN | POLLOUT, poll,
	  (REQ, FI, uint32_t events, uint64_t kh, int notify, uint32_t *revents),
	  "%u %u %u %u %d", INO, FH, events, (unsigned)kh, notify)
NOTES_AND((fi->fh = 9, e->ino = 6), tmpfile,
	  (REQ, uint32_t mode, nizwarf_file_info *fi, nizwarf_entry_param *e),
	  "%u %o %u %o", INO, mode, fi->flags, req->call->umask)
#define STATX REQ, uint32_t flags, uint32_t mask, FI, nizwarf_statx *statx, struct timespec *timeout
NOTES_AND((timeout->tv_sec = 3, statx->mask = STATX_BTIME, statx->btime.tv_sec = -2, statx->spare2[13] = 1),
	  statx, (STATX), "%u %u %u %d", INO, flags, mask, fi ? (int)FH : -1)
NOTES_AND(CHECK(!fi->lock_owner); *len = size, copy_file_range,
	  (REQ, uint64_t off_in, FI, uint64_t ino_out, uint64_t off_out, const nizwarf_file_info *fi_out,
	   uint64_t size, uint64_t flags, size_t *len),
	  "%u %u %u %u %u %u %u", INO, (unsigned)off_in, (unsigned)ino_out, (unsigned)off_out,
	  (unsigned)fi_out->fh, (unsigned)size, (unsigned)flags)

/* clang-format on */

/* No lock is in the way: the requested one is returned as unlocked. */
static int note_getlk(REQ, FI, nizwarf_lock *asked)
{
	const uint32_t type = asked->type;

	asked->type = F_UNLCK;
	return say("getlk %u %u %u %u %u %u %u", INO, FH, (unsigned)fi->lock_owner, (unsigned)asked->start,
		   (unsigned)asked->end, type, asked->pid);
}

static void note_retrieve_reply(const nizwarf_req *req, uint64_t cookie, uint64_t ino, uint64_t offset,
				const void *data, size_t size)
{
	say("retrieved %d %u %u %.*s", cookie == unique, INO, (unsigned)offset, (int)size,
	    (const char *)data);
}

static void note_forget_multi(const nizwarf_req *req, size_t count, const nizwarf_forget *forgets)
{
	(void)req;
	say("forget_multi %zu %u %u ", count, (unsigned)forgets[0].ino, (unsigned)forgets[count - 1].nlookup);
}

static void note_forget(REQ, uint64_t nlookup)
{
	say(" forget %u %u", INO, (unsigned)nlookup);
}

static int note_release(REQ, FI)
{
	return say(" release %u %u", INO, (unsigned)fi->fh);
}

static int note_conn(const nizwarf_req *req, nizwarf_conn_info *conn)
{
	(void)req;
	say("conn %u", (unsigned)(conn->capable >> 35 & 1));
	/* NO_EXPORT_SUPPORT, REQUEST_TIMEOUT, and POSIX_LOCKS. */
	conn->want |= UINT64_C(1) << 38 | UINT64_C(1) << 42 | UINT64_C(1) << 1;
	conn->request_timeout = 30;
	conn->max_background = 7;
	conn->time_gran = 1000;
	conn->max_write = 8192;
	return 0;
}

static const nizwarf_ops ops = { .conn = note_conn,
				 .forget = note_forget,
				 .forget_multi = note_forget_multi,
				 .release = note_release,
				 .getlk = note_getlk,
				 .setlk = note_setlk,
				 .flock = note_flock,
				 .bmap = note_bmap,
				 .ioctl = note_ioctl,
				 .poll = note_poll,
				 .tmpfile = note_tmpfile,
				 .statx = note_statx,
				 .copy_file_range = note_copy_file_range,
				 .retrieve_reply = note_retrieve_reply };

/* Serves what is in `request`, as expect_of has it. Without a reply the request is one that has none, or
 * whose reply doesn't fit. */
static void expect(const char *words, size_t space, size_t len)
{
	const uint32_t opcode = u32(request + 4);
	const int has_none = opcode == NIZWARF_NOTIFY_REPLY || opcode == NIZWARF_BATCH_FORGET;

	expect_of(&ops, len || has_none ? NIZWARF_OK : NIZWARF_ENCODE_MESSAGE, space, NULL, 0, words, len);
}

/* Each row by the table: what its function is called with, and what its reply has. (16 is where a record begins.) */
static void called_as_told(void)
{
	uint64_t pairs[2 * 70 + 1] = { 70 }; /* how many, and then each node and its count */
	size_t i;

	for (i = 0; i < ROWS; i++) {
		begin_row(i);
		expect(rows[i].words, 4096, rows[i].reply_len);
		switch (rows[i].opcode) {
		case NIZWARF_GETLK:
			CHECK(u64(ours + 16) == 6 && u64(ours + 24) == 7 && u32(ours + 32) == F_UNLCK);
			break;
		case NIZWARF_IOCTL:
			CHECK(u32(ours + 16) == 5 && !memcmp(ours + 32, "out", 3));
			break;
		case NIZWARF_POLL:
			CHECK(u32(ours + 16) == (POLLIN | POLLOUT));
			break;
		case NIZWARF_STATX:
			CHECK(u64(ours + 16) == 3 && u32(ours + 48) == STATX_BTIME && u64(ours + 296) == 1);
			break;
		case NIZWARF_BMAP:
		case NIZWARF_COPY_64:
			CHECK(u64(ours + 16) == (rows[i].opcode == NIZWARF_BMAP ? 77 : 9));
			break;
		}
	}
	begin_with(NIZWARF_TMPFILE, 2, &unnamed, sizeof(unnamed));
	add_name("/");
	expect("tmpfile 2 640 2 22", 4096, 160);
	CHECK(u64(ours + 16) == 6 && u64(ours + 144) == 9);
	/* (who gets no reply has no file, and no lookup) */
	expect("tmpfile 2 640 2 22 release 6 9 forget 6 1", 159, 0);
	for (i = 0; i < 70; i++) {
		pairs[1 + 2 * i] = i + 1;
		pairs[2 + 2 * i] = i + 100;
	}
	begin_with(NIZWARF_BATCH_FORGET, 0, pairs, sizeof(pairs));
	/* (a table is told of at most 64 pairs at once) */
	expect("forget_multi 64 1 163 forget_multi 6 65 169 ", 4096, 0);
}

/* What is answered has no more bytes than the room: where a function says so, and where the room is smaller than the
 * record. */
static void text_in_room(void)
{
	const size_t space = 16 + sizeof(nizwarf_ioctl) + 4;
	size_t i, at, len;

	excess = 1;
	for (i = 0; i < ROWS; i++) {
		const int is_ioctl = rows[i].opcode == NIZWARF_IOCTL;

		if (!is_ioctl && rows[i].opcode != NIZWARF_GETLK && rows[i].opcode != NIZWARF_STATX)
			continue;
		memset(ours, LATE, 4096);
		begin_row(i);
		nizwarf_serve_ops(&ops, said, &slot, &session, request, request_len, ours, space, NULL, 0,
				  &len);
		CHECK(!len || (len == 16 && u32(ours + 4) == (uint32_t)-EIO));
		for (at = space; at < 4096; at++)
			CHECK(ours[at] == LATE);
		if (is_ioctl)
			CHECK(nizwarf_serve_ops(&ops, said, &slot, &session, request, request_len, ours, 4096,
						NULL, 0, &len) == NIZWARF_OK &&
			      len == 16 && u32(ours + 4) == (uint32_t)-EIO);
	}
	excess = 0;
}

/* Once a function has answered NIZWARF_LATER, its room is another's: what is there stays. */
static void left_alone(void)
{
	size_t i, at, len;

	failure = NIZWARF_LATER;
	for (i = 0; i < ROWS; i++) {
		if (!rows[i].reply_len)
			continue;
		begin_row(i);
		said[0] = 0;
		CHECK(nizwarf_serve_ops(&ops, said, &slot, &session, request, request_len, ours, 4096, NULL,
					0, &len) == NIZWARF_CALL);
		CHECK(!strcmp(said, rows[i].words));
		for (at = 0; at < 4096; at++)
			CHECK(ours[at] == LATE);
	}
	failure = 0;
}

/* INIT by `conn`: what virtiofsd does not know is agreed on besides, and sizes are lowered. */
static void agreed_besides(void)
{
	const uint64_t further = UINT64_C(1) << 38 | UINT64_C(1) << 42;
	const struct fuse_init_in init = { .major = 7,
					   .minor = 45,
					   .max_readahead = 65536,
					   .flags = FUSE_INIT_EXT | FUSE_POSIX_LOCKS,
					   .flags2 = (uint32_t)(further >> 32) | 1 << 3 };
	struct fuse_init_out out;

	begin_with(NIZWARF_INIT, 0, &init, sizeof(init));
	expect("conn 1", 4096, 80);
	memcpy(&out, ours + 16, sizeof(out));
	CHECK(out.flags == (FUSE_INIT_EXT | FUSE_POSIX_LOCKS) && out.flags2 == further >> 32);
	CHECK(out.max_background == 7 && out.time_gran == 1000 && out.max_write == 8192);
	/* (request_timeout is the two bytes after max_stack_depth, which older headers lack) */
	CHECK(u32(ours + 16 + 36) == 0 && ours[16 + 40] == 30 && !ours[16 + 41]);
	CHECK(session.options == (further | FUSE_INIT_EXT | FUSE_POSIX_LOCKS));
	session.options = 0;
}

/* An interrupt that came too early is told once, the oldest goes, and no call is taken for one whose number is 0. */
static void kept_interrupts(void)
{
	nizwarf_interrupts kept = { { 0 }, 0 };

	CHECK(!nizwarf_take_interrupt(&kept, 0));
	nizwarf_keep_interrupt(&kept, 5);
	CHECK(!nizwarf_take_interrupt(&kept, 6) && nizwarf_take_interrupt(&kept, 5));
	CHECK(!nizwarf_take_interrupt(&kept, 5));
	for (uint64_t i = 1; i <= NIZWARF_MAX_INTERRUPTS + 1; i++)
		nizwarf_keep_interrupt(&kept, i);
	CHECK(!nizwarf_take_interrupt(&kept, 1) && nizwarf_take_interrupt(&kept, 2));
	CHECK(nizwarf_take_interrupt(&kept, NIZWARF_MAX_INTERRUPTS + 1) && !nizwarf_take_interrupt(&kept, 0));
}

int main(void)
{
	size_t i;

	for (i = 0; i < ROWS; i++)
		told_as_asked(i);
	printed_by_name();
	data_that_lack();
	unnamed_files();
	records();
	called_as_told();
	text_in_room();
	left_alone();
	agreed_besides();
	kept_interrupts();
	nizwarf_scratch_free(&slot);
	return 0;
}
