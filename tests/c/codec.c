/* Holds the codec of nizwarf.h against the rules of docs/PROTOCOL.md and against the server over the
 * tree.
 *
 * A request of each opcode goes to both: whole, cut short at each length, in two pieces at each
 * place, and with one byte changed. What the codec finishes is as the server has it. A call that it
 * tells is the one that tests/c/codec-call.h finds; of the server's reply an answer is made by hand,
 * and for that the codec puts the same bytes. Rooms of each small length follow the room rule.
 *
 * Requests that kernels were recorded to ask go to both too, if it is given a file of them.
 *
 * test_libraries.py links it with both libraries. Status 0: all is as it should be. */
#include "codec.h"
#include "recorded.h"

enum { MOST_ITEMS = 512 };

/* What an answer points to, and the server's reply to a request in a large room. (the answer's memory: it holds until
 * the next one is made) */
static nizwarf_dirent items[MOST_ITEMS];
static uint8_t names[ROOM], text[ROOM], saved[ROOM];

/* How many requests were compared, and how many asked for each call. */
static long compared, told_calls[52];

/* The items of a directory, out of the records of a reply. `end` is after the last record. */
static void read_items(nizwarf_answer *answer, const uint8_t *at, const uint8_t *end, int plus)
{
	uint8_t *name = names;

	memset(items, 0, sizeof(items));
	answer->items = items;
	for (; at < end; answer->items_len++) {
		nizwarf_dirent *item = &items[answer->items_len];
		struct fuse_dirent record;

		CHECK(answer->items_len < MOST_ITEMS);
		if (plus) {
			memcpy(&item->entry, at, sizeof(item->entry));
			at += sizeof(item->entry);
		}
		/* (all of the record but its name, which follows) */
		memcpy(&record, at, FUSE_NAME_OFFSET);
		memcpy(name, at + FUSE_NAME_OFFSET, record.namelen);
		name[record.namelen] = 0;
		item->ino = record.ino;
		item->offset = record.off;
		item->type = record.type;
		item->name = name;
		item->name_size = record.namelen + 1; /* with the 0 */
		name += item->name_size;
		at += FUSE_DIRENT_ALIGN(FUSE_NAME_OFFSET + record.namelen);
	}
}

/* The next four read the record of a reply, by the kernel's structs, into an answer's fields. */
static void read_attr(nizwarf_answer *answer, const uint8_t *body)
{
	struct fuse_attr_out out;

	memcpy(&out, body, sizeof(out));
	answer->entry.attr_seconds = out.attr_valid;
	answer->entry.attr_nanoseconds = out.attr_valid_nsec;
	memcpy(&answer->entry.attr, &out.attr, sizeof(out.attr));
}

/* These read a reply back into the answer that it was made of. */
static void read_open(nizwarf_answer *answer, const uint8_t *body)
{
	answer->has_handle = 1;
	answer->handle = u64(body);
	answer->open_flags = u32(body + 8);
}

static void read_statfs(nizwarf_answer *answer, const uint8_t *body)
{
	struct fuse_kstatfs out;

	memcpy(&out, body, sizeof(out));
	answer->statfs = (nizwarf_statfs){ out.bsize,  out.frsize, out.blocks, out.bfree,
					   out.bavail, out.files,  out.ffree,  out.namelen };
}

/* The answer that a call had, out of the reply to it. */
static nizwarf_answer answer_of(const nizwarf_call *call, const uint8_t *reply, size_t len)
{
	const uint8_t *body = reply + 16; /* after the header */
	nizwarf_answer answer;

	memset(&answer, 0, sizeof(answer));
	if (!len) /* it has no reply */
		return answer;
	answer.error = -(int32_t)u32(reply + 4);
	if (answer.error)
		return answer;
	switch (call->reply) {
	case NIZWARF_REPLY_DATA:
		answer.count = len - 16;
		break;
	case NIZWARF_REPLY_INIT: /* `flags`, and with INIT_EXT `flags2` */
		answer.count = u32(body + 12) | (uint64_t)u32(body + 32) << 32;
		break;
	case NIZWARF_REPLY_CREATE:
		read_open(&answer, body + sizeof(answer.entry));
		/* fall through */
	case NIZWARF_REPLY_ENTRY:
		memcpy(&answer.entry, body, sizeof(answer.entry));
		break;
	case NIZWARF_REPLY_ATTR:
		read_attr(&answer, body);
		break;
	case NIZWARF_REPLY_OPEN:
		read_open(&answer, body);
		break;
	case NIZWARF_REPLY_STATFS:
		read_statfs(&answer, body);
		break;
	case NIZWARF_REPLY_BYTES_OR_SIZE:
		/* (of size 0 the length alone is asked for) */
		answer.has_count = !call->size;
		answer.count = u32(body);
		/* fall through */
	case NIZWARF_REPLY_BYTES:
		memcpy(text, body, len - 16);
		answer.text = text;
		answer.text_len = answer.has_count ? 0 : len - 16;
		break;
	case NIZWARF_REPLY_OFFSET:
		answer.count = u64(body);
		break;
	case NIZWARF_REPLY_COUNT:
		answer.count = u32(body);
		break;
	case NIZWARF_REPLY_DIRECTORY:
		read_items(&answer, body, reply + len, call->has & NIZWARF_PLUS);
		break;
	}
	return answer;
}

/* Whether a request is one that the tree has, where of the codec nothing is offered. (the codec without offers refuses
 * them) */
static int is_of_tree(size_t len)
{
	const uint32_t opcode = len < 8 ? 0 : u32(request + 4);

	return opcode == NIZWARF_IOCTL || opcode == NIZWARF_TMPFILE || opcode == NIZWARF_STATX;
}

/* The first bytes of the request to both, in two pieces where it is cut. Gives the length of the reply. Where the
 * codec asks for a call, the answer is made of the server's reply to the same request, and must give the same bytes.
 * Options go on from here. */
static size_t compare(size_t len, size_t cut)
{
	const struct iovec pieces[] = { { request, cut }, { request + cut, len - cut } };
	const struct iovec their_room = { theirs, ROOM };
	nizwarf_answer answer;
	nizwarf_call call;
	nizwarf_result result;
	size_t their_len;

	if (is_of_tree(len))
		return 0;
	compared++;
	if (ask(pieces, 2, len, ROOM, &call, &result) != NIZWARF_CALL)
		return result.len;
	told_calls[call.opcode]++;
	CHECK(nizwarf_server_handle(&server, pieces, 2, &their_room, 1, &their_len) == NIZWARF_OK);
	answer = answer_of(&call, theirs, their_len);
	/* (one byte more is looked at below) */
	memset(ours, FILL, their_len + 16);
	if (call.reply == NIZWARF_REPLY_DATA && !answer.error)
		/* (data of a READ are put by who answers: the codec puts the header alone) */
		memcpy(ours + 16, theirs + 16, answer.count);
	CHECK(reply(&call, &answer, cut, &result) == NIZWARF_OK && result.len == their_len);
	CHECK(!memcmp(ours, theirs, their_len) && ours[their_len] == FILL);
	CHECK(result.written == (call.reply == NIZWARF_REPLY_DATA && their_len > 16 ? 16 : their_len));
	CHECK(!result.forget && !result.interrupts && result.entries == answer.items_len);
	/* (both have agreed on the same) */
	CHECK(result.options == nizwarf_server_options(&server));
	session.options = result.options;
	return their_len;
}

/* The request with a small room, of which `saved` has the reply in a large one. */
static void compare_room(size_t space, size_t full)
{
	const struct iovec piece = { request, request_len };
	nizwarf_answer answer;
	nizwarf_call call;
	nizwarf_result result;
	size_t i;

	if (is_of_tree(request_len))
		return;
	if (ask(&piece, 1, request_len, space, &call, &result) != NIZWARF_CALL)
		return;
	answer = answer_of(&call, saved, full);
	/* (a READ says fewer bytes, and so fits in any room for a header) */
	if (call.reply == NIZWARF_REPLY_DATA && !answer.error && full > space) {
		full = space;
		answer.count = space - 16;
	}
	memset(ours, FILL, space);
	if (full <= space) {
		CHECK(reply(&call, &answer, space / 2, &result) == NIZWARF_OK && result.len == full);
		CHECK(!result.forget);
		return;
	}
	CHECK(reply(&call, &answer, space / 2, &result) == NIZWARF_ENCODE_MESSAGE);
	CHECK(!result.len && !result.written && result.options == session.options);
	/* (the client gets no entry, so its lookup is given back) */
	CHECK(result.forget == (has_entry(&call, &answer) ? answer.entry.node : 0));
	for (i = 0; i < space; i++)
		CHECK(ours[i] == FILL);
}

/* The same numbers each time, by shifts. */
static uint32_t random_number(void)
{
	static uint64_t seed = UINT64_C(88172645463325252);

	seed ^= seed << 13;
	seed ^= seed >> 7;
	seed ^= seed << 17;
	return (uint32_t)(seed >> 11);
}

/* The request with a byte changed, up to a length: but none that begins or ends a session. */
static void change_bytes(size_t len)
{
	int i;

	for (i = 0; i < 300; i++) {
		const size_t at = random_number() % len;
		const uint8_t old = request[at]; /* put back after it */
		uint32_t opcode;

		/* (any byte, or one with another bit) */
		request[at] = (uint8_t)(i & 1 ? random_number() : old ^ 1u << (random_number() & 7));
		opcode = u32(request + 4);
		if (opcode != NIZWARF_INIT && opcode != NIZWARF_DESTROY)
			compare(request_len, 0);
		request[at] = old;
	}
}

/* The request in all forms. Its calls are made again and again: so the server's state is what the last of them left,
 * and both see the same. */
static void try_forms(void)
{
	const uint32_t opcode = u32(request + 4);
	/* where it is cut: all of the record, and names */
	const size_t len = request_len < 400 ? request_len : 400;
	const size_t full = compare(request_len, 0);
	size_t n;

	memcpy(saved, theirs, full);
	for (n = 0; n < len; n++)
		compare(n, n / 2);
	/* (each more would begin or end the session) */
	if (opcode == NIZWARF_INIT || opcode == NIZWARF_DESTROY)
		return;
	for (n = 0; n < 200; n++)
		compare_room(n, full);
	for (n = 1; n < len; n++)
		compare(request_len, n);
	change_bytes(len);
	compare(request_len, 0);
}

/* A request of a record and up to two names, in all forms. */
static void try_request(uint32_t opcode, uint64_t node, const void *record, size_t len, const char *name,
			const char *other)
{
	begin_with(opcode, node, record, len);
	if (name)
		add_name(name);
	if (other)
		add_name(other);
	try_forms();
}

/* The same of a record without a name, and of names without a record. */
#define TRY_RECORD(opcode, node, record) try_request(opcode, node, &(record), sizeof(record), NULL, NULL)
#define TRY_NAME(opcode, node, name) try_request(opcode, node, "", 0, name, NULL)

/* INIT with these options offered. */
static void agree(uint64_t options)
{
	const uint32_t flags = (uint32_t)options | FUSE_INIT_EXT;
	const struct fuse_init_in record = { 7, 38, 131072, flags, (uint32_t)(options >> 32), { 0 } };

	TRY_RECORD(NIZWARF_INIT, 0, record);
}

/* What a request after names ends in, where groups were agreed on. */
static void add_extensions(void)
{
	/* a block's size, its kind, how many groups, one */
	static const uint32_t group[] = { 16, 32, 1, 4242 };

	if (session.options & CREATE_SUPP_GROUP)
		add(group, sizeof(group));
}

/* The node that the last reply names. The last request had no error. */
static uint64_t node_of_reply(void)
{
	CHECK(!u32(theirs + 4));
	return u64(theirs + 16);
}

/* Requests that make names in the root. Gives the node of a file, and the handle by which it is
 * open. */
static uint64_t try_makers(uint64_t *handle)
{
	const struct fuse_mkdir_in mkdir = { 0755, 022 };
	const struct fuse_mknod_in mknod = { .mode = 0100644, .umask = 022 };
	const struct fuse_create_in create = { .flags = 2, .mode = 0100600, .umask = 022 };
	uint64_t node;

	begin_with(NIZWARF_MKDIR, 1, &mkdir, sizeof(mkdir));
	add_name("directory");
	add_extensions();
	try_forms();
	begin_with(NIZWARF_MKNOD, 1, &mknod, sizeof(mknod));
	add_name("specials");
	add_extensions();
	try_forms();
	begin(NIZWARF_SYMLINK, 1);
	add_name("link");
	add_name("target/of it");
	add_extensions();
	compare(request_len, 0);
	node = node_of_reply();
	try_forms();
	begin(NIZWARF_READLINK, node);
	try_forms();
	begin_with(NIZWARF_CREATE, 1, &create, sizeof(create));
	add_name("file");
	add_extensions();
	compare(request_len, 0);
	node = node_of_reply();
	*handle = u64(theirs + 16 + sizeof(struct fuse_entry_out));
	try_forms();
	return node;
}

/* Requests about a file that is open. */
static void try_file(uint64_t node, uint64_t handle)
{
	static const uint8_t data[4096] = "data";
	struct fuse_write_in write = { .fh = handle, .size = sizeof(data), .flags = 2 };
	struct fuse_read_in read = { .fh = handle, .size = 2000, .offset = 4000 }; /* over the end */
	struct fuse_getattr_in getattr = { 0 };
	struct fuse_setattr_in setattr = { .valid = FATTR_MODE | FATTR_SIZE | FATTR_FH | FATTR_MTIME,
					   .fh = handle,
					   .size = 5000,
					   .mode = 0600,
					   .mtime = 9 };
	uint64_t record[7];
	size_t n, at;

	begin_with(NIZWARF_WRITE, node, &write, sizeof(write));
	add(data, sizeof(data));
	try_forms();
	TRY_RECORD(NIZWARF_READ, node, read);
	TRY_RECORD(NIZWARF_GETATTR, node, getattr);
	getattr.getattr_flags = FUSE_GETATTR_FH;
	getattr.fh = handle;
	TRY_RECORD(NIZWARF_GETATTR, node, getattr);
	TRY_RECORD(NIZWARF_SETATTR, node, setattr);
	for (n = 0; n < sizeof(about_file) / sizeof(*about_file); n++) {
		for (at = 0; at < 7; at++) {
			record[at] = about_file[n].record[at];
			if (record[at] == ITS_NODE)
				record[at] = node;
			else if (record[at] == ITS_HANDLE)
				record[at] = handle;
		}
		begin_with(about_file[n].opcode, node, record, forms[about_file[n].opcode].record);
		try_forms();
	}
}

/* Requests that bring a file up to date, and the release of it. */
static void try_syncs(uint64_t node, uint64_t handle)
{
	const struct fuse_flush_in flush = { .fh = handle, .lock_owner = 3 };
	const struct fuse_fsync_in sync = { .fh = handle, .fsync_flags = 1 };
	const struct fuse_access_in access = { .mask = 4 };
	/* both flags: FLUSH, and of flock(2) */
	const struct fuse_release_in release = { .fh = handle, .release_flags = 3, .lock_owner = 5 };

	TRY_RECORD(NIZWARF_FLUSH, node, flush);
	TRY_RECORD(NIZWARF_FSYNC, node, sync);
	TRY_RECORD(NIZWARF_FSYNCDIR, 1, sync);
	TRY_RECORD(NIZWARF_ACCESS, node, access);
	TRY_RECORD(NIZWARF_RELEASE, node, release);
}

/* Requests about extended attributes. */
static void try_attributes(uint64_t node)
{
	const uint32_t set[] = { 5, 0, 0, 0 }; /* the length of the value, and flags */
	uint32_t size;

	begin_with(NIZWARF_SETXATTR, node, set, 8);
	add_name("user.a");
	add("value", 5);
	try_forms();
	for (size = 0; size <= 100; size += 100) { /* for the length, and for the value */
		const uint32_t record[] = { size, 0 };

		try_request(NIZWARF_GETXATTR, node, record, sizeof(record), "user.a", NULL);
		TRY_RECORD(NIZWARF_LISTXATTR, node, record);
	}
	TRY_NAME(NIZWARF_REMOVEXATTR, node, "user.a");
}

/* A directory is offered whole to readings of small sizes: what is taken is what the server takes. The codec's table
 * of items is what one reading of all gave. */
static void offer_directory(uint64_t handle, int plus)
{
	const uint32_t opcode = plus ? READDIRPLUS : NIZWARF_READDIR;
	struct fuse_read_in read = { .fh = handle };
	nizwarf_answer all;
	nizwarf_call call;
	nizwarf_result result;
	size_t len, taken, bytes;

	for (; read.size < 1200; read.size += 8) {
		const struct iovec piece = { request, 80 }; /* a header and its record */
		const struct iovec their_room = { theirs, ROOM };
		struct fuse_read_in whole = read;

		whole.size = 4096;
		begin_with(opcode, 1, &whole, sizeof(whole));
		CHECK(ask(&piece, 1, request_len, ROOM, &call, &result) == NIZWARF_CALL);
		CHECK(!nizwarf_server_handle(&server, &piece, 1, &their_room, 1, &len));
		all = answer_of(&call, theirs, len);
		begin_with(opcode, 1, &read, sizeof(read));
		CHECK(ask(&piece, 1, request_len, ROOM, &call, &result) == NIZWARF_CALL);
		CHECK(!nizwarf_server_handle(&server, &piece, 1, &their_room, 1, &len));
		CHECK(reply(&call, &all, read.size, &result) == NIZWARF_OK && result.len == len);
		CHECK(!memcmp(ours, theirs, len) && !result.forget);
		/* (the sizes of nizwarf_record_size say which items are taken) */
		for (taken = bytes = 0; taken < all.items_len; taken++) {
			bytes += nizwarf_record_size(all.items[taken].name_size, plus);
			if (bytes > read.size)
				break;
		}
		CHECK(result.entries == taken);
	}
}

/* Requests about the root as a directory. */
static void try_directory(void)
{
	const struct fuse_open_in open = { 0 };
	struct fuse_release_in release = { 0 };
	struct fuse_read_in read = { .size = 4096 };

	TRY_RECORD(NIZWARF_OPENDIR, 1, open);
	compare(request_len, 0);
	/* (a client that offered to do without is answered by ENOSYS) */
	if (!u32(theirs + 4))
		release.fh = read.fh = u64(theirs + 16);
	TRY_RECORD(NIZWARF_READDIR, 1, read);
	TRY_RECORD(READDIRPLUS, 1, read);
	offer_directory(read.fh, 0);
	offer_directory(read.fh, 1);
	TRY_RECORD(NIZWARF_RELEASEDIR, 1, release);
}

/* Requests about names, of which the last takes them out. */
static void try_names(uint64_t node)
{
	const struct fuse_link_in link = { node };
	const struct fuse_rename_in rename = { 1 };
	const struct fuse_rename2_in rename2 = { .newdir = 1, .flags = 1 };
	/* there, not there, and such as are refused */
	static const char *const looked_up[] = { "file", "none", "", ".", "a/b" };
	size_t i;

	for (i = 0; i < 5; i++)
		TRY_NAME(NIZWARF_LOOKUP, 1, looked_up[i]);
	try_request(NIZWARF_LINK, 1, &link, sizeof(link), "hard", NULL);
	try_request(NIZWARF_RENAME, 1, &rename, sizeof(rename), "hard", "moved");
	try_request(RENAME2, 1, &rename2, sizeof(rename2), "moved", "again");
	TRY_NAME(NIZWARF_UNLINK, 1, "again");
	TRY_NAME(NIZWARF_RMDIR, 1, "directory");
}

/* Requests that tell nothing, are no opcode, or have no reply. */
static void try_others(uint64_t node)
{
	/* clang-format off */
	static const uint32_t untold[] = {
		NIZWARF_GETLK, NIZWARF_SETLK, NIZWARF_SETLKW, NIZWARF_BMAP, NIZWARF_IOCTL, NIZWARF_POLL,
		NIZWARF_NOTIFY_REPLY, NIZWARF_TMPFILE, NIZWARF_STATFS, SETUPMAPPING, REMOVEMAPPING,
		0, 7, 19, 52, 4096
	};
	/* clang-format on */
	const struct fuse_open_in open = { 0 };
	const struct fuse_interrupt_in interrupt = { 1234 };
	/* (of nodes that there are, and that there are not) */
	const uint64_t one = 1, pairs[] = { 9999, 1, 9998, 2, node, 1 };
	const uint32_t count[] = { 3, 0 };
	size_t i;

	for (i = 0; i < sizeof(untold) / sizeof(*untold); i++)
		TRY_NAME(untold[i], 1, NULL);
	TRY_RECORD(NIZWARF_OPEN, node, open);
	TRY_RECORD(INTERRUPT, 0, interrupt);
	TRY_RECORD(NIZWARF_FORGET, 9999, one);
	begin_with(NIZWARF_BATCH_FORGET, 0, count, sizeof(count));
	add(pairs, sizeof(pairs));
	try_forms();
}

/* A new server, and a session with this largest payload. */
static void begin_session(uint32_t max_buffer)
{
	static const nizwarf_server_config settings = { .seconds = 100,
							.nanoseconds = 5,
							.nodes = 4096,
							.bytes = 1 << 24,
							.file = 1 << 22,
							.mode = 0755 };

	CHECK(nizwarf_server_new(&server, 4096, max_buffer, &settings) == NIZWARF_OK);
	session = (nizwarf_session){ 0, 4096, max_buffer };
}

/* All requests, with this largest payload and these options offered. The session begins and ends with it. */
static void try_all(uint32_t max_buffer, uint64_t options)
{
	uint64_t node, handle;

	begin_session(max_buffer);
	agree(options);
	node = try_makers(&handle);
	try_file(node, handle);
	try_attributes(node);
	try_directory();
	try_others(node);
	try_names(node);
	try_syncs(node, handle);
	TRY_NAME(NIZWARF_DESTROY, 0, NULL);
	CHECK(!session.options);
}

/* Requests that kernels were recorded to ask, a line each: its room, which is a large one here, and its
 * bytes. */
static long try_recorded(const char *path)
{
	static char line[1 << 19];
	FILE *lines = fopen(path, "r");
	long count = 0;
	size_t cut;

	if (!lines) {
		perror(path);
		exit(2);
	}
	begin_session(ROOM);
	while (fgets(line, sizeof(line), lines)) {
		request_len = read_request(line, request, sizeof(request), &cut);
		CHECK(request_len < sizeof(request));
		if (!request_len)
			continue;
		compare(request_len, cut);
		count++;
	}
	fclose(lines);
	return count;
}

/* It may be given a file of recorded requests. */
int main(int argc, char **argv)
{
	long recorded = 0;
	uint32_t opcode;

	try_all(ROOM, FUSE_DO_READDIRPLUS | FUSE_BIG_WRITES);
	try_all(4096, KNOWN_OPTIONS);
	try_all(134217728, 0);
	for (opcode = 0; opcode < 52; opcode++)
		if (forms[opcode].record || forms[opcode].kind)
			CHECK(told_calls[opcode] || opcode == READDIRPLUS || opcode == RENAME2 ||
			      opcode == NIZWARF_IOCTL || opcode == NIZWARF_TMPFILE);
	if (argc > 1)
		recorded = try_recorded(argv[1]);
	CHECK(nizwarf_scratch_free(&slot) == NIZWARF_OK && nizwarf_server_free(&server) == NIZWARF_OK);
	printf("%ld requests had the server's replies by the codec, of them %ld that kernels asked.\n",
	       compared, recorded);
	return 0;
}
