/* Holds nizwarf_ops.h against what it says: a table of functions that note how they are called.
 * Each request comes to its function, with its arguments; what the client doesn't get is given
 * back; an empty table answers as the header says.
 *
 * test_libraries.py links it with the library. Status 0: all is as it should be. */
#define _GNU_SOURCE
#include "ops.h"

/* What `init` takes out, and what it adds. */
static uint64_t declined, added = FUSE_WRITEBACK_CACHE;

/* The functions of a table in which each is there say their own name, and what they are handed: the node first. */
static int note_init(const nizwarf_req *req, uint64_t capable, uint64_t *want)
{
	*want = (*want & ~declined) | added;
	/* (READDIRPLUS, of two bits, is what a client offers here) */
	return say("init %d %x", req->user == said, (unsigned)capable & 3 << 13);
}

/* 1: with the pointer that the caller handed in; it is no file's. */
static void note_destroy(const nizwarf_req *req)
{
	say("destroy %d", req->user == said);
}

/* Whatever its times and numbers are, each is another one, so that none can come in another's place. */
static int entry(nizwarf_entry_param *e)
{
	const nizwarf_attr attr = { .ino = 50, .mode = 0100644 };

	*e = (nizwarf_entry_param){
		.ino = 5, .generation = 6, .attr = attr, .attr_timeout = { 1, 2 }, .entry_timeout = { 3, 4 }
	};
	return failure;
}

/* It begins with a blank, since it may come after another call of the same request. */
static void note_forget(REQ, uint64_t nlookup)
{
	say(" forget %u %u", INO, (unsigned)nlookup);
}

/* (a time below 0 is none) */
static int note_setattr(REQ, const nizwarf_setattr *set, uint32_t to_set, FI, nizwarf_attr *attr,
			struct timespec *attr_timeout)
{
	(void)attr;
	/* (the bits of the record mean something else) */
	CHECK(!fi || (!fi->flags && !fi->lock_owner));
	attr_timeout->tv_sec = -1; /* no time: 0 is replied */
	attr_timeout->tv_nsec = 5;
	return say("setattr %u %x %o %d", INO, to_set, set->mode, fi ? (int)FH : -1);
}

/* Two items, and how many of them found room. */
static int note_readdir(REQ, uint64_t off, FI, nizwarf_dir *dir)
{
	int added = nizwarf_add_direntry(dir, ".", 1, 4, 1); /* it tells whether there was room */

	added += nizwarf_add_direntry(dir, "name", 50, 8, 2);
	return say("readdir %u %u %u %d", INO, (unsigned)off, FH, added);
}

/* Four items: `..` is none that is looked up, and `c` has no node. */
static int note_readdirplus(REQ, uint64_t off, FI, nizwarf_dir *dir)
{
	nizwarf_entry_param e;
	int added;

	say("readdirplus %u %u %u", INO, (unsigned)off, FH);
	entry(&e);
	added = nizwarf_add_direntry_plus(dir, "a", &e, 1);
	added += nizwarf_add_direntry_plus(dir, "..", &e, 2);
	e.ino = 6;
	added += nizwarf_add_direntry_plus(dir, "b", &e, 3);
	e.ino = 0; /* a name that was not looked up: it has no lookup to give back */
	added += nizwarf_add_direntry_plus(dir, "c", &e, 4);
	return say(" %d", added);
}

/* (flags and owner of an open file are none of a copy's) */
static int note_copy_file_range(REQ, uint64_t off_in, FI, uint64_t ino_out, uint64_t off_out,
				const nizwarf_file_info *fi_out, uint64_t size, uint64_t flags, size_t *len)
{
	CHECK(!fi->lock_owner && !fi->flags && !fi_out->lock_owner && !fi_out->flags);
	*len = excess ? size + excess : 9;
	return say("copy_file_range %u %u %u %u %u %u %u %u", INO, (unsigned)off_in, FH, (unsigned)ino_out,
		   (unsigned)off_out, (unsigned)fi_out->fh, (unsigned)size, (unsigned)flags);
}

/* `unique` is the number of the request that is to be interrupted, and not of this one. */
static void note_interrupt(void *user, uint64_t unique)
{
	say("interrupt %d %u", user == said, (unsigned)unique);
}

/* Fills in bytes, if there is memory for any: requested with the size 0, a function returns their length
 * alone. */
static void fill_in(void *at, size_t size, size_t *len, const char *text, size_t text_len)
{
	if (size)
		memcpy(at, text, text_len);
	*len = excess ? size + excess : text_len;
}

/* clang-format off */

#define NAME const char *name
#define OPENED nizwarf_file_info *fi
#define ENTRY nizwarf_entry_param *e
#define DATA size_t size, size_t *len

NOTES_AND(entry(e), lookup, (REQ, NAME, ENTRY), "%u %s", INO, name)
/* A GETATTR of no open file has none: -1 in place of its handle. */
NOTES_AND((attr->size = 7, *attr_timeout = (struct timespec){ 8, 9 }), getattr,
	  (REQ, FI, nizwarf_attr *attr, struct timespec *attr_timeout), "%u %d", INO, fi ? (int)FH : -1)
/* A text without a 0: its length says where it ends. */
NOTES_AND(fill_in(link, size, len, "target", 6), readlink, (REQ, char *link, DATA), "%u %zu", INO, size)
/* (the umask is no argument: whoever wants it reads it in the call) */
NOTES_AND(entry(e), mknod, (REQ, NAME, uint32_t mode, uint32_t rdev, ENTRY),
	  "%u %s %o %u %o", INO, name, mode, rdev, req->call->umask)
NOTES_AND(entry(e), mkdir, (REQ, NAME, uint32_t mode, ENTRY), "%u %s %o", INO, name, mode)
NOTES(unlink, (REQ, NAME), "%u %s", INO, name)
NOTES(rmdir, (REQ, NAME), "%u %s", INO, name)
/* The text comes first, as in libfuse. */
NOTES_AND(entry(e), symlink, (const nizwarf_req *req, const char *link, uint64_t ino, NAME, ENTRY),
	  "%s %u %s", link, INO, name)
NOTES(rename, (REQ, NAME, uint64_t to, const char *newname, uint32_t flags),
      "%u %s %u %s %u", INO, name, (unsigned)to, newname, flags)
NOTES_AND(entry(e), link, (REQ, uint64_t to, NAME, ENTRY), "%u %u %s", INO, (unsigned)to, name)
/* The handle and the flags are replied; the client hands the handle back in each call of the file. */
NOTES_AND((fi->fh = 11, fi->open_flags = FOPEN_KEEP_CACHE), open, (REQ, OPENED), "%u %x", INO, fi->flags)
/* Fewer bytes than were requested, as at the end of a file. */
NOTES_AND(fill_in(buf, size, len, "data", 4), read,
	  (REQ, size_t size, uint64_t off, FI, void *buf, size_t *len),
	  "%u %zu %u %u", INO, size, (unsigned)off, FH)
/* The data have no 0 at their end. */
NOTES_AND(*len = size + excess, write, (REQ, const void *buf, size_t size, uint64_t off, FI, size_t *len),
	  "%u %.*s %u %u", INO, (int)size, (const char *)buf, (unsigned)off, FH)
NOTES(flush, (REQ, FI), "%u %u %u", INO, FH, (unsigned)fi->lock_owner)
/* The flags are those of the open file, and not those of the release. */
NOTES(release, (REQ, FI), "%u %u %x", INO, FH, fi->flags)
NOTES(fsync, (REQ, int datasync, FI), "%u %d %u", INO, datasync, FH)
NOTES_AND(fi->fh = 12, opendir, (REQ, OPENED), "%u", INO)
NOTES(releasedir, (REQ, FI), "%u %u", INO, FH)
NOTES(fsyncdir, (REQ, int datasync, FI), "%u %d %u", INO, datasync, FH)
NOTES_AND(stat->blocks = 13, statfs, (REQ, nizwarf_statfs *stat), "%u", INO)
NOTES(setxattr, (REQ, NAME, const void *value, size_t size, uint32_t flags),
      "%u %s %.*s %u", INO, name, (int)size, (const char *)value, flags)
NOTES_AND(fill_in(value, size, len, "value", 5), getxattr, (REQ, NAME, size_t size, void *value, size_t *len),
	  "%u %s %zu", INO, name, size)
NOTES_AND(fill_in(list, size, len, "user.a", 7), listxattr, (REQ, size_t size, char *list, size_t *len),
	  "%u %zu", INO, size)
NOTES(removexattr, (REQ, NAME), "%u %s", INO, name)
NOTES(access, (REQ, uint32_t mask), "%u %u", INO, mask)
/* It has an entry and a handle: if the reply doesn't fit, both must be released. */
NOTES_AND((entry(e), fi->fh = 14), create, (REQ, NAME, uint32_t mode, OPENED, ENTRY),
	  "%u %s %o %x", INO, name, mode, fi->flags)
NOTES(fallocate, (REQ, uint32_t mode, uint64_t offset, uint64_t length, FI),
      "%u %u %u %u %u", INO, mode, (unsigned)offset, (unsigned)length, FH)
/* SEEK_DATA and SEEK_HOLE alone come here: Linux does the others itself. */
NOTES_AND(*found = 15, lseek, (REQ, uint64_t off, uint32_t whence, FI, uint64_t *found),
	  "%u %u %u %u", INO, (unsigned)off, whence, FH)
/* Of the file system, whichever node is named. */
NOTES(syncfs, (REQ), "%u", INO)

#define HAS(name) .name = note_##name
static const nizwarf_ops ops = {
	HAS(init), HAS(destroy), HAS(lookup), HAS(forget), HAS(getattr), HAS(setattr), HAS(readlink),
	HAS(mknod), HAS(mkdir), HAS(unlink), HAS(rmdir), HAS(symlink), HAS(rename), HAS(link), HAS(open),
	HAS(read), HAS(write), HAS(flush), HAS(release), HAS(fsync), HAS(opendir), HAS(readdir),
	HAS(readdirplus), HAS(releasedir), HAS(fsyncdir), HAS(statfs), HAS(setxattr), HAS(getxattr),
	HAS(listxattr), HAS(removexattr), HAS(access), HAS(create), HAS(fallocate), HAS(lseek),
	HAS(copy_file_range), HAS(syncfs), HAS(interrupt),
};

/* clang-format on */

/* A table without a function; and the one that is asked. */
static const nizwarf_ops no_ops;
static const nizwarf_ops *table = &ops;

/* How much room there is, and for how many items. */
static size_t space = 8192, most = 8;

/* Serves the request: what is called is these words, and the reply has this length. */
static void expect(const char *words, size_t len)
{
	nizwarf_dirent items[8]; /* of which `most` may be used */

	memset(ours, FILL, space);
	expect_of(table, NIZWARF_OK, space, items, most, words, len);
	/* (the header says the same, of this request) */
	CHECK(!len || (u32(ours) == len && u64(ours + 8) == unique));
}

/* A request of a record and up to two texts, as 0 ends them. */
static void expect_record(uint32_t opcode, const void *record, size_t record_len, const char *name,
			  const char *other, const char *words, size_t len)
{
	begin_with(opcode, 2, record, record_len);
	if (name)
		add_name(name);
	if (other)
		add_name(other);
	expect(words, len);
}

/* The same of a request whose reply is an error. */
static void expect_fault(int error, uint32_t opcode, const void *record, size_t record_len, const char *name,
			 const char *words)
{
	expect_record(opcode, record, record_len, name, NULL, words, 16);
	CHECK(u32(ours + 4) == (uint32_t)-error);
}

/* The replies of the functions that answer more than that it was done. The bytes that are looked at: 16 is where a
 * record begins; an entry has its times at 32 to 55, and its attributes from 56 on. */
static void answers(void)
{
	const struct fuse_setattr_in set = {
		.valid = FATTR_MODE | FATTR_FH | FATTR_LOCKOWNER, .fh = 3, .mode = 0644, .lock_owner = 5
	};
	const uint32_t zeros[4] = { 0 }, sizes[] = { 100, 0 }, handle[] = { 1, 0, 7, 0 };
	const uint32_t open[] = { 2, 0 }, create[] = { 1, 0600, 0, 0 };
	const uint32_t mknod[] = { 0644, 9, 022, 0 };

	/* (144 bytes: a header of 16 and an entry of 128; attributes with their time have 104) */
	expect_record(NIZWARF_LOOKUP, zeros, 0, "a", NULL, "lookup 2 a", 144);
	CHECK(u64(ours + 16) == 5 && u64(ours + 24) == 6 && u64(ours + 56) == 50);
	CHECK(u64(ours + 32) == 3 && u32(ours + 48) == 4);
	CHECK(u64(ours + 40) == 1 && u32(ours + 52) == 2);
	expect_record(NIZWARF_GETATTR, zeros, 16, NULL, NULL, "getattr 2 -1", 120);
	CHECK(u64(ours + 16) == 8 && u32(ours + 24) == 9 && u64(ours + 40) == 7);
	expect_record(NIZWARF_GETATTR, handle, 16, NULL, NULL, "getattr 2 7", 120);
	expect_record(NIZWARF_SETATTR, &set, 88, NULL, NULL, "setattr 2 1 644 3", 120);
	CHECK(!u64(ours + 16) && !u32(ours + 24)); /* of a time that is none */
	/* (Linux takes no longer text) */
	expect_record(NIZWARF_READLINK, zeros, 0, NULL, NULL, "readlink 2 4095", 22);
	CHECK(!memcmp(ours + 16, "target", 6));
	expect_record(NIZWARF_MKNOD, mknod, 16, "a", NULL, "mknod 2 a 644 9 22", 144);
	expect_record(NIZWARF_MKDIR, open, 8, "a", NULL, "mkdir 2 a 2", 144); /* its mode is 2 */
	expect_record(NIZWARF_SYMLINK, zeros, 0, "a", "text", "symlink text 2 a", 144);
	expect_record(NIZWARF_LINK, sizes, 8, "a", NULL, "link 100 2 a", 144);
	expect_record(NIZWARF_OPEN, open, 8, NULL, NULL, "open 2 2", 32);
	CHECK(u64(ours + 16) == 11 && u32(ours + 24) == FOPEN_KEEP_CACHE);
	expect_record(NIZWARF_OPENDIR, open, 8, NULL, NULL, "opendir 2", 32);
	CHECK(u64(ours + 16) == 12 && !u32(ours + 24));
	expect_record(NIZWARF_CREATE, create, 16, "a", NULL, "create 2 a 600 1", 160);
	CHECK(u64(ours + 16) == 5 && u64(ours + 144) == 14);
	expect_record(NIZWARF_STATFS, zeros, 0, NULL, NULL, "statfs 2", 96);
	CHECK(u64(ours + 16) == 13);
	expect_record(NIZWARF_GETXATTR, sizes, 8, "user.a", NULL, "getxattr 2 user.a 100", 21);
	CHECK(!memcmp(ours + 16, "value", 5));
	expect_record(NIZWARF_GETXATTR, zeros, 8, "user.a", NULL, "getxattr 2 user.a 0", 24);
	CHECK(u32(ours + 16) == 5);
	expect_record(NIZWARF_LISTXATTR, sizes, 8, NULL, NULL, "listxattr 2 100", 23);
	expect_record(NIZWARF_LISTXATTR, zeros, 8, NULL, NULL, "listxattr 2 0", 24);
	expect_fault(ERANGE, NIZWARF_LISTXATTR, open, 8, NULL, "listxattr 2 2"); /* 2 bytes are too few */
}

/* Those whose reply is a header, or none. */
static void done(void)
{
	const uint64_t two[] = { 3, 0 }, pairs[] = { 2, 5, 1, 6, 2 };
	const uint32_t rename2[] = { 3, 0, 1, 0 }, set[] = { 3, 1 }, sync[] = { 4, 0, 1, 0 };
	const uint32_t release[] = { 4, 0, 5, 0, 0, 0 }, flush[] = { 4, 0, 0, 0, 8, 0 };
	const uint32_t interrupt[] = { 9, 0 };

	expect_record(NIZWARF_FORGET, two, 8, NULL, NULL, " forget 2 3", 0);
	/* (without `forget_multi` by one call for each pair) */
	expect_record(NIZWARF_BATCH_FORGET, pairs, 40, NULL, NULL, " forget 5 1 forget 6 2", 0);
	expect_record(INTERRUPT, interrupt, 8, NULL, NULL, "interrupt 1 9", 0);
	expect_record(NIZWARF_UNLINK, two, 0, "a", NULL, "unlink 2 a", 16);
	expect_record(NIZWARF_RMDIR, two, 0, "a", NULL, "rmdir 2 a", 16);
	expect_record(NIZWARF_RENAME, two, 8, "a", "b", "rename 2 a 3 b 0", 16);
	expect_record(RENAME2, rename2, 16, "a", "b", "rename 2 a 3 b 1", 16);
	expect_record(NIZWARF_FLUSH, flush, 24, NULL, NULL, "flush 2 4 8", 16);
	expect_record(NIZWARF_RELEASE, release, 24, NULL, NULL, "release 2 4 5", 16);
	expect_record(NIZWARF_FSYNC, sync, 16, NULL, NULL, "fsync 2 1 4", 16);
	expect_record(NIZWARF_RELEASEDIR, release, 24, NULL, NULL, "releasedir 2 4", 16);
	expect_record(NIZWARF_FSYNCDIR, sync, 16, NULL, NULL, "fsyncdir 2 1 4", 16);
	expect_record(NIZWARF_SETXATTR, set, 8, "user.a", "xy", "setxattr 2 user.a xy 1", 16);
	expect_record(NIZWARF_REMOVEXATTR, two, 0, "user.a", NULL, "removexattr 2 user.a", 16);
	expect_record(NIZWARF_ACCESS, set, 8, NULL, NULL, "access 2 3", 16);
	expect_record(NIZWARF_SYNCFS, two, 0, NULL, NULL, "syncfs 2", 16);
	expect_record(NIZWARF_TMPFILE, two, 0, NULL, NULL, "", 16); /* no function is called */
	expect_fault(ENOSYS, NIZWARF_IOCTL, two, 0, NULL, "");
}

/* Those that are about bytes of a file. */
static void data(void)
{
	const struct fuse_read_in read = { .fh = 4, .offset = 6, .size = 100 };
	const struct fuse_write_in write = { .fh = 4, .offset = 6, .size = 2 };
	const struct fuse_lseek_in lseek = { .fh = 4, .offset = 6, .whence = 3 };
	const struct fuse_fallocate_in allocate = { .fh = 4, .offset = 6, .length = 8, .mode = 1 };
	const struct fuse_copy_file_range_in copy = { 4, 6, 3, 5, 7, 9, 15 };

	expect_record(NIZWARF_READ, &read, 40, NULL, NULL, "read 2 100 6 4", 20);
	CHECK(!memcmp(ours + 16, "data", 4) && ours[20] == FILL);
	space = 50; /* so 34 bytes of data are asked for */
	expect_record(NIZWARF_READ, &read, 40, NULL, NULL, "read 2 34 6 4", 20);
	space = 8192;
	/* (there are more bytes than it says) */
	expect_record(NIZWARF_WRITE, &write, 40, "xyz", NULL, "write 2 xy 6 4", 24);
	CHECK(u32(ours + 16) == 2);
	expect_record(NIZWARF_LSEEK, &lseek, 24, NULL, NULL, "lseek 2 6 3 4", 24);
	CHECK(u64(ours + 16) == 15);
	expect_record(NIZWARF_FALLOCATE, &allocate, 32, NULL, NULL, "fallocate 2 1 6 8 4", 16);
	expect_record(NIZWARF_COPY, &copy, 56, NULL, NULL, "copy_file_range 2 6 4 3 7 5 9 15", 24);
	CHECK(u32(ours + 16) == 9);
	failure = EDOM;
	expect_fault(EDOM, NIZWARF_READ, &read, 40, NULL, "read 2 100 6 4");
	failure = 0;
}

/* Directories: of what is looked up, each that doesn't come to the client is given back, once. */
static void directories(void)
{
	struct fuse_read_in read = { .fh = 4, .offset = 6, .size = 4096 };
	nizwarf_ops some = ops;

	expect_record(NIZWARF_READDIR, &read, 40, NULL, NULL, "readdir 2 6 4 2", 16 + 32 + 32);
	CHECK(u64(ours + 16) == 1 && ours[40] == '.' && u64(ours + 48) == 50);
	CHECK(!memcmp(ours + 72, "name", 4));
	expect_record(READDIRPLUS, &read, 40, NULL, NULL, "readdirplus 2 6 4 4", 16 + 4 * 160);
	CHECK(u64(ours + 16) == 5 && !u64(ours + 176) && u64(ours + 336) == 6 && !u64(ours + 496));
	CHECK(ours[168] == 'a' && ours[328] == '.' && ours[488] == 'b' && ours[648] == 'c');
	most = 2;
	expect_record(READDIRPLUS, &read, 40, NULL, NULL, "readdirplus 2 6 4 forget 6 1 2", 16 + 2 * 160);
	/* (where there is no room for an item, a directory isn't an empty one) */
	most = 0;
	expect_fault(EIO, READDIRPLUS, &read, 40, NULL, "");
	most = 8;
	read.size = 2 * 160 + 159;
	expect_record(READDIRPLUS, &read, 40, NULL, NULL, "readdirplus 2 6 4 forget 6 1 2", 16 + 2 * 160);
	/* (the room is as long as `size`, and the header takes 16 bytes of it) */
	read.size = space = 2 * 160;
	expect_record(READDIRPLUS, &read, 40, NULL, NULL, "readdirplus 2 6 4 forget 6 1 1", 16 + 160);
	read.size = 4096;
	space = 8192;
	failure = EDOM;
	expect_record(READDIRPLUS, &read, 40, NULL, NULL, "readdirplus 2 6 4 4 forget 5 1 forget 6 1", 16);
	failure = 0;
	/* (a reply to READDIR has no entry, which the client would hold a lookup of) */
	some.readdir = note_readdirplus;
	table = &some;
	expect_record(NIZWARF_READDIR, &read, 40, NULL, NULL, "readdirplus 2 6 4 forget 5 1 forget 6 1 4",
		      16 + 4 * 32);
	failure = EDOM;
	expect_record(NIZWARF_READDIR, &read, 40, NULL, NULL, "readdirplus 2 6 4 forget 5 1 forget 6 1 4",
		      16);
	failure = 0;
	table = &ops;
}

/* The request with each room that is shorter than its reply: not even one byte may make a difference. */
static void expect_unfit(const char *words, size_t least)
{
	for (space = 0; space < least; space++)
		expect_of(table, NIZWARF_ENCODE_MESSAGE, space, NULL, 0, words, 0);
	space = 8192;
}

/* An entry whose reply doesn't fit is given back, and none where there is a fault. */
static void entries_that_do_not_fit(void)
{
	begin(NIZWARF_LOOKUP, 2);
	add_name("a");
	expect_unfit("lookup 2 a forget 5 1", 144);
	/* (a fault has a header alone, so it fits where the entry did not; and there is no lookup to
	 * give back) */
	failure = ENOENT;
	space = 16;
	expect("lookup 2 a", 16);
	failure = 0;
	space = 8192;
}

/* What was opened is released if its reply doesn't fit, and is not where there is a fault. */
static void handles_that_do_not_fit(void)
{
	const struct fuse_open_in opened = { .flags = O_RDWR };
	const struct fuse_create_in created = { .flags = O_RDWR, .mode = 0644 };

	begin_with(NIZWARF_OPEN, 2, &opened, sizeof(opened));
	/* (else nobody would ever close it) */
	expect_unfit("open 2 2release 2 11 2", 32);
	failure = ENOENT;
	space = 16;
	expect("open 2 2", 16);
	expect_unfit("open 2 2", 16);
	failure = 0;
	begin_with(NIZWARF_OPENDIR, 2, &opened, sizeof(opened));
	expect_unfit("opendir 2releasedir 2 12", 32);
	begin_with(NIZWARF_CREATE, 2, &created, sizeof(created));
	add_name("a");
	expect_unfit("create 2 a 644 2release 5 14 2 forget 5 1", 160);
	expect("create 2 a 644 2", 160);
	table = &no_ops;
	begin_with(NIZWARF_OPEN, 2, &opened, sizeof(opened));
	expect_unfit("", 32);
	table = &ops;
}

/* INIT and DESTROY, by which options are agreed on and left. READDIRPLUS is wanted where it is
 * there. */
static void sessions(const char *begins, const char *ends, uint32_t wanted)
{
	const struct fuse_init_in init = { .major = 7,
					   .minor = 38,
					   .flags = FUSE_DO_READDIRPLUS | FUSE_READDIRPLUS_AUTO |
						    FUSE_WRITEBACK_CACHE };

	expect_record(NIZWARF_INIT, &init, 16, NULL, NULL, begins, 80);
	CHECK(session.options == wanted && u32(ours + 28) == wanted); /* `flags` of the reply */
	expect_record(NIZWARF_DESTROY, &init, 0, NULL, NULL, ends, 0);
	CHECK(!session.options);
}

/* INIT with these options offered: just these are agreed on, and told. 28 is where a reply has its `flags`, and 48
 * its `flags2`. */
static void expect_options(uint64_t offered, uint64_t agreed)
{
	const struct fuse_init_in init = {
		.major = 7, .minor = 38, .flags = (uint32_t)offered, .flags2 = (uint32_t)(offered >> 32)
	};
	size_t len;

	begin_with(NIZWARF_INIT, 0, &init, sizeof(init));
	CHECK(nizwarf_serve_ops(table, said, &slot, &session, request, request_len, ours, space, NULL, 0,
				&len) == NIZWARF_OK &&
	      len == 80 && !u32(ours + 4));
	CHECK(session.options == agreed);
	CHECK(u32(ours + 28) == (uint32_t)agreed && u32(ours + 48) == agreed >> 32);
}

/* Just what is wanted, offered, and has its functions is agreed on; the reply is that to one who offers
 * no more. */
static void options(void)
{
	const uint64_t locks = FUSE_POSIX_LOCKS | FUSE_FLOCK_LOCKS | FUSE_HAS_IOCTL_DIR;
	const uint64_t usual = NIZWARF_WANT_DEFAULT | NIZWARF_WANT_READDIRPLUS;
	const uint64_t trunc = FUSE_ATOMIC_O_TRUNC;
	static nizwarf_ops some;
	uint8_t result[80];

	added = 0;
	expect_options(UINT64_MAX, usual);
	/* (a client that offers all gets what one gets that offers just these: nothing else is told) */
	memcpy(result + 16, ours + 16, 64);
	expect_options(usual, usual);
	CHECK(!memcmp(result + 16, ours + 16, 64));
	declined = trunc | FUSE_MAX_PAGES;
	expect_options(UINT64_MAX, usual & ~declined);
	added = NIZWARF_WANT_ALLOW_IDMAP | locks;
	expect_options(UINT64_MAX, (usual & ~declined) | NIZWARF_WANT_ALLOW_IDMAP);
	expect_options(usual, usual & ~declined);
	declined = UINT64_MAX; /* what `init` adds is agreed on, INIT_EXT with it, since it's above 32 bits */
	expect_options(UINT64_MAX, NIZWARF_WANT_ALLOW_IDMAP | FUSE_INIT_EXT);
	added = 0;
	expect_options(UINT64_MAX, 0);
	declined = 0;
	added = usual | FUSE_WRITEBACK_CACHE | FUSE_SETXATTR_EXT;
	/* (cutting by OPEN wants `open`, WRITEBACK_CACHE wants `write`, SETXATTR_EXT `setxattr`) */
	some.init = note_init;
	table = &some;
	expect_options(UINT64_MAX, NIZWARF_WANT_DEFAULT & ~trunc);
	some.open = note_open;
	some.write = note_write;
	expect_options(UINT64_MAX, NIZWARF_WANT_DEFAULT | FUSE_WRITEBACK_CACHE);
	some.setxattr = note_setxattr;
	some.readdirplus = note_readdirplus;
	expect_options(UINT64_MAX, usual | FUSE_WRITEBACK_CACHE | FUSE_SETXATTR_EXT);
	table = &no_ops;
	expect_options(UINT64_MAX, NIZWARF_WANT_DEFAULT & ~trunc);
	table = &ops;
	added = FUSE_WRITEBACK_CACHE;
}

/* `destroy` is called once for each INIT, by DESTROY or at the end. */
static void ends(void)
{
	expect_options(UINT64_MAX, NIZWARF_WANT_DEFAULT | NIZWARF_WANT_READDIRPLUS | added);
	said[0] = 0;
	nizwarf_end_ops(&ops, said, &session);
	CHECK(!strcmp(said, "destroy 1") && !session.options);
	/* (once more: nothing is left that could be ended) */
	nizwarf_end_ops(&ops, said, &session);
	CHECK(!strcmp(said, "destroy 1"));
	expect_options(FUSE_BIG_WRITES, FUSE_BIG_WRITES);
	begin(NIZWARF_DESTROY, 0);
	add("", 0);
	expect("destroy 1", 0);
	nizwarf_end_ops(&ops, said, &session);
	CHECK(!strcmp(said, "destroy 1"));
}

/* An answer that Linux does not take comes to who asked as an error. */
static void wrong_answers(void)
{
	const struct fuse_read_in read = { .fh = 4, .size = 100 };
	const struct fuse_write_in write = { .fh = 4, .size = 2 };
	const struct fuse_copy_file_range_in copy = { .len = 9 };
	static const int none[] = { 512, 600, INT32_MAX, -1, -ENOENT, INT32_MIN }; /* numbers of no error */
	const uint32_t sizes[] = { 100, 0 };
	size_t i;

	excess = 1;
	expect_fault(EIO, NIZWARF_READLINK, &read, 0, NULL, "readlink 2 4095");
	expect_fault(EIO, NIZWARF_READ, &read, 40, NULL, "read 2 100 0 4");
	expect_fault(EIO, NIZWARF_WRITE, &write, 40, "xyz", "write 2 xy 0 4");
	expect_fault(EIO, NIZWARF_COPY, &copy, 56, NULL, "copy_file_range 2 0 0 0 0 0 9 0");
	expect_fault(ERANGE, NIZWARF_GETXATTR, sizes, 8, "user.a", "getxattr 2 user.a 100");
	expect_fault(ERANGE, NIZWARF_LISTXATTR, sizes, 8, NULL, "listxattr 2 100");
	space = 66; /* the room has 50 bytes for a value */
	expect_fault(ERANGE, NIZWARF_GETXATTR, sizes, 8, "user.a", "getxattr 2 user.a 50");
	space = 8192;
	excess = 0;
	for (i = 0; i < sizeof(none) / sizeof(*none); i++) {
		failure = none[i];
		expect_fault(EIO, NIZWARF_LOOKUP, &read, 0, "a", "lookup 2 a");
	}
	failure = NIZWARF_MAX_ERRNO;
	expect_fault(NIZWARF_MAX_ERRNO, NIZWARF_LOOKUP, &read, 0, "a", "lookup 2 a");
	failure = 0;
}

/* The last error that is none of Linux, as it was reported, and how often. */
static int bad_error;
static uint32_t bad_errors, bad_call;

static void note_bad_error(void *user, const nizwarf_call *call, int error)
{
	CHECK(user == said);
	bad_error = error;
	bad_call = call->opcode;
	bad_errors++;
}

/* A number that is no error of Linux is reported to the table, once for each reply, and no other number is. */
static void reported_errors(void)
{
	static const int good[] = { 0, 1, ENOENT, NIZWARF_MAX_ERRNO };
	static const int bad[] = { 512, 600, INT32_MAX, -1, -ENOENT, INT32_MIN, NIZWARF_LATER };
	const struct fuse_read_in read = { .fh = 4, .size = 4096 };
	nizwarf_answer answer = NIZWARF_ANSWER_INIT;
	nizwarf_ops some = ops;
	nizwarf_call call = {
		.opcode = NIZWARF_UNLINK, .reply = NIZWARF_REPLY_STATUS, .reply_size = 16, .unique = 7
	};
	size_t i, len;

	some.bad_error = note_bad_error;
	table = &some;
	for (i = 0; i < sizeof(good) / sizeof(*good); i++) {
		failure = good[i];
		expect_record(NIZWARF_UNLINK, &read, 0, "a", NULL, "unlink 2 a", 16);
		CHECK(!bad_errors && u32(ours + 4) == (uint32_t)-good[i]);
	}
	for (i = 0; i < sizeof(bad) / sizeof(*bad); i++) {
		failure = bad[i];
		/* (a listing can't be answered later) */
		expect_fault(EIO, NIZWARF_READDIR, &read, 40, NULL, "readdir 2 0 4 2");
		CHECK(bad_errors == i + 1 && bad_error == bad[i] && bad_call == NIZWARF_READDIR);
	}
	failure = 0;
	/* (an answer that comes later is judged likewise) */
	answer.error = -ENOENT;
	bad_errors = 0;
	CHECK(nizwarf_finish_ops(&some, said, &slot, &session, &call, &answer, ours, &len) == NIZWARF_OK);
	CHECK(len == 16 && u32(ours + 4) == (uint32_t)-EIO && bad_errors == 1 && bad_error == -ENOENT);
	answer.error = ENOENT;
	CHECK(nizwarf_finish_ops(&some, said, &slot, &session, &call, &answer, ours, &len) == NIZWARF_OK);
	CHECK(len == 16 && u32(ours + 4) == (uint32_t)-ENOENT && bad_errors == 1);
	table = &ops;
}

/* A deferred answer that Linux would refuse is replaced by an error, as one that is not deferred. */
static void deferred_answers(void)
{
	static const struct {
		uint32_t opcode, reply;
		uint64_t reply_size, most;
		int error;
	} cases[] = {
		{ NIZWARF_READLINK, NIZWARF_REPLY_BYTES, 8192, NIZWARF_MAX_LINK, EIO },
		{ NIZWARF_GETXATTR, NIZWARF_REPLY_BYTES_OR_SIZE, 8192, 20, ERANGE },
		{ NIZWARF_LISTXATTR, NIZWARF_REPLY_BYTES_OR_SIZE, 8192, 20, ERANGE },
		/* (here the reply buffer is what limits it) */
		{ NIZWARF_GETXATTR, NIZWARF_REPLY_BYTES_OR_SIZE, 16 + 19, 19, ERANGE },
		{ NIZWARF_IOCTL, NIZWARF_REPLY_BYTES, 8192, sizeof(nizwarf_ioctl) + 20, EIO },
		{ NIZWARF_WRITE, NIZWARF_REPLY_COUNT, 24, 10, EIO },
		{ NIZWARF_COPY, NIZWARF_REPLY_COUNT, 24, 30, EIO },
		{ NIZWARF_COPY_64, NIZWARF_REPLY_OFFSET, 24, 30, EIO },
	};
	static uint8_t text[8192];
	size_t i, len;

	for (i = 0; i < sizeof(cases) / sizeof(*cases); i++) {
		const int is_text = cases[i].reply == NIZWARF_REPLY_BYTES ||
				    cases[i].reply == NIZWARF_REPLY_BYTES_OR_SIZE;
		nizwarf_answer answer = { .text = text };
		const nizwarf_call call = { .opcode = cases[i].opcode,
					    .reply = cases[i].reply,
					    .reply_size = cases[i].reply_size,
					    .unique = 7,
					    .size = 20,
					    .data = { 80, 10 },
					    .length = 30 };

		*(is_text ? &answer.text_len : &answer.count) = cases[i].most;
		CHECK(nizwarf_finish_ops(&ops, said, &slot, &session, &call, &answer, ours, &len) ==
		      NIZWARF_OK);
		CHECK(!u32(ours + 4) && len == 16 + (is_text ? cases[i].most : 8));
		*(is_text ? &answer.text_len : &answer.count) += 1;
		CHECK(nizwarf_finish_ops(&ops, said, &slot, &session, &call, &answer, ours, &len) ==
		      NIZWARF_OK);
		CHECK(u32(ours + 4) == (uint32_t)-cases[i].error && len == 16);
	}
}

/* A pointer that is NULL is told of, and nothing is done. */
static void null_pointers(void)
{
	const nizwarf_answer answer = { 0 };
	const nizwarf_call call = { .opcode = NIZWARF_UNLINK,
				    .reply = NIZWARF_REPLY_STATUS,
				    .reply_size = 16 };
	nizwarf_session *s = &session;
	nizwarf_dirent items[1];
	size_t len = 1;

	begin_with(NIZWARF_UNLINK, 2, "a", 2);
	said[0] = 0;
#define SERVE(ops, slot, session, request, reply, items, len)                                             \
	(nizwarf_serve_ops(ops, said, slot, session, request, request_len, reply, 4096, items, 1, len) == \
	 NIZWARF_NULL)
	CHECK(SERVE(NULL, &slot, s, request, ours, items, &len) && !len);
	CHECK(SERVE(&ops, NULL, s, request, ours, items, &len));
	CHECK(SERVE(&ops, &slot, NULL, request, ours, items, &len));
	CHECK(SERVE(&ops, &slot, s, NULL, ours, items, &len));
	CHECK(SERVE(&ops, &slot, s, request, NULL, items, &len));
	CHECK(SERVE(&ops, &slot, s, request, ours, NULL, &len));
	CHECK(SERVE(&ops, &slot, s, request, ours, items, NULL));
#define FINISH(ops, slot, session, call, answer, reply, len) \
	(nizwarf_finish_ops(ops, said, slot, session, call, answer, reply, len) == NIZWARF_NULL)
	len = 1;
	CHECK(FINISH(NULL, &slot, s, &call, &answer, ours, &len) && !len);
	CHECK(FINISH(&ops, NULL, s, &call, &answer, ours, &len));
	CHECK(FINISH(&ops, &slot, NULL, &call, &answer, ours, &len));
	CHECK(FINISH(&ops, &slot, s, NULL, &answer, ours, &len));
	CHECK(FINISH(&ops, &slot, s, &call, NULL, ours, &len));
	CHECK(FINISH(&ops, &slot, s, &call, &answer, NULL, &len));
	CHECK(FINISH(&ops, &slot, s, &call, &answer, ours, NULL));
	CHECK(!said[0]);
}

/* How many bytes were requested of a copy that copies them all. */
static uint64_t copied;

static int copy_all(const nizwarf_req *req, uint64_t ino, uint64_t off_in, FI, uint64_t ino_out,
		    uint64_t off_out, const nizwarf_file_info *fi_out, uint64_t size, uint64_t flags,
		    size_t *len)
{
	(void)req, (void)ino, (void)off_in, (void)fi, (void)ino_out, (void)off_out, (void)fi_out, (void)flags;
	*len = copied = size;
	return 0;
}

/* A copy of more bytes than the 32 bits of its reply can say is shortened before it is made, as libfuse does: otherwise
 * the bytes would be copied and the caller see an error. The reply to opcode 53 has 64 bits. */
static void long_copies(void)
{
	static const uint64_t lengths[] = { 1,		0xffffefff, 0xfffff000, 0xfffff001, UINT32_MAX,
					    1ULL << 32, 5ULL << 30, INT64_MAX,	UINT64_MAX };
	struct fuse_copy_file_range_in copy = { 0 };
	nizwarf_ops some = ops;
	size_t i;

	some.copy_file_range = copy_all;
	table = &some;
	for (i = 0; i < sizeof(lengths) / sizeof(*lengths); i++) {
		const uint64_t cut = lengths[i] < 0xfffff000 ? lengths[i] : 0xfffff000;

		copy.len = lengths[i];
		expect_record(NIZWARF_COPY, &copy, sizeof(copy), NULL, NULL, "", 24);
		CHECK(!u32(ours + 4) && copied == cut && u32(ours + 16) == cut);
		expect_record(NIZWARF_COPY_64, &copy, sizeof(copy), NULL, NULL, "", 24);
		CHECK(!u32(ours + 4) && copied == lengths[i] && u64(ours + 16) == lengths[i]);
	}
	table = &ops;
}

/* Where an allocation is refused, no call is made. Each allocation is refused in turn, of a slot that has none yet,
 * until none is left: `refused` is then how many there were, and one. */
static void expect_unmade(uint32_t opcode, const void *record, size_t record_len, const char *name)
{
	const long kept = live;
	int32_t code = NIZWARF_OUT_OF_MEMORY;
	size_t len;

	begin_with(opcode, 2, record, record_len);
	add(name, strlen(name) + (*name != 0));
	for (refused = 1; code != NIZWARF_OK; refused++) {
		nizwarf_scratch fresh = NIZWARF_SCRATCH_INIT;

		session.options = FUSE_BIG_WRITES;
		asked = said[0] = 0;
		code = nizwarf_serve_ops(&ops, said, &fresh, &session, request, request_len, ours, space,
					 NULL, 0, &len);
		CHECK(code == NIZWARF_OK || (code == NIZWARF_OUT_OF_MEMORY && !len));
		CHECK((code == NIZWARF_OK) == (said[0] != 0));
		/* (the session ends where DESTROY was called, and else not) */
		CHECK((opcode != NIZWARF_DESTROY || !said[0]) == (session.options == FUSE_BIG_WRITES));
		nizwarf_scratch_free(&fresh);
		CHECK(live == kept);
	}
	CHECK(refused > 2);
	refused = 0;
	session.options = 0;
}

/* A call with a name, one without, one that makes a file, and one that ends the session. */
static void no_memory(void)
{
	const struct fuse_create_in created = { .flags = O_RDWR, .mode = 0644 };

	expect_unmade(NIZWARF_LOOKUP, "", 0, "a");
	expect_unmade(NIZWARF_OPENDIR, &created, 8, "");
	expect_unmade(NIZWARF_CREATE, &created, 16, "a");
	expect_unmade(NIZWARF_DESTROY, "", 0, "");
}

/* A room that overlaps the request is refused, and nothing is called. */
static void overlaps(void)
{
	/* The room is 144 bytes from 50 on; the request goes past it, byte by byte. */
	static uint8_t both[300];
	size_t at, len;

	begin(NIZWARF_LOOKUP, 2);
	add_name("a");
	for (at = 0; at <= 200 - request_len; at++) {
		memcpy(both + at, request, request_len);
		said[0] = 0;
		CHECK(nizwarf_serve_ops(&ops, said, &slot, &session, both + at, request_len, both + 50, 144,
					NULL, 0,
					&len) == (at + request_len > 50 ? NIZWARF_BAD_CALL : NIZWARF_OK));
		CHECK(!said[0] == (at + request_len > 50));
	}
	memcpy(both + 194, request, request_len);
	CHECK(nizwarf_serve_ops(&ops, said, &slot, &session, both + 194, request_len, both + 50, 144, NULL, 0,
				&len) == NIZWARF_OK);
}

/* Times, and what stat(2) and statvfs(3) tell. */
static void conversions(void)
{
	const nizwarf_entry_param before = { .attr_timeout = { -1, 5 }, .entry_timeout = { 3, -1 } };
	const nizwarf_entry entry = nizwarf_entry_of(&before);
	/* clang-format off */
	const struct stat st = {
		.st_ino = 1, .st_size = 2, .st_blocks = 3, .st_mode = S_IFREG | 0640, .st_nlink = 4,
		.st_uid = 5, .st_gid = 6, .st_rdev = 7, .st_blksize = 8, .st_atim = { -9, 10 },
		.st_mtim = { 11, 12 }, .st_ctim = { 13, 14 }
	};
	const struct statvfs fs = {
		.f_bsize = 1, .f_frsize = 2, .f_blocks = 3, .f_bfree = 4, .f_bavail = 5, .f_files = 6,
		.f_ffree = 7, .f_namemax = 8
	};
	/* clang-format on */
	const nizwarf_attr attr = { 1, 2, 3, (uint64_t)-9, 11, 13, 10, 12, 14, 0100640, 4, 5, 6, 7, 8, 0 };
	const nizwarf_statfs held = { 1, 2, 3, 4, 5, 6, 7, 8 };
	const nizwarf_attr got = nizwarf_attr_of(&st);
	const nizwarf_statfs holds = nizwarf_statfs_of(&fs);
	const double zero = 0; /* so that 0 / 0 isn't computed by the compiler */

	CHECK(!entry.attr_seconds && !entry.attr_nanoseconds);
	CHECK(entry.entry_seconds == 3 && !entry.entry_nanoseconds);
	CHECK(!memcmp(&got, &attr, sizeof(attr)) && !memcmp(&holds, &held, sizeof(held)));
	CHECK(nizwarf_timeout(1.5).tv_sec == 1 && nizwarf_timeout(1.5).tv_nsec == 500000000);
	CHECK(!nizwarf_timeout(-1.5).tv_sec && !nizwarf_timeout(-1.5).tv_nsec);
	CHECK(!nizwarf_timeout(zero / zero).tv_sec && nizwarf_timeout(1e300).tv_sec == INT64_MAX);
	CHECK(nizwarf_timeout(1e15 + 0.5).tv_sec == 1000000000000000);
}

/* Without its function each request is ENOSYS, but for some that are served, and those without a reply. */
static void empty_table(void)
{
	static const size_t served[52] = { [NIZWARF_OPEN] = 32,
					   [NIZWARF_OPENDIR] = 32,
					   [NIZWARF_RELEASE] = 16,
					   [NIZWARF_RELEASEDIR] = 16,
					   [NIZWARF_STATFS] = 96 };
	static const uint8_t zeros[88];
	uint32_t opcode;

	table = &no_ops;
	for (opcode = 0; opcode < 52; opcode++) {
		const int is_quiet = forms[opcode].kind == NIZWARF_REPLY_NONE;

		/* (no opcode; those of sessions, which follow; and one that nobody waits for) */
		if (!forms[opcode].kind || opcode == NIZWARF_INIT || opcode == NIZWARF_DESTROY ||
		    opcode == NIZWARF_NOTIFY_REPLY)
			continue;
		expect_record(opcode, zeros, forms[opcode].record, forms[opcode].names > 0 ? "a" : NULL,
			      forms[opcode].names > 1 ? "b" : NULL, "",
			      is_quiet	     ? 0 :
			      served[opcode] ? served[opcode] :
					       16);
		CHECK(is_quiet || u32(ours + 4) == (served[opcode] ? 0 : (uint32_t)-ENOSYS));
		CHECK(opcode != NIZWARF_STATFS || u32(ours + 60) == 255);
	}
	sessions("", "", 0);
}

int main(void)
{
	answers();
	done();
	data();
	directories();
	entries_that_do_not_fit();
	handles_that_do_not_fit();
	sessions("init 1 6000", "destroy 1",
		 FUSE_DO_READDIRPLUS | FUSE_READDIRPLUS_AUTO | FUSE_WRITEBACK_CACHE);
	empty_table();
	table = &ops;
	options();
	ends();
	wrong_answers();
	reported_errors();
	deferred_answers();
	null_pointers();
	long_copies();
	no_memory();
	overlaps();
	conversions();
	CHECK(nizwarf_scratch_free(&slot) == NIZWARF_OK);
	puts("Each function of a table was called as it is asked for.");
	return 0;
}
