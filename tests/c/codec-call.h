/* What the rules of docs/PROTOCOL.md make of a request, written again in C, for tests/c/codec.c. */
#ifndef C_CODEC_CALL_H
#define C_CODEC_CALL_H

#include <string.h>
#include "nizwarf.h"

/* Opcodes that are no number of a call. */
enum { INTERRUPT = 36, READDIRPLUS = 44, RENAME2 = 45, SETUPMAPPING = 48, REMOVEMAPPING = 49 };

/* Options of INIT: those that there are, and three that change what a request means. */
#define KNOWN_OPTIONS UINT64_C(0x117fbffffff)
#define SETXATTR_EXT (UINT64_C(1) << 29)
#define SECURITY_CTX (UINT64_C(1) << 32)
#define CREATE_SUPP_GROUP (UINT64_C(1) << 34)

/* The fields of fuse_setattr_in that `valid` can name, but for `fh`. */
enum { KNOWN_VALID = 0xdbf }; /* all of them but bits 6, FH, and 9, LOCKOWNER */

/* Of each opcode: the length of its record, the kind of its answer, and how many names follow the record. */
static const struct {
	uint8_t record, kind, names;
} forms[52] = {
	[NIZWARF_LOOKUP] = { 0, NIZWARF_REPLY_ENTRY, 1 },
	[NIZWARF_FORGET] = { 8, NIZWARF_REPLY_NONE },
	[NIZWARF_GETATTR] = { 16, NIZWARF_REPLY_ATTR },
	[NIZWARF_SETATTR] = { 88, NIZWARF_REPLY_ATTR },
	[NIZWARF_READLINK] = { 0, NIZWARF_REPLY_BYTES },
	[NIZWARF_SYMLINK] = { 0, NIZWARF_REPLY_ENTRY, 2 },
	[NIZWARF_MKNOD] = { 16, NIZWARF_REPLY_ENTRY, 1 },
	[NIZWARF_MKDIR] = { 8, NIZWARF_REPLY_ENTRY, 1 },
	[NIZWARF_UNLINK] = { 0, NIZWARF_REPLY_STATUS, 1 },
	[NIZWARF_RMDIR] = { 0, NIZWARF_REPLY_STATUS, 1 },
	[NIZWARF_RENAME] = { 8, NIZWARF_REPLY_STATUS, 2 },
	[NIZWARF_LINK] = { 8, NIZWARF_REPLY_ENTRY, 1 },
	[NIZWARF_OPEN] = { 8, NIZWARF_REPLY_OPEN },
	[NIZWARF_READ] = { 40, NIZWARF_REPLY_DATA },
	[NIZWARF_WRITE] = { 40, NIZWARF_REPLY_COUNT },
	[NIZWARF_STATFS] = { 0, NIZWARF_REPLY_STATFS },
	[NIZWARF_RELEASE] = { 24, NIZWARF_REPLY_STATUS },
	[NIZWARF_FSYNC] = { 16, NIZWARF_REPLY_STATUS },
	[NIZWARF_SETXATTR] = { 8, NIZWARF_REPLY_STATUS, 1 }, /* or 16 with SETXATTR_EXT */
	[NIZWARF_GETXATTR] = { 8, NIZWARF_REPLY_BYTES_OR_SIZE, 1 },
	[NIZWARF_LISTXATTR] = { 8, NIZWARF_REPLY_BYTES_OR_SIZE },
	[NIZWARF_REMOVEXATTR] = { 0, NIZWARF_REPLY_STATUS, 1 },
	[NIZWARF_FLUSH] = { 24, NIZWARF_REPLY_STATUS },
	[NIZWARF_INIT] = { 16, NIZWARF_REPLY_INIT }, /* what each client has: a longer one is taken too */
	[NIZWARF_OPENDIR] = { 8, NIZWARF_REPLY_OPEN },
	[NIZWARF_READDIR] = { 40, NIZWARF_REPLY_DIRECTORY },
	[NIZWARF_RELEASEDIR] = { 24, NIZWARF_REPLY_STATUS },
	[NIZWARF_FSYNCDIR] = { 16, NIZWARF_REPLY_STATUS },
	[NIZWARF_GETLK] = { 0, NIZWARF_REPLY_ERROR_OR_NONE }, /* nothing is offered: no record is read */
	[NIZWARF_SETLK] = { 0, NIZWARF_REPLY_ERROR_OR_NONE },
	[NIZWARF_SETLKW] = { 0, NIZWARF_REPLY_ERROR_OR_NONE },
	[NIZWARF_ACCESS] = { 8, NIZWARF_REPLY_STATUS },
	[NIZWARF_CREATE] = { 16, NIZWARF_REPLY_CREATE, 1 },
	[NIZWARF_BMAP] = { 0, NIZWARF_REPLY_ERROR_OR_NONE },
	[NIZWARF_DESTROY] = { 0, NIZWARF_REPLY_NONE },
	[NIZWARF_IOCTL] = { 0, NIZWARF_REPLY_ERROR_OR_NONE },
	[NIZWARF_POLL] = { 0, NIZWARF_REPLY_ERROR_OR_NONE },
	[NIZWARF_NOTIFY_REPLY] = { 0, NIZWARF_REPLY_ERROR_OR_NONE },
	[NIZWARF_BATCH_FORGET] = { 8, NIZWARF_REPLY_NONE },
	[NIZWARF_FALLOCATE] = { 32, NIZWARF_REPLY_STATUS },
	[READDIRPLUS] = { 40, NIZWARF_REPLY_DIRECTORY },
	[RENAME2] = { 16, NIZWARF_REPLY_STATUS, 2 },
	[NIZWARF_LSEEK] = { 24, NIZWARF_REPLY_OFFSET },
	[NIZWARF_COPY] = { 56, NIZWARF_REPLY_COUNT },
	[NIZWARF_SYNCFS] = { 0, NIZWARF_REPLY_STATUS },
	[NIZWARF_TMPFILE] = { 0, NIZWARF_REPLY_ERROR }, /* the same */
};

/* In a record below, the node and the handle of a file that is open. */
#define ITS_NODE (UINT64_C(1) << 62)
#define ITS_HANDLE (UINT64_C(1) << 63)

/* Requests about that file, by the numbers of their records. */
static const struct {
	uint32_t opcode;
	uint64_t record[7];
} about_file[] = {
	{ NIZWARF_LSEEK, { ITS_HANDLE, 1, 3 } },
	{ NIZWARF_FALLOCATE, { ITS_HANDLE, 0, 8192, 0 } },
	{ NIZWARF_COPY, { ITS_HANDLE, 0, ITS_NODE, ITS_HANDLE, 5000, 50, 0 } },
	{ NIZWARF_SYNCFS, { 0 } },
};

/* Numbers that may lie at any place. */
static inline uint32_t u32(const uint8_t *at)
{
	uint32_t n;

	memcpy(&n, at, sizeof(n));
	return n;
}

static inline uint64_t u64(const uint8_t *at)
{
	uint64_t n;

	memcpy(&n, at, sizeof(n));
	return n;
}

/* Where a number of a record goes in a call. */
static const struct call_field {
	uint8_t opcode, at, len; /* of the record: its opcode, the place, how many bytes */
	uint16_t to;		 /* the place in the call, where it may have more bytes */
} fields[] = {
/* clang-format off */
#define FIELD(opcode, at, bits, field) { opcode, at, (bits) / 8, offsetof(nizwarf_call, field) }
	FIELD(NIZWARF_FORGET, 0, 64, length), /* nlookup */
	FIELD(NIZWARF_SETATTR, 0, 88 * 8, attr), FIELD(NIZWARF_SETATTR, 0, 32, flags), /* valid */
	FIELD(NIZWARF_MKNOD, 0, 32, mode), FIELD(NIZWARF_MKNOD, 4, 32, rdev),
	FIELD(NIZWARF_MKNOD, 8, 32, umask),
	FIELD(NIZWARF_MKDIR, 0, 32, mode), FIELD(NIZWARF_MKDIR, 4, 32, umask),
	FIELD(NIZWARF_RENAME, 0, 64, other_node), /* newdir */
	FIELD(RENAME2, 0, 64, other_node), FIELD(RENAME2, 8, 32, flags),
	FIELD(NIZWARF_LINK, 0, 64, node), /* oldnodeid: the header names the directory */
	FIELD(NIZWARF_OPEN, 0, 32, flags), FIELD(NIZWARF_OPENDIR, 0, 32, flags),
#define READ_FIELDS(opcode) \
	FIELD(opcode, 0, 64, handle), FIELD(opcode, 8, 64, offset), FIELD(opcode, 16, 32, size)
	READ_FIELDS(NIZWARF_READ), FIELD(NIZWARF_READ, 32, 32, flags),
	READ_FIELDS(NIZWARF_WRITE), FIELD(NIZWARF_WRITE, 32, 32, flags),
	READ_FIELDS(NIZWARF_READDIR), READ_FIELDS(READDIRPLUS),
	FIELD(NIZWARF_RELEASE, 0, 64, handle), FIELD(NIZWARF_RELEASE, 8, 32, flags),
	FIELD(NIZWARF_RELEASEDIR, 0, 64, handle), FIELD(NIZWARF_RELEASEDIR, 8, 32, flags),
	FIELD(NIZWARF_FSYNC, 0, 64, handle), FIELD(NIZWARF_FSYNCDIR, 0, 64, handle),
	FIELD(NIZWARF_SETXATTR, 4, 32, flags),
	FIELD(NIZWARF_GETXATTR, 0, 32, size), FIELD(NIZWARF_LISTXATTR, 0, 32, size),
	FIELD(NIZWARF_FLUSH, 0, 64, handle), FIELD(NIZWARF_FLUSH, 16, 64, lock_owner),
	FIELD(NIZWARF_INIT, 8, 32, readahead), FIELD(NIZWARF_INIT, 12, 32, length), /* flags */
	FIELD(NIZWARF_ACCESS, 0, 32, more), /* mask */
	FIELD(NIZWARF_CREATE, 0, 32, flags), FIELD(NIZWARF_CREATE, 4, 32, mode),
	FIELD(NIZWARF_CREATE, 8, 32, umask),
	FIELD(NIZWARF_BATCH_FORGET, 0, 32, length), /* count */
	FIELD(NIZWARF_FALLOCATE, 0, 64, handle), FIELD(NIZWARF_FALLOCATE, 8, 64, offset),
	FIELD(NIZWARF_FALLOCATE, 16, 64, length), FIELD(NIZWARF_FALLOCATE, 24, 32, mode),
	FIELD(NIZWARF_LSEEK, 0, 64, handle), FIELD(NIZWARF_LSEEK, 8, 64, offset),
	FIELD(NIZWARF_LSEEK, 16, 32, more), /* whence */
	FIELD(NIZWARF_COPY, 0, 64, handle), FIELD(NIZWARF_COPY, 8, 64, offset),
	FIELD(NIZWARF_COPY, 16, 64, other_node), FIELD(NIZWARF_COPY, 24, 64, other_handle),
	FIELD(NIZWARF_COPY, 32, 64, other_offset), FIELD(NIZWARF_COPY, 40, 64, length),
	FIELD(NIZWARF_COPY, 48, 64, lock_owner), /* flags */
	/* clang-format on */
};

/* Bits of a record's flags, each of which sets a bit of `has`. With some of them a number of 64 bits counts,
 * which is copied to the call. */
static const struct record_option {
	uint8_t opcode, at, bits, number; /* of the record: the place of the flags, and of the number */
	uint32_t has;
	uint16_t to;
} record_options[] = {
/* clang-format off */
#define WITH(field) offsetof(nizwarf_call, field)
	{ NIZWARF_GETATTR, 0, 1, 8, NIZWARF_HAS_HANDLE, WITH(handle) }, /* FUSE_GETATTR_FH */
	{ NIZWARF_SETATTR, 0, 1 << 6, 8, NIZWARF_HAS_HANDLE, WITH(handle) }, /* FATTR_FH */
	{ NIZWARF_OPEN, 4, 1, 0, NIZWARF_KILL_SUIDGID, 0 }, /* FUSE_OPEN_KILL_SUIDGID */
	{ NIZWARF_CREATE, 12, 1, 0, NIZWARF_KILL_SUIDGID, 0 },
	{ NIZWARF_READ, 20, 2, 24, NIZWARF_HAS_OWNER, WITH(lock_owner) }, /* FUSE_READ_LOCKOWNER */
	{ NIZWARF_WRITE, 20, 2, 24, NIZWARF_HAS_OWNER, WITH(lock_owner) }, /* FUSE_WRITE_LOCKOWNER */
	{ NIZWARF_WRITE, 20, 1, 0, NIZWARF_WRITE_CACHE, 0 }, /* FUSE_WRITE_CACHE */
	{ NIZWARF_WRITE, 20, 4, 0, NIZWARF_KILL_SUIDGID, 0 }, /* FUSE_WRITE_KILL_SUIDGID */
	{ NIZWARF_RELEASE, 12, 1, 0, NIZWARF_RELEASE_FLUSH, 0 }, /* FUSE_RELEASE_FLUSH */
	{ NIZWARF_RELEASE, 12, 2, 0, NIZWARF_RELEASE_FLOCK_UNLOCK, 0 }, /* FUSE_RELEASE_FLOCK_UNLOCK */
	{ NIZWARF_RELEASE, 12, 3, 16, NIZWARF_HAS_OWNER, WITH(lock_owner) }, /* either has an owner */
	{ NIZWARF_FSYNC, 8, 1, 0, NIZWARF_FSYNC_FDATASYNC, 0 }, /* FUSE_FSYNC_FDATASYNC */
	{ NIZWARF_FSYNCDIR, 8, 1, 0, NIZWARF_FSYNC_FDATASYNC, 0 },
	/* clang-format on */
};

/* The contents of the record, which is after the header: `r` is where it begins, and the places in it are
 * those of fields in the structs of linux/fuse.h. */
static inline void set_record(nizwarf_call *c, const uint8_t *r, uint32_t opcode)
{
	if (opcode == NIZWARF_LINK)
		c->other_node = c->node; /* the directory */
	if (opcode == NIZWARF_BATCH_FORGET)
		c->node = 0; /* each pair has one */
	for (size_t i = 0; i < sizeof(fields) / sizeof(*fields); i++)
		if (fields[i].opcode == opcode)
			memcpy((char *)c + fields[i].to, r + fields[i].at, fields[i].len);
	for (size_t i = 0; i < sizeof(record_options) / sizeof(*record_options); i++) {
		const struct record_option *it = &record_options[i];

		if (it->opcode != opcode || !(u32(r + it->at) & it->bits))
			continue;
		c->has |= it->has;
		if (it->to)
			memcpy((char *)c + it->to, r + it->number, 8);
	}
	if (opcode == NIZWARF_SETATTR)
		c->flags &= KNOWN_VALID;
	if (opcode == RENAME2)
		c->flags &= 7; /* RENAME_NOREPLACE .. RENAME_WHITEOUT */
	if (opcode == NIZWARF_SETXATTR && c->options & SETXATTR_EXT)
		c->more = u32(r + 8) & 1;		   /* setxattr_flags, of the longer record */
	if (opcode == NIZWARF_INIT && c->length & 1 << 30) /* FUSE_INIT_EXT */
		c->length |= (uint64_t)u32(r + 16) << 32;  /* flags2 */
	if (opcode == NIZWARF_INIT)
		c->length &= KNOWN_OPTIONS;
}

/* The name at a place. Gives the place after its 0. */
static inline size_t set_name(nizwarf_range *name, const uint8_t *request, size_t at)
{
	name->at = at;
	name->len = strlen((const char *)request + at);
	return at + name->len + 1;
}

/* The blocks of extensions from a place to another: each has its length, with its header, and its kind. They are right,
 * since the request asks for a call. */
static inline void set_extensions(nizwarf_call *c, const uint8_t *request, size_t at, size_t end)
{
	for (; at < end; at += u32(request + at)) {
		const uint32_t type = u32(request + at + 4);

		if (type == 32) { /* FUSE_EXT_GROUPS */
			c->has |= NIZWARF_HAS_GROUP;
			c->group = u32(request + at + 12); /* the first of the groups */
		} else if (type == 1) {			   /* one security context */
			c->has |= NIZWARF_HAS_CONTEXT;
			c->context.len = u32(request + at + 8);
			c->context.at = set_name(&c->context_name, request, at + 16);
		}
	}
}

/* What is after the record, at `at`: names, each up to its 0, and then what is no name. */
static inline void set_tail(nizwarf_call *c, const uint8_t *request, size_t len, size_t at, uint32_t opcode)
{
	if (forms[opcode].names > 0)
		at = set_name(&c->name, request, at);
	if (forms[opcode].names > 1)
		at = set_name(&c->other_name, request, at); /* of a SYMLINK the link's text */
	switch (opcode) {
	case NIZWARF_SETXATTR:
		c->data = (nizwarf_range){ at, u32(request + 40) }; /* the record's size */
		break;
	case NIZWARF_SYMLINK:
	case NIZWARF_MKNOD:
	case NIZWARF_MKDIR:
	case NIZWARF_CREATE:
		if (c->options & (SECURITY_CTX | CREATE_SUPP_GROUP))
			set_extensions(c, request, at, u32(request));
		break;
	case NIZWARF_WRITE:
		c->data = (nizwarf_range){ at, len - at };
		break;
	case NIZWARF_BATCH_FORGET:
		c->data = (nizwarf_range){ at, 16 * c->length }; /* pairs of a node and a count */
		break;
	}
}

/* The call that a request asks for, which is one that asks for a call. */
static inline nizwarf_call call_of(const uint8_t *request, size_t len, uint64_t options, size_t room)
{
	const uint32_t opcode = u32(request + 4);
	nizwarf_call c;

	memset(&c, 0, sizeof(c));
	c.unique = u64(request + 8);
	c.options = options;
	c.reply_size = room;
	c.opcode = opcode == RENAME2 ? NIZWARF_RENAME : opcode;
	c.reply = forms[opcode].kind;
	if (opcode == READDIRPLUS) {
		c.opcode = NIZWARF_READDIR;
		c.has = NIZWARF_PLUS;
	}
	/* (of the others nobody is told who asks) */
	if (c.reply != NIZWARF_REPLY_ERROR_OR_NONE && c.reply != NIZWARF_REPLY_ERROR &&
	    opcode != NIZWARF_INIT && opcode != NIZWARF_DESTROY) {
		c.node = u64(request + 16);
		c.uid = u32(request + 24);
		c.gid = u32(request + 28);
		c.pid = (int32_t)u32(request + 32);
	}
	if (opcode == NIZWARF_READ)
		c.length = room - 16; /* what is left beside a header */
	set_record(&c, request + 40, opcode);
	set_tail(&c, request, len,
		 40 + forms[opcode].record + (opcode == NIZWARF_SETXATTR && options & SETXATTR_EXT ? 8 : 0),
		 opcode);
	return c;
}

#endif
