/* Decodes one request and encodes its reply again and again, for tools/measure/codec-speed.sh.
 *
 * Usage: codec_speed CLASS TIMES [ask]
 *
 * With `ask` each request is only decoded. Without a CLASS the classes are listed. Exit status 2: the arguments are
 * invalid. */
#include <linux/fuse.h>
#include <stdio.h>
#include <stdlib.h>
#include <string.h>
#include "nizwarf.h"

enum { MEBIBYTE = 1 << 20, ITEMS = 100 };

static const char *const classes[] = { "none",	  "getattr",  "lookup",	 "read-4k",    "write-4k",
				       "read-1m", "write-1m", "readdir", "readdirplus" };

static unsigned char request[MEBIBYTE + 4096], room[MEBIBYTE + 4096]; /* the payload, and what is before it */
static nizwarf_dirent items[ITEMS];
static size_t request_len;

static void add(const void *bytes, size_t len)
{
	memcpy(request + request_len, bytes, len);
	request_len += len;
}

/* A header, whose length is set at the end. */
static void begin(uint32_t opcode)
{
	const struct fuse_in_header header = { .opcode = opcode, .unique = 9, .nodeid = 2 };

	add(&header, sizeof(header));
}

/* The request of a class and its answer. Gives the room of its reply. */
static size_t make(const char *class, nizwarf_answer *answer)
{
	static const char name[] = "file-0123456789-0000";
	const size_t bytes = strstr(class, "1m") ? MEBIBYTE : 4096;
	struct fuse_getattr_in getattr = { .getattr_flags = 0 };
	struct fuse_read_in read = { .size = (uint32_t)bytes };
	struct fuse_write_in write = { .size = (uint32_t)bytes };
	const int plus = !strcmp(class, "readdirplus");
	size_t i;

	answer->error = 0;
	answer->count = bytes; /* of a READ or a WRITE */
	answer->entry.node = answer->entry.attr.ino = 3;
	answer->entry.attr.mode = 0100644;
	if (!strcmp(class, "none")) {
		begin(7); /* no opcode has this number */
		return 16;
	}
	if (!strcmp(class, "getattr")) {
		begin(FUSE_GETATTR);
		add(&getattr, sizeof(getattr));
		return 16 + sizeof(struct fuse_attr_out);
	}
	if (!strcmp(class, "lookup")) {
		begin(FUSE_LOOKUP);
		add("abcdefgh", 9);
		return 16 + sizeof(struct fuse_entry_out);
	}
	if (!strncmp(class, "write", 5)) {
		begin(FUSE_WRITE);
		add(&write, sizeof(write));
		request_len += bytes; /* data of zeros */
		return 16 + sizeof(struct fuse_write_out);
	}
	if (!strncmp(class, "read-", 5)) {
		begin(FUSE_READ);
		add(&read, sizeof(read));
		return 16 + bytes;
	}
	for (i = 0; i < ITEMS; i++)
		items[i] = (nizwarf_dirent){ .ino = i + 3,
					     .offset = i + 1,
					     .type = 8, /* DT_REG */
					     .name = (const uint8_t *)name,
					     .name_size = sizeof(name),
					     .entry = answer->entry };
	answer->items = items;
	answer->items_len = ITEMS;
	read.size = (uint32_t)(ITEMS * nizwarf_record_size(sizeof(name), plus));
	begin(plus ? FUSE_READDIRPLUS : FUSE_READDIR);
	add(&read, sizeof(read));
	return 16 + read.size;
}

int main(int argc, char **argv)
{
	static const nizwarf_session session = { 0, 4096, MEBIBYTE };
	nizwarf_answer answer = NIZWARF_ANSWER_INIT;
	nizwarf_scratch slot = NIZWARF_SCRATCH_INIT;
	nizwarf_call call;
	nizwarf_result result;
	struct iovec segment;
	struct iovec space;
	long times, i;
	uint32_t len;
	size_t at;

	for (at = 0; argc > 2 && at < sizeof(classes) / sizeof(*classes); at++)
		if (!strcmp(argv[1], classes[at]))
			break;
	times = argc > 2 ? strtol(argv[2], NULL, 10) : 0;
	if (argc < 3 || at == sizeof(classes) / sizeof(*classes) || times < 1) {
		for (at = 0; at < sizeof(classes) / sizeof(*classes); at++)
			puts(classes[at]);
		return 2;
	}
	space = (struct iovec){ room, make(argv[1], &answer) };
	len = (uint32_t)request_len;
	memcpy(request, &len, sizeof(len)); /* the header's length */
	segment = (struct iovec){ request, request_len };
	for (i = 0; i < times; i++) {
		if (nizwarf_decode(&slot, &session, 0, &segment, 1, &space, 1, &call, &result) == NIZWARF_OK)
			continue;
		/* (a refused answer must not be measured as one that is encoded) */
		if (argc == 3 && nizwarf_encode(&slot, &session, &call, &answer, &space, 1, &result))
			abort();
	}
	return nizwarf_scratch_free(&slot);
}
