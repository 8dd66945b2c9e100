/* Holds the tree against sessions as data: tree-session.txt, which says the form of its lines. Then against clients
 * among whose many nodes one is held, and has no name any more, when they go.
 *
 * Usage: tree-session LINES
 * test_libraries.py links it with --wrap=malloc, --wrap=realloc and --wrap=free. Status 0: all is as it should be, and
 * no memory is left. */
#define _GNU_SOURCE
#include <errno.h>
#include <linux/fuse.h>
#include <stdarg.h>
#include <string.h>
#include "allocations.h"
#include "nizwarf_tree.h"
#define CASE "line %u: %s\n", number, asked_for
#include "check.h"

/* In bytes: what a request has place for, the room of its reply, and a line. How many files gone() makes. */
enum { MOST = 4096, ROOM = 4112, LINE = 2048, FILES = 40 };

static char asked_for[LINE];   /* the line that is held now */
static unsigned number, steps; /* the line's, in the file, and how many were asked */

/* Each opcode that is asked, and the size of its record. */
static const struct opcode {
	const char *name;
	uint32_t number;
	size_t record;
} opcodes[] = {
	{ "LOOKUP", FUSE_LOOKUP, 0 },
	{ "FORGET", FUSE_FORGET, sizeof(struct fuse_forget_in) },
	{ "GETATTR", FUSE_GETATTR, sizeof(struct fuse_getattr_in) },
	{ "SETATTR", FUSE_SETATTR, sizeof(struct fuse_setattr_in) },
	{ "READLINK", FUSE_READLINK, 0 },
	{ "SYMLINK", FUSE_SYMLINK, 0 },
	{ "MKNOD", FUSE_MKNOD, sizeof(struct fuse_mknod_in) },
	{ "MKDIR", FUSE_MKDIR, sizeof(struct fuse_mkdir_in) },
	{ "UNLINK", FUSE_UNLINK, 0 },
	{ "RMDIR", FUSE_RMDIR, 0 },
	{ "RENAME", FUSE_RENAME, sizeof(struct fuse_rename_in) },
	{ "LINK", FUSE_LINK, sizeof(struct fuse_link_in) },
	{ "OPEN", FUSE_OPEN, sizeof(struct fuse_open_in) },
	{ "READ", FUSE_READ, sizeof(struct fuse_read_in) },
	{ "WRITE", FUSE_WRITE, sizeof(struct fuse_write_in) },
	{ "STATFS", FUSE_STATFS, 0 },
	{ "SETXATTR", FUSE_SETXATTR, FUSE_COMPAT_SETXATTR_IN_SIZE },
	{ "GETXATTR", FUSE_GETXATTR, sizeof(struct fuse_getxattr_in) },
	{ "LISTXATTR", FUSE_LISTXATTR, sizeof(struct fuse_getxattr_in) },
	{ "REMOVEXATTR", FUSE_REMOVEXATTR, 0 },
	{ "INIT", FUSE_INIT, 16 }, /* up to its options, as version 7.35 and older have it */
	{ "READDIR", FUSE_READDIR, sizeof(struct fuse_read_in) },
	{ "CREATE", FUSE_CREATE, sizeof(struct fuse_create_in) },
	{ "DESTROY", FUSE_DESTROY, 0 },
	{ "FALLOCATE", FUSE_FALLOCATE, sizeof(struct fuse_fallocate_in) },
	{ "RENAME2", FUSE_RENAME2, sizeof(struct fuse_rename2_in) },
	{ "LSEEK", FUSE_LSEEK, sizeof(struct fuse_lseek_in) },
};

static union {
	struct fuse_in_header header;
	uint8_t bytes[MOST];
} request;
static union {
	struct fuse_out_header header;
	uint8_t bytes[ROOM];
} reply;
static nizwarf_server server = NIZWARF_SERVER_INIT;

/* A line with another word is a fault of the file, and ends the program. */
static const struct opcode *opcode_of(const char *name)
{
	size_t i;

	for (i = 0; i < sizeof(opcodes) / sizeof(*opcodes); i++)
		if (!strcmp(opcodes[i].name, name))
			return &opcodes[i];
	CHECK(!"an opcode");
	return NULL;
}

/* A number as C writes them: 0x for hexadecimal, 0 for octal, as modes are. */
static uint64_t number_in(const char *word)
{
	char *end;
	uint64_t value;

	errno = 0;
	value = strtoull(word, &end, 0);
	CHECK(end != word && !*end && !errno);
	return value;
}

/* Puts the bytes of a piece where there is place for LINE. How many these are. */
static size_t put_piece(uint8_t *at, const char *word)
{
	uint64_t value;
	uint32_t small;
	size_t len = strlen(word);

	CHECK(len >= 2);
	if (word[0] == '"' || word[0] == '\'') {
		memcpy(at, word + 1, len);
		return word[0] == '"' ? len - 1 : len;
	}
	value = number_in(word + 2);
	if (word[1] == '*') {
		CHECK(value < LINE);
		memset(at, word[0] == '0' ? 0 : word[0], value);
		return value;
	}
	CHECK(word[1] == ':' && (word[0] == '8' || (word[0] == '4' && value <= UINT32_MAX)));
	small = (uint32_t)value;
	memcpy(at, word[0] == '8' ? (void *)&value : (void *)&small, word[0] - '0');
	return word[0] - '0';
}

/* The words of the line after the one that `rest` is at; NULL at its end. */
static char *next(char **rest)
{
	return strtok_r(NULL, " ", rest);
}

/* A new tree with the limits that the line says, in place of the one that is there. */
static void begin(char **rest)
{
	nizwarf_server_config settings = { .seconds = 7, .mode = 0755 };

	settings.nodes = number_in(next(rest));
	settings.bytes = number_in(next(rest));
	settings.file = number_in(next(rest));
	CHECK(!next(rest));
	CHECK(nizwarf_server_new(&server, 4096, 1 << 20, &settings) == NIZWARF_OK);
}

/* Asks what is before `=`. Gives the reply's length. */
static size_t ask(const char *name, char **rest)
{
	const struct opcode *op = opcode_of(name);
	const struct iovec room = { reply.bytes, ROOM };
	struct iovec whole = { request.bytes, 0 };
	size_t end = sizeof(request.header) + op->record, at = sizeof(request.header), len;
	const char *word;

	memset(&request, 0, sizeof(request));
	/* (no byte of an earlier reply is left that could pass for one of this) */
	memset(&reply, 0xaa, sizeof(reply));
	request.header.opcode = op->number;
	/* (any number: the reply must have it too) */
	request.header.unique = 9;
	request.header.nodeid = number_in(next(rest));
	for (word = next(rest); strcmp(word, "="); word = next(rest)) {
		/* (the record is whole before what follows it) */
		if (strchr("'\"", word[0]) || word[1] == '*')
			at = at < end ? end : at;
		CHECK(at < MOST - LINE);
		at += put_piece(request.bytes + at, word);
	}
	whole.iov_len = at < end ? end : at;
	request.header.len = (uint32_t)whole.iov_len;
	CHECK(nizwarf_server_handle(&server, &whole, 1, &room, 1, &len) == NIZWARF_OK);
	return len;
}

/* Holds a reply of that length against what is after `=`. */
static void hold(size_t len, char **rest)
{
	uint8_t want[LINE];
	const char *word = next(rest);
	size_t at = len, count;

	if (!strcmp(word, "NOTHING")) {
		CHECK(len == 0 && !next(rest));
		return;
	}
	CHECK(len >= sizeof(reply.header) && reply.header.len == len && reply.header.unique == 9);
	CHECK(reply.header.error <= 0);
	/* (the file names errors, as ENOENT) */
	CHECK(!strcmp(word, reply.header.error ? strerrorname_np(-reply.header.error) : "OK"));
	CHECK(number_in(next(rest)) == len);
	while ((word = next(rest))) {
		if (word[0] == '@') {
			at = number_in(word + 1);
			continue;
		}
		count = put_piece(want, word);
		CHECK(count <= len && at <= len - count && !memcmp(reply.bytes + at, want, count));
		at += count;
	}
}

/* Takes a line, but for its end. */
static void take(const char *line)
{
	static char words[LINE];
	char *rest, *word;

	snprintf(asked_for, sizeof(asked_for), "%s", line);
	memcpy(words, asked_for, sizeof(words));
	word = strtok_r(words, " ", &rest);
	if (!word || word[0] == '#')
		return;
	if (!strcmp(word, "NEW")) {
		begin(&rest);
		return;
	}
	hold(ask(word, &rest), &rest);
	steps++;
}

/* Takes a line in the form of printf(3). */
__attribute__((format(printf, 1, 2))) static void say(const char *form, ...)
{
	char line[LINE];
	va_list arguments;

	va_start(arguments, form);
	vsnprintf(line, sizeof(line), form, arguments);
	va_end(arguments);
	take(line);
}

/* A client makes files, of each of which one lookup is held, gives back all but one, and goes with its last message.
 * The file whose lookup it kept has no name any more: it stays till then, and goes, alone. */
static void gone(unsigned kept, const char *last)
{
	unsigned i;

	/* (of so few nodes and bytes that one which is not given back shows in a later STATFS) */
	say("NEW 64 8332 64");
	for (i = 0; i < FILES; i++) {
		say("MKNOD 1 4:0100644 '%c = OK 144  @16 8:%u", 'A' + i, i + 2);
		if (i != kept)
			say("FORGET %u 8:1 = NOTHING", i + 2);
	}
	say("UNLINK 1 '%c = OK 16", 'A' + kept);
	/* with the root, of 64 nodes */
	say("STATFS 1 = OK 96  @48 8:%u", 63 - FILES);
	say("%s", last);
	say("STATFS 1 = OK 96  @48 8:%u", 64 - FILES);
	say("GETATTR %u = ENOENT 16", kept + 2);
}

int main(int count, char **words)
{
	const char *again = "INIT 0 4:7 4:38 4:131072 = OK 80", *end = "DESTROY 0 = NOTHING";
	char line[LINE];
	FILE *file = count == 2 ? fopen(words[1], "r") : NULL;

	CHECK(file);
	while (fgets(line, sizeof(line), file)) {
		number++;
		CHECK(strchr(line, '\n'));
		*strchr(line, '\n') = 0;
		take(line);
	}
	fclose(file);
	CHECK(steps > 0);
	/* (the last that was made, the first, and one between: wherever it is in the table of nodes) */
	gone(FILES - 1, again);
	gone(FILES - 1, end);
	gone(0, end);
	gone(17, again);
	/* (`live` counts the library's allocations) */
	CHECK(nizwarf_server_free(&server) == NIZWARF_OK && live == 0);
	printf("The tree replied to %u steps of sessions as it should.\n", steps);
	return 0;
}
