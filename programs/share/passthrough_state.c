/* Encoding and decoding of a passthrough's state: passthrough_state.h. */
#define _GNU_SOURCE
#include <stdarg.h>
#include <stdio.h>
#include <string.h>
#include <sys/stat.h>
#include "passthrough_search.h"
#include "passthrough_state.h"
#include "say.h"

static const char magic[8] = "nizwarf";

/* The size of each record before its handle and name. */
enum { NODE_BYTES = 36, DIRECTORY_BYTES = 4, FILE_BYTES = 20, END_BYTES = 24 };
_Static_assert(NODE_BYTES + MAX_HANDLE_SZ + STATE_NAME_MAX <= STATE_LONGEST, "a record has a node");
/* The largest lookup count, so that lookups which the client adds cannot overflow it. */
#define MOST_LOOKUPS (UINT64_C(1) << 62)
/* Flags of open(2) that an open file keeps. */
#define KEPT_FLAGS (O_ACCMODE | O_APPEND | O_SYNC | O_DSYNC | O_NOATIME | O_DIRECT | O_DIRECTORY)

/* ---- bytes */

static unsigned char *put_number(unsigned char *at, uint64_t number, size_t size)
{
	for (size_t i = 0; i < size; i++)
		*at++ = (unsigned char)(number >> 8 * i);
	return at;
}

static unsigned char *put_bytes(unsigned char *at, const void *bytes, size_t len)
{
	if (len)
		memcpy(at, bytes, len);
	return at + len;
}

/* Bytes to decode. The caller must not read more than are left. */
struct bytes {
	const unsigned char *at;
	size_t left;
};

static uint64_t get_number(struct bytes *from, size_t size)
{
	uint64_t number = 0;

	for (size_t i = 0; i < size; i++)
		number |= (uint64_t)from->at[i] << 8 * i;
	from->at += size;
	from->left -= size;
	return number;
}

/* ---- encoding */

void state_encode_header(const struct state_header *header, unsigned char bytes[STATE_HEADER])
{
	bytes = put_bytes(bytes, magic, sizeof(magic));
	bytes = put_number(bytes, header->version, 4);
	bytes = put_number(bytes, header->mode, 4);
	put_number(bytes, header->agreed, 8);
}

void state_encode_record(uint32_t kind, uint32_t size, unsigned char bytes[STATE_RECORD])
{
	put_number(put_number(bytes, kind, 4), size, 4);
}

size_t state_encode_node(const struct state_node *node, unsigned char *bytes)
{
	unsigned char *at = put_number(bytes, node->number, 8);

	at = put_number(at, node->lookups, 8);
	at = put_number(at, node->parent, 4);
	at = put_number(at, node->type, 4);
	at = put_number(at, node->mount, 4);
	at = put_number(at, (uint32_t)node->handle_type, 4);
	at = put_number(at, node->handle_size, 1);
	at = put_number(at, node->is_apart, 1);
	at = put_number(at, 0, 2);
	at = put_bytes(at, node->handle, node->handle_size);
	at = put_bytes(at, node->name, node->name_len);
	return (size_t)(at - bytes);
}

size_t state_encode_directory(const struct state_directory *directory, unsigned char *bytes)
{
	unsigned char *at = put_number(bytes, directory->parent, 4);

	at = put_bytes(at, directory->name, directory->name_len);
	return (size_t)(at - bytes);
}

size_t state_encode_file(const struct state_file *file, unsigned char *bytes)
{
	unsigned char *at = put_number(bytes, file->number, 8);

	at = put_number(at, file->node, 8);
	at = put_number(at, file->flags & KEPT_FLAGS, 4);
	return (size_t)(at - bytes);
}

size_t state_encode_end(const struct state_end *end, unsigned char *bytes)
{
	unsigned char *at = put_number(bytes, end->nodes, 8);

	at = put_number(at, end->files, 8);
	at = put_number(at, end->sum, 8);
	return (size_t)(at - bytes);
}

/* ---- decoding */

bool state_decode_header(const unsigned char bytes[STATE_HEADER], struct state_header *header)
{
	struct bytes from = { bytes + sizeof(magic), STATE_HEADER - sizeof(magic) };

	header->version = (uint32_t)get_number(&from, 4);
	header->mode = (uint32_t)get_number(&from, 4);
	header->agreed = get_number(&from, 8);
	return !memcmp(bytes, magic, sizeof(magic));
}

void state_decode_record(const unsigned char bytes[STATE_RECORD], uint32_t *kind, uint32_t *size)
{
	struct bytes from = { bytes, STATE_RECORD };

	*kind = (uint32_t)get_number(&from, 4);
	*size = (uint32_t)get_number(&from, 4);
}

/* Returns whether this can be the name of a directory entry. */
static bool is_name(const char *name, size_t len)
{
	return len && len <= STATE_NAME_MAX && !memchr(name, 0, len) && !memchr(name, '/', len) &&
	       !(len <= 2 && !memcmp(name, "..", len));
}

/* Returns whether a file has both a parent and a name, or neither. */
static bool is_place(uint32_t parent, const char *name, size_t len)
{
	return parent == NOWHERE ? !len : is_name(name, len);
}

bool state_decode_node(const unsigned char *bytes, size_t len, struct state_node *node)
{
	struct bytes from = { bytes, len };

	if (len < NODE_BYTES)
		return false;
	node->number = get_number(&from, 8);
	node->lookups = get_number(&from, 8);
	node->parent = (uint32_t)get_number(&from, 4);
	node->type = (uint32_t)get_number(&from, 4);
	node->mount = (uint32_t)get_number(&from, 4);
	node->handle_type = (int32_t)get_number(&from, 4);
	node->handle_size = (uint8_t)get_number(&from, 1);
	node->is_apart = get_number(&from, 1) != 0;
	get_number(&from, 2);
	if (node->handle_size > MAX_HANDLE_SZ || node->handle_size > from.left)
		return false;
	node->handle = from.at;
	node->name = (const char *)from.at + node->handle_size;
	node->name_len = from.left - node->handle_size;
	return is_place(node->parent, node->name, node->name_len) && is_number(node->number) &&
	       node->lookups <= MOST_LOOKUPS;
}

bool state_decode_directory(const unsigned char *bytes, size_t len, struct state_directory *directory)
{
	struct bytes from = { bytes, len };

	if (len < DIRECTORY_BYTES)
		return false;
	directory->parent = (uint32_t)get_number(&from, 4);
	directory->name = (const char *)from.at;
	directory->name_len = from.left;
	return directory->parent != NOWHERE && is_name(directory->name, directory->name_len);
}

/* Flags such as O_CREAT or O_TRUNC, which change what an open does, are refused. */
bool state_decode_file(const unsigned char *bytes, size_t len, struct state_file *file)
{
	struct bytes from = { bytes, len };

	if (len != FILE_BYTES)
		return false;
	file->number = get_number(&from, 8);
	file->node = get_number(&from, 8);
	file->flags = (uint32_t)get_number(&from, 4);
	return is_number(file->number) && !(file->flags & ~(uint32_t)KEPT_FLAGS) &&
	       (file->flags & O_ACCMODE) != O_ACCMODE;
}

bool state_decode_end(const unsigned char *bytes, size_t len, struct state_end *end)
{
	struct bytes from = { bytes, len };

	if (len != END_BYTES)
		return false;
	end->nodes = get_number(&from, 8);
	end->files = get_number(&from, 8);
	end->sum = get_number(&from, 8);
	return true;
}

bool state_is_path(const char *path, size_t len)
{
	if (len >= PATH_MAX)
		return false;
	while (len) {
		const char *end = memchr(path, '/', len);
		const size_t name = end ? (size_t)(end - path) : len;

		/* (a path must not end with a slash) */
		if (!is_name(path, name) || (end && name + 1 == len))
			return false;
		path += end ? name + 1 : name;
		len -= end ? name + 1 : name;
	}
	return true;
}

uint64_t state_sum(uint64_t sum, const void *bytes, size_t len)
{
	const unsigned char *at = bytes;

	for (size_t i = 0; i < len; i++)
		sum = (sum ^ at[i]) * UINT64_C(0x100000001b3);
	return sum;
}

int state_refuse(const char *why, ...)
{
	char line[PIPE_BUF / 2];
	va_list rest;

	va_start(rest, why);
	/* (clang-tidy does not see va_start() where it looks at many files) */
	vsnprintf(line, sizeof(line), why, rest); // NOLINT(clang-analyzer-valist.Uninitialized)
	va_end(rest);
	transport_say("nizwarf-share", "migration: %s", line);
	return -1;
}
