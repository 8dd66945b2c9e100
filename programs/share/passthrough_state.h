/* The format of a passthrough's state, with which another server continues to serve a virtual machine:
 * passthrough_save.c writes it, and passthrough_load.c reads it.
 *
 * A state contains the options of INIT, the nodes that the client knows, with their numbers and lookup counts, and
 * the open files with their flags. It contains no locks, and no positions in directories, because the client's
 * requests have them.
 *
 * It consists of a header, records, and an end. All numbers are little-endian. The header is
 *   8 bytes "nizwarf\0", version u32, mode u32 (enum migration_mode), options of INIT u64
 * and each record is a type u32, a size u32, and that many bytes:
 *   MOUNT      a directory by which handles of its file system are opened: its path below the shared directory. Mounts are
 *              numbered from 0
 *   NODE       number u64, lookups u64, parent u32, type u32, mount u32, type of the handle i32, size of the handle u8,
 *              is_apart u8, 0 u16, the handle, and the name
 *   DIRECTORY  parent u32, and the name: a directory that the client does not know, which contains a file that it knows
 *   FILE       an open file: number u64, node u64, flags u32 of open(2)
 *   END        nodes u64, open files u64, and u64 the sum of all bytes before this record
 *
 * NODE and DIRECTORY records are entries, numbered from 0. The first entry is the shared directory. The parent of
 * an entry is an earlier entry, in which the file has this name; if no name is known, the parent is NOWHERE and
 * the name is empty. So the size of a state grows with the number of nodes, and not with the length of their
 * paths. Version 1, which had the whole path of each node, is not supported. */
#ifndef PASSTHROUGH_STATE_H
#define PASSTHROUGH_STATE_H

#include <fcntl.h>
#include <limits.h>
#include <stdbool.h>
#include <stdint.h>
#include <sys/types.h>

/* It must be incremented when the format changes. */
enum { STATE_VERSION = 2 };
enum { STATE_END, STATE_MOUNT, STATE_NODE, STATE_FILE, STATE_DIRECTORY };
/* The sizes of the header and of the beginning of a record, and the largest size of the rest of a record. */
enum { STATE_HEADER = 24, STATE_RECORD = 8, STATE_LONGEST = PATH_MAX };
/* The largest size of a name: as many bytes as Linux's client sends. */
enum { STATE_NAME_MAX = 1024 };
/* How many DIRECTORY records there may be in addition to the number of nodes. */
enum { STATE_SPARE_DIRECTORIES = 1024 };

struct state_header {
	uint32_t version, mode;
	uint64_t agreed;
};

/* `handle` and `name` point into the record, and the name does not end with a 0. */
struct state_node {
	uint64_t number, lookups;
	uint32_t parent, type, mount;
	int32_t handle_type;
	uint8_t handle_size;
	bool is_apart;
	const void *handle;
	const char *name;
	size_t name_len;
};

struct state_directory {
	uint32_t parent;
	const char *name;
	size_t name_len;
};

struct state_file {
	uint64_t number, node;
	uint32_t flags;
};

struct state_end {
	uint64_t nodes, files, sum;
};

/* Each encodes the rest of a record, into STATE_LONGEST bytes, and returns its size. */
void state_encode_header(const struct state_header *header, unsigned char bytes[STATE_HEADER]);
void state_encode_record(uint32_t kind, uint32_t size, unsigned char bytes[STATE_RECORD]);
size_t state_encode_node(const struct state_node *node, unsigned char *bytes);
size_t state_encode_directory(const struct state_directory *directory, unsigned char *bytes);
size_t state_encode_file(const struct state_file *file, unsigned char *bytes);
size_t state_encode_end(const struct state_end *end, unsigned char *bytes);

/* Each decodes bytes that were received. They return false if the bytes are invalid. Numbers and names are checked
 * against their ranges, but not whether they refer to something. */
bool state_decode_header(const unsigned char bytes[STATE_HEADER], struct state_header *header);
void state_decode_record(const unsigned char bytes[STATE_RECORD], uint32_t *kind, uint32_t *size);
bool state_decode_node(const unsigned char *bytes, size_t len, struct state_node *node);
bool state_decode_directory(const unsigned char *bytes, size_t len, struct state_directory *directory);
bool state_decode_file(const unsigned char *bytes, size_t len, struct state_file *file);
bool state_decode_end(const unsigned char *bytes, size_t len, struct state_end *end);
/* Returns whether this is the path of a MOUNT: names separated by slashes, and shorter than PATH_MAX. */
bool state_is_path(const char *path, size_t len);

/* The sum of all bytes so far, FNV-1a of 64 bits. It detects bytes that were damaged, but not bytes that were
 * forged. */
#define STATE_FIRST_SUM UINT64_C(0xcbf29ce484222325)
uint64_t state_sum(uint64_t sum, const void *bytes, size_t len);

/* Prints why a state cannot be saved or loaded, and returns -1. */
__attribute__((format(printf, 1, 2))) int state_refuse(const char *why, ...);

#endif
