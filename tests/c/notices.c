/* Holds the notices of nizwarf.h against the structs of the kernel's header: the bytes of each, in as much memory as
 * it takes and in more, and nothing in less. Status 0: all is as it should be. */
#include <linux/fuse.h>
#include <string.h>
#include "nizwarf.h"
#define CASE "notice %d\n", code
#include "check.h"

/* Those of version 7.45, which an older header has not. */
enum { RESEND = 7, INC_EPOCH = 8, PRUNE = 9 };

struct prune_out {
	uint32_t count;
	uint32_t padding;
	uint64_t spare;
};

/* Numbers that have no byte twice: what is put at a wrong place shows. */
#define NODE UINT64_C(0x1112131415161718)
#define PARENT UINT64_C(0x2122232425262728)
#define OFFSET UINT64_C(0x3132333435363738)
#define UNIQUE UINT64_C(0x4142434445464748)

enum { COUNT = 0x51525354, FEW = 0x10 }; /* bytes of data that follow, and nodes */

static const char name[] = "a name that is not cut";
enum { NAME_LEN = sizeof(name) - 1 };
static char longest[4095]; /* bytes, and none is 0 */

/* Each of these puts one notice, as nizwarf.h does: it returns how many bytes, or 0, where `size` is too
 * little. */
#define PUTS(name, notice, ...)                                         \
	static size_t put_##name(void *out, size_t size)                \
	{                                                               \
		return nizwarf_notice_##notice(__VA_ARGS__, out, size); \
	}
PUTS(poll, poll, UNIQUE)
/* (an offset below 0 is for attributes alone, a length below 0 for all) */
PUTS(inode, inval_inode, NODE, INT64_MIN, -1)
PUTS(entry, inval_entry, PARENT, NIZWARF_EXPIRE_ONLY, name, NAME_LEN)
/* A name longer than Linux takes: the header has room for it. */
PUTS(longest, inval_entry, PARENT, 0, longest, sizeof(longest))
PUTS(store, store, NODE, OFFSET, COUNT)
PUTS(retrieve, retrieve, UNIQUE, NODE, OFFSET, COUNT)
PUTS(delete, delete, PARENT, NODE, name, NAME_LEN)
PUTS(prune, prune, FEW)

/* A notice by its number is this record and then a name, if it has one, and `follow` bytes after it. `follow` is what
 * the header counts, though the notice has no byte of it. */
static void hold(int code, size_t (*put)(void *out, size_t size), const void *record, size_t record_len,
		 const char *text, size_t text_len, uint32_t follow)
{
	const size_t len = sizeof(struct fuse_out_header) + record_len + (text ? text_len + 1 : 0);
	const struct fuse_out_header header = { (uint32_t)len + follow, code, 0 };
	unsigned char *wanted = calloc(1, len), *out;
	size_t size;

	CHECK(wanted);
	memcpy(wanted, &header, sizeof(header));
	if (record_len)
		memcpy(wanted + sizeof(header), record, record_len);
	if (text)
		memcpy(wanted + sizeof(header) + record_len, text, text_len);
	/* (each in memory of its own, so that a sanitizer sees a byte after it) */
	for (size = 0; size <= len + 9; size++) {
		out = malloc(size + 1);
		CHECK(out);
		memset(out, 0xa5, size + 1);
		CHECK(put(out, size) == (size < len ? 0 : len));
		CHECK(size < len || !memcmp(out, wanted, len));
		for (size_t i = size < len ? 0 : len; i <= size; i++) /* nothing else was written */
			CHECK(out[i] == 0xa5);
		free(out);
	}
	CHECK(put(NULL, len) == 0); /* no memory is no fault */
	free(wanted);
}

/* Notices without a name, by their records. */
static void hold_records(void)
{
	const struct fuse_notify_poll_wakeup_out poll = { UNIQUE };
	const struct fuse_notify_inval_inode_out inode = { NODE, INT64_MIN, -1 };
	const struct fuse_notify_store_out store = { NODE, OFFSET, COUNT, 0 };
	const struct fuse_notify_retrieve_out retrieve = { UNIQUE, NODE, OFFSET, COUNT, 0 };
	const struct prune_out prune = { FEW, 0, 0 };

	hold(FUSE_NOTIFY_POLL, put_poll, &poll, sizeof(poll), NULL, 0, 0);
	hold(FUSE_NOTIFY_INVAL_INODE, put_inode, &inode, sizeof(inode), NULL, 0, 0);
	hold(FUSE_NOTIFY_STORE, put_store, &store, sizeof(store), NULL, 0, COUNT);
	hold(FUSE_NOTIFY_RETRIEVE, put_retrieve, &retrieve, sizeof(retrieve), NULL, 0, 0);
	hold(RESEND, nizwarf_notice_resend, NULL, 0, NULL, 0, 0);
	hold(INC_EPOCH, nizwarf_notice_inc_epoch, NULL, 0, NULL, 0, 0);
	hold(PRUNE, put_prune, &prune, sizeof(prune), NULL, 0, FEW * sizeof(uint64_t));
}

/* Those with a name, which a 0 ends that the record's length doesn't count. */
static void hold_names(void)
{
	struct fuse_notify_inval_entry_out entry = { .parent = PARENT, .namelen = NAME_LEN };
	const struct fuse_notify_delete_out gone = { PARENT, NODE, NAME_LEN, 0 };

	/* (before version 7.38 `flags` was padding; it has its place) */
	memcpy((char *)&entry + 12, &(uint32_t){ 1 }, 4);
	hold(FUSE_NOTIFY_INVAL_ENTRY, put_entry, &entry, sizeof(entry), name, NAME_LEN, 0);
	hold(FUSE_NOTIFY_DELETE, put_delete, &gone, sizeof(gone), name, NAME_LEN, 0);
	memset(longest, 'a', sizeof(longest));
	entry = (struct fuse_notify_inval_entry_out){ .parent = PARENT, .namelen = sizeof(longest) };
	hold(FUSE_NOTIFY_INVAL_ENTRY, put_longest, &entry, sizeof(entry), longest, sizeof(longest), 0);
}

/* What no header can tell of is not put, and no name is read from NULL. */
static void hold_limits(void)
{
	/* with the header and the record 32 bits */
	const uint32_t most_bytes = UINT32_MAX - 40, most_nodes = (UINT32_MAX - 32) / 8;
	const int code = 0;
	unsigned char out[64];

	CHECK(nizwarf_notice_store(NODE, 0, most_bytes, out, sizeof(out)) == 40);
	CHECK(nizwarf_notice_store(NODE, 0, most_bytes + 1, out, sizeof(out)) == 0);
	CHECK(nizwarf_notice_prune(most_nodes, out, sizeof(out)) == 32);
	CHECK(nizwarf_notice_prune(most_nodes + 1, out, sizeof(out)) == 0);
	CHECK(nizwarf_notice_inval_entry(PARENT, 0, NULL, 1, out, sizeof(out)) == 0);
	CHECK(nizwarf_notice_delete(PARENT, NODE, NULL, 1, out, sizeof(out)) == 0);
}

int main(void)
{
	hold_records();
	hold_names();
	hold_limits();
	puts("Nine notices are as the kernel's header has them.");
	return 0;
}
