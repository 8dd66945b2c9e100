/* Split virtqueues, for a transport: virtio 1.2, section 2.7. Packed virtqueues are not supported.
 *
 * A guest may write its memory at any time. So the transport must copy each descriptor of a chain once, and
 * pass the copy to nizwarf_chain_step_at(). That decodes it: as a piece of the request or of the reply
 * buffer, with its place in the shared memory; as an indirect table; or as an error, which says why the chain
 * is invalid. It is proved that the pieces are those of the chain, that each lies in a region, and that a
 * walk ends (crates/vhost_protocol).
 *
 *	int32_t step = nizwarf_chain_begin_at(size, most, head, &walk);
 *
 *	while (step == NIZWARF_CHAIN_MORE || step == NIZWARF_CHAIN_TABLE) {
 *		memcpy(word, table + walk.at * sizeof(word), sizeof(word));
 *		step = nizwarf_chain_step_at(&walk, word[0], word[1], region, regions, &piece);
 *		if (step == NIZWARF_CHAIN_TABLE)
 *			table = at[piece.region] + piece.offset;
 *		..
 *	}
 *
 * The functions have no state and allocate nothing, so any number of threads may call them. No pointer may be
 * NULL, but the pointer to a list of length 0 may point anywhere. */
#ifndef CHAIN_H
#define CHAIN_H

#include <stddef.h>
#include <stdint.h>

#ifdef __cplusplus
extern "C" {
#endif

/* A region of memory that a guest shares: its address in the guest, and its size in bytes. */
typedef struct {
	uint64_t address, size;
} nizwarf_region;

/* A piece of a request, or if `writable` of a reply buffer: the number of its region, its offset there, and
 * its length. */
typedef struct {
	size_t region;
	uint64_t offset;
	uint32_t len;
	uint8_t writable;
} nizwarf_piece;

/* The state of a walk along a chain. The caller must copy the 16 bytes of the descriptor `at` of the current
 * table, which is always below the number of its entries. The other fields belong to the library. */
typedef struct {
	uint64_t rest;
	uint32_t at, entries, left, most;
	uint8_t indirect, writable;
} nizwarf_walk;

/* What nizwarf_chain_step_at() has decoded, or why the chain is invalid. */
enum {
	/* The last piece. */
	NIZWARF_CHAIN_LAST = 0,
	/* A piece that is not the last, or the beginning of the chain: the caller must copy the next
	 * descriptor. */
	NIZWARF_CHAIN_MORE = 1,
	/* An indirect table at the place of the piece: the caller must copy its first descriptor. */
	NIZWARF_CHAIN_TABLE = 2,
	/* Invalid: the number of a descriptor exceeds the table. */
	NIZWARF_CHAIN_OUTSIDE_TABLE = 3,
	/* Invalid: the chain is longer than the table. */
	NIZWARF_CHAIN_LONGER_THAN_TABLE = 4,
	/* Invalid: no region has the first byte of a piece. */
	NIZWARF_CHAIN_OUTSIDE = 5,
	/* Invalid: a piece exceeds its region. */
	NIZWARF_CHAIN_PAST_END = 6,
	/* Invalid: a piece of the request follows one of the reply buffer. */
	NIZWARF_CHAIN_READABLE_AFTER_WRITABLE = 7,
	/* Invalid: the pieces have more than 2^32 bytes. */
	NIZWARF_CHAIN_TOO_MANY_BYTES = 8,
	/* Invalid: an indirect table is in an indirect table. */
	NIZWARF_CHAIN_TABLE_IN_TABLE = 9,
	/* Invalid: another descriptor follows an indirect table. */
	NIZWARF_CHAIN_TABLE_GOES_ON = 10,
	/* Invalid: an indirect table is empty, or its size is not a multiple of a descriptor's. */
	NIZWARF_CHAIN_TABLE_SIZE = 11,
	/* Invalid: an indirect table has more than `most` descriptors. */
	NIZWARF_CHAIN_TOO_MANY_ENTRIES = 12
};

/* Begins at the descriptor `head` of a queue's table, which has `size` descriptors. An indirect table may
 * have `most` of them. Returns NIZWARF_CHAIN_MORE, or NIZWARF_CHAIN_OUTSIDE_TABLE if `head` is invalid. */
int32_t nizwarf_chain_begin_at(uint32_t size, uint32_t most, uint32_t head, nizwarf_walk *walk);
/* Decodes a descriptor, whose 16 bytes are passed as two little-endian words of 8 bytes. If the chain is
 * invalid, the piece is not filled in, and the walk must not be continued. */
int32_t nizwarf_chain_step_at(nizwarf_walk *walk, uint64_t first, uint64_t second,
			      const nizwarf_region *region, size_t regions, nizwarf_piece *piece);

/* Returns how many chains wait in the available ring of a queue, from the guest's index there and the index
 * of the next chain. Returns -1 if these are more than the queue has, which is invalid. */
int32_t nizwarf_ring_waiting_at(uint16_t index, uint16_t next, uint32_t size);
/* Returns the entry of a ring that belongs to an index: in the available ring that of the next chain, in the
 * used ring that of a completed chain. `size` must not be 0. */
uint32_t nizwarf_ring_slot_at(uint16_t index, uint32_t size);
/* Returns 1 if the other side must be notified, and 0 if not, with VIRTIO_RING_F_EVENT_IDX. Entries were
 * added to a ring from the index `old` up to but not including `new_index`, and the other side has set its
 * index to `event`. */
uint32_t nizwarf_ring_needs_event_at(uint16_t event, uint16_t new_index, uint16_t old);

#ifdef __cplusplus
}
#endif

#endif
