/* Walks chains by chain.h, for cases.py: a case of its standard input is the size of a queue, a head, the
 * queue's table and an indirect one. It writes a line for each: the pieces, and the number of the last step. */
#include <stdio.h>
#include <string.h>
#include "chain.h"

/* How many entries a table has here, of how many bytes; and the most descriptors of a chain. */
enum { ENTRIES = 16, ENTRY = 16, MOST = 65535 };

/* What the library takes. */
_Static_assert(sizeof(nizwarf_region) == 16 && sizeof(nizwarf_piece) == 24 && sizeof(nizwarf_walk) == 32,
	       "sizes");
_Static_assert(offsetof(nizwarf_piece, writable) == 20 && offsetof(nizwarf_walk, indirect) == 24 &&
		       offsetof(nizwarf_walk, writable) == 25,
	       "places");

/* A case, as cases.py packs it. */
struct one {
	uint16_t size, head;
	unsigned char table[ENTRIES * ENTRY], indirect[ENTRIES * ENTRY];
};

/* The memory of upstream.rs. */
static const nizwarf_region regions[] = {
	{ 0, 0x8000 }, { 0x10000, 0x2000 }, { 0x12000, 0x1000 }, { 0x100000000, 0xc0000000 }
};
enum {
	REGIONS = sizeof(regions) / sizeof(regions[0]),
	TABLE = 0x1000, /* addresses of the guest, all in the first region */
	AVAILABLE = 0x2000,
	INDIRECT = 0x4000
};

/* The bytes of the first region; the others have zeros. */
static unsigned char memory[0x8000];

/* Puts a case where the queue has it; of the available ring there is one head. */
static void place(const struct one *one)
{
	const uint16_t available[] = { 0, 1, one->head };

	memcpy(memory + TABLE, one->table, sizeof(one->table));
	memcpy(memory + AVAILABLE, available, sizeof(available));
	memcpy(memory + INDIRECT, one->indirect, sizeof(one->indirect));
}

int main(void)
{
	struct one one;
	nizwarf_walk walk;

	while (fread(&one, sizeof(one), 1, stdin) == 1) {
		int32_t step = nizwarf_chain_begin_at(one.size, MOST, one.head, &walk);
		nizwarf_piece piece, table = { 0, TABLE, 0, 0 }; /* the table that the walk is in now */

		place(&one);
		while (step == NIZWARF_CHAIN_MORE || step == NIZWARF_CHAIN_TABLE) {
			uint64_t word[2] = { 0, 0 };

			/* (the walk says which entry it wants, and is never asked for one that the table has not) */
			if (table.region == 0)
				memcpy(word, memory + table.offset + (size_t)walk.at * ENTRY, ENTRY);
			/* (an entry's 16 bytes, read once) */
			step = nizwarf_chain_step_at(&walk, word[0], word[1], regions, REGIONS, &piece);
			if (step == NIZWARF_CHAIN_TABLE)
				table = piece;
			else if (step == NIZWARF_CHAIN_MORE || step == NIZWARF_CHAIN_LAST)
				printf("%llx:%x:%d ",
				       (unsigned long long)(regions[piece.region].address + piece.offset),
				       piece.len, piece.writable);
		}
		printf("%d\n", step);
	}
	return 0;
}
