/* Directory listings. A program over libfuse writes records by fuse_add_direntry or fuse_add_direntry_plus,
 * and then replies all of them at once. */

/* In bytes: the alignment of records, and how much of a name is checked at a time. */
enum { WORD = sizeof(uint64_t), PIECE = 16 };

/* `noplt` saves the jump through the procedure linkage table, because strlen is called for each entry. */
extern __attribute__((noplt)) size_t strlen(const char *text);

static inline uint64_t word_at(const char *at)
{
	uint64_t word;

	memcpy(&word, at, WORD);
	return word;
}

/* Copies a name. Its last piece may overlap the one before. */
static inline void copy_name(char *at, const char *name, size_t len)
{
	size_t i;

	/* For most names, a call of memcpy would take longer than the copy. */
	if (len >= PIECE) {
		for (i = 0; i < len - PIECE; i += PIECE)
			memcpy(at + i, name + i, PIECE);
		memcpy(at + len - PIECE, name + len - PIECE, PIECE);
	} else if (len >= 8) {
		memcpy(at, name, 8);
		memcpy(at + len - 8, name + len - 8, 8);
	} else if (len >= 4) {
		memcpy(at, name, 4);
		memcpy(at + len - 4, name + len - 4, 4);
	} else if (len >= 2) {
		memcpy(at, name, 2);
		memcpy(at + len - 2, name + len - 2, 2);
	} else if (len) {
		*at = *name;
	}
}

/* Writes a record from `at` to `end`, with padding of zeros. `end` must be at least 24 bytes after `at`. */
static inline void write_record(char *at, char *end, const char *name, size_t len, const struct stat *st,
				off_t off)
{
	struct fuse_dirent *record = (struct fuse_dirent *)(void *)at;

	/* The padding must be written first, because these eight bytes may also have the end of the name. */
	memset(end - WORD, 0, WORD);
	record->ino = st->st_ino;
	record->off = (uint64_t)off;
	record->namelen = (uint32_t)len;
	record->type = (st->st_mode & S_IFMT) >> 12; /* a DT_ constant */
	copy_name(record->name, name, len);
}

/* Replace libfuse's functions. They return the size of the record, and write it if it fits and `buf` is not
 * NULL. */
size_t fuse_add_direntry(fuse_req_t req, char *buf, size_t bufsize, const char *name,
			 const struct stat *stbuf, off_t off)
{
	const size_t len = strlen(name), size = FUSE_DIRENT_ALIGN(FUSE_NAME_OFFSET + len);

	(void)req;
	if (buf && size <= bufsize)
		write_record(buf, buf + size, name, len, stbuf, off);
	return size;
}

size_t fuse_add_direntry_plus(fuse_req_t req, char *buf, size_t bufsize, const char *name,
			      const struct fuse_entry_param *e, off_t off)
{
	const size_t front = sizeof(struct fuse_entry_out), len = strlen(name);
	const size_t size = front + FUSE_DIRENT_ALIGN(FUSE_NAME_OFFSET + len);

	(void)req;
	if (buf && size <= bufsize) {
		/* nizwarf_entry has the layout of struct fuse_entry_out. */
		fill_codec_entry((nizwarf_entry *)(void *)buf, e);
		write_record(buf + front, buf + size, name, len, &e->attr, off);
	}
	return size;
}

/* Returns 0 if none of the eight bytes is 0. */
static inline uint64_t find_zeros(uint64_t word)
{
	const uint64_t ones = UINT64_C(0x0101010101010101);

	/* This may also mark bytes after one that is 0, which does no harm, because callers compare with 0
	 * only. */
	return (word - ones) & ~word & ones << 7;
}

/* Returns the minimum of `minimum` and all 16-byte pieces of a name, for each position in a piece. The name
 * must have at least 16 bytes. */
static inline __m128i byte_minimum(__m128i minimum, const char *at, size_t len)
{
	const char *last = at + len - PIECE; /* may overlap the piece before */

	minimum = _mm_min_epu8(minimum, _mm_loadu_si128((const __m128i *)(const void *)last));
	for (; at < last; at += PIECE)
		minimum = _mm_min_epu8(minimum, _mm_loadu_si128((const __m128i *)(const void *)at));
	return minimum;
}

/* Returns 0 if a name is not empty and has no byte that is 0. The name must have fewer than 16 bytes, and its
 * padding must be readable. */
static inline uint64_t name_fault(const char *at, size_t len)
{
	if (len >= WORD)
		return find_zeros(word_at(at)) | find_zeros(word_at(at + len - WORD));
	/* The first byte of the word is the lowest, because x86-64 is little-endian. */
	return len ? find_zeros(word_at(at) | UINT64_MAX << 8 * len) : 1;
}

/* A walk over the records of a listing. Invalid names are recorded, and checked once at the end, because the
 * processor would often mispredict a branch for each name. */
struct listing_walk {
	size_t at;	 /* the offset of the next record in bytes */
	__m128i minimum; /* of long names: invalid if one of its bytes is 0 */
	uint64_t faults; /* of short names: invalid if not 0 */
};

/* A listing. The name of the record at offset 0 is at `names`, so that offsets of records can be added to
 * it. */
struct listing {
	const char *names;
	size_t front; /* bytes of a record before its name: a header, and with PLUS an entry before that */
};

/* Returns the offset of the end of a record, whose header must be readable, and stores the length of its
 * name. The length is read only once, because another thread of the program may change it. */
static inline size_t end_of_record(struct listing l, size_t at, uint32_t *len)
{
	/* The header is right before the name. */
	memcpy(len, l.names + at - FUSE_NAME_OFFSET + offsetof(struct fuse_dirent, namelen), sizeof(*len));
	/* This cannot overflow, because `*len` has 32 bits. */
	return at + FUSE_DIRENT_ALIGN(l.front + *len);
}

/* Checks the name of a record, which must be readable up to `end`, and advances to the next record. */
static inline void walk_record(struct listing_walk *walk, struct listing l, uint32_t len, size_t end)
{
	if (len >= PIECE)
		walk->minimum = byte_minimum(walk->minimum, l.names + walk->at, len);
	else
		walk->faults |= name_fault(l.names + walk->at, len);
	walk->at = end;
}

enum {
	LONG_LISTING = 1024, /* bytes; a shorter one is walked in one piece */
	GUESS_RANGE = 256,   /* bytes */
	/* The longest name that Linux accepts, with its padding. */
	LONGEST_NAME = 4096,
};

/* Guesses where a record in the middle of a listing begins, by a short length and a type next to each other.
 * Returns 0 if there is no such place. */
static inline size_t guess_middle(struct listing l, size_t len)
{
	const size_t first = len / 2 / WORD * WORD;
	uint64_t numbers;
	size_t at;

	for (at = first; at < first + GUESS_RANGE; at += WORD) {
		/* The length of a name, and the type in the upper half. */
		numbers = word_at(l.names + at - WORD);
		/* The length must be 1 to 255, and the type must have four bits and not be 0. */
		if (!(numbers & ~UINT64_C(0xf000000ff)) && numbers & 255 && numbers >> 32)
			return at;
	}
	return 0;
}

_Static_assert(LONG_LISTING / 2 + GUESS_RANGE + sizeof(struct fuse_entry_out) + FUSE_NAME_OFFSET <=
		       LONG_LISTING,
	       "a guess has a header");
_Static_assert(offsetof(struct fuse_dirent, type) + sizeof(uint32_t) == FUSE_NAME_OFFSET &&
		       offsetof(struct fuse_dirent, namelen) + WORD == FUSE_NAME_OFFSET,
	       "both numbers are before a name");

/* Walks over both halves of a listing at the same time, because the position of each record depends on the
 * one before, and waiting for that takes longer than all other work. `middle` is a guess: the second half
 * only counts if the walk over the first half ends exactly there. So a wrong guess, which a name that looks
 * like a header may cause, only costs time. `last` is the largest offset of a record whose header is
 * complete. */
static inline void walk_halves(struct listing_walk *walk, struct listing l, size_t middle, size_t last)
{
	struct listing_walk half = { middle, walk->minimum, 0 };
	size_t end, other_end;
	uint32_t len, other;

	for (;;) {
		end = end_of_record(l, walk->at, &len);
		other_end = end_of_record(l, half.at, &other);
		if (end > middle || other_end > last) /* one of the walks has ended */
			break;
		walk_record(walk, l, len, end);
		walk_record(&half, l, other, other_end);
	}
	for (; end <= middle; end = end_of_record(l, walk->at, &len))
		walk_record(walk, l, len, end);
	/* Only then the second walk has visited the records after those of the first one. */
	if (walk->at == middle) {
		walk->at = half.at;
		walk->minimum = _mm_min_epu8(walk->minimum, half.minimum);
		walk->faults |= half.faults;
	}
}

/* codec.h describes the result. An incomplete last record is left out, because Linux ignores it and requests
 * it again. */
static __attribute__((noinline)) size_t check_listing(const nizwarf_call *call, const char *records,
						      size_t len)
{
	const size_t front =
		FUSE_NAME_OFFSET + (call->has & NIZWARF_PLUS ? sizeof(struct fuse_entry_out) : 0);
	const struct listing l = { records + front, front };
	struct listing_walk walk = { 0, _mm_set1_epi8(-1), 0 };
	size_t middle, end;
	uint32_t name_len;

	if (len < front)
		return 0;
	middle = len >= LONG_LISTING ? guess_middle(l, len) : 0;
	if (middle)
		walk_halves(&walk, l, middle, len - front);
	/* As long as the header of the next record is complete. */
	while ((end = end_of_record(l, walk.at, &name_len)) <= len - front)
		walk_record(&walk, l, name_len, end);
	if (end <= len)
		walk_record(&walk, l, name_len, end);
	/* The last record is incomplete, which is an error only if Linux would refuse it even when
	 * complete. */
	else if (end - walk.at > front + LONGEST_NAME)
		return 0;
	if (walk.faults || _mm_movemask_epi8(_mm_cmpeq_epi8(walk.minimum, _mm_setzero_si128())))
		return 0;
	return walk.at;
}
