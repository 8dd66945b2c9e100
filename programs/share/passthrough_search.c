/* A search below the directory of a passthrough: passthrough_search.h. It runs while a virtual machine is stopped,
 * in a directory that a guest may have filled. So its memory does not grow with the directory. The directories
 * from the shared one down to the current one are a stack of levels, and each level has the names of some of its
 * directories that are still to be visited. If there are more, the directory is read further once these are done.
 * All names together have a fixed size.
 *
 * Only the current directory and the one above it are open. On the way back, the upper one is opened again as `..`
 * of the lower one, and must be the same directory as before; one that was moved meanwhile is opened by its names
 * from the shared directory on. A directory that is moved while the search runs may be missed, or searched twice. */
#define _GNU_SOURCE
#include <dirent.h>
#include <fcntl.h>
#include <stdlib.h>
#include <string.h>
#include <unistd.h>
#include "passthrough_call.h"
#include "passthrough_search.h"

/* ENTRIES: how many bytes of a directory are read at once; MOST_LEVELS: how deep the search goes; NAME_BYTES: the
 * size of a name with its 0; BATCH: the size of the names of one level; SPARE: the space for names in
 * addition to one name for each level. */
enum { ENTRIES = 32768, MOST_LEVELS = 16384, NAME_BYTES = 256, BATCH = 16384, SPARE = 1 << 20 };
/* How many names of a directory that search_directory() reads are checked, so that a large one leaves some of the
 * limit for others. */
enum { NAMES_OF_ONE = 65536 };
/* Enough space for one name of each level, and the spare bytes. */
enum { ALL_NAMES = MOST_LEVELS * NAME_BYTES + SPARE };

struct level {
	struct file_id id;
	/* Where reading the directory continues, and whether its end was reached. */
	off_t resume;
	bool is_read;
	/* Its entry in the state, or NOWHERE if it has none yet. */
	uint32_t entry;
	/* The names of its directories, in `names`: those from `next` to `end` are still to be visited; `visited`
	 * is the one that leads to the level above this one. */
	uint32_t begin, next, end, visited;
};

struct search {
	const struct paths *paths;
	const struct seeker *seeker;
	/* The files to find, in chains by inode. `mask` is the number of chains minus one. */
	struct sought **chains;
	size_t mask;
	/* How many files are not found yet, and how many of these are mounted. */
	size_t left, mounted;
	/* How many more names may be read. */
	uint64_t names_left;
	/* It was ended; and it was ended by the limit of names. */
	bool is_ended, is_cut;
	/* The level of the current directory; negative: a directory whose entry is `entry`. */
	int depth;
	uint32_t entry;
	struct level *levels;
	char *names;
	_Alignas(struct dirent64) char entries[ENTRIES];
};

static struct sought **chain_of(struct search *s, uint64_t inode)
{
	return &s->chains[(inode * UINT64_C(0x9e3779b97f4a7c15)) >> 32 & s->mask];
}

struct search *search_begin(const struct paths *paths, struct sought *sought, size_t count, uint64_t most,
			    const struct seeker *seeker)
{
	struct search *s = calloc(1, sizeof(*s));
	size_t chains = 1;

	if (!s)
		return NULL;
	while (chains < count)
		chains *= 2;
	s->paths = paths;
	s->seeker = seeker;
	s->mask = chains - 1;
	s->names_left = most;
	s->chains = calloc(chains, sizeof(struct sought *));
	/* (Linux allocates the pages of these two as they are used) */
	s->levels = malloc(MOST_LEVELS * sizeof(*s->levels));
	s->names = malloc(ALL_NAMES);
	if (!s->chains || !s->levels || !s->names) {
		search_end(s);
		return NULL;
	}
	s->left = count;
	for (size_t i = 0; i < count; i++) {
		struct sought **chain = chain_of(s, sought[i].id.inode);

		sought[i].next = *chain;
		*chain = &sought[i];
		s->mounted += sought[i].is_mounted;
	}
	return s;
}

void search_end(struct search *s)
{
	free(s->chains);
	free(s->levels);
	free(s->names);
	free(s);
}

bool search_is_over(const struct search *s)
{
	return !s->left || s->is_ended;
}

bool search_is_cut(const struct search *s)
{
	return s->is_cut;
}

/* Returns the entry of the current directory, and creates those of the directories above it first. */
static uint32_t entry_here(struct search *s)
{
	int at = s->depth;

	if (at < 0)
		return s->entry;
	/* (that of the shared directory has one) */
	while (s->levels[at].entry == NOWHERE)
		at--;
	for (; at < s->depth; at++) {
		const struct level *above = &s->levels[at];

		s->levels[at + 1].entry = s->seeker->enter(s->seeker->user, above->entry,
							   s->names + above->visited, &s->levels[at + 1].id);
		if (s->levels[at + 1].entry == NOWHERE)
			return NOWHERE;
	}
	return s->levels[s->depth].entry;
}

/* Reports a file with these attributes that has this name in the current directory, if it is searched. */
static void match(struct search *s, const struct statx *seen, const char *name)
{
	const struct file_id id = id_of(seen);
	uint32_t parent;

	for (struct sought **at = chain_of(s, id.inode); *at;) {
		struct sought *one = *at;

		if (!is_id(&one->id, &id)) {
			at = &one->next;
			continue;
		}
		parent = entry_here(s);
		if (parent == NOWHERE)
			return;
		/* (other names of the file are not needed) */
		*at = one->next;
		s->left--;
		s->mounted -= one->is_mounted;
		if (s->seeker->found(s->seeker->user, one->number, parent, name))
			s->is_ended = true;
	}
}

/* Checks a name of the current directory. For most names the inode in the directory entry suffices. For a mount
 * point, that is the inode below the mount; so a directory is checked once it is open, and other files are checked
 * by statx(2) while a mounted one is searched. Returns whether the name is that of a directory. */
static bool look_at_name(struct search *s, int fd, const struct dirent64 *entry)
{
	const bool may_be_sought = s->mounted || *chain_of(s, entry->d_ino);
	struct statx seen;

	if (!is_plain(entry->d_name) || strlen(entry->d_name) >= NAME_BYTES)
		return false;
	if (entry->d_type == DT_DIR && (s->depth >= 0 || !may_be_sought))
		return true;
	if (!may_be_sought && entry->d_type != DT_UNKNOWN)
		return false;
	if (statx(fd, entry->d_name, AT_SYMLINK_NOFOLLOW | AT_NO_AUTOMOUNT, WANTED, &seen))
		return false;
	if (!S_ISDIR(seen.stx_mode) || s->depth < 0)
		match(s, &seen, entry->d_name);
	return S_ISDIR(seen.stx_mode);
}

/* Returns whether one more name may be read. */
static bool counts_name(struct search *s)
{
	if (!s->names_left)
		s->is_ended = s->is_cut = true;
	else
		s->names_left--;
	return !search_is_over(s);
}

/* Returns whether the search continues. It is checked after each read. */
static bool goes_on(struct search *s)
{
	if (!s->seeker->goes_on(s->seeker->user))
		s->is_ended = true;
	return !search_is_over(s);
}

void search_directory(struct search *s, int fd, uint32_t entry)
{
	uint32_t names = 0;
	ssize_t got;

	s->depth = -1;
	s->entry = entry;
	while (names < NAMES_OF_ONE && goes_on(s) && (got = getdents64(fd, s->entries, ENTRIES)) > 0)
		for (ssize_t at = 0; at < got && counts_name(s); names++) {
			const struct dirent64 *next = (const void *)(s->entries + at);

			look_at_name(s, fd, next);
			at += next->d_reclen;
		}
}

/* ---- all directories */

/* Stores the name of a directory to visit. Returns false if there is no space, which cannot happen for the first
 * one. */
static bool keep_name(struct search *s, struct level *level, const char *name)
{
	const uint32_t len = (uint32_t)strlen(name) + 1;
	/* (the levels above this one need space for one name each) */
	const uint32_t most = ALL_NAMES - (uint32_t)(MOST_LEVELS - 1 - s->depth) * NAME_BYTES;

	if (level->end > level->begin && (level->end - level->begin + len > BATCH || level->end + len > most))
		return false;
	memcpy(s->names + level->end, name, len);
	level->end += len;
	return true;
}

/* Reads names of a directory from its current position, until it ends or there is no space for more names of
 * directories. */
static void read_level(struct search *s, int fd, struct level *level)
{
	ssize_t got = -1;

	level->next = level->end = level->begin;
	if (lseek(fd, level->resume, SEEK_SET) < 0)
		level->is_read = true;
	while (!level->is_read && goes_on(s)) {
		got = getdents64(fd, s->entries, ENTRIES);
		level->is_read = got <= 0;
		for (ssize_t at = 0; at < got && counts_name(s);) {
			const struct dirent64 *entry = (const void *)(s->entries + at);

			/* (a name that is not stored is read again) */
			if (look_at_name(s, fd, entry) && !keep_name(s, level, entry->d_name))
				return;
			level->resume = entry->d_off;
			at += entry->d_reclen;
		}
	}
}

/* Starts the level of an open directory, and gets its attributes. */
static void begin_level(struct search *s, int fd, const struct statx *seen, uint32_t begin)
{
	struct level *level = &s->levels[s->depth];

	*level = (struct level){ .id = id_of(seen), .begin = begin, .entry = ROOT_ENTRY };
	if (s->depth)
		level->entry = s->seeker->known(s->seeker->user, fd, seen);
	read_level(s, fd, level);
}

static bool is_done(const struct level *level)
{
	return level->is_read && level->next == level->end;
}

/* Returns the descriptor if it is that of the level's directory. Otherwise closes it and returns -1. */
static int if_level(const struct search *s, int fd)
{
	struct statx seen;
	struct file_id id;

	if (fd < 0)
		return -1;
	if (!look_at(fd, &seen)) {
		id = id_of(&seen);
		if (is_id(&id, &s->levels[s->depth].id))
			return fd;
	}
	close(fd);
	return -1;
}

/* Opens the directory of the level by its names from the shared directory on, or the deepest one above it that
 * still exists, which becomes the current level. Returns -1 if there is no such directory. Only one walk is tried,
 * because the names may be changed again and again. */
static int open_by_names(struct search *s)
{
	const int most = s->depth;
	int fd, below;

	s->depth = 0;
	fd = if_level(s, open_below(s->paths, "", O_RDONLY | O_DIRECTORY));
	while (fd >= 0 && s->depth < most) {
		below = open_in(fd, s->names + s->levels[s->depth].visited, O_RDONLY | O_DIRECTORY);
		s->depth++;
		below = if_level(s, below);
		if (below < 0) {
			s->depth--;
			break;
		}
		close(fd);
		fd = below;
	}
	return fd;
}

/* Goes back to the level above that of the descriptor `below`, or to the next one above whose directory still
 * exists. Returns its descriptor, or -1. */
static int go_back(struct search *s, int below)
{
	int fd;

	s->depth--;
	/* (If the lower directory was moved out of the shared one, this opens a directory outside, which is closed
	 * again.) */
	fd = if_level(s, openat(below, "..", O_RDONLY | O_DIRECTORY | O_CLOEXEC));
	close(below);
	return fd < 0 ? open_by_names(s) : fd;
}

/* Visits the next directory of the level. Returns its descriptor if it has directories to visit, or else that of
 * the level. */
static int visit(struct search *s, int fd)
{
	struct level *level = &s->levels[s->depth];
	const char *name = s->names + level->next;
	struct statx seen;
	int below;

	level->visited = level->next;
	level->next += (uint32_t)strlen(name) + 1;
	/* (deeper directories are not searched) */
	if (s->depth + 1 == MOST_LEVELS)
		return fd;
	below = open_in(fd, name, O_RDONLY | O_DIRECTORY);
	if (below < 0)
		return fd;
	if (!look_at(below, &seen)) {
		match(s, &seen, name);
		s->depth++;
		begin_level(s, below, &seen, level->end);
		if (!is_done(&s->levels[s->depth])) {
			close(fd);
			return below;
		}
		s->depth--;
	}
	close(below);
	return fd;
}

void search_below(struct search *s)
{
	int fd = open_below(s->paths, "", O_RDONLY | O_DIRECTORY);
	struct statx seen;

	if (fd < 0 || look_at(fd, &seen)) {
		s->is_ended = true;
	} else {
		s->depth = 0;
		begin_level(s, fd, &seen, 0);
	}
	while (fd >= 0 && !search_is_over(s)) {
		struct level *level = &s->levels[s->depth];

		if (level->next < level->end)
			fd = visit(s, fd);
		else if (!level->is_read)
			read_level(s, fd, level);
		else if (s->depth)
			fd = go_back(s, fd);
		else
			s->is_ended = true;
	}
	if (fd >= 0)
		close(fd);
}
