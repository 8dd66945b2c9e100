/* A search below the directory of a passthrough for files whose path Linux does not know. */
#ifndef PASSTHROUGH_SEARCH_H
#define PASSTHROUGH_SEARCH_H

#include "passthrough_paths.h"

/* The entry of the shared directory in a state, and no entry (passthrough_state.h). */
#define ROOT_ENTRY UINT32_C(0)
#define NOWHERE UINT32_MAX

/* A file to search for, with the number of its node. */
struct sought {
	uint64_t number;
	struct file_id id;
	struct sought *next;
	/* It is not a directory, and is mounted over another file. */
	bool is_mounted;
};

/* The callbacks of a search, and their `user`. A directory is identified by its entry in the state. */
struct seeker {
	void *user;
	/* Returns whether the search continues. */
	bool (*goes_on)(void *user);
	/* Returns the entry of an open directory, or NOWHERE if it has none. */
	uint32_t (*known)(void *user, int fd, const struct statx *seen);
	/* Creates the entry of a directory that has this name in another one. NOWHERE: it gets none, and no file
	 * in it is found. */
	uint32_t (*enter)(void *user, uint32_t parent, const char *name, const struct file_id *id);
	/* Called with the name of a file that was found. -1 ends the search. */
	int (*found)(void *user, uint64_t number, uint32_t parent, const char *name);
};

struct search;

/* Starts a search for `count` files, which reads at most `most` names. `sought` and `seeker` must be valid until
 * search_end(). Returns NULL if out of memory. */
struct search *search_begin(const struct paths *paths, struct sought *sought, size_t count, uint64_t most,
			    const struct seeker *seeker);
void search_end(struct search *s);
/* Returns whether the search is over: all files are found, or it was ended. */
bool search_is_over(const struct search *s);
/* Returns whether the search was ended by the limit of names. */
bool search_is_cut(const struct search *s);
/* Searches one directory, which must be open for reading. */
void search_directory(struct search *s, int fd, uint32_t entry);
/* Searches all directories below the shared one. */
void search_below(struct search *s);

#endif
