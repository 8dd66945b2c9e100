/* Saves the state of a passthrough (passthrough_state.h), with which another server continues to serve a virtual
 * machine.
 *
 * The transport's own thread does it, while no request is in flight, so no worker changes nodes or files. Others
 * may change the directory at any time.
 *
 * Each node is saved as its parent's entry and its name there. If Linux knows the path of a node, its directories
 * get entries from the shared directory down to it. If not, as for a file whose first name was unlinked, the
 * node's own hint is tried; then the directories that the client knows are searched, and finally all of the shared
 * directory. The number of names that this may read grows with the number of nodes, because a stopped machine must
 * not wait for an unlimited directory. */
#define _GNU_SOURCE
#include <errno.h>
#include <fcntl.h>
#include <linux/fuse.h>
#include <stdio.h>
#include <stdlib.h>
#include <string.h>
#include <sys/stat.h>
#include <unistd.h>
#include "passthrough_call.h"
#include "passthrough_mounts.h"
#include "passthrough_search.h"
#include "passthrough_state.h"
#include "say.h"

enum { MOST_MOUNTS = 1024, FIRST_PIECES = 256 };
/* The limit of names in a search: NAMES, and NAMES_OF_NODE for each node. */
enum { NAMES = 1000000, NAMES_OF_NODE = 64 };

/* A directory that the client does not know, and its entry. A free place of the table has the entry of the shared
 * directory. */
struct ancestor {
	struct file_id id;
	uint32_t entry;
};

struct saving {
	struct passthrough *all;
	transport_state *to;
	struct paths paths;
	struct state_end end;
	/* The number of entries; and the entry of each node by its slot, plus one, where 0 means that it has no
	 * entry. */
	uint32_t entries;
	uint32_t *entry_of;
	size_t entry_of_count;
	/* The DIRECTORY entries: a hash table with open addressing, whose size is 0 or a power of two. */
	struct ancestor *ancestors;
	size_t ancestor_count, ancestor_size, most_ancestors;
	bool is_full;
	/* A mount whose handles are saved, and the path of a directory on it. */
	struct saved_mount {
		const struct host_mount *mount;
		char *path;
	} * mounts;
	size_t mount_count;
	/* Nodes whose path is not known yet. */
	struct sought *sought;
	size_t sought_count, sought_size, lost;
	bool has_failed;
	char path[PATH_MAX];
	/* The path of the directory with the entry `last_entry`, because nodes of one directory often follow each
	 * other. */
	char last[PATH_MAX];
	size_t last_len;
	uint32_t last_entry;
	unsigned char record[STATE_RECORD + STATE_LONGEST];
};

/* The place of a file: NOWHERE and "" if it is not known. */
struct place {
	uint32_t parent;
	const char *name;
};

static const struct place nowhere = { NOWHERE, "" };

/* Returns a place, if a state may contain its name. */
static struct place place_in(uint32_t parent, const char *name)
{
	return parent != NOWHERE && strlen(name) <= STATE_NAME_MAX ? (struct place){ parent, name } : nowhere;
}

/* ---- records */

/* Writes bytes to the state, and adds them to the sum. On error it prints a message and returns -1, as do all
 * functions here that return an int, unless they say otherwise. */
static int put(struct saving *s, const void *bytes, size_t len)
{
	s->end.sum = state_sum(s->end.sum, bytes, len);
	if (!transport_put_state(s->to, bytes, len))
		return 0;
	return state_refuse("cannot send the state: %s", strerror(errno));
}

/* Writes the record whose rest was encoded at `s->record + STATE_RECORD`. */
static int put_record(struct saving *s, uint32_t kind, size_t len)
{
	state_encode_record(kind, (uint32_t)len, s->record);
	return put(s, s->record, STATE_RECORD + len);
}

static bool is_by_handles(const struct saving *s)
{
	return s->all->options.migration_mode == MIGRATES_BY_HANDLES;
}

/* Returns whether nodes are saved with their handles. */
static bool has_handles(const struct saving *s)
{
	return is_by_handles(s) || s->all->options.verifies;
}

/* Returns the number of a mount among those that were saved, or MOST_MOUNTS. */
static uint32_t mount_number(const struct saving *s, const struct host_mount *mount)
{
	for (size_t i = 0; i < s->mount_count; i++)
		if (s->mounts[i].mount == mount)
			return (uint32_t)i;
	return MOST_MOUNTS;
}

/* Returns the entry of a node, or NOWHERE if it has none yet. */
static uint32_t entry_of(const struct saving *s, uint64_t number)
{
	const uint32_t slot = (uint32_t)number;

	return slot < s->entry_of_count && s->entry_of[slot] ? s->entry_of[slot] - 1 : NOWHERE;
}

/* Assigns the next entry to a node. */
static int note_entry(struct saving *s, uint64_t number)
{
	const uint32_t slot = (uint32_t)number;

	if (slot >= s->entry_of_count) {
		size_t count = s->entry_of_count ? s->entry_of_count : FIRST_PIECES;
		uint32_t *more;

		while (count <= slot)
			count *= 2;
		more = realloc(s->entry_of, count * sizeof(*more));
		if (!more)
			return state_refuse("out of memory");
		memset(more + s->entry_of_count, 0, (count - s->entry_of_count) * sizeof(*more));
		s->entry_of = more;
		s->entry_of_count = count;
	}
	s->entry_of[slot] = ++s->entries;
	return 0;
}

/* Saves a node. `fd` is a descriptor of it, from which its handle is taken, or -1. A node without a place and a
 * handle is saved too, so that the other server knows its number, and the client gets an error when it uses it. */
static int put_node(struct saving *s, const struct node *node, int fd, struct place place)
{
	const bool by_handles = is_by_handles(s), is_root = node->counted.number == ROOT_NODE;
	struct state_node result = { .number = node->counted.number,
				     .lookups = atomic_load(&node->lookups),
				     .parent = NOWHERE,
				     .type = node->type,
				     .mount = by_handles ? mount_number(s, node->on) : 0,
				     .is_apart = node->is_apart };
	union handle_room room;
	bool has_handle = has_handles(s) && fd >= 0 && result.mount < MOST_MOUNTS && handle_by(fd, &room);

	/* With paths, a handle is useless without a place, and a place without the handle that verifies it. */
	has_handle &= by_handles || is_root || place.parent != NOWHERE;
	if (has_handle) {
		result.handle_type = room.handle.handle_type;
		result.handle_size = (uint8_t)room.handle.handle_bytes;
		result.handle = room.handle.f_handle;
	}
	if (has_handle || !has_handles(s)) {
		result.parent = place.parent;
		result.name = place.name;
		result.name_len = strlen(place.name);
	}
	if (note_entry(s, result.number))
		return -1;
	s->end.nodes++;
	s->lost += !is_root && !has_handle && result.parent == NOWHERE;
	return put_record(s, STATE_NODE, state_encode_node(&result, s->record + STATE_RECORD));
}

/* ---- directories that the client does not know */

/* Returns the place of a directory in the table, or a free one. */
static struct ancestor *ancestor_at(const struct saving *s, const struct file_id *id)
{
	size_t at = (id->inode + id->device * 31) * UINT64_C(0x9e3779b97f4a7c15) >> 20;

	for (;; at++) {
		struct ancestor *one = &s->ancestors[at & (s->ancestor_size - 1)];

		if (one->entry == ROOT_ENTRY || is_id(&one->id, id))
			return one;
	}
}

/* Makes space for one more. At most half of the places are used. */
static int grow_ancestors(struct saving *s)
{
	struct ancestor *old = s->ancestors;
	const size_t size = s->ancestor_size;

	if (2 * (s->ancestor_count + 1) <= size)
		return 0;
	s->ancestor_size = size ? 2 * size : FIRST_PIECES;
	s->ancestors = calloc(s->ancestor_size, sizeof(*old));
	if (!s->ancestors) {
		s->ancestors = old;
		s->ancestor_size = size;
		return state_refuse("out of memory");
	}
	for (size_t i = 0; i < size; i++)
		if (old[i].entry != ROOT_ENTRY)
			*ancestor_at(s, &old[i].id) = old[i];
	free(old);
	return 0;
}

/* Saves a DIRECTORY, unless it has an entry. `*entry` is NOWHERE if there are too many, which a client that
 * forgets directories could cause. (Linux's client keeps the directories above those that it knows.) */
static int put_directory(struct saving *s, struct place place, const struct file_id *id, uint32_t *entry)
{
	const struct state_directory result = { place.parent, place.name, strlen(place.name) };
	struct ancestor *one;

	*entry = NOWHERE;
	if (place.parent == NOWHERE)
		return 0;
	if (grow_ancestors(s))
		return -1;
	one = ancestor_at(s, id);
	if (one->entry == ROOT_ENTRY) {
		s->is_full = s->ancestor_count == s->most_ancestors;
		if (s->is_full)
			return 0;
		*one = (struct ancestor){ *id, s->entries++ };
		s->ancestor_count++;
		if (put_record(s, STATE_DIRECTORY, state_encode_directory(&result, s->record + STATE_RECORD)))
			return -1;
	}
	*entry = one->entry;
	return 0;
}

/* Returns the entry of an open directory, or NOWHERE if it has none yet. */
static uint32_t entry_known(const struct saving *s, int fd, const struct statx *seen)
{
	const uint64_t number = node_number(&s->all->nodes, fd, seen);
	const struct file_id id = id_of(seen);
	uint32_t entry;

	if (number)
		return entry_of(s, number);
	entry = s->ancestor_size ? ancestor_at(s, &id)->entry : ROOT_ENTRY;
	return entry == ROOT_ENTRY ? NOWHERE : entry;
}

/* Creates an entry of an open directory that has none yet. */
static int enter_directory(struct saving *s, int fd, const struct statx *seen, struct place place,
			   uint32_t *entry)
{
	const uint64_t number = node_number(&s->all->nodes, fd, seen);
	const struct file_id id = id_of(seen);
	struct grip grip;
	int failed;

	if (!number || node_hold(&s->all->nodes, number, &grip))
		return put_directory(s, place, &id, entry);
	failed = put_node(s, grip.node, fd, place);
	node_put(&grip);
	*entry = entry_of(s, number);
	return failed;
}

/* ---- places of nodes */

/* Opens the directory of the first `len` bytes of `s->path`, and gets its attributes. Returns -1 if that fails. */
static int open_part(struct saving *s, size_t len, struct statx *seen)
{
	const char after = s->path[len];
	int fd;

	s->path[len] = 0;
	fd = open_below(&s->paths, s->path, O_PATH | O_DIRECTORY);
	s->path[len] = after;
	if (fd >= 0 && look_at(fd, seen)) {
		close(fd);
		fd = -1;
	}
	return fd;
}

/* Finds the entry of the directory of the first `len` bytes of `s->path`, or creates it below that of its parent.
 * NOWHERE: it has none. */
static int enter_part(struct saving *s, size_t len, uint32_t parent, uint32_t *entry)
{
	const char after = s->path[len];
	struct statx seen;
	const char *name;
	int failed = 0;
	const int fd = open_part(s, len, &seen);

	*entry = fd < 0 ? NOWHERE : entry_known(s, fd, &seen);
	if (fd >= 0 && *entry == NOWHERE && parent != NOWHERE) {
		s->path[len] = 0;
		name = strrchr(s->path, '/');
		failed = enter_directory(s, fd, &seen, place_in(parent, name ? name + 1 : s->path), entry);
		s->path[len] = after;
	}
	if (fd >= 0)
		close(fd);
	return failed;
}

/* Returns the entry of the directory of the first `len` bytes of `s->path`. It goes up to the first directory with
 * an entry, and down again. Each directory gets its entry once, so the total time is linear in the number of
 * directories. */
static int enter_path(struct saving *s, size_t len, uint32_t *entry)
{
	size_t at = len;
	int failed = 0;

	*entry = s->last_entry;
	if (len == s->last_len && !memcmp(s->path, s->last, len))
		return 0;
	*entry = NOWHERE;
	while (at && !failed) {
		failed = enter_part(s, at, NOWHERE, entry);
		if (*entry != NOWHERE)
			break;
		/* (if no directory gets an entry any more, going up further would be useless) */
		if (s->is_full)
			return failed;
		while (at && s->path[--at] != '/')
			;
	}
	if (!at)
		*entry = ROOT_ENTRY;
	while (at < len && !failed && *entry != NOWHERE) {
		const char *end = memchr(s->path + at + 1, '/', len - at - 1);

		at = end ? (size_t)(end - s->path) : len;
		failed = enter_part(s, at, *entry, entry);
	}
	if (*entry != NOWHERE) {
		memcpy(s->last, s->path, len);
		s->last_len = len;
		s->last_entry = *entry;
	}
	return failed;
}

/* Finds the place of a node by the path that Linux knows. */
static int find_place(struct saving *s, const struct grip *grip, const struct statx *seen,
		      struct place *place)
{
	const ssize_t len = find_path(&s->paths, grip->fd, seen, s->path);
	const char *name;
	int failed;

	*place = nowhere;
	if (len <= 0)
		return 0;
	name = strrchr(s->path, '/');
	failed = enter_path(s, name ? (size_t)(name - s->path) : 0, &place->parent);
	*place = place_in(place->parent, name ? name + 1 : s->path);
	return failed;
}

/* Finds the place of a node by the directory and name by which the client first looked it up, if they are known.
 * This helps if Linux knows no path, as for a file that is opened by its handle. */
static int find_first_place(struct saving *s, const struct node *node, const struct statx *seen,
			    struct place *place)
{
	const char *name;
	const uint64_t number = node_found_in(node, &name);
	struct grip directory;
	struct statx there;
	uint32_t entry;
	int failed = 0;

	if (!number || node_get(&s->all->nodes, number, &directory))
		return 0;
	entry = entry_of(s, number);
	if (is_in(directory.fd, name, seen)) {
		/* (a directory whose own path Linux does not know is left to the search) */
		if (entry == NOWHERE && !look_at(directory.fd, &there) &&
		    find_path(&s->paths, directory.fd, &there, s->path) > 0)
			failed = enter_path(s, strlen(s->path), &entry);
		/* (the name belongs to the node, to which the caller has a reference) */
		*place = place_in(entry, name);
	}
	node_put(&directory);
	return failed;
}

/* ---- nodes */

/* Adds a node to those that the search must find. */
static int seek_node(struct saving *s, uint64_t number, const struct statx *seen)
{
	if (s->sought_count == s->sought_size) {
		const size_t size = s->sought_size ? 2 * s->sought_size : FIRST_PIECES;
		struct sought *more = realloc(s->sought, size * sizeof(*more));

		if (!more)
			return state_refuse("out of memory");
		s->sought = more;
		s->sought_size = size;
	}
	/* (Linux shows STATX_ATTR_MOUNT_ROOT since 5.8. Before, such a file is not found.) */
	s->sought[s->sought_count++] =
		(struct sought){ .number = number,
				 .id = id_of(seen),
				 .is_mounted = seen->stx_attributes & STATX_ATTR_MOUNT_ROOT &&
					       !S_ISDIR(seen->stx_mode) };
	return 0;
}

/* Saves a node that has a descriptor, or leaves it to the search. A file without a name is not searched. */
static int save_open_node(struct saving *s, const struct grip *grip)
{
	struct place place = nowhere;
	struct statx seen;

	/* (a network file system may have lost it) */
	if (look_at(grip->fd, &seen))
		return put_node(s, grip->node, -1, nowhere);
	if (grip->node->counted.number == ROOT_NODE)
		return put_node(s, grip->node, grip->fd, nowhere);
	if (find_place(s, grip, &seen, &place))
		return -1;
	if (place.parent == NOWHERE && find_first_place(s, grip->node, &seen, &place))
		return -1;
	/* (a directory may have got an entry meanwhile) */
	if (entry_of(s, grip->node->counted.number) != NOWHERE)
		return 0;
	if (place.parent == NOWHERE && seen.stx_nlink)
		return seek_node(s, grip->node->counted.number, &seen);
	return put_node(s, grip->node, grip->fd, place);
}

/* Saves a node by its number, unless it has an entry. A node that was removed meanwhile is skipped. If its handle
 * cannot be opened, for example because the file is gone, it is saved without handle and place. */
static int save_node(struct saving *s, uint64_t number)
{
	struct nodes *nodes = &s->all->nodes;
	struct grip grip;
	int failed;

	if (entry_of(s, number) != NOWHERE)
		return 0;
	if (!node_get(nodes, number, &grip)) {
		failed = save_open_node(s, &grip);
	} else {
		if (node_hold(nodes, number, &grip))
			return 0;
		failed = put_node(s, grip.node, -1, nowhere);
	}
	node_put(&grip);
	return failed;
}

/* Calls a function for each node, until it fails. */
static int for_each_node(struct saving *s, int (*call)(struct saving *s, uint64_t number))
{
	uint32_t place = 0;
	uint64_t number;
	int failed = 0;

	while (!failed && (number = node_next(&s->all->nodes, &place)))
		failed = call(s, number);
	return failed;
}

/* ---- the search */

/* (a search may take long: it ends if the front end disconnects, a signal arrives, or the saving has failed) */
static bool goes_on(void *user)
{
	const struct saving *s = user;

	return !s->has_failed && !transport_wants_state(s->to);
}

static uint32_t known_to_search(void *user, int fd, const struct statx *seen)
{
	return entry_known(user, fd, seen);
}

static uint32_t enter_for_search(void *user, uint32_t parent, const char *name, const struct file_id *id)
{
	uint32_t entry;

	if (!put_directory(user, place_in(parent, name), id, &entry))
		return entry;
	((struct saving *)user)->has_failed = true;
	return NOWHERE;
}

static int found_by_search(void *user, uint64_t number, uint32_t parent, const char *name)
{
	struct saving *s = user;
	struct grip grip;
	int failed;

	/* (a node whose handle cannot be opened is saved without a place, at the end) */
	if (entry_of(s, number) != NOWHERE || node_get(&s->all->nodes, number, &grip))
		return 0;
	failed = put_node(s, grip.node, grip.fd, place_in(parent, name));
	node_put(&grip);
	s->has_failed |= failed != 0;
	return failed;
}

/* Reads the directories that the client knows. Linux's client knows the directory of each name by which it can
 * reach a file. */
static void search_known(struct saving *s, struct search *search)
{
	struct nodes *nodes = &s->all->nodes;
	uint32_t place = 0;
	uint64_t number;

	while (!search_is_over(search) && (number = node_next(nodes, &place))) {
		const uint32_t entry = entry_of(s, number);
		struct grip grip;
		int fd;

		if (entry == NOWHERE || node_get(nodes, number, &grip))
			continue;
		fd = grip.node->type == S_IFDIR ? open_again(nodes, grip.fd, O_RDONLY | O_DIRECTORY) : -1;
		if (fd >= 0) {
			search_directory(search, fd, entry);
			close(fd);
		}
		node_put(&grip);
	}
}

/* Saves a node that was not found. */
static int save_not_found(struct saving *s, uint64_t number)
{
	struct grip grip;
	int failed;

	if (entry_of(s, number) != NOWHERE)
		return 0;
	if (!node_get(&s->all->nodes, number, &grip))
		failed = put_node(s, grip.node, grip.fd, nowhere);
	else
		return save_node(s, number);
	node_put(&grip);
	return failed;
}

/* Saves the nodes without a known path, by one search for all. */
static int save_sought(struct saving *s)
{
	const struct seeker seeker = { s, goes_on, known_to_search, enter_for_search, found_by_search };
	uint32_t nodes, files;
	struct search *search;
	int failed;

	if (!s->sought_count)
		return 0;
	nodes_count(&s->all->nodes, &nodes, &files);
	search = search_begin(&s->paths, s->sought, s->sought_count, NAMES + (uint64_t)NAMES_OF_NODE * nodes,
			      &seeker);
	if (!search)
		return state_refuse("out of memory");
	search_known(s, search);
	if (!search_is_over(search))
		search_below(search);
	if (search_is_cut(search))
		transport_say("nizwarf-share",
			      "migration: the directory has too many names to search all of them");
	search_end(search);
	failed = s->has_failed ? -1 : 0;
	for (size_t i = 0; i < s->sought_count && !failed; i++)
		failed = save_not_found(s, s->sought[i].number);
	return failed;
}

/* ---- mounts, open files, and the whole state */

/* Records a directory as that of its mount, unless one with a shorter path is known. */
static int note_mount(struct saving *s, uint64_t number)
{
	struct grip grip;
	struct statx seen;
	uint32_t at;
	char *path = NULL;

	if (node_get(&s->all->nodes, number, &grip))
		return 0;
	*s->path = 0;
	at = mount_number(s, grip.node->on);
	if (grip.node->type == S_IFDIR && !look_at(grip.fd, &seen) &&
	    (number == ROOT_NODE || find_path(&s->paths, grip.fd, &seen, s->path) >= 0) &&
	    (at == MOST_MOUNTS ? s->mount_count < MOST_MOUNTS : strlen(s->path) < strlen(s->mounts[at].path)))
		path = strdup(s->path);
	if (path && at == MOST_MOUNTS) {
		s->mounts[s->mount_count++] = (struct saved_mount){ grip.node->on, path };
	} else if (path) {
		free(s->mounts[at].path);
		s->mounts[at].path = path;
	}
	node_put(&grip);
	return 0;
}

/* With file handles, saves for each mount a directory with which the other server can open its handles. If a mount
 * has no directory among the nodes, its nodes are saved without a handle, and are lost. */
static int save_mounts(struct saving *s)
{
	int failed;

	if (!is_by_handles(s))
		return 0;
	s->mounts = calloc(MOST_MOUNTS, sizeof(*s->mounts));
	if (!s->mounts)
		return state_refuse("out of memory");
	failed = for_each_node(s, note_mount);
	for (size_t i = 0; i < s->mount_count && s->mounts[i].path && !failed; i++) {
		const size_t len = strlen(s->mounts[i].path);

		memcpy(s->record + STATE_RECORD, s->mounts[i].path, len);
		failed = put_record(s, STATE_MOUNT, len);
	}
	return failed;
}

/* Saves the open files. Their flags are the current ones, because O_APPEND and O_DIRECT may have changed since the
 * open. */
static int save_files(struct saving *s)
{
	struct nodes *nodes = &s->all->nodes;
	uint32_t place = 0;
	uint64_t number;
	int failed = 0;

	while (!failed && (number = file_next(nodes, &place))) {
		struct open_file *file = file_get(nodes, number);
		struct state_file result = { .number = number };
		int flags;

		if (!file)
			continue;
		flags = fcntl(file->counted.fd, F_GETFL);
		result.node = file->node;
		result.flags = (uint32_t)(flags & ~O_DIRECTORY) | (file->is_directory ? O_DIRECTORY : 0);
		failed = flags < 0 ?
				 state_refuse("cannot get the flags of an open file: %s", strerror(errno)) :
				 put_record(s, STATE_FILE,
					    state_encode_file(&result, s->record + STATE_RECORD));
		s->end.files++;
		file_put(file);
	}
	return failed;
}

static int save_header(struct saving *s)
{
	struct state_header header = { .version = STATE_VERSION,
				       .mode = s->all->options.migration_mode,
				       .agreed = atomic_load(&s->all->agreed) };

	if (!s->all->options.announce_submounts)
		header.agreed &= ~(uint64_t)FUSE_SUBMOUNTS;
	state_encode_header(&header, s->record);
	return put(s, s->record, STATE_HEADER);
}

/* The order is that of loading: mounts before the nodes whose handles they open, parents before their entries, and
 * nodes before their open files. Locks cannot be migrated: another process does not share the open file
 * description, and dropping them would deceive their owner. */
static int save_all(struct saving *s)
{
	if (s->all->locks && locks_are_held(s->all->locks))
		return state_refuse("the client holds locks of the host, which cannot be migrated");
	if (paths_begin(&s->paths, &s->all->nodes))
		return state_refuse("cannot find the path of the shared directory");
	/* (the shared directory is the first entry) */
	if (save_header(s) || save_mounts(s) || save_node(s, ROOT_NODE) || for_each_node(s, save_node) ||
	    save_sought(s) || save_files(s))
		return -1;
	/* (the sum covers everything before the end record) */
	if (put_record(s, STATE_END, state_encode_end(&s->end, s->record + STATE_RECORD)))
		return -1;
	if (s->lost)
		transport_say("nizwarf-share",
			      "migration: %zu files have no path in the directory or no handle", s->lost);
	return 0;
}

int passthrough_save(void *user, transport_state *to)
{
	struct saving *s = calloc(1, sizeof(*s));
	uint32_t nodes, files;
	int failed;

	if (!s)
		return state_refuse("out of memory");
	s->all = user;
	s->to = to;
	s->end.sum = STATE_FIRST_SUM;
	nodes_count(&s->all->nodes, &nodes, &files);
	s->most_ancestors = (size_t)nodes + STATE_SPARE_DIRECTORIES;
	failed = save_all(s);
	for (size_t i = 0; i < s->mount_count; i++)
		free(s->mounts[i].path);
	free(s->mounts);
	free(s->sought);
	free(s->ancestors);
	free(s->entry_of);
	free(s);
	return failed;
}
