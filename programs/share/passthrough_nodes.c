/* Nodes and open files of a passthrough: passthrough_nodes.h. Each is in a table as long as its number is valid,
 * and has a reference count: the table has a reference, and so has each call that uses it. Whoever drops the last
 * reference closes its descriptor and frees it. So a node that a client forgets, or a file that it releases,
 * exists until the calls that use it have returned.
 *
 * The lock of a table protects its slots and counters, the numbers of its objects, and for nodes the hash chains.
 * It is locked for reading to find an object and get a reference, or to increment an atomic lookup count; and for
 * writing to add or remove an object. No system call is made under it, and nothing is closed or freed, so that a
 * file system that does not respond blocks nobody who only looks up an object. The two locks are never held
 * together. */
#define _GNU_SOURCE
#include <errno.h>
#include <fcntl.h>
#include <limits.h>
#include <linux/openat2.h>
#include <malloc.h>
#include <stdio.h>
#include <stdlib.h>
#include <string.h>
#include <sys/file.h>
#include <sys/resource.h>
#include <sys/syscall.h>
#include <unistd.h>
#include "passthrough_backing.h"
#include "passthrough_mounts.h"
#include "passthrough_watch.h"
#include "say.h"

/* The initial numbers of slots and chains, which double when the table is full. No object uses slot 0, so that it
 * ends the free list. */
enum { FIRST_SLOTS = 1024, FIRST_CHAINS = 1024, NO_SLOT = 0 };
/* No number has this upper half. A slot that was used so often is retired, because its next number would be its
 * first one, which a client may still use. */
#define RETIRED UINT32_MAX
/* The largest upper half with which an unused slot begins after a state was loaded, so that one slot which was
 * used very often in the other server does not exhaust the numbers of all others. */
#define MOST_BEGINNING UINT32_C(0x80000000)
/* How many slots a state may create for open files: 32 MB. */
enum { MOST_FILE_SLOTS = 1 << 22 };
/* MANY: how many nodes must be removed at once for the memory to be returned to the system. LARGE: a size that the
 * C library neither caches when it is freed nor maps separately. */
enum { MANY = 65536, LARGE = 96 << 10 };

/* ---- tables */

static void table_begin(struct table *table)
{
	memset(table, 0, sizeof(*table));
	pthread_rwlock_init(&table->lock, NULL);
	/* (so that no number is 0) */
	table->used = 1;
}

static void table_end(struct table *table)
{
	pthread_rwlock_destroy(&table->lock);
	free(table->slots);
}

/* Returns the object of a used slot, or NULL. */
static struct counted *thing_in(const struct table *table, uint32_t at)
{
	const uint64_t slot = table->slots[at];

	return slot & 1 ? NULL : (struct counted *)(uintptr_t)slot;
}

/* Returns the object with this number, or NULL. The lock must be held. */
static struct counted *thing_of(const struct table *table, uint64_t number)
{
	const uint32_t at = (uint32_t)number;
	struct counted *thing = at && at < table->used ? thing_in(table, at) : NULL;

	return thing && thing->number == number ? thing : NULL;
}

/* Returns a reference to the object with this number, or NULL. Locking for reading is enough: the table has a
 * reference itself, so the count is not 0 while the object is in it. */
static struct counted *get(struct table *table, uint64_t number)
{
	struct counted *thing;

	pthread_rwlock_rdlock(&table->lock);
	thing = thing_of(table, number);
	if (thing)
		atomic_fetch_add(&thing->users, 1);
	pthread_rwlock_unlock(&table->lock);
	return thing;
}

/* Assigns a number to an object. Returns false if out of memory. The lock must be held. */
static bool add(struct table *table, struct counted *thing)
{
	/* The lower half of a number is its slot, and the upper half the number of earlier uses. So a freed object
	 * and the next one in its slot have different numbers, and an outdated number of a client is not valid. */
	uint32_t at = table->first_free;
	uint64_t uses = table->beginning;

	if (at != NO_SLOT) {
		uses = table->slots[at] >> 32;
		table->first_free = (uint32_t)table->slots[at] >> 1;
	} else {
		if (table->used >= table->size) {
			const size_t size = table->size ? 2 * (size_t)table->size : FIRST_SLOTS;
			uint64_t *more =
				/* (a free slot has 31 bits for the number of the next one) */
				size > UINT32_MAX / 2 ? NULL : realloc(table->slots, size * sizeof(*more));

			if (!more)
				return false;
			table->slots = more;
			table->size = (uint32_t)size;
		}
		at = table->used++;
	}
	table->slots[at] = (uintptr_t)thing;
	table->count++;
	thing->number = uses << 32 | at;
	return true;
}

/* Frees a slot. The lock must be held. The upper half of its next number is `uses`; if there is none, the slot is
 * retired, that is, in no list. */
static void free_slot(struct table *table, uint32_t at, uint64_t uses)
{
	if (uses >= RETIRED) {
		table->slots[at] = (uint64_t)RETIRED << 32 | 1;
		return;
	}
	table->slots[at] = uses << 32 | (uint64_t)table->first_free << 1 | 1;
	table->first_free = at;
}

/* Removes an object from the table. The lock must be held. Its number is not reused. */
static void take(struct table *table, const struct counted *thing)
{
	free_slot(table, (uint32_t)thing->number, (thing->number >> 32) + 1);
	table->count--;
}

/* Returns the number of the next object after a place; 0: there is none. */
static uint64_t next_in(struct table *table, uint32_t *place)
{
	const struct counted *thing = NULL;
	uint64_t number = 0;

	pthread_rwlock_rdlock(&table->lock);
	while (!thing && ++*place < table->used)
		thing = thing_in(table, *place);
	if (thing)
		number = thing->number;
	pthread_rwlock_unlock(&table->lock);
	return number;
}

/* Starts the loading of a state: no slot is reused until settle(), and free slots after the last object are
 * dropped. */
static void begin_placing(struct table *table)
{
	pthread_rwlock_wrlock(&table->lock);
	while (table->used > 1 && !thing_in(table, table->used - 1))
		table->used--;
	table->first_free = NO_SLOT;
	table->most_uses = table->beginning = 0;
	pthread_rwlock_unlock(&table->lock);
}

/* Grows a table up to a slot. The lock must be held. Returns 0 or ENOMEM. The number comes from another server, so
 * the caller must have checked that the slot is not too large. */
static int reach(struct table *table, uint32_t at)
{
	size_t size = table->size ? table->size : FIRST_SLOTS;

	while (size <= at)
		size *= 2;
	if (size > table->size) {
		uint64_t *more = size > UINT32_MAX / 2 ? NULL : realloc(table->slots, size * sizeof(*more));

		if (!more)
			return ENOMEM;
		table->slots = more;
		table->size = (uint32_t)size;
	}
	/* (the slots in between are free, but not in the list of free ones until settle()) */
	for (; table->used <= at; table->used++)
		table->slots[table->used] = 1;
	return 0;
}

/* Notes the upper half of another server's number. The lock must be held. */
static void note_uses(struct table *table, uint64_t number)
{
	const uint32_t uses = (uint32_t)(number >> 32);

	table->most_uses = uses > table->most_uses ? uses : table->most_uses;
}

/* Adds an object with its number. Returns 0 or an error. The lock must be held. */
static int place_in(struct table *table, struct counted *thing, uint64_t number)
{
	const uint32_t at = (uint32_t)number;
	const int error = reach(table, at);

	if (error)
		return error;
	if (thing_in(table, at))
		return EEXIST;
	table->slots[at] = (uintptr_t)thing;
	table->count++;
	note_uses(table, number);
	thing->number = number;
	return 0;
}

/* Makes a number permanently invalid: the next number of its slot is above it. Returns 0 or ENOMEM. A slot above
 * `most` is never used. */
static int lose_in(struct table *table, uint64_t number, uint32_t most)
{
	const uint32_t at = (uint32_t)number;
	const uint64_t next = (number >> 32) + 1;
	int error = 0;

	pthread_rwlock_wrlock(&table->lock);
	note_uses(table, number);
	if (at <= most && !(error = reach(table, at)) && !thing_in(table, at) &&
	    table->slots[at] >> 32 < next)
		table->slots[at] = next << 32 | 1;
	pthread_rwlock_unlock(&table->lock);
	return error;
}

/* Ends the loading of a state: free slots may be used again. A number of the state never becomes that of another
 * object, because its slot continues above it. The other server may have used numbers before that are not in the
 * state. Only the state's largest upper half shows them, so all slots continue above that, up to MOST_BEGINNING. */
static void settle(struct table *table)
{
	pthread_rwlock_wrlock(&table->lock);
	table->beginning = table->most_uses < MOST_BEGINNING ? table->most_uses + 1 : MOST_BEGINNING;
	table->first_free = NO_SLOT;
	for (uint32_t at = table->used; --at > 0;) {
		uint64_t uses;

		if (thing_in(table, at))
			continue;
		uses = table->slots[at] >> 32;
		free_slot(table, at, uses > table->beginning ? uses : table->beginning);
	}
	pthread_rwlock_unlock(&table->lock);
}

/* ---- descriptors */

/* It increments before it checks, so that two threads together do not exceed the limit. */
int fd_reserve(struct nodes *all, unsigned count)
{
	if (atomic_fetch_add(&all->kept, count) + count <= all->most_kept)
		return 0;
	fd_give_back(all, count);
	return EMFILE;
}

void fd_give_back(struct nodes *all, unsigned count)
{
	atomic_fetch_sub(&all->kept, count);
}

void fd_let_go(struct nodes *all, int fd)
{
	close(fd);
	fd_give_back(all, 1);
}

int node_reserve(struct nodes *all)
{
	int error = 0;

	if (atomic_fetch_add(&all->places, 1) >= all->most_nodes) {
		error = ENFILE;
		/* (only once, because a client may cause this as often as it likes) */
		if (!atomic_flag_test_and_set(&all->said_most))
			transport_say(
				"nizwarf-share",
				"warning: the client has reached --node-limit=%u: calls that need another file fail with ENFILE",
				all->most_nodes);
	}
	if (!error)
		error = fd_reserve(all, 1);
	if (error)
		atomic_fetch_sub(&all->places, 1);
	return error;
}

void node_give_back(struct nodes *all)
{
	fd_give_back(all, 1);
	atomic_fetch_sub(&all->places, 1);
}

/* Closes the descriptor of a file that does not become a new node. */
static void node_let_go(struct nodes *all, int fd)
{
	close(fd);
	node_give_back(all);
}

/* ---- nodes */

/* Returns the handle of a node, or NULL; and the name by which it was found. */
static struct file_handle *handle_in(const struct node *node)
{
	return node->handle_size ? (struct file_handle *)(uintptr_t)node->rest : NULL;
}

static const char *name_in(const struct node *node)
{
	return node->rest + node->handle_size;
}

/* Drops a reference. The last one frees the node, which nobody else can find, so no lock is needed. */
static void free_node(struct node *node)
{
	struct nodes *all;

	if (!node || atomic_fetch_sub(&node->counted.users, 1) > 1)
		return;
	all = node->on->of;
	if (node->watched)
		watch_remove(all->watch, node->watched, node->counted.fd);
	if (node->counted.fd >= 0)
		fd_let_go(all, node->counted.fd);
	if (node->handle_size)
		mount_let_go(node->on);
	mount_put(node->on);
	free(node);
	atomic_fetch_sub(&all->places, 1);
}

struct fd_name name_fd(int fd)
{
	struct fd_name name;

	snprintf(name.bytes, sizeof(name.bytes), "%d", fd);
	return name;
}

int open_again(const struct nodes *all, int fd, int flags)
{
	/* (the name in /proc/self/fd is a link that must be followed; the file itself was opened without following
	 * links) */
	return openat(all->proc, name_fd(fd).bytes, (flags & ~O_NOFOLLOW) | O_CLOEXEC);
}

int node_hold(struct nodes *all, uint64_t number, struct grip *grip)
{
	grip->node = (struct node *)get(&all->nodes, number);
	/* (also -1 if the node has a handle, which node_get() opens) */
	grip->fd = grip->node ? grip->node->counted.fd : -1;
	grip->own = -1;
	return grip->node ? 0 : ESTALE;
}

int node_get(struct nodes *all, uint64_t number, struct grip *grip)
{
	int error = node_hold(all, number, grip);

	if (error || grip->fd >= 0)
		return error;
	grip->fd = grip->own = open_by_handle(grip->node->on, handle_in(grip->node));
	if (grip->fd >= 0)
		return 0;
	error = errno;
	/* (its last name may have been removed meanwhile, and node_keep() has opened it) */
	grip->fd = grip->node->counted.fd;
	if (grip->fd >= 0)
		return 0;
	node_put(grip);
	return error;
}

void node_put(struct grip *grip)
{
	if (grip->own >= 0)
		close(grip->own);
	free_node(grip->node);
	grip->node = NULL;
	grip->own = -1;
}

/* Returns the chain of a file. Inode numbers are often consecutive: the upper half of a product spreads them. */
static struct node **chain_of(const struct nodes *all, uint64_t device, uint64_t inode)
{
	const uint64_t mixed = (inode + device * 31) * UINT64_C(0x9e3779b97f4a7c15);

	return &all->chains[(mixed >> 32) % all->chain_count];
}

/* Returns whether two handles are equal, which only their bytes show. */
static bool same_handle(const struct file_handle *a, const struct file_handle *b)
{
	return a && b && a->handle_type == b->handle_type && a->handle_bytes == b->handle_bytes &&
	       !memcmp(a->f_handle, b->f_handle, a->handle_bytes);
}

/* Returns whether a node has these numbers, including the mount. That does not prove that it is the same file:
 * known(). */
static bool is_of(const struct node *node, const struct statx *seen)
{
	return node->inode == seen->stx_ino && !is_across(node, seen);
}

/* Returns the node of a file, or NULL. The lock must be held. A node with a handle is compared by that, because
 * inode numbers are reused, unless a descriptor keeps the file. */
static struct node *known(const struct nodes *all, const struct statx *seen, const struct file_handle *handle)
{
	struct node *node = *chain_of(all, device_of(seen), seen->stx_ino);

	while (node &&
	       (!is_of(node, seen) || (node->counted.fd < 0 && !same_handle(handle_in(node), handle))))
		node = node->next;
	return node;
}

/* Returns whether a node with one of these numbers has a handle; with the lock held, and without. */
static bool is_by_handle(const struct nodes *all, const struct statx *seen)
{
	const struct node *node = *chain_of(all, device_of(seen), seen->stx_ino);

	while (node && (!is_of(node, seen) || node->counted.fd >= 0))
		node = node->next;
	return node != NULL;
}

static bool some_handle(struct nodes *all, const struct statx *seen)
{
	bool is_some;

	/* (if handles are disabled) */
	if (all->handles_from == UINT_MAX)
		return false;
	pthread_rwlock_rdlock(&all->nodes.lock);
	is_some = is_by_handle(all, seen);
	pthread_rwlock_unlock(&all->nodes.lock);
	return is_some;
}

/* For an entry that was read from a directory only device and inode are known, and not the mount. */
bool node_may_be_known(struct nodes *all, const struct node *directory, uint64_t inode)
{
	struct node *node;

	pthread_rwlock_rdlock(&all->nodes.lock);
	node = *chain_of(all, directory->on->device, inode);
	/* (an entry on another device is a mount point, which is not found) */
	while (node && (node->inode != inode || node->on->device != directory->on->device))
		node = node->next;
	pthread_rwlock_unlock(&all->nodes.lock);
	return node != NULL;
}

/* Returns whether a file is about to lose its last name. (Two workers that remove two names of one file at once
 * may both see two.) */
static bool is_last_name(const struct statx *seen)
{
	return S_ISDIR(seen->stx_mode) || seen->stx_nlink <= 1;
}

/* Makes the node that has this handle keep a descriptor, unless it has one. Returns a reference to it, or NULL.
 * The lock for writing is required, because a lookup compares handles only for nodes without a descriptor. */
static struct node *keep_by_handle(struct nodes *all, int fd, const struct statx *seen,
				   const struct file_handle *handle)
{
	struct node *node;

	pthread_rwlock_wrlock(&all->nodes.lock);
	node = known(all, seen, handle);
	if (node && node->counted.fd >= 0)
		node = NULL;
	if (node) {
		node->counted.fd = fd;
		atomic_fetch_add(&node->counted.users, 1);
	}
	pthread_rwlock_unlock(&all->nodes.lock);
	return node;
}

struct node *node_keep(struct nodes *all, int directory, const char *name)
{
	enum { WHAT = STATX_BASIC_STATS | STATX_MNT_ID };
	struct node *node = NULL;
	union handle_room room;
	struct statx seen;
	int fd;

	/* (most files are not known, so nothing is opened for them) */
	if (all->handles_from == UINT_MAX ||
	    statx(directory, name, AT_SYMLINK_NOFOLLOW | AT_NO_AUTOMOUNT, WHAT, &seen) ||
	    !is_last_name(&seen) || !some_handle(all, &seen) || fd_reserve(all, 1))
		return NULL;
	fd = openat(directory, name, O_PATH | O_NOFOLLOW | O_CLOEXEC);
	/* (another file may have the name by now) */
	if (fd >= 0 && !statx(fd, "", AT_EMPTY_PATH, WHAT, &seen) && handle_by(fd, &room))
		node = keep_by_handle(all, fd, &seen, &room.handle);
	if (!node && fd >= 0)
		close(fd);
	if (!node)
		fd_give_back(all, 1);
	return node;
}

void node_kept(struct nodes *all, struct node *node, bool is_removed)
{
	struct stat seen;
	int fd = -1;

	if (!node)
		return;
	/* (another call, or a program of the host, may have removed the last name meanwhile) */
	if (fstat(node->counted.fd, &seen) || !seen.st_nlink)
		is_removed = true;
	/* (if only the table and this call refer to the node, nobody uses the descriptor: the next user opens the
	 * handle) */
	pthread_rwlock_wrlock(&all->nodes.lock);
	if (!is_removed && atomic_load(&node->counted.users) == 2 &&
	    thing_of(&all->nodes, node->counted.number) == &node->counted) {
		fd = node->counted.fd;
		node->counted.fd = -1;
	}
	pthread_rwlock_unlock(&all->nodes.lock);
	if (fd >= 0)
		fd_let_go(all, fd);
	free_node(node);
}

int node_look_up(struct nodes *all, unsigned client, struct node *node)
{
	bool is_there;

	/* (so that no node is removed meanwhile) */
	pthread_rwlock_rdlock(&all->nodes.lock);
	is_there = is_client(all, client) && thing_of(&all->nodes, node->counted.number) == &node->counted;
	if (is_there)
		atomic_fetch_add(&node->lookups, 1);
	pthread_rwlock_unlock(&all->nodes.lock);
	return is_there ? 0 : ESTALE;
}

/* Doubles the number of chains, if there is memory. The lock must be held. */
static void grow_chains(struct nodes *all)
{
	const uint32_t count = all->chain_count, doubled = 2 * count;
	struct node **old = all->chains, **more;

	more = count < UINT32_MAX / 4 ? calloc(doubled, sizeof(struct node *)) : NULL;
	/* (longer chains are only slower) */
	if (!more)
		return;
	all->chains = more;
	all->chain_count = doubled;
	for (uint32_t i = 0; i < count; i++) {
		struct node *node = old[i], *next;

		for (; node; node = next) {
			struct node **chain = chain_of(all, node->on->device, node->inode);

			next = node->next;
			node->next = *chain;
			*chain = node;
		}
	}
	free(old);
}

/* Adds a node to its chain. The lock must be held. */
static void enchain(struct nodes *all, struct node *node)
{
	struct node **chain;

	if (all->nodes.count > all->chain_count)
		grow_chains(all);
	chain = chain_of(all, node->on->device, node->inode);
	node->next = *chain;
	*chain = node;
}

/* Increments the lookup count of a known node and returns its number; or 0. The lock must be held. */
static uint64_t add_to_known(const struct nodes *all, unsigned client, const struct statx *seen,
			     const struct file_handle *handle)
{
	struct node *node = known(all, seen, handle);

	if (!is_client(all, client))
		return OF_NOBODY;
	if (!node)
		return 0;
	atomic_fetch_add(&node->lookups, 1);
	return node->counted.number;
}

/* The same, with the lock for reading, which prevents that the node is removed. */
static uint64_t find_known(struct nodes *all, unsigned client, const struct statx *seen,
			   const struct file_handle *handle)
{
	uint64_t number;

	pthread_rwlock_rdlock(&all->nodes.lock);
	number = add_to_known(all, client, seen, handle);
	pthread_rwlock_unlock(&all->nodes.lock);
	return number;
}

/* Increments the lookup count of a known node; or else adds `*made`, and sets it to NULL. It adds nothing if no
 * handle is passed although the file may be known by one. Returns the number of the node, or 0. */
static uint64_t add_lookup(struct nodes *all, unsigned client, const struct statx *seen,
			   const struct file_handle *handle, struct node **made)
{
	uint64_t number;

	pthread_rwlock_wrlock(&all->nodes.lock);
	number = add_to_known(all, client, seen, handle);
	if (!number && (handle || !is_by_handle(all, seen)) && add(&all->nodes, &(*made)->counted)) {
		enchain(all, *made);
		number = (*made)->counted.number;
		if ((*made)->watched)
			watch_name((*made)->watched, number);
		*made = NULL;
	}
	pthread_rwlock_unlock(&all->nodes.lock);
	return number;
}

uint64_t node_find(struct nodes *all, unsigned client, const struct statx *seen)
{
	return find_known(all, client, seen, NULL);
}

/* The same for an open file that became known by a handle meanwhile; or adds `*made`, if that is not NULL. */
static uint64_t add_opened(struct nodes *all, unsigned client, int fd, const struct statx *seen,
			   struct node **made)
{
	union handle_room room;

	if (!some_handle(all, seen) || !handle_by(fd, &room))
		return 0;
	return made ? add_lookup(all, client, seen, &room.handle, made) :
		      find_known(all, client, seen, &room.handle);
}

uint64_t node_find_opened(struct nodes *all, unsigned client, int fd, const struct statx *seen)
{
	const uint64_t number = node_find(all, client, seen);

	return number ? number : add_opened(all, client, fd, seen, NULL);
}

/* add_lookup() for a node with a descriptor. Another worker may have added the file with a handle meanwhile. */
static uint64_t add_made(struct nodes *all, unsigned client, const struct statx *seen, struct node **made)
{
	const int fd = (*made)->counted.fd;
	const uint64_t number = add_lookup(all, client, seen, handle_in(*made), made);

	return !number && *made && fd >= 0 ? add_opened(all, client, fd, seen, made) : number;
}

/* Returns the size of the name by which a file may be opened, or 0. */
static size_t name_size(const struct nodes *all, const struct found *found, const struct host_mount *on,
			const struct statx *seen)
{
	return found->node && found->name && all->named_mount && on->id == all->named_mount &&
			       (S_ISREG(seen->stx_mode) || S_ISDIR(seen->stx_mode)) ?
		       strlen(found->name) + 1 :
		       0;
}

/* Watches the file of a node with a descriptor, if possible. */
static void watch_node(struct nodes *all, struct node *node)
{
	if (all->watch && all->watched_device && node->on->device == all->watched_device)
		node->watched = watch_add(all->watch, node->counted.fd, node->type == S_IFDIR);
}

void nodes_watch(struct nodes *all, struct watch *watch, uint64_t device)
{
	struct node *root = (struct node *)thing_of(&all->nodes, ROOT_NODE);

	all->watch = watch;
	all->watched_device = device;
	watch_node(all, root);
	if (root->watched)
		watch_name(root->watched, ROOT_NODE);
}

/* Creates a node for a file, with its handle if that can be opened, or else with the descriptor. It takes over the
 * descriptor and the reservation. Returns 0 or an error. */
static int make(struct nodes *all, const struct found *found, int fd, const struct statx *seen,
		struct file_handle *handle, struct node **made)
{
	struct host_mount *on = mount_take(all, found, seen);
	const bool is_held = on && handle && mount_hold(on, found, fd, seen, handle);
	const size_t of_handle = is_held ? sizeof(*handle) + handle->handle_bytes : 0;
	const size_t of_name = on ? name_size(all, found, on, seen) : 0;
	const int error = on && !is_held && all->handles_alone ? EOPNOTSUPP : ENOMEM;
	/* (one piece of memory: the handle and the name are in `rest`, after the node) */
	struct node *node = on && error == ENOMEM ? calloc(1, sizeof(*node) + of_handle + of_name) : NULL;

	*made = node;
	if (!node) {
		if (is_held)
			mount_let_go(on);
		if (on)
			mount_put(on);
		node_let_go(all, fd);
		return error;
	}
	atomic_init(&node->counted.users, 1);
	atomic_init(&node->lookups, 1);
	node->counted.fd = is_held ? -1 : fd;
	node->inode = seen->stx_ino;
	node->on = on;
	node->type = seen->stx_mode & S_IFMT;
	node->is_apart = found->node && found->node->on != on && !S_ISDIR(seen->stx_mode);
	node->handle_size = (uint8_t)of_handle;
	if (of_handle)
		memcpy(node->rest, handle, of_handle);
	if (of_name) {
		node->directory = found->node->counted.number;
		memcpy(node->rest + of_handle, found->name, of_name);
	}
	if (is_held)
		/* (a handle stays valid without the descriptor, so a node that has one keeps none) */
		fd_let_go(all, fd);
	else
		watch_node(all, node);
	return 0;
}

int open_by_name(struct nodes *all, struct node *node, int flags)
{
	/* (no pipe blocks, no device is opened, and no mount point) */
	struct open_how how = { .flags = (uint64_t)(flags | O_NOFOLLOW | O_NONBLOCK | O_NOCTTY | O_CLOEXEC),
				.resolve = RESOLVE_NO_XDEV | RESOLVE_NO_SYMLINKS };
	struct grip directory;
	struct stat seen;
	int fd = -1;

	/* (a file that is truncated must be checked before) */
	if (!node->directory || flags & O_TRUNC || atomic_load(&node->is_elsewhere) ||
	    node_hold(all, node->directory, &directory))
		return -1;
	if (directory.fd >= 0)
		fd = (int)syscall(SYS_openat2, directory.fd, name_in(node), &how, sizeof(how));
	node_put(&directory);
	/* (another file may have the name by now) */
	if (fd >= 0 && !fstat(fd, &seen) && seen.st_ino == node->inode && seen.st_dev == node->on->device)
		return fd;
	if (fd >= 0)
		close(fd);
	/* (it was renamed, or may not be opened by its name: this is not tried again) */
	atomic_store(&node->is_elsewhere, true);
	return -1;
}

/* Returns the handle of a file, if handles are enabled and it has one; or NULL. */
static struct file_handle *handle_wanted(struct nodes *all, int fd, const struct statx *seen,
					 union handle_room *room)
{
	/* (a file without a name cannot be opened by its handle) */
	const bool by_handle =
		seen->stx_nlink && (atomic_load(&all->kept) > all->handles_from || some_handle(all, seen));

	return by_handle && handle_by(fd, room) ? &room->handle : NULL;
}

int node_enter(struct nodes *all, unsigned client, const struct found *found, int fd,
	       const struct statx *seen, uint64_t *number, bool *is_new)
{
	union handle_room room;
	struct file_handle *handle = handle_wanted(all, fd, seen, &room);
	struct node *made;
	int error;

	*number = handle ? find_known(all, client, seen, handle) : 0;
	/* (a file that is known by its handle is not found without one either) */
	if (is_new && *number)
		*is_new = true;
	if (*number) {
		node_let_go(all, fd);
		return 0;
	}
	/* (before the lock is taken, because no system call may be made under it) */
	error = make(all, found, fd, seen, handle, &made);
	if (error)
		return error;
	*number = add_made(all, client, seen, &made);
	if (is_new && !made)
		*is_new = true;
	free_node(made);
	return *number ? 0 : ENOMEM;
}

uint64_t node_number(struct nodes *all, int fd, const struct statx *seen)
{
	union handle_room room;
	const bool has_handle = some_handle(all, seen) && handle_by(fd, &room);
	const struct node *node;
	uint64_t number;

	pthread_rwlock_rdlock(&all->nodes.lock);
	node = known(all, seen, has_handle ? &room.handle : NULL);
	number = node ? node->counted.number : 0;
	pthread_rwlock_unlock(&all->nodes.lock);
	return number;
}

int node_restore(struct nodes *all, int fd, const struct statx *seen, uint64_t number, uint64_t lookups,
		 bool is_apart)
{
	const struct node *root = (struct node *)thing_of(&all->nodes, ROOT_NODE);
	const struct found somewhere = { root->counted.fd, root, NULL };
	struct file_handle *handle;
	union handle_room room;
	struct node *made;
	/* (the slot comes from the other server's state: a large one would require as large a table) */
	int error = (uint32_t)number > all->most_nodes ? ENFILE : node_reserve(all);

	if (error) {
		close(fd);
		return error;
	}
	handle = handle_wanted(all, fd, seen, &room);
	error = make(all, &somewhere, fd, seen, handle, &made);
	if (error)
		return error;
	atomic_store(&made->lookups, lookups);
	/* (make() compared its mount with the root's, and not with that of its directory) */
	made->is_apart = is_apart;
	pthread_rwlock_wrlock(&all->nodes.lock);
	/* (if both names lead to one file since the state was saved, the second node is lost) */
	error = known(all, seen, handle) ? EXDEV : place_in(&all->nodes, &made->counted, number);
	if (!error)
		enchain(all, made);
	pthread_rwlock_unlock(&all->nodes.lock);
	if (error)
		free_node(made);
	return error;
}

/* Removes a node from its chain and the table. The lock must be held. */
static void detach(struct nodes *all, struct node *node)
{
	struct node **at = chain_of(all, node->on->device, node->inode);

	while (*at != node)
		at = &(*at)->next;
	*at = node->next;
	take(&all->nodes, &node->counted);
}

void node_forget(struct nodes *all, unsigned client, uint64_t number, uint64_t count)
{
	struct node *node = NULL;

	pthread_rwlock_wrlock(&all->nodes.lock);
	if (number != ROOT_NODE && is_client(all, client))
		node = (struct node *)thing_of(&all->nodes, number);
	/* (a client that sends too large a count loses only this node) */
	if (node && atomic_load(&node->lookups) > count) {
		atomic_fetch_sub(&node->lookups, count);
		node = NULL;
	} else if (node) {
		detach(all, node);
	}
	pthread_rwlock_unlock(&all->nodes.lock);
	/* (no system call is made under the lock) */
	free_node(node);
}

/* Returns free memory to the system. The C library keeps small pieces, even many of them; and those at the end of
 * a thread's heap are returned only with a large one. */
static void trim_heap(void)
{
	/* (volatile, so that the compiler does not remove both calls) */
	void *volatile large = malloc(LARGE);

	free(large);
	malloc_trim(0);
}

/* Removes all nodes except the root from the table, and returns them as a list with their number; or NULL, if the
 * client has disconnected. */
static struct node *take_nodes(struct nodes *all, unsigned client, uint32_t *count)
{
	struct node *gone = NULL;

	pthread_rwlock_wrlock(&all->nodes.lock);
	*count = is_client(all, client) ? all->nodes.count : 0;
	/* (the root stays) */
	for (uint32_t i = ROOT_NODE + 1; *count && i < all->nodes.used && all->nodes.count > 1; i++) {
		struct node *node = (struct node *)thing_in(&all->nodes, i);

		if (!node)
			continue;
		detach(all, node);
		node->next = gone;
		gone = node;
	}
	pthread_rwlock_unlock(&all->nodes.lock);
	return gone;
}

/* The same for open files. */
static struct open_file *take_files(struct nodes *all, unsigned client)
{
	struct open_file *gone = NULL;
	bool is_late;

	pthread_rwlock_wrlock(&all->files.lock);
	is_late = !is_client(all, client);
	for (uint32_t i = 1; !is_late && i < all->files.used && all->files.count; i++) {
		struct open_file *file = (struct open_file *)thing_in(&all->files, i);

		if (!file)
			continue;
		take(&all->files, &file->counted);
		file->next = gone;
		gone = file;
	}
	pthread_rwlock_unlock(&all->files.lock);
	return gone;
}

void nodes_take_all(struct nodes *all, unsigned client, struct gone *gone)
{
	gone->file = take_files(all, client);
	gone->node = take_nodes(all, client, &gone->count);
}

void nodes_let_go(struct gone *gone)
{
	struct node *next;

	for (struct node *node = gone->node; node; node = next) {
		next = node->next;
		free_node(node);
	}
	if (gone->count >= MANY)
		trim_heap();
}

void files_let_go(struct gone *gone)
{
	struct open_file *next;

	/* (the next client must not meet locks of files that are closed late or are still used by a call) */
	for (struct open_file *file = gone->file; file; file = file->next)
		if (atomic_load(&file->has_flock))
			flock(file->counted.fd, LOCK_UN);
	for (struct open_file *file = gone->file; file; file = next) {
		next = file->next;
		file_put(file);
	}
}

void nodes_forget_all(struct nodes *all, unsigned client)
{
	struct gone gone;

	nodes_take_all(all, client, &gone);
	nodes_let_go(&gone);
	files_let_go(&gone);
}

void nodes_empty(struct nodes *all)
{
	nodes_forget_all(all, client_now(all));
	begin_placing(&all->nodes);
	begin_placing(&all->files);
}

void nodes_settle(struct nodes *all)
{
	settle(&all->nodes);
	settle(&all->files);
}

int node_lose(struct nodes *all, uint64_t number)
{
	return lose_in(&all->nodes, number, all->most_nodes);
}

/* The largest slot of an open file of another server. */
static uint32_t most_file_slots(const struct nodes *all)
{
	return all->most_kept < MOST_FILE_SLOTS ? all->most_kept : MOST_FILE_SLOTS;
}

int file_lose(struct nodes *all, uint64_t number)
{
	return lose_in(&all->files, number, most_file_slots(all));
}

bool is_number(uint64_t number)
{
	return (uint32_t)number != NO_SLOT && number >> 32 != RETIRED;
}

uint64_t node_found_in(const struct node *node, const char **name)
{
	*name = node->directory ? name_in(node) : NULL;
	return node->directory;
}

struct file_handle *node_handle(const struct node *node)
{
	return handle_in(node);
}

uint64_t node_next(struct nodes *all, uint32_t *place)
{
	return next_in(&all->nodes, place);
}

uint64_t file_next(struct nodes *all, uint32_t *place)
{
	return next_in(&all->files, place);
}

/* How many descriptors may be kept, if `others` are used otherwise: a quarter of the limit at least. */
static unsigned most_to_keep(unsigned others)
{
	struct rlimit limit;
	unsigned may_be;

	if (getrlimit(RLIMIT_NOFILE, &limit) || limit.rlim_cur > INT_MAX)
		return INT_MAX;
	/* (the soft limit, which share.c has raised as far as possible) */
	may_be = (unsigned)limit.rlim_cur;
	return may_be / 4 + others < may_be ? may_be - others : may_be / 4;
}

int nodes_begin(struct nodes *all, int root, int proc, enum file_handles handles, bool no_devices,
		unsigned most, unsigned others)
{
	/* (the root has no directory and no name) */
	const struct found nowhere = { -1, NULL, NULL };
	struct statx seen;
	uint64_t number;

	memset(all, 0, sizeof(*all));
	table_begin(&all->nodes);
	table_begin(&all->files);
	pthread_mutex_init(&all->mounts_lock, NULL);
	all->proc = proc;
	all->chains = calloc(FIRST_CHAINS, sizeof(struct node *));
	all->chain_count = FIRST_CHAINS;
	if (!all->chains || statx(root, "", AT_EMPTY_PATH, STATX_BASIC_STATS | STATX_MNT_ID, &seen))
		return -1;
	/* The root always has a descriptor. */
	all->handles_from = UINT_MAX;
	all->most_kept = most_to_keep(others);
	all->most_nodes = most;
	atomic_flag_clear(&all->said_most);
	if (node_reserve(all) || node_enter(all, 0, &nowhere, root, &seen, &number, NULL))
		return -1;
	all->named_mount = no_devices ? mount_of(&seen) : 0;
	all->handles_alone = handles == HANDLES_ALONE;
	if (handles == HANDLES_PREFERRED || handles == HANDLES_ALONE)
		all->handles_from = 0;
	return 0;
}

void nodes_end(struct nodes *all)
{
	nodes_forget_all(all, client_now(all));
	free_node((struct node *)thing_of(&all->nodes, ROOT_NODE));
	table_end(&all->nodes);
	table_end(&all->files);
	pthread_mutex_destroy(&all->mounts_lock);
	free(all->chains);
}

/* ---- open files */

static struct open_file *new_file(struct nodes *all, uint64_t node, int fd, int flags,
				  struct backing *backing)
{
	struct open_file *file = calloc(1, sizeof(*file));

	if (!file)
		return NULL;
	atomic_init(&file->counted.users, 1);
	file->of = all;
	file->node = node;
	file->counted.fd = fd;
	file->is_directory = flags & O_DIRECTORY;
	file->at_end = flags & O_APPEND;
	atomic_init(&file->is_direct, flags & O_DIRECT);
	file->backing = backing;
	pthread_mutex_init(&file->lock, NULL);
	pthread_rwlock_init(&file->writing, NULL);
	return file;
}

uint64_t file_add(struct nodes *all, unsigned client, uint64_t node, int fd, int flags,
		  struct backing *backing)
{
	struct open_file *file = new_file(all, node, fd, flags, backing);
	uint64_t number = 0;

	if (file) {
		pthread_rwlock_wrlock(&all->files.lock);
		/* (once the lock is released, a client that guesses the number may have released the file) */
		if (!is_client(all, client))
			number = OF_NOBODY;
		else if (add(&all->files, &file->counted))
			number = file->counted.number;
		pthread_rwlock_unlock(&all->files.lock);
	}
	/* (without a number the caller keeps the descriptor) */
	if (!number)
		free(file);
	else if (number == OF_NOBODY)
		file_put(file);
	return number;
}

int file_restore(struct nodes *all, uint64_t node, int fd, int flags, uint64_t number)
{
	struct open_file *file = NULL;
	int error = (uint32_t)number > most_file_slots(all) ? EMFILE : 0;

	if (!error && !(file = new_file(all, node, fd, flags, NULL)))
		error = ENOMEM;
	if (!error) {
		pthread_rwlock_wrlock(&all->files.lock);
		error = place_in(&all->files, &file->counted, number);
		pthread_rwlock_unlock(&all->files.lock);
	}
	if (error)
		free(file);
	return error;
}

struct open_file *file_get(struct nodes *all, uint64_t number)
{
	return (struct open_file *)get(&all->files, number);
}

struct open_file *file_share(struct open_file *file)
{
	atomic_fetch_add(&file->counted.users, 1);
	return file;
}

bool files_have_flock(struct nodes *all)
{
	const struct open_file *file;
	bool have = false;

	pthread_rwlock_rdlock(&all->files.lock);
	for (uint32_t i = 1; i < all->files.used && !have; i++) {
		file = (const struct open_file *)thing_in(&all->files, i);
		have = file && atomic_load(&file->has_flock);
	}
	pthread_rwlock_unlock(&all->files.lock);
	return have;
}

struct open_file *file_with_flock(struct nodes *all, const struct open_file *other, uint64_t owner)
{
	struct open_file *file, *found = NULL;

	pthread_rwlock_rdlock(&all->files.lock);
	for (uint32_t i = 1; i < all->files.used && !found; i++) {
		file = (struct open_file *)thing_in(&all->files, i);
		if (file && file != other && file->node == other->node && atomic_load(&file->has_flock) &&
		    atomic_load(&file->flock_owner) == owner)
			found = file_share(file);
	}
	pthread_rwlock_unlock(&all->files.lock);
	return found;
}

void file_put(struct open_file *file)
{
	/* (RELEASE removes it from the table; a READ in flight keeps it until it returns) */
	if (!file || atomic_fetch_sub(&file->counted.users, 1) > 1)
		return;
	if (file->buffer)
		atomic_fetch_sub(&file->of->buffers, 1);
	backing_put(file->backing);
	fd_let_go(file->of, file->counted.fd);
	pthread_mutex_destroy(&file->lock);
	pthread_rwlock_destroy(&file->writing);
	free(file->buffer);
	free(file);
}

int file_release(struct nodes *all, unsigned client, uint64_t number)
{
	struct counted *file;

	pthread_rwlock_wrlock(&all->files.lock);
	file = is_client(all, client) ? thing_of(&all->files, number) : NULL;
	if (file)
		take(&all->files, file);
	pthread_rwlock_unlock(&all->files.lock);
	file_put((struct open_file *)file);
	return file ? 0 : EBADF;
}

void nodes_count(struct nodes *all, uint32_t *nodes, uint32_t *files)
{
	pthread_rwlock_rdlock(&all->nodes.lock);
	*nodes = all->nodes.count;
	pthread_rwlock_unlock(&all->nodes.lock);
	pthread_rwlock_rdlock(&all->files.lock);
	*files = all->files.count;
	pthread_rwlock_unlock(&all->files.lock);
}
