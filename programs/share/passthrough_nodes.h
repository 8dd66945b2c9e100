/* The state that a passthrough keeps for its client: nodes with their lookup counts, and open files, both
 * identified by numbers. A client may send any number: one that was invented, or whose node or file has gone, is
 * not found.
 *
 * A node is a file of the host, identified by device, inode and mount. It keeps a descriptor opened with O_PATH,
 * which does not open the file itself. If file handles are enabled and the host's file system supports them, it
 * keeps a handle instead, and each call opens the file. All functions are thread-safe. */
#ifndef PASSTHROUGH_NODES_H
#define PASSTHROUGH_NODES_H

#include <pthread.h>
#include <stdatomic.h>
#include <stdbool.h>
#include <stdint.h>
#include <sys/stat.h>

enum { ROOT_NODE = 1 };

enum file_handles {
	HANDLES_NEVER,
	HANDLES_PREFERRED,
	/* Files without a handle are not served. */
	HANDLES_ALONE,
};

struct backing;
struct nodes;
struct watch;
struct watched;

/* The common beginning of a node and of an open file. `users` counts the references of the table and of the calls
 * that use it. Only a node's `fd` changes (node_keep()). */
struct counted {
	atomic_uint users;
	atomic_int fd;
	uint64_t number;
};

/* A slot is a pointer or, if it is free, an odd number: its use count, above the index of the next free slot. A
 * slot whose use count is exhausted is free and in no list. */
struct table {
	pthread_rwlock_t lock;
	uint64_t *slots;
	uint32_t size, used, first_free, count;
	/* The largest upper half of the numbers that were loaded from another server's state; and the upper half
	 * of the first number of a new slot. */
	uint32_t most_uses, beginning;
};

/* A device of the host in one of its mounts. It exists as long as a node refers to it. `users` reaches 0 only
 * under the lock. */
struct host_mount {
	struct nodes *of;
	uint64_t device, id;
	atomic_uint users;
	/* The number of nodes with a handle, and the descriptor by which handles are opened, which is open while
	 * that number is not 0. Both are protected by the lock. */
	uint32_t handles;
	int fd;
	struct host_mount *next;
};

/* A client may have millions of nodes, so a node contains only what is needed, and its size varies. */
struct node {
	/* `fd` is -1 if the node has a handle, unless node_keep() keeps the file open. */
	struct counted counted;
	atomic_ullong lookups;
	uint64_t inode;
	struct host_mount *on;
	/* The next node of the hash chain. */
	struct node *next;
	/* NULL: the file is not watched. */
	struct watched *watched;
	/* The directory in which the file was first found, by the name that follows the handle; 0: unknown. Once
	 * the file was not found there, the place is not tried again. */
	uint64_t directory;
	/* The type, S_IFREG etc., which never changes. */
	uint16_t type;
	/* The client lists the names of this directory without looking up its files. */
	atomic_bool lists_names;
	atomic_bool is_elsewhere;
	/* A file, not a directory, on another device or mount than its directory. */
	bool is_apart;
	/* The size of the handle in bytes. */
	uint8_t handle_size;
	/* The handle, if there is one, followed by the name. */
	_Alignas(uint32_t) char rest[];
};

struct open_file {
	struct counted counted;
	struct nodes *of;
	bool is_directory;
	/* For a file: its descriptor has O_APPEND. It does not change while `writing` is locked. */
	bool at_end;
	/* The descriptor has O_DIRECT. It is cleared when a write is not aligned for that. */
	atomic_bool is_direct;
	/* Locked for reading by a write, and for writing by a change of these flags. */
	pthread_rwlock_t writing;
	/* The node of the file. */
	uint64_t node;
	/* NULL: the client's kernel does not access the file itself. */
	struct backing *backing;
	/* For a file: the client has a flock(2) lock by this open file, and the lock owner that it sent last. They
	 * change only under the lock. */
	atomic_bool has_flock;
	atomic_ullong flock_owner;
	/* For a directory, protected by the lock: entries that were read but not yet sent, and their offset. */
	pthread_mutex_t lock;
	char *buffer;
	size_t at, end;
	uint64_t offset;
	/* The end of the directory follows the entries that were sent last. */
	bool is_at_end;
	/* The next open file of a list that is being closed. */
	struct open_file *next;
};

struct nodes {
	struct table nodes, files;
	/* Hash chains by device and inode, protected by the lock of `nodes`. */
	struct node **chains;
	uint32_t chain_count;
	/* A descriptor of /proc/self/fd. */
	int proc;
	/* How many descriptors are open or reserved for nodes, open files and mounts, and their limit. The other
	 * descriptors are for those that a call opens and closes, and for the transport. From
	 * `handles_from` descriptors on, a new node gets a handle. */
	atomic_uint kept;
	unsigned most_kept, handles_from;
	/* How many nodes exist or are reserved, and their limit. */
	atomic_uint places;
	unsigned most_nodes;
	atomic_flag said_most;
	/* How many open directories have a buffer. */
	atomic_uint buffers;
	/* NULL: files are not watched. Otherwise the files of this device are, if possible; 0: none. */
	struct watch *watch;
	uint64_t watched_device;
	bool handles_alone;
	/* The mount whose files may be opened by name; 0: none. */
	uint64_t named_mount;
	pthread_mutex_t mounts_lock;
	struct host_mount *mounts;
	/* How many clients have disconnected. A caller passes this number as of the time when its request arrived.
	 * (Each request reads it, so it is apart from the fields that requests write.) */
	atomic_uint clients;
};

/* The directory in which a file was found, its node if that is known, and the name, or NULL if it is unknown. */
struct found {
	int directory;
	const struct node *node;
	const char *name;
};

/* A reference to a node, with a descriptor of it. `own` must be closed. */
struct grip {
	struct node *node;
	int fd, own;
};

/* Returns -1 if out of memory. `root` becomes the node ROOT_NODE, which closes it, and counts toward `most`, the
 * limit of nodes. With `no_devices`, no device can be opened in its mount. `others` descriptors are left for other
 * uses. */
int nodes_begin(struct nodes *all, int root, int proc, enum file_handles handles, bool no_devices,
		unsigned most, unsigned others);
void nodes_end(struct nodes *all);
/* Watches files of this device from now on, unless they have handles; 0: none. The watch must be freed after the
 * nodes. */
void nodes_watch(struct nodes *all, struct watch *watch, uint64_t device);

/* Reserves descriptors before they are opened, so that a call that creates a file can also open it. Returns 0 or
 * EMFILE. A function that takes over a descriptor takes over its reservation too. */
int fd_reserve(struct nodes *all, unsigned count);
void fd_give_back(struct nodes *all, unsigned count);
/* Closes a descriptor and releases its reservation. */
void fd_let_go(struct nodes *all, int fd);
/* Reserves a node and its descriptor, before a file is created or looked up. Returns 0, EMFILE, or ENFILE at the
 * limit of nodes. */
int node_reserve(struct nodes *all);
void node_give_back(struct nodes *all);

/* Gets a reference to a node. Returns 0, or ESTALE if the number is unknown, or another error. */
int node_get(struct nodes *all, uint64_t number, struct grip *grip);
/* The same, but a node with a handle is not opened. */
int node_hold(struct nodes *all, uint64_t number, struct grip *grip);
void node_put(struct grip *grip);

/* Opens the file of a node that has a handle, before the caller removes the file's last name, which is `name` in
 * `directory`. A file without a name cannot be opened by its handle, but a client may still use it without an
 * OPEN, as a FIFO or by a descriptor made with O_PATH. Returns the node, which the caller must pass to node_kept()
 * after the removal; or NULL, if nothing must or can be kept open. */
struct node *node_keep(struct nodes *all, int directory, const char *name);
/* Keeps the file open until the client forgets it, if its name was removed. `node` may be NULL. */
void node_kept(struct nodes *all, struct node *node, bool is_removed);

/* Returns whether there is a node on the directory's device with this inode. */
bool node_may_be_known(struct nodes *all, const struct node *directory, uint64_t inode);

/* Returns whether a file is on another device or mount than a node. */
bool is_across(const struct node *node, const struct statx *seen);

/* The number of a node or an open file for a client that has disconnected: it is not valid, and nothing was
 * entered. The client needs not release it, because all that it had was released, and numbers may belong to the
 * next client by then. */
#define OF_NOBODY UINT64_MAX

/* Returns the number of a file that is known, and increments its lookup count; or 0. It does not open the file. */
uint64_t node_find(struct nodes *all, unsigned client, const struct statx *seen);
/* The same for a file that was opened with O_PATH. It also finds a node that has a handle. */
uint64_t node_find_opened(struct nodes *all, unsigned client, int fd, const struct statx *seen);

/* Returns the number of a file that is known, or 0. The lookup count does not change. `fd` is a descriptor of the
 * file, which may be opened with O_PATH. */
uint64_t node_number(struct nodes *all, int fd, const struct statx *seen);

/* Increments the lookup count of a referenced node. Returns 0, or ESTALE if the client forgot it meanwhile. */
int node_look_up(struct nodes *all, unsigned client, struct node *node);

/* Fills in the number of a file that was opened with O_PATH, and increments its lookup count. It takes over `fd`
 * and a reserved node, also on error. `*is_new`, unless `is_new` is NULL, becomes true if node_find() would not
 * have found the file: it was unknown, or has a handle. Returns 0 or an error. */
int node_enter(struct nodes *all, unsigned client, const struct found *found, int fd,
	       const struct statx *seen, uint64_t *number, bool *is_new);

/* Decrements a lookup count. At 0 the node is removed. */
void node_forget(struct nodes *all, unsigned client, uint64_t number, uint64_t count);

/* Returns whether the client of a request is still connected. Under a lock of the tables this cannot change before
 * they are emptied. */
static inline bool is_client(const struct nodes *all, unsigned client)
{
	return client == atomic_load(&all->clients);
}

/* Returns the current client. Only the transport's own thread, which disconnects clients, may call it. */
static inline unsigned client_now(const struct nodes *all)
{
	return atomic_load(&all->clients);
}

/* Removes all nodes except the root, and all open files, unless that client has disconnected. */
void nodes_forget_all(struct nodes *all, unsigned client);
/* The same in steps: nodes_take_all() invalidates all numbers; nodes_let_go() closes the descriptors of nodes,
 * which do not block; files_let_go() closes those of open files, which may block if a file system does not
 * respond. */
struct gone {
	struct node *node;
	struct open_file *file;
	uint32_t count;
};
void nodes_take_all(struct nodes *all, unsigned client, struct gone *gone);
void nodes_let_go(struct gone *gone);
void files_let_go(struct gone *gone);

/* The name of a descriptor in /proc/self/fd. */
struct fd_name {
	char bytes[16];
};

struct fd_name name_fd(int fd);

/* Opens a referenced file or directory by the name by which it was found. Returns -1 if that fails. */
int open_by_name(struct nodes *all, struct node *node, int flags);
/* Opens the file of a descriptor again with these flags. Returns the descriptor, or -1 with errno. */
int open_again(const struct nodes *all, int fd, int flags);

/* Adds an open file of a node and returns its number. It takes over `fd`, for which the caller has reserved a
 * descriptor and which was opened with these flags, and `backing`, if that is not NULL. On out of memory it
 * returns 0 and takes over neither. */
uint64_t file_add(struct nodes *all, unsigned client, uint64_t node, int fd, int flags,
		  struct backing *backing);
/* Gets a reference to an open file, or NULL. */
struct open_file *file_get(struct nodes *all, uint64_t number);
/* Gets another reference to an open file. */
struct open_file *file_share(struct open_file *file);
void file_put(struct open_file *file);
/* files_have_flock() returns whether the client has a flock(2) lock by any open file. file_with_flock() returns a
 * reference to another open file of the same node by which this owner has one, or NULL. */
bool files_have_flock(struct nodes *all);
struct open_file *file_with_flock(struct nodes *all, const struct open_file *other, uint64_t owner);
/* Removes an open file. Returns 0, or EBADF if the number is unknown. */
int file_release(struct nodes *all, unsigned client, uint64_t number);

/* Returns the number of the next node or open file, or 0 at the end. `*place` must be 0 before the first call. */
uint64_t node_next(struct nodes *all, uint32_t *place);
uint64_t file_next(struct nodes *all, uint32_t *place);

/* Returns the directory in which a node was first found, and the name; 0: unknown. */
uint64_t node_found_in(const struct node *node, const char **name);
/* Returns the handle of a node, or NULL if it has none. */
struct file_handle *node_handle(const struct node *node);

/* Removes all nodes except the root, and all open files. Until nodes_settle() no number is reused, so that nodes
 * and open files can get the numbers that they had in another server. */
void nodes_empty(struct nodes *all);
void nodes_settle(struct nodes *all);
/* Adds a node with this number and lookup count. It takes over `fd`, which was opened with O_PATH, also on error.
 * Returns 0 or an error: EEXIST, if the number or the file belongs to another node. */
int node_restore(struct nodes *all, int fd, const struct statx *seen, uint64_t number, uint64_t lookups,
		 bool is_apart);
/* Adds an open file with this number. The caller must have reserved its descriptor. */
int file_restore(struct nodes *all, uint64_t node, int fd, int flags, uint64_t number);
/* Makes a number permanently invalid, because its node or open file could not be restored. Returns 0 or ENOMEM. */
int node_lose(struct nodes *all, uint64_t number);
int file_lose(struct nodes *all, uint64_t number);
/* Returns whether a node or an open file may have this number. */
bool is_number(uint64_t number);

/* Counts the nodes, including the root, and the open files. */
void nodes_count(struct nodes *all, uint32_t *nodes, uint32_t *files);

#endif
