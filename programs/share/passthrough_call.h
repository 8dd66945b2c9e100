/* A call of a passthrough: shared by its source files only. */
#ifndef PASSTHROUGH_CALL_H
#define PASSTHROUGH_CALL_H

#include <linux/capability.h>
#include <sys/uio.h>
#include "passthrough.h"
#include "passthrough_backing.h"
#include "passthrough_locks.h"
#include "passthrough_nodes.h"
#include "passthrough_numbers.h"

/* The sizes of a reply's header and of the longest extended attribute. */
enum { HEADER = 16, LONGEST_VALUE = 65536 };
/* The statx(2) mask of all files. */
enum { WANTED = STATX_BASIC_STATS | STATX_MNT_ID };
/* In milliseconds: the time that a client may cache something for a short time. */
enum { SHORT_TIME = 1000 };

/* The memory that a worker reuses from call to call. */
struct worker {
	nizwarf_scratch slot;
	/* Whether it runs as root, its capabilities as bits, and its group; and whether it cannot change its
	 * supplementary groups. */
	bool is_root, keeps_groups;
	uint64_t capabilities;
	gid_t gid;
	/* The last name that was looked up led to an unknown file. */
	bool expects_new;
	/* A text, such as the target of a symbolic link. */
	char text[LONGEST_VALUE + 1];
	/* The parameters of the INIT that is being answered. */
	nizwarf_init_params init_params;
	nizwarf_dirent *items;
	size_t items_size;
	/* The number of items, from the first one on, that have entries. */
	size_t entries;
	char *names;
	size_t names_size;
	struct iovec *pieces;
	size_t pieces_size;
};

struct passthrough {
	struct passthrough_options options;
	/* The enabled features. */
	uint32_t offers;
	struct nodes nodes;
	struct numbers *numbers;
	/* NULL: locks are local to the client. */
	struct locks *locks;
	/* NULL: files are read and written by requests. */
	struct backings *backings;
	/* The options of INIT that were negotiated with the client. The lock must be held to change them. */
	atomic_ullong agreed;
	pthread_mutex_t agreeing;
	/* The number of threads that close files of disconnected clients. */
	atomic_uint closing;
	/* The message that the client lacks a required option was printed. */
	atomic_bool lacks_option;
	/* The number of handles of loaded states that opened no file of the directory, up to a limit. Only the
	 * transport's own thread uses it. */
	unsigned strays;
	/* In milliseconds: the times that the client may cache names, attributes, and attributes of regular files. */
	uint64_t entry_time, attr_time, file_time;
	/* The device of the shared directory, if its file system is local: ext4, xfs, btrfs or tmpfs. */
	bool is_local;
	uint64_t local_device;
	/* The limit of stacked file systems, including the mount, for files that the client's kernel accesses
	 * itself. */
	uint32_t stack_depth;
	struct worker *worker[NIZWARF_MAX_WORKERS];
};

/* A call and its objects. */
struct call {
	struct passthrough *all;
	struct worker *worker;
	/* The client of the request, as in `nodes.clients`. */
	unsigned client;
	const nizwarf_call *asked;
	const uint8_t *request;
	/* The data of a WRITE, or the reply buffer of a READ. They are modified. */
	struct iovec *data;
	size_t pieces;
	struct grip node, other;
	struct open_file *file;
	nizwarf_answer *answer;
};

/* Returns whether the client of the request is still connected. */
static inline bool is_there(const struct call *call)
{
	return is_client(&call->all->nodes, call->client);
}

/* Returns the INIT options that this server wants. */
uint64_t wanted(const struct passthrough *all);
/* Returns NULL, or why a client with these options must not be served. It decides for both INIT and the state of a
 * machine that migrates, so that neither accepts a client that the other one refuses. */
const char *lacking_option(const struct passthrough *all, uint64_t options);
/* Makes a call. Returns 0 or an error. */
int make_call(struct call *call);

/* Returns 0 if `result` is not negative, and errno otherwise. */
int failed(int result);
/* Grows a buffer to at least `wanted` bytes; `buffer` points to a pointer to it. Returns false if out of memory. */
bool grow(void *buffer, size_t *size, size_t wanted);
/* Returns whether a node is on the directory's own, local file system. */
bool is_local(const struct call *call);
/* Returns a name of the request, which ends with a 0. */
const char *name_of(const struct call *call, nizwarf_range range);
/* Returns whether a name can be that of a directory entry. */
bool is_plain(const char *name);
/* Fills in the entry of a node whose lookup count was incremented. */
void tell_entry(const struct call *call, uint64_t number, const struct statx *seen, nizwarf_entry *entry);
/* Returns the time in milliseconds that a name in this directory may be cached, where `time` is the configured
 * time. */
uint64_t name_time(const struct call *call, const struct node *directory, uint64_t time);
/* Fills in attributes and their cache time. `is_apart` is that of the node. */
void tell_attr(const struct call *call, const struct statx *seen, bool is_apart, nizwarf_entry *entry);
/* Returns the inode number that the client sees. */
uint64_t inode_of(const struct call *call, uint64_t device, uint64_t inode, bool is_apart);
/* Calls statx(2) for a descriptor. Returns 0, or -1 with errno. */
int look_at(int fd, struct statx *seen);
/* Fills in the entry of a file. enter() gets the file opened with O_PATH, and its attributes; enter_name() opens
 * it. The caller must have reserved a node, which is used or released. `*is_new`, unless `is_new` is NULL, becomes
 * true if the file was not known, or has a handle. They return 0 or an error. */
int enter(const struct call *call, const struct found *found, int fd, const struct statx *seen,
	  nizwarf_entry *entry, bool *is_new);
int enter_name(const struct call *call, const struct found *found, nizwarf_entry *entry, bool *is_new);
/* Looks up a name and fills in its entry. Returns 0 or an error. */
int look_up(const struct call *call, const struct found *found, nizwarf_entry *entry);
/* The same, but faster for unknown files. `*is_new` is as above. */
int look_up_new(const struct call *call, const struct found *found, nizwarf_entry *entry, bool *is_new);
/* Combines a referenced directory and a name. */
struct found found_in(const struct grip *directory, const char *name);

/* LOOKUP, which may let the client cache that a name does not exist; SYMLINK, MKNOD and MKDIR; LINK; RENAME. */
int find_name(const struct call *call, const char *name);
int make_node(const struct call *call);
int link_node(const struct call *call);
int rename_node(const struct call *call);
/* Removes a name that was created for a file, unless it leads to another file by now. Returns the error of the call, or
 * EIO if the name remains. */
int unmake_of(int directory, const char *name, int fd, int error);

/* Reduces the capabilities of a worker's thread to those that it needs, if it runs as root, and prepares it for
 * become(). Returns 0, or -1 with errno. */
int begin_worker(struct worker *w, const struct passthrough_options *options);
/* become() lets this thread create files as the caller of the request, with that caller's umask if it applies, and
 * returns 0 or an error. become_root() undoes it. */
int become(const struct call *call);
void become_root(const struct call *call);
/* Returns whether a SETATTR sets nothing. If the server clears set-ID bits, Linux sends such a request before a
 * user without the privilege to keep them changes a file's data; and for a chown(2) that changes neither owner nor
 * group. */
bool sets_nothing(const nizwarf_call *asked);
/* Between these two calls the host clears set-user-ID and set-group-ID bits if the request wants that, as for a
 * process that lacks CAP_FSETID and is not in the file's group. */
void lose_fsetid(const struct call *call);
void regain_fsetid(const struct call *call);

/* Returns whether the client has a writeback cache. */
bool writes_later(const struct call *call);
/* Whether a call is about an open file; and makes such a call, with a reference to the file. It returns 0 or an
 * error. */
bool wants_file(const nizwarf_call *asked);
int make_of_file(const struct call *call);

/* Removes the capabilities of a file before it is changed, if --xattrmap gives them another name on the host,
 * because the host does not remove them then. `fd` is a descriptor of the file. Returns 0 or an error. */
int lose_capability(const struct call *call, int fd);
/* Sets the security label that the client sent for a file that was just created. Returns 0 or an error. */
int label(const struct call *call, int fd);
/* The same for a name that was just created. */
int label_name(const struct call *call, int directory, const char *name);
/* Returns whether the client sent a security label for a new file. */
static inline bool has_label(const struct call *call)
{
	return call->all->options.security_label && call->asked->has & NIZWARF_HAS_CONTEXT;
}

/* READDIR and READDIRPLUS, and the calls of extended attributes. They return 0 or an error. */
int read_directory(const struct call *call);
int set_xattr(const struct call *call);
int get_xattr(const struct call *call);
int list_xattr(const struct call *call);
int remove_xattr(const struct call *call);

#endif
