/* A passthrough: a directory of the host as a file system over the codec of nizwarf.h, for the transports of
 * transport.h.
 *
 * The server resolves no path: it looks up each name in an open directory, and follows no symbolic link. So a
 * client reaches only files below the shared directory, and numbers that it invented are an error. The server
 * opens only files and directories, because opening a pipe or a device may block or have side effects. A pipe that
 * takes the name of a file meanwhile may be opened for a moment, without blocking. If the server runs as root,
 * files are created with the ids of the caller. */
#ifndef PASSTHROUGH_H
#define PASSTHROUGH_H

#include <stdbool.h>
#include "passthrough_ids.h"
#include "passthrough_nodes.h"
#include "passthrough_xattrmap.h"
#include "transport.h"

/* What the client may cache. */
enum passthrough_cache {
	/* Nothing. */
	CACHE_NEVER,
	/* Names and attributes for a second, and data until a file is opened again. */
	CACHE_AUTO,
	/* Names, attributes and data for a day. */
	CACHE_ALWAYS,
	/* Names, attributes and directories for a day, but no data. */
	CACHE_METADATA,
};

enum migration_mode {
	/* Files are found by their paths below the directory. */
	MIGRATES_BY_PATHS,
	/* Files are found by handles of their file system. */
	MIGRATES_BY_HANDLES,
};

/* The time is not set, so it depends on the cache policy. */
#define AS_CACHE_SAYS UINT64_MAX

struct passthrough_options {
	enum passthrough_cache cache;
	/* In milliseconds: how long the client may cache names, attributes, and that a name does not exist. */
	uint64_t entry_time, attr_time, negative_time;
	/* The client may have a writeback cache. */
	bool writeback;
	/* Extended attributes are served. With access control lists, which the client must support, the client's
	 * kernel enforces them, and the host creates files with the lists of their directory, or else with the
	 * client's umask. */
	bool xattr, posix_acl;
	/* The rules for names of attributes on the host; NULL: names are the same. And the name of file
	 * capabilities there, which the server removes when the file is changed; NULL: the host removes them. */
	const struct xattr_map *xattr_map;
	const char *capability;
	/* The client, which must support that, sends the security label of a new file. */
	bool security_label;
	/* The server clears set-ID bits, and not the client. */
	bool kills_bits;
	/* allow_mmap: files that are opened without a cache can be mapped; allow_direct: O_DIRECT applies to the
	 * host's file too. */
	bool allow_mmap, allow_direct;
	/* O_NOATIME is refused if the server may not use it. */
	bool keeps_noatime;
	/* The translation of the client's user and group ids. */
	struct ids users, groups;
	/* Locks of flock(2), and of fcntl(2), are taken on the host; otherwise they are local to the client. */
	bool flock, posix_lock;
	/* The client's kernel reads and writes files itself. `backing` is a socket to the process that registers
	 * the files, which ends when it is closed (fuse_backing_start). */
	bool passthrough;
	int backing;
	/* How another server finds the files of a machine that migrates to it, and whether files that are not
	 * found are errors for the guest. With `verifies` a path must lead to the same file as before. With
	 * `takes_unlinked` a handle may open a file without a name, although nothing shows that it was in the
	 * directory. */
	enum migration_mode migration_mode;
	bool verifies, loses_files, takes_unlinked;
	/* Where passthrough_watch() reports changes that others make; NULL: it does not. */
	nizwarf_fuse_notices *notices;
	/* Changes fail with EROFS. */
	bool read_only;
	/* Directories are listed with attributes. */
	bool readdirplus;
	/* A directory on which something else is mounted is announced as a submount, if the client supports that. */
	bool announce_submounts;
	/* When files are held by handles instead of descriptors. */
	enum file_handles file_handles;
	/* No device can be opened in the file system of the directory, so that a file may be opened by its name,
	 * which is faster, and checked afterwards. */
	bool no_devices;
	/* Nobody may change supplementary groups in this user namespace. */
	bool keeps_groups;
	/* The capabilities that root's workers have in addition, and those that they lack, as bits. */
	uint64_t more_capabilities, fewer_capabilities;
	unsigned workers;
	/* How many files the client may know at once, including the shared directory. */
	unsigned most_nodes;
	/* How many descriptors the transport and the rest of the process use. */
	unsigned other_descriptors;
	/* The largest payload of a request or a reply. */
	uint32_t payload;
};

struct passthrough;

/* Creates a passthrough of the directory of the descriptor `root`, which may be opened with O_PATH, and which the
 * passthrough closes. `proc` is a descriptor of /proc/self/fd, which the caller must keep open. While serving, the
 * process must have `proc` as its working directory, and a umask of 0. Returns NULL with errno on error. */
struct passthrough *passthrough_new(int root, int proc, const struct passthrough_options *options);
void passthrough_end(struct passthrough *all);

/* Watches the files that the client knows, except those that have handles, if `notices` is set. Returns 0, or -1
 * with errno. */
int passthrough_watch(struct passthrough *all);

/* If the calling thread runs as root, reduces its capabilities to those of a worker. Returns 0, or -1 with errno:
 * EPERM, if a capability that it should have in addition is missing. */
int passthrough_limit(const struct passthrough_options *options);

/* The functions of a transport, whose `user` must be the passthrough. */
int passthrough_begin(void *user, unsigned worker);
void passthrough_finish(void *user, unsigned worker);
void passthrough_parted(void *user);
void passthrough_recall(void *user);
int passthrough_save(void *user, transport_state *to);
int passthrough_load(void *user, transport_state *from);
int32_t passthrough_serve(void *user, unsigned worker, const struct iovec *request, size_t segments,
			  const struct iovec *room, size_t rooms, size_t *len);

#endif
