/* Names of a passthrough: LOOKUP, SYMLINK, MKNOD, MKDIR, LINK and RENAME, called by passthrough_call.c with
 * references to the nodes and with valid names. Any number of workers may run at once without a lock, because the
 * host orders changes of one name.
 *
 * Others may rename, replace or remove a name between two system calls. The result describes the file as of when
 * it was opened in that directory. No symbolic link is followed, so no file outside is shown. */
#define _GNU_SOURCE
#include <errno.h>
#include <fcntl.h>
#include <stdatomic.h>
#include <stdio.h>
#include <string.h>
#include <sys/stat.h>
#include <unistd.h>
#include "passthrough_call.h"

/* Removes a name that a call created but cannot return, because it is out of memory or of descriptors. A name that
 * leads to another file by now is left. If the inode of the new file is unknown, it has no data yet. Between the
 * check and the removal another file may still take the name, and be removed, because Linux cannot remove a name
 * of a specific file. A directory is removed only if it is empty.
 *
 * Returns the error of the call. It is EIO if the host does not remove the name, as in a directory with the attribute
 * append-only (chattr +a), because after another error the request may be repeated, and then finds the name that it
 * created itself. */
static int unmake(int directory, const char *name, const struct statx *made, int error)
{
	struct statx seen;

	if (statx(directory, name, AT_SYMLINK_NOFOLLOW | AT_NO_AUTOMOUNT, WANTED, &seen) ||
	    (seen.stx_mode ^ made->stx_mode) & S_IFMT)
		return error;
	/* (if its inode is unknown, the file is compared by its type and size) */
	if (made->stx_ino ? seen.stx_ino == made->stx_ino && seen.stx_mnt_id == made->stx_mnt_id :
			    S_ISDIR(seen.stx_mode) || seen.stx_size == made->stx_size)
		return unlinkat(directory, name, S_ISDIR(seen.stx_mode) ? AT_REMOVEDIR : 0) ? EIO : error;
	return error;
}

/* (if the name cannot be checked it remains, and the client sees it later) */
int unmake_of(int directory, const char *name, int fd, int error)
{
	struct statx made;

	return look_at(fd, &made) ? EIO : unmake(directory, name, &made, error);
}

/* Returns the attributes of a new file that are known without statx(2): its type, and for a symbolic link the
 * size, which is that of its target. MKNOD without a type creates a regular file. */
static struct statx made_by(const struct call *call)
{
	const nizwarf_call *asked = call->asked;
	const unsigned type = asked->mode & S_IFMT;

	if (asked->opcode == NIZWARF_SYMLINK)
		return (struct statx){ .stx_mode = S_IFLNK,
				       .stx_size = strlen(name_of(call, nizwarf_symlink_text(asked))) };
	return (struct statx){ .stx_mode = (uint16_t)(asked->opcode == NIZWARF_MKDIR ? S_IFDIR :
						      type			     ? type :
										       S_IFREG) };
}

/* By the name, because the new file is not open. A file that took the name meanwhile gets the label, which the
 * client could also set by SETXATTR. */
int label_name(const struct call *call, int directory, const char *name)
{
	const int fd = openat(directory, name, O_PATH | O_NOFOLLOW | O_CLOEXEC);
	const int error = fd < 0 ? errno : label(call, fd);

	if (fd >= 0)
		close(fd);
	return error;
}

/* LOOKUP. If the name does not exist, returns an entry with node 0 if the client may cache that, and otherwise
 * ENOENT. After a lookup, listings of the directory have entries again. */
int find_name(const struct call *call, const char *name)
{
	const uint64_t time = name_time(call, call->node.node, call->all->options.negative_time);
	atomic_bool *lists_names = &call->node.node->lists_names;
	const struct found found = found_in(&call->node, name);
	const int error = look_up(call, &found, &call->answer->entry);

	if (atomic_load_explicit(lists_names, memory_order_relaxed))
		atomic_store(lists_names, false);
	if (error != ENOENT || !time)
		return error;
	call->answer->entry = (nizwarf_entry){
		.entry_seconds = time / 1000,
		.entry_nanoseconds = (uint32_t)(time % 1000) * 1000000,
	};
	return 0;
}

/* SYMLINK, MKNOD and MKDIR. The node is reserved first, so that a call that cannot get one creates nothing. The
 * host does not replace an existing file (EEXIST). */
int make_node(const struct call *call)
{
	const nizwarf_call *asked = call->asked;
	const char *name = name_of(call, asked->name);
	const struct found found = found_in(&call->node, name);
	const int directory = call->node.fd;
	int error = node_reserve(&call->all->nodes);

	if (error)
		return error;
	error = become(call);
	if (error)
		;
	else if (asked->opcode == NIZWARF_MKDIR)
		error = failed(mkdirat(directory, name, asked->mode & 07777));
	else if (asked->opcode == NIZWARF_MKNOD)
		error = failed(mknodat(directory, name, asked->mode, asked->rdev));
	else
		error = failed(symlinkat(name_of(call, nizwarf_symlink_text(asked)), directory, name));
	become_root(call);
	if (error) {
		node_give_back(&call->all->nodes);
		return error;
	}
	error = has_label(call) ? label_name(call, directory, name) : 0;
	if (error)
		node_give_back(&call->all->nodes);
	else
		error = enter_name(call, &found, &call->answer->entry, NULL);
	if (error) {
		const struct statx made = made_by(call);

		error = unmake(directory, name, &made, error);
	}
	return error;
}

/* RENAME. RENAME_WHITEOUT creates a device that belongs to the caller. Linux returns EINVAL for unknown flags. */
int rename_node(const struct call *call)
{
	const nizwarf_call *asked = call->asked;
	const char *onto = name_of(call, asked->other_name);
	const bool makes = asked->flags & RENAME_WHITEOUT;
	/* (with the other flags no name is removed) */
	const bool replaces = !(asked->flags & (RENAME_NOREPLACE | RENAME_EXCHANGE));
	struct node *kept = replaces ? node_keep(&call->all->nodes, call->other.fd, onto) : NULL;
	int error = makes ? become(call) : 0;

	if (!error)
		error = failed(renameat2(call->node.fd, name_of(call, asked->name), call->other.fd, onto,
					 asked->flags));
	if (makes)
		become_root(call);
	node_kept(&call->all->nodes, kept, !error);
	return error;
}

/* LINK. The lookup count is incremented before the link is created, so that a FORGET by the client meanwhile does
 * not remove the node. */
int link_node(const struct call *call)
{
	struct node *node = call->node.node;
	struct nodes *nodes = &call->all->nodes;
	const char *name = name_of(call, call->asked->name);
	const struct statx made = { .stx_mode = (uint16_t)node->type,
				    .stx_ino = node->inode,
				    .stx_mnt_id = node->on->id };
	struct statx seen;
	int error = node_look_up(nodes, call->client, node);

	if (error)
		return error;
	/* (this leads to the node itself, even if it is a symbolic link) */
	error = failed(
		linkat(nodes->proc, name_fd(call->node.fd).bytes, call->other.fd, name, AT_SYMLINK_FOLLOW));
	/* (the attributes are those after the call, with one more link) */
	if (!error && look_at(call->node.fd, &seen))
		error = unmake(call->other.fd, name, &made, errno);
	if (error)
		node_forget(nodes, call->client, node->counted.number, 1);
	else
		tell_entry(call, node->counted.number, &seen, &call->answer->entry);
	return error;
}
