/* The user as whom a worker of a passthrough creates files, and its capabilities. Each worker sets its own: Linux
 * has ids and capabilities for each thread, and the functions of the C library, which change those of all threads,
 * are not used.
 *
 * A request contains the ids of its caller, and the client's kernel has checked permissions. So a worker that runs
 * as root uses these ids only to create files, which then belong to the caller. A malicious client may send any
 * ids, and so create files that belong to root. A server that does not run as root creates all files as its own
 * user. */
#define _GNU_SOURCE
#include <errno.h>
#include <fcntl.h>
#include <linux/fuse.h>
#include <sched.h>
#include <string.h>
#include <sys/stat.h>
#include <sys/syscall.h>
#include <unistd.h>
#include "passthrough_call.h"

/* The flag of a SETXATTR of an access control list by a caller who is not in the file's group; and the id of no
 * group. */
enum { CLEARS_GROUP = 1 };
#define NO_GROUP (UINT32_MAX - 1)

/* Sets the capabilities of this thread. None can be inherited. Returns 0, or -1 with errno. */
static int set_capabilities(uint64_t permitted, uint64_t effective)
{
	struct __user_cap_header_struct header = { _LINUX_CAPABILITY_VERSION_3, 0 };
	const struct __user_cap_data_struct data[2] = {
		{ (uint32_t)effective, (uint32_t)permitted, 0 },
		{ (uint32_t)(effective >> 32), (uint32_t)(permitted >> 32), 0 },
	};

	return (int)syscall(SYS_capset, &header, data);
}

/* The caller, as ids of the host. */
struct who {
	uint32_t uid, gid, group;
	bool has_group;
};

/* Finds the caller's ids. Returns 0 or an error: EPERM, if --translate-uid or --translate-gid forbid one of them. */
static int find_who(const struct call *call, struct who *who)
{
	const struct passthrough_options *options = &call->all->options;
	const nizwarf_call *asked = call->asked;
	int error;

	*who = (struct who){ 0, 0, 0, asked->has & NIZWARF_HAS_GROUP };
	error = ids_to_host(&options->users, asked->uid, &who->uid);
	if (!error)
		error = ids_to_host(&options->groups, asked->gid, &who->gid);
	if (!error && who->has_group)
		error = ids_to_host(&options->groups, asked->group, &who->group);
	return error;
}

/* Returns whether a worker must change its ids to those of the caller. */
static bool changes_who(const struct worker *w, const struct who *who)
{
	return w->is_root && (who->uid || who->gid || who->has_group);
}

/* The client's kernel has checked permissions, so those of the host do not apply. But the worker must not keep a
 * set-group-ID bit of another group, and may rename a file of another user. Only the effective ids change, so that
 * the worker can become root again. When the effective id becomes non-zero, Linux clears the effective
 * capabilities, so those that are kept are set again. It must be followed by become_root(), even if it fails. */
int become(const struct call *call)
{
	const nizwarf_call *asked = call->asked;
	const struct worker *w = call->worker;
	const uint64_t left = asked->opcode == NIZWARF_RENAME ? UINT64_MAX : UINT64_C(1) << CAP_DAC_OVERRIDE;
	struct who who;
	const int error = find_who(call, &who);

	if (error)
		return error;
	if (call->all->options.posix_acl)
		umask(asked->umask & 0777);
	if (!changes_who(w, &who))
		return 0;
	/* (in setresuid(2), -1 means that the id does not change, which would be root's) */
	if (who.uid == UINT32_MAX || who.gid == UINT32_MAX)
		return EINVAL;
	/* (by raw system calls, which change only this thread) */
	if ((who.has_group && !w->keeps_groups && syscall(SYS_setgroups, 1, &who.group)) ||
	    syscall(SYS_setresgid, -1, who.gid ? who.gid : w->gid, -1) ||
	    syscall(SYS_setresuid, -1, who.uid, -1))
		return errno;
	if (who.uid)
		set_capabilities(w->capabilities, w->capabilities & left);
	return 0;
}

/* Undoes become() in reverse order: the user first, because only root may change the groups. */
void become_root(const struct call *call)
{
	const struct worker *w = call->worker;
	struct who who;

	if (call->all->options.posix_acl)
		umask(0);
	if (find_who(call, &who) || !changes_who(w, &who))
		return;
	syscall(SYS_setresuid, -1, 0, -1);
	syscall(SYS_setresgid, -1, w->gid, -1);
	if (who.has_group && !w->keeps_groups)
		syscall(SYS_setgroups, 0, NULL);
	set_capabilities(w->capabilities, w->capabilities);
}

bool sets_nothing(const nizwarf_call *asked)
{
	return asked->opcode == NIZWARF_SETATTR &&
	       !(nizwarf_setattr_fields(asked) &
		 (FATTR_MODE | FATTR_UID | FATTR_GID | FATTR_SIZE | FATTR_ATIME | FATTR_MTIME));
}

/* Returns whether the client clears set-ID bits itself unless a request says that the server must: it has not
 * negotiated HANDLE_KILLPRIV_V2. It does so by SETATTR, before it writes or calls truncate(2). */
static bool takes_bits_itself(const struct call *call)
{
	return !(atomic_load(&call->all->agreed) & FUSE_HANDLE_KILLPRIV_V2);
}

/* Returns whether a request without a flag for it must clear set-ID bits. Root may keep them; the capabilities of
 * other users are not known. Since Linux 6.12 such a request does not contain its user, whose id is then
 * UINT32_MAX. A client leaves the bits of a file that OPEN truncates, even if it clears them itself otherwise.
 * Before FALLOCATE and COPY_FILE_RANGE it has sent a SETATTR (since Linux 6.0, so always if there is no user),
 * either with the new mode or, if the server clears the bits, with nothing. */
static bool kills_untold(const struct call *call)
{
	const nizwarf_call *asked = call->asked;

	switch (asked->opcode) {
	case NIZWARF_OPEN:
		return asked->flags & O_TRUNC && asked->uid && takes_bits_itself(call);
	case NIZWARF_FALLOCATE:
	case NIZWARF_COPY:
	case NIZWARF_COPY_64:
		return asked->uid && asked->uid != UINT32_MAX;
	default:
		return asked->uid && sets_nothing(asked);
	}
}

/* Returns whether the host must clear set-ID bits, as for a process that lacks CAP_FSETID. */
static bool kills(const struct call *call)
{
	const nizwarf_call *asked = call->asked;

	return call->worker->is_root &&
	       (asked->has & NIZWARF_KILL_SUIDGID || kills_untold(call) ||
		(asked->opcode == NIZWARF_SETATTR && nizwarf_setattr_fields(asked) & FATTR_KILL_SUIDGID) ||
		(asked->opcode == NIZWARF_SETXATTR && nizwarf_setxattr_ext_flags(asked) & CLEARS_GROUP));
}

void lose_fsetid(const struct call *call)
{
	const uint64_t all = call->worker->capabilities;
	uint32_t group;

	if (!kills(call))
		return;
	if (ids_to_host(&call->all->options.groups, call->asked->gid, &group))
		group = NO_GROUP;
	/* (root's group is that of many files, and a request does not always contain the caller's group) */
	syscall(SYS_setfsgid, group == UINT32_MAX ? NO_GROUP : group);
	set_capabilities(all, all & ~(UINT64_C(1) << CAP_FSETID));
}

void regain_fsetid(const struct call *call)
{
	if (!kills(call))
		return;
	set_capabilities(call->worker->capabilities, call->worker->capabilities);
	syscall(SYS_setfsgid, call->worker->gid);
}

/* The capabilities that are needed to create, change, own and read files for any caller. */
static const int kept[] = { CAP_CHOWN, CAP_DAC_OVERRIDE, CAP_FOWNER, CAP_FSETID,
			    CAP_MKNOD, CAP_SETFCAP,	 CAP_SETGID, CAP_SETUID };

/* Reduces the calling thread's capabilities to these, and fills in which of them it had. Returns -1 with errno on
 * error. The others cannot be regained, because they are no longer permitted. */
static int limit(uint64_t *left, const struct passthrough_options *options)
{
	struct __user_cap_header_struct header = { _LINUX_CAPABILITY_VERSION_3, 0 };
	struct __user_cap_data_struct had[2];
	/* (with this capability handles are opened, which can open any file of the file system) */
	const bool opens_handles =
		options->file_handles != HANDLES_NEVER || options->migration_mode == MIGRATES_BY_HANDLES;
	uint64_t mask = opens_handles ? UINT64_C(1) << CAP_DAC_READ_SEARCH : 0;

	for (size_t i = 0; i < sizeof(kept) / sizeof(*kept); i++)
		mask |= UINT64_C(1) << kept[i];
	mask = (mask | options->more_capabilities) & ~options->fewer_capabilities;
	if (syscall(SYS_capget, &header, had))
		return -1;
	*left = mask & (had[0].permitted | (uint64_t)had[1].permitted << 32);
	/* (a capability that --modcaps adds must not be left out silently) */
	if (options->more_capabilities & mask & ~*left) {
		errno = EPERM;
		return -1;
	}
	return set_capabilities(*left, *left);
}

int passthrough_limit(const struct passthrough_options *options)
{
	uint64_t left;

	return geteuid() == 0 ? limit(&left, options) : 0;
}

int begin_worker(struct worker *w, const struct passthrough_options *options)
{
	/* (each worker has its own umask) */
	if (options->posix_acl && unshare(CLONE_FS))
		return -1;
	w->is_root = geteuid() == 0;
	w->keeps_groups = options->keeps_groups;
	if (!w->is_root)
		return 0;
	/* (a user namespace may have no group 0: then files of root get the server's group) */
	w->gid = syscall(SYS_setresgid, -1, 0, -1) ? getegid() : 0;
	return limit(&w->capabilities, options) || (!w->keeps_groups && syscall(SYS_setgroups, 0, NULL)) ?
		       -1 :
		       0;
}
