/* Refuses invalid command lines: share_refuse.h. A message names the option that is wrong, in the words of
 * getopt(3), and the reason if that is not obvious. */
#define _GNU_SOURCE
#include <linux/capability.h>
#include <linux/xattr.h>
#include <stdarg.h>
#include <stdio.h>
#include <stdlib.h>
#include <string.h>
#include <unistd.h>
#include "share_refuse.h"
#include "share_sandbox.h"
#include "share_words.h"

/* (status 2, because the command line is wrong, and not the host) */
_Noreturn void refuse(const char *format, ...)
{
	va_list rest;

	fputs("nizwarf-share: ", stderr);
	va_start(rest, format);
	/* (clang-tidy does not see va_start() where it looks at many files) */
	vfprintf(stderr, format, rest); // NOLINT(clang-analyzer-valist.Uninitialized)
	va_end(rest);
	fputc('\n', stderr);
	exit(2);
}

_Noreturn void refuse_usage(const char *format, ...)
{
	va_list rest;

	fputs("nizwarf-share: ", stderr);
	va_start(rest, format);
	vfprintf(stderr, format, rest); // NOLINT(clang-analyzer-valist.Uninitialized)
	va_end(rest);
	fputs("\nTry 'nizwarf-share --help' for more information.\n", stderr);
	exit(2);
}

/* Returns whether a name is probably a typo of another: one letter is added, missing or wrong, or two letters are
 * swapped. */
static bool is_typo(const char *typed, const char *name)
{
	while (*typed && *typed == *name) {
		typed++;
		name++;
	}
	if (*typed && *name &&
	    (!strcmp(typed + 1, name + 1) ||
	     (typed[1] == *name && *typed == name[1] && !strcmp(typed + 2, name + 2))))
		return true;
	return (*typed && !strcmp(typed + 1, name)) || (*name && !strcmp(typed, name + 1));
}

_Noreturn void refuse_unknown(const struct option *known, const char *word)
{
	char typed[64] = "";

	if (!strncmp(word, "--", 2))
		snprintf(typed, sizeof(typed), "%.*s", (int)strcspn(word + 2, "="), word + 2);
	for (; known->name; known++)
		if (is_typo(typed, known->name))
			refuse_usage("unrecognized option '%s' (did you mean '--%s'?)", word, known->name);
	refuse_usage("unrecognized option '%s'", word);
}

bool xattr_is_renamed(const char *name, struct xattr_name *host)
{
	return words.files.xattr_map && !xattr_map_to_host(words.files.xattr_map, name, host) &&
	       strcmp(host->bytes, name) != 0;
}

/* Refuses options for a mount's kernel that cannot be combined. */
static void hold_mount_together(void)
{
	if (words.files.passthrough && !is_mount())
		refuse("--passthrough requires a mount point: a guest's kernel cannot open files of the host");
	if (words.files.passthrough && words.files.writeback)
		refuse("--passthrough and --writeback cannot be combined: Linux supports only one of them");
	/* (Linux opens files for writing that the server may have opened only for reading) */
	if (words.files.passthrough && words.files.fewer_capabilities & UINT64_C(1) << CAP_DAC_OVERRIDE)
		refuse("--passthrough requires the capability dac_override, which --modcaps drops");
	if (words.watches && !is_mount())
		refuse("--watch requires a mount point: a virtual machine receives no notifications");
	if (words.watches && words.files.writeback)
		refuse("--watch and --writeback cannot be combined: with a writeback cache the client sets file sizes itself");
	/* (a node with a handle has no descriptor by which it could be marked) */
	if (words.watches && words.files.file_handles != HANDLES_NEVER)
		refuse("--watch and --inode-file-handles cannot be combined: watched files must stay open");
	/* (the server does not see data that a client writes itself) */
	if (words.files.passthrough && words.files.capability)
		refuse("--passthrough cannot be combined with an --xattrmap that renames " XATTR_NAME_CAPS
		       ": Linux drops file capabilities only under that name");
	/* (the buffers of a mount's data are not aligned) */
	if (words.files.allow_direct && is_mount())
		refuse("--allow-direct-io requires --socket-path or --fd");
}

/* The same for options of migration. */
static void hold_migration_together(void)
{
	if (words.migrates && is_mount())
		refuse("the --migration-* options require --socket-path or --fd");
	if (words.files.migration_mode == MIGRATES_BY_HANDLES && (words.files.verifies || words.confirms))
		refuse("--migration-mode=file-handles cannot be combined with --migration-verify-handles or "
		       "--migration-confirm-paths: a handle identifies its file");
	if (words.files.takes_unlinked && words.files.migration_mode != MIGRATES_BY_HANDLES)
		refuse("--migration-unlinked-files requires --migration-mode=file-handles");
}

/* Refuses options that require another user or another sandbox. */
static void hold_to_user(void)
{
	if (is_mount() && geteuid() != 0)
		refuse("mounting requires root");
	/* (chroot(2) requires a capability, which a user other than root has only in the user namespace of the
	 * other sandbox) */
	if (words.sandbox == SANDBOX_CHROOT && geteuid() != 0)
		refuse("--sandbox=chroot requires root");
	if ((words.files.more_capabilities || words.files.fewer_capabilities) && geteuid() != 0)
		refuse("--modcaps requires root");
	/* (root's server creates no user namespace, and needs none) */
	if ((words.uids.count || words.gids.count) && geteuid() == 0)
		refuse("--uid-map and --gid-map are only for users other than root, who has all ids");
	if ((words.uids.count || words.gids.count) && words.sandbox >= 0 &&
	    words.sandbox != SANDBOX_NAMESPACE)
		refuse("--uid-map and --gid-map require --sandbox=namespace");
}

void hold_together(void)
{
	struct xattr_name host;

	/* The directory, and where it is served. */
	if (!words.folder || !*words.folder)
		refuse_usage("missing directory to share");
	if (words.socket_path && !*words.socket_path)
		refuse("--socket-path must not be empty");
	if (is_mount() && !words.mount_point)
		refuse_usage("missing mount point or --socket-path");
	if (words.socket_path && words.fd >= 0)
		refuse("--socket-path and --fd cannot be combined");
	if (words.socket_group && !words.socket_path)
		refuse("--socket-group requires --socket-path");
	hold_to_user();
	/* Combinations of options. */
	if (words.files.posix_acl && (xattr_is_renamed(XATTR_NAME_POSIX_ACL_ACCESS, &host) ||
				      xattr_is_renamed(XATTR_NAME_POSIX_ACL_DEFAULT, &host)))
		refuse("--posix-acl requires an --xattrmap that does not rename access control lists: begin it with "
		       ":ok:all:system.posix_acl_:system.posix_acl_:");
	if (words.files.posix_acl &&
	    (ids_are_translated(&words.files.users) || ids_are_translated(&words.files.groups)))
		refuse("--posix-acl cannot be combined with --translate-uid or --translate-gid: access control lists contain ids too");
	hold_mount_together();
	hold_migration_together();
	if (words.filter > FILTER_NONE && !has_filter)
		refuse("--seccomp is not supported: built without libseccomp");
}
