/* The command line of nizwarf-share: share_words.h. It is parsed first, in one thread, with the privileges and in
 * the directory in which the program was started. After that, only main() changes `words`.
 *
 * Options are given by a person, by a manager of virtual machines that writes them as for virtiofsd, or by
 * mount(8) from a line of fstab(5) (share_helped.c). An option may be written as --no-readdirplus or, with -o, as
 * no_readdirplus. An invalid option ends the program with status 2 and a message that names it. */
#define _GNU_SOURCE
#include <ctype.h>
#include <errno.h>
#include <getopt.h>
#include <limits.h>
#include <linux/xattr.h>
#include <stdio.h>
#include <stdlib.h>
#include <string.h>
#include <strings.h>
#include <sys/mount.h>
#include <unistd.h>
#include "share_helped.h"
#include "share_refuse.h"
#include "share_sandbox.h"
#include "share_words.h"
#include "transport.h"

/* The default limits of descriptors, of files that a client knows, and of workers. */
enum { MOST_FILES = 1000000, MOST_NODES = 10000000, WORKERS = 4 };

/* The defaults. */
struct share_words words = {
	.files = { .cache = CACHE_AUTO,
		   .backing = -1,
		   .readdirplus = true,
		   .file_handles = HANDLES_NEVER,
		   .announce_submounts = true,
		   .kills_bits = true,
		   .most_nodes = MOST_NODES,
		   .workers = WORKERS,
		   .entry_time = AS_CACHE_SAYS,
		   .attr_time = AS_CACHE_SAYS },
	.allow_other = "",
	/* (so that set-ID bits and devices have no effect below the mount point, unless suid or dev is given) */
	.flags = MS_NOSUID | MS_NODEV,
	.max_read = NIZWARF_MAX_PAYLOAD,
	.most_files = MOST_FILES,
	.fd = -1,
	.sandbox = -1,
	.filter = -1,
	.says_more = true,
};

/* Returns a decimal number in a range. It must begin with a digit, because strtoul() would accept white space and
 * a sign before it. */
static unsigned long number(const char *key, const char *value, unsigned long least, unsigned long most)
{
	unsigned long n;
	char *end;

	errno = 0;
	n = value && *value >= '0' && *value <= '9' ? strtoul(value, &end, 10) : 0;
	if (!value || *value < '0' || *value > '9' || *end || errno || n < least || n > most)
		refuse("%s must be a number from %lu to %lu, not '%s'", key, least, most, value ? value : "");
	return n;
}

/* Returns the index of a value in a list that ends with NULL, ignoring case. Callers use the index as an enum in
 * the same order. */
static int one_of(const char *key, const char *value, const char *const *known)
{
	/* (each list is a constant of this file, and shorter) */
	char text[100] = "";
	size_t len = 0;

	for (int i = 0; known[i]; i++)
		if (!strcasecmp(value, known[i]))
			return i;
	for (int i = 0; known[i]; i++)
		len += (size_t)snprintf(text + len, sizeof(text) - len, "%s%s", i ? ", " : "", known[i]);
	refuse("%s must be one of %s, not '%s'", key, text, value);
}

/* Returns milliseconds, from seconds that may have digits after a point. Hexadecimal numbers and exponents are
 * refused, and so are more than 1e9 seconds, about thirty years. */
static uint64_t milliseconds(const char *key, const char *value)
{
	double seconds = -1;
	char *end = NULL;

	if (value && *value >= '0' && *value <= '9' && !strpbrk(value, "xXeEpP"))
		seconds = strtod(value, &end);
	if (!end || *end || !(seconds >= 0 && seconds <= 1e9))
		refuse("-o %s must be a number of seconds from 0 to 1000000000, not '%s'", key,
		       value ? value : "");
	return (uint64_t)(seconds * 1000 + 0.5);
}

/* The log levels of virtiofsd: from info on, messages that are not errors are printed, and from debug on each
 * request is traced. */
static void take_log_level(const char *value)
{
	static const char *const levels[] = { "off", "error", "warn", "info", "debug", "trace", NULL };
	const int level = one_of("--log-level", value, levels);

	/* (error and warn are the same) */
	words.is_off = level == 0;
	words.says_more = level >= 3;
	words.traces = level >= 4;
}

/* Handles an option of mount(8) for all file systems. Returns whether it is one. The kernel checks permissions
 * anyway, so default_permissions has no effect. */
static bool take_flag(const char *key)
{
	static const struct {
		const char *word;
		unsigned long set, clear;
	} known[] = { { "ro", MS_RDONLY, 0 },		{ "rw", 0, MS_RDONLY },
		      { "noexec", MS_NOEXEC, 0 },	{ "exec", 0, MS_NOEXEC },
		      { "nosuid", MS_NOSUID, 0 },	{ "suid", 0, MS_NOSUID },
		      { "nodev", MS_NODEV, 0 },		{ "dev", 0, MS_NODEV },
		      { "sync", MS_SYNCHRONOUS, 0 },	{ "async", 0, MS_SYNCHRONOUS },
		      { "dirsync", MS_DIRSYNC, 0 },	{ "noatime", MS_NOATIME, 0 },
		      { "atime", 0, MS_NOATIME },	{ "nodiratime", MS_NODIRATIME, 0 },
		      { "diratime", 0, MS_NODIRATIME }, { "relatime", MS_RELATIME, 0 },
		      { "default_permissions", 0, 0 } };

	for (size_t i = 0; i < sizeof(known) / sizeof(*known); i++)
		if (!strcmp(key, known[i].word)) {
			words.flags = (words.flags | known[i].set) & ~known[i].clear;
			return true;
		}
	return false;
}

/* Handles an old option of virtiofsd, as managers of virtual machines use them. Returns whether it is one. */
static bool take_switch(const char *key)
{
	static const struct {
		const char *word;
		bool *what, is;
	} known[] = { { "xattr", &words.files.xattr, true },
		      { "no_xattr", &words.files.xattr, false },
		      { "posix_acl", &words.files.posix_acl, true },
		      { "no_posix_acl", &words.files.posix_acl, false },
		      { "writeback", &words.files.writeback, true },
		      { "no_writeback", &words.files.writeback, false },
		      { "readdirplus", &words.files.readdirplus, true },
		      { "no_readdirplus", &words.files.readdirplus, false },
		      { "announce_submounts", &words.files.announce_submounts, true },
		      { "killpriv_v2", &words.files.kills_bits, true },
		      { "no_killpriv_v2", &words.files.kills_bits, false },
		      { "security_label", &words.files.security_label, true },
		      { "no_security_label", &words.files.security_label, false },
		      { "allow_direct_io", &words.files.allow_direct, true },
		      { "no_allow_direct_io", &words.files.allow_direct, false },
		      { "flock", &words.files.flock, true },
		      { "no_flock", &words.files.flock, false },
		      { "posix_lock", &words.files.posix_lock, true },
		      { "no_posix_lock", &words.files.posix_lock, false } };

	for (size_t i = 0; i < sizeof(known) / sizeof(*known); i++)
		if (!strcmp(key, known[i].word)) {
			*known[i].what = known[i].is;
			return true;
		}
	return false;
}

/* Parses the rules of --xattrmap, and finds the name that they give to file capabilities. The rules are never
 * freed; if the option is repeated, the last one applies. */
static void take_xattr_map(const char *rules)
{
	static struct xattr_name capability;
	char text[24] = "";
	const char *why;
	unsigned rule;

	words.files.xattr_map = xattr_map_read(rules, &why, &rule);
	if (!words.files.xattr_map) {
		if (rule)
			snprintf(text, sizeof(text), "rule %u: ", rule);
		refuse("invalid --xattrmap='%s': %s%s (a valid example is --xattrmap=:map::user.virtiofs.:)",
		       rules, text, why);
	}
	words.files.capability = xattr_is_renamed(XATTR_NAME_CAPS, &capability) ? capability.bytes : NULL;
}

/* (in the order of enum sandbox; the other lists are in that of their enums too) */
static const char *const sandboxes[] = { "none", "chroot", "namespace", NULL };

/* The same for options with a value. (`none` is virtiofsd's old name of the cache policy never; it is the last in
 * the list, because it has no number in the enum.) */
static bool take_setting(const char *key, char *value)
{
	static const char *const caches[] = { "never", "auto", "always", "metadata", "none", NULL };
	int cache;

	if (!strcmp(key, "source")) {
		words.folder = value;
	} else if (!strcmp(key, "cache")) {
		cache = one_of("-o cache", value, caches);
		words.files.cache = cache <= CACHE_METADATA ? (enum passthrough_cache)cache : CACHE_NEVER;
	} else if (!strcmp(key, "sandbox")) {
		words.sandbox = one_of("-o sandbox", value, sandboxes);
	} else if (!strcmp(key, "loglevel")) {
		take_log_level(strcmp(value, "err") != 0 ? value : "error");
	} else if (!strcmp(key, "modcaps")) {
		take_capabilities(value);
	} else if (!strcmp(key, "xattrmap")) {
		take_xattr_map(value);
	} else {
		return false;
	}
	return true;
}

/* Accepts an option that mount(8) and other programs read from fstab(5), but file systems do not. Returns whether
 * it is one. With nofail a directory that does not exist is not an error. */
static bool take_of_others(const char *key)
{
	static const char *const known[] = { "defaults", "auto",    "noauto",  "user",	  "nouser",
					     "users",	 "nousers", "owner",   "noowner", "group",
					     "nogroup",	 "nofail",  "_netdev", "comment" };

	words.may_be_missing |= !strcmp(key, "nofail");
	for (size_t i = 0; i < sizeof(known) / sizeof(*known); i++)
		if (!strcmp(key, known[i]))
			return true;
	return !strncasecmp(key, "x-", 2);
}

/* Whether an option has a value. */
enum values { NO_OPTION, TAKES_NONE, TAKES_ONE };

static enum values values_of_word(const char *key);

/* The same for all options of -o. */
static enum values values_of(const char *key)
{
	static const char *const with[] = { "source",	     "cache",	     "sandbox",		"loglevel",
					    "modcaps",	     "xattrmap",     "fsname",		"max_read",
					    "entry_timeout", "attr_timeout", "negative_timeout" };
	static const char *const without[] = { "allow_other", "io_uring", "no_io_uring" };

	for (size_t i = 0; i < sizeof(with) / sizeof(*with); i++)
		if (!strcmp(key, with[i]))
			return TAKES_ONE;
	for (size_t i = 0; i < sizeof(without) / sizeof(*without); i++)
		if (!strcmp(key, without[i]))
			return TAKES_NONE;
	return values_of_word(key);
}

/* Refuses an option of -o: it is unknown, or its value is missing or not allowed. */
static _Noreturn void refuse_option(const char *key, const char *value)
{
	const enum values takes = take_flag(key) || take_switch(key) ? TAKES_NONE : values_of(key);

	if (takes == TAKES_NONE && value)
		refuse("option '-o %s' doesn't allow an argument", key);
	if (takes == TAKES_ONE)
		refuse("option '-o %s' requires an argument", key);
	refuse_usage("unrecognized option '-o %s'", key);
}

static bool take_as_word(const char *key, char *value);

/* Parses one option of -o: a name, or KEY=VALUE. An option that is not one of those above may be a long option
 * without its dashes. An unknown option is refused, unless mount(8) has passed -s, or changes a mount, whose
 * options the kernel listed. */
static void take_option(const char *key, char *value)
{
	if ((value ? take_setting(key, value) : take_flag(key) || take_switch(key)) || take_of_others(key))
		return;
	if (!value && !strcmp(key, "allow_other"))
		words.allow_other = ",allow_other";
	else if (!value && (!strcmp(key, "io_uring") || !strcmp(key, "no_io_uring")))
		words.by_ring = *key == 'i';
	else if (value && *value && !strcmp(key, "fsname"))
		words.source = value;
	else if (value && !strcmp(key, "max_read"))
		words.max_read = number("-o max_read", value, 4096, NIZWARF_MAX_PAYLOAD);
	else if (value && !strcmp(key, "entry_timeout"))
		words.files.entry_time = milliseconds(key, value);
	else if (value && !strcmp(key, "attr_timeout"))
		words.files.attr_time = milliseconds(key, value);
	else if (value && !strcmp(key, "negative_timeout"))
		words.files.negative_time = milliseconds(key, value);
	else if (!value && helped.is_there && !strcmp(key, "remount"))
		helped.remounts = true;
	else if (!take_as_word(key, value) && !helped.is_sloppy && !helped.remounts)
		refuse_option(key, value);
}

/* Returns the next option of a list. In the path of source= a comma is doubled: each pair becomes one in place,
 * and does not end the option. */
static char *next_option(char **rest)
{
	char *option = strsep(rest, ",");

	while (option && !strncmp(option, "source=", 7) && *rest && **rest == ',') {
		/* (strsep() has replaced the first comma by a 0) */
		(*rest)[-1] = ',';
		memmove(*rest, *rest + 1, strlen(*rest));
		strsep(rest, ",");
	}
	return option;
}

/* (a list may contain empty options) */
void take_options(char *rest)
{
	char *option;

	while ((option = next_option(&rest))) {
		const char *key = strsep(&option, "=");

		if (*key || option)
			take_option(key, option);
	}
}

/* The long options, as numbers above those of letters. Their order matters: those from CACHE to TRACE are accepted
 * by -o too; those from MIGRATION_MODE to CONFIRM_PATHS are for migration. */
enum word {
	/* The directory, where it is served, and which group may connect. */
	SHARED_DIR = 256,
	SOCKET_PATH,
	FD,
	SOCKET_GROUP,
	/* Options of managers of virtual machines. */
	TAG,
	SYSLOG,
	/* Migration. */
	MIGRATION_MODE,
	MIGRATION_ON_ERROR,
	VERIFY_HANDLES,
	UNLINKED_FILES,
	CONFIRM_PATHS,
	/* Caching. */
	CACHE,
	ALLOW_MMAP,
	ALLOW_DIRECT_IO,
	WRITEBACK,
	/* Attributes and locks. */
	XATTR,
	XATTRMAP,
	SECURITY_LABEL,
	POSIX_ACL,
	FLOCK,
	POSIX_LOCK,
	/* Features of a mount's kernel. */
	PASSTHROUGH,
	WATCH,
	/* Which files are shown, and whether they can be changed. */
	READONLY,
	NO_READDIRPLUS,
	ANNOUNCE,
	NO_ANNOUNCE,
	KILLPRIV,
	NO_KILLPRIV,
	NOATIME,
	/* How many files the server holds, and by what. */
	NODE_LIMIT,
	FILE_HANDLES,
	/* Resources and privileges of the process. */
	MODCAPS,
	POOL,
	NOFILE,
	SANDBOX,
	UID_MAP,
	GID_MAP,
	/* Ids. */
	TRANSLATE_UID,
	TRANSLATE_GID,
	/* System calls and messages. */
	SECCOMP,
	LOG,
	TRACE,
	/* Only long options, which -o does not accept. */
	DAEMONIZE,
	PRINT,
	VERSION,
	HELP
};

static const struct option known_words[] = {
	/* The directory, and where it is served. The order is that of the enum. */
	{ "shared-dir", required_argument, NULL, SHARED_DIR },
	{ "socket-path", required_argument, NULL, SOCKET_PATH },
	/* (virtiofsd's old name) */
	{ "socket", required_argument, NULL, SOCKET_PATH },
	{ "fd", required_argument, NULL, FD },
	{ "socket-group", required_argument, NULL, SOCKET_GROUP },
	{ "tag", required_argument, NULL, TAG },
	{ "syslog", no_argument, NULL, SYSLOG },
	/* Migration. */
	{ "migration-mode", required_argument, NULL, MIGRATION_MODE },
	{ "migration-on-error", required_argument, NULL, MIGRATION_ON_ERROR },
	{ "migration-verify-handles", no_argument, NULL, VERIFY_HANDLES },
	{ "migration-unlinked-files", no_argument, NULL, UNLINKED_FILES },
	{ "migration-confirm-paths", no_argument, NULL, CONFIRM_PATHS },
	/* From here to trace: options that -o accepts too. */
	{ "cache", required_argument, NULL, CACHE },
	{ "allow-mmap", no_argument, NULL, ALLOW_MMAP },
	{ "allow-direct-io", no_argument, NULL, ALLOW_DIRECT_IO },
	{ "writeback", no_argument, NULL, WRITEBACK },
	{ "xattr", no_argument, NULL, XATTR },
	{ "xattrmap", required_argument, NULL, XATTRMAP },
	{ "security-label", no_argument, NULL, SECURITY_LABEL },
	{ "posix-acl", no_argument, NULL, POSIX_ACL },
	{ "flock", no_argument, NULL, FLOCK },
	{ "posix-lock", no_argument, NULL, POSIX_LOCK },
	{ "passthrough", no_argument, NULL, PASSTHROUGH },
	{ "watch", no_argument, NULL, WATCH },
	{ "readonly", no_argument, NULL, READONLY },
	{ "no-readdirplus", no_argument, NULL, NO_READDIRPLUS },
	{ "announce-submounts", no_argument, NULL, ANNOUNCE },
	{ "no-announce-submounts", no_argument, NULL, NO_ANNOUNCE },
	{ "killpriv-v2", no_argument, NULL, KILLPRIV },
	{ "no-killpriv-v2", no_argument, NULL, NO_KILLPRIV },
	{ "preserve-noatime", no_argument, NULL, NOATIME },
	{ "node-limit", required_argument, NULL, NODE_LIMIT },
	{ "inode-file-handles", required_argument, NULL, FILE_HANDLES },
	{ "modcaps", required_argument, NULL, MODCAPS },
	{ "thread-pool-size", required_argument, NULL, POOL },
	{ "rlimit-nofile", required_argument, NULL, NOFILE },
	{ "sandbox", required_argument, NULL, SANDBOX },
	{ "uid-map", required_argument, NULL, UID_MAP },
	{ "gid-map", required_argument, NULL, GID_MAP },
	{ "translate-uid", required_argument, NULL, TRANSLATE_UID },
	{ "translate-gid", required_argument, NULL, TRANSLATE_GID },
	{ "seccomp", required_argument, NULL, SECCOMP },
	{ "log-level", required_argument, NULL, LOG },
	{ "trace", optional_argument, NULL, TRACE },
	/* And no more. */
	{ "daemonize", no_argument, NULL, DAEMONIZE },
	{ "print-capabilities", no_argument, NULL, PRINT },
	{ "version", no_argument, NULL, VERSION },
	{ "help", no_argument, NULL, HELP },
	{ 0 },
};

/* Prints the text of an option and exits with status 0, or 1 if it cannot be written. The features are those of
 * vhost-user back ends, which managers of virtual machines query. */
static _Noreturn void print(int word)
{
	if (word == PRINT)
		puts("{\n  \"type\": \"fs\",\n  \"features\": [\n    \"migrate-precopy\",\n    \"separate-options\"\n  ]\n}");
	else if (word == VERSION)
		printf("nizwarf-share %d.%d.%d, FUSE 7.38, %s libseccomp\n", NIZWARF_VERSION_MAJOR,
		       NIZWARF_VERSION_MINOR, NIZWARF_VERSION_PATCH, has_filter ? "with" : "without");
	else
		fputs(share_usage, stdout);
	exit(fflush(stdout) != 0);
}

/* Parses a range of ids: three numbers with separators between and around them, such as :0:100000:65536: for
 * inside, outside and count. It modifies the text. (4294967295 is not an id, and no range contains it.) */
static void take_range(const char *key, char *rest, struct id_map *map)
{
	const char sign[] = { *rest, 0 };
	const size_t len = strlen(rest);
	unsigned long value[3];
	struct id_range *range;

	if (len < 2 || isalnum((unsigned char)*sign) || rest[len - 1] != *sign)
		refuse("%s must have the form :ID:HOST:COUNT:, such as :0:100000:65536:, not '%s'", key,
		       rest);
	if (map->count == MOST_RANGES)
		refuse("%s can be given at most %d times", key, MOST_RANGES);
	rest[len - 1] = 0;
	rest++;
	for (int i = 0; i < 3; i++)
		value[i] = number(key, strsep(&rest, sign), i == 2, UINT32_MAX - (i == 2 ? 0 : 1));
	if (rest || value[0] + value[2] > UINT32_MAX || value[1] + value[2] > UINT32_MAX)
		refuse("%s must have three numbers and no id above 4294967294", key);
	range = &map->ranges[map->count++];
	*range = (struct id_range){ (uint32_t)value[0], (uint32_t)value[1], (uint32_t)value[2] };
}

/* Adds a rule of --translate-uid or --translate-gid. An invalid rule ends the program. */
static void take_translation(const char *key, const char *rule, struct ids *ids)
{
	const char *why = ids_add(ids, rule);

	if (why)
		refuse("invalid %s=%s: %s", key, rule, why);
}

/* Handles an option without a value, which sets a flag. Returns whether it is one. */
static bool take_plain(int word)
{
	static const struct {
		bool *what;
		int word;
		bool is;
	} known[] = {
		/* The field, the option, and the value that it sets. */
		{ &words.logs, SYSLOG, true },
		{ &words.files.verifies, VERIFY_HANDLES, true },
		{ &words.files.takes_unlinked, UNLINKED_FILES, true },
		{ &words.confirms, CONFIRM_PATHS, true },
		{ &words.files.allow_mmap, ALLOW_MMAP, true },
		{ &words.files.allow_direct, ALLOW_DIRECT_IO, true },
		{ &words.files.writeback, WRITEBACK, true },
		{ &words.files.xattr, XATTR, true },
		{ &words.files.security_label, SECURITY_LABEL, true },
		{ &words.files.posix_acl, POSIX_ACL, true },
		{ &words.files.flock, FLOCK, true },
		{ &words.files.posix_lock, POSIX_LOCK, true },
		{ &words.files.passthrough, PASSTHROUGH, true },
		{ &words.watches, WATCH, true },
		{ &words.files.read_only, READONLY, true },
		{ &words.files.readdirplus, NO_READDIRPLUS, false },
		{ &words.files.announce_submounts, ANNOUNCE, true },
		{ &words.files.announce_submounts, NO_ANNOUNCE, false },
		{ &words.files.kills_bits, KILLPRIV, true },
		{ &words.files.kills_bits, NO_KILLPRIV, false },
		{ &words.files.keeps_noatime, NOATIME, true },
		{ &words.daemonizes, DAEMONIZE, true },
	};

	for (size_t i = 0; i < sizeof(known) / sizeof(*known); i++)
		if (known[i].word == word) {
			*known[i].what = known[i].is;
			return true;
		}
	return false;
}

/* Handles an option from CACHE to TRACE. */
static void take_served(int word)
{
	static const char *const caches[] = { "never", "auto", "always", "metadata", NULL };
	static const char *const filters[] = { "none", "kill", "trap", "log", NULL };
	static const char *const handles[] = { "never", "prefer", "mandatory", "fallback", NULL };
	static const char *const modes[] = { "find-paths", "file-handles", NULL };
	static const char *const on_errors[] = { "abort", "guest-error", NULL };
	int which;

	/* (by the order of the enum) */
	words.migrates |= word >= MIGRATION_MODE && word <= CONFIRM_PATHS;
	if (take_plain(word))
		return;
	switch (word) {
	/* Migration. */
	case MIGRATION_MODE:
		words.files.migration_mode = (enum migration_mode)one_of("--migration-mode", optarg, modes);
		break;
	case MIGRATION_ON_ERROR:
		words.files.loses_files = one_of("--migration-on-error", optarg, on_errors) == 1;
		break;
	/* The files. */
	case CACHE:
		words.files.cache = (enum passthrough_cache)one_of("--cache", optarg, caches);
		break;
	case XATTRMAP:
		take_xattr_map(optarg);
		break;
	case NODE_LIMIT:
		words.files.most_nodes = (unsigned)number("--node-limit", optarg, 2, INT_MAX);
		break;
	case FILE_HANDLES:
		/* (fallback is the same as prefer) */
		which = one_of("--inode-file-handles", optarg, handles);
		words.files.file_handles =
			which <= HANDLES_ALONE ? (enum file_handles)which : HANDLES_PREFERRED;
		break;
	/* Resources and privileges. */
	case MODCAPS:
		take_capabilities(optarg);
		break;
	/* With 0, virtiofsd has no pool and serves on one thread; here this means one worker. A larger number is
	 * reduced to the limit. */
	case POOL:
		words.files.workers = (unsigned)number("--thread-pool-size", optarg, 0, UINT_MAX);
		words.files.workers += !words.files.workers;
		if (words.files.workers > NIZWARF_MAX_WORKERS)
			words.files.workers = NIZWARF_MAX_WORKERS;
		break;
	/* (0 leaves the limit unchanged) */
	case NOFILE:
		words.most_files = number("--rlimit-nofile", optarg, 0, INT_MAX);
		words.wants_files = true;
		break;
	/* Sandbox and ids. */
	case SANDBOX:
		words.sandbox = one_of("--sandbox", optarg, sandboxes);
		break;
	case UID_MAP:
		take_range("--uid-map", optarg, &words.uids);
		break;
	case GID_MAP:
		take_range("--gid-map", optarg, &words.gids);
		break;
	case TRANSLATE_UID:
		take_translation("--translate-uid", optarg, &words.files.users);
		break;
	case TRANSLATE_GID:
		take_translation("--translate-gid", optarg, &words.files.groups);
		break;
	case SECCOMP:
		words.filter = one_of("--seccomp", optarg, filters);
		break;
	/* Messages. */
	case LOG:
		take_log_level(optarg);
		break;
	case TRACE:
		words.traces = true;
		words.trace_file = optarg;
		break;
	default:
		break;
	}
}

/* Handles an option that getopt_long(3) found; `optarg` is its argument, or NULL. */
static void take_word(int word)
{
	switch (word) {
	case 'o':
		take_options(optarg);
		break;
	case 'd':
		take_log_level("debug");
		break;
	case SHARED_DIR:
		words.folder = optarg;
		break;
	case SOCKET_PATH:
		words.socket_path = optarg;
		break;
	case FD:
		words.fd = (int)number("--fd", optarg, 0, INT_MAX);
		break;
	case SOCKET_GROUP:
		words.socket_group = optarg;
		break;
	case TAG:
		/* (the limit is that of a virtio-fs device) */
		if (!*optarg || strlen(optarg) > 36)
			refuse("--tag must have 1 to 36 bytes, not '%s'", optarg);
		words.tag = optarg;
		break;
	case 'h':
		print(HELP);
	case 'V':
		print(VERSION);
	case PRINT:
	case VERSION:
	case HELP:
		print(word);
	/* (-f, which kept virtiofsd in the foreground) */
	default:
		take_served(word);
		break;
	}
}

/* Returns whether an option has this name, with _ in place of -, as virtiofsd's options are written. */
static bool is_of_word(const char *key, const char *name)
{
	for (; *name; key++, name++)
		if (*key != (*name == '-' ? '_' : *name))
			return false;
	return !*key;
}

static enum values values_of_word(const char *key)
{
	for (const struct option *word = known_words; word->name; word++)
		if (word->val >= CACHE && word->val <= TRACE && is_of_word(key, word->name))
			return word->has_arg == required_argument ? TAKES_ONE : TAKES_NONE;
	return NO_OPTION;
}

/* Handles an option of -o that is a long option from CACHE to TRACE. Returns whether it is one and has an argument
 * exactly if it requires one. */
static bool take_as_word(const char *key, char *value)
{
	for (const struct option *word = known_words; word->name; word++) {
		if (word->val < CACHE || word->val > TRACE || !is_of_word(key, word->name))
			continue;
		if (value ? word->has_arg == no_argument : word->has_arg == required_argument)
			return false;
		/* (take_served() reads the value where getopt_long(3) stores it) */
		optarg = value;
		take_served(word->val);
		return true;
	}
	return false;
}

/* Refuses an unknown option. An abbreviation, which getopt_long(3) accepts, is refused too, because a new option
 * could make it ambiguous. */
static _Noreturn void refuse_word(int found, const char *word)
{
	const char letter[] = { '-', (char)optopt, 0 };

	if (found == ':')
		refuse_usage("option '%s' requires an argument", word);
	if (found == '?' && optopt >= SHARED_DIR)
		refuse_usage("option '%.*s' doesn't allow an argument", (int)strcspn(word, "="), word);
	refuse_unknown(known_words, found == '?' && optopt ? letter : word);
}

bool is_mount(void)
{
	return !words.socket_path && words.fd < 0;
}

/* Returns copies of the arguments, because they are modified and /proc should show the command line as it was.
 * They are one piece of memory, pointers first, and are never freed, because `words` points into them. */
static char **copies_of(int count, char **given)
{
	/* (volatile, because otherwise the compiler would remove the pointer, and a sanitizer would report a leak) */
	static char **volatile copies;
	size_t size = ((size_t)count + 1) * sizeof(*given), len;
	char *at;

	for (int i = 0; i < count; i++)
		size += strlen(given[i]) + 1;
	copies = malloc(size);
	if (!copies) {
		fprintf(stderr, "nizwarf-share: %s\n", strerror(errno));
		exit(1);
	}
	/* (the texts follow the pointers, the last of which is NULL) */
	at = (char *)(copies + count + 1);
	for (int i = 0; i < count; i++, at += len) {
		len = strlen(given[i]) + 1;
		copies[i] = memcpy(at, given[i], len);
	}
	copies[count] = NULL;
	return copies;
}

/* Parses the arguments that a person or a manager of virtual machines gave. The directory and the mount point may
 * follow the options, or the directory may be given by an option. */
static void take_given(int count, char **given)
{
	for (int found, i = -1; (found = getopt_long(count, given, ":dfho:V", known_words, &i)) != -1;
	     i = -1) {
		/* (the argument may be the next word) */
		const char *word = given[optind - 1 - (optarg == given[optind - 1])];

		/* (getopt_long(3) accepts unambiguous abbreviations: they are refused here) */
		if (found == '?' || found == ':' ||
		    (i >= 0 && strcspn(word, "=") != strlen(known_words[i].name) + 2))
			refuse_word(found, word);
		take_word(found);
	}
	if (!words.folder && optind < count)
		words.folder = given[optind++];
	if (is_mount() && optind < count)
		words.mount_point = given[optind++];
	if (optind < count)
		refuse_usage("unexpected argument '%s'", given[optind]);
}

/* Returns only if the options are valid and can be combined. Options that were not given and depend on others are
 * set here: the defaults of sandbox and filter are the strictest that are available. */
void take_words(int count, char **given)
{
	given = copies_of(count, given);
	/* (messages are printed by refuse_word()) */
	opterr = 0;
	if (is_started_by_mount(given[0]))
		take_from_mount(count, given);
	else
		take_given(count, given);
	hold_together();
	if (words.sandbox < 0)
		words.sandbox = SANDBOX_NAMESPACE;
	if (words.filter < 0)
		words.filter = has_filter ? FILTER_KILL : FILTER_NONE;
	/* (each of these requires extended attributes) */
	words.files.xattr |= words.files.posix_acl || words.files.xattr_map || words.files.security_label;
	/* (both the mount and the server must be read-only) */
	if (words.files.read_only)
		words.flags |= MS_RDONLY;
	if (words.flags & MS_RDONLY)
		words.files.read_only = true;
	/* (this exits if mount(8) only checks the arguments or changes an existing mount) */
	end_helped();
}
