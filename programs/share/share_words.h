/* The command line of nizwarf-share. */
#ifndef SHARE_WORDS_H
#define SHARE_WORDS_H

#include <stdbool.h>
#include "passthrough.h"
#include "share_users.h"

/* Its options. -1: not set. */
struct share_words {
	struct passthrough_options files;
	const char *folder, *mount_point, *socket_path, *socket_group, *source;
	const char *allow_other, *trace_file;
	unsigned long flags, max_read, most_files;
	int fd, sandbox, filter;
	struct id_map uids, gids;
	bool says_more, is_off, daemonizes, traces, watches, logs;
	/* Whether a --migration-* option was given, and --migration-confirm-paths. */
	bool migrates, confirms;
	/* --tag, which has no effect. */
	const char *tag;
	/* A mount receives requests by io_uring if Linux supports it. */
	bool by_ring;
	/* -o nofail: if the directory does not exist, nothing is mounted, and that is not an error. */
	bool may_be_missing;
	/* --rlimit-nofile was given. */
	bool wants_files;
};
extern struct share_words words;

/* The text of --help. */
extern const char share_usage[];

/* Parses and checks the command line. It exits if that is invalid, or if an option only prints something. */
void take_words(int count, char **given);

/* Parses options separated by commas. It modifies the text. */
void take_options(char *rest);

/* Parses capabilities separated by colons, each with + or - before it. It modifies the text. */
void take_capabilities(char *rest);

/* Returns whether the directory is mounted, and not served on a socket. */
bool is_mount(void);

#endif
