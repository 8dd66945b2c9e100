/* nizwarf-mount: mounts the file system of the library on a directory, over /dev/fuse, and serves it until it is
 * unmounted. It requires root, and only root can use the file system, or everyone with allow_other.
 *
 * Usage: nizwarf-mount [-o OPTIONS] [--trace[=FILE]] DIRECTORY
 *
 * --help lists the options. SIGINT, SIGTERM and SIGHUP unmount. If the directory is in use then, it is unmounted
 * when its last user closes it, or at a second signal, or after two seconds if a request still waits. The server
 * has one caller at a time, so two workers are enough; but over io_uring there is one for each processor, because
 * their other work takes longer.
 *
 * This file parses the options, and has a server under a lock, which is called in three ways: `serve` calls it,
 * for a trace; `serve_traced` does so under the lock; and `serve_apart` copies the reply after releasing the lock.
 * The transport is fuse_device.c, which main() calls; its workers call the functions of `by`.
 *
 * Users of the mount are not trusted: Linux checks permissions (default_permissions), and the memory of their
 * files is limited by `size` and `nr_inodes`, which have defaults. The command line is root's.
 *
 * Exit status 0: it was unmounted; 1: an error occurred; 2: the command line is invalid. Errors are printed on
 * standard error. */
#define _GNU_SOURCE
#include <errno.h>
#include <getopt.h>
#include <pthread.h>
#include <stdarg.h>
#include <stdio.h>
#include <stdlib.h>
#include <string.h>
#include <sys/mount.h>
#include <time.h>
#include <unistd.h>
#include "heap.h"
#include "nizwarf_tree.h"
#include "trace.h"

static const char usage[] =
	"Usage: nizwarf-mount [-o OPTIONS] [--trace[=FILE]] DIRECTORY\n"
	"Mounts a file system in memory on the directory, and serves it until it is unmounted or\n"
	"SIGINT or SIGTERM arrives.\n"
	"\n"
	"Options of -o, separated by commas; -o may be repeated:\n"
	"  allow_other             allow all users, and not only root, as permissions say\n"
	"  ro, rw                  mount read-only, or for reading and writing (the default)\n"
	"  noexec, nosuid, nodev   ignore execute permissions, set-ID bits and device nodes; the last\n"
	"                          two always apply\n"
	"  size=N, nr_inodes=N     the most bytes, and the most files; N may end in k, m or g\n"
	"  mode=N, uid=N, gid=N    the permissions of the root directory in octal, its owner and group\n"
	"  fsname=NAME             the name that df shows; nizwarf by default\n"
	"  writeback               let the kernel cache writes and send them later\n"
	"  max_read=N              the most bytes of one read\n"
	"  io_uring, no_io_uring   receive requests by io_uring if Linux supports it (the default), or\n"
	"                          by read and write only\n"
	"\n"
	"      --trace[=FILE]      print each request and reply on standard error, or write their bytes\n"
	"                          to a new FILE for nizwarf-decode\n"
	"      --version           print the version\n"
	"  -h, --help              print this text\n";

/* The options, which are set before there are workers, except for the time, which the first worker sets. Sizes are
 * in bytes. Strings point into the arguments of main(), and are not freed. */
static nizwarf_server_config settings = NIZWARF_SERVER_CONFIG;
static unsigned long flags = MS_NOSUID | MS_NODEV, max_read = NIZWARF_MAX_PAYLOAD;
static const char *name = "nizwarf", *allow_other = "", *trace_file;
static int traces, by_ring = 1;

/* Prints why the command line is invalid, and exits. */
static __attribute__((format(printf, 1, 2))) _Noreturn void refuse_words(const char *format, ...)
{
	va_list arguments;

	fputs("nizwarf-mount: ", stderr);
	va_start(arguments, format);
	vfprintf(stderr, format, arguments);
	va_end(arguments);
	fputs("\nTry 'nizwarf-mount --help' for more information.\n", stderr);
	exit(2);
}

/* Returns a number from `least` to `most`. It may end in one of the suffixes, of which the first means 1024, the
 * second 1024 times that, and so on. */
static uint64_t number(const char *key, const char *value, const char *suffixes, int base, uint64_t least,
		       uint64_t most)
{
	static const char wrong[] = "invalid number '%s' for option '-o %s'";
	uint64_t n;
	char *end;

	if (!value)
		refuse_words("option '-o %s' requires an argument", key);
	/* strtoull() accepts white space and signs too. */
	if (*value < '0' || *value > '9')
		refuse_words(wrong, value, key);
	errno = 0;
	n = strtoull(value, &end, base);
	if (*end) {
		const char *suffix = strchr(suffixes, *end);
		const int shift = suffix ? 10 * (int)(suffix - suffixes + 1) : 0;

		if (!suffix || end[1] || n > UINT64_MAX >> shift)
			refuse_words(wrong, value, key);
		n <<= shift;
	}
	if (errno || n < least || n > most)
		refuse_words(wrong, value, key);
	return n;
}

/* Handles one option: a name, whose value is NULL, or KEY=VALUE. If an option is repeated, the last one applies.
 * If it is invalid, exits with status 2. A user or group id must be below 2^32 - 1, and max_read must be at least
 * a page. */
static void take_option(const char *key, char *value)
{
	static const struct {
		const char *word;
		unsigned long set, clear;
	} known[] = { { "ro", MS_RDONLY, 0 },
		      { "rw", 0, MS_RDONLY },
		      { "noexec", MS_NOEXEC, 0 },
		      { "nosuid", MS_NOSUID, 0 },
		      { "nodev", MS_NODEV, 0 } };

	for (size_t i = 0; !value && i < sizeof(known) / sizeof(*known); i++)
		if (!strcmp(key, known[i].word)) {
			flags = (flags | known[i].set) & ~known[i].clear;
			return;
		}
	if (!value && !strcmp(key, "allow_other"))
		allow_other = ",allow_other";
	else if (!value && !strcmp(key, "writeback"))
		settings.flags |= NIZWARF_WRITEBACK;
	else if (!value && (!strcmp(key, "io_uring") || !strcmp(key, "no_io_uring")))
		by_ring = *key == 'i';
	else if (value && *value && !strcmp(key, "fsname"))
		name = value;
	else if (!strcmp(key, "size"))
		settings.bytes = number(key, value, "kmg", 10, 1, INT64_MAX);
	else if (!strcmp(key, "nr_inodes"))
		settings.nodes = number(key, value, "kmg", 10, 1, INT64_MAX);
	else if (!strcmp(key, "mode"))
		settings.mode = (uint32_t)number(key, value, "", 8, 0, 07777);
	else if (!strcmp(key, "uid"))
		settings.uid = (uint32_t)number(key, value, "", 10, 0, UINT32_MAX - 1);
	else if (!strcmp(key, "gid"))
		settings.gid = (uint32_t)number(key, value, "", 10, 0, UINT32_MAX - 1);
	else if (!strcmp(key, "max_read"))
		max_read = number(key, value, "", 10, 4096, NIZWARF_MAX_PAYLOAD);
	else
		refuse_words("unrecognized option '-o %s'", key);
}

/* Handles options separated by commas. It modifies the text. Empty options are ignored. */
static void take_options(char *rest)
{
	char *option;

	while ((option = strsep(&rest, ","))) {
		const char *key = strsep(&option, "=");

		if (*key)
			take_option(key, option);
	}
}

/* The long options, as numbers above those of letters. */
enum word { TRACE = 256, VERSION, HELP };

static const struct option known_words[] = { { "trace", optional_argument, NULL, TRACE },
					     { "version", no_argument, NULL, VERSION },
					     { "help", no_argument, NULL, HELP },
					     { 0 } };

/* Handles an option that getopt_long(3) found. An abbreviation, which getopt_long(3) accepts, is refused, because
 * a new option could make it ambiguous. `known` is NULL if it is not a long option. */
static void take_word(int found, const char *word, const struct option *known)
{
	const char letter[] = { '-', (char)optopt, 0 };

	if (known && strcspn(word, "=") != strlen(known->name) + 2)
		found = '?';
	switch (found) {
	case 'o':
		take_options(optarg);
		break;
	case TRACE:
		traces = 1;
		trace_file = optarg;
		break;
	case VERSION:
		printf("nizwarf-mount %d.%d.%d, FUSE 7.38\n", NIZWARF_VERSION_MAJOR, NIZWARF_VERSION_MINOR,
		       NIZWARF_VERSION_PATCH);
		exit(fflush(stdout) != 0);
	case 'h':
	case HELP:
		fputs(usage, stdout);
		exit(fflush(stdout) != 0);
	case ':':
		refuse_words("option '%s' requires an argument", letter);
	default:
		if (!known && optopt >= TRACE)
			refuse_words("option '%.*s' doesn't allow an argument", (int)strcspn(word, "="),
				     word);
		refuse_words("unrecognized option '%s'", !known && optopt ? letter : word);
	}
}

/* Parses the arguments and returns the directory. It exits if an option only prints something. */
static const char *take_words(int count, char **words)
{
	opterr = 0;
	for (int found, i = -1; (found = getopt_long(count, words, ":ho:", known_words, &i)) != -1; i = -1)
		take_word(found, words[optind - 1], i < 0 ? NULL : &known_words[i]);
	if (optind == count)
		refuse_words("missing directory");
	if (optind < count - 1)
		refuse_words("unexpected argument '%s'", words[optind + 1]);
	return words[optind];
}

/* The server, which only the owner of the lock may call; and the number of workers, which the lock protects too. A
 * trace takes the lock of its file while this one is held. */
static nizwarf_server server = NIZWARF_SERVER_INIT;
static pthread_mutex_t lock = PTHREAD_MUTEX_INITIALIZER;
static unsigned callers;
/* With a trace, the function that it calls. Otherwise, the memory of each worker's last reply, by its number,
 * which only that worker uses, and frees when it ends. */
static nizwarf_transport traced;
static nizwarf_reply_buf taken[NIZWARF_MAX_WORKERS + 1];

/* How often a worker tries the lock before it sleeps: about 100 microseconds, in which the data of two or three
 * requests are copied. */
enum { LOOKS = 5000 };

/* The first worker to begin creates the server, and the last one to end frees it with all its files. A result
 * other than 0 ends the transport. The time is that of the new root directory. */
static int begin(void *user, unsigned worker)
{
	int32_t code = NIZWARF_OK;
	struct timespec now;

	(void)user, (void)worker;
	pthread_mutex_lock(&lock);
	if (!callers) {
		clock_gettime(CLOCK_REALTIME, &now);
		settings.seconds = (uint64_t)now.tv_sec;
		settings.nanoseconds = (uint32_t)now.tv_nsec;
		code = nizwarf_server_new(&server, (uint32_t)sysconf(_SC_PAGESIZE), NIZWARF_MAX_PAYLOAD,
					  &settings);
	}
	callers += code == NIZWARF_OK;
	pthread_mutex_unlock(&lock);
	if (code != NIZWARF_OK)
		fprintf(stderr, "nizwarf-mount: cannot create the file system: code %d of nizwarf.h\n",
			(int)code);
	return code != NIZWARF_OK;
}

static void end(void *user, unsigned worker)
{
	(void)user;
	pthread_mutex_lock(&lock);
	nizwarf_reply_buf_free(&taken[worker]);
	if (!--callers)
		nizwarf_server_free(&server);
	pthread_mutex_unlock(&lock);
}

/* Sets the server's time, for files that the next request creates or changes. The lock must be held. */
static void tell_time(void)
{
	struct timespec now;

	clock_gettime(CLOCK_REALTIME, &now);
	nizwarf_server_set_time(&server, (uint64_t)now.tv_sec, (uint32_t)now.tv_nsec);
}

/* Calls the server, which writes the reply to the buffers. The lock must be held. */
static int32_t serve(void *user, unsigned worker, const struct iovec *request, size_t segments,
		     const struct iovec *room, size_t rooms, size_t *len)
{
	(void)user, (void)worker;
	tell_time();
	return nizwarf_server_handle(&server, request, segments, room, rooms, len);
}

/* Takes the lock. (It tries before it sleeps, because other workers hold the lock only for a short time, unless
 * they copy much data.) */
static void take_server(void)
{
	for (int i = 0; i < LOOKS; i++)
		if (!pthread_mutex_trylock(&lock))
			return;
	pthread_mutex_lock(&lock);
}

/* Releases the lock. (The heap is checked before that, so by one thread at a time.) */
static void leave_server(void)
{
	heap_look();
	pthread_mutex_unlock(&lock);
}

/* The same with a trace, so that the trace has the order of the server. */
static int32_t serve_traced(void *user, unsigned worker, const struct iovec *request, size_t segments,
			    const struct iovec *room, size_t rooms, size_t *len)
{
	int32_t code;

	take_server();
	code = traced.serve(user, worker, request, segments, room, rooms, len);
	leave_server();
	return code;
}

/* Copies a reply to the buffers, which are large enough, because the server got their size. */
static void put_reply(const unsigned char *reply, size_t len, const struct iovec *room)
{
	for (size_t done; len; room++, reply += done, len -= done) {
		done = len < room->iov_len ? len : room->iov_len;
		memcpy(room->iov_base, reply, done);
	}
}

/* The same, but the reply is copied while another worker may call the server. The reply is in memory that belongs
 * to this worker until its next call. NULL: there is no reply. */
static int32_t serve_apart(void *user, unsigned worker, const struct iovec *request, size_t segments,
			   const struct iovec *room, size_t rooms, size_t *len)
{
	const void *reply;
	size_t space = 0;
	int32_t code;

	(void)user;
	for (size_t i = 0; i < rooms; i++)
		space += room[i].iov_len;
	take_server();
	tell_time();
	code = nizwarf_server_handle_take(&server, request, segments, space, &taken[worker], &reply, len);
	leave_server();
	if (reply)
		put_reply(reply, *len, room);
	return code;
}

int main(int count, char **words)
{
	nizwarf_transport by = { .size = sizeof(by),
				 .program = "nizwarf-mount",
				 .workers = 2,
				 .withheld = FUSE_ATOMIC_O_TRUNC | NIZWARF_WANT_ALLOW_IDMAP,
				 .begin = begin,
				 .end = end,
				 .serve = serve };
	const char *folder = take_words(count, words);
	char options[80];
	int device;

	by.io_uring = by_ring;
	heap_begin();
	if (traces && trace_begin(&by, trace_file))
		return 1;
	/* (serve_traced() calls the function of the trace, which calls serve()) */
	traced = by;
	by.serve = traces ? serve_traced : serve_apart;
	/* (with default_permissions Linux checks permissions by the attributes that the server returns) */
	snprintf(options, sizeof(options), "default_permissions,max_read=%lu%s", max_read, allow_other);
	device = nizwarf_fuse_mount(&by, name, folder, flags, options);
	return device < 0 ? 1 : nizwarf_fuse_serve(&by, device, folder);
}
