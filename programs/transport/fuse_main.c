/* Runs a file system that is a table of functions: nizwarf_fuse_main() of nizwarf_fuse.h. */
#define _GNU_SOURCE
#include <fcntl.h>
#include <getopt.h>
#include <inttypes.h>
#include <stdatomic.h>
#include <stdio.h>
#include <stdlib.h>
#include <string.h>
#include <sys/mount.h>
#include <unistd.h>
#include "fusermount.h"
#include "say.h"
#include "transport.h"

/* The number of directory entries in one reply, after which Linux reads again. */
enum { ITEMS = 64 };
enum { SUCCESS = 0, FAILURE = 1, USAGE = 2, SERVES = -1 };

struct program {
	nizwarf_ops ops;
	void *user;
	nizwarf_session session;
	/* Each worker needs scratch memory of its own. */
	nizwarf_scratch scratch[NIZWARF_MAX_WORKERS];
	/* The options and arguments. `fd` is -1 without --fd. */
	unsigned workers;
	int fd, has_mount_options;
	const char *mountpoint, *source;
	unsigned long flags;
	char options[512];
};

static const char usage[] =
	"Usage: %s [OPTION..] MOUNTPOINT\n"
	"Mounts a file system, and serves it until it is unmounted or a signal comes.\n\n"
	"  -o OPTIONS     mount options, separated by commas: ro, noexec, noatime and others\n"
	"                 of mount(8), fsname=NAME, max_read=N, allow_other\n"
	"  -f             serve in the foreground, which is always so\n"
	"  --workers N    number of threads that serve, 1 to %d (default: 1)\n"
	"  --fd N         serve the descriptor N instead of a mount\n"
	"  -h, --help     print this help\n"
	"  -V, --version  print the version of the library\n";

/* Prints why the command line is invalid, and returns USAGE. */
static int refuse(const char *what, const char *given)
{
	fprintf(stderr, "%s: %s%s%s\nTry '%s --help' for more information.\n", program_invocation_short_name,
		what, given ? ": " : "", given ? given : "", program_invocation_short_name);
	return USAGE;
}

/* Parses a decimal number from `least` to `most`. Returns -1 if the text is invalid. */
static int number(const char *text, long least, long most)
{
	char *end;
	long value;

	errno = 0;
	value = strtol(text, &end, 10);
	return errno || end == text || *end || value < least || value > most ? -1 : (int)value;
}

static int take_mount_option(struct program *p, const char *option)
{
	const size_t used = strlen(p->options);

	for (const struct mount_flag *it = mount_flags; it->name; it++)
		if (!strcmp(option, it->name)) {
			p->flags = it->is_set ? p->flags | it->flag : p->flags & ~it->flag;
			return SERVES;
		}
	if (!strncmp(option, "fsname=", 7)) {
		p->source = option + 7;
		return SERVES;
	}
	if (strcmp(option, "default_permissions") != 0 && strcmp(option, "allow_other") != 0 &&
	    strncmp(option, "max_read=", 9) != 0)
		return refuse("unknown mount option", option);
	if ((size_t)snprintf(p->options + used, sizeof(p->options) - used, ",%s", option) >=
	    sizeof(p->options) - used)
		return refuse("mount options are too long", option);
	return SERVES;
}

static int take_mount_options(struct program *p, char *options)
{
	const char *option;
	int status = SERVES;

	p->has_mount_options = 1;
	while (status == SERVES && (option = strsep(&options, ",")))
		if (*option)
			status = take_mount_option(p, option);
	return status;
}

static int take_option(struct program *p, int option)
{
	const uint32_t version = nizwarf_version();
	int value;

	switch (option) {
	case 'o':
		return take_mount_options(p, optarg);
	case 'f':
		return SERVES;
	case 'w':
		value = number(optarg, 1, NIZWARF_MAX_WORKERS);
		p->workers = (unsigned)value;
		return value < 0 ? refuse("invalid number of workers", optarg) : SERVES;
	case 'd':
		p->fd = number(optarg, 0, INT32_MAX);
		return p->fd < 0 || fcntl(p->fd, F_GETFD) < 0 ? refuse("invalid descriptor", optarg) : SERVES;
	case 'h':
		return printf(usage, program_invocation_short_name, NIZWARF_MAX_WORKERS) < 0 ||
		       fflush(stdout) != 0;
	case 'V':
		return printf("Nizwarf %" PRIu32 ".%" PRIu32 ".%" PRIu32 "\n", version >> 16,
			      version >> 8 & 255, version & 255) < 0 ||
		       fflush(stdout) != 0;
	default:
		/* getopt_long() has printed the reason. */
		fprintf(stderr, "Try '%s --help' for more information.\n", program_invocation_short_name);
		return USAGE;
	}
}

/* Parses the command line. Returns SERVES, or the exit status. */
static int take_words(struct program *p, int argc, char **argv)
{
	static const struct option known[] = { { "workers", required_argument, NULL, 'w' },
					       { "fd", required_argument, NULL, 'd' },
					       { "help", no_argument, NULL, 'h' },
					       { "version", no_argument, NULL, 'V' },
					       { NULL, 0, NULL, 0 } };
	int option, status = SERVES;

	/* The program may have used getopt() before, so scanning must begin anew. */
	optind = 0;
	while (status == SERVES && (option = getopt_long(argc, argv, "o:fhV", known, NULL)) != -1)
		status = take_option(p, option);
	if (status != SERVES)
		return status;
	if (p->fd >= 0)
		return argc > optind || p->has_mount_options ?
			       refuse("--fd cannot be combined with a mount point or mount options", NULL) :
			       SERVES;
	if (argc <= optind)
		return refuse("missing mount point", NULL);
	if (argc > optind + 1)
		return refuse("too many arguments", argv[optind + 1]);
	p->mountpoint = argv[optind];
	return SERVES;
}

/* Is used if the table has no bad_error. It reports the first error only. */
static void report(void *user, const nizwarf_call *call, int error)
{
	static atomic_flag reported = ATOMIC_FLAG_INIT;

	(void)user;
	if (!atomic_flag_test_and_set(&reported))
		transport_say(
			program_invocation_short_name,
			"opcode %u returned %d, which is not an error number of errno.h: EIO is replied",
			(unsigned)call->opcode, error);
}

static int32_t serve(void *user, unsigned worker, const struct iovec *request, size_t request_count,
		     const struct iovec *reply, size_t reply_count, size_t *reply_len)
{
	struct program *p = user;
	nizwarf_dirent items[ITEMS];

	/* Without io_uring the request and the reply buffer are one segment each. */
	(void)request_count, (void)reply_count;
	return nizwarf_serve_ops(&p->ops, p->user, &p->scratch[worker], &p->session, request->iov_base,
				 request->iov_len, reply->iov_base, reply->iov_len, items, ITEMS, reply_len);
}

static int run(struct program *p)
{
	const nizwarf_transport by = { .size = sizeof(by),
				       .program = program_invocation_short_name,
				       .workers = p->workers,
				       .user = p,
				       .serve = serve };
	int device = p->fd;

	if (device < 0)
		device = nizwarf_fuse_mount(&by, p->source ? p->source : by.program, p->mountpoint, p->flags,
					    p->options);
	return device < 0 ? FAILURE : nizwarf_fuse_serve(&by, device, p->mountpoint);
}

int nizwarf_fuse_main(int argc, char **argv, const nizwarf_ops *ops, void *user)
{
	struct program p = { .ops = *ops,
			     .user = user,
			     .session = { 0, (uint32_t)sysconf(_SC_PAGESIZE), NIZWARF_MAX_PAYLOAD },
			     .workers = 1,
			     .fd = -1,
			     .flags = MS_NOSUID | MS_NODEV,
			     .options = "default_permissions" };
	int status = take_words(&p, argc, argv), null;

	if (status != SERVES)
		return status;
	/* Standard streams that are closed are opened here, so that no other file gets their descriptors. */
	do
		null = open("/dev/null", O_RDWR);
	while (null >= 0 && null <= STDERR_FILENO);
	if (null >= 0)
		close(null);
	if (!p.ops.bad_error)
		p.ops.bad_error = report;
	status = run(&p);
	nizwarf_end_ops(&p.ops, user, &p.session);
	for (unsigned i = 0; i < NIZWARF_MAX_WORKERS; i++)
		nizwarf_scratch_free(&p.scratch[i]);
	return status;
}
