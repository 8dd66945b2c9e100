/* nizwarf-vhost: the file system of the library over vhost-user, as the virtio-fs device of a virtual machine.
 *
 * Usage: nizwarf-vhost [--trace[=FILE]] SOCKET
 *
 * A front end such as QEMU connects to the socket. When it disconnects, the next one is served, with the same
 * files; one that connects earlier waits. SIGINT, SIGTERM and SIGHUP end the program. The server has one caller,
 * so there is one worker, which completes a request before it reads the next one.
 *
 * Exit status 0: a signal ended it, and the socket was removed; 1: an error occurred; 2: the command line is
 * invalid. */
#define _GNU_SOURCE
#include <stdbool.h>
#include <stdio.h>
#include <string.h>
#include <time.h>
#include <unistd.h>
#include "guard.h"
#include "heap.h"
#include "nizwarf_tree.h"
#include "trace.h"

static const char usage[] =
	"Usage: nizwarf-vhost [--trace[=FILE]] SOCKET\n"
	"Serves a file system in memory on a new socket, as a vhost-user device of virtio-fs, to one\n"
	"front end such as QEMU after another, until SIGINT or SIGTERM arrives.\n"
	"\n"
	"      --trace[=FILE]  print each request and reply on standard error, or write their bytes to\n"
	"                      a new FILE for nizwarf-decode\n"
	"      --version       print the version\n"
	"  -h, --help          print this text\n";

/* The server, which only the worker uses. Its files are lost when the process exits. */
static nizwarf_server server = NIZWARF_SERVER_INIT;

/* Creates the server. A result other than 0 ends the transport. */
static int begin(void *user, unsigned worker)
{
	nizwarf_server_config settings = NIZWARF_SERVER_CONFIG;
	struct timespec now;

	(void)user, (void)worker;
	clock_gettime(CLOCK_REALTIME, &now);
	settings.seconds = (uint64_t)now.tv_sec;
	settings.nanoseconds = (uint32_t)now.tv_nsec;
	if (nizwarf_server_new(&server, (uint32_t)sysconf(_SC_PAGESIZE), NIZWARF_MAX_PAYLOAD, &settings) ==
	    NIZWARF_OK)
		return 0;
	fputs("nizwarf-vhost: cannot create the file system\n", stderr);
	return 1;
}

static void end(void *user, unsigned worker)
{
	(void)user, (void)worker;
	nizwarf_server_free(&server);
}

/* Handles a request in the guest's memory. (The server reads the request once, and never reads the reply, so a
 * guest that changes them harms only itself. Requests are copied before.) */
static int32_t serve(void *user, unsigned worker, const struct iovec *request, size_t segments,
		     const struct iovec *room, size_t rooms, size_t *len)
{
	struct timespec now;
	int32_t code;

	(void)user, (void)worker;
	clock_gettime(CLOCK_REALTIME, &now);
	/* (the library does not read the clock, so this is the time of changes by this request) */
	nizwarf_server_set_time(&server, (uint64_t)now.tv_sec, (uint32_t)now.tv_nsec);
	code = nizwarf_server_handle(&server, request, segments, room, rooms, len);
	/* (there is only one worker, so this is called by one thread at a time) */
	heap_look();
	return code;
}

static void *remove_it(void *none)
{
	vhost_user_remove_socket();
	return none;
}

/* Called when the process exits. If the file system of the socket does not respond, the socket is left. */
static void remove_socket(void *user)
{
	(void)user;
	guard_call(remove_it);
}

static void leave(void)
{
	remove_socket(NULL);
}

/* Handles an option that only prints something. Returns whether it is one. */
static bool prints(const char *word)
{
	const bool is_version = !strcmp(word, "--version");

	if (!is_version && strcmp(word, "--help") != 0 && strcmp(word, "-h") != 0)
		return false;
	if (is_version)
		printf("nizwarf-vhost %d.%d.%d, FUSE 7.38\n", NIZWARF_VERSION_MAJOR, NIZWARF_VERSION_MINOR,
		       NIZWARF_VERSION_PATCH);
	else
		fputs(usage, stdout);
	return true;
}

int main(int count, char **words)
{
	nizwarf_transport by = {
		.size = sizeof(by),
		.program = "nizwarf-vhost",
		.workers = 1,
		/* (files have no handles, so OPEN may be skipped: Linux truncates by SETATTR) */
		.withheld = FUSE_ATOMIC_O_TRUNC | NIZWARF_WANT_ALLOW_IDMAP,
		.begin = begin,
		.end = end,
		.left = remove_socket,
		.serve = serve
	};
	const char *trace = NULL;
	int listener, status;

	if (count == 2 && prints(words[1]))
		return fflush(stdout) != 0; /* output that cannot be written is an error */
	if (count > 1 && (!strcmp(words[1], "--trace") || !strncmp(words[1], "--trace=", 8))) {
		trace = words[1] + strlen("--trace");
		count--;
		words++;
	}
	if (count != 2 || words[1][0] == '-') {
		if (count > 1 && words[1][0] == '-')
			fprintf(stderr, "nizwarf-vhost: unrecognized option '%s'\n", words[1]);
		else if (count > 2)
			fprintf(stderr, "nizwarf-vhost: unexpected argument '%s'\n", words[2]);
		else
			fputs("nizwarf-vhost: missing socket path\n", stderr);
		fputs("Try 'nizwarf-vhost --help' for more information.\n", stderr);
		return 2;
	}
	/* (before the socket exists, so that the first client is traced too) */
	if (trace && trace_begin(&by, *trace ? trace + 1 : NULL))
		return 1;
	heap_begin();
	/* (the file system of the socket may not respond) */
	if (guard_begin(by.program, leave))
		return 1;
	listener = vhost_user_listen(&by, words[1]);
	guard_end();
	if (listener < 0)
		return -listener; /* 1: an error occurred; 2: the path is invalid */
	status = vhost_user_serve(&by, listener);
	remove_socket(NULL);
	return status;
}
