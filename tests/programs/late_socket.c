/* Serves a socket that keeps messages apart as if it were /dev/fuse. One request is answered later, by a thread, and its
 * reply waits, since the way back is full and nobody reads. Prints a line once the reply is being sent. */
#define _GNU_SOURCE
#include <stdatomic.h>
#include <stdio.h>
#include <sys/socket.h>
#include <unistd.h>
#include "transport.h"

static nizwarf_request *_Atomic kept;

static void *complete(void *unused)
{
	static unsigned char reply[1000];
	const struct fuse_out_header header = { sizeof(reply), 0, 7 };
	nizwarf_request *later;

	(void)unused;
	while (!(later = atomic_load(&kept)))
		usleep(1000);
	memcpy(reply, &header, sizeof(header));
	puts("sending");
	nizwarf_request_complete(later, NIZWARF_OK, reply, sizeof(reply));
	return NULL;
}

static int32_t serve(void *user, unsigned worker, const struct iovec *request, size_t segments,
		     const struct iovec *room, size_t rooms, size_t *len)
{
	nizwarf_request *const later = nizwarf_request_keep();

	(void)user, (void)worker, (void)request, (void)segments, (void)room, (void)rooms, (void)len;
	atomic_store(&kept, later);
	return later ? NIZWARF_CALL : NIZWARF_OUT_OF_MEMORY;
}

int main(void)
{
	static const char fill[200];
	const struct fuse_in_header request = { .len = sizeof(request), .opcode = FUSE_GETATTR, .unique = 7 };
	const nizwarf_transport by = {
		.size = sizeof(by), .program = "late_socket", .workers = 1, .serve = serve
	};
	pthread_t thread;
	int end[2];

	setvbuf(stdout, NULL, _IONBF, 0);
	transport_hold_signals(SIG_BLOCK);
	if (socketpair(AF_UNIX, SOCK_SEQPACKET, 0, end))
		return 2;
	while (send(end[0], fill, sizeof(fill), MSG_DONTWAIT) > 0)
		;
	if (send(end[1], &request, sizeof(request), 0) < 0 || pthread_create(&thread, NULL, complete, NULL))
		return 2;
	return nizwarf_fuse_serve(&by, end[0], NULL);
}
