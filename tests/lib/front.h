/* The front end of a vhost-user daemon of virtio-fs with queues for requests, for the programs that take the place of a guest. */
#ifndef FRONT_H
#define FRONT_H

#include <errno.h>
#include <linux/virtio_ring.h>
#include <stdint.h>
#include <stdio.h>
#include <stdlib.h>
#include <string.h>
#include <sys/eventfd.h>
#include <sys/mman.h>
#include <sys/socket.h>
#include <sys/un.h>
#include <time.h>
#include <unistd.h>

/* The rings of a queue lie in QUEUE bytes of the memory: that of requests begins at QUEUE. */
enum { QUEUE = 1 << 16, AVAILABLE = 1 << 14, USED = 1 << 15, MOST_QUEUES = 9 };

static unsigned char *memory;
/* Descriptors: of the socket, of the shared memory, and for each queue the events by which each side calls the
 * other. */
static int connection, memory_file, kick[MOST_QUEUES], call[MOST_QUEUES];

/* What isn't so ends the program with status 3, and says why by errno. */
static inline void need(int fact, const char *what)
{
	if (!fact) {
		perror(what);
		exit(3);
	}
}

/* Sends a message, with a descriptor if that is one. Requests by their numbers in the vhost-user protocol. The
 * descriptor stays open here. */
static inline void tell(uint32_t request, const void *body, uint32_t size, int descriptor)
{
	uint32_t head[] = { request, 1, size }; /* 1: the protocol's version */
	struct iovec pieces[] = { { head, sizeof(head) }, { (void *)body, size } };
	_Alignas(struct cmsghdr) char control[CMSG_SPACE(sizeof(int))] = { 0 };
	struct msghdr said = { .msg_iov = pieces, .msg_iovlen = 2 };

	if (descriptor >= 0) {
		said.msg_control = control;
		said.msg_controllen = sizeof(control);
		struct cmsghdr *c = CMSG_FIRSTHDR(&said);

		c->cmsg_level = SOL_SOCKET;
		c->cmsg_type = SCM_RIGHTS;
		c->cmsg_len = CMSG_LEN(sizeof(int));
		memcpy(CMSG_DATA(c), &descriptor, sizeof(int));
	}
	need(sendmsg(connection, &said, MSG_NOSIGNAL) == (ssize_t)(sizeof(head) + size), "a message");
}

static inline void tell_number(uint32_t request, uint64_t number, int descriptor)
{
	tell(request, &number, sizeof(number), descriptor);
}

/* Of a queue, as its number of entries, or that it's enabled. */
static inline void tell_state(uint32_t request, uint32_t queue, uint32_t number)
{
	const uint32_t body[] = { queue, number };

	tell(request, body, sizeof(body), -1);
}

/* The number that the daemon replies to a request without a body. */
static inline uint64_t ask_number(uint32_t request)
{
	uint32_t head[3];
	uint64_t number = 0;

	tell(request, "", 0, -1);
	need(recv(connection, head, sizeof(head), MSG_WAITALL) == sizeof(head) && head[2] == sizeof(number) &&
		     recv(connection, &number, sizeof(number), MSG_WAITALL) == sizeof(number),
	     "an answer");
	return number;
}

/* Connects as soon as the daemon listens. The name of its socket may be there before that. */
static inline void meet(const char *path)
{
	const struct timespec pause = { 0, 10000000 }; /* 10 ms, and that a thousand times */
	struct sockaddr_un address = { .sun_family = AF_UNIX };

	need(strlen(path) < sizeof(address.sun_path), path); /* a socket's path has 107 bytes at most */
	strcpy(address.sun_path, path);
	connection = socket(AF_UNIX, SOCK_STREAM | SOCK_CLOEXEC, 0);
	for (int tries = 0; connect(connection, (struct sockaddr *)&address, sizeof(address)); tries++) {
		need(tries < 1000 && (errno == ENOENT || errno == ECONNREFUSED), path);
		nanosleep(&pause, NULL);
	}
}

/* Shares a new memory of `size` bytes, and starts that many queues, of which those after the first are for requests,
 * of `entries` descriptors. Gives the features that were agreed on: those that it takes, and of those that are liked
 * what the daemon has. The memory is one region from the guest's address 0 on. */
static inline uint64_t begin_queues(uint32_t queues, size_t size, uint32_t entries, uint64_t liked)
{
	const int file = memory_file = memfd_create("memory", MFD_CLOEXEC);
	const uint64_t wanted = 1ull << 32 | 1ull << 30; /* VIRTIO_F_VERSION_1, PROTOCOL_FEATURES */

	need(file >= 0 && !ftruncate(file, (off_t)size), "memfd");
	memory = mmap(NULL, size, PROT_READ | PROT_WRITE, MAP_SHARED, file, 0);
	need(memory != MAP_FAILED, "mmap");

	const uint64_t at = (uintptr_t)memory;
	const struct {
		uint32_t count, padding;
		uint64_t guest, size, user, offset;
	} table = { 1, 0, 0, size, at, 0 };	/* one region */
	const uint64_t offered = ask_number(1); /* GET_FEATURES */

	need((offered & wanted) == wanted, "the daemon's features");
	ask_number(15);					/* GET_PROTOCOL_FEATURES */
	tell_number(16, 0, -1);				/* SET_PROTOCOL_FEATURES: none */
	tell(3, "", 0, -1);				/* SET_OWNER */
	tell_number(2, wanted | (offered & liked), -1); /* SET_FEATURES */
	tell(5, &table, sizeof(table), file);		/* SET_MEM_TABLE */
	for (uint32_t q = 0; q < queues; q++) {
		const uint64_t ring = at + q * QUEUE;
		/* (addresses of this process, as the protocol has them) */
		const struct {
			uint32_t queue, flags;
			uint64_t descriptors, used, available, log;
		} place = { q, 0, ring, ring + USED, ring + AVAILABLE, 0 };

		kick[q] = eventfd(0, EFD_CLOEXEC);  /* by which the daemon is told of requests */
		call[q] = eventfd(0, EFD_CLOEXEC);  /* by which it tells of those that are done */
		tell_state(8, q, entries);	    /* SET_VRING_NUM */
		tell_state(10, q, 0);		    /* SET_VRING_BASE */
		tell(9, &place, sizeof(place), -1); /* SET_VRING_ADDR */
		tell_number(13, q, call[q]);	    /* SET_VRING_CALL */
		tell_number(12, q, kick[q]);	    /* SET_VRING_KICK */
		tell_state(18, q, 1);		    /* SET_VRING_ENABLE */
	}
	/* An answer, so the queues are started: a daemon may pass over a kick before that. */
	ask_number(1);
	return wanted | (offered & liked);
}

/* The table of the first queue for requests. */
static inline struct vring_desc *descriptors(void)
{
	return (void *)(memory + QUEUE);
}

#endif
