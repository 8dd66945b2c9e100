/* Checks requests for a FUSE server that trusts its client, as a server over libfuse does, which expects
 * well-formed requests because the kernel sends no others.
 *
 * Usage: check DESCRIPTOR PROGRAM [ARGUMENT..]
 *
 * The descriptor must be a socket that preserves message boundaries, such as SOCK_SEQPACKET. At its other end
 * is the peer, which may send anything. The program is started with one more argument, the descriptor of
 * another such socket, and must serve FUSE there, as a session of libfuse with custom io does. Each request is
 * copied and passed to nizwarf_check. If it requires a call of the file system, it is passed on unchanged, and
 * so is the reply. This program replies to all others itself:
 *
 * - to a malformed request with EIO;
 * - to a request that needs no file system, such as one with an unknown opcode, with the reply of
 *   nizwarf_decode;
 * - to a request whose length is not the one in its header, and to a WRITE with fewer data than its size, with
 *   EIO, although nizwarf_check accepts both;
 * - to a request for which no function exists, such as SETUPMAPPING, with ENOSYS.
 *
 * The options are those of the program's reply to INIT. No request is passed on before this reply or after a
 * DESTROY, and no INIT after a successful one, because the peer chooses the numbers of requests, so that the
 * reply to an INIT could not be recognised among other replies. The program must check names, nodes and handles itself, because only
 * the program knows which exist.
 *
 * Exit status: 0 if the peer has disconnected, 1 if the program has disconnected or a system call failed, 2 if
 * the arguments are invalid. A message on standard error says which, and how many requests were passed on. */
#define _GNU_SOURCE
#include <errno.h>
#include <linux/fuse.h>
#include <poll.h>
#include <stdio.h>
#include <stdlib.h>
#include <string.h>
#include <sys/socket.h>
#include <sys/wait.h>
#include <unistd.h>
#include "nizwarf.h"

/* In bytes: the largest payload of libfuse, and the longest message, which also has a header and a record. */
enum { PAYLOAD = 1 << 20, LONGEST = PAYLOAD + 4096 };

/* The optional operations that are passed on. A program that lacks one replies ENOSYS itself. */
enum {
	FEATURES = NIZWARF_FEATURE_LOCKS | NIZWARF_FEATURE_BMAP | NIZWARF_FEATURE_IOCTL |
		   NIZWARF_FEATURE_POLL | NIZWARF_FEATURE_STATX | NIZWARF_FEATURE_COPY_64 |
		   NIZWARF_FEATURE_TMPFILE | NIZWARF_FEATURE_NOTIFY_REPLY
};

/* The result of judge() for a request that must be passed on. */
enum { PASS_ON = -1 };

static const char usage[] = "Usage: check DESCRIPTOR PROGRAM [ARGUMENT..]\n"
			    "Passes well-formed FUSE requests of the descriptor to the program, and replies\n"
			    "to the others itself. The program gets a descriptor as one more argument.\n";
/* The request and its reply. Both are copies, so that the peer cannot change them while they are checked. */
static unsigned char request[LONGEST], room[LONGEST];
static nizwarf_session session = { 0, 4096, PAYLOAD }; /* (the page size matters only in replies to INIT) */
static nizwarf_scratch scratch = NIZWARF_SCRATCH_INIT;
/* The sockets of the peer and of the program. */
static int peer, behind;
/* No INIT yet; an INIT was passed on; its reply was successful; a DESTROY was passed on. */
static enum state { NEW, ASKED, AGREED, OVER } state;

/* Prints the reason, from errno, and exits with status 1. */
static _Noreturn void stop(const char *what)
{
	fprintf(stderr, "check: cannot %s: %s\n", what, strerror(errno));
	exit(1);
}

/* Stores an error reply in `room`, and returns its length, or 0 if no reply is due: Linux expects none to these four
 * opcodes. */
static ssize_t refuse(const struct fuse_in_header *asked, int error)
{
	const struct fuse_out_header reply = { sizeof(reply), -error, asked->unique };

	if (asked->opcode == FUSE_FORGET || asked->opcode == FUSE_BATCH_FORGET ||
	    asked->opcode == FUSE_INTERRUPT || asked->opcode == FUSE_NOTIFY_REPLY)
		return 0;
	memcpy(room, &reply, sizeof(reply));
	return sizeof(reply);
}

/* Replies to a request that needs no file system: stores the reply in `room`, and returns its length. */
static ssize_t finish(size_t size)
{
	const struct iovec piece = { request, size };
	const struct iovec whole = { room, LONGEST };
	nizwarf_call call;
	nizwarf_result result;

	/* (nizwarf_check has found that no call is to be made) */
	nizwarf_decode(&scratch, &session, 0, &piece, 1, &whole, 1, &call, &result);
	return (ssize_t)result.len;
}

/* Checks a request. Returns PASS_ON, or the length of the reply that it has stored in `room`, which may be 0. `size`
 * is larger than `request` if the message was truncated. */
static ssize_t judge(size_t size)
{
	struct fuse_in_header asked;
	uint64_t interrupts;
	nizwarf_call call;
	int32_t code;

	/* (a reply needs the number of the request, which is in the header) */
	if (size < sizeof(asked))
		return 0;
	memcpy(&asked, request, sizeof(asked));
	if (asked.len != size || size > sizeof(request))
		return refuse(&asked, EIO);
	/* (an INTERRUPT, for which `interrupts` is set, makes no call, but the program must receive it) */
	code = nizwarf_check(&session, FEATURES, request, size, LONGEST, &call, &interrupts);
	if (code == NIZWARF_OK)
		return interrupts && state == AGREED ? PASS_ON : finish(size);
	if (code != NIZWARF_CALL)
		return refuse(&asked, EIO);
	/* (no program serves these, whichever features it has) */
	if (call.reply == NIZWARF_REPLY_ERROR || call.reply == NIZWARF_REPLY_ERROR_OR_NONE)
		return refuse(&asked, ENOSYS);
	/* (libfuse would pass bytes after the end of the message to the file system) */
	if (call.opcode == NIZWARF_WRITE && call.size > call.data.len)
		return refuse(&asked, EIO);
	/* (libfuse would accept requests before its reply to INIT) */
	if (state != (call.opcode == NIZWARF_INIT ? NEW : AGREED))
		return refuse(&asked, EIO);
	if (call.opcode == NIZWARF_INIT)
		state = ASKED;
	if (call.opcode == NIZWARF_DESTROY)
		state = OVER;
	return PASS_ON;
}

/* Reads the negotiated options from the reply to an INIT. After an error the peer may send another INIT. A message
 * with an `error` above 0 is a notice, not a reply. The record of an old version is shorter; the missing fields
 * are 0. */
static void agree(const unsigned char *reply, size_t size)
{
	struct fuse_init_out agreed = { 0 };
	struct fuse_out_header head = { 0 };

	memcpy(&head, reply, size < sizeof(head) ? size : sizeof(head));
	if (head.error > 0)
		return;
	size -= size < sizeof(head) ? size : sizeof(head);
	memcpy(&agreed, reply + sizeof(head), size < sizeof(agreed) ? size : sizeof(agreed));
	session.options = agreed.flags | (uint64_t)agreed.flags2 << 32;
	state = size && !head.error ? AGREED : NEW;
}

/* Sends the reply in `room` to the peer, or EIO if the reply is longer than the longest message of the socket. This may
 * block if the peer reads no replies, which harms nobody else. */
static void reply(size_t size)
{
	struct fuse_out_header head;

	if (send(peer, room, size, MSG_NOSIGNAL) >= 0 || errno == EPIPE || errno == ECONNRESET)
		return;
	/* (a header always fits, so the recursion ends) */
	if (errno != EMSGSIZE || size <= sizeof(head))
		stop("send a reply");
	memcpy(&head, room, sizeof(head));
	head.len = sizeof(head);
	head.error = -EIO;
	memcpy(room, &head, sizeof(head));
	reply(sizeof(head));
}

/* Passes a reply of the program to the peer. Returns 0 if the program has disconnected. */
static int pass_back(void)
{
	/* (with MSG_TRUNC recv returns the size of the message, even if it is larger than the buffer) */
	const ssize_t size = recv(behind, room, sizeof(room), MSG_TRUNC);

	if (size < 0 && errno != ECONNRESET)
		stop("receive a reply of the program");
	if (size <= 0)
		return 0;
	if ((size_t)size > sizeof(room)) {
		errno = EMSGSIZE;
		stop("receive a reply of the program");
	}
	/* (no other request is passed on before this reply, so it can only be that to the INIT, or a notice) */
	if (state == ASKED)
		agree(room, (size_t)size);
	reply((size_t)size);
	return 1;
}

/* Passes a request to the program. Returns 1, 0 if the request is longer than the longest message of the socket, or -1
 * if the program has disconnected. */
static int pass_on(size_t size)
{
	/* (this must not block in send, because the program may itself wait until its replies are read) */
	while (send(behind, request, size, MSG_NOSIGNAL | MSG_DONTWAIT) < 0) {
		struct pollfd wait = { behind, POLLIN | POLLOUT, 0 };

		if (errno == EMSGSIZE)
			return 0;
		if (errno == EPIPE || errno == ECONNRESET)
			return -1;
		if (errno != EAGAIN || (poll(&wait, 1, -1) < 0 && errno != EINTR))
			stop("pass on a request");
		if (wait.revents & POLLIN && !pass_back())
			return -1;
	}
	return 1;
}

/* Receives a request of the peer, and passes it on or replies. Returns 1, 0 if the peer has disconnected, or -1 if the
 * program has. */
static int take(unsigned long *asked, unsigned long *handed)
{
	const ssize_t size = recv(peer, request, sizeof(request), MSG_TRUNC);
	/* (judge() changes the state as if the request were passed on) */
	const enum state before = state;
	struct fuse_in_header head;
	ssize_t made;
	int given;

	if (size < 0 && errno != ECONNRESET)
		stop("receive a request");
	if (size <= 0)
		return 0;
	++*asked;
	made = judge((size_t)size);
	if (made == PASS_ON) {
		given = pass_on((size_t)size);
		if (given < 0)
			return -1;
		/* (judge() rejects requests without a header) */
		memcpy(&head, request, sizeof(head));
		made = given ? 0 : refuse(&head, EIO);
		/* (after an INIT that was not passed on, no reply would ever change the state) */
		if (!given)
			state = before;
		*handed += (unsigned)given;
	}
	if (made > 0)
		reply((size_t)made);
	return 1;
}

/* Serves until the peer or the program has disconnected; returns 1 if it was the peer. No request is received while the
 * program has an INIT, because the reply decides how the next one is checked. */
static int serve(unsigned long *asked, unsigned long *handed)
{
	for (;;) {
		/* (poll ignores a descriptor of -1) */
		struct pollfd wait[] = { { behind, POLLIN, 0 }, { state == ASKED ? -1 : peer, POLLIN, 0 } };
		int taken = 1;

		if (poll(wait, 2, -1) < 0 && errno != EINTR)
			stop("poll");
		/* (first the program, so that its last replies reach the peer) */
		if (wait[0].revents && !pass_back())
			return 0;
		if (wait[1].revents)
			taken = take(asked, handed);
		if (taken <= 0)
			return !taken;
	}
}

/* Enlarges the send buffer of a socket, so that it can send the longest message. Twice the length is needed, because
 * Linux counts its own memory too. SO_SNDBUFFORCE requires CAP_NET_ADMIN. Without it the limit of the system applies,
 * and longer messages are rejected. */
static void widen(int fd)
{
	const int size = 2 * LONGEST;

	if (setsockopt(fd, SOL_SOCKET, SO_SNDBUFFORCE, &size, sizeof(size)) &&
	    setsockopt(fd, SOL_SOCKET, SO_SNDBUF, &size, sizeof(size)))
		stop("use the descriptor as a socket");
}

/* Starts the program with the other end of `behind`. The socket of the peer must be closed there, because the program
 * could otherwise read requests that were not checked. */
static void start(int count, char **words)
{
	char **program = calloc((size_t)count + 2, sizeof(*program)), number[16];
	int ends[2];

	/* (without SOCK_CLOEXEC, because the program inherits its end) */
	if (!program || socketpair(AF_UNIX, SOCK_SEQPACKET, 0, ends))
		stop("create a socket pair");
	widen(ends[0]);
	widen(ends[1]);
	memcpy(program, words, (size_t)count * sizeof(*program));
	snprintf(number, sizeof(number), "%d", ends[1]);
	program[count] = number;
	switch (fork()) {
	case -1:
		stop("fork");
	case 0:
		close(peer);
		close(ends[0]);
		execvp(program[0], program);
		stop(program[0]); /* (in the child; the parent then finds that the socket is closed) */
	}
	free(program);
	close(ends[1]);
	behind = ends[0];
}

int main(int count, char **words)
{
	unsigned long asked = 0, handed = 0;
	int gone;

	if (count == 2 && !strcmp(words[1], "--help"))
		return fputs(usage, stdout) < 0;
	if (count < 3 || words[1][strspn(words[1], "0123456789")])
		return fputs(usage, stderr), 2;
	peer = atoi(words[1]);
	widen(peer); /* (fails if it is no socket) */
	start(count - 2, words + 2);
	gone = serve(&asked, &handed);
	fprintf(stderr, "check: %lu requests, %lu passed on: the %s has disconnected\n", asked, handed,
		gone ? "peer" : "program");
	/* (a program that still serves ends when its socket is closed) */
	close(behind);
	close(peer);
	nizwarf_scratch_free(&scratch);
	while (wait(NULL) < 0 && errno == EINTR)
		;
	return !gone;
}
