/* A ring of io_uring for commands to one device, with an eventfd. It is used by fuse_ring.c. */
#ifndef URING_H
#define URING_H

#include <linux/io_uring.h>
#include <stdatomic.h>
#include <stddef.h>
#include <stdint.h>

struct uring {
	/* -1 if there is no ring. */
	int fd, event;
	void *queues, *commands;
	size_t queues_len, commands_len;
	/* The tail of the commands for the kernel, and head and tail of the completions. */
	_Atomic uint32_t *tail, *head, *done;
	uint32_t mask, done_mask;
	const struct io_uring_cqe *completions;
	/* The number of commands that the kernel has not taken yet. */
	unsigned waiting;
};

/* The size of a command's private part in bytes. */
enum { URING_OWN = 80 };

/* The number of the completions of the eventfd. */
#define URING_EVENT UINT64_MAX

/* Makes a ring for `commands` commands at a time, whose files are the device and an eventfd. From
 * uring_begin() on nobody can use it for other operations or files, or change it, because a sandbox must not
 * be left by it. Returns 0, or -1 with errno. */
int uring_make(struct uring *r, unsigned commands, int device);
void uring_free(struct uring *r);

/* Enables the ring, which then belongs to the calling thread. Returns 0, or -1 with errno. */
int uring_begin(struct uring *r);

/* Puts a command to the device into the ring. Its completion has `number`. Its private part is at most
 * URING_OWN bytes, of any length; `memory` is a list of pieces, or NULL. */
void uring_put(struct uring *r, uint32_t what, uint64_t number, const void *memory, uint32_t pieces,
	       const void *own, size_t len);
/* Puts a command into the ring that waits for the eventfd. It completes once, or repeatedly as long as its
 * completions have IORING_CQE_F_MORE. */
void uring_put_event(struct uring *r);

/* Submits the commands in the ring, and with `waits` waits for a completion or a signal. Returns 0, or -1
 * with errno. */
int uring_enter(struct uring *r, int waits);
/* Takes a completion. Returns whether there was one. */
int uring_take(struct uring *r, struct io_uring_cqe *done);

/* uring_tell() writes the eventfd, and may be called by any thread. uring_clear() reads it. */
void uring_tell(const struct uring *r);
void uring_clear(const struct uring *r);

#endif
