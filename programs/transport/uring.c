/* A ring of io_uring for commands to one device: uring.h.
 *
 * The kernel and this program share two queues, which are indexed by numbers that only grow, modulo 2^32: the
 * queue of commands, whose tail is written here, and that of completions, whose head is. Because the sizes
 * are powers of two, the low bits of a number are the index of an entry. A number must be stored with release
 * after the entries that it covers, and loaded with acquire before these are read. From uring_begin() on,
 * only one thread may use the ring; others may only call uring_tell(). */
#define _GNU_SOURCE
#include <poll.h>
#include <string.h>
#include <errno.h>
#include <sys/eventfd.h>
#include <sys/mman.h>
#include <sys/syscall.h>
#include <unistd.h>
#include "uring.h"

/* Definitions that the headers before Linux 6.14 lack. */
#ifndef IORING_SETUP_NO_SQARRAY
#define IORING_SETUP_NO_SQARRAY (1U << 16)
#endif

/* The size of a command with IORING_SETUP_SQE128, and the offset of its private part, which is the field
 * `cmd` of a struct io_uring_sqe. Then the indices of the ring's files. */
enum { COMMAND = 128, OWN_PART = 48 };
_Static_assert(offsetof(struct io_uring_sqe, cmd) == OWN_PART && OWN_PART + URING_OWN == COMMAND,
	       "a command ends with what it has of its own");
enum { DEVICE, EVENT, FILES };

/* Maps a part of the ring. Returns NULL on failure. */
static void *map(int fd, size_t len, off_t at)
{
	void *memory = mmap(NULL, len, PROT_READ | PROT_WRITE, MAP_SHARED, fd, at);

	return memory == MAP_FAILED ? NULL : memory;
}

/* Registers a list with the ring. Returns 0, or -1 with errno. */
static int enlist(const struct uring *r, unsigned what, const void *list, unsigned count)
{
	return (int)syscall(SYS_io_uring_register, r->fd, what, list, count);
}

/* Restricts a ring. Operations of a ring bypass a filter of system calls, so it may only send these commands
 * to its own files, and its registrations may not change any more. The kernel accepts restrictions only
 * before the ring is enabled (IORING_SETUP_R_DISABLED). From uring_begin() on it rejects all operations that
 * are not in this list, and so each further registration. */
static int bound(const struct uring *r, int device)
{
	const int files[FILES] = { [DEVICE] = device, [EVENT] = r->event };
	const struct io_uring_restriction only[] = {
		{ .opcode = IORING_RESTRICTION_SQE_OP, .sqe_op = IORING_OP_URING_CMD },
		{ .opcode = IORING_RESTRICTION_SQE_OP, .sqe_op = IORING_OP_POLL_ADD },
		{ .opcode = IORING_RESTRICTION_SQE_FLAGS_REQUIRED, .sqe_flags = IOSQE_FIXED_FILE },
	};

	return enlist(r, IORING_REGISTER_FILES, files, FILES) ||
			       enlist(r, IORING_REGISTER_RESTRICTIONS, only, sizeof(only) / sizeof(*only)) ?
		       -1 :
		       0;
}

int uring_make(struct uring *r, unsigned commands, int device)
{
	/* Commands have no array of indices; one thread submits them all; and completions are processed only
	 * while that thread waits, so that they interrupt it nowhere else. */
	struct io_uring_params made = { .flags = IORING_SETUP_SQE128 | IORING_SETUP_NO_SQARRAY |
						 IORING_SETUP_SINGLE_ISSUER | IORING_SETUP_DEFER_TASKRUN |
						 IORING_SETUP_R_DISABLED };
	unsigned char *queues;

	/* The additional entry is for the command that waits for the event. */
	r->fd = (int)syscall(SYS_io_uring_setup, commands + 1, &made);
	r->event = eventfd(0, EFD_CLOEXEC | EFD_NONBLOCK);
	if (r->fd < 0 || r->event < 0)
		return -1;
	/* Both queues are in one mapping, at the end of which are the completions. */
	r->queues_len = made.cq_off.cqes + made.cq_entries * sizeof(struct io_uring_cqe);
	r->queues = queues = map(r->fd, r->queues_len, IORING_OFF_SQ_RING);
	r->commands_len = (size_t)made.sq_entries * COMMAND;
	r->commands = map(r->fd, r->commands_len, IORING_OFF_SQES);
	if (!queues || !r->commands || bound(r, device))
		return -1;
	r->tail = (_Atomic uint32_t *)(void *)(queues + made.sq_off.tail);
	r->mask = made.sq_entries - 1;
	r->head = (_Atomic uint32_t *)(void *)(queues + made.cq_off.head);
	r->done = (_Atomic uint32_t *)(void *)(queues + made.cq_off.tail);
	r->done_mask = made.cq_entries - 1;
	r->completions = (const struct io_uring_cqe *)(void *)(queues + made.cq_off.cqes);
	return 0;
}

/* Frees a ring, even if it was made only in part, or not at all and its fields are NULL and -1. */
void uring_free(struct uring *r)
{
	if (r->queues)
		munmap(r->queues, r->queues_len);
	if (r->commands)
		munmap(r->commands, r->commands_len);
	if (r->fd >= 0)
		close(r->fd);
	if (r->event >= 0)
		close(r->event);
}

int uring_begin(struct uring *r)
{
	return enlist(r, IORING_REGISTER_ENABLE_RINGS, NULL, 0);
}

/* Puts a command into the ring. Its private part has `len` bytes, and 0 after them, because the entry may
 * have those of an earlier command. The caller must not have more commands at a time than the ring was made
 * for, so the entry is free. */
static void put(struct uring *r, const struct io_uring_sqe *sqe, const void *own, size_t len)
{
	const uint32_t tail = atomic_load_explicit(r->tail, memory_order_relaxed);
	unsigned char *at = (unsigned char *)r->commands + (size_t)(tail & r->mask) * COMMAND;

	memcpy(at, sqe, OWN_PART);
	memcpy(at + OWN_PART, own, len);
	memset(at + OWN_PART + len, 0, URING_OWN - len);
	atomic_store_explicit(r->tail, tail + 1, memory_order_release);
	r->waiting++;
}

void uring_put(struct uring *r, uint32_t what, uint64_t number, const void *memory, uint32_t pieces,
	       const void *own, size_t len)
{
	const struct io_uring_sqe sqe = { .opcode = IORING_OP_URING_CMD,
					  .flags = IOSQE_FIXED_FILE,
					  .fd = DEVICE,
					  .cmd_op = what,
					  .addr = (uintptr_t)memory,
					  .len = pieces,
					  .user_data = number };

	put(r, &sqe, own, len);
}

/* With IORING_POLL_ADD_MULTI the command stays active as long as its completions have IORING_CQE_F_MORE. */
void uring_put_event(struct uring *r)
{
	const struct io_uring_sqe sqe = { .opcode = IORING_OP_POLL_ADD,
					  .flags = IOSQE_FIXED_FILE,
					  .fd = EVENT,
					  .len = IORING_POLL_ADD_MULTI,
					  .poll32_events = POLLIN,
					  .user_data = URING_EVENT };

	put(r, &sqe, "", 0);
}

/* EINTR means that a signal came, and EAGAIN and EBUSY that the kernel lacks memory, or that completions must
 * be taken first. Commands that were not accepted stay in the ring for the next call. So a caller that takes
 * completions and enters again need not handle these errors. */
int uring_enter(struct uring *r, int waits)
{
	const long taken = syscall(SYS_io_uring_enter, r->fd, r->waiting, waits ? 1 : 0,
				   IORING_ENTER_GETEVENTS, NULL, 0);

	if (taken > 0)
		r->waiting -= (unsigned)taken;
	return taken >= 0 || errno == EINTR || errno == EAGAIN || errno == EBUSY ? 0 : -1;
}

/* The completion must be copied before its entry is released to the kernel. */
int uring_take(struct uring *r, struct io_uring_cqe *done)
{
	const uint32_t head = atomic_load_explicit(r->head, memory_order_relaxed);

	if (head == atomic_load_explicit(r->done, memory_order_acquire))
		return 0;
	*done = r->completions[head & r->done_mask];
	atomic_store_explicit(r->head, head + 1, memory_order_release);
	return 1;
}

void uring_tell(const struct uring *r)
{
	/* This fails only if the eventfd is full, and then it is readable already. */
	if (eventfd_write(r->event, 1))
		return;
}

/* This fails if the eventfd was read before, which is not an error. */
void uring_clear(const struct uring *r)
{
	eventfd_t times;

	if (eventfd_read(r->event, &times))
		return;
}
