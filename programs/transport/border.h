/* Functions of the static library of crates/nizwarf_border, which are proved. They access only the memory
 * that they are passed, and allocate none. */
#ifndef BORDER_H
#define BORDER_H

#include <stddef.h>
#include <stdint.h>

/* ---- messages of a vhost-user front end */

/* In bytes: the length of a header (VHOST_HEAD), and of the longest payload (VHOST_MOST_BODY). VHOST_REGIONS
 * is the largest number of regions in a table of memory. */
enum { VHOST_HEAD = 12, VHOST_MOST_BODY = 264, VHOST_REGIONS = 8 };

/* Why a message is refused. 0 means that it is valid. */
enum {
	VHOST_CUT = 1,
	VHOST_WRONG_VERSION,
	VHOST_IS_REPLY,
	VHOST_NOT_SERVED,
	VHOST_WRONG_SIZE,
	VHOST_WRONG_DESCRIPTORS,
	VHOST_NOT_OFFERED,
	VHOST_NO_QUEUE,
	VHOST_WRONG_QUEUE_SIZE,
	VHOST_WRONG_BASE,
	VHOST_WRONG_ENABLE,
	VHOST_LOGS,
	VHOST_MISALIGNED,
	VHOST_WRONG_COUNT,
	VHOST_EMPTY_REGION,
	VHOST_GUEST_RANGE,
	VHOST_USER_RANGE,
	VHOST_FILE_RANGE,
	VHOST_OVERLAP,
	VHOST_WRONG_LOG,
	VHOST_WRONG_TRANSFER,
	VHOST_REFUSALS
};

/* The features of the device and of the protocol that are supported, and the number of queues. */
struct vhost_offer {
	uint64_t features, protocol, queues;
};

/* A region of shared memory: its address in the guest, its size, its address in the front end, and its offset
 * in its file. */
struct vhost_region {
	uint64_t guest, size, user, offset;
};

/* The dirty log: the part of a file in which writes to the guest's memory are marked. */
struct vhost_log {
	uint64_t size, offset;
};

/* A message. The fields that its request does not use are 0. `descriptors` is the number of descriptors that
 * came with it. `number` depends on the request: it has features, a value of the queue, 1 if writes to the
 * used ring must be marked in the log, or the direction of a state, which is 0 to save it and 1 to load it.
 * The rings are addresses in the front end, and `ring_log` is the guest's address of the used ring. */
struct vhost_message {
	uint32_t request, wants_reply, queue, descriptors;
	uint64_t number, ring_descriptors, ring_used, ring_available, ring_log;
	struct vhost_log log;
	uint64_t regions;
	struct vhost_region region[VHOST_REGIONS];
};

/* The number of a region, and an offset in it. */
struct vhost_place {
	uint64_t region, offset;
};

/* Reads a header, and stores the size of the payload that follows it in `*size`. Returns 0, or why the
 * message is refused. */
uint32_t nizwarf_vhost_size_at(const unsigned char *head, size_t head_len, uint32_t *size);

/* Decodes a message from its header and its payload. `descriptors` is the number of descriptors that came
 * with it. Returns 0, or why the message is refused. */
uint32_t nizwarf_vhost_message_at(const unsigned char *head, size_t head_len, const unsigned char *body,
				  size_t len, size_t descriptors, const struct vhost_offer *offer,
				  struct vhost_message *message);

/* Finds the one region that has all `len` bytes from an address of the front end on, and fills in their
 * place. Returns 0, or 1 if there is no such region. */
uint32_t nizwarf_vhost_user_at(const struct vhost_region *region, size_t regions, uint64_t address,
			       uint64_t len, struct vhost_place *place);

/* The library reads and writes these structs as bytes, so each field must be at its place, without
 * padding. */
#define BORDER_HOLDS(fact) _Static_assert(fact, #fact)
BORDER_HOLDS(sizeof(struct vhost_offer) == 24);
BORDER_HOLDS(sizeof(struct vhost_region) == 32 && offsetof(struct vhost_region, user) == 16);
BORDER_HOLDS(sizeof(struct vhost_message) == 336 && offsetof(struct vhost_message, number) == 16 &&
	     offsetof(struct vhost_message, log) == 56 && offsetof(struct vhost_message, regions) == 72);
BORDER_HOLDS(sizeof(struct vhost_place) == 16);

#endif
