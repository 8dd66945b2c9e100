/* Requests of /dev/fuse over io_uring, for fuse_device.c. Its first worker serves INIT and other requests
 * that still come by read(2); the workers of these rings serve the rest. */
#ifndef FUSE_RING_H
#define FUSE_RING_H

#include <pthread.h>
#include "transport.h"

struct device;

/* Returns the number of the kernel's queues, one for each processor, or 0 if that is unknown or root has not
 * enabled io_uring for FUSE. */
unsigned fuse_ring_count(void);
/* Returns the number of workers for `queues` queues. Each has two descriptors. */
unsigned fuse_ring_count_workers(const nizwarf_transport *by, unsigned queues);
/* Makes the rings for a device with `queues` queues, without a request to the device. Returns NULL if that
 * fails. A sandbox may begin afterwards: of io_uring, the rings then need only io_uring_enter, and
 * io_uring_register to begin. */
struct fuse_rings *fuse_ring_make(const nizwarf_transport *by, int device, unsigned queues);
/* Whether a request is an INIT with the flag of io_uring. */
int fuse_ring_is_offered(const unsigned char *request, size_t len);
/* Starts the workers, which wait for fuse_ring_begin(), and sets the flag of io_uring in the reply to INIT. A
 * worker that fails writes to the eventfd `over`. Returns 0, or -1 if the workers cannot be started or the
 * reply cannot have the flag. */
int fuse_ring_start(struct fuse_rings *rings, struct device *of, int over, unsigned char *reply, size_t len);
/* Lets the workers serve. It must be called after the reply to INIT was sent. */
void fuse_ring_begin(struct fuse_rings *rings);
/* Ends the workers, if they were started, and frees the rings. Returns whether one has failed, which was
 * reported. */
int fuse_ring_end(struct fuse_rings *rings);

/* Serves the requests that wait to be read. A caller whose request needs the space of forgotten files must
 * call it first, because FORGETs are among these requests. */
void fuse_device_drain(struct device *of);

/* Whether a worker that must stop has ended. If not, a signal interrupts the call in which it may be
 * blocked. */
int fuse_device_joins(pthread_t thread);

/* Passes a request to `serve`, and counts it as running meanwhile. */
int32_t fuse_device_ask(struct device *of, unsigned worker, const struct iovec *request, size_t segments,
			const struct iovec *room, size_t rooms, size_t *len);

/* Functions of fuse_device.c for both kinds of workers. fuse_device_refuse() stores the reply to a rejected
 * request, and returns its length, or 0 if the kernel expects no reply. fuse_device_room() returns the size
 * of the reply buffer that a request needs, which is at least a header; `record` follows the header of the
 * request. */
size_t fuse_device_refuse(const nizwarf_transport *by, const struct fuse_in_header *asked, int32_t code,
			  void *room);
size_t fuse_device_room(const struct fuse_in_header *asked, const void *record, size_t len);

#endif
