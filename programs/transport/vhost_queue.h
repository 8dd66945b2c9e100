/* Queues of a virtio-fs device in the memory of a guest, and the workers that serve them. It is used by
 * vhost_user.c. */
#ifndef VHOST_QUEUE_H
#define VHOST_QUEUE_H

#include <linux/virtio_ring.h>
#include <pthread.h>
#include <signal.h>
#include <stdatomic.h>
#include "border.h"
#include "later.h"
#include "chain.h"

/* The number of queues, one for FORGETs and the others for requests, as many as the protocol can number; and
 * that of regions. */
enum { QUEUES = 256, REGIONS = VHOST_REGIONS };

/* A region of the guest's memory that is mapped in this process. */
struct region {
	unsigned char *at, *map;
	size_t mapped;
};

/* A split virtqueue. `next` counts the chains that were taken, and `done` those that were completed: both are
 * equal if no request is in flight. */
struct queue {
	pthread_mutex_t lock;
	uint32_t size;
	uint64_t descriptors_user, available_user, used_user;
	const unsigned char *descriptors;
	struct vring_avail *available;
	struct vring_used *used;
	uint16_t next, done;
	/* How many descriptors the kept requests use: later.c. */
	unsigned taken;
	int kick, call, enabled;
	/* Whether `call` may be written, and whether the guest must be notified of the next completed chain
	 * in any case. */
	int calls, calls_anyway;
	/* VIRTIO_RING_F_EVENT_IDX: each side has an index after its ring for the chain of which it must be
	 * notified. */
	int has_events;
	/* An event that makes a worker look at the queue, from its first kick on, and -1 before. And whether
	 * it was written since a worker last began to look. */
	int look;
	atomic_int is_woken;
	/* Late replies, whose chains are not completed yet. */
	struct late *late;
	/* Writes to the used ring are marked by this guest address instead of that of its memory. */
	int has_log_address;
	uint64_t log_address;
};

/* The dirty log, which marks writes to the guest's memory while it migrates: a bit for each page, in a file
 * that the front end shares. `at` is NULL if there is none. `event` notifies the front end; it is -1 if there
 * is none. */
struct log {
	unsigned char *at, *map;
	size_t mapped;
	uint64_t size;
	int event;
};

/* The objects that a front end has shared. A guest exists until the front end has disconnected and each
 * worker with a request of it has returned. */
struct guest {
	struct queue queue[QUEUES];
	struct region region[REGIONS];
	/* The regions by their addresses in the front end, and by those in the guest for the walk along a
	 * chain. */
	struct vhost_region vhost_regions[REGIONS];
	nizwarf_region shared[REGIONS];
	size_t regions;
	/* Whether writes must be marked, and where. */
	int logs;
	struct log log;
	/* A worker must hold it for reading while it has a chain, and the calling thread for writing while it
	 * changes queues or memory. */
	pthread_rwlock_t in_flight;
	/* The calling thread waits for it, so a worker must release it between two chains. */
	atomic_int wanted;
	/* The front end has disconnected, so no chain may be taken or completed. */
	atomic_int gone;
	/* How many front ends had disconnected before this one (vhost_user_client). */
	unsigned client;
	/* The number of users: the calling thread, and the workers that serve it. */
	unsigned users;
	/* Requests that are completed later. */
	struct later_list later;
};

/* The guest of the current front end. It may change only between queues_hold() and queues_go(). */
extern struct guest *vhost_guest;

/* Starts the workers. Returns 0, or -1 after printing an error. */
int queues_begin(const nizwarf_transport *by);
/* Ends the workers, and interrupts requests that take long. Returns -1 if one did not return within a second;
 * its worker's data are not freed then. */
int queues_end(void);
/* Returns a descriptor that is readable once a worker has failed. */
int queues_over(void);
/* Returns a descriptor that is readable once shared memory is lost. */
int queues_lost(void);

/* No request is in flight between queues_hold() and queues_go(). Returns -1 if a request takes long and one
 * of these descriptors reports a signal, or that the front end has disconnected. */
int queues_hold(int signals, int client);
/* The same, but also waits for late replies, so that queues and memory may change. queues_recall() must be
 * called first. */
int queues_hold_answered(int signals, int client);
void queues_go(void);
/* The same as queues_hold() for a front end that has disconnected, whose requests are interrupted if they
 * take long. Returns 1 if one did not return within a second: then its worker keeps the shared memory,
 * another worker starts in its place, the next front end has a different guest, and no lock is held. Returns
 * -1 if that failed, or after a signal. */
int queues_part(int signals);
/* queues_recall() completes the kept requests, before queues or memory change, and forbids that others are
 * kept until queues_keep(). A request that is not completed within a second never will be. */
void queues_recall(void);
void queues_keep(void);
/* Unmap the memory that a front end has shared; unmap its log; and end logging. */
void guest_unshare(struct guest *g);
void guest_unmap_log(struct guest *g);
void guest_end_log(struct guest *g);

/* Finds the rings of a queue, and must be called after each change of the memory. If one is not found, the
 * queue is stopped. */
void queue_place(struct queue *q);
/* Sets the descriptor that kicks a queue, which is closed with it, or none with -1. It is never read. Returns
 * -1 if the descriptor cannot be waited for. */
int queue_kick(struct queue *q, int fd);
/* Sets the descriptor that notifies the guest, in the same way. A write to it may block if the front end
 * wants that, which then delays itself; no lock of a queue may be held meanwhile. */
void queue_call(struct queue *q, int fd);
/* Makes a worker look at the queue. */
void queue_look(struct queue *q);
/* Closes the event that queue_look() writes, after the front end has disconnected. */
void queue_end_look(struct queue *q);

/* Prints statistics of the requests since its last call. */
void queues_tell(void);

#endif
