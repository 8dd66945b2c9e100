/* A transport for vhost-user: transport.h. It is the virtio-fs device of a virtual machine.
 *
 * The calling thread handles the messages of the front end. The workers of vhost_queue.c wait for kicks of
 * any queue and take one chain at a time, so at most as many requests are in flight as there are workers. A
 * message is handled only while none is in flight. A third thread also waits for signals, and ends the
 * process if the others are late.
 *
 * A front end is trusted no more than a guest. Proved functions (border.h) decode its messages. They reject a
 * message that is truncated, has a size or descriptors that its request does not permit, or has invalid
 * numbers. Shared memory is mapped only if the file is long enough. A front end that violates the protocol,
 * or does not complete a message, is disconnected, and the next one is served. It can still truncate its
 * file, which lose_memory() of vhost_queue.c handles, and block calls that write to its descriptors, which
 * are interrupted after it has disconnected. */
#define _GNU_SOURCE
#include <errno.h>
#include <fcntl.h>
#include <limits.h>
#include <linux/magic.h>
#include <poll.h>
#include <stdio.h>
#include <stdlib.h>
#include <string.h>
#include <sys/eventfd.h>
#include <sys/mman.h>
#include <sys/signalfd.h>
#include <sys/socket.h>
#include <sys/stat.h>
#include <sys/time.h>
#include <sys/uio.h>
#include <sys/un.h>
#include <sys/vfs.h>
#include <time.h>
#include <unistd.h>
#include "say.h"
#include "vhost_queue.h"
#include "vhost_state.h"

/* The messages of the front end by their numbers: VHOST_USER_GET_FEATURES and its successors in the
 * protocol. */
enum {
	GET_FEATURES = 1,
	SET_FEATURES,
	SET_OWNER,
	RESET_OWNER,
	SET_MEM_TABLE,
	SET_LOG_BASE,
	SET_LOG_FD,
	SET_VRING_NUM,
	SET_VRING_ADDR,
	SET_VRING_BASE,
	GET_VRING_BASE,
	SET_VRING_KICK,
	SET_VRING_CALL,
	SET_VRING_ERR,
	GET_PROTOCOL_FEATURES,
	SET_PROTOCOL_FEATURES,
	GET_QUEUE_NUM,
	SET_VRING_ENABLE,
	SET_DEVICE_STATE_FD = 42,
	CHECK_DEVICE_STATE
};

/* Features, by the bits of GET_FEATURES: VIRTIO_F_VERSION_1, VHOST_USER_F_PROTOCOL_FEATURES, those of rings,
 * and VHOST_F_LOG_ALL. Then those of GET_PROTOCOL_FEATURES: MQ, LOG_SHMFD, REPLY_ACK and DEVICE_STATE. */
#define VERSION_1 (1ull << 32)
#define PROTOCOL_FEATURES (1ull << 30)
#define INDIRECT_DESCRIPTORS (1ull << VIRTIO_RING_F_INDIRECT_DESC)
#define EVENT_INDICES (1ull << VIRTIO_RING_F_EVENT_IDX)
#define LOG_ALL (1ull << 26)
enum { MANY_QUEUES = 1 << 0, LOG_IN_FILE = 1 << 1, REPLY_ACK = 1 << 3, DEVICE_STATE = 1 << 19 };
/* The reply to SET_DEVICE_STATE_FD: the descriptor is used, and no other one is returned. The low byte would
 * be an error. */
enum { TAKES_DESCRIPTOR = 1 << 8 };
/* The flags of a header: the version, in the low two bits, and the flag of a reply. */
enum { VERSION = 1, IS_REPLY = 1 << 2 };

/* The features for each front end, which must not change while one is served. Only the calling thread changes
 * the static variables here. */
static struct vhost_offer offer;

/* A message as it was received, and its decoded form. Its first `descriptors` descriptors are open, and are
 * closed after it was handled, unless they were taken. The payload is at most VHOST_MOST_BODY bytes, which is
 * that of SET_MEM_TABLE with 8 regions. */
struct message {
	unsigned char head[VHOST_HEAD], body[VHOST_MOST_BODY];
	uint32_t size;
	int descriptor[REGIONS], descriptors;
	struct vhost_message said;
};

/* The queues that the front end has mentioned are below this number; only these can have requests. */
static size_t queues;

static const nizwarf_transport *by;
static const nizwarf_machine *machine;
/* The protocol features that the front end has set. */
static uint64_t protocol;
/* The reply to CHECK_DEVICE_STATE: 0 if the last state was saved or loaded completely, and otherwise 1. */
static uint64_t state_failed = 1;

/* The result of a message: DONE if it was handled, REPLIED if that included a reply, so that REPLY_ACK needs
 * no other; GONE if the front end has disconnected, or must be disconnected. */
enum outcome { DONE, REPLIED, GONE };

/* Prints what failed and why, by errno, and returns -1. */
static int failed(const char *what)
{
	transport_say(by->program, "cannot %s: %s", what, strerror(errno));
	return -1;
}

/* Prints why the front end is disconnected. */
static enum outcome wrong(const char *what)
{
	transport_say(by->program, "disconnecting: %s", what);
	return GONE;
}

/* The same for a message that is refused. Its header is complete, unless the refusal is VHOST_CUT. */
static enum outcome refused(const struct message *m, uint32_t refusal)
{
	static const char *const whys[VHOST_REFUSALS] = {
		[VHOST_CUT] = "truncated message",
		[VHOST_WRONG_VERSION] = "unsupported message version",
		[VHOST_IS_REPLY] = "unexpected reply",
		[VHOST_WRONG_SIZE] = "invalid message size",
		[VHOST_WRONG_DESCRIPTORS] = "invalid number of descriptors",
		[VHOST_NOT_OFFERED] = "unsupported feature",
		[VHOST_NO_QUEUE] = "invalid queue index",
		[VHOST_WRONG_QUEUE_SIZE] = "invalid queue size",
		[VHOST_WRONG_BASE] = "invalid ring index",
		[VHOST_WRONG_ENABLE] = "invalid value of SET_VRING_ENABLE",
		[VHOST_LOGS] = "unsupported ring flags",
		[VHOST_MISALIGNED] = "misaligned ring",
		[VHOST_WRONG_COUNT] = "invalid number of memory regions",
		[VHOST_EMPTY_REGION] = "empty memory region",
		[VHOST_GUEST_RANGE] = "memory region exceeds the guest's address space",
		[VHOST_USER_RANGE] = "memory region exceeds the front end's address space",
		[VHOST_FILE_RANGE] = "memory region exceeds the largest file offset",
		[VHOST_OVERLAP] = "overlapping memory regions",
		[VHOST_WRONG_LOG] = "invalid dirty log",
		[VHOST_WRONG_TRANSFER] = "unsupported transfer of the device state",
	};
	const char *why = refusal < VHOST_REFUSALS ? whys[refusal] : NULL;
	uint32_t request;

	/* An unsupported message has no reason here, but its number helps to find which feature the front end
	 * needs. */
	if (why)
		return wrong(why);
	memcpy(&request, m->head, sizeof(request));
	transport_say(by->program, "disconnecting: unsupported vhost-user message %u", (unsigned)request);
	return GONE;
}

/* Maps the first `len` bytes of a file, and stores the length of the mapping. Linux maps only whole huge
 * pages, and can neither unmap nor replace a part of one, so the length must be a multiple of theirs. Returns
 * NULL on failure. */
static unsigned char *map_file(int descriptor, uint64_t len, size_t *mapped)
{
	struct statfs system;
	void *map;

	if (fstatfs(descriptor, &system))
		return NULL;
	*mapped = len;
	if (system.f_type == HUGETLBFS_MAGIC)
		*mapped += (size_t)-len % (size_t)system.f_bsize;
	map = mmap(NULL, *mapped, PROT_READ | PROT_WRITE, MAP_SHARED, descriptor, 0);
	return map == MAP_FAILED ? NULL : map;
}

/* Maps a region that the front end shares, as the next one. The caller must close the descriptor. A file that
 * is too short is refused; if it is truncated later, a worker gets a SIGBUS, which lose_memory() handles. The
 * mapping begins at the first byte of the file, because the offset need not be a multiple of a page. Size and
 * offset together do not exceed the largest size of a file. */
static enum outcome share_region(const struct vhost_region *shared, int descriptor)
{
	struct region *r = &vhost_guest->region[vhost_guest->regions];
	const uint64_t len = shared->size + shared->offset;
	struct stat file;

	if (fstat(descriptor, &file) || file.st_size < 0 || (uint64_t)file.st_size < len)
		return wrong("memory region exceeds its file");
	r->map = map_file(descriptor, len, &r->mapped);
	if (!r->map)
		return wrong("cannot map a memory region");
	r->at = r->map + shared->offset;
	vhost_guest->shared[vhost_guest->regions] = (nizwarf_region){ shared->guest, shared->size };
	vhost_guest->vhost_regions[vhost_guest->regions++] = *shared;
	return DONE;
}

/* Replaces the shared memory: SET_MEM_TABLE. The old regions are unmapped, which invalidates pointers to
 * them, so the rings of each queue must be found again. There are as many descriptors as regions. */
static enum outcome share_memory(const struct message *m)
{
	enum outcome outcome = DONE;

	guest_unshare(vhost_guest);
	for (uint32_t i = 0; i < m->said.regions && outcome == DONE; i++)
		outcome = share_region(&m->said.region[i], m->descriptor[i]);
	for (size_t i = 0; i < queues; i++)
		queue_place(&vhost_guest->queue[i]);
	return outcome;
}

/* Replaces the dirty log: SET_LOG_BASE. It has a bit for each page of the guest, and may be too short for its
 * memory. */
static enum outcome share_log(const struct message *m)
{
	struct log *log = &vhost_guest->log;
	const uint64_t len = m->said.log.size + m->said.log.offset;
	struct stat file;
	unsigned char *map;
	size_t mapped;

	if (fstat(m->descriptor[0], &file) || file.st_size < 0 || (uint64_t)file.st_size < len)
		return wrong("dirty log exceeds its file");
	map = map_file(m->descriptor[0], len, &mapped);
	if (!map)
		return wrong("cannot map the dirty log");
	guest_unmap_log(vhost_guest);
	log->map = map;
	log->mapped = mapped;
	log->at = map + m->said.log.offset;
	log->size = m->said.log.size;
	return DONE;
}

/* Takes the only descriptor of a message, which the caller must close. Returns -1 if the message has none, as
 * SET_VRING_KICK may. */
static int take_descriptor(struct message *m)
{
	return m->said.descriptors ? m->descriptor[--m->descriptors] : -1;
}

/* Sends a complete reply. A front end that does not read it within the timeout of serve_client(), or has
 * disconnected, is disconnected. */
static enum outcome reply(int client, uint32_t request, void *body, uint32_t size)
{
	uint32_t head[] = { request, VERSION | IS_REPLY, size };
	struct iovec pieces[] = { { head, sizeof(head) }, { body, size } };
	const struct msghdr said = { .msg_iov = pieces, .msg_iovlen = 2 };

	if (sendmsg(client, &said, MSG_NOSIGNAL) != (ssize_t)(sizeof(head) + size))
		return wrong("cannot send a reply");
	return REPLIED;
}

static enum outcome reply_number(int client, uint32_t request, uint64_t number)
{
	return reply(client, request, &number, sizeof(number));
}

/* Receives the bytes of a message after the first `done`, and returns their total number. recv(2) returns
 * fewer, or EINTR, if this process is stopped and continued. So it is repeated, but only a few times, because
 * a front end that sends single bytes could make each call last as long as the timeout of serve_client(). */
static size_t receive_rest(int client, unsigned char *bytes, size_t done, size_t len)
{
	for (int calls = 0; done < len && calls < 4; calls++) {
		const ssize_t got = recv(client, bytes + done, len - done, MSG_WAITALL);

		if (got > 0)
			done += (size_t)got;
		else if (!got || errno != EINTR)
			break;
	}
	return done;
}

/* Receives a message with its descriptors, which the caller must close, even on failure. They come with the
 * header. There is space for as many as a table of memory may have; if there are more, MSG_CTRUNC is set. The
 * size of the payload is checked before it is read, so it fits. */
static enum outcome receive(int client, struct message *m)
{
	_Alignas(struct cmsghdr) char control[CMSG_SPACE(sizeof(m->descriptor))];
	struct iovec head = { m->head, sizeof(m->head) };
	struct msghdr said = {
		.msg_iov = &head, .msg_iovlen = 1, .msg_control = control, .msg_controllen = sizeof(control)
	};
	ssize_t got;
	uint32_t refusal;

	m->descriptors = 0;
	do
		got = recvmsg(client, &said, MSG_CMSG_CLOEXEC | MSG_WAITALL);
	while (got < 0 && errno == EINTR);
	if (got == 0 || (got < 0 && errno == ECONNRESET))
		return GONE;
	if (got < 0)
		return wrong(strerror(errno));
	for (struct cmsghdr *c = CMSG_FIRSTHDR(&said); c; c = CMSG_NXTHDR(&said, c))
		if (c->cmsg_level == SOL_SOCKET && c->cmsg_type == SCM_RIGHTS && !m->descriptors) {
			m->descriptors = (int)((c->cmsg_len - CMSG_LEN(0)) / sizeof(int));
			memcpy(m->descriptor, CMSG_DATA(c), (size_t)m->descriptors * sizeof(int));
		}
	if (said.msg_flags & MSG_CTRUNC ||
	    receive_rest(client, m->head, (size_t)got, sizeof(m->head)) < sizeof(m->head))
		return refused(m, VHOST_CUT);
	refusal = nizwarf_vhost_size_at(m->head, sizeof(m->head), &m->size);
	if (refusal)
		return refused(m, refusal);
	return receive_rest(client, m->body, 0, m->size) == m->size ? DONE : refused(m, VHOST_CUT);
}

static enum outcome receive_said(int client, struct message *m)
{
	const enum outcome outcome = receive(client, m);
	uint32_t refusal;

	if (outcome != DONE)
		return outcome;
	refusal = nizwarf_vhost_message_at(m->head, sizeof(m->head), m->body, m->size, (size_t)m->descriptors,
					   &offer, &m->said);
	return refusal ? refused(m, refusal) : DONE;
}

/* Returns the queue of a message, whose number is below QUEUES. */
static struct queue *queue_of(const struct message *m)
{
	if (m->said.queue >= queues)
		queues = m->said.queue + 1;
	return &vhost_guest->queue[m->said.queue];
}

/* Handles a message for one queue. Its numbers are valid: a size is a power of two up to 32768, a base an
 * index of 16 bits. The rings are aligned, but may be outside the shared memory, which stops the queue, or
 * overlap, which harms only the guest. No request may be in flight. */
static enum outcome obey_for(int client, struct message *m, struct queue *q)
{
	uint32_t state[] = { m->said.queue, q->next };

	switch (m->said.request) {
	case SET_VRING_NUM:
		q->size = (uint32_t)m->said.number;
		queue_place(q);
		return DONE;
	case SET_VRING_ADDR:
		q->descriptors_user = m->said.ring_descriptors;
		q->available_user = m->said.ring_available;
		q->used_user = m->said.ring_used;
		q->has_log_address = m->said.number == 1;
		q->log_address = m->said.ring_log;
		queue_place(q);
		return DONE;
	case SET_VRING_BASE:
		/* Without a request in flight, all chains that were taken are completed. */
		q->next = q->done = (uint16_t)m->said.number;
		return DONE;
	case GET_VRING_BASE:
		/* This stops the queue until its next kick. */
		if (reply(client, GET_VRING_BASE, state, sizeof(state)) == GONE)
			return GONE;
		queue_kick(q, -1);
		return REPLIED;
	case SET_VRING_KICK:
		return queue_kick(q, take_descriptor(m)) ?
			       wrong("cannot wait for the kick descriptor of a queue") :
			       DONE;
	case SET_VRING_CALL:
		queue_call(q, take_descriptor(m));
		return DONE;
	default: /* SET_VRING_ENABLE */
		q->enabled = m->said.number == 1;
		return DONE;
	}
}

/* Sets the features that the front end has accepted, all of which are supported. Without
 * VHOST_USER_F_PROTOCOL_FEATURES there is no SET_VRING_ENABLE, so queues are enabled initially. */
static void take_features(uint64_t features)
{
	vhost_guest->logs = (features & LOG_ALL) != 0;
	for (int i = 0; i < QUEUES; i++) {
		struct queue *q = &vhost_guest->queue[i];

		q->enabled |= !(features & PROTOCOL_FEATURES);
		q->has_events = (features & EVENT_INDICES) != 0;
		/* With these indices a ring is longer. */
		queue_place(q);
	}
}

/* Sets the descriptor that notifies of marks in the log: SET_LOG_FD. It is closed with the log, which may be
 * set before or after it. */
static enum outcome call_log(int event)
{
	struct log *log = &vhost_guest->log;

	if (log->event >= 0)
		close(log->event);
	log->event = event;
	fcntl(event, F_SETFL, O_NONBLOCK);
	return DONE;
}

/* Saves or loads the state of the device, by a descriptor whose other end the front end has. The front end
 * waits for the end of the state, and then reads the result by CHECK_DEVICE_STATE. The reply must be sent
 * first, because the front end begins to read or write only after it. If the front end does not take or send
 * the state completely, the transfer fails. No request is served meanwhile, so the wait ends when the front
 * end disconnects or a signal comes. The message is supported only if `save` and `load` are set. */
static enum outcome transfer_state(int client, int signals, struct message *m)
{
	transport_state *state = state_new(take_descriptor(m), signals, client);
	const int loads = m->said.number == 1;

	state_failed = 1;
	if (!state)
		return reply_number(client, SET_DEVICE_STATE_FD, TAKES_DESCRIPTOR | 1);
	if (reply_number(client, SET_DEVICE_STATE_FD, TAKES_DESCRIPTOR) == REPLIED)
		state_failed =
			loads ? machine->load(by->user, state) != 0 : machine->save(by->user, state) != 0;
	if (state_end(state))
		state_failed = 1;
	return REPLIED;
}

/* Replies whether the last state was transferred completely: 0, or 1 if not, or if there was no transfer
 * since the last reply. */
static enum outcome check_state(int client)
{
	const uint64_t failed_so = state_failed;

	state_failed = 1;
	return reply_number(client, CHECK_DEVICE_STATE, failed_so);
}

/* Handles a message while no request is in flight. obey_for() handles messages for one queue. */
static enum outcome obey(int client, int signals, struct message *m)
{
	enum outcome outcome;

	switch (m->said.request) {
	case GET_FEATURES:
		return reply_number(client, GET_FEATURES, offer.features);
	/* SET_FEATURES may be repeated, for example with VHOST_F_LOG_ALL when a migration begins. */
	case SET_FEATURES:
		take_features(m->said.number);
		return DONE;
	/* There is only one front end at a time, so these need no action. Errors of queues are never
	 * reported, so that descriptor is closed. */
	case SET_OWNER:
	case RESET_OWNER:
	case SET_VRING_ERR:
		return DONE;
	case SET_MEM_TABLE:
		return share_memory(m);
	case GET_PROTOCOL_FEATURES:
		return reply_number(client, GET_PROTOCOL_FEATURES, offer.protocol);
	case SET_PROTOCOL_FEATURES:
		protocol = m->said.number;
		return DONE;
	case GET_QUEUE_NUM:
		return reply_number(client, GET_QUEUE_NUM, offer.queues);
	case SET_LOG_BASE:
		outcome = share_log(m);
		return outcome == DONE ? reply_number(client, SET_LOG_BASE, 0) : outcome;
	case SET_LOG_FD:
		return call_log(take_descriptor(m));
	case SET_DEVICE_STATE_FD:
		return transfer_state(client, signals, m);
	case CHECK_DEVICE_STATE:
		return check_state(client);
	default:
		return obey_for(client, m, queue_of(m));
	}
}

/* Whether a message changes queues or memory, or saves the state of all requests. Kept requests must be
 * completed before such a message, because they have pointers to that memory and a place in that queue. */
static int changes(const struct message *m)
{
	switch (m->said.request) {
	case SET_FEATURES:
	case SET_MEM_TABLE:
	case SET_VRING_NUM:
	case SET_VRING_ADDR:
	case SET_VRING_BASE:
	case GET_VRING_BASE:
	case SET_DEVICE_STATE_FD:
		return 1;
	default:
		return 0;
	}
}

/* Receives a message, unless the front end has disconnected, and handles it while no request is in flight. If
 * the front end has set REPLY_ACK and requests a reply to this message, it gets 0, because a failure
 * disconnects it. Descriptors that were not taken are closed. */
static enum outcome serve_message(int client, int signals)
{
	struct message m;
	enum outcome outcome = receive_said(client, &m);
	const int recalls = outcome == DONE && changes(&m);

	if (recalls)
		queues_recall();
	/* A request that takes long delays a message, but neither a signal nor a disconnected front end. */
	if (outcome == DONE && (recalls ? queues_hold_answered : queues_hold)(signals, client)) {
		outcome = GONE;
	} else if (outcome == DONE) {
		outcome = obey(client, signals, &m);
		queues_keep();
		queues_go();
	}
	if (outcome == DONE && m.said.wants_reply && protocol & REPLY_ACK)
		outcome = reply_number(client, m.said.request, 0);
	while (m.descriptors > 0)
		close(m.descriptor[--m.descriptors]);
	return outcome;
}

/* Drops all state of a front end while no request is in flight, so that the next one starts afresh. */
static void clear_guest(void)
{
	for (int i = 0; i < QUEUES; i++) {
		struct queue *q = &vhost_guest->queue[i];

		queue_kick(q, -1);
		queue_call(q, -1);
		queue_end_look(q);
		q->size = 0;
		q->available = NULL;
		q->descriptors_user = q->available_user = q->used_user = 0;
		q->next = q->done = 0;
		q->enabled = q->has_events = q->has_log_address = 0;
	}
	guest_unshare(vhost_guest);
	guest_end_log(vhost_guest);
}

/* Drops all state of a front end, and prints statistics of its requests. Returns -1 if that failed or a
 * signal came: then the shared memory remains, and the process must end. If a request does not return, its
 * worker keeps the shared memory. The event of lost memory is for this front end only, so it is read until it
 * is empty. */
static int part_from_client(int client, int signals)
{
	const int parted = queues_part(signals);
	uint64_t times;

	close(client);
	if (parted < 0)
		return -1;
	while (read(queues_lost(), &times, sizeof(times)) == sizeof(times))
		;
	if (!parted)
		clear_guest();
	queues = 0;
	protocol = 0;
	state_failed = 1;
	/* This must precede the requests of the next front end, which is a different client. */
	if (machine->parted)
		machine->parted(by->user);
	if (!parted)
		queues_go();
	else
		transport_say(by->program, "a request of the disconnected front end is still blocked");
	queues_tell();
	return 0;
}

/* ---- front ends */

/* In milliseconds: when the process ends after a signal, even if a thread is blocked. */
enum { MOST_END = 1800 };

/* Why a wait has ended: a signal, the front end has disconnected, or an error, which was reported. */
enum end { SIGNALLED, HUNG_UP, BROKEN };

/* Serves a front end until it disconnects or must be disconnected, and closes its socket. Signals are not
 * read here, because the other thread waits for them too. */
static enum end serve_client(int client, int signals)
{
	/* This limits the time for a message that is not complete. */
	const struct timeval most = { .tv_sec = 10 };
	enum end end = HUNG_UP;

	if (setsockopt(client, SOL_SOCKET, SO_RCVTIMEO, &most, sizeof(most)) ||
	    setsockopt(client, SOL_SOCKET, SO_SNDTIMEO, &most, sizeof(most))) {
		failed("set the timeouts of a front end's socket");
		close(client);
		return BROKEN;
	}
	for (;;) {
		struct pollfd wait[] = { { signals, POLLIN, 0 },
					 { queues_over(), POLLIN, 0 },
					 { client, POLLIN, 0 },
					 { queues_lost(), POLLIN, 0 } };

		if (poll(wait, 4, -1) < 0) {
			if (errno == EINTR)
				continue;
			failed("poll");
			wait[1].revents = POLLIN;
		}
		/* A signal, or a worker that has failed, has precedence over the front end. */
		if (wait[0].revents || wait[1].revents) {
			end = wait[1].revents ? BROKEN : SIGNALLED;
			break;
		}
		if (wait[3].revents) {
			wrong("shared memory was truncated");
			break;
		}
		if (wait[2].revents && serve_message(client, signals) == GONE)
			break;
		/* The message may have started a queue that was kicked before. */
		for (size_t i = 0; i < queues; i++)
			if (vhost_guest->queue[i].enabled)
				queue_look(&vhost_guest->queue[i]);
	}
	if (part_from_client(client, signals) && end == HUNG_UP) {
		struct pollfd signal = { signals, POLLIN, 0 };

		end = poll(&signal, 1, 0) > 0 ? SIGNALLED : BROKEN;
	}
	return end;
}

/* Serves one front end after another. Others wait in the queue of the socket meanwhile. An error that a front
 * end can cause, such as disconnecting before accept(2), must not end the server. */
static enum end serve_clients(int listener, int signals)
{
	const struct timespec pause = { 1, 0 };
	enum end end = HUNG_UP;

	while (end == HUNG_UP) {
		struct pollfd wait[] = { { signals, POLLIN, 0 },
					 { queues_over(), POLLIN, 0 },
					 { listener, POLLIN, 0 } };
		int client;

		if (poll(wait, 3, -1) < 0 && errno != EINTR) {
			failed("poll");
			return BROKEN;
		}
		if (wait[0].revents || wait[1].revents)
			return wait[1].revents ? BROKEN : SIGNALLED;
		if (!wait[2].revents)
			continue;
		client = accept4(listener, NULL, NULL, SOCK_CLOEXEC);
		if (client >= 0) {
			end = serve_client(client, signals);
		} else if (errno == EMFILE || errno == ENFILE || errno == ENOBUFS || errno == ENOMEM) {
			/* Other processes may free descriptors or memory. */
			failed("accept a connection");
			nanosleep(&pause, NULL);
		} else if (errno != EAGAIN && errno != ECONNABORTED && errno != EINTR) {
			failed("accept a connection");
			return BROKEN;
		}
	}
	return end;
}

/* Ends the process although a worker, or the calling thread, is blocked. Nothing is freed. */
static _Noreturn void leave(int status)
{
	if (by->left)
		by->left(by->user);
	transport_say(by->program, "exiting although a request is still blocked");
	_exit(status);
}

/* The data of a thread that also waits for signals, because the calling thread may be late. `ended` is
 * written when all has ended. */
struct guard {
	pthread_t thread;
	int signals, ended;
};

/* Waits for a signal, and then for the end, at most MOST_END. The status is 0, because a signal is not a
 * failure, even if a request is left. */
static void *keep_guard(void *given)
{
	const struct guard *g = given;
	struct pollfd wait[] = { { g->ended, POLLIN, 0 }, { g->signals, POLLIN, 0 } };

	while (poll(wait, 2, -1) < 0 && errno == EINTR)
		;
	while (!wait[0].revents && poll(wait, 1, MOST_END) < 0 && errno == EINTR)
		;
	if (!wait[0].revents)
		leave(0);
	return NULL;
}

/* Serves the front ends of a listening socket, or the only one of `client`, with workers. Returns the exit
 * status. Signals are blocked here and so in all threads that start, because only the signalfd should receive
 * them. */
static int serve_guarded(struct guard *g, int listener, int client)
{
	const uint64_t one = 1;
	enum end end = BROKEN;

	errno = pthread_create(&g->thread, NULL, keep_guard, g);
	if (errno)
		return failed("start the thread that waits for signals"), 1;
	if (!queues_begin(by))
		end = client >= 0 ? serve_client(client, g->signals) : serve_clients(listener, g->signals);
	if (queues_end())
		leave(end == BROKEN);
	if (write(g->ended, &one, sizeof(one)) < 0)
		failed("write to an eventfd");
	pthread_join(g->thread, NULL);
	return end == BROKEN;
}

/* Serves by a listening socket or, if that is -1, a client's. The listening socket is closed afterwards, and
 * so is a client that was served. Migration is supported only if the file system can save and load the state
 * of a client. */
static int serve_with_workers(const nizwarf_transport *with, int listener, int client)
{
	const sigset_t ending = transport_hold_signals(SIG_BLOCK);
	struct guard guard;
	int status = 1;

	by = with;
	machine = transport_machine(with);
	offer = (struct vhost_offer){ VERSION_1 | PROTOCOL_FEATURES | INDIRECT_DESCRIPTORS | EVENT_INDICES,
				      MANY_QUEUES | REPLY_ACK, QUEUES };
	/* A machine can migrate only if its writes are marked and the state of its client can be
	 * transferred. */
	if (machine->save && machine->load) {
		offer.features |= LOG_ALL;
		offer.protocol |= LOG_IN_FILE | DEVICE_STATE;
	}
	signal(SIGPIPE, SIG_IGN);
	guard.signals = signalfd(-1, &ending, SFD_CLOEXEC);
	guard.ended = eventfd(0, EFD_CLOEXEC);
	if (guard.signals < 0 || guard.ended < 0)
		failed("create a signalfd or an eventfd");
	else
		status = serve_guarded(&guard, listener, client);
	if (guard.signals >= 0)
		close(guard.signals);
	if (guard.ended >= 0)
		close(guard.ended);
	if (listener >= 0)
		close(listener);
	return status;
}

int vhost_user_serve(const nizwarf_transport *with, int listener)
{
	/* A front end may disconnect before accept(2), which must not block then. */
	fcntl(listener, F_SETFL, O_NONBLOCK);
	return serve_with_workers(with, listener, -1);
}

int vhost_user_serve_one(const nizwarf_transport *with, int client)
{
	return serve_with_workers(with, -1, client);
}

/* Prints why a path is not suitable for a socket, and returns `answer`. */
static int refuse(const nizwarf_transport *with, int answer, const char *path, const char *why)
{
	transport_say(with->program, "cannot listen on '%s': %s", path, why);
	return answer;
}

/* The socket that was made: its absolute path, because a server may change its working directory, and an open
 * descriptor of its file, so that no other file has the same inode number until the process ends, or -1. The
 * path is set before the descriptor and does not change, because another thread may remove the socket. */
static struct {
	char path[PATH_MAX];
	atomic_int file;
} made = { .file = -1 };

/* Linux has no call that removes a name only if it leads to a certain file. So if another file takes its
 * place after the check, that file is removed. */
void vhost_user_remove_socket(void)
{
	struct stat own, there;

	if (made.file >= 0 && !fstat(made.file, &own) && !lstat(made.path, &there) &&
	    own.st_dev == there.st_dev && own.st_ino == there.st_ino)
		unlink(made.path);
}

void vhost_user_leave_socket(void)
{
	if (made.file >= 0)
		close(made.file);
	made.file = -1;
}

/* Opens the file of a socket that was just bound, to recognise it later. Returns 0, or -1 with errno if the
 * path does not lead to a socket. */
static int keep_made(const char *path)
{
	const int file = open(path, O_PATH | O_NOFOLLOW | O_CLOEXEC);
	struct stat is;
	int why;

	if (file < 0)
		return -1;
	errno = ENOTSOCK;
	if (!fstat(file, &is) && S_ISSOCK(is.st_mode) && realpath(path, made.path)) {
		made.file = file;
		return 0;
	}
	why = errno;
	close(file);
	errno = why;
	return -1;
}

/* A file at the path is removed only if it is a socket on which nobody listens, for example because its
 * server was killed. A user with write permission for the directory could put another file there in between,
 * and so must be trusted; but bind(2) does not replace an existing file. Signals are blocked before the
 * socket is made, so that none can end the process and leave it. */
int vhost_user_listen(const nizwarf_transport *with, const char *path)
{
	struct sockaddr_un address = { .sun_family = AF_UNIX };
	int probe, listener, why;
	struct stat there;

	/* An empty path would be that of an unnamed socket. */
	if (!*path || strlen(path) >= sizeof(address.sun_path))
		return refuse(with, -2, path,
			      *path ? "the path is longer than 107 bytes" : "the path is empty");
	memcpy(address.sun_path, path, strlen(path) + 1);
	if (!lstat(path, &there)) {
		if (!S_ISSOCK(there.st_mode))
			return refuse(with, -2, path, "the file exists and is not a socket");
		probe = socket(AF_UNIX, SOCK_STREAM | SOCK_CLOEXEC | SOCK_NONBLOCK, 0);
		why = probe < 0 || !connect(probe, (struct sockaddr *)&address, sizeof(address)) ? EAGAIN :
												   errno;
		if (probe >= 0)
			close(probe);
		/* EAGAIN means that the queue of the listening socket is full. */
		if (why == EAGAIN)
			return refuse(with, -1, path, "another process listens on it");
		if (why != ECONNREFUSED || unlink(path))
			return refuse(with, -1, path, strerror(why != ECONNREFUSED ? why : errno));
	}
	transport_hold_signals(SIG_BLOCK);
	listener = socket(AF_UNIX, SOCK_STREAM | SOCK_CLOEXEC | SOCK_NONBLOCK, 0);
	if (listener < 0)
		return refuse(with, -1, path, strerror(errno));
	if (bind(listener, (struct sockaddr *)&address, sizeof(address)) || keep_made(path) ||
	    listen(listener, 1)) {
		refuse(with, -1, path, strerror(errno));
		vhost_user_remove_socket();
		close(listener);
		return -1;
	}
	return listener;
}
