/* Transfers the state of a device: vhost_state.h.
 *
 * The state is transferred by the descriptor of SET_DEVICE_STATE_FD, on the calling thread of vhost_user.c,
 * while no request is in flight. The file system defines its bytes; here they are only moved. The other end
 * belongs to the front end, which may read or write as slowly as it likes, or not at all. So a wait must end
 * when a signal comes or the front end disconnects, and only then: await() waits for these too. read(2) and
 * write(2) should not block, because the descriptor has O_NONBLOCK, but the front end has the same open file
 * and may clear that flag at any time. So a timer interrupts them repeatedly, and each time await() checks
 * whether to go on. */
#define _GNU_SOURCE
#include <errno.h>
#include <fcntl.h>
#include <poll.h>
#include <signal.h>
#include <stdlib.h>
#include <string.h>
#include <time.h>
#include <unistd.h>
#include "vhost_state.h"

/* Older C libraries have no other name for it. */
#ifndef sigev_notify_thread_id
#define sigev_notify_thread_id _sigev_un._tid
#endif

/* In bytes: how much is read or written at a time (BUFFER). In milliseconds: how long a call may block
 * (TICK). */
enum { BUFFER = 65536, TICK = 200 };

struct transport_state {
	int descriptor, signals, client;
	/* Sends SIGRTMIN to the calling thread. Its handler does nothing (vhost_queue.c). */
	timer_t timer;
	/* The bytes of the buffer from `at` to `end` were put but not written yet, or read but not taken yet.
	 * A state goes in one direction. */
	size_t at, end;
	int puts;
	unsigned char buffer[BUFFER];
};

transport_state *state_new(int descriptor, int signals, int client)
{
	struct sigevent interrupts = { .sigev_notify = SIGEV_THREAD_ID, .sigev_signo = SIGRTMIN };
	transport_state *state = malloc(sizeof(*state));

	interrupts.sigev_notify_thread_id = gettid();
	if (!state || timer_create(CLOCK_MONOTONIC, &interrupts, &state->timer)) {
		free(state);
		close(descriptor);
		return NULL;
	}
	state->descriptor = descriptor;
	state->signals = signals;
	state->client = client;
	state->at = state->end = 0;
	state->puts = 0;
	fcntl(descriptor, F_SETFL, O_NONBLOCK);
	return state;
}

/* Waits for the descriptor, at most `most` milliseconds, or for ever with -1. Returns 0, or -1 with errno,
 * which is ECANCELED if a signal came or the front end has disconnected. After 0 the descriptor need not be
 * ready, but a call may be tried; read(2) or write(2) return its errors. */
static int await(const transport_state *state, short event, int most)
{
	struct pollfd wait[] = { { state->descriptor, event, 0 },
				 { state->signals, POLLIN, 0 },
				 { state->client, POLLRDHUP, 0 } };

	while (poll(wait, 3, most) < 0)
		if (errno != EINTR)
			return -1;
	/* POLLHUP and POLLERR are always reported, and mean that the other end has disconnected. */
	errno = ECANCELED;
	return wait[1].revents || wait[2].revents ? -1 : 0;
}

int transport_wants_state(transport_state *of)
{
	return await(of, 0, 0);
}

/* Whether the call must be repeated, because the descriptor was not ready after all, or because of a
 * signal. */
static int is_for_now(void)
{
	return errno == EAGAIN || errno == EWOULDBLOCK || errno == EINTR;
}

/* Makes the timer interrupt calls of this thread every `milliseconds` from now on, or stops it with 0. */
static void set_timer(const transport_state *state, int milliseconds)
{
	const struct timespec tick = { 0, milliseconds * 1000000L };
	const struct itimerspec ticks = { tick, tick };

	timer_settime(state->timer, 0, &ticks, NULL);
}

/* Waits until bytes may be moved, and writes those of the buffer, or reads into it. Returns their number, or
 * -1 with errno; is_for_now() says whether to repeat it. The timer runs only during this call, because the
 * file system's own calls must not be interrupted. */
static ssize_t move(transport_state *state, int writes)
{
	ssize_t done;
	int why;

	if (await(state, writes ? POLLOUT : POLLIN, -1))
		return -1;
	set_timer(state, TICK);
	done = writes ? write(state->descriptor, state->buffer + state->at, state->end - state->at) :
			read(state->descriptor, state->buffer, sizeof(state->buffer));
	why = errno;
	set_timer(state, 0);
	errno = why;
	return done;
}

/* Writes the bytes of the buffer. Returns 0, or -1 with errno, and then the save has failed. */
static int flush(transport_state *to)
{
	while (to->at < to->end) {
		const ssize_t done = move(to, 1);

		if (done < 0 && !is_for_now())
			return -1;
		if (done > 0)
			to->at += (size_t)done;
	}
	to->at = to->end = 0;
	return 0;
}

/* The last bytes are written by state_end(), so only its result says whether the whole state was written. */
int transport_put_state(transport_state *to, const void *bytes, size_t len)
{
	to->puts = 1;
	while (len) {
		const size_t room = sizeof(to->buffer) - to->end, part = len < room ? len : room;

		memcpy(to->buffer + to->end, bytes, part);
		to->end += part;
		bytes = (const char *)bytes + part;
		len -= part;
		if (to->end == sizeof(to->buffer) && flush(to))
			return -1;
	}
	return 0;
}

/* Fills the buffer after all its bytes were taken. Returns their number, 0 at the end, where the front end
 * closes its descriptor, or -1. */
static ssize_t fill(transport_state *from)
{
	ssize_t got;

	do
		got = move(from, 0);
	while (got < 0 && is_for_now());
	from->at = 0;
	from->end = got > 0 ? (size_t)got : 0;
	return got;
}

/* Returns fewer bytes than `len` only at the end. */
ssize_t transport_get_state(transport_state *from, void *bytes, size_t len)
{
	size_t done = 0;

	while (done < len) {
		const size_t there = from->end - from->at, part = len - done < there ? len - done : there;

		memcpy((char *)bytes + done, from->buffer + from->at, part);
		from->at += part;
		done += part;
		if (done < len) {
			const ssize_t got = fill(from);

			if (got < 0)
				return -1;
			if (!got)
				break;
		}
	}
	return (ssize_t)done;
}

/* The front end learns from close(2) that the state is complete. */
int state_end(transport_state *state)
{
	int error = state->puts ? flush(state) : 0;

	if (close(state->descriptor))
		error = -1;
	timer_delete(state->timer);
	free(state);
	return error;
}
