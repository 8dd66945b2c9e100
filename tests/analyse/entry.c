/* Where Eva begins: a worker that serves a queue, of any size, of a front end that shares any regions; a
 * guest that writes anything; requests that are answered with any code and any length, or kept and answered
 * later. */
#ifdef __FRAMAC__
#include "vhost_queue.c"
#include "later.c"
#define OF_EVA
#include "contracts.h"
#include "__fc_builtin.h"

/* Bytes of a region, and of the log of a migration. */
enum { SHARED = 1 << 22, MARKS = 1 << 12 };
static unsigned char memory[REGIONS][SHARED], marks[MARKS];
/* Each read of it is any number. */
static volatile int any;
static struct guest front_end;
static struct worker worker;
static nizwarf_transport with;
static nizwarf_machine guest;

/* The function that the transport calls, at its worst: the front end may disconnect while it has the
 * request; it may return any length, also one above the size of the reply buffer; and it may complete a
 * request that it has kept before it returns, with bytes or without. */
static int32_t serve(void *user, unsigned number, const struct iovec *request, size_t request_count,
		     const struct iovec *reply, size_t reply_count, size_t *len)
{
	static const unsigned char bytes[4096];
	nizwarf_request *kept;

	(void)user, (void)number, (void)request, (void)request_count, (void)reply, (void)reply_count;
	front_end.gone = any;
	*len = Frama_C_unsigned_long_interval(0, LONGEST);
	kept = any ? nizwarf_request_keep() : NULL; /* NULL too, if it can't be kept */
	if (!kept)
		return any;
	if (any)
		nizwarf_request_complete(kept, any, bytes, sizeof(bytes));
	else if (any)
		nizwarf_request_complete(kept, any, bytes, 0);
	return NIZWARF_CALL;
}

/* (nothing that was kept has to be completed at once) */
static void recall(void *user)
{
	(void)user;
}

/* Memory as vhost_user.c sets it up: regions that are not empty, each where it is mapped. */
static void share(struct guest *g)
{
	for (size_t i = 0; i < REGIONS; i++) {
		/* (`vhost_regions` says where the guest and the front end have it; their addresses are anything,
		 * and may be the same) */
		g->region[i] = (struct region){ memory[i] + Frama_C_unsigned_long_interval(0, SHARED - 1),
						memory[i], SHARED };
		g->vhost_regions[i].size = g->shared[i].size = Frama_C_unsigned_long_interval(1, SHARED);
		g->vhost_regions[i].user = Frama_C_unsigned_long_interval(0, SIZE_MAX);
		g->vhost_regions[i].guest = g->shared[i].address =
			Frama_C_unsigned_long_interval(0, SIZE_MAX);
	}
	g->regions = Frama_C_unsigned_long_interval(0, REGIONS);
	g->logs = any;
	if (any)
		g->log = (struct log){ marks, marks, MARKS, Frama_C_unsigned_long_interval(0, MARKS), 0 };
	g->log.event = Frama_C_interval(-1, 1000); /* a descriptor, or none */
}

/* A queue with any places, as the front end's numbers say: these are looked up in the regions. */
static void place_queue(struct queue *q)
{
	/* (the proved library lets no other size through) */
	q->size = Frama_C_unsigned_int_interval(1, 32768);
	q->descriptors_user = Frama_C_unsigned_long_interval(0, SIZE_MAX);
	q->available_user = Frama_C_unsigned_long_interval(0, SIZE_MAX);
	q->used_user = Frama_C_unsigned_long_interval(0, SIZE_MAX);
	q->next = q->done = (uint16_t)any;
	q->enabled = any;
	q->has_events = any;
	q->calls_anyway = any;
	q->kick = Frama_C_interval(-1, 1000);
	q->call = Frama_C_interval(0, 1000);
	q->calls = any;
	q->has_log_address = any;
	q->log_address = Frama_C_unsigned_long_interval(0, SIZE_MAX);
	/* (which finds where the rings are, or that they are nowhere) */
	queue_place(q);
}

int main(void)
{
	struct queue *q = &front_end.queue[0];
	int head = NO_CHAIN;
	int64_t len = 0;

	Frama_C_make_unknown((char *)memory, sizeof(memory));
	with = (nizwarf_transport){ .program = "analysed", .serve = serve };
	with.workers = Frama_C_unsigned_int_interval(1, NIZWARF_MAX_WORKERS);
	guest.writes_in_place = any;
	guest.recall = any ? recall : NULL;
	with.withheld = Frama_C_unsigned_long_interval(0, SIZE_MAX);
	by = &with;
	machine = &guest;
	vhost_guest = &front_end;
	pthread_mutex_init(&q->lock, NULL);
	pthread_mutex_init(&guests, NULL);
	share(&front_end);
	place_queue(q);
	/* (a turn each: what is late, the next chain, its answer; the third begins with all that two can leave) */
	for (int i = 0; i < 3; i++) {
		front_end.gone = any;
		front_end.wanted = any;
		if (has_late(q))
			serve_late(&front_end, q);
		head = next_chain(&front_end, q, head, len);
		len = head < 0 ? 0 : answer(&worker, &front_end, q, (uint16_t)head);
		if (len < 0)
			head = NO_CHAIN;
		else
			mark_rooms(&front_end, worker.room, worker.rooms); /* for a migration */
	}
	return 0;
}

#endif
