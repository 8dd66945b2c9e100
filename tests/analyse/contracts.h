/* What functions of vhost_queue.c must keep to: included after it. */
#ifndef CONTRACTS_H
#define CONTRACTS_H

/* Eva takes a structure with a pointer for pointers alone, so each field is named. */
/* clang-format off */
#ifdef OF_EVA
#define ROOMS_FROM(w, g) \
	.iov_base \from g->region[0 .. REGIONS - 1].at; \
	assigns w->room[0 .. PIECES - 1].iov_len \from g->shared[0 .. REGIONS - 1].size
#else
#define ROOMS_FROM(w, g) \from g->region[0 .. REGIONS - 1].at, g->shared[0 .. REGIONS - 1].size
#endif
/* clang-format on */

/*@ predicate has_chain(struct worker *w) =
      \valid(w) && \valid_read(machine) && \separated(w, machine, &machine) && w->copied <= LONGEST && w->len <= LONGEST &&
      w->room_len <= LONGEST && 1 <= w->segments <= PIECES + 1 && w->rooms <= PIECES;

    predicate is_mapped(struct guest *g, struct worker *w) =
      \valid_read(g) && g->regions <= REGIONS && \separated(g, w) &&
      \forall integer i; 0 <= i < g->regions ==>
        \valid(g->region[i].at + (0 .. g->shared[i].size - 1)) &&
        \separated(g->region[i].at + (0 .. g->shared[i].size - 1), w);
*/

/*@ requires log: \valid_read(log);
    requires at: \valid(log->at + (0 .. log->size - 1));
    requires apart: \separated(log, log->at + (0 .. log->size - 1));
    assigns log->at[0 .. log->size - 1] \from log->at[0 .. log->size - 1], address, len; */
static void mark(const struct log *log, uint64_t address, uint64_t len);

/*@ requires \valid(w) && w->copied <= LONGEST && most <= LONGEST;
    requires \valid(at) && \valid(len) && \valid_read(*at + (0 .. *len - 1));
    requires \separated(w, at, len, *at + (0 .. *len - 1));
    assigns w->copied, w->request[0 .. LONGEST - 1], *at, *len;
    ensures \old(w->copied) <= w->copied <= LONGEST;
    ensures *len <= \old(*len) && *at == \old(*at) + (\old(*len) - *len);
    ensures w->copied == \old(w->copied) + (\old(*len) - *len); */
static void copy_up_to(struct worker *w, size_t most, const unsigned char **at, size_t *len);

/*@ requires chain: has_chain(w);
    requires len: len <= LONGEST - w->len;
    requires at: \valid_read(at + (0 .. len - 1));
    requires apart: \separated(w, at + (0 .. len - 1));
    assigns w->copied, w->request[0 .. LONGEST - 1], w->len, w->segments, w->segment[0 .. PIECES];
    ensures chain: has_chain(w);
    ensures code: \result == 0 || \result == -1; */
static int add_request(struct worker *w, const unsigned char *at, size_t len);

/*@ requires chain: has_chain(w);
    requires piece: \valid_read(piece);
    requires apart: \separated(w, piece);
    requires at: \valid(at + (0 .. piece->len - 1));
    requires beside: \separated(w, at + (0 .. piece->len - 1));
    assigns w->copied, w->request[0 .. LONGEST - 1], w->len, w->segments, w->segment[0 .. PIECES],
      w->rooms, w->room[0 .. PIECES - 1], w->room_len;
    ensures chain: has_chain(w);
    ensures code: \result == 0 || \result == -1; */
static int add_piece(struct worker *w, unsigned char *at, const nizwarf_piece *piece);

/*@ requires \valid(w) && \valid_read(machine) && \separated(w, machine, &machine) && is_mapped(g, w);
    requires \valid_read(q) && \separated(w, q);
    requires \valid_read(q->descriptors + (0 .. 16 * q->size - 1));
    assigns w->len, w->copied, w->segments, w->rooms, w->room_len, w->places, w->request[0 .. LONGEST - 1], \result
      \from g->regions, q->size, head;
    assigns w->room[0 .. PIECES - 1] ROOMS_FROM(w, g);
    assigns w->segment[0 .. PIECES] \from w, g->region[0 .. REGIONS - 1].at;
    ensures w->copied <= LONGEST;
    ensures 1 <= w->segments <= PIECES + 1;
    ensures w->rooms <= PIECES;
    ensures \result == 0 || \result == -1; */
static int take_chain(struct worker *w, const struct guest *g, const struct queue *q, uint16_t head);

#endif
