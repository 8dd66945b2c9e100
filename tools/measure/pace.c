/* Keeps a vhost-user daemon of virtio-fs busy with requests as a guest of Linux sends them, and takes its time.
 *
 * Usage: pace SOCKET PID [QUEUES] < LINES
 * A line is CLASS DEPTH COUNT: COUNT requests of a class, of which DEPTH are in flight, over that many queues in turn (1).
 * The daemon is the process PID; the folder that it shares has a file `file` of 32 MiB, and a folder `names`. SOCKET may
 * be a number: that of a socket that keeps messages apart, as a daemon has it in place of /dev/fuse, with one request in
 * flight. For each line it prints
 *   WALL CPU BYTES    nanoseconds by the clock, those of processor time that the daemon and its descendants took, and
 *                     the sum of the lengths that requests were completed with
 * A request's header, its record and its data have descriptors of their own, in an indirect table; data lie in
 * pages of 4 KiB. The classes: */
#define CLASSES "unknown getattr lookup read-4k write-4k read-1m write-1m readdir readdirplus"
/* And of files that are remembered, of a folder `many` with files 0000000, 0000001 ..: `know` looks up that many more,
 * `again` that many of those, here and there; `forget` gives all back; `list` lists a folder of that many names,
 * `list-N`; `destroy` ends the session, and `init` begins another one. */
/* Status 3: it could not ask, or a request was answered with another error than it should be. */
#define _GNU_SOURCE
#include "time_spent.h"
#include "../../tests/lib/front.h"

#include <inttypes.h>
#include <poll.h>
#include <sys/uio.h>

/* Of a queue, and the most requests in flight; sizes are in bytes. */
enum { ENTRIES = 64, DEPTH = 64, PAGE = 4096, FILE_SIZE = 32 << 20, ROOM = 256 << 10 };
/* How long the name of a file of `many` is, with its end; and how many files a BATCH_FORGET gives back. */
enum { NAME = 8, BATCH = 4096 };
enum {
	LOOKUP = 1,
	GETATTR = 3,
	OPEN = 14,
	READ = 15,
	WRITE = 16,
	INIT = 26,
	OPENDIR = 27,
	READDIR = 28,
	RELEASEDIR = 29,
	DESTROY = 38,
	BATCH_FORGET = 42,
	READDIRPLUS = 44,
	UNKNOWN = 99
};
enum { IN_HEADER = 40, OUT_HEADER = 16, DATA = 1 << 20 }; /* bytes */
#define INDIRECT (1ull << VIRTIO_RING_F_INDIRECT_DESC)
#define EVENT_IDX (1ull << VIRTIO_RING_F_EVENT_IDX)

/* What a request in flight takes of the memory. (`serial` is which request of a line it has now) */
struct place {
	struct vring_desc table[PAGE / 4];
	/* header and record; those of the reply; data */
	unsigned char asked[PAGE], answered[PAGE], data[DATA];
	uint64_t serial; /* the number of its request in a line */
};

/* The record of a READ, a WRITE, a READDIR and a READDIRPLUS. As fuse_read_in and fuse_write_in have it. */
struct transfer {
	uint64_t handle, offset;
	uint32_t size, flags; /* bytes; of a WRITE its own flags */
	uint64_t owner;
	uint32_t more, padding;
};

/* A request: its record, the data that it has or that are put into the room, and the record of its reply. */
struct request {
	uint32_t opcode;
	uint64_t node;
	const void *record;
	size_t record_len, reply_len, data_len;
	int expected; /* the error of its reply, 0 or below */
	/* The files whose names it has: those from this one on, or any of them. */
	size_t first, any;
};

/* A file that the daemon was asked for: its node, and how often. */
struct known {
	uint64_t node, lookups;
};

static uint64_t file_node, file_handle, names_node, names_handle, many_node, unique, features;
/* How many queues have requests, and what was seen of each; and what there is in place of them. */
static unsigned lanes = 1;
static uint16_t seen[MOST_QUEUES];
static int channel = -1;    /* the socket; -1: it's by queues */
static struct known *known; /* `known_count` of them, by their number in `many` */
static size_t known_count;

/* (after the rings, which have the first MiB) */
static struct place *place_of(unsigned i)
{
	return (struct place *)(void *)(memory + (1 << 20)) + i;
}

/* A lane is a queue for requests, of which the first is the queue 1. */
static struct vring_avail *available_of(unsigned lane)
{
	return (void *)(memory + (1 + lane) * QUEUE + AVAILABLE);
}

static struct vring_used *used_of(unsigned lane)
{
	return (void *)(memory + (1 + lane) * QUEUE + USED);
}

/* The descriptors of the queue that a slot is in. */
static struct vring_desc *lane_of(unsigned slot)
{
	return (void *)(memory + (1 + slot % lanes) * QUEUE);
}

/* Adds a descriptor to a request's table, unless it's empty. */
static void add(struct place *to, uint32_t *n, const void *at, size_t len, uint16_t flags)
{
	const uint64_t guest = (uint64_t)((const unsigned char *)at - memory); /* the guest's address of it */

	if (len) {
		to->table[*n] =
			(struct vring_desc){ guest, (uint32_t)len, (uint16_t)(flags | VRING_DESC_F_NEXT),
					     (uint16_t)(*n + 1) };
		++*n;
	}
}

/* Adds data, a descriptor for each page, as the guest's pages are anywhere. */
static void add_pages(struct place *to, uint32_t *n, size_t len, uint16_t flags)
{
	for (size_t at = 0; at < len; at += PAGE)
		add(to, n, to->data + at, len - at < PAGE ? len - at : PAGE, flags);
}

/* How many of its data a request has itself. */
static size_t sent_by(const struct request *r)
{
	return r->opcode == WRITE || r->opcode == BATCH_FORGET ? r->data_len : 0;
}

/* Puts a request, and the table of its descriptors, where those of slot `i` lie. */
static void put(unsigned i, const struct request *r)
{
	struct place *to = place_of(i);
	const size_t sent = sent_by(r);
	const uint32_t len = (uint32_t)(IN_HEADER + r->record_len + sent);
	uint32_t n = 0;

	memset(to->asked, 0, IN_HEADER);
	memcpy(to->asked, &len, sizeof(len));
	memcpy(to->asked + 4, &r->opcode, sizeof(r->opcode));
	memcpy(to->asked + 16, &r->node, sizeof(r->node));
	if (r->record_len)
		memcpy(to->asked + IN_HEADER, r->record, r->record_len);
	/* (what the daemon reads comes before what it writes) */
	add(to, &n, to->asked, IN_HEADER, 0);
	add(to, &n, to->asked + IN_HEADER, r->record_len, 0);
	add_pages(to, &n, sent, 0);
	add(to, &n, to->answered, OUT_HEADER, VRING_DESC_F_WRITE);
	add(to, &n, to->answered + OUT_HEADER, r->reply_len, VRING_DESC_F_WRITE);
	add_pages(to, &n, r->data_len - sent, VRING_DESC_F_WRITE);
	to->table[n - 1].flags &= (uint16_t)~VRING_DESC_F_NEXT;
	/* (a slot's descriptor in the ring stays the same, with another table behind it) */
	lane_of(i)[i] = (struct vring_desc){ (uint64_t)((unsigned char *)to - memory),
					     n * (uint32_t)sizeof(*to->table), VRING_DESC_F_INDIRECT, 0 };
}

/* Of which file of `many` a request is. */
static size_t file_of(const struct request *r, uint64_t serial)
{
	/* (7919 is a prime: so each comes about as often, and not in order) */
	return r->any ? serial * 7919 % r->any : r->first + serial;
}

/* Makes the request of a slot one of its own: its number, and of data where they lie in the file. */
static void renew(unsigned i, const struct request *r, uint64_t serial)
{
	const uint64_t offset = serial * r->data_len % FILE_SIZE;

	unique++;
	memcpy(place_of(i)->asked + 8, &unique, sizeof(unique));
	if (r->opcode == READ || r->opcode == WRITE)
		memcpy(place_of(i)->asked + IN_HEADER + 8, &offset, sizeof(offset));
	if (r->opcode == LOOKUP && r->node == many_node)
		snprintf((char *)place_of(i)->asked + IN_HEADER, NAME, "%07zu", file_of(r, serial));
	place_of(i)->serial = serial;
}

/* Notes which node a file of `many` has. */
static void note(unsigned i, const struct request *r)
{
	struct known *file;

	if (r->opcode != LOOKUP || r->node != many_node)
		return;
	file = &known[file_of(r, place_of(i)->serial)];
	memcpy(&file->node, place_of(i)->answered + OUT_HEADER, sizeof(file->node));
	file->lookups++;
}

/* Makes a slot's request one that the daemon may take. It isn't told. */
static void submit(unsigned i)
{
	struct vring_avail *available = available_of(i % lanes);

	available->ring[available->idx % ENTRIES] = (uint16_t)i;
	/* (after the entry, and after all of the request) */
	__atomic_store_n(&available->idx, (uint16_t)(available->idx + 1), __ATOMIC_RELEASE);
}

/* Kicks if the daemon wants it, after requests from `old` on were submitted. */
static void kick_it(unsigned lane, uint16_t old)
{
	const struct vring_avail *available = available_of(lane);
	const struct vring_used *used = used_of(lane);
	const uint64_t one = 1;

	__atomic_thread_fence(__ATOMIC_SEQ_CST);
	const uint16_t event = /* from which request on the daemon wants to be told */
		__atomic_load_n((const uint16_t *)(const void *)&used->ring[ENTRIES], __ATOMIC_RELAXED);
	const int wanted =
		features & EVENT_IDX ?
			vring_need_event(event, available->idx, old) :
			!(__atomic_load_n(&used->flags, __ATOMIC_RELAXED) & VRING_USED_F_NO_NOTIFY);

	if (available->idx != old && wanted)
		need(write(kick[1 + lane], &one, sizeof(one)) == sizeof(one), "kick");
}

/* Kicks each queue, of which these were there before. */
static void kick_each(const uint16_t *old)
{
	for (unsigned lane = 0; lane < lanes; lane++)
		kick_it(lane, old[lane]);
}

/* How far each queue is. */
static void look_at(uint16_t *old)
{
	for (unsigned lane = 0; lane < lanes; lane++)
		old[lane] = available_of(lane)->idx;
}

/* Whether a request is completed that wasn't seen. */
static int is_completed(void)
{
	for (unsigned lane = 0; lane < lanes; lane++)
		if (__atomic_load_n(&used_of(lane)->idx, __ATOMIC_ACQUIRE) != seen[lane])
			return 1;
	return 0;
}

/* Has the daemon tell of what it completes from now on, or not, as Linux does: by the last number that was seen, which
 * is passed once, or else by a flag. */
static void let_call(int calls)
{
	for (unsigned lane = 0; lane < lanes; lane++)
		if (features & EVENT_IDX && calls)
			__atomic_store_n(&available_of(lane)->ring[ENTRIES], seen[lane], __ATOMIC_RELAXED);
		else if (!(features & EVENT_IDX))
			__atomic_store_n(&available_of(lane)->flags, calls ? 0 : VRING_AVAIL_F_NO_INTERRUPT,
					 __ATOMIC_RELAXED);
	__atomic_thread_fence(__ATOMIC_SEQ_CST);
}

/* Waits until a request is completed. */
static void wait_for_one(void)
{
	struct pollfd wait[MOST_QUEUES + 1] = { { connection, 0, 0 } };
	uint64_t count;

	for (unsigned lane = 0; lane < lanes; lane++)
		wait[1 + lane] = (struct pollfd){ call[1 + lane], POLLIN, 0 };
	let_call(1);
	while (!is_completed()) {
		/* (a minute at most) */
		need(poll(wait, 1 + lanes, 60000) > 0 && !(wait[0].revents & POLLHUP), "a completion");
		for (unsigned lane = 0; lane < lanes; lane++)
			if (wait[1 + lane].revents)
				need(read(call[1 + lane], &count, sizeof(count)) == sizeof(count), "call");
	}
	let_call(0);
}

/* Holds what a request was answered against what it should be, and notes it. */
static void take_answer(unsigned i, const struct request *r)
{
	int error;

	memcpy(&error, place_of(i)->answered + 4, sizeof(error));
	if (error != r->expected) {
		fprintf(stderr, "pace: unexpected error %d of opcode %" PRIu32 "\n", error, r->opcode);
		exit(3);
	}
	note(i, r);
}

/* Makes a request of the first slot by the socket, and gives its length. */
static uint64_t exchange(const struct request *r)
{
	struct place *to = place_of(0);
	const size_t sent = sent_by(r), room = r->reply_len + (sent ? 0 : r->data_len);
	struct iovec asked[] = { { to->asked, IN_HEADER + r->record_len }, { to->data, sent } };
	struct iovec answered[] = { { to->answered, OUT_HEADER + r->reply_len },
				    { to->data, sent ? 0 : r->data_len } };
	ssize_t len;

	need(writev(channel, asked, 2) > 0, "the socket");
	if (r->opcode == BATCH_FORGET) /* it has no reply */
		return 0;
	len = readv(channel, answered, 2);
	need(len >= OUT_HEADER && (size_t)len <= OUT_HEADER + room, "the socket");
	return (uint64_t)len;
}

/* Makes `count` requests, `depth` at a time, and gives the sum of their lengths. */
static uint64_t make(const struct request *r, unsigned depth, unsigned long count)
{
	unsigned long begun = 0, done = 0;
	uint16_t old[MOST_QUEUES];
	uint64_t sum = 0;

	look_at(old);
	for (; begun < depth && begun < count; begun++) {
		memset(place_of((unsigned)begun)->answered, 0, OUT_HEADER);
		put((unsigned)begun, r);
		renew((unsigned)begun, r, begun);
		if (channel < 0)
			submit((unsigned)begun);
	}
	for (; channel >= 0 && done < count; done++) {
		renew(0, r, done);
		sum += exchange(r);
		take_answer(0, r);
	}
	kick_each(old);
	while (done < count) {
		wait_for_one();
		look_at(old);
		for (unsigned lane = 0; lane < lanes; lane++)
			while (__atomic_load_n(&used_of(lane)->idx, __ATOMIC_ACQUIRE) != seen[lane]) {
				/* which slot's request, and how many bytes were written */
				const struct vring_used_elem it = used_of(lane)->ring[seen[lane]++ % ENTRIES];

				take_answer(it.id, r);
				sum += it.len;
				done++;
				if (begun < count) {
					renew(it.id, r, begun++);
					submit(it.id);
				}
			}
		kick_each(old);
	}
	return sum;
}

/* The number that the reply to a request begins with. (an entry begins by its node, an OPEN's reply by its handle) */
static uint64_t number_of(uint32_t opcode, uint64_t node, const void *record, size_t len, size_t reply_len)
{
	const struct request r = { opcode, node, record, len, reply_len, 0, 0, 0, 0 };
	uint64_t number;

	make(&r, 1, 1);
	memcpy(&number, place_of(0)->answered + OUT_HEADER, sizeof(number));
	return number;
}

/* The nodes and handles that the classes want, which the daemon's folder has. */
static void begin_session(void)
{
	/* What Linux 6.1 offers, and O_RDWR. */
	const uint32_t init[16] = { 7, 38, 131072, 0x7bfffffb, 11 }, flags[2] = { 2, 0 }, none[2] = { 0, 0 };

	number_of(INIT, 0, init, sizeof(init), 64);
	file_node = number_of(LOOKUP, 1, "file", 5, 128);
	file_handle = number_of(OPEN, file_node, flags, sizeof(flags), 16);
	names_node = number_of(LOOKUP, 1, "names", 6, 128);
	names_handle = number_of(OPENDIR, names_node, none, sizeof(none), 16);
}

/* ---- files that are remembered */

/* Looks that many more files up, or that many of those that are known. */
static uint64_t look_up_many(unsigned depth, unsigned long count, int again)
{
	const struct request r = { .opcode = LOOKUP,
				   .node = many_node,
				   .record = "0000000",
				   .record_len = NAME,
				   .reply_len = 128,
				   .first = known_count,
				   .any = again ? known_count : 0 };

	if (!again) {
		/* (of a line's number, which whoever runs it chose) */
		known = realloc(known, (known_count + count) * sizeof(*known));
		need(known != NULL, "memory");
		memset(known + known_count, 0, count * sizeof(*known));
		known_count += count;
	}
	return make(&r, depth, count);
}

/* Files that the daemon has not seen yet. */
static uint64_t know(unsigned depth, unsigned long count)
{
	if (!many_node)
		many_node = number_of(LOOKUP, 1, "many", 5, 128);
	return look_up_many(depth, count, 0);
}

/* Files that it knows: their lookups add up. */
static uint64_t look_up_again(unsigned depth, unsigned long count)
{
	return look_up_many(depth, count, 1);
}

/* Gives all files back. In the order in which they were looked up. */
static uint64_t forget_all(unsigned depth, unsigned long count)
{
	const struct known *from = known;

	(void)depth, (void)count;
	while (known_count) {
		const size_t some = known_count < BATCH ? known_count : BATCH;
		const uint32_t record[] = { (uint32_t)some, 0 };
		const struct request r = { .opcode = BATCH_FORGET,
					   .record = record,
					   .record_len = sizeof(record),
					   .data_len = some * sizeof(*from) };

		memcpy(place_of(0)->data, from, r.data_len);
		make(&r, 1, 1);
		from += some;
		known_count -= some;
	}
	/* (by a socket nothing says that they are done) */
	number_of(GETATTR, 1, (uint64_t[2]){ 0 }, 16, 104);
	return 0;
}

/* The offset after the last one of that many bytes of names; and counts them. */
static uint64_t take_names(size_t len, unsigned long *count)
{
	const unsigned char *data = place_of(0)->data;
	uint64_t offset = 0;
	uint32_t size;

	for (size_t at = 0; at < len; at += (24 + (size_t)size + 7) / 8 * 8, ++*count) {
		memcpy(&offset, data + at + 8, sizeof(offset));
		memcpy(&size, data + at + 16, sizeof(size));
	}
	return offset;
}

/* Lists a folder of that many names. */
static uint64_t list(unsigned depth, unsigned long count)
{
	const uint32_t none[2] = { 0, 0 };
	char name[40];
	const size_t len = (size_t)snprintf(name, sizeof(name), "list-%lu", count) + 1;
	const uint64_t node = number_of(LOOKUP, 1, name, len, 128);
	struct transfer record = { .handle = number_of(OPENDIR, node, none, sizeof(none), 16), .size = ROOM };
	const struct request r = { .opcode = READDIR,
				   .node = node,
				   .record = &record,
				   .record_len = sizeof(record),
				   .data_len = ROOM };
	const uint64_t release[] = { record.handle, 0, 0 }; /* a fuse_release_in */
	uint64_t got, sum = 0;
	unsigned long names = 0;

	(void)depth;
	while ((got = make(&r, 1, 1)) > OUT_HEADER) {
		record.offset = take_names(got - OUT_HEADER, &names);
		sum += got;
	}
	need(names == count + 2, "the names"); /* `.` and `..` too */
	make(&(struct request){ .opcode = RELEASEDIR,
				.node = node,
				.record = release,
				.record_len = sizeof(release) },
	     1, 1);
	return sum;
}

/* All that was looked up is gone with it, also here. */
static uint64_t destroy(unsigned depth, unsigned long count)
{
	(void)depth, (void)count;
	known_count = 0;
	many_node = 0;
	return make(&(struct request){ .opcode = DESTROY }, 1, 1);
}

/* Its time is not asked for: `0` stands for the lengths. */
static uint64_t init_anew(unsigned depth, unsigned long count)
{
	(void)depth, (void)count;
	begin_session();
	return 0;
}

/* What is no class of one request, or NULL. */
typedef uint64_t action(unsigned depth, unsigned long count);

static action *action_of(const char *class)
{
	static const struct {
		const char *name;
		action *act;
	} actions[] = { { "know", know }, { "again", look_up_again }, { "forget", forget_all },
			{ "list", list }, { "destroy", destroy },     { "init", init_anew } };

	for (size_t i = 0; i < sizeof(actions) / sizeof(*actions); i++)
		if (!strcmp(class, actions[i].name))
			return actions[i].act;
	return NULL;
}

/* Gives the request of a class, whose record may lie in `record`. */
static struct request request_of(const char *class, struct transfer *record)
{
	static const unsigned char zeros[16];
	const int large = strstr(class, "1m") != NULL;

	*record = (struct transfer){ .handle = file_handle, .size = large ? 1 << 20 : PAGE };
	if (!strcmp(class, "unknown"))
		return (struct request){ UNKNOWN, 1, zeros, sizeof(zeros), 0, 0, -38, 0, 0 };
	if (!strcmp(class, "getattr"))
		return (struct request){ GETATTR, 1, zeros, sizeof(zeros), 104, 0, 0, 0, 0 };
	if (!strcmp(class, "lookup"))
		return (struct request){ LOOKUP, 1, "file", 5, 128, 0, 0, 0, 0 };
	if (!strncmp(class, "read-", 5))
		return (struct request){ READ, file_node, record, sizeof(*record), 0, record->size, 0, 0, 0 };
	if (!strncmp(class, "write-", 6))
		return (struct request){
			WRITE, file_node, record, sizeof(*record), 8, record->size, 0, 0, 0
		};
	if (strncmp(class, "readdir", 7)) {
		fprintf(stderr, "pace: unknown class '%s': must be one of %s\n", class, CLASSES);
		exit(3);
	}
	*record = (struct transfer){ .handle = names_handle, .size = ROOM };
	return (struct request){
		class[7] ? READDIRPLUS : READDIR, names_node, record, sizeof(*record), 0, ROOM, 0, 0, 0
	};
}

static uint64_t now(void)
{
	struct timespec time;

	clock_gettime(CLOCK_MONOTONIC, &time);
	return (uint64_t)time.tv_sec * 1000000000 + (uint64_t)time.tv_nsec;
}

/* Connects to the daemon, or takes the socket that there is. */
static void begin_with(const char *where)
{
	const size_t size = (1 << 20) + DEPTH * sizeof(struct place); /* the rings, and the places */

	if (*where >= '0' && *where <= '9') {
		channel = atoi(where);
		memory = mmap(NULL, size, PROT_READ | PROT_WRITE, MAP_PRIVATE | MAP_ANONYMOUS | MAP_NORESERVE,
			      -1, 0);
		need(memory != MAP_FAILED, "memory");
	} else {
		meet(where);
		features = begin_queues(1 + lanes, size, ENTRIES, INDIRECT | EVENT_IDX);
		need((features & INDIRECT) != 0, "indirect descriptors");
	}
	begin_session();
}

/* Makes the requests of a line, and prints what they took. */
static void pace(pid_t pid, const char *class, unsigned depth, unsigned long times)
{
	/* A thread's time is counted once it sleeps again. */
	const struct timespec pause = { 0, 300000 }; /* 0.3 ms */
	action *const act = action_of(class);
	struct transfer record;
	struct request r;

	need(depth > 0 && depth <= DEPTH && times > 0, "a line");
	if (!act) {
		r = request_of(class, &record);
		/* (once before, so that memory is there) */
		make(&r, depth, depth);
	}
	nanosleep(&pause, NULL);
	const uint64_t ran = time_spent(pid), from = now();
	const uint64_t bytes = act ? act(depth, times) : make(&r, depth, times), wall = now() - from;

	nanosleep(&pause, NULL);
	printf("%" PRIu64 " %" PRIu64 " %" PRIu64 "\n", wall, (uint64_t)time_spent(pid) - ran, bytes);
	fflush(stdout);
}

int main(int count, char **words)
{
	char class[40]; /* as long as %39s reads */
	unsigned depth;
	unsigned long times;

	lanes = count == 4 ? (unsigned)atoi(words[3]) : 1;
	if ((count != 3 && count != 4) || lanes < 1 || lanes >= MOST_QUEUES) {
		fprintf(stderr, "Usage: pace SOCKET PID [QUEUES] < LINES\n");
		return 2;
	}
	begin_with(words[1]);
	while (scanf("%39s %u %lu", class, &depth, &times) == 3)
		pace((pid_t)atol(words[2]), class, depth, times);
	return 0;
}
