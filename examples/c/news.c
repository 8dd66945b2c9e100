/* A file system of nizwarf_ops.h with one file, `news`, which uses operations that virtiofsd lacks: locks, for which no
 * thread waits, STATX, TMPFILE, IOCTL, POLL and BMAP. Linux may cache everything for a day, so the program must send a
 * notice of each change.
 *
 * Usage: news [--io_uring] MOUNTPOINT, as root. With --io_uring requests come over io_uring, and up to KEPT of each
 * processor may wait. Each line of standard input is a command, after which the program prints `done`:
 *
 *	set TEXT, quiet TEXT	changes the text of the file, with a notice and without
 *	store TEXT		changes the text, and stores it in Linux's cache
 *	retrieve		prints the text that is in Linux's cache
 *	name NAME, quietname NAME	renames the file, with a notice and without
 *	delete NAME, prune, poll, resend, epoch		send these notices
 *	show			prints the locks, and how many lookups were forgotten
 */
#define _GNU_SOURCE
#include <inttypes.h>
#include <linux/fuse.h>
#include <poll.h>
#include <pthread.h>
#include <stdio.h>
#include <stdlib.h>
#include <string.h>
#include <sys/ioctl.h>
#include <sys/mount.h>
#include <unistd.h>
#include "nizwarf_fuse.h"

enum {
	ROOT = 1,
	NEWS = 2,
	UNNAMED = 3,	  /* the file of O_TMPFILE */
	MOST_LOCKS = 256, /* of all owners, and as many that wait */
	DAY = 86400,	  /* seconds */
	WORKERS = 2,
	KEPT = 4,			      /* requests of a processor that may wait over io_uring */
	MESSAGE = NIZWARF_MAX_PAYLOAD + 4096, /* bytes of the largest reply */
	ITEMS = 8,     /* entries in one reply to READDIR; Linux reads again for more */
	LONGEST = 4096 /* bytes of a text, and of a line */
};

static char text[LONGEST] = "old\n", name[64] = "news", unnamed[LONGEST];
static size_t unnamed_len;
static uint64_t forgotten;	/* lookups */
static _Atomic uint64_t polled; /* `kh` of the last poll that waits, or 0 */

/* Protects all data of the file system. It must not be held while a notice is sent, because Linux may then wait for a
 * request. Only the thread of the commands changes `text` and `name`, so it may read them without the lock. */
static pthread_mutex_t lock = PTHREAD_MUTEX_INITIALIZER;
static nizwarf_fuse_notices notices = NIZWARF_FUSE_NOTICES_INIT;
/* (main sets the page size) */
static nizwarf_session session = { .max_buffer = NIZWARF_MAX_PAYLOAD };
/* Each worker must have its own scratch memory, because it serves one call at a time. `late_slot` is used under the
 * lock. */
static nizwarf_scratch slots[NIZWARF_MAX_WORKERS], late_slot = NIZWARF_SCRATCH_INIT;

/* ---- locks */

/* A lock that an owner has. */
static struct held {
	uint64_t owner;
	nizwarf_lock lock;
	int flock, is_used; /* `flock`: of flock(2), otherwise of fcntl(2) */
} held[MOST_LOCKS];

/* Interrupts that arrived before their calls. */
static nizwarf_interrupts early;

/* A call that waits for a lock. */
static struct waiting {
	nizwarf_call call;	/* a copy, because that of `serve` is valid only until it returns */
	nizwarf_request *later; /* NULL if this element is free */
} waiting[MOST_LOCKS];

/* A lock that conflicts with the wanted one, or NULL. Locks of flock(2) and of fcntl(2) never conflict. A file system
 * with several files must also compare the nodes, because a process is the same owner in all files. The caller must
 * hold `lock`, here and in the functions up to wait_for. */
static const struct held *conflicting(uint64_t owner, const nizwarf_lock *wanted, int flock)
{
	for (int i = 0; i < MOST_LOCKS; i++) {
		const struct held *h = &held[i];

		if (h->is_used && h->flock == flock && h->owner != owner && h->lock.start <= wanted->end &&
		    wanted->start <= h->lock.end && (h->lock.type == F_WRLCK || wanted->type == F_WRLCK))
			return h;
	}
	return NULL;
}

/* Adds a lock. The caller has checked that there is a free place. */
static void add(uint64_t owner, const nizwarf_lock *wanted, int flock)
{
	int i = 0;

	while (held[i].is_used)
		i++;
	held[i] = (struct held){ owner, *wanted, flock, 1 };
}

/* Whether a lock of this owner and kind overlaps the range. */
static int is_cut(const struct held *h, uint64_t owner, const nizwarf_lock *wanted, int flock)
{
	return h->is_used && h->flock == flock && h->owner == owner && h->lock.start <= wanted->end &&
	       wanted->start <= h->lock.end;
}

/* Whether there are places for the locks that remain after a change, so that a change either succeeds or leaves all
 * locks as they were. */
static int has_places(uint64_t owner, const nizwarf_lock *wanted, int flock)
{
	int places = 0, needed = wanted->type != F_UNLCK;

	for (int i = 0; i < MOST_LOCKS; i++) {
		const struct held *h = &held[i];

		places += !h->is_used;
		if (is_cut(h, owner, wanted, flock))
			needed += (h->lock.start < wanted->start) + (h->lock.end > wanted->end) - 1;
	}
	return needed <= places;
}

/* Removes a range from an owner's locks, and adds the new lock unless its type is F_UNLCK. Returns ENOLCK, and changes
 * nothing, if there are too few places. */
static int change(uint64_t owner, const nizwarf_lock *wanted, int flock)
{
	if (!has_places(owner, wanted, flock))
		return ENOLCK;
	for (int i = 0; i < MOST_LOCKS; i++) {
		nizwarf_lock before = held[i].lock, after = held[i].lock;

		if (!is_cut(&held[i], owner, wanted, flock))
			continue;
		held[i].is_used = 0;
		/* (if the range begins at 0, or ends at UINT64_MAX, one of these wraps around, and is not used) */
		before.end = wanted->start - 1;
		after.start = wanted->end + 1;
		if (before.start < wanted->start)
			add(owner, &before, flock);
		if (after.end > wanted->end)
			add(owner, &after, flock);
	}
	if (wanted->type != F_UNLCK)
		add(owner, wanted, flock);
	return 0;
}

static const nizwarf_ops ops;

/* Replies to a call that waited. This may happen before the `serve` of that call has returned. */
static void finish(struct waiting *w, int error)
{
	nizwarf_request *later = w->later;
	nizwarf_answer answer = NIZWARF_ANSWER_INIT;
	uint8_t reply[16]; /* has room for the reply, because a lock call has no result */
	size_t len;
	int32_t code;

	answer.error = error;
	code = nizwarf_finish_ops(&ops, NULL, &late_slot, &session, &w->call, &answer, reply, &len);
	w->later = NULL;
	nizwarf_request_complete(later, code, reply, len);
}

/* Grants the locks of the waiters that no lock conflicts with any more. */
static void wake(void)
{
	for (int i = 0; i < MOST_LOCKS; i++) {
		const nizwarf_call *call = &waiting[i].call;
		const nizwarf_lock wanted = nizwarf_lock_of(call);
		const int flock = (call->has & NIZWARF_LK_FLOCK) != 0;

		if (waiting[i].later && !conflicting(call->lock_owner, &wanted, flock))
			/* (later waiters are checked against the new lock, so only one of two that conflict gets it) */
			finish(&waiting[i], change(call->lock_owner, &wanted, flock));
	}
}

/* Lets a call wait without a thread. Returns NIZWARF_LATER, EINTR if the call was interrupted before it began, or
 * ENOLCK if no more calls may wait. */
static int wait_for(const nizwarf_call *call)
{
	if (nizwarf_take_interrupt(&early, call->unique))
		return EINTR;
	for (int i = 0; i < MOST_LOCKS; i++) {
		if (waiting[i].later)
			continue;
		waiting[i].call = *call;
		waiting[i].later = nizwarf_request_keep();
		return waiting[i].later ? NIZWARF_LATER : ENOLCK;
	}
	return ENOLCK;
}

/* Sets or releases a lock. Returns EAGAIN if another owner has it and the caller does not wait. */
static int set_lock(const nizwarf_call *call, const nizwarf_lock *wanted, int waits, int flock)
{
	int error;

	pthread_mutex_lock(&lock);
	if (wanted->type == F_UNLCK || !conflicting(call->lock_owner, wanted, flock)) {
		error = change(call->lock_owner, wanted, flock);
		wake();
	} else {
		error = waits ? wait_for(call) : EAGAIN;
	}
	pthread_mutex_unlock(&lock);
	return error;
}

static int news_getlk(const nizwarf_req *req, uint64_t ino, const nizwarf_file_info *fi, nizwarf_lock *asked)
{
	const struct held *other;

	(void)req, (void)ino;
	pthread_mutex_lock(&lock);
	other = conflicting(fi->lock_owner, asked, 0);
	asked->type = F_UNLCK;
	if (other)
		*asked = other->lock;
	pthread_mutex_unlock(&lock);
	return 0;
}

static int news_setlk(const nizwarf_req *req, uint64_t ino, const nizwarf_file_info *fi,
		      const nizwarf_lock *wanted, int sleep)
{
	(void)ino, (void)fi;
	return set_lock(req->call, wanted, sleep, 0);
}

static int news_flock(const nizwarf_req *req, uint64_t ino, const nizwarf_file_info *fi, int op)
{
	const nizwarf_lock all = { 0, INT64_MAX,
				   op & LOCK_UN ? F_UNLCK :
				   op & LOCK_SH ? F_RDLCK :
						  F_WRLCK,
				   0 };

	(void)ino, (void)fi;
	return set_lock(req->call, &all, !(op & LOCK_NB), 1);
}

/* The interrupted call may be one that does not wait for a lock, or that has ended: then nothing must be done. It may
 * also be one that has not begun, so its number must be kept. */
static void news_interrupt(void *user, uint64_t unique)
{
	int is_found = 0;

	(void)user;
	pthread_mutex_lock(&lock);
	for (int i = 0; i < MOST_LOCKS; i++)
		if (waiting[i].later && waiting[i].call.unique == unique) {
			finish(&waiting[i], EINTR);
			is_found = 1;
		}
	if (!is_found)
		nizwarf_keep_interrupt(&early, unique);
	pthread_mutex_unlock(&lock);
}

/* Releases all locks of an owner. */
static int unlock(uint64_t owner, int flock)
{
	const nizwarf_lock all = { 0, UINT64_MAX, F_UNLCK, 0 };
	int error;

	pthread_mutex_lock(&lock);
	error = change(owner, &all, flock);
	wake();
	pthread_mutex_unlock(&lock);
	return error;
}

/* At each close(2) of a descriptor the process loses its locks on the file, as POSIX requires. */
static int news_flush(const nizwarf_req *req, uint64_t ino, const nizwarf_file_info *fi)
{
	(void)req, (void)ino;
	return unlock(fi->lock_owner, 0);
}

static int news_release(const nizwarf_req *req, uint64_t ino, const nizwarf_file_info *fi)
{
	(void)ino;
	return req->call->has & NIZWARF_RELEASE_FLOCK_UNLOCK ? unlock(fi->lock_owner, 1) : 0;
}

/* ---- the file */

/* In bytes. The caller must hold `lock`. */
static size_t size_of(uint64_t ino)
{
	return ino == ROOT ? 0 : ino == UNNAMED ? unnamed_len : strlen(text);
}

static int news_getattr(const nizwarf_req *req, uint64_t ino, const nizwarf_file_info *fi, nizwarf_attr *attr,
			struct timespec *attr_timeout)
{
	(void)req, (void)fi;
	attr_timeout->tv_sec = DAY;
	attr->ino = ino;
	attr->mode = ino == ROOT ? S_IFDIR | 0755 : S_IFREG | 0644;
	attr->nlink = ino != UNNAMED;
	pthread_mutex_lock(&lock);
	attr->size = size_of(ino);
	pthread_mutex_unlock(&lock);
	return 0;
}

static int news_statx(const nizwarf_req *req, uint64_t ino, uint32_t flags, uint32_t mask,
		      const nizwarf_file_info *fi, nizwarf_statx *statx, struct timespec *timeout)
{
	(void)req, (void)flags, (void)mask, (void)fi;
	timeout->tv_sec = DAY;
	statx->mask = STATX_BASIC_STATS | STATX_BTIME;
	statx->ino = ino;
	statx->mode = ino == ROOT ? S_IFDIR | 0755 : S_IFREG | 0644;
	statx->nlink = ino != UNNAMED;
	statx->btime.tv_sec = 1234567890; /* only STATX has a birth time */
	pthread_mutex_lock(&lock);
	statx->size = size_of(ino);
	pthread_mutex_unlock(&lock);
	return 0;
}

/* The file has no blocks; the number shows that Linux has sent the call. */
static int news_bmap(const nizwarf_req *req, uint64_t ino, size_t blocksize, uint64_t idx, uint64_t *block)
{
	(void)req, (void)ino, (void)blocksize;
	*block = idx + 1000;
	return 0;
}

/* Command 1 returns the length of the text, and command 2 the length of the string that the caller passes. */
static int news_ioctl(const nizwarf_req *req, uint64_t ino, uint32_t cmd, uint64_t arg,
		      const nizwarf_file_info *fi, uint32_t flags, const void *in_buf, size_t in_size,
		      nizwarf_ioctl *out, void *out_buf, size_t out_size, size_t *len)
{
	const char *in = in_buf;
	uint32_t count;

	(void)req, (void)arg, (void)fi, (void)flags;
	pthread_mutex_lock(&lock);
	count = (uint32_t)size_of(ino);
	pthread_mutex_unlock(&lock);
	if (cmd == _IOWR('n', 2, char[64]))
		count = (uint32_t)strnlen(in, in_size);
	else if (cmd != _IOR('n', 1, uint32_t))
		return ENOTTY;
	if (out_size < sizeof(count))
		return EINVAL;
	memcpy(out_buf, &count, sizeof(count));
	*len = sizeof(count);
	out->result = 7; /* the return value of ioctl(2) */
	return 0;
}

static int news_poll(const nizwarf_req *req, uint64_t ino, const nizwarf_file_info *fi, uint32_t events,
		     uint64_t kh, int notify, uint32_t *revents)
{
	(void)req, (void)ino, (void)fi, (void)events;
	pthread_mutex_lock(&lock);
	polled = notify ? kh : 0;
	*revents = strcmp(text, "old\n") ? POLLIN : 0;
	pthread_mutex_unlock(&lock);
	return 0;
}

static int news_lookup(const nizwarf_req *req, uint64_t parent, const char *wanted, nizwarf_entry_param *e)
{
	int is_news;

	/* (Linux may also remember for a day that there is no such name) */
	e->entry_timeout.tv_sec = DAY;
	pthread_mutex_lock(&lock);
	is_news = parent == ROOT && !strcmp(wanted, name);
	pthread_mutex_unlock(&lock);
	if (!is_news)
		return 0;
	e->ino = NEWS;
	return news_getattr(req, NEWS, NULL, &e->attr, &e->attr_timeout);
}

static int news_open(const nizwarf_req *req, uint64_t ino, nizwarf_file_info *fi)
{
	(void)req, (void)ino;
	fi->open_flags = FOPEN_KEEP_CACHE;
	return 0;
}

static int news_readdir(const nizwarf_req *req, uint64_t ino, uint64_t off, const nizwarf_file_info *fi,
			nizwarf_dir *dir)
{
	(void)req, (void)fi;
	pthread_mutex_lock(&lock);
	/* (the position of an entry is its number, because there are always the same three) */
	while (off < 3 && nizwarf_add_direntry(dir,
					       off == 2 ? name :
					       off	? ".." :
							  ".",
					       off < 2 ? ROOT : NEWS, 0, off + 1))
		off++;
	pthread_mutex_unlock(&lock);
	return ino == ROOT ? 0 : ENOTDIR;
}

static int news_read(const nizwarf_req *req, uint64_t ino, size_t size, uint64_t off,
		     const nizwarf_file_info *fi, void *buf, size_t *len)
{
	size_t all, left;

	(void)req, (void)fi;
	pthread_mutex_lock(&lock);
	all = size_of(ino);
	left = off < all ? all - off : 0;
	*len = size < left ? size : left;
	memcpy(buf, (ino == UNNAMED ? unnamed : text) + all - left, *len);
	pthread_mutex_unlock(&lock);
	return 0;
}

static int news_write(const nizwarf_req *req, uint64_t ino, const void *buf, size_t size, uint64_t off,
		      const nizwarf_file_info *fi, size_t *len)
{
	(void)req, (void)fi;
	/* (`off` is checked first, so that the subtraction cannot overflow) */
	if (ino != UNNAMED || off > sizeof(unnamed) || size > sizeof(unnamed) - off)
		return ENOSPC;
	pthread_mutex_lock(&lock);
	/* (a hole must read as zeros, not as data of an earlier file) */
	if (off > unnamed_len)
		memset(unnamed + unnamed_len, 0, off - unnamed_len);
	memcpy(unnamed + off, buf, size);
	if (off + size > unnamed_len)
		unnamed_len = off + size;
	pthread_mutex_unlock(&lock);
	*len = size;
	return 0;
}

/* There is only one file without a name, so each call empties it. */
static int news_tmpfile(const nizwarf_req *req, uint64_t parent, uint32_t mode, nizwarf_file_info *fi,
			nizwarf_entry_param *e)
{
	(void)parent, (void)mode, (void)fi;
	pthread_mutex_lock(&lock);
	unnamed_len = 0;
	pthread_mutex_unlock(&lock);
	e->ino = UNNAMED;
	e->generation = 1;
	return news_getattr(req, UNNAMED, NULL, &e->attr, &e->attr_timeout);
}

static int news_conn(const nizwarf_req *req, nizwarf_conn_info *conn)
{
	(void)req;
	/* POSIX_LOCKS, FLOCK_LOCKS and HAS_RESEND; older headers of Linux lack the last one. */
	conn->want |= UINT64_C(1) << 1 | UINT64_C(1) << 10 | UINT64_C(1) << 39;
	conn->max_background = 20;
	conn->time_gran = 1;
	return 0;
}

static void news_forget(const nizwarf_req *req, uint64_t ino, uint64_t nlookup)
{
	(void)req, (void)ino;
	pthread_mutex_lock(&lock);
	forgotten += nlookup;
	pthread_mutex_unlock(&lock);
}

static void news_retrieve_reply(const nizwarf_req *req, uint64_t cookie, uint64_t ino, uint64_t offset,
				const void *data, size_t size)
{
	(void)req;
	printf("retrieved %" PRIu64 " %" PRIu64 " %" PRIu64 " %.*s", cookie, ino, offset, (int)size,
	       (const char *)data);
	fflush(stdout);
}

static const nizwarf_ops ops = { .conn = news_conn,
				 .forget = news_forget,
				 .lookup = news_lookup,
				 .getattr = news_getattr,
				 .readdir = news_readdir,
				 .read = news_read,
				 .write = news_write,
				 .open = news_open,
				 .flush = news_flush,
				 .release = news_release,
				 .interrupt = news_interrupt,
				 .getlk = news_getlk,
				 .setlk = news_setlk,
				 .flock = news_flock,
				 .statx = news_statx,
				 .bmap = news_bmap,
				 .ioctl = news_ioctl,
				 .poll = news_poll,
				 .tmpfile = news_tmpfile,
				 .retrieve_reply = news_retrieve_reply };

/* ---- commands */

/* Sends a notice. ENOENT is no error, because it means that Linux has nothing cached for the node or the name. */
static void tell(const void *notice, size_t len, const void *data, size_t data_len, const char *what)
{
	const int error = nizwarf_fuse_notify(&notices, notice, len, data, data_len);

	if (error && error != ENOENT)
		printf("%s: %s\n", what, strerror(error));
}

static void tell_entry(const char *of)
{
	uint8_t notice[256];

	tell(notice, nizwarf_notice_inval_entry(ROOT, 0, of, strlen(of), notice, sizeof(notice)), NULL, 0,
	     "inval_entry");
}

/* Truncates a text that is too long. */
static void set_text(const char *to)
{
	pthread_mutex_lock(&lock);
	snprintf(text, sizeof(text), "%s\n", to);
	pthread_mutex_unlock(&lock);
}

static void set_name(const char *to)
{
	pthread_mutex_lock(&lock);
	snprintf(name, sizeof(name), "%s", to);
	pthread_mutex_unlock(&lock);
}

static void show(void)
{
	pthread_mutex_lock(&lock);
	printf("lookups forgotten: %" PRIu64 "\n", forgotten);
	for (int i = 0; i < MOST_LOCKS; i++)
		if (held[i].is_used)
			printf("held %d %" PRIu32 " %" PRIu64 " %" PRIu64 "\n", held[i].flock,
			       held[i].lock.type, held[i].lock.start, held[i].lock.end);
	for (int i = 0; i < MOST_LOCKS; i++)
		if (waiting[i].later)
			printf("waits\n");
	pthread_mutex_unlock(&lock);
}

/* After `set` Linux reads the text again, after `store` it has the new text, and after `quiet` it keeps the old one. */
static void obey_text(const char *word, const char *rest)
{
	uint8_t notice[64];

	set_text(rest);
	if (!strcmp(word, "set"))
		tell(notice, nizwarf_notice_inval_inode(NEWS, 0, 0, notice, sizeof(notice)), NULL, 0,
		     "inval_inode");
	else if (!strcmp(word, "store"))
		tell(notice, nizwarf_notice_store(NEWS, 0, (uint32_t)strlen(text), notice, sizeof(notice)),
		     text, strlen(text), "store");
}

static void obey_name(const char *word, const char *rest)
{
	const int is_told = !strcmp(word, "name");
	uint8_t notice[256];

	if (!strcmp(word, "delete")) {
		/* (no lookup matches an empty name, so the file is gone) */
		set_name("");
		tell(notice, nizwarf_notice_delete(ROOT, NEWS, rest, strlen(rest), notice, sizeof(notice)),
		     NULL, 0, "delete");
		return;
	}
	if (is_told)
		tell_entry(name);
	set_name(rest);
	if (is_told)
		tell_entry(name);
}

static void obey_notice(const char *word)
{
	const uint64_t node = NEWS;
	uint8_t notice[64];
	size_t len;

	if (!strcmp(word, "poll")) {
		tell(notice, nizwarf_notice_poll(polled, notice, sizeof(notice)), NULL, 0, word);
	} else if (!strcmp(word, "resend")) {
		tell(notice, nizwarf_notice_resend(notice, sizeof(notice)), NULL, 0, word);
	} else if (!strcmp(word, "epoch")) {
		tell(notice, nizwarf_notice_inc_epoch(notice, sizeof(notice)), NULL, 0, word);
	} else if (!strcmp(word, "prune")) {
		len = nizwarf_notice_prune(1, notice, sizeof(notice));
		tell(notice, len, &node, sizeof(node), word);
	} else if (!strcmp(word, "retrieve")) {
		/* (77 is the `cookie` of retrieve_reply) */
		len = nizwarf_notice_retrieve(77, NEWS, 0, sizeof(text), notice, sizeof(notice));
		tell(notice, len, NULL, 0, word);
	}
}

static void obey(char *line)
{
	const char *word = strsep(&line, " "), *rest = line ? line : "";

	if (!strcmp(word, "set") || !strcmp(word, "quiet") || !strcmp(word, "store"))
		obey_text(word, rest);
	else if (!strcmp(word, "name") || !strcmp(word, "quietname") || !strcmp(word, "delete"))
		obey_name(word, rest);
	else if (!strcmp(word, "show"))
		show();
	else
		obey_notice(word);
	printf("done\n");
	fflush(stdout);
}

/* The thread of the commands. It ends with standard input. */
static void *obey_each(void *none)
{
	char line[LONGEST];

	while (fgets(line, sizeof(line), stdin)) {
		line[strcspn(line, "\n")] = 0;
		obey(line);
	}
	return none;
}

/* Each worker's buffer for a reply in one segment. */
static uint8_t *replies[NIZWARF_MAX_WORKERS];

static int begin(void *user, unsigned worker)
{
	(void)user;
	replies[worker] = malloc(MESSAGE);
	return !replies[worker];
}

static void end(void *user, unsigned worker)
{
	(void)user;
	nizwarf_scratch_free(&slots[worker]);
	free(replies[worker]);
}

/* Over io_uring the reply buffer has two segments, but nizwarf_serve_ops needs one, so the reply is copied. */
static int32_t serve(void *user, unsigned worker, const struct iovec *request, size_t segments,
		     const struct iovec *room, size_t rooms, size_t *len)
{
	nizwarf_dirent items[ITEMS];
	size_t size = 0, copied = 0;
	int32_t code;

	(void)segments;
	for (size_t i = 0; i < rooms; i++)
		size += room[i].iov_len;
	code = nizwarf_serve_ops(&ops, user, &slots[worker], &session, request->iov_base, request->iov_len,
				 rooms > 1 ? replies[worker] : room->iov_base, size, items, ITEMS, len);
	for (size_t i = 0; rooms > 1 && i < rooms && copied < *len; i++) {
		const size_t part = *len - copied < room[i].iov_len ? *len - copied : room[i].iov_len;

		memcpy(room[i].iov_base, replies[worker] + copied, part);
		copied += part;
	}
	return code;
}

int main(int count, char **words)
{
	const int by_ring = count == 3 && !strcmp(words[1], "--io_uring");
	const nizwarf_transport by = { .size = sizeof(by),
				       .program = "news",
				       .workers = WORKERS,
				       .io_uring = by_ring,
				       .io_uring_workers = 2,
				       .io_uring_kept = KEPT,
				       .io_uring_warn = 1,
				       .notices = &notices,
				       .begin = begin,
				       .end = end,
				       .serve = serve };
	pthread_t lines;
	int device, status;

	if (count != 2 + by_ring || !strcmp(words[1], "--help"))
		return fputs("Usage: news [--io_uring] MOUNTPOINT\n", stderr), 2;
	session.page_size = (uint32_t)sysconf(_SC_PAGESIZE);
	device = nizwarf_fuse_mount(&by, "news", words[1 + by_ring], MS_NOSUID | MS_NODEV,
				    "default_permissions");
	if (device < 0)
		return 1;
	/* The thread inherits the signal mask, in which the mount has blocked the signals. */
	if (pthread_create(&lines, NULL, obey_each, NULL)) {
		nizwarf_fuse_detach(&by, words[1 + by_ring]);
		return 1;
	}
	/* (it may wait for standard input until the process ends) */
	pthread_detach(lines);
	status = nizwarf_fuse_serve(&by, device, words[1 + by_ring]);
	nizwarf_scratch_free(&late_slot);
	return status;
}
