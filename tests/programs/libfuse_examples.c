/* Small file systems of nizwarf_ops.h, each of which behaves as the example of libfuse that has its name, so that
 * libfuse's own tests can judge it: test_libfuse_cases.py. The last part of the program's name says which one it is:
 *
 *	hello			a file that can be read
 *	notify_inval_inode	a file `current_time`, whose text changes: INVAL_INODE
 *	notify_store_retrieve	the same: STORE, and RETRIEVE, which must bring what was stored
 *	notify_prune		the same: PRUNE
 *	notify_inval_entry	a file whose name changes: INVAL_ENTRY, or INC_EPOCH
 *	invalidate_path		a file whose text changes, and one that grows: INVAL_INODE
 *	poll			16 files into which bytes come, and from which they are taken
 *	ioctl			a file whose size IOCTL reads and sets
 *
 * Usage: NAME [-f] [--update-interval=SECONDS] [--no-notify] [--timeout=SECONDS] [--only-expire] [--inc-epoch] MOUNTPOINT,
 * as root. Status 0: it was unmounted, and what was retrieved was what had been stored; 1: not so; 2: it could not start.
 */
#define _GNU_SOURCE
#include <inttypes.h>
#include <linux/fuse.h>
#include <poll.h>
#include <pthread.h>
#include <stdio.h>
#include <stdlib.h>
#include <string.h>
#include <sys/ioctl.h>
#include <sys/mount.h>
#include <unistd.h>
#include "nizwarf_fuse.h"

enum {
	ROOT = 1,
	FIRST = 2,
	MOST = 16,	/* files of one file system */
	LONGEST = 4096, /* bytes of a text */
	WORKERS = 2,	/* each with a slot of its own */
	ITEMS = 24,	/* of a listing: more than there are */
	LONG = 500000,	/* seconds: until a notice comes */
	EXPIRE_ONLY = 1 /* the flag of INVAL_ENTRY */
};

/* Of a file: `opened` and `lookups` are those that the kernel has, `kh` of a POLL that waits. `name` ends with a 0,
 * `text` has `len` bytes. */
struct file {
	char name[64], text[LONGEST]; /* both change under the lock */
	size_t len;
	uint64_t lookups, kh;
	unsigned opened;
};

/* One of the file systems: how many files it has, whether they may be written, how it changes, and tells of it. */
struct kind {
	const char *name;
	unsigned files, may_write, open_flags, entry_timeout; /* the timeout in seconds */
	long nanoseconds;     /* between two changes; 0: it's the interval that was given */
	void (*change)(void); /* under the lock */
	void (*tell)(void);   /* without it; NULL: it changes only before it is mounted */
};

static struct {
	long interval, timeout; /* seconds; a timeout below 0 is the kind's own */
	int quiet, expires, epoch;
} given = { 1, -1, 0, 0, 0 };

/* Of all that is here. It isn't held while a notice is sent, for which the kernel may wait for a request. */
static pthread_mutex_t lock = PTHREAD_MUTEX_INITIALIZER;
static struct file files[MOST];
static char old_name[64];		 /* before the last change: that is what is told */
static uint64_t ticks, retrieved, wrong; /* changes; what came back, and wrongly */
static int is_asked, is_pruned;		 /* a RETRIEVE, a PRUNE was sent */
static const struct kind *kind;		 /* set before there are threads */
static nizwarf_fuse_notices notices = NIZWARF_FUSE_NOTICES_INIT;
static nizwarf_session session = { 0, 4096, NIZWARF_MAX_PAYLOAD };
static nizwarf_scratch slots[WORKERS];

/* ---- what changes, under the lock */

/* Of a length that stays: so what was stored can be told from its number. */
static void change_text(void)
{
	snprintf(files[0].name, sizeof(files[0].name), "current_time");
	files[0].len = (size_t)snprintf(files[0].text, LONGEST, "It is the time %020" PRIu64 "\n", ticks);
}

/* The second file grows by a byte each time, up to LONGEST. */
static void change_both(void)
{
	struct file *f = &files[1];

	change_text();
	snprintf(f->name, sizeof(f->name), "growing");
	memset(f->text, 'A', sizeof(f->text)); /* of which `len` bytes are seen */
	f->len = ticks < sizeof(f->text) ? (size_t)ticks : sizeof(f->text);
}

/* The kernel goes on finding the old name until it's told. */
static void change_name(void)
{
	memcpy(old_name, files[0].name, sizeof(old_name));
	snprintf(files[0].name, sizeof(files[0].name), "time_is_%020" PRIu64, ticks);
}

static void change_hello(void)
{
	snprintf(files[0].name, sizeof(files[0].name), "hello");
	files[0].len = (size_t)snprintf(files[0].text, LONGEST, "Hello World!\n");
}

/* Its size is what a program sets: it begins empty. */
static void change_ioctl(void)
{
	snprintf(files[0].name, sizeof(files[0].name), "fioc");
}

/* A byte comes into one file, or two, or four. */
static void change_poll(void)
{
	const unsigned count = 1U << ticks / MOST % 3; /* 1, 2 or 4 files */

	for (unsigned i = 0; i < MOST; i++)
		snprintf(files[i].name, sizeof(files[i].name), "%X", i);
	for (unsigned i = 0; i < count; i++) {
		struct file *f = &files[(ticks + i * MOST / count) % MOST]; /* as far apart as they can be */

		if (f->len < 10)
			f->text[f->len++] = f->name[0]; /* at most ten are there */
	}
}

/* ---- what is told of it, without the lock */

/* ENOENT and ENOTCONN are no faults: the kernel knows no such file, or has unmounted. */
static int send_notice(const void *notice, size_t len, const void *data, size_t data_len, const char *what)
{
	const int error = nizwarf_fuse_notify(&notices, notice, len, data, data_len);

	/* (an older Linux has no such notice: libfuse's tests skip then) */
	if (error == EINVAL)
		printf("%s: not supported by kernel\n", what);
	else if (error && error != ENOENT && error != ENOTCONN)
		printf("%s: %s\n", what, strerror(error));
	fflush(stdout);
	return error;
}

/* Whether the kernel knows of a file. */
static int is_known(unsigned i)
{
	int is_so;

	pthread_mutex_lock(&lock);
	is_so = files[i].lookups > 0;
	pthread_mutex_unlock(&lock);
	return is_so;
}

/* (of a file that it doesn't know it has nothing) */
static void tell_inodes(void)
{
	uint8_t notice[64];

	for (unsigned i = 0; i < kind->files; i++)
		if (is_known(i))
			send_notice(notice,
				    nizwarf_notice_inval_inode(FIRST + i, 0, 0, notice, sizeof(notice)), NULL,
				    0, "INVAL_INODE");
}

/* Stores the text of now, and asks for it back: on_retrieve_reply finds which change it is by the number. */
static void tell_stored(void)
{
	uint8_t notice[64];
	struct file now;
	size_t len;

	pthread_mutex_lock(&lock);
	now = files[0];
	pthread_mutex_unlock(&lock);
	/* (what is stored is dropped, if nobody has the file open) */
	if (!now.lookups || !now.opened)
		return;
	len = nizwarf_notice_store(FIRST, 0, (uint32_t)now.len, notice, sizeof(notice));
	if (send_notice(notice, len, now.text, now.len, "STORE")) /* the text as it was under the lock */
		return;
	/* read on the only thread that changes it */
	len = nizwarf_notice_retrieve(ticks, FIRST, 0, LONGEST, notice, sizeof(notice));
	if (send_notice(notice, len, NULL, 0, "RETRIEVE"))
		return;
	pthread_mutex_lock(&lock);
	is_asked = 1; /* so that one must come back */
	pthread_mutex_unlock(&lock);
}

/* The kernel forgets the file then, if nobody has it open, and FORGET comes. */
static void tell_pruned(void)
{
	const uint64_t node = FIRST;
	uint8_t notice[64];

	if (!is_known(0))
		return;
	pthread_mutex_lock(&lock);
	is_pruned = 1;
	pthread_mutex_unlock(&lock);
	if (!send_notice(notice, nizwarf_notice_prune(1, notice, sizeof(notice)), &node, sizeof(node),
			 "PRUNE"))
		printf("prune sent\n");
	fflush(stdout);
}

/* With --only-expire the kernel keeps the name, and looks it up again; with --inc-epoch all names. */
static void tell_name(void)
{
	uint8_t notice[256];
	size_t len;

	if (!is_known(0))
		return;
	if (given.epoch)
		len = nizwarf_notice_inc_epoch(notice, sizeof(notice));
	else
		len = nizwarf_notice_inval_entry(ROOT, given.expires ? EXPIRE_ONLY : 0, old_name,
						 strlen(old_name), notice, sizeof(notice));
	send_notice(notice, len, NULL, 0, given.epoch ? "INC_EPOCH" : "INVAL_ENTRY");
}

/* Each number that waits is told once: the kernel asks again, and gives another one. */
static void tell_poll(void)
{
	uint8_t notice[64];

	for (unsigned i = 0; i < MOST; i++) {
		uint64_t kh;

		pthread_mutex_lock(&lock);
		kh = files[i].len ? files[i].kh : 0;
		if (kh)
			files[i].kh = 0;
		pthread_mutex_unlock(&lock);
		if (kh)
			send_notice(notice, nizwarf_notice_poll(kh, notice, sizeof(notice)), NULL, 0, "POLL");
	}
}

static const struct kind kinds[] = {
	{ "hello", 1, 0, 0, 1, 0, change_hello, NULL },
	{ "ioctl", 1, 1, 0, 0, 0, change_ioctl, NULL },
	{ "notify_inval_inode", 1, 0, FOPEN_KEEP_CACHE, LONG, 0, change_text, tell_inodes },
	{ "notify_store_retrieve", 1, 0, FOPEN_KEEP_CACHE, LONG, 0, change_text, tell_stored },
	{ "notify_prune", 1, 0, FOPEN_KEEP_CACHE, LONG, 0, change_text, tell_pruned },
	{ "notify_inval_entry", 1, 0, 0, LONG, 0, change_name, tell_name },
	{ "invalidate_path", 2, 0, FOPEN_KEEP_CACHE, LONG, 0, change_both, tell_inodes },
	/* a change each quarter of a second */
	{ "poll", MOST, 0, FOPEN_DIRECT_IO | FOPEN_NONSEEKABLE, 0, 250000000, change_poll, tell_poll },
};

/* One change. (The first is before the mount, so that files have names.) */
static void tick(void)
{
	pthread_mutex_lock(&lock);
	ticks++;
	kind->change();
	pthread_mutex_unlock(&lock);
}

/* The thread of the changes, which ends with the process. */
static void *change_each(void *none)
{
	/* seconds, or the kind's nanoseconds */
	const struct timespec pause = { kind->nanoseconds ? 0 : given.interval, kind->nanoseconds };

	while (!nanosleep(&pause, NULL)) { /* no signal comes to this thread */
		tick();
		if (!given.quiet)
			kind->tell();
	}
	return none;
}

/* ---- the functions */

/* NULL: it's the root, or no file. */
static struct file *file_of(uint64_t ino)
{
	return ino >= FIRST && ino < FIRST + kind->files ? &files[ino - FIRST] : NULL;
}

/* It has the kind's time for all it answers: 0, and the kernel asks each time. */
static int on_getattr(const nizwarf_req *req, uint64_t ino, const nizwarf_file_info *fi, nizwarf_attr *attr,
		      struct timespec *attr_timeout)
{
	const struct file *f = file_of(ino);

	(void)req, (void)fi;
	if (!f && ino != ROOT)
		return ENOENT;
	attr_timeout->tv_sec = kind->entry_timeout; /* as long as a name holds */
	attr->ino = ino;
	attr->mode = !f ? S_IFDIR | 0755 : kind->may_write ? S_IFREG | 0644 : S_IFREG | 0444;
	attr->nlink = 1;
	pthread_mutex_lock(&lock);
	attr->size = f ? f->len : 0;
	pthread_mutex_unlock(&lock);
	return 0;
}

/* Under the lock. */
static int set_size(struct file *f, uint64_t size)
{
	if (size > sizeof(f->text))
		return EFBIG;
	if (size > f->len) /* bytes that come into being are 0 */
		memset(f->text + f->len, 0, size - f->len);
	f->len = size;
	return 0;
}

/* Only the size can change. */
static int on_setattr(const nizwarf_req *req, uint64_t ino, const nizwarf_setattr *set, uint32_t to_set,
		      const nizwarf_file_info *fi, nizwarf_attr *attr, struct timespec *attr_timeout)
{
	struct file *f = file_of(ino);

	int error = 0;

	if (!f || !kind->may_write)
		return EACCES;
	pthread_mutex_lock(&lock);
	if (to_set & FATTR_SIZE)
		error = set_size(f, set->size);
	pthread_mutex_unlock(&lock);
	return error ? error : on_getattr(req, ino, fi, attr, attr_timeout);
}

/* Counts the lookup, which on_forget takes back. */
static int on_lookup(const nizwarf_req *req, uint64_t parent, const char *name, nizwarf_entry_param *e)
{
	pthread_mutex_lock(&lock);
	for (unsigned i = 0; i < kind->files && parent == ROOT; i++)
		if (!strcmp(files[i].name, name)) {
			files[i].lookups++; /* given back by FORGET */
			e->ino = FIRST + i;
		}
	pthread_mutex_unlock(&lock);
	if (!e->ino)
		return ENOENT;
	e->entry_timeout.tv_sec = given.timeout >= 0 ? given.timeout : (long)kind->entry_timeout;
	return on_getattr(req, e->ino, NULL, &e->attr, &e->attr_timeout);
}

/* With no lookup left the kernel has dropped the file. */
static void on_forget(const nizwarf_req *req, uint64_t ino, uint64_t nlookup)
{
	struct file *f = file_of(ino);

	(void)req;
	if (!f)
		return;
	pthread_mutex_lock(&lock);
	f->lookups -= nlookup; /* no more than were answered */
	if (!f->lookups && is_pruned) {
		is_pruned = 0;
		printf("prune complete\n");
		fflush(stdout);
	}
	pthread_mutex_unlock(&lock);
}

static int on_readdir(const nizwarf_req *req, uint64_t ino, uint64_t off, const nizwarf_file_info *fi,
		      nizwarf_dir *dir)
{
	(void)req, (void)fi;
	pthread_mutex_lock(&lock);
	for (; off < 2 + kind->files; off++)
		if (!nizwarf_add_direntry(dir,
					  off == 0 ? "." :
					  off == 1 ? ".." :
						     files[off - 2].name,
					  off < 2 ? ROOT : FIRST + off - 2, 0, off + 1))
			break;
	pthread_mutex_unlock(&lock);
	return ino == ROOT ? 0 : ENOTDIR;
}

/* Notices are for files that are open, hence the count. Nothing counts it down. */
static int on_open(const nizwarf_req *req, uint64_t ino, nizwarf_file_info *fi)
{
	struct file *f = file_of(ino);

	(void)req;
	if (!f)
		return EISDIR;
	if ((fi->flags & O_ACCMODE) != O_RDONLY && !kind->may_write)
		return EACCES;
	fi->open_flags = kind->open_flags;
	pthread_mutex_lock(&lock);
	f->opened++;
	if (fi->flags & O_TRUNC)
		f->len = 0;
	pthread_mutex_unlock(&lock);
	return 0;
}

static int on_read(const nizwarf_req *req, uint64_t ino, size_t size, uint64_t off,
		   const nizwarf_file_info *fi, void *buf, size_t *len)
{
	struct file *f = file_of(ino);
	size_t left;

	(void)req, (void)fi;
	if (!f)
		return EISDIR;
	pthread_mutex_lock(&lock);
	/* (what is taken from a pipe is gone, wherever it is said to begin) */
	if (kind->open_flags & FOPEN_NONSEEKABLE)
		off = 0;
	left = off < f->len ? f->len - off : 0;
	*len = size < left ? size : left;
	memcpy(buf, f->text + f->len - left, *len);
	if (kind->open_flags & FOPEN_NONSEEKABLE)
		f->len -= *len;
	pthread_mutex_unlock(&lock);
	return 0;
}

/* What a hole has is 0. */
static int on_write(const nizwarf_req *req, uint64_t ino, const void *buf, size_t size, uint64_t off,
		    const nizwarf_file_info *fi, size_t *len)
{
	struct file *f = file_of(ino);

	(void)req, (void)fi;
	if (!f || !kind->may_write || off > LONGEST || size > LONGEST - off)
		return ENOSPC;
	pthread_mutex_lock(&lock);
	if (off > f->len)
		memset(f->text + f->len, 0, off - f->len);
	memcpy(f->text + off, buf, size);
	if (off + size > f->len)
		f->len = off + size;
	pthread_mutex_unlock(&lock);
	*len = size;
	return 0;
}

/* As in libfuse's own example: 0 gives the size, and 1 sets it. */
static int on_ioctl(const nizwarf_req *req, uint64_t ino, uint32_t cmd, uint64_t arg,
		    const nizwarf_file_info *fi, uint32_t flags, const void *in_buf, size_t in_size,
		    nizwarf_ioctl *out, void *out_buf, size_t out_size, size_t *len)
{
	struct file *f = file_of(ino);
	int error = 0;
	size_t size;

	(void)req, (void)arg, (void)fi, (void)flags, (void)out;
	if (!f || !kind->may_write)
		return ENOTTY;
	pthread_mutex_lock(&lock);
	if (cmd == _IOR('E', 0, size_t) && out_size >= sizeof(size)) {
		size = f->len;
		memcpy(out_buf, &size, sizeof(size));
		*len = sizeof(size);
	} else if (cmd == _IOW('E', 1, size_t) && in_size == sizeof(size)) {
		memcpy(&size, in_buf, sizeof(size));
		error = set_size(f, size);
	} else {
		error = ENOTTY;
	}
	pthread_mutex_unlock(&lock);
	return error;
}

/* ENOSYS of the root, which has no POLL. */
static int on_poll(const nizwarf_req *req, uint64_t ino, const nizwarf_file_info *fi, uint32_t events,
		   uint64_t kh, int notify, uint32_t *revents)
{
	struct file *f = file_of(ino);

	(void)req, (void)fi, (void)events;
	if (!f)
		return ENOSYS;
	pthread_mutex_lock(&lock);
	if (notify)
		f->kh = kh;
	*revents = f->len ? POLLIN : 0; /* without bytes the kernel waits for a notice */
	pthread_mutex_unlock(&lock);
	return 0;
}

/* The number is that of the change. (`wrong` makes the status 1.) */
static void on_retrieve_reply(const nizwarf_req *req, uint64_t cookie, uint64_t ino, uint64_t offset,
			      const void *data, size_t size)
{
	char wanted[64];
	size_t len;

	(void)req;
	/* the text of that change */
	len = (size_t)snprintf(wanted, sizeof(wanted), "It is the time %020" PRIu64 "\n", cookie);
	pthread_mutex_lock(&lock);
	retrieved++;
	if (ino != FIRST || offset || size < len || memcmp(data, wanted, len)) {
		printf("error: %" PRIu64 " bytes were retrieved that are not those which were stored\n",
		       (uint64_t)size);
		wrong++;
	}
	pthread_mutex_unlock(&lock);
}

static const nizwarf_ops ops = { .forget = on_forget,
				 .lookup = on_lookup,
				 .getattr = on_getattr,
				 .setattr = on_setattr,
				 .readdir = on_readdir,
				 .open = on_open,
				 .read = on_read,
				 .write = on_write,
				 .ioctl = on_ioctl,
				 .poll = on_poll,
				 .retrieve_reply = on_retrieve_reply };

/* Those of a file system whose files have no POLL: Linux takes them for ready then, as those of a disk. */
static nizwarf_ops used;

/* By one segment and one room, as /dev/fuse has them. */
static int32_t serve(void *user, unsigned worker, const struct iovec *request, size_t segments,
		     const struct iovec *room, size_t rooms, size_t *len)
{
	nizwarf_dirent items[ITEMS];

	(void)segments, (void)rooms;
	return nizwarf_serve_ops(&used, user, &slots[worker], &session, request->iov_base, request->iov_len,
				 room->iov_base, room->iov_len, items, ITEMS, len);
}

/* The folder of the words, or NULL. */
static const char *take_words(int count, char **words)
{
	const char *folder = NULL;

	for (int i = 1; i < count; i++) {
		if (!strncmp(words[i], "--update-interval=", 18))
			given.interval = strtol(words[i] + 18, NULL, 10);
		else if (!strncmp(words[i], "--timeout=", 10))
			given.timeout = strtol(words[i] + 10, NULL, 10);
		else if (!strcmp(words[i], "--no-notify"))
			given.quiet = 1;
		else if (!strcmp(words[i], "--only-expire"))
			given.expires = 1;
		else if (!strcmp(words[i], "--inc-epoch"))
			given.epoch = 1;
		else if (words[i][0] != '-')
			folder = words[i];
		else if (strcmp(words[i], "-f"))
			return NULL;
	}
	return folder;
}

int main(int count, char **words)
{
	const nizwarf_transport by = { .size = sizeof(by),
				       .program = "libfuse_examples",
				       .workers = WORKERS,
				       .notices = &notices,
				       .serve = serve };
	const char *folder = take_words(count, words), *name = strrchr(words[0], '/');
	pthread_t changes;
	int device, status;

	name = name ? name + 1 : words[0];
	for (size_t i = 0; i < sizeof(kinds) / sizeof(*kinds); i++)
		if (!strcmp(kinds[i].name, name))
			kind = &kinds[i];
	if (!folder || !kind)
		return fputs("Usage: NAME [-f] [WORDS] MOUNTPOINT; the head of libfuse_examples.c says which\n",
			     stderr),
		       2;
	used = ops;
	if (kind->tell != tell_poll)
		used.poll = NULL;
	tick();
	device = nizwarf_fuse_mount(&by, name, folder, MS_NOSUID | MS_NODEV, "");
	if (device < 0)
		return 2;
	if (kind->tell && pthread_create(&changes, NULL, change_each, NULL)) {
		/* (nobody would serve what is mounted) */
		nizwarf_fuse_detach(&by, folder);
		return 2;
	}
	/* (it ends with the process) */
	if (kind->tell)
		pthread_detach(changes);
	status = nizwarf_fuse_serve(&by, device, folder);
	for (int i = 0; i < WORKERS; i++)
		nizwarf_scratch_free(&slots[i]);
	pthread_mutex_lock(&lock);
	status |= wrong || (is_asked && !retrieved);
	pthread_mutex_unlock(&lock);
	return status;
}
