/* Serves a descriptor by libfuse's low level with custom io, for others.py.
 *
 * Usage: libfuse DESCRIPTOR
 * The descriptor is a socket that keeps messages apart. The file system is an empty root, whose functions
 * look at each byte that they are handed, as those of a real one do. libfuse and this are compiled with
 * the address sanitizer, and the bytes of the buffer after a message are poisoned: a look at one of them
 * ends the program with a trace. Status 0: the other end was closed; 1: the session ended before that; 2:
 * it could not start. */
#define _DEFAULT_SOURCE
#define FUSE_USE_VERSION 317
#include <errno.h>
#include <fcntl.h>
#include <fuse_lowlevel.h>
#include <sanitizer/asan_interface.h>
#include <stdio.h>
#include <stdlib.h>
#include <string.h>
#include <sys/socket.h>
#include <sys/stat.h>
#include <sys/uio.h>

static volatile unsigned seen; /* so that no look is left out by the compiler */
static int closed;	       /* the other end is */

/* What is not freed as a session ends is of no matter here. */
const char *__asan_default_options(void);
const char *__asan_default_options(void)
{
	return "detect_leaks=0";
}

/* Looks at each byte. */
static void see(const void *bytes, size_t count)
{
	for (size_t i = 0; i < count; i++)
		seen += ((const unsigned char *)bytes)[i];
}

static void see_name(const char *name)
{
	see(name, strlen(name));
}

static void reply_root(fuse_req_t req)
{
	const struct stat root = { .st_ino = 1, .st_mode = S_IFDIR | 0755, .st_nlink = 2 };

	fuse_reply_attr(req, &root, 0);
}

/* (not each function looks at all that it is handed) */
#pragma GCC diagnostic ignored "-Wunused-parameter"

static void on_forget_multi(fuse_req_t req, size_t count, struct fuse_forget_data *forgets)
{
	for (size_t i = 0; i < count; i++)
		seen += (unsigned)(forgets[i].ino + forgets[i].nlookup);
	fuse_reply_none(req);
}

/* What is asked for is there. (The handle is the program's to end; NULL: it wants no notice.) */
static void on_poll(fuse_req_t req, fuse_ino_t ino, struct fuse_file_info *fi, struct fuse_pollhandle *ph)
{
	if (ph)
		fuse_pollhandle_destroy(ph);
	fuse_reply_poll(req, fi->poll_events);
}

/* clang-format off */

#define REQ fuse_req_t req, fuse_ino_t ino
#define NAME const char *name
#define FI struct fuse_file_info *fi
/* Nothing can be changed. */
#define REFUSE_NAME see_name(name), fuse_reply_err(req, EROFS)

/* The other functions: the name, the parameters, and what is done. Each node is the root, an empty directory,
 * and can be opened; each lock is taken by somebody else. The `attr` of SETATTR libfuse has filled out of the
 * request. A WRITE is looked at as far as it says, be the bytes there or not, and kept nowhere. Nobody has
 * asked for what RETRIEVE brings, but a peer may send it: one buffer, in memory. */
#define OPS(F) \
	F(getattr, (REQ, FI), reply_root(req)) \
	F(setattr, (REQ, struct stat *attr, int to_set, FI), see(attr, sizeof(*attr)), reply_root(req)) \
	F(lookup, (REQ, NAME), see_name(name), fuse_reply_err(req, ENOENT)) \
	F(mkdir, (REQ, NAME, mode_t mode), REFUSE_NAME) \
	F(mknod, (REQ, NAME, mode_t mode, dev_t rdev), REFUSE_NAME) \
	F(create, (REQ, NAME, mode_t mode, FI), REFUSE_NAME) \
	F(symlink, (fuse_req_t req, const char *link, fuse_ino_t parent, NAME), see_name(link), REFUSE_NAME) \
	F(unlink, (REQ, NAME), REFUSE_NAME) \
	F(rmdir, (REQ, NAME), REFUSE_NAME) \
	F(removexattr, (REQ, NAME), REFUSE_NAME) \
	F(rename, (REQ, NAME, fuse_ino_t newparent, const char *newname, unsigned int flags), \
	  see_name(newname), REFUSE_NAME) \
	F(link, (REQ, fuse_ino_t newparent, NAME), REFUSE_NAME) \
	F(open, (REQ, FI), fuse_reply_open(req, fi)) \
	F(read, (REQ, size_t size, off_t off, FI), fuse_reply_buf(req, NULL, 0)) \
	F(readdir, (REQ, size_t size, off_t off, FI), fuse_reply_buf(req, NULL, 0)) \
	F(readdirplus, (REQ, size_t size, off_t off, FI), fuse_reply_buf(req, NULL, 0)) \
	F(write, (REQ, const char *data, size_t size, off_t off, FI), \
	  see(data, size), fuse_reply_write(req, size)) \
	F(setxattr, (REQ, NAME, const char *value, size_t size, int flags), see(value, size), REFUSE_NAME) \
	F(getxattr, (REQ, NAME, size_t size), see_name(name), fuse_reply_err(req, ENODATA)) \
	F(forget, (REQ, uint64_t lookups), seen += (unsigned)(ino + lookups), fuse_reply_none(req)) \
	F(ioctl, (REQ, unsigned int cmd, void *arg, FI, unsigned flags, const void *in, size_t in_size, \
		  size_t out_size), \
	  see(in, in_size), fuse_reply_err(req, ENOTTY)) \
	F(getlk, (REQ, FI, struct flock *lock), lock->l_type = F_UNLCK, fuse_reply_lock(req, lock)) \
	F(setlk, (REQ, FI, struct flock *lock, int sleep), \
	  see(lock, sizeof(*lock)), fuse_reply_err(req, EAGAIN)) \
	F(flock, (REQ, FI, int op), fuse_reply_err(req, EAGAIN)) \
	F(bmap, (REQ, size_t blocksize, uint64_t idx), fuse_reply_bmap(req, idx)) \
	F(copy_file_range, (REQ, off_t off_in, FI, fuse_ino_t ino_out, off_t off_out, \
			    struct fuse_file_info *fi_out, size_t len, int flags), \
	  fuse_reply_write(req, len)) \
	F(retrieve_reply, (fuse_req_t req, void *cookie, fuse_ino_t ino, off_t offset, \
			   struct fuse_bufvec *bufv), \
	  see(bufv->buf[0].mem, bufv->buf[0].size), fuse_reply_none(req))

/* What later versions have. */
#if FUSE_VERSION >= FUSE_MAKE_VERSION(3, 17)
#define OPS_3_17(F) F(tmpfile, (REQ, mode_t mode, FI), fuse_reply_err(req, EROFS))
#else
#define OPS_3_17(F)
#endif
#if FUSE_VERSION >= FUSE_MAKE_VERSION(3, 18)
#define OPS_3_18(F) F(statx, (REQ, int flags, int mask, FI), fuse_reply_err(req, ENOENT))
#else
#define OPS_3_18(F)
#endif

#define DEFINE(name, parameters, ...) static void on_##name parameters { __VA_ARGS__; }
OPS(DEFINE) OPS_3_17(DEFINE) OPS_3_18(DEFINE)

#define IN_TABLE(name, ...) .name = on_##name,
static const struct fuse_lowlevel_ops ops = {
	OPS(IN_TABLE) OPS_3_17(IN_TABLE) OPS_3_18(IN_TABLE).forget_multi = on_forget_multi, .poll = on_poll
};

/* clang-format on */

/* The buffer is libfuse's, for the longest message: but this one's bytes are free to be looked at, and no other's. */
static ssize_t take(int fd, void *at, size_t size, void *user)
{
	ssize_t got;

	ASAN_UNPOISON_MEMORY_REGION(at, size); /* what was poisoned after the message before */
	got = recv(fd, at, size, 0);
	if (got > 0)
		ASAN_POISON_MEMORY_REGION((char *)at + got, size - (size_t)got);
	closed = got == 0; /* no byte: the other end was closed */
	return got;
}

/* A message in one piece, since the socket keeps them apart. */
static ssize_t give(int fd, struct iovec *pieces, int count, void *user)
{
	return writev(fd, pieces, count);
}

/* Since 3.17 libfuse is told how large the table is. */
static int use_descriptor(struct fuse_session *session, int fd)
{
	/* no splice: each message comes by a read */
	static const struct fuse_custom_io io = { .read = take, .writev = give };

#if FUSE_VERSION >= FUSE_MAKE_VERSION(3, 17)
	return fuse_session_custom_io(session, &io, sizeof(io), fd);
#else
	return fuse_session_custom_io(session, &io, fd);
#endif
}

int main(int count, char **words)
{
	char *name[] = { "libfuse", NULL };
	struct fuse_args args = FUSE_ARGS_INIT(1, name);
	struct fuse_session *session;
	int ended;

	if (count != 2 || !strcmp(words[1], "--help"))
		return fputs("Usage: libfuse DESCRIPTOR\n", count == 2 ? stdout : stderr), count == 2 ? 0 : 2;
	session = fuse_session_new(&args, &ops, sizeof(ops), NULL);
	/* libfuse closes the descriptor at the end */
	if (!session || use_descriptor(session, atoi(words[1])))
		return 2;
	ended = fuse_session_loop(session); /* 0, or the error that ended it */
	fuse_session_destroy(session);
	if (!closed)
		fprintf(stderr, "the session ended: %d\n", ended);
	return closed ? 0 : 1;
}
