/* Mounts a file system of nizwarf_ops.h, and asks of it what it answers wrongly: who asks gets an error, and the
 * mount goes on. So it does where replies are spoilt after the table. What is opened with O_TRUNC is cut
 * without `open`; the caller is told; an INTERRUPT ends a call; `destroy` comes once. All that with
 * default_permissions and without.
 *
 * Usage: mounted, as root. test_wrong_replies.py links it with the libraries.
 * Status 0: all is as it should be. */
#define _GNU_SOURCE
#include <fcntl.h>
#include <linux/fuse.h>
#include <pthread.h>
#include <signal.h>
#include <stdio.h>
#include <stdlib.h>
#include <string.h>
#include <sys/mount.h>
#include <sys/time.h>
#include <sys/wait.h>
#include <sys/xattr.h>
#include <unistd.h>
#include "nizwarf_fuse.h"

/* Nodes: of BAD each answer says more bytes than were asked for. TOO_LONG is more than a link has for Linux, and
 * NO_ERROR no number of an error. */
enum { ROOT = 1, FILE_ = 2, LINK = 3, BAD = 4, WORKERS = 3, TOO_LONG = 5000, NO_ERROR = 600 };

static char folder[] = "/tmp/mounted-XXXXXX";

/* What is checked in the client unmounts where it is wrong, or the server would wait for ever. */
#define CHECK(fact)                                                                           \
	do {                                                                                  \
		if (!(fact)) {                                                                \
			fprintf(stderr, "mounted.c, line %d: not %s (%s)\n", __LINE__, #fact, \
				strerror(errno));                                             \
			umount2(folder, MNT_DETACH);                                          \
			_exit(1);                                                             \
		}                                                                             \
	} while (0)

/* ---- the file system */

/* The file. The client is one process, which asks for one thing after another: so no lock guards it. */
static char content[64];
static size_t content_len;
static int is_spoilt, destroyed; /* whether replies are; how often `destroy` came */

/* Of the number of the request that was interrupted last. */
static pthread_mutex_t lock = PTHREAD_MUTEX_INITIALIZER;
static pthread_cond_t change = PTHREAD_COND_INITIALIZER;
static uint64_t interrupted;
static nizwarf_scratch slots[WORKERS];

/* (of BAD it says 100 bytes, so that Linux asks for some) */
static int on_getattr(const nizwarf_req *req, uint64_t ino, const nizwarf_file_info *fi, nizwarf_attr *attr,
		      struct timespec *attr_timeout)
{
	static const uint32_t modes[] = { 0, S_IFDIR | 0755, S_IFREG | 0644, S_IFLNK | 0777, S_IFREG | 0644 };

	(void)fi, (void)attr_timeout;
	attr->ino = ino;
	attr->mode = modes[ino];
	attr->nlink = 1;
	attr->size = ino == FILE_ ? content_len : ino == BAD ? 100 : 0;
	/* (the client is of the same user: another one would be told) */
	return req->call->uid == getuid() && req->call->gid == getgid() ? 0 : EOVERFLOW;
}

/* Waits until this request is interrupted, for ten seconds. EINTR, or ETIMEDOUT. */
static int wait_for_interrupt(uint64_t unique)
{
	struct timespec end;
	int error = 0;

	clock_gettime(CLOCK_REALTIME, &end);
	end.tv_sec += 10;
	pthread_mutex_lock(&lock);
	while (interrupted != unique && !error)
		error = pthread_cond_timedwait(&change, &lock, &end);
	pthread_mutex_unlock(&lock);
	return error ? error : EINTR;
}

/* (on another worker than the one that waits) */
static void on_interrupt(void *user, uint64_t unique)
{
	(void)user;
	pthread_mutex_lock(&lock);
	interrupted = unique;
	pthread_cond_broadcast(&change);
	pthread_mutex_unlock(&lock);
}

/* `slow` waits, `fault` answers no error; the other names are those of the nodes. */
static int on_lookup(const nizwarf_req *req, uint64_t parent, const char *name, nizwarf_entry_param *e)
{
	static const char *const names[] = { "", ".", "file", "link", "bad" };

	if (!strcmp(name, "slow"))
		return wait_for_interrupt(req->call->unique);
	for (e->ino = FILE_; e->ino <= BAD; e->ino++)
		if (parent == ROOT && !strcmp(name, names[e->ino]))
			return on_getattr(req, e->ino, NULL, &e->attr, &e->attr_timeout);
	/* (which Linux would refuse, and the table makes EIO) */
	return strcmp(name, "fault") ? ENOENT : NO_ERROR;
}

/* A file only becomes shorter, by O_TRUNC. */
static int on_setattr(const nizwarf_req *req, uint64_t ino, const nizwarf_setattr *set, uint32_t to_set,
		      const nizwarf_file_info *fi, nizwarf_attr *attr, struct timespec *attr_timeout)
{
	if (to_set & FATTR_SIZE && set->size <= content_len)
		content_len = (size_t)set->size;
	return on_getattr(req, ino, fi, attr, attr_timeout);
}

/* (as many bytes as it may, and it says more) */
static int on_readlink(const nizwarf_req *req, uint64_t ino, char *link, size_t size, size_t *len)
{
	(void)req, (void)ino;
	memset(link, 'a', size);
	*len = TOO_LONG;
	return 0;
}

/* What is there, and of BAD a byte more than was asked for. */
static int on_read(const nizwarf_req *req, uint64_t ino, size_t size, uint64_t off,
		   const nizwarf_file_info *fi, void *buf, size_t *len)
{
	const size_t left = off < content_len ? content_len - (size_t)off : 0;

	(void)req, (void)fi;
	*len = size < left ? size : left;
	memcpy(buf, content + content_len - left, *len);
	if (ino == BAD)
		*len = size + 1;
	return 0;
}

/* What was asked for, and of BAD a byte more. */
static int on_write(const nizwarf_req *req, uint64_t ino, const void *buf, size_t size, uint64_t off,
		    const nizwarf_file_info *fi, size_t *len)
{
	(void)req, (void)fi;
	*len = ino == BAD ? size + 1 : size;
	if (ino == BAD || off > sizeof(content) || size > sizeof(content) - off)
		return ino == BAD ? 0 : ENOSPC;
	memcpy(content + off, buf, size);
	content_len = content_len > off + size ? content_len : (size_t)off + size;
	return 0;
}

/* A byte more than the caller has room for. */
static int on_getxattr(const nizwarf_req *req, uint64_t ino, const char *name, size_t size, void *value,
		       size_t *len)
{
	(void)req, (void)ino, (void)name;
	memset(value, 'a', size);
	*len = size + 1;
	return 0;
}

static int on_listxattr(const nizwarf_req *req, uint64_t ino, size_t size, char *list, size_t *len)
{
	return on_getxattr(req, ino, NULL, size, list, len);
}

/* Linux sends no DESTROY: nizwarf_end_ops calls it. */
static void on_destroy(const nizwarf_req *req)
{
	(void)req;
	destroyed++;
}

static const nizwarf_ops ops = {
	.lookup = on_lookup,
	.getattr = on_getattr,
	.setattr = on_setattr,
	.readlink = on_readlink,
	.read = on_read,
	.write = on_write,
	.getxattr = on_getxattr,
	.listxattr = on_listxattr,
	.destroy = on_destroy,
	.interrupt = on_interrupt,
};
static nizwarf_session session = { 0, 4096, NIZWARF_MAX_PAYLOAD };

/* Makes of some replies what Linux refuses. `room` has a whole reply, of which the transport is told another length
 * or error. */
static void spoil(const void *request, unsigned char *room, size_t *len)
{
	struct fuse_out_header reply = { .error = 0 };
	struct fuse_in_header asked;

	memcpy(&asked, request, sizeof(asked));
	reply.unique = asked.unique;
	if (asked.opcode == FUSE_LOOKUP && !strcmp((const char *)request + sizeof(asked), "fault"))
		reply.error = -NO_ERROR, *len = sizeof(reply);
	else if (asked.opcode == FUSE_GETATTR && asked.nodeid == LINK) /* half a record */
		*len = sizeof(reply) + 4;
	else if (asked.opcode == FUSE_LISTXATTR) /* an error above 0 */
		reply.error = EIO, *len = sizeof(reply);
	else if (asked.opcode == FUSE_READLINK || asked.opcode == FUSE_GETXATTR)
		*len = sizeof(reply) + TOO_LONG;
	else if (asked.opcode == FUSE_READ && asked.nodeid == BAD)
		*len = sizeof(reply) + 2 * TOO_LONG;
	else
		return;
	reply.len = (uint32_t)*len;
	memcpy(room, &reply, sizeof(reply));
}

/* A reply is spoilt after it is made: as by a server with a fault, which this layer can't be. */
static int32_t serve(void *user, unsigned worker, const struct iovec *request, size_t segments,
		     const struct iovec *room, size_t rooms, size_t *len)
{
	int32_t code;

	(void)segments, (void)rooms;
	code = nizwarf_serve_ops(&ops, user, &slots[worker], &session, request->iov_base, request->iov_len,
				 room->iov_base, room->iov_len, NULL, 0, len);
	if (is_spoilt && code == NIZWARF_OK && *len)
		spoil(request->iov_base, room->iov_base, len);
	return code;
}

/* ---- its client */

static char path[64];

/* The path of a name, until the next one. */
static const char *at(const char *name)
{
	snprintf(path, sizeof(path), "%s/%s", folder, name);
	return path;
}

/* Writes the file anew; the next compares what it has with this text. */
static void put(int flags, const char *text)
{
	const int fd = open(at("file"), O_WRONLY | flags);

	CHECK(fd >= 0 && write(fd, text, strlen(text)) == (ssize_t)strlen(text) && !close(fd));
}

/* The file has this text, and the mount still answers. */
static void expect(const char *text)
{
	const int fd = open(at("file"), O_RDONLY);
	char got[64];

	CHECK(fd >= 0 && read(fd, got, sizeof(got)) == (ssize_t)strlen(text));
	CHECK(!memcmp(got, text, strlen(text)) && !close(fd));
}

/* Whether a call failed, by this error. */
static int is_error(ssize_t result, int error)
{
	return result == -1 && errno == error;
}

/* Each wrong answer, and after it one that is right. (a mount that a wrong reply had ended would answer ENOTCONN from
 * then on) */
static void ask_wrong(void)
{
	const int too_long = is_spoilt ? EIO : ERANGE; /* the table sees it, or Linux */
	char text[10];
	struct stat st;
	int fd;

	CHECK(is_error(stat(at("fault"), &st), EIO));
	expect("ab\n");
	CHECK(is_error(readlink(at("link"), text, sizeof(text)), EIO));
	CHECK(is_spoilt ? is_error(lstat(at("link"), &st), EIO) : !lstat(at("link"), &st));
	expect("ab\n");
	CHECK(is_error(getxattr(at("file"), "user.a", text, sizeof(text)), too_long));
	CHECK(is_error(listxattr(at("file"), text, sizeof(text)), too_long));
	expect("ab\n");
	fd = open(at("bad"), O_RDWR);
	CHECK(fd >= 0);
	CHECK(is_error(read(fd, text, sizeof(text)), EIO));
	CHECK(is_error(write(fd, text, sizeof(text)), EIO));
	close(fd);
	expect("ab\n");
}

/* (that there is a handler makes the signal interrupt, and not end it) */
static void caught(int number)
{
	(void)number;
}

/* A signal while a LOOKUP waits: Linux sends an INTERRUPT, and stat(2) answers EINTR. */
static void interrupt_one(void)
{
	const struct sigaction catches = { .sa_handler = caught };
	const struct itimerval soon = { .it_value = { 0, 100000 } }; /* 0.1 s */
	struct stat st;

	CHECK(!sigaction(SIGALRM, &catches, NULL) && !setitimer(ITIMER_REAL, &soon, NULL));
	CHECK(is_error(stat(at("slow"), &st), EINTR));
}

/* What a program does there. It has errno from Linux alone: what the server answered wrongly must not reach it as
 * success. */
static void client(void)
{
	put(0, "0123456789");
	expect("0123456789");
	put(O_TRUNC, "ab\n");
	expect("ab\n");
	ask_wrong();
	interrupt_one();
	expect("ab\n");
	CHECK(!umount2(folder, 0)); /* by which the server ends too */
}

/* Mounts it with these options, and has a client ask. */
static int run(const char *options)
{
	const nizwarf_transport by = {
		.size = sizeof(by), .program = "mounted", .workers = WORKERS, .serve = serve
	};
	const int device = nizwarf_fuse_mount(&by, "mounted", folder, MS_NOSUID | MS_NODEV, options);
	int status, is_wrong;
	pid_t child;

	if (device < 0)
		return 2;
	/* (before there are threads) */
	child = fork();
	if (!child) {
		/* (or the mount would go on with nobody who serves it, if the server fails) */
		close(device);
		client();
		_exit(0);
	}
	is_wrong = nizwarf_fuse_serve(&by, device, folder);
	if (child < 0 || waitpid(child, &status, 0) != child || status || is_wrong || destroyed)
		return 1;
	nizwarf_end_ops(&ops, NULL, &session);
	nizwarf_end_ops(&ops, NULL, &session);
	is_wrong = destroyed != 1;
	destroyed = 0;
	return is_wrong;
}

int main(void)
{
	int status = 0;

	if (!mkdtemp(folder))
		return perror(folder), 2;
	for (is_spoilt = 0; is_spoilt < 2; is_spoilt++) {
		status |= run("");
		status |= run("default_permissions");
	}
	for (int i = 0; i < WORKERS; i++)
		nizwarf_scratch_free(&slots[i]);
	rmdir(folder);
	if (status)
		return fputs("mounted.c: a mount ended, or its server failed\n", stderr), status;
	puts("Four mounts went on after answers that Linux refuses.");
	return 0;
}
