/* Serves a descriptor by the codec of nizwarf.h, for others.py.
 *
 * Usage: nizwarf DESCRIPTOR
 * The descriptor is a socket that keeps messages apart. The file system is an empty root, whose functions
 * look at each byte that they are handed. A request ends where a page that can't be read begins, and so does
 * the room for its reply: a look past one of them ends the program. What is refused, and has a header, is
 * answered EIO, as programs/transport/fuse_device.c does. Status 0: the other end was closed; 1: it could not go on;
 * 2: it could not start. */
#define _GNU_SOURCE
#include <linux/fuse.h>
#include <stdio.h>
#include <stdlib.h>
#include <string.h>
#include <sys/mman.h>
#include <sys/socket.h>
#include <sys/stat.h>
#include <unistd.h>
#include "nizwarf_ops.h"

enum { PAYLOAD = 1 << 20, LONGEST = PAYLOAD + 4096 }; /* bytes: of data, and of a message */

static volatile unsigned seen; /* so that no look is left out by the compiler */

/* Looks at each byte. */
static void see(const void *bytes, size_t count)
{
	for (size_t i = 0; i < count; i++)
		seen += ((const unsigned char *)bytes)[i];
}

/* Looks at a name up to its 0, which must be within the request. EROFS: nothing can be changed here. */
static int see_name(const char *name)
{
	see(name, strlen(name));
	return EROFS;
}

/* (not each function looks at all that it is handed) */
#pragma GCC diagnostic ignored "-Wunused-parameter"

static void on_forget(const nizwarf_req *req, uint64_t ino, uint64_t nlookup)
{
	seen += (unsigned)(ino + nlookup);
}

/* (nobody has asked: but a peer may send it) */
static void on_retrieve_reply(const nizwarf_req *req, uint64_t cookie, uint64_t ino, uint64_t offset,
			      const void *data, size_t size)
{
	see(data, size);
}

/* clang-format off */

#define REQ const nizwarf_req *req, uint64_t ino
#define NAME const char *name
#define FI const nizwarf_file_info *fi
#define ENTRY nizwarf_entry_param *e
#define ATTR nizwarf_attr *attr, struct timespec *attr_timeout

/* The other functions: the name, the parameters, and expressions, of which the last is the result. Each node
 * is the root, an empty directory; each lock is taken by somebody else; what is waited for is there. A WRITE
 * is looked at as far as it says, and kept nowhere. Of an IOCTL as many bytes as were asked for have room, and
 * are 0. A STATX tells all that was asked for, though most of it is 0. */
#define OPS(F) \
	F(getattr, (REQ, FI, ATTR), attr->ino = 1, attr->mode = S_IFDIR | 0755, attr->nlink = 2, 0) \
	F(setattr, (REQ, const nizwarf_setattr *set, uint32_t to_set, FI, ATTR), \
	  see(set, sizeof(*set)), on_getattr(req, ino, fi, attr, attr_timeout)) \
	F(lookup, (REQ, NAME, ENTRY), see_name(name), ENOENT) \
	F(mkdir, (REQ, NAME, uint32_t mode, ENTRY), see_name(name)) \
	F(mknod, (REQ, NAME, uint32_t mode, uint32_t rdev, ENTRY), see_name(name)) \
	F(create, (REQ, NAME, uint32_t mode, nizwarf_file_info *fi, ENTRY), see_name(name)) \
	F(symlink, (const nizwarf_req *req, const char *link, uint64_t parent, NAME, ENTRY), \
	  see_name(link), see_name(name)) \
	F(unlink, (REQ, NAME), see_name(name)) \
	F(rmdir, (REQ, NAME), see_name(name)) \
	F(removexattr, (REQ, NAME), see_name(name)) \
	F(rename, (REQ, NAME, uint64_t newparent, const char *newname, uint32_t flags), \
	  see_name(newname), see_name(name)) \
	F(link, (REQ, uint64_t newparent, NAME, ENTRY), see_name(name)) \
	F(read, (REQ, size_t size, uint64_t off, FI, void *buf, size_t *len), 0) \
	F(readdir, (REQ, uint64_t off, FI, nizwarf_dir *dir), 0) \
	F(readdirplus, (REQ, uint64_t off, FI, nizwarf_dir *dir), 0) \
	F(write, (REQ, const void *buf, size_t size, uint64_t off, FI, size_t *len), \
	  see(buf, size), *len = size, 0) \
	F(setxattr, (REQ, NAME, const void *value, size_t size, uint32_t flags), \
	  see(value, size), see_name(name)) \
	F(getxattr, (REQ, NAME, size_t size, void *value, size_t *len), see_name(name), ENODATA) \
	F(getlk, (REQ, FI, nizwarf_lock *lock), \
	  see(fi, sizeof(*fi)), see(lock, sizeof(*lock)), lock->type = F_UNLCK, 0) \
	F(setlk, (REQ, FI, const nizwarf_lock *lock, int sleep), see(lock, sizeof(*lock)), EAGAIN) \
	F(flock, (REQ, FI, int op), EAGAIN) \
	F(bmap, (REQ, size_t blocksize, uint64_t idx, uint64_t *block), *block = idx, 0) \
	F(ioctl, (REQ, uint32_t cmd, uint64_t arg, FI, uint32_t flags, const void *in_buf, size_t in_size, \
		  nizwarf_ioctl *out, void *out_buf, size_t out_size, size_t *len), \
	  see(in_buf, in_size), memset(out_buf, 0, out_size), *len = out_size, 0) \
	F(poll, (REQ, FI, uint32_t events, uint64_t kh, int notify, uint32_t *revents), \
	  *revents = events, 0) \
	F(tmpfile, (REQ, uint32_t mode, nizwarf_file_info *fi, ENTRY), EROFS) \
	F(statx, (REQ, uint32_t flags, uint32_t mask, FI, nizwarf_statx *statx, struct timespec *timeout), \
	  statx->mask = mask, statx->mode = S_IFDIR | 0755, 0) \
	F(copy_file_range, (REQ, uint64_t off_in, FI, uint64_t ino_out, uint64_t off_out, \
			    const nizwarf_file_info *fi_out, uint64_t size, uint64_t flags, size_t *len), \
	  *len = size, 0)

#define DEFINE(name, parameters, ...) static int on_##name parameters { return __VA_ARGS__; }
OPS(DEFINE)

#define IN_TABLE(name, ...) .name = on_##name,
static const nizwarf_ops ops = { OPS(IN_TABLE).forget = on_forget, .retrieve_reply = on_retrieve_reply };

/* clang-format on */

/* The end of LONGEST bytes after which nothing can be read. (what is put right before it is read to its end, and no
 * further) */
static unsigned char *fenced(void)
{
	const size_t page = (size_t)sysconf(_SC_PAGESIZE), size = (LONGEST + page - 1) / page * page;
	unsigned char *at =
		mmap(NULL, size + page, PROT_READ | PROT_WRITE, MAP_PRIVATE | MAP_ANONYMOUS, -1, 0);

	if (at == MAP_FAILED || mprotect(at + size, page, PROT_NONE)) {
		perror("nizwarf: memory");
		exit(2);
	}
	return at + size;
}

/* How many bytes the reply has, or 0. */
static size_t refuse(const unsigned char *request, size_t size, unsigned char *room)
{
	struct fuse_out_header reply = { .len = sizeof(reply), .error = -EIO };
	struct fuse_in_header asked;

	if (size < sizeof(asked))
		return 0;
	memcpy(&asked, request, sizeof(asked));
	if (asked.opcode == FUSE_FORGET || asked.opcode == FUSE_BATCH_FORGET ||
	    asked.opcode == FUSE_INTERRUPT)
		return 0;
	reply.unique = asked.unique;
	memcpy(room, &reply, sizeof(reply));
	return sizeof(reply);
}

int main(int count, char **words)
{
	static unsigned char taken[LONGEST]; /* as a message comes, before its end is known */
	static nizwarf_scratch slot = NIZWARF_SCRATCH_INIT;
	nizwarf_session session = { 0, 4096, PAYLOAD };
	unsigned char *end, *room;
	nizwarf_dirent items[1];
	ssize_t got;
	int fd;

	if (count != 2 || !strcmp(words[1], "--help"))
		return fputs("Usage: nizwarf DESCRIPTOR\n", count == 2 ? stdout : stderr), count == 2 ? 0 : 2;
	fd = atoi(words[1]);
	end = fenced();		   /* where requests end */
	room = fenced() - LONGEST; /* where replies begin */
	while ((got = recv(fd, taken, sizeof(taken), 0)) > 0) {
		unsigned char *request = end - got; /* its last byte is the last before the page */
		size_t len = 0;			    /* of the reply */

		memcpy(request, taken, (size_t)got);
		/* (an unaligned request: the codec reads each number byte by byte, or by memcpy) */
		if (nizwarf_serve_ops(&ops, NULL, &slot, &session, request, (size_t)got, room, LONGEST, items,
				      1, &len) != NIZWARF_OK)
			len = refuse(request, (size_t)got, room); /* 0: it has no reply */
		if (len && send(fd, room, len, MSG_NOSIGNAL) < 0)
			return perror("nizwarf: send"), 1; /* the other end has gone without its reply */
	}
	if (got < 0)
		perror("nizwarf: recv");
	nizwarf_scratch_free(&slot);
	return got < 0;
}
