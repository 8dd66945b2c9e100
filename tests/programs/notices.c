/* A file system with the files N and M, served by one worker. A WRITE of M prints a line, and then has two notices
 * sent: after a byte on standard input an inval_inode for N, by a thread, and after a second byte one of poll by the
 * worker. test_fuse_library.py has the first wait in Linux for a READ of N, which only the worker can serve; that READ
 * fails, because the table has no function for it.
 *
 * Usage: notices MOUNTPOINT */
#define _GNU_SOURCE
#include <stdio.h>
#include <sys/mount.h>
#include <unistd.h>
#include "nizwarf_fuse.h"

enum { ROOT = 1, N, M, SIZE = 4096, NOTICE = 64, TIMEOUT = 100, ITEMS = 4 };

static nizwarf_fuse_notices notices = NIZWARF_FUSE_NOTICES_INIT;
static nizwarf_session session = { .max_buffer = NIZWARF_MAX_PAYLOAD };
static nizwarf_scratch scratch;

static int on_getattr(const nizwarf_req *req, uint64_t ino, const nizwarf_file_info *fi, nizwarf_attr *attr,
		      struct timespec *attr_timeout)
{
	(void)req, (void)fi;
	attr->ino = ino;
	attr->mode = ino == ROOT ? S_IFDIR | 0755 : S_IFREG | 0644;
	attr->size = SIZE;
	attr_timeout->tv_sec = TIMEOUT;
	return 0;
}

static int on_lookup(const nizwarf_req *req, uint64_t parent, const char *name, nizwarf_entry_param *entry)
{
	(void)parent;
	entry->ino = *name == 'N' ? N : M;
	entry->entry_timeout.tv_sec = TIMEOUT;
	return on_getattr(req, entry->ino, NULL, &entry->attr, &entry->attr_timeout);
}

static void *invalidate(void *user)
{
	uint8_t notice[NOTICE];

	nizwarf_fuse_notify(&notices, notice, nizwarf_notice_inval_inode(N, 0, 0, notice, NOTICE), NULL, 0);
	return user;
}

static int on_write(const nizwarf_req *req, uint64_t ino, const void *buf, size_t size, uint64_t off,
		    const nizwarf_file_info *fi, size_t *len)
{
	uint8_t notice[NOTICE];
	pthread_t thread;

	(void)req, (void)ino, (void)buf, (void)off, (void)fi;
	*len = size;
	if (puts("WRITE") == EOF || fflush(stdout) || getchar() == EOF ||
	    pthread_create(&thread, NULL, invalidate, NULL) || getchar() == EOF)
		return EIO;
	return nizwarf_fuse_notify(&notices, notice, nizwarf_notice_poll(1, notice, NOTICE), NULL, 0);
}

static int32_t serve(void *user, unsigned worker, const struct iovec *request, size_t request_count,
		     const struct iovec *reply, size_t reply_count, size_t *reply_len)
{
	static const nizwarf_ops ops = { .lookup = on_lookup, .getattr = on_getattr, .write = on_write };
	nizwarf_dirent items[ITEMS];

	(void)worker, (void)request_count, (void)reply_count;
	return nizwarf_serve_ops(&ops, user, &scratch, &session, request->iov_base, request->iov_len,
				 reply->iov_base, reply->iov_len, items, ITEMS, reply_len);
}

int main(int argc, char **argv)
{
	const nizwarf_transport by = { sizeof(by), "notices", .workers = 1, .notices = &notices,
				       .serve = serve };
	const int device = nizwarf_fuse_mount(&by, by.program, argv[argc - 1], MS_NOSUID | MS_NODEV, NULL);

	session.page_size = (uint32_t)sysconf(_SC_PAGESIZE);
	return device < 0 ? 1 : nizwarf_fuse_serve(&by, device, argv[argc - 1]);
}
