/* Open files of a passthrough: their data, and which call uses them. passthrough_call.c gets references to the
 * node and the open file, and calls make_of_file(); any number of workers may use one open file at once.
 *
 * A client sends the handle of the open file, and an offset. The host checks that the file was opened for that
 * access. Offsets that would be negative on the host are refused. */
#define _GNU_SOURCE
#include <errno.h>
#include <fcntl.h>
#include <limits.h>
#include <linux/fuse.h>
#include <sys/uio.h>
#include <unistd.h>
#include "passthrough_call.h"

/* The largest copy at once, and the size of a page, in bytes. (A client requests the rest again.) */
enum { COPIED = 1 << 30, PAGE = 4096 };

bool writes_later(const struct call *call)
{
	return atomic_load(&call->all->agreed) & FUSE_WRITEBACK_CACHE && call->all->options.writeback;
}

/* Removes the first `moved` bytes from the list of pieces, which belongs to the worker and so may be changed. */
static void move_on(struct iovec **data, size_t *pieces, size_t moved)
{
	while (*pieces && moved >= (*data)->iov_len) {
		moved -= (*data)->iov_len;
		(*data)++;
		(*pieces)--;
	}
	if (moved) {
		(*data)->iov_base = (char *)(*data)->iov_base + moved;
		(*data)->iov_len -= moved;
	}
}

/* Transfers data of an open file, as preadv and pwritev do. (For one piece the calls without a list are faster.) */
static ssize_t move(int fd, bool is_read, const struct iovec *data, int pieces, off_t at)
{
	if (pieces == 1)
		return is_read ? pread(fd, data->iov_base, data->iov_len, at) :
				 pwrite(fd, data->iov_base, data->iov_len, at);
	return is_read ? preadv(fd, data, pieces, at) : pwritev(fd, data, pieces, at);
}

/* READ and WRITE, directly from or to the pieces. A READ ends at the end of the file, and a WRITE when the host
 * accepts no more. If some bytes were transferred before an error, their number is returned, except for a WRITE
 * out of a cache. */
static int transfer(const struct call *call)
{
	const nizwarf_call *asked = call->asked;
	const bool is_read = asked->opcode == NIZWARF_READ;
	const int fd = call->file->counted.fd;
	struct iovec *data = call->data;
	size_t pieces = call->pieces, done = 0;
	ssize_t direct = -1;

	if (asked->offset > INT64_MAX)
		return is_read ? EINVAL : EFBIG;
	/* (over /dev/fuse the data may go through a pipe, without memory of the server) */
	if (pieces == 1 && is_read)
		direct = nizwarf_fuse_read_from(fd, asked->offset, data->iov_len);
	if (direct >= 0) {
		call->answer->count = (uint64_t)direct;
		return 0;
	}
	/* (data that are still in a pipe are written from there; otherwise they are in the segment) */
	if (pieces == 1 && !is_read) {
		direct = nizwarf_fuse_write_to(fd, asked->offset, data->iov_len);
		if (direct < 0)
			return errno;
		done = (size_t)direct;
		move_on(&data, &pieces, done);
	}
	while (pieces) {
		const int most = pieces < IOV_MAX ? (int)pieces : IOV_MAX;
		const size_t others = pieces - (size_t)most;
		const ssize_t moved = move(fd, is_read, data, most, (off_t)(asked->offset + done));

		if (moved < 0 && errno == EINTR)
			continue;
		/* (a kernel with a writeback cache ignores how many bytes were written) */
		if (moved < 0 && (!done || asked->has & NIZWARF_WRITE_CACHE))
			return errno;
		if (moved <= 0)
			break;
		done += (size_t)moved;
		move_on(&data, &pieces, (size_t)moved);
		/* (a read that ends within a page has reached the end of the file, and was not cut short by an
		 * error) */
		if (is_read && pieces > others && (asked->offset + done) % PAGE && is_local(call))
			break;
	}
	call->answer->count = done;
	return 0;
}

static int read_file(const struct call *call)
{
	return transfer(call);
}

/* Sets or clears O_APPEND until let_write(), according to the client's current flags. Returns 0 or an error,
 * because some files can only be appended to (chattr +a). The flag belongs to the descriptor, which all WRITEs of
 * the open file share. A WRITE that needs it as it is locks `writing` for reading, so such WRITEs run at once; one
 * that changes it locks for writing, and runs alone. */
static int hold_write(struct open_file *file, bool at_end)
{
	int flags, error = 0;

	pthread_rwlock_rdlock(&file->writing);
	if (file->at_end == at_end)
		return 0;
	/* (another WRITE may have changed it meanwhile, so it is checked again) */
	pthread_rwlock_unlock(&file->writing);
	pthread_rwlock_wrlock(&file->writing);
	if (file->at_end == at_end)
		return 0;
	flags = fcntl(file->counted.fd, F_GETFL);
	if (flags < 0 || fcntl(file->counted.fd, F_SETFL, at_end ? flags | O_APPEND : flags & ~O_APPEND)) {
		error = errno;
		pthread_rwlock_unlock(&file->writing);
		return error;
	}
	file->at_end = at_end;
	return 0;
}

static void let_write(struct open_file *file)
{
	pthread_rwlock_unlock(&file->writing);
}

/* Clears O_DIRECT. Data that a client's kernel writes out of its cache are not aligned as O_DIRECT requires, so
 * such a file uses the host's cache from then on. */
static int leave_direct(const struct call *call)
{
	struct open_file *file = call->file;
	const int fd = file->counted.fd;
	int flags, error = 0;

	if (!atomic_load_explicit(&file->is_direct, memory_order_relaxed) ||
	    !(call->asked->has & NIZWARF_WRITE_CACHE))
		return 0;
	pthread_rwlock_wrlock(&file->writing);
	flags = fcntl(fd, F_GETFL);
	if (flags < 0 || fcntl(fd, F_SETFL, flags & ~O_DIRECT))
		error = errno;
	else
		atomic_store(&file->is_direct, false);
	pthread_rwlock_unlock(&file->writing);
	return error;
}

/* Returns whether a WRITE is an append to the current end of the file. Data out of the kernel's cache have an
 * offset, and with a writeback cache the kernel determines the end itself. */
static bool is_append(const struct call *call)
{
	const nizwarf_call *asked = call->asked;

	return asked->flags & O_APPEND && !(asked->has & NIZWARF_WRITE_CACHE) && !writes_later(call);
}

/* WRITE. The capabilities that keep set-ID bits are dropped by this thread, and regained at each return. */
static int write_file(const struct call *call)
{
	int error = leave_direct(call);

	if (!error)
		error = hold_write(call->file, is_append(call));
	if (error)
		return error;
	lose_fsetid(call);
	error = lose_capability(call, call->file->counted.fd);
	if (!error)
		error = transfer(call);
	regain_fsetid(call);
	let_write(call->file);
	return error;
}

/* FALLOCATE. The host refuses modes that it does not support: EOPNOTSUPP, EINVAL. */
static int allocate(const struct call *call)
{
	const nizwarf_call *asked = call->asked;
	int error;

	if (asked->offset > INT64_MAX || asked->length > INT64_MAX)
		return EFBIG;
	lose_fsetid(call);
	error = lose_capability(call, call->file->counted.fd);
	if (!error)
		error = failed(fallocate(call->file->counted.fd, (int)asked->mode, (off_t)asked->offset,
					 (off_t)asked->length));
	regain_fsetid(call);
	return error;
}

/* LSEEK with SEEK_DATA or SEEK_HOLE. Other seeks are done by the client's kernel. */
static int seek(const struct call *call)
{
	const nizwarf_call *asked = call->asked;
	const uint32_t whence = nizwarf_lseek_whence(asked);
	off_t at;

	if ((whence != SEEK_DATA && whence != SEEK_HOLE) || call->file->is_directory)
		return EINVAL;
	/* To the host, data that the kernel has not written yet are a hole. If this fails once, the kernel uses
	 * the size. */
	if (writes_later(call))
		return ENOSYS;
	/* (this moves the descriptor's position, which nothing uses: data are read and written with offsets) */
	at = lseek(call->file->counted.fd, (off_t)asked->offset, (int)whence);
	nizwarf_answer_offset(call->answer, (uint64_t)at);
	return failed(at < 0 ? -1 : 0);
}

/* COPY_FILE_RANGE, from the call's open file to another one, to which it has a reference. The client requests the
 * rest again. On EXDEV and EOPNOTSUPP its kernel copies by READ and WRITE. */
static int copy_range(const struct call *call)
{
	const nizwarf_call *asked = call->asked;
	struct open_file *into = file_get(&call->all->nodes, asked->other_handle);
	off_t from = (off_t)asked->offset, to = (off_t)asked->other_offset;
	const size_t length = asked->length < COPIED ? asked->length : COPIED;
	ssize_t copied;
	int error;

	if (!into)
		return EBADF;
	/* (no flag is defined yet) */
	error = from < 0 || to < 0 || nizwarf_copy_flags(asked) ? EINVAL :
								  lose_capability(call, into->counted.fd);
	/* (copy_file_range(2) refuses a file with O_APPEND) */
	if (!error)
		error = hold_write(into, false);
	if (!error) {
		lose_fsetid(call);
		copied = copy_file_range(call->file->counted.fd, &from, into->counted.fd, &to, length, 0);
		error = copied < 0 ? errno : 0;
		regain_fsetid(call);
		let_write(into);
		call->answer->count = (uint64_t)copied;
	}
	file_put(into);
	return error;
}

/* Closes a copy of the file's descriptor, because the host may return an error then, and releases the owner's
 * locks. (Closing a descriptor releases the process's fcntl(2) locks of the file, but this process has none of
 * that kind.) */
static int flush(const struct call *call)
{
	const int copy = dup(call->file->counted.fd);

	if (call->all->locks)
		locks_close(call);
	return copy < 0 ? errno : failed(close(copy));
}

static int sync_file(const struct call *call)
{
	const int fd = call->file->counted.fd;

	return failed(call->asked->has & NIZWARF_FSYNC_FDATASYNC ? fdatasync(fd) : fsync(fd));
}

typedef int maker(const struct call *call);

/* Returns the function that makes a call of an open file, or NULL. */
static maker *maker_of(uint32_t call)
{
	static maker *const makers[] = {
		[NIZWARF_READ] = read_file,	[NIZWARF_WRITE] = write_file,
		[NIZWARF_FLUSH] = flush,	[NIZWARF_FSYNC] = sync_file,
		[NIZWARF_FSYNCDIR] = sync_file, [NIZWARF_READDIR] = read_directory,
		[NIZWARF_FALLOCATE] = allocate, [NIZWARF_LSEEK] = seek,
		[NIZWARF_COPY] = copy_range,	[NIZWARF_COPY_64] = copy_range,
		[NIZWARF_GETLK] = get_lock,	[NIZWARF_SETLK] = set_lock,
		[NIZWARF_SETLKW] = set_lock,
	};

	return call < sizeof(makers) / sizeof(*makers) ? makers[call] : NULL;
}

bool wants_file(const nizwarf_call *asked)
{
	return maker_of(asked->opcode) || asked->has & NIZWARF_HAS_HANDLE;
}

int make_of_file(const struct call *call)
{
	maker *const make = maker_of(call->asked->opcode);

	return make ? make(call) : ENOSYS;
}
