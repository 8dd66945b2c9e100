/* Requests. The codec decodes each message into a call. A message that it rejects does not reach the file
 * system. */

/* All optional operations are enabled, because libfuse replies ENOSYS to those that a file system does not
 * have. */
#define CODEC_FEATURES                                                                                 \
	(NIZWARF_FEATURE_LOCKS | NIZWARF_FEATURE_BMAP | NIZWARF_FEATURE_IOCTL | NIZWARF_FEATURE_POLL | \
	 NIZWARF_FEATURE_STATX | NIZWARF_FEATURE_COPY_64 | NIZWARF_FEATURE_TMPFILE |                   \
	 NIZWARF_FEATURE_NOTIFY_REPLY)

enum {
	/* The longest reply to a request that needs no file system. */
	LONGEST_FINISHED = 80, /* bytes: that of INIT to a later major version */
	/* The number of bytes that are read from a pipe before it is known whether the data may stay
	 * there. */
	WRITE_FRONT = sizeof(struct fuse_in_header) + sizeof(struct fuse_write_in),
	PLACEHOLDER = 1 << 16, /* bytes of a segment that stands for data in a pipe */
	MAX_SEGMENTS = 64,     /* enough for 4 MiB of data, less one segment */
	BIT_KILLPRIV_V2 = 28,  /* in the options of INIT */
};

/* A message, and the part of it that is in memory: all, except data that stay in a pipe. `in` is aligned for
 * a header. `len` may be less than the size of a header, so it must be checked before `in` is read. */
struct codec_message {
	const struct fuse_buf *buf; /* libfuse's buffer, in memory or in a pipe: `size` bytes in all */
	const char *in;
	size_t len;
};

/* Stands for data in a pipe, because the codec only needs their length. */
static const char codec_placeholder[PLACEHOLDER];

/* For most operations Linux remembers ENOSYS, and does not send them again. */
#define REPLY_ENOSYS(req) ((void)fuse_reply_err(req, ENOSYS))
/* Calls a function of the file system, or replies ENOSYS if it is NULL. */
#define CALL(req, function, ...) \
	((req)->se->op.function ? (req)->se->op.function(req, __VA_ARGS__) : REPLY_ENOSYS(req))

/* Makes a call of the file system, which ends the request at once or later, maybe on another thread. So
 * neither the request nor `c`, which is a part of it, may be used after the function of the file system was
 * called. The message is valid until the codec_call returns. */
typedef void codec_call(fuse_req_t req, const nizwarf_call *c, const struct codec_message *m);

/* Returns a part of the message. The codec has checked the range, and that a name ends with a NUL. */
static const char *bytes_at(const struct codec_message *m, nizwarf_range range)
{
	return m->in + range.at;
}

/* Returns the handle of a call as libfuse's struct, whose other fields must be 0 if the call does not have
 * them. */
static struct fuse_file_info file_of(const nizwarf_call *c)
{
	struct fuse_file_info file;

	memset(&file, 0, sizeof(file));
	file.fh = c->handle;
	return file;
}

/* Sets whether the file system must clear set-user-ID bits of a file that is written or truncated. Linux only
 * requests this if HANDLE_KILLPRIV_V2 was negotiated. */
static void set_kill_suidgid(struct fuse_file_info *file, const nizwarf_call *c)
{
#ifdef HAVE_KILL_SUIDGID
	if (c->options >> BIT_KILLPRIV_V2 & 1)
		file->kill_suidgid = (c->has & NIZWARF_KILL_SUIDGID) != 0;
#else
	(void)file, (void)c;
#endif
}

/* ---- Calls whose fields are passed as they are --------------------------------------------------- */

/* Defines the function for a call: the statement that it begins with, and the arguments after the node. */
#define ON(name, first, ...)                                                                        \
	static void on_##name(fuse_req_t req, const nizwarf_call *c, const struct codec_message *m) \
	{                                                                                           \
		first;                                                                              \
		(void)m;                                                                            \
		CALL(req, name, c->node, __VA_ARGS__);                                              \
	}

/* clang-format off */

#define NOTHING (void)0
#define FILE_INFO struct fuse_file_info file = file_of(c)
/* libfuse passes the umask in the context, and not as an argument. */
#define SET_UMASK req->ctx.umask = c->umask
/* NULL if the request names the node alone, and no open file. */
#define FILE_IF_OPEN (c->has & NIZWARF_HAS_HANDLE ? &file : NULL)

ON(lookup, NOTHING, bytes_at(m, c->name))
ON(mknod, SET_UMASK, bytes_at(m, c->name), c->mode, c->rdev)
ON(mkdir, SET_UMASK, bytes_at(m, c->name), c->mode)
ON(unlink, NOTHING, bytes_at(m, c->name))
ON(rmdir, NOTHING, bytes_at(m, c->name))
ON(rename, NOTHING, bytes_at(m, c->name), c->other_node, bytes_at(m, c->other_name), c->flags)
/* `node` is the file that gets another name. */
ON(link, NOTHING, c->other_node, bytes_at(m, c->name))
ON(getattr, FILE_INFO, FILE_IF_OPEN)
ON(access, NOTHING, (int)nizwarf_access_mask(c))
ON(setxattr, NOTHING, bytes_at(m, c->name), bytes_at(m, c->data), c->data.len, (int)c->flags)
ON(getxattr, NOTHING, bytes_at(m, c->name), c->size)
ON(listxattr, NOTHING, c->size)
ON(removexattr, NOTHING, bytes_at(m, c->name))
#ifdef HAVE_STATX_OP
ON(statx, FILE_INFO, (int)c->flags, (int)nizwarf_statx_mask(c), FILE_IF_OPEN)
#endif
ON(fsync, FILE_INFO, (c->has & NIZWARF_FSYNC_FDATASYNC) != 0, &file)
ON(fsyncdir, FILE_INFO, (c->has & NIZWARF_FSYNC_FDATASYNC) != 0, &file)
ON(fallocate, FILE_INFO, (int)c->mode, (off_t)c->offset, (off_t)c->length, &file)
ON(lseek, FILE_INFO, (off_t)c->offset, (int)nizwarf_lseek_whence(c), &file)
ON(bmap, NOTHING, c->size, c->offset)

/* clang-format on */

/* ---- Names --------------------------------------------------------------------------------------- */

static void on_symlink(fuse_req_t req, const nizwarf_call *c, const struct codec_message *m)
{
	CALL(req, symlink, bytes_at(m, nizwarf_symlink_text(c)), c->node, bytes_at(m, c->name));
}

/* As in libfuse, a file that is to be opened has the flags of open(2), and no handle yet. */
static void on_create(fuse_req_t req, const nizwarf_call *c, const struct codec_message *m)
{
	struct fuse_file_info file = file_of(c);

	file.flags = (int)c->flags;
	req->ctx.umask = c->umask;
	set_kill_suidgid(&file, c);
	CALL(req, create, c->node, bytes_at(m, c->name), c->mode, &file);
}

#ifdef HAVE_TMPFILE
static void on_tmpfile(fuse_req_t req, const nizwarf_call *c, const struct codec_message *m)
{
	struct fuse_file_info file = file_of(c);

	(void)m;
	file.flags = (int)c->flags;
	req->ctx.umask = c->umask;
	CALL(req, tmpfile, c->node, c->mode, &file);
}
#endif

static void on_readlink(fuse_req_t req, const nizwarf_call *c, const struct codec_message *m)
{
	(void)m;
	CALL(req, readlink, c->node);
}

/* ---- Forgotten lookups --------------------------------------------------------------------------- */

/* A FORGET has no reply, even if the file system has no function for it. fuse_reply_none() then ends the
 * request. */
static void on_forget(fuse_req_t req, const nizwarf_call *c, const struct codec_message *m)
{
	(void)m;
	if (req->se->op.forget)
		req->se->op.forget(req, c->node, nizwarf_forget_lookups(c));
	else
		fuse_reply_none(req);
}

/* forget_multi receives all pairs at once and in place, because the message has the layout of libfuse's
 * struct. `forget` is called for each pair and ends a request each time. All these calls share one request,
 * because a request for each would need memory. */
static void on_batch_forget(fuse_req_t req, const nizwarf_call *c, const struct codec_message *m)
{
	const uint64_t pairs = nizwarf_batch_forget_pairs(c);
	struct fuse_session *se = req->se;
	const char *at = bytes_at(m, c->data);
	struct fuse_forget_data one;
	uint64_t i;

	if (se->op.forget_multi) {
		se->op.forget_multi(req, pairs, (struct fuse_forget_data *)(void *)(uintptr_t)at);
		return;
	}
	if (se->op.forget) {
		/* No reply is sent, so the channel is no longer needed. */
		fuse_chan_put(req->ch);
		req->ch = NULL;
		/* The file system may end the request on several threads, so references must be counted under
		 * the lock. */
		codec_req_of(req)->state = CODEC_SHARED;
		/* This function's own reference is released last, so that the request stays valid until the
		 * last call. A message has fewer than 2^31 pairs. */
		req->REQ_COUNT += (int)pairs;
		for (i = 0; i < pairs; i++) {
			memcpy(&one, at + i * sizeof(one), sizeof(one));
			se->op.forget(req, one.ino, one.nlookup);
		}
	}
	fuse_reply_none(req);
}

/* ---- Attributes ---------------------------------------------------------------------------------- */

static void on_setattr(fuse_req_t req, const nizwarf_call *c, const struct codec_message *m)
{
	/* The fields that libfuse defines. Linux has others, such as one for the handle, which libfuse passes
	 * otherwise. */
	const int fields = FUSE_SET_ATTR_MODE | FUSE_SET_ATTR_UID | FUSE_SET_ATTR_GID | FUSE_SET_ATTR_SIZE |
			   FUSE_SET_ATTR_ATIME | FUSE_SET_ATTR_MTIME | FUSE_SET_ATTR_KILL_SUID |
			   FUSE_SET_ATTR_KILL_SGID | FUSE_SET_ATTR_ATIME_NOW | FUSE_SET_ATTR_MTIME_NOW |
			   FUSE_SET_ATTR_CTIME;
	struct fuse_file_info file = file_of(c);
	struct stat st;

	(void)m;
	memset(&st, 0, sizeof(st));
	st.st_mode = c->attr.mode;
	st.st_uid = c->attr.uid;
	st.st_gid = c->attr.gid;
	st.st_size = (off_t)c->attr.size;
	st.st_atim.tv_sec = (time_t)c->attr.atime;
	st.st_mtim.tv_sec = (time_t)c->attr.mtime;
	st.st_ctim.tv_sec = (time_t)c->attr.ctime;
	st.st_atim.tv_nsec = c->attr.atimensec;
	st.st_mtim.tv_nsec = c->attr.mtimensec;
	st.st_ctim.tv_nsec = c->attr.ctimensec;
	CALL(req, setattr, c->node, &st, (int)nizwarf_setattr_fields(c) & fields, FILE_IF_OPEN);
}

/* Without a function the reply is libfuse's, so that df(1) works for each file system. */
static void on_statfs(fuse_req_t req, const nizwarf_call *c, const struct codec_message *m)
{
	const struct statvfs unknown = { .f_namemax = 255, .f_bsize = 512 };

	(void)m;
	if (req->se->op.statfs)
		req->se->op.statfs(req, c->node);
	else
		fuse_reply_statfs(req, &unknown);
}

/* ---- Files --------------------------------------------------------------------------------------- */

/* Serves an OPEN or an OPENDIR. Without a function it succeeds, unless the file system has requested
 * `no_support`: then it fails with ENOSYS, because Linux sends no more such requests after that. */
static void call_open(fuse_req_t req, const nizwarf_call *c, uint64_t no_support,
		      void (*function)(fuse_req_t, fuse_ino_t, struct fuse_file_info *))
{
	struct fuse_file_info file = file_of(c);

	file.flags = (int)c->flags;
	if (c->opcode == NIZWARF_OPEN)
		set_kill_suidgid(&file, c);
	if (function)
		function(req, c->node, &file);
	else if (WANTED(req->se) & no_support)
		REPLY_ENOSYS(req);
	else
		fuse_reply_open(req, &file);
}

static void on_open(fuse_req_t req, const nizwarf_call *c, const struct codec_message *m)
{
	(void)m;
	call_open(req, c, FUSE_CAP_NO_OPEN_SUPPORT, req->se->op.open);
}

static void on_opendir(fuse_req_t req, const nizwarf_call *c, const struct codec_message *m)
{
	(void)m;
	call_open(req, c, FUSE_CAP_NO_OPENDIR_SUPPORT, req->se->op.opendir);
}

/* The lock owner is for a file system that implements locks. The kernel only sends it then. */
static void on_read(fuse_req_t req, const nizwarf_call *c, const struct codec_message *m)
{
	struct fuse_file_info file = file_of(c);

	(void)m;
	file.flags = (int)c->flags;
	file.lock_owner = c->lock_owner;
	CALL(req, read, c->node, c->size, (off_t)c->offset, &file);
}

/* Calls write_buf. Data in a pipe stay there, so that the file system can move them. Bytes that it leaves in
 * the pipe must be removed, because they would be read as the next message. */
static void write_buffers(fuse_req_t req, const nizwarf_call *c, const struct codec_message *m,
			  struct fuse_file_info *file)
{
	struct fuse_bufvec bufv = { .count = 1, .buf[0] = *m->buf };
	const size_t in_pipe = m->buf->size - m->len, size = c->size;
	struct fuse_session *se = req->se;

	bufv.buf[0].size = size;
	if (!in_pipe) {
		/* A message that was read from a pipe into memory still has the flags of the pipe. */
		bufv.buf[0].flags = 0;
		bufv.buf[0].mem = (char *)(uintptr_t)bytes_at(m, c->data);
	}
	se->op.write_buf(req, c->node, &bufv, (off_t)c->offset, file);
	/* `se` must be used here, because the request has ended. */
	if (in_pipe && (bufv.idx < bufv.count || in_pipe > size))
		fuse_ll_clear_pipe(se);
}

/* Serves a WRITE by `write_buf` or `write`. */
static void on_write(fuse_req_t req, const nizwarf_call *c, const struct codec_message *m)
{
	struct fuse_file_info file = file_of(c);
	struct fuse_session *se = req->se;

	file.flags = (int)c->flags;
	file.lock_owner = c->lock_owner;
	file.writepage = (c->has & NIZWARF_WRITE_CACHE) != 0;
	set_kill_suidgid(&file, c);
	/* The kernel sends as many bytes as the record says. Another client may not, and then libfuse would
	 * read after the end of the message. */
	if (c->data.len < c->size) {
		fuse_reply_err(req, EIO);
		if (m->len < m->buf->size)
			fuse_ll_clear_pipe(se);
	} else if (se->op.write_buf) {
		write_buffers(req, c, m, &file);
	} else {
		CALL(req, write, c->node, bytes_at(m, c->data), c->size, (off_t)c->offset, &file);
	}
}

static void on_flush(fuse_req_t req, const nizwarf_call *c, const struct codec_message *m)
{
	struct fuse_file_info file = file_of(c);

	(void)m;
	file.flush = 1; /* as libfuse sets it for each FLUSH */
	file.lock_owner = c->lock_owner;
	CALL(req, flush, c->node, &file);
}

/* Serves a RELEASE or a RELEASEDIR. Without a function it succeeds. */
static void call_release(fuse_req_t req, const nizwarf_call *c,
			 void (*function)(fuse_req_t, fuse_ino_t, struct fuse_file_info *))
{
	struct fuse_file_info file = file_of(c);

	file.flags = (int)c->flags;
	file.lock_owner = c->lock_owner;
	file.flush = (c->has & NIZWARF_RELEASE_FLUSH) != 0;
	file.flock_release = (c->has & NIZWARF_RELEASE_FLOCK_UNLOCK) != 0;
	if (function)
		function(req, c->node, &file);
	else
		fuse_reply_err(req, 0);
}

static void on_release(fuse_req_t req, const nizwarf_call *c, const struct codec_message *m)
{
	(void)m;
	call_release(req, c, req->se->op.release);
}

static void on_releasedir(fuse_req_t req, const nizwarf_call *c, const struct codec_message *m)
{
	(void)m;
	call_release(req, c, req->se->op.releasedir);
}

/* The codec decodes READDIR and READDIRPLUS as one call. A program may have either function without the
 * other. */
static void on_readdir(fuse_req_t req, const nizwarf_call *c, const struct codec_message *m)
{
	struct fuse_file_info file = file_of(c);

	(void)m;
	if (c->has & NIZWARF_PLUS)
		CALL(req, readdirplus, c->node, c->size, (off_t)c->offset, &file);
	else
		CALL(req, readdir, c->node, c->size, (off_t)c->offset, &file);
}

static void on_copy(fuse_req_t req, const nizwarf_call *c, const struct codec_message *m)
{
	/* the largest count that the reply to COPY can have, in whole pages */
	const uint64_t most = c->opcode == NIZWARF_COPY ? 0xfffff000 : UINT64_MAX;
	struct fuse_file_info from = file_of(c), to = file_of(c);

	(void)m;
	/* The two files only differ in their handles here. */
	to.fh = c->other_handle;
#ifdef HAVE_COPY_64
	req->flags.is_copy_file_range_64 = c->opcode == NIZWARF_COPY_64;
#else
	if (c->opcode == NIZWARF_COPY_64) {
		REPLY_ENOSYS(req);
		return;
	}
#endif
	CALL(req, copy_file_range, c->node, (off_t)c->offset, &from, c->other_node, (off_t)c->other_offset,
	     &to, c->length < most ? c->length : most, (int)nizwarf_copy_flags(c));
}

/* ---- Locks and devices --------------------------------------------------------------------------- */

/* Returns the lock as for fcntl(2). libfuse's function converts the type and the range, whose last byte is
 * 2^63 - 1 if it ends with the file. */
static struct flock lock_of(const nizwarf_call *c)
{
	const nizwarf_lock requested = nizwarf_lock_of(c);
	struct fuse_file_lock record = {
		.start = requested.start, .end = requested.end, .type = requested.type, .pid = requested.pid
	};
	struct flock lock;

	convert_fuse_file_lock(&record, &lock);
	return lock;
}

static void on_getlk(fuse_req_t req, const nizwarf_call *c, const struct codec_message *m)
{
	struct fuse_file_info file = file_of(c);
	struct flock lock = lock_of(c);

	(void)m;
	file.lock_owner = c->lock_owner;
	CALL(req, getlk, c->node, &file, &lock);
}

/* Serves SETLK and SETLKW. libfuse has a separate function for the locks of flock(2). */
static void on_setlk(fuse_req_t req, const nizwarf_call *c, const struct codec_message *m)
{
	const int waits = c->opcode == NIZWARF_SETLKW;
	struct fuse_file_info file = file_of(c);
	struct flock lock = lock_of(c);
	int op = 0;

	(void)m;
	file.lock_owner = c->lock_owner;
	if (!(c->has & NIZWARF_LK_FLOCK)) {
		CALL(req, setlk, c->node, &file, &lock, waits);
		return;
	}
	if (lock.l_type == F_RDLCK)
		op = LOCK_SH;
	else if (lock.l_type == F_WRLCK)
		op = LOCK_EX;
	else if (lock.l_type == F_UNLCK)
		op = LOCK_UN;
	CALL(req, flock, c->node, &file, waits ? op : op | LOCK_NB);
}

/* For a directory the error is ENOTTY, as in libfuse, unless the file system has requested
 * FUSE_CAP_IOCTL_DIR. */
static void on_ioctl(fuse_req_t req, const nizwarf_call *c, const struct codec_message *m)
{
	const char *in = c->data.len ? bytes_at(m, c->data) : NULL;
	struct fuse_file_info file = file_of(c);

	if (c->flags & FUSE_IOCTL_DIR && !(WANTED(req->se) & FUSE_CAP_IOCTL_DIR))
		fuse_reply_err(req, ENOTTY);
	else
		CALL(req, ioctl, c->node, nizwarf_ioctl_command(c),
		     (void *)(uintptr_t)nizwarf_ioctl_argument(c), &file, c->flags, in, c->data.len, c->size);
}

/* The file system must free the handle by fuse_pollhandle_destroy. */
static void on_poll(fuse_req_t req, const nizwarf_call *c, const struct codec_message *m)
{
	struct fuse_file_info file = file_of(c);
	struct fuse_pollhandle *handle = NULL;

	(void)m;
	file.poll_events = nizwarf_poll_events(c);
	if (req->se->op.poll && c->flags & FUSE_POLL_SCHEDULE_NOTIFY) {
		handle = malloc(sizeof(*handle));
		if (!handle) {
			fuse_reply_err(req, ENOMEM);
			return;
		}
		handle->kh = nizwarf_poll_number(c);
		handle->se = req->se;
	}
	CALL(req, poll, c->node, &file, handle);
}

/* Serves the reply to a notice that has requested cached data. All but its front may be in a pipe. `reply`
 * frees the struct that it is called with. */
static void on_notify_reply(fuse_req_t req, const nizwarf_call *c, const struct codec_message *m)
{
	const struct fuse_in_header *in = (const void *)m->in;
	/* This must be read before `reply` is called, because `reply` ends the request. */
	const int is_longer = m->buf->size - m->len > c->size;
	struct fuse_session *se = req->se;
	struct fuse_notify_req *notify;
	struct fuse_buf buf = *m->buf;

	if (m->len == m->buf->size)
		buf.flags &= ~FUSE_BUF_IS_FD;
#ifndef HAVE_RETRIEVE_HEADER
	/* In libfuse 3.14, `reply` subtracts the header. */
	buf.size -= sizeof(*in);
#endif
	/* The struct is removed from the list first, so that a second reply with its number does not find
	 * it. */
	pthread_mutex_lock(&se->lock);
	for (notify = se->notify_list.next; notify != &se->notify_list; notify = notify->next)
		if (notify->unique == c->unique) {
			list_del_nreq(notify);
			break;
		}
	pthread_mutex_unlock(&se->lock);
	if (notify != &se->notify_list) {
		notify->reply(notify, req, c->node, in + 1, &buf);
		if (is_longer)
			fuse_ll_clear_pipe(se);
		return;
	}
	fuse_reply_none(req);
	if (m->len < m->buf->size)
		fuse_ll_clear_pipe(se);
}

/* ---- The session --------------------------------------------------------------------------------- */

/* libfuse negotiates the options, so its own function reads the record, which the codec has checked. The
 * record of an older client is padded with zeros, because libfuse reads the longest one. */
static void on_init(fuse_req_t req, const nizwarf_call *c, const struct codec_message *m)
{
	_Alignas(uint64_t) char record[NIZWARF_INIT_FRONT] = { 0 };
	const size_t len = m->len - sizeof(struct fuse_in_header);

	memcpy(record, m->in + sizeof(struct fuse_in_header), len < sizeof(record) ? len : sizeof(record));
	/* nizwarf_encode expects the client's extension options in this field, which an INIT does not use
	 * otherwise. */
	call_of(req)->other_offset = nizwarf_init_capable_at(
		(const uint8_t *)m->in, m->len < NIZWARF_INIT_FRONT ? m->len : NIZWARF_INIT_FRONT);
	/* This makes nizwarf_encode read the parameters of read_init (nizwarf_init_takes_params). */
	call_of(req)->more = 1;
	do_init(req, c->node, record);
}

static void on_destroy(fuse_req_t req, const nizwarf_call *c, const struct codec_message *m)
{
	/* As at the beginning, because a client that is not a kernel may send another INIT. */
	__atomic_store_n(&codec_session_of(req->se)->options, 0, __ATOMIC_RELAXED);
	do_destroy(req, c->node, m->in + m->len);
}

static codec_call *const codec_calls[] = {
	[NIZWARF_LOOKUP] = on_lookup,
	[NIZWARF_FORGET] = on_forget,
	[NIZWARF_GETATTR] = on_getattr,
	[NIZWARF_SETATTR] = on_setattr,
	[NIZWARF_READLINK] = on_readlink,
	[NIZWARF_SYMLINK] = on_symlink,
	[NIZWARF_MKNOD] = on_mknod,
	[NIZWARF_MKDIR] = on_mkdir,
	[NIZWARF_UNLINK] = on_unlink,
	[NIZWARF_RMDIR] = on_rmdir,
	[NIZWARF_RENAME] = on_rename,
	[NIZWARF_LINK] = on_link,
	[NIZWARF_OPEN] = on_open,
	[NIZWARF_READ] = on_read,
	[NIZWARF_WRITE] = on_write,
	[NIZWARF_STATFS] = on_statfs,
	[NIZWARF_RELEASE] = on_release,
	[NIZWARF_FSYNC] = on_fsync,
	[NIZWARF_SETXATTR] = on_setxattr,
	[NIZWARF_GETXATTR] = on_getxattr,
	[NIZWARF_LISTXATTR] = on_listxattr,
	[NIZWARF_REMOVEXATTR] = on_removexattr,
	[NIZWARF_FLUSH] = on_flush,
	[NIZWARF_INIT] = on_init,
	[NIZWARF_OPENDIR] = on_opendir,
	[NIZWARF_READDIR] = on_readdir,
	[NIZWARF_RELEASEDIR] = on_releasedir,
	[NIZWARF_FSYNCDIR] = on_fsyncdir,
	[NIZWARF_GETLK] = on_getlk,
	[NIZWARF_SETLK] = on_setlk,
	[NIZWARF_SETLKW] = on_setlk,
	[NIZWARF_ACCESS] = on_access,
	[NIZWARF_CREATE] = on_create,
	[NIZWARF_BMAP] = on_bmap,
	[NIZWARF_DESTROY] = on_destroy,
	[NIZWARF_IOCTL] = on_ioctl,
	[NIZWARF_POLL] = on_poll,
	[NIZWARF_NOTIFY_REPLY] = on_notify_reply,
	[NIZWARF_BATCH_FORGET] = on_batch_forget,
	[NIZWARF_FALLOCATE] = on_fallocate,
	[NIZWARF_LSEEK] = on_lseek,
	[NIZWARF_COPY] = on_copy,
#ifdef HAVE_TMPFILE
	[NIZWARF_TMPFILE] = on_tmpfile,
#endif
#ifdef HAVE_STATX_OP
	[NIZWARF_STATX] = on_statx,
#endif
	[NIZWARF_COPY_64] = on_copy,
};

/* ---- Decoding ------------------------------------------------------------------------------------ */

/* Reads bytes from the pipe that has a message, and advances `pipe`. Returns 0 if that fails. There are
 * enough bytes, because libfuse counted them when it filled the pipe. */
static int read_pipe(struct fuse_bufvec *pipe, char *to, size_t len)
{
	struct fuse_bufvec memory = FUSE_BUFVEC_INIT(len);

	memory.buf[0].mem = to;
	return fuse_ll_copy_from_pipe(&memory, pipe) >= 0;
}

/* Waits for memory if a message forgets lookups, because the client does not send such a message again, and
 * the file system would never learn of it. Returns 0 for any other message, and after too many calls. */
static int wait_for_memory(const struct codec_message *m, int *tries)
{
	const struct fuse_in_header *in = (const void *)m->in;

	return in && m->len >= sizeof(*in) &&
	       (in->opcode == FUSE_FORGET || in->opcode == FUSE_BATCH_FORGET) && codec_pause(tries);
}

/* Returns whether the data after the front of a message may stay in a pipe. The front must be in memory. The
 * codec receives segments of placeholders for the data, of which it only uses the length. */
static int may_stay_in_pipe(const struct fuse_session *se, const struct codec_message *m)
{
	const struct fuse_in_header *in = (const void *)m->in;

	if (m->len < sizeof(*in) || m->buf->size - m->len > (size_t)(MAX_SEGMENTS - 1) * PLACEHOLDER)
		return 0;
	return (in->opcode == FUSE_WRITE && se->op.write_buf) || in->opcode == FUSE_NOTIFY_REPLY;
}

/* Reads a message from a pipe: its front, or all of it into `*whole`, which the caller must free. Returns 0
 * if the message is lost. The front has WRITE_FRONT bytes or the whole message, if that is shorter. This
 * includes the header and the record of a WRITE or a NOTIFY_REPLY. */
static int read_message(struct fuse_session *se, struct codec_message *m, char *front, char **whole)
{
	struct fuse_bufvec pipe = { .count = 1, .buf[0] = *m->buf };
	const size_t size = m->buf->size, len = size < WRITE_FRONT ? size : WRITE_FRONT;
	int tries = 0;

	/* These must be set even if the message is lost, because the error is replied by its header. */
	m->in = front;
	m->len = 0;
	if (!read_pipe(&pipe, front, len))
		return 0;
	m->len = len;
	if (len == size || may_stay_in_pipe(se, m))
		return 1;
	do
		*whole = malloc(size);
	/* The front has the header, which wait_for_memory reads. */
	while (!*whole && wait_for_memory(m, &tries));
	if (!*whole || !read_pipe(&pipe, *whole + len, size - len))
		return 0;
	/* Only now, so that an incomplete message is never used. */
	memcpy(*whole, front, len);
	m->in = *whole;
	m->len = size;
	return 1;
}

/* Returns whether a request is an optional operation, because the codec uses the features for no others. A
 * message that is shorter than a header counts as one, because the codec rejects it in any case. Opcodes from
 * 64 on are none. */
static inline int is_optional(const struct codec_message *m)
{
	const uint64_t optional = UINT64_C(1) << FUSE_GETLK | UINT64_C(1) << FUSE_SETLK |
				  UINT64_C(1) << FUSE_SETLKW | UINT64_C(1) << FUSE_BMAP |
				  UINT64_C(1) << FUSE_IOCTL | UINT64_C(1) << FUSE_POLL |
				  UINT64_C(1) << FUSE_NOTIFY_REPLY | UINT64_C(1) << NIZWARF_TMPFILE |
				  UINT64_C(1) << NIZWARF_STATX | UINT64_C(1) << NIZWARF_COPY_64;
	const struct fuse_in_header *in = (const void *)m->in;

	return m->len < sizeof(*in) || (in->opcode < 64 && optional >> in->opcode & 1);
}

/* Decodes a message that is an optional operation, or has data in a pipe. */
static __attribute__((noinline)) int32_t decode_parts(struct codec_thread *t, const nizwarf_session *session,
						      size_t reply_size, const struct codec_message *m,
						      nizwarf_call *call, nizwarf_result *result)
{
	struct iovec segments[MAX_SEGMENTS];
	size_t left = m->buf->size - m->len, count = 1;

	/* The casts remove const, which struct iovec does not have: the codec only reads a request. */
	segments[0].iov_base = (void *)(uintptr_t)m->in;
	segments[0].iov_len = m->len;
	for (; left; left -= segments[count++].iov_len) {
		/* All segments may be the same, because their bytes are not read. */
		segments[count].iov_base = (void *)(uintptr_t)codec_placeholder;
		segments[count].iov_len = left < PLACEHOLDER ? left : PLACEHOLDER;
	}
	return nizwarf_decode_at(&t->scratch, session, is_optional(m) ? CODEC_FEATURES : 0, segments, count,
				 reply_size, call, result);
}

/* Returns the size of the reply buffer that a message is decoded with, in bytes. The scratch memory grows to
 * this size, unless the message is a READ. So the size is that of the largest reply without a text, and for a
 * listing the requested size in addition. */
static inline size_t reply_size_for(const nizwarf_session *session, const struct codec_message *m)
{
	/* This cannot overflow, because it is the sum of 32 bits and 4096. */
	const size_t most = session->max_buffer + FUSE_BUFFER_HEADER_SIZE;
	const struct fuse_in_header *in = (const void *)m->in;
	uint32_t size;

	if (m->len < sizeof(*in) + sizeof(struct fuse_read_in))
		return SMALL_REPLY;
	if (in->opcode == FUSE_READ)
		return most;
	if (in->opcode != FUSE_READDIR && in->opcode != FUSE_READDIRPLUS)
		return SMALL_REPLY;
	/* A READDIR has the record of a READ. */
	memcpy(&size, m->in + sizeof(*in) + offsetof(struct fuse_read_in, size), sizeof(size));
	/* A client may request any size, but Linux requests no more than was negotiated. */
	return size < most - SMALL_REPLY ? SMALL_REPLY + size : most;
}

/* Decodes a message. Returns NIZWARF_CALL if `call` was filled in, NIZWARF_OK if the request needs no file
 * system and its reply is in the scratch memory, and any other code if the request is rejected. */
static inline int32_t decode(struct codec_thread *t, struct fuse_session *se, const struct codec_message *m,
			     nizwarf_call *call, nizwarf_result *result)
{
	const nizwarf_session session = session_of(se);
	/* The cast removes const, as in decode_parts. */
	const struct iovec segment = { (void *)(uintptr_t)m->in, m->len };
	const size_t reply_size = reply_size_for(&session, m);

	clear_result(result, session.options);
	if (unlikely(m->len != m->buf->size || is_optional(m)))
		return decode_parts(t, &session, reply_size, m, call, result);
	return nizwarf_decode_at(&t->scratch, &session, 0, &segment, 1, reply_size, call, result);
}

/* Clears the call, so that the reply is a header alone. */
static void clear_call(fuse_req_t req)
{
	call_of(req)->opcode = 0;
	call_of(req)->reply = NIZWARF_REPLY_NONE;
}

/* Rejects a request: replies an error number if the client waits for a reply, and ends the request. */
static void reject(fuse_req_t req, const struct codec_message *m, int error)
{
	const struct fuse_in_header *in = (const void *)m->in;

	clear_call(req);
	if (m->len < sizeof(*in) || in->opcode == FUSE_FORGET || in->opcode == FUSE_BATCH_FORGET ||
	    in->opcode == FUSE_INTERRUPT || in->opcode == FUSE_NOTIFY_REPLY) {
		fuse_reply_none(req);
		return;
	}
	req->unique = in->unique;
	fuse_reply_err(req, error);
}

/* Ends a request that needs no file system. */
static void finish(fuse_req_t req, struct codec_thread *t, const struct codec_message *m,
		   const nizwarf_result *result)
{
	const struct fuse_in_header *in = (const void *)m->in;
	_Alignas(struct fuse_out_header) uint8_t reply[LONGEST_FINISHED];
	struct iovec iov[1];

	clear_call(req);
	/* The number must be read from the header, because there is no call. */
	req->unique = m->len < sizeof(*in) ? 0 : in->unique;
	/* The interrupt stays pending, or has already ended. */
	if (result->interrupts && has_interrupts(req->se)) {
		handle_interrupt(req, result->interrupts);
		return;
	}
	if (result->interrupts) {
		/* Linux sends no more interrupts after this. */
		fuse_reply_err(req, ENOSYS);
		return;
	}
	/* For example, the reply to an unknown opcode is ENOSYS. */
	if (result->len) {
		iov[0].iov_base = reply;
		iov[0].iov_len = nizwarf_scratch_copy_at(&t->scratch, 0, reply,
							 result->written < sizeof(reply) ? result->written :
											   sizeof(reply));
		fuse_send_msg(req->se, req->ch, iov, 1 SEND_OF(req));
	}
	fuse_reply_none(req);
}

/* With -o allow_root, users other than the owner and root may only go on using files that are open. These are
 * the opcodes that libfuse allows. */
static inline int is_denied(const struct fuse_session *se, const nizwarf_call *c)
{
	if (likely(!se->deny_others) || c->uid == se->owner || c->uid == 0)
		return 0;
	switch (c->opcode) {
	case NIZWARF_INIT:
	case NIZWARF_READ:
	case NIZWARF_WRITE:
	case NIZWARF_FSYNC:
	case NIZWARF_RELEASE:
	case NIZWARF_READDIR:
	case NIZWARF_FSYNCDIR:
	case NIZWARF_RELEASEDIR:
	case NIZWARF_NOTIFY_REPLY:
		return 0;
	default:
		return 1;
	}
}

/* Returns whether a request arrives before an INIT, or is a second INIT. Both fail with EIO. */
static inline int is_early(const struct fuse_session *se, const nizwarf_call *c)
{
	return se->got_init == (c->opcode == NIZWARF_INIT);
}

/* Makes the call of a request. */
static inline void make_call(struct fuse_session *se, fuse_req_t req, const struct codec_message *m)
{
	const size_t count = sizeof(codec_calls) / sizeof(*codec_calls);
	const nizwarf_call *c = call_of(req);

#ifdef HAVE_TRACE_PROCESS
	/* The probe of libfuse 3.18 for a request that begins. */
	trace_request_process(((const struct fuse_in_header *)(const void *)m->in)->opcode,
			      (unsigned int)c->unique);
#endif
	req->unique = c->unique;
	req->ctx.uid = c->uid;
	req->ctx.gid = c->gid;
	req->ctx.pid = c->pid;
	/* Calls that have a umask set it. */
	req->ctx.umask = 0;
	/* This is done here because there are calls whenever there are interrupts. */
	if (unlikely(count_pending(se)))
		reject_oldest(se);
	/* An older libfuse has no function for some optional operations. */
	if (likely(c->opcode < count && codec_calls[c->opcode]))
		codec_calls[c->opcode](req, c, m);
	else
		REPLY_ENOSYS(req);
}

/* Removes the remaining bytes of a message from the pipe, because they would be read as the next message. */
static void clear_pipe(struct fuse_session *se, const struct codec_message *m)
{
	if (m->buf->flags & FUSE_BUF_IS_FD)
		fuse_ll_clear_pipe(se);
}

/* Prints a request for the option -d, without its data. */
static __attribute__((noinline)) void print_request(const struct codec_message *m, uint64_t options)
{
	char line[512];

	nizwarf_print_request(m->in, m->len, options, line, sizeof(line));
	fuse_log(FUSE_LOG_DEBUG, "%s\n", line);
}

/* Ends a request that does not reach the file system. `code` is the result of decoding. A request that was
 * decoded is rejected if it arrives too early (EIO) or from another user (EACCES). */
static __attribute__((noinline)) void end_undispatched(fuse_req_t req, struct codec_thread *t,
						       const struct codec_message *m,
						       const nizwarf_result *result, int32_t code)
{
	struct fuse_session *se = req->se;

	if (code == NIZWARF_OK)
		finish(req, t, m, result);
	else if (code != NIZWARF_CALL)
		reject(req, m, code == NIZWARF_OUT_OF_MEMORY ? ENOMEM : EIO);
	else if (is_early(se, call_of(req)))
		reject(req, m, EIO);
	else
		reject(req, m, EACCES);
	clear_pipe(se, m);
}

/* Decodes again as long as there is no memory, if the message is one to wait for. */
static __attribute__((noinline)) int32_t decode_again(struct codec_thread *t, struct fuse_session *se,
						      const struct codec_message *m, nizwarf_call *call,
						      nizwarf_result *result)
{
	int32_t code = NIZWARF_OUT_OF_MEMORY;
	int tries = 0;

	while (code == NIZWARF_OUT_OF_MEMORY && wait_for_memory(m, &tries))
		code = decode(t, se, m, call, result);
	return code;
}

/* Serves a message. The request must not be used after this. */
static inline void serve(struct fuse_session *se, fuse_req_t req, struct codec_thread *t,
			 const struct codec_message *m)
{
	nizwarf_call *call = call_of(req);
	nizwarf_result result;
	int32_t code;

	code = decode(t, se, m, call, &result);
	if (unlikely(code == NIZWARF_OUT_OF_MEMORY))
		code = decode_again(t, se, m, call, &result);
	if (unlikely(se->debug))
		print_request(m, session_of(se).options);
	if (unlikely(code != NIZWARF_CALL || is_early(se, call) || is_denied(se, call)))
		end_undispatched(req, t, m, &result, code);
	else
		make_call(se, req, m);
}

/* Begins a character device, whose first request the codec does not know. */
static void begin_cuse(fuse_req_t req, const struct codec_message *m)
{
	const struct fuse_in_header *in = (const void *)m->in;
	struct fuse_session *se = req->se;

	/* libfuse's function reads the whole record. */
	if (m->len < sizeof(*in) + sizeof(struct cuse_init_in) || in->opcode != CUSE_INIT) {
		reject(req, m, EIO);
		clear_pipe(se, m);
		return;
	}
	req->unique = in->unique;
	cuse_lowlevel_init(req, in->nodeid, in + 1);
}

/* Replies ENOMEM to a message for which no request could be allocated, so that libfuse's functions cannot be
 * used. */
static void send_enomem(struct fuse_session *se, struct fuse_chan *ch, const struct codec_message *m)
{
	const struct fuse_in_header *in = (const void *)m->in;
	struct fuse_out_header out = { .error = -ENOMEM };
	struct iovec iov[1] = { { &out, sizeof(out) } };

	if (!m->in || m->len < sizeof(*in) || in->opcode == FUSE_FORGET || in->opcode == FUSE_BATCH_FORGET ||
	    in->opcode == FUSE_INTERRUPT || in->opcode == FUSE_NOTIFY_REPLY)
		return;
	out.unique = in->unique;
	fuse_send_msg(se, ch, iov, 1 SEND_OF(NULL));
}

/* Waits for the memory of a request. Returns NULL after it has replied ENOMEM, if the message is not one to
 * wait for, or if there is still no memory. `received` is 0 if there was no memory for the message itself. */
static __attribute__((noinline)) struct fuse_req *wait_for_req(struct fuse_session *se, struct fuse_chan *ch,
							       const struct codec_message *m, int received)
{
	struct fuse_req *req = NULL;
	int tries = 0;

	while (received && !req && wait_for_memory(m, &tries))
		req = codec_new_req(se);
	if (!req) {
		send_enomem(se, ch, m);
		clear_pipe(se, m);
	}
	return req;
}

/* Replaces libfuse's fuse_session_process_buf, which any thread may call with a message that it has received.
 * The caller may reuse the buffer after this returns, so a call that replies later must have copied its
 * arguments. */
void PROCESS_BUF(struct fuse_session *se, const struct fuse_buf *buf, struct fuse_chan *ch)
{
	struct codec_message m = { .buf = buf, .in = buf->mem, .len = buf->size };
	const int in_pipe = buf->flags & FUSE_BUF_IS_FD;
	_Alignas(struct fuse_in_header) char front[WRITE_FRONT]; /* for messages in a pipe */
	struct fuse_req *req = NULL;
	char *whole = NULL;
	int received = 1;

	if (unlikely(in_pipe))
		received = read_message(se, &m, front, &whole);
	if (likely(received))
		req = codec_new_req(se);
	if (unlikely(!req))
		req = wait_for_req(se, ch, &m, received);
	if (likely(req)) {
		if (ch)
			/* The channel must stay valid until the request has ended. */
			req->ch = fuse_chan_get(ch);
		/* This is the first request of a character device. */
		if (unlikely(se->cuse_data) && !se->got_init)
			begin_cuse(req, &m);
		else
			serve(se, req, codec_this_thread, &m);
	}
	if (unlikely(in_pipe))
		free(whole);
}
