/* The functions of nizwarf_ops.h: they make the call of a request by a table of functions, and encode its
 * answer. */
#include <string.h>
#include "internal.h"
#include "nizwarf_ops.h"

struct nizwarf_dir {
	const nizwarf_ops *ops;
	const nizwarf_req *req;
	nizwarf_dirent *items;
	size_t len, most;
	/* The place for the next name, and the number of bytes that are left for records. */
	uint8_t *names;
	size_t left;
	/* Not of a listing: the parameters of an INIT, until its answer is encoded. */
	nizwarf_init_params params;
};

uint64_t nizwarf_served(const nizwarf_ops *ops, uint64_t options)
{
	options &= ~(UINT64_C(1) << 33);
	if (!ops->getlk || !ops->setlk)
		options &= ~(UINT64_C(1) << 1);
	if (!ops->flock)
		options &= ~(UINT64_C(1) << 10);
	if (!ops->ioctl)
		options &= ~(UINT64_C(1) << 11);
	if (!ops->open)
		options &= ~NIZWARF_WANT_ATOMIC_O_TRUNC;
	if (!ops->readdirplus)
		options &= ~(uint64_t)NIZWARF_WANT_READDIRPLUS;
	if (!ops->write)
		options &= ~(UINT64_C(1) << 16);
	if (!ops->setxattr)
		options &= ~(UINT64_C(1) << 29);
	return options;
}

uint32_t nizwarf_features_of(const nizwarf_ops *ops)
{
	uint32_t features = 0;

	if ((ops->getlk && ops->setlk) || ops->flock)
		features |= NIZWARF_FEATURE_LOCKS;
	if (ops->bmap)
		features |= NIZWARF_FEATURE_BMAP;
	if (ops->ioctl)
		features |= NIZWARF_FEATURE_IOCTL;
	if (ops->poll)
		features |= NIZWARF_FEATURE_POLL;
	if (ops->statx)
		features |= NIZWARF_FEATURE_STATX;
	if (ops->copy_file_range)
		features |= NIZWARF_FEATURE_COPY_64;
	if (ops->tmpfile)
		features |= NIZWARF_FEATURE_TMPFILE;
	if (ops->retrieve_reply)
		features |= NIZWARF_FEATURE_NOTIFY_REPLY;
	if (ops->conn)
		features |= NIZWARF_FEATURE_INIT;
	return features;
}

/* Returns whether a name is `.` or `..`, for which a listing counts no lookup. */
static int is_dot(const char *name)
{
	return !strcmp(name, ".") || !strcmp(name, "..");
}

/* Forgets one lookup of a node. Node 0 has none. */
static void give_back(const nizwarf_dir *dir, uint64_t ino)
{
	if (ino && dir->ops->forget)
		dir->ops->forget(dir->req, ino, 1);
}

/* Adds a directory entry with a copy of its name in the reply buffer, and without an error; the caller
 * must set the other fields. Returns NULL if the entries or the bytes of their records have no space
 * left. A record is longer than the name in it, so names that fit as records fit as names, and the reply
 * is encoded from them before it overwrites them. */
static nizwarf_dirent *add_item(nizwarf_dir *dir, const char *name, int plus)
{
	const size_t name_size = strlen(name) + 1;
	const size_t size = record_size(name_size, plus);
	nizwarf_dirent *item;

	if (dir->len == dir->most || size > dir->left)
		return NULL;
	item = dir->items + dir->len;
	item->name = dir->names;
	item->name_size = name_size;
	item->error = 0;
	memcpy(dir->names, name, name_size);
	dir->names += name_size;
	dir->left -= size;
	dir->len++;
	return item;
}

int nizwarf_add_direntry(nizwarf_dir *dir, const char *name, uint64_t ino, uint32_t type, uint64_t off)
{
	nizwarf_dirent *item = add_item(dir, name, 0);

	if (!item)
		return 0;
	item->ino = ino;
	item->offset = off;
	item->type = type;
	memset(&item->entry, 0, sizeof(item->entry));
	return 1;
}

int nizwarf_add_direntry_plus(nizwarf_dir *dir, const char *name, const nizwarf_entry_param *e, uint64_t off)
{
	const uint64_t held = is_dot(name) ? 0 : e->ino;
	const int plus = (dir->req->call->has & NIZWARF_PLUS) != 0;
	nizwarf_dirent *item = add_item(dir, name, plus);

	if (item) {
		item->ino = e->attr.ino;
		item->offset = off;
		/* (the type of a file, S_IFMT of its mode, as DT_REG ..) */
		item->type = e->attr.mode >> 12 & 15;
		item->entry = entry_of(e);
		item->entry.node = plus ? held : 0;
	}
	if (!item || !plus)
		give_back(dir, held);
	return item != NULL;
}

/* From here to nizwarf_serve_ops: how the table makes a call, by the kind of its answer. A NULL function
 * is ENOSYS. A name is a range of the request; the codec has checked that it lies there and ends with its
 * only NUL. */
#define CALL_OP(op, ...) (ops->op ? ops->op(req, __VA_ARGS__) : ENOSYS)
#define NAME_AT(range) ((const char *)req->request + (range).at)

/* Returns whether `flags` of the call are those of open(2). */
static int has_open_flags(uint32_t call)
{
	switch (call) {
	case NIZWARF_SETATTR:
	case NIZWARF_GETLK:
	case NIZWARF_SETLK:
	case NIZWARF_SETLKW:
	case NIZWARF_IOCTL:
	case NIZWARF_POLL:
	case NIZWARF_STATX:
		return 0;
	default:
		return 1;
	}
}

/* Returns the open file of a call. Fields that the call does not have are 0. */
static nizwarf_file_info file_of(const nizwarf_call *call)
{
	nizwarf_file_info fi;

	fi.fh = call->handle;
	/* (in these two calls the fields have another meaning) */
	fi.lock_owner =
		call->opcode == NIZWARF_COPY || call->opcode == NIZWARF_COPY_64 ? 0 : call->lock_owner;
	fi.flags = has_open_flags(call->opcode) ? call->flags : 0;
	fi.open_flags = 0;
	fi.backing_id = fi.padding = 0;
	return fi;
}

/* BATCH_FORGET. The codec has checked that the request has as many pairs as it says; each is two numbers
 * of 8 bytes, as in a nizwarf_forget. There may be many, so they are passed on in several calls. */
static void do_forgets(const nizwarf_ops *ops, const nizwarf_req *req)
{
	const uint64_t count = nizwarf_batch_forget_pairs(req->call);
	const uint8_t *pairs = req->request + req->call->data.at;
	nizwarf_forget forgets[NIZWARF_MAX_FORGETS];
	uint64_t done;
	size_t some, i;

	for (done = 0; done < count; done += some) {
		some = count - done < NIZWARF_MAX_FORGETS ? (size_t)(count - done) :
							    (size_t)NIZWARF_MAX_FORGETS;
		memcpy(forgets, pairs + sizeof(*forgets) * done, sizeof(*forgets) * some);
		if (ops->forget_multi)
			ops->forget_multi(req, some, forgets);
		else if (ops->forget)
			for (i = 0; i < some; i++)
				ops->forget(req, forgets[i].ino, forgets[i].nlookup);
	}
}

/* Calls without a reply, and so without an error: DESTROY, FORGET, BATCH_FORGET and NOTIFY_REPLY. */
static int do_quiet(const nizwarf_ops *ops, const nizwarf_req *req)
{
	const nizwarf_call *c = req->call;

	if (c->opcode == NIZWARF_DESTROY && ops->destroy)
		ops->destroy(req);
	if (c->opcode == NIZWARF_FORGET && ops->forget)
		ops->forget(req, c->node, nizwarf_forget_lookups(c));
	if (c->opcode == NIZWARF_BATCH_FORGET)
		do_forgets(ops, req);
	if (c->opcode == NIZWARF_NOTIFY_REPLY && ops->retrieve_reply)
		ops->retrieve_reply(req, c->unique, c->node, c->offset, req->request + c->data.at,
				    (size_t)c->data.len);
	return 0;
}

/* SETLK and SETLKW, for both kinds of locks. A flag says that the lock is one of flock(2), on a whole
 * file; its type is one of fcntl(2) even then. */
static int do_lock(const nizwarf_ops *ops, const nizwarf_req *req)
{
	const nizwarf_call *c = req->call;
	const nizwarf_file_info fi = file_of(c);
	const nizwarf_lock lock = nizwarf_lock_of(c);
	const int sleep = c->opcode == NIZWARF_SETLKW;
	int op = LOCK_UN;

	if (!(c->has & NIZWARF_LK_FLOCK))
		return CALL_OP(setlk, c->node, &fi, &lock, sleep);
	if (lock.type != F_UNLCK)
		op = (lock.type == F_RDLCK ? LOCK_SH : LOCK_EX) | (sleep ? 0 : LOCK_NB);
	return CALL_OP(flock, c->node, &fi, op);
}

/* Calls whose answer is an error or 0. A release without a function succeeds, as the open did. */
static int do_done(const nizwarf_ops *ops, const nizwarf_req *req)
{
	const nizwarf_call *c = req->call;
	const nizwarf_file_info fi = file_of(c);
	const char *name = NAME_AT(c->name);
	const int datasync = (c->has & NIZWARF_FSYNC_FDATASYNC) != 0;

	switch (c->opcode) {
	case NIZWARF_UNLINK:
		return CALL_OP(unlink, c->node, name);
	case NIZWARF_RMDIR:
		return CALL_OP(rmdir, c->node, name);
	case NIZWARF_RENAME:
		return CALL_OP(rename, c->node, name, c->other_node, NAME_AT(c->other_name), c->flags);
	case NIZWARF_RELEASE:
		return ops->release ? ops->release(req, c->node, &fi) : 0;
	case NIZWARF_FSYNC:
		return CALL_OP(fsync, c->node, datasync, &fi);
	case NIZWARF_SETXATTR:
		return CALL_OP(setxattr, c->node, name, req->request + c->data.at, (size_t)c->data.len,
			       c->flags);
	case NIZWARF_REMOVEXATTR:
		return CALL_OP(removexattr, c->node, name);
	case NIZWARF_FLUSH:
		return CALL_OP(flush, c->node, &fi);
	case NIZWARF_RELEASEDIR:
		return ops->releasedir ? ops->releasedir(req, c->node, &fi) : 0;
	case NIZWARF_FSYNCDIR:
		return CALL_OP(fsyncdir, c->node, datasync, &fi);
	case NIZWARF_ACCESS:
		return CALL_OP(access, c->node, nizwarf_access_mask(c));
	case NIZWARF_FALLOCATE:
		return CALL_OP(fallocate, c->node, c->mode, c->offset, c->length, &fi);
	case NIZWARF_SYNCFS:
		return CALL_OP(syncfs, c->node);
	case NIZWARF_SETLK:
	case NIZWARF_SETLKW:
		return do_lock(ops, req);
	default:
		return ENOSYS;
	}
}

/* Calls that return a directory entry. With an error the entry is ignored. */
static int do_entry(const nizwarf_ops *ops, const nizwarf_req *req, nizwarf_answer *answer)
{
	const nizwarf_call *c = req->call;
	const char *name = NAME_AT(c->name);
	nizwarf_entry_param e;
	int error = ENOSYS;

	memset(&e, 0, sizeof(e));
	switch (c->opcode) {
	case NIZWARF_LOOKUP:
		error = CALL_OP(lookup, c->node, name, &e);
		break;
	case NIZWARF_SYMLINK:
		error = CALL_OP(symlink, NAME_AT(nizwarf_symlink_text(c)), c->node, name, &e);
		break;
	case NIZWARF_MKNOD:
		error = CALL_OP(mknod, c->node, name, c->mode, c->rdev, &e);
		break;
	case NIZWARF_MKDIR:
		error = CALL_OP(mkdir, c->node, name, c->mode, &e);
		break;
	case NIZWARF_LINK:
		error = CALL_OP(link, c->node, c->other_node, name, &e);
		break;
	}
	answer->entry = entry_of(&e);
	return error;
}

/* GETATTR and SETATTR, which return attributes and how long they are valid. */
static int do_attr(const nizwarf_ops *ops, const nizwarf_req *req, nizwarf_answer *answer)
{
	const nizwarf_call *c = req->call;
	const nizwarf_file_info fi = file_of(c);
	const nizwarf_file_info *open = c->has & NIZWARF_HAS_HANDLE ? &fi : NULL;
	struct timespec timeout = { 0, 0 };
	int error = ENOSYS;

	if (c->opcode == NIZWARF_GETATTR)
		error = CALL_OP(getattr, c->node, open, &answer->entry.attr, &timeout);
	else if (c->opcode == NIZWARF_SETATTR)
		error = CALL_OP(setattr, c->node, &c->attr, nizwarf_setattr_fields(c), open,
				&answer->entry.attr, &timeout);
	answer->entry.attr_seconds = seconds_of(timeout);
	answer->entry.attr_nanoseconds = nanoseconds_of(timeout);
	return error;
}

/* OPEN and OPENDIR, which succeed if they are not in the table, CREATE and TMPFILE. The answer always has
 * a handle, which tells do_release that something was opened. */
static int do_open(const nizwarf_ops *ops, const nizwarf_req *req, nizwarf_answer *answer)
{
	const nizwarf_call *c = req->call;
	nizwarf_file_info fi = file_of(c);
	nizwarf_entry_param e;
	int error = 0;

	memset(&e, 0, sizeof(e));
	if (c->opcode == NIZWARF_CREATE)
		error = CALL_OP(create, c->node, NAME_AT(c->name), c->mode, &fi, &e);
	else if (c->opcode == NIZWARF_TMPFILE)
		error = CALL_OP(tmpfile, c->node, c->mode, &fi, &e);
	else if (c->opcode == NIZWARF_OPENDIR)
		error = ops->opendir ? ops->opendir(req, c->node, &fi) : 0;
	else if (ops->open)
		error = ops->open(req, c->node, &fi);
	answer->entry = entry_of(&e);
	answer->has_handle = 1;
	answer->handle = fi.fh;
	answer->open_flags = fi.open_flags;
	nizwarf_answer_backing(answer, fi.backing_id);
	return error;
}

/* READ, and calls that return bytes, which are stored at their place in the reply buffer. A function must
 * not return more bytes than it was asked for: otherwise the call fails, and nothing after them is sent.
 * If the size of an attribute is 0, only its length is returned. */
static int do_data(const nizwarf_ops *ops, const nizwarf_req *req, uint8_t *reply, size_t space,
		   nizwarf_answer *answer)
{
	const nizwarf_call *c = req->call;
	const nizwarf_file_info fi = file_of(c);
	const size_t most = c->opcode == NIZWARF_READLINK ? (size_t)NIZWARF_MAX_LINK : c->size;
	const size_t size = most < space ? most : space;
	size_t len = 0;
	int error = ENOSYS;

	switch (c->opcode) {
	case NIZWARF_READ:
		error = CALL_OP(read, c->node, size, c->offset, &fi, reply, &len);
		break;
	case NIZWARF_READLINK:
		error = CALL_OP(readlink, c->node, (char *)reply, size, &len);
		break;
	case NIZWARF_GETXATTR:
		error = CALL_OP(getxattr, c->node, NAME_AT(c->name), size, reply, &len);
		break;
	case NIZWARF_LISTXATTR:
		error = CALL_OP(listxattr, c->node, size, (char *)reply, &len);
		break;
	}
	answer->count = len;
	if (c->reply == NIZWARF_REPLY_BYTES_OR_SIZE && !c->size) {
		answer->has_count = 1;
	} else if (len > size) {
		if (!error)
			error = c->reply == NIZWARF_REPLY_BYTES_OR_SIZE ? ERANGE : EIO;
	} else if (c->opcode != NIZWARF_READ) {
		/* (the data of a READ are at their place already, and are no text) */
		answer->text = reply;
		answer->text_len = len;
	}
	return error;
}

/* Calls that return a record. It is filled in here and copied to its place in the reply buffer, which may
 * not be aligned. The output of an IOCTL follows its record. With an error nothing is copied, because a
 * call that is answered later may have its reply in that buffer already. */
static int do_record(const nizwarf_ops *ops, const nizwarf_req *req, uint8_t *reply, size_t space,
		     nizwarf_answer *answer)
{
	const nizwarf_call *c = req->call;
	const nizwarf_file_info fi = file_of(c);
	nizwarf_lock lock = nizwarf_lock_of(c);
	struct timespec timeout = { 0, 0 };
	nizwarf_ioctl out = { 0, 0, 0, 0 };
	nizwarf_statx statx;
	size_t len = 0, size;
	int error;

	memset(&statx, 0, sizeof(statx));
	answer->text = reply;
	switch (c->opcode) {
	case NIZWARF_GETLK:
		if (space < sizeof(lock))
			return EIO;
		answer->text_len = sizeof(lock);
		error = CALL_OP(getlk, c->node, &fi, &lock);
		if (!error)
			memcpy(reply, &lock, sizeof(lock));
		return error;
	case NIZWARF_STATX:
		if (space < sizeof(statx))
			return EIO;
		answer->text_len = sizeof(statx);
		error = CALL_OP(statx, c->node, c->flags, nizwarf_statx_mask(c),
				c->has & NIZWARF_HAS_HANDLE ? &fi : NULL, &statx, &timeout);
		statx.attr_seconds = seconds_of(timeout);
		statx.attr_nanoseconds = nanoseconds_of(timeout);
		if (!error)
			memcpy(reply, &statx, sizeof(statx));
		return error;
	case NIZWARF_IOCTL:
		if (space < sizeof(out))
			return EIO;
		size = c->size < space - sizeof(out) ? c->size : space - sizeof(out);
		error = CALL_OP(ioctl, c->node, nizwarf_ioctl_command(c), nizwarf_ioctl_argument(c), &fi,
				c->flags, req->request + c->data.at, (size_t)c->data.len, &out,
				reply + sizeof(out), size, &len);
		if (!error)
			memcpy(reply, &out, sizeof(out));
		answer->text_len = sizeof(out) + (len < size ? len : size);
		return !error && len > size ? EIO : error;
	default:
		return ENOSYS;
	}
}

/* READDIR, with or without PLUS: as many entries as the request and the reply buffer have space for. An
 * entry that does not fit ends the listing, and the client asks for it again. With an error the entries
 * that were added are forgotten. */
static int do_directory(const nizwarf_ops *ops, const nizwarf_req *req, nizwarf_dir *dir,
			nizwarf_answer *answer)
{
	const nizwarf_call *c = req->call;
	const nizwarf_file_info fi = file_of(c);
	int error;

	dir->left = c->size < dir->left ? c->size : dir->left;
	if (!dir->most)
		error = EIO;
	else if (c->has & NIZWARF_PLUS)
		error = CALL_OP(readdirplus, c->node, c->offset, &fi, dir);
	else
		error = CALL_OP(readdir, c->node, c->offset, &fi, dir);
	answer->items = dir->items;
	answer->items_len = dir->len;
	return error;
}

/* WRITE and both copies, which return a number of bytes, and POLL, which returns events. More bytes than
 * requested are EIO, because the kernel would believe that they were written. */
static int do_written(const nizwarf_ops *ops, const nizwarf_req *req, nizwarf_answer *answer)
{
	const nizwarf_call *c = req->call;
	const nizwarf_file_info fi = file_of(c);
	nizwarf_file_info out = fi;
	uint64_t size = c->size < c->data.len ? c->size : c->data.len;
	uint32_t revents = 0;
	size_t len = 0;
	int error = ENOSYS;

	out.fh = c->other_handle;
	if (c->opcode == NIZWARF_POLL) {
		error = CALL_OP(poll, c->node, &fi, nizwarf_poll_events(c), nizwarf_poll_number(c),
				(int)(c->flags & 1), &revents);
		answer->count = revents;
		return error;
	}
	if (c->opcode == NIZWARF_COPY || c->opcode == NIZWARF_COPY_64)
		size = c->length;
	/* (the reply to opcode 47 has 32 bits for the count, that to 53 has 64) */
	if (c->opcode == NIZWARF_COPY && size > NIZWARF_MAX_COPY)
		size = NIZWARF_MAX_COPY;
	if (c->opcode == NIZWARF_WRITE)
		error = CALL_OP(write, c->node, req->request + c->data.at, (size_t)size, c->offset, &fi,
				&len);
	else if (c->opcode == NIZWARF_COPY || c->opcode == NIZWARF_COPY_64)
		error = CALL_OP(copy_file_range, c->node, c->offset, &fi, c->other_node, c->other_offset,
				&out, size, nizwarf_copy_flags(c), &len);
	answer->count = len;
	return !error && len > size ? EIO : error;
}

/* INIT, which returns the options that are wanted, and with `conn` other parameters too. */
static int do_init(const nizwarf_ops *ops, const nizwarf_req *req, nizwarf_init_params *more,
		   nizwarf_answer *answer)
{
	const uint64_t capable = nizwarf_init_capable(req->call), further = nizwarf_init_ext_flags(req->call);
	const uint64_t high = UINT64_C(0xffffffff) << 32;
	uint64_t want = capable & nizwarf_served(ops, NIZWARF_WANT_DEFAULT | NIZWARF_WANT_READDIRPLUS);
	nizwarf_conn_info conn;
	int error = 0;

	if (ops->conn) {
		memset(&conn, 0, sizeof(conn));
		memset(more, 0, sizeof(*more));
		conn.capable = capable | further;
		conn.want = want;
		error = ops->conn(req, &conn);
		want = conn.want;
		more->want = conn.want & further;
		more->max_readahead = conn.max_readahead;
		more->max_write = conn.max_write;
		more->time_gran = conn.time_gran;
		more->max_stack_depth = conn.max_stack_depth;
		more->request_timeout = conn.request_timeout;
		more->max_background = conn.max_background;
		more->congestion_threshold = conn.congestion_threshold;
		answer->init_params = more;
	} else if (ops->init) {
		error = ops->init(req, capable, &want);
	}
	want = capable & nizwarf_served(ops, want);
	/* (INIT_EXT says that there are more than the first 32 options) */
	nizwarf_answer_options(answer, want & high || further ? want | (capable & 1 << 30) : want);
	return error;
}

/* The other calls: a copy with a count of 64 bits, BMAP and LSEEK, which return an offset, and STATFS,
 * which without a function reports names of 255 bytes and blocks of 512. */
static int do_others(const nizwarf_ops *ops, const nizwarf_req *req, nizwarf_answer *answer)
{
	const nizwarf_call *c = req->call;
	const nizwarf_file_info fi = file_of(c);
	uint64_t found = 0;
	int error;

	switch (c->opcode) {
	case NIZWARF_COPY_64:
		return do_written(ops, req, answer);
	case NIZWARF_BMAP:
		error = CALL_OP(bmap, c->node, c->size, c->offset, &found);
		nizwarf_answer_offset(answer, found);
		return error;
	case NIZWARF_STATFS:
		answer->statfs.namemax = 255;
		answer->statfs.bsize = answer->statfs.frsize = 512;
		return ops->statfs ? ops->statfs(req, c->node, &answer->statfs) : 0;
	case NIZWARF_LSEEK:
		error = CALL_OP(lseek, c->node, c->offset, nizwarf_lseek_whence(c), &fi, &found);
		nizwarf_answer_offset(answer, found);
		return error;
	default:
		return ENOSYS;
	}
}

/* Makes the call, by the kind of its answer. `dir` has the reply buffer after the first 16 bytes, where
 * any text is stored. Returns 0, an error number, or NIZWARF_LATER. */
static int make_call(const nizwarf_ops *ops, const nizwarf_req *req, nizwarf_dir *dir, nizwarf_answer *answer)
{
	switch (req->call->reply) {
	case NIZWARF_REPLY_NONE:
		return do_quiet(ops, req);
	case NIZWARF_REPLY_STATUS:
		return do_done(ops, req);
	case NIZWARF_REPLY_ENTRY:
		return do_entry(ops, req, answer);
	case NIZWARF_REPLY_ATTR:
		return do_attr(ops, req, answer);
	case NIZWARF_REPLY_OPEN:
	case NIZWARF_REPLY_CREATE:
		return do_open(ops, req, answer);
	case NIZWARF_REPLY_INIT:
		return do_init(ops, req, &dir->params, answer);
	case NIZWARF_REPLY_DATA:
	case NIZWARF_REPLY_BYTES:
	case NIZWARF_REPLY_BYTES_OR_SIZE:
		if (is_record(req->call))
			return do_record(ops, req, dir->names, dir->left, answer);
		return do_data(ops, req, dir->names, dir->left, answer);
	case NIZWARF_REPLY_DIRECTORY:
		return do_directory(ops, req, dir, answer);
	case NIZWARF_REPLY_COUNT:
		return do_written(ops, req, answer);
	default:
		return do_others(ops, req, answer);
	}
}

/* Releases what was opened if the client does not receive its handle: by `release` or `releasedir`, with
 * the flags that it was opened with. */
static void do_release(const nizwarf_ops *ops, const nizwarf_req *req, const nizwarf_answer *answer)
{
	const nizwarf_call *c = req->call;
	nizwarf_file_info fi = file_of(c);

	if (answer->error || !answer->has_handle)
		return;
	fi.fh = answer->handle;
	if (c->opcode == NIZWARF_OPENDIR && ops->releasedir)
		ops->releasedir(req, c->node, &fi);
	else if (c->opcode != NIZWARF_OPENDIR && ops->release)
		ops->release(req, c->reply == NIZWARF_REPLY_CREATE ? answer->entry.node : c->node, &fi);
}

/* Returns a copy of the session. Another thread may serve an INIT meanwhile. */
static nizwarf_session session_now(const nizwarf_session *session)
{
	nizwarf_session now;

	now.options = __atomic_load_n(&session->options, __ATOMIC_ACQUIRE);
	now.page_size = session->page_size;
	now.max_buffer = session->max_buffer;
	return now;
}

/* Returns whether two regions of memory have a byte in common. (Pointers into different objects are
 * compared as numbers.) */
static int overlap(const void *one, size_t one_len, const void *other, size_t other_len)
{
	const uintptr_t a = (uintptr_t)one, b = (uintptr_t)other;

	return one_len && other_len && (a < b ? b - a < one_len : a - b < other_len);
}

/* Encodes the answer to a call, and undoes what the client does not receive: what was opened is released
 * before the lookup of its node is forgotten, because release may use the node. */
static inline int32_t reply_ops(const nizwarf_ops *ops, const nizwarf_req *req, nizwarf_scratch *scratch,
				const nizwarf_session *now, const nizwarf_answer *answer,
				const struct iovec *whole, nizwarf_result *result)
{
	int32_t code;

	if ((answer->error < 0 || answer->error > NIZWARF_MAX_ERRNO) && ops->bad_error)
		ops->bad_error(req->user, req->call, answer->error);
	code = nizwarf_encode(scratch, now, req->call, answer, whole, 1, result);
	if (code != NIZWARF_OK)
		do_release(ops, req, answer);
	if (result->forget && ops->forget)
		ops->forget(req, result->forget, 1);
	return code;
}

/* Returns whether a call with this kind of answer may be answered later. (The entries of a directory are
 * valid during the call only.) */
static int may_wait(uint32_t kind)
{
	return kind != NIZWARF_REPLY_NONE && kind != NIZWARF_REPLY_INIT && kind != NIZWARF_REPLY_DIRECTORY;
}

/* Makes the call of a request, and encodes its answer. */
static int32_t answer_ops(const nizwarf_ops *ops, const nizwarf_req *req, nizwarf_scratch *scratch,
			  nizwarf_session *session, nizwarf_call *call, nizwarf_dir *dir,
			  const struct iovec *whole, size_t *reply_len)
{
	const nizwarf_session now = session_now(session);
	nizwarf_answer answer = NIZWARF_ANSWER_INIT;
	nizwarf_result result;
	int32_t code;
	size_t i;

	answer.error = make_call(ops, req, dir, &answer);
	/* (nothing of the call is used from here on, because another thread may have answered it) */
	if (answer.error == NIZWARF_LATER && may_wait(call->reply))
		return NIZWARF_CALL;
	/* (an option that the client does not support is not negotiated, whether or not the library
	 * supports it) */
	if (call->opcode == NIZWARF_INIT)
		nizwarf_init_keep(call, answer.count);
	code = reply_ops(ops, req, scratch, &now, &answer, whole, &result);
	*reply_len = (size_t)result.len;
	if (call->opcode == NIZWARF_INIT || call->opcode == NIZWARF_DESTROY)
		__atomic_store_n(&session->options, call->opcode == NIZWARF_DESTROY ? 0 : result.options,
				 __ATOMIC_RELEASE);
	/* (entries that are not in the reply: the node of those of readdir is 0) */
	for (i = (size_t)result.entries; i < dir->len; i++)
		give_back(dir, dir->items[i].entry.node);
	return code;
}

/* Returns the error of a deferred answer: that which replaces it if Linux would refuse it, as the functions above
 * replace it where it is not deferred. */
static int32_t error_of(const nizwarf_call *c, const nizwarf_answer *answer)
{
	const uint64_t space = c->reply_size < 16 ? 0 : c->reply_size - 16;
	const uint64_t data = c->size < c->data.len ? c->size : c->data.len;

	if (answer->error)
		return answer->error;
	switch (c->opcode) {
	case NIZWARF_READLINK:
		return answer->text_len > (size_t)NIZWARF_MAX_LINK ? EIO : 0;
	case NIZWARF_GETXATTR:
	case NIZWARF_LISTXATTR:
		return answer->has_count || (answer->text_len <= c->size && answer->text_len <= space) ?
			       0 :
			       ERANGE;
	case NIZWARF_IOCTL:
		return answer->text_len > sizeof(nizwarf_ioctl) + c->size ? EIO : 0;
	case NIZWARF_WRITE:
		return answer->count > data ? EIO : 0;
	case NIZWARF_COPY:
	case NIZWARF_COPY_64:
		return answer->count > c->length ? EIO : 0;
	default:
		return 0;
	}
}

int32_t nizwarf_finish_ops(const nizwarf_ops *ops, void *user, nizwarf_scratch *scratch,
			   const nizwarf_session *session, const nizwarf_call *call,
			   const nizwarf_answer *answer, void *reply, size_t *reply_len)
{
	const nizwarf_req req = { user, call, (const uint8_t *)"" };
	struct iovec whole = { reply, 0 };
	nizwarf_answer checked;
	nizwarf_session now;
	nizwarf_result result;
	int32_t code;

	if (reply_len)
		*reply_len = 0;
	if (!ops || !scratch || !session || !call || !answer || !reply || !reply_len)
		return NIZWARF_NULL;
	now = session_now(session);
	whole.iov_len = (size_t)call->reply_size;
	checked = *answer;
	checked.error = error_of(call, answer);
	code = reply_ops(ops, &req, scratch, &now, &checked, &whole, &result);
	*reply_len = (size_t)result.len;
	return code;
}

int32_t nizwarf_serve_ops(const nizwarf_ops *ops, void *user, nizwarf_scratch *scratch,
			  nizwarf_session *session, const void *request, size_t len, void *reply,
			  size_t reply_size, nizwarf_dirent *items, size_t most, size_t *reply_len)
{
	const struct iovec piece = { (void *)(uintptr_t)request, len };
	const struct iovec whole = { reply, reply_size };
	nizwarf_session now;
	nizwarf_call call;
	nizwarf_result result;
	nizwarf_dir dir;
	nizwarf_req req;
	int32_t code;

	if (reply_len)
		*reply_len = 0;
	if (!ops || !session || !reply_len || (most && !items))
		return NIZWARF_NULL;
	if (overlap(request, len, reply, reply_size))
		return NIZWARF_BAD_CALL;
	now = session_now(session);
	code = nizwarf_decode(scratch, &now, nizwarf_features_of(ops), &piece, 1, &whole, 1, &call, &result);
	*reply_len = (size_t)result.len;
	if (result.interrupts && ops->interrupt)
		ops->interrupt(user, result.interrupts);
	if (code != NIZWARF_CALL)
		return code;
	req.user = user;
	req.call = &call;
	req.request = (const uint8_t *)request;
	dir.ops = ops;
	dir.req = &req;
	dir.items = items;
	dir.len = 0;
	dir.most = most;
	/* (the reply begins with a fuse_out_header of 16 bytes) */
	dir.names = (uint8_t *)reply + (reply_size < 16 ? reply_size : 16);
	dir.left = reply_size < 16 ? 0 : reply_size - 16;
	return answer_ops(ops, &req, scratch, session, &call, &dir, &whole, reply_len);
}

void nizwarf_end_ops(const nizwarf_ops *ops, void *user, nizwarf_session *session)
{
	nizwarf_call call;
	nizwarf_req req;

	memset(&call, 0, sizeof(call));
	call.opcode = NIZWARF_DESTROY;
	call.options = __atomic_exchange_n(&session->options, 0, __ATOMIC_ACQ_REL);
	req.user = user;
	req.call = &call;
	req.request = (const uint8_t *)"";
	if (call.options && ops->destroy)
		ops->destroy(&req);
}
