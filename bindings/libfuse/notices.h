/* Notices. As with replies, libfuse writes a record, and the codec encodes the message from its fields. */

enum {
	/* The longest notice without a name. One with a name has at most as many bytes besides the name. */
	LONGEST_NOTICE = 48,
	/* Enough for each name that Linux accepts, and little enough for the stack. */
	NOTICE_SIZE = LONGEST_NOTICE + 1024,
};

/* Encodes a notice with a name. Returns its length, or 0 if it has no name or does not fit. libfuse's length
 * of the name includes the NUL. */
static size_t encode_named_notice(int code, const void *record, const struct iovec *name, uint8_t *out,
				  size_t size)
{
	const struct fuse_notify_delete_out *removed = record;
	const struct fuse_notify_inval_entry_out *entry = record;
	uint32_t flags;

	if (!name->iov_len)
		return 0;
	if (code == FUSE_NOTIFY_DELETE)
		return nizwarf_notice_delete(removed->parent, removed->child, name->iov_base,
					     name->iov_len - 1, out, size);
	/* These flags are padding in the fuse.h of libfuse 3.14, which libfuse sets to 0. */
	memcpy(&flags, (const char *)record + 12, sizeof(flags));
	return nizwarf_notice_inval_entry(entry->parent, flags, name->iov_base, name->iov_len - 1, out, size);
}

/* Encodes a notice. Returns its length, or 0 if the codec has no such notice or it does not fit. The record
 * is in the second element of `iov`, after the header. */
static size_t encode_notice(int code, const struct iovec *iov, int count, uint8_t *out, size_t size)
{
	/* The fuse.h of libfuse 3.14 does not define FUSE_NOTIFY_INC_EPOCH. */
	enum { INC_EPOCH = 8 };
	const void *record = count > 1 ? iov[1].iov_base : NULL;
	const struct fuse_notify_inval_inode_out *inode = record;
	const struct fuse_notify_poll_wakeup_out *poll = record;
	const struct fuse_notify_retrieve_out *retrieve = record;

	switch (code) {
	case FUSE_NOTIFY_POLL:
		return nizwarf_notice_poll(poll->kh, out, size);
	case FUSE_NOTIFY_INVAL_INODE:
		return nizwarf_notice_inval_inode(inode->ino, inode->off, inode->len, out, size);
	case FUSE_NOTIFY_RETRIEVE:
		return nizwarf_notice_retrieve(retrieve->notify_unique, retrieve->nodeid, retrieve->offset,
					       retrieve->size, out, size);
	case FUSE_NOTIFY_INVAL_ENTRY:
	case FUSE_NOTIFY_DELETE:
		return count > 2 ? encode_named_notice(code, record, &iov[2], out, size) : 0;
	case INC_EPOCH: /* has no record */
		return nizwarf_notice_inc_epoch(out, size);
	default:
		return 0;
	}
}

static int send_notify_iov(struct fuse_session *se, int notify_code, struct iovec *iov, int count)
{
	_Alignas(struct fuse_out_header) uint8_t out[NOTICE_SIZE];
	struct iovec message[1] = { { out, 0 } };

	/* The kernel accepts no notices before the reply to INIT. */
	if (!se->got_init)
		return -ENOTCONN;
	message[0].iov_len = encode_notice(notify_code, iov, count, out, sizeof(out));
	if (!message[0].iov_len)
		/* The kernel would refuse a name that is too long with the same error. */
		return count > 2 && iov[2].iov_len > NOTICE_SIZE - LONGEST_NOTICE ? -ENAMETOOLONG : -EINVAL;
	/* There is no channel, because notices are sent by the session's own descriptor. fuse_send_msg sets
	 * the length in the header. */
	return fuse_send_msg(se, NULL, message, 1 SEND_OF(NULL));
}

/* Replaces libfuse's function, which stores data in the page cache. The codec encodes the header and the
 * record. The data are sent from where they are, like those of a READ. */
int fuse_lowlevel_notify_store(struct fuse_session *se, fuse_ino_t ino, off_t offset,
			       struct fuse_bufvec *bufv, enum fuse_buf_copy_flags flags)
{
	_Alignas(struct fuse_out_header) uint8_t out[LONGEST_NOTICE];
	struct iovec iov[2];
	size_t size, len;
	int res;

	if (!se)
		return -EINVAL;
	size = fuse_buf_size(bufv); /* bytes */
	/* The record has 32 bits for the length. */
	len = size > UINT32_MAX ?
		      0 :
		      nizwarf_notice_store(ino, (uint64_t)offset, (uint32_t)size, out, sizeof(out));
	if (!len)
		return -EINVAL;
	iov[0].iov_base = out;
	iov[0].iov_len = len;
	res = fuse_send_data_iov(se, NULL, iov, 1, bufv, flags SEND_OF(NULL));
	/* A positive result is the error number of a file that the data were to be read from. */
	return res > 0 ? -res : res;
}
