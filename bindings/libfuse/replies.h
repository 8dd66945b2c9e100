/* Replies. libfuse's fuse_reply_ functions write a record of fuse.h, and pass it to send_reply_iov. Here the
 * record is read into a nizwarf_answer, and the codec encodes the reply from that. So each reply is checked
 * against its call. A record of another type, an invalid error number or a text that is too long is replied
 * as an error, because the kernel would refuse such a reply, and its caller would wait forever. */

enum {
	/* The largest payload before an INIT. */
	FIRST_BUFFER = 1 << 20, /* bytes */
	/* The longest target of a symbolic link that Linux accepts. */
	LONGEST_LINK = 4095, /* bytes, without a NUL */
	/* The longest record of an IOCTL with FUSE_IOCTL_RETRY. It may be longer than the requested size,
	 * because it lists ranges of memory. */
	LONGEST_RETRY = sizeof(struct fuse_ioctl_out) +
			FUSE_IOCTL_MAX_IOV * sizeof(struct fuse_ioctl_iovec), /* bytes */
	/* One more than the largest error number that libfuse sends. */
	LIBFUSE_ERRORS = 1000,
	HEADER = sizeof(struct fuse_out_header),
	/* The size of the largest reply without a text, which is that of CREATE. */
	SMALL_REPLY = HEADER + sizeof(struct fuse_entry_out) + sizeof(struct fuse_open_out),
};

/* Memory that each thread has. */
struct codec_thread {
	nizwarf_scratch scratch; /* for the codec */
	struct codec_req *spare; /* a request that has ended, or NULL */
	nizwarf_answer answer;	 /* to the call that is being replied to */
	uint8_t *buffer;	 /* for replies with a text: `size` bytes, or NULL */
	size_t size;
};

/* The key only exists for its destructor, which frees the memory of a thread when the thread ends.
 * `codec_this_thread` points to this memory. Its model "initial-exec" allows access without a function call,
 * even in a shared library. */
static pthread_key_t codec_key;
/* A process has 1024 keys. If none is left, no thread has memory here, because it would never be freed. */
static int codec_has_key;
static __thread __attribute__((tls_model("initial-exec"))) struct codec_thread *codec_this_thread;

/* Frees a request that no thread uses any more. */
static void delete_req(struct codec_req *req)
{
	pthread_mutex_destroy(&req->req.lock);
	free(req);
}

/* This may run more than once in a thread, because another destructor of the thread may send a reply after
 * it, for which new_thread allocates the memory again. */
static void free_thread(void *at)
{
	struct codec_thread *t = at;

	nizwarf_scratch_free(&t->scratch);
	free(t->buffer);
	if (t->spare)
		delete_req(t->spare);
	free(t);
	codec_this_thread = NULL;
}

/* Runs when the library is loaded, before any request. */
static __attribute__((constructor)) void load_codec(void)
{
	codec_has_key = !pthread_key_create(&codec_key, free_thread);
}

static __attribute__((destructor)) void unload_codec(void)
{
	if (codec_has_key)
		pthread_key_delete(codec_key);
}

/* Allocates the memory of this thread. Returns NULL if out of memory. */
static __attribute__((noinline)) struct codec_thread *new_thread(void)
{
	struct codec_thread *t = calloc(1, sizeof(*t));

	if (!t || !codec_has_key || pthread_setspecific(codec_key, t)) {
		free(t);
		return NULL;
	}
	codec_this_thread = t;
	return t;
}

/* Returns the memory of this thread, or NULL if out of memory. */
static inline struct codec_thread *codec_thread(void)
{
	struct codec_thread *t = codec_this_thread;

	return likely(t) ? t : new_thread();
}

/* Grows the reply buffer of a thread to at least `size` bytes. Returns 0 if out of memory. The contents stay
 * the same, but may be moved. */
static int grow_buffer(struct codec_thread *t, size_t size)
{
	uint8_t *buffer;

	if (t->size >= size)
		return 1;
	buffer = realloc(t->buffer, size);
	if (!buffer)
		return 0;
	t->buffer = buffer;
	t->size = size;
	return 1;
}

/* Resets a request for its next use: all is 0, except that its lock stays, that it is in no list, and that it
 * ends when it is freed once. */
static void reset_req(struct fuse_req *req)
{
	/* The lock and the other members before `ctx` must stay. */
	memset(&req->ctx, 0, offsetof(struct codec_req, call) - offsetof(struct codec_req, req.ctx));
	/* The reference count, whose name in libfuse depends on the version. */
	req->REQ_COUNT = 1;
	list_init_req(req);
}

/* Allocates a request. Returns NULL if out of memory. */
static __attribute__((noinline)) struct codec_req *create_req(void)
{
	struct codec_req *created = calloc(1, sizeof(*created));

	if (!created)
		return NULL;
	pthread_mutex_init(&created->req.lock, NULL);
	reset_req(&created->req);
	/* This is not 0. Without a call, a request must not be replied to with a record. */
	created->call.reply = NIZWARF_REPLY_NONE;
	return created;
}

/* Returns a request without a call, or NULL if out of memory. The thread reuses the memory of the last
 * request that it has ended, because most threads end the requests that they serve. */
static inline struct fuse_req *codec_new_req(struct fuse_session *se)
{
	struct codec_thread *t = codec_thread();
	struct codec_req *codec;

	if (unlikely(!t))
		return NULL;
	codec = t->spare;
	t->spare = NULL;
	if (unlikely(!codec)) {
		codec = create_req();
		if (!codec)
			return NULL;
	}
	codec->req.se = se;
	/* The decoder sets all fields of the call. */
	codec->req.unique = 0;
	codec->state = CODEC_PRIVATE;
	return &codec->req;
}

/* Keeps the memory of a request, which must be reset, for the next one of this thread, or frees it. As long
 * as the memory is kept, a second reply to the request is detected. */
static inline void recycle_req(struct fuse_req *req)
{
	struct codec_thread *t = codec_this_thread;
	struct codec_req *codec = codec_req_of(req);

#ifdef __SANITIZE_ADDRESS__
	/* The address sanitizer finds a second reply as a use after free, so nothing is kept. */
	t = NULL;
#endif
	/* One request per thread suffices, because a thread that ends the requests of others would never use
	 * more. */
	if (likely(t && !t->spare)) {
		codec->state = CODEC_ENDED;
		codec->call.opcode = 0; /* a second reply reads these two fields */
		codec->call.reply = NIZWARF_REPLY_NONE;
		t->spare = codec;
	} else {
		delete_req(codec);
	}
}

/* The session has already removed the request from its list. */
static void codec_free_req(struct fuse_req *req)
{
	reset_req(req);
	recycle_req(req);
}

static struct fuse_session *codec_new_session(void)
{
	struct codec_session *codec = calloc(1, sizeof(*codec));

	if (!codec)
		return NULL;
	/* Requests before the INIT are rejected, but must be decoded first. */
	codec->sizes = (uint32_t)pagesize | (uint64_t)FIRST_BUFFER << 32;
	return &codec->se;
}

/* Returns the current parameters of a session. They are read atomically, because a client that is not a
 * kernel may send other requests during an INIT. */
static inline nizwarf_session session_of(struct fuse_session *se)
{
	struct codec_session *codec = codec_session_of(se);
	const uint64_t sizes = __atomic_load_n(&codec->sizes, __ATOMIC_RELAXED);
	const nizwarf_session session = {
		.options = __atomic_load_n(&codec->options, __ATOMIC_RELAXED),
		.page_size = (uint32_t)sizes,
		.max_buffer = (uint32_t)(sizes >> 32),
	};

	return session;
}

/* Initialises a result before the codec is called, which changes `options` only for an INIT and a DESTROY. */
static inline void clear_result(nizwarf_result *result, uint64_t options)
{
	memset(result, 0, sizeof(*result));
	result->options = options;
}

/* Clears those fields of this thread's answer that each kind of reply reads. The caller must set the fields
 * of its kind. The whole struct is not cleared, because that would be 264 bytes for each reply. */
static void clear_answer(struct codec_thread *t)
{
	nizwarf_answer *answer = &t->answer;

	answer->error = 0;
	answer->count = 0;
	answer->has_count = 0;
	answer->has_handle = 0;
	answer->text = NULL;
	answer->text_len = 0;
	answer->init_params = NULL; /* of an earlier INIT, whose parameters are gone */
}

/* Converts a timeout to seconds and nanoseconds, as calc_timeout_sec and calc_timeout_nsec do, but in fewer
 * steps. */
static inline uint32_t fill_time(double t, uint64_t *seconds)
{
	const double most = 1e15; /* seconds; a double represents smaller whole numbers exactly */
	double part;

	/* This is also the case if `t` is NaN. */
	if (unlikely(!(t >= 0 && t < most))) {
		*seconds = calc_timeout_sec(t);
		return calc_timeout_nsec(t);
	}
	*seconds = (uint64_t)(int64_t)t;
	part = t - (double)(int64_t)t;
	/* Linux refuses 10^9 nanoseconds. */
	return part >= 0.999999999 ? 999999999 : (uint32_t)(int64_t)(part * 1.0e9);
}

_Static_assert(sizeof(nizwarf_entry) == sizeof(struct fuse_entry_out), "an entry as fuse.h has it");

/* libfuse's convert_stat does not set `flags`, which are padding in the fuse.h of libfuse 3.14. */
static inline void fill_attr(nizwarf_attr *out, const struct stat *st)
{
	convert_stat(st, (struct fuse_attr *)(void *)out);
	out->flags = 0;
}

/* The second timeout is only converted if it differs from the first one, because it seldom does. */
static inline void fill_codec_entry(nizwarf_entry *out, const struct fuse_entry_param *e)
{
	out->node = e->ino;
	out->generation = e->generation;
	out->entry_nanoseconds = fill_time(e->entry_timeout, &out->entry_seconds);
	out->attr_seconds = out->entry_seconds;
	out->attr_nanoseconds = out->entry_nanoseconds;
	if (e->attr_timeout != e->entry_timeout)
		out->attr_nanoseconds = fill_time(e->attr_timeout, &out->attr_seconds);
	fill_attr(&out->attr, &e->attr);
}

static void fill_entry(struct fuse_entry_out *out, const struct fuse_entry_param *e)
{
	fill_codec_entry((nizwarf_entry *)(void *)out, e);
}

/* Returns the total length, or SIZE_MAX if it overflows. libfuse's iov_length does not check this. With an
 * invalid length, such as a negative one, the sum could be small, and the copy would exceed its buffer. */
static inline size_t length_of(const struct iovec *iov, int count)
{
	size_t len = 0;
	int i;

	for (i = 0; i < count; i++)
		if (__builtin_add_overflow(len, iov[i].iov_len, &len))
			return SIZE_MAX;
	return len;
}

/* Copies all pieces into one buffer, which must have space for them. */
static void gather(void *to, const struct iovec *iov, int count)
{
	size_t at = 0;
	int i;

	for (i = 0; i < count; i++) {
		if (iov[i].iov_len)
			memcpy((char *)to + at, iov[i].iov_base, iov[i].iov_len);
		at += iov[i].iov_len;
	}
}

/* Returns a record of `size` bytes, or NULL if the pieces have another total length. If there are several
 * pieces, they are copied to `to`. The caller must read each field only once, because the memory is the
 * program's, and another thread may change it. */
static inline const char *record_of(void *to, size_t size, const struct iovec *iov, int count)
{
	if (count == 1)
		return iov->iov_len == size ? iov->iov_base : NULL;
	if (length_of(iov, count) != size)
		return NULL;
	gather(to, iov, count);
	return to;
}

/* Copies a record. Returns 0 if it has another length. */
static inline int copy_record(void *to, size_t size, const struct iovec *iov, int count)
{
	const char *record = record_of(to, size, iov, count);

	if (!record)
		return 0;
	if (record != to)
		memcpy(to, record, size);
	return 1;
}

/* ---- From libfuse's records to answers ----------------------------------------------------------- */

/* The record of the reply to INIT, with the parameters that libfuse and the file system have negotiated. It
 * is that of protocol version 7.43, because older versions of fuse.h lack some of its fields. */
struct codec_init {
	uint32_t major, minor, max_readahead, flags;
	uint16_t max_background, congestion_threshold;
	uint32_t max_write, time_gran;
	uint16_t max_pages, map_alignment;
	uint32_t flags2, max_stack_depth;
	uint16_t request_timeout, unused[11];
};

enum {
	/* The values that Linux uses if a server sends 0. The codec cannot send 0. */
	KERNEL_BACKGROUND = 12,
	KERNEL_CONGESTION = 9,
	/* The largest payload of a READ if MAX_PAGES is not negotiated. */
	LEAST_BUFFER = FUSE_DEFAULT_MAX_PAGES_PER_REQ * 4096, /* 128 KiB */
	MOST_BUFFER = 134217728,			      /* 128 MiB, the codec's limit */
};

/* Reads the record of the reply to INIT, and sets the largest payload of the session. Other threads read
 * that, so it must be set before the reply is sent. Returns 0 if the record has another length. */
static int read_init(fuse_req_t req, nizwarf_answer *answer, nizwarf_init_params *params,
		     const struct iovec *iov, int count)
{
	struct codec_init out;
	uint64_t buffer, flags;

	if (!copy_record(&out, sizeof(out), iov, count))
		return 0;
	flags = out.flags | (uint64_t)out.flags2 << 32;
	memset(params, 0, sizeof(*params));
	params->want = flags;
	/* The codec does not accept 0. A value below the page size disables readahead, too. */
	params->max_readahead = out.max_readahead ? out.max_readahead : 1;
	params->max_write = out.max_write;
	params->max_background = out.max_background ? out.max_background : KERNEL_BACKGROUND;
	params->congestion_threshold =
		out.congestion_threshold ? out.congestion_threshold : KERNEL_CONGESTION;
	params->time_gran = out.time_gran;
	params->max_stack_depth = out.max_stack_depth;
	params->request_timeout = out.request_timeout;
	/* Linux reads whole pages. */
	buffer = ((uint64_t)out.max_write + pagesize - 1) / pagesize * pagesize;
	if (buffer < LEAST_BUFFER)
		buffer = LEAST_BUFFER;
	if (buffer > MOST_BUFFER)
		buffer = MOST_BUFFER;
	__atomic_store_n(&codec_session_of(req->se)->sizes, (uint32_t)pagesize | buffer << 32,
			 __ATOMIC_RELAXED);
	/* Without parameters, the codec would send the values that virtiofsd sends. */
	nizwarf_init_keep(call_of(req), flags);
	nizwarf_answer_options(answer, flags);
	answer->init_params = params;
	return 1;
}

/* The following functions read a record into the answer. They return 0 if the record is not of their type. */
static int read_entry(nizwarf_answer *answer, const struct iovec *iov, int count)
{
	return copy_record(&answer->entry, sizeof(answer->entry), iov, count);
}

/* The fields are copied one by one, because the answer has them in another order. */
static int read_attr(nizwarf_answer *answer, const struct iovec *iov, int count)
{
	struct fuse_attr_out attr;
	const char *record = record_of(&attr, sizeof(attr), iov, count);

	if (!record)
		return 0;
	memcpy(&answer->entry.attr_seconds, record + offsetof(struct fuse_attr_out, attr_valid),
	       sizeof(attr.attr_valid));
	memcpy(&answer->entry.attr_nanoseconds, record + offsetof(struct fuse_attr_out, attr_valid_nsec),
	       sizeof(attr.attr_valid_nsec));
	memcpy(&answer->entry.attr, record + offsetof(struct fuse_attr_out, attr), sizeof(attr.attr));
	return 1;
}

static void read_handle(nizwarf_answer *answer, const struct fuse_open_out *open)
{
	int32_t backing;

	/* This number is padding in libfuse 3.14, which sets it to 0. */
	memcpy(&backing, (const char *)open + 12, sizeof(backing));
	answer->has_handle = 1;
	answer->handle = open->fh;
	answer->open_flags = open->open_flags;
	nizwarf_answer_backing(answer, backing > 0 ? (uint32_t)backing : 0);
}

static int read_open(nizwarf_answer *answer, const struct iovec *iov, int count)
{
	struct fuse_open_out open;

	if (!copy_record(&open, sizeof(open), iov, count))
		return 0;
	read_handle(answer, &open);
	return 1;
}

/* Reads an entry, followed by a handle. */
static int read_create(nizwarf_answer *answer, const struct iovec *iov, int count)
{
	struct {
		nizwarf_entry entry;
		struct fuse_open_out open;
	} created;

	if (!copy_record(&created, sizeof(created), iov, count))
		return 0;
	answer->entry = created.entry;
	read_handle(answer, &created.open);
	return 1;
}

static int read_statfs(nizwarf_answer *answer, const struct iovec *iov, int count)
{
	struct fuse_statfs_out out;

	if (!copy_record(&out, sizeof(out), iov, count))
		return 0;
	answer->statfs.bsize = out.st.bsize;
	answer->statfs.frsize = out.st.frsize;
	answer->statfs.blocks = out.st.blocks;
	answer->statfs.bfree = out.st.bfree;
	answer->statfs.bavail = out.st.bavail;
	answer->statfs.files = out.st.files;
	answer->statfs.ffree = out.st.ffree;
	answer->statfs.namemax = out.st.namelen;
	return 1;
}

/* Reads a number of 32 bits, followed by padding: that of a WRITE, a POLL, or the size of an extended
 * attribute. */
static int read_number(nizwarf_answer *answer, const struct iovec *iov, int count)
{
	uint32_t number[2];

	if (!copy_record(number, sizeof(number), iov, count))
		return 0;
	answer->count = number[0];
	return 1;
}

/* Reads a text. It is copied into the thread's buffer, because the reply may overlap its text there. Also
 * returns 1 with an error in the answer: ERANGE if the text is longer than the requested size, and ENOMEM. */
static int read_bytes(const nizwarf_call *call, struct codec_thread *t, const struct iovec *iov, int count)
{
	const size_t len = length_of(iov, count);
	nizwarf_answer *answer = &t->answer;
	nizwarf_ioctl record;

	if (call->opcode == NIZWARF_READLINK && len > LONGEST_LINK)
		return 0;
	/* The length must be checked before the copy, because an invalid length may exceed the memory of the
	 * program. */
	if (call->reply == NIZWARF_REPLY_BYTES && call->opcode != NIZWARF_READLINK && len > LONGEST_RETRY &&
	    len - sizeof(record) > call->size)
		return 0;
	if (call->reply == NIZWARF_REPLY_BYTES_OR_SIZE && len > call->size) {
		answer->error = ERANGE;
		return 1;
	}
	/* The buffer must have the size of the whole reply, because send_answer would otherwise move the
	 * text. */
	if (!grow_buffer(t, SMALL_REPLY + len)) {
		answer->error = ENOMEM;
		return 1;
	}
	gather(t->buffer, iov, count);
	answer->text = t->buffer;
	answer->text_len = len;
	/* The data must not be longer than requested. With RETRY they are ranges of memory, which Linux reads
	 * itself. */
	if (call->opcode == NIZWARF_IOCTL && len >= sizeof(record)) {
		memcpy(&record, t->buffer, sizeof(record));
		return record.flags & FUSE_IOCTL_RETRY || len - sizeof(record) <= call->size;
	}
	return 1;
}

/* `size` is 0 if only the size of the attribute is requested. */
static int read_xattr(const nizwarf_call *call, struct codec_thread *t, const struct iovec *iov, int count)
{
	if (call->size)
		return read_bytes(call, t, iov, count);
	t->answer.has_count = 1;
	return read_number(&t->answer, iov, count);
}

/* Fills in this thread's answer from the record that libfuse has written. Returns 0 if the call requires a
 * record of another type. */
static int read_record(fuse_req_t req, struct codec_thread *t, nizwarf_init_params *params,
		       const struct iovec *iov, int count)
{
	const nizwarf_call *call = call_of(req);
	nizwarf_answer *answer = &t->answer;

	switch (call->reply) {
	case NIZWARF_REPLY_STATUS:
		return !length_of(iov, count); /* there must be no record */
	case NIZWARF_REPLY_INIT:
		return read_init(req, answer, params, iov, count);
	case NIZWARF_REPLY_ENTRY:
		return read_entry(answer, iov, count);
	case NIZWARF_REPLY_ATTR:
		return read_attr(answer, iov, count);
	case NIZWARF_REPLY_OPEN:
		return read_open(answer, iov, count);
	case NIZWARF_REPLY_CREATE:
		return read_create(answer, iov, count);
	case NIZWARF_REPLY_STATFS:
		return read_statfs(answer, iov, count);
	case NIZWARF_REPLY_BYTES:
		return read_bytes(call, t, iov, count);
	case NIZWARF_REPLY_BYTES_OR_SIZE:
		return read_xattr(call, t, iov, count);
	case NIZWARF_REPLY_OFFSET:
		return copy_record(&answer->count, sizeof(answer->count), iov, count);
	case NIZWARF_REPLY_COUNT:
		return read_number(answer, iov, count);
	default: /* NONE, DATA and DIRECTORY, which send_reply_iov handles */
		return 0;
	}
}

/* ---- Sending ------------------------------------------------------------------------------------- */

/* Sends a header alone if the codec cannot encode the reply: for a rejected request, for a DESTROY, and if
 * out of memory. `error` is 0 or a negated error number. Ends the request. Returns the result of sending, or
 * -EINVAL if the request has already ended. */
static int send_header(fuse_req_t req, int error)
{
	struct iovec iov[1];
	int res;

	if (codec_req_of(req)->state == CODEC_ENDED) {
		fuse_log(FUSE_LOG_ERR, "fuse: a second reply to a request\n");
		return -EINVAL;
	}
	res = fuse_send_reply_iov_nofree(req, error, iov, 1);
	fuse_free_req(req);
	return res;
}

/* Sends an encoded reply, followed by data, and ends the request. The first element of `iov` is reserved for
 * the encoded part. As soon as the reply is sent, the client may reuse the number of the request, and
 * interrupt it. So only the state of the request may be read after that. */
static inline int send_encoded(fuse_req_t req, uint8_t *reply, size_t len, struct iovec *iov, int count)
{
	int res;

	iov[0].iov_base = reply;
	iov[0].iov_len = len;
	res = fuse_send_msg(req->se, req->ch, iov, count SEND_OF(req));
	if (!codec_free_private(req))
		fuse_free_req(req);
	return res;
}

/* Sends an error in place of a reply with a lookup or a handle. Returns -ENOENT, as libfuse does, so that the
 * file system releases them. */
static int send_undelivered(fuse_req_t req, int error)
{
	send_header(req, error);
	return -ENOENT;
}

/* Sends an error because the codec did not encode the answer. */
static __attribute__((noinline)) int send_encode_error(fuse_req_t req, int32_t code)
{
	fuse_log(FUSE_LOG_ERR, "fuse: cannot encode the reply to opcode %u: error %d\n", call_of(req)->opcode,
		 code);
	return send_undelivered(req, code == NIZWARF_OUT_OF_MEMORY ? -ENOMEM : -EIO);
}

/* Encodes this thread's answer, which must have neither a text nor entries, into the scratch memory. The
 * session may have changed since the request was decoded, so the options are those of the call. */
static inline int32_t encode_answer(fuse_req_t req, struct codec_thread *t, nizwarf_result *result)
{
	const nizwarf_session session = session_of(req->se);
	const nizwarf_answer *answer = &t->answer;
	const nizwarf_call *call = call_of(req);

	clear_result(result, call->options);
	/* No pointer may be NULL, even if the length is 0. */
	return nizwarf_encode_at(&t->scratch, &session, call, answer, (const uint8_t *)answer, 0,
				 (const nizwarf_dirent *)(const void *)answer, 0, result);
}

/* Sends this thread's answer, which must be an error or a record without a text. Most replies are of this
 * kind, and unlike those of send_answer they need no memory but the stack. */
static int send_record(fuse_req_t req, struct codec_thread *t)
{
	_Alignas(struct fuse_out_header) uint8_t reply[SMALL_REPLY];
	struct iovec iov[1];
	nizwarf_result result;
	int32_t code;

	/* The request may have been decoded with a larger size. The reply is the same as long as it fits. */
	call_of(req)->reply_size = SMALL_REPLY;
	code = encode_answer(req, t, &result);
	if (unlikely(code != NIZWARF_OK || !result.len))
		return send_encode_error(req, code);
	nizwarf_scratch_copy_at(&t->scratch, 0, reply, sizeof(reply));
	return send_encoded(req, reply, result.written, iov, 1);
}

/* Sends this thread's answer, which may have a text. For an INIT it first sets the options of the session,
 * because the next request may be served on another thread as soon as the reply is sent. */
static int send_answer(fuse_req_t req, struct codec_thread *t)
{
	const nizwarf_session session = session_of(req->se);
	/* The scratch memory grows to this size, so it must not be larger than needed. */
	const size_t size = SMALL_REPLY + t->answer.text_len; /* bytes */
	nizwarf_call *call = call_of(req);
	struct iovec iov[1];
	nizwarf_result result;
	struct iovec buffer;
	int32_t code;

	/* If the text is already in the buffer, it does not move, because read_bytes has grown the buffer to
	 * this size. */
	if (!grow_buffer(t, size))
		return send_undelivered(req, -ENOMEM);
	call->reply_size = size;
	buffer.iov_base = t->buffer;
	buffer.iov_len = size;
	code = nizwarf_encode(&t->scratch, &session, call, &t->answer, &buffer, 1, &result);
	if (code != NIZWARF_OK || !result.len)
		return send_encode_error(req, code);
	if (call->opcode == NIZWARF_INIT)
		__atomic_store_n(&codec_session_of(req->se)->options, result.options, __ATOMIC_RELAXED);
	return send_encoded(req, t->buffer, result.written, iov, 1);
}

/* Sends an error number, or 0 for success without a record. */
static int send_status(fuse_req_t req, int error)
{
	struct codec_thread *t = codec_thread();

	if (!t)
		return send_header(req, -ENOMEM);
	t->answer.error = error > NIZWARF_MAX_ERRNO ? EIO : error;
	return send_record(req, t);
}

/* Encodes the header of a reply with `len` bytes of data, which the codec does not read: those of a READ, or
 * the records of a listing. Returns the length of the whole reply, or 0 if out of memory. If the header is
 * that of an error, the length is HEADER, and no data may be sent. */
static inline size_t encode_data_header(fuse_req_t req, uint64_t len, uint8_t *header)
{
	struct codec_thread *t = codec_thread();
	nizwarf_call *call = call_of(req);
	nizwarf_result result;

	if (unlikely(!t))
		return 0;
	/* libfuse has already written the records of a listing, so they are replied like the data of a READ.
	 * The call may be changed, because it is not used after this. */
	if (call->reply == NIZWARF_REPLY_DIRECTORY) {
		call->opcode = NIZWARF_READ;
		call->reply = NIZWARF_REPLY_DATA;
		call->length = call->size;
		call->has = 0;
	}
	t->answer.error = 0;
	t->answer.count = len;
	if (unlikely(encode_answer(req, t, &result) != NIZWARF_OK))
		return 0;
	nizwarf_scratch_copy_at(&t->scratch, 0, header, HEADER);
	return result.len;
}

/* Copies all pieces after the first, which is reserved for the header, into one, because a record may be
 * split between two pieces. Returns 0 if out of memory. */
static __attribute__((noinline)) int join_pieces(struct iovec *iov, int count, size_t len)
{
	struct codec_thread *t = codec_thread();

	if (!t || !grow_buffer(t, len))
		return 0;
	gather(t->buffer, iov + 1, count - 1);
	iov[1].iov_base = t->buffer;
	iov[1].iov_len = len;
	return 1;
}

/* Sends a reply with data from where they are, unless they are in more pieces than writev(2) accepts. A
 * listing is checked first, because Linux discards all records from an invalid one on. */
static int send_data(fuse_req_t req, struct iovec *iov, int count)
{
	const nizwarf_call *call = call_of(req);
	const int is_listing = call->reply == NIZWARF_REPLY_DIRECTORY;
	_Alignas(struct fuse_out_header) uint8_t header[HEADER];
	size_t len = length_of(iov + 1, count - 1), reply_len;

	/* Linux would refuse the reply, and its caller would wait forever. */
	if (len > call->size)
		return send_status(req, EIO);
	if (unlikely(count > (is_listing ? 2 : IOV_MAX))) {
		if (!join_pieces(iov, count, len))
			return send_status(req, ENOMEM);
		count = 2;
	}
	if (is_listing && len) {
		len = check_listing(call, iov[1].iov_base, len);
		/* This includes an incomplete first record, because the client could make no progress. */
		if (unlikely(!len))
			return send_status(req, EIO);
		iov[1].iov_len = len;
	}
	reply_len = encode_data_header(req, len, header);
	if (unlikely(!reply_len))
		return send_header(req, -ENOMEM);
	/* The codec encodes an error if the data do not fit. */
	return send_encoded(req, header, HEADER, iov, reply_len > HEADER ? count : 1);
}

/* Ends a request whose reply has the wrong type: with EIO, if the client waits for a reply. Returns -EINVAL,
 * like the write of such a reply to the kernel. */
static __attribute__((noinline)) int send_mismatch(fuse_req_t req)
{
	const nizwarf_call *call = call_of(req);

	if (!call->opcode || call->opcode == NIZWARF_DESTROY)
		return send_header(req, 0);
	if (call->reply == NIZWARF_REPLY_NONE) { /* a FORGET, which has no reply */
		fuse_free_req(req);
		return -EINVAL;
	}
	fuse_log(FUSE_LOG_ERR, "fuse: the reply has the wrong type for opcode %u\n", call->opcode);
	send_status(req, EIO);
	return -EINVAL;
}

/* Sends a reply with a record that libfuse has written. If out of memory the program receives -ENOENT, so
 * that it releases the lookup or the handle. */
static int send_libfuse_record(fuse_req_t req, const struct iovec *iov, int count)
{
	struct codec_thread *t = codec_thread();
	nizwarf_init_params params;

	if (!t)
		return send_undelivered(req, -ENOMEM);
	clear_answer(t);
	if (!read_record(req, t, &params, iov, count))
		return send_mismatch(req);
	return t->answer.error ? send_record(req, t) : send_answer(req, t);
}

/* Returns whether libfuse sends this negated error number. The check is that of fuse_send_reply_iov_nofree,
 * which depends on the version of libfuse. */
static __attribute__((noinline)) int is_libfuse_error(int error)
{
#if defined(HAVE_ERROR_NAMES) && __GLIBC__ >= 2 && __GLIBC_MINOR__ >= 32
	return error < 0 && error > -LIBFUSE_ERRORS && strerrordesc_np(-error);
#else
	return error < 0 && error > -LIBFUSE_ERRORS;
#endif
}

/* Sends an error. A number that libfuse does not send is replaced by ERANGE, with a line in the log for the
 * author of the file system. A number that libfuse sends and Linux refuses is replaced by EIO, because the
 * caller would wait forever. */
static __attribute__((noinline)) int send_error(fuse_req_t req, int error)
{
	if (!is_libfuse_error(error)) {
		fuse_log(FUSE_LOG_ERR, "fuse: bad error value: %i\n", error);
		error = -ERANGE;
	}
	return send_status(req, -error);
}

/* Sends all replies except those of the four functions below. The first element of `iov` is reserved for the
 * header. */
static int send_reply_iov(fuse_req_t req, int error, struct iovec *iov, int count)
{
	const nizwarf_call *call = call_of(req);

	/* A DESTROY and a rejected request have a header alone. */
	if (unlikely(call->reply == NIZWARF_REPLY_NONE)) {
		if (!call->opcode || call->opcode == NIZWARF_DESTROY)
			return send_header(req, error);
		return send_mismatch(req);
	}
	if (error)
		return send_error(req, error);
	if (call->reply == NIZWARF_REPLY_DATA || call->reply == NIZWARF_REPLY_DIRECTORY)
		return send_data(req, iov, count);
	/* With more elements there is a record, which send_libfuse_record rejects. */
	if (call->reply == NIZWARF_REPLY_STATUS && count == 1)
		return send_status(req, 0);
	/* The first element is reserved for the header. */
	return send_libfuse_record(req, iov + 1, count - 1);
}

/* Returns the memory of this thread if a call requires a record of this kind. Returns NULL if it does not,
 * and if out of memory: the caller must then call send_no_record. */
static inline struct codec_thread *begin_record(fuse_req_t req, uint32_t kind)
{
	struct codec_thread *t = codec_thread();

	if (unlikely(!t || call_of(req)->reply != kind))
		return NULL;
	t->answer.error = 0;
	return t;
}

static __attribute__((noinline)) int send_no_record(fuse_req_t req, uint32_t kind)
{
	return call_of(req)->reply == kind ? send_undelivered(req, -ENOMEM) : send_mismatch(req);
}

/* The following three functions replace libfuse's, so that the record is written into the answer without a
 * copy. */
int fuse_reply_entry(fuse_req_t req, const struct fuse_entry_param *e)
{
	struct codec_thread *t = begin_record(req, NIZWARF_REPLY_ENTRY);

	if (unlikely(!t))
		return send_no_record(req, NIZWARF_REPLY_ENTRY);
	fill_codec_entry(&t->answer.entry, e);
	return send_record(req, t);
}

int fuse_reply_attr(fuse_req_t req, const struct stat *attr, double attr_timeout)
{
	struct codec_thread *t = begin_record(req, NIZWARF_REPLY_ATTR);
	nizwarf_entry *entry;

	if (unlikely(!t))
		return send_no_record(req, NIZWARF_REPLY_ATTR);
	entry = &t->answer.entry;
	entry->attr_nanoseconds = fill_time(attr_timeout, &entry->attr_seconds);
	fill_attr(&entry->attr, attr);
	return send_record(req, t);
}

int fuse_reply_write(fuse_req_t req, size_t count)
{
	const uint32_t kind =
		call_of(req)->opcode == NIZWARF_COPY_64 ? NIZWARF_REPLY_OFFSET : NIZWARF_REPLY_COUNT;
	struct codec_thread *t = begin_record(req, kind);

	if (unlikely(!t))
		return send_no_record(req, kind);
	t->answer.count = count;
	return send_record(req, t);
}

/* Replies to a call that is not a READ with data that may be in files. They are copied into memory first, as
 * libfuse's fuse_reply_data does without a pipe. Returns the result of fuse_reply_buf. */
static int reply_copied(fuse_req_t req, struct fuse_bufvec *bufv)
{
	struct fuse_bufvec flat = FUSE_BUFVEC_INIT(fuse_buf_size(bufv));
	ssize_t res;

	/* malloc(0) may return NULL even if memory is left. */
	flat.buf[0].mem = malloc(flat.buf[0].size ? flat.buf[0].size : 1);
	if (!flat.buf[0].mem)
		return fuse_reply_err(req, ENOMEM);
	res = fuse_buf_copy(&flat, bufv, 0);
	res = res < 0 ? fuse_reply_err(req, (int)-res) : fuse_reply_buf(req, flat.buf[0].mem, (size_t)res);
	free(flat.buf[0].mem);
	return (int)res;
}

/* Replaces libfuse's function, which sends data from files or pipes without a copy. If a file ends early,
 * libfuse corrects the length in the header, because it is not known before the header is in the pipe. */
int fuse_reply_data(fuse_req_t req, struct fuse_bufvec *bufv, enum fuse_buf_copy_flags flags)
{
	_Alignas(struct fuse_out_header) uint8_t header[HEADER];
	struct iovec iov[2];
	size_t reply_len;
	int res;

	if (call_of(req)->reply != NIZWARF_REPLY_DATA || !call_of(req)->opcode)
		return reply_copied(req, bufv);
	/* A file may have fewer bytes. */
	reply_len = encode_data_header(req, fuse_buf_size(bufv), header);
	if (reply_len <= HEADER) /* there are no data, or the header is that of an error */
		return reply_len ? send_encoded(req, header, HEADER, iov, 1) : send_header(req, -ENOMEM);
	iov[0].iov_base = header;
	iov[0].iov_len = HEADER;
	res = fuse_send_data_iov(req->se, req->ch, iov, 1, bufv, flags SEND_OF(req));
	/* A positive result is the error number of a file, and nothing was sent. */
	if (res > 0)
		return fuse_reply_err(req, res);
	fuse_free_req(req);
	return res;
}
