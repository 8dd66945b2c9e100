/* Declarations that make.py puts after the includes of libfuse's fuse_lowlevel.c, so that libfuse's code can
 * call the files beside this one. make.py defines the HAVE_ macros, because the functions and fields of that
 * file differ from one version of libfuse to the next. */
#ifndef CODEC_H
#define CODEC_H

/* For SSE2, which every x86-64 processor has: listings.h checks 16 bytes of a name at a time. */
#include <emmintrin.h>
#include <limits.h>
#include <nizwarf.h>
#include <time.h>

#ifndef likely
#define likely(it) __builtin_expect(!!(it), 1)
#define unlikely(it) __builtin_expect(!!(it), 0)
#endif

/* A session of libfuse, followed by the state that the codec needs. A pointer to the first member also points
 * to the whole, so libfuse's code needs no change. */
struct codec_session {
	/* This must be the first member, because libfuse uses the struct as its own and frees it. */
	struct fuse_session se;
	/* The options that INIT has negotiated; 0 before an INIT and after a DESTROY. Other threads may read
	 * this and `sizes` while an INIT is processed, so both must be accessed atomically. */
	uint64_t options;
	/* The page size in the lower 32 bits, and the largest payload in the upper 32. */
	uint64_t sizes;
	/* The number of pending interrupts, which are in libfuse's list `interrupts`. It must only be changed
	 * under the session's lock, and may be read without it. */
	unsigned int pending;
	/* The number of calls that began while interrupts were pending. The session's lock protects it. */
	unsigned int calls;
};

/* Which threads may use a request. CODEC_PRIVATE: only the one that serves it. CODEC_SHARED: others too,
 * because the request is in libfuse's list or ends more than once; so it must be freed under the session's
 * lock. CODEC_ENDED: none, because it has ended and its memory is kept for the next request. The state need
 * not be atomic, because only the thread that serves the request makes it shared, before another thread can
 * find it. */
enum { CODEC_PRIVATE, CODEC_SHARED, CODEC_ENDED };

struct codec_req {
	/* This must be the first member, for the same reason as in a session. */
	struct fuse_req req;
	int state; /* CODEC_PRIVATE, CODEC_SHARED or CODEC_ENDED */
	/* The decoded call. Without a call, `opcode` is 0 and `reply` is NIZWARF_REPLY_NONE: the reply is
	 * then a header alone, and no other field is read. */
	nizwarf_call call;
};

/* These casts are valid because every session is allocated by codec_new_session, and every request by
 * codec_new_req. */
static inline struct codec_session *codec_session_of(struct fuse_session *se)
{
	return (struct codec_session *)(void *)se;
}

static inline struct codec_req *codec_req_of(fuse_req_t req)
{
	return (struct codec_req *)(void *)req;
}

static inline nizwarf_call *call_of(fuse_req_t req)
{
	return &codec_req_of(req)->call;
}

/* Allocates a session in place of libfuse's calloc(). libfuse frees it by free(). Returns NULL if out of
 * memory. */
static struct fuse_session *codec_new_session(void);
/* Frees a shared request in place of libfuse's free(). The request must be in no list and have no channel. */
static void codec_free_req(struct fuse_req *req);

/* Makes a request visible to interrupts, and marks it as interrupted if its interrupt is already pending.
 * Returns 0 if the request has ended. The caller must not change it then, because its memory may be the next
 * request's. */
static int codec_enable_interrupts(fuse_req_t req);
/* Frees a private request, and does nothing if the request has ended. Returns 0 if the request is shared:
 * libfuse's code must free it then, under the session's lock. */
static int codec_free_private(fuse_req_t req);
/* Frees the pending interrupts of a session, which no other thread may use any more. */
static void codec_free_interrupts(struct fuse_session *se);

/* Sleeps for a millisecond, because memory may be available later. Returns 0 after 1000 calls with the same
 * counter, so that the caller waits for a second at most. (A signal may shorten a pause.) */
static inline int codec_pause(int *tries)
{
	const struct timespec pause = { 0, 1000000 };

	if (++*tries > 1000)
		return 0;
	nanosleep(&pause, NULL);
	return 1;
}

/* Retries an allocation for a message of the client, because the session would end without it. */
#define CODEC_RETRY(allocation)                      \
	({                                           \
		void *at_ = (allocation);            \
		int tries_ = 0;                      \
		while (!at_ && codec_pause(&tries_)) \
			at_ = (allocation);          \
		at_;                                 \
	})

/* Fills in the entry of a reply or a listing. libfuse's fuse_reply_create also calls it. */
static void fill_entry(struct fuse_entry_out *out, const struct fuse_entry_param *e);
/* Returns the length of the complete records at the beginning of a listing, or 0 if Linux would refuse one of
 * them or none is complete. Bytes after `len` are never read, even if another thread of the program changes
 * the listing at the same time. */
static size_t check_listing(const nizwarf_call *call, const char *records, size_t len);

/* Send a reply and a notice. Only fuse_reply_data and fuse_lowlevel_notify_store do not use these functions.
 * `error` is 0 or a negated error number. The first element of `iov` is reserved for the header. A reply ends
 * its request. Both functions return 0 or a negated error number: for a reply -ENOENT if the client did not
 * receive it, so that the file system must release the lookup or the handle that it has sent; for a notice
 * -ENOTCONN before an INIT, and -EINVAL if the codec has no notice of this kind. */
static int send_reply_iov(fuse_req_t req, int error, struct iovec *iov, int count);
static int send_notify_iov(struct fuse_session *se, int notify_code, struct iovec *iov, int count);

/* In libfuse 3.18, fuse_send_msg has the request as one more parameter, for io_uring. */
#ifdef HAVE_SEND_REQ
#define SEND_OF(req) , req
#else
#define SEND_OF(req)
#endif

/* The capabilities that the file system has requested. */
#ifdef HAVE_WANT_EXT
#define WANTED(se) ((se)->conn.want_ext)
#else
#define WANTED(se) ((se)->conn.want)
#endif

#endif
