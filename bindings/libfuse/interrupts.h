/* Interrupts. libfuse puts each request into a list under a lock, so that an interrupt can find it. This is
 * only needed if the file system checks for interrupts. So here a request is put into the list when the file
 * system first calls fuse_req_interrupted or fuse_req_interrupt_func for it, and other requests need no lock.
 * An interrupt whose request is not in the list stays pending, because the file system may check later, and
 * because the interrupt may have overtaken its request. */

enum {
	/* If more interrupts than this are pending, each call rejects the oldest one. Otherwise one call in
	 * this many does, so that no interrupt stays pending forever. */
	MAX_PENDING = 64,
	/* If more are pending, an interrupt rejects the oldest one too, because there may be no calls. */
	MAX_PENDING_IDLE = 8192,
};

/* Returns whether Linux may send interrupts. If not, the first one is replied ENOSYS, and Linux sends no
 * others. */
static int has_interrupts(const struct fuse_session *se)
{
#ifdef HAVE_NO_INTERRUPT
	return !se->conn.no_interrupt;
#else
	(void)se;
	return 1;
#endif
}

/* Returns the number of pending interrupts. Without the session's lock it may be out of date, which does no
 * harm, because the next caller reads it again. */
static unsigned int count_pending(struct fuse_session *se)
{
	return __atomic_load_n(&codec_session_of(se)->pending, __ATOMIC_RELAXED);
}

/* Frees an interrupt that is in no list. It has no reply. */
static void free_interrupt(struct fuse_req *interrupt)
{
	fuse_chan_put(interrupt->ch);
	interrupt->ch = NULL;
	destroy_req(interrupt);
}

/* Removes a pending interrupt from the list. The caller must have locked the session, also for the next
 * function. */
static struct fuse_req *remove_pending(struct fuse_session *se, struct fuse_req *interrupt)
{
	list_del_req(interrupt);
	/* A private request is recycled without being reset. So its links must be clear, and also the union,
	 * which has the number of a request here, but an interrupt function in other requests. */
	list_init_req(interrupt);
	memset(&interrupt->u, 0, sizeof(interrupt->u));
	__atomic_store_n(&codec_session_of(se)->pending, count_pending(se) - 1, __ATOMIC_RELAXED);
	return interrupt;
}

/* Frees the pending interrupt of a request. Returns 0 if none is pending. */
static int free_pending(struct fuse_session *se, uint64_t unique)
{
	struct fuse_req *interrupt;

	for (interrupt = se->interrupts.next; interrupt != &se->interrupts; interrupt = interrupt->next)
		if (interrupt->u.i.unique == unique) {
			free_interrupt(remove_pending(se, interrupt));
			return 1;
		}
	return 0;
}

/* Rejects the oldest pending interrupt, if there are many, or if many calls were made since. Its request has
 * most likely ended before it arrived; if not, Linux sends it again because of EAGAIN. If it stayed pending,
 * each request that ends would have to search the list. */
static __attribute__((noinline)) void reject_oldest(struct fuse_session *se)
{
	struct fuse_req *oldest = NULL;
	unsigned int pending;

	pthread_mutex_lock(&se->lock);
	/* The number must be read again under the lock, because another thread may have removed
	 * interrupts. */
	pending = count_pending(se);
	if (pending > MAX_PENDING || (pending && ++codec_session_of(se)->calls % MAX_PENDING == 0))
		oldest = remove_pending(se, se->interrupts.next);
	pthread_mutex_unlock(&se->lock);
	if (oldest)
		/* The session must not be locked here, because a reply locks it. */
		fuse_reply_err(oldest, EAGAIN);
}

/* Delivers an interrupt to its request, or leaves it pending. */
static void handle_interrupt(fuse_req_t req, uint64_t unique)
{
	struct fuse_session *se = req->se;

	req->u.i.unique = unique;
	/* find_interrupted unlocks the session while it calls the function of the file system, and locks it
	 * again. */
	pthread_mutex_lock(&se->lock);
	if (find_interrupted(se, req)) {
		free_interrupt(req);
	} else {
		list_add_req(req, &se->interrupts);
		__atomic_store_n(&codec_session_of(se)->pending, count_pending(se) + 1, __ATOMIC_RELAXED);
	}
	pthread_mutex_unlock(&se->lock);
	if (count_pending(se) > MAX_PENDING_IDLE)
		reject_oldest(se);
}

/* libfuse calls this at the beginning of fuse_req_interrupted and fuse_req_interrupt_func. */
static int codec_enable_interrupts(fuse_req_t req)
{
	struct fuse_session *se = req->se;
	int state;

	if (!has_interrupts(se))
		return 1;
	pthread_mutex_lock(&se->lock);
	state = codec_req_of(req)->state;
	/* Only the first time, because the request stays in the list until it ends. */
	if (state == CODEC_PRIVATE) {
		codec_req_of(req)->state = CODEC_SHARED;
		list_add_req(req, &se->list);
		/* Linux does not send a pending interrupt again, so it must be recorded here. */
		if (free_pending(se, req->unique))
			req->interrupted = 1;
	}
	pthread_mutex_unlock(&se->lock);
	if (state == CODEC_ENDED)
		fuse_log(FUSE_LOG_ERR, "fuse: an interrupt function was called after the reply\n");
	return state != CODEC_ENDED;
}

/* Frees the pending interrupt of a request that ends now, because Linux may soon reuse its number. */
static __attribute__((noinline)) void free_overtaken(struct fuse_session *se, uint64_t unique)
{
	pthread_mutex_lock(&se->lock);
	free_pending(se, unique);
	pthread_mutex_unlock(&se->lock);
}

/* libfuse calls this at the beginning of fuse_free_req, for any request. */
static inline int codec_free_private(fuse_req_t req)
{
	if (unlikely(codec_req_of(req)->state != CODEC_PRIVATE))
		/* The memory of an ended request belongs to the thread that ended it, so it must not be
		 * changed. */
		return codec_req_of(req)->state == CODEC_ENDED;
	if (unlikely(count_pending(req->se)))
		free_overtaken(req->se, req->unique);
	if (req->ch) {
		fuse_chan_put(req->ch);
		req->ch = NULL;
	}
	recycle_req(req);
	return 1;
}

static void codec_free_interrupts(struct fuse_session *se)
{
	/* No lock is needed, because no other thread uses the session. */
	while (count_pending(se))
		free_interrupt(remove_pending(se, se->interrupts.next));
}
