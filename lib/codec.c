/* The functions of nizwarf.h that decode a request and encode its reply. They check pointers, call the
 * proved functions whose names end in `_at`, copy the reply into the parts of the reply buffer, and
 * replace answers that Linux would refuse. */
#include <string.h>
#include "internal.h"

/* Most requests and most reply buffers have one part, so nizwarf_decode and nizwarf_encode have a short
 * path for these. The general path does the same for any number of parts. It is kept out of line, because
 * the short path would otherwise save and restore its registers too. */
#define APART __attribute__((noinline))

nizwarf_lock nizwarf_lock_of(const nizwarf_call *call)
{
	const nizwarf_lock lock = { call->offset, call->other_offset, call->flags, call->more };

	return lock;
}

size_t nizwarf_record_size(size_t name_size, int plus)
{
	return record_size(name_size, plus);
}

void nizwarf_keep_interrupt(nizwarf_interrupts *kept, uint64_t unique)
{
	kept->unique[kept->next++ % NIZWARF_MAX_INTERRUPTS] = unique;
}

int nizwarf_take_interrupt(nizwarf_interrupts *kept, uint64_t unique)
{
	int i;

	/* (0 is an empty place, and no request of Linux) */
	for (i = 0; unique && i < NIZWARF_MAX_INTERRUPTS; i++)
		if (kept->unique[i] == unique) {
			kept->unique[i] = 0;
			return 1;
		}
	return 0;
}

/* Copies the reply out of the scratch memory into the parts of the reply buffer. */
static void put_reply(nizwarf_scratch *scratch, const struct iovec *reply, size_t reply_count, uint64_t put)
{
	size_t at = 0, i;

	for (i = 0; i < reply_count && at < put; i++) {
		size_t len = put - at < reply[i].iov_len ? (size_t)(put - at) : reply[i].iov_len;

		at += nizwarf_scratch_copy_at(scratch, at, (uint8_t *)reply[i].iov_base, len);
	}
}

/* Copies the first bytes of a request. */
static size_t copy_front(const struct iovec *request, size_t request_count, uint8_t *front, size_t size)
{
	size_t len = 0, i;

	for (i = 0; i < request_count && len < size; i++) {
		const size_t part = size - len < request[i].iov_len ? size - len : request[i].iov_len;

		memcpy(front + len, request[i].iov_base, part);
		len += part;
	}
	return len;
}

/* Calls put_reply for a reply buffer of one part after decoding, which few requests require, and returns
 * `code`. */
static APART int32_t put_early(nizwarf_scratch *scratch, const struct iovec *reply, uint64_t put,
			       int32_t code)
{
	put_reply(scratch, reply, 1, put);
	return code;
}

/* Returns whether no pointer is NULL, and the request and the reply buffer have one part each. */
static inline int has_one_part(const nizwarf_scratch *scratch, const nizwarf_session *session,
			       const struct iovec *request, size_t request_count, const struct iovec *reply,
			       size_t reply_count, const nizwarf_call *call, const nizwarf_result *result)
{
	return request_count == 1 && reply_count == 1 && scratch && session && request && reply && call &&
	       result && request->iov_base && reply->iov_base;
}

/* Presets the result and the call, as nizwarf_decode_at requires. */
static inline void begin_decode(const nizwarf_session *session, nizwarf_call *call, nizwarf_result *result)
{
	memset(result, 0, sizeof(*result));
	result->options = session->options;
	call->opcode = 0;
}

/* Returns whether the call is an INIT whose extension options are requested. */
static inline int has_ext_flags(int32_t code, const nizwarf_call *call, uint32_t features)
{
	return code == NIZWARF_CALL && call->opcode == NIZWARF_INIT && features & NIZWARF_FEATURE_INIT;
}

/* Sets the extension options of an INIT. */
static APART void set_ext_flags(const struct iovec *request, size_t request_count, nizwarf_call *call)
{
	uint8_t front[NIZWARF_INIT_FRONT];

	call->other_offset =
		nizwarf_init_capable_at(front, copy_front(request, request_count, front, sizeof(front)));
	call->more = 1;
}

/* The general path of nizwarf_decode. */
static APART int32_t decode_parts(nizwarf_scratch *scratch, const nizwarf_session *session, uint32_t features,
				  const struct iovec *request, size_t request_count,
				  const struct iovec *reply, size_t reply_count, nizwarf_call *call,
				  nizwarf_result *result)
{
	const struct iovec none = { "", 0 };
	size_t total;
	int32_t code;

	if (result)
		memset(result, 0, sizeof(*result));
	if (!scratch || !session || !call || !result)
		return NIZWARF_NULL;
	begin_decode(session, call, result);
	code = add_up(request, request_count, reply, reply_count, &total);
	if (code != NIZWARF_OK)
		return code;
	code = nizwarf_decode_at(scratch, session, features & ~(uint32_t)NIZWARF_FEATURE_INIT,
				 request_count ? request : &none, request_count, total, call, result);
	put_reply(scratch, reply, reply_count, result->written);
	if (has_ext_flags(code, call, features))
		set_ext_flags(request, request_count, call);
	return code;
}

int32_t nizwarf_decode(nizwarf_scratch *scratch, const nizwarf_session *session, uint32_t features,
		       const struct iovec *request, size_t request_count, const struct iovec *reply,
		       size_t reply_count, nizwarf_call *call, nizwarf_result *result)
{
	int32_t code;

	if (!has_one_part(scratch, session, request, request_count, reply, reply_count, call, result))
		return decode_parts(scratch, session, features, request, request_count, reply, reply_count,
				    call, result);
	begin_decode(session, call, result);
	code = nizwarf_decode_at(scratch, session, features & ~(uint32_t)NIZWARF_FEATURE_INIT, request, 1,
				 reply->iov_len, call, result);
	if (has_ext_flags(code, call, features))
		set_ext_flags(request, 1, call);
	return result->written ? put_early(scratch, reply, result->written, code) : code;
}

/* Returns whether a directory entry is invalid: its name has no NUL at its end, or another one before; or
 * with PLUS its error is no error number of Linux. `.` and `..` are not looked up, so their `error` is
 * ignored, whether or not the entry fits. */
static int is_wrong(const nizwarf_dirent *item, int plus)
{
	const uint8_t *end = item->name_size ? item->name + item->name_size - 1 : NULL;
	int is_dot;

	if (!end || memchr(item->name, 0, item->name_size) != end)
		return 1;
	is_dot = item->name[0] == '.' &&
		 (item->name_size == 2 || (item->name_size == 3 && item->name[1] == '.'));
	return plus && !is_dot && item->error > NIZWARF_MAX_ERRNO;
}

/* Returns whether a listing ends before an invalid directory entry. An answer with an error has none. */
static int is_cut(const nizwarf_call *call, const nizwarf_dirent *items, size_t items_len, uint64_t taken)
{
	return call->reply == NIZWARF_REPLY_DIRECTORY && taken < items_len &&
	       is_wrong(&items[taken], (call->has & NIZWARF_PLUS) != 0);
}

/* Encodes EIO in place of an answer that Linux would refuse. */
static int32_t encode_error(nizwarf_scratch *scratch, const nizwarf_session *session,
			    const nizwarf_call *call, nizwarf_result *result)
{
	static const nizwarf_answer fault = NIZWARF_ANSWER_INIT;

	memset(result, 0, sizeof(*result));
	result->options = call->options;
	return nizwarf_encode_at(scratch, session, call, &fault, (const uint8_t *)&fault, 0,
				 (const nizwarf_dirent *)(const void *)&fault, 0, result);
}

/* Copies a short reply with a change: the parameters of an INIT, or the backing file of an OPEN or a
 * CREATE. */
static void put_changed(nizwarf_scratch *scratch, const nizwarf_call *call, const nizwarf_answer *answer,
			const struct iovec *reply, size_t reply_count, nizwarf_result *result)
{
	uint8_t bytes[NIZWARF_LONGEST_CHANGED];
	size_t at = 0, i, len;

	len = nizwarf_scratch_copy_at(scratch, 0, bytes, sizeof(bytes));
	if (call->opcode == NIZWARF_INIT) {
		result->options |=
			nizwarf_add_to_init_at(bytes, len, nizwarf_init_ext_flags(call), answer->init_params);
	} else {
		nizwarf_add_backing_at(bytes, len, (int32_t)answer->count);
	}
	for (i = 0; i < reply_count && at < len; i++) {
		const size_t part = len - at < reply[i].iov_len ? len - at : reply[i].iov_len;

		memcpy(reply[i].iov_base, bytes + at, part);
		at += part;
	}
}

/* Returns whether put_changed must copy the reply. */
static int is_changed(const nizwarf_session *session, const nizwarf_call *call, const nizwarf_answer *answer)
{
	if (answer->error)
		return 0;
	if (call->opcode == NIZWARF_INIT)
		return nizwarf_init_takes_params(call) && answer->init_params;
	return (call->reply == NIZWARF_REPLY_OPEN || call->reply == NIZWARF_REPLY_CREATE) &&
	       session->options & NIZWARF_PASSTHROUGH && answer->count;
}

/* Returns whether the reply depends on no text and no directory entry, which is true of most kinds of
 * answers. (No kind is above 31, and the library encodes no such kind.) */
static int is_plain(const nizwarf_call *call)
{
	const uint32_t others = 1u << NIZWARF_REPLY_DIRECTORY | 1u << NIZWARF_REPLY_ERROR_OR_NONE |
				1u << NIZWARF_REPLY_INIT | 1u << NIZWARF_REPLY_OPEN |
				1u << NIZWARF_REPLY_CREATE | 1u << NIZWARF_REPLY_BYTES;

	return !(others >> (call->reply & 31) & 1);
}

/* The general path of nizwarf_encode. */
static APART int32_t encode_parts(nizwarf_scratch *scratch, const nizwarf_session *session,
				  const nizwarf_call *call, const nizwarf_answer *answer,
				  const struct iovec *reply, size_t reply_count, nizwarf_result *result)
{
	const nizwarf_dirent *items, *item;
	const uint8_t *text;
	size_t total, text_len, items_len;
	int32_t code;

	if (result)
		memset(result, 0, sizeof(*result));
	if (!scratch || !session || !call || !answer || !result)
		return NIZWARF_NULL;
	result->options = call->options;
	code = add_up(NULL, 0, reply, reply_count, &total);
	if (code != NIZWARF_OK)
		return code;
	if (total != call->reply_size)
		return NIZWARF_BAD_CALL;
	/* (with an error neither is read) */
	text_len = answer->error ? 0 : answer->text_len;
	items_len = answer->error ? 0 : answer->items_len;
	/* (the pointers must not be NULL, even if there is no text and no entry) */
	text = (const uint8_t *)answer;
	items = (const nizwarf_dirent *)(const void *)answer;
	if (text_len)
		text = answer->text;
	if (items_len)
		items = answer->items;
	if (!text || !items)
		return NIZWARF_NULL;
	for (item = items; item != items + items_len; item++)
		if (!item->name)
			return NIZWARF_NULL;
	code = nizwarf_encode_at(scratch, session, call, answer, text, text_len, items, items_len, result);
	if (code == NIZWARF_OK &&
	    (answer->error > NIZWARF_MAX_ERRNO || is_cut(call, items, items_len, result->entries) ||
	     (!answer->error && call->reply == NIZWARF_REPLY_ERROR_OR_NONE &&
	      call->opcode != NIZWARF_NOTIFY_REPLY)))
		code = encode_error(scratch, session, call, result);
	if (code == NIZWARF_OK && is_changed(session, call, answer))
		put_changed(scratch, call, answer, reply, reply_count, result);
	else
		put_reply(scratch, reply, reply_count, result->written);
	return code;
}

int32_t nizwarf_encode(nizwarf_scratch *scratch, const nizwarf_session *session, const nizwarf_call *call,
		       const nizwarf_answer *answer, const struct iovec *reply, size_t reply_count,
		       nizwarf_result *result)
{
	const nizwarf_dirent *items = (const nizwarf_dirent *)(const void *)answer;
	int32_t code;

	if (!(reply_count == 1 && scratch && session && call && reply && reply->iov_base && answer &&
	      result && reply->iov_len == call->reply_size && is_plain(call) && !answer->text_len &&
	      !answer->items_len && answer->error <= NIZWARF_MAX_ERRNO))
		return encode_parts(scratch, session, call, answer, reply, reply_count, result);
	memset(result, 0, sizeof(*result));
	result->options = call->options;
	/* (the pointers must not be NULL, though there is no text and no entry) */
	code = nizwarf_encode_at(scratch, session, call, answer, (const uint8_t *)answer, 0, items, 0,
				 result);
	put_reply(scratch, reply, 1, result->written);
	return code;
}

int32_t nizwarf_scratch_free(nizwarf_scratch *scratch)
{
	return scratch ? nizwarf_scratch_free_at(scratch) : NIZWARF_NULL;
}
