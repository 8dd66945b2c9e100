/* Functions that several files of the library use. This header is not installed. */
#ifndef NIZWARF_INTERNAL_H
#define NIZWARF_INTERNAL_H

#include "nizwarf_ops.h"

/* Adds up the lengths of the parts of a reply buffer. Returns NIZWARF_NULL if a list or a part of one is
 * NULL. */
static inline int32_t add_up(const struct iovec *request, size_t request_count, const struct iovec *reply,
			     size_t reply_count, size_t *total)
{
	size_t i;

	*total = 0;
	if ((request_count && !request) || (reply_count && !reply))
		return NIZWARF_NULL;
	for (i = 0; i < request_count; i++)
		if (!request[i].iov_base)
			return NIZWARF_NULL;
	for (i = 0; i < reply_count; i++) {
		if (!reply[i].iov_base)
			return NIZWARF_NULL;
		if (reply[i].iov_len > SIZE_MAX - *total)
			return NIZWARF_TOO_LONG;
		*total += reply[i].iov_len;
	}
	return NIZWARF_OK;
}

/* Returns whether the text of an answer is a record, which the library checks. */
static inline int is_record(const nizwarf_call *call)
{
	return call->reply == NIZWARF_REPLY_BYTES && call->opcode != NIZWARF_READLINK;
}

/* The seconds and nanoseconds of a time in a reply: negative times are 0, and there are less than
 * 1000000000 nanoseconds. */
static inline uint64_t seconds_of(struct timespec time)
{
	return time.tv_sec < 0 ? 0 : (uint64_t)time.tv_sec;
}

static inline uint32_t nanoseconds_of(struct timespec time)
{
	if (time.tv_sec < 0 || time.tv_nsec < 0)
		return 0;
	return time.tv_nsec > 999999999 ? 999999999 : (uint32_t)time.tv_nsec;
}

/* The bodies of nizwarf_entry_of and nizwarf_record_size. */
static inline nizwarf_entry entry_of(const nizwarf_entry_param *e)
{
	nizwarf_entry entry;

	entry.node = e->ino;
	entry.generation = e->generation;
	entry.entry_seconds = seconds_of(e->entry_timeout);
	entry.attr_seconds = seconds_of(e->attr_timeout);
	entry.entry_nanoseconds = nanoseconds_of(e->entry_timeout);
	entry.attr_nanoseconds = nanoseconds_of(e->attr_timeout);
	entry.attr = e->attr;
	return entry;
}

static inline size_t record_size(size_t name_size, int plus)
{
	return (plus ? 128 : 0) + ((24 + name_size - 1 + 7) & ~(size_t)7);
}

#endif
