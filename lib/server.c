/* The functions of nizwarf_tree.h. They check pointers, call the proved functions whose names end in
 * `_at`, and copy replies into the parts of the reply buffer. */
#include "internal.h"
#include "nizwarf_tree.h"

int32_t nizwarf_server_new(nizwarf_server *server, uint32_t page_size, uint32_t max_buffer,
			   const nizwarf_server_config *settings)
{
	const nizwarf_server_config defaults = NIZWARF_SERVER_CONFIG;

	if (!server)
		return NIZWARF_NULL;
	return nizwarf_server_new_at(server, page_size, max_buffer, settings ? settings : &defaults);
}

int32_t nizwarf_server_set_time(nizwarf_server *server, uint64_t seconds, uint32_t nanoseconds)
{
	return server ? nizwarf_server_set_time_at(server, seconds, nanoseconds) : NIZWARF_NULL;
}

int32_t nizwarf_server_handle(nizwarf_server *server, const struct iovec *request, size_t request_count,
			      const struct iovec *reply, size_t reply_count, size_t *len)
{
	const struct iovec none = { "", 0 };
	size_t total, at = 0, i;
	int32_t code;

	if (!len)
		return NIZWARF_NULL;
	*len = 0;
	if (!server)
		return NIZWARF_NULL;
	code = add_up(request, request_count, reply, reply_count, &total);
	if (code != NIZWARF_OK)
		return code;
	code = nizwarf_server_handle_at(server, request_count ? request : &none, request_count, total, len);
	if (code != NIZWARF_OK && code != NIZWARF_ENCODE_MESSAGE)
		return code;
	for (i = 0; i < reply_count; i++) {
		size_t copied =
			nizwarf_server_copy_at(server, at, (uint8_t *)reply[i].iov_base, reply[i].iov_len);

		if (copied < reply[i].iov_len)
			break;
		at += copied;
	}
	return code;
}

int32_t nizwarf_server_handle_take(nizwarf_server *server, const struct iovec *request, size_t request_count,
				   size_t reply_size, nizwarf_reply_buf *taken, const void **reply,
				   size_t *len)
{
	const struct iovec none = { "", 0 };
	nizwarf_reply_range place = { NULL, 0, 0 };
	size_t total;
	int32_t code;

	if (reply)
		*reply = NULL;
	if (len)
		*len = 0;
	if (!server || !taken || !reply || !len)
		return NIZWARF_NULL;
	code = add_up(request, request_count, NULL, 0, &total);
	if (code != NIZWARF_OK)
		return code;
	/* (the first call, without a reply, gives `taken` memory, so that none has to be allocated for
	 * the reply) */
	code = nizwarf_server_take_at(server, taken, &place);
	if (code == NIZWARF_OK)
		code = nizwarf_server_handle_at(server, request_count ? request : &none, request_count,
						reply_size, len);
	if (code != NIZWARF_OK || !*len)
		return code;
	code = nizwarf_server_take_at(server, taken, &place);
	*len = place.len;
	*reply = place.at + place.start;
	return code;
}

int32_t nizwarf_reply_buf_free(nizwarf_reply_buf *taken)
{
	return taken ? nizwarf_reply_buf_free_at(taken) : NIZWARF_NULL;
}

uint64_t nizwarf_server_options(nizwarf_server *server)
{
	return server ? nizwarf_server_options_at(server) : 0;
}

uint32_t nizwarf_server_max_buffer(nizwarf_server *server)
{
	return server ? nizwarf_server_max_buffer_at(server) : 0;
}

int32_t nizwarf_server_free(nizwarf_server *server)
{
	return server ? nizwarf_server_free_at(server) : NIZWARF_NULL;
}
