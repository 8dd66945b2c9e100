/* The functions of nizwarf.h that need no scratch memory: checks of requests, messages as text, and
 * notices. They check pointers, and call the proved functions whose names end in `_at`. */
#include "nizwarf.h"

int32_t nizwarf_check(const nizwarf_session *session, uint32_t features, const void *request, size_t len,
		      size_t reply_size, nizwarf_call *call, uint64_t *interrupts)
{
	if (!session || !request || !call || !interrupts)
		return NIZWARF_NULL;
	call->opcode = 0;
	*interrupts = 0;
	return nizwarf_check_at(session, features & ~(uint32_t)NIZWARF_FEATURE_INIT, (const uint8_t *)request,
				len, reply_size, call, interrupts);
}

size_t nizwarf_print_request(const void *request, size_t len, uint64_t options, char *text, size_t size)
{
	uint8_t none = 0;

	return nizwarf_print_request_at(request ? (const uint8_t *)request : &none, request ? len : 0,
					options, text ? (uint8_t *)text : &none, text ? size : 0);
}

size_t nizwarf_print_reply(const void *request, size_t len, const void *reply, size_t reply_len, char *text,
			   size_t size)
{
	uint8_t none = 0;

	return nizwarf_print_reply_at(request ? (const uint8_t *)request : &none, request ? len : 0,
				      reply ? (const uint8_t *)reply : &none, reply ? reply_len : 0,
				      text ? (uint8_t *)text : &none, text ? size : 0);
}

size_t nizwarf_notice_poll(uint64_t kh, void *out, size_t size)
{
	return out ? nizwarf_notice_poll_at(kh, (uint8_t *)out, size) : 0;
}

size_t nizwarf_notice_inval_inode(uint64_t node, int64_t offset, int64_t len, void *out, size_t size)
{
	return out ? nizwarf_notice_inval_inode_at(node, offset, len, (uint8_t *)out, size) : 0;
}

size_t nizwarf_notice_inval_entry(uint64_t parent, uint32_t flags, const char *name, size_t name_len,
				  void *out, size_t size)
{
	return name && out ? nizwarf_notice_inval_entry_at(parent, flags, (const uint8_t *)name, name_len,
							   (uint8_t *)out, size) :
			     0;
}

size_t nizwarf_notice_store(uint64_t node, uint64_t offset, uint32_t count, void *out, size_t size)
{
	return out ? nizwarf_notice_store_at(node, offset, count, (uint8_t *)out, size) : 0;
}

size_t nizwarf_notice_retrieve(uint64_t unique, uint64_t node, uint64_t offset, uint32_t count, void *out,
			       size_t size)
{
	return out ? nizwarf_notice_retrieve_at(unique, node, offset, count, (uint8_t *)out, size) : 0;
}

size_t nizwarf_notice_delete(uint64_t parent, uint64_t child, const char *name, size_t name_len, void *out,
			     size_t size)
{
	return name && out ? nizwarf_notice_delete_at(parent, child, (const uint8_t *)name, name_len,
						      (uint8_t *)out, size) :
			     0;
}

size_t nizwarf_notice_resend(void *out, size_t size)
{
	return out ? nizwarf_notice_resend_at((uint8_t *)out, size) : 0;
}

size_t nizwarf_notice_inc_epoch(void *out, size_t size)
{
	return out ? nizwarf_notice_inc_epoch_at((uint8_t *)out, size) : 0;
}

size_t nizwarf_notice_prune(uint32_t count, void *out, size_t size)
{
	return out ? nizwarf_notice_prune_at(count, (uint8_t *)out, size) : 0;
}
