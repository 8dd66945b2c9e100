// The public headers in a program in C++: they compile without a warning, their functions link by their names in C, and
// a table of C++ functions is served. tests/c/test_c_headers.py compiles it with each compiler for C++ that is installed.
// Status 0: all is as it should be.
#include <cstdio>
#include <cstring>
#include <linux/fuse.h>
#include "nizwarf_ops.h"
#include "nizwarf_tree.h"

namespace
{

int root_getattr(const nizwarf_req *, uint64_t ino, const nizwarf_file_info *, nizwarf_attr *attr,
		 struct timespec *timeout)
{
	if (ino != 1)
		return ENOENT;
	attr->mode = S_IFDIR | 0755;
	*timeout = nizwarf_timeout(1);
	return 0;
}

struct request {
	fuse_in_header header;
	fuse_getattr_in record;
};

struct reply {
	fuse_out_header header;
	fuse_attr_out record;
};

// The reply to a GETATTR of a node, by the table. -1: there is none.
int32_t ask(uint64_t node, reply *to)
{
	nizwarf_ops ops = nizwarf_ops();
	nizwarf_scratch slot = NIZWARF_SCRATCH_INIT;
	nizwarf_session session = { 0, 4096, 1 << 20 };
	request from = request();
	nizwarf_dirent items[1];
	size_t len;

	ops.getattr = root_getattr;
	from.header.len = sizeof(from);
	from.header.opcode = FUSE_GETATTR;
	from.header.nodeid = node;
	const int32_t code = nizwarf_serve_ops(&ops, nullptr, &slot, &session, &from, sizeof(from), to,
					       sizeof(*to), items, 1, &len);
	if (nizwarf_scratch_free(&slot) != NIZWARF_OK || code != NIZWARF_OK)
		return -1;
	return to->header.error;
}

} // namespace

int main()
{
	nizwarf_server server = NIZWARF_SERVER_INIT;
	const nizwarf_server_config settings = NIZWARF_SERVER_CONFIG;
	const nizwarf_answer answer = NIZWARF_ANSWER_INIT;
	char notice[64], line[256];
	const request cut = request();
	reply got;

	const bool is_so = nizwarf_version() == NIZWARF_VERSION && answer.error != 0 && ask(1, &got) == 0 &&
			   got.record.attr.mode == (S_IFDIR | 0755) && ask(2, &got) == -ENOENT &&
			   nizwarf_notice_poll(1, notice, sizeof(notice)) == 24 &&
			   nizwarf_print_request(&cut, sizeof(cut), 0, line, sizeof(line)) > 0 &&
			   nizwarf_server_new(&server, 4096, 1 << 20, &settings) == NIZWARF_OK &&
			   nizwarf_server_free(&server) == NIZWARF_OK;
	if (is_so)
		std::puts("The headers compile and link in C++.");
	return is_so ? 0 : 1;
}
