/* The public headers in C and in C++: test_headers.py compiles it in both, and links it with the shared libraries.
 * Status 0: all is as it should be. */
#include "nizwarf.h"
#include "nizwarf_fuse.h"
#include "nizwarf_ops.h"
#include "nizwarf_tree.h"

static nizwarf_fuse_notices notices = NIZWARF_FUSE_NOTICES_INIT;
static nizwarf_ops ops;

static int32_t serve(void *user, unsigned worker, const struct iovec *request, size_t request_count,
		     const struct iovec *reply, size_t reply_count, size_t *reply_len)
{
	(void)user, (void)worker, (void)request, (void)request_count, (void)reply, (void)reply_count;
	*reply_len = 0;
	return NIZWARF_CALL;
}

int main(int argc, char **argv)
{
	static nizwarf_transport by;
	nizwarf_scratch scratch = NIZWARF_SCRATCH_INIT;

	by.size = sizeof(by);
	by.program = "header";
	by.workers = 1;
	by.notices = &notices;
	by.serve = serve;
	/* (each of these has to be found, and is called in no case) */
	if (argc > 100) {
		nizwarf_request_complete(nizwarf_request_keep(), NIZWARF_OK, NULL, 0);
		nizwarf_fuse_detach(&by, argv[1]);
		return nizwarf_fuse_main(argc, argv, &ops, NULL) +
		       nizwarf_fuse_serve(&by, nizwarf_fuse_mount(&by, "source", argv[1], 0, NULL), NULL);
	}
	/* A size that the library does not know is that of a later header. */
	for (by.size = 0; by.size <= sizeof(by) + 16; by.size += 8)
		if (by.size != sizeof(by) &&
		    (nizwarf_fuse_open(&by) != -1 || nizwarf_fuse_serve(&by, -1, NULL) != 1))
			return 1;
	by.size = sizeof(by);
	by.workers = NIZWARF_MAX_WORKERS + 1;
	if (nizwarf_fuse_open(&by) != -1 || nizwarf_fuse_mount(&by, "", "/", 0, NULL) != -1)
		return 1;
	if (nizwarf_version() != NIZWARF_VERSION || nizwarf_scratch_free(&scratch) == NIZWARF_OK)
		return 1;
	return nizwarf_fuse_notify(&notices, "", 1, NULL, 0) != ENOTCONN;
}
