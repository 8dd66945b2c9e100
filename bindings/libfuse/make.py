#!/usr/bin/env python3
"""Makes libfuse's fuse_lowlevel.c over the codec: removes the replaced functions from it, and includes the files beside this one.

Usage: bindings/libfuse/make.py FUSE_LOWLEVEL_C
The result is written to the standard output, and the number of removed lines to the standard error. The exit status is 1 if
the file is of an unknown version of libfuse, in which the functions to replace are missing.
"""
import re
import sys

# Functions that must all exist, because the files here replace them, or call the functions that they called.
REPLACED = """send_reply_iov send_notify_iov fuse_reply_entry fuse_reply_attr fuse_reply_write fuse_reply_data
fuse_lowlevel_notify_store fuse_ll_alloc_req fill_entry fuse_add_direntry fuse_add_direntry_plus check_interrupt do_lookup
do_forget do_read do_write_buf do_setattr do_interrupt do_notify_reply opname""".split()
# Functions that only those call, and all other functions that decode a request, except those of INIT and DESTROY.
CALLED = r"(?:_?do_(?!init\b|destroy\b|fuse_(?!reply_(?:write|copy)\b))\w+|copy_\w+_common|convert_attr|fuse_req_opcode_sanity_ok|fuse_session_in2req" \
         r"|fuse_req_check_allow_root|fuse_session_process_uring_cqe)"
# Macros for the features of a version of libfuse, and the patterns by which these are recognised.
HAS = {
    "HAVE_SEND_REQ": r"int fuse_send_msg\([^;{]*fuse_req_t req\)",
    "HAVE_WANT_EXT": r"conn\.want_ext",
    "HAVE_KILL_SUIDGID": r"kill_suidgid",
    "HAVE_TMPFILE": r"op\.tmpfile",
    "HAVE_STATX_OP": r"op\.statx",
    "HAVE_COPY_64": r"is_copy\w+_64",
    "HAVE_ERROR_NAMES": r"strerrordesc_np",
    "HAVE_NO_INTERRUPT": r"conn\.no_interrupt",
    "HAVE_TRACE_PROCESS": r"trace_request_process\(",
    "HAVE_RETRIEVE_HEADER": r"sizeof\(struct fuse_in_header\) \+\s*sizeof\(struct fuse_notify_retrieve_in\)",
}
# The check for a message that is shorter than a header. It ends the session in libfuse; here the codec rejects the message.
SHORT = r'^\tif \((?:\(size_t\) ?)?res < sizeof\(struct fuse_in_header\)\) \{\n[^\n]*"short [^\n]*\n\t\treturn -EIO;\n\t\}\n'
# Where a session and a request are allocated and freed, because the codec has its own state after libfuse's structs. And the
# functions by which a file system checks for interrupts, because a request is put into libfuse's list only then.
CHANGED = (
    (r"\(struct fuse_session \*\) ?calloc\(1, sizeof\(struct fuse_session\)\)", "codec_new_session()"),
    (r"pthread_mutex_destroy\(&req->lock\);\n\tfree\(req\);", "codec_free_req(req);"),
    (r"(void fuse_free_req\(fuse_req_t req\)\n\{\n)", r"\1\tif (codec_free_private(req))\n\t\treturn;\n\n"),
    (r"(void fuse_req_interrupt_func\([^{]*\{\n)", r"\1\tif (!codec_enable_interrupts(req))\n\t\treturn;\n"),
    (r"(int fuse_req_interrupted\([^{]*\{\n)", r"\1\tif (!codec_enable_interrupts(req))\n\t\treturn 0;\n"),
    (r"(void fuse_session_destroy\([^{]*\{\n)", r"\1\tcodec_free_interrupts(se);\n"),
)
# The allocation of memory for a message. It is retried, because the session would end without it.
BUFFER = r"= (malloc\(se->bufsize\)|buf_alloc\(bufsize, internal\));"
PROCESS = r"fuse_session_process_buf_int(?:ernal)?"


def definition(name):
    """Returns a pattern for the definition of a function, up to its last brace."""
    return rf"^(?:static\b[^;{{}}=#]*?|int |void |[a-z_]+ )\b{name}\([^;{{}}]*\)\n\{{.*?^\}}\n"


def remove(source, pattern, name):
    """Returns the source without all matches of the pattern, of which there must be one. The error names `name`."""
    left, count = re.subn(pattern, "", source, flags=re.S | re.M)
    if not count:
        sys.exit(f"fuse_lowlevel.c has no {name}, so it is of an unknown version of libfuse.")
    return left


def main():
    """Reads the file that is named, and writes the result. Each place to change must be there as often as in the known versions,
    because an unknown version could otherwise be built with a wrong result."""
    if len(sys.argv) != 2 or sys.argv[1] in ("-h", "--help"):
        print(__doc__.strip())
        sys.exit(0 if len(sys.argv) == 2 else 2)
    with open(sys.argv[1], encoding="utf-8") as file:
        source = file.read()
    macros = [name for name, sign in HAS.items() if re.search(sign, source, re.S)]
    process = re.search(rf"^void ({PROCESS})\(", source, re.M)
    result = source
    for name in REPLACED:
        result = remove(result, definition(name), name)
    result = remove(result, definition(PROCESS), "fuse_session_process_buf_int")
    result = remove(result, definition(CALLED), "do_getattr")
    # The tables of functions by opcode: versions with io_uring have two.
    result = remove(result, r"^static struct \{\n\tvoid \(\*func\).*?^\} fuse_ll_ops2?\[\][^\n]*\n.*?^\};\n", "fuse_ll_ops")
    for old, new in CHANGED:
        result, count = re.subn(old, new, result)
        if count != 1:
            sys.exit(f"fuse_lowlevel.c has {count} matches of {old} in place of one, so it is of an unknown version of libfuse.")
    result, count = re.subn(SHORT, "", result, flags=re.M)
    if count != 2:
        sys.exit("fuse_lowlevel.c receives messages in an unknown way.")
    result, count = re.subn(BUFFER, r"= CODEC_RETRY(\1);", result)
    if not count:
        sys.exit("fuse_lowlevel.c allocates messages in an unknown way.")
    result, count = re.subn(r'(#include "mount_util\.h"\n)', r'\1#include "codec.h"\n', result)
    if count != 1:
        sys.exit("fuse_lowlevel.c does not include mount_util.h once.")
    print("\n".join(f"#define {name} 1" for name in macros))
    print(f"#define PROCESS_BUF {process.group(1)}")
    print(f"#define REQ_COUNT {'ref_cnt' if 'req->ref_cnt' in source else 'ctr'}")
    print(result)
    for part in ("replies.h", "listings.h", "notices.h", "interrupts.h", "requests.h"):
        print(f'#include "{part}"')
    lines = source.count("\n")
    print(f"Removed {lines - result.count(chr(10))} of {lines} lines of libfuse's fuse_lowlevel.c.", file=sys.stderr)


main()
