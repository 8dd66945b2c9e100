"""The samples of the header and of the manual pages do what a reader expects of them, not only compile."""
import errno
import re
import struct
import subprocess

import pytest
from examples import (GETATTR, GETATTR_RECORD, IN_HEADER, INIT, INIT_RECORD, LOOKUP, OUT_HEADER, REPOSITORY, ROOT, UNLINK,
                      library, run)

# What stands around a sample: a file system of one directory, and a server of requests, each after its length, whose
# replies are written likewise. serve() is the sample's.
PROGRAM = """
#include <errno.h>
#include <stdio.h>
#include <sys/stat.h>
static size_t serve(const struct iovec *request, size_t request_count, const struct iovec *reply, size_t reply_count);

int make_call(const nizwarf_call *call, nizwarf_answer *answer)
{
	if (call->opcode == NIZWARF_INIT)
		return 0;
	if (call->opcode != NIZWARF_GETATTR)
		return call->opcode == NIZWARF_LOOKUP ? ENOENT : ENOSYS;
	answer->entry.attr.ino = 1;
	answer->entry.attr.mode = S_IFDIR | 0755;
	return 0;
}

void take_back(uint64_t node, uint64_t lookups)
{
	(void)node, (void)lookups;
}

int main(void)
{
	static uint8_t request[4096], room[1 << 20];
	uint32_t len;

	while (fread(&len, 4, 1, stdin) == 1 && fread(request, 1, len, stdin) == len) {
		const struct iovec piece = { request, len };
		const struct iovec whole = { room, sizeof(room) };

		len = (uint32_t)serve(&piece, 1, &whole, 1);
		fwrite(&len, 4, 1, stdout);
		fwrite(room, 1, len, stdout);
	}
	return nizwarf_scratch_free(&scratch) != NIZWARF_OK;
}
"""
# What the header's sample leaves out as `..`, and around it.
AROUND_HEADER = """
static size_t serve(const struct iovec *request, size_t request_count, const struct iovec *reply, size_t reply_count)
{
	nizwarf_call call;
	nizwarf_result result;
	int32_t code;

%s
	return result.len;
}
"""


def of_header():
    """The sample at the head of nizwarf.h, as a program."""
    text = (REPOSITORY / "include/nizwarf.h").read_text()
    lines = re.findall(r"^ \*(?:\t(.*))?$", text.partition(" */\n")[0], re.M)
    sample = "\n".join(lines).strip("\n")
    begin, _, body = sample.partition("..\n")
    assert "nizwarf_scratch scratch" in begin and body.rstrip().endswith("complete(result.len);")
    return (f"#include <nizwarf.h>\nstatic {begin.replace(chr(10) + 'nizwarf_session', chr(10) + 'static nizwarf_session')}"
            + PROGRAM + AROUND_HEADER % body.replace("complete(result.len);", ""))


def of_page():
    """The example of nizwarf(3), as a program."""
    awk = ["awk", "-f", REPOSITORY / "packaging/examples.awk", REPOSITORY / "packaging/man/nizwarf.3.in"]
    sample = subprocess.run(awk, stdout=subprocess.PIPE, text=True, check=True).stdout
    assert "\nsize_t serve(" in sample
    return sample.replace("\nsize_t serve(", "\nstatic size_t serve(") + PROGRAM


@pytest.fixture(scope="module", params=[of_header, of_page])
def program(request, tmp_path_factory):
    folder = tmp_path_factory.mktemp("sample")
    (folder / "sample.c").write_text("#define _DEFAULT_SOURCE\n" + request.param())
    run("cc", "-std=c11", "-Wall", "-Wextra", "-Werror", "-I", REPOSITORY / "include", "-o", folder / "sample",
        folder / "sample.c", *library())
    return folder / "sample"


def test_a_sample_replies_what_its_function_returns(program):
    requests = [(INIT, 0, INIT_RECORD), (GETATTR, ROOT, GETATTR_RECORD), (LOOKUP, ROOT, b"none\0"), (UNLINK, ROOT, b"a\0")]
    messages = [IN_HEADER.pack(IN_HEADER.size + len(body), opcode, number, node, 0, 0, 0, 0, 0) + body
                for number, (opcode, node, body) in enumerate(requests, 1)]
    came = subprocess.run([program], input=b"".join(struct.pack("<I", len(it)) + it for it in messages),
                          stdout=subprocess.PIPE, check=True, timeout=60).stdout
    replies = []
    while came:
        (length,), came = struct.unpack_from("<I", came), came[4:]
        replies.append((OUT_HEADER.unpack_from(came)[1:], came[OUT_HEADER.size:length]))
        came = came[length:]
    assert [it for it, _ in replies] == [(0, 1), (0, 2), (-errno.ENOENT, 3), (-errno.ENOSYS, 4)]
    # (the mode is 60 bytes into the attributes, which come after 16 of their times)
    assert struct.unpack_from("<I", replies[1][1], 16 + 60) == (0o40755,)
