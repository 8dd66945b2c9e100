"""The libraries against their headers, by programs in C: the comment at the head of each says what it checks."""
import pytest
from building import COUNTED, HERE, REPOSITORY, run
from hello_client import check_hello


@pytest.fixture(scope="session")
def recorded(tmp_path_factory):
    """A file with the stored requests that kernels made."""
    text = (REPOSITORY / "crates/test_sessions/stdin").read_text()
    lines = text[text.index("\n# What kernels asked") + 1:]
    file = tmp_path_factory.mktemp("recorded") / "requests"
    file.write_text(lines[:lines.index("\n# The corpus") + 1])
    return file


def test_an_example_is_answered_by_the_tree(built):
    run(built.make("serve"))


def test_the_tree_keeps_its_header_also_where_an_allocation_fails(built):
    run(built.compile("tests/c/tree.c", *COUNTED))


def test_the_tree_replies_to_stored_sessions_as_they_say(built):
    run(built.compile("tests/c/tree-session.c", *COUNTED), HERE / "tree-session.txt")


def test_the_example_hello_serves_its_file(built):
    check_hello(built.make("hello"))


def test_a_table_gets_each_request_with_its_arguments(built):
    run(built.compile("tests/c/ops.c", *COUNTED))


def test_a_table_has_one_session_for_several_threads(built_with_threads):
    run(built_with_threads.compile("tests/c/ops-threads.c", "-pthread"))


def test_the_codec_decodes_and_replies_as_the_server_over_the_tree_does(built, recorded):
    run(built.compile("tests/c/codec.c"), recorded, seconds=600)


def test_the_codec_keeps_its_header_in_cases_that_no_server_shows(built):
    run(built.compile("tests/c/codec-cases.c", *COUNTED))


def test_one_thread_may_reply_to_the_requests_of_another(built_with_threads):
    run(built_with_threads.compile("tests/c/codec-threads.c", "-pthread"))


def test_a_check_fails_as_the_decoder_does_and_a_printed_line_fits(built, recorded):
    run(built.compile("tests/c/text.c", *COUNTED), recorded, seconds=600)


def test_the_largest_requests_and_replies_get_their_memory(built):
    run(built.compile("tests/c/largest.c", *COUNTED))


def test_optional_operations_are_decoded_and_replied_as_the_kernel_has_them(built):
    run(built.compile("tests/c/offered.c", *COUNTED))


@pytest.mark.parametrize("name", ["notices", "init"])
def test_records_of_notices_and_of_init_are_the_kernels(built, name):
    run(built.compile(f"tests/c/{name}.c"))
