"""Options of virtiofsd do what they do there: tests/share/words.py compares with what it stored of virtiofsd."""
import sys

import pytest
from building import REPOSITORY, run
from conftest import REPORT, has_sanitizer

pytestmark = [pytest.mark.root, pytest.mark.sanitizers]


def test_options_do_what_they_do_at_virtiofsd(share, scratch):
    (scratch / "words").mkdir()
    options = ["--sandbox=none", "--seccomp=none"] if has_sanitizer(share) else []
    printed = run(sys.executable, "-B", REPOSITORY / "tests/share/words.py", scratch / "words", "--known", share,
                  "--log-level=error", *options, seconds=900)
    assert not REPORT.search(printed), printed
