"""Rules of the tools that measure: tools/measure, and what they share."""
import os
import subprocess

HERE = os.path.dirname(os.path.dirname(os.path.dirname(os.path.abspath(__file__))))
LIB = f"{HERE}/tools/lib"


def need_proved(unproved, root):
    """Runs the check of the measuring tools for a tree of sources below `root`."""
    script = f'. "{LIB}/usage.sh"; . "{LIB}/transport.sh"; here=$1; need_proved "$2" nizwarf_codec'
    return subprocess.run(["bash", "-c", script, "tool", str(root), unproved], capture_output=True, text=True, check=False)


def make_sources(root):
    """A tree of sources without any library."""
    (root / "crates/nizwarf_codec/src").mkdir(parents=True)
    (root / "crates/nizwarf_codec/src/lib.rt").write_text("")
    (root / "crates.txt").write_text("")


def test_a_library_without_a_proof_is_not_measured(tmp_path):
    make_sources(tmp_path)
    refused = need_proved("", tmp_path)
    assert refused.returncode == 2
    assert "up to five times slower" in refused.stderr and "--unproved" in refused.stderr


def test_a_library_without_a_proof_is_measured_on_request(tmp_path):
    make_sources(tmp_path)
    assert need_proved("yes", tmp_path).returncode == 0


def test_a_proved_library_is_measured(tmp_path):
    make_sources(tmp_path)
    (tmp_path / "crates/nizwarf_codec/out").mkdir()
    (tmp_path / "crates/nizwarf_codec/out/libnizwarf_codec.a").write_text("")
    assert need_proved("", tmp_path).returncode == 0


def test_a_proved_library_older_than_its_sources_is_not_measured(tmp_path):
    make_sources(tmp_path)
    (tmp_path / "crates/nizwarf_codec/out").mkdir()
    library = tmp_path / "crates/nizwarf_codec/out/libnizwarf_codec.a"
    library.write_text("")
    os.utime(library, (0, 0))
    assert need_proved("", tmp_path).returncode == 2


SPENT = r"""
#define _GNU_SOURCE
#include "time_spent.h"
#include <pthread.h>
#include <signal.h>
#include <sys/wait.h>
#include <unistd.h>

/* Takes 50 ms of the processor. */
static void *work(void *unused)
{
	struct timespec ran;

	do
		clock_gettime(CLOCK_THREAD_CPUTIME_ID, &ran);
	while (ran.tv_nsec < 50000000);
	return unused;
}

/* A server that does nothing itself: its child works, and a thread of that child which ends. */
int main(void)
{
	int done[2];
	char byte;
	pid_t server;

	if (pipe(done) || (server = fork()) < 0)
		return 1;
	if (!server) {
		if (!fork()) {
			pthread_t thread;

			pthread_create(&thread, NULL, work, NULL);
			pthread_join(thread, NULL);
			work(NULL);
			if (write(done[1], "", 1) != 1)
				return 1;
		}
		pause();
	}
	if (read(done[0], &byte, 1) != 1)
		return 1;
	usleep(10000);
	printf("%llu\n", time_spent(server) / 1000000);
	fflush(stdout);
	kill(0, SIGKILL);
}
"""


def test_the_time_of_a_server_has_its_children_and_ended_threads(tmp_path):
    (tmp_path / "spent.c").write_text(SPENT)
    program = str(tmp_path / "spent")
    subprocess.run(["cc", "-Wall", "-Wextra", "-Werror", "-pthread", "-I", f"{HERE}/tools/measure", "-o", program,
                    str(tmp_path / "spent.c")], check=True)
    ran = subprocess.run([program], capture_output=True, text=True, check=False, start_new_session=True)
    # Two times 50 ms, and a little for starting.
    assert 100 <= int(ran.stdout) < 200
