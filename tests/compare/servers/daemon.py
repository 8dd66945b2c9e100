"""A vhost-user daemon of virtio-fs, and a front end that asks it."""
import pathlib
import subprocess
import sys

sys.path.insert(0, str(pathlib.Path(__file__).resolve().parents[2] / "lib"))
from asking import Asking  # noqa: E402


def end(process, seconds):
    """Waits so long for the end of a process, and then kills it."""
    try:
        process.wait(seconds)
    except subprocess.TimeoutExpired:
        pass
    finally:
        process.kill()
        process.wait()


class Daemon:
    """A daemon, and what asks it, once it has loaded a state if there is one."""

    def __init__(self, words, socket, share, log=None, state=None, **more):
        """Starts the words, of which SOCKET and SHARE are its socket and the folder that it shares."""
        # (only a whole word is one of these)
        words = [{"SOCKET": socket, "SHARE": share}.get(word, word) for word in words]
        self.process = subprocess.Popen(words, stdin=subprocess.DEVNULL, stdout=log, stderr=log, **more)
        try:
            # (a queue that is served no more is waited for)
            self.asking = Asking(socket, state, patience=3)
        except OSError:
            end(self.process, 0)
            raise

    def ask(self, line):
        """What comes of a line: see Asking.ask_line()."""
        return self.asking.ask_line(line)

    def end(self, seconds=0):
        """Ends both, whatever state they are in. The daemon may end by itself so long, after a signal."""
        self.asking.close()
        if seconds:
            self.process.terminate()
        end(self.process, seconds)

    def __enter__(self):
        return self

    def __exit__(self, *_):
        self.end()
