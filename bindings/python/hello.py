#!/usr/bin/env python3
"""A file system of one file, `hello`.

Usage: hello.py MOUNTPOINT, or hello.py --fd N
Mounts the file system, and serves it until it is unmounted; SIGINT and SIGTERM unmount it too. With --fd, serves it on the
socket with the descriptor N. Users other than root need the program fusermount3. NIZWARF_LIB is the path of the library if it
is not installed.
"""
import errno
import stat
import sys

from nizwarf import Attr, DirectoryEntry, Entry, FileSystem, mount, serve

ROOT, HELLO, TEXT = 1, 2, b"Hello, world!\n"


class Hello(FileSystem):
    def lookup(self, request, parent, name):
        if parent != ROOT or name != b"hello":
            raise OSError(errno.ENOENT)
        attr, timeout = self.getattr(request, HELLO, None)
        return Entry(HELLO, attr, entry_timeout=timeout, attr_timeout=timeout)

    def getattr(self, request, node, file):
        if node == ROOT:
            return Attr(ino=ROOT, mode=stat.S_IFDIR | 0o555, nlink=1), 1.0
        return Attr(ino=HELLO, mode=stat.S_IFREG | 0o444, nlink=1, size=len(TEXT)), 1.0

    def read(self, request, node, size, offset, file):
        return TEXT[offset:offset + size]

    def readdir(self, request, node, offset, file):
        names = [(b".", ROOT), (b"..", ROOT), (b"hello", HELLO)]
        for place, (name, ino) in list(enumerate(names, 1))[offset:]:
            yield DirectoryEntry(name, place, ino)


def main(arguments):
    if arguments == ["--help"]:
        return print(__doc__)
    if len(arguments) == 2 and arguments[0] == "--fd":
        return serve(Hello(), int(arguments[1]))
    if len(arguments) != 1 or arguments[0].startswith("-"):
        print(__doc__, file=sys.stderr)
        sys.exit(2)
    try:
        mount(Hello(), arguments[0], name="hello")
    except OSError as error:
        sys.exit(f"hello.py: {error}")


if __name__ == "__main__":
    main(sys.argv[1:])
