"""The shape of each opcode's request: the record after the header, what follows that, and how long the reply is. For
the tests that make requests: a new opcode has one row here.

A field is NAME:SIZE, `-` if nobody reads it. Values after `=` are those that a client may ask of files that are there.
After the record come names and other parts: `name` is that of a file, `attribute` that of an extended attribute,
`text` that of a link, all with a nul at the end; `value` and `data` are bytes, `pairs` 16 of them each, and
`extensions` are blocks. `About` is what the node is: `folder`, `file` and `directory` are one that is open, `unread`
says that no server here reads the record. A reply of `16+size` has as many bytes of data as are asked for."""
import collections
import pathlib
import struct
import sys

sys.path.append(str(pathlib.Path(__file__).resolve().parents[2] / "tools/lib"))
from opcodes import Op  # noqa: E402

ROWS = """
Opcode           Often  About      Reply    Record; what follows it
LOOKUP              14  folder     144      ; name
FORGET               1  node       0        lookups:8=0,1,2
GETATTR              6  node       120      flags:4 -:4 handle:8
SETATTR              8  node       120      valid:4 -:4 handle:8 size:8 lock_owner:8 atime:8 mtime:8 ctime:8 \
                                            atimensec:4 mtimensec:4 ctimensec:4 mode:4 -:4 uid:4 gid:4 -:4
READLINK             2  node       text
SYMLINK              3  folder     144      ; name text extensions
MKNOD                3  folder     144      mode:4=0o100644,0o010600,0o020600,0 rdev:4=0,0x105 umask:4=0o22 -:4; \
                                            name extensions
MKDIR                3  folder     144      mode:4=0o755,0o1777 umask:4=0o22; name extensions
UNLINK               3  folder     16       ; name
RMDIR                1  folder     16       ; name
RENAME               3  folder     16       to_folder:8; name name
LINK                 3  folder     144      of_node:8; name
OPEN                 8  node       32       flags:4=0,2,1,2,0o1002,0o2002 open_flags:4=0,1
READ                10  file       16+size  handle:8 offset:8=0,10,2000,0x7fffffffffffffff size:4=0,1,100,4096,65536 \
                                            read_flags:4=0,2 lock_owner:8=7 flags:4 -:4
WRITE               10  file       24       handle:8 offset:8=0,10,2000 size:4 write_flags:4=0,1,2,4 lock_owner:8=7 \
                                            flags:4=0,0,0o2000 -:4; data
STATFS               2  node       96
RELEASE              1  file       16       handle:8 flags:4 release_flags:4=0,1,2 lock_owner:8
FSYNC                2  file       16       handle:8 fsync_flags:4=0,1 -:4
SETXATTR             5  node       16       size:4 flags:4=0,1,2; attribute value
GETXATTR             6  node       16+size  size:4=0,1,3,100,65536 -:4; attribute
LISTXATTR            4  node       16+size  size:4=0,1,3,100,65536 -:4
REMOVEXATTR          2  node       16       ; attribute
FLUSH                2  file       16       handle:8 -:4 -:4 lock_owner:8
INIT                 0  session    80       major:4 minor:4 readahead:4 flags:4
OPENDIR              3  folder     32       flags:4 open_flags:4=0,1
READDIR              7  directory  16+size  handle:8 offset:8=0,0,0,3,0x4000000000000000 \
                                            size:4=0,40,200,1000,4096,32768 read_flags:4=0,2 lock_owner:8=7 flags:4 -:4
RELEASEDIR          .5  directory  16       handle:8 flags:4 release_flags:4 lock_owner:8
FSYNCDIR             1  directory  16       handle:8 fsync_flags:4=0,1 -:4
GETLK               .3  unread     16       handle:8 lock_owner:8 start:8 end:8 type:4 pid:4 lock_flags:4 -:4
SETLK               .3  unread     16       handle:8 lock_owner:8 start:8 end:8 type:4 pid:4 lock_flags:4 -:4
SETLKW              .3  unread     16       handle:8 lock_owner:8 start:8 end:8 type:4 pid:4 lock_flags:4 -:4
ACCESS               3  node       16       mask:4=0,1,2,4,7 -:4
CREATE               6  folder     160      flags:4=0,2,1,0o202,0o1002 mode:4=0o644,0o4755 umask:4=0o22 \
                                            open_flags:4=0,1; name extensions
INTERRUPT           .3  request    0        unique:8
BMAP                .3  unread     16       block:8 size:4 -:4
DESTROY              0  session    0
IOCTL               .3  unread     16       handle:8 flags:4 command:4 argument:8 in_size:4 out_size:4; data
POLL                .3  unread     16       handle:8 poll_handle:8 flags:4 events:4
NOTIFY_REPLY        .3  unread     16       -:8 offset:8 size:4 -:4 -:8 -:8; data
BATCH_FORGET        .5  session    0        count:4 -:4; pairs
FALLOCATE            4  file       16       handle:8 offset:8=0,10 length:8=0,100,5000 mode:4=0,1,3 -:4
READDIRPLUS          7  directory  16+size  handle:8 offset:8=0,0,0,3,0x4000000000000000 \
                                            size:4=0,40,200,1000,4096,32768 read_flags:4=0,2 lock_owner:8=7 flags:4 -:4
RENAME2              3  folder     16       to_folder:8 flags:4=0,1,2,4,0xffff -:4; name name
LSEEK                5  file       24       handle:8 offset:8=0,5 whence:4=0,1,2,3,4,9 -:4
COPY_FILE_RANGE      4  file       24       handle:8 offset:8 to_node:8 to_handle:8 to_offset:8=0,10000 length:8=1,500 \
                                            flags:8
SETUPMAPPING         0  unread     16       handle:8 file_offset:8 length:8 flags:8 memory_offset:8
REMOVEMAPPING        0  unread     16       count:4
SYNCFS               1  node       16       -:8
TMPFILE             .3  unread     16       flags:4 mode:4 umask:4 open_flags:4
"""
Field = collections.namedtuple("Field", "name size values")
Shape = collections.namedtuple("Shape", "often about reply fields parts")


def field(word):
    """A field of a row: NAME:SIZE=VALUE,VALUE.."""
    name, _, rest = word.partition(":")
    size, _, values = rest.partition("=")
    return Field(name, int(size), [int(value, 0) for value in values.split(",") if value])


def shape(row):
    """The opcode of a row, and its shape. A reply whose length depends has none."""
    start, _, parts = row.partition(";")
    name, often, about, reply, *record = start.split()
    return Op[name], Shape(float(often), about, int(reply) if reply.isdigit() else None, [field(it) for it in record],
                           parts.split())


SHAPES = dict(shape(row) for row in ROWS.splitlines()[2:])
assert SHAPES.keys() == set(Op), f"without a row: {set(Op) - SHAPES.keys()}"
RECORDS = {opcode: struct.Struct("<" + "".join("Q" if it.size == 8 else "I" for it in of.fields))
           for opcode, of in SHAPES.items()}


def size(opcode):
    """How many bytes the record has."""
    return RECORDS[opcode].size


def record(opcode, **values):
    """A record of these values, and 0 in all other fields."""
    made = RECORDS[opcode].pack(*(values.pop(it.name, 0) for it in SHAPES[opcode].fields))
    if values:
        raise KeyError(f"{Op(opcode).name} has no {', '.join(values)}")
    return made


def having(test):
    """The opcodes of whose shape this is true, by their numbers."""
    return [opcode for opcode in sorted(SHAPES) if test(SHAPES[opcode])]
