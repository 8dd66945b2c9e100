#!/usr/bin/env python3
"""Holds the records, opcodes, notices, flags, constants and error numbers of crates against the kernel's headers, and the
numbers of modes, of items of directories and of renames against the system's.

Usage: tests/c/kernel.py [--headers FOLDER] [--print]
The headers, <linux/fuse.h>, <linux/fs.h> and <errno.h>, are those of FOLDER, as another kernel's package has them in
usr/include, or else the machine's.
It makes a C program of static assertions, and compiles it: of each record the place and the size of each field of its
table in specs, and its size, by the struct that its comment names; of each number its value, by the name that its
comment names, or by its own. The comment of a record says its size too. What this header has not yet is told, which
opcodes and notices are in it alone, and how much there was to hold.
--print writes out the program instead.
Status 0: all is as the header has it; 1: not so; 2: there is no compiler, or no header.
"""
import os
import re
import subprocess
import sys

os.chdir(os.path.join(os.path.dirname(os.path.abspath(__file__)), "../.."))
sys.path.append("tools/lib")
sys.dont_write_bytecode = True
from records import TABLES, WIRE, comment_of, laid_out, read  # noqa: E402

words = sys.argv[1:]
FOLDER = ["-I", words[1]] if words[:1] == ["--headers"] and words[1:] else []
if words[len(FOLDER):] not in ([], ["--print"]):
    print(__doc__.strip())
    sys.exit(0 if words == ["--help"] else 2)


def compiled(words, text):
    """What the compiler makes of a text, with these words and the headers that are asked for."""
    try:
        return subprocess.run(["cc", *FOLDER, "-x", "c", *words, "-"], input=text, text=True, capture_output=True, check=False)
    except FileNotFoundError:
        print("Missing: the command `cc`: apt-get install gcc libc6-dev.", file=sys.stderr)
        sys.exit(2)


FLAGS, NUMBERS = read("crates/vfs_flags/src/*.rt"), read("crates/vfs_flags/specs/Numbers.antt")
INCLUDED = "#define _GNU_SOURCE\n" + "".join(f"#include <{it}.h>\n" for it in ("errno", "dirent", "sys/stat", "linux/fs", "linux/fuse"))
HEADER = compiled(["-E", "-dD"], INCLUDED)
if HEADER.returncode:
    print("Missing: <linux/fuse.h>: apt-get install linux-libc-dev.", file=sys.stderr)
    sys.exit(2)
# Of each struct of the header the names of its fields, and the header's constants: macros and enumerators.
STRUCTS = {name: re.findall(r"(\w+)(?:\[\w*\])?;", body)
           for name, body in re.findall(r"struct (fuse_\w+) \{(.*?)\n\}", HEADER.stdout, re.S)}
NAMES = {it for them in re.findall(r"^#define (\w+) |^\s*(FUSE_\w+) = ", HEADER.stdout, re.M) for it in them if it}
lines, absent, held = ["#include <stddef.h>", INCLUDED], [], {"records": 0, "fields": 0, "numbers": 0}
faults = []


def hold(fact, what):
    lines.append(f'_Static_assert({fact}, "{what}");')


# ---- records

# What a later header has in place of what 7.38 leaves unused.
LATER = {"unused[0]": "max_stack_depth", "unused[1]": "request_timeout"}


def first(field):
    return re.split(r"[.\[]", field)[0]


def renamed(fields, struct):
    """Fields that the header names otherwise, with their names there, where it lacks none."""
    ours = list(dict.fromkeys(it for it in fields if it not in STRUCTS[struct]))
    theirs = [it for it in STRUCTS[struct] if it not in fields]
    return dict(zip(ours, theirs)) if len(ours) == len(theirs) else {}


def hold_record(name):
    """Asserts the size of a table's struct, and the place and the size of each of its fields."""
    comment = comment_of(TABLES[name][0])
    # A comment as `struct fuse_attr`, 88 bytes, or one of the beginning or the rest of a struct.
    told = re.search(r"(?:the (beginning|rest) of )?`struct (fuse_\w+)`, (\d+) bytes", comment)
    fields = list(laid_out(name))
    size = sum(width for _, width in fields)
    if not told or int(told[3]) != size:
        faults.append(f"{TABLES[name][0]}: its comment names no struct, or not its {size} bytes")
        return
    part, struct = told[1], told[2]
    if struct not in STRUCTS:
        absent.append(struct)
        return
    begin = f"sizeof(struct {struct}) - {size}" if part == "rest" else "0"
    # (what is a part has another size than the whole)
    if not part:
        hold(f"sizeof(struct {struct}) == {size}", f"{struct}: its size is {size}")
    held["records"] += 1
    names, place = renamed([first(it) for it, _ in fields], struct), 0
    for field, width in fields:
        there = names.get(first(field), first(field)) + field[len(first(field)):]
        later = LATER["unused[0]"] in STRUCTS[struct] and first(field) == "unused"
        if later and field in LATER:
            hold(f"offsetof(struct {struct}, {LATER[field]}) == {begin} + {place}", f"{struct}: {LATER[field]}")
            held["fields"] += 1
        elif later:
            pass  # (shorter numbers there, and the struct's size is held)
        elif first(there) in STRUCTS[struct]:
            hold(f"offsetof(struct {struct}, {there}) == {begin} + {place} && "
                 f"sizeof(((struct {struct} *)0)->{there}) == {width}", f"{struct}: {there}")
            held["fields"] += 1
        else:
            absent.append(f"{struct}.{field}")
        place += width


for table in TABLES:
    hold_record(table)
implemented = re.findall(r"^impl ByteValued for ([A-Z]\w+)", WIRE, re.M)
faults += [f"{it}: it has no table that can be read" for it in implemented if it not in {it[0] for it in TABLES.values()}]

# ---- numbers


def hold_number(names, text, needed=True):
    """Asserts that the first of these names that the header has is this number; none is told as absent, if it is needed."""
    number, _, bits = text.replace("_", "").partition("<<")
    # (a number, or `1 << N`)
    value = int(number) << int(bits or 0)
    name = next((it for it in names if it in NAMES), None)
    if name:
        # (an enumerator is an int: by way of unsigned its upper bit is no sign)
        hold(f"(unsigned long long)(unsigned{' long long' * (value >= 1 << 32)})({name}) == {value}", f"{name}: {value}")
        held["numbers"] += 1
    elif needed:
        absent.append(names[0])


def plain(prefix, name):
    """The names of the header that are this one, however its words are joined."""
    # ReadDirPlus is FUSE_READ_DIR_PLUS here, which the header has as FUSE_READDIRPLUS.
    own = prefix + re.sub(r"(?<=[a-z0-9])(?=[A-Z])", "_", name).upper()
    return [it for it in sorted(NAMES) if it.replace("_", "") == own.replace("_", "")] or [own]


# (opcode_of, and number_of)
OPCODES = {(opcode, number) for number, opcode in re.findall(
    r"if n == (\d+) then Some (\w+)", re.search(r"^opcode_of n =(.*?)\n\n", NUMBERS, re.M | re.S)[1])}
PAIRS = set(re.findall(r"^number_of (\w+) = (\d+)$", NUMBERS, re.M))
faults += [f"{opcode} is {number} in one of opcode_of and number_of" for opcode, number in sorted(OPCODES ^ PAIRS)]
for opcode, number in sorted(PAIRS):
    hold_number(plain("FUSE_", opcode), number)
notices = re.search(r"pub enum NotifyOpcode \{(.*?)\n\}", FLAGS, re.S)[1]
for notice, number in re.findall(r"^    (?!CodeMax)(\w+) = (\d+),", notices, re.M):
    hold_number(plain("FUSE_NOTIFY_", notice), number)
for comment, flag in re.findall(r"((?:^    ///.*\n)+)    pub const \w+: (?:\w+) = \w+\((1 << \d+)\);", FLAGS, re.M):
    told = re.search(r"`(F(?:USE|OPEN|ATTR)_\w+)`", comment)
    if told:
        hold_number([told[1]], flag)
    else:
        faults.append(f"a flag of {flag}: its comment names none of the kernel's")
# Options and flags that virtiofsd lacks; in the file they have the kernel's names without FUSE_, or with FOPEN_.
for name, flag in re.findall(r"^ *pub const (\w+): u\d+ = (1 << \d+);", read("crates/vfs_notices/src/*.rt"), re.M):
    hold_number([f"FUSE_{name}", name], flag)
# Error numbers of definitions, and options of theirs that are one bit.
for name, number in re.findall(r"^abbrev pub (e\w+) : ℕ\n\1 = (\d+)$", NUMBERS, re.M):
    hold_number([name.upper()], number)
for name, bit in re.findall(r"^abbrev pub (\w+) : ℕ\n\1 = 2 \^ (\d+)$", read("crates/vfs_flags/specs/Flags.antt"), re.M):
    hold_number([f"FUSE_{name.upper()}"], f"1 << {bit}")
# (the minor version is the header's own)
for name, value in re.findall(r"^pub const (?!\w*MINOR_VERSION)(\w+): u\d+ = ([\d_ <]+);", FLAGS, re.M):
    hold_number([f"FUSE_{name}", name], value, False)
# What modes, items of directories and renames have is stated by laws, whatever it is made of.
for name, value in re.findall(r"^ *ensures \w+ \{ ((?:S_IF|DT_|RENAME_)\w+) ≡ (\w+) \}", read("crates/vfs_flags/src/laws.rt"), re.M):
    hold_number([name], str(int(value, 0)), name != "RENAME_FLAGS")

if words[len(FOLDER):]:
    print(*lines, sep="\n")
    sys.exit()
result = compiled(["-std=c11", "-Wall", "-Wextra", "-Werror", "-fsyntax-only"], "\n".join(lines))
faults += [it for it in result.stderr.split("\n") if "error" in it]
print(*faults, sep="\n", end="\n" if faults else "")
# (a later header may have more, which is no fault of ours)
LISTS = "".join(re.findall(r"enum fuse_(?:opcode|notify_code) \{(.*?)\}", HEADER.stdout, re.S))
more = [it for it in re.findall(r"^\s*(FUSE_\w+)", LISTS, re.M)
        if not re.search(rf"\({it}\) == |_CODE_MAX|_RESERVED", "\n".join(lines) + it)]
minor = re.search(r"^#define FUSE_KERNEL_MINOR_VERSION (\d+)$", HEADER.stdout, re.M)[1]
print(", ".join(f"{number} {what}" for what, number in held.items())
      + f" are as <linux/fuse.h> of 7.{minor} has them; not there yet: " + ", ".join(dict.fromkeys(absent or ["none"]))
      + "; not here: " + ", ".join(more or ["none"]))
sys.exit(1 if faults else 0)
