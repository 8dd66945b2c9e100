#!/usr/bin/env python3
"""Compares the numbers and structs of the bindings, and the names of opcodes, with C headers by the compiler.

Usage: tools/dev/numbers.py

It makes a C program of static assertions, and compiles it: of the structs and constants of bindings/rust and of
bindings/python, and of the optional operations of the crates, by include/nizwarf.h; of the opcodes that vfs_print names, and
of the options of bindings/python, by the kernel's header. Then it looks for words NIZWARF_.. of the manual and of bindings/go
that no header has, codes that no page of the manual has, and calls whose comment in the header, of which the manual is made,
does not say their kind of answer. (tests/c/data.py compares the numbers and structs of the crates.)

It prints a line for each difference. Exit status 0: there is none; 1: there are some; 2: it could not start.
"""
import ctypes
import glob
import importlib
import os
import re
import subprocess
import sys

os.chdir(os.path.join(os.path.dirname(os.path.abspath(__file__)), "../.."))
if len(sys.argv) > 1:
    print(__doc__.strip())
    sys.exit(0 if sys.argv[1:] == ["--help"] else 2)
sys.path.append("bindings/python")
sys.dont_write_bytecode = True


def read(pattern):
    """The text of all files of a pattern."""
    texts = []
    for path in sorted(glob.glob(pattern)):
        with open(path, encoding="utf-8") as file:
            texts.append(file.read())
    return "\n".join(texts)


HEADER, RUST, KERNEL = read("include/nizwarf.h"), read("bindings/rust/src/*.rs"), read("/usr/include/linux/fuse.h")
KNOWN = set(re.findall(r"NIZWARF_\w+", read("include/*.h")))
# The enums of the header by their first name.
ENUMS = {it[0]: it for it in (re.findall(r"^\tNIZWARF_(\w+) =", body, re.M) for body in re.findall(r"^enum \{(.*?)^\}", HEADER, re.M | re.S)) if it}
SIZES = {"u64": 8, "usize": 8, "*const u8": 8, "u32": 4, "i32": 4, "u16": 2}
faults, asserts = [], []
PREAMBLE = ["#define _GNU_SOURCE", *(f"#include <{it}.h>" for it in ("dirent", "fcntl", "poll", "stddef", "stdio", "sys/stat", "sys/xattr", "unistd",
                                                                    "linux/fuse")),
            '#include "nizwarf.h"', "#define SIZE(s, f) sizeof(((s *)0)->f)"]


def same(fact, what):
    """Has the compiler assert a fact."""
    asserts.append(f'_Static_assert({fact}, "{what}: {fact}");')


def part(text, begin, end):
    """The text between these two."""
    return re.search(re.escape(begin) + f"(.*?)^{end}", text, re.M | re.S)[1]


def number(path, name, value, prefix=""):
    """Asserts that the header has a name of this value."""
    called = next((it for it in (f"NIZWARF_{prefix}{name}", f"NIZWARF_{name}") if it in KNOWN), None)
    if called:
        same(f"{called} == {value}", path)
    else:
        faults.append(f"{path}: {name} is not in nizwarf.h")


# ---- constants

CALLS = dict(re.findall(r"^ +([A-Z_0-9]+) = (\d+): \w+ {", part(RUST, "\ncalls! {", "}"), re.M))
BITS = dict(re.findall(r"^        (\w+) = (\d+);", part(RUST, "\n    Features: u32 {", "    }"), re.M))
faults += [f"bindings/rust: the call {it} is missing" for it in ENUMS["LOOKUP"] if it not in CALLS]
for name, value in CALLS.items():
    number("bindings/rust", name, value)
for path, rows in (("bindings/rust", [(name, f"1 << {bit}") for name, bit in BITS.items()]),
                   ("offers.rt", re.findall(r"^pub const (\w+): u32 = ([\d <]+);", read("crates/codec_*/src/offers.rt"), re.M))):
    for name, value in rows:
        number(path, name, value, "FEATURE_")
    faults += [f"{path}: {it} is missing" for it in ENUMS["FEATURE_LOCKS"] if it not in {f"FEATURE_{name}" for name, _ in rows} | {"FEATURE_INIT"}]
for module, prefix in (("has", "HAS_"), ("kind", "REPLY_"), ("code", "")):
    for name, value in re.findall(r"const (\w+): \w+ = ([\d <]+);", part(RUST, f"mod {module} {{", "}")):
        number("bindings/rust", name, value, prefix)
# Those of Linux, by the C library's headers.
for name, value in re.findall(r"\b([A-Z]+_\w+|POLL\w+) = (0\w+|\d+),", read("bindings/rust/src/consts.rs")):
    same(f"{name} == {int(value, 0)}", "bindings/rust, consts")
# The names that vfs_print has for opcodes, of which nizwarf-decode is made.
OPCODES = dict(re.findall(r"^    (\w+) = (\d+),", part(read("crates/vfs_flags/src/opcode.rt"), "pub enum Opcode {", "}"), re.M))
for opcode, name in re.findall(r'Opcode::(\w+) => "(\w+)"', read("crates/vfs_print/src/*.rt")):
    same(f"FUSE_{name} == {OPCODES[opcode]}", "crates/vfs_print")

# ---- structs: each field, and that there is no other

# Fields of the header that the binding leaves to its own types.
OTHERS = {"nizwarf_answer": ["text", "text_len", "items", "items_len", "init_params"]}
RUST_STRUCTS = {"RawSession": "nizwarf_session", "Range": "nizwarf_range", "RawCall": "nizwarf_call", "RawEntry": "nizwarf_entry",
                "RawAnswer": "nizwarf_answer", "DirItem": "nizwarf_dirent", "RawInitParams": "nizwarf_init_params",
                "RawResult": "nizwarf_result", "SetattrIn": "nizwarf_setattr", "Attr": "nizwarf_attr", "Statvfs": "nizwarf_statfs"}
for name, struct in RUST_STRUCTS.items():
    size, fields = re.search(rf"struct {name}(?:<'a>)?: (\d+) \{{(.*?)^    \}}", RUST, re.M | re.S).groups()
    for place, field, kind in re.findall(r"^        \[(\d+)\] (?:pub )?(\w+): (?!Phantom)(.*),$", fields, re.M):
        field = field.removeprefix("f_").rstrip("_")
        width = SIZES.get(kind) or f"sizeof({RUST_STRUCTS[kind]})"
        same(f"offsetof({struct}, {field}) == {place} && SIZE({struct}, {field}) == {width}", f"bindings/rust, {name}")
    same(" + ".join([size, *(f"SIZE({struct}, {it})" for it in OTHERS.get(struct, []))]) + f" == sizeof({struct})", f"bindings/rust, {name}")
library = importlib.import_module("nizwarf._library")
BARE = re.sub(r"/\*.*?\*/", "", HEADER, flags=re.S)
for struct, it in library.STRUCTS.items():
    same(f"sizeof({struct}) == {ctypes.sizeof(it)}", "bindings/python")
    if not struct.startswith("nizwarf_"):  # it is of another header
        body = "".join(f"int {name};\n" for name, _ in it._fields_)
    else:
        body = re.search(rf"struct (?:{struct} )?\{{\n([^{{}}]*)\}}(?: {struct})?;", BARE)[1]
    body = re.sub(r"^\s*(const )?\w+ |\[.*?\]|[*\s]", "", body, flags=re.M)
    fields = [field for line in body.split(";")[:-1] for field in line.split(",")]
    if len(fields) != len(it._fields_):
        faults.append(f"bindings/python: {struct} has {len(fields)} fields, and {it.__name__} {len(it._fields_)}")
    for field, (name, kind) in zip(fields, it._fields_):
        # (a field that has another name there is the one in its place)
        field = name if name in fields else field
        same(f"offsetof({struct}, {field}) == {getattr(it, name).offset} && SIZE({struct}, {field}) == {ctypes.sizeof(kind)}",
             f"bindings/python, {it.__name__}")
for enum, prefix in (("Code", ""), ("Opcode", ""), ("Feature", "FEATURE_"), ("Has", "HAS_")):
    for it in getattr(library, enum):
        number("bindings/python", it.name, it.value, prefix)
number("bindings/python", "MAX_ERRNO", library.MAX_ERRNO)
for enum, prefix in (("Option", ""), ("ToSet", "FATTR_")):
    for it in getattr(library, enum):
        name = f"FUSE_{it.name}" if not prefix else f"{prefix}{it.name}"
        if re.search(rf"\b{name}\b", KERNEL):
            # (bit 31 of an int is its sign)
            same(f"{'(uint32_t)' if it.value < 1 << 32 else ''}{name} == {it.value}", "bindings/python")

# ---- words

PAGES = {f"packaging/man/{it}": read(f"packaging/man/{it}") for it in sorted(os.listdir("packaging/man"))}
for path, text in {**PAGES, "bindings/go": read("bindings/go/*.go")}.items():
    faults += [f"{path}: {it} is in no header" for it in sorted(set(re.findall(r"NIZWARF_[A-Z_0-9]+", text)) - KNOWN)
               if not re.search(rf"\.Dt {it}\b", text)]
manual = "".join(PAGES.values())
faults += [f"packaging/man: no page has the code NIZWARF_{it}" for it in ENUMS["OK"] if f"NIZWARF_{it}\n" not in manual]
COMMENTS = {name: comment for comment, names in re.findall(r"\t/\* ((?:(?!\*/).)*?) \*/\n((?:\tNIZWARF_\w+ = \d+,\n)+)", HEADER, re.S)
            for name in re.findall(r"NIZWARF_(\w+)", names)}
for name, kind in re.findall(r"number::(\w+),\s*kind::(\w+)", read("crates/codec_calls/src/asking.rt")):
    if not re.search(rf"\(REPLY_{kind}\b", COMMENTS.get(name, "")):
        faults.append(f"include/nizwarf.h: the comment of NIZWARF_{name} lacks its kind, (REPLY_{kind})")

try:
    compiled = subprocess.run(["cc", "-std=c11", "-fsyntax-only", "-I", "include", "-x", "c", "-"], input="\n".join(PREAMBLE + asserts),
                              text=True, capture_output=True, check=False)
except FileNotFoundError:
    sys.exit(2)
faults += re.findall(r"error: (.*)", compiled.stderr)
print("\n".join([*faults, f"{len(asserts)} assertions: {len(faults)} differences"]))
sys.exit(1 if faults else 0)
