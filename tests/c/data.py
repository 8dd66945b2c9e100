#!/usr/bin/env python3
"""Holds the codec's data, as the crates define them, against include/nizwarf.h and the kernel's header.

Usage: tests/c/data.py [--print]
It makes a C program of static assertions, and compiles it: of each struct that C hands in or is told the place and the
size of each field, and that it has no other; the numbers of calls, of kinds of answers, of bits and of codes, by name,
and those of calls also by the kernel's opcodes; of each definition that copies a record field by field, that the two
structs have these fields at the same places; of each one that is a record of zeros, that it has all fields.
--print writes out the program instead.
Status 0: all is as the headers have it; 1: not so; 2: there is no compiler, or no header.
"""
import os
import re
import subprocess
import sys

os.chdir(os.path.join(os.path.dirname(os.path.abspath(__file__)), "../.."))
sys.path.append("tools/lib")
sys.dont_write_bytecode = True
from records import COPIED, ZEROS, read  # noqa: E402

words = sys.argv[1:]
if words not in ([], ["--print"]):
    print(__doc__.strip())
    sys.exit(0 if words == ["--help"] else 2)
HEADER = read("include/nizwarf.h")
STRUCTS = {"Range": "nizwarf_range", "SetattrData": "nizwarf_setattr", "CallData": "nizwarf_call",
           "AttrData": "nizwarf_attr", "EntryData": "nizwarf_entry", "StatisticsData": "nizwarf_statfs",
           "ToldData": "nizwarf_result", "SessionData": "nizwarf_session",
           "Settings": "nizwarf_server_config", "Place": "nizwarf_reply_range",
           "SetattrIn": "struct fuse_setattr_in", "Attr": "struct fuse_attr"}
# Fields that have another name in C.
IN_C = {("CallData", "call"): "opcode", ("CallData", "answer"): "reply", ("CallData", "room"): "reply_size",
        ("ToldData", "put"): "written", ("ToldData", "give_back"): "forget", ("ToldData", "taken"): "entries"}
SIZES = {"u64": 8, "u32": 4, "i32": 4, "usize": 8, "*const u8": 8}
lines = ["#include <stddef.h>", '#include "nizwarf_tree.h"', "#include <linux/fuse.h>"]
faults, held = [], {"structs": 0, "numbers": 0, "copies": 0, "zeros": 0}


def hold(fact, what):
    lines.append(f'_Static_assert({fact}, "{what}");')


def size(struct, field):
    return f"sizeof((({struct} *)0)->{field})"


def whole(struct, fields):
    """No field is left out: what they have is what the struct has."""
    hold(" + ".join(size(struct, it) for it in fields) + f" == sizeof({struct})", f"{struct}: all fields")


# ---- structs

for name, body in re.findall(r"^#\[repr\(C\)\]\n(?:#[^\n]*\n)*pub struct (\w+) \{\n(.*?)^\}", read("crates/codec_calls/src/*.rt")
                             + read("crates/nizwarf_codec/src/data.rt") + read("crates/nizwarf_tree/src/*.rt"), re.M | re.S):
    if name not in STRUCTS:
        continue
    fields = [(IN_C.get((name, field), field), kind) for field, kind in re.findall(r"^    pub (\w+): ([^,]+),", body, re.M)]
    place = "0"
    for field, kind in fields:
        hold(f"offsetof({STRUCTS[name]}, {field}) == {place}", f"{STRUCTS[name]}: {field}")
        bytes_of = SIZES.get(kind) or f"sizeof({STRUCTS[kind]})"
        hold(f"{size(STRUCTS[name], field)} == {bytes_of}", f"{STRUCTS[name]}: the size of {field}")
        place = f"offsetof({STRUCTS[name]}, {field}) + {bytes_of}"
    whole(STRUCTS[name], [field for field, _ in fields])
    held["structs"] += 1

# ---- numbers

NAMES = set(re.findall(r"^\t(NIZWARF_\w+) =", HEADER, re.M))
OPCODES = {"COPY": "COPY_FILE_RANGE", "COPY_64": "COPY_FILE_RANGE_64", "BATCH_FORGET": "BATCH_FORGET"}
KERNEL = subprocess.run(["cc", "-E", "-x", "c", "-"], input="#include <linux/fuse.h>\n", text=True, capture_output=True, check=False)
if KERNEL.returncode:
    print("Missing: a C compiler, or <linux/fuse.h>: apt-get install gcc libc6-dev linux-libc-dev.", file=sys.stderr)
    sys.exit(2)


def hold_number(names, value, what):
    """Asserts that the first of these names that the header has is this number."""
    name = next((it for it in names if it in NAMES), None)
    if name:
        hold(f"{name} == {value}", f"{what}: {name} is {value}")
        held["numbers"] += 1
    else:
        faults.append(f"{what}: nizwarf.h has none of {', '.join(names)}")


for module, body in re.findall(r"^pub mod (\w+) \{\n(.*?)^\}", read("crates/codec_calls/src/call.rt"), re.M | re.S):
    for name, value in re.findall(r"pub const (\w+): u32 = (\d+);", body):
        prefix = {"has": "HAS_", "kind": "REPLY_"}.get(module, "")
        hold_number([f"NIZWARF_{prefix}{name}", f"NIZWARF_{name}"], value, module)
        opcode = f"FUSE_{OPCODES.get(name, name)}"
        if module == "number" and re.search(rf"\b{opcode}\b", KERNEL.stdout):
            hold(f"(int){opcode} == {value}", f"{opcode} is {value}")
            held["numbers"] += 1
CODES = read("crates/c_rooms/specs/Codes.antt")
# Codes whose definition has another name than the header's constant.
CALLED = {"no_memory": "OUT_OF_MEMORY", "is_asked": "CALL", "not_asked": "BAD_CALL"}
CODE = dict(re.findall(r"^abbrev pub (\w+) : ℤ\n\1 = pos (\d+)$", CODES, re.M))
for name, value in CODE.items():
    hold_number([f"NIZWARF_{CALLED.get(name, name.upper())}"], value, "a code")
# Each line of outcome_code, as `outcome_code (Err EncodeMessage) = pos 3`, or with another code's name.
for error, value in re.findall(r"^outcome_code \((?:Err )?\(?(\w+)[^=]*\) = (?:pos )?(\w+)$", CODES, re.M):
    plain = "ok" if error == "Ok" else error.lower()
    hold_number([it for it in sorted(NAMES) if it[len("NIZWARF_"):].replace("_", "").lower() == plain],
                CODE.get(value, value), f"outcome_code {error}")

# ---- definitions

for text in (read("crates/codec_calls/specs/Shapes.antt"), read("crates/codec_calls/specs/Values.antt")):
    for found in re.finditer(COPIED, text, re.M):
        name, given, made, body = found.groups()[:4]
        fields = [IN_C.get((made, it), it) for it in re.findall(r"(\w+) = ", body)]
        for field in fields:
            hold(f"offsetof({STRUCTS[given]}, {field}) == offsetof({STRUCTS[made]}, {field}) && "
                 f"{size(STRUCTS[given], field)} == {size(STRUCTS[made], field)}", f"{name}: {field}")
        whole(STRUCTS[made], fields)
        held["copies"] += 1
    for name, made, body in re.findall(ZEROS, text, re.M):
        whole(STRUCTS[made], [IN_C.get((made, it), it) for it in re.findall(r"«?(\w+)»? = ", body)])
        held["zeros"] += 1

if words:
    print(*lines, sep="\n")
    sys.exit()
result = subprocess.run(["cc", "-std=c11", "-Wall", "-Wextra", "-Werror", "-fsyntax-only", "-I", "include", "-x", "c", "-"],
                        input="\n".join(lines), text=True, capture_output=True, check=False)
faults += [it for it in result.stderr.split("\n") if "error" in it]
print(*faults, sep="\n", end="\n" if faults else "")
print(", ".join(f"{number} {what}" for what, number in held.items()) + " are as nizwarf.h and the kernel's header have them")
sys.exit(1 if faults else 0)
