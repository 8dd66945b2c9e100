#!/usr/bin/env python3
"""Says how much stack the functions of a static library take that C calls, and that none calls itself without end.

Usage: tools/dev/stack.py [--all] [--most BYTES] LIBRARY..

It reads what was compiled: of each function the bytes that it pushes and reserves, and whom it calls. A line for each
library names the function with the deepest path, and how many bytes that takes; with --all a line for each function,
with its path. What the C library takes, as in malloc, is not counted. LEVELS, below, has the functions that may call
themselves.

Status 0: each has a bound, and none is above BYTES; 1: not so, since another function may lead back to itself, calls
through a pointer, or reserves as many bytes as it computes; 2: it could not start.
"""
import re
import subprocess
import sys

HEAD = re.compile(r"^[0-9a-f]+ <(.+)>:$")
RELOCATION = re.compile(r"^\s+[0-9a-f]+: R_X86_64_\w+\s+(.+?)(?:[-+]0x[0-9a-f]+)?$")
STEP = re.compile(r"^\s*[0-9a-f]+:\s+(?:(?:notrack|bnd|rep|repz|lock) )*(\w+)\s*(.*)$")
INLINE = re.compile(r"<(.+?)(\+0x[0-9a-f]+)?>$")
# A push takes 8 bytes, and so does a call, for the place that it returns to.
WORD = 8
# As many bytes below its own a function may use that calls none.
RED_ZONE = 128
# How many calls of itself are under way at most: a map of std is no higher than 11, as its MAX_HEIGHT, and a table of
# memory has eight regions.
LEVELS = {"std_collections::btree::": 12, "vhost_protocol::messages::table::": 9}


class Function:
    """What one function takes of the stack, and whom it may call."""

    def __init__(self, name):
        self.name = name
        self.taken, self.reserved = WORD, 0
        self.calls, self.faults = set(), []
        self.has_table, self.jumps_away = False, False

    def note(self, word, rest):
        """Notes an instruction."""
        if word == "push":
            self.taken += WORD
        elif rest.endswith(",%rsp"):
            self.note_size(word, re.match(r"\$0x([0-9a-f]+),", rest))
        elif word == "call" and rest.startswith("*"):
            self.faults.append("calls through a pointer")
        elif word == "jmp" and rest.startswith("*"):
            self.jumps_away = True
        elif word == "call" or word.startswith("j"):
            named = INLINE.search(rest)
            # (what the assembler knew already; within a function are jumps alone)
            if named and not named[2] and (word == "call" or named[1] != self.name):
                self.calls.add(named[1])

    def note_size(self, word, size):
        """Notes that the place where the stack ends is changed."""
        if word in ("sub", "add") and size:
            # (objdump shows what is added as a number of 64 bits: 0xffff..80 takes 128)
            bytes_ = int(size[1], 16) if word == "sub" else 2**64 - int(size[1], 16)
            # (what is given back is not counted)
            if bytes_ < 2**63:
                self.reserved = max(self.reserved, bytes_)
        else:
            self.faults.append("reserves as many bytes as it computes")

    def note_name(self, name, word):
        """Notes a name that an instruction refers to."""
        self.has_table = self.has_table or name.startswith(".rodata")
        if word == "call" or word.startswith("j"):
            self.calls.add(name)

    def finish(self, by_section):
        """Puts functions in place of their sections."""
        self.calls = {by_section.get(it, it) for it in self.calls}
        if self.jumps_away and not self.has_table:
            self.faults.append("jumps through a pointer")


def read(library):
    """Returns the functions of a library by name."""
    words = ["objdump", "-dr", "--no-show-raw-insn", library]
    said = subprocess.run(words, check=True, capture_output=True, text=True).stdout
    functions, by_section, section, it, last = {}, {}, "", None, ""
    for line in said.splitlines():
        if line.startswith("Disassembly of section "):
            section = line[len("Disassembly of section ") : -1]
        elif head := HEAD.match(line):
            it = functions.setdefault(head[1], Function(head[1]))
            by_section.setdefault(section, head[1])
        elif it and (name := RELOCATION.match(line)):
            it.note_name(name[1], last)
        elif it and (step := STEP.match(line)):
            last = step[1]
            it.note(*step.groups())
    for it in functions.values():
        it.finish(by_section)
    return functions


class Depths:
    """The deepest paths of functions."""

    def __init__(self, functions):
        self.functions, self.faults, self.found, self.under_way = functions, set(), {}, []

    def of(self, name):
        """Returns how many bytes the deepest path from a function on takes, and that path."""
        if name in self.found or name not in self.functions:
            return self.found.get(name, (0, ()))
        if name in self.under_way:
            self.faults.add(" -> ".join([*self.under_way[self.under_way.index(name) :], name]))
            return 0, ()
        it = self.functions[name]
        self.faults.update(f"{name} {fault}" for fault in it.faults)
        levels = next((n for front, n in LEVELS.items() if name.startswith(front)), 1)
        below = it.calls - {name} if levels > 1 else it.calls
        self.under_way.append(name)
        most, path = max((self.of(called) for called in sorted(below)), default=(0, ()))
        self.under_way.pop()
        # (one that may call itself takes its own part once for each level)
        times = levels if name in it.calls else 1
        self.found[name] = times * (it.taken + it.reserved) + most, (name, *path)
        return self.found[name]


def bound(library, every, most):
    """Prints the bound of a library, and answers whether there is one, no greater than `most`."""
    functions = read(library)
    sys.setrecursionlimit(10 * len(functions) + 1000)
    depths = Depths(functions)
    # (what C calls has a plain name; those of Rattle have `::`)
    found = sorted((depths.of(name) for name in functions if re.fullmatch(r"\w+", name)), reverse=True)
    for fault in sorted(depths.faults):
        print(f"{library}: no bound: {fault}")
    for taken, path in found if every else found[:1]:
        more = f": {' -> '.join(path)}" if every else ""
        print(f"{library}: {path[0]} takes {taken + RED_ZONE} bytes of stack{more}")
    return bool(found) and not depths.faults and found[0][0] + RED_ZONE <= most


def main(words):
    """Prints the bound of each library."""
    every, most = "--all" in words, sys.maxsize
    words = [word for word in words if word != "--all"]
    if words[:1] == ["--most"] and len(words) > 1 and words[1].isdecimal():
        most, words = int(words[1]), words[2:]
    if words in (["-h"], ["--help"]):
        print(__doc__.strip())
        return 0
    if not words or any(word.startswith("-") for word in words):
        print(__doc__.strip(), file=sys.stderr)
        return 2
    try:
        bounded = [bound(library, every, most) for library in words]
    except (OSError, subprocess.CalledProcessError) as error:
        print(error, file=sys.stderr)
        return 2
    return 0 if all(bounded) else 1


if __name__ == "__main__":
    sys.exit(main(sys.argv[1:]))
