#!/usr/bin/env python3
"""Counts the definitions that a reader of a promise must read: those that it names, those that these name, and so on.

Usage: tools/measure/statement.py [--files] [CRATE/FILE.NAME ..]

The arguments are definitions to start with, such as vfs_server/Session.IsSession, which is the default. With --files it
also prints, for each file, how many of its definitions and lines are reached.

Lines are those of definitions, without comments and empty lines. Types of the code, such as records and enums of the
protocol, are counted separately. So are definitions that the gate compares with headers by a compiler: tables of records,
opcodes, error numbers and options with the kernel's headers (tests/c/kernel.py), and numbers of codes, copies of records by
the names of their fields, and records of zeros with nizwarf.h (tests/c/data.py). And so are the functions made_.., because
the law decoding_is_the_inverse of vfs_wire proves them from the functions that split records.

It fails at an import that it cannot read or follow, because the imported definitions would not be counted."""
import collections, glob, os, re, sys

sys.dont_write_bytecode = True
os.chdir(os.path.join(os.path.dirname(os.path.abspath(__file__)), "../.."))
sys.path.append("tools/lib")
from records import COPIED, ZEROS

# An import: `use Rattle.MODULE.{NAME, ..}`, `use Rattle.MODULE`, or the latter `as NAME`.
USE = re.compile(r"^\s*(?:unfoldable )?(?:pub )?use Rattle\.([\w.]+?)(?:\.\{([^}]*)\}|( as (\w+))?)$")
# The first line of a definition, with how far it is indented.
TOP = re.compile(r"^( *)(?:abbrev |unfoldable |opaque )*pub (?!use )(record |data )?([\w-]+)")
CRATES = f"({'|'.join(os.listdir('crates'))})"
WORD = re.compile(r"\w+(?:-\w+)*")


class Definition:
    """One definition: where it is, its lines without comments, and the constructors of a data type."""

    def __init__(self, path, lines, kind):
        self.path = path
        self.lines = [it for it in lines if it.strip() and not it.lstrip().startswith("--")]
        self.text = re.sub(r"--.*", "", "\n".join(lines))
        self.makes = re.findall(r"^\s+(\w+)\s*:", self.text, re.M) if kind == "data " else []


def definitions(path):
    """The definitions of a file by their names. What is indented is one only if it says that it is one: else a field."""
    lines = open(path, encoding="utf-8").read().split("\n")
    tops = []
    for at, line in enumerate(lines):
        found = TOP.match(line)
        if found and (not found[1] or found[2] or "abbrev" in line or "unfoldable" in line):
            tops.append((at, found[3], found[2]))
    ends = [at for at, _, _ in tops[1:]] + [len(lines)]
    return {name: Definition(path, lines[at:end], kind) for (at, name, kind), end in zip(tops, ends)}


def imports(path):
    """What a file brings in: the module and the name of each, and the modules that it names whole."""
    names, modules = {}, {}
    for at, line in enumerate(open(path, encoding="utf-8"), 1):
        found = USE.match(line.rstrip())
        if found and found[2] is not None:
            for name in re.split(r"\s*,\s*", found[2].strip()):
                # (by the name that it has here)
                names[name.split(" as ")[-1]] = (found[1], name.split(" as ")[0])
        elif found:
            modules[found[4] or found[1].split(".")[-1]] = found[1]
        elif re.match(r"[\s\w]*\buse\s+Rattle\.", line):
            sys.exit(f"statement.py: {path}:{at}: an import is on one line, as `use Rattle.CRATE.specs.FILE.{{NAME, ..}}`")
    return names, modules


class Specs:
    """The definitions of every crate, and what each names."""

    def __init__(self):
        self.of, self.brought = {}, {}
        for path in sorted(glob.glob("crates/*/specs/**/*.antt", recursive=True)):
            module = path[len("crates/"):-len(".antt")].replace("/", ".")
            self.of[module], self.brought[module] = definitions(path), imports(path)

    def find(self, module, name, passed=()):
        """Where a name of a module is defined, or the type of the code that it is."""
        here = self.of.get(module, {})
        if name in here:
            return module, name
        # (a constructor stands for its type)
        maker = next((it for it, found in here.items() if name in found.makes), None)
        if maker:
            return module, maker
        if module in passed or name not in self.brought.get(module, ({}, {}))[0]:
            return None
        inside, called = self.brought[module][0][name]
        if ".declared." in inside:
            return "declared", inside.split(".TheVariants")[0]
        return self.find(inside, called, (*passed, module))

    def named(self, module, name):
        """The definitions that one names."""
        text, (names, modules) = self.of[module][name].text, self.brought[module]
        words = [(module, it, names.get(it, ("", ""))[0]) for it in WORD.findall(text)]
        words += [(modules[it], part, modules[it]) for it, part in re.findall(r"\b(\w+)\.(\w+)", text) if it in modules]
        found = set()
        for where, word, inside in words:
            it = ("declared", inside.split(".TheVariants")[0]) if ".declared." in where else self.find(where, word)
            if not it and re.match(CRATES + r"\.specs\.", inside):
                sys.exit(f"statement.py: {module}: {name} names {word} of {inside}, which isn't there: it would not be counted")
            found.add(it)
        return found - {None, (module, name)}

    def reach(self, starts):
        """What is reached from these."""
        # (a definition is followed once, whoever names it)
        reached, todo = set(starts), list(starts)
        while todo:
            new = self.named(*todo.pop()) - reached
            todo += [it for it in new if it[0] != "declared"]
            reached |= new
        return reached


def start_of(specs, word):
    """The definition that a word CRATE/FILE.NAME names."""
    found = re.fullmatch(r"(\w+)/(\w+)\.(\w+)", word)
    at = found and (f"{found[1]}.specs.{found[2]}", found[3])
    if not at or at[1] not in specs.of.get(at[0], {}):
        sys.exit(f"statement.py: there is no definition {word}: write CRATE/FILE.NAME, as vfs_server/Session.IsSession")
    return at


def is_decoder(it):
    """Whether a definition makes a record of its fields."""
    return it[0].startswith("vfs_wire") and it[1].startswith("made_")


def is_held(specs, it):
    """Whether tests/c/kernel.py holds a definition against the kernel's headers: the table of a record, that of opcodes,
    an error number, or an option that the header of 7.38 has. Or tests/c/data.py against nizwarf.h too: the codes, a copy
    of a record by the names of its fields, or a record of zeros."""
    text = specs.of[it[0]][it[1]].text
    if it[0] == "c_rooms.specs.Codes":
        return it[1] == "outcome_code" or bool(re.match(r"abbrev pub \w+ : ℤ\n\w+ = pos \d+$", text.strip()))
    if it[0].startswith("codec_calls"):
        return bool(re.match(COPIED, text.strip()) or re.match(ZEROS, text.strip()))
    if it[0].startswith("vfs_wire"):
        return bool(re.match(r"abbrev pub \w+ : Table \w+\n", text))
    if it[0] == "vfs_flags.specs.Flags":
        return bool(re.search(r"^\w+ = 2 \^ \d+$", text, re.M)) and it[1] != "create_supp_group"
    return it[0] == "vfs_flags.specs.Numbers" and (it[1] in ("opcode_of", "number_of")
                                                   or bool(re.match(r"abbrev pub e\w+ : ℕ\ne\w+ = \d+$", text.strip())))


def main():
    """Prints the counts of what is reached from the definitions that are named, with --files of each file too."""
    words = sys.argv[1:]
    if words[:1] == ["--help"]:
        sys.exit(print(__doc__))
    by_files = words[:1] == ["--files"]
    specs = Specs()
    named = specs.reach([start_of(specs, it) for it in words[by_files:] or ["vfs_server/Session.IsSession"]])
    all_reached = [it for it in named if it[0] != "declared"]
    followed = [it for it in all_reached if is_decoder(it)]
    held = [it for it in all_reached if is_held(specs, it)]
    reached = [it for it in all_reached if it not in followed and it not in held]
    at = lambda it: specs.of[it[0]][it[1]]
    files = collections.Counter(at(it).path for it in reached)
    lines = collections.Counter()
    for it in reached:
        lines[at(it).path] += len(at(it).lines)
    for path in sorted(files) if by_files else []:
        print(f"{path[len('crates/'):]}: {files[path]} definitions, {lines[path]} lines")
    crates = {path.split("/")[1] for path in files}
    print(f"{len(reached)} definitions, {sum(lines.values())} lines, in {len(files)} files of {len(crates)} crates;"
          f" {len(named) - len(all_reached)} types of the code")
    length = lambda those: sum(len(at(it).lines) for it in those)
    if held:
        print(f"not counted: {len(held)} tables and numbers of {length(held)} lines, held against headers, and"
              f" {len(followed)} decoders of {length(followed)}, which a law gives")


if __name__ == "__main__":
    main()
