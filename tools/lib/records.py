"""The records of the protocol as their tables in the specs of the crates say them, for what holds them against others."""
import glob
import os
import re

HERE = os.path.dirname(os.path.dirname(os.path.dirname(os.path.abspath(__file__))))


def read(pattern):
    """All files of this pattern, one after another."""
    text = ""
    for path in sorted(glob.glob(os.path.join(HERE, pattern))):
        with open(path, encoding="utf-8") as file:
            text += file.read() + "\n"
    return text


WIRE, SPECS = read("crates/vfs_wire*/src/*.rt"), read("crates/vfs_wire*/specs/*.antt")
# Of each table the record, the widths and the fields, as they are written.
TABLES = {name: (record, widths, fields) for name, record, widths, fields in re.findall(
    r"^abbrev pub (\w+) : Table (\w+)\n\1 =\s+table \(([^λ]*)\)\s+\(λ r\. (.*?)\)\s+made_\1$", SPECS, re.M | re.S)}


def items(text):
    return [it.strip(" ()\n") for it in re.split(r"∷|\+\+", text) if it.strip(" ()\n[]")]


def laid_out(name):
    """The fields of a table with the bytes that each has, in order: those of a part with the part's name."""
    _, widths, fields = TABLES[name]
    for width, field in zip(items(widths), items(fields), strict=True):
        part = re.fullmatch(r"(\w+)\.fields r\.(\w+)", field)
        if part:
            assert width == f"{part[1]}.widths", (name, width, field)
            for inner, bytes_of in laid_out(part[1]):
                yield f"{part[2]}.{inner}", bytes_of
        else:
            cell = re.fullmatch(r"(?:cast_unsigned w\d+ )?(?:slice_index )?r\.(\w+)(?: (\d+))?", field)
            yield cell[1].rstrip("_") + (f"[{cell[2]}]" if cell[2] else ""), int(width)


def comment_of(record):
    """What is said of a record above its struct."""
    found = re.search(rf"((?:^///.*\n)+)#\[derive.*\]\npub struct {record} \{{", WIRE, re.M)
    return re.sub(r"\s*\n/// ?", " ", found[1]) if found else ""


# Definitions that copy a record, each field into the one of its name, and records of zeros: with their lines of fields.
COPIED = r"^abbrev pub (\w+) : (\w+) → (\w+)\n\1 (?:\w) = record \{\n((?:  (\w+) = \w\.\5;\n)+)\}$"
ZEROS = r"^abbrev pub (\w+) : (\w+)\n\1 = record \{((?:\s+«?\w+»? = (?:0|pos 0|no_\w+);?)+)\s+\}$"
