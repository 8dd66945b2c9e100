"""Opcodes by name, as Linux spells them: those of virtiofsd, of crates/vfs_flags/src/opcode.rt."""
import enum
import pathlib
import re

SOURCE = pathlib.Path(__file__).resolve().parents[2] / "crates/vfs_flags/src/opcode.rt"
# Linux has these in one word.
ONE_WORD = {"TMP_FILE": "TMPFILE", "SETUP_MAPPING": "SETUPMAPPING", "REMOVE_MAPPING": "REMOVEMAPPING"}


def names():
    """The name of each number."""
    found = re.findall(r"^    ([A-Z]\w*) = (\d+),$", SOURCE.read_text("utf-8"), re.M)
    words = {int(number): re.sub(r"(?<=[a-z])(?=[A-Z])", "_", name).upper() for name, number in found}
    return {number: ONE_WORD.get(name, name) for number, name in words.items()}


Op = enum.IntEnum("Op", {name: number for number, name in sorted(names().items())})
