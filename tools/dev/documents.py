"""Checks the Markdown pages against the sources, for documents.sh, which lists the rules. The toolchain is that of $kit."""
import glob
import os
import re
import subprocess
import sys

KIT = os.environ["kit"]
PAGES = sorted(it for it in subprocess.run(["git", "ls-files", "--cached", "--others", "--exclude-standard", "-z", "--", "*.md"],
                                           capture_output=True, check=True, text=True).stdout.split("\0")
               if it and os.path.exists(it))
CODE = re.compile(r"`([^`]+)`")
ENDING = re.compile(r"\.(rt|antt|edit|md|sh|rs|py|c|h|txt|go)$")
# Files of virtiofsd, the kernel, libfuse and the toolchain, and those that are built or installed.
OUTSIDE = re.compile(r"(src/)?(fuse|descriptor_utils|filesystem|server)\.rs|fuse\.h|fuse_lowlevel\.c|/.*|out/.*|.*\.a")
# These pages name functions of other versions and of other projects.
OTHERS = ("docs/DIFFERENCES.md", "CHANGELOG.md", "bindings/")
VERSIONS = {
    "CHANGELOG.md": r"^## (\d+\.\d+\.\d+)",
    "include/nizwarf.h": r"^#define NIZWARF_VERSION_(?:MAJOR|MINOR|PATCH) (\d+)$",
    "bindings/rust/Cargo.toml": r'^version = "([^"]+)"',
    "bindings/rust/Cargo.lock": r'^name = "nizwarf"\nversion = "([^"]+)"',
    "crates/nizwarf_codec/src/lib.rt": r"nizwarf_version\(\)[^{]*{[^}]*}\s*{\s*0x0*(\w\w?)_(\w\w)(\w\w)\s*}",
    # (of the minor version: the newest symbols, the library that the crate requires, and the line for its users)
    "packaging/nizwarf.map": r"(?s).*^NIZWARF_(\S+) {",
    "bindings/rust/build.rs": r'">= ([^"]+)"',
    "bindings/python/pyproject.toml": r'^version = "([^"]+)"',
    "bindings/rust/README.md": r'^nizwarf = { version = "([^"]+)"',
}


def read(path):
    with open(path, encoding="utf-8") as file:
        return file.read()


# All files and directories, except git's and those that are built.
paths = set()
for folder, folders, files in os.walk("."):
    folders[:] = [name for name in folders if name not in (".git", "out", "__pycache__")]
    paths |= {os.path.normpath(os.path.join(folder, name)) for name in folders + files}
sources = {path: read(path) for path in paths if re.search(r"\.(rt|antt|sh|rs|py|c|h|go)$", path)}
crates = set(os.listdir("crates"))
words = {word for text in [*paths, *sources.values()] for word in re.findall(r"\w+", text)}
faults = []


def anchors(page):
    """The headings of a page, as links name them: GitHub makes the anchor of a heading in this way."""
    return {re.sub(r"[^\w\- ]", "", heading.lower()).replace(" ", "-") for heading in re.findall(r"^#+ (.*)", read(page), re.M)}


def check_link(fault, page, target):
    """Whether the file of a link exists, and its heading."""
    path, _, anchor = target.partition("#")
    path = os.path.normpath(os.path.join(os.path.dirname(page), path)) if path else page
    if path not in paths:
        fault(f"there is no file {path}")
    elif anchor and anchor not in anchors(path):
        fault(f"{path} has no heading for #{anchor}")


def check_path(fault, page, path):
    """Whether a path, or the end of a path, exists; capital words such as CRATE stand for any name."""
    pattern = re.sub(r"\b(CRATE|NAME|my_library|my_tree)\b", "*", path).rstrip("/")
    places = (pattern, f"crates/{pattern}", os.path.join(os.path.dirname(page), pattern))
    if not any(map(glob.glob, places)) and not any(full.endswith("/" + pattern) for full in paths):
        fault(f"there is no {path}")


def check_line(fault, page, line):
    """Checks the links, names and paths of a line that is no part of a block."""
    for target in re.findall(r"\]\(([^)\s:]+)\)", line):
        check_link(fault, page, target)
    for code in CODE.findall(line):
        if code in crates or OUTSIDE.fullmatch(code):
            continue
        if re.fullmatch(r"[\w./*-]+", code) and ("/" in code or ENDING.search(code)):
            check_path(fault, page, code)
        elif re.fullmatch(r"[0-9a-f]{16}", code):
            if code not in KIT:
                fault(f"this toolchain is {KIT}, and the proofs were last checked with the logic {code}")
        elif re.fullmatch(r"[A-Za-z_]\w*(::\w+)*", code) and not page.startswith(OTHERS):
            for word in code.split("::"):
                if word not in words and word[0] != "_":
                    fault(f"no source has the name {word}")


def check_block(fault, comment, block):
    """Whether a block is in the file that the comment above it names."""
    path = (re.fullmatch(r"<!-- (\S+) -->", comment) or [None, None])[1]
    if path and path not in paths:
        fault(f"there is no file {path}")
    for line in set(block.splitlines()) - set(read(path).splitlines()) if path in paths else ():
        fault(f"{path} has no line {line}")


for page in PAGES:
    comment, block = "", None
    for number, line in enumerate(read(page).splitlines(), 1):
        fault = lambda text, at=f"{page}:{number}": faults.append(f"{at}: {text}")
        if line.startswith("```") and block is None:
            block, opened = "", fault
        elif line.startswith("```"):
            check_block(opened, comment, block)
            block = None
        elif block is not None:
            block += line + "\n"
        elif line.startswith("    "):
            # (an indented line is a command, whose first word may be a path)
            command = line.split()[0]
            if re.match(r"[\w.]+/", command) and not os.access(command, os.X_OK):
                fault(f"{command} is no file that can be run")
        else:
            check_line(fault, page, line)
            comment = line
# The size of the promise, which two pages state, is counted.
counted = re.findall(r"\d+(?= (?:definitions|lines|files|types))",
                     subprocess.run(["tools/measure/statement.py"], capture_output=True, text=True, check=True).stdout)
for page in ("README.md", "docs/PROMISE.md"):
    stated = re.search(r"(\d+) definitions of ([\d,]+) lines", read(page))
    if [it.replace(",", "") for it in stated.groups()] != counted[:2]:
        faults.append(f"{page}: tools/measure/statement.py counts {counted[0]} definitions of {counted[1]} lines")
version = None
for path in filter(os.path.exists, VERSIONS):
    found = re.findall(VERSIONS[path], read(path), re.M)
    found = [f"{int(it, 16)}" for it in found[0]] if path.endswith(".rt") and found else found
    stated = ".".join(found[:3] if path.endswith((".h", ".rt")) else found[:1])
    version = version or stated
    if stated != version and f"{stated}.0" != version:
        faults.append(f"{path}: the version is {stated or 'not there'}, and that of CHANGELOG.md {version}")

print("\n".join([*faults, f"{len(PAGES)} documents, {len(faults)} faults"]))
sys.exit(1 if faults else 0)
