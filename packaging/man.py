#!/usr/bin/env python3
"""Puts the manual pages of packaging/man into a folder, filled in from the headers of include/.

Usage: packaging/man.py FOLDER
A page that ends in `.in` loses that suffix. These lines of it are replaced by text of the headers, so that a function
is described in one place only:

    @SYNOPSIS@    how the functions that the section NAME lists are declared
    @DESCRIBED@   a part for each of these functions, with the comment before its declaration
    @HEAD FILE@   the comment at the beginning of a header, with a part for each paragraph that begins with a title
    @TYPE NAME@   the declaration of a type, and the comment before it
    @NAMES@       the functions that read or set a field of a call or an answer
    @PROTOTYPES@  how they are declared
    @CALLS@       each call, its fields and the kind of its answer
    @KINDS@       each kind of answer, and the fields that it has
    @FUNCTIONS@   a part for each of these functions, with its comment
    @TYPES@       the types of include/nizwarf_ops.h but the table, with their comments
    @MEMBERS@     the functions of the table, with their comments

The same headers give the same bytes. Exit status: 0 success, 2 invalid arguments.
"""
import errno
import os
import re
import shutil
import sys
import textwrap

HERE = os.path.dirname(os.path.dirname(os.path.abspath(__file__)))
# A function whose body is one statement, on a field of its first argument, with the comment before it.
SMALL = re.compile(r"^/\* ((?:(?!\*/).)*?) \*/\nstatic inline (\w+) (nizwarf_\w+)\(([^)]*)\)\n"
                   r"\{\n\t(return )?\w+->(\w+)( &?= \w+)?;\n\}", re.M | re.S)
# The comment before some constants, and their names.
CONSTANTS = re.compile(r"\t/\* ((?:(?!\*/).)*?) \*/\n((?:\tNIZWARF_\w+ = [\d <]+,\n)+)", re.S)
# A constant of C: words in capitals with `_` between them.
LETTERS = r"[A-Z][A-Z0-9]*(?:_[A-Z0-9]+)+"
# A function with the comment before it: its type, name and parameters. Its body, if it has one, is not looked at.
COMMENT = r"/\* ((?:(?!\*/).)*?) \*/\n"
DECLARED = re.compile(rf"^(?:{COMMENT})?(?:static inline )?"
                      r"((?!return)\w[\w ]* \*?)(nizwarf_\w+)\(([^)]*)\)(?:;|\n\{)", re.M | re.S)
# A struct with the comment before it; its name is at its beginning or at its end.
STRUCT = re.compile(rf"^{COMMENT}" r"((?:typedef )?struct ?(\w*) \{\n(?:[^}][^\n]*\n)*\} ?(\w*);)", re.M | re.S)
ERRORS = set(errno.errorcode.values())


def plain(comment):
    """A comment in one line. Names that it begins to list are followed by two points there."""
    return re.sub(r" \.\.(?!\.)", " and others", re.sub(r"\s*\n\s*\* ", " ", comment))


def paragraphs(comment):
    """The paragraphs of a comment. Each is one line, except that lines of code and items of a list keep their line."""
    # (a comment in a struct is indented; code may have an empty line)
    comment = re.sub(r"\n\t+ \*", "\n *", comment)
    comment = re.sub(r"(\n \*\t.*\n \*)(?=\n \*\t)", r"\1\t", comment)
    return [re.sub(r"\n\s*\*(?=\t| {3}(?:- |\d\.))", "\n", it) for it in re.split(r"\n\s*\*\n\s*\*", f"*{comment}")]


def declarations(text):
    """The declarations of a text that begins with a comment: of each the comment before it, and itself."""
    pieces = re.split(r"^\t?/\* ", text, flags=re.M)[1:]
    return [tuple(it.strip("\n") for it in piece.split(" */\n", 1)) for piece in pieces]


def escaped(text):
    """A text in roff, where `\\` begins a command, and so does a line with `.` or `'` at its beginning."""
    return re.sub(r"^(?=[.'])", r"\\&", text.replace("\\", "\\e"), flags=re.M)


def part(text, begin, end):
    return text.partition(begin)[2].partition(end)[0]


class Header:
    """The parts of the headers that pages quote: functions, calls with their comments, fields, constants, types."""
    def __init__(self, headers):
        text, ops = headers["nizwarf.h"], headers["nizwarf_ops.h"]
        # Of each function its type, its parameters and the comment before it.
        self.declared = {}
        for header in headers.values():
            for comment, returned, name, words in DECLARED.findall(header):
                self.declared.setdefault(name, (returned.strip(), re.split(r",\s+", words), comment))
        self.structs = {first or last: (comment, declared) for header in headers.values()
                        for comment, declared, first, last in STRUCT.findall(header)}
        self.heads = {name: part(header, "/*", "\n */") for name, header in headers.items()}
        types = part(ops, 'extern "C" {\n#endif\n\n', "\n} nizwarf_ops;")
        types, _, table = types.partition("typedef struct nizwarf_ops {\n")
        # (the comment before the table is of all of its functions)
        types, _, self.table = types.rpartition("/* ")
        self.types, self.members = declarations(types), declarations(table)
        self.functions = SMALL.findall(text)
        self.calls = CONSTANTS.findall(part(text, "\n/* Calls, ", "\n};"))
        self.fields = set(re.findall(r"(\w+)(?=[,;])", part(text, "\nstruct nizwarf_call {\n", "\n};")))
        # Names of types, which are no functions.
        self.vt = set(re.findall(r"^(?:\} |typedef struct \w+ )(nizwarf_\w+);", "".join(headers.values()), re.M))
        bits = part(text, "\n/* Bits of `has`.", "\n};")
        kinds = part(text, "\n/* Kinds of answers, ", "\n};")
        self.kinds = re.findall(r"\t/\* ((?:(?!\*/).)*?) \*/\n\t(NIZWARF_\w+) =", kinds, re.S)
        self.constants = set(re.findall(r"NIZWARF_(\w+) =", bits + kinds))

    def macro(self, word):
        """The macro of mdoc for a word, and what follows it."""
        if re.fullmatch(r"nizwarf_\w+(?:\(\))?", word):
            return f"{'Vt' if word in self.vt else 'Fn'} {word.removesuffix('()')}"
        if re.fullmatch(r"`\*?\w+(?:(?:->|\.)\w+)*`", word):
            return f"Fa {word[1:-1]}"
        if re.fullmatch(r"`[^`]+`", word):
            return f"Ql {escaped(word[1:-1])}"
        if re.fullmatch(r"/[\w/]+", word):
            return f"Pa {word}"
        if word in ERRORS:
            return f"Er {word}"
        if word == "NULL":
            return "Dv NULL"
        if re.fullmatch(r"\w+\(\d\)", word):
            return f"Xr {word[:-3]} {word[-2]}"
        if word in self.constants:
            return f"Dv NIZWARF_{word}"
        return f"Dv {word}" if re.fullmatch(LETTERS, word) else None

    def mdoc(self, text):
        """A text in mdoc: a line for each word that has a macro, and for the text between; a sentence begins a line."""
        lines = [""]
        # (a text in backquotes is one word)
        for word in re.findall(r"(?:`[^`]*`|[^ ])+", text):
            # (mdoc wants the signs that end a sentence as words of their own)
            before, core, after = re.fullmatch(r"(\(?)(.*?)([).,:;]*)", word).groups()
            # (a name may end in brackets, as `fork(2)`)
            if core.count("(") > core.count(")") and after.startswith(")"):
                core, after = f"{core})", after[1:]
            macro = self.macro(core)
            if macro:
                kind, _, name = macro.partition(" ")
                lines += [" ".join([f".{kind}", *before, name, *after]), ""]
            elif re.search(r"\.$", lines[-1]):
                lines.append(word)
            else:
                lines[-1] = f"{lines[-1]} {word}".strip()
        return [line for line in lines if line]

    def call_of(self, function):
        """The name of the call whose comment names a function; None if none does."""
        found = [re.findall(r"NIZWARF_(\w+)", names) for comment, names in self.calls
                 if re.search(rf"\b{function}\b", comment)]
        return found[0][0] if found else None

    def text(self, comment):
        """The lines of mdoc for a comment of several paragraphs."""
        for number, paragraph in enumerate(paragraphs(comment)):
            code = re.findall(r"^\t(.*)$", paragraph, re.M)
            first, *items = re.split(r"^ {3}(?:- |\d\. )", paragraph, flags=re.M)
            if code:
                yield from (".Bd -literal -offset indent", *map(escaped, code), ".Ed")
                continue
            if first.strip(" *\n"):
                yield from [".Pp"] * (number > 0)
                yield from self.mdoc(plain(first).strip(" *"))
            if items:
                yield ".Bl -bullet"
                for item in items:
                    yield from (".It", *self.mdoc(plain(item).strip()))
                yield ".El"

    def made_synopsis(self, names):
        """The lines of @SYNOPSIS@."""
        for name in names:
            returned, words, _ = self.declared[name]
            yield f".Ft {returned}"
            if len(words) < 4:
                yield " ".join([f".Fn {name}", *(f'"{word}"' for word in words)])
            else:
                yield from (f".Fo {name}", *(f'.Fa "{word}"' for word in words), ".Fc")

    def made_described(self, names):
        """The lines of @DESCRIBED@."""
        for name in names:
            yield from (f".Ss {name}", *self.text(self.declared[name][2]))

    def made_head(self, file):
        """The lines of @HEAD FILE@, from the second paragraph on, since the first one names the file."""
        for number, paragraph in enumerate(re.split(r"\n \*\n(?= \* [A-Z`])", self.heads[file])[1:]):
            title, sentence = re.fullmatch(r"(?s) \* (?:([A-Z][A-Za-z ]{2,20})\. )?(.*)", paragraph).groups()
            if title or number:
                yield f".Ss {title}" if title else ".Pp"
            yield from self.text(sentence)

    def made_names(self):
        names = [f".Nm {it[2]}" for it in self.functions]
        return [*(f"{name} ," for name in names[:-1]), names[-1]]

    def made_prototypes(self):
        """The lines of @PROTOTYPES@: of each function its type, its name and its parameters."""
        for _, returned, name, words, *_ in self.functions:
            yield f".Ft {returned}"
            yield f".Fn {name} " + " ".join(f'"{word}"' for word in words.split(", "))

    def made_calls(self):
        """The lines of @CALLS@: an item for each comment on calls, which ends with the kind of the answer in brackets.

        A field is named at the beginning, after a comma, or after `and`."""
        widest = max((name for _, names in self.calls for name in re.findall(r"NIZWARF_\w+", names)), key=len)
        yield f".Bl -tag -width {widest}"
        for comment, names in self.calls:
            marked = re.sub(r"(^|, |\band )(\w+)\b", lambda m: f"{m[1]}`{m[2]}`" if m[2] in self.fields else m[0],
                            plain(comment))
            text, _, kind = marked.rpartition(" (")
            yield ".It " + " , ".join(f"Dv {name}" for name in re.findall(r"NIZWARF_\w+", names))
            yield from self.mdoc(f"{text}. Answer: {kind.rstrip(')')}")
        yield ".El"

    def made_kinds(self):
        """The lines of @KINDS@: an item for each kind of answer."""
        yield ".Bl -tag -width NIZWARF_REPLY_ERROR_OR_NONE"
        for comment, name in self.kinds:
            yield from (f".It Dv {name}", *self.mdoc(plain(comment)))
        yield ".El"

    def made_functions(self):
        """The lines of @FUNCTIONS@: of each the call that it is of, what its comment says, and its field."""
        for comment, _, name, _, reads, field, sets in self.functions:
            call, text = self.call_of(name), plain(comment)
            yield f".Ss {name}"
            if call:
                yield from ("Of", f".Dv NIZWARF_{call} :")
                text = text if text.split(" ")[0].isupper() else text[0].lower() + text[1:]
            yield from self.mdoc(text if text.endswith(".") else f"{text}.")
            yield "It reads" if reads else "It changes" if "&" in sets else "It sets"
            yield f".Fa {field} ."

    def shown(self, name, comment, declared):
        """A section on a declaration, which is shown as in the header, and its comment."""
        yield from (f".Ss {name}", ".Bd -literal")
        yield from textwrap.dedent(escaped(declared)).split("\n")
        yield from (".Ed", ".Pp", *self.text(comment))

    def made_type(self, name):
        """The lines of @TYPE NAME@."""
        yield from self.shown(name, *self.structs[name])

    def made_types(self):
        """The lines of @TYPES@: of each type its declaration, and its comment."""
        for comment, declared in self.types:
            yield from self.shown(re.findall(r"\w+(?=;| = )", declared)[-1], comment, declared)

    def made_members(self):
        """The lines of @MEMBERS@: the comment of the table, and of each function its declaration and its comment."""
        yield from self.text(self.table.strip().removesuffix(" */"))
        for comment, declared in self.members:
            yield from self.shown(re.search(r"\(\*(\w+)\)", declared)[1], comment, declared)

    def fill(self, page):
        """A page, with its lines @..@ replaced."""
        lines, names = [], re.findall(r"^\.Nm (\w+)", page.partition("\n.Sh LIBRARY")[0], re.M)
        for line in page.splitlines():
            wanted = re.fullmatch(r"@([A-Z]+)(?: (\S+))?@", line)
            # (@NAMES@ is what made_names gives, and so on)
            made = getattr(self, f"made_{wanted[1].lower()}") if wanted else None
            if wanted and wanted[1] in ("SYNOPSIS", "DESCRIBED"):
                lines += made([it for it in names if it in self.declared])
            elif wanted:
                lines += made(*filter(None, [wanted[2]]))
            else:
                lines.append(line)
        return "\n".join(lines) + "\n"


def main(folder):
    """Copies each page into the folder, and fills in those that end in `.in`."""
    headers = {}
    for name in ("nizwarf.h", "nizwarf_ops.h", "nizwarf_tree.h", "nizwarf_fuse.h"):
        with open(f"{HERE}/include/{name}", encoding="utf-8") as file:
            headers[name] = file.read()
    header = Header(headers)
    os.makedirs(folder, exist_ok=True)
    for name in sorted(os.listdir(f"{HERE}/packaging/man")):
        page = f"{HERE}/packaging/man/{name}"
        if not name.endswith(".in"):
            shutil.copyfile(page, f"{folder}/{name}")
            continue
        with open(page, encoding="utf-8") as file:
            made = header.fill(file.read())
        with open(f"{folder}/{name.removesuffix('.in')}", "w", encoding="utf-8") as file:
            file.write(made)


if __name__ == "__main__":
    if len(sys.argv) != 2 or sys.argv[1].startswith("-"):
        print(__doc__.strip(), file=sys.stdout if sys.argv[1:] == ["--help"] else sys.stderr)
        sys.exit(0 if sys.argv[1:] == ["--help"] else 2)
    main(sys.argv[1])
