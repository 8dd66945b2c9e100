#!/usr/bin/env python3
"""Copies sources and inserts annotations of their loops: annotations.txt.

Usage: annotate.py ANNOTATIONS TO SOURCE.."""
import re
import sys


def loop_of(text, function, number):
    """Where the loop of this number begins."""
    # A definition of the function at the beginning of a line, up to the brace alone on its line.
    head = re.search(r"^[a-z][^;{}()#]*[ *]" + function + r"\([^;{]*\)\n\{", text, re.M)
    if not head:
        return None
    end = text.index("\n}\n", head.end())
    # (a `while (..);` that ends a line closes a `do`, and begins none)
    loops = [found.start() for found in re.finditer(r"^\t+(for|while|do)\b(?!.*\);$)", text[head.end():end], re.M)]
    return head.end() + loops[number - 1] if number <= len(loops) else None


def put_in(text, kind, where, body):
    """The text with one annotation; None: it has no place."""
    if kind == "loop":
        function, number = where.split()
        at = loop_of(text, function, int(number))
        return None if at is None else f"{text[:at]}/*@ {body} */\n{text[at:]}"
    if kind == "before":
        # (the line must be there once)
        parts = text.split(f"\n{where}\n")
        return None if len(parts) != 2 else f"\n{body}\n{where}\n".join(parts)
    changed, count = re.subn(where, body, text, flags=re.M)
    return changed if count else None


def main():
    """Copies each source with its annotations.

    A rule is a line FILE KIND WHERE, and below it its body, indented by four."""
    annotations, to, *sources = sys.argv[1:]
    with open(annotations, encoding="utf-8") as file:
        blocks = [block.strip("\n") for block in re.split(r"\n\n+", file.read())]
    rules = [block.split("\n") for block in blocks if block and not block.startswith("#")]
    for source in sources:
        name = source.rsplit("/", 1)[1]
        with open(source, encoding="utf-8") as file:
            text = file.read()
        for head, *body in rules:
            of, kind, where = head.split(None, 2)
            if of == name:
                text = put_in(text, kind, where, "\n".join(line[4:] for line in body))
                if text is None:
                    sys.exit(f"{name} has no place for this annotation: {head}")
        with open(f"{to}/{name}", "w", encoding="utf-8") as file:
            file.write(text)


main()
