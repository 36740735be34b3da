#!/usr/bin/env python3
"""Respells this repository's own definitions and lemmas as today's Rattle spells them.

usage: python3 tools/respell.py        at the top of the repository, once, after the kit's port.py

Words are in snake case and types in upper camel case: a name that specs/ or proofs/ define with dashes gets underscores,
or, if it begins with a capital or stands for a type, upper camel case. Every place that cites it follows: specs/,
proofs/, the clauses of src/, the must-fail edits, and names between backquotes in README.md and docs/. Comments and strings
stay; so do names of src/, which have no dashes, and the answers in proofs/ to goals that Rattle names. It stops where two
definitions would fall together; a definition may come to share its name with a field of a struct.
"""
import os
import re
import sys

DEFINITION = re.compile(r"\s*(?:(?:abbrev|unfoldable|pub|opaque|record|data) )*([^\s(){}:,]+)\s+(?:[({].*[)}]\s+)?: (.*)")
NAME = re.compile(r"[A-Za-z_][\w'-]*")
# Names that another definition has in upper camel case already.
CHOSEN = {"In-range": "IsInRange"}
# Names with dashes that proofs bind on the way.
BOUND = ("some-y", "range-of", "past-again", "low-num", "low-den", "high-num", "high-den")
SKIPPED = re.compile(r'"(?:[^"\\]|\\.)*"')


def texts(top):
    for folder, dirs, files in os.walk(os.path.join(top, "crates")):
        dirs[:] = sorted(d for d in dirs if d != "out")
        for name in sorted(files):
            if name.endswith((".antt", ".rt", ".edit")):
                yield os.path.join(folder, name)


def read(path):
    with open(path, encoding="utf-8") as file:
        return file.read()


def definitions(top):
    """Each name that an .antt file defines, and whether it stands for a type."""
    found = {}
    for path in texts(top):
        if not path.endswith(".antt"):
            continue
        for line in read(path).split("\n"):
            match = DEFINITION.match(line)
            if not match or line.lstrip().startswith(("--", "use ")) or match.group(2).startswith("goal."):
                continue
            name = match.group(1)
            found[name] = found.get(name, False) or re.search(r"Type \d+( where)?$", match.group(2)) is not None
    return found


def respelled(name, is_type):
    if name in CHOSEN:
        return CHOSEN[name]
    if name[0].isupper() or is_type:
        return "".join(part[:1].upper() + part[1:] for part in name.split("-"))
    return name.replace("-", "_")


def table(top):
    found = definitions(top)
    names = {name: respelled(name, is_type) for name, is_type in found.items() if "-" in name}
    names |= {name: respelled(name, False) for name in BOUND}
    taken = set(found) - set(names)
    for old, new in sorted(names.items()):
        if new in taken:
            sys.exit(f"respell: {old} would fall together with another {new}")
        taken.add(new)
    return names


def turned(text, names):
    return NAME.sub(lambda match: names.get(match.group(0), match.group(0)), text)


def turned_code(line, names, comment):
    """The line with its code turned; strings, and a comment but for names between backquotes, stay."""
    at = re.search(r"(^|\s)" + comment, line)
    code, said = (line[: at.start()], line[at.start() :]) if at else (line, "")
    kept, end = [], 0
    for match in SKIPPED.finditer(code):
        kept += [turned(code[end : match.start()], names), match.group(0)]
        end = match.end()
    return "".join(kept) + turned(code[end:], names) + turned_page(said, names)


def turned_page(text, names):
    return re.sub(r"`[^`\n]*`", lambda match: turned(match.group(0), names), text)


def pages(top):
    for folder in (top, os.path.join(top, "docs")):
        for name in sorted(os.listdir(folder)):
            if name.endswith(".md"):
                yield os.path.join(folder, name)


def write(path, text):
    if text != read(path):
        with open(path, "w", encoding="utf-8") as file:
            file.write(text)


def main():
    top = "."
    names = table(top)
    for path in list(texts(top)):
        comment = "--" if path.endswith(".antt") else "//"
        write(path, "\n".join(turned_code(line, names, comment) for line in read(path).split("\n")))
    for path in pages(top):
        write(path, turned_page(read(path), names))
    print(f"respell: {len(names)} names")


if __name__ == "__main__":
    main()
