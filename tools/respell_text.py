#!/usr/bin/env python3
"""Brings the names of definitions and theorems in documents and in the comments of must-fail edits to the spelling of tools/respelled.txt, which has each old
name with its new one, those of tools/respell.py and those that the kit's port.py had turned before it.

usage: tools/respell_text.py    at the top of the repository; a second run changes nothing

In a document only names in code letters are turned, outside commands and blocks of code; in an edit only lines of comment.
"""
import pathlib
import re

root = pathlib.Path(__file__).resolve().parent.parent
new = dict(line.split(" ", 1) for line in (root / "tools/respelled.txt").read_text().splitlines())
# names in snake case were turned once already
new = {name: to for name, to in new.items() if re.search(r"[-~·]|[a-z0-9][A-Z]", name)}
TOKEN = re.compile(r"([^\s(){}\[\].,;:λ→×⊎¬⌜⌝«»@|\\`'\"<>=+*/&!?#]+)")
COMMAND = re.compile(r"(?:^|\s)(?:python3|cargo|tests/|oracle/|\./)")


def turned(text):
    """The text with its names in their new spelling."""
    return "".join(new.get(part, part) for part in TOKEN.split(text))


def span(found):
    """A piece in code letters, turned unless it is a command."""
    marks, inside = found.groups()
    return marks + (inside if COMMAND.search(inside) else turned(inside)) + marks


def document(text):
    """A document with its names turned."""
    fenced, lines = False, []
    for line in text.split("\n"):
        if line.startswith("```"):
            fenced = not fenced
        lines.append(line if fenced else re.sub(r"(`+)(.+?)\1", span, line))
    return "\n".join(lines)


def edit(text):
    """An edit with the names in its comments turned."""
    return "\n".join(turned(line) if line.startswith("#") else line for line in text.split("\n"))


documents = [path for path in root.glob("**/*.md") if not {"target", "out", ".git"} & set(path.relative_to(root).parts) and path.name != "PORT.md"]
for turn, paths in ((document, documents), (edit, root.glob("crates/*/must-fail/*.edit"))):
    for path in sorted(paths):
        text = path.read_text()
        to = turn(text)
        if to != text:
            path.write_text(to)
            print(f"turned {path.relative_to(root)}")
