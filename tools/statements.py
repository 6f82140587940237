#!/usr/bin/env python3
"""Compares the named statements of proofs/*.antt of two checkouts, as the kit's contracts.py compares clauses and definitions: what is gone and what reads otherwise.

usage: tools/statements.py OLD NEW    folders with crates/, OLD after the kit's port.py and tools/respell.py

A statement is a signature that is pub, an abbrev, unfoldable, a record or data, with the parameters of the module that it stands in. It goes by its crate and name,
so that one that moved within its crate is found; what a function's own answers say is the prover's. It prints each that is gone or changed, then counts.
"""
import pathlib
import re
import sys

WORD = r"[^\s(){}\[\].,;:λ→×⊎¬⌜⌝«»@|\\`]+"
SIGNED = re.compile(r"^(\s*)((?:abbrev |unfoldable )?(?:pub )?(?:record |data )?)(" + WORD + r")\s*(?:\(|\{|:(?!:))")
ANSWERS = re.compile(r"\b(?:Goals|Given) as goal\b")


def whole(lines, start, indent):
    """A signature with the deeper lines below it, its blanks made one."""
    end = start + 1
    while end < len(lines) and lines[end].strip() and len(lines[end]) - len(lines[end].lstrip()) > indent:
        end += 1
    return " ".join(" ".join(lines[start:end]).split())


def statements(root):
    """Each statement of a checkout, by its crate and name."""
    found = {}
    for path in sorted(pathlib.Path(root).glob("crates/*/proofs/**/*.antt")):
        text = re.sub(r"(?m)^\s*--.*\n", "", path.read_text())
        if path.name == "Lib.antt" or ANSWERS.search(text):
            continue
        lines = text.split("\n")
        modules = []
        for at, line in enumerate(lines):
            indent = len(line) - len(line.lstrip())
            if line.strip():
                modules = [m for m in modules if m[0] < indent]
            if re.match(r"^\s*module _\b", line):
                last = next(k for k in range(at, len(lines)) if re.search(r"\bwhere$", lines[k]))
                header = " ".join(" ".join(lines[at:last + 1]).split())
                modules.append((indent, header.removeprefix("module _").removesuffix("where").strip()))
            signed = SIGNED.match(line)
            if signed and signed.group(2):
                under = " ".join(m[1] for m in modules)
                crate = path.relative_to(root).parts[1]
                found.setdefault((crate, signed.group(3)), []).append(f"{under} |- {whole(lines, at, len(signed.group(1)))}")
    return found


old, new = statements(sys.argv[1]), statements(sys.argv[2])
same = changed = gone = 0
for name in sorted(old):
    if name not in new:
        gone += 1
        print("gone:", *name)
    elif all(it in new[name] for it in old[name]):
        same += 1
    else:
        changed += 1
        print("changed:", *name)
        for it in old[name]:
            if it not in new[name]:
                print("    -", it)
        for it in new[name]:
            if it not in old[name]:
                print("    +", it)
print(f"{len(old)} statements: {same} the same, {changed} changed, {gone} gone; {len(set(new) - set(old))} new")
sys.exit(bool(changed))
