#!/usr/bin/env python3
"""Brings the repository's own definitions, fields and lemmas to the spelling of today's Rattle: words in snake case, types and modules in camel case.

usage: tools/respell.py [--dry] [FOLDER]    once, at the top of the repository, right after the kit's port.py

A name of a definition or a lemma in lower camel case gets underscores, `leadOf` becomes `lead_of`. A dash in a name stays where it joins two names of definitions,
as in `record_from-record_bytes`, and becomes an underscore between plain words. Names from src/, the names that the prover makes, and names that the kit's
libraries have keep their spelling. It prints each old name with its new one, and stops where two names would fall together.
"""
import pathlib
import re
import shutil
import sys

dry = "--dry" in sys.argv
rest = [word for word in sys.argv[1:] if word != "--dry"]
root = pathlib.Path(rest[0] if rest else ".")
kit = pathlib.Path(shutil.which("rt")).resolve().parent.parent / "rattle"
WORD = r"[^\s(){}\[\].,;:λ→×⊎¬⌜⌝«»@|\\`]+"
#: a signature at the start of a line
SIGNED = re.compile(r"^[ ]*(?:abbrev |unfoldable )?(?:pub )?(?:record |data )?(" + WORD + r")[ ]*(?:\(|\{|:(?!:))", re.M)
#: words of the library that lemmas of this repository are named after
WORDS = set("""length take drop set append map get_or replicate cond add sub mul div mod pow min max not lt le eq ne neg abs sqrt leb ltb eqb sets nan inf fin
is_nan of_bits to_bits round get_or sum all""".split())


def names_of(folder):
    found = set()
    for path in sorted(folder.rglob("*.antt")):
        found |= set(SIGNED.findall(path.read_text(errors="replace")))
    return found


def snake(name):
    return re.sub(r"(?<=[a-zé0-9·])([A-Z])", lambda m: "_" + m.group(1).lower(), name)


library = names_of(kit)
specs, own = set(), set()
sources = set()
for crate in sorted((root / "crates").iterdir()):
    for path in sorted(crate.glob("specs/**/*.antt")):
        specs |= set(SIGNED.findall(path.read_text()))
    for path in sorted(crate.glob("proofs/**/*.antt")):
        text = path.read_text()
        # an answer takes the prover's name for its goal, the proof of a function that of the function
        answers = set(re.findall(r"^(?:abbrev )?(?:pub )?(" + WORD + r") : (?:tie\.|statement|\{M : Type 1\} → statement)", text, re.M))
        own |= set(SIGNED.findall(text)) - answers
    for path in sorted(crate.glob("src/**/*.rt")):
        sources |= set(re.findall(r"\b[A-Za-z_][A-Za-z0-9_]*\b", path.read_text()))

ours = {name for name in specs | own if name not in library}
lower = {name for name in ours if re.match(r"[a-z]", name)}
new = {}
for name in sorted(lower):
    if re.search(r"[a-z0-9·][A-Z]", name) and "-" not in name:
        to = snake(name)
        if to != name:
            new[name] = to
defined = {new.get(name, name) for name in specs if "-" not in name} | WORDS
for name in sorted(ours):
    if "-" not in name or not re.match(r"[A-Za-z]", name) or name in new:
        continue
    parts = [new.get(part, snake(part) if re.match(r"[a-z]", part) else part) for part in name.split("-")]
    to = parts[0]
    for before, part in zip(parts, parts[1:]):
        joined = (before in defined or re.match(r"[A-Z]", before)) and (part in defined or re.match(r"[A-Z]", part))
        to += ("-" if joined else "_") + part
    if to != name:
        new[name] = to

# a lemma that would have its definition's name gets _lem
taken = {to for name, to in new.items() if "-" not in name} | {name for name in specs | own if name not in new}
for name in [name for name in new if "-" in name]:
    if new[name] in taken:
        new[name] += "_lem"
# names that the kit's script had turned already, each beside a definition that takes this spelling now
new |= {"units_of": "units_of_lem", "left_by": "left_by_lem", "in_order": "rows_in_order", "in-float": "in_float_lem"}
new |= {name: name.replace("·", "_") for name in specs if re.fullmatch(r"f\d+·\d+", name)}
# names that fall together: two of ours, or ours and another word of a file that it stands in
clash = {}
for name, to in new.items():
    clash.setdefault(to, []).append(name)
bad = [(to, names) for to, names in clash.items() if len(names) > 1]
SPLIT = re.compile("(" + WORD + ")")


def turned(text):
    return "".join(new.get(part, part) for part in SPLIT.split(text))


def together(path):
    words = set(SPLIT.findall(path.read_text()))
    return [(str(path), word, new[word]) for word in sorted(words) if word in new and new[word] in words]


def code(text):
    """Only ghost imports, clauses, and names in lower camel case anywhere else: none of src/'s own names is one."""
    return re.sub(WORD, lambda m: new[m.group(0)] if m.group(0) in new and (m.group(0) in specs or "-" not in m.group(0)) else m.group(0), text)


if __name__ == "__main__":
    for name in sorted(new):
        print(name, new[name])
    for path in sorted(root.glob("crates/**/*.antt")) + sorted(root.glob("crates/**/*.rt")):
        for row in together(path):
            print("together:", *row, file=sys.stderr)
    for to in sorted(set(new.values()) & sources):
        print("in src:", to, file=sys.stderr)
    for row in bad:
        print("clash:", *row, file=sys.stderr)
    if bad and not dry:
        raise SystemExit("nothing was changed: names fall together")
    if not dry:
        for crate in sorted((root / "crates").iterdir()):
            for path in sorted(crate.glob("specs/**/*.antt")) + sorted(crate.glob("proofs/**/*.antt")):
                text = path.read_text()
                to = turned(text)
                if to != text:
                    path.write_text(to)
            for path in sorted(crate.glob("src/**/*.rt")):
                text = path.read_text()
                to = code(text)
                if to != text:
                    path.write_text(to)
            for path in sorted(crate.glob("must-fail/*.edit")):
                text = path.read_text()
                to = turned(text) if re.search(r"^file: (specs|proofs)/", text, re.M) else text
                if to != text:
                    path.write_text(to)
