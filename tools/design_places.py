#!/usr/bin/env python3
"""Counts and lists the places that today's Rattle writes otherwise: the eight points of docs/DESIGN-PASS.md, by named rules over crates/*/src/**/*.rt.

usage, at the top of a checkout: tools/design_places.py [--point N] [--read]
With no option the eight counts; with --point N a line `crate/file:line function: what (rule)` for each place of point N, then `N places`.
With --read it counts those of docs/design-places.txt too, found by reading, of which file and function still stand.
A place is kept where a line `// Stays: REASON` stands over its item or in it; the list marks those, and the counts tell them apart.
Of an export, and of the function of its name that it calls, only the body is looked at: its signature is C's. It leans on the layout of `rt fmt`.
"""
import collections, itertools, pathlib, re, sys
POINTS = """own Options, Results, flags and numbers for kinds; twins; loops that count by hand; equality, order, copies, conversion and printing by hand;
facts and parameters that travel together; lengths beside buffers, parallel arrays, searches, packed numbers; switches on a step; answers of one word""".replace("\n", " ").split("; ")
# What a body shows by itself, its blanks made one.
BODIES = [(1, "passed on", r"\b(?:[A-Z]\w*::)?[A-Z]\w*\((\w+)\) => (?:[A-Z]\w* \{ answer: )?(?:[A-Z]\w*::)?[A-Z]\w*\(\1\)", "a variant's value handed on as another's"),
          (4, "kind told", r"match [^{]*\{[^{}]*=> (true|false),[^{}]*=> (true|false),? \}", "whether a kind is this one by a match"),
          (4, "ordered", r"\((\w+)\.(\w+) < (\w+)\.\2\) \| \(\(\1\.\2 == \3\.\2\)|^if (\w+) <=? (\w+) \{ (\4|\5) \} else \{ (\4|\5) \}$|^if (\w+) <= (\w+) \{ \9 - \8 \} else \{ 0 \}$", "an order, a least or a difference by hand"),
          (4, "cast", r"^\(?[\w.+*/% -]*\)? as \w+( % \d+)?$|^if \w+( == 0| <= \w+)? \{ [01] \} else \{ [01] \}$|^if \d+ <= \w+ \{ 1 \} else \{ 0 \}$", "a conversion by a function of its own"),
          (4, "digits", r"[/%] 256\b|\b256 \* wide", "a word by its digits to the base 256"),
          (6, "packed", r"(put_\w+|\w+_from|read_floats)\((?:[^(),]*, )*?[^(),*]*\b[1-9]\d{0,3}\b|\w\[\d{2,}( \+ \w+)?\]", "numbers at places of a byte buffer")]
# What the loop that follows `while TEST {` or `for V in TEST {` shows, with a variable V of the test.
LOOPS = [(3, "counted", r".*\bV \+= \d+;", "while TEST, V raised by hand"),
         (4, "copied", r"\s*\w+\[[^\]]*\bV\] = \w+\[[^\]]*\bV\];(\s*V \+= 1;)?\s*\}", "places copied one by one"),
         (4, "compared", r".*\[V\] [!=]= \w+\[V\]", "two buffers compared place by place"),
         (6, "searched", r".*(return|\w+ =) V;", "the first V by a loop")]
Item = collections.namedtuple("Item", "kind at line name params ret needs gives body c")
found, WORD = set(), re.compile(r"(?m)^([\w.-]+)(?: \w+)* = \(?((?:omega arith|refl|search|cc|tt)(?:, (?:omega arith|refl|search))*)\)?$")

def say(holds, point, rule, f, what):
    if holds:
        found.add((point, f.at, f.line, f.name, f"{what} ({rule})"))

def parse(path, text, exports):
    """The functions and the types of a file, each from its head to the brace at its own indent."""
    at, lines = f"{path.parts[1]}/{'/'.join(path.parts[3:])}", text.split("\n")
    for n, line in enumerate(lines):
        head = re.match(r'^(\s*)(?:pub(?:\(\w+\))? )?(?:extern "C" )?(fn|struct|enum) (\w+)', line)
        pad, kind, name = head.groups() if head and not line.endswith(("}", ";")) else ("", "", "")
        end = lines.index(pad + "}", n) if kind else n
        if kind in ("struct", "enum"):
            yield Item(kind, at, n + 1, name, [], "", [], "", [x.strip(" ,") for x in lines[n + 1:end] if re.match(r"\s*(pub )?\w+[:(,]", x)], False)
        opens = [o for o in range(n, end) if lines[o] == pad + "{" or (lines[o].endswith("{") and not re.match(r"\s*(requires|ensures)", lines[o]))]
        for first in opens[:kind == "fn"]:
            sign = " ".join(" ".join(lines[n:first + 1]).split())
            clauses = re.findall(r"(requires|ensures)(?: \w+)? \{ (.*?) \}(?= requires| ensures| \{|$)", sign)
            sign = re.sub(r"^.*?fn \w+(<.*?>)?\(", "(", re.split(r" (?:requires|ensures|where)\b", sign)[0])
            params = re.findall(r"(\w+): ((?:&(?:'\w+ )?(?:mut )?)?(?:\[\[?[^\]]*\](?:; \w+\])?|[\w:]+(?:<[^>]*>)?))", sign)
            needs = [re.sub(r"^\((.*)\)$", r"\1", part.strip()) for k, c in clauses if k == "requires" for part in c.split(" × ")]
            ret = sign.rpartition("-> ")[2].removesuffix(" {")
            body = "\n".join(re.sub(r"\s*//.*", "", x[len(pad):]) for x in lines[first + 1:end])
            yield Item(kind, at, n + 1, name, [(p, re.sub(r"'\w+ ", "", t)) for p, t in params], ret, needs, str(clauses), body, name in exports)

def signature(f):
    flat, slices = " ".join(f.body.split()), [(p, t) for p, t in f.params if re.match(r"&(mut )?\[", t)]
    say(f.ret == "u32" and re.search(r"\w+_(face|left)\b", f.gives), 1, "code", f, "answers 0 or a refusal's number")
    say(f.ret == "usize" and f.name.startswith("first_"), 1, "none", f, "a place, or their number where there is none")
    say(f.ret == "usize" and {("at", "usize"), ("out", "&mut [u8]")} <= set(f.params), 4, "printed", f, "text laid by hand, the next place answered")
    say(re.match("match ", flat) and len(f.params) < 2 and f.name != "from" and re.match(r"u8|u32|u64|f32|Told", f.ret), 4, "kind told", f, f"the {f.ret} of a kind by a match")
    for p, t in f.params:
        say(p in ("desk", "owner", "index", "polarity", "mark") and t in ("u8", "u32", "usize"), 1, "kind", f, f"a kind as a number, {p}: {t}")
        split = re.search(rf"^    if !?{p}(?: == \d+)? \{{", f.body, re.M) and len(re.findall(r"^    if ", f.body, re.M)) == 1
        step = p.startswith(("is_", "old", "index")) or re.search(r"\w\(", flat) or flat.startswith("if !")
        say(split and t in ("bool", "u8") and step and not re.search(BODIES[3][2], flat), 7, "switch", f, f"the whole body turns on {p}: {t}")
        room = max([int(s) for _, b in slices for s in re.findall(r"; (\d+)\]", b)], default=0)
        fixed = any(int(c.split()[-1]) <= room for c in f.needs if p in ("n", "k") and re.match(rf"{p} ≤ \d+$", c))
        fixed |= any(re.search(rf"(^|\+ |\* ){p}( \* \w+)? ≤ length", c) for c in f.needs)
        say(t == "usize" and slices and fixed, 6, "length", f, f"{p} beside {', '.join(b for b, _ in slices)}")

def inside(f):
    flat = " ".join(f.body.split())
    for point, rule, shown, what in BODIES:
        say(re.search(shown, flat) and (rule not in ("packed", "digits") or any("[u8]" in t for _, t in f.params)), point, rule, f, what)
    for v, test, loop in re.findall(r"(?:while|for (\w+) in) ([^{]*) \{(.*)", f.body, re.S):
        for v, (point, rule, shown, what) in itertools.product([v] if v else re.findall(r"\(?(\b[a-z]\w*)(?: \+ \d+)? <=? ", test), LOOPS):
            say(re.match(shown.replace("V", v), loop, re.S), point, rule, f, what.replace("V", v).replace("TEST", test))
    for array in re.findall(r"\[\n((?:[^\[\]]|\[\w+\])*?)\n\s*\]", f.body):
        rows = [re.sub(r"\d+", "N", re.sub(r" \+ \d+|, \d+\)?$", "", x.strip(" ,"))) for x in array.split("\n")]
        say(len(rows) > 4 and len(set(rows)) < 4, 3, "written out", f, f"{len(rows)} entries written one below the other")
    for name, fields in re.findall(r"\b([A-Z]\w*) \{ ([^{}]*) \}", flat):
        froms = [v for to, v, again in re.findall(r"(\w+): (\w+)\.(\w+)\b", fields) if to == again]
        say(len(froms) > 1, 4, "by field", f, f"{name} made field by field of {froms and froms[0]}")
        say(len(re.findall(r"\b(\w+): \1\b(?!\.)", fields)) > 2, 4, "by field", f, f"{name} made of parameters of the same names")

def together(fns):
    """Runs of three or more parameters in three or more functions, the widest first and each parameter in one run; facts of three or more contracts; arrays in step."""
    left, shared = [[f, list(f.params)] for f in fns], collections.defaultdict(list)
    while True:
        runs = collections.defaultdict(dict)
        for i, (f, ps) in enumerate(left):
            for a, b in ((a, b) for a in range(len(ps)) for b in range(a + 3, len(ps) + 1) if None not in ps[a:b]):
                runs[tuple(ps[a:b])][i] = a
        run = max((r for r in runs if len(runs[r]) > 2), key=lambda r: ((len(r) - 1) * len(runs[r]), r), default=None)
        if not run:
            break
        say(True, 5, "together", left[min(runs[run])][0], f"{', '.join(p + ': ' + t for p, t in run)}, in {len(runs[run])} functions")
        for i, a in runs[run].items():
            left[i][1][a:a + len(run)] = [None] * len(run)
    for f in fns:
        names = r"\b(%s)\b" % "|".join([p for p, _ in f.params] or ["-"])
        for plain in sorted({re.sub(names, "_", re.sub(r"\.(now|old|entry)\b", "", need)) for need in f.needs}):
            if len(re.findall(r"(?<!\w)_(?!\w)", plain)) == 1 or re.search(r"[A-Z]|_of\b", plain):
                shared[5, "fact", 3, f"requires {plain}"].append(f)
        arrays = [(p, t.replace("mut ", ""), p[0] * len(p[1:])) for p, t in f.params if re.match(r"&(mut )?\[", t) and re.fullmatch(r"[a-z]\d?", p)]
        for kind in sorted({a[1:] for a in arrays}):
            step = [a[0] for a in arrays if a[1:] == kind]
            shared[6, "parallel", 2, f"{', '.join(step)}: {kind[0]}"] += [f] * (len(step) > 2)
    for (point, rule, least, what), where in shared.items():
        say(len(where) >= least, point, rule, (where or [None])[0], f"{what}, in {len(where)} functions")

def twins(fns, types):
    alike = collections.defaultdict(list)
    for f in fns:
        text = re.sub(r"\b\w+(::\w+)+", "x", re.sub(r",? \)", ")", re.sub(r"\( ", "(", " ".join(f.body.split()))))
        shape = re.sub(r"\b(?!(?:if|else|while|for|in|let|mut|match|return|true|false)\b)\w[\w.]*", "x", text)
        if not re.fullmatch(r"x\((?:[^();{}]|\([^()]*\))*\)", shape):
            alike[shape if len(re.findall(r"\w+", f.body)) > 11 else f.name + text].append(f)
    own = {t.name for t in types if t.kind == "enum" and (len(t.body) == 2 and "(" in str(t.body) or "(Refusal)" in str(t.body))}
    for t in types:
        parts = " ".join(t.body)
        say(t.kind == "enum" and t.name in own, 1, "own", t, f"enum of {', '.join(t.body)}")
        say(t.kind == "struct" and len(t.body) == 2 and sum(x.split()[-1] in own | {"bool"} or "Result<" in x for x in t.body) == 1, 1, "flag", t, f"struct of {', '.join(t.body)}")
        numbers = re.findall(r"\b(?:index|polarity|desk|owner|number|finding): (?:u8|u32|usize)", parts)
        say(numbers, 1, "kind", t, f"kinds as numbers, {', '.join(numbers)}")
        enum = re.sub(r"\w+", "x", re.sub(r"\(.*?\)", "(x)", parts)) if t.name in own else parts
        alike[t.kind + (enum if t.kind == "enum" else re.sub(r": [^ ]+( \d+\])?", "", parts))].append(t)
    for f, twin in ((f, twin) for twin in alike.values() for f in twin):
        say(len(twin) > 1, 2, "twin", f, "like " + ", ".join(f"{g.at} {g.name}" for g in twin if g is not f))

def kept(at, line):
    """Whether the item at a line says why it stays: in the comment over it, or down to the brace at its own indent."""
    path = pathlib.Path("crates") / at.split("/")[0] / "src" / "/".join(at.split("/")[1:])
    lines = path.read_text().split("\n") if path.suffix == ".rt" and path.exists() else [""] * line
    first = line - 1
    while first and re.match(r"\s*(//|#\[)", lines[first - 1]):
        first -= 1
    pad = re.match(r"\s*", lines[line - 1]).group()
    last = lines.index(pad + "}", line - 1) if pad + "}" in lines[line - 1:] else line - 1
    return any("// Stays: " in x for x in lines[first:last])

def main():
    sources = {p: p.read_text() for p in sorted(pathlib.Path("crates").glob("*/src/**/*.rt"))}
    exports = set(re.findall(r'extern "C" fn (\w+)', "".join(sources.values())))
    items = [item for path, text in sources.items() for item in parse(path, text, exports)]
    ours = [f for f in items if f.kind == "fn" and not f.c]
    for f in items:
        inside(f) if f.kind == "fn" else None
        signature(f) if f in ours else None
    together(ours)
    twins(ours, [t for t in items if t.kind != "fn"])
    for path in sorted(pathlib.Path("crates").glob("*/proofs/**/Answers.antt")):
        for answer in WORD.finditer(text := path.read_text()):
            where = Item("", "/".join(path.parts[1:]), text.count("\n", 0, answer.start()) + 1, answer.group(1), *"      ")
            say(True, 8, "one word", where, answer.group(2))
    read = re.findall(r"(?m)^(\d)\t(.*?)\t(.*?)\t(.*)$", pathlib.Path("docs/design-places.txt").read_text()) if "--read" in sys.argv else []
    for f, (point, at, name, what) in itertools.product(items, read):
        say((at, name) == (f.at, f.name), int(point), "read", f, what)
    if "--point" not in sys.argv:
        for n, what in enumerate(POINTS, 1):
            places = [p for p in found if p[0] == n]
            print(f"{n}. {what}: {len(places)}, {sum(kept(p[1], p[2]) for p in places)} of them kept")
        return
    places = sorted(p for p in found if p[0] == int(sys.argv[sys.argv.index("--point") + 1]))
    for _, at, line, name, what in places:
        print(f"{at}:{line} {name}: {what}{' [kept]' if kept(at, line) else ''}")
    print(f"{len(places)} places, {sum(kept(p[1], p[2]) for p in places)} of them kept")

main()
