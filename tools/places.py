#!/usr/bin/env python3
"""Counts the places that docs/DESIGN-PASS.md speaks of, in crates/*/src and proofs, point by point.

    tools/places.py [TREE]          the counts, a line each; TREE: another checkout, such as `git worktree add ../old COMMIT` makes
    tools/places.py [TREE] --list   the places too
"""
import collections
import pathlib
import re
import sys

args = [a for a in sys.argv[1:] if a != "--list"]
root = pathlib.Path(args[0] if args else ".")
show = "--list" in sys.argv
sources = {p: p.read_text() for p in sorted(root.glob("crates/*/src/**/*.rt"))}
code = {p: re.sub(r"//[^\n]*", "", t) for p, t in sources.items()}


def places(pattern, keep=lambda m: True):
    for p, t in code.items():
        for m in re.finditer(pattern, t, re.M):
            if keep(m):
                yield f"{p.relative_to(root)}:{t[:m.start()].count(chr(10)) + 1}", " ".join(m[0].split())[:100]


def variants(body):
    return re.findall(r"^\s{4}(\w+)(\([^\n]*\)|\s*\{[^}]*\})?,", body, re.M)


def result_like(m):
    """A case that holds a refusal or is named as one, beside others; or two cases, one bare and one that holds something."""
    v = variants(m[2])
    bare = [n for n, held in v if not held]
    refused = any("Refusal" in held or name in ("Refused", "Failure", "Bad") for name, held in v)
    return refused or (len(v) == 2 and len(bare) == 1)


def by_index(m):
    return re.search(rf"(\[[^\]\n]*\b{m[1]}\b[^\]\n]*\]|_at\([^;\n]*\b{m[1]}\b)", m[2]) is not None


LOOP = r"^[ ]*for (\w+) in [^\n{]*\.\.[^\n{]*\{\n((?:.*\n)*?)^[ ]*\}$"
counts = [
    ("1 enums of the shape of Result or Option", places(r"^(?:pub(?:\(crate\))? )?enum (\w+)[^{]*\{\n((?:.*\n)*?)^\}", result_like)),
    ("1 arms that hand a refusal on", places(r"\w+(?:::Refused)?\((\w+)\) => (?:return )?\w+(?:::Refused)?\(\1\)(?=,|;)", lambda m: re.match(r"\w*(::Refused|Err)?\(", m[0]) and ("Refused" in m[0] or m[0].startswith("Err")))),
    ("1 numbers that stand for `none`", places(r"^(?:pub )?const (NO_\w+|OUT|NONE): .*$|^    if \w+ == 0 \{\n        return 0;")),
    ("1 tests of a value against a constant, one after another", places(r"^ *if \w+(?:\([^)\n]*\))? == [\w:x]+ \{\n *return [^\n]*\n *\}\n *if \w+(?:\([^)\n]*\))? == [\w:x]+ \{")),
    ("3 loops that count by hand", places(r"^ *while (?:\w+ < [\w.()]+|0 < \w+|\w+ \+ 1 < \w+) \{")),
    ("3 `for` over indices whose body takes the element at the index", places(LOOP, by_index)),
    ("4 functions that turn an enum into a number, or back", places(r"^(?:pub(?:\(crate\))? )?fn \w+\(\w+: (?:u8|u16|u32)\) -> [A-Z]\w+$|^(?:pub(?:\(crate\))? )?fn \w+\(\w+: [A-Z]\w+\) -> (?:u8|u16|u32|usize)$")),
    ("4 prints by bytes", places(r"\bio::(?:write_all|read_full|large_buffer)\(")),
    ("7 switches on a number that choose a function", places(r"^ *if (?:op|kind|service) == \w+ \{\n *return \w+(?:::\w+)*\(")),
]
for title, found in counts:
    found = list(found)
    print(f"{len(found):5}  {title}")
    if show:
        for where, text in found:
            print(f"         {where}  {text}")
# 2: functions whose bodies are the same but for names, numbers and types
KEYWORDS = {"let", "mut", "if", "else", "match", "for", "in", "while", "return", "as", "fn", "pub", "usize", "u8", "u16", "u32", "bool", "true", "false"}
shapes = collections.defaultdict(list)
for p, t in code.items():
    for m in re.finditer(r'^( *)(?:pub(?:\(crate\))? )?(?:extern "C" )?fn (\w+)(?:[^{;]|\{ (?=.*\}$))*?\{\n((?:.*\n)*?)^\1\}$', t, re.M):
        body = [w if w in KEYWORDS or not re.match(r"\w", w) else "x" for w in re.findall(r"\w+|[^\w\s]", m[3])]
        body = " ".join(body).replace("x : : x", "x").replace("x : : x", "x").replace(", )", ")")
        if len(body) > 24:
            shapes[body].append(f"{p.relative_to(root)}:{m[2]}")
exports = [v for v in shapes.values() if all("/barkcushion" in w or "/c_" in w for w in v)]
twins = [v for v in shapes.values() if len(v) > 1 and v not in exports]
print(f"{sum(map(len, twins)):5}  2 functions that have another's shape, names and numbers aside, in {len(twins)} groups (exports for C left out)")
if show:
    for v in twins:
        print("         " + ", ".join(v))
# 5: a condition that three or more functions of a crate ask
asks = collections.defaultdict(list)
for p, t in code.items():
    for m in re.finditer(r"^    requires(?: \w+)? \{ (.*) \}$", t, re.M):
        for part in re.split(r" × (?![^(]*\))", m[1]):
            asks[p.relative_to(root).parts[1], part.strip("() ")].append(p)
repeated = {k: v for k, v in asks.items() if len(v) >= 3}
print(f"{len(repeated):5}  5 conditions that three or more functions of a crate ask")
if show:
    for (crate, part), v in sorted(repeated.items()):
        print(f"         {crate}: {part} ({len(v)})")
# 6: a run with how many of it count
runs = list(places(r"^    (?:pub )?(\w+): \[[^\n;]*; [^\n]*\],\n    (?:pub )?(\w+): usize,"))
print(f"{len(runs):5}  6 arrays with a length beside")
if show:
    for where, text in runs:
        print(f"         {where}  {text}")
answers = [p for p in root.glob("crates/*/proofs/*/**/Answers.antt")]
lines = sum(len(p.read_text().splitlines()) for p in answers)
print(f"{len(answers):5}  8 files of answers ({lines} lines)")
