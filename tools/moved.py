#!/usr/bin/env python3
"""Says what two commits of this repository have differently in what counts: definitions, contracts, laws, laid proofs.

    python3 tools/moved.py OLD NEW     from anywhere in the repository; OLD and NEW as git takes them: a3f21bc, HEAD~5, main

For each of the four a line of counts, and behind it, crate by crate, the names of all that is not unchanged:
  - definitions: each declaration in crates/*/specs/, whole, with the heads of the sections (`module _ .. where`) that it stands in
  - contracts: each `pub fn` and `pub extern "C" fn` in crates/*/src/, from its name to its body
  - laws by hand: each declaration in crates/*/proofs/, whole, and each function's proof file that is no laid one, as one
  - laid proofs: each function's Answers.antt with a recipe (`--:`, see tools/prove.py), and each Invariants.antt

`moved` is the same text under the same name in another crate, `a -> b`. `moved and changed` goes by the name alone, where one crate lost it
and one got it: it may be two things. What was renamed is `removed` and `new`. Text is compared without comments, white space, imports and
paths to crates and modules: these say where a thing stands, not what it says. (An import that brings another thing under the same name
is not seen.) It reads text and proves nothing.
"""
import collections
import io
import re
import subprocess
import sys
import tarfile

KINDS = ("Definitions in specs/", "Contracts of public functions", "Laws by hand", "Laid proofs")
SPECS, CONTRACTS, LAWS, LAID = KINDS
HEAD = re.compile(r"(?:(?:pub|abbrev|unfoldable|data|record|ruleset) )+([^\s{]+)|(\S+)(?: \{[^}]*\})* :(?= |$)")


def files(commit):
    """The path and text of each file of the crates."""
    ran = subprocess.run(["git", "archive", "--format=tar", commit, "crates"], capture_output=True, cwd=ROOT)
    if ran.returncode:
        sys.exit(ran.stderr.decode().strip())
    with tarfile.open(fileobj=io.BytesIO(ran.stdout)) as tar:
        for one in tar:
            if one.isfile() and re.match(r"crates/[^/]+/(specs|proofs|src)/.*\.(antt|rt)$", one.name):
                yield one.name, tar.extractfile(one).read().decode()


def plain(text):
    """The text as it is compared."""
    text = re.sub(r"Rattle[·.]\w+(·specs|·proofs)?\.", "Rattle.", text)
    text = re.sub(r"\b(?:[a-z]\w*::)+", "", text)
    text = re.sub(r"\s+", " ", text)
    return re.sub(r"[,;]? ?([)}\]])", r"\1", re.sub(r"([({\[]) ", r"\1", text)).strip()  # a broken line ends its list in a comma


def declarations(text):
    """The name and text of each declaration, those in sections too: text without comments and imports."""
    found, sections = [], []  # sections: the indent and head of each that is open
    for line in text.split("\n"):
        line = re.sub(r"(^|\s)--.*", "", line).rstrip()
        word, indent = line.strip(), len(line) - len(line.lstrip())
        if not word or re.match(r"use |pub mod ", line):
            continue
        if sections and not sections[-1][1].endswith("where"):
            sections[-1] = sections[-1][0], sections[-1][1] + " " + word
            continue
        while sections and indent <= sections[-1][0]:
            sections.pop()
        own = indent == (sections[-1][0] + 2 if sections else 0)
        head = HEAD.match(word) if own else None
        if own and word.startswith("module "):
            sections.append((indent, word))
        elif head:
            found.append((head[1] or head[2], [s for _, s in sections] + [word]))
        else:
            # a clause goes to its own name: two signatures may stand before the clauses of both
            same = [d for d in found if own and d[0] == word.split()[0]]
            (same or found)[-1][1].append(word)
    return [(name, "\n".join(lines)) for name, lines in found]


def contracts(text):
    """The name and head of each public function. Its body opens with a brace at a line's end, as `rt fmt` lays it."""
    lines = [re.sub(r"//.*", "", line).rstrip() for line in text.split("\n")]
    for i, line in enumerate(lines):
        start = re.match(r'\s*pub (?:extern "C" )?fn (\w+)', line)
        if start:
            end = next(k for k in range(i, len(lines)) if lines[k].endswith("{"))
            yield start[1], "\n".join(lines[i:end] + [lines[end][:-1]])


def proof(text):
    """Whether it is laid, and the text of a function's proof file: the recipe and the rest, without imports."""
    lines = [line for line in text.split("\n") if line.startswith("--: ") or not line.startswith("--")]
    recipe = any(line.startswith(("--: ", "abbrev pub invariant-", "abbrev pub decreases-")) for line in lines)
    answers = re.findall(r"^(?!pub )\S+(?: \S+)* =\s+(.*)$", text.split("\npub ")[0], re.M)
    kept = [line for line in lines if not re.match(r"(--: )?use ", line)]
    return recipe or all(answer == "search needs" for answer in answers), "\n".join(kept)


def things(commit):
    """Of each kind, by name, the crate and text of each."""
    found = {kind: collections.defaultdict(list) for kind in KINDS}
    for path, text in files(commit):
        _, crate, part, *rest = path.split("/")
        if len(rest) > 1 and rest[-1] in ("Proof.antt", "Answers.antt", "Invariants.antt") and part == "proofs":
            laid, whole = proof(text)
            named = [(LAID if laid else LAWS, rest[-2], whole)]
        elif path.endswith(".rt"):
            named = [(CONTRACTS, *one) for one in contracts(text)]
        else:
            named = [(SPECS if part == "specs" else LAWS, *one) for one in declarations(text)]
        for kind, name, whole in named:
            found[kind][name].append((crate, plain(whole)))
    return found


def paired(old, new, alike):
    """The pairs that are alike, taken out of both lists."""
    for a in list(old):
        b = next((b for b in new if alike(a, b)), None)
        if b:
            old.remove(a)
            new.remove(b)
            yield a[0], b[0]


def sorted_out(old, new):
    """What became of each: (verdict, from which crate, to which crate, name). Empties the lists."""
    for name in sorted(set(old) | set(new)):
        a, b = old[name], new[name]
        ways = (("unchanged", lambda x, y: x == y), ("moved", lambda x, y: x[1] == y[1]), ("changed", lambda x, y: x[0] == y[0]))
        for verdict, alike in ways:
            yield from ((verdict, *pair, name) for pair in paired(a, b, alike))
        if len(a) == len(b) == 1:
            yield "moved and changed", a.pop()[0], b.pop()[0], name
        yield from (("removed", crate, crate, name) for crate, _ in a)
        yield from (("new", crate, crate, name) for crate, _ in b)


def report(kind, fates):
    verdicts = ("new", "changed", "moved", "moved and changed", "removed", "unchanged")
    count = collections.Counter(verdict for verdict, *_ in fates)
    print(f"{kind}: " + ", ".join(f"{count[v]} {v}" for v in verdicts))
    for verdict in verdicts[:-1]:
        places = collections.defaultdict(collections.Counter)
        for v, came, went, name in fates:
            if v == verdict:
                places[went if came == went else f"{came} -> {went}"][name] += 1
        for place in sorted(places):
            print(f"  {verdict}, {place}: " + ", ".join(n if k == 1 else f"{n} ({k} times)" for n, k in places[place].items()))


if len(sys.argv) != 3:
    sys.exit(__doc__)
ROOT = subprocess.run(["git", "rev-parse", "--show-toplevel"], capture_output=True, text=True).stdout.strip() or "."
OLD, NEW = things(sys.argv[1]), things(sys.argv[2])
for kind in KINDS:
    report(kind, list(sorted_out(OLD[kind], NEW[kind])))
