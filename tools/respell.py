#!/usr/bin/env python3
"""Respells the repository's own definitions and lemmas as today's Rattle spells names. Run once, at the top, right after the kit's port.py.

Words are in snake case: `recordFor` becomes `record_for`. A dash stays only where it joins names of definitions, as in `length-take`; a plain word is
added with `_`: `has-union-left` becomes `has-union_left`, `a-leaf-may` becomes `a_leaf_may`. Fields and constructors have no dash, and the proof of `f`
is `f_spec`. Types, modules, names of src/ and names of the library stay. A name whose new spelling stands somewhere already stays as it is.
It turns specs/, proofs/, the clauses of src/ and must-fail/*.edit. With --names it only prints old and new.
"""

import collections
import glob
import re
import sys

NAME = r"[A-Za-z_ℕ][\w'\-]*"
TOKEN = re.compile(r"(?<![\w'\-◌])" + NAME + r"(?![\w◌])")
DECLARED = re.compile(r"^(\s*)((?:pub |unfoldable |abbrev |data |record |ruleset )*)(" + NAME + r")\s+(?:(?:\{[^}]*\}|\([^)]*\)) )*:(?:\s|$)")
HUMP = re.compile(r"(?<=[a-z0-9'])(?=[A-Z])")


def read(path):
    with open(path, encoding="utf-8") as f:
        return f.read()


def antt():
    return sorted(glob.glob("crates/*/specs/**/*.antt", recursive=True) + glob.glob("crates/*/proofs/**/*.antt", recursive=True))


def own_crates():
    return {p.split("/")[1] for p in glob.glob("crates/*/src/*.rt")}


def gathered():
    """What is declared where, what comes from the library, and every token."""
    crates = own_crates()
    declared, members, library, seen = set(), set(), set(), collections.Counter()
    for path in antt():
        text = read(path)
        inside = False
        for line in text.splitlines():
            seen.update(TOKEN.findall(line))
            if line.lstrip().startswith("--"):
                continue
            used = re.match(r"^\s*use ([\w.·◌'-]+?)(?:\.\{(.*)\})?(?: as (\w+))?\s*$", line)
            if used:
                first = used[1].split(".")
                if not (first[0] == "Rattle" and len(first) > 1 and first[1] in crates):
                    library.update(TOKEN.findall(used[2] or ""))
                continue
            if line and not line[0].isspace():
                inside = bool(re.match(r"^(pub )?(data|record)\b", line)) and line.rstrip().endswith("where")
            m = DECLARED.match(line)
            if m:
                declared.add(m[3])
                if inside and m[1]:
                    members.add(m[3])
    return declared, members, library, seen


def snake(piece):
    """One piece between dashes: humps become `_`, unless it is a type's name."""
    if piece[:1].isupper() or piece.startswith("is_Is"):
        return piece
    return HUMP.sub("_", piece).lower() if HUMP.search(piece) else piece


def spelled(name, names, members):
    if name in BY_HAND:
        return BY_HAND[name]
    pieces = [snake(p) for p in name.split("-")]
    if len(pieces) == 1:
        return pieces[0]
    if name in members or pieces[-1] == "spec":
        return "_".join(pieces)
    kept = 0
    while kept < len(pieces) and (pieces[kept] in names or pieces[kept][:1].isupper()):
        kept += 1
    if kept < 2:
        return "_".join(pieces)
    return "-".join(pieces[:kept]) + "".join("_" + p for p in pieces[kept:])


def renaming():
    declared, members, library, seen = gathered()
    names = {snake(n) for n in declared | library if "-" not in n and n not in PLAIN}
    source = set()
    for path in glob.glob("crates/*/src/**/*.rt", recursive=True):
        source.update(re.findall(r"[A-Za-z_]\w*", read(path)))
    turned = {}
    for name in sorted(seen):
        humped = any(HUMP.search(p) and not p[:1].isupper() for p in name.split("-"))
        if name in library or name in KEPT or name.startswith(("Need-", "After-", "is_Is", "invariant-", "decreases-")) or not (name in declared or humped):
            continue
        new = spelled(name, names, members)
        if new != name:
            turned[name] = new
    # of names that would fall together, a definition has the new name, and a lemma `_lem` behind it; what is left stays with its dash
    words = {n for n in turned if "-" not in n}
    wanted = {turned[n] for n in words}
    for name in sorted(seen):
        if "-" not in name and name in declared and name not in library and name in wanted and name not in turned:
            turned[name] = name + "_lem"
    stay = {}
    by = collections.defaultdict(set)
    for old, new in turned.items():
        by[new].add(old)
    for old, new in sorted(turned.items()):
        if old in words or old.endswith("-spec"):
            continue
        if new in wanted:
            turned[old] = new + "_lem"
        elif len(by[new]) > 1 or (new in seen and new not in turned) or new in library:
            stay[old] = new
    return {o: n for o, n in turned.items() if o not in stay}, stay


# words that are names of something, but join names of lemmas as plain words
PLAIN = {"no", "yes", "at", "of", "in", "to", "by", "as", "is", "it", "all", "none", "some", "one", "two", "more", "next", "later", "left", "right", "here", "there", "go", "on", "from", "and", "or", "not", "a", "b", "c", "d", "e", "f", "g", "h", "i", "j", "k", "l", "m", "n", "o", "p", "q", "r", "s", "t", "u", "v", "w", "x", "y", "z", "same", "any", "first", "last", "begins", "may", "both", "over", "than", "other", "ends", "end", "start", "the", "many", "few", "still", "whole", "when", "where", "that", "this", "what", "which", "how", "less", "least", "most", "up", "down", "so", "done", "back"}
# names that Rattle makes, which the repository declares nowhere
KEPT = set()
# names whose spelling by rule would fall together with another's
BY_HAND = {"belowOf-all": "below_of-all"}


STEP = re.compile(r"(?<![\w'-])(?:c|before)\.$")


def turn(text, by):
    """Steps of the code that Rattle names, behind `c.` and `before.`, keep their names."""

    def new(m):
        return m[0] if STEP.search(text[max(0, m.start() - 8) : m.start()]) else by.get(m[0], m[0])

    return TOKEN.sub(new, text)


def main(argv):
    by, stay = renaming()
    if "--names" in argv:
        for old, new in sorted(by.items()):
            print(old, new)
        for old, new in sorted(stay.items()):
            print("stays:", old, new)
        return 0
    # between dashes of code stands a difference, so names with a dash are not turned in src/
    humps = {o: n for o, n in by.items() if "-" not in o}
    pages = []
    for path in antt():
        pages.append((path, by))
    for path in sorted(glob.glob("crates/*/src/**/*.rt", recursive=True)):
        pages.append((path, humps))
    for path, names in pages:
        old = read(path)
        new = turn(old, names)
        if new != old:
            with open(path, "w", encoding="utf-8") as f:
                f.write(new)
    for path in sorted(glob.glob("crates/*/must-fail/*.edit")):
        out, names = [], humps
        for line in read(path).split("\n"):
            if line.startswith("file: "):
                names = by if line.endswith(".antt") else humps
                out.append(line)
            else:
                out.append(turn(line, names))
        with open(path, "w", encoding="utf-8") as f:
            f.write("\n".join(out))
    return 0


if __name__ == "__main__":
    raise SystemExit(main(sys.argv[1:]))
