#!/usr/bin/env python3
"""Brings the names of this repository's own definitions, lemmas and fields of specs/ and proofs/ to snake case.

usage: python3 tools/respell.py          at the top of the repository: rewrites in place
       python3 tools/respell.py look     prints the names that would fall together, and changes nothing

A name is respelled where specs/ or proofs/ declare it: a definition, a lemma, a field of a record, a constructor. Names that the
check makes (goals, steps of a function) keep their dashes, and so does what src/ declares. Text in quotes keeps its spelling.
"""
import collections
import os
import re
import sys

IDENT = r"[^\s(){}\[\];,.λ∷:\"«»|`]+"
TOKEN = re.compile(r"\"(?:[^\"\\\n]|\\.)*\"|" + IDENT)
GENERATED = ("Answers.antt", "Invariants.antt", "Proof.antt", "Choices.antt")
# where the plain respelling would fall together with another name
OTHER = {
    "deal-numbers": "deal_numbers_apart",
    "return-numbers": "return_numbers_apart",
    "line-numbers": "line_numbers_left",
    "deal-rows": "deal_rows_fit",
    "line-rows": "line_rows_fit",
    "next-deal": "next_deal_low",
    "next-line": "next_line_low",
    "first-fault": "first_fault_lem",
    "in-ranges": "in_ranges_lem",
    "line-part": "line_part_lem",
    "lines-judged": "lines_judged_lem",
    "margin-in": "margin_in_lem",
    "most-within": "most_within_lem",
    "parts-on": "parts_on_lem",
    "place-from": "place_from_lem",
    "quantity-in": "quantity_in_lem",
    "same-parties": "same_parties_lem",
    "zero-deal": "zero_deal_lem",
    "zero-line": "zero_line_lem",
}
# the same, in one file
HERE = {
    ("crates/law/proofs/Verdicts.antt", "deal-numbers"): "deal_numbers_left",
    ("crates/law/proofs/Stepping.antt", "deal-numbers"): "deal_numbers_left",
    ("crates/sharing/proofs/Scattered.antt", "parts_from"): "parts_from_lem",
    ("crates/tables/proofs/Holdings.antt", "held_in"): "held_in_lem",
}


def files(root, *ends):
    for folder, dirs, names in os.walk(os.path.join(root, "crates")):
        dirs[:] = sorted(d for d in dirs if d != "out")
        for name in sorted(names):
            if name.endswith(ends):
                yield os.path.join(folder, name)


def read(path):
    with open(path, encoding="utf-8") as f:
        return f.read()


def snake(name):
    if name in OTHER:
        return OTHER[name]
    return re.sub(r"(?<=[a-z0-9])([A-Z])", lambda m: "_" + m.group(1).lower(), name).replace("-", "_")


def declared(root):
    found = set()
    for path in files(root, ".antt", ".rt"):
        made = os.path.basename(path) in GENERATED
        for line in read(path).split("\n"):
            m = re.match(r"^ *(?:(?:abbrev|unfoldable|pub) )*(" + IDENT + r") :(?!=)", line)
            if m and not (made and "goal." in line):
                found.add(m.group(1))
            if line.startswith(("use ", "pub use ", "ghost use ")):
                found.update(re.findall(r" as (" + IDENT + ")", line))
    return {n for n in found if n[0].islower() and snake(n) != n}


def tokens(path):
    return set(TOKEN.findall(read(path)))


def look(root, names):
    clash = 0
    whole = collections.defaultdict(set)
    for n in names:
        whole[snake(n)].add(n)
    for new, olds in sorted(whole.items()):
        if len(olds) > 1:
            print("together:", new, sorted(olds))
            clash += 1
    for path in files(root, ".antt", ".rt"):
        seen = tokens(path)
        for n in sorted(names & seen):
            if snake(n) in seen:
                print("beside:", os.path.relpath(path, root), n, snake(n))
                clash += 1
    return clash


def respell(root, names):
    for path in files(root, ".antt", ".rt", ".edit"):
        old = read(path)
        here = {n: new for (p, n), new in HERE.items() if p == os.path.relpath(path, root)}
        new = TOKEN.sub(lambda m: here.get(m.group(0)) or (snake(m.group(0)) if m.group(0) in names else m.group(0)), old)
        if new != old:
            with open(path, "w", encoding="utf-8") as f:
                f.write(new)


if __name__ == "__main__":
    names = declared(".")
    if sys.argv[1:] == ["look"]:
        sys.exit(1 if look(".", names) else 0)
    respell(".", names)
