#!/usr/bin/env python3
"""Respells the repository's own definitions, fields and lemmas, once, after the kit's own script.

usage: python3 tools/respell.py [--dry]     at the top of the repository

A name in camel case that is no type becomes snake case: kindAt -> kind_at. In the name of a lemma a dash stays where
it joins two names, of a word of lists or a definition of specs/ each, and a plain word is added by an underscore. Types, modules, Rust's own names,
goals and names of the kit keep their spelling. It prints each name that would fall together with another.
"""

import collections
import glob
import os
import re
import sys

TOKEN = re.compile(r"[^\s(){}\[\],;.:«»⌜⌝⟦⟧\"@|λ×→⊎¬=≡∷≤<+*/&]+")
DEF = re.compile(r"^(\s*)((?:(?:abbrev|unfoldable|pub|data|record|mutual)\s+)*)([^\s:{(.,;]+)(?=\s*(?:[({].*)?:\s)")
WORDS = ("length", "take", "drop", "get_or", "zero")

# By hand, where the rule would make two names one: (where, the name there) and the new name. The lemma of a definition has its name and `_lem`.
BY_HAND = {
    ("memory/proofs/Lent", "byte_at"): "byte_at_lem",
    ("script/proofs/", "first_two"): "first_two_lem",
    ("script/proofs/Rows", "read-full"): "read_full_lem",
    ("runs/proofs/Written", "read_at"): "read_at_lem",
    ("runs/proofs/", "read-leaves"): "read_leaves_lem",
    ("runs/proofs/Served", "units_in"): "units_in_lem",
    ("runs/proofs/Served", "units-out"): "units_out_lem",
    ("runs/proofs/Exchange", "stored_bytes"): "stored_bytes_lem",
    ("runs/proofs/Exchange", "has-place"): "has_place_lem",
    ("runs/proofs/Entries", "part-fetched"): "part_fetched_lem",
    ("runs/proofs/Entries", "part-loaded"): "part_loaded_lem",
    ("runs/proofs/ListJobs", "after-word"): "after_word_lem",
    ("runs/proofs/ListJobs", "after-entry"): "after_entry_lem",
    ("runs/proofs/Sound", "first-or"): "first_or_fetching",
    ("script/proofs/", "first-four"): "first_four_lem",
    ("arbiter/proofs/Winners", "outer-asks"): "outer_asks_lem",
    ("arbiter/proofs/", "bit-0-put"): "bit_zero_put",
    ("", "getD-plan"): "get_or-plan",
    ("", "getD-numbers"): "get_or-numbers",
    ("", "getD-ring"): "get_or-ring",
}


EVERY = ("crates/*/specs/*.antt", "crates/*/proofs/*.antt", "crates/*/proofs/*/*.antt", "crates/*/proofs/*/*/*.antt", "crates/*/proofs/*/*/*/*.antt", "crates/*/src/*.rt")


def files(*patterns):
    return sorted(p for q in patterns for p in glob.glob(q))


def snake(name):
    return re.sub(r"(?<=[a-z0-9])([A-Z])", lambda m: "_" + m.group(1).lower(), name)


def turned(path, name, turn):
    """The new spelling of a name in a file; in a source file only a name in camel case is ours."""
    if path.endswith(".rt") and not re.search(r"[a-z0-9][A-Z]", name):
        return name
    for (where, old), new in BY_HAND.items():
        if old == name and where in path:
            return new
    return turn.get(name, name)


def definitions():
    """Each own name with the files that define it."""
    found = collections.defaultdict(set)
    for p in files(*EVERY[:-1]):
        goals = p.split("/")[-1] in ("Answers.antt", "Invariants.antt")
        for line in open(p, encoding="utf-8"):
            if line.startswith(("use ", "mod ", "pub use ", "pub mod ", "--", "open ")):
                continue
            m = DEF.match(line)
            if not m:
                continue
            if goals and ": goal." in line:
                continue
            found[m.group(3)].add(p)
    for p in files("crates/*/src/*.rt"):
        for m in re.finditer(r"ghost (\w+)(?::| =)", open(p, encoding="utf-8").read()):
            found[m.group(1)].add(p)
    # names that an import gives
    for p in files(*EVERY):
        for m in re.finditer(r" as (\w+)[,}]", open(p, encoding="utf-8").read()):
            found[m.group(1)].add(p)
    return found


def main():
    dry = "--dry" in sys.argv
    found = definitions()
    if "kindAt" not in found:
        sys.exit("respell: the names here are respelled already; a second run would give some of them a third name")
    top = re.compile(r"^(?:abbrev |unfoldable )?pub ([a-z]\S*) :", re.M)
    plain = {snake(n) for p in files("crates/*/specs/*.antt") for n in top.findall(open(p, encoding="utf-8").read())} | set(WORDS)
    turn = {}
    for n in found:
        if not (n[0].islower() and n[0].isascii()):
            continue
        new = snake(n)
        if "-" in new:
            parts = new.split("-")
            out = parts[0]
            for a, b in zip(parts, parts[1:]):
                out += ("-" if a in plain and b in plain else "_") + b
            new = out
        if new != n:
            turn[n] = new
    # what falls together
    for p in files(*EVERY):
        tokens = set(TOKEN.findall(open(p, encoding="utf-8").read()))
        seen = collections.defaultdict(set)
        for n in tokens:
            seen[turned(p, n, turn)].add(n)
        for new, olds in seen.items():
            if len(olds) > 1:
                print(f"falls together: {sorted(olds)} -> {new} in {p}")
    if dry:
        for n, new in sorted(turn.items()):
            print(f"{n} -> {new}")
        return
    for p in files(*EVERY):
        text = open(p, encoding="utf-8").read()
        new = TOKEN.sub(lambda m: turned(p, m.group(0), turn), text)
        if new != text:
            open(p, "w", encoding="utf-8").write(new)


main()
