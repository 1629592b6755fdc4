#!/usr/bin/env python3
"""Lists the places in crates/*/src that look as an older Rattle needed them, by seven marks, and how long the proofs are.

usage: python3 tools/places.py [-q]     at the top of the repository; -q prints the counts alone

A mark is a form of text, so a place may be rightly as it is: then a line beside it, or docs/DESIGN-PASS.md, says why.
1 a refusal, cause or kind as a number      2 functions or types that differ in a type or a constant
3 loops by hand, and rows that are one      4 equality, conversion, printing by hand
5 facts and parameters that recur           6 arrays side by side, numbered fields, a length beside
7 branches that differ in whom they call
"""

import collections
import glob
import re
import sys

WORD = re.compile(r"[A-Za-z_][A-Za-z0-9_]*|0x[0-9A-Fa-f_]+|\d[\d_]*|'[^']'|\"[^\"]*\"|\S")
RUST = set("fn match if let else return for in while loop Some None Ok Err self mut struct enum impl pub ref".split())
HEAD = re.compile(r"^( *)(?:pub(?:\(crate\))? )?(?:extern \"C\" )?(fn|struct|enum) (\w+)", re.M)
FACTS = r"outside \(M\.kind_at|(?:world|outside)_of M|M\.fixed memory\.new ≡|Holding [\w.]+ [\w.]+|o\.kinds ≡ M\.kind_at|cells_of \w+\.new\) ≡ length"
found = collections.defaultdict(list)


def items(text):
    """Each function, struct and enum: kind, name, line, what stands before its block, the block."""
    for head in HEAD.finditer(text):
        indent, kind, name = head[1], head[2], head[3]
        brace = re.compile(r"^%s\{|^%s\) (?:-> .*)?\{$|\{$" % (indent, indent), re.M)
        start = brace.search(text, head.end()) if kind == "fn" else re.compile(r"\{|;").search(text, head.end())
        if not start or text[start.end() - 1] == ";":
            continue
        at, depth, end = start.end() - 1, 0, start.end() - 1
        for end in range(at, len(text)):
            depth += {"{": 1, "}": -1}.get(text[end], 0)
            if depth == 0:
                break
        yield kind, name, text.count("\n", 0, head.start()) + 1, text[head.start():at], text[at:end + 1]


def shape(kind, block):
    """A block without its names: of a function called names stay, of a type the types of its fields."""
    block = re.sub(r"//.*|\bpub(\(crate\))? ", "", block)
    if kind != "fn":
        return sorted(re.findall(r": ([^\n]+?),?\n", block))
    words = WORD.findall(block)
    following = words[1:] + [""]
    return [w if w in RUST or not re.match(r"[\w'\"]", w) or (n == "(" and w.islower()) else "x" for w, n in zip(words, following)]


def rows(lines, i):
    """How many statements, of one to three lines, stand here that differ in numbers alone."""
    for width in (1, 2, 3):
        row = lambda k: re.sub(r"\d+", "N", "|".join(lines[i + k * width:i + (k + 1) * width])).strip()
        if re.search(r"^(if \w+\(|\w+\(|self\.\w+\().*N", row(0)) and not re.match(r"out\(|put\(|print", row(0)) and row(0) == row(1) == row(2):
            return 3 * width
    return 0


def within(path, text):
    for kind, name, line, head, block in items(text):
        put = lambda point, what="": found[point].append((path, line, name, what))
        if kind != "fn":
            for field in re.findall(r"\b(?:refusal|cause|number): u(?:8|16|32)", block):
                put(1, field)
            arrays = re.findall(r"\w+: \[[^;\]]+; (\d+)\]", block)
            if len(arrays) > len(set(arrays)) or len(re.findall(r"\b[a-z]+\d:", block)) > 2 or re.search(r"\[T\],[^}]*: usize", block):
                put(6)
            continue
        lines, i = block.split("\n"), 0
        if re.search(r"\b(refusal|cause|number|code): u(8|16|32)\b", head) or re.search(r"-> u8\n.*\n\{\n\s+match answer", head + block):
            put(1, "a number for a kind")
        for what in re.findall(r"refusal: 0\b|Ok\(\(\)\) => 0|match [\w. ]+ [%/] \d+(?: % \d+)? \{|match \(value|match cause", block):
            put(1, what)
        for what in re.findall(r"for [\w(), ]+ in \w*\.\.[\w ]*\{|for \w+ in \d+\.\.\S+ \{|while [^{]*\{|loop \{", block):
            put(3, what)
        while i < len(lines):
            step = rows(lines, i)
            if step:
                put(3, "one row after another: " + lines[i].strip())
            i += step or 1
        for what in re.findall(r"_ => (?:false|true)\b|Some\((\w+)\) = [\w.]+ \{\s+if \w+ == \1|if let \w+::\w+ = \S+", block):
            put(4, what)
        if name in ("number", "of") or re.search(r"=> \d+,\n", block) and name not in ("unit", "first"):
            put(4, "a conversion")
        if re.search(r"\w+ \{\s+(\w+): self\.\w+\.\1,|\w+: self\.(\w+),\n\s+\w+: 0", block):
            put(4, "a copy by fields")
        called = re.findall(r"=> self\.(\w+)\.(\w+)\(|^\s+(?:return )?self\.(first|second)\.(\w+)[(.]", block, re.M)
        whom = collections.defaultdict(set)
        for a, b, c, d in called:
            whom[b or d].add(a or c)
        if any(len(who) > 1 for who in whom.values()):
            put(7)
        if len(re.findall(r"\b[a-z]+\d: ", head)) > 2 or len(re.findall(r"\w+: \[[^;\]]+; 8\]", head)) > 1:
            put(6)
    for wrapper in re.finditer(r"struct (\w+)\((?:pub )?[A-Z][^)]*\);|struct (\w+)\(pub u\d+\);", text):
        found[4].append((path, text.count("\n", 0, wrapper.start()) + 1, wrapper[1] or wrapper[2], "a wrapper to print"))


def between(files):
    shapes, facts, params = (collections.defaultdict(list) for _ in range(3))
    for path, text in files:
        for kind, name, line, head, block in items(text):
            of = shape(kind, block)
            if name not in ("fmt", "main") and (len(of) > 20 if kind == "fn" else len(of) > 1):
                shapes[kind, tuple(of)].append((path, line, name))
            for fact in set(re.sub(r"\.(old|new|now)\b|result\.session|self", "", f) for f in re.findall(FACTS, head)):
                facts[path.split("/")[1], fact].append(name)
            given = [] if ";\n" in head else re.findall(r"(\w+): ([&\w<>' ]+?)[,)]", head)
            for pair in zip(given, given[1:]):
                params[path, pair].append(name)
    for same in shapes.values():
        if len(same) > 1:
            found[2] += [(*place, "") for place in same]
    for (where, what), names in list(facts.items()) + list(params.items()):
        if len(names) > 2:
            found[5].append((where, len(names), str(what), "in " + " ".join(names)))


files = [(path, open(path).read()) for path in sorted(glob.glob("crates/*/src/*.rt"))]
for path, text in files:
    within(path, text)
between(files)
for point in range(1, 8):
    for place in [] if "-q" in sys.argv else found[point]:
        print(point, "%s:%s" % place[:2], *place[2:])
    crates = collections.Counter((place[0].split("/") + [place[0]])[1] for place in found[point])
    print("point", point, "places", len(found[point]), *("%s %d" % row for row in sorted(crates.items())), sep="  ")
proofs = [open(path).read().count("\n") for path in glob.glob("crates/*/proofs/**/*.antt", recursive=True)]
print("point", 8, "files of proofs", len(proofs), "lines", sum(proofs), sep="  ")
