#!/usr/bin/env python3
"""Brings the repository's own definitions and lemmas to today's spelling: words in snake case, types and modules in camel case.

usage: tools/spelling.py        at the top of the repository, once, behind the toolchain's own port script

A name of a word in camel case (`bitsFor`, `peek-bitsFor`) is written with underscores (`bits_for`, `peek-bits_for`), and so is a field or a
constructor of specs/ whose words a dash joins (`few-rows`). A dash that joins two names stays. Functions of src/ keep their names.
What two names would fall together has another one (OTHER).
"""

import collections
import os
import re
import sys

# Where the plain spelling stands in one of the files already.
OTHER = {
    "atFirst": "at_the_first",
    "byParts": "in_parts",
    "firstBit": "front_bit",
    "gaveUp": "has_given_up",
    "goesOn": "does_go_on",
    "hasOne": "holds_one",
    "isDigit": "is_a_digit",
    "runAt": "run_stands",
    "modeAt": "mode_stands",
    "stepBy": "steps_by",
    "tooWide": "is_too_wide",
    "in-run": "inside_run",
    "no-columns": "without_columns",
    "no-eol": "without_eol",
    "not-asked": "never_asked",
    "row-for-C": "c_row",
    "units-for-C": "c_units",
    "line-at": "at_line",
    "end-at": "at_end",
    "no-eol-at": "at_no_eol",
    "mode-at": "mode_is_at",
}
# `x-is` is also what the prover calls the value of x behind a branch; the others are names of its own, or of a lemma.
KEPT = re.compile(r".*-is$|^(at|b1|b2)-")
NAME = r"[A-Za-z_ℕ₀-₉α-ωΑ-Ω][\w'₀-₉]*(?:-[\w'₀-₉]+)*"
TOKEN = re.compile(r"(?<![\w'-])" + NAME)
MODIFIER = r"(?:pub |abbrev |unfoldable |unfolded )*"
TOP = re.compile(r"^" + MODIFIER + r"([^\s:(){};,]+) :(?: |$)")
INNER = re.compile(r"^\s+" + MODIFIER + r"([^\s:(){};,]+) :(?: |$)")
FIELD = re.compile(r"^\s+(?:pub )?([^\s:(){};,]+) :(?: |$)")
SEVERAL = re.compile(r"^  ([a-z][\w'-]*(?: [a-z][\w'-]*)+) : [A-Z]")


def snake(word):
    word = re.sub(r"([A-Za-z])([123])D(?![a-z])", r"\1_\2d", word)
    word = re.sub(r"(?<![A-Za-z_])([123])D(?![a-z])", r"\1d", word)
    return re.sub(r"(?<=[a-z0-9])([A-Z])", lambda m: "_" + m[1].lower(), word)


def spelled(name):
    if name in OTHER:
        return OTHER[name]
    return "-".join(OTHER.get(w, snake(w) if w[0].islower() or w[0].isdigit() else w) for w in name.split("-"))


def is_camel(name):
    return any(w[0].islower() and re.search(r"[a-z0-9][A-Z]", w) or re.fullmatch(r"[123]D", w) for w in name.split("-"))


def read(root):
    found = {}
    for folder, dirs, files in os.walk(os.path.join(root, "crates")):
        dirs[:] = sorted(d for d in dirs if d != "out")
        for f in sorted(files):
            if f.endswith((".antt", ".rt")):
                path = os.path.join(folder, f)
                with open(path, encoding="utf-8") as it:
                    found[path] = it.read()
    return found


def names(texts):
    """What is declared: each name, and those of fields and constructors of specs/."""
    every, fields = set(), set()
    for path, text in texts.items():
        if not path.endswith(".antt"):
            continue
        in_specs = "/specs/" in path
        for line in text.split("\n"):
            m = TOP.match(line) or INNER.match(line)
            if m:
                every.add(m[1])
            if in_specs:
                m = FIELD.match(line)
                if m and "-" in m[1]:
                    fields.add(m[1])
                m = SEVERAL.match(line)
                if m:
                    fields |= {w for w in m[1].split() if "-" in w}
                    every |= set(m[1].split())
    return every, fields


def renamed(texts):
    every, fields = names(texts)
    camel = {n: spelled(n) for n in every if n[0].islower() and is_camel(n)}
    dashed = {n: OTHER.get(n) or snake(n.replace("-", "_")).lower() for n in fields if n[0].islower() and not KEPT.match(n)}
    return camel | {n: m for n, m in dashed.items()}, set(dashed)


def comment_at(line, mark):
    at = line.find(mark)
    return at if at >= 0 else len(line)


def turn(text, mark, map, dashed):
    out = []
    for line in text.split("\n"):
        cut = comment_at(line, mark)
        code = TOKEN.sub(lambda m: map.get(m[0], m[0]), line[:cut])
        said = TOKEN.sub(lambda m: m[0] if m[0] in dashed else map.get(m[0], m[0]), line[cut:])
        out.append(code + said)
    return "\n".join(out)


def main():
    root = sys.argv[1] if len(sys.argv) > 1 else "."
    texts = read(root)
    map, dashed = renamed(texts)
    tokens = collections.defaultdict(set)
    for path, text in texts.items():
        for word in set(TOKEN.findall(text)):
            tokens[word].add(path)
    for old, new in sorted(map.items()):
        both = [p for p in tokens[old] & tokens[new] if p.endswith(".antt")]
        if both or list(map.values()).count(new) > 1:
            print(f"look: {old} and {new}: {' '.join(sorted(os.path.relpath(p, root) for p in both)[:4])}")
    for path, text in texts.items():
        new = turn(text, "--" if path.endswith(".antt") else "//", map, dashed)
        if new != text:
            with open(path, "w", encoding="utf-8") as it:
                it.write(new)
    print(f"spelling: {len(map)} names")


if __name__ == "__main__":
    main()
