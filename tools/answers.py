#!/usr/bin/env python3
"""Turns a function's Proof.antt of the older kit, one need after the other, into Invariants.antt and Answers.antt.

usage: tools/answers.py NAMES CRATE..     at the top of the repository; NAMES/CRATE/names.json is what `rt check --generated NAMES/CRATE --old-names` wrote

A need that says only `search rules` goes: the check finds it. What could not be turned is told, a line each, and stands in the file as it was.
"""

import json
import os
import re
import sys

# Steps named for a function, which tools/spelling.py took for a field.
GARBLED = {"at_line": "line_at", "at_end": "end_at", "at_no_eol": "no_eol_at", "mode_is_at": "mode_at", "never_asked": "not_asked", "without_columns": "no_columns", "without_eol": "no_eol", "inside_run": "in_run", "pre": "requires", "by_word_lem": "by_word", "put_all_lem": "put_all"}
SIG = re.compile(r"^((?:pub |abbrev |unfoldable )*)([^\s:(){};,]+) :(?: |$)")
PATH = r"(?<![\w'.-])%s((?:\.before)*)((?:\.[\w'-]+)*)(?![\w'-])"


def norm(name):
    return re.sub(r"^overflow-", "", name.replace("_", "-"))


def blocks(text):
    """Top-level declarations: [comment lines, signature name or None, lines]."""
    out, now, comments = [], None, []
    for line in text.split("\n"):
        if line.startswith("--"):
            comments.append(line)
            continue
        m = SIG.match(line)
        if m or line.startswith("use "):
            now = [comments, m[2] if m else "use", [line]]
            comments = []
            out.append(now)
        elif line.startswith("module") or line.startswith("mod ") or line.startswith("pub data") or line.startswith("data ") or re.match(r"(pub )?(record|ruleset|open)\b", line):
            now = [comments, "", [line]]
            comments = []
            out.append(now)
        elif now is not None:
            if comments:
                now[2] += comments
                comments = []
            now[2].append(line)
    return out


class Fn:
    def __init__(self, names):
        self.n = names
        self.places = {p[0]: p for p in names["places"]}
        self.index = {p[0]: i for i, p in enumerate(names["places"])}
        self.needs = {}
        for i, (old, new) in enumerate(names["needs"]):
            self.needs[norm(old)] = (new, names["asked_at"][i][0] if i < len(names["asked_at"]) else None)

    def chain(self, place):
        out = []
        while place is not None and place in self.places:
            out.append(place)
            place = self.places[place][1]
        return out

    def turn_path(self, place, parts, typed):
        """The new path behind `c` of an old one without its `.before`, or None."""
        if not parts:
            return None
        step, rest = parts[0], parts[1:]
        step = GARBLED.get(step, step)
        if step in ("args", "requires", "ranges", "lifetimes", "utf8", "type_inv", "auto"):
            return ".".join(parts)
        # what an arm of a match has by name
        for p in self.chain(place):
            arm = self.n["arms"][self.index[p]] if self.index[p] < len(self.n["arms"]) else None
            if not arm:
                continue
            best = None
            for field, old, path in arm[2]:
                if norm(old) == norm(step) and rest[: len(path)] == path and (path or not rest):
                    if best is None or len(path) > len(best[1]):
                        best = (field, path)
            if best:
                return ".".join([arm[0], best[0]] + rest[len(best[1]) :])
        for p in self.chain(place):
            old, new = self.places[p][2]
            if norm(old).lower() == norm(step).lower():
                if rest and rest[0] == "given":
                    for var, known in typed:
                        if norm(known) == norm(step):
                            return ".".join(["type_inv", var] + rest[1:])
                again = dict(map(tuple, self.places[p][4]))
                if rest and rest[0] in again:
                    rest = [again[rest[0]]] + rest[1:]
                return ".".join([new] + rest)
        return None


def new_place(fn, old):
    """The new name of a place, by its old one (`After-look-up`)."""
    for i, p in enumerate(fn.n["places"]):
        if norm(p[0]).lower() == norm(old).lower():
            return p[0], fn.n["places_by_name"][i]
    return None, None


def unaliased(text, var):
    """`let k = c.before.before in` names a record on the way: c knows all of it."""
    while True:
        m = re.search(r"let ([\w'-]+) =\s+(" + re.escape(var) + r"(?:\.before)+)\s+in\s*", text)
        if not m:
            return text
        rest = re.sub(r"(?<![\w'.-])" + re.escape(m[1]) + r"(?![\w'-])(?! = )", var + ".before", text[m.end() :])
        text = text[: m.start()] + rest


def turn_body(fn, place, var, text, said, where, goal=None, records={}):
    text = unaliased(text, var)
    if goal:
        for helper, new in records.items():
            text = re.sub(r"(?<![\w'.-])" + re.escape(helper) + r" " + re.escape(var) + r"(?:\.before)*(?![\w'.-])", f"{helper} (goal.at.{goal} {var}).{new}", text)
    else:
        for helper, new in records.items():
            if re.search(r"(?<![\w'.-])" + re.escape(helper) + r" " + re.escape(var) + r"(?:\.before)+(?![\w'.-])", text):
                said.append(f"{where}: a helper calls {helper}")
    known = re.escape(var) + r"(?:\.before)*\.(?:well-formed|good)(?:\.\w+)*"
    text = re.sub(r"\n\s*" + known + r",(?=\n)", "", text)
    text = re.sub(r", " + known + r"(?=[,)])", "", text)
    text = re.sub(r"omega \(arith\)", "omega arith", text)
    text = re.sub(r"(omega \(arith(?:, [^()]*)?), " + re.escape(var) + r"(?:\.before)+(?=[,)])", r"\1", text)
    typed = fn.n["typed"][fn.index[place]] if place in fn.index and fn.index[place] < len(fn.n["typed"]) else []

    def one(m):
        parts = [p for p in m[2].split(".") if p]
        if not parts:
            if m[1]:
                said.append(f"{where}: whole {m[0]}")
            return m[0]
        new = fn.turn_path(place, parts, typed)
        if new is None:
            said.append(f"{where}: no step for {m[0]}")
            return m[0]
        if parts[-1] == "branch" or "branch" in parts:
            said.append(f"{where}: branch {m[0]} -> c.{new}")
        return f"{var}.{new}"

    return re.sub(PATH % re.escape(var), one, text)


def clause_of(name, lines):
    """unfolding lines, the arguments, and the body behind `=` of the only clause; None where there are several."""
    before, i = [], 0
    while i < len(lines) and not lines[i].startswith(name + " "):
        before.append(lines[i])
        i += 1
    if i == len(lines):
        return None
    m = re.match(re.escape(name) + r"((?: [^\s=]+)*) =(.*)$", lines[i])
    if not m:
        return None
    rest = lines[i + 1 :]
    if any(l.startswith(name + " ") for l in rest):
        return None
    return before, m[1].split(), "\n".join([m[2]] + rest).rstrip()


def convert(crate, path, fn, said):
    with open(path) as f:
        text = f.read()
    head = []
    for line in text.split("\n"):
        if line.startswith("--"):
            head.append(line)
        else:
            break
    uses, helpers, invariants, answers = [], [], [], []
    module = None
    loops = {norm(old): (new, vars_, changed) for ((old, new), vars_), changed in zip(fn.n["loops"], fn.n["changed"])}
    whole = blocks(text)
    records = {}
    for comments, name, lines in whole:
        m = re.search(r"\(([\w']+) : tie\.((?:After|At|Then|Else|In|Start)[\w'-]*)", "\n".join(lines)) if name not in (None, "use", "") else None
        if m:
            old, new = new_place(fn, m[2])
            if new is None and m[2].startswith("In-"):
                arms = [i for i, p in enumerate(fn.n["places"]) if norm(fn.n["places_by_name"][i]).lower() == norm(m[2]).lower()]
                if arms:
                    old, new = fn.n["places"][arms[0]][0], fn.n["places_by_name"][arms[0]]
            if new:
                records[name] = (new, old, m[1], m[2])
            else:
                said.append(f"{os.path.relpath(path)} {name}: no place {m[2]} of {fn.n['places_by_name']}")
    at_of = {h: v[0] for h, v in records.items()}
    for comments, name, lines in whole:
        where = f"{os.path.relpath(path)} {name}"
        if name == "use":
            line = lines[0]
            m = re.match(r"use (Rattle\.\S+)\.Tie as tie$", line)
            if m:
                module = m[1]
                continue
            if re.search(r"\.Statement\.\{", line):
                continue
            uses += [l for l in lines if l.strip()]
            continue
        sig = lines[0]
        need = re.search(r"tie\.Need-([\w'-]+)", sig)
        if need and name is not None and re.match(r"^[^\s]+ : tie\.Need-", sig):
            key = norm(need[1])
            found = fn.needs.get(key) or fn.needs.get(norm(name))
            got = clause_of(name, lines[1:])
            if got is None:
                said.append(f"{where}: several clauses or none")
                helpers.append((comments, lines))
                continue
            before, args, body = got
            if found is None:
                if body.strip() != "search rules":
                    said.append(f"{where}: no goal {need[1]} any more: {body.strip()[:80]}")
                continue
            if body.strip() == "search rules" and not before:
                continue
            new, place = found
            var = "c" if "c" in args else args[0]
            if "κs" in re.split(r"[^\w'κ]", body):
                said.append(f"{where}: κs")
            args = [a for a in args if a not in ("κs", "κ")]
            body = turn_body(fn, place, var, body, said, where, new, at_of)
            answers.append((comments, [f"pub {new} : goal.{new}", *before, f"{new} {' '.join(args)} ={body}"]))
            continue
        m = re.match(r"^abbrev (invariant|decreases)-(\S+) : tie\.", sig)
        if m:
            loop = loops.get(norm(m[2]))
            got = clause_of(name, lines[1:])
            if loop is None or got is None:
                said.append(f"{where}: loop {m[2]} is none of {list(loops)}")
                helpers.append((comments, lines))
                continue
            new, vars_, changed = loop
            before, args, body = got
            want = [f"l.initial.{v}" if c else f"l.{v}" for v, c in zip(vars_, changed)] + [f"l.{v}" for v, c in zip(vars_, changed) if c]
            if len(args) != len(want):
                said.append(f"{where}: {len(args)} arguments for {len(want)}: {args} {want}")
            for a, w in zip(args, want):
                if a == "_":
                    continue
                body = re.sub(r"(?<![\w'.-])" + re.escape(a) + r"(?![\w'₀-])(?! =\s)(?! : )", "\0" + w, body)
            body = body.replace("\0", "")
            short = new
            invariants.append((comments, [f"abbrev pub {m[1]}-{short} : goal.{m[1]}-{short}", *before, f"{m[1]}-{short} l ={body}"]))
            continue
        if "tie.spec" in "\n".join(lines) or "tie.close" in "\n".join(lines):
            continue
        if name in records:
            new, old, var, was = records[name]
            body = "\n".join(lines)
            body = re.sub(r"\(" + re.escape(var) + r" : tie\." + re.escape(was) + r"(?: [^()]*)?\)", f"({var} : {new})", body)
            sig, _, rest = body.partition("\n" + name + " ")
            # the clause may give the record another name
            m = re.match(r"([\w']+)", rest)
            sig = turn_body(fn, old, var, sig, said, where, None, at_of)
            rest = turn_body(fn, old, m[1] if m else var, rest, said, where, None, at_of)
            helpers.append((comments, (sig + "\n" + name + " " + rest).split("\n")))
            continue
        if "tie." in "\n".join(lines):
            said.append(f"{where}: names a record of tie")
        helpers.append((comments, lines))
    if module is None:
        said.append(f"{os.path.relpath(path)}: no tie")
        return None
    folder = os.path.dirname(path)
    text_of = lambda bs: "\n\n".join("\n".join(c + [l for l in ls]).rstrip() for c, ls in bs)
    names_used = lambda t: t

    def write(file, as_module, bs):
        body = text_of(bs)
        kept = []
        for u in uses:
            m = re.match(r"use (\S+)\.\{(.*)\}$", u)
            if m:
                words = [w.strip() for w in m[2].split(",")]
                used = [w for w in words if "◌" in w or re.search(r"(?<![\w'-])" + re.escape(w.split(" as ")[-1]) + r"(?![\w'-])", body)]
                if used:
                    kept.append(f"use {m[1]}.{{{', '.join(used)}}}")
            else:
                kept.append(u)
        with open(os.path.join(folder, file), "w") as f:
            of_goals = sorted({v[0] for v in records.values()}) if as_module == "Goals" else []
            if of_goals:
                kept.append(f"use {module}.Goals.{{{', '.join(of_goals)}}}")
            f.write("\n".join(head + kept + [f"use {module}.{as_module} as goal"]) + "\n\n" + body + "\n")

    if invariants:
        local = [h for h in helpers if any(re.search(r"(?<![\w'.-])" + re.escape(h_name(h)) + r"(?![\w'-])", "\n".join(l)) for _, l in invariants)] if helpers else []
        write("Invariants.antt", "Given", local + invariants)
    if answers:
        write("Answers.antt", "Goals", helpers + answers)
    os.remove(path)
    if not os.listdir(folder):
        os.rmdir(folder)
    return True


def h_name(h):
    m = SIG.match(h[1][0])
    return m[2] if m else "\0none"


def main():
    names, crates = sys.argv[1], sys.argv[2:]
    for crate in crates:
        with open(os.path.join(names, crate, "names.json")) as f:
            known = json.load(f)
        said = []
        for folder, dirs, files in os.walk(os.path.join("crates", crate, "proofs")):
            for f in files:
                if f != "Proof.antt":
                    continue
                path = os.path.join(folder, f)
                place = os.path.relpath(folder, os.path.join("crates", crate, "proofs")).replace("/", ".")
                key = f"Rattle-{crate}-proofs.{place}.Lts"
                if key not in known:
                    said.append(f"{path}: no names for {key}")
                    continue
                convert(crate, path, Fn(known[key]), said)
        print(f"== {crate}: {len(said)} to look at")
        for s in said:
            print("  " + s)


if __name__ == "__main__":
    main()
