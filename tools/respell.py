#!/usr/bin/env python3
"""Brings the repository's own definitions and lemmas to today's spelling, once, after the kit's port.py.

usage: tools/respell.py [--list]      at the top of the repository; --list prints old and new names and changes nothing

Words are in snake case: `gainSource` becomes `gain_source`. A dash stays where it joins the names of two definitions, and becomes `_`
elsewhere: `complete-mutual` becomes `complete_mutual`. Types and modules (a capital first), functions of src/, strings and comments keep their names.
"""
import glob
import os
import re
import sys

TOKEN = re.compile(r"[^\s(){}\[\];,.\"`⌜⌝]+")
DECLARED = re.compile(r"^\s*(?:(?:abbrev|unfoldable|pub|data|record|ruleset)\s+)*([a-z][^\s(){}.,:]*)(?:\s*\{[^}]*\})? : ")
USED = re.compile(r"^\s*(?:pub\s+)?(?:ghost\s+)?use\s+([^\s{]+?)\.?\{(.*)\};?\s*$")
# words of std that a lemma's name may join
STD = {"length", "take", "drop", "set", "map", "append", "get_or", "sum", "replicate", "min", "max", "cond", "eqb", "ltb", "leb"}
# lemmas whose names would fall together with a definition's
BY_HAND = {
    "first_out": "first_out_lem",
    "inputs_in": "inputs_in_lem",
    "is_digit": "is_digit_lem",
    "lines_at": "lines_at_lem",
    "no_digit": "no_digit_lem",
    "no_fraction": "no_fraction_lem",
    "numbers_of": "numbers_of_lem",
    "answer-in": "answer_in_lem",
    "key-at": "key_at_lem",
    "center-y": "center_y_lem",
    "columns-in": "columns_in_lem",
    "first-in": "first_in_lem",
    "leads-in": "leads_in_lem",
    "no-point": "no_point_lem",
    "owner-in": "owner_in_lem",
    "part-for": "part_for_lem",
    "source-count": "source_count_lem",
}


def files(pattern):
    return sorted(p for p in glob.glob(pattern, recursive=True) if "/out/" not in p)


def is_function_file(path):
    return "/proofs/" in path and os.path.basename(path) in ("Proof.antt", "Invariants.antt", "Answers.antt")


def is_own(path):
    return path.startswith("Rattle.") and os.path.isdir(os.path.join("crates", path.split(".")[1]))


def code_of(line):
    """the line without its comment"""
    k = line.find("--")
    while k >= 0:
        if (k == 0 or line[k - 1].isspace()) and line.count('"', 0, k) % 2 == 0:
            return line[:k], line[k:]
        k = line.find("--", k + 1)
    return line, ""


def snake(name):
    return re.sub(r"(?<=[a-z0-9₀-₉'])([A-Z])", lambda m: "_" + m.group(1).lower(), name)


def names():
    declared, foreign, types = set(), set(), set()
    for path in files("crates/*/specs/**/*.antt") + files("crates/*/proofs/**/*.antt"):
        text = open(path).read()
        for line in text.split("\n"):
            m = USED.match(line)
            if m:
                if not is_own(m.group(1)):
                    for w in m.group(2).split(","):
                        foreign.add(w.split(" as ")[0].strip())
                continue
            if is_function_file(path):
                continue
            m = DECLARED.match(line)
            if m:
                declared.add(m.group(1))
    for path in files("crates/*/src/**/*.rt"):
        for line in open(path).read().split("\n"):
            m = USED.match(line)
            if m and not is_own(m.group(1)):
                for w in m.group(2).split(","):
                    foreign.add(w.split(" as ")[0].strip())
    return declared, foreign


def turned():
    declared, foreign = names()
    camel = re.compile(r"^[a-z][A-Za-z0-9₀-₉'-]*[a-z0-9₀-₉'][A-Z]")
    first = {}
    for n in declared:
        if n in foreign:
            continue
        if camel.match(n):
            first[n] = snake(n)
    defs = {first.get(n, n) for n in declared if "-" not in n} | STD
    out = {}
    for n in declared:
        if n in foreign:
            continue
        new = BY_HAND.get(n)
        if new is None:
            new = snake(n) if camel.match(n) else n
            if "-" in new.strip("-"):
                parts = new.split("-")
                joined = parts[0]
                for a, b in zip(parts, parts[1:]):
                    joined += ("-" if a in defs and b in defs else "_") + b
                new = joined
        if new != n:
            out[n] = new
    return out, declared


def respell_line(line, table, in_function, imported):
    def one(m):
        t = m.group(0)
        new = table.get(t)
        if new is None:
            return t
        if in_function and "-" in t and t not in imported:
            return t
        return new
    # a string keeps its letters
    parts = re.split(r'("(?:[^"\\]|\\.)*")', line)
    return "".join(p if i % 2 else TOKEN.sub(one, p) for i, p in enumerate(parts))


def main():
    table, declared = turned()
    back = {}
    for old, new in table.items():
        back.setdefault(new, set()).add(old)
    for new, olds in sorted(back.items()):
        if len(olds) > 1 or new in declared and new not in table:
            print("falls together: %s <- %s%s" % (new, " ".join(sorted(olds)), " and itself" if new in declared else ""))
    if "--list" in sys.argv:
        for old, new in sorted(table.items()):
            print(old, new)
        return
    for path in files("crates/*/specs/**/*.antt") + files("crates/*/proofs/**/*.antt") + files("crates/*/src/**/*.rt"):
        text = open(path).read()
        is_rt = path.endswith(".rt")
        in_function = is_function_file(path)
        imported = set()
        for line in text.split("\n"):
            m = USED.match(line)
            if m and is_own(m.group(1)):
                for w in m.group(2).split(","):
                    imported.add(w.split(" as ")[0].strip())
        out = []
        for line in text.split("\n"):
            if is_rt:
                code, rest = (line, "") if not line.strip().startswith("//") else ("", line)
                if not (code.lstrip().startswith(("ghost", "requires", "ensures", "decreases")) or "ensures {" in code or "requires {" in code):
                    out.append(line)
                    continue
            else:
                code, rest = code_of(line)
            out.append(respell_line(code, table, in_function, imported) + rest)
        new = "\n".join(out)
        if new != text:
            open(path, "w").write(new)


if __name__ == "__main__":
    main()
