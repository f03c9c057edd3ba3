#!/usr/bin/env python3
"""Brings the names that a file's `use` lines give with `as` to snake case, once, after tools/respell.py: `owned as ownedEnds` becomes `owned as owned_ends`.

usage: tools/respell_aliases.py      at the top of the repository
"""
import glob
import re

ALIAS = re.compile(r"\bas ([a-z][A-Za-z0-9₀-₉'-]*[A-Z][A-Za-z0-9₀-₉'-]*)(?=\s*[,}])")
TOKEN = re.compile(r"[^\s(){}\[\];,.\"`]+")


def main():
    paths = []
    for p in ("crates/*/specs/**/*.antt", "crates/*/proofs/**/*.antt", "crates/*/src/**/*.rt"):
        paths += glob.glob(p, recursive=True)
    for path in sorted(p for p in paths if "/out/" not in p):
        text = open(path).read()
        names = set()
        for line in text.split("\n"):
            if re.match(r"^\s*(pub )?(ghost )?use ", line):
                names |= set(ALIAS.findall(line))
        table = {}
        words = set(TOKEN.findall(text))
        for n in names:
            new = re.sub(r"(?<=[a-z0-9₀-₉'])([A-Z])", lambda m: "_" + m.group(1).lower(), n)
            if new in words or new in table.values():
                print("%s: %s would fall together" % (path, n))
                continue
            table[n] = new
        if table:
            out = []
            for line in text.split("\n"):
                k = line.find("-- ") if path.endswith(".antt") else -1
                code, rest = (line, "") if k < 0 else (line[:k], line[k:])
                if path.endswith(".rt") and line.strip().startswith("//"):
                    code, rest = "", line
                out.append(TOKEN.sub(lambda m: table.get(m.group(0), m.group(0)), code) + rest)
            open(path, "w").write("\n".join(out))


main()
