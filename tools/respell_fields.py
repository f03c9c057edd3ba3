#!/usr/bin/env python3
"""Brings the fields of the repository's own records to snake case, once, after tools/respell.py: `sink-room` becomes `sink_room`.

usage: tools/respell_fields.py [--list]      at the top of the repository
"""
import glob
import re
import sys

FIELD = re.compile(r"^\s+(?:pub\s+)?([a-z][^\s(){}.,:]*-[^\s(){}.,:]*) : ")
TOKEN = re.compile(r"(?:(?<=[\s.{(;,])|^)[a-z][^\s(){}\[\];,.\"]*-[^\s(){}\[\];,.\"]*")


def files():
    out = []
    for p in ("crates/*/specs/**/*.antt", "crates/*/proofs/**/*.antt", "crates/*/src/**/*.rt"):
        out += glob.glob(p, recursive=True)
    return sorted(p for p in out if "/out/" not in p)


def fields():
    out = set()
    for path in files():
        inside = False
        for line in open(path).read().split("\n"):
            if re.match(r"^\s*(pub )?(pub record|record) .* where\s*$", line):
                inside = True
                continue
            if inside and line.strip() and not line[0].isspace():
                inside = False
            m = FIELD.match(line)
            if inside and m:
                out.add(m.group(1))
    return out


def main():
    table = {f: f.replace("-", "_") for f in fields()}
    if "--list" in sys.argv:
        print("\n".join("%s %s" % p for p in sorted(table.items())))
        return
    for path in files():
        text = open(path).read()
        lines = []
        for line in text.split("\n"):
            k = line.find("-- ")
            code, rest = (line, "") if k < 0 else (line[:k], line[k:])
            lines.append(TOKEN.sub(lambda m: table.get(m.group(0), m.group(0)), code) + rest)
        new = "\n".join(lines)
        if new != text:
            open(path, "w").write(new)


main()
