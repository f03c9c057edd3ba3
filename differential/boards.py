#!/usr/bin/env python3
"""What each chart is read as, from document 01's module 1, refusals 1 to 12 and document 02's L4 alone: charts in hexadecimal, one on
each line of standard input; boards or refusals on standard output, in the form of the program `boards`.

Made `crates/boards/stdout` from `crates/boards/stdin`. It shares no code with the other readers. signals.py reads by it too.
"""
import sys


class Refused(Exception):
    pass


def read(chart):
    def byte(at):
        if at >= len(chart):
            raise Refused(6, 0)
        return chart[at]

    def text(at):
        length = byte(at)
        if length > 24:
            raise Refused(8, 0)
        characters, awaited = 0, False
        for place in range(at + 1, at + 1 + length):
            value, last = byte(place), place == at + length
            if awaited:
                if value != 0xB0:
                    raise Refused(9, 0)
                awaited = False
            elif value == 0xC2 and not last:
                characters, awaited = characters + 1, True
            elif 32 <= value <= 126:
                characters += 1
            else:
                raise Refused(9, 0)
        return (at + 1, characters), at + 1 + length

    def end(at):
        target = byte(at)
        part, after = text(at + 1)
        return (target,) + part, after

    if not chart:
        return 0, [], [], []
    if len(chart) < 2:
        raise Refused(1, 0)
    if chart[0] != 1:
        raise Refused(2, 0)
    n = chart[1]
    if n > 32:
        raise Refused(3, 0)
    if len(chart) < 2 + 2 * n:
        raise Refused(4, 0)
    sources, lines, sinks = [], [], []
    at = 2 + 2 * n
    for k in range(n):
        if chart[2 + 2 * k] + 256 * chart[3 + 2 * k] != at:
            raise Refused(5, 0)
        counts = []
        for i in range(3):
            counts.append(byte(at + i))
            if i == 1 and counts[1] > 4:
                raise Refused(7, 0)
        at += 3
        for table, reader, count in ((sources, end, counts[0]), (lines, text, counts[1]), (sinks, end, counts[2])):
            for _ in range(count):
                item, at = reader(at)
                table.append((k,) + item)
    if at < len(chart):
        raise Refused(10, 0)
    if len(sources) + len(sinks) > 64:
        raise Refused(11, 0)
    for k in range(n):
        for table in (sinks, sources):
            for item in table:
                if item[0] == k and item[1] >= n:
                    raise Refused(12, item[1])
    return n, sources, lines, sinks


if __name__ == "__main__":
    for row in sys.stdin:
        try:
            n, *tables = read(bytes.fromhex(row.strip()))
            print("board", n)
            for name, table in zip(("source", "line", "sink"), tables):
                for item in table:
                    print(name, *item)
        except Refused as refused:
            print("refused", *refused.args)
        print()
