#!/usr/bin/env python3
"""Holds the program `signals` to documents 01 and 02 alone: differential/signals.py PROGRAM [ARGUMENT ..], charts in hexadecimal, one on
each line of standard input. PROGRAM is run on blocks of them and prints for each a line `order 0 1 2`, `refused 20 0 cycle 2 1` or `refused A B`.

Charts are read by boards.py. A line for each answer that is wrong (chart, answer, what is wrong), then how many there were; exit status 1
if an answer is wrong or the number of answers is not that of the charts.

With no PROGRAM it prints the answers itself, with the cycle that docs/DECISIONS.md fixes; so was crates/signals/stdout made.
"""
import re
import subprocess
import sys

sys.dont_write_bytecode = True  # boards.py leaves no compiled file beside it
from boards import Refused, read

BLOCK = 800  # lines of one run: the program has room for 1,048,576 bytes


def leads(sources, sinks):
    """The pairs p q where p has a sink to q or q a source from p: of these completion makes both."""
    return {(k, target) for k, target, *_ in sinks} | {(target, k) for k, target, *_ in sources}


def has_cycle(n, edges):
    """By colouring: a depth-first walk meets a node that is on its path."""
    new, on_path, left = range(3)
    colour = [new] * n

    def meets(p):
        colour[p] = on_path
        for q in range(n):
            if (p, q) in edges and (colour[q] == on_path or colour[q] == new and meets(q)):
                return True
        colour[p] = left
        return False

    return any(colour[p] == new and meets(p) for p in range(n))


def wrong_order(nodes, n, edges):
    if sorted(nodes) != list(range(n)):
        return "not each node once"
    place = {p: i for i, p in enumerate(nodes)}
    for p, q in sorted(edges):
        if place[p] >= place[q]:
            return f"{q} is not after its source {p}"
    for i, p in enumerate(nodes):
        for q in range(p):
            if place[q] > i and all(place[source] < i for source, sink in edges if sink == q):
                return f"{q} is free before {p} is listed, and lower"
    return None


def wrong_cycle(nodes, n, edges):
    if not nodes:
        return "a cycle of no node"
    if len(set(nodes)) < len(nodes):
        return "a node twice"
    for p, q in zip(nodes, nodes[1:] + nodes[:1]):
        if p >= n:
            return f"{p} is no node"
        if (p, q) not in edges:
            return f"{p} has no sink to {q}"
    return None


def listed(n, edges):
    """The lowest free number next, as long as there is one."""
    done = []
    while True:
        free = [q for q in range(n) if q not in done and all(p in done for p, sink in edges if sink == q)]
        if not free:
            return done
        done.append(free[0])


def shown(n, sources, sinks, done):
    """Of the nodes left from the lowest back, each time to the first source that is left too, until one comes again. The sources of
    a node in the completed graph are the given ones, then one for each given sink to it."""
    before = [[] for _ in range(n)]
    for k, target, *_ in sources:
        before[k].append(target)
    for k, target, *_ in sinks:
        before[target].append(k)
    path = []
    q = next(q for q in range(n) if q not in done)
    while q not in path:
        path.append(q)
        q = next(p for p in before[q] if p not in done)
    return path[path.index(q):][::-1]


def due(chart):
    try:
        n, sources, _, sinks = read(bytes.fromhex(chart))
    except Refused as refused:
        return "refused {} {}".format(*refused.args)
    done = listed(n, leads(sources, sinks))
    words = ["order", *done] if len(done) == n else ["refused 20 0 cycle", *shown(n, sources, sinks, done)]
    return " ".join(map(str, words))


def numbers(answer, head):
    """What stands after the head; None if the answer is not so made."""
    if re.fullmatch(head + "( (0|[1-9][0-9]*))*", answer) is None:
        return None
    return [int(word) for word in answer[len(head):].split()]


def judged(chart, answer):
    """What the chart has, as a place in the summary, and what is wrong with the answer, if anything."""
    try:
        n, sources, _, sinks = read(bytes.fromhex(chart))
    except Refused as refused:
        right = "refused {} {}".format(*refused.args)
        return "refused", None if answer == right else f"it is {right}"
    edges = leads(sources, sinks)
    if has_cycle(n, edges):
        nodes = numbers(answer, "refused 20 0 cycle")
        kind, what = "cycles", "a cycle is due" if nodes is None else wrong_cycle(nodes, n, edges)
    else:
        nodes = numbers(answer, "order")
        kind, what = "orders", "an order is due" if nodes is None else wrong_order(nodes, n, edges)
    if what is None and answer != due(chart):
        what = f"right, but it is {due(chart)}"
    return kind, what


def main(program):
    charts = [row.strip() for row in sys.stdin]
    counts = {"orders": 0, "cycles": 0, "refused": 0}
    wrong = 0
    for start in range(0, len(charts), BLOCK):
        block = charts[start:start + BLOCK]
        lines = "".join(chart + "\n" for chart in block).encode()
        said = subprocess.run(program, input=lines, stdout=subprocess.PIPE).stdout.decode("ascii", "replace")
        *answers, _ = said.split("\n")  # what no line feed ends is no answer
        if len(answers) != len(block):
            print(f"charts {start} to {start + len(block) - 1}: {len(answers)} answers")
        for i, chart in enumerate(block):
            answer = answers[i] if i < len(answers) else "no answer"
            kind, what = judged(chart, answer)
            counts[kind] += 1
            if what is not None:
                wrong += 1
                print(f"chart {chart}: {answer}: {what}")
        wrong += max(0, len(answers) - len(block))
    print("{} charts: {orders} orders, {cycles} cycles, {refused} refused; {} wrong".format(len(charts), wrong, **counts))
    return 1 if wrong else 0


if __name__ == "__main__":
    if len(sys.argv) > 1:
        sys.exit(main(sys.argv[1:]))
    for row in sys.stdin:
        print(due(row.strip()))
