#!/usr/bin/env python3
"""Writes the linear programs of bench/lp: joint problems of lists of bounds (docs/METHOD.md).

Each program has one loop: a guard and one or more branches that assign affine forms to all variables. The list is the rows of a
domain (intervals, zones or octagons) at the head of the loop that some branch exceeds. The base are the bounds of the single state
before the loop, and each row takes the branch that exceeds its bound by the most. The columns are one rise for each listed row, and
for each listed row the start values of its branch, split into a positive and a negative part; the goal is the sum of the rises.

    python3 bench/lp/write.py bench/lp
"""
import itertools
import os
import sys


def rows_of(domain, n):
    """The rows of a domain over n variables, as lists of coefficients."""
    rows = []
    for i in range(n):
        for sign in (1, -1):
            rows.append([sign if k == i else 0 for k in range(n)])
    if domain == "intervals":
        return rows
    for i, j in itertools.combinations(range(n), 2):
        signs = [(1, -1), (-1, 1)] if domain == "zones" else [(1, 1), (1, -1), (-1, 1), (-1, -1)]
        for s, t in signs:
            row = [0] * n
            row[i], row[j] = s, t
            rows.append(row)
    return rows


def dot(xs, ys):
    return sum(x * y for x, y in zip(xs, ys))


def after(branch, state):
    return [dot(row, state) + constant for row, constant in branch]


def joint(domain, start, guard, branches):
    """The rows of the problem, as pairs of a sparse row and a side, and the number of rises and columns."""
    n = len(start)
    template = rows_of(domain, n)
    base = [dot(row, start) for row in template]
    picked = [max(branches, key=lambda b: dot(own, after(b, start))) for own in template]
    listed = [k for k, own in enumerate(template) if dot(own, after(picked[k], start)) > base[k]]
    rises = len(listed)
    rows = []
    for place, target in enumerate(listed):
        own, branch = template[target], picked[target]
        offset = rises + place * 2 * n
        for source, row in enumerate(template):
            line = {listed.index(source): -1} if source in listed else {}
            split(line, offset, row)
            rows.append((line, base[source]))
        line = {}
        split(line, offset, guard[0])
        rows.append((line, guard[1]))
        end = [sum(own[i] * branch[i][0][k] for i in range(n)) for k in range(n)]
        constant = sum(own[i] * branch[i][1] for i in range(n))
        line = {place: 1}
        split(line, offset, [-c for c in end])
        rows.append((line, constant - base[target]))
    return rows, rises, rises + rises * 2 * n


def split(line, offset, coefficients):
    for k, c in enumerate(coefficients):
        if c != 0:
            line[offset + 2 * k] = c
            line[offset + 2 * k + 1] = -c


def term(column, c):
    return ("-" if c < 0 else "+") + f" {abs(c)} x{column + 1}"


def text(rows, rises):
    lines = ["Maximize", "obj: " + " ".join(term(k, 1) for k in range(rises)), "Subject To"]
    for number, (line, side) in enumerate(rows):
        lines.append(f"r{number + 1}: " + " ".join(term(k, c) for k, c in sorted(line.items())) + f" <= {side}")
    return "\n".join(lines + ["End", ""])


def unit(n, i):
    return [1 if k == i else 0 for k in range(n)]


def step(n, i, by):
    """Adds `by` to variable i."""
    return [(unit(n, k), by if k == i else 0) for k in range(n)]


def counters(n):
    """a counts to 100, and each other variable goes up by its number or stays."""
    grow = [(unit(n, k), 1 if k == 0 else k) for k in range(n)]
    return [0] * n, (unit(n, 0), 99), [grow, step(n, 0, 1)]


def sums(n):
    """a counts to 50, and each other variable takes half of nothing: the sum of its neighbour and itself, or one less."""
    chain = [(unit(n, 0), 1)] + [(unit(n, k - 1), k) for k in range(1, n)]
    down = [(unit(n, 0), 1)] + [(unit(n, k), -1) for k in range(1, n)]
    return [0] + [10] * (n - 1), (unit(n, 0), 49), [chain, down]


def turns(n):
    """All variables change places, and the first goes up while it is at most 30."""
    turn = [(unit(n, (k + 1) % n), 1 if k == 0 else 0) for k in range(n)]
    return list(range(n)), (unit(n, 0), 30), [turn, step(n, 0, 1)]


PROBLEMS = [
    ("intervals6_counters", "intervals", counters(6)),
    ("intervals9_sums", "intervals", sums(9)),
    ("intervals12_turns", "intervals", turns(12)),
    ("zones3_counters", "zones", counters(3)),
    ("zones4_sums", "zones", sums(4)),
    ("zones5_turns", "zones", turns(5)),
    ("zones6_counters", "zones", counters(6)),
    ("octagons2_sums", "octagons", sums(2)),
    ("octagons3_counters", "octagons", counters(3)),
    ("octagons4_turns", "octagons", turns(4)),
    ("octagons5_counters", "octagons", counters(5)),
    ("octagons5_sums", "octagons", sums(5)),
]


def main():
    folder = sys.argv[1]
    for name, domain, (start, guard, branches) in PROBLEMS:
        rows, rises, width = joint(domain, start, guard, branches)
        with open(os.path.join(folder, name + ".lp"), "w") as out:
            out.write(text(rows, rises))
        print(name, len(rows), "rows", width, "columns")


main()
