"""Families of problems whose cost grows with their size, in native text, one group a file; and the program that is measured."""
import os
import random
import sys


def existing_program(file):
    """The path of the program; ends the script where it is not there, since a table of it would be one of nothing."""
    program = os.path.abspath(file)
    if not os.path.isfile(program) or not os.access(program, os.X_OK):
        sys.exit(f"{program} is not there, or no program: ./pip builds crates/pip/out/pip")
    return program


def row(entries):
    return "#[" + " ".join(map(str, entries)) + "]"


def problem(name, unknowns, params, rows, context, integer):
    return "(({}) {} {} {} {} -1 {} ({}) ({}))\n".format(
        name, unknowns, params, len(rows), len(context), integer,
        " ".join(map(row, rows)), " ".join(map(row, context)))


def chain(n, integer):
    """x1 >= 3, and 2 * x(k+1) >= 3 * xk: each unknown pushes the next."""
    rows = [[1] + [0] * (n - 1) + [-3]]
    for k in range(n - 1):
        entries = [0] * (n + 1)
        entries[k], entries[k + 1] = -3, 2
        rows.append(entries)
    return problem(f"chain of {n}", n, 0, rows, [], integer)


def bowl(n, seed):
    """Lower bounds on random sums of four unknowns."""
    source = random.Random(seed)
    rows = [[source.randint(1, 9) for _ in range(4)] + [-source.randint(50, 500)] for _ in range(n)]
    return problem(f"bowl of {n} rows", 4, 0, rows, [], 1)


def knapsack(n, seed):
    """An equation of n unknowns with whole weights."""
    source = random.Random(seed)
    weights = [source.randint(5, 30) for _ in range(n)]
    total = source.randint(100, 400)
    return problem(f"knapsack of {n}", n, 0, [weights + [-total], [-w for w in weights] + [total]], [], 1)


def greatest(m, integer):
    """The greatest of m parameters."""
    rows = []
    for k in range(m):
        entries = [1, 0] + [0] * m
        entries[2 + k] = -1
        rows.append(entries)
    return problem(f"greatest of {m}", 1, m, rows, [], integer)


def differences(count, rows=0, unknowns=1):
    """At least as much as so many differences of two of 48 parameters, none of which follows from the others. Further
    rows, up to so many, ask nothing more of the first unknown, nor of others."""
    pairs = [(i, 24 + j) for i in range(24) for j in range(24)]
    forms = []
    for high, low in pairs[:count]:
        entries = [1] + [0] * unknowns + [0] * 48
        entries[unknowns + 1 + high], entries[unknowns + 1 + low] = -1, 1
        forms.append(entries)
    for k in range(rows - count):
        forms.append([1] + [0] * (unknowns - 1) + [k % 9 + 1] + [0] * 48)
    return problem(f"{count} differences", unknowns, 48, forms, [], 1)


def tiles(d):
    """The tile and the place in it of a point of d loops, tiles of 32."""
    rows = []
    for k in range(d):
        for sign in (1, -1):
            entries = [0] * (2 * d + 1 + d)
            entries[2 * k], entries[2 * k + 1], entries[2 * d + 1 + k] = sign * 32, sign, -sign
            rows.append(entries)
        entries = [0] * (2 * d + 1 + d)
        entries[2 * k + 1], entries[2 * d] = -1, 31
        rows.append(entries)
    return problem(f"tiles of {d} loops", 2 * d, d, rows, [], 1)


def triangle(n):
    """The last write before a turn of n nested triangular loops: the parameters are the turn and the size."""
    m = n + 1
    rows = []
    for k in range(n):
        low = [0] * (n + 1 + m)
        low[k], low[n + 1 + k] = -1, 1
        rows.append(low)
    rows.append([1] * n + [-1] + [0] * m)
    context = [[0] * k + [-1, 1] + [0] * (m - k - 2) + [0] for k in range(n)]
    return problem(f"triangle of {n} loops", n, m, rows, context, 1)


def delinearised(sizes):
    """The element before element c of an array whose indices i, j, .. a compiler has found from i + 7j + 63k = c. The
    unknowns are counted down from the last index; the context has the equality, of great numbers, and the bounds."""
    d, weights = len(sizes), [1]
    for size in sizes[:-1]:
        weights.append(weights[-1] * size)
    cells = weights[-1] * sizes[-1]
    none = [0] * (d + 1)
    before = [*weights, -cells, *none[:-1], 1]
    rows = [before, [-number for number in before]]
    known = [*(-weight for weight in weights), 1, 0]
    context = [known, [-number for number in known]]
    for k, size in enumerate(sizes):
        bound = [-1 if place == k else 0 for place in range(d)]
        rows.append([*bound, size - 1, *none])
        context.append([*bound, 0, size - 1])
    context.append([*none[:-1], -1, cells - 1])
    return problem(f"elements of {' x '.join(map(str, sizes))}", d, d + 1, rows, context, 1)


GROUPS = {
    "chain-rational": [chain(n, 0) for n in (8, 16, 32, 64)],
    "chain": [chain(n, 1) for n in (4, 6, 8)],
    "bowl": [bowl(n, n) for n in (16, 64, 256, 1024)],
    "knapsack": [knapsack(n, n) for n in range(2, 14)],
    "greatest-rational": [greatest(m, 0) for m in (2, 3, 4, 5)],
    "greatest": [greatest(m, 1) for m in (2, 3, 4, 5)],
    "tiles": [tiles(d) for d in (1, 2)],
    "triangle": [triangle(n) for n in (1, 2, 3, 4)],
    "delinearised": [delinearised(sizes) for sizes in ((8, 9), (3, 3, 2), (4, 4, 2), (5, 4, 3), (7, 4, 2), (7, 9, 2))],
}
