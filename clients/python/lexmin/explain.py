"""Says in words what a problem text asks, row by row, or what is wrong with it and where.

    lexmin explain [--polylib] [--parameters NAMES] [--unknowns NAMES] [FILE]

    $ lexmin explain --parameters p,q --unknowns u examples/greatest.pip
    the greatest x with 2x <= p and x <= q, as u = q - x
    the lexicographically least whole (u), from 0 on, for all whole p, q from 0 on:
        2*u + p - 2*q >= 0
        q - u >= 0

A number in another place is a row too, and the program refuses nothing: here it is seen. Two rows that are opposites stand
as one equality. Where the text is off the grammar, standard error says at which line and column, what stands there and what
belongs there; the byte is that of the program's `syntax at byte B`. A text without any problem is said to be so, since the
program says nothing of it. The status is then 1.

NAMES stand apart by commas. Without them unknowns are x0, x1, .. and parameters p0, p1, .. Without a FILE the text is
standard input.
"""
from __future__ import annotations

import argparse
import pathlib
import sys
from typing import Iterator, List, Optional, Sequence

from .drawing import names_of, told_apart
from .forms import Form
from .texts import Fault, ReadProblem, if_matrices, native, polylib
from .trees import as_bytes, form_of


def position(data: bytes, place: int) -> str:
    """A place by line and column, both from 1 on, and by byte."""
    line = data.count(b"\n", 0, place) + 1
    column = len(data[data.rfind(b"\n", 0, place) + 1:place].decode(errors="replace")) + 1
    return f"line {line}, column {column} (byte {place})"


def marked(data: bytes, place: int) -> str:
    """The line of a place, and a mark below it."""
    start = data.rfind(b"\n", 0, place) + 1
    end = data.find(b"\n", place)
    line = data[start:len(data) if end < 0 else end].decode(errors="replace").rstrip("\r")
    column = len(data[start:place].decode(errors="replace"))
    first = max(0, column - 60)
    shown = "".join(sign if sign.isprintable() else " " for sign in line[first:first + 100])
    return f"    {shown}\n    {' ' * (column - first)}^"


def relations(rows: Sequence[Sequence[int]], names: Sequence[str]) -> Iterator[str]:
    """Rows with the constant last, as relations of names."""
    scope = [Form({name: 1}) for name in names]
    place = 0
    while place < len(rows):
        row = list(rows[place])
        if any(row) and list(rows[place + 1:place + 2]) == [[-number for number in row]]:
            yield f"{form_of(tuple(row), scope)} = 0"
            place += 2
            continue
        says = ""
        if not any(row[:-1]):
            says = "        (always)" if row[-1] >= 0 else "        (never)"
        yield f"{form_of(tuple(row), scope)} >= 0{says}"
        place += 1


def names_for(given: Optional[Sequence[str]], count: int, letter: str, what: str) -> List[str]:
    if given is None:
        return [f"{letter}{place}" for place in range(count)]
    if len(given) != count:
        raise ValueError(f"{len(given)} names of {what}, and the problem has {count}")
    return list(given)


def explained(problem: ReadProblem, parameters: Optional[Sequence[str]] = None, unknowns: Optional[Sequence[str]] = None) -> Iterator[str]:
    """What a problem asks, line by line."""
    own = names_for(unknowns, problem.unknowns, "x", "unknowns")
    given = names_for(parameters, problem.parameters, "p", "parameters")
    told_apart([*given, *own])
    if problem.comment:
        yield as_bytes(problem.comment).decode(errors="replace")
    kind = "whole " if problem.integer else "fractional "
    for_all = f", for all whole {', '.join(given)} from 0 on" if given else ", without parameters"
    yield f"the lexicographically least {kind}({', '.join(own)}), from 0 on{for_all}{':' if problem.rows else ''}"
    yield from ("    " + line for line in relations(problem.rows, [*own, *given]))
    if problem.context:
        yield "where it is known that"
        yield from ("    " + line for line in relations(problem.context, given))


def _columns(problem: ReadProblem) -> str:
    """How the matrices' columns were read: a context of other columns makes another problem of the same constraints."""
    def some(count: int, what: str) -> str:
        return f"no {what}s" if count == 0 else f"{count} {what}{'' if count == 1 else 's'}"

    parameters = some(problem.parameters, "parameter")
    return (f"the context's {problem.parameters + 2} columns: the kind, {parameters}, the constant; "
            f"so the constraints': the kind, {some(problem.unknowns, 'unknown')}, {parameters}, the constant")


def explain(data: bytes, as_matrices: bool = False, parameters: Optional[Sequence[str]] = None,
            unknowns: Optional[Sequence[str]] = None) -> Iterator[str]:
    """What the problems of a text ask, line by line; a Fault where the program refuses the text, or says nothing of it."""
    if as_matrices:
        problem = polylib(data)
        yield _columns(problem)
        yield from explained(problem, parameters, unknowns)
        return
    hint = if_matrices(data, "which `--polylib` reads")
    if b"(" not in data:
        what = "the text is empty" if not data.strip() else "the text has no `(`"
        raise Fault(len(data), f"{what}, so there is no problem in it, and the program writes nothing, with status 0{hint}", "none")
    try:
        for problem in native(data):
            yield from explained(problem, parameters, unknowns)
    except Fault as fault:
        raise Fault(fault.place, fault.words + hint, fault.line) from None


def main(words: Sequence[str]) -> int:
    parser = argparse.ArgumentParser(prog="lexmin explain", description=__doc__, formatter_class=argparse.RawDescriptionHelpFormatter)
    parser.add_argument("--polylib", action="store_true", help="the text is one problem of PolyLib's matrices")
    parser.add_argument("--parameters", metavar="NAMES", help="the names of the parameters, apart by commas")
    parser.add_argument("--unknowns", metavar="NAMES", help="the names of the unknowns, apart by commas")
    parser.add_argument("file", nargs="?", type=pathlib.Path, help="the problems; standard input where none is named")
    chosen = parser.parse_args(words)
    named = [names_of(chosen.parameters), names_of(chosen.unknowns)]
    name = chosen.file or "standard input"
    data = b""
    try:
        data = chosen.file.read_bytes() if chosen.file else sys.stdin.buffer.read()
        for line in explain(data, chosen.polylib, *named):
            print(line)
    except Fault as fault:
        sys.stdout.flush()
        print(f"{name}: {position(data, fault.place)}: {fault.words}\n{marked(data, fault.place)}", file=sys.stderr)
        return 1
    except BrokenPipeError:
        raise
    except (OSError, ValueError) as error:
        print(f"lexmin explain: {error}", file=sys.stderr)
        return 1
    return 0
