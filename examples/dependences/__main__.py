"""Writes of each read of loop nests which instance wrote last what it reads, as a function of the sizes and the reading turn.

    PYTHONPATH=clients/python python3 examples/dependences [--program FILE] [--only NAME] [--shorten] FILE

FILE is a text in C, of which `syntax.py` says what is read. A statement is named by its number, and an instance of it by the
values of its loop variables, the outermost first. `unknown: S1(i - 1) or earlier` stands where a subscript, a condition or a bound is not
affine: that instance may have written it last, and none that ran later; `..` in it stands for all turns that a loop made. --only names
one function; --shorten writes shorter answers, which takes longer.
"""
from __future__ import annotations

import argparse
import os
import pathlib
import sys
from typing import Iterator, Optional, Sequence, Set

from lexmin import Refused, Solver
from dependences import Analyser
from nests import Kernel, Statement
from syntax import read


def described(kernel: Kernel, solver: Solver, shorten: bool) -> Iterator[str]:
    """What is found of a kernel, line by line. Of arrays that nothing writes there is nothing to say."""
    yield f"{kernel.name}({', '.join(kernel.sizes)})"
    told: Optional[Statement] = None
    seen: Set[str] = set()
    for source in Analyser(solver, kernel).sources():
        statement, access = source.statement, source.statement.reads[source.read]
        if statement is not told:
            told, seen = statement, set()
            yield f"    S{statement.number}({', '.join(statement.variables)}): {statement.part.text}"
        where = f" where {', '.join(map(str, source.case.relations))}" if source.case.relations else ""
        if kernel.writers(access.array) and access.text + where not in seen:
            seen.add(access.text + where)
            yield f"        {access.text}{where}:"
            yield from ("            " + line for line in (source.shortened() if shorten else source).words())


def main(given: Sequence[str]) -> int:
    parser = argparse.ArgumentParser(prog="examples/dependences", description=__doc__, formatter_class=argparse.RawDescriptionHelpFormatter)
    parser.add_argument("--program", default="./pip", help="the program, ./pip where none is named")
    parser.add_argument("--only", default="", metavar="NAME", help="the function of this name")
    parser.add_argument("--shorten", action="store_true")
    parser.add_argument("file", type=pathlib.Path)
    chosen = parser.parse_args(given)
    try:
        functions = [function for function in read(chosen.file.read_text()) if chosen.only in ("", function.name)]
        if not functions:
            raise ValueError(f"{chosen.file} has no function" + (f" {chosen.only}" if chosen.only else ""))
        with Solver(chosen.program, simplify=True) as solver:
            for function in functions:
                for line in described(Kernel(function), solver, chosen.shorten):
                    print(line, flush=True)
    except (OSError, ValueError, RecursionError, Refused) as error:
        if not isinstance(error, BrokenPipeError):  # (there who reads has read enough)
            print(f"examples/dependences: {error}", file=sys.stderr)
        os.dup2(os.open(os.devnull, os.O_WRONLY), 1)
        return 1
    return 0


if __name__ == "__main__":
    sys.exit(main(sys.argv[1:]))
