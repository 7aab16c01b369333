"""The commands that ask the program: `lexmin shorten` and `lexmin isl`."""
from __future__ import annotations

import argparse
import io
import pathlib
import sys
from typing import Dict, List, Sequence

from . import notation
from .answers import Answer
from .explain import position
from .forms import Column, Form, Relation
from .problems import Range, Space
from .processes import Refused
from .shorten import QUESTIONS, SECONDS
from .solver import Solver, standing
from .texts import Fault, ReadProblem, if_matrices, native
from .trees import as_text, groups

SHORTEN = """Solves the problems of a text, and writes their answers with fewer leaves.

    lexmin shorten [--program FILE] [--timeout SECONDS] [--questions N] [--seconds S] [FILE]

A choice of which one side is right on both is taken out. What is written `same` has compared with the program's own answer,
under the problem's context; where it did not say `same`, the program's own answer is written. --questions and --seconds are
the limits of making an answer shorter, --timeout is that of solving it, and of `same`. A problem that is refused or late is named on
standard error, the others go on, and the status is then 1.
"""
ISL = """Writes the lexmin of a set or a map in isl's notation, or its lexmax.

    lexmin isl [--program FILE] [--timeout SECONDS] [--greatest] [--context CONSTRAINTS] [--low NAME=NUMBER] [--shorten] SET

    $ lexmin isl --greatest '[N] -> { [i] : 0 <= i < N and i mod 4 = 1 }'

Parameters are from 0 on, or from what --low says.
"""
MATRICES = "of which `solve --polylib` writes the answer; native problems are read here"


def space_of(problem: ReadProblem) -> Space:
    """What the answer to a native problem is about, with names for its places: p0, p1, .. and x0, x1, .."""
    names = [f"p{place}" for place in range(problem.parameters)]
    context: List[Relation] = []
    for row in problem.context:
        context.append(sum((Form({name: number}) for name, number in zip(names, row)), Form()) + row[-1] >= 0)
    points = {f"x{place}": Form({Column(False, place): 1}) for place in range(problem.unknowns)}
    return Space(problem.comment, {name: Range(0) for name in names}, context, points)


def words_of(error: Exception, program: str) -> str:
    """What an error says; of a program that is not there also how another one is named."""
    is_missing = isinstance(error, FileNotFoundError) and error.filename == standing(program)
    return f"{error}; --program names the program" if is_missing else str(error)


def shorten(words: Sequence[str]) -> int:
    parser = argparse.ArgumentParser(prog="lexmin shorten", description=SHORTEN, formatter_class=argparse.RawDescriptionHelpFormatter)
    parser.add_argument("--program", default="./pip", help="the program, ./pip where none is named")
    parser.add_argument("--timeout", type=float, metavar="SECONDS", help="how long a problem may take; none without it")
    parser.add_argument("--questions", type=int, default=QUESTIONS, metavar="N", help=f"{QUESTIONS:,} where not given")
    parser.add_argument("--seconds", type=float, default=SECONDS, metavar="S", help=f"{SECONDS:g} where not given")
    parser.add_argument("file", nargs="?", type=pathlib.Path, help="the problems; standard input where none is named")
    chosen = parser.parse_args(words)
    status, data = 0, b""
    if isinstance(sys.stdout, io.TextIOWrapper):  # comments stay as they are, byte for byte
        sys.stdout.reconfigure(encoding="utf-8", errors="surrogateescape")
    try:
        data = chosen.file.read_bytes() if chosen.file else sys.stdin.buffer.read()
        problems = list(native(data))
        if not problems:
            raise ValueError("no problem in the text" + if_matrices(data, MATRICES))
        with Solver(chosen.program, timeout=chosen.timeout) as solver:
            answers: List[Answer] = []
            for number, text in enumerate(groups(as_text(data))):
                try:
                    answers.append(Answer(space_of(problems[number]), solver.ask(text) + "\n", solver=solver))
                except Refused as refused:
                    print(f"lexmin shorten: problem {number + 1}: {refused.line or refused}", file=sys.stderr)
                    status = 1
            for answer in solver.shorten_all(answers, questions=chosen.questions, seconds=chosen.seconds):
                print(answer.text, end="")
    except Fault as fault:
        print(f"lexmin shorten: {position(data, fault.place)}: {fault.words}{if_matrices(data, MATRICES)}", file=sys.stderr)
        return 1
    except BrokenPipeError:
        raise
    except (OSError, ValueError) as error:
        print(f"lexmin shorten: {words_of(error, chosen.program)}", file=sys.stderr)
        return 1
    return status


def isl(words: Sequence[str]) -> int:
    parser = argparse.ArgumentParser(prog="lexmin isl", description=ISL, formatter_class=argparse.RawDescriptionHelpFormatter)
    parser.add_argument("--program", default="./pip", help="the program, ./pip where none is named")
    parser.add_argument("--timeout", type=float, metavar="SECONDS", help="how long a part of the set may take; none without it")
    parser.add_argument("--greatest", action="store_true", help="the lexmax")
    parser.add_argument("--context", default="", help="what is known of the parameters, as 'N >= 5'")
    parser.add_argument("--low", action="append", default=[], metavar="NAME=NUMBER", help="from where on a parameter or an unknown is")
    parser.add_argument("--shorten", action="store_true", help="with fewer pieces")
    parser.add_argument("set", metavar="SET")
    chosen = parser.parse_args(words)
    low: Dict[str, int] = {}
    for word in chosen.low:
        name, _, number = word.partition("=")
        try:
            low[name.strip()] = int(number)
        except ValueError:
            parser.error(f"--low {word}: NAME=NUMBER is wanted")
    try:
        with Solver(chosen.program, timeout=chosen.timeout) as solver:
            answer = notation.solved(solver, chosen.set, greatest=chosen.greatest, low=low, context=chosen.context)
            print(notation.written(answer.shorten() if chosen.shorten else answer))
    except BrokenPipeError:
        raise
    except (OSError, ValueError, Refused) as error:
        print(f"lexmin isl: {words_of(error, chosen.program)}", file=sys.stderr)
        return 1
    return 0
