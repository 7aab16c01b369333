"""A client of `pip`, parametric integer programming: poses problems with named unknowns and parameters, and reads the answers.
Standard library alone.

    from lexmin import Problem, Solver

    problem = Problem("the last turn of tile T, tiles of 4 turns, N turns in all")
    N, T = problem.parameters("N", "T")
    i = problem.greatest("i", high=N - 1)
    problem.where(i >= 4 * T, i <= 4 * T + 3)
    problem.context(N >= 1)
    with Solver("./pip") as solver:
        answer = solver.solve(problem)
        print(answer)                        # the tree, with the names
        print(answer.value(N=10, T=2))       # {'i': 9}
        print(answer.value(N=10, T=3))       # None: there is no such turn

What a problem says
    Names stand for whole numbers (in the rational mode unknowns stand for fractions). Arithmetic on them gives affine
    forms, and `<=`, `<`, `>=`, `>`, `==` between forms give relations. `form // 4` and `form % 4` are the floor and the
    remainder by a whole number, negative forms included. `congruent(a, b, 3)` says that a - b is a multiple of 3.
    `a != b` and `0 <= i < N` are errors: the first is two problems, and Python would keep only half of the second.

    The answer is the lexicographically first point in the order in which the unknowns were named: of `least` and
    `unknowns` the least one, of `greatest` the greatest. Every unknown and every parameter is at least 0 unless `low`
    says otherwise. `low` and `high` are relations of the problem like any other: a point beyond them is no point. So a
    `high` that isn't a true bound makes the answer that of a smaller problem, and nothing says so.

What is sent
    The program knows least points of unknowns from 0 on alone. So `greatest` sends high - x, together with the row that
    keeps x from going below `low`; a low of L sends x - L; a floor, a remainder or a congruence sends a further
    unknown behind the others. Answers are valued and printed in the names that the problem was made with.

What answers are good for
    `value`, `eval`, `restrict`, `simplify`, `same`, `difference`, `least`, `pieces` and `put` are methods of an answer,
    `first_of` and `last_of` of a Solver put several together. All of them go by the names and the context of the problem. What a
    piece says, `relations()`, goes into other problems.
    `is_total` and `is_empty` say whether there are points everywhere, or nowhere.

    `shorten` gives an answer with fewer leaves, which the program's `same` has compared with the given one. `Solver(prepare=True)`
    takes equalities out of problems first; the `checked` of such an answer says whether the program's `check` accepted it.
    `lexmin.notation` reads and writes isl's notation, `lexmin.sources` writes answers as functions in Python and in C.

The commands `draw` and `source` make pictures and functions of answers, `explain` says in words what a text asks, `shorten` and
`isl` ask the program: `python -m lexmin --help`.
"""
from .answers import Answer, AnswerBySigns, OutsideContext, Piece
from .forms import Floor, Form, Relation, as_form, congruent
from .problems import Posed, Problem, Range, Space
from .processes import Refused, TimedOut
from .refutations import NotCertified
from .solver import Solver
from .texts import Fault
from .trees import (
    Bottom, Choice, NewParameter, Point, Tree, Void, answer_text, groups, parse_answer, parse_pieces, value_at)

__version__ = "1.0.0"

__all__ = [
    "Answer", "AnswerBySigns", "Bottom", "Choice", "Fault", "Floor", "Form", "NewParameter", "NotCertified", "OutsideContext", "Piece",
    "Point", "Posed", "Problem", "Range", "Refused", "Relation", "Solver", "Space", "TimedOut", "Tree", "Void", "answer_text", "as_form",
    "congruent", "groups", "parse_answer", "parse_pieces", "value_at"]
