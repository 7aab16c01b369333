"""Certificates of answers that `solve` did not make itself: of those that were put back behind a preparation.

Each refutation of a certificate says that some forms are nowhere all at least 0. That is a problem without parameters, whose
answer is that there is no point, and `solve --certificate` gives the steps. Here such a problem is first made smaller, each
of its rows by a step, so that these steps and the program's own make one refutation. `check` reads what comes of it.
"""
from __future__ import annotations

from dataclasses import dataclass
from typing import Dict, Iterator, List, Optional, Sequence, Tuple

from .forms import row_text
from .prepare import Vector, combined, dominates, equalities, negated, tightened
from .texts import MOST_UNKNOWNS, ReadProblem
from .trees import Choice, NewParameter, Point, Row, Tree, Void

Step = Tuple[int, Tuple[Tuple[int, int], ...]]  # the divisor, and the terms: an index and a multiplier each
MOST_COMBINED, MOST_IMPLIED = 48, 100


class NotCertified(Exception):
    """Why a certificate can't be made."""


class System:
    """Forms over columns that are from 0 on, with their indices among a refutation's known forms, made smaller by steps."""

    def __init__(self, columns: int, known: Sequence[Vector]) -> None:
        self.columns, self.known = columns, list(known)
        self.steps: List[Step] = []
        self.signs: Dict[int, int] = {}  # of a column that is left the index of the form that says it is from 0 on
        self.rows: Dict[Vector, int] = {}  # the rows, and their indices
        self.false: Optional[int] = None  # the index of a form that is below 0 everywhere

    def add(self, index: int) -> None:
        """Takes a known form as a sign where it is a column, else as a row."""
        form = self.known[index]
        used = [place for place, entry in enumerate(form[:-1]) if entry]
        if not used and form[-1] < 0:
            self.false = index if self.false is None else self.false
        elif len(used) == 1 and form[used[0]] == 1 and form[-1] == 0:
            self.signs.setdefault(used[0], index)
        elif used:
            self.rows.setdefault(form, index)

    def step(self, *terms: Tuple[int, int]) -> int:
        """The index of the sum of multiples of known forms, divided by what is common to it."""
        total = [sum(by * self.known[index][place] for index, by in terms) for place in range(self.columns + 1)]
        made = tightened(total)
        divisor = next((entry // own for entry, own in zip(total[:-1], made[:-1]) if own), 1)
        self.steps.append((divisor, tuple(terms)))
        self.known.append(made)
        return len(self.known) - 1

    def smaller(self) -> None:
        """Takes out columns that equalities give, and those that are implied."""
        for form, index in list(self.rows.items()):
            if tightened(form) != form:
                del self.rows[form]
                self.add(self.step((index, 1)))
        implied = 0
        while self.false is None and (self._take() or (implied < MOST_IMPLIED and self._imply())):
            implied += 1
        for form in list(self.rows):
            if any(other != form and dominates(other, form) for other in self.rows):
                del self.rows[form]

    def _take(self) -> bool:
        held = {**self.rows, **{self.known[index]: index for index in self.signs.values()}}
        for row in equalities(list(held)):
            place = next((place for place, entry in enumerate(row[:-1]) if abs(entry) == 1 and place in self.signs), None)
            if place is None:
                continue
            pair = {row[place]: held[row], -row[place]: held[negated(row)]}
            old = {form: index for form, index in self.rows.items() if form != row and form != negated(row)}
            self.rows = {}
            for form, index in [*old.items(), (self.known[self.signs[place]], self.signs.pop(place))]:
                number = form[place]
                if number == 0:
                    self.rows.setdefault(form, index)
                else:
                    self.add(self.step((index, 1), (pair[-1 if number > 0 else 1], abs(number))))
            return True
        return False

    def _imply(self) -> bool:
        rows = list(self.rows)
        if len(rows) > MOST_COMBINED:
            return False
        signs = [self.known[index] for index in self.signs.values()]
        best = {form[:-1]: form[-1] for form in sorted([*signs, *rows], reverse=True)}
        how: Dict[Vector, Tuple[Tuple[int, int], Tuple[int, int]]] = {}
        for made, first, by, second, other_by in combined(rows, self.columns):
            if best.get(made[:-1], made[-1] + 1) <= made[-1]:
                continue
            best[made[:-1]] = made[-1]
            how[made] = ((self.rows[rows[first]], by), (self.rows[rows[second]], other_by))
            opposite = (*negated(made)[:-1], best.get(negated(made)[:-1], 1 - made[-1]))
            if made[-1] + opposite[-1] <= 0:
                both = [self.step(*how[form]) if form in how else self._index(form) for form in (made, opposite)]
                if made[-1] + opposite[-1] < 0:
                    both.append(self.step((both[0], 1), (both[1], 1)))
                for index in both:
                    self.add(index)
                return True
        return False

    def _index(self, form: Vector) -> int:
        return self.rows[form] if form in self.rows else next(index for index in self.signs.values() if self.known[index] == form)

    def text(self) -> str:
        """The problem that asks for a point of what is left."""
        places = list(self.signs)
        rows = [row_text([*(form[place] for place in places), form[-1]]) for form in self.rows]
        if not places or len(places) > MOST_UNKNOWNS:
            raise NotCertified("a refutation has too many columns, or none")
        if any(entry and place not in self.signs for form in self.rows for place, entry in enumerate(form[:-1])):
            raise NotCertified("a new parameter is not known to be from 0 on")
        return "(() {} 0 {} 0 -1 1 ({}) ())".format(len(places), len(rows), "\n".join(rows))

    def with_steps(self, steps: Sequence[Step]) -> List[Step]:
        """All steps, the given ones being of the text's problem."""
        indices = [*self.signs.values(), *self.rows.values()]
        base = len(self.known)
        def moved(index: int) -> int:
            return indices[index] if index < len(indices) else base + index - len(indices)
        return [*self.steps, *((divisor, tuple((moved(index), by) for index, by in terms)) for divisor, terms in steps)]


@dataclass(frozen=True)
class _Leaf:
    leaf: Tree
    path: Tuple[Tuple[Row, int], ...]  # forms of a choice, with 0; of a new parameter its form, with its divisor
    width: int


def _leaves(tree: Tree, path: Tuple[Tuple[Row, int], ...], width: int) -> Iterator[_Leaf]:
    if isinstance(tree, Choice):
        form = tuple(tree.form)
        yield from _leaves(tree.yes, (*path, (form, 0)), width)
        yield from _leaves(tree.no, (*path, ((*(-number for number in form[:-1]), -1 - form[-1]), 0)), width)
    elif isinstance(tree, NewParameter):
        yield from _leaves(tree.below, (*path, (tree.form, tree.divisor)), width + 1)
    else:
        yield _Leaf(tree, path, width)


class Obligations:
    """The refutations that a certificate of an answer needs, each as a system, leaf by leaf."""

    def __init__(self, problem: ReadProblem, tree: Tree) -> None:
        if not problem.integer:
            raise NotCertified("certificates are of integer problems")
        self.problem, self.tree = problem, tree
        self.leaves = [list(self._of(leaf)) for leaf in _leaves(tree, (), problem.parameters)]

    def _of(self, leaf: _Leaf) -> Iterator[System]:
        problem, width = self.problem, leaf.width
        if isinstance(leaf.leaf, Void):
            yield self._system(leaf, False, [])
            return
        if not isinstance(leaf.leaf, Point):
            yield self._system(leaf, True, [])
            return
        point = [tuple(int(number) for number in row) for row in leaf.leaf.components]
        if len(point) != problem.unknowns or any(own != tuple(other) for own, other in zip(point, leaf.leaf.components)):
            raise NotCertified("a point has other components than the problem has whole unknowns")
        for row in problem.rows:
            total = [0] * (width + 1)
            for number, own in zip(row, point):
                total = [a + number * b for a, b in zip(total, own)]
            for place, number in enumerate(row[problem.unknowns:-1]):
                total[place] += number
            total[-1] += row[-1]
            yield self._system(leaf, False, [_below(total, 0)])
        for own in point:
            yield self._system(leaf, False, [_below(own, 0)])
        for place, own in enumerate(point):
            goals = [self._less(point[before], before, 0, width) for before in range(place)]
            yield self._system(leaf, True, [*goals, self._less(own, place, 1, width)])

    def _less(self, own: Sequence[int], place: int, by: int, width: int) -> Vector:
        """That an unknown is at most a form less a number."""
        unknowns = [0] * self.problem.unknowns
        unknowns[place] = -1
        return (*own[:-1], *unknowns, own[-1] - by)

    def _system(self, leaf: _Leaf, with_unknowns: bool, goals: Sequence[Vector]) -> System:
        """The known forms of a refutation, in their order. The columns are the parameters, the new ones and the unknowns."""
        problem, width = self.problem, leaf.width
        count = problem.unknowns if with_unknowns else 0
        columns = width + count

        def wide(form: Sequence[int]) -> Vector:
            return (*form[:-1], *([0] * (columns + 1 - len(form))), form[-1])

        def unit(place: int) -> Vector:
            return (*(int(place == own) for own in range(columns)), 0)

        known = [unit(place) for place in range(problem.parameters)] + [wide(row) for row in problem.context]
        quotients: List[Tuple[int, List[int]]] = []
        for row, divisor in leaf.path:
            form = [int(number) for number in row]
            if divisor == 0:
                known.append(wide(form))
                continue
            quotients.append((len(known) + 1, form))
            known.append(wide([*form[:-1], -divisor, form[-1]]))
            known.append(wide([*(-number for number in form[:-1]), divisor, divisor - 1 - form[-1]]))
        if with_unknowns:
            known += [unit(width + place) for place in range(count)]
            for own in problem.rows:
                known.append((*own[count:-1], *([0] * (width - problem.parameters)), *own[:count], own[-1]))
        system = System(columns, [*known, *map(wide, goals)])
        for index in range(len(system.known)):
            system.add(index)
        if system.false is None:
            for index, taken in quotients:
                _sign(system, index, taken)
            system.smaller()
        return system

    # The certificate.

    def questions(self) -> List[str]:
        """The problems that are to be found without a point, in order."""
        return [system.text() for leaf in self.leaves for system in leaf if system.false is None]

    def certificate(self, vector: Optional[Sequence[int]], found: Sequence[Sequence[Step]]) -> str:
        """The text of the certificate, from the steps that were found for the questions."""
        answers = iter(found)
        proofs = []
        for leaf in self.leaves:
            refutations = []
            for system in leaf:
                if system.false is None:
                    steps = system.with_steps(next(answers))
                else:
                    steps = [*system.steps, (1, ((system.false, 1),))]
                refutations.append("({})\n".format(" ".join(map(_step_text, steps))))
            proofs.append("(\n{})\n".format("".join(refutations)))
        head = "void" if vector is None else row_text(vector)
        return "(certificate 1 {}\n{})".format(head, "".join(proofs))

    def context_question(self) -> str:
        """The problem that asks for parameters of the context."""
        rows = "\n".join(map(row_text, self.problem.context))
        return f"(() {self.problem.parameters} 0 {len(self.problem.context)} 0 -1 1 ({rows}) ())"


def _below(form: Sequence[int], bound: int) -> Vector:
    """That a form is below a number."""
    return (*(-number for number in form[:-1]), bound - 1 - form[-1])


def _sign(system: System, index: int, form: Sequence[int]) -> None:
    """Adds that a new parameter is from 0 on, where its form has no number below 0."""
    if any(number < 0 for number in form):
        raise NotCertified("a new parameter's form has a number below 0")
    terms = [(system.signs[place], number) for place, number in enumerate(form[:-1]) if number]
    system.add(system.step((index, 1), *terms))


def _step_text(step: Step) -> str:
    divisor, terms = step
    return "({})".format(" ".join(map(str, [divisor, *(number for term in terms for number in term)])))


def steps_of(certificate: str) -> List[Step]:
    """The steps of the only refutation of a certificate."""
    inner = certificate[certificate.index("]") + 1:].replace("(", " ").split(")")
    numbers = [list(map(int, part.split())) for part in inner if part.strip()]
    return [(row[0], tuple(zip(row[1::2], row[2::2]))) for row in numbers]
