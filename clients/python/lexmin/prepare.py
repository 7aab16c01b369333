"""Problems made smaller before `solve`, and their answers put back.

Equalities with a coefficient 1 or -1 are taken out, and those that two rows imply when they are divided by what is common
to their coefficients and rounded. What is put back is a tree over the given parameters with the given unknowns' components.
Nothing here is trusted: `refutations` makes a certificate of the answer that is put back, and the program's `check` reads it.
"""
from __future__ import annotations

import math
from dataclasses import dataclass
from typing import Dict, Iterator, List, Optional, Sequence, Tuple

from .forms import Number, plain, row_text
from .texts import ReadProblem
from .trees import Choice, NewParameter, Point, Row, Tree

Vector = Tuple[int, ...]  # the unknowns, the parameters, the constant; of a context the parameters, the constant
MOST_COMBINED = 64  # rows that are combined two by two
MOST_IMPLIED = 100  # equalities that are found so


def tightened(row: Sequence[int]) -> Vector:
    """A row of whole numbers divided by what is common to its coefficients, the constant rounded down."""
    common = math.gcd(*row[:-1])
    return tuple(row) if common < 2 else (*(entry // common for entry in row[:-1]), row[-1] // common)


def dominates(one: Sequence[int], other: Sequence[int]) -> bool:
    """Whether `other` is at least 0 wherever `one` and all columns are."""
    return all(b >= a for a, b in zip(one, other))


def negated(row: Sequence[int]) -> Vector:
    return tuple(-entry for entry in row)


def reduced(rows: Sequence[Vector]) -> List[Vector]:
    """The rows without those that say nothing beyond another one and the signs."""
    held: List[Vector] = []
    for row in dict.fromkeys(rows):
        if any(entry < 0 for entry in row) and not any(dominates(other, row) for other in held):
            held = [other for other in held if not dominates(row, other)] + [row]
    return held


def equalities(rows: Sequence[Vector]) -> Iterator[Vector]:
    """The rows whose opposites are rows too, each pair once."""
    held = set(rows)
    for row in rows:
        if negated(row) in held and any(row[:-1]):
            held.discard(row)
            yield row


def combined(rows: Sequence[Vector], places: int) -> Iterator[Tuple[Vector, int, int, int, int]]:
    """Two rows put together so that one of the first columns goes, where the sum can be divided: the row that comes of it,
    and the places and multipliers of the two."""
    for first, one in enumerate(rows):
        for second, other in enumerate(rows):
            for place in range(places):
                if one[place] <= 0 or other[place] >= 0:
                    continue
                common = math.gcd(one[place], other[place])
                by, other_by = -other[place] // common, one[place] // common
                total = [a * by + b * other_by for a, b in zip(one, other)]
                if math.gcd(*total[:-1]) > 1:
                    yield tightened(total), first, by, second, other_by


@dataclass
class _Taken:
    """An unknown that was taken out: it is this form over the unknowns that were left then, the parameters and 1."""

    unknown: int
    form: Dict[int, int]  # by column of the given problem


class Prepared:
    """A problem with what it takes to put its answer back. `text` is None where nothing was found to be taken out."""

    def __init__(self, problem: ReadProblem) -> None:
        self.given = problem
        self.order = list(range(problem.unknowns))  # the unknowns that are left, in the order in which the least is asked for
        self._taken: List[_Taken] = []
        self._rows = [tuple(row) for row in problem.rows]
        self._context = [tuple(row) for row in problem.context]
        self._gone: List[int] = []  # parameters
        if problem.integer:
            self._context = list(map(tightened, self._context))
            self._take_parameters()
            self._rows = list(map(tightened, self._rows))
        implied = 0
        while self._take_unknown() or (implied < MOST_IMPLIED and self._imply()):
            implied += 1
        self._rows, self._context = reduced(self._rows), reduced(self._context)
        self._take_unused()
        self.parameters = [place for place in range(problem.parameters) if place not in self._gone]
        self.changed = len(self._taken) + len(self._gone) > 0 or len(self._rows) < len(problem.rows)
        self.text = self._text() if self.changed and self.order else None

    # What is taken out.

    def _take_parameters(self) -> None:
        """Parameters that an equality of the context gives, their signs as further rows of the context."""
        while True:
            found = next(((row, place) for row in equalities(self._context) for place in range(self.given.parameters)
                          if abs(row[place]) == 1), None)
            if found is None:
                return
            row, place = found
            form = tuple(-entry * row[place] for entry in row)  # the parameter is this form without itself
            form = (*form[:place], 0, *form[place + 1:])
            self._gone.append(place)
            unknowns = self.given.unknowns
            self._rows = [self._put(own, unknowns + place, (*([0] * unknowns), *form)) for own in self._rows]
            self._context = _without_zeros([*(tightened(self._put(own, place, form)) for own in self._context), form])

    def _put(self, row: Vector, place: int, form: Vector) -> Vector:
        number = row[place]
        return tuple(own * (index != place) + number * entry for index, (own, entry) in enumerate(zip(row, form)))

    def _take_unknown(self) -> bool:
        """Takes out an unknown that an equality gives, where the order of the others then says the same."""
        if len(self.order) == 1:
            return False
        signs = [tuple(int(place == unknown) for place in range(len(self._rows[0]))) for unknown in self.order if self._rows]
        for row in equalities([*self._rows, *signs]):
            used = [unknown for unknown in self.order if row[unknown]]
            if used and self._take_by(row, used):
                return True
        return False

    def _take_by(self, row: Vector, used: List[int]) -> bool:
        if abs(row[used[-1]]) == 1:
            unknown = used[-1]
            self.order.remove(unknown)
        elif len(used) > 1 and abs(row[used[-2]]) == 1 and row[used[-1]] * row[used[-2]] < 0:
            unknown, behind = used[-2], used[-1]  # the greater the one, the greater the other: it comes in its place
            self.order.remove(behind)
            self.order[self.order.index(unknown)] = behind
        else:
            return False
        form = tuple(-entry * row[unknown] if place != unknown else 0 for place, entry in enumerate(row))
        self._taken.append(_Taken(unknown, {place: entry for place, entry in enumerate(form) if entry}))
        put = (self._put(own, unknown, form) for own in self._rows)
        self._rows = _without_zeros([*(map(tightened, put) if self.given.integer else put), form])
        return True

    def _imply(self) -> bool:
        """Adds the two rows of an equality that the others imply, if there is one more."""
        if not self.given.integer or len(self._rows) > MOST_COMBINED:
            return False
        held = {row[:-1]: row[-1] for row in sorted(self._rows, reverse=True)}
        opposite = set(self._rows)
        places = self.given.unknowns + self.given.parameters
        for row, *_ in combined(self._rows, places):
            if held.get(row[:-1], row[-1] + 1) > row[-1]:
                held[row[:-1]] = row[-1]
            own, other = (*row[:-1], held[row[:-1]]), held.get(negated(row)[:-1])
            if other is not None and own[-1] + other == 0 and not {own, negated(own)} <= opposite:
                self._rows = [*dict.fromkeys([*self._rows, own, negated(own)])]
                return True
        return False

    def _take_unused(self) -> None:
        """Parameters that no row has."""
        unknowns = self.given.unknowns
        for place in range(self.given.parameters):
            used = any(row[unknowns + place] for row in self._rows) or any(row[place] for row in self._context)
            if not used and place not in self._gone:
                self._gone.append(place)

    def _text(self) -> str:
        unknowns = self.given.unknowns
        rows = [row_text([*(row[place] for place in self.order), row[-1], *(row[unknowns + place] for place in self.parameters)])
                for row in self._rows]
        context = [row_text([*(row[place] for place in self.parameters), row[-1]]) for row in self._context]
        sizes = f"{len(self.order)} {len(self.parameters)} {len(rows)} {len(context)} -1 {int(self.given.integer)}"
        return "(({}) {}\n({})\n({}))\n".format(self.given.comment, sizes, "\n".join(rows), "\n".join(context))

    # What is put back.

    def put_back(self, tree: Tree) -> Tree:
        """The tree over the given parameters, with a component for each of the given unknowns."""
        if isinstance(tree, Choice):
            return Choice(self._wider(tree.form), self.put_back(tree.yes), self.put_back(tree.no))
        if isinstance(tree, NewParameter):
            number = tree.number + self.given.parameters - len(self.parameters)
            return NewParameter(number, self._wider(tree.form), tree.divisor, self.put_back(tree.below))
        if not isinstance(tree, Point):
            return tree
        found: Dict[int, Row] = {unknown: self._wider(row) for unknown, row in zip(self.order, tree.components)}
        width = len(next(iter(found.values())))
        for taken in reversed(self._taken):
            found[taken.unknown] = self._component(taken, found, width)
        return Point(tuple(found[unknown] for unknown in range(self.given.unknowns)))

    def _wider(self, row: Row) -> Row:
        """A row of a tree with 0 for the parameters that went."""
        own = iter(row)
        front: List[Number] = [0 if place in self._gone else next(own) for place in range(self.given.parameters)]
        return (*front, *own)

    def _component(self, taken: _Taken, found: Dict[int, Row], width: int) -> Row:
        total: List[Number] = [0] * width
        for place, number in taken.form.items():
            if place < self.given.unknowns:
                total = [a + number * b for a, b in zip(total, found[place])]
            elif place < self.given.unknowns + self.given.parameters:
                total[place - self.given.unknowns] += number
            else:
                total[-1] += number
        return tuple(map(plain, total))


def _without_zeros(rows: Sequence[Vector]) -> List[Vector]:
    """The rows, each once, without those of nothing that hold."""
    return [row for row in dict.fromkeys(rows) if any(row[:-1]) or row[-1] < 0]


def prepared(problem: ReadProblem) -> Optional[Prepared]:
    """The problem made smaller; none where there is nothing to take out."""
    found = Prepared(problem)
    return found if found.text is not None else None
