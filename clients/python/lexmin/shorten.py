"""Shorter trees of the same values: a choice of which one side is right on both sides is taken out.

Whether a side is right is asked of a process that is kept: a point at which the two differ is the answer to a problem of
`solve` without parameters, and there is none where they have the same values. Points that were found are tried before
anything is asked. All this is advice: what is handed on is compared with the given answer by the program's `same`.
"""
from __future__ import annotations

import math
import numbers
import sys
import time
from dataclasses import dataclass
from fractions import Fraction
from typing import Callable, List, Optional, Sequence, Tuple, Union

from .forms import row_text, whole_number
from .texts import MOST_ROWS, MOST_UNKNOWNS
from .trees import Bottom, Choice, NewParameter, Point, Row, Tree, Void, value_at

Vector = Tuple[int, ...]  # a form over the columns of a region: its constant, then the columns' numbers
Value = Union[Bottom, Void, Tuple[Union[int, Fraction], ...]]
# Asks whether there is a point: gives the text of a problem and the seconds that are left, gets the point, none where there
# is no point, or False where the program does not say.
Ask = Callable[[str, Optional[float]], Union[Tuple[int, ...], None, bool]]

QUESTIONS, SECONDS = 5_000, 10.0  # the limits of an answer where none are given


@dataclass(frozen=True)
class Region:
    """Rows over columns, each from 0 on; and the parameters and new parameters in scope, as forms over the columns."""

    rows: Tuple[Vector, ...]
    columns: int
    scope: Tuple[Vector, ...]

    def vector(self, row: Row) -> Vector:
        """A row of a tree, of whole numbers, as a form over the columns."""
        total = [0] * (self.columns + 1)
        total[0] = int(row[-1])
        for number, own in zip(row, self.scope):
            if number:
                for place, entry in enumerate(own):
                    total[place] += int(number) * entry
        return tuple(total)

    def where(self, form: Vector) -> Region:
        return Region((*self.rows, form), self.columns, self.scope)

    def split(self, node: Choice) -> Tuple[Region, Region]:
        """Where the node's form is at least 0, and where it is not."""
        form = self.vector(node.form)
        return self.where(form), self.where((-1 - form[0], *(-entry for entry in form[1:])))

    def below(self, node: NewParameter) -> Region:
        """With the node's new parameter. What is whole of it stands beside a further column, which is from 0 on."""
        form, divisor = self.vector(node.form), node.divisor
        left = [entry % divisor for entry in form]
        taken = [entry // divisor for entry in form]
        own = (*taken, *([0] * (self.columns + 1 - len(taken))), 1)
        rest = (*left, -divisor)
        beyond = (divisor - 1 - left[0], *(-entry for entry in left[1:]), divisor)
        return Region((*self.rows, rest, beyond), self.columns + 1, (*self.scope, own))

    def column_value(self, columns: Sequence[int]) -> int:
        """The value of the last column, made by `below`, from those before it."""
        row = self.rows[-2]
        return value_of(row[:-1], columns) // -row[-1]

    def environment(self, columns: Sequence[int]) -> List[int]:
        """The values of what is in scope."""
        return [value_of(own, columns) for own in self.scope]

    def text(self) -> str:
        """The problem that asks for a point of the region."""
        width = max(self.columns, 1)
        rows = [row_text([*row[1:], *([0] * (width + 1 - len(row))), row[0]]) for row in self.rows]
        return "(() {} 0 {} 0 -1 1 ({}) ())".format(width, len(rows), "\n".join(rows))


def value_of(form: Vector, columns: Sequence[int]) -> int:
    return form[0] + sum(entry * own for entry, own in zip(form[1:], columns))


@dataclass
class _Known:
    """A point of a region, by its columns, and the value there."""

    columns: Tuple[int, ...]
    value: Value


class Shortener:
    """Shortens one tree. When a limit is reached it goes on without questions: what it has made so far is as right as before."""

    def __init__(self, ask: Ask, questions: Optional[int] = QUESTIONS, seconds: Optional[float] = SECONDS) -> None:
        if questions is not None:
            whole_number(questions, "the questions of an answer are a whole number, or None")
        if seconds is not None and (not isinstance(seconds, numbers.Real) or isinstance(seconds, bool)):
            raise TypeError(f"the seconds of an answer are a number, or None, not {seconds!r}")
        if seconds is not None and seconds != seconds:
            raise ValueError("the seconds of an answer are a number")
        self._ask, self._most = ask, questions
        self._end = None if seconds is None or seconds > sys.float_info.max else time.monotonic() + max(0, seconds)
        self.asked = 0

    def tree(self, context: Sequence[Vector], count: int, tree: Tree) -> Tree:
        """The tree over so many parameters, made shorter under the rows of a context."""
        scope = tuple((0,) * (place + 1) + (1,) for place in range(count))
        return without_unused(self._shorter(tree, Region(tuple(context), count, scope), []))

    def ended(self) -> bool:
        """Whether a limit is reached."""
        return (self._most is not None and self.asked >= self._most) or (self._end is not None and time.monotonic() >= self._end)

    def _point(self, region: Region) -> Union[Tuple[int, ...], None, bool]:
        """A point of the region; none where it has none, False where that isn't known."""
        if self.ended() or region.columns > MOST_UNKNOWNS or len(region.rows) > MOST_ROWS:
            return False
        for row in region.rows:
            if row[0] < 0 and all(entry <= 0 for entry in row[1:]):
                return None
        self.asked += 1
        return self._ask(region.text(), None if self._end is None else max(0.001, self._end - time.monotonic()))

    def _shorter(self, tree: Tree, region: Region, points: List[_Known]) -> Tree:
        """The tree made shorter in the region. Points that are found on the way are added to those that are given."""
        if isinstance(tree, NewParameter):
            inner = region.below(tree)
            own = [_Known((*it.columns, inner.column_value(it.columns)), it.value) for it in points]
            below = self._shorter(tree.below, inner, own)
            _add(points, own[len(points):], region)
            return NewParameter(tree.number, tree.form, tree.divisor, below)
        if not isinstance(tree, Choice) or self.ended():
            return tree
        parts = region.split(tree)
        sides: Tuple[List[_Known], List[_Known]] = ([], [])
        form = parts[0].rows[-1]
        for it in points:
            sides[value_of(form, it.columns) < 0].append(it)
        trees = (tree.yes, tree.no)
        for side in (0, 1):
            if not sides[side]:
                found = self._point(parts[side])
                if found is None:
                    return self._shorter(trees[1 - side], region, points)
                if isinstance(found, tuple):
                    self._new(found, trees[side], parts[side], (sides[side], points))
        one = self._one(trees, parts, sides, points)
        if one is not None:
            return self._shorter(one, region, points)
        shorter = []
        for side in (0, 1):
            held = len(sides[side])
            shorter.append(self._shorter(trees[side], parts[side], sides[side]))
            _add(points, sides[side][held:], region)
        made = (shorter[0], shorter[1])
        one = None if made == trees else self._one(made, parts, sides, points)
        return Choice(tree.form, *made) if one is None else one

    def _one(self, trees: Tuple[Tree, Tree], parts: Tuple[Region, Region], sides: Tuple[List[_Known], List[_Known]],
             points: List[_Known]) -> Optional[Tree]:
        """The side that is right on both; none where neither is."""
        for side in (0, 1):
            own, other = trees[side], trees[1 - side]
            if self._agrees(other, parts[side], sides[side]):
                found = self._differ(parts[side], own, parts[side], other)
                if found is None:
                    return other
                if isinstance(found, tuple):
                    self._new(found, own, parts[side], (sides[side], points))
        return None

    def _agrees(self, tree: Tree, region: Region, points: Sequence[_Known]) -> bool:
        """Whether the tree has the known values at the known points."""
        return all(value_at(tree, region.environment(it.columns)) == it.value for it in points)

    def _new(self, found: Tuple[int, ...], tree: Tree, region: Region, known: Sequence[List[_Known]]) -> None:
        """Adds a point, at which the tree is right, to what is known. The columns of a problem behind the region's are left out."""
        columns = found[:region.columns]
        it = _Known(columns, value_at(tree, region.environment(columns)))
        for points in known:
            points.append(it)

    def _differ(self, first_region: Region, first: Tree, second_region: Region, second: Tree) -> Union[Tuple[int, ...], None, bool]:
        """A point at which two trees differ; none where they have the same values, False where that isn't known. The regions
        have the same rows and columns, and each the scope of its tree."""
        if first is second and first_region.scope == second_region.scope:
            return None
        if isinstance(first, Choice):
            for part, below in zip(first_region.split(first), (first.yes, first.no)):
                found = self._differ(part, below, second_region.where(part.rows[-1]), second)
                if found is not None:
                    return found
            return None
        if isinstance(first, NewParameter):
            inner = first_region.below(first)
            return self._differ(inner, first.below, Region(inner.rows, inner.columns, second_region.scope), second)
        if isinstance(second, (Choice, NewParameter)):
            point = self._point(first_region) if isinstance(second, Choice) else True
            if point is None:
                return None
            # The second tree is gone down in the first one's place; the leaf stays as it is.
            return self._differ(second_region, second, first_region, first)
        return self._leaves_differ(first_region, first, second_region, second)

    def _leaves_differ(self, first_region: Region, first: Tree, second_region: Region, second: Tree) -> Union[Tuple[int, ...], None, bool]:
        if not isinstance(first, Point) or not isinstance(second, Point):
            return None if type(first) is type(second) else self._point(first_region)
        if len(first.components) != len(second.components):
            return self._point(first_region)
        for own, other in zip(first.components, second.components):
            common = math.lcm(*(Fraction(number).denominator for number in (*own, *other)))
            forms = [region.vector(tuple(int(number * common) for number in row))
                     for region, row in ((first_region, own), (second_region, other))]
            over = tuple(a - b for a, b in zip(*forms))
            if not any(over):
                continue
            for sign in (1, -1):
                found = self._point(first_region.where((sign * over[0] - 1, *(sign * entry for entry in over[1:]))))
                if found is not None:
                    return found
        return None


def _add(points: List[_Known], more: Sequence[_Known], region: Region) -> None:
    points += [_Known(it.columns[:region.columns], it.value) for it in more]


def without_unused(tree: Tree) -> Tree:
    """The tree without new parameters that nothing uses; those behind them are numbered anew."""
    if isinstance(tree, Choice):
        return Choice(tree.form, without_unused(tree.yes), without_unused(tree.no))
    if not isinstance(tree, NewParameter):
        return tree
    below = without_unused(tree.below)
    if _uses(below, tree.number):
        return NewParameter(tree.number, tree.form, tree.divisor, below)
    return _renumbered(below, tree.number)


def _uses(tree: Tree, number: int) -> bool:
    if isinstance(tree, Choice):
        return tree.form[number] != 0 or _uses(tree.yes, number) or _uses(tree.no, number)
    if isinstance(tree, NewParameter):
        return tree.form[number] != 0 or _uses(tree.below, number)
    return isinstance(tree, Point) and any(row[number] != 0 for row in tree.components)


def _renumbered(tree: Tree, number: int) -> Tree:
    """The tree without a new parameter's coefficient."""
    def row(own: Row) -> Row:
        return own[:number] + own[number + 1:]

    if isinstance(tree, Choice):
        return Choice(row(tree.form), _renumbered(tree.yes, number), _renumbered(tree.no, number))
    if isinstance(tree, NewParameter):
        return NewParameter(tree.number - 1, row(tree.form), tree.divisor, _renumbered(tree.below, number))
    return Point(tuple(map(row, tree.components))) if isinstance(tree, Point) else tree
