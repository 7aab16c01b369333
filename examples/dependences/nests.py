"""Functions as affine loop nests: each assignment with its loops, the conditions around it, and its place in the text. A condition
that is not affine leaves a doubt: what stands under it may run."""
from __future__ import annotations

import itertools
import operator
from dataclasses import dataclass, replace
from typing import Callable, Dict, Iterator, List, NamedTuple, Optional, Sequence, Tuple, Union

from lexmin import Floor, Form, Relation
from syntax import Assignment, Binary, Block, Call, Element, Expression, Fault, For, Function, If, Name, Number, Unary, assignments, elements, names

Relations = Tuple[Relation, ...]  # that all hold
_RELATIONS: Dict[str, Callable[[Form, Form], Relation]] = {
    "<": operator.lt, "<=": operator.le, ">": operator.gt, ">=": operator.ge, "==": operator.eq}


@dataclass(frozen=True)
class Doubt:
    """That a statement runs only where a condition that is not affine comes out as `outcome`, which it does once in a turn of the
    `depth` loops around it. A loop's bound that is not affine is such a condition for its body. If the loop begins at an affine bound,
    `depth` counts those around it, since before a turn that it makes it has made all earlier ones; else it counts the loop too."""

    condition: int  # its number among those of the function
    outcome: bool
    depth: int

    def contrary(self) -> Doubt:
        return replace(self, outcome=not self.outcome)


@dataclass(frozen=True)
class Case:
    """Relations that all hold, and the doubts that there are then: without one the statement runs."""

    relations: Relations = ()
    doubts: Tuple[Doubt, ...] = ()

    def runs_beside(self, other: Case, level: int) -> bool:
        """Whether it runs where the other one did: in the same turn of the loops outside a level, and no later one at that level."""
        return all(doubt.depth <= level and doubt in other.doubts for doubt in self.doubts)

    def is_contrary(self, other: Case, level: int) -> bool:
        """Whether never both run there."""
        return any(doubt.depth <= level and doubt.contrary() in other.doubts for doubt in self.doubts)


@dataclass(frozen=True, eq=False)
class Loop:
    """A loop over `variable`, upwards where the step is above 0. The variable is at least each of `lows` and at most each of
    `highs`, forms over the sizes and the variables around. There is none where the bound on that side is not affine."""

    variable: str
    lows: Tuple[Form, ...]
    highs: Tuple[Form, ...]
    step: int
    further: Relations = ()  # what else the variable is at least, said without the floors of quotients

    def first(self) -> Form:
        """Where it begins, if it steps by more than 1: then that is one form, and the turns are counted."""
        return (self.lows if self.step > 0 else self.highs)[0]

    def domain(self) -> List[Relation]:
        own = Form({self.variable: 1})
        return [*(own >= low for low in self.lows), *self.further, *(own <= high for high in self.highs)]


@dataclass(frozen=True, eq=False)
class Access:
    """An element that is read or written, its subscripts as forms over the sizes and the loop variables, none where one is not
    affine."""

    array: str
    subscripts: Tuple[Optional[Form], ...]
    text: str

    @property
    def is_affine(self) -> bool:
        return all(form is not None for form in self.subscripts)


@dataclass(frozen=True, eq=False)
class Statement:
    """An assignment, or the condition of an `if` or the bounds of a `for` that read data; these write nothing. `places` says where it
    stands: in the function's body, in that of the outermost loop, and so on. It runs in a turn of its loops where the relations of one
    of `cases` hold, and never do those of two, and where these leave no doubt or it comes out so."""

    number: int
    part: Union[Assignment, If, For]
    loops: Tuple[Loop, ...]
    places: Tuple[int, ...]
    cases: Tuple[Case, ...]
    writes: Optional[Access]
    reads: Tuple[Access, ...]

    @property
    def accesses(self) -> Tuple[Access, ...]:
        return self.reads if self.writes is None else (self.writes, *self.reads)

    @property
    def variables(self) -> List[str]:
        return [loop.variable for loop in self.loops]

    def domain(self, level: int = 0) -> List[Relation]:
        """What its loops say of their variables, from a level on."""
        return [relation for loop in self.loops[level:] for relation in loop.domain()]

    def common(self, other: Statement) -> int:
        """How many loops both stand in."""
        return sum(1 for _ in itertools.takewhile(lambda pair: pair[0] is pair[1], zip(self.loops, other.loops)))

    def is_before(self, other: Statement) -> bool:
        """Whether it runs before the other one in the same turn of all loops that both stand in."""
        return self.places[:self.common(other) + 1] < other.places[:self.common(other) + 1]


class Kernel:
    """A function as its statements, in their order. `known` is what it asserts of its sizes."""

    def __init__(self, function: Function) -> None:
        self.function, self.name, self.sizes = function, function.name, function.sizes
        self.known = [relation for condition, line in function.known for relation in asserted(condition, line)]
        self.statements: List[Statement] = []
        self.doubted = 0
        self._block(function.body, (), (), (Case(),), 0)
        self.depth = max((len(statement.loops) for statement in self.statements), default=0)

    def _block(self, block: Block, loops: Tuple[Loop, ...], around: Tuple[int, ...], held: Tuple[Case, ...], place: int) -> int:
        """Adds the statements of a block, whose first one has this place in its loop; the place behind the last one."""
        for part in block:
            if part.number is not None:
                reading = both(held, [Case(own) for own in reached(part.condition, part.line)]) if isinstance(part, If) else held
                self._add(part.number, part, loops, (*around, place), reading)
                place += 1
            if isinstance(part, If):
                yes, no = self._branches(part, len(loops))
                place = self._block(part.yes, loops, around, both(held, yes), place)
                place = self._block(part.no, loops, around, both(held, no), place)
            elif isinstance(part, For):
                loop, is_sure, depth = loop_of(part)
                inner = held if is_sure else both(held, [Case(doubts=(self._doubt(len(loops) + depth),))])
                self._block(part.body, (*loops, loop), (*around, place), inner, 0)
                place += 1
        return place

    def _add(self, number: int, part: Union[Assignment, If, For], loops: Tuple[Loop, ...], places: Tuple[int, ...], held: Tuple[Case, ...]) -> None:
        writes = access(part.target, part.line) if isinstance(part, Assignment) else None
        reads = tuple(access(element, part.line) for element in part.reads())
        self.statements.append(Statement(number, part, loops, places, held, writes, reads))

    def _branches(self, part: If, depth: int) -> Tuple[List[Case], List[Case]]:
        """The cases of an `if` and of its `else`."""
        found, doubt = outcomes(part.condition, part.line), self._doubt(depth)
        yes = [*map(Case, found.yes), *(Case(held, (doubt,)) for held in found.unknown)]
        no = [*map(Case, found.no), *(Case(held, (doubt.contrary(),)) for held in found.unknown)]
        return yes, no

    def _doubt(self, depth: int) -> Doubt:
        self.doubted += 1
        return Doubt(self.doubted - 1, True, depth)

    def writers(self, array: str) -> List[Statement]:
        return [statement for statement in self.statements if statement.writes is not None and statement.writes.array == array]


def affine(expression: Expression, line: int) -> Form:
    if isinstance(expression, Number) and isinstance(expression.value, int):
        return Form({}, expression.value)
    if isinstance(expression, Name):
        return Form({expression.name: 1})
    if isinstance(expression, Unary) and expression.operator == "-":
        return -affine(expression.operand, line)
    if isinstance(expression, Binary) and expression.operator in ("+", "-", "*"):
        left, right = affine(expression.left, line), affine(expression.right, line)
        if expression.operator != "*":
            return left + right if expression.operator == "+" else left - right
        if not left.terms or not right.terms:
            return right * left.constant if not left.terms else left * right.constant
    if isinstance(expression, Binary) and expression.operator in ("/", "%"):
        left, right = affine(expression.left, line), affine(expression.right, line)
        if not right.terms and right.constant >= 1:
            found = quotient(left, int(right.constant))
            return found if expression.operator == "/" else left - found * right.constant
    raise Fault(line, "this is not affine")


def quotient(form: Form, divisor: int) -> Form:
    """C's quotient: towards 0 of a number; of a form its floor, which is the same where the form is from 0 on (`Analyser` asks)."""
    if form.terms:
        return form // divisor
    return Form({}, abs(form.constant) // divisor * (1 if form.constant >= 0 else -1))


def access(element: Element, line: int) -> Access:
    return Access(element.array, tuple(known_form(own, line) for own in element.subscripts), element.text)


def known_form(expression: Expression, line: int) -> Optional[Form]:
    try:
        return affine(expression, line)
    except Fault:
        return None


def bounds(expression: Expression, word: str, line: int) -> List[Optional[Form]]:
    """The forms of which an expression is the least (`min`) or the greatest (`max`), none for one that is not affine."""
    if isinstance(expression, Call) and expression.function == word:
        return [form for argument in expression.arguments for form in bounds(argument, word, line)]
    return [known_form(expression, line)]


def loop_of(part: For) -> Tuple[Loop, bool, int]:
    """A loop over the turns that it may make; whether it makes them all; and how many loops, from those around it on, have to be in
    the same turn for an outcome of its bounds: one more where it is not known at which turn it begins."""
    is_upwards = part.step > 0
    words = ("max", "min") if is_upwards else ("min", "max")
    first, last = bounds(part.first, words[0], part.line), bounds(part.bound, words[1], part.line)
    begins = [form for form in first if form is not None]
    ends = [form for form in last if form is not None and part.variable not in form.names()]
    counts(part, first)
    stands(part)
    strict = 1 if part.comparison in ("<", ">") else 0
    least, most = (begins, [form - strict for form in ends]) if is_upwards else (ends, begins)
    above = 0 if is_upwards else strict
    quotients, lows = clamped(least)
    further = tuple(from_quotient_on(Form({part.variable: 1}) - above, floor) for floor in quotients)
    loop = Loop(part.variable, tuple(form + above for form in lows), tuple(most), part.step, further)
    return loop, len(begins) == len(first) and len(ends) == len(last), 0 if len(begins) == len(first) else 1


def counts(part: For, first: Sequence[Optional[Form]]) -> None:
    """A Fault where a loop steps by more than 1 and does not begin at one form, from which its turns are counted."""
    step = abs(part.step)
    if step > 1 and len(first) > 1:
        raise Fault(part.line, f"{part.variable} steps by {step} from the {'greatest' if part.step > 0 else 'least'} of several forms")
    if step > 1 and first[0] is None:
        raise Fault(part.line, f"{part.variable} steps by {step} from what is not affine: that is read of steps of 1")


def stands(part: For) -> None:
    """A Fault where what the bound of a loop reads is another value, or another element, from turn to turn."""
    written = {own.target.array for own in assignments(part.body)}
    for element in elements(part.bound):
        if element.array in written:
            raise Fault(part.line, f"the loop over {part.variable} writes {element.array}, which its bound reads: that is not read")
        if Name(part.variable) in names(element):
            raise Fault(part.line, f"the bound of {part.variable} reads {element.text}, another element in each turn: that is not read")


def clamped(forms: Sequence[Form]) -> Tuple[List[Floor], List[Form]]:
    """Of forms of which the greatest is taken the quotients, if a number from 0 on is among the others, and the others: of what is
    below 0 a quotient is not the greatest then, to whichever side it is rounded."""
    if not any(not form.terms and form.constant >= 0 for form in forms):
        return [], list(forms)
    found = [(form, [atom for atom in form.terms if isinstance(atom, Floor) and form.terms == {atom: 1} and form.constant == 0]) for form in forms]
    return [floor for _, own in found for floor in own], [form for form, own in found if not own]


def from_quotient_on(form: Form, quotient: Floor) -> Relation:
    """That a form is at least a floor, without the floor."""
    return form * quotient.divisor >= quotient.form() - (quotient.divisor - 1)


class Outcomes(NamedTuple):
    """The cases in which a condition holds, in which it does not, and in which it may, since a part of it is not affine. In each
    turn the relations of one of them all hold, and never those of two."""

    yes: Tuple[Relations, ...]
    no: Tuple[Relations, ...]
    unknown: Tuple[Relations, ...]

    def negated(self) -> Outcomes:
        return Outcomes(self.no, self.yes, self.unknown)


def outcomes(condition: Expression, line: int) -> Outcomes:
    if isinstance(condition, Unary) and condition.operator == "!":
        return outcomes(condition.operand, line).negated()
    if not isinstance(condition, Binary) or condition.operator not in (*_RELATIONS, "!=", "&&", "||"):
        condition = Binary("!=", condition, Number(0))
    if condition.operator == "&&":
        return conjunction(outcomes(condition.left, line), outcomes(condition.right, line))
    if condition.operator == "||":
        return conjunction(outcomes(condition.left, line).negated(), outcomes(condition.right, line).negated()).negated()
    one, other = known_form(condition.left, line), known_form(condition.right, line)
    if one is None or other is None:
        return Outcomes((), (), ((),))
    relation = _RELATIONS["==" if condition.operator == "!=" else condition.operator](one, other)
    found = Outcomes(((relation,),), tuple((it,) for it in relation.negated()), ())
    return found.negated() if condition.operator == "!=" else found


def reached(condition: Expression, line: int) -> Tuple[Relations, ...]:
    """The cases in which elements of a condition may be read: not where what stands before them, and has none, decides it."""
    if isinstance(condition, Unary) and condition.operator == "!":
        return reached(condition.operand, line)
    if not isinstance(condition, Binary) or condition.operator not in ("&&", "||") or any(elements(condition.left)):
        return ((),)
    left = outcomes(condition.left, line)
    return product((*(left.yes if condition.operator == "&&" else left.no), *left.unknown), reached(condition.right, line))


def conjunction(left: Outcomes, right: Outcomes) -> Outcomes:
    no = (*left.no, *product(left.yes, right.no), *product(left.unknown, right.no))
    unknown = (*product(left.yes, right.unknown), *product(left.unknown, right.yes), *product(left.unknown, right.unknown))
    return Outcomes(product(left.yes, right.yes), no, unknown)


def product(first: Sequence[Relations], second: Sequence[Relations]) -> Tuple[Relations, ...]:
    return tuple(one + other for one in first for other in second)


def both(first: Sequence[Case], second: Sequence[Case]) -> Tuple[Case, ...]:
    return tuple(Case(one.relations + other.relations, one.doubts + other.doubts) for one in first for other in second)


def asserted(condition: Expression, line: int) -> Relations:
    found = outcomes(condition, line)
    if found.unknown:
        raise Fault(line, "what is asserted is not affine")
    if len(found.yes) != 1:
        raise Fault(line, "what is asserted is one conjunction")
    return found.yes[0]


def least_value(form: Form, lows: Dict[str, Optional[int]]) -> Optional[int]:
    """A number that the form is never below, from those of its names; none where these don't tell."""
    total = form.constant
    for name, number in form.terms.items():
        low = least_floor(name, lows) if isinstance(name, Floor) else lows.get(str(name))
        if low is None or number < 0:
            return None
        total += number * low
    return int(total)


def least_floor(floor: Floor, lows: Dict[str, Optional[int]]) -> Optional[int]:
    low = least_value(floor.form(), lows)
    return None if low is None else low // floor.divisor


def floors_of(form: Form) -> Iterator[Floor]:
    """The floors in a form, those in others before these."""
    for atom in form.terms:
        if isinstance(atom, Floor):
            yield from floors_of(atom.form())
            yield atom
