"""For each read of a kernel the instance that wrote last what it reads, by the package `lexmin`.

An instance is a statement in a turn of its loops. For each statement that writes the array, each level of the loops that it has
in common with the reading one, and each case of the conditions around it, a problem asks for the last turn that wrote the
element: before the reading turn at that level, in the same turn of the loops outside. What is written at a deeper level is
written later. At the same level the last of several writes is the one of the greatest time: the place in the text, the
turn of the outermost loop, the place in its body, the turn of the next loop, and so on.

A subscript that is not affine may be any number, and under a condition that is not affine a statement may run or not. So what is
found has perhaps not written the element that is read, but nothing has that ran later. A loop's bound that is not affine is no bound:
where nothing else says which of its turns may be the last, any may.
"""
from __future__ import annotations

from dataclasses import dataclass, replace
from fractions import Fraction
from typing import Dict, Iterable, Iterator, List, Mapping, NamedTuple, Optional, Sequence, Tuple

from lexmin import Answer, Floor, Form, Problem, Relation, Solver
from nests import Access, Case, Kernel, Loop, Statement, floors_of, least_value
from syntax import Fault

Found = Optional[Tuple[int, Tuple[Optional[int], ...]]]  # a statement by its number and the values of its loop variables
LEAST_INT = -2 ** 31  # in C; a variable whose loop begins at no affine bound is from there on


@dataclass(frozen=True, eq=False)
class Turns:
    """A loop's turn in a problem: what its variable is, and what grows by 1 from turn to turn."""

    variable: Form
    time: Form


@dataclass(frozen=True, eq=False)
class Source:
    """Which instance wrote what a read reads, where this case holds: the answer's points are the number of the statement, whether it
    is sure, how many of its turns are known, and the values of its loop variables, `value.0` that of the outermost. Without an
    answer nothing wrote it in any turn. Of one that is not sure it is known only that this instance wrote it, or one before, or none;
    where a turn is not known, any turn of that loop may have."""

    kernel: Kernel
    statement: Statement
    read: int
    case: Case
    answer: Optional[Answer]
    counters: Dict[str, Form]  # the answer's parameters, over the sizes and the reading statement's variables

    def at(self, values: Mapping[str, int]) -> Found:
        """The instance at sizes and loop variables, with None for each turn that is not known."""
        point = self._point(values)
        if point is None:
            return None
        writer = self.kernel.statements[int(point["statement.number"])]
        known = int(point["turns.known"])
        return writer.number, tuple(int(point[f"value.{place}"]) if place < known else None for place in range(len(writer.loops)))

    def is_sure_at(self, values: Mapping[str, int]) -> bool:
        """Whether that instance wrote it, and none before: it may be one before where a subscript or a condition is not affine."""
        point = self._point(values)
        return point is None or bool(point["is.sure"])

    def _point(self, values: Mapping[str, int]) -> Optional[Mapping[str, Fraction]]:
        return None if self.answer is None else self.answer.value({name: int(form.at(values)) for name, form in self.counters.items()})

    def shortened(self) -> Source:
        """The same with a shorter tree."""
        return self if self.answer is None else replace(self, answer=self.answer.shorten())

    def words(self) -> List[str]:
        """The answer as text, over the sizes and the loop variables."""
        if self.answer is None:
            return ["what stood there before"]
        return list(self.answer.lines(self._instance, none="what stood there before", names=self.counters))

    def _instance(self, point: Mapping[str, Form]) -> str:
        writer = self.kernel.statements[int(point["statement.number"].constant)]
        known = int(point["turns.known"].constant)
        turns = [str(point[f"value.{place}"]) if place < known else ".." for place in range(len(writer.loops))]
        words = f"S{writer.number}({', '.join(turns)})"
        return words if point["is.sure"].constant else f"unknown: {words} or earlier"


class Analyser:
    """Poses the problems of a kernel's reads, and puts their answers together; `problems` counts them."""

    def __init__(self, solver: Solver, kernel: Kernel) -> None:
        self.solver, self.kernel, self.problems = solver, kernel, 0
        for statement in kernel.statements:
            for case in statement.cases:
                self.divides(statement, case)
        self.cases = {statement: self.held(statement) for statement in kernel.statements}

    def held(self, statement: Statement) -> List[Case]:
        """The cases of a statement that hold in some turn. One alone is not asked for."""
        if len(statement.cases) == 1:
            return list(statement.cases)
        answers = [self.solver.solve(Reading(self.kernel, statement, case).problem) for case in statement.cases]
        return [case for case, answer in zip(statement.cases, answers) if not answer.is_empty]

    def divides(self, statement: Statement, case: Case) -> None:
        """A Fault where a form that is divided may be below 0: there C rounds towards 0, and the forms' floors do not. A relation
        may stand on all without floors, and on those before it."""
        relations = [*self.kernel.known, *statement.domain(), *case.relations]
        dividing = [relation for relation in relations if any(floors_of(relation.form))]
        held = [relation for relation in relations if relation not in dividing]
        for relation in dividing:
            for floor in floors_of(relation.form):
                self.is_from_0_on(floor, statement, held)
            held.append(relation)
        for form in (form for access in statement.accesses for form in access.subscripts if form is not None):
            for floor in floors_of(form):
                self.is_from_0_on(floor, statement, held)

    def is_from_0_on(self, floor: Floor, statement: Statement, held: Sequence[Relation]) -> None:
        problem = Problem(f"{self.kernel.name}, S{statement.number}: what is divided by {floor.divisor} below 0")
        for name, low in lowest(statement, self.kernel.sizes).items():
            if low is None:
                problem.further(name, low=None)
            else:
                problem.least(name, low=low)
        found = self.solver.solve(problem.where(*held, floor.form() <= -1)).value()
        if found is not None:
            at = ", ".join(f"{name} = {number}" for name, number in found.items())
            words = f"{floor.form()} is divided by {floor.divisor}, and is below 0 at {at}: C rounds towards 0 there, which is not read"
            raise Fault(statement.part.line, words)

    def sources(self) -> Iterator[Source]:
        """Each read's, in each case of its statement; an element that a statement reads twice is asked for once."""
        for statement in self.kernel.statements:
            for case in self.cases[statement]:
                found: Dict[str, Source] = {}
                for read, access in enumerate(statement.reads):
                    if access.text not in found:
                        found[access.text] = self.source(statement, read, case)
                    yield replace(found[access.text], read=read)

    def source(self, statement: Statement, read: int, case: Case) -> Source:
        array = statement.reads[read].array
        writers = [(level, writer) for writer in self.kernel.writers(array) for level in levels(writer, statement)]
        found: Optional[Answer] = None
        for level in sorted({level for level, _ in writers}, reverse=True):
            for own, writer in writers:
                for held in self.cases[writer] if own == level else ():
                    if held.is_contrary(case, level):
                        continue
                    answer = self.last(Question(self.kernel, statement, case, statement.reads[read], writer, held, level))
                    if answer is not None:
                        found = answer if found is None else self.solver.last_of(found, answer)
            if found is not None and found.is_total:
                break  # what is written at the levels outside is overwritten in all turns
        answer = None if found is None else self.instance(found)
        return Source(self.kernel, statement, read, case, answer, Reading(self.kernel, statement, case).counters)

    def last(self, question: Question) -> Optional[Answer]:
        """When the writer last wrote what is read; none where it never did."""
        self.problems += 1
        answer = self.solver.solve(question.problem)
        return None if answer.is_empty else answer.put(question.time())

    def instance(self, answer: Answer) -> Answer:
        """The answer without the time."""
        names = ["statement.number", "is.sure", "turns.known", *(f"value.{place}" for place in range(self.kernel.depth))]
        return answer.put({name: answer.names[name] for name in names}).simplify()


def levels(writer: Statement, reader: Statement) -> Iterator[int]:
    """How many of the common loops the two may be in the same turn of, the write before the read."""
    common = writer.common(reader)
    if writer.is_before(reader):
        yield common
    yield from range(common)


class Reading:
    """A problem whose parameters are the sizes and a turn of a statement, in a case of the conditions around it, and each floor
    that stands in these, since a context has none. `counters` says what they are, over the sizes and the loop variables."""

    def __init__(self, kernel: Kernel, reader: Statement, case: Case, comment: str = "") -> None:
        self.kernel, self.problem = kernel, Problem(comment or f"{kernel.name}, S{reader.number}")
        self.sizes = {name: self.problem.parameter(name) for name in kernel.sizes}
        self.turns: Dict[str, Turns] = {}
        self.floors: Dict[Floor, Form] = {}
        self.counters = {name: Form({name: 1}) for name in kernel.sizes}
        lows = lowest(reader, self.sizes)
        for loop in reader.loops:
            own = counter(loop, lows)
            base = self.known(own.base)
            parameter = self.problem.parameter(own.name, low=own.low)
            self.counters[own.name] = (Form({loop.variable: 1}) - own.base) / own.step
            variable = base + parameter * own.step
            self.turns[loop.variable] = Turns(variable, parameter if abs(loop.step) > 1 else variable * loop.step)
        for relation in (*kernel.known, *reader.domain(), *case.relations):
            self.problem.context(replace(relation, form=self.known(relation.form)))

    def names(self, turns: Mapping[str, Turns]) -> Dict[str, Form]:
        """What the sizes and the variables of a turn are in the problem."""
        return {**self.sizes, **{name: own.variable for name, own in turns.items()}}

    def known(self, form: Form) -> Form:
        """A form over the sizes and the reading turn's variables in the problem, with its floors among the parameters."""
        for floor in floors_of(form):
            if floor not in self.floors:
                name, own = f"floor.{len(self.floors)}", self.own(floor.form())
                self.floors[floor] = parameter = self.problem.parameter(name)
                self.counters[name] = Form({floor: 1})
                self.problem.context(parameter * floor.divisor <= own, own <= parameter * floor.divisor + (floor.divisor - 1))
        return self.own(form)

    def own(self, form: Form) -> Form:
        """The same, with those of its floors that are parameters already."""
        names = self.names(self.turns)

        def value(atom: object) -> Form:
            if isinstance(atom, Floor):
                return self.floors[atom] if atom in self.floors else self.own(atom.form()) // atom.divisor
            return names[str(atom)]

        return form.put(value)


class Question(Reading):
    """Which turn of a writer, at a level and in a case, is the last one before a turn of the reading statement that writes what
    this reads, or may write it where a subscript or a condition is not affine (then not `is_sure`)."""

    def __init__(self, kernel: Kernel, reader: Statement, case: Case, read: Access, writer: Statement, held: Case, level: int) -> None:
        super().__init__(kernel, reader, case, f"{kernel.name}, S{reader.number}: S{writer.number} at level {level}")
        self.writer, own_subscripts = writer, writer.writes.subscripts if writer.writes else ()
        relations = [*writer.domain(level), *held.relations]
        meeting = [(self.own(one), own) for one, own in zip(read.subscripts, own_subscripts) if one is not None and own is not None]
        self.is_sure = held.runs_beside(case, level) and len(meeting) == len(read.subscripts)
        # Two forms each, over the problem's names and over the writer's; the second one is at least the first.
        self.rows = [(Form(), form) for relation in relations for form in from_0_on(relation)]
        self.rows += [*meeting, *((-one, -own) for one, own in meeting)]
        self.written: Dict[str, Turns] = {}
        self.told = len(writer.loops)  # of so many of its loops the last turn is known
        common = writer.common(reader)
        for place, loop in enumerate(writer.loops):
            if place < level:
                self.written[loop.variable] = self.turns[loop.variable]
            else:
                before = self.turns[loop.variable] if place == level < common else None
                self.written[loop.variable] = self._unknown(place, loop, before)
        other = self.names(self.written)
        self.problem.where(*(relation.substitute(other) for relation in relations), *(one == own.substitute(other) for one, own in meeting))

    def time(self) -> Dict[str, Form]:
        """The writer's time, and behind it which statement it is, whether it is sure, and its variables. A loop whose last turn is not
        known counts as one that has ended: its place is twice its number, and 1 more then."""
        turns = list(self.written.values())[:self.told]
        made: Dict[str, Form] = {}
        for place in range(self.kernel.depth + 1):
            made[f"place.{place}"] = Form({}, 2 * self.writer.places[place] if place < len(self.writer.places) else 0)
            made[f"time.{place}"] = turns[place].time if place < self.told else Form()
        if self.told < len(self.written):
            made[f"place.{self.told}"] += 1
            self.is_sure = False
        made["statement.number"], made["is.sure"] = Form({}, self.writer.number), Form({}, int(self.is_sure))
        made["turns.known"] = Form({}, self.told)
        for place in range(self.kernel.depth):
            made[f"value.{place}"] = turns[place].variable if place < self.told else Form()
        return made

    def _unknown(self, place: int, loop: Loop, before: Optional[Turns]) -> Turns:
        """A turn of a loop, before another one where that is given. The last one is asked for, if it is known to be no later than some
        time, and if the turns of the loops outside are known."""
        names, sign, name = self.names(self.written), 1 if loop.step > 0 else -1, loop.variable + "'"
        limit = before.time - 1 if before else next(self._limits(loop.variable, sign, names), None)
        if self.told < place or limit is None:
            self.told = min(self.told, place)
            return self._further(loop, name, names)
        if abs(loop.step) > 1:
            first = loop.first().substitute(names)
            turn = self.problem.greatest(name, high=limit if before else limit - first * sign)
            return Turns(first + turn * loop.step, turn)
        time = -self.problem.least(name, low=-limit)
        return Turns(time * sign, time)

    def _further(self, loop: Loop, name: str, names: Mapping[str, Form]) -> Turns:
        """Any turn of a loop."""
        if abs(loop.step) > 1:
            turn = self.problem.further(name)
            return Turns(loop.first().substitute(names) + turn * loop.step, turn)
        variable = self.problem.further(name, low=None)
        return Turns(variable, variable)

    def _limits(self, variable: str, sign: int, names: Mapping[str, Form]) -> Iterator[Form]:
        """What a variable, or what is negated of it, is at most by the rows in which all else is known."""
        for one, own in self.rows:
            number = own.terms.get(variable, 0) * sign
            rest = own - Form({variable: number * sign})
            if number < 0 and all(name in names for name in rest.names()):
                yield (rest.substitute(names) - one) // int(-number)


def from_0_on(relation: Relation) -> List[Form]:
    """The forms that are from 0 on where a relation holds."""
    return [relation.form, -relation.form] if relation.kind == "==" else [relation.form]


class Counter(NamedTuple):
    """The parameter that a loop of the reading statement has: the variable is `base` and `step` for each of it."""

    name: str
    base: Form
    step: int
    low: int


def counter(loop: Loop, lows: Mapping[str, Optional[int]]) -> Counter:
    """The variable itself, where it has a least value, or no bound below; else how far it is above a bound. Of a loop that steps by
    more than 1 the number of the turn."""
    least = lows[loop.variable]
    if abs(loop.step) > 1:
        return Counter(loop.variable + ".turn", loop.first(), loop.step, 0)
    if least is None and loop.lows:
        return Counter(loop.variable + ".above", loop.lows[0], 1, 0)
    return Counter(loop.variable, Form(), 1, LEAST_INT if least is None else least)


def lowest(statement: Statement, sizes: Iterable[str]) -> Dict[str, Optional[int]]:
    """Of each size and variable a number that it is never below, where one is known."""
    lows: Dict[str, Optional[int]] = dict.fromkeys(sizes, 0)
    for loop in statement.loops:
        known = [low for low in (least_value(form, lows) for form in loop.lows) if low is not None]
        lows[loop.variable] = max(known, default=None)
    return lows
