"""Problems: named parameters and unknowns, relations between them, and what is sent to the program."""
from __future__ import annotations

import copy
import itertools
from dataclasses import dataclass
from typing import Dict, Iterator, List, Mapping, Optional, Sequence, Tuple

from .forms import (
    MAPPING, Atom, Column, Floor, Form, FormLike, Number, Relation, as_form, checked_name, checked_relation, divided, each, of_kind,
    row_text, whole_number)
from .trees import is_one_group


@dataclass(frozen=True)
class Range:
    """The whole numbers of a parameter: from `low` on, or up to `high`; with neither of the two those of both signs."""

    low: Optional[int] = 0
    high: Optional[int] = None

    def __post_init__(self) -> None:
        for bound in (self.low, self.high):
            if bound is not None and type(bound) is not int:
                whole_number(bound, "the bound of a range is a whole number, or None")

    def of(self, column: Form) -> Form:
        """The parameter from the program's, which is from 0 on."""
        if self.low is not None:
            return column + self.low
        assert self.high is not None
        return self.high - column

    def sent(self, own: FormLike) -> Form:
        """The program's parameter from the problem's."""
        return as_form(own) - self.low if self.low is not None else (self.high or 0) - as_form(own)

    def __contains__(self, number: int) -> bool:
        return (self.low is None or number >= self.low) and (self.high is None or number <= self.high)

    def __str__(self) -> str:
        return f">= {self.low}" if self.low is not None else f"<= {self.high}" if self.high is not None else "of either sign"


@dataclass(frozen=True, eq=False)
class _Unknown:
    name: str
    low: Optional[Form]  # none: of either sign
    high: Optional[Form]  # the greatest is asked for
    further: bool


class Problem:
    """A problem under construction. Parameters and unknowns are named first, then related; `text` is what is sent."""

    def __init__(self, comment: str = "", *, integer: bool = True) -> None:
        of_kind(comment, str, "a comment is a text")
        if not is_one_group(f"({comment})"):
            raise ValueError("the brackets of a comment must balance")
        comment.encode()  # what UTF-8 has no bytes for is refused here
        self.comment = comment
        self.integer = bool(integer)
        self._parameters: Dict[str, Range] = {}
        self._unknowns: Dict[str, _Unknown] = {}
        self._rows: List[Relation] = []
        self._context: List[Relation] = []
        self._multipliers = 0

    # What is named.

    def parameter(self, name: str, *, low: Optional[int] = 0) -> Form:
        """A parameter: a whole number from `low` on, in both modes. With `low=None` it may have either sign, and the problem
        is solved by parts (`Solver.solve_by_signs`)."""
        self._new_name(name)
        self._parameters[name] = Range(None if low is None else whole_number(low, "the low of a parameter is a whole number, or None"))
        return Form({name: 1})

    def parameters(self, *names: str) -> List[Form]:
        """Parameters from 0 on."""
        return [self.parameter(name) for name in names]

    def least(self, name: str, *, low: FormLike = 0) -> Form:
        """An unknown from `low` on, the least of which is asked for. `low` may be a form over the parameters and the
        unknowns that were named before and are asked for."""
        return self._unknown(_Unknown(name, as_form(low), None, False))

    def unknowns(self, *names: str) -> List[Form]:
        """Unknowns from 0 on, the least of which are asked for."""
        return [self.least(name) for name in names]

    def greatest(self, name: str, *, high: FormLike, low: FormLike = 0) -> Form:
        """An unknown from `low` to `high`, the greatest of which is asked for. The bounds may be forms over the
        parameters and the unknowns that were named before and are asked for."""
        return self._unknown(_Unknown(name, as_form(low), as_form(high), False))

    def further(self, name: str, *, low: Optional[FormLike] = 0) -> Form:
        """An unknown that has to exist and is not asked for. With `low=None` it may have either sign."""
        return self._unknown(_Unknown(name, None if low is None else as_form(low), None, True))

    # What is said.

    def where(self, *relations: Relation) -> Problem:
        """Adds relations between unknowns and parameters: all of them, or none where one can't be said."""
        for relation in map(checked_relation, relations):
            self._known(relation.form, [*self._parameters, *self._unknowns])
            if not self.integer and relation.kind != ">=" and relation.kind != "==":
                raise ValueError("in the rational mode a strict relation or a congruence can't be said")
        self._rows += relations
        return self

    def context(self, *relations: Relation) -> Problem:
        """Adds relations between parameters alone, that are known to hold. An answer says nothing where they don't."""
        for relation in map(checked_relation, relations):
            self._known(relation.form, list(self._parameters))
            checked_context(relation)
        self._context += relations
        return self

    def everywhere(self, form: Mapping[str, FormLike], *domain: Relation) -> Problem:
        """Adds that a form is at least 0 at each point of a domain, by Farkas' lemma: there the form is a sum of multiples of
        the domain's relations, none below 0, and of a number from 0 on.

        The domain's names (turns of loops, sizes) come from a Problem of their own, none is one of this problem's, and
        nothing is known of them but what the relations say. `form` gives for each of them its coefficient, a form over this
        problem's unknowns and parameters, and for "" the constant. Each relation's multiplier is a further unknown: whole
        ones in the integer mode, which leaves out forms that need fractions. The domain must not be empty: there every form
        would do, and the lemma says nothing."""
        of_kind(form, MAPPING, "the coefficients of a form are wanted by their names, as {'i': x, '': y}")
        domain = tuple(map(checked_relation, domain))
        names = dict.fromkeys([*(name for name in form if name), *(name for it in domain for name in it.form.names())])
        for relation in domain:
            if relation.kind == "multiple" or any(isinstance(atom, Floor) for atom in relation.form.terms):
                raise ValueError("a domain has neither floors nor congruences")
        if both := [name for name in names if name in self._parameters or name in self._unknowns]:
            raise ValueError(f"{', '.join(both)}: a name of this problem can't be one of the domain, which holds for all its values")
        for coefficient in form.values():
            self._known(as_form(coefficient), [*self._parameters, *self._unknowns])
        self._multipliers += 1
        total: Dict[str, Form] = {name: Form() for name in names}
        constant = self.further(f"multiplier{self._multipliers}.0")
        for place, relation in enumerate(domain, 1):
            row = relation.form.whole()[0] - (1 if relation.kind == ">" else 0)
            own = self.further(f"multiplier{self._multipliers}.{place}", low=None if relation.kind == "==" else 0)
            for atom, number in row.terms.items():
                total[str(atom)] += own * number
            constant = constant + own * row.constant
        self.where(*(total[name] == form.get(name, 0) for name in names))
        return self.where(constant == form.get("", 0))

    # What comes of it.

    def text(self) -> str:
        """The problem as the program reads it."""
        return self.posed().text

    def posed(self) -> Posed:
        """The problem as it stands now."""
        return Posed(self)

    def by_signs(self) -> Iterator[Problem]:
        """The problem for each choice of the signs of the parameters of either sign: from 0 on, or up to -1."""
        either = [name for name, own in self._parameters.items() if own.low is None and own.high is None]
        for ranges in itertools.product((Range(0), Range(None, -1)), repeat=len(either)):
            part = copy.copy(self)
            part._parameters.update(zip(either, ranges))
            yield part

    def __copy__(self) -> Problem:
        """A problem of its own: what is added to the one is not added to the other."""
        made = self.__class__.__new__(self.__class__)
        vars(made).update(vars(self))
        made._parameters, made._unknowns = dict(self._parameters), dict(self._unknowns)
        made._rows, made._context = list(self._rows), list(self._context)
        return made

    def __repr__(self) -> str:
        asked = [name for name, unknown in self._unknowns.items() if not unknown.further]
        return (f"Problem({self.comment!r}: ({', '.join(asked)}) over ({', '.join(self._parameters)}), "
                f"{len(self._rows)} relations, {len(self._context)} of the context)")

    def _new_name(self, name: str) -> None:
        if checked_name(name) in self._parameters or name in self._unknowns:
            raise ValueError(f"the name {name} is taken")

    def _unknown(self, unknown: _Unknown) -> Form:
        self._new_name(unknown.name)
        for bound in (unknown.low, unknown.high):
            if bound is not None:
                self._known(bound, [*self._parameters, *self._unknowns])
                # What is sent is the distance from the bound. A further unknown is chosen behind it, and would move the bound.
                behind = [name for name in bound.names() if name in self._unknowns and self._unknowns[name].further]
                if behind and not unknown.further:
                    raise ValueError(f"a bound of {unknown.name} has {', '.join(behind)}, which is not asked for: say it with `where`")
                if self.integer and bound.whole()[1] != 1:
                    raise ValueError("a bound of a whole unknown is a form of whole numbers; use // for a floor")
        self._unknowns[unknown.name] = unknown
        return Form({unknown.name: 1})

    def _known(self, form: Form, names: Sequence[str]) -> None:
        for name in form.terms:
            if isinstance(name, Floor):
                if not self.integer:
                    raise ValueError("in the rational mode there are no floors and remainders")
                self._known(name.form(), names)
            elif name not in names:
                raise ValueError(f"the name {name} is not one that can stand here; these can: {', '.join(names) or 'none'}")


def checked_problem(problem: object) -> Problem:
    if not isinstance(problem, Problem):
        raise TypeError(f"not a problem: {problem!r}")
    return problem


def checked_context(relation: Relation) -> Relation:
    if relation.kind == "multiple" or any(isinstance(name, Floor) for name in relation.form.terms):
        raise ValueError("a context has neither floors nor congruences: put another parameter, as n = 2*e where n is even")
    return relation


class Space:
    """What an answer is about: the parameters, the relations of the context, and the unknowns that are asked for, each as a
    form over the columns of the program. Equal ones are about the same."""

    def __init__(self, comment: str, parameters: Mapping[str, Range], context: Sequence[Relation], points: Mapping[str, Form]) -> None:
        self.comment = of_kind(comment, str, "a comment is a text")
        self.parameters = dict(of_kind(parameters, MAPPING, "the parameters are wanted by their names, as {'n': Range(0)}"))
        self.conditions = tuple(map(checked_relation, each(context, "the relations of a context are wanted")))
        self.points = dict(of_kind(points, MAPPING, "the unknowns are wanted by their names, each as a form over the columns"))
        for own in self.parameters.values():
            if not isinstance(own, Range):
                raise TypeError(f"a parameter has a Range, not {own!r}")
        for form in self.points.values():
            if not isinstance(form, Form) or not all(map(self._has, form.terms)):
                raise TypeError(f"an unknown is a form over the columns, not {form!r}")

    def _has(self, atom: Atom) -> bool:
        return isinstance(atom, Column) and (not atom.is_parameter or atom.place < len(self.parameters))

    @property
    def asked(self) -> List[str]:
        """The names of the unknowns that are asked for."""
        return list(self.points)

    def __eq__(self, other: object) -> bool:
        return isinstance(other, Space) and self._key() == other._key()

    def __hash__(self) -> int:
        return hash(self._key())

    def _key(self) -> Tuple[object, ...]:
        return tuple(self.parameters.items()), self.context_text(), self.points_key()

    def columns(self) -> int:
        """How many of the program's unknowns its points have at least."""
        return max((atom.place + 1 for form in self.points.values() for atom in form.terms
                    if isinstance(atom, Column) and not atom.is_parameter), default=0)

    def points_key(self) -> Tuple[object, ...]:
        """What tells one choice of unknowns from another."""
        return tuple((name, form.key()) for name, form in self.points.items())

    def holds_at(self, parameters: Mapping[str, int]) -> bool:
        """Whether the parameters are in their ranges and satisfy the context; ValueError where one of them is missing."""
        for number, own in zip(self._numbers(parameters), self.parameters.values()):
            if number not in own:
                return False
        return all(relation.holds_at(parameters) for relation in self.conditions)

    def sent_values(self, parameters: Mapping[str, int]) -> List[int]:
        """The program's parameters; ValueError where one of these is missing."""
        return [int(own.sent(number).constant) for number, own in zip(self._numbers(parameters), self.parameters.values())]

    def _numbers(self, parameters: Mapping[str, int]) -> List[int]:
        """The parameters in their order."""
        if type(parameters) is not dict:
            of_kind(parameters, Mapping, "the parameters are wanted by their names, as {'n': 3}")
        found: List[int] = []
        try:
            for name in self.parameters:
                number = parameters[name]
                found.append(number if type(number) is int else whole_number(number, "a parameter is a whole number"))
        except KeyError as missing:
            raise ValueError(f"no value is given for the parameter {missing}") from None
        return found

    def values(self, sent: Sequence[int]) -> Dict[str, int]:
        """The parameters, from the program's, as many and in its order."""
        what = "the program's parameters are wanted, whole numbers"
        given = [whole_number(number, what) for number in each(sent, what)]
        if len(given) != len(self.parameters):
            raise ValueError(f"{len(given)} of the program's parameters for {len(self.parameters)}")
        return {name: int(own.of(Form({}, number)).constant) for (name, own), number in zip(self.parameters.items(), given)}

    def scope(self) -> List[Form]:
        """The program's parameters as forms over the names."""
        return [own.sent(Form({name: 1})) for name, own in self.parameters.items()]

    def point(self, components: Sequence[FormLike]) -> List[Tuple[str, Form]]:
        """The unknowns that are asked for, from the program's components: numbers, or forms over the parameters' names.
        ValueError where these are too few."""
        scope, given = self.scope(), list(each(components, "the components of a point are wanted"))

        def column(atom: Atom) -> FormLike:
            assert isinstance(atom, Column)
            return scope[atom.place] if atom.is_parameter else given[atom.place]

        try:
            return [(name, form.put(column)) for name, form in self.points.items()]
        except IndexError:
            raise ValueError(f"{len(given)} components of a point that has {self.columns()}") from None

    def in_columns(self, form: Form) -> Form:
        """A form over the parameters' names as one over the columns; ValueError where it has other names."""
        columns = {name: own.of(Form({Column(True, place): 1})) for place, (name, own) in enumerate(self.parameters.items())}
        try:
            return as_form(form).put(lambda name: columns[str(name)])
        except KeyError as other:
            raise ValueError(f"{other.args[0]}: not among the parameters, {', '.join(self.parameters) or 'none here'}") from None

    def context_rows(self) -> List[Form]:
        return [row for relation in self.conditions for row in whole_rows(self.in_columns(relation.form), relation.kind)]

    def context_text(self) -> str:
        """The context as `restrict`, `same` and `least` read it."""
        columns = [Column(True, place) for place in range(len(self.parameters))]
        return "({})".format(" ".join(row_text([*row.numbers_of(columns), row.constant]) for row in self.context_rows()))

    def under(self, relations: Sequence[Relation]) -> Space:
        """The same under further relations between the parameters."""
        for relation in map(checked_relation, each(relations, "relations are wanted")):
            unknown = [name for name in relation.form.names() if name not in self.parameters]
            if unknown:
                raise ValueError(f"{', '.join(unknown)}: a context is about the parameters, {', '.join(self.parameters) or 'none here'}")
            checked_context(relation)
        held = {str(relation) for relation in self.conditions}
        more = [relation for relation in relations if str(relation) not in held]
        return Space(self.comment, self.parameters, (*self.conditions, *more), self.points)


class Posed(Space):
    """A problem as it is sent. What is added to the problem later changes nothing here."""

    def __init__(self, problem: Problem) -> None:
        for name, own in checked_problem(problem)._parameters.items():
            if own.low is None and own.high is None:
                raise ValueError(f"the parameter {name} has either sign: the problem is solved by parts, with solve_by_signs")
        super().__init__(problem.comment, problem._parameters, problem._context, {})
        self.integer = problem.integer
        self._count = 0
        self._rows: List[Form] = []
        self._floors: Dict[Floor, Form] = {}
        # Each name as a form over the columns, of which those of the unknowns that are asked for are the first.
        self._names: Dict[str, Form] = {
            name: own.of(Form({Column(True, place): 1})) for place, (name, own) in enumerate(self.parameters.items())}
        in_order = sorted(problem._unknowns.values(), key=lambda unknown: unknown.further)
        columns = {unknown.name: self._column() for unknown in in_order}
        for unknown in problem._unknowns.values():
            self._name(unknown, columns[unknown.name])
        for relation in problem._rows:
            self._relate(relation)
        if self._count == 0:
            self._column()  # the program wants an unknown; nobody reads it
        self.points = {unknown.name: self._names[unknown.name] for unknown in in_order if not unknown.further}
        self.text = self._written(problem)

    def _written(self, problem: Problem) -> str:
        parameters = [Column(True, place) for place in range(len(self.parameters))]
        unknowns = [Column(False, place) for place in range(self._count)]
        rows = [row.whole()[0] for row in self._rows]
        context = self.context_rows()
        tableau = [row_text([*row.numbers_of(unknowns), row.constant, *row.numbers_of(parameters)]) for row in rows]
        above = [row_text([*row.numbers_of(parameters), row.constant]) for row in context]
        sizes = f"{len(unknowns)} {len(parameters)} {len(tableau)} {len(above)} -1 {int(problem.integer)}"
        return "(({}) {}\n({})\n({}))\n".format(problem.comment, sizes, "\n".join(tableau), "\n".join(above))

    def _name(self, unknown: _Unknown, own: Form) -> None:
        """Says what an unknown is in the columns, of which one is its own."""
        if unknown.low is None:
            self._names[unknown.name] = own - self._column()
        elif unknown.high is None:
            self._names[unknown.name] = self._sent(unknown.low) + own
        else:
            self._names[unknown.name] = self._sent(unknown.high) - own
            self._rows.append(self._names[unknown.name] - self._sent(unknown.low))

    def _column(self) -> Form:
        self._count += 1
        return Form({Column(False, self._count - 1): 1})

    def _sent(self, form: Form) -> Form:
        """A form over the problem's names as one over the columns."""
        return form.put(lambda name: self._floor(name) if isinstance(name, Floor) else self._names[str(name)])

    def _floor(self, floor: Floor) -> Form:
        """The floor as a new unknown and what is whole of it. All columns are from 0 on, so the part that is left, with
        numbers from 0 to divisor - 1, is too, and so is its floor."""
        if floor not in self._floors:
            left, taken = divided(self._sent(floor.form()), floor.divisor)
            own = self._column()
            rest = left - own * floor.divisor
            self._rows += [rest, floor.divisor - 1 - rest]
            self._floors[floor] = own + taken
        return self._floors[floor]

    def _relate(self, relation: Relation) -> None:
        if relation.kind == "multiple":
            form, common = self._sent(relation.form).whole()
            modulus = relation.modulus * common
            rest = divided(form, modulus)[0] - self._column() * modulus
            self._rows += [rest, -rest]
        else:
            self._rows += whole_rows(self._sent(relation.form), relation.kind)


def whole_rows(form: Form, kind: str) -> List[Form]:
    """The rows of a relation that is no congruence. A strict one is one of whole numbers."""
    form = form.whole()[0]
    return {">=": [form], ">": [form - 1], "==": [form, -form]}[kind]


def numbers_over(form: Form, count: int) -> List[Number]:
    """The row of a form over so many columns of parameters and new parameters, the constant last."""
    return [*form.numbers_of([Column(True, place) for place in range(count)]), form.constant]
