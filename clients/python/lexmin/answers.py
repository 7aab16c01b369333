"""Answers: valued and printed by the names of their problem, and what the program's commands make of them."""
from __future__ import annotations

from dataclasses import dataclass
from typing import TYPE_CHECKING, Callable, Dict, Iterator, List, Mapping, NoReturn, Optional, Sequence, Tuple, Union

from .forms import (
    MAPPING, Atom, Column, Floor, Form, FormLike, Number, Relation, as_form, checked_name, divided, each, from_one_on, known, of_kind,
    of_kinds, taken_out, whole_number)
from .problems import Space, numbers_over
from .shorten import QUESTIONS, SECONDS
from .texts import MOST_NUMBER
from .trees import (
    Bottom, Choice, NewParameter, Point, Row, Tree, Void, answer_text, form_of, leaves, new_parameter_names,
    parameter_count, parse_answer, parse_pieces, value_at)

if TYPE_CHECKING:
    from .solver import Solver

Found = Optional[Dict[str, Number]]  # a point by names, or none


class OutsideContext(ValueError):
    """An answer was valued at parameters of which it says nothing."""


@dataclass(frozen=True, eq=False)
class Piece:
    """A part of an answer: where all `conditions` hold, with each quotient the floor of its form over its divisor, the value
    is `point`, or there is none. Quotients stand in the order in which they use each other. (In the text of a piece they are without
    what is whole of them.)"""

    conditions: Tuple[Form, ...]  # each at least 0
    quotients: Tuple[Tuple[str, Form, int], ...]
    point: Optional[Tuple[Tuple[str, Form], ...]]

    def __post_init__(self) -> None:
        for form in of_kind(self.conditions, tuple, "the conditions of a piece are forms, as (n - 1,)"):
            of_kind(form, Form, "a condition of a piece is a form")
        what = "a quotient is a name, a form and a divisor, as ('q', n, 2)"
        for quotient in of_kind(self.quotients, tuple, "the quotients of a piece are wanted, as (('q', n, 2),)"):
            from_one_on(of_kinds(quotient, (str, Form, object), what)[2], "a quotient needs a whole divisor from 1 on")
        if self.point is not None:
            what = "the point of a piece is forms with their names, as (('x', n),), or None"
            for named in of_kind(self.point, tuple, what):
                of_kinds(named, (str, Form), what)

    def relations(self) -> List[Relation]:
        """That the piece holds, to be said in other problems: there the quotients are further unknowns (`further(name)`: those of
        an answer of the program's are from 0 on) and parameters, or names of a domain."""
        held: List[Relation] = []
        for name, form, divisor in self.quotients:
            rest = form - Form({name: 1}) * divisor
            held += [rest >= 0, rest <= divisor - 1]
        return [*held, *(form >= 0 for form in self.conditions)]

    def _key(self) -> Tuple[object, ...]:
        quotients = tuple((name, form.key(), divisor) for name, form, divisor in self.quotients)
        point = None if self.point is None else tuple((name, form.key()) for name, form in self.point)
        return tuple(form.key() for form in self.conditions), quotients, point

    def __eq__(self, other: object) -> bool:
        return isinstance(other, Piece) and self._key() == other._key()

    def __hash__(self) -> int:
        return hash(self._key())

    def __str__(self) -> str:
        held: List[str] = []
        names: Dict[str, Form] = {}  # of quotients of which something is taken out
        for name, form, divisor in self.quotients:
            left, whole = taken_out(form.substitute(names), divisor)
            held.append(f"{name} = floor(({left})/{divisor})")
            names[name] = Form({name: 1}) + whole
        held += [f"{form.substitute(names)} >= 0" for form in self.conditions]
        point = None if self.point is None else [(name, form.substitute(names)) for name, form in self.point]
        return ("no point" if point is None else written_point(point)) + (f" where {', '.join(held)}" if held else "")


class Answer:
    """The answer to a problem. `text` is what the program wrote and `tree` its tree, in the program's terms; `posed` says
    what these terms stand for. Answers are equal where they are about the same parameters, context and unknowns, and have
    the same tree. `same` asks whether they have the same values.

    `checked` is None where the program made the answer of the problem as it was sent, and True where `certify` asked for it. Of an
    answer that was put back behind a preparation it says whether `check` has accepted it; False stays with all that is made of such
    an answer."""

    def __init__(self, posed: Space, text: str, tree: Optional[Tree] = None, solver: Optional[Solver] = None,
                 checked: Optional[bool] = None) -> None:
        if not isinstance(posed, Space) or not isinstance(text, str):
            of_kind(posed, Space, "what an answer is about is wanted, as `problem.posed()`")
            of_kind(text, str, "the text of an answer is wanted")
        self.posed, self.text, self.solver, self.checked = posed, text, solver, checked
        self.tree: Tree = parse_answer(text)[1] if tree is None else tree
        count = parameter_count(self.tree)
        if count not in (None, len(posed.parameters)):
            raise ValueError(f"an answer over {count} parameters to a problem with {len(posed.parameters)}")
        wanted = posed.columns()
        if any(len(leaf.components) < wanted for leaf in leaves(self.tree) if isinstance(leaf, Point)):
            raise ValueError(f"an answer with points of fewer components than the {wanted} unknowns of its problem")

    def __eq__(self, other: object) -> bool:
        return isinstance(other, Answer) and (self.posed, self.tree) == (other.posed, other.tree)

    def __hash__(self) -> int:
        return hash((self.posed, self.tree))

    def __repr__(self) -> str:
        return (f"Answer({self.posed.comment!r}: ({', '.join(self.posed.asked)}) over ({', '.join(self.posed.parameters)}), "
                f"{len(leaves(self.tree))} leaves)")

    @property
    def names(self) -> Dict[str, Form]:
        """The parameters and the unknowns that were asked for, as forms to say relations with: `answer.names["N"] >= 3`."""
        return {name: Form({name: 1}) for name in [*self.posed.parameters, *self.posed.asked]}

    @property
    def is_total(self) -> bool:
        """Whether there is a point at all parameters of the context. Each leaf of a tree that the program made is reached at
        some of them, so this is read off the leaves."""
        return not any(isinstance(leaf, Bottom) for leaf in leaves(self.tree))

    @property
    def is_empty(self) -> bool:
        """Whether there is a point at none of them. (Where no parameters satisfy the context both are said.)"""
        return not any(isinstance(leaf, Point) for leaf in leaves(self.tree))

    # Its value.

    def value(self, at: Mapping[str, int] = {}, /, **named: int) -> Found:
        """The point at parameters, each unknown by its name; none where there is no point."""
        parameters, sent = self._sent(at, named)
        return self._named(value_at(self.tree, sent), parameters)

    def eval(self, at: Mapping[str, int] = {}, /, **named: int) -> Found:
        """The same, by the program's `eval`."""
        parameters, sent = self._sent(at, named)
        if any(number > MOST_NUMBER for number in sent):
            raise ValueError("the program's numbers end at 2^127 - 1; `value` takes any")
        found = parse_answer(self._run("eval", [], self.text, sent))[1]
        return self._named(value_at(found, []), parameters)

    def _sent(self, at: Mapping[str, int], named: Mapping[str, int]) -> Tuple[Dict[str, int], List[int]]:
        given = _given(at, named)
        if len(given) < len(at) + len(named):
            raise ValueError(f"given twice: {', '.join(sorted(set(at) & set(named)))}")
        names = list(self.posed.parameters)
        if set(given) != set(names):
            raise ValueError(f"the parameters are {', '.join(names) or 'none'}; given were {', '.join(map(str, given)) or 'none'}")
        parameters = {name: whole_number(number, "a parameter is a whole number") for name, number in given.items()}
        if not self.posed.holds_at(parameters):
            raise OutsideContext(f"outside the context: {parameters}")
        return parameters, self.posed.sent_values(parameters)

    def _named(self, found: Union[Bottom, Void, Tuple[Number, ...]], parameters: Mapping[str, int]) -> Found:
        if isinstance(found, Void):
            raise RuntimeError("the answer is `void`, but the parameters satisfy the context")
        if isinstance(found, Bottom):
            return None
        point = self.posed.point([Form({}, number) for number in found])
        return {name: form.at(parameters) for name, form in point}

    # What the commands make of it. Contexts are the problem's, with what is added.

    def restrict(self, *relations: Relation) -> Answer:
        """The answer under further relations between the parameters: without choices that these decide."""
        posed = self.posed.under(relations)
        return self._made(posed, self._run("restrict", ["pivots", "cuts"], posed.context_text() + self.text))

    def simplify(self) -> Answer:
        """The answer without choices that choose nothing and new parameters that nothing uses."""
        return self._made(self.posed, self._run("simplify", [], self.text))

    def shorten(self, *, questions: Optional[int] = QUESTIONS, seconds: Optional[float] = SECONDS) -> Answer:
        """An answer of the same values with fewer leaves, which `same` has compared with this one: `Solver.shorten`."""
        return self._asked().shorten(self, questions=questions, seconds=seconds)

    def same(self, other: Answer, *relations: Relation) -> bool:
        """Whether both have the same value at all parameters of both contexts, and of these relations."""
        return self.difference(other, *relations) is None

    def difference(self, other: Answer, *relations: Relation) -> Optional[Dict[str, int]]:
        """Parameters at which the values differ; none where there are none."""
        posed = self._with(other).under(relations)
        as_written = self.posed.points_key() == other.posed.points_key() and self._is_all_asked() and other._is_all_asked()
        texts = [self.text, other.text] if as_written else [self._turned(1), other._turned(1)]
        found = self._run("same", ["pivots", "cuts", "splits"], posed.context_text() + self._simplified(texts)).strip()
        if found == "same":
            return None
        return posed.values([int(number) for number in found[found.index("[") + 1:found.index("]")].split()])

    def least(self, other: Answer, *, greatest: bool = False) -> Answer:
        """The answer that has at all parameters of both contexts the lexicographically lesser of the two points, each
        unknown by its value, or the greater of them. No point counts behind all others."""
        sign = -1 if greatest else 1
        posed = self._with(other)
        text = posed.context_text() + self._simplified([self._turned(sign), other._turned(sign)])
        made = self._run("least", ["pivots", "cuts", "splits", "nesting"], text)
        return self._made(_values(posed, posed.asked, sign), made, other)

    def pieces(self) -> List[Piece]:
        """The answer taken apart: exactly one piece holds at each vector of whole parameters."""
        found = parse_pieces(self._run("pieces", [], self.text))
        names = self._quotient_names()
        return [self._piece(list(piece.path), piece.leaf, names) for piece in found]

    def put(self, forms: Mapping[str, FormLike] = {}, /, **named: FormLike) -> Answer:
        """The answer whose points are these forms over the unknowns and the parameters, by their new names, in their order.
        (An answer to be compared or put together with another one has the other's names in the other's order.)"""
        of_kind(forms, MAPPING, "forms are given by their names, as y=2*x or {'y': 2*x}")
        given = {checked_name(name): as_form(form) for name, form in {**forms, **named}.items()}
        if not given:
            raise ValueError("no form is given")
        if taken := [name for name in given if name in self.posed.parameters]:
            raise ValueError(f"the name {taken[0]} is taken, by a parameter")
        for form in given.values():
            unknown = [name for name in form.names() if name not in self.posed.points and name not in self.posed.parameters]
            if unknown:
                raise ValueError(f"{', '.join(unknown)}: neither an unknown that was asked for nor a parameter")
        columns = {**{name: self.posed.in_columns(Form({name: 1})) for name in self.posed.parameters}, **self.posed.points}
        points = {name: form.substitute(columns) for name, form in given.items()}
        posed = _values(self.posed, list(given), 1)
        return self._made(posed, answer_text(self.posed.comment, _Turned(self.posed, list(points.values()), 1).tree(self.tree)))

    def _is_all_asked(self) -> bool:
        """Whether the tree's points hold nothing but what is asked for. Further unknowns, floors too, make no difference of values."""
        return all(len(leaf.components) == len(self.posed.points) for leaf in leaves(self.tree) if isinstance(leaf, Point))

    def _turned(self, sign: int) -> str:
        """The text of the answer with the unknowns' values, times the sign, as its points; with a 0 where none is asked for, since
        the program wants a component."""
        turned = _Turned(self.posed, list(self.posed.points.values()) or [Form()], sign)
        return answer_text(self.posed.comment, turned.tree(self.tree))

    def _simplified(self, texts: Sequence[str]) -> str:
        """Answers of the same values, before a walk over them, which asks again of all that chooses nothing."""
        return self._run("simplify", [], "".join(texts))

    def _with(self, other: Answer) -> Space:
        """What both answers are about: under both contexts."""
        own, others = self.posed, checked_answer(other).posed
        if list(own.parameters.items()) != list(others.parameters.items()) or own.asked != others.asked:
            raise ValueError("the answers are not about the same parameters and unknowns, in the same order: {} over {}, {} over {}".format(
                own.asked, list(own.parameters), others.asked, list(others.parameters)))
        return own.under(others.conditions)

    def _made(self, posed: Space, text: str, *others: Answer) -> Answer:
        said = {answer.checked for answer in (self, *others)} - {None}
        return Answer(posed, text, solver=self.solver, checked=all(said) if said else None)

    def _run(self, command: str, budgets: Sequence[str], text: str, values: Optional[Sequence[int]] = None) -> str:
        solver = self._asked()
        words = [str(len(self.posed.parameters))] if values is None else [str(value) for value in values]
        return solver.run([command, *words, *solver.budget_words(budgets)], text)

    def _asked(self) -> Solver:
        if self.solver is None:
            raise ValueError("the answer was not made by a Solver: give it one, Answer(.., solver=solver)")
        from .solver import Solver  # (which imports this module)
        return of_kind(self.solver, Solver, "the solver of an answer is a Solver")

    # Its words.

    def _quotient_names(self) -> List[str]:
        return new_parameter_names(self.tree, [*self.posed.parameters, *self.posed.asked])

    def _piece(self, path: List[Union[Row, NewParameter]], leaf: Union[Bottom, Point], names: Sequence[str]) -> Piece:
        scope = self.posed.scope()
        conditions: List[Form] = []
        quotients: List[Tuple[str, Form, int]] = []
        for step in path:
            if isinstance(step, NewParameter):
                name = names[step.number - len(self.posed.parameters)]
                quotients.append((name, form_of(step.form, scope), step.divisor))
                scope.append(Form({name: 1}))
            else:
                conditions.append(form_of(step, scope))
        point = None
        if isinstance(leaf, Point):
            point = tuple(self.posed.point([form_of(row, scope) for row in leaf.components]))
        return known(Piece, conditions=tuple(conditions), quotients=tuple(quotients), point=point)

    def __str__(self) -> str:
        """The tree in words: `if`, `elif` and `else`, `q = form // d` for new parameters, a point as its unknowns."""
        return "\n".join(self.lines())

    def lines(self, point: Optional[Callable[[Mapping[str, Form]], str]] = None, *, none: str = "no point",
              names: Mapping[str, FormLike] = {}) -> Iterator[str]:
        """The same line by line. `point` gives the words of a point, `none` is what stands where there is none, and `names` has
        forms that stand in the place of parameters."""
        if point is not None and not callable(point):
            raise TypeError(f"a function of a point, which gives its words, is wanted, not {point!r}")
        of_kind(none, str, "the words where there is no point are a text")
        of_kind(names, MAPPING, "forms by the names that they replace are wanted, as {'i': k + 1}")
        if unknown := [name for name in names if name not in self.posed.parameters]:
            raise ValueError(f"{', '.join(map(str, unknown))}: not among the parameters, {', '.join(self.posed.parameters) or 'none here'}")
        return _Words(self, point, none, names).lines()


def _given(at: Mapping[str, int], named: Mapping[str, int]) -> Dict[str, int]:
    try:
        return {**at, **named}
    except TypeError:
        raise TypeError(f"parameters are given by their names, as N=3 or {{'N': 3}}, not as {at!r}") from None


def checked_answer(answer: object) -> Answer:
    if not isinstance(answer, Answer):
        raise TypeError(f"not an answer: {answer!r}" + ("; take each of its parts" if isinstance(answer, AnswerBySigns) else ""))
    return answer


class _Words:
    """Writes an answer line by line."""

    def __init__(self, answer: Answer, point: Optional[Callable[[Mapping[str, Form]], str]], none: str,
                 names: Mapping[str, FormLike]) -> None:
        self.answer, self.point, self.none, self.names = answer, point, none, names
        self.quotients = new_parameter_names(answer.tree, [
            *answer.posed.parameters, *answer.posed.asked, *(name for form in names.values() for name in as_form(form).names())])

    def lines(self) -> Iterator[str]:
        yield from self._below(self.answer.tree, self.answer.posed.scope(), self.names, "", "if")

    def _below(self, tree: Tree, scope: List[Form], names: Mapping[str, FormLike], margin: str, word: str) -> Iterator[str]:
        """The lines of a tree. `names` has forms that stand in the place of parameters, and of quotients of which something is taken
        out."""
        if isinstance(tree, Void):
            yield f"{margin}void"
        elif isinstance(tree, Bottom):
            yield margin + self.none
        elif isinstance(tree, Point):
            found = self.answer.posed.point([form_of(row, scope) for row in tree.components])
            point = [(name, form.substitute(names)) for name, form in found]
            yield margin + (written_point(point) if self.point is None else self.point(dict(point)))
        elif isinstance(tree, NewParameter):
            name = self.quotients[tree.number - len(self.answer.posed.parameters)]
            form, common = form_of(tree.form, scope).substitute(names).whole()
            divisor = tree.divisor * common
            left, whole = taken_out(form, divisor)
            yield f"{margin}{name} = ({left}) // {divisor}"
            yield from self._below(tree.below, [*scope, Form({name: 1})], {**names, name: Form({name: 1}) + whole}, margin, "if")
        else:
            yield f"{margin}{word} {form_of(tree.form, scope).substitute(names).whole()[0]} >= 0:"
            yield from self._below(tree.yes, scope, names, margin + "    ", "if")
            if isinstance(tree.no, Choice):
                yield from self._below(tree.no, scope, names, margin, "elif")
            else:
                yield f"{margin}else:"
                yield from self._below(tree.no, scope, names, margin + "    ", "if")


def written_point(point: Sequence[Tuple[str, Form]]) -> str:
    return ", ".join(f"{name} = {form}" for name, form in point) or "a point"


def _values(posed: Space, asked: Sequence[str], sign: int) -> Space:
    """What an answer is about whose components are values, times the sign."""
    points = {name: Form({Column(False, place): sign}) for place, name in enumerate(asked)}
    return Space(posed.comment, posed.parameters, posed.conditions, points)


class _Turned:
    """Makes a tree whose points are forms over the columns, times a sign, of a tree that has the columns' values."""

    def __init__(self, posed: Space, points: Sequence[Form], sign: int) -> None:
        self.points, self.sign, self.count = points, sign, len(posed.parameters)

    def tree(self, tree: Tree) -> Tree:
        return self._below(tree, self.count)

    def _below(self, tree: Tree, count: int) -> Tree:
        if isinstance(tree, Choice):
            return Choice(tree.form, self._below(tree.yes, count), self._below(tree.no, count))
        if isinstance(tree, NewParameter):
            return NewParameter(tree.number, tree.form, tree.divisor, self._below(tree.below, count + 1))
        if not isinstance(tree, Point):
            return tree
        scope = [Form({Column(True, place): 1}) for place in range(count)]
        components = [form_of(row, scope) for row in tree.components]

        def column(atom: Atom) -> Form:
            if isinstance(atom, Floor):
                return atom.form().put(column) // atom.divisor
            assert isinstance(atom, Column)
            return Form({atom: 1}) if atom.is_parameter else components[atom.place]

        return self._leaf([form.put(column) * self.sign for form in self.points], count)

    def _leaf(self, point: List[Form], count: int) -> Tree:
        """A list of forms; floors that stand in them become new parameters first, innermost first. What is whole of a floor
        stands beside it: all columns are from 0 on, and so is what is left."""
        floor = next((found for form in point for found in _innermost(form)), None)
        if floor is None:
            return Point(tuple(tuple(numbers_over(form, count)) for form in point))
        left, taken = divided(floor.form(), floor.divisor)
        own = Form({Column(True, count): 1}) if left.terms else Form()

        def put(atom: Atom) -> Form:
            if atom == floor:
                return own + taken
            if isinstance(atom, Floor):
                return atom.form().put(put) // atom.divisor
            return Form({atom: 1})

        point = [form.put(put) for form in point]
        if not left.terms:
            return self._leaf(point, count)
        return NewParameter(count, tuple(numbers_over(left, count)), floor.divisor, self._leaf(point, count + 1))


def _innermost(form: Form) -> Iterator[Floor]:
    """The floors of a form that have none in them."""
    for atom in form.terms:
        if isinstance(atom, Floor):
            inner = list(_innermost(atom.form()))
            yield from inner or [atom]


# ---- Answers by parts ----------------------------------------------------------------------------------------------


class AnswerBySigns:
    """The answer to a problem with parameters of either sign: an answer for each choice of their signs. In `parts` stand, with
    each answer, the ranges of its parameters."""

    def __init__(self, answers: Sequence[Answer]) -> None:
        self.parts = tuple(map(checked_answer, each(answers, "answers are wanted")))

    def part(self, at: Mapping[str, int] = {}, /, **named: int) -> Answer:
        """The answer for parameters of these signs."""
        parameters = {name: whole_number(number, "a parameter is a whole number") for name, number in _given(at, named).items()}
        for answer in self.parts:
            ranges = answer.posed.parameters
            if set(ranges) != set(parameters) or all(parameters[name] in own for name, own in ranges.items()):
                return answer
        self._outside(parameters)

    def value(self, at: Mapping[str, int] = {}, /, **named: int) -> Found:
        """The point at parameters, each unknown by its name; none where there is no point."""
        return self.part(at, **named).value(at, **named)

    def map(self, function: Callable[[Answer], Answer]) -> AnswerBySigns:
        """What a function makes of each part: `answer.map(lambda part: part.restrict(N >= 4))`."""
        if not callable(function):
            raise TypeError(f"a function of an answer is wanted, not {function!r}")
        return AnswerBySigns([function(answer) for answer in self.parts])

    def _outside(self, parameters: Mapping[str, int]) -> NoReturn:
        raise OutsideContext(f"outside the context: {parameters}")

    def __str__(self) -> str:
        return "\n".join(self._lines())

    def _lines(self) -> Iterator[str]:
        for answer in self.parts:
            held = ", ".join(f"{name} {own}" for name, own in answer.posed.parameters.items() if self._is_split(name))
            yield f"where {held}:" if held else "everywhere:"
            yield from ("    " + line for line in str(answer).splitlines())

    def _is_split(self, name: str) -> bool:
        return len({answer.posed.parameters[name] for answer in self.parts}) > 1

    def __repr__(self) -> str:
        return f"AnswerBySigns({len(self.parts)} parts of {self.parts[0]!r})" if self.parts else "AnswerBySigns(no parts)"

    def __eq__(self, other: object) -> bool:
        return isinstance(other, AnswerBySigns) and self.parts == other.parts

    def __hash__(self) -> int:
        return hash(self.parts)


