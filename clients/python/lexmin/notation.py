"""Sets and maps in isl's notation, read as problems.

    from lexmin import Solver, notation

    with Solver("./pip") as solver:
        answer = notation.solved(solver, "[N, T] -> { [i] : 4T <= i <= 4T + 3 and 0 <= i < N }", greatest=True)
        print(notation.written(answer))

What is read: `[parameters] -> { Name[unknowns] : constraints ; .. }`. Constraints are chains of `<`, `<=`, `=`, `!=`, `>=`, `>`
between affine forms, and of `<<`, `<<=`, `>>`, `>>=` between lists of them (`i, j << k, l`: lexicographically before), joined by
`and`, `or`, `not`, `implies` and brackets, with `exists (a, b : ..)`, `true` and `false`; in forms stand `floor(form/d)`,
`ceil(form/d)`, `floord(form, d)`, `ceild(form, d)`, `form mod d`, `min(..)`, `max(..)`, `2i` and `2*i`. An entry of a tuple may be a form.
Of a map `{ A[i, j] -> B[k] : .. }` the first tuple's names are parameters: its answer is the map's lexmin or lexmax.
A quotient that is not rounded is a fraction: `2i < N` is what `i < N/2` says. (isl has `i <= N/2 - 1` there.) `mod` behind a product
or a quotient times a number, which isl reads in an order of its own, want brackets.
What isn't read: nested tuples, and `not` of an `exists` whose name neither is a form of others nor stands in one equality alone.

Each part of an `or` is a problem of its own, and `least` puts the answers together. isl's numbers have either sign, the
program's are from 0 on. So each unknown needs a lower bound among its part's constraints, a form over the parameters and the
unknowns before it (an unknown whose greatest is asked for an upper one too); it is found here, and its absence is said.
Parameters are from 0 on unless `low` says otherwise: `low={"n": -100}`. What is known of them is their context.
"""
from __future__ import annotations

import re
from typing import Iterator, List, Mapping, Optional, Sequence, Set, Tuple

from .answers import Answer, checked_answer
from .formulas import Fault, Part, Reader, is_name
from .forms import MAPPING, Atom, Floor, Form, Relation, of_kind, taken_out
from .problems import Problem
from .solver import Solver
from .trees import Choice, NewParameter, Point, Tree, form_of


def problems(text: str, *, greatest: bool = False, low: Mapping[str, int] = {}, context: str = "") -> List[Problem]:
    """The problems of a set or a map: one for each part of its `or`, and where it has none one without a point."""
    of_kind(low, MAPPING, "the lows are wanted by their names, as {'n': -9}")
    parameters, tuples = Reader(text).whole()
    if len({(it.named, tuple(it.domain), len(it.unknowns)) for it in tuples}) > 1:
        raise Fault("the parts of the set have tuples of different names or lengths, or of a map other names in the first one")
    names = [*parameters, *(tuples[0].domain if tuples else [])]
    asked = tuples[0].unknowns if tuples else []
    if tuples and (other := [name for name in low if name not in (*names, *asked)]):
        raise Fault(f"{', '.join(other)}: low is for a parameter or an unknown of the first tuple")
    known: List[Relation] = []
    if "{" in of_kind(context, str, "a context is a text of constraints"):
        raise Fault("a context is constraints alone, as `N >= 5`")
    if context:
        chosen = Reader(context).conditions(names)
        if len(chosen) != 1 or chosen[0].further:
            raise Fault("a context is one conjunction, without `exists`")
        known = list(chosen[0].relations)
    made = [_problem(text, names, asked, it.unknowns, part, greatest, low, known) for it in tuples for part in it.parts]
    if tuples and not made:  # nothing can hold: a problem without a point says so
        made.append(_problem(text, names, asked, asked, Part((Form({}, -1) >= 0,), ()), False, {**dict.fromkeys(asked, 0), **low}, known))
    return made


def _problem(text: str, parameters: Sequence[str], asked: Sequence[str], unknowns: Sequence[str], part: Part, greatest: bool,
             low: Mapping[str, int], context: Sequence[Relation]) -> Problem:
    further = _apart(part.further, {*parameters, *asked})
    named = {own: Form({name: 1}) for own, name in [*zip(unknowns, asked), *zip(part.further, further)] if own != name}
    relations = [relation.substitute(named) for relation in part.relations]
    problem = Problem(re.sub(r"[()]", "", text))
    for name in parameters:
        problem.parameter(name, low=low.get(name, 0))
    before = list(parameters)
    for name in asked:
        least = Form({}, low[name]) if name in low else _bound(relations, name, before, 1)
        most = _bound(relations, name, before, -1) if greatest else None
        over = ", ".join(before) or "numbers"
        if least is None:
            raise Fault(f"{name} has no lower bound over {over}: add one, or give low={{'{name}': ..}}")
        if not greatest:
            problem.least(name, low=least)
        elif most is None:
            raise Fault(f"{name} has no upper bound over {over}: add one")
        else:
            problem.greatest(name, low=least, high=most)
        before.append(name)
    for name in further:
        problem.further(name, low=None)
    return problem.where(*relations).context(*context)


def _apart(names: Sequence[str], taken: Set[str]) -> List[str]:
    """Names of what has to exist, changed where the first tuple has them."""
    found: List[str] = []
    for name in names:
        while name in taken or name in found:
            name += "'"
        found.append(name)
    return found


def _bound(relations: Sequence[Relation], name: str, before: Sequence[str], sign: int) -> Optional[Form]:
    """A bound of an unknown, rounded inwards: from below for the sign 1, from above for -1. One without a floor before others."""
    found: List[Form] = []
    for relation in relations:
        if relation.kind == "multiple":  # (says nothing of a size)
            continue
        form = relation.form.whole()[0] - (1 if relation.kind == ">" else 0)
        own = form.terms.get(name, 0)
        if relation.kind == "==" and own * sign < 0:
            form, own = -form, -own
        rest = Form({atom: number for atom, number in form.terms.items() if atom != name}, form.constant)
        if own * sign <= 0 or any(other not in before for other in rest.names()):
            continue
        most = rest if abs(own) == 1 else rest // abs(int(own))
        found.append(-most if sign > 0 else most)  # own*name + rest >= 0: name >= -rest/own, or name <= rest/|own|
    plain = [form for form in found if all(isinstance(atom, str) for atom in form.terms)]
    return next(iter(plain + found), None)


def solved(solver: Solver, text: str, *, greatest: bool = False, low: Mapping[str, int] = {}, context: str = "") -> Answer:
    """The lexmin of a set or a map, or its lexmax: the answers of its parts, put together. A Fault where it has no tuple."""
    of_kind(solver, Solver, "a Solver is wanted")
    answers = [solver.solve(problem) for problem in problems(text, greatest=greatest, low=low, context=context)]
    if not answers:
        raise Fault("the set has no tuple")
    return answers[0] if len(answers) == 1 else solver.last_of(*answers) if greatest else solver.first_of(*answers)


# ---- Answers -------------------------------------------------------------------------------------------------------


def written(answer: Answer, name: str = "") -> str:
    """The answer as isl writes a piecewise quasi-affine function: a piece for each leaf that is a point. Of a map the names
    of its first tuple are parameters. A ValueError where isl has no such names."""
    names = list(checked_answer(answer).posed.parameters)
    of_kind(name, str, "the name of a tuple is a text")
    if other := [own for own in (*names, *([name] if name else [])) if not is_name(own)]:
        raise ValueError(f"no names in isl's notation: {', '.join(other)}")
    held = [f"{it} {own}" for it, own in answer.posed.parameters.items()]
    held += [f"{_text(it.form, {})} {'=' if it.kind == '==' else it.kind} 0" for it in answer.posed.conditions]
    pieces = [f"{name}[{', '.join(f'({it})' for it in point)}]" + (f" : {' and '.join(where)}" if where else "")
              for point, where in _pieces(answer, answer.tree, answer.posed.scope(), held, {})]
    head = f"[{', '.join(names)}] -> " if names else ""
    return f"{head}{{ {'; '.join(pieces)} }}" if pieces else f"{head}{{ {name}[{', '.join(answer.posed.asked)}] : false }}"


def _pieces(answer: Answer, tree: Tree, scope: List[Form], held: List[str],
            floors: Mapping[str, str]) -> Iterator[Tuple[List[str], List[str]]]:
    if isinstance(tree, Choice):
        form = _text(form_of(tree.form, scope), floors)
        yield from _pieces(answer, tree.yes, scope, [*held, f"{form} >= 0"], floors)
        yield from _pieces(answer, tree.no, scope, [*held, f"{form} < 0"], floors)
    elif isinstance(tree, NewParameter):
        own = f"new.{tree.number}"  # (no name in isl's notation)
        left, whole = taken_out(form_of(tree.form, scope), tree.divisor)
        text = f"floor(({_text(left, floors)})/{tree.divisor})"
        yield from _pieces(answer, tree.below, [*scope, Form({own: 1}) + whole], held, {**floors, own: text})
    elif isinstance(tree, Point):
        yield [_text(form, floors) for _, form in answer.posed.point([form_of(row, scope) for row in tree.components])], held


def _text(form: Form, floors: Mapping[str, str]) -> str:
    whole, common = form.whole()
    def named(atom: Atom) -> str:
        return f"floor(({_text(atom.form(), floors)})/{atom.divisor})" if isinstance(atom, Floor) else floors.get(str(atom), str(atom))

    terms = [(number, named(atom)) for atom, number in whole.terms.items()]
    text = "".join((" - " if number < 0 else " + ") + (own if abs(number) == 1 else f"{abs(number)}*{own}") for number, own in terms)
    if whole.constant or not terms:
        text += f"{' - ' if whole.constant < 0 else ' + '}{abs(whole.constant)}"
    text = text[3:] if text.startswith(" + ") else "-" + text[3:]
    return text if common == 1 else f"({text})/{common}"
