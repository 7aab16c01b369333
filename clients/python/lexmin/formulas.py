"""Formulas as isl writes them, read as parts: relations that all hold, with the names of what has to exist. A set is what any of
its parts holds. `notation` makes problems of them, and says what is read."""
from __future__ import annotations

import itertools
import math
import re
from typing import Callable, Collection, Dict, List, Mapping, NamedTuple, Sequence, Set, Tuple, TypeVar

from .forms import Form, Relation, congruent, of_kind

_NAME = r"[A-Za-z_][A-Za-z0-9_']*"
_TOKEN = re.compile(rf"\s*(->|<<=|>>=|<<|>>|<=|>=|==|!=|&&|\|\||\d+|{_NAME}|[-+*/%(){{}}\[\],:;<>=!])")
_COMPARE: Dict[str, Callable[[Form, Form], List[Relation]]] = {
    "<": lambda a, b: [a < b], "<=": lambda a, b: [a <= b], "=": lambda a, b: [a == b], "==": lambda a, b: [a == b],
    ">=": lambda a, b: [a >= b], ">": lambda a, b: [a > b], "!=": lambda a, b: [a < b, a > b]}
_BEFORE = {"<<": "<", "<<=": "<", ">>": ">", ">>=": ">"}  # lexicographic comparisons, with that of the first places that differ
_WORDS = ("and", "or", "not", "exists", "mod", "floor", "floord", "ceil", "ceild", "min", "max", "true", "false", "implies")
MOST_PARTS = 256  # of the `or` of one set


class Fault(ValueError):
    """What can't be read, and where it stands."""


def is_name(word: str) -> bool:
    return re.fullmatch(_NAME, word) is not None and word not in _WORDS


class Part(NamedTuple):
    """Relations that all hold, and the names of what has to exist."""

    relations: Tuple[Relation, ...]
    further: Tuple[str, ...]

    def under(self, other: Part) -> Part:
        return Part(self.relations + other.relations, self.further + other.further)


class _Case(NamedTuple):
    """A form, where these relations hold."""

    held: Tuple[Relation, ...]
    form: Form


class Tuples(NamedTuple):
    named: Tuple[str, ...]  # the names of the tuples themselves
    domain: List[str]  # of a map
    unknowns: List[str]
    parts: List[Part]


_Read = TypeVar("_Read")


def _not_too_deep(read: Callable[[], _Read]) -> _Read:
    try:
        return read()
    except RecursionError:
        raise Fault("the text is nested too deep") from None


class Reader:
    def __init__(self, text: str) -> None:
        self.text, self.place = of_kind(text, str, "a text is wanted"), 0
        self.taken: Set[str] = set()  # all names that were given
        self.words = set(re.findall(_NAME, text))

    # Tokens.

    def peek(self) -> str:
        match = _TOKEN.match(self.text, self.place)
        if match:
            return match.group(1)
        if self.text[self.place:].strip():
            raise self.fault("a sign that is not read")
        return ""

    def take(self) -> str:
        match = _TOKEN.match(self.text, self.place)
        if not match:
            raise self.fault("the text ends, or a sign is not read,")
        self.place = match.end()
        return match.group(1)

    def expect(self, wanted: str) -> None:
        if self.peek() != wanted:
            raise self.fault(f"`{wanted}` is missing")
        self.take()

    def has(self, *words: str) -> bool:
        if self.peek() in words:
            self.take()
            return True
        return False

    def fault(self, words: str) -> Fault:
        rest = self.text[self.place:].strip()
        return Fault(f"{words} at `{rest[:20]}`" if rest else f"{words} at the end")

    def is_name(self) -> bool:
        return is_name(self.peek())

    def name(self) -> str:
        if not self.is_name():
            raise self.fault("a name is missing")
        return self.take()

    def fresh(self, name: str, others: Collection[str] = ()) -> str:
        """The name, changed where it is taken or one of the others."""
        while name in self.taken or name in others:
            name += "'"
        self.taken.add(name)
        return name

    # Sets.

    def whole(self) -> Tuple[List[str], List[Tuples]]:
        return _not_too_deep(self.set)

    def conditions(self, names: Sequence[str]) -> List[Part]:
        """The parts of a text of constraints alone."""
        found = _not_too_deep(lambda: self.formula({name: name for name in names}))
        if self.peek():
            raise self.fault("more than constraints")
        return found

    def set(self) -> Tuple[List[str], List[Tuples]]:
        parameters: List[str] = []
        if self.has("["):
            while self.peek() != "]":
                parameters.append(self.name())
                if not self.has(","):
                    break
            self.expect("]")
            self.expect("->")
        self.expect("{")
        found: List[Tuples] = []
        while self.peek() != "}":
            self.taken = set(parameters)
            found.append(self.tuple_of({name: name for name in parameters}))
            if not self.has(";"):
                break
        self.expect("}")
        if self.peek():
            raise self.fault("more than a set")
        return parameters, found

    def tuple_of(self, known: Dict[str, str]) -> Tuples:
        named = [self.tuple_name()]
        first, made = self.entries(known, "i")
        domain: List[str] = []
        if self.has("->"):
            domain = first
            named.append(self.tuple_name())
            first, more = self.entries(known, "o")
            made = product(made, more)
        if self.peek() == "->":
            raise self.fault("a map of maps is not read")
        if self.has(":"):
            made = product(made, self.formula(known))
        return Tuples(tuple(named), domain, first, made)

    def tuple_name(self) -> str:
        return "" if self.peek() == "[" else self.name()

    def entries(self, known: Dict[str, str], letter: str) -> Tuple[List[str], List[Part]]:
        """The names of a tuple; a form in the place of a name is equal to an own name. Adds the names to those known."""
        self.expect("[")
        names: List[str] = []
        made = [Part((), ())]
        while self.peek() != "]":
            before = self.place
            if self.is_name():
                name = self.take()
                if name not in known and self.peek() in (",", "]"):
                    self.taken.add(name)
                    known[name] = name
                    names.append(name)
                    if not self.has(","):
                        break
                    continue
                self.place = before
            own = self.fresh(f"{letter}{len(names)}", self.words)  # (what the text names later is another one)
            names.append(own)
            made = product(made, [Part((*case.held, Form({own: 1}) == case.form), ()) for case in self.form(known)])
            if not self.has(","):
                break
        self.expect("]")
        return names, made

    # Constraints.

    def formula(self, known: Mapping[str, str]) -> List[Part]:
        found = self.disjunction(known)
        return negated(found) + self.disjunction(known) if self.has("implies") else found

    def disjunction(self, known: Mapping[str, str]) -> List[Part]:
        found = self.conjunction(known)
        while self.has("or", "||"):
            found = found + self.conjunction(known)
        return found

    def conjunction(self, known: Mapping[str, str]) -> List[Part]:
        found = self.basic(known)
        while self.has("and", "&&"):
            found = product(found, self.basic(known))
        return found

    def basic(self, known: Mapping[str, str]) -> List[Part]:
        if self.has("not", "!"):
            return negated(self.basic(known))
        if self.has("true"):
            return [Part((), ())]
        if self.has("false"):
            return []
        if self.has("exists"):
            return self.exists(known)
        if self.peek() == "(":  # a bracket of a form, or of constraints
            before = self.place
            try:
                return self.chain(known)
            except Fault as fault:
                as_form, place, self.place = fault, self.place, before
            try:
                self.take()
                found = self.formula(known)
                self.expect(")")
            except Fault as fault:  # what was read further says what is wrong
                raise (as_form if place > self.place else fault) from None
            return found
        return self.chain(known)

    def exists(self, known: Mapping[str, str]) -> List[Part]:
        bracket = self.has("(")
        own: Dict[str, str] = {}
        defined: List[Part] = [Part((), ())]
        while True:
            name = self.name()
            own[name] = self.fresh(name)
            if self.has("="):  # isl writes `exists (e0 = floor((i)/2) : ..)`
                cases = self.form({**known, **own})
                defined = product(defined, [Part((*case.held, Form({own[name]: 1}) == case.form), ()) for case in cases])
            if not self.has(","):
                break
        self.expect(":")
        inner = product(defined, self.formula({**known, **own}))
        if bracket:
            self.expect(")")
        return [Part(it.relations, (*own.values(), *it.further)) for it in inner]

    def chain(self, known: Mapping[str, str]) -> List[Part]:
        left = self.forms(known)
        if self.peek() not in _COMPARE and self.peek() not in _BEFORE:
            raise self.fault("a comparison is missing, or one of tuples,")
        made = [Part((), ())]
        while self.peek() in _COMPARE or self.peek() in _BEFORE:
            word = self.take()
            right = self.forms(known)
            if word in _BEFORE:
                made = product(made, self.before(left, right, word))
            else:
                for one, other in itertools.product(left, right):
                    made = product(made, _compared(one, other, _COMPARE[word]))
            left = right
        return made

    def before(self, left: List[List[_Case]], right: List[List[_Case]], word: str) -> List[Part]:
        """That one list of forms is lexicographically before another one: equal at some first places, and then less."""
        if len(left) != len(right):
            raise self.fault("lists of different lengths,")
        less, equal = _COMPARE[_BEFORE[word]], _COMPARE["="]
        found: List[Part] = []
        same = [Part((), ())]
        for one, other in zip(left, right):
            found += product(same, _compared(one, other, less))
            same = product(same, _compared(one, other, equal))
        return found + same if word.endswith("=") else found

    # Forms, by cases.

    def forms(self, known: Mapping[str, str]) -> List[List[_Case]]:
        found = [self.form(known)]
        while self.has(","):
            found.append(self.form(known))
        return found

    def form(self, known: Mapping[str, str]) -> List[_Case]:
        found = self.term(known)
        while self.peek() in ("+", "-"):
            sign = 1 if self.take() == "+" else -1
            more = self.term(known)
            few(len(found) * len(more))
            found = [_Case(a.held + b.held, a.form + b.form * sign) for a in found for b in more]
        return found

    def term(self, known: Mapping[str, str], behind: str = "") -> List[_Case]:
        """`behind` is what was done last, or the minus of a number: what isl does then in another order than others is a Fault."""
        found = self.factor(known)
        while True:
            bare = len(found) == 1 and not found[0].form.terms
            if self.has("*") or (bare and (self.is_name() or self.peek() in ("(", "floor", "ceil", "floord", "ceild", "min", "max"))):
                if behind == "a quotient":
                    raise self.fault("a product behind a quotient: brackets are wanted")
                found, behind = self.times(found, self.factor(known)), "a product"
            elif self.peek() in ("mod", "%"):
                if behind in ("a product", "a minus"):
                    raise self.fault(f"`mod` behind {behind}: brackets are wanted, as in `(2i) mod 3` or `2*(i mod 3)`,")
                self.take()
                divisor = self.whole_number()
                found, behind = [_Case(it.held, it.form % divisor) for it in found], ""
            elif self.has("/"):
                divisor = self.whole_number()
                found, behind = [_Case(it.held, it.form / divisor) for it in found], "a quotient"
            else:
                return found

    def times(self, first: List[_Case], second: List[_Case]) -> List[_Case]:
        made = []
        few(len(first) * len(second))
        for a, b in itertools.product(first, second):
            if a.form.terms and b.form.terms:
                raise self.fault("a product of two names is not affine,")
            made.append(_Case(a.held + b.held, b.form * a.form.constant if not a.form.terms else a.form * b.form.constant))
        return made

    def factor(self, known: Mapping[str, str]) -> List[_Case]:
        if self.has("-"):
            return [_Case(it.held, -it.form) for it in self.term(known, "a minus" if self.peek().isdigit() else "")]
        if self.peek().isdigit():
            return [_Case((), Form({}, int(self.take())))]
        if self.has("floor"):
            return [_Case(it.held, it.form // 1) for it in self.bracket(known)]
        if self.has("ceil"):
            return [_Case(it.held, -(-it.form // 1)) for it in self.bracket(known)]
        if self.peek() in ("floord", "ceild"):
            sign = 1 if self.take() == "floord" else -1
            self.expect("(")
            inner = self.form(known)
            self.expect(",")
            divisor = self.whole_number()
            self.expect(")")
            return [_Case(it.held, it.form * sign // divisor * sign) for it in inner]
        if self.peek() in ("min", "max"):
            return self.choice(self.take() == "min", known)
        if self.peek() == "(":
            return self.bracket(known)
        name = self.name()
        if name not in known:
            raise Fault(f"the name {name} is neither a parameter, an unknown nor one of `exists`")
        return [_Case((), Form({known[name]: 1}))]

    def bracket(self, known: Mapping[str, str]) -> List[_Case]:
        self.expect("(")
        inner = self.form(known)
        self.expect(")")
        return inner

    def choice(self, least: bool, known: Mapping[str, str]) -> List[_Case]:
        """The least or the greatest of forms: a case for each, where it is that, and none before it is too."""
        self.expect("(")
        found = self.forms(known)
        self.expect(")")
        made: List[_Case] = []
        few(math.prod(map(len, found)) * len(found))
        for picked in itertools.product(*found):
            held = tuple(relation for it in picked for relation in it.held)
            for place, own in enumerate(picked):
                more = []
                for other_place, other in enumerate(picked):
                    a, b = (own.form, other.form) if least else (other.form, own.form)
                    if other_place != place:
                        more.append(a < b if other_place < place else a <= b)
                made.append(_Case((*held, *more), own.form))
        return made

    def whole_number(self) -> int:
        if not self.peek().isdigit() or int(self.peek()) == 0:
            raise self.fault("a whole number from 1 on is missing")
        return int(self.take())


def _compared(one: Sequence[_Case], other: Sequence[_Case], compare: Callable[[Form, Form], List[Relation]]) -> List[Part]:
    return [Part((*a.held, *b.held, relation), ()) for a in one for b in other for relation in compare(a.form, b.form)]


def negated(parts: Sequence[Part]) -> List[Part]:
    """Where none of the parts holds."""
    found = [Part((), ())]
    for part in parts:
        found = product(found, [Part((it,), ()) for relation in without_further(part) for it in _negated(relation)])
    return found


def _negated(relation: Relation) -> List[Relation]:
    if relation.kind != "multiple":
        return relation.negated()
    form, common = relation.form.whole()
    return [form % (relation.modulus * common) >= 1]


def without_further(part: Part) -> List[Relation]:
    """The relations of a part without the names of what has to exist: one that an equality gives is put into the others, and one
    that stands in an equality alone leaves a congruence. A Fault where neither is so."""
    relations = list(part.relations)
    for name in part.further:
        own = [it for it in relations if name in it.form.names()]
        given = next((it for it in own if it.kind == "==" and _number(it.form, name) in (1, -1)), None)
        if given is not None:
            form = given.form.whole()[0]
            value = (Form({name: 1}) * _number(form, name) - form) * _number(form, name)
            relations = [it.substitute({name: value}) for it in relations if it is not given]
        elif len(own) == 1 and own[0].kind == "==" and _number(own[0].form, name):
            form = own[0].form.whole()[0]
            number = _number(form, name)
            relations[relations.index(own[0])] = congruent(form, Form({name: number}), abs(number))
        elif own:
            raise Fault(f"`not` of an `exists` whose name {name} is neither a form of others nor in one equality alone")
    return relations


def _number(form: Form, name: str) -> int:
    """The coefficient of a name, 0 where it stands in a floor too."""
    whole = form.whole()[0]
    number = int(whole.terms.get(name, 0))
    return number if number and name not in (whole - Form({name: number})).names() else 0


def few(count: int) -> None:
    if count > MOST_PARTS:
        raise Fault(f"the set has more than {MOST_PARTS} parts")


def product(first: Sequence[Part], second: Sequence[Part]) -> List[Part]:
    few(len(first) * len(second))
    return [a.under(b) for a in first for b in second]
