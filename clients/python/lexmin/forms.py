"""Affine forms and relations between them."""
from __future__ import annotations

import math
import numbers
import re
from dataclasses import dataclass
from fractions import Fraction
from typing import Any, Callable, Dict, Iterable, Iterator, List, Mapping, NamedTuple, Optional, Sequence, Tuple, Type, TypeVar, Union

Number = Union[int, Fraction]
Atom = Union[str, "Floor", "Column"]  # what a form has numbers of
MAPPING = (dict, Mapping)  # (of the first one it is told sooner)
_Given = TypeVar("_Given")


def of_kind(given: _Given, kinds: Any, what: str) -> _Given:
    """What was given; TypeError with these words where it is of none of these types."""
    if isinstance(given, kinds):
        return given
    raise TypeError(f"{what}, not {given!r}")


def of_kinds(given: object, kinds: Sequence[Any], what: str) -> Tuple[Any, ...]:
    """A tuple of as many things, each of its kind; TypeError with these words where it is none."""
    if isinstance(given, tuple) and len(given) == len(kinds) and all(map(isinstance, given, kinds)):
        return given
    raise TypeError(f"{what}, not {given!r}")


def known(kind: Type[_Given], **parts: object) -> _Given:
    """One of a class of parts, made of parts that need no check any more."""
    made = object.__new__(kind)
    vars(made).update(parts)
    return made


def each(given: Iterable[_Given], what: str) -> Iterator[_Given]:
    """What was given, one after the other; TypeError with these words where it isn't several."""
    try:
        return iter(given)
    except TypeError:
        raise TypeError(f"{what}, not {given!r}") from None


class Form:
    """An affine form: numbers times names, and a constant. A name may also be a Floor."""

    __slots__ = ("terms", "constant")
    terms: Dict[Atom, Number]
    constant: Number

    def __init__(self, terms: Optional[Mapping[Atom, Number]] = None, constant: Number = 0) -> None:
        try:
            items = () if terms is None else terms.items()
        except AttributeError:
            raise TypeError(f"the terms of a form are numbers by names, as {{'n': 2}}, not {terms!r}") from None
        self.terms = {name: number if type(number) is int else plain(number) for name, number in items if number != 0}
        self.constant = plain(constant)

    def __add__(self, other: FormLike) -> Form:
        other = as_form(other)
        terms = dict(self.terms)
        for name, number in other.terms.items():
            terms[name] = terms.get(name, 0) + number
        return Form(terms, self.constant + other.constant)

    __radd__ = __add__

    def __neg__(self) -> Form:
        return self * -1

    def __pos__(self) -> Form:
        return self

    def __sub__(self, other: FormLike) -> Form:
        return self + as_form(other) * -1

    def __rsub__(self, other: FormLike) -> Form:
        return as_form(other) - self

    def __mul__(self, number: Number) -> Form:
        if isinstance(number, Form):
            raise TypeError("a product of two forms is not affine")
        number = plain(number)  # (before it is multiplied: numbers of others have an end)
        return Form({name: number * own for name, own in self.terms.items()}, number * self.constant)

    __rmul__ = __mul__

    def __truediv__(self, number: Number) -> Form:
        return self * (1 / Fraction(plain(number)))

    def __floordiv__(self, divisor: int) -> Form:
        """The floor of the form over a whole number from 1 on; of a number that is one."""
        divisor = from_one_on(divisor, "a floor needs a whole divisor from 1 on")
        scaled, common = self.whole()
        if not scaled.terms:
            return Form({}, scaled.constant // (divisor * common))
        terms = tuple(sorted(scaled.terms.items(), key=str))
        return Form({known(Floor, terms=terms, constant=int(scaled.constant), divisor=divisor * common): 1})

    def __mod__(self, divisor: int) -> Form:
        return self - self // divisor * divisor

    def __ge__(self, other: FormLike) -> Relation:
        return Relation(self - other, ">=")

    def __le__(self, other: FormLike) -> Relation:
        return Relation(as_form(other) - self, ">=")

    def __gt__(self, other: FormLike) -> Relation:
        return Relation(self - other, ">")

    def __lt__(self, other: FormLike) -> Relation:
        return Relation(as_form(other) - self, ">")

    def __eq__(self, other: object) -> Relation:  # type: ignore[override]
        return Relation(self - other, "==")  # type: ignore[operator]

    def __ne__(self, other: object) -> bool:
        raise TypeError("a != b is no relation of a problem: ask for a < b and for a > b")

    __hash__ = None  # type: ignore[assignment]

    def __bool__(self) -> bool:
        raise TypeError("a form has no truth value: of `a and b`, `a or b` Python would take one")

    def whole(self) -> Tuple[Form, int]:
        """The form times the least number from 1 on that makes all its numbers whole, and that number."""
        numbers = [*self.terms.values(), self.constant]
        common = math.lcm(*(number.denominator for number in numbers))
        return (self if common == 1 else self * common), common

    def put(self, values: Callable[[Atom], FormLike]) -> Form:
        """The form with each of its names replaced by what a function gives for it: a form, or a number."""
        if not callable(values):
            raise TypeError(f"a function that gives the form of a name is wanted, not {values!r}")
        terms: Dict[Atom, Number] = {}
        constant = self.constant
        for name, number in self.terms.items():
            form = values(name)
            if type(form) is not Form:
                form = as_form(form)
            constant += number * form.constant
            for inner, own in form.terms.items():
                terms[inner] = terms.get(inner, 0) + number * own
        return Form(terms, constant)

    def substitute(self, names: Mapping[str, FormLike]) -> Form:
        """The form with forms in the place of these names, in floors too: `(2 * i + j).substitute({"i": k + 1})`."""
        def value(atom: Atom) -> Form:
            if isinstance(atom, Floor):
                return atom.form().put(value) // atom.divisor
            return as_form(names[atom]) if isinstance(atom, str) and atom in names else Form({atom: 1})
        if not isinstance(names, dict):
            of_kind(names, Mapping, "forms by the names that they replace are wanted, as {'i': k + 1}")
        return self.put(value)

    def key(self) -> Tuple[object, ...]:
        """What tells it from other forms. (`==` makes a relation.)"""
        return tuple(sorted(self.terms.items(), key=str)), self.constant

    def numbers(self, names: Sequence[Atom]) -> List[Number]:
        """The numbers of these names, 0 of one that the form doesn't have."""
        what = "names are wanted, one after the other"
        if isinstance(names, str):  # (whose letters are names)
            raise TypeError(f"{what}, not {names!r}")
        return self.numbers_of([of_kind(name, ATOMS, what) for name in each(names, what)])

    def numbers_of(self, names: Sequence[Atom]) -> List[Number]:
        """The same of what is known to be names."""
        return [self.terms.get(name, 0) for name in names]

    def names(self) -> List[str]:
        """All names in the form, those in floors too, each once."""
        found: Dict[str, None] = {}
        for atom in self.terms:
            if isinstance(atom, Floor):
                found.update(dict.fromkeys(atom.form().names()))
            elif isinstance(atom, str):
                found[atom] = None
        return list(found)

    def at(self, values: Mapping[str, Number]) -> Number:
        """The form's value where its names have these values; ValueError where a name has none."""
        total = self.constant
        try:
            for name, number in self.terms.items():
                total += number * (name.at(values) if isinstance(name, Floor) else plain(values[str(name)]))
            return plain(total)
        except KeyError as missing:
            raise ValueError(f"no value is given for the name {missing}") from None
        except TypeError:
            of_kind(values, Mapping, "the values of names are wanted, as {'n': 3}")
            raise

    def __str__(self) -> str:
        form, common = self.whole()
        terms = [(number, str(name)) for name, number in form.terms.items()]
        if form.constant != 0 or not terms:
            terms.append((form.constant, ""))
        text = ""
        for number, name in sorted(terms, key=lambda term: term[0] < 0):  # positive terms first
            size = abs(number)
            term = f"{size}" if not name else name if size == 1 else f"{size}*{name}"
            text += f"{' - ' if number < 0 else ' + '}{term}" if text else f"{'-' if number < 0 else ''}{term}"
        if common == 1:
            return text
        return f"({text})/{common}" if len(terms) > 1 else f"{text}/{common}"

    def __repr__(self) -> str:
        return f"Form({self})"


FormLike = Union[Form, int, Fraction]


@dataclass(frozen=True)
class Floor:
    """The floor of a whole form over a divisor, a whole number from 1 on."""

    terms: Tuple[Tuple[Atom, Number], ...]
    constant: int
    divisor: int

    def __post_init__(self) -> None:
        what = "the terms of a floor are names with whole numbers, as (('n', 2),)"
        for term in of_kind(self.terms, tuple, what):
            whole_number(of_kinds(term, (ATOMS, object), what)[1], what)
        vars(self).update(constant=whole_number(self.constant, "the constant of a floor is a whole number"),
                          divisor=from_one_on(self.divisor, "a floor needs a whole divisor from 1 on"))

    def form(self) -> Form:
        return Form(dict(self.terms), self.constant)

    def at(self, values: Mapping[str, Number]) -> int:
        return math.floor(Fraction(self.form().at(values), self.divisor))

    def __str__(self) -> str:
        return f"floor(({self.form()})/{self.divisor})"


class Column(NamedTuple):
    """A parameter or an unknown of the program's, by its place."""

    is_parameter: bool
    place: int

    def __str__(self) -> str:
        return f"{'parameter' if self.is_parameter else 'unknown'}.{self.place}"


ATOMS = (str, Floor, Column)
_KINDS = (">=", ">", "==", "multiple")


@dataclass(frozen=True, eq=False, init=False)
class Relation:
    """That a form is at least 0, above 0, equal to 0, or a multiple of the modulus."""

    form: Form
    kind: str  # ">=", ">", "==" or "multiple"
    modulus: int = 1

    def __init__(self, form: Form, kind: str, modulus: int = 1) -> None:
        if not isinstance(form, Form) or kind not in _KINDS:
            raise TypeError(f"a relation is one of a form, by one of {', '.join(_KINDS)}, not of {form!r} by {kind!r}")
        if type(modulus) is not int or modulus < 1:
            modulus = from_one_on(modulus, "a congruence needs a whole modulus from 1 on")
        vars(self).update(form=form, kind=kind, modulus=modulus)

    def __bool__(self) -> bool:
        raise TypeError("a relation has no truth value, as `low <= x <= high`, `and`, `max`, `min` and `in` want one: say each relation "
                        "by itself, `low <= x, x <= high`")

    def __str__(self) -> str:
        return f"{self.form} is a multiple of {self.modulus}" if self.kind == "multiple" else f"{self.form} {self.kind} 0"

    def __repr__(self) -> str:
        return f"Relation({self})"

    def substitute(self, names: Mapping[str, FormLike]) -> Relation:
        """The relation with forms in the place of these names."""
        return Relation(self.form.substitute(names), self.kind, self.modulus)

    def negated(self) -> List[Relation]:
        """Relations between whole numbers of which exactly one holds where this one doesn't, and none where it does."""
        if self.kind == "multiple":
            form, common = self.form.whole()
            modulus = self.modulus * common
            return [Relation(form - rest, "multiple", modulus) for rest in range(1, modulus)]
        if self.kind == "==":
            return [self.form > 0, self.form < 0]
        return [self.form < 0 if self.kind == ">=" else self.form <= 0]

    def holds_at(self, values: Mapping[str, Number]) -> bool:
        value = self.form.at(values)
        if self.kind == "multiple":
            return value % self.modulus == 0
        return value == 0 if self.kind == "==" else value > 0 if self.kind == ">" else value >= 0


_NAME = re.compile(r"[^\W\d][\w.'\[\]]*")
_WORDS = ("if", "elif", "else", "void", "floor")


def checked_name(name: object) -> str:
    """A name as the texts of answers can hold it: a letter or `_`, then letters, digits and `_`, `.`, `'`, `[`, `]`."""
    if not isinstance(name, str):
        raise TypeError(f"a name is wanted, not {name!r}")
    if not _NAME.fullmatch(name) or name in _WORDS:
        raise ValueError(f"{name!r} can't be a name: a letter or `_` begins it, letters, digits and any of _.'[] follow; "
                         f"{', '.join(_WORDS)} are none")
    return name


def congruent(first: FormLike, second: FormLike, modulus: int) -> Relation:
    """That first - second is a multiple of the modulus, a whole number from 1 on."""
    return Relation(as_form(first) - second, "multiple", from_one_on(modulus, "a congruence needs a whole modulus from 1 on"))


def as_form(value: FormLike) -> Form:
    if isinstance(value, Form):
        return value
    if isinstance(value, numbers.Rational) and not isinstance(value, bool):
        return Form({}, value)
    raise TypeError(f"neither a form nor an exact number: {value!r}")


def checked_relation(relation: object) -> Relation:
    """A relation as it is given to a problem. Python makes True or False of `3 <= 4`, and a text is none."""
    if isinstance(relation, Relation):
        return relation
    if isinstance(relation, (bool, list, tuple, str)):
        hint = {bool: "it compares numbers, not forms", str: "write it with the forms that name it"}
        raise TypeError(f"not a relation between forms: {relation!r}; {hint.get(type(relation), 'give each by itself, as *relations')}")
    raise TypeError(f"not a relation between forms: {relation!r}")


def divided(form: Form, divisor: int) -> Tuple[Form, Form]:
    """The remainders of a whole form's numbers, and the quotients."""
    return (Form({name: number % divisor for name, number in form.terms.items()}, form.constant % divisor),
            Form({name: number // divisor for name, number in form.terms.items()}, form.constant // divisor))


def taken_out(form: Form, divisor: int) -> Tuple[Form, Form]:
    """What is left of a form that is divided, and what is whole of its floor: the floor is that of what is left, and what is whole.
    A constant of at least the divisor, of either sign, goes, and so do coefficients that are multiples of it, if a name is left."""
    whole = Form({name: number // divisor for name, number in form.terms.items() if number % divisor == 0},
                 form.constant // divisor if abs(form.constant) >= divisor else 0)
    return (form - whole * divisor, whole) if len(whole.terms) < len(form.terms) else (form, Form())


def row_text(numbers: Iterable[Number]) -> str:
    return "#[" + " ".join(map(str, numbers)) + "]"


def plain(number: Number) -> Number:
    """The number as an int where it is whole, of Python's own ints: those of others (numpy's) have an end."""
    if type(number) is int:
        return number
    if isinstance(number, numbers.Rational) and not isinstance(number, bool):
        above, below = int(number.numerator), int(number.denominator)
        return above if below == 1 else Fraction(above, below)
    raise TypeError(f"not an exact number: {number!r}")


def whole_number(number: object, what: str) -> int:
    """A whole number, as Python's own; TypeError with these words where it is none."""
    if type(number) is int:
        return number
    if isinstance(number, numbers.Integral) and not isinstance(number, bool):
        return int(number)
    raise TypeError(f"{what}, not {number!r}")


def from_one_on(number: object, what: str) -> int:
    if type(number) is int and number >= 1:
        return number
    if isinstance(number, numbers.Integral) and not isinstance(number, bool) and int(number) >= 1:
        return int(number)
    raise ValueError(f"{what}, not {number!r}")
