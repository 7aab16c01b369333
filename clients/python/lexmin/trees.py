"""The trees of answers: reading and writing their texts, valuing them."""
from __future__ import annotations

import math
import operator
import re
from dataclasses import dataclass
from fractions import Fraction
from typing import Iterable, List, Optional, Sequence, Tuple, Union

from .forms import Form, FormLike, Number, as_form, each, from_one_on, known, of_kind, plain, row_text, whole_number

Row = Tuple[Number, ...]  # the numbers of the parameters and the new parameters, and the constant last


@dataclass(frozen=True)
class Bottom:
    """No point."""


@dataclass(frozen=True)
class Void:
    """No parameters satisfy the context."""


@dataclass(frozen=True)
class Point:
    """A point, by its components: each is a row."""

    components: Tuple[Row, ...]

    def __post_init__(self) -> None:
        if not of_kind(self.components, tuple, "the components of a point are rows, as ((1, 0),)"):
            raise ValueError("a point has a component at least")
        vars(self).update(components=tuple(map(_checked_row, self.components)))


@dataclass(frozen=True)
class Choice:
    """`yes` where the form is at least 0, else `no`."""

    form: Row
    yes: Tree
    no: Tree

    def __post_init__(self) -> None:
        vars(self).update(form=_checked_row(self.form), yes=checked_tree(self.yes), no=checked_tree(self.no))


@dataclass(frozen=True)
class NewParameter:
    """Parameter `number`, counted from 0 on, is the floor of the form over the divisor, from 1 on, in the tree below."""

    number: int
    form: Row
    divisor: int
    below: Tree

    def __post_init__(self) -> None:
        vars(self).update(number=whole_number(self.number, "the number of a new parameter is a whole number"), form=_checked_row(self.form),
                          divisor=from_one_on(self.divisor, "a new parameter needs a whole divisor from 1 on"),
                          below=checked_tree(self.below))


Tree = Union[Bottom, Void, Point, Choice, NewParameter]


def checked_tree(tree: Tree) -> Tree:
    return of_kind(tree, (Choice, Point, NewParameter, Bottom, Void), "the tree of an answer is wanted")


def _checked_row(row: Row) -> Row:
    """A row of exact numbers, as Python's own."""
    what = "a row of numbers is wanted, the constant last, as (1, 0)"
    if not of_kind(row, tuple, what):
        raise ValueError(f"{what}, not {row!r}")
    return tuple(map(plain, row))


_TOKEN = re.compile(r"[ \t\n\f\r]*(#\[|[()\]]|[-+]?\d+(?:/\d+)?|[A-Za-z]+)", re.ASCII)
_BRACKET = re.compile(r"[()]")


def as_text(data: bytes) -> str:
    """The text of bytes. A comment may hold any: those that are no UTF-8 stand as surrogates."""
    return data.decode(errors="surrogateescape")


def as_bytes(text: str) -> bytes:
    return text.encode(errors="surrogateescape")


def groups(text: str) -> List[str]:
    """The groups of balanced brackets of a text, one after the other. What stands between them is dropped."""
    found, depth, start = [], 0, 0
    for match in _BRACKET.finditer(of_kind(text, str, "a text is wanted")):
        if match.group() == "(":
            if depth == 0:
                start = match.start()
            depth += 1
        elif depth > 0:
            depth -= 1
            if depth == 0:
                found.append(text[start:match.end()])
    if depth > 0:
        raise ValueError("a bracket is not closed")
    return found


def is_one_group(text: str) -> bool:
    try:
        return groups(text) == [text.strip()]
    except ValueError:
        return False


@dataclass(frozen=True)
class PieceOf:
    """A leaf with what stands on its path: forms that are at least 0, and new parameters, in their order."""

    path: Tuple[Union[Row, NewParameter], ...]  # of a new parameter the tree below is the leaf
    leaf: Union[Bottom, Point]


def parse_pieces(text: str) -> List[PieceOf]:
    """The pieces of an answer, as the command `pieces` writes them; none where the answer is `void`."""
    return _Reader(text).pieces()


def answer_text(comment: str, tree: Tree) -> str:
    """The text of an answer, as the program prints it."""
    return f"(({of_kind(comment, str, 'a comment is a text')})\n{tree_text(tree)})\n"


def tree_text(tree: Tree) -> str:
    if isinstance(tree, Choice):
        return f"(if {_form_text(tree.form)}\n{tree_text(tree.yes)}{tree_text(tree.no)})\n"
    if isinstance(tree, NewParameter):
        return f"(newparm {tree.number} (div {_form_text(tree.form)} {tree.divisor}))\n{tree_text(tree.below)}"
    if isinstance(tree, Point):
        return "(list\n{})\n".format("".join(_form_text(row) + "\n" for row in tree.components))
    return "void\n" if isinstance(checked_tree(tree), Void) else "()\n"


def _form_text(row: Row) -> str:
    return row_text(row).replace("#[", "#[ ", 1)


def leaves(tree: Tree) -> List[Tree]:
    """The leaves of a tree, in the order in which they stand."""
    if isinstance(tree, Choice):
        return leaves(tree.yes) + leaves(tree.no)
    return leaves(tree.below) if isinstance(tree, NewParameter) else [tree]


def parse_answer(text: str) -> Tuple[str, Tree]:
    """The comment of an answer, without its brackets, and its tree."""
    try:
        return _Reader(text).answer()
    except RecursionError:
        raise ValueError("no answer: its tree is nested too deep") from None


class _Reader:
    def __init__(self, text: str) -> None:
        self.text = of_kind(text, str, "the text of an answer is wanted")
        self.place = 0
        self.parameters: Optional[int] = None  # over how many the answer is, as its first form or new parameter says

    def scoped(self, row: Row, new: int) -> Row:
        """A row behind so many new parameters of its path, whose numbers are as many as are in scope, and the constant."""
        self.counted(len(row) - 1, new)
        return row

    def counted(self, count: int, new: int) -> None:
        if self.parameters is None:
            self.parameters = count - new
        if self.parameters < 0 or count != self.parameters + new:
            raise ValueError(f"no answer: {count} parameters and new parameters before character {self.place}, where "
                             f"{max(self.parameters, 0) + new} are in scope")

    def answer(self) -> Tuple[str, Tree]:
        self.expect("(")
        comment = self.comment()
        tree = self.tree()
        self.end()
        return comment, tree

    def end(self) -> None:
        self.expect(")")
        if self.text[self.place:].strip():
            raise ValueError(f"more than one answer, at character {self.place}")

    def pieces(self) -> List[PieceOf]:
        self.expect("(")
        self.comment()
        found: List[PieceOf] = []
        token = self.token()
        if token == "void":
            self.end()
            return found
        while token == "(":
            self.expect("piece")
            found.append(self.piece())
            token = self.token()
        if token != ")" or self.text[self.place:].strip():
            raise ValueError(f"no pieces, at character {self.place}")
        return found

    def piece(self) -> PieceOf:
        path: List[Union[Row, NewParameter]] = []
        new = 0  # of the path's new parameters
        while True:
            self.expect("(")
            word = self.token()
            if word == "where":
                path.append(self.scoped(self.row(), new))
                self.expect(")")
            elif word == "newparm":
                number, form, divisor = self.quotient(new)
                path.append(known(NewParameter, number=number, form=form, divisor=divisor, below=Bottom()))
                new += 1
            else:
                leaf: Union[Bottom, Point] = Bottom() if word == ")" else self.point(new)
                self.expect(")")
                return PieceOf(tuple(path), leaf)

    def token(self) -> str:
        match = _TOKEN.match(self.text, self.place)
        if not match:
            raise ValueError(f"no answer, at character {self.place}")
        self.place = match.end()
        return match.group(1)

    def expect(self, wanted: str) -> None:
        start = self.place
        if self.token() != wanted:
            raise ValueError(f"no answer: `{wanted}` is missing at character {start}")

    def comment(self) -> str:
        start = self.text.find("(", self.place)
        depth = 0
        for match in _BRACKET.finditer(self.text, start if start >= 0 else len(self.text)):
            depth += 1 if match.group() == "(" else -1
            if depth == 0:
                self.place = match.end()
                return self.text[start + 1:match.start()]
        raise ValueError("no answer: its comment does not end")

    def row(self) -> Row:
        self.expect("#[")
        return self.numbers()

    def numbers(self) -> Row:
        """The numbers behind a `#[`, and its bracket."""
        numbers: List[Number] = []
        token = self.token()
        while token != "]":
            try:
                numbers.append(plain(Fraction(token)) if "/" in token else int(token))
            except ZeroDivisionError:
                raise ValueError(f"no answer: a denominator 0 before character {self.place}") from None
            token = self.token()
        if not numbers:
            raise ValueError(f"no answer: a form without a constant before character {self.place}")
        return tuple(numbers)

    def tree(self, new: int = 0) -> Tree:
        token = self.token()
        if token == "void":
            return Void()
        if token != "(":
            hint = ": a problem's sizes stand there, and `solve` writes its answer" if token.lstrip("+-").isdigit() else ""
            raise ValueError(f"no answer: a tree is missing at character {self.place - len(token)}{hint}")
        word = self.token()
        if word == ")":
            return Bottom()
        if word == "list":
            return self.point(new)
        if word == "if":
            form, yes, no = self.scoped(self.row(), new), self.tree(new), self.tree(new)
            self.expect(")")
            return known(Choice, form=form, yes=yes, no=no)
        if word != "newparm":
            raise ValueError(f"no answer: unknown word {word}")
        number, form, divisor = self.quotient(new)
        return known(NewParameter, number=number, form=form, divisor=divisor, below=self.tree(new + 1))

    def quotient(self, new: int) -> Tuple[int, Row, int]:
        """What stands behind `newparm`: its number, form and divisor."""
        number = int(self.token())
        self.counted(number, new)
        self.expect("(")
        self.expect("div")
        form, divisor = self.scoped(self.row(), new), int(self.token())
        if divisor < 1:
            raise ValueError(f"no answer: a divisor below 1 before character {self.place}")
        self.expect(")")
        self.expect(")")
        return number, form, divisor

    def point(self, new: int) -> Point:
        components: List[Row] = []
        token = self.token()
        while token != ")":
            if token != "#[":
                raise ValueError(f"no answer: `#[` is missing at character {self.place - len(token)}")
            components.append(self.scoped(self.numbers(), new))
            token = self.token()
        if not components:
            raise ValueError(f"no answer: a list without components before character {self.place}")
        return known(Point, components=tuple(components))


def parameter_count(tree: Tree) -> Optional[int]:
    """Over how many parameters a tree is; none where it has no form to tell."""
    if isinstance(tree, NewParameter):
        return tree.number
    if isinstance(tree, Choice):
        return len(tree.form) - 1
    if isinstance(tree, Point):
        return len(tree.components[0]) - 1
    checked_tree(tree)
    return None


def value_at(tree: Tree, parameters: Sequence[int]) -> Union[Bottom, Void, Tuple[Number, ...]]:
    """A tree's value at parameters, in the program's order; ValueError where a row on the way has another number of numbers."""
    scope = [plain(number) for number in each(parameters, "the program's parameters are wanted, in its order")]
    if parameter_count(tree) not in (None, len(scope)):
        raise ValueError(f"{len(scope)} parameters for a tree over {parameter_count(tree)}")

    def value(row: Row) -> Number:
        if len(row) != len(scope) + 1:
            raise ValueError(f"a row of {len(row)} numbers, where {len(scope)} parameters and new ones are in scope, and the constant")
        return sum(map(operator.mul, row, scope)) + row[-1]

    while not isinstance(tree, (Bottom, Void)):
        if isinstance(tree, Point):
            return tuple(plain(value(row)) for row in tree.components)
        if isinstance(tree, Choice):
            tree = tree.yes if value(tree.form) >= 0 else tree.no
        else:
            scope.append(math.floor(value(tree.form) / Fraction(tree.divisor)))
            tree = tree.below
    return tree


def form_of(row: Row, scope: Sequence[FormLike]) -> Form:
    """A row of a tree as a form, over the parameters and new parameters in scope."""
    total = Form({}, row[-1])
    for number, own in zip(row, scope):
        total += as_form(own) * number
    return total


def new_parameter_names(tree: Tree, taken: Iterable[str]) -> List[str]:
    """Names for the new parameters by their place on their path: `q`, or `q1`, `q2` and so on, none of which is taken."""
    def deepest(tree: Tree) -> int:
        if isinstance(tree, Choice):
            return max(deepest(tree.yes), deepest(tree.no))
        return 1 + deepest(tree.below) if isinstance(tree, NewParameter) else 0

    count, used = deepest(tree), set(taken)
    names, letter = (["q"] if count == 1 else []), "q"
    while len(names) < count or used & set(names):
        names = [f"{letter}{place + 1}" for place in range(count)]
        letter += "_"
    return names
