"""Answers as sources: reads the text of `pip solve` and writes each answer as a function in Python, or in C.

    lexmin source [--c] [--name NAME] [--parameters NAMES] [--unknowns NAMES] [FILE]

    $ ./pip solve <examples/tile-of-iteration.pip | lexmin source --name tile --parameters i,N

The function takes the parameters in the problem's order. In Python it gives the values of the unknowns as a tuple, or None where
there is no point; in C it writes them and returns 1, or returns 0. It says nothing of parameters outside the context. C's
numbers are those of `long long`: a function that would hold others is refused, and nothing is said of one whose sums pass them.

NAMES stand apart by commas, in the order of the problem. Without them parameters are p0, p1, .. Unknowns behind the last one that
is named are left out. Of several answers the functions are NAME1, NAME2 and so on. Without a FILE the text is standard input.
"""
from __future__ import annotations

import argparse
import pathlib
import re
import sys
from typing import Dict, Iterator, List, Optional, Sequence, Set

from .answers import Answer, checked_answer
from .drawing import answer_texts, names_of, told_apart, told_which
from .forms import Column, Floor, Form, Number, of_kind, taken_out
from .problems import Range, Space
from .trees import Choice, NewParameter, Point, Tree, form_of, leaves, parameter_count, parse_answer

MOST_INDENTS = 90  # of lines in Python, which takes 100
MOST_IN_C = 2**63 - 1
_PLAIN = re.compile(r"(?!_[A-Z_])[A-Za-z_][A-Za-z0-9_]*")  # (`_Bool`, `__debug__` are words of C, of Python)
_TAKEN = frozenset("""alignas alignof and as asm assert async await auto bool break case char class const constexpr continue def default del do
double elif else enum except extern false finally float for from global goto if import in inline int is lambda long None nonlocal not nullptr or
pass raise register restrict return short signed sizeof static static_assert struct switch thread_local True False true try typedef typeof
typeof_unqual union unsigned void volatile while with yield linux unix floor_of point lexmin""".split())


def python_source(answer: Answer, name: str = "lexmin") -> str:
    """The source of a function in Python, for whole numbers."""
    writer = _Writer(answer, name, c=False)
    head = f"def {name}({', '.join(writer.parameters)}):"
    return "\n".join([head, *writer.lines("    ")]) + "\n"


C_FLOOR = """static long long floor_of(long long form, long long divisor)
{
    return form / divisor - (form % divisor < 0);
}
"""


def c_source(answer: Answer, name: str = "lexmin", *, floor: bool = True) -> str:
    """The source of a function in C, with the floor that it calls, where that does not stand in the same file already."""
    writer = _Writer(answer, name, c=True)
    taken = [f"long long {own}" for own in writer.parameters] + ["long long *point"]
    lines = [f"int {name}({', '.join(taken)})", "{", *writer.lines("    "), "}"]
    return (C_FLOOR + "\n" if floor and any("floor_of(" in line for line in lines) else "") + "\n".join(lines) + "\n"


class _Writer:
    def __init__(self, answer: Answer, name: str, c: bool) -> None:
        if not _PLAIN.fullmatch(of_kind(name, str, "the name of a function is a text")) or (name in _TAKEN and name != "lexmin"):
            raise ValueError(f"{name!r} can't be the name of a function")
        self.answer, self.c = checked_answer(answer), c
        self.turned = not c and _indents(answer.tree) > MOST_INDENTS
        self.names: Dict[str, str] = {}
        self._used: Set[str] = set()  # the names in what was written
        for own in answer.posed.parameters:
            plain = own if _PLAIN.fullmatch(own) and own not in _TAKEN and own != name else f"p{len(self.names)}_"
            while plain in self.names.values():
                plain += "_"
            self.names[own] = plain
        self.parameters = list(self.names.values())

    def lines(self, margin: str) -> Iterator[str]:
        yield from self._below(self.answer.tree, self.answer.posed.scope(), margin)

    def _below(self, tree: Tree, scope: List[Form], margin: str) -> Iterator[str]:
        if isinstance(tree, Choice):
            asked, inner, outer = f"{self._text(form_of(tree.form, scope).whole()[0])} >= 0", tree.yes, tree.no
            if self.turned and _least_indents(tree.no) < _least_indents(tree.yes):
                asked, inner, outer = asked.replace(">= 0", "< 0"), tree.no, tree.yes
            yield f"{margin}if ({asked}) {{" if self.c else f"{margin}if {asked}:"
            yield from self._below(inner, scope, margin + "    ")
            if self.c:
                yield margin + "}"
            yield from self._below(outer, scope, margin)  # what stands above has returned
        elif isinstance(tree, NewParameter):
            own = f"q{tree.number}_"
            while own in self.parameters or own in self.names:
                own += "_"
            yield from self._quotient(tree, own, scope, margin)
        elif isinstance(tree, Point):
            point = self.answer.posed.point([form_of(row, scope) for row in tree.components])
            yield from self._point([form for _, form in point], margin)
        else:
            yield f"{margin}return {'0;' if self.c else 'None'}"

    def _quotient(self, tree: NewParameter, own: str, scope: List[Form], margin: str) -> Iterator[str]:
        """A quotient and what stands below it; without the quotient where nothing there uses it, since compilers warn of such."""
        form, common = form_of(tree.form, scope).whole()
        left, whole = taken_out(form, tree.divisor * common)
        outside, self._used = self._used, set()
        below = list(self._below(tree.below, [*scope, Form({own: 1}) + whole], margin))
        inside, self._used = self._used, outside
        if own in inside:
            text = self._floor(self._text(left), tree.divisor * common)
            yield f"{margin}{'const long long ' if self.c else ''}{own} = {text}{';' if self.c else ''}"
        self._used |= inside
        yield from below

    def _point(self, forms: Sequence[Form], margin: str) -> Iterator[str]:
        if any(form.whole()[1] != 1 for form in forms):
            raise ValueError("a point has fractions: the source is one for whole numbers")
        if not self.c:
            yield f"{margin}return ({''.join(self._text(form) + ', ' for form in forms).rstrip() if forms else ''})"
            return
        for place, form in enumerate(forms):
            yield f"{margin}point[{place}] = {self._text(form)};"
        yield f"{margin}return 1;"

    def _floor(self, text: str, divisor: int) -> str:
        self._fits(divisor)
        return f"floor_of({text}, {divisor})" if self.c else f"({text}) // {divisor}"

    def _fits(self, number: Number) -> None:
        if self.c and abs(number) > MOST_IN_C:
            raise ValueError(f"the number {number} is past those of `long long`")

    def _text(self, form: Form) -> str:
        terms = []
        for number in (*form.terms.values(), form.constant):
            self._fits(number)
        for atom, number in form.terms.items():
            if isinstance(atom, Floor):
                own = f"({self._floor(self._text(atom.form()), atom.divisor)})"
            else:
                own = self.names.get(str(atom), str(atom))
                self._used.add(own)
            terms.append(f"{'-' if number < 0 else '+'} {own if abs(number) == 1 else f'{abs(number)} * {own}'}")
        if form.constant or not terms:
            terms.append(f"{'-' if form.constant < 0 else '+'} {abs(form.constant)}")
        text = " ".join(terms)
        return text[2:] if text.startswith("+ ") else "-" + text[2:]


def _indents(tree: Tree) -> int:
    """In how many choices the innermost line stands, where `yes` stands inside of each."""
    if isinstance(tree, Choice):
        return max(_indents(tree.yes) + 1, _indents(tree.no))
    return _indents(tree.below) if isinstance(tree, NewParameter) else 0


def _least_indents(tree: Tree) -> int:
    """The same, where of each choice the side that takes less stands inside."""
    if isinstance(tree, Choice):
        one, other = _least_indents(tree.yes), _least_indents(tree.no)
        return one + 1 if one == other else max(one, other)
    return _least_indents(tree.below) if isinstance(tree, NewParameter) else 0


# ---- The command ---------------------------------------------------------------------------------------------------


def read_answer(text: str, parameters: Optional[Sequence[str]] = None, unknowns: Optional[Sequence[str]] = None) -> Answer:
    """An answer's text with names for its places."""
    comment, tree = parse_answer(text)
    count = parameter_count(tree)
    names = [f"p{place}" for place in range(count or 0)] if parameters is None else parameters
    if count is not None and len(names) != count:
        raise ValueError(f"{len(names)} names of parameters for an answer over {count}")
    components = min((len(leaf.components) for leaf in leaves(tree) if isinstance(leaf, Point)), default=len(unknowns or ()))
    own = [f"x{place}" for place in range(components)] if unknowns is None else unknowns
    if len(own) > components:
        raise ValueError(f"{len(own)} names of unknowns for points of {components}")
    for chosen in (names, own):
        told_apart(chosen)
    points = {name: Form({Column(False, place): 1}) for place, name in enumerate(own)}
    return Answer(Space(comment, {name: Range(0) for name in names}, [], points), text, tree)


def sources(texts: Sequence[str], name: str, parameters: Optional[Sequence[str]], unknowns: Optional[Sequence[str]],
            as_c: bool) -> Iterator[str]:
    """The functions of answers, one after the other."""
    for number, text in enumerate(texts, 1):
        own = name if len(texts) == 1 else f"{name}{number}"
        with told_which(number, len(texts)):
            answer = read_answer(text, parameters, unknowns)
            made = c_source(answer, own, floor=False) if as_c else python_source(answer, own)
        yield made


def main(words: Sequence[str]) -> int:
    parser = argparse.ArgumentParser(prog="lexmin source", description=__doc__, formatter_class=argparse.RawDescriptionHelpFormatter)
    parser.add_argument("--c", action="store_true", help="functions in C in place of Python")
    parser.add_argument("--name", default="lexmin", help="the name of the function")
    parser.add_argument("--parameters", metavar="NAMES", help="the names of the parameters, apart by commas")
    parser.add_argument("--unknowns", metavar="NAMES", help="the names of the unknowns, apart by commas")
    parser.add_argument("file", nargs="?", type=pathlib.Path, help="the answers; standard input where none is named")
    chosen = parser.parse_args(words)
    try:
        texts = answer_texts(chosen.file)
        made = list(sources(texts, chosen.name, names_of(chosen.parameters), names_of(chosen.unknowns), chosen.c))
        floor = [C_FLOOR] if chosen.c and any("floor_of(" in source for source in made) else []
        print("\n".join([*floor, *made]), end="")
    except BrokenPipeError:
        raise
    except (OSError, ValueError) as error:
        print(f"lexmin source: {error}", file=sys.stderr)
        return 1
    return 0
