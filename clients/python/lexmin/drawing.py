"""Draws answers: reads the text of `pip solve` and writes each tree as a graph for Graphviz, or for Mermaid.

    lexmin draw [--parameters NAMES] [--unknowns NAMES] [--mermaid] [--merge] [--across] [FILE]

    $ ./pip solve <examples/tile-of-iteration.pip | lexmin draw --parameters i,N --unknowns tile,place | dot -Tpng >tree.png

NAMES stand apart by commas, in the order of the problem. Without them parameters are p0, p1, .. and points are bare.
Unknowns behind the last one that is named are left out. New parameters are called q, or q1, q2, .. along their path.
Without a FILE the text is standard input. Several answers make several graphs, one behind the other (`dot -O` makes a
picture of each).

Diamonds are choices with their two branches, rounded boxes the new parameters as floors, and boxes points. Of a great tree
--merge draws equal parts once, and --across draws from left to right with low boxes, the branch of `no` dashed.
"""
from __future__ import annotations

import argparse
import contextlib
import pathlib
import sys
from typing import Dict, Iterator, List, Optional, Sequence, Tuple

from .forms import Form, taken_out
from .texts import if_matrices
from .trees import Choice, NewParameter, Point, Tree, Void, form_of, groups, new_parameter_names, parameter_count, parse_answer

Node = Tuple[str, str, str]  # its name, its shape (choice, floor, point, nothing), what it says
Arrow = Tuple[str, str, str]  # from a node, to a node, and what it says


class Drawing:
    """The nodes and arrows of a tree, from the root down."""

    def __init__(self, tree: Tree, parameters: Sequence[str], unknowns: Optional[Sequence[str]], merge: bool = False) -> None:
        self.unknowns, self.merge = unknowns, merge
        self.first_new = len(parameters)
        self.new = new_parameter_names(tree, [*parameters, *(unknowns or ())])
        self.nodes: List[Node] = []
        self.arrows: List[Arrow] = []
        self.drawn: Dict[Tuple[object, ...], str] = {}  # the node of each part, by what it says and the nodes below it
        self.draw(tree, [Form({name: 1}) for name in parameters])

    def draw(self, tree: Tree, scope: List[Form]) -> str:
        """Adds the nodes and arrows of a tree; its first node. What the names in a part stand for goes by their number alone,
        so equal parts say the same."""
        place, arrows = len(self.nodes), len(self.arrows)
        own = f"n{place}"
        said = self.say(tree, scope)
        self.nodes.append((own, *said))
        below: List[Tuple[str, Tree, List[Form]]] = []
        if isinstance(tree, Choice):
            below = [("yes", tree.yes, scope), ("no", tree.no, scope)]
        elif isinstance(tree, NewParameter):
            whole = taken_out(form_of(tree.form, scope), tree.divisor)[1]
            below = [("", tree.below, [*scope, Form({self.new[tree.number - self.first_new]: 1}) + whole])]
        made: List[Arrow] = []
        for label, child, inner in below:
            arrow = len(self.arrows)
            self.arrows.append((own, "", label))
            made.append((own, self.draw(child, inner), label))
            self.arrows[arrow] = made[-1]
        if not self.merge:
            return own
        key = (said, tuple(end for _, end, _ in made))
        if key in self.drawn:  # its nodes below were drawn before, so nothing but the node itself came of it
            del self.nodes[place], self.arrows[arrows:]
        return self.drawn.setdefault(key, own)

    def say(self, tree: Tree, scope: Sequence[Form]) -> Tuple[str, str]:
        """The shape of a node, and its words."""
        if isinstance(tree, Choice):
            return "choice", f"{form_of(tree.form, scope)} >= 0 ?"
        if isinstance(tree, NewParameter):
            return "floor", f"{self.new[tree.number - self.first_new]} = floor of {over(tree, scope)}"
        if isinstance(tree, Point):
            return "point", self.point([str(form_of(row, scope)) for row in tree.components])
        return "nothing", "void" if isinstance(tree, Void) else "no point"

    def point(self, values: Sequence[str]) -> str:
        if self.unknowns is None:
            return f"({', '.join(values)})"
        if len(self.unknowns) > len(values):
            raise ValueError(f"{len(self.unknowns)} names of unknowns for points of {len(values)}")
        return ", ".join(f"{name} = {value}" for name, value in zip(self.unknowns, values))


def over(tree: NewParameter, scope: Sequence[Form]) -> str:
    text = str(taken_out(form_of(tree.form, scope), tree.divisor)[0])
    return f"({text}) / {tree.divisor}" if " " in text else f"{text} / {tree.divisor}"


def graphviz(drawing: Drawing, comment: str, across: bool = False) -> Iterator[str]:
    shapes = {"choice": "diamond", "floor": "box, style=rounded", "point": "box", "nothing": "plaintext"}
    yield "digraph answer {"
    if across:
        shapes.update(choice='box, style="rounded,bold"', floor="plaintext")
        yield "    rankdir=LR; ranksep=0.25; nodesep=0.08; edge [arrowsize=0.5];"
        yield '    node [fontsize=10, height=0.2, margin="0.06,0.03"];'
    if comment:
        yield f"    label={quoted(comment)}; labelloc=t;"
    for name, shape, words in drawing.nodes:
        yield f"    {name} [shape={shapes[shape]}, label={quoted(words)}];"
    for start, end, label in drawing.arrows:
        look = f"label={quoted(label)}" if label and not across else "style=dashed" if label == "no" else ""
        yield f"    {start} -> {end} [{look}];" if look else f"    {start} -> {end};"
    yield "}"


def quoted(text: str) -> str:
    escaped = text.replace("\\", "\\\\").replace('"', '\\"').replace("\n", "\\n")
    return f'"{escaped}"'


def as_entities(words: str) -> str:
    """The words in a text of Mermaid, which has no other way to write a quote."""
    return words.replace("#", "#35;").replace('"', "#quot;")


def mermaid(drawing: Drawing, across: bool = False) -> Iterator[str]:
    shapes = {"choice": ("{", "}"), "floor": ("(", ")"), "point": ("[", "]"), "nothing": ("[", "]")}
    yield "graph LR" if across else "graph TD"
    for name, shape, words in drawing.nodes:
        opened, closed = shapes[shape]
        yield f'    {name}{opened}"{as_entities(words)}"{closed}'
    for start, end, label in drawing.arrows:
        yield f"    {start} -->|{label}| {end}" if label else f"    {start} --> {end}"


def answer_texts(file: Optional[pathlib.Path]) -> List[str]:
    """The texts of the answers in a file, or in standard input; ValueError where there is none."""
    data = file.read_bytes() if file else sys.stdin.buffer.read()
    hint = if_matrices(data, "of which `solve --polylib` writes the answer")
    texts = [] if hint else groups(data.decode(errors="replace"))
    if not texts:
        raise ValueError("no answer in the text" + hint)
    return texts


@contextlib.contextmanager
def told_which(number: int, count: int) -> Iterator[None]:
    """Says of a ValueError to which of several answers it belongs."""
    try:
        yield
    except ValueError as error:
        raise ValueError(f"answer {number}: {error}" if count > 1 else str(error)) from None


def names_of(text: Optional[str]) -> Optional[List[str]]:
    return None if text is None else [name.strip() for name in text.split(",") if name.strip()]


def told_apart(names: Sequence[str]) -> None:
    """ValueError where a name stands for two: a form would add up their numbers."""
    for place, name in enumerate(names):
        if name in names[:place]:
            raise ValueError(f"the name {name} stands for two")


def draw(text: str, parameters: Optional[Sequence[str]] = None, unknowns: Optional[Sequence[str]] = None, *,
         as_mermaid: bool = False, merge: bool = False, across: bool = False) -> str:
    """One answer as a graph."""
    comment, tree = parse_answer(text)
    count = parameter_count(tree)
    if parameters is None:
        parameters = [f"p{place}" for place in range(count or 0)]
    if count is not None and len(parameters) != count:
        raise ValueError(f"{len(parameters)} names of parameters for an answer over {count}")
    told_apart(parameters)
    told_apart(unknowns or ())
    drawing = Drawing(tree, parameters, unknowns, merge)
    return "\n".join(mermaid(drawing, across) if as_mermaid else graphviz(drawing, comment, across))


def main(words: Sequence[str]) -> int:
    parser = argparse.ArgumentParser(prog="lexmin draw", description=__doc__, formatter_class=argparse.RawDescriptionHelpFormatter)
    parser.add_argument("--parameters", metavar="NAMES", help="the names of the parameters, apart by commas")
    parser.add_argument("--unknowns", metavar="NAMES", help="the names of the unknowns, apart by commas")
    parser.add_argument("--mermaid", action="store_true", help="a graph for Mermaid in place of Graphviz")
    parser.add_argument("--merge", action="store_true", help="equal parts of the tree are drawn once")
    parser.add_argument("--across", action="store_true", help="from left to right, with low boxes")
    parser.add_argument("file", nargs="?", type=pathlib.Path, help="the answers; standard input where none is named")
    chosen = parser.parse_args(words)
    try:
        answers = answer_texts(chosen.file)
        parameters, unknowns = names_of(chosen.parameters), names_of(chosen.unknowns)
        for number, answer in enumerate(answers, 1):
            with told_which(number, len(answers)):
                made = draw(answer, parameters, unknowns, as_mermaid=chosen.mermaid, merge=chosen.merge, across=chosen.across)
            print(made)
    except BrokenPipeError:
        raise
    except (OSError, ValueError) as error:
        print(f"lexmin draw: {error}", file=sys.stderr)
        return 1
    return 0
