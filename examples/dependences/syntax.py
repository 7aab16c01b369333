"""Reads the part of C that loop nests are written in: functions over arrays and numbers, with `for`, `if`, `assert` and assignments.

    functions = read(text)

`int` parameters are sizes, `double` ones and arrays of `int` data. Loop variables are ints that only their loop changes, and that have a value in it
alone, wherever they are declared. Comments and lines that
begin with `#` are passed over, but for those of `#if`, since which lines it takes isn't known, and those of macros that are used,
other than `min` and `max`: they may stand for elements.
"""
from __future__ import annotations

import re
from dataclasses import dataclass, field
from typing import Dict, Iterator, List, Optional, Tuple, Union


class Fault(ValueError):
    """What can't be read, or can't be analysed, and in which line it stands."""

    def __init__(self, line: int, words: str) -> None:
        super().__init__(f"line {line}: {words}")


# ---- What is read --------------------------------------------------------------------------------------------------


@dataclass(frozen=True)
class Number:
    value: Union[int, float]


@dataclass(frozen=True)
class Name:
    """A size or a loop variable."""

    name: str


@dataclass(frozen=True)
class Element:
    """An element of an array; a scalar has no subscripts."""

    array: str
    subscripts: Tuple[Expression, ...]
    text: str = field(compare=False)


@dataclass(frozen=True)
class Call:
    function: str
    arguments: Tuple[Expression, ...]


@dataclass(frozen=True)
class Unary:
    operator: str
    operand: Expression


@dataclass(frozen=True)
class Binary:
    operator: str
    left: Expression
    right: Expression


Expression = Union[Number, Name, Element, Call, Unary, Binary]


@dataclass(frozen=True)
class Assignment:
    number: int  # of what reads or writes in the function, in the order of the text, from 0 on
    target: Element
    operator: str  # "=" or one with an operation, as "+="
    value: Expression
    line: int
    text: str

    def reads(self) -> List[Element]:
        """The elements that it reads, in their order; its own first where it adds to it, then those in its subscripts."""
        own, *inner = elements(self.target)
        return [*([own] if self.operator != "=" else []), *inner, *elements(self.value)]


@dataclass(frozen=True)
class For:
    number: Optional[int]  # where its bounds have elements, among those of the assignments
    variable: str
    first: Expression
    comparison: str
    bound: Expression
    step: int
    body: Block
    line: int
    text: str

    def reads(self) -> List[Element]:
        return [*elements(self.first), *elements(self.bound)]


@dataclass(frozen=True)
class If:
    number: Optional[int]  # where its condition has elements, among those of the assignments
    condition: Expression
    yes: Block
    no: Block
    line: int
    text: str

    def reads(self) -> List[Element]:
        return list(elements(self.condition))


Statement = Union[Assignment, For, If]
Block = Tuple[Statement, ...]


@dataclass(frozen=True)
class Function:
    name: str
    sizes: Tuple[str, ...]
    data: Dict[str, Tuple[Expression, ...]]  # of each array its lengths; those of the parameters first
    int_arrays: Tuple[str, ...]  # the arrays that hold ints
    parameters: Tuple[str, ...]  # all of them, in their order
    known: Tuple[Tuple[Expression, int], ...]  # what it asserts of the sizes, with the lines
    body: Block


def parts(expression: Expression) -> Tuple[Expression, ...]:
    """What stands in an expression, from left to right."""
    if isinstance(expression, Element):
        return expression.subscripts
    if isinstance(expression, Call):
        return expression.arguments
    if isinstance(expression, Unary):
        return (expression.operand,)
    return (expression.left, expression.right) if isinstance(expression, Binary) else ()


def elements(expression: Expression) -> Iterator[Element]:
    """The elements in an expression, from left to right, those in subscripts behind the element that has these."""
    if isinstance(expression, Element):
        yield expression
    for part in parts(expression):
        yield from elements(part)


def names(expression: Expression) -> Iterator[Name]:
    """The sizes and loop variables in an expression."""
    if isinstance(expression, Name):
        yield expression
    for part in parts(expression):
        yield from names(part)


def assignments(block: Block) -> Iterator[Assignment]:
    for statement in block:
        if isinstance(statement, Assignment):
            yield statement
        elif isinstance(statement, For):
            yield from assignments(statement.body)
        else:
            yield from assignments(statement.yes)
            yield from assignments(statement.no)


# ---- Reading -------------------------------------------------------------------------------------------------------

# (behind a backslash a line goes on with the next one; so does one that begins with `#`, through a comment)
_COMMENT = r"/\*.*?\*/|//(?:\\.|[^\\\n])*"
_PASSED = re.compile(rf"{_COMMENT}|^[ \t]*#(?:{_COMMENT}|\\.|[^\\\n])*", re.DOTALL | re.MULTILINE)
_TOKEN = re.compile(r"\s*(\d+\.\d*(?:[eE][-+]?\d+)?|\d+|[A-Za-z_]\w*|[<>=!]=|&&|\|\||\+\+|--|[-+*/]=|[-+*/%<>=!;,(){}\[\]])")
_CHOICE = re.compile(r"\s*#\s*(if|ifdef|ifndef|elif|else)\b")
_MACRO = re.compile(r"\s*#\s*define\s+(\w+)")
_WEIGHTS = {"||": 1, "&&": 2, "==": 3, "!=": 3, "<": 4, "<=": 4, ">": 4, ">=": 4, "+": 5, "-": 5, "*": 6, "/": 6, "%": 6}
_WORDS = frozenset("int double void for if else assert const while do return break continue goto switch".split())


def read(text: str) -> List[Function]:
    """The functions of a text; a Fault where something in it is not read."""
    macros: Dict[str, int] = {}  # with their lines

    def blanked(passed: re.Match[str]) -> str:
        bare = re.sub(_COMMENT, " ", passed.group().replace("\\\n", ""), flags=re.DOTALL)
        line = text.count("\n", 0, passed.start()) + 1
        if _CHOICE.match(bare):
            raise Fault(line, "`#if` and the like are not read")
        if macro := _MACRO.match(bare):
            macros[macro.group(1)] = line
        return re.sub(r"[^\n]", " ", passed.group())

    reader = _Reader(_PASSED.sub(blanked, text))
    for name in re.findall(r"\w+", reader.text):
        if name in macros and name not in ("min", "max"):
            raise Fault(macros[name], f"the macro {name} is not read")
    functions: List[Function] = []
    while reader.peek():
        functions.append(reader.function())
    return functions


class _Reader:
    def __init__(self, text: str) -> None:
        self.text, self.place, self.end = text, 0, 0
        self.sizes: List[str] = []
        self.data: Dict[str, Tuple[Expression, ...]] = {}
        self.int_arrays: List[str] = []
        self.variables: List[str] = []  # of the loops around
        self.declared: List[str] = []  # ints of the blocks around, which loops may have as their variables
        self.count = 0

    # Tokens.

    def peek(self) -> str:
        found = _TOKEN.match(self.text, self.place)
        if found is None and self.text[self.place:].strip():
            raise self.fault("this is not read")
        return found.group(1) if found else ""

    def take(self) -> str:
        word = self.peek()
        found = _TOKEN.match(self.text, self.place)
        self.place = self.end = found.end() if found else len(self.text)
        return word

    def has(self, *words: str) -> bool:
        if self.peek() in words:
            self.take()
            return True
        return False

    def expect(self, wanted: str) -> None:
        if not self.has(wanted):
            raise self.fault(f"`{wanted}` is missing before `{self.peek()}`")

    def begin(self) -> int:
        """Where the next token begins."""
        return self.place + len(self.text[self.place:]) - len(self.text[self.place:].lstrip())

    def line(self) -> int:
        return self.text.count("\n", 0, self.begin()) + 1

    def fault(self, words: str) -> Fault:
        return Fault(self.line(), words)

    def since(self, begin: int) -> str:
        return " ".join(self.text[begin:self.end].split())

    def name(self) -> str:
        if not re.match(r"[A-Za-z_]", self.peek()) or self.peek() in _WORDS:
            raise self.fault(f"a name is missing before `{self.peek()}`")
        return self.take()

    def new_name(self) -> str:
        found = self.name()
        if found in (*self.sizes, *self.data, *self.variables, *self.declared):
            raise self.fault(f"the name {found} is taken")
        return found

    # Functions and statements.

    def function(self) -> Function:
        self.sizes, self.data, self.int_arrays, self.variables, self.declared, self.count = [], {}, [], [], [], 0
        self.expect("void")
        name = self.name()
        self.expect("(")
        parameters: List[str] = []
        while True:
            self.has("const")
            is_whole = self.has("int")
            if not is_whole:
                self.expect("double")
            parameters.append(self.new_name())
            if is_whole and self.peek() != "[":
                self.sizes.append(parameters[-1])
            else:
                self.array(parameters[-1], is_whole)
            if not self.has(","):
                break
        self.expect(")")
        self.expect("{")
        known: List[Tuple[Expression, int]] = []
        while self.peek() == "assert":
            line = self.line()
            self.take()
            known.append((self.expression(), line))
            self.expect(";")
        body = self.rest_of_block()
        return Function(name, tuple(self.sizes), self.data, tuple(self.int_arrays), tuple(parameters), tuple(known), body)

    def array(self, name: str, is_whole: bool) -> None:
        """Its lengths, behind its name; none of a scalar."""
        self.data[name] = tuple(self.subscripts())
        if is_whole:
            self.int_arrays.append(name)

    def rest_of_block(self) -> Block:
        found: List[Statement] = []
        around = len(self.declared)
        while not self.has("}"):
            found += self.statement()
        del self.declared[around:]
        return tuple(found)

    def statement(self) -> List[Statement]:
        if self.has(";"):
            return []
        if self.has("{"):
            return list(self.rest_of_block())
        if self.peek() == "for":
            return [self.loop()]
        if self.peek() == "if":
            return [self.branch()]
        if self.has("double"):
            return self.declaration()
        if self.has("int"):
            return self.ints()
        return [self.assignment()]

    def declaration(self) -> List[Statement]:
        made: List[Statement] = []
        while True:
            begin, line = self.begin(), self.line()
            name = self.new_name()
            self.array(name, is_whole=False)
            if not self.data[name] and self.has("="):
                value = self.expression()
                made.append(self.made(Element(name, (), name), "=", value, line, begin))
            if not self.has(","):
                self.expect(";")
                return made

    def ints(self) -> List[Statement]:
        """Arrays, and the variables of loops."""
        while True:
            name = self.new_name()
            if self.peek() == "=":
                raise self.fault(f"an int that is no size, as {name}, is the variable of loops alone")
            if self.peek() == "[":
                self.array(name, is_whole=True)
            else:
                self.declared.append(name)
            if not self.has(","):
                self.expect(";")
                return []

    def assignment(self) -> Statement:
        begin, line = self.begin(), self.line()
        target = self.factor()
        if not isinstance(target, Element):
            raise Fault(line, "an assignment to an element or a scalar belongs here")
        operator = self.take()
        if operator not in ("=", "+=", "-=", "*=", "/="):
            raise Fault(line, f"an assignment belongs here, not `{operator}`")
        value = self.expression()
        statement = self.made(target, operator, value, line, begin)
        self.expect(";")
        return statement

    def made(self, target: Element, operator: str, value: Expression, line: int, begin: int) -> Assignment:
        self.count += 1
        return Assignment(self.count - 1, target, operator, value, line, self.since(begin))

    def numbered(self, *expressions: Expression) -> Optional[int]:
        """The next number, where elements are read."""
        if not any(any(elements(expression)) for expression in expressions):
            return None
        self.count += 1
        return self.count - 1

    def loop(self) -> For:
        begin, line = self.begin(), self.line()
        self.expect("for")
        self.expect("(")
        variable = self.new_name() if self.has("int") else self.declared_name()
        self.expect("=")
        first = self.expression()
        self.expect(";")
        self.variables.append(variable)
        if self.take() != variable or self.peek() not in ("<", "<=", ">", ">="):
            raise Fault(line, f"a loop ends by {variable} beside its bound, as `{variable} < N`")
        comparison = self.take()
        bound = self.expression()
        self.expect(";")
        step = self.step(variable)
        self.expect(")")
        number, text = self.numbered(first, bound), self.since(begin)
        if (step > 0) != (comparison in ("<", "<=")):
            raise Fault(line, f"the step of {variable} leads away from its bound")
        body = tuple(self.statement())
        self.variables.pop()
        return For(number, variable, first, comparison, bound, step, body, line, text)

    def declared_name(self) -> str:
        found = self.name()
        if found in self.variables:
            raise self.fault(f"a loop around has {found} already")
        if found not in self.declared:
            raise self.fault(f"{found} is not declared as the variable of a loop")
        return found

    def step(self, variable: str) -> int:
        if self.peek() in ("++", "--"):
            step = 1 if self.take() == "++" else -1
            self.expect(variable)
            return step
        self.expect(variable)
        word = self.take()
        if word in ("++", "--"):
            return 1 if word == "++" else -1
        if word not in ("+=", "-=") or not self.peek().isdigit() or int(self.peek()) == 0:
            raise self.fault("a step is `++`, `--`, or `+=` or `-=` of a number")
        return self.whole() * (1 if word == "+=" else -1)

    def branch(self) -> If:
        begin, line = self.begin(), self.line()
        self.expect("if")
        self.expect("(")
        condition = self.expression()
        self.expect(")")
        number, text = self.numbered(condition), self.since(begin)
        yes = tuple(self.statement())
        no = tuple(self.statement()) if self.has("else") else ()
        return If(number, condition, yes, no, line, text)

    # Expressions.

    def expression(self, weight: int = 1) -> Expression:
        left = self.factor()
        while _WEIGHTS.get(self.peek(), 0) >= weight:
            operator = self.take()
            left = Binary(operator, left, self.expression(_WEIGHTS[operator] + 1))
        return left

    def factor(self) -> Expression:
        if self.peek() in ("-", "!"):
            return Unary(self.take(), self.factor())
        if self.has("("):
            inner = self.expression()
            self.expect(")")
            return inner
        if re.match(r"\d", self.peek()):
            word = self.peek()
            return Number(self.whole() if word.isdigit() else float(self.take()))
        begin = self.begin()
        name = self.name()
        if self.has("("):
            return Call(name, self.arguments())
        if name in self.sizes or name in self.variables:
            return Name(name)
        if name not in self.data:
            raise self.fault(f"{name} has a value in its loops alone" if name in self.declared else f"{name} is not declared")
        subscripts = tuple(self.subscripts())
        if len(subscripts) != len(self.data[name]):
            raise self.fault(f"{name} has {len(self.data[name])} subscripts")
        return Element(name, subscripts, self.since(begin))

    def arguments(self) -> Tuple[Expression, ...]:
        found = [self.expression()]
        while self.has(","):
            found.append(self.expression())
        self.expect(")")
        return tuple(found)

    def whole(self) -> int:
        if self.peek().startswith("0") and self.peek() != "0":
            raise self.fault(f"`{self.peek()}` is octal, which is not read")
        return int(self.take())

    def subscripts(self) -> Iterator[Expression]:
        while self.has("["):
            yield self.expression()
            self.expect("]")
