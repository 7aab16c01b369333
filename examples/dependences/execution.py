"""Runs a function as C does, and notes of each read which assignment wrote last what it reads, and in which turn."""
from __future__ import annotations

import math
from typing import Callable, Dict, Iterable, Iterator, List, Mapping, Optional, Tuple, Union

from syntax import Assignment, Binary, Block, Call, Element, Expression, Fault, For, Function, If, Name, Number, Statement, Unary, elements

Value = Union[int, float]
Cell = Tuple[str, Tuple[int, ...]]
Instance = Tuple[int, Tuple[int, ...]]  # an assignment by its number, and the values of the loop variables around it
Read = Tuple[int, int, Tuple[int, ...]]  # of a statement's reads one by its number, in a turn


def truncated(one: Value, other: Value) -> Value:
    """The quotient, of two ints the one that C makes."""
    if isinstance(one, int) and isinstance(other, int):
        return abs(one) // abs(other) * (1 if (one < 0) == (other < 0) else -1)
    if other == 0:
        return math.nan if one == 0 or one != one else math.copysign(math.inf, one) * math.copysign(1, other)
    return one / other


def root(value: Value) -> float:
    return math.sqrt(value) if value >= 0 else math.nan


OPERATIONS: Dict[str, Callable[[Value, Value], Value]] = {
    "+": lambda a, b: a + b, "-": lambda a, b: a - b, "*": lambda a, b: a * b, "/": truncated,
    "%": lambda a, b: a - truncated(a, b) * b,
    "<": lambda a, b: int(a < b), "<=": lambda a, b: int(a <= b), ">": lambda a, b: int(a > b), ">=": lambda a, b: int(a >= b),
    "==": lambda a, b: int(a == b), "!=": lambda a, b: int(a != b)}
FUNCTIONS: Dict[str, Callable[..., Value]] = {"sqrt": root, "fmin": min, "fmax": max, "min": min, "max": max, "fabs": abs}


def first_value(function: Function, array: str, subscripts: Tuple[int, ...]) -> Value:
    """What an element of an array, or a scalar, holds at the beginning: from 1/8 to 11/8, or an int from 0 to 10."""
    total = 7 * list(function.data).index(array) + sum(number * own for number, own in zip((3, 5, 2), subscripts))
    return total % 11 if array in function.int_arrays else (total % 11 + 1) / 8


class Execution:
    """A run of a function. `sources` has each read with the instance that wrote last what it reads, none where nothing did;
    `cells` what was read or written, with what it holds at the end."""

    def __init__(self, function: Function, sizes: Mapping[str, int]) -> None:
        self.sizes = dict(sizes)
        self.names: Dict[str, int] = dict(sizes)
        self.variables: Tuple[int, ...] = ()
        self.function = function
        self.cells: Dict[Cell, Value] = {}
        self.writers: Dict[Cell, Instance] = {}
        self.sources: Dict[Read, Optional[Instance]] = {}
        for condition, line in function.known:
            if not self.value(condition):
                raise Fault(line, f"what is asserted does not hold at {dict(sizes)}")
        self.lengths = {name: tuple(int(self.value(own)) for own in lengths) for name, lengths in function.data.items()}
        self.block(function.body)

    def block(self, block: Block) -> None:
        for statement in block:
            self.statement(statement)

    def statement(self, statement: Statement) -> None:
        if isinstance(statement, Assignment):
            self.assign(statement)
        elif isinstance(statement, If):
            evaluated: List[Element] = []
            holds = self.holds(statement.condition, evaluated)
            self.note(statement, evaluated)
            self.block(statement.yes if holds else statement.no)
        else:
            around = self.variables
            self.note(statement, statement.reads())
            for number in self.turns(statement):
                self.variables = (*around, number)
                self.block(statement.body)
            self.variables = around
            self.names.pop(statement.variable, None)

    def holds(self, condition: Expression, evaluated: List[Element]) -> bool:
        """Whether a condition holds. The elements that are read for that are added to those that are given."""
        if isinstance(condition, Unary) and condition.operator == "!":
            return not self.holds(condition.operand, evaluated)
        if isinstance(condition, Binary) and condition.operator in ("&&", "||"):
            left = self.holds(condition.left, evaluated)
            return left if left == (condition.operator == "||") else self.holds(condition.right, evaluated)
        evaluated += elements(condition)
        return self.decided(condition)

    def decided(self, condition: Expression) -> bool:
        return bool(self.value(condition))

    def note(self, part: Statement, evaluated: Iterable[Element]) -> None:
        """Who wrote last what is read of these elements."""
        own = {id(element) for element in evaluated}
        for place, element in enumerate(part.reads()):
            if part.number is not None and id(element) in own:
                self.sources[part.number, place, self.variables] = self.writers.get(self.cell(element, part.line))

    def turns(self, loop: For) -> Iterator[int]:
        number = int(self.value(loop.first))
        while True:
            self.names[loop.variable] = number
            if not OPERATIONS[loop.comparison](number, self.value(loop.bound)):
                return
            yield number
            number += loop.step

    def assign(self, statement: Assignment) -> None:
        self.note(statement, statement.reads())
        target = self.cell(statement.target, statement.line)
        value = self.value(statement.value)
        if statement.operator != "=":
            value = OPERATIONS[statement.operator[0]](self.held(target), value)
        self.cells[target] = int(value) if target[0] in self.function.int_arrays else float(value)
        self.writers[target] = (statement.number, self.variables)

    def cell(self, element: Element, line: int) -> Cell:
        found = tuple(int(self.value(own)) for own in element.subscripts)
        if not all(0 <= own < length for own, length in zip(found, self.lengths[element.array])):
            raise Fault(line, f"{element.text} is outside its array at {self.names}")
        return element.array, found

    def held(self, cell: Cell) -> Value:
        return self.cells.setdefault(cell, first_value(self.function, *cell))

    def value(self, expression: Expression) -> Value:
        if isinstance(expression, Number):
            return expression.value
        if isinstance(expression, Name):
            return self.names[expression.name]
        if isinstance(expression, Element):
            return self.held((expression.array, tuple(int(self.value(own)) for own in expression.subscripts)))
        if isinstance(expression, Call):
            return FUNCTIONS[expression.function](*map(self.value, expression.arguments))
        if isinstance(expression, Unary):
            value = self.value(expression.operand)
            return -value if expression.operator == "-" else int(not value)
        if expression.operator in ("&&", "||"):
            left = bool(self.value(expression.left))
            return int(left if left == (expression.operator == "||") else bool(self.value(expression.right)))
        return OPERATIONS[expression.operator](self.value(expression.left), self.value(expression.right))
