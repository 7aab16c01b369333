"""The texts that `solve` reads, token by token as the program does, and what is wrong with one in words."""
from __future__ import annotations

import re
import unicodedata
from dataclasses import dataclass
from typing import Iterator, List, NamedTuple, NoReturn, Tuple

from .trees import as_text

MOST_NUMBER = (1 << 127) - 1
MOST_BYTES = 16_777_216  # of what one run of the program reads
MOST_UNKNOWNS, MOST_PARAMETERS, MOST_ROWS, MOST_CONTEXT_ROWS = 128, 48, 4096, 256
_BLANKS = b" \t\n\f\r"
_TOKEN = re.compile(rb"\(|\)|#\[|\]|[+-]?[0-9]+(/[0-9]+)?|[A-Za-z]+|[\x00-\xff]", re.DOTALL)
_NUMBER = re.compile(rb"[+-]?[0-9]+")
_BRACKET = re.compile(rb"[()]")
_NOT_OFFERED = (b"Maximize", b"Urs_parms", b"Urs_unknowns", b"Dual")


class Fault(Exception):
    """What is wrong at a place, counted in bytes from 0. `line` is what the program says of it behind `pip: `."""

    def __init__(self, place: int, words: str, line: str = "") -> None:
        super().__init__(words)
        self.place, self.words, self.line = place, words, line or f"syntax at byte {place}"

    def __reduce__(self) -> Tuple[object, ...]:
        return type(self), (self.place, self.words, self.line)


@dataclass
class ReadProblem:
    """A problem as it was read. Rows have the constant last: of the tableau unknowns, parameters, constant."""

    comment: str
    unknowns: int
    parameters: int
    rows: List[List[int]]
    context: List[List[int]]
    integer: bool


def value_of(text: bytes) -> int:
    """A number's value. Of one with more than 40 digits the first ones say that it is past all that are taken."""
    size = int(text.lstrip(b"+-").lstrip(b"0")[:40] or b"0")
    return -size if text.startswith(b"-") else size


def wide(place: int, what: str) -> Fault:
    return Fault(place, f"{what} is past 2^127 - 1", f"number too wide at byte {place}")


def described(data: bytes, place: int, text: bytes) -> str:
    """What stands at a place, with a hint where it is a mistake of a common kind."""
    if not text:
        return "the text ends"
    if text[0] >= 0x80:
        for length in (2, 3, 4):
            try:
                sign = data[place:place + length].decode()
            except UnicodeDecodeError:
                continue
            return f"there stands {sign[:1]!r} ({unicodedata.name(sign[:1], 'a sign')}), which is not ASCII"
        return f"there stands the byte {text[0]}"
    hints = {
        b"#": "`#` without `[`: text for readers stands in a problem's first brackets, or between problems",
        b";": "`;`: text for readers stands in a problem's first brackets, or between problems",
        b"[": "`[`: a row begins with `#[`",
        b".": "`.`: numbers are whole; multiply the row by a common denominator",
        b",": "`,`: numbers stand apart by blanks",
        b"\x00": "a byte 0: is the text UTF-16? ASCII or UTF-8 is wanted",
    }
    if text in hints:
        return f"there stands {hints[text]}"
    if b"/" in text[1:]:
        return f"there stands the fraction {text.decode()}: multiply the row by a common denominator"
    return f"there stands `{text.decode(errors='replace')}`"


def _count(number: int, what: str) -> str:
    return f"{number} {what}{'' if number == 1 else 's'}"


# ---- Native problems -----------------------------------------------------------------------------------------------


class Token(NamedTuple):
    text: bytes
    place: int

    def is_number(self) -> bool:
        return _NUMBER.fullmatch(self.text) is not None


def native(data: bytes) -> Iterator[ReadProblem]:
    """The problems of a native text, one after the other; a Fault at the first thing that can't stand where it stands."""
    reader = _Reader(data)
    while (start := data.find(b"(", reader.place)) >= 0:
        reader.place = start
        try:
            problem = reader.problem()
        except Fault as fault:
            raise past_limit() if fault.place > MOST_BYTES else fault
        if reader.place > MOST_BYTES:
            raise past_limit()
        yield problem
    if len(data) > MOST_BYTES:
        raise past_limit()


def past_limit() -> Fault:
    return Fault(MOST_BYTES, "one run takes 16,777,216 bytes: divide the text", f"limit of input bytes {MOST_BYTES}")


class _Reader:
    def __init__(self, data: bytes) -> None:
        self.data, self.place = data, 0

    def token(self) -> Token:
        place = self.place
        while place < len(self.data) and self.data[place] in _BLANKS:
            place += 1
        match = _TOKEN.match(self.data, place)
        self.place = match.end() if match else place
        return Token(match.group() if match else b"", place)

    def peek(self) -> Token:
        before = self.place
        found = self.token()
        self.place = before
        return found

    def expect(self, wanted: str, why: str) -> None:
        found = self.token()
        if found.text != wanted.encode():
            self.fail(found, f"`{wanted}` belongs here: {why}")

    def fail(self, found: Token, words: str) -> NoReturn:
        raise Fault(found.place, f"{words}; {described(self.data, found.place, found.text)}")

    def number(self, what: str) -> int:
        found = self.token()
        if not found.is_number():
            self.fail(found, f"{what} belongs here, a whole number")
        value = value_of(found.text)
        if abs(value) > MOST_NUMBER:
            raise wide(found.place, what)
        return value

    def size(self, what: str, least: int, most: int) -> int:
        place = self.peek().place
        value = self.number(f"the number of {what}")
        if not least <= value <= most:
            raise Fault(place, f"{value} {what}: {least} to {most} are taken", f"limit of {what} {value}")
        return value

    def comment(self) -> str:
        self.expect("(", "the comment, in brackets of its own")
        start, depth = self.place, 1
        for match in _BRACKET.finditer(self.data, start):
            depth += 1 if match.group() == b"(" else -1
            if depth == 0:
                self.place = match.end()
                return as_text(self.data[start:match.start()])
        raise Fault(len(self.data), "the comment does not end: its brackets have to balance, those of `1)` and `:(` too")

    def problem(self) -> ReadProblem:
        self.expect("(", "it begins the problem")
        comment = self.comment()
        if not self.peek().is_number():
            self.fail(self.peek(), "the number of unknowns belongs here: the comment ended with the `)` that balances its `(`")
        unknowns, parameters = self.size("unknowns", 1, MOST_UNKNOWNS), self.size("parameters", 0, MOST_PARAMETERS)
        row_count, context_count = self.size("rows", 0, MOST_ROWS), self.size("context rows", 0, MOST_CONTEXT_ROWS)
        place = self.peek().place
        big = self.number("the column of the big parameter, -1,")
        if big != -1:
            raise Fault(place, f"{big} as the column of the big parameter: -1 belongs here, none (and behind it 1 for whole numbers, "
                               f"0 for fractions)", f"unsupported big parameter {big}")
        integer = self.number("1 for whole numbers, 0 for fractions") != 0
        rows = self.rows(row_count, "row", unknowns + 1 + parameters,
                         f"{_count(unknowns, 'unknown')}, the constant, {_count(parameters, 'parameter')}")
        context = self.rows(context_count, "context row", parameters + 1, f"{_count(parameters, 'parameter')}, the constant")
        self.expect(")", "it ends the problem")
        turned = [[*row[:unknowns], *row[unknowns + 1:], row[unknowns]] for row in rows]
        return ReadProblem(comment, unknowns, parameters, turned, context, integer)

    def rows(self, said: int, what: str, width: int, order: str) -> List[List[int]]:
        self.expect("(", f"it begins the {what}s" + ("; of none write `()`" if said == 0 else ""))
        made: List[List[int]] = []
        while len(made) < said:
            found = self.token()
            if found.text == b")":
                self.fail(found, f"{_count(len(made), what)} so far, and the sizes of the problem say {said}")
            if found.text != b"#[":
                self.fail(found, f"{what} {len(made) + 1} of {said} belongs here, which begins with `#[`")
            made.append(self.row(f"{what} {len(made) + 1}", width, order))
        found = self.token()
        if found.text == b"#[":
            self.fail(found, f"the sizes of the problem say {_count(said, what)}, and here is another one")
        if found.text != b")":
            self.fail(found, f"`)` belongs here, behind the {what}s")
        return made

    def row(self, what: str, width: int, order: str) -> List[int]:
        numbers: List[int] = []
        while len(numbers) < width:
            found = self.token()
            if found.text == b"]":
                raise Fault(found.place, f"{what} has {_count(len(numbers), 'number')}, and {width} belong there: {order}")
            if not found.is_number():
                self.fail(found, f"number {len(numbers) + 1} of {what} belongs here ({order})")
            numbers.append(value_of(found.text))
            if abs(numbers[-1]) > MOST_NUMBER:
                raise wide(found.place, f"a number of {what}")
        found = self.token()
        if found.is_number():
            raise Fault(found.place, f"{what} has more than {_count(width, 'number')}: {order}")
        if found.text != b"]":
            self.fail(found, f"`]` belongs here, behind the {_count(width, 'number')} of {what}")
        return numbers


# ---- PolyLib problems ----------------------------------------------------------------------------------------------


def polylib(data: bytes) -> ReadProblem:
    """The problem of a PolyLib text; a Fault at the first thing that can't stand where it stands."""
    if len(data) > MOST_BYTES:
        raise past_limit()
    return _Matrices(data).problem()


def _bare(data: bytes) -> bytes:
    """Matrices with blanks in the place of their comments."""
    return re.sub(rb"#[^\n]*", lambda comment: b" " * len(comment.group()), data)


class _Matrices:
    def __init__(self, data: bytes) -> None:
        self.data = data
        self.words = [(match.group(), match.start()) for match in re.finditer(rb"[^ \t\n\f\r]+", _bare(data))]
        self.next = 0

    def number(self, what: str) -> Tuple[int, int]:
        """A number, and its place."""
        text, place = self.words[self.next] if self.next < len(self.words) else (b"", len(self.data))
        if not _NUMBER.fullmatch(text):
            native_text = " (a native problem? it is read without --polylib)" if text.startswith(b"(") else ""
            raise Fault(place, f"{what} belongs here, a whole number; {described(self.data, place, text)}{native_text}")
        value = value_of(text)
        if abs(value) > MOST_NUMBER:
            raise wide(place, what)
        self.next += 1
        return value, place

    def matrix(self, name: str, limit: str, most: int, first: int, last: int, order: str) -> Tuple[List[List[int]], int]:
        """The rows of a matrix without their kind, an equality as two, and the number of columns."""
        count, place = self.number(f"the number of rows of the {name}")
        if not 0 <= count <= most:
            raise Fault(place, f"{count} rows of the {name}: 0 to {most} are taken", f"limit of {limit}rows {count}")
        columns, place = self.number(f"the number of columns of the {name}")
        if not first <= columns <= last:
            raise Fault(place, f"{columns} columns of the {name}: {first} to {last} are taken ({order})", f"limit of {limit}columns {columns}")
        made: List[List[int]] = []
        for row in range(1, count + 1):
            kind, place = self.number(f"the kind of row {row} of the {name}")
            if kind not in (0, 1):
                raise Fault(place, f"{kind} as the kind of row {row} of the {name}: 1 says >= 0, 0 says = 0")
            inequalities = len(made) + (1 if kind else 2)
            if inequalities > most:
                raise Fault(place, f"{inequalities} inequalities of the {name}, an equality counted as two: {most} are taken",
                            f"limit of {limit}rows {inequalities}")
            made.append([self.number(f"number {column} of row {row} of the {name}")[0] for column in range(2, columns + 1)])
            if kind == 0:
                made.append([-entry for entry in made[-1]])
        return made, columns

    def problem(self) -> ReadProblem:
        context, columns = self.matrix("context", "context ", MOST_CONTEXT_ROWS, 2, MOST_PARAMETERS + 2, "the kind, the parameters, the constant")
        parameters = columns - 2
        big, place = self.number("-1, no big parameter,")
        if big != -1:
            raise Fault(place, f"{big} as the column of the big parameter: -1 belongs here, none, between the two matrices",
                        f"unsupported big parameter {big}")
        order = f"the kind, the unknowns, the {_count(parameters, 'parameter')} of the context, the constant"
        rows, columns = self.matrix("constraints", "", MOST_ROWS, parameters + 3, parameters + 2 + MOST_UNKNOWNS, order)
        integer = True
        for text, place in self.words[self.next:]:
            if text in _NOT_OFFERED:
                raise Fault(place, f"{text.decode()} is not offered: the guide says how to pose the question without it",
                            f"unsupported option {text.decode()}")
            if text != b"Rational":
                more = "; one input is one problem" if text[:1].isdigit() else ""
                raise Fault(place, f"an option word (Rational) or the end belongs here; {described(self.data, place, text)}{more}")
            integer = False
        return ReadProblem("", columns - parameters - 2, parameters, rows, context, integer)


def if_matrices(data: bytes, what: str) -> str:
    """What to do with a text that begins as PolyLib's matrices do, with brackets in comments alone; nothing of another one."""
    begins = re.match(rb"(\s|#[^\n]*\n)*[0-9]", data)
    return f": these are PolyLib's matrices, {what}" if begins and b"(" not in _bare(data) else ""
