"""What the tables of tables/ have in common: records of lines, their expressions, and how an error is told.

A record begins at the first column; the lines behind it that are indented belong to it, and one that is indented
further than the first of them goes on with the line before it. Blank lines, and lines that begin with `#`, say
nothing. A bar stands between what a line names and what it says of that in words.
"""
from __future__ import annotations

import re
from dataclasses import dataclass, field
from typing import NoReturn

NAME = re.compile(r"[A-Za-z]\w*")
NUMBER = re.compile(r"0x[0-9a-f]+|[0-9]+")
TEXT = re.compile(r'"[^"]*"')
TOKEN = re.compile(r'\s*(?:(&?[A-Za-z][\w.]*|0x[0-9a-f]+|[0-9]+|"[^"]*"|&&|[!<>=]=|<)|([(),])|(\S))')
SIGNS = ("==", "!=", "<", "<=", ">=")


class TableError(Exception):
    """What is wrong with a table, behind the file and the line where it stands."""


@dataclass(frozen=True)
class Line:
    """A line of a table: its file, its number from 1 on, and its text without the spaces around it."""

    file: str
    number: int
    text: str

    def fail(self, what: str) -> NoReturn:
        """Ends the reading, and says what is wrong here."""
        raise TableError(f"{self.file}:{self.number}: {what}")

    def halves(self) -> tuple[str, str]:
        """What stands before the bar, and what stands behind it."""
        name, bar, words = (half.strip() for half in self.text.partition("|"))
        if not name or not words:
            self.fail("`NAME | WORDS` is wanted")
        return name, words

    def behind(self) -> Line:
        """The same line from its second word on."""
        return Line(self.file, self.number, self.text.partition(" ")[2].strip())

    def name(self, text: str) -> str:
        """The text, which has to be a name."""
        if not NAME.fullmatch(text):
            self.fail(f"`{text}` is no name")
        return text


@dataclass
class Record:
    """A line at the first column, and the lines that belong to it."""

    head: Line
    lines: list[Line] = field(default_factory=list)

    def add(self, line: Line, goes_on: bool) -> None:
        """Puts a line in, or joins it to the one before where it goes on with that."""
        if goes_on and self.lines:
            last = self.lines[-1]
            self.lines[-1] = Line(last.file, last.number, f"{last.text} {line.text}")
        else:
            self.lines.append(line)


def records_of(text: str, file: str) -> list[Record]:
    """The records of a table's text, in their order."""
    records: list[Record] = []
    indent = 0
    for number, row in enumerate(text.split("\n"), start=1):
        line = Line(file, number, row.strip())
        if not line.text or line.text.startswith("#"):
            continue
        columns = len(row) - len(row.lstrip())
        if not columns:
            records.append(Record(line))
            indent = 0
        elif records:
            indent = indent or columns
            records[-1].add(line, columns > indent)
        else:
            line.fail("the first line is indented, and belongs to no record")
    return records


class Names(dict):
    """What a table names, by its name: no name stands for two things."""

    def __init__(self, kind: str):
        super().__init__()
        self.kind = kind

    def add(self, name: str, value, line: Line) -> None:
        """Puts one more in."""
        if name in self:
            line.fail(f"the {self.kind} `{name}` stands here a second time")
        self[name] = value

    def find(self, name: str, line: Line):
        """What stands for the name."""
        if name not in self:
            line.fail(f"there is no {self.kind} `{name}`")
        return self[name]


def snake_case(name: str) -> str:
    """`AddSubReg` as `add_sub_reg`, and `ULoad64` as `uload64`."""
    name = re.sub(r"^([A-Z])([A-Z])(?=[a-z])", lambda found: found[1] + found[2].lower(), name)
    return re.sub(r"(?<=[a-z0-9])(?=[A-Z])|(?<=[A-Z])(?=[A-Z][a-z])", "_", name).lower()


# ---- expressions: calls of functions, and comparisons with a number, joined by `&&`
#
# A value is a number, a text in quotes, a name, which may have parts behind dots, or a call. Behind `&` a name is given
# as a reference.

@dataclass(frozen=True)
class Call:
    """A function of values."""

    name: str
    values: tuple[Value, ...]


# A name, a number or a text, as it stands, or a call.
Value = str | Call


@dataclass(frozen=True)
class Compare:
    """A value beside a number, with one of the signs between."""

    value: Value
    sign: str
    number: str

    @property
    def values(self) -> tuple[Value, ...]:
        """Its value alone."""
        return (self.value,)


Test = Call | Compare


def is_literal(value: str) -> bool:
    """Whether a value that is no call is a number or a text."""
    return bool(NUMBER.fullmatch(value) or TEXT.fullmatch(value))


def names_in(values: tuple[Value, ...]) -> list[str]:
    """The names that stand in values, without `&` and without what is behind a dot."""
    names: list[str] = []
    for value in values:
        if isinstance(value, Call):
            names += names_in(value.values)
        elif not is_literal(value):
            names.append(value.removeprefix("&").partition(".")[0])
    return names


class _Tokens:
    """The tokens of an expression, taken one after another."""

    def __init__(self, line: Line):
        self.line = line
        self.items: list[str] = []
        for word, sign, other in TOKEN.findall(line.text):
            if other:
                line.fail(f"`{other}` is no word of an expression")
            self.items.append(word or sign)

    def take(self, *wanted: str) -> str:
        """The next token, which has to be one of those that are wanted, where some are named."""
        token = self.items.pop(0) if self.items else "the end"
        if wanted and token not in wanted:
            self.line.fail(f"{' or '.join(f'`{w}`' for w in wanted)} is wanted, and {token} stands there")
        return token

    def name(self) -> str:
        """The next token, which has to be a name."""
        return self.line.name(self.take())

    def number(self) -> str:
        """The next token, which has to be a number."""
        token = self.take()
        if not NUMBER.fullmatch(token):
            self.line.fail(f"a number is wanted, and {token} stands there")
        return token

    def value(self) -> Value:
        """The next value."""
        token = self.take()
        if self.items[:1] == ["("]:
            return self.call(token)
        if not is_literal(token):
            for part in token.removeprefix("&").split("."):
                self.line.name(part)
        return token

    def call(self, name: str) -> Call:
        """The rest of a call, behind the name."""
        self.line.name(name)
        self.take("(")
        if self.items[:1] == [")"]:
            self.take()
            return Call(name, ())
        values = [self.value()]
        while self.take(",", ")") == ",":
            values.append(self.value())
        return Call(name, tuple(values))

    def test(self) -> Test:
        """The next test: a call, or a comparison of a name, or of a part of one."""
        name = self.take()
        if self.items[:1] == ["("]:
            return self.call(name)
        for part in name.split("."):
            self.line.name(part)
        return Compare(name, self.take("(", *SIGNS), self.number())


def tests_of(line: Line) -> list[Test]:
    """The tests of an expression."""
    tokens = _Tokens(line)
    tests = [tokens.test()]
    while tokens.items:
        tokens.take("&&")
        tests.append(tokens.test())
    return tests


def call_of(line: Line) -> Call:
    """The call that an expression is."""
    tokens = _Tokens(line)
    call = tokens.call(tokens.name())
    if tokens.items:
        line.fail(f"{tokens.items[0]} stands behind the call")
    return call


def values_of(line: Line) -> list[Value]:
    """The values of a list, with commas between."""
    tokens = _Tokens(line)
    values = [tokens.value()]
    while tokens.items:
        tokens.take(",")
        values.append(tokens.value())
    return values


def lists_of(line: Line) -> list[list[Value]]:
    """The lists of values, with commas between, that stand one behind another."""
    tokens = _Tokens(line)
    lists: list[list[Value]] = []
    while tokens.items:
        lists.append([tokens.value()])
        while tokens.items[:1] == [","]:
            tokens.take()
            lists[-1].append(tokens.value())
    return lists
