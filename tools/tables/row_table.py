"""The table of rows, tables/rows.txt, as it is read: fields, where they stand, and rows."""
from __future__ import annotations

import re
from dataclasses import dataclass, field

from .grammar import Call, Line, Names, Record, Test, records_of, snake_case, tests_of

WORD = 32
TWICE = (31, 22)
MOST_FIELDS = 8
BITS = re.compile(r"(\d+)(?::(\d+))?")
PART = re.compile(r"(\w+)(?:\s*\(([^)]*)\))?\s*")


@dataclass(frozen=True)
class Place:
    """A field at a place: a name of its own, the field's name, its highest and its lowest bit, whether it is one
    bit that stands a second time, and what the manual calls it there.
    """

    name: str
    field: str
    high: int
    low: int
    twice: bool
    manual: str

    @property
    def width(self) -> int:
        """How many bits it has."""
        return self.high - self.low + 1

    @property
    def slot(self) -> tuple[int, int] | None:
        """Its lowest bit and its width, or nothing where it stands twice."""
        return None if self.twice else (self.low, self.width)

    @property
    def bits(self) -> str:
        """Its bits, as a table has them."""
        if self.twice:
            return f"{TWICE[0]} and {TWICE[1]}"
        return str(self.high) if self.width == 1 else f"{self.high}:{self.low}"

    def stands_at(self, high: int) -> bool:
        """Whether a part of it begins with this bit."""
        return high == self.high or (self.twice and high == TWICE[1])


@dataclass(frozen=True)
class Field:
    """A field: its name, and what it says."""

    name: str
    says: str

    @property
    def variant(self) -> str:
        """The name of its variant in code and in definitions."""
        return self.name.capitalize()


@dataclass
class Row:
    """A row: its name, its class in the manual, the module of its form, its fields with the manual's names, its
    bits outside them, which bits these are, and what the values of its fields must meet.
    """

    name: str
    about: str
    group: str
    module: str
    places: list[Place] = field(default_factory=list)
    called: list[str] = field(default_factory=list)
    fixed: int = 0
    fixed_bits: int = 0
    limits: list[Test] = field(default_factory=list)

    @property
    def form(self) -> str:
        """The name of the definition that makes a form of it: `AddSubReg` as `add_sub_reg`."""
        return snake_case(self.name)

    @property
    def record(self) -> str:
        """The name of the record of its fields."""
        return f"{self.name}Fields"

    @property
    def fields(self) -> list[str]:
        """The names of its fields, whatever their places."""
        return [place.field for place in self.places]

    def agrees(self, number: int) -> bool:
        """Whether it fixes no bit of 28 to 24 otherwise than in this number."""
        return (self.fixed ^ number << 24) & self.fixed_bits & 0b11111 << 24 == 0

    def number_of(self, name: str) -> int:
        """The number of a field among the values of the row."""
        return self.fields.index(name)


@dataclass
class RowTable:
    """The table: what it says of fields, of the modules of forms, and the rows in their order."""

    fields: Names
    modules: Names
    rows: list[Row]

    @property
    def places(self) -> list[Place]:
        """The fields at their places, in the order in which rows have them first."""
        return list(dict.fromkeys(place for row in self.rows for place in row.places))

    @property
    def names(self) -> list[Field]:
        """The fields, in the order in which rows have them first."""
        return [self.fields[name] for name in dict.fromkeys(place.field for place in self.places)]

    @property
    def candidates(self) -> list[list[Row]]:
        """The rows that a word can match, by its bits 28 to 24."""
        return [[row for row in self.rows if row.agrees(number)] for number in range(32)]

    def of_module(self, module: str) -> list[Row]:
        """The rows whose forms stand in a module."""
        return [row for row in self.rows if row.module == module]


class _Reader:
    """What is known of a table while it is read. `tests` are the tests that limits may call, and how many
    values each takes.
    """

    def __init__(self, tests: dict[str, int]):
        self.tests = tests
        self.fields = Names("field")
        self.places = Names("field at a place")
        self.modules = Names("module of forms")
        self.rows = Names("row")
        self.module = ""
        self.group = ""
        self.unused: dict[str, Line] = {}

    def record(self, record: Record) -> None:
        """Reads a record by its first word."""
        word = record.head.text.split()[0]
        if word == "field":
            self.field(record.head.behind(), record.lines)
        elif word == "forms":
            self.forms(record.head.behind())
            _alone(record)
        elif word == "group":
            self.group = record.head.behind().text
            _alone(record)
        else:
            self.row(record)

    def forms(self, line: Line) -> None:
        """A module of forms, in which those of the rows behind it stand."""
        name, about = line.halves()
        self.modules.add(line.name(name), about, line)
        self.module, self.group = name, ""

    def field(self, line: Line, places: list[Line]) -> None:
        """A field, and its places."""
        name, says = line.halves()
        self.fields.add(line.name(name), Field(name, says), line)
        if not places:
            line.fail(f"the field `{name}` has no place")
        for place in places:
            self.place(name, place)

    def place(self, name: str, line: Line) -> None:
        """A field at a place: `NAME BITS`, `NAME 31 and 22`, and behind it what the manual calls it."""
        own, *words = line.text.split()
        twice = words[1:2] == ["and"]
        bits, manual = (words[:1] + words[2:3], words[3:]) if twice else (words[:1], words[1:])
        ranges = [_bits(word, own, line) for word in bits]
        if not ranges:
            line.fail(f"the field `{own}` has no bits")
        if twice and ranges != [(bit, bit) for bit in TWICE]:
            line.fail(f"the field `{own}` stands twice, and so at {TWICE[0]} and {TWICE[1]} alone")
        high, low = ranges[0]
        place = Place(line.name(own), name, high, low, twice, " ".join(manual) or name)
        self.places.add(own, place, line)
        self.unused[own] = line

    def row(self, record: Record) -> None:
        """A row: its head, its bits, and its limits."""
        head = record.head
        name, about = head.halves()
        if not self.module or not self.group:
            head.fail(f"the row `{name}` stands in no {'group of the manual' if self.module else 'module of forms'}")
        row = Row(head.name(name), about, self.group, self.module)
        self.rows.add(name, row, head)
        if not record.lines:
            head.fail(f"the row `{name}` has no bits")
        self.bits(row, record.lines[0])
        for line in record.lines[1:]:
            word = line.text.split()[0]
            if word == "if" and not row.limits:
                row.limits = self.limits(row, line.behind())
            elif word == "order":
                _reorder(row, line.behind())
            else:
                line.fail(f"`{word}` is no word of a row, or stands here a second time")

    def bits(self, row: Row, line: Line) -> None:
        """The bits of a row from the highest on: its fields, and the fixed bits between."""
        free = WORD
        for name, called in _parts(line):
            if set(name) <= set("01"):
                free -= len(name)
                _fix(row, name, free, line)
                continue
            place = self.places.find(name, line)
            self.unused.pop(name, None)
            if not place.stands_at(free - 1):
                line.fail(f"the field `{name}` stands at {place.bits}, and bit {free - 1} is next here")
            free -= place.width
            _put(row, place, called or place.manual, line)
        if free:
            line.fail(f"the row `{row.name}` has {WORD - free} bits: what begins at bit {free - 1} is missing")
        _twins(row, line)

    def limits(self, row: Row, line: Line) -> list[Test]:
        """What the values of a row's fields must meet."""
        tests = tests_of(line)
        for test in tests:
            if isinstance(test, Call):
                if test.name not in self.tests:
                    line.fail(f"there is no test `{test.name}`")
                if self.tests[test.name] != len(test.values):
                    line.fail(f"the test `{test.name}` takes {self.tests[test.name]} values")
            for value in test.values:
                if value not in row.fields:
                    line.fail(f"the row `{row.name}` has no field `{value.name if isinstance(value, Call) else value}`")
        return tests

    def table(self) -> RowTable:
        """What was read."""
        for name, line in self.unused.items():
            line.fail(f"no row has the field `{name}`")
        return RowTable(self.fields, self.modules, list(self.rows.values()))


def _alone(record: Record) -> None:
    """Sees that a record is one line."""
    for line in record.lines:
        line.fail("this line belongs to no field and to no row")


def _bits(text: str, name: str, line: Line) -> tuple[int, int]:
    """The highest and the lowest bit of `22`, or of `23:22`."""
    found = BITS.fullmatch(text)
    if not found:
        line.fail(f"`{text}` are no bits of the field `{name}`")
    high = int(found[1])
    low = int(found[2] or high)
    if high >= WORD or low > high:
        line.fail(f"the field `{name}` stands at {text}, which is not within {WORD} bits")
    return high, low


def _parts(line: Line) -> list[tuple[str, str]]:
    """The parts of a row's bits, each with what the manual calls it in this row alone, or nothing."""
    if PART.sub("", line.text):
        line.fail(f"`{PART.sub('', line.text)}` is no part of a row's bits")
    return PART.findall(line.text)


def _fix(row: Row, digits: str, lowest: int, line: Line) -> None:
    """Gives a row fixed bits."""
    if lowest < 0:
        line.fail(f"the fixed bits `{digits}` go {-lowest} below bit 0")
    row.fixed |= int(digits, 2) << lowest
    row.fixed_bits |= (1 << len(digits)) - 1 << lowest


def _put(row: Row, place: Place, called: str, line: Line) -> None:
    """Gives a row a field, or the second bit of one that it has."""
    if place.twice and place in row.places:
        return
    if place.field in row.fields:
        line.fail(f"the row `{row.name}` has the field `{place.field}` a second time")
    if len(row.places) == MOST_FIELDS:
        line.fail(f"the row `{row.name}` has more than {MOST_FIELDS} fields")
    row.places.append(place)
    row.called.append(called)


def _twins(row: Row, line: Line) -> None:
    """Sees that a field that stands twice does so in the row."""
    names = [name for name, _ in _parts(line)]
    for place in row.places:
        if place.twice and names.count(place.name) != 2:
            line.fail(f"the field `{place.name}` stands at {place.bits}, and once in the row `{row.name}`")


def _reorder(row: Row, line: Line) -> None:
    """Puts the fields of a row into another order."""
    names = line.text.split()
    if sorted(names) != sorted(row.fields):
        line.fail(f"the row `{row.name}` has the fields {' '.join(row.fields)}, each once")
    order = [row.number_of(name) for name in names]
    row.places = [row.places[number] for number in order]
    row.called = [row.called[number] for number in order]


def row_table_of(text: str, file: str, tests: dict[str, int]) -> RowTable:
    """The table of a text. `tests` are the tests that limits may call, and how many values each takes."""
    reader = _Reader(tests)
    for record in records_of(text, file):
        reader.record(record)
    return reader.table()
