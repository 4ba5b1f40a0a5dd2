"""The table of instructions, tables/instructions.txt, as it is read: groups, kinds of fields, and instructions."""
from __future__ import annotations

import re
from dataclasses import dataclass, field

from .file_kinds import InFile, Part, in_file_of
from .grammar import Call, Line, Names, Record, Test, Value, call_of, names_in, records_of, snake_case, tests_of
from .row_table import RowTable
from .words import Words

ACCESS = re.compile(r"(\w+) size ([0-3]) v ([01]) opc ([0-3])(?: literal ([0-3]))?")
FIELD = re.compile(r"(\w+): ([^|]*?)\s*\|\s*(.*)")

# The prover has no rule for a literal of a variant behind this one, so each of these has a maker.
LAST_LITERAL = 128

# What a load or a store of one register has behind the register: its address, and what is known of the access.
ADDRESSED = ["Mode", "Flags"]

# What an expression may name beside fields and the variants of enumerations.
BESIDE = ("virtuals", "frame", "true", "false")

# The words with which a line of an instruction begins that is neither a sentence nor a field. Each stands once, and what
# stands behind it is read where it is written.
KEYS = (
    "if", "alone", "manual", "row", "form", "word", "traps", "cells", "marks", "text", "let", "roles", "access",
    "made", "kinds", "file", "also",
)

# What the line `marks` may say of an instruction: what queries answer of it, and where its emission goes by it.
MARKS = (
    "trap", "args", "safepoint", "pair_access", "regular_call", "tail_call", "ret", "ret_call", "branch",
    "stops", "quiet", "unbounded",
)


@dataclass(frozen=True)
class Group:
    """A group: its name, and where its instructions are one plain word each what these are."""

    name: str
    plain: str


@dataclass(frozen=True)
class Kind:
    """A kind of fields: its name, their type, what stands for them in a file, and what they are in a text: the operand
    that such a value alone is, `name` where the name of an operator begins one, or nothing.
    """

    name: str
    type: str
    in_file: InFile
    in_text: str = ""

    @property
    def owns(self) -> bool:
        """Whether a field of the kind owns memory."""
        return self.type.startswith(("ListVec<", "CallInfo<", "ReturnCallInfo<"))


REGISTERS = {
    "writes": Kind("Reg", "Writable<Reg>", InFile((Part("", "Reg", is_written=True),))),
    "reads": Kind("Reg", "Reg", InFile((Part("", "Reg"),))),
}


@dataclass
class Field:
    """A field: its name, whether it `writes` or `reads` a register or `is` something else, its class or its
    kind, as the table has it, its kind, and what is said of it.
    """

    name: str
    way: str
    what: str
    kind: Kind
    says: list[str]

    @property
    def in_definitions(self) -> str:
        """Its name in definitions, where the size of a scalar is `scalar`."""
        return "scalar" if (self.name, self.what) == ("size", "ScalarSize") else self.name


@dataclass(frozen=True)
class Access:
    """What a load or a store of one register moves: the type of the value, the fields size, V and opc of its words,
    and where it has a form with a literal the field opc of that.
    """

    type: str
    size: int
    vector: int
    opc: int
    literal: int | None


@dataclass
class Instruction:
    """An instruction: its name, its group, the class of its name in a file, whether its result is the register behind
    it, where it stands, what is said of it, its fields, and its lines by the words with which they begin; and of these
    its marks, what must hold beside the classes, or of its operands, its word, and what a load or a store of one
    register moves.
    """

    name: str
    group: Group
    named: str
    is_tied: bool
    head: Line
    says: list[str] = field(default_factory=list)
    fields: list[Field] = field(default_factory=list)
    lines: dict[str, Line] = field(default_factory=dict)
    marks: list[str] = field(default_factory=list)
    tests: list[Test] = field(default_factory=list)
    word: Call | None = None
    access: Access | None = None

    @property
    def alone(self) -> bool | Call:
        """Whether it is one word that is no use, or what tells that: one that has a form is, but where its cells are
        told too.
        """
        line = self.lines.get("alone")
        if line:
            return call_of(line) if line.text else True
        return "cells" not in self.lines and ("form" in self.lines or "row" in self.lines)

    @property
    def is_made(self) -> bool:
        """Whether the constructor of its immediate may refuse a file's value."""
        return "made" in self.lines

    @property
    def maker(self) -> str:
        """The name of the function that makes it."""
        return snake_case(self.name)

    @property
    def loads(self) -> bool:
        """Whether its first field is written."""
        return self.fields[0].way == "writes"

    @property
    def pattern(self) -> str:
        """The instruction as a pattern of definitions."""
        names = [part.in_definitions for part in self.fields]
        return f"(insts.{' '.join([self.name, *names])})" if names else f"insts.{self.name}"

    def field_of(self, value: Value) -> Field | None:
        """The field that a value is, where it is one."""
        return next((one for one in self.fields if isinstance(value, str) and one.name == value.removeprefix("&")), None)


@dataclass
class InstructionTable:
    """The table: its groups, the instructions in their order, how the words of their expressions are spelled, and the
    rows of words.
    """

    groups: Names
    instructions: list[Instruction]
    words: Words
    rows: RowTable

    @property
    def plain_groups(self) -> list[Group]:
        """The groups of plain words."""
        return [group for group in self.groups.values() if group.plain]

    @property
    def accesses(self) -> list[Instruction]:
        """The loads and stores of one register."""
        return [one for one in self.instructions if one.access]

    @property
    def made(self) -> list[Instruction]:
        """The instructions that have a maker."""
        return self.instructions[LAST_LITERAL:]

    def of_group(self, group: Group) -> list[Instruction]:
        """The instructions of a group."""
        return [instruction for instruction in self.instructions if instruction.group == group]


class _Reader:
    """What is known of a table while it is read. `classes` are the names of the classes of registers."""

    def __init__(self, classes: list[str], words: Words, rows: RowTable):
        self.classes = classes
        self.words = words
        self.rows = rows
        self.groups = Names("group")
        self.kinds = Names("kind")
        self.instructions = Names("instruction")
        self.read = {
            "if": self.test, "alone": self.alone, "form": self.form, "word": self.word, "marks": self.marks,
            "made": self.made, "access": self.access,
        }

    def record(self, record: Record) -> None:
        """Reads a record by its first word."""
        head = record.head
        word = head.text.split()[0]
        if word in ("plain", "group", "kind"):
            for line in record.lines:
                line.fail("this line belongs to no instruction")
            self.declaration(word, head.behind())
        else:
            self.instruction(record)

    def declaration(self, word: str, line: Line) -> None:
        """A group, or a kind."""
        if word == "group":
            self.groups.add(line.name(line.text), Group(line.text, ""), line)
            return
        name, words = line.halves()
        if word == "plain":
            self.groups.add(line.name(name), Group(name, words), line)
            return
        parts = [part.strip() for part in words.split("|")]
        if len(parts) > 3:
            line.fail("`kind NAME | TYPE | KIND IN A FILE | IN A TEXT` is wanted")
        of_type, in_file, in_text = parts + [""] * (3 - len(parts))
        self.kinds.add(line.name(name), Kind(name, of_type, in_file_of(line, in_file or name), in_text), line)

    def instruction(self, record: Record) -> None:
        """An instruction: its head, what it does, its fields, and its other lines."""
        one = self.head(record.head)
        for line in record.lines:
            word = line.text.split()[0]
            if word == "|":
                says = one.fields[-1].says if one.fields else one.says
                says.append(line.text[1:].strip())
            elif word in KEYS:
                self.key(one, word, line)
            else:
                self.field(one, line)
        self.whole(one)

    def head(self, head: Line) -> Instruction:
        """An instruction by the first line of its record."""
        name, _, behind = (half.strip() for half in head.text.partition(":"))
        group, *marks = behind.split(", ")
        named = [mark.removeprefix("named ") for mark in marks if mark.startswith("named ")]
        for mark in marks:
            if mark != "tied" and not mark.startswith("named "):
                head.fail(f"`{mark}` is no mark of an instruction")
        found = self.groups.find(group, head)
        one = Instruction(head.name(name), found, (named or [group])[0], "tied" in marks, head)
        self.instructions.add(name, one, head)
        return one

    def key(self, one: Instruction, word: str, line: Line) -> None:
        """A line of an instruction that begins with one of the words."""
        if word in one.lines:
            line.fail(f"`{word}` stands here a second time")
        one.lines[word] = line.behind()
        if word in self.read:
            self.read[word](one, line.behind())

    def whole(self, one: Instruction) -> None:
        """Sees that nothing is missing of an instruction."""
        head = one.head
        if not one.says:
            head.fail(f"nothing is said of the instruction `{one.name}`")
        if one.group.plain and not one.word:
            head.fail(f"the plain word `{one.name}` has no word")
        if len(self.instructions) > LAST_LITERAL and not one.access:
            head.fail(f"behind the instruction {LAST_LITERAL} `{one.name}` has to be a load or a store of one register")

    def field(self, one: Instruction, line: Line) -> None:
        """A field of an instruction."""
        found = FIELD.fullmatch(line.text)
        if not found:
            line.fail("`FIELD: WHAT | WORDS` is wanted")
        name, what, says = found.groups()
        if one.field_of(name):
            line.fail(f"the field `{name}` stands here a second time")
        way, _, of_class = what.partition(" ")
        if way in ("writes", "reads"):
            one.fields.append(Field(name, way, of_class, REGISTERS[way], [says]))
            self.register(one, of_class, line)
        else:
            one.fields.append(Field(name, "is", what, self.kinds.find(what, line), [says]))

    def register(self, one: Instruction, of_class: str, line: Line) -> None:
        """The class of a register, which it has in a group of plain words alone."""
        if not one.group.plain and of_class:
            line.fail(f"a register has no class in the group `{one.group.name}`")
        call = class_call(of_class)
        if call:
            _known(one, call.values, line)
        elif one.group.plain and of_class not in self.classes:
            line.fail(f"there is no class `{of_class}`")

    def test(self, one: Instruction, line: Line) -> None:
        """What must hold beside the classes, or of the operands of an instruction that has none."""
        one.tests = tests_of(line)
        if one.group.plain and len(one.tests) > 1:
            line.fail("one test is wanted")
        for test in one.tests:
            _known(one, test.values, line)

    def alone(self, one: Instruction, line: Line) -> None:
        """That it is one word that is no use, though its cells are told, or what tells whether it is."""
        if one.group.plain:
            line.fail("a plain word is no use")
        if line.text:
            _known(one, call_of(line).values, line)

    def form(self, one: Instruction, line: Line) -> None:
        """The function that gives the form of the word, and the word where no other function is named."""
        form = call_of(line)
        _known(one, form.values, line)
        one.word = one.word or Call(f"{form.name.rpartition('.')[2]}_word", form.values)

    def word(self, one: Instruction, line: Line) -> None:
        """The function that gives the word."""
        one.word = call_of(line)
        _known(one, one.word.values, line)

    def marks(self, one: Instruction, line: Line) -> None:
        """What else is said of an instruction, each by a name."""
        for mark in line.text.split(", "):
            if mark not in MARKS:
                line.fail(f"there is no mark `{mark}`")
            if mark in one.marks:
                line.fail(f"the mark `{mark}` stands here a second time")
            one.marks.append(mark)

    def made(self, one: Instruction, line: Line) -> None:
        """That the immediate of a plain word is made by hand."""
        if not one.group.plain or line.text:
            line.fail("`made` stands alone, in a group of plain words")

    def access(self, one: Instruction, line: Line) -> None:
        """What a load or a store of one register moves."""
        found = ACCESS.fullmatch(line.text)
        if not found:
            line.fail("`access TYPE size N v N opc N` is wanted, and `literal N` behind it where there is such a form")
        if [part.way == "is" and part.what for part in one.fields] != [False, *ADDRESSED]:
            line.fail(f"the fields of `{one.name}` have to be a register, a `Mode` and `Flags`")
        of_type, *bits = found.groups()
        one.access = Access(of_type, *(bit if bit is None else int(bit) for bit in bits))

    def table(self) -> InstructionTable:
        """What was read."""
        return InstructionTable(self.groups, list(self.instructions.values()), self.words, self.rows)


def _known(one: Instruction, values: tuple[Value, ...], line: Line) -> None:
    """Sees that the names in values are fields, or what an expression may name beside."""
    for name in names_in(values):
        if name not in BESIDE and not name[0].isupper() and not one.field_of(name):
            line.fail(f"the instruction `{one.name}` has no field `{name}`")


def class_call(of_class: str) -> Call | None:
    """The function that gives a class, where one does."""
    found = re.fullmatch(r"(\w+)\((\w+)\)", of_class)
    return Call(found[1], (found[2],)) if found else None


def instruction_table_of(text: str, file: str, classes: list[str], words: Words, rows: RowTable) -> InstructionTable:
    """The table of a text. `classes` are the names of the classes of registers."""
    reader = _Reader(classes, words, rows)
    for record in records_of(text, file):
        reader.record(record)
    return reader.table()
