"""The classes of names with which lines of a file begin, the tables in which they stand, and what stands behind each."""
from __future__ import annotations

import re
from dataclasses import dataclass

from .file_kinds import Part
from .grammar import snake_case
from .instruction_table import Field, Instruction, InstructionTable


@dataclass(frozen=True)
class NameClass:
    """A class of names of instructions, and what each of them names."""

    name: str
    names: str

    @property
    def type(self) -> str:
        """The type of its names: those of loads and stores of one register are their operators."""
        return "AccessOp" if self.name == "Access" else f"{self.name}Name"

    @property
    def declared(self) -> str:
        """The module of definitions that declares this type."""
        path = "a64_ops.specs.declared.access" if self.name == "Access" else "a64_text.specs.declared.name"
        return f"{path}.{self.type}"

    @property
    def module(self) -> str:
        """The name under which definitions import its names."""
        return "ops" if self.name == "Access" else self.function

    @property
    def function(self) -> str:
        """What its functions and definitions begin with."""
        return snake_case(self.name)


@dataclass(frozen=True)
class Entry:
    """An entry that is no instruction: how its line begins, the variant of `Name`, and the kinds behind it."""

    text: str
    name: str
    kinds: tuple[str, ...]


@dataclass(frozen=True)
class NameRows:
    """A table of rows: what its functions begin with, what its names name, and their classes, one behind the other."""

    function: str
    names: str
    classes: tuple[str, ...]


CLASSES = (
    NameClass("Immediate", "an integer operation with an immediate"),
    NameClass("Register", "an integer operation on registers"),
    NameClass("Float", "an operation on scalar floats"),
    NameClass("Vector", "an operation on vectors"),
    NameClass("VectorMove", "a move of lanes, or a table of bytes"),
    NameClass("System", "a hint, a barrier, or an access to the flags"),
    NameClass("Control", "a branch or another instruction of control"),
    NameClass("Sequence", "a sequence around a table, a symbol or the stack, or what has no word"),
    NameClass("Call", "a call, or a return that calls"),
    NameClass("Pair", "a load or a store of a pair of registers"),
    NameClass("Memory", "an instruction of memory that is no load or store of one register"),
    NameClass("Access", "a load or store of one register"),
)

ENTRIES = (
    Entry("bind", "Bind", ("Label",)),
    Entry("const", "Const", ("U32", "List")),
    Entry("frame", "Frame", ("FrameField", "U32")),
    Entry("flag", "Flag", ("EmitFlag",)),
)

# The entries stand behind the last table.
TABLES = (
    NameRows("integer", "integer operations", ("Immediate", "Register")),
    NameRows("float", "operations on scalar floats", ("Float",)),
    NameRows("vector", "operations on vectors", ("Vector",)),
    NameRows("vector_move", "moves of lanes and of tables of bytes", ("VectorMove",)),
    NameRows(
        "control", "instructions of control, of hints, of barriers and of accesses to the flags", ("Control", "System")
    ),
    NameRows("sequence", "sequences and of calls", ("Sequence", "Call")),
    NameRows("access", "loads and stores of one register", ("Access",)),
    NameRows("other", "other instructions of memory, and of entries that are no instruction", ("Pair", "Memory")),
)


@dataclass(frozen=True)
class Taken:
    """A field of a file behind a name: its place, the field of the instruction that it is or is part of, and which part."""

    place: int
    field: Field
    part: Part


def class_of(name: str) -> NameClass:
    """The class of this name."""
    return next(one for one in CLASSES if one.name == name)


def named(table: InstructionTable, of: NameClass) -> list[Instruction]:
    """The instructions whose names are of a class."""
    return [one for one in table.instructions if one.named == of.name]


def taken(one: Instruction) -> list[Taken]:
    """The fields behind the name of an instruction, as far as no function tells them."""
    parts = [(field, part) for field in one.fields for part in field.kind.in_file.parts]
    return [Taken(place, *pair) for place, pair in enumerate(parts)]


def file_kinds(one: Instruction) -> list[str]:
    """The kinds behind the name of an instruction."""
    if "kinds" in one.lines:
        return one.lines["kinds"].text.split()
    return [field.part.kind for field in taken(one)]


def is_of_its_fields(one: Instruction) -> bool:
    """Whether the fields of a file are all that an instruction is made of: no constructor may refuse a value, no list is
    read, and no function tells them.
    """
    return not one.is_made and not any(
        field.kind.in_file.told_by or any(part.text for part in field.kind.in_file.parts) for field in one.fields
    )


def checked(table: InstructionTable, kinds: list[str]) -> InstructionTable:
    """The table, of which names and kinds are some that there are. `kinds` are the kinds of what stands in a file."""
    for one in table.instructions:
        if one.named not in [of.name for of in CLASSES]:
            one.head.fail(f"there is no class of names `{one.named}`")
        told = [field for field in one.fields if field.kind.in_file.told_by]
        line = one.lines.get("kinds", one.head)
        if bool(told) != ("kinds" in one.lines):
            line.fail(f"`kinds` is wanted where a function tells the fields of `{one.name}`, and nowhere else")
        for kind in file_kinds(one):
            if re.sub(r"\(\w+\)", "", kind) not in kinds:
                line.fail(f"there is no kind `{kind}` of what stands in a file")
        if told and file_kinds(one)[:1] != [told[0].kind.in_file.parts[0].kind]:
            line.fail(f"the first field of `{one.name}` has the kind `{told[0].kind.in_file.parts[0].kind}`")
    return table
