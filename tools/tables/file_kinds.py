"""What stands in a file for a field of an instruction: the third column of the lines `kind` of the table of instructions."""
from __future__ import annotations

import re
from dataclasses import dataclass

from .grammar import Line

VALUE = re.compile(r"\w+(?:\(\w+\))?")
NUMBER_OF = re.compile(r"(\w+)\.0")
LIST_OF = re.compile(r"list\((\w+)\)")
RECORD = re.compile(r"\{ (.*) \}")
RECORD_PART = re.compile(r"(\w+) (\w+)")
TOLD_BY = re.compile(r"(\w+)\((\w+) ([\w.]+)\)")


@dataclass(frozen=True)
class Part:
    """A field of a file: which part of the instruction's field it is (the whole where that has no name), the kind of its
    value, whether it is a register that is written, and of a list the function that gives its text.
    """

    name: str
    kind: str
    is_written: bool = False
    text: str = ""


@dataclass(frozen=True)
class InFile:
    """The fields of a file that stand for a field of an instruction. Where a function tells them, only the first of
    them is here, and a line `kinds` has the kinds of all.
    """

    parts: tuple[Part, ...]
    told_by: str = ""

    @property
    def is_record(self) -> bool:
        """Whether the field is a record of these."""
        return bool(self.parts[0].name) and not self.told_by


def record_part(line: Line, text: str) -> Part:
    """A part of a record: a register, or the kind of its value, before its name."""
    found = RECORD_PART.fullmatch(text)
    if not found:
        line.fail(f"`{text}` is no part of a record")
    what, name = found.groups()
    return Part(name, "Reg" if what in ("writes", "reads") else what, what == "writes")


def in_file_of(line: Line, text: str) -> InFile:
    """What stands in a file, by the text of the column."""
    if found := LIST_OF.fullmatch(text):
        return InFile((Part("", "List", text=found[1]),))
    if found := NUMBER_OF.fullmatch(text):
        return InFile((Part("0", found[1]),))
    if found := TOLD_BY.fullmatch(text):
        return InFile((Part(found[3], found[2]),), found[1])
    if found := RECORD.fullmatch(text):
        return InFile(tuple(record_part(line, part) for part in found[1].split("; ")))
    if not VALUE.fullmatch(text):
        line.fail(f"`{text}` is no kind of what stands in a file")
    return InFile((Part("", text),))
