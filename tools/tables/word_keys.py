"""What the table of instructions says of the words of an instruction, in the lines that begin with `row`, `traps`, `cells`
and `manual`, and what these lines have to be.
"""
from __future__ import annotations

import re
from dataclasses import dataclass
from typing import Iterable

from .grammar import Line, Value, names_in, values_of
from .instruction_table import BESIDE, Instruction, InstructionTable
from .layout import use
from .row_table import Row, RowTable

ROW = re.compile(r"(\w+)(?: \{ (.*) \})?")

# How a field of an instruction stands in a row where it is no register, by its kind.
IN_ROWS = {"Cond": "condition_bits {0}", "Nzcv": "nzcv_bits (flags_of {0})", "UImm6": "{0}.imm"}

# The lines of which one says what the words of an instruction are.
WORD_KEYS = ("row", "form", "cells")


@dataclass(frozen=True)
class RowForm:
    """A form that is told by its row: the name of the row's form, and of each of its fields what the field is."""

    name: str
    values: tuple[tuple[str, Value], ...]


def row_form_of(one: Instruction) -> RowForm | None:
    """The form of an instruction that has the line `row`."""
    line = one.lines.get("row")
    if line is None:
        return None
    found = ROW.fullmatch(line.text)
    if not found:
        line.fail("`ROW`, or `ROW { FIELD; FIELD = VALUE; .. }` is wanted")
    return RowForm(found[1], tuple(row_field(part.strip(), line) for part in (found[2] or "").split(";") if part.strip()))


def row_imports(instructions: Iterable[Instruction], rows: RowTable) -> list[str]:
    """The lines that import the forms of the rows by which some instructions are told."""
    used = {form.name for form in map(row_form_of, instructions) if form}
    names = {module: sorted(used & {row.form for row in rows.of_module(module)}) for module in sorted(rows.modules)}
    return [use(f"a64_rows.specs.{module}", own) for module, own in names.items() if own]


def row_field(text: str, line: Line) -> tuple[str, Value]:
    """A field of a row, and what it is: an expression, or the field of the instruction that has its name."""
    name, _, behind = (half.strip() for half in text.partition("="))
    values = values_of(Line(line.file, line.number, behind or name))
    if len(values) > 1:
        line.fail(f"one value of `{name}` is wanted")
    return line.name(name), values[0]


def check_row(one: Instruction, rows: RowTable) -> None:
    """Sees that a form that is told by its row has each field of the row, and fields that the instruction has."""
    form, line = row_form_of(one), one.lines["row"]
    found = next((row for row in rows.rows if row.form == form.name), None)
    if found is None:
        line.fail(f"there is no row `{form.name}`")
    check_fields(form, found, line)
    for _, value in form.values:
        for name in names_in((value,)):
            if name not in BESIDE and not one.field_of(name):
                line.fail(f"the instruction `{one.name}` has no field `{name}`")
        part = one.field_of(value)
        if part and part.way == "is" and part.what not in IN_ROWS:
            line.fail(f"a field of the kind `{part.what}` is no number of a row")


def check_fields(form: RowForm, row: Row, line: Line) -> None:
    """Sees that a form names each field of its row once, and no other."""
    names = [name for name, _ in form.values]
    for place, name in enumerate(names):
        if name in names[:place]:
            line.fail(f"the field `{name}` stands here a second time")
        if name not in row.fields:
            line.fail(f"the row `{form.name}` has no field `{name}`")
    for name in row.fields:
        if name not in names:
            line.fail(f"the field `{name}` of the row `{form.name}` is missing")


def check_words(one: Instruction, rows: RowTable) -> None:
    """Sees that the words of an instruction are told once, and in the way of its group."""
    there = [key for key in WORD_KEYS if key in one.lines]
    told_by = 0 if one.access or one.group.name == "Call" else 1
    if len(there) < told_by:
        one.head.fail(f"nothing says what the words of `{one.name}` are")
    if len(there) > told_by:
        one.lines[there[-1]].fail(f"`{there[-1]}` says a second time what the words of `{one.name}` are")
    if "row" in there:
        check_row(one, rows)
        if one.word is None:
            one.lines["row"].fail(f"no `word` stands beside the row of `{one.name}`")
    for key in ("traps", "word"):
        if key in one.lines and "cells" in there:
            one.lines[key].fail(f"`{key}` stands beside `cells`")
    if one.group.plain:
        check_plain(one)
    elif "traps" in one.lines and not one.field_of(one.lines["traps"].text.partition(".")[0]):
        one.lines["traps"].fail(f"the instruction `{one.name}` has no field `{one.lines['traps'].text}`")


def check_plain(one: Instruction) -> None:
    """Sees that a plain word has its section of the manual, and is one word that does not trap."""
    for key in ("traps", "cells"):
        if key in one.lines:
            one.lines[key].fail(f"a plain word has no `{key}`")
    if "manual" not in one.lines:
        one.head.fail(f"the plain word `{one.name}` has no section of the manual")


def checked(table: InstructionTable) -> InstructionTable:
    """The table, whose lines on words are as they have to be."""
    for one in table.instructions:
        check_words(one, table.rows)
    return table
