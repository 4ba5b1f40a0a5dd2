"""The rows of docs/FORMAT.md that the table of instructions has: what stands in a file for an instruction."""
from __future__ import annotations

import re

from .files import Part
from .grammar import Line
from .instruction_table import InstructionTable

PAGE = "docs/FORMAT.md"

# The head of the rows, and the first of them that is no instruction's.
HEAD = ("| entry | fields | means | an operand is bad where |", "|---|---|---|---|")
BEHIND = "| `bind L3` | "

# The keys of rows, in their order.
KEYS = ("file", "also")


def cells_of(line: Line) -> list[str]:
    """The cells of a row: entries, their fields, what they mean, and where an operand of them is bad, if it may be."""
    cells = [cell.strip() for cell in line.text.split("|")]
    if len(cells) not in (3, 4) or not all(cells):
        line.fail("`ENTRY | FIELDS | MEANS | BAD` is wanted, or without the last of these")
    return [*cells, ""][:4]


def lines_of(table: InstructionTable) -> list[Line]:
    """The rows, in the order of the instructions."""
    return [one.lines[key] for one in table.instructions for key in KEYS if key in one.lines]


def checked(table: InstructionTable) -> InstructionTable:
    """The table, of which each instruction has a row."""
    entries = " ".join(cells_of(line)[0] for line in lines_of(table))
    for one in table.instructions:
        if "also" in one.lines and "file" not in one.lines:
            one.lines["also"].fail("`also` stands behind `file`")
        if not re.search(rf"`{one.name}[ `]", entries):
            one.head.fail(f"no line `file` has the instruction `{one.name}`")
    return table


def rows(table: InstructionTable) -> Part:
    """docs/FORMAT.md: the rows of instructions. A row may tell of several, and an instruction have two."""
    cells = [cells_of(line) for line in lines_of(table)]
    return Part(HEAD, BEHIND, [f"| {' | '.join(row[:3])} | {row[3] + ' ' if row[3] else ''}|" for row in cells])
