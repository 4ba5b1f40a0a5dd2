"""What the tables have: the counts of docs/ADDING.md, and the instructions of docs/LIBRARY.md by their groups."""
from __future__ import annotations

import instructions
import rows
from tables import name_classes
from tables.instruction_table import InstructionTable

from .crate_list import crates
from .repository import CRATES


def instruction_table() -> InstructionTable:
    """The table of instructions."""
    return instructions.read(instructions.text_of(instructions.TABLE), instructions.TABLE)


def groups() -> list[str]:
    """The instructions by their groups."""
    table = instruction_table()
    names: dict[str, list[str]] = {group: [] for group in table.groups}
    for one in table.instructions:
        names[one.group.name].append(f"`{one.name}`")
    rows = (f"| {group} | {len(inside)} | {', '.join(inside)} |" for group, inside in names.items())
    return ["| group | how many | instructions |", "|---|---|---|", *rows]


def counts() -> list[tuple[str, int]]:
    """What is counted, and how many there are."""
    table = instruction_table()
    row_table = rows.read(instructions.text_of(rows.TABLE), rows.TABLE)
    plain = [one for one in table.instructions if one.group.plain]
    written = [path for path in instructions.written(table) if path.startswith("crates/")]
    cases = (CRATES / "a64_cases" / "stdout").read_text(encoding="utf-8").split()[0]
    return [
        ("instructions", len(table.instructions)),
        ("of these, plain words", len(plain)),
        ("groups of instructions", len(table.groups)),
        ("rows of instruction words", len(row_table.rows)),
        ("files written of tables/instructions.txt", len(written)),
        ("crates with such files", len({path.split("/")[1] for path in written})),
        ("files written of tables/rows.txt", len(rows.written(row_table))),
        ("entries of a file that are no instruction", len(name_classes.ENTRIES)),
        ("crates", len(crates())),
        ("cases of tests/", int(cases)),
        ("must-fail edits", len(list(CRATES.glob("*/must-fail/*.edit")))),
    ]


def table() -> list[str]:
    """The counts as a table."""
    return ["| what | how many |", "|---|---|", *(f"| {what} | {many:,} |" for what, many in counts())]
