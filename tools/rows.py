#!/usr/bin/env python3
"""Writes the files of crates/a64_rows that repeat the table of rows, tables/rows.txt.

Usage: tools/rows.py [--check | --test]

With --check nothing is written, and the status is 1 where a file is not what the table gives. With --test the
wrong tables of tools/tables/wrong_rows are read, and the status is 1 where one gives another error than it should.
"""
import re
import sys
from functools import partial
from typing import Callable

from tables import files, row_code, row_proofs, row_specs
from tables.row_table import RowTable, row_table_of
from tables.script import Script

TABLE = "tables/rows.txt"
CRATE = "crates/a64_rows"
COMMAND = "python3 tools/rows.py"
MARK = files.mark_of(COMMAND, TABLE)


def known_tests() -> dict[str, int]:
    """The tests of src/limits.rt, and how many values each takes."""
    code = (files.ROOT / CRATE / "src/limits.rt").read_text(encoding="utf-8")
    found = re.findall(r"^(?:pub\(crate\) )?fn (\w+)\(([^)]*)\) -> bool$", code, re.MULTILINE)
    return {name: values.count(":") for name, values in found}


def read(text: str, file: str) -> RowTable:
    """The table of a text."""
    return row_table_of(text, file, known_tests())


def written(table: RowTable) -> files.Files:
    """The files that are written, and what writes each."""
    crate = {
        "src/candidate_rows.rt": row_code.candidate_rows,
        "src/entries.rt": row_code.entries,
        "src/field.rt": row_code.field,
        "src/row_limits.rt": row_code.row_limits,
        "src/row_table.rt": row_code.row_table,
        "specs/Entries.antt": row_specs.entries,
        "specs/Fields.antt": row_specs.fields,
        "specs/Order.antt": row_specs.order,
        "specs/Places.antt": row_specs.places,
        "specs/RowLimits.antt": row_specs.row_limits,
        "proofs/CandidateLists.antt": row_proofs.candidate_lists,
        "proofs/Numbers.antt": row_proofs.numbers,
        "proofs/Places.antt": row_proofs.places,
    }
    for module in table.modules:
        crate[f"specs/{module}.antt"] = partial(row_specs.forms, module=module)
    return {f"{CRATE}/{path}": partial(whole, path, lines, table) for path, lines in crate.items()}


def whole(path: str, lines: Callable[[RowTable], list[str]], table: RowTable) -> list[str]:
    """What a file has to be."""
    return files.marked(path, MARK, lines(table))


if __name__ == "__main__":
    script = Script(__doc__, COMMAND, TABLE, [CRATE], "tools/tables/wrong_rows", read, written)
    sys.exit(script.run(sys.argv[1:]))
