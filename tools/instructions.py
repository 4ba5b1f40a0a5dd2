#!/usr/bin/env python3
"""Writes the files of crates that repeat the table of instructions, tables/instructions.txt, and the rows of instructions
in docs/FORMAT.md. tables/words.txt says how its words are spelled.

Usage: tools/instructions.py [--check | --test]

With --check nothing is written, and the status is 1 where a file is not what the table gives, or where a recipe of
docs/ADDING.md or docs/RECIPES.md names what is not there. With --test the wrong tables of
tools/tables/wrong_instructions are read, and the status is 1 where one gives another error than it should.
"""
import re
import sys
from functools import partial
from typing import Callable

import rows
from tables import files, format_rows, inst_files, marks, name_classes, name_code, name_specs, recipes, roles
from tables import text_code, text_specs, text_table, word_code, word_keys, word_specs
from tables.instruction_table import InstructionTable, instruction_table_of
from tables.script import Script
from tables.words import words_of

TABLE = "tables/instructions.txt"
WORDS = "tables/words.txt"
CRATES = ["crates/a64_ops", "crates/a64_inst", "crates/a64_cells", "crates/a64_emit", "crates/a64_operand_text",
          "crates/a64_print", "crates/a64_role", "crates/a64_roles", "crates/a64_text"]
COMMAND = "python3 tools/instructions.py"
MARK = files.mark_of(COMMAND, TABLE)
CLASSES = "crates/a64_operand/src/class.rt"
FILE_KINDS = "crates/a64_tokens/src/value.rt"

# The modules whose `written` says, by the table, which files are written, and what writes each.
MODULES = (inst_files, marks, roles, name_code, name_specs, text_code, text_specs, word_code, word_specs)


def text_of(path: str) -> str:
    """What stands in a file of the repository."""
    return (files.ROOT / path).read_text(encoding="utf-8")


def variants_of(path: str, enum: str) -> list[str]:
    """The variants of an enum."""
    behind = text_of(path).partition(f"pub enum {enum} {{")[2]
    return re.findall(r"^    (\w+)(?:\(\w+\))?,$", behind.partition("\n}\n")[0], re.MULTILINE)


def read(text: str, file: str) -> InstructionTable:
    """The table of a text."""
    words, row_table = words_of(text_of(WORDS), WORDS), rows.read(text_of(rows.TABLE), rows.TABLE)
    table = instruction_table_of(text, file, variants_of(CLASSES, "Class"), words, row_table)
    marks.check(table)
    roles.check(table)
    word_keys.checked(table)
    name_classes.checked(table, variants_of(FILE_KINDS, "Kind"))
    format_rows.checked(table)
    text_table.checked(table)
    return table


def written(table: InstructionTable) -> files.Files:
    """The files that are written, and what writes each."""
    found: files.Files = {}
    for module in MODULES:
        found |= {path: partial(whole, path, lines) for path, lines in module.written(table).items()}
    found[format_rows.PAGE] = partial(files.with_parts, format_rows.PAGE, [format_rows.rows(table)])
    return found


def whole(path: str, lines: Callable[[], list[str]]) -> list[str]:
    """What a file has to be."""
    return files.marked(path, MARK, lines())


if __name__ == "__main__":
    script = Script(__doc__, COMMAND, TABLE, CRATES, "tools/tables/wrong_instructions", read, written)
    status = script.run(sys.argv[1:])
    if sys.argv[1:] == ["--check"] and recipes.check():
        status = 1
    sys.exit(status)
