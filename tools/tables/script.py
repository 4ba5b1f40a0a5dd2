"""A script that writes files from a table: with --check it only compares them, with --test it tries wrong tables."""
from __future__ import annotations

import sys
from dataclasses import dataclass
from typing import Any, Callable

from . import files, widths, wrong_tables
from .grammar import TableError


@dataclass(frozen=True)
class Script:
    """A script: its documents, the command that runs it, its table, the crates of which it writes files, the
    folder of wrong tables, how a table's text is read, and which files are written from it.
    """

    about: str
    command: str
    table: str
    crates: list[str]
    wrong: str
    read: Callable[[str, str], Any]
    written: Callable[[Any], files.Files]

    def run(self, words: list[str]) -> int:
        """Does what the words ask for, and answers the status."""
        if words not in ([], ["--check"], ["--test"]):
            sys.exit(self.about)
        if words == ["--test"]:
            return 1 if wrong_tables.try_all(self.read, files.ROOT / self.wrong) else 0
        try:
            table = self.read((files.ROOT / self.table).read_text(encoding="utf-8"), self.table)
        except TableError as error:
            print(error)
            return 1
        written = {path: widths.in_width(path, lines) for path, lines in self.written(table).items()}
        others = files.left_over(written, self.crates, files.mark_of(self.command, self.table))
        if words == ["--check"]:
            return 1 if files.check(written, others, self.command) else 0
        files.write(written, others)
        return 0
