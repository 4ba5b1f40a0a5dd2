"""Sees that the recipes of pages name files and items that are there.

A recipe is a table with the columns crate, file and what. Each file has to be there, below the folder of its crate (an
empty crate is the one above it; a crate that is no folder of crates/ is a folder of the repository), and each name that
stands in backticks in the last column has to stand in that file as a word. No script may write the file.
"""
from __future__ import annotations

import re
from dataclasses import dataclass
from pathlib import Path
from typing import Iterator

from .files import ROOT

PAGES = ("docs/ADDING.md", "docs/RECIPES.md")
HEAD = ["crate", "file", "what"]


@dataclass(frozen=True)
class Row:
    """A row of a recipe: where it stands, the crate, the file, and what is said of it."""

    page: str
    number: int
    crate: str
    file: str
    what: str

    @property
    def path(self) -> Path:
        """The file."""
        crate = ROOT / "crates" / self.crate
        return (crate if crate.is_dir() else ROOT / self.crate) / self.file

    def missing(self) -> Iterator[str]:
        """What of it is not there, or not by hand."""
        if not self.path.is_file():
            yield f"no file {self.path.relative_to(ROOT)}"
            return
        text = self.path.read_text(encoding="utf-8")
        if "Written by `" in text.split("\n", 1)[0]:
            yield f"{self.path.relative_to(ROOT)} is written by a script"
        for name in re.findall(r"`([^`]+)`", self.what):
            if not re.search(rf"(?<!\w){re.escape(name)}(?!\w)", text):
                yield f"no `{name}` in {self.path.relative_to(ROOT)}"


def rows_of(page: str) -> Iterator[Row]:
    """The rows of the recipes of a page."""
    inside, crate = False, ""
    for number, line in enumerate((ROOT / page).read_text(encoding="utf-8").splitlines(), start=1):
        cells = [cell.strip() for cell in line.strip().strip("|").split("|")] if line.startswith("|") else []
        if cells == HEAD:
            inside = True
        elif inside and cells and not set(line) <= set("|-: "):
            crate = cells[0] or crate
            yield Row(page, number, crate, cells[1], cells[2])
        inside = inside and bool(cells)


def check() -> int:
    """Tells what is missing, and answers how often something is."""
    faults: list[str] = []
    for page in PAGES:
        rows = list(rows_of(page))
        faults += [f"{page}:{row.number}: {fault}" for row in rows for fault in row.missing()]
        faults += [] if rows else [f"{page}:1: no recipe"]
    print(*faults, sep="\n", end="\n" if faults else "")
    return len(faults)
