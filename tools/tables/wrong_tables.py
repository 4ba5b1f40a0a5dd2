"""Tries wrong tables: each file of a folder says in its first line the error that reading it has to give.

    # LINE: WHAT IS WRONG
"""
from __future__ import annotations

from pathlib import Path
from typing import Callable

from .grammar import TableError


def error_of(read: Callable[[str, str], object], path: Path) -> str:
    """The error that reading a table gives, without the name of the file."""
    try:
        read(path.read_text(encoding="utf-8"), path.name)
    except TableError as error:
        return str(error).removeprefix(f"{path.name}:")
    return "no error"


def try_all(read: Callable[[str, str], object], folder: Path) -> int:
    """Tries the tables of a folder, tells which give another error, and answers how many these are."""
    paths = sorted(folder.glob("*.txt"))
    wrong = 0
    for path in paths:
        wanted = path.read_text(encoding="utf-8").split("\n", 1)[0].removeprefix("# ")
        found = error_of(read, path)
        if found != wanted:
            print(f"{folder.name}/{path.name}: wanted is\n    {wanted}\nand reading it gives\n    {found}")
            wrong += 1
    print(f"{len(paths)} wrong tables, {wrong} of them give another error")
    return wrong if paths else 1
