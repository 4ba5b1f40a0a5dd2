"""Writes files from a table, or holds those that stand against it."""
from __future__ import annotations

from dataclasses import dataclass
from itertools import zip_longest
from pathlib import Path
from typing import Callable

ROOT = Path(__file__).resolve().parent.parent.parent

# What a file has to be, by its path from the top of the repository. It is made only when it is asked for.
Files = dict[str, Callable[[], list[str]]]


def mark_of(command: str, table: str) -> str:
    """What a file says that a command wrote from a table."""
    return f"Written by `{command}` from {table}."


def marked(path: str, mark: str, lines: list[str]) -> list[str]:
    """The lines of a file behind a first one that says what wrote them."""
    return [f"{'//' if path.endswith('.rt') else '--'} {mark}", *lines]


@dataclass(frozen=True)
class Part:
    """A part of a file that is written: behind the lines that begin so, one after another, and before the next line
    that begins with `closing`, or is empty where that is.
    """

    behind: tuple[str, ...]
    closing: str
    lines: list[str]

    def put(self, path: str, there: list[str]) -> list[str]:
        """The lines of the file with the part."""
        first = 0
        for start in self.behind:
            found = [number for number in range(first, len(there)) if there[number].startswith(start)]
            if not found:
                raise SystemExit(f"{path}: there is no line that begins with `{start}`")
            first = found[0] + 1
        last = next(number for number in range(first, len(there)) if self.closes(there[number]))
        return [*there[:first], *self.lines, *there[last:]]

    def closes(self, line: str) -> bool:
        """Whether the part stands before this line."""
        return line.startswith(self.closing) if self.closing else not line


def with_parts(path: str, parts: list[Part]) -> list[str]:
    """A file that stands by hand, but for these parts."""
    there = (ROOT / path).read_text(encoding="utf-8").rstrip("\n").split("\n")
    for part in parts:
        there = part.put(path, there)
    return there


def left_over(files: Files, crates: list[str], mark: str) -> list[str]:
    """The files of some crates that say that they are written, and are not among those that are."""
    found = []
    for folder in (f"{crate}/{folder}" for crate in crates for folder in ("src", "specs", "proofs")):
        for path in sorted((ROOT / folder).rglob("*.*")):
            name = str(path.relative_to(ROOT))
            if name not in files and mark in path.read_text(encoding="utf-8").split("\n", 1)[0]:
                found.append(name)
    return found


def write(files: Files, others: list[str]) -> None:
    """Writes the files that differ from what a table gives, and removes what is left over of another one."""
    for path, lines in files.items():
        text = "\n".join(lines()) + "\n"
        if not (ROOT / path).exists() or (ROOT / path).read_text(encoding="utf-8") != text:
            (ROOT / path).parent.mkdir(parents=True, exist_ok=True)
            (ROOT / path).write_text(text, encoding="utf-8")
            print(f"wrote {path}")
    for path in others:
        (ROOT / path).unlink()
        print(f"removed {path}")


def first_difference(path: Path, lines: list[str]) -> int | None:
    """The number of the first line in which a file differs, or nothing."""
    there = path.read_text(encoding="utf-8").split("\n") if path.exists() else []
    for number, (line, wanted) in enumerate(zip_longest(there, [*lines, ""]), start=1):
        if line != wanted:
            return number
    return None


def check(files: Files, others: list[str], command: str) -> int:
    """Names the files that differ from what a table gives, and answers how many they are."""
    stale = [(path, first_difference(ROOT / path, lines())) for path, lines in files.items()]
    stale = [(path, number) for path, number in stale if number is not None] + [(path, 1) for path in others]
    for path, number in stale:
        print(f"{path}:{number}: this is not what the table gives: run {command}")
    return len(stale)
