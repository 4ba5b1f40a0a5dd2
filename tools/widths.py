#!/usr/bin/env python3
"""Breaks the lines of definitions (crates/NAME/specs) that are wider than 100 columns.

Usage: tools/widths.py [--check]

With --check nothing is written, and the status is 1 where a line of a definition or of a clause is wider. The lines
stay what they were but for their ends: a file that `wrapped` would change in more is not written.
"""
from __future__ import annotations

import re
import sys
from pathlib import Path

from tables.files import ROOT
from tables.layout import LINE_WIDTH
from tables.widths import wrapped

CLAUSE = re.compile(r" *(requires|ensures|ghost (?!use)|→|×|⊎)")


def spelled(line: str) -> str:
    """A line, of an import with its module before each name."""
    found = re.fullmatch(r"((?:pub )?use [^{]*)\{(.*)\}", line)
    return "".join(found.group(1) + name for name in found.group(2).split(",")) if found else line


def words(lines: list[str]) -> str:
    """What a file says, without the spaces, the line ends, the signs of comments, and the sign behind a last field."""
    return re.sub(r"\s|--|;(?=\s*\})", "", "\n".join(map(spelled, lines)))


def wide_lines(path: Path, lines: list[str]) -> list[str]:
    """The lines of a file that are too wide, by place."""
    name = path.relative_to(ROOT)
    return [f"{name}:{number}: {len(line)} columns" for number, line in enumerate(lines, 1) if len(line) > LINE_WIDTH]


def main() -> int:
    """Does what the words ask for, and answers the status."""
    if sys.argv[1:] not in ([], ["--check"]):
        sys.exit(__doc__)
    wide: list[str] = []
    for path in sorted(ROOT.glob("crates/*/specs/**/*.antt")):
        lines = path.read_text(encoding="utf-8").split("\n")
        made = lines if sys.argv[1:] else wrapped(lines)
        if words(made) != words(lines):
            sys.exit(f"{path}: the words would change")
        if made != lines:
            path.write_text("\n".join(made), encoding="utf-8")
        wide += wide_lines(path, made)
    for path in sorted(ROOT.glob("crates/*/src/**/*.rt")):
        lines = path.read_text(encoding="utf-8").split("\n")
        wide += wide_lines(path, [line if CLAUSE.match(line) else "" for line in lines])
    print("\n".join(wide), end="\n" if wide else "")
    return 1 if wide else 0


if __name__ == "__main__":
    sys.exit(main())
