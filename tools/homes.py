#!/usr/bin/env python3
"""Writes the tables of homes of crates/a64_tokens and crates/a64_read: `NAME_HOMES`, of the names in the tables of rows
behind it.

Usage: tools/homes.py [--check]

A table of homes is of all tables of rows that stand between it and the next one, one class of rows each. With --check
nothing is written, and the status is 1 where a table is not that of its rows.
"""
import re
import sys
from pathlib import Path

from tables import files
from tables.homes import home_table

FOLDERS = [files.ROOT / "crates" / crate / "src" for crate in ("a64_tokens", "a64_read")]
HOMES = re.compile(r"pub static (\w+_HOMES): \[u8; \d+\] = \[[^\]]*\];")
ROWS = re.compile(r"pub static \w+: \[Row<[\w<>]+>; \d+\] = \[\n(.*?)\n\];", re.DOTALL)


def with_homes(text: str) -> str:
    """A file with the homes of its names."""
    tables = list(HOMES.finditer(text))
    ends = [*(table.start() for table in tables[1:]), len(text)]
    for table, end in reversed(list(zip(tables, ends))):
        classes = [re.findall(r'\(\s*b"([^"]*)"', rows) for rows in ROWS.findall(text, table.end(), end)]
        text = text[: table.start()] + "\n".join(home_table(table[1], classes)) + text[table.end() :]
    return text


def stale() -> dict[Path, str]:
    """The files that have other homes, and what they should be."""
    paths = [path for folder in FOLDERS for path in sorted(folder.glob("*.rt"))]
    found = {path: with_homes(path.read_text(encoding="utf-8")) for path in paths}
    return {path: text for path, text in found.items() if path.read_text(encoding="utf-8") != text}


def main() -> int:
    """Writes the tables, or says which differ."""
    if sys.argv[1:] not in ([], ["--check"]):
        sys.exit(__doc__)
    found = stale()
    for path, text in found.items():
        name = path.relative_to(files.ROOT)
        if sys.argv[1:]:
            print(f"{name}: a table of homes is not that of its rows: run python3 tools/homes.py")
        else:
            path.write_text(text, encoding="utf-8")
            print(f"wrote {name}")
    return 1 if found and sys.argv[1:] else 0


if __name__ == "__main__":
    sys.exit(main())
