#!/usr/bin/env python3
"""Makes the input of the program crates/a64_cases, and what it must print, of the cases in tests/.

Usage: tools/cases.py [--check]

The input is tests/*.txt one behind the other, in the order of their names, each behind a line with its
name. What is printed is one line with the number of cases: each line outside of a case of several lines is
one, and so is each case of several lines, however many runs it has. With --check nothing is written, and
the status is 1 where the files are not those of tests/.
"""
import pathlib
import sys

ROOT = pathlib.Path(__file__).resolve().parent.parent
CRATE = ROOT / "crates" / "a64_cases"


def blocks_of(text):
    """The blocks of a text, each as its lines that are no comment. Blank lines stand between blocks."""
    for block in text.split("\n\n"):
        lines = [line for line in block.split("\n") if line and not line.startswith("#")]
        if lines:
            yield lines


def count_of(text):
    """How many cases a text has."""
    return sum(1 if lines[0].startswith("case ") else len(lines) for lines in blocks_of(text))


def cases():
    """The cases of all files, one behind the other."""
    files = sorted((ROOT / "tests").glob("*.txt"))
    return "\n".join(f"# tests/{file.name}\n\n{file.read_text()}" for file in files)


def main():
    """Makes the files, or holds them against what they should be."""
    if sys.argv[1:] not in ([], ["--check"]):
        sys.exit(__doc__)
    text = cases()
    stale = 0
    for name, content in ("stdin", text), ("stdout", f"{count_of(text)} cases\n"):
        path = CRATE / name
        if not sys.argv[1:]:
            path.write_text(content)
        elif not path.exists() or path.read_text() != content:
            print(f"{path.relative_to(ROOT)} is not what tests/ gives: run tools/cases.py")
            stale = 1
    sys.exit(stale)


main()
