"""A page in parts: its paragraphs, its tables, its blocks of code and its headings."""
from __future__ import annotations

import re
from dataclasses import dataclass
from pathlib import Path
from typing import Iterator

LINK = re.compile(r"!?\[([^\]]*)\]\(([^)\s]+)\)")

# A sentence begins with a capital letter, a number, a mark, or a name as `specs/Names` or `a64_run`.
SENTENCE_END = re.compile(r"(?<=[.?!])[\"')`]*\s+(?=[\"'(`*A-Z0-9\[]|[a-z]\w*/|[a-z]\w*_)")
ITEM = re.compile(r"^ *(?:[-*]|\d+\.) ")


@dataclass(frozen=True)
class Block:
    """A part of a page: its kind (`text`, `table`, `code` or `heading`), its first line, and its lines."""

    kind: str
    number: int
    lines: tuple[str, ...]

    @property
    def words(self) -> int:
        """How many words it has; of a link those of its text count."""
        return sum(words_of(line) for line in self.lines)

    def sentences(self) -> list[str]:
        """The sentences of a paragraph."""
        return SENTENCE_END.split(" ".join(line.strip() for line in self.lines))


def words_of(text: str) -> int:
    """How many words a text has, without the marks of lists and headings."""
    plain = LINK.sub(r"\1", ITEM.sub("", text).lstrip("#> "))
    return sum(1 for word in plain.split() if re.search(r"\w", word))


def kind_of(line: str) -> str:
    """What kind of part a line outside of code belongs to; an empty one belongs to none."""
    if line.startswith("|"):
        return "table"
    if line.startswith("#"):
        return "heading"
    return "text" if line.strip() and not line.startswith("<!--") else ""


def blocks_of(path: Path) -> Iterator[Block]:
    """The parts of a page, in order. An item of a list is a paragraph of its own."""
    kind, first, lines = "", 0, []
    for number, line in enumerate([*path.read_text(encoding="utf-8").split("\n"), ""], start=1):
        fence = line.startswith("```")
        here = "code" if fence or kind == "code" else kind_of(line)
        if here != kind or here == "heading" or (here == "text" and ITEM.match(line)):
            if kind:
                yield Block(kind, first, tuple(lines))
            first, lines = number, []
        kind = here
        lines.append(line)
        if fence and len(lines) > 1:
            yield Block(kind, first, tuple(lines))
            kind, lines = "", []
