"""The words of tables/words.txt: those that code and definitions spell in two ways, and where definitions have what an
expression names.
"""
from __future__ import annotations

import re
from dataclasses import dataclass, field

from .grammar import Line, Names, records_of

WORD = re.compile(r"(\w+)(?:(\.)|\(([\w, ]*)\))")

# The name under which definitions import functions that are imported one by one.
BARE = "bare"


@dataclass(frozen=True)
class Word:
    """A function, or what begins the name of a variant: the names of its places, and how it is spelled."""

    places: tuple[str, ...]
    code: str
    definition: str


@dataclass
class Words:
    """The words, and the modules under which definitions import functions."""

    words: Names = field(default_factory=lambda: Names("word"))
    modules: Names = field(default_factory=lambda: Names("function"))

    def read(self, line: Line) -> None:
        """Takes one more line in."""
        kind, behind = line.text.split(" ", 1)[0], line.behind()
        if kind == "from":
            module, names = behind.halves()
            for name in names.split():
                self.modules.add(behind.name(name), module, behind)
            return
        if kind != "word":
            line.fail(f"`{kind}` is neither `word` nor `from`")
        head, *spelled = (part.strip() for part in behind.text.split("|"))
        found = WORD.fullmatch(head)
        if not found or len(spelled) != 2:
            line.fail("`word NAME(PLACES) | CODE | DEFINITION` is wanted")
        places = tuple(found[3].split(", ")) if found[3] else ()
        self.words.add(found[1] + (found[2] or ""), Word(places, *spelled), behind)

    def prefix(self, name: str) -> Word | None:
        """The word that begins the name of a variant, where one does."""
        return self.words.get(name.partition(".")[0] + ".")


def words_of(text: str, file: str) -> Words:
    """The words of a text."""
    words = Words()
    for record in records_of(text, file):
        words.read(record.head)
        for line in record.lines:
            line.fail("this line belongs to no word")
    return words
