"""Breaks the lines of definitions that are wider than a line may be. Their words stay the same, in their order."""
from __future__ import annotations

import re
from dataclasses import dataclass
from typing import Callable, Iterator

from .layout import INDENT, LINE_WIDTH

OPENING, CLOSING = "({[", ")}]"

# Words before which a line may be broken, in groups, the loosest first.
GROUPS = ["|", "then else", "→ ↔", "⊎", "×", "∙", "≡ ≢ ≤ <", "||", "&&", "++ ∷"]
SIGNS = {sign: rank for rank, group in enumerate(GROUPS) for sign in group.split(" ")}

# A break between two words that no sign joins, which is the last choice.
ANYWHERE = len(GROUPS)

WORD = re.compile(r'"(?:\\.|[^"\\])*"|[({\[]|[)}\]]|[^\s(){}\[\]"]+')


@dataclass(frozen=True)
class Break:
    """A place in a line where it may be broken: in how many brackets it stands, and the rank of the sign there."""

    place: int
    depth: int
    rank: int


def breaks(line: str) -> Iterator[Break]:
    """The places where a line may be broken, but for the sign of an equation."""
    depth = 0
    for found in WORD.finditer(line):
        word, place = found.group(), found.start()
        depth -= word in CLOSING
        if word in SIGNS:
            yield Break(place, depth, SIGNS[word])
        elif line[place - 1] == " " and word not in ("=", ":"):
            yield Break(place, depth, ANYWHERE)
        if depth and word.endswith(";"):
            yield Break(found.end(), depth, 0)
        depth += word in OPENING


def equation_sign(line: str) -> int | None:
    """Where the right side of an equation begins, where the line has a sign of one in no brackets."""
    depth = 0
    for found in WORD.finditer(line):
        depth += (found.group() in OPENING) - (found.group() in CLOSING)
        if found.group() == "=" and not depth:
            return found.end()
    return None


def code(line: str, indent: str | None = None) -> list[str]:
    """A line of a definition on as few lines as its signs allow: an equation first behind its sign."""
    if len(line) <= LINE_WIDTH:
        return [line]
    if indent is None and (fields := record(line)):
        return fields
    start = len(line) - len(line.lstrip())
    place = equation_sign(line) if indent is None else None
    if place is None or place > LINE_WIDTH:
        room = (one for one in breaks(line) if start + 8 < one.place <= LINE_WIDTH and len(line) > one.place + 2)
        best = min(room, key=lambda one: (one.rank == ANYWHERE, one.depth, one.rank, -one.place), default=None)
        if best is None:
            return [line]
        place = best.place
    indent = line[:start] + INDENT if indent is None else indent
    return [line[:place].rstrip(), *code(indent + line[place:].strip(), indent)]


def record(line: str) -> list[str] | None:
    """An equation whose right side is a record, with a line for each field, where the line is one."""
    found = re.fullmatch(r"( *)(.* = record (?:\w+ )?\{) (.*) \}", line)
    if not found or equation_sign(line) != line.index(" = record ") + 2:
        return None
    indent, head, inner = found.groups()
    fields, depth = [""], 0
    for word in inner.split(" "):
        fields[-1] += f" {word}" if fields[-1] else word
        depth += sum(map(word.count, OPENING)) - sum(map(word.count, CLOSING))
        if word.endswith(";") and not depth:
            fields.append("")
    lines = [f"{indent}  {field.rstrip(';')};" for field in fields if field]
    wide = f"{indent}    {INDENT}"
    return [indent + head, *(part for one in lines for part in code(one, wide)), f"{indent}}}"]


def filled(words: list[str], first: str, other: str, width: int = LINE_WIDTH) -> list[str]:
    """Words on as few lines as hold them, behind what each line begins with."""
    lines = [first]
    for word in words:
        gap = "" if lines[-1] in (first, other) and not lines[-1].endswith("--") else " "
        if len(lines[-1]) + len(gap) + len(word) > width:
            lines.append(other + word)
        else:
            lines[-1] += gap + word
    return lines


def imports(line: str) -> list[str]:
    """An import, as several of the same module where one has no room."""
    found = re.fullmatch(r"((?:pub )?use [^{]*\{)(.*)\}", line)
    if not found or len(line) <= LINE_WIDTH:
        return [line]
    head, names = found.groups()
    lists = filled(names.split(" "), head, head, LINE_WIDTH - 1)
    return [f"{one.removesuffix(',')}}}" for one in lists]


def comment(lines: list[str]) -> list[str]:
    """The lines of a comment, filled anew where one is too wide."""
    if all(len(line) <= LINE_WIDTH for line in lines):
        return lines
    indent = lines[0][: len(lines[0]) - len(lines[0].lstrip())]
    text = " ".join(line.strip()[2:].strip() for line in lines)
    # A dash stays behind its word, so that no line begins as a comment within a comment would.
    words = [word.replace("\0", " ") for word in text.replace(" -- ", "\0-- ").split()]
    return filled(words, f"{indent}--", f"{indent}-- ")


def is_comment(line: str) -> bool:
    """Whether a line is one of a comment that may be filled anew: not a heading, nor what says what wrote the file."""
    return bool(re.match(r" *-- (?!-|Written by )", line))


def wrapped(lines: list[str]) -> list[str]:
    """The lines of a file of definitions, none wider than a line may be where it can be broken."""
    done: list[str] = []
    block: list[str] = []
    for line in [*lines, ""]:
        same = is_comment(line) and (not block or line.index("-") == block[0].index("-"))
        if block and not same:
            done += comment(block)
            block = []
        if is_comment(line):
            block.append(line)
        else:
            done += imports(line) if line.lstrip().startswith(("use ", "pub use ")) else code(line)
    return done[:-1]


def in_width(path: str, lines: Callable[[], list[str]]) -> Callable[[], list[str]]:
    """What a file has to be that is written: its lines, broken where it is one of definitions."""
    return (lambda: wrapped(lines())) if "/specs/" in path else lines
