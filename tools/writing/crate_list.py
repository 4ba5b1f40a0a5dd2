"""The crates, as crates.txt has them: their table, and a picture of them in layers."""
from __future__ import annotations

from dataclasses import dataclass
from textwrap import wrap

from .repository import CRATES, ROOT, sentence_of


@dataclass(frozen=True)
class Crate:
    """A crate: its name, and the crates of this repository that it stands on."""

    name: str
    below: tuple[str, ...]

    @property
    def said(self) -> str:
        """The first sentence of its first file, which says what it is for."""
        source = CRATES / self.name / "src"
        first = source / "lib.rt" if (source / "lib.rt").is_file() else source / "main.rt"
        lines = first.read_text(encoding="utf-8").split("\n")
        return sentence_of([line[3:].strip() for line in lines if line.startswith("//!")])


def short(name: str) -> str:
    """A name of a crate without what all begin with."""
    return name.removeprefix("a64_")


def crates() -> list[Crate]:
    """The crates, in the order of crates.txt."""
    found = []
    for line in (ROOT / "crates.txt").read_text(encoding="utf-8").splitlines():
        name, colon, below = line.partition(":")
        if colon and not line.startswith("#"):
            found.append(Crate(name.split()[0], tuple(one for one in below.split() if one.startswith("a64_"))))
    return found


def direct(crate: Crate, known: dict[str, Crate]) -> list[str]:
    """The crates that it stands on by no other one of them."""
    by_others = {far for near in crate.below for far in known[near].below}
    return [short(name) for name in crate.below if name not in by_others]


def table() -> list[str]:
    """The table of crates: each with what it has, and the crates on which it stands directly."""
    known = {crate.name: crate for crate in crates()}
    rows = ["| crate | what it is for | stands directly on |", "|---|---|---|"]
    for crate in known.values():
        below = ", ".join(direct(crate, known)) or "nothing"
        rows.append(f"| [{crate.name}](../crates/{crate.name}/README.md) | {crate.said} | {below} |")
    return rows


def layers() -> list[list[str]]:
    """The crates in layers, the highest first: each in the lowest that is above all that it stands on."""
    height: dict[str, int] = {}
    for crate in crates():
        height[crate.name] = 1 + max((height[below] for below in crate.below), default=-1)
    levels = range(max(height.values()), -1, -1)
    return [[short(name) for name, level in height.items() if level == wanted] for wanted in levels]


def picture() -> list[str]:
    """The layers as text: a line for each, which stands above those below it."""
    found = ["```text"]
    levels = layers()
    for number, names in enumerate(levels):
        for at, line in enumerate(wrap("  ".join(names), 84, break_long_words=False)):
            found.append(f"{'' if at else len(levels) - number:>2} | {line}")
    return [*found, "```"]
