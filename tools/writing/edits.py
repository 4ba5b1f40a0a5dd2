"""The wrong bodies that the prover has to refuse, as their files are named."""
from __future__ import annotations

from .crate_list import crates
from .repository import CRATES


def names_of(crate: str) -> list[str]:
    """The wrong bodies of a crate."""
    return [path.stem.replace("_", " ") for path in sorted((CRATES / crate / "must-fail").glob("*.edit"))]


def table() -> list[str]:
    """The wrong bodies of each crate that has some."""
    rows = [f"| {crate.name} | {', '.join(names)} |" for crate in crates() if (names := names_of(crate.name))]
    return ["| crate | wrong bodies |", "|---|---|", *rows]
