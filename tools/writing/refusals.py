"""The refusals of docs/FORMAT.md: the line of each, and when it comes, as the documents of the sources say it."""
from __future__ import annotations

import re

from .repository import CRATES

VARIANT = re.compile(r"((?:^    ///[^\n]*\n)+)^    (\w+)[,({]", re.MULTILINE)
SHOWN = re.compile(r'::(\w+)(?:\([^)]*\))? => (?:\{\s*)?(?:write!\(f, |f\.write_str\()"([^"]*)"')
COMPOSED = re.compile(r'::(\w+)(?:\(\w+\))? =>\s*(?:\{\s*)?(?:numbered|plain)\(\s*b"([^"]*)"(?:,[^,]*, b"([^"]*)")?')


def causes(path: str, enum: str) -> dict[str, str]:
    """What the documents of the variants of an enum say, in their order."""
    body = (CRATES / path).read_text(encoding="utf-8").partition(f"pub enum {enum} {{\n")[2].partition("\n}\n")[0]
    return {name: " ".join(docs.replace("///", " ").split()) for docs, name in VARIANT.findall(body)}


def table(causes_of: dict[str, str], lines: dict[str, str]) -> list[str]:
    """The rows of some refusals."""
    rows = (f"| `{lines[name]}` | {cause} |" for name, cause in causes_of.items() if name in lines)
    return ["| line | when |", "|---|---|", *rows]


def lettered(line: str) -> str:
    """A line with a letter for each number: I for an index, P for a place, else N."""
    letters = {"item": "I", "unit": "I", "place": "P"}
    return re.sub(r"\{(\w*)\}", lambda found: letters.get(found[1], "N"), line)


def printed(path: str, enum: str) -> list[str]:
    """The refusals that an enum is printed as."""
    text = (CRATES / path).read_text(encoding="utf-8")
    lines = {name: lettered(line) for name, line in SHOWN.findall(text)}
    return table(causes(path, enum), lines)


def of_items() -> list[str]:
    """The refusals of items."""
    return printed("a64_emit/src/error.rt", "EmitError")


def of_units() -> list[str]:
    """The refusals of units."""
    return printed("a64_link/src/error.rt", "LinkError")


def of_words() -> list[str]:
    """The verdicts of an audit."""
    text = (CRATES / "a64_run/src/fault_lines.rt").read_text(encoding="utf-8").partition("fn text_of_verdict")[2]
    numbers = {"range ": "I", "place ": "P"}
    lines = {name: front + numbers.get(front, "") + back for name, front, back in COMPOSED.findall(text)}
    return table(causes("a64_audit/src/verdict.rt", "Verdict"), lines)
