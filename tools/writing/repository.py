"""Where things stand in the repository, and the first sentence of a comment."""
from __future__ import annotations

import re
from pathlib import Path

ROOT = Path(__file__).resolve().parent.parent.parent
CRATES = ROOT / "crates"
DOC_LINK = re.compile(r"\[(`[^`]+`)\](?:\([^)]*\))?")
SENTENCE = re.compile(r"^(.*?[.?!])(?= +[A-Z`\[]|$)")


def sentence_of(lines: list[str]) -> str:
    """The first sentence of some lines of a comment, which an empty line ends."""
    front = lines[: lines.index("")] if "" in lines else lines
    text = DOC_LINK.sub(r"\1", " ".join(front).strip())
    found = SENTENCE.match(text)
    return found[1] if found else text
