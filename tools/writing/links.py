"""Sees that what pages link to is there: the file, and the heading in it."""
from __future__ import annotations

import re
from pathlib import Path
from typing import Iterator

from .page_text import LINK, blocks_of
from .repository import ROOT


def anchor_of(heading: str) -> str:
    """The anchor of a heading, as the common renderers make it."""
    text = re.sub(r"[^\w\- ]", "", LINK.sub(r"\1", heading.lstrip("# ")).lower())
    return text.replace(" ", "-")


def anchors_of(path: Path) -> set[str]:
    """The anchors of a page."""
    return {anchor_of(block.lines[0]) for block in blocks_of(path) if block.kind == "heading"}


def faults_of(path: Path) -> Iterator[str]:
    """The links of a page that lead nowhere."""
    for block in blocks_of(path):
        text = "\n".join(block.lines) if block.kind != "code" else ""
        for target in (found[2] for found in LINK.finditer(text)):
            file, _, anchor = target.partition("#")
            there = (path.parent / file).resolve() if file else path
            if target.startswith("http"):
                continue
            if not there.exists():
                yield f"{path.relative_to(ROOT)}:{block.number}: there is no {file}"
            elif anchor and anchor not in anchors_of(there):
                yield f"{path.relative_to(ROOT)}:{block.number}: no heading `{anchor}` in {there.relative_to(ROOT)}"
