"""Parts of pages that are made: what stands between a line `<!-- made: NAME -->` and the next line `<!-- end -->`."""
from __future__ import annotations

import re
from pathlib import Path
from typing import Callable, Iterator

from .repository import ROOT

PART = re.compile(r"^<!-- made: (?P<name>[\w-]+) -->\n(?P<text>.*?)^<!-- end -->$", re.MULTILINE | re.DOTALL)

# What makes each part, by its name: its lines.
Makers = dict[str, Callable[[], list[str]]]


def with_parts(text: str, makers: Makers) -> str:
    """A page with its parts as they are made."""

    def part(found: re.Match[str]) -> str:
        lines = makers[found["name"]]()
        return "\n".join([f"<!-- made: {found['name']} -->", *lines, "<!-- end -->"])

    return PART.sub(part, text)


def stale(pages: list[Path], makers: Makers) -> Iterator[tuple[Path, str]]:
    """The pages with parts that are other than what is made, and what they should be."""
    for page in pages:
        text = page.read_text(encoding="utf-8")
        made = with_parts(text, makers)
        if made != text:
            yield page, made


def missing(pages: list[Path], makers: Makers) -> Iterator[str]:
    """The parts that are made and stand on no page."""
    there = {found["name"] for page in pages for found in PART.finditer(page.read_text(encoding="utf-8"))}
    yield from (f"docs/: no page has the part `{name}`" for name in makers if name not in there)


def write(pages: list[Path], makers: Makers) -> None:
    """Writes the parts that are other than what is made."""
    for page, text in stale(pages, makers):
        page.write_text(text, encoding="utf-8")
        print(f"wrote {page.relative_to(ROOT)}")


def check(pages: list[Path], makers: Makers) -> list[str]:
    """The pages that have other parts than what is made."""
    names = [page.relative_to(ROOT) for page, _ in stale(pages, makers)]
    found = [f"{name}: a part is not what the sources give: run python3 tools/pages.py --write" for name in names]
    return [*found, *missing(pages, makers)]
