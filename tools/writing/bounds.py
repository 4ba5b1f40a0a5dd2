"""The bounds that pages keep: words beside tables, long sentences and paragraphs, and the reader in the first line."""
from __future__ import annotations

from pathlib import Path
from typing import Iterator

from .page_text import Block, blocks_of, words_of
from .repository import CRATES, ROOT

WORDS_IN_DOCS = 18_000
WORDS_OF_A_CRATE = 400
WORDS_IN_A_SENTENCE = 40
WORDS_IN_A_PARAGRAPH = 90
READER = ("For ", "> For ")


def docs() -> list[Path]:
    """The pages of docs/."""
    return sorted((ROOT / "docs").glob("*.md"))


def crate_pages() -> list[Path]:
    """The pages of the crates."""
    return sorted(CRATES.glob("*/README.md"))


def pages() -> list[Path]:
    """All pages."""
    return [ROOT / "README.md", *docs(), *crate_pages()]


def prose(path: Path) -> list[Block]:
    """The paragraphs of a page."""
    return [block for block in blocks_of(path) if block.kind == "text"]


def words(path: Path) -> int:
    """How many words a page has beside its tables and its code."""
    return sum(block.words for block in prose(path))


def faults_of(path: Path) -> Iterator[str]:
    """What of a page is out of its bounds."""
    name, blocks = path.relative_to(ROOT), prose(path)
    if not blocks or not blocks[0].lines[0].startswith(READER):
        yield f"{name}:1: the first line does not say for which reader the page is"
    for block in blocks:
        if block.words > WORDS_IN_A_PARAGRAPH:
            yield f"{name}:{block.number}: a paragraph of {block.words} words"
        for sentence in block.sentences():
            if words_of(sentence) > WORDS_IN_A_SENTENCE:
                yield f"{name}:{block.number}: a sentence of {words_of(sentence)} words: {sentence[:60]}"
    if path.parent.parent == CRATES and words(path) > WORDS_OF_A_CRATE:
        yield f"{name}:1: {words(path)} words, of at most {WORDS_OF_A_CRATE}"


def check() -> list[str]:
    """What of all pages is out of their bounds."""
    found = [fault for path in pages() for fault in faults_of(path)]
    total = sum(words(path) for path in docs())
    if total > WORDS_IN_DOCS:
        found.append(f"docs/: {total} words beside tables, of at most {WORDS_IN_DOCS}")
    return found


def table() -> Iterator[str]:
    """The words of each page."""
    for path in pages():
        yield f"{words(path):6} {path.relative_to(ROOT)}"
    yield f"{sum(words(path) for path in docs()):6} docs/"
    yield f"{sum(words(path) for path in crate_pages()):6} crates/*/README.md"
