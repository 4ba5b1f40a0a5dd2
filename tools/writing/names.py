"""Sees that names of the sources which pages put in backticks, and files of crates, are there still."""
from __future__ import annotations

import re
from functools import cache
from pathlib import Path
from typing import Iterator

from .page_text import blocks_of
from .repository import CRATES, ROOT

# Where names may stand, and the page whose names are another project's too.
SOURCES = ("crates/**/*.rt", "crates/**/*.antt", "crates/**/*.h", "tools/**/*", "tables/*", "bench/*", "crates.txt")
OTHERS = "docs/DIFFERENCES.md"

# A name with an underscore or a capital letter, alone or behind a type; a file of a crate, with or without its ending;
# and a name with the file behind it.
NAME = re.compile(r"`(?:\w+::)*([a-z]+_\w*[a-z0-9]|[A-Z]\w*[a-z]\w*)`")
FILE = re.compile(r"(?<![\w/.])((?:src|specs|proofs)/\w[\w/]*)(?:\.rt|\.antt)?(?![\w*])")
PLACED = re.compile(r"`(?:\w+::)*(\w+)` \((?:a64_\w+, )?((?:src|specs|proofs)/\w[\w/]*)(?:\.rt|\.antt)?[,;:)]")


@cache
def words() -> set[str]:
    """All words of the sources."""
    paths = [path for pattern in SOURCES for path in ROOT.glob(pattern) if path.is_file()]
    texts = (path.read_text(encoding="utf-8") for path in paths if path.suffix != ".pyc")
    return {word for text in texts for word in re.findall(r"\w+", text)}


@cache
def files() -> dict[str, list[Path]]:
    """The files and folders of all crates, by their names from the top of each, without endings."""
    found: dict[str, list[Path]] = {}
    for crate in sorted(CRATES.iterdir()):
        for path in (path for path in crate.rglob("*") if "out" not in path.parts):
            found.setdefault(str(path.relative_to(crate).with_suffix("")), []).append(path)
    return found


def stands_in(name: str, file: str) -> bool:
    """Whether some crate has the name in a file that is called so; of a folder it is not asked."""
    paths = files().get(file, [])
    return any(path.is_dir() or re.search(rf"\b{name}\b", path.read_text(encoding="utf-8")) for path in paths)


def faults_of(page: Path) -> Iterator[str]:
    """The names and files of a page that are gone."""
    name = page.relative_to(ROOT)
    for block in blocks_of(page):
        text, at = "\n".join(block.lines) if block.kind != "code" else "", f"{name}:{block.number}"
        if str(name) != OTHERS:
            yield from (f"{at}: no source has `{word}`" for word in NAME.findall(text) if word not in words())
        yield from (f"{at}: no crate has {file}" for file in FILE.findall(text) if file not in files())
        placed = [(word, file) for word, file in PLACED.findall(text) if file in files()]
        yield from (f"{at}: `{word}` is not in {file}" for word, file in placed if not stands_in(word, file))
