"""The definitions of the repository's crates, and what the comment above each says."""
from __future__ import annotations

import re
from dataclasses import dataclass, field
from pathlib import Path
from typing import Iterator

from .repository import CRATES

Key = tuple[str, str]
HEAD = re.compile(r"^(?P<indent> *)(?:(?:abbrev|unfoldable) )?pub (?P<kind>record |data )?(?P<name>[\w']+)(?= |:|$)")
FIELD = re.compile(r"^(?P<indent> +)pub (?P<name>[\w']+) :")
USE = re.compile(r"use Rattle\.([\w.]+?)(?:\.\{([^}]*)\}| as (\w+))")


def uses_of(text: str) -> dict[str, str]:
    """The names that a file imports, and the module of each; of a module that has another name, that module."""
    found = {}
    for module, names, alias in USE.findall(text):
        if alias:
            found[alias] = module
        for name in re.split(r",\s*", names.strip()) if names else []:
            found[name.rpartition(" as ")[2]] = module
    return found


def cited(text: str, uses: dict[str, str], module: str = "") -> Iterator[Key]:
    """The names that a text has by what its file imports, or may have of its own module, each with its module."""
    for word in re.findall(r"[\w'.]+", text):
        alias, _, name = word.rpartition(".")
        if word in uses:
            yield uses[word], word
        elif name and alias in uses:
            yield uses[alias], name
        elif module and not alias:
            yield module, word


@dataclass(frozen=True)
class Field:
    """A field of a record: its name, its type, and the comment above it."""

    name: str
    type: str
    said: str


@dataclass
class Definition:
    """A definition: its module, its name, its file, the comment above it, what its file imports, its equations, and the
    fields of a record.
    """

    module: str
    name: str
    path: Path
    said: str
    uses: dict[str, str]
    body: str
    fields: list[Field] = field(default_factory=list)

    @property
    def crate(self) -> str:
        """Its crate."""
        return self.module.split(".")[0]

    @property
    def is_promise(self) -> bool:
        """Whether it says something of values, by its name."""
        return self.name[0].isupper()

    def cites(self, text: str) -> list[Key]:
        """The names in a part of it."""
        return list(cited(text, self.uses, self.module))

    @property
    def place(self) -> str:
        """Its file, below the definitions of its crate."""
        return str(self.path.relative_to(CRATES / self.crate / "specs"))


def comment_of(lines: list[str], at: int) -> str:
    """What the comment directly above a line says; a heading of a part of the file is none."""
    found: list[str] = []
    while at and lines[at - 1].lstrip().startswith("-- ") and "-- ----" not in lines[at - 1]:
        at -= 1
        found.insert(0, lines[at].strip()[3:])
    return " ".join(" ".join(found).split())


def body_of(lines: list[str], at: int) -> str:
    """What stands behind the head of a definition, up to an empty line."""
    end = next((number for number in range(at, len(lines)) if not lines[number].strip()), len(lines))
    return "\n".join(lines[at:end])


def type_of(lines: list[str], at: int, indent: int) -> str:
    """The type of the field that begins at a line: what stands behind its name, there and on the deeper lines below."""
    found = [lines[at].partition(" : ")[2]]
    for line in lines[at + 1 :]:
        if len(line) - len(line.lstrip()) <= indent or line.lstrip().startswith("--"):
            break
        found.append(line.strip())
    return " ".join(" ".join(found).split())


def definitions_of(path: Path, module: str) -> Iterator[Definition]:
    """The public definitions of a file."""
    text = path.read_text(encoding="utf-8")
    lines, uses = text.split("\n"), uses_of(text)
    record, indent = None, 0
    for at, line in enumerate(lines):
        head, part = HEAD.match(line), FIELD.match(line)
        if record and part and len(part["indent"]) > indent:
            record.fields.append(Field(part["name"], type_of(lines, at, len(part["indent"])), comment_of(lines, at)))
        elif head and head["name"] not in ("use", "mod"):
            found = Definition(module, head["name"], path, comment_of(lines, at), uses, body_of(lines, at))
            record, indent = (found if head["kind"] == "record " else None), len(head["indent"])
            yield found


def all_definitions() -> dict[Key, Definition]:
    """The public definitions of all crates, by module and name."""
    found: dict[Key, Definition] = {}
    for path in sorted(CRATES.glob("*/specs/**/*.antt")):
        crate = path.relative_to(CRATES).parts[0]
        inside = path.relative_to(CRATES / crate / "specs").with_suffix("")
        module = ".".join([crate, "specs", *inside.parts])
        for one in definitions_of(path, module):
            found.setdefault((module, one.name), one)
    return found
