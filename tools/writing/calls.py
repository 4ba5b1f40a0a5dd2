"""The public calls of a crate, with their clauses and what is said of them, as its sources have them.

What a macro makes is not seen, nor what a crate hands on of another one: that stands with the crate that has it.
"""
from __future__ import annotations

import re
from dataclasses import dataclass, field
from pathlib import Path
from typing import Iterator

from .definitions import Key, cited, uses_of
from .repository import CRATES, sentence_of

HEAD = re.compile(r'^(?P<indent> *)(?:pub )?(?:const )?(?:extern "C" )?fn (?P<name>\w+)')
OWNER = re.compile(r"^(?:impl(?:<[^{]*?>)? (?:(?P<of>[\w:]+)(?:<[^{]*?>)? for )?|pub trait )(?P<type>\w+)")
CLAUSE = re.compile(r"^ *(?P<kind>requires|ensures)(?: (?P<name>\w+))? \{")
EXPORT = re.compile(r"^pub use (?:crate::)?(?P<path>[a-z]\w*(?:::\w+)*?)::(?:\{(?P<list>[^}]*)\}|(?P<name>\w+));", re.M)


@dataclass
class Clause:
    """A clause of a call: a condition or a promise, its name, its text and what stands above it as a comment."""

    promises: bool
    name: str
    text: str
    comment: str


@dataclass
class Call:
    """A call: its crate, its file, the type or trait that has it, its name, its documents and its clauses."""

    crate: str
    path: Path
    owner: str
    name: str
    of_trait: str
    shape: str
    said: str
    uses: dict[str, str]
    clauses: list[Clause] = field(default_factory=list)

    @property
    def title(self) -> str:
        """How a client names it, with what it takes and answers."""
        return f"{self.owner}::{self.shape}" if self.owner else self.shape

    @property
    def promises(self) -> list[Clause]:
        """What it promises."""
        return [clause for clause in self.clauses if clause.promises]

    @property
    def conditions(self) -> list[Clause]:
        """What it asks for."""
        return [clause for clause in self.clauses if not clause.promises]

    def cited(self) -> Iterator[Key]:
        """The definitions that its promises name, each as its module and its name."""
        for clause in self.promises:
            yield from self.cited_by(clause)

    def cited_by(self, clause: Clause) -> Iterator[Key]:
        """The definitions that a clause of it names."""
        return cited(clause.text, self.uses)


def clauses_of(lines: list[str]) -> Iterator[Clause]:
    """The clauses of a call, of which these are the lines between its name and its body."""
    comment: list[str] = []
    at = 0
    while at < len(lines):
        found = CLAUSE.match(lines[at])
        if found:
            first, at = at, end_of(lines, at)
            text = " ".join(" ".join(lines[first : at + 1]).split())
            yield Clause(found["kind"] == "ensures", found["name"] or "", text, " ".join(comment))
        comment = [*comment, lines[at].strip()[2:].strip()] if lines[at].strip().startswith("//") else []
        at += 1


def end_of(lines: list[str], at: int) -> int:
    """The line that ends the clause that begins at a line."""
    depth = 0
    for number in range(at, len(lines)):
        depth += lines[number].count("{") - lines[number].count("}")
        if depth <= 0:
            return number
    return len(lines) - 1


def head_of(lines: list[str], at: int, indent: str) -> list[str]:
    """The lines of a call from its name on, up to its body or to the end of its clauses."""
    depth = 0
    for number in range(at, len(lines)):
        line = lines[number].rstrip()
        begins = line == indent + "{" or bool(re.search(r"^ *(pub |fn |const ).*\{$|^ *\) .*\{$", line))
        depth += line.count("{") - line.count("}")
        if begins or (line.endswith(";") and depth == 0):
            return lines[at : number + 1]
    return lines[at:]


def shape_of(head: list[str]) -> str:
    """The name of a call, what it takes and what it answers, of its lines from the name on."""
    front = []
    for line in head:
        if re.match(r" *(requires|ensures|where|//|\{)", line):
            break
        front.append(line.strip())
    text = " ".join(front).partition("fn ")[2].rstrip("{; ")
    return text.replace("( ", "(").replace(", )", ")").replace(",)", ")")


def docs_of(lines: list[str], at: int) -> str:
    """The documents that stand above a line."""
    found: list[str] = []
    while at and re.match(r" *(//|#\[)", lines[at - 1]):
        at -= 1
        if "///" in lines[at]:
            found.insert(0, lines[at].partition("///")[2].strip())
    return sentence_of(found)


def calls_of_file(crate: str, path: Path) -> Iterator[Call]:
    """The calls of a file that have promises, public or not."""
    text = path.read_text(encoding="utf-8")
    uses, owner = uses_of(text), ("", "")
    lines = text.split("\n")
    for at, line in enumerate(lines):
        found = OWNER.match(line)
        if found:
            owner = (found["type"], found["of"] or "")
        elif line == "}":
            owner = ("", "")
        head = HEAD.match(line)
        if head:
            inside = owner[0] if head["indent"] else ""
            whole = head_of(lines, at, head["indent"])
            call = Call(crate, path, inside, head["name"], owner[1], shape_of(whole), docs_of(lines, at), uses)
            call.clauses = list(clauses_of(whole[1:]))
            if is_public(lines, at, inside) and call.promises:
                yield call


def is_public(lines: list[str], at: int, owner: str) -> bool:
    """Whether a call is public where it stands: by its word, or as one of a public trait or of an impl of a trait."""
    above = next((line for line in reversed(lines[:at]) if OWNER.match(line)), "")
    of_trait = above.startswith("pub trait") or " for " in above
    return lines[at].lstrip().startswith("pub ") or (bool(owner) and of_trait)


def exports_of(source: Path) -> tuple[set[str], set[str]]:
    """The names that the first file of a crate hands on from its modules, and its public modules."""
    text = (source / "lib.rt").read_text(encoding="utf-8") if (source / "lib.rt").is_file() else ""
    names: set[str] = set()
    for found in EXPORT.finditer(text):
        if not found["path"].startswith("a64_"):
            names |= set(re.split(r",\s*", found["list"].strip().rstrip(","))) if found["list"] else {found["name"]}
    return names, set(re.findall(r"^pub mod (\w+);", text, re.MULTILINE))


def calls_of(crate: str) -> list[Call]:
    """The calls of a crate that others may call, in the order of files and places."""
    source = CRATES / crate / "src"
    names, modules = exports_of(source)
    found = []
    for path in sorted(source.rglob("*.rt")):
        module = path.relative_to(source).parts[0].removesuffix(".rt")
        handed = module in modules or module == "lib"
        found += [call for call in calls_of_file(crate, path) if handed or (call.owner or call.name) in names]
    return found
