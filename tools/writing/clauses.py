"""The page of clauses, docs/CLAUSES.md: of each crate the public calls and what they promise, and what the definitions
say that the promises name.
"""
from __future__ import annotations

import re
from functools import cache
from typing import Iterable, Iterator

from .calls import Call, Clause, calls_of
from .crate_list import crates, layers
from .definitions import Definition, Field, Key, all_definitions
from .repository import CRATES, sentence_of

# Up to so many characters a promise is shown as it stands, and a longer one by the definitions that it names.
SHOWN = 72

# A record of so many promises needs a sentence.
MANY = 5

# What stands in a promise that is more than a definition of some values.
RELATION = re.compile("[≡≢→↔<≤¬⊎×]")


@cache
def known() -> dict[Key, Definition]:
    """The definitions of all crates."""
    return all_definitions()


@cache
def all_calls() -> dict[str, list[Call]]:
    """The public calls with promises, by their crates, the highest crate first."""
    found = {crate.name: calls_of(crate.name) for crate in reversed(crates())}
    return {name: calls for name, calls in found.items() if calls}


def cell(text: str) -> str:
    """A text in a cell of a table."""
    return text.replace("|", "\\|")


def as_code(body: str, keys: Iterable[Key], most: int) -> str:
    """A promise as it stands, where that is short or names no definition, else the definitions that it names."""
    names = dict.fromkeys(key[1] for key in keys if key in known())
    if len(body) <= most or not names:
        return f"`{body if len(body) <= most else body[:most] + '..'}`"
    return ", ".join(f"`{name}`" for name in names)


def shown(call: Call, clause: Clause) -> str:
    """A promise in a cell: its name, and what it says."""
    body = re.sub(r"^\w+(?: \w+)? \{ ?| ?\},?;?$", "", clause.text)
    said = as_code(body, call.cited_by(clause), SHOWN)
    said = f"{clause.name}: {said}" if clause.name else said
    return f"{said}: {sentence_of([clause.comment])}" if clause.comment else said


def sentence_for(call: Call) -> str:
    """What a call does: what is said of it, or of the call of the trait of which it is one."""
    others = (one for calls in all_calls().values() for one in calls)
    of_trait = (one.said for one in others if (one.owner, one.name) == (call.of_trait, call.name))
    return call.said or next(of_trait, "")


def row_of(call: Call) -> str:
    """The row of a call."""
    both = (call.conditions, call.promises)
    asks, gives = ("<br>".join(cell(shown(call, one)) for one in clauses) for clauses in both)
    place = call.path.relative_to(CRATES / call.crate / "src")
    return f"| `{cell(call.title)}` | {place} | {cell(sentence_for(call))} | {asks} | {gives} |"


def inner(one: Definition) -> Iterator[Key]:
    """The definitions that its fields name, and the promises that its equations name where it is one."""
    for field in one.fields:
        yield from (key for key in one.cites(field.type) if key in known())
    if one.is_promise:
        yield from (key for key in one.cites(one.body) if key in known() and known()[key].is_promise)


@cache
def named() -> dict[Key, Definition]:
    """The definitions that promises name, and what these stand on in turn."""
    found: dict[Key, Definition] = {}
    waiting = [key for calls in all_calls().values() for call in calls for key in call.cited() if key in known()]
    while waiting:
        key = waiting.pop(0)
        if key not in found:
            found[key] = known()[key]
            waiting += inner(found[key])
    return found


def said_of(field: Field, owner: Definition) -> str:
    """What the sources say of a field: the comment above it, or that of the definition which it is, of some values."""
    promises = [known()[key] for key in owner.cites(field.type) if key in known() and known()[key].is_promise]
    inside = "" if RELATION.search(field.type) else next((one.said for one in promises[::-1] if one.said), "")
    return field.said or inside


def rows_of(one: Definition) -> Iterator[str]:
    """The rows of a definition and of its fields, where something is said of them."""
    if one.said:
        yield f"| `{one.name}` | {one.place} | {cell(sentence_of([one.said]))} |"
    for field in one.fields:
        said = sentence_of([said_of(field, one)])
        if said:
            yield f"| `{one.name}`, {field.name} | | {cell(said)} |"


def part_of(crate: str) -> list[str]:
    """The part of a crate: its calls, and the definitions."""
    calls = [row_of(call) for call in all_calls().get(crate, [])]
    promises = (one for key, one in named().items() if key[0].split(".")[0] == crate and one.is_promise)
    definitions = [row for one in promises for row in rows_of(one)]
    found = ["", f"## {crate}"] if calls or definitions else []
    if calls:
        found += ["", "| call | file | what it does | conditions | promises |", "|---|---|---|---|---|", *calls]
    if definitions:
        found += ["", "| definition | file | what it says |", "|---|---|---|", *definitions]
    return found


def page() -> list[str]:
    """The parts of all crates, the highest first."""
    parts = {crate.name: part_of(crate.name) for crate in reversed(crates())}
    rows = ["| layer | crates |", "|---|---|"]
    for height, names in reversed([*enumerate(reversed(layers()), 1)]):
        links = ", ".join(f"[{name}](#a64_{name})" for name in names if parts[f"a64_{name}"])
        rows += [f"| {height} | {links} |"] if links else []
    return [*rows, *(line for lines in parts.values() for line in lines), ""]


def faults() -> Iterator[str]:
    """The calls that have promises and no sentence, and the records of many promises of which nothing is said."""
    for call in (call for calls in all_calls().values() for call in calls):
        if not sentence_for(call):
            yield f"crates/{call.crate}: `{call.title}` has promises, and no sentence"
    for one in named().values():
        promises = [field for field in one.fields if RELATION.search(field.type)]
        if len(promises) >= MANY and not one.said and not any(said_of(field, one) for field in one.fields):
            yield f"crates/{one.crate}: `{one.name}` has many promises, and no sentence"
