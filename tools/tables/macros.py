"""Macros of code whose arms a table gives, and how they are laid out."""
from __future__ import annotations

from .grammar import snake_case
from .instruction_table import Group, Instruction
from .layout import INDENT, LINE_WIDTH, LIST_WIDTH, indented

# How far to the right the arms of a match stand in a macro.
DEPTH = 3

# The arm of what a macro is not called with.
NEVER = "_ => unreachable!(),"


# ---- expressions

def fits(line: str, depth: int) -> bool:
    """Whether a line of code has room."""
    return len(INDENT) * depth + len(line) <= LINE_WIDTH


def items_of(text: str) -> list[str]:
    """The items of a list of code."""
    found: list[str] = []
    depth = 0
    for part in text.split(", "):
        if depth:
            found[-1] += f", {part}"
        else:
            found.append(part)
        depth += sum(map(part.count, "([{")) - sum(map(part.count, ")]}"))
    return found


def opening(line: str) -> int:
    """Where the bracket stands that is open at the end of a line."""
    depth = 1
    for place in range(len(line) - 1, -1, -1):
        depth += (line[place] in ")]") - (line[place] in "([")
        if not depth:
            return place
    raise ValueError(line)


def expression(line: str, depth: int) -> list[str]:
    """A line of code that ends with a call or a list, with one item of that to a line where it has no room."""
    if fits(line, depth) or not line.endswith(("),", "],")):
        return [line]
    start = opening(line[:-2])
    items = items_of(line[start + 1 : -2])
    return [line[: start + 1], *indented(row for item in items for row in expression(f"{item},", depth + 1)), line[-2:]]


# ---- arms

def pattern(one: Instruction, named: list[str]) -> str:
    """An instruction as a pattern that takes these of its fields."""
    if not one.fields:
        return f"Inst::{one.name}"
    taken = [part.name for part in one.fields if part.name in named]
    if len(taken) < len(one.fields):
        taken.append("..")
    return f"Inst::{one.name} {{ {', '.join(taken)} }}"


def whole(one: Instruction) -> str:
    """An instruction as a pattern that takes all its fields."""
    return pattern(one, [part.name for part in one.fields])


def arm(patterns: list[str], body: str) -> list[str]:
    """An arm, on a line where it has room; else with a pattern to a line where these have none, and its body below where
    that has a line there, or its call has no room.
    """
    head = " | ".join(patterns)
    if fits(f"{head} => {body},", DEPTH):
        return [f"{head} => {body},"]
    heads = [head] if fits(f"{head} =>", DEPTH) else [patterns[0], *(f"| {other}" for other in patterns[1:])]
    line, below = f"{heads[-1]} => {body},", expression(f"{body},", DEPTH + 1)
    if fits(line, DEPTH):
        return [*heads[:-1], line]
    if len(below) == 1 or not fits(f"{heads[-1]} => {below[0]}", DEPTH):
        return [*heads[:-1], f"{heads[-1]} =>", *indented(below)]
    return [*heads[:-1], *expression(line, DEPTH)]


def arms_by_value(found: dict[str, str]) -> list[str]:
    """Arms of patterns, by what each has: those that have the same are one arm."""
    values = dict.fromkeys(found.values())
    return [line for value in values for line in arm([one for one in found if found[one] == value], value)]


def matches(value: str, patterns: list[str]) -> list[str]:
    """Whether a value is one of these patterns."""
    line = f"matches!({value}, {' | '.join(patterns)})"
    if len(line) <= LIST_WIDTH:
        return [line]
    first, *others = patterns
    return ["matches!(", *indented([f"{value},", first, *indented(f"| {other}" for other in others)]), ")"]


# ---- macros

def name_of(group: Group, kind: str) -> str:
    """The name of a macro of a group."""
    return f"{snake_case(group.name)}_{kind}"


def macro(name: str, says: str, places: str, body: list[str]) -> list[str]:
    """A macro: its name, what it is, its places, and what it gives."""
    return [
        f"/// {says[0].upper()}{says[1:]}.",
        "#[macro_export]",
        f"macro_rules! {name} {{",
        f"    ({places}) => {{",
        *indented(body, 2),
        "    };",
        "}",
    ]


def matching(name: str, says: str, given: list[str], arms: list[str], over: str = "inst", behind: str = "") -> list[str]:
    """A macro that is a match over one of the expressions that are given to it. `behind` is what it is given beside."""
    places = ", ".join(f"${place}:expr" for place in given) + behind
    return macro(name, says, places, [f"match ${over} {{", *indented(arms), "}"])
