"""The arms of crates/a64_print that append texts: src/texts.rt, which has a macro for each function by hand."""
from __future__ import annotations

import re
from functools import partial
from typing import Callable

from .grammar import Call, names_in
from .instruction_table import Group, Instruction, InstructionTable
from .layout import indented, spaced
from .macros import DEPTH, NEVER, arm, arms_by_value, expression, matching, name_of, pattern
from .spelling import Code
from .text_table import FRAME, REGISTER, Text, replaced, texts_of

HEAD = """\
//! The arms of functions that append the texts of instructions, or say parts of them: each macro is the body
//! of one, which gives it its arguments."""

# What the instructions of the groups are that are no plain words.
GROUPS = {
    "Control": "branches and returns, of accesses to the flags, of data, and of what has no word",
    "Sequence": "sequences, and of what has no word",
    "Call": "calls, and of returns that call",
    "Memory": "loads and stores, and of the address of a mode, but for those of one register",
}

# ---- texts

def pattern_of(one: Instruction, text: Text) -> str:
    """An instruction, with the fields that its text has."""
    values = (*text.values, *text.operands, *(text.let[1:] if text.let else ()))
    return pattern(one, [part.name for part in one.fields[:2]] if one.access else names_in(values))


def appended(table: InstructionTable, one: Instruction, text: Text) -> str:
    """The code that appends a text."""
    spelled = Code(table.words, one)
    if text.way == "own":
        call = Call(f"push_{text.call.name}", ("$out", *text.call.values))
        return spelled(replaced(call, FRAME, f"${FRAME}"))
    if text.way == "str":
        return f"$out.push_str({spelled(text.call)})"
    name = f"{text.values[0]}.op_str()" if one.field_of(text.values[0]) else spelled(text.values[0])
    items = [spelled(value) for value in text.operands]
    if not items:
        return f"$out.push_str({name})"
    if text.way == "half":
        return f"push_half($out, {name}, {spelled(text.values[1])}, &[{', '.join(items)}])"
    if text.way == "wide":
        return f"push_wide{len(items)}({', '.join(['$out', name, spelled(text.values[1]), *items])})"
    return f"line{len(items)}({', '.join(['$out', name, *items])})"


def text_arm(table: InstructionTable, one: Instruction, text: Text) -> list[str]:
    """The arm of an instruction."""
    body = appended(table, one, text)
    if not text.let:
        return arm([pattern_of(one, text)], body)
    name, value = text.let
    let = f"let {name} = {Code(table.words, one)(value)};"
    return [f"{pattern_of(one, text)} => {{", *indented([let, *expression(f"{body},", DEPTH + 1)[:-1], ")"]), "}"]


def group_texts(table: InstructionTable, group: Group) -> list[str]:
    """The texts of a group, but for loads and stores of one register."""
    texts = texts_of(table)
    own = [one for one in table.of_group(group) if not one.access]
    arms = [row for one in own for row in text_arm(table, one, texts[one.name])]
    is_memory = group.name == "Memory"
    arms.append("_ => push_access_inst($out, $frame, $inst)," if is_memory else NEVER)
    says = f"appends the texts of {group.plain or GROUPS[group.name]}"
    return matching(name_of(group, "texts"), says, ["out", FRAME, "inst"] if is_memory else ["out", "inst"], arms)


# ---- loads and stores of one register

def access_arms(table: InstructionTable) -> list[str]:
    """Arms that append the texts of loads and stores of one register."""
    arms, texts = [], texts_of(table)
    for one in table.accesses:
        register, mode = (part.name for part in one.fields[:2])
        values = ["$out", f"${FRAME}", f"AccessOp::{one.name}", Code(table.words, one)(register), mode]
        arms += arm([pattern_of(one, texts[one.name])], f"push_access({', '.join(values)})")
    return [*arms, NEVER]


def operator_arms(found: dict[str, str]) -> list[str]:
    """Arms over operators, by what each has."""
    return arms_by_value({f"AccessOp::{name}": body for name, body in found.items()})


def access_name(text: Text) -> str:
    """The name of a load or a store, where it depends on that by whether the mode has a signed offset of 9 bits."""
    first, *unscaled = text.values
    return f"one_of($unscaled, {unscaled[0]}, {first})" if unscaled else first


def access_operand(table: InstructionTable, one: Instruction, text: Text) -> str:
    """The register of a load or a store."""
    return Code(table.words, one)(replaced(text.operands[0], REGISTER, f"${REGISTER}"))


def access_type(one: Instruction) -> str:
    """The type of the value that is moved, and its bytes."""
    bits = 1
    for number in re.findall(r"\d+", one.access.type):
        bits *= int(number)
    return f"(IrType::{one.access.type}, {bits // 8})"


def accesses(table: InstructionTable) -> list[list[str]]:
    """The macros of loads and stores of one register."""
    texts = texts_of(table)
    names = {one.name: access_name(texts[one.name]) for one in table.accesses}
    operands = {one.name: access_operand(table, one, texts[one.name]) for one in table.accesses}
    types = {one.name: access_type(one) for one in table.accesses}
    return [
        matching("access_texts", "appends the texts of loads and stores of one register", ["out", FRAME, "inst"],
                 access_arms(table)),
        matching("access_names", "the names of loads and stores of one register", ["unscaled", "op"],
                 operator_arms(names), over="op"),
        matching("access_operands", "the registers of loads and stores of one register", ["op", REGISTER],
                 operator_arms(operands), over="op"),
        matching("access_types", "the types of the values that loads and stores of one register move, and their bytes",
                 ["op"], operator_arms(types), over="op"),
    ]


def texts(table: InstructionTable) -> list[str]:
    """src/texts.rt: the arms of the functions that append texts."""
    groups = [group_texts(table, group) for group in table.groups.values()]
    return spaced([HEAD.split("\n"), *groups, *accesses(table)])


def written(table: InstructionTable) -> dict[str, Callable[[], list[str]]]:
    """The files that are written, and what writes each."""
    return {"crates/a64_print/src/texts.rt": partial(texts, table)}
