"""What the code of crates/a64_cells, a64_emit and a64_ops repeats of the table of instructions: the arms of functions, as
macros of one file of the crate.
"""
from __future__ import annotations

from functools import partial
from typing import Callable

from .instruction_table import Group, Instruction, InstructionTable
from .layout import spaced
from .macros import NEVER, arm, arms_by_value, matching, name_of, pattern, whole
from .spelling import Code

INST_HEAD = """\
//! The arms of functions that go by the instruction: each macro is a match that gives what its name says.
//!
//! Behind `;` stand the arms of the other instructions, where a macro takes them."""

OPS_HEAD = """\
//! The arms of functions that go by the load or the store: each macro is a match that gives what its name says."""

# The place of the arms that stand where a macro is called, and what takes them.
OTHERS = "$($others)+"
TAKEN = "; $($others:tt)+"


def word(one: Instruction, table: InstructionTable) -> str:
    """The word of an instruction."""
    return Code(table.words, one, whole=True)(one.word)


def plain_words(table: InstructionTable, group: Group) -> list[str]:
    """src/word/plain.rt: the words of a group of plain words."""
    arms = [line for one in table.of_group(group) for line in arm([whole(one)], word(one, table))]
    return matching(name_of(group, "words"), f"the words of {group.plain}", ["inst"], [*arms, NEVER])


def control_words(table: InstructionTable) -> list[str]:
    """src/word/control.rt: the words of instructions of control that are one word, and nothing of the others."""
    own = table.of_group(table.groups["Control"])
    arms = [line for one in own if one.word for line in arm([whole(one)], f"Some({word(one, table)})")]
    arms += arm([pattern(one, []) for one in own if not one.word], "None")
    says = "the words of branches and the like that are one word without a use, and nothing of the others"
    return matching("control_words", says, ["inst"], [*arms, NEVER])


def trapping_words(table: InstructionTable) -> list[str]:
    """src/word/memory.rt: the words of loads and stores that are one word, and what is known of the access."""
    arms: list[str] = []
    for one in table.instructions:
        if "traps" in one.lines:
            traps = one.lines["traps"].text
            arms += arm([whole(one)], f"({word(one, table)}, {'&' if '.' in traps else ''}{traps})")
    says = "the words of loads and stores that are one word, each with what is known of the access"
    return matching("trapping_words", says, ["inst"], [*arms, OTHERS], behind=TAKEN)


def access_sites(table: InstructionTable) -> list[str]:
    """src/uses.rt: the use that a load or a store of one register is, by its mode."""
    arms = arm([pattern(one, ["mem"]) for one in table.accesses], "mode_site(mem)")
    says = "the use that a load or a store of one register is, and none of the others"
    return matching("access_sites", says, ["inst"], [*arms, "_ => None,"])


def where_marked(table: InstructionTable, mark: str, says: str) -> list[str]:
    """src/falling.rt, src/extent.rt: a value for the instructions with a mark."""
    arms = arm([pattern(one, []) for one in table.instructions if mark in one.marks], "$value")
    return matching(f"where_{mark}", f"a value for {says}", ["inst", "value"], [*arms, OTHERS], behind=TAKEN)


def cells_arms(table: InstructionTable) -> list[str]:
    """src/arms.rt (a64_cells): the arms of functions of the crate."""
    return spaced([
        INST_HEAD.split("\n"),
        *(plain_words(table, group) for group in table.plain_groups),
        control_words(table),
        trapping_words(table),
    ])


def emit_arms(table: InstructionTable) -> list[str]:
    """src/arms.rt (a64_emit): the arms of functions of the crate."""
    return spaced([
        INST_HEAD.split("\n"),
        access_sites(table),
        where_marked(table, "stops", "the instructions behind which execution never goes on"),
        where_marked(table, "quiet", "the instructions of control that are one word and no use"),
    ])


# ---- loads and stores of one register

def by_value(name: str, says: str, values: dict[str, str], other: str = "") -> list[str]:
    """A macro that gives the values of operators. `other` is the value of those that have none."""
    arms = arms_by_value({f"AccessOp::{op}": value for op, value in values.items()})
    return matching(name, says, ["op"], [*arms, f"_ => {other},"] if other else arms, over="op")


def ops_arms(table: InstructionTable) -> list[str]:
    """src/arms.rt (a64_ops): the arms of functions of the crate."""
    own = [(one.name, one.access) for one in table.accesses]
    literals = {name: f"Some({access.literal})" for name, access in own if access.literal is not None}
    return spaced([
        OPS_HEAD.split("\n"),
        by_value("access_sizes", "the field size of the word", {name: str(access.size) for name, access in own}),
        by_value("access_vectors", "whether the register is a vector register",
                 {name: "true" for name, access in own if access.vector}, "false"),
        by_value("access_opcs", "the field opc of the word", {name: str(access.opc) for name, access in own}),
        by_value("access_loads", "whether it loads", {one.name: "false" for one in table.accesses if not one.loads}, "true"),
        by_value("access_literals", "the field opc of the form with a literal, where there is one", literals, "None"),
    ])


def written(table: InstructionTable) -> dict[str, Callable[[], list[str]]]:
    """The files that are written, and what writes each."""
    return {
        "crates/a64_cells/src/arms.rt": partial(cells_arms, table),
        "crates/a64_emit/src/arms.rt": partial(emit_arms, table),
        "crates/a64_ops/src/arms.rt": partial(ops_arms, table),
    }
