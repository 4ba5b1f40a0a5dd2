"""What crates/a64_role and a64_roles repeat of the marks of instructions: queries that an instruction answers whatever
its operands are.
"""
from __future__ import annotations

from dataclasses import dataclass
from functools import partial
from typing import Callable

from .instruction_table import Instruction, InstructionTable
from .layout import indented, spaced
from .macros import arm, macro, matches, pattern

SPECS_HEAD = """\
-- What queries answer of instructions, whatever their operands are.
use Rattle.std.specs.Prelude.{Bool, true, false}
use Rattle.a64_inst.specs.declared.inst.Inst.{Inst}
use Rattle.a64_inst.specs.declared.inst.Inst.TheVariants as insts
use Rattle.a64_role.specs.declared.query.CallType.{CallType}
use Rattle.a64_role.specs.declared.query.CallType.TheVariants as calls
use Rattle.a64_role.specs.declared.query.MachTerminator.{MachTerminator}
use Rattle.a64_role.specs.declared.query.MachTerminator.TheVariants as terms"""

CODE_HEAD = """\
//! What instructions answer whatever their operands are, each query as a match over the instructions."""

TIED = "whether the result of an instruction is the register of the operand that is read behind it"


@dataclass(frozen=True)
class Query:
    """A query that marks answer: its definition, its macro, what it asks, its type, the module under which definitions
    import the variants of that, its answer of each mark, and that of an instruction without one of them.
    """

    definition: str
    macro: str
    asks: str
    type: str
    module: str
    answers: dict[str, str]
    otherwise: str

    def spelled(self, answer: str) -> str:
        """An answer in definitions."""
        return f"{self.module}.{answer}" if self.module else answer

    def marks_of(self, one: Instruction) -> list[str]:
        """The marks of an instruction that answer it."""
        return [mark for mark in one.marks if mark in self.answers]


def truth(mark: str, asks: str) -> Query:
    """A query that is answered by whether an instruction has a mark."""
    return Query(f"is_{mark}", f"{mark}_mark", asks, "Bool", "", {mark: "true"}, "false")


QUERIES = (
    truth("trap", "whether an instruction traps wherever it is reached"),
    truth("args", "whether an instruction has the arguments of the function"),
    truth("safepoint", "whether the garbage collector may look at the stack at an instruction"),
    Query(
        "call_type_of", "call_type_marks", "whether an instruction calls another function", "CallType", "calls",
        {"regular_call": "Regular", "tail_call": "TailCall"}, "None",
    ),
    Query(
        "term_of", "terminator_marks", "whether an instruction ends a block", "MachTerminator", "terms",
        {"ret": "Ret", "ret_call": "RetCall", "branch": "Branch"}, "None",
    ),
    truth(
        "pair_access",
        "whether an instruction loads or stores a pair of registers; stores of pairs of vector registers do not count",
    ),
)


def definition_of(table: InstructionTable, query: Query) -> list[str]:
    """A query as a definition."""
    answers = [
        f"{query.definition} {one.pattern} = {query.spelled(query.answers[mark])}"
        for one in table.instructions
        for mark in query.marks_of(one)
    ]
    return [
        f"-- {query.asks}",
        f"abbrev pub {query.definition} : Inst → {query.type}",
        *answers,
        f"{query.definition} _ = {query.spelled(query.otherwise)}",
    ]


def definitions(table: InstructionTable) -> list[str]:
    """specs/Marks.antt (a64_role): the queries as definitions."""
    return spaced([SPECS_HEAD.split("\n"), *(definition_of(table, query) for query in QUERIES)])


def answered(table: InstructionTable, query: Query) -> list[str]:
    """The answer to a query, as code."""
    found = {mark: [pattern(one, []) for one in table.instructions if mark in one.marks] for mark in query.answers}
    if query.type == "Bool":
        return matches("$inst", [name for names in found.values() for name in names])
    arms = [line for mark, answer in query.answers.items() for line in arm(found[mark], f"{query.type}::{answer}")]
    return ["match $inst {", *indented([*arms, f"_ => {query.type}::{query.otherwise},"]), "}"]


def code(table: InstructionTable) -> list[str]:
    """src/marks.rt (a64_roles): the queries as macros, and which results are the register that is read behind them."""
    tied = matches("$inst", [pattern(one, []) for one in table.instructions if one.is_tied])
    return spaced([
        CODE_HEAD.split("\n"),
        *(macro(query.macro, query.asks, "$inst:expr", answered(table, query)) for query in QUERIES),
        macro("tied_mark", TIED, "$inst:expr", tied),
    ])


def check(table: InstructionTable) -> None:
    """Sees that no instruction has two marks that answer one query."""
    for one in table.instructions:
        for query in QUERIES:
            marks = query.marks_of(one)
            if len(marks) > 1:
                one.lines["marks"].fail(f"`{marks[0]}` and `{marks[1]}` both say {query.asks}")


def written(table: InstructionTable) -> dict[str, Callable[[], list[str]]]:
    """The files that are written, and what writes each."""
    return {
        "crates/a64_role/specs/Marks.antt": partial(definitions, table),
        "crates/a64_roles/src/marks.rt": partial(code, table),
    }
