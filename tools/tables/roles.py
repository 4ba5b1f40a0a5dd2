"""What crates/a64_roles repeats of the table of instructions: what each does with its registers."""
from __future__ import annotations

from dataclasses import dataclass
from functools import partial
from typing import Callable

from .grammar import Call, Line, names_in, snake_case, values_of
from .instruction_table import Group, Instruction, InstructionTable
from .layout import chain, equation, indented, spaced
from .macros import NEVER, arm, arms_by_value, macro, name_of, pattern
from .spelling import Code, Definition

# The roles that an instruction may name, and how many values each has.
ROLES = {"RegUse": 1, "RegDef": 1, "RegEarlyDef": 1, "RegReuseDef": 2, "RegFixedUse": 2, "RegFixedDef": 2}

# The lists of roles that are told behind single ones: the function that tells one of these is given those first.
BEHIND = ("mode", "pair_mode", "call", "return_call")

SPECS_HEAD = """\
-- What each instruction does with its registers, in the order in which a visitor is told it.
use Rattle.std.specs.Prelude.{Bool, true, false, List, [], ◌∷◌, ◌++◌}
use Rattle.a64_base.specs.Registers.{float_register, integer_register}
use Rattle.a64_inst.specs.declared.inst.Inst.{Inst}
use Rattle.a64_inst.specs.declared.inst.Inst.TheVariants as insts
use Rattle.a64_inst.specs.Sheets.{sheet}
use Rattle.a64_role.specs.declared.role.Role.{Role}
use Rattle.a64_role.specs.declared.role.Role.TheVariants.{RegUse, RegDef, RegEarlyDef, RegReuseDef, RegFixedUse, RegFixedDef}
use Rattle.a64_role.specs.Lists.{call_roles, field_roles, kind_roles, mode_roles, pair_mode_roles, pair_swap_roles, return_call_roles}
use Rattle.a64_roles.specs.Sequences.{args_roles, rets_roles, rmw_loop_roles}"""

TIED_HEAD = """\
-- whether the result is the register of the operand that is read behind it
abbrev pub is_tied : Inst → Bool"""

ROLES_HEAD = """\
-- the roles of all instructions but the loads and stores of one register
abbrev pub own_roles : Inst → List Role"""

ROLES_END = """\
-- the others: the registers among the fields of their sheets, in their order; what has no sheet has none
own_roles inst = field_roles (is_tied inst) (sheet inst)"""

CODE_HEAD = """\
//! The roles of the instructions of each group, as a match over them whose arms tell them to a visitor, and the role of
//! the register of a load or a store. An arm calls what the module that uses the macro has by that name."""

# What the groups are that are no plain words.
GROUPS = {
    "Control": "control flow, of data and of places for islands",
    "Sequence": "sequences, and of what only says something of registers",
    "Call": "calls, and of returns that call",
    "Memory": "loads and stores, of addresses and of atomic operations",
}

ACCESS_ARM = """\
other => match other.access_ref() {
    Some(access) => hand_access($visitor, &access),
    None => unreachable!(),
},"""


@dataclass(frozen=True)
class Roles:
    """The roles of an instruction: single ones, and a list that is told behind them."""

    single: tuple[Call, ...]
    rest: Call | None

    @property
    def values(self) -> tuple[Call, ...]:
        """The expressions of all."""
        return (*self.single, self.rest) if self.rest else self.single


NONE = Roles((), None)


def roles_of(one: Instruction) -> Roles:
    """The roles that the line of an instruction names; none where it has no such line."""
    if "roles" not in one.lines:
        return NONE
    line = one.lines["roles"]
    calls = [call if isinstance(call, Call) else line.fail(f"`{call}` is no call") for call in values_of(line)]
    for name in names_in(tuple(calls)):
        if not one.field_of(name):
            line.fail(f"the instruction `{one.name}` has no field `{name}`")
    *single, last = calls
    if last.name[0].isupper():
        return Roles(roles_in(calls, line), None)
    if single and last.name not in BEHIND:
        line.fail(f"the list `{last.name}` is told alone")
    return Roles(roles_in(single, line), last)


def roles_in(calls: list[Call], line: Line) -> tuple[Call, ...]:
    """The calls, of which each has to be a single role."""
    for call in calls:
        if call.name[0].islower():
            line.fail(f"the list `{call.name}` has to be the last")
        if call.name not in ROLES:
            line.fail(f"there is no role `{call.name}`")
        if len(call.values) != ROLES[call.name]:
            line.fail(f"the role `{call.name}` has another number of values")
    return tuple(calls)


def check(table: InstructionTable) -> None:
    """Sees that the roles of each instruction can be read."""
    for one in table.instructions:
        roles_of(one)


# ---- definitions

def roles_in_definitions(table: InstructionTable, one: Instruction) -> str:
    """The roles of an instruction, as a definition."""
    roles, spell = roles_of(one), Definition(table.words, one)
    single = chain(spell(role) for role in roles.single)
    if not roles.rest:
        return single
    rest = spell(Call(f"{roles.rest.name}_roles", roles.rest.values))
    return f"({single}) ++ {rest}" if roles.single else rest


def definitions(table: InstructionTable) -> list[str]:
    """specs/OwnRoles.antt: which results are tied, and the roles of all instructions that name theirs."""
    tied = [f"is_tied {one.pattern} = true" for one in table.instructions if one.is_tied]
    named = [
        line
        for one in table.instructions
        if "roles" in one.lines
        for line in equation(f"own_roles {one.pattern}", roles_in_definitions(table, one))
    ]
    return spaced([
        SPECS_HEAD.split("\n"),
        [*TIED_HEAD.split("\n"), *tied, "is_tied _ = false"],
        [*ROLES_HEAD.split("\n"), *named, *ROLES_END.split("\n")],
    ])


# ---- code

def told(table: InstructionTable, one: Instruction) -> str:
    """The call that tells a visitor the roles of an instruction."""
    roles, spell = roles_of(one), Code(table.words, one)
    function = f"hand_{roles.rest.name}" if roles.rest else "hand"
    has_single = not roles.rest or roles.rest.name in BEHIND
    single = [f"&[{', '.join(spell(role) for role in roles.single)}]"] if has_single else []
    rest = [spell(value) for value in roles.rest.values] if roles.rest else []
    return f"{function}({', '.join(['$visitor', *single, *rest])})"


def arms_of(table: InstructionTable, group: Group) -> list[str]:
    """The arms of a group, one for all instructions whose roles are told by one call. A plain word without roles of its
    own is told by its list, and a load or a store of one register as such.
    """
    arms: dict[str, str] = {}
    for one in table.of_group(group):
        if "roles" in one.lines or not (group.plain or one.access):
            names = [name for call in roles_of(one).values for name in names_in(call.values)]
            arms[pattern(one, names)] = told(table, one)
    return arms_by_value(arms)


def body_of(table: InstructionTable, group: Group) -> list[str]:
    """The match over the instructions of a group."""
    arms, others = arms_of(table, group), f"{snake_case(group.name)}_list!(role_arms, $visitor"
    if group.plain and not arms:
        return [f"{others}, $inst)"]
    last = [f"other => {others}, other),"] if group.plain else [NEVER]
    if any(one.access for one in table.of_group(group)):
        last = ACCESS_ARM.split("\n")
    return ["match $inst {", *indented([*arms, *last]), "}"]


def group_macro(table: InstructionTable, group: Group) -> list[str]:
    """The macro that tells a visitor the roles of an instruction of a group."""
    says = f"Tells a visitor the roles of {group.plain or GROUPS[group.name]}"
    places = "$visitor:ident, $inst:expr"
    return macro(name_of(group, "roles"), says, places, body_of(table, group))


def moved_role(table: InstructionTable) -> list[str]:
    """The macro of the role of the register of a load or a store."""
    loads = [f"AccessOp::{one.name}" for one in table.accesses if one.loads]
    stores = [f"AccessOp::{one.name}" for one in table.accesses if not one.loads]
    arms = [*arm(stores, "RegUse($reg)"), *arm(loads, "RegDef($reg)")]
    says = "The role of the register of a load or a store, by its operator"
    return macro("moved_role_of", says, "$op:expr, $reg:expr", ["match $op {", *indented(arms), "}"])


def code(table: InstructionTable) -> list[str]:
    """src/own_roles.rt: the roles of the instructions of each group, and of the registers of loads and stores."""
    groups = (group_macro(table, group) for group in table.groups.values())
    return spaced([CODE_HEAD.split("\n"), *groups, moved_role(table)])


CRATE = "crates/a64_roles"


def written(table: InstructionTable) -> dict[str, Callable[[], list[str]]]:
    """The files that are written, and what writes each."""
    return {
        f"{CRATE}/specs/OwnRoles.antt": partial(definitions, table),
        f"{CRATE}/src/own_roles.rt": partial(code, table),
    }
