"""What the definitions of crates/a64_inst repeat of the table of instructions: one function for each file."""
from __future__ import annotations

from .grammar import Call, Test
from .inst_heads import (
    ACCESSES_HEAD, CALL_OPERANDS_HEAD, GROUPS_HEAD, LONE_HEAD, PLAIN_OPERANDS_HEAD, SHEETS_HEAD,
)
from .instruction_table import Field, Instruction, InstructionTable, class_call
from .layout import chain, equation
from .spelling import Definition

# The module that has the tests of a group's operands, where tables/words.txt names no other.
HOMES = {
    "Immediate": "integer",
    "Register": "integer",
    "Float": "float",
    "Vector": "vector",
    "VectorMove": "vector",
    "Control": "control",
    "Sequence": "sequence",
    "Call": "calls",
    "Memory": "atomic",
}


def test_of(test: Test, one: Instruction, table: InstructionTable) -> str:
    """A test."""
    spelled = Definition(table.words, one, HOMES[one.group.name])
    if isinstance(test, Call):
        return spelled(test)
    return f"nat_lt {spelled(test.value)} {test.number}"


def tests_of(one: Instruction, table: InstructionTable) -> str:
    """What must hold beside the classes, or of the operands."""
    return " && ".join(test_of(test, one, table) for test in one.tests) or "true"


# ---- groups

def group_of(one: Instruction) -> str:
    """The group of an instruction."""
    return f"groups.Plain plain.{one.group.name}" if one.group.plain else f"groups.{one.group.name}"


def groups(table: InstructionTable) -> list[str]:
    """specs/Groups.antt: the group of each instruction."""
    return [*GROUPS_HEAD.split("\n"), *(f"group_of {one.pattern} = {group_of(one)}" for one in table.instructions)]


# ---- fields

def field_of(part: Field, one: Instruction, table: InstructionTable) -> str:
    """A field with its class, or its kind."""
    if part.way == "is":
        return f"Is (fields.{part.what} {part.in_definitions})"
    call = class_call(part.what)
    of_class = f"({test_of(call, one, table)})" if call else part.what
    return f"{'Def' if part.way == 'writes' else 'Use'} {of_class} {part.in_definitions}"


def sheet(one: Instruction, table: InstructionTable) -> list[str]:
    """The fields of a plain word."""
    return equation(f"sheet {one.pattern}", chain(field_of(part, one, table) for part in one.fields))


def sheets(table: InstructionTable) -> list[str]:
    """specs/Sheets.antt: the fields of plain words, and what must hold of them."""
    lines = SHEETS_HEAD.split("\n")
    for group in table.plain_groups:
        lines += [f"-- {group.plain}", *(line for one in table.of_group(group) for line in sheet(one, table))]
    rest = [one for one in table.instructions if one.group.plain and one.tests]
    return [
        *lines,
        "-- the others are no plain words",
        "sheet _ = []",
        "",
        "-- what must hold beside the classes of the registers",
        "abbrev pub has_rest : VirtualRegisters → Inst → Bool",
        *(line for one in rest for line in equation(f"has_rest virtuals {one.pattern}", tests_of(one, table))),
        "has_rest virtuals _ = true",
    ]


# ---- loads and stores of one register

def access_of(one: Instruction) -> list[str]:
    """A load or a store of one register as data."""
    parts = zip(("reg", "mem", "flags"), (part.in_definitions for part in one.fields))
    record = "; ".join([f"op = ops.{one.name}", *(f"{field} = {name}" for field, name in parts)])
    return equation(f"access_of {one.pattern}", f"Some (record {{ {record} }})")


def inst_with(one: Instruction) -> str:
    """The instruction of an operator."""
    names = " ".join(part.in_definitions for part in one.fields)
    return f"inst_with ops.{one.name} {names} = insts.{one.name} {names}"


def accesses(table: InstructionTable) -> list[str]:
    """specs/AccessTable.antt: loads and stores of one register as data, and back."""
    return [
        *ACCESSES_HEAD.split("\n"),
        "",
        "-- the type of the value that is moved",
        "abbrev pub access_type : AccessOp → IrType",
        *(f"access_type ops.{one.name} = {one.access.type}" for one in table.accesses),
        "",
        "-- a load or a store of one register as its operator, its register, its address and what is known of it",
        "abbrev pub access_of : Inst → Option Access",
        *(line for one in table.accesses for line in access_of(one)),
        "access_of _ = None",
        "",
        "-- the instruction of an operator",
        "abbrev pub inst_with : AccessOp → Reg → AMode → Option TrapCode → Inst",
        *map(inst_with, table.accesses),
    ]


# ---- operands

def operands(name: str, names: tuple[str, ...], table: InstructionTable) -> list[str]:
    """What must hold of the operands of the instructions of some groups that are no loads or stores of one register."""
    others = [one for one in table.instructions if one.group.name in names and not one.access]
    return [line for one in others for line in equation(f"  {name} {one.pattern}", tests_of(one, table))]


def plain_operands(table: InstructionTable) -> list[str]:
    """specs/PlainOperands.antt: of instructions that are no calls."""
    return [
        *PLAIN_OPERANDS_HEAD.split("\n"),
        *operands("has_plain_operands", ("Control", "Sequence", "Memory"), table),
        "  has_plain_operands inst = is_plain (group_of inst) && fields_fit virtuals (sheet inst) (has_rest virtuals inst)",
    ]


def other_operands(table: InstructionTable) -> list[str]:
    """specs/OtherOperands.antt: of all that are no loads or stores of one register."""
    return [
        *CALL_OPERANDS_HEAD.split("\n"),
        *operands("has_other_operands", ("Call",), table),
        "  has_other_operands inst = has_plain_operands frame flags virtuals inst",
    ]


def lone_others(table: InstructionTable) -> list[str]:
    """specs/LoneOthers.antt: which instructions are one word that is no use."""
    lines = LONE_HEAD.split("\n")
    for one in table.instructions:
        if not one.access and one.alone is not True:
            alone = test_of(one.alone, one, table) if isinstance(one.alone, Call) else "false"
            lines += equation(f"is_lone_other frame {one.pattern}", alone)
    return [*lines, "is_lone_other frame _ = true"]
