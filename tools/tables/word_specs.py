"""What the definitions of crates/a64_cells, a64_emit and a64_ops repeat of the table of instructions: one function for each
file.
"""
from __future__ import annotations

import textwrap
from functools import partial
from typing import Callable

from .grammar import Call, Value, call_of
from .instruction_table import Instruction, InstructionTable
from .layout import INDENT, LINE_WIDTH, equation, spaced
from .spelling import Definition
from .word_keys import IN_ROWS, row_form_of, row_imports

# The module that has the forms of a group. (Those of another module are placed by words.txt.)
HOMES = {
    "Immediate": "integer",
    "Register": "integer",
    "Float": "float",
    "Vector": "vector",
    "VectorMove": "vector",
    "System": "control",
    "Control": "control",
    "Memory": "memory",
}

PLAIN_FORMS_HEAD = """\
-- The form of each instruction that is one plain word (Arm Architecture Reference Manual, DDI 0487, C4.1, "Data Processing --
-- Immediate", "Data Processing -- Register", "Data Processing -- Scalar Floating-Point and Advanced SIMD", and hints and barriers of
-- "Branches, Exception Generating and System instructions").
use Rattle.std.specs.Prelude.{true, false, Option, None, Some}
use Rattle.a64_base.specs.declared.reg.RegKind.TheVariants.{Real}
use Rattle.a64_base.specs.declared.size.OperandSize.TheVariants.{Size64}
use Rattle.a64_base.specs.declared.size.ScalarSize.TheVariants as scalars
use Rattle.a64_base.specs.Conditions.{condition_bits, inverse_of}
use Rattle.a64_base.specs.OperandSizes.{sf_of}
use Rattle.a64_imms.specs.Flags.{flags_of, nzcv_bits}
use Rattle.a64_imms.specs.Unsigned.{uimm5_value}
use Rattle.a64_inst.specs.declared.inst.Inst.{Inst}
use Rattle.a64_inst.specs.declared.inst.Inst.TheVariants as insts
use Rattle.a64_rows.specs.Forms.{Form}
ROWS
use Rattle.a64_enc_int.specs.Operators.{bit_of}
use Rattle.a64_enc_int.specs.Registers.{register_field}
use Rattle.a64_cells.specs.ControlForms as control
use Rattle.a64_cells.specs.FloatForms as float
use Rattle.a64_cells.specs.IntegerForms as integer
use Rattle.a64_cells.specs.IntegerForms.{bfm_opc, bit_opcode, product_form, shifted_form, two_registers}
use Rattle.a64_cells.specs.VectorForms as vector
use Rattle.a64_enc_vec.specs.VectorOperators as operators

abbrev pub plain_form : Inst → Option Form"""

PLAIN_FORMS_END = """\
-- the others are no plain words
plain_form _ = None"""

PLAIN_SHAPES_HEAD = """\
-- The shape of each instruction that is no call, and no load or store of one register.
use Rattle.std.specs.Prelude.{true, false, ◌/◌, ◌%◌, ◌^◌, [], ◌∷◌, map, None, Some}
use Rattle.a64_base.specs.declared.ir_type.IrType.TheVariants.{I8}
use Rattle.a64_base.specs.declared.target.BranchTarget.TheVariants as branch_targets
use Rattle.a64_inst.specs.FinalModes.{final_mode, final_steps}
use Rattle.a64_inst.specs.declared.emission.EmitFlags.{EmitFlags}
use Rattle.a64_inst.specs.declared.frame.FrameLayout.{FrameLayout}
use Rattle.a64_inst.specs.declared.inst.Inst.{Inst}
use Rattle.a64_inst.specs.declared.inst.Inst.TheVariants as insts
use Rattle.a64_label_use.specs.declared.label_use.LabelUse.TheVariants as uses
use Rattle.a64_cells.specs.AtomicForms as atomic
use Rattle.a64_cells.specs.ControlForms as control
use Rattle.a64_cells.specs.IntegerForms as integer
use Rattle.a64_cells.specs.MemoryForms as memory
use Rattle.a64_cells.specs.VectorForms as vector
use Rattle.a64_cells.specs.PlainForms.{plain_form}
use Rattle.a64_cells.specs.Shapes.{FormOf, Data, Shape, OneWord, Several, Words, plain, last_cell, data_cell}
use Rattle.a64_cells.specs.Shapes.{branch, branches, trap_site, address_shape, table_jump}
use Rattle.a64_cells.specs.Shapes.{got_cells, near_cells, far_cells, probe_forms, vector_select_forms}
use Rattle.a64_cells.specs.Shapes.{rmw_loop_cells, cas_loop_cells}

-- Loads and stores of one register have the shape of their access, calls their words, and neither has one here: what is left at
-- the end has the form of its plain word, if it is one.
abbrev pub plain_shape : FrameLayout → EmitFlags → Inst → Shape"""

PLAIN_SHAPES_END = "plain_shape frame flags inst = elim (plain_form inst) [ None ↦ Words [] | Some form ↦ OneWord form ]"

INST_TEST_HEAD = """\
use Rattle.std.specs.Prelude.{Bool, true, false}
use Rattle.a64_inst.specs.declared.inst.Inst.{Inst}
use Rattle.a64_inst.specs.declared.inst.Inst.TheVariants as insts
"""

STOPS_HEAD = f"""\
-- Behind which instructions execution never goes on, whatever their operands.
{INST_TEST_HEAD}
-- one that always goes to a label, to an address in a register or to another function, or that is none and traps
abbrev pub stops : Inst → Bool"""

WORST_CASES_HEAD = f"""\
-- The instructions that the worst cases of size and of growth bound.
{INST_TEST_HEAD}
-- neither a call, nor a return that calls, nor a jump through a table, nor a place for an island
abbrev pub is_bounded : Inst → Bool"""

ACCESSES_HEAD = """\
-- The loads and stores of one register: the fields of their words (Arm Architecture Reference Manual, C4.1: loads and stores).
use Rattle.std.specs.Prelude.{ℕ, Bool, true, false, Option, Some, None}
use Rattle.a64_ops.specs.declared.access.AccessOp.{AccessOp}
use Rattle.a64_ops.specs.declared.access.AccessOp.TheVariants as ops

-- the fields size, V and opc
pub record AccessFields : Type 0 where
  pub size : ℕ
  pub vector : ℕ
  pub opc : ℕ
"""


# ---- forms

def row_value(one: Instruction, table: InstructionTable, value: Value) -> str:
    """What a field of a row is: a field of the instruction, by its kind, or an expression."""
    part = one.field_of(value)
    if part is None:
        return Definition(table.words, one)(value)
    return (IN_ROWS[part.what] if part.way == "is" else "register_field {0}").format(part.in_definitions)


def form_pieces(one: Instruction, table: InstructionTable) -> tuple[str, list[str]]:
    """The form of an instruction of one word, and of one that is told by its row what the fields of that are."""
    row = row_form_of(one)
    if row:
        return row.name, [f"{name} = {row_value(one, table, value)}" for name, value in row.values]
    form = call_of(one.lines["form"])
    return Definition(table.words, one, HOMES[one.group.name])(Call(f"{form.name}_form", form.values)), []


def form_equation(left: str, opening: str, one: Instruction, table: InstructionTable, closing: str) -> list[str]:
    """An equation whose right side is a form, between what stands around it."""
    name, fields = form_pieces(one, table)
    if not fields:
        return equation(left, f"{opening}({name}){closing}" if " " in name else f"{opening}{name}{closing}")
    right = f"{opening}({name} (record {{ {'; '.join(fields)} }})){closing}"
    if len(INDENT) + len(right) <= LINE_WIDTH:
        return equation(left, right)
    return [
        f"{left} =",
        f"{INDENT}{opening}({name} (record {{",
        *(f"{INDENT}  {field};" for field in fields),
        f"{INDENT}}})){closing}",
    ]


def section(one: Instruction) -> list[str]:
    """The section of the manual that has an instruction, as a comment."""
    return [f"-- {line}" for line in textwrap.wrap(one.lines["manual"].text, LINE_WIDTH - 3)]


def plain_forms(table: InstructionTable) -> list[str]:
    """specs/PlainForms.antt: the forms of plain words, by their sections of the manual."""
    plain = [one for one in table.instructions if one.group.plain]
    lines = PLAIN_FORMS_HEAD.replace("ROWS", "\n".join(row_imports(plain, table.rows))).split("\n")
    for group in table.plain_groups:
        lines.append(f"-- ---- {group.plain}")
        before: list[str] = []
        for one in table.of_group(group):
            if section(one) != before:
                before = section(one)
                lines += before
            lines += form_equation(f"plain_form {one.pattern}", "Some ", one, table, "")
    return [*lines, *PLAIN_FORMS_END.split("\n")]


# ---- shapes

def shape_equation(one: Instruction, table: InstructionTable) -> list[str]:
    """The shape of an instruction. (Beside the settings, which are `flags`, the trap of an access is `trap`.)"""
    left = f"plain_shape frame flags {one.pattern.replace(' flags', ' trap')}"
    if "cells" in one.lines:
        cells = one.lines["cells"].text
        return equation(left, "Words []" if cells == "none" else cells)
    if "traps" in one.lines:
        traps = one.lines["traps"].text
        return form_equation(left, "Several [] (FormOf ", one, table, f") None {'trap' if traps == 'flags' else traps}")
    return form_equation(left, "OneWord ", one, table, "")


def plain_shapes(table: InstructionTable) -> list[str]:
    """specs/PlainShapes.antt: the shapes of the instructions that are no plain words."""
    lines = PLAIN_SHAPES_HEAD.split("\n")
    for one in table.instructions:
        if not one.group.plain and not one.access and one.group.name != "Call":
            lines += shape_equation(one, table)
    return [*lines, PLAIN_SHAPES_END]


# ---- marks

def marked(head: str, name: str, mark: str, value: str, other: str, table: InstructionTable) -> list[str]:
    """A test of instructions that is `value` for those with a mark, and else `other`."""
    equations = [f"{name} {one.pattern} = {value}" for one in table.instructions if mark in one.marks]
    return [*head.split("\n"), *equations, f"{name} _ = {other}"]


def stops(table: InstructionTable) -> list[str]:
    """specs/Stops.antt: the instructions with the mark `stops`."""
    return marked(STOPS_HEAD, "stops", "stops", "true", "false", table)


def worst_cases(table: InstructionTable) -> list[str]:
    """specs/WorstCases.antt: the instructions without the mark `unbounded`."""
    return marked(WORST_CASES_HEAD, "is_bounded", "unbounded", "false", "true", table)


# ---- loads and stores of one register

def accesses(table: InstructionTable) -> list[str]:
    """specs/Accesses.antt (a64_ops): the fields of their words, and what they are."""
    own = table.accesses
    return spaced([
        ACCESSES_HEAD.rstrip("\n").split("\n"),
        [
            "abbrev pub fields_of : AccessOp → AccessFields",
            *(f"fields_of ops.{one.name} = {access_fields(one)}" for one in own),
        ],
        [
            "-- whether its register is a vector register",
            "abbrev pub moves_vector : AccessOp → Bool",
            *(f"moves_vector ops.{one.name} = true" for one in own if one.access.vector),
            "moves_vector _ = false",
        ],
        [
            "-- whether it loads",
            "abbrev pub loads : AccessOp → Bool",
            *(f"loads ops.{one.name} = false" for one in own if not one.loads),
            "loads _ = true",
        ],
        [
            "-- the field opc of the load of a literal, where there is one",
            "abbrev pub literal_of : AccessOp → Option ℕ",
            *(f"literal_of ops.{one.name} = Some {one.access.literal}" for one in own if one.access.literal is not None),
            "literal_of _ = None",
        ],
    ])


def access_fields(one: Instruction) -> str:
    """The fields of the word of a load or a store of one register."""
    access = one.access
    return f"record {{ size = {access.size}; vector = {access.vector}; opc = {access.opc} }}"


def written(table: InstructionTable) -> dict[str, Callable[[], list[str]]]:
    """The files that are written, and what writes each."""
    return {
        "crates/a64_cells/specs/PlainForms.antt": partial(plain_forms, table),
        "crates/a64_cells/specs/PlainShapes.antt": partial(plain_shapes, table),
        "crates/a64_emit/specs/Stops.antt": partial(stops, table),
        "crates/a64_emit/specs/WorstCases.antt": partial(worst_cases, table),
        "crates/a64_ops/specs/Accesses.antt": partial(accesses, table),
    }
