"""The definitions of texts of crates/a64_operand_text: one function for each file."""
from __future__ import annotations

from functools import partial
from typing import Callable

from .grammar import Call, Value, snake_case
from .instruction_table import Instruction, InstructionTable
from .layout import argument, equation, use
from .spelling import Definition
from .text_table import FRAME, REGISTER, Text, replaced, texts_of

# The name under which a file imports the variants of operands.
OPERANDS = "operand"

TEXTS_HEAD = """\
-- The text of each instruction, but for loads, stores and addresses of their modes, whose texts depend on the frame.
use Rattle.std.specs.Prelude.{ℕ, pos, ◌*ℤ◌, true, false, List, [], ◌∷◌, codes}
use Rattle.a64_base.specs.declared.reg.RegKind.TheVariants.{Real}
use Rattle.a64_base.specs.declared.size.ScalarSize.TheVariants as scalars
use Rattle.a64_base.specs.declared.size.VectorSize.TheVariants as vectors
use Rattle.a64_base.specs.declared.target.BranchTarget.TheVariants.{Label}
use Rattle.a64_base.specs.ScalarSizes.{scalar_operand, narrower, wider}
use Rattle.a64_base.specs.VectorSizes.{lane_of, lane_operand}
use Rattle.a64_imms.specs.Imm12s.{imm12_value}
use Rattle.a64_imms.specs.Logic.{logic_value}
use Rattle.a64_imms.specs.Unsigned.{uimm5_value}
use Rattle.a64_inst.specs.declared.inst.Inst.{Inst}
use Rattle.a64_inst.specs.declared.inst.Inst.TheVariants as insts
use Rattle.a64_operand_text.specs.declared.operand.Operand.TheVariants as operand
use Rattle.a64_operand_text.specs.CallTexts.{return_call_text}
use Rattle.a64_operand_text.specs.ControlTexts.{authenticated_ret_text, bare_number_text, bti_text, cond_br_text}
use Rattle.a64_operand_text.specs.ControlTexts.{paci_text, test_bit_text, trap_if_text}
use Rattle.a64_operand_text.specs.FloatTexts.{fpu_rr_size, fpu_rri_text, fpu_rri_mod_text, from_float_size, from_int_size}
use Rattle.a64_operand_text.specs.FloatTexts.{round_size, to_float_size, to_int_size}
use Rattle.a64_operand_text.specs.IntegerTexts.{alu_rr_imm12_text, extend_text, sum_size}
use Rattle.a64_operand_text.specs.LaneSizes.{added_product_lane, alu_lanes, alu_mod_lanes, pair_long_lane}
use Rattle.a64_operand_text.specs.LaneSizes.{product_lane, vector_of}
use Rattle.a64_operand_text.specs.Lines.{line_text}
use Rattle.a64_operand_text.specs.SequenceTexts.{args_text, cas_loop_text, jt_sequence_text, rets_text, rmw_loop_text}
use Rattle.a64_operand_text.specs.SequenceTexts.{vec_csel_text}
use Rattle.a64_operand_text.specs.VectorTexts.{half_text, lane_move_name, vec_misc_text, vec_rr_long_text}
use Rattle.a64_operand_text.specs.VectorTexts.{vector_imm_name}"""

ACCESS_HEAD = """\
-- The name of a load or a store of one register, and the register as an operand.
use Rattle.std.specs.Prelude.{ℕ, Bool, if◌then◌else◌, List, codes}
use Rattle.a64_base.specs.declared.reg.Reg.{Reg}
use Rattle.a64_base.specs.declared.size.OperandSize.TheVariants.{Size32, Size64}
use Rattle.a64_base.specs.declared.size.ScalarSize.TheVariants as scalars
use Rattle.a64_ops.specs.declared.access.AccessOp.{AccessOp}
use Rattle.a64_ops.specs.declared.access.AccessOp.TheVariants as ops
use Rattle.a64_operand_text.specs.declared.operand.Operand.{Operand}
use Rattle.a64_operand_text.specs.declared.operand.Operand.TheVariants as operand

-- the name, where the mode that is written has a signed offset of 9 bits, or has not. A vector register has one name.
abbrev pub access_name : Bool → AccessOp → List ℕ"""

ACCESS_OPERAND_HEAD = """\

-- the register, at the size that is loaded into it or stored
abbrev pub access_operand : AccessOp → Reg → Operand"""

FRAME_HEAD = """\
-- The text of each load and each store, and of addresses of their modes: these depend on the frame.
use Rattle.std.specs.Prelude.{ℕ, List, [], ◌∷◌, ◌++◌, codes}
use Rattle.a64_base.specs.declared.size.ScalarSize.TheVariants as scalars
use Rattle.a64_ops.specs.declared.access.AccessOp.TheVariants as ops
use Rattle.a64_inst.specs.declared.frame.FrameLayout.{FrameLayout}
use Rattle.a64_inst.specs.declared.inst.Inst.{Inst}
use Rattle.a64_inst.specs.declared.inst.Inst.TheVariants as insts
use Rattle.a64_operand_text.specs.declared.operand.Operand.TheVariants as operand
use Rattle.a64_operand_text.specs.Lines.{line_text}
use Rattle.a64_operand_text.specs.MemoryTexts.{access_text, address_text, cas_text, cas128_text, width_size, width_suffix}"""


def definition(table: InstructionTable, one: Instruction) -> Definition:
    """How definitions of texts spell the expressions of an instruction."""
    return Definition(table.words, one, variants=OPERANDS)


def operator_name(one: Instruction, value: Value) -> str:
    """The function that gives the name of an operator, where a value is one."""
    part = one.field_of(value)
    return f"{snake_case(part.kind.name)}_name" if part else ""


def name_of(one: Instruction, value: Value) -> Value:
    """The name with which a text begins: what a text says, or a function of an operator."""
    function = operator_name(one, value)
    return Call(function, (value,)) if function else value


def line(spelled: Definition, text: Text) -> str:
    """A name with its operands."""
    operands = text.operands
    if text.let:
        operands = tuple(replaced(value, *text.let) for value in operands)
    name = name_of(spelled.one, text.values[0])
    if not operands:
        return spelled(name)
    items = argument([spelled(value) for value in operands])
    if text.way == "half":
        return f"half_text {spelled.argument(name)} {spelled.argument(text.values[1])} {items}"
    if text.way == "wide":
        suffix = Call("width_suffix", text.values[1:])
        return f"{spelled(name)} ++ line_text {spelled.argument(suffix)} {items}"
    return f"line_text {spelled.argument(name)} {items}"


def right_side(table: InstructionTable, one: Instruction, text: Text) -> str:
    """The text of an instruction."""
    spelled = definition(table, one)
    if one.access:
        return " ".join(["access_text", FRAME, f"ops.{one.name}", *(part.name for part in one.fields[:2])])
    if text.way == "own":
        return spelled(Call(f"{text.call.name}_text", text.call.values))
    return spelled(text.call) if text.way == "str" else line(spelled, text)


def names_of(table: InstructionTable, texts: dict[str, Text], memory: bool) -> str:
    """The line that imports the names of operators with which texts begin."""
    found = {operator_name(one, texts[one.name].values[0]) for one in instructions(table, memory)}
    return use("a64_ops.specs.Names", sorted(found - {""}))


def instructions(table: InstructionTable, memory: bool) -> list[Instruction]:
    """The instructions whose texts depend on the frame, or the others."""
    return [one for one in table.instructions if (one.group.name == "Memory") == memory]


def own_texts(table: InstructionTable) -> list[str]:
    """specs/Texts.antt: the text of each instruction that does not depend on the frame."""
    texts = texts_of(table)
    lines = [*TEXTS_HEAD.split("\n"), names_of(table, texts, False), "", "abbrev pub own_text : Inst → List ℕ"]
    for one in instructions(table, False):
        lines += equation(f"own_text {one.pattern}", right_side(table, one, texts[one.name]))
    return [*lines, "own_text _ = []"]


def frame_texts(table: InstructionTable) -> list[str]:
    """specs/FrameTexts.antt: the text of each instruction that depends on the frame."""
    texts = texts_of(table)
    lines = [*FRAME_HEAD.split("\n"), names_of(table, texts, True)]
    lines += ["", "abbrev pub memory_text : FrameLayout → Inst → List ℕ"]
    for one in instructions(table, True):
        lines += equation(f"memory_text {FRAME} {one.pattern}", right_side(table, one, texts[one.name]))
    return [*lines, f"memory_text {FRAME} _ = []"]


def access_texts(table: InstructionTable) -> list[str]:
    """specs/AccessTexts.antt: the names of loads and stores of one register, and their operands."""
    names, operands, texts = [], [], texts_of(table)
    for one in table.accesses:
        text, spelled = texts[one.name], definition(table, one)
        first, *unscaled = (spelled(name) for name in text.values)
        name = f"if unscaled then {unscaled[0]} else {first}" if unscaled else first
        names += equation(f"access_name unscaled ops.{one.name}", name)
        operands += equation(f"access_operand ops.{one.name} {REGISTER}", spelled(text.operands[0]))
    return [*ACCESS_HEAD.split("\n"), *names, *ACCESS_OPERAND_HEAD.split("\n"), *operands]


CRATE = "crates/a64_operand_text"


def written(table: InstructionTable) -> dict[str, Callable[[], list[str]]]:
    """The files that are written, and what writes each."""
    return {
        f"{CRATE}/specs/Texts.antt": partial(own_texts, table),
        f"{CRATE}/specs/AccessTexts.antt": partial(access_texts, table),
        f"{CRATE}/specs/FrameTexts.antt": partial(frame_texts, table),
    }
