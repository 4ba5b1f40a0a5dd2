"""The heads of the files of crates/a64_inst that are written: what they are, and what they import."""

INST_HEAD = """\
//! The instructions.

use crate::call::{CallInfo, ReturnCallInfo};
use crate::mode::{AMode, PairAMode};
use crate::pair::{ArgPair, RetPair};
use a64_base::{
    APIKey, BranchTarget, Cond, CondBrKind, ExtendOp, ExternalName, IrType, MachLabel,
    MemFlagsData, OperandSize, PReg, Reg, ScalarSize, ShiftOpAndAmt, TestBitAndBranchKind,
    TrapCode, VectorSize, Writable,
};
use a64_imms::{
    ASIMDFPModImm, ASIMDMovModImm, Imm12, ImmLogic, ImmShift, MoveWideConst, NZCV, UImm5, UImm6,
};
use a64_list::ListVec;
use a64_operand::{AtomicCAS128Args, FPUOpRI, FPUOpRIMod};
use a64_ops::{
    ALUOp, ALUOp3, AtomicRMWLoopOp, AtomicRMWOp, BfmOp, BitOp, BranchTargetType, FPUOp1, FPUOp2,
    FPUOp3, FpuRoundMode, FpuToIntOp, IntToFpuOp, MoveWideOp, VecALUModOp, VecALUOp, VecExtendOp,
    VecLanesOp, VecMisc2, VecPairOp, VecRRLongOp, VecRRNarrowOp, VecRRPairLongOp, VecRRRLongModOp,
    VecRRRLongOp, VecShiftImmModOp, VecShiftImmOp,
};

/// An AArch64 instruction, or a short sequence of instructions (Cranelift's `Inst`).
#[derive(Drop)]
pub enum Inst {"""

LISTS_HEAD = """\
//! The instructions that are one plain word, each with its fields in the order of a file.
//!
//! A list hands its instructions to a macro, which makes of each an arm. Of a field it says what it is: a
//! register that is written (`Def`) or read (`Use`), with its class, a name of [`Class`](crate::Class) or, in
//! parentheses, a call that gives one; or something else (`Is`), with its kind. Behind `if` stands what must
//! hold beside the classes. The macro's first argument names the variable that says whether registers may be
//! virtual; only what stands behind `if` uses it."""

ARMS_HEAD = """\
//! The arms of functions over all instructions, or over those of a group that are no plain words.
//!
//! A macro matches an instruction, its first argument; the others are what the arms need beside it."""

MAKERS_HEAD = """\
//! Makers of the last loads and stores: a value of one of the variants behind the 128th of an enum that owns memory is
//! proved by hand, and so is made here alone.

ghost use Rattle.std.specs.Prelude.{◌≡◌};
ghost use Rattle.a64_inst.specs.declared.inst.Inst.TheVariants as insts;

use crate::inst::Inst;
use crate::mode::AMode;
use a64_base::{MemFlagsData, Reg, Writable};

impl Inst {"""

GROUPS_HEAD = """\
-- The group of each instruction.
use Rattle.a64_inst.specs.declared.group.Group.{Group}
use Rattle.a64_inst.specs.declared.group.Group.TheVariants as groups
use Rattle.a64_inst.specs.declared.group.PlainGroup.TheVariants as plain
use Rattle.a64_inst.specs.declared.inst.Inst.{Inst}
use Rattle.a64_inst.specs.declared.inst.Inst.TheVariants as insts

abbrev pub group_of : Inst → Group"""

SHEETS_HEAD = """\
-- The fields of each instruction that is one plain word, in the order of a file, and what must hold of them (Arm
-- Architecture Reference Manual, C6.2 and C7.2).
use Rattle.std.specs.Prelude.{Bool, true, List, [], ◌∷◌, nat_lt}
use Rattle.a64_base.specs.ScalarSizes.{has_ftype}
use Rattle.a64_operand.specs.declared.class.Class.TheVariants.{Zero, Stack, Vector, Own}
use Rattle.a64_inst.specs.declared.inst.Inst.{Inst}
use Rattle.a64_inst.specs.declared.inst.Inst.TheVariants as insts
use Rattle.a64_operand.specs.declared.virtuals.VirtualRegisters.{VirtualRegisters}
use Rattle.a64_inst.specs.Fields as fields
use Rattle.a64_inst.specs.Fields.{Field, Def, Use, Is}
use Rattle.a64_operand.specs.FloatOperands as float
use Rattle.a64_operand.specs.IntegerOperands as integer
use Rattle.a64_operand.specs.IntegerOperands.{add_sub_class, logic_class}
use Rattle.a64_operand.specs.VectorOperands as vector
use Rattle.a64_operand.specs.Operands.{is_lane, is_near, is_same_register, is_wide_in}

-- the fields
abbrev pub sheet : Inst → List Field"""

ACCESSES_HEAD = """\
-- Loads and stores of one register as data, and back.
use Rattle.std.specs.Prelude.{Option, Some, None}
use Rattle.a64_base.specs.declared.entity.TrapCode.{TrapCode}
use Rattle.a64_base.specs.declared.reg.Reg.{Reg}
use Rattle.a64_base.specs.declared.ir_type.IrType.{IrType}
use Rattle.a64_base.specs.declared.ir_type.IrType.TheVariants.{I8, I16, I32, I64, F16, F32, F64, I8X16}
use Rattle.a64_ops.specs.declared.access.AccessOp.{AccessOp}
use Rattle.a64_ops.specs.declared.access.AccessOp.TheVariants as ops
use Rattle.a64_inst.specs.declared.access.Access.{Access}
use Rattle.a64_inst.specs.declared.inst.Inst.{Inst}
use Rattle.a64_inst.specs.declared.inst.Inst.TheVariants as insts
use Rattle.a64_inst.specs.declared.mode.AMode.{AMode}"""

PLAIN_OPERANDS_HEAD = """\
-- What must hold of the operands of an instruction that is no call, and no load or store of one register.
use Rattle.std.specs.Prelude.{Bool, true, ◌&&◌}
use Rattle.a64_base.specs.declared.ir_type.IrType.TheVariants.{F64, I8X16}
use Rattle.a64_inst.specs.declared.emission.EmitFlags.{EmitFlags}
use Rattle.a64_inst.specs.declared.frame.FrameLayout.{FrameLayout}
use Rattle.a64_operand.specs.declared.virtuals.VirtualRegisters.{VirtualRegisters}
use Rattle.a64_inst.specs.declared.inst.Inst.{Inst}
use Rattle.a64_inst.specs.declared.inst.Inst.TheVariants as insts
use Rattle.a64_operand.specs.Operands.{is_any_register, is_register, is_register_or_zero}
use Rattle.a64_operand.specs.AtomicOperands as atomic
use Rattle.a64_inst.specs.ControlOperands as control
use Rattle.a64_inst.specs.MemoryOperands as memory
use Rattle.a64_inst.specs.SequenceOperands as sequence
use Rattle.a64_operand.specs.VectorOperands as vector
use Rattle.a64_inst.specs.Groups.{group_of}
use Rattle.a64_inst.specs.PlainWords.{fields_fit, is_plain}
use Rattle.a64_inst.specs.Sheets.{has_rest, sheet}

-- they are judged by the frame, the settings, and whether registers may be virtual
module _ (frame : FrameLayout) (flags : EmitFlags) (virtuals : VirtualRegisters) where
  abbrev pub has_plain_operands : Inst → Bool"""

CALL_OPERANDS_HEAD = """\
-- What must hold of the operands of an instruction that is no load or store of one register.
use Rattle.std.specs.Prelude.{Bool, ◌&&◌}
use Rattle.a64_inst.specs.declared.emission.EmitFlags.{EmitFlags}
use Rattle.a64_inst.specs.declared.frame.FrameLayout.{FrameLayout}
use Rattle.a64_operand.specs.declared.virtuals.VirtualRegisters.{VirtualRegisters}
use Rattle.a64_inst.specs.declared.inst.Inst.{Inst}
use Rattle.a64_inst.specs.declared.inst.Inst.TheVariants as insts
use Rattle.a64_operand.specs.Operands.{is_register_or_zero}
use Rattle.a64_inst.specs.CallOperands as calls
use Rattle.a64_inst.specs.PlainOperands.{has_plain_operands}
use Rattle.a64_inst.specs.Restoring.{is_restorable}

-- they are judged by the frame, the settings, and whether registers may be virtual
module _ (frame : FrameLayout) (flags : EmitFlags) (virtuals : VirtualRegisters) where
  abbrev pub has_other_operands : Inst → Bool"""

LONE_HEAD = """\
-- Which instructions that are no loads or stores of one register are one word that is no use.
use Rattle.std.specs.Prelude.{Bool, true, false}
use Rattle.a64_inst.specs.declared.frame.FrameLayout.{FrameLayout}
use Rattle.a64_inst.specs.declared.inst.Inst.{Inst}
use Rattle.a64_inst.specs.declared.inst.Inst.TheVariants as insts
use Rattle.a64_inst.specs.LoneForms.{is_lone_mode, is_lone_return, is_resolved}

-- most are one word
abbrev pub is_lone_other : FrameLayout → Inst → Bool"""
