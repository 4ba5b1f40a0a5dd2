#!/usr/bin/env python3
"""Makes tests/classes.txt: each register field of each instruction, with each kind of register in it.

Usage: tools/classes.py [--check]

A line of LINES is an instruction with a right operand in each field, and behind it its words as GNU as gives
them, or the line on the standard error. A variant has a line, or one for each of its forms that differ in
which registers they take or where these stand. Each register has before its name what the field takes (a
sign of CLASSES, or `=` for the register of the field in front) and where its number stands: bits of the first
word, or `word.bit`. The loads and stores of one register are made of ACCESSES and MODES, whose words lack the
bits of operator and registers.

One field at a time has x16, xzr, sp, a vector register and a virtual register of each class in its place, and
two fields that have to be one register also both at once. Where the field takes it, the words are those of
the line with the number of the register at its place; else the answer is the refusal. No word is asked of
the program.

With --check nothing is written, and the status is 1 where the file is not what the tables give.
"""
import pathlib
import re
import sys

FILE = pathlib.Path(__file__).resolve().parent.parent / "tests" / "classes.txt"

HEAD = """\
# Each register of a line of each instruction in turn replaced by x16, xzr, sp, a vector register, and a virtual
# register of each class. tools/classes.py makes this file.
"""

BAD = "item 0: bad operand"
MODE = "item 0: bad addressing mode"
SCRATCH = "item 0: scratch register in use"
NONE = "not an entry"

# What stands in the place of a register, with its number in a word.
REGISTERS = {"x16": 16, "xzr": 31, "sp": 31, "v5": 5, "%i3": 0, "%f3": 0}

# What a field answers to x16, xzr, sp, a vector register and a virtual register. `yes`: it takes it.
CLASSES = {
    "G": ("yes", BAD, BAD, BAD, BAD),  # x0 to x30
    "Z": ("yes", "yes", BAD, BAD, BAD),  # these, or the zero register
    "S": ("yes", BAD, "yes", BAD, BAD),  # these, or the stack pointer
    "V": (BAD, BAD, BAD, "yes", BAD),  # v0 to v31
    "R": ("yes", "yes", "yes", "yes", BAD),  # any real one
    "M": ("yes", "yes", "move", BAD, BAD),  # what is moved, from the stack pointer by an addition
    "B": ("yes", BAD, "move", BAD, BAD),  # the same of a base
    "Q": (BAD, BAD, "move", BAD, NONE),  # one of x21, x29, x30 and sp, never virtual
    "T": (BAD, BAD, BAD, BAD, NONE),  # one of x21, x29 and x30, never virtual
    "P": ("yes", "yes", "yes", "yes", NONE),  # one that a call changes, never virtual
    "X": (SCRATCH, BAD, "yes", BAD, BAD),  # a base beside an offset in x16
    "Y": (SCRATCH, "yes", BAD, BAD, BAD),  # what is stored, or called, where x16 is needed
    "C": (BAD, "yes", BAD, BAD, BAD),  # an integer that a call leaves on the stack
    "!": (BAD, BAD, BAD, BAD, BAD),  # this register alone, by the others or by the instruction
}

# The loads and stores of one register: the class of the register, sz, v and opc of their rows, the type and
# the size in bytes of what is moved, and the word of a literal 8 bytes ahead, where there is such a form.
ACCESSES = """\
ULoad8 Z 0 0 1 i8 1 -
SLoad8 Z 0 0 2 i8 1 -
ULoad16 Z 1 0 1 i16 2 -
SLoad16 Z 1 0 2 i16 2 -
ULoad32 Z 2 0 1 i32 4 18000040
SLoad32 Z 2 0 2 i32 4 98000040
ULoad64 Z 3 0 1 i64 8 58000040
FpuLoad16 V 1 1 1 i16 2 -
FpuLoad32 V 2 1 1 i32 4 1c000040
FpuLoad64 V 3 1 1 i64 8 5c000040
FpuLoad128 V 0 1 3 i8x16 16 9c000040
Store8 Z 0 0 0 i8 1 -
Store16 Z 1 0 0 i16 2 -
Store32 Z 2 0 0 i32 4 -
Store64 Z 3 0 0 i64 8 -
FpuStore16 V 1 1 0 i16 2 -
FpuStore32 V 2 1 0 i32 4 -
FpuStore64 V 3 1 0 i64 8 -
FpuStore128 V 0 1 2 i8x16 16 -
"""

# Their modes. The word of the access is the last, and has 0 for sz, v, opc and the registers that are named.
MODES = """\
RegReg(S@5:x7,Z@16:x9) = 38206800
RegScaled(S@5:x7,Z@16:x9) = 38207800
RegExtended(S@5:x7,Z@16:x9,UXTW) = 38204800
RegScaledExtended(S@5:x7,Z@16:x9,SXTW) = 3820d800
Unscaled(S@5:x7,-3) = 381fd000
UnsignedOffset(S@5:x7,OFFSET,TYPE) = 39000c00
RegOffset(S@5:x7,-3) = 381fd000
RegOffset(X@1.5:x7,65536) = d2a00030 3830e800
SPOffset(65536) = d2a00030 3830ebe0
FPOffset(-8) = 381f83a0
IncomingArg(8) = 381f83e0
SlotOffset(8) = 380083e0
SPPreIndexed(-16) = 381f0fe0
SPPostIndexed(16) = 380107e0
"""

# The other instructions.
LINES = """\
AluRRR AddS 64 Z@0:x22 Z@5:x0 Z@16:x11 = ab0b0016
AluRRR Eor 64 Z@0:x6 Z@5:x11 Z@16:x29 = ca1d0166
AluRRR AdcS 64 Z@0:x17 Z@5:x9 Z@16:x28 = ba1c0131
AluRRR UDiv 32 Z@0:x24 Z@5:x7 Z@16:x21 = 1ad508f8
AluRRR UMulH 64 Z@0:x17 Z@5:x24 Z@16:x23 = 9bd77f11
AluRRRR UMAddL 32 Z@0:x29 Z@5:x20 Z@16:x19 Z@10:x25 = 9bb3669d
AluRRRR MSub 32 Z@0:x21 Z@5:x24 Z@16:x13 Z@10:x3 = 1b0d8f15
AluRRImm12 Add 32 S@0:x20 S@5:x8 10805248 = 11693914
AluRRImm12 SubS 32 Z@0:x22 S@5:x24 8024064 = 715e9f16
AluRRImmLogic Eor 32 S@0:x18 Z@5:x6 4294934528 = 521140d2
AluRRImmLogic OrrNot 64 S@0:x4 Z@5:x7 2096128 = b26bd0e4
AluRRImmLogic AndS 32 Z@0:x24 Z@5:x0 18446744073676001279 = 72074818
AluRRImmShift Lsl 64 Z@0:x10 Z@5:x15 16 = d370bdea
AluRRImmShift Extr 64 Z@0:x24 Z@5+16:x15 15 = 93cf3df8
AluRRRShift Add 32 Z@0:x17 Z@5:x18 Z@16:x29 ASR(18) = 0b9d4a51
AluRRRShift Orr 64 Z@0:x3 Z@5:x18 Z@16:x0 ROR(27) = aac06e43
AluRRRShift Extr 32 Z@0:x3 Z@5:x2 Z@16:x18 LSL(11) = 13922c43
AluRRRExtend Sub 64 S@0:x7 S@5:x21 Z@16:x6 UXTW = cb2642a7
AluRRRExtend AddS 64 Z@0:x28 S@5:x14 Z@16:x17 UXTX = ab3161dc
BitRR Clz 32 Z@0:x30 Z@5:x2 = 5ac0105e
Mov 64 Z@0:x1 M@16:x25 = aa1903e1
Mov 64 G@0:x28 M@16:sp = 910003fc
Mov 32 G@0:x28 Z@16:x4 = 2a0403fc
MovFromPReg Z@0:x30 Q@16:x21 = aa1503fe
MovFromPReg G@0:x17 Q@16:sp = 910003f1
MovToPReg T@0:x30 M@16:x7 = aa0703fe
MovToPReg T@0:x29 M@16:sp = 910003fd
MovWide MovN Z@0:x11 15873,0 64 = 9287c02b
MovK Z@0:x1 =:x1 9600,16 32 = 72a4b001
CSel Z@0:x10 Z@5:x13 Z@16:x23 Hs = 9a9721aa
CSNeg Z@0:x24 Z@5:x20 Z@16:x11 Lt = da8bb698
CSet Z@0:x13 Vc = 9a9f67ed
CSetm Z@0:x25 Le = da9fc3f9
CCmp 64 Z@5:x6 Z@16:x9 4 Ge = fa49a0c4
CCmpImm 32 Z@5:x20 23 8 Pl = 7a575a88
Extend S@0:x17 Z@5:x26 false 1 64 = 12000351
Extend G@0:x9 Z@16:x12 false 32 64 = 2a0c03e9
Extend Z@0:x30 Z@5:x1 false 16 64 = 53003c3e
Extend Z@0:x8 Z@5:x12 true 32 64 = 93407d88
BitfieldMove 32 SBfm Z@0:x24 Z@5:x7 12 26 = 130c68f8
BitfieldMoveMod 32 Z@0:x6 =:x6 Z@5:x18 17 29 = 33117646
MovToNZCV Z@0:x27 = d51b421b
MovFromNZCV Z@0:x24 = d53b4218
Adr Z@0:x4 -886444 = 1093caa4
Adrp Z@0:x18 598740 = 904916b2
LoadP64 Z@0:x15 Z@10:x4 SignedOffset(S@5:x1,-504) 114 = a960902f
LoadP64 Z@0:x23 Z@10:x13 SPPreIndexed(136) 21 = a9c8b7f7
LoadP64 Z@0:x10 Z@10:x23 SPPostIndexed(312) - = a8d3dfea
StoreP64 Z@0:x18 Z@10:x6 SignedOffset(S@5:x17,232) 143 = a90e9a32
StoreP64 Z@0:x17 Z@10:x12 SPPreIndexed(224) 25 = a98e33f1
StoreP64 Z@0:x22 Z@10:x20 SPPostIndexed(-360) - = a8a9d3f6
FpuLoadP64 V@0:v30 V@10:v13 SignedOffset(S@5:x10,216) 250 = 6d4db55e
FpuLoadP64 V@0:v18 V@10:v28 SPPreIndexed(-72) 61 = 6dfbf3f2
FpuLoadP64 V@0:v15 V@10:v27 SPPostIndexed(256) - = 6cd06fef
FpuStoreP64 V@0:v7 V@10:v29 SignedOffset(S@5:x11,384) 112 = 6d187567
FpuStoreP64 V@0:v27 V@10:v1 SPPreIndexed(80) 159 = 6d8507fb
FpuStoreP64 V@0:v13 V@10:v26 SPPostIndexed(-136) 44 = 6cb7ebed
FpuLoadP128 V@0:v11 V@10:v30 SignedOffset(S@5:x3,576) 133 = ad52786b
FpuLoadP128 V@0:v29 V@10:v2 SPPreIndexed(-96) - = adfd0bfd
FpuLoadP128 V@0:v9 V@10:v7 SPPostIndexed(416) - = accd1fe9
FpuStoreP128 V@0:v27 V@10:v14 SignedOffset(S@5:x6,-176) - = ad3ab8db
FpuStoreP128 V@0:v2 V@10:v19 SPPreIndexed(-336) 176 = adb5cfe2
FpuStoreP128 V@0:v4 V@10:v21 SPPostIndexed(-176) - = acbad7e4
LoadAddr G@0:x9 RegExtended(S@5:x14,Z@16:x25,SXTX) = 8b39e1c9
LoadAddr G@0:x9 RegExtended(S@5:x14,Z@16:x25,UXTB) = 8b3901c9
LoadAddr G@0:x30 Unscaled(S@5:x24,181) = 9102d71e
LoadAddr G@0:x6 Unscaled(S@5:x8,-250) = d103e906
LoadAddr G@0:x2 Unscaled(B@16:x11,0) = aa0b03e2
LoadAddr G@0:x10 UnsignedOffset(S@5:x15,1080,i8) = 9110e1ea
LoadAddr G@1.0:x0 UnsignedOffset(G@1.5:x1,4104,i64) = d2820111 8b110020
LoadAddr G@0:x7 RegOffset(S@5:x13,4095) = 913ffda7
LoadAddr G@1.0:x0 RegOffset(X@1.5:x1,1431655765) = 3200f3f0 8b30e020
LoadAddr G@1.0:x3 SPOffset(65536) = d2a00030 8b30e3e3
LoadAddr G@0:x4 FPOffset(-8) = d10023a4
LoadAddr G@0:x4 IncomingArg(8) = d10023e4
LoadAddr G@0:x4 SlotOffset(8) = 910023e4
LoadAddr G:x0 RegReg(S:x1,Z:x2) ! item 0: bad addressing mode
LoadAddr G:x0 RegScaled(S:x1,Z:x2) ! item 0: bad addressing mode
LoadAddr G:x0 RegScaledExtended(S:x1,Z:x2,SXTX) ! item 0: bad addressing mode
LoadAddr G:x0 Label(PCRel,8) ! item 0: bad addressing mode
LoadAddr G:x0 SPPreIndexed(16) ! item 0: bad addressing mode
LoadAddr G:x0 SPPostIndexed(16) ! item 0: bad addressing mode
AtomicRMW i8 Swp Z@16:x9 G@0:x27 S@5:x23 - = 38e982fb
AtomicRMW i32 Eor Z@16:x8 G@0:x30 S@5:x4 - = b8e8209e
AtomicRMWLoop i16 Add - !:x25 !:x26 !:x27 !:x24 !:x28 = 485fff3b 0b1a037c 4818ff3c b5ffffb8
AtomicRMWLoop i16 Umin 198 !:x25 !:x26 !:x27 !:x24 !:x28 = 485fff3b 6b3a237f 9a9a337c 4818ff3c b5ffff98
AtomicRMWLoop i16 Xchg 26 !:x25 !:x26 !:x27 !:x24 Z:x1 = 485fff3b 4818ff3a b5ffffd8
AtomicCAS Z@16:x9 =:x9 Z@0:x8 S@5:x25 i32 17 = 88e9ff28
AtomicCAS128 !:x10 !:x11 !:x10 !:x11 !:x4 !:x5 S@5:x24 10 = 486aff04
AtomicCASLoop i64 - !:x25 !:x26 !:x28 !:x27 !:x24 = c85fff3b eb1a037f 54000061 c818ff3c b5ffff98
AtomicCASLoop i16 234 !:x25 !:x26 !:x28 !:x27 !:x24 = 485fff3b eb3a237f 54000061 4818ff3c b5ffff98
LoadAcquire i32 Z@0:x27 S@5:x21 - = 88dffebb
StoreRelease i32 Z@0:x9 S@5:x26 156 = 889fff49
FpuMove32 V@0:v13 V@5:v1 = 1e20402d
FpuMove64 V@0:v18 V@5:v24 = 1e604312
FpuMove128 V@0:v22 V@5+16:v10 = 4eaa1d56
FpuMoveFromVec V@0:v10 V@5:v23 1 32x2 = 5e0c06ea
FpuExtend V@0:v16 V@5:v21 64 = 1e6042b0
FpuRR Neg 32 V@0:v27 V@5:v0 = 1e21401b
FpuRRR Div 64 V@0:v24 V@5:v0 V@16:v20 = 1e741818
FpuRRI UShr64(64) V@0:v29 V@5:v0 = 7f40041d
FpuRRI UShr32(18) V@0:v16 V@5:v25 = 2f2e0730
FpuRRIMod Sli32(6) V@0:v3 =:v3 V@5:v6 = 2f2654c3
FpuRRIMod Sli64(61) V@0:v21 =:v21 V@5:v24 = 7f7d5715
FpuRRRR MAdd 16 V@0:v24 V@5:v4 V@16:v0 V@10:v29 = 1fc07498
FpuCmp 16 V@5:v15 V@16:v18 = 1ef221e0
FpuToInt F64ToU32 Z@0:x1 V@5:v25 = 1e790321
IntToFpu U32ToF64 V@0:v1 Z@5:x4 = 1e630081
FpuCSel16 V@0:v11 V@5:v14 V@16:v9 Hi = 1ee98dcb
FpuCSel32 V@0:v16 V@5:v8 V@16:v7 Pl = 1e275d10
FpuCSel64 V@0:v23 V@5:v1 V@16:v27 Lt = 1e7bbc37
FpuRound Minus64 V@0:v24 V@5:v10 = 1e654158
MovToFpu V@0:v13 Z@5:x20 64 = 9e67028d
FpuMoveFPImm V@0:v8 173 32 = 1e35b008
MovToVec V@0:v30 =:v30 Z@5:x26 3 32x2 = 4e1c1f5e
MovFromVec Z@0:x14 V@5:v0 4 8 = 0e093c0e
MovFromVec Z@0:x21 V@5:v3 0 64 = 4e083c75
MovFromVecSigned Z@0:x27 V@5:v2 3 8x16 32 = 0e072c5b
VecDup V@0:v27 Z@5:x2 64x2 = 4e080c5b
VecDupFromFpu V@0:v13 V@5:v4 8x8 10 = 0e15048d
VecDupFPImm V@0:v17 182 32x4 = 4f05f6d1
VecDupImm V@0:v23 119,8,false false 16x8 = 4f03a6f7
VecExtend Uxtl V@0:v10 V@5:v29 true 64 = 6f20a7aa
VecMovElement V@0:v8 =:v8 V@5:v29 1 2 32x4 = 6e0c47a8
VecRRLong Shll32 V@0:v15 V@5:v7 false = 2ea138ef
VecRRNarrowLow Sqxtn V@0:v4 V@5:v14 32 = 0ea149c4
VecRRNarrowHigh Uqxtn V@0:v11 =:v11 V@5:v4 8 = 6e21488b
VecRRPair Addp V@0:v1 V@5:v9 = 5ef1b921
VecRRRLong Smull32 V@0:v4 V@5:v13 V@16:v12 false = 0eacc1a4
VecRRRLongMod Umlal16 V@0:v18 =:v18 V@5:v21 V@16:v0 true = 6e6082b2
VecRRPairLong Saddlp16 V@0:v8 V@5:v6 = 4e6028c8
VecRRR Orn V@0:v15 V@5:v17 V@16:v10 8x8 = 0eea1e2f
VecRRR Fadd V@0:v18 V@5:v21 V@16:v26 64x2 = 4e7ad6b2
VecRRR Trn2 V@0:v3 V@5:v18 V@16:v19 16x8 = 4e536a43
VecRRRMod Usdot V@0:v19 =:v19 V@5:v0 V@16:v29 8x8 = 0e9d9c13
VecRRRMod Bsl V@0:v0 =:v0 V@5:v15 V@16:v8 32x4 = 6e681de0
VecFmlaElem Fmls V@0:v11 =:v11 V@5:v15 V@16:v22 64x2 1 = 4fd659eb
VecMisc Fcmeq0 V@0:v3 V@5:v4 32x2 = 0ea0d883
VecMisc Not V@0:v29 V@5:v10 16x4 = 2e20595d
VecLanes Addv V@0:v30 V@5:v24 16x8 = 4e71bb1e
VecShiftImm Ushr V@0:v26 V@5:v23 8x16 5 = 6f0b06fa
VecShiftImmMod Sli V@0:v16 =:v16 V@5:v27 16x4 8 = 2f185770
VecExtract V@0:v20 V@5:v12 V@16:v28 0 = 6e1c0194
VecTbl V@0:v9 V@5:v30 V@16:v10 = 4e0a03c9
VecTblExt V@0:v7 =:v7 V@5:v19 V@16:v16 = 4e101267
VecTbl2 V@0:v28 !:v23 !:v24 V@16:v10 = 4e0a22fc
VecTbl2Ext V@0:v6 =:v6 !:v0 !:v1 V@16:v26 = 4e1a3006
VecLoadReplicate V@0:v15 S@5:x17 16x8 200 = 4d40c62f
VecCSel V@1.0+3.0:v2 V@3.5+3.16:v0 V@1.5+1.16:v10 Eq = 54000060 4eaa1d42 14000002 4ea01c02
CondBr -200532 -47307776 Zero(Z@0:x10,32) = 34e7856a 174b8900
CondBr 0 0 NotZero(Z@0:x24,64) = b5000018 14000000
TestBitAndBranch NZ 8028 -133699112 Z@0:x6 2 = 3710fae6 1601fa76
TrapIf Zero(Z@0:x14,64) 11 = b400002e 0000c11f
TrapIf NotZero(Z@0:x19,32) 1 = 35000033 0000c11f
IndirectBr Z@5:x2 L0 = d61f0040
Args R:x14=R:x17 =
Args R:v0=R:v25,R:x14=R:x17 =
Rets R:x10=R:v11 =
Rets R:v3=R:v9,R:x4=R:v2 =
DummyUse R:x7 =
JTSequence L0 - Z@1.5:x0 G@2.0+3.5+4.0+4.5+5.5:x1 G@0.0+1.0+1.16+3.0+3.16+4.16:x2\\nbind L0 = d2800002 9a823002 10000081 b8a25822 8b020021 d61f0020 00000004
LabelAddress Z@0:x3 L0\\nbind L0 = 10000023
LoadExtNameGot G@0.0+1.0+1.5:x14 4557 = 9000000e f94001ce
LoadExtNameNear G@0.0+1.0+1.5:x2 39542 48173 = 90000002 91000042
LoadExtNameFar G@0:x8 17101 23645 = 58000048 14000003 00000000 00000000
flag enable_probestack\\nStackProbeLoop G@0.0+0.5+1.16+2.5:x0 Z@2.16:x1 4096 = d1400400 b8206bff ab01001f 54ffffac 14000001
Call 3 R:x0=R:v1 - - SystemV SystemV 0 false - = 94000000
Call 3 - R:x2=reg(R:v3,i64) - SystemV SystemV 0 false - = 94000000
Call 3 - C@1.0:x2=stack(8,i64) - SystemV SystemV 0 false - = 94000000 f84083e2
Call 3 - V@1.0:v3=stack(8,f64) - SystemV SystemV 0 false - = 94000000 fc4083e3
Call 3 - C@2.0:x2=stack(65536,i8) - SystemV SystemV 0 false - = 94000000 d2a00030 3870ebe2
Call 3 - - P:x7 SystemV SystemV 0 false - = 94000000
Call 3 R:x0=R:v1 R:x4=reg(R:v3,i64),C:x2=stack(8,i64) P:x7 SystemV Tail 0 true 5 = 94000000
CallInd Z@5:x6 R:v28=R:x20 R:x13=reg(R:x17,f64) P:x12 AppleAarch64 Tail 0 false - = d63f00c0
CallInd Z@5:x6 - C@1.0:x2=stack(8,i64) P:x12 AppleAarch64 Tail 0 true - = d63f00c0 f84083e2
CallInd Z@5:x6 - V@1.0:v3=stack(8,f32) P:v12 AppleAarch64 Tail 0 true - = d63f00c0 bc4083e3
ReturnCall 4086 R:x26=R:v2 0 ASP false = 14000000
ReturnCall 4086 R:v26=R:x2,R:x3=R:x4 0 ASP false = 14000000
ReturnCallInd Z@5:x21 R:x26=R:v2 0 BZ false = d61f02a0
frame tail_args_size 8388616\\nReturnCallInd Y@3.5:x21 - 0 - false = 52800110 72a01010 8b3063ff d61f02a0
"""

FIELD = re.compile(r"([A-Z=!])(@[0-9.+]+)?:(x\d+|xzr|sp|v\d+)")


def number_of(register):
    """The number of a register in a word."""
    return 31 if register in ("xzr", "sp") else int(register[1:])


def places_of(text):
    """Where the number of a register stands: which word, and from which bit on."""
    for place in text[1:].split("+") if text else []:
        word, _, bit = place.rpartition(".")
        yield int(word or 0), int(bit)


def with_number(words, places, number):
    """The words with a number at these places."""
    words = list(words)
    for word, bit in places_of(places):
        words[word] = words[word] & ~(31 << bit) | number << bit
    return words


def moved(words, register):
    """The words of a move of this register to that of the first word: from the stack pointer an addition."""
    rd = words[0] & 31
    return [0x910003E0 | rd if register == "sp" else 0xAA0003E0 | number_of(register) << 16 | rd]


def answer_of(kind, register):
    """What a field of this class answers to a register."""
    return CLASSES[kind][min(list(REGISTERS).index(register), 4)]


def text_of(line, chosen, register):
    """The line with a register in the chosen fields, and without marks."""
    fields = list(FIELD.finditer(line))
    return "".join(
        line[0 if i == 0 else fields[i - 1].end() : field.start()]
        + (register if i in chosen else field[3])
        for i, field in enumerate(fields)
    ) + line[fields[-1].end() if fields else 0 :]


def case_of(text, result):
    """The case of a line: its words, or the line on the standard error."""
    if isinstance(result, str):
        return f"{text} ! {result}"
    return " ".join([text, "=", *(f"{word:08x}" for word in result)])


def result_of(line, result, fields, chosen, register):
    """What the line gives with a register in the chosen fields."""
    field = fields[chosen[0]]
    tied = field[1] == "=" or fields[chosen[0] + 1 : chosen[0] + 2] and fields[chosen[0] + 1][1] == "="
    if tied and len(chosen) == 1:
        return BAD
    answer = answer_of(field[1], register)
    if answer == NONE:
        number = line[: field.start()].count("\\n") + 1
        return f"line {number}: {NONE}"
    if answer not in ("yes", "move") or isinstance(result, str):
        return result if answer in ("yes", "move") else answer
    if answer == "move" or field[1] in "MB":
        return moved(result, register)
    return with_number(result, field[2], REGISTERS[register])


def chosen_of(fields):
    """The fields that are replaced at once: each alone, and two that have to be one register."""
    for i, field in enumerate(fields):
        yield [i]
        if field[1] == "=":
            yield [i - 1, i]


def cases_of(line, result):
    """The cases of a line: itself, and with each register in each of its fields."""
    fields = list(FIELD.finditer(line))
    cases = {text_of(line, [], ""): result}
    for chosen in chosen_of(fields):
        for register in REGISTERS:
            text = text_of(line, chosen, register)
            cases.setdefault(text, result_of(line, result, fields, chosen, register))
    return [case_of(text, result) for text, result in cases.items()]


def read(line):
    """A line of a table, and its words or the line on the standard error."""
    if " ! " in line:
        return tuple(line.split(" ! "))
    text, _, words = line.rpartition(" =")
    return text, [int(word, 16) for word in words.split()]


def access_of(access, mode):
    """The line of an access with a mode, and its words."""
    name, kind, sz, v, opc, moved_type, size, _ = access.split()
    text, words = read(mode)
    words[-1] |= int(sz) << 30 | int(v) << 26 | int(opc) << 22
    needs_x16 = len(words) > 1
    kind = "Y" if needs_x16 and kind == "Z" and name.startswith("Store") else kind
    text = text.replace("OFFSET", str(3 * int(size))).replace("TYPE", moved_type)
    line = f"{name} {kind}@{len(words) - 1}.0:{'v' if kind == 'V' else 'x'}6 {text} -"
    for field in FIELD.finditer(line):
        words = with_number(words, field[2], number_of(field[3]))
    return line, words


def literal_of(access):
    """The line of an access to a literal, and its word, or that there is no such mode."""
    name, kind, *_, word = access.split()
    line = f"{name} {kind}@0:{'v' if kind == 'V' else 'x'}6 Label(PCRel,8) -"
    return line, MODE if word == "-" else [int(word, 16) | 6]


def lines():
    """All lines with their answers."""
    yield from map(read, LINES.splitlines())
    for access in ACCESSES.splitlines():
        yield from (access_of(access, mode) for mode in MODES.splitlines())
        yield literal_of(access)


def name_of(line):
    """The name of the instruction of a line."""
    return re.search(r"(?:^|\\n)([A-Z]\w*)", line)[1]


def content():
    """The file."""
    parts = [HEAD]
    before = None
    for line, result in lines():
        name = name_of(line)
        parts.append(f"\n# `{name}`\n" if name != before else "")
        parts.append("\n".join(cases_of(line, result)) + "\n")
        before = name
    return "".join(parts)


def main():
    """Makes the file, or holds it against what it should be."""
    if sys.argv[1:] not in ([], ["--check"]):
        sys.exit(__doc__)
    text = content()
    if not sys.argv[1:]:
        FILE.write_text(text)
    elif not FILE.exists() or FILE.read_text() != text:
        sys.exit(f"tests/{FILE.name} is not what its tables give: run tools/classes.py")


main()
