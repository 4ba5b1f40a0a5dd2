#!/usr/bin/env bash
# Holds the words of the program against those of GNU as and of llvm-mc: random instructions on integers, scalar floats and vectors,
# loads and stores, atomic accesses, branches, hints, data and labels. No word may differ from either.
# `Adrp` is left out: of it GNU as leaves the offset to the linker. Branches on conditions go to labels in files of at most 100,000
# items, branches on bits in files of at most 2,000, and addresses are those of labels in files of at most 150,000: in longer
# ones a label could be out of reach. A pair of loads has two registers, since llvm-mc refuses one.
# Usage: bench/words_against_as.sh [ITEMS] [SEED] [FILES]
# So many files of so many items are made, by this seed and those behind it: the program reads no file of more than 16,777,216
# bytes, which some 500,000 items have. With PROGRAM=FILE that program is asked, and none is built.
set -eu
cd "$(dirname "$0")/.."
command -v aarch64-linux-gnu-as >/dev/null || { apt-get update -q >/dev/null; apt-get install -y -q binutils-aarch64-linux-gnu >/dev/null; }
command -v llvm-mc-14 >/dev/null || { apt-get update -q >/dev/null; apt-get install -y -q llvm-14 >/dev/null; }
[ -n "${PROGRAM:-}" ] || (cd crates/a64_cli && rt run </dev/null >/dev/null 2>&1)
program=${PROGRAM:-crates/a64_cli/out/a64_cli}
work=$(mktemp -d)
trap 'rm -rf "$work"' EXIT

# Makes a file of so many items by a seed, for the program and for the assemblers.
make_items() {
    python3 - "$work" "$1" "$2" <<'P'

import random, sys
work, count, seed = sys.argv[1], int(sys.argv[2]), int(sys.argv[3])
random.seed(seed)
MNEMONICS = {
    "Add": "add", "Sub": "sub", "AddS": "adds", "SubS": "subs", "And": "and", "Orr": "orr",
    "Eor": "eor", "AndS": "ands", "AndNot": "bic", "OrrNot": "orn", "EorNot": "eon", "Adc": "adc",
    "Sbc": "sbc", "AdcS": "adcs", "SbcS": "sbcs", "UDiv": "udiv", "SDiv": "sdiv", "Lsl": "lsl",
    "Lsr": "lsr", "Asr": "asr", "Extr": "ror", "SMulH": "smulh", "UMulH": "umulh",
}

def register():
    number = random.randrange(32)
    return "zr" if number == 31 else str(number)

def named(letter, zero):
    """A register in the program's words and in those of assembly: 31 is the zero register, or the stack pointer."""
    number = random.randrange(32)
    if number < 31:
        return f"x{number}", f"{letter}{number}"
    if zero:
        return "xzr", f"{letter}zr"
    return "sp", "sp" if letter == "x" else "wsp"

def bitmask(size):
    """A run of ones, rotated and repeated to the size."""
    period = random.choice([p for p in (2, 4, 8, 16, 32, 64) if p <= size])
    ones, turn = random.randrange(1, period), random.randrange(period)
    run = (1 << ones) - 1
    word = (run >> turn | run << (period - turn)) & ((1 << period) - 1)
    return sum(word << place for place in range(0, size, period))

CONDITIONS = ["Eq", "Ne", "Hs", "Lo", "Mi", "Pl", "Vs", "Vc", "Hi", "Ls", "Ge", "Lt", "Gt", "Le", "Al", "Nv"]
LOGICAL = ["And", "Orr", "Eor", "AndS", "AndNot", "OrrNot", "EorNot"]

def sized():
    return random.choice([(32, "w"), (64, "x")])

def jump(labels):
    if random.randrange(2):
        label = random.randrange(labels)
        return f"Jump L{label}", f"b L{label}"
    offset = 4 * random.randrange(-2**25, 2**25)
    return f"Jump {offset}", f"b .{offset:+d}"

def alone(labels):
    number = register()
    return random.choice([
        ("Nop4", "nop"), ("Ret", "ret"),
        (f"MovToNZCV x{number}", f"msr nzcv, x{number}"), (f"MovFromNZCV x{number}", f"mrs x{number}, nzcv"),
    ])

def target(bits, near):
    """Where a branch of so many bits goes, in the program's words and in those of assembly: to a label only where labels are near."""
    if near and random.randrange(8) == 0:
        return (f"L{random.randrange(labels)}",) * 2
    offset = 4 * random.randrange(-2**(bits - 1), 2**(bits - 1))
    return f"{offset}", f".{offset:+d}"

def branch(labels):
    taken, other = target(19, count <= 100_000), target(26, True)
    size, letter = sized()
    number, cond = register(), random.choice(CONDITIONS)
    kind, test = random.choice([
        (f"Cond({cond})", f"b.{cond.lower()} "), (f"Zero(x{number},{size})", f"cbz {letter}{number}, "),
        (f"NotZero(x{number},{size})", f"cbnz {letter}{number}, "),
    ])
    return f"CondBr {taken[0]} {other[0]} {kind}", f"{test}{taken[1]}\nb {other[1]}"

def branch_on_bit(labels):
    taken, other = target(14, count <= 2_000), target(26, True)
    number, bit = register(), random.randrange(64)
    kind, mnemonic = random.choice([("Z", "tbz"), ("NZ", "tbnz")])
    return f"TestBitAndBranch {kind} {taken[0]} {other[0]} x{number} {bit}", f"{mnemonic} x{number}, #{bit}, {taken[1]}\nb {other[1]}"

def near_label(labels):
    label, number = random.randrange(labels), register()
    if count > 150_000:
        return f"IndirectBr x{number} L{label}", f"br x{number}"
    return random.choice([
        (f"LabelAddress x{number} L{label}", f"adr x{number}, L{label}"),
        (f"ULoad64 x{number} Label(Mach,{label}) -", f"ldr x{number}, L{label}"),
        (f"SLoad32 x{number} Label(Mach,{label}) -", f"ldrsw x{number}, L{label}"),
        (f"FpuLoad128 v7 Label(Mach,{label}) -", f"ldr q7, L{label}"),
    ])

def data(labels):
    number, word, long = register(), random.getrandbits(32), random.getrandbits(64)
    return random.choice([
        (f"Word4 {word}", f".word {word}"), (f"Word8 {long}", f".word {long % 2**32}, {long >> 32}"),
        ("Brk", "brk #0xf000"), ("Udf 3", ".word 0xc11f"), (f"IndirectBr x{number} -", f"br x{number}"),
    ])

def move_wide(labels):
    size, letter = sized()
    op, mnemonic = random.choice([("MovZ", "movz"), ("MovN", "movn"), ("", "movk")])
    rd, bits, shift = register(), random.randrange(65536), 16 * random.randrange(size // 16)
    line = f"MovWide {op} x{rd} {bits},{shift} {size}" if op else f"MovK x{rd} x{rd} {bits},{shift} {size}"
    return line, f"{mnemonic} {letter}{rd}, #{bits}, lsl #{shift}"

def alu_rr_imm12(labels):
    size, letter = sized()
    op = random.choice(["Add", "Sub", "AddS", "SubS"])
    rd, rn = named(letter, op in ("AddS", "SubS")), named(letter, False)
    value = random.randrange(4096) * random.choice([1, 4096])
    return f"AluRRImm12 {op} {size} {rd[0]} {rn[0]} {value}", f"{MNEMONICS[op]} {rd[1]}, {rn[1]}, #{value}"

def alu_rr_imm_logic(labels):
    size, letter = sized()
    op = random.choice(LOGICAL)
    rd, rn, value = named(letter, op == "AndS"), named(letter, True), bitmask(size)
    # The operators that invert have no immediate in assembly: they take that of the complement.
    taken = value ^ ((1 << size) - 1) if op.endswith("Not") else value
    mnemonic = {"AndNot": "and", "OrrNot": "orr", "EorNot": "eor"}.get(op, MNEMONICS[op])
    above = random.getrandbits(32) << 32 if size == 32 else 0
    return f"AluRRImmLogic {op} {size} {rd[0]} {rn[0]} {value + above}", f"{mnemonic} {rd[1]}, {rn[1]}, #{taken}"

def alu_rrr(labels):
    size, letter = sized()
    op = random.choice(list(MNEMONICS))
    if op in ("SMulH", "UMulH"):
        size, letter = 64, "x"
    rd, rn, rm = register(), register(), register()
    return f"AluRRR {op} {size} x{rd} x{rn} x{rm}", f"{MNEMONICS[op]} {letter}{rd}, {letter}{rn}, {letter}{rm}"

def alu_rrrr(labels):
    size, letter = sized()
    op = random.choice(["MAdd", "MSub", "UMAddL", "SMAddL"])
    rd, rn, rm, ra = register(), register(), register(), register()
    long = op.endswith("L")
    wide = "x" if long else letter
    factor = "w" if long else letter
    return f"AluRRRR {op} {32 if long else size} x{rd} x{rn} x{rm} x{ra}", f"{op.lower()} {wide}{rd}, {factor}{rn}, {factor}{rm}, {wide}{ra}"

def alu_rr_imm_shift(labels):
    size, letter = sized()
    op, rd, rn, amount = random.choice(["Lsl", "Lsr", "Asr", "Extr"]), register(), register(), random.randrange(size)
    return f"AluRRImmShift {op} {size} x{rd} x{rn} {amount}", f"{MNEMONICS[op]} {letter}{rd}, {letter}{rn}, #{amount}"

def alu_rrr_shift(labels):
    size, letter = sized()
    op = random.choice(["Add", "Sub", "AddS", "SubS", "Extr", *LOGICAL])
    shifts = {"Extr": ["LSL" if size == 32 else "LSR"]}.get(op, ["LSL", "LSR", "ASR", "ROR"][: 4 if op in LOGICAL else 3])
    rd, rn, rm, shift, amount = register(), register(), register(), random.choice(shifts), random.randrange(size)
    operands = f"{letter}{rd}, {letter}{rn}, {letter}{rm}"
    text = f"extr {operands}, #{amount}" if op == "Extr" else f"{MNEMONICS[op]} {operands}, {shift.lower()} #{amount}"
    return f"AluRRRShift {op} {size} x{rd} x{rn} x{rm} {shift}({amount})", text

def alu_rrr_extend(labels):
    size, letter = sized()
    op = random.choice(["Add", "Sub", "AddS", "SubS"])
    extend = random.choice(["UXTB", "UXTH", "UXTW", "UXTX", "SXTB", "SXTH", "SXTW", "SXTX"])
    rd, rn, rm = named(letter, op in ("AddS", "SubS")), named(letter, False), register()
    second = "x" if size == 64 and extend.endswith("X") else "w"
    return f"AluRRRExtend {op} {size} {rd[0]} {rn[0]} x{rm} {extend}", f"{MNEMONICS[op]} {rd[1]}, {rn[1]}, {second}{rm}, {extend.lower()}"

def bit_rr(labels):
    size, letter = sized()
    op, mnemonic = random.choice([
        ("RBit", "rbit"), ("Clz", "clz"), ("Cls", "cls"), ("Rev16", "rev16"), ("Rev32", "rev32" if size == 64 else "rev"), ("Rev64", "rev"),
    ])
    if op == "Rev64":
        size, letter = 64, "x"
    rd, rn = register(), register()
    return f"BitRR {op} {size} x{rd} x{rn}", f"{mnemonic} {letter}{rd}, {letter}{rn}"

def move(labels):
    rd, rm, fixed = random.randrange(31), register(), random.choice([21, 29, 30])
    return random.choice([
        (f"Mov 32 x{rd} x{rm}", f"mov w{rd}, w{rm}"), (f"Mov 64 x{rm} x{rd}", f"mov x{rm}, x{rd}"),
        (f"Mov 64 x{rd} sp", f"mov x{rd}, sp"), (f"MovFromPReg x{rd} sp", f"mov x{rd}, sp"),
        (f"MovFromPReg x{rm} x{fixed}", f"mov x{rm}, x{fixed}"), (f"MovToPReg x{fixed} x{rm}", f"mov x{fixed}, x{rm}"),
        (f"MovToPReg x{fixed} sp", f"mov x{fixed}, sp"),
    ])

def select(labels):
    rd, rn, rm, place = register(), register(), register(), random.randrange(16)
    cond, inverted = CONDITIONS[place], CONDITIONS[place ^ 1].lower()
    return random.choice([
        (f"CSel x{rd} x{rn} x{rm} {cond}", f"csel x{rd}, x{rn}, x{rm}, {cond.lower()}"),
        (f"CSNeg x{rd} x{rn} x{rm} {cond}", f"csneg x{rd}, x{rn}, x{rm}, {cond.lower()}"),
        (f"CSet x{rd} {cond}", f"csinc x{rd}, xzr, xzr, {inverted}"),
        (f"CSetm x{rd} {cond}", f"csinv x{rd}, xzr, xzr, {inverted}"),
    ])

def compare(labels):
    size, letter = sized()
    rn, rm, flags, cond = register(), register(), random.randrange(16), random.choice(CONDITIONS)
    if random.randrange(2):
        return f"CCmp {size} x{rn} x{rm} {flags} {cond}", f"ccmp {letter}{rn}, {letter}{rm}, #{flags}, {cond.lower()}"
    value = random.randrange(32)
    return f"CCmpImm {size} x{rn} {value} {flags} {cond}", f"ccmp {letter}{rn}, #{value}, #{flags}, {cond.lower()}"

def extend(labels):
    signed, end = random.randrange(2), random.randrange(1, 65)
    start = random.choice([1, 8, 16, 32, random.randrange(1, 65)])
    start = min(start, end) if signed else min(start, end, 32)
    rn = register()
    rd = named("x", False) if not signed and start == 1 else named("x", True)
    if not signed and (start, end) == (32, 64):
        rd = (f"x{random.randrange(31)}",) * 2
    line = f"Extend {rd[0]} x{rn} {'true' if signed else 'false'} {start} {end}"
    if not signed and start == 1:
        return line, f"and {rd[1]}, x{rn}, #1".replace("x", "w").replace("sp", "wsp")
    if not signed and (start, end) == (32, 64):
        return line, f"mov {rd[1]}, x{rn}".replace("x", "w")
    if signed and end > 32:
        return line, f"sbfm {rd[1]}, x{rn}, #0, #{start - 1}"
    return line, f"{'sbfm' if signed else 'ubfm'} {rd[1]}, x{rn}, #0, #{start - 1}".replace("x", "w")

def bitfield(labels):
    size, letter = sized()
    op, rd, rn, turn, top = random.choice(["UBfm", "SBfm", ""]), register(), register(), random.randrange(size), random.randrange(size)
    line = f"BitfieldMove {size} {op} x{rd} x{rn} {turn} {top}" if op else f"BitfieldMoveMod {size} x{rd} x{rd} x{rn} {turn} {top}"
    return line, f"{op.lower() or 'bfm'} {letter}{rd}, {letter}{rn}, #{turn}, #{top}"

def address(labels):
    rd, offset = register(), random.randrange(-2**20 + 1, 2**20)
    return f"Adr x{rd} {offset}", f"adr x{rd}, .{offset:+d}"

# A load or a store: its mnemonic, that with an unscaled offset, the letter of its register, and the bytes of the access.
ACCESSES = {
    "ULoad8": ("ldrb", "ldurb", "w", 1), "SLoad8": ("ldrsb", "ldursb", "x", 1),
    "ULoad16": ("ldrh", "ldurh", "w", 2), "SLoad16": ("ldrsh", "ldursh", "x", 2),
    "ULoad32": ("ldr", "ldur", "w", 4), "SLoad32": ("ldrsw", "ldursw", "x", 4), "ULoad64": ("ldr", "ldur", "x", 8),
    "FpuLoad16": ("ldr", "ldur", "h", 2), "FpuLoad32": ("ldr", "ldur", "s", 4),
    "FpuLoad64": ("ldr", "ldur", "d", 8), "FpuLoad128": ("ldr", "ldur", "q", 16),
    "Store8": ("strb", "sturb", "w", 1), "Store16": ("strh", "sturh", "w", 2),
    "Store32": ("str", "stur", "w", 4), "Store64": ("str", "stur", "x", 8),
    "FpuStore16": ("str", "stur", "h", 2), "FpuStore32": ("str", "stur", "s", 4),
    "FpuStore64": ("str", "stur", "d", 8), "FpuStore128": ("str", "stur", "q", 16),
}
SCALES = {1: "i8", 2: "i16", 4: "i32", 8: "i64", 16: "i8x16"}

def held(letter):
    """The register of an access, in the program's words and in those of assembly."""
    if letter in "wx":
        return named(letter, True)
    number = random.randrange(32)
    return f"v{number}", f"{letter}{number}"

def offset_mode(size):
    """A base and an offset that one instruction holds: whether the offset is unscaled, the mode, and the operand."""
    offset = random.choice([random.randrange(-256, 256), size * random.randrange(4096)])
    # Of the two forms, the program takes the unscaled one where both hold the offset.
    unscaled = -256 <= offset < 256
    base = named("x", False)
    modes = [(f"RegOffset({base[0]},{offset})", base[1]), (f"SPOffset({offset})", "sp"), (f"FPOffset({offset})", "x29"),
             (f"SlotOffset({offset})", "sp"), (f"IncomingArg({-offset})", "sp")]
    mode, register = random.choice(modes)
    return unscaled, mode, f"[{register}, #{offset}]"

def register_mode(size):
    """A base and an index."""
    base, index, shift = named("x", False), register(), size.bit_length() - 1
    extend, letter = random.choice([("UXTW", "w"), ("SXTW", "w"), ("SXTX", "x")])
    return random.choice([
        (False, f"RegReg({base[0]},x{index})", f"[{base[1]}, x{index}]"),
        (False, f"RegScaled({base[0]},x{index})", f"[{base[1]}, x{index}, lsl #{shift}]"),
        (False, f"RegExtended({base[0]},x{index},{extend})", f"[{base[1]}, {letter}{index}, {extend.lower()}]"),
        (False, f"RegScaledExtended({base[0]},x{index},{extend})", f"[{base[1]}, {letter}{index}, {extend.lower()} #{shift}]"),
    ])

def written_mode(size):
    """A mode that stays as it is written."""
    base, offset, scaled = named("x", False), random.randrange(-256, 256), size * random.randrange(4096)
    return random.choice([
        (True, f"Unscaled({base[0]},{offset})", f"[{base[1]}, #{offset}]"),
        (False, f"UnsignedOffset({base[0]},{scaled},{SCALES[size]})", f"[{base[1]}, #{scaled}]"),
        (False, f"SPPreIndexed({offset})", f"[sp, #{offset}]!"),
        (False, f"SPPostIndexed({offset})", f"[sp], #{offset}"),
    ])

def access(labels):
    name = random.choice(list(ACCESSES))
    mnemonic, unscaled_mnemonic, letter, size = ACCESSES[name]
    unscaled, mode, operand = random.choice([offset_mode, register_mode, written_mode])(size)
    rd = held(letter)
    return f"{name} {rd[0]} {mode} -", f"{unscaled_mnemonic if unscaled else mnemonic} {rd[1]}, {operand}"

def literal(labels):
    name, offset = random.choice(["ULoad32", "ULoad64", "SLoad32", "FpuLoad32", "FpuLoad64", "FpuLoad128"]), 4 * random.randrange(-2**18, 2**18)
    mnemonic, _, letter, _ = ACCESSES[name]
    rd = held(letter)
    return f"{name} {rd[0]} Label(PCRel,{offset}) -", f"{mnemonic} {rd[1]}, .{offset:+d}"

def pair(labels):
    (name, mnemonic), offset = random.choice([("LoadP64", "ldp"), ("StoreP64", "stp")]), 8 * random.randrange(-64, 64)
    first, second, base = named("x", True), named("x", True), named("x", False)
    # llvm-mc refuses a load of one register twice, of which no result is certain.
    while name == "LoadP64" and first == second:
        second = named("x", True)
    mode, operand = random.choice([
        (f"SignedOffset({base[0]},{offset})", f"[{base[1]}, #{offset}]"),
        (f"SPPreIndexed({offset})", f"[sp, #{offset}]!"), (f"SPPostIndexed({offset})", f"[sp], #{offset}"),
    ])
    return f"{name} {first[0]} {second[0]} {mode} -", f"{mnemonic} {first[1]}, {second[1]}, {operand}"

def load_address(labels):
    rd, base, index = random.randrange(31), named("x", False), register()
    offset = random.choice([random.randrange(-256, 0), random.randrange(1, 4096)])
    extend, letter = random.choice([("UXTB", "w"), ("SXTW", "w"), ("UXTX", "x"), ("SXTX", "x")])
    return random.choice([
        (f"LoadAddr x{rd} RegOffset({base[0]},{offset})", f"{'sub' if offset < 0 else 'add'} x{rd}, {base[1]}, #{abs(offset)}"),
        (f"LoadAddr x{rd} RegExtended({base[0]},x{index},{extend})", f"add x{rd}, {base[1]}, {letter}{index}, {extend.lower()}"),
    ])

# The letters of the registers that hold floats of so many bits.
FLOATS = {16: "h", 32: "s", 64: "d"}

def vector():
    return random.randrange(32)

def float_move(labels):
    rd, rn, (size, letter) = vector(), vector(), random.choice(list(FLOATS.items()))
    lane, lanes, index = random.choice([("s", "32x2", random.randrange(2)), ("s", "32x4", random.randrange(4)), ("d", "64x2", random.randrange(2))])
    general = named("x" if size == 64 else "w", True) if size == 64 or random.randrange(2) else (f"x{(number := random.randrange(31))}", f"w{number}")
    if general[0] == "sp":
        general = ("xzr", "xzr" if size == 64 else "wzr")
    return random.choice([
        (f"FpuMove32 v{rd} v{rn}", f"fmov s{rd}, s{rn}"), (f"FpuMove64 v{rd} v{rn}", f"fmov d{rd}, d{rn}"),
        (f"FpuMove128 v{rd} v{rn}", f"mov v{rd}.16b, v{rn}.16b"), (f"FpuExtend v{rd} v{rn} {size}", f"fmov {letter}{rd}, {letter}{rn}"),
        (f"FpuMoveFromVec v{rd} v{rn} {index} {lanes}", f"mov {lane}{rd}, v{rn}.{lane}[{index}]"),
        (f"MovToFpu v{rd} {general[0]} {size}", f"fmov {letter}{rd}, {general[1]}"),
    ])

def float_operation(labels):
    rd, rn, rm, ra, (size, letter) = vector(), vector(), vector(), vector(), random.choice(list(FLOATS.items()))
    one, two = random.choice(["Abs", "Neg", "Sqrt"]), random.choice(["Add", "Sub", "Mul", "Div", "Max", "Min"])
    three, cond = random.choice(["MAdd", "MSub", "NMAdd", "NMSub"]), random.choice(CONDITIONS)
    first = f"{letter}{rd}, {letter}{rn}"
    return random.choice([
        (f"FpuRR {one} {size} v{rd} v{rn}", f"f{one.lower()} {first}"),
        (f"FpuRR Cvt32To64 32 v{rd} v{rn}", f"fcvt d{rd}, s{rn}"), (f"FpuRR Cvt64To32 64 v{rd} v{rn}", f"fcvt s{rd}, d{rn}"),
        (f"FpuRRR {two} {size} v{rd} v{rn} v{rm}", f"f{two.lower()} {first}, {letter}{rm}"),
        (f"FpuRRRR {three} {size} v{rd} v{rn} v{rm} v{ra}", f"f{three.lower()} {first}, {letter}{rm}, {letter}{ra}"),
        (f"FpuCmp {size} v{rd} v{rn}", f"fcmp {first}"),
        (f"FpuCSel{size} v{rd} v{rn} v{rm} {cond}", f"fcsel {first}, {letter}{rm}, {cond.lower()}"),
    ])

def conversion(labels):
    rd, rn, sign = vector(), register(), random.choice("IU")
    (bits, letter), (size, place) = sized(), random.choice([(32, "s"), (64, "d")])
    mode, rounding = random.choice([("Minus", "m"), ("Plus", "p"), ("Zero", "z"), ("Nearest", "n")])
    return random.choice([
        (f"FpuToInt F{size}To{sign}{bits} x{rn} v{rd}", f"fcvtz{'s' if sign == 'I' else 'u'} {letter}{rn}, {place}{rd}"),
        (f"IntToFpu {sign}{bits}ToF{size} v{rd} x{rn}", f"{'s' if sign == 'I' else 'u'}cvtf {place}{rd}, {letter}{rn}"),
        (f"FpuRound {mode}{size} v{rd} v{rd}", f"frint{rounding} {place}{rd}, {place}{rd}"),
    ])

def float_immediate(labels):
    rd, rn, imm, (size, letter) = vector(), vector(), random.randrange(256), random.choice(list(FLOATS.items()))
    # The sign, three bits of the exponent of which the first is inverted, and four bits of the fraction.
    exponent = (imm >> 4 & 7 ^ 4) - 3
    value = (-1) ** (imm >> 7) * 2.0 ** exponent * (16 + imm % 16) / 16
    bits, right, left = random.choice([(32, random.randrange(1, 33), random.randrange(32)), (64, random.randrange(1, 65), random.randrange(64))])
    operands = f"v{rd}.2s, v{rn}.2s" if bits == 32 else f"d{rd}, d{rn}"
    return random.choice([
        (f"FpuMoveFPImm v{rd} {imm} {size}", f"fmov {letter}{rd}, #{value}"),
        (f"FpuRRI UShr{bits}({right}) v{rd} v{rn}", f"ushr {operands}, #{right}"),
        (f"FpuRRIMod Sli{bits}({left}) v{rd} v{rd} v{rn}", f"sli {operands}, #{left}"),
    ])

def system(labels):
    key, (kind, text) = random.choice(["AZ", "ASP", "BZ", "BSP"]), random.choice([("None", ""), ("C", " c"), ("J", " j"), ("JC", " jc")])
    return random.choice([
        ("Csdb", "csdb"), ("Fence", "dmb ish"), ("Xpaclri", "xpaclri"), (f"Paci {key}", f"paci{key.lower()}"), (f"Bti {kind}", f"bti{text}"),
    ])

def atomic(labels):
    (ty, suffix, letter), trap = random.choice([("i8", "b", "w"), ("i16", "h", "w"), ("i32", "", "w"), ("i64", "", "x")]), random.choice(["-", random.randrange(256)])
    op = random.choice(["Add", "Clr", "Eor", "Set", "Smax", "Smin", "Umax", "Umin", "Swp"])
    rs, rt, rm, (base, address) = register(), random.randrange(31), register(), named("x", False)
    mnemonic = "swp" if op == "Swp" else f"ld{op.lower()}"
    low, new = 2 * random.randrange(15), 2 * random.randrange(15)
    pair = f"x{low} x{low + 1}"
    return random.choice([
        (f"AtomicRMW {ty} {op} x{rs} x{rt} {base} {trap}", f"{mnemonic}al{suffix} {letter}{rs}, {letter}{rt}, [{address}]"),
        (f"AtomicCAS x{rs} x{rs} x{rm} {base} {ty} {trap}", f"casal{suffix} {letter}{rs}, {letter}{rm}, [{address}]"),
        (f"AtomicCAS128 {pair} {pair} x{new} x{new + 1} {base} {trap}",
         f"caspal x{low}, x{low + 1}, x{new}, x{new + 1}, [{address}]"),
        (f"LoadAcquire {ty} x{rs} {base} {trap}", f"ldar{suffix} {letter}{rs}, [{address}]"),
        (f"StoreRelease {ty} x{rs} {base} {trap}", f"stlr{suffix} {letter}{rs}, [{address}]"),
    ])

# The suffixes of vectors in assembly, and of their lanes alone: each with the bits of a lane and how many there are.
LANES = {"8x8": ("8b", "b", 8, 8), "8x16": ("16b", "b", 8, 16), "16x4": ("4h", "h", 16, 4), "16x8": ("8h", "h", 16, 8),
         "32x2": ("2s", "s", 32, 2), "32x4": ("4s", "s", 32, 4), "64x2": ("2d", "d", 64, 2)}
FLOAT_LANES = ["32x2", "32x4", "64x2"]
SHORT_LANES = [lanes for lanes in LANES if lanes != "64x2"]
FULL_LANES = ["8x16", "16x8", "32x4", "64x2"]
WHOLE = {8: "16b", 16: "8h", 32: "4s", 64: "2d"}
HALF = {8: "8b", 16: "4h", 32: "2s"}

def full(lanes):
    """The lanes of 8 bits that a vector of the same width has."""
    return "16b" if lanes in FULL_LANES else "8b"

def vector_operation(labels):
    rd, rn, rm, ra = vector(), vector(), vector(), vector()
    lanes, floats, short = random.choice(list(LANES)), random.choice(FLOAT_LANES), random.choice(SHORT_LANES)
    whole, saturated = random.choice(FULL_LANES), random.choice(["16x4", "16x8", "32x2", "32x4"])
    element, (index, number) = random.choice([("32x4", ("s", 4)), ("64x2", ("d", 2))])
    idx = random.randrange(number)
    dot, (wide, _, _, _) = random.choice(["Sdot", "Usdot"]), LANES["32x4" if full(lanes) == "16b" else "32x2"]
    def three(ops, size):
        op, (t, _, _, _) = random.choice(ops.split()), LANES[size]
        return f"VecRRR {op} v{rd} v{rn} v{rm} {size}", f"{op.lower()} v{rd}.{t}, v{rn}.{t}, v{rm}.{t}"
    bits, added, product = full(lanes), random.choice(["Fmla", "Fmls"]), random.choice(["And", "Bic", "Orr", "Orn", "Eor"])
    (t, _, _, _), (e, _, _, _) = LANES[floats], LANES[element]
    return random.choice([
        three("Sqadd Uqadd Sqsub Uqsub Cmeq Cmge Cmgt Cmhs Cmhi Add Sub Sshl Ushl Addp", lanes),
        three("Umaxp Mul Umin Smin Umax Smax Urhadd", short), three("Sqrdmulh", saturated),
        three("Fcmeq Fcmgt Fcmge Fadd Fsub Fdiv Fmax Fmin Fmul", floats), three("Zip1 Zip2 Uzp1 Uzp2 Trn1 Trn2", whole),
        (f"VecRRR {product} v{rd} v{rn} v{rm} {lanes}", f"{product.lower()} v{rd}.{bits}, v{rn}.{bits}, v{rm}.{bits}"),
        (f"VecRRRMod Bsl v{rd} v{rd} v{rn} v{rm} {lanes}", f"bsl v{rd}.{bits}, v{rn}.{bits}, v{rm}.{bits}"),
        (f"VecRRRMod {added} v{rd} v{rd} v{rn} v{rm} {floats}", f"{added.lower()} v{rd}.{t}, v{rn}.{t}, v{rm}.{t}"),
        (f"VecRRRMod {dot} v{rd} v{rd} v{rn} v{rm} {lanes}", f"{dot.lower()} v{rd}.{wide}, v{rn}.{bits}, v{rm}.{bits}"),
        (f"VecFmlaElem {added} v{rd} v{rd} v{rn} v{rm} {element} {idx}",
         f"{added.lower()} v{rd}.{e}, v{rn}.{e}, v{rm}.{index}[{idx}]"),
    ])

def vector_misc(labels):
    rd, rn = vector(), vector()
    lanes, floats, across = random.choice(list(LANES)), random.choice(FLOAT_LANES), random.choice(["8x8", "8x16", "16x4", "16x8", "32x4"])
    def two(ops, size, tail=""):
        op, (t, _, _, _) = random.choice(ops.split()), LANES[size]
        return f"VecMisc {op} v{rd} v{rn} {size}", f"{op.lower().removesuffix('0')} v{rd}.{t}, v{rn}.{t}{tail}"
    bits, over, (a, letter, _, _) = full(lanes), random.choice(["Uminv", "Addv"]), LANES[across]
    return random.choice([
        (f"VecMisc Not v{rd} v{rn} {lanes}", f"mvn v{rd}.{bits}, v{rn}.{bits}"), two("Neg Abs", lanes),
        two("Cmeq0 Cmge0 Cmgt0 Cmle0 Cmlt0", lanes, ", #0"), two("Fcmeq0 Fcmge0 Fcmgt0 Fcmle0 Fcmlt0", floats, ", #0.0"),
        two("Rev16", "8x16"), two("Rev32", random.choice(["8x16", "16x8"])), two("Rev64", random.choice(["8x16", "16x8", "32x4"])),
        two("Cnt", random.choice(["8x8", "8x16"])), two("Scvtf Ucvtf", random.choice(["32x4", "64x2"])),
        two("Fabs Fneg Fsqrt Fcvtzs Fcvtzu Frintn Frintz Frintm Frintp", floats),
        (f"VecLanes {over} v{rd} v{rn} {across}", f"{over.lower()} {letter}{rd}, v{rn}.{a}"),
    ])

def vector_length(labels):
    rd, rn, rm, high = vector(), vector(), vector(), random.randrange(2)
    bits, wide = random.choice([(8, 16), (16, 32), (32, 64)])
    read, two, yes = (WHOLE if high else HALF)[bits], "2" if high else "", "true" if high else "false"
    sign, narrow = random.choice("su"), random.choice(["Xtn", "Sqxtn", "Sqxtun", "Uqxtn"] + ["Fcvtn"] * (bits > 8))
    long = random.choice(["Shll"] + ["Fcvtl"] * (bits > 8)) if bits < 64 else "Shll"
    long = "Shll" if long == "Fcvtl" and bits == 8 else long
    tail, pair = f", #{bits}" if long == "Shll" else "", random.choice([8, 16])
    product = "Smull" if sign == "s" else "Umull"
    return random.choice([
        (f"VecExtend {sign.upper()}xtl v{rd} v{rn} {yes} {wide}", f"{sign}xtl{two} v{rd}.{WHOLE[wide]}, v{rn}.{read}"),
        (f"VecRRLong {long}{bits} v{rd} v{rn} {yes}", f"{long.lower()}{two} v{rd}.{WHOLE[wide]}, v{rn}.{read}{tail}"),
        (f"VecRRNarrowLow {narrow} v{rd} v{rn} {bits}", f"{narrow.lower()} v{rd}.{HALF[bits]}, v{rn}.{WHOLE[wide]}"),
        (f"VecRRNarrowHigh {narrow} v{rd} v{rd} v{rn} {bits}", f"{narrow.lower()}2 v{rd}.{WHOLE[bits]}, v{rn}.{WHOLE[wide]}"),
        (f"VecRRPair Addp v{rd} v{rn}", f"addp d{rd}, v{rn}.2d"),
        (f"VecRRRLong {product}{bits} v{rd} v{rn} v{rm} {yes}", f"{product.lower()}{two} v{rd}.{WHOLE[wide]}, v{rn}.{read}, v{rm}.{read}"),
        (f"VecRRRLongMod Umlal{bits} v{rd} v{rd} v{rn} v{rm} {yes}", f"umlal{two} v{rd}.{WHOLE[wide]}, v{rn}.{read}, v{rm}.{read}"),
        (f"VecRRPairLong {sign.upper()}addlp{pair} v{rd} v{rn}", f"{sign}addlp v{rd}.{WHOLE[2 * pair]}, v{rn}.{WHOLE[pair]}"),
    ])

def vector_shift(labels):
    rd, rn, lanes = vector(), vector(), random.choice(list(LANES))
    t, _, bits, _ = LANES[lanes]
    left, right, op = random.randrange(bits), random.randrange(1, bits + 1), random.choice(["Ushr", "Sshr"])
    return random.choice([
        (f"VecShiftImm Shl v{rd} v{rn} {lanes} {left}", f"shl v{rd}.{t}, v{rn}.{t}, #{left}"),
        (f"VecShiftImm {op} v{rd} v{rn} {lanes} {right}", f"{op.lower()} v{rd}.{t}, v{rn}.{t}, #{right}"),
        (f"VecShiftImmMod Sli v{rd} v{rd} v{rn} {lanes} {left}", f"sli v{rd}.{t}, v{rn}.{t}, #{left}"),
    ])

def lane(labels):
    rd, rn, number, lanes = vector(), vector(), register(), random.choice(list(LANES))
    t, letter, bits, count = LANES[lanes]
    general, idx, other = "x" if bits == 64 else "w", random.randrange(128 // bits), random.randrange(128 // bits)
    signed = random.choice([(s, to) for s in SHORT_LANES for to in (32, 64) if not (LANES[s][2] == 32 and to == 32)])
    low = random.randrange(LANES[signed[0]][3])
    return random.choice([
        (f"MovToVec v{rd} v{rd} x{number} {idx} {lanes}", f"mov v{rd}.{letter}[{idx}], {general}{number}"),
        (f"MovFromVec x{number} v{rn} {idx} {bits}", f"umov {general}{number}, v{rn}.{letter}[{idx}]"),
        (f"MovFromVecSigned x{number} v{rn} {low} {signed[0]} {signed[1]}",
         f"smov {'x' if signed[1] == 64 else 'w'}{number}, v{rn}.{LANES[signed[0]][1]}[{low}]"),
        (f"VecDup v{rd} x{number} {lanes}", f"dup v{rd}.{t}, {general}{number}"),
        (f"VecDupFromFpu v{rd} v{rn} {lanes} {idx}", f"dup v{rd}.{t}, v{rn}.{letter}[{idx}]"),
        (f"VecMovElement v{rd} v{rd} v{rn} {idx} {other} {lanes}", f"mov v{rd}.{letter}[{idx}], v{rn}.{letter}[{other}]"),
    ])

def vector_immediate(labels):
    rd, imm, floats = vector(), random.randrange(256), random.choice(FLOAT_LANES)
    exponent = (imm >> 4 & 7 ^ 4) - 3
    value = (-1) ** (imm >> 7) * 2.0 ** exponent * (16 + imm % 16) / 16
    lanes, invert = random.choice(list(LANES)), random.randrange(2)
    t, _, bits, _ = LANES[lanes]
    if random.randrange(3) == 0:
        return f"VecDupFPImm v{rd} {imm} {floats}", f"fmov v{rd}.{LANES[floats][0]}, #{value}"
    if bits == 64:
        spread = sum(0xff << 8 * i for i in range(8) if imm >> i & 1)
        return f"VecDupImm v{rd} {imm},0,false false 64x2", f"movi v{rd}.2d, #{spread:#x}"
    if bits == 8:
        return f"VecDupImm v{rd} {imm},0,false false {lanes}", f"movi v{rd}.{t}, #{imm}"
    ones = bits == 32 and random.randrange(3) == 0
    shift = random.choice([8, 16]) if ones else random.randrange(0, bits, 8)
    # No constructor gives 0 with a shift, nor 255 with eight ones behind it.
    imm = min(imm, 254) if ones else max(imm, 1) if shift else imm
    tail = f", {'msl' if ones else 'lsl'} #{shift}"
    return (f"VecDupImm v{rd} {imm},{shift},{'true' if ones else 'false'} {'true' if invert else 'false'} {lanes}",
            f"{'mvni' if invert else 'movi'} v{rd}.{t}, #{imm}{tail}")

def byte_table(labels):
    rd, rn, rm, low, cond, lanes = vector(), vector(), vector(), random.randrange(16), random.choice(CONDITIONS), random.choice(list(LANES))
    next_one, (base, address), trap = (rn + 1) % 32, named("x", False), random.choice(["-", random.randrange(256)])
    d, n, m, t = f"v{rd}.16b", f"v{rn}.16b", f"v{rm}.16b", LANES[lanes][0]
    return random.choice([
        (f"VecExtract v{rd} v{rn} v{rm} {low}", f"ext {d}, {n}, {m}, #{low}"),
        (f"VecTbl v{rd} v{rn} v{rm}", f"tbl {d}, {{{n}}}, {m}"), (f"VecTblExt v{rd} v{rd} v{rn} v{rm}", f"tbx {d}, {{{n}}}, {m}"),
        (f"VecTbl2 v{rd} v{rn} v{next_one} v{rm}", f"tbl {d}, {{{n}, v{next_one}.16b}}, {m}"),
        (f"VecTbl2Ext v{rd} v{rd} v{rn} v{next_one} v{rm}", f"tbx {d}, {{{n}, v{next_one}.16b}}, {m}"),
        (f"VecLoadReplicate v{rd} {base} {lanes} {trap}", f"ld1r {{v{rd}.{t}}}, [{address}]"),
        (f"VecCSel v{rd} v{rn} v{rm} {cond}", f"b.{cond.lower()} .+12\nmov {d}, {m}\nb .+8\nmov {d}, {n}"),
    ])

def vector_pair(labels):
    store, (bits, letter) = random.randrange(2), random.choice([(64, "d"), (128, "q")])
    rt, rt2, (base, address), offset = vector(), vector(), named("x", False), bits // 8 * random.randrange(-64, 64)
    if not store and rt == rt2:
        rt2 = (rt + 1) % 32
    mode, text = random.choice([(f"SignedOffset({base},{offset})", f"[{address}, #{offset}]"),
                                (f"SPPreIndexed({offset})", f"[sp, #{offset}]!"), (f"SPPostIndexed({offset})", f"[sp], #{offset}")])
    return f"Fpu{'Store' if store else 'Load'}P{bits} v{rt} v{rt2} {mode} -", f"{'stp' if store else 'ldp'} {letter}{rt}, {letter}{rt2}, {text}"

def authenticated(labels):
    key, hint = random.choice(["AZ", "ASP", "BZ", "BSP"]), random.randrange(2)
    text = f"reta{key[0].lower()}" if key.endswith("SP") and not hint else f"auti{key.lower()}\nret"
    return f"AuthenticatedRet {key} {'true' if hint else 'false'}", text

def atomic_loop(labels):
    (ty, suffix, letter), trap = random.choice([("i8", "b", "w"), ("i16", "h", "w"), ("i32", "", "w"), ("i64", "", "x")]), random.choice(["-", random.randrange(256)])
    old, operand, result = f"{letter}27", f"{letter}26", f"{letter}28"
    def loop(body, stored):
        return "\n".join([f"1: ldaxr{suffix} {old}, [x25]", *body, f"stlxr{suffix} w24, {stored}, [x25]", "cbnz x24, 1b"])
    if random.randrange(4) == 0:
        extend = {"i8": ", uxtb", "i16": ", uxth"}.get(ty, "")
        # The comparison is of 64 bits, whatever the type.
        compare = f"cmp x27, {'w26' if extend else 'x26'}{extend}"
        return (f"AtomicCASLoop {ty} {trap} x25 x26 x28 x27 x24",
                "\n".join([f"1: ldaxr{suffix} {old}, [x25]", compare, "b.ne 2f", f"stlxr{suffix} w24, {result}, [x25]", "cbnz x24, 1b", "2:"]))
    op = random.choice("Add Sub And Nand Eor Orr Smax Smin Umax Umin Xchg".split())
    line = f"AtomicRMWLoop {ty} {op} {trap} x25 x26 x27 x24 x28"
    if op == "Xchg":
        return line, loop([], operand)
    if op == "Nand":
        return line, loop([f"and {result}, {old}, {operand}", f"mvn {result}, {result}"], result)
    if op not in ("Smax", "Smin", "Umax", "Umin"):
        return line, loop([f"{op.lower()} {result}, {old}, {operand}"], result)
    sign, short = "s" if op[0] == "S" else "u", ty in ("i8", "i16")
    body = [f"sxt{suffix} w27, w27"] if sign == "s" and short else []
    body.append(f"cmp {old}, {operand}" + (f", {sign}xt{suffix}" if short else ""))
    # The choice is of 64 bits, whatever the type.
    body.append(f"csel x28, x27, x26, {dict(Smin='lt', Smax='gt', Umin='lo', Umax='hi')[op]}")
    return line, loop(body, result)

KINDS = [
    jump, alone, move_wide, alu_rr_imm12, alu_rr_imm_logic, alu_rrr, alu_rrrr, alu_rr_imm_shift, alu_rrr_shift, alu_rrr_extend,
    bit_rr, move, select, compare, extend, bitfield, address, access, access, literal, pair, load_address, branch,
    branch_on_bit, near_label, data, float_move, float_operation, conversion, float_immediate, system, atomic,
    vector_operation, vector_misc, vector_length, vector_shift, lane, vector_immediate, byte_table, vector_pair, authenticated, atomic_loop,
]

def item(labels):
    """A line of the program's file, and one of assembly."""
    return random.choice(KINDS)(labels)

labels = max(1, count // 10)
items = [item(labels) for _ in range(count)]
for label in range(labels):
    items.insert(random.randrange(len(items) + 1), (f"bind L{label}", f"L{label}:"))
with open(f"{work}/items.txt", "w") as ours, open(f"{work}/items.s", "w") as theirs:
    for line, text in items:
        ours.write(line + "\n")
        theirs.write(text + "\n")
P
}

# The words of the object file that an assembler made.
words_of() {
    aarch64-linux-gnu-objcopy -O binary --only-section=.text "$1" "$work/code"
    od -An -v -tx4 -w4 --endian=little "$work/code" | tr -d ' '
}

# How many words of the program differ from those of an assembler, which are these.
differing() {
    paste "$work/ours" "$1" | awk -F '\t' '$1 != $2 { count++ } END { print count + 0 }'
}

all=0 from_as=0 from_mc=0
for ((file = 0; file < ${3:-1}; file++)); do
    make_items "${1:-100000}" $((${2:-1} + file))
    "$program" < "$work/items.txt" | awk '$1 == "word" { print $3 }' > "$work/ours"
    aarch64-linux-gnu-as -march=armv8.6-a+fp16 --no-warn "$work/items.s" -o "$work/as.o"
    llvm-mc-14 -triple=aarch64 -mattr=+v8.6a,+fullfp16 -filetype=obj "$work/items.s" -o "$work/mc.o"
    words_of "$work/as.o" > "$work/as"
    words_of "$work/mc.o" > "$work/mc"
    all=$((all + $(wc -l < "$work/as")))
    from_as=$((from_as + $(differing "$work/as")))
    from_mc=$((from_mc + $(differing "$work/mc")))
done
echo "$all words, $from_as different from those of GNU as, $from_mc from those of llvm-mc"
[ "$all" -gt 0 ] && [ "$from_as" -eq 0 ] && [ "$from_mc" -eq 0 ]
