"""Holds texts of `list` against llvm-mc. Run by bench/texts_against_llvm_mc.sh, which says what it does.

Usage: texts_against_llvm_mc.py more FOLDER COUNT SEED     appends random lines to FOLDER/items.txt
       texts_against_llvm_mc.py hold FOLDER                holds FOLDER/list against the words of FOLDER/asm
"""
import collections
import itertools
import pathlib
import random
import re
import struct
import subprocess
import sys

ASSEMBLER = ["llvm-mc-14", "-triple=aarch64", "-mattr=+v8.5a,+fullfp16,+i8mm", "-filetype=obj"]
BYTES = {"8": 1, "16": 2, "32": 4, "64": 8, "128": 16}


# Lines that the other generator does not make.

def register():
    return random.choice([*(f"x{number}" for number in range(31)), "xzr"])


def base():
    return random.choice([*(f"x{number}" for number in range(31)), "sp"])


def far_access():
    """An access whose offset is made in x16 first."""
    name = random.choice(["ULoad8", "SLoad16", "ULoad32", "ULoad64", "Store8", "Store64", "FpuLoad128", "FpuStore16"])
    rd = f"v{random.randrange(32)}" if name.startswith("Fpu") else random.choice(["x1", "x15", "x28", "xzr"])
    at = random.choice(["x0", "x2", "x30", "sp"])
    return f"{name} {rd} RegOffset({at},{far_offset()}) -"


def far_offset():
    offset = random.choice([random.getrandbits(17), random.getrandbits(33), random.getrandbits(62), 0xff0 << random.randrange(50)])
    return 65537 + 2 * offset if random.randrange(2) else -257 - offset


def far_address():
    """An address that is made in x16 or x17 first."""
    if random.randrange(2):
        return f"LoadAddr x{random.randrange(16)} RegOffset({random.choice(['x0', 'x5', 'sp'])},{far_offset()})"
    return f"LoadAddr x{random.randrange(16)} UnsignedOffset(x{random.randrange(16)},{4104 + 8 * random.randrange(3000)},i64)"


def small():
    rd, rn, offset = register(), register(), 4 * random.randrange(-2**18, 2**18)
    return random.choice([
        f"Adrp {rd} {random.randrange(-2**20 + 1, 2**20)}", f"Call {random.randrange(9)} - - - SystemV SystemV 0 false -",
        f"CallInd {rd} - - - SystemV SystemV 0 false -", f"AluRRImm12 {random.choice(['Add', 'Sub'])} 64 {base()} {base()} 0",
        f"AluRRImm12 Add 32 {base()} {base()} 0", f"LoadAddr x{random.randrange(31)} Unscaled({base()},0)", "SequencePoint", "Nop0",
        f"TrapIf Zero({rd},64) 3", "EmitIsland 0", f"DummyUse {rd}", f"Args {rd}={rn}", f"Rets {rd}={rn}",
        f"CondBr {offset} L0 NotZero({rd},32)", f"JTSequence L0 L0 {rd} x1 x2" if rd != "x2" else "Csdb",
        f"LoadExtNameGot x1 {random.randrange(9)}", f"LoadExtNameNear x1 3 -8", f"LoadExtNameFar x1 3 8",
        "ReturnCall 3 - 0 - false", f"ReturnCallInd {rd} - 0 - false",
        f"AuthenticatedRet {random.choice(['AZ', 'ASP', 'BZ', 'BSP'])} {random.choice(['true', 'false'])}",
    ])


def more(folder, count, seed):
    random.seed(seed)
    with open(folder / "items.txt", "a") as file:
        for _ in range(count):
            file.write(random.choice([far_access, far_address, small, small])() + "\n")


# What stands in texts and is written otherwise in assembly, whatever the instruction.

# Both registers of these are printed where one is written in assembly: the result, and what it was before.
TIED = ["movk", "bfm", "sli", "fmla", "fmls", "bsl", "sdot", "usdot", "umlal", "umlal2", "tbx",
        "xtn2", "sqxtn2", "sqxtun2", "uqxtn2", "fcvtn2", "casal", "casalb", "casalh"]


def once(text):
    """Assembly writes a register that is result and operand once."""
    name, _, operands = text.partition(" ")
    if name == "caspal":
        return re.sub(r"^caspal (\w+, \w+, )\1", r"caspal \1", text)
    if name in TIED or name == "mov" and "], " in operands:
        return re.sub(r"^(\w+) ([^,]+, )\2", r"\1 \2", text)
    return text


def float_of(bits, digits):
    """Assembly writes an immediate float as its number; the text has its bits."""
    form, letter = {4: ("<H", "<e"), 8: ("<I", "<f"), 16: ("<Q", "<d")}[digits]
    return repr(struct.unpack(letter, struct.pack(form, bits))[0])


def flags_of(letters):
    """Assembly writes flags as a number; the text has a letter each, which is a capital where the flag is set."""
    return str(sum(8 >> place for place, letter in enumerate(letters) if letter.isupper()))


def rewritten(text):
    """An instruction of a text as assembly has it."""
    text = once(text)
    if text.startswith(("fmov ", "ccmp ")):
        text = re.sub(r"#0x([0-9a-f]+)", lambda found: f"#{float_of(int(found[1], 16), len(found[1]))}", text)
        text = re.sub(r"#([nN][zZ][cC][vV])", lambda found: f"#{flags_of(found[1])}", text)
    # A distance from the instruction; `adrp` takes that of the pages.
    text = re.sub(r"^adrp (\w+), pc\+", r"adrp \1, ", text)
    text = re.sub(r"pc\+(-?\d+)", r". + \1", text)
    # An extended register is named at its own size in assembly, and at the instruction's in the text. In modes it is so in both.
    text = re.sub(r"^((?:add|sub)s? \w+, \w+, )x(\d+|zr), ([US]XT[BHW])$", r"\1w\2, \3", text)
    return text


def parts_of(text, place, labels):
    """The instructions of an item's text. A label is a distance from the instruction that names it."""
    # Between the parts of `LoadAddr` stands nothing, in Cranelift too.
    text = re.sub(r"(?<=\d)(?=(?:movk|add|sub) )", " ; ", text)
    if text.startswith("data.i64 "):
        number = int(text.split(" ")[1])
        return [f".word {number % 2**32}", f".word {number >> 32}"]
    text = re.sub(r"^data\.i32 ", ".word ", text)
    parts = []
    for number, part in enumerate(text.split(" ; ")):
        here = place + 4 * number
        part = re.sub(r"^label_address ", "adr ", part)
        part = re.sub(r"\blabel\(?(\d+)\)?", lambda found: f". + {labels[int(found[1])] - here}", part)
        parts.append(rewritten(part))
    return parts


# Texts that are no assembly. No words stand for the last of them.
NO_ASSEMBLY = [
    "AtomicRMWLoop", "AtomicCASLoop", "VecCSel", "TrapIf", "JTSequence", "LoadExtNameGot", "LoadExtNameNear", "LoadExtNameFar",
    "ReturnCall", "ReturnCallInd", "Args", "Rets", "DummyUse", "SequencePoint", "Nop0", "EmitIsland",
]


def name_of(line):
    return line.split(" ")[0]


def is_twice(line):
    """A pair of loads into one register, of which no result is certain: llvm-mc refuses it."""
    return re.match(r"(Fpu)?LoadP(64|128) (\w+) \3 ", line)


def is_there(line):
    """An address that is in its register already: there is no word, and the text is a `mov`."""
    found = re.match(r"LoadAddr (\w+) \w+\((\w+),0(?:,\w+)?\)$", line)
    return found and found[1] == found[2]


def is_left_out(line):
    return name_of(line) in NO_ASSEMBLY or is_twice(line) or is_there(line)


# Texts that llvm-mc refuses, or that say another instruction than the one that they are of; as Cranelift's.

def is_loose(line):
    """An access whose offset both forms hold: the word has the unscaled one, and only a written `Unscaled` of an integer access says so."""
    found = re.match(r"(Fpu|[US])?(?:Load|Store)(\d+) \w+ (\w+)\((?:\w+,)?(-?\d+)\)", line)
    if not found:
        return False
    offset = -int(found[4]) if found[3] == "IncomingArg" else int(found[4])
    modes = ["RegOffset", "SPOffset", "FPOffset", "SlotOffset", "IncomingArg"] + ["Unscaled"] * (found[1] == "Fpu")
    return found[3] in modes and 0 <= offset < 256 and offset % BYTES[found[2]] == 0


def is_short(line):
    """An unsigned `Extend` whose word is a move of bits at 32 bits, to more than that."""
    found = re.match(r"Extend \w+ \w+ false (\d+) (\d+)$", line)
    return found and int(found[2]) > 32 and int(found[1]) not in (1, 8, 16) and (found[1], found[2]) != ("32", "64")


def is_half(line):
    """Vectors of 64 bits."""
    return line.split(" ")[-1] in ("8x8", "16x4", "32x2")


def is_like(pattern):
    return lambda line: re.match(pattern, line)


def put(pattern, text):
    return lambda given, line: re.sub(pattern, text, given)


def dot(text, line):
    """The lanes of a dot product: bytes, of which four each are one lane of the sums."""
    sums, factors = ("2s", "8b") if is_half(line) else ("4s", "16b")
    return ", ".join(operand.replace("4s", sums if place < 2 else factors) for place, operand in enumerate(text.split(", ")))


def choice(text, line):
    """The instruction whose other name is `cset` or `csetm`, with the inverted condition."""
    name, result, condition = re.split(", | ", text)
    return f"{dict(cset='csinc', csetm='csinv')[name]} {result}, xzr, xzr, {dict(al='nv', nv='al')[condition]}"


MENDS = [
    ("an offset that both forms hold, whose word is `ldur`", is_loose, put(r"^(ld|st)r", r"\1ur")),
    ("`Extr` of registers, whose word is `ror`", is_like("AluRRR Extr "), put("^extr", "ror")),
    ("`Extr` by an amount, whose word is `ror`", is_like("AluRRImmShift Extr "), put("^extr", "ror")),
    ("`Extr` of two registers, whose amount has no shift", is_like("AluRRRShift Extr "), put(r"LS[LR] (\d+)", r"#\1")),
    ("`rev32` at 32 bits, whose word is `rev`", is_like("BitRR Rev32 32 "), put("rev32", "rev")),
    ("an unsigned `Extend` to more than 32 bits, whose word has 32", is_short, put(r"\bx(?=\d|zr)", "w")),
    ("a signed `Extend` from 32 bits to 32", is_like(r"Extend \w+ \w+ true 32 32$"), put(r"^sxtw (\w+, \w+)", r"sbfx \1, #0, #32")),
    ("`mov` for the addition of 0 to a register other than `sp`", is_like(r"AluRRImm12 Add 64 x\d+ x\d+ 0$"),
     put("^mov (.*)", r"add \1, #0")),
    ("`retaasp` and `retabsp`, whose words are `retaa` and `retab`", is_like("AuthenticatedRet .SP false"), put("sp$", "")),
    ("`retaaz` and `retabz`, whose words are `autiaz` or `autibz` and `ret`", is_like("AuthenticatedRet .Z false"),
     put("^reta(.*)", r"auti\1 ; ret")),
    ("`Bsl` of 64 bits, whose text has 128", lambda line: line.startswith("VecRRRMod Bsl ") and is_half(line), put("16b", "8b")),
    ("`Sdot` and `Usdot`, whose operands are all `.4s`", is_like("VecRRRMod (Sdot|Usdot) "), dot),
    ("`cset` and `csetm` of `al` and `nv`", is_like(r"CSetm? \w+ (Al|Nv)$"), choice),
]


def mend_of(line):
    """The mend that a line wants, if any."""
    return next((mend for mend in MENDS if mend[1](line)), None)


# Which of the names `fp`, `lr` and `sp` mean a register of 32 bits, the item says and not its text: each reading is tried.
NARROW = {"fp": "w29", "lr": "w30", "sp": "wsp"}


def short_bitmask(part):
    """A text at 32 bits has all 64 bits of its bitmask, of which the lower 32 count; assembly has those alone."""
    return re.sub(r"^((?:ands?|orr|eor|bic|orn|eon) w\w+, w\w+, #)(\d+)$", lambda found: found[1] + str(int(found[2]) % 2**32), part)


def readings(part):
    """A part as it stands, and with each choice of its names `fp`, `lr` and `sp` at 32 bits."""
    pieces = re.split(r"\b(fp|lr|sp)\b", part)
    choices = [[piece, NARROW[piece]] if place % 2 else [piece] for place, piece in enumerate(pieces)]
    return [short_bitmask("".join(choice)) for choice in itertools.product(*choices)]


def assembled(folder, lines):
    """The word of each line, or None where llvm-mc refuses it."""
    source, target = folder / "texts.s", folder / "texts.o"
    refused = set()
    for _ in range(3):
        source.write_text("\n".join(".word 0" if number in refused else line for number, line in enumerate(lines)) + "\n")
        ran = subprocess.run([*ASSEMBLER, source, "-o", target], capture_output=True, text=True)
        found = {int(number) - 1 for number in re.findall(r"^[^\n:]*:(\d+):\d+: error:", ran.stderr, re.M)}
        if ran.returncode == 0:
            break
        refused |= found
    subprocess.run(["llvm-objcopy-14", "-O", "binary", "--only-section=.text", target, folder / "texts.bin"], check=True)
    words = [word for (word,) in struct.iter_unpack("<I", (folder / "texts.bin").read_bytes())]
    assert len(words) == len(lines), f"{len(words)} words of {len(lines)} lines"
    return [None if number in refused else word for number, word in enumerate(words)]


def read_report(folder):
    places, labels, words = [], {}, {}
    for row in (folder / "asm").read_text().splitlines():
        kind, *rest = row.split(" ")
        if kind == "item":
            places.append(int(rest[1]))
        elif kind == "label":
            labels[int(rest[0][1:])] = int(rest[1])
        elif kind == "word":
            words[int(rest[0])] = int(rest[1], 16)
    return places, labels, words


class Case:
    """An item and its text, and of each of its instructions the readings of the text as it stands and as it is mended."""

    def __init__(self, line, text, place, labels, ask):
        self.line, self.text, self.mend = line, text, mend_of(line)
        self.written = [ask(part) for part in parts_of(text, place, labels)]
        self.right = self.written
        if self.mend is not None:
            self.right = [ask(part) for part in parts_of(self.mend[2](text, line), place, labels)]
        self.places = [place + 4 * number for number in range(len(self.right))]


def reads(parts, words, first_alone):
    """Whether one of the readings of each part, or its first, gives its word."""
    return len(parts) == len(words) and all(word in part[:1 if first_alone else None] for part, word in zip(parts, words))


def refused_or_other(parts, words):
    """What the first readings are that are not the words."""
    for part, word in itertools.zip_longest(parts, words, fillvalue=[None]):
        if part[0] is None:
            return "refused"
        if part[0] != word:
            return "read as another word"
    return "read as its word"


def ask_all(folder):
    """The cases of a file, all readings, and how many items of each instruction have no assembly."""
    items, texts = ((folder / name).read_text().splitlines() for name in ("items.txt", "list"))
    places, labels, words = read_report(folder)
    assert len(items) == len(texts) == len(places), (len(items), len(texts), len(places))
    lines, cases, counts = [], [], collections.defaultdict(collections.Counter)

    def ask(part):
        start = len(lines)
        lines.extend(readings(part))
        return slice(start, len(lines))

    for line, text, place in zip(items, texts, places):
        name = name_of(line)
        if is_left_out(line):
            counts[name]["left out"] += 1
        elif name != "bind":
            cases.append(Case(line, text, place, labels, ask))
    return cases, lines, words, counts


def hold(folder):
    """Holds all texts against their words. Answers whether one is not as it should be."""
    cases, lines, words, counts = ask_all(folder)
    found = assembled(folder, lines)
    wrong, reasons = 0, collections.Counter()
    for case in cases:
        ours = [words[place] for place in case.places]
        written, right = ([found[part] for part in parts] for parts in (case.written, case.right))
        as_written, kind = refused_or_other(written, ours), "same"
        if case.mend is not None:
            kind = "mended"
            reasons[f"{case.mend[0]}: {as_written} where it is not mended"] += 1
        elif not reads(right, ours, True):
            kind = "narrow"
            reasons[f"`fp`, `lr` or `sp` at 32 bits: {as_written} where it is read at 64"] += 1
        counts[name_of(case.line)][kind] += 1
        if not reads(right, ours, False) or case.mend is not None and as_written == "read as its word":
            wrong += 1
            shown = [("refused" if word is None else f"{word:08x}") for part in right for word in part]
            print(f"{case.line}: {case.text}: {shown}, and not {[f'{word:08x}' for word in ours]}")
    report(counts, reasons)
    print(f"{len(cases)} texts held against llvm-mc, {wrong} not as they should be")
    return wrong != 0 or not cases


def report(counts, reasons):
    kinds = ["same", "narrow", "mended", "left out"]
    print("| instruction | as written | with `fp`, `lr` or `sp` at 32 bits | mended | left out |\n|---|---|---|---|---|")
    total = sum(counts.values(), collections.Counter())
    for name, count in [*sorted(counts.items()), ("all", total)]:
        print(f"| {name} | {' | '.join(str(count[kind]) for kind in kinds)} |")
    print()
    for reason, count in sorted(reasons.items()):
        print(f"{count} {reason}")


def main():
    command, folder = sys.argv[1], pathlib.Path(sys.argv[2])
    if command == "more":
        more(folder, int(sys.argv[3]), int(sys.argv[4]))
    else:
        sys.exit(hold(folder))


main()
