#!/usr/bin/env bash
# Holds the table of instruction words against the disassembler of GNU binutils: draws random words of each row, and says
# where the disassembler names another class of instruction. It reads the table and the limits out of
# crates/a64_rows/specs, so that they stand once. Where PROGRAM names a built a64_cli, its `dis` shows the same words and as
# many that are random in all bits: each word that meets its row's limits has to be shown by that row, what is shown by a row
# has to be of its class to the disassembler, and `undis` has to give the words back.
# Usage: [PROGRAM=FILE] bench/decoder_against_objdump.sh [WORDS OF EACH ROW] [SEED]
set -eu
cd "$(dirname "$0")/.."
command -v aarch64-linux-gnu-objdump >/dev/null || { apt-get update -q >/dev/null; apt-get install -y -q binutils-aarch64-linux-gnu >/dev/null; }
work=$(mktemp -d)
trap 'rm -rf "$work"' EXIT

cat > "$work/table.py" <<'P'
"""The table of rows and its limits, read out of the specification."""
import re

SPECS = "crates/a64_rows/specs/"

def without_comments(name):
    return "\n".join(line for line in open(SPECS + name) .read().split("\n") if not line.startswith("--"))

def read_rows():
    """The fixed word and the slots of each row; a slot is its lowest bit and width, or None where it stands twice."""
    text = without_comments("Entries.antt")
    places = {
        field: (int(lowest), int(width)) if lowest else None
        for field, lowest, width in re.findall(r"^(\w+) = \(name\.\w+, (?:Bits (\d+) (\d+)|Doubled)\)$", text, re.M)
    }
    entries = re.findall(r"^entry_of (\w+) = entry 0x([0-9a-f]+) \(?(.*?)\[\]\)?$", text, re.M)
    fixed = {row: int(word, 16) for row, word, _ in entries}
    slots = {row: [places[field] for field in re.findall(r"\w+", fields)] for row, _, fields in entries}
    assert fixed.keys() == slots.keys()
    return fixed, slots

class Expression:
    """Reads a test of the specification, and writes it in Python."""
    def __init__(self, text):
        self.tokens = re.findall(r"0b[01]+|\d+|\w+|&&|\|\||==|[()+%-]", text)

    def take(self):
        return self.tokens.pop(0)

    def next_is(self, *tokens):
        return bool(self.tokens) and self.tokens[0] in tokens

    def whole(self):
        if not self.next_is("if"):
            return self.chain("||", "or", lambda: self.chain("&&", "and", self.comparison))
        self.take()
        test = self.whole()
        assert self.take() == "then"
        first = self.whole()
        assert self.take() == "else"
        return f"({first} if {test} else {self.whole()})"

    def chain(self, operator, word, part):
        parts = [part()]
        while self.next_is(operator):
            self.take()
            parts.append(part())
        return parts[0] if len(parts) == 1 else "(" + f" {word} ".join(parts) + ")"

    def comparison(self):
        left = self.sum()
        if self.next_is("=="):
            self.take()
            return f"({left} == {self.sum()})"
        return left

    def sum(self):
        text = self.call()
        while self.next_is("+", "-", "%"):
            text = f"({text} {self.take()} {self.call()})"
        return text

    def call(self):
        name = self.atom()
        arguments = []
        while self.tokens and not self.next_is(")", "&&", "||", "==", "+", "-", "%", "then", "else"):
            arguments.append(self.atom())
        return f"{name}({', '.join(arguments)})" if arguments else name

    def atom(self):
        token = self.take()
        if token == "(":
            text = self.whole()
            assert self.take() == ")"
            return text
        return token

def read_limits():
    """A test of the values of the fields, for each row that has limits."""
    names = {
        "nat_le": lambda a, b: a <= b, "nat_lt": lambda a, b: a < b, "field": lambda number, fields: fields[number],
        "negated": lambda test: not test,
    }
    limits = {}
    definitions = without_comments("Limits.antt") + "\n" + without_comments("RowLimits.antt")
    text = re.sub(r"\n    +", " ", re.sub(r"=\n +", "= ", definitions))
    for name, parameters, body in re.findall(r"^(\w+) ([\w ]+) = (.*)$", text, re.M):
        words = parameters.split()
        if "_" in words or name == "field":
            continue
        reader = Expression(re.sub(r"\bnot\b", "negated", body))
        python = reader.whole()
        assert not reader.tokens, (name, reader.tokens)
        if name == "limits_of":
            limits[words[0]] = eval(f"lambda fields: {python}", names)
        else:
            names[name] = eval(f"lambda {', '.join(words)}: {python}", names)
    return limits
P

cat > "$work/compare.py" <<'P'
import os, random, re, struct, subprocess, sys
from table import read_rows, read_limits

work, count, seed = sys.argv[1], int(sys.argv[2]), int(sys.argv[3])
random.seed(seed)
fixed, slots = read_rows()
limits = read_limits()

ADD = "add adds sub subs"
LOAD = "strb ldrb ldrsb strh ldrh ldrsh str ldr ldrsw"
ATOMIC = "ldadd ldclr ldeor ldset ldsmax ldsmin ldumax ldumin swp"
CLASSES = {
    "AddSubReg": ADD, "AddSubExt": ADD, "AddSubImm": ADD, "AddSubCarry": "adc adcs sbc sbcs",
    "LogicReg": "and bic orr orn eor eon ands bics", "LogicImm": "and orr eor ands",
    "DataProc2": "udiv sdiv lslv lsrv asrv rorv lsl lsr asr ror", "DataProc1": "rbit rev16 rev rev32 clz cls",
    "MulHigh": "smulh umulh", "MulAdd": "madd msub", "MulAddLong": "smaddl umaddl",
    "Bitfield": "sbfm bfm ubfm", "Extract": "extr", "MoveWide": "movn movz movk",
    "CondSelect": "csel csinc csinv csneg", "CondCompare": "ccmp", "Adr": "adr adrp", "Branch26": "b bl",
    "BranchCond": " ".join("b." + c for c in "eq ne cs hs cc lo mi pl vs vc hi ls ge lt gt le al nv".split()),
    "CompareBranch": "cbz cbnz", "TestBranch": "tbz tbnz", "BranchReg": "br blr ret", "RetAuth": "retaa retab",
    "Hint": "hint nop yield wfe wfi sev sevl dgh xpaclri pacia1716 pacib1716 autia1716 autib1716 esb psb tsb csdb paciaz "
            "paciasp pacibz pacibsp autiaz autiasp autibz autibsp bti gcsb clrbhb chkfeat stshh",
    "Barrier": "dmb", "Brk": "brk", "Nzcv": "msr mrs",
    "LdStImm9": LOAD + " sturb ldurb ldursb sturh ldurh ldursh stur ldur ldursw", "LdStUnsigned": LOAD, "LdStReg": LOAD,
    "LdLiteral": "ldr ldrsw", "LdStPair": "stp ldp", "LdReplicate": "ld1r",
    "AtomicOp": " ".join(name + "al" + size for name in ATOMIC.split() for size in ("", "b", "h")),
    "LoadAcq": "ldar ldarb ldarh", "StoreRel": "stlr stlrb stlrh", "LoadEx": "ldaxr ldaxrb ldaxrh",
    "StoreEx": "stlxr stlxrb stlxrh", "Cas": "casal casalb casalh", "Casp": "caspal",
    "FpOne": "fmov fabs fneg fsqrt fcvt frintn frintp frintm frintz", "FpTwo": "fmul fdiv fadd fsub fmax fmin",
    "FpThree": "fmadd fmsub fnmadd fnmsub", "FpCompare": "fcmp", "FpSelect": "fcsel", "FpImm": "fmov",
    "FpInt": "scvtf ucvtf fcvtzs fcvtzu fmov",
    "VecThree": "shadd sqadd srhadd and bic orr orn eor bsl bit bif shsub sqsub cmgt cmge cmhi cmhs cmtst cmeq sshl sqshl "
                "srshl sqrshl ushl uqshl urshl uqrshl smax smin umax umin sabd saba uabd uaba add sub mla mls mul pmul smaxp "
                "sminp umaxp uminp sqdmulh sqrdmulh addp fmaxnm fminnm fmla fmls fadd fsub fmulx fcmeq fmax fmin frecps "
                "frsqrts fmaxnmp fminnmp faddp fmul fcmge facge fmaxp fminp fdiv fcmgt facgt fabd fmlal fmlsl fmlal2 fmlsl2 "
                "uhadd uqadd urhadd uhsub uqsub famax famin fscale",
    "VecPermute": "uzp1 trn1 zip1 uzp2 trn2 zip2", "VecDot": "sdot usdot", "VecElem": "fmla fmls",
    "VecTwo": "rev64 rev16 rev32 saddlp uaddlp suqadd usqadd cls clz cnt sadalp uadalp sqabs sqneg cmgt cmge cmeq cmle cmlt "
              "abs neg xtn xtn2 sqxtun sqxtun2 shll shll2 sqxtn sqxtn2 uqxtn uqxtn2 fcvtn fcvtn2 fcvtl fcvtl2 fcvtxn "
              "fcvtxn2 frintn frinta frintm frintx frintp frintz frinti fcvtns fcvtnu fcvtms fcvtmu fcvtas fcvtau fcvtps "
              "fcvtpu fcvtzs fcvtzu scvtf ucvtf fcmgt fcmge fcmeq fcmle fcmlt fabs fneg fsqrt urecpe ursqrte frecpe "
              "frsqrte not rbit frint32z frint32x frint64z frint64x bfcvtn bfcvtn2 f1cvtl f1cvtl2 f2cvtl f2cvtl2 bf1cvtl "
              "bf1cvtl2 bf2cvtl bf2cvtl2",
    "VecScalarPair": "addp", "VecAcross": "saddlv uaddlv smaxv umaxv sminv uminv addv fmaxnmv fminnmv fmaxv fminv",
    "VecLong3": "smlal smlal2 umlal umlal2 smull smull2 umull umull2",
    "VecShift": "sshr ushr shl sli sshll sshll2 ushll ushll2", "VecImm": "movi mvni orr bic fmov",
    "ScalarShift": "ushr sli", "VecCopy": "dup ins smov umov", "ScalarCopy": "dup", "VecInsElem": "ins", "VecExt": "ext",
    "VecTable": "tbl tbx",
}
assert CLASSES.keys() == fixed.keys()

def draw(row):
    """Random values of the row's fields; small ones are drawn more often, since many opcodes are small."""
    values = []
    for slot in slots[row]:
        width = 1 if slot is None else slot[1]
        values.append(random.randrange(1 << random.choice((width, width, max(1, width - 2)))))
    return values

def word_of(row, values):
    weights = ((1 << 31) + (1 << 22) if slot is None else 1 << slot[0] for slot in slots[row])
    return fixed[row] + sum(value * weight for value, weight in zip(values, weights))

def disassembled(words):
    """The texts of words by the disassembler of GNU binutils, each with its word."""
    with open(f"{work}/words", "wb") as out:
        out.write(b"".join(struct.pack("<I", word) for word in words))
    listing = subprocess.run(
        ["aarch64-linux-gnu-objdump", "-D", "-z", "-b", "binary", "-m", "aarch64", "-M", "no-aliases", f"{work}/words"],
        check=True, capture_output=True, text=True,
    ).stdout
    texts = re.findall(r"^ *[0-9a-f]+:\t([0-9a-f]{8}) \t(.*)$", listing, re.M)
    assert len(texts) == len(words), (len(texts), len(words))
    return texts

def is_unknown(text):
    return text.split()[0] == ".inst" or "undefined" in text

words = []
for row in fixed:
    for _ in range(count):
        values = draw(row)
        words.append((row, limits.get(row, lambda fields: True)(values), word_of(row, values)))
texts = disassembled([word for _, _, word in words])

counts = {row: [0, 0, 0, 0, 0] for row in fixed}
differences, refused = {}, {}
for (row, met, word), (shown, text) in zip(words, texts):
    assert int(shown, 16) == word
    name = text.split()[0]
    unknown = is_unknown(text)
    same = name in CLASSES[row].split()
    count_of = counts[row]
    if met:
        count_of[0] += 1
        count_of[1] += unknown
        if unknown:
            refused.setdefault(row, f"{word:08x}")
        elif not same:
            count_of[2] += 1
            differences.setdefault((row, name), f"{word:08x} {text}")
    else:
        count_of[3] += 1
        count_of[4] += same and not unknown

print("row: words that meet the limits, of them unknown to objdump, of them of another class; words that miss the limits, of")
print("them of the class to objdump")
for row, (met, unknown, other, missed, same) in counts.items():
    print(f"{row}: {met}, {unknown}, {other}; {missed}, {same}" + (f"  (unknown: {refused[row]})" if unknown else ""))
print(f"{len(differences)} differences of class")
for (row, name), example in differences.items():
    print(f"{row} {name}: {example}")

def run(program, command, text):
    """What a command of the program writes for a text."""
    return subprocess.run([program, command], input=text, check=True, capture_output=True, text=True).stdout

def hold_program(program):
    """Holds `dis` and `undis` against the table and the disassembler."""
    random_words = [random.getrandbits(32) for _ in words]
    every = [word for _, _, word in words] + random_words
    report = "".join(f"word {4 * i} {word:08x}\n" for i, word in enumerate(every))
    listing = run(program, "dis", report)
    shown = [line.split(" ")[0] for line in listing.splitlines()]
    assert len(shown) == len(every)
    assert run(program, "undis", listing) == report, "undis does not give the words back"
    wrong = [f"{word:08x} {row} {is_shown}" for (row, met, word), is_shown in zip(words, shown) if met and row != is_shown]
    texts_of = disassembled(random_words)
    others = [
        f"{shown_word} {is_shown} {text}"
        for is_shown, (shown_word, text) in zip(shown[len(words):], texts_of)
        if is_shown != "Data" and not is_unknown(text) and text.split()[0] not in CLASSES[is_shown].split()
    ]
    rows = sum(is_shown != "Data" for is_shown in shown[len(words):])
    print(f"dis: {len(every)} words shown and read back, {len(wrong)} not by their row; of {len(random_words)} random words")
    print(f"{rows} match a row, {len(others)} of another class")
    for line in wrong + others:
        print(line)
    sys.exit(bool(wrong or others))

if "PROGRAM" in os.environ:
    hold_program(os.environ["PROGRAM"])
P

PYTHONPATH="$work" PYTHONDONTWRITEBYTECODE=1 python3 "$work/compare.py" "$work" "${1:-2000}" "${2:-1}"
