"""The files of bench/link.sh, its runs and its tables.

Usage: link.py PROGRAM FOLDER
"""
import os
import pathlib
import random
import subprocess
import sys

PROGRAM, WORK = sys.argv[1], pathlib.Path(sys.argv[2])
BASE = 0x10000
LIMIT = 1 << 24
RET, CALL = 0xD65F03C0, 0x94000000
LARGEST = 67_108_864
GIB = 1 << 30


class Fault(Exception):
    """What is not as it has to be."""


# ---- files ----

def one_word_units():
    """Units of one word, as many as a file holds. A unit is its words, the places of its symbols, and its relocations,
    each with its place, its kind and the number of its symbol."""
    unit = ([RET], {}, [])
    return [unit] * ((LIMIT - len(f"base {BASE}\n")) // len(lines_of(unit)))


def calling_units(units, each):
    """Units with so many calls each, of each other at random, and a symbol in the middle of each."""
    made = []
    for index in range(units):
        calls = [(4 * k, "Arm64Call", random.randrange(units)) for k in range(each)]
        made.append(([CALL] * each + [RET], {index: 4 * (each // 2)}, calls))
    return made


def naming_units(units, each):
    """Units with so many addresses each, of each other at random, and a symbol in the last word of each."""
    made = []
    for index in range(units):
        names = [(8 * k, "Abs8", random.randrange(units)) for k in range(each)]
        made.append(([0] * (2 * each), {index: 8 * each - 4}, names))
    return made


def lines_of(unit):
    """A unit as lines for `link`."""
    words, defined, relocations = unit
    lines = ["unit"]
    lines += [f"define {symbol} {place}" for symbol, place in defined.items()]
    if len(words) > 1 and not any(words):
        lines.append(f"space {len(words)}")
    else:
        lines += [f"word {4 * k} {word:08x}" for k, word in enumerate(words)]
    lines += [f"reloc {place} {kind} userextname{symbol} 0" for place, kind, symbol in relocations]
    return "\n".join(lines) + "\n"


def assembly_of(unit, index):
    """A unit as a section for GNU as, with zero words up to the next multiple of 16."""
    words, defined, relocations = unit
    text = [f'.section .text,"ax",@progbits,unique,{index}', ".balign 16"]
    places = {place: symbol for symbol, place in defined.items()}
    kinds = {place: (kind, symbol) for place, kind, symbol in relocations}
    k = 0
    while k < len(words):
        if 4 * k in places:
            text += [f".globl s{places[4 * k]}", f"s{places[4 * k]}:"]
        kind, symbol = kinds.get(4 * k, (None, None))
        if kind == "Abs8" and 4 * k + 4 in places:
            text += [f".globl s{places[4 * k + 4]}", f".set s{places[4 * k + 4]}, . + 4"]
        what = {"Abs8": f".8byte s{symbol}", "Arm64Call": f"bl s{symbol}", None: f".inst {words[k]:#x}"}
        text.append(what[kind])
        k += 2 if kind == "Abs8" else 1
    return "\n".join([*text, *[".inst 0"] * (-len(words) % 4)]) + "\n"


def objects_of(units, each, folder):
    """The units as objects, so many in one."""
    made = []
    for first in range(0, len(units), each):
        source, done = folder / "source.s", folder / f"{first}.o"
        group = enumerate(units[first:first + each], first)
        source.write_text("".join(assembly_of(unit, index) for index, unit in group))
        checked(["aarch64-linux-gnu-as", "-o", str(done), str(source)])
        made.append(str(done))
    return made


# ---- runs ----

def checked(words):
    """Runs a tool, which has to succeed."""
    done = subprocess.run(words, stdout=subprocess.DEVNULL, stderr=subprocess.PIPE, text=True)
    if done.returncode:
        raise Fault(f"{words[0]}: {done.stderr[-300:]}")


def timed(words, source=os.devnull, target=os.devnull, times=3):
    """The least seconds of some runs, the greatest peak memory in MiB, the status and the standard error."""
    best, most = None, 0
    for _ in range(times):
        with open(source, "rb") as given, open(target, "wb") as written:
            measured = ["/usr/bin/time", "-q", "-f", "%e %M", "-o", str(WORK / "time"), *words]
            done = subprocess.run(measured, stdin=given, stdout=written, stderr=subprocess.PIPE, text=True)
        seconds, kibibytes = (WORK / "time").read_text().split()
        best = float(seconds) if best is None else min(best, float(seconds))
        most = max(most, int(kibibytes) / 1024)
    return best, most, done.returncode, done.stderr.removesuffix("\n")


def words_of(output):
    """The words that `link` has written, as bytes."""
    code = bytearray()
    with open(output) as lines:
        for line in lines:
            kind, *fields = line.split()
            if kind == "word":
                code += int(fields[1], 16).to_bytes(4, "little")
            elif kind == "zeros":
                code += bytes(4 * int(fields[1]))
    return bytes(code)


def held(linked, code, tool):
    """Holds the words of a linker against those of `link`: they may have zero words behind the last."""
    checked(["aarch64-linux-gnu-objcopy", "-O", "binary", "-j", ".text", str(linked), str(WORK / "binary")])
    other = (WORK / "binary").read_bytes()
    if other[:len(code)] != code or any(other[len(code):]):
        raise Fault(f"{tool} gives other words")


def told(seconds, mebibytes):
    """Seconds and memory, for a table."""
    return f"{seconds:.2f} s, {mebibytes:.0f} MiB"


def compared(name, units, each):
    """Links units by `link` and by the linkers, and prints a row."""
    source, output = WORK / "source", WORK / "output"
    source.write_text(f"base {BASE}\n" + "".join(map(lines_of, units)))
    if source.stat().st_size > LIMIT:
        raise Fault(f"{name}: the file has {source.stat().st_size} bytes")
    seconds, memory, status, line = timed([PROGRAM, "link"], source, output)
    if status:
        raise Fault(f"{name}: status {status}, {line}")
    code = words_of(output)
    folder = WORK / "objects"
    folder.mkdir()
    (folder / "list").write_text("\n".join(objects_of(units, each, folder)))
    objects, at = f"@{folder}/list", [f"-Ttext={BASE:#x}", "-e", "0"]
    rest = []
    for tool, words in [("aarch64-linux-gnu-ld", ["-r", objects, "-o", str(WORK / "all.o")]),
                        ("aarch64-linux-gnu-ld", [*at, str(WORK / "all.o"), "-o", str(WORK / "linked")]),
                        ("ld.lld", [*at, "-m", "aarch64linux", objects, "-o", str(WORK / "linked")])]:
        took, most, status, line = timed([tool, *words])
        if status:
            raise Fault(f"{tool}: {line[-300:]}")
        if "-r" not in words:
            held(WORK / "linked", code, tool)
        rest.append(told(took, most))
    print("| " + " | ".join([name, told(seconds, memory), *rest]) + " |", flush=True)
    for file in folder.iterdir():
        file.unlink()
    folder.rmdir()


# ---- large code: what is read, and what has to be written ----

def space(words):
    """So many zero words, in as few lines as there can be."""
    return [f"space {min(LARGEST, words - done)}" for done in range(0, words, LARGEST)]


def one_unit(words):
    """One unit of zero words, and what it gives."""
    return ["unit", *space(words)], (0, "", ["unit 0 0", f"zeros 0 {words}"])


def calls_everywhere():
    """Nine units of calls with eight units of zero words between, each call of another unit's first word over at least
    one of these; and what that gives."""
    units, zeros, wide = 9, LARGEST - 4096, 4 * (LARGEST - 4096)
    calls = units - 1
    extent = 4 * (calls + 1) + 20 * calls
    step = -(-extent // 16) * 16 + wide
    lines, starts, symbols, thunks, words = [], [], [], [], []
    for i in range(units):
        others = [j for j in range(units) if j != i]
        lines += ["unit", f"define {i} {4 * calls}", *(f"word {4 * k} 94000000" for k in range(calls))]
        lines.append(f"word {4 * calls} d65f03c0")
        lines += [f"reloc {4 * k} Arm64Call userextname{j} 0" for k, j in enumerate(others)]
        start = i * step
        symbols.append(f"symbol userextname{i} {start + 4 * calls}")
        at = [start + 4 * (calls + 1) + 20 * k for k in range(calls)]
        thunks += [f"thunk {place}" for place in at]
        code = [0x94000000 + (at[k] - start - 4 * k) // 4 for k in range(calls)] + [RET]
        for place, j in zip(at, others):
            code += [0x98000090, 0x10000071, 0x8B110210, 0xD61F0200, (j * step + 4 * calls - place - 16) % (1 << 32)]
        words += [f"word {start + 4 * k} {word:08x}" for k, word in enumerate(code)]
        starts.append(f"unit {2 * i} {start}")
        if i + 1 < units:
            lines += ["unit", f"space {zeros}"]
            starts.append(f"unit {2 * i + 1} {(i + 1) * step - wide}")
            words.append(f"zeros {start + extent} {(step - extent) // 4}")
    return lines, (0, "", [*starts, *symbols, *thunks, *words])


def refused(lines, line):
    """Lines, and that they are refused."""
    return lines, (1, line, [])


def rooms_and_words():
    """Files at the limits of all code: the sum of rooms below 2^31, and of words below 2^29."""
    yield "rooms of 2^31 - 16", 5, *one_unit((1 << 29) - 4)
    starts = ["unit 0 0", "unit 1 2147483616", f"zeros 0 {(1 << 29) - 4}"]
    yield "the same, by two units", 5, ["unit", *space((1 << 29) - 9), "unit", "space 4"], (0, "", starts)
    full = ["unit", *space((1 << 29) - 1)]
    yield "rooms of 2^31, by 2^29 - 1 words", 3, *refused(full, "code too large")
    eight = ["unit", f"space {LARGEST - 1}"] * 8
    yield "the same, by eight units", 3, *refused(eight, "code too large")
    yield "2^29 words, by zero words", 3, *refused(["unit", *[f"space {LARGEST}"] * 8], "line 9: not an entry")
    word = f"word {4 * ((1 << 29) - 1)} {RET:08x}"
    yield "the same, by a word", 3, *refused([*full, word], "line 10: not an entry")
    yield "the same, in a next unit", 3, *refused([*full, "unit", "space 1"], "line 11: not an entry")


def refused_before():
    """Files whose rooms are 2^31, and that are refused for something else."""
    most = [*["unit", f"space {LARGEST - 1}"] * 7, "unit", f"space {LARGEST - 16}"]
    behind = ["unit", "space 1"] * 3
    for line, unit in [
        ("unit 8: bad symbol 2", ["space 1", "define 2 4"]),
        ("unit 8: unsupported relocation 0", ["space 2", "reloc 0 Aarch64AdrGotPage21 userextname2 0"]),
        ("unit 8: bad site 4", ["space 2", "reloc 4 Abs8 userextname2 0"]),
        ("symbol 2: defined twice", ["space 2", "define 2 0", "define 2 4"]),
        ("symbol 2: not defined", ["space 2", "reloc 0 Abs8 userextname2 0"]),
    ]:
        yield f"rooms of 2^31, and {line}", 3, *refused([*most, "unit", *unit, *behind], line)
    calls = ["unit", "define 1 0", f"word 0 {CALL:08x}", "reloc 0 Arm64Call userextname1 0"]
    lines = [*["unit", f"space {LARGEST - 1}"] * 7, *calls, f"space {LARGEST // 2}"]
    rest = ["unit", f"space {LARGEST // 2 - 9}"]
    yield "rooms of 2^31, and unit 7: too large", 3, *refused([*lines, *rest], "unit 7: too large")


def large():
    """The files of large code: name, GiB that a run takes, lines, and what they give."""
    yield "one unit of 2^26 zero words", 1, *one_unit(LARGEST)
    yield "eight units of nearly 2^26 zero words, and calls over them", 5, *calls_everywhere()
    yield from rooms_and_words()
    yield from refused_before()


def free():
    """How many GiB are free."""
    for line in pathlib.Path("/proc/meminfo").read_text().splitlines():
        if line.startswith("MemAvailable:"):
            return int(line.split()[1]) * 1024 / GIB
    return 0


def measured(name, need, lines, given):
    """Links a file of large code, holds what comes against what has to, and prints a row."""
    if free() < need + 1:
        print(f"| {name} | not run: less than {need + 1} GiB are free | |", flush=True)
        return
    source, output = WORK / "source", WORK / "output"
    source.write_text("\n".join(lines) + "\n")
    seconds, memory, status, line = timed([PROGRAM, "link"], source, output, 1)
    if (status, line, output.read_text().splitlines()) != given:
        raise Fault(f"{name}: status {status}, {line or output.read_text()[:400]}")
    answer = line or f"{len(given[2])} lines"
    print(f"| {name} | {answer} | {told(seconds, memory)} |", flush=True)


def main():
    """Runs all, and answers the status of the script."""
    random.seed(1)
    try:
        print("| file | `link` | `ld -r` | then `ld` | `ld.lld` |\n|---|---|---|---|---|", flush=True)
        units = one_word_units()
        compared(f"{len(units)} units of one word", units, 8000)
        compared("300,000 calls among 1,000 units", calling_units(1000, 300), 10)
        compared("400,000 addresses among 1,000 units", naming_units(1000, 400), 10)
        print("\n| code | what comes | seconds, peak memory |\n|---|---|---|", flush=True)
        for name, need, lines, given in large():
            measured(name, need, lines, given)
    except Fault as fault:
        print(f"link: {fault}", file=sys.stderr)
        return 1
    return 0


if __name__ == "__main__":
    sys.exit(main())
