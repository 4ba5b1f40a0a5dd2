#!/usr/bin/env python3
"""Calls a64_list_text, a64_show_word, a64_read_word and a64_audit_words by ctypes, and compares with the program.

Usage: bench/c_words.py LIBRARY PROGRAM FILE..

LIBRARY is a shared object that has the whole archive of a64_c, PROGRAM a built a64_cli, and each FILE a file of items.
Its listing has to be that of `list`, or be refused alike. Of its code each word has to be shown as by `dis`, and be
read back, and the verdict has to be that of `audit`: of the first words with no range, with ranges of two words, and
with one word changed. Where room is one byte too little, nothing may be written.
"""
import ctypes
import pathlib
import re
import subprocess
import sys

REFUSALS = {1: "input too large", 2: "line {}: not an entry", 3: "item {}: bad operand",
            4: "item {}: bad addressing mode"}
VERDICTS = {0: "clean", 13: "range {}: bad", 14: "place {}: unknown word", 15: "place {}: branch out of code",
            16: "place {}: branch into data"}
NO_ROOM = 12


class Answer(ctypes.Structure):
    """a64_answer"""
    _fields_ = [("status", ctypes.c_int32), ("subject", ctypes.c_uint64), ("length", ctypes.c_size_t)]


class WordRead(ctypes.Structure):
    """a64_word_read"""
    _fields_ = [("status", ctypes.c_int32), ("word", ctypes.c_uint32)]


class Range(ctypes.Structure):
    """a64_range"""
    _fields_ = [("begin", ctypes.c_uint32), ("end", ctypes.c_uint32)]


def load(path):
    """The library, with the types of its calls."""
    library, buffer = ctypes.CDLL(path), [ctypes.c_void_p, ctypes.c_size_t]
    for name, result, takes in [("list_text", Answer, [ctypes.c_char_p, ctypes.c_size_t, *buffer]),
                                ("show_word", Answer, [ctypes.c_uint32, *buffer]),
                                ("read_word", WordRead, [ctypes.c_char_p, ctypes.c_size_t]),
                                ("audit_words", Answer, buffer * 3)]:
        call = getattr(library, f"a64_{name}")
        call.restype, call.argtypes = result, takes
    return library


def asked(program, command, text):
    """What the program writes, and its line on the standard error."""
    run = subprocess.run([program, command], input=text, capture_output=True, check=False)
    return run.stdout, run.stderr.decode().strip()


def put(call, *words):
    """What a call puts into a buffer that is just long enough, and its answer. Less room leaves the buffer alone."""
    buffer = ctypes.create_string_buffer(b"\xa5" * 8, 8)
    answer = call(*words, ctypes.addressof(buffer), 0)
    assert buffer.raw == b"\xa5" * 8, "written without room"
    if answer.status != NO_ROOM:
        return b"", answer
    length = answer.length
    buffer = ctypes.create_string_buffer(b"\xa5" * (length + 8), length + 8)
    assert call(*words, ctypes.addressof(buffer), length - 1).status == NO_ROOM, "no word of too little room"
    assert buffer.raw == b"\xa5" * (length + 8), "written with too little room"
    answer = call(*words, ctypes.addressof(buffer), length)
    assert (answer.status, answer.length) == (0, length), "another answer with enough room"
    assert buffer.raw[length:] == b"\xa5" * 8, "written behind the text"
    return buffer.raw[:length], answer


def audited(library, words, traps, ranges):
    """The verdict on words, as the program's line."""
    lent = []
    for kind, items in [(ctypes.c_uint32, words), (ctypes.c_uint32, traps), (Range, [Range(*it) for it in ranges])]:
        lent += [(kind * max(len(items), 1))(*items), len(items)]
    answer = library.a64_audit_words(*[it if isinstance(it, int) else ctypes.addressof(it) for it in lent])
    return VERDICTS[answer.status].format(answer.subject)


def check_listing(library, program, text):
    """The listing of a text."""
    listed, fault = asked(program, "list", text)
    got, answer = put(library.a64_list_text, text, len(text))
    assert got == listed, "another listing"
    if answer.status:
        assert REFUSALS[answer.status].format(answer.subject) == fault, f"status {answer.status} for {fault}"


def check_words(library, program, report):
    """Each word of a report as a line and back; how many there are."""
    words = [int(it, 16) for it in re.findall(r"^word \d+ (\w+)$", report.decode(), re.M)]
    lines = asked(program, "dis", report)[0].splitlines()
    assert len(lines) == len(words), "another number of lines"
    for word, line in zip(words, lines):
        assert put(library.a64_show_word, word)[0] == line, f"{word:08x} is shown otherwise"
        read = library.a64_read_word(line, len(line))
        assert (read.status, read.word) == (0, word), f"{line} is read otherwise"
        assert library.a64_read_word(line + b" ", len(line) + 1).status == 2, "no line is read"
    return words


def check_verdicts(library, program, report, words):
    """The verdicts on a report's words; how many there are."""
    traps = [int(it) for it in re.findall(r"^trap (\d+) ", report.decode(), re.M)]
    cases = [(words, [])] + [(words, [(4 * at, 4 * at + 8)]) for at in range(0, len(words), 3)]
    cases += [(words[:at] + [words[at] ^ 0x1000] + words[at + 1:], []) for at in range(0, len(words), 5)]
    for changed, ranges in cases:
        text = [f"word {4 * at} {word:08x}" for at, word in enumerate(changed)]
        text += [f"trap {place} 1" for place in traps] + [f"data {begin} {end}" for begin, end in ranges]
        said, fault = asked(program, "audit", "\n".join(text).encode())
        wanted = said.decode().strip() or fault
        assert audited(library, changed, traps, ranges) == wanted, f"another verdict than {wanted}"
    return len(cases)


def main():
    """Compares on each file, and answers the status."""
    library, program = load(sys.argv[1]), sys.argv[2]
    listings, shown, verdicts = 0, 0, 0
    for name in sys.argv[3:]:
        text = pathlib.Path(name).read_bytes()
        try:
            check_listing(library, program, text)
            listings += 1
            report, fault = asked(program, "asm", text)
            if not fault:
                words = check_words(library, program, report)
                shown += len(words)
                verdicts += check_verdicts(library, program, report, words[:200])
        except AssertionError as fault:
            print(f"{name}: {fault}", file=sys.stderr)
            return 1
    print(f"{listings} listings, {shown} words shown and read, {verdicts} verdicts: as by the program")
    return 0


if __name__ == "__main__":
    sys.exit(main())
