#!/usr/bin/env python3
"""Calls the library a64_c by ctypes, and prints the report of a text.

Usage: bench/c_library.py LIBRARY [force] < TEXT

The report is the program's, so bench/c_library.sh compares the two. LIBRARY is a shared object that has the
whole archive. Where the text is refused, the status is 1, and its line is the status and the subject of the refusal,
on the standard error.
"""
import ctypes
import sys

KINDS = ["Arm64Call", "Abs8", "Aarch64AdrGotPage21", "Aarch64Ld64GotLo12Nc", "Aarch64AdrPrelPgHi21",
         "Aarch64AddAbsLo12Nc"]


def struct(name, **fields):
    """A struct of C with these fields, in order."""
    return type(name, (ctypes.Structure,), {"_fields_": list(fields.items())})


def pair(name, first, second):
    """A struct of two numbers of 32 bits."""
    return struct(name, **{first: ctypes.c_uint32, second: ctypes.c_uint32})


Relocation = struct("Relocation", place=ctypes.c_uint32, kind=ctypes.c_uint32, symbol=ctypes.c_uint32,
                    addend=ctypes.c_int64)

# The buffers of a64_assemble_records, in order, with what each holds.
BUFFERS = {
    "bytes": ctypes.c_uint8,
    "items": ctypes.c_uint32,
    "labels": pair("LabelPlace", "label", "place"),
    "islands": pair("Island", "begin", "end"),
    "relocations": Relocation,
    "traps": pair("Trap", "place", "code"),
    "calls": ctypes.c_uint32,
    "patchable_calls": pair("PatchableCall", "place", "length"),
    "stack_maps": pair("StackMap", "place", "map"),
}

Counts = struct("Counts", status=ctypes.c_int32, subject=ctypes.c_uint64, bytes=ctypes.c_size_t,
                items=ctypes.c_size_t, labels=ctypes.c_size_t, islands=ctypes.c_size_t, pool=ctypes.c_uint32,
                relocations=ctypes.c_size_t, traps=ctypes.c_size_t, calls=ctypes.c_size_t,
                patchable_calls=ctypes.c_size_t, stack_maps=ctypes.c_size_t)

Answer = struct("Answer", status=ctypes.c_int32, subject=ctypes.c_uint64, length=ctypes.c_size_t)


def load(path):
    """The library, with the types of its two calls."""
    library = ctypes.CDLL(path)
    text = [ctypes.c_char_p, ctypes.c_size_t, ctypes.c_bool]
    library.a64_assemble_text.restype = Answer
    library.a64_assemble_text.argtypes = [*text, ctypes.c_void_p, ctypes.c_size_t]
    library.a64_assemble_records.restype = Counts
    library.a64_assemble_records.argtypes = [*text, *[ctypes.c_void_p, ctypes.c_size_t] * len(BUFFERS)]
    return library


def records_of(library, text, force):
    """The counts of a text's code, and its buffers by name, which the second call fills."""
    room = dict.fromkeys(BUFFERS, 0)
    for _ in range(2):
        # A buffer of no length has a place too, since no pointer may be null.
        buffers = {name: (kind * max(room[name], 1))() for name, kind in BUFFERS.items()}
        lent = [it for name in BUFFERS for it in (ctypes.addressof(buffers[name]), room[name])]
        counts = library.a64_assemble_records(text, len(text), force, *lent)
        room = {name: getattr(counts, name) for name in BUFFERS}
    return counts, {name: buffers[name][: room[name]] for name in BUFFERS}


def code_of(library, text, force, length):
    """The code of a text by the other call, which is first made without room."""
    buffer = ctypes.create_string_buffer(max(length, 1))
    wanted = library.a64_assemble_text(text, len(text), force, ctypes.addressof(buffer), 0)
    assert (wanted.status, wanted.length) == (12 if length else 0, length)
    done = library.a64_assemble_text(text, len(text), force, ctypes.addressof(buffer), length)
    assert (done.status, done.length) == (0, length)
    return buffer.raw[:length]


def report_of(counts, buffers):
    """The lines of the report."""
    yield from (f"item {index} {place}" for index, place in enumerate(buffers["items"]))
    yield from (f"label L{it.label} {it.place}" for it in buffers["labels"])
    yield from (f"island {it.begin} {it.end}" for it in buffers["islands"])
    yield f"pool {counts.pool}"
    code = bytes(buffers["bytes"])
    yield from (f"word {at} {int.from_bytes(code[at:at + 4], 'little'):08x}" for at in range(0, len(code), 4))
    yield from (f"reloc {it.place} {KINDS[it.kind]} userextname{it.symbol} {it.addend}"
                for it in buffers["relocations"])
    yield from (f"trap {it.place} {it.code}" for it in buffers["traps"])
    yield from (f"call {place}" for place in buffers["calls"])
    yield from (f"patchable {it.place} {it.length}" for it in buffers["patchable_calls"])
    yield from (f"map {it.place} {it.map}" for it in buffers["stack_maps"])


def main():
    """Prints the report, and answers the status."""
    library = load(sys.argv[1])
    force = "force" in sys.argv[2:]
    text = sys.stdin.buffer.read()
    counts, buffers = records_of(library, text, force)
    if counts.status != 0:
        buffer = ctypes.create_string_buffer(64)
        answer = library.a64_assemble_text(text, len(text), force, ctypes.addressof(buffer), 64)
        assert (answer.status, answer.subject, answer.length) == (counts.status, counts.subject, 0)
        assert buffer.raw == bytes(64)
        print(counts.status, counts.subject, file=sys.stderr)
        return 1
    assert code_of(library, text, force, counts.bytes) == bytes(buffers["bytes"])
    print("\n".join(report_of(counts, buffers)))
    return 0


if __name__ == "__main__":
    sys.exit(main())
