"""Tables of homes, by which names are looked up (`hash_of` of crates/a64_tokens/src/named.rt).

The names are those of a table's rows, in their order. A table that is divided has several classes of rows, of
at most 32 each. The home of a name is 32 times the number of its class, plus the number of its row there, both from
0; it stands at the remainder of the name's hash by the length of the table. The shortest table is taken in which no
two names have one place, of those whose length is a power of two: for these a remainder takes one machine
instruction.
"""
from __future__ import annotations

from .layout import bracketed, filled, indented

# A home leads to one of so many rows of a class.
ROWS = 32

# A line of numbers is no longer than this.
WIDTH = 95


def word_at(token: bytes, place: int) -> int:
    """The number that four bytes of a token are from a place on, the least first."""
    return int.from_bytes(token[place : place + 4], "little")


def mixed(first: int, middle: int, last: int) -> int:
    """Three numbers mixed into one of 11 bits, the top bits of a sum modulo 2^32."""
    total = first * 0xB4AF80C3 + middle * 0x8BDCFBC5 + last * 0x6974E419
    return total % 2**32 // 2**21


def hash_of(name: str) -> int:
    """The hash of a name, as the reader computes it: of its first, middle and last four bytes, or of its
    first, middle and last byte where it has no four.
    """
    token = name.encode()
    size = len(token)
    if size >= 4:
        return mixed(word_at(token, 0), word_at(token, (size - 4) // 2), word_at(token, size - 4))
    if size == 0:
        return 0
    return mixed(token[0], token[size // 2], token[-1])


def homes_of(classes: list[list[str]]) -> list[int]:
    """The shortest table of homes in which each name of these classes has a place of its own."""
    if any(len(names) > ROWS for names in classes):
        raise SystemExit(f"a class has more than {ROWS} rows")
    homes = {name: ROWS * i + j for i, names in enumerate(classes) for j, name in enumerate(names)}
    if len({hash_of(name) for name in homes}) < len(homes):
        raise SystemExit("two names have one hash: choose other factors in `mixed`")
    length = 1
    while len({hash_of(name) % length for name in homes}) < len(homes):
        length *= 2
    table = [0] * length
    for name, home in homes.items():
        table[hash_of(name) % length] = home
    return table


def home_table(name: str, classes: list[list[str]]) -> list[str]:
    """The table of this name, as code."""
    homes = [str(home) for home in homes_of(classes)]
    opening = f"pub static {name}: [u8; {len(homes)}] = ["
    lines = bracketed(opening, homes, "];")
    if len(lines) == 1:
        return lines
    return [opening, *indented(filled([f"{home}," for home in homes], WIDTH)), "];"]
