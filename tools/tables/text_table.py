"""The texts of the table of instructions: how each begins, and its operands."""
from __future__ import annotations

from dataclasses import dataclass, replace

from .grammar import Call, Line, Value, call_of, is_literal, lists_of, names_in
from .instruction_table import BESIDE, Instruction, InstructionTable

# What a text may name beside fields: the frame of a load or a store, and the register of one of one register.
FRAME = "frame"
REGISTER = "reg"

# The word of a kind of operators, by whose name a text begins.
NAME = "name"

# Texts that a call makes: by a function of its own, or as a text that a function gives.
MADE = ("own", "str")

# Lines whose name has a part that depends on something: on a half of the lanes, or on a width.
PARTED = ("half", "wide")


@dataclass(frozen=True)
class Text:
    """The text of an instruction. It is made by a call (`own`, `str`), or is a line of a name and operands, where
    the name may have a part behind it (`half`, `wide`): `values` are that call; or the name, and what its part
    depends on; or of a load or a store of one register its name, and where it has another with a signed offset of 9
    bits, that one. `let` is a name for a value, where the operands have one.
    """

    way: str
    values: tuple[Value, ...]
    operands: tuple[Value, ...] = ()
    let: tuple[str, Value] | None = None

    @property
    def call(self) -> Call:
        """The call that makes it."""
        return self.values[0]


def replaced(value: Value, name: str, by: Value) -> Value:
    """A value in which another one stands for a name."""
    if isinstance(value, Call):
        return Call(value.name, tuple(replaced(part, name, by) for part in value.values))
    return by if value == name else value


def let_of(one: Instruction) -> tuple[str, Value] | None:
    """The name that an instruction has for a value, and the value."""
    line = one.lines.get("let")
    if not line:
        return None
    name, sign, value = line.text.partition(" = ")
    if not sign:
        line.fail("`let NAME = CALL` is wanted")
    if one.field_of(line.name(name)):
        line.fail(f"`{name}` is a field")
    call = call_of(Line(line.file, line.number, value))
    known(one, (call,), (), line)
    return name, call


def known(one: Instruction, values: tuple[Value, ...], beside: tuple[str, ...], line: Line) -> None:
    """Sees that the names in values are fields, or others that a text may name."""
    for name in names_in(values):
        if name not in (*BESIDE, *beside) and not name[0].isupper() and not one.field_of(name):
            line.fail(f"the instruction `{one.name}` has no field `{name}`")


def operand(value: Value, one: Instruction, line: Line) -> Value:
    """An operand, which a field alone is by its kind."""
    part = one.field_of(value)
    if not part:
        return value
    if part.kind.in_text in ("", NAME):
        line.fail(f"the field `{value}` alone is no operand")
    return Call(part.kind.in_text, (value,))


def made_of(way: str, operands: list[Value], line: Line) -> Text:
    """A text that a call makes."""
    if len(operands) != 1 or not isinstance(operands[0], Call):
        line.fail(f"`{way} CALL` is wanted")
    return Text(way, tuple(operands))


def access_of(names: list[Value], operands: list[Value], line: Line) -> Text:
    """The text of a load or a store of one register."""
    if len(names) > 2 or len(operands) != 1 or not all(isinstance(name, str) and is_literal(name) for name in names):
        line.fail("a name in quotes, or two, and the register are wanted")
    return Text("line", tuple(names), tuple(operands))


def line_of(one: Instruction, heads: list[Value], operands: list[Value], line: Line) -> Text:
    """A text that is a line of a name and operands."""
    head = heads[0]
    way, values = "line", tuple(heads)
    if isinstance(head, Call) and head.name in PARTED:
        way, values = head.name, head.values
        if len(values) != 2:
            line.fail(f"`{way}(NAME, WHAT)` is wanted")
    elif len(heads) > 1:
        line.fail("one name is wanted")
    name, part = values[0], one.field_of(values[0])
    if not isinstance(name, Call) and not is_literal(name) and not (part and part.kind.in_text == NAME):
        line.fail(f"`{name}` is no name of an operator")
    return Text(way, values, tuple(operand(value, one, line) for value in operands))


def text_of(one: Instruction) -> Text:
    """The text of an instruction."""
    line = one.lines.get("text")
    if not line:
        one.head.fail(f"the instruction `{one.name}` has no text")
    lists = lists_of(line)
    if len(lists) not in (1, 2):
        line.fail("`text NAME OPERANDS` is wanted")
    heads, operands = lists[0], lists[1] if len(lists) == 2 else []
    if heads[0] in MADE:
        text = made_of(heads[0], operands, line)
    else:
        text = access_of(heads, operands, line) if one.access else line_of(one, heads, operands, line)
    let = let_of(one)
    beside = [REGISTER] if one.access else [FRAME] if one.group.name == "Memory" else []
    known(one, (*text.values, *text.operands), (*beside, *(let[:1] if let else ())), line)
    return replace(text, let=let)


def texts_of(table: InstructionTable) -> dict[str, Text]:
    """The texts of the instructions, by their names."""
    return {one.name: text_of(one) for one in table.instructions}


def checked(table: InstructionTable) -> None:
    """Sees that each instruction has a text."""
    texts_of(table)
