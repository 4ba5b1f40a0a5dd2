"""What the definitions of crates/a64_text repeat of the table of instructions: names, their fields, and what these make."""
from __future__ import annotations

import re
from functools import partial
from typing import Callable

from .file_kinds import Part
from .grammar import snake_case
from .instruction_table import Field, Instruction, InstructionTable
from .layout import chain, equation, record_equation, spaced, use
from .name_classes import CLASSES, NameClass, Taken, class_of, file_kinds, is_of_its_fields, named, taken

# The classes of names of plain words: the fields behind such a name are those of the instruction.
PLAIN = ("Immediate", "Register", "Float", "Vector", "VectorMove", "System")

# The classes whose names make an instruction of the fields at their places.
OF_FIELDS = (*PLAIN, "Control", "Sequence", "Memory")

# The classes of which each name has a line of its own in what an instruction has in a file.
OTHERS = ("Control", "Sequence", "Call", "Pair", "Memory", "Access")

# The readers of a field whose names are not those of their kinds.
READERS = {"Bool": "truth_at", "TestBitAndBranchKind": "test_bit_kind_at"}


def type_uses(of: NameClass) -> list[str]:
    """The lines that import the type of the names of a class, and its names."""
    return [use(of.declared, [of.type]), variants_use(of)]


def variants_use(of: NameClass) -> str:
    """The line that imports the names of a class."""
    return f"use Rattle.{of.declared}.TheVariants as {of.module}"


# ---- what names make

MAKES_HEAD = """\
-- The instruction that each name makes of the fields at their places. A name whose fields are not all that its instruction is
-- made of has no equation of its own here, but one in what makes it (Makes).
use Rattle.std.specs.Prelude.{List, Option}
use Rattle.a64_base.specs.declared.entity.TrapCode.{TrapCode}
use Rattle.a64_base.specs.declared.reg.Reg.{Reg}
use Rattle.a64_inst.specs.declared.inst.Inst.{Inst}
use Rattle.a64_inst.specs.declared.inst.Inst.TheVariants as insts
use Rattle.a64_inst.specs.declared.mode.PairAMode.{PairAMode}"""


def reader(field: Field, part: Part) -> str:
    """The function that takes a field out of those of a line."""
    kind = part.kind if part.name else field.kind.name
    return READERS.get(kind) or f"{snake_case(kind)}_at"


def values_at(one: Instruction) -> list[dict[str, str]]:
    """What is taken for each field of an instruction: for a record of several parts each of them, by their names."""
    values: dict[str, dict[str, str]] = {field.name: {} for field in one.fields}
    for found in taken(one):
        values[found.field.name][found.part.name] = f"{reader(found.field, found.part)} values {found.place}"
    return list(values.values())


def argument(values: dict[str, str]) -> str:
    """A field of an instruction, of what is taken for it."""
    if "" in values:
        return f"({values['']})"
    return f"(record {{ {'; '.join(f'{name} = {text}' for name, text in values.items())} }})"


def made(left: str, one: Instruction) -> list[str]:
    """The equation of an instruction that is made of the fields at their places."""
    values = values_at(one)
    if len(values) == 1 and len(values[0]) > 1:
        return record_equation(left, values[0], f"insts.{one.name} (record {{", "})")
    return equation(left, " ".join([f"insts.{one.name}", *map(argument, values)]))


def makes(table: InstructionTable, of: NameClass) -> list[str]:
    """What the names of a class make. Where not all of them have an equation, the last one is of all that are left."""
    own = [one for one in named(table, of) if is_of_its_fields(one)]
    patterns = [f"{of.module}.{one.name}" for one in own]
    if len(own) < len(named(table, of)):
        patterns[-1] = "_"
    lines = [f"abbrev pub {of.function}_of : {of.type} → List Value → Inst"]
    for one, pattern in zip(own, patterns):
        lines += made(f"{of.function}_of {pattern} values", one)
    return lines


def pair_makes(table: InstructionTable) -> list[str]:
    """The instruction of the name of a pair, with its fields."""
    of = class_of("Pair")
    lines = ["abbrev pub pair_of : PairName → Reg → Reg → PairAMode → Option TrapCode → Inst"]
    for one in named(table, of):
        fields = " ".join(field.in_definitions for field in one.fields)
        lines += equation(f"pair_of pair.{one.name} {fields}", f"insts.{one.name} {fields}")
    return lines


def name_insts(table: InstructionTable) -> list[str]:
    """specs/NameInsts.antt: the instruction that each name makes."""
    classes = [class_of(name) for name in (*OF_FIELDS, "Pair")]
    blocks = [makes(table, class_of(name)) for name in OF_FIELDS]
    readers = sorted(set(re.findall(r"\b\w+_at\b", "\n".join(line for block in blocks for line in block))))
    uses = [line for of in classes for line in type_uses(of)] + [
        use("a64_tokens.specs.declared.value.Value", ["Value"]),
        use("a64_read.specs.At", [name for name in readers if not name.startswith("vec_")]),
        use("a64_read.specs.VecAt", [name for name in readers if name.startswith("vec_")]),
    ]
    return spaced([[*MAKES_HEAD.split("\n"), *uses], *blocks, pair_makes(table)])


# ---- texts and headings

HEADINGS_HEAD = """\
-- The names of instructions as texts, and their headings: each with the kinds of the fields behind it.
use Rattle.std.specs.Prelude.{ℕ, List, [], ◌∷◌, codes}
use Rattle.a64_read.specs.Heading.{Heading}
use Rattle.a64_tokens.specs.declared.value.Kind.TheVariants as kinds"""


def texts(table: InstructionTable, of: NameClass) -> list[str]:
    """The names of a class as texts."""
    equations = [f'{of.function}_text {of.module}.{one.name} = codes "{one.name}"' for one in named(table, of)]
    return [f"abbrev pub {of.function}_text : {of.type} → List ℕ", *equations]


def heading(left: str, text: str, one: Instruction) -> list[str]:
    """The equation of the heading of a name."""
    return record_equation(left, {"text": text, "kinds": chain(f"kinds.{kind}" for kind in file_kinds(one))})


def headings_of(table: InstructionTable, of: NameClass) -> list[str]:
    """The headings of the names of a class. Those of plain words are told by the fields of their instructions, but where a
    constructor may refuse a value; and where all names of a class have the same kinds, they have one heading.
    """
    own, function = named(table, of), f"{of.function}_heading"
    lines = [f"abbrev pub {function} : {of.type} → Heading"]
    if of.name in PLAIN:
        for one in (one for one in own if one.is_made):
            name = f"{of.module}.{one.name}"
            lines += heading(f"{function} {name}", f"{of.function}_text {name}", one)
        return [*lines, f"{function} name = plain_heading ({of.function}_text name) ({of.function}_of name [])"]
    if has_one_heading(table, of):
        return [*lines, *heading(f"{function} name", f"{of.function}_text name", own[0])]
    for one in own:
        lines += heading(f"{function} {of.module}.{one.name}", f'codes "{one.name}"', one)
    return lines


def has_one_heading(table: InstructionTable, of: NameClass) -> bool:
    """Whether the names of a class that are no plain words have the same kinds."""
    return of.name not in PLAIN and len({tuple(file_kinds(one)) for one in named(table, of)}) == 1


def headings(table: InstructionTable) -> list[str]:
    """specs/Headings.antt: the texts and the headings of names."""
    uses = [line for of in CLASSES for line in type_uses(of)] + [
        use("a64_text.specs.NameInsts", sorted(f"{class_of(name).function}_of" for name in PLAIN)),
        use("a64_text.specs.PlainFields", ["plain_heading"]),
    ]
    blocks: list[list[str]] = []
    for of in CLASSES:
        if of.name in PLAIN or has_one_heading(table, of):
            blocks.append(texts(table, of))
        blocks.append(headings_of(table, of))
    return spaced([[*HEADINGS_HEAD.split("\n"), *uses], *blocks])


# ---- the names of instructions, and their fields

PLAIN_NAMES_HEAD = """\
-- The name of each instruction whose fields are those of its sheet.
use Rattle.a64_inst.specs.declared.inst.Inst.{Inst}
use Rattle.a64_inst.specs.declared.inst.Inst.TheVariants as insts
use Rattle.a64_text.specs.declared.name.Name.{Name}
use Rattle.a64_text.specs.declared.name.Name.TheVariants as names"""


def plain_names(table: InstructionTable) -> list[str]:
    """specs/PlainNames.antt: the names of plain words. The last one stands for all other instructions."""
    own = [(of, one) for of in map(class_of, PLAIN) for one in named(table, of)]
    patterns = [*(one.pattern for _, one in own[:-1]), "_"]
    lines = ["abbrev pub plain_name : Inst → Name"]
    for (of, one), pattern in zip(own, patterns):
        lines += equation(f"plain_name {pattern}", f"names.{of.name} {of.module}.{one.name}")
    uses = [variants_use(class_of(name)) for name in PLAIN]
    return spaced([[*PLAIN_NAMES_HEAD.split("\n"), *uses], lines])


INST_PARTS_HEAD = """\
-- The name and the fields of each instruction.
use Rattle.std.specs.Prelude.{[], ◌∷◌}
use Rattle.a64_inst.specs.declared.inst.Inst.{Inst}
use Rattle.a64_inst.specs.declared.inst.Inst.TheVariants as insts
use Rattle.a64_tokens.specs.declared.value.Value.TheVariants as values
use Rattle.a64_tokens.specs.Fields.{label_text}
use Rattle.a64_tokens.specs.Lists.{list_text}
use Rattle.a64_read.specs.RegisterPairs.{arg_pair_text, ret_pair_text}
use Rattle.a64_text.specs.declared.name.Name.TheVariants as names
use Rattle.a64_text.specs.Parts.{Parts, access_parts, call_parts, pair_parts, return_call_parts}
use Rattle.a64_text.specs.PlainFields.{inst_fields}
use Rattle.a64_text.specs.PlainNames.{plain_name}"""


def value(found: Taken) -> str:
    """What stands in a file for a field, or for a part of one."""
    name = ".".join(filter(None, [found.field.in_definitions, found.part.name]))
    text = f"(list_text {found.part.text} {name})" if found.part.text else name
    return f"values.{found.part.kind} {text}"


def parts_of(of: NameClass, one: Instruction) -> list[str]:
    """The equation of the name and the fields of an instruction: by a function where they hold more than the instruction's
    fields tell, or are those of all its class.
    """
    left, name, fields = f"inst_parts {one.pattern}", f"{of.module}.{one.name}", taken(one)
    if of.name in ("Pair", "Access"):
        values = " ".join(field.in_definitions for field in one.fields)
        return equation(left, f"{of.function}_parts {name} {values}")
    if told_by := next((field.kind.in_file.told_by for field in one.fields), ""):
        return equation(left, f"{told_by} {name} ({value(fields[0])}) {one.fields[0].name}")
    return record_equation(left, {"name": f"names.{of.name} {name}", "fields": chain(map(value, fields))})


def inst_parts(table: InstructionTable) -> list[str]:
    """specs/InstParts.antt: the name and the fields of each instruction; of plain words those of their sheets."""
    lines = ["abbrev pub inst_parts : Inst → Parts"]
    for of in map(class_of, OTHERS):
        for one in named(table, of):
            lines += parts_of(of, one)
    lines.append("inst_parts inst = record { name = plain_name inst; fields = inst_fields inst }")
    uses = [variants_use(class_of(name)) for name in OTHERS]
    return spaced([[*INST_PARTS_HEAD.split("\n"), *uses], lines])


SPECS = "crates/a64_text/specs"


def written(table: InstructionTable) -> dict[str, Callable[[], list[str]]]:
    """The files that are written, and what writes each."""
    return {
        f"{SPECS}/NameInsts.antt": partial(name_insts, table),
        f"{SPECS}/Headings.antt": partial(headings, table),
        f"{SPECS}/PlainNames.antt": partial(plain_names, table),
        f"{SPECS}/InstParts.antt": partial(inst_parts, table),
    }
