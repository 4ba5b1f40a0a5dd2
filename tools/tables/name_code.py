"""What the code of crates/a64_text repeats of the table of instructions: names, and what is made of the fields behind them."""
from __future__ import annotations

from functools import partial
from typing import Callable

from .file_kinds import Part
from .homes import home_table
from .instruction_table import Field, Instruction, InstructionTable
from .layout import LIST_WIDTH, indented, spaced
from .macros import DEPTH, arm, fits, matching
from .name_classes import CLASSES, ENTRIES, TABLES, NameClass, NameRows, class_of, file_kinds, is_of_its_fields, named

NAMES_HEAD = """\
//! The names with which lines begin.

use a64_inst::AccessOp;"""

TABLE_HEAD = """\
//! The names with which lines begin, each with the kinds of the fields behind it.

ghost use Rattle.std.specs.Prelude.{{map}};
ghost use Rattle.a64_tokens.specs.Hash.{{AreRows}};
ghost use Rattle.a64_text.specs.declared.name_table.TheConstants.{{{tables}}};
ghost use Rattle.a64_text.specs.Names.{{name_text, kinds_of}};

use crate::name::{{
    CallName, ControlName, FloatName, ImmediateName, MemoryName, Name, PairName, RegisterName,
    SequenceName, SystemName, VectorMoveName, VectorName,
}};
use a64_inst::AccessOp;
use a64_tokens::named::Row;
use a64_tokens::value::Kind;
use a64_tokens::vec_op::VecOpKind;

/// For each remainder of a hash, the home of the name that has it: 32 times the number of its class, plus
/// the number of its row there."""

ROW_MACRO = """\
/// A row of the table: a name, what it names, and the kinds of the fields behind it.
macro_rules! row {
    ($text:expr, $name:expr $(, $($kind:ident $(($op:ident))?)+)?) => {
        ($text, &[$($(Kind::$kind $((VecOpKind::$op))?),+)?], $name)
    };
}"""

INSTS_HEAD = """\
//! The arms of functions that make instructions of the fields behind their names: of those at their places, or of given ones.
//! A name whose fields are not all that its instruction is made of is not given to them."""

# The classes whose functions take their arms from here; those of the others are made of the lists of a64_inst.
MADE_HERE = ("System", "Control", "Sequence", "Memory")


# ---- names

def enum(name: str, about: str, variants: list[str]) -> list[str]:
    """An enum of names, with its variants."""
    return [f"/// {about}", "#[derive(Clone, Copy)]", f"pub enum {name} {{", *indented(variants), "}"]


def names_of(table: InstructionTable, of: NameClass) -> list[str]:
    """The enum of the names of a class."""
    variants = [line for one in named(table, of) for line in (f"/// `{one.name}`.", f"{one.name},")]
    return enum(of.type, f"The name of {of.names}.", variants)


def all_names() -> list[str]:
    """The enum of the names of all classes, and of the entries that are no instruction."""
    variants: list[str] = []
    for of in CLASSES:
        variants += [f"/// {of.names[0].upper()}{of.names[1:]}.", f"{of.name}({of.type}),"]
    for entry in ENTRIES:
        variants += [f"/// `{entry.text}`.", f"{entry.name},"]
    return enum("Name", "The name with which a line begins.", variants)


def names(table: InstructionTable) -> list[str]:
    """src/name.rt: the names with which lines begin."""
    own = [names_of(table, of) for of in CLASSES if of.type != "AccessOp"]
    return spaced([NAMES_HEAD.split("\n"), *own, all_names()])


# ---- name_table

def row(text: str, name: str, kinds: list[str]) -> list[str]:
    """A row of a table of names: one without kinds reads like a call, and is laid out so."""
    items = [f'b"{text}"', f"Name::{name}"]
    if kinds:
        return [f"row!({', '.join([*items, ' '.join(kinds)])}),"]
    line = ", ".join(items)
    return [f"row!({line}),"] if len(line) <= LIST_WIDTH else ["row!(", f"    {items[0]},", f"    {items[1]}", "),"]


def rows_of(table: InstructionTable, rows: NameRows) -> list[list[str]]:
    """The rows of a table of names."""
    found = [
        row(one.name, f"{of.name}({of.type}::{one.name})", file_kinds(one))
        for of in map(class_of, rows.classes)
        for one in named(table, of)
    ]
    if rows == TABLES[-1]:
        found += [row(entry.text, entry.name, list(entry.kinds)) for entry in ENTRIES]
    return found


def name_rows(table: InstructionTable, rows: NameRows) -> list[str]:
    """A table of names, and the function that gives it."""
    own, name = rows_of(table, rows), f"{rows.function.upper()}_NAMES"
    return [
        f"/// The names of {rows.names}.",
        f"pub static {name}: [Row<Name>; {len(own)}] = [",
        *indented(line for lines in own for line in lines),
        "];",
        "",
        "/// Their rows.",
        "#[inline(always)]",
        f"pub fn {rows.function}_rows() -> &'static [Row<Name>]",
        f"    ensures {{ AreRows name_text kinds_of (map (λ row. row.2) {name}) result.now }}",
        "{",
        f"    &{name}",
        "}",
    ]


def name_table(table: InstructionTable) -> list[str]:
    """src/name_table.rt: the names in tables, each with the kinds of its fields, and where each stands in them."""
    classes = [[one.name for of in rows.classes for one in named(table, class_of(of))] for rows in TABLES]
    classes[-1] += [entry.text for entry in ENTRIES]
    head = TABLE_HEAD.format(tables=", ".join(f"{rows.function.upper()}_NAMES" for rows in TABLES))
    homes = [*head.split("\n"), *home_table("NAME_HOMES", classes)]
    return spaced([homes, ROW_MACRO.split("\n"), *(name_rows(table, rows) for rows in TABLES)])


# ---- make/insts

def value_at(part: Part, place: int) -> str:
    """The field at a place."""
    value = f"at::get($values, {place})"
    return f"Writable::from_reg({value})" if part.is_written else value


def field_lines(field: Field, place: int) -> list[str]:
    """A field of an instruction, of the fields of a file from a place on."""
    parts = field.kind.in_file.parts
    values = [value_at(part, place + number) for number, part in enumerate(parts)]
    if not field.kind.in_file.is_record:
        return [f"{field.name}: {values[0]},"]
    if parts[0].name == "0":
        return [f"{field.name}: {field.kind.type}({values[0]}),"]
    own = [f"{part.name}: {value}," for part, value in zip(parts, values)]
    return [f"{field.name}: {field.kind.type} {{", *indented(own), "},"]


def inst_lines(one: Instruction) -> list[str]:
    """The arm of an instruction."""
    fields: list[str] = []
    place = 0
    for field in one.fields:
        fields += field_lines(field, place)
        place += len(field.kind.in_file.parts)
    return literal(one, fields)


def literal(one: Instruction, fields: list[str]) -> list[str]:
    """The arm of the name of an instruction, with its fields, on a line where it has room."""
    head = f"{one.named}Name::{one.name} => Inst::{one.name}"
    line = f"{head} {{ {' '.join(fields).rstrip(',')} }}," if fields else f"{head},"
    return [line] if fits(line, DEPTH) else [f"{head} {{", *indented(fields), "},"]


def unreached(others: list[Instruction]) -> list[str]:
    """The arm of the names to which a function does not come."""
    return arm([f"{one.named}Name::{one.name}" for one in others], "unreachable!()") if others else []


def made_by(of: NameClass, values: list[str], arms: list[str]) -> list[str]:
    """The macro that hands out the arms of the names of a class."""
    return matching(f"{of.function}_insts", f"the arms that make {of.names}", ["name", *values], arms, over="name")


def insts_of(table: InstructionTable, of: NameClass) -> list[str]:
    """The instructions of a class, each of the fields at their places."""
    own = named(table, of)
    arms = unreached([one for one in own if not is_of_its_fields(one)])
    arms += [line for one in own if is_of_its_fields(one) for line in inst_lines(one)]
    return made_by(of, ["values"], arms)


def pair_insts(table: InstructionTable) -> list[str]:
    """The loads and stores of pairs, each of its fields."""
    of = class_of("Pair")
    arms: list[str] = []
    for one in named(table, of):
        values = [f"Writable::from_reg(${field.name})" if field.way == "writes" else f"${field.name}" for field in one.fields]
        arms += literal(one, [f"{field.name}: {value}," for field, value in zip(one.fields, values)])
    values = [field.name for field in named(table, of)[0].fields]
    return made_by(of, values, arms)


def insts(table: InstructionTable) -> list[str]:
    """src/make/insts.rt: the instructions that names make, as arms."""
    macros = [insts_of(table, class_of(name)) for name in MADE_HERE]
    return spaced([INSTS_HEAD.split("\n"), *macros, pair_insts(table)])


CRATE = "crates/a64_text"


def written(table: InstructionTable) -> dict[str, Callable[[], list[str]]]:
    """The files that are written, and what writes each."""
    return {
        f"{CRATE}/src/name.rt": partial(names, table),
        f"{CRATE}/src/name_table.rt": partial(name_table, table),
        f"{CRATE}/src/make/insts.rt": partial(insts, table),
    }
