"""The code of crates/a64_rows that repeats the table of rows: one function for each file of src/."""
from __future__ import annotations

from .grammar import Call, Test
from .layout import bracketed, conjunction, indented, spaced
from .row_table import Place, Row, RowTable

ROW_HEAD = """\
//! The rows of the table of instruction words.

ghost use Rattle.std.specs.Prelude.{◌≡◌};
ghost use Rattle.a64_rows.specs.Entries.{name_of};

/// A class of instruction words, or the part of one that this layer makes, named after the class of the Arm manual.
#[derive(Clone, Copy, Debug)]
pub enum Row {"""

ROW_NAME = """\
}

impl Row {
    /// The row's name.
    pub fn name(self) -> &'static str
        ensures { result.now ≡ name_of self }
    {
        match self {"""

FIELD_HEAD = """\
//! The names of fields.

ghost use Rattle.std.specs.Prelude.{◌≡◌};
ghost use Rattle.a64_rows.specs.Fields.{text_of};

/// The name of a field.
#[derive(Clone, Copy)]
pub(crate) enum FieldName {"""

FIELD_TEXT = """\
}

impl FieldName {
    /// The name as a text.
    pub(crate) fn text(self) -> &'static str
        ensures { result.now ≡ text_of self }
    {
        match self {"""

MATCH_END = ["        }", "    }", "}"]

ENTRIES_HEAD = """\
//! The table of instruction words: each row has a fixed word, and named fields at places of their own.

use crate::field::FieldName;
use crate::row_entry::{Entry, Field};
use crate::row_table::Row;
use crate::slots::Slot;

// The fields. Where fields of one name stand at several places, the lowest bit and the width follow the name."""

CANDIDATES_HEAD = """\
//! Where the row of a word is looked for.

use crate::row_table::Row;

/// The rows that a word can match, by its bits 28 to 24.
pub(crate) const CANDIDATES: [&'static [Row]; 32] = ["""

MEETS_HEAD = """\
use crate::row_table::Row;

/// Whether the values of a row's fields meet its limits.
pub fn meets(row: Row, fields: &[u32]) -> bool
    requires { length fields.now ≡ length (slots_of row) }
    ensures { result ≡ limits_of row fields.now }
{
    match row {"""

LIMITS_HEAD = """\
//! The limits of rows: what the values of a row's fields have to meet, besides their widths.

ghost use Rattle.std.specs.Prelude.{◌≡◌, length};
ghost use Rattle.a64_rows.specs.RowLimits.{limits_of};
ghost use Rattle.a64_rows.specs.Rows.{slots_of};
"""


def row_table(table: RowTable) -> list[str]:
    """src/row_table.rt: the rows, and their names."""
    variants = []
    for row in table.rows:
        variants += [f"/// {row.about}. Fields: {', '.join(row.called) or 'none'}.", f"{row.name},"]
    arms = [f'Row::{row.name} => "{row.name}",' for row in table.rows]
    return [
        *ROW_HEAD.split("\n"),
        *indented(variants),
        *ROW_NAME.split("\n"),
        *indented(arms, 3),
        *MATCH_END,
    ]


def field(table: RowTable) -> list[str]:
    """src/field.rt: the names of fields, and their texts."""
    arms = [f'FieldName::{name.variant} => "{name.name}",' for name in table.names]
    return [
        *FIELD_HEAD.split("\n"),
        *indented(f"{name.variant}," for name in table.names),
        *FIELD_TEXT.split("\n"),
        *indented(arms, 3),
        *MATCH_END,
    ]


# ---- entries

def slot(place: Place) -> str:
    """Where a field stands."""
    return "Slot::Doubled" if place.twice else f"Slot::Bits({place.low}, {place.width})"


def constant(place: Place) -> str:
    """The field at a place."""
    return f"const {place.name.upper()}: Field = (FieldName::{place.field.capitalize()}, {slot(place)});"


def entry(row: Row) -> list[str]:
    """What the table has of a row."""
    fields = ", ".join(place.name.upper() for place in row.places)
    return bracketed("(", [f"Row::{row.name}", f"0x{row.fixed:08x}", f"&[{fields}]"], "),")


def entries(table: RowTable) -> list[str]:
    """src/entries.rt: the fields at their places, and the rows."""
    constants = spaced([constant(place)] for place in table.places)
    return [
        *ENTRIES_HEAD.split("\n"),
        *constants,
        "",
        "/// The rows, in the order of `Row`.",
        f"pub(crate) static ROWS: [Entry; {len(table.rows)}] = [",
        *indented(line for row in table.rows for line in entry(row)),
        "];",
    ]


# ---- limits

def test_of(test: Test, row: Row) -> str:
    """A test of a row's values, each by its number."""
    values = [f"fields[{row.number_of(value)}]" for value in test.values]
    if isinstance(test, Call):
        return f"{test.name}({', '.join(values)})"
    return f"{values[0]} {test.sign} {test.number}"


def row_limits(table: RowTable) -> list[str]:
    """src/row_limits.rt: what the values of each row must meet."""
    tests = {test.name for row in table.rows for test in row.limits if isinstance(test, Call)}
    arms = []
    for row in table.rows:
        limits = [test_of(test, row) for test in row.limits] or ["true"]
        arms += conjunction(f"Row::{row.name} => ", limits, ",", 2)
    return [
        *LIMITS_HEAD.split("\n"),
        *imported("limits", sorted(tests)),
        *MEETS_HEAD.split("\n"),
        *indented(arms, 2),
        "    }",
        "}",
    ]


def imported(module: str, names: list[str]) -> list[str]:
    """The lines that import names from a module of the crate, as many to a line as have room."""
    lines, line = [f"use crate::{module}::{{"], "   "
    for name in names:
        if len(line) + len(name) + 2 > 100:
            lines, line = [*lines, line], "   "
        line += f" {name},"
    return [*lines, line, "};"]


# ---- candidates

def candidate_rows(table: RowTable) -> list[str]:
    """src/candidate_rows.rt: the rows that a word can match, by its bits 28 to 24."""
    lists = [bracketed("&[", [f"Row::{row.name}" for row in rows], "],") for rows in table.candidates]
    return [*CANDIDATES_HEAD.split("\n"), *indented(line for lines in lists for line in lines), "];"]
