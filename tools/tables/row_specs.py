"""The definitions of crates/a64_rows that repeat the table of rows: one function for each file of specs/."""
from __future__ import annotations

from .grammar import Call, Test
from .layout import argument, chain, spaced, use
from .row_table import Field, Place, Row, RowTable

ROW = "use Rattle.a64_rows.specs.declared.row_table.Row.{Row}"
VARIANTS = "a64_rows.specs.declared.row_table.Row.TheVariants"
NAMES = "use Rattle.a64_rows.specs.declared.field.FieldName.TheVariants as name"
SLOTS = "use Rattle.a64_rows.specs.declared.slots.Slot.TheVariants.{Bits, Doubled}"

PLACES_HEAD = f"""\
-- Where the field of each name stands in the rows that have it (Arm Architecture Reference Manual, DDI 0487, C4.1). The name
-- that the manual gives a field stands in front of what it says.
{ROW}
use Rattle.a64_rows.specs.declared.row_table.Row.TheVariants as row
use Rattle.a64_rows.specs.declared.slots.Slot.{{Slot}}
{SLOTS}"""

FIELDS_HEAD = f"""\
-- The names of fields as texts.
use Rattle.std.specs.Prelude.{{ℕ, List, codes}}
use Rattle.a64_rows.specs.declared.field.FieldName.{{FieldName}}
{NAMES}

-- the text of a name
abbrev pub text_of : FieldName → List ℕ"""


def slot(place: Place) -> str:
    """Where a field stands."""
    return "Doubled" if place.twice else f"Bits {place.low} {place.width}"


def variants(rows: list[Row]) -> str:
    """The line that imports rows by their names."""
    return use(VARIANTS, [row.name for row in rows])


# ---- DataProcessing, Control, Memory, Floats and Vectors

def title(module: str) -> str:
    """`DataProcessing` as `Data processing`."""
    words = "".join(f" {letter.lower()}" if letter.isupper() else letter for letter in module).strip()
    return words.capitalize()


def form(row: Row) -> list[str]:
    """The record of a row's fields, and the function that makes a form of them."""
    about = f"-- {row.group}, {row.about}"
    if not row.places:
        return [about, f"abbrev pub {row.form} : Form", f"{row.form} = form {row.name} []"]
    return [
        about,
        f"pub record {row.record} : Type 0 where",
        *(f"  pub {name} : ℕ" for name in row.fields),
        "",
        f"abbrev pub {row.form} : {row.record} → Form",
        f"{row.form} f = form {row.name} ({chain(f'f.{name}' for name in row.fields)})",
    ]


def forms(table: RowTable, module: str) -> list[str]:
    """A module of forms: those of the rows that the table puts there."""
    rows = table.of_module(module)
    head = [
        f"-- {title(module)}: {table.modules[module]}",
        "-- (Arm Architecture Reference Manual, DDI 0487, C4.1), by the names of their fields.",
        "use Rattle.std.specs.Prelude.{ℕ, [], ◌∷◌}",
        variants(rows),
        use("a64_rows.specs.Forms", ["Form", "form"]),
    ]
    return spaced([head, *map(form, rows)])


# ---- Entries, and Order

def entries(table: RowTable) -> list[str]:
    """specs/Entries.antt: the fields at their places, what the table has of each row, and the rows in their order."""
    head = [
        "-- The table of instruction words: the name of each row, what it fixes, and its fields.",
        "use Rattle.std.specs.Prelude.{ℕ, List, [], ◌∷◌, codes}",
        ROW,
        variants(table.rows),
        NAMES,
        SLOTS,
        "use Rattle.a64_rows.specs.Slots.{Field, Entry, entry}",
        "",
        "-- the fields; where fields of one name stand at several places, the lowest bit and the width follow the name",
    ]
    places = [
        [f"abbrev {place.name} : Field", f"{place.name} = (name.{place.field.capitalize()}, {slot(place)})"]
        for place in table.places
    ]
    return [
        *head,
        *spaced(places),
        "",
        "-- what the table has of a row",
        "abbrev pub entry_of : Row → Entry",
        *(f"entry_of {row.name} = entry 0x{row.fixed:08x} {argument([p.name for p in row.places])}" for row in table.rows),
        "",
        "-- the name of a row",
        "abbrev pub name_of : Row → List ℕ",
        *(f'name_of {row.name} = codes "{row.name}"' for row in table.rows),
        "",
        "-- all rows",
        "abbrev pub all_rows : List Row",
        f"all_rows = {chain(row.name for row in table.rows)}",
    ]


def order(table: RowTable) -> list[str]:
    """specs/Order.antt: the place of each row in the list of all rows."""
    return [
        "-- The order of the rows in the table.",
        "use Rattle.std.specs.Prelude.{refl}",
        ROW,
        variants(table.rows),
        "use Rattle.a64_rows.specs.Placing.{Placed, at}",
        "pub use Rattle.a64_rows.specs.Entries.{all_rows}",
        "",
        "-- a row stands in the list of all rows",
        "abbrev pub placed : (row : Row) → Placed row",
        *(f"placed {row.name} = at {number} refl" for number, row in enumerate(table.rows)),
    ]


# ---- Fields, and Places

def fields(table: RowTable) -> list[str]:
    """specs/Fields.antt: the names of fields as texts."""
    return [*FIELDS_HEAD.split("\n"), *(f'text_of name.{name.variant} = codes "{name.name}"' for name in table.names)]


def place_of_name(table: RowTable, field: Field) -> list[str]:
    """Where a field stands: where it does in the most rows, but in the others."""
    found = [(row, place) for row in table.rows for place in row.places if place.field == field.name]
    slots = [place.slot for _, place in found]
    usual = next(place for _, place in found if place.slot == max(slots, key=slots.count))
    return [
        f"-- {field.says}",
        f"abbrev pub {field.name} : Row → Slot",
        *(f"{field.name} row.{row.name} = {slot(place)}" for row, place in found if place.slot != usual.slot),
        f"{field.name} _ = {slot(usual)}",
    ]


def places(table: RowTable) -> list[str]:
    """specs/Places.antt: where the field of each name stands in the rows."""
    return spaced([PLACES_HEAD.split("\n"), *(place_of_name(table, field) for field in table.names)])


# ---- RowLimits

def test_of(test: Test, row: Row) -> str:
    """A test of a row's values, each by its number."""
    values = [f"field {row.number_of(value)} fields" for value in test.values]
    if isinstance(test, Call):
        return " ".join([test.name, *(f"({value})" for value in values)])
    number = test.number
    return {
        "==": f"{values[0]} == {number}",
        "!=": f"not ({values[0]} == {number})",
        "<": f"nat_lt ({values[0]}) {number}",
        "<=": f"nat_le ({values[0]}) {number}",
        ">=": f"nat_le {number} ({values[0]})",
    }[test.sign]


def row_limits(table: RowTable) -> list[str]:
    """specs/RowLimits.antt: what the values of each row must meet."""
    rows = [row for row in table.rows if row.limits]
    tests = {test.name for row in rows for test in row.limits if isinstance(test, Call)}
    equations = []
    for row in rows:
        equations.append(f"-- {', '.join(row.called)}")
        equations.append(f"limits_of {row.name} fields = {' && '.join(test_of(test, row) for test in row.limits)}")
    return [
        "-- The limits of rows: what the values of a row's fields have to meet, besides their widths.",
        "use Rattle.std.specs.Prelude.{ℕ, List, Bool, true, not, ◌&&◌, ◌==◌, nat_le}",
        ROW,
        variants(rows),
        use("a64_rows.specs.Limits", ["field", *sorted(tests)]),
        "",
        "-- the limits of a row, over the values of its fields in their order; a row that is not named has none",
        "abbrev pub limits_of : Row → List ℕ → Bool",
        *equations,
        "limits_of _ _ = true",
    ]
