"""The lemmas of crates/a64_rows that repeat the table of rows: one function for each file of proofs/."""
from __future__ import annotations

from .layout import INDENT, argument, spaced, use
from .row_specs import ROW, VARIANTS, title, variants
from .row_table import Row, RowTable


def candidate_lists(table: RowTable) -> list[str]:
    """proofs/CandidateLists.antt: the rows that a word can match, by its bits 28 to 24."""
    names = sorted(row.name for row in table.rows)
    return [
        "-- The rows that a word can match, by its bits 28 to 24.",
        "use Rattle.std.proofs.Common.{List, [], ◌∷◌}",
        ROW,
        use(VARIANTS, names),
        "",
        "-- the rows by bits 28 to 24",
        "abbrev pub candidates_by_bits : List (List Row)",
        "candidates_by_bits =",
        *(f"{INDENT}{argument([row.name for row in rows])} ∷" for rows in table.candidates),
        f"{INDENT}[]",
    ]


def placed(row: Row) -> list[str]:
    """That the fields of a row stand at the places of their names."""
    named = argument([f"(f.{name}, place.{name})" for name in row.fields])
    proof = "record { values = refl; slots = refl }"
    if not row.places:
        return [f"pub {row.form}_placed : IsPlaced {row.form} {named}", f"{row.form}_placed = {proof}"]
    return [
        f"pub {row.form}_placed : (f : {row.record}) → IsPlaced ({row.form} f) {named}",
        f"{row.form}_placed f = {proof}",
    ]


def used_forms(table: RowTable, module: str) -> str:
    """The line that imports the forms of a module, and the records of their fields."""
    names = []
    for row in table.of_module(module):
        names += [row.record, row.form] if row.places else [row.form]
    return use(f"a64_rows.specs.{module}", names)


def places(table: RowTable) -> list[str]:
    """proofs/Places.antt: that the fields of each row stand at the places of their names."""
    head = [
        "-- The named fields of each row stand at the places of their names.",
        "use Rattle.std.proofs.Common.{[], ◌∷◌, refl}",
        "use Rattle.a64_rows.specs.Forms.{IsPlaced}",
        "use Rattle.a64_rows.specs.Places as place",
        *(used_forms(table, module) for module in table.modules),
    ]
    lemmas = []
    for module in table.modules:
        lemmas += [[f"-- ---- {title(module).lower()}"], *map(placed, table.of_module(module))]
    return spaced([head, *lemmas])


def numbers(table: RowTable) -> list[str]:
    """proofs/Numbers.antt: the number of each row among the variants of `Row` is its place."""
    return [
        "-- The number of a row is its place.",
        "use Rattle.std.proofs.Common.{◌≡◌, refl}",
        "use denote.Enum.Declared.{tag_of}",
        "use Rattle.a64_rows.specs.contracts.row_table.Row.{the_type}",
        ROW,
        variants(table.rows),
        "use Rattle.a64_rows.specs.Order.{placed}",
        "",
        "pub number_is : (row : Row) → tag_of the_type row ≡ (placed row).place",
        *(f"number_is {row.name} = refl" for row in table.rows),
    ]
