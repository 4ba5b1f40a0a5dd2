"""The files of crates/a64_inst that are written from the table of instructions."""
from __future__ import annotations

from functools import partial
from typing import Callable

from . import inst_code, inst_specs
from .instruction_table import InstructionTable

CRATE = "crates/a64_inst"

FILES: dict[str, Callable[[InstructionTable], list[str]]] = {
    "src/arms.rt": inst_code.arms,
    "src/inst.rt": inst_code.inst,
    "src/lists.rt": inst_code.lists,
    "src/makers.rt": inst_code.makers,
    "specs/AccessTable.antt": inst_specs.accesses,
    "specs/Groups.antt": inst_specs.groups,
    "specs/LoneOthers.antt": inst_specs.lone_others,
    "specs/OtherOperands.antt": inst_specs.other_operands,
    "specs/PlainOperands.antt": inst_specs.plain_operands,
    "specs/Sheets.antt": inst_specs.sheets,
}


def written(table: InstructionTable) -> dict[str, Callable[[], list[str]]]:
    """The files that are written, and what writes each."""
    found = {f"{CRATE}/{path}": partial(lines, table) for path, lines in FILES.items()}
    for one in table.made:
        found[f"{CRATE}/proofs/inst/Inst/{one.maker}/Proof.antt"] = partial(inst_code.maker_proof, one)
    return found
