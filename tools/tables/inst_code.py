"""What the code of crates/a64_inst repeats of the table of instructions: one function for each file."""
from __future__ import annotations

from typing import Callable, Iterable

from .grammar import Call, Compare, Test
from .inst_heads import ARMS_HEAD, INST_HEAD, LISTS_HEAD, MAKERS_HEAD
from .instruction_table import Field, Group, Instruction, InstructionTable, class_call
from .layout import indented, spaced
from .macros import NEVER, arm, arms_by_value, macro, matching, name_of, pattern, whole
from .spelling import Code
from .words import Words


# ---- inst

def documents(says: list[str]) -> list[str]:
    """What is said, as documents."""
    return [f"/// {words}".rstrip() for words in says]


def variant(one: Instruction) -> list[str]:
    """A variant of `Inst`."""
    if not one.fields:
        return [*documents(one.says), f"{one.name},"]
    fields = [line for part in one.fields for line in [*documents(part.says), f"{part.name}: {part.kind.type},"]]
    return [*documents(one.says), f"{one.name} {{", *indented(fields), "},"]


def inst(table: InstructionTable) -> list[str]:
    """src/inst.rt: the instructions."""
    return [*INST_HEAD.split("\n"), *indented(line for one in table.instructions for line in variant(one)), "}"]


# ---- lists

def test_of(test: Test, one: Instruction, words: Words) -> str:
    """A test, in an arm whose fields are references."""
    spelled = Code(words, one)
    if isinstance(test, Compare):
        return f"{spelled(test.value)} {test.sign} {test.number}"
    return spelled(test)


def tests_of(one: Instruction, words: Words) -> str:
    """What must hold beside the classes, or of the operands, in such an arm."""
    return " && ".join(test_of(test, one, words) for test in one.tests) or "true"


def listed(part: Field, one: Instruction, words: Words) -> str:
    """A field in a list."""
    if part.way == "is":
        return f"{part.name}: Is {part.what}"
    call = class_call(part.what)
    of_class = f"({test_of(call, one, words)})" if call else part.what
    return f"{part.name}: {'Def' if part.way == 'writes' else 'Use'} {of_class}"


def list_of(table: InstructionTable, group: Group) -> list[str]:
    """The macro that hands the instructions of a group to another."""
    rows = []
    for one in table.of_group(group):
        fields = ", ".join(listed(part, one, table.words) for part in one.fields)
        rows.append(f"{one.name} {{ {fields + ' ' if fields else ''}}} if {tests_of(one, table.words)};")
    body = ["$arms! { $virtuals, $($args),+;", *indented(rows), "}"]
    places = "$arms:ident, $virtuals:ident, $($args:tt),+"
    return macro(name_of(group, "list"), f"hands {group.plain} to a macro", places, body)


def lists(table: InstructionTable) -> list[str]:
    """src/lists.rt: the lists of plain words."""
    return spaced([LISTS_HEAD.split("\n"), *(list_of(table, group) for group in table.plain_groups)])


# ---- arms

def arms_of(instructions: Iterable[Instruction], text_of: Callable[[Instruction], str]) -> list[str]:
    """An arm for each text, with the instructions that have it, and those of their fields of which it tells."""
    texts = {one.name: text_of(one) for one in instructions}
    return arms_by_value({pattern(one, Code.names_in(texts[one.name])): texts[one.name] for one in instructions})


def group_arms(table: InstructionTable) -> list[str]:
    """The group of each instruction."""
    named = {group.name: f"Plain(PlainGroup::{group.name})" if group.plain else group.name for group in table.groups.values()}
    arms = arms_of(table.instructions, lambda one: f"Group::{named[one.group.name]}")
    return matching("group_arms", "the group of an instruction", ["inst"], arms)


def access_arms(table: InstructionTable) -> list[str]:
    """Loads and stores of one register as data."""
    arms = []
    for one in table.accesses:
        register, *others = (part.name for part in one.fields)
        arms += arm([whole(one)], f"({', '.join([f'AccessOp::{one.name}', Code(table.words, one)(register), *others])})")
    says = "the operator, the register, the address and what is known of a load or a store of one register"
    return matching("access_arms", says, ["inst"], [*arms, "_ => return None,"])


def made(one: Instruction, table: InstructionTable) -> str:
    """The instruction of an operator, by its maker where it has one."""
    register = "Writable::from_reg($reg)" if one.loads else "$reg"
    if one in table.made:
        return f"Inst::{one.maker}({register}, $mem, $flags)"
    return f"Inst::{one.name} {{ {one.fields[0].name}: {register}, mem: $mem, flags: $flags }}"


def made_arms(table: InstructionTable) -> list[str]:
    """Loads and stores of one register of what they are as data."""
    arms = [line for one in table.accesses for line in arm([f"AccessOp::{one.name}"], made(one, table))]
    says = "the load or store of one register of an operator"
    return matching("made_arms", says, ["op", "reg", "mem", "flags"], arms, over="op")


def type_arms(table: InstructionTable) -> list[str]:
    """The types of values of loads and stores of one register."""
    arms = arms_by_value({f"AccessOp::{one.name}": f"IrType::{one.access.type}" for one in table.accesses})
    return matching("type_arms", "the type of the value that an operator moves", ["op"], arms, over="op")


def copies(table: InstructionTable, group: Group) -> list[str]:
    """The instructions of a group that own no memory, with their fields."""
    copied = [one for one in table.of_group(group) if not one.access and not any(part.kind.owns for part in one.fields)]
    rows = [f"{one.name} {{ {', '.join(part.name for part in one.fields)} }}".replace("{  }", "{}") for one in copied]
    says = f"Hands the instructions of {group.name.lower()} that own no memory to a macro"
    body = ["$copied!($inst;", *indented([*(f"{row}," for row in rows[:-1]), rows[-1]]), ")"]
    return macro(name_of(group, "copies"), says, "$copied:ident, $inst:expr", body)


# What the tests of a group's operands need beside the instruction.
GIVEN = {
    "Control": ["virtuals"],
    "Sequence": ["info", "virtuals"],
    "Call": ["frame", "virtuals", "restorable"],
    "Memory": ["frame", "virtuals"],
}


def operand_arms(table: InstructionTable, group: Group) -> list[str]:
    """Whether the operands of an instruction of a group are in their sets."""
    others = [one for one in table.of_group(group) if not one.access]
    arms = arms_of(others, lambda one: tests_of(one, table.words))
    says = f"whether the operands of an instruction of {group.name.lower()} are in their sets"
    return matching(name_of(group, "operands"), says, ["inst", *GIVEN[group.name]], [*arms, NEVER])


def alone_of(one: Instruction, words: Words) -> str:
    """Whether an instruction is one word that is no use."""
    return test_of(one.alone, one, words) if isinstance(one.alone, Call) else str(one.alone).lower()


def alone_arms(table: InstructionTable, group: Group) -> list[str]:
    """Whether an instruction of a group is one word that is no use."""
    others = [one for one in table.of_group(group) if not one.access and one.alone is not True]
    arms = arms_of(others, lambda one: alone_of(one, table.words))
    says = f"whether an instruction of {group.name.lower()} is one word that is no use"
    given = ["inst", "frame"] if group.name == "Memory" else ["inst"]
    return matching(name_of(group, "alone"), says, given, [*arms, "_ => true,"])


def arms(table: InstructionTable) -> list[str]:
    """src/arms.rt: the arms of functions over instructions that are no plain words."""
    blocks = [ARMS_HEAD.split("\n"), group_arms(table), access_arms(table), made_arms(table), type_arms(table)]
    for name in GIVEN:
        group = table.groups[name]
        blocks += [copies(table, group)] if name != "Call" else []
        blocks.append(operand_arms(table, group))
        blocks += [alone_arms(table, group)] if name in ("Control", "Memory") else []
    return spaced(blocks)


# ---- makers

def maker(one: Instruction) -> list[str]:
    """The function that makes an instruction."""
    names = [part.name for part in one.fields]
    return [
        f"/// [`Inst::{one.name}`].",
        f"pub(crate) fn {one.maker}({', '.join(f'{part.name}: {part.kind.type}' for part in one.fields)}) -> Inst",
        f"    ensures {{ result ≡ insts.{one.name} {' '.join(names)} }}",
        "{",
        f"    Inst::{one.name} {{ {', '.join(names)} }}",
        "}",
    ]


def makers(table: InstructionTable) -> list[str]:
    """src/makers.rt: the makers of the instructions behind the last literal."""
    return [*MAKERS_HEAD.split("\n"), *indented(spaced(maker(one) for one in table.made)), "}"]


def maker_proof(one: Instruction) -> list[str]:
    """proofs/inst/Inst/MAKER/Proof.antt: the proof of a maker, the same walk for all."""
    name, first = one.maker, "writable" if one.fields[0].way == "writes" else "register"
    return [
        "use mathlib.Core.Path.{refl}",
        f"use Rattle.a64_inst.specs.declared.inst.Inst.TheVariants.{{{one.name}}}",
        "use Rattle.a64_inst.specs.contracts.inst.Inst.{the_type}",
        "use Rattle.a64_inst.proofs.inst.Inst.TheLaws.{the_loose}",
        f"use Rattle.a64_inst.specs.contracts.inst.Inst.{name}.Key.{{name}}",
        "use Rattle.a64_inst.proofs.Late.{made_ccc}",
        f"use Rattle.a64_inst.proofs.LateFields.{{{first}, mode, flags}}",
        f"use Rattle.a64_inst.proofs.inst.Inst.{name}.Code as code",
        f"use Rattle.a64_inst.proofs.inst.Inst.{name}.Statement.{{statement}}",
        "",
        f"pub {name}_spec : {{M : Type 1}} → statement M",
        f"{name}_spec 𝓤 𝓛 𝓜 𝓡 wired = made_ccc the_type the_loose tt {first} mode flags "
        f"(λ v. {one.name} v.0 v.1.0 v.1.1.0) 𝓤 𝓛 𝓜 𝓡 name _ (code.unfolded 𝓤 𝓛.H 𝓜 𝓡 wired) tt "
        "(λ v us. refl) (λ v. refl)",
    ]
