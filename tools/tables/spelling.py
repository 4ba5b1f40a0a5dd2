"""How expressions of the table of instructions are spelled: as code, and as definitions.

Most functions have one name in both. tables/words.txt has those that are spelled in two ways, and says where
definitions have what they name.
"""
from __future__ import annotations

import re
from dataclasses import dataclass

from .grammar import TEXT, Call, Value, is_literal
from .instruction_table import BESIDE, Instruction
from .words import BARE, Words

# What is given to each macro that needs it.
GIVEN = ("virtuals", "frame")

def filled(template: str, values: dict[str, str]) -> str:
    """A spelling with its values. In front of a dot a field is not taken out of its reference."""
    if not values:
        return template

    def value(found: re.Match) -> str:
        text = values[found[1]]
        return text.removeprefix("*") + "." if found[2] else text

    return re.sub(rf"\b({'|'.join(values)})\b(\.?)", value, template)


@dataclass(frozen=True)
class Code:
    """Spells expressions of an instruction as code, in an arm of a macro whose fields are references. A register that is
    written is given as what it is (`whole`), or as the register in it.
    """

    words: Words
    one: Instruction
    whole: bool = False

    @staticmethod
    def names_in(text: str) -> set[str]:
        """The names of variables that stand in code, but for what is given to the macro."""
        return set(re.findall(r"(?<![\w$.])[a-z_]\w*", text))

    def name(self, text: str) -> str:
        """A name, a number or a text."""
        bare = text.removeprefix("&")
        part = self.one.field_of(text)
        if part and part.way == "writes" and not self.whole:
            return text.replace(bare, f"{bare}.to_reg()")
        if part:
            return bare if text.startswith("&") else f"*{bare}"
        if text in GIVEN:
            return f"${text}"
        if is_literal(text) or not bare[0].isupper():
            return text
        word = self.words.prefix(bare)
        return word.code + bare.partition(".")[2] if word else bare.replace(".", "::")

    def __call__(self, value: Value) -> str:
        """An expression."""
        if not isinstance(value, Call):
            return self.name(value)
        values = [self(part) for part in value.values]
        word = self.words.words.get(value.name)
        if word:
            return filled(word.code, dict(zip(word.places, values)))
        return f"{self.name(value.name)}({', '.join(values)})"


@dataclass(frozen=True)
class Definition:
    """Spells expressions of an instruction as definitions have them. What words.txt does not place is of the module
    `home`, where one is named; names of variants are of the module `variants`, where one is named.
    """

    words: Words
    one: Instruction
    home: str = ""
    variants: str = ""

    def function(self, name: str) -> str:
        """The name of a function."""
        if self.variants and name[0].isupper():
            return f"{self.variants}.{name}"
        module = self.words.modules.get(name, self.home)
        return name if module in ("", BARE) else f"{module}.{name}"

    def name(self, text: str) -> str:
        """A name, a number or a text."""
        bare = text.removeprefix("&")
        first, dot, parts = bare.partition(".")
        part = self.one.field_of(first)
        if part:
            return part.in_definitions + dot + parts
        if TEXT.fullmatch(text):
            return f"codes {text}"
        if is_literal(text) or text in BESIDE:
            return text
        word = self.words.prefix(bare)
        if word:
            return word.definition + parts
        return self.function(bare) if bare[0].isupper() or bare in self.words.modules else bare

    def __call__(self, value: Value) -> str:
        """An expression."""
        if not isinstance(value, Call):
            return self.name(value)
        values = [self.argument(part) for part in value.values]
        word = self.words.words.get(value.name)
        if word:
            return filled(word.definition, dict(zip(word.places, values)))
        return " ".join([self.function(value.name), *values])

    def argument(self, value: Value) -> str:
        """An expression as an argument of a function."""
        text = self(value)
        return f"({text})" if " " in text else text
