#!/usr/bin/env bash
# Holds the texts of `list` against llvm-mc: the text of each instruction, assembled by it, must give the words that `asm` gives.
# The random lines are those of bench/words_against_as.sh, and more of what those leave out.
# A text is not quite assembly. What is written otherwise there, whatever the instruction, is rewritten first: registers that are
# result and operand stand once, floats are numbers, flags a number, distances begin at the instruction, an extended register has
# its own size, a bitmask of 32 bits 32. `fp`, `lr` and `sp` are so written at 32 bits too: each reading is tried. Some texts say
# something else than their instruction, as in Cranelift: these are mended, and must not be read as their words before. Some are
# no assembly, and are counted alone. texts_against_llvm_mc.py has each rule with its reason.
# Usage: bench/texts_against_llvm_mc.sh [ITEMS] [SEED]
# It prints a table of what was held of each instruction, then what was mended and how often, and last whether all is as it
# should be. With PROGRAM=FILE that program is asked, and none is built.
set -eu
cd "$(dirname "$0")/.."
command -v llvm-mc-14 >/dev/null || { apt-get update -q >/dev/null; apt-get install -y -q llvm-14 >/dev/null; }
[ -n "${PROGRAM:-}" ] || (cd crates/a64_cli && rt run </dev/null >/dev/null 2>&1)
program=${PROGRAM:-crates/a64_cli/out/a64_cli}
count=${1:-100000} seed=${2:-1}
work=$(mktemp -d)
trap 'rm -rf "$work"' EXIT

# The first program in bench/words_against_as.sh makes the lines.
awk "/<<'P'\$/ && !begun { inside = begun = 1; next } /^P\$/ { inside = 0 } inside" bench/words_against_as.sh > "$work/make.py"
python3 "$work/make.py" "$work" "$count" "$seed"
python3 bench/texts_against_llvm_mc.py more "$work" $((count / 5 + 1)) "$seed"
"$program" asm < "$work/items.txt" > "$work/asm"
"$program" list < "$work/items.txt" > "$work/list"
python3 bench/texts_against_llvm_mc.py hold "$work"
