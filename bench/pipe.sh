#!/usr/bin/env bash
# Sends each file of examples/ and examples/run/ through the commands: the report of `asm` has to be clean by `audit`, with the ranges of data that
# a file of the same name with the ending .data has, and what `undis` reads of what `dis` writes has to be the words of the
# report. A file that `asm` refuses, since its registers are virtual, is passed over.
# Usage: [PROGRAM=FILE] bench/pipe.sh
set -eu
cd "$(dirname "$0")/.."
program=${PROGRAM:-crates/a64_cli/out/a64_cli}
work=$(mktemp -d)
trap 'rm -rf "$work"' EXIT
count=0
for file in examples/*.txt examples/run/*.txt; do
    if ! "$program" asm < "$file" > "$work/report" 2> "$work/fault"; then
        echo "$file: passed over: $(cat "$work/fault")"
        continue
    fi
    data=${file%.txt}.data
    found=$(cat "$work/report" $([ -e "$data" ] && echo "$data") | "$program" audit)
    if [ "$found" != clean ]; then
        echo "$file: $found"
        exit 1
    fi
    "$program" dis < "$work/report" | "$program" undis > "$work/words"
    grep '^word ' "$work/report" | diff - "$work/words"
    count=$((count + 1))
done
echo "$count files: their reports are clean, and their words are read back"
