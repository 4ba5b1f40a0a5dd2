#!/usr/bin/env bash
# Calls the library a64_c from C (bench/c_library.c) and from Python (bench/c_library.py) on each file of
# examples/ and of its folders and on texts that are refused, by plain and by forced islands, and compares
# with the program: the whole report, or the line of the refusal. Then each allocation is refused in turn. The
# listings, lines of words and verdicts are compared by bench/c_words.py.
# It installs gcc and python3 where they are missing, and builds the archive and the program. With
# PROGRAM=FILE and ARCHIVE=FILE it asks that program and links that archive.
# Usage: [PROGRAM=FILE] [ARCHIVE=FILE] bench/c_library.sh
set -eu
[ -z "${PROGRAM:-}" ] || PROGRAM=$(realpath "$PROGRAM")
[ -z "${ARCHIVE:-}" ] || ARCHIVE=$(realpath "$ARCHIVE")
cd "$(dirname "$0")/.."
missing=
for word in gcc python3; do
    command -v "$word" >/dev/null || missing="$missing $word"
done
[ -f /usr/include/stdlib.h ] || missing="$missing libc6-dev"
# shellcheck disable=SC2086
[ -z "$missing" ] || apt-get install -y -q $missing >/dev/null ||
    { apt-get update -q >/dev/null; apt-get install -y -q $missing >/dev/null; }
[ -n "${PROGRAM:-}" ] || (cd crates/a64_cli && rt run </dev/null >/dev/null 2>&1)
program=${PROGRAM:-$PWD/crates/a64_cli/out/a64_cli}
[ -n "${ARCHIVE:-}" ] || (cd crates/a64_c && rt lib >/dev/null 2>&1)
archive=${ARCHIVE:-$PWD/crates/a64_c/out/liba64_c.a}
# The kit's C file that takes memory by malloc, realloc and free.
heap=$(dirname "$(rt doc)")/c/liblibc_c.a
work=$(mktemp -d)
trap 'rm -rf "$work"' EXIT

gcc -O2 -Wall -Wextra -Werror -o "$work/caller" bench/c_library.c "$archive" "$heap" \
    -Wl,--wrap=malloc,--wrap=realloc,--wrap=free
gcc -shared -o "$work/liba64_c.so" -Wl,--whole-archive "$archive" -Wl,--no-whole-archive "$heap"

# Texts that are refused, one for each status from 1 to 10: the name of each begins with its status.
mkdir "$work/refused"
refused() { cat > "$work/refused/$1.txt"; }
head -c 16777217 /dev/zero | tr '\0' '\n' | refused 1_long
printf 'Nop4\nno entry\n' | refused 2_line
printf 'Nop4\nIndirectBr sp -\n' | refused 3_operand
printf 'LoadAddr x8 RegReg(x21,x28)\n' | refused 4_mode
printf 'ULoad64 x0 RegOffset(x16,65536) -\n' | refused 5_scratch
printf 'Nop4\nULoad64 x0 Const(9) -\n' | refused 6_constant
printf 'bind L3\nbind L3\n' | refused 7_twice
printf 'Jump L7\n' | refused 8_unbound
printf 'EmitIsland 4294967295\n' | refused 9_large
{ echo 'LabelAddress x0 L1'; yes Nop4 | head -n 262143; echo 'bind L1'; } | refused 10_reach

# A call that may be patched, of which examples/ has none, with what it records beside.
printf 'Nop4\nCall 3 x0=x1 - - SystemV SystemV 0 true 7\nCall 4 x0=x1 - - SystemV SystemV 0 true -\nRet\n' > "$work/patchable.txt"

# A text by these words, on both sides.
compared() {
    local file=$1 status=0 expected=0
    shift
    "$program" asm "$@" < "$file" > "$work/report" 2> "$work/fault" || expected=$?
    "$work/caller" report "$@" < "$file" > "$work/report_by_c" 2> "$work/fault_by_c" || status=$?
    if [ "$status" != "$expected" ] || ! cmp -s "$work/report" "$work/report_by_c" ||
        ! cmp -s "$work/fault" "$work/fault_by_c"; then
        echo "$file, asm $*: C gets another answer, with status $status: $(cat "$work/fault_by_c")" >&2
        diff "$work/report" "$work/report_by_c" | head -n 4 >&2
        exit 1
    fi
    status=0
    python3 bench/c_library.py "$work/liba64_c.so" "$@" < "$file" > "$work/report_by_python" \
        2> "$work/fault_by_python" || status=$?
    if [ "$status" != "$expected" ] || ! cmp -s "$work/report" "$work/report_by_python"; then
        echo "$file, asm $*: Python gets another answer, with status $status" >&2
        diff "$work/report" "$work/report_by_python" | head -n 4 >&2
        exit 1
    fi
    case $file in
        "$work"/refused/*)
            name=${file##*/}
            "$work/caller" status "${name%%_*}" "$@" < "$file"
            read -r status subject < "$work/fault_by_python"
            [ "$status" = "${name%%_*}" ] || { echo "$name, asm $*: Python gets status $status" >&2; exit 1; }
            [ "$subject" = 0 ] || grep -q "[ L]$subject:" "$work/fault" ||
                { echo "$name, asm $*: Python gets the subject $subject" >&2; exit 1; }
            ;;
    esac
    if [ "$expected" = 0 ]; then
        tried=$("$work/caller" memory "$@" < "$file")
        allocations=$((allocations + tried))
    fi
}

files=0
refusals=0
allocations=0
for file in examples/*.txt examples/*/*.txt "$work/patchable.txt" "$work"/refused/*.txt; do
    compared "$file"
    compared "$file" force
    if [ -s "$work/fault" ]; then refusals=$((refusals + 1)); else files=$((files + 1)); fi
done
python3 bench/c_words.py "$work/liba64_c.so" "$program" examples/*.txt examples/*/*.txt "$work"/refused/[2-9]*.txt
echo "$files files: C and Python get the program's reports; $refusals are refused as by the program"
echo "$allocations allocations refused in turn: want of memory is told, and nothing is left"
