#!/usr/bin/env bash
# Counts the machine instructions that the program takes for each further line of a file, by
# callgrind: the whole run, and of it the assembly and the report. It installs valgrind
# where it is missing, and builds the program. With PROGRAM=FILE it counts that program, and builds none.
set -eu
cd "$(dirname "$0")/.."
command -v valgrind >/dev/null || apt-get install -y -q valgrind >/dev/null ||
    { apt-get update -q >/dev/null; apt-get install -y -q valgrind >/dev/null; }
[ -n "${PROGRAM:-}" ] || (cd crates/a64_cli && rt run </dev/null >/dev/null 2>&1)
program=${PROGRAM:-$PWD/crates/a64_cli/out/a64_cli}
work=$(mktemp -d)
trap 'rm -rf "$work"' EXIT
small=20000
large=40000

# The function that assembles a file.
assembly=a64_run::assembling::assemble_file

# A file of so many lines of a kind.
lines() {
    case $1 in
        nops) yes Nop4 | head -n "$2" ;;
        operations) yes 'AluRRR Add 64 x1 x2 x3' | head -n "$2" ;;
        branches) awk -v n="$2" 'BEGIN { for (i = 0; i < n / 2; i++) print "Jump L" i "\nbind L" i }' ;;
    esac
}

# The machine instructions of a run on a file, of the whole or of one function.
counted() {
    valgrind --tool=callgrind --callgrind-out-file="$work/counts" "${@:2}" "$program" < "$1" 2>&1 >/dev/null |
        sed -n 's/.*Collected : //p'
}

# What each further line takes, so that what a run takes at its start and end falls out.
each() {
    echo $((($(counted "$work/large" "$@") - $(counted "$work/small" "$@")) / (large - small)))
}

echo "| lines | whole | assembly | report |"
echo "|---|---|---|---|"
for kind in nops operations branches; do
    lines "$kind" "$small" > "$work/small"
    lines "$kind" "$large" > "$work/large"
    printf '| %s | %s | %s | %s |\n' "$kind" "$(each)" \
        "$(each "--toggle-collect=$assembly")" \
        "$(each '--toggle-collect=*report::write_report*')"
done
