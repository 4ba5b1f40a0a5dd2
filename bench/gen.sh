#!/usr/bin/env bash
# Counts the machine instructions that `gen` takes for each further item, by callgrind: the whole run,
# and of it the assembly. It installs valgrind where it is missing, and builds the program. With PROGRAM=FILE
# it counts that program, and builds none.
set -eu
cd "$(dirname "$0")/.."
command -v valgrind >/dev/null || apt-get install -y -q valgrind >/dev/null ||
    { apt-get update -q >/dev/null; apt-get install -y -q valgrind >/dev/null; }
[ -n "${PROGRAM:-}" ] || (cd crates/a64_cli && rt run </dev/null >/dev/null 2>&1)
program=${PROGRAM:-$PWD/crates/a64_cli/out/a64_cli}
work=$(mktemp -d)
trap 'rm -rf "$work"' EXIT
small=50000
large=100000
# The items of each further number: a branch, a binding and a load.
items=3

# The function that assembles a file.
assembly=a64_run::assembling::assemble_file

# The machine instructions of a run with these words, of the whole or of one function.
counted() {
    local number=$1 force=$2
    shift 2
    valgrind --tool=callgrind --callgrind-out-file="$work/counts" "$@" "$program" gen "$number" $force 2>&1 >/dev/null |
        sed -n 's/.*Collected : //p'
}

# What each further item takes, so that what a run takes at its start and end falls out.
each() {
    echo $((($(counted "$large" "$@") - $(counted "$small" "$@")) / (large - small) / items))
}

echo "| words | whole, each item | assembly, each item |"
echo "|---|---|---|"
for force in "" force; do
    printf '| gen N %s | %s | %s |\n' "$force" "$(each "$force")" \
        "$(each "$force" "--toggle-collect=$assembly")"
done
