#!/usr/bin/env bash
# Counts the machine instructions that the program `stream` takes for each item of its mixed stream
# and for each pair of its branches, making and assembling apart, and times it. It installs valgrind
# where it is missing, and builds the program. With PROGRAM=FILE it counts that program, and builds none.
set -eu
cd "$(dirname "$0")/.."
command -v valgrind >/dev/null || apt-get install -y -q valgrind >/dev/null ||
    { apt-get update -q >/dev/null; apt-get install -y -q valgrind >/dev/null; }
[ -n "${PROGRAM:-}" ] || (cd crates/a64_stream && rt run >/dev/null 2>&1)
program=${PROGRAM:-$PWD/crates/a64_stream/out/a64_stream}
work=$(mktemp -d)
trap 'rm -rf "$work"' EXIT
small=20000
large=40000

# The machine instructions of a run with these words, of the whole or of the assembly alone.
counted() {
    valgrind --tool=callgrind --callgrind-out-file="$work/counts" "$@" 2>&1 >/dev/null |
        sed -n 's/.*Collected : //p'
}
assembly=--toggle-collect=a64_stream::assembling::assembled

# The machine instructions that each further item or pair takes, where a step of the stream's size
# has so many of them: those of the larger run without those of the smaller one, so that what a run
# takes at its start and end falls out.
each() {
    local step=$1 less more
    shift
    less=$(counted "$@" "$small")
    more=$(counted "$@" "$large")
    echo $(((more - less) / (large - small) / step))
}

# The least time of three runs with these words, in seconds.
seconds() {
    local best=
    for _ in 1 2 3; do
        local start end took
        start=$(date +%s%N)
        "$program" "$@" >/dev/null
        end=$(date +%s%N)
        took=$(((end - start) / 1000000))
        if [ -z "$best" ] || [ "$took" -lt "$best" ]; then best=$took; fi
    done
    printf '%d.%03d' $((best / 1000)) $((best % 1000))
}

echo "| stream | each | made, machine instructions | assembled, machine instructions | 1,000,000 made, s | and assembled, s |"
echo "|---|---|---|---|---|---|"
while read -r kind step unit; do
    million=$((1000000 / step))
    printf '| %s | %s | %s | %s | %s | %s |\n' "$kind" "$unit" \
        "$(each "$step" "$program" make "$kind")" "$(each "$step" "$assembly" "$program" "$kind")" \
        "$(seconds make "$kind" "$million")" "$(seconds "$kind" "$million")"
done <<STREAMS
mixed 8 item
branches 1 pair
STREAMS
