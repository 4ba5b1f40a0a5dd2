#!/usr/bin/env bash
# Times the program `stream` on growing numbers of uses of labels in a buffer of code, and counts the
# machine instructions that it takes for each of the smaller numbers, of the buffer's work alone, so that
# growth can be seen. It installs valgrind where it is missing, and builds the program. With PROGRAM=FILE it
# counts that program, and builds none.
set -eu
cd "$(dirname "$0")/.."
command -v valgrind >/dev/null || apt-get install -y -q valgrind >/dev/null ||
    { apt-get update -q >/dev/null; apt-get install -y -q valgrind >/dev/null; }
[ -n "${PROGRAM:-}" ] || (cd crates/a64_stream && rt run >/dev/null 2>&1)
program=${PROGRAM:-$PWD/crates/a64_stream/out/a64_stream}
work=$(mktemp -d)
trap 'rm -rf "$work"' EXIT
# Above this number the machine instructions are not counted.
counted=250000

# The machine instructions that the buffer takes for each of so many uses.
each() {
    local all
    all=$(valgrind --tool=callgrind --callgrind-out-file="$work/counts" \
        --toggle-collect=a64_stream::uses::code_of_uses "$program" uses "$1" 2>&1 >/dev/null |
        sed -n 's/.*Collected : //p')
    echo $((all / $1))
}

# The least time of three runs with so many uses, in milliseconds.
milliseconds() {
    local best=
    for _ in 1 2 3; do
        local start end took
        start=$(date +%s%N)
        "$program" uses "$1" >/dev/null
        end=$(date +%s%N)
        took=$(((end - start) / 1000000))
        if [ -z "$best" ] || [ "$took" -lt "$best" ]; then best=$took; fi
    done
    echo "$best"
}

echo "| uses | bytes of code | seconds | nanoseconds for each use | machine instructions for each use |"
echo "|---|---|---|---|---|"
for count in 62500 125000 250000 500000 1000000; do
    bytes=$("$program" uses "$count" | sed -n 's/^bytes //p')
    took=$(milliseconds "$count")
    instructions=-
    if [ "$count" -le "$counted" ]; then instructions=$(each "$count"); fi
    printf '| %s | %s | %d.%03d | %s | %s |\n' "$count" "$bytes" $((took / 1000)) $((took % 1000)) \
        $((took * 1000000 / count)) "$instructions"
done
