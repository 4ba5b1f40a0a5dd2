#!/usr/bin/env bash
# Measures seconds and peak memory of `stubs` on the longest file that it reads, 2,396,745 lines `stub 0`, and those of
# GNU as and llvm-mc on the same stubs as text, two instructions each, in one run; the words of the three have to be the
# same. The times are the least of three. It installs what is missing, and builds the program. With PROGRAM=FILE it
# asks that program, and builds none.
# Usage: [PROGRAM=FILE] bench/stubs.sh
set -eu
[ -z "${PROGRAM:-}" ] || PROGRAM=$(realpath "$PROGRAM")
cd "$(dirname "$0")/.."
missing=
[ -x /usr/bin/time ] || missing="$missing time"
command -v aarch64-linux-gnu-as >/dev/null || missing="$missing binutils-aarch64-linux-gnu"
command -v llvm-mc >/dev/null || missing="$missing llvm"
# shellcheck disable=SC2086
[ -z "$missing" ] || apt-get install -y -q $missing >/dev/null ||
    { apt-get update -q >/dev/null; apt-get install -y -q $missing >/dev/null; }
[ -n "${PROGRAM:-}" ] || (cd crates/a64_cli && rt run </dev/null >/dev/null 2>&1)
program=${PROGRAM:-$PWD/crates/a64_cli/out/a64_cli}
work=$(mktemp -d)
trap 'rm -rf "$work"' EXIT
count=2396745
yes 'stub 0' | head -n $count > "$work/stubs"
yes $'mov x16, #0\nbr x16' | head -n $((2 * count)) > "$work/stubs.s"

# The least seconds of three runs, and the kilobytes of the last.
measure() {
    local name=$1 least= kilobytes= seconds
    shift
    for _ in 1 2 3; do
        /usr/bin/time -f '%e %M' -o "$work/time" "$@"
        read -r seconds kilobytes < "$work/time"
        least=$(printf '%s\n' $least "$seconds" | sort -n | head -n 1)
    done
    echo "$name: $least s, $((kilobytes / 1024)) MiB"
}

measure stubs bash -c "'$program' stubs < '$work/stubs' > '$work/listing'"
measure 'GNU as' aarch64-linux-gnu-as -o "$work/as.o" "$work/stubs.s"
measure llvm-mc llvm-mc -triple=aarch64 -filetype=obj -o "$work/mc.o" "$work/stubs.s"
sed -n 's/^word [0-9]* //p' "$work/listing" | sort | uniq -c | awk '{print $2, $1}' > "$work/words"
printf 'd2800010 %s\nd61f0200 %s\n' $count $count | cmp - "$work/words"
for object in as mc; do
    aarch64-linux-gnu-objcopy -O binary -j .text "$work/$object.o" "$work/$object"
    yes "$(printf '\x10\x00\x80\xd2\x00\x02\x1f\xd6' | base64)" | head -n $count | base64 -d -i > "$work/wanted" || true
    cmp "$work/$object" "$work/wanted"
done
echo "$(wc -c < "$work/listing") bytes of listing, $count stubs"
