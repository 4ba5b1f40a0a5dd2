#!/usr/bin/env bash
# Measures seconds and peak memory of `link` on files that bench/link.py makes, holds what it writes against what it
# has to, and times GNU ld and ld.lld over the same code, in one run. It installs what is missing, and builds the
# program. With PROGRAM=FILE it asks that program, and builds none.
#
# The first three files are of some 16 MiB, the most that a command reads: units of one word; 1,000 units with 300,000
# calls of each other (400,000 would be more than 16 MiB: the lines of one have 49 bytes at least); and 1,000 units
# with 400,000 addresses. For the linkers each unit is a section of its own, at a multiple of 16 and with its gap, in
# an object made by GNU as; an object holds 8,000 units of one word, or ten of the others, since 800,000 objects would
# measure how files are opened. GNU ld runs twice: by -r over all objects, and then over its result. The words that
# both linkers give have to be those of `link`. The times are the least of three. `link` reads and writes text, and
# the linkers do not.
#
# The other files are short, and have up to 2^29 words: the words of the file and those of the result take up to
# 4 GiB. They run once, and the largest only where enough memory is free.
# Usage: [PROGRAM=FILE] bench/link.sh
set -eu
[ -z "${PROGRAM:-}" ] || PROGRAM=$(realpath "$PROGRAM")
cd "$(dirname "$0")/.."
missing=
[ -x /usr/bin/time ] || missing="$missing time"
command -v aarch64-linux-gnu-ld >/dev/null || missing="$missing binutils-aarch64-linux-gnu"
command -v ld.lld >/dev/null || missing="$missing lld"
# shellcheck disable=SC2086
[ -z "$missing" ] || apt-get install -y -q $missing >/dev/null ||
    { apt-get update -q >/dev/null; apt-get install -y -q $missing >/dev/null; }
[ -n "${PROGRAM:-}" ] || (cd crates/a64_cli && rt run </dev/null >/dev/null 2>&1)
program=${PROGRAM:-$PWD/crates/a64_cli/out/a64_cli}
work=$(mktemp -d)
trap 'rm -rf "$work"' EXIT
python3 bench/link.py "$program" "$work"
