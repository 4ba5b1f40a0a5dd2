#!/usr/bin/env bash
# Holds the program against vectors: single lines with the words, or the refusal, that they must give.
# Usage: bench/vectors.sh FOLDER
# FOLDER has words.tsv and refusals.tsv. A row is a number, a line of a file, and the words of its code in hex, or the line on
# standard error. Where " | " stands between words, those behind it hold. Rows of instructions that do not exist are left out.
# It builds the program; with PROGRAM=FILE it holds that program against them, and builds none.
set -eu
cd "$(dirname "$0")/.."
folder=$(cd "$OLDPWD" && cd "${1:?a folder of vectors}" && pwd)
[ -n "${PROGRAM:-}" ] || (cd crates/a64_cli && rt run </dev/null >/dev/null 2>&1)
program=${PROGRAM:-$PWD/crates/a64_cli/out/a64_cli}

python3 - "$folder" "$program" <<'P'
import re, subprocess, sys
folder, program = sys.argv[1:]
source = open("crates/a64_inst/src/inst.rt").read()
start = source.index("pub enum Inst")
names = set(re.findall(r"^    (\w+)(?: \{|,)$", source[start:source.index("\n}\n", start)], re.M))

def rows(name):
    for row in open(f"{folder}/{name}"):
        _, line, answer = row.rstrip("\n").split("\t")
        if line.split(" ")[0] in names:
            yield line, answer.split(" | ")[-1]

def run(line):
    return subprocess.run([program], input=line.encode(), capture_output=True)

def words(report):
    return " ".join(row.split(b" ")[2].decode() for row in report.splitlines() if row.startswith(b"word "))

judged = different = 0
for name, given in ("words.tsv", lambda run: words(run.stdout)), ("refusals.tsv", lambda run: run.stderr.decode().rstrip("\n")):
    for line, answer in rows(name):
        judged += 1
        ours = given(run(line))
        if ours != answer:
            different += 1
            print(f"{line}: {ours!r}, and not {answer!r}")
print(f"{judged} vectors of {len(names)} instructions, {different} different")
sys.exit(different != 0 or not judged)
P
