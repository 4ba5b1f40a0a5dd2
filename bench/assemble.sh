#!/usr/bin/env bash
# Times the program against GNU as and llvm-mc on the same items, in one run: the least of three
# times of each, and beside those of the two assemblers how many times the program's own they are.
# Then, for the program and GNU as, the peak of memory and the seconds of the processor.
# It installs the two assemblers where they are missing, and builds the program.
set -eu
cd "$(dirname "$0")/.."
command -v llvm-mc >/dev/null || apt-get install -y -q llvm >/dev/null
command -v aarch64-linux-gnu-as >/dev/null || { apt-get update -q >/dev/null; apt-get install -y -q binutils-aarch64-linux-gnu >/dev/null; }
(cd crates/a64_cli && rt run </dev/null >/dev/null 2>&1)
program=$PWD/crates/a64_cli/out/a64_cli
work=$(mktemp -d)
trap 'rm -rf "$work"' EXIT

python3 - "$work" <<'P'
import random, sys
work = sys.argv[1]
n = 200_000

def write(name, items):
    """Writes the items as a file for the program, and as assembly text."""
    with open(f"{work}/{name}.txt", "w") as ours, open(f"{work}/{name}.s", "w") as theirs:
        for kind, label in items:
            if kind == "jump":
                ours.write(f"Jump L{label}\n"); theirs.write(f"b L{label}\n")
            elif kind == "bind":
                ours.write(f"bind L{label}\n"); theirs.write(f"L{label}:\n")
            elif kind == "test":
                ours.write(f"TestBitAndBranch Z L{label} L{label} x1 0\n")
                theirs.write(f"tbz x1, #0, L{label}\nb L{label}\n")
            elif kind == "load":
                ours.write(f"FpuLoad64 v0 Const({label}) -\n"); theirs.write(f"ldr d0, ={label}\n")
            elif kind == "const":
                ours.write(f"const {label} {label.to_bytes(8, 'little').hex()}\n")
            else:
                ours.write("Nop4\n"); theirs.write("nop\n")

write("near", [x for i in range(n) for x in (("jump", i), ("bind", i))])
write("far", [("jump", i) for i in range(n)] + [("bind", i) for i in range(n)])
write("one_label", [("jump", 0)] * n + [("bind", 0)])
order = list(range(n))
random.seed(1)
random.shuffle(order)
again = order[:]
random.shuffle(again)
write("shuffled", [("jump", i) for i in order] + [("bind", i) for i in again])
write("nops", [("nop", 0)] * 1_000_000)
# Branches ahead over some 40 KB: each needs a veneer, which neither of the two assemblers writes.
ahead = 3_400
write("ahead", [x for i in range(n) for x in [("test", i)] + ([("bind", i - ahead)] if i >= ahead else [])] + [("bind", i) for i in range(n - ahead, n)])
write("loads", [("const", j) for j in range(1_000)] + [("load", i % 1_000) for i in range(n)])

def register():
    return f"x{random.randrange(31)}"

with open(f"{work}/mixed.txt", "w") as ours, open(f"{work}/mixed.s", "w") as theirs:
    for i in range(80_000):
        first, second, third = register(), register(), register()
        operator = random.choice(["Add", "Sub", "And", "Orr", "Eor"])
        ours.write(f"AluRRR {operator} 64 {first} {second} {third}\n")
        theirs.write(f"{operator.lower()} {first}, {second}, {third}\n")
        number = random.randrange(4096)
        ours.write(f"AluRRImm12 Add 64 {first} {second} {number}\n")
        theirs.write(f"add {first}, {second}, #{number}\n")
        half, shift = random.randrange(65536), random.choice([0, 16, 32, 48])
        ours.write(f"MovWide MovZ {third} {half},{shift} 64\n")
        theirs.write(f"movz {third}, #{half}, lsl #{shift}\n")
        label = random.randrange(80_000)
        ours.write(f"Jump L{label}\nbind L{i}\n")
        theirs.write(f"b L{label}\nL{i}:\n")
P

# The least time of three runs, in milliseconds.
least() {
    local best=
    for _ in 1 2 3; do
        local start end took
        start=$(date +%s%N)
        "$@" >/dev/null
        end=$(date +%s%N)
        took=$(((end - start) / 1000000))
        if [ -z "$best" ] || [ "$took" -lt "$best" ]; then best=$took; fi
    done
    echo "$best"
}
ours() { "$program" < "$1"; }

# Milliseconds as seconds, and how many times those of the program they are.
seconds() { printf '%d.%03d s' $(($1 / 1000)) $(($1 % 1000)); }
ratio() { printf '%d.%d' $(($1 * 10 / $2 / 10)) $(($1 * 10 / $2 % 10)); }

echo "| file | \`asm\` | GNU as | times ours | llvm-mc | times ours |"
echo "|---|---|---|---|---|---|"
for name in near far one_label shuffled nops mixed; do
    own=$(least ours "$work/$name.txt")
    gnu=$(least aarch64-linux-gnu-as "$work/$name.s" -o "$work/$name.gas.o")
    llvm=$(least llvm-mc -triple=aarch64 -filetype=obj "$work/$name.s" -o "$work/$name.llvm.o")
    printf '| %s | %s | %s | %s | %s | %s |\n' "$name" "$(seconds "$own")" \
        "$(seconds "$gnu")" "$(ratio "$gnu" "$own")" "$(seconds "$llvm")" "$(ratio "$llvm" "$own")"
done

# Peak of memory, and seconds of the processor with the system's, of one run.
usage() {
    python3 -c '
import resource, subprocess, sys
subprocess.run(sys.argv[1:], stdout=subprocess.DEVNULL, check=True)
used = resource.getrusage(resource.RUSAGE_CHILDREN)
print(f"{used.ru_maxrss // 1000} MB | {used.ru_utime:.2f} s + {used.ru_stime:.2f} s")' "$@"
}

echo
echo "| file | memory | user + system | memory of GNU as | user + system |"
echo "|---|---|---|---|---|"
for name in nops mixed; do
    printf '| %s | %s | %s |\n' "$name" "$(usage "$program" < "$work/$name.txt")" \
        "$(usage aarch64-linux-gnu-as "$work/$name.s" -o "$work/$name.gas.o")"
done

# What has islands, or a pool: the two assemblers write no veneers, and one pool for each section or where it is asked for.
echo
echo "| file | \`asm\` | islands |"
echo "|---|---|---|"
for name in ahead loads; do
    printf '| %s | %s | %s |\n' "$name" "$(seconds "$(least ours "$work/$name.txt")")" \
        "$("$program" < "$work/$name.txt" | grep -c '^island ' || true)"
done
