#!/usr/bin/env bash
# Times the search for the fields (N, R, S) of a logical immediate against the search that
# Cranelift uses, written anew here in Rust, on the same values of 64 bits in one run.
# The kit builds the one program, and `rustc -O` the other, for the same processor. Each reads how
# often to go through the values, and then the values, and prints a checksum of all answers.
# A figure is processor time: the best of RUNS runs, less the best of RUNS runs of a single pass.
# The status is 1 where the checksum of a single pass is not that of the values' definition, or
# where the two programs' checksums differ.
# Usage: bench/bitmask_search.sh [PASSES] [RUNS]
set -eu
cd "$(dirname "$0")/.."
work=$(mktemp -d)
trap 'rm -rf "$work"' EXIT

# Both programs end in these functions.
cat > "$work/checksum" <<'P'

/// The answer in one number.
fn answer(value: u64) -> u64 {
    match ImmLogic::maybe_from_u64(value, IrType::I64) {
        Some(imm) => {
            (1 << 24) | (u64::from(imm.n) << 16) | (u64::from(imm.r) << 8) | u64::from(imm.s)
        }
        None => 1,
    }
}

/// The checksum of the answers to all values, taken so often.
fn checksum(values: &[u64], passes: u64) -> u64 {
    let mut sum = 0u64;
    for _ in 0..passes {
        for &value in values {
            sum = sum
                .wrapping_mul(0x9e37_79b9_7f4a_7c15)
                .wrapping_add(answer(value));
        }
    }
    sum
}
P

# A repository of the program and copies of the two crates that it stands on.
for name in a64_base a64_imms; do
    mkdir -p "$work/crates/$name"
    cp -r crates/$name/src crates/$name/specs crates/$name/proofs "$work/crates/$name"
done
cp HANDLES "$work"
grep -E '^(a64_base|a64_imms):' crates.txt > "$work/crates.txt"
echo 'bitmask_search: a64_base a64_imms' >> "$work/crates.txt"
mkdir -p "$work/crates/bitmask_search/src"
cat - "$work/checksum" > "$work/crates/bitmask_search/src/main.rt" <<'P'
#![tactic(auto)]

use a64_base::IrType;
use a64_imms::ImmLogic;
use std::io::{self, BufRead, BufReader, ErrorKind};

fn main(rt: HostRuntime) -> io::Result<()> {
    let mut passes = None;
    let mut values = Vec::new(rt.alloc());
    for line in BufReader::new(rt.alloc(), rt.reader())?.lines(rt.alloc()) {
        let Ok(number) = line?.as_str().parse::<u64>() else {
            return Err(io::Error::from(ErrorKind::InvalidData));
        };
        if passes.is_none() {
            passes = Some(number);
        } else {
            values.push(number)?;
        }
    }
    let sum = checksum(values.as_slice(), passes.unwrap_or(0));
    println!(rt; "{sum}")
}
P
(cd "$work/crates/bitmask_search" && rt run </dev/null >"$work/log" 2>&1) || { cat "$work/log" >&2; exit 1; }
processor=$(sed -n 's/^logic=proved .* cpu=\([^ ]*\) .*/\1/p' "$work/log")

cat - "$work/checksum" > "$work/cranelift.rs" <<'P'
use std::io;

/// The type of a value.
#[allow(dead_code)]
enum IrType {
    I32,
    I64,
}

/// The fields of a logical immediate.
struct ImmLogic {
    n: bool,
    r: u8,
    s: u8,
}

/// At index `i` the number with a one at each multiple of `2^i`.
const ONES_APART: [u64; 7] = [
    u64::MAX,
    u64::MAX / 0x3,
    u64::MAX / 0xf,
    u64::MAX / 0xff,
    u64::MAX / 0xffff,
    u64::MAX / 0xffff_ffff,
    1,
];

/// The lowest one of a number alone, and 0 for 0.
fn lowest_one(number: u64) -> u64 {
    1u64.unbounded_shl(number.trailing_zeros())
}

impl ImmLogic {
    fn maybe_from_u64(value: u64, ty: IrType) -> Option<ImmLogic> {
        let number = match ty {
            IrType::I32 => (value << 32) | (value & 0xffff_ffff),
            IrType::I64 => value,
        };
        // An even run does not wrap, and the complement of an odd one is an even one.
        let odd = number % 2 == 1;
        let even = if odd { !number } else { number };
        if even == 0 {
            return None;
        }

        // A sum with its lowest one turns the lowest stretch of ones into the one above it.
        let start = lowest_one(even);
        let carried = even.wrapping_add(start);
        let end = lowest_one(carried);
        let next = lowest_one(carried - end);
        let stretch = end.wrapping_sub(start);

        let above_start = start.leading_zeros();
        let alone = next == 0;
        let period = if alone {
            64
        } else {
            above_start - next.leading_zeros()
        };
        if !period.is_power_of_two() {
            return None;
        }
        if stretch.unbounded_shr(period) != 0 {
            return None;
        }
        if stretch * ONES_APART[period.trailing_zeros() as usize] != even {
            return None;
        }

        // Where the stretch reaches the top, its end is bit 64, with -1 places above it.
        let above_end = if end == 0 {
            u32::MAX
        } else {
            end.leading_zeros()
        };
        let length = above_start.wrapping_sub(above_end);
        let (ones, above) = if odd {
            (period - length, above_end)
        } else {
            (length, above_start)
        };
        Some(ImmLogic {
            n: alone,
            r: (above.wrapping_add(1) & (period - 1)) as u8,
            s: (((2 * period).wrapping_neg() | (ones - 1)) & 0x3f) as u8,
        })
    }
}

fn main() {
    let mut numbers = io::stdin().lines().map(|line| line.unwrap().parse().unwrap());
    let passes = numbers.next().unwrap();
    let values: Vec<u64> = numbers.collect();
    println!("{}", checksum(&values, passes));
}
P
rustc -O --edition 2021 -C "target-cpu=$processor" -o "$work/cranelift" "$work/cranelift.rs"

python3 - "$work" "${1:-20001}" "${2:-5}" <<'P'
import os, random, subprocess, sys
work, passes, runs = sys.argv[1], int(sys.argv[2]), int(sys.argv[3])
random.seed(1)

# The answer for each value that has one, by the definition: so many ones, rotated right by `turn`
# in `period` bits, and repeated.
answers = {}
for period in (2, 4, 8, 16, 32, 64):
    for ones in range(1, period):
        for turn in range(period):
            run = (1 << ones) - 1
            word = (run >> turn | run << (period - turn)) & ((1 << period) - 1)
            value = sum(word << place for place in range(0, 64, period))
            s = (-2 * period & 63) | (ones - 1)
            answers[value] = 1 << 24 | (period == 64) << 16 | turn << 8 | s
accepted = list(answers)
random.shuffle(accepted)
refused = []
while len(refused) < len(accepted):
    value = random.getrandbits(64)
    if value not in answers:
        refused.append(value)

def checksum(values):
    total = 0
    for value in values:
        total = (total * 0x9E3779B97F4A7C15 + answers.get(value, 1)) % 2**64
    return total

def run(program, values, count):
    """The processor time in seconds, and the checksum that is printed."""
    with open(f"{work}/input", "w") as file:
        file.writelines(f"{number}\n" for number in [count, *values])
    with open(f"{work}/input") as given, open(f"{work}/output", "w") as printed:
        process = subprocess.Popen([program], stdin=given, stdout=printed)
        _, status, usage = os.wait4(process.pid, 0)
        process.returncode = os.waitstatus_to_exitcode(status)
    if process.returncode != 0:
        sys.exit(f"{program} ended with status {process.returncode}")
    with open(f"{work}/output") as printed:
        return usage.ru_utime + usage.ru_stime, int(printed.read())

programs = {"ours": f"{work}/crates/bitmask_search/out/bitmask_search", "Cranelift's": f"{work}/cranelift"}
figures = {name: [] for name in programs}
for kind, values in (("accepted", accepted), ("refused", refused)):
    wanted, sums = checksum(values), set()
    once = {name: [] for name in programs}
    often = {name: [] for name in programs}
    for _ in range(runs):
        for name, program in programs.items():
            seconds, total = run(program, values, 1)
            once[name].append(seconds)
            if total != wanted:
                sys.exit(f"{name}: the checksum of the {kind} values is {total}, and not {wanted}")
            seconds, total = run(program, values, passes)
            often[name].append(seconds)
            sums.add(total)
    if len(sums) != 1:
        sys.exit(f"the checksums of the {kind} values differ: {sorted(sums)}")
    for name in programs:
        took = (min(often[name]) - min(once[name])) / ((passes - 1) * len(values))
        figures[name].append(f"{took * 1e9:.2f} ns for each of {len(values)} {kind} values")
for name in programs:
    print(f"{name}: {', '.join(figures[name])}")
P
