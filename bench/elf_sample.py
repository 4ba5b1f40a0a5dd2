#!/usr/bin/env python3
"""Has the object of a64_elf_sample read by readelf and objdump, linked with a program in C, and run under qemu.

Usage: bench/elf_sample.py [PRINTED]

PRINTED is what the program prints, else the file `stdout` of its crate, which the gate compares with that. readelf and
objdump may not warn, each relocation has to be told by its name and symbol, and each instruction has to be read. GNU
ld, ld.lld and the gcc driver link it, alone and after `ld -r` with a second object, and each program has to print what
the function answers.
"""
import pathlib
import shutil
import subprocess
import sys
import tempfile

ROOT = pathlib.Path(__file__).resolve().parent.parent
TRIPLE = "aarch64-linux-gnu-"
RELOCATIONS = ["4 CALL26 twice", "8 ADR_GOT_PAGE base", "c LD64_GOT_LO12_NC base", "18 ADR_PREL_PG_HI21 own",
               "1c ADD_ABS_LO12_NC own", "38 ABS64 twice"]
MAIN = """
#include <stdio.h>
int base = 100;
int twice(int x) { return 2 * x; }
extern int total(int);
extern int (*pointer)(int);
int main(void) { printf("%d %d\\n", total(5), pointer(4)); return 0; }
"""
ANSWER = "117 8\n"


def run(*words):
    """What a command prints; it has to succeed and to say nothing else."""
    done = subprocess.run([str(word) for word in words], capture_output=True, text=True)
    if done.returncode != 0 or done.stderr:
        sys.exit(f"{' '.join(map(str, words))}: status {done.returncode}\n{done.stderr}")
    return done.stdout


def check_read(path):
    """readelf and objdump read all of the object."""
    told = run(TRIPLE + "readelf", "-aW", path)
    if "Warning" in told or "Error" in told:
        sys.exit(told)
    rows = [line.split() for line in told.splitlines() if " R_AARCH64_" in line]
    found = [f"{int(row[0], 16):x} {row[2].removeprefix('R_AARCH64_')} {row[4]}" for row in rows]
    if found != RELOCATIONS:
        sys.exit(f"relocations: {found}")
    shown = run(TRIPLE + "objdump", "-dr", path)
    if "undefined" in shown or ".inst" in shown or shown.count(".word") != 2 or shown.count("R_AARCH64_") != 6:
        sys.exit(shown)


def links(folder, objects):
    """Programs of these objects, one by each linker, with their names."""
    driver = TRIPLE + "gcc"
    linker = folder / "ld.lld"
    if not linker.exists():
        # A driver for another machine looks for it in its own folders and in those that it is told.
        linker.symlink_to(shutil.which("ld.lld"))
    for name, options in [("GNU ld", []), ("ld.lld", ["-fuse-ld=lld", f"-B{folder}"])]:
        program = folder / "program"
        run(driver, "-static", "-no-pie", *options, *objects, "-o", program)
        yield name, program


def main():
    """Makes the objects, and has each read, linked and run."""
    printed = sys.argv[1] if len(sys.argv) > 1 else ROOT / "crates/a64_elf_sample/stdout"
    with tempfile.TemporaryDirectory() as name:
        folder = pathlib.Path(name)
        sample, source, other, joined = (folder / part for part in ("sample.o", "main.c", "main.o", "joined.o"))
        sample.write_bytes(bytes.fromhex(pathlib.Path(printed).read_text()))
        source.write_text(MAIN)
        check_read(sample)
        run(TRIPLE + "gcc", "-fno-pie", "-c", source, "-o", other)
        run(TRIPLE + "ld", "-r", sample, other, "-o", joined)
        count = 0
        for objects in ([sample, other], [joined]):
            for linker, program in links(folder, objects):
                answer = run("qemu-aarch64", program)
                if answer != ANSWER:
                    sys.exit(f"{linker}: {answer}")
                count += 1
        print(f"1 object, {len(RELOCATIONS)} relocations, {count} programs: as they should be")


main()
