#!/usr/bin/env python3
"""Runs the built program as a process, with words and with each status, and fails where one ends otherwise.

Usage: [PROGRAM=FILE] tools/runs.py

`run` is proved for every source and every sink; here the process is seen: its words, its streams and its status.
It takes the program that the gate left in crates/a64_cli/out, and says nothing where all runs end as they should.
"""
import os
import pathlib
import resource
import subprocess
import sys
from dataclasses import dataclass

ROOT = pathlib.Path(__file__).resolve().parent.parent
PROGRAM = os.environ.get("PROGRAM") or str(ROOT / "crates/a64_cli/out/a64_cli")
# A branch over an island where one is asked for, which only forced islands have.
ISLAND = b"Jump L1\nEmitIsland 0\nbind L1\nRet\n"


@dataclass(frozen=True)
class Run:
    """A run of the program: what it is given, and how it has to end."""

    words: tuple[bytes, ...]
    given: bytes = b""
    # The file in the place of the standard input, and of the standard output.
    source: str | None = None
    sink: str | None = None
    # How many bytes of memory the process may have.
    memory: int | None = None
    status: int = 0
    written: bytes = b""
    told: bytes = b""


RUNS = (
    Run((), b"Ret\n", written=b"item 0 0\npool 4\nword 0 d65f03c0\n"),
    Run((b"asm",), ISLAND, written=(
        b"item 0 0\nitem 1 4\nitem 2 4\nitem 3 4\nlabel L1 4\npool 8\nword 0 14000001\nword 4 d65f03c0\n")),
    Run((b"asm", b"force"), ISLAND, written=(
        b"item 0 0\nitem 1 4\nitem 2 28\nitem 3 28\nlabel L1 28\nisland 4 28\npool 32\n"
        b"word 0 14000002\nword 4 14000006\nword 8 98000090\nword 12 10000071\nword 16 8b110210\n"
        b"word 20 d61f0200\nword 24 00000004\nword 28 d65f03c0\n")),
    Run((b"list",), b"Ret\n", written=b"ret\n"),
    Run((b"gen", b"1", b"force", b"more"), status=2, told=b"usage error\n"),
    Run((b"\xff",), status=2, told=b"usage error\n"),
    Run((b"asm",), b"Ret\nRet x0\n", status=1, told=b"line 2: not an entry\n"),
    Run((b"audit",), b"word 0 00000000\n", status=1, told=b"place 0: unknown word\n"),
    Run((b"asm",), source="/", status=3, told=b"read fault\n"),
    Run((b"asm",), b"Ret\n", sink="/dev/full", status=4, told=b"write fault\n"),
    Run((b"asm",), b"Nop4\n" * 2_000_000, memory=1 << 26, status=5, told=b"out of memory\n"),
)


def problem_of(run: Run) -> str | None:
    """How a run ends otherwise, if it does."""
    limit = None if run.memory is None else lambda: resource.setrlimit(resource.RLIMIT_AS, (run.memory, run.memory))
    sink = open(run.sink, "wb") if run.sink else subprocess.PIPE
    source = {"stdin": os.open(run.source, os.O_RDONLY)} if run.source else {"input": run.given}
    ended = subprocess.run([PROGRAM, *run.words], stdout=sink, stderr=subprocess.PIPE, preexec_fn=limit, check=False, **source)
    said = (ended.returncode, ended.stdout or b"", ended.stderr)
    wanted = (run.status, run.written, run.told)
    return None if said == wanted else f"{run.words}: {said}, and not {wanted}"


def main() -> int:
    if not os.access(PROGRAM, os.X_OK):
        print(f"{PROGRAM}: no program is built; rt ci builds it", file=sys.stderr)
        return 1
    problems = [problem for problem in map(problem_of, RUNS) if problem]
    for problem in problems:
        print(problem, file=sys.stderr)
    return 1 if problems else 0


if __name__ == "__main__":
    sys.exit(main())
