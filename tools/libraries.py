"""What scripts need that build a static library of what `rt ci` keeps: the crates, and the proved libraries below one."""
import pathlib
import shutil
import subprocess

ROOT = pathlib.Path(__file__).resolve().parent.parent


class Fault(Exception):
    """Why something cannot be built."""


def kit():
    """The folder of the kit."""
    page = subprocess.run(["rt", "doc"], check=True, capture_output=True, text=True).stdout.strip()
    return pathlib.Path(page).parent


def crates():
    """The lines of crates.txt, by crate: the whole line, and what the crate stands on."""
    found = {}
    for line in (ROOT / "crates.txt").read_text().splitlines():
        if line and not line.startswith("#"):
            head, _, below = line.partition(":")
            found[head.split()[0]] = (line, below.split())
    return found


def below(listed, name):
    """The crates of this repository below one, each behind those that it stands on."""
    found = []
    for other in listed[name][1]:
        if other in listed:
            found += [it for it in [*below(listed, other), other] if it not in found]
    return found


def proved(listed, names, folder):
    """Copies crates into a folder, and has `rt ci` prove there what it does not keep."""
    for name in names:
        for part in "src", "specs", "proofs":
            if (ROOT / "crates" / name / part).is_dir():
                shutil.copytree(ROOT / "crates" / name / part, folder / "crates" / name / part)
    (folder / "crates.txt").write_text("".join(listed[name][0] + "\n" for name in names))
    shutil.copy(ROOT / "HANDLES", folder)
    run = subprocess.run(["rt", "ci"], cwd=folder, stdin=subprocess.DEVNULL, stdout=subprocess.PIPE, text=True)
    if run.returncode:
        raise Fault(f"a library is not proved:\n{run.stdout[-3000:]}")
    print(next((line for line in run.stdout.splitlines() if line.startswith("rt: ok")), "rt: ok"), flush=True)


def words_of(listed, name, folder, target):
    """The words for `rattle build` that make a static library for a target, over the proved libraries of a folder."""
    home = kit()
    names = below(listed, name)
    words = ["--crate-name", name, "src/lib.rt", "--crate-type", "staticlib", "--target", target]
    words += ["--extern", f"std={home}/rlibs/std.rlib", "-L", f"dependency={home}/rlibs"]
    for other in listed[name][1]:
        if other not in names:
            words += ["--extern", f"{other}={home}/rlibs/{other}.rlib"]
    for other in names:
        libraries = folder / "crates" / other / "out" / "rlib"
        words += ["--extern", f"{other}={libraries / other}.rlib"] if other in listed[name][1] else []
        words += ["-L", f"dependency={libraries}"]
    return words + ["--antt-project", f"{home}/rattle/logic/antt-project.json", "--logic-built", f"{home}/logic_built"]


def build(words, source, toolchain, to):
    """Proves a crate and builds it, by the compiler of a toolchain, and returns what the prover said."""
    words = [f"{kit()}/bin/rattle", "build", *words, "--toolchain", str(toolchain), "-o", str(to)]
    run = subprocess.run(words, cwd=source, stdin=subprocess.DEVNULL, stdout=subprocess.PIPE, stderr=subprocess.STDOUT,
                         text=True)
    if run.returncode:
        raise Fault(f"{source.name} is not proved:\n{run.stdout[-3000:]}")
    return run.stdout
