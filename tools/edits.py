#!/usr/bin/env python3
"""Says whether each must-fail edit still applies: each of its `old:` texts stands exactly once in the file
that it names, over what its earlier pairs made, and it changes something.

An edit that no longer applies shows nothing, and the gate alone would say so only after an hour.
"""
import pathlib
import sys

ROOT = pathlib.Path(__file__).resolve().parent.parent


def fault_of(edit):
    """Why the edit does not apply, or None."""
    crate = edit.parent.parent
    path, old, texts, before = None, None, {}, {}
    for line in edit.read_text(encoding="utf-8").split("\n"):
        if line.startswith("file: "):
            path = line[len("file: "):].strip()
            if not (crate / path).is_file():
                return f"there is no file {path}"
            if path not in texts:
                texts[path] = before[path] = (crate / path).read_text(encoding="utf-8")
        elif line.startswith("old: "):
            old = line[len("old: "):]
        elif line.startswith("new:"):
            if path is None or old is None:
                return "a 'new:' line without its 'file:' and 'old:' lines"
            found = texts[path].count(old)
            if found != 1:
                return f"an 'old:' text stands in {path} {found} times"
            texts[path] = texts[path].replace(old, line[len("new:"):].removeprefix(" "))
            old = None
    return None if texts != before else "it changes nothing"


def main():
    edits = sorted(ROOT.glob("crates/*/must-fail/*.edit"))
    faults = [(edit, fault) for edit in edits if (fault := fault_of(edit))]
    for edit, fault in faults:
        print(f"{edit.relative_to(ROOT)}: {fault}")
    print(f"{len(edits)} must-fail edits, {len(faults)} of them do not apply")
    return 1 if faults or not edits else 0


if __name__ == "__main__":
    sys.exit(main())
