#!/usr/bin/env python3
"""Measures the pages (README.md, docs/*.md, crates/*/README.md), and makes the parts of them that sources give.

Usage: tools/pages.py [--check | --write]

Without a word it prints how many words each page has beside its tables. With --write the parts between
`<!-- made: NAME -->` and `<!-- end -->` are written anew. With --check, as the gate runs it, nothing is written, and
the status is 1 where

- the pages of docs/ have more words together, or a crate's page has more, than their bounds;
- a sentence or a paragraph is too long, or the first line of a page does not say for whom it is;
- a link leads to no file or heading, a name in backticks or a file of a crate is gone, or a name is not in the file
  that stands behind it in parentheses;
- a part is not what is made;
- a public call with promises has no sentence, or a record of five promises or more, which a promise names, has none and
  no field of it has one.

Words, sentences and paragraphs of tables and of code are not counted. A smaller definition may have no sentence: its
name and its equation say it. What macros make is not seen.
"""
import sys

from writing import bounds, clauses, counts, crate_list, edits, links, made, names, refusals

MAKERS: made.Makers = {
    "crates": crate_list.table,
    "layers": crate_list.picture,
    "counts": counts.table,
    "instructions": counts.groups,
    "item-refusals": refusals.of_items,
    "unit-refusals": refusals.of_units,
    "word-verdicts": refusals.of_words,
    "clauses": clauses.page,
    "wrong-bodies": edits.table,
}


def check() -> int:
    """Tells what is wrong with the pages, and answers whether something is."""
    faults = [*bounds.check(), *made.check(bounds.docs(), MAKERS), *clauses.faults()]
    faults += [fault for page in bounds.pages() for fault in (*links.faults_of(page), *names.faults_of(page))]
    print(*faults, sep="\n", end="\n" if faults else "")
    return 1 if faults else 0


def main() -> int:
    """Measures, writes or checks."""
    words = sys.argv[1:]
    if words == ["--check"]:
        return check()
    if words == ["--write"]:
        made.write(bounds.docs(), MAKERS)
        return 0
    if words:
        sys.exit(__doc__)
    print(*bounds.table(), sep="\n")
    return 0


if __name__ == "__main__":
    sys.exit(main())
