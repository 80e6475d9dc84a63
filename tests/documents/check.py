"""Keeps the documents true: compares them with the tree that they describe.

python3 tests/documents/check.py                the self-test, then the documents
python3 tests/documents/check.py --self-test    the self-test alone

Every fault is one line: file and line, what was found there, and what is expected. The exit status is then 1. If there is
no fault, the last line says how many facts of each sort were compared. A sort with too few facts is a fault too: a check
that finds nothing to compare proves nothing.
"""

import os
import sys

sys.dont_write_bytecode = True
ROOT = os.path.dirname(os.path.dirname(os.path.dirname(os.path.abspath(__file__))))
sys.path.insert(0, os.path.join(ROOT, "tests", "model"))

import crates_named  # noqa: E402
import edits  # noqa: E402
import examples  # noqa: E402
import functions  # noqa: E402
import layout  # noqa: E402
import links  # noqa: E402
import meanings  # noqa: E402
import names  # noqa: E402
import quotes  # noqa: E402
import transcripts  # noqa: E402
from tree import Faults, Tree  # noqa: E402

CHECKS = (layout, links, names, quotes, edits, meanings, functions, transcripts, examples, crates_named)

# The least number of facts of each sort.
LEAST = {
    "lines": 1000,
    "links": 40,
    "names of CLAIMS": 500,
    "other names": 200,
    "quotes": 1,
    "edits": 100,
    "numbers of edits": 15,
    "texts of refusals": 80,
    "texts of verdicts": 40,
    "functions for C": 40,
    "macros for C": 10,
    "commands run": 15,
    "calls of the model": 10,
    "commands of help": 10,
    "lines of examples": 60,
    "crates": 15,
}


def compare(tree, least):
    """All checks: the faults, and the number of facts of each sort."""
    faults = Faults()
    counts = {}
    for module in CHECKS:
        counts.update(module.check(tree, faults))
    for sort, number in least.items():
        if counts[sort] < number:
            faults.add("tests/documents", 0, "%d %s" % (counts[sort], sort), "at least %d" % number)
    return faults, counts


def main(arguments):
    import self_test

    if arguments not in ([], ["--self-test"]):
        print("usage: tests/documents/run [--self-test]", file=sys.stderr)
        return 2
    if not self_test.passed():
        return 1
    if arguments:
        return 0
    faults, counts = compare(Tree(ROOT), LEAST)
    for fault in faults:
        print(fault)
    if faults:
        print("documents: %d faults" % len(faults))
        return 1
    print("documents: %s: all as they stand" % ", ".join("%d %s" % (number, sort) for sort, number in counts.items()))
    return 0


if __name__ == "__main__":
    sys.exit(main(sys.argv[1:]))
