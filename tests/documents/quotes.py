"""Quotes of definitions: every code block of CLAIMS is in a file of crates/*/specs, which may have comments between the lines."""

import glob
import os

CLAIMS = "docs/CLAIMS.md"


def without_comments(lines):
    """The lines without comments, empty lines and blanks at their ends."""
    return [line.rstrip() for line in lines if line.strip() and not line.lstrip().startswith("--")]


def stands_in(quote, lines):
    return any(lines[number : number + len(quote)] == quote for number in range(len(lines) - len(quote) + 1))


def check(tree, faults):
    paths = glob.glob(os.path.join(glob.escape(tree.root), "crates", "*", "specs", "**", "*.antt"), recursive=True)
    files = [without_comments(tree.read(os.path.relpath(path, tree.root)).split("\n")) for path in paths]
    blocks = tree.documents[CLAIMS].blocks
    for block in blocks:
        quote = without_comments(block.lines)
        if not any(stands_in(quote, lines) for lines in files):
            faults.add(CLAIMS, block.line, "a quote that begins with %s" % block.lines[0], "lines of one file of crates/*/specs")
    return {"quotes": len(blocks)}
