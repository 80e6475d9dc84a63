#!/usr/bin/env python3
"""Spells the names of definitions and laws in the documents as today's Rattle does.

usage: tools/respell_docs.py FILE..

Run once over README.md and docs/. tools/names.txt has a line for each name whose spelling changed: what it was, and what it is. It was
made by laying each file of crates/*/specs and crates/*/proofs of the last commit before the port beside the same file after port.py and
tools/respell.py: both declare the same names in the same order. Only texts in backticks are changed.
"""

import os
import re
import sys

NAME = re.compile(r"(?<![\w-])[A-Za-z][\w']*(?:-[\w']+)*")
# A text in backticks ends in its paragraph.
SPAN = re.compile(r"(?<!`)`(?!`)((?:(?!\n *\n)[^`])+)`(?!`)")


def main(paths):
    with open(os.path.join(os.path.dirname(os.path.abspath(__file__)), "names.txt"), encoding="utf-8") as file:
        new = dict(line.split() for line in file)
    for path in paths:
        with open(path, encoding="utf-8", newline="") as file:
            text = file.read()
        turned = SPAN.sub(lambda span: NAME.sub(lambda name: new.get(name[0], name[0]), span[0]), text)
        if turned != text:
            with open(path, "w", encoding="utf-8", newline="") as file:
                file.write(turned)


if __name__ == "__main__":
    main(sys.argv[1:])
