"""The layout of every document: lines that are not too long, no tab, no blank at a line's end, no path of a machine."""

import re

COLUMNS_MOST = 140
README = "README.md"
README_MOST = 150

# Folders at the root of one machine. What a user chooses, such as the prefix of an installation, is not among them.
MACHINE_PATH = re.compile(r"(?<![\w.~}-])/(?:(?:work|opt|root|home)(?![\w-])|tmp/)")


def check_line(name, number, line, faults):
    if len(line) > COLUMNS_MOST:
        faults.add(name, number, "a line of %d columns" % len(line), "at most %d" % COLUMNS_MOST)
    if "\t" in line:
        faults.add(name, number, "a tab", "blanks")
    if "\r" in line:
        faults.add(name, number, "a carriage return", "lines that end with a line feed alone")
    if line != line.rstrip():
        faults.add(name, number, "a blank at the end of the line", "none")
    path = MACHINE_PATH.search(line)
    if path:
        faults.add(name, number, "`%s`, a path of one machine" % path[0], "no such path")


def check_backticks(document, faults):
    """A backtick without a second one would hide a name from the other checks."""
    for number, line in enumerate(document.without_code.split("\n"), 1):
        if "`" in line:
            faults.add(document.name, number, "a backtick that stands alone", "one before the text and one behind it")


def check(tree, faults):
    count = 0
    for name, document in tree.documents.items():
        if not tree.has(name):
            faults.add(name, 0, "no such file", "a document")
        for number, line in enumerate(document.lines, 1):
            check_line(name, number, line, faults)
            count += 1
        check_backticks(document, faults)
    lines = len(tree.documents[README].lines)
    if lines > README_MOST:
        faults.add(README, lines, "%d lines" % lines, "at most %d" % README_MOST)
    return {"lines": count}
