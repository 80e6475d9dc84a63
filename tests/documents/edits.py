"""Must-fail edits (wrong versions): each has one entry in docs/MUST-FAIL.md, and the numbers of edits are right.

An entry is a row of a table, or an item of a list, that begins with the name of the edit: `| ` or `- `, then `crate/edit` in
backticks.
"""

import re
from collections import Counter

MUST_FAIL = "docs/MUST-FAIL.md"
README = "README.md"

ENTRY = re.compile(r" *(?:\||-) +`(\w+)/(\w+)`")
WRONG = re.compile(r"(?<![\w.,])([0-9][0-9,]*)\s+wrong\b")


def entries(tree, document):
    """The lines of the entries with the name of the edit. `tests/model` and such are not entries: their folder is not a crate."""
    for number, line in enumerate(document.prose.split("\n"), 1):
        found = ENTRY.match(line)
        if found and found[1] in tree.crates:
            yield number, "%s/%s" % found.groups()


def check_entries(tree, faults):
    document = tree.documents[MUST_FAIL]
    edits = tree.crates.edits()
    times = Counter()
    for line, edit in entries(tree, document):
        times[edit] += 1
        if edit not in edits:
            faults.add(MUST_FAIL, line, "an entry of `%s`" % edit, "an edit of crates/*/must-fail")
        elif times[edit] > 1:
            faults.add(MUST_FAIL, line, "a second entry of `%s`" % edit, "one entry for each edit")
    for edit in sorted(edits - set(times)):
        faults.add(MUST_FAIL, 0, "no entry of `%s`" % edit, "a row or an item that begins with it")
    return len(edits)


def check_counts(tree, faults):
    """The table of MUST-FAIL with the head `| Crate | Edits |`: how many edits each crate has, and how many there are in `all`."""
    count = 0
    numbers = {name: len(crate.edits) for name, crate in tree.crates.items() if crate.edits}
    numbers["all"] = len(tree.crates.edits())
    for table in tree.documents[MUST_FAIL].tables:
        if table.head[:2] != ["Crate", "Edits"]:
            continue
        rows = {row.cells[0].strip("`"): (row.line, row.cells[1]) for row in table.rows if len(row.cells) > 1}
        for name, number in numbers.items():
            line, found = rows.pop(name, (table.line, "no number"))
            count += 1
            if found != str(number):
                faults.add(MUST_FAIL, line, "%s of edits of `%s`" % (found, name), number)
        for name, (line, _) in rows.items():
            faults.add(MUST_FAIL, line, "a row of `%s`" % name, "a crate with edits, or `all`")
    return count


def check_wrong(tree, faults):
    """A number before `wrong`, as in `143 wrong programs`, is the number of all edits."""
    count = 0
    for name in (README, MUST_FAIL):
        document = tree.documents[name]
        for found in WRONG.finditer(document.prose):
            count += 1
            if int(found[1].replace(",", "")) != len(tree.crates.edits()):
                faults.add(name, document.line_at(found.start()), "%s wrong" % found[1], len(tree.crates.edits()))
    return count


def check(tree, faults):
    numbers = check_counts(tree, faults) + check_wrong(tree, faults)
    return {"edits": check_entries(tree, faults), "numbers of edits": numbers}
