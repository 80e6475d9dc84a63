"""Refusals and verdicts: the same numbers and texts in the header, the documents, help, the model and the library."""

import re

import interface
import program
from tree import HEADER, HELP, LIBRARY, NOT_THERE

REFUSALS = "docs/REFUSALS.md"
VERDICT_DOCUMENTS = ("docs/RULES.md", "docs/BENCH.md")

FIRST_REFUSAL = "#define CONTROL_CHART_DONE "
FIRST_VERDICT = "#define CONTROL_CHART_VERDICT_"
DEFINE = re.compile(r"#define +(CONTROL_CHART_\w+) +([0-9]+) +/\* (.*?) \*/ *")
VERSION = re.compile(r'#define +CONTROL_CHART_VERSION +"([^"]*)"')

REFUSALS_EXPECTED = range(0, 17)
REFUSALS_OF_HELP = tuple(range(1, 15)) + (16,)  # the buffers of the program are long enough, so 15 does not occur
VERDICTS_EXPECTED = range(0, 5)
ASKED_OF_LIBRARY = range(0, 21)


def defines_from(lines, first, faults):
    """The block of defines that begins with `first`: rows of line, number and text."""
    start = next((number for number, line in enumerate(lines) if line.startswith(first)), len(lines))
    rows = []
    for number in range(start, len(lines)):
        if not lines[number].startswith("#define "):
            break
        found = DEFINE.fullmatch(lines[number])
        if found:
            rows.append((number + 1, int(found[2]), found[3]))
        else:
            faults.add(HEADER, number + 1, "`%s`" % lines[number], "#define CONTROL_CHART_NAME NUMBER /* text */")
    return rows


def rows_of(table):
    """The rows of a table whose first cell is a number."""
    return [(row.line, int(row.cells[0]), row.cells[1]) for row in table.rows
            if row.cells[0].isdigit() and len(row.cells) > 1]


def refusals_in(document):
    """The first table whose rows begin with a number."""
    return next((rows_of(table) for table in document.tables if rows_of(table)), [])


def verdicts_in(document):
    """Every table whose first head is Verdict."""
    return [rows_of(table) for table in document.tables if table.head[0] == "Verdict"]


def listed(what, numbers):
    return "%s %s" % (what, ", ".join(map(str, numbers)))


def check_rows(file, what, rows, numbers, texts, faults):
    """Each number once, with the text of the header."""
    for line, number, text in rows:
        if number not in numbers:
            faults.add(file, line, listed(what, [number]), "numbers from %d to %d" % (numbers[0], numbers[-1]))
        elif number in texts and text != texts[number]:
            faults.add(file, line, "%s: %s" % (listed(what, [number]), text), texts[number])
    found = [number for _, number, _ in rows]
    missing = [number for number in numbers if number not in found]
    double = [number for number in numbers if found.count(number) > 1]
    if missing:
        faults.add(file, 0, "no row of %s" % listed(what, missing), "one row for each number")
    if double:
        faults.add(file, 0, "more than one row of %s" % listed(what, double), "one row for each number")
    return len(rows)


def check_texts(where, what, found, expected, faults):
    """Texts by their numbers, from a source without line numbers."""
    for number in sorted({*found, *expected}):
        if found.get(number) != expected.get(number):
            faults.add(where, 0, "%s: %s" % (listed(what, [number]), found.get(number)), expected.get(number))
    return len(expected)


def check_library(tree, what, function, texts, other, faults):
    found = {number: tree.library.text(function, number) for number in ASKED_OF_LIBRARY}
    if found[0] in NOT_THERE:
        faults.add("%s in %s" % (function, LIBRARY), 0, found[0], "the texts of the header")
        return 0
    expected = {number: texts.get(number, other) for number in ASKED_OF_LIBRARY}
    return check_texts("%s in %s" % (function, LIBRARY), what, found, expected, faults)


def check_refusals(tree, faults):
    rows = defines_from(tree.header, FIRST_REFUSAL, faults)
    texts = {number: text for _, number, text in rows}
    count = check_rows(HEADER, "refusal", rows, REFUSALS_EXPECTED, texts, faults)
    rows = refusals_in(tree.documents[REFUSALS])
    count += check_rows(REFUSALS, "refusal", rows, REFUSALS_EXPECTED[1:], texts, faults)
    count += check_rows(HELP, "refusal", program.refusals(tree.help), REFUSALS_OF_HELP, texts, faults)
    count += check_texts("tests/model/interface.py", "refusal", interface.REFUSAL_TEXTS, texts, faults)
    return count + check_library(tree, "refusal", "control_chart_refusal_text", texts, interface.NO_SUCH_NUMBER, faults)


def check_verdicts(tree, faults):
    rows = defines_from(tree.header, FIRST_VERDICT, faults)
    texts = {number: text for _, number, text in rows}
    count = check_rows(HEADER, "verdict", rows, VERDICTS_EXPECTED, texts, faults)
    tables = [(name, table) for name in VERDICT_DOCUMENTS for table in verdicts_in(tree.documents[name])]
    for name, table in tables:
        count += check_rows(name, "verdict", table, VERDICTS_EXPECTED, texts, faults)
    if not tables:
        faults.add(VERDICT_DOCUMENTS[0], 0, "no table of verdicts", "a table with the head | Verdict | Text |")
    count += check_rows(HELP, "verdict", program.verdicts(tree.help), VERDICTS_EXPECTED, texts, faults)
    count += check_texts("tests/model/interface.py", "verdict", interface.VERDICT_TEXTS, texts, faults)
    return count + check_library(tree, "verdict", "control_chart_verdict_text", texts, interface.NO_SUCH_VERDICT, faults)


def check_version(tree, faults):
    line, version = next(((number, found[1]) for number, found in enumerate(map(VERSION.match, tree.header), 1) if found),
                         (0, ""))
    if not version:
        faults.add(HEADER, line, "no version", '#define CONTROL_CHART_VERSION "NUMBER"')
    if tree.version != "control_chart " + version:
        faults.add("control_chart --version", 0, tree.version or "no answer", "control_chart " + version)
    found = tree.library.text("control_chart_version")
    if found != version:
        faults.add("control_chart_version in %s" % LIBRARY, 0, found, version)
    if interface.VERSION != version:
        faults.add("tests/model/interface.py", 0, "the version %s" % interface.VERSION, version)


def check(tree, faults):
    check_version(tree, faults)
    return {"texts of refusals": check_refusals(tree, faults), "texts of verdicts": check_verdicts(tree, faults)}
