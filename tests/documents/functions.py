"""The C interface: docs/C.md names every function of the header, and no document names one that the header does not have."""

import re

from tree import HEADER

C = "docs/C.md"

DECLARED = re.compile(r"^\w[\w *]*[ *](control_chart_\w+)\(")
DEFINED = re.compile(r"^#define +(CONTROL_CHART_\w+)")
NAMED = re.compile(r"(?<![\w/])control_chart_\w+")
MACRO_NAMED = re.compile(r"(?<!\w)CONTROL_CHART_\w*")


def found_in(lines, pattern):
    """The first group of every match, or the whole match, with its line number."""
    return [(number, found) for number, line in enumerate(lines, 1) for found in pattern.findall(line)]


def check_named(document, pattern, declared, what, faults):
    """All names of a document. A name that ends in `_` means all that begin with it."""
    named = found_in(document.lines, pattern)
    for line, name in named:
        if name not in declared and not (name.endswith("_") and any(one.startswith(name) for one in declared)):
            faults.add(document.name, line, name, "a %s that %s has" % (what, HEADER))
    return [name for _, name in named]


def check(tree, faults):
    functions = {name for _, name in found_in(tree.header, DECLARED)}
    macros = {name for _, name in found_in(tree.header, DEFINED)}
    functions_named = macros_named = 0
    for document in tree.documents.values():
        named = check_named(document, NAMED, functions, "function", faults)
        functions_named += len(named)
        macros_named += len(check_named(document, MACRO_NAMED, macros, "macro", faults))
        if document.name == C:
            for name in sorted(functions - set(named)):
                faults.add(C, 0, "no %s" % name, "every function of %s" % HEADER)
    return {"functions for C": functions_named, "macros for C": macros_named}
