"""Names of code in the documents: each is declared in the tree.

In docs/CLAIMS.md every text in backticks is a name, of one of these forms:

    Word.nearest                        in crates/rules/specs/Word.antt or crates/rules/proofs/Word.antt
    chart/specs/Chart.state_of          in crates/chart/specs/Chart.antt
    chart/specs/Chart: chart_of, ..     the same, for each name of the list; chart/must-fail: .. for edits
    words::word, Chart::build           in the crate words; of the type Chart
    tests/model, crates/*/specs         a file or a folder
    nearest                             in the file or crate of the name before it, if only a comma or `and` is between them,
                                        otherwise declared anywhere
    word W verdict V                    a command or an answer that `control_chart help` lists

In the other documents only names that have a form of code are checked, and in docs/PORT.md, docs/DESIGN-PASS.md and docs/LOOK-BACK.md none.
"""

import glob
import os
import re
from collections import namedtuple

import program

CLAIMS = "docs/CLAIMS.md"
LIBRARY = "docs/LIBRARY.md"

# The records of the port to a newer Rattle, of its forms and of the look back at them: they have names as they were beside names as they are.
PORT = re.compile(r"docs/(?:PORT(?:-\w+)?|DESIGN-PASS|LOOK-BACK)\.md")

# Other texts in backticks of CLAIMS, each with the reason why no declaration is asked for.
OTHER = {
    "i16": "a type of Rattle",
    "i64": "a type of Rattle",
    "f64": "a type of Rattle",
    "ensures": "a keyword of Rattle",
    "requires": "a keyword of Rattle",
    "*size": "what an argument of C leads to",
    "std": "a library of the kit",
    "io": "a library of the kit",
    "Reads.Post": "the checker makes this file from a contract",
    "rt ci": "a command of the kit",
    "# document 01, figures: ..": "a line of the vectors",
    "logic=proved": "a part of the line of rt check",
    "axioms=": "a part of the line of rt check",
    "axioms=2": "a part of the line of rt check",
    "axioms=36": "a part of the line of rt check",
    "logic-built=trusted": "a part of the line of rt check",
    "libraries-built=trusted": "a part of the line of rt check",
    "statements=trusted": "a part of the line of rt check",
    "native=nat,char,string": "a part of the line of rt check",
    "sum=dac8208d650f15bf": "a part of the line of rt check",
}

# The first part of a path that leads out of this tree, or that has no crate of its own.
RUSTS_OWN = ("std", "core", "crate", "self", "super")

ROOT_CRATE = "rules"
IN_ANTT = re.compile(r"(?:crates/)?(\w+)/(specs|proofs)/([\w+/]+)((?:\.[^\s./]+)*)")
IN_GUIDE = re.compile(r"([A-Z]\w*)\.([^\s./]+)")
RUST_PATH = re.compile(r"[A-Za-z_]\w*(?:::[A-Za-z_]\w*)+")
EDITS_OF = re.compile(r"(?:crates/)?(\w+)/must-fail")
CRATE_AND_NAME = re.compile(r"(\w+)/(\w+)")
LIST_GOES_ON = (", ", " and ", ", and ")

# Where a name is declared: what it is called in a message, and the names there.
Scope = namedtuple("Scope", "label names")


class Unknown(Exception):
    """No such name. The argument says what was expected."""


class Resolver:
    def __init__(self, tree):
        self.root = tree.root
        self.crates = tree.crates
        self.declared = tree.crates.names()
        self.forms = program.forms(tree.help)
        self.files = {os.path.basename(path) for path in self.paths("*") + self.paths("crates/*/*")}
        self.sources = {os.path.basename(path) for path in self.paths("crates/**/*.antt") + self.paths("crates/**/*.rt")}

    def paths(self, pattern):
        return glob.glob(os.path.join(glob.escape(self.root), pattern), recursive=True)

    def qualified(self, name):
        """The scope of a name that says where it is declared, or None if it has another form."""
        if RUST_PATH.fullmatch(name):
            return self.rust(name.split("::"))
        found = IN_ANTT.fullmatch(name)
        if found:
            return self.antt(*found.groups())
        found = EDITS_OF.fullmatch(name)
        if found and found[1] in self.crates:
            return Scope("crates/%s/must-fail" % found[1], self.crates[found[1]].edits)
        if "/" in name:
            return self.path(name)
        found = IN_GUIDE.fullmatch(name)
        if found and name not in self.sources:
            return self.in_rules(*found.groups())
        return None

    def rust(self, parts):
        """A crate, a module of any crate, or a type of any crate, and what it has."""
        if parts[0] in self.crates:
            return self.in_crate(self.crates[parts[0]], parts[1:], parts)
        crates = [crate for crate in self.crates.values() if parts[0] in crate.modules]
        if crates:
            return self.in_any_crate(crates, parts)
        return self.in_type(parts[0], self.crates.values(), parts[1:])

    def in_any_crate(self, crates, parts):
        """A module of this name may be in more than one crate."""
        for crate in crates[:-1]:
            try:
                return self.in_crate(crate, parts, parts)
            except Unknown:
                pass
        return self.in_crate(crates[-1], parts, parts)

    def in_crate(self, crate, rest, parts):
        file = crate.modules.get("")
        if len(rest) > 1 and rest[0] in crate.modules:
            file = crate.modules[rest[0]]
            rest = rest[1:]
        label = "`%s`" % "::".join(parts[: len(parts) - len(rest)])
        if file is None:
            raise Unknown("code in %s" % label)
        if len(rest) > 1:
            return self.in_type(rest[0], [crate], rest[1:])
        if rest[0] not in file.items:
            raise Unknown("a name that %s declares" % label)
        return Scope(label, file.items)

    def in_type(self, name, crates, rest):
        """A field, a case or a function of a type. A name after it may be one of the type's crate too."""
        crates = [crate for crate in crates if crate.members(name) is not None]
        if not crates:
            raise Unknown("a type `%s` of the code" % name)
        if len(rest) != 1 or not any(rest[0] in crate.members(name) for crate in crates):
            raise Unknown("a field, a case or a function of the type `%s`" % name)
        names = set().union(*(file.names for crate in crates for file in crate.modules.values()))
        return Scope("the crate of the type `%s`" % name, names)

    def antt(self, crate, folder, path, rest):
        file = "crates/%s/%s/%s.antt" % (crate, folder, path)
        there = getattr(self.crates.get(crate), folder, {})
        if path not in there:
            raise Unknown("a file %s" % file)
        names = rest.strip(".").split(".") if rest not in ("", ".antt") else []
        return self.in_antt(Scope(file, there[path].names), there[path].members, names)

    def in_antt(self, scope, members, names):
        if names and names[0] not in scope.names:
            raise Unknown("a name that %s declares" % scope.label)
        if len(names) > 1 and names[1] not in members.get(names[0], ()) or len(names) > 2:
            raise Unknown("a field or a case of `%s` in %s" % (names[0], scope.label))
        return scope

    def rules_file(self, name):
        """The names of a file of definitions or laws about document 01, or None."""
        rules = self.crates.get(ROOT_CRATE)
        found = [there[name].names for there in (rules.specs, rules.proofs) if name in there] if rules else []
        label = "%s.antt in crates/%s/specs or proofs" % (name, ROOT_CRATE)
        return Scope(label, set().union(*found)) if found else None

    def in_rules(self, file, name):
        scope = self.rules_file(file)
        if scope is None:
            return self.in_type(file, self.crates.values(), [name])
        if name not in scope.names:
            raise Unknown("a name that %s declares" % scope.label)
        return scope

    def files_called(self, name):
        """The files of definitions and laws of any crate that have this name."""
        return [there[name] for crate in self.crates.values() for there in (crate.specs, crate.proofs) if name in there]

    def by_form(self, name):
        """Finds a name of another document than CLAIMS: a file without a path may be one of any crate."""
        found = IN_GUIDE.fullmatch(name)
        if not found or not self.files_called(found[1]):
            self.name(name)
        elif not any(found[2] in file.names for file in self.files_called(found[1])):
            raise Unknown("a name that a file %s.antt in crates/*/specs or proofs declares" % found[1])

    def path(self, name):
        """A file or a folder, from the root or from crates; or an edit."""
        found = CRATE_AND_NAME.fullmatch(name)
        if found and found[2] in getattr(self.crates.get(found[1]), "edits", ()):
            return None
        if not self.paths(name) and not self.paths(os.path.join("crates", name)):
            raise Unknown("a file, a folder or a must-fail edit of this tree")
        return None

    def name(self, name, scope=None):
        """Finds one name, and gives the scope for a bare name after it."""
        here = self.qualified(name)
        if here is not None or "/" in name:
            return here
        if scope is not None:
            if name not in scope.names:
                raise Unknown("a name that %s declares, as the name before it" % scope.label)
            return scope
        if name not in self.declared and name not in self.files and name not in self.sources and name not in self.forms:
            raise Unknown("a name that crates/*/specs, proofs or src declare")
        return None


def head_of(text):
    """A name without the arguments that follow it, as in `Machine.after s calls`."""
    head = re.match(r"[^\s(]*", text)[0]
    return head if RUST_PATH.fullmatch(head) or IN_ANTT.fullmatch(head) or IN_GUIDE.fullmatch(head) else text


def check_claims(tree, resolver, faults):
    """Every text in backticks of CLAIMS."""
    document = tree.documents[CLAIMS]
    used = set()
    scope = before = None
    for span in document.spans:
        between = document.between(before, span) if before else ""
        if between == ": " and resolver.rules_file(before.text):
            scope = resolver.rules_file(before.text)
        elif between != ": " and between not in LIST_GOES_ON:
            scope = None
        before = span
        if span.text in OTHER:
            used.add(span.text)
            continue
        try:
            scope = resolver.name(head_of(span.text), scope)
        except Unknown as unknown:
            faults.add(CLAIMS, span.line, "`%s`" % span.text, unknown)
    for name in OTHER:
        if name not in used:
            faults.add("tests/documents/names.py", 0, "`%s` in OTHER" % name, "only names that %s has" % CLAIMS)
    return len(document.spans)


def names_by_form(resolver, text):
    """The names of code in a text, by their form."""
    yield from (path for path in RUST_PATH.findall(text) if path.split("::")[0] not in RUSTS_OWN)
    head = text.split(" ")[0]
    edit = CRATE_AND_NAME.fullmatch(head)
    if "::" in head:
        return
    if "/specs/" in head or "/proofs/" in head or head.endswith((".rt", ".antt")) or edit and edit[1] in resolver.crates:
        yield head
    elif IN_GUIDE.fullmatch(head) and resolver.files_called(head.split(".")[0]):
        yield head


def check_by_form(tree, resolver, faults):
    """Names in backticks of the other documents, and paths in the code of LIBRARY."""
    count = 0
    for document in tree.documents.values():
        if PORT.fullmatch(document.name):
            continue
        texts = [(span.line, span.text) for span in document.spans if document.name != CLAIMS]
        if document.name == LIBRARY:
            texts += [(block.line + number, path) for block in document.blocks
                      for number, line in enumerate(block.lines) for path in RUST_PATH.findall(line)]
        for line, text in texts:
            for name in names_by_form(resolver, text):
                count += 1
                try:
                    resolver.by_form(name)
                except Unknown as unknown:
                    faults.add(document.name, line, "`%s`" % name, unknown)
    return count


def check(tree, faults):
    resolver = Resolver(tree)
    return {"names of CLAIMS": check_claims(tree, resolver, faults), "other names": check_by_form(tree, resolver, faults)}
