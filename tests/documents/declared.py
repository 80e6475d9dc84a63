"""What the crates declare: names of definitions and laws (.antt), of functions, types and traits (.rt), and must-fail edits.

Only a declaration counts, not a mention: not a name in a clause (`ensures { .. }`), in a `ghost use` line or in a comment. What the proof
of a function declares (its goals and its invariants, in proofs/FUNCTION) counts only where the file is named.
"""

import glob
import os
import re
from collections import namedtuple

# All names that a file declares; those of them that do not belong to a type; the fields, cases and functions of each type.
File = namedtuple("File", "names items members")

ANTT_MODIFIERS = re.compile(r"^(?:(?:pub|abbrev|unfoldable) +)+")
ANTT_TYPE = re.compile(r"(?:data|record) +([^\s:]+)")
# Between the names and the colon there may be parameters, as in `either {ℓ} : ..`.
PARAMETER = r"\{[^{}]*\}|\((?:[^()]|\([^()]*\))*\)"
ANTT_NAMES = re.compile(r"([^\s:=(){}]+(?: +[^\s:=(){}]+)*)(?: +(?:%s))* +:(?: |$)" % PARAMETER)

# The files of the proof of one function. A function whose proof the checker finds by itself has none.
OF_FUNCTION = ("Answers", "Invariants", "Proof")

RT_ITEM = re.compile(r'^( *)(?:pub +)?(?:extern +"C" +)?(fn|struct|enum|trait|const|mod) +(\w+)', re.MULTILINE)
RT_IMPL = re.compile(r"^(?:impl(?:<[^>]*>)?|(?:pub +)?trait) +(\w+)[^{]*\{(.*?)^\}", re.MULTILINE | re.DOTALL)
RT_BODY = re.compile(r"^(?:pub +)?(struct|enum) +(\w+)[^{;]*\{(.*?)^\}", re.MULTILINE | re.DOTALL)
RT_FIELD = re.compile(r"(\w+) *:(?!:)")
RT_CASE = re.compile(r"\s*(\w+)")


class Crate:
    def __init__(self, folder):
        self.specs = antt_files(os.path.join(folder, "specs"))
        self.proofs = antt_files(os.path.join(folder, "proofs"))
        self.modules = rt_files(os.path.join(folder, "src"))
        self.edits = {stem(path) for path in glob.glob(os.path.join(glob.escape(folder), "must-fail", "*.edit"))}

    def files(self):
        """The files with definitions, laws and code."""
        return [*self.specs.values(), *(self.proofs[path] for path in self.laws()), *self.modules.values()]

    def laws(self):
        """The paths of the files of proofs that are not of one function."""
        return [path for path in self.proofs if not (os.path.dirname(path) and stem(path) in OF_FUNCTION)]

    def members(self, name):
        """The fields, cases and functions of a type of the code, from all modules; None if there is no such type."""
        found = [file.members[name] for file in self.modules.values() if name in file.members]
        return set().union(*found) if found else None


class Crates(dict):
    """All crates by their names."""

    def __init__(self, root):
        super().__init__()
        for folder in sorted(glob.glob(os.path.join(glob.escape(root), "crates", "*", ""))):
            self[os.path.basename(os.path.dirname(folder))] = Crate(folder)

    def names(self):
        """All names that are declared anywhere, the names of the files of definitions and laws, and the edits."""
        found = set(self)
        for crate in self.values():
            found.update(crate.edits, (stem(path) for path in [*crate.specs, *crate.laws()]))
            found.update(*(file.names for file in crate.files()))
        return found

    def edits(self):
        return {"%s/%s" % (name, edit) for name, crate in self.items() for edit in crate.edits}


def stem(path):
    return os.path.splitext(os.path.basename(path))[0]


def read(path):
    with open(path, encoding="utf-8") as file:
        return file.read()


def files_below(folder, ending):
    return glob.glob(os.path.join(glob.escape(folder), "**", "*" + ending), recursive=True)


def antt_files(folder):
    """The files by their paths in the folder, without the ending."""
    return {os.path.relpath(path, folder)[: -len(".antt")]: antt_file(read(path)) for path in files_below(folder, ".antt")}


def antt_file(text):
    """A line `name : ..` declares a name. In a type it is a field or a case, and in a module it is a name of the file."""
    items, members = set(), {}
    blocks = [(0, items)]  # the indent of each open block, and where its names belong
    for line in text.split("\n"):
        bare = ANTT_MODIFIERS.sub("", line.strip(), count=1)
        indent = len(line) - len(line.lstrip(" "))
        if bare == "" or bare.startswith("--"):
            continue
        while blocks[-1][0] > indent:
            blocks.pop()
        if blocks[-1][0] != indent:
            continue
        opened = ANTT_TYPE.match(bare)
        found = ANTT_NAMES.match(bare)
        if opened:
            blocks[-1][1].add(opened[1])
            blocks.append((indent + 2, members.setdefault(opened[1], set())))
        elif bare.startswith("module "):
            blocks.append((indent + 2, blocks[-1][1]))
        elif found:
            blocks[-1][1].update(found[1].split())
    return File(items.union(*members.values()), items, members)


def rt_files(folder):
    """The files by their modules; the crate's own file is the module ''."""
    found = {}
    for path in files_below(folder, ".rt"):
        module = stem(path)
        found["" if module in ("lib", "main") else module] = rt_file(read(path))
    return found


def rt_file(text):
    """Items, and of each type its fields, its cases and the functions and constants of its `impl`; of each trait its functions."""
    text = re.sub(r"//[^\n]*", "", text)
    items = {found[3] for found in RT_ITEM.finditer(text) if found[1] == ""}
    members = {}
    for kind, name, body in RT_BODY.findall(text):
        members.setdefault(name, set()).update(fields_in(body) if kind == "struct" else cases_in(body))
    for name, body in RT_IMPL.findall(text):
        members.setdefault(name, set()).update(found[3] for found in RT_ITEM.finditer(body))
    return File(items.union(*members.values()), items, members)


def fields_in(body):
    return set(RT_FIELD.findall(body))


def cases_in(body):
    """The cases of an enum and the fields that they carry."""
    carried = re.findall(r"\{([^{}]*)\}", body)
    plain = re.sub(r"\{[^{}]*\}|\([^()]*\)", "", body)
    cases = {found[1] for found in map(RT_CASE.match, plain.split(",")) if found}
    return cases.union(*map(fields_in, carried))
