#!/usr/bin/env python3
"""Spells the repository's own definitions and lemmas as today's Rattle does.

usage: tools/respell.py [--list] ROOT

Run once over a tree that port.py has turned. `baseWanted` becomes `base_wanted`. A lemma's dash becomes `_`, and stays a dash
where it joins the names of two definitions, as in `length-but_last`. Names in src/, strings and comments of code stay as they are, and so do
the names that Rattle makes for goals and steps. With --list it prints the names and writes nothing.
"""

import glob
import os
import re
import sys

W = r"[^\s(){}.;,@\"«»\[\]\\:]+"
TOKEN = re.compile(r"\"(?:[^\"\\]|\\.)*\"|" + W)
CAMEL = re.compile(r"[a-z][a-z0-9]+(?:[A-Z][a-z0-9']*)+$")
DECLARED = re.compile(
    r"^ *(?:(?:abbrev|unfoldable) )?(?:pub )?((?:[^\s(){}:;=,.]+ )*[^\s(){}:;=,.]+)((?: (?:\{[^{}]*\}|\([^()]*(?:\([^()]*\)[^()]*)*\)))*) :(?= |$)(.*)$"
)
HEAD = re.compile(r"^ *pub (?:data|record) ")
# Functions of std whose names stand in lemmas' names.
OF_STD = set("length take drop append replicate map reverse min max sum".split())
NO_NAME = set("module use open let in where λ _ → ∷".split())


def files(root):
    out = []
    for folder, dirs, names in os.walk(os.path.join(root, "crates")):
        dirs[:] = sorted(d for d in dirs if d != "out")
        out += [os.path.join(folder, f) for f in sorted(names) if f.endswith((".antt", ".rt", ".edit"))]
    return out


def read(path):
    with open(path, encoding="utf-8") as f:
        return f.read()


def snake(it):
    return re.sub(r"(?<=[a-z0-9'])([A-Z])", lambda m: "_" + m.group(1).lower(), it)


def declared(paths):
    """The names that the repository declares: functions of specs/, what specs/ declares, fields of records, and all of them."""
    functions, specified, fields, names = set(), set(), set(), set()
    for p in paths:
        if not p.endswith(".antt"):
            continue
        proof = p.endswith("Proof.antt")
        constructors = False
        for line in read(p).split("\n"):
            if re.match(r"^ *--", line):
                continue
            if HEAD.match(line):
                constructors = " record " if " record " in line else " data "
                names.add(re.match(r"^ *pub (?:data|record) (\S+)", line).group(1))
                continue
            if line and not line.startswith(" "):
                constructors = False
            m = DECLARED.match(line)
            if not m:
                continue
            if proof and re.match(r"^ *(?:the-)?(?:tie|goal)\.", m.group(3)):
                continue
            found = m.group(1).split(" ")
            if any(n in NO_NAME or "=" in n for n in found):
                continue
            if proof and found[0].endswith(("-spec", "_spec")):
                continue
            names.update(found)
            if "/specs/" in p:
                specified.update(found)
                if not constructors:
                    functions.update(found)
            if constructors == " record ":
                fields.update(found)
    return functions, specified, fields, names


def lemma(name, functions):
    """A dash between the names of two functions stays; any other becomes `_`."""
    parts = name.split("-")
    units, i = [], 0
    while i < len(parts):
        for j in range(len(parts), i, -1):
            word = "_".join(parts[i:j])
            if word in functions:
                units.append((word, True))
                i = j
                break
        else:
            units.append((parts[i], False))
            i += 1
    text = units[0][0]
    for (_, a), (word, b) in zip(units, units[1:]):
        text += ("-" if a and b else "_") + word
    return text


def renaming(root):
    paths = files(root)
    functions, specified, fields, names = declared(paths)
    known = {snake(f) for f in functions if f[:1].islower()} | OF_STD
    new = {}
    for n in sorted(names):
        if not re.search(r"[^\W\d_]", n) or not re.match(r"[\w'-]+$", n):
            continue
        to = n
        if n[0].islower() and re.search(r"[a-z0-9][A-Z]", n):
            to = snake(n)
        if "-" in to.strip("-"):
            to = lemma(to, known)
        if to != n:
            new[n] = to
    # Two names that fall together: what is no definition of specs/ and no variable gets `_lem`.
    variables = {m for p in paths if p.endswith(".antt") for m in re.findall(W, re.sub(r"--.*", "", read(p))) if CAMEL.match(m)} - names
    specified |= variables
    olds = {}
    for n in names | variables:
        olds.setdefault(new.get(n, snake(n) if n in variables else n), []).append(n)
    for to, all_of in sorted(olds.items()):
        if len(all_of) > 1:
            plain = sorted(n for n in all_of if "-" not in n)
            kept = [n for n in all_of if n in specified] or [n for n in all_of if n == to] or plain[:1] or sorted(all_of)[:1]
            if len(kept) > 1:
                print("falls together:", to, sorted(all_of))
            for n in all_of:
                if n not in kept:
                    new[n] = to + "_lem"
                    print("kept apart:", n, new[n])
    return paths, fields, new


def word_by(new, fields, aliases, text, m):
    it = m.group(0)
    if it.startswith('"'):
        return it
    if it not in new:
        # a variable, or a name in a comment
        return snake(it) if CAMEL.match(it.strip("`")) else it
    if m.start() and text[m.start() - 1] == ".":
        prefix = re.search(r"([^\s(){}.;,@\"«»\[\]\\:]*)\.$", text[: m.start()]).group(1)
        if prefix in ("tie", "goal"):
            return it
        if "-" in it and it not in fields and prefix not in aliases:
            return it
    return new[it]


def turned(text, new, fields):
    aliases = set(re.findall(r"^use \S+ as (\S+)$", text, re.M))

    def words(of):
        return TOKEN.sub(lambda m: word_by(new, fields, aliases, of, m), of)

    out = []
    for line in text.split("\n"):
        code, comment = line, ""
        m = re.search(r"(?:^|(?<=\s))--(?=\s|$)", line)
        if m:
            code, comment = line[: m.start()], line[m.start() :]
            comment = re.sub(r"`[^`]*`", lambda m: words(m.group(0)), comment)
            comment = re.sub(r"[A-Za-z][\w']*", lambda m: new.get(m.group(0), snake(m.group(0))) if CAMEL.match(m.group(0)) else m.group(0), comment)
        out.append(words(code) + comment)
    return "\n".join(out)


def turned_source(text, new, fields):
    """Clauses, `ghost use` lines and ghost fields, and names between backquotes in comments."""
    aliases = set(re.findall(r"^ghost use \S+ as (\S+);$", text, re.M))

    def words(of):
        return TOKEN.sub(lambda m: word_by(new, fields, aliases, of, m), of)

    out, depth, ghost = [], 0, False
    for line in text.split("\n"):
        if re.match(r"^\s*//", line):
            out.append(re.sub(r"`[^`]*`", lambda m: words(m.group(0)), line))
            continue
        if not ghost and re.match(r"^\s*(ghost|requires|ensures|invariant)\b", line):
            ghost = True
        if ghost:
            out.append(words(line))
            depth += line.count("{") - line.count("}")
            if depth <= 0:
                ghost, depth = False, 0
        else:
            out.append(line)
    return "\n".join(out)


def main(argv):
    root = argv[-1]
    paths, fields, new = renaming(root)
    if "--list" in argv:
        for a, b in sorted(new.items()):
            print(a, b)
        return 0
    for p in paths:
        if p.endswith(".edit"):
            continue
        old = read(p)
        to = turned_source(old, new, fields) if p.endswith(".rt") else turned(old, new, fields)
        if to != old:
            with open(p, "w", encoding="utf-8") as f:
                f.write(to)
    return 0


if __name__ == "__main__":
    raise SystemExit(main(sys.argv[1:]))
