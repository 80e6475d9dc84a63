#!/usr/bin/env python3
"""Spells the must-fail edits of definitions as today's Rattle does.

usage: tools/edits.py BEFORE ROOT    turns the edits of ROOT by the names of BEFORE, a tree that port.py has turned and tools/respell.py hasn't
       tools/edits.py --check ROOT   says which old texts don't stand exactly once, and writes nothing

Edits of src/ keep their text: port.py changed no line that one of them names. In an edit of specs/, `old` and `new` go through the same
steps: paths, the names of the older library, projections written tight, and then the names of tools/respell.py. `BY_HAND` has the lines
that these steps can't turn.
"""

import glob
import os
import re
import sys

import respell

# Names of the older library and what stands for them in specs/.
LIBRARY = {
    "ltZ": "lt_z",
    "leZ": "le_z",
    "negℤ": "neg_ℤ",
    "natAbs": "nat_abs",
    "getD": "get_or",
}

# A word of an application, one in the tight form of a projection, and a projection.
WORD = re.compile(r"[\w'][\w'.-]*")
TIGHT = re.compile(r"(?:[\w']+|\(\))(?:\.[a-z]\w*)+")
PROJECTION = re.compile(r"\.[a-z]\w*")

# Lines of imports: the library's words now come from one module, and the operators have other names.
BY_HAND = {
    (
        "rules/must-fail/searching_downward.edit",
        "use Prim.Native.Nat.{ℕ, zero, suc, _-_, _≤_, min}",
    ): "use Rattle.std.specs.Prelude.{List, ℕ, zero, suc, ◌-◌, ◌≤◌, min, length, ℤ}",
    (
        "rules/must-fail/searching_downward.edit",
        "use Prim.Native.Nat.{ℕ, zero, suc, _+_, _-_, _≤_, min}",
    ): "use Rattle.std.specs.Prelude.{List, ℕ, zero, suc, ◌+◌, ◌-◌, ◌≤◌, min, length, ℤ}",
}


def is_tight(text):
    """Whether the text is a single projection, as `s.kind` or `(step s call).answer`."""
    while (less := re.sub(r"\((?:[^()]|\(\))+\)", "()", text)) != text:
        text = less
    return bool(TIGHT.fullmatch(text))


def grouped(tokens):
    """The text up to the bracket that closes it, with each application's projections written tight."""
    out, run = "", []
    while tokens and tokens[0] != ")":
        it = tokens.pop(0)
        if it == "(":
            of = grouped(tokens)
            closed = ")" if tokens else ""
            del tokens[:1]
            run.append(of if is_tight(of) else f"({of}{closed}")
        elif it.isspace() and tokens and PROJECTION.fullmatch(tokens[0]):
            of = "".join(run)
            front = of[: len(of) - len(of.lstrip())]
            of = of.strip()
            run = [front, of if WORD.fullmatch(of) else f"({of})", tokens.pop(0)]
        elif it.isspace() or WORD.fullmatch(it):
            run.append(it)
        else:
            out += "".join(run) + it
            run = []
    return out + "".join(run)


def projections(text):
    """`s .kind` becomes `s.kind`, `step s call .answer` becomes `(step s call).answer`. A text that starts inside brackets may close them."""
    tokens = re.findall(r"\s+|[();,]|[^\s();,]+", text)
    out = grouped(tokens)
    while tokens:
        tokens.pop(0)
        out += ")" + grouped(tokens)
    return out


def pairs(text):
    """The lines of an edit, each with its key."""
    return [(m.group(1), m.group(2)) if (m := re.match(r"(file|old|new): (.*)$", line)) else ("", line) for line in text.split("\n")]


def edits(root):
    return sorted(glob.glob(os.path.join(root, "crates", "*", "must-fail", "*.edit")))


def check(root):
    bad = 0
    for e in edits(root):
        crate = os.path.dirname(os.path.dirname(e))
        texts, path, old = {}, "", ""
        for key, value in pairs(respell.read(e)):
            if key == "file":
                path = os.path.join(crate, value)
                texts.setdefault(path, respell.read(path))
            elif key == "old":
                old = value
            elif key == "new":
                n = texts[path].count(old)
                if n == 1:
                    texts[path] = texts[path].replace(old, value)
                else:
                    print(f"{os.path.relpath(e, root)}: stands {n} times: {old}")
                    bad += 1
    return bad


def aliases_of(path):
    return set(re.findall(r"^use \S+ as (\S+)$", respell.read(path), re.M))


def turned(text, new, fields, aliases):
    text = re.sub(r"Rattle·(\w+)·specs\.specs\.", r"Rattle.\1.specs.", text)
    for a, b in LIBRARY.items():
        text = re.sub(r"(?<![\w'-])" + a + r"(?![\w'-])", b, text)
    text = projections(text)
    return respell.TOKEN.sub(lambda m: respell.word_by(new, fields, aliases, text, m), text)


def main(argv):
    root = argv[-1]
    if argv[0] == "--check":
        return 1 if check(root) else 0
    _, fields, new = respell.renaming(argv[0])
    for e in edits(root):
        crate = os.path.dirname(os.path.dirname(e))
        name = os.path.relpath(e, os.path.join(root, "crates"))
        path, out = "", []
        for key, value in pairs(respell.read(e)):
            if key == "file":
                path = value
            elif key and (name, value) in BY_HAND:
                value = BY_HAND[name, value]
            elif key and path.startswith("specs/"):
                value = turned(value, new, fields, aliases_of(os.path.join(crate, path)))
            out.append(f"{key}: {value}" if key else value)
        with open(e, "w", encoding="utf-8") as f:
            f.write("\n".join(out))
    return 1 if check(root) else 0


if __name__ == "__main__":
    raise SystemExit(main(sys.argv[1:]))
