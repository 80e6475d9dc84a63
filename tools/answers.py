#!/usr/bin/env python3
"""Turns the proofs of a crate, one Proof.antt for each function, into Invariants.antt and Answers.antt.

usage: tools/answers.py CRATE NAMES

CRATE is the crate's folder, NAMES the names.json that `rt check --generated DIR --old-names` writes there. Answers that only search are left
out, since the check searches by itself. A helper over a place in the code becomes a `let` in each answer that uses it. What the script can't
turn is printed, with the function's folder. The old file goes; git keeps it.
"""

import json
import os
import re
import sys

SEG = r"(?:\.(?:«[^»]*»|[^\s(){}\[\],;.@]+))"
PATH = re.compile(r"(?<![\w'.@·-])([^\W\d][\w'₀-]*)(" + SEG + r"*)")


def norm(s):
    return re.sub(r"[-_]+", "-", s).lower()


def bare(s):
    s = norm(s)
    s = re.sub(r"^(overflow|nonzero)-", "", s)
    return s


class Fn:
    def __init__(self, info):
        self.places = {}
        for old, parent, step, callee, _ in info["places"]:
            self.places[norm(old)] = (parent and norm(parent), step)
        self.steps = {norm(step[0]): step[1] for _, (_, step) in self.places.items() if step[0]}
        self.callees = {norm(step[0]): info["params"].get(callee) for old, _, step, callee, _ in info["places"] if callee}
        self.loop_steps = {norm(l[0][0]) for l in info["loops"]}
        self.arms = {}
        for arm in info["arms"]:
            for field, step, path in arm[2] if arm else []:
                if path:
                    self.arms.setdefault((norm(step), tuple(path)), (arm[0], field))
        self.args = {}
        for old, new in info["args"]:
            if old.startswith(".args ."):
                self.args[old[7:]] = new[7:]
        self.needs = info["needs"]
        self.asked_at = info["asked_at"]
        self.loops = info["loops"]
        self.changed = info["changed"]

    def walk(self, place, segs):
        """What a path from a place names: ('place', it) or ('path', text). A step's name says where it stands, so `before` counts for nothing."""
        segs = list(segs)
        while segs and segs[0] == "before":
            segs.pop(0)
        if not segs:
            return ("place", place)
        f = {"fits": "ranges"}.get(segs[0], segs[0])
        if norm(f) in ("args", "ranges") and len(segs) > 1:
            segs[1] = self.args.get(segs[1], segs[1])
        for n in range(len(segs) - 1, 0, -1):
            arm = self.arms.get((norm(f), tuple(x.replace("type-inv", "type_inv") for x in segs[1 : n + 1])))
            if arm:
                return ("path", ".".join(["c", *arm] + segs[n + 1 :]))
        if norm(f) in ("args", "ranges", "requires", "well-formed", "utf8", "type-inv"):
            return ("path", "c." + ".".join(self.of_source([f] + segs[1:])))
        for name in (norm(f), re.sub("-lem$", "", norm(f))):
            if name in self.steps:
                rest = [{"type-inv": "type_inv"}.get(x, x) for x in segs[1:]]
                if len(rest) > 1 and rest[0] == "new" and rest[1].isdigit() and int(rest[1]) < len(self.callees.get(name) or []):
                    rest[1] = self.callees[name][int(rest[1])]
                if name in self.loop_steps and rest and rest[0] not in ("invariant", "auto", "type_inv"):
                    rest[0] = rest[0].replace("-", "_")
                return ("path", ".".join(["c", self.steps[name]] + self.of_source(rest)))
        return None

    def of_source(self, segs):
        """A name of the source has no dash."""
        return [x.replace("-", "_") if i and segs[i - 1] in ("args", "ranges", "new", "auto", "initial", "type_inv") else x for i, x in enumerate(segs)]


def blocks_of(text):
    out, now = [], []
    for line in text.split("\n"):
        if line == "":
            if now:
                out.append(now)
            now = []
        else:
            now.append(line)
    if now:
        out.append(now)
    return out


def matched(text, i):
    """the index behind the bracket that opens at i"""
    d = 0
    for j in range(i, len(text)):
        if text[j] in "([{":
            d += 1
        elif text[j] in ")]}":
            d -= 1
            if d == 0:
                return j + 1
    return len(text)


class Turn:
    def __init__(self, fn):
        self.fn = fn
        self.helpers = {}
        self.placefn = {}
        self.left = []

    def rewrite(self, text, env):
        env = dict(env)
        for _ in range(60):
            before = text

            def path(m):
                head, rest = m.group(1), m.group(2)
                if head not in env:
                    return m.group(0)
                if not rest and re.match(r" = ", text[m.end() :]) and not text[: m.start()].endswith("let "):
                    return m.group(0)
                r = self.fn.walk(env[head], [s for s in rest.split(".") if s])
                if r is None:
                    self.left.append(m.group(0))
                    return "«?" + m.group(0).replace(".", "·") + "?»"
                if r[0] == "place":
                    return "@" + r[1] + "@"
                return r[1].replace("c.", "©.", 1)

            text = PATH.sub(path, text)
            # what follows a place
            def more(m):
                segs = [s for s in m.group(2).split(".") if s]
                r = self.fn.walk(m.group(1), segs)
                if r is None:
                    self.left.append(m.group(0))
                    return "«?" + m.group(0).replace("@", "").replace(".", "·") + "?»"
                return "@" + r[1] + "@" if r[0] == "place" else r[1].replace("c.", "©.", 1)

            text = re.sub(r"\(@([^@]+)@\)", r"@\1@", text)
            text = re.sub(r"@([^@]+)@(" + SEG + r"+)", more, text)
            for h, target in self.placefn.items():
                text = re.sub(r"(?<![\w'.-])" + re.escape(h) + r" @[^@]+@", "@" + target + "@", text)
            for h in self.helpers:
                text = re.sub(r"\(" + re.escape(h) + r" @[^@]+@\)|(?<![\w'.-])" + re.escape(h) + r" @[^@]+@", h, text)
            text = re.sub(r"\(@([^@]+)@\)", r"@\1@", text)
            m = re.search(r"[ \n]*let ([\w'-]+) = @([^@]+)@ in", text)
            if m:
                env[m.group(1)] = m.group(2)
                text = text[: m.start()] + text[m.end() :]
                env_now = {m.group(1): m.group(2)}
            if text == before:
                break
        for m in re.findall(r"let (\w+) = ©\.(?:args|ranges) in", text):
            text = re.sub(r"(?<![\w'.-])" + m + r"\.([\w'-]+)", lambda k: m + "." + self.fn.args.get(k.group(1), k.group(1)).replace("-", "_"), text)
        # omega and grind read the context by themselves
        text = re.sub(r", @[^@]+@(?=[,)])", "", text)
        if "@" in text:
            self.left.append("a place stays: " + ", ".join(sorted(set(re.findall(r"@[^@]+@", text)))))
        text = text.replace(".type-inv", ".type_inv").replace(".well-formed", ".well_formed")
        return text.replace("©", "c")


def signature(block):
    """comment lines, the name's line(s) up to the clauses, unfolding, clauses"""
    i = 0
    comments = []
    while i < len(block) and block[i].startswith("--"):
        comments.append(block[i])
        i += 1
    if i == len(block):
        return None
    m = re.match(r"(?:pub )?(abbrev )?(?:pub )?(\S+) : ?(.*)$", block[i])
    if not m:
        return None
    name = m.group(2)
    typ = [m.group(3)]
    i += 1
    while i < len(block) and not block[i].startswith("unfolding ") and not block[i].startswith(name + " ") :
        typ.append(block[i])
        i += 1
    unfold = []
    while i < len(block) and block[i].startswith("unfolding "):
        unfold += block[i].split()[1:]
        i += 1
    clauses, now = [], []
    for line in block[i:]:
        if line.startswith(name + " ") and now:
            clauses.append("\n".join(now))
            now = []
        now.append(line)
    if now:
        clauses.append("\n".join(now))
    return comments, bool(m.group(1)), name, "\n".join(typ).strip(), unfold, clauses


def clause_parts(name, clause):
    """arguments and body of a clause"""
    head = clause[len(name) :]
    depth = 0
    for k, ch in enumerate(head):
        if ch in "({[":
            depth += 1
        elif ch in ")}]":
            depth -= 1
        elif ch == "=" and depth == 0 and head[k - 1] in " " and (k + 1 == len(head) or head[k + 1] in " \n"):
            break
    else:
        return None
    args = re.findall(r"\([^()]*\)|\{[^{}]*\}|\S+", head[:k])
    return args, head[k + 1 :]


def fn_key(crate, folder):
    rel = os.path.relpath(folder, os.path.join(crate, "proofs"))
    return "Rattle-%s-proofs.%s.Lts" % (os.path.basename(os.path.abspath(crate)), rel.replace("/", "."))


def lets(text):
    return text


def split_arrows(t):
    """the parameters before the last arrow at depth 0, and the result"""
    parts, depth, last = [], 0, 0
    i = 0
    while i < len(t):
        ch = t[i]
        if ch in "({[":
            depth += 1
        elif ch in ")}]":
            depth -= 1
        elif ch == "→" and depth == 0:
            parts.append(t[last:i].strip())
            last = i + 1
        elif depth == 0 and t[i : i + 4] == "let ":
            break
        i += 1
    return parts, t[last:].strip()


def convert(folder, info, crate, key):
    path = os.path.join(folder, "Proof.antt")
    text = open(path, encoding="utf-8").read()
    fn = Fn(info)
    turn = Turn(fn)
    said = []
    blocks = blocks_of(text)
    head = blocks[0]
    comments = [l for l in head if l.startswith("--")]
    uses = [l for l in head if not l.startswith("--")]
    uses = [l for l in uses if not re.search(r"\.(Statement\.\{|Tie as tie)", l)]
    module = "Rattle.%s.proofs.%s" % (os.path.basename(os.path.abspath(crate)), os.path.relpath(folder, os.path.join(crate, "proofs")).replace("/", "."))
    order = []
    m = re.search(r"tie\.close\s*\(tie\.spec\b(.*)\)\s*$", text, re.S)
    if m:
        order = m.group(1).split()
    answers, plain, invariants = [], [], []
    named = [norm(n) for n in order if not n.startswith(("invariant-", "decreases-", "invariant", "decreases"))]
    by_position = {}
    if len(named) == len(fn.needs):
        by_position = {n: i for i, n in enumerate(named)}
    for block in blocks[1:]:
        s = signature(block)
        if s is None:
            said.append("not read: " + block[0])
            plain.append("\n".join(block))
            continue
        note, abbrev, name, typ, unfold, clauses = s
        if re.match(r"\{M : Type 1\} → statement M", typ):
            continue
        m = re.match(r"tie\.(invariant|decreases)-(\S+)$", typ)
        if m:
            which = [norm(l[0][0]) for l in fn.loops]
            at = norm(m.group(2))
            if at not in which:
                said.append("no loop " + at)
                continue
            k = which.index(at)
            (_, newname), variables = fn.loops[k]
            flags = fn.changed[k]
            parts = clause_parts(name, clauses[0])
            args, body = parts
            positions = [("l.initial." if f else "l.") + v for v, f in zip(variables, flags)] + ["l." + v for v, f in zip(variables, flags) if f]
            if len(args) != len(positions):
                said.append("loop %s: %d arguments, %d variables" % (newname, len(args), len(positions)))
            sub = {}
            for a, p in zip(args, positions):
                if a != "_":
                    sub[a] = p
            body = PATH.sub(lambda mm: sub[mm.group(1)] + mm.group(2) if mm.group(1) in sub else mm.group(0), body)
            invariants.append(("\n".join(note), m.group(1) + "-" + newname, body))
            continue
        m = re.match(r"tie\.Need-([^\s]+)", typ)
        if m:
            old = norm(m.group(1))
            i = None
            for j, (o, n) in enumerate(fn.needs):
                if norm(o) == old or bare(o) == bare(old):
                    i = j
                    break
            if i is None and norm(name) in by_position:
                i = by_position[norm(name)]
            if i is None:
                said.append("no goal for " + m.group(1))
                continue
            args, body = clause_parts(name, clauses[0])
            if body.strip() == "search rules" and not unfold:
                continue
            place = norm(fn.asked_at[i][0])
            turn.left = []
            extra = [a for a in args[1:] if a not in ("κs", "κ", "_")]
            if args and args[0] != "c":
                body = re.sub(r"(?<![\w'.-])" + re.escape(args[0]) + r"(?=[\s.),;]|$)", "c", body)
            new = turn.rewrite(body, {"c": place})
            used, queue = [], [new]
            while queue:
                t = queue.pop()
                for h in turn.helpers:
                    if re.search(r"(?<![\w'.-])" + re.escape(h) + r"(?![\w'-])", t) and h not in used:
                        used.append(h)
                        queue.append(turn.helpers[h][0] + " " + turn.helpers[h][1])
            in_order = [h for h in turn.helpers if h in used]
            unfolds = list(unfold)
            front = ""
            for h in in_order:
                t, b, u, l = turn.helpers[h]
                for x in u:
                    if x not in unfolds:
                        unfolds.append(x)
                turn.left += l
                flat = lambda s: re.sub(r"\s+", " ", s).strip()
                front += "\n    let %s : %s = %s in" % (h, flat(t), flat(b))
            if turn.left:
                said.append("%s: %s" % (fn.needs[i][1], "; ".join(turn.left[:6])))
            if front:
                body_text = front + "\n    " + new.strip()
            else:
                body_text = new
            answers.append(("\n".join(note), fn.needs[i][1], unfolds, body_text, "".join(" " + a for a in extra)))
            continue
        # a helper over places
        mm = re.match(r"\((\S+) : tie\.([^\s()]+)[^()]*\) ?→?\s*(.*)$", typ, re.S) or re.match(r"\((\S+) : tie\.([^\s()]+)[^()]*\)\s*(.*)$", typ, re.S)
        ma = re.match(r"tie\.(\S+)(?: invariant\S*| decreases\S*)* → (.*)$", typ, re.S)
        if mm or ma:
            if len(clauses) != 1 or clause_parts(name, clauses[0]) is None:
                said.append("helper with cases: " + name)
                continue
            args, body = clause_parts(name, clauses[0])
            if mm:
                var, place, rest = mm.group(1), norm(mm.group(2)), mm.group(3)
            else:
                var, place, rest = args[0], norm(ma.group(1)), ma.group(2)
            rest = rest.strip()
            turn.left = []
            target = re.match(r"tie\.(\S+)(?: invariant\S*| decreases\S*)*$", rest)
            if target:
                turn.placefn[name] = norm(target.group(1))
                continue
            t = turn.rewrite(rest, {var: place})
            b = turn.rewrite(body, {args[0]: place})
            if len(args) > 1:
                b = "λ " + " ".join(args[1:]) + ". " + b.strip()
            t = re.sub(r"^→\s*", "", t)
            turn.helpers[name] = (t, b.strip(), unfold, list(turn.left))
            continue
        if "tie." in "\n".join(block):
            said.append("names a place: " + name)
        plain.append("\n".join(block))
    out = []
    if invariants:
        t = "\n".join(comments + uses + ["use %s.Given as goal" % module]) + "\n"
        for note, name, body in invariants:
            t += "\n" + (note + "\n" if note else "") + "abbrev pub %s : goal.%s\n%s l =%s\n" % (name, name, name, body)
        open(os.path.join(folder, "Invariants.antt"), "w", encoding="utf-8").write(t)
    if answers:
        t = "\n".join(comments + uses + ["use %s.Goals as goal" % module]) + "\n"
        for p in plain:
            t += "\n" + p + "\n"
        for note, name, unfold, body, more in answers:
            t += "\n" + (note + "\n" if note else "") + "pub %s : goal.%s\n" % (name, name) + ("unfolding %s\n" % " ".join(unfold) if unfold else "") + "%s c%s =%s\n" % (name, more, body)
        open(os.path.join(folder, "Answers.antt"), "w", encoding="utf-8").write(t)
    os.remove(path)
    for s in said:
        print("%s: %s" % (os.path.relpath(folder, crate), s))


def main(argv):
    crate, names = argv
    d = json.load(open(names))
    for folder, dirs, files in os.walk(os.path.join(crate, "proofs")):
        dirs.sort()
        if "Proof.antt" in files:
            key = fn_key(crate, folder)
            if key not in d:
                print("%s: no names (%s)" % (os.path.relpath(folder, crate), key))
                continue
            try:
                convert(folder, d[key], crate, key)
            except Exception as e:
                print("%s: FAILED %r" % (os.path.relpath(folder, crate), e))
    return 0


if __name__ == "__main__":
    raise SystemExit(main(sys.argv[1:]))
