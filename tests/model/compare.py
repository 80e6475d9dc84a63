"""Runs a program with random commands and compares every answer, and its exit status, with the model's.

python3 compare.py PROGRAM COUNT [SEED]
"""

import random
import subprocess
import sys

import commands
import model
import choices
from commands import MARK
from model import Chart
from choices import Record

PORTION = 20000
SHOWN = 5
BIG = 9223372036854775807
SETTERS = (b"built", b"read")
LAST = (b"show", b"show\r", b"", b" ", b"#", b"\r", b"show" + b" " * 8187, b"show" + b" " * 8186 + b"\r",
        b" " * 8191 + b"\r", b"#" * 8192, b"post 2 1", b"x", b"show" + b" " * 8188, b"read 00", MARK, MARK + b"show",
        MARK + MARK, MARK[:2], b" " + MARK, MARK + b"#" * 8191, MARK + b"#" * 8192)


class Run:
    """Random runs, chosen by the model's chart."""

    def __init__(self, rng):
        self.rng = rng
        self.rec = Record()
        self.left = 0
        self.narrow = False
        self.trouble = 0.08

    def fill(self, count):
        """Adds commands until there are at least this many. The first line may have a mark in front."""
        self.rec.raw(self.rng.choice((b"", MARK)) + b"show")
        for _ in range(20):
            self.on_zeros()
        while len(self.rec.lines) < count:
            if self.left <= 0:
                self.start()
            self.left -= 1
            self.move()

    def few(self):
        """A few commands, so that each exit status occurs: the highest of thousands is nearly always the same."""
        rng, rec = self.rng, self.rec
        kind = rng.choice(choices.KINDS)
        rec.build_or_read(kind, choices.random_base(rng, kind))
        for word in choices.plan(rng, rec.chart, rng.choice((0, 0, 1, 2, 3, 4))) or []:
            rec.post(word, rng)
        if rec.chart.status == 1:
            rec.reanalyse(self.word(), rng)
        if self.chance(0.3):
            rec.do(rng.choice(("correct", "renew")))

    def chance(self, share):
        return self.rng.random() < share

    def on_zeros(self):
        """Calls on the chart of zeros, at the start of a portion."""
        if self.rec.chart != model.ZEROS:
            return
        if self.chance(0.5):
            self.refused()
        elif self.chance(0.7):
            self.rec.do(self.rng.choice(("correct", "renew", "lines", "write", "show")))
        else:
            self.malformed()

    def start(self):
        """A new chart, by building or by reading."""
        rng = self.rng
        self.left = rng.choice((5, 10, 20, 40, 80, 300))
        self.narrow = self.chance(0.3)
        self.trouble = rng.choice((0.05, 0.05, 0.4))
        kind = rng.choice(choices.KINDS)
        way = rng.randrange(13)
        if way < 3:
            self.start_by_build(kind, choices.random_base(rng, kind))
        elif way < 5:
            self.start_by_build(kind, self.base_at_edge(kind))
        elif way < 6:
            self.start_by_build(kind, self.base_of_rounds(kind))
        elif way < 9:
            self.renewals(kind)
        else:
            self.rec.read_chart(self.random_chart(kind))
            if self.rec.chart.series and self.chance(0.3):
                self.left = 15
                self.trouble = 0.5
        self.rec.do("show")

    def start_by_build(self, kind, words):
        """A build. document 02, Q-4: if fewer than 15 words stand, mostly the chart of these words is read then."""
        if self.chance(0.8):
            self.rec.build_or_read(kind, words)
        else:
            self.rec.build(kind, words)

    def renewals(self, kind):
        """document 02, Q-4: charts whose tails differ, each with its renewal; then posts, and the renewal again."""
        rng, rec = self.rng, self.rec
        self.left = 5
        for _ in range(rng.randint(5, 20)):
            chart = self.chart_of_tails(kind)
            if rec.read_chart(chart) != b"read":
                continue
            for _ in range(rng.randint(1, 4)):
                rec.do("renew")
                rec.do("show")
                if rec.chart.status == 0 and len(rec.chart.series) < 366:
                    rec.post(self.word() if self.chance(0.3) else max(0, chart.base[-1]), rng)
                elif rec.chart.status != 0:
                    break

    def chart_of_tails(self, kind):
        """A free chart, mostly sound: words close together, and some far away, near the front or anywhere."""
        rng = self.rng
        centre = rng.choice((500, 3000, 10000)) * (-1 if kind == 3 and self.chance(0.4) else 1)
        sides = (1,) if kind == 1 else rng.choice(((1,), (-1,), (1, -1)))
        near = rng.choice((14, 14, 14, 14, 13, 15, rng.randint(3, 20)))
        words = [centre] * near
        size = rng.choice((1, 1, 2))
        for _ in range(rng.choice((rng.randint(0, 4), rng.randint(0, 19)))):
            words.insert(0, centre + rng.choice(sides) * size)
            size = min(450, int(size * rng.uniform(1.15, 1.5)) + rng.choice((1, 1, 2)))
        words = [centre] * rng.choice((0, 0, 1, 1, 2, 9)) + words
        if self.chance(0.3):
            few = rng.sample((2, 3, 5, 8, 15, 30, 70, 150, 400), rng.randint(1, 4))
            words = [centre + (0 if self.chance(0.75) else rng.choice(sides) * rng.choice(few))
                     for _ in range(rng.randint(15, 40))]
        if self.chance(0.5):
            words = [centre - 400, centre + 400] * rng.choice((5, 16)) + words
        base = rng.randint(10, max(10, min(32, len(words))))
        if self.chance(0.1):
            words = words[:base] + [centre] * max(0, 366 - len(words)) + words[base:]
        return Chart(kind, tuple(words[:base]), tuple(words[base:base + 366]), 0, 0)

    def base_at_edge(self, kind):
        """Words for a build, one of them at the limit of its own base or one off."""
        rng = self.rng
        words = choices.random_base(rng, kind, spread=rng.choice((1, 2, 5, 30, 200)))
        place = rng.randrange(len(words))
        way = rng.choice((1, -1))
        low, high = 0, 20000
        while high - low > 1:
            # Halving finds the least distance at which the word is beyond.
            middle = (low + high) // 2
            tried = words[:place] + [words[place] + way * middle] + words[place + 1:]
            if model.distance(model.figures(tried), 3, tried[place]) > 0:
                high = middle
            else:
                low = middle
        words[place] += way * (low + rng.choice((0, 0, 1, 1, -1, 2)))
        least = 0 if kind == 1 else -20000
        words[place] = min(20000, max(least, words[place]))
        return words

    def base_of_rounds(self, kind):
        """Words for a build with many rounds, down to ten words at times; also lines near 0."""
        rng = self.rng
        few = rng.randint(1, 6)
        words = [rng.randint(0, rng.choice((0, 1))) for _ in range(rng.randint(15, 20) - few)]
        value = 1
        way = rng.choice((1, 1, -1)) if kind != 1 else 1
        for _ in range(few):
            words.append(way * value)
            value = min(20000, value * rng.choice((4, 12, 12, 12, 13)))
        if self.chance(0.5):
            rng.shuffle(words)
        return words

    def random_chart(self, kind):
        """A chart as it may be stored, mostly sound."""
        rng = self.rng
        size = rng.choice((10, 11, 14, 15, 32, rng.randint(10, 32)))
        base = tuple(choices.random_base(rng, kind, size=size, spread=rng.choice((0, 1, 9, 100, 700))))
        base = model.reject(kind, base)[0]
        if len(base) < 10:
            base = (base[0],) * 10
        chart = Chart(kind, base, (), 0, 0)
        mean, up1, low1 = choices.places(chart)[:3]
        words = [word for word in (mean, up1, low1, *base) if not model.beyond(kind, model.figures(base), 3, word)
                 and model.in_range(kind, word)] or [base[0]]
        count = rng.choice((0, 1, 2, 4, 5, 6, 7, 30, 358, 364, 365, 366))
        if self.chance(0.3):
            count = max(0, 15 - len(base) + rng.choice((-1, 0)))
        series = [rng.choice(words) for _ in range(count)]
        if series and self.chance(0.4):
            series[-1] = rng.choice(choices.candidates(chart, 3 if kind == 2 else kind))
        chart = chart._replace(series=tuple(series))
        right = model.judge(kind, base, chart.series) if chart.series else 0
        if right and self.chance(0.6):
            chart = chart._replace(status=rng.choice((1, 2)), verdict=right)
        return chart

    def move(self):
        """One step of a run."""
        rng, rec = self.rng, self.rec
        chart = rec.chart
        if self.chance(0.06):
            self.malformed()
        elif self.chance(self.trouble):
            self.refused()
        elif self.chance(0.05):
            rec.do(rng.choice(("lines", "lines", "write", "show")))
        elif self.chance(0.05):
            self.stored()
        elif self.chance(0.02):
            kind = rng.choice(choices.KINDS)
            rec.do("word", kind, *choices.rounded(rng, kind, rng.randint(choices.least_word(kind), 20000)))
        elif self.chance(0.02):
            rec.do("word", rng.randint(0, 4), *(self.odd_reading() for _ in range(3)))
        elif not model.sound(chart):
            self.left = 0
        elif chart.status == 2:
            rec.do("correct")
        elif chart.status == 1:
            pairs = choices.flips(chart) if self.chance(0.5) else None
            word = rng.choice(rng.choice(pairs)) if pairs else self.word()
            rec.reanalyse(word, rng)
        elif len(chart.series) >= 366 or self.chance(0.02):
            if len(chart.series) >= 366 and self.chance(0.5):
                rec.post(self.word(), rng)
            rec.do("show")
            rec.do("renew")
        elif self.chance(0.25):
            for word in choices.plan(rng, chart, rng.choice((0, 1, 2, 3, 4, 4))) or []:
                rec.post(word, rng)
        else:
            rec.post(self.word(), rng)
        if self.chance(0.25):
            rec.do("show")

    def word(self):
        """A word near the limits, the mean or the last words."""
        rng, chart = self.rng, self.rec.chart
        mean, _, _, up, low = choices.places(chart)[:5]
        least = choices.least_word(chart.kind)
        if self.narrow and self.chance(0.9):
            # Words close together, so that renewal rejects the few others.
            return min(20000, max(least, mean + rng.randint(-1, 2)))
        if self.chance(0.5):
            return rng.choice(choices.candidates(chart))
        return min(20000, max(least, rng.randint(low, up) if self.chance(0.8) else mean + rng.randint(-3, 3)))

    def odd_reading(self):
        rng = self.rng
        if self.chance(0.75):
            most = rng.choice((0, 2, 30, 40000, 10 ** 9))
            return rng.choice((0, most, rng.randint(0, most)))
        return rng.choice((10 ** 9 + 1, 10 ** 9 + 1, -1, -1, BIG, -BIG - 1, rng.randint(-BIG, BIG)))

    def refused(self):
        """A call that the chart mostly refuses, often for more than one reason."""
        rng, rec = self.rng, self.rec
        kind = rng.choice((rec.chart.kind,) * 6 + (0, 1, 2, 3, 4, 65535, 65537, -1))
        which = rng.randrange(6)
        if which < 2:
            rec.do(("post", "reanalyse")[which], kind, *(self.odd_reading() for _ in range(3)))
        elif which == 2:
            rec.do(rng.choice(("correct", "renew")))
        elif which == 3:
            words = [rng.choice((5, 5, 5, 5, 5, 6, 7, 20000, -1, 20001, 40000, 10 ** 20)) if self.chance(0.2) else 5
                     for _ in range(rng.choice((0, 1, 14, 15, 20, 32, 33, 60)))]
            rec.do("build", rng.choice((0, 1, 2, 3, 4, kind)), *words)
        elif which == 4:
            command = rng.choice(("post", "reanalyse"))
            rec.do(command, kind, *rng.choice(((300, 0, 100), (300, 100, 5), (0, 300, 100), (0, 0, 0), (5, 0, 0))))
        else:
            other = rng.choice(choices.KINDS)
            rec.do(rng.choice(("post", "reanalyse")), other, *choices.exact(other, rng.randint(0, 20000)))

    def stored(self):
        """A stored form, the chart's own or another one, as it is or damaged."""
        rng, rec = self.rng, self.rec
        if self.chance(0.4):
            self.structured()
            return
        chart = rec.chart if self.chance(0.6) else self.random_chart(rng.choice(choices.KINDS))
        if self.chance(0.3):
            chart = self.changed(chart)
        data = bytearray(model.stored_form(chart))
        for _ in range(rng.choice((0, 0, 1, 1, 2))):
            how = rng.randrange(5)
            place = rng.randrange(len(data) + 1) if self.chance(0.5) else min(len(data), rng.randrange(50))
            if how == 0:
                data = data[:place]
            elif how == 1:
                data[place:place] = bytes((rng.randrange(256),))
            elif how == 2:
                del data[place:place + rng.choice((1, 2))]
            elif place < len(data):
                data[place] = rng.choice((0, 1, 2, 3, 255, data[place] ^ (1 << rng.randrange(8)), rng.randrange(256)))
        rec.do("show")
        text = data.hex()
        rec.do("read", *([text.upper() if self.chance(0.2) else text] if text else []))
        rec.do("show")

    def structured(self):
        """A stored form with a fault in one of its records. The others are as they should be."""
        rng = self.rng
        chart = self.random_chart(rng.choice(choices.KINDS))
        head = [chart.kind, chart.status, chart.verdict]
        base, series = list(chart.base), list(chart.series)
        how = rng.randrange(7)
        if how == 0:
            base = [base[0]] * rng.choice((0, 1, 9, 10, 32, 33))
            series = []
        elif how == 1:
            series = [base[0]] * rng.choice((0, 1, 365, 366, 367))
        elif how == 2:
            head = rng.choice((head[:2], head + [0], [0] + head[1:], head[:1] + [3, head[2]], [chart.kind, 1, 1]))
        records = [[1, head], [2, base], [3, series]]
        if how == 3:
            rng.shuffle(records)
        elif how == 4:
            del records[rng.randrange(3)]
        parts = [bytearray(model.record(*record)) for record in records]
        if how == 5:
            part = rng.choice(parts)
            part += b"\0"
            part[:2] = model.two_bytes(len(part) - 2)
        elif how == 6:
            part = rng.choice(parts)
            part[rng.randrange(4)] ^= 1 << rng.randrange(8)
        data = b"".join(parts) + rng.choice((b"", b"", b"", b"\0", b"\0\0"))
        self.rec.do("read", *([data.hex()] if data else []))
        self.rec.do("show")

    def changed(self, chart):
        """The chart with one thing changed."""
        rng = self.rng
        how = rng.randrange(5)
        if how == 0:
            return chart._replace(kind=rng.choice((0, 1, 2, 3, 4, 256 + chart.kind)))
        if how == 1:
            return chart._replace(status=rng.randint(0, 3))
        if how == 2:
            return chart._replace(verdict=rng.randint(0, 5))
        words = list(chart.base if how == 3 else chart.series)
        if words:
            place = rng.choice((0, len(words) - 1, rng.randrange(len(words))))
            near = choices.candidates(chart) if len(chart.base) > 1 else [0]
            words[place] = rng.choice((rng.choice(near), rng.choice(near), 20001, -20001, -1, 32767, -32768))
        if how == 3:
            return chart._replace(base=tuple(words))
        return chart._replace(series=tuple(words))

    def malformed(self):
        """Lines that try the command language."""
        rng, rec = self.rng, self.rec
        names = ["word", "build", "post", "reanalyse", "correct", "renew", "lines", "write", "read", "show", "#", "x",
                 "Post", "help", ""]
        fields = ["0", "1", "2", "3", "4", "x", "-", "-1", "+1", "1.0", "00", "-0", "5", "10000", "0x10", "zz", "abc",
                  "#", "9223372036854775807", "9223372036854775808", "-9223372036854775808", "-9223372036854775809",
                  "99999999999999999999999999", "0" * 50 + "7", "9" * 5000, "1\r", "\x00", "\x0b", "\xa0", "ff",
                  "fff"]
        if self.chance(0.5):
            parts = [rng.choice(names)] + [rng.choice(fields[:17] if self.chance(0.7) else fields)
                                           for _ in range(rng.choice((0, 1, 2, 3, 4, 4, 4, 5, 6)))]
        else:
            kind = str(rng.randint(0, 4))
            parts = [rng.choice(names[:10]), kind, str(rng.randint(0, 9)), str(rng.randint(0, 9)), "1"]
            parts = parts[:rng.choice((5, 5, 4, 3, 2, 1))]
            for _ in range(rng.choice((0, 1, 1, 2))):
                place = rng.randint(1, len(parts))
                parts[place:place + rng.choice((0, 1))] = [rng.choice(fields)]
        line = b""
        for part in parts:
            line += part.encode("latin-1") + rng.choice((b" ", b" ", b" ", b"\t", b"  ", b" \t "))
        if self.chance(0.7):
            line = line.rstrip(b" \t")
        if self.chance(0.1):
            line = rng.choice((b" ", b"\t", b"\r", b"  ")) + line
        if self.chance(0.1):
            line = rng.choice((MARK, MARK, MARK, MARK + MARK, MARK[:2], b" " + MARK)) + line
        if self.chance(0.1):
            place = rng.randint(0, len(line))
            line = line[:place] + rng.choice((b"\r", b"\x00", b"\xff", b"\x80", b"#", b" ", b"-", b"0")) + line[place:]
        if self.chance(0.03):
            size = rng.choice((8189, 8190, 8191, 8192, 8193, 9000, 16384, 70000))
            byte = rng.choice((b" ", b" ", b"0", b"\t", b"\r"))
            place = rng.randint(0, len(line))
            line = line[:place] + byte * (size - len(line)) + line[place:]
        line = line.replace(b"\n", b"")
        rec.raw(line, rng.choice((b"\n", b"\n", b"\n", b"\r\n", b"\r\n", b"\r\r\n")))


def printable(line):
    """A line for the report."""
    text = "".join(chr(byte) if 32 <= byte < 127 else "\\x%02x" % byte for byte in line.rstrip(b"\n"))
    return text if len(text) <= 4000 else "%s .. (%d bytes)" % (text[:200], len(line))


def last_set(rec, at):
    """The place of the last accepted build or read before a line, or 0."""
    first = at
    while first > 0:
        first -= 1
        if rec.answers[first] is not None and rec.answers[first].startswith(SETTERS):
            return first
    return 0


def report(rec, at, answer, place):
    """One difference, with what is needed to repeat it."""
    print("difference at %s, line %d" % (place, at + 1))
    print("  command: " + printable(rec.lines[at]))
    print("  model:   " + printable(rec.answers[at] or b"(nothing)"))
    print("  program: " + ("(nothing)" if answer is None else printable(answer)))
    print("  chart before, by the model: " + commands.shown(rec.charts[at])[:4000])
    first = last_set(rec, at)
    print("  history, from the last accepted build or read on (%d lines):" % (at - first))
    for line in rec.lines[first:at]:
        print("    " + printable(line))


def compare(program, rec, place, differences):
    """Runs the program on one portion. Gives the numbers of answers compared and differing."""
    asked = b"".join(rec.lines)
    done = subprocess.run([program], input=asked, stdout=subprocess.PIPE, check=False)
    found = done.stdout.split(b"\n")
    if found[-1] == b"":
        found.pop()
    else:
        print("%s: the last answer has no line feed" % place)
    if done.returncode != rec.status:
        print("%s: the program ended with %d where the model gives %d" % (place, done.returncode, rec.status))
    wanted = [at for at, answer in enumerate(rec.answers) if answer is not None]
    if len(found) != len(wanted):
        print("%s: %d answers where the model gives %d" % (place, len(found), len(wanted)))
    wrong = abs(len(found) - len(wanted)) + (done.returncode != rec.status)
    for at, answer in zip(wanted, found + [None] * (len(wanted) - len(found))):
        if answer != rec.answers[at]:
            wrong += answer is not None
            # Of each chart only the first difference is shown; those after it may follow from it.
            if len(differences) < SHOWN and (place, last_set(rec, at)) not in differences:
                differences.append((place, last_set(rec, at)))
                report(rec, at, answer, place)
    return len(wanted), wrong


def main():
    if len(sys.argv) not in (3, 4):
        print(__doc__)
        return 2
    program, count = sys.argv[1], int(sys.argv[2])
    seed = int(sys.argv[3]) if len(sys.argv) == 4 else 1
    table, differences = {}, []
    asked = compared = wrong = portion = 0
    while asked < count:
        run = Run(random.Random("%d %d" % (seed, portion)))
        # Nine short portions, then a long one.
        if portion % 10 < 9:
            run.few()
        else:
            run.fill(min(PORTION, count - asked))
        rec = run.rec
        # The last line has no line feed; a carriage return at its end is passed over all the same.
        rec.raw(LAST[portion % len(LAST)], run.rng.choice((b"", b"\r")))
        place = "seed %d portion %d" % (seed, portion)
        good, bad = compare(program, rec, place, differences)
        compared += good
        wrong += bad
        asked += len(rec.lines)
        portion += 1
        for key, times in rec.table.items():
            table[key] = table.get(key, 0) + times
    choices.print_table(table)
    print("commands %d, answers compared %d, differing %d" % (asked, compared, wrong))
    return 1 if wrong else 0


if __name__ == "__main__":
    sys.exit(main())
