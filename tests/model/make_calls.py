"""Makes the calls with their answers for the clients of the C interface: calls_asked.txt with every answer added.

python3 make_calls.py > calls

calls_asked.txt is the made file without the answers after `=` and without the bytes after `form`. Its head describes
each line. Comments and empty lines are kept. Each call is worked out on the bytes that the clients then lend.
"""

import os
import sys
from itertools import groupby

import interface
import model
from interface import LentChart
from model import Refused

PATH = "tests/clients/calls.txt"
ASKED = os.path.join(os.path.dirname(os.path.abspath(__file__)), "calls_asked.txt")

# The clients: the number of bytes lent for a chart, and the byte in each of them before a form is put there.
LENT = 820
FILL = 0x77

# The clients: the calls that the line `all` stands for.
CALLS_ON_A_CHART = ("post 2 10000 10000 0", "reanalyse 2 10000 10000 0", "correct", "renew", "lines 6",
                    "against_lines 10000 6", "check")

# The calls that work on no chart.
WITHOUT_CHART = {"word": interface.word, "refusal_text": interface.refusal_text,
                 "verdict_text": interface.verdict_text, "version": interface.version}

# The calls that work on the lent chart.
ON_A_CHART = ("build", "post", "reanalyse", "correct", "renew", "lines", "against_lines", "check")


def numbers_of(text):
    """Lists of numbers between `/`; `7*9900` stands for 9900 seven times."""
    lists = []
    for part in text.split("/"):
        numbers = []
        for field in part.split():
            times, _, number = field.rpartition("*")
            numbers += [int(number)] * int(times or "1")
        lists.append(numbers)
    return lists


def in_runs(words):
    """Words as text; more than two equal ones in a row as `7*9900`."""
    fields = []
    for word, run in groupby(words):
        count = len(list(run))
        fields += ["%d*%d" % (count, word)] if count > 2 else [str(word)] * count
    return " ".join(fields)


def in_records(form):
    """A form as hex digits: head, lengths and record kinds of base and series, and their words, with blanks between."""
    base = 14
    series = 12 + model.number_at(form, 10)
    parts = form[:10], form[10:base], form[base:series], form[series:series + 4], form[series + 4:]
    return " ".join(part.hex() for part in parts if part)


def lend(form):
    """Lent bytes with a form at their front."""
    if len(form) > LENT:
        raise ValueError("a form of %d bytes, and %d are lent" % (len(form), LENT))
    return LentChart(form + bytes([FILL]) * (LENT - len(form)), len(form))


def one_answer(line, answers):
    """The answer that all calls of a line have; answers that differ are an error."""
    if len(set(answers)) != 1:
        raise ValueError("%s: the answers differ: %s" % (line, ", ".join(answers)))
    return answers[0]


class Calls:
    """The lines of calls_asked.txt, on the chart that is lent."""

    def __init__(self):
        self.lent = lend(b"")

    def answer(self, name, given):
        """One call: the text after `=`."""
        try:
            if name == "build":
                (kind, room), words = given
                outputs = self.lent.build(kind, room, words)
            elif name in WITHOUT_CHART:
                (fields,) = given
                outputs = (WITHOUT_CHART[name](*fields),)
            else:
                (fields,) = given
                outputs = getattr(self.lent, name)(*fields)
        except Refused as refused:
            return str(refused.number)
        text = " ".join(map(str, (0,) + tuple(outputs)))
        if name in ("build", "renew"):
            text += " / " + in_runs(self.lent.read().base)
        return text

    def step(self, line):
        """One line: the same line, with its answer if it has one."""
        name, _, rest = line.partition(" ")
        times, _, name = name.rpartition("*")
        given = numbers_of(rest)
        if name == "form":
            return "form " + in_records(self.lent.form())
        if name == "chart":
            head, base, series = given
            self.lent = lend(model.record(1, head) + model.record(2, base) + model.record(3, series))
            return line
        if name == "told":
            # The greatest size is written as -1.
            ((size, room),) = given
            self.lent.tell(interface.SIZE_MOST if size == -1 else size, room)
            return line
        if name == "byte":
            ((at, number),) = given
            self.lent.bytes[at] = number
            return line
        if name == "all":
            asked = [call.partition(" ") for call in CALLS_ON_A_CHART]
            answers = [self.answer(call, numbers_of(numbers)) for call, _, numbers in asked]
        elif name in WITHOUT_CHART or name in ON_A_CHART:
            if name == "build":
                self.lent = lend(b"")
                self.lent.size = int.from_bytes([FILL] * 8, "little")
            answers = [self.answer(name, given) for _ in range(int(times or "1"))]
        else:
            raise ValueError("%s: no such line" % line)
        return "%s = %s" % (line, one_answer(line, answers))


def made(asked):
    """The lines with their answers."""
    calls = Calls()
    lines = [line if line == "" or line.startswith("#") else calls.step(line) for line in asked.split("\n")]
    return "\n".join(lines)


def files():
    """The file that is made, by its path from the root of the repository."""
    with open(ASKED, encoding="ascii") as file:
        return {PATH: made(file.read()).encode("ascii")}


if __name__ == "__main__":
    sys.stdout.buffer.write(files()[PATH])
