"""Makes examples/day.txt: the lines that the examples in C, Python and Rust print about one day of a chart.

python3 make_day.py > day

The readings of the day are here. Every answer is worked out on lent bytes, with the functions for C.
"""

import sys

import interface
from commands import decimal
from interface import FORM_MOST, LINES_MOST, TEXT_MOST, LentChart
from model import Refused

PATH = "examples/day.txt"

# A check sample: the kind, and how much of the analyte was made up. The third reading is ignored.
CHECK = 2
MADE_UP = 1000

# How much was found: for the base, in the posts of the day, and in the reanalysis.
BASE = (990,) * 7 + (1010,) * 7 + (1000,)
POSTS = (1002, 1031, 1001)
AGAIN = 1030


def posted(chart, found):
    """The line of one post on the lent chart."""
    try:
        word, verdict = chart.post(CHECK, found, MADE_UP, 0)
    except Refused as refused:
        return "refused %d: %s" % (refused.number, interface.refusal_text(refused.number, TEXT_MOST))
    return "word %d verdict %d: %s" % (word, verdict, interface.verdict_text(verdict, TEXT_MOST))


def day():
    """The lines of the day, and the stored form at its end, which the examples keep in a file."""
    words = [interface.word(CHECK, found, MADE_UP, 0) for found in BASE]
    chart = LentChart(bytes(FORM_MOST), 0)
    lines = ["word %d" % words[0],
             "built rounds %d removed %d" % chart.build(CHECK, FORM_MOST, words),
             "lines " + " ".join(map(decimal, chart.lines(LINES_MOST)))]
    lines += [posted(chart, found) for found in POSTS]
    word, passed = chart.reanalyse(CHECK, AGAIN, MADE_UP, 0)
    lines += ["word %d %s" % (word, "passed" if passed else "failed"), "kept %d bytes" % chart.size]
    return lines, chart.form()


def files():
    """The file that is made, by its path from the root of the repository."""
    lines, _ = day()
    return {PATH: "".join(line + "\n" for line in lines).encode("ascii")}


if __name__ == "__main__":
    sys.stdout.buffer.write(files()[PATH])
