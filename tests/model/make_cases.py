"""Makes the labels that the program cases reads, and its expected output: each label with its answer.

Labels and inputs are here, in the order in which the program runs the cases. Every answer comes from the model.

python3 make_cases.py > output
"""

import sys

import commands
import interface
import model
from interface import built, value_of
from model import Chart, Refused

LABELS = "crates/cases/stdin"
PATH = "crates/cases/stdout"

A = (9900,) * 7 + (10100,) * 7 + (10000,)
C = (10000,) * 7 + (10001,) * 8
Q = (0, 0, 1) + (2,) * 6 + (3,) * 5 + (4,) * 5
K = (900,) * 7 + (1100,) * 7 + (1000,)
TEN = (0,) * 10 + (1, 12, 144, 1728, 20000)
HIGH = (1000,) * 14 + (2000,)

LIMIT_NAMES = ("lower warning", "upper warning", "lower control", "upper control")


def check(word):
    """A kind and three numbers: a check sample (kind 2) with this word."""
    return 2, word, 10000, 0


def posted(*words):
    """A with posts of these words."""
    chart = built(2, A)
    for word in words:
        chart = model.post(chart, *check(word))[0]
    return chart


def blank_before(numbers):
    """Numbers with a blank before each."""
    return "".join(" %d" % number for number in numbers)


def lengths(chart):
    """Kind, lengths, status and verdict of a chart."""
    return "chart kind %d base %d series %d status %d verdict %d" % (
        chart.kind, len(chart.base), len(chart.series), chart.status, chart.verdict)


# Charts handed in

A_VALUE = value_of(built(2, A))
LONG_VALUE = A_VALUE._replace(base_len=33)


def base_with(place, word):
    """A with another word in one place of the base."""
    return A_VALUE._replace(base=A_VALUE.base[:place] + (word,) + A_VALUE.base[place + 1:])


HANDED_IN = (
    ("A with a base of 9, posts 10000", A_VALUE._replace(base_len=9)),
    ("A with a base of 33, posts 10000", LONG_VALUE),
    ("A with a series of 367, posts 10000", A_VALUE._replace(series_len=367)),
    ("A with a word in an unused place of the base, posts 10000", base_with(15, 1)),
    ("A with a word in an unused place of the series, posts 10000",
     A_VALUE._replace(series=(0,) * 365 + (1,))),
    ("A with status 9, posts 10000", A_VALUE._replace(status=9)),
)


def handed_in(label, value):
    """A post of 10000 on a chart value: the answer, then status and verdict of the value that it gives back."""
    try:
        value, word, verdict = interface.on_value(value, model.post, *check(10000))
        text = "word %d verdict %d" % (word, verdict)
    except Refused as refused:
        text = "refused %d" % refused.number
    return label, "%s, status %d verdict %d" % (text, value.status, value.verdict)


# Stored forms

LENT_BYTE = 0xaa

WRITTEN = (
    ("A", A_VALUE, 48),
    ("A", A_VALUE, 50),
    ("A", A_VALUE, 47),
    ("A", A_VALUE, 9),
    ("A after 10250 10210", value_of(posted(10250, 10210)), 52),
    ("A with kind 4", A_VALUE._replace(kind=4), 9),
    ("A with kind 4", A_VALUE._replace(kind=4), 50),
    ("A with a base of 33", LONG_VALUE, 50),
)

READ_BACK = (
    ("A, read back", A_VALUE, 1024),
    ("A after 10250 10210, read back", value_of(posted(10250, 10210)), 1024),
    ("-313 fifteen times, kind 3, read back", value_of(built(3, (-313,) * 15)), 1024),
    # document 02, Q-4: no build gives a base of ten. A chart with such a base is still written and read.
    ("0 ten times, kind 1, read back", value_of(Chart(1, (0,) * 10, (), 0, 0)), 1024),
    ("A after 366 posts, read back", value_of(posted(*(10000,) * 366)), 1024),
    ("A with kind 4, read back", A_VALUE._replace(kind=4), 1024),
    ("A, read back by way of 47 bytes", A_VALUE, 47),
)


def written(label, value, count):
    """A write into some lent bytes: the answer, then all of them."""
    lent = bytearray([LENT_BYTE]) * count
    try:
        text = "wrote %d" % interface.write_into(value, lent)
    except Refused as refused:
        text = "refused %d" % refused.number
    return "%s, %d bytes lent" % (label, count), "%s: %s" % (text, lent.hex(" "))


def read_back(label, value, count):
    """A write into some lent bytes and a read of what was written: the chart."""
    lent = bytearray([LENT_BYTE]) * count
    try:
        chart = model.read(bytes(lent[:interface.write_into(value, lent)]))
    except Refused as refused:
        return label, "refused %d" % refused.number
    return label, "kind %d base of %d:%s; series of %d:%s, status %d verdict %d" % (
        chart.kind, len(chart.base), blank_before(chart.base),
        len(chart.series), blank_before(chart.series), chart.status, chart.verdict)


# Lines

AGAINST_LINES = (
    ("A", built(2, A), (9699, 9700, 9799, 9800, 10000, 10200, 10201, 10300, 10301)),
    ("C", built(2, C), (9998, 9999, 10000, 10001, 10002, 10003)),
    ("Q", built(3, Q), (-2, -1, 0, 5, 6)),
    ("K", built(1, K), (0, 700, 799, 1200, 1201, 1300, 1301)),
)


def against_lines(label, chart, word):
    """A word against the lines of a chart."""
    try:
        beyond = interface.against_lines(chart, word)
        text = ", ".join("%s %d" % pair for pair in zip(LIMIT_NAMES, beyond))
    except Refused as refused:
        text = "refused %d" % refused.number
    return "%s, %d against the lines" % (label, word), text


def lines_text(chart):
    """The lines of a chart, as the command `lines` answers them."""
    try:
        return "lines " + " ".join(map(commands.decimal, model.lines(chart)))
    except Refused as refused:
        return "refused %d" % refused.number


# Sums given to each round

ROUNDS = (
    ("0 ten times, 1, 12, 144, 1728, 20000, kind 1, rounds", 1, TEN),
    ("0 ten times, -1, -12, -144, -1728, -20000, kind 3, rounds", 3, tuple(-word for word in TEN)),
    ("100 thirty times, -20000, 20000, kind 2, rounds", 2, (100,) * 30 + (-20000, 20000)),
    ("100 thirty times, 20000 twice, kind 2, rounds", 2, (100,) * 30 + (20000, 20000)),
    ("A, rounds", 2, A),
)


def rounds_given(label, kind, words):
    """The sums that each round of a rejection is given, the last round included: n, T and Q."""
    return label, ", ".join("(%d; %d, %d)" % given for given in model.sums_given(kind, words))


# Lists

LENT_NUMBERS = (7,) * 24
FOURTEEN = (10000,) * 14
STORED_A = model.write(posted(10301))
STORED_STATUS_3 = model.stored_form(posted(10301)._replace(status=3))
STORED_FOURTEEN = model.write(Chart(1, (1000,) * 14, (), 0, 0))
ONE_CALL = (3, 0, 0, 0, 0)
RENEWAL = (4, 0, 0, 0, 0)
SIX_NUMBERS = (3,) * 6

LISTS = (
    ("A, an empty list", built, (2, A), ()),
    ("A, a post and a renewal", built, (2, A), (1, 2, 10250, 10000, 0, 4, 0, 0, 0, 0)),
    ("A, six numbers", built, (2, A), SIX_NUMBERS),
    ("A, call number 5", built, (2, A), (5, 0, 0, 0, 0)),
    ("A, call number 0", built, (2, A), (0, 0, 0, 0, 0)),
    ("A, call number -1", built, (2, A), (-1, 0, 0, 0, 0)),
    ("A, call number 65537", built, (2, A), (65537, 0, 0, 0, 0)),
    ("A, a later call number 9", built, (2, A), (3, 0, 0, 0, 0, 9, 0, 0, 0, 0)),
    ("A, nine calls and a number", built, (2, A), (3,) * 46),
    ("A, nine calls", built, (2, A), (3,) * 45),
    ("fourteen words, one call", built, (2, FOURTEEN), ONE_CALL),
    ("kind 4, one call", built, (4, A), ONE_CALL),
    ("kind 4 and fourteen words, one call", built, (4, FOURTEEN), ONE_CALL),
    ("fourteen words, six numbers", built, (2, FOURTEEN), SIX_NUMBERS),
    ("fourteen words, nine calls", built, (2, FOURTEEN), (3,) * 45),
    ("1000 fourteen times and 2000, kind 1, one call", built, (1, HIGH), ONE_CALL),
    ("stored A, a reanalysis and a correction", model.read, (STORED_A,), (2, 2, 10301, 10000, 0, 3, 0, 0, 0, 0)),
    ("stored A with status 3, one call", model.read, (STORED_STATUS_3,), ONE_CALL),
    ("no bytes, one call", model.read, (b"",), ONE_CALL),
    # document 02, Q-4: 12 while base and series have 14 words. With one post more, 15 stand.
    ("stored base of fourteen, a renewal, a post and a renewal", model.read, (STORED_FOURTEEN,),
     RENEWAL + (1, 1, 21000, 19000, 0) + RENEWAL),
)


def listed(label, start, given, numbers):
    """A list of calls: its answer, the lent numbers, the chart after it and its lines."""
    answer, lent, chart = interface.run_list(start, given, numbers, LENT_NUMBERS)
    return label, "%s; answers%s; %s; %s" % (answer, blank_before(lent), lengths(chart), lines_text(chart))


# Refused starts

REFUSED_STARTS = (
    ("kind 4, A's words, building", built, (4, A)),
    ("1000 fourteen times and 2000, kind 1, building", built, (1, HIGH)),
    ("no bytes, reading", model.read, (b"",)),
)


def refused_start(label, start, given):
    """The chart that a refused build or read gives, with every place."""
    chart = interface.start_or_zeros(start, *given)
    value = value_of(chart)
    return label, "%s; base places%s; series places%s" % (
        lengths(chart), blank_before(value.base), blank_before(value.series))


def sections():
    """The headings, each with its cases: label and answer."""
    return (
        ("Charts handed in", [handed_in(*case) for case in HANDED_IN]),
        ("Stored forms", [written(*case) for case in WRITTEN] + [read_back(*case) for case in READ_BACK]),
        ("Lines", [against_lines(label, chart, word) for label, chart, words in AGAINST_LINES for word in words]
         + [against_lines("chart of zeros", model.ZEROS, 0)]),
        ("Sums given to each round", [rounds_given(*case) for case in ROUNDS]),
        ("Lists", [listed(*case) for case in LISTS]),
        ("Refused starts", [refused_start(*case) for case in REFUSED_STARTS]),
    )


def files():
    """The files that are made, by their paths from the root of the repository."""
    labels = []
    output = []
    for heading, cases in sections():
        labels += [heading] + [label for label, _ in cases]
        output += [heading] + ["%s: %s" % case for case in cases]
    return {path: "".join(line + "\n" for line in lines).encode("ascii")
            for path, lines in ((LABELS, labels), (PATH, output))}


if __name__ == "__main__":
    sys.stdout.buffer.write(files()[PATH])
