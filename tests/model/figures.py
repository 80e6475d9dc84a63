"""The figures of document 01, as document 02 changes them, and the cases of the readings of both, as commands.

A line of text stands above each case.

A section is a tuple. A text in it is a heading. A tuple in it is a case: its label, then its commands. If a label
needs more, the rest is in brackets at its end. A case that begins with neither `build` nor `read` goes on from the
chart as it is.
"""

from itertools import groupby

import model
from choices import exact
from model import Chart

# Bases with a letter: kind and words.
A = 2, (9900,) * 7 + (10100,) * 7 + (10000,)
B = 1, (15, 0, 0, 0, 6, 15, 0, 0, 0, 4) + (0,) * 5
C = 2, (10000,) * 7 + (10001,) * 8
D = 1, (1000,) * 7 + (1001,) * 8
E = 3, (10000,) * 3 + (10002,) * 9 + (10003,) * 5
F = 3, (10000,) * 2 + (10001,) * 8 + (10002,) * 9
G = 1, (0,) * 7 + (1,) * 5 + (2,) * 13
H = 2, (20000,) * 7 + (-20000,) * 3
J = 1, (296,) * 7 + (304,) * 7 + (300,)
K = 1, (900,) * 7 + (1100,) * 7 + (1000,)
L = 3, (-296,) * 7 + (-304,) * 7 + (-300,)
M = 2, (-10000,) * 7 + (-10001,) * 8
N = 3, (-1,) * 7 + (0,) * 8
P = 3, (1,) * 7 + (0,) * 8
Q = 3, (0,) * 2 + (1,) + (2,) * 6 + (3,) * 5 + (4,) * 5
R = 3, (-1100,) * 7 + (-900,) * 7 + (-1000,)
T = 1, (0,) * 10
U = 2, (296,) * 7 + (304,) * 7 + (300,)
V = 2, (297,) * 7 + (305,) * 7 + (301,)
W = 2, (-20000,) * 16 + (20000,) * 16
X = 1, (100, 70) + (0,) * 13
Y = 1, (200,) * 7 + (400,) * 7 + (300,)
Z = 1, (1000,) * 15
LETTERS = {"A": A, "B": B, "C": C, "D": D, "E": E, "F": F, "G": G, "H": H, "J": J, "K": K, "L": L, "M": M, "N": N,
           "P": P, "Q": Q, "R": R, "T": T, "U": U, "V": V, "W": W, "X": X, "Y": Y, "Z": Z}

# Words for other bases.
HIGH = (1000,) * 14 + (2000,)
HIGH_15 = (1000,) * 15 + (2000,)
LOW = (1000,) * 14 + (0,)
LOW_15 = (1000,) * 15 + (0,)
TWO_OUT = (10000,) * 13 + (10001,) * 13 + (10050, 10051)
FIVE_OUT = (0,) * 10 + (1, 12, 144, 1728, 20000)
FIVE_OUT_15 = (0,) * 15 + (1, 12, 144, 1728, 20000)
SWAPPED = (4135,) * 7 + (10000,) * 8

# Series.
UP = range(9950, 10011, 10)
DOWN = range(10050, 9989, -10)
UP_ABOVE = range(10010, 10071, 10)
UP_FAR = range(10110, 10171, 10)
UP_ACROSS = (9990, *range(10110, 10161, 10))
DOWN_ACROSS = (10010, *range(9890, 9839, -10))
UP_BELOW = range(9930, 9991, 10)
DOWN_BELOW = range(9990, 9929, -10)
SIX_ABOVE = (9990, *range(10010, 10061, 10))
K_DOWN = range(1010, 949, -10)
K_UP_ABOVE = range(1010, 1071, 10)
K_DOWN_BELOW = range(990, 929, -10)
R_DOWN_BELOW = range(-1010, -1071, -10)
Z_UP = range(100, 701, 100)

# Charts that cases start from. document 02, Q-4: a base of 10 to 14 words is read, and no longer built.
FOURTEEN = Chart(1, (1000,) * 14, (), 0, 0)
FRESH = Chart(*A, (), 0, 0)
AFTER_UP = Chart(*A, tuple(UP), 1, 3)
AFTER_UP_ACROSS = Chart(*A, UP_ACROSS, 1, 3)
AFTER_DOWN_ACROSS = Chart(*A, DOWN_ACROSS, 1, 3)
AFTER_SIX_ABOVE = Chart(*A, SIX_ABOVE, 1, 3)
AFTER_UP_ABOVE = Chart(*A, tuple(UP_ABOVE), 2, 4)
AFTER_UP_FAR = Chart(*A, tuple(UP_FAR), 2, 4)
UP_FAR_CORRECTED = AFTER_UP_FAR._replace(status=1)
AFTER_TWO = Chart(*A, (10250, 10210), 1, 2)
AFTER_OUT = Chart(*A, (10250, 10301), 1, 1)
AFTER_SIDE = Chart(*A, (10150,) * 7, 2, 4)
CORRECTED = AFTER_SIDE._replace(status=1)
K_AFTER_DOWN = Chart(*K, tuple(K_DOWN), 1, 3)
Z_AFTER_UP = Chart(*Z, tuple(Z_UP), 1, 3)

NAMES = ("three", "four", "five", "six", "seven", "eight", "nine", "ten", "eleven", "twelve", "thirteen", "fourteen",
         "fifteen", "sixteen")
TIMES = ("", " twice") + tuple(" %s times" % name for name in NAMES)

# Commands after which nothing need be shown: they leave the chart as it is.
LOOKING = ("word", "lines", "write", "show")


# Commands

def build(base):
    """A build of kind and words."""
    kind, words = base
    return " ".join(map(str, ("build", kind, *words)))


def read(stored):
    """A read of bytes, or of a chart, sound or not."""
    data = model.stored_form(stored) if isinstance(stored, Chart) else stored
    return ("read " + data.hex()).rstrip()


def call(name, kind, word):
    """A post or a reanalysis with a word."""
    return " ".join(map(str, (name, kind, *exact(kind, word))))


def posts(kind, words):
    """A post of each word."""
    return tuple(call("post", kind, word) for word in words)


def posted(base, *words):
    """A build, and a post of each word."""
    return (build(base), *posts(base[0], words))


def reanalysed(chart, word):
    """A read of a chart, and a reanalysis with a word."""
    return read(chart), call("reanalyse", chart.kind, word)


# Stored forms

A_FORM = model.stored_form(FRESH)
A_LONG = A_FORM + bytes(16)
TEN_RECORDS = {"head": model.record(1, (2, 0, 0)), "base": model.record(2, (1000,) * 10),
               "series": model.record(3, ())}


def changed(data, place, number):
    """A stored form with another number at a place."""
    return data[:place] + model.two_bytes(number) + data[place + 2:]


def edits(front, chart, places):
    """Cases: the stored form of a chart with one number changed, for each place and number."""
    for name, place, numbers in places:
        for number in numbers:
            label = "%s%s %d" % (front, name, number)
            if "word" in name and number > 32767:
                label += " (%d as a word)" % model.signed(number)
            yield label, read(changed(model.stored_form(chart), place, number))


def opened(front, base, series, heads):
    """Cases: a chart stored with each status and open verdict."""
    for head in heads:
        yield ("%s, status %d, verdict %d" % (front, *head), read(Chart(*base, tuple(series), *head)))


def first_bytes(front, data, sizes):
    """Cases: the first bytes of a stored form and of what follows it."""
    return [("%s, the first %d bytes" % (front, size), read(data[:size])) for size in sizes]


def sizes_form(base_size, series_size):
    """A stored form of kind 2 with this many words of 1000."""
    return model.stored_form(Chart(2, (1000,) * base_size, (1000,) * series_size, 0, 0))


def in_order(names):
    """A case: records in this order."""
    return names, read(b"".join(TEN_RECORDS[name] for name in names.split()))


def exchanged(data, first, end):
    """A stored form in which the two bytes of each number from a place to another are exchanged."""
    pairs = [bytes((data[place + 1], data[place])) for place in range(first, end, 2)]
    return data[:first] + b"".join(pairs) + data[end:]


# Sections

BEFORE = (
    "READINGS 24: a call on the chart of zeros is refused with 14, and the chart stays as it is",
    ("chart of zeros, lines", "lines"),
    ("chart of zeros, write", "write"),
    ("chart of zeros, post of X 10000, A 10000", "post 2 10000 10000 0"),
    ("chart of zeros, reanalysis of X 10000, A 10000", "reanalyse 2 10000 10000 0"),
    ("chart of zeros, correction", "correct"),
    ("chart of zeros, renewal", "renew"),
)

WORDS = (
    "document 01, figures: words",
    ("duplicate X1 1, X2 2", "word 1 1 2 0"),
    "document 02, Q-3: a quotient halfway between two words now goes to the even one: 312.5 and -312.5",
    ("duplicate X1 65, X2 63", "word 1 65 63 0"),
    ("spike SSR 0, SR 1, SA 32", "word 3 0 1 32"),
    "document 01, figures, READINGS 4: the range is tested after rounding",
    ("spike SSR 200004, SR 0, SA 100000", "word 3 200004 0 100000"),
    ("spike SSR 0, SR 200004, SA 100000", "word 3 0 200004 100000"),
    "document 02, Q-3, READINGS-02 6: 20000.5 now goes to 20000 and is accepted, and -20000.5 too; 20000.6 is 7",
    ("spike SSR 200005, SR 0, SA 100000", "word 3 200005 0 100000"),
    ("spike SSR 0, SR 200005, SA 100000", "word 3 0 200005 100000"),
    ("spike SSR 200006, SR 0, SA 100000", "word 3 200006 0 100000"),
    ("spike SSR 0, SR 200006, SA 100000", "word 3 0 200006 100000"),
    "document 01, from readings to words: 41.35 percent",
    ("check X 4135, A 10000", "word 2 4135 10000 0"),
    "READINGS 1: kinds 1 and 2 ignore the third number, for refusal 5 too; 5 comes before 6",
    ("duplicate X1 1, X2 2, third number -5", "word 1 1 2 -5"),
    ("check X 1, A 2, third number -5", "word 2 1 2 -5"),
    ("spike SSR 1, SR 0, SA -5", "word 3 1 0 -5"),
    ("check X 1000000001, A 0", "word 2 1000000001 0 0"),
    "READINGS 2: a divisor of 0 is refused with 6, even where the numerator is 0",
    ("duplicate X1 0, X2 0", "word 1 0 0 0"),
    ("check X 0, A 0", "word 2 0 0 0"),
    ("check X 1, A 0", "word 2 1 0 0"),
    ("spike SSR 5, SR 5, SA 0", "word 3 5 5 0"),
    ("spike SSR 5, SR 3, SA 0", "word 3 5 3 0"),
    "READINGS-02 5: a half next to 0 goes to 0 on both sides, and is neither -0 nor -1",
    ("spike SSR 0, SR 1, SA 20000", "word 3 0 1 20000"),
    ("spike SSR 1, SR 0, SA 20000", "word 3 1 0 20000"),
    ("spike SSR 0, SR 1, SA 20001", "word 3 0 1 20001"),
    ("spike SSR 1, SR 0, SA 20001", "word 3 1 0 20001"),
    "document 01, numbers for what is declined, READINGS 5: a word formed alone",
    ("kind 0 (a word formed alone)", "word 0 1 2 3"),
    ("kind 4 (a word formed alone)", "word 4 1 2 3"),
    ("duplicate X1 1000000001, X2 0", "word 1 1000000001 0 0"),
    ("check X -1, A 1", "word 2 -1 1 0"),
    ("spike SSR 300, SR 0, SA 100", "word 3 300 0 100"),
)

CHARTS = (
    "document 01, figures, READINGS 11: A has one round, since nothing is removed",
    ("A, kind 2", build(A)),
    "document 02, Q-4, READINGS-02 10: of 1000 fourteen times and 2000, 2000 is removed; 14 words stand, which is 16",
    ("1000 fourteen times and 2000, kind 1", build((1, HIGH))),
    "document 01, figures: two rounds, one removed, a base of 14, S = 0; here 15 stand, or the base of 14 is read",
    ("1000 fifteen times and 2000, kind 1", build((1, HIGH_15))),
    ("1000 fourteen times, kind 1, lines (from store)", read(FOURTEEN), "lines"),
    "READINGS 7: kind 2 takes words below 0; words out of range are refused with 3",
    ("-1 fifteen times, kind 2", build((2, (-1,) * 15))),
    ("-1 fifteen times, kind 1", build((1, (-1,) * 15))),
    ("20001 fifteen times, kind 3", build((3, (20001,) * 15))),
    ("-20000 fifteen times, kind 3", build((3, (-20000,) * 15))),
    "READINGS 9: kind 1 has no lower limit in rejection",
    ("1000 fourteen times and 0, kind 1", build((1, LOW))),
    ("1000 fourteen times and 0, kind 2", build((2, LOW))),
    ("1000 fifteen times and 0, kind 2", build((2, LOW_15))),
    "READINGS 11: the words of a round are removed together",
    ("10000 and 10001 thirteen times, 10050, 10051, kind 2", build((2, TWO_OUT))),
    "READINGS 12: rejection can leave ten words, and no fewer; document 02, Q-4: then the build is refused with 16",
    ("0 ten times, 1, 12, 144, 1728, 20000, kind 1", build((1, FIVE_OUT))),
    ("0 fifteen times, 1, 12, 144, 1728, 20000, kind 1", build((1, FIVE_OUT_15))),
    "document 01, numbers for what is declined: build",
    ("14 words (kind 2, 10000 each)", build((2, (10000,) * 14))),
    ("14 words of 20001 (kind 2)", build((2, (20001,) * 14))),
    ("32 words (kind 2, 10000 each)", build((2, (10000,) * 32))),
    ("33 words (kind 2, 10000 each)", build((2, (10000,) * 33))),
    ("kind 0, no word", build((0, ()))),
    ("kind 4 (a build from 10000 fifteen times)", build((4, (10000,) * 15))),
)

POSTS = (
    "document 01, figures, READINGS 32: on a fresh A a word on the control limit is 0, one beyond it is 1",
    ("A, posts 10300", *posted(A, 10300)),
    ("A, posts 10301", *posted(A, 10301)),
    ("A, posts 9700", *posted(A, 9700)),
    ("A, posts 9699", *posted(A, 9699)),
    "document 01, figures, READINGS 8: two words beyond the warning limit on the same side are 2",
    ("A, posts 10250 10210", *posted(A, 10250, 10210)),
    ("A, posts 10250 9790", *posted(A, 10250, 9790)),
    ("A, posts 9750 9790", *posted(A, 9750, 9790)),
    ("A, posts 10200 10210", *posted(A, 10200, 10210)),
    ("A, posts 10210 10200", *posted(A, 10210, 10200)),
    "document 01, figures, READINGS-02 3: seven words that rise or fall strictly are 3; these cross the mean",
    ("A, posts 9950 up to 10010 by tens", *posted(A, *UP)),
    ("A, posts 10050 down to 9990 by tens", *posted(A, *DOWN)),
    "document 02, Q-1: the course's seven posts from 10010 to 10070 now end in 4, though 3 applies too",
    ("A, posts 10010 up to 10070 by tens", *posted(A, *UP_ABOVE)),
    "document 01, mistakes that look reasonable: equal neighbours continue no trend, and six words are none",
    ("A, posts 9950 up to 10000 by tens and 10000", *posted(A, *UP[:6], 10000)),
    ("A, posts 9950 up to 10000 by tens", *posted(A, *UP[:6])),
    "READINGS 14: the word before the seven plays no part",
    ("A, posts 10100 and 9950 up to 10010 by tens", *posted(A, 10100, *UP)),
    "document 01, the machine: seven words strictly on one side of the mean are 4",
    ("A, posts 10150 seven times", *posted(A, *[10150] * 7)),
    ("A, posts 9850 seven times", *posted(A, *[9850] * 7)),
    ("A, posts 10000 seven times", *posted(A, *[10000] * 7)),
    "document 01, mistakes that look reasonable: S is not rounded before it is tripled",
    ("C, posts 10002", *posted(C, 10002)),
    ("C, posts 10003", *posted(C, 10003)),
    ("C, posts 9999", *posted(C, 9999)),
    ("C, posts 9998", *posted(C, 9998)),
    "document 01, figures, READINGS 32: where S is 0, a word above the mean is 1; document 02, Q-4: the chart is read",
    ("1000 fourteen times, posts 1001 (from store)", read(FOURTEEN), *posts(1, [1001])),
    ("1000 fourteen times, posts 1000 1001 (from store)", read(FOURTEEN), *posts(1, [1000, 1001])),
    ("1000 fifteen times and 2000, posts 1001", *posted((1, HIGH_15), 1001)),
    "READINGS 8: far away on the side without a limit is not beyond",
    ("K, posts 1301", *posted(K, 1301)),
    ("K, posts 0", *posted(K, 0)),
    "READINGS 9: kind 1 has no lower warning limit, and no verdict 4",
    ("K, posts 790 790", *posted(K, 790, 790)),
    ("K, posts 1210 1210", *posted(K, 1210, 1210)),
    ("K, posts 1050 seven times", *posted(K, *[1050] * 7)),
    "READINGS 10: trends on K and on Z",
    ("K, posts 1010 down to 950 by tens", *posted(K, *K_DOWN)),
    ("Z, posts 100 up to 700 by hundreds", *posted(Z, *Z_UP)),
)

REANALYSIS = (
    "document 01, figures: 9995 passes",
    ("A after 9950 up to 10010: 9995", *reanalysed(AFTER_UP, 9995)),
    "READINGS 15: for verdict 3 the word must also be within the control limits; near the mean is strict",
    ("A after 9950 up to 10010: 9600", *reanalysed(AFTER_UP, 9600)),
    ("A after 9950 up to 10010: 10100", *reanalysed(AFTER_UP, 10100)),
    ("A after 9950 up to 10010: 10099", *reanalysed(AFTER_UP, 10099)),
    "READINGS 14: 10010 passes since it is near the mean, and the next post is 3 again",
    ("A after 9950 up to 10010: 10010", *reanalysed(AFTER_UP, 10010)),
    ("A after that, posts 10020 (that: 9950 up to 10010, reanalysis 10010)", *posts(2, [10020])),
    "READINGS 16: the word must be strictly below the one before the last; the run crosses the mean and so stays 3",
    ("A, posts 9990 and 10110 up to 10160 by tens", *posted(A, *UP_ACROSS)),
    ("A after 9990 and 10110 up to 10160: 10150", *reanalysed(AFTER_UP_ACROSS, 10150)),
    ("A after 9990 and 10110 up to 10160: 10149", *reanalysed(AFTER_UP_ACROSS, 10149)),
    "READINGS 16: in a falling run it must be strictly above that one",
    ("A, posts 10010 and 9890 down to 9840 by tens", *posted(A, *DOWN_ACROSS)),
    ("A after 10010 and 9890 down to 9840: 9850", *reanalysed(AFTER_DOWN_ACROSS, 9850)),
    ("A after 10010 and 9890 down to 9840: 9851", *reanalysed(AFTER_DOWN_ACROSS, 9851)),
    "READINGS 17: for verdict 2 neither warning limit may be passed",
    ("A, posts 10250 10210 (the start of the reanalyses that follow)", *posted(A, 10250, 10210)),
    ("A after 10250 10210: 9790", *reanalysed(AFTER_TWO, 9790)),
    ("A after 10250 10210: 9800", *reanalysed(AFTER_TWO, 9800)),
    ("A after 10250 10210: 10201", *reanalysed(AFTER_TWO, 10201)),
    ("A after 10250 10210: 10200", *reanalysed(AFTER_TWO, 10200)),
    "READINGS 9: kind 1 has no lower limit in reanalysis",
    ("K after 1301: 0", *reanalysed(Chart(*K, (1301,), 1, 1), 0)),
    ("K after 1210 1210: 790", *reanalysed(Chart(*K, (1210, 1210), 1, 2), 790)),
    "READINGS 10: near the mean is two-sided for kind 1 too, is strict, and is never true where S is 0",
    ("K after 1010 down to 950: 800", *reanalysed(K_AFTER_DOWN, 800)),
    ("K after 1010 down to 950: 900", *reanalysed(K_AFTER_DOWN, 900)),
    ("K after 1010 down to 950: 961", *reanalysed(K_AFTER_DOWN, 961)),
    ("Z after 100 up to 700: 1000", *reanalysed(Z_AFTER_UP, 1000)),
    ("Z after 100 up to 700: 600", *reanalysed(Z_AFTER_UP, 600)),
    ("Z after 100 up to 700: 599", *reanalysed(Z_AFTER_UP, 599)),
)

CORRECTION = (
    "READINGS 19: a correction changes the status alone; status 1 with verdict 4 is sound",
    ("A after 10150 seven times: 10000", *reanalysed(AFTER_SIDE, 10000)),
    ("A after 10150 seven times, correction", read(AFTER_SIDE), "correct"),
    ("A after that, correction again (that: 10150 seven times, correction)", "correct"),
    "READINGS 15: for verdict 4 the word must also be within the control limits",
    ("A after that: 9600 (that: 10150 seven times, correction)", *reanalysed(CORRECTED, 9600)),
    ("A after that: 9700 (that: 10150 seven times, correction)", *reanalysed(CORRECTED, 9700)),
    ("A after that: 10100 (that: 10150 seven times, correction)", *reanalysed(CORRECTED, 10100)),
    ("A after that: 10099 (that: 10150 seven times, correction)", *reanalysed(CORRECTED, 10099)),
    "READINGS 18, 19: a failed reanalysis keeps the verdict; a passed one is not judged again, and its chart is sound",
    ("A, posts 10250 10301", *posted(A, 10250, 10301)),
    ("A after that: 10302 (that: 10250 10301)", call("reanalyse", 2, 10302)),
    ("A after that, correction (that: 10250 10301, reanalysis 10302)", "correct"),
    ("A after that: 10250 (that: 10250 10301, reanalysis 10302, correction)", call("reanalyse", 2, 10250)),
    ("A after that (that: 10250 10301, reanalysis 10302, correction, reanalysis 10250)", "show"),
    ("A after that, posts 10000 (that: 10250 10301, reanalysis 10302, correction, reanalysis 10250)",
     *posts(2, [10000])),
    ("A after 10250 10301: 10250", *reanalysed(AFTER_OUT, 10250)),
    ("A after that, write (that: 10250 10301, reanalysis 10250)", "write"),
    ("A with the series 10250 10250, read (the form just written)", read(Chart(*A, (10250, 10250), 0, 0))),
)

REFUSALS = (
    "READINGS 5: a post or a reanalysis of another kind is refused with 4, kinds 0 and 4 too, after 8 and 10",
    ("A, post of kind 0", build(A), "post 0 10000 10000 0"),
    ("A, post of kind 4", build(A), "post 4 10000 10000 0"),
    ("A, post of kind 3", build(A), "post 3 10000 0 10000"),
    ("K, post of a spike", build(K), "post 3 1 0 10"),
    ("A, reanalysis of kind 4", build(A), "reanalyse 4 10000 10000 0"),
    ("A after 10250 10301, post of kind 4", read(AFTER_OUT), "post 4 10000 10000 0"),
    ("A after 10250 10301, reanalysis of kind 4", read(AFTER_OUT), "reanalyse 4 10000 10000 0"),
    ("A after 10250 10301, reanalysis of kind 0", read(AFTER_OUT), "reanalyse 0 10000 10000 0"),
    "document 01, numbers for what is declined, READINGS 4: a word out of range is 7 and no verdict",
    ("A, post of X 1000000001", build(A), "post 2 1000000001 10000 0"),
    ("A, post of A 0", build(A), "post 2 10000 0 0"),
    ("A, post of X 20001, A 10000", build(A), "post 2 20001 10000 0"),
    ("A, post of X 2, A 3, third number -5", build(A), "post 2 2 3 -5"),
    ("A after 10250 10301, reanalysis of X -1", read(AFTER_OUT), "reanalyse 2 -1 10000 0"),
    ("A after 10250 10301, reanalysis of A 0", read(AFTER_OUT), "reanalyse 2 10000 0 0"),
    ("A after 10250 10301, reanalysis of X 30000, A 10000", read(AFTER_OUT), "reanalyse 2 30000 10000 0"),
    "document 01, numbers for what is declined: 8, 10 and 11, by the status",
    ("A, reanalysis of X 10000, A 10000", build(A), "reanalyse 2 10000 10000 0"),
    ("A, correction", build(A), "correct"),
    ("A after 10250 10301, post of X 10000, A 10000", read(AFTER_OUT), "post 2 10000 10000 0"),
    ("A after 10250 10301, correction", read(AFTER_OUT), "correct"),
    ("A after 10250 10301, renewal", read(AFTER_OUT), "renew"),
    ("A after 10150 seven times, post of X 10000, A 10000", read(AFTER_SIDE), "post 2 10000 10000 0"),
    ("A after 10150 seven times, renewal", read(AFTER_SIDE), "renew"),
    "READINGS 6: the 366th post is accepted; a full series is 9, but 8 comes first; reanalysis works on it",
    ("A, posts 10000 365 times", *posted(A, *[10000] * 365)),
    ("A after that, posts 10301 (that: 365 words)", *posts(2, [10301])),
    ("A after that, post of kind 4 (that: 366 words, the last 10301)", "post 4 10000 10000 0"),
    ("A after that: 10000 (that: 366 words, the last 10301)", call("reanalyse", 2, 10000)),
    ("A after that, post of X 10000 (that: 366 words, the last reanalysed)", "post 2 10000 10000 0"),
    ("A after that, post of kind 4 (that: 366 words, the last reanalysed)", "post 4 10000 10000 0"),
)

RENEWAL = (
    "READINGS 20: renewal takes the last 15 words of the base followed by the series, if 15 of them stand",
    ("A of 366 words, renewal", read(Chart(*A, (10000,) * 366, 0, 0)), "renew"),
    ("A after that (that: 366 words, renewal)", "show"),
    ("A, posts 10110 9890 10120", *posted(A, 10110, 9890, 10120)),
    ("A after that, renewal (that: 10110 9890 10120)", "renew"),
    ("A after that (that: 10110 9890 10120, renewal)", "show"),
    ("A, renewal", build(A), "renew"),
    ("A after that (that: a renewal without posts)", "show"),
    "document 02, Q-4: of the last 15 words, 10290 is removed and 14 stand; so the last 16 are used, and 15 stand",
    ("A, posts 10290 and 10000 fourteen times", *posted(A, 10290, *[10000] * 14)),
    ("A after that, renewal (that: 10290 and 10000 fourteen times)", "renew"),
    ("A after that (that: 10290 and 10000 fourteen times, renewal)", "show"),
    "READINGS 20: base and series together below 15 words are refused with 12; the base of 14 is read",
    ("1000 fourteen times, renewal (from store)", read(FOURTEEN), "renew"),
    ("1000 fourteen times, posts 999 (from store)", read(FOURTEEN), *posts(1, [999])),
    ("1000 fourteen times after that, renewal (that: 999)", "renew"),
    ("1000 fourteen times after that (that: 999, renewal)", "show"),
)

HANDED_IN = (
    "READINGS 19: status 2 with verdict 1 and status 1 with verdict 4 are sound",
    ("A after 10250 10301 with status 2, correction", read(AFTER_OUT._replace(status=2)), "correct"),
    ("A after 10150 seven times with status 1: 10000", *reanalysed(CORRECTED, 10000)),
)

STORED = (
    "document 01, figures: 4135 is stored as 27 10, and 10000 as 10 27; READINGS 25: a fresh chart has 48 bytes",
    ("4135 seven times and 10000 eight times, 48 bytes lent (kind 2)", build((2, SWAPPED)), "write"),
    ("-313 fifteen times, kind 3, 48 bytes lent", build((3, (-313,) * 15)), "write"),
    ("A, write", build(A), "write"),
    "READINGS 21: the form of A with one number changed; structure is 13, content is 14",
    *edits("", FRESH, (
        ("first length", 0, (0, 1, 6, 7, 8, 9, 10, 65535)),
        ("first record kind", 2, (0, 1, 2, 257)),
        ("chart kind", 4, (0, 1, 2, 3, 4, 257, 258)),
        ("status", 6, (0, 1, 2, 3, 256)),
        ("open verdict", 8, (0, 1, 5, 256)),
        ("second length", 10, (0, 1, 2, 20, 22, 30, 31, 32, 33, 34, 65535)),
        ("second record kind", 12, (1, 2, 3, 258)),
        ("first base word", 14, (9901, 20001, 45535, 45536, 65535)),
        ("third length", 44, (0, 1, 2, 3, 4, 65535)),
        ("third record kind", 46, (0, 2, 3, 4, 259)))),
    "READINGS 21: a negative word in kind 1 is 14; K has the series 1000 1000 here",
    *edits("K, ", Chart(*K, (1000, 1000), 0, 0), (
        ("first base word", 14, (901, 65535)),
        ("first series word", 48, (0, 65535)))),
    "READINGS 9: kind 1 has no lower limit in soundness",
    *edits("1000 fourteen times and 0, ", Chart(1, LOW, (), 0, 0), (("chart kind", 4, (1, 2)),)),
    "READINGS 22: no word of the series but the last may be beyond a control limit, whatever the status",
    *edits("A after 10250 10000, ", Chart(*A, (10250, 10000), 0, 0), (
        ("first series word", 48, (10250, 10300, 10301)),
        ("second series word", 50, (10300, 10301)))),
    ("A, series 10301 10301, status 1, verdict 1", read(Chart(*A, (10301, 10301), 1, 1))),
    ("A, series 10301 10301, status 2, verdict 1", read(Chart(*A, (10301, 10301), 2, 1))),
    "document 01, stored form, READINGS 19: status and verdict go with the last word",
    *edits("A after 10250 10301, ", AFTER_OUT, (
        ("second series word", 50, (10300, 10301, 10302)),
        ("status", 6, (0, 1, 2, 3)),
        ("open verdict", 8, (0, 1, 2, 4)))),
    "READINGS 7: sound is not the same as reachable: kind 2 may hold words below 0",
    ("-1 fifteen times and a series of -1, kind 2, read", read(Chart(2, (-1,) * 15, (-1,), 0, 0))),
    "document 01, numbers for what is declined: 13 for missing bytes and bytes left over; 16 zeros follow the form",
    *first_bytes("A", A_LONG, (0, 1, 2, 9, 10, 43, 44, 46, 47, 48, 49, 50, 64)),
    "READINGS 21: 13 comes before any content",
    *first_bytes("chart kind 0", changed(A_LONG, 4, 0), (47, 48, 49)),
    "document 01, stored form: a record of two-byte numbers has no odd length",
    ("second length 33 and a byte more, the first 49 bytes (the byte follows the base words)",
     read(changed(A_FORM[:44], 10, 33) + b"\0" + A_FORM[44:])),
    ("third length 3 and a byte more, the first 49 bytes (the byte is the last)",
     read(changed(A_FORM, 44, 3) + b"\0")),
    "document 01, stored form: 10 to 32 words in the base, 0 to 366 in the series, each 1000",
    *[("base of %d and series of %d" % sizes, read(sizes_form(*sizes)))
      for sizes in ((9, 0), (10, 0), (32, 0), (33, 0), (15, 1), (15, 366), (15, 367))],
    "READINGS 21: a head of 6 or 10 bytes is 13",
    ("head of two numbers", read(model.record(1, (2, 0)) + TEN_RECORDS["base"] + TEN_RECORDS["series"])),
    ("head of four numbers", read(model.record(1, (2, 0, 0, 0)) + TEN_RECORDS["base"] + TEN_RECORDS["series"])),
    "document 01, stored form: the records stand in this order, and nothing follows",
    *map(in_order, ("head base series", "head series base", "base head series", "base series head",
                    "series base head", "head base", "head base series series")),
    "document 01, stored form: numbers are little-endian",
    ("A, the bytes of every number exchanged", read(exchanged(A_FORM, 0, 48))),
    ("A, the bytes of every word exchanged", read(exchanged(A_FORM, 14, 44))),
    ("4135 and 10000, the bytes of every word exchanged",
     read(exchanged(model.stored_form(Chart(2, SWAPPED, (), 0, 0)), 14, 44))),
)

LINES = (
    "document 01, figures: A has mean 10000, S 100, limits 9700, 9800, 10200, 10300",
    ("A, lines", build(A), "lines"),
    "document 01, figures, READINGS 32: the lines of C times 256 are 2559740, 2559873, 2560136, 2560400, 2560533",
    ("C, lines", build(C), "lines"),
    "READINGS 26: the mean line goes down and a lower limit up; M is C negated, and P is N negated",
    ("M, lines", build(M), "lines"),
    ("N, lines", build(N), "lines"),
    ("P, lines", build(P), "lines"),
    "READINGS 27: the lower warning limit of Q is a little below 0, and its line is 0",
    ("Q, lines", build(Q), "lines"),
    "READINGS 28: the limits of W and of H leave the range of words; H is read, since ten words build no chart",
    ("W, lines", build(W), "lines"),
    ("H, lines", read(Chart(*H, (), 0, 0)), "lines"),
    "document 01, mistakes that look reasonable: a limit is not rounded to the nearest 256th",
    ("E, lines", build(E), "lines"),
    ("F, lines", build(F), "lines"),
    ("G, lines", build(G), "lines"),
    "document 01, lines for the plotter: kind 1 has three",
    ("K, lines", build(K), "lines"),
    ("Z, lines", build(Z), "lines"),
    ("D, lines", build(D), "lines"),
    "document 02, Q-4: T has ten words and is read, since no build gives such a base now",
    ("T, lines", read(Chart(*T, (), 0, 0)), "lines"),
)

LISTS = (
    "document 01, lists: each call goes on from the chart that the call before it gave back",
    ("A, no calls", build(A), "show", "lines"),
    ("A, eight calls", build(A), "post 2 10250 10000 10000", "post 2 10301 10000 10000", "post 2 10000 10000 10000",
     "reanalyse 2 10250 10000 10000", "correct", "reanalyse 2 10000 10000 10000", "post 3 1 1 10000", "renew", "show",
     "lines"),
    ("A, a run to one side and its correction", *posted(A, *[10150] * 7), "correct", "show", "lines"),
    ("A, numbers that are no readings", build(A), "post 258 10000 10000 10000", "post 2 -1 10000 10000",
     "post 2 4294977296 10000 10000", "post 2 1000000001 0 10000", "post 2 10000 0 10000",
     "post 2 10000 10000 10000", "correct", "renew", "show", "lines"),
    ("K, kinds that are none", build(K), "post -1 1 1 10000", "post 65537 1 1 10000", "post 1 1 2 10000",
     "reanalyse 1 1 1 10000", "correct", "reanalyse 1 1 1 10000", "renew", "show", "lines"),
    ("wide, a renewal of six rounds", build((1, (20000,) * 18 + (0,) * 14)), *posts(1, (0, 1, 12, 144, 1728, 20000)),
     "renew", "renew", "post 1 1 2 10000", "show", "lines"),
    ("wide, a renewal of one round by a word more", build((1, (20000,) * 22 + (0,) * 10)),
     *posts(1, (1, 12, 144, 1728, 20000)), "renew", "renew", "post 1 1 2 10000", "show", "lines"),
    ("N, spikes", build(N), "post 3 0 1 10000", "post 3 0 2 10000", "post 3 0 2 10000", "reanalyse 3 0 3 10000",
     "correct", "reanalyse 3 1 2 10000", "post 3 30000 0 10000", "renew", "show", "lines"),
    ("stored A, two calls", read(Chart(*A, (10301,), 1, 1)), "reanalyse 2 10301 10000 0", "correct", "show", "lines"),
    ("stored N, one call", read(Chart(*N, (), 0, 0)), "post 3 0 1 20000", "show", "lines"),
)

THREE_AND_FOUR = ((1, 3), (2, 3), (1, 4), (2, 4))

ONE_SIDE = (
    "READINGS-02 1: the order is 1, 2, 4, 3; in these 4 and 3 apply too",
    ("A, posts 10110 up to 10150 by tens and 10210 10250", *posted(A, *UP_FAR[:5], 10210, 10250)),
    ("A, posts 9890 down to 9850 by tens and 9790 9750", *posted(A, *DOWN_ACROSS[1:6], 9790, 9750)),
    ("A, posts 10110 up to 10160 by tens and 10301", *posted(A, *UP_FAR[:6], 10301)),
    ("A, posts 9890 down to 9840 by tens and 9699", *posted(A, *DOWN_ACROSS[1:], 9699)),
    ("A, posts 10110 up to 10150 by tens and 10210 10301", *posted(A, *UP_FAR[:5], 10210, 10301)),
    "READINGS-02 1: kind 1 has no 4, so that a trend on one side stays 3",
    ("K, posts 1010 up to 1070 by tens", *posted(K, *K_UP_ABOVE)),
    ("K, posts 1070 down to 1010 by tens", *posted(K, *reversed(K_UP_ABOVE))),
    ("K, posts 990 down to 930 by tens", *posted(K, *K_DOWN_BELOW)),
    ("K, posts 930 up to 990 by tens", *posted(K, *reversed(K_DOWN_BELOW))),
    "document 02, Q-1: 4 is answered on both sides, in a rising and in a falling run, for kinds 2 and 3",
    ("A, posts 10070 down to 10010 by tens", *posted(A, *reversed(UP_ABOVE))),
    ("A, posts 9990 down to 9930 by tens", *posted(A, *DOWN_BELOW)),
    ("A, posts 9930 up to 9990 by tens", *posted(A, *UP_BELOW)),
    ("A, posts 10001 up to 10007", *posted(A, *range(10001, 10008))),
    ("R, posts -990 up to -930 by tens", *posted(R, *range(-990, -929, 10))),
    ("R, posts -930 down to -990 by tens", *posted(R, *range(-930, -991, -10))),
    ("R, posts -1010 down to -1070 by tens", *posted(R, *R_DOWN_BELOW)),
    ("R, posts -1070 up to -1010 by tens", *posted(R, *reversed(R_DOWN_BELOW))),
    "READINGS-02 3: a run with a word on the mean stays 3, since that word is on no side of it",
    ("A, posts 10000 up to 10060 by tens", *posted(A, *range(10000, 10061, 10))),
    ("A, posts 10060 down to 10000 by tens", *posted(A, *range(10060, 9999, -10))),
    ("A, posts 10000 down to 9940 by tens", *posted(A, *range(10000, 9939, -10))),
    ("A, posts 9940 up to 10000 by tens", *posted(A, *range(9940, 10001, 10))),
    "READINGS-02 3: a run with one word on the other side of the mean stays 3",
    ("A, posts 9990 and 10010 up to 10060 by tens", *posted(A, *SIX_ABOVE)),
    ("A, posts 10060 down to 10010 by tens and 9990", *posted(A, *reversed(SIX_ABOVE))),
    ("A, posts 10010 and 9990 down to 9940 by tens", *posted(A, 10010, *DOWN_BELOW[:6])),
    ("A, posts 9940 up to 9990 by tens and 10010", *posted(A, *UP_BELOW[1:], 10010)),
    ("R, posts -1050 up to -990 by tens", *posted(R, *range(-1050, -989, 10))),
    "document 02, Q-1: six words are neither; seven without a trend are judged by the side alone",
    ("A, posts 10010 up to 10060 by tens", *posted(A, *UP_ABOVE[:6])),
    ("A, posts 10010 10020 10030 10030 10040 10050 10060", *posted(A, *UP_ABOVE[:3], *UP_ABOVE[2:6])),
    ("A, posts 9990 10020 10010 10030 10040 10050 10060", *posted(A, 9990, 10020, 10010, *UP_ABOVE[2:6])),
    "READINGS-02 2: a reanalysis goes by the verdict that was answered; after 4 a correction is due first",
    ("A, posts 10110 up to 10170 by tens", *posted(A, *UP_FAR)),
    ("A after 10110 up to 10170: 10159", *reanalysed(AFTER_UP_FAR, 10159)),
    ("A after 10110 up to 10170, post of X 10000, A 10000", read(AFTER_UP_FAR), "post 2 10000 10000 0"),
    ("A after 10110 up to 10170, renewal", read(AFTER_UP_FAR), "renew"),
    ("A after 10110 up to 10170, correction", read(AFTER_UP_FAR), "correct"),
    *[("A after that: %d (that: 10110 up to 10170, correction)" % word, *reanalysed(UP_FAR_CORRECTED, word))
      for word in (10160, 10159, 10100, 10099, 10001, 10000, 9999, 9900, 9700, 9699, 10301)],
    "READINGS-02 2: the same call by call; after the reanalysis that passes, the run still counts",
    ("A, a trend on one side and its reanalyses", *posted(A, *UP_FAR), *[call("reanalyse", 2, 10159), "correct"] * 2,
     *[call("reanalyse", 2, 10099)] * 2, *posts(2, [10170]), "show", "lines"),
    "document 02, Q-1: the posts after 4 was closed",
    ("A after 10010 up to 10070, correction", read(AFTER_UP_ABOVE), "correct"),
    ("A after that: 10070 (that: 10010 up to 10070, correction)", call("reanalyse", 2, 10070)),
    ("A after that, posts 10080 (that: 10010 up to 10070, correction, reanalysis 10070)", *posts(2, [10080])),
    ("A after that, correction (that: 10010 up to 10080)", "correct"),
    ("A after that: 10000 (that: 10010 up to 10080, correction)", call("reanalyse", 2, 10000)),
    ("A after that, posts 10090 (that: 10010 up to 10070 and 10000)", *posts(2, [10090])),
    *[("A after 10010 up to 10070, closed, posts %d" % word,
       read(AFTER_UP_ABOVE._replace(status=0, verdict=0)), *posts(2, [word])) for word in (10060, 10000, 9990)],
    ("A after 9930 up to 9990, closed, posts 10010", read(Chart(*A, tuple(UP_BELOW), 0, 0)), *posts(2, [10010])),
    "document 02, Q-1: the post after 3 was closed",
    ("A after 9990 and 10010 up to 10060: 10060", *reanalysed(AFTER_SIX_ABOVE, 10060)),
    ("A after that, posts 10070 (that: 9990 and 10010 up to 10060, reanalysis 10060)", *posts(2, [10070])),
    ("K after 1010 up to 1070, closed, posts 1080", read(Chart(*K, tuple(K_UP_ABOVE), 0, 0)), *posts(1, [1080])),
    "READINGS-02 4: stored open under 3 where 4 applies is refused with 14, with either status",
    *opened("A, series 10010 up to 10070 by tens", A, UP_ABOVE, ((0, 0), *THREE_AND_FOUR)),
    *opened("A, series 9990 down to 9930 by tens", A, DOWN_BELOW, THREE_AND_FOUR),
    *opened("R, series -1010 down to -1070 by tens", R, R_DOWN_BELOW, THREE_AND_FOUR),
    "READINGS-02 3, 4: a run that crosses the mean, or has a word on it, is stored open under 3 and not under 4",
    *opened("A, series 9950 up to 10010 by tens", A, UP, THREE_AND_FOUR),
    *opened("A, series 10050 down to 9990 by tens", A, DOWN, THREE_AND_FOUR),
    *opened("A, series 10000 up to 10060 by tens", A, range(10000, 10061, 10), THREE_AND_FOUR),
    "READINGS-02 1, 4: for kind 1 a trend on one side is stored open under 3 and not under 4",
    *opened("K, series 1010 up to 1070 by tens", K, K_UP_ABOVE, THREE_AND_FOUR),
    *opened("K, series 990 down to 930 by tens", K, K_DOWN_BELOW, THREE_AND_FOUR),
    "READINGS-02 1, 4: where 2 applies too, only 2 is stored open",
    *opened("A, series 10110 up to 10150 by tens and 10210 10250", A, (*UP_FAR[:5], 10210, 10250),
            ((1, 2), (2, 2), *THREE_AND_FOUR)),
)

HALVES = (
    "READINGS-02 5: a half goes to the even one: down where the whole part is even, up where it is odd",
    ("check X 1, A 20000", "word 2 1 20000 0"),
    ("check X 3, A 20000", "word 2 3 20000 0"),
    ("check X 5, A 20000", "word 2 5 20000 0"),
    ("check X 625, A 20000", "word 2 625 20000 0"),
    ("check X 627, A 20000", "word 2 627 20000 0"),
    ("spike SSR 3, SR 0, SA 20000", "word 3 3 0 20000"),
    ("spike SSR 5, SR 0, SA 20000", "word 3 5 0 20000"),
    ("duplicate X1 40001, X2 39999", "word 1 40001 39999 0"),
    ("duplicate X1 40003, X2 39997", "word 1 40003 39997 0"),
    ("duplicate X1 39995, X2 40005", "word 1 39995 40005 0"),
    "READINGS-02 5: the same below 0",
    ("spike SSR 0, SR 3, SA 20000", "word 3 0 3 20000"),
    ("spike SSR 0, SR 5, SA 20000", "word 3 0 5 20000"),
    ("spike SSR 0, SR 625, SA 20000", "word 3 0 625 20000"),
    ("spike SSR 0, SR 627, SA 20000", "word 3 0 627 20000"),
    "READINGS-02 5: only the halfway case changes; 312.5 and 313.5 and the quotients next to them",
    ("check X 31249999, A 1000000000", "word 2 31249999 1000000000 0"),
    ("check X 31250000, A 1000000000", "word 2 31250000 1000000000 0"),
    ("check X 31250001, A 1000000000", "word 2 31250001 1000000000 0"),
    ("check X 31349999, A 1000000000", "word 2 31349999 1000000000 0"),
    ("check X 31350000, A 1000000000", "word 2 31350000 1000000000 0"),
    ("check X 31350001, A 1000000000", "word 2 31350001 1000000000 0"),
    ("duplicate X1 649999999, X2 630000000", "word 1 649999999 630000000 0"),
    ("duplicate X1 650000000, X2 630000000", "word 1 650000000 630000000 0"),
    ("duplicate X1 650000001, X2 630000000", "word 1 650000001 630000000 0"),
    ("spike SSR 0, SR 31249999, SA 1000000000", "word 3 0 31249999 1000000000"),
    ("spike SSR 0, SR 31250000, SA 1000000000", "word 3 0 31250000 1000000000"),
    ("spike SSR 0, SR 31250001, SA 1000000000", "word 3 0 31250001 1000000000"),
    ("spike SSR 0, SR 31349999, SA 1000000000", "word 3 0 31349999 1000000000"),
    ("spike SSR 0, SR 31350000, SA 1000000000", "word 3 0 31350000 1000000000"),
    ("spike SSR 0, SR 31350001, SA 1000000000", "word 3 0 31350001 1000000000"),
    "document 02, Q-3: the word is even, whether the readings are odd or even: 312.5, 937.5, 1562.5 and 2187.5",
    ("check X 1, A 32", "word 2 1 32 0"),
    ("check X 2, A 64", "word 2 2 64 0"),
    ("check X 3, A 32", "word 2 3 32 0"),
    ("check X 6, A 64", "word 2 6 64 0"),
    ("check X 5, A 32", "word 2 5 32 0"),
    ("check X 7, A 32", "word 2 7 32 0"),
    ("duplicate X1 130, X2 126", "word 1 130 126 0"),
    ("duplicate X1 67, X2 61", "word 1 67 61 0"),
    ("duplicate X1 134, X2 122", "word 1 134 122 0"),
    ("spike SSR 0, SR 2, SA 64", "word 3 0 2 64"),
    ("spike SSR 0, SR 3, SA 32", "word 3 0 3 32"),
    "READINGS-02 6: the range is tested after rounding: 19999.5 and 20000.5 go to 20000, 20001.5 goes to 20002",
    ("check X 199995, A 100000", "word 2 199995 100000 0"),
    ("check X 200005, A 100000", "word 2 200005 100000 0"),
    ("check X 200006, A 100000", "word 2 200006 100000 0"),
    ("check X 200015, A 100000", "word 2 200015 100000 0"),
    ("duplicate X1 79999, X2 1", "word 1 79999 1 0"),
    ("spike SSR 200015, SR 0, SA 100000", "word 3 200015 0 100000"),
    ("spike SSR 0, SR 199995, SA 100000", "word 3 0 199995 100000"),
    ("spike SSR 0, SR 200015, SA 100000", "word 3 0 200015 100000"),
    ("A, post of X 200005, A 100000", build(A), "post 2 200005 100000 0"),
    ("A, post of X 200006, A 100000", build(A), "post 2 200006 100000 0"),
    ("A after 10250 10301, reanalysis of X 200005, A 100000", read(AFTER_OUT), "reanalyse 2 200005 100000 0"),
    ("A after 10250 10301, reanalysis of X 200006, A 100000", read(AFTER_OUT), "reanalyse 2 200006 100000 0"),
    "document 02, Q-3: a post is compared with the new word; 312 is on the control limit of J and U, -312 on that of L",
    ("J, post of X1 65, X2 63", build(J), "post 1 65 63 0"),
    ("J, post of X1 650000001, X2 630000000", build(J), "post 1 650000001 630000000 0"),
    ("L, post of SSR 0, SR 1, SA 32", build(L), "post 3 0 1 32"),
    ("L, post of SSR 0, SR 31250001, SA 1000000000", build(L), "post 3 0 31250001 1000000000"),
    ("U, post of X 1, A 32", build(U), "post 2 1 32 0"),
    ("U, post of X 31250001, A 1000000000", build(U), "post 2 31250001 1000000000 0"),
    "document 02, Q-3: the same where the new word is beyond; 288.5 goes to 288, and V has a control limit of 289",
    ("V, post of X 577, A 20000", build(V), "post 2 577 20000 0"),
    "document 02, Q-3: two in a row; 308.5 goes to 308, the warning limit of U; 292.5 to 292, and that of V is 293",
    ("U after 309, post of X 617, A 20000", *posted(U, 309), "post 2 617 20000 0"),
    ("V after 292, post of X 585, A 20000", *posted(V, 292), "post 2 585 20000 0"),
    "document 02, Q-3: a trend; 302.5 goes to 302, which is equal to the word before it; 303.5 goes to 304",
    ("U after 297 up to 302, post of X 605, A 20000", *posted(U, *range(297, 303)), "post 2 605 20000 0"),
    ("U after 297 up to 302, post of X 607, A 20000", *posted(U, *range(297, 303)), "post 2 607 20000 0"),
    "document 02, Q-3: one side; 300.5 goes to 300, which is the mean of U and below that of V",
    ("U after 301 six times, post of X 601, A 20000", *posted(U, *[301] * 6), "post 2 601 20000 0"),
    ("V after 300 six times, post of X 601, A 20000", *posted(V, *[300] * 6), "post 2 601 20000 0"),
    "document 02, Q-3: a reanalysis is compared with the new word, here for verdict 1",
    ("J after 313, reanalysis of X1 65, X2 63", read(Chart(*J, (313,), 1, 1)), "reanalyse 1 65 63 0"),
    ("J after 313, reanalysis of X1 650000001, X2 630000000", read(Chart(*J, (313,), 1, 1)),
     "reanalyse 1 650000001 630000000 0"),
    ("L after -313, reanalysis of SSR 0, SR 1, SA 32", read(Chart(*L, (-313,), 1, 1)), "reanalyse 3 0 1 32"),
    ("V after 314, reanalysis of X 577, A 20000", read(Chart(*V, (314,), 1, 1)), "reanalyse 2 577 20000 0"),
    "document 02, Q-3: the same for verdict 2",
    ("U after 309 309, reanalysis of X 617, A 20000", read(Chart(*U, (309, 309), 1, 2)), "reanalyse 2 617 20000 0"),
    ("V after 310 310, reanalysis of X 585, A 20000", read(Chart(*V, (310, 310), 1, 2)), "reanalyse 2 585 20000 0"),
    "document 02, Q-3: the same for verdict 3; 304.5 goes to 304, which is below 305 on U and near the mean of V",
    ("U after 299 up to 303 and 305 306, reanalysis of X 609, A 20000",
     read(Chart(*U, (*range(299, 304), 305, 306), 1, 3)), "reanalyse 2 609 20000 0"),
    ("V after 298 up to 304, reanalysis of X 609, A 20000", read(Chart(*V, tuple(range(298, 305)), 1, 3)),
     "reanalyse 2 609 20000 0"),
    "document 02, Q-3: the same for verdict 4",
    ("V after 306 seven times with status 1, reanalysis of X 609, A 20000", read(Chart(*V, (306,) * 7, 1, 4)),
     "reanalyse 2 609 20000 0"),
    "READINGS-02 7: lines are no percentages and keep their own rule; the mean line of N is -120 / 256",
    ("-1 seven times and 0 eight times, kind 3, lines", build(N), "lines"),
    ("J, lines", build(J), "lines"),
    ("L, lines", build(L), "lines"),
    "document 02, Q-3, READINGS-02 7: words in stored charts are left alone; 65 and 63 gave 313 before",
    ("Y, series 313, read", read(Chart(*Y, (313,), 0, 0))),
    ("Y after that, post of X1 65, X2 63 (that: series 313 from store)", "post 1 65 63 0"),
    ("Y after that, write (that: 313 from store, post of 312)", "write"),
    ("Y after that, renewal (that: 313 from store, post of 312)", "renew"),
    ("Y after that, lines (that: 313 from store, post of 312, renewal)", "lines"),
    "READINGS-02 7: a base of the old words stays too; S is 0, so that the new word is beyond its limits",
    ("-313 fifteen times and a series of -313, kind 3, read", read(Chart(3, (-313,) * 15, (-313,), 0, 0))),
    ("-313 fifteen times after that, post of SSR 0, SR 1, SA 32 (that: series -313 from store)", "post 3 0 1 32"),
    ("-313 fifteen times after that: -313 (that: series -313 from store, post of -312)", call("reanalyse", 3, -313)),
    "READINGS-02 7: a verdict that was opened by an old word is still open, though the same readings now give 312",
    *opened("J, series 313", J, (313,), ((0, 0), (1, 1), (2, 1))),
)

# document 02, Q-4: words far from 0. However many of the last of them come before 0 fourteen times, rejection removes
# them all. TURNED has the same words with neighbours exchanged, so that no seven of them fall.
FAR = (147, 125, 105, 88, 73, 60, 49, 39, 31, 24, 19, 14, 10, 7, 5, 3, 2, 1)
TURNED = tuple(word for at in range(0, 18, 2) for word in (FAR[at + 1], FAR[at]))
FAR_BOTH = (-136, 116, -98, 82, -68, 56, -46, 37, -29, 23, -18, 13, -10, 7, -5, 3, -2, 1)
ZEROS_14 = (0,) * 14
WIDE_1 = (20000,) * 16 + (0,) * 16


def from_store(kind, base, series=(), status=0, verdict=0):
    """A read of a chart."""
    return read(Chart(kind, tuple(base), tuple(series), status, verdict))


def renewals_after(front, base, words):
    """Cases: a chart by a build or, with a base below 15 words, from store; its renewal after each number of posts."""
    kind, count = base[0], len(base[1])
    for posts_made in range(len(words) + 1):
        start = build(base) if count >= 15 else from_store(*base)
        told_posts = "%d post%s" % (posts_made, "" if posts_made == 1 else "s")
        yield ("%s after %s, renewal" % (front, told_posts), start, *posts(kind, words[:posts_made]), "renew")


FIFTEEN = (
    "READINGS-02 10: 16 counts the words that stand at the end; a refused build leaves the chart before it",
    ("1000 sixteen times and 2000, kind 1", build((1, (1000,) * 16 + (2000,)))),
    ("1000 fourteen times and 2000, kind 2", build((2, HIGH))),
    ("1000 fourteen times and 2000, kind 3", build((3, HIGH))),
    ("-1000 fourteen times and -2000, kind 3", build((3, (-1000,) * 14 + (-2000,)))),
    ("-1000 fifteen times and -2000, kind 3", build((3, (-1000,) * 15 + (-2000,)))),
    ("A, then 1000 fourteen times and 2000, kind 1", build(A), build((1, HIGH)), "show"),
    ("chart of A after that, posts 10301 (that: a refused build)", *posts(2, [10301])),
    "document 02, Q-4: words go on both sides for kinds 2 and 3; kind 1 keeps the lower one",
    ("500, 1000 fourteen times and 2000, kind 1", build((1, (500, *HIGH)))),
    ("500, 1000 fourteen times and 2000, kind 2", build((2, (500, *HIGH)))),
    ("500, 1000 fifteen times and 2000, kind 2", build((2, (500, *HIGH_15)))),
    "document 02, Q-4: 14, 15 and 16 standing of 32, in many rounds",
    *[("32 words with 0 %s times, kind %d" % (NAMES[left - 3], kind), build((kind, far[left - 14:] + (0,) * left)))
      for kind, far in ((1, FAR), (2, FAR_BOTH), (3, FAR_BOTH)) for left in (14, 15, 16)],
    "document 02, Q-4: 16 comes after 1, 2 and 3 in building",
    ("1000 fourteen times and 2000, kind 4", build((4, HIGH))),
    ("1000 thirteen times and 2000, kind 1", build((1, HIGH[1:]))),
    ("1000 fourteen times and 20001, kind 1", build((1, HIGH[:14] + (20001,)))),
    "READINGS-02 11: the shortest tail of which 15 stand; the tails of 15 to 18 words of B after 3 posts leave 14, 15, "
    "14 and 18",
    *renewals_after("B", B, (0, 0, 0)),
    ("B after that (that: 3 posts, renewal)", "show"),
    "document 02, Q-4: rounds and removals are those of the tail used, here of 20 words and of 32",
    ("wide after 0 and the last 5 of 18 far words, and 0 fourteen times, renewal",
     from_store(1, WIDE_1, (0, *FAR[13:], *ZEROS_14)), "renew"),
    ("wide after 0 and the last 17 of 18 far words, and 0 fourteen times, renewal",
     from_store(1, WIDE_1, (0, *FAR[1:], *ZEROS_14)), "renew"),
    ("wide after 0 and 17 words on both sides, and 0 fourteen times, kind 3, renewal",
     from_store(3, (-20000, 20000) * 16, (0, *FAR_BOTH[1:], *ZEROS_14)), "renew"),
    "document 02, Q-4: 33 words are never taken, though 15 of them stand here",
    ("wide after 0 and 18 far words, and 0 fourteen times, renewal",
     from_store(1, WIDE_1, (0, *FAR, *ZEROS_14)), "renew"),
    "document 02, Q-4: the tail used is all there are, and fewer than 32",
    ("0, 20, -10 and 0 seven times after 0 seven times, kind 2, renewal",
     from_store(2, (0, 20, -10) + (0,) * 7, (0,) * 7), "renew"),
    ("0, 20, -10 and 0 seven times after 0 six times, kind 2, renewal",
     from_store(2, (0, 20, -10) + (0,) * 7, (0,) * 6), "renew"),
    "READINGS-02 12: no tail will do, though the base has 15 words; with one post more the renewal is accepted",
    *renewals_after("X", X, (0, 0)),
    "READINGS-02 12: 8 comes before 16, and so does 12",
    ("X after 120 with status 1, renewal", from_store(*X, (120,), 1, 1), "renew"),
    ("X after 120 with status 2, renewal", from_store(*X, (120,), 2, 1), "renew"),
    *list(renewals_after("1 and 0 nine times", (1, (1,) + (0,) * 9), (0,) * 7))[3:],
    "READINGS-02 12: without posts, a base of 15 words or more is a tail that stands; here no shorter one will do",
    ("2, 2, 1 and 0 fourteen times, renewal (without posts)", build((1, (2, 2, 1) + ZEROS_14)), "renew"),
    ("W, renewal (without posts)", build(W), "renew"),
    "READINGS-02 13: a base of 10 to 14 words is read and posted to; below 15 words in all, renewal is 12",
    *[("1000 %s times from store, kind %d, %s" % (NAMES[count - 3], kind, told_call),
       from_store(kind, (1000,) * count), command)
      for count in range(10, 15) for kind in (1, 2, 3)
      for told_call, command in (("posts 1001", call("post", kind, 1001)), ("renewal", "renew"))],
    ("1000 ten times from store, kind 2: judged, reanalysed and renewed", from_store(2, (1000,) * 10),
     *posts(2, (1000, 999)), call("reanalyse", 2, 1001), "correct", call("reanalyse", 2, 1000), "renew",
     *posts(2, (1000, 1000)), "renew", *posts(2, (1000,)), "renew", "show", "write", "lines"),
    "READINGS-02 13: after a renewal that is accepted, the base has 15 words or more",
    ("1000 ten times and 1000 five times from store, renewal", from_store(1, (1000,) * 10, (1000,) * 5), "renew"),
    "READINGS-02 14: a full series of which no tail will do; only a new build helps",
    ("wide after 365 words, posts 0", from_store(1, WIDE_1, (0,) * 334 + TURNED + ZEROS_14[1:]), *posts(1, (0,))),
    ("wide after that, renewal (that: 366 words)", "renew"),
    ("wide after that, post of X1 5, X2 5 (that: 366 words, a refused renewal)", "post 1 5 5 0"),
    ("Z after that (that: a full series that is not renewed)", build(Z)),
)

SECTIONS = (
    ("Before a chart is built or read", BEFORE),
    ("Words", WORDS),
    ("Charts", CHARTS),
    ("Posts", POSTS),
    ("Reanalysis", REANALYSIS),
    ("Correction", CORRECTION),
    ("Refusals", REFUSALS),
    ("Renewal", RENEWAL),
    ("Charts handed in, as stored forms", HANDED_IN),
    ("Stored forms", STORED),
    ("Lines", LINES),
    ("Lists, call by call", LISTS),
    ("One side before trend", ONE_SIDE),
    ("Halves to even", HALVES),
    ("Fifteen must be standing", FIFTEEN),
)


# The block

def told(words):
    """Words as text: 9900 seven times, 10100 seven times, 10000."""
    runs = [(word, len(list(same))) for word, same in groupby(words)]
    return ", ".join("%d%s" % (word, TIMES[count - 1]) for word, count in runs)


def say(rec, text):
    """A line that the program passes over."""
    rec.raw(b"# " + text.encode("ascii"))


def put(rec, label, *lines):
    """One case, with `show` if the chart was made or may have changed."""
    say(rec, label)
    for line in lines:
        answer = rec.raw(line.encode("ascii"))
    command = lines[-1].split()[0]
    no_chart = command in ("build", "read") and answer.startswith(b"refused")
    if command not in LOOKING and not no_chart:
        rec.do("show")


def figures(rec):
    """Adds all sections. The record must still have the chart of zeros."""
    assert rec.chart == model.ZEROS
    rec.raw(b"")
    say(rec, "== The figures of document 01 and the cases of its readings, as document 02 changes them")
    for letter, (kind, words) in LETTERS.items():
        say(rec, "base %s: kind %d, %s" % (letter, kind, told(words)))
    for title, entries in SECTIONS:
        rec.raw(b"")
        say(rec, "== " + title)
        for entry in entries:
            if isinstance(entry, str):
                rec.raw(b"")
                say(rec, entry)
            else:
                put(rec, *entry)
    rec.raw(b"")
