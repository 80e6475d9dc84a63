"""Makes the commands of the program control_chart and their answers, both from the model.

python3 make_vectors.py writes nothing; it prints how often each outcome occurs.
"""

import random

import model
import choices
from commands import MARK
from model import Chart
from choices import Record, exact
from figures import figures
from make_calls import numbers_of

ASKED = "crates/control_chart/stdin"
ANSWERED = "crates/control_chart/stdout"

A = (9900,) * 7 + (10100,) * 7 + (10000,)
C = (10000,) * 7 + (10001,) * 8
K = (900,) * 7 + (1100,) * 7 + (1000,)
N = (-1100,) * 7 + (-900,) * 7 + (-1000,)
Z = (1000,) * 15
TEN = (0,) * 10 + (1, 12, 144, 1728, 20000)
BASES = ((1, K), (2, A), (3, N))

# The kinds, with the sides of 0 on which their readings give words.
SIDES = ((1, 1), (2, 1), (3, 1), (3, -1))

BIG = 9223372036854775807
ODD_READINGS = (-1, 1000000001, BIG, -BIG - 1, 4294967297, -2147483648, 10 ** 18)


def comment(rec, text):
    rec.raw(b"# " + text.encode())


def restore(rec, stored):
    """Reads a stored form that is known to be sound."""
    assert rec.do("read", stored) == b"read"


def on_zeros(rec):
    """The chart of zeros, and the order 14 before all others. The first line of all has a mark in front."""
    rec.raw(MARK + b"# the chart of zeros is not sound")
    rec.do("show")
    for command in ("correct", "renew", "lines", "write"):
        rec.do(command)
    for command in ("post", "reanalyse"):
        for fields in ((0, 0, 0, 0), (0, 5, 5, 5), (2, 10000, 10000, 0), (3, -1, 0, 1), (2, 1, 0, 0),
                       (3, 300, 0, 100), (4, 1, 1, 1)):
            rec.do(command, *fields)
    rec.do("build", 4, *A)
    rec.do("read", "00")
    rec.do("show")


def words(rec, rng):
    """Words formed alone."""
    comment(rec, "words formed alone")
    for fields in ((1, 1, 2, 0), (1, 65, 63, 0), (3, 0, 1, 32), (3, 200004, 0, 100000), (3, 200005, 0, 100000),
                   (1, 1, 2, -5), (2, 1000000001, 0, 0), (1, 0, 0, 0), (2, 0, 0, 0), (3, 5, 5, 0), (3, 0, 1, 20000),
                   (3, 1, 0, 20000), (3, 0, 1, 20001), (3, 1, 0, 20001), (3, 0, 1, 19999), (3, 0, 3, 20000),
                   (3, 3, 0, 20000), (3, 300, 0, 100), (4, 1, 1, 1), (1, 1000000001, 0, 0)):
        rec.do("word", *fields)
    for kind in (0, 4, 5, 255, 256, 257, 258, 65535, 65536, 65537, 65538, 65539, 131073, -1, -2, -3, -65535,
                 4294967297, BIG, BIG + 2, 10 ** 40 + 1, -10 ** 40):
        rec.do("word", kind, 1, 2, 3)
    for kind in ("01", "-0", "0002", "00000000000000000000000000000003", "-01"):
        rec.do("word", kind, "007", "0000010", "04")
    # Refusal 5 at each place, alone and with 1, 6 and 7; the third number of kinds 1 and 2.
    for bad in ODD_READINGS:
        for place in range(3):
            for kind in (0, 1, 2, 3):
                numbers = [1, 1, 1]
                numbers[place] = bad
                rec.do("word", kind, *numbers)
    for kind in (1, 2, 3):
        for numbers in ((1000000000, 1000000000, 1000000000), (1000000000, 0, 1), (0, 1000000000, 1),
                        (1000000000, 1, 1000000000), (1000000001, 1000000001, 1000000001), (1000000001, 0, 0),
                        (-1, 1, 0), (1, -1, 0), (0, 0, 1000000001), (0, 0, -1), (-1, -1, 0), (1000000001, 0, 1),
                        (0, 1000000001, 1), (5, 3, 0), (0, 0, 5), (BIG, BIG, BIG), (-BIG - 1, BIG, 1), (BIG, 1, BIG),
                        (1000000000, 999999999, 999999999), (999999999, 1000000000, 1), (0, 1, 1), (1, 0, 1)):
            rec.do("word", kind, *numbers)
    # The ends of the range, before and after rounding.
    for divisor in (1, 3, 10000, 20000, 99999, 100000, 400000000, 499999999):
        limit = 40001 * divisor // 20000
        for numerator in (limit - 1, limit, limit + 1, 2 * divisor, 2 * divisor + 1):
            rec.do("word", 2, numerator, divisor, 0)
            rec.do("word", 3, numerator + 7, 7, divisor)
            rec.do("word", 3, 0, numerator, divisor)
    # Rounding: halves and their neighbours, by all kinds.
    for part in (1, 3, 5, 19999, 39999, 199, 20001):
        for off in (-1, 0, 1):
            rec.do("word", 2, 1000 * part + off, 20000000, 0)
            rec.do("word", 3, 1000 * part + off, 0, 20000000)
            rec.do("word", 3, 5, 1000 * part + off + 5, 20000000)
            rec.do("word", 1, 20000000 + 500 * part + off, 20000000 - 500 * part, 0)
    halves(rec)
    for _ in range(120):
        kind = rng.choice(choices.KINDS)
        word = rng.randint(choices.least_word(kind), 20000)
        rec.do("word", kind, *choices.rounded(rng, kind, word))
    for _ in range(60):
        rec.do("word", rng.choice(choices.KINDS), rng.randint(0, 40), rng.randint(0, 40), rng.randint(0, 40))


def halves(rec):
    """document 02, Q-3: halves and their neighbours, by all kinds, on both sides of 0 and at both ends of the range.

    Whole parts are even and odd. The readings are odd, then even, then nearly as great as they can be. The last have
    their neighbours on both sides with them.
    """
    for twice in (1, 3, 5, 7, 623, 625, 627, 1875, 3125, 4375, 19999, 20001, 20003, 38125, 39375, 39997, 39999, 40001,
                  40003):
        for kind, way in SIDES:
            if kind == 1 and twice > 40000:
                continue
            most = 999999999 // max(choices.halfway(kind, way * twice))
            for times in (1, 2):
                rec.do("word", kind, *choices.halfway(kind, way * twice, times))
            a, b, c = choices.halfway(kind, way * twice, most)
            for off in (-1, 0, 1):
                numbers = (a, b + off, c) if way < 0 else (a + off, b, c)
                rec.do("word", kind, *numbers)
                if kind == 1:
                    rec.do("word", kind, b, a + off, c)
    # Both readings of a spike are above 0.
    for twice in (1, 3, 40001, 40003):
        for way in (1, -1):
            for off in (-1, 0, 1):
                rec.do("word", 3, 500000000 + way * (1000 * twice + off), 500000000, 20000000)
    # The divisor is 32, 64 or 96; for kind 1 it is 128, 256 or 384, as with 65 and 63.
    for odd in (1, 3, 5, 7, 9, 63, 65):
        for factor in (1, 2, 3):
            rec.do("word", 2, factor * odd, factor * 32, 0)
            rec.do("word", 3, 0, factor * odd, factor * 32)
            if odd < 64:
                rec.do("word", 1, factor * (64 - odd), factor * (64 + odd), 0)


def builds(rec, rng):
    """Building, rejection and its refusals."""
    comment(rec, "building")
    low = (1000,) * 14 + (0,)
    two = (10000,) * 13 + (10001,) * 13 + (10050, 10051)
    for kind, base in ((2, A), (2, C), (1, K), (1, Z), (1, TEN), (1, low), (2, low), (2, two), (3, two), (1, two),
                       (1, (1000,) * 14 + (2000,)), (2, (-1,) * 15), (1, (-1,) * 15), (3, N),
                       (3, tuple(-word for word in TEN)), (2, (-20000,) * 16 + (20000,) * 16)):
        rec.build_or_read(kind, base)
        rec.do("show")
        rec.do("lines")
    rec.build(2, A)
    for size in (0, 1, 9, 10, 14, 15, 16, 31, 32, 33, 34, 64, 271, 288):
        for kind in (0, 1, 2, 3, 4, 65537):
            rec.build(kind, (1000 + size % 3,) * size)
    rec.do("show")
    # Refusals 1, 2, 3 in every pairing, and the chart that stays.
    bad_words = (20001, -20001, 32767, 32768, -32768, -32769, 65536, 65536 + 1000, -64536, 10 ** 30, -10 ** 30, BIG)
    for bad in bad_words + (-1,):
        for kind in (0, 1, 2, 3, 4):
            for size in (14, 15, 32, 33):
                if size in (14, 33) and bad not in (20001, -1, 10 ** 30):
                    continue
                base = [1000] * size
                base[rng.choice((0, size - 1, rng.randrange(size)))] = bad
                rec.build(kind, base)
    rec.do("show")
    for kind in (1, 2, 3):
        for word in (20000, -20000, 0, 19999, -19999):
            rec.build(kind, (word,) * 15)
            rec.do("lines")
            rec.do("show")
    # A word at a control limit of the base itself, and one off, on each side.
    for kind in choices.KINDS:
        for size in (15, 16, 20, 31, 32):
            for way in (1, -1):
                plain = [5000 + (step % 3 - 1) * 40 for step in range(size - 1)]
                far = edge_word(kind, plain, way)
                for word in (far, far + way):
                    base = plain[:3] + [word] + plain[3:]
                    rec.build_or_read(kind, base)
                    rec.do("show")
    # Nineteen words, two of them exactly on the control limits, and one off.
    for kind in choices.KINDS:
        for far in (1, 3, 250, 5000):
            for off in (0, 1, -1):
                base = (6000,) * 5 + (6000 + far,) + (6000,) * 8 + (6000 - far + off,) + (6000,) * 4
                rec.build(kind, base)
                rec.do("show")
                rec.read_chart(Chart(kind, base, (6000 + far, 6000 - far), 0, 0))
                rec.do("lines")
    for _ in range(100):
        kind = rng.choice(choices.KINDS)
        rec.build_or_read(kind, choices.random_base(rng, kind))
        rec.do(rng.choice(("show", "show", "lines")))
    for _ in range(40):
        # A few words, each several times as far away as the one before: many rounds.
        kind = rng.choice(choices.KINDS)
        size = rng.randint(15, 32)
        few = rng.randint(3, 9)
        base = [rng.randint(0, 1) for _ in range(size - few)]
        value = 1
        for _ in range(few):
            value = min(20000, value * rng.choice((3, 4, 5, 6, 12)))
            base.append(value * (rng.choice((1, -1)) if kind != 1 else 1))
        rng.shuffle(base)
        rec.build_or_read(kind, base)
        rec.do("show")


def edge_word(kind, plain, way):
    """The farthest word that rejection does not remove when it is added to the plain words."""
    far = 5000
    while 0 < far < 20000:
        base = plain + [far + way]
        if abs(model.nearest(sum(base), len(base)) - far) > 20 and model.beyond(
                2, model.figures(base), 3, far + way):
            return far
        far += way
    return far


def posts_and_reanalyses(rec):
    """The figures of document 01 and of its readings, as posts and reanalyses."""
    comment(rec, "figures")

    def try_words(kind, base, posts, reanalyses=(), corrected=False):
        rec.build_or_read(kind, base)
        for word in posts:
            rec.post(word)
        rec.do("show")
        if corrected:
            rec.do("correct")
        stored = rec.store()
        for word in reanalyses:
            rec.reanalyse(word)
            rec.do("show")
            restore(rec, stored)

    try_words(2, A, [10300])
    try_words(2, A, [10301], [10301, 10300, 9699, 9700])
    try_words(2, A, [9700])
    try_words(2, A, [9699], [9699, 9700, 10300, 10301])
    try_words(2, A, [10250, 10210], [9790, 9800, 9799, 10200, 10201])
    try_words(2, A, [10250, 9790])
    try_words(2, A, [10200, 10210])
    try_words(2, A, [9790, 9799], [9800, 9799, 10201, 10200])
    try_words(2, A, [9790, 9800, 9790, 9790])
    rising = range(9950, 10011, 10)
    try_words(2, A, rising, [9995, 9600, 10100, 10099, 10010])
    rec.reanalyse(10010)
    rec.post(10020)
    rec.do("show")
    # document 02, Q-1: a trend on one side is 4, so that a reanalysis at once is refused with 10.
    try_words(2, A, range(10010, 10071, 10), [10060])
    try_words(2, A, range(10010, 10071, 10), [10059, 10060, 10061], corrected=True)
    try_words(2, A, [10150] * 7, [9600, 9700, 10100, 10099], corrected=True)
    try_words(2, A, [9850] * 7, [9699, 9700, 9900, 9901, 10000, 10300, 10301], corrected=True)
    try_words(2, A, range(10110, 10171, 10), [10160, 10159])
    try_words(2, A, range(10110, 10171, 10), [10160, 10159, 10100, 10099], corrected=True)
    try_words(2, A, range(9890, 9829, -10), [9840, 9841, 9839, 9901, 9900], corrected=True)
    # Across the mean it stays 3. These words are at least S from the mean, and pass by turning back alone.
    try_words(2, A, [9990, *range(10110, 10161, 10)], [10150, 10149, 10151])
    try_words(2, A, [10010, *range(9890, 9839, -10)], [9850, 9851, 9849])
    try_words(1, K, range(1010, 949, -10), [800, 961, 960, 959, 901, 900, 1099, 1100, 1300, 1301])
    try_words(1, Z, range(100, 701, 100), [1000, 600, 599, 0, 1001])
    try_words(1, Z, range(700, 99, -100), [1000, 200, 201, 1001, 0])
    try_words(1, K, [790, 790])
    try_words(1, K, [1201, 1201], [1200, 1201, 0, 799, 1301])
    try_words(1, K, [1300, 699, 0, 0, 0, 0, 0, 0, 0])
    try_words(1, K, [1301], [1300, 1301, 0])
    try_words(2, A, [10250, 10301], [10250])
    rec.reanalyse(10250)
    rec.do("show")
    rec.do("write")
    try_words(1, (1000,) * 14 + (2000,), [1001], [1000, 1001, 999])
    # Equal neighbours; six of a run; the word before the first of the seven.
    try_words(2, A, [9950, 9960, 9970, 9970, 9980, 9990, 10000, 10010, 10020])
    try_words(2, A, [9950, 9960, 9970, 9980, 9990, 10000, 10000, 10010])
    try_words(2, A, [10100, 9950, 9960, 9970, 9980, 9990, 10000, 10010], [10110])
    try_words(2, A, [10001] * 3 + [10000] + [10001] * 6 + [10002])
    try_words(2, A, [9999] * 6 + [10000] + [9999] * 7)
    try_words(2, A, [9999, 10001] * 8)
    # Seven words, the first at the mean or beyond the warning limit.
    try_words(3, N, [-1100] * 7, [-900], corrected=True)
    try_words(3, N, [-1000] * 8)
    try_words(3, N, [-1201, -1201], [-1201, -1200, -799, -800])
    try_words(3, N, [-700], [])
    try_words(3, N, [-699], [-700, -699, -1301, -1300])
    # The words of the base play no part in verdicts 2, 3 and 4.
    tail = (9900,) * 7 + (10100,) * 7 + (10290,)
    try_words(2, tail, [10290, 10000, 10290])
    try_words(2, (9900,) * 8 + (10100,) * 8 + (9950, 9960, 9970), [9980, 9990, 10000, 10010, 10020, 10030, 10040])
    try_words(2, (10020,) * 7 + (9900,) * 7 + (10010,) * 7, [10020, 10010, 10010, 10010, 10010, 10010])
    # Longer runs, as passed reanalyses leave them: the words before the seven play no part.
    for kind, base in BASES:
        mean = base[-1]
        for length in (6, 7, 8, 9, 20):
            for way in (1, -1):
                series = tuple(mean + way * (step - 4) for step in range(length))
                rec.read_chart(Chart(kind, base, series, 0, 0))
                rec.post(series[-1] + way)
                rec.read_chart(Chart(kind, base, (mean + way,) * length, 0, 0))
                rec.post(mean + way)
                rec.do("show")
    # A run that ends beyond a limit: 1 and 2 come before 4 and 3.
    try_words(2, A, [10001, 10002, 10003, 10004, 10005, 10006, 10301])
    try_words(2, A, [10001, 10002, 10003, 10004, 10005, 10250, 10260])
    try_words(2, A, [10002, 10001, 10003, 10004, 10005, 10250, 10260], [10200, 10201])
    try_words(2, A, [10002, 10001, 10003, 10004, 10005, 10250, 10301])


def away(base, way, distances):
    """Words at these distances from the last word of the base, which is at the mean; way -1 turns them over."""
    return [base[-1] + way * distance for distance in distances]


def one_side_before_trend(rec):
    """document 02, Q-1: trends above, at, across and below the mean, and the reanalyses and posts after them."""
    comment(rec, "one side before trend")
    # The last two bases have means that are no whole numbers: 10000 and a fifteenth, -1000 less a fifteenth. Their last
    # words are next to these.
    for kind, base in BASES + ((2, A[:14] + (10001,)), (3, N[:14] + (-1001,))):
        for way in (1, -1):
            for first in range(2, -10, -1):
                words = away(base, way, range(first, first + 7))
                rec.read_chart(Chart(kind, base, tuple(words[:6]), 0, 0))
                rec.post(words[6])
    ends = (1, 0, -1, 99, 100, -99, -100, -300, -301, 300, 301)
    # The seven, then reanalyses. Across the mean the verdict is 3. On one side it is 4, and for kind 1 it is 3.
    reanalysed = (((-10, 110, 120, 130, 140, 150, 160), (150, 149, 151)),
                  ((-30, -20, -10, 0, 10, 20, 30), (20, 19, 21)),
                  ((110, 120, 130, 140, 150, 160, 170), (160, 159, 161)),
                  ((170, 160, 150, 140, 130, 120, 110), (120, 121, 119)))
    # The seven of a closed verdict, and the word after them.
    closed = (((10, 20, 30, 40, 50, 60, 70), (80, 60, 1, 0, -1)),
              ((70, 60, 50, 40, 30, 20, 10), (20, 1, 0, -1)),
              ((-10, 10, 20, 30, 40, 50, 60), (70, 50, 0, -1)))
    # Beyond a limit: 1, and then 2, come before 4 and 3.
    beyond = ((110, 120, 130, 140, 150, 160, 250), (110, 120, 130, 140, 150, 210, 250),
              (110, 120, 130, 140, 150, 160, 301), (110, 120, 130, 140, 150, 210, 301))
    for kind, base in BASES:
        for way in (1, -1):
            for seven, again in reanalysed:
                words = away(base, way, seven)
                rec.read_chart(Chart(kind, base, tuple(words[:6]), 0, 0))
                rec.post(words[6])
                if rec.chart.status == 2:
                    rec.reanalyse(words[5])
                    rec.do("correct")
                stored = rec.store()
                for word in away(base, way, again + ends):
                    rec.reanalyse(word)
                    restore(rec, stored)
            for seven, following in closed:
                for word in away(base, way, following):
                    rec.read_chart(Chart(kind, base, tuple(away(base, way, seven)), 0, 0))
                    rec.post(word)
            for seven in beyond:
                words = away(base, way, seven)
                rec.read_chart(Chart(kind, base, tuple(words[:6]), 0, 0))
                rec.post(words[6])
                rec.do("show")


def halves_to_even(rec):
    """document 02, Q-3: each half between two words with different outcomes, as a post and as a reanalysis.

    S is 4. So the limits are 8 and 12 from the mean. The mean is even or odd, above 0, at 0 or below 0.
    """
    comment(rec, "halves to even")
    # Six words at most, by their distance from the mean; then the half is posted.
    before = ((), (9,), (-9,), (1,) * 6, (-1,) * 6, (-3, -2, -1, 0, 1, 2), (3, 2, 1, 0, -1, -2))
    # The words of an open verdict, 1 to 4. In a trend the word before the last is away from the mean.
    opened = ((13,), (-13,), (9, 9), (-9, -9), (-1, 0, 1, 2, 3, 5, 6), (1, 0, -1, -2, -3, -5, -6),
              (-1, 0, 1, 2, 3, 6, 7), (1, 0, -1, -2, -3, -6, -7), (6,) * 7, (-6,) * 7)
    for kind, mean in ((1, 300), (1, 301), (2, 300), (2, 301), (3, 300), (3, 301), (3, 0), (3, 1), (3, -1), (3, -300),
                       (3, -301)):
        base = (mean - 4,) * 7 + (mean + 4,) * 7 + (mean,)
        for distances in before:
            series = tuple(away(base, 1, distances))
            for word in range(mean - 14, mean + 14):
                verdicts = [model.judge(kind, base, series + (other,)) for other in (word, word + 1)]
                if verdicts[0] != verdicts[1]:
                    rec.read_chart(Chart(kind, base, series, 0, 0))
                    rec.do("post", kind, *choices.halfway(kind, 2 * word + 1))
        for distances in opened:
            series = tuple(away(base, 1, distances))
            verdict = model.judge(kind, base, series)
            if verdict == 0:
                continue
            chart = Chart(kind, base, series, 1, verdict)
            for pair in choices.flips(chart):
                rec.read_chart(chart)
                rec.do("reanalyse", kind, *choices.halfway(kind, sum(pair)))
                rec.do("show")
    # 20001.5 is refused with 7. 20000.5 goes to the greatest word, and -20000.5 to the least.
    for kind, base, way in ((2, A, 1), (3, A, 1), (3, N, -1)):
        rec.read_chart(Chart(kind, base, (), 0, 0))
        for command in ("post", "reanalyse"):
            for twice in (40003, 40001):
                rec.do(command, kind, *choices.halfway(kind, way * twice))
                rec.do("show")
    # Words in stored charts are left alone: 313 stays, though the half that gave 313 before gives 312 now.
    for kind, way in SIDES:
        base = tuple(way * word for word in (213,) * 7 + (413,) * 7 + (313,))
        rec.read_chart(Chart(kind, base, (way * 313,), 0, 0))
        rec.do("show")
        rec.do("post", kind, *choices.halfway(kind, way * 625))
        for command in ("show", "write", "lines", "renew", "show", "lines"):
            rec.do(command)


# document 02, Q-4: for each kind the sides on which words are removed, in turn, and the word that stands.
SIDES_REMOVED = ((1, (1,), 700), (2, (1, -1), 10000), (2, (-1,), 300), (3, (-1,), -900), (3, (1, 1, -1), 0))

# document 02, Q-4: words in which a longer tail does worse than a shorter one. For each kind: which tails will do, from
# the last 15 words on (1 will do, 0 will not), and the words. `5*0` stands for 0 five times.
SHORTER_BETTER = {
    1: """\
10: 20 6*0 150 0 0 100 5*0
100: 4*0 15 3*0 100 7*0 70
1000: 40 5*0 3 15 8*0 10 0
101: 9*0 100 5*0 70 0
1001: 0 5 3*0 10 3*0 15 8*0
100011: 0 5 0 0 5 150 100 10*0 20 0 0
1010111: 6*0 2 0 15 6*0 3 0 10 3*0
010: 7*0 400 30 0 20 6*0
0100: 15 0 3 11*0 2 10 0 0
0101: 0 0 10 3*0 400 0 0 15 8*0
01001: 5*0 100 400 4*0 40 0 0 150 4*0
00101: 4*0 400 5*0 4 3*0 150 0 6 0 0
""",
    2: """\
10: 0 -6 6*0 -10 3*0 15 3*0
100: 0 0 5 3*0 -2 0 0 8 7*0
1000: 3*0 150 6*0 -3 0 100 0 8 3*0
101: 3*0 6 8*0 -8 4*0
1001: 6 100 6*0 -6 -4 8*0
100011: 6*0 20 0 0 4 100 3*0 150 5*0
1010: 0 6 3*0 70 0 -100 0 0 -8 7*0
10101: 11*0 4 0 -100 -70 0 0 6 0
010: -4 0 0 -100 4*0 -10 6*0 -15 0
0100: 5*0 30 0 3 -150 4*0 -40 4*0
0101: 7*0 400 0 -40 30 7*0
01001: 4*0 -400 0 10 0 -15 3*0 -3 6*0
0010: 3*0 4 6*0 -150 70 5*0 6
00101: 5*0 -150 7*0 15 -40 3*0 -20
0001011: -4 0 0 -100 6*0 -4 100 4*0 -15 3*0 6
""",
    3: """\
10: 4*0 -10 3*0 -15 7*0
100: 3*0 100 7*0 70 2 4*0
1000: -400 3*0 -4 -10 6*0 -15 5*0
101: 4*0 150 100 11*0
1001: 3*0 6 3 7*0 10 5*0
10001: 0 -30 9*0 10 3*0 6 0 3 0
1010: 0 -2 -3 3*0 40 8*0 -30 0 0
10101111: 0 -8 6*0 -30 0 6 4*0 -8 0 20 4*0
010: 6*0 -3 -30 4*0 -2 4*0
0100: 7*0 -30 10 3*0 6 4*0 3
0101: 3*0 400 6*0 20 6*0 -15
010011: 0 40 -400 4*0 40 0 6 8*0 -8 0
0101011: 3*0 -150 0 -4 4*0 6 3*0 150 0 -10 4*0
0010: 0 0 -3 0 -2 4*0 -400 10 7*0
00101: -3 6*0 -400 0 15 -2 4*0 -3 3*0
0001011: -150 0 0 -150 -4 0 150 3*0 -10 8*0 -40 0
""",
}


def near_words(centre, count, spread):
    """Words close together, the last of them in the middle. With a spread they differ, so that their order is seen."""
    return tuple(centre + spread * (7 * step % 5 - 2) for step in range(count - 1)) + (centre,)


def wide_base(kind, centre):
    """A base of 32 words whose control limits are far from the centre on both sides."""
    least = 0 if kind == 1 else centre - 4000
    return (least, centre + 4000) * 16


def splits(kind, words, series_least=0):
    """Free sound charts in which the base followed by the series is these words: a base below 15, and one of 15 on."""
    found = {}
    for size in range(10, min(32, len(words) - series_least) + 1):
        chart = Chart(kind, words[:size], words[size:], 0, 0)
        if model.sound(chart):
            found.setdefault(size < 15, chart)
    return list(found.values())


def fifteen_standing(rec):
    """document 02, Q-4: builds and renewals by the number of words that stand, and bases of 10 to 14 from store."""
    comment(rec, "fifteen must be standing")
    standing_builds(rec)
    tails_used(rec)
    tails_that_will_not_do(rec)
    small_bases(rec)
    full_without_renewal(rec)
    random_tails(rec, random.Random(20240107))


def standing_builds(rec):
    """Builds of 15, 16, 17, 20 and 32 words, of which 14, 15 and 16 stand, and the chart that stays."""
    for kind, ways, centre in SIDES_REMOVED:
        rec.build(2, A)
        for size in (15, 16, 17, 20, 32):
            for left in range(13 if size == 20 else 14, min(16, size) + 1):
                near = near_words(centre, left, 0)
                rec.build(kind, choices.far_words(kind, near, ways, size - left) + near)
                rec.do("show")
        # Words that differ: the far ones stand between the near ones.
        for size in (16, 20, 32):
            for left in (14, 15, 16):
                near = near_words(centre + 6, left, 3)
                far = choices.far_words(kind, near, ways, size - left)
                at = range(max(left, len(far)))
                rec.build(kind, [word for place in at for word in near[place:place + 1] + far[place:place + 1]])
                rec.do("show")
    # 16 comes after 1, 2 and 3. The word out of range is removed too, or is one of those that would stand.
    high = (1000,) * 14 + (2000,)
    for kind, words in ((0, high), (4, high), (1, high[1:]), (1, high * 3), (1, high[:14] + (20001,)), (1, (-1, *high)),
                        (2, (-20001, *high[1:])), (3, (1000,) * 14 + (32767,)), (3, (-20001,) * 14 + (0,)), (1, high)):
        rec.build(kind, words)
    rec.do("show")


def renewed(rec, chart):
    """A read of a chart, its renewal, and what is then there."""
    assert rec.read_chart(chart) == b"read"
    answer = rec.do("renew")
    rec.do("show")
    return answer


def tails_used(rec):
    """Renewals by each tail from 15 words to 32: of more words than 32, of all there are, and without posts."""
    for kind, ways, centre in SIDES_REMOVED:
        for spread in (0, 2):
            near = near_words(centre + 4, 14, spread)
            far = choices.far_words(kind, near, ways, 17)
            for count in range(18):
                words = near[:1] + far[17 - count:] + near
                assert choices.tail_used(kind, words) == len(words) == 15 + count
                if spread == 0:
                    renewed(rec, Chart(kind, wide_base(kind, centre), words, 0, 0))
                else:
                    for chart in splits(kind, words):
                        renewed(rec, chart)
        # Without posts: only the whole base will do. Its first word keeps the next from being removed.
        near = near_words(centre + 4, 14, 0)
        far = choices.far_words(kind, near, ways, 17)
        for count in range(18):
            for first in (*far, *near[:1]):
                chart = Chart(kind, (first, *far[17 - count:], *near), (), 0, 0)
                if model.sound(chart):
                    renewed(rec, chart)
                    break
    # Without posts, words that differ: the last 15 will do.
    for kind in choices.KINDS:
        for size in range(15, 33):
            renewed(rec, Chart(kind, tuple(5000 + 10 * (11 * step % 17) for step in range(size)), (), 0, 0))
            rec.do("renew")


def shorter_better(kind):
    """The words of SHORTER_BETTER for a kind, with the tails that will do."""
    for line in SHORTER_BETTER[kind].splitlines():
        pattern, _, text = line.partition(":")
        yield pattern, tuple(numbers_of(text)[0])


def tails_that_will_not_do(rec):
    """Renewals in which a longer tail does worse, and renewals that are refused with 16; 8 and 12 come before 16."""
    for kind in choices.KINDS:
        for pattern, words in shorter_better(kind):
            assert [int(will_do) for will_do in pattern] == [
                left >= 15 for left in choices.tail_lengths(kind, words).values()]
            for chart in splits(kind, words):
                renewed(rec, chart)
    for kind, ways, centre in SIDES_REMOVED:
        near = near_words(centre, 14, 0)
        far = choices.far_words(kind, near, ways, 18)
        for count in (1, 2, 3, 8, 17, 18):
            for chart in splits(kind, far[18 - count:] + near, 1):
                assert renewed(rec, chart) == b"refused 16"
                rec.do("write")
                # One word fewer, which is 12 if 14 are left. Posts make it 16, and then a renewal is accepted.
                rec.read_chart(chart._replace(series=chart.series[:-1]))
                for _ in range(3):
                    rec.do("renew")
                    rec.post(centre)
                rec.do("show")
        # More words than 32. With a near word in front the tail of 33 would do, and it is not tried.
        for front in ((), near[:1], near[:1] * 2, near):
            assert renewed(rec, Chart(kind, wide_base(kind, centre), front + far + near, 0, 0)) == b"refused 16"
        # An open verdict: 8 comes before 16.
        for chart in splits(kind, far[-2:] + near, 1):
            for out in (centre + 9999, centre - 9999):
                series = chart.series[:-1] + (out,)
                if model.in_range(kind, out) and model.judge(kind, chart.base, series) == 1:
                    for status in (1, 2):
                        renewed(rec, chart._replace(series=series, status=status, verdict=1))
    # READINGS-02 11 and 12, and the same turned over and moved.
    for kind, way, centre in ((1, 1, 0), (1, 1, 50), (2, -1, 10000), (3, 1, 0), (3, -1, -77)):
        for base, posts in (((15, 0, 0, 0, 6, 15, 0, 0, 0, 4, 0, 0, 0, 0, 0), 3), ((100, 70) + (0,) * 13, 1)):
            rec.read_chart(Chart(kind, tuple(centre + way * word for word in base), (), 0, 0))
            for _ in range(posts + 1):
                stored = rec.store()
                rec.do("renew")
                rec.do("show")
                restore(rec, stored)
                rec.post(centre)
            rec.do("renew")
            rec.do("show")


def small_bases(rec):
    """Bases of 10 to 14 words: read, judged, reanalysed, written, read again, and renewed from 15 words on."""
    for kind, centre in ((1, 1000), (2, 10000), (3, -1000)):
        for size in range(10, 15):
            base = near_words(centre, size, 20)
            chart = Chart(kind, base, (), 0, 0)
            rec.read_chart(chart)
            for command in ("show", "lines", "write", "renew", "correct"):
                rec.do(command)
            places = choices.places(chart)
            for word in (centre, places[5], places[5] + 1, places[6], places[6] - 1):
                rec.read_chart(chart)
                rec.post(word)
                if rec.chart.status == 1:
                    stored = rec.store()
                    rec.reanalyse(word)
                    rec.do("write")
                    rec.do("correct")
                    rec.do("renew")
                    rec.reanalyse(centre)
                    restore(rec, stored)
                    rec.reanalyse(places[5])
                rec.do("write")
                restore(rec, rec.store())
                rec.do("renew")
            # Posts until there are 14 words, 15 and 16.
            rec.read_chart(chart)
            for step in range(17 - size):
                stored = rec.store()
                rec.do("renew")
                rec.do("show")
                restore(rec, stored)
                rec.post(centre + (step % 3 - 1) * 20)
            # One word of the base is removed with more words after it. With 11 words or more it is not read.
            near = near_words(centre, size - 1, 0)
            for words in (near + (centre + 1,), (centre + 1,) + near):
                chart = Chart(kind, words, (), 0, 0)
                if rec.read_chart(chart) != b"read":
                    continue
                for _ in range(18 - size):
                    rec.do("renew")
                    if rec.chart != chart:
                        break
                    rec.post(centre)
                    chart = rec.chart
                rec.do("show")
        # A build or a renewal leaves 15 words or more, and the next base is never below 15.
        rec.read_chart(Chart(kind, (centre,) * 10, (), 0, 0))
        for word in (centre,) * 5:
            rec.post(word)
        for command in ("renew", "renew", "show", "write", "lines"):
            rec.do(command)


def full_without_renewal(rec):
    """READINGS-02 14: full series of which no tail will do. The last word of each is posted."""
    for kind, ways, centre in ((1, (1,), 700), (2, (1, -1), 10000), (3, (1, -1), 0), (3, (-1,), -900)):
        near = near_words(centre, 14, 0)
        far = choices.far_words(kind, near, ways, 18)
        # Neighbours are exchanged, so that no seven words rise or fall.
        far = tuple(word for at in range(0, 18, 2) for word in (far[at + 1], far[at]))
        series = (centre,) * 334 + far + near
        base = (centre - 500, centre + 500) * 16
        for chart in (Chart(kind, base, series[:-1], 0, 0), Chart(kind, base, series, 0, 0)):
            rec.read_chart(chart)
            if len(chart.series) == 365:
                rec.do("renew")
                rec.read_chart(chart)
            rec.post(centre)
            for command in ("renew", "show", "write", "correct", "renew"):
                rec.do(command)
            rec.post(centre)
        # Only a new build helps.
        rec.build(kind, (centre,) * 15)
        rec.do("show")


def random_tails(rec, rng):
    """Random renewals. Of each sort there are two at most: by the kind, the tail used and the tails that will do."""
    met = {}
    for _ in range(2000):
        kind = rng.choice(choices.KINDS)
        sizes = [0] * rng.choice((4, 8, 12)) + [rng.choice((2, 3, 4)) ** power for power in range(1, rng.randint(2, 9))]
        words = [3000 + rng.choice((1, 1 if kind == 1 else -1)) * min(2500, rng.choice(sizes))
                 for _ in range(rng.randint(15, 50))]
        size = rng.randint(10, min(32, len(words)))
        chart = Chart(kind, tuple(words[:size]), tuple(words[size:]), 0, 0)
        if not model.sound(chart):
            continue
        left = list(choices.tail_lengths(kind, words).values())
        used = choices.tail_used(kind, words)
        sort = kind, used, any(first > second for first, second in zip(left, left[1:])), len(set(left)) > 8
        met[sort] = met.get(sort, 0) + 1
        if met[sort] <= 2:
            renewed(rec, chart)


def open_states(rec, rng):
    """Every verdict for each kind, and the edges of every reanalysis."""
    comment(rec, "open verdicts and the edges of reanalysis")
    for kind, base in BASES + tuple((kind, None) for kind in choices.KINDS for _ in range(2)):
        if base is None:
            base = plausible_base(rng, kind)
        if rec.build_or_read(kind, base) == b"refused 3":
            continue
        rec.do("lines")
        for word in [rng.choice(choices.candidates(rec.chart)) for _ in range(rng.randrange(3))]:
            if rec.chart.status == 0:
                rec.post(word, rng)
        if rec.chart.status != 0:
            rec.build_or_read(kind, base)
        start = rec.store()
        for verdict in (1, 2, 3, 4):
            for way in (1, -1):
                found = choices.plan(rng, rec.chart, verdict, way)
                if found is None:
                    continue
                for word in found:
                    rec.post(word, rng)
                rec.do("show")
                at_edges(rec, rng, 3)
                restore(rec, start)


def plausible_base(rng, kind):
    """A base with room on both sides of its limits, often with a whole S."""
    size = rng.randint(15, 32)
    spread = rng.choice((1, 2, 7, 30, 100, 400))
    centre = rng.choice((3000, 10000, 12345, 5 * spread, 900))
    if kind == 3:
        centre = rng.choice((centre, -centre, 0))
    if rng.random() < 0.5:
        half = (size - 1) // 2
        base = [centre - spread] * half + [centre + spread] * half + [centre]
    else:
        base = [centre + rng.randint(-spread, spread) for _ in range(size)]
    return [max(0, word) for word in base] if kind == 1 else base


def at_edges(rec, rng, most):
    """On an open chart: refusals, then both words of some edges of reanalysis."""
    chart = rec.chart
    kind = chart.kind
    refused_while_open(rec, rng, 2)
    if chart.status == 2:
        rec.do("correct")
    stored = rec.store()
    pairs = choices.flips(rec.chart)
    if len(pairs) > most:
        pairs = rng.sample(pairs, most)
    for failing, passing in pairs:
        rec.reanalyse(failing, rng)
        if rng.random() < 0.3:
            rec.do("show")
        if rng.random() < 0.3:
            refused_while_open(rec, rng, 1)
        rec.do("correct")
        rec.reanalyse(passing, rng)
        rec.do("show")
        if rng.random() < 0.4:
            follow = choices.plan(rng, rec.chart, rng.choice((0, 1, 2, 3)))
            if follow is not None and len(rec.chart.series) + len(follow) <= 366:
                for word in follow:
                    rec.post(word)
        restore(rec, stored)
    if kind == 3 or not pairs:
        rec.reanalyse(rng.choice(choices.candidates(rec.chart)), rng)


def refused_while_open(rec, rng, most):
    """Calls that an open chart refuses, with other reasons at the same time."""
    kind = rec.chart.kind
    other = kind % 3 + 1
    good = exact(kind, 500)
    tried = [("post", kind, *good), ("post", other, *exact(other, 500)), ("post", 4, 1, 1, 1),
             ("post", kind, -1, 1, 1), ("post", kind, 0, 0, 0), ("renew",)]
    if kind != 1:
        tried.append(("post", kind, 300, 1, 1))
    if rec.chart.status == 2:
        tried += [("reanalyse", kind, *good), ("reanalyse", other, -1, 0, 0), ("reanalyse", kind, 0, 0, 0),
                  ("reanalyse", kind, 1000000001, 1, 1)]
        if kind != 1:
            tried.append(("reanalyse", kind, 300, 1, 1))
    else:
        tried += [("correct",), ("reanalyse", other, *exact(other, 500)), ("reanalyse", other, -1, 1, 1),
                  ("reanalyse", 0, 0, 0, 0), ("reanalyse", kind, 1, -1, 0), ("reanalyse", kind, 0, 0, 0),
                  ("reanalyse", other, 0, 0, 0)]
        if kind != 1:
            tried += [("reanalyse", kind, 300, 0, 100) if kind == 3 else ("reanalyse", 2, 300, 100, 0),
                      ("reanalyse", kind, 1000000001, 1, 1), ("reanalyse", kind, 1000000001, 0, 0)]
        else:
            tried.append(("reanalyse", 3, 300, 0, 100))
    for call in rng.sample(tried, min(most, len(tried))):
        rec.do(*call)


def refusals(rec, rng):
    """Refusals on a free and on an open chart, in every pairing that can apply to a command."""
    comment(rec, "refusals and their order")
    for kind, base in BASES:
        rec.build(kind, base)
        good = exact(kind, 900 if kind == 1 else base[-1])
        rec.do("correct")
        for command in ("post", "reanalyse"):
            for given in (0, 1, 2, 3, 4, 65536 + kind):
                if given == kind:
                    continue
                for numbers in (good, (-1, 1, 1), (0, 0, 0), (300, 1, 1), (0, 300, 1)):
                    rec.do(command, given, *numbers)
            for numbers in ((-1, 1, 1), (1, -1, 1), (1, 1, -1), (1000000001, 1, 1), (1, 1000000001, 1), (0, 0, 0),
                            (1000000001, 0, 0), (-1, 0, 0), (300, 1, 1), (300, 0, 100), (0, 300, 100), (5, 0, 0),
                            (5, 5, 0), (200006, 100000, 0), (200006, 0, 100000), (0, 200006, 100000),
                            (1000000001, 0, 1), (BIG, BIG, BIG), (-BIG - 1, 0, 0)):
                if command == "post" and choices.formed(kind, numbers) is not None:
                    continue
                rec.do(command, kind, *numbers)
        rec.do("show")
        high = 1301 if kind == 1 else 10301 if kind == 2 else -699
        rec.post(high)
        for status in (1, 2):
            open_chart = rec.store()
            refused_while_open(rec, rng, 11)
            for command in ("post", "reanalyse"):
                for given in (0, kind % 3 + 1, (kind + 1) % 3 + 1):
                    for numbers in (good, (-1, 1, 1), (0, 0, 0), (300, 1, 1)):
                        rec.do(command, given, *numbers)
                for numbers in ((1000000001, 0, 1), (300, 1, 1), (0, 300, 1), (-1, 0, 0)):
                    if choices.formed(kind, numbers) is None:
                        rec.do(command, kind, *numbers)
            rec.do("renew")
            rec.do("show")
            rec.do("write")
            rec.do("lines")
            assert rec.store() == open_chart
            if status == 1:
                rec.do("correct")
                rec.reanalyse(high)
        rec.do("correct")
        rec.do("correct")


def longest_chart(rec):
    """32 base words and 366 of the series, each as long as a word can be: the longest answers that there are."""
    comment(rec, "the longest chart")
    rec.read_chart(Chart(2, (-20000,) * 32, (-20000,) * 366, 0, 0))
    rec.do("show")
    rec.do("write")
    rec.do("lines")


def full_series(rec, rng):
    """366 words in the series."""
    longest_chart(rec)
    comment(rec, "a full series")
    rec.build(2, A)
    for count in range(366):
        wanted = (9990, 10010)[count % 2] + count // 40
        rec.post(wanted, rng if count % 5 == 0 else None)
    rec.do("show")
    rec.do("write")
    for fields in ((2, 10000, 10000, 0), (3, 1, 1, 1), (2, -1, 1, 1), (2, 0, 0, 0), (2, 300, 1, 1), (0, -1, -1, -1),
                   (3, 300, 0, 1), (2, 1000000001, 0, 1), (2, 10301, 10000, 0), (1, 1, 2, 3)):
        rec.do("post", *fields)
    rec.do("reanalyse", 2, 1, 1, 1)
    rec.do("correct")
    rec.do("lines")
    full = rec.store()
    rec.do("renew")
    rec.do("show")
    restore(rec, full)
    for kind, base in BASES:
        centre = base[-1]
        series = tuple(centre + (10, -10, 3, -7, 0)[step % 5] for step in range(359))
        for verdict in (0, 1, 2, 3, 4):
            chart = Chart(kind, base, series, 0, 0)
            found = choices.plan(rng, chart, verdict)
            if found is None:
                continue
            # Fill up so that the last word of the plan is word 366.
            short = 366 - len(found) - len(series)
            chart = chart._replace(series=chart.series + tuple(centre + (12, -12)[step % 2] for step in range(short)))
            plans = [choices.plan(rng, chart, verdict) for _ in range(8)]
            found = next((words for words in plans if words and len(chart.series) + len(words) == 366), None)
            if found is None:
                continue
            rec.read_chart(chart)
            for word in found:
                rec.post(word, rng)
            rec.do("show")
            if verdict == 0:
                rec.post(centre)
                rec.do("post", kind % 3 + 1, 1, 1, 1)
                rec.do("post", kind, 0, 0, 0)
                rec.do("post", kind, -1, 0, 0)
                rec.do("renew")
                rec.do("show")
                continue
            rec.post(centre)
            rec.do("post", kind % 3 + 1, 1, 1, 1)
            rec.do("post", kind, -1, 0, 0)
            rec.do("renew")
            at_edges(rec, rng, 2)
            if rec.chart.status == 1:
                rec.reanalyse(choices.flips(rec.chart)[0][1])
            if rec.chart.status == 0:
                rec.post(centre)
                rec.do("post", 4, -1, 0, 0)
                rec.do("write")
                rec.do("renew")
                rec.do("show")
                rec.post(centre)


def renewals(rec, rng):
    """Renewal, and bases of fewer than 15 words."""
    comment(rec, "renewal")
    rec.build_or_read(1, TEN)
    rec.do("write")
    for count in range(6):
        rec.do("renew")
        if count < 5:
            rec.post(0)
    rec.do("show")
    rec.do("renew")
    # Base of ten with a verdict open: 8 before 12.
    rec.build_or_read(1, TEN)
    rec.post(5)
    rec.do("renew")
    rec.reanalyse(0)
    rec.do("renew")
    for kind in choices.KINDS:
        for size in (10, 12, 14):
            for status in (1, 2):
                rec.read_chart(Chart(kind, (700,) * size, (701,), status, 1))
                rec.do("renew")
                rec.do("post", 0, -1, 0, 0)
    rec.build_or_read(1, (1000,) * 14 + (2000,))
    rec.do("renew")
    rec.post(1000)
    rec.do("renew")
    rec.do("show")
    for kind in choices.KINDS:
        for size in (10, 11, 12, 13, 14):
            base = tuple(5000 + 10 * step for step in range(size))
            for posts in (14 - size, 15 - size, 16 - size, 14, 15, 16):
                series = tuple(5000 + (step * 7) % 13 * 5 for step in range(max(0, posts)))
                rec.read_chart(Chart(kind, base, series, 0, 0))
                rec.do("renew")
                rec.do("show")
    # Distinct words, so that the words taken and their order are seen.
    for kind in choices.KINDS:
        for size in (15, 16, 20, 31, 32):
            for posts in (0, 1, 14, 15, 16):
                base = [6000 + 13 * step * (1 if step % 2 else -1) for step in range(size)]
                series = tuple(6000 + (step * 29) % 97 for step in range(posts))
                chart = Chart(kind, tuple(base), series, 0, 0)
                if model.sound(chart):
                    rec.read_chart(chart)
                    rec.do("renew")
                    rec.do("show")
    # Rejection in renewal: the last words lie close together, except a few.
    for _ in range(60):
        kind = rng.choice(choices.KINDS)
        base = [4000] * 10 + [8000] * 10 + [6000] * rng.randint(0, 12)
        series = [6000 + rng.choice((0, 0, 1, -1)) for _ in range(rng.randint(0, 20))]
        value = 2
        for _ in range(rng.randint(1, 5)):
            series.insert(rng.randint(0, len(series)), min(8000, max(4000, 6000 + value * rng.choice((1, 1, -1)))))
            value *= rng.choice((5, 6, 7))
        rec.read_chart(Chart(kind, tuple(base), tuple(series), 0, 0))
        rec.do("renew")
        rec.do("show")
        if rng.random() < 0.3:
            rec.do("renew")
            rec.do("lines")
    # Down to ten words by renewal, for each kind.
    for kind in choices.KINDS:
        base = (0,) * 16 + (20000,) * 16
        for way in (1, -1):
            if kind == 1 and way < 0:
                continue
            tail = tuple(20000 - word for word in TEN) if way < 0 else TEN
            rec.read_chart(Chart(kind, base, tail, 0, 0))
            rec.do("renew")
            rec.do("show")
            rec.do("renew")
            rec.do("write")


def stored_forms(rec, rng):
    """Stored forms: valid ones, damaged ones, unsound ones."""
    comment(rec, "stored forms")
    rec.do("read")
    short = Chart(2, (5,) * 9 + (7,), (), 0, 0)
    data = model.stored_form(short)
    rec.read_chart(short)
    rec.do("show")
    for size in range(len(data)):
        rec.raw(b"read " + data[:size].hex().encode())
    for extra in (b"\0", b"\0\0", b"\1\0", b"\0\0\0\0", data):
        rec.do("read", (data + extra).hex())
    for place in range(len(data)):
        for value in sorted({data[place] ^ 1, data[place] ^ 0x80, 0xff, (data[place] + 2) % 256}):
            if value != data[place]:
                if rec.do("read", (data[:place] + bytes((value,)) + data[place + 1:]).hex()) == b"read":
                    rec.do("show")
        rec.do("read", (data[:place] + data[place + 1:]).hex())
        rec.do("read", (data[:place] + b"\0" + data[place:]).hex())
    longer = model.stored_form(Chart(1, K, (1250, 1210), 1, 2))
    rec.do("read", longer.hex().upper())
    rec.do("show")
    for size in range(len(longer)):
        rec.raw(b"read " + longer[:size].hex().encode())
    for place in range(len(longer)):
        for value in sorted({longer[place] ^ 1, 0xff} - {longer[place]}):
            rec.do("read", (longer[:place] + bytes((value,)) + longer[place + 1:]).hex())
    # Records: lengths, record kinds, order, counts.
    parts = [model.record(1, (2, 0, 0)), model.record(2, A), model.record(3, (10010, 9990))]
    for order in ((0, 2, 1), (1, 0, 2), (2, 1, 0), (1, 2, 0), (2, 0, 1), (0, 1), (0, 2), (1, 2), (0,), (1,), (2,),
                  (0, 0, 1, 2), (0, 1, 1, 2), (0, 1, 2, 2), (0, 1, 2, 0), (0, 0, 2), (0, 1, 0), (0, 2, 2), (0, 1, 1)):
        rec.do("read", b"".join(parts[at] for at in order).hex())
    for which in range(3):
        for kind in (0, 1, 2, 3, 4, 5, 256, 257, 258, 259, 65535):
            changed = list(parts)
            changed[which] = changed[which][:2] + model.two_bytes(kind) + changed[which][4:]
            rec.do("read", b"".join(changed).hex())
        true = len(parts[which]) - 2
        for length in (0, 1, 2, 3, 4, 5, 6, 7, 8, 9, 10, true - 2, true - 1, true + 1, true + 2, 734, 735, 736,
                       32768, 65534, 65535, 256 + true):
            changed = list(parts)
            changed[which] = model.two_bytes(length) + changed[which][2:]
            rec.do("read", b"".join(changed).hex())
    for head in ((), (2,), (2, 0), (2, 0, 0, 0), (2, 0, 0, 0, 0), (0, 0, 0, 0), (2, 0, 0, 1)):
        rec.do("read", (model.record(1, head) + parts[1] + parts[2]).hex())
        rec.do("read", (model.record(1, head) + parts[1] + model.record(3, ())).hex())
    for size in (0, 1, 8, 9, 10, 11, 31, 32, 33, 34, 64):
        for kind in (0, 2):
            rec.do("read", (model.record(1, (kind, 0, 0)) + model.record(2, (7,) * size) + model.record(3, ())).hex())
    for size in (0, 1, 365, 366, 367, 368):
        series = (9990, 10010) * (size // 2) + (9990,) * (size % 2)
        for kind in (2, 4):
            rec.do("read", (model.record(1, (kind, 0, 0)) + parts[1] + model.record(3, series)).hex())
    # Odd lengths that agree with the bytes: one byte more or less in a record.
    for which in range(3):
        for odd in (parts[which][2:] + b"\0", parts[which][2:-1], parts[which][2:] + b"\x27"):
            changed = list(parts)
            changed[which] = model.two_bytes(len(odd)) + odd
            rec.do("read", b"".join(changed).hex())
        # The length says one byte more or less than there are; the record after it begins with that byte.
        for length in (len(parts[which]) - 3, len(parts[which]) - 1):
            changed = list(parts)
            changed[which] = model.two_bytes(length) + parts[which][2:]
            rec.do("read", b"".join(changed).hex())
    for series in ((), (9990,)):
        tail = model.record(3, series)
        rec.do("read", (parts[0] + parts[1] + model.two_bytes(len(tail) - 1) + tail[2:] + b"\0").hex())
        rec.do("read", (parts[0] + parts[1] + model.two_bytes(len(tail) - 1) + tail[2:]).hex())
        rec.do("read", (parts[0] + parts[1] + tail).hex())
        rec.do("show")
    rec.do("show")
    # 13 comes before 14.
    rec.do("read", (model.record(1, (0, 0, 0)) + parts[1] + parts[2] + b"\0").hex())
    rec.do("read", (model.record(1, (2, 3, 9)) + parts[1] + parts[2] + b"\0\0").hex())
    rec.do("read", (model.record(1, (9, 9, 9)) + model.record(2, (30000,) * 33) + parts[2]).hex())
    soundness(rec, rng)


def soundness(rec, rng):
    """Well-formed stored forms, sound and not."""
    rec.build(3, N)
    # Head: every chart kind, status and verdict, on series that get each verdict.
    samples = [(1, K, (1301,)), (1, K, (1250, 1210)), (1, K, tuple(range(1010, 949, -10))), (1, K, (1000,)),
               (2, A, (10301,)), (2, A, (10250, 10210)), (2, A, tuple(range(9950, 10011, 10))), (2, A, (10150,) * 7),
               (2, A, ()), (2, A, (10000,)), (3, N, (-1301,)), (3, N, (-1250, -1210)), (3, N, (-1150,) * 7),
               (3, N, tuple(range(-1050, -989, 10))), (3, N, (-900, -1100) * 5), (1, K, (0,) * 7),
               # document 02, Q-1: trends on either side of the mean, and trends with their last or first word on it.
               (2, A, tuple(range(10010, 10071, 10))), (2, A, tuple(range(9990, 9929, -10))),
               (3, N, tuple(range(-1070, -1009, 10))), (3, N, tuple(range(-930, -991, -10))),
               (1, K, tuple(range(1010, 1071, 10))), (1, K, tuple(range(930, 991, 10))),
               (2, A, tuple(range(9940, 10001, 10))), (3, N, tuple(range(-1000, -1061, -10)))]
    for kind, base, series in samples:
        right = model.judge(kind, base, series) if series else 0
        for status in (0, 1, 2, 3):
            for verdict in (0, 1, 2, 3, 4, 5):
                if status == 3 and verdict not in (0, right):
                    continue
                if rec.read_chart(Chart(kind, base, series, status, verdict)) == b"read":
                    rec.do("show")
    for status, verdict in ((256, 0), (257, 1), (258, 1), (513, 1), (1, 257), (0, 256), (65535, 1), (1, 65535),
                            (32769, 1)):
        rec.read_chart(Chart(2, A, (10301,), status, verdict))
        rec.read_chart(Chart(2, A, (), status, verdict))
    for kind in (0, 1, 2, 3, 4, 5, 256, 257, 258, 259, 65535, 32770):
        rec.read_chart(Chart(kind, A, (), 0, 0))
        rec.read_chart(Chart(kind, A, (10301,), 1, 1))
        rec.read_chart(Chart(kind, N, (), 0, 0))
    # Status 1 with verdict 4 and status 2 with verdict 1 are sound; kind 2 may hold negative words.
    for chart in (Chart(2, A, (10150,) * 7, 1, 4), Chart(2, A, (10301,), 2, 1), Chart(2, N, (-1000, -1201), 0, 0),
                  Chart(2, N, (-1301,), 1, 1), Chart(2, N, (-1250, -1250), 2, 2), Chart(2, N, (-1001,) * 7, 1, 4),
                  Chart(2, N, (-1001,) * 8, 2, 4), Chart(2, N, (-1001,) * 8, 0, 0),
                  Chart(2, A, (10250, 10250, 10250), 0, 0), Chart(1, K, tuple(range(1000, 1100, 5)), 0, 0)):
        rec.read_chart(chart)
        rec.do("show")
        rec.do("write")
        rec.do("lines")
        rec.do("correct")
        rec.do("reanalyse", chart.kind, *exact(chart.kind, abs(chart.base[-1])))
        rec.do("show")
        rec.do("renew")
    # Words at and beyond the limits and the range, at each place of the series, for each status.
    for kind, base in BASES:
        mean = base[-1]
        inside, outside = mean + 300, mean + 301
        low_inside, low_outside = mean - 300, mean - 301
        for status, verdict in ((0, 0), (1, 1), (2, 1)):
            for series in ((inside,), (outside,), (low_inside,), (low_outside,), (inside, mean), (outside, mean),
                           (low_inside, mean), (low_outside, mean), (mean, outside, outside), (mean, low_outside),
                           (outside, outside), (low_outside, low_outside), (low_outside, outside),
                           (outside, low_outside), (mean, 20001), (mean, -20001), (-20001, mean), (20001, mean),
                           (mean, 32767), (mean, -32768), (mean, 20000), (mean, -20000), (-1,), (20000, mean)):
                if rec.read_chart(Chart(kind, base, series, status, verdict)) == b"read":
                    rec.do("show")
        for word in (20001, -20001, -1, 0, 20000, -20000, 32767, -32768, outside, low_outside):
            for place in (0, 7, 14):
                changed = list(base)
                changed[place] = word
                rec.read_chart(Chart(kind, tuple(changed), (), 0, 0))
        for word in (20001, 20000, -20000, -20001, -1, 0):
            rec.read_chart(Chart(kind, (word,) * 12, (), 0, 0))
            rec.read_chart(Chart(kind, (word,) * 32, (word,) * 2, 0, 0))
    # A base word at its own control limit and beyond it.
    for kind in choices.KINDS:
        for size in (10, 11, 12, 15, 32):
            for far in (1, 10, 1000):
                for way in (1, -1):
                    base = [4000] * size
                    base[rng.choice((0, size - 1, 4))] += way * far
                    rec.read_chart(Chart(kind, tuple(base), (), 0, 0))
        for size in (15, 32):
            plain = [5000 + (step % 3 - 1) * 40 for step in range(size - 1)]
            for way in (1, -1):
                far = edge_word(kind, plain, way)
                for word in (far, far + way):
                    rec.read_chart(Chart(kind, tuple(plain[:5] + [word] + plain[5:]), (), 0, 0))
    # Random forms, some of them changed in one number.
    rng = apart(rng, 7698)
    for _ in range(120):
        kind = rng.choice(choices.KINDS)
        base = model.reject(kind, tuple(plausible_base(rng, kind)))[0]
        chart = Chart(kind, base, (), 0, 0)
        for verdict in (0, 0, rng.choice((0, 1, 2, 3, 4))):
            found = choices.plan(rng, chart, verdict)
            if found:
                chart = chart._replace(series=chart.series + tuple(found))
        right = model.judge(kind, base, chart.series) if chart.series else 0
        chart = chart._replace(status=0 if right == 0 else rng.choice((1, 2)), verdict=right)
        change = rng.randrange(6)
        if change == 0:
            chart = chart._replace(verdict=rng.randint(0, 5))
        elif change == 1:
            chart = chart._replace(status=rng.randint(0, 3))
        elif change == 2 and chart.series:
            series = list(chart.series)
            series[rng.randrange(len(series))] += rng.choice((-1, 1, 7, -7))
            chart = chart._replace(series=tuple(series))
        if rec.read_chart(chart) == b"read":
            rec.do("show")


def line_charts(rec, rng):
    """Lines for the plotter of many charts."""
    comment(rec, "lines")
    zero = (0, 0, 1) + (2,) * 6 + (3,) * 5 + (4,) * 5
    cases = [(2, C), (2, A), (1, K), (1, C), (3, C), (3, (-1,) * 7 + (0,) * 8), (3, (1,) * 7 + (0,) * 8), (3, zero),
             (3, tuple(-word for word in zero)), (2, (-20000,) * 16 + (20000,) * 16), (3, (0,) * 15), (1, (0,) * 15),
             (1, (0,) * 16 + (20000,) * 16), (3, tuple(-word for word in C)), (3, (-1,) * 8 + (0,) * 8),
             (3, (-1,) * 10 + (0,) * 6), (1, zero), (3, (-1, 1) * 8), (3, (-1, 0, 1) * 6), (1, (0,) * 14 + (1,))]
    for count in range(1, 32, 2):
        cases.append((3, (-1,) * count + (0,) * (32 - count)))
    for size in range(15, 33):
        cases.append((rng.choice((2, 3)), (0,) * (size // 2) + (1,) * (size - size // 2)))
        cases.append((3, (-3,) * (size // 3) + (-2,) * (size - size // 3)))
    for kind, base in cases:
        rec.build_or_read(kind, base)
        rec.do("lines")
    # Exact multiples of a 256th: sixteen words have the mean in sixteenths; S is whole for the others.
    for half in range(7, 16):
        for spread in (1, 3, 77, 512):
            for centre in (0, 1, -1, 1024, -777):
                if rng.random() < 0.35:
                    rec.build(3, (centre - spread,) * half + (centre + spread,) * half + (centre,))
                    rec.do("lines")
    # Lower limits close to 0: the mean is nearly 2 or 3 times S.
    for _ in range(40):
        spread = rng.randint(1, 40)
        size = rng.randint(15, 32)
        times = rng.choice((2, 3))
        base = [rng.randint(-spread, spread) for _ in range(size)]
        n, total, v = model.figures(base)
        reach = model.isqrt(times * times * n * v // (n - 1))
        shift = (reach - total) // n + rng.choice((0, 1))
        way = rng.choice((1, -1))
        rec.build_or_read(3, [way * (word + shift) for word in base])
        rec.do("lines")
    for _ in range(60):
        kind = rng.choice(choices.KINDS)
        rec.build_or_read(kind, choices.random_base(rng, kind))
        rec.do("lines")
    for _ in range(20):
        base = choices.random_base(rng, 3)
        rec.build_or_read(3, base)
        rec.do("lines")
        rec.build_or_read(3, [-word for word in base])
        rec.do("lines")
    for size in (10, 11, 12, 13, 14):
        for spread in (0, 1, 250):
            rec.read_chart(Chart(3, tuple(spread * (step % 4) - 2 for step in range(size)), (), 0, 0))
            rec.do("lines")


def random_runs(rec, rng, count):
    """Runs of random calls, mostly near the edges."""
    comment(rec, "runs")
    for _ in range(count):
        kind = rng.choice(choices.KINDS)
        rec.build_or_read(kind, plausible_base(rng, kind))
        for _ in range(rng.randint(10, 30)):
            chart = rec.chart
            if chart.status == 2:
                rec.do("correct")
            elif chart.status == 1:
                rec.reanalyse(rng.choice(choices.candidates(chart)), rng)
            elif rng.random() < 0.06:
                rec.do("renew")
            else:
                found = choices.plan(rng, chart, rng.choice((0, 0, 0, 0, 1, 2, 3, 4)))
                for word in found or []:
                    rec.post(word, rng)
        rec.do("show")


def language(rec):
    """The command language: errors, blanks, ends of lines, long lines."""
    comment(rec, "the command language")
    rec.build(2, A)
    for line in (b"", b" ", b"\t", b"  \t \t", b"#", b"#show", b"# show", b"   # show", b"\t#\t", b"##", b"#\xc3\xa9",
                 b"show #", b"show # x", b"correct # x", b"word 1 1 2 0 # x", b"build 2 # 1", b"read # 00", b"a#"):
        rec.raw(line)
    for line in (b"Show", b"SHOW", b"shows", b"sho", b"help", b"post2", b"Post 2 1 1 1", b"-", b"1", b"00", b"lines,",
                 b"\xc3\xa9", b"show\xc2\xa0", b"\xc2\xa0show", b"show\x0b", b"\x0cshow", b"show\x0c", b"w",
                 b"renewal", b"correction", b"quit", b"exit", b"words 1 1 2 0", b"built", b"reads", b"writes",
                 b"unknown # x", b"post\xe2\x80\x832 1 1 1", b"show\xef\xbb\xbf", b"\xef\xbb\xbfshow", b"\"show\"",
                 b"word,1,2,3,4", b"reanalyze 2 1 1 1"):
        rec.raw(line)
    for command in ("word", "post", "reanalyse"):
        for fields in ("", "2", "2 5", "2 5 5", "x", "2 x", "2 5 x", "2 5 5 x", "2 5 5 5 x", "2 5 5 5 5", "2 5 5 5 #",
                       "+2 5 5 5", "2 +5 5 5", "2 5.0 5 5", "2 - 5 5", "- 5 5 5", "2 0x10 5 5", "2 1e3 5 5",
                       "2 5, 5 5", "2 x 5", "x", "2 5 -9223372036854775809 x", "-x 99999999999999999999 5 5",
                       "2 --5 5 5", "2 5- 5 5", "2 5-5 5 5", "2 -x 5 5", "2 9223372036854775808 5 5",
                       "2 -9223372036854775809 5 5", "2 5 9223372036854775808 5", "2 5 5 9223372036854775808",
                       "2 9223372036854775808", "2 9223372036854775808 x", "2 x 9223372036854775808",
                       "2 9223372036854775808 5 5 5", "x 9223372036854775808", "2 5 5 -9223372036854775809 x",
                       "2 18446744073709551616 5 5", "2 18446744073709551617 5 5", "2 1_000 5 5", "2 1,000 5 5",
                       "2 5 5 99999999999999999999999999999999999999 7", "2.0 5 5 5", "2 \xe9 5 5", "2 \u0665 5 5",
                       "9223372036854775808 x 5 5", "99999999999999999999 5 5", "2 5 5\x0b5 5", "2 5 5 5\x0c"):
            rec.raw(("%s %s" % (command, fields)).encode())
        for fields in ("9223372036854775808 5 5 5", "99999999999999999999999999999 5 5 5", "65538 5 5 5",
                       "-9223372036854775809 5 5 5", "2 9223372036854775807 5 5", "2 -9223372036854775808 5 5",
                       "2 5 9223372036854775807 5", "3 5 5 -9223372036854775808", "1 5 5 9223372036854775807",
                       "2 0009223372036854775807 5 5", "2 -00000000000000000000000000000000001 5 5"):
            rec.raw(("%s %s" % (command, fields)).encode())
    for fields in ("-0 10000 10000 0", "02 -0 010000 -000", "2 10000 10000 -9223372036854775808",
                   "2 0000000000000000000000000000000000000000010000 10000 9223372036854775807",
                   "00000000000000000000000000000000000000002 10000 10000 0", "2 10000 00010000 -0"):
        rec.raw(("post " + fields).encode())
        rec.raw(("word " + fields).encode())
    rec.do("show")
    for fields in ("", "x", "2 x", "2 1 x", "2 1 2 3 4 5 6 7 8 9 10 11 12 13 14 15 x", "x 1", "+2", "2 1 +1", "2 1.5",
                   "-", "2 -", "2 1 -", "4 x", "0 1 2 y", "2 99999999999999999999999999 x"):
        rec.raw(("build " + fields).encode())
    for fields in ("2", "0", "99999999999999999999", "-1", "2 99999999999999999999999", "3" + " 00010" * 15,
                   "00002" + " -0" * 15, "2" + " " + " ".join(["1"] * 14 + ["9" * 400]), "2" + " -00001" * 15,
                   "3 " + " ".join(["-5"] * 14 + ["0" * 300 + "7"]), "3 " + " ".join(["-5"] * 15 + ["0" * 300 + "7"]),
                   "1" + " -0" * 16, "65537" + " 1" * 15,
                   "2 " + " ".join(["5"] * 14 + ["-" + "9" * 60]), "1" + " 99999999999999999999" * 2):
        rec.raw(("build " + fields).encode())
        rec.do("show")
    for command in ("correct", "renew", "lines", "write", "show"):
        for fields in ("x", "1", "#", "1 2", "-", "99999999999999999999", "show"):
            rec.raw(("%s %s" % (command, fields)).encode())
    good = model.stored_form(Chart(2, A, (10301,), 1, 1)).hex()
    for fields in ("0g 5", "00 5", "0", "000", "g", "0x00", "00 ", " ", "-0", "zz zz", "000 5", "0 0", "00 zz",
                   "00 00", "000 zz", "#", good + "0", good + "g", good + " 1", good + " #", good[:-1], "0" + good,
                   "g" + good, "\xe9", "+0", "00,", "00\x0b", "0G", "/0", ":0", "@0", "`0", "gg", "0 x", "00\x0c00"):
        rec.raw(("read " + fields).encode())
    rec.do("show")
    for text in (good, good.upper(), good[:20].upper() + good[20:]):
        rec.raw(b" \tread \t\t " + text.encode() + b"\t ")
        rec.do("show")
        rec.raw(b"write")
    # Blanks and ends of lines.
    rec.build(2, A)
    for line, end in (
            (b"  show", b"\n"), (b"show   ", b"\n"), (b"\tshow\t", b"\n"), (b"post\t2\t10000\t10000\t0", b"\n"),
            (b"  post   2 \t 10000  10000\t\t0  ", b"\n"), (b"show", b"\r\n"), (b"show ", b"\r\n"),
            (b"show\r", b"\r\n"), (b"\r", b"\r\n"), (b"", b"\r\n"), (b"\r", b"\n"), (b" ", b"\r\n"),
            (b"#", b"\r\n"), (b"\rshow", b"\n"), (b"show \r ", b"\n"), (b"show\r ", b"\n"), (b"show\r x", b"\n"),
            (b"post 2 10000 10000 0\r", b"\r\n"), (b"post 2 10000 10000 0", b"\r\n"),
            (b"post 2 10000 10000\r0", b"\n"), (b"post 2 10000 10000 0\r ", b"\n"), (b"\r\r", b"\r\n"),
            (b"sh\row", b"\n"), (b"#\r", b"\r\n"), (b"\r#", b"\n"), (b"word 1 1 2 0 \r", b"\r\n"),
            (b"read 00\r", b"\r\n"), (b"read 00", b"\r\n"), (b"read \r", b"\r\n"), (b"read", b"\r\n"),
            (b"lines", b"\r\n"), (b"write", b"\r\n"), (b"correct", b"\r\n"), (b"renew", b"\r\n"),
            (b"show", b"\n")):
        rec.raw(line, end)


def fill(front, back, size, byte=b" "):
    """A line of this many bytes."""
    return front + byte * (size - len(front) - len(back)) + back


def marks(rec):
    """Byte order marks: one at the front of a line is passed over, any other belongs to the line."""
    comment(rec, "byte order marks")
    rec.build(2, A)
    for line, end in (
            (MARK + b"show", b"\n"), (MARK + b"post 2 10250 10000 0", b"\r\n"), (MARK + b" \tshow", b"\n"),
            (MARK + b"# show", b"\n"), (MARK + b" #", b"\r\n"), (MARK, b"\n"), (MARK, b"\r\n"), (MARK + b" ", b"\n"),
            (MARK + MARK + b"show", b"\n"), (MARK + MARK + b"# show", b"\n"), (MARK + MARK, b"\r\n"),
            (MARK + b" " + MARK + b"show", b"\n"), (b" " + MARK + b"show", b"\n"), (b" " + MARK, b"\n"),
            (b"\r" + MARK + b"show", b"\n"), (MARK + b"\r", b"\r\n"), (MARK + b"\r" + MARK, b"\r\n"),
            (MARK + b"show" + MARK, b"\n"), (MARK[:2] + b"show", b"\n"), (MARK[:2], b"\r\n"), (MARK[:1], b"\n"),
            (MARK[1:] + b"show", b"\n"), (MARK[:2] + MARK + b"show", b"\n"), (MARK + MARK[:2] + b"show", b"\n")):
        rec.raw(line, end)
    # The mark does not count for the length; a second mark does, and so does a part of one.
    for size in (8191, 8192):
        for end in (b"\n", b"\r\n"):
            rec.raw(MARK + fill(b"word 1", b" 1 2 0", size), end)
            rec.raw(MARK + fill(b"#", b"", size), end)
            rec.raw(MARK + fill(MARK, b"", size), end)
            rec.raw(fill(b" " + MARK, b"", size), end)
            rec.raw(fill(MARK[:2], b"", size), end)
    rec.raw(MARK + b"show")


def long_lines(rec):
    """Lines at the greatest length, and longer ones."""
    comment(rec, "long lines")
    rec.build(2, A)
    for size in (8190, 8191, 8192, 8193):
        for end in (b"\n", b"\r\n"):
            rec.raw(fill(b"word 1", b" 1 2 0", size), end)
    for size in (8191, 8192):
        for end in (b"\n", b"\r\n"):
            rec.raw(fill(b"#", b"", size, b"#"), end)
            rec.raw(fill(b"", b"", size), end)
        rec.raw(fill(b"word 1 ", b"1 2 0", size, b"0"))
        rec.raw(fill(b"word 1 -", b"0 2 0", size, b"0"))
        rec.raw(fill(b"post 2 10000 ", b"10000 0", size, b"0"))
        rec.raw(fill(b"word 1 1", b" 2 0", size, b"9"))
        rec.raw(fill(b"word -", b" 1 2 0", size, b"7"))
        rec.raw(fill(b"read 0", b"", size, b"0"))
        rec.raw(fill(b"read 00", b"", size - 1, b"0"))
        rec.raw(b"build 2" + b" 1" * 4092 + b" " * (size - 8191))
        rec.raw(fill(b"build 2 1 1 1 1 1 1 1 1 1 1 1 1 1 1 ", b"1", size, b"0"))
        rec.raw(fill(b"build 2 1 1 1 1 1 1 1 1 1 1 1 1 1 1 ", b"1", size, b"9"))
        rec.raw(fill(b"x", b"", size, b"x"))
        rec.raw(fill(b"show", b"\r", size))
        rec.raw(fill(b"show", b"", size), b"\r\n")
        rec.raw(b"show" + b"\r" * (size - 4))
        rec.do("show")
    rec.raw(b"show" + b"\r" * 8187, b"\r\n")
    rec.raw(b"\r" * 8191, b"\r\n")
    rec.raw(b" " * 8191 + b"\r", b"\r\n")
    rec.raw(b"show" + b" " * 12000)
    rec.raw(b"# " + b"x" * 20000)
    rec.raw(b"post 2 10301 10000 0" + b" " * 16000, b"\r\n")
    rec.raw(b"0" * 66000)
    rec.do("show")
    rec.raw(b"show\r " * 3000)
    rec.do("show")


def last_line(rec):
    """The last line has a carriage return and no line feed."""
    rec.do("show")
    rec.raw(b"word 1 1 2 0", b"\r")


def apart(rng, drawn):
    """A generator of its own for vectors that depend on verdicts, from where the given one stands.

    The given one passes over as many numbers as these vectors drew at first. So the vectors after them stay as they
    are where a rule for verdicts changes.
    """
    own = random.Random()
    own.setstate(rng.getstate())
    for _ in range(drawn):
        rng.getrandbits(32)
    return own


def make():
    """The record of all commands."""
    rng = random.Random(20240105)
    rec = Record()
    on_zeros(rec)
    figures(rec)
    words(rec, rng)
    builds(rec, rng)
    posts_and_reanalyses(rec)
    one_side_before_trend(rec)
    halves_to_even(rec)
    fifteen_standing(rec)
    refusals(rec, rng)
    open_states(rec, apart(rng, 10289))
    renewals(rec, rng)
    stored_forms(rec, rng)
    line_charts(rec, rng)
    random_runs(rec, apart(rng, 7075), 14)
    full_series(rec, rng)
    language(rec)
    marks(rec)
    long_lines(rec)
    last_line(rec)
    return rec


def bytes_of(rec):
    """The commands of a record and their answers, by path."""
    answered = [answer + b"\n" for answer in rec.answers if answer is not None]
    return {ASKED: b"".join(rec.lines), ANSWERED: b"".join(answered)}


def files():
    """The files that are made, by their paths from the root of the repository."""
    return bytes_of(make())


def main():
    rec = make()
    made = bytes_of(rec)
    choices.print_table(rec.table)
    print("lines %d, answers %d, bytes %d and %d" % (
        len(rec.lines), sum(answer is not None for answer in rec.answers), len(made[ASKED]), len(made[ANSWERED])))


if __name__ == "__main__":
    main()
