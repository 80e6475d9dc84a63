"""A model of document 01, the paper on control charts, with requests Q-1, Q-3, Q-4 and Q-5 of document 02.

It uses whole numbers only.

Each function names the heading of document 01 that it follows, or the request of document 02. A refused call raises
Refused with the number from the table; the chart that was handed in is then unchanged.
"""

from collections import namedtuple
from math import isqrt

# Forms in the code: the limits of the chart's type.
BUILD_LEAST = 15
BASE_MOST = 32
SERIES_MOST = 366
SCALE = 256

# Stored form: a base has at least ten words. document 02, Q-4: this floor is a fact about charts that were read.
BASE_LEAST = 10

# document 02, Q-4: after a build or a renewal, a base has at least fifteen words.
STANDING_LEAST = 15

# From readings to words: the ranges.
READING_MOST = 1000000000
WORD_MOST = 20000

# The machine: the state. Base and series are tuples of words, so there are no unused places.
Chart = namedtuple("Chart", "kind base series status verdict")

# Numbers for what is declined: a refused build or read gives a chart of zeros.
ZEROS = Chart(0, (), (), 0, 0)


class Refused(Exception):
    """Numbers for what is declined: the number of the refusal."""

    def __init__(self, number):
        super().__init__(number)
        self.number = number


# From readings to words

def nearest(numerator, divisor):
    """From readings to words: the nearest whole number; divisor above 0.

    document 02, Q-3: a quotient exactly halfway between two words goes to the even one, above and below zero.
    """
    # The quotient is lower + rest / divisor, and 0 <= rest < divisor. So it lies between lower and lower + 1.
    lower, rest = divmod(numerator, divisor)
    if 2 * rest < divisor:
        return lower
    if 2 * rest > divisor:
        return lower + 1
    return lower if lower % 2 == 0 else lower + 1


def in_range(kind, word):
    """From readings to words: the range of the words of a kind."""
    least = 0 if kind == 1 else -WORD_MOST
    return least <= word <= WORD_MOST


def form(kind, a, b, c):
    """From readings to words: the word of three numbers, for a kind 1..3. Refusals 5, 6, 7."""
    used = (a, b, c) if kind == 3 else (a, b)
    for reading in used:
        if not 0 <= reading <= READING_MOST:
            raise Refused(5)
    if kind == 1:
        numerator, divisor = 20000 * abs(a - b), a + b
    elif kind == 2:
        numerator, divisor = 10000 * a, b
    else:
        numerator, divisor = 10000 * (a - b), c
    if divisor == 0:
        raise Refused(6)
    word = nearest(numerator, divisor)
    if not in_range(kind, word):
        raise Refused(7)
    return word


def word_alone(kind, a, b, c):
    """Numbers for what is declined: a word formed alone. Refusals 1, 5, 6, 7."""
    if kind not in (1, 2, 3):
        raise Refused(1)
    return form(kind, a, b, c)


# Base, limits, rejection

def sums_of(words):
    """Base, limits, rejection: n, T and Q of some words."""
    return len(words), sum(words), sum(word * word for word in words)


def figures_from(sums):
    """Base, limits, rejection: n, T and V, from n, T and Q."""
    n, total, squares = sums
    return n, total, n * squares - total * total


def figures(words):
    """Base, limits, rejection: n, T and V of some words."""
    return figures_from(sums_of(words))


def side(of_base, word):
    """The machine: 1 if the word is strictly above the mean, -1 if strictly below, else 0."""
    n, total, _ = of_base
    away = n * word - total
    return (away > 0) - (away < 0)


def distance(of_base, times, word):
    """Base, limits, rejection: sign of |word - mean| - times * S, by squares of whole numbers.

    |word - mean| is |n * word - T| / n, and S * S is V / (n (n - 1)).
    """
    n, total, v = of_base
    away = n * word - total
    difference = away * away * (n - 1) - times * times * n * v
    return (difference > 0) - (difference < 0)


def beyond_side(kind, of_base, times, word):
    """Base, limits, rejection: the side (1 upper, -1 lower) on which the word is beyond, else 0."""
    if distance(of_base, times, word) <= 0:
        return 0
    where = side(of_base, word)
    if kind == 1 and where < 0:
        return 0
    return where


def beyond(kind, of_base, times, word):
    """Base, limits, rejection: strictly outside a limit (times 3 control limit, 2 warning limit)."""
    return beyond_side(kind, of_base, times, word) != 0


def near(of_base, word):
    """The machine, reanalysis: |word - mean| < S, on both sides and for every kind."""
    return distance(of_base, 1, word) < 0


def less(sums, removed):
    """document 02, Q-5: n, T and Q less the removed words. T is less each word, Q is less its square, n is less one.

    So T rises where a negative word is removed.
    """
    n, total, squares = sums
    for word in removed:
        n, total, squares = n - 1, total - word, squares - word * word
    return n, total, squares


def one_round(kind, words, given):
    """document 02, Q-5: one round of rejection. It gives the words left, in their old order, and the sums to hand on.

    The round marks by the sums that it is given. It hands on these sums less the words that it removes.
    """
    of_words = figures_from(given)
    left = tuple(word for word in words if not beyond(kind, of_words, 3, word))
    removed = [word for word in words if beyond(kind, of_words, 3, word)]
    return left, less(given, removed)


def all_rounds(kind, words, given):
    """document 02, Q-5: the words left standing, and a list of the sums given to this round and to each after it.

    The first round that removes nothing is the last. Its sums are in the list too.
    """
    left, handed_on = one_round(kind, words, given)
    if len(left) == len(words):
        return left, [given]
    base, later = all_rounds(kind, left, handed_on)
    return base, [given] + later


def sums_given(kind, words):
    """document 02, Q-5: n, T and Q as each round is given them. Those of the first round are summed, and no others."""
    return all_rounds(kind, words, sums_of(words))[1]


def reject(kind, words):
    """Base, limits, rejection: the words left standing, the rounds, the number removed."""
    base, given = all_rounds(kind, words, sums_of(words))
    return base, len(given), len(words) - len(base)


def build(kind, words):
    """Base, limits, rejection: the chart, the rounds, the number removed. Refusals 1, 2, 3, 16.

    document 02, Q-4: a build is refused with 16 if fewer than fifteen words stand at the end.
    """
    if kind not in (1, 2, 3):
        raise Refused(1)
    if not BUILD_LEAST <= len(words) <= BASE_MOST:
        raise Refused(2)
    if not all(in_range(kind, word) for word in words):
        raise Refused(3)
    base, rounds, removed = reject(kind, tuple(words))
    if len(base) < STANDING_LEAST:
        raise Refused(16)
    return Chart(kind, base, (), 0, 0), rounds, removed


# The machine

def run(words):
    """The machine, verdict 3: 1 if the words rise strictly, -1 if they fall strictly, else 0."""
    pairs = list(zip(words, words[1:]))
    if all(first < second for first, second in pairs):
        return 1
    if all(first > second for first, second in pairs):
        return -1
    return 0


def judge(kind, base, series):
    """The machine, post: the verdict on the last word of a series that is not empty."""
    of_base = figures(base)
    if beyond(kind, of_base, 3, series[-1]):
        return 1
    if len(series) >= 2:
        last = beyond_side(kind, of_base, 2, series[-1])
        before = beyond_side(kind, of_base, 2, series[-2])
        if last != 0 and last == before:
            return 2
    if len(series) >= 7:
        seven = series[-7:]
        # document 02, Q-1: the order is 1, 2, 4, 3. Where one side and a trend both apply, 4 is answered and 3 is not.
        if kind != 1:
            sides = {side(of_base, word) for word in seven}
            if sides == {1} or sides == {-1}:
                return 4
        if run(seven) != 0:
            return 3
    return 0


def post(chart, kind, a, b, c):
    """The machine, post: next chart, word, verdict. Refusals 14, 8, 9, 4, 5, 6, 7."""
    if not sound(chart):
        raise Refused(14)
    if chart.status != 0:
        raise Refused(8)
    if len(chart.series) >= SERIES_MOST:
        raise Refused(9)
    if kind != chart.kind:
        raise Refused(4)
    word = form(kind, a, b, c)
    series = chart.series + (word,)
    verdict = judge(chart.kind, chart.base, series)
    status = 0 if verdict == 0 else 2 if verdict == 4 else 1
    return chart._replace(series=series, status=status, verdict=verdict), word, verdict


def passes(chart, word):
    """The machine, reanalysis: whether the word passes on a chart with an open verdict."""
    of_base = figures(chart.base)
    if beyond(chart.kind, of_base, 3, word):
        return False
    if chart.verdict == 2:
        return not beyond(chart.kind, of_base, 2, word)
    if chart.verdict == 3:
        if near(of_base, word):
            return True
        if run(chart.series[-7:]) > 0:
            return word < chart.series[-2]
        return word > chart.series[-2]
    if chart.verdict == 4:
        return near(of_base, word) or side(of_base, word) != side(of_base, chart.series[-1])
    return True


def reanalyse(chart, kind, a, b, c):
    """The machine, reanalysis: next chart, word, passed or not. Refusals 14, 10, 4, 5, 6, 7."""
    if not sound(chart):
        raise Refused(14)
    if chart.status != 1:
        raise Refused(10)
    if kind != chart.kind:
        raise Refused(4)
    word = form(kind, a, b, c)
    if passes(chart, word):
        return chart._replace(series=chart.series[:-1] + (word,), status=0, verdict=0), word, True
    return chart._replace(status=2), word, False


def correct(chart):
    """The machine, correction: next chart. Refusals 14, 11."""
    if not sound(chart):
        raise Refused(14)
    if chart.status != 2:
        raise Refused(11)
    return chart._replace(status=1)


def tails(words):
    """document 02, Q-4: the tails that renewal tries, in their order: the last 15 words, then the last 16, and so on.

    The last of them has 32 words, or all there are. There is none if there are fewer than 15.
    """
    longest = min(BASE_MOST, len(words))
    return [words[len(words) - count:] for count in range(BUILD_LEAST, longest + 1)]


def renew(chart):
    """The machine, renewal: next chart, rounds, number removed. Refusals 14, 8, 12, 16.

    document 02, Q-4: of the tails of the base followed by the series, the shortest is used of which at least fifteen
    words stand. Rounds and number removed are those of this tail. A longer tail may leave fewer words than a shorter
    one. So every tail is tried by itself, and the first that will do is used.
    """
    if not sound(chart):
        raise Refused(14)
    if chart.status != 0:
        raise Refused(8)
    words = chart.base + chart.series
    if len(words) < BUILD_LEAST:
        raise Refused(12)
    for tail in tails(words):
        base, rounds, removed = reject(chart.kind, tail)
        if len(base) >= STANDING_LEAST:
            return chart._replace(base=base, series=()), rounds, removed
    raise Refused(16)


# Stored form

def sound(chart):
    """Stored form: whether the chart is sound."""
    kind, base, series, status, verdict = chart
    if kind not in (1, 2, 3):
        return False
    if not BASE_LEAST <= len(base) <= BASE_MOST or not len(series) <= SERIES_MOST:
        return False
    if not all(in_range(kind, word) for word in base + series):
        return False
    of_base = figures(base)
    if any(beyond(kind, of_base, 3, word) for word in base):
        return False
    tested = series if status == 0 else series[:-1]
    if any(beyond(kind, of_base, 3, word) for word in tested):
        return False
    if status == 0:
        return verdict == 0
    if status not in (1, 2) or len(series) == 0 or verdict not in (1, 2, 3, 4):
        return False
    return judge(kind, base, series) == verdict


def two_bytes(number):
    """Stored form: a number or a word as two bytes, little-endian, two's complement."""
    return (number % 65536).to_bytes(2, "little")


def record(record_kind, numbers):
    """Stored form: one record; its length counts the bytes after the length itself."""
    body = two_bytes(record_kind) + b"".join(two_bytes(number) for number in numbers)
    return two_bytes(len(body)) + body


def stored_form(chart):
    """Stored form: the three records of a chart, sound or not."""
    return (record(1, (chart.kind, chart.status, chart.verdict))
            + record(2, chart.base) + record(3, chart.series))


def write(chart):
    """Stored form: the bytes of a sound chart. Refusal 14; 15 cannot occur without a buffer."""
    if not sound(chart):
        raise Refused(14)
    return stored_form(chart)


def number_at(data, place):
    """Stored form: the number of two bytes at a place."""
    return int.from_bytes(data[place:place + 2], "little")


def signed(number):
    """Stored form: the word that a number of two bytes holds."""
    return number - 65536 if number >= 32768 else number


def take_record(data, place, record_kind, least, most):
    """Stored form: the numbers of one record and the place after it. Refusal 13."""
    if len(data) - place < 4:
        raise Refused(13)
    length = number_at(data, place)
    if length % 2 != 0 or not least <= (length - 2) // 2 <= most:
        raise Refused(13)
    if number_at(data, place + 2) != record_kind:
        raise Refused(13)
    end = place + 2 + length
    if end > len(data):
        raise Refused(13)
    return tuple(number_at(data, at) for at in range(place + 4, end, 2)), end


def read(data):
    """Stored form: the chart that the bytes hold. Refusals 13, 14."""
    head, place = take_record(data, 0, 1, 3, 3)
    base, place = take_record(data, place, 2, BASE_LEAST, BASE_MOST)
    series, place = take_record(data, place, 3, 0, SERIES_MOST)
    if place != len(data):
        raise Refused(13)
    kind, status, verdict = head
    chart = Chart(kind, tuple(map(signed, base)), tuple(map(signed, series)), status, verdict)
    if not sound(chart):
        raise Refused(14)
    return chart


# Lines for the plotter

def limit_line(of_base, times, upper):
    """Lines for the plotter: the whole number k of 256ths of a limit.

    k / 256 <= mean + times * S  is  k n - 256 T <= R  with  R R = 65536 times times n V / (n - 1).
    k n - 256 T is whole, so R may be replaced by its whole part. The lower limit likewise.
    """
    n, total, v = of_base
    reach = isqrt(SCALE * SCALE * times * times * n * v // (n - 1))
    if upper:
        return (SCALE * total + reach) // n
    return -((reach - SCALE * total) // n)


def mean_line(of_base):
    """Lines for the plotter: the greatest k not above 256 times the mean."""
    n, total, _ = of_base
    return SCALE * total // n


def lines(chart):
    """Lines for the plotter, as whole numbers k. Refusal 14.

    Kind 1: mean, upper warning, upper control. Else: mean, lower warning, upper warning,
    lower control, upper control.
    """
    if not sound(chart):
        raise Refused(14)
    of_base = figures(chart.base)
    mean = mean_line(of_base)
    if chart.kind == 1:
        return mean, limit_line(of_base, 2, True), limit_line(of_base, 3, True)
    return (mean, limit_line(of_base, 2, False), limit_line(of_base, 2, True),
            limit_line(of_base, 3, False), limit_line(of_base, 3, True))
