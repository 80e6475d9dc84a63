"""Calls beyond the commands, answered by the model: chart values with all their places, lent buffers, a word against
the lines, whole lists of calls, the functions for C, and their texts.

It follows document 01, its readings and the description in include/control_chart.h. As in the model, a refused call
raises Refused; what was handed in or lent is then unchanged.
"""

from collections import namedtuple

import model
from model import Chart, Refused

# Forms in the code: a chart value has 32 places for the base and 366 for the series, and says how many are used.
ChartValue = namedtuple("ChartValue", "kind base base_len series series_len status verdict")


# Charts handed in

def with_zeros(words, count):
    """Stored form: words, and 0 in the unused places after them."""
    return tuple(words) + (0,) * (count - len(words))


def value_of(chart):
    """Forms in the code: the chart value of a chart."""
    return ChartValue(chart.kind, with_zeros(chart.base, model.BASE_MOST), len(chart.base),
                      with_zeros(chart.series, model.SERIES_MOST), len(chart.series), chart.status, chart.verdict)


def chart_of(value):
    """Stored form: the chart of a sound chart value; the lengths come before any place. Refusal 14."""
    if not model.BASE_LEAST <= value.base_len <= model.BASE_MOST or not 0 <= value.series_len <= model.SERIES_MOST:
        raise Refused(14)
    if any(value.base[value.base_len:]) or any(value.series[value.series_len:]):
        raise Refused(14)
    chart = Chart(value.kind, value.base[:value.base_len], value.series[:value.series_len],
                  value.status, value.verdict)
    if not model.sound(chart):
        raise Refused(14)
    return chart


def on_value(value, call, *given):
    """Numbers for what is declined: a call of the model on a chart value handed in; next value and answer."""
    done = call(chart_of(value), *given)
    chart, *answer = [done] if isinstance(done, Chart) else done
    return value_of(chart), *answer


def built(kind, words):
    """Base, limits, rejection: the chart of a build, without rounds and number removed. Refusals 1, 2, 3, 16."""
    return model.build(kind, words)[0]


def start_or_zeros(start, *given):
    """Numbers for what is declined: the chart of start (built or model.read), the chart of zeros if it is refused."""
    try:
        return start(*given)
    except Refused:
        return model.ZEROS


# Lent buffers

def write_into(value, lent):
    """Stored form: writes a chart value to the front of lent bytes; the number of bytes. Refusals 14, 15."""
    data = model.write(chart_of(value))
    if len(data) > len(lent):
        raise Refused(15)
    lent[:len(data)] = data
    return len(data)


# Lines

def against_lines(chart, word):
    """Lines for the plotter: beyond lower warning, upper warning, lower control, upper control. Refusal 14.

    The word is compared with the doubles, which is 256 times the word with k. Kind 1 has no lower lines.
    """
    scaled = model.SCALE * word
    if chart.kind == 1:
        _, upper_warning, upper_control = model.lines(chart)
        return False, scaled > upper_warning, False, scaled > upper_control
    _, lower_warning, upper_warning, lower_control, upper_control = model.lines(chart)
    return scaled < lower_warning, scaled > upper_warning, scaled < lower_control, scaled > upper_control


# Lists

def call_of_list(chart, number, kind, a, b, c):
    """Lists: one call; next chart and the three numbers of its answer. A kind outside 0..65535 counts as 0."""
    kind = kind if 0 <= kind <= 65535 else 0
    try:
        if number == 1:
            chart, word, verdict = model.post(chart, kind, a, b, c)
            return chart, (1, word, verdict)
        if number == 2:
            chart, word, passed = model.reanalyse(chart, kind, a, b, c)
            return chart, (2, word, int(passed))
        if number == 3:
            return model.correct(chart), (3, 0, 0)
        chart, rounds, removed = model.renew(chart)
        return chart, (4, rounds, removed)
    except Refused as refused:
        return chart, (0, refused.number, 0)


def run_list(start, given, numbers, lent):
    """Lists: a list of calls, five numbers to a call, from the chart that start (built or model.read) makes.

    Gives the answer, the numbers of the lent buffer and the chart after the list. What is declined, in this order:
    numbers that are no list, a buffer with fewer than three numbers for each call, a start that is refused.
    """
    calls = [numbers[at:at + 5] for at in range(0, len(numbers), 5)]
    if any(len(call) != 5 or call[0] not in (1, 2, 3, 4) for call in calls):
        return "no list", lent, model.ZEROS
    if len(lent) < 3 * len(calls):
        return "no room", lent, model.ZEROS
    try:
        chart = start(*given)
    except Refused as refused:
        return "start refused %d" % refused.number, lent, model.ZEROS
    answers = ()
    for call in calls:
        chart, answer = call_of_list(chart, *call)
        answers += answer
    return "done", answers + tuple(lent[len(answers):]), chart


# The functions for C

# The greatest number that size_t holds.
SIZE_MOST = 2 ** 64 - 1


def held(number, least, most):
    """The number, if its C type holds it: a client would cut any other number before the call."""
    if not least <= number <= most:
        raise ValueError("%d is not in %d..%d" % (number, least, most))
    return number


def reading(kind, a, b, c):
    """The header: a kind is uint32_t, a reading int64_t. A number that is no kind is not cut to 16 bits."""
    return held(kind, 0, 2 ** 32 - 1), *(held(number, -2 ** 63, 2 ** 63 - 1) for number in (a, b, c))


def word(kind, a, b, c):
    """control_chart_word: the word. Refusals 1, 5, 6, 7."""
    return model.word_alone(*reading(kind, a, b, c))


# The header and docs/REFUSALS.md: the text of each answer.
REFUSAL_TEXTS = {
    0: "done",
    1: "the kind is not 1, 2 or 3",
    2: "there are not 15 to 32 words",
    3: "a word given for the base is out of range",
    4: "the reading is of another kind than the chart",
    5: "a reading is not in 0..1000000000",
    6: "the divisor is 0",
    7: "the word is out of range",
    8: "a reanalysis or a correction is due",
    9: "the series is full: it has 366 words",
    10: "no reanalysis is due",
    11: "no correction is due",
    12: "base and series together have fewer than 15 words",
    13: "the bytes are not a stored form",
    14: "there is no chart, or it is not sound",
    15: "the buffer is too short",
    16: "fewer than 15 words stand after rejection",
}
NO_SUCH_NUMBER = "no such number"

# The header: the text of each verdict.
VERDICT_TEXTS = {
    0: "none",
    1: "beyond a control limit",
    2: "two in a row beyond the warning limit on one side",
    3: "seven in a row rising or falling",
    4: "seven in a row on one side of the mean",
}
NO_SUCH_VERDICT = "no such verdict"

# The header: CONTROL_CHART_VERSION, and CONTROL_CHART_TEXT_MOST, which is room for every text with its 0 byte.
VERSION = "1.3.0"
TEXT_MOST = 64


def within(text, room):
    """The header: the text, if the room holds it with its 0 byte. Refusal 15."""
    if held(room, 0, SIZE_MOST) < len(text) + 1:
        raise Refused(15)
    return text


def refusal_text(number, room):
    """control_chart_refusal_text: the text. The number is uint32_t and is not cut to 16 bits. Refusal 15."""
    return within(REFUSAL_TEXTS.get(held(number, 0, 2 ** 32 - 1), NO_SUCH_NUMBER), room)


def verdict_text(number, room):
    """control_chart_verdict_text: the text. The number is uint32_t and is not cut to 16 bits. Refusal 15."""
    return within(VERDICT_TEXTS.get(held(number, 0, 2 ** 32 - 1), NO_SUCH_VERDICT), room)


def version(room):
    """control_chart_version: the version. Refusal 15."""
    return within(VERSION, room)


# The header: CONTROL_CHART_FORM_MOST, the bytes of the longest form, and CONTROL_CHART_LINES_MOST.
FORM_MOST = 10 + (4 + 2 * model.BASE_MOST) + (4 + 2 * model.SERIES_MOST)
LINES_MOST = 5


class LentChart:
    """The header: lent bytes with a form at their front, the size of the form, and the room that the calls take.

    Every call works on the chart that the bytes hold.
    """

    def __init__(self, lent, size):
        self.bytes = bytearray(lent)
        self.size = size
        self.room = len(lent)

    def tell(self, size, room):
        """Another size, any that size_t holds, and another room, within the bytes that are lent."""
        self.size = held(size, 0, SIZE_MOST)
        self.room = held(room, 0, len(self.bytes))

    def form(self):
        """The bytes of the form; their number is never above that of the lent bytes."""
        return bytes(self.bytes[:held(self.size, 0, len(self.bytes))])

    def read(self):
        """The chart for the calls that take the size alone. Refusals 13, 14."""
        return model.read(self.form())

    def read_in_room(self):
        """The chart for the calls that take size and room. Refusals 13, also for a size above room, and 14."""
        if self.size > self.room:
            raise Refused(13)
        return self.read()

    def put(self, chart, room):
        """Puts a form at the front; the bytes after it stay. Refusal 15."""
        form = model.stored_form(chart)
        if len(form) > held(room, 0, len(self.bytes)):
            raise Refused(15)
        self.bytes[:len(form)] = form
        self.size = len(form)

    def build(self, kind, room, words):
        """control_chart_build: rounds, number removed. Refusals 1, 2, 3, 16, 15."""
        words = [held(number, -32768, 32767) for number in words]
        chart, rounds, removed = model.build(held(kind, 0, 2 ** 32 - 1), words)
        self.put(chart, room)
        return rounds, removed

    def post(self, kind, a, b, c):
        """control_chart_post: word, verdict. Refusals 13, 14, 8, 9, 4, 5, 6, 7, 15."""
        chart, posted, verdict = model.post(self.read_in_room(), *reading(kind, a, b, c))
        self.put(chart, self.room)
        return posted, verdict

    def reanalyse(self, kind, a, b, c):
        """control_chart_reanalyse: word, 1 passed or 0 failed. Refusals 13, 14, 10, 4, 5, 6, 7."""
        chart, again, passed = model.reanalyse(self.read_in_room(), *reading(kind, a, b, c))
        self.put(chart, self.room)
        return again, int(passed)

    def correct(self):
        """control_chart_correct: nothing. Refusals 13, 14, 11."""
        self.put(model.correct(self.read_in_room()), self.room)
        return ()

    def renew(self):
        """control_chart_renew: rounds, number removed. Refusals 13, 14, 8, 12, 16."""
        chart, rounds, removed = model.renew(self.read_in_room())
        self.put(chart, self.room)
        return rounds, removed

    def lines(self, room):
        """control_chart_lines: the k of each line. Refusals 13, 14, 15."""
        lines = model.lines(self.read())
        if len(lines) > held(room, 0, SIZE_MOST):
            raise Refused(15)
        return lines

    def against_lines(self, compared, room):
        """control_chart_against_lines: four numbers, 1 or 0. Refusals 13, 14, 7, 15."""
        chart = self.read()
        if not -32768 <= held(compared, -2 ** 31, 2 ** 31 - 1) <= 32767:
            raise Refused(7)
        if held(room, 0, SIZE_MOST) < 4:
            raise Refused(15)
        return tuple(map(int, against_lines(chart, compared)))

    def check(self):
        """control_chart_check: nothing. Refusals 13, 14."""
        self.read()
        return ()
