"""A day at the bench, from Python: builds a chart, posts three results, analyses one again, and keeps the chart in a new file.

make lib
python3 examples/day.py target/lib/libcontrol_chart.so target/py.chart

Every check sample was made up to 1.000 mg/L. A reading is what was found, in thousandths. It needs only ctypes.
"""

import os
import sys
from ctypes import CDLL, POINTER, byref, c_char_p, c_double, c_int16, c_int64, c_size_t, c_uint8, c_uint16, c_uint32
from ctypes import create_string_buffer

# From include/control_chart.h.
CHECK = 2
FORM_MOST = 814
LINES_MOST = 5
TEXT_MOST = 64

MADE_UP = 1000
BASE = [990] * 7 + [1010] * 7 + [1000]

READINGS = [c_uint32, c_int64, c_int64, c_int64]
CHART = [c_uint8 * FORM_MOST, c_size_t, POINTER(c_size_t)]
ARGUMENTS = {
    "control_chart_word": READINGS + [POINTER(c_int16)],
    "control_chart_build": [c_uint32, POINTER(c_int16), c_size_t] + CHART + [POINTER(c_size_t), POINTER(c_size_t)],
    "control_chart_post": CHART + READINGS + [POINTER(c_int16), POINTER(c_uint16)],
    "control_chart_reanalyse": CHART + READINGS + [POINTER(c_int16), POINTER(c_uint8)],
    "control_chart_lines": [c_uint8 * FORM_MOST, c_size_t, POINTER(c_double), c_size_t, POINTER(c_size_t)],
    "control_chart_refusal_text": [c_uint32, c_char_p, c_size_t],
    "control_chart_verdict_text": [c_uint32, c_char_p, c_size_t],
}


class Refused(Exception):
    """A call was refused, by this number. Nothing changed."""

    def __init__(self, number):
        super().__init__(number)
        self.number = number


class Library:
    """The functions of the shared object, by their names without `control_chart_`."""

    def __init__(self, path):
        library = CDLL(path)
        for name, arguments in ARGUMENTS.items():
            function = getattr(library, name)
            function.argtypes = arguments
            function.restype = c_uint16
            setattr(self, name[len("control_chart_"):], function)

    def text(self, function, number):
        text = create_string_buffer(TEXT_MOST)
        done(function(number, text, TEXT_MOST))
        return text.value.decode("ascii")


def done(number):
    if number != 0:
        raise Refused(number)


class Chart:
    """A chart in its stored form: the first `size` bytes of a buffer that has room for every chart."""

    def __init__(self, library, kind, words):
        self.library = library
        self.buffer = (c_uint8 * FORM_MOST)()
        self.size = c_size_t()
        rounds, removed = c_size_t(), c_size_t()
        words = (c_int16 * len(words))(*words)
        done(library.build(kind, words, len(words), *self.lent(), byref(rounds), byref(removed)))
        self.rounds, self.removed = rounds.value, removed.value

    def lent(self):
        return self.buffer, FORM_MOST, byref(self.size)

    def form(self):
        return bytes(self.buffer[:self.size.value])

    def lines(self):
        lines, count = (c_double * LINES_MOST)(), c_size_t()
        done(self.library.lines(self.buffer, self.size, lines, LINES_MOST, byref(count)))
        return lines[:count.value]

    def post(self, kind, a, b, c):
        word, verdict = c_int16(), c_uint16()
        done(self.library.post(*self.lent(), kind, a, b, c, byref(word), byref(verdict)))
        return word.value, verdict.value

    def reanalyse(self, kind, a, b, c):
        word, passed = c_int16(), c_uint8()
        done(self.library.reanalyse(*self.lent(), kind, a, b, c, byref(word), byref(passed)))
        return word.value, passed.value == 1


def word_of(library, found):
    word = c_int16()
    done(library.word(CHECK, found, MADE_UP, 0, byref(word)))
    return word.value


def post(library, chart, found):
    try:
        word, verdict = chart.post(CHECK, found, MADE_UP, 0)
    except Refused as refused:
        print("refused %d: %s" % (refused.number, library.text(library.refusal_text, refused.number)))
        return
    print("word %d verdict %d: %s" % (word, verdict, library.text(library.verdict_text, verdict)))


def day(library, file):
    words = [word_of(library, found) for found in BASE]
    print("word %d" % words[0])
    chart = Chart(library, CHECK, words)
    print("built rounds %d removed %d" % (chart.rounds, chart.removed))
    print("lines", *("%.8f" % line for line in chart.lines()))
    for found in (1002, 1031, 1001):
        post(library, chart, found)
    word, passed = chart.reanalyse(CHECK, 1030, MADE_UP, 0)
    print("word %d %s" % (word, "passed" if passed else "failed"))
    file.write(chart.form())
    file.flush()
    os.fsync(file.fileno())
    print("kept %d bytes" % len(chart.form()))


if __name__ == "__main__":
    if len(sys.argv) != 3:
        sys.exit("usage: day.py LIBRARY FILE")
    loaded = Library(sys.argv[1])
    with open(sys.argv[2], "xb") as new_file:  # x: a file that is there already stays as it is
        day(loaded, new_file)
