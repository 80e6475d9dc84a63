"""A client in Python of the control chart library, with ctypes alone. tests/clients/run runs it:

    python3 tests/clients/client.py target/lib/libcontrol_chart.so tests/clients/calls.txt

It makes the calls in calls.txt: every function, with every refusal that it has. The clients in C and Rust make the same
comparisons in the same order.
"""

import sys
from ctypes import CDLL, POINTER, byref, c_double, c_int16, c_int32, c_int64, c_size_t, c_uint8, c_uint16, c_uint32
from ctypes import sizeof

# ---- The library

BYTES, SIZE, WORD = POINTER(c_uint8), POINTER(c_size_t), POINTER(c_int16)
READING = [c_uint32, c_int64, c_int64, c_int64]
ARGUMENTS = {
    "word": [*READING, WORD],
    "build": [c_uint32, WORD, c_size_t, BYTES, c_size_t, SIZE, SIZE, SIZE],
    "post": [BYTES, c_size_t, SIZE, *READING, WORD, POINTER(c_uint16)],
    "reanalyse": [BYTES, c_size_t, SIZE, *READING, WORD, BYTES],
    "correct": [BYTES, c_size_t, SIZE],
    "renew": [BYTES, c_size_t, SIZE, SIZE, SIZE],
    "lines": [BYTES, c_size_t, POINTER(c_double), c_size_t, SIZE],
    "against_lines": [BYTES, c_size_t, c_int32, BYTES, c_size_t],
    "check": [BYTES, c_size_t],
    "refusal_text": [c_uint32, BYTES, c_size_t],
    "verdict_text": [c_uint32, BYTES, c_size_t],
    "version": [BYTES, c_size_t],
}


class Library:
    """The twelve functions. Their types are set, since ctypes would pass every number as an int."""

    def __init__(self, path):
        loaded = CDLL(path)
        for name, arguments in ARGUMENTS.items():
            function = getattr(loaded, "control_chart_" + name)
            function.argtypes = arguments
            function.restype = c_uint16
            setattr(self, name, function)


# ---- Comparing

comparisons = 0
called = ""  # the call that is compared
form_lent = b""  # the form that was lent to it


def same(what, expected, came):
    global comparisons
    comparisons += 1
    if expected != came:
        print(f"client.py: {called}: {what}: expected {expected}, came {came}", file=sys.stderr)
        if form_lent:
            print(f"client.py: the form lent was {form_lent.hex()}", file=sys.stderr)
        sys.exit(1)


def same_bytes(what, expected, came):
    """One comparison. If there is a difference, the eight bytes around it are shown."""
    starts = range(0, len(came), 8)
    at = next((i for i in starts if expected[i : i + 8] != came[i : i + 8]), 0)
    same(f"{what} from {at} on", expected[at : at + 8].hex(), came[at : at + 8].hex())


# ---- Every function, with every refusal that it has

FILL = 0x77  # fills lent memory before a call, to show what the call does not change
LENT = 820  # the bytes lent for a chart, more than the longest form

# The other lent memory, with more words, flags, doubles and bytes for a text than any call needs.
LENT_TYPES = {
    "words": c_int16 * 34,
    "rounds": c_size_t,
    "removed": c_size_t,
    "count": c_size_t,
    "word": c_int16,
    "verdict": c_uint16,
    "passed": c_uint8,
    "beyond": c_uint8 * 7,
    "lines": c_double * 7,
    "text": c_uint8 * 200,
}

CALLS_ON_A_CHART = [
    "post 2 10000 10000 0",
    "reanalyse 2 10000 10000 0",
    "correct",
    "renew",
    "lines 6",
    "against_lines 10000 6",
    "check",
]

CALLS_WITH_TEXT = ["refusal_text", "verdict_text", "version"]


def filled(lent_type):
    return lent_type.from_buffer_copy(bytes([FILL]) * sizeof(lent_type))


def stored(*numbers):
    """Two bytes to a number, the lower first, words in two's complement."""
    return b"".join((number & 0xFFFF).to_bytes(2, "little") for number in numbers)


def stored_form(head, base, series):
    """A form made by hand."""
    return b"".join(stored(2 + 2 * len(of), record, *of) for record, of in [(1, head), (2, base), (3, series)])


def numbers_of(text):
    """Lists of numbers between `/`; "7*9900" stands for 9900 seven times."""
    lists = []
    for part in text.split("/"):
        pairs = [token.rpartition("*") for token in part.split()]
        lists.append([int(number) for times, _, number in pairs for _ in range(int(times or 1))])
    return lists


class Calls:
    """The calls in calls.txt, on one chart in lent memory."""

    def __init__(self, library):
        self.library = library
        self.lend(b"")

    def lend(self, form):
        """Lends memory with a form at its front."""
        self.bytes, self.size, self.room = filled(c_uint8 * LENT), c_size_t(len(form)), LENT
        self.bytes[: len(form)] = form

    def put(self, at, *numbers):
        """Puts numbers into what the chart must be."""
        self.must_bytes[at : at + 2 * len(numbers)] = stored(*numbers)

    def put_fresh(self, kind, base):
        """A new base, an empty series, status 0. The bytes after the form stay."""
        form = stored_form([kind, 0, 0], base, [])
        self.must_size = len(form)
        self.must_bytes[: len(form)] = form

    def compare(self, call, given, must):
        """Makes a call, and compares the answer, every output and every lent byte."""
        global form_lent
        form_lent = bytes(self.bytes[: self.size.value])
        self.came = {name: filled(lent_type) for name, lent_type in LENT_TYPES.items()}
        self.expected = {name: filled(lent_type) for name, lent_type in LENT_TYPES.items()}
        self.must_bytes, self.must_size = bytearray(self.bytes), self.size.value
        same("answer", must[0][0], call(given, must))
        for name in LENT_TYPES:
            expected, came = self.expected[name], self.came[name]
            if hasattr(came, "value"):
                same(name, expected.value, came.value)
            else:
                same_bytes(name, bytes(expected), bytes(came))
        same("size", self.must_size, self.size.value)
        same_bytes("bytes", bytes(self.must_bytes), bytes(self.bytes))

    def expect(self, **outputs):
        for name, value in outputs.items():
            self.expected[name].value = value

    # Each of the twelve calls sets what is expected if the answer is 0, and gives back the answer that came.

    def word(self, given, must):
        if must[0][0] == 0:
            self.expect(word=must[0][1])
        return self.library.word(*given[0], byref(self.came["word"]))

    def build(self, given, must):
        (kind, room), words = given
        for memory in (self.came, self.expected):
            memory["words"][: len(words)] = words
        if must[0][0] == 0:
            self.put_fresh(kind, must[1])
            self.expect(rounds=must[0][1], removed=must[0][2])
        outputs = byref(self.size), byref(self.came["rounds"]), byref(self.came["removed"])
        return self.library.build(kind, self.came["words"], len(words), self.bytes, room, *outputs)

    def post(self, given, must):
        if must[0][0] == 0:
            _, word, verdict = must[0]
            series = 12 + self.must_bytes[10]  # where its record starts
            self.put(self.must_size, word)
            self.must_size += 2
            self.put(series, self.must_size - series - 2)
            self.put(6, [0, 1, 1, 1, 2][verdict], verdict)
            self.expect(word=word, verdict=verdict)
        outputs = byref(self.came["word"]), byref(self.came["verdict"])
        return self.library.post(self.bytes, self.room, byref(self.size), *given[0], *outputs)

    def reanalyse(self, given, must):
        if must[0][0] == 0:
            _, word, passed = must[0]
            self.expect(word=word, passed=passed)
            if passed:
                self.put(self.must_size - 2, word)
                self.put(6, 0, 0)
            else:
                self.put(6, 2)
        outputs = byref(self.came["word"]), byref(self.came["passed"])
        return self.library.reanalyse(self.bytes, self.room, byref(self.size), *given[0], *outputs)

    def correct(self, given, must):
        if must[0][0] == 0:
            self.put(6, 1)
        return self.library.correct(self.bytes, self.room, byref(self.size))

    def renew(self, given, must):
        if must[0][0] == 0:
            self.put_fresh(self.must_bytes[4], must[1])
            self.expect(rounds=must[0][1], removed=must[0][2])
        outputs = byref(self.came["rounds"]), byref(self.came["removed"])
        return self.library.renew(self.bytes, self.room, byref(self.size), *outputs)

    def lines(self, given, must):
        if must[0][0] == 0:
            lines = [number / 256 for number in must[0][1:]]  # exact
            self.expect(count=len(lines))
            self.expected["lines"][: len(lines)] = lines
        (room,) = given[0]
        return self.library.lines(self.bytes, self.size, self.came["lines"], room, byref(self.came["count"]))

    def against_lines(self, given, must):
        if must[0][0] == 0:
            self.expected["beyond"][:4] = must[0][1:]
        word, room = given[0]
        return self.library.against_lines(self.bytes, self.size, word, self.came["beyond"], room)

    def check(self, given, must):
        return self.library.check(self.bytes, self.size)

    def expect_text(self, must):
        """The text and its 0 byte. The bytes after it stay."""
        if must[0][0] == 0:
            text = self.text.encode("ascii") + b"\0"
            self.expected["text"][: len(text)] = text

    def refusal_text(self, given, must):
        self.expect_text(must)
        number, room = given[0]
        return self.library.refusal_text(number, self.came["text"], room)

    def verdict_text(self, given, must):
        self.expect_text(must)
        verdict, room = given[0]
        return self.library.verdict_text(verdict, self.came["text"], room)

    def version(self, given, must):
        self.expect_text(must)
        (room,) = given[0]
        return self.library.version(self.came["text"], room)

    def step(self, place, text):
        """One line of calls.txt."""
        global called
        called = f"{place}: {text}"
        name, _, rest = text.partition(" ")
        times, _, name = name.rpartition("*")
        if name == "form":
            same("bytes", rest.replace(" ", ""), bytes(self.bytes[: self.size.value]).hex())
            return
        before, _, after = rest.partition("=")
        if name in CALLS_WITH_TEXT:
            after, _, self.text = after.lstrip().partition(" ")
        given, must = numbers_of(before), numbers_of(after)
        if name == "chart":
            self.lend(stored_form(*given))
        elif name == "told":
            self.size.value, self.room = given[0]
        elif name == "byte":
            self.bytes[given[0][0]] = given[0][1]
        elif name == "all":
            for call in CALLS_ON_A_CHART:
                self.step(place, f"{call} = {must[0][0]}")
        elif name in ARGUMENTS:
            if name == "build":
                self.lend(b"")
                self.size = filled(c_size_t)
            for _ in range(int(times or 1)):
                self.compare(getattr(self, name), given, must)
        else:
            same("name", "one that calls.txt explains", name)


def main():
    if len(sys.argv) != 3:
        sys.exit("client.py: give the paths of libcontrol_chart.so and calls.txt")
    calls = Calls(Library(sys.argv[1]))
    with open(sys.argv[2], encoding="ascii") as file:
        for number, line in enumerate(file, 1):
            if line.strip() and not line.startswith("#"):
                calls.step(f"calls.txt line {number}", line.rstrip("\n"))
    print(f"client.py: {comparisons} comparisons, all as expected")


main()
