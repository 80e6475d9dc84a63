"""The command language of the program control_chart, answered by the model.

python3 commands.py < commands > answers

It ends with the highest exit status of the answers.
"""

import re
import sys

import model

LINE_MOST = 8191
MARK = b"\xef\xbb\xbf"
READING_LOWEST = -(1 << 63)
READING_HIGHEST = (1 << 63) - 1

UNKNOWN = b"error: unknown command; control_chart help lists the commands"
MISSING = b"error: missing number; control_chart help shows what each command takes"
NOT_NUMBER = b"error: not a number; numbers are whole and in decimal, as 10250 or -313"
TOO_LARGE = b"error: number too large; a reading is at most 1000000000"
EXTRA = b"error: extra number; control_chart help shows what each command takes"
NOT_HEX = b"error: not a hex digit; hex digits are 0 to 9 and a to f"
ODD_HEX = b"error: odd number of hex digits; a byte has two"
TOO_LONG = b"error: line too long; a line has at most 8191 bytes"

# Exit status: work goes on, the batch is held, the call is refused, the line is in error.
GO_ON, HOLD, REFUSED, ERROR = 0, 1, 2, 3


class Malformed(Exception):
    """A line that makes no call: the answer is the error line."""

    def __init__(self, answer):
        super().__init__(answer)
        self.answer = answer


def number(field):
    """Numbers: the value of a field. Of a number with more than 30 digits only the sign and the great size are kept."""
    if not re.fullmatch(rb"-?[0-9]+", field):
        raise Malformed(NOT_NUMBER)
    digits = field.lstrip(b"-").lstrip(b"0")
    value = 10 ** 30 if len(digits) > 30 else int(digits or b"0")
    return -value if field.startswith(b"-") else value


def take_number(fields):
    """Errors: the next field as a number."""
    if not fields:
        raise Malformed(MISSING)
    return number(fields.pop(0))


def take_kind(fields):
    """Numbers: a kind that is not 0..65535 counts as 0."""
    kind = take_number(fields)
    return kind if 0 <= kind <= 65535 else 0


def take_reading(fields):
    """Numbers: a reading is any signed 64-bit number."""
    value = take_number(fields)
    if not READING_LOWEST <= value <= READING_HIGHEST:
        raise Malformed(TOO_LARGE)
    return value


def take_four(fields):
    """Commands word, post, reanalyse: a kind and three readings, nothing more."""
    four = [take_kind(fields), take_reading(fields), take_reading(fields), take_reading(fields)]
    take_nothing(fields)
    return four


def take_nothing(fields):
    """Errors: no field may be left."""
    if fields:
        raise Malformed(EXTRA)


def take_bytes(fields):
    """Command read: nothing, or one field of hex digits."""
    if not fields:
        return b""
    field = fields.pop(0)
    if not re.fullmatch(rb"[0-9a-fA-F]+", field):
        raise Malformed(NOT_HEX)
    if len(field) % 2 != 0:
        raise Malformed(ODD_HEX)
    take_nothing(fields)
    return bytes.fromhex(field.decode("ascii"))


def decimal(k):
    """Answer lines: k / 256 with eight decimals, exactly."""
    whole, part = divmod(abs(k), 256)
    return "%s%d.%08d" % ("-" if k < 0 else "", whole, part * 390625)


def shown(chart):
    """Answer of show."""
    numbers = ["chart kind", chart.kind, "status", chart.status, "verdict", chart.verdict,
               "base", len(chart.base), *chart.base, "series", len(chart.series), *chart.series]
    return " ".join(map(str, numbers))


def call(chart, command, fields):
    """One command with its fields: the next chart and the answer as text."""
    if command == b"word":
        return chart, "word %d" % model.word_alone(*take_four(fields))
    if command == b"build":
        kind = take_kind(fields)
        words = [number(field) for field in fields]
        chart, rounds, removed = model.build(kind, words)
        return chart, "built rounds %d removed %d" % (rounds, removed)
    if command == b"post":
        chart, word, verdict = model.post(chart, *take_four(fields))
        return chart, "word %d verdict %d" % (word, verdict)
    if command == b"reanalyse":
        chart, word, passed = model.reanalyse(chart, *take_four(fields))
        return chart, "word %d %s" % (word, "passed" if passed else "failed")
    if command == b"read":
        return model.read(take_bytes(fields)), "read"
    if command not in (b"correct", b"renew", b"lines", b"write", b"show"):
        raise Malformed(UNKNOWN)
    take_nothing(fields)
    if command == b"correct":
        return model.correct(chart), "corrected"
    if command == b"renew":
        chart, rounds, removed = model.renew(chart)
        return chart, "renewed rounds %d removed %d" % (rounds, removed)
    if command == b"lines":
        return chart, "lines " + " ".join(map(decimal, model.lines(chart)))
    if command == b"write":
        data = model.write(chart)
        return chart, "bytes %d %s" % (len(data), data.hex())
    return chart, shown(chart)


def fields_of(line):
    """Blanks: the fields of a line."""
    return [field for field in re.split(rb"[ \t]+", line) if field]


def command_of(line):
    """Comments: the first field of a line, or None if the line is empty or a comment."""
    fields = fields_of(line)
    return None if not fields or fields[0].startswith(b"#") else fields[0]


def step(chart, line):
    """One line, bare.

    Gives the next chart, the answer line and the exit status; None and 0 if nothing is written.
    """
    if len(line) > LINE_MOST:
        return chart, TOO_LONG, ERROR
    command = command_of(line)
    if command is None:
        return chart, None, GO_ON
    try:
        chart, answer = call(chart, command, fields_of(line)[1:])
    except model.Refused as refused:
        return chart, b"refused %d" % refused.number, REFUSED
    except Malformed as malformed:
        return chart, malformed.answer, ERROR
    # A post or a reanalysis that does not leave the chart free holds the batch.
    held = command in (b"post", b"reanalyse") and chart.status != 0
    return chart, answer.encode("ascii"), HOLD if held else GO_ON


def status(answer):
    """Exit status: that of an answer, by its text alone. step works it out from what happened."""
    if answer.startswith(b"error:"):
        return ERROR
    if answer.startswith(b"refused "):
        return REFUSED
    return HOLD if re.fullmatch(rb"word -?[0-9]+ (verdict [1-4]|failed)", answer) else GO_ON


def bare(line):
    """Lines: a line without one carriage return at its end and one byte order mark at its front."""
    line = line[:-1] if line.endswith(b"\r") else line
    return line[len(MARK):] if line.startswith(MARK) else line


def lines_of(data):
    """Lines: the input cut at line feeds, each line bare; the last line may have no line feed."""
    parts = data.split(b"\n")
    if parts[-1] == b"":
        parts.pop()
    return [bare(part) for part in parts]


def steps_of(data):
    """All answers to an input with their exit statuses, from the chart of zeros on, one pair for each line."""
    chart = model.ZEROS
    steps = []
    for line in lines_of(data):
        chart, answer, ended = step(chart, line)
        steps.append((answer, ended))
    return steps


def answers_of(data):
    """All answers to an input, one for each line (None if nothing is written)."""
    return [answer for answer, _ in steps_of(data)]


def status_of(data):
    """Exit status: the highest of all answers to an input, 0 if there is none."""
    return max((ended for _, ended in steps_of(data)), default=GO_ON)


def main():
    steps = steps_of(sys.stdin.buffer.read())
    sys.stdout.buffer.write(b"".join(answer + b"\n" for answer, _ in steps if answer is not None))
    return max((ended for _, ended in steps), default=GO_ON)


if __name__ == "__main__":
    sys.exit(main())
