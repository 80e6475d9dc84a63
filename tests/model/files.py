"""One command on the chart in a file, as a function of the file's bytes and the command's line; and cases of it.

The program is called as control_chart FILE COMMAND .. and the line is its arguments after FILE, joined by one blank.
python3 files.py prints how often each outcome occurs in the cases.
"""

import random
from collections import Counter

import choices
import commands
import model
from choices import exact
from model import Chart

# Commands that may change the file.
CHANGING = (b"build", b"post", b"reanalyse", b"correct", b"renew", b"read")

# What is wrong with the file or the call. The program puts the name in front.
NO_COMMAND = b"missing command; control_chart help lists the commands"
NO_FILE = b"there is no such file; build makes it"
NO_FORM = (b"it holds no stored chart (refused 13); check the name, or take the last good copy; "
           b"to build anew, move it away first")
NOT_SOUND = (b"the chart in it is not sound (refused 14); if an older version left it open, close it with that "
             b"version, else take the last good copy; to build anew, move it away first")


def may_change(line):
    """Whether the line has a command that can change a chart."""
    return commands.command_of(line) in CHANGING


def wrong(told):
    """An error about the file: it stays as it is."""
    return None, told, commands.ERROR, True


def on_file(held, line):
    """One command on the bytes of a file, or on None if there is no such file.

    Gives the new bytes (None if the file stays as it is, or missing), the text without its line feed, the exit
    status, and whether the text is an error about the file. The line is taken as it is: marks and carriage returns
    are passed over on standard input only.
    """
    command = commands.command_of(line)
    if command is None:
        return wrong(NO_COMMAND)
    if held is None and command != b"build":
        return wrong(NO_FILE)
    try:
        before = model.ZEROS if held is None else model.read(held)
    except model.Refused as refused:
        return wrong(NO_FORM if refused.number == 13 else NOT_SOUND)
    after, answer, status = commands.step(before, line)
    return None if after == before else model.stored_form(after), answer, status, False


# Cases: pairs of a file's bytes, or None, and a line

A = (9900,) * 7 + (10100,) * 7 + (10000,)
K = (900,) * 7 + (1100,) * 7 + (1000,)
N = (-1100,) * 7 + (-900,) * 7 + (-1000,)
NARROW = (296,) * 7 + (304,) * 7 + (300,)
WIDE = (200,) * 7 + (400,) * 7 + (300,)
TEN = (0,) * 10 + (1, 12, 144, 1728, 20000)
HIGH = (1000,) * 14 + (2000,)
HIGH_15 = (1000,) * 15 + (2000,)
BASES = ((1, K), (2, A), (3, N))
ABOVE = tuple(range(10010, 10071, 10))

FRESH = Chart(2, A, (), 0, 0)
OUT = Chart(2, A, (10301,), 1, 1)
FREE = Chart(2, A, (10020, 10250), 0, 0)
FULL = Chart(2, A, (9990, 10010) * 183, 0, 0)
LONGEST = Chart(2, (-20000,) * 32, (-20000,) * 366, 0, 0)

# Charts that are not sound; the reason is at the end of each line.
UNSOUND = (
    Chart(0, A, (), 0, 0), Chart(4, A, (), 0, 0), Chart(258, A, (), 0, 0),              # chart kind
    Chart(2, A, (), 3, 0), Chart(2, A, (10301,), 3, 1), Chart(2, A, (10301,), 257, 1),  # status
    Chart(2, A, (), 0, 1), Chart(2, A, (10301,), 1, 0), Chart(2, A, (10301,), 1, 2),    # verdict
    Chart(2, A, (10301,), 0, 0), Chart(2, A, (10301, 10000), 0, 0),                     # a series word beyond a limit
    Chart(2, A, (), 1, 1), Chart(1, K, (1050,) * 7, 2, 4),                              # no such open verdict
    Chart(2, A[:14] + (20001,), (), 0, 0), Chart(1, K, (-1,), 0, 0),                    # a word out of range
    Chart(2, (1000,) * 14 + (2000,), (), 0, 0),                                         # a base word beyond a limit
    Chart(2, A, ABOVE, 1, 3), Chart(2, A, ABOVE, 2, 3))                                 # 4 applies (document 02, Q-1)


def text(command, *fields):
    """The line of a command."""
    return " ".join(map(str, (command, *fields))).encode("ascii")


def reading(command, kind, word):
    """The line of a post or a reanalysis with a word."""
    return text(command, kind, *exact(kind, word))


def reads(chart):
    """The line that reads a chart, sound or not."""
    return text("read", model.stored_form(chart).hex())


# A good line of every command, and lines with each fault.
BUILD_A = text("build", 2, *A)
EVERY = (b"word 1 65 63 0", BUILD_A, reading("post", 2, 10000), reading("reanalyse", 2, 10000), b"correct", b"renew",
         b"lines", b"write", reads(OUT), b"show")
FAULTY = (b"x", b"help", b"Show", b"post2", b"show\x0b", b"\xc3\xa9", b"post 2 \xff 1 0", b"word", b"post 2",
          b"reanalyse 2 5 5", b"build", b"post 2 x", b"post 2 1e3 1000 0", b"build 2 1 +1", b"reanalyse 2 5 - 5",
          b"word 1 9223372036854775808 2 0", b"post 2 5 -9223372036854775809 0", b"correct x", b"show #", b"lines 1",
          b"renew 1", b"write 1", b"word 1 1 2 0 0", b"read 00 00", b"read 0g", b"read zz zz", b"read 000")


def without_command():
    """Lines with no command: this error comes first, whatever the file is."""
    for held in (None, b"", model.stored_form(FREE), model.stored_form(UNSOUND[0])):
        for line in (b"", b" ", b"\t \t", b"#", b"# show", b" \t#build 2"):
            yield held, line


def missing():
    """No such file: build makes it, and nothing else does."""
    for line in EVERY + FAULTY[:6] + (b"Build 2 1", b"builds", b"post 2 x", b"read"):
        yield None, line
    for kind, base in BASES + ((1, TEN), (1, HIGH), (3, HIGH), (2, (-20000,) * 16 + (20000,) * 16)):
        yield None, text("build", kind, *base)
    # document 02, Q-4: the build makes a file if 15 words stand.
    for kind, base in ((1, HIGH_15), (3, HIGH_15), (2, (0,) * 15 + TEN[10:]), (3, HIGH[:14] + (20001,))):
        yield None, text("build", kind, *base)
    for kind, base in ((0, A), (4, A), (65538, A), (4, A[:14]), (2, A[:14]), (2, A * 3), (1, (-1,) * 14),
                       (1, (-1,) * 15), (2, A[:14] + (20001,)), (3, (10 ** 30,) * 15)):
        yield None, text("build", kind, *base)
    yield None, b" \t" + BUILD_A.replace(b" ", b"\t ") + b" "
    yield None, BUILD_A + b" x"


def files_damaged():
    """Bytes that are no stored form."""
    form, longest = model.stored_form(OUT), model.stored_form(LONGEST)
    yield from (form[:size] for size in range(len(form)))
    yield from (form[:place] + form[place + 1:] for place in range(len(form)))
    yield from (form[:place] + b"\0" + form[place:] for place in range(0, len(form) + 1, 5))
    # An even number of bytes more or fewer, and other lengths.
    yield from (form + b"\0\0", form[:-2] + form[-4:], form[2:], form + form, b"\0\0" + form, b"\x0a" + form[1:])
    yield from (longest[:-2], longest + b"\0", longest + b"\0\0", longest + bytes(100000), bytes(814), bytes(70000))
    # Other files: the form as text, a form after a mark, a form with a line feed after it.
    yield from (form.hex().encode(), form.hex().upper().encode() + b"\n", form.hex(" ").encode(), commands.MARK + form)
    yield from (form + b"\n", form + b"\r\n", commands.shown(OUT).encode() + b"\n", BUILD_A + b"\n", b"\n")


def damaged():
    """Files that are no stored form: one command on each, another one on the next; and every command on some."""
    lines = EVERY + (b"x", b"post 2 x", b"read")
    for count, held in enumerate(files_damaged()):
        yield held, lines[count % len(lines)]
    form = model.stored_form(OUT)
    for held in (b"", form[:-1], form.hex().encode()):
        for line in EVERY + FAULTY[:1]:
            yield held, line


def unsound():
    """Stored forms of charts that are not sound."""
    lines = EVERY + (b"x", b"post 2 x", b"read")
    for count, chart in enumerate(UNSOUND):
        for line in (lines[count % len(lines)], lines[(count + 5) % len(lines)]):
            yield model.stored_form(chart), line
    for line in lines:
        yield model.stored_form(UNSOUND[3]), line


def opened(kind, base):
    """For each verdict 1 to 4 that the kind has, and a trend on one side: the chart before the last post, its word."""
    mean = base[-1]
    for words in ((mean + 301,), (mean + 250, mean + 210), range(mean - 50, mean + 11, 10), (mean - 150,) * 7,
                  range(mean + 10, mean + 71, 10)):
        before = Chart(kind, base, tuple(words[:-1]), 0, 0)
        if model.judge(kind, base, tuple(words)) != 0:
            yield before, words[-1]


def verdicts():
    """Posts with each verdict, and the calls after it on the open chart."""
    for kind, base in BASES:
        fresh = Chart(kind, base, (), 0, 0)
        for word in (base[-1], base[-1] + 300):
            yield model.stored_form(fresh), reading("post", kind, word)
        for before, word in opened(kind, base):
            line = reading("post", kind, word)
            yield model.stored_form(before), line
            after = commands.step(before, line)[0]
            yield model.stored_form(after), line
            yield from open_chart(after)


def open_chart(chart):
    """A chart with an open verdict, with either status: reanalyses that fail and pass, and the other calls."""
    for status in (1, 2):
        held = model.stored_form(chart._replace(status=status))
        yield held, b"correct"
        yield held, b"renew"
        failing, passing = choices.flips(chart)[0]
        yield held, reading("reanalyse", chart.kind, failing)
        yield held, reading("reanalyse", chart.kind, passing)


def refused_readings():
    """Refusals 4, 5, 6, 7 of a post and of a reanalysis, and 1, 5, 6, 7 of a word."""
    for chart, command in ((FREE, "post"), (OUT, "reanalyse"), (FREE, "word")):
        for fields in ((3, 1, 1, 1), (0, 1, 1, 1), (65538, 1, 1, 1), (2, 1000000001, 1, 0), (2, -1, 0, 0), (2, 1, 0, 0),
                       (2, 20001, 10000, 0), (3, 300, 0, 100)):
            yield model.stored_form(chart), text(command, *fields)


def each_command():
    """Every command on charts of each status and size, and faulty lines."""
    small = Chart(1, (0,) * 10, (), 0, 0)
    for chart in (FRESH, FREE, OUT, OUT._replace(status=2), FULL, LONGEST, small):
        for line in EVERY:
            yield model.stored_form(chart), line
    for line in FAULTY:
        yield model.stored_form(FREE), line
    for line in (reads(FREE), text("read", model.stored_form(FREE).hex().upper()), reads(UNSOUND[0]),
                 reads(FREE) + b"00", b"read", b"read 00", text("build", 4, *A), text("build", 2, *A[:14]),
                 text("build", 1, *N), text("build", 1, *HIGH), b"\tshow ", b"  post\t2  10000 \t10000 0"):
        yield model.stored_form(FREE), line
    # Renewal with 14 words and with 15, and on a full series; the 366th post.
    for chart in (small._replace(series=(0,) * 4), small._replace(series=(0,) * 5), Chart(1, K, (0,) * 7, 0, 0)):
        yield model.stored_form(chart), b"renew"
    for word in (10000, 10301):
        yield model.stored_form(FULL._replace(series=FULL.series[:-1])), reading("post", 2, word)
    full_open = FULL._replace(series=FULL.series[:-1] + (10301,), status=1, verdict=1)
    for line in (reading("post", 2, 10000), reading("reanalyse", 2, 10300), reading("reanalyse", 2, 9699), b"renew"):
        yield model.stored_form(full_open), line


def fifteen():
    """document 02, Q-4: files with a base of 10 to 14 words, and builds and renewals that are refused with 16."""
    for size, kind, centre in ((10, 1, 1000), (11, 2, 10000), (12, 3, -1000), (13, 1, 0), (14, 2, 10000)):
        chart = Chart(kind, (centre,) * size, (), 0, 0)
        opened = chart._replace(series=(centre + 1,), status=1, verdict=1)
        for line in (b"show", b"lines", b"write", reading("post", kind, centre), reading("post", kind, centre + 1),
                     b"renew"):
            yield model.stored_form(chart), line
        for line in (reading("reanalyse", kind, centre + 1), reading("reanalyse", kind, centre), b"renew"):
            yield model.stored_form(opened), line
        # 14 words in all, and 15.
        for posts in (14 - size, 15 - size):
            yield model.stored_form(chart._replace(series=(centre,) * posts)), b"renew"
    # No tail will do: the file stays. One post more, and the renewal is written.
    small = Chart(1, (1,) + (0,) * 9, (0,) * 5, 0, 0)
    far = Chart(1, (100, 70) + (0,) * 13, (0,), 0, 0)
    for chart in (small, far):
        for line in (b"renew", reading("post", 1, 0)):
            yield model.stored_form(chart), line
        yield model.stored_form(chart._replace(series=chart.series + (0,))), b"renew"
    # The tail used has 16 words (READINGS-02 11); a refused build on a chart that stays.
    three = Chart(1, (15, 0, 0, 0, 6, 15, 0, 0, 0, 4) + (0,) * 5, (0, 0, 0), 0, 0)
    yield model.stored_form(three), b"renew"
    for line in (text("build", 1, *HIGH_15), text("build", 2, *HIGH), text("build", 3, *HIGH[1:])):
        yield model.stored_form(far), line


def halves():
    """document 02, Q-3: files with 313 and -313, as 312.5 and -312.5 went before; these halves again; 20000.5."""
    negative = tuple(-word for word in NARROW)
    for chart, line in ((Chart(1, WIDE, (313,), 0, 0), b"show"), (Chart(1, WIDE, (313,), 0, 0), b"post 1 65 63 0"),
                        (Chart(1, NARROW, (313,), 1, 1), b"reanalyse 1 65 63 0"),
                        (Chart(3, negative, (-313,), 1, 1), b"reanalyse 3 0 1 32"),
                        (FREE, b"post 2 200005 100000 0"), (OUT, b"reanalyse 2 200006 100000 0")):
        yield model.stored_form(chart), line


def as_given():
    """A mark or a carriage return in the arguments belongs to the line."""
    for held in (None, model.stored_form(FREE)):
        for line in (commands.MARK + BUILD_A, BUILD_A + b"\r", b"show\r", commands.MARK, b"\r"):
            yield held, line


def random_file(rng):
    """A random sound chart as a file, some with one byte changed, and a line that its kind can take."""
    kind = rng.choice(choices.KINDS)
    # document 02, Q-4: a base of 10 to 14 words is no longer built, but a file may hold it.
    chart = Chart(kind, choices.standing(kind, choices.random_base(rng, kind))[0], (), 0, 0)
    for word in choices.plan(rng, chart, rng.choice((0, 1, 2, 3, 4))) or ():
        chart = commands.step(chart, reading("post", kind, word))[0]
    held = bytearray(model.stored_form(chart))
    if rng.random() < 0.4:
        held[rng.randrange(len(held))] ^= 1 << rng.randrange(8)
    command = {0: "post", 1: "reanalyse", 2: "correct"}[chart.status]
    word = rng.choice(choices.candidates(chart))
    line = b"correct" if command == "correct" else text(command, kind, *choices.rounded(rng, kind, word))
    return bytes(held), rng.choice((line, line, line, b"renew", b"lines", b"show"))


def cases():
    """All cases, each once: a list of pairs (held, line)."""
    rng = random.Random(20240106)
    found = [*without_command(), *missing(), *damaged(), *unsound(), *verdicts(), *refused_readings(),
             *each_command(), *fifteen(), *halves(), *as_given()]
    found += [random_file(rng) for _ in range(30)]
    return list(dict.fromkeys(found))


def outcome(held, line):
    """The outcome of a case, in short."""
    _, answer, status, is_error = on_file(held, line)
    if is_error:
        return "%s: %s" % ("a missing file" if held is None else "a file", answer.split(b";")[0].decode())
    told = answer.decode().split(";")[0]
    if status not in (commands.REFUSED, commands.ERROR):
        told = " ".join(told.split()[2:4]) if told.startswith("word") else told.split()[0]
    return "%s: %s" % (commands.command_of(line).decode("latin-1"), told or "word")


def main():
    met = Counter(outcome(held, line) for held, line in cases())
    choices.print_table(met)
    print("cases %d" % sum(met.values()))


if __name__ == "__main__":
    main()
