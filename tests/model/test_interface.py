"""Figures of documents 01 and 02, of their readings and of include/control_chart.h, on the calls beyond the commands.

python3 test_interface.py
"""

import os
import re

import expected
import interface
import make_calls
import make_cases
import model
from interface import LentChart, against_lines, built, chart_of, on_value, run_list, start_or_zeros
from interface import value_of, write_into
from model import Chart

A = (9900,) * 7 + (10100,) * 7 + (10000,)
C = (10000,) * 7 + (10001,) * 8
J = (296,) * 7 + (304,) * 7 + (300,)
K = (900,) * 7 + (1100,) * 7 + (1000,)
HIGH = (1000,) * 14 + (2000,)
Y = (200,) * 7 + (400,) * 7 + (300,)

# The stored form of a fresh A, by hand: ac 26 is 9900, 74 27 is 10100, 10 27 is 10000.
A_FORM = bytes.fromhex("0800 0100 0200 0000 0000 2000 0200" + "ac26" * 7 + "7427" * 7 + "1027" + "0200 0300")

# The texts, by hand from their description: of the answers 0 to 16, of the verdicts 0 to 4, and of other numbers.
ANSWERS = """\
done
the kind is not 1, 2 or 3
there are not 15 to 32 words
a word given for the base is out of range
the reading is of another kind than the chart
a reading is not in 0..1000000000
the divisor is 0
the word is out of range
a reanalysis or a correction is due
the series is full: it has 366 words
no reanalysis is due
no correction is due
base and series together have fewer than 15 words
the bytes are not a stored form
there is no chart, or it is not sound
the buffer is too short
fewer than 15 words stand after rejection
""".splitlines()
VERDICTS = """\
none
beyond a control limit
two in a row beyond the warning limit on one side
seven in a row rising or falling
seven in a row on one side of the mean
""".splitlines()
OTHER_NUMBER, OTHER_VERDICT = "no such number", "no such verdict"

PASSED = 0


def same(found, wanted):
    """One check."""
    global PASSED
    assert found == wanted, (found, wanted)
    PASSED += 1


def refusal(function, *given):
    """The number with which a call is refused, or 0."""
    try:
        function(*given)
    except model.Refused as refused:
        return refused.number
    return 0


def is_no_input(function, *given):
    """Whether the function rejects what is given as no input at all."""
    try:
        function(*given)
    except ValueError:
        return True
    return False


def test_charts_handed_in():
    """Stored form: soundness with unused places; readings 20, 23, 24."""
    value = value_of(Chart(2, A, (10301,), 1, 1))
    same((value.base, value.base_len), (A + (0,) * 17, 15))
    same((value.series, value.series_len), ((10301,) + (0,) * 365, 1))
    same(chart_of(value), Chart(2, A, (10301,), 1, 1))
    # The base has 10 to 32 words, the series up to 366; all words are the same, so that nothing else is wrong.
    flat = value_of(Chart(2, (5,) * 10, (), 0, 0))
    for count, wanted in ((9, 14), (10, 0), (32, 0)):
        places = (5,) * count + (0,) * (32 - count)
        same(refusal(chart_of, flat._replace(base=places, base_len=count)), wanted)
    same(refusal(chart_of, flat._replace(base=(5,) * 32, base_len=33)), 14)
    same(refusal(chart_of, flat._replace(base_len=0)), 14)
    same(refusal(chart_of, flat._replace(series=(5,) * 366, series_len=366)), 0)
    same(refusal(chart_of, flat._replace(series=(5,) * 366, series_len=367)), 14)
    same(refusal(chart_of, flat._replace(series=(5,) * 366, series_len=365)), 14)
    same(refusal(chart_of, flat._replace(base=(5,) * 10 + (1,) + (0,) * 21)), 14)
    same(refusal(chart_of, flat._replace(base=(5,) * 10 + (0,) * 21 + (-1,))), 14)
    same(refusal(chart_of, flat._replace(series=(0,) * 365 + (5,))), 14)
    # A used place may hold 0.
    same(refusal(chart_of, value_of(Chart(3, (0,) * 10, (0, 0), 0, 0))), 0)
    same(refusal(chart_of, flat._replace(kind=0)), 14)
    same(refusal(chart_of, flat._replace(status=3)), 14)


def test_calls_on_values():
    """Numbers for what is declined: 14 first, and what a call gives back."""
    fresh = value_of(built(2, A))
    value, word, verdict = on_value(fresh, model.post, 2, 10301, 10000, 0)
    same((word, verdict, value.status, value.verdict), (10301, 1, 1, 1))
    same((value.series[:2], value.series_len), ((10301, 0), 1))
    value, word, passed = on_value(value, model.reanalyse, 2, 10301, 10000, 0)
    same((word, passed, value.status, value.verdict), (10301, False, 2, 1))
    same(on_value(value, model.correct), (value._replace(status=1),))
    posted = on_value(fresh, model.post, 2, 10000, 10000, 0)[0]
    renewed, rounds, removed = on_value(posted, model.renew)
    same((rounds, removed), (1, 0))
    same((renewed.base, renewed.base_len), (A[1:] + (10000,) + (0,) * 17, 15))
    same((renewed.series, renewed.series_len), ((0,) * 366, 0))
    bad = fresh._replace(status=9)
    same(refusal(on_value, bad, model.post, 4, -1, 0, 0), 14)
    same(refusal(on_value, bad, model.reanalyse, 4, -1, 0, 0), 14)
    same(refusal(on_value, bad, model.correct), 14)
    same(refusal(on_value, bad, model.renew), 14)
    same(refusal(on_value, fresh, model.post, 4, -1, 0, 0), 4)
    same(refusal(on_value, fresh, model.correct), 11)


def test_refused_starts():
    """Numbers for what is declined: a refused build or read gives a chart of zeros; reading 24."""
    unsound = model.stored_form(Chart(2, A, (), 3, 0))
    same(refusal(model.read, unsound), 14)
    for start, given in ((built, (4, A)), (built, (2, A[:14])), (built, (1, HIGH)), (model.read, (b"",)),
                         (model.read, (unsound,))):
        value = value_of(start_or_zeros(start, *given))
        same(value, (0, (0,) * 32, 0, (0,) * 366, 0, 0, 0))
        same(refusal(chart_of, value), 14)
    same(start_or_zeros(model.read, A_FORM), Chart(2, A, (), 0, 0))


def test_writing():
    """Stored form: lent bytes; reading 25."""
    fresh = value_of(built(2, A))
    for count, wanted in ((48, A_FORM), (50, A_FORM + b"\xaa\xaa")):
        lent = bytearray(b"\xaa" * count)
        same(write_into(fresh, lent), 48)
        same(lent, wanted)
    unsound = fresh._replace(kind=4)
    for value, count, wanted in ((fresh, 47, 15), (fresh, 9, 15), (fresh, 0, 15), (unsound, 9, 14), (unsound, 50, 14)):
        lent = bytearray(b"\xaa" * count)
        same(refusal(write_into, value, lent), wanted)
        same(lent, b"\xaa" * count)
    longest = value_of(Chart(3, (-1,) * 32, (-1,) * 366, 0, 0))
    same(write_into(longest, bytearray(814)), 814)
    same(refusal(write_into, longest, bytearray(813)), 15)


def test_against_lines():
    """Lines for the plotter: doubles, and a word against them; readings 8, 9, 27, 28."""
    # C has the limits 9998.98.., 9999.50.., 10001.56.. and 10002.08..
    chart = built(2, C)
    same([k / 256 for k in model.lines(chart)], [10000.53125, 9999.50390625, 10001.5625, 9998.984375, 10002.08203125])
    for word, wanted in ((9998, (1, 0, 1, 0)), (9999, (1, 0, 0, 0)), (10000, (0, 0, 0, 0)), (10001, (0, 0, 0, 0)),
                         (10002, (0, 1, 0, 0)), (10003, (0, 1, 0, 1)), (32767, (0, 1, 0, 1)), (-32768, (1, 0, 1, 0))):
        same(against_lines(chart, word), wanted)
    # A has the limits 9700, 9800, 10200, 10300; a word on a limit is not beyond it.
    for word, wanted in ((9699, (1, 0, 1, 0)), (9700, (1, 0, 0, 0)), (9800, (0, 0, 0, 0)), (10200, (0, 0, 0, 0)),
                         (10201, (0, 1, 0, 0)), (10300, (0, 1, 0, 0)), (10301, (0, 1, 0, 1))):
        same(against_lines(built(2, A), word), wanted)
    for word, wanted in ((-32768, (0, 0, 0, 0)), (699, (0, 0, 0, 0)), (1200, (0, 0, 0, 0)), (1201, (0, 1, 0, 0)),
                         (1300, (0, 1, 0, 0)), (1301, (0, 1, 0, 1))):
        same(against_lines(built(1, K), word), wanted)
    same(refusal(against_lines, model.ZEROS, 0), 14)
    same(refusal(against_lines, built(1, K)._replace(status=3), 0), 14)
    # The lines judge every word as the exact limits do.
    for _, chart, _ in make_cases.AGAINST_LINES:
        of_base = model.figures(chart.base)
        ks = model.lines(chart)[1:]
        words = {k // 256 + off for k in ks for off in (-1, 0, 1, 2)} | {-32768, -20000, 0, 20000, 32767}
        for word in sorted(word for word in words if -32768 <= word <= 32767):
            exact = [model.beyond_side(chart.kind, of_base, times, word) == way for times in (2, 3) for way in (-1, 1)]
            same(list(against_lines(chart, word)), exact)


def test_lists():
    """Lists: answers, what is declined and its order; reading 31."""
    sevens = (7,) * 9
    three = (1, 2, 10250, 10000, 0, 1, 2, 10301, 10000, 0, 2, 2, 10250, 10000, 0)
    same(run_list(built, (2, A), three, sevens),
         ("done", (1, 10250, 0, 1, 10301, 1, 2, 10250, 1), Chart(2, A, (10250, 10250), 0, 0)))
    same(run_list(model.read, (A_FORM,), three[:5], sevens),
         ("done", (1, 10250, 0) + (7,) * 6, Chart(2, A, (10250,), 0, 0)))
    same(run_list(built, (2, A), (), ()), ("done", (), Chart(2, A, (), 0, 0)))
    # A refused call carries its number, and the next call goes on from the same chart.
    same(run_list(built, (2, A), (3, 2, 5, 5, 5, 1, 2, 0, 0, 0, 4, 0, 0, 0, 0), sevens),
         ("done", (0, 11, 0, 0, 6, 0, 4, 1, 0), Chart(2, A, (), 0, 0)))
    same(run_list(built, (2, A), (1, 2, 10301, 10000, 0, 2, 2, 9699, 10000, 0, 3, 9, 9, 9, 9), sevens),
         ("done", (1, 10301, 1, 2, 9699, 0, 3, 0, 0), Chart(2, A, (10301,), 1, 1)))
    # Kinds are not cut to sixteen bits.
    for kind in (-1, 0, 3, 258, 65538, 4294967298, -65534):
        same(run_list(built, (2, A), (1, kind, 10000, 10000, 0), sevens)[1][:3], (0, 4, 0))
    same(run_list(built, (2, A), (1, 2, 4294977296, 10000, 0), sevens)[1][:3], (0, 5, 0))
    fourteen = (10000,) * 14
    unsound = model.stored_form(Chart(2, A, (), 3, 0))
    for start, given, numbers, room, wanted in (
            (built, (2, A), (3, 0, 0, 0), 9, "no list"),
            (built, (2, A), (0, 0, 0, 0, 0), 9, "no list"),
            (built, (2, A), (5, 0, 0, 0, 0), 9, "no list"),
            (built, (2, A), (65537, 2, 1, 1, 0), 9, "no list"),
            (built, (2, A), (3,) * 16, 2, "no list"),
            (built, (2, fourteen), (3,) * 6, 9, "no list"),
            (built, (2, A), (3,) * 15, 8, "no room"),
            (built, (2, fourteen), (3,) * 5, 2, "no room"),
            (built, (2, fourteen), (3,) * 5, 3, "start refused 2"),
            (built, (4, fourteen), (3,) * 5, 3, "start refused 1"),
            (built, (1, (-1,) * 15), (), 0, "start refused 3"),
            (built, (1, HIGH[:14] + (20001,)), (), 0, "start refused 3"),
            (built, (1, HIGH), (), 0, "start refused 16"),
            (built, (1, HIGH), (3,) * 5, 2, "no room"),
            (built, (1, HIGH), (3,) * 6, 9, "no list"),
            (model.read, (b"",), (3,) * 5, 3, "start refused 13"),
            (model.read, (unsound,), (3,) * 5, 3, "start refused 14")):
        same(run_list(start, given, numbers, (7,) * room), (wanted, (7,) * room, model.ZEROS))


def test_one_side_before_trend():
    """Document 02, Q-1: on chart values, in lists and on lent bytes; readings 2 and 4 of document 02."""
    above = tuple(range(10010, 10071, 10))
    across = tuple(range(9950, 10011, 10))
    for series, status, verdict, wanted in (
            (above, 1, 3, 14), (above, 2, 3, 14), (above, 1, 4, 0), (above, 2, 4, 0), (above, 0, 0, 0),
            (across, 1, 3, 0), (across, 2, 3, 0), (across, 1, 4, 14), (across, 2, 4, 14)):
        chart = Chart(2, A, series, status, verdict)
        same(refusal(chart_of, value_of(chart)), wanted)
        same(refusal(write_into, value_of(chart), bytearray(62)), wanted)
        same(refusal(LentChart(model.stored_form(chart), 62).check), wanted)
        same(run_list(model.read, (model.stored_form(chart),), (), ())[0], "start refused 14" if wanted else "done")
    # Seven posts, a reanalysis that is refused, a correction, a reanalysis that passes, and a post.
    numbers = [number for word in above for number in (1, 2, word, 10000, 0)]
    numbers += [2, 2, 10059, 10000, 0, 3, 0, 0, 0, 0, 2, 2, 10070, 10000, 0, 1, 2, 10080, 10000, 0]
    answers = [number for word in above[:6] for number in (1, word, 0)]
    answers += [1, 10070, 4, 0, 10, 0, 3, 0, 0, 2, 10070, 1, 1, 10080, 4]
    same(run_list(built, (2, A), numbers, (7,) * 33),
         ("done", tuple(answers), Chart(2, A, above + (10080,), 2, 4)))
    # The lines of the calls: the run of the course and what follows it, and the forms that are not sound.
    made = make_calls.files()[make_calls.PATH].decode("ascii")
    base = "7*9900 7*10100 10000"
    for lines in (
            "10050 10060\npost 2 10070 10000 0 = 0 10070 4\nreanalyse 2 10059 10000 0 = 10\n"
            "post 2 10000 10000 0 = 8\nrenew = 8\ncorrect = 0\nreanalyse 2 10100 10000 0 = 0 10100 0\n"
            "reanalyse 2 10099 10000 0 = 10\ncorrect = 0\nreanalyse 2 10099 10000 0 = 0 10099 1\n",
            "post 2 10170 10000 0 = 0 10170 4\ncorrect = 0\nreanalyse 2 10159 10000 0 = 0 10159 0\ncorrect = 0\n",
            "chart 2 1 3 / %s / %s\nall = 14\n" % (base, " ".join(map(str, above))),
            "chart 2 2 3 / %s / %s\nall = 14\n" % (base, " ".join(map(str, above))),
            "chart 2 1 4 / %s / %s\ncheck = 0\n" % (base, " ".join(map(str, above))),
            "chart 2 2 4 / %s / %s\ncheck = 0\n" % (base, " ".join(map(str, above))),
            "chart 2 1 3 / %s / %s\ncheck = 0\n" % (base, " ".join(map(str, across))),
            "10130 10140 10150\npost 2 10160 10000 0 = 0 10160 3\nreanalyse 2 10150 10000 0 = 0 10150 0\n"
            "correct = 0\nreanalyse 2 10149 10000 0 = 0 10149 1\n"):
        same((lines, made.count(lines)), (lines, 1))


def test_halves_to_even():
    """Document 02, Q-3: on words, chart values, lists and lent bytes; readings 5 to 7 of document 02."""
    for given, wanted in (((1, 65, 63, 0), 312), ((3, 0, 1, 32), -312), ((3, 200005, 0, 100000), 20000),
                          ((3, 0, 200005, 100000), -20000), ((2, 1, 20000, 0), 0), ((3, 0, 1, 20000), 0),
                          ((3, 0, 3, 20000), -2), ((2, 627, 20000, 0), 314), ((2, 625, 20000, 0), 312)):
        same((given, interface.word(*given)), (given, wanted))
    for given in ((3, 200006, 0, 100000), (3, 0, 200006, 100000), (2, 200006, 100000, 0)):
        same((given, refusal(interface.word, *given)), (given, 7))
    # A chart value keeps 313, the word of 65 and 63 before. A new post of them adds 312.
    value = value_of(Chart(1, Y, (313,), 0, 0))
    same(chart_of(value), Chart(1, Y, (313,), 0, 0))
    posted, word, verdict = on_value(value, model.post, 1, 65, 63, 0)
    same((word, verdict, posted.series[:3], posted.series_len), (312, 0, (313, 312, 0), 2))
    same((posted.base, posted.base_len), (value.base, 15))
    renewed = on_value(posted, model.renew)[0]
    same((renewed.base[:15], renewed.series_len), (Y[2:] + (313, 312), 0))
    # 312 is on the limit of J. The value that is open under 1 by 313 is sound; the same value with status 0 is not.
    opened = value_of(Chart(1, J, (313,), 1, 1))
    same(on_value(opened, model.reanalyse, 1, 65, 63, 0), (value_of(Chart(1, J, (312,), 0, 0)), 312, True))
    same(refusal(chart_of, opened._replace(status=0, verdict=0)), 14)
    # Lists: a post, a post that is beyond by the next quotient, and the reanalysis with the half.
    numbers = (1, 1, 65, 63, 0, 1, 1, 650000001, 630000000, 0, 2, 1, 65, 63, 0)
    same(run_list(built, (1, J), numbers, (7,) * 9),
         ("done", (1, 312, 0, 1, 313, 1, 2, 312, 1), Chart(1, J, (312, 312), 0, 0)))
    same(run_list(model.read, (model.stored_form(Chart(1, J, (313,), 1, 1)),), numbers[10:], (7,) * 3),
         ("done", (2, 312, 1), Chart(1, J, (312,), 0, 0)))
    same(run_list(built, (2, A), (1, 2, 200006, 100000, 0, 1, 2, 200005, 100000, 0), (7,) * 6),
         ("done", (0, 7, 0, 1, 20000, 1), Chart(2, A, (20000,), 1, 1)))
    # Lent bytes: 39 01 is 313 and stays, 38 01 is 312 and is added.
    form = bytes.fromhex("0800 0100 0100 0000 0000 2000 0200" + "c800" * 7 + "9001" * 7 + "2c01" + "0400 0300 3901")
    lent = lent_chart(form)
    same(lent.check(), ())
    same(lent.form(), form)
    same(lent.post(1, 65, 63, 0), (312, 0))
    same(lent.form(), form[:44] + bytes.fromhex("0600 0300 3901 3801"))
    same(lent.lines(3), (76800, 128000, 153600))
    same(lent_chart(model.stored_form(Chart(3, (-1,) * 7 + (0,) * 8, (), 0, 0))).lines(5)[0], -120)
    # The lines of the calls.
    made = make_calls.files()[make_calls.PATH].decode("ascii")
    for line in ("word 1 65 63 0 = 0 312", "word 3 0 1 32 = 0 -312", "word 3 0 1 20000 = 0 0",
                 "word 3 0 3 20000 = 0 -2", "word 2 1 20000 0 = 0 0", "word 2 627 20000 0 = 0 314",
                 "word 2 625 20000 0 = 0 312", "word 3 200004 0 100000 = 0 20000", "word 3 200005 0 100000 = 0 20000",
                 "word 3 0 200005 100000 = 0 -20000", "word 3 200006 0 100000 = 7", "word 3 0 200006 100000 = 7",
                 "word 2 200005 100000 0 = 0 20000", "word 2 200006 100000 0 = 7", "post 2 200005 100000 0 = 0 20000 1",
                 "post 2 200006 100000 0 = 7", "reanalyse 2 200006 100000 0 = 7"):
        same((line, made.split("\n").count(line)), (line, 1))
    base, wide = "7*296 7*304 300", "7*200 7*400 300"
    for lines in (
            "chart 1 0 0 / %s /\npost 1 65 63 0 = 0 312 0\npost 1 650000001 630000000 0 = 0 313 1\n" % base,
            "chart 1 1 1 / %s / 313\ncheck = 0\npost 1 65 63 0 = 8\nreanalyse 1 65 63 0 = 0 312 1\n" % base,
            "chart 1 0 0 / %s / 313\nall = 14\n" % base,
            "chart 1 0 0 / %s / 313\ncheck = 0\npost 1 65 63 0 = 0 312 0\nform " % wide,
            "renew = 0 1 0 / 5*200 7*400 300 313 312\n",
            "chart 3 0 0 / 15*-313 / -313\npost 3 0 1 32 = 0 -312 1\n"):
        same((lines, made.count(lines)), (lines, 1))


def test_fifteen_standing():
    """Document 02, Q-4: on chart values, in lists and on lent bytes; readings 10 to 14 of document 02."""
    # Chart values: what a renewal leaves in every place. The tail that is used has 16 words.
    base = (15, 0, 0, 0, 6, 15, 0, 0, 0, 4, 0, 0, 0, 0, 0)
    renewed, rounds, removed = on_value(value_of(Chart(1, base, (0, 0, 0), 0, 0)), model.renew)
    same((rounds, removed, renewed.base_len, renewed.series_len), (2, 1, 15, 0))
    same((renewed.base, renewed.series), ((0, 0, 6, 0, 0, 0, 4) + (0,) * 25, (0,) * 366))
    far = Chart(1, (100, 70) + (0,) * 13, (0,), 0, 0)
    same(refusal(on_value, value_of(far), model.renew), 16)
    same(refusal(on_value, value_of(far)._replace(status=9), model.renew), 14)
    # Values with a base of 10 to 14 words are sound.
    for size in range(10, 15):
        value = value_of(Chart(2, (1000,) * size, (), 0, 0))
        same(on_value(value, model.post, 2, 1001, 10000, 0)[1:], (1001, 1))
        same(refusal(on_value, value, model.renew), 12)
    # Lists: a renewal that is refused, a post, and a renewal that is accepted; then the course's post on a chart read.
    numbers = (4, 0, 0, 0, 0, 1, 1, 5, 5, 0, 4, 0, 0, 0, 0, 4, 0, 0, 0, 0)
    same(run_list(model.read, (model.stored_form(far),), numbers, (7,) * 12),
         ("done", (0, 16, 0, 1, 0, 0, 4, 1, 0, 4, 1, 0), Chart(1, (0,) * 15, (), 0, 0)))
    same(run_list(built, (1, far.base), (1, 1, 5, 5, 0) + numbers, (7,) * 15),
         ("done", (1, 0, 0, 0, 16, 0, 1, 0, 0, 4, 1, 0, 4, 1, 0), Chart(1, (0,) * 15, (), 0, 0)))
    fourteen = model.stored_form(Chart(1, HIGH[:14], (), 0, 0))
    same(run_list(model.read, (fourteen,), (4, 0, 0, 0, 0, 1, 1, 21001, 18999, 0, 4, 0, 0, 0, 0), (7,) * 9),
         ("done", (0, 12, 0, 1, 1001, 1, 0, 8, 0), Chart(1, HIGH[:14], (1001,), 1, 1)))
    # Lent bytes: a refused build and a refused renewal leave every byte and the size.
    lent = LentChart(b"\x77" * 60, 9)
    same(refusal(lent.build, 1, 60, HIGH), 16)
    same((lent.bytes, lent.size), (b"\x77" * 60, 9))
    same(lent.build(1, 48, (1000,) + HIGH), (2, 1))
    same((lent.bytes[10:44].hex(), lent.size), ("20000200" + "e803" * 15, 48))
    lent = lent_chart(model.stored_form(far), 50)
    before = bytes(lent.bytes)
    same(refusal(lent.renew), 16)
    same((lent.bytes, lent.size), (before, 50))
    # The form of a renewal is never longer than the form before it. So it needs no more room, and 15 does not occur.
    for kind, words, series, size in ((1, base, (0, 0, 0), 54), (1, (2, 2, 1) + (0,) * 14, (), 52),
                                      (3, (0, 20, -10) + (0,) * 7, (0,) * 7, 52)):
        form = model.stored_form(Chart(kind, words, series, 0, 0))
        lent = lent_chart(form, len(form), b"")
        same(len(form), size)
        lent.renew()
        same(lent.size <= size, True)
    # The lines of the calls.
    made = make_calls.files()[make_calls.PATH].decode("ascii")
    for lines in (
            "build 1 820 / 14*1000 2000 = 16\nbuild 1 820 / 15*1000 2000 = 0 2 1 / 15*1000\n",
            "build 1 820 / 16*1000 2000 = 0 2 1 / 16*1000\n",
            "build 1 0 / 14*-1 = 2\nbuild 1 0 / 15*-1 = 3\nbuild 1 0 / 14*-1 20000 = 3\nbuild 1 0 / 14*1000 2000 = 16\n"
            "build 1 0 / 15*1000 2000 = 15\n",
            "chart 1 0 0 / 15 3*0 6 15 3*0 4 5*0 / 3*0\ntold 54 54\nrenew = 0 2 1 / 0 0 6 3*0 4 8*0\n",
            "chart 1 0 0 / 20 6*0 150 0 0 / 100 5*0\nrenew = 0 1 0 / 6*0 150 0 0 100 5*0\n",
            "chart 3 0 0 / 6*0 -3 -30 0 0 / 0 0 -2 4*0\nrenew = 0 2 1 / 5*0 -3 4*0 -2 4*0\n",
            "chart 1 0 0 / 100 70 13*0 / 0\nrenew = 16\nform ",
            "post 1 5 5 0 = 0 0 0\nrenew = 0 1 0 / 15*0\n"
            "form 08000100010000000000 20000200 " + "0000" * 15 + " 02000300\n# 8 comes before 16, and 12 before 16.\n",
            "chart 1 1 1 / 100 70 13*0 / 120\nrenew = 8\nchart 1 2 1 / 100 70 13*0 / 120\nrenew = 8\n",
            "chart 1 0 0 / 1 9*0 / 4*0\nrenew = 12\npost 1 5 5 0 = 0 0 0\nrenew = 16\n",
            "chart 1 0 0 / 2 2 1 14*0 /\nrenew = 0 1 0 / 2 2 1 14*0\n",
            "chart 2 0 0 / 10000 10020 9990 7*10000 / 7*10000\nrenew = 0 3 2 / 15*10000\n"
            "chart 2 0 0 / 10000 10020 9990 7*10000 / 6*10000\nrenew = 16\n",
            "-10 7 -5 3 -2 1 14*0\nrenew = 0 18 17 / 15*0\n", "-10 7 -5 3 -2 1 14*0\nrenew = 16\n",
            "19 7 10 3 5 1 2 13*0\npost 1 5 5 0 = 0 0 0\npost 1 5 5 0 = 9\nrenew = 16\nrenew = 16\ncheck = 0\n",
            "refusal_text 16 64 = 0 fewer than 15 words stand after rejection\n"
            "refusal_text 17 64 = 0 no such number\n"):
        same((lines, made.count(lines)), (lines, 1))


def lent_chart(form, room=None, behind=b"\x77" * 6):
    """Lent bytes with a form at their front and some bytes after it."""
    lent = LentChart(form + behind, len(form))
    lent.tell(len(form), len(form + behind) if room is None else room)
    return lent


def test_order_for_c():
    """The header: 13, 14, the call's own numbers, 7 and 15 of the lines, 15 last."""
    open_form = model.stored_form(Chart(2, A, (10020, 10250, 10310), 1, 1))
    same(len(open_form), 54)
    unsound = model.stored_form(Chart(2, A, (10301,), 0, 1))
    on_a_chart = (("post", (4, -1, 0, 0)), ("reanalyse", (4, -1, 0, 0)), ("correct", ()), ("renew", ()),
                  ("lines", (0,)), ("against_lines", (70000, 0)), ("check", ()))
    for place, (name, given) in enumerate(on_a_chart):
        # A size above room is 13, though a form is there; lines, against_lines and check take no room.
        same(refusal(getattr(lent_chart(open_form, 53), name), *given), 13 if place < 4 else (15, 7, 0)[place - 4])
        lent = lent_chart(open_form)
        lent.tell(2 ** 64 - 1, 53)
        if place < 4:
            same(refusal(getattr(lent, name), *given), 13)
        else:
            same(is_no_input(getattr(lent, name), *given), True)
        same(refusal(getattr(lent_chart(b""), name), *given), 13)
        # 13 comes before 14: one byte more than the form of a chart that is not sound.
        lent = lent_chart(unsound, 51)
        same(refusal(getattr(lent, name), *given), 14)
        lent.tell(51, 51)
        same(refusal(getattr(lent, name), *given), 13)
        same((lent.bytes, lent.size), (unsound + b"\x77" * 6, 51))
    # The later refusals apply to each of these too.
    full = (10000,) * 365
    for series, status, verdict, given, wanted in (
            (full + (10301,), 1, 2, (4, -1, 0, 0), 14), (full + (10301,), 1, 1, (4, -1, 0, 0), 8),
            (full + (10000,), 0, 0, (4, -1, 0, 0), 9), ((), 0, 0, (4, -1, 0, 0), 4), ((), 0, 0, (2, -1, 0, 0), 5),
            ((), 0, 0, (2, 1, 0, 0), 6), ((), 0, 0, (2, 3, 1, 0), 7), ((), 0, 0, (2, 1, 1, 0), 15)):
        form = model.stored_form(Chart(2, A, series, status, verdict))
        lent = lent_chart(form, len(form))
        same(refusal(lent.post, *given), wanted)
        same((lent.bytes, lent.size), (form + b"\x77" * 6, len(form)))
    fresh = lent_chart(A_FORM)
    for given, wanted in (((32768, 0), 7), ((-32769, 4), 7), ((70000, 3), 7), ((32767, 3), 15), ((-32768, 0), 15),
                          ((32767, 4), 0)):
        same(refusal(fresh.against_lines, *given), wanted)
    for kind, base, least in ((1, K, 3), (2, A, 5), (3, A, 5)):
        lent = lent_chart(model.stored_form(Chart(kind, base, (), 0, 0)))
        same([refusal(lent.lines, room) for room in range(8)], [15] * least + [0] * (8 - least))
    # Document 02, Q-4: 16 comes after 3 and before 15. The word out of range would be removed too.
    for kind, words, wanted in ((4, (-1,) * 14, 1), (1, (-1,) * 14, 2), (1, (-1,) * 15, 3), (2, (-1,) * 15, 15),
                                (1, HIGH[:14] + (20001,), 3), (1, HIGH, 16), (1, (1000,) + HIGH, 15)):
        lent = LentChart(b"\x77" * 47, 5)
        same(refusal(lent.build, kind, 47, words), wanted)
        same((lent.bytes, lent.size), (b"\x77" * 47, 5))


def test_calls_for_c():
    """The header: what each function gives, and every lent byte."""
    same(interface.word(1, 1, 2, -5), 6667)
    for kind in (0, 4, 65537, 2 ** 32 - 1):
        same(refusal(interface.word, kind, 1, 2, 3), 1)
        same(refusal(LentChart(bytes(820), 0).build, kind, 820, A), 1)
        same(refusal(lent_chart(model.stored_form(Chart(1, K, (), 0, 0))).post, kind, 1, 2, 3), 4)
        same(refusal(lent_chart(model.stored_form(Chart(1, K, (1301,), 1, 1))).reanalyse, kind, 1, 2, 3), 4)
    lent = LentChart(b"\x77" * 60, 9)
    same(lent.build(2, 48, A), (1, 0))
    same((lent.bytes, lent.size), (A_FORM + b"\x77" * 12, 48))
    # A post makes the form two bytes longer: 3d 28 is 10301.
    lent.tell(48, 49)
    same(refusal(lent.post, 2, 10301, 10000, 0), 15)
    lent.tell(48, 50)
    same(lent.post(2, 10301, 10000, 0), (10301, 1))
    posted = bytes.fromhex("0800 0100 0200 0100 0100") + A_FORM[10:44] + bytes.fromhex("0400 0300 3d28")
    same((lent.bytes, lent.size), (posted + b"\x77" * 10, 50))
    same(lent.reanalyse(2, 10301, 10000, 0), (10301, 0))
    same(lent.bytes[4:10].hex(), "020002000100")
    same(lent.correct(), ())
    same(lent.bytes[4:10].hex(), "020001000100")
    # A reanalysis that passes takes the last word's place: 3c 28 is 10300.
    same(lent.reanalyse(2, 10300, 10000, 0), (10300, 1))
    same((lent.form()[:10], lent.form()[44:].hex(), lent.size), (A_FORM[:10], "040003003c28", 50))
    same(lent.check(), ())
    same(lent.lines(5), (2560000, 2508800, 2611200, 2483200, 2636800))
    same(lent.against_lines(10201, 4), (0, 1, 0, 0))
    # The renewal's form is shorter; the bytes after it stay, also the last two of the old form.
    same(lent.renew(), (1, 0))
    same(lent.size, 48)
    same(lent.bytes[44:].hex(), "020003003c28" + "77" * 10)
    same(model.read(lent.form()), Chart(2, A[1:] + (10300,), (), 0, 0))
    # The chart is what the bytes hold.
    lent.bytes[6] = 3
    same(refusal(lent.check), 14)
    lent.bytes[2] = 2
    same(refusal(lent.check), 13)
    # Numbers that the C type does not hold are no input.
    same(is_no_input(interface.word, -1, 1, 2, 3), True)
    same(is_no_input(interface.word, 2 ** 32 + 1, 1, 2, 3), True)
    same(is_no_input(interface.word, 1, 2 ** 63, 2, 3), True)
    same(is_no_input(LentChart(bytes(60), 0).build, 2, 60, (32768,) * 15), True)
    same(is_no_input(LentChart(bytes(60), 0).build, 2, 61, A), True)
    same(is_no_input(LentChart(bytes(60), 0).tell, 5, 61), True)
    same(is_no_input(lent_chart(A_FORM).against_lines, 2 ** 31, 4), True)


def text_of(texts, other, number):
    """The text of a number, by hand."""
    return texts[number] if number < len(texts) else other


def test_texts():
    """The header: the text of every answer and of every verdict, the version, and the room that each needs."""
    same((len(ANSWERS), len(VERDICTS)), (17, 5))
    numbers = (*range(19), 255, 256, 264, 65535, 65536, 65537, 65544, 2 ** 31 + 8, 2 ** 32 - 1)
    for function, texts, other in ((interface.refusal_text, ANSWERS, OTHER_NUMBER),
                                   (interface.verdict_text, VERDICTS, OTHER_VERDICT)):
        for number in numbers:
            text = text_of(texts, other, number)
            for room in (len(text) + 1, len(text) + 2, 64, 2 ** 64 - 1):
                same((number, room, function(number, room)), (number, room, text))
            for room in (0, 1, len(text) - 1, len(text)):
                same((number, room, refusal(function, number, room)), (number, room, 15))
        for number, room in ((-1, 64), (2 ** 32, 64), (2 ** 32 + 8, 64), (8, -1), (8, 2 ** 64)):
            same(is_no_input(function, number, room), True)
    same([interface.version(room) for room in (6, 7, 64)], ["1.3.0"] * 3)
    same([refusal(interface.version, room) for room in (0, 1, 4, 5, 6)], [15] * 4 + [0])
    same([is_no_input(interface.version, room) for room in (-1, 2 ** 64)], [True] * 2)
    # The header has the same version, and the rooms that are enough for everything.
    with open(os.path.join(expected.ROOT, "include", "control_chart.h"), encoding="ascii") as file:
        header = file.read()
    same(re.findall(r'(?m)^#define CONTROL_CHART_VERSION "(.*)"$', header), ["1.3.0"])
    same((interface.TEXT_MOST, interface.FORM_MOST, interface.LINES_MOST), (64, 814, 5))
    same(max(len(text) for text in ANSWERS + VERDICTS + [OTHER_NUMBER, OTHER_VERDICT]) < 64, True)


def test_made_texts():
    """The calls for texts: how a line gives its text, and that the asked lines meet every text at its edges."""
    for asked, wanted in (
            ("refusal_text 8 64", "refusal_text 8 64 = 0 a reanalysis or a correction is due"),
            ("refusal_text 65544 64", "refusal_text 65544 64 = 0 no such number"),
            ("refusal_text 16 64", "refusal_text 16 64 = 0 fewer than 15 words stand after rejection"),
            ("refusal_text 16 42", "refusal_text 16 42 = 0 fewer than 15 words stand after rejection"),
            ("refusal_text 16 41", "refusal_text 16 41 = 15"),
            ("refusal_text 17 15", "refusal_text 17 15 = 0 no such number"),
            ("refusal_text 0 5", "refusal_text 0 5 = 0 done"), ("refusal_text 0 4", "refusal_text 0 4 = 15"),
            ("verdict_text 4 39", "verdict_text 4 39 = 0 seven in a row on one side of the mean"),
            ("verdict_text 4 38", "verdict_text 4 38 = 15"),
            ("verdict_text 65537 64", "verdict_text 65537 64 = 0 no such verdict"),
            ("version 6", "version 6 = 0 1.3.0"), ("version 5", "version 5 = 15"),
            # A text changes nothing in the lent chart.
            ("chart 1 0 0 / 10*0 /\nversion 64\ncheck", "chart 1 0 0 / 10*0 /\nversion 64 = 0 1.3.0\ncheck = 0")):
        same(make_calls.made(asked), wanted)
    for asked in ("refusal_text 4294967296 64", "verdict_text -1 64", "version -1", "version 6 / 6", "texts 1 64"):
        same(is_no_input(make_calls.made, asked), True)
    made = make_calls.files()[make_calls.PATH].decode("ascii").split("\n")
    for name, texts, other, others in (
            ("refusal_text", ANSWERS, OTHER_NUMBER, (17, 255, 65535, 65536, 65544, 2 ** 32 - 1)),
            ("verdict_text", VERDICTS, OTHER_VERDICT, (5, 65537, 2 ** 32 - 1))):
        numbers = (*range(len(texts)), *others)
        wanted = [(number, 64) for number in numbers]
        for number in range(len(texts) + 1):
            length = len(text_of(texts, other, number))
            wanted += [(number, length + 1), (number, length)]
        wanted += [(number, room) for number in (0, 4, others[0], others[-1]) for room in (0, 1)]
        lines = [line for line in made if line.startswith(name + " ")]
        asked = [tuple(map(int, line.split()[1:3])) for line in lines]
        same([pair for pair in wanted if asked.count(pair) != 1], [])
        for (number, room), line in zip(asked, lines):
            text = text_of(texts, other, number)
            answer = "0 " + text if room > len(text) else "15"
            same(line, "%s %d %d = %s" % (name, number, room, answer))
    same([line for line in made if line.startswith("version")],
         ["version 64 = 0 1.3.0", "version 6 = 0 1.3.0", "version 5 = 15", "version 1 = 15", "version 0 = 15"])
    # They have a section of their own, after all other calls, and the head has a line for each of them.
    start = made.index("# ---- Texts refuse 15")
    names = {line.split()[0] for line in made[start:] if line and not line.startswith("#")}
    same(names, {"refusal_text", "verdict_text", "version"})
    same([line for line in made[:start] if line.split()[:1] and line.split()[0] in names], [])
    head = made[:made.index("")]
    for line in ("refusal_text NUMBER ROOM", "verdict_text NUMBER ROOM", "version ROOM"):
        same(sum(part.startswith("#     %s = ANSWER TEXT " % line) for part in head), 1)


def test_made_calls():
    """The lines of the calls: the parts that are kept, the answers from the lent bytes, and their spelling."""
    a = "7*9900 7*10100 10000"
    for asked, wanted in (
            ("# x = 5\n\n", "# x = 5\n\n"),
            ("word 1 1 2 0", "word 1 1 2 0 = 0 6667"),
            ("build 2 820 / " + a, "build 2 820 / %s = 0 1 0 / %s" % (a, a)),
            ("build 2 47 / " + a, "build 2 47 / %s = 15" % a),
            ("build 2 820 /", "build 2 820 / = 2"),
            ("post 2 1 1 0", "post 2 1 1 0 = 13"),
            ("all", "all = 13")):
        same(make_calls.made(asked), wanted)
    chart = "chart 2 2 1 / %s / 10301\n" % a
    for asked, wanted in (
            ("correct\ncorrect", "correct = 0\ncorrect = 11"),
            ("byte 6 1\ncorrect", "byte 6 1\ncorrect = 11"),
            ("byte 6 3\nall", "byte 6 3\nall = 14"),
            ("told 51 820\nall", "told 51 820\nall = 13"),
            ("told -1 820\ncorrect", "told -1 820\ncorrect = 13"),
            ("correct\nreanalyse 2 1 1 0\n2*post 2 1 1 0\nform",
             "correct = 0\nreanalyse 2 1 1 0 = 0 10000 1\n2*post 2 1 1 0 = 0 10000 0\n"
             "form 08000100020000000000 20000200 " + "ac26" * 7 + "7427" * 7 + "1027 08000300 102710271027"),
            ("byte 6 0\nbyte 8 0\nbyte 48 16\nbyte 49 39\nrenew",
             "byte 6 0\nbyte 8 0\nbyte 48 16\nbyte 49 39\nrenew = 0 1 0 / 6*9900 7*10100 10000 10000")):
        same(make_calls.made(chart + asked), chart + wanted)
    same(is_no_input(make_calls.made, chart + "all"), True)
    same(is_no_input(make_calls.made, chart + "2*correct"), True)
    same(is_no_input(make_calls.made, chart + "told -1 820\ncheck"), True)
    same(is_no_input(make_calls.made, chart + "correct = 0"), True)
    same(is_no_input(make_calls.made, "write"), True)
    same(make_calls.numbers_of("2 820 / 3*5 -1 /"), [[2, 820], [5, 5, 5, -1], []])
    same(make_calls.in_runs((0, 0, 1, 2, 2, 2, -3)), "0 0 1 3*2 -3")
    with open(make_calls.ASKED, encoding="ascii") as file:
        asked = [line.split() for line in file if not line.startswith("#")]
    same([line for line in asked if "=" in line or line[:1] == ["form"] and len(line) > 1], [])


def test_made_cases():
    """The cases: their headings, and lines whose numbers are known by hand."""
    sections = dict(make_cases.sections())
    same(list(sections), ["Charts handed in", "Stored forms", "Lines", "Sums given to each round", "Lists",
                          "Refused starts"])
    same(all(answer.startswith("refused 14, ") for _, answer in sections["Charts handed in"]), True)
    made = make_cases.files()
    labels = made["crates/cases/stdin"].decode().splitlines()
    lines = made["crates/cases/stdout"].decode().splitlines()
    same(len(labels), 83)
    same(len(set(labels)), len(labels))
    same([label for label in labels if len(label) > 100], [])
    same([line for label, line in zip(labels, lines) if not line.startswith(label)], [])
    same(len(labels), len(lines))
    # Document 02, Q-5: all lines of the section, with what is before and after it.
    start = lines.index("Sums given to each round")
    same(lines[start - 1].startswith("chart of zeros, 0 against the lines: "), True)
    same(lines[start + 1:start + 7],
         ["0 ten times, 1, 12, 144, 1728, 20000, kind 1, rounds: (15; 21885, 403006865), (14; 1885, 3006865), "
          "(13; 157, 20881), (12; 13, 145), (11; 1, 1), (10; 0, 0)",
          "0 ten times, -1, -12, -144, -1728, -20000, kind 3, rounds: (15; -21885, 403006865), (14; -1885, 3006865), "
          "(13; -157, 20881), (12; -13, 145), (11; -1, 1), (10; 0, 0)",
          "100 thirty times, -20000, 20000, kind 2, rounds: (32; 3000, 800300000), (30; 3000, 300000)",
          "100 thirty times, 20000 twice, kind 2, rounds: (32; 43000, 800300000), (30; 3000, 300000)",
          "A, rounds: (15; 150000, 1500140000)", "Lists"])
    for line in ("A with status 9, posts 10000: refused 14, status 9 verdict 0",
                 "A, 48 bytes lent: wrote 48: " + A_FORM.hex(" "),
                 "A, 50 bytes lent: wrote 48: " + A_FORM.hex(" ") + " aa aa",
                 "A, 47 bytes lent: refused 15:" + " aa" * 47,
                 "A with kind 4, 9 bytes lent: refused 14:" + " aa" * 9,
                 "C, 10002 against the lines: lower warning 0, upper warning 1, lower control 0, upper control 0",
                 # Document 02, Q-4: a base of ten is read, a start with fourteen words standing is refused with 16, and
                 # a refused build gives the chart of zeros.
                 "0 ten times, kind 1, read back: kind 1 base of 10:" + " 0" * 10
                 + "; series of 0:, status 0 verdict 0",
                 "1000 fourteen times and 2000, kind 1, one call: start refused 16; answers" + " 7" * 24
                 + "; chart kind 0 base 0 series 0 status 0 verdict 0; refused 14",
                 "stored base of fourteen, a renewal, a post and a renewal: done; answers 0 12 0 1 1000 0 4 1 0"
                 + " 7" * 15 + "; chart kind 1 base 15 series 0 status 0 verdict 0; lines" + " 1000.00000000" * 3,
                 "1000 fourteen times and 2000, kind 1, building: chart kind 0 base 0 series 0 status 0 verdict 0; "
                 "base places" + " 0" * 32 + "; series places" + " 0" * 366,
                 "kind 4, A's words, building: chart kind 0 base 0 series 0 status 0 verdict 0; base places" + " 0" * 32
                 + "; series places" + " 0" * 366,
                 "no bytes, reading: chart kind 0 base 0 series 0 status 0 verdict 0; base places" + " 0" * 32
                 + "; series places" + " 0" * 366):
        same(line in lines, True)


def main():
    for test in (test_charts_handed_in, test_calls_on_values, test_refused_starts, test_writing, test_against_lines,
                 test_lists, test_one_side_before_trend, test_halves_to_even, test_fifteen_standing, test_order_for_c,
                 test_calls_for_c, test_texts, test_made_texts, test_made_calls, test_made_cases):
        test()
    print("%d passed, 0 failed" % PASSED)


if __name__ == "__main__":
    main()
