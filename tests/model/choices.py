"""Help for the generators: readings for a wanted word, words for a wanted verdict, a record of what occurred."""

from math import gcd, isqrt

import commands
import model
from model import Chart

KINDS = (1, 2, 3)


def least_word(kind):
    """The least word of the readings of a kind (kind 2 has no negative ones)."""
    return -20000 if kind == 3 else 0


def exact(kind, word):
    """Three numbers whose word needs no rounding."""
    if kind == 1:
        return 20000 + word, 20000 - word, 0
    if kind == 2:
        return word, 10000, 0
    return max(word, 0), max(-word, 0), 10000


def formed(kind, numbers):
    """The word of three numbers, or None."""
    try:
        return model.word_alone(kind, *numbers)
    except model.Refused:
        return None


def quotient(kind, a, b, c):
    """Numerator and divisor of the word of three numbers, for a kind 1..3: document 01, a second time."""
    if kind == 1:
        return 20000 * abs(a - b), a + b
    return (10000 * a, b) if kind == 2 else (10000 * (a - b), c)


def halfway(kind, twice, times=1):
    """Three numbers whose quotient is half of the odd number `twice`, which is below 0 for kind 3 only.

    `times` 1 gives the least such numbers. Where `times` is odd, these readings are odd: X1 and X2; X; the one of SSR
    and SR that is not 0. Where `times` is even, all readings are even.
    """
    whole = 40000 if kind == 1 else 20000
    part = gcd(twice, whole)
    upper, lower = twice // part * times, whole // part * times
    if kind == 1:
        return lower + upper, lower - upper, 0
    if kind == 2:
        return upper, lower, 0
    return max(upper, 0), max(-upper, 0), lower


def half(kind, a, b, c):
    """Where the quotient is halfway between two words, as text: its side of 0, and its whole part. Else None."""
    numerator, divisor = quotient(kind, a, b, c)
    whole, rest = divmod(abs(numerator), divisor)
    if 2 * rest != divisor:
        return None
    return "%s 0, whole part %s" % ("above" if numerator > 0 else "below", "odd" if whole % 2 else "even")


def by_document_01(kind, numbers, word):
    """Whether the word would be the wanted one with halves away from zero, as before document 02, Q-3."""
    if formed(kind, numbers) is None:
        return False
    numerator, divisor = quotient(kind, *numbers)
    least, most = (2 * abs(word) - 1) * divisor, (2 * abs(word) + 1) * divisor
    return least <= 2 * abs(numerator) < most and numerator * word >= 0


def farther(kind, numbers):
    """Numbers whose quotient is a little farther from 0, on the same side: one reading is changed by one."""
    a, b, c = numbers
    if kind == 2:
        return a + 1, b, c
    if a > b:
        return (a, b - 1, c) if b > 0 else (a + 1, b, c)
    return (a - 1, b, c) if a > 0 else (a, b + 1, c)


def rounded(rng, kind, word):
    """Three numbers whose word is the wanted one, mostly by rounding.

    For an even word, halves occur often. No half goes to an odd word (document 02, Q-3). For an odd word, the numbers
    next to a half occur often.

    The tries end where halves away from zero would give the word. So as many numbers are drawn as before document 02,
    Q-3, and the vectors after these stay as they were. Of the tries, the first whose word is the wanted one is given.
    """
    tried = []
    for _ in range(20):
        if kind == 1:
            total = rng.choice((rng.randint(1, 400), rng.randint(20000, 900000), rng.randint(1, 10 ** 9)))
            if rng.random() < 0.4:
                total = 40000 * rng.randint(1, 20000)
                difference = (2 * word + rng.choice((-1, 1))) * total // 40000
            else:
                difference = (word * total + rng.randint(-total, total) // 2) // 20000
            difference += (difference + total) % 2
            numbers = [(total + difference) // 2, (total - difference) // 2, rng.randint(-9, 9)]
            if rng.random() < 0.5:
                numbers[:2] = numbers[1::-1]
        else:
            if rng.random() < 0.4:
                divisor = 20000 * rng.randint(1, 20000)
                upper = (2 * word + rng.choice((-1, 1))) * divisor // 20000 + rng.choice((0, 0, 1, -1))
            else:
                divisor = rng.choice((rng.randint(1, 400), rng.randint(10000, 900000), rng.randint(1, 4 * 10 ** 8)))
                upper = (word * divisor + rng.randint(-divisor, divisor) // 2) // 10000
            if kind == 2:
                numbers = [upper, divisor, rng.randint(-9, 9)]
            else:
                least = max(0, -upper)
                most = min(10 ** 9, 10 ** 9 - upper)
                if least > most:
                    continue
                unspiked = rng.choice((least, rng.randint(least, most), most))
                numbers = [unspiked + upper, unspiked, divisor]
        tried.append(tuple(numbers))
        if by_document_01(kind, numbers, word):
            tried.append(farther(kind, numbers))
            break
    return next((numbers for numbers in tried if formed(kind, numbers) == word), exact(kind, word))


def reading_for(rng, kind, word):
    """Three numbers for a word, exact or by rounding."""
    return exact(kind, word) if rng.random() < 0.5 else rounded(rng, kind, word)


def places(chart):
    """The whole numbers at mean and mean +- S, 2S, 3S."""
    n, total, v = model.figures(chart.base)
    found = [total // n]
    for times in (1, 2, 3):
        reach = isqrt(times * times * n * v // (n - 1))
        found += [(total + reach) // n, -((reach - total) // n)]
    return found


def candidates(chart, kind=None):
    """Words near every place where an outcome can change, within the words that a reading can give."""
    kind = kind or chart.kind
    middles = places(chart) + list(chart.series[-8:]) + [0, 20000, -20000]
    words = {middle + off for middle in middles for off in (-2, -1, 0, 1, 2)}
    return sorted(word for word in words if least_word(kind) <= word <= 20000)


def plan(rng, chart, wanted, side=None):
    """Words for a free chart: all but the last get verdict 0, the last the wanted one. None if none is found."""
    kind = chart.kind
    if kind == 1 and wanted == 4:
        return None
    _, up1, low1, up2, low2, up3, low3 = places(chart)
    mean = places(chart)[0]
    bottom = max(least_word(kind), low3 if kind != 1 else low3 - 500)
    top = min(20000, up3)
    for _ in range(60):
        way = side or rng.choice((1, -1))
        if wanted in (0, 1):
            words = [rng.choice(candidates(chart))]
        elif wanted == 2:
            edge = up2 if way > 0 else low2
            far = up3 if way > 0 else low3
            pool = [edge + way, edge + 2 * way, far, far - way, (edge + far) // 2]
            words = [rng.choice(pool), rng.choice(pool)]
        elif wanted == 3:
            if bottom > top:
                return None
            room = max(1, (top - bottom) // 8)
            steps = [rng.choice((1, rng.randint(1, room))) for _ in range(6)]
            first = rng.randint(bottom, top)
            if kind != 1:
                # document 02, Q-1: a run on one side is 4. A word of this one is at the mean or next to it.
                steps[rng.randrange(6)] += rng.choice((0, (top - bottom) // 6))
                first = mean + rng.choice((-1, 0, 1)) - way * sum(steps[:rng.randrange(7)])
            words = [first]
            for size in steps:
                words.append(words[-1] + way * size)
        else:
            near, far = (mean + 1, min(up2, 20000)) if way > 0 else (max(low2, bottom), mean - 1)
            if near > far:
                continue
            pool = [rng.randint(near, far), near, far, mean + way]
            words = [rng.choice(pool) for _ in range(7)]
            if far - near >= 6 and rng.random() < 0.4:
                # document 02, Q-1: a run that is 3 too.
                words = sorted(rng.sample(range(near, far + 1), 7), reverse=rng.random() < 0.5)
        if not all(least_word(kind) <= word <= 20000 for word in words):
            continue
        for start in range(len(words)):
            tried = words[start:]
            verdicts = [model.judge(kind, chart.base, chart.series + tuple(tried[:count + 1]))
                        for count in range(len(tried))]
            if verdicts[-1] == wanted and not any(verdicts[:-1]):
                return tried
    return None


def flips(chart):
    """Pairs of neighbouring words, one failing and one passing, on a chart with an open verdict."""
    found = []
    words = candidates(chart)
    for first, second in zip(words, words[1:]):
        if second != first + 1:
            continue
        outcomes = model.passes(chart, first), model.passes(chart, second)
        if outcomes == (False, True):
            found.append((first, second))
        elif outcomes == (True, False):
            found.append((second, first))
    return found


def random_base(rng, kind, size=None, centre=None, spread=None):
    """Words for a build: several shapes, often with some words far away."""
    size = size or rng.randint(15, 32)
    if centre is None:
        centre = rng.choice((rng.randint(0, 20000), 1000, 10000, rng.randint(0, 50)))
        if kind == 3:
            centre *= rng.choice((1, -1))
    if spread is None:
        spread = rng.choice((0, 1, 3, 20, 100, 1000, 9000))
    shape = rng.randrange(4)
    if shape == 0:
        words = [centre + rng.randint(-spread, spread) for _ in range(size)]
    elif shape == 1:
        words = [centre + rng.choice((-spread, spread)) for _ in range(size)]
    elif shape == 2:
        half = (size - 1) // 2
        words = [centre - spread] * half + [centre + spread] * half + [centre] * (size - 2 * half)
    else:
        words = [centre + sum(rng.randint(-spread, spread) for _ in range(4)) // 3 for _ in range(size)]
    if rng.random() < 0.4:
        for _ in range(rng.randint(1, 4)):
            far = rng.choice((3, 4, 8, 30, 200)) * (spread + 1) * rng.choice((1, -1))
            words[rng.randrange(size)] = centre + far + rng.randint(-spread, spread)
    if rng.random() < 0.5:
        rng.shuffle(words)
    least = 0 if kind == 1 else -20000
    return [min(20000, max(least, word)) for word in words]


def standing(kind, words):
    """Rejection a second time: the words that stand at the end, and the rounds. Every round sums its words afresh."""
    words = tuple(words)
    rounds = 1
    while True:
        n, total, v = model.figures(words)
        left = tuple(word for word in words
                     if (n * word - total) ** 2 * (n - 1) <= 9 * n * v or kind == 1 and n * word <= total)
        if len(left) == n:
            return words, rounds
        words, rounds = left, rounds + 1


def tail_lengths(kind, words):
    """document 02, Q-4: for each length from 15 to 32 that the words allow, how many words of that tail stand."""
    return {count: len(standing(kind, words[len(words) - count:])[0]) for count in range(15, 33) if count <= len(words)}


def tail_used(kind, words):
    """document 02, Q-4, a second time: the least length of a tail of which 15 words stand. None if no tail will do.

    It looks at all tails. So it uses no order of trying, and no law between tails of different lengths.
    """
    return min((count for count, left in tail_lengths(kind, words).items() if left >= 15), default=None)


def far_words(kind, near, ways, count):
    """document 02, Q-4: words far from the near ones, the farthest first, each as near as it can be.

    Rejection removes all of them and leaves the near words, however many of the last far words stand in front of
    these. The ways (1 above, -1 below) are taken in turn, from the last far word on.
    """
    centre, found, size = near[-1], (), 1
    for place in range(count):
        way = ways[place % len(ways)]
        while standing(kind, (centre + way * size, *found, *near))[0] != tuple(near):
            size += 1
        found = (centre + way * size, *found)
    return found


def trend(chart):
    """The last seven words as a trend: rising or falling; above, below or across the mean. None without a trend."""
    seven = chart.series[-7:]
    way = model.run(seven)
    if len(seven) < 7 or way == 0:
        return None
    of_base = model.figures(chart.base)
    sides = {model.side(of_base, word) for word in seven}
    where = "above" if sides == {1} else "below" if sides == {-1} else "across"
    return "rising" if way > 0 else "falling", where


def reason(chart, word):
    """A chart open under 3 and the word of a reanalysis: what it passes by, or that it fails."""
    of_base = model.figures(chart.base)
    turned = word < chart.series[-2] if trend(chart)[0] == "rising" else word > chart.series[-2]
    near = model.near(of_base, word)
    if model.beyond(chart.kind, of_base, 3, word) or not near and not turned:
        return "failed"
    by = "both" if near and turned else "being near alone" if near else "turning back alone"
    return "passed by " + by


def applying(chart, command, fields):
    """All numbers of the table that apply to a call, each by itself, in the order of document 01."""
    found = []
    if command in ("post", "reanalyse", "correct", "renew", "lines", "write") and not model.sound(chart):
        found.append(14)
    if command in ("post", "renew") and chart.status != 0:
        found.append(8)
    if command == "post" and len(chart.series) >= 366:
        found.append(9)
    if command == "reanalyse" and chart.status != 1:
        found.append(10)
    if command == "correct" and chart.status != 2:
        found.append(11)
    if command == "renew" and len(chart.base + chart.series) < 15:
        found.append(12)
    if command == "renew" and tail_used(chart.kind, chart.base + chart.series) is None:
        # document 02, Q-4: no tail will do. With fewer than 15 words there is no tail at all.
        found.append(16)
    if command == "word" and fields[0] not in KINDS:
        found.append(1)
    if command in ("post", "reanalyse") and fields[0] != chart.kind:
        found.append(4)
    if command in ("word", "post", "reanalyse"):
        kind, a, b, c = fields
        used = (a, b) if kind in (1, 2) else (a, b, c)
        if any(not 0 <= reading <= 10 ** 9 for reading in used):
            found.append(5)
        numerator, divisor = quotient(kind, a, b, c)
        if kind in KINDS and divisor == 0:
            found.append(6)
        elif kind in KINDS and abs(numerator) * 2 > abs(divisor) * 40001:
            # document 02, Q-3: 20000.5 goes to 20000, which is even. So 7 begins above it.
            found.append(7)
    if command == "build":
        kind, words = fields[0], fields[1:]
        if kind not in KINDS:
            found.append(1)
        if not 15 <= len(words) <= 32:
            found.append(2)
        if not all(model.in_range(kind, word) for word in words):
            found.append(3)
        if kind in KINDS and len(standing(kind, words)[0]) < 15:
            # document 02, Q-4: fewer than 15 words stand. With fewer than 15 words it is always so.
            found.append(16)
    return found


class Record:
    """Lines, their answers by the model, and a table of what occurred."""

    def __init__(self):
        self.chart = model.ZEROS
        self.lines = []
        self.answers = []
        self.charts = []
        self.status = 0
        self.table = {}

    def count(self, key):
        self.table[key] = self.table.get(key, 0) + 1

    def raw(self, line, end=b"\n"):
        """One line of bytes; its end is a line feed or nothing, with or without a carriage return."""
        before = self.chart
        whole = line + end
        self.charts.append(before)
        self.lines.append(whole)
        seen = commands.bare(whole[:-1] if whole.endswith(b"\n") else whole)
        self.chart, answer, status = commands.step(before, seen)
        self.answers.append(answer)
        self.status = max(self.status, status)
        self.note(before, seen, answer)
        return answer

    def do(self, command, *fields):
        """One command with its fields."""
        return self.raw(" ".join([command] + [str(field) for field in fields]).encode())

    def post(self, word, rng=None):
        """A post of a word on the chart's own kind."""
        kind = self.chart.kind
        return self.do("post", kind, *(reading_for(rng, kind, word) if rng else exact(kind, word)))

    def reanalyse(self, word, rng=None):
        """A reanalysis with a word on the chart's own kind."""
        kind = self.chart.kind
        return self.do("reanalyse", kind, *(reading_for(rng, kind, word) if rng else exact(kind, word)))

    def build(self, kind, words):
        return self.do("build", kind, *words)

    def build_or_read(self, kind, words):
        """A build. document 02, Q-4: if it is refused with 16, the chart of the words that stand is read instead.

        So a chart with a base of 10 to 14 words is there, as it was when such a build was accepted.
        """
        answer = self.build(kind, words)
        if answer == b"refused 16":
            assert self.read_chart(Chart(kind, standing(kind, words)[0], (), 0, 0)) == b"read"
        return answer

    def store(self):
        """The stored form of the chart, in hex digits."""
        return model.stored_form(self.chart).hex()

    def read_chart(self, chart):
        """A read of a chart, sound or not."""
        return self.do("read", model.stored_form(chart).hex())

    def note(self, before, line, answer):
        """Adds one line to the table of outcomes."""
        if answer is None:
            self.count("passed over")
            return
        text = answer.decode()
        if text.startswith("error"):
            self.count(text.split(";")[0])
            return
        fields = line.replace(b"\t", b" ").decode().split()
        command = fields[0]
        if text.startswith("refused"):
            self.count("%s refused %s" % (command, text.split()[1]))
            if command != "read":
                numbers = [commands.number(field.encode()) for field in fields[1:]]
                if numbers:
                    numbers[0] = numbers[0] if 0 <= numbers[0] <= 65535 else 0
                reasons = applying(before, command, numbers)
                for other in reasons[1:]:
                    self.count("%s refused %d where %d applies too" % (command, reasons[0], other))
                assert reasons[0] == int(text.split()[1]), (line, text, reasons)
                if command == "build" and reasons[0] == 16:
                    self.note_build(numbers[0], numbers[1:])
                elif command == "renew" and reasons[0] == 16:
                    self.note_no_tail(before)
            return
        if command in ("word", "post", "reanalyse"):
            numbers = [commands.number(field.encode()) for field in fields[1:]]
            if half(*numbers):
                self.count("%s kind %d halfway, %s" % (command, numbers[0], half(*numbers)))
        if command == "post":
            self.count("post kind %d verdict %s" % (before.kind, text.split()[-1]))
            if trend(self.chart):
                self.count("post kind %d verdict %s on a trend, %s %s the mean" % (
                    before.kind, text.split()[-1], *trend(self.chart)))
            if len(before.series) >= 365:
                self.count("post as word 366, verdict %s" % text.split()[-1])
        elif command == "reanalyse":
            self.count("reanalyse kind %d verdict %d %s" % (before.kind, before.verdict, text.split()[-1]))
            if before.verdict == 3:
                self.count("reanalyse kind %d verdict 3, %s, %s" % (
                    before.kind, trend(before)[0], reason(before, int(text.split()[1]))))
            elif before.verdict == 4 and trend(before):
                self.count("reanalyse kind %d verdict 4 on a trend, %s %s the mean, %s" % (
                    before.kind, *trend(before), text.split()[-1]))
            if len(before.series) == 366:
                self.count("reanalyse on a full series, %s" % text.split()[-1])
        elif command in ("build", "renew"):
            done = self.chart
            self.count("%s kind %d accepted" % (command, done.kind))
            self.count("%s rounds %s" % (command, text.split()[2]))
            assert len(done.base) >= 15, (line, text)
            if command == "build":
                self.note_build(done.kind, [commands.number(field.encode()) for field in fields[2:]])
            else:
                self.note_tail(before, text)
        elif command == "read":
            done = self.chart
            self.count("read accepted status %d verdict %d" % (done.status, done.verdict))
            if len(done.base) < 15:
                self.count("read kind %d with a base of %d" % (done.kind, len(done.base)))
        elif command in ("word", "lines"):
            kind = commands.number(fields[1].encode()) if command == "word" else before.kind
            self.count("%s kind %d accepted" % (command, kind))
        else:
            self.count("%s accepted" % command)

    def note_build(self, kind, words):
        """document 02, Q-4: a build, accepted or refused with 16, by the number of words that stand."""
        left, rounds = standing(kind, words)
        if len(left) < 17:
            self.count("build kind %d of %d words, %d standing" % (kind, len(words), len(left)))
        if len(left) < 15:
            self.count("build kind %d refused 16, rounds %d" % (kind, rounds))

    def note_no_tail(self, before):
        """document 02, Q-4: a renewal that is refused with 16, by the number of words that there are."""
        words = before.base + before.series
        self.count("renew kind %d refused 16" % before.kind)
        self.count("renew refused 16 of %s" % (len(words) if len(words) < 32 else "32 words or more"))
        if len(before.base) >= 15:
            self.count("renew refused 16 with a base of 15 or more")
        if len(before.series) == 366:
            self.count("renew refused 16 on a full series, kind %d" % before.kind)
        assert before.series or len(before.base) < 15, before

    def note_tail(self, before, text):
        """document 02, Q-4: an accepted renewal, by the tail that it uses. Chart and answer are compared with it."""
        kind, words = before.kind, before.base + before.series
        used = tail_used(kind, words)
        left, rounds = standing(kind, words[len(words) - used:])
        removed = used - len(left)
        assert (self.chart.base, text) == (left, "renewed rounds %d removed %d" % (rounds, removed)), (before, text)
        self.count("renew kind %d by a tail of %d" % (kind, used))
        if used == len(words) and used < 32:
            self.count("renew by all there are, %d words" % used)
        if used > 15:
            fifteen, rounds_of_15 = standing(kind, words[len(words) - 15:])
            self.count("renew kind %d by a longer tail, rounds %d" % (kind, rounds))
            if rounds != rounds_of_15:
                self.count("renew kind %d, not the rounds of the last 15" % kind)
            if removed != 15 - len(fifteen):
                self.count("renew kind %d, not the removals of the last 15" % kind)
            tail = words[len(words) - used:]
            if min(tail) < min(left) and max(tail) > max(left):
                self.count("renew kind %d by a longer tail, removals on both sides" % kind)
        longer = [good >= 15 for count, good in tail_lengths(kind, words).items() if count > used]
        if longer and not all(longer):
            self.count("renew kind %d where a longer tail will not do" % kind)
        if longer and not any(longer):
            self.count("renew kind %d where no longer tail will do" % kind)
        if len(before.base) < 15:
            self.count("renew kind %d with a base of %d" % (kind, len(before.base)))
        if not before.series:
            self.count("renew without posts, a base of %d" % len(before.base))


def print_table(table):
    """The table of outcomes, one to a line."""
    def key(name):
        return [int(part) if part.isdigit() else part for part in name.replace(",", "").split()]
    for name in sorted(table, key=lambda name: [str(part).zfill(6) for part in key(name)]):
        print("%7d  %s" % (table[name], name))
