//! Random calls on both engines with the same inputs. Everything lent is compared after each call, so a byte that only one engine changes
//! is a difference, also if both refuse.

use crate::engines::{form, Engine, Plain, Proved, FORM_MOST};

const NAMES: [&str; 9] = ["word", "build", "post", "reanalyse", "correct", "renew", "lines", "against_lines", "check"];

/// The numbers that a call can answer are below this.
const NUMBERS: usize = 17;

/// What each call can answer, by the header.
const ANSWERS: [&[usize]; 9] = [
    &[0, 1, 5, 6, 7],
    &[0, 1, 2, 3, 16, 15],
    &[0, 13, 14, 8, 9, 4, 5, 6, 7, 15],
    &[0, 13, 14, 10, 4, 5, 6, 7],
    &[0, 13, 14, 11],
    &[0, 13, 14, 8, 12, 16],
    &[0, 13, 14, 15],
    &[0, 13, 14, 7, 15],
    &[0, 13, 14],
];

/// From this many calls on, every answer of the header must have occurred.
const ENOUGH: u64 = 100_000;

/// Distances of far words from the others. If fourteen words or more are equal, each of these is beyond the control limit of the words up to
/// it. So the rounds of rejection remove them one by one, from the greatest on.
const FAR: [i64; 18] = [1, 2, 3, 5, 7, 10, 14, 19, 24, 31, 39, 49, 60, 73, 88, 105, 125, 147];

/// Bytes and doubles after each lent buffer that no call may touch.
const GUARD: usize = 8;

#[derive(Clone, Copy, Debug)]
struct Reading {
    kind: u32,
    a: i64,
    b: i64,
    c: i64,
}

#[derive(Debug)]
enum Call {
    Word(Reading),
    Build { kind: u32, words: Vec<i16> },
    Post(Reading),
    Reanalyse(Reading),
    Correct,
    Renew,
    Lines,
    AgainstLines { word: i32 },
    Check,
}

impl Call {
    fn number(&self) -> usize {
        match self {
            Call::Word(_) => 0,
            Call::Build { .. } => 1,
            Call::Post(_) => 2,
            Call::Reanalyse(_) => 3,
            Call::Correct => 4,
            Call::Renew => 5,
            Call::Lines => 6,
            Call::AgainstLines { .. } => 7,
            Call::Check => 8,
        }
    }

    fn make<E: Engine>(&self, lent: &mut Lent) -> u16 {
        let chart = &mut lent.chart[..lent.room];
        let (size, word) = (&mut lent.size, &mut lent.word);
        // The calls that only read take the bytes of the form, without the buffer around it.
        let front = lent.room.min(*size);
        match *self {
            Call::Word(Reading { kind, a, b, c }) => E::word(kind, a, b, c, word),
            Call::Build { kind, ref words } => E::build(kind, words, chart, size, &mut lent.rounds, &mut lent.removed),
            Call::Post(Reading { kind, a, b, c }) => E::post(chart, size, kind, a, b, c, word, &mut lent.verdict),
            Call::Reanalyse(Reading { kind, a, b, c }) => E::reanalyse(chart, size, kind, a, b, c, word, &mut lent.passed),
            Call::Correct => E::correct(chart, size),
            Call::Renew => E::renew(chart, size, &mut lent.rounds, &mut lent.removed),
            Call::Lines => E::lines(&chart[..front], &mut lent.lines[..lent.lines_room], &mut lent.count),
            Call::AgainstLines { word } => E::against_lines(&chart[..front], word, &mut lent.beyond[..lent.beyond_room]),
            Call::Check => E::check(&chart[..front]),
        }
    }
}

/// All that is lent to a call. The buffers are followed by guards.
#[derive(Clone, Default)]
struct Lent {
    chart: Vec<u8>,
    room: usize,
    size: usize,
    word: i16,
    verdict: u16,
    passed: u8,
    rounds: usize,
    removed: usize,
    count: usize,
    lines: Vec<f64>,
    lines_room: usize,
    beyond: Vec<u8>,
    beyond_room: usize,
}

impl Lent {
    fn same(&self, other: &Lent) -> bool {
        let bits = |lent: &Lent| lent.lines.iter().map(|line| line.to_bits()).collect::<Vec<_>>();
        self.numbers() == other.numbers() && self.chart == other.chart && self.beyond == other.beyond && bits(self) == bits(other)
    }

    fn numbers(&self) -> [(&'static str, i128); 7] {
        [
            ("size", self.size as i128),
            ("word", self.word.into()),
            ("verdict", self.verdict.into()),
            ("passed", self.passed.into()),
            ("rounds", self.rounds as i128),
            ("removed", self.removed as i128),
            ("count", self.count as i128),
        ]
    }

    /// Every place as a line of text, for a report.
    fn places(&self) -> Vec<(String, String)> {
        let numbers = self.numbers().map(|(name, number)| (name.to_string(), number.to_string())).into_iter();
        let line = |(i, line): (usize, &f64)| (format!("lines[{i}]"), format!("{line:?}, bits {:016x}", line.to_bits()));
        let byte = |name: &'static str| move |(i, byte): (usize, &u8)| (format!("{name}[{i}]"), format!("{byte:#04x}"));
        let lines = self.lines.iter().enumerate().map(line);
        let beyond = self.beyond.iter().enumerate().map(byte("beyond"));
        numbers.chain(lines).chain(beyond).chain(self.chart.iter().enumerate().map(byte("chart"))).collect()
    }
}

/// Splitmix64: the same seed gives the same calls on every machine.
struct Random(u64);

impl Random {
    fn next(&mut self) -> u64 {
        self.0 = self.0.wrapping_add(0x9E37_79B9_7F4A_7C15);
        let mut z = self.0;
        z = (z ^ (z >> 30)).wrapping_mul(0xBF58_476D_1CE4_E5B9);
        z = (z ^ (z >> 27)).wrapping_mul(0x94D0_49BB_1331_11EB);
        z ^ (z >> 31)
    }

    fn below(&mut self, n: u64) -> u64 {
        self.next() % n
    }

    fn within(&mut self, least: i64, most: i64) -> i64 {
        least + self.below((most - least + 1) as u64) as i64
    }

    fn index(&mut self, least: usize, most: usize) -> usize {
        self.within(least as i64, most as i64) as usize
    }

    fn one_in(&mut self, n: u64) -> bool {
        self.below(n) == 0
    }

    fn pick<T: Copy>(&mut self, list: &[T]) -> T {
        list[self.below(list.len() as u64) as usize]
    }

    fn shuffle<T>(&mut self, list: &mut [T]) {
        (1..list.len()).for_each(|i| list.swap(i, self.index(0, i)));
    }

    fn sign(&mut self) -> i64 {
        self.pick(&[-1, 1])
    }

    fn real(&mut self, least: f64, most: f64) -> f64 {
        least + (most - least) * (self.next() >> 11) as f64 / (1u64 << 53) as f64
    }
}

/// The parts of a stored form, so that the next call can be aimed at its limits. Nothing is compared with it.
struct View {
    head: [u16; 3],
    base: Vec<i16>,
    series: Vec<i16>,
    mean: f64,
    s: f64,
}

impl View {
    fn of(lent: &Lent) -> View {
        let bytes = &lent.chart[..lent.size];
        let numbers: Vec<u16> = bytes.chunks(2).map(|pair| u16::from_le_bytes([pair[0], pair[1]])).collect();
        let words = |from: usize, to: usize| numbers[from..to].iter().map(|&n| n as i16).collect::<Vec<i16>>();
        let series_at = 7 + (usize::from(numbers[5]) - 2) / 2;
        let base = words(7, series_at);
        let n = base.len() as f64;
        let mean = base.iter().map(|&w| f64::from(w)).sum::<f64>() / n;
        let s = (base.iter().map(|&w| (f64::from(w) - mean).powi(2)).sum::<f64>() / (n - 1.0)).sqrt();
        View { head: [numbers[2], numbers[3], numbers[4]], series: words(series_at + 2, numbers.len()), base, mean, s }
    }

    fn kind(&self) -> u32 {
        self.head[0].into()
    }
}

/// Words in turn above and below a centre; of an odd count the last is the centre. Then S is the spread itself, so that words can lie
/// exactly on the limits.
fn balanced(centre: i64, spread: i64, n: usize) -> Vec<i64> {
    (0..n).map(|i| if i == n - 1 && i % 2 == 0 { centre } else { centre + [spread, -spread][i % 2] }).collect()
}

/// What the posts aim at for a while, so that every verdict occurs, and renewals that remove words.
#[derive(Clone, Copy)]
enum Aim {
    Calm,
    Close,
    Run(i64),
    Side(i64),
    Warning(i64),
    Edge,
    Anywhere,
}

enum Stop {
    Enough,
    Difference(String),
}

struct Comparison {
    random: Random,
    seed: u64,
    lent: Lent,
    aim: Aim,
    calls: u64,
    made: u64,
    answers: [[u64; NUMBERS]; 9],
    verdicts: [u64; 5],
    reanalyses: [[u64; 2]; 5],
    build_rounds: [u64; 33],
    renewal_rounds: [u64; 33],
    renewal_tails: [u64; 33],
    short_base_posts: u64,
    short_base_renewals: u64,
    longest_series: usize,
}

impl Comparison {
    /// Makes a call on both engines and compares. Places that a call only writes hold random values before it.
    fn call(&mut self, call: Call) -> Result<u16, Stop> {
        if self.made == self.calls {
            return Err(Stop::Enough);
        }
        self.made += 1;
        let random = &mut self.random;
        let lent = &mut self.lent;
        lent.word = random.next() as i16;
        lent.verdict = random.next() as u16;
        lent.passed = random.next() as u8;
        lent.rounds = random.next() as usize;
        lent.removed = random.next() as usize;
        lent.count = random.next() as usize;
        lent.lines_room = if random.one_in(3) { 5 } else { random.index(0, 6) };
        lent.lines = (0..lent.lines_room + GUARD).map(|_| f64::from_bits(random.next())).collect();
        lent.beyond_room = if random.one_in(2) { 4 } else { random.index(0, 6) };
        lent.beyond = (0..lent.beyond_room + GUARD).map(|_| random.next() as u8).collect();

        let before = lent.clone();
        let mut plain = before.clone();
        let proved_answer = call.make::<Proved>(lent);
        let plain_answer = call.make::<Plain>(&mut plain);
        if proved_answer != plain_answer || !lent.same(&plain) {
            return Err(Stop::Difference(self.report(&call, &before, (proved_answer, &self.lent), (plain_answer, &plain))));
        }
        self.tally(&call, &before, plain_answer);
        Ok(plain_answer)
    }

    /// The call with all that was lent to it, and every place that one of the engines has changed.
    fn report(&self, call: &Call, before: &Lent, proved: (u16, &Lent), plain: (u16, &Lent)) -> String {
        let mut text = format!("DIFFERENCE at call {} of seed {}: {:?}\n", self.made, self.seed, call);
        let Lent { room, size, lines_room, beyond_room, .. } = before;
        text += &format!("rooms: chart {room}, lines {lines_room}, beyond {beyond_room}; what lies after a room is not lent\n");
        text += &format!("form of {size} bytes, as two-byte numbers in hexadecimal:\n");
        for line in before.chart[..*size.min(room)].chunks(32) {
            let numbers = line.chunks(2).map(|pair| pair.iter().rev().map(|byte| format!("{byte:02x}")).collect());
            text += &format!("    {}\n", numbers.collect::<Vec<String>>().join(" "));
        }
        text += &format!("answer: proved {}, plain {}\n", proved.0, plain.0);
        let after = proved.1.places().into_iter().zip(plain.1.places());
        for ((name, before), ((_, proved), (_, plain))) in before.places().into_iter().zip(after) {
            if proved != plain {
                text += &format!("{name}: proved {proved}, plain {plain}, before {before}    DIFFERENT\n");
            } else if proved != before {
                text += &format!("{name}: both {proved}, before {before}\n");
            }
        }
        text
    }

    fn tally(&mut self, call: &Call, before: &Lent, answer: u16) {
        self.answers[call.number()][usize::from(answer)] += 1;
        if answer != 0 {
            return;
        }
        let lent = &self.lent;
        match call {
            Call::Post(_) => {
                let view = View::of(lent);
                self.verdicts[usize::from(lent.verdict)] += 1;
                self.longest_series = self.longest_series.max(view.series.len());
                self.short_base_posts += u64::from(view.base.len() < 15);
            }
            Call::Reanalyse(_) => {
                self.reanalyses[usize::from(View::of(before).head[2])][usize::from(lent.passed)] += 1;
            }
            Call::Build { .. } => self.build_rounds[lent.rounds] += 1,
            Call::Renew => {
                self.renewal_rounds[lent.rounds] += 1;
                self.renewal_tails[View::of(lent).base.len() + lent.removed] += 1;
                self.short_base_renewals += u64::from(View::of(before).base.len() < 15);
            }
            _ => {}
        }
    }

    fn set_room(&mut self, room: usize) {
        let random = &mut self.random;
        self.lent.room = room;
        self.lent.chart.resize_with(room + GUARD, || random.next() as u8);
    }

    /// Puts a form to the front of the buffer, which has at least room for it.
    fn set_form(&mut self, bytes: &[u8]) {
        self.set_room(FORM_MOST.max(bytes.len()));
        self.lent.chart[..bytes.len()].copy_from_slice(bytes);
        self.lent.size = bytes.len();
    }

    /// Words for building: tight, equal, usual and wide ones, some with words far away so that rejection takes several rounds.
    fn base_words(&mut self, kind: u32) -> Vec<i16> {
        let random = &mut self.random;
        let n = random.pick(&[15, 15, 16, 17, 20, 25, 31, 32, 32]);
        let least = if kind == 1 { 0 } else { -20_000 };
        let centre = match (random.below(4), kind) {
            (0, _) => random.within(least, 20_000),
            (1, _) => random.within(-5, 5),
            (_, 1) => random.within(50, 1500),
            _ => random.within(8000, 12_000),
        };
        let spread = random.pick(&[0, 0, 1, 2, 20, 100, 300, 3000, 20_000]);
        let mut words: Vec<i64> = (0..n).map(|_| centre + random.within(-spread, spread)).collect();
        if random.one_in(3) {
            words = balanced(centre, spread, n);
        }
        if random.one_in(3) {
            // Each word is several times farther away than the one before, so that it leaves in a round of its own.
            let (mut distance, side) = (random.within(1, 60), random.sign());
            for _ in 0..random.below(7) {
                let at = random.index(0, n - 1);
                words[at] = centre + side * distance;
                distance *= random.within(3, 14);
            }
        }
        if random.one_in(8) {
            // Equal words and some far words, in any order. Rejection takes a round for each of the far ones.
            let (scale, side) = (random.pick(&[1, 1, 2, 30]), if kind == 1 { 1 } else { random.sign() });
            words = vec![centre; n];
            for (word, distance) in words.iter_mut().zip(&FAR[..random.index(0, n - 14)]) {
                *word += side * scale * distance;
            }
            random.shuffle(&mut words);
        }
        if random.one_in(6) {
            let far = random.index(0, n - 1);
            words[far] = random.within(least, 20_000);
        }
        if kind == 1 && random.one_in(4) {
            (0..n).for_each(|i| words[i] *= random.within(0, 1));
        }
        words.into_iter().map(|word| word.clamp(least, 20_000) as i16).collect()
    }

    fn build(&mut self) -> Result<u16, Stop> {
        let mut kind = self.random.within(1, 3) as u32;
        let mut words = self.base_words(kind);
        let mut room = FORM_MOST;
        // More than one thing can be wrong at once.
        while self.random.one_in(3) {
            match self.random.below(6) {
                0 => kind = self.random.pick(&[0, 4, 257, 65_537, u32::MAX]),
                1 => words.truncate(self.random.index(0, 16)),
                2 => words.resize(self.random.index(30, 40), 10_000),
                3 if !words.is_empty() => {
                    let at = self.random.index(0, words.len() - 1);
                    words[at] = self.random.pick(&[-1, 20_000, 20_001, -20_000, -20_001, i16::MIN, i16::MAX]);
                }
                4 => room = 18 + 2 * words.len() - self.random.index(0, 6),
                _ => room = self.random.index(0, 90),
            }
        }
        self.set_room(room);
        self.lent.size = self.random.next() as usize;
        (0..room).for_each(|i| self.lent.chart[i] = self.random.next() as u8);
        self.call(Call::Build { kind, words })
    }

    /// A form that no build has made: a base of any allowed count, a series of any length, often a full one.
    fn made_form(&mut self) -> Vec<u8> {
        let random = &mut self.random;
        let kind = random.pick(&[1, 2, 3]);
        let (centre, spread) = (random.within(1000, 12_000), random.pick(&[1, 5, 100, 900]));
        let n = random.pick(&[10, 11, 12, 13, 14, 15, 20, 31, 32]);
        let base: Vec<i16> = balanced(centre, spread, n).into_iter().map(|word| word as i16).collect();
        let n = match random.below(5) {
            0 | 1 => random.index(0, 9),
            2 => random.index(0, 366),
            _ => random.index(355, 366),
        };
        let series: Vec<i16> = (0..n).map(|_| (centre + random.within(-3 * spread, 3 * spread)) as i16).collect();
        form([kind, 0, 0], &base, &series)
    }

    /// A form whose renewal often needs a long tail, or has none that will do. Its last words are equal, with far words before them.
    fn far_form(&mut self) -> Vec<u8> {
        let random = &mut self.random;
        let kind = random.pick(&[1, 2, 3]);
        let (scale, side) = (random.pick(&[1, 1, 2, 30]), if kind == 1 { 1 } else { random.sign() });
        let centre = random.pick(&[0, 10_000]);
        let words = |distances: &[i64]| distances.iter().map(|distance| (centre + side * scale * distance) as i16).collect::<Vec<i16>>();
        let short = random.one_in(3);
        let count = random.index(1, if short { 4 } else { 18 });
        let mut far: Vec<i64> = FAR[..count].iter().rev().copied().collect();
        match random.below(5) {
            // A greatest word that occurs twice stays, and all words below it.
            0 | 1 => far.insert(0, far[0]),
            2 => far.chunks_mut(2).for_each(|pair| pair.reverse()),
            3 => random.shuffle(&mut far),
            _ => {}
        }
        let equal = random.pick(&[13, 14, 14, 14, 14, 15]);
        if short {
            // The far words are in the base. Base and series together have few words.
            if random.one_in(2) {
                far = (0..2).map(|_| random.within(50, 100)).collect();
            }
            let of_base = random.index(10 - far.len(), equal);
            far.resize(far.len() + of_base, 0);
            return form([kind, 0, 0], &words(&far), &words(&vec![0; equal - of_base]));
        }
        let n = random.pick(&[10, 11, 12, 13, 14, 15, 16, 31, 32]);
        let base = balanced(60, 60, n);
        far.resize(far.len() + equal, 0);
        let mut head = [kind, 0, 0];
        if random.one_in(8) {
            // The last word is beyond the control limit and open.
            far.push(300);
            head = [kind, random.pick(&[1, 2]), 1];
        }
        let before = match random.below(4) {
            0 | 1 => 0,
            2 => random.index(1, 9),
            _ => 366 - far.len(),
        };
        let series: Vec<i64> = (0..before).map(|_| random.within(0, 150)).chain(far).collect();
        form(head, &words(&base), &words(&series))
    }

    /// A word near a limit, the mean, or the mean and one S.
    fn edge(&mut self, view: &View) -> i64 {
        let m = self.random.within(-3, 3) as f64;
        (view.mean + m * view.s).round() as i64 + self.random.within(-1, 1)
    }

    fn word_to_post(&mut self, view: &View) -> i64 {
        if self.random.one_in(14) {
            let side = self.random.sign();
            self.aim = self.random.pick(&[
                Aim::Calm,
                Aim::Calm,
                Aim::Close,
                Aim::Run(side),
                Aim::Run(side),
                Aim::Side(side),
                Aim::Warning(side),
                Aim::Edge,
                Aim::Anywhere,
            ]);
        }
        let random = &mut self.random;
        let aimed = |distance: f64| (view.mean + distance * view.s).round() as i64;
        match self.aim {
            Aim::Calm => aimed(random.real(-1.2, 1.2)),
            // A word that is far from its neighbours, but within the chart's limits, does not stand at the next renewal.
            Aim::Close if random.one_in(10) => aimed(random.sign() as f64 * random.real(0.5, 3.0)),
            Aim::Close => aimed(random.real(-0.05, 0.05)),
            Aim::Run(way) => {
                let step = 1 + random.within(0, (view.s / 5.0) as i64);
                match view.series.last() {
                    // A kind 1 chart has no lower limit, so a run has space there even if S is 0.
                    _ if view.kind() == 1 && random.one_in(12) => random.within(0, view.mean as i64),
                    Some(&last) if (f64::from(last) - view.mean) * (way as f64) < 2.0 * view.s => i64::from(last) + way * step,
                    Some(&last) if view.kind() == 1 && way < 0 => i64::from(last) - step,
                    _ => aimed(-2.0 * way as f64),
                }
            }
            Aim::Side(side) => aimed(side as f64 * random.real(0.02, 1.9)),
            Aim::Warning(side) => aimed(side as f64 * random.real(1.9, 3.05)),
            Aim::Edge => self.edge(view),
            Aim::Anywhere => random.within(-20_000, 20_000),
        }
    }

    fn word_to_reanalyse(&mut self, view: &View) -> i64 {
        let before = view.series.len().saturating_sub(2);
        match self.random.below(6) {
            0..=2 => self.edge(view),
            3 => i64::from(view.series.get(before).copied().unwrap_or(0)) + self.random.within(-1, 1),
            4 => (view.mean + view.s * self.random.real(-1.1, 1.1)).round() as i64,
            _ => self.random.within(-20_000, 20_000),
        }
    }

    /// A reading that gives a word, or is half a word off.
    fn reading(&mut self, kind: u32, word: i64) -> Reading {
        let random = &mut self.random;
        let word = if kind == 3 { word.clamp(-20_000, 20_000) } else { word.clamp(0, 20_000) };
        let times = random.pick(&[1, 2, 2, 4, 7, 20_000]);
        let half = if random.one_in(4) { random.within(-1, 1) * times / 2 } else { 0 };
        let ignored = random.next() as i64 >> random.below(64);
        let (a, b, c) = match kind {
            1 => ((20_000 - word) * times - half, (20_000 + word) * times + half, ignored),
            2 => (word * times + half, 10_000 * times, ignored),
            _ => {
                let unspiked = random.within(20_001 * 20_000, 500_000_000);
                (unspiked + word * times + half, unspiked, 10_000 * times)
            }
        };
        if kind == 1 && random.one_in(2) {
            Reading { kind, a: b, b: a, c }
        } else {
            Reading { kind, a, b, c }
        }
    }

    /// A reading at or outside the edges, with a divisor of 0, or with a word at the edges of the range.
    fn odd_reading(&mut self, kind: u32) -> Reading {
        const EDGES: [i64; 10] = [-1, 0, 1, 999_999_999, 1_000_000_000, 1_000_000_001, i64::MIN, i64::MAX, 1 << 32, 200_005];
        let random = &mut self.random;
        let whole = 10_000 * random.pick(&[1, 10, 100]);
        match random.below(5) {
            0 => Reading { kind, a: random.pick(&EDGES), b: random.pick(&EDGES), c: random.pick(&EDGES) },
            1 => Reading { kind, a: random.within(0, 9), b: random.within(0, 9), c: random.within(0, 9) },
            2 => match kind {
                1 => Reading { kind, a: 0, b: 0, c: 5 },
                2 => Reading { kind, a: random.within(0, 3), b: 0, c: 5 },
                _ => Reading { kind, a: random.within(0, 3), b: random.within(0, 3), c: 0 },
            },
            3 if kind == 3 => Reading { kind, a: 0, b: 2 * whole + whole / 20_000 * random.within(-1, 1) + random.within(-9, 9), c: whole },
            3 => Reading { kind, a: 2 * whole + whole / 20_000 * random.within(-1, 1) + random.within(-9, 9), b: whole, c: 0 },
            _ => {
                let mut reading = Reading { kind, a: 10_000, b: 10_000, c: 10_000 };
                let place = random.below(3);
                *[&mut reading.a, &mut reading.b, &mut reading.c][place as usize] = random.pick(&EDGES);
                reading
            }
        }
    }

    fn any_kind(&mut self, kind: u32) -> u32 {
        self.random.pick(&[0, 1, 2, 3, 4, kind + 256, kind + 65_536, u32::MAX])
    }

    /// Any call, whether the chart is ready for it or not. The view is of a form that may have been damaged since.
    fn any_call(&mut self, view: &View) -> Result<u16, Stop> {
        let which = self.random.below(8);
        let word = if which == 3 { self.word_to_reanalyse(view) } else { self.word_to_post(view) };
        let mut reading = self.reading(view.kind(), word);
        if self.random.one_in(12) {
            reading = self.odd_reading(view.kind());
        }
        if self.random.one_in(20) {
            reading.kind = self.any_kind(view.kind());
        }
        let call = match which {
            0 => Call::Word(reading),
            1 => return self.against(view),
            2 => Call::Post(reading),
            3 => Call::Reanalyse(reading),
            4 => Call::Correct,
            5 => Call::Renew,
            6 => Call::Lines,
            _ => Call::Check,
        };
        self.call(call)
    }

    fn against(&mut self, view: &View) -> Result<u16, Stop> {
        let word = match self.random.below(6) {
            0 => self.random.pick(&[-32_769, -32_768, -1, 0, 32_767, 32_768, i32::MIN, i32::MAX, 65_536 + 10_000]),
            1 => self.random.next() as i32,
            _ => self.edge(view) as i32,
        };
        self.call(Call::AgainstLines { word })
    }

    /// Changes a number of the form. Its place is counted in steps of two bytes.
    fn put(&mut self, at: usize, number: u16) {
        self.lent.chart[2 * at..2 * at + 2].copy_from_slice(&number.to_le_bytes());
    }

    /// Damages the form: in ways that are refused, and in ways that give another sound chart.
    fn damage(&mut self, view: &View) {
        let size = self.lent.size;
        let series_at = 7 + view.base.len();
        match self.random.below(16) {
            0 => self.lent.chart[self.random.below(size as u64) as usize] ^= 1 << self.random.below(8),
            1 => self.lent.chart[self.random.below(size as u64) as usize] = self.random.next() as u8,
            2 => self.lent.size -= self.random.pick(&[1, 2, 3, 4, size / 2, size]),
            3 => self.lent.size = (size + self.random.index(1, 4)).min(self.lent.room),
            4 => {
                // The buffer ends at the end of the form or later, and the size is greater than the buffer.
                let room = size + self.random.pick(&[0, 0, 1, 2]);
                self.set_room(room);
                self.lent.size = room.saturating_add(self.random.pick(&[1, 2, 65_536, usize::MAX]));
            }
            5 => {
                let (at, length) = self.random.pick(&[(0, 8), (5, 2 * view.base.len() + 2), (series_at, 2 * view.series.len() + 2)]);
                if self.random.one_in(3) {
                    // One byte more at the end of the record. The record's length counts it.
                    self.put(at, length as u16 + 1);
                    let mut bytes = self.lent.chart[..size].to_vec();
                    bytes.insert(2 * at + 2 + length, 0);
                    self.set_form(&bytes);
                } else {
                    let near = length as i64 + self.random.within(-2, 2);
                    let length = self.random.pick(&[near, near, near, 0, 1, 9, 65_535]);
                    self.put(at, length as u16);
                }
            }
            6 => {
                let (at, kind) = self.random.pick(&[(1, 1), (6, 2), (series_at + 1, 3)]);
                let kind = self.random.pick(&[0, 1, 2, 3, 4, kind + 256]);
                self.put(at, kind);
            }
            7 => {
                let kind = self.random.pick(&[0, 1, 2, 3, 3, 4, 257, view.head[0] + 256]);
                self.put(2, kind);
            }
            8 => {
                let status = self.random.pick(&[0, 1, 2, 2, 3, 256, 257]);
                self.put(3, status);
            }
            9 => {
                let verdict = self.random.pick(&[0, 1, 2, 3, 4, 5, view.head[2] + 256]);
                self.put(4, verdict);
            }
            10..=12 => {
                let word =
                    if self.random.one_in(4) { self.random.pick(&[-1, 0, 20_000, 20_001, -20_000, -20_001]) } else { self.edge(view) };
                let of_base = self.random.index(7, series_at - 1);
                let last = series_at + 1 + view.series.len();
                let at = match self.random.below(3) {
                    1 if !view.series.is_empty() => self.random.index(series_at + 2, last),
                    2 if !view.series.is_empty() => last,
                    _ => of_base,
                };
                self.put(at, word as u16);
            }
            13 => {
                // Another number of words in the base, in a form that is otherwise right.
                let n = self.random.pick(&[9, 10, 15, 32, 33, view.base.len() - 1]);
                let base: Vec<i16> = view.base.iter().copied().cycle().take(n).collect();
                self.set_form(&form(view.head, &base, &view.series));
            }
            14 => {
                // Another number of words in the series.
                let n = self.random.pick(&[0, 1, 6, 7, 365, 366, 367]);
                let filler = view.mean as i16;
                let series: Vec<i16> = view.series.iter().copied().chain(std::iter::repeat(filler)).take(n).collect();
                self.set_form(&form(view.head, &view.base, &series));
            }
            _ => {
                // A status and a verdict for the series as it is: sound if the verdict is that of the last word.
                let head = [view.head[0], self.random.pick(&[1, 2]), self.random.pick(&[1, 2, 3, 4])];
                self.set_form(&form(head, &view.base, &view.series));
            }
        }
    }

    fn step(&mut self) -> Result<(), Stop> {
        let view = View::of(&self.lent);
        let (kind, status) = (view.kind(), view.head[1]);
        match self.random.below(44) {
            0..=4 => {
                let good = self.lent.clone();
                if self.random.one_in(3) {
                    // A second thing wrong, in the head.
                    let (at, number) = (self.random.index(2, 4), self.random.below(6));
                    self.put(at, number as u16);
                }
                self.damage(&view);
                for _ in 0..self.random.pick(&[1, 1, 2, 3]) {
                    self.any_call(&view)?;
                }
                self.lent = good;
            }
            5 => drop(self.call(Call::Check)?),
            6 | 7 => drop(self.call(Call::Lines)?),
            8 | 9 => drop(self.against(&view)?),
            10 | 11 => {
                let kind = if self.random.one_in(4) { self.any_kind(kind) } else { self.random.within(1, 3) as u32 };
                let reading = if self.random.one_in(2) { self.odd_reading(kind) } else { self.reading(kind, kind as i64 * 77) };
                self.call(Call::Word(reading))?;
            }
            12 => drop(self.any_call(&view)?),
            13 | 14 => {
                let mut reading = self.odd_reading(kind);
                if self.random.one_in(3) {
                    reading.kind = self.any_kind(kind);
                }
                self.call(if status == 1 { Call::Reanalyse(reading) } else { Call::Post(reading) })?;
            }
            15 => {
                let room = self.lent.size + self.random.index(0, 3);
                self.set_room(room);
                self.any_call(&view)?;
                self.set_room(FORM_MOST);
            }
            16 => drop(self.call(Call::Renew)?),
            _ => {
                let call = match status {
                    0 => {
                        let word = self.word_to_post(&view);
                        Call::Post(self.reading(kind, word))
                    }
                    1 => {
                        let word = self.word_to_reanalyse(&view);
                        Call::Reanalyse(self.reading(kind, word))
                    }
                    _ => Call::Correct,
                };
                if self.call(call)? == 9 && self.random.one_in(2) {
                    self.call(Call::Renew)?;
                }
            }
        }
        Ok(())
    }

    /// A chart is built or read, then called many times.
    fn session(&mut self) -> Result<(), Stop> {
        if self.random.one_in(2) {
            let far = self.random.one_in(3);
            if far {
                for _ in 0..self.random.below(9) {
                    let bytes = self.far_form();
                    self.set_form(&bytes);
                    self.call(Call::Renew)?;
                }
            }
            let bytes = if far { self.far_form() } else { self.made_form() };
            self.set_form(&bytes);
            if self.call(Call::Check)? != 0 {
                self.call(Call::Correct)?;
                return Ok(());
            }
        } else {
            for _ in 0..self.random.below(6) {
                self.build()?;
            }
            if self.build()? != 0 {
                return Ok(());
            }
        }
        self.set_room(FORM_MOST);
        if self.random.one_in(4) {
            self.call(Call::Renew)?;
        }
        self.aim = Aim::Calm;
        for _ in 0..self.random.pick(&[10, 30, 80, 200]) {
            self.step()?;
        }
        Ok(())
    }

    fn print(&self) {
        print!("{:<14}", "calls answering");
        (0..NUMBERS).for_each(|answer| print!("{answer:>7}"));
        println!();
        for (name, answers) in NAMES.iter().zip(&self.answers) {
            print!("{name:<15}");
            answers.iter().for_each(|count| print!("{:>7}", if *count == 0 { "-".to_string() } else { count.to_string() }));
            println!();
        }
        let list = |counts: &[u64]| {
            let counts = counts.iter().enumerate().filter(|(_, &count)| count > 0);
            counts.map(|(number, count)| format!("{number}: {count}")).collect::<Vec<_>>().join(", ")
        };
        println!("posts by verdict: {}", list(&self.verdicts));
        for (verdict, [failed, passed]) in self.reanalyses.iter().enumerate().skip(1) {
            println!("reanalyses of verdict {verdict}: {passed} passed, {failed} failed");
        }
        println!("builds by rounds: {}", list(&self.build_rounds));
        println!("renewals by rounds: {}", list(&self.renewal_rounds));
        println!("renewals by the words used: {}", list(&self.renewal_tails));
        println!("charts with a base of 10 to 14 words: {} posts, {} renewals", self.short_base_posts, self.short_base_renewals);
        println!("the longest series after a post: {} words", self.longest_series);
    }

    /// What should have occurred and did not, and answers that the header does not have.
    fn missing(&self) -> Vec<String> {
        let mut missing = Vec::new();
        for (name, (answers, expected)) in NAMES.iter().zip(self.answers.iter().zip(ANSWERS)) {
            missing.extend(expected.iter().filter(|&&a| answers[a] == 0).map(|a| format!("{name} never answered {a}")));
            missing.extend((0..NUMBERS).filter(|a| answers[*a] > 0 && !expected.contains(a)).map(|a| format!("{name} answered {a}")));
        }
        missing.extend((0..5).filter(|&v| self.verdicts[v] == 0).map(|v| format!("no post had verdict {v}")));
        for (verdict, [failed, passed]) in self.reanalyses.iter().enumerate().skip(1) {
            missing.extend((*failed == 0).then(|| format!("no reanalysis of verdict {verdict} failed")));
            missing.extend((*passed == 0).then(|| format!("no reanalysis of verdict {verdict} passed")));
        }
        for (what, rounds) in [("build", self.build_rounds), ("renewal", self.renewal_rounds)] {
            missing.extend((1..5).filter(|&n| rounds[n] == 0).map(|n| format!("no {what} of {n} rounds")));
        }
        missing.extend((15..33).filter(|&n| self.renewal_tails[n] == 0).map(|n| format!("no renewal used {n} words")));
        missing.extend((self.short_base_posts == 0).then(|| "no post to a base of 10 to 14 words".to_string()));
        missing.extend((self.short_base_renewals == 0).then(|| "no renewal of a base of 10 to 14 words".to_string()));
        missing.extend((self.longest_series < 366).then(|| "no series of 366 words".to_string()));
        missing
    }
}

pub fn run(calls: u64, seed: u64) -> Result<(), String> {
    let mut comparison = Comparison {
        random: Random(seed),
        seed,
        lent: Lent::default(),
        aim: Aim::Calm,
        calls,
        made: 0,
        answers: [[0; NUMBERS]; 9],
        verdicts: [0; 5],
        reanalyses: [[0; 2]; 5],
        build_rounds: [0; 33],
        renewal_rounds: [0; 33],
        renewal_tails: [0; 33],
        short_base_posts: 0,
        short_base_renewals: 0,
        longest_series: 0,
    };
    loop {
        match comparison.session() {
            Ok(()) => {}
            Err(Stop::Enough) => break,
            Err(Stop::Difference(report)) => return Err(report),
        }
    }
    comparison.print();
    let missing = comparison.missing();
    if calls >= ENOUGH && !missing.is_empty() {
        return Err(format!("the calls were not good enough: {}", missing.join("; ")));
    }
    println!("{calls} calls of seed {seed}: no difference");
    Ok(())
}
