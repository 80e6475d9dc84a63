//! Control charts for duplicate, check and spike results, in plain Rust.
//!
//! It follows only the paper and include/control_chart.h. It is compared with the proved library call by call, and measured beside it. A
//! chart is always in its stored form. Every call reads the form once, which checks it, and writes only the bytes that the call changes.

use std::cmp::Ordering;
use std::ops::RangeInclusive;

const BASE: RangeInclusive<usize> = 10..=32;
const BASE_MOST: usize = 32;
const SERIES_MOST: usize = 366;
const READINGS: RangeInclusive<i64> = 0..=1_000_000_000;

/// A build and a renewal need this many words, and this many have to stand after rejection. Only a form can hold a shorter base.
const BUILD_LEAST: usize = 15;

/// The limits are this many S away from the mean.
const WARNING: i64 = 2;
const CONTROL: i64 = 3;

/// Lines are whole numbers of 256ths.
const LINE_SCALE: i64 = 256;

/// The number of words in a run, for verdicts 3 and 4.
const RUN: usize = 7;

const FREE: u16 = 0;
const REANALYSIS_DUE: u16 = 1;
const CORRECTION_DUE: u16 = 2;

/// The places of the parts of the stored form.
const STATUS_AT: usize = 6;
const VERDICT_AT: usize = 8;
const BASE_AT: usize = 14;

/// A number as it is stored: the lower byte first.
type Stored = [u8; 2];

#[derive(Clone, Copy)]
#[repr(u16)]
enum Refusal {
    NoKind = 1,
    WordCount = 2,
    BaseWordRange = 3,
    OtherKind = 4,
    Reading = 5,
    Divisor = 6,
    WordRange = 7,
    NotFree = 8,
    SeriesFull = 9,
    NoReanalysisDue = 10,
    NoCorrectionDue = 11,
    TooFewWords = 12,
    NoForm = 13,
    Unsound = 14,
    TooShort = 15,
    TooFewStand = 16,
}

#[derive(Clone, Copy, PartialEq, Eq)]
enum Kind {
    Duplicate = 1,
    Check = 2,
    Spike = 3,
}

impl Kind {
    fn of(number: u32) -> Option<Kind> {
        match number {
            1 => Some(Kind::Duplicate),
            2 => Some(Kind::Check),
            3 => Some(Kind::Spike),
            _ => None,
        }
    }

    fn words(self) -> RangeInclusive<i16> {
        match self {
            Kind::Duplicate => 0..=20_000,
            Kind::Check | Kind::Spike => -20_000..=20_000,
        }
    }

    /// The word of a reading: the nearest whole number, halves to the even one.
    fn word(self, a: i64, b: i64, c: i64) -> Result<i16, Refusal> {
        let in_range = READINGS.contains(&a) && READINGS.contains(&b) && (self != Kind::Spike || READINGS.contains(&c));
        if !in_range {
            return Err(Refusal::Reading);
        }
        let (numerator, divisor) = match self {
            Kind::Duplicate => (20_000 * (a - b).abs(), a + b),
            Kind::Check => (10_000 * a, b),
            Kind::Spike => (10_000 * (a - b), c),
        };
        if divisor == 0 {
            return Err(Refusal::Divisor);
        }
        let size = nearest(numerator.abs(), divisor);
        i16::try_from(size * numerator.signum()).ok().filter(|word| self.words().contains(word)).ok_or(Refusal::WordRange)
    }
}

/// The quotient of two whole numbers that are not negative, rounded: halves go to the even one.
fn nearest(numerator: i64, divisor: i64) -> i64 {
    let whole = numerator / divisor;
    match (2 * (numerator % divisor)).cmp(&divisor) {
        Ordering::Less => whole,
        Ordering::Equal => whole + whole % 2,
        Ordering::Greater => whole + 1,
    }
}

/// The number n of some words, their sum T and the sum Q of their squares.
#[derive(Clone, Copy)]
struct Sums {
    n: i64,
    t: i64,
    q: i64,
}

impl Sums {
    fn of(words: impl Iterator<Item = i16>) -> Sums {
        words.map(i64::from).fold(Sums { n: 0, t: 0, q: 0 }, |s, word| Sums { n: s.n + 1, t: s.t + word, q: s.q + word * word })
    }

    fn without(self, word: i16) -> Sums {
        let word = i64::from(word);
        Sums { n: self.n - 1, t: self.t - word, q: self.q - word * word }
    }
}

/// The limits of n words: their sum T, and V = nQ - T^2 where Q is the sum of their squares. The mean is T/n and S^2 = V / (n (n - 1)), so
/// a word is judged in whole numbers.
struct Limits {
    two_sided: bool,
    n: i64,
    t: i64,
    v: i64,
}

impl Limits {
    fn of(kind: Kind, Sums { n, t, q }: Sums) -> Limits {
        Limits { two_sided: kind != Kind::Duplicate, n, t, v: n * q - t * t }
    }

    /// n times the word's distance above the mean.
    fn above_mean(&self, word: i16) -> i64 {
        self.n * i64::from(word) - self.t
    }

    /// |word - mean| against m S: both times n, squared, times n - 1.
    fn distance(&self, word: i16, m: i64) -> Ordering {
        let d = self.above_mean(word);
        (d * d * (self.n - 1)).cmp(&(m * m * self.n * self.v))
    }

    fn beyond_upper(&self, m: i64, word: i16) -> bool {
        self.above_mean(word) > 0 && self.distance(word, m).is_gt()
    }

    fn beyond_lower(&self, m: i64, word: i16) -> bool {
        self.two_sided && self.above_mean(word) < 0 && self.distance(word, m).is_gt()
    }

    fn beyond(&self, m: i64, word: i16) -> bool {
        self.beyond_upper(m, word) || self.beyond_lower(m, word)
    }

    /// The verdict on a word that follows the words before it in the series: the first that applies, in the order 1, 2, 4, 3.
    fn judge(&self, before: &[Stored], word: i16) -> u16 {
        if self.beyond(CONTROL, word) {
            return 1;
        }
        if let Some(&previous) = before.last() {
            let previous = i16::from_le_bytes(previous);
            if self.beyond_upper(WARNING, word) && self.beyond_upper(WARNING, previous)
                || self.beyond_lower(WARNING, word) && self.beyond_lower(WARNING, previous)
            {
                return 2;
            }
        }
        let Some(last) = before.last_chunk::<{ RUN - 1 }>() else {
            return 0;
        };
        let mut run = [word; RUN];
        for (place, &stored) in run.iter_mut().zip(last) {
            *place = i16::from_le_bytes(stored);
        }
        if self.two_sided && (run.iter().all(|&word| self.above_mean(word) > 0) || run.iter().all(|&word| self.above_mean(word) < 0)) {
            return 4;
        }
        if run.windows(2).all(|pair| pair[0] < pair[1]) || run.windows(2).all(|pair| pair[0] > pair[1]) {
            return 3;
        }
        0
    }

    fn mean_line(&self) -> f64 {
        line((LINE_SCALE * self.t).div_euclid(self.n))
    }

    /// The lines of the lower and the upper limit: the least multiple of 1/256 not below the one, the greatest not above the other.
    /// Let e be the greatest whole number not above 256 n m S. Then k / 256 is not above the upper limit exactly if k n - 256 T <= e,
    /// because the left side is whole. The square stays below 2^63 for every base.
    fn limit_lines(&self, m: i64) -> (f64, f64) {
        let e = (LINE_SCALE * LINE_SCALE * m * m * self.n * self.v / (self.n - 1)).isqrt();
        let mean = LINE_SCALE * self.t;
        (line(-(e - mean).div_euclid(self.n)), line((mean + e).div_euclid(self.n)))
    }
}

fn line(k: i64) -> f64 {
    k as f64 / LINE_SCALE as f64
}

/// A sound chart in the bytes of its stored form.
struct Chart<'a> {
    kind: Kind,
    status: u16,
    verdict: u16,
    base: &'a [Stored],
    series: &'a [Stored],
    limits: Limits,
}

impl<'a> Chart<'a> {
    /// Reads the form at the front of a buffer.
    fn read_front(buffer: &'a [u8], size: usize) -> Result<Chart<'a>, Refusal> {
        Chart::read(buffer.get(..size).ok_or(Refusal::NoForm)?)
    }

    fn read(form: &'a [u8]) -> Result<Chart<'a>, Refusal> {
        let (head, base, series) = records(form).ok_or(Refusal::NoForm)?;
        let [kind, status, verdict] = head.map(u16::from_le_bytes);
        let kind = Kind::of(kind.into()).ok_or(Refusal::Unsound)?;
        let limits = Limits::of(kind, Sums::of(words(base)));
        let chart = Chart { kind, status, verdict, base, series, limits };
        if chart.is_sound() {
            Ok(chart)
        } else {
            Err(Refusal::Unsound)
        }
    }

    fn is_sound(&self) -> bool {
        if !self.holds(self.base) {
            return false;
        }
        match (self.status, self.series) {
            (FREE, series) => self.verdict == 0 && self.holds(series),
            (REANALYSIS_DUE | CORRECTION_DUE, [before @ .., last]) => {
                let last = i16::from_le_bytes(*last);
                self.holds(before)
                    && self.kind.words().contains(&last)
                    && self.verdict != 0
                    && self.verdict == self.limits.judge(before, last)
            }
            _ => false,
        }
    }

    /// Whether the words are in range and within the control limits. All of them are, if the least and the greatest are.
    fn holds(&self, stored: &[Stored]) -> bool {
        let (least, greatest) = words(stored).fold((i16::MAX, i16::MIN), |(least, greatest), w| (least.min(w), greatest.max(w)));
        let range = self.kind.words();
        stored.is_empty()
            || *range.start() <= least
                && greatest <= *range.end()
                && !self.limits.beyond_lower(CONTROL, least)
                && !self.limits.beyond_upper(CONTROL, greatest)
    }

    /// Whether the reanalysis of the last word passes. The chart's verdict is open.
    fn passes(&self, word: i16) -> bool {
        if self.limits.beyond(CONTROL, word) {
            return false;
        }
        let near = || self.limits.distance(word, 1).is_lt();
        match (self.verdict, self.series) {
            (2, _) => !self.limits.beyond(WARNING, word),
            (3, [.., before, last]) => {
                let (before, last) = (i16::from_le_bytes(*before), i16::from_le_bytes(*last));
                let turned = if before < last { word < before } else { word > before };
                turned || near()
            }
            (4, [.., last]) => {
                let run_side = self.limits.above_mean(i16::from_le_bytes(*last)).signum();
                self.limits.above_mean(word).signum() != run_side || near()
            }
            _ => true,
        }
    }

    /// Where the series' record starts in the form.
    fn series_record_at(&self) -> usize {
        BASE_AT + 2 * self.base.len()
    }
}

fn words(stored: &[Stored]) -> impl Iterator<Item = i16> + '_ {
    stored.iter().map(|&bytes| i16::from_le_bytes(bytes))
}

/// The three records of a form: the head's three numbers, the base and the series.
fn records(form: &[u8]) -> Option<([Stored; 3], &[Stored], &[Stored])> {
    let (head, rest) = record(form, 1)?;
    let (base, rest) = record(rest, 2)?;
    let (series, rest) = record(rest, 3)?;
    let head = head.try_into().ok()?;
    (BASE.contains(&base.len()) && series.len() <= SERIES_MOST && rest.is_empty()).then_some((head, base, series))
}

/// The record of a kind at the front of some bytes, and the bytes after it.
fn record(bytes: &[u8], kind: u16) -> Option<(&[Stored], &[u8])> {
    let (&length, rest) = bytes.split_first_chunk()?;
    let (body, rest) = rest.split_at_checked(u16::from_le_bytes(length).into())?;
    let (numbers, odd_byte) = body.as_chunks();
    let (&found, contents) = numbers.split_first()?;
    (odd_byte.is_empty() && found == kind.to_le_bytes()).then_some((contents, rest))
}

fn put(chart: &mut [u8], at: usize, number: u16) {
    chart[at..at + 2].copy_from_slice(&number.to_le_bytes());
}

fn put_state(chart: &mut [u8], status: u16, verdict: u16) {
    put(chart, STATUS_AT, status);
    put(chart, VERDICT_AT, verdict);
}

/// Writes a chart with an empty series to the front of a buffer. Answers the number of bytes.
fn write_fresh(buffer: &mut [u8], kind: Kind, base: &[i16]) -> Result<usize, Refusal> {
    let size = BASE_AT + 2 * base.len() + 4;
    let form = buffer.get_mut(..size).ok_or(Refusal::TooShort)?;
    let head = [8, 1, kind as u16, FREE, 0, 2 + 2 * base.len() as u16, 2];
    let numbers = head.into_iter().chain(base.iter().map(|&w| w as u16));
    for (place, number) in form.chunks_exact_mut(2).zip(numbers.chain([2, 3])) {
        place.copy_from_slice(&number.to_le_bytes());
    }
    Ok(size)
}

/// What rejection leaves of some words: those that stand, at the front of their array.
struct Rejected {
    words: [i16; BASE_MOST],
    left: usize,
    rounds: usize,
    removed: usize,
}

impl Rejected {
    fn standing(&self) -> &[i16] {
        &self.words[..self.left]
    }

    fn enough_stand(&self) -> bool {
        self.left >= BUILD_LEAST
    }
}

/// Removes the words beyond the control limits, all of a round together, until a round removes nothing. Takes at most 32 words. They are
/// summed once. Each round after the first is given the sums less the words that were removed.
fn reject(kind: Kind, given: impl Iterator<Item = i16>) -> Rejected {
    let mut words = [0; BASE_MOST];
    let mut left = 0;
    for word in given {
        words[left] = word;
        left += 1;
    }
    let count = left;
    let mut sums = Sums::of(words[..count].iter().copied());
    let mut rounds = 0;
    loop {
        rounds += 1;
        let limits = Limits::of(kind, sums);
        let mut kept = 0;
        for i in 0..left {
            if limits.beyond(CONTROL, words[i]) {
                sums = sums.without(words[i]);
            } else {
                words[kept] = words[i];
                kept += 1;
            }
        }
        if kept == left {
            return Rejected { words, left, rounds, removed: count - left };
        }
        left = kept;
    }
}

/// The last n words of the base followed by the series.
fn tail<'a>(base: &'a [Stored], series: &'a [Stored], n: usize) -> impl Iterator<Item = i16> + 'a {
    let of_series = n.min(series.len());
    let of_base = n - of_series;
    words(&base[base.len() - of_base..]).chain(words(&series[series.len() - of_series..]))
}

/// Rejects the last 15 words of the base followed by the series, then the last 16, and so on up to 32 or all there are. Answers the first
/// that leaves enough standing.
fn reject_tails(kind: Kind, base: &[Stored], series: &[Stored]) -> Option<Rejected> {
    let longest = (base.len() + series.len()).min(BASE_MOST);
    (BUILD_LEAST..=longest).map(|n| reject(kind, tail(base, series, n))).find(Rejected::enough_stand)
}

/// The number that a call answers.
fn answer(call: impl FnOnce() -> Result<(), Refusal>) -> u16 {
    call().map_or_else(|refusal| refusal as u16, |()| 0)
}

pub fn word(kind: u32, a: i64, b: i64, c: i64, word: &mut i16) -> u16 {
    answer(|| {
        *word = Kind::of(kind).ok_or(Refusal::NoKind)?.word(a, b, c)?;
        Ok(())
    })
}

pub fn build(kind: u32, words: &[i16], chart: &mut [u8], size: &mut usize, rounds: &mut usize, removed: &mut usize) -> u16 {
    answer(|| {
        let kind = Kind::of(kind).ok_or(Refusal::NoKind)?;
        if !(BUILD_LEAST..=BASE_MOST).contains(&words.len()) {
            return Err(Refusal::WordCount);
        }
        if !words.iter().all(|word| kind.words().contains(word)) {
            return Err(Refusal::BaseWordRange);
        }
        let base = reject(kind, words.iter().copied());
        if !base.enough_stand() {
            return Err(Refusal::TooFewStand);
        }
        *size = write_fresh(chart, kind, base.standing())?;
        *rounds = base.rounds;
        *removed = base.removed;
        Ok(())
    })
}

#[allow(clippy::too_many_arguments)]
pub fn post(chart: &mut [u8], size: &mut usize, kind: u32, a: i64, b: i64, c: i64, word: &mut i16, verdict: &mut u16) -> u16 {
    answer(|| {
        let read = Chart::read_front(chart, *size)?;
        if read.status != FREE {
            return Err(Refusal::NotFree);
        }
        if read.series.len() == SERIES_MOST {
            return Err(Refusal::SeriesFull);
        }
        if kind != read.kind as u32 {
            return Err(Refusal::OtherKind);
        }
        let posted = read.kind.word(a, b, c)?;
        let judged = read.limits.judge(read.series, posted);
        let series_record_at = read.series_record_at();
        let series_length = 2 + 2 * (read.series.len() as u16 + 1);
        if chart.len() < *size + 2 {
            return Err(Refusal::TooShort);
        }
        let status = match judged {
            0 => FREE,
            4 => CORRECTION_DUE,
            _ => REANALYSIS_DUE,
        };
        put_state(chart, status, judged);
        put(chart, series_record_at, series_length);
        put(chart, *size, posted as u16);
        *size += 2;
        *word = posted;
        *verdict = judged;
        Ok(())
    })
}

#[allow(clippy::too_many_arguments)]
pub fn reanalyse(chart: &mut [u8], size: &mut usize, kind: u32, a: i64, b: i64, c: i64, word: &mut i16, passed: &mut u8) -> u16 {
    answer(|| {
        let read = Chart::read_front(chart, *size)?;
        if read.status != REANALYSIS_DUE {
            return Err(Refusal::NoReanalysisDue);
        }
        if kind != read.kind as u32 {
            return Err(Refusal::OtherKind);
        }
        let analysed = read.kind.word(a, b, c)?;
        let passes = read.passes(analysed);
        if passes {
            put_state(chart, FREE, 0);
            put(chart, *size - 2, analysed as u16);
        } else {
            put(chart, STATUS_AT, CORRECTION_DUE);
        }
        *word = analysed;
        *passed = passes.into();
        Ok(())
    })
}

pub fn correct(chart: &mut [u8], size: &mut usize) -> u16 {
    answer(|| {
        if Chart::read_front(chart, *size)?.status != CORRECTION_DUE {
            return Err(Refusal::NoCorrectionDue);
        }
        put(chart, STATUS_AT, REANALYSIS_DUE);
        Ok(())
    })
}

pub fn renew(chart: &mut [u8], size: &mut usize, rounds: &mut usize, removed: &mut usize) -> u16 {
    answer(|| {
        let read = Chart::read_front(chart, *size)?;
        if read.status != FREE {
            return Err(Refusal::NotFree);
        }
        if read.base.len() + read.series.len() < BUILD_LEAST {
            return Err(Refusal::TooFewWords);
        }
        let kind = read.kind;
        let base = reject_tails(kind, read.base, read.series).ok_or(Refusal::TooFewStand)?;
        // The new form is never longer than the old one, so the buffer has room.
        *size = write_fresh(chart, kind, base.standing())?;
        *rounds = base.rounds;
        *removed = base.removed;
        Ok(())
    })
}

pub fn lines(chart: &[u8], lines: &mut [f64], count: &mut usize) -> u16 {
    answer(|| {
        let limits = Chart::read(chart)?.limits;
        let mean = limits.mean_line();
        let (lower_warning, upper_warning) = limits.limit_lines(WARNING);
        let (lower_control, upper_control) = limits.limit_lines(CONTROL);
        let drawn: &[f64] = if limits.two_sided {
            &[mean, lower_warning, upper_warning, lower_control, upper_control]
        } else {
            &[mean, upper_warning, upper_control]
        };
        lines.get_mut(..drawn.len()).ok_or(Refusal::TooShort)?.copy_from_slice(drawn);
        *count = drawn.len();
        Ok(())
    })
}

pub fn against_lines(chart: &[u8], word: i32, beyond: &mut [u8]) -> u16 {
    answer(|| {
        let limits = Chart::read(chart)?.limits;
        let word = i16::try_from(word).map_err(|_| Refusal::WordRange)?;
        let places = beyond.first_chunk_mut().ok_or(Refusal::TooShort)?;
        *places = [
            limits.beyond_lower(WARNING, word),
            limits.beyond_upper(WARNING, word),
            limits.beyond_lower(CONTROL, word),
            limits.beyond_upper(CONTROL, word),
        ]
        .map(u8::from);
        Ok(())
    })
}

pub fn check(chart: &[u8]) -> u16 {
    answer(|| Chart::read(chart).map(|_| ()))
}

#[cfg(test)]
#[path = "plain_tests.rs"]
mod tests;
