//! Measures both engines in one run, on the same inputs.
//!
//! Every call that takes a chart works on a fresh copy of the same form, in a buffer of 814 bytes that is copied whole before the call.
//! Building and a word alone take no chart and have no copy. The loop without a call, with the copy or without it, is measured in the same
//! way and subtracted for both engines.

use crate::engines::{form, Engine, Plain, Proved, FORM_MOST};
use std::hint::black_box;
use std::time::Instant;

/// Batches alternate between the engines, and the fastest batch of each counts: other work on the machine only ever adds time.
const BATCHES: usize = 1000;
const CALLS_OF_A_BATCH: u64 = 200;

#[derive(Clone, Copy)]
enum What {
    Nothing,
    Word,
    Build,
    Post,
    Reanalyse,
    Correct,
    Renew,
    Lines,
    AgainstLines,
    Check,
}

/// A row of the table: a call with its inputs.
struct Row {
    name: &'static str,
    text: &'static str,
    what: What,
    words: Vec<i16>,
    form: Vec<u8>,
    reading: (u32, i64, i64, i64),
}

/// The course's base A: mean 10000, S 100.
fn base_a() -> Vec<i16> {
    [9900, 10_100].repeat(7).into_iter().chain([10_000]).collect()
}

/// Words on both sides of A's mean, in an order that gives verdict 0. If `rising` is true, the last seven rise, for verdict 3.
fn series(n: usize, rising: bool) -> Vec<i16> {
    let calm = [9950, 10_030, 9990, 10_110, 9890, 10_070].into_iter().cycle();
    if rising {
        calm.take(n - 7).chain((0..7).map(|i| 9950 + 10 * i)).collect()
    } else {
        calm.take(n).collect()
    }
}

fn rows() -> Vec<Row> {
    let free = |n| form([2, 0, 0], &base_a(), &series(n, false));
    let due = |status, n| form([2, status, 3], &base_a(), &series(n, true));
    let full = |status, verdict| form([2, status, verdict], &[9900, 10_100].repeat(16), &series(366, status != 0));
    let duplicates = form([1, 0, 0], &[900, 1100].repeat(7).into_iter().chain([1000]).collect::<Vec<i16>>(), &[1000, 1050, 990]);
    // The words far away are removed one by one.
    let far = [10_060, 10_400, 12_600, 20_000].into_iter();
    let several: Vec<i16> = (0..28).map(|i| 10_000 + 3 * (i % 7)).chain(far).collect();
    // Only the tail of 32 words will do.
    let far_words = [1, 105, 125, 73, 88, 49, 60, 31, 39, 19, 24, 10, 14, 5, 7, 2, 3, 1].into_iter();
    let long_tail = form([1, 0, 0], &[0, 300].repeat(8), &far_words.chain([0; 14]).collect::<Vec<i16>>());
    let check = (2, 1001, 1000, 0);
    let row = |name, text, what, form: Vec<u8>| Row { name, text, what, words: Vec::new(), form, reading: check };
    vec![
        row("loop", "the loop alone", What::Nothing, Vec::new()),
        row("copy", "the loop with the copy", What::Nothing, free(10)),
        Row { words: base_a(), ..row("build-15", "building, 15 words, 1 round", What::Build, Vec::new()) },
        Row { words: several, ..row("build-32", "building, 32 words, 5 rounds", What::Build, Vec::new()) },
        row("post-10", "posting to a series of 10 words", What::Post, free(10)),
        row("post-360", "posting to a series of 360 words", What::Post, free(360)),
        row("reanalyse-10", "reanalysis, series of 10 words", What::Reanalyse, due(1, 10)),
        row("reanalyse-360", "reanalysis, series of 360 words", What::Reanalyse, due(1, 360)),
        row("check-short", "reading a form of 68 bytes", What::Check, free(10)),
        row("check-full", "reading a form of 814 bytes", What::Check, full(0, 0)),
        row("correct-short", "correction, form of 68 bytes", What::Correct, due(2, 10)),
        row("correct-full", "correction, form of 814 bytes", What::Correct, full(2, 3)),
        row("renew-10", "renewal, series of 10 words", What::Renew, free(10)),
        row("renew-360", "renewal, series of 360 words", What::Renew, free(360)),
        row("renew-18", "renewal, 18 tails tried", What::Renew, long_tail),
        row("lines-kind-2", "five lines, form of 68 bytes", What::Lines, free(10)),
        row("lines-kind-1", "three lines, form of 54 bytes", What::Lines, duplicates),
        row("against-lines", "a word against the lines", What::AgainstLines, free(10)),
        Row { reading: (3, 123_456, 23_456, 98_765), ..row("word", "a word alone, spike", What::Word, Vec::new()) },
    ]
}

impl Row {
    /// The row of what is measured with the call and has to be subtracted, as a place in the rows.
    fn overhead(&self) -> usize {
        usize::from(!self.form.is_empty())
    }

    /// Makes the call a number of times. Answers what the last one left, for comparing the engines.
    fn run<E: Engine>(&self, times: u64) -> Outcome {
        let mut form = [0; FORM_MOST];
        form[..self.form.len()].copy_from_slice(&self.form);
        let mut outcome = Outcome { answer: 0, chart: form, size: self.form.len(), numbers: [0; 2], lines: [0.0; 5], beyond: [0; 4] };
        // One loop for each call, so that no choice between calls is measured.
        match self.what {
            What::Nothing => self.repeat(times, &form, &mut outcome, |_, _| 0),
            What::Word => self.repeat(times, &form, &mut outcome, |row, out| {
                let (kind, a, b, c) = row.reading;
                let mut word = 0;
                let answer = E::word(kind, a, b, c, &mut word);
                out.numbers[0] = word as usize;
                answer
            }),
            What::Build => self.repeat(times, &form, &mut outcome, |row, out| {
                let [rounds, removed] = &mut out.numbers;
                E::build(row.reading.0, &row.words, &mut out.chart, &mut out.size, rounds, removed)
            }),
            What::Post => self.repeat(times, &form, &mut outcome, |row, out| {
                let (kind, a, b, c) = row.reading;
                let (mut word, mut verdict) = (0, 0);
                let answer = E::post(&mut out.chart, &mut out.size, kind, a, b, c, &mut word, &mut verdict);
                out.numbers = [word as usize, verdict.into()];
                answer
            }),
            What::Reanalyse => self.repeat(times, &form, &mut outcome, |row, out| {
                let (kind, a, b, c) = row.reading;
                let (mut word, mut passed) = (0, 0);
                let answer = E::reanalyse(&mut out.chart, &mut out.size, kind, a, b, c, &mut word, &mut passed);
                out.numbers = [word as usize, passed.into()];
                answer
            }),
            What::Correct => self.repeat(times, &form, &mut outcome, |_, out| E::correct(&mut out.chart, &mut out.size)),
            What::Renew => self.repeat(times, &form, &mut outcome, |_, out| {
                let [rounds, removed] = &mut out.numbers;
                E::renew(&mut out.chart, &mut out.size, rounds, removed)
            }),
            What::Lines => {
                self.repeat(times, &form, &mut outcome, |_, out| E::lines(&out.chart[..out.size], &mut out.lines, &mut out.numbers[0]))
            }
            What::AgainstLines => {
                self.repeat(times, &form, &mut outcome, |_, out| E::against_lines(&out.chart[..out.size], 10_250, &mut out.beyond))
            }
            What::Check => self.repeat(times, &form, &mut outcome, |_, out| E::check(&out.chart[..out.size])),
        }
        outcome
    }

    #[inline(always)]
    fn repeat(&self, times: u64, form: &[u8; FORM_MOST], outcome: &mut Outcome, mut call: impl FnMut(&Row, &mut Outcome) -> u16) {
        for _ in 0..times {
            if !self.form.is_empty() {
                outcome.chart = *black_box(form);
                outcome.size = self.form.len();
            }
            let outcome = black_box(&mut *outcome);
            outcome.answer = call(black_box(self), outcome);
        }
    }
}

#[derive(PartialEq)]
struct Outcome {
    answer: u16,
    chart: [u8; FORM_MOST],
    size: usize,
    numbers: [usize; 2],
    lines: [f64; 5],
    beyond: [u8; 4],
}

/// Nanoseconds of a call in one batch.
fn batch<E: Engine>(row: &Row) -> f64 {
    let start = Instant::now();
    black_box(row.run::<E>(CALLS_OF_A_BATCH));
    start.elapsed().as_nanos() as f64 / CALLS_OF_A_BATCH as f64
}

pub fn run() -> Result<(), String> {
    let rows = rows();
    println!(
        "ns of a call, from the fastest of {BATCHES} batches of {CALLS_OF_A_BATCH} calls of each engine, in turn. The overhead, which"
    );
    println!("is subtracted, is the loop without the call; before a call that takes a chart the loop copies {FORM_MOST} bytes.");
    println!("{:<14} {:<34} {:>9} {:>9} {:>9} {:>9}", "row", "", "overhead", "proved", "plain", "ratio");
    for row in &rows[2..] {
        let (proved, plain) = (row.run::<Proved>(1), row.run::<Plain>(1));
        if proved != plain || plain.answer != 0 {
            return Err(format!("row {}: the engines do not both accept with the same result", row.name));
        }
        let [mut proved, mut plain, mut overhead] = [f64::INFINITY; 3];
        for _ in 0..BATCHES {
            proved = proved.min(batch::<Proved>(row));
            plain = plain.min(batch::<Plain>(row));
            overhead = overhead.min(batch::<Plain>(&rows[row.overhead()]));
        }
        let (proved, plain) = (proved - overhead, plain - overhead);
        println!("{:<14} {:<34} {overhead:>9.1} {proved:>9.1} {plain:>9.1} {:>9.2}", row.name, row.text, proved / plain);
    }
    Ok(())
}

/// The names of the rows, each with the name of the row that is its overhead.
pub fn names() -> Result<(), String> {
    let rows = rows();
    rows[2..].iter().for_each(|row| println!("{} {}", row.name, rows[row.overhead()].name));
    Ok(())
}

/// Runs one row for one engine, for counting instructions.
pub fn count<E: Engine>(name: &str, times: u64) -> Result<(), String> {
    let row = rows().into_iter().find(|row| row.name == name).ok_or(format!("no row {name}"))?;
    black_box(row.run::<E>(times));
    Ok(())
}
