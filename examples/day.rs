//! A day at the bench, from Rust: builds a chart, posts three results, analyses one again, and keeps the chart in a new file.
//!
//!     make lib
//!     rustc --edition 2021 examples/day.rs -L native=target/lib -l static=control_chart -o target/day_rs
//!     target/day_rs target/rs.chart
//!
//! Every check sample was made up to 1.000 mg/L. A reading is what was found, in thousandths.

use std::error::Error;
use std::ffi::CStr;
use std::fmt;
use std::fs::OpenOptions;
use std::io::Write;
use std::os::raw::c_char;

// From include/control_chart.h.
const CHECK: u32 = 2;
const FORM_MOST: usize = 814;
const LINES_MOST: usize = 5;
const TEXT_MOST: usize = 64;

const MADE_UP: i64 = 1000;
const BASE: [i64; 15] = [990, 990, 990, 990, 990, 990, 990, 1010, 1010, 1010, 1010, 1010, 1010, 1010, 1000];

#[rustfmt::skip]
extern "C" {
    fn control_chart_word(kind: u32, a: i64, b: i64, c: i64, word: *mut i16) -> u16;
    fn control_chart_build(kind: u32, words: *const i16, count: usize, chart: *mut u8, room: usize, size: *mut usize,
                           rounds: *mut usize, removed: *mut usize) -> u16;
    fn control_chart_post(chart: *mut u8, room: usize, size: *mut usize, kind: u32, a: i64, b: i64, c: i64,
                          word: *mut i16, verdict: *mut u16) -> u16;
    fn control_chart_reanalyse(chart: *mut u8, room: usize, size: *mut usize, kind: u32, a: i64, b: i64, c: i64,
                               word: *mut i16, passed: *mut u8) -> u16;
    fn control_chart_lines(chart: *const u8, size: usize, lines: *mut f64, room: usize, count: *mut usize) -> u16;
    fn control_chart_refusal_text(number: u32, text: *mut c_char, room: usize) -> u16;
    fn control_chart_verdict_text(verdict: u32, text: *mut c_char, room: usize) -> u16;
}

/// A call was refused, by this number. Nothing changed.
#[derive(Debug)]
struct Refused(u16);

impl fmt::Display for Refused {
    fn fmt(&self, f: &mut fmt::Formatter) -> fmt::Result {
        write!(f, "refused {}: {}", self.0, text_of(control_chart_refusal_text, self.0))
    }
}

impl Error for Refused {}

fn done(number: u16) -> Result<(), Refused> {
    if number == 0 {
        Ok(())
    } else {
        Err(Refused(number))
    }
}

fn text_of(function: unsafe extern "C" fn(u32, *mut c_char, usize) -> u16, number: u16) -> String {
    let mut text = [0 as c_char; TEXT_MOST];
    // The buffer has room for every text, and the text ends with a 0 byte.
    unsafe {
        function(number.into(), text.as_mut_ptr(), TEXT_MOST);
        CStr::from_ptr(text.as_ptr()).to_string_lossy().into_owned()
    }
}

fn word_of(found: i64) -> Result<i16, Refused> {
    let mut word = 0;
    done(unsafe { control_chart_word(CHECK, found, MADE_UP, 0, &mut word) })?;
    Ok(word)
}

/// A chart in its stored form: the first `size` bytes of a buffer that has room for every chart.
struct Chart {
    buffer: [u8; FORM_MOST],
    size: usize,
}

impl Chart {
    /// The chart, the number of rounds and the number of words removed.
    fn build(kind: u32, words: &[i16]) -> Result<(Chart, usize, usize), Refused> {
        let mut chart = Chart { buffer: [0; FORM_MOST], size: 0 };
        let (mut rounds, mut removed) = (0, 0);
        let buffer = chart.buffer.as_mut_ptr();
        done(unsafe {
            control_chart_build(
                kind,
                words.as_ptr(),
                words.len(),
                buffer,
                FORM_MOST,
                &mut chart.size,
                &mut rounds,
                &mut removed,
            )
        })?;
        Ok((chart, rounds, removed))
    }

    fn form(&self) -> &[u8] {
        &self.buffer[..self.size]
    }

    fn lines(&self) -> Result<Vec<f64>, Refused> {
        let mut lines = [0.0; LINES_MOST];
        let mut count = 0;
        let buffer = self.buffer.as_ptr();
        done(unsafe { control_chart_lines(buffer, self.size, lines.as_mut_ptr(), LINES_MOST, &mut count) })?;
        Ok(lines[..count].to_vec())
    }

    /// The word and the verdict on it.
    fn post(&mut self, kind: u32, a: i64, b: i64, c: i64) -> Result<(i16, u16), Refused> {
        let (mut word, mut verdict) = (0, 0);
        let buffer = self.buffer.as_mut_ptr();
        done(unsafe {
            control_chart_post(buffer, FORM_MOST, &mut self.size, kind, a, b, c, &mut word, &mut verdict)
        })?;
        Ok((word, verdict))
    }

    /// The word, and whether the reanalysis passed.
    fn reanalyse(&mut self, kind: u32, a: i64, b: i64, c: i64) -> Result<(i16, bool), Refused> {
        let (mut word, mut passed) = (0, 0);
        let buffer = self.buffer.as_mut_ptr();
        done(unsafe {
            control_chart_reanalyse(buffer, FORM_MOST, &mut self.size, kind, a, b, c, &mut word, &mut passed)
        })?;
        Ok((word, passed == 1))
    }
}

fn post(chart: &mut Chart, found: i64) {
    match chart.post(CHECK, found, MADE_UP, 0) {
        Ok((word, verdict)) => {
            println!("word {} verdict {}: {}", word, verdict, text_of(control_chart_verdict_text, verdict))
        }
        Err(refused) => println!("{}", refused),
    }
}

fn main() -> Result<(), Box<dyn Error>> {
    let name = std::env::args().nth(1).ok_or("give the name of a new file")?;
    let mut file = OpenOptions::new().write(true).create_new(true).open(name)?; // a file that is there stays as it is
    let words = BASE.iter().map(|&found| word_of(found)).collect::<Result<Vec<i16>, Refused>>()?;
    println!("word {}", words[0]);
    let (mut chart, rounds, removed) = Chart::build(CHECK, &words)?;
    println!("built rounds {} removed {}", rounds, removed);
    let lines: Vec<String> = chart.lines()?.iter().map(|line| format!("{:.8}", line)).collect();
    println!("lines {}", lines.join(" "));
    for found in [1002, 1031, 1001] {
        post(&mut chart, found);
    }
    let (word, passed) = chart.reanalyse(CHECK, 1030, MADE_UP, 0)?;
    println!("word {} {}", word, if passed { "passed" } else { "failed" });
    file.write_all(chart.form())?;
    file.sync_all()?;
    println!("kept {} bytes", chart.form().len());
    Ok(())
}
