//! The two engines behind one set of nine calls. These are the calls of include/control_chart.h, without those for texts, and with slices
//! in place of pointers and lengths.

#![allow(clippy::too_many_arguments)]

use crate::plain;

/// The bytes of the longest stored form.
pub const FORM_MOST: usize = 814;

pub trait Engine {
    fn word(kind: u32, a: i64, b: i64, c: i64, word: &mut i16) -> u16;
    fn build(kind: u32, words: &[i16], chart: &mut [u8], size: &mut usize, rounds: &mut usize, removed: &mut usize) -> u16;
    fn post(chart: &mut [u8], size: &mut usize, kind: u32, a: i64, b: i64, c: i64, word: &mut i16, verdict: &mut u16) -> u16;
    fn reanalyse(chart: &mut [u8], size: &mut usize, kind: u32, a: i64, b: i64, c: i64, word: &mut i16, passed: &mut u8) -> u16;
    fn correct(chart: &mut [u8], size: &mut usize) -> u16;
    fn renew(chart: &mut [u8], size: &mut usize, rounds: &mut usize, removed: &mut usize) -> u16;
    fn lines(chart: &[u8], lines: &mut [f64], count: &mut usize) -> u16;
    fn against_lines(chart: &[u8], word: i32, beyond: &mut [u8]) -> u16;
    fn check(chart: &[u8]) -> u16;
}

/// The plain engine. Its calls are not inlined, because the calls of a library cannot be inlined into their caller either.
pub struct Plain;

impl Engine for Plain {
    #[inline(never)]
    fn word(kind: u32, a: i64, b: i64, c: i64, word: &mut i16) -> u16 {
        plain::word(kind, a, b, c, word)
    }
    #[inline(never)]
    fn build(kind: u32, words: &[i16], chart: &mut [u8], size: &mut usize, rounds: &mut usize, removed: &mut usize) -> u16 {
        plain::build(kind, words, chart, size, rounds, removed)
    }
    #[inline(never)]
    fn post(chart: &mut [u8], size: &mut usize, kind: u32, a: i64, b: i64, c: i64, word: &mut i16, verdict: &mut u16) -> u16 {
        plain::post(chart, size, kind, a, b, c, word, verdict)
    }
    #[inline(never)]
    fn reanalyse(chart: &mut [u8], size: &mut usize, kind: u32, a: i64, b: i64, c: i64, word: &mut i16, passed: &mut u8) -> u16 {
        plain::reanalyse(chart, size, kind, a, b, c, word, passed)
    }
    #[inline(never)]
    fn correct(chart: &mut [u8], size: &mut usize) -> u16 {
        plain::correct(chart, size)
    }
    #[inline(never)]
    fn renew(chart: &mut [u8], size: &mut usize, rounds: &mut usize, removed: &mut usize) -> u16 {
        plain::renew(chart, size, rounds, removed)
    }
    #[inline(never)]
    fn lines(chart: &[u8], lines: &mut [f64], count: &mut usize) -> u16 {
        plain::lines(chart, lines, count)
    }
    #[inline(never)]
    fn against_lines(chart: &[u8], word: i32, beyond: &mut [u8]) -> u16 {
        plain::against_lines(chart, word, beyond)
    }
    #[inline(never)]
    fn check(chart: &[u8]) -> u16 {
        plain::check(chart)
    }
}

/// The proved library.
pub struct Proved;

#[rustfmt::skip]
extern "C" {
    fn control_chart_word(kind: u32, a: i64, b: i64, c: i64, word: *mut i16) -> u16;
    fn control_chart_build(kind: u32, words: *const i16, count: usize, chart: *mut u8, room: usize, size: *mut usize,
                           rounds: *mut usize, removed: *mut usize) -> u16;
    fn control_chart_post(chart: *mut u8, room: usize, size: *mut usize, kind: u32, a: i64, b: i64, c: i64,
                          word: *mut i16, verdict: *mut u16) -> u16;
    fn control_chart_reanalyse(chart: *mut u8, room: usize, size: *mut usize, kind: u32, a: i64, b: i64, c: i64,
                               word: *mut i16, passed: *mut u8) -> u16;
    fn control_chart_correct(chart: *mut u8, room: usize, size: *mut usize) -> u16;
    fn control_chart_renew(chart: *mut u8, room: usize, size: *mut usize, rounds: *mut usize, removed: *mut usize) -> u16;
    fn control_chart_lines(chart: *const u8, size: usize, lines: *mut f64, room: usize, count: *mut usize) -> u16;
    fn control_chart_against_lines(chart: *const u8, size: usize, word: i32, beyond: *mut u8, room: usize) -> u16;
    fn control_chart_check(chart: *const u8, size: usize) -> u16;
}

/// Each call is safe, because slices and references have what the header requires of pointers: they are not null, they are aligned, and
/// memory that is lent for writing overlaps nothing else that is lent.
impl Engine for Proved {
    fn word(kind: u32, a: i64, b: i64, c: i64, word: &mut i16) -> u16 {
        unsafe { control_chart_word(kind, a, b, c, word) }
    }
    fn build(kind: u32, words: &[i16], chart: &mut [u8], size: &mut usize, rounds: &mut usize, removed: &mut usize) -> u16 {
        unsafe { control_chart_build(kind, words.as_ptr(), words.len(), chart.as_mut_ptr(), chart.len(), size, rounds, removed) }
    }
    fn post(chart: &mut [u8], size: &mut usize, kind: u32, a: i64, b: i64, c: i64, word: &mut i16, verdict: &mut u16) -> u16 {
        unsafe { control_chart_post(chart.as_mut_ptr(), chart.len(), size, kind, a, b, c, word, verdict) }
    }
    fn reanalyse(chart: &mut [u8], size: &mut usize, kind: u32, a: i64, b: i64, c: i64, word: &mut i16, passed: &mut u8) -> u16 {
        unsafe { control_chart_reanalyse(chart.as_mut_ptr(), chart.len(), size, kind, a, b, c, word, passed) }
    }
    fn correct(chart: &mut [u8], size: &mut usize) -> u16 {
        unsafe { control_chart_correct(chart.as_mut_ptr(), chart.len(), size) }
    }
    fn renew(chart: &mut [u8], size: &mut usize, rounds: &mut usize, removed: &mut usize) -> u16 {
        unsafe { control_chart_renew(chart.as_mut_ptr(), chart.len(), size, rounds, removed) }
    }
    fn lines(chart: &[u8], lines: &mut [f64], count: &mut usize) -> u16 {
        unsafe { control_chart_lines(chart.as_ptr(), chart.len(), lines.as_mut_ptr(), lines.len(), count) }
    }
    fn against_lines(chart: &[u8], word: i32, beyond: &mut [u8]) -> u16 {
        unsafe { control_chart_against_lines(chart.as_ptr(), chart.len(), word, beyond.as_mut_ptr(), beyond.len()) }
    }
    fn check(chart: &[u8]) -> u16 {
        unsafe { control_chart_check(chart.as_ptr(), chart.len()) }
    }
}

/// A stored form from its parts, sound or not.
pub fn form(head: [u16; 3], base: &[i16], series: &[i16]) -> Vec<u8> {
    let length = |words: &[i16]| 2 + 2 * words.len() as u16;
    let mut numbers = vec![8, 1, head[0], head[1], head[2], length(base), 2];
    numbers.extend(base.iter().map(|&w| w as u16));
    numbers.extend([length(series), 3]);
    numbers.extend(series.iter().map(|&w| w as u16));
    numbers.into_iter().flat_map(u16::to_le_bytes).collect()
}
