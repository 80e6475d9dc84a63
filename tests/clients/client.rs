//! A client in Rust of the control chart library. tests/clients/run builds it and runs it:
//!
//!     target/clients/client_rs tests/clients/calls.txt
//!
//! It makes the calls in calls.txt: every function, with every refusal that it has. The clients in C and Python make the
//! same comparisons in the same order.

use std::process::exit;

/// The twelve functions, with slices. They are safe, because slices and references have what the header requires of pointers:
/// they are not null, they are aligned, and memory that is lent for writing overlaps nothing else that is lent.
#[allow(clippy::too_many_arguments)]
mod control_chart {
    use std::os::raw::c_char;

    #[rustfmt::skip]
    extern "C" {
        fn control_chart_word(kind: u32, a: i64, b: i64, c: i64, word: *mut i16) -> u16;
        fn control_chart_build(kind: u32, words: *const i16, count: usize, chart: *mut u8, room: usize,
                               size: *mut usize, rounds: *mut usize, removed: *mut usize) -> u16;
        fn control_chart_post(chart: *mut u8, room: usize, size: *mut usize, kind: u32, a: i64, b: i64, c: i64,
                              word: *mut i16, verdict: *mut u16) -> u16;
        fn control_chart_reanalyse(chart: *mut u8, room: usize, size: *mut usize, kind: u32, a: i64, b: i64, c: i64,
                                   word: *mut i16, passed: *mut u8) -> u16;
        fn control_chart_correct(chart: *mut u8, room: usize, size: *mut usize) -> u16;
        fn control_chart_renew(chart: *mut u8, room: usize, size: *mut usize, rounds: *mut usize,
                               removed: *mut usize) -> u16;
        fn control_chart_lines(chart: *const u8, size: usize, lines: *mut f64, room: usize, count: *mut usize) -> u16;
        fn control_chart_against_lines(chart: *const u8, size: usize, word: i32, beyond: *mut u8, room: usize) -> u16;
        fn control_chart_check(chart: *const u8, size: usize) -> u16;
        fn control_chart_refusal_text(number: u32, text: *mut c_char, room: usize) -> u16;
        fn control_chart_verdict_text(verdict: u32, text: *mut c_char, room: usize) -> u16;
        fn control_chart_version(text: *mut c_char, room: usize) -> u16;
    }

    /// A kind and three readings.
    pub type Reading = (u32, i64, i64, i64);

    pub fn word((kind, a, b, c): Reading, word: &mut i16) -> u16 {
        unsafe { control_chart_word(kind, a, b, c, word) }
    }
    pub fn build(
        kind: u32,
        words: &[i16],
        chart: &mut [u8],
        size: &mut usize,
        rounds: &mut usize,
        removed: &mut usize,
    ) -> u16 {
        let (room, chart) = (chart.len(), chart.as_mut_ptr());
        unsafe { control_chart_build(kind, words.as_ptr(), words.len(), chart, room, size, rounds, removed) }
    }
    pub fn post(
        chart: &mut [u8],
        size: &mut usize,
        (kind, a, b, c): Reading,
        word: &mut i16,
        verdict: &mut u16,
    ) -> u16 {
        unsafe { control_chart_post(chart.as_mut_ptr(), chart.len(), size, kind, a, b, c, word, verdict) }
    }
    pub fn reanalyse(
        chart: &mut [u8],
        size: &mut usize,
        (kind, a, b, c): Reading,
        word: &mut i16,
        passed: &mut u8,
    ) -> u16 {
        unsafe { control_chart_reanalyse(chart.as_mut_ptr(), chart.len(), size, kind, a, b, c, word, passed) }
    }
    pub fn correct(chart: &mut [u8], size: &mut usize) -> u16 {
        unsafe { control_chart_correct(chart.as_mut_ptr(), chart.len(), size) }
    }
    pub fn renew(chart: &mut [u8], size: &mut usize, rounds: &mut usize, removed: &mut usize) -> u16 {
        unsafe { control_chart_renew(chart.as_mut_ptr(), chart.len(), size, rounds, removed) }
    }
    pub fn lines(form: &[u8], lines: &mut [f64], count: &mut usize) -> u16 {
        unsafe { control_chart_lines(form.as_ptr(), form.len(), lines.as_mut_ptr(), lines.len(), count) }
    }
    pub fn against_lines(form: &[u8], word: i32, beyond: &mut [u8]) -> u16 {
        unsafe { control_chart_against_lines(form.as_ptr(), form.len(), word, beyond.as_mut_ptr(), beyond.len()) }
    }
    pub fn check(form: &[u8]) -> u16 {
        unsafe { control_chart_check(form.as_ptr(), form.len()) }
    }
    pub fn refusal_text(number: u32, text: &mut [u8]) -> u16 {
        unsafe { control_chart_refusal_text(number, text.as_mut_ptr().cast(), text.len()) }
    }
    pub fn verdict_text(verdict: u32, text: &mut [u8]) -> u16 {
        unsafe { control_chart_verdict_text(verdict, text.as_mut_ptr().cast(), text.len()) }
    }
    pub fn version(text: &mut [u8]) -> u16 {
        unsafe { control_chart_version(text.as_mut_ptr().cast(), text.len()) }
    }
}

// ---- Comparing

#[derive(Default)]
struct Comparing {
    comparisons: u32,
    /// The call that is compared, and the form lent to it.
    called: String,
    form_lent: Vec<u8>,
}

impl Comparing {
    fn same<T: PartialEq + std::fmt::Debug>(&mut self, what: &str, expected: T, came: T) {
        self.comparisons += 1;
        if expected != came {
            eprintln!("client.rs: {}: {what}: expected {expected:?}, came {came:?}", self.called);
            if !self.form_lent.is_empty() {
                eprintln!("client.rs: the form lent was {}", hex(&self.form_lent));
            }
            exit(1);
        }
    }

    /// One comparison. If there is a difference, the eight bytes around it are shown.
    fn same_bytes(&mut self, what: &str, expected: &[u8], came: &[u8]) {
        let mut eights = expected.chunks(8).zip(came.chunks(8)).enumerate();
        match eights.find(|(_, (e, c))| e != c) {
            Some((i, (e, c))) => self.same(&format!("{what} from {} on", 8 * i), hex(e), hex(c)),
            None => self.same(what, expected.len(), came.len()),
        }
    }
}

fn hex(bytes: &[u8]) -> String {
    bytes.iter().map(|byte| format!("{byte:02x}")).collect()
}

// ---- Every function, with every refusal that it has

/// Fills lent memory before a call, to show what the call does not change.
const FILL: u8 = 0x77;
/// The bytes lent for a chart, more than the longest form.
const LENT: usize = 820;

/// A chart in lent memory, and the room that a call gets.
#[derive(Clone)]
struct Chart {
    bytes: [u8; LENT],
    size: usize,
    room: usize,
}

impl Chart {
    fn filled() -> Chart {
        Chart { bytes: [FILL; LENT], size: usize::from_ne_bytes([FILL; 8]), room: LENT }
    }

    /// Two bytes to a number, the lower first, words in two's complement.
    fn put(&mut self, at: usize, number: i64) {
        self.bytes[at..at + 2].copy_from_slice(&(number as u16).to_le_bytes());
    }

    /// A form made by hand. The bytes after it stay.
    fn put_form(&mut self, head: &[i64], base: &[i64], series: &[i64]) {
        self.size = 0;
        for (record, contents) in [(1, head), (2, base), (3, series)] {
            for &number in [2 + 2 * contents.len() as i64, record].iter().chain(contents) {
                self.put(self.size, number);
                self.size += 2;
            }
        }
    }

    fn form(&self) -> &[u8] {
        &self.bytes[..self.size.min(LENT)]
    }
}

/// The other lent memory, with more words, flags, doubles and bytes for a text than any call needs.
struct Lent {
    words: [i16; 34],
    rounds: usize,
    removed: usize,
    count: usize,
    word: i16,
    verdict: u16,
    passed: u8,
    beyond: [u8; 7],
    lines: [f64; 7],
    text: [u8; 200],
}

impl Lent {
    fn filled() -> Lent {
        let (number, size) = (i16::from_ne_bytes([FILL; 2]), usize::from_ne_bytes([FILL; 8]));
        Lent {
            words: [number; 34],
            rounds: size,
            removed: size,
            count: size,
            word: number,
            verdict: u16::from_ne_bytes([FILL; 2]),
            passed: FILL,
            beyond: [FILL; 7],
            lines: [f64::from_ne_bytes([FILL; 8]); 7],
            text: [FILL; 200],
        }
    }
}

/// A line of calls.txt: lists of numbers before and after `=`, and the text after the answer.
struct Line {
    given: Vec<Vec<i64>>,
    must: Vec<Vec<i64>>,
    text: String,
}

impl Line {
    fn accepted(&self) -> bool {
        self.must[0][0] == 0
    }

    fn reading(&self) -> control_chart::Reading {
        let given = &self.given[0];
        (given[0] as u32, given[1], given[2], given[3])
    }
}

/// Lists of numbers between `/`; "7*9900" stands for 9900 seven times.
fn numbers_of(text: &str) -> Vec<Vec<i64>> {
    let number = |token: &str| token.parse::<i64>().expect("a number in calls.txt");
    let numbers = |token: &str| match token.split_once('*') {
        Some((times, repeated)) => vec![number(repeated); number(times) as usize],
        None => vec![number(token)],
    };
    text.split('/').map(|part| part.split_whitespace().flat_map(numbers).collect()).collect()
}

/// The calls in calls.txt, on one chart in lent memory.
struct Calls {
    comparing: Comparing,
    /// The chart that is lent, and what it must be after the call; the same for the other memory.
    now: Chart,
    must: Chart,
    came: Lent,
    expected: Lent,
}

impl Calls {
    /// Makes a call, and compares the answer, every output and every lent byte.
    fn compare(&mut self, call: fn(&mut Calls, &Line) -> u16, line: &Line) {
        self.comparing.form_lent = self.now.form().to_vec();
        self.came = Lent::filled();
        self.expected = Lent::filled();
        self.must = self.now.clone();
        let answer = call(self, line);
        let (comparing, expected, came) = (&mut self.comparing, &self.expected, &self.came);
        comparing.same("answer", line.must[0][0], answer.into());
        comparing.same("words", expected.words, came.words);
        comparing.same("rounds", expected.rounds, came.rounds);
        comparing.same("removed", expected.removed, came.removed);
        comparing.same("count", expected.count, came.count);
        comparing.same("word", expected.word, came.word);
        comparing.same("verdict", expected.verdict, came.verdict);
        comparing.same("passed", expected.passed, came.passed);
        comparing.same("beyond", expected.beyond, came.beyond);
        comparing.same("lines", expected.lines.map(f64::to_bits), came.lines.map(f64::to_bits));
        comparing.same_bytes("text", &expected.text, &came.text);
        comparing.same("size", self.must.size, self.now.size);
        comparing.same_bytes("bytes", &self.must.bytes, &self.now.bytes);
    }

    // Each of the twelve calls sets what is expected if the answer is 0, and gives back the answer that came.

    fn word(&mut self, line: &Line) -> u16 {
        if line.accepted() {
            self.expected.word = line.must[0][1] as i16;
        }
        control_chart::word(line.reading(), &mut self.came.word)
    }

    fn build(&mut self, line: &Line) -> u16 {
        let (kind, room, count) = (line.given[0][0], line.given[0][1] as usize, line.given[1].len());
        for (i, &word) in line.given[1].iter().enumerate() {
            self.came.words[i] = word as i16;
            self.expected.words[i] = word as i16;
        }
        if line.accepted() {
            self.must.put_form(&[kind, 0, 0], &line.must[1], &[]);
            self.expected.rounds = line.must[0][1] as usize;
            self.expected.removed = line.must[0][2] as usize;
        }
        let (now, came) = (&mut self.now, &mut self.came);
        let (words, chart) = (&came.words[..count], &mut now.bytes[..room]);
        control_chart::build(kind as u32, words, chart, &mut now.size, &mut came.rounds, &mut came.removed)
    }

    fn post(&mut self, line: &Line) -> u16 {
        if line.accepted() {
            let (word, verdict) = (line.must[0][1], line.must[0][2]);
            let series = 12 + usize::from(self.must.bytes[10]); // where its record starts
            self.must.put(self.must.size, word);
            self.must.size += 2;
            self.must.put(series, (self.must.size - series - 2) as i64);
            self.must.put(6, [0, 1, 1, 1, 2][verdict as usize]);
            self.must.put(8, verdict);
            self.expected.word = word as i16;
            self.expected.verdict = verdict as u16;
        }
        let (now, came) = (&mut self.now, &mut self.came);
        let chart = &mut now.bytes[..now.room];
        control_chart::post(chart, &mut now.size, line.reading(), &mut came.word, &mut came.verdict)
    }

    fn reanalyse(&mut self, line: &Line) -> u16 {
        if line.accepted() {
            let (word, passed) = (line.must[0][1], line.must[0][2]);
            self.expected.word = word as i16;
            self.expected.passed = passed as u8;
            self.must.put(6, if passed == 1 { 0 } else { 2 });
            if passed == 1 {
                self.must.put(8, 0);
                self.must.put(self.must.size - 2, word);
            }
        }
        let (now, came) = (&mut self.now, &mut self.came);
        let chart = &mut now.bytes[..now.room];
        control_chart::reanalyse(chart, &mut now.size, line.reading(), &mut came.word, &mut came.passed)
    }

    fn correct(&mut self, line: &Line) -> u16 {
        if line.accepted() {
            self.must.put(6, 1);
        }
        control_chart::correct(&mut self.now.bytes[..self.now.room], &mut self.now.size)
    }

    fn renew(&mut self, line: &Line) -> u16 {
        if line.accepted() {
            self.must.put_form(&[self.must.bytes[4].into(), 0, 0], &line.must[1], &[]);
            self.expected.rounds = line.must[0][1] as usize;
            self.expected.removed = line.must[0][2] as usize;
        }
        let (now, came) = (&mut self.now, &mut self.came);
        control_chart::renew(&mut now.bytes[..now.room], &mut now.size, &mut came.rounds, &mut came.removed)
    }

    fn lines(&mut self, line: &Line) -> u16 {
        if line.accepted() {
            self.expected.count = line.must[0].len() - 1;
            for (i, &number) in line.must[0][1..].iter().enumerate() {
                self.expected.lines[i] = number as f64 / 256.0; // exact
            }
        }
        let lines = &mut self.came.lines[..line.given[0][0] as usize];
        control_chart::lines(self.now.form(), lines, &mut self.came.count)
    }

    fn against_lines(&mut self, line: &Line) -> u16 {
        if line.accepted() {
            for (i, &flag) in line.must[0][1..].iter().enumerate() {
                self.expected.beyond[i] = flag as u8;
            }
        }
        let beyond = &mut self.came.beyond[..line.given[0][1] as usize];
        control_chart::against_lines(self.now.form(), line.given[0][0] as i32, beyond)
    }

    fn check(&mut self, _: &Line) -> u16 {
        control_chart::check(self.now.form())
    }

    /// The text and its 0 byte. The bytes after it stay.
    fn expect_text(&mut self, line: &Line) {
        if line.accepted() {
            let length = line.text.len();
            self.expected.text[..length].copy_from_slice(line.text.as_bytes());
            self.expected.text[length] = 0;
        }
    }

    fn refusal_text(&mut self, line: &Line) -> u16 {
        self.expect_text(line);
        let (number, room) = (line.given[0][0] as u32, line.given[0][1] as usize);
        control_chart::refusal_text(number, &mut self.came.text[..room])
    }

    fn verdict_text(&mut self, line: &Line) -> u16 {
        self.expect_text(line);
        let (verdict, room) = (line.given[0][0] as u32, line.given[0][1] as usize);
        control_chart::verdict_text(verdict, &mut self.came.text[..room])
    }

    fn version(&mut self, line: &Line) -> u16 {
        self.expect_text(line);
        control_chart::version(&mut self.came.text[..line.given[0][0] as usize])
    }

    /// One line of calls.txt.
    fn step(&mut self, place: &str, text: &str) {
        self.comparing.called = format!("{place}: {text}");
        let (name, rest) = text.split_once(' ').unwrap_or((text, ""));
        let (times, name) = name.split_once('*').unwrap_or(("1", name));
        if name == "form" {
            return self.comparing.same("bytes", rest.replace(' ', ""), hex(self.now.form()));
        }
        let (given, must) = rest.split_once('=').unwrap_or((rest, ""));
        let (must, text) = match name {
            "refusal_text" | "verdict_text" | "version" => must.trim_start().split_once(' ').unwrap_or((must, "")),
            _ => (must, ""),
        };
        let line = Line { given: numbers_of(given), must: numbers_of(must), text: text.into() };
        let call = match name {
            "chart" => {
                self.now = Chart::filled();
                return self.now.put_form(&line.given[0], &line.given[1], &line.given[2]);
            }
            "told" => {
                self.now.size = line.given[0][0] as usize;
                self.now.room = line.given[0][1] as usize;
                return;
            }
            "byte" => {
                self.now.bytes[line.given[0][0] as usize] = line.given[0][1] as u8;
                return;
            }
            "all" => {
                let calls = "post 2 10000 10000 0, reanalyse 2 10000 10000 0, correct, renew, lines 6, \
                             against_lines 10000 6, check";
                return calls.split(", ").for_each(|call| self.step(place, &format!("{call} = {}", line.must[0][0])));
            }
            "word" => Calls::word,
            "build" => {
                self.now = Chart::filled();
                Calls::build
            }
            "post" => Calls::post,
            "reanalyse" => Calls::reanalyse,
            "correct" => Calls::correct,
            "renew" => Calls::renew,
            "lines" => Calls::lines,
            "against_lines" => Calls::against_lines,
            "check" => Calls::check,
            "refusal_text" => Calls::refusal_text,
            "verdict_text" => Calls::verdict_text,
            "version" => Calls::version,
            _ => return self.comparing.same("name", "one that calls.txt explains", name),
        };
        for _ in 0..times.parse().expect("a number in calls.txt") {
            self.compare(call, &line);
        }
    }
}

fn main() {
    let text = std::env::args().nth(1).and_then(|path| std::fs::read_to_string(path).ok()).unwrap_or_else(|| {
        eprintln!("client.rs: give the path of calls.txt");
        exit(1)
    });
    let (now, must, came, expected) = (Chart::filled(), Chart::filled(), Lent::filled(), Lent::filled());
    let mut calls = Calls { comparing: Comparing::default(), now, must, came, expected };
    for (i, line) in text.lines().enumerate() {
        if !line.is_empty() && !line.starts_with('#') {
            calls.step(&format!("calls.txt line {}", i + 1), line);
        }
    }
    println!("client.rs: {} comparisons, all as expected", calls.comparing.comparisons);
}
