//! The course's figures, and the places of the paper that can be misread: each test has inputs for which a misreading gives another answer.

/// A chart in a buffer with room for every form. After a refused call it tests that everything lent is as it was.
#[derive(Clone, PartialEq, Debug)]
struct Desk {
    chart: Vec<u8>,
    size: usize,
}

impl Desk {
    fn build(kind: u32, words: &[i16]) -> (Desk, usize, usize) {
        let mut desk = Desk { chart: vec![0xEE; 814], size: 77 };
        let (mut rounds, mut removed) = (91, 92);
        let answer = super::build(kind, words, &mut desk.chart, &mut desk.size, &mut rounds, &mut removed);
        assert_eq!(answer, 0);
        assert_eq!((desk.check(), desk.base().len() + removed), (0, words.len()));
        assert!(desk.base().len() >= 15);
        (desk, rounds, removed)
    }

    /// A chart from its parts, sound or not.
    fn of(head: [u16; 3], base: &[i16], series: &[i16]) -> Desk {
        let count = |words: &[i16]| 2 + 2 * words.len() as u16;
        let mut numbers = vec![8, 1];
        numbers.extend(head);
        numbers.extend([count(base), 2]);
        numbers.extend(base.iter().map(|&w| w as u16));
        numbers.extend([count(series), 3]);
        numbers.extend(series.iter().map(|&w| w as u16));
        let mut chart: Vec<u8> = numbers.iter().flat_map(|n| n.to_le_bytes()).collect();
        let size = chart.len();
        chart.resize(size.max(814) + 2, 0xEE);
        Desk { chart, size }
    }

    fn form(&self) -> &[u8] {
        &self.chart[..self.size]
    }

    fn check(&self) -> u16 {
        super::check(self.form())
    }

    fn state(&self) -> (u16, u16) {
        (self.chart[6].into(), self.chart[8].into())
    }

    fn base(&self) -> Vec<i16> {
        self.words(14, 12 + usize::from(self.chart[10]))
    }

    fn series(&self) -> Vec<i16> {
        self.words(16 + usize::from(self.chart[10]), self.size)
    }

    fn words(&self, from: usize, to: usize) -> Vec<i16> {
        self.chart[from..to].chunks(2).map(|w| i16::from_le_bytes([w[0], w[1]])).collect()
    }

    fn kind(&self) -> u32 {
        self.chart[4].into()
    }

    fn post_reading(&mut self, kind: u32, [a, b, c]: [i64; 3]) -> Result<(i16, u16), u16> {
        let before = self.clone();
        let (mut word, mut verdict) = (-7, 99);
        match super::post(&mut self.chart, &mut self.size, kind, a, b, c, &mut word, &mut verdict) {
            0 => {
                assert_eq!(self.check(), 0);
                Ok((word, verdict))
            }
            refusal => {
                assert_eq!((&before, -7, 99), (&*self, word, verdict));
                Err(refusal)
            }
        }
    }

    fn reanalyse_reading(&mut self, kind: u32, [a, b, c]: [i64; 3]) -> Result<(i16, bool), u16> {
        let before = self.clone();
        let (mut word, mut passed) = (-7, 99);
        match super::reanalyse(&mut self.chart, &mut self.size, kind, a, b, c, &mut word, &mut passed) {
            0 => {
                assert_eq!(self.check(), 0);
                Ok((word, [false, true][usize::from(passed)]))
            }
            refusal => {
                assert_eq!((&before, -7, 99), (&*self, word, passed));
                Err(refusal)
            }
        }
    }

    /// Posts readings that give these words. Answers the verdicts.
    fn post(&mut self, words: impl IntoIterator<Item = i16>) -> Vec<u16> {
        let post = |w| {
            let (word, verdict) = self.post_reading(self.kind(), reading(self.kind(), w)).unwrap();
            assert_eq!(word, w);
            verdict
        };
        words.into_iter().map(post).collect()
    }

    /// Whether the reanalysis passes. It works on a copy, so that one chart can be asked about many words.
    fn passes(&self, w: i16) -> bool {
        let mut copy = self.clone();
        let (word, passed) = copy.reanalyse_reading(self.kind(), reading(self.kind(), w)).unwrap();
        assert_eq!(word, w);
        let (mut series, verdict) = (self.series(), self.state().1);
        if passed {
            *series.last_mut().unwrap() = w;
        }
        assert_eq!((copy.series(), copy.state()), (series, if passed { (0, 0) } else { (2, verdict) }));
        passed
    }

    fn correct(&mut self) -> u16 {
        super::correct(&mut self.chart, &mut self.size)
    }

    fn renew(&mut self) -> Result<(usize, usize), u16> {
        let before = self.clone();
        let (mut rounds, mut removed) = (91, 92);
        match super::renew(&mut self.chart, &mut self.size, &mut rounds, &mut removed) {
            0 => {
                assert_eq!((self.check(), self.state(), self.series()), (0, (0, 0), vec![]));
                assert!(self.base().len() >= 15);
                Ok((rounds, removed))
            }
            refusal => {
                assert_eq!((&before, 91, 92), (&*self, rounds, removed));
                Err(refusal)
            }
        }
    }

    /// A renewal that is accepted: the number of words that it used, the rounds and the number removed. The words that stand are from the
    /// end of the base and the series, in their order.
    fn renew_used(&mut self) -> (usize, usize, usize) {
        let given = [self.base(), self.series()].concat();
        let (rounds, removed) = self.renew().unwrap();
        let used = self.base().len() + removed;
        let mut tail = given[given.len() - used..].iter();
        assert!(self.base().iter().all(|word| tail.any(|given| given == word)));
        (used, rounds, removed)
    }

    /// The lines times 256.
    fn lines(&self) -> Vec<i64> {
        let (mut lines, mut count) = ([-1.5; 6], 0);
        assert_eq!(super::lines(self.form(), &mut lines, &mut count), 0);
        assert!(lines[count..].iter().all(|&line| line == -1.5));
        assert!(lines[..count].iter().all(|line| line.to_bits() != (-0.0f64).to_bits()));
        lines[..count].iter().map(|line| (line * 256.0) as i64).collect()
    }

    fn beyond(&self, word: i32) -> [u8; 4] {
        let mut beyond = [9; 4];
        assert_eq!(super::against_lines(self.form(), word, &mut beyond), 0);
        beyond
    }
}

fn reading(kind: u32, word: i16) -> [i64; 3] {
    let word = i64::from(word);
    match kind {
        1 => [20_000 - word, 20_000 + word, -5],
        2 => [word, 10_000, -5],
        _ => [word.max(0), (-word).max(0), 10_000],
    }
}

fn word(kind: u32, a: i64, b: i64, c: i64) -> Result<i16, u16> {
    let mut word = -7;
    match super::word(kind, a, b, c, &mut word) {
        0 => Ok(word),
        refusal => {
            assert_eq!(word, -7);
            Err(refusal)
        }
    }
}

fn refused_build(kind: u32, words: &[i16], room: usize) -> u16 {
    let mut chart = vec![0xEE; room];
    let (mut size, mut rounds, mut removed) = (77, 91, 92);
    let answer = super::build(kind, words, &mut chart, &mut size, &mut rounds, &mut removed);
    assert_ne!(answer, 0);
    assert_eq!((chart, size, rounds, removed), (vec![0xEE; room], 77, 91, 92));
    answer
}

fn times(parts: &[(i16, usize)]) -> Vec<i16> {
    parts.iter().flat_map(|&(word, n)| vec![word; n]).collect()
}

fn by(from: i16, step: i16, n: i16) -> Vec<i16> {
    (0..n).map(|i| from + i * step).collect()
}

fn base_a() -> Vec<i16> {
    times(&[(9900, 7), (10100, 7), (10000, 1)])
}

fn a() -> Desk {
    Desk::build(2, &base_a()).0
}

/// Kind 1, mean 1000, S 100.
fn k() -> Desk {
    Desk::build(1, &times(&[(900, 7), (1100, 7), (1000, 1)])).0
}

/// Kind 1, S 0.
fn z() -> Desk {
    Desk::build(1, &[1000; 15]).0
}

/// A after posts of these words. The last word has a verdict from 1 to 3.
fn a_after(words: Vec<i16>) -> Desk {
    let mut desk = a();
    desk.post(words);
    assert_eq!(desk.state().0, 1);
    desk
}

#[test]
fn words_of_readings() {
    assert_eq!(word(1, 1, 2, 0), Ok(6667));
    assert_eq!(word(1, 65, 63, 0), Ok(312));
    assert_eq!(word(3, 0, 1, 32), Ok(-312));
    assert_eq!(word(3, 200_004, 0, 100_000), Ok(20_000));
    assert_eq!(word(3, 200_005, 0, 100_000), Ok(20_000));
    assert_eq!(word(3, 200_006, 0, 100_000), Err(7));
    assert_eq!(word(3, 300, 0, 100), Err(7));
    assert_eq!(word(3, 0, 200_004, 100_000), Ok(-20_000));
    assert_eq!(word(3, 0, 200_005, 100_000), Ok(-20_000));
    assert_eq!(word(3, 0, 200_006, 100_000), Err(7));
    assert_eq!(word(2, 1, 20_000, 0), Ok(0));
    assert_eq!(word(3, 0, 1, 20_000), Ok(0));
    assert_eq!(word(3, 0, 3, 20_000), Ok(-2));
    assert_eq!(word(2, 625, 20_000, 0), Ok(312));
    assert_eq!(word(2, 627, 20_000, 0), Ok(314));
    assert_eq!(word(3, 0, 1, 20_001), Ok(0));
    assert_eq!(word(1, 1, 2, -5), Ok(6667));
    assert_eq!(word(2, 1, 2, i64::MIN), Ok(5000));
    assert_eq!(word(3, 1, 2, -5), Err(5));
    assert_eq!(word(2, 1_000_000_001, 0, 0), Err(5));
    assert_eq!(word(1, 1_000_000_000, 0, 0), Ok(20_000));
    assert_eq!(word(1, i64::MIN, i64::MAX, 0), Err(5));
    assert_eq!((word(1, 0, 0, 0), word(2, 0, 0, 0), word(3, 5, 5, 0)), (Err(6), Err(6), Err(6)));
    assert_eq!(word(2, 1_000_000_000, 1, 0), Err(7));
    for kind in [0, 4, 257, 65_537, u32::MAX] {
        assert_eq!(word(kind, -1, 0, 0), Err(1));
    }
}

#[test]
fn building() {
    let (desk, rounds, removed) = Desk::build(2, &base_a());
    assert_eq!((rounds, removed, desk.size, desk.chart[48..].to_vec()), (1, 0, 48, vec![0xEE; 814 - 48]));
    assert_eq!(desk, Desk { chart: [Desk::of([2, 0, 0], &base_a(), &[]).form(), &[0xEE; 814 - 48]].concat(), size: 48 });
    assert_eq!(desk.lines(), [10_000, 9800, 10_200, 9700, 10_300].map(|word| 256 * word));
    let (desk, rounds, removed) = Desk::build(1, &times(&[(1000, 15), (2000, 1)]));
    assert_eq!((rounds, removed, desk.base()), (2, 1, vec![1000; 15]));
    assert_eq!(desk.lines(), [256_000; 3]);
    assert_eq!(desk.clone().post([1001]), [1]);
    // Words are two bytes, the lower first.
    assert_eq!(Desk::build(2, &[4135; 15]).0.chart[14..16], [0x27, 0x10]);
    assert_eq!(Desk::build(2, &[10_000; 15]).0.chart[14..16], [0x10, 0x27]);
    // Sound is not the same as reachable.
    assert_eq!(Desk::build(2, &[-1; 15]).1, 1);
    // Kind 1 has no lower limit.
    let low = times(&[(1000, 15), (0, 1)]);
    assert_eq!((Desk::build(1, &low).1, Desk::build(1, &low).2), (1, 0));
    assert_eq!((Desk::build(2, &low).1, Desk::build(2, &low).2), (2, 1));
    // A round removes all words beyond a limit together. A base of fifteen words, the fewest, is reached.
    let (_, rounds, removed) = Desk::build(2, &times(&[(10_000, 13), (10_001, 13), (10_050, 1), (10_051, 1)]));
    assert_eq!((rounds, removed), (2, 2));
    let (desk, rounds, removed) = Desk::build(1, &[&[0; 15][..], &[1, 12, 144, 1728, 20_000]].concat());
    assert_eq!((rounds, removed, desk.size), (6, 5, 48));
}

#[test]
fn refused_building() {
    assert_eq!([0, 4, 257, 65_537, u32::MAX].map(|kind| refused_build(kind, &[0; 14], 0)), [1; 5]);
    assert_eq!([0, 14, 33].map(|n| refused_build(1, &vec![-1; n], 0)), [2; 3]);
    assert_eq!(refused_build(1, &times(&[(0, 14), (-1, 1)]), 0), 3);
    assert_eq!((refused_build(2, &[20_001; 15], 0), refused_build(3, &[-20_001; 32], 0)), (3, 3));
    assert_eq!((refused_build(2, &base_a(), 47), refused_build(2, &base_a(), 9)), (15, 15));
    // Too few words stand at the end: after 1, 2 and 3, before 15.
    let one_far = times(&[(1000, 14), (2000, 1)]);
    assert_eq!([814, 46, 45, 0].map(|room| refused_build(1, &one_far, room)), [16; 4]);
    assert_eq!(refused_build(2, &times(&[(1000, 14), (0, 1)]), 814), 16);
    assert_eq!(Desk::build(1, &times(&[(1000, 14), (0, 1)])).2, 0);
    assert_eq!(refused_build(1, &[&[0; 14][..], &[1, 12, 144, 1728, 20_000]].concat(), 814), 16);
    assert_eq!((refused_build(4, &one_far, 0), refused_build(1, &one_far[1..], 0)), (1, 2));
    assert_eq!(refused_build(1, &[&one_far[..], &[-1]].concat(), 0), 3);
    assert_eq!([47, 9].map(|room| refused_build(1, &times(&[(1000, 15), (2000, 1)]), room)), [15; 2]);
    let (mut chart, mut size, mut rounds, mut removed) = ([0xEE; 50], 0, 0, 0);
    assert_eq!(super::build(2, &base_a(), &mut chart, &mut size, &mut rounds, &mut removed), 0);
    assert_eq!((size, &chart[48..]), (48, &[0xEE; 2][..]));
}

#[test]
fn verdicts() {
    assert_eq!(a().post([10_300]), [0]);
    assert_eq!(a().post([10_301]), [1]);
    assert_eq!(a().post([9700]), [0]);
    assert_eq!(a().post([9699]), [1]);
    assert_eq!(a().post([10_250, 10_210]), [0, 2]);
    assert_eq!(a().post([10_250, 9790]), [0, 0]);
    assert_eq!(a().post([10_200, 10_201, 10_200, 10_201]), [0; 4]);
    assert_eq!(a().post([9799, 9799]), [0, 2]);
    assert_eq!(a().post(by(9950, 10, 7)), [0, 0, 0, 0, 0, 0, 3]);
    assert_eq!(a().post(by(10_050, -10, 7)), [0, 0, 0, 0, 0, 0, 3]);
    assert_eq!(a().post([9950, 9960, 9970, 9970, 9980, 9990, 10_000, 10_010, 10_020]), [0; 9]);
    assert_eq!(a().post([10_001; 7]), [0, 0, 0, 0, 0, 0, 4]);
    assert_eq!(a().post([9999; 7]), [0, 0, 0, 0, 0, 0, 4]);
    assert_eq!(a().post([10_001, 10_001, 10_001, 10_000, 10_001, 10_001, 10_001, 10_001]), [0; 8]);
    // If a run rises or falls and stays on one side, 4 comes before 3; 1 and 2 come before both. Kind 1 has no 4.
    assert_eq!(a().post(by(10_010, 10, 7)), [0, 0, 0, 0, 0, 0, 4]);
    assert_eq!(a().post(by(9990, -10, 7)), [0, 0, 0, 0, 0, 0, 4]);
    assert_eq!(a().post(by(10_000, 10, 7)), [0, 0, 0, 0, 0, 0, 3]);
    assert_eq!(a().post([10_110, 10_120, 10_130, 10_140, 10_150, 10_210, 10_250]), [0, 0, 0, 0, 0, 0, 2]);
    assert_eq!(a().post([10_110, 10_120, 10_130, 10_140, 10_150, 10_160, 10_301]), [0, 0, 0, 0, 0, 0, 1]);
    assert_eq!(k().post(by(1010, 10, 7)), [0, 0, 0, 0, 0, 0, 3]);
    assert_eq!(k().post([790, 790]), [0, 0]);
    assert_eq!(k().post([1001; 20]), [0; 20]);
    assert_eq!(k().post([1250, 1210]), [0, 2]);
    // Each verdict sets a status.
    let state = |words: Vec<i16>| {
        let mut desk = a();
        desk.post(words);
        desk.state()
    };
    assert_eq!((state(vec![10_000]), state(vec![10_301]), state(vec![10_250, 10_210])), ((0, 0), (1, 1), (1, 2)));
    assert_eq!((state(by(9950, 10, 7)), state(vec![10_001; 7])), ((1, 3), (2, 4)));
    // The turning point is the first of the seven; a word that follows is judged by the last seven again.
    let mut desk = a_after(by(9950, 10, 7));
    assert_eq!(desk.reanalyse_reading(2, [10_010, 10_000, 0]), Ok((10_010, true)));
    assert_eq!(desk.post([10_020]), [3]);
}

#[test]
fn reanalyses() {
    let ask = |desk: &Desk, words: &[i16]| words.iter().map(|&w| desk.passes(w)).collect::<Vec<_>>();
    assert_eq!(ask(&a_after(vec![10_301]), &[9699, 9700, 10_300, 10_301]), [false, true, true, false]);
    assert_eq!(ask(&a_after(vec![10_250, 10_210]), &[9790, 9799, 9800, 10_200, 10_201]), [false, false, true, true, false]);
    assert_eq!(ask(&a_after(by(9950, 10, 7)), &[9995, 10_010, 9600, 10_100, 10_099]), [true, true, false, false, true]);
    let rising = [vec![9990], by(10_110, 10, 6)].concat();
    assert_eq!(ask(&a_after(rising), &[10_150, 10_149]), [false, true]);
    let falling = [vec![10_010], by(9890, -10, 6)].concat();
    assert_eq!(ask(&a_after(falling), &[9850, 9851, 10_301]), [false, true, false]);
    let mut desk = a();
    assert_eq!(desk.post([10_150; 7]), [0, 0, 0, 0, 0, 0, 4]);
    assert_eq!(desk.reanalyse_reading(2, [10_000, 10_000, 0]), Err(10));
    assert_eq!(desk.correct(), 0);
    assert_eq!(desk.state(), (1, 4));
    assert_eq!(ask(&desk, &[9600, 9700, 10_000, 10_100, 10_099]), [false, true, true, false, true]);
    let mut desk = a();
    desk.post(by(10_110, 10, 7));
    assert_eq!((desk.state(), desk.correct(), desk.state()), ((2, 4), 0, (1, 4)));
    assert_eq!(ask(&desk, &[10_159, 10_100, 10_099]), [false, false, true]);
    // "Near" is two-sided for kind 1 too, and never true if S is 0.
    let mut desk = k();
    assert_eq!(desk.post(by(1010, -10, 7))[6], 3);
    assert_eq!(ask(&desk, &[800, 961, 901, 900]), [false, true, true, false]);
    let mut desk = z();
    assert_eq!(desk.post(by(100, 100, 7))[6], 3);
    assert_eq!(ask(&desk, &[1000, 600, 599]), [false, false, true]);
    // A passed reanalysis is not judged again.
    let mut desk = a_after(vec![10_250, 10_301]);
    assert_eq!(desk.reanalyse_reading(2, [10_250, 10_000, 0]), Ok((10_250, true)));
    assert_eq!((desk.check(), desk.state(), desk.series()), (0, (0, 0), vec![10_250, 10_250]));
    // A failed one keeps the open verdict, and a correction changes only the status.
    let mut desk = a_after(vec![10_250, 10_210]);
    assert_eq!(desk.reanalyse_reading(2, [9790, 10_000, 0]), Ok((9790, false)));
    assert_eq!((desk.state(), desk.series(), desk.correct(), desk.state()), ((2, 2), vec![10_250, 10_210], 0, (1, 2)));
}

#[test]
fn order_of_refusals() {
    let (good, zero, far, outside) = ([10_000, 10_000, 0], [0, 0, 0], [300, 100, 0], [-1, 0, 0]);
    let mut desk = a();
    assert_eq!([0, 1, 3, 4, 65_538].map(|kind| desk.post_reading(kind, outside)), [Err(4); 5]);
    assert_eq!([outside, zero, far].map(|reading| desk.post_reading(2, reading)), [Err(5), Err(6), Err(7)]);
    assert_eq!(desk.reanalyse_reading(4, outside), Err(10));
    assert_eq!(desk.correct(), 11);
    let mut desk = a_after(vec![10_301]);
    assert_eq!((desk.post_reading(4, outside), desk.renew(), desk.correct()), (Err(8), Err(8), 11));
    assert_eq!([0, 1, 3, 4].map(|kind| desk.reanalyse_reading(kind, outside)), [Err(4); 4]);
    assert_eq!([outside, zero, far].map(|reading| desk.reanalyse_reading(2, reading)), [Err(5), Err(6), Err(7)]);
    assert_eq!(desk.state(), (1, 1));
    // A full series: 9 before 4, 8 before 9; the 366th post is accepted, and its reanalysis too.
    let mut desk = a();
    desk.post([9990, 10_010].repeat(183));
    assert_eq!((desk.size, desk.post_reading(1, outside), desk.post_reading(2, good)), (48 + 732, Err(9), Err(9)));
    let mut desk = a();
    desk.post([9990, 10_010].repeat(183)[..365].to_vec());
    assert_eq!(desk.post([10_301]), [1]);
    assert_eq!(desk.post_reading(2, good), Err(8));
    assert!(desk.passes(10_300));
    // No room: the last refusal.
    let mut desk = a();
    desk.chart.truncate(49);
    assert_eq!([good, outside, far].map(|reading| desk.post_reading(2, reading)), [Err(15), Err(5), Err(7)]);
    desk.chart.resize(50, 0);
    assert_eq!(desk.post_reading(2, good), Ok((10_000, 0)));
    // The form is longer than the buffer.
    let mut desk = a();
    desk.size = 815;
    let refusals = (desk.post_reading(2, good), desk.reanalyse_reading(2, good), desk.correct(), desk.renew());
    assert_eq!(refusals, (Err(13), Err(13), 13, Err(13)));
    // A chart that is not sound is refused before anything else is tested, and given back as it came.
    let mut desk = Desk::of([2, 3, 0], &base_a(), &[]);
    let refusals = (desk.post_reading(4, outside), desk.reanalyse_reading(4, outside), desk.correct(), desk.renew());
    assert_eq!(refusals, (Err(14), Err(14), 14, Err(14)));
    desk.chart.truncate(48);
    assert_eq!(desk.post_reading(2, good), Err(14));
}

#[test]
fn renewal() {
    let mut desk = a();
    desk.post([10_000, 10_010]);
    let rest = desk.chart[48..].to_vec();
    assert_eq!(desk.renew(), Ok((1, 0)));
    let expected = [&base_a()[2..], &[10_000, 10_010]].concat();
    assert_eq!(desk.form(), Desk::of([2, 0, 0], &expected, &[]).form());
    assert_eq!(desk.chart[48..], rest);
    let mut desk = Desk::of([2, 0, 0], &base_a(), &[9990, 10_010].repeat(10));
    assert_eq!(desk.renew(), Ok((1, 0)));
    assert_eq!(desk.form(), Desk::of([2, 0, 0], &[10_010, 9990].repeat(8)[..15], &[]).form());
    // Refusal 12 counts base and series together.
    let small = [1000; 10];
    assert_eq!(Desk::of([1, 0, 0], &small, &[1000; 4]).renew(), Err(12));
    assert_eq!(Desk::of([1, 0, 0], &small, &[1000; 5]).renew(), Ok((1, 0)));
    assert_eq!(Desk::of([1, 0, 0], &small, &[1000, 1000, 1000, 1000, 0]).renew(), Ok((1, 0)));
    assert_eq!(Desk::of([1, 1, 1], &small, &[1001]).renew(), Err(8));
}

/// The base 0 eight times and 300 eight times, kind 1, with a series.
fn wide(series: &[i16]) -> Desk {
    Desk::of([1, 0, 0], &times(&[(0, 8), (300, 8)]), series)
}

#[test]
fn renewal_tails() {
    // The tail grows until 15 words stand. Rounds and removals are those of the tail that is used.
    let (low_high, word) = (times(&[(9000, 8), (11_000, 8)]), 10_000);
    let mut desk = Desk::of([2, 0, 0], &low_high, &times(&[(word, 15), (11_000, 1)]));
    assert_eq!((desk.renew_used(), desk.base()), ((16, 2, 1), vec![word; 15]));
    let mut desk = Desk::of([2, 0, 0], &low_high, &times(&[(word, 14), (11_000, 1)]));
    assert_eq!((desk.renew_used(), desk.base()), ((16, 1, 0), times(&[(11_000, 1), (word, 14), (11_000, 1)])));
    // The last 15 words would answer 2 rounds and 1 removed.
    let mut desk = Desk::build(1, &times(&[(1, 2), (0, 13)])).0;
    desk.post([0]);
    assert_eq!((desk.renew_used(), desk.base()), ((16, 1, 0), times(&[(1, 2), (0, 14)])));
    // A longer tail can leave fewer words: the tails of 15, 16, 17 and 18 words leave 14, 15, 14 and 18.
    let mut desk = Desk::build(1, &[15, 0, 0, 0, 6, 15, 0, 0, 0, 4, 0, 0, 0, 0, 0]).0;
    desk.post([0; 3]);
    assert_eq!((desk.renew_used(), desk.base()), ((16, 2, 1), vec![0, 0, 6, 0, 0, 0, 4, 0, 0, 0, 0, 0, 0, 0, 0]));
    // Only the longest tail will do.
    let mut desk = wide(&[&[1, 105, 125, 73, 88, 49, 60, 31, 39, 19, 24, 10, 14, 5, 7, 2, 3, 1][..], &[0; 14]].concat());
    assert_eq!((desk.renew_used(), desk.base()), ((32, 17, 16), times(&[(1, 2), (0, 14)])));
}

#[test]
fn no_tail_will_do() {
    // It happens to a chart with a base of 15. With one more post a tail will do.
    let hundred = times(&[(100, 1), (70, 1), (0, 13)]);
    let mut desk = Desk::build(1, &hundred).0;
    assert_eq!((desk.post([0]), desk.renew()), (vec![0], Err(16)));
    assert_eq!((desk.post([0]), desk.renew_used()), (vec![0], (15, 1, 0)));
    // 8 comes before 16.
    let mut desk = Desk::build(1, &hundred).0;
    assert_eq!((desk.post([0, 20_000]), desk.renew()), (vec![0, 1], Err(8)));
    // The last 33 words would do, but a tail ends at 32.
    let far = [125, 147, 88, 105, 60, 73, 39, 49, 24, 31, 14, 19, 7, 10, 3, 5, 1, 2];
    let series = [&[1][..], &far, &[0; 14]].concat();
    assert_eq!((series.len(), wide(&series).renew()), (33, Err(16)));
    // A full series that cannot be renewed takes no post either. A new build is needed.
    let series = [&[150; 334][..], &far, &[0; 14]].concat();
    let mut desk = wide(&series);
    assert_eq!((series.len(), desk.check(), desk.renew()), (366, 0, Err(16)));
    assert_eq!(desk.post_reading(1, reading(1, 0)), Err(9));
    // It never happens to a base of 15 or more with an empty series, because the whole base is a tail that stands. Here no shorter one
    // will do: the greatest word occurs twice.
    assert_eq!(Desk::build(1, &hundred).0.renew_used(), (15, 1, 0));
    let far = [1, 2, 3, 5, 7, 10, 14, 19, 24, 31, 39, 49, 60, 73, 88, 105, 125];
    for k in 1..=17 {
        let falling = far[..k].iter().rev().copied();
        let base: Vec<i16> = [far[k - 1]].into_iter().chain(falling).chain([0; 14]).collect();
        let mut desk = Desk::build(1, &base).0;
        assert_eq!((desk.renew_used(), desk.base()), ((15 + k, 1, 0), base));
    }
}

/// A form can hold a base of 10 to 14 words, which no build and no renewal makes. It is posted to and renewed.
#[test]
fn short_bases() {
    let mut desk = Desk::of([1, 0, 0], &[1000; 14], &[]);
    assert_eq!((desk.check(), desk.lines()), (0, vec![256_000; 3]));
    assert_eq!(desk.clone().post([1001]), [1]);
    assert_eq!(desk.renew(), Err(12));
    assert_eq!(desk.post([1000]), [0]);
    assert_eq!((desk.renew_used(), desk.base()), ((15, 1, 0), vec![1000; 15]));
    for n in 10..15 {
        let mut desk = Desk::of([2, 0, 0], &[9900, 10_100].repeat(7)[..n], &[]);
        for _ in n..15 {
            assert_eq!((desk.check(), desk.renew()), (0, Err(12)));
            desk.post([10_000]);
        }
        assert_eq!(desk.renew_used(), (15, 1, 0));
        assert_eq!(desk.renew_used(), (15, 1, 0));
    }
    // Too few words stand, and the chart stays as it was. With one more post a tail will do.
    let mut desk = Desk::of([1, 0, 0], &times(&[(100, 1), (70, 1), (0, 11)]), &[0; 3]);
    assert_eq!((desk.check(), desk.renew()), (0, Err(16)));
    assert_eq!((desk.post([0]), desk.renew_used()), (vec![0], (15, 1, 0)));
}

#[test]
fn forms() {
    let base = base_a();
    let check = |head, series: &[i16]| Desk::of(head, &base, series).check();
    assert_eq!(check([2, 0, 0], &[]), 0);
    // Structure comes before contents.
    assert_eq!(super::check(&[]), 13);
    let fresh = a();
    assert!((0..48).all(|size| super::check(&fresh.chart[..size]) == 13));
    assert_eq!(super::check(&fresh.chart[..49]), 13);
    for (at, values) in [(0, [0, 1, 6, 9, 10, 65_535]), (10, [0, 1, 33, 31, 34, 65_535]), (44, [0, 1, 3, 4, 258, 65_535])] {
        for value in values {
            let mut desk = fresh.clone();
            super::put(&mut desk.chart, at, value);
            super::put(&mut desk.chart, 4, 0);
            assert_eq!(desk.check(), 13);
        }
    }
    for at in [2, 12, 46] {
        let mut desk = fresh.clone();
        desk.chart[at + 1] = 1;
        assert_eq!(desk.check(), 13);
    }
    assert_eq!([9, 33].map(|n| Desk::of([2, 0, 0], &vec![0; n], &[]).check()), [13; 2]);
    assert_eq!([10, 32].map(|n| Desk::of([2, 0, 0], &vec![0; n], &[]).check()), [0; 2]);
    assert_eq!([366, 367].map(|n| check([2, 0, 0], &vec![10_000; n])), [0, 13]);
    // The numbers of the first record have two bytes each.
    assert_eq!([0, 4, 257, 258].map(|kind| check([kind, 0, 0], &[])), [14; 4]);
    assert_eq!([1, 2, 3, 256].map(|status| check([2, status, 0], &[])), [14; 4]);
    assert_eq!([1, 4, 256].map(|verdict| check([2, 0, verdict], &[])), [14; 3]);
    // Words in range.
    let fifteen = |kind, word| Desk::of([kind, 0, 0], &[word; 15], &[]).check();
    assert_eq!([fifteen(2, -20_001), fifteen(2, -20_000), fifteen(3, 20_001), fifteen(1, -1), fifteen(1, 0)], [14, 0, 14, 14, 0]);
    assert_eq!(Desk::of([1, 0, 0], &[0; 15], &[-1]).check(), 14);
    assert_eq!(Desk::of([3, 1, 1], &[0; 15], &[-20_001]).check(), 14);
    // Words within the limits: all words of the base, and all of the series but the last one, if the chart is not free.
    assert_eq!(Desk::of([2, 0, 0], &times(&[(1000, 14), (0, 1)]), &[]).check(), 14);
    assert_eq!(Desk::of([1, 0, 0], &times(&[(1000, 14), (0, 1)]), &[]).check(), 0);
    assert_eq!((check([2, 0, 0], &[10_301, 10_000]), check([2, 0, 0], &[10_301]), check([2, 0, 0], &[10_300])), (14, 14, 0));
    assert_eq!((check([2, 1, 1], &[10_301, 10_301]), check([2, 1, 1], &[10_300, 10_301])), (14, 0));
    // Statuses 1 and 2 each go with every verdict 1 to 4, but the verdict has to be that of the last word.
    assert_eq!(check([2, 1, 4], &[10_001; 7]), 0);
    assert_eq!(check([2, 2, 1], &[10_301]), 0);
    assert_eq!([0, 1, 2, 3, 4, 5].map(|verdict| check([2, 1, verdict], &by(9950, 10, 7))), [14, 14, 14, 0, 14, 14]);
    // A rising run on one side is open under 4, with either status.
    for status in [1, 2] {
        assert_eq!([0, 1, 2, 3, 4, 5].map(|verdict| check([2, status, verdict], &by(10_010, 10, 7))), [14, 14, 14, 14, 0, 14]);
    }
    assert_eq!([0, 1, 2].map(|status| check([2, status, 0], &[10_000])), [0, 14, 14]);
}

#[test]
fn lines() {
    let (c, ..) = Desk::build(2, &times(&[(10_000, 7), (10_001, 8)]));
    assert_eq!(c.lines(), [2_560_136, 2_559_873, 2_560_400, 2_559_740, 2_560_533]);
    // The mean line goes down below 0 too. So with a negated base the limits' lines are negated, and the mean line is not.
    let (up, ..) = Desk::build(3, &times(&[(1, 7), (0, 8)]));
    let (down, ..) = Desk::build(3, &times(&[(-1, 7), (0, 8)]));
    assert_eq!((up.lines()[0], down.lines()[0]), (119, -120));
    assert_eq!([1, 2, 3, 4].map(|i| up.lines()[i]), [2, 1, 4, 3].map(|i| -down.lines()[i]));
    // The line of a lower limit just below 0 is +0.0: `Desk::lines` tests that no line is -0.0.
    let (desk, ..) = Desk::build(3, &times(&[(0, 2), (1, 1), (2, 6), (3, 5), (4, 5)]));
    assert_eq!(desk.lines()[1], 0);
    let (desk, ..) = Desk::build(2, &times(&[(-20_000, 16), (20_000, 16)]));
    assert_eq!((desk.lines()[4], desk.lines()[3]), (15_605_775, -15_605_775));
    // Buffers of each length, and a kind 1 chart.
    let rooms = |desk: &Desk| {
        [0, 1, 2, 3, 4, 5, 6].map(|room| {
            let (mut lines, mut count) = (vec![-1.5; room], 7);
            let answer = super::lines(desk.form(), &mut lines, &mut count);
            assert!(answer == 0 || lines == vec![-1.5; room] && count == 7);
            answer
        })
    };
    assert_eq!((rooms(&a()), rooms(&k())), ([15, 15, 15, 15, 15, 0, 0], [15, 15, 15, 0, 0, 0, 0]));
    assert_eq!(k().lines(), [256_000, 256 * 1200, 256 * 1300]);
    assert_eq!(super::lines(&[], &mut [], &mut 0), 13);
    assert_eq!(super::lines(Desk::of([4, 0, 0], &[0; 15], &[]).form(), &mut [], &mut 0), 14);
}

#[test]
fn against_lines() {
    assert_eq!([9699, 9700, 9799, 9800].map(|w| a().beyond(w)), [[1, 0, 1, 0], [1, 0, 0, 0], [1, 0, 0, 0], [0; 4]]);
    assert_eq!([10_200, 10_201, 10_300, 10_301].map(|w| a().beyond(w)), [[0; 4], [0, 1, 0, 0], [0, 1, 0, 0], [0, 1, 0, 1]]);
    assert_eq!((a().beyond(-32_768), a().beyond(32_767)), ([1, 0, 1, 0], [0, 1, 0, 1]));
    assert_eq!((k().beyond(-32_768), k().beyond(1301), z().beyond(1001)), ([0; 4], [0, 1, 0, 1], [0, 1, 0, 1]));
    let ask = |form: &[u8], word, room| {
        let mut beyond = vec![9; room];
        let answer = super::against_lines(form, word, &mut beyond);
        assert!(answer == 0 || beyond == vec![9; room]);
        answer
    };
    assert_eq!([-32_769, 32_768, i32::MIN, i32::MAX, 65_536].map(|word| ask(a().form(), word, 3)), [7; 5]);
    assert_eq!((ask(a().form(), 0, 3), ask(a().form(), 0, 0), ask(a().form(), 0, 5)), (15, 15, 0));
    assert_eq!((ask(&[], 40_000, 0), ask(Desk::of([4, 0, 0], &[0; 15], &[]).form(), 40_000, 0)), (13, 14));
}
