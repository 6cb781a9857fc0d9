//! Taking times: the sides of a line on the same input, in turns.

pub mod agree;
pub mod blocks;
pub mod growth;
pub mod handles;
pub mod jobs;
pub mod keys;
pub mod maps;
pub mod opens;
pub mod salvages;
pub mod sides;
pub mod tree;
pub mod whole;

use std::time::{Duration, Instant};

/// Whether a word stands on the command line.
pub fn said(word: &str) -> bool {
    std::env::args().any(|said| said == word)
}

/// A number, and what a call answers beside it.
pub type Answer = [u64; 3];

/// One of the things that are measured beside each other.
pub struct Side<'a> {
    pub name: &'static str,
    /// Writes over what the run must leave anew; only before the first run, which is compared.
    pub spoil: Box<dyn FnMut() + 'a>,
    /// Puts things back before each run; not counted.
    pub ready: Box<dyn FnMut() + 'a>,
    pub run: Box<dyn FnMut() -> Answer + 'a>,
    /// What the run left, as a digest of the bytes that every side of the line must leave alike.
    pub left: Box<dyn Fn() -> u64 + 'a>,
    /// How often it is run within the clock: more than once only where it changes nothing.
    pub times: usize,
    /// Whether it does something else than the last side, so that nothing is compared.
    pub apart: bool,
}

/// How long the sides of one line are run, and how often at least and at most.
#[derive(Clone, Copy)]
pub struct Pace {
    pub span: Duration,
    pub least: usize,
}

/// For the jobs of the first table, for the long tables, and for the drawing.
pub const JOB: Pace = Pace { span: Duration::from_millis(1_200), least: 9 };
pub const LINE: Pace = Pace { span: Duration::from_millis(200), least: 3 };
pub const POINT: Pace = Pace { span: Duration::from_millis(60), least: 3 };
const MOST: usize = 400;

/// The best time of each side in microseconds. The sides take turns, so that what else the machine does meets them alike. Before that each is run once, and all
/// must answer alike and leave alike bytes.
pub fn race(line: &str, mut sides: Vec<Side>, pace: Pace) -> Vec<f64> {
    let mut told = vec![];
    for side in &mut sides {
        (side.spoil)();
        (side.ready)();
        told.push(((side.run)(), (side.left)()));
    }
    for (side, one) in sides.iter().zip(&told).filter(|(side, _)| !side.apart) {
        assert_eq!(*one, told[told.len() - 1], "{line}: {} differs from {}", side.name, sides[sides.len() - 1].name);
    }
    let mut least = vec![f64::INFINITY; sides.len()];
    let (start, mut rounds) = (Instant::now(), 0);
    while rounds < pace.least || (rounds < MOST && start.elapsed() < pace.span) {
        for (side, least) in sides.iter_mut().zip(&mut least) {
            (side.ready)();
            let begin = Instant::now();
            for _ in 0..side.times {
                std::hint::black_box((side.run)());
            }
            let took = begin.elapsed().as_secs_f64() * 1e6 / side.times as f64;
            *least = least.min(took);
        }
        rounds += 1;
    }
    least
}

/// A digest of bytes, to compare them by.
pub fn digest(bytes: &[u8]) -> u64 {
    let (words, rest) = bytes.as_chunks::<8>();
    let step = |sum: u64, word: u64| (sum ^ word).wrapping_mul(0x9E37_79B9_7F4A_7C15).rotate_left(29);
    let sum = words.iter().fold(bytes.len() as u64, |sum, word| step(sum, u64::from_le_bytes(*word)));
    rest.iter().fold(sum, |sum, byte| step(sum, *byte as u64))
}

/// The same of a list of numbers.
pub fn digest_list(list: &[u32]) -> u64 {
    list.iter().fold(list.len() as u64, |sum, word| (sum ^ *word as u64).wrapping_mul(0x9E37_79B9_7F4A_7C15).rotate_left(29))
}

/// Bytes to be written, no two blocks of them alike.
pub fn pattern(len: usize) -> Vec<u8> {
    (0..len as u64).map(|i| (i.wrapping_mul(0x9E37_79B9_7F4A_7C15) >> 56) as u8).collect()
}

/// A number as it is read: 1,000,000.
pub fn commas(number: usize) -> String {
    let digits = number.to_string();
    let parts: Vec<&str> = digits.as_bytes().rchunks(3).rev().map(|part| std::str::from_utf8(part).expect("digits")).collect();
    parts.join(",")
}

/// A time, or a dash where there is none.
pub fn shown(time: Option<f64>) -> String {
    time.map_or("-".into(), |t| if t < 10.0 { format!("{t:.2}") } else { commas(t.round() as usize) })
}

pub fn ratio(a: Option<f64>, b: Option<f64>) -> String {
    match (a, b) {
        (Some(a), Some(b)) if b > 0.0 => format!("{:.2}", a / b),
        _ => "-".into(),
    }
}
