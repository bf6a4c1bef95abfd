//! The steps on rows beside the Rust's, over rows and numbers by chance: what each leaves, sample by sample.
use crate::report::{Class, Report};
use crate::rng::Rng;

/// A step of ours: rows, I, Q, numbers; 0 where it is done. And theirs, on rows one after the other.
pub type Ours = fn(usize, &mut [f64], &mut [f64], &[f64]) -> usize;
pub type Theirs = fn(&mut [f64], usize, &[f64]);

/// How rows and numbers are drawn.
pub type Draw = fn(&mut Rng) -> f64;

/// Finite doubles: of any bits, of exponents near one another, and samples from -1 to 1.
pub fn any(rng: &mut Rng) -> f64 {
    let field = rng.within(0, 2046);
    rng.in_field(field)
}

pub fn near(rng: &mut Rng) -> f64 {
    let field = rng.within(1019, 1027);
    rng.in_field(field)
}

pub fn sample(rng: &mut Rng) -> f64 {
    rng.sample()
}

/// Numbers of 12 bits, and tenths: sums that are exact, or that cancel but for what was rounded.
pub fn coarse(rng: &mut Rng) -> f64 {
    rng.within(-2048, 2047) as f64 / 2048.0
}

pub fn tenths(rng: &mut Rng) -> f64 {
    rng.within(-30, 30) as f64 * 0.1
}

/// Samples as they may stand in a row: now and then an infinity or a NaN.
pub fn wild(rng: &mut Rng) -> f64 {
    match rng.below(12) {
        0 => f64::INFINITY,
        1 => f64::NEG_INFINITY,
        2 => f64::NAN,
        3 => -0.0,
        _ => any(rng),
    }
}

/// The lengths at the edges.
pub const LENGTHS: [usize; 8] = [0, 1, 2, 255, 256, 257, 65_535, 65_536];

/// So many calls: one or two rows of at most `longest` samples, and as many numbers as `count` gives for the rows.
pub struct Calls {
    pub name: &'static str,
    pub calls: u64,
    pub rows: &'static [usize],
    pub longest: u64,
    pub count: fn(&mut Rng, usize) -> usize,
    pub draw: Draw,
}

pub fn step(report: &mut Report, rng: &mut Rng, calls: Calls, ours: Ours, theirs: Theirs) {
    let mut class = report.class(calls.name);
    for _ in 0..calls.calls {
        let rows = calls.rows[rng.below(calls.rows.len() as u64) as usize];
        let length = rng.below(calls.longest + 1) as usize;
        let count = (calls.count)(rng, rows);
        let numbers: Vec<f64> = (0..count).map(|_| (calls.draw)(rng)).collect();
        let before: Vec<f64> = (0..rows * length).map(|_| (calls.draw)(rng)).collect();
        call(&mut class, rows, &before, &numbers, ours, theirs);
    }
    report.add(class);
}

/// One call, on rows one after the other.
pub fn call(
    class: &mut Class,
    rows: usize,
    before: &[f64],
    numbers: &[f64],
    ours: Ours,
    theirs: Theirs,
) {
    let mut left = before.to_vec();
    theirs(&mut left, rows, numbers);
    let mut mine = before.to_vec();
    let (i, q) = mine.split_at_mut(before.len() / rows);
    let code = ours(rows, i, q, numbers);
    // A refusal, 0 where none is due, is judged as a sample is.
    class.judge(numbers, code as f64, 0.0);
    for (at, (mine, left)) in mine.iter().zip(&left).enumerate() {
        class.judge(&[before[at]], *mine, *left);
    }
}
