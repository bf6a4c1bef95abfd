//! Nanoseconds a call: ours, Rust's as an ordinary release build calls it, and the ratio. The best of several runs over numbers that
//! fit the cache. The calls do not wait for one another, but in the rows "in turn", where each argument depends on the last answer.
use crate::fir;
use crate::host;
use crate::iir;
use crate::mixer;
use crate::rng::Rng;
use crate::rows::{Ours, Theirs};
use std::f64::consts::{PI, TAU};
use std::hint::black_box;
use std::time::Instant;

const NUMBERS: usize = 4096;
const ROUNDS: usize = 200;
const RUNS: usize = 15;

pub fn run() {
    println!(
        "{:44} {:>8} {:>8} {:>8}",
        "nanoseconds a call", "ours", "std", "ratio"
    );
    let mut rng = Rng::new(4);
    let wide = numbers(|| {
        let (ea, eb) = (rng.within(923, 1123), rng.within(923, 1123));
        let ec = ea + eb - 1023 + rng.within(-80, 80);
        [ea, eb, ec].map(|field| rng.in_field(field))
    });
    fused("mul_add, wide exponents", &wide);
    let samples = numbers(|| [0; 3].map(|_| rng.sample()));
    fused("mul_add, samples from -1 to 1", &samples);
    let indices = numbers(|| rng.sample() * 65536.0);
    ceiling("ceil, numbers from -65536 to 65536", &indices);
    for (most, below) in [(PI, "below PI"), (TAU, "below TAU"), (1e6, "below 1e6")] {
        let angles = numbers(|| rng.sample() * most);
        angle(&format!("cos, {below}"), &angles, host::cos, f64::cos);
        angle(&format!("sin, {below}"), &angles, host::sin, f64::sin);
    }
    println!(
        "{:44} {:>8} {:>8} {:>8}",
        "nanoseconds a point", "ours", "Rust", "ratio"
    );
    for degree in [1, 3, 5] {
        for controls in [8, 32] {
            spline(degree, controls);
        }
    }
    println!(
        "{:44} {:>8} {:>8} {:>8}",
        "nanoseconds a sample of each row", "ours", "Rust", "ratio"
    );
    mixer_steps();
    for count in [1, 2, 3, 4, 5, 8, 16] {
        let name = format!("iir, two rows, sections: {count}");
        step(&name, &iir::level(count), host::iir, theirs::rows::iir);
    }
    for count in [1, 2, 3, 4, 5, 6, 7, 8, 15, 16, 64, 256] {
        let taps = fir::steady(count);
        step(
            &format!("fir, {count} taps"),
            &taps,
            host::fir,
            theirs::rows::fir,
        );
    }
}

/// NUMBERS points that rise through the domain of a clamped spline, as an envelope's do; the Rust's `Interp` takes the plain recurrence.
fn spline(degree: usize, count: usize) {
    let mut rng = Rng::new(7);
    let controls: Vec<f64> = (0..count).map(|_| rng.sample()).collect();
    let inner = count - degree;
    let knots: Vec<f64> = (0..count + degree + 1)
        .map(|k| k.clamp(degree, count) - degree)
        .map(|k| k as f64 / inner as f64 - 0.5)
        .collect();
    let mut row = vec![degree as f64, count as f64];
    row.extend(&controls);
    row.resize(34, 0.0);
    row.extend(&knots);
    row.resize(72, 0.0);
    let rising: Vec<f64> = (0..NUMBERS)
        .map(|k| k as f64 / NUMBERS as f64 - 0.5)
        .collect();
    let theirs = theirs::lists::spline(degree, &controls, &knots);
    let (mut mine, mut rust) = (rising.clone(), rising.clone());
    host::spline(&mut mine, &row);
    theirs(&mut rust);
    assert_eq!(mine, rust, "a spline's values");
    let timed = |call: &dyn Fn(&mut [f64])| {
        rows_best(&rising, |points| {
            points.copy_from_slice(&rising);
            call(points);
        })
    };
    self::row(
        &format!("spline, degree {degree}, {count} controls"),
        timed(&|points| host::spline(points, &row)),
        timed(&theirs),
    );
}

/// The mixer by a matrix all of whose products are rounded, on rows of several kinds; and two pairs of matrix and rows that are hard for ours: ties, and sums of
/// which all but the lost digits cancels.
fn mixer_steps() {
    let mut rng = Rng::new(8);
    let numbers = [0.9, 0.1, -0.1, 1.1, 1e-6, -2e-6];
    let turn = |k: usize| {
        let (sine, cosine) = (0.01 * k as f64 + 0.3).sin_cos();
        [cosine, sine]
    };
    let pulse = |k: usize| match k % 128 {
        at @ ..=95 => 0.5 - 0.5 * (TAU * at as f64 / 96.0).cos(),
        _ => 0.0,
    };
    mixer_on("sines", &numbers, turn);
    mixer_on("Hann pulses and gaps", &numbers, |k| {
        turn(k).map(|part| pulse(k) * part)
    });
    mixer_on("samples from -1 to 1", &numbers, |_| {
        [(); 2].map(|_| rng.sample())
    });
    let mut coarse = |_| [(); 2].map(|_| (rng.sample() * 2048.0).floor() / 2048.0);
    mixer_on("samples of 12 bits", &numbers, &mut coarse);
    let ties = [1.0, 0.1, -0.1, 1.0, 1e-6, -2e-6];
    mixer_on("samples of 12 bits, by 1 and 0.1", &ties, &mut coarse);
    mixer_on("samples below 2^-800", &numbers, |_| {
        [(); 2].map(|_| rng.sample() * 2f64.powi(-801))
    });
    let half = std::f64::consts::FRAC_1_SQRT_2;
    let cancels = [half, -half, half, half, 1e-6, -2e-6];
    mixer_on("I and Q alike, turned to 0", &cancels, |_| {
        [rng.sample(); 2]
    });
}

/// Two rows of NUMBERS samples, laid anew for each call.
fn mixer_on(name: &str, numbers: &[f64], at: impl FnMut(usize) -> [f64; 2]) {
    let pairs: Vec<[f64; 2]> = (0..NUMBERS).map(at).collect();
    let one = |row: usize| pairs.iter().map(move |pair| pair[row]);
    let rows: Vec<f64> = one(0).chain(one(1)).collect();
    let timed = |call: &dyn Fn(&mut [f64])| {
        rows_best(&rows, |samples| {
            samples.copy_from_slice(&rows);
            call(samples);
        })
    };
    let mine = timed(&|samples| {
        let (i, q) = samples.split_at_mut(NUMBERS);
        host::mixer(2, i, q, numbers);
    });
    let rust = timed(&|samples| mixer::their_mixer(samples, 2, numbers));
    row(&format!("mixer, {name}"), mine, rust);
}

/// Two rows of NUMBERS samples from -1 to 1, stepped in place again and again; the numbers keep them finite.
pub fn step(name: &str, numbers: &[f64], ours: Ours, theirs: Theirs) {
    let mut rng = Rng::new(5);
    let rows: Vec<f64> = (0..2 * NUMBERS).map(|_| rng.sample()).collect();
    let mine = rows_best(&rows, |samples| {
        let (i, q) = samples.split_at_mut(NUMBERS);
        ours(2, i, q, numbers);
    });
    let rust = rows_best(&rows, |samples| theirs(samples, 2, numbers));
    row(name, mine, rust);
}

/// Nanoseconds a sample of each row in the best run.
fn rows_best(rows: &[f64], call: impl Fn(&mut [f64])) -> f64 {
    let run = || {
        let mut samples = rows.to_vec();
        let start = Instant::now();
        for _ in 0..ROUNDS {
            call(black_box(&mut samples));
        }
        start.elapsed().as_nanos() as f64 / (ROUNDS * NUMBERS) as f64
    };
    (0..RUNS).map(|_| run()).fold(f64::INFINITY, f64::min)
}

fn numbers<T>(mut next: impl FnMut() -> T) -> Vec<T> {
    (0..NUMBERS).map(|_| next()).collect()
}

fn fused(name: &str, triples: &[[f64; 3]]) {
    let ours = best(triples, |&[a, b, c]| host::mul_add(a, b, c));
    let theirs = best(triples, |&[a, b, c]| a.mul_add(b, c));
    row(name, ours, theirs);
}

fn ceiling(name: &str, numbers: &[f64]) {
    let ours = best(numbers, |&x| host::ceil(x));
    let theirs = best(numbers, |&x| x.ceil());
    row(name, ours, theirs);
}

fn angle<F: Fn(f64) -> f64, G: Fn(f64) -> f64>(name: &str, angles: &[f64], ours: F, theirs: G) {
    row(
        name,
        best(angles, |&x| ours(x)),
        best(angles, |&x| theirs(x)),
    );
    let in_turn = format!("{name}, in turn");
    row(
        &in_turn,
        best_in_turn(angles, ours),
        best_in_turn(angles, theirs),
    );
}

fn row(name: &str, ours: f64, theirs: f64) {
    println!("{name:44} {ours:8.2} {theirs:8.2} {:8.2}", ours / theirs);
}

/// Nanoseconds a call in the best run.
fn best<T>(inputs: &[T], call: impl Fn(&T) -> f64) -> f64 {
    shortest(inputs, |inputs| {
        let sum = |sum: u64, input| sum.wrapping_add(call(input).to_bits());
        black_box(inputs.iter().fold(0, sum));
    })
}

/// The same, where a call waits for the one before it.
fn best_in_turn(inputs: &[f64], call: impl Fn(f64) -> f64) -> f64 {
    shortest(inputs, |inputs| {
        let next = |last: f64, x: &f64| call(x + last * 1e-300);
        black_box(inputs.iter().fold(0.0, next));
    })
}

/// Nanoseconds an input in the shortest run.
fn shortest<T>(inputs: &[T], round: impl Fn(&[T])) -> f64 {
    let run = || {
        let start = Instant::now();
        for _ in 0..ROUNDS {
            round(black_box(inputs));
        }
        start.elapsed().as_nanos() as f64 / (ROUNDS * inputs.len()) as f64
    };
    (0..RUNS).map(|_| run()).fold(f64::INFINITY, f64::min)
}
