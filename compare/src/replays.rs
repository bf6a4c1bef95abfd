//! Operands for the program `replay_numbers`, and the Rust's answers: one case a line, the same in every run. A line is a letter and words,
//! each 16 lowercase hex digits after one space: the bits of a double, or a whole number (crates/replay_numbers/src/main.rt). CODE is 0,
//! or the number of the refusal that is due where the Rust has none; there a start and an offset are 0, and oscillators as they came.
//!
//! Alignment: a time (the delay is in it), a sample rate and an align level plus 20; the sample at which a pulse starts, and the offset.
//!
//!     a TIME RATE LEVEL
//!     a CODE START OFFSET
//!
//! The oscillators' commands: an oscillator is its base frequency, delta frequency and phase. The letters are ShiftPhase, SetPhase,
//! ShiftFreq, SetFreq and SwapPhase; the time of the first is not read.
//!
//!     p BASE DELTA PHASE NUMBER TIME      (and P, f, F)
//!     p CODE BASE DELTA PHASE
//!     w BASE DELTA PHASE BASE DELTA PHASE TIME
//!     w CODE BASE DELTA PHASE BASE DELTA PHASE
use crate::cases::{
    any_finite, below_zero, bench, cancelled, decimal_grid, huge, large_index, off_grid, on_grid,
    quarters, rounded, special_times, tiny, zeros,
};
use crate::rng::Rng;
use theirs::aligned::aligned;
use theirs::osc::{set_freq, set_phase, shift_freq, shift_phase, swap_phase, Osc};

/// The operands, or the answers.
pub fn print(answers: bool) {
    for (letter, given, answer) in align().into_iter().chain(osc()) {
        println!("{letter} {}", if answers { answer } else { given });
    }
}

/// A letter, the operands and the answer.
type Case = (char, String, String);

fn words(numbers: &[f64]) -> String {
    let words: Vec<String> = numbers
        .iter()
        .map(|x| format!("{:016x}", x.to_bits()))
        .collect();
    words.join(" ")
}

fn align() -> Vec<Case> {
    let mut cases = Vec::new();
    for level in -20..=20 {
        for time in special_times(level) {
            cases.push(align_case(time, 1.0, level));
        }
    }
    let mut rng = Rng::new(11);
    for _ in 0..150 {
        for class in [
            on_grid,
            decimal_grid,
            below_zero,
            off_grid,
            large_index,
            any_finite,
        ] {
            let level = rng.within(-20, 20) as i32;
            let (time, rate) = class(&mut rng, level);
            cases.push(align_case(time, rate, level));
        }
    }
    cases
}

fn align_case(time: f64, rate: f64, level: i32) -> Case {
    let (code, start, offset) = match aligned(time, rate, level) {
        None => (8, 0, 0.0),
        Some(index) if index.value < 0.0 => (9, 0, 0.0),
        Some(index) => match index.start {
            None => (10, 0, 0.0),
            Some(start) => (0, start, index.offset),
        },
    };
    let given = format!("{} {:016x}", words(&[time, rate]), level + 20);
    let answer = format!("{code:016x} {start:016x} {}", words(&[offset]));
    ('a', given, answer)
}

fn osc() -> Vec<Case> {
    let mut rng = Rng::new(12);
    let mut cases = Vec::new();
    for _ in 0..30 {
        for class in [
            quarters, bench, bench, rounded, rounded, cancelled, zeros, tiny, huge, huge,
        ] {
            let [a, b, c, d, e, f] = [0; 6].map(|_| class(&mut rng));
            cases.push(one('p', a.osc, a.phase, a.time, shift_phase));
            cases.push(one('P', b.osc, b.phase, b.time, set_phase));
            cases.push(one('f', c.osc, c.freq, c.time, shift_freq));
            cases.push(one('F', d.osc, d.freq, d.time, set_freq));
            cases.push(swap([e.osc, f.osc], e.time));
        }
    }
    cases
}

fn one(
    letter: char,
    osc: Osc,
    number: f64,
    time: f64,
    run: fn(Osc, f64, f64) -> Option<Osc>,
) -> Case {
    let after = run(osc, number, time).map(|osc| numbers(osc).to_vec());
    let given = [numbers(osc).as_slice(), &[number, time]].concat();
    osc_case(letter, &given, &numbers(osc), after)
}

fn swap(before: [Osc; 2], time: f64) -> Case {
    let after = swap_phase(before, time).map(|both| both.map(numbers).concat());
    let given = [before.map(numbers).as_flattened(), &[time]].concat();
    osc_case('w', &given, before.map(numbers).as_flattened(), after)
}

fn numbers(osc: Osc) -> [f64; 3] {
    [osc.base, osc.delta, osc.phase]
}

fn osc_case(letter: char, given: &[f64], before: &[f64], after: Option<Vec<f64>>) -> Case {
    let after = after.filter(|after| after.iter().all(|x| x.is_finite()));
    let code = if after.is_some() { 0 } else { 8 };
    let after = words(after.as_deref().unwrap_or(before));
    (letter, words(given), format!("{code:016x} {after}"))
}
