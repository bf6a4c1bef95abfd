//! Cases for alignment and for the oscillators' commands, by chance and at the edges.
use crate::rng::{beside, float, Rng};
use theirs::osc::Osc;

/// A time and a rate for a level, by chance.
pub type AlignClass = fn(&mut Rng, i32) -> (f64, f64);

pub const ALIGN: [(&str, AlignClass); 6] = [
    ("on the grid and beside it", on_grid),
    ("the same at decimal rates", decimal_grid),
    ("below zero", below_zero),
    ("off the grid", off_grid),
    ("large indices", large_index),
    ("any finite bits", any_finite),
];

pub type OscClass = fn(&mut Rng) -> Case;

pub const OSC: [(&str, OscClass); 7] = [
    ("quarters", quarters),
    ("a bench's numbers", bench),
    ("rounded", rounded),
    ("cancelled", cancelled),
    ("zeros", zeros),
    ("tiny", tiny),
    ("huge", huge),
];

/// The step of the grid in samples, 2^level.
fn step(level: i32) -> f64 {
    float(0, (1023 + level) as u64, 0)
}

/// Zeros, the smallest and the largest numbers, the examples of document 01, one step and its neighbours, the edge of the indices.
pub fn special_times(level: i32) -> Vec<f64> {
    let one = step(level);
    let edge = float(0, 1023 + 64, 0);
    let sides = [
        0.0,
        float(0, 0, 1),
        f64::MAX,
        0.5,
        2.25,
        one,
        beside(one, 1),
        beside(one, -1),
        one / 2.0,
        edge,
        beside(edge, -1),
        beside(edge, 1),
        65536.0,
        65535.75,
    ];
    sides.into_iter().flat_map(|time| [time, -time]).collect()
}

/// A multiple of the step, or up to two units in the last place beside it, at a rate that is a power of two.
pub fn on_grid(rng: &mut Rng, level: i32) -> (f64, f64) {
    let rate = float(0, rng.within(983, 1063) as u64, 0);
    let steps = (rng.bits() >> 11 >> rng.below(53)) as f64;
    let time = beside(steps * step(level) / rate, rng.within(-2, 2));
    (time, rate)
}

/// The same at rates whose grid the doubles miss.
pub fn decimal_grid(rng: &mut Rng, level: i32) -> (f64, f64) {
    let rate = [1e9, 2e9, 2.4e9, 6.5e8, 1e-3, 3.0][rng.below(6) as usize];
    let steps = rng.below(100_000) as f64;
    let time = beside(steps * step(level) / rate, rng.within(-2, 2));
    (time, rate)
}

/// Less than two steps before 0: half of them start at 0.
pub fn below_zero(rng: &mut Rng, level: i32) -> (f64, f64) {
    let rate = float(0, rng.within(983, 1063) as u64, rng.bits());
    let time = -2.0 * rng.sample().abs() * step(level) / rate;
    (time, rate)
}

/// An index up to 65,536.
pub fn off_grid(rng: &mut Rng, _level: i32) -> (f64, f64) {
    let rate = float(0, rng.within(983, 1063) as u64, rng.bits());
    (rng.sample().abs() * 65536.0 / rate, rate)
}

/// An index from about 2^50 to 2^66.
pub fn large_index(rng: &mut Rng, _level: i32) -> (f64, f64) {
    let field = rng.within(200, 1800);
    let index = rng.within(50, 66);
    let rate = rng.in_field(field).abs();
    let time = rng.in_field(2046 - field + index).abs();
    (time, rate)
}

pub fn any_finite(rng: &mut Rng, _level: i32) -> (f64, f64) {
    let [time, rate] = [0; 2].map(|_| {
        let field = rng.within(0, 2046);
        rng.in_field(field)
    });
    (time, rate.abs())
}

/// An oscillator, a phase, a frequency and a time.
pub struct Case {
    pub osc: Osc,
    pub phase: f64,
    pub freq: f64,
    pub time: f64,
}

fn case(mut next: impl FnMut() -> f64) -> Case {
    Case {
        osc: Osc {
            base: next(),
            delta: next(),
            phase: next(),
        },
        phase: next(),
        freq: next(),
        time: next(),
    }
}

/// Quarters from -16 to 16: nothing is rounded.
pub fn quarters(rng: &mut Rng) -> Case {
    case(|| rng.within(-64, 64) as f64 / 4.0)
}

/// Numbers of a bench: gigahertz, megahertz, turns, microseconds.
pub fn bench(rng: &mut Rng) -> Case {
    Case {
        osc: Osc {
            base: 4.5e9 + 1e9 * rng.sample(),
            delta: 1e8 * rng.sample(),
            phase: rng.sample(),
        },
        phase: rng.sample(),
        freq: 1e8 * rng.sample(),
        time: 1e-9 * rng.below(100_000) as f64,
    }
}

/// Exponents far enough apart that every operation rounds.
pub fn rounded(rng: &mut Rng) -> Case {
    case(|| {
        let field = rng.within(1003, 1043);
        rng.in_field(field)
    })
}

/// Sums that nearly vanish: the frequencies and the phases lie beside one another.
pub fn cancelled(rng: &mut Rng) -> Case {
    let mut case = rounded(rng);
    case.freq = beside(case.osc.delta, rng.within(-2, 2));
    case.osc.base = beside(-case.osc.delta, rng.within(-2, 2));
    case.osc.phase = beside(case.freq * case.time, rng.within(-2, 2));
    case.phase = beside(case.osc.delta * case.time, rng.within(-2, 2));
    case
}

/// Zeros of both signs among ones.
pub fn zeros(rng: &mut Rng) -> Case {
    case(|| match rng.below(4) {
        0 => 1.0,
        1 => -0.0,
        2 => -1.0,
        _ => 0.0,
    })
}

/// Subnormal numbers and products.
pub fn tiny(rng: &mut Rng) -> Case {
    case(|| match rng.below(3) {
        0 => rng.subnormal(),
        _ => {
            let field = rng.within(400, 640);
            rng.in_field(field)
        }
    })
}

/// Products and sums about the largest finite number.
pub fn huge(rng: &mut Rng) -> Case {
    let mut case = case(|| {
        let field = rng.within(2044, 2046);
        rng.in_field(field)
    });
    let field = rng.within(1021, 1024);
    case.time = rng.in_field(field);
    case
}
