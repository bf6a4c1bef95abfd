//! The mixer's step beside the Rust's `apply_iq_inplace` followed by `apply_offset_inplace`.
use crate::host;
use crate::report::Report;
use crate::rng::Rng;
use crate::rows::{any, call, coarse, near, sample, step, tenths, wild, Calls, Draw, LENGTHS};

const DRAWS: [(&str, Draw); 5] = [
    ("any finite bits", any),
    ("near exponents", near),
    ("samples", sample),
    ("samples of 12 bits", coarse),
    ("tenths", tenths),
];

/// What takes one part out of the step: the unit matrix, and offsets of either zero.
const PARTS: [[f64; 6]; 3] = [
    [1.0, 0.0, 0.0, 1.0, 0.0, 0.0],
    [1.0, 0.0, 0.0, 1.0, -0.0, -0.0],
    [1.0, -0.0, -0.0, 1.0, 0.5, -0.0],
];

pub fn compare(report: &mut Report, scale: u64) {
    let mut rng = Rng::new(6);
    report.subject("mixer beside apply_iq_inplace, then apply_offset_inplace");
    for (name, draw) in DRAWS {
        let calls = Calls {
            name,
            calls: 20_000 * scale,
            rows: &[2],
            longest: 40,
            count: |_, _| 6,
            draw,
        };
        step(report, &mut rng, calls, host::mixer, their_mixer);
    }
    let mut class = report.class("edge lengths, infinities, NaN");
    for length in LENGTHS {
        for _ in 0..4 {
            let numbers: Vec<f64> = (0..6).map(|_| near(&mut rng)).collect();
            let before: Vec<f64> = (0..2 * length).map(|_| wild(&mut rng)).collect();
            call(&mut class, 2, &before, &numbers, host::mixer, their_mixer);
        }
        for numbers in PARTS {
            let before: Vec<f64> = (0..2 * length).map(|_| wild(&mut rng)).collect();
            call(&mut class, 2, &before, &numbers, host::mixer, their_mixer);
        }
    }
    report.add(class);
}

pub fn their_mixer(samples: &mut [f64], _: usize, numbers: &[f64]) {
    let (matrix, offsets) = numbers.split_at(4);
    theirs::rows::mixer(samples, matrix, offsets);
}
