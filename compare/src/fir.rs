//! Rows filtered by taps, beside the Rust's `apply_fir_inplace` at one lane.
use crate::host;
use crate::report::Report;
use crate::rng::Rng;
use crate::rows::{any, call, near, sample, step, wild, Calls, Draw, LENGTHS};
use theirs::rows::fir;

/// Document 01 compares on whole numbers; the rest shows that one lane gives the same bits on any doubles.
const DRAWS: [(&str, Draw); 5] = [
    ("whole numbers", whole),
    ("small whole numbers", small),
    ("samples", sample),
    ("near exponents", near),
    ("any finite bits", any),
];

/// Up to 2^22 in size, so that sums of 256 products stay below 2^53.
fn whole(rng: &mut Rng) -> f64 {
    rng.within(-(1 << 22), 1 << 22) as f64
}

/// Many zeros, of both signs.
fn small(rng: &mut Rng) -> f64 {
    match rng.below(4) {
        0 => -0.0,
        _ => rng.within(-1, 1) as f64,
    }
}

pub fn compare(report: &mut Report, scale: u64) {
    let mut rng = Rng::new(7);
    report.subject("fir beside apply_fir_inplace");
    for (name, draw) in DRAWS {
        let calls = Calls {
            name,
            calls: 4_000 * scale,
            rows: &[1, 2],
            longest: 600,
            count: |rng, _| 1 + rng.below(256) as usize,
            draw,
        };
        step(report, &mut rng, calls, host::fir, fir);
    }
    edges(report, &mut rng);
    turns(report, &mut rng);
}

/// Rows of the edges' lengths: every number of taps on the short ones.
fn edges(report: &mut Report, rng: &mut Rng) {
    let draws: [(&str, Draw, Draw); 2] = [
        ("whole numbers, edge lengths", whole, whole),
        ("edge lengths, infinities, NaN", near, wild),
    ];
    for (name, tap, sample) in draws {
        let mut class = report.class(name);
        for length in LENGTHS {
            let by = if length > 257 { 51 } else { 1 };
            for count in (1..=256).step_by(by) {
                for rows in [1, 2] {
                    let taps: Vec<f64> = (0..count).map(|_| tap(rng)).collect();
                    let before: Vec<f64> = (0..rows * length).map(|_| sample(rng)).collect();
                    call(&mut class, rows, &before, &taps, host::fir, fir);
                }
            }
        }
        report.add(class);
    }
}

/// Every row of up to 90 samples by every number of taps up to 40, so that eight outputs, two and one end at the ring's end and the row's in
/// every way.
fn turns(report: &mut Report, rng: &mut Rng) {
    let mut class = report.class("short rows, few taps");
    for length in 0..=90 {
        for count in 1..=40 {
            let taps: Vec<f64> = (0..count).map(|_| near(rng)).collect();
            let before: Vec<f64> = (0..2 * length).map(|_| near(rng)).collect();
            call(&mut class, 2, &before, &taps, host::fir, fir);
        }
    }
    report.add(class);
}

/// Taps that leave a row much as it is, however often they are run.
pub fn steady(count: usize) -> Vec<f64> {
    (0..count)
        .map(|m| if m == 0 { 1.0 } else { 1e-6 })
        .collect()
}
