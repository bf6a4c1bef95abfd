//! Rows through second-order sections, beside the Rust's `apply_iir_inplace`: its pipeline for one to four sections, its cascade for more.
use crate::host;
use crate::report::{Class, Report};
use crate::rng::{beside, float, Rng};
use crate::rows::{any, call, near, sample, Draw};

/// How the numbers of sections are drawn, and how samples are.
const DRAWS: [(&str, Draw, Draw); 6] = [
    ("samples", sample, sample),
    ("near exponents", near, near),
    ("any finite bits", any, any),
    ("zeros of both signs", unit, unit),
    ("infinities and NaN in rows", unit, special),
    ("subnormal samples", near, tiny),
];

const MOST: usize = 16;
const LENGTHS: [usize; 9] = [0, 1, 2, 3, 255, 256, 257, 65_535, 65_536];

pub fn compare(report: &mut Report, scale: u64) {
    let mut rng = Rng::new(7);
    report.subject("iir beside apply_iir_inplace");
    for (name, number, sample) in DRAWS {
        let mut class = report.class(name);
        for _ in 0..10_000 * scale {
            let rows = rng.within(1, 2) as usize;
            let length = rng.below(41) as usize;
            let count = rng.below(MOST as u64 + 1) as usize;
            let sections = sections(&mut rng, count, number);
            let before: Vec<f64> = (0..rows * length).map(|_| sample(&mut rng)).collect();
            run(&mut class, rows, &before, &sections);
        }
        report.add(class);
    }
    let mut class = report.class("a0 that is not 1, by rule");
    for _ in 0..10_000 * scale {
        let rows = rng.within(1, 2) as usize;
        let length = rng.below(41) as usize;
        let count = rng.within(1, MOST as i64) as usize;
        let mut sections = sections(&mut rng, count, near);
        for _ in 0..rng.within(1, 3) {
            let k = rng.below(count as u64) as usize;
            sections[6 * k + 3] = spoilt(&mut rng);
        }
        let before: Vec<f64> = (0..rows * length).map(|_| rng.sample()).collect();
        run(&mut class, rows, &before, &sections);
    }
    report.add(class);
    let mut class = report.class("every count at edge lengths");
    for count in 0..=MOST {
        for length in LENGTHS {
            for rows in [1, 2] {
                let sections = sections(&mut rng, count, calm);
                let before: Vec<f64> = (0..rows * length).map(|_| rng.sample()).collect();
                run(&mut class, rows, &before, &sections);
            }
        }
    }
    report.add(class);
}

/// Beside the Rust where nothing is to be refused; else the number by rule, and the rows as they came: the Rust does not read a0.
fn run(class: &mut Class, rows: usize, before: &[f64], sections: &[f64]) {
    let number = refused(sections);
    if number == 0 {
        call(class, rows, before, sections, host::iir, theirs::rows::iir);
        return;
    }
    let mut mine = before.to_vec();
    let (i, q) = mine.split_at_mut(before.len() / rows);
    let code = host::iir(rows, i, q, sections);
    class.judge(sections, code as f64, number as f64);
    for (mine, before) in mine.iter().zip(before) {
        class.judge(&[*before], *mine, *before);
    }
}

/// Document 02, P5: 2 where any of the numbers is not finite, then 22 where an a0 is not 1; 0 where nothing is refused.
fn refused(sections: &[f64]) -> usize {
    if sections.iter().any(|x| !x.is_finite()) {
        return 2;
    }
    if sections.chunks(6).any(|section| section[3] != 1.0) {
        return 22;
    }
    0
}

/// An a0 as it should not be, but one in ten.
fn spoilt(rng: &mut Rng) -> f64 {
    match rng.below(10) {
        0 => 1.0,
        1 => -1.0,
        2 => beside(1.0, 1),
        3 => beside(1.0, -1),
        4 => 0.0,
        5 => 2.0,
        6 => f64::INFINITY,
        7 => f64::NAN,
        8 => rng.subnormal(),
        _ => any(rng),
    }
}

/// So many sections of six numbers, each with an a0 of 1.
fn sections(rng: &mut Rng, count: usize, number: Draw) -> Vec<f64> {
    let section = |_| {
        let [b0, b1, b2, a1, a2] = [0; 5].map(|_| number(rng));
        [b0, b1, b2, 1.0, a1, a2]
    };
    (0..count).flat_map(section).collect()
}

/// Sections whose poles and zeros meet: a row keeps its size, however often it goes through them.
pub fn level(count: usize) -> Vec<f64> {
    let section = |k| {
        let (a1, a2) = (-0.5 + 0.05 * k as f64, 0.3);
        [1.0, a1, a2, 1.0, a1, a2]
    };
    (0..count).flat_map(section).collect()
}

/// Small enough that a section's output does not grow.
fn calm(rng: &mut Rng) -> f64 {
    rng.sample() / 4.0
}

/// Zeros and ones of both signs: where the order of zeros and signals shows.
fn unit(rng: &mut Rng) -> f64 {
    let one = if rng.below(3) == 0 { 1.0 } else { 0.0 };
    if rng.below(2) == 0 {
        one
    } else {
        -one
    }
}

fn special(rng: &mut Rng) -> f64 {
    match rng.below(16) {
        0 => f64::INFINITY,
        1 => f64::NEG_INFINITY,
        2 => f64::NAN,
        3 => f64::MAX,
        4 => float(rng.bits(), 0, 1),
        _ => unit(rng),
    }
}

fn tiny(rng: &mut Rng) -> f64 {
    rng.subnormal()
}
