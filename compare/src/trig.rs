//! Cosine and sine beside the power series at the reduced angle: how far the answers lie from it, in classes of angles.
use crate::fixed::Fixed;
use crate::host;
use crate::report::{Report, SHOWN};
use crate::rng::{beside, float, Rng};
use crate::series::{cosine, sine, Number, Value};
use std::f64::consts::{FRAC_PI_2, PI, TAU};

struct Function {
    name: &'static str,
    ours: fn(f64) -> f64,
    std: fn(f64) -> f64,
    truth: fn(Number) -> Value,
}

const FUNCTIONS: [Function; 2] = [
    Function {
        name: "cos",
        ours: host::cos,
        std: f64::cos,
        truth: cosine,
    },
    Function {
        name: "sin",
        ours: host::sin,
        std: f64::sin,
        truth: sine,
    },
];

pub fn compare(report: &mut Report, scale: u64) {
    for function in FUNCTIONS {
        report.subject(&format!(
            "{} beside its power series at r, the reduced angle: worst distance in units of 2^-48, and answers that are the nearest double",
            function.name
        ));
        classes(report, scale, &function);
    }
}

fn classes(report: &mut Report, scale: u64, function: &Function) {
    let million = 1_000_000 * scale;
    let mut rng = Rng::new(5);
    let mut class = |name, count, next: fn(&mut Rng) -> f64| {
        let mut class = Distances::new(name);
        for _ in 0..count {
            class.judge(function, next(&mut rng));
        }
        class.print();
        report.judged(class.judged, class.far);
    };
    class("near multiples of PI/2", million / 2, near_quarter);
    class("near PI and TAU, both signs", million / 4, near_end);
    class("tiny", million / 4, tiny);
    class("below TAU", million / 2, |rng| rng.sample() * TAU);
    class("phases times TAU", million / 4, phase);
    class("up to 1e6", million / 4, |rng| rng.sample() * 1e6);
    class("huge", million / 4, |rng| {
        let field = rng.within(1043, 2046);
        rng.in_field(field)
    });
}

/// A multiple of PI/2, up to 2^40 of them: up to eight units in the last place beside it, or a little further off.
fn near_quarter(rng: &mut Rng) -> f64 {
    let quarters = 1 + (rng.bits() >> 24 >> rng.below(40));
    let x = quarters as f64 * FRAC_PI_2;
    let x = match rng.below(2) {
        0 => beside(x, rng.within(-8, 8)),
        _ => x + rng.sample() * 2f64.powi(-(rng.below(40) as i32)),
    };
    either_sign(rng, x)
}

fn near_end(rng: &mut Rng) -> f64 {
    let x = if rng.below(2) == 0 { PI } else { TAU };
    let x = match rng.below(2) {
        0 => beside(x, rng.within(-1000, 1000)),
        _ => x + rng.sample() * 2f64.powi(-(rng.below(50) as i32)),
    };
    either_sign(rng, x)
}

/// Subnormals, the zeros among them, and numbers up to 2^-10.
fn tiny(rng: &mut Rng) -> f64 {
    match rng.below(4) {
        0 => rng.subnormal(),
        1 => float(rng.bits(), 0, rng.below(4)),
        2 => {
            let field = rng.within(1, 960);
            rng.in_field(field)
        }
        _ => {
            let field = rng.within(960, 1012);
            rng.in_field(field)
        }
    }
}

/// As pulses have them: a phase of whole turns, of a few digits, or of a few bits, times TAU.
fn phase(rng: &mut Rng) -> f64 {
    let phase = match rng.below(4) {
        0 => rng.within(-1000, 1000) as f64,
        1 => rng.within(-100_000, 100_000) as f64 / 1000.0,
        2 => rng.within(-100_000, 100_000) as f64 / 2f64.powi(rng.within(1, 20) as i32),
        _ => rng.sample() * 1000.0,
    };
    phase * TAU
}

fn either_sign(rng: &mut Rng, x: f64) -> f64 {
    x.copysign(rng.sample())
}

/// What one class of angles found.
struct Distances {
    name: &'static str,
    judged: u64,
    far: u64,
    ours: Answers,
    std_of_r: Answers,
    std_of_x: Answers,
}

/// The worst distance of some answers, and how many of them are the nearest double.
struct Answers {
    worst: Fixed,
    nearest: u64,
}

impl Distances {
    fn new(name: &'static str) -> Distances {
        let none = || Answers {
            worst: Fixed::ZERO,
            nearest: 0,
        };
        Distances {
            name,
            judged: 0,
            far: 0,
            ours: none(),
            std_of_r: none(),
            std_of_x: none(),
        }
    }

    fn judge(&mut self, function: &Function, x: f64) {
        let r = Number::of(x).reduced();
        let truth = (function.truth)(r);
        let ours = (function.ours)(x);
        self.judged += 1;
        self.ours.add(&truth, ours);
        self.std_of_r.add(&truth, (function.std)(r.double()));
        self.std_of_x.add(&truth, (function.std)(x));
        if truth.distance(ours) >= Fixed::new(1, -48) {
            self.too_far(x, ours);
        }
    }

    #[cold]
    fn too_far(&mut self, x: f64, ours: f64) {
        self.far += 1;
        if self.far <= SHOWN {
            let (x, ours) = (x.to_bits(), ours.to_bits());
            println!("too far in {}: {x:016x} gives {ours:016x}", self.name);
        }
    }

    fn print(&self) {
        println!(
            "  {:30} {:>9} judged, {} too far; ours {}; std of r {}; std of x {}",
            self.name, self.judged, self.far, self.ours, self.std_of_r, self.std_of_x
        );
    }
}

impl Answers {
    fn add(&mut self, truth: &Value, answer: f64) {
        self.worst = self.worst.max(truth.distance(answer));
        self.nearest += u64::from(answer.to_bits() == truth.nearest().to_bits());
    }
}

impl std::fmt::Display for Answers {
    fn fmt(&self, f: &mut std::fmt::Formatter) -> std::fmt::Result {
        let units = self.worst.about() * 2f64.powi(48);
        let places = if units < 1.0 { 4 } else { 0 };
        write!(f, "{units:.places$}, {} nearest", self.nearest)
    }
}
