//! What a comparison found: a line for each class of inputs, the first inputs that differ, and totals.
use std::process::ExitCode;

/// How many inputs whose answers differ are printed.
pub const SHOWN: u64 = 20;

pub struct Report {
    compared: u64,
    different: u64,
    judged: u64,
    far: u64,
}

/// What one class of inputs found.
pub struct Class {
    name: &'static str,
    compared: u64,
    different: u64,
    shown: u64,
    kinds: [u64; 5],
}

impl Report {
    pub fn new() -> Report {
        Report {
            compared: 0,
            different: 0,
            judged: 0,
            far: 0,
        }
    }

    /// A heading: what stands beside what in the classes that follow.
    pub fn subject(&self, name: &str) {
        println!("{name}");
    }

    pub fn class(&self, name: &'static str) -> Class {
        Class {
            name,
            compared: 0,
            different: 0,
            shown: SHOWN.saturating_sub(self.different),
            kinds: [0; 5],
        }
    }

    /// Prints a class's line and adds it to the totals.
    pub fn add(&mut self, class: Class) {
        let [nan, inf, zero, subnormal, normal] = class.kinds;
        println!(
            "  {:30} {:>9} compared, {} different; nan {nan}, inf {inf}, zero {zero}, subnormal {subnormal}, normal {normal}",
            class.name, class.compared, class.different
        );
        self.compared += class.compared;
        self.different += class.different;
    }

    /// Adds a class of inputs whose answers were judged by their distance from the truth.
    pub fn judged(&mut self, judged: u64, far: u64) {
        self.judged += judged;
        self.far += far;
    }

    pub fn close(self) -> ExitCode {
        println!(
            "total: {} compared, {} different; {} judged by distance, {} too far",
            self.compared, self.different, self.judged, self.far
        );
        ExitCode::from(u8::from(self.different + self.far > 0))
    }
}

impl Class {
    /// One input: our answer beside theirs, bit for bit, but that every NaN equals every NaN.
    pub fn judge(&mut self, inputs: &[f64], ours: f64, theirs: f64) {
        self.compared += 1;
        self.kinds[kind(theirs)] += 1;
        if ours.to_bits() != theirs.to_bits() && !(ours.is_nan() && theirs.is_nan()) {
            self.differs(inputs, ours, theirs);
        }
    }

    #[cold]
    fn differs(&mut self, inputs: &[f64], ours: f64, theirs: f64) {
        self.different += 1;
        if self.shown > 0 {
            self.shown -= 1;
            let inputs: Vec<String> = inputs
                .iter()
                .map(|x| format!("{:016x}", x.to_bits()))
                .collect();
            println!(
                "different in {}: {} gives {:016x}, theirs {:016x}",
                self.name,
                inputs.join(" "),
                ours.to_bits(),
                theirs.to_bits()
            );
        }
    }
}

fn kind(x: f64) -> usize {
    if x.is_nan() {
        0
    } else if x.is_infinite() {
        1
    } else if x == 0.0 {
        2
    } else if x.is_subnormal() {
        3
    } else {
        4
    }
}
