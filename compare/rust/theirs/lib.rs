//! The Rust's answers, from the test copy `bosing`: plain numbers in, plain numbers out. Its errors and panics are told as refusals.
pub mod aligned;
pub mod lists;
pub mod osc;
pub mod refusal;
pub mod rows;
pub mod tables;

use bosing::quant::{Amplitude, Frequency, Phase, Time};

// A quantity that is a NaN panics, as most operations of the Rust do.
const NAN: &str = "NaN given";

fn time(value: f64) -> Time {
    Time::new(value).expect(NAN)
}

fn frequency(value: f64) -> Frequency {
    Frequency::new(value).expect(NAN)
}

fn phase(value: f64) -> Phase {
    Phase::new(value).expect(NAN)
}

fn amplitude(value: f64) -> Amplitude {
    Amplitude::new(value).expect(NAN)
}
