//! `AlignedIndex` and `Phase::phaser` (src/quant.rs).
use crate::refusal::{caught, Refusal};
use crate::{frequency, phase, time};
use bosing::quant::AlignedIndex;

#[derive(Debug, Clone, Copy, PartialEq)]
pub struct Aligned {
    pub value: f64,
    /// `ceil_to_usize`, which cuts off: none at -1 and below, and from 2^64 on.
    pub start: Option<usize>,
    /// `index_offset`.
    pub offset: f64,
}

/// None where the Rust has an error: a number worked out is infinite or a NaN.
pub fn aligned(at: f64, rate: f64, level: i32) -> Option<Aligned> {
    let index = AlignedIndex::new(time(at), frequency(rate), level).ok()?;
    Some(Aligned {
        value: index.value(),
        start: index.ceil_to_usize(),
        offset: index.index_offset().value(),
    })
}

/// Start and offset as sampling takes them: none where it bails or panics, so for an index that is below 0 or in error too.
pub fn placed(at: f64, rate: f64, level: i32) -> Option<(usize, f64)> {
    let index = aligned(at, rate, level)?;
    if index.value < 0.0 {
        return None;
    }
    Some((index.start?, index.offset))
}

/// Cosine and sine of a phase in turns.
pub fn phaser(turns: f64) -> Result<[f64; 2], Refusal> {
    caught(|| {
        let phaser = phase(turns).phaser();
        Ok([phaser.re, phaser.im])
    })
}
