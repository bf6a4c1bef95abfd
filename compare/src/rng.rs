//! Inputs by chance, the same in every run.

/// The bits of a double below its exponent's field.
pub const FRACTION: u64 = (1 << 52) - 1;

/// A double of a sign (the lowest bit counts), an exponent's field and a fraction.
pub fn float(sign: u64, field: u64, fraction: u64) -> f64 {
    f64::from_bits((sign & 1) << 63 | (field & 0x7ff) << 52 | fraction & FRACTION)
}

/// The double some units in the last place further from zero, or nearer to it, with the same sign.
pub fn beside(x: f64, units: i64) -> f64 {
    let magnitude = x.abs().to_bits().saturating_add_signed(units);
    f64::from_bits(magnitude).copysign(x)
}

/// splitmix64.
pub struct Rng(u64);

impl Rng {
    pub fn new(seed: u64) -> Rng {
        Rng(seed)
    }

    pub fn bits(&mut self) -> u64 {
        self.0 = self.0.wrapping_add(0x9e37_79b9_7f4a_7c15);
        let z = self.0;
        let z = (z ^ z >> 30).wrapping_mul(0xbf58_476d_1ce4_e5b9);
        let z = (z ^ z >> 27).wrapping_mul(0x94d0_49bb_1331_11eb);
        z ^ z >> 31
    }

    /// A number below n, which is small.
    pub fn below(&mut self, n: u64) -> u64 {
        self.bits() % n
    }

    /// A number from `from` to `to`, both counted.
    pub fn within(&mut self, from: i64, to: i64) -> i64 {
        from + self.below((to - from + 1) as u64) as i64
    }

    /// A fraction: often one whose digits are nearly all equal, where roundings and carries go far.
    pub fn fraction(&mut self) -> u64 {
        let run = (1 << self.below(52)) - 1;
        match self.below(8) {
            0 => 0,
            1 => FRACTION,
            2 => run,
            3 => FRACTION ^ run,
            4 => run + 1,
            _ => self.bits() & FRACTION,
        }
    }

    /// A double of either sign in an exponent's field. A field outside the finite numbers' is brought to the nearest of them.
    pub fn in_field(&mut self, field: i64) -> f64 {
        let sign = self.bits();
        let fraction = self.fraction();
        float(sign, field.clamp(0, 2046) as u64, fraction)
    }

    /// A subnormal of either sign, of any length.
    pub fn subnormal(&mut self) -> f64 {
        let sign = self.bits();
        let fraction = self.fraction() >> self.below(52);
        float(sign, 0, fraction | 1)
    }

    /// A double from -1 to 1, evenly spread, as a sample is.
    pub fn sample(&mut self) -> f64 {
        (self.bits() >> 11) as f64 / (1u64 << 52) as f64 - 1.0
    }
}
