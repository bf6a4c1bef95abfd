//! The true cosine and sine of a double: the angle is reduced exactly, in whole numbers, and the power series is summed at what is left
//! until its terms vanish. Nothing is asked of our functions or of a library's.
use crate::fixed::{Fixed, PLACES};
use crate::rng::FRACTION;

/// PI, the double, is PI_UNITS * 2^UNIT, and TAU twice as many units.
const PI_UNITS: u64 = 0x0019_21fb_5444_2d18;
const UNIT: i32 = -51;

/// digits * 2^exponent, with a sign.
#[derive(Clone, Copy)]
pub struct Number {
    negative: bool,
    digits: u64,
    exponent: i32,
}

/// size * 2^exponent, with a sign: the size is off by at most `doubt`.
pub struct Value {
    negative: bool,
    size: Fixed,
    exponent: i32,
    doubt: Fixed,
}

impl Number {
    /// A finite double, exactly.
    pub fn of(x: f64) -> Number {
        let bits = x.abs().to_bits();
        let (digits, exponent) = match bits >> 52 {
            0 => (bits, -1074),
            field => (bits & FRACTION | 1 << 52, field as i32 - 1075),
        };
        Number {
            negative: x.is_sign_negative(),
            digits,
            exponent,
        }
    }

    /// The double that is this number; there has to be one.
    pub fn double(self) -> f64 {
        let power = match self.exponent {
            -1074..=-1023 => f64::from_bits(1 << (self.exponent + 1074)),
            exponent => f64::from_bits(((exponent + 1023) as u64) << 52),
        };
        let size = self.digits as f64 * power;
        match self.negative {
            true => -size,
            false => size,
        }
    }

    /// The angle less a whole multiple of TAU, at most PI in size.
    pub fn reduced(self) -> Number {
        if self.double().abs() <= std::f64::consts::PI {
            return self;
        }
        // above PI a double is a whole number of units
        let tau = 2 * PI_UNITS;
        let mut units = self.digits % tau;
        for _ in UNIT..self.exponent {
            units = 2 * units % tau;
        }
        let far = units > PI_UNITS;
        Number {
            negative: self.negative != far,
            digits: if far { tau - units } else { units },
            exponent: UNIT,
        }
    }

    fn square(self) -> Fixed {
        Fixed::new(u128::from(self.digits).pow(2), 2 * self.exponent)
    }
}

/// The power series of cosine (first = 0), or of sine over the angle (first = 1), at an angle whose square is y: the sum of y^k / p! with
/// alternating signs, where p = 2 k + first. The positive terms' sum, and the negative ones'. There are fewer than 40 terms, and what is
/// cut off makes none of them more than 3 units of the last place too small.
fn series(y: Fixed, first: u64) -> [Fixed; 2] {
    let mut sums = [Fixed::ZERO; 2];
    let mut term = Fixed::ONE;
    let mut k = 0;
    while term != Fixed::ZERO {
        sums[k % 2] = sums[k % 2].plus(term);
        let p = 2 * k as u64 + first;
        term = term.times(y).over((p + 1) * (p + 2));
        k += 1;
    }
    sums
}

/// Of a reduced angle.
pub fn cosine(r: Number) -> Value {
    let [plus, minus] = series(r.square(), 0);
    Value {
        negative: plus < minus,
        size: plus.apart(minus),
        exponent: 0,
        doubt: Fixed::new(1, 8 - PLACES),
    }
}

/// Of a reduced angle: the angle's digits times the series of sine over the angle, which is positive, since PI, the double, is below π.
pub fn sine(r: Number) -> Value {
    let [plus, minus] = series(r.square(), 1);
    Value {
        negative: r.negative,
        size: plus.apart(minus).times_whole(r.digits),
        exponent: r.exponent,
        doubt: Fixed::new(u128::from(r.digits), 8 - PLACES),
    }
}

impl Value {
    /// How far a double lies from this, at most; of what is no cosine, a NaN among that, the largest number.
    pub fn distance(&self, x: f64) -> Fixed {
        if !(x.abs() < 2.0) {
            return Fixed::MOST;
        }
        let x = Number::of(x);
        let theirs = Fixed::new(u128::from(x.digits), x.exponent);
        let this = self.size.shifted(self.exponent);
        let distance = match self.negative == x.negative {
            true => this.apart(theirs),
            false => this.plus(theirs),
        };
        // what was cut off in the series, and in the three shifts
        let doubt = self.doubt.shifted(self.exponent);
        distance.plus(doubt).plus(Fixed::new(3, -PLACES))
    }

    /// The nearest double. The roundings are all decided: none lies within the doubt of the middle between two doubles.
    pub fn nearest(&self) -> f64 {
        if self.size == Fixed::ZERO {
            return if self.negative { -0.0 } else { 0.0 };
        }
        let last = self.exponent - PLACES;
        let exponent = (self.size.length() + last - 53).max(-1074);
        let dropped = exponent - last;
        let digits = self.size.shifted(-dropped).last_word();
        let kept = Fixed::new(u128::from(digits), dropped - PLACES);
        let rest = self.size.apart(kept);
        let half = Fixed::new(1, dropped - 1 - PLACES);
        assert!(rest.apart(half) > self.doubt, "a rounding is not decided");
        Number {
            negative: self.negative,
            digits: digits + u64::from(rest > half),
            exponent,
        }
        .double()
    }
}
