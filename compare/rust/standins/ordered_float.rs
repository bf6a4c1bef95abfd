//! Stands in for the crate `ordered-float`: a double that is no NaN. A sum or difference that would be one panics. 0 and -0 are equal
//! and hash alike.
use std::cmp::Ordering;
use std::fmt;
use std::hash::{Hash, Hasher};
use std::ops::{Add, AddAssign, Deref, Neg, Sub, SubAssign};

#[derive(Debug, Clone, Copy, Default, PartialEq, PartialOrd)]
pub struct NotNan<T>(T);

#[derive(Debug, Clone, Copy, PartialEq, Eq)]
pub struct FloatIsNan;

impl NotNan<f64> {
    pub fn new(value: f64) -> Result<Self, FloatIsNan> {
        if value.is_nan() {
            return Err(FloatIsNan);
        }
        Ok(Self(value))
    }

    /// # Safety
    ///
    /// The value must not be a NaN.
    pub const unsafe fn new_unchecked(value: f64) -> Self {
        Self(value)
    }

    pub const fn into_inner(self) -> f64 {
        self.0
    }
}

impl Deref for NotNan<f64> {
    type Target = f64;

    fn deref(&self) -> &f64 {
        &self.0
    }
}

impl From<NotNan<f64>> for f64 {
    fn from(value: NotNan<f64>) -> f64 {
        value.0
    }
}

impl Eq for NotNan<f64> {}

impl Ord for NotNan<f64> {
    fn cmp(&self, other: &Self) -> Ordering {
        self.partial_cmp(other).expect("no NaN")
    }
}

impl Hash for NotNan<f64> {
    fn hash<H: Hasher>(&self, state: &mut H) {
        let bits = if self.0 == 0.0 { 0 } else { self.0.to_bits() };
        bits.hash(state);
    }
}

impl Add for NotNan<f64> {
    type Output = Self;

    fn add(self, other: Self) -> Self {
        Self::new(self.0 + other.0).expect("Addition resulted in NaN")
    }
}

impl AddAssign for NotNan<f64> {
    fn add_assign(&mut self, other: Self) {
        *self = *self + other;
    }
}

impl Sub for NotNan<f64> {
    type Output = Self;

    fn sub(self, other: Self) -> Self {
        Self::new(self.0 - other.0).expect("Subtraction resulted in NaN")
    }
}

impl SubAssign for NotNan<f64> {
    fn sub_assign(&mut self, other: Self) {
        *self = *self - other;
    }
}

impl Neg for NotNan<f64> {
    type Output = Self;

    fn neg(self) -> Self {
        Self(-self.0)
    }
}

impl fmt::Display for FloatIsNan {
    fn fmt(&self, f: &mut fmt::Formatter<'_>) -> fmt::Result {
        f.write_str("NotNan constructed with NaN")
    }
}

impl std::error::Error for FloatIsNan {}
