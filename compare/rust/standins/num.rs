//! Stands in for the crate `num`: complex doubles and the cast to an index. Every operation rounds each part's products and sum apart.
use std::ops::{Add, Mul, MulAssign};

#[derive(Debug, Clone, Copy, PartialEq)]
pub struct Complex<T> {
    pub re: T,
    pub im: T,
}

impl<T> Complex<T> {
    pub const fn new(re: T, im: T) -> Self {
        Self { re, im }
    }
}

impl Complex<f64> {
    pub const fn i() -> Self {
        Self::new(0.0, 1.0)
    }
}

impl Add for Complex<f64> {
    type Output = Self;

    fn add(self, other: Self) -> Self {
        Self::new(self.re + other.re, self.im + other.im)
    }
}

impl Mul for Complex<f64> {
    type Output = Self;

    fn mul(self, other: Self) -> Self {
        Self::new(
            self.re * other.re - self.im * other.im,
            self.re * other.im + self.im * other.re,
        )
    }
}

/// The crate adds the imaginary part's products the other way round: the same sum.
impl MulAssign for Complex<f64> {
    fn mul_assign(&mut self, other: Self) {
        *self = *self * other;
    }
}

impl Mul<f64> for Complex<f64> {
    type Output = Self;

    fn mul(self, other: f64) -> Self {
        Self::new(self.re * other, self.im * other)
    }
}

impl Mul<Complex<f64>> for f64 {
    type Output = Complex<f64>;

    fn mul(self, other: Complex<f64>) -> Complex<f64> {
        Complex::new(self * other.re, self * other.im)
    }
}

/// The whole number towards zero, where that is an index: above -1 and below 2^64.
pub fn cast(n: impl Into<f64>) -> Option<usize> {
    let x = n.into();
    // `usize::MAX` as a double is 2^64.
    (x > -1.0 && x < usize::MAX as f64).then_some(x as usize)
}
