//! Stands in for the crate `pulp`: one lane, product and sum rounded apart. The crate takes as many lanes as the machine has and fuses
//! where it can; document 01 ports one lane, not fused.

pub trait WithSimd {
    type Output;

    fn with_simd<S: Simd>(self, simd: S) -> Self::Output;
}

#[allow(non_camel_case_types)]
pub trait Simd: Copy {
    type f64s: Copy;

    /// The whole vectors of a slice, and what is left over.
    fn as_simd_f64s(slice: &[f64]) -> (&[Self::f64s], &[f64]);
    fn splat_f64s(self, value: f64) -> Self::f64s;
    fn mul_add_e_f64s(self, a: Self::f64s, b: Self::f64s, c: Self::f64s) -> Self::f64s;
    fn reduce_sum_f64s(self, a: Self::f64s) -> f64;
}

#[derive(Clone, Copy)]
struct Scalar;

impl Simd for Scalar {
    type f64s = f64;

    fn as_simd_f64s(slice: &[f64]) -> (&[f64], &[f64]) {
        (slice, &[])
    }

    fn splat_f64s(self, value: f64) -> f64 {
        value
    }

    fn mul_add_e_f64s(self, a: f64, b: f64, c: f64) -> f64 {
        a * b + c
    }

    fn reduce_sum_f64s(self, a: f64) -> f64 {
        a
    }
}

#[derive(Default)]
pub struct Arch;

impl Arch {
    pub fn new() -> Self {
        Self
    }

    pub fn dispatch<Op: WithSimd>(self, op: Op) -> Op::Output {
        op.with_simd(Scalar)
    }
}
