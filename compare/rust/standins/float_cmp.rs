//! Stands in for the crate `float-cmp`: `approx_eq!` with an epsilon and no units in the last place.

#[macro_export]
macro_rules! approx_eq {
    (f64, $a:expr, $b:expr, epsilon = $epsilon:expr) => {
        $crate::approx_eq($a, $b, $epsilon)
    };
}

/// Equal, or a difference of at most epsilon. The crate's third test, no units apart, holds of no other numbers.
pub fn approx_eq(a: f64, b: f64, epsilon: f64) -> bool {
    a == b || (a - b).abs() <= epsilon
}
