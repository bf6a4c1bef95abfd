//! Stands in for `f64::cos` and `f64::sin`: with `--cfg ours` the proved ones of target/staticlib/libhost.a, else the standard
//! library's. compare/rust/build says which.

use std::cell::Cell;

thread_local! {
    static SINES: Cell<usize> = const { Cell::new(0) };
}

/// How many sines were taken so far. A pulse that is mixed takes two, and nothing else in a sampling takes one.
pub fn sines() -> usize {
    SINES.get()
}

#[cfg(ours)]
mod c {
    #[link(name = "host", kind = "static", modifiers = "-bundle")]
    extern "C" {
        pub fn skierralu_cos(x: f64) -> f64;
        pub fn skierralu_sin(x: f64) -> f64;
    }
}

#[cfg(ours)]
pub fn cos(x: f64) -> f64 {
    unsafe { c::skierralu_cos(x) }
}

#[cfg(ours)]
pub fn sin(x: f64) -> f64 {
    SINES.set(SINES.get() + 1);
    unsafe { c::skierralu_sin(x) }
}

#[cfg(not(ours))]
pub fn cos(x: f64) -> f64 {
    x.cos()
}

#[cfg(not(ours))]
pub fn sin(x: f64) -> f64 {
    SINES.set(SINES.get() + 1);
    x.sin()
}
