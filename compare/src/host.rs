//! The functions that the crate `host` exports to C, as safe functions: none of them has a condition on its arguments.

use theirs::osc::Osc;

/// Three numbers, as C has them.
#[repr(C)]
struct State {
    base: f64,
    delta: f64,
    phase: f64,
}

#[repr(C)]
struct Moved {
    refused: bool,
    osc: State,
}

#[repr(C)]
struct Swapped {
    refused: bool,
    one: State,
    two: State,
}

/// A code, 0 or a refusal's number; a start and an offset.
#[repr(C)]
pub struct Place {
    pub code: usize,
    pub start: usize,
    pub offset: f64,
}

mod c {
    use super::{Moved, Place, State, Swapped};

    // A slice is two arguments: where it begins, and how many it has.
    extern "C" {
        pub fn skierralu_mul_add(a: f64, b: f64, c: f64) -> f64;
        pub fn skierralu_ceil(x: f64) -> f64;
        pub fn skierralu_cos(x: f64) -> f64;
        pub fn skierralu_sin(x: f64) -> f64;
        pub fn skierralu_place(time: f64, rate: f64, level: i32) -> Place;
        pub fn skierralu_shift_phase(osc: State, by: f64) -> Moved;
        pub fn skierralu_set_phase(osc: State, to: f64, time: f64) -> Moved;
        pub fn skierralu_shift_freq(osc: State, by: f64, time: f64) -> Moved;
        pub fn skierralu_set_freq(osc: State, to: f64, time: f64) -> Moved;
        pub fn skierralu_swap_phase(one: State, two: State, time: f64) -> Swapped;
        pub fn skierralu_mixer(
            rows: usize,
            i: *mut f64,
            i_len: usize,
            q: *mut f64,
            q_len: usize,
            matrix: *const f64,
            matrix_len: usize,
            offsets: *const f64,
            offsets_len: usize,
        ) -> usize;
        pub fn skierralu_add_plateau(
            rows: usize,
            i: *mut f64,
            i_len: usize,
            q: *mut f64,
            q_len: usize,
            start: usize,
            count: usize,
            re: f64,
            im: f64,
            cos: f64,
            sin: f64,
        );
        pub fn skierralu_iir(
            rows: usize,
            i: *mut f64,
            i_len: usize,
            q: *mut f64,
            q_len: usize,
            sections: *const f64,
            sections_len: usize,
        ) -> usize;
        pub fn skierralu_spline(
            points: *mut f64,
            points_len: usize,
            row: *const f64,
            row_len: usize,
        );
        pub fn skierralu_fir(
            rows: usize,
            i: *mut f64,
            i_len: usize,
            q: *mut f64,
            q_len: usize,
            taps: *const f64,
            taps_len: usize,
        ) -> usize;
    }
}

pub fn mul_add(a: f64, b: f64, c: f64) -> f64 {
    unsafe { c::skierralu_mul_add(a, b, c) }
}

pub fn ceil(x: f64) -> f64 {
    unsafe { c::skierralu_ceil(x) }
}

pub fn cos(x: f64) -> f64 {
    unsafe { c::skierralu_cos(x) }
}

pub fn sin(x: f64) -> f64 {
    unsafe { c::skierralu_sin(x) }
}

pub fn place(time: f64, rate: f64, level: i32) -> Place {
    unsafe { c::skierralu_place(time, rate, level) }
}

impl From<Osc> for State {
    fn from(osc: Osc) -> State {
        State {
            base: osc.base,
            delta: osc.delta,
            phase: osc.phase,
        }
    }
}

impl From<State> for Osc {
    fn from(state: State) -> Osc {
        Osc {
            base: state.base,
            delta: state.delta,
            phase: state.phase,
        }
    }
}

/// Whether the command is refused, and the oscillator after it; likewise the commands below.
pub fn shift_phase(osc: Osc, by: f64) -> (bool, Osc) {
    moved(unsafe { c::skierralu_shift_phase(osc.into(), by) })
}

pub fn set_phase(osc: Osc, to: f64, time: f64) -> (bool, Osc) {
    moved(unsafe { c::skierralu_set_phase(osc.into(), to, time) })
}

pub fn shift_freq(osc: Osc, by: f64, time: f64) -> (bool, Osc) {
    moved(unsafe { c::skierralu_shift_freq(osc.into(), by, time) })
}

pub fn set_freq(osc: Osc, to: f64, time: f64) -> (bool, Osc) {
    moved(unsafe { c::skierralu_set_freq(osc.into(), to, time) })
}

pub fn swap_phase(one: Osc, two: Osc, time: f64) -> (bool, Osc, Osc) {
    let s = unsafe { c::skierralu_swap_phase(one.into(), two.into(), time) };
    (s.refused, s.one.into(), s.two.into())
}

fn moved(m: Moved) -> (bool, Osc) {
    (m.refused, m.osc.into())
}

/// A step on rows as C sees it.
type Step =
    unsafe extern "C" fn(usize, *mut f64, usize, *mut f64, usize, *const f64, usize) -> usize;

fn step(call: Step, rows: usize, i: &mut [f64], q: &mut [f64], numbers: &[f64]) -> usize {
    let (i_len, q_len, len) = (i.len(), q.len(), numbers.len());
    unsafe {
        call(
            rows,
            i.as_mut_ptr(),
            i_len,
            q.as_mut_ptr(),
            q_len,
            numbers.as_ptr(),
            len,
        )
    }
}

/// 0, or the number of the refusal; likewise the steps below. The matrix has the first four numbers, the offsets the others.
pub fn mixer(rows: usize, i: &mut [f64], q: &mut [f64], numbers: &[f64]) -> usize {
    let (matrix, offsets) = numbers.split_at(4);
    let (i_len, q_len) = (i.len(), q.len());
    unsafe {
        c::skierralu_mixer(
            rows,
            i.as_mut_ptr(),
            i_len,
            q.as_mut_ptr(),
            q_len,
            matrix.as_ptr(),
            matrix.len(),
            offsets.as_ptr(),
            offsets.len(),
        )
    }
}

pub fn fir(rows: usize, i: &mut [f64], q: &mut [f64], taps: &[f64]) -> usize {
    step(c::skierralu_fir, rows, i, q, taps)
}

pub fn iir(rows: usize, i: &mut [f64], q: &mut [f64], sections: &[f64]) -> usize {
    step(c::skierralu_iir, rows, i, q, sections)
}

/// Each point becomes a spline's value at it.
pub fn spline(points: &mut [f64], row: &[f64]) {
    unsafe {
        c::skierralu_spline(points.as_mut_ptr(), points.len(), row.as_ptr(), row.len());
    }
}

/// A plateau onto two rows: `count` samples from `start` on.
pub fn add_plateau(
    i: &mut [f64],
    q: &mut [f64],
    start: usize,
    count: usize,
    carrier: [f64; 2],
    rotation: [f64; 2],
) {
    let ([re, im], [cos, sin]) = (carrier, rotation);
    let (i_len, q_len) = (i.len(), q.len());
    unsafe {
        c::skierralu_add_plateau(
            2,
            i.as_mut_ptr(),
            i_len,
            q.as_mut_ptr(),
            q_len,
            start,
            count,
            re,
            im,
            cos,
            sin,
        )
    }
}
