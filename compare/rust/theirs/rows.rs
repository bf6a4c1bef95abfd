//! The steps on rows (src/pulse.rs, src/pulse/iir.rs, src/pulse/fir.rs). Rows stand one after the other in `samples`.
use bosing::pulse::{apply_fir_inplace, apply_iir_inplace, apply_iq_inplace, apply_offset_inplace};
use ndarray::{ArrayView1, ArrayView2, ArrayViewMut2};

pub(crate) fn rows_of(samples: &mut [f64], rows: usize) -> ArrayViewMut2<'_, f64> {
    let length = samples.len() / rows;
    ArrayViewMut2::from_shape((rows, length), samples).expect("rows of equal length")
}

/// The two steps, one after the other.
pub fn mixer(samples: &mut [f64], matrix: &[f64], offsets: &[f64]) {
    iq(samples, matrix);
    offset(samples, offsets);
}

/// Two rows times a matrix: m00, m01, m10, m11.
pub fn iq(samples: &mut [f64], matrix: &[f64]) {
    let matrix = ArrayView2::from_shape((2, 2), matrix).expect("four numbers");
    apply_iq_inplace(&mut rows_of(samples, 2), matrix);
}

/// A number added to each row.
pub fn offset(samples: &mut [f64], offsets: &[f64]) {
    apply_offset_inplace(
        &mut rows_of(samples, offsets.len()),
        ArrayView1::from(offsets),
    );
}

/// Sections of six numbers each: none change nothing, one to four are the pipeline, more the cascade.
pub fn iir(samples: &mut [f64], rows: usize, sections: &[f64]) {
    let shape = (sections.len() / 6, 6);
    let sections = ArrayView2::from_shape(shape, sections).expect("sections of six");
    apply_iir_inplace(&mut rows_of(samples, rows), sections);
}

/// At one lane, product and sum rounded apart. No taps panic.
pub fn fir(samples: &mut [f64], rows: usize, taps: &[f64]) {
    apply_fir_inplace(&mut rows_of(samples, rows), ArrayView1::from(taps));
}
