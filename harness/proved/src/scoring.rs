//! The proved measuring and scoring behind the picker, from libprobe_pick.a.

mod c {
    unsafe extern "C" {
        pub unsafe fn probe_squared_residuals(
            h0: f64,
            h1: f64,
            h2: f64,
            h3: f64,
            h4: f64,
            h5: f64,
            h6: f64,
            h7: f64,
            h8: f64,
            ratio: f64,
            marks: *const f64,
            marks_len: usize,
            squares: *mut f64,
            squares_len: usize,
            counting: bool,
        ) -> usize;
        pub unsafe fn probe_count_inliers(thresh: f64, squares: *const f64, len: usize) -> usize;
        pub unsafe fn probe_rms(thresh: f64, squares: *const f64, len: usize, count: u32) -> f64;
        pub unsafe fn probe_rms_if_less(
            thresh: f64,
            squares: *const f64,
            len: usize,
            count: u32,
            best: f64,
        ) -> f64;
        pub unsafe fn probe_write_inliers(
            thresh: f64,
            squares: *const f64,
            len: usize,
            indices: *mut u32,
            indices_len: usize,
        ) -> usize;
    }
}

use crate::pick::{lent, of};

/// The square of each mark's distance, to the front of the lent list if it has
/// a place for each; how many marks are beyond, 0 if it hasn't or they aren't
/// to be counted.
pub fn squared_residuals(
    h: &[f64; 9],
    ratio: f64,
    marks: &[f64],
    squares: &mut [f64],
    counting: bool,
) -> usize {
    let &[h0, h1, h2, h3, h4, h5, h6, h7, h8] = h;
    let (list, len) = (of(marks), marks.len());
    // SAFETY: the pointers and lengths are those of slices, or NULL and 0; the
    // last is borrowed for this call alone.
    unsafe {
        c::probe_squared_residuals(
            h0,
            h1,
            h2,
            h3,
            h4,
            h5,
            h6,
            h7,
            h8,
            ratio,
            list,
            len,
            lent(squares),
            squares.len(),
            counting,
        )
    }
}

/// How many squares have a root of at most the threshold.
pub fn count_inliers(thresh: f64, squares: &[f64]) -> usize {
    // SAFETY: as above.
    unsafe { c::probe_count_inliers(thresh, of(squares), squares.len()) }
}

/// The rms of the roots within the threshold, by any count.
pub fn rms(thresh: f64, squares: &[f64], count: u32) -> f64 {
    // SAFETY: as above.
    unsafe { c::probe_rms(thresh, of(squares), squares.len(), count) }
}

/// The same if it is less than `best`, else a NaN.
pub fn rms_if_less(thresh: f64, squares: &[f64], count: u32, best: f64) -> f64 {
    // SAFETY: as above.
    unsafe { c::probe_rms_if_less(thresh, of(squares), squares.len(), count, best) }
}

/// The places of the squares within, to the front of the lent list; how many.
pub fn write_inliers(thresh: f64, squares: &[f64], indices: &mut [u32]) -> usize {
    // SAFETY: as above.
    unsafe {
        c::probe_write_inliers(
            thresh,
            of(squares),
            squares.len(),
            lent(indices),
            indices.len(),
        )
    }
}
