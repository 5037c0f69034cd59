//! The proved writers of records, from the archive libsalghemu.a.
//!
//! Each tells 0, with the record at the front of `out`, or the refusal.

mod c {
    unsafe extern "C" {
        pub unsafe fn salghemu_write_options(
            thresh: f64,
            confidence: f64,
            max_iters: u32,
            min_inliers: u32,
            refit_mark: u8,
            ratio: f64,
            out: *mut u8,
            out_len: usize,
        ) -> u32;
        pub unsafe fn salghemu_write_mark(
            x: f64,
            y: f64,
            u: f64,
            v: f64,
            out: *mut u8,
            out_len: usize,
        ) -> u32;
        pub unsafe fn salghemu_write_trial(
            fit_mark: u8,
            refit_mark: u8,
            fit: *const f64,
            fit_count: usize,
            refit: *const f64,
            refit_count: usize,
            out: *mut u8,
            out_len: usize,
        ) -> u32;
    }
}

use crate::pick::{lent, of};

pub fn write_options(
    thresh: f64,
    confidence: f64,
    max_iters: u32,
    min_inliers: u32,
    refit_mark: u8,
    ratio: f64,
    out: &mut [u8],
) -> u32 {
    // SAFETY: the pointer and length are those of a slice, or NULL and 0; it is
    // borrowed for this call alone.
    unsafe {
        c::salghemu_write_options(
            thresh,
            confidence,
            max_iters,
            min_inliers,
            refit_mark,
            ratio,
            lent(out),
            out.len(),
        )
    }
}

pub fn write_mark(&[x, y, u, v]: &[f64; 4], out: &mut [u8]) -> u32 {
    // SAFETY: as above.
    unsafe { c::salghemu_write_mark(x, y, u, v, lent(out), out.len()) }
}

pub fn write_trial(
    fit_mark: u8,
    refit_mark: u8,
    fit: &[f64],
    refit: &[f64],
    out: &mut [u8],
) -> u32 {
    // SAFETY: as above; the two lists are only read.
    unsafe {
        c::salghemu_write_trial(
            fit_mark,
            refit_mark,
            of(fit),
            fit.len(),
            of(refit),
            refit.len(),
            lent(out),
            out.len(),
        )
    }
}
