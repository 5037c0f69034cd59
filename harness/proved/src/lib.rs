//! The proved leaves and the sheet's entries, from the archive libprobe.a; the
//! picker is in [`pick`], its measuring and scoring in [`scoring`], the writers
//! of its records in [`writing`]; what standing forms have of all these is in
//! [`form`].
//!
//! Marks are one flat list, four numbers each. A side is 0 for the sheet and
//! anything else for the pixels. A lent list is written from its front.

pub mod form;
pub mod pick;
pub mod scoring;
pub mod writing;

mod c {
    unsafe extern "C" {
        pub safe fn probe_sqrt(a: f64) -> f64;
        pub safe fn probe_sqrt_two(a: f64, b: f64, place: u32) -> f64;
        pub safe fn probe_root_refusal(a: f64) -> u32;
        pub safe fn probe_quadratic_count(a: f64, b: f64, c: f64) -> u32;
        pub safe fn probe_quadratic_root(a: f64, b: f64, c: f64, place: u32) -> f64;
        pub unsafe fn probe_dlt_rank_ok(
            values: *const f64,
            len: usize,
            cols: usize,
            null: usize,
            tolerance: f64,
        ) -> bool;
        pub unsafe fn probe_ensure_finite(values: *const f64, len: usize) -> bool;
        pub safe fn probe_abs(x: f64) -> f64;
        pub safe fn probe_is_finite(x: f64) -> bool;
        pub safe fn probe_within(x: f64, limit: f64) -> bool;
        pub unsafe fn probe_normalize_points_2d(
            marks: *const f64,
            len: usize,
            side: u32,
            points: *mut f64,
            room: usize,
        ) -> u32;
        pub unsafe fn probe_normalize_matrix(
            marks: *const f64,
            len: usize,
            side: u32,
            points: *mut f64,
            room: usize,
            place: u32,
        ) -> f64;
        pub unsafe fn probe_points_are_collinear(marks: *const f64, len: usize, side: u32) -> u32;
        pub unsafe fn probe_dlt_rows(
            marks: *const f64,
            len: usize,
            rows: *mut f64,
            room: usize,
        ) -> u32;
    }

    /// Functions of a model, a point and something more.
    macro_rules! of_a_model {
        ($($name:ident($($more:ident: $kind:ty),+) -> $answer:ty;)+) => {
            unsafe extern "C" {
                $(pub safe fn $name(
                    h0: f64, h1: f64, h2: f64, h3: f64, h4: f64, h5: f64, h6: f64, h7: f64,
                    h8: f64, x: f64, y: f64, $($more: $kind),+
                ) -> $answer;)+
            }
        };
    }
    of_a_model! {
        probe_distance_told(u: f64, v: f64, ratio: f64) -> u32;
        probe_distance(u: f64, v: f64, ratio: f64) -> f64;
        probe_residual_told(u: f64, v: f64, ratio: f64) -> u32;
        probe_residual(u: f64, v: f64, ratio: f64) -> f64;
        probe_projection(place: u32) -> f64;
    }
}

/// A call of one of them.
macro_rules! with_model {
    ($name:ident, $h:ident, $($more:ident),+) => {
        c::$name(
            $h[0], $h[1], $h[2], $h[3], $h[4], $h[5], $h[6], $h[7], $h[8], $($more),+
        )
    };
}

/// The root; a NaN where there is none.
#[inline]
pub fn sqrt(a: f64) -> f64 {
    c::probe_sqrt(a)
}

/// Of two roots that are taken together, the one at place 0 or 1; a NaN past
/// them.
#[inline]
pub fn sqrt_two(a: f64, b: f64, place: u32) -> f64 {
    c::probe_sqrt_two(a, b, place)
}

/// 0, or 15 for a NaN or a negative number.
pub fn root_refusal(a: f64) -> u32 {
    c::probe_root_refusal(a)
}

/// 0, 1 or 2 roots, or 15.
pub fn quadratic_count(a: f64, b: f64, c: f64) -> u32 {
    c::probe_quadratic_count(a, b, c)
}

/// The root at place 0 or 1; a NaN where there is none.
pub fn quadratic_root(a: f64, b: f64, c: f64, place: u32) -> f64 {
    c::probe_quadratic_root(a, b, c, place)
}

pub fn dlt_rank_ok(values: &[f64], cols: usize, null: usize, tolerance: f64) -> bool {
    // SAFETY: the pointer and length are those of a slice, which is only read.
    unsafe { c::probe_dlt_rank_ok(values.as_ptr(), values.len(), cols, null, tolerance) }
}

/// Whether every number is finite.
pub fn ensure_finite(values: &[f64]) -> bool {
    // SAFETY: as above.
    unsafe { c::probe_ensure_finite(values.as_ptr(), values.len()) }
}

pub fn abs(x: f64) -> f64 {
    c::probe_abs(x)
}

pub fn is_finite(x: f64) -> bool {
    c::probe_is_finite(x)
}

/// Finite and of magnitude at most the limit.
pub fn within(x: f64, limit: f64) -> bool {
    c::probe_within(x, limit)
}

/// 0, or the refusal; the normalised points, x and y in turn, go to the lent
/// list.
pub fn normalize_points_2d(marks: &[f64], side: u32, points: &mut [f64]) -> u32 {
    // SAFETY: the pointers and lengths are those of slices; the first is only
    // read, and the second is borrowed for this call alone.
    unsafe {
        c::probe_normalize_points_2d(
            marks.as_ptr(),
            marks.len(),
            side,
            points.as_mut_ptr(),
            points.len(),
        )
    }
}

/// The same call, for the matrix's entry at a place from 0 to 8, row after
/// row: 0 where it is refused, a NaN past 8.
pub fn normalize_matrix(marks: &[f64], side: u32, points: &mut [f64], place: u32) -> f64 {
    // SAFETY: as above.
    unsafe {
        c::probe_normalize_matrix(
            marks.as_ptr(),
            marks.len(),
            side,
            points.as_mut_ptr(),
            points.len(),
            place,
        )
    }
}

/// 0 no, 1 yes, or the refusal 5, 6 or 18.
pub fn points_are_collinear(marks: &[f64], side: u32) -> u32 {
    // SAFETY: the pointer and length are those of a slice, which is only read.
    unsafe { c::probe_points_are_collinear(marks.as_ptr(), marks.len(), side) }
}

/// 0, or the refusal; the rows, nine numbers each, go to the lent list.
pub fn dlt_rows(marks: &[f64], rows: &mut [f64]) -> u32 {
    to_lent(c::probe_dlt_rows, marks, rows)
}

/// Calls what reads a list and writes to another; tells what it answers.
fn to_lent(
    call: unsafe extern "C" fn(*const f64, usize, *mut f64, usize) -> u32,
    list: &[f64],
    lent: &mut [f64],
) -> u32 {
    // SAFETY: the pointers and lengths are those of slices, or NULL and 0; the
    // first is only read, and the second is borrowed for this call alone.
    unsafe { call(pick::of(list), list.len(), pick::lent(lent), lent.len()) }
}

/// What is told of a mark that is beyond.
pub const BEYOND: u32 = 256;

/// 0 where there is a distance, [`BEYOND`], or the refusal: 1 for the model, 6
/// for the mark or 16 for the row ratio.
pub fn distance_told(h: &[f64; 9], &[x, y, u, v]: &[f64; 4], ratio: f64) -> u32 {
    with_model!(probe_distance_told, h, x, y, u, v, ratio)
}

/// The distance; a NaN where there is none.
pub fn distance(h: &[f64; 9], &[x, y, u, v]: &[f64; 4], ratio: f64) -> f64 {
    with_model!(probe_distance, h, x, y, u, v, ratio)
}

/// 0 or [`BEYOND`], for any numbers: nothing is refused.
pub fn residual_told(h: &[f64; 9], &[x, y, u, v]: &[f64; 4], ratio: f64) -> u32 {
    with_model!(probe_residual_told, h, x, y, u, v, ratio)
}

/// The distance of any numbers; a NaN where the mark is beyond.
pub fn residual(h: &[f64; 9], &[x, y, u, v]: &[f64; 4], ratio: f64) -> f64 {
    with_model!(probe_residual, h, x, y, u, v, ratio)
}

/// s at place 0, where the model has the point at 1 and 2, a NaN past 2.
pub fn projection(h: &[f64; 9], &[x, y]: &[f64; 2], place: u32) -> f64 {
    with_model!(probe_projection, h, x, y, place)
}
