//! The proved family of standing forms, order 5's, from the archive
//! libprobe_form.a: the entries over marks, the measuring, the opening, a
//! trial, the winner's indices and the reader of marks.
//!
//! Marks are one flat list, five numbers each: x, y, z, u, v. A model is twelve
//! numbers, three rows of r0, r1, r2 and t; a camera is fx, fy, cx, cy. Models
//! and single marks cross as lists, of which these wrappers hand over whole
//! ones.
//!
//! A state is 32 words: the sheet's, with the winner's model of twelve numbers
//! for nine in words 15 to 26, so that the ratio is word 27, and the camera's
//! numbers in words 28 to 31. `oracle::book::State::words` has them so. A
//! trial's answer is 36. What a call with too few words or places answers is
//! as for a sheet. A record of options has 32 bytes or 40, one of a camera 32,
//! a trial's 200.

mod c {
    unsafe extern "C" {
        pub unsafe fn probe_form_normalize_points_3d(
            marks: *const f64,
            len: usize,
            points: *mut f64,
            room: usize,
        ) -> u32;
        pub unsafe fn probe_form_normalize_matrix(
            marks: *const f64,
            len: usize,
            points: *mut f64,
            room: usize,
            place: u32,
        ) -> f64;
        pub unsafe fn probe_form_dlt_rows(
            marks: *const f64,
            len: usize,
            rows: *mut f64,
            room: usize,
        ) -> u32;
        pub unsafe fn probe_form_squared_residuals(
            model: *const f64,
            model_len: usize,
            fx: f64,
            fy: f64,
            cx: f64,
            cy: f64,
            ratio: f64,
            marks: *const f64,
            marks_len: usize,
            squares: *mut f64,
            squares_len: usize,
            counting: bool,
        ) -> usize;
        pub unsafe fn probe_form_open(
            options: *const u8,
            options_len: usize,
            camera: *const u8,
            camera_len: usize,
            marks: *const f64,
            marks_len: usize,
            stops: *const u32,
            stops_len: usize,
            state: *mut u64,
            state_len: usize,
        ) -> u32;
        pub unsafe fn probe_form_open_options(
            thresh: f64,
            confidence: f64,
            max_iters: u32,
            min_inliers: u32,
            refit: bool,
            ratio: f64,
            fx: f64,
            fy: f64,
            cx: f64,
            cy: f64,
            marks: *const f64,
            marks_len: usize,
            stops: *const u32,
            stops_len: usize,
            state: *mut u64,
            state_len: usize,
        ) -> u32;
    }

    /// Functions of a model, a camera, a mark and a row ratio.
    macro_rules! of_a_mark {
        ($($name:ident -> $answer:ty;)+) => {
            unsafe extern "C" {
                $(pub unsafe fn $name(
                    model: *const f64,
                    model_len: usize,
                    fx: f64,
                    fy: f64,
                    cx: f64,
                    cy: f64,
                    mark: *const f64,
                    mark_len: usize,
                    ratio: f64,
                ) -> $answer;)+
            }
        };
    }
    of_a_mark! {
        probe_form_distance_told -> u32;
        probe_form_distance -> f64;
    }
}

use crate::pick::{Options, calls, lent, of};
use crate::to_lent;

calls!(
    probe_form_trial,
    probe_form_winner_indices,
    probe_form_read_marks
);

/// 0, or the refusal; the normalised points, x, y and z in turn, go to the lent
/// list.
pub fn normalize_points_3d(marks: &[f64], points: &mut [f64]) -> u32 {
    to_lent(c::probe_form_normalize_points_3d, marks, points)
}

/// The same call, for the matrix's entry at a place from 0 to 15, row after
/// row: 0 where it is refused, a NaN past 15.
pub fn normalize_matrix(marks: &[f64], points: &mut [f64], place: u32) -> f64 {
    // SAFETY: the pointers and lengths are those of slices, or NULL and 0; the
    // second is borrowed for this call alone.
    unsafe {
        c::probe_form_normalize_matrix(of(marks), marks.len(), lent(points), points.len(), place)
    }
}

/// 0, or the refusal; the rows, twelve numbers each, go to the lent list.
pub fn dlt_rows(marks: &[f64], rows: &mut [f64]) -> u32 {
    to_lent(c::probe_form_dlt_rows, marks, rows)
}

/// A call of a function of a mark.
macro_rules! of_a_mark {
    ($name:ident, $h:ident, $camera:ident, $mark:ident, $ratio:ident) => {{
        let [fx, fy, cx, cy] = *$camera;
        // SAFETY: the pointers and lengths are those of arrays.
        unsafe { c::$name(of($h), 12, fx, fy, cx, cy, of($mark), 5, $ratio) }
    }};
}

/// 0 where there is a distance, [`BEYOND`](crate::BEYOND), or the refusal: 1
/// for the model, 6 for the mark, 16 for the row ratio or 17 for the camera.
pub fn distance_told(h: &[f64; 12], camera: &[f64; 4], mark: &[f64; 5], ratio: f64) -> u32 {
    of_a_mark!(probe_form_distance_told, h, camera, mark, ratio)
}

/// The distance; a NaN where there is none.
pub fn distance(h: &[f64; 12], camera: &[f64; 4], mark: &[f64; 5], ratio: f64) -> f64 {
    of_a_mark!(probe_form_distance, h, camera, mark, ratio)
}

/// The square of each mark's distance, to the front of the lent list if it has
/// a place for each; how many marks are beyond, 0 if it hasn't or they aren't
/// to be counted.
pub fn squared_residuals(
    h: &[f64; 12],
    camera: &[f64; 4],
    ratio: f64,
    marks: &[f64],
    squares: &mut [f64],
    counting: bool,
) -> usize {
    let [fx, fy, cx, cy] = *camera;
    let (list, len) = (of(marks), marks.len());
    // SAFETY: the pointers and lengths are those of slices, or NULL and 0; the
    // last is borrowed for this call alone.
    unsafe {
        c::probe_form_squared_residuals(
            of(h),
            12,
            fx,
            fy,
            cx,
            cy,
            ratio,
            list,
            len,
            lent(squares),
            squares.len(),
            counting,
        )
    }
}

/// Opening from records of the options and of the camera: 0, with the state's
/// words written, or the refusal.
pub fn open(options: &[u8], camera: &[u8], marks: &[f64], stops: &[u32], state: &mut [u64]) -> u32 {
    // SAFETY: as above.
    unsafe {
        c::probe_form_open(
            of(options),
            options.len(),
            of(camera),
            camera.len(),
            of(marks),
            marks.len(),
            of(stops),
            stops.len(),
            lent(state),
            state.len(),
        )
    }
}

/// The same from the types.
pub fn open_options(
    options: Options,
    camera: &[f64; 4],
    marks: &[f64],
    stops: &[u32],
    state: &mut [u64],
) -> u32 {
    let [fx, fy, cx, cy] = *camera;
    // SAFETY: as above.
    unsafe {
        c::probe_form_open_options(
            options.thresh,
            options.confidence,
            options.max_iters,
            options.min_inliers,
            options.refit,
            options.ratio,
            fx,
            fy,
            cx,
            cy,
            of(marks),
            marks.len(),
            of(stops),
            stops.len(),
            lent(state),
            state.len(),
        )
    }
}
