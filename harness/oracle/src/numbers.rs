//! Root, quadratic, rank and the test of finite numbers.
//!
//! The refusals are 01's, which the source doesn't have.

pub use vision_calibration_core::linalg::solve_quadratic_real;
pub use vision_geometry::math::open::dlt_rank_ok;

/// Refusal 15 NUMBER.
pub const NUMBER: u32 = 15;

/// 15 for a NaN or a negative number, else 0. Minus zero isn't negative.
pub fn root_refusal(a: f64) -> u32 {
    if a >= 0.0 { 0 } else { NUMBER }
}

/// The machine's root, or the refusal.
pub fn root(a: f64) -> Result<f64, u32> {
    match root_refusal(a) {
        0 => Ok(a.sqrt()),
        number => Err(number),
    }
}

/// The roots of `solve_quadratic_real`, or 15 where a coefficient is
/// non-finite or of magnitude above 1e100.
pub fn quadratic(a: f64, b: f64, c: f64) -> Result<Vec<f64>, u32> {
    // A NaN fails this test too.
    if [a, b, c].iter().all(|x| x.abs() <= 1e100) {
        Ok(solve_quadratic_real(a, b, c))
    } else {
        Err(NUMBER)
    }
}

/// Whether `ensure_finite` accepts the numbers.
pub fn ensure_finite(values: &[f64]) -> bool {
    vision_geometry::math::open::ensure_finite("number", values).is_ok()
}
