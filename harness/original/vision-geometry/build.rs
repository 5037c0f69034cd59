//! Wraps the files of vision-geometry, and lifts lines out of one.

use wrap::Lines;

fn main() {
    let wrap = |file: &str, name: &str, open: &str| {
        wrap::wrap(&format!("crates/vision-geometry/src/{file}"), name, open);
    };
    wrap("error.rs", "error", "");
    wrap("homography.rs", "homography", HOMOGRAPHY);
    wrap("math.rs", "math", MATH);
    wrap::lift(&DLT, "dlt", BEFORE_DLT, BEHIND_DLT);
}

/// `dlt` from its test of how many points there are to its matrix. Between
/// them it takes the pixels through the inverse of the camera's matrix, which
/// would be a stand-in's: u and v are taken as normalised here.
const DLT: Lines = Lines {
    path: "crates/vision-geometry/src/pnp/dlt.rs",
    first: "    let n = world.len();\n",
    last: "        a[(r1, 11)] = -v;\n    }\n",
    instead: &[
        (
            "    let kmtx: Mat3 = k.k_matrix();
    let k_inv = kmtx.try_inverse().ok_or(GeometryError::Singular)?;
",
            "",
        ),
        (
            "        let v_img = k_inv * nalgebra::Vector3::new(pi.x, pi.y, 1.0);
        let u = v_img.x / v_img.z;
        let v = v_img.y / v_img.z;
",
            "        let (u, v) = (pi.x, pi.y);\n",
        ),
    ],
};

const BEFORE_DLT: &str = "\
use crate::GeometryError;
use nalgebra::DMatrix;
use vision_calibration_core::{Mat4, Pt2, Pt3, Real};
pub fn rows(world: &[Pt3], image: &[Pt2]) -> Result<DMatrix<Real>, GeometryError> {
";

const BEHIND_DLT: &str = "    Ok(a)
}";

const HOMOGRAPHY: &str = "\
pub fn points_are_collinear(pts: &[vision_calibration_core::Pt2]) -> bool {
    super::points_are_collinear(pts)
}";

const MATH: &str = "\
pub fn dlt_rank_ok(
    singular_values: &[f64],
    cols: usize,
    expected_null_dim: usize,
    rel_tol: f64,
) -> bool {
    super::dlt_rank_ok(singular_values, cols, expected_null_dim, rel_tol)
}
pub fn ensure_finite(what: &str, values: &[f64]) -> Result<(), crate::GeometryError> {
    super::ensure_finite(what, values)
}";
