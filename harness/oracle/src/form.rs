//! Standing forms, 02's order 5: normalising and the rows by the originals, and
//! the distance by the order's formulas, which the source doesn't have.

use crate::family::Family;
use vision_calibration_core::{Pt2, Pt3, linalg};
use vision_geometry::{GeometryError, dlt};

/// x, y and z.
pub type Point3 = [f64; 3];
/// Point x, y and z, and pixel u, v.
pub type FormMark = [f64; 5];
/// Three rows, each of r0, r1, r2 and t.
pub type Pose = [f64; 12];
/// fx, fy, cx and cy.
pub type Camera = [f64; 4];

/// Refusal 17 CAMERA.
pub const CAMERA: u32 = 17;

/// A standing form, by the camera that sees it.
#[derive(Clone, Copy, Debug, PartialEq)]
pub struct Form {
    pub camera: Camera,
}

/// A point's coordinate by one row of a model.
#[inline]
fn turned(row: &[f64], &[x, y, z, ..]: &FormMark) -> f64 {
    ((row[0] * x + row[1] * y) + row[2] * z) + row[3]
}

impl Family for Form {
    type Mark = FormMark;
    type Model = Pose;
    const FEWEST: usize = 6;
    const NUMBERS: usize = 4;

    fn numbers(&self) -> &[f64] {
        &self.camera
    }

    fn of_numbers(numbers: &[f64]) -> Self {
        let camera = numbers.try_into().expect("four numbers");
        Self { camera }
    }

    /// 17 for a number that is not finite, or of magnitude above 1e9.
    fn tested(&self) -> Result<(), u32> {
        // A NaN fails this test too.
        match self.camera.iter().all(|x| x.abs() <= 1e9) {
            true => Ok(()),
            false => Err(CAMERA),
        }
    }

    /// Z.
    #[inline]
    fn divisor(h: &Pose, mark: &FormMark) -> f64 {
        turned(&h[8..], mark)
    }

    #[inline]
    fn mapped(&self, h: &Pose, mark: &FormMark) -> [f64; 2] {
        let [fx, fy, cx, cy] = self.camera;
        let z = Self::divisor(h, mark);
        let u = fx * (turned(&h[..4], mark) / z) + cx;
        let v = fy * (turned(&h[4..8], mark) / z) + cy;
        [u, v]
    }
}

fn points(list: impl Iterator<Item = Point3>) -> Vec<Pt3> {
    list.map(|[x, y, z]| Pt3::new(x, y, z)).collect()
}

/// The normalised points and the matrix of the change as rows, or none where
/// there is no spread.
pub fn normalize_points_3d(list: &[Point3]) -> Option<(Vec<Point3>, [[f64; 4]; 4])> {
    let list = points(list.iter().copied());
    let (normalised, matrix) = linalg::normalize_points_3d(&list)?;
    let back = normalised.iter().map(|p| [p.x, p.y, p.z]);
    Some((back.collect(), matrix.rows))
}

/// The rows of `dlt`, twelve numbers each, one row after the other, by its own
/// lines, with u and v taken as normalised. Where it refuses before, its error.
pub fn dlt_rows_3d(marks: &[FormMark]) -> Result<Vec<f64>, GeometryError> {
    let world = points(marks.iter().map(|&[x, y, z, ..]| [x, y, z]));
    let image: Vec<Pt2> = marks.iter().map(|m| Pt2::new(m[3], m[4])).collect();
    Ok(dlt::rows(&world, &image)?.iter().copied().collect())
}
