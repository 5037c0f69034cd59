//! Sheets: normalising, collinear and the rows by the originals, and 01's
//! distance, with order 2's beyond and order 3's row ratio.

use crate::family::{Family, Measure};
use vision_calibration_core::{Pt2, linalg};
use vision_geometry::{GeometryError, homography};

/// x and y, or u and v.
pub type Point = [f64; 2];
/// Sheet x, y and pixel u, v.
pub type Mark = [f64; 4];
/// h0 to h8.
pub type Model = [f64; 9];

fn points(list: &[Point]) -> Vec<Pt2> {
    list.iter().map(|&[x, y]| Pt2::new(x, y)).collect()
}

/// The normalised points and the matrix of the change as rows, or none where
/// there is no spread.
pub fn normalize_points_2d(list: &[Point]) -> Option<(Vec<Point>, [[f64; 3]; 3])> {
    let (normalised, matrix) = linalg::normalize_points_2d(&points(list))?;
    Some((normalised.iter().map(|p| [p.x, p.y]).collect(), matrix.rows))
}

pub fn points_are_collinear(list: &[Point]) -> bool {
    homography::open::points_are_collinear(&points(list))
}

/// The rows of `dlt_homography`, nine numbers each, one row after the other:
/// the matrix that it hands to `null_space`. Where it refuses before, its error.
pub fn dlt_rows(marks: &[Mark]) -> Result<Vec<f64>, GeometryError> {
    let sheet: Vec<Pt2> = marks.iter().map(|m| Pt2::new(m[0], m[1])).collect();
    let pixel: Vec<Pt2> = marks.iter().map(|m| Pt2::new(m[2], m[3])).collect();
    nalgebra::recorded();
    let answer = homography::dlt_homography(&sheet, &pixel);
    match nalgebra::recorded() {
        Some(rows) => Ok(rows),
        None => Err(answer.expect_err("no homography without its rows")),
    }
}

/// A sheet. Nothing is asked of it.
#[derive(Clone, Copy, Debug, PartialEq)]
pub struct Sheet;

impl Family for Sheet {
    type Mark = Mark;
    type Model = Model;
    const FEWEST: usize = 4;
    const NUMBERS: usize = 0;

    fn numbers(&self) -> &[f64] {
        &[]
    }

    fn of_numbers(_: &[f64]) -> Self {
        Self
    }

    fn tested(&self) -> Result<(), u32> {
        Ok(())
    }

    /// 01's s.
    #[inline]
    fn divisor(h: &Model, &[x, y, ..]: &Mark) -> f64 {
        (h[6] * x + h[7] * y) + h[8]
    }

    #[inline]
    fn mapped(&self, h: &Model, mark: &Mark) -> [f64; 2] {
        let (s, &[x, y, ..]) = (Self::divisor(h, mark), mark);
        let across = ((h[0] * x + h[1] * y) + h[2]) / s;
        let down = ((h[3] * x + h[4] * y) + h[5]) / s;
        [across, down]
    }
}

/// Whether a sheet's mark is beyond the horizon under the model.
pub fn beyond(h: &Model, mark: &Mark) -> bool {
    Sheet::beyond(h, mark)
}

/// A sheet's distance by a row ratio. 01's own is that by 1.
pub fn distance(h: &Model, mark: &Mark, ratio: f64) -> f64 {
    Sheet.distance(h, mark, ratio)
}

/// The same, with beyond told from a number.
pub fn measure(h: &Model, mark: &Mark, ratio: f64) -> Measure {
    Sheet.measure(h, mark, ratio)
}
