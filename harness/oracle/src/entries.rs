//! The entries as 01 has them for sheets and 02's order 5 for forms: the
//! original functions with the refusals in front, in their order, and 02's 16
//! and 18 where they belong, as orders 3, 6 and 7 have it.
//!
//! Marks are one flat list, four numbers each or a form's five. A side is 0 for
//! the sheet and anything else for the pixels. Results go to a lent list: a
//! refusal leaves it as it was, and places past the last written stay.

use crate::family::{Family, Measure, Numbers};
use crate::form::{self, Form};
use crate::sheet::{self, Mark, Point, Sheet};
use vision_geometry::GeometryError;

/// Refusal 1 RECORD.
pub const RECORD: u32 = 1;
/// Refusal 5 SHAPE.
pub const SHAPE: u32 = 5;
/// Refusal 6 POINT.
pub const POINT: u32 = 6;
/// Refusal 7 FEW.
pub const FEW: u32 = 7;
/// Refusal 9 ROOM.
pub const ROOM: u32 = 9;
/// Refusal 12 SPREAD.
pub const SPREAD: u32 = 12;
/// Refusal 13 SHEET LINE.
pub const SHEET_LINE: u32 = 13;
/// Refusal 14 PIXEL LINE.
pub const PIXEL_LINE: u32 = 14;
/// Refusal 16 RATIO.
pub const RATIO: u32 = 16;
/// Refusal 18 DOUBLE.
pub const DOUBLE: u32 = 18;

/// Three rows of three.
pub type Matrix = [[f64; 3]; 3];
/// Four rows of four.
pub type Matrix4 = [[f64; 4]; 4];

/// 5 for a list that isn't one of whole marks, or too long.
pub(crate) fn shaped<F: Family>(marks: &[f64]) -> Result<&[F::Mark], u32> {
    let (list, rest) = F::Mark::chunks(marks);
    if !rest.is_empty() || marks.len() > 8000 {
        return Err(SHAPE);
    }
    Ok(list)
}

/// 5, 6. The whole list is tested, whichever side is asked for.
fn read<F: Family>(marks: &[f64]) -> Result<&[F::Mark], u32> {
    let list = shaped::<F>(marks)?;
    allowed(marks)?;
    Ok(list)
}

/// 5, 6, 18, for an entry that takes a list of any number of marks.
fn tested<F: Family>(marks: &[f64]) -> Result<&[F::Mark], u32> {
    let list = read::<F>(marks)?;
    single(list)?;
    Ok(list)
}

/// 18 for two marks of one position and two pixels. `==` has -0 equal to 0.
pub fn single<M: Numbers>(marks: &[M]) -> Result<(), u32> {
    for (i, a) in marks.iter().enumerate() {
        for b in &marks[i + 1..] {
            let (at, pixel) = a.as_ref().split_at(M::COUNT - 2);
            let (other_at, other_pixel) = b.as_ref().split_at(M::COUNT - 2);
            if at == other_at && pixel != other_pixel {
                return Err(DOUBLE);
            }
        }
    }
    Ok(())
}

/// 6 for a number that is not finite or of magnitude above 1e9.
pub(crate) fn allowed(numbers: &[f64]) -> Result<(), u32> {
    // A NaN fails this test too.
    if numbers.iter().all(|x| x.abs() <= 1e9) {
        Ok(())
    } else {
        Err(POINT)
    }
}

/// 16 for a row ratio that is not finite, or not from 0.01 to 100.
pub(crate) fn ratio_allowed(ratio: f64) -> Result<(), u32> {
    // A NaN is in no range.
    if (0.01..=100.0).contains(&ratio) {
        Ok(())
    } else {
        Err(RATIO)
    }
}

/// One side's points.
pub fn side_of(marks: &[f64], side: u32) -> Vec<Point> {
    let point = |&[x, y, u, v]: &Mark| if side == 0 { [x, y] } else { [u, v] };
    marks.as_chunks().0.iter().map(point).collect()
}

/// Writes the front of the lent list, or refuses with 9.
fn put(lent: &mut [f64], numbers: &[f64]) -> Result<(), u32> {
    let front = lent.get_mut(..numbers.len()).ok_or(ROOM)?;
    front.copy_from_slice(numbers);
    Ok(())
}

/// Normalising: 5, 6, 18, 12, 9. The points, x and y in turn, go to the lent list.
pub fn normalize(marks: &[f64], side: u32, points: &mut [f64]) -> Result<Matrix, u32> {
    tested::<Sheet>(marks)?;
    let (list, matrix) = sheet::normalize_points_2d(&side_of(marks, side)).ok_or(SPREAD)?;
    put(points, list.as_flattened())?;
    Ok(matrix)
}

/// The same of a form's points: x, y and z in turn.
pub fn normalize_form(marks: &[f64], points: &mut [f64]) -> Result<Matrix4, u32> {
    let marks = tested::<Form>(marks)?.iter();
    let world: Vec<_> = marks.map(|&[x, y, z, ..]| [x, y, z]).collect();
    let (list, matrix) = form::normalize_points_3d(&world).ok_or(SPREAD)?;
    put(points, list.as_flattened())?;
    Ok(matrix)
}

/// Collinear: 5, 6, 18. Not to be compared where [`closeness_differs`].
pub fn collinear(marks: &[f64], side: u32) -> Result<bool, u32> {
    tested::<Sheet>(marks)?;
    Ok(sheet::points_are_collinear(&side_of(marks, side)))
}

/// The original's answer, with 18 between its own 7 and all else.
fn with_double<M: Numbers>(marks: &[M], original: Result<Vec<f64>, u32>) -> Result<Vec<f64>, u32> {
    if original != Err(FEW) {
        single(marks)?;
    }
    original
}

/// Rows: 5, 6, 7, 18, 13, 14, 12, 9. 7, 13, 14 and 12 are `dlt_homography`'s own.
/// Not to be compared where [`closeness_differs`] on either side.
pub fn rows(marks: &[f64], rows: &mut [f64]) -> Result<(), u32> {
    let marks = read::<Sheet>(marks)?;
    let original = sheet::dlt_rows(marks).map_err(|error| number(&error));
    put(rows, &with_double(marks, original)?)
}

/// A form's rows: 5, 6, 7, 18, 12, 9. 7 and 12 are `dlt`'s own.
pub fn rows_form(marks: &[f64], rows: &mut [f64]) -> Result<(), u32> {
    let marks = read::<Form>(marks)?;
    let original = form::dlt_rows_3d(marks).map_err(|error| match error {
        GeometryError::InsufficientData { need: 6, .. } => FEW,
        GeometryError::Singular => SPREAD,
        other => panic!("no refusal of the order: {other}"),
    });
    put(rows, &with_double(marks, original)?)
}

/// 01's number for an error of `dlt_homography` on its way to the rows.
fn number(error: &GeometryError) -> u32 {
    match error {
        GeometryError::InsufficientData { need: 4, .. } => FEW,
        GeometryError::Degenerate { reason } => match reason.as_str() {
            text if text.contains("source points are collinear") => SHEET_LINE,
            text if text.contains("destination points are collinear") => PIXEL_LINE,
            text if text.contains("for normalization") => SPREAD,
            text => panic!("no refusal of 01: {text}"),
        },
        other => panic!("no refusal of 01: {other}"),
    }
}

/// Distance: 1 for the model, then 6 for the mark, then 16 for the ratio, then
/// 17 for a form's camera.
pub fn distance<F: Family>(
    family: &F,
    model: &F::Model,
    mark: &F::Mark,
    ratio: f64,
) -> Result<Measure, u32> {
    if !crate::ensure_finite(model.as_ref()) {
        return Err(RECORD);
    }
    allowed(mark.as_ref())?;
    ratio_allowed(ratio)?;
    family.tested()?;
    Ok(family.measure(model, mark, ratio))
}

/// The first closeness test: at most 1e-9 by the root of the sum of squares.
fn close(p: &Point, q: &Point) -> bool {
    let (dx, dy) = (p[0] - q[0], p[1] - q[1]);
    (dx * dx + dy * dy).sqrt() <= 1e-9
}

/// The Rust's second closeness test: the same by `hypot`.
fn close_by_hypot(p: &Point, q: &Point) -> bool {
    (p[0] - q[0]).hypot(p[1] - q[1]) <= 1e-9
}

/// Whether the two closeness tests differ on any point of the side. What the
/// Rust then says is a listed difference and not compared.
pub fn closeness_differs(marks: &[f64], side: u32) -> bool {
    let list = side_of(marks, side);
    list.iter()
        .any(|p| close(p, &list[0]) != close_by_hypot(p, &list[0]))
}

/// 01's own rule, for where the closeness tests differ: the root of the sum of
/// squares in both.
pub fn collinear_by_the_paper(list: &[Point]) -> bool {
    if list.len() < 3 {
        return false;
    }
    let p0 = &list[0];
    let Some(p1) = list.iter().find(|p| !close(p, p0)) else {
        return true;
    };
    list.iter().filter(|p| !close(p, p0)).all(|p2| {
        let cross = (p1[0] - p0[0]) * (p2[1] - p0[1]) - (p1[1] - p0[1]) * (p2[0] - p0[0]);
        cross.abs() <= 1e-6
    })
}
