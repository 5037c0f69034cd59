//! The sheet's leaves really run, and what 01 says of them by example.

use oracle::entries::collinear_by_the_paper;
use oracle::sheet_cases::{HYPOT_NO, HYPOT_YES, SQUARE};
use oracle::{
    Mark, Measure, Model, Point, beyond, distance, dlt_rows, measure, normalize_points_2d,
    points_are_collinear,
};

fn marks(sheet: &[Point], pixel: &[Point]) -> Vec<Mark> {
    let pairs = sheet.iter().zip(pixel);
    pairs.map(|(s, p)| [s[0], s[1], p[0], p[1]]).collect()
}

#[test]
fn normalising() {
    let (list, matrix) = normalize_points_2d(&SQUARE).expect("spread");
    let mean = 5000f64.sqrt();
    let scale = 2f64.sqrt() / mean;
    assert_eq!(list[0], [-50.0 * scale, -50.0 * scale]);
    assert_eq!(matrix[0], [scale, 0.0, -scale * 50.0]);
    assert_eq!(matrix[1], [0.0, scale, -scale * 50.0]);
    assert_eq!(matrix[2], [0.0, 0.0, 1.0]);
    assert!(normalize_points_2d(&[]).is_none());
    assert!(normalize_points_2d(&[[1.0, 1.0]; 4]).is_none());
    // Equal points can have spread; a mean of exactly 2^-52 is none.
    assert!(normalize_points_2d(&[[2.7, 2.7]; 3]).is_some());
    assert!(normalize_points_2d(&[[0.0, 0.0], [2f64.powi(-51), 0.0]]).is_none());
}

#[test]
fn minus_zero_in_normalising() {
    let (list, matrix) = normalize_points_2d(&[[-0.0, 1.0], [-0.0, 3.0]]).expect("spread");
    let minus_zero = (-0.0f64).to_bits();
    assert_eq!(list[0][0].to_bits(), minus_zero);
    assert_eq!(matrix[0][2].to_bits(), minus_zero);
}

#[test]
fn collinear() {
    assert!(points_are_collinear(&[
        [0.0, 0.0],
        [1.0, 0.0],
        [2.0, 0.0],
        [3.0, 0.0]
    ]));
    assert!(points_are_collinear(&[
        [0.0, 0.0],
        [0.0005, 0.0],
        [0.0, 0.001]
    ]));
    assert!(points_are_collinear(&[[1.0, 1.0]; 3]));
    assert!(!points_are_collinear(&SQUARE));
    assert!(!points_are_collinear(&[[1.0, 1.0]; 2]));
}

/// A difference, both ways: the Rust's second closeness test uses `hypot`.
#[test]
fn collinear_where_hypot_differs() {
    for (list, answer) in [(HYPOT_YES, true), (HYPOT_NO, false)] {
        assert_eq!(collinear_by_the_paper(&list), answer);
        assert_eq!(points_are_collinear(&list), !answer);
        let [dx, dy] = list[2];
        assert_eq!(dx.hypot(dy) <= 1e-9, !answer);
        assert_eq!((dx * dx + dy * dy).sqrt() <= 1e-9, answer);
    }
}

#[test]
fn rows() {
    let rows = dlt_rows(&marks(&SQUARE, &SQUARE)).expect("rows");
    assert_eq!(rows.len(), 72);
    let (list, _) = normalize_points_2d(&SQUARE).expect("spread");
    for (i, [x, y]) in list.into_iter().enumerate() {
        let (u, v) = (x, y);
        assert_eq!(
            rows[18 * i..18 * i + 9],
            [-x, -y, -1.0, 0.0, 0.0, 0.0, u * x, u * y, u]
        );
        assert_eq!(
            rows[18 * i + 9..18 * i + 18],
            [0.0, 0.0, 0.0, -x, -y, -1.0, v * x, v * y, v]
        );
    }
    // A centre mark's row: -x is -0, the fillers are +0.
    let five = [SQUARE.as_slice(), &[[50.0, 50.0]]].concat();
    let rows = dlt_rows(&marks(&five, &five)).expect("rows");
    assert_eq!(rows[72].to_bits(), (-0.0f64).to_bits());
    assert_eq!(rows[75].to_bits(), 0);
}

#[test]
fn rows_refused() {
    let line = [[0.0, 0.0], [1.0, 0.0], [2.0, 0.0], [3.0, 0.0]];
    for (sheet, pixel) in [(line, SQUARE), (SQUARE, line)] {
        assert!(dlt_rows(&marks(&sheet, &pixel)).is_err());
    }
    assert!(dlt_rows(&marks(&SQUARE[..3], &SQUARE[..3])).is_err());
}

const IDENTITY: Model = [1.0, 0.0, 0.0, 0.0, 1.0, 0.0, 0.0, 0.0, 1.0];
const MARK: Mark = [50.0, 50.0, 50.0, 53.0];

/// The identity with another last row.
fn last_row(row: [f64; 3]) -> Model {
    let mut h = IDENTITY;
    h[6..].copy_from_slice(&row);
    h
}

#[test]
fn distances() {
    assert_eq!(distance(&IDENTITY, &MARK, 1.0), 3.0);
    let behind = last_row([0.0, 0.0, -1.0]);
    assert_eq!(distance(&behind, &MARK, 1.0), f64::INFINITY);
    // s overflows to infinity: a finite distance. s is a NaN: an infinite one.
    let far = last_row([1e300, 0.0, 1.0]);
    assert_eq!(distance(&far, &[1e9, 0.0, 3.0, 4.0], 1.0), 5.0);
    let far = last_row([1e300, -1e300, 1.0]);
    assert_eq!(distance(&far, &[1e9, 1e9, 3.0, 4.0], 1.0), f64::INFINITY);
}

/// The difference along v alone is multiplied, before squaring.
#[test]
fn distances_by_a_ratio() {
    for ratio in [1.0, 2.0, 0.5, 100.0, -2.0, 0.0] {
        assert_eq!(distance(&IDENTITY, &MARK, ratio), (3.0 * ratio).abs());
        // Off along u alone.
        assert_eq!(distance(&IDENTITY, &[50.0, 50.0, 46.0, 50.0], ratio), 4.0);
    }
    assert_eq!(distance(&IDENTITY, &[0.0, 0.0, 4.0, 1.5], 2.0), 5.0);
    assert_eq!(distance(&IDENTITY, &[0.0, 0.0, 4.0, 6.0], 0.5), 5.0);
    // Rounded once by itself: 0.1 * 3 is above 0.3.
    let d = distance(&IDENTITY, &[0.0, 0.0, 0.0, 0.1], 3.0);
    assert_eq!(d, 0.1 * 3.0);
    assert!(d > 0.3);
    // Any ratio at all: beyond stays beyond, and 0 times infinity is a NaN.
    let behind = last_row([0.0, 0.0, -1.0]);
    for ratio in [f64::NAN, f64::INFINITY, 0.0] {
        assert_eq!(measure(&behind, &MARK, ratio), Measure::Beyond);
    }
    assert!(distance(&IDENTITY, &MARK, f64::NAN).is_nan());
    assert_eq!(distance(&IDENTITY, &MARK, f64::NEG_INFINITY), f64::INFINITY);
    let straight = [50.0, 50.0, 46.0, 50.0];
    assert!(distance(&IDENTITY, &straight, f64::INFINITY).is_nan());
}

/// Beyond by s alone: below 0, 0 of either sign, -inf and a NaN.
#[test]
fn beyond_the_horizon() {
    let (large, far) = (1e300, [1e9, 1e9, 3.0, 4.0]);
    for (row, mark, is_beyond) in [
        ([0.0, 0.0, -1.0], MARK, true),
        ([0.0, 0.0, 0.0], MARK, true),
        ([-0.0, -0.0, -0.0], MARK, true),
        ([0.0, 0.0, -5e-324], MARK, true),
        ([0.0, 0.0, 5e-324], MARK, false),
        // The horizon runs through the mark.
        ([1.0, 0.0, -50.0], MARK, true),
        ([1.0, 0.0, -49.0], MARK, false),
        ([-large, 0.0, 1.0], far, true),
        ([large, 0.0, 1.0], far, false),
        ([large, -large, 1.0], far, true),
    ] {
        let h = last_row(row);
        assert_eq!(beyond(&h, &mark), is_beyond, "{row:?}");
        assert_eq!(measure(&h, &mark, 1.0) == Measure::Beyond, is_beyond);
    }
}

/// A number that is infinite or a NaN isn't beyond.
#[test]
fn far_and_not_beyond() {
    let mut h = IDENTITY;
    h[2] = 1e200;
    let answer = measure(&h, &MARK, 1.0);
    assert_eq!(answer, Measure::Distance(f64::INFINITY));
    (h[0], h[1]) = (1e300, -1e300);
    let answer = measure(&h, &[1e9, 1e9, 3.0, 4.0], 1.0);
    assert!(matches!(answer, Measure::Distance(d) if d.is_nan()));
    assert!(!beyond(&h, &[1e9, 1e9, 3.0, 4.0]));
}
