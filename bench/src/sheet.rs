//! Normalising one side and the rows, for 2,000 random marks, beside the
//! original Rust's.
//!
//! Our lists are allocated before the time runs, and so are the Rust's points
//! and matrix; its normalising allocates the list that it gives. The Rust's
//! rows are `original_rows` below, not `dlt_homography`: that one goes on to a
//! solver for which the harness has a stand-in, and what the stand-in copies
//! and clears takes longer than the rows. It is timed too, and shown without a
//! ratio. The Rust's collinear tests look no further than the third mark here. The
//! proved side tests the range of every number, and that no two marks have one
//! position and two pixels.

use crate::{ROUNDS, median, nanoseconds};
use oracle::cases::Random;
use std::hint::black_box;
use vision_calibration_core::Pt2;
use vision_calibration_core::linalg::normalize_points_2d;
use vision_geometry::homography::dlt_homography;
use vision_geometry::homography::open::points_are_collinear;

const MARKS: usize = 2000;

/// One side's points: the sheet's from place 0, the pixels' from place 2.
fn side(marks: &[f64], from: usize) -> Vec<Pt2> {
    let point = |m: &[f64; 4]| Pt2::new(m[from], m[from + 1]);
    marks.as_chunks().0.iter().map(point).collect()
}

/// The lines of `dlt_homography` up to its matrix, which is lent and row after
/// row.
#[inline(never)]
fn original_rows(src: &[Pt2], dst: &[Pt2], a: &mut [f64]) -> Option<()> {
    let finite = |p: &Pt2| p.x.is_finite() && p.y.is_finite();
    if !src.iter().all(finite) || !dst.iter().all(finite) || src.len() < 4 {
        return None;
    }
    if points_are_collinear(src) || points_are_collinear(dst) {
        return None;
    }
    let (src_n, _) = normalize_points_2d(src)?;
    let (dst_n, _) = normalize_points_2d(dst)?;
    a.fill(0.0);
    for ((pw, pi), two) in src_n.iter().zip(&dst_n).zip(a.chunks_exact_mut(18)) {
        let (x, y, u, v) = (pw.x, pw.y, pi.x, pi.y);
        let (r0, r1) = two.split_at_mut(9);

        r0[0] = -x;
        r0[1] = -y;
        r0[2] = -1.0;
        r0[6] = u * x;
        r0[7] = u * y;
        r0[8] = u;

        r1[3] = -x;
        r1[4] = -y;
        r1[5] = -1.0;
        r1[6] = v * x;
        r1[7] = v * y;
        r1[8] = v;
    }
    Some(())
}

/// Times the two in turn, and prints them with their ratio.
fn compare(title: &str, mut proved: impl FnMut(), mut original: impl FnMut()) {
    let mut times = [const { Vec::new() }; 2];
    for _ in 0..ROUNDS {
        times[0].push(nanoseconds(20, &mut proved));
        times[1].push(nanoseconds(200, &mut original));
    }
    let [p, o] = times.map(median);
    println!(
        "{title:<11} {:>15.1} {:>13.1} {:>15.1} {:>13.1} {:>12.2}",
        p / 1e3,
        o / 1e3,
        p / MARKS as f64,
        o / MARKS as f64,
        p / o
    );
}

fn normalising(marks: &[f64], sheet: &[Pt2]) {
    let mut points = vec![0.0; 2 * MARKS];
    assert_eq!(proved::normalize_points_2d(marks, 0, &mut points), 0);
    let (theirs, _) = normalize_points_2d(sheet).expect("spread");
    assert!(
        theirs
            .iter()
            .flat_map(|p| [p.x, p.y])
            .eq(points.iter().copied())
    );
    compare(
        "normalising",
        || {
            black_box(proved::normalize_points_2d(
                black_box(marks),
                0,
                black_box(&mut points),
            ));
        },
        || {
            black_box(normalize_points_2d(black_box(sheet)));
        },
    );
}

fn rows(marks: &[f64], sheet: &[Pt2], pixel: &[Pt2]) {
    let mut rows = vec![0.0; 18 * MARKS];
    let mut theirs = vec![0.0; 18 * MARKS];
    assert_eq!(proved::dlt_rows(marks, &mut rows), 0);
    original_rows(sheet, pixel, &mut theirs).expect("rows");
    assert_eq!(rows, theirs);
    compare(
        "rows",
        || {
            black_box(proved::dlt_rows(black_box(marks), black_box(&mut rows)));
        },
        || {
            let (sheet, pixel) = black_box((sheet, pixel));
            black_box(original_rows(sheet, pixel, black_box(&mut theirs)));
        },
    );
}

/// `dlt_homography` whole, with the stand-in for its solver.
fn with_stand_in(sheet: &[Pt2], pixel: &[Pt2]) -> f64 {
    let rounds = (0..ROUNDS).map(|_| {
        nanoseconds(200, || {
            let (sheet, pixel) = black_box((sheet, pixel));
            let _ = black_box(dlt_homography(sheet, pixel));
        })
    });
    median(rounds.collect())
}

pub fn run() {
    let random = &mut Random::new(18);
    let number = || 2000.0 * random.unit() - 1000.0;
    let marks: Vec<f64> = std::iter::repeat_with(number).take(4 * MARKS).collect();
    let (sheet, pixel) = (side(&marks, 0), side(&marks, 2));
    println!(
        "{MARKS} marks   proved us/call  Rust us/call  proved ns/mark  Rust ns/mark  proved/Rust"
    );
    normalising(&marks, &sheet);
    rows(&marks, &sheet, &pixel);
    println!(
        "dlt_homography with its stand-in: {:.1} us a call",
        with_stand_in(&sheet, &pixel) / 1e3
    );
}
