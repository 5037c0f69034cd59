//! The proved collinear test against `points_are_collinear`.

use compare::{cases, is_long};
use oracle::Sheet;
use oracle::cases::Random;
use oracle::entries::{self, closeness_differs, collinear_by_the_paper, side_of};
use oracle::family_cases::marks;
use oracle::sheet_cases::{HYPOT_NO, HYPOT_YES, all_traps, both};

#[derive(Debug, Default)]
struct Tally {
    no: usize,
    yes: usize,
    shape: usize,
    point: usize,
    double: usize,
    /// The closeness tests differ.
    skipped: usize,
    /// Among these, where the Rust says otherwise.
    otherwise: usize,
}

impl Tally {
    /// Sees that every answer came.
    fn met(&self) {
        let refused = [self.shape, self.point, self.double];
        let answers = [self.no, self.yes, self.skipped, self.otherwise];
        assert!(refused.iter().chain(&answers).all(|&count| count > 0));
    }
}

/// Compares one with the Rust; where the closeness tests differ, with 01.
fn compare(marks: &[f64], side: u32, tally: &mut Tally) {
    let ours = proved::points_are_collinear(marks, side);
    let theirs = entries::collinear(marks, side).map_or_else(|number| number, u32::from);
    if theirs < 2 && closeness_differs(marks, side) {
        let paper = collinear_by_the_paper(&side_of(marks, side));
        assert_eq!(ours, paper.into(), "side {side} of {marks:?}");
        tally.skipped += 1;
        tally.otherwise += usize::from(ours != theirs);
        return;
    }
    assert_eq!(ours, theirs, "side {side} of {marks:?}");
    match ours {
        0 => tally.no += 1,
        1 => tally.yes += 1,
        5 => tally.shape += 1,
        6 => tally.point += 1,
        _ => tally.double += 1,
    }
}

#[test]
fn traps() {
    let mut tally = Tally::default();
    for marks in all_traps() {
        for side in [0, 1, 2, u32::MAX] {
            compare(&marks, side, &mut tally);
        }
    }
    println!("collinear, traps: {tally:?}");
    assert_eq!(tally.skipped, 0);
}

#[test]
fn random_lists() {
    let random = &mut Random::new(13);
    let mut tally = Tally::default();
    let count = cases(200_000);
    for i in 0..count {
        let marks = marks::<Sheet>(random, i);
        for side in [0, random.pick(&[1, 2, 1 << 31])] {
            compare(&marks, side, &mut tally);
        }
    }
    println!("collinear: {tally:?}");
    if is_long(count) {
        tally.met();
    }
}

/// A listed difference, not compared: `hypot` in the Rust's second closeness
/// test. 01 says yes where the Rust says no, and the other way round.
#[test]
fn the_paper_where_hypot_differs() {
    for (list, answer) in [(HYPOT_YES, true), (HYPOT_NO, false)] {
        let marks = both(&list);
        for side in [0, 1] {
            assert!(closeness_differs(&marks, side));
            assert_eq!(proved::points_are_collinear(&marks, side), answer.into());
            assert_eq!(entries::collinear(&marks, side), Ok(!answer));
        }
    }
}

/// The random cases reach both sides of each limit: a point is passed over or
/// not, at 1e-9 and next to it, and so for the cross product at 1e-6.
#[test]
fn the_cases_reach_every_limit() {
    let random = &mut Random::new(13);
    let (mut near, mut cross) = ([0; 3], [0; 3]);
    let count = |x: f64, limit: f64, reached: &mut [usize; 3]| {
        if (x / limit - 1.0).abs() < 1e-15 {
            let place = if x < limit {
                0
            } else {
                1 + usize::from(x > limit)
            };
            reached[place] += 1;
        }
    };
    for i in 0..20_000 {
        let list = side_of(&marks::<Sheet>(random, i), 0);
        for p in &list {
            let (dx, dy) = (p[0] - list[0][0], p[1] - list[0][1]);
            count((dx * dx + dy * dy).sqrt(), 1e-9, &mut near);
            if let Some(p1) = list.get(1) {
                let (bx, by) = (p1[0] - list[0][0], p1[1] - list[0][1]);
                count((bx * dy - by * dx).abs(), 1e-6, &mut cross);
            }
        }
    }
    println!("near 1e-9: {near:?}, cross product near 1e-6: {cross:?}");
    assert!(near.iter().chain(&cross).all(|&count| count > 50));
}
