//! The sheet's entries: each refusal of 01, and its place in the order.

use oracle::cases::{Random, step};
use oracle::entries::{
    self, closeness_differs, collinear, collinear_by_the_paper, normalize, rows, side_of,
};
use oracle::sheet_cases::{
    DIFFERING, HYPOT_NO, HYPOT_YES, IDENTITY, LINE, SQUARE, both, few_marks, mark_traps, pair,
    refused_traps,
};
use oracle::{Mark, Measure, Model, Sheet, dlt_rows, normalize_points_2d, points_are_collinear};

/// What a lent list holds before a call.
const BEFORE: f64 = 7.0;

/// The square on both sides with one number replaced.
fn damaged(place: usize, bad: f64) -> Vec<f64> {
    let mut marks = both(&SQUARE);
    marks[place] = bad;
    marks
}

/// The refusal of normalising, which leaves the lent list as it was.
fn not_normalized(marks: &[f64], side: u32, room: usize) -> u32 {
    let mut lent = vec![BEFORE; room];
    let refusal = normalize(marks, side, &mut lent).expect_err("a refusal");
    assert_eq!(lent, vec![BEFORE; room]);
    refusal
}

/// The same of the rows.
fn no_rows(marks: &[f64], room: usize) -> u32 {
    let mut lent = vec![BEFORE; room];
    let refusal = rows(marks, &mut lent).expect_err("a refusal");
    assert_eq!(lent, vec![BEFORE; room]);
    refusal
}

#[test]
fn a_list_is_tested_whole() {
    for (marks, number) in refused_traps() {
        for side in [0, 1] {
            assert_eq!(not_normalized(&marks, side, 0), number);
            assert_eq!(not_normalized(&marks, side, 10), number);
            assert_eq!(collinear(&marks, side), Err(number));
        }
        assert_eq!(no_rows(&marks, 0), number);
        assert_eq!(no_rows(&marks, 90), number);
    }
    // Every place counts for either side.
    for place in 0..16 {
        for bad in [f64::NAN, f64::INFINITY, -step(1e9, 1)] {
            let marks = damaged(place, bad);
            assert_eq!(not_normalized(&marks, 0, 8), 6);
            assert_eq!(not_normalized(&marks, 1, 8), 6);
            assert_eq!(collinear(&marks, 0), Err(6));
            assert_eq!(collinear(&marks, 1), Err(6));
            assert_eq!(no_rows(&marks, 72), 6);
        }
        let mut lent = [0.0; 72];
        assert!(rows(&damaged(place, 1e9), &mut lent).is_ok());
    }
}

#[test]
fn lengths() {
    let marks = vec![1.0; 8005];
    for len in [1, 2, 3, 5, 7, 7999, 8001, 8004, 8005] {
        assert_eq!(not_normalized(&marks[..len], 0, 0), 5);
        assert_eq!(collinear(&marks[..len], 0), Err(5));
        assert_eq!(no_rows(&marks[..len], 0), 5);
    }
    assert_eq!(not_normalized(&marks[..8000], 0, 0), 12);
    assert_eq!(collinear(&marks[..8000], 0), Ok(true));
    assert_eq!(no_rows(&marks[..8000], 0), 13);
    // No marks at all.
    assert_eq!(not_normalized(&[], 0, 0), 12);
    assert_eq!(collinear(&[], 0), Ok(false));
    assert_eq!(no_rows(&[], 0), 7);
}

#[test]
fn normalising() {
    let marks = pair(&SQUARE, &LINE);
    for (side, points) in [(0, SQUARE), (1, LINE), (u32::MAX, LINE)] {
        let (list, matrix) = normalize_points_2d(&points).expect("spread");
        let mut lent = [BEFORE; 10];
        assert_eq!(normalize(&marks, side, &mut lent), Ok(matrix));
        assert_eq!(&lent[..8], list.as_flattened());
        assert_eq!(lent[8..], [BEFORE; 2]);
    }
    assert_eq!(not_normalized(&marks, 0, 7), 9);
    // 12 comes before 9.
    assert_eq!(not_normalized(&both(&[[1.0, 1.0]; 4]), 0, 0), 12);
    assert_eq!(not_normalized(&both(&[[1.0, 1.0]; 4]), 0, 8), 12);
    // 18 before both, whichever side is asked for.
    let marks = pair(&[[1.0, 1.0]; 2], &LINE[..2]);
    for side in [0, 1] {
        assert_eq!(not_normalized(&marks, side, 4), 18);
        assert_eq!(not_normalized(&marks, side, 0), 18);
        assert_eq!(collinear(&marks, side), Err(18));
    }
}

#[test]
fn spread() {
    // Equal points can have some; a mean of exactly 2^-52 is none.
    assert_eq!(not_normalized(&both(&[[2.7, 2.7]; 3]), 0, 5), 9);
    assert!(normalize(&both(&[[2.7, 2.7]; 3]), 0, &mut [0.0; 6]).is_ok());
    let apart = |x: f64| both(&[[0.0, 0.0], [x, 0.0]]);
    let limit = 2f64.powi(-51);
    assert_eq!(not_normalized(&apart(limit), 1, 4), 12);
    assert_eq!(not_normalized(&apart(step(limit, -1)), 1, 4), 12);
    assert!(normalize(&apart(step(limit, 1)), 1, &mut [0.0; 4]).is_ok());
    // One side may have spread alone.
    let marks = pair(&SQUARE, &[[1.0, 1.0]; 4]);
    assert_eq!(not_normalized(&marks, 1, 8), 12);
    assert!(normalize(&marks, 0, &mut [0.0; 8]).is_ok());
}

#[test]
fn minus_zeros() {
    let mut lent = [BEFORE; 4];
    let marks = both(&[[-0.0, 1.0], [-0.0, 3.0]]);
    let matrix = normalize(&marks, 0, &mut lent).expect("spread");
    let minus_zero = (-0.0f64).to_bits();
    assert_eq!(lent[0].to_bits(), minus_zero);
    assert_eq!(lent[2].to_bits(), minus_zero);
    assert_eq!(matrix[0][2].to_bits(), minus_zero);
    assert_eq!(matrix[0][1].to_bits(), 0);
}

#[test]
fn lines() {
    let marks = pair(&SQUARE, &LINE);
    assert_eq!(collinear(&marks, 0), Ok(false));
    assert_eq!(collinear(&marks, 1), Ok(true));
    assert_eq!(collinear(&marks[..8], 1), Ok(false));
    assert_eq!(collinear(&both(&[[1.0, 1.0]; 3]), 0), Ok(true));
    let three = |p| both(&[[0.0, 0.0], [1.0, 0.0], p]);
    assert_eq!(collinear(&three([0.0, 1e-6]), 0), Ok(true));
    assert_eq!(collinear(&three([0.0, step(1e-6, 1)]), 0), Ok(false));
}

/// Where the closeness tests agree, 01's rule and the Rust do.
#[test]
fn the_rule_of_the_paper() {
    let random = &mut Random::new(17);
    let lists = (0..50_000).map(|i| few_marks(random, i, 3 + i % 4));
    let (mut agree, mut differ) = (0, 0);
    for marks in mark_traps().into_iter().chain(lists) {
        let list = side_of(&marks, 0);
        if closeness_differs(&marks, 0) {
            differ += 1;
        } else {
            agree += 1;
            assert_eq!(points_are_collinear(&list), collinear_by_the_paper(&list));
        }
    }
    assert!(agree > 40_000 && differ > 50, "{agree} {differ}");
    for p in DIFFERING {
        assert!(closeness_differs(&both(&[[0.0, 0.0], p]), 0));
    }
    for (list, answer) in [(HYPOT_YES, true), (HYPOT_NO, false)] {
        assert_eq!(collinear_by_the_paper(&list), answer);
        assert_eq!(collinear(&both(&list), 0), Ok(!answer));
    }
}

#[test]
fn rows_in_their_places() {
    let marks = both(&SQUARE);
    let list: Vec<_> = marks.chunks(4).map(|m| [m[0], m[1], m[2], m[3]]).collect();
    let mut lent = [BEFORE; 75];
    assert_eq!(rows(&marks, &mut lent), Ok(()));
    assert_eq!(&lent[..72], dlt_rows(&list).expect("rows"));
    assert_eq!(lent[72..], [BEFORE; 3]);
    // A centre mark: -x is -0, the fillers are +0, the constant is -1.
    let five = both(&[SQUARE.as_slice(), &[[50.0, 50.0]]].concat());
    let mut lent = [BEFORE; 90];
    assert_eq!(rows(&five, &mut lent), Ok(()));
    let bits = |place: usize| lent[place].to_bits();
    assert_eq!([bits(72), bits(73)], [(-0.0f64).to_bits(); 2]);
    assert_eq!([bits(75), bits(81)], [0; 2]);
    assert_eq!(lent[74], -1.0);
}

#[test]
fn rows_refused_in_order() {
    // 71 places for four marks.
    assert_eq!(no_rows(&both(&SQUARE), 71), 9);
    assert_eq!(no_rows(&both(&SQUARE), 0), 9);
    // 7 before 13 and 9; 13 before 14 and 9; 14 before 9.
    assert_eq!(no_rows(&both(&SQUARE[..3]), 90), 7);
    assert_eq!(no_rows(&both(&LINE[..3]), 0), 7);
    assert_eq!(no_rows(&pair(&LINE, &SQUARE), 72), 13);
    assert_eq!(no_rows(&both(&LINE), 0), 13);
    assert_eq!(no_rows(&pair(&SQUARE, &LINE), 72), 14);
    assert_eq!(no_rows(&pair(&SQUARE, &LINE), 0), 14);
    // Without spread a side is on a line already: 12 doesn't come. On the
    // sheet's side that is one position: other pixels are 18.
    assert_eq!(no_rows(&both(&[[1.0, 1.0]; 4]), 72), 13);
    assert_eq!(no_rows(&pair(&[[1.0, 1.0]; 4], &SQUARE), 72), 18);
    assert_eq!(no_rows(&pair(&SQUARE, &[[1.0, 1.0]; 4]), 72), 14);
    // 7 before 18 too, with two clashing marks and three; 18 before 13, 14 and 9.
    let twice = [LINE[0], LINE[1], LINE[2], LINE[0]];
    assert_eq!(no_rows(&pair(&twice[1..], &SQUARE[1..]), 0), 7);
    assert_eq!(no_rows(&pair(&[LINE[0]; 2], &SQUARE[..2]), 36), 7);
    assert_eq!(no_rows(&pair(&[LINE[0]; 3], &SQUARE[1..]), 0), 7);
    assert_eq!(no_rows(&pair(&[LINE[0]; 3], &SQUARE[1..]), 54), 7);
    assert_eq!(no_rows(&pair(&[LINE[0]; 4], &SQUARE), 0), 18);
    assert_eq!(no_rows(&pair(&[LINE[0]; 4], &LINE), 72), 18);
    assert_eq!(no_rows(&pair(&twice, &SQUARE), 0), 18);
    assert_eq!(no_rows(&pair(&twice, &LINE), 0), 18);
    let square_twice = [SQUARE[0], SQUARE[1], SQUARE[2], SQUARE[0]];
    assert_eq!(no_rows(&pair(&square_twice, &LINE), 0), 18);
    assert_eq!(no_rows(&both(&square_twice), 71), 9);
}

fn distance(h: &Model, mark: &Mark, ratio: f64) -> Result<Measure, u32> {
    entries::distance(&Sheet, h, mark, ratio)
}

#[test]
fn distances() {
    let mark = [50.0, 50.0, 50.0, 53.0];
    assert_eq!(distance(&IDENTITY, &mark, 1.0), Ok(Measure::Distance(3.0)));
    for place in 0..9 {
        for bad in [f64::NAN, f64::INFINITY, f64::NEG_INFINITY] {
            let mut h = IDENTITY;
            h[place] = bad;
            assert_eq!(distance(&h, &mark, 1.0), Err(1));
            // 1 comes before 6.
            assert_eq!(distance(&h, &[bad; 4], 1.0), Err(1));
        }
    }
    for place in 0..4 {
        for (number, answer) in [(1e9, true), (step(1e9, 1), false), (f64::NAN, false)] {
            let mut damaged = mark;
            damaged[place] = number;
            assert_eq!(distance(&IDENTITY, &damaged, 1.0).is_ok(), answer);
        }
    }
    assert_eq!(distance(&[f64::MAX; 9], &[0.0, 0.0, 0.0, 2e9], 1.0), Err(6));
    // A model of any size is taken, and a NaN is an answer.
    let mut h = IDENTITY;
    (h[0], h[6]) = (1e300, 1e300);
    let answer = distance(&h, &[1e9, 0.0, 3.0, 4.0], 1.0);
    assert!(matches!(answer, Ok(Measure::Distance(d)) if d.is_nan()));
    // Refused before it is beyond.
    h[6] = -1.0;
    assert_eq!(distance(&h, &mark, 1.0), Ok(Measure::Beyond));
    assert_eq!(distance(&h, &[50.0, 50.0, 50.0, 2e9], 1.0), Err(6));
    h[0] = f64::NAN;
    assert_eq!(distance(&h, &mark, 1.0), Err(1));
}

/// 16 is last, and beyond is no refusal.
#[test]
fn ratios() {
    let (mark, inf) = ([50.0, 50.0, 50.0, 53.0], f64::INFINITY);
    for (ratio, expected) in [
        (0.01, Ok(Measure::Distance(3.0 * 0.01))),
        (100.0, Ok(Measure::Distance(300.0))),
        (2.0, Ok(Measure::Distance(6.0))),
        (step(0.01, -1), Err(16)),
        (step(100.0, 1), Err(16)),
        (0.0, Err(16)),
        (-0.0, Err(16)),
        (-1.0, Err(16)),
        (inf, Err(16)),
        (-inf, Err(16)),
        (f64::NAN, Err(16)),
    ] {
        assert_eq!(distance(&IDENTITY, &mark, ratio), expected, "{ratio:e}");
        let (mut none, mut behind) = (IDENTITY, IDENTITY);
        (none[8], behind[8]) = (f64::NAN, -1.0);
        let wide = [50.0, 50.0, 50.0, 2e9];
        assert_eq!(distance(&none, &wide, ratio), Err(1));
        assert_eq!(distance(&none, &mark, ratio), Err(1));
        assert_eq!(distance(&IDENTITY, &wide, ratio), Err(6));
        let beyond = expected.map(|_| Measure::Beyond);
        assert_eq!(distance(&behind, &mark, ratio), beyond);
    }
    // The doubles inside both ends.
    assert!(distance(&IDENTITY, &mark, step(0.01, 1)).is_ok());
    assert!(distance(&IDENTITY, &mark, step(100.0, -1)).is_ok());
}
