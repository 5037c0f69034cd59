//! The proved rows: a sheet's against those of `dlt_homography`, and a form's
//! against the lines of `dlt`.

use compare::lists::{Entry, compare_lent};
use compare::{junk, same_lists};
use oracle::entries::{self, closeness_differs};
use oracle::form_cases::{self, cube};
use oracle::sheet_cases::{self, HYPOT_NO, HYPOT_YES, SQUARE, pair};
use oracle::{Form, Sheet};
use proved::form;

/// What isn't compared: no number of the rows.
const SKIPPED: u32 = 2;

/// Every number that a sheet's rows may answer but 12, which has not come up: a
/// cross product above 1e-6 needs a point more than 1e-4 from the first, and
/// points with one so far should have spread.
const ANSWERS: [u32; 8] = [0, 5, 6, 7, 18, 9, 13, 14];

/// Whether the Rust asks its collinear tests, and they may differ from 01's.
fn rows_differ(marks: &[f64], number: u32) -> bool {
    ![5, 6, 7, 18].contains(&number) && [0, 1].iter().any(|&side| closeness_differs(marks, side))
}

/// Compares one, with the lent list; tells the refusal, 0 or SKIPPED.
fn compare(marks: &[f64], room: usize) -> u32 {
    let number = entries::rows(marks, &mut junk(room)).err().unwrap_or(0);
    if rows_differ(marks, number) {
        return SKIPPED;
    }
    let about = || format!("{marks:?}");
    let original = |lent: &mut [f64]| entries::rows(marks, lent);
    let answer = compare_lent(room, &about, original, |lent| proved::dlt_rows(marks, lent));
    answer.err().unwrap_or(0)
}

/// The same of a form, where nothing is skipped.
fn compare_form(marks: &[f64], room: usize) -> u32 {
    let about = || format!("{marks:?}");
    let original = |lent: &mut [f64]| entries::rows_form(marks, lent);
    let answer = compare_lent(room, &about, original, |lent| form::dlt_rows(marks, lent));
    answer.err().unwrap_or(0)
}

const OF_A_SHEET: Entry = Entry {
    title: "rows (2: skipped)",
    places: 18,
    answers: &ANSWERS,
    compare: &|_, marks, room| compare(marks, room),
};

const OF_A_FORM: Entry = Entry {
    title: "rows of forms",
    places: 24,
    answers: &[0, 5, 6, 7, 18, 9, 12],
    compare: &|_, marks, room| compare_form(marks, room),
};

#[test]
fn traps_of_sheets() {
    OF_A_SHEET.traps::<Sheet>(&sheet_cases::all_traps());
}

#[test]
fn traps_of_forms() {
    OF_A_FORM.traps::<Form>(&form_cases::all_traps());
}

#[test]
fn lists_of_sheets() {
    let answers = [ANSWERS.as_slice(), &[SKIPPED]].concat();
    let entry = Entry {
        answers: &answers,
        ..OF_A_SHEET
    };
    entry.random_lists::<Sheet>(14, 100_000);
}

#[test]
fn lists_of_forms() {
    OF_A_FORM.random_lists::<Form>(72, 60_000);
}

/// 5, 6, 7, 18, 12, 9. A form's points on a line or a plane are no refusal: `dlt`
/// finds that out behind its rows.
#[test]
fn order_of_forms() {
    let nan = f64::NAN;
    for (marks, number) in [
        (vec![nan; 29], 5),
        (vec![1.0; 8005], 5),
        (vec![nan; 25], 6),
        (vec![], 7),
        (vec![1.0; 25], 7),
        (cube(5), 7),
        (vec![1.0; 30], 12),
        (vec![1.0; 8000], 12),
        (cube(6), 9),
    ] {
        assert_eq!(compare_form(&marks, 0), number);
    }
    assert_eq!(compare_form(&cube(6), 143), 9);
    assert_eq!(compare_form(&cube(6), 144), 0);
    let line = |i: u32| [i.into(), 0.0, 0.0, 1.0, 2.0];
    let line: Vec<f64> = (0..6).flat_map(line).collect();
    assert_eq!(compare_form(&line, 150), 0);
}

/// A listed difference, not compared: `hypot` in the Rust's second closeness
/// test. We refuse where the Rust has rows, and the other way round.
#[test]
fn the_paper_where_hypot_differs() {
    for (sides, number) in [((HYPOT_YES, SQUARE), 13), ((SQUARE, HYPOT_YES), 14)] {
        let marks = pair(&sides.0, &sides.1);
        let mut rows = junk(72);
        assert_eq!(proved::dlt_rows(&marks, &mut rows), number);
        assert!(same_lists(&rows, &junk(72)));
        assert_eq!(entries::rows(&marks, &mut rows), Ok(()));
    }
    for (sides, number) in [((HYPOT_NO, SQUARE), 13), ((SQUARE, HYPOT_NO), 14)] {
        let marks = pair(&sides.0, &sides.1);
        let mut rows = junk(72);
        assert_eq!(entries::rows(&marks, &mut rows), Err(number));
        assert_eq!(proved::dlt_rows(&marks, &mut rows), 0);
    }
}
