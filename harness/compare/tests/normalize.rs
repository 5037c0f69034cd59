//! The proved normalising: of a sheet's side against `normalize_points_2d`, and
//! of a form's points against `normalize_points_3d`.

use compare::lists::{Entry, compare_lent};
use compare::same;
use oracle::cases::Random;
use oracle::form_cases::{self, cube};
use oracle::{Family, Form, Sheet, entries, sheet_cases};
use proved::form;

/// Every number that normalising may answer.
const ANSWERS: [u32; 6] = [0, 5, 6, 18, 9, 12];

/// Points that are normalised: those of marks of a family.
trait Points {
    /// How many numbers the matrix has, and a point.
    const ENTRIES: usize;
    const COORDINATES: usize;

    /// The original, with the matrix's entries row after row.
    fn original(&self, marks: &[f64], points: &mut [f64]) -> Result<Vec<f64>, u32>;
    fn proved(&self, marks: &[f64], points: &mut [f64]) -> u32;
    fn proved_entry(&self, marks: &[f64], points: &mut [f64], place: u32) -> f64;
}

/// A sheet's points of this side.
struct Side(u32);

impl Points for Side {
    const ENTRIES: usize = 9;
    const COORDINATES: usize = 2;

    fn original(&self, marks: &[f64], points: &mut [f64]) -> Result<Vec<f64>, u32> {
        let matrix = entries::normalize(marks, self.0, points)?;
        Ok(matrix.as_flattened().to_vec())
    }

    fn proved(&self, marks: &[f64], points: &mut [f64]) -> u32 {
        proved::normalize_points_2d(marks, self.0, points)
    }

    fn proved_entry(&self, marks: &[f64], points: &mut [f64], place: u32) -> f64 {
        proved::normalize_matrix(marks, self.0, points, place)
    }
}

/// A form's points.
struct World;

impl Points for World {
    const ENTRIES: usize = 16;
    const COORDINATES: usize = 3;

    fn original(&self, marks: &[f64], points: &mut [f64]) -> Result<Vec<f64>, u32> {
        let matrix = entries::normalize_form(marks, points)?;
        Ok(matrix.as_flattened().to_vec())
    }

    fn proved(&self, marks: &[f64], points: &mut [f64]) -> u32 {
        form::normalize_points_3d(marks, points)
    }

    fn proved_entry(&self, marks: &[f64], points: &mut [f64], place: u32) -> f64 {
        form::normalize_matrix(marks, points, place)
    }
}

/// Each place of the matrix and some past it; two of them for a long list.
fn places<P: Points>(random: &mut Random, marks: &[f64]) -> Vec<u32> {
    let entries = P::ENTRIES as u32;
    if marks.len() > 200 {
        return [0; 2]
            .map(|_| random.below(P::ENTRIES as u64 + 1) as u32)
            .to_vec();
    }
    (0..=entries).chain([u32::MAX]).collect()
}

/// Compares one, with the lent list and the matrix; tells the refusal or 0.
fn compare<P: Points>(points: &P, random: &mut Random, marks: &[f64], room: usize) -> u32 {
    let about = || format!("{marks:?}");
    let original = |lent: &mut [f64]| points.original(marks, lent);
    let answer = compare_lent(room, &about, original, |lent| points.proved(marks, lent));
    let number = answer.as_ref().err().copied().unwrap_or(0);
    let matrix = answer.unwrap_or(vec![0.0; P::ENTRIES]);
    for place in places::<P>(random, marks) {
        let mut entry = 0.0;
        let _ = compare_lent(room, &about, original, |lent| {
            entry = points.proved_entry(marks, lent, place);
            number
        });
        let expected = matrix.get(place as usize).copied().unwrap_or(f64::NAN);
        assert!(
            same(entry, expected),
            "place {place}, room {room}: {entry:e}, not {expected:e}; {marks:?}"
        );
    }
    number
}

fn of_a_sheet(sides: &[u32], test: impl FnOnce(&Entry)) {
    test(&Entry {
        title: "normalising",
        places: Side::COORDINATES,
        answers: &ANSWERS,
        compare: &|random, marks, room| compare(&Side(random.pick(sides)), random, marks, room),
    });
}

fn of_a_form(test: impl FnOnce(&Entry)) {
    test(&Entry {
        title: "normalising forms",
        places: World::COORDINATES,
        answers: &ANSWERS,
        compare: &|random, marks, room| compare(&World, random, marks, room),
    });
}

#[test]
fn traps_of_sheets() {
    for side in [0, 1, 2, u32::MAX] {
        of_a_sheet(&[side], |entry| {
            entry.traps::<Sheet>(&sheet_cases::all_traps())
        });
    }
}

#[test]
fn traps_of_forms() {
    of_a_form(|entry| entry.traps::<Form>(&form_cases::all_traps()));
}

#[test]
fn lists_of_sheets() {
    let sides = [0, 0, 1, 2, 1 << 31];
    of_a_sheet(&sides, |entry| entry.random_lists::<Sheet>(12, 60_000));
}

#[test]
fn lists_of_forms() {
    of_a_form(|entry| entry.random_lists::<Form>(71, 60_000));
}

/// 12 comes before 9, and both after 5, 6 and 18.
#[test]
fn order() {
    let random = &mut Random::new(73);
    let nan = f64::NAN;
    let lists: [(&[f64], u32); 5] = [
        (&[nan; 7], 5),
        (&[1.0, 1.0, nan, 1.0], 6),
        (&[], 12),
        (&[1.0; 8], 12),
        (&[0.0, 0.0, 1.0, 1.0, 1.0, 1.0, 0.0, 0.0], 9),
    ];
    for (marks, number) in lists {
        for side in [0, 1] {
            assert_eq!(compare(&Side(side), random, marks, 0), number);
        }
    }
    for (marks, number) in [
        (vec![nan; 29], 5),
        (vec![1.0; 8000 + Form::WIDTH], 5),
        (vec![nan; 25], 6),
        (vec![], 12),
        (vec![1.0; 30], 12),
        (vec![1.0; 8000], 12),
        (cube(2), 9),
    ] {
        assert_eq!(compare(&World, random, &marks, 0), number);
    }
    // A form's few marks are no refusal here.
    assert_eq!(compare(&World, random, &cube(2), 6), 0);
}
