//! A fixed sample of the form entries' answers, as records that a program can
//! replay without Rust.
//!
//! A record is 256 little-endian words of 64 bits:
//!
//! | words | what |
//! |---|---|
//! | 0 | the kind: 1 normalising, 2 rows, 3 distance, 4 measuring |
//! | 1 | how many numbers the marks have: 0 to 37; 5 for kind 3 |
//! | 2 | the lent list's length: 0 to 169; 0 for kind 3 |
//! | 3 | the refusal's number, 0 for none |
//! | 4 to 20 | kinds 3 and 4: the model's twelve numbers, the camera's four, the row ratio |
//! | 21 to 57 | the marks |
//! | 58 to 226 | the lent list after the call; before it every place holds 7.0 |
//! | 227 to 242 | kind 1: the matrix, row after row; kind 3 at 227: the distance, at 228: 1 where the mark is beyond, with 227 zero, else 0; kind 4 at 227: how many marks are beyond |
//!
//! Floats are bit patterns, every NaN 7ff8000000000000; what is left is zero,
//! and so are words 227 to 242 on a refusal.

use crate::cases::Random;
use crate::double_cases;
use crate::entries;
use crate::family_cases::{self, Cases};
use crate::form_cases::{self, cube, distance_traps};
use crate::ratio_cases;
use crate::records::{bits, floats, put};
use crate::{Camera, Family, Form, FormMark, Measure, Numbers, Pose};

pub type Record = [u64; 256];

/// The file, below crates/.
pub const FILE: &str = "replay_form/data/forms.bin";

/// How many random inputs of each kind.
const EACH: usize = 30;
/// The most numbers of a list of marks.
const MOST: usize = 37;
/// What a lent list holds before the call.
const BEFORE: f64 = 7.0;

const MODEL: usize = 4;
const MARKS: usize = 21;
const LENT: usize = 58;
const ANSWER: usize = 227;
const BEYOND: usize = 228;

/// All records, in the order of the file.
pub fn records() -> Vec<Record> {
    let random = &mut Random::new(11);
    let lists = lists(random);
    let mut list: Vec<_> = lists
        .iter()
        .map(|(marks, spare)| of_normalising(marks, *spare))
        .collect();
    list.extend(lists.iter().map(|(marks, spare)| of_rows(marks, *spare)));
    list.extend(distances(random));
    list.extend(measurings(random));
    list
}

/// Short lists of marks, every third of the traps among them and some that clash,
/// and how many places more than they need are lent: one less where it is −1.
fn lists(random: &mut Random) -> Vec<(Vec<f64>, isize)> {
    let mut list: Vec<_> = form_cases::traps()
        .into_iter()
        .filter(|marks| marks.len() <= MOST)
        .step_by(3)
        .map(|marks| (marks, 1))
        .collect();
    list.push((cube(7), 0));
    list.push((cube(7), -1));
    list.push((cube(6), -1));
    for i in 0..EACH {
        let n = random.from_to(5, 7) as usize;
        list.push((
            Form::few_marks(random, i, n),
            random.from_to(0, 2) as isize - 1,
        ));
    }
    for marks in double_cases::few::<Form>() {
        list.push((marks.clone(), 0));
        list.push((marks, -1));
    }
    list
}

/// The places that so many marks need, a spare one more or one less, and none
/// where they need none.
fn room(need: usize, spare: isize) -> usize {
    need.saturating_add_signed(spare)
}

fn distances(random: &mut Random) -> Vec<Record> {
    let usual = form_cases::USUAL;
    let mut list: Vec<(Pose, FormMark, Camera, f64)> = distance_traps()
        .into_iter()
        .map(|(h, mark)| (h, mark, usual, 1.0))
        .collect();
    for i in 0..EACH {
        let family = Form::accepted(random);
        let (h, mark) = family_cases::distance(random, &family, i);
        list.push((h, mark, family.camera, ratio_cases::accepted(random)));
        list.push((h, mark, form_cases::refused_camera(random), 1.0));
        list.push((h, mark, usual, random.pick(&[0.0, f64::NAN, 101.0])));
    }
    let records = list
        .iter()
        .map(|(h, mark, camera, by)| of_distance(h, mark, *camera, *by));
    records.collect()
}

/// By any numbers at all.
fn measurings(random: &mut Random) -> Vec<Record> {
    let mut list = Vec::new();
    for i in 0..EACH {
        let family = Form::any(random);
        let (h, _) = family_cases::distance(random, &family, i);
        let n = random.from_to(1, 7) as usize;
        let marks = Form::few_marks(random, i, n);
        let spare = random.from_to(0, 2) as isize - 1;
        list.push(of_measuring(
            &h,
            &marks,
            family,
            ratio_cases::accepted(random),
            spare,
        ));
    }
    list
}

/// A record up to its marks.
fn record(kind: u64, marks: &[f64]) -> Record {
    assert!(marks.len() <= LENT - MARKS);
    let mut record = [0; 256];
    record[..2].copy_from_slice(&[kind, marks.len() as u64]);
    put(&mut record, MARKS, marks);
    record
}

/// What a mark is measured by.
fn put_measure(record: &mut Record, h: &Pose, camera: Camera, ratio: f64) {
    put(record, MODEL, &[h.as_slice(), &camera, &[ratio]].concat());
}

/// Adds the lent list after the call.
fn put_lent(record: &mut Record, lent: &[f64]) {
    assert!(lent.len() <= ANSWER - LENT);
    record[2] = lent.len() as u64;
    put(record, LENT, lent);
}

fn of_normalising(marks: &[f64], spare: isize) -> Record {
    let mut record = record(1, marks);
    let mut lent = vec![BEFORE; room(marks.len() / Form::WIDTH * 3, spare)];
    match entries::normalize_form(marks, &mut lent) {
        Ok(matrix) => put(&mut record, ANSWER, matrix.as_flattened()),
        Err(number) => record[3] = number.into(),
    }
    put_lent(&mut record, &lent);
    record
}

fn of_rows(marks: &[f64], spare: isize) -> Record {
    let mut record = record(2, marks);
    let mut lent = vec![BEFORE; room(marks.len() / Form::WIDTH * 24, spare)];
    if let Err(number) = entries::rows_form(marks, &mut lent) {
        record[3] = number.into();
    }
    put_lent(&mut record, &lent);
    record
}

fn of_distance(h: &Pose, mark: &FormMark, camera: Camera, ratio: f64) -> Record {
    let mut record = record(3, mark);
    put_measure(&mut record, h, camera, ratio);
    match entries::distance(&Form { camera }, h, mark, ratio) {
        Ok(Measure::Distance(number)) => record[ANSWER] = bits(number),
        Ok(Measure::Beyond) => record[BEYOND] = 1,
        Err(number) => record[3] = number.into(),
    }
    record
}

fn of_measuring(h: &Pose, marks: &[f64], family: Form, ratio: f64, spare: isize) -> Record {
    let mut record = record(4, marks);
    put_measure(&mut record, h, family.camera, ratio);
    let (list, _) = FormMark::chunks(marks);
    let mut lent = vec![BEFORE; room(list.len(), spare)];
    if let Some(front) = lent.get_mut(..list.len()) {
        for (place, mark) in front.iter_mut().zip(list) {
            *place = family.squared(h, mark, ratio);
        }
        record[ANSWER] = list.iter().filter(|mark| Form::beyond(h, mark)).count() as u64;
    }
    put_lent(&mut record, &lent);
    record
}

/// One record as a line to read.
pub fn line(record: &Record) -> String {
    let floats = |from, count| floats(record, from, count);
    let kind = ["normalising", "rows", "distance", "measuring"][record[0] as usize - 1];
    let by = match record[0] {
        3 | 4 => format!(" by [{}]", floats(MODEL, 17)),
        _ => String::new(),
    };
    let answer = match (record[3], record[0]) {
        (0, 1) => format!("gives the matrix {}", floats(ANSWER, 16)),
        (0, 2) => "gives".to_string(),
        (0, 4) => format!("has {} beyond", record[ANSWER]),
        (0, _) if record[BEYOND] == 1 => "is beyond".to_string(),
        (0, _) => format!("is {}", floats(ANSWER, 1)),
        (number, _) => format!("refused {number}"),
    };
    let lent = match record[0] {
        3 => String::new(),
        _ => format!(" and leaves [{}]", floats(LENT, record[2])),
    };
    format!(
        "{kind} of [{}]{by} {answer}{lent}",
        floats(MARKS, record[1])
    )
}
