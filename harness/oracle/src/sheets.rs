//! A fixed sample of the sheet entries' answers, as records that a program
//! can replay without Rust.
//!
//! A record is 128 little-endian words of 64 bits:
//!
//! | words | what |
//! |---|---|
//! | 0 | the kind: 1 normalising, 2 collinear, 3 rows, 4 distance |
//! | 1 | the side: 0 sheet, 1 pixel; 0 for kinds 3 and 4 |
//! | 2 | how many numbers the input has: 0 to 20; 14 for kind 4 |
//! | 3 | the lent list's length: 0 to 91; 0 for kinds 2 and 4 |
//! | 4 | the refusal's number, 0 for none |
//! | 5 to 24 | the input: marks, or for kind 4 the model h0 to h8, then x, y, u, v, then the row ratio |
//! | 25 to 115 | the lent list after the call; before it every place holds 7.0 |
//! | 116 to 124 | kind 1: the matrix, row after row; kind 2 at 116: 0 no, 1 yes; kind 4 at 116: the distance, at 117: 1 where the mark is beyond, with 116 zero, else 0 |
//! | 125 to 127 | zero |
//!
//! Floats are bit patterns, every NaN 7ff8000000000000; what is left is zero,
//! and so are words 116 to 124 on a refusal. No random list is in it with a
//! point so near the limit of closeness that the platform's `hypot` matters.

use crate::cases::Random;
use crate::double_cases;
use crate::entries;
use crate::family_cases;
use crate::ratio_cases;
use crate::records::{bits, floats, put};
use crate::sheet_cases::{
    self, SQUARE, both, distance_traps, line_traps, ratio_traps, refused_traps, spread_traps,
    usual_traps,
};
use crate::{Mark, Measure, Model, Sheet};

pub type Record = [u64; 128];

/// The file, below crates/.
pub const FILE: &str = "replay_sheet/data/sheets.bin";

/// How many records of each kind, but for the lists whose sides differ.
const EACH: usize = 50;
/// How many lists of each kind whose sides differ in their answers, and how
/// many random distances by a ratio.
const DIFFERENT: usize = 10;
/// What a lent list holds before the call.
const BEFORE: f64 = 7.0;

const INPUT: usize = 5;
const LENT: usize = 25;
const ANSWER: usize = 116;
const BEYOND: usize = 117;

/// All records, in the order of the file.
pub fn records() -> Vec<Record> {
    let random = &mut Random::new(10);
    let mut list = normalisings(random);
    list.extend(collinears(random));
    list.extend(rows(random));
    list.extend(distances(random));
    list
}

/// These trap lists between the usual and the refused ones.
fn traps(special: Vec<Vec<f64>>) -> Vec<Vec<f64>> {
    let refused = refused_traps().into_iter().map(|(marks, _)| marks);
    [usual_traps(), special, refused.collect()].concat()
}

/// A random list of three to five marks with no point some 1e-9 from the first.
fn some_marks(random: &mut Random, i: usize) -> Vec<f64> {
    loop {
        let n = random.from_to(3, 5) as usize;
        let marks = sheet_cases::few_marks(random, i, n);
        if !at_the_limit(&marks, 0) && !at_the_limit(&marks, 1) {
            return marks;
        }
    }
}

/// Random lists of which `wanted` holds.
fn chosen(random: &mut Random, wanted: impl Fn(&[f64]) -> bool) -> Vec<Vec<f64>> {
    let mut list = Vec::new();
    let mut i = 0;
    while list.len() < DIFFERENT {
        let marks = some_marks(random, i);
        if wanted(&marks) {
            list.push(marks);
        }
        i += 1;
    }
    list
}

/// Whether both sides normalise, to different matrices.
fn differently_spread(marks: &[f64]) -> bool {
    let lent = &mut [0.0; 10];
    let sheet = entries::normalize(marks, 0, lent);
    let pixel = entries::normalize(marks, 1, lent);
    sheet.is_ok() && pixel.is_ok() && sheet != pixel
}

fn one_side_collinear(marks: &[f64]) -> bool {
    entries::collinear(marks, 0) != entries::collinear(marks, 1)
}

/// What the rows answer, with room enough.
fn rows_refused_by(marks: &[f64]) -> u32 {
    entries::rows(marks, &mut [0.0; 90]).err().unwrap_or(0)
}

fn at_the_limit(marks: &[f64], side: u32) -> bool {
    let list = entries::side_of(marks, side);
    list.iter().any(|p| {
        let (dx, dy) = (p[0] - list[0][0], p[1] - list[0][1]);
        let apart = (dx * dx + dy * dy).sqrt();
        0.999e-9 < apart && apart < 1.001e-9
    })
}

/// The square with rooms that fit and don't, each trap with room to spare, and
/// random lists with any room.
fn normalisings(random: &mut Random) -> Vec<Record> {
    let mut list = vec![
        of_normalising(&both(&SQUARE), 0, 8),
        of_normalising(&both(&SQUARE), 1, 7),
        of_normalising(&both(&SQUARE), 0, 0),
        // 12 comes before 9.
        of_normalising(&both(&[[1.0, 1.0]; 4]), 0, 0),
    ];
    for (i, marks) in traps(spread_traps()).into_iter().enumerate() {
        list.push(of_normalising(&marks, i as u64 % 2, marks.len() / 2 + 1));
    }
    for i in list.len()..EACH {
        let marks = some_marks(random, i);
        let room = sheet_cases::room(random, marks.len() / 2);
        list.push(of_normalising(&marks, i as u64 % 2, room));
    }
    for marks in chosen(random, differently_spread) {
        list.push(of_normalising(&marks, 0, marks.len() / 2 + 1));
        list.push(of_normalising(&marks, 1, marks.len() / 2));
    }
    for marks in double_cases::few::<Sheet>() {
        list.push(of_normalising(&marks, 0, marks.len() / 2 + 1));
        list.push(of_normalising(&marks, 1, 0));
    }
    list
}

fn collinears(random: &mut Random) -> Vec<Record> {
    let mut list = Vec::new();
    for (i, marks) in traps(line_traps()).into_iter().enumerate() {
        list.push(of_collinear(&marks, i as u64 % 2));
    }
    for i in list.len()..EACH {
        list.push(of_collinear(&some_marks(random, i), i as u64 % 2));
    }
    for marks in chosen(random, one_side_collinear) {
        list.push(of_collinear(&marks, 0));
        list.push(of_collinear(&marks, 1));
    }
    for marks in double_cases::few::<Sheet>() {
        list.push(of_collinear(&marks, 0));
        list.push(of_collinear(&marks, 1));
    }
    list
}

/// As for normalising; 91 places are one more than five marks need.
fn rows(random: &mut Random) -> Vec<Record> {
    let mut list = vec![
        of_rows(&both(&SQUARE), 72),
        of_rows(&both(&SQUARE), 71),
        of_rows(&both(&SQUARE), 0),
        // 7 comes before 9.
        of_rows(&both(&SQUARE[..3]), 0),
    ];
    for marks in traps(line_traps()) {
        list.push(of_rows(&marks, marks.len() / 4 * 18 + 1));
    }
    for i in list.len()..EACH {
        let marks = some_marks(random, i);
        let room = sheet_cases::room(random, marks.len() / 4 * 18);
        list.push(of_rows(&marks, room.min(91)));
    }
    for marks in chosen(random, |marks| rows_refused_by(marks) == 0) {
        list.push(of_rows(&marks, marks.len() / 4 * 18));
    }
    for marks in chosen(random, |marks| rows_refused_by(marks) == 14) {
        list.push(of_rows(&marks, 91));
    }
    for marks in double_cases::few::<Sheet>() {
        list.push(of_rows(&marks, 91));
        list.push(of_rows(&marks, 0));
    }
    list
}

/// Those of ratio 1, and then those by a ratio.
fn distances(random: &mut Random) -> Vec<Record> {
    let mut pairs = distance_traps();
    for i in pairs.len()..EACH {
        pairs.push(family_cases::distance(random, &Sheet, i));
    }
    let mut list: Vec<_> = pairs.into_iter().map(|(h, mark)| (h, mark, 1.0)).collect();
    list.extend(ratio_traps());
    for i in 0..DIFFERENT {
        let (h, mark) = family_cases::distance(random, &Sheet, i);
        list.push((h, mark, ratio_cases::accepted(random)));
    }
    let records = list.iter().map(|(h, mark, by)| of_distance(h, mark, *by));
    records.collect()
}

/// A record up to its input.
fn record(kind: u64, side: u64, input: &[f64]) -> Record {
    assert!(input.len() <= LENT - INPUT);
    let mut record = [0; 128];
    record[..3].copy_from_slice(&[kind, side, input.len() as u64]);
    put(&mut record, INPUT, input);
    record
}

/// Adds the lent list after the call.
fn put_lent(record: &mut Record, lent: &[f64]) {
    assert!(lent.len() <= ANSWER - LENT);
    record[3] = lent.len() as u64;
    put(record, LENT, lent);
}

fn of_normalising(marks: &[f64], side: u64, room: usize) -> Record {
    let mut record = record(1, side, marks);
    let mut lent = vec![BEFORE; room];
    match entries::normalize(marks, side as u32, &mut lent) {
        Ok(matrix) => put(&mut record, ANSWER, matrix.as_flattened()),
        Err(number) => record[4] = number.into(),
    }
    put_lent(&mut record, &lent);
    record
}

fn of_collinear(marks: &[f64], side: u64) -> Record {
    let mut record = record(2, side, marks);
    match entries::collinear(marks, side as u32) {
        Ok(answer) => record[ANSWER] = answer.into(),
        Err(number) => record[4] = number.into(),
    }
    record
}

fn of_rows(marks: &[f64], room: usize) -> Record {
    let mut record = record(3, 0, marks);
    let mut lent = vec![BEFORE; room];
    if let Err(number) = entries::rows(marks, &mut lent) {
        record[4] = number.into();
    }
    put_lent(&mut record, &lent);
    record
}

fn of_distance(h: &Model, mark: &Mark, ratio: f64) -> Record {
    let mut record = record(4, 0, &[h.as_slice(), mark, &[ratio]].concat());
    match entries::distance(&Sheet, h, mark, ratio) {
        Ok(Measure::Distance(number)) => record[ANSWER] = bits(number),
        Ok(Measure::Beyond) => record[BEYOND] = 1,
        Err(number) => record[4] = number.into(),
    }
    record
}

/// One record as a line to read.
pub fn line(record: &Record) -> String {
    let floats = |from, count| floats(record, from, count);
    let kind = ["normalising", "collinear", "rows", "distance"][record[0] as usize - 1];
    let side = match record[..2] {
        [1 | 2, 0] => " sheet",
        [1 | 2, _] => " pixel",
        _ => "",
    };
    let answer = match (record[4], record[0]) {
        (0, 1) => format!("gives the matrix {}", floats(ANSWER, 9)),
        (0, 2) => format!("is {}", record[ANSWER]),
        (0, 3) => "gives".to_string(),
        (0, _) if record[BEYOND] == 1 => "is beyond".to_string(),
        (0, _) => format!("is {}", floats(ANSWER, 1)),
        (number, _) => format!("refused {number}"),
    };
    let lent = match record[0] {
        1 | 3 => format!(" and leaves [{}]", floats(LENT, record[3])),
        _ => String::new(),
    };
    format!(
        "{kind}{side} of [{}] {answer}{lent}",
        floats(INPUT, record[2])
    )
}
