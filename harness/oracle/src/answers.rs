//! A fixed sample of the oracle's answers, as records that a program can
//! replay without Rust.
//!
//! A record is twelve little-endian words of 64 bits:
//!
//! | kind | words after the kind |
//! |---|---|
//! | 1 root | a, refusal (0 or 15), y or 0 |
//! | 2 quadratic | a, b, c, count (0, 1, 2) or 15, first root, second root (0 for none) |
//! | 3 rank | cols, null, tolerance, length, six values, 0 or 1 |
//! | 4 finite | 0, 0, 0, length, six values, 0 or 1 |
//!
//! Floats are bit patterns, every NaN 7ff8000000000000; what is left is zero.

use crate::cases::{self, Coefficients, Random, Rank};
use crate::records::{bits, floats, put};
use crate::{dlt_rank_ok, ensure_finite, quadratic, root};

pub type Record = [u64; 12];

/// The file, below crates/.
pub const FILE: &str = "replay/data/answers.bin";

const ROOTS: usize = 400;
const QUADRATICS: usize = 400;
const RANKS: usize = 200;
const FINITES: usize = 50;

/// All records, in the order of the file.
pub fn records() -> Vec<Record> {
    let random = &mut Random::new(1);
    let mut list = Vec::new();

    let mut roots = cases::root_traps();
    roots.extend(cases::root_limits().iter().step_by(61));
    for i in roots.len()..ROOTS {
        roots.push(cases::root(random, i));
    }
    list.extend(roots.into_iter().map(of_root));

    let mut quadratics = cases::quadratic_traps();
    quadratics.extend(cases::quadratic_limits().iter().step_by(347));
    for i in quadratics.len()..QUADRATICS {
        quadratics.push(cases::quadratic(random, i));
    }
    list.extend(quadratics.into_iter().map(of_quadratic));

    let mut ranks = cases::rank_traps();
    ranks.resize_with(RANKS, || cases::rank(random));
    list.extend(ranks.iter().map(of_rank));

    let mut finites = cases::finite_traps();
    finites.resize_with(FINITES, || cases::finite(random, 6));
    list.extend(finites.iter().map(|values| of_finite(values)));
    list
}

fn of_root(a: f64) -> Record {
    let mut record = [0; 12];
    record[..2].copy_from_slice(&[1, bits(a)]);
    match root(a) {
        Ok(y) => record[3] = bits(y),
        Err(number) => record[2] = number.into(),
    }
    record
}

fn of_quadratic([a, b, c]: Coefficients) -> Record {
    let mut record = [0; 12];
    record[..4].copy_from_slice(&[2, bits(a), bits(b), bits(c)]);
    match quadratic(a, b, c) {
        Ok(roots) => {
            record[4] = roots.len() as u64;
            for (place, r) in roots.into_iter().enumerate() {
                record[5 + place] = bits(r);
            }
        }
        Err(number) => record[4] = number.into(),
    }
    record
}

fn of_rank(rank: &Rank) -> Record {
    let Rank {
        values,
        cols,
        null,
        tolerance,
    } = rank;
    let mut record = [0; 12];
    record[..4].copy_from_slice(&[3, *cols as u64, *null as u64, bits(*tolerance)]);
    put_values(&mut record, values);
    record[11] = dlt_rank_ok(values, *cols, *null, *tolerance).into();
    record
}

fn of_finite(values: &[f64]) -> Record {
    let mut record = [0; 12];
    record[0] = 4;
    put_values(&mut record, values);
    record[11] = ensure_finite(values).into();
    record
}

fn put_values(record: &mut Record, values: &[f64]) {
    record[4] = values.len() as u64;
    put(record, 5, values);
}

/// One record as a line to read.
pub fn line(record: &Record) -> String {
    let float = |place: usize| format!("{:e}", f64::from_bits(record[place]));
    let floats = |from, count| floats(record, from, count);
    match record[0] {
        1 if record[2] == 0 => format!("root {} is {}", float(1), float(3)),
        1 => format!("root {} refused {}", float(1), record[2]),
        2 if record[4] == 15 => format!("quadratic {} refused 15", floats(1, 3)),
        2 => format!(
            "quadratic {} has {}: {}",
            floats(1, 3),
            record[4],
            floats(5, record[4])
        ),
        3 => format!(
            "rank cols {} null {} tolerance {} of [{}] is {}",
            record[1],
            record[2],
            float(3),
            floats(5, record[4]),
            record[11]
        ),
        _ => format!("finite [{}] is {}", floats(5, record[4]), record[11]),
    }
}
