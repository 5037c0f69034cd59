//! The writers of records, beside plain Rust that makes the same tests and
//! copies the same bytes: the source has no writer.

use crate::{ROUNDS, median, nanoseconds};
use oracle::cases::Random;
use std::hint::black_box;

const RECORDS: usize = 1000;

/// Copies numbers into a record, eight bytes each, from a byte on.
fn put(record: &mut [u8], from: usize, numbers: &[f64]) {
    let places = record[from..].as_chunks_mut().0;
    for (place, x) in places.iter_mut().zip(numbers) {
        *place = x.to_le_bytes();
    }
}

#[inline(never)]
fn plain_mark(numbers: &[f64; 4], out: &mut [u8]) -> u32 {
    if !numbers.iter().all(|x| x.abs() <= 1e9) {
        return 6;
    }
    if out.len() < 32 {
        return 9;
    }
    put(&mut out[..32], 0, numbers);
    0
}

#[inline(never)]
fn plain_trial(marks: [u8; 2], models: [&[f64]; 2], out: &mut [u8]) -> u32 {
    let sound = |mark: u8, numbers: &[f64]| match mark {
        0 => numbers.iter().all(|x| x.to_bits() == 0),
        1 => numbers.iter().all(|x| x.is_finite()),
        _ => false,
    };
    let nine = models.iter().all(|model| model.len() == 9);
    if !nine || marks[0] < marks[1] || !(0..2).all(|k| sound(marks[k], models[k])) {
        return 1;
    }
    if out.len() < 152 {
        return 9;
    }
    out[..8].copy_from_slice(&[marks[0], marks[1], 0, 0, 0, 0, 0, 0]);
    put(&mut out[..152], 8, models[0]);
    put(&mut out[..152], 80, models[1]);
    0
}

/// Times the two in turn over all records, and prints them with their ratio.
fn compare(title: &str, mut proved: impl FnMut(), mut plain: impl FnMut()) {
    let mut times = [const { Vec::new() }; 2];
    for _ in 0..ROUNDS {
        times[0].push(nanoseconds(200, &mut proved));
        times[1].push(nanoseconds(200, &mut plain));
    }
    let [p, r] = times.map(|list| median(list) / RECORDS as f64);
    println!("{title:<19} {p:>9.1} {r:>11.1} {:>13.2}", p / r);
}

pub fn run() {
    let random = &mut Random::new(8);
    let marks: Vec<[f64; 4]> = (0..RECORDS)
        .map(|_| [0; 4].map(|_| random.unit()))
        .collect();
    let models: Vec<[f64; 9]> = (0..RECORDS)
        .map(|_| [0; 9].map(|_| random.unit()))
        .collect();
    let mut ours = vec![0; 152];
    let mut theirs = vec![0; 152];
    println!("ns a record written proved  plain Rust  proved/plain");
    compare(
        "mark",
        || {
            for mark in &marks {
                black_box(proved::writing::write_mark(black_box(mark), &mut ours));
            }
        },
        || {
            for mark in &marks {
                black_box(plain_mark(black_box(mark), &mut theirs));
            }
        },
    );
    assert_eq!(ours, theirs);
    compare(
        "trial with a refit",
        || {
            for h in &models {
                black_box(proved::writing::write_trial(
                    1,
                    1,
                    black_box(h),
                    h,
                    &mut ours,
                ));
            }
        },
        || {
            for h in &models {
                black_box(plain_trial([1, 1], [black_box(h), h], &mut theirs));
            }
        },
    );
    assert_eq!(ours, theirs);
}
