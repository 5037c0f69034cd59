//! Numbers to write records of, and records to read: limits by rule, and
//! random ones.

use crate::Mark;
use crate::book::SHORT_OPTIONS_BYTES;
use crate::cases::{NANS, Random, step};
use crate::ratio_cases;
use crate::writing::{OptionsNumbers, TrialNumbers, packed_mark};

/// The numbers at which a test turns, with their neighbours, and those
/// that are easily lost: NaNs of several patterns, both zeros, subnormals.
pub fn limits() -> Vec<f64> {
    let mut list = NANS.map(f64::from_bits).to_vec();
    for x in [
        0.0,
        5e-324,
        step(f64::MIN_POSITIVE, -1),
        f64::MIN_POSITIVE,
        0.5,
        step(1.0, -1),
        1.0,
        step(1.0, 1),
        step(1e9, -1),
        1e9,
        step(1e9, 1),
        f64::MAX,
        f64::INFINITY,
    ] {
        list.extend([x, -x]);
    }
    list
}

/// The most iterations.
pub const ITERS: [u32; 8] = [0, 1, 2, 65_536, 99_999, 100_000, 100_001, u32::MAX];

/// A byte for a mark.
pub const MARKS: [u8; 4] = [0, 1, 2, 255];

/// How many numbers a list has.
pub const COUNTS: [usize; 5] = [0, 8, 9, 10, 18];

/// Lengths of an output for a record that needs so many bytes.
pub fn rooms(need: usize) -> [usize; 5] {
    [need, need - 1, 0, need + 1, need + 40]
}

// Random numbers.

/// A usual number most of the time, else one of the limits or any pattern.
fn mostly(random: &mut Random, usual: f64) -> f64 {
    match random.below(16) {
        0 => random.pick(&limits()),
        1 => random.pattern(),
        _ => usual,
    }
}

pub fn options(random: &mut Random) -> OptionsNumbers {
    let thresh = match random.below(4) {
        0 => random.sized(0, 2046),
        _ => 0.01 + 10.0 * random.unit(),
    };
    let confidence = random.unit();
    let ratio = ratio_cases::accepted(random);
    OptionsNumbers {
        thresh: mostly(random, thresh),
        confidence: mostly(random, confidence),
        max_iters: match random.below(8) {
            0 => random.pick(&ITERS),
            1 => random.word() as u32,
            _ => random.from_to(1, 100_000) as u32,
        },
        min_inliers: random.word() as u32 >> random.below(32),
        refit_mark: match random.below(12) {
            0 => random.word() as u8,
            _ => random.below(2) as u8,
        },
        ratio: match random.below(16) {
            0 => random.pick(&ratio_cases::limits()),
            1 => random.pattern(),
            _ => ratio,
        },
    }
}

pub fn mark(random: &mut Random) -> Mark {
    [0; 4].map(|_| {
        let usual = match random.below(4) {
            0 => random.sign() * random.sized(0, 1051),
            1 => random.from_to(-2000, 2000) as f64,
            _ => 2e9 * (random.unit() - 0.5),
        };
        mostly(random, usual)
    })
}

/// Nine numbers as their mark wants them.
fn nine(random: &mut Random, marked: bool) -> Vec<f64> {
    let kind = random.below(3);
    let one = |random: &mut Random| match kind {
        _ if !marked => 0.0,
        0 => random.from_to(-3, 3) as f64,
        1 => random.sign() * random.sized(0, 2046),
        _ => random.pattern(),
    };
    (0..9).map(|_| one(random)).collect()
}

/// A trial that is to be written, or has one or two things wrong.
pub fn trial(random: &mut Random) -> TrialNumbers {
    let (fit_mark, refit_mark) = random.pick(&[(0, 0), (1, 0), (1, 1), (1, 1)]);
    let mut numbers = TrialNumbers {
        fit_mark,
        refit_mark,
        fit: nine(random, fit_mark == 1),
        refit: nine(random, refit_mark == 1),
    };
    for _ in 0..random.pick(&[0, 0, 0, 1, 1, 2]) {
        change_trial(random, &mut numbers);
    }
    numbers
}

/// Another mark, list or number; not always a refused one.
fn change_trial(random: &mut Random, numbers: &mut TrialNumbers) {
    let [first, second] = match random.below(2) {
        0 => [&mut numbers.fit, &mut numbers.refit],
        _ => [&mut numbers.refit, &mut numbers.fit],
    };
    match random.below(8) {
        0 => numbers.fit_mark = random.pick(&MARKS),
        1 => numbers.refit_mark = random.pick(&MARKS),
        2 => first.resize(random.pick(&COUNTS), random.pick(&[0.0, 1.5])),
        // Eight and ten: the bytes are still as many.
        3 => second.extend(first.pop()),
        _ if first.is_empty() => {}
        kind => {
            let place = random.below(first.len() as u64) as usize;
            first[place] = match kind {
                4 => random.pattern(),
                _ => random.pick(&limits()),
            };
        }
    }
}

// Random records.

/// The bytes as they are, with one to three bits changed, all of them random,
/// or of another length.
fn changed(random: &mut Random, mut bytes: Vec<u8>) -> Vec<u8> {
    let bits = 8 * bytes.len() as u64;
    match random.below(16) {
        0 => bytes
            .iter_mut()
            .for_each(|byte| *byte = random.word() as u8),
        1 => bytes.resize(random.pick(&[0, 31, 33, 39, 41, 64, 151, 153]), 0),
        2..=8 => {
            for _ in 0..random.from_to(1, 3) {
                let bit = random.below(bits);
                bytes[(bit / 8) as usize] ^= 1 << (bit % 8);
            }
        }
        _ => {}
    }
    bytes
}

/// With a ratio, or now and then cut before it.
pub fn options_record(random: &mut Random) -> Vec<u8> {
    let mut bytes = options(random).packed();
    if random.below(4) == 0 {
        bytes.truncate(SHORT_OPTIONS_BYTES);
    }
    changed(random, bytes)
}

pub fn trial_record(random: &mut Random) -> Vec<u8> {
    let bytes = trial(random).packed();
    changed(random, bytes)
}

/// Always 32 bytes: a mark by itself has no refusal for its length.
pub fn mark_record(random: &mut Random) -> Vec<u8> {
    let bytes = packed_mark(&mark(random));
    let mut bytes = changed(random, bytes);
    bytes.resize(32, 0);
    bytes
}
