//! Lists of squared distances with a threshold, and marks of any family to
//! measure.

use crate::cases::{NANS, Random, step};
use crate::family::Numbers;
use crate::family_cases::{self, Cases};
use crate::scoring::Limits;

/// Numbers that no distance's threshold or square usually is.
fn special(random: &mut Random) -> f64 {
    let nan = f64::from_bits(random.pick(&NANS));
    let below = -random.sized(0, 2046);
    random.pick(&[
        0.0,
        -0.0,
        nan,
        f64::INFINITY,
        f64::NEG_INFINITY,
        f64::MAX,
        step(f64::MAX, -1),
        -f64::MAX,
        5e-324,
        -5e-324,
        f64::MIN_POSITIVE,
        step(f64::MIN_POSITIVE, -1),
        -1.0,
        below,
    ])
}

/// The i-th threshold: usual, whole, of any size, subnormal, such that its
/// square vanishes or is subnormal or overflows, special, any pattern.
pub fn thresh(random: &mut Random, i: usize) -> f64 {
    match i % 16 {
        0..=4 => 0.01 + 10.0 * random.unit(),
        5 | 6 => random.from_to(1, 20) as f64,
        7 | 8 => random.sized(0, 2046),
        9 => random.sized(0, 0),
        10 | 11 => random.sized(482, 514),
        12 => random.sized(1531, 1538),
        13 | 14 => special(random),
        _ => random.pattern(),
    }
}

/// A square at or near the threshold's: up to 40 doubles off, at a limit or
/// next to it, or the square of a neighbour of the threshold.
fn near(random: &mut Random, thresh: f64) -> f64 {
    let limits = Limits::of(thresh);
    let by = random.from_to(-2, 2);
    match random.below(8) {
        0 => step(limits.low, by),
        1 => step(limits.high, by),
        2 => {
            let d = step(thresh, random.from_to(-3, 3));
            d * d
        }
        3..=5 => step(thresh * thresh, random.from_to(-9, 9)),
        _ => step(thresh * thresh, random.from_to(-40, 40)),
    }
}

/// A square that the limits settle, where there are any.
fn clear(random: &mut Random, thresh: f64) -> f64 {
    let by = random.pick(&[0.5, 0.5, 0.999, 1.001, 40.0, 1e6]) * random.unit();
    let square = thresh * thresh * by;
    let limits = Limits::of(thresh);
    if limits.is_between(square) {
        0.0
    } else {
        square
    }
}

fn any(random: &mut Random, thresh: f64) -> f64 {
    match random.below(8) {
        0 => special(random),
        1 => random.pattern(),
        2 => random.sized(0, 2046),
        3 => random.sized(0, 0),
        4 => clear(random, thresh),
        _ => near(random, thresh),
    }
}

/// How many squares the i-th list has: mostly few, and now and then up to
/// 2,000 or some over.
fn length(random: &mut Random, i: usize) -> usize {
    match i % 512 {
        0 => 2000,
        128 => random.from_to(2001, 2100) as usize,
        256 | 384 => random.from_to(13, 1999) as usize,
        _ => random.below(13) as usize,
    }
}

/// The i-th list: settled by the limits, all but one or two, near the
/// threshold's square, or of any numbers.
pub fn squares(random: &mut Random, i: usize, thresh: f64) -> Vec<f64> {
    let kind = random.below(8);
    let len = length(random, i);
    let make = |random: &mut Random| match kind {
        0..=2 => clear(random, thresh),
        3 => near(random, thresh),
        _ => any(random, thresh),
    };
    let mut list: Vec<f64> = (0..len).map(|_| make(random)).collect();
    if kind == 2 && len > 0 {
        for _ in 0..random.from_to(1, 2) {
            let place = random.below(len as u64) as usize;
            list[place] = near(random, thresh);
        }
    }
    list
}

/// A number to be below: the rms, the least that it is told to be by all
/// squares or by a part, all with their neighbours, or between them, or
/// anything.
pub fn best(random: &mut Random, rms: f64, least: f64, part: f64) -> f64 {
    match random.below(9) {
        0 => rms,
        1 => step(rms, random.pick(&[-1, 1])),
        2 => least,
        3 => step(least, random.pick(&[-1, 1])),
        4 => rms - (rms - least) * random.unit(),
        5 => rms * (0.5 + random.unit()),
        6 => step(rms, random.from_to(-40, 40)),
        7 => step(part, random.from_to(-2, 2)),
        _ => special(random),
    }
}

/// A count: the right one, one beside it, or none of these.
pub fn count(random: &mut Random, right: usize) -> u32 {
    let right = right as u32;
    let any = random.word() as u32;
    match random.below(4) {
        0 => random.pick(&[0, 1, u32::MAX, any, right + 1, right.wrapping_sub(1)]),
        _ => right,
    }
}

// Marks to measure.

/// The i-th list of marks, whose numbers are whole where a horizon runs
/// through them, a model, and what they are measured by; the list may end in a
/// part of a mark.
pub fn measured<F: Cases>(random: &mut Random, i: usize) -> (F, F::Model, Vec<f64>) {
    let n = match i % 256 {
        0 => F::MOST,
        128 => random.from_to(13, F::MOST as i64 - 1) as usize,
        _ => random.below(13) as usize,
    };
    let numbers = F::WIDTH * n;
    let mut marks = match i % 4 {
        0 => (0..numbers).map(|_| random.from_to(-4, 4) as f64).collect(),
        1 => (0..numbers).map(|_| pattern(random)).collect(),
        _ => F::few_marks(random, i / 4, n),
    };
    if random.below(8) == 0 {
        let part = random.from_to(1, F::WIDTH as i64 - 1) as usize;
        marks.resize(numbers + part, 1.5);
    }
    let family = match i % 4 {
        1 => F::any(random),
        _ => F::accepted(random),
    };
    let model = match i % 4 {
        0 => horizon::<F>(random),
        1 => F::Model::from_fn(|_| pattern(random)),
        _ => {
            let kind = random.below(40) as usize;
            family_cases::distance(random, &family, kind).0
        }
    };
    (family, model, marks)
}

/// A model whose s is whole at whole numbers: 0, -0, negative or positive.
fn horizon<F: Cases>(random: &mut Random) -> F::Model {
    let mut h = F::Model::from_fn(|_| random.from_to(-3, 3) as f64);
    if random.below(4) == 0 {
        let last_row = &mut h.as_mut()[2 * F::ROW..];
        last_row.fill(-0.0);
        last_row[0] = random.pick(&[0.0, -0.0]);
    }
    h
}

/// Any bit pattern, special or of a usual size.
fn pattern(random: &mut Random) -> f64 {
    match random.below(4) {
        0 => special(random),
        1 => random.sign() * random.sized(1000, 1040),
        2 => random.from_to(-3, 3) as f64,
        _ => random.pattern(),
    }
}
