//! Row ratios: those that are accepted, those that are not, and any that a
//! hand-made state may have.

use crate::cases::{NANS, Random, step};

/// The ends of the accepted ratios; both are accepted.
pub const LEAST: f64 = 0.01;
pub const MOST: f64 = 100.0;

/// Every ratio at which the test turns, with its neighbours, and those that it
/// has to catch: NaNs of several patterns, infinities, zeros, negative ones.
pub fn limits() -> Vec<f64> {
    let mut list = NANS.map(f64::from_bits).to_vec();
    for x in [
        LEAST,
        step(LEAST, -1),
        step(LEAST, 1),
        1.0,
        MOST,
        step(MOST, -1),
        step(MOST, 1),
        0.0,
        5e-324,
        f64::MAX,
        f64::INFINITY,
    ] {
        list.extend([x, -x]);
    }
    list
}

/// An accepted ratio: often 1, an end or the double inside it, or between.
pub fn accepted(random: &mut Random) -> f64 {
    match random.below(16) {
        0..=6 => 1.0,
        7 | 8 => LEAST,
        9 | 10 => MOST,
        11 => random.pick(&[step(LEAST, 1), step(MOST, -1), step(1.0, -1), step(1.0, 1)]),
        12 | 13 => random.pick(&[0.5, 2.0]),
        14 => LEAST + 1.5 * random.unit(),
        _ => LEAST + 99.0 * random.unit(),
    }
}

/// A ratio that is refused, often for being just outside.
pub fn refused(random: &mut Random) -> f64 {
    let nan = f64::from_bits(random.pick(&NANS));
    let inside = accepted(random);
    match random.below(4) {
        0 => step(LEAST, -1),
        1 => step(MOST, 1),
        2 => -inside,
        _ => random.pick(&[
            nan,
            0.0,
            -0.0,
            1e9,
            5e-324,
            f64::INFINITY,
            f64::NEG_INFINITY,
        ]),
    }
}

/// Any ratio at all, as a hand-made state may have it.
pub fn any(random: &mut Random) -> f64 {
    let nan = f64::from_bits(random.pick(&NANS));
    let size = match random.below(2) {
        0 => random.sized(0, 600),
        _ => random.sized(1400, 2046),
    };
    match random.below(8) {
        0 => nan,
        1 => random.sign() * 0.0,
        2 => random.sign() * f64::INFINITY,
        3 => -accepted(random),
        4 => random.sign() * size,
        5 => random.pattern(),
        6 => refused(random),
        _ => accepted(random),
    }
}
