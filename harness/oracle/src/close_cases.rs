//! Runs in which the rms decides, of any family: many trials with equal counts
//! and root mean squares that are equal or a few doubles apart.

use crate::book::Options;
use crate::cases::{Random, power_of_two, step};
use crate::family::Numbers;
use crate::family_cases::{Cases, identity, near_identity, seen, settle};
use crate::pick_cases::Case;
use crate::ratio_cases;
use crate::scoring::{places, rms};
use crate::{Trial, stop_list};

/// A model near the identity, or the identity. The smaller the points' reach,
/// the nearer a candidate's distances are that differs in a last place.
fn base<F: Cases>(random: &mut Random, size: f64) -> F::Model {
    match random.below(3) {
        0 => identity::<F>(),
        _ => near_identity::<F>(random, 0.1 * size),
    }
}

/// Marks of which about half are within a few pixels under the model. The
/// others are far, so that a run reads many trials. Whole differences make
/// distances that are equal.
fn marks<F: Cases>(random: &mut Random, family: &F, h: &F::Model, size: f64, n: usize) -> Vec<f64> {
    let whole = random.below(3) == 0;
    let mut list = Vec::new();
    for i in 0..n {
        let point = F::Mark::from_fn(|_| size * random.from_to(0, 64) as f64 / 64.0);
        let off = [0; 2].map(|_| match (i % 2, whole) {
            (0, false) => 3.0 * (random.unit() - 0.5),
            (0, true) => random.from_to(-2, 2) as f64,
            _ => random.sign() * (50.0 + 400.0 * random.unit()),
        });
        list.extend_from_slice(seen(family, h, point, off).as_ref());
    }
    settle::<F>(&mut list);
    list
}

/// A candidate beside the model: itself, the same map by other numbers, one
/// that differs in the last places or by a little more.
fn beside<M: Numbers>(random: &mut Random, h: &M) -> M {
    let mut other = *h;
    let place = random.below(M::COUNT as u64) as usize;
    let number = h.as_ref()[place];
    match random.below(8) {
        0 => {}
        1 => {
            let by = power_of_two(random.from_to(-3, 3) as i32);
            other = h.each(|a| a * by);
        }
        2 => other = h.each(|a| a * 3.0),
        3..=5 => other.as_mut()[place] = step(number, random.from_to(-3, 3)),
        6 => other = h.each(|a| step(a, random.from_to(-1, 1))),
        _ => other.as_mut()[place] += 1e-12 * random.unit() * number,
    }
    // A step down from 0 is a NaN.
    if other.as_ref().iter().all(|a| a.is_finite()) {
        other
    } else {
        *h
    }
}

/// A candidate under which fewer marks are within: none, or some.
fn poor<F: Cases>(random: &mut Random, h: &F::Model) -> F::Model {
    let off = random.pick(&[1.0, 2.0, 3.0, 1000.0]);
    let mut other = *h;
    other.as_mut()[F::ROW - 1] += off * h.as_ref()[F::SIZE - 1];
    other
}

/// What a candidate is scored by: the family's value, the threshold and the
/// ratio.
type By<F> = (F, f64, f64);

fn count_and_rms<F: Cases>(
    &(family, thresh, ratio): &By<F>,
    h: &F::Model,
    marks: &[F::Mark],
) -> (usize, f64) {
    let all = marks.iter().map(|mark| family.squared(h, mark, ratio));
    let squares: Vec<f64> = all.collect();
    let count = places(thresh, &squares).len();
    (count, rms(thresh, &squares, count as u32))
}

/// The candidates by rms, up or down, so that none wins but the first or each
/// does; or as they come.
fn ordered<F: Cases>(random: &mut Random, by: &By<F>, pool: &mut [F::Model], marks: &[F::Mark]) {
    let by_rms = |h: &F::Model| count_and_rms(by, h, marks).1;
    match random.below(3) {
        0 => pool.sort_by(|a, b| by_rms(a).total_cmp(&by_rms(b))),
        1 => pool.sort_by(|a, b| by_rms(b).total_cmp(&by_rms(a))),
        _ => {}
    }
}

/// A threshold that takes all near marks in, or one that is a distance under a
/// candidate, or next to one.
fn thresh<F: Cases>(
    random: &mut Random,
    family: &F,
    pool: &[F::Model],
    marks: &[F::Mark],
    ratio: f64,
) -> f64 {
    let d = family.distance(&random.pick(pool), &random.pick(marks), ratio);
    let usual = random.pick(&[1.0, 2.0, 4.0, 5.0]);
    match random.below(3) {
        0 if d > 0.0 && d < 10.0 => step(d, random.pick(&[0, 0, 0, -1, 1])),
        _ => usual,
    }
}

/// How many marks the i-th run has: few, and now and then many.
fn marks_count<F: Cases>(random: &mut Random, i: usize) -> usize {
    match i % 256 {
        0 => F::MOST,
        128 => random.from_to(33, F::MOST as i64 - 1) as usize,
        _ => random.from_to(F::FEWEST as i64, 32) as usize,
    }
}

/// A trial of a good candidate; its refit may be good, or poor, or none.
fn trial<F: Cases>(random: &mut Random, good: F::Model, pool: &[F::Model]) -> Trial<F::Model> {
    let refit = match random.below(4) {
        0 => Some(good),
        1 => Some(random.pick(pool)),
        2 => Some(poor::<F>(random, &good)),
        _ => None,
    };
    let fit = match refit {
        Some(_) if random.below(4) == 0 => random.pick(pool),
        _ => good,
    };
    Trial {
        fit: Some(fit),
        refit,
    }
}

/// The i-th run, with a trial for each iteration and the Rust's stop list, as
/// `ransac_fit` needs it.
pub fn close<F: Cases>(random: &mut Random, i: usize) -> Case<F> {
    let n = marks_count::<F>(random, i);
    let size = random.pick(&[1024.0, 8.0, 1.0, 0.125]);
    let family = F::accepted(random);
    let h = base::<F>(random, size);
    let list = marks(random, &family, &h, size, n);
    let most = if n > 100 { 12 } else { 40 };
    let max_iters = random.from_to(2, most) as usize;
    let mut pool: Vec<_> = (0..max_iters).map(|_| beside(random, &h)).collect();
    let marks = F::Mark::chunks(&list).0;
    let ratio = ratio_cases::accepted(random);
    let thresh = thresh(random, &family, &pool, marks, ratio);
    let by = (family, thresh, ratio);
    ordered(random, &by, &mut pool, marks);
    let count = count_and_rms(&by, &h, marks).0 as u32;
    let below = random.below(u64::from(count) + 1) as u32;
    let options = Options {
        thresh,
        confidence: random.pick(&[step(1.0, -1), step(1.0, -1), 0.999_999]),
        max_iters: max_iters as u32,
        min_inliers: random.pick(&[count, count, below, 0]),
        refit: random.below(2) == 0,
        ratio,
    };
    let all = pool.iter().map(|&good| trial::<F>(random, good, &pool));
    Case {
        trials: all.collect(),
        family,
        stops: stop_list::<F>(options.confidence, n),
        options,
        marks: list,
    }
}
