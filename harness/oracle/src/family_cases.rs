//! What the inputs need of a family, and random marks and models of any.

use crate::cases::{NANS, Random, step};
use crate::example;
use crate::family::{Family, Numbers};
use crate::pick::Replayed;
use crate::pick_cases::Case;
use crate::sheet::Sheet;
use crate::sheet_cases;
use std::collections::HashMap;

/// A family with inputs to compare on.
pub trait Cases: Replayed {
    /// A worked run: under the identity four marks are off by nothing, and the
    /// others by 3 along v alone. Four are asked for, and are within 2.
    fn example() -> Case<Self>;

    /// n marks of the i-th kind, not damaged: some stand twice, and none clash.
    fn few_marks(random: &mut Random, i: usize, n: usize) -> Vec<f64>;

    /// A value that an opening accepts, and any at all, as a state made by hand
    /// may have it.
    fn accepted(random: &mut Random) -> Self;
    fn any(random: &mut Random) -> Self;

    /// A model that a run's marks may come from, and how far their points reach
    /// in each coordinate.
    fn truth(&self, random: &mut Random) -> (Self::Model, f64);
}

impl Cases for Sheet {
    fn example() -> Case {
        example::sheet()
    }

    fn few_marks(random: &mut Random, i: usize, n: usize) -> Vec<f64> {
        sheet_cases::few_marks(random, i, n)
    }

    fn accepted(_: &mut Random) -> Self {
        Self
    }

    fn any(_: &mut Random) -> Self {
        Self
    }

    fn truth(&self, random: &mut Random) -> (Self::Model, f64) {
        (near_identity::<Self>(random, 100.0), 1000.0)
    }
}

// Models.

/// The row and the place in it of a model's number.
fn row_and_place<F: Family>(k: usize) -> (usize, usize) {
    (k / F::ROW, k % F::ROW)
}

/// Whether a number is 1 in [`identity`].
fn is_one<F: Family>(k: usize) -> bool {
    let (row, place) = row_and_place::<F>(k);
    k == F::SIZE - 1 || (row == place && row < 2)
}

/// The model that has x and y as the pixel, but for a camera: s, or Z, is 1.
pub fn identity<F: Family>() -> F::Model {
    F::Model::from_fn(|k| if is_one::<F>(k) { 1.0 } else { 0.0 })
}

/// A model about the identity that moves a point by up to `by`.
pub fn near_identity<F: Family>(random: &mut Random, by: f64) -> F::Model {
    F::Model::from_fn(|k| match row_and_place::<F>(k) {
        _ if is_one::<F>(k) => 0.5 + random.unit(),
        (2, _) => 1e-4 * (random.unit() - 0.5),
        (_, place) if place == F::ROW - 1 => by * random.unit(),
        _ => 0.2 * (random.unit() - 0.5),
    })
}

/// The mark at a point, with its pixel so far off where the model has it; at
/// some place where that isn't allowed.
pub fn seen<F: Family>(family: &F, h: &F::Model, mut mark: F::Mark, off: [f64; 2]) -> F::Mark {
    let mapped = family.mapped(h, &mark);
    let pixel = &mut mark.as_mut()[F::WIDTH - 2..];
    for k in 0..2 {
        let number = mapped[k] + off[k];
        pixel[k] = if number.abs() <= 1e9 { number } else { 7.0 };
    }
    mark
}

// Marks of one position and two pixels.

/// The marks that clash with one before them, each with the pixel of the first
/// at its position.
fn clashes<F: Family>(marks: &[f64]) -> Vec<(usize, [f64; 2])> {
    let mut pixels = HashMap::new();
    let mut list = Vec::new();
    for (i, mark) in marks.chunks_exact(F::WIDTH).enumerate() {
        let (at, pixel) = mark.split_at(F::WIDTH - 2);
        // -0 + 0 is 0.
        let at: Vec<u64> = at.iter().map(|x| (x + 0.0).to_bits()).collect();
        let first = *pixels.entry(at).or_insert([pixel[0], pixel[1]]);
        if pixel != first {
            list.push((i, first));
        }
    }
    list
}

/// Gives each mark that clashes with one before it that one's pixel: it then
/// stands twice.
pub fn settle<F: Family>(marks: &mut [f64]) {
    for (i, pixel) in clashes::<F>(marks) {
        let end = F::WIDTH * (i + 1);
        marks[end - 2..end].copy_from_slice(&pixel);
    }
}

/// Settles the list, or, one time in two, moves such marks to positions of their
/// own, so that all pixels stay.
pub fn settle_or_part<F: Family>(random: &mut Random, marks: &mut [f64]) {
    if random.below(2) == 0 {
        for (i, _) in clashes::<F>(marks) {
            for x in &mut marks[F::WIDTH * i..F::WIDTH * (i + 1) - 2] {
                *x = 2000.0 * random.unit() - 1000.0;
            }
        }
    }
    settle::<F>(marks);
}

/// Another number than this one, often close to it.
fn other(random: &mut Random, x: f64) -> f64 {
    let by = random.pick(&[1, -1]);
    let other = match random.below(4) {
        0 => -x,
        1 => random.pick(&[0.0, -0.0, 5e-324, 1e9]),
        2 => step(x, by),
        _ => x + by as f64,
    };
    match other.abs() <= 1e9 && other != x {
        true => other,
        false => 7.0 - x.clamp(-1.0, 1.0),
    }
}

/// Gives a mark the position of another, whose zeros may change their signs, and
/// of that one's pixel u, v or both to something else. Of two marks at least.
pub fn clash<F: Family>(random: &mut Random, marks: &mut [f64]) {
    let n = (marks.len() / F::WIDTH) as u64;
    if n < 2 {
        return;
    }
    let from = random.below(n);
    let to = (from + 1 + random.below(n - 1)) % n;
    let [from, to] = [from, to].map(|i| F::WIDTH * i as usize);
    let mut mark = marks[from..from + F::WIDTH].to_vec();
    let (at, pixel) = mark.split_at_mut(F::WIDTH - 2);
    for x in at {
        *x = if *x == 0.0 { random.sign() * 0.0 } else { *x };
    }
    let changed = random.from_to(1, 3);
    for (k, x) in pixel.iter_mut().enumerate() {
        if changed >> k & 1 == 1 {
            *x = other(random, *x);
        }
    }
    marks[to..to + F::WIDTH].copy_from_slice(&mark);
}

// Lists of marks.

/// The i-th random list: few marks, and every 256th time up to the most.
pub fn marks<F: Cases>(random: &mut Random, i: usize) -> Vec<f64> {
    let n = match i % 256 {
        0 => random.from_to(13, F::MOST as i64),
        _ => random.from_to(0, 12),
    };
    let mut list = F::few_marks(random, i, n as usize);
    match random.below(16) {
        0 => clash::<F>(random, &mut list),
        1 | 2 => damage::<F>(random, &mut list),
        _ => {}
    }
    list
}

/// Gives the list a number that isn't allowed, or a length, or both, and a clash
/// besides or not.
fn damage<F: Family>(random: &mut Random, list: &mut Vec<f64>) {
    if random.below(2) == 0 {
        clash::<F>(random, list);
    }
    let nan = f64::from_bits(random.pick(&NANS));
    let over = random.sign() * random.pick(&[step(1e9, 1), 2e9, f64::MAX, f64::INFINITY]);
    let way = random.below(4);
    if way != 0 && !list.is_empty() {
        let place = random.below(list.len() as u64) as usize;
        list[place] = random.pick(&[nan, over, over]);
    }
    if way < 2 {
        let more = random.from_to(1, 3) as usize;
        let len = match random.below(64) {
            0 => 8000 + more * random.pick(&[1, F::WIDTH]),
            _ => list.len() + more,
        };
        list.resize(len, 1.5);
    }
}

// Models, each with a mark.

/// The i-th random model and mark.
pub fn distance<F: Cases>(random: &mut Random, family: &F, i: usize) -> (F::Model, F::Mark) {
    let mut mark = F::Mark::from_fn(|_| mark_number(random, i));
    let usual = |random: &mut Random| random.sign() * random.sized(1013, 1029);
    let last = F::SIZE - 1;
    let last_row = last + 1 - F::ROW;
    let mut h = match i % 10 {
        // About the identity.
        0 => identity::<F>().each(|a| a + 1e-3 * (random.unit() - 0.5)),
        // A map, with the mark about where it should be.
        1 | 2 => {
            let h = F::Model::from_fn(|k| match k {
                _ if k == last => 0.5 + random.unit(),
                _ if k >= last_row => 1e-3 * (random.unit() - 0.5),
                _ => usual(random),
            });
            mark = mark_near(random, family, &h, mark);
            h
        }
        // s, or Z, around zero.
        3 => {
            let mut h = F::Model::from_fn(|_| usual(random));
            h.as_mut()[last] = 0.0;
            h.as_mut()[last] = -step(F::divisor(&h, &mark), random.from_to(-2, 2));
            h
        }
        // Zeros of both signs.
        4 => F::Model::from_fn(|_| random.pick(&[0.0, -0.0, 0.0, -0.0, 1.0, -1.0, 5e-324])),
        // Close to overflow, on one line of the model or on all.
        5 => {
            let lines = random.below(8);
            F::Model::from_fn(|k| match lines >> (k / F::ROW) & 1 {
                0 => random.sign() * random.sized(1020, 1030),
                _ => random.sign() * random.sized(2010, 2046),
            })
        }
        6 => F::Model::from_fn(|_| random.sign() * random.sized(0, 2046)),
        // Subnormal, all or the last line alone.
        7 => {
            let from = random.pick(&[0, last_row, last]);
            F::Model::from_fn(|k| match k < from {
                true => usual(random),
                false => random.sign() * random.sized(0, 0),
            })
        }
        // s, or Z, positive and of any size.
        8 => {
            let mut h = F::Model::from_fn(|_| random.sign() * random.sized(1000, 1040));
            h.as_mut()[last] = random.sized(0, 2046);
            h
        }
        _ => F::Model::from_fn(|_| random.from_to(-3, 3) as f64),
    };
    damage_distance(random, h.as_mut(), mark.as_mut());
    (h, mark)
}

/// Most often of some hundreds; now and then of any size, or 1e9.
fn mark_number(random: &mut Random, i: usize) -> f64 {
    match i / 10 % 4 {
        0 => random.sign() * step(1e9, -random.from_to(0, 1)),
        1 => random.sign() * random.sized(0, 1051),
        2 => random.from_to(-3, 3) as f64,
        _ => 1000.0 * random.unit() - 500.0,
    }
}

/// The mark with its pixel near where the model has it, if that is allowed.
fn mark_near<F: Family>(
    random: &mut Random,
    family: &F,
    h: &F::Model,
    mut mark: F::Mark,
) -> F::Mark {
    let mapped = family.mapped(h, &mark);
    for (old, to) in mark.as_mut()[F::WIDTH - 2..].iter_mut().zip(mapped) {
        let number = to + random.from_to(-1, 1) as f64;
        if number.abs() <= 1e9 {
            *old = number;
        }
    }
    mark
}

/// Sometimes gives the model, the mark or both a number that isn't allowed.
fn damage_distance(random: &mut Random, h: &mut [f64], mark: &mut [f64]) {
    let way = random.below(16);
    let nan = f64::from_bits(random.pick(&NANS));
    let [numbers, of_mark] = [h.len() as u64, mark.len() as u64];
    if way < 2 {
        h[random.below(numbers) as usize] = random.pick(&[nan, f64::INFINITY, f64::NEG_INFINITY]);
    }
    if way == 1 || way == 2 {
        let over = random.sign() * random.pick(&[step(1e9, 1), 2e9, f64::INFINITY]);
        mark[random.below(of_mark) as usize] = random.pick(&[nan, over, over]);
    }
}
