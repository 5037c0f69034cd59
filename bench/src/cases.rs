//! The runs that are timed: all of 1,000 trials, each of them read.
//!
//! A good candidate agrees with two fifths of the marks: with more, a run by
//! the Rust's own stop list would end early, at the largest confidence below 1
//! too. A poor candidate agrees with too few marks to be scored.

use compare::families::Proved;
use oracle::book::Options;
use oracle::cases::{Random, power_of_two, step};
use oracle::family_cases::{seen, settle};
use oracle::pick_cases::Case;
use oracle::scoring::rms;
use oracle::sheet_cases::IDENTITY;
use oracle::{Camera, Family, Form, Model, Numbers, Pose, Sheet, Trial, stop_list};

/// The most marks of a sheet.
pub const MARKS: usize = Sheet::MOST;
pub const TRIALS: usize = 1000;
pub const THRESH: f64 = 2.0;
/// Under this the distances are 01's. Neither side knows that it is 1 where it
/// is timed, so both multiply by it.
pub const RATIO: f64 = 1.0;

/// A family that is timed.
pub trait Timed: Proved {
    /// What marks go through to become pixels: by what they are measured, and
    /// the model.
    fn through() -> (Self, Self::Model);
}

/// A sheet's.
const TRUE: Model = [1.02, 0.03, 15.0, -0.02, 0.98, -7.0, 1e-5, -2e-5, 1.0];

impl Timed for Sheet {
    fn through() -> (Self, Model) {
        (Self, TRUE)
    }
}

/// A form's: points of up to a metre, in millimetres, two metres away.
const CAMERA: Camera = [1000.0, 1005.0, 640.0, 480.0];
const POSE: Pose = [
    0.98, 0.05, -0.15, -400.0, //
    -0.04, 0.99, 0.08, -450.0, //
    0.16, -0.07, 0.98, 2000.0,
];

impl Timed for Form {
    fn through() -> (Self, Pose) {
        (Self { camera: CAMERA }, POSE)
    }
}

/// The marks that a good candidate agrees with.
pub fn good(n: usize) -> usize {
    2 * n / 5
}

/// How far the good marks are off.
#[derive(Clone, Copy)]
enum Good {
    /// A quarter of a pixel at most.
    Near,
    /// From 0 to 4 pixels in u, evenly.
    Graded,
}

/// The good ones are spread over the list; the others are at least 50 pixels
/// off, in u and in v.
fn marks<F: Timed>(random: &mut Random, n: usize, kind: Good) -> Vec<f64> {
    let (family, h) = F::through();
    let mut list = Vec::new();
    for i in 0..n {
        let coordinates = F::WIDTH - 2;
        let point = F::Mark::from_fn(|k| match k < coordinates {
            true => 1000.0 * random.unit(),
            false => 0.0,
        });
        let rank = i * 1103 % n;
        let mut away = || 0.5 * (random.unit() - 0.5);
        let off = match kind {
            _ if rank >= good(n) => [0; 2].map(|_| random.sign() * (50.0 + 400.0 * random.unit())),
            Good::Near => [away(), away()],
            Good::Graded => [(rank as f64 + 0.5) * 4.0 / good(n) as f64, 0.0],
        };
        list.extend_from_slice(seen(&family, &h, point, off).as_ref());
    }
    list
}

/// A candidate within a fraction of a pixel, or one that is far off.
fn candidate<F: Timed>(random: &mut Random, good: bool) -> F::Model {
    let (_, mut h) = F::through();
    let off = if good { 0.2 } else { 3000.0 };
    for row in 1..3 {
        h.as_mut()[row * F::ROW - 1] += off * (0.5 + random.unit());
    }
    h
}

/// The candidate that agrees with so many of the graded marks.
fn graded(n: usize, count: usize) -> Model {
    let across = 4.0 * count as f64 / good(n) as f64 - 2.0;
    let mut h = TRUE;
    for k in 0..3 {
        h[k] += across * TRUE[6 + k];
    }
    h
}

fn case<F: Timed>(marks: Vec<f64>, trials: Vec<Trial<F::Model>>, refit: bool) -> Case<F> {
    let n = marks.len() / F::WIDTH;
    let options = Options {
        thresh: THRESH,
        confidence: step(1.0, -1),
        max_iters: TRIALS as u32,
        min_inliers: good(n).min(12) as u32,
        refit,
        ratio: RATIO,
    };
    Case {
        family: F::through().0,
        options,
        stops: stop_list::<F>(options.confidence, n),
        trials,
        marks,
    }
}

fn fitted(fit: Model) -> Trial {
    Trial {
        fit: Some(fit),
        refit: None,
    }
}

/// Every `every`-th trial is good; all good ones have the same count.
pub fn same_counts<F: Timed>(n: usize, every: usize, refit: bool) -> Case<F> {
    let random = &mut Random::new(70);
    let marks = marks::<F>(random, n, Good::Near);
    let trials = (0..TRIALS).map(|i| {
        let good = i.is_multiple_of(every);
        Trial {
            fit: Some(candidate::<F>(random, good)),
            refit: refit.then(|| candidate::<F>(random, good)),
        }
    });
    case(marks, trials.collect(), refit)
}

/// All good, from 12 marks to 799, and none with the winner's count.
pub fn other_counts() -> Case {
    let random = &mut Random::new(71);
    let marks = marks::<Sheet>(random, MARKS, Good::Graded);
    let counts = (0..TRIALS).map(|i| 12 + (i * 577 + 300) % 788);
    let trials = counts.map(|count| fitted(graded(MARKS, count)));
    case(marks, trials.collect(), false)
}

/// All good with the same count, the one with the lowest rms first.
pub fn best_first<F: Timed>() -> Case<F> {
    let mut case = same_counts::<F>(F::MOST, 1, false);
    let (family, marks) = (case.family, case.mark_list().to_vec());
    let by_rms = |trial: &Trial<F::Model>| {
        let h = trial.fit.expect("good");
        let all = marks.iter().map(|mark| family.squared(&h, mark, RATIO));
        let squares: Vec<f64> = all.collect();
        rms(THRESH, &squares, good(F::MOST) as u32).to_bits()
    };
    case.trials.sort_by_cached_key(by_rms);
    case
}

/// The same turned round: each trial wins.
pub fn each_wins() -> Case {
    let mut case = best_first();
    case.trials.reverse();
    case
}

/// All good, with each good mark at the threshold exactly, under one map that
/// is written in many ways. Each trial takes all roots that there are, and none
/// but the first wins.
pub fn at_the_threshold() -> Case {
    let random = &mut Random::new(72);
    let mut marks = Vec::new();
    for i in 0..MARKS {
        let [x, y] = [0; 2].map(|_| random.from_to(0, 1000) as f64);
        let off = if i * 1103 % MARKS < good(MARKS) {
            THRESH
        } else {
            100.0
        };
        marks.extend([x, y, x + random.sign() * off, y]);
    }
    settle::<Sheet>(&mut marks);
    let trials = (0..TRIALS).map(|i| fitted(IDENTITY.map(|h| h * power_of_two(i as i32 - 500))));
    case(marks, trials.collect(), false)
}
