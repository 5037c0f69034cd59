//! The picker: `ransac_fit` over recorded trials, and its parts. The residual
//! is the family's distance by a row ratio.

use crate::Model;
use crate::family::Family;
use crate::form::Form;
use crate::sheet::Sheet;
use std::cell::{Cell, RefCell};
use std::marker::PhantomData;
use std::thread::LocalKey;
use vision_calibration_core::ransac::{self, Estimator};

pub use vision_calibration_core::ransac::RansacOptions;
pub use vision_calibration_core::ransac::open::{calculate_iterations, is_better_model, rms};

/// One recorded trial.
#[derive(Clone, Copy, Debug)]
pub struct Trial<M = Model> {
    pub fit: Option<M>,
    pub refit: Option<M>,
}

impl<M> Default for Trial<M> {
    fn default() -> Self {
        Self {
            fit: None,
            refit: None,
        }
    }
}

/// The best model, its marks' indices, their rms and the trial's number from 1.
#[derive(Clone, Debug)]
pub struct Winner<M = Model> {
    pub model: M,
    pub inliers: Vec<usize>,
    pub rms: f64,
    pub number: usize,
}

/// What a whole run gives: the winner if there is one, and the trials read.
#[derive(Clone, Debug)]
pub struct Run<M = Model> {
    pub winner: Option<Winner<M>>,
    pub read: usize,
}

/// The recorded trials, and how many of them were read.
pub struct Recorded<M> {
    trials: Vec<Trial<M>>,
    read: usize,
}

/// A family whose trials can be replayed: the estimator is handed marks and
/// models alone, and finds the rest here, in its thread.
pub trait Replayed: Family {
    fn recorded() -> &'static LocalKey<RefCell<Recorded<Self::Model>>>;
    /// By what marks are measured, and the row ratio.
    fn measuring() -> &'static LocalKey<Cell<(Self, f64)>>;
}

macro_rules! replayed {
    ($family:ident, $first:expr) => {
        impl Replayed for $family {
            fn recorded() -> &'static LocalKey<RefCell<Recorded<Self::Model>>> {
                thread_local! {
                    static RECORDED: RefCell<Recorded<<$family as Family>::Model>> = const {
                        RefCell::new(Recorded {
                            trials: Vec::new(),
                            read: 0,
                        })
                    };
                }
                &RECORDED
            }

            fn measuring() -> &'static LocalKey<Cell<(Self, f64)>> {
                thread_local! {
                    static MEASURING: Cell<($family, f64)> = const { Cell::new(($first, 1.0)) };
                }
                &MEASURING
            }
        }
    };
}
replayed!(Sheet, Sheet);
replayed!(Form, Form { camera: [0.0; 4] });

/// Fits and refits are read from the recorded trials, in order.
struct Replay<F>(PhantomData<F>);

impl<F: Replayed> Estimator for Replay<F> {
    type Datum = F::Mark;
    type Model = F::Model;
    const MIN_SAMPLES: usize = F::FEWEST;

    fn fit(_: &[F::Mark], _: &[usize]) -> Option<F::Model> {
        F::recorded().with_borrow_mut(|recorded| {
            let trial = recorded.trials.get(recorded.read);
            let trial = trial.expect("a trial for each iteration, max_iters of them");
            recorded.read += 1;
            trial.fit
        })
    }

    fn residual(model: &F::Model, mark: &F::Mark) -> f64 {
        let (family, ratio) = F::measuring().get();
        family.distance(model, mark, ratio)
    }

    fn refit(_: &[F::Mark], _: &[usize]) -> Option<F::Model> {
        F::recorded().with_borrow(|recorded| recorded.trials[recorded.read - 1].refit)
    }
}

/// Runs the original over the recorded trials. It panics if they run out
/// before the run ends: give it max_iters of them.
pub fn ransac_fit<F: Replayed>(
    family: F,
    marks: &[F::Mark],
    options: &RansacOptions,
    ratio: f64,
    trials: &[Trial<F::Model>],
) -> Run<F::Model> {
    F::recorded().set(Recorded {
        trials: trials.to_vec(),
        read: 0,
    });
    F::measuring().set((family, ratio));
    let best = ransac::ransac_fit::<Replay<F>>(marks, options);
    Run {
        winner: best.model.map(|model| Winner {
            model,
            inliers: best.inliers,
            rms: best.inlier_rms,
            number: best.iters,
        }),
        read: F::recorded().with_borrow(|recorded| recorded.read),
    }
}

/// The stop list for n marks: entry k is `calculate_iterations` before its
/// clamp for k of n and the family's sample size, at most 2^32 - 1. Where the
/// Rust returns max_iters, which is the largest number here, that is 2^32 - 1
/// too.
pub fn stop_list<F: Family>(confidence: f64, n: usize) -> Vec<u32> {
    (0..=n)
        .map(|k| {
            let ratio = k as f64 / n as f64;
            let stop = calculate_iterations(confidence, ratio, F::FEWEST, 0, usize::MAX);
            u32::try_from(stop).unwrap_or(u32::MAX)
        })
        .collect()
}
