//! The picker really runs: 01's sheets to try, on the original.

use oracle::{
    Mark, Model, RansacOptions, Sheet, Trial, calculate_iterations, is_better_model, ransac_fit,
    rms, stop_list,
};

const MARKS: [Mark; 5] = [
    [0.0, 0.0, 0.0, 0.0],
    [100.0, 0.0, 100.0, 0.0],
    [100.0, 100.0, 100.0, 100.0],
    [0.0, 100.0, 0.0, 100.0],
    [50.0, 50.0, 50.0, 53.0],
];
const I: Model = [1.0, 0.0, 0.0, 0.0, 1.0, 0.0, 0.0, 0.0, 1.0];
const T: Model = [1.0, 0.0, 0.0, 0.0, 1.0, 3.0, 0.0, 0.0, 1.0];
const BEHIND: Model = [1.0, 0.0, 0.0, 0.0, 1.0, 0.0, 0.0, 0.0, -1.0];

fn options(thresh: f64, max_iters: usize, min_inliers: usize, refit: bool) -> RansacOptions {
    RansacOptions::new(thresh)
        .with_max_iters(max_iters)
        .with_min_inliers(min_inliers)
        .with_refit_on_inliers(refit)
}

fn fit(model: Model) -> Trial {
    Trial {
        fit: Some(model),
        refit: None,
    }
}

#[test]
fn the_better_of_two_models() {
    let run = ransac_fit(
        Sheet,
        &MARKS,
        &options(2.0, 2, 1, false),
        1.0,
        &[fit(T), fit(I)],
    );
    let winner = run.winner.expect("a winner");
    assert_eq!((winner.model, winner.number, winner.rms), (I, 2, 0.0));
    assert_eq!(winner.inliers, [0, 1, 2, 3]);
    assert_eq!(run.read, 2);
}

#[test]
fn the_threshold_is_included() {
    let run = ransac_fit(Sheet, &MARKS, &options(3.0, 1, 4, false), 1.0, &[fit(I)]);
    let winner = run.winner.expect("a winner");
    assert_eq!(winner.inliers, [0, 1, 2, 3, 4]);
    assert_eq!(winner.rms, (9.0f64 / 5.0).sqrt());
}

/// The middle mark is three off along v: 1.5 by ratio 0.5, and 6 by 2.
#[test]
fn a_row_ratio() {
    let by = |ratio| {
        let run = ransac_fit(Sheet, &MARKS, &options(3.0, 1, 4, false), ratio, &[fit(I)]);
        run.winner.expect("a winner")
    };
    assert_eq!(by(0.5).inliers, [0, 1, 2, 3, 4]);
    assert_eq!(by(0.5).rms, (2.25f64 / 5.0).sqrt());
    assert_eq!(by(2.0).inliers, [0, 1, 2, 3]);
    assert_eq!(by(2.0).rms, 0.0);
    // The next run has its own.
    assert_eq!(by(1.0).inliers, [0, 1, 2, 3, 4]);
}

/// A refit is measured by the ratio too: four marks are three off along v.
#[test]
fn a_row_ratio_for_the_refit() {
    let both = [Trial {
        fit: Some(I),
        refit: Some(T),
    }];
    for (ratio, standing, count) in [(1.0, I, 4), (0.5, T, 5)] {
        let run = ransac_fit(Sheet, &MARKS, &options(2.0, 1, 4, true), ratio, &both);
        let winner = run.winner.expect("a winner");
        assert_eq!((winner.model, winner.inliers.len()), (standing, count));
    }
}

#[test]
fn equal_trials_keep_the_first() {
    let trials = [Trial::default(), fit(I), fit(I)];
    let run = ransac_fit(Sheet, &MARKS, &options(2.0, 3, 4, false), 1.0, &trials);
    assert_eq!(run.winner.expect("a winner").number, 2);
}

#[test]
fn a_refit_stands_if_it_reaches_the_minimum() {
    let both = [Trial {
        fit: Some(I),
        refit: Some(T),
    }];
    for (min, refit, standing, count) in [(4, true, I, 4), (1, true, T, 1), (1, false, I, 4)] {
        let run = ransac_fit(Sheet, &MARKS, &options(2.0, 1, min, refit), 1.0, &both);
        let winner = run.winner.expect("a winner");
        assert_eq!((winner.model, winner.inliers.len()), (standing, count));
    }
}

#[test]
fn no_marks_within() {
    let run = ransac_fit(
        Sheet,
        &MARKS,
        &options(2.0, 1, 1, false),
        1.0,
        &[fit(BEHIND)],
    );
    assert!(run.winner.is_none());
    let run = ransac_fit(
        Sheet,
        &MARKS,
        &options(2.0, 1, 0, false),
        1.0,
        &[fit(BEHIND)],
    );
    let winner = run.winner.expect("a winner");
    assert_eq!((winner.inliers.len(), winner.rms), (0, f64::INFINITY));
}

#[test]
fn the_bound_follows_the_stop_list() {
    let stops = stop_list::<Sheet>(0.99, 5);
    assert_eq!(stops, [u32::MAX, 2876, 178, 34, 9, 1]);
    // Four of five marks: the run ends after nine trials.
    let run = ransac_fit(
        Sheet,
        &MARKS,
        &options(2.0, 100, 4, false),
        1.0,
        &[fit(I); 100],
    );
    assert_eq!(run.read, 9);
    // All five: after the first.
    let run = ransac_fit(
        Sheet,
        &MARKS,
        &options(3.0, 100, 4, false),
        1.0,
        &[fit(I); 100],
    );
    assert_eq!(run.read, 1);
}

#[test]
fn parts() {
    assert_eq!(rms(&[]), f64::INFINITY);
    assert_eq!(rms(&[3.0, 4.0]), 12.5f64.sqrt());
    assert!(is_better_model(false, 0, f64::INFINITY, 9, 0.0));
    assert!(is_better_model(true, 5, 9.0, 4, 0.0));
    assert!(is_better_model(true, 4, 1.0, 4, 2.0));
    assert!(!is_better_model(true, 4, f64::INFINITY, 4, f64::INFINITY));
    assert_eq!(calculate_iterations(0.99, 0.0, 4, 3, 70), 70);
    assert_eq!(calculate_iterations(0.99, 0.8, 4, 3, 70), 9);
    assert_eq!(calculate_iterations(0.99, 0.8, 4, 30, 70), 30);
    assert_eq!(calculate_iterations(0.99, 0.8, 4, 3, 7), 7);
}

#[test]
#[should_panic(expected = "a trial for each iteration")]
fn too_few_trials() {
    ransac_fit(
        Sheet,
        &MARKS,
        &options(2.0, 3, 4, false),
        1.0,
        &[fit(BEHIND)],
    );
}
