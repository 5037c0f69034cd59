//! One model over the most marks of a family: measuring, counting and the rms,
//! beside the walk of `ransac_fit`; and one trial call.
//!
//! Each is timed over the candidates of a run in turn, good ones and poor
//! ones, and is the mean of them.

use crate::cases::{RATIO, THRESH, Timed, best_first, good, same_counts};
use crate::{ROUNDS, median, nanoseconds};
use oracle::Trial;
use oracle::book::trial_record;
use oracle::pick_cases::Case;
use proved::scoring::{count_inliers, rms, rms_if_less};
use std::hint::black_box;

/// The lines of `ransac_fit` that find a model's inliers.
#[inline(never)]
fn original_walk<F: Timed>(
    family: &F,
    model: &F::Model,
    data: &[F::Mark],
    thresh: f64,
    ratio: f64,
    inliers: &mut Vec<usize>,
    inlier_residuals: &mut Vec<f64>,
) {
    inliers.clear();
    inlier_residuals.clear();
    inliers.reserve(data.len());
    inlier_residuals.reserve(data.len());

    for (i, datum) in data.iter().enumerate() {
        let r = family.distance(model, datum, ratio);
        if r <= thresh {
            inliers.push(i);
            inlier_residuals.push(r);
        }
    }
}

/// Candidates of a run, with the squares that each gives.
type Candidates<F> = Vec<(<F as oracle::Family>::Model, Vec<f64>)>;

fn candidates<F: Timed>(case: &Case<F>, every: usize) -> Candidates<F> {
    let fits = case.trials.iter().filter_map(|trial| trial.fit);
    let mut list = Vec::new();
    for h in fits.skip(1).step_by(every).take(50) {
        let mut squares = vec![0.0; F::MOST];
        let family = &case.family;
        family.squared_residuals(&h, RATIO, &case.marks, &mut squares, false);
        list.push((h, squares));
    }
    list
}

/// Nanoseconds a model.
fn timed<F: Timed>(list: &Candidates<F>, mut one: impl FnMut(&F::Model, &[f64])) -> f64 {
    let rounds = (0..ROUNDS).map(|_| {
        nanoseconds(5, || {
            for (h, squares) in black_box(list) {
                one(h, squares);
            }
        })
    });
    median(rounds.collect()) / list.len() as f64
}

fn row(title: &str, times: [f64; 2]) {
    println!("{title:<42} {:>8.3} {:>8.3}", times[0], times[1]);
}

/// Nanoseconds of a trial call on a state that holds the first candidate.
fn trial<F: Timed>(case: &Case<F>, outcome: u64, list: &Candidates<F>) -> f64 {
    let (marks, stops) = (&case.marks, &case.stops);
    let mut state = vec![0; F::WORDS];
    let (options, value) = (case.options.record(), case.family.record());
    assert_eq!(F::open([&options, &value], marks, stops, &mut state), 0);
    let mut out = vec![0; F::WORDS + 4];
    let first = trial_record(&case.trials[0]);
    assert_eq!(F::trial(&state, &first, marks, stops, &mut out), 0);
    state.copy_from_slice(&out[..F::WORDS]);
    let record = |&(h, _): &(F::Model, _)| {
        trial_record(&Trial {
            fit: Some(h),
            refit: None,
        })
    };
    let records: Vec<_> = list.iter().map(record).collect();
    for record in &records {
        assert_eq!(F::trial(&state, record, marks, stops, &mut out), 0);
        assert_eq!(out[F::WORDS], outcome);
    }
    let rounds = (0..ROUNDS).map(|_| {
        nanoseconds(5, || {
            for record in black_box(&records) {
                black_box(F::trial(&state, record, marks, stops, &mut out));
            }
        })
    });
    median(rounds.collect()) / records.len() as f64
}

/// The same run with its marks listed by y and then by x, a form's by z first.
fn by_rows<F: Timed>(case: &Case<F>) -> Case<F> {
    let mut list = case.mark_list().to_vec();
    let position = |mark: &F::Mark| {
        let mut position = mark.as_ref()[..F::WIDTH - 2].to_vec();
        position.reverse();
        position
    };
    list.sort_by(|a, b| position(a).partial_cmp(&position(b)).expect("no NaN"));
    let marks = list
        .iter()
        .flat_map(|mark| mark.as_ref())
        .copied()
        .collect();
    Case {
        marks,
        ..case.clone()
    }
}

/// Measuring and counting, the Rust's walk, and a trial call, of good and of
/// poor candidates.
pub fn run<F: Timed>() {
    let marks = F::MOST;
    let case = best_first::<F>();
    let poor = same_counts::<F>(marks, 2, false);
    assert_eq!(poor.marks, case.marks);
    let lists = [candidates(&case, 1), candidates(&poor, 2)];
    let mut squares = vec![0.0; marks];
    let (mut inliers, mut residuals) = (Vec::new(), Vec::new());

    let a_mark = |time: f64| time / marks as f64;
    println!("ns a mark and model, {marks} marks               good     poor");
    let [measuring, with_beyond] = [false, true].map(|beyond| {
        lists.each_ref().map(|list| {
            a_mark(timed::<F>(list, |h, _| {
                let (family, squares) = black_box((&case.family, &mut squares));
                let ratio = black_box(RATIO);
                black_box(family.squared_residuals(h, ratio, &case.marks, squares, beyond));
            }))
        })
    });
    row("measuring", measuring);
    row("measuring, those beyond counted", with_beyond);
    let counting = lists.each_ref().map(|list| {
        a_mark(timed::<F>(list, |_, squares| {
            black_box(count_inliers(THRESH, squares));
        }))
    });
    row("counting", counting);
    row("both", [0, 1].map(|k: usize| measuring[k] + counting[k]));
    let walks = lists.each_ref().map(|list| {
        timed::<F>(list, |h, _| {
            let (family, residuals) = (black_box(&case.family), &mut residuals);
            let (marks, ratio) = (case.mark_list(), black_box(RATIO));
            original_walk(family, h, marks, THRESH, ratio, &mut inliers, residuals);
            black_box((&inliers, residuals));
        })
    });
    row("the Rust's walk", walks.map(a_mark));

    println!();
    println!("us a trial call, {marks} marks   proved  in rows  the Rust's walk");
    let [held, few] = lists.each_ref();
    let rows = by_rows(&case);
    for (title, outcome, list, walk) in [("few", 2, few, walks[1]), ("held", 3, held, walks[0])] {
        let [time, in_rows] = [&case, &rows].map(|case| trial(case, outcome, list) / 1e3);
        println!(
            "{title:<29} {time:>8.2} {in_rows:>8.2} {:>16.2}",
            walk / 1e3
        );
    }
}

/// The rms of a list of squares: told to be no less by the squares alone, less,
/// and without a number to be below.
pub fn rms_of_a_list<F: Timed>() {
    let (marks, count) = (F::MOST, good(F::MOST) as u32);
    let list = candidates(&best_first::<F>(), 1);
    println!("ns a mark and model, {marks} marks, {count} within");
    let a_mark =
        |one: &mut dyn FnMut(&[f64])| timed::<F>(&list, |_, squares| one(squares)) / marks as f64;
    // As in a run: the winner's is the lowest, and few are far above it.
    let all = list.iter().map(|pair| rms(THRESH, &pair.1, count));
    let lowest = 0.999_999 * all.fold(f64::INFINITY, f64::min);
    let told = a_mark(&mut |squares| {
        assert!(rms_if_less(THRESH, squares, count, lowest).is_nan());
    });
    let not_told = a_mark(&mut |squares| {
        assert!(!rms_if_less(THRESH, squares, count, 10.0).is_nan());
    });
    let plain = a_mark(&mut |squares| {
        black_box(rms(THRESH, squares, count));
    });
    println!("rms_if_less, told without roots of marks {told:>8.3}");
    println!("rms_if_less, less                        {not_told:>8.3}");
    println!("rms                                      {plain:>8.3}");
}
