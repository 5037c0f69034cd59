//! The writing of records by hand: the worked run's, the refusals and their
//! orders, and the book's readers on what is written.

use oracle::Sheet;
use oracle::book::{Options, trial_of_record, trial_record};
use oracle::cases::{Random, step};
use oracle::example::{self, I, T};
use oracle::writing::{OptionsNumbers, TrialNumbers, mark, options, trial};
use oracle::writing_cases;

const GOOD: OptionsNumbers = OptionsNumbers {
    thresh: 2.0,
    confidence: 0.99,
    max_iters: 10,
    min_inliers: 4,
    refit_mark: 0,
    ratio: 1.0,
};

fn pair(fit_mark: u8, refit_mark: u8, fit: &[f64], refit: &[f64]) -> TrialNumbers {
    TrialNumbers {
        fit_mark,
        refit_mark,
        fit: fit.to_vec(),
        refit: refit.to_vec(),
    }
}

#[test]
fn the_worked_run() {
    let bytes = example::sheet().bytes();
    assert_eq!(options(&GOOD, 40), Ok(bytes.options));
    let marks = example::SQUARE.as_chunks().0.iter();
    let marks = marks.flat_map(|numbers| mark(numbers, 32).expect("a record"));
    assert_eq!(marks.collect::<Vec<u8>>(), bytes.marks);
    let none = [0.0; 9];
    let trials = [(1, I), (0, none), (1, T), (1, I)];
    let one = |(fit_mark, fit): (u8, [f64; 9])| trial(&pair(fit_mark, 0, &fit, &none), 152);
    let trials = trials.into_iter().flat_map(|it| one(it).expect("a record"));
    assert_eq!(trials.collect::<Vec<u8>>(), bytes.trials);
}

#[test]
fn options_are_refused_in_their_order() {
    let by = |ratio, refit_mark, thresh, confidence, max_iters| OptionsNumbers {
        thresh,
        confidence,
        max_iters,
        refit_mark,
        ratio,
        ..GOOD
    };
    let nan = f64::NAN;
    let with = |mark, thresh, confidence, max_iters| by(nan, mark, thresh, confidence, max_iters);
    let last = |ratio| by(ratio, 1, 5e-324, 5e-324, 100_000);
    for (numbers, number) in [
        (with(2, nan, nan, 0), 1),
        (with(255, nan, nan, 0), 1),
        (with(1, nan, nan, 0), 2),
        (with(1, f64::INFINITY, nan, 0), 2),
        (with(1, 0.0, nan, 0), 2),
        (with(1, 5e-324, nan, 0), 3),
        (with(1, 5e-324, 0.0, 0), 3),
        (with(1, 5e-324, 1.0, 0), 3),
        (with(1, 5e-324, step(1.0, -1), 0), 4),
        (with(1, 5e-324, 5e-324, 100_001), 4),
        (last(nan), 16),
        (last(step(0.01, -1)), 16),
        (last(step(100.0, 1)), 16),
        (last(-1.0), 16),
        (last(0.01), 9),
        (last(100.0), 9),
    ] {
        assert_eq!(options(&numbers, 39), Err(number), "{numbers:?}");
        assert_eq!(options(&numbers, 40).is_ok(), number == 9);
    }
}

#[test]
fn marks_are_refused_in_their_order() {
    for place in 0..4 {
        for bad in [f64::NAN, f64::NEG_INFINITY, step(1e9, 1), step(-1e9, 1)] {
            let mut numbers = [-0.0, 1e9, -1e9, 5e-324];
            assert_eq!(mark(&numbers, 31), Err(9));
            assert!(mark(&numbers, 32).is_ok());
            numbers[place] = bad;
            assert_eq!(mark(&numbers, 0), Err(6));
        }
    }
}

#[test]
fn trials_are_refused_in_their_order() {
    let none = [0.0; 9];
    let mut minus = none;
    minus[8] = -0.0;
    let mut infinite = I;
    infinite[8] = f64::INFINITY;
    for numbers in [
        pair(0, 0, &I, &none),
        pair(0, 0, &none, &minus),
        pair(0, 1, &none, &I),
        pair(0, 1, &I, &I),
        pair(2, 0, &I, &none),
        pair(1, 255, &I, &I),
        pair(1, 0, &infinite, &none),
        pair(1, 1, &I, &infinite),
        pair(1, 1, &[1.0; 8], &[1.0; 10]),
        pair(1, 1, &[1.0; 18], &[]),
        pair(0, 0, &[], &[]),
    ] {
        assert_eq!(trial(&numbers, 0), Err(1), "{numbers:?}");
        assert_eq!(trial(&numbers, 152), Err(1), "{numbers:?}");
    }
    for numbers in [
        pair(0, 0, &none, &none),
        pair(1, 0, &minus, &none),
        pair(1, 1, &I, &minus),
    ] {
        assert_eq!(trial(&numbers, 151), Err(9));
        assert!(trial(&numbers, 152).is_ok());
    }
}

/// The book reads what is written, and refuses what isn't.
#[test]
fn the_book_reads_them() {
    let random = &mut Random::new(77);
    for _ in 0..20_000 {
        let numbers = writing_cases::options(random);
        let read = Options::of_record(&numbers.packed());
        let tested = read.and_then(|read| read.tested().map(|()| read.record().to_vec()));
        assert_eq!(options(&numbers, 40), tested, "{numbers:?}");
        let numbers = writing_cases::trial(random);
        if [numbers.fit.len(), numbers.refit.len()] == [9, 9] {
            let read = trial_of_record::<Sheet>(&numbers.packed());
            let again = read.map(|read| trial_record(&read).to_vec());
            assert_eq!(trial(&numbers, 152), again, "{numbers:?}");
        }
    }
}
