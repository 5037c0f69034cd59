//! The book, written from 01 alone, gives what `ransac_fit` gives over the
//! reference's whole domain, for sheets and for forms.

use oracle::book::{Best, Book, Call, Options, Outcome, State, trial_record};
use oracle::cases::Random;
use oracle::family_cases::Cases;
use oracle::pick_cases::{Case, reference, runs};
use oracle::ratio_cases::{LEAST, MOST};
use oracle::{Form, Numbers, Run, Sheet, Trial, Winner, stop_list};

/// What came up, so that a run of many shows that the domain was reached.
#[derive(Debug, Default)]
struct Tally {
    runs: usize,
    trials: usize,
    no_winner: usize,
    count_0: usize,
    /// Infinite though marks lie within.
    infinite_rms: usize,
    ended_early: usize,
    bound_rose: usize,
    held: usize,
    /// Held with the winner's count and rms.
    equal: usize,
    /// Won with the winner's count and a lower rms.
    closer: usize,
    empty: usize,
    few: usize,
    refit_stands: usize,
    /// A distance is the threshold, by ratio 1 or another.
    at_thresh: usize,
    at_thresh_by_ratio: usize,
    /// Runs by ratio 1, both ends, and any other below and above 1.
    one: usize,
    least: usize,
    most: usize,
    finer: usize,
    coarser: usize,
    /// Runs that by ratio 1 would end elsewhere or have another winner.
    decided: usize,
}

impl Tally {
    fn met(&self) {
        let counts = [
            self.no_winner,
            self.count_0,
            self.infinite_rms,
            self.ended_early,
            self.bound_rose,
            self.held,
            self.equal,
            self.closer,
            self.empty,
            self.few,
            self.refit_stands,
            self.at_thresh,
            self.at_thresh_by_ratio,
            self.one,
            self.least,
            self.most,
            self.finer,
            self.coarser,
            self.decided,
        ];
        assert!(counts.iter().all(|&count| count > 0), "{self:?}");
    }

    /// Counts one trial, by the book before and after it.
    fn step<F: Cases>(
        &mut self,
        case: &Case<F>,
        trial: &Trial<F::Model>,
        before: &Book<F::Model>,
        after: &Book<F::Model>,
        outcome: &Outcome,
    ) {
        self.trials += 1;
        self.bound_rose += usize::from(after.bound > before.bound);
        match outcome {
            Outcome::Refused(number) => panic!("refused {number}: {case:?}"),
            Outcome::Empty => self.empty += 1,
            Outcome::Few(_) => self.few += 1,
            Outcome::Held(count, rms) => {
                self.held += 1;
                let same = |best: Best<_>| best.count == *count && best.rms == *rms;
                self.equal += usize::from(before.winner.is_some_and(same));
            }
            Outcome::Won(count, rms) => {
                self.count_0 += usize::from(*count == 0);
                self.infinite_rms += usize::from(*count > 0 && rms.is_infinite());
                let closer = |best: Best<_>| best.count == *count;
                self.closer += usize::from(before.winner.is_some_and(closer));
                let model = after.winner.expect("it won").model;
                self.refit_stands += usize::from(Some(model) != trial.fit);
            }
        }
        if let Some(fit) = &trial.fit {
            let Options { thresh, ratio, .. } = case.options;
            let met = |mark| case.family.distance(fit, mark, ratio) == thresh;
            let met = case.mark_list().iter().any(met);
            self.at_thresh += usize::from(met && ratio == 1.0);
            self.at_thresh_by_ratio += usize::from(met && ratio != 1.0);
        }
    }

    /// Counts a run's ratio, and whether the original gives something else by 1.
    fn ratio<F: Cases>(&mut self, case: &Case<F>, theirs: &Run<F::Model>) {
        let ratio = case.options.ratio;
        self.one += usize::from(ratio == 1.0);
        self.least += usize::from(ratio == LEAST);
        self.most += usize::from(ratio == MOST);
        self.finer += usize::from(LEAST < ratio && ratio < 1.0);
        self.coarser += usize::from(1.0 < ratio && ratio < MOST);
        let mut by_one = case.clone();
        by_one.options.ratio = 1.0;
        let other = by_one.ransac_fit();
        let told = |run: &Run<F::Model>| {
            let winner = run.winner.as_ref();
            winner.map(|best| (best.number, best.inliers.len(), best.rms.to_bits()))
        };
        let differs = (told(theirs), theirs.read) != (told(&other), other.read);
        self.decided += usize::from(differs);
        assert!(!differs || ratio != 1.0, "{case:?}");
    }
}

/// The state after the whole list, trial by trial.
fn booked<F: Cases>(case: &Case<F>, tally: &mut Tally) -> State<F> {
    let mut state = case.open();
    for trial in &case.trials {
        if state.book.ended() {
            break;
        }
        let before = state.book;
        let answer = state.trial(&Call {
            record: &trial_record(trial),
            marks: &case.marks,
            stops: &case.stops,
        });
        tally.step(case, trial, &before, &state.book, &answer.outcome);
    }
    state
}

/// The book's winner is the original's, with the same indices.
fn same_winner<F: Cases>(case: &Case<F>, state: &State<F>, theirs: Winner<F::Model>) {
    let ours = state.book.winner.expect("a winner, as theirs");
    let numbers = (ours.number as usize, ours.count as usize);
    assert_eq!(numbers, (theirs.number, theirs.inliers.len()), "{case:?}");
    assert_eq!(ours.rms.to_bits(), theirs.rms.to_bits(), "{case:?}");
    let bits = |model: F::Model| {
        model
            .as_ref()
            .iter()
            .map(|h| h.to_bits())
            .collect::<Vec<_>>()
    };
    assert_eq!(bits(ours.model), bits(theirs.model), "{case:?}");
    let indices = state.winner_indices(&case.marks, case.n());
    let indices = indices.expect("a winner and room");
    assert!(
        indices
            .iter()
            .map(|&i| i as usize)
            .eq(theirs.inliers.iter().copied()),
        "{indices:?}, not {:?}: {case:?}",
        theirs.inliers
    );
}

fn agree<F: Cases>(case: &Case<F>, tally: &mut Tally) {
    let theirs = case.ransac_fit();
    let state = booked(case, tally);
    let book = &state.book;
    assert_eq!(book.read as usize, theirs.read, "{case:?}");
    assert_eq!(book.read, book.empty + book.few + book.scored);
    tally.runs += 1;
    tally.ratio(case, &theirs);
    tally.ended_early += usize::from(theirs.read < case.trials.len());
    match theirs.winner {
        Some(winner) => same_winner(case, &state, winner),
        None => {
            assert!(book.winner.is_none(), "{case:?}");
            assert_eq!(book.scored, 0);
            tally.no_winner += 1;
        }
    }
}

/// The book gives what `ransac_fit` gives.
fn runs_agree<F: Cases>(seed: u64) {
    let random = &mut Random::new(seed);
    let mut tally = Tally::default();
    let count = runs(6_000, 100);
    for i in 0..count {
        agree(&reference::<F>(random, i), &mut tally);
    }
    println!("{tally:?}");
    if count >= 2_000 {
        tally.met();
    }
}

#[test]
fn runs_of_sheets_agree() {
    runs_agree::<Sheet>(20);
}

#[test]
fn runs_of_forms_agree() {
    runs_agree::<Form>(23);
}

/// The most iterations there may be, all of them made; under the last one's
/// model every mark is beyond.
fn the_longest_run<F: Cases>() {
    let random = &mut Random::new(21);
    let mut case = reference::<F>(random, 1);
    let options = Options {
        thresh: 1e-300,
        confidence: 0.99,
        max_iters: 100_000,
        min_inliers: 1,
        refit: true,
        ratio: 0.5,
    };
    case.options = options;
    case.marks.truncate(F::WIDTH * F::FEWEST);
    case.stops = stop_list::<F>(options.confidence, F::FEWEST);
    case.trials = vec![Trial::default(); 100_000];
    case.trials[99_999].fit = Some(F::Model::from_fn(|_| 0.0));
    let mut tally = Tally::default();
    agree(&case, &mut tally);
    assert_eq!((tally.trials, tally.few), (100_000, 1));
}

#[test]
fn the_longest_run_of_a_sheet() {
    the_longest_run::<Sheet>();
}

#[test]
fn the_longest_run_of_a_form() {
    the_longest_run::<Form>();
}

/// The original accepts the options that 01 accepts, apart from the ceiling on
/// max_iters, which is 01's own; the ratio, which it doesn't have, is accepted.
#[test]
fn options_are_validated_alike() {
    let random = &mut Random::new(22);
    let mut accepted = [0; 2];
    for _ in 0..20_000 {
        let mut double = || match random.below(3) {
            0 => random.pick(&[0.0, -0.0, 1.0, 0.5, f64::NAN, f64::INFINITY, -1.0]),
            1 => random.unit(),
            _ => random.pattern(),
        };
        let mut case: Case = reference(&mut Random::new(1), 1);
        (case.options.thresh, case.options.confidence) = (double(), double());
        case.options.max_iters = random.pick(&[0, 1, 1000, 100_000, 100_000]);
        let ours = case.options.tested().is_ok();
        assert_eq!(ours, case.ransac_options().validate().is_ok());
        accepted[usize::from(ours)] += 1;
    }
    assert!(accepted.iter().all(|&count| count > 500), "{accepted:?}");
}

/// The maker from a threshold alone has the original's defaults, and 1 for the
/// ratio.
#[test]
fn defaults_are_the_originals() {
    let theirs = oracle::RansacOptions::new(1.5);
    let ours = Options::new(1.5);
    assert_eq!(ours.max_iters as usize, theirs.max_iters);
    assert_eq!(ours.min_inliers as usize, theirs.min_inliers);
    assert_eq!((ours.thresh, ours.confidence), (1.5, theirs.confidence));
    assert_eq!((ours.refit, ours.ratio), (theirs.refit_on_inliers, 1.0));
}
