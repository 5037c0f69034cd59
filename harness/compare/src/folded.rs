//! What comes up in trials whose fit has marks beyond the horizon, counted from
//! the words of their calls and answers.

use crate::all_came;
use oracle::book::{Call, State, trial_of_record};
use oracle::{Family, Numbers};

/// How often an answer that isn't refused told of marks beyond.
#[derive(Debug, Default)]
pub struct Folded {
    /// By the outcome.
    few: usize,
    held: usize,
    won: usize,
    /// All of the marks, or some of them.
    all: usize,
    some: usize,
    /// Some are beyond, and as many as are asked for are within.
    some_scored: usize,
    /// The refit stands, and another number is beyond under it: more, or fewer.
    refit_more: usize,
    refit_fewer: usize,
    /// At a mark s, or Z, is 0, a NaN, -inf, or +inf: that mark isn't beyond.
    zero_s: usize,
    nan_s: usize,
    minus_inf_s: usize,
    inf_s: usize,
    /// None is beyond, and at a mark the distance is infinite, or a NaN.
    far: usize,
    nan: usize,
    /// Under a threshold of +inf, where they count, or of a NaN.
    inf_thresh: usize,
    nan_thresh: usize,
}

fn count_of<K>(marks: &[K], is: impl Fn(&K) -> bool) -> usize {
    marks.iter().filter(|mark| is(mark)).count()
}

impl Folded {
    /// Counts a call on a state, with the last four words of its answer.
    pub fn add<F: Family>(&mut self, state: &[u64], call: &Call, told: &[u64]) {
        let &[outcome, _, _, told] = told else {
            panic!("four words, not {told:?}");
        };
        // Refused or empty: there is no fit.
        if outcome < 2 {
            return;
        }
        let state = State::<F>::of_words(state);
        let trial = trial_of_record::<F>(call.record).expect("it isn't refused");
        let marks = F::Mark::chunks(call.marks).0;
        let fit = trial.fit.expect("it isn't empty");
        self.kinds_of_s::<F>(&fit, marks);
        if told == 0 {
            let by = |mark| state.family.distance(&fit, mark, state.options.ratio);
            let any = |is: fn(f64) -> bool| usize::from(marks.iter().any(|mark| is(by(mark))));
            self.far += any(f64::is_infinite);
            self.nan += any(f64::is_nan);
        } else {
            self.told(&state, outcome, (told as usize) < marks.len());
        }
        if let (3.., true, Some(refit)) = (outcome, state.options.refit, &trial.refit) {
            self.refit(&state, refit, marks, told as usize);
        }
    }

    /// Some marks are told of, or all.
    fn told<F: Family>(&mut self, state: &State<F>, outcome: u64, some: bool) {
        let thresh = state.options.thresh;
        self.few += usize::from(outcome == 2);
        self.held += usize::from(outcome == 3);
        self.won += usize::from(outcome == 4);
        self.all += usize::from(!some);
        self.some += usize::from(some);
        self.some_scored += usize::from(some && outcome > 2 && state.options.min_inliers > 0);
        self.inf_thresh += usize::from(thresh == f64::INFINITY);
        self.nan_thresh += usize::from(thresh.is_nan());
    }

    /// A refit that is asked for, where the fit is scored.
    fn refit<F: Family>(
        &mut self,
        state: &State<F>,
        refit: &F::Model,
        marks: &[F::Mark],
        told: usize,
    ) {
        let options = &state.options;
        let by = |mark: &F::Mark| state.family.distance(refit, mark, options.ratio);
        let within = count_of(marks, |mark| by(mark) <= options.thresh);
        if within >= options.min_inliers as usize {
            let under = count_of(marks, |mark| F::beyond(refit, mark));
            self.refit_more += usize::from(under > told);
            self.refit_fewer += usize::from(under < told);
        }
    }

    fn kinds_of_s<F: Family>(&mut self, h: &F::Model, marks: &[F::Mark]) {
        let any = |is: fn(f64) -> bool| {
            let mut all = marks.iter().map(|mark| F::divisor(h, mark));
            usize::from(all.any(is))
        };
        self.zero_s += any(|s| s == 0.0);
        self.nan_s += any(f64::is_nan);
        self.minus_inf_s += any(|s| s == f64::NEG_INFINITY);
        self.inf_s += any(|s| s == f64::INFINITY);
    }

    /// Sees that all of it came up that an opening's options allow.
    pub fn met(&self) {
        assert!(
            all_came(&[
                self.few,
                self.held,
                self.won,
                self.all,
                self.some,
                self.some_scored,
                self.refit_more,
                self.refit_fewer,
                self.zero_s,
                self.nan_s,
                self.minus_inf_s,
                self.inf_s,
                self.far,
                self.nan
            ]),
            "{self:?}"
        );
    }

    /// The same of a hand-made state's threshold.
    pub fn thresholds_met(&self) {
        assert!(all_came(&[self.inf_thresh, self.nan_thresh]), "{self:?}");
    }
}
