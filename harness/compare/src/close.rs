//! What comes up in runs where the rms decides, counted by the book.

use crate::all_came;
use oracle::book::{Best, Book, Call, Options, Outcome, trial_record};
use oracle::cases::step;
use oracle::pick_cases::Case;
use oracle::scoring::{Limits, places};
use oracle::{Family, Model, Trial, distance};

/// What came up in runs of close candidates.
#[derive(Debug, Default)]
pub struct Close {
    runs: usize,
    /// Trials read, and those that are scored with the winner's count.
    trials: usize,
    ties: usize,
    /// By how many doubles the rms is below the winner's, or not.
    won: usize,
    won_by_one: usize,
    equal: usize,
    held_by_one: usize,
    /// Held, and the least that the rms can be doesn't show it.
    not_told: usize,
    /// The fit stands where a refit is asked for and has too few marks.
    again: usize,
    refit_stands: usize,
    at_thresh: usize,
}

impl Close {
    /// Sees that all of it came up.
    pub fn met(&self) {
        assert!(
            all_came(&[
                self.runs,
                self.trials,
                self.ties,
                self.won,
                self.won_by_one,
                self.equal,
                self.held_by_one,
                self.not_told,
                self.again,
                self.refit_stands,
                self.at_thresh
            ]),
            "{self:?}"
        );
    }

    /// A scored trial that has the winner's count.
    fn tie(&mut self, case: &Case, stands: &Model, rms: f64, best: &Best) {
        let limits = Limits::of(case.options.thresh);
        let least = limits.least_rms(&squares(case, stands), best.count, best.rms);
        self.ties += 1;
        self.won += usize::from(rms < best.rms);
        self.won_by_one += usize::from(step(rms, 1) == best.rms);
        self.equal += usize::from(rms == best.rms);
        self.held_by_one += usize::from(rms == step(best.rms, 1));
        self.not_told += usize::from(best.rms <= rms && least < best.rms);
    }

    /// The model that stands in a scored trial.
    fn standing(&mut self, case: &Case, trial: &Trial) -> Model {
        let Options {
            thresh,
            min_inliers,
            refit,
            ..
        } = case.options;
        let asked = trial.refit.filter(|_| refit);
        let enough = |h: &Model| places(thresh, &squares(case, h)).len() >= min_inliers as usize;
        let stands = asked.filter(enough);
        self.again += usize::from(asked.is_some() && stands.is_none());
        self.refit_stands += usize::from(stands.is_some());
        stands.or(trial.fit).expect("a scored trial has a fit")
    }

    /// Counts a run.
    pub fn run(&mut self, case: &Case) {
        let mut book = Book::opened(&case.options);
        self.runs += 1;
        for trial in &case.trials {
            let before = book.winner;
            let answer = book.call(
                &case.fed(),
                &Call {
                    record: &trial_record(trial),
                    marks: &case.marks,
                    stops: &case.stops,
                },
            );
            self.trials += usize::from(answer.number() == 0);
            let (Outcome::Held(count, rms) | Outcome::Won(count, rms)) = answer.outcome else {
                continue;
            };
            let stands = self.standing(case, trial);
            let Options { thresh, ratio, .. } = case.options;
            let met = |mark| distance(&stands, mark, ratio) == thresh;
            self.at_thresh += usize::from(case.mark_list().iter().any(met));
            if let Some(best) = before.filter(|best| best.count == count) {
                self.tie(case, &stands, rms, &best);
            }
        }
    }
}

fn squares(case: &Case, h: &Model) -> Vec<f64> {
    let all = case.mark_list().iter();
    all.map(|mark| case.family.squared(h, mark, case.options.ratio))
        .collect()
}
