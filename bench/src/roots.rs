//! The roots that a whole run takes, followed trial by trial with the same
//! decisions.
//!
//! The proved side takes two for the limits of the threshold at each count,
//! rms and list of indices, and one for each mark between them. The least that
//! an rms can be takes one, and one for the lower limit. An rms that is worked
//! out takes one for each mark that is within by the limit, and one for the
//! mean; where a mark between them is within, its root is there already. The
//! Rust takes one for each mark of each model counted, and one for the rms of
//! each trial scored.

use oracle::pick_cases::Case;
use oracle::scoring::{Limits, places, rms};
use oracle::{Family, Model};

pub struct Roots {
    limits: Limits,
    pub proved: usize,
    pub rust: usize,
    /// How many trials won, and how many were held by the least of their rms.
    pub won: usize,
    pub told: usize,
    /// The winner's count and rms.
    pub best: Option<(u32, f64)>,
}

/// Follows a run that reads all its trials.
pub fn follow(case: &Case) -> Roots {
    let mut roots = Roots {
        limits: Limits::of(case.options.thresh),
        proved: 0,
        rust: 0,
        won: 0,
        told: 0,
        best: None,
    };
    let squares = |h: &Model| -> Vec<f64> {
        let (marks, ratio) = (case.mark_list().iter(), case.options.ratio);
        marks
            .map(|mark| case.family.squared(h, mark, ratio))
            .collect()
    };
    let mut winner = Vec::new();
    for trial in &case.trials {
        let mut stands = squares(&trial.fit.expect("good or poor"));
        let mut count = roots.count(&stands);
        if count < case.options.min_inliers {
            continue;
        }
        if let Some(refit) = trial.refit.filter(|_| case.options.refit) {
            let again = squares(&refit);
            let of_refit = roots.count(&again);
            if of_refit >= case.options.min_inliers {
                (stands, count) = (again, of_refit);
            }
        }
        if roots.scored(&stands, count) {
            winner = stands;
        }
    }
    roots.walk(&winner);
    roots
}

impl Roots {
    /// A walk over the squares, without its roots for marks within.
    fn walk(&mut self, squares: &[f64]) {
        let between = squares.iter().filter(|q| self.limits.is_between(**q));
        self.proved += self.limits.roots.iter().sum::<usize>() + between.count();
    }

    fn count(&mut self, squares: &[f64]) -> u32 {
        self.walk(squares);
        self.rust += squares.len();
        places(self.limits.thresh, squares).len() as u32
    }

    /// An rms that is worked out.
    fn rms(&mut self, squares: &[f64], count: u32) -> f64 {
        if count > 0 {
            self.walk(squares);
            let low = |q: &&f64| (0.0..=self.limits.low).contains(*q);
            self.proved += squares.iter().filter(low).count() + 1;
        }
        rms(self.limits.thresh, squares, count)
    }

    /// Whether the least that the rms can be tells that it is not below.
    fn is_told(&mut self, squares: &[f64], count: u32, best: f64) -> bool {
        if count == 0 {
            return false;
        }
        self.proved += self.limits.roots[0] + 1;
        best <= self.limits.least_rms(squares, count, best)
    }

    /// A scored trial: whether it wins.
    fn scored(&mut self, squares: &[f64], count: u32) -> bool {
        self.rust += 1;
        let most = self.best.map_or(count, |(most, _)| most);
        let tie = self.best.filter(|_| count == most).map(|(_, best)| best);
        if count < most {
            return false;
        }
        if tie.is_some_and(|best| self.is_told(squares, count, best)) {
            self.told += 1;
            return false;
        }
        let rms = self.rms(squares, count);
        let wins = tie.is_none_or(|best| rms < best);
        if wins {
            self.best = Some((count, rms));
            self.won += 1;
        }
        wins
    }
}
