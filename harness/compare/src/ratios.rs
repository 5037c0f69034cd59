//! Which row ratios came up.

use crate::all_came;
use oracle::ratio_cases::{LEAST, MOST};

/// How often each kind of ratio came.
#[derive(Debug, Default)]
pub struct Ratios {
    /// Those that are accepted: 1, both ends, and others below and above 1.
    one: usize,
    least: usize,
    most: usize,
    finer: usize,
    coarser: usize,
    /// Next to an end, and outside.
    below: usize,
    above: usize,
    /// Those that a hand-made state alone has.
    zero: usize,
    minus_zero: usize,
    negative: usize,
    tiny: usize,
    huge: usize,
    inf: usize,
    minus_inf: usize,
    nan: usize,
}

impl Ratios {
    pub fn add(&mut self, ratio: f64) {
        let one = |is: bool| usize::from(is);
        self.one += one(ratio == 1.0);
        self.least += one(ratio == LEAST);
        self.most += one(ratio == MOST);
        self.finer += one(LEAST < ratio && ratio < 1.0);
        self.coarser += one(1.0 < ratio && ratio < MOST);
        self.below += one(ratio == LEAST.next_down());
        self.above += one(ratio == MOST.next_up());
        self.zero += one(ratio == 0.0 && ratio.is_sign_positive());
        self.minus_zero += one(ratio == 0.0 && ratio.is_sign_negative());
        self.negative += one(ratio < 0.0 && ratio.is_finite());
        self.tiny += one(0.0 < ratio && ratio < 1e-100);
        self.huge += one(1e100 < ratio && ratio.is_finite());
        self.inf += one(ratio == f64::INFINITY);
        self.minus_inf += one(ratio == f64::NEG_INFINITY);
        self.nan += one(ratio.is_nan());
    }

    /// Sees that every kind of accepted ratio came.
    pub fn accepted_met(&self) {
        let accepted = [self.one, self.least, self.most, self.finer, self.coarser];
        assert!(all_came(&accepted), "{self:?}");
    }

    /// Sees that every kind of any ratio came.
    pub fn all_met(&self) {
        self.accepted_met();
        assert!(
            all_came(&[
                self.below,
                self.above,
                self.zero,
                self.minus_zero,
                self.negative,
                self.tiny,
                self.huge,
                self.inf,
                self.minus_inf,
                self.nan
            ]),
            "{self:?}"
        );
    }
}
