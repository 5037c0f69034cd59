//! What the comparison has to be told of a family of marks and models: how many
//! numbers each has, the fewest marks of a run, and how a mark is measured. The
//! book, `ransac_fit` over recorded trials and the inputs are said of any
//! family by these.

use crate::book::{FIT_AT, MODEL_AT};
use crate::entries::RECORD;
use std::fmt::Debug;

/// So many numbers, a mark's or a model's.
pub trait Numbers: Copy + Debug + PartialEq + AsRef<[f64]> + AsMut<[f64]> + 'static {
    const COUNT: usize;

    fn from_fn(one: impl FnMut(usize) -> f64) -> Self;

    /// The whole ones of a flat list, and what is left over.
    fn chunks(list: &[f64]) -> (&[Self], &[f64]);

    /// Each number changed.
    fn each(&self, mut change: impl FnMut(f64) -> f64) -> Self {
        Self::from_fn(|k| change(self.as_ref()[k]))
    }
}

impl<const N: usize> Numbers for [f64; N] {
    const COUNT: usize = N;

    fn from_fn(one: impl FnMut(usize) -> f64) -> Self {
        std::array::from_fn(one)
    }

    fn chunks(list: &[f64]) -> (&[Self], &[f64]) {
        list.as_chunks()
    }
}

/// What 02's order 2 has a distance say of a mark.
#[derive(Clone, Copy, Debug, PartialEq)]
pub enum Measure {
    Beyond,
    Distance(f64),
}

/// A value is what marks are measured by besides a model and a row ratio: a
/// form's camera, and nothing for a sheet.
pub trait Family: Copy + Debug + 'static {
    /// Coordinates, then pixel u and v.
    type Mark: Numbers;
    /// Three rows, each of a number a coordinate and one more.
    type Model: Numbers;

    /// The fewest marks of a run, and its sample size.
    const FEWEST: usize;
    /// How many numbers a value has.
    const NUMBERS: usize;

    /// Numbers a mark, and the most marks.
    const WIDTH: usize = Self::Mark::COUNT;
    const MOST: usize = 8000 / Self::WIDTH;
    /// Numbers a model, and those of one of its rows.
    const SIZE: usize = Self::Model::COUNT;
    const ROW: usize = Self::SIZE / 3;
    /// Where a trial's refit begins, and its bytes.
    const REFIT_AT: usize = FIT_AT + 8 * Self::SIZE;
    const TRIAL_BYTES: usize = FIT_AT + 16 * Self::SIZE;
    /// Where the ratio stands among a state's words, behind the winner's model,
    /// and how many words there are.
    const RATIO_AT: usize = MODEL_AT + Self::SIZE;
    const WORDS: usize = Self::RATIO_AT + 1 + Self::NUMBERS;

    fn numbers(&self) -> &[f64];
    fn of_numbers(numbers: &[f64]) -> Self;

    /// What an opening asks of it behind everything else.
    fn tested(&self) -> Result<(), u32>;

    /// What decides whether a mark is beyond, and is divided by: s, or Z.
    fn divisor(h: &Self::Model, mark: &Self::Mark) -> f64;

    /// The pixel at which the model has the mark, whatever the divisor is.
    fn mapped(&self, h: &Self::Model, mark: &Self::Mark) -> [f64; 2];

    /// Beyond: the divisor isn't above 0.
    fn beyond(h: &Self::Model, mark: &Self::Mark) -> bool {
        // Not `<= 0.0`: with a NaN it is beyond too.
        !(Self::divisor(h, mark) > 0.0)
    }

    /// 01's du·du + dv·dv, for a mark that isn't beyond, with the difference
    /// along v multiplied by the ratio before squaring, as 02's order 3 has it.
    fn squared_apart(&self, h: &Self::Model, mark: &Self::Mark, ratio: f64) -> f64 {
        let [across, down] = self.mapped(h, mark);
        let &[.., u, v] = mark.as_ref() else {
            panic!("a mark has a pixel");
        };
        let du = across - u;
        let dv = (down - v) * ratio;
        du * du + dv * dv
    }

    /// The distance by a row ratio, the residual of the replayed estimator:
    /// infinite where the mark is beyond.
    #[inline]
    fn distance(&self, h: &Self::Model, mark: &Self::Mark, ratio: f64) -> f64 {
        match Self::beyond(h, mark) {
            true => f64::INFINITY,
            false => self.squared_apart(h, mark, ratio).sqrt(),
        }
    }

    /// The square that the distance is the root of.
    fn squared(&self, h: &Self::Model, mark: &Self::Mark, ratio: f64) -> f64 {
        match Self::beyond(h, mark) {
            true => f64::INFINITY,
            false => self.squared_apart(h, mark, ratio),
        }
    }

    /// The distance, with beyond told from a number, which may be infinite too.
    fn measure(&self, h: &Self::Model, mark: &Self::Mark, ratio: f64) -> Measure {
        match Self::beyond(h, mark) {
            true => Measure::Beyond,
            false => Measure::Distance(self.distance(h, mark, ratio)),
        }
    }

    /// The value's record: its numbers, eight bytes each.
    fn record(&self) -> Vec<u8> {
        let numbers = self.numbers().iter();
        numbers.flat_map(|x| x.to_le_bytes()).collect()
    }

    /// The value of its record, or 1 for one of another length.
    fn of_record(bytes: &[u8]) -> Result<Self, u32> {
        let (doubles, rest) = bytes.as_chunks();
        if doubles.len() != Self::NUMBERS || !rest.is_empty() {
            return Err(RECORD);
        }
        let numbers: Vec<f64> = doubles.iter().map(|&x| f64::from_le_bytes(x)).collect();
        Ok(Self::of_numbers(&numbers))
    }
}
