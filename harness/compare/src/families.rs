//! The proved functions of each family, under one name for all.

use oracle::book::Options;
use oracle::family_cases::Cases;
use oracle::{Form, FormMark, Mark, Model, Pose, Sheet};
use proved::{form, pick, scoring};

/// A family with its proved functions.
pub trait Proved: Cases {
    /// Opening from records of the options and of the family's value.
    fn open(records: [&[u8]; 2], marks: &[f64], stops: &[u32], state: &mut [u64]) -> u32;
    /// The same from the types.
    fn open_options(
        &self,
        options: &Options,
        marks: &[f64],
        stops: &[u32],
        state: &mut [u64],
    ) -> u32;
    fn trial(state: &[u64], record: &[u8], marks: &[f64], stops: &[u32], out: &mut [u64]) -> u32;
    fn winner_indices(state: &[u64], marks: &[f64], indices: &mut [u32]) -> u64;
    fn read_marks(bytes: &[u8], numbers: &mut [f64]) -> u32;

    fn distance_told(&self, h: &Self::Model, mark: &Self::Mark, ratio: f64) -> u32;
    fn proved_distance(&self, h: &Self::Model, mark: &Self::Mark, ratio: f64) -> f64;
    fn squared_residuals(
        &self,
        h: &Self::Model,
        ratio: f64,
        marks: &[f64],
        squares: &mut [f64],
        counting: bool,
    ) -> usize;
}

fn of_type(options: &Options) -> pick::Options {
    pick::Options {
        thresh: options.thresh,
        confidence: options.confidence,
        max_iters: options.max_iters,
        min_inliers: options.min_inliers,
        refit: options.refit,
        ratio: options.ratio,
    }
}

/// The calls in which no family's value takes part.
macro_rules! calls {
    ($module:ident) => {
        fn trial(
            state: &[u64],
            record: &[u8],
            marks: &[f64],
            stops: &[u32],
            out: &mut [u64],
        ) -> u32 {
            $module::trial(state, record, marks, stops, out)
        }

        fn winner_indices(state: &[u64], marks: &[f64], indices: &mut [u32]) -> u64 {
            $module::winner_indices(state, marks, indices)
        }

        fn read_marks(bytes: &[u8], numbers: &mut [f64]) -> u32 {
            $module::read_marks(bytes, numbers)
        }
    };
}

impl Proved for Sheet {
    fn open([options, none]: [&[u8]; 2], marks: &[f64], stops: &[u32], state: &mut [u64]) -> u32 {
        assert!(none.is_empty());
        pick::open(options, marks, stops, state)
    }

    fn open_options(
        &self,
        options: &Options,
        marks: &[f64],
        stops: &[u32],
        state: &mut [u64],
    ) -> u32 {
        pick::open_options(of_type(options), marks, stops, state)
    }

    calls!(pick);

    fn distance_told(&self, h: &Model, mark: &Mark, ratio: f64) -> u32 {
        proved::distance_told(h, mark, ratio)
    }

    fn proved_distance(&self, h: &Model, mark: &Mark, ratio: f64) -> f64 {
        proved::distance(h, mark, ratio)
    }

    fn squared_residuals(
        &self,
        h: &Model,
        ratio: f64,
        marks: &[f64],
        squares: &mut [f64],
        counting: bool,
    ) -> usize {
        scoring::squared_residuals(h, ratio, marks, squares, counting)
    }
}

impl Proved for Form {
    fn open([options, camera]: [&[u8]; 2], marks: &[f64], stops: &[u32], state: &mut [u64]) -> u32 {
        form::open(options, camera, marks, stops, state)
    }

    fn open_options(
        &self,
        options: &Options,
        marks: &[f64],
        stops: &[u32],
        state: &mut [u64],
    ) -> u32 {
        form::open_options(of_type(options), &self.camera, marks, stops, state)
    }

    calls!(form);

    fn distance_told(&self, h: &Pose, mark: &FormMark, ratio: f64) -> u32 {
        form::distance_told(h, &self.camera, mark, ratio)
    }

    fn proved_distance(&self, h: &Pose, mark: &FormMark, ratio: f64) -> f64 {
        form::distance(h, &self.camera, mark, ratio)
    }

    fn squared_residuals(
        &self,
        h: &Pose,
        ratio: f64,
        marks: &[f64],
        squares: &mut [f64],
        counting: bool,
    ) -> usize {
        form::squared_residuals(h, &self.camera, ratio, marks, squares, counting)
    }
}
