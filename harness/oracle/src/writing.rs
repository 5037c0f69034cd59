//! Records made from plain numbers, from the document's words alone: what is
//! refused, in which order, and where each number stands in the bytes.
//!
//! `room` is the length of the output in bytes; whether the record fits is
//! looked at last. A refusal is its number.

use crate::Mark;
use crate::book::{OPTIONS_BYTES, Options, TRIAL_BYTES};
use crate::entries::{RECORD, ROOM, allowed};

/// Bytes of a mark.
pub const MARK_BYTES: usize = 32;

/// The options' numbers as a caller hands them in: the mark is any byte.
#[derive(Clone, Copy, Debug)]
pub struct OptionsNumbers {
    pub thresh: f64,
    pub confidence: f64,
    pub max_iters: u32,
    pub min_inliers: u32,
    pub refit_mark: u8,
    pub ratio: f64,
}

/// A trial's: the marks are any bytes, and the lists of any length.
#[derive(Clone, Debug)]
pub struct TrialNumbers {
    pub fit_mark: u8,
    pub refit_mark: u8,
    pub fit: Vec<f64>,
    pub refit: Vec<f64>,
}

// The bytes of any numbers, refused ones too.

fn doubles(numbers: &[f64]) -> Vec<u8> {
    numbers.iter().flat_map(|x| x.to_le_bytes()).collect()
}

impl OptionsNumbers {
    /// Threshold and confidence, the two counts, the mark, seven zero bytes, the
    /// ratio.
    pub fn packed(&self) -> Vec<u8> {
        let mut bytes = doubles(&[self.thresh, self.confidence]);
        bytes.extend(self.max_iters.to_le_bytes());
        bytes.extend(self.min_inliers.to_le_bytes());
        bytes.extend([self.refit_mark, 0, 0, 0, 0, 0, 0, 0]);
        bytes.extend(self.ratio.to_le_bytes());
        bytes
    }
}

impl TrialNumbers {
    /// The two marks, six zero bytes, the fit's numbers, the refit's.
    pub fn packed(&self) -> Vec<u8> {
        let mut bytes = vec![self.fit_mark, self.refit_mark, 0, 0, 0, 0, 0, 0];
        bytes.extend(doubles(&self.fit));
        bytes.extend(doubles(&self.refit));
        bytes
    }
}

/// Sheet x and y, pixel u and v.
pub fn packed_mark(mark: &Mark) -> Vec<u8> {
    doubles(mark)
}

// The records, or the refusals.

/// The last test: 9.
fn fitting(record: Vec<u8>, room: usize) -> Result<Vec<u8>, u32> {
    if room < record.len() {
        Err(ROOM)
    } else {
        Ok(record)
    }
}

/// Whether a mark is set; 1 for one that is neither 0 nor 1.
fn is_set(mark: u8) -> Result<bool, u32> {
    match mark {
        0 => Ok(false),
        1 => Ok(true),
        _ => Err(RECORD),
    }
}

/// 1 for the mark, 2, 3, 4, 16, 9.
pub fn options(numbers: &OptionsNumbers, room: usize) -> Result<Vec<u8>, u32> {
    let options = Options {
        thresh: numbers.thresh,
        confidence: numbers.confidence,
        max_iters: numbers.max_iters,
        min_inliers: numbers.min_inliers,
        refit: is_set(numbers.refit_mark)?,
        ratio: numbers.ratio,
    };
    options.tested()?;
    let record = numbers.packed();
    assert_eq!(record.len(), OPTIONS_BYTES);
    fitting(record, room)
}

/// 6, 9.
pub fn mark(mark: &Mark, room: usize) -> Result<Vec<u8>, u32> {
    allowed(mark)?;
    let record = packed_mark(mark);
    assert_eq!(record.len(), MARK_BYTES);
    fitting(record, room)
}

/// Nine numbers: finite where they are marked, all bits zero where not.
fn are_a_models(numbers: &[f64], marked: bool) -> bool {
    let one = |x: &f64| {
        if marked {
            x.is_finite()
        } else {
            x.to_bits() == 0
        }
    };
    numbers.len() == 9 && numbers.iter().all(one)
}

/// 1, 9.
pub fn trial(numbers: &TrialNumbers, room: usize) -> Result<Vec<u8>, u32> {
    let fit = is_set(numbers.fit_mark)?;
    let refit = is_set(numbers.refit_mark)?;
    let formed = are_a_models(&numbers.fit, fit) && are_a_models(&numbers.refit, refit);
    if (refit && !fit) || !formed {
        return Err(RECORD);
    }
    let record = numbers.packed();
    assert_eq!(record.len(), TRIAL_BYTES);
    fitting(record, room)
}
