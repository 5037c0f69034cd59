//! The sheet of examples/: the run that 01 works through.

use crate::book::Options;
use crate::pick_cases::Case;
use crate::sheet_cases::IDENTITY;
use crate::{Model, Sheet, Trial};
use std::path::PathBuf;

/// The square, its middle mark printed three too far down.
pub const SQUARE: [f64; 20] = [
    0.0, 0.0, 0.0, 0.0, //
    100.0, 0.0, 100.0, 0.0, //
    100.0, 100.0, 100.0, 100.0, //
    0.0, 100.0, 0.0, 100.0, //
    50.0, 50.0, 50.0, 53.0,
];

/// The identity, the identity with h5 = 3, and the identity with h8 = -1.
pub const I: Model = IDENTITY;
pub const T: Model = [1.0, 0.0, 0.0, 0.0, 1.0, 3.0, 0.0, 0.0, 1.0];
pub const BEHIND: Model = [1.0, 0.0, 0.0, 0.0, 1.0, 0.0, 0.0, 0.0, -1.0];

/// What the program prints for the worked run, word for word from 01.
pub const PRINTED: &str = "\
trial outcome count rms
1 won 4 0000000000000000
2 empty - -
3 few 1 -
winner 1 4 0000000000000000
indices 0 1 2 3
counts 3 1 1 1
";

/// The four inputs: a good candidate, no candidate, one moved down by three,
/// and the first again, which the run no longer reads.
pub fn sheet() -> Case {
    let trial = |fit| Trial { fit, refit: None };
    Case {
        family: Sheet,
        options: Options {
            thresh: 2.0,
            confidence: 0.99,
            max_iters: 10,
            min_inliers: 4,
            refit: false,
            ratio: 1.0,
        },
        marks: SQUARE.to_vec(),
        stops: vec![9, 9, 9, 9, 3, 9],
        trials: [Some(I), None, Some(T), Some(I)].map(trial).to_vec(),
    }
}

/// The folder, and each file's name and bytes.
pub fn files() -> (PathBuf, [(&'static str, Vec<u8>); 4]) {
    let folder = PathBuf::from(env!("CARGO_MANIFEST_DIR")).join("../../examples/sheet");
    let bytes = sheet().bytes();
    let files = [
        ("options.bin", bytes.options),
        ("marks.bin", bytes.marks),
        ("stops.bin", bytes.stops),
        ("trials.bin", bytes.trials),
    ];
    (folder, files)
}
