//! The oracle: the original Rust behind plain functions.
//!
//! Names are those of the source. Points and models are arrays of numbers, so
//! that a caller needs nothing of the originals' own types.

pub mod answers;
pub mod book;
pub mod cases;
pub mod close_cases;
pub mod double_cases;
pub mod entries;
pub mod example;
mod family;
pub mod family_cases;
mod form;
pub mod form_cases;
pub mod forms;
mod numbers;
mod pick;
pub mod pick_cases;
pub mod ratio_cases;
pub mod records;
pub mod scoring;
pub mod scoring_cases;
mod sheet;
pub mod sheet_cases;
pub mod sheets;
pub mod whole;
pub mod writing;
pub mod writing_cases;

pub use family::{Family, Measure, Numbers};
pub use form::{CAMERA, Camera, Form, FormMark, Point3, Pose, dlt_rows_3d, normalize_points_3d};
pub use numbers::{
    NUMBER, dlt_rank_ok, ensure_finite, quadratic, root, root_refusal, solve_quadratic_real,
};
pub use pick::{
    RansacOptions, Replayed, Run, Trial, Winner, calculate_iterations, is_better_model, ransac_fit,
    rms, stop_list,
};
pub use sheet::{
    Mark, Model, Point, Sheet, beyond, distance, dlt_rows, measure, normalize_points_2d,
    points_are_collinear,
};
