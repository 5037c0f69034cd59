//! vision-calibration-core, the part in use: files of docs/src unchanged,
//! each in a module that the build script wraps.

include!(concat!(env!("OUT_DIR"), "/error.rs"));
include!(concat!(env!("OUT_DIR"), "/linalg.rs"));
include!(concat!(env!("OUT_DIR"), "/math.rs"));
include!(concat!(env!("OUT_DIR"), "/ransac.rs"));

pub use error::Error;
pub use math::{Iso3, Mat3, Mat4, Pt2, Pt3, Real, Vec2, Vec3};

/// What was compiled: a path below docs/src, and the module made of it.
pub const COMPILED: &[(&str, &str)] = &[
    (
        "crates/vision-calibration-core/src/error.rs",
        include_str!(concat!(env!("OUT_DIR"), "/error.rs")),
    ),
    (
        "crates/vision-calibration-core/src/linalg.rs",
        include_str!(concat!(env!("OUT_DIR"), "/linalg.rs")),
    ),
    (
        "crates/vision-calibration-core/src/math/mod.rs",
        include_str!(concat!(env!("OUT_DIR"), "/math.rs")),
    ),
    (
        "crates/vision-calibration-core/src/ransac.rs",
        include_str!(concat!(env!("OUT_DIR"), "/ransac.rs")),
    ),
];
