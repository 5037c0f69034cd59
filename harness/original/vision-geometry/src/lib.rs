//! vision-geometry, the part in use: files of docs/src unchanged, each in a
//! module that the build script wraps, and the lines of one that make the rows
//! of `dlt`.

include!(concat!(env!("OUT_DIR"), "/dlt.rs"));
include!(concat!(env!("OUT_DIR"), "/error.rs"));
include!(concat!(env!("OUT_DIR"), "/homography.rs"));
include!(concat!(env!("OUT_DIR"), "/math.rs"));

pub use error::{GeometryError, Result};

/// What was compiled: a path below docs/src, and the module made of it.
pub const COMPILED: &[(&str, &str)] = &[
    (
        "crates/vision-geometry/src/error.rs",
        include_str!(concat!(env!("OUT_DIR"), "/error.rs")),
    ),
    (
        "crates/vision-geometry/src/homography.rs",
        include_str!(concat!(env!("OUT_DIR"), "/homography.rs")),
    ),
    (
        "crates/vision-geometry/src/math.rs",
        include_str!(concat!(env!("OUT_DIR"), "/math.rs")),
    ),
];

/// The lines that were lifted: their file, and the module made of them.
pub const LIFTED: &[(&str, &str)] = &[(
    "crates/vision-geometry/src/pnp/dlt.rs",
    include_str!(concat!(env!("OUT_DIR"), "/dlt.rs")),
)];
