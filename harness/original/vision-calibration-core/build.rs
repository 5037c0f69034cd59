//! Wraps the files of vision-calibration-core.

fn main() {
    let wrap = |file: &str, name: &str, open: &str| {
        wrap::wrap(
            &format!("crates/vision-calibration-core/src/{file}"),
            name,
            open,
        );
    };
    wrap("error.rs", "error", "");
    wrap("linalg.rs", "linalg", "");
    wrap("math/mod.rs", "math", "");
    wrap("ransac.rs", "ransac", RANSAC);

    // math/mod.rs names a file that isn't in docs/src: four empty functions.
    let out = std::env::var("OUT_DIR").expect("run by cargo");
    let folder = std::path::Path::new(&out).join("math");
    std::fs::create_dir_all(&folder).expect("OUT_DIR");
    std::fs::write(folder.join("coordinate_utils.rs"), COORDINATE_UTILS).expect("OUT_DIR");
}

const COORDINATE_UTILS: &str = "\
pub fn distort_to_pixel() {}
pub fn normalized_to_pixel() {}
pub fn pixel_to_normalized() {}
pub fn undistort_pixel() {}
";

const RANSAC: &str = "\
pub fn rms(vals: &[f64]) -> f64 {
    super::rms(vals)
}
pub fn calculate_iterations(
    confidence: f64,
    inlier_ratio: f64,
    min_samples: usize,
    iters_so_far: usize,
    max_iters: usize,
) -> usize {
    super::calculate_iterations(confidence, inlier_ratio, min_samples, iters_so_far, max_iters)
}
pub fn is_better_model(
    has_current_best: bool,
    new_inlier_count: usize,
    new_inlier_rms: f64,
    best_inlier_count: usize,
    best_inlier_rms: f64,
) -> bool {
    super::is_better_model(
        has_current_best,
        new_inlier_count,
        new_inlier_rms,
        best_inlier_count,
        best_inlier_rms,
    )
}";
