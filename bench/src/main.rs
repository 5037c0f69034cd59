//! Times the proved code beside the Rust's, in one run: the medians of several
//! rounds.

mod cases;
mod marks;
mod root;
mod roots;
mod run;
mod sheet;
mod walk;
mod write;

use oracle::{Form, Sheet};
use std::time::Instant;

const ROUNDS: usize = 15;

/// Nanoseconds a pass, over many passes.
fn nanoseconds(passes: usize, mut pass: impl FnMut()) -> f64 {
    let start = Instant::now();
    for _ in 0..passes {
        pass();
    }
    start.elapsed().as_nanos() as f64 / passes as f64
}

fn median(mut times: Vec<f64>) -> f64 {
    times.sort_by(f64::total_cmp);
    times[times.len() / 2]
}

/// Everything; or, given `marks`, the tests of marks alone; or, given the name of a
/// row of the whole run, that run once.
fn main() {
    match std::env::args().nth(1).as_deref() {
        Some("marks") => marks::run(),
        Some(title) => run::once(title),
        None => all(),
    }
}

fn all() {
    root::run();
    println!();
    marks::run();
    println!();
    sheet::run();
    println!();
    walk::run::<Sheet>();
    println!();
    walk::rms_of_a_list::<Sheet>();
    println!();
    println!("Standing forms:");
    walk::run::<Form>();
    println!();
    run::run();
    println!();
    write::run();
}
