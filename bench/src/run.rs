//! The whole run, beside the original `ransac_fit` over the same recorded
//! trials, which both read to the end. Both measure by the same row ratio.
//!
//! The proved side decodes its bytes within the time, and the Rust's copies
//! the list of trials into a queue.

use crate::cases::{MARKS, TRIALS, at_the_threshold, each_wins, other_counts, same_counts};
use crate::roots::{Roots, follow};
use crate::{ROUNDS, median, nanoseconds};
use oracle::book::WINNER_BYTES;
use oracle::pick_cases::{Bytes, Case};
use oracle::ransac_fit;
use std::hint::black_box;

/// The whole run once, with what it gives.
fn proved(bytes: &Bytes, winner: &mut [u8], indices: &mut [u8]) -> u32 {
    let inputs = [&bytes.options, &bytes.marks, &bytes.stops, &bytes.trials];
    proved::pick::salghemu_run(inputs.map(Vec::as_slice), winner, indices)
}

/// Both sides read every trial and agree on the winner and its indices.
fn agree(case: &Case, roots: &Roots) {
    let (mut winner, mut indices) = ([0; WINNER_BYTES], vec![0; 4 * case.n()]);
    assert_eq!(proved(&case.bytes(), &mut winner, &mut indices), 0);
    let theirs = case.ransac_fit();
    assert_eq!(theirs.read, TRIALS);
    let best = theirs.winner.expect("a winner");
    let count = best.inliers.len() as u32;
    let mut expected = count.to_le_bytes().to_vec();
    expected.extend((best.number as u32).to_le_bytes());
    expected.extend(best.rms.to_le_bytes());
    expected.extend(best.model.iter().flat_map(|h| h.to_le_bytes()));
    assert_eq!(winner.as_slice(), expected);
    let list = best.inliers.iter();
    let list: Vec<u8> = list.flat_map(|&i| (i as u32).to_le_bytes()).collect();
    assert_eq!(indices[..list.len()], list);
    assert_eq!(roots.best, Some((count, best.rms)));
}

/// Nanoseconds a run, the two in turn.
fn times(case: &Case) -> [f64; 2] {
    let (mut winner, mut indices) = ([0; WINNER_BYTES], vec![0; 4 * case.n()]);
    let (bytes, options) = (case.bytes(), case.ransac_options());
    let ratio = case.options.ratio;
    let passes = (MARKS / case.n()).min(20);
    let mut times = [const { Vec::new() }; 2];
    for _ in 0..ROUNDS {
        times[0].push(nanoseconds(passes, || {
            black_box(proved(black_box(&bytes), &mut winner, &mut indices));
        }));
        times[1].push(nanoseconds(passes, || {
            let (marks, ratio, trials) = black_box((case.mark_list(), ratio, &case.trials));
            black_box(ransac_fit(case.family, marks, &options, ratio, trials));
        }));
    }
    times.map(median)
}

/// The runs of 2,000 marks, by name.
fn rows() -> [(&'static str, Case); 6] {
    [
        ("a tenth good", same_counts(MARKS, 10, false)),
        ("all good", same_counts(MARKS, 1, false)),
        ("all good, refits", same_counts(MARKS, 1, true)),
        ("counts differ", other_counts()),
        ("each wins", each_wins()),
        ("at the threshold", at_the_threshold()),
    ]
}

fn row(title: &str, case: &Case) {
    let roots = follow(case);
    agree(case, &roots);
    let [p, o] = times(case);
    println!(
        "{title:<17} {:>9.2} {:>8.2} {:>12.2} {:>13} {:>11} {:>5} {:>8}",
        p / 1e6,
        o / 1e6,
        p / o,
        roots.proved,
        roots.rust,
        roots.won,
        roots.told
    );
}

fn size(n: usize, every: usize) {
    let case = same_counts(n, every, false);
    agree(&case, &follow(&case));
    let [p, o] = times(&case).map(|time| time / TRIALS as f64);
    let title = if every == 1 { "all" } else { "a tenth" };
    println!(
        "{n:<6} {title:<8} {:>16.3} {:>14.3} {:>21.2} {:>19.2} {:>12.2}",
        p / 1e3,
        o / 1e3,
        p / n as f64,
        o / n as f64,
        p / o
    );
}

pub fn run() {
    println!("whole run of {MARKS} marks, {TRIALS} trials");
    println!(
        "                  proved ms  Rust ms  proved/Rust  proved roots  Rust roots   won     told"
    );
    for (title, case) in rows() {
        row(title, &case);
    }
    println!();
    println!("whole run of {TRIALS} trials by the number of marks");
    println!(
        "marks  good     proved us/trial  Rust us/trial  proved ns/mark,trial  Rust ns/mark,trial  proved/Rust"
    );
    for n in [4, 20, 100, 500, 2000] {
        size(n, 10);
        size(n, 1);
    }
}

/// One run of one row and nothing else, for a count of the root's calls.
pub fn once(title: &str) {
    let row = rows().into_iter().find(|row| row.0 == title);
    let (_, case) = row.expect("the name of a row");
    let (mut winner, mut indices) = ([0; WINNER_BYTES], vec![0; 4 * case.n()]);
    assert_eq!(proved(&case.bytes(), &mut winner, &mut indices), 0);
    println!("{title}: {} roots by the rules", follow(&case).proved);
}
