//! The proved rank test against `dlt_rank_ok`.

use compare::cases;
use oracle::cases::{Random, Rank, rank, rank_traps};

fn compare(case: &Rank) -> bool {
    let Rank {
        values,
        cols,
        null,
        tolerance,
    } = case;
    let ours = proved::dlt_rank_ok(values, *cols, *null, *tolerance);
    let theirs = oracle::dlt_rank_ok(values, *cols, *null, *tolerance);
    assert_eq!(ours, theirs, "{case:?}");
    ours
}

#[test]
fn ranks() {
    let random = &mut Random::new(4);
    let mut tally = [0; 2];
    for case in rank_traps() {
        tally[usize::from(compare(&case))] += 1;
    }
    for _ in 0..cases(1_000_000) {
        tally[usize::from(compare(&rank(random)))] += 1;
    }
    println!("no: {}, yes: {}", tally[0], tally[1]);
}

/// A listed difference, not compared: null + 1 overflows, and we say no.
#[test]
fn no_where_null_plus_one_overflows() {
    for cols in [0, 1, 2, usize::MAX] {
        for values in [&[][..], &[1.0], &[1.0, 1.0]] {
            assert!(!proved::dlt_rank_ok(values, cols, usize::MAX, 1.0));
            assert!(!proved::dlt_rank_ok(
                values,
                cols,
                usize::MAX,
                f64::NEG_INFINITY
            ));
        }
    }
}
