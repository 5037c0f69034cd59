//! The proved quadratic against `solve_quadratic_real`.

use compare::{cases, same};
use oracle::cases::{Coefficients, Random, quadratic_limits, quadratic_traps};

/// Compares one; tells the number of roots, or 15.
fn compare([a, b, c]: Coefficients) -> u32 {
    let count = proved::quadratic_count(a, b, c);
    let ours = [0, 1].map(|place| proved::quadratic_root(a, b, c, place));
    let (number, theirs) = match oracle::quadratic(a, b, c) {
        Ok(roots) => (roots.len() as u32, roots),
        Err(number) => (number, Vec::new()),
    };
    assert_eq!(count, number, "{a:e} {b:e} {c:e}");
    for place in 0..2 {
        let root = theirs.get(place).copied().unwrap_or(f64::NAN);
        assert!(
            same(ours[place], root),
            "{a:e} {b:e} {c:e}: {ours:?}, not {theirs:?}"
        );
    }
    count
}

#[test]
fn quadratics() {
    let random = &mut Random::new(3);
    let mut tally = [0; 16];
    for case in quadratic_traps().into_iter().chain(quadratic_limits()) {
        tally[compare(case) as usize] += 1;
    }
    for i in 0..cases(1_000_000) {
        tally[compare(oracle::cases::quadratic(random, i)) as usize] += 1;
    }
    println!(
        "roots 0: {}, 1: {}, 2: {}; refused: {}",
        tally[0], tally[1], tally[2], tally[15]
    );
}

/// There are two places at most.
#[test]
fn no_third_root() {
    for place in [2, 3, u32::MAX] {
        assert!(proved::quadratic_root(1.0, -3.0, 2.0, place).is_nan());
    }
}

/// The random cases reach each way out of the source, on both sides of its
/// limits.
#[test]
fn the_cases_reach_every_way_out() {
    let random = &mut Random::new(3);
    let mut reached = [0; 8];
    for i in 0..100_000 {
        let [a, b, c] = oracle::cases::quadratic(random, i);
        let disc = b * b - 4.0 * a * c;
        let apart = disc.sqrt() / a.abs();
        let way = match oracle::quadratic(a, b, c) {
            Err(_) => 0,
            Ok(_) if a.abs() < 1e-12 && b.abs() < 1e-12 => 1,
            Ok(_) if a.abs() < 1e-12 => 2,
            Ok(_) if disc.abs() < 1e-12 => 3,
            Ok(_) if disc < 0.0 => 4,
            Ok(roots) if roots.len() == 1 => 5,
            Ok(_) if apart < 1.1e-8 => 6,
            Ok(_) => 7,
        };
        reached[way] += 1;
    }
    assert!(reached.iter().all(|&count| count > 500), "{reached:?}");
}
