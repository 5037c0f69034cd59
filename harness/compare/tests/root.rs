//! The proved root against the machine's, and against whole numbers.

use compare::{cases, same};
use oracle::cases::{Random, root, root_limits, root_traps, step};
use oracle::root_refusal;

/// Every number that the tests take the root of.
fn numbers() -> Vec<f64> {
    let random = &mut Random::new(2);
    let mut list = root_traps();
    list.extend(root_limits());
    list.extend((0..cases(3_000_000)).map(|i| root(random, i)));
    list
}

/// A positive double as a significand and an exponent of two.
fn parts(x: f64) -> (u128, i32) {
    let bits = x.to_bits();
    let (field, rest) = ((bits >> 52) as i32, u128::from(bits << 12 >> 12));
    if field == 0 {
        (rest, -1074)
    } else {
        (rest | 1 << 52, field - 1075)
    }
}

/// Whether a lies strictly between the squares of the midpoints from y to its
/// two neighbours; a is finite and positive. In whole numbers: with y = n 2^f
/// the midpoints are 4n + 2 and 4n - 2 in units of 2^(f - 2), or 4n - 1 where
/// y is a power of two, since its lower neighbour is only half as far.
fn is_root(a: f64, y: f64) -> bool {
    if !y.is_normal() || y < 0.0 {
        return false;
    }
    let ((m, e), (n, f)) = (parts(a), parts(y));
    let upper = 4 * n + 2;
    let lower = if n == 1 << 52 { 4 * n - 1 } else { 4 * n - 2 };
    // a in units of 2^(2f - 4); the squares are below 2^111.
    let shift = e - 2 * f + 4;
    if shift < 0 || shift > m.leading_zeros() as i32 {
        return false;
    }
    let scaled = m << shift;
    lower * lower < scaled && scaled < upper * upper
}

#[test]
fn the_whole_number_test_takes_one_answer_only() {
    for a in root_traps().into_iter().chain(root_limits()) {
        if a > 0.0 && a.is_finite() {
            let y = a.sqrt();
            assert!(is_root(a, y), "{a:e}");
            assert!(!is_root(a, step(y, 1)), "{a:e}");
            assert!(!is_root(a, step(y, -1)), "{a:e}");
        }
    }
    // Symmetric midpoints would let 1 in.
    assert!(!is_root(step(1.0, -1), 1.0));
}

#[test]
fn roots() {
    let (mut taken, mut refused) = (0, 0);
    for a in numbers() {
        let y = proved::sqrt(a);
        assert!(
            same(y, a.sqrt()),
            "root of {a:e} ({:016x}): {y:e}",
            a.to_bits()
        );
        assert_eq!(proved::root_refusal(a), root_refusal(a), "{a:e}");
        if root_refusal(a) != 0 {
            assert!(y.is_nan());
            refused += 1;
        } else {
            assert!(a == 0.0 || a.is_infinite() || is_root(a, y), "{a:e}");
            taken += 1;
        }
    }
    println!("{taken} roots, {refused} refused");
}

/// Beside each number another of the list: a neighbour, and one that is far
/// off, so that every kind stands beside every kind.
#[test]
fn two_roots_together() {
    let list = numbers();
    for (i, &a) in list.iter().enumerate() {
        for b in [list[(i + 1) % list.len()], list[i * 31 % list.len()]] {
            for (place, number) in [(0, a), (1, b)] {
                let y = proved::sqrt_two(a, b, place);
                assert!(same(y, number.sqrt()), "{place} of {a:e} and {b:e}: {y:e}");
            }
        }
    }
    assert!(proved::sqrt_two(4.0, 9.0, 2).is_nan());
}

#[test]
fn roots_are_monotone() {
    let mut list = numbers();
    list.retain(|&a| a >= 0.0);
    list.sort_by(f64::total_cmp);
    let mut last = 0.0;
    for a in list {
        let y = proved::sqrt(a);
        assert!(last <= y, "{a:e}");
        last = y;
    }
}
