//! The proved tests of finite numbers and magnitudes against Rust's own.

use compare::{cases, same};
use oracle::cases::{
    Random, finite, finite_traps, quadratic_limits, root, root_limits, root_traps, step,
};

#[test]
fn lists() {
    let random = &mut Random::new(5);
    let compare = |values: &[f64]| {
        assert_eq!(
            proved::ensure_finite(values),
            oracle::ensure_finite(values),
            "{values:?}"
        );
    };
    finite_traps().iter().for_each(|values| compare(values));
    for _ in 0..cases(100_000) {
        compare(&finite(random, 40));
    }
}

#[test]
fn abs_and_is_finite() {
    let random = &mut Random::new(6);
    let some: Vec<f64> = (0..cases(300_000)).map(|i| root(random, i)).collect();
    for x in root_traps().into_iter().chain(root_limits()).chain(some) {
        for x in [x, -x] {
            assert!(same(proved::abs(x), x.abs()), "{x:e}");
            assert_eq!(proved::is_finite(x), x.is_finite(), "{x:e}");
        }
    }
}

#[test]
fn within() {
    let random = &mut Random::new(7);
    let compare = |x: f64, limit: f64| {
        let answer = x.is_finite() && x.abs() <= limit;
        assert_eq!(proved::within(x, limit), answer, "{x:e} {limit:e}");
    };
    for [x, limit, _] in quadratic_limits() {
        compare(x, limit);
    }
    for i in 0..cases(300_000) {
        let x = root(random, i);
        for limit in [1e9, 1e100, f64::INFINITY, f64::NAN, -1.0] {
            compare(x, limit);
        }
        compare(x, step(x.abs(), random.from_to(-1, 1)));
        compare(random.sign() * step(1e9, random.from_to(-1, 1)), 1e9);
    }
}
