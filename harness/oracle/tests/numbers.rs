//! The number leaves really run, and what 01 says of them by example.

use oracle::{dlt_rank_ok, ensure_finite, quadratic, root, solve_quadratic_real};

#[test]
fn roots() {
    assert_eq!(root(4.0), Ok(2.0));
    assert_eq!(root(5e-324), Ok(2f64.powi(-537)));
    assert_eq!(root(-0.0).map(f64::to_bits), Ok((-0.0f64).to_bits()));
    assert_eq!(root(-1.0), Err(15));
    assert_eq!(root(f64::NAN), Err(15));
}

#[test]
fn quadratics() {
    assert_eq!(solve_quadratic_real(1.0, -3.0, 2.0), [1.0, 2.0]);
    assert_eq!(solve_quadratic_real(-1.0, 3.0, -2.0), [1.0, 2.0]);
    assert_eq!(solve_quadratic_real(0.0, 2.0, -4.0), [2.0]);
    assert!(solve_quadratic_real(1.0, 0.0, 1.0).is_empty());
    let [minus_zero] = solve_quadratic_real(1.0, 0.0, 0.0)[..] else {
        panic!()
    };
    assert_eq!(minus_zero.to_bits(), (-0.0f64).to_bits());
    assert_eq!(quadratic(1.0, 2e100, 0.0), Err(15));
    assert_eq!(quadratic(1.0, 0.0, f64::NAN), Err(15));
}

#[test]
fn ranks() {
    assert!(dlt_rank_ok(&[2.0, 1.0], 3, 1, 0.5));
    assert!(!dlt_rank_ok(&[2.0, 1.0], 3, 1, 0.6));
    assert!(!dlt_rank_ok(&[], 1, 0, 0.0));
    assert!(!dlt_rank_ok(&[f64::EPSILON], 1, 0, 0.0));
    assert!(dlt_rank_ok(&[1.0, -1.0], 3, 1, f64::NEG_INFINITY));
}

/// A difference: null + 1 wraps in release, and the Rust says yes.
/// With overflow checks it panics.
#[test]
fn rank_where_null_plus_one_overflows() {
    let asked = std::panic::catch_unwind(|| dlt_rank_ok(&[1.0], 0, usize::MAX, 1.0));
    if cfg!(debug_assertions) {
        assert!(asked.is_err());
    } else {
        assert!(asked.expect("no panic in release"));
    }
}

#[test]
fn finite_lists() {
    assert!(ensure_finite(&[]));
    assert!(ensure_finite(&[0.0, -0.0, f64::MAX, 5e-324]));
    assert!(!ensure_finite(&[1.0, f64::NAN]));
    assert!(!ensure_finite(&[f64::NEG_INFINITY, 1.0]));
}

/// A sum of floats starts from -0 in this Rust and from 0 in 01. A sum of no
/// squares is never asked for, and no square is -0, so nothing differs.
#[test]
fn sums_start_from_minus_zero() {
    let none: f64 = [].iter().sum();
    assert_eq!(none.to_bits(), (-0.0f64).to_bits());
    let square: f64 = [-0.0f64].iter().map(|v| v * v).sum();
    assert_eq!(square.to_bits(), 0);
    assert_eq!(oracle::rms(&[-0.0]).to_bits(), 0);
}
