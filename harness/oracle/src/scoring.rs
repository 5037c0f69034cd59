//! Scoring a list of squared distances, in plain Rust: the root of each, the
//! comparison with the threshold, the sum in index order from 0.

/// The places of the squares whose root is at most the threshold.
pub fn places(thresh: f64, squares: &[f64]) -> Vec<u32> {
    let all = (0..).zip(squares);
    all.filter(|(_, q)| q.sqrt() <= thresh)
        .map(|(place, _)| place)
        .collect()
}

/// The rms of those roots, by any count; infinite where that is 0.
pub fn rms(thresh: f64, squares: &[f64], count: u32) -> f64 {
    let mut sum = 0.0;
    for d in squares.iter().map(|q| q.sqrt()) {
        if d <= thresh {
            sum += d * d;
        }
    }
    match count {
        0 => f64::INFINITY,
        _ => (sum / f64::from(count)).sqrt(),
    }
}

/// Where the port takes no root: up to `low` a square is within the threshold,
/// from `high` on it is not. No answer rests on this; inputs are placed at the
/// limits, and the bench counts roots.
#[derive(Clone, Copy, Debug)]
pub struct Limits {
    pub thresh: f64,
    /// A NaN where there is none.
    pub low: f64,
    pub high: f64,
    /// The roots that show it, of each.
    pub roots: [usize; 2],
}

impl Limits {
    pub fn of(thresh: f64) -> Self {
        let square = thresh * thresh;
        let apart = 4.0 * f64::EPSILON;
        let (low, high) = (square * (1.0 - apart), square * (1.0 + apart));
        let tried = |limit: f64| thresh > 0.0 && limit > 0.0;
        let kept = |limit: f64, is: bool| if is { limit } else { f64::NAN };
        Self {
            thresh,
            low: kept(low, tried(low) && low.sqrt() <= thresh),
            high: kept(high, tried(high) && high.sqrt() > thresh),
            roots: [low, high].map(|limit| usize::from(tried(limit))),
        }
    }

    /// Whether a square takes a root to tell.
    pub fn is_between(&self, square: f64) -> bool {
        let beyond = self.high <= square;
        !(0.0..=self.low).contains(&square) && !beyond
    }

    /// What the rms is told to be no less than, by the count. The sum ends
    /// where it is about enough for an rms of `best`: infinity is for all of it.
    pub fn least_rms(&self, squares: &[f64], count: u32, best: f64) -> f64 {
        let n = f64::from(count);
        let enough = best * best * n;
        let mut sum = 0.0;
        for &q in squares {
            if enough <= sum {
                break;
            }
            if q > 0.0 && q <= self.low {
                sum += q * (1.0 - f64::EPSILON);
            }
        }
        (sum / n).sqrt()
    }
}
