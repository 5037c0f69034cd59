//! Stand-in for `rand`: what `ransac_fit` needs to compile.
//!
//! A sample is the first places of the list. The replayed estimator doesn't
//! look at its sample, so which places these are changes nothing.

pub mod rngs {
    /// A generator without numbers.
    pub struct StdRng;
}

pub trait SeedableRng {
    fn seed_from_u64(seed: u64) -> Self;
}

impl SeedableRng for rngs::StdRng {
    fn seed_from_u64(_seed: u64) -> Self {
        Self
    }
}

pub mod prelude {
    use crate::rngs::StdRng;

    pub trait IndexedRandom<T> {
        fn sample(
            &self,
            rng: &mut StdRng,
            amount: usize,
        ) -> std::iter::Take<std::slice::Iter<'_, T>>;
    }

    impl<T> IndexedRandom<T> for [T] {
        fn sample(
            &self,
            _: &mut StdRng,
            amount: usize,
        ) -> std::iter::Take<std::slice::Iter<'_, T>> {
            self.iter().take(amount)
        }
    }
}
