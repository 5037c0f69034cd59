//! What the comparison tests share.

pub mod close;
pub mod families;
pub mod folded;
pub mod lists;
pub mod ratios;

/// How many random cases: SALGHEMU_CASES, or the test's own number, times
/// SALGHEMU_TIMES.
pub fn cases(usual: usize) -> usize {
    oracle::cases::asked().unwrap_or_else(|| oracle::cases::usually(usual))
}

/// The same bits; all NaNs count as one.
pub fn same(a: f64, b: f64) -> bool {
    a.to_bits() == b.to_bits() || (a.is_nan() && b.is_nan())
}

/// The same bits at every place.
pub fn same_lists(a: &[f64], b: &[f64]) -> bool {
    a.len() == b.len() && a.iter().zip(b).all(|(&x, &y)| same(x, y))
}

/// A list to lend: no two places hold the same, and no answer is so large.
pub fn junk(len: usize) -> Vec<f64> {
    (0..len).map(|place| 1e12 + place as f64).collect()
}

/// Bytes to lend: no two places near each other hold the same.
pub fn junk_bytes(len: usize) -> Vec<u8> {
    (0..len).map(|place| (37 * place + 11) as u8).collect()
}

/// Words to lend; no answer is so large.
pub fn junk_words(len: usize) -> Vec<u64> {
    (0..len).map(|place| u64::MAX - place as u64).collect()
}

/// Whether a run of so many random cases must meet every answer: a short one
/// need not.
pub fn is_long(count: usize) -> bool {
    count >= 10_000
}

/// How often each answer came: the refusals by their numbers, 0 for accepted.
#[derive(Default)]
pub struct Tally([usize; 19]);

impl Tally {
    pub fn add(&mut self, number: u32) {
        self.0[number as usize] += 1;
    }

    /// Prints the answers that came.
    pub fn show(&self, title: &str) {
        let came = self.0.iter().enumerate().filter(|(_, count)| **count > 0);
        let text: Vec<String> = came.map(|(k, count)| format!("{k}: {count}")).collect();
        println!("{title}: {}", text.join(", "));
    }

    /// Sees that these all came.
    pub fn met(&self, numbers: &[u32]) {
        for &k in numbers {
            assert!(self.0[k as usize] > 0, "no case of {k}");
        }
    }
}

/// Every set of these faults, each in their order.
pub fn sets(faults: &[u32]) -> impl Iterator<Item = Vec<u32>> {
    (0..1 << faults.len()).map(|set| {
        let places = faults.iter().enumerate();
        let within = places.filter(|(place, _)| set >> place & 1 == 1);
        within.map(|(_, &number)| number).collect()
    })
}

/// Whether each of the counted things came up.
pub fn all_came(counts: &[usize]) -> bool {
    counts.iter().all(|&count| count > 0)
}

/// Makes tests of functions that take a family: one for each.
#[macro_export]
macro_rules! for_each_family {
    ($($name:ident),+ $(,)?) => {
        $crate::for_each_family!(@ sheets, oracle::Sheet: $($name),+);
        $crate::for_each_family!(@ forms, oracle::Form: $($name),+);
    };
    (@ $family:ident, $of:ty: $($name:ident),+) => {
        mod $family {
            $(#[test]
            fn $name() {
                super::$name::<$of>();
            })+
        }
    };
}
