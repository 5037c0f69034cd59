//! What the comparisons of the entries over marks share: a call with a list
//! that is lent, and lists of marks with every length of it.

use crate::{Tally, cases, is_long, junk, same_lists};
use oracle::cases::Random;
use oracle::family_cases::{Cases, marks};
use oracle::sheet_cases::room;

/// Calls both with lists that hold the same junk, and compares the refusal, 0
/// for none, and the whole list after it. Tells the oracle's answer.
pub fn compare_lent<T>(
    room: usize,
    about: &dyn Fn() -> String,
    theirs: impl FnOnce(&mut [f64]) -> Result<T, u32>,
    ours: impl FnOnce(&mut [f64]) -> u32,
) -> Result<T, u32> {
    let [mut expected, mut given] = [junk(room), junk(room)];
    let answer = theirs(&mut expected);
    let number = answer.as_ref().err().copied().unwrap_or(0);
    let refusal = ours(&mut given);
    assert_eq!(refusal, number, "room {room}, {}", about());
    assert!(
        same_lists(&given, &expected),
        "room {room}, refusal {number}, {}: {given:?}, not {expected:?}",
        about()
    );
    answer
}

/// An entry that writes so many places for each mark, by name, with all that it
/// may answer, and its comparison for a list of marks and of places.
pub struct Entry<'a> {
    pub title: &'a str,
    pub places: usize,
    pub answers: &'a [u32],
    pub compare: &'a dyn Fn(&mut Random, &[f64], usize) -> u32,
}

impl Entry<'_> {
    /// Each list with as many places as it needs, one less, more, and none.
    pub fn traps<F: Cases>(&self, lists: &[Vec<f64>]) {
        let random = &mut Random::new(11);
        let mut tally = Tally::default();
        for marks in lists {
            let need = marks.len() / F::WIDTH * self.places;
            for room in [
                need,
                need.saturating_sub(1),
                need + 1,
                need + self.places + 1,
                0,
            ] {
                tally.add((self.compare)(random, marks, room));
            }
        }
        tally.show(&format!("{}, traps", self.title));
        tally.met(self.answers);
    }

    /// Random lists, and as many places as they need, or not.
    pub fn random_lists<F: Cases>(&self, seed: u64, usual: usize) {
        let random = &mut Random::new(seed);
        let mut tally = Tally::default();
        let count = cases(usual);
        for i in 0..count {
            let marks = marks::<F>(random, i);
            let room = room(random, marks.len() / F::WIDTH * self.places);
            tally.add((self.compare)(random, &marks, room));
        }
        tally.show(self.title);
        if is_long(count) {
            tally.met(self.answers);
        }
    }
}
