//! The proved reader of a file of marks: which files it refuses, and the
//! numbers of the others, each in its place of the lent list.

use compare::families::Proved;
use compare::{cases, for_each_family, junk, same_lists};
use oracle::cases::Random;
use proved::pick::{NO_WORDS, NUMBERS};

for_each_family!(any_bytes, lengths, other_places);

/// Compares one file, with the whole lent list; tells whether it was read. It is
/// where it has a whole number of marks and at most 64,000 bytes, and else is
/// refused with 5.
fn compare<F: Proved>(bytes: &[u8]) -> bool {
    let read = bytes.len().is_multiple_of(8 * F::WIDTH) && bytes.len() <= 64_000;
    let mut theirs = junk(NUMBERS);
    if read {
        let doubles = bytes.as_chunks().0.iter();
        for (place, &eight) in theirs.iter_mut().zip(doubles) {
            *place = f64::from_le_bytes(eight);
        }
    }
    let mut ours = junk(NUMBERS);
    let number = F::read_marks(bytes, &mut ours);
    assert_eq!(number, if read { 0 } else { 5 }, "{} bytes", bytes.len());
    assert!(same_lists(&ours, &theirs), "{bytes:?}: {ours:?}");
    read
}

/// Bytes; no two marks near each other have the same.
fn some_bytes(len: usize) -> Vec<u8> {
    (0..len).map(|i| (i * 37 % 251) as u8).collect()
}

fn any_bytes<F: Proved>() {
    let random = &mut Random::new(75);
    let mark = 8 * F::WIDTH;
    let mut read = [0; 2];
    for i in 0..cases(20_000) {
        let len = match i % 256 {
            0 => random.below(64_100),
            _ => random.below(400),
        };
        let len = match random.below(2) {
            0 => len as usize,
            _ => len as usize / mark * mark,
        };
        let bytes: Vec<u8> = (0..len).map(|_| random.word() as u8).collect();
        read[usize::from(compare::<F>(&bytes))] += 1;
    }
    assert!(read.iter().all(|&times| times > 0), "{read:?}");
}

/// Every length to two marks and some bytes, six marks of a form with seven
/// bytes left over, and to either side of the longest file.
fn lengths<F: Proved>() {
    let most = F::MOST * 8 * F::WIDTH;
    assert_eq!(most, 64_000);
    let bytes = some_bytes(64_100);
    let mut read = 0;
    let far = [247, 63_999, 64_000, 64_001, 64_032, 64_040];
    for len in (0..=81).chain(most - 81..most + 81).chain(far) {
        read += usize::from(compare::<F>(&bytes[..len]));
    }
    // Of either family: none, one and two marks, two less than the most, one less
    // and the most, and once more the most.
    assert_eq!(read, 7);
}

/// A list of another length can't be lent.
fn other_places<F: Proved>() {
    let bytes = some_bytes(8 * F::WIDTH);
    for places in [0, F::WIDTH, NUMBERS - 1, NUMBERS + 1] {
        let mut numbers = junk(places);
        assert_eq!(F::read_marks(&bytes, &mut numbers), NO_WORDS);
        assert!(same_lists(&numbers, &junk(places)));
    }
}
