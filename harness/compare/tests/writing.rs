//! The proved writers of records: the refusal and every lent byte against the
//! document's words in plain Rust, and each record read back by the proved
//! readers.

use compare::{Tally, cases, is_long, junk, junk_bytes};
use oracle::book::{OPTIONS_BYTES, Options, SHORT_OPTIONS_BYTES, State, TRIAL_BYTES};
use oracle::cases::Random;
use oracle::example::{I, SQUARE, T};
use oracle::pick_cases::{any_stops, runs};
use oracle::ratio_cases;
use oracle::sheet_cases::room;
use oracle::writing::{self, MARK_BYTES, OptionsNumbers, TrialNumbers, packed_mark};
use oracle::writing_cases::{
    COUNTS, ITERS, MARKS, limits, mark, mark_record, options, options_record, rooms, trial,
    trial_record,
};
use oracle::{Family, Mark, Sheet};
use proved::pick::{self, NUMBERS};
use proved::writing::{write_mark, write_options, write_trial};
use std::fmt::Debug;

/// Stops for the square.
const STOPS: [u32; 6] = [9, 9, 9, 9, 3, 9];

/// The numbers of one kind of record.
trait Numbers: Debug + Sized {
    const NAME: &str;
    const BYTES: usize;

    /// Their bytes, also where they are refused.
    fn packed(&self) -> Vec<u8>;

    /// The record by the document's words, or the refusal.
    fn record(&self, room: usize) -> Result<Vec<u8>, u32>;

    /// The proved writer.
    fn write(&self, out: &mut [u8]) -> u32;

    /// The proved reader: the numbers, or its refusal.
    fn read(record: &[u8]) -> Result<Self, u32>;

    /// What stands in the fields of so many bytes.
    fn fields(record: &[u8]) -> Self;

    /// What the writer makes of the numbers of an accepted record: the record.
    fn made(record: &[u8]) -> Vec<u8> {
        record.to_vec()
    }
}

fn doubles(bytes: &[u8]) -> Vec<f64> {
    let list = bytes.as_chunks().0.iter();
    list.map(|&eight| f64::from_le_bytes(eight)).collect()
}

fn whole(bytes: &[u8]) -> u32 {
    u32::from_le_bytes(bytes.try_into().expect("four bytes"))
}

impl Numbers for OptionsNumbers {
    const NAME: &str = "options";
    const BYTES: usize = OPTIONS_BYTES;

    fn packed(&self) -> Vec<u8> {
        self.packed()
    }

    fn record(&self, room: usize) -> Result<Vec<u8>, u32> {
        writing::options(self, room)
    }

    fn write(&self, out: &mut [u8]) -> u32 {
        write_options(
            self.thresh,
            self.confidence,
            self.max_iters,
            self.min_inliers,
            self.refit_mark,
            self.ratio,
            out,
        )
    }

    /// An opening that refuses nothing else, from the words of its state.
    fn read(record: &[u8]) -> Result<Self, u32> {
        let mut words = [0; Sheet::WORDS];
        match pick::open(record, &SQUARE, &STOPS, &mut words) {
            0 => Ok(Self {
                thresh: f64::from_bits(words[0]),
                confidence: f64::from_bits(words[1]),
                max_iters: words[2].try_into().expect("a count"),
                min_inliers: words[3].try_into().expect("a count"),
                refit_mark: words[4].try_into().expect("a mark"),
                ratio: f64::from_bits(words[Sheet::RATIO_AT]),
            }),
            number => Err(number),
        }
    }

    fn fields(record: &[u8]) -> Self {
        let numbers = doubles(&record[..16]);
        Self {
            thresh: numbers[0],
            confidence: numbers[1],
            max_iters: whole(&record[16..20]),
            min_inliers: whole(&record[20..24]),
            refit_mark: record[24],
            ratio: doubles(&record[32..])[0],
        }
    }

    /// One without a ratio is written with 1.
    fn made(record: &[u8]) -> Vec<u8> {
        let mut bytes = record.to_vec();
        if record.len() == SHORT_OPTIONS_BYTES {
            bytes.extend(1f64.to_le_bytes());
        }
        bytes
    }
}

impl Numbers for Mark {
    const NAME: &str = "marks";
    const BYTES: usize = MARK_BYTES;

    fn packed(&self) -> Vec<u8> {
        packed_mark(self)
    }

    fn record(&self, room: usize) -> Result<Vec<u8>, u32> {
        writing::mark(self, room)
    }

    fn write(&self, out: &mut [u8]) -> u32 {
        write_mark(self, out)
    }

    /// The reader tests the length alone; an opening over the mark four times
    /// tests its numbers.
    fn read(record: &[u8]) -> Result<Self, u32> {
        let mut numbers = junk(NUMBERS);
        assert_eq!(pick::read_marks(record, &mut numbers), 0);
        assert_eq!(numbers[4], junk(5)[4]);
        numbers.truncate(4);
        let marks = numbers.repeat(4);
        let record = Options::new(2.0).record();
        match pick::open(&record, &marks, &[1; 5], &mut [0; 25]) {
            0 => Ok(numbers.try_into().expect("four numbers")),
            number => Err(number),
        }
    }

    fn fields(record: &[u8]) -> Self {
        doubles(record).try_into().expect("four numbers")
    }
}

/// One trial in a state in which any model wins: which outcome, the refusal's
/// number or the count, and the winner's numbers.
fn tried(record: &[u8], refit: bool) -> (u64, u64, Vec<f64>) {
    let options = Options {
        min_inliers: 0,
        refit,
        ..Options::new(2.0)
    };
    let state = State::open(Sheet, options, &SQUARE, &STOPS).expect("an accepted opening");
    let mut out = [0; 29];
    let answer = pick::trial(&state.words(), record, &SQUARE, &STOPS, &mut out);
    assert_eq!(answer, 0);
    let model = out[15..24].iter().map(|&word| f64::from_bits(word));
    (out[25], out[26], model.collect())
}

impl Numbers for TrialNumbers {
    const NAME: &str = "trials";
    const BYTES: usize = TRIAL_BYTES;

    fn packed(&self) -> Vec<u8> {
        self.packed()
    }

    fn record(&self, room: usize) -> Result<Vec<u8>, u32> {
        writing::trial(self, room)
    }

    fn write(&self, out: &mut [u8]) -> u32 {
        write_trial(self.fit_mark, self.refit_mark, &self.fit, &self.refit, out)
    }

    /// The fit wins where refits are off, the refit where they are on. Whether
    /// there is one is taken from the record, since the two may be equal.
    fn read(record: &[u8]) -> Result<Self, u32> {
        let (outcome, number, fit) = tried(record, false);
        let (same, again, last) = tried(record, true);
        assert_eq!(outcome, same);
        match outcome {
            0 => {
                assert_eq!(number, again);
                return Err(number as u32);
            }
            1 => assert_eq!(record[..2], [0, 0]),
            _ => assert_eq!((outcome, record[0]), (4, 1)),
        }
        let bits = |list: &[f64]| list.iter().map(|h| h.to_bits()).collect::<Vec<u64>>();
        assert!(record[1] == 1 || bits(&fit) == bits(&last));
        Ok(Self {
            fit_mark: record[0],
            refit_mark: record[1],
            fit,
            refit: if record[1] == 1 { last } else { vec![0.0; 9] },
        })
    }

    fn fields(record: &[u8]) -> Self {
        Self {
            fit_mark: record[0],
            refit_mark: record[1],
            fit: doubles(&record[8..80]),
            refit: doubles(&record[80..]),
        }
    }
}

// A call of a writer.

/// Bytes on both sides of a lent output; an odd number, since it needs no
/// alignment.
const BESIDE: usize = 9;

/// The proved writer's answer for an output of `room` bytes, with all bytes
/// after the call, those on both sides too.
fn given(numbers: &impl Numbers, room: usize) -> (u32, Vec<u8>) {
    let mut bytes = junk_bytes(room + 2 * BESIDE);
    let before = numbers.packed();
    let number = numbers.write(&mut bytes[BESIDE..BESIDE + room]);
    // Nothing that is only read has changed.
    assert_eq!(numbers.packed(), before);
    (number, bytes)
}

/// What they should be: the record in front and the rest as it was, or all as
/// it was.
fn expected(record: &Result<Vec<u8>, u32>, room: usize) -> (u32, Vec<u8>) {
    let mut bytes = junk_bytes(room + 2 * BESIDE);
    match record {
        Ok(record) => {
            bytes[BESIDE..][..record.len()].copy_from_slice(record);
            (0, bytes)
        }
        Err(number) => (*number, bytes),
    }
}

/// Compares one call, and hands the record to the reader; tells the refusal or
/// 0.
fn compare<N: Numbers>(numbers: &N, room: usize) -> u32 {
    let (number, bytes) = given(numbers, room);
    let theirs = expected(&numbers.record(room), room);
    assert_eq!(number, theirs.0, "room {room}, {numbers:?}");
    assert_eq!(bytes, theirs.1, "room {room}, {numbers:?}");
    if number == 0 {
        let again = N::read(&bytes[BESIDE..][..N::BYTES]);
        let again = again.unwrap_or_else(|k| panic!("refused with {k}: {numbers:?}"));
        assert_eq!(again.packed(), numbers.packed(), "{numbers:?}");
    }
    number
}

// Numbers.

/// Compares random numbers; every one of these answers must come up.
fn random_numbers<N: Numbers>(seed: u64, one: fn(&mut Random) -> N, answers: &[u32]) {
    let random = &mut Random::new(seed);
    let mut tally = Tally::default();
    let count = cases(200_000);
    for _ in 0..count {
        let numbers = one(random);
        tally.add(compare(&numbers, room(random, N::BYTES)));
    }
    tally.show(&format!("writing {}", N::NAME));
    if is_long(count) {
        tally.met(answers);
    }
}

#[test]
fn random_options() {
    random_numbers(70, options, &[0, 1, 2, 3, 4, 16, 9]);
}

#[test]
fn random_marks() {
    random_numbers(71, mark, &[0, 6, 9]);
}

#[test]
fn random_trials() {
    random_numbers(72, trial, &[0, 1, 9]);
}

/// Compares with an output of each length.
fn in_each_room<N: Numbers>(numbers: &N, tally: &mut Tally) {
    for room in rooms(N::BYTES) {
        tally.add(compare(numbers, room));
    }
}

/// Every threshold beside every confidence, most iterations and mark.
#[test]
fn limits_of_options() {
    let mut tally = Tally::default();
    for thresh in limits() {
        for confidence in limits() {
            for max_iters in ITERS {
                let numbers = MARKS.map(|refit_mark| OptionsNumbers {
                    thresh,
                    confidence,
                    max_iters,
                    min_inliers: u32::MAX - max_iters,
                    refit_mark,
                    ratio: 2.0,
                });
                for one in numbers {
                    in_each_room(&one, &mut tally);
                }
            }
        }
    }
    tally.show("writing options, limits");
    tally.met(&[0, 1, 2, 3, 4, 9]);
}

/// Every ratio at which something turns, beside every set of the other faults:
/// 16 comes after 1 to 4, and before 9, which is that of 39 bytes.
#[test]
fn ratios_of_options() {
    let mut tally = Tally::default();
    for ratio in ratio_cases::limits() {
        for set in 0..16u32 {
            let bad = |place: u32| set >> place & 1 == 1;
            let numbers = OptionsNumbers {
                thresh: if bad(0) { f64::NAN } else { 2.0 },
                confidence: if bad(1) { 1.0 } else { 0.5 },
                max_iters: if bad(2) { 100_001 } else { 100_000 },
                min_inliers: 4,
                refit_mark: if bad(3) { 2 } else { 1 },
                ratio,
            };
            in_each_room(&numbers, &mut tally);
            if set == 0 {
                let accepted = 0.01 <= ratio && ratio <= 100.0;
                let expected = if accepted { [9, 9, 0, 0] } else { [16; 4] };
                let answers = [0, 39, 40, 41].map(|room| compare(&numbers, room));
                assert_eq!(answers, expected, "{ratio:e}");
            }
        }
    }
    tally.show("writing options, ratios");
    tally.met(&[0, 1, 2, 3, 4, 16, 9]);
}

/// Every two limits at every two places.
#[test]
fn limits_of_marks() {
    let mut tally = Tally::default();
    for a in limits() {
        for b in limits() {
            for [i, j] in [[0, 1], [0, 2], [0, 3], [1, 2], [1, 3], [2, 3]] {
                let mut numbers = [1.0, -20.0, 300.0, -4000.0];
                (numbers[i], numbers[j]) = (a, b);
                in_each_room(&numbers, &mut tally);
            }
        }
    }
    tally.show("writing marks, limits");
    tally.met(&[0, 6, 9]);
}

/// Numbers for a list, no two of them the same; zeros where its mark isn't 1.
fn list(mark: u8, count: usize, from: f64) -> Vec<f64> {
    let one = |k: usize| if mark == 1 { from + k as f64 } else { 0.0 };
    (0..count).map(one).collect()
}

/// A trial of these marks, whose lists have so many numbers.
fn marked([fit_mark, refit_mark]: [u8; 2], counts: [usize; 2]) -> TrialNumbers {
    TrialNumbers {
        fit_mark,
        refit_mark,
        fit: list(fit_mark, counts[0], 0.5),
        refit: list(refit_mark, counts[1], -100.5),
    }
}

/// Every limit at every place, beside every two marks.
#[test]
fn limits_of_trials() {
    let mut tally = Tally::default();
    for marks in MARKS.iter().flat_map(|&a| MARKS.map(|b| [a, b])) {
        for place in 0..18 {
            for limit in limits() {
                let mut numbers = marked(marks, [9, 9]);
                let mut lists = numbers.fit.iter_mut().chain(&mut numbers.refit);
                *lists.nth(place).expect("a place") = limit;
                in_each_room(&numbers, &mut tally);
            }
        }
    }
    tally.show("writing trials, limits");
    tally.met(&[0, 1, 9]);
}

/// Lists of every two lengths, eight and ten among them, whose bytes would be
/// as many as a record's.
#[test]
fn counts_of_trials() {
    let mut tally = Tally::default();
    for marks in MARKS.iter().flat_map(|&a| MARKS.map(|b| [a, b])) {
        for counts in COUNTS.iter().flat_map(|&a| COUNTS.map(|b| [a, b])) {
            in_each_room(&marked(marks, counts), &mut tally);
        }
    }
    tally.show("writing trials, counts of numbers");
    tally.met(&[0, 1, 9]);
}

/// The fit and the refit may be the same list.
#[test]
fn one_list_for_both() {
    for model in [I, T, [-0.0; 9], [f64::NAN; 9]] {
        let numbers = TrialNumbers {
            fit_mark: 1,
            refit_mark: 1,
            fit: model.to_vec(),
            refit: model.to_vec(),
        };
        for room in rooms(TRIAL_BYTES) {
            let mut bytes = junk_bytes(room + 2 * BESIDE);
            let out = &mut bytes[BESIDE..BESIDE + room];
            let number = write_trial(1, 1, &model, &model, out);
            assert_eq!((number, bytes), expected(&numbers.record(room), room));
        }
    }
}

// Whole files.

/// The record of these numbers, in an output that it just fills.
fn written<N: Numbers>(numbers: &N) -> Vec<u8> {
    let (number, bytes) = given(numbers, N::BYTES);
    assert_eq!(number, 0, "{numbers:?}");
    bytes[BESIDE..BESIDE + N::BYTES].to_vec()
}

/// The files of whole runs, record by record, are those that the book makes.
#[test]
fn files_of_runs() {
    let random = &mut Random::new(73);
    for i in 0..runs(500, 100) {
        let case = any_stops(random, i);
        let bytes = case.bytes();
        let options = OptionsNumbers {
            thresh: case.options.thresh,
            confidence: case.options.confidence,
            max_iters: case.options.max_iters,
            min_inliers: case.options.min_inliers,
            refit_mark: case.options.refit.into(),
            ratio: case.options.ratio,
        };
        assert_eq!(written(&options), bytes.options);
        let marks = case.mark_list().iter().flat_map(written);
        assert_eq!(marks.collect::<Vec<u8>>(), bytes.marks);
        let trials = case.trials.iter().flat_map(|trial| {
            let numbers = TrialNumbers {
                fit_mark: trial.fit.is_some().into(),
                refit_mark: trial.refit.is_some().into(),
                fit: trial.fit.unwrap_or_default().to_vec(),
                refit: trial.refit.unwrap_or_default().to_vec(),
            };
            written(&numbers)
        });
        assert_eq!(trials.collect::<Vec<u8>>(), bytes.trials);
    }
}

// Records.

/// Where the reader accepts a record, the writer gives it back from what was
/// read, or what it makes of one without a ratio; where it refuses one that numbers pack to, the writer refuses these
/// numbers with the same. Tells the refusal or 0; nothing where it is no such
/// record.
fn there_and_back<N: Numbers>(record: &[u8]) -> Option<u32> {
    match N::read(record) {
        Ok(numbers) => {
            let theirs = expected(&Ok(N::made(record)), N::BYTES);
            assert_eq!(given(&numbers, N::BYTES), theirs, "{numbers:?}");
            Some(0)
        }
        Err(number) => {
            if record.len() != N::BYTES {
                return None;
            }
            let numbers = N::fields(record);
            if numbers.packed() != record {
                return None;
            }
            let theirs = expected(&Err(number), N::BYTES);
            assert_eq!(given(&numbers, N::BYTES), theirs, "{numbers:?}");
            Some(number)
        }
    }
}

/// Random records; every one of these answers must come up.
fn random_records<N: Numbers>(seed: u64, one: fn(&mut Random) -> Vec<u8>, answers: &[u32]) {
    let random = &mut Random::new(seed);
    let mut tally = Tally::default();
    let mut others = 0;
    let count = cases(200_000);
    for _ in 0..count {
        match there_and_back::<N>(&one(random)) {
            Some(number) => tally.add(number),
            None => others += 1,
        }
    }
    tally.show(&format!("records of {}", N::NAME));
    println!("records of {}, none of numbers: {others}", N::NAME);
    if is_long(count) {
        tally.met(answers);
    }
}

#[test]
fn records_of_options() {
    random_records::<OptionsNumbers>(74, options_record, &[0, 1, 2, 3, 4, 16]);
}

/// Options without a ratio: what the reader accepts is written as the same 32
/// bytes and a ratio of 1, and reads back alike; what it refuses, if it is a
/// packing of numbers, is refused by the writer with ratio 1.
#[test]
fn records_of_options_without_a_ratio() {
    let random = &mut Random::new(78);
    let mut tally = Tally::default();
    let count = cases(100_000);
    for _ in 0..count {
        let mut short = options_record(random);
        short.resize(SHORT_OPTIONS_BYTES, 0);
        let long = OptionsNumbers::made(&short);
        assert_eq!((long.len(), &long[..32]), (40, &short[..]));
        let read = |record| OptionsNumbers::read(record).map(|numbers| numbers.packed());
        assert_eq!(read(&short), read(&long));
        if let Some(number) = there_and_back::<OptionsNumbers>(&long) {
            assert_eq!(read(&short).err().unwrap_or(0), number);
            tally.add(number);
        }
        if read(&short).is_ok() {
            assert_eq!(there_and_back::<OptionsNumbers>(&short), Some(0));
        }
    }
    tally.show("records of options without a ratio");
    if is_long(count) {
        tally.met(&[0, 1, 2, 3, 4]);
    }
}

#[test]
fn records_of_marks() {
    random_records::<Mark>(75, mark_record, &[0, 6]);
}

#[test]
fn records_of_trials() {
    random_records::<TrialNumbers>(76, trial_record, &[0, 1]);
}
