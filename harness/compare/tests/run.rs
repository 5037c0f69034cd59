//! The proved whole run: against `ransac_fit` over its domain, and against the
//! book for refusals, stop lists of any numbers and every byte that is lent.

use compare::close::Close;
use compare::ratios::Ratios;
use compare::{Tally, all_came, junk_bytes};
use oracle::book::{Options, TRIAL_BYTES, WINNER_BYTES};
use oracle::cases::Random;
use oracle::close_cases::close;
use oracle::example;
use oracle::pick_cases::{Bytes, Case, NOT_OPTIONS, any_stops, damaged, reference, rooms, runs};
use oracle::ratio_cases;
use oracle::whole;
use oracle::{Run, Sheet, Trial, Winner, stop_list};
use proved::pick::salghemu_run;

/// Every number that the whole run may answer.
const ANSWERS: [u32; 13] = [0, 1, 2, 3, 4, 16, 5, 6, 7, 18, 8, 9, 11];

/// A number of runs from which on every answer must come up.
const LONG: usize = 2_000;

/// What a run of the proved code gives, with the lent bytes after it.
#[derive(Debug, PartialEq)]
struct Given {
    number: u32,
    winner: Vec<u8>,
    indices: Vec<u8>,
}

fn given(bytes: &Bytes, rooms: [usize; 2]) -> Given {
    let [mut winner, mut indices] = rooms.map(junk_bytes);
    let inputs = [&bytes.options, &bytes.marks, &bytes.stops, &bytes.trials];
    let before = bytes.clone();
    let number = salghemu_run(inputs.map(Vec::as_slice), &mut winner, &mut indices);
    // Nothing that is only read has changed.
    assert!(before.options == bytes.options && before.marks == bytes.marks);
    assert!(before.stops == bytes.stops && before.trials == bytes.trials);
    Given {
        number,
        winner,
        indices,
    }
}

/// What the book has for the same.
fn booked(bytes: &Bytes, rooms: [usize; 2]) -> Given {
    let [mut winner, mut indices] = rooms.map(junk_bytes);
    let number = whole::run(&bytes.inputs(), &mut winner, &mut indices);
    Given {
        number,
        winner,
        indices,
    }
}

/// A run in few words: what the program would print for it, and its lists'
/// lengths.
fn about(bytes: &Bytes) -> String {
    let text = whole::printed(&bytes.inputs());
    let text: String = text.chars().take(1000).collect();
    let lists = [&bytes.options, &bytes.marks, &bytes.stops, &bytes.trials];
    format!(
        "lengths {:?}, options {:?}, by the book:\n{text}",
        lists.map(Vec::len),
        bytes.options
    )
}

/// Compares one run with the book; tells the refusal or 0.
fn compare(bytes: &Bytes, rooms: [usize; 2]) -> u32 {
    let (ours, theirs) = (given(bytes, rooms), booked(bytes, rooms));
    assert_eq!(ours.number, theirs.number, "{rooms:?} {}", about(bytes));
    assert!(ours == theirs, "outputs {rooms:?} {}", about(bytes));
    if ours.number != 0 {
        assert_eq!([ours.winner, ours.indices], rooms.map(junk_bytes));
    }
    ours.number
}

/// The winner's bytes and its indices', by the original.
fn expected(winner: &Winner) -> (Vec<u8>, Vec<u8>) {
    let mut bytes = (winner.inliers.len() as u32).to_le_bytes().to_vec();
    bytes.extend((winner.number as u32).to_le_bytes());
    bytes.extend(winner.rms.to_le_bytes());
    bytes.extend(winner.model.iter().flat_map(|h| h.to_le_bytes()));
    let indices = winner.inliers.iter();
    (
        bytes,
        indices.flat_map(|&i| (i as u32).to_le_bytes()).collect(),
    )
}

/// The whole run gives what `ransac_fit` gave: count, number, rms, model and
/// indices, with nothing else written.
fn is_rusts(bytes: &Bytes, theirs: &Run, rooms: [usize; 2]) {
    let [mut winner, mut indices] = rooms.map(junk_bytes);
    let number = match &theirs.winner {
        None => 11,
        Some(best) => {
            let (front, list) = expected(best);
            winner[..front.len()].copy_from_slice(&front);
            indices[..list.len()].copy_from_slice(&list);
            0
        }
    };
    let ours = given(bytes, rooms);
    assert_eq!(ours.number, number, "{}", about(bytes));
    assert!(ours.winner == winner, "winner: {}", about(bytes));
    assert!(ours.indices == indices, "indices: {}", about(bytes));
}

/// Compares one run with the original. How many trials were read shows: those
/// behind may be anything or absent, and the last of them may not be.
fn compare_with_rust(case: &Case, rooms: [usize; 2], tally: &mut Tally) {
    let theirs = case.ransac_fit();
    let mut bytes = case.bytes();
    is_rusts(&bytes, &theirs, rooms);
    tally.add(compare(&bytes, rooms));

    let end = theirs.read * TRIAL_BYTES;
    bytes.trials[end..].fill(0xff);
    is_rusts(&bytes, &theirs, rooms);
    bytes.trials.truncate(end);
    is_rusts(&bytes, &theirs, rooms);
    bytes.trials[end - TRIAL_BYTES] = 2;
    assert_eq!(compare(&bytes, rooms), 1);
}

/// By which ratios runs went, and what the ratio did.
#[derive(Debug, Default)]
struct ByRatio {
    ratios: Ratios,
    /// Runs that ratio 1 gives something else for.
    decided: usize,
    /// Runs of ratio 1 whose options were given without it too.
    short: usize,
}

impl ByRatio {
    /// Counts a run, which gives the same without a ratio of 1, byte for byte.
    fn add(&mut self, case: &Case, rooms: [usize; 2]) {
        self.ratios.add(case.options.ratio);
        let long = given(&case.bytes(), rooms);
        if let Some(short) = case.short_bytes() {
            assert_eq!((short.options.len(), case.bytes().options.len()), (32, 40));
            assert!(given(&short, rooms) == long, "short: {}", about(&short));
            self.short += 1;
        } else {
            let mut by_one = case.clone();
            by_one.options.ratio = 1.0;
            self.decided += usize::from(given(&by_one.bytes(), rooms) != long);
        }
    }

    fn met(&self) {
        self.ratios.accepted_met();
        assert!(all_came(&[self.decided, self.short]), "{self:?}");
    }
}

#[test]
fn the_whole_run_gives_what_ransac_fit_gives() {
    let random = &mut Random::new(30);
    let mut tally = Tally::default();
    let mut by_ratio = ByRatio::default();
    let count = runs(8_000, 100);
    for i in 0..count {
        let case = reference(random, i);
        let exact = [WINNER_BYTES, 4 * case.n()];
        let more = exact.map(|need| need + random.below(9) as usize);
        let rooms = random.pick(&[exact, more]);
        compare_with_rust(&case, rooms, &mut tally);
        by_ratio.add(&case, rooms);
    }
    tally.show("whole run, as ransac_fit");
    println!("whole run, as ransac_fit: {by_ratio:?}");
    if count >= LONG {
        tally.met(&[0, 11]);
        by_ratio.met();
    }
}

// Where the rms decides.

/// Candidates that differ in the last places or not at all, in an order in
/// which each wins, none does, or some do.
#[test]
fn the_rms_decides() {
    let random = &mut Random::new(35);
    let mut tally = Tally::default();
    let mut met = Close::default();
    let mut by_ratio = ByRatio::default();
    let count = runs(8_000, 100);
    for i in 0..count {
        let case = close(random, i);
        let rooms = [WINNER_BYTES, 4 * case.n()];
        compare_with_rust(&case, rooms, &mut tally);
        by_ratio.add(&case, rooms);
        met.run(&case);
    }
    tally.show("whole run, close candidates");
    println!("close candidates: {met:?} {by_ratio:?}");
    if count >= LONG {
        tally.met(&[0]);
        met.met();
        by_ratio.met();
    }
}

#[test]
fn any_stop_list() {
    let random = &mut Random::new(31);
    let mut tally = Tally::default();
    let mut by_ratio = ByRatio::default();
    let count = runs(8_000, 100);
    for i in 0..count {
        let case = any_stops(random, i);
        let bytes = case.bytes();
        let rooms = rooms(random, &bytes.marks);
        tally.add(compare(&bytes, rooms));
        by_ratio.add(&case, rooms);
    }
    tally.show("whole run, any stops");
    println!("whole run, any stops: {by_ratio:?}");
    if count >= LONG {
        tally.met(&[0, 9, 11]);
        by_ratio.met();
    }
}

#[test]
fn damaged_inputs() {
    let random = &mut Random::new(32);
    let mut tally = Tally::default();
    let count = runs(40_000, 50);
    for i in 0..count {
        let bytes = damaged(random, i);
        let rooms = rooms(random, &bytes.marks);
        tally.add(compare(&bytes, rooms));
    }
    tally.show("whole run, damaged");
    if count >= LONG {
        tally.met(&ANSWERS);
    }
}

/// Any bytes at all, of lengths that are often right, in place of one or more
/// of the worked run's.
#[test]
fn any_bytes() {
    let random = &mut Random::new(33);
    let good = example::sheet().bytes();
    let mut tally = Tally::default();
    for _ in 0..runs(5_000, 50) {
        let mut some = |good: &[u8], lengths: &[usize]| -> Vec<u8> {
            if random.below(3) != 0 {
                return good.to_vec();
            }
            let len = random.pick(lengths);
            (0..len).map(|_| random.word() as u8).collect()
        };
        let bytes = Bytes {
            options: some(&good.options, &[32, 40, 40, 0, 31, 39]),
            marks: some(&good.marks, &[128, 160, 0, 31, 64_000, 64_032]),
            stops: some(&good.stops, &[20, 24, 24, 0, 8004]),
            trials: some(&good.trials, &[0, 152, 304, 151]),
        };
        tally.add(compare(&bytes, [88, 8000]));
    }
    tally.show("whole run, any bytes");
}

/// Each output one byte short, empty and longer, for the worked run and for
/// one without a winner.
#[test]
fn rooms_for_the_outputs() {
    let good = example::sheet().bytes();
    let mut none = good.clone();
    none.trials.clear();
    for winner in [0, 1, 87, 88, 89, 200] {
        for indices in [0, 1, 16, 19, 20, 21, 24, 100] {
            let fits = winner >= 88 && indices >= 20;
            let answer = compare(&good, [winner, indices]);
            assert_eq!(answer, if fits { 0 } else { 9 });
            let answer = compare(&none, [winner, indices]);
            assert_eq!(answer, if fits { 11 } else { 9 });
        }
    }
    // The length of the trial list comes before the room.
    let mut cut = good;
    cut.trials.truncate(151);
    assert_eq!(compare(&cut, [0, 0]), 1);
}

/// Lengths of the options: 32 and 40 are records, and the same where the ratio
/// is 1. No other length is, whatever else is wrong.
#[test]
fn lengths_of_the_options() {
    let good = example::sheet().bytes();
    assert_eq!(good.options.len(), 40);
    let with = |len: usize| {
        let mut bytes = good.clone();
        bytes.options.resize(len, 0);
        bytes
    };
    assert_eq!(compare(&good, [88, 20]), 0);
    assert!(given(&with(32), [88, 20]) == given(&good, [88, 20]));
    for len in NOT_OPTIONS.into_iter().chain([25, 48, 72, 5000]) {
        assert_eq!(compare(&with(len), [88, 20]), 1, "{len} bytes");
        let mut bytes = with(len);
        bytes.marks.clear();
        assert_eq!(compare(&bytes, [0, 0]), 1, "{len} bytes");
    }
}

/// The run with ever more faults behind the ratio's place, each before the last
/// in the order, and what they answer where the ratio is accepted.
fn faults_behind(case: &Case) -> Vec<(Bytes, u32)> {
    let mut bytes = case.bytes();
    let mut list = vec![(bytes.clone(), 0)];
    bytes.trials.truncate(151);
    list.push((bytes.clone(), 1));
    bytes.stops.clear();
    list.push((bytes.clone(), 8));
    // The second mark at the first one's place; its pixel stays.
    bytes.marks.copy_within(..16, 32);
    list.push((bytes.clone(), 18));
    bytes.marks.truncate(96);
    list.push((bytes.clone(), 7));
    bytes.marks[..8].fill(0xff);
    list.push((bytes.clone(), 6));
    bytes.marks.truncate(95);
    list.push((bytes, 5));
    list
}

/// The run with a fault before the ratio's place, and what it answers.
fn faults_before(case: &Case) -> [(Bytes, u32); 4] {
    let with = |change: fn(&mut Options)| {
        let mut case = case.clone();
        change(&mut case.options);
        case.bytes()
    };
    let mut filler = case.bytes();
    filler.options[31] = 1;
    [
        (with(|options| options.max_iters = 0), 4),
        (with(|options| options.confidence = 1.0), 3),
        (with(|options| options.thresh = 0.0), 2),
        (filler, 1),
    ]
}

/// The worked run by each ratio at which something turns, alone and with other
/// faults: 16 comes after 1 to 4 and before all others.
#[test]
fn ratios_of_the_worked_run() {
    let mut ratios = Ratios::default();
    for ratio in ratio_cases::limits() {
        let mut case = example::sheet();
        case.options.ratio = ratio;
        ratios.add(ratio);
        let accepted = 0.01 <= ratio && ratio <= 100.0;
        for (bytes, other) in faults_behind(&case) {
            let number = if accepted { other } else { 16 };
            assert_eq!(compare(&bytes, [88, 20]), number, "{ratio:e} {other}");
            // 9 comes behind all of them but for 0.
            let number = if number == 0 { 9 } else { number };
            assert_eq!(compare(&bytes, [88, 19]), number, "{ratio:e} {other}");
        }
        for (bytes, number) in faults_before(&case) {
            assert_eq!(compare(&bytes, [0, 0]), number, "{ratio:e}");
        }
    }
    ratios.all_met();
}

/// Nothing at all: every list empty.
#[test]
fn nothing() {
    assert_eq!(compare(&Bytes::default(), [0, 0]), 1);
}

/// Each byte of the worked run's inputs, changed in each bit.
#[test]
fn every_bit_of_the_worked_run() {
    let good = example::sheet().bytes();
    let mut tally = Tally::default();
    let mut each = |part: fn(&mut Bytes) -> &mut Vec<u8>| {
        let mut bytes = good.clone();
        for bit in 0..8 * part(&mut bytes).len() {
            part(&mut bytes)[bit / 8] ^= 1 << (bit % 8);
            tally.add(compare(&bytes, [88, 20]));
            part(&mut bytes)[bit / 8] ^= 1 << (bit % 8);
        }
    };
    each(|bytes| &mut bytes.options);
    each(|bytes| &mut bytes.marks);
    each(|bytes| &mut bytes.stops);
    each(|bytes| &mut bytes.trials);
    tally.show("whole run, every bit");
    tally.met(&[0, 1, 2, 3, 4, 16, 6, 11]);
}

/// The most iterations over few marks, and many over the most marks; none of
/// the trials is scored, and so none ends the run.
#[test]
fn the_longest_runs() {
    for (n, max_iters) in [(4, 100_000), (2000, 1_000)] {
        let random = &mut Random::new(34);
        let mut case = reference(random, 0);
        case.marks.truncate(4 * n);
        case.options.max_iters = max_iters;
        case.options.min_inliers = 2001;
        case.stops = stop_list::<Sheet>(case.options.confidence, n);
        let fit = Trial {
            fit: Some([1.0; 9]),
            refit: None,
        };
        case.trials = vec![Trial::default(); max_iters as usize];
        case.trials[..3].fill(fit);
        *case.trials.last_mut().expect("some") = fit;
        let rooms = [WINNER_BYTES, 4 * n];
        compare_with_rust(&case, rooms, &mut Tally::default());
        // A trial more than there may be is not looked at.
        let mut bytes = case.bytes();
        bytes.trials.extend([0xff; TRIAL_BYTES]);
        assert_eq!(compare(&bytes, rooms), 11);
    }
}
