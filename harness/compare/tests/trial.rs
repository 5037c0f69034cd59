//! The proved opening and trial, one call at a time: against `ransac_fit` at
//! the end, and against the book at every step.

use compare::families::Proved;
use compare::folded::Folded;
use compare::ratios::Ratios;
use compare::{Tally, all_came, for_each_family, junk_words, sets};
use oracle::book::{Book, Call, MODEL_AT, Options, State, Words, trial_record};
use oracle::cases::{NANS, Random};
use oracle::close_cases::close;
use oracle::example::{BEHIND, I, SQUARE, T};
use oracle::family_cases::{Cases, identity, settle};
use oracle::form_cases::camera_traps;
use oracle::pick_cases::{
    Case, NOT_OPTIONS, any_stops, damage_marks, damage_options, damage_trial, hand_made,
    other_length, reference, runs,
};
use oracle::ratio_cases;
use oracle::{Family, Form, Numbers, Sheet, Trial};
use proved::pick::{self, NO_WORDS};

/// A number of runs from which on every answer must come up.
const LONG: usize = 2_000;

/// A trial's words.
type Told = Vec<u64>;

for_each_family!(
    openings,
    sets_of_faults,
    lengths_of_options,
    ratios_of_openings,
    openings_of_any_options,
    how_many_marks,
    no_room_for_words,
    trials_give_what_ransac_fit_gives,
    trials_of_close_candidates,
    trials_with_any_stop_list,
    refused_calls_in_between,
    hand_made_states,
    states_at_the_limits,
    hand_made_thresholds,
    hand_made_ratios,
    hand_made_winners,
);

/// One list of words after an opening: the state's in front, the rest as it
/// was; all as it was if refused.
fn opened<F: Proved>(number: u32, words: &[u64], expected: &Result<State<F>, u32>) {
    let mut theirs = junk_words(words.len());
    if let Ok(state) = expected {
        theirs[..F::WORDS].copy_from_slice(&state.words());
    }
    assert_eq!(number, expected.as_ref().err().copied().unwrap_or(0));
    assert_eq!(words, theirs);
}

/// Opens from records; tells the refusal or 0.
fn open<F: Proved>(records: [&[u8]; 2], marks: &[f64], stops: &[u32]) -> u32 {
    let expected = State::<F>::open_records(records, marks, stops);
    for room in [F::WORDS, F::WORDS + 5] {
        let mut words = junk_words(room);
        let number = F::open(records, marks, stops, &mut words);
        opened(number, &words, &expected);
    }
    expected.err().unwrap_or(0)
}

/// Opens from the types; tells the refusal or 0.
fn open_options<F: Proved>(family: &F, options: &Options, marks: &[f64], stops: &[u32]) -> u32 {
    let expected = State::open(*family, *options, marks, stops);
    let mut words = junk_words(F::WORDS + 1);
    let number = family.open_options(options, marks, stops, &mut words);
    opened(number, &words, &expected);
    expected.err().unwrap_or(0)
}

/// One trial call on any words, with more room than it needs.
fn called<F: Proved>(words: &[u64], call: &Call) -> Told {
    let len = F::WORDS + 4;
    let mut out = junk_words(len + 1);
    let answer = F::trial(words, call.record, call.marks, call.stops, &mut out);
    assert_eq!(answer, 0);
    assert_eq!(out[len], junk_words(len + 1)[len]);
    out.truncate(len);
    out
}

/// What the book has for the same call.
fn expected<F: Proved>(words: &[u64], call: &Call) -> Told {
    let mut state = State::<F>::of_words(words);
    let answer = state.trial(call);
    [state.words(), answer.words().to_vec()].concat()
}

/// Compares one call; tells its words.
fn compare<F: Proved>(words: &[u64], call: &Call) -> Told {
    let ours = called::<F>(words, call);
    assert_eq!(ours, expected::<F>(words, call), "{words:?} {call:?}");
    ours
}

/// The new state, and what the trial came to: which outcome, the refusal or the
/// count, the rms, and how many are beyond.
fn parts(told: &[u64]) -> (&[u64], &[u64]) {
    told.split_at(told.len() - 4)
}

fn state_of(told: &[u64]) -> Words {
    parts(told).0.to_vec()
}

/// The refusal, or 0.
fn number_of(told: &[u64]) -> u32 {
    match *parts(told).1 {
        [0, number, ..] => number as u32,
        _ => 0,
    }
}

/// The state's words of an opening from the case's records; from options
/// without a ratio, where it is 1, they are the same.
fn opening<F: Proved>(case: &Case<F>) -> Words {
    let value = case.family.record();
    let opened = |record: &[u8]| {
        let mut words = vec![0; F::WORDS];
        let number = F::open([record, &value], &case.marks, &case.stops, &mut words);
        assert_eq!(number, 0, "{case:?}");
        words
    };
    let words = opened(&case.options.record());
    if let Some(short) = case.options.short_record() {
        assert_eq!(opened(&short), words, "{case:?}");
    }
    words
}

/// How often each outcome came, how often the bound rose, and how often marks
/// were beyond.
#[derive(Debug, Default)]
struct Outcomes {
    times: [usize; 5],
    rose: usize,
    folded: Folded,
}

impl Outcomes {
    fn add<F: Proved>(&mut self, before: &[u64], call: &Call, told: &[u64]) {
        let (state, answer) = parts(told);
        self.times[answer[0] as usize] += 1;
        self.rose += usize::from(state[10] > before[10]);
        self.folded.add::<F>(before, call, answer);
    }

    /// Sees that all of it came.
    fn met(&self) {
        assert!(self.times.iter().all(|&times| times > 0) && self.rose > 0);
        self.folded.met();
    }
}

// The document's sheets.

/// A trial's outcome, count and rms, and how many marks are beyond.
type Short = (u64, u64, f64, u64);

/// Trials on the square, from an opening of its own.
fn on_the_square(thresh: f64, min_inliers: u32, trials: &[Trial]) -> Vec<Short> {
    by_a_ratio(1.0, thresh, min_inliers, trials)
}

fn by_a_ratio(ratio: f64, thresh: f64, min_inliers: u32, trials: &[Trial]) -> Vec<Short> {
    let stops = [9, 9, 9, 9, 3, 9];
    let options = Options {
        thresh,
        confidence: 0.99,
        max_iters: 10,
        min_inliers,
        refit: true,
        ratio,
    };
    let mut words = vec![0; 25];
    assert_eq!(Sheet.open_options(&options, &SQUARE, &stops, &mut words), 0);
    let one = |trial: &Trial| {
        let record = trial_record(trial);
        let call = Call {
            record: &record,
            marks: &SQUARE,
            stops: &stops,
        };
        let told = compare::<Sheet>(&words, &call);
        words = state_of(&told);
        (told[25], told[26], f64::from_bits(told[27]), told[28])
    };
    trials.iter().map(one).collect()
}

/// The numbers are the document's: 2 is few, 3 held, 4 won.
#[test]
fn the_documents_sheets() {
    let fit = |model| Trial {
        fit: Some(model),
        refit: None,
    };
    let pair = |fit, refit| Trial {
        fit: Some(fit),
        refit: Some(refit),
    };
    assert_eq!(on_the_square(2.0, 4, &[fit(I)]), [(4, 4, 0.0, 0)]);
    assert_eq!(on_the_square(3.0, 4, &[fit(I)])[0].1, 5);
    assert_eq!(on_the_square(2.0, 4, &[fit(T)]), [(2, 1, 0.0, 0)]);
    assert_eq!(on_the_square(2.0, 4, &[pair(I, T)]), [(4, 4, 0.0, 0)]);
    assert_eq!(on_the_square(2.0, 1, &[pair(I, T)]), [(4, 1, 0.0, 0)]);
    assert_eq!(on_the_square(2.0, 1, &[fit(BEHIND)]), [(2, 0, 0.0, 5)]);
    let infinite = |beyond| [(4, 0, f64::INFINITY, beyond)];
    assert_eq!(on_the_square(2.0, 0, &[fit(BEHIND)]), infinite(5));
    let twice = [(4, 4, 0.0, 0), (3, 4, 0.0, 0)];
    assert_eq!(on_the_square(2.0, 4, &[fit(I), fit(I)]), twice);
    // The fit's number, where the refit stands, and none without a fit.
    assert_eq!(on_the_square(2.0, 0, &[pair(I, BEHIND)]), infinite(0));
    let stands = [(4, 4, 0.0, 5)];
    assert_eq!(on_the_square(2.0, 0, &[pair(BEHIND, I)]), stands);
    let empty = Trial::default();
    assert_eq!(on_the_square(2.0, 0, &[empty]), [(1, 0, 0.0, 0)]);
}

/// Under I the middle mark is three off along v; under T the others are.
#[test]
fn the_documents_sheets_by_a_ratio() {
    let trial = |fit, refit| Trial {
        fit: Some(fit),
        refit,
    };
    let (down, folded) = (trial(T, None), trial(BEHIND, None));
    let same = trial(I, None);
    let within = |rms: f64| [(4, 5, rms, 0)];
    assert_eq!(by_a_ratio(0.5, 2.0, 4, &[same]), within(0.45f64.sqrt()));
    assert_eq!(by_a_ratio(2.0, 6.0, 4, &[same]), within(7.2f64.sqrt()));
    assert_eq!(by_a_ratio(2.0, 5.9, 4, &[same]), [(4, 4, 0.0, 0)]);
    assert_eq!(by_a_ratio(0.5, 2.0, 4, &[down]), within(1.8f64.sqrt()));
    assert_eq!(by_a_ratio(2.0, 5.0, 4, &[down]), [(2, 1, 0.0, 0)]);
    // The refit is measured by it, and beyond isn't.
    let both = trial(I, Some(T));
    assert_eq!(by_a_ratio(0.5, 2.0, 4, &[both]), within(1.8f64.sqrt()));
    assert_eq!(by_a_ratio(100.0, 2.0, 1, &[folded]), [(2, 0, 0.0, 5)]);
}

// Openings.

/// A record of the family's value, sometimes of another length, or of a value
/// that isn't accepted.
fn value_record<F: Proved>(random: &mut Random, family: &F) -> Vec<u8> {
    let mut record = family.record();
    match random.below(6) {
        0 => record = F::any(random).record(),
        1 if F::NUMBERS > 0 => record.resize(random.pick(&[0, 8, 31, 33, 40, 64]), 0),
        _ => {}
    }
    record
}

fn openings<F: Proved>() {
    let random = &mut Random::new(40);
    let mut tallies = [Tally::default(), Tally::default()];
    let mut accepted = [0; 2];
    let count = runs(10_000, 50);
    for i in 0..count {
        let mut case = any_stops::<F>(random, i);
        let short = case.options.short_record().filter(|_| random.below(2) == 0);
        let mut record = match short {
            Some(short) => short.to_vec(),
            None => case.options.record().to_vec(),
        };
        if random.below(3) == 0 {
            damage_options(random, &mut record);
        }
        if random.below(3) == 0 {
            damage_marks::<F>(random, &mut case.marks);
        }
        if random.below(3) == 0 {
            case.stops.resize(random.below(9) as usize, 1);
        }
        let value = value_record(random, &case.family);
        let number = open::<F>([&record, &value], &case.marks, &case.stops);
        tallies[0].add(number);
        // Of 32 bytes, or of 40.
        accepted[usize::from(record.len() == 40)] += usize::from(number == 0);
        let of_records = (Options::of_record(&record), F::of_record(&value));
        if let (Ok(options), Ok(family)) = of_records {
            let number = open_options(&family, &options, &case.marks, &case.stops);
            tallies[1].add(number);
        }
    }
    tallies[0].show("opening from records");
    tallies[1].show("opening from the types");
    if count >= LONG {
        tallies[0].met(&[0, 1, 2, 3, 4, 16, 5, 6, 7, 18, 8]);
        tallies[1].met(&[0, 2, 3, 4, 16, 5, 6, 7, 18, 8]);
        assert!(all_came(&accepted));
        if F::NUMBERS > 0 {
            tallies.iter().for_each(|tally| tally.met(&[17]));
        }
    }
}

/// A number that stands for the record of the family's value having a wrong
/// length: its refusal is 1 too.
const OF_VALUE: u32 = 100;

/// The order in which an opening refuses.
fn order<F: Proved>() -> Vec<u32> {
    let order = [1, OF_VALUE, 2, 3, 4, 16, 5, 6, 7, 18, 8, 17];
    let has = |number: &u32| F::NUMBERS > 0 || ![OF_VALUE, 17].contains(number);
    order.into_iter().filter(has).collect()
}

/// Every set of faults of an opening: the first in the order is told.
fn sets_of_faults<F: Proved>() {
    let case = F::example();
    for faults in sets(&order::<F>()) {
        let bad = |number: u32| faults.contains(&number);
        let instead = |number: u32, usual: f64, wrong: f64| match bad(number) {
            true => wrong,
            false => usual,
        };
        let options = Options {
            thresh: instead(2, 2.0, f64::NAN),
            confidence: instead(3, 0.5, 1.0),
            max_iters: instead(4, 9.0, 0.0) as u32,
            ratio: instead(16, 2.0, 0.01f64.next_down()),
            ..case.options
        };
        let mut record = options.record();
        record[24] += 2 * u8::from(bad(1));
        // One mark too few for 7, the last at the first one's position for 18, a
        // number more for 5, one too large for 6.
        let n = if bad(7) { F::FEWEST - 1 } else { case.n() };
        let mut marks = case.marks[..F::WIDTH * n].to_vec();
        if bad(18) {
            marks.copy_within(..F::WIDTH - 2, F::WIDTH * (n - 1));
        }
        marks[3] = instead(6, 0.0, 2e9);
        marks.extend(bad(5).then_some(0.0));
        let stops = vec![9; if bad(8) { 2 } else { n + 1 }];
        let numbers = vec![instead(17, 1.0, 1e9f64.next_up()); F::NUMBERS];
        let family = F::of_numbers(&numbers);
        let mut value = family.record();
        value.extend(bad(OF_VALUE).then_some(0));
        let told = match faults.first() {
            Some(&OF_VALUE) => 1,
            first => first.copied().unwrap_or(0),
        };
        let number = open::<F>([&record, &value], &marks, &stops);
        assert_eq!(number, told, "{faults:?}");
        // The types have no records.
        let of_types = faults
            .iter()
            .find(|number| ![1, OF_VALUE].contains(*number));
        let told = of_types.copied().unwrap_or(0);
        let number = open_options(&family, &options, &marks, &stops);
        assert_eq!(number, told, "{faults:?}");
    }
}

/// A record of 32 bytes has ratio 1, one of 40 its own, and no other length is
/// one. The filler is tested in both.
fn lengths_of_options<F: Proved>() {
    let case = F::example();
    let value = case.family.record();
    let open = |record: &[u8]| open::<F>([record, &value], &case.marks, &case.stops);
    let long = case.options.record();
    for len in NOT_OPTIONS.into_iter().chain([2, 16, 25, 48, 152, 5000]) {
        let mut record = long.to_vec();
        record.resize(len, 0);
        assert_eq!(open(&record), 1, "{len} bytes");
    }
    assert_eq!(open(&long), 0);
    assert_eq!(open(&long[..32]), 0);
    for place in 24..32 {
        for bit in 0..8 {
            let mut record = long;
            record[place] ^= 1 << bit;
            let number = u32::from((place, bit) != (24, 0));
            assert_eq!(open(&record), number);
            assert_eq!(open(&record[..32]), number);
        }
    }
}

/// A camera's record has 32 bytes and no other number of them, its numbers in
/// order, and 17 is asked of each.
#[test]
fn cameras_of_openings() {
    let random = &mut Random::new(49);
    let case = Form::example();
    let record = case.options.record();
    let open = |camera: &[u8]| open::<Form>([&record, camera], &case.marks, &case.stops);
    for len in (0..100).chain([160, 200, 64_000]) {
        let mut other = case.family.record();
        other.resize(len, 0);
        assert_eq!(open(&other), u32::from(len != 32), "{len} bytes");
    }
    let mut tally = Tally::default();
    let traps = camera_traps().into_iter().map(|camera| Form { camera });
    let others = (0..runs(4_000, 50)).map(|_| Form::any(random));
    for family in traps.chain(others) {
        let number = open(&family.record());
        assert_eq!(number, family.tested().err().unwrap_or(0));
        let told = open_options(&family, &case.options, &case.marks, &case.stops);
        assert_eq!(told, number);
        tally.add(number);
    }
    tally.show("cameras of openings");
    tally.met(&[0, 17]);
}

/// The ratio by itself: each limit, from a record and from the type.
fn ratios_of_openings<F: Proved>() {
    let case = F::example();
    let value = case.family.record();
    let mut ratios = Ratios::default();
    let mut tally = Tally::default();
    for ratio in ratio_cases::limits() {
        let options = Options {
            ratio,
            ..case.options
        };
        let number = open_options(&case.family, &options, &case.marks, &case.stops);
        let records: [&[u8]; 2] = [&options.record(), &value];
        assert_eq!(open::<F>(records, &case.marks, &case.stops), number);
        let accepted = 0.01 <= ratio && ratio <= 100.0;
        assert_eq!(number, if accepted { 0 } else { 16 }, "{ratio:e}");
        ratios.add(ratio);
        tally.add(number);
    }
    ratios.all_met();
    tally.met(&[0, 16]);
}

fn openings_of_any_options<F: Proved>() {
    let random = &mut Random::new(41);
    let case = reference::<F>(random, 1);
    for _ in 0..runs(20_000, 50) {
        let options = Options {
            thresh: random.pattern(),
            confidence: random.pick(&[0.5, 0.99, 1.0, 0.0, -0.5, f64::NAN]),
            max_iters: random.pick(&[0, 1, 99_999, 100_000, 100_001, u32::MAX]),
            min_inliers: random.word() as u32,
            refit: random.below(2) == 0,
            ratio: ratio_cases::any(random),
        };
        let family = F::any(random);
        open_options(&family, &options, &case.marks, &case.stops);
        let records: [&[u8]; 2] = [&options.record(), &family.record()];
        open::<F>(records, &case.marks, &case.stops);
    }
}

#[test]
fn the_maker_from_a_threshold() {
    let random = &mut Random::new(42);
    let mut numbers = NANS.map(f64::from_bits).to_vec();
    numbers.extend([0.0, -0.0, 2.0, f64::INFINITY, -1.0, f64::MAX, 5e-324]);
    numbers.extend((0..1000).map(|_| random.pattern()));
    for room in [0, 4, 5] {
        let mut words = junk_words(room);
        assert_eq!(pick::new_options(2.0, &mut words), NO_WORDS);
        assert_eq!(words, junk_words(room));
    }
    for thresh in numbers {
        let mut words = junk_words(7);
        assert_eq!(pick::new_options(thresh, &mut words), 0);
        let mut theirs = junk_words(7);
        let case = State {
            family: Sheet,
            options: Options::new(thresh),
            n: 0,
            book: Book::opened(&Options::new(thresh)),
        };
        theirs[..5].copy_from_slice(&case.words()[..5]);
        theirs[5] = 1f64.to_bits();
        assert_eq!(words, theirs);
    }
}

/// The fewest marks and the most, and one mark less or more; a trial over the
/// most counts them all, within or beyond.
fn how_many_marks<F: Proved>() {
    let case = F::example();
    let mark = &case.marks[..F::WIDTH];
    let value = case.family.record();
    let records: [&[u8]; 2] = [&case.options.record(), &value];
    for (n, number) in [
        (0, 7),
        (1, 7),
        (F::FEWEST - 1, 7),
        (F::FEWEST, 0),
        (F::MOST, 0),
        (F::MOST + 1, 5),
    ] {
        let (marks, stops) = (mark.repeat(n), vec![9; n + 1]);
        let told = open::<F>(records, &marks, &stops);
        assert_eq!(told, number, "{n} marks");
        let told = open_options(&case.family, &case.options, &marks, &stops);
        assert_eq!(told, number, "{n} marks");
        if number > 0 {
            continue;
        }
        let many = Case {
            marks,
            stops,
            ..case.clone()
        };
        let words = opening(&many);
        for (model, answer) in [
            (identity::<F>(), [4, n as u64, 0, 0]),
            (behind::<F>(), [2, 0, 0, n as u64]),
        ] {
            let trial = Trial {
                fit: Some(model),
                refit: None,
            };
            let told = compare::<F>(&words, &Handed::of(&many, &trial).call());
            assert_eq!(*parts(&told).1, answer);
        }
    }
}

/// Lists too short for the words: nothing is written.
fn no_room_for_words<F: Proved>() {
    let case = reference::<F>(&mut Random::new(43), 1);
    let (record, value) = (case.options.record(), case.family.record());
    let (marks, stops) = (&case.marks, &case.stops);
    let state = opening(&case);
    let empty = trial_record(&Trial::<F::Model>::default());
    for room in [0, 1, 4, 24, F::WORDS - 1] {
        let mut words = junk_words(room);
        let answer = F::open([&record, &value], marks, stops, &mut words);
        assert_eq!(answer, NO_WORDS);
        let answer = case
            .family
            .open_options(&case.options, marks, stops, &mut words);
        assert_eq!(answer, NO_WORDS);
        let len = F::WORDS + 4;
        let mut out = junk_words(len);
        let answer = F::trial(&state[..room], &empty, marks, stops, &mut out);
        assert_eq!((answer, out), (NO_WORDS, junk_words(len)));
        assert_eq!(words, junk_words(room));
    }
    for room in [0, F::WORDS, F::WORDS + 2, F::WORDS + 3] {
        let mut out = junk_words(room);
        let answer = F::trial(&state, &empty, marks, stops, &mut out);
        assert_eq!((answer, out), (NO_WORDS, junk_words(room)));
    }
}

// Lists of calls.

/// The state after the case's trials, each compared.
fn replayed<F: Proved>(case: &Case<F>, outcomes: &mut Outcomes) -> Words {
    let mut words = opening(case);
    let mut book = Book::opened(&case.options);
    for trial in &case.trials {
        let record = trial_record(trial);
        let call = Call {
            record: &record,
            marks: &case.marks,
            stops: &case.stops,
        };
        let told = compare::<F>(&words, &call);
        // The book knows nothing of the state that the calls hand on.
        let answer = book.call(&case.fed(), &call);
        assert_eq!(answer.words(), *parts(&told).1, "{case:?}");
        outcomes.add::<F>(&words, &call, &told);
        words = state_of(&told);
    }
    let after = State {
        book,
        ..case.open()
    };
    assert_eq!(after.words(), words, "{case:?}");
    words
}

fn trials_give_what_ransac_fit_gives<F: Proved>() {
    let random = &mut Random::new(44);
    let mut outcomes = Outcomes::default();
    let mut ratios = Ratios::default();
    let count = runs(8_000, 100);
    for i in 0..count {
        let case = reference::<F>(random, i);
        ratios.add(case.options.ratio);
        let theirs = case.ransac_fit();
        let words = replayed(&case, &mut outcomes);
        assert_eq!(words[6], theirs.read as u64, "{case:?}");
        assert_eq!(words[6], words[7] + words[8] + words[9]);
        let mut expected = vec![0; F::RATIO_AT - 11];
        if let Some(winner) = &theirs.winner {
            expected[..2].copy_from_slice(&[1, winner.inliers.len() as u64]);
            expected[2..4].copy_from_slice(&[winner.number as u64, winner.rms.to_bits()]);
            for (word, h) in expected[4..].iter_mut().zip(winner.model.as_ref()) {
                *word = h.to_bits();
            }
        }
        assert_eq!(words[11..F::RATIO_AT], expected, "{case:?}");
        assert_eq!(words[F::RATIO_AT], case.options.ratio.to_bits());
        let value = case.family.numbers().iter().map(|x| x.to_bits());
        assert!(value.eq(words[F::RATIO_AT + 1..].iter().copied()));
    }
    println!("trials, as ransac_fit: {outcomes:?} {ratios:?}");
    if count >= LONG {
        outcomes.met();
        ratios.accepted_met();
    }
}

/// Close candidates, where the rms decides and is given for held trials too.
fn trials_of_close_candidates<F: Proved>() {
    let random = &mut Random::new(48);
    let mut outcomes = Outcomes::default();
    for i in 0..runs(4_000, 100) {
        replayed(&close::<F>(random, i), &mut outcomes);
    }
    println!("trials, close candidates: {outcomes:?}");
}

fn trials_with_any_stop_list<F: Proved>() {
    let random = &mut Random::new(45);
    let mut outcomes = Outcomes::default();
    let count = runs(8_000, 100);
    for i in 0..count {
        replayed(&any_stops::<F>(random, i), &mut outcomes);
    }
    println!("trials, any stops: {outcomes:?}");
    if count >= LONG {
        outcomes.met();
    }
}

/// What a call hands in, whole or damaged somewhere.
#[derive(Clone)]
struct Handed {
    record: Vec<u8>,
    marks: Vec<f64>,
    stops: Vec<u32>,
}

impl Handed {
    fn of<F: Proved>(case: &Case<F>, trial: &Trial<F::Model>) -> Self {
        Self {
            record: trial_record(trial),
            marks: case.marks.clone(),
            stops: case.stops.clone(),
        }
    }

    fn call(&self) -> Call<'_> {
        Call {
            record: &self.record,
            marks: &self.marks,
            stops: &self.stops,
        }
    }

    /// Damages one, two or all three of them.
    fn damage<F: Proved>(&mut self, random: &mut Random) {
        let ways = 1 + random.below(7);
        if ways & 1 != 0 {
            match random.below(4) {
                0 => other_length::<F>(random, &mut self.record),
                _ => damage_trial::<F>(random, &mut self.record),
            }
        }
        if ways & 2 != 0 {
            damage_marks::<F>(random, &mut self.marks);
        }
        if ways & 4 != 0 {
            self.stops.resize(random.below(14) as usize, 1);
        }
    }

    /// Other numbers in lists of the same lengths: not refused.
    fn replace<F: Proved>(&mut self, random: &mut Random) {
        for x in &mut self.marks {
            *x = random.from_to(-20, 20) as f64;
        }
        settle::<F>(&mut self.marks);
        for stop in &mut self.stops {
            *stop = random.below(20) as u32;
        }
    }
}

/// Calls that are refused leave the state, whatever they carry, at any place
/// of a list.
fn refused_calls_in_between<F: Proved>() {
    let random = &mut Random::new(46);
    let mut tally = Tally::default();
    let count = runs(8_000, 100);
    for i in 0..count {
        let case = any_stops::<F>(random, i);
        let mut words = opening(&case);
        for trial in case.trials.iter().take(12) {
            let mut handed = Handed::of(&case, trial);
            match random.below(8) {
                0..=3 => handed.damage::<F>(random),
                4 => handed.replace::<F>(random),
                _ => {}
            }
            let told = compare::<F>(&words, &handed.call());
            tally.add(number_of(&told));
            let (state, answer) = parts(&told);
            assert!(answer[0] != 0 || (words == state && answer[2..] == [0; 2]));
            words = state.to_vec();
        }
    }
    tally.show("trials, some refused");
    if count >= LONG {
        tally.met(&[0, 1, 5, 6, 18, 8, 10]);
    }
}

// States made by hand.

/// Every model of the case's trials, and the identity.
fn pool<F: Proved>(case: &Case<F>) -> Vec<F::Model> {
    let mut list: Vec<F::Model> = case.trials.iter().filter_map(|trial| trial.fit).collect();
    list.push(identity::<F>());
    list
}

fn hand_made_states<F: Proved>() {
    let random = &mut Random::new(47);
    let mut tally = Tally::default();
    let mut folded = Folded::default();
    let mut ratios = Ratios::default();
    let mut values = [0; 2];
    let count = runs(20_000, 50);
    for i in 0..count {
        let case = any_stops::<F>(random, i);
        let mut words = opening(&case);
        hand_made::<F>(random, &mut words, &pool(&case));
        let trial = case.trials.first().copied().unwrap_or_default();
        let mut handed = Handed::of(&case, &trial);
        match random.below(8) {
            0 => handed.damage::<F>(random),
            // As many marks as a hand-made state says: three, or none.
            1 => {
                let n = words[5].min(F::MOST as u64) as usize;
                handed.marks.truncate(F::WIDTH * n);
            }
            _ => {}
        }
        let told = compare::<F>(&words, &handed.call());
        let answer = parts(&told).1;
        tally.add(number_of(&told));
        folded.add::<F>(&words, &handed.call(), answer);
        // A fit was measured by the ratio, and by the family's value.
        if answer[0] >= 2 {
            ratios.add(f64::from_bits(words[F::RATIO_AT]));
            let value = State::<F>::of_words(&words).family;
            values[usize::from(value.tested().is_ok())] += 1;
        }
    }
    tally.show("trials on hand-made states");
    println!("trials on hand-made states: {folded:?} {ratios:?} {values:?}");
    if count >= LONG {
        tally.met(&[0, 1, 5, 6, 7, 18, 8, 10]);
        folded.thresholds_met();
        ratios.all_met();
        assert!(all_came(&values) || F::NUMBERS == 0);
    }
}

/// Words to replace, by their places.
type Changes<'a> = &'a [(usize, u64)];

/// A fresh state of the worked run with some words replaced, and a trial.
fn worked_by<F: Proved>(changes: Changes, model: F::Model) -> Told {
    let case = F::example();
    let mut words = opening(&case);
    for &(place, word) in changes {
        words[place] = word;
    }
    let trial = Trial {
        fit: Some(model),
        refit: None,
    };
    compare::<F>(&words, &Handed::of(&case, &trial).call())
}

/// The same with a good trial.
fn worked<F: Proved>(changes: Changes) -> Told {
    worked_by::<F>(changes, identity::<F>())
}

fn states_at_the_limits<F: Proved>() {
    let top = u64::from(u32::MAX);
    let n = F::example().n() as u64;
    let cases: [(Changes, u64, u64); 14] = [
        (&[(6, top), (10, top)], 0, 10),
        (&[(6, top - 1), (10, top)], 0, 10),
        (&[(6, 100_000), (10, top)], 0, 10),
        (&[(6, 99_999), (10, top)], 4, 4),
        (&[(6, 99_999), (10, 99_999)], 0, 10),
        (&[(2, 0), (10, 5)], 4, 4),
        (&[(7, 1)], 0, 10),
        (&[(8, top)], 0, 10),
        (&[(9, 1)], 0, 10),
        (&[(6, 1), (7, 1), (8, 1), (9, 1)], 4, 4),
        (&[(5, u64::MAX)], 0, 5),
        (&[(5, 1 << 62)], 0, 5),
        (&[(5, (1 << 32) + n)], 0, 5),
        // Words that a count takes modulo 2^32.
        (&[(6, 1 << 32), (7, 7 << 32)], 4, 4),
    ];
    for (changes, outcome, number) in cases {
        let told = worked::<F>(changes);
        assert_eq!(parts(&told).1[..2], [outcome, number], "{changes:?}");
    }
    // The one trial that it reads ends it.
    let told = worked::<F>(&[(2, 0), (10, 5)]);
    assert_eq!((told[6], told[10]), (1, 0));
}

/// Every mark behind the horizon: the identity with its signs changed.
fn behind<F: Proved>() -> F::Model {
    identity::<F>().each(|a| -a)
}

/// Options that no opening accepts are used as they are.
fn hand_made_thresholds<F: Proved>() {
    let infinite = f64::INFINITY.to_bits();
    let n = F::example().n() as u64;
    let told = worked_by::<F>(&[(0, infinite)], behind::<F>());
    assert_eq!(*parts(&told).1, [4, n, infinite, n]);
    for nan in NANS {
        let changes = [(0, nan), (1, nan)];
        let told = worked::<F>(&changes);
        assert_eq!(*parts(&told).1, [2, 0, 0, 0]);
        assert_eq!(told[..2], [0x7ff8_0000_0000_0000; 2]);
        let told = worked_by::<F>(&changes, behind::<F>());
        assert_eq!(*parts(&told).1, [2, 0, 0, n]);
    }
}

/// A ratio that no opening accepts is used as it is, and comes back; beyond
/// doesn't depend on it. Under the identity four marks are off by nothing, and
/// the others by three along v: by an infinite ratio the four are at a NaN.
fn hand_made_ratios<F: Proved>() {
    let (inf, nan) = (f64::INFINITY, f64::NAN);
    let n = F::example().n() as u64;
    let off = n - 4;
    for (thresh, ratio, outcome, count, rms) in [
        (2.0, 0.0, 4, n, 0.0),
        (2.0, -0.0, 4, n, 0.0),
        (2.0, -1.0, 4, 4, 0.0),
        (3.0, -1.0, 4, n, (9.0 * off as f64 / n as f64).sqrt()),
        (2.0, 5e-324, 4, n, 0.0),
        (2.0, f64::MAX, 4, 4, 0.0),
        (inf, f64::MAX, 4, n, inf),
        (2.0, inf, 2, 0, 0.0),
        (inf, inf, 2, off, 0.0),
        (inf, -inf, 2, off, 0.0),
        (inf, nan, 2, 0, 0.0),
    ] {
        let changes = [(0, thresh.to_bits()), (F::RATIO_AT, ratio.to_bits())];
        let told = worked::<F>(&changes);
        let expected = [outcome, count, rms.to_bits(), 0];
        assert_eq!(*parts(&told).1, expected, "{thresh:e} {ratio:e}");
        assert_eq!(f64::from_bits(told[F::RATIO_AT]).is_nan(), ratio.is_nan());
        assert!(ratio.is_nan() || told[F::RATIO_AT] == ratio.to_bits());
        // Scored by any count, the rms is no NaN.
        let told = worked::<F>(&[changes[0], changes[1], (3, 0)]);
        assert_eq!(parts(&told).1[..2], [4, count]);
        assert!(!f64::from_bits(parts(&told).1[2]).is_nan());
        // Beyond doesn't depend on it.
        let told = worked_by::<F>(&changes, behind::<F>());
        assert_eq!(parts(&told).1[3], n);
    }
}

/// A camera that no opening accepts is used as it is, and comes back; beyond
/// doesn't depend on it. With a NaN in it nothing is within.
#[test]
fn hand_made_cameras() {
    let n = Form::example().n() as u64;
    let (inf, nan) = (f64::INFINITY, f64::NAN);
    for place in 0..4 {
        for x in [nan, inf, -inf, f64::MAX, 2e9, 0.0, -0.0] {
            let at = Form::RATIO_AT + 1 + place;
            let changes = [(at, x.to_bits()), (0, inf.to_bits())];
            let told = worked::<Form>(&changes[..1]);
            assert_eq!(f64::from_bits(told[at]).is_nan(), x.is_nan());
            assert!(x.is_nan() || told[at] == x.to_bits());
            assert!(!x.is_nan() || *parts(&told).1 == [2, 0, 0, 0]);
            let told = worked_by::<Form>(&changes[..1], behind::<Form>());
            assert_eq!(*parts(&told).1, [2, 0, 0, n]);
            // An infinite threshold takes in what is far, and no NaN.
            let told = worked::<Form>(&changes);
            let within = parts(&told).1[1];
            assert!(if x.is_nan() { within == 0 } else { within > 0 });
        }
    }
}

/// A winner made by hand: its count is the largest there is, or its rms a NaN.
fn hand_made_winners<F: Proved>() {
    let winner = |count: u64, rms: f64| [(11, 1), (12, count), (13, 77), (14, rms.to_bits())];
    for (count, rms, outcome) in [
        (u64::from(u32::MAX), 0.0, 3),
        (4, 0.0, 3),
        (4, 1e-300, 4),
        (4, f64::NAN, 3),
        (4, f64::INFINITY, 4),
        (4, -1.0, 3),
        (3, 0.0, 4),
        ((9 << 32) + 3, 0.0, 4),
    ] {
        let told = worked::<F>(&winner(count, rms));
        assert_eq!(parts(&told).1[0], outcome, "{count} {rms:e}");
    }
    // Each number of its model comes back where it stood.
    let numbers: Vec<(usize, u64)> = (0..F::SIZE)
        .map(|k| (MODEL_AT + k, (0.5 + k as f64).to_bits()))
        .collect();
    let told = worked::<F>(&[&winner(u64::from(u32::MAX), 0.0)[..], &numbers].concat());
    for (place, word) in numbers {
        assert_eq!(told[place], word);
    }
}
