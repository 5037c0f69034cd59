//! The book on 01's sheets to try, its records, its refusals and their orders,
//! and 02's row ratio.

use oracle::book::{Answer, Best, Book, Call, Options, State, trial_of_record, trial_record};
use oracle::cases::step;
use oracle::example::{self, BEHIND, I, SQUARE, T};
use oracle::whole::{printed, run};
use oracle::{Model, Sheet, Trial};

const STOPS: [u32; 6] = [9, 9, 9, 9, 3, 9];

fn options(thresh: f64, max_iters: u32, min_inliers: u32, refit: bool) -> Options {
    Options {
        thresh,
        confidence: 0.99,
        max_iters,
        min_inliers,
        refit,
        ratio: 1.0,
    }
}

/// The same by a row ratio.
fn by(ratio: f64, options: Options) -> Options {
    Options { ratio, ..options }
}

/// The square with the second mark at the first one's position.
fn doubled() -> [f64; 20] {
    let mut marks = SQUARE;
    marks.copy_within(..2, 4);
    marks
}

fn open(options: Options) -> State {
    State::open(Sheet, options, &SQUARE, &STOPS).expect("an accepted opening")
}

fn fit(model: Model) -> Vec<u8> {
    trial_record(&Trial {
        fit: Some(model),
        refit: None,
    })
}

fn try_one(state: &mut State, record: &[u8]) -> Answer {
    state.trial(&Call {
        record,
        marks: &SQUARE,
        stops: &STOPS,
    })
}

/// The outcome as numbers: which one, the count or the refusal, the rms.
fn told(answer: Answer) -> (u64, u64, f64) {
    let [which, count, rms, _] = answer.words();
    (which, count, f64::from_bits(rms))
}

fn number_of(state: &mut State, record: &[u8]) -> u32 {
    try_one(state, record).number()
}

#[test]
fn one_trial_each() {
    let cases = [
        (2.0, 4, I, (4, 4, 0.0)),
        (3.0, 4, I, (4, 5, 1.8f64.sqrt())),
        (2.0, 1, T, (4, 1, 0.0)),
        (2.0, 4, T, (2, 1, 0.0)),
        (2.0, 1, BEHIND, (2, 0, 0.0)),
        (2.0, 0, BEHIND, (4, 0, f64::INFINITY)),
    ];
    for (thresh, min, model, expected) in cases {
        let mut state = open(options(thresh, 10, min, false));
        assert_eq!(told(try_one(&mut state, &fit(model))), expected);
    }
}

/// The middle mark is three off along v under I, and the four others under T.
#[test]
fn one_trial_each_by_a_ratio() {
    let cases = [
        (2.0, 0.5, I, (4, 5, 0.45f64.sqrt())),
        (2.0, 2.0, I, (4, 4, 0.0)),
        (6.0, 2.0, I, (4, 5, 7.2f64.sqrt())),
        (step(6.0, -1), 2.0, I, (4, 4, 0.0)),
        (2.0, 0.5, T, (4, 5, 1.8f64.sqrt())),
        (5.0, 2.0, T, (2, 1, 0.0)),
        (2.0, 0.5, BEHIND, (2, 0, 0.0)),
    ];
    for (thresh, ratio, model, expected) in cases {
        let mut state = open(by(ratio, options(thresh, 10, 4, false)));
        let answer = try_one(&mut state, &fit(model));
        assert_eq!(told(answer), expected, "{thresh:e} {ratio:e}");
        assert_eq!(answer.beyond, if model == BEHIND { 5 } else { 0 });
        if expected.0 == 4 {
            let indices = state.winner_indices(&SQUARE, 5).expect("a winner");
            assert_eq!(indices.len() as u64, expected.1);
        }
    }
}

#[test]
fn a_refit_stands_if_it_reaches_the_minimum() {
    let both = trial_record(&Trial {
        fit: Some(I),
        refit: Some(T),
    });
    for (min, refit, ratio, expected, standing) in [
        (4, true, 1.0, (4, 4, 0.0), I),
        (1, true, 1.0, (4, 1, 0.0), T),
        (1, false, 1.0, (4, 4, 0.0), I),
        // Under T four marks are 1.5 off.
        (4, true, 0.5, (4, 5, 1.8f64.sqrt()), T),
    ] {
        let mut state = open(by(ratio, options(2.0, 10, min, refit)));
        assert_eq!(told(try_one(&mut state, &both)), expected);
        assert_eq!(state.book.winner.expect("a winner").model, standing);
    }
    // A refit of count 0 stands over a fit of count 4 where 0 is enough.
    let mut state = open(options(2.0, 10, 0, true));
    let none = trial_record(&Trial {
        fit: Some(I),
        refit: Some(BEHIND),
    });
    assert_eq!(
        told(try_one(&mut state, &none)),
        (4, 0, f64::INFINITY),
        "and the bound is max_iters"
    );
    assert_eq!(state.book.bound, 10);
}

/// A model under which the left half of the square is ahead: s = 50 - x is 0
/// at the middle mark.
const FOLDED: Model = [1.0, 0.0, 0.0, 0.0, 1.0, 0.0, -1.0, 0.0, 50.0];

/// Which outcome, the count or the refusal, and how many are beyond.
fn beyond_told(options: Options, fit: Option<Model>, refit: Option<Model>) -> (u64, u64, u32) {
    let mut state = open(options);
    let answer = try_one(&mut state, &trial_record(&Trial { fit, refit }));
    let [which, count, ..] = answer.words();
    (which, count, answer.beyond)
}

/// The fit's number is told, whatever comes of the trial: 2 is few, 4 won.
#[test]
fn marks_beyond_under_the_fit() {
    for (min, fit, refit, expected) in [
        (4, I, None, (4, 4, 0)),
        (1, BEHIND, None, (2, 0, 5)),
        (0, BEHIND, None, (4, 0, 5)),
        // Three of five; the one at (0, 0) is within.
        (1, FOLDED, None, (4, 1, 3)),
        (2, FOLDED, None, (2, 1, 3)),
        // The refit stands, and the fit is told of.
        (0, I, Some(BEHIND), (4, 0, 0)),
        (0, BEHIND, Some(I), (4, 4, 5)),
        (1, FOLDED, Some(I), (4, 4, 3)),
        // The refit doesn't stand.
        (4, I, Some(BEHIND), (4, 4, 0)),
        (1, FOLDED, Some(BEHIND), (4, 1, 3)),
        // The fit is few, and the refit isn't looked at.
        (1, BEHIND, Some(I), (2, 0, 5)),
    ] {
        let answer = beyond_told(options(2.0, 10, min, true), Some(fit), refit);
        assert_eq!(answer, expected, "{min} {fit:?} {refit:?}");
    }
    let empty = beyond_told(options(2.0, 10, 0, true), None, None);
    assert_eq!(empty, (1, 0, 0));
}

/// A distance that is infinite or a NaN isn't beyond; s that is a NaN is.
#[test]
fn beyond_and_not_merely_far() {
    let mut far = I;
    far[2] = 1e200;
    // 1e307 * x - 1e307 * y is a NaN at two marks, inf at one and -inf at one:
    // u's numerator, and s but for the 1.
    let none = [1e307, -1e307, 0.0, 0.0, 1.0, 0.0, 0.0, 0.0, 1.0];
    let no_s = [1.0, 0.0, 0.0, 0.0, 1.0, 0.0, 1e307, -1e307, 1.0];
    for (fit, beyond) in [(far, 0), (none, 0), (no_s, 3)] {
        let answer = beyond_told(options(2.0, 10, 0, false), Some(fit), None);
        assert_eq!(answer.2, beyond, "{fit:?}");
    }
}

/// Refused calls tell of none beyond, though the fit has five.
#[test]
fn none_beyond_where_it_is_refused() {
    let state = open(options(2.0, 10, 0, false));
    let (good, mut bad) = (fit(BEHIND), fit(BEHIND));
    bad[0] = 2;
    let refused = |mut state: State, record: &[u8], marks: &[f64], stops: &[u32]| {
        let answer = state.trial(&Call {
            record,
            marks,
            stops,
        });
        assert_eq!(answer.beyond, 0);
        answer.number()
    };
    assert_eq!(refused(state, &bad, &SQUARE, &STOPS), 1);
    assert_eq!(refused(state, &good, &SQUARE[..16], &STOPS[..5]), 5);
    let mut marks = SQUARE;
    marks[0] = 2e9;
    assert_eq!(refused(state, &good, &marks, &STOPS), 6);
    assert_eq!(refused(state, &good, &SQUARE, &STOPS[..5]), 8);
    let mut three = state;
    three.n = 3;
    assert_eq!(refused(three, &good, &SQUARE[..12], &STOPS), 7);
    let mut ended = state;
    ended.book.bound = 0;
    assert_eq!(refused(ended, &good, &SQUARE, &STOPS), 10);
    ended = state;
    ended.book.few = 1;
    assert_eq!(refused(ended, &good, &SQUARE, &STOPS), 10);
}

#[test]
fn the_same_twice_keeps_the_first() {
    let mut state = open(options(2.0, 10, 4, false));
    assert_eq!(told(try_one(&mut state, &fit(I))), (4, 4, 0.0));
    assert_eq!(told(try_one(&mut state, &fit(I))), (3, 4, 0.0));
    let Best { count, number, .. } = state.book.winner.expect("a winner");
    assert_eq!((count, number), (4, 1));
    assert_eq!(state.winner_indices(&SQUARE, 5), Ok(vec![0, 1, 2, 3]));
}

#[test]
fn the_bound_falls_and_rises() {
    let mut state = open(options(2.0, 10, 1, false));
    try_one(&mut state, &fit(I));
    assert_eq!(state.book.bound, 3);
    try_one(&mut state, &fit(T));
    assert_eq!(state.book.bound, 9);
    try_one(&mut state, &fit(I));
    assert_eq!((state.book.read, state.book.bound), (3, 3));
    assert_eq!(number_of(&mut state, &fit(I)), 10);
}

#[test]
fn the_third_trial_at_two_is_refused() {
    let mut state = open(options(2.0, 2, 4, false));
    let empty = trial_record(&Trial::<Model>::default());
    for expected in [0, 0, 10] {
        assert_eq!(number_of(&mut state, &empty), expected);
    }
    let Book {
        read, empty, few, ..
    } = state.book;
    assert_eq!((read, empty, few), (2, 2, 0));
}

#[test]
fn openings_refuse_in_their_order() {
    let good = options(2.0, 10, 4, false);
    let nan = f64::NAN;
    let bad_all = options(nan, 0, 4, false);
    let with = |thresh, confidence, max_iters| Options {
        thresh,
        confidence,
        max_iters,
        ..good
    };
    let (marks7, doubled) = (&SQUARE[..7], &doubled());
    let mut wide = doubled[..12].to_vec();
    wide[9] = 2e9;
    let cases: [(Options, &[f64], &[u32], u32); 21] = [
        (by(nan, bad_all), marks7, &[], 2),
        (by(nan, with(2.0, 1.0, 0)), marks7, &[], 3),
        (by(nan, with(2.0, 0.5, 100_001)), marks7, &[], 4),
        (by(nan, good), marks7, &[], 16),
        (by(nan, good), &[nan; 8], &[], 16),
        (by(nan, good), &SQUARE[..12], &[], 16),
        (by(nan, good), &SQUARE, &STOPS[..5], 16),
        (by(nan, good), &SQUARE, &STOPS, 16),
        (good, marks7, &[], 5),
        (good, &[nan; 8], &[], 6),
        (by(nan, good), doubled, &[], 16),
        (good, &doubled[..7], &[], 5),
        (good, &wide, &[], 6),
        (good, &doubled[..8], &[], 7),
        (good, &doubled[..12], &[], 7),
        (good, &doubled[..16], &[], 18),
        (good, doubled, &STOPS[..5], 18),
        (good, &SQUARE[..12], &[], 7),
        (good, &SQUARE, &STOPS[..5], 8),
        (with(2.0, 0.5, 100_000), &SQUARE, &STOPS, 0),
        (with(f64::MAX, 5e-324, 1), &SQUARE, &STOPS, 0),
    ];
    for (options, marks, stops, number) in cases {
        let answer = State::open(Sheet, options, marks, stops).err().unwrap_or(0);
        assert_eq!(answer, number, "{options:?}");
        let record = options.record();
        let answer = State::open_record(&record, marks, stops).err().unwrap_or(0);
        assert_eq!(answer, number, "{options:?}");
        let refused = State::open_record(&record[..39], marks, stops).err();
        assert_eq!(refused, Some(1));
    }
}

/// Both ends of the ratio, their neighbours, and what is no ratio.
#[test]
fn ratios_of_openings() {
    let (good, inf) = (options(2.0, 10, 4, false), f64::INFINITY);
    for (ratio, number) in [
        (0.01, 0),
        (step(0.01, 1), 0),
        (1.0, 0),
        (step(100.0, -1), 0),
        (100.0, 0),
        (step(0.01, -1), 16),
        (step(100.0, 1), 16),
        (0.0, 16),
        (-0.0, 16),
        (-1.0, 16),
        (5e-324, 16),
        (f64::MAX, 16),
        (inf, 16),
        (-inf, 16),
        (f64::NAN, 16),
    ] {
        let record = by(ratio, good).record();
        let answer = State::open_record(&record, &SQUARE, &STOPS);
        assert_eq!(answer.err().unwrap_or(0), number, "{ratio:e}");
    }
}

/// 32 bytes and 40 are records, of ratio 1 and of the last eight bytes' ratio.
#[test]
fn lengths_of_options() {
    let good = by(1.0, options(2.0, 10, 4, true));
    let (long, short) = (good.record(), good.short_record());
    let short = short.expect("ratio 1");
    assert_eq!((long.len(), short.len()), (40, 32));
    assert_eq!(long[..32], short);
    let words = |record: &[u8]| {
        let state = State::open_record(record, &SQUARE, &STOPS);
        state.map(|state| state.words())
    };
    assert_eq!(words(&short), words(&long));
    assert!(words(&short).is_ok());
    for ratio in [0.01, 0.5, step(1.0, 1), 100.0] {
        let other = by(ratio, good);
        assert!(other.short_record().is_none());
        assert_ne!(words(&other.record()), words(&short));
        let read = Options::of_record(&other.record()).expect("a record");
        assert_eq!(read.ratio, ratio);
    }
    for len in [0, 1, 24, 31, 33, 39, 41, 48, 64] {
        let mut record = long.to_vec();
        record.resize(len, 0);
        assert_eq!(words(&record), Err(1), "{len} bytes");
    }
    // The filler stays filler, and the ratio's bytes are none.
    for place in 25..32 {
        for record in [&long[..], &short] {
            let mut record = record.to_vec();
            record[place] = 1;
            assert_eq!(words(&record), Err(1));
        }
    }
}

#[test]
fn trials_refuse_in_their_order() {
    let state = open(options(2.0, 10, 4, false));
    let (good, mut bad) = (fit(I), fit(I));
    bad[0] = 2;
    let call = |marks, stops, record| Call {
        record,
        marks,
        stops,
    };
    let doubled = doubled();
    let cases = [
        (call(&SQUARE[..7], &[], &bad), 5),
        // Four marks, where the run has five.
        (call(&[f64::NAN; 16], &[], &bad), 5),
        (call(&[f64::NAN; 20], &[], &bad), 6),
        (call(&doubled[..16], &[], &bad), 5),
        (call(&doubled, &[], &bad), 18),
        (call(&SQUARE, &STOPS[..5], &bad), 8),
        (call(&SQUARE, &STOPS, &bad), 1),
        (call(&SQUARE, &STOPS, &bad[..151]), 1),
        (call(&SQUARE, &STOPS, &good), 0),
    ];
    for (call, number) in cases {
        let mut after = state;
        assert_eq!(after.trial(&call).number(), number);
        assert_eq!(after.words() == state.words(), number != 0);
        after = state;
        after.book.bound = 0;
        assert_eq!(after.trial(&call).number(), 10);
    }
    // A hand-made n of three: 7, where the list has three too, though two clash;
    // of four, 18.
    let mut three = state;
    three.n = 3;
    assert_eq!(three.trial(&call(&SQUARE[..12], &[], &bad)).number(), 7);
    assert_eq!(three.trial(&call(&doubled[..12], &[], &bad)).number(), 7);
    let mut four = state;
    four.n = 4;
    assert_eq!(four.trial(&call(&doubled[..16], &[], &bad)).number(), 18);
}

/// 01's kinds of a malformed record, one by one.
#[test]
fn malformed_trials() {
    let refused = |change: &dyn Fn(&mut [u8])| {
        let mut record = fit(I);
        change(&mut record);
        trial_of_record::<Sheet>(&record).is_err()
    };
    assert!(!refused(&|_| ()));
    assert!(refused(&|r| r[0] = 2));
    assert!(refused(&|r| r[1] = 2));
    assert!(refused(&|r| r[7] = 1));
    // Unmarked, and not zero bytes: minus zero too.
    assert!(refused(&|r| r[0] = 0));
    assert!(refused(&|r| r[87] = 0x80));
    assert!(!refused(&|r| (r[1], r[87]) = (1, 0x80)));
    // A refit without a fit.
    assert!(refused(&|r| {
        r.fill(0);
        r[1] = 1;
    }));
    for bad in [f64::NAN, f64::INFINITY, f64::NEG_INFINITY] {
        assert!(refused(&|r| r[72..80].copy_from_slice(&bad.to_le_bytes())));
        assert!(refused(&|r| {
            r[1] = 1;
            r[144..].copy_from_slice(&bad.to_le_bytes());
        }));
    }
}

#[test]
fn records_come_back() {
    let options = by(0.75, options(2.5, 7, 3, true));
    let again = Options::of_record(&options.record()).expect("a record");
    assert_eq!(again.record(), options.record());
    let trial = Trial {
        fit: Some(I),
        refit: Some([-0.0; 9]),
    };
    let again = trial_of_record::<Sheet>(&trial_record(&trial)).expect("a record");
    assert_eq!(trial_record(&again), trial_record(&trial));
    let mut state = open(options);
    try_one(&mut state, &fit(T));
    assert_eq!(
        State::<Sheet>::of_words(&state.words()).words(),
        state.words()
    );
}

#[test]
fn hand_made_states() {
    let fresh = open(options(2.0, 10, 4, false));
    let with = |read, empty, bound| {
        let mut state = fresh;
        (state.book.read, state.book.empty, state.book.bound) = (read, empty, bound);
        state
    };
    for (read, empty, bound, number) in [
        (u32::MAX, 0, u32::MAX, 10),
        (u32::MAX - 1, 0, u32::MAX, 10),
        (100_000, 0, u32::MAX, 10),
        (99_999, 99_999, u32::MAX, 0),
        (3, 4, 9, 10),
        (3, 3, 3, 10),
        (3, 3, 4, 0),
    ] {
        let mut state = with(read, empty, bound);
        assert_eq!(number_of(&mut state, &fit(I)), number, "{read} {empty}");
    }
    // No iterations, and a bound: the trial is read, and ends the run.
    let mut none = with(0, 0, 5);
    none.options.max_iters = 0;
    assert_eq!(told(try_one(&mut none, &fit(I))), (4, 4, 0.0));
    assert_eq!((none.book.read, none.book.bound), (1, 0));
    // A threshold of +inf takes infinite distances in, and a NaN none.
    let mut all = fresh;
    all.options.thresh = f64::INFINITY;
    let answer = try_one(&mut all, &fit(BEHIND));
    assert_eq!(told(answer), (4, 5, f64::INFINITY));
    assert_eq!(answer.beyond, 5);
    assert_eq!(all.winner_indices(&SQUARE, 5), Ok(vec![0, 1, 2, 3, 4]));
    all.options.thresh = f64::NAN;
    for (model, beyond) in [(I, 0), (BEHIND, 5)] {
        let answer = try_one(&mut all, &fit(model));
        assert_eq!((told(answer), answer.beyond), ((2, 0, 0.0), beyond));
    }
    assert_eq!(all.winner_indices(&SQUARE, 5), Ok(vec![]));
}

/// A ratio that no opening accepts is used as it is. Under I the middle mark
/// is off along v, and the others are off by nothing.
#[test]
fn hand_made_ratios() {
    let (inf, nan) = (f64::INFINITY, f64::NAN);
    for (thresh, ratio, expected) in [
        // Nothing is off along v any more.
        (2.0, 0.0, (4, 5, 0.0)),
        (2.0, -0.0, (4, 5, 0.0)),
        (2.0, -1.0, (4, 4, 0.0)),
        (3.0, -1.0, (4, 5, 1.8f64.sqrt())),
        (2.0, 5e-324, (4, 5, 0.0)),
        (2.0, 1e300, (4, 4, 0.0)),
        (2.0, nan, (2, 0, 0.0)),
        // 0 times infinity is a NaN, and 3 times it is far.
        (2.0, inf, (2, 0, 0.0)),
        (inf, inf, (2, 1, 0.0)),
        (inf, -inf, (2, 1, 0.0)),
        (inf, 1e300, (4, 5, inf)),
        (inf, nan, (2, 0, 0.0)),
    ] {
        let mut fresh = open(options(2.0, 10, 4, false));
        (fresh.options.thresh, fresh.options.ratio) = (thresh, ratio);
        let mut state = fresh;
        let answer = try_one(&mut state, &fit(I));
        assert_eq!(told(answer), expected, "{thresh:e} {ratio:e}");
        assert_eq!(answer.beyond, 0);
        // Beyond knows no ratio.
        assert_eq!(try_one(&mut state, &fit(BEHIND)).beyond, 5);
        // Scored by any count, the rms is no NaN, and the indices are as many.
        fresh.options.min_inliers = 0;
        try_one(&mut fresh, &fit(I));
        let indices = fresh.winner_indices(&SQUARE, 5).expect("a winner");
        assert_eq!(indices.len() as u64, expected.1);
        assert!(fresh.book.winner.is_some_and(|best| !best.rms.is_nan()));
    }
}

#[test]
fn indices_refuse_in_their_order() {
    let mut state = open(options(2.0, 10, 4, false));
    let nan = f64::NAN;
    assert_eq!(state.winner_indices(&[nan; 7], 0), Err(11));
    try_one(&mut state, &fit(I));
    assert_eq!(state.winner_indices(&[nan; 7], 0), Err(5));
    assert_eq!(state.winner_indices(&SQUARE[..16], 0), Err(5));
    assert_eq!(state.winner_indices(&[nan; 20], 0), Err(6));
    assert_eq!(state.winner_indices(&doubled(), 0), Err(18));
    assert_eq!(state.winner_indices(&SQUARE, 4), Err(9));
    state.n = 4;
    assert_eq!(state.winner_indices(&doubled()[..16], 0), Err(18));
    state.n = 3;
    assert_eq!(state.winner_indices(&doubled()[..12], 0), Err(7));
    assert_eq!(state.winner_indices(&SQUARE[..12], 0), Err(7));
}

/// 01's worked run, word for word.
#[test]
fn the_program_prints() {
    let text = printed(&example::sheet().bytes().inputs());
    assert_eq!(text, example::PRINTED);
}

#[test]
fn the_program_prints_otherwise() {
    let case = example::sheet();
    // A cut-off trial is refused where it is reached, and not behind the bound.
    let mut bytes = case.bytes();
    bytes.trials.truncate(152 + 151);
    let text = "trial outcome count rms\n1 won 4 0000000000000000\nrefused 1\n";
    assert_eq!(printed(&bytes.inputs()), text);
    let mut bytes = case.bytes();
    bytes.trials.truncate(3 * 152 + 1);
    assert_eq!(printed(&bytes.inputs()), printed(&case.bytes().inputs()));
    bytes.trials.clear();
    let text = "trial outcome count rms\nwinner none\ncounts 0 0 0 0\n";
    assert_eq!(printed(&bytes.inputs()), text);
    // Files that aren't there.
    bytes.stops.clear();
    assert_eq!(printed(&bytes.inputs()), "refused 8\n");
    bytes.marks.clear();
    assert_eq!(printed(&bytes.inputs()), "refused 7\n");
    bytes.options.clear();
    assert_eq!(printed(&bytes.inputs()), "refused 1\n");
    // No marks within: the indices line is its word alone.
    let mut case = example::sheet();
    case.options.min_inliers = 0;
    case.trials = vec![Trial {
        fit: Some(BEHIND),
        refit: None,
    }];
    let text = "\
trial outcome count rms
1 won 0 7ff0000000000000
winner 1 0 7ff0000000000000
indices
counts 1 0 0 1
";
    assert_eq!(printed(&case.bytes().inputs()), text);
}

#[test]
fn the_whole_run_writes_its_outputs() {
    let bytes = example::sheet().bytes();
    let (mut winner, mut indices) = ([7; 90], [7; 22]);
    assert_eq!(run(&bytes.inputs(), &mut winner, &mut indices), 0);
    assert_eq!(winner[..8], [4, 0, 0, 0, 1, 0, 0, 0]);
    assert_eq!(
        winner[8..24],
        [0, 0, 0, 0, 0, 0, 0, 0, 0, 0, 0, 0, 0, 0, 0xf0, 0x3f]
    );
    assert_eq!(winner[88..], [7, 7]);
    assert_eq!(indices[..8], [0, 0, 0, 0, 1, 0, 0, 0]);
    assert_eq!(indices[16..], [7; 6]);
}

/// The orders that 01 gives for the whole run.
#[test]
fn the_whole_run_refuses_in_its_order() {
    let good = example::sheet().bytes();
    let numbered = |trials: &[u8], winner: usize, indices: usize| {
        let mut bytes = good.clone();
        bytes.trials = trials.to_vec();
        let (mut first, mut second) = (vec![7; winner], vec![7; indices]);
        let number = run(&bytes.inputs(), &mut first, &mut second);
        if number != 0 {
            assert!(first.iter().chain(&second).all(|&byte| byte == 7));
        }
        number
    };
    assert_eq!(numbered(&good.trials[..151], 0, 0), 1);
    assert_eq!(numbered(&[], 87, 20), 9);
    assert_eq!(numbered(&[], 88, 19), 9);
    assert_eq!(numbered(&[], 88, 20), 11);
    // The winner has four indices, and room for five is asked for.
    assert_eq!(numbered(&good.trials, 88, 19), 9);
    assert_eq!(numbered(&good.trials, 88, 20), 0);
    // A malformed trial behind the bound isn't seen; before it, it is.
    let mut trials = good.trials.clone();
    trials[3 * 152] = 2;
    assert_eq!(numbered(&trials, 88, 20), 0);
    trials[2 * 152] = 2;
    assert_eq!(numbered(&trials, 88, 20), 1);
    assert_eq!(numbered(&trials, 88, 19), 9);
}
