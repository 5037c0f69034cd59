//! The proved indices of a winner, from runs and from states made by hand.

use compare::families::Proved;
use compare::ratios::Ratios;
use compare::{Tally, for_each_family};
use oracle::Numbers;
use oracle::book::{Call, MODEL_AT, State, Words, trial_record};
use oracle::cases::{NANS, Random};
use oracle::family_cases::identity;
use oracle::pick_cases::{Case, any_stops, damage_marks, hand_made, reference, runs};
use oracle::records::put;
use oracle::sheet_cases::room;

/// A number of runs from which on every answer must come up.
const LONG: usize = 2_000;

const REFUSED: u64 = 1 << 32;

for_each_family!(
    indices_are_ransac_fits,
    damaged_calls,
    hand_made_states,
    hand_made_thresholds,
    hand_made_ratios,
    order,
);

fn junk(len: usize) -> Vec<u32> {
    (0..len).map(|place| u32::MAX - place as u32).collect()
}

/// Compares one call, with the whole lent list; tells the refusal or 0.
fn compare<F: Proved>(words: &[u64], marks: &[f64], room: usize) -> u32 {
    let expected = State::<F>::of_words(words).winner_indices(marks, room);
    let mut theirs = junk(room);
    let answer = match &expected {
        Ok(list) => {
            theirs[..list.len()].copy_from_slice(list);
            list.len() as u64
        }
        Err(number) => REFUSED + u64::from(*number),
    };
    let mut ours = junk(room);
    let told = F::winner_indices(words, marks, &mut ours);
    assert_eq!(told, answer, "room {room}, {words:?} {marks:?}");
    assert_eq!(ours, theirs, "room {room}, {words:?} {marks:?}");
    expected.err().unwrap_or(0)
}

/// The words after the case's trials.
fn run<F: Proved>(case: &Case<F>) -> Words {
    let mut state = case.open();
    for trial in &case.trials {
        state.trial(&Call {
            record: &trial_record(trial),
            marks: &case.marks,
            stops: &case.stops,
        });
    }
    state.words()
}

fn indices_are_ransac_fits<F: Proved>() {
    let random = &mut Random::new(50);
    let mut tally = Tally::default();
    let mut ratios = Ratios::default();
    let count = runs(8_000, 100);
    for i in 0..count {
        let case = reference::<F>(random, i);
        let words = run(&case);
        let theirs = case.ransac_fit();
        ratios.add(case.options.ratio);
        let number = compare::<F>(&words, &case.marks, case.n());
        tally.add(number);
        let Some(winner) = theirs.winner else {
            assert_eq!(number, 11);
            continue;
        };
        let mut ours = junk(case.n() + 1);
        let told = F::winner_indices(&words, &case.marks, &mut ours);
        assert_eq!(told, winner.inliers.len() as u64);
        let list = ours.iter().map(|&i| i as usize);
        assert!(
            list.take(winner.inliers.len())
                .eq(winner.inliers.iter().copied())
        );
    }
    tally.show("indices, as ransac_fit");
    if count >= LONG {
        tally.met(&[0, 11]);
        ratios.accepted_met();
    }
}

/// Any room, marks that are damaged, and other marks of the same number.
fn damaged_calls<F: Proved>() {
    let random = &mut Random::new(51);
    let mut tally = Tally::default();
    let count = runs(20_000, 50);
    for i in 0..count {
        let mut case = any_stops::<F>(random, i);
        let words = run(&case);
        let n = case.n();
        match random.below(6) {
            0 | 1 => damage_marks::<F>(random, &mut case.marks),
            2 => case.marks.reverse(),
            _ => {}
        }
        tally.add(compare::<F>(&words, &case.marks, room(random, n)));
    }
    tally.show("indices, damaged");
    if count >= LONG {
        tally.met(&[0, 5, 6, 18, 9, 11]);
    }
}

/// Models for a winner made by hand: of the case, and of any numbers.
fn pool<F: Proved>(random: &mut Random, case: &Case<F>) -> Vec<F::Model> {
    let mut list: Vec<F::Model> = case.trials.iter().filter_map(|trial| trial.fit).collect();
    list.push(F::Model::from_fn(|_| random.pattern()));
    list
}

fn hand_made_states<F: Proved>() {
    let random = &mut Random::new(52);
    let mut tally = Tally::default();
    let mut ratios = Ratios::default();
    let count = runs(20_000, 50);
    for i in 0..count {
        let mut case = any_stops::<F>(random, i);
        let mut words = run(&case);
        let pool = pool(random, &case);
        hand_made::<F>(random, &mut words, &pool);
        if random.below(4) == 0 {
            let n = words[5].min(F::MOST as u64) as usize;
            case.marks.truncate(F::WIDTH * n);
        }
        let number = compare::<F>(&words, &case.marks, room(random, case.n()));
        tally.add(number);
        if number == 0 {
            ratios.add(f64::from_bits(words[F::RATIO_AT]));
        }
    }
    tally.show("indices, hand-made states");
    println!("indices, hand-made states: {ratios:?}");
    if count >= LONG {
        tally.met(&[0, 5, 7, 9, 11]);
        ratios.all_met();
    }
}

/// A threshold of +inf takes every mark in, also where all are behind the
/// horizon, a NaN none.
fn hand_made_thresholds<F: Proved>() {
    let case = F::example();
    let mut words = run(&case);
    let n = case.n();
    let behind = identity::<F>().each(|a| -a);
    put(&mut words, MODEL_AT, behind.as_ref());
    let mut list = junk(n);
    words[0] = f64::INFINITY.to_bits();
    let told = F::winner_indices(&words, &case.marks, &mut list);
    assert_eq!(told, n as u64);
    assert!(list.iter().copied().eq(0..n as u32));
    for nan in NANS {
        words[0] = nan;
        assert_eq!(F::winner_indices(&words, &case.marks, &mut list), 0);
    }
    assert_eq!(compare::<F>(&words, &case.marks, n), 0);
}

/// The winner's ratio is the state's, whatever it is: under the identity all
/// marks but four are three off along v, and the four are off by nothing.
fn hand_made_ratios<F: Proved>() {
    let case = F::example();
    let mut words = run(&case);
    let n = case.n();
    let all: Vec<u32> = (0..n as u32).collect();
    let (four, others) = all.split_at(4);
    let inf = f64::INFINITY;
    for (thresh, ratio, places) in [
        (2.0, 1.0, four),
        (2.0, 0.5, &all),
        (2.0, 0.0, &all),
        (2.0, -0.0, &all),
        (2.0, -0.5, &all),
        (2.0, -1.0, four),
        (inf, inf, others),
        (inf, -inf, others),
        (2.0, inf, &[]),
        (inf, f64::NAN, &[]),
    ] {
        (words[0], words[F::RATIO_AT]) = (thresh.to_bits(), ratio.to_bits());
        let mut list = junk(n);
        let told = F::winner_indices(&words, &case.marks, &mut list);
        assert_eq!(told, places.len() as u64, "{thresh:e} {ratio:e}");
        assert_eq!(list[..places.len()], *places);
        assert_eq!(compare::<F>(&words, &case.marks, n), 0);
    }
}

/// 11, 5, 6, 7, 18, 9; and a state that has not all its words.
fn order<F: Proved>() {
    let case = F::example();
    let mut words = run(&case);
    let (marks, n) = (&case.marks, case.n());
    let nan = vec![f64::NAN; marks.len()];
    let fewer = marks.len() - F::WIDTH;
    assert_eq!(compare::<F>(&words, &nan[1..], 0), 5);
    assert_eq!(compare::<F>(&words, &nan[..fewer], 0), 5);
    assert_eq!(compare::<F>(&words, &nan, 0), 6);
    let mut doubled = marks.clone();
    doubled.copy_within(..F::WIDTH - 2, F::WIDTH);
    assert_eq!(compare::<F>(&words, &doubled, 0), 18);
    assert_eq!(compare::<F>(&words, marks, n - 1), 9);
    assert_eq!(compare::<F>(&words, marks, n), 0);
    assert_eq!(compare::<F>(&words, marks, n + 4), 0);
    words[5] = F::FEWEST as u64 - 1;
    let few = F::WIDTH * (F::FEWEST - 1);
    assert_eq!(compare::<F>(&words, &marks[..few], 0), 7);
    assert_eq!(compare::<F>(&words, &doubled[..few], 0), 7);
    words[5] = F::FEWEST as u64;
    assert_eq!(compare::<F>(&words, &doubled[..few + F::WIDTH], 0), 18);
    words[5] = u64::MAX;
    assert_eq!(compare::<F>(&words, marks, n), 5);
    words[11] = 0;
    assert_eq!(compare::<F>(&words, &nan[1..], 0), 11);
    for len in [0, 1, 24, F::WORDS - 1] {
        let mut list = junk(n);
        let told = F::winner_indices(&words[..len], marks, &mut list);
        assert_eq!((told, list), (1 << 33, junk(n)));
    }
}
