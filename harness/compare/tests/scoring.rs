//! The proved measuring and scoring: lists of squared distances of any numbers,
//! measured by any row ratio and any camera, against the plain computation, bit
//! for bit.

use compare::families::Proved;
use compare::ratios::Ratios;
use compare::{all_came, cases, for_each_family, is_long, junk, same, same_lists};
use oracle::Numbers;
use oracle::cases::{NANS, Random, step};
use oracle::ratio_cases;
use oracle::scoring::{self, Limits};
use oracle::scoring_cases::{best, count, measured, squares, thresh};
use oracle::sheet_cases::room;
use proved::scoring as proved;

for_each_family!(measuring);

/// What came up, so that a run of many shows what was reached.
#[derive(Debug, Default)]
struct Tally {
    lists: usize,
    squares: usize,
    within: usize,
    /// Neither up to the low limit nor from the high one on.
    between: usize,
    between_within: usize,
    /// The root is the threshold.
    at_thresh: usize,
    no_low: usize,
    no_high: usize,
    wrong_count: usize,
    infinite: usize,
    below: usize,
    /// Not below, as the least that the rms can be tells, and as it does not.
    told: usize,
    not_told: usize,
    /// Not below by nothing, by one double, and below by one.
    equal: usize,
    one_above: usize,
    one_below: usize,
    no_room: usize,
    too_many: usize,
}

impl Tally {
    fn met(&self) {
        assert!(
            all_came(&[
                self.within,
                self.between,
                self.between_within,
                self.at_thresh,
                self.no_low,
                self.no_high,
                self.wrong_count,
                self.infinite,
                self.below,
                self.told,
                self.not_told,
                self.equal,
                self.one_above,
                self.one_below,
                self.no_room,
                self.too_many,
                self.lists,
                self.squares
            ]),
            "{self:?}"
        );
    }

    fn list(&mut self, limits: &Limits, list: &[f64]) {
        self.lists += 1;
        self.squares += list.len();
        self.no_low += usize::from(limits.low.is_nan());
        self.no_high += usize::from(limits.high.is_nan());
        for &q in list {
            let within = q.sqrt() <= limits.thresh;
            let between = limits.is_between(q);
            self.within += usize::from(within);
            self.between += usize::from(between);
            self.between_within += usize::from(within && between);
            self.at_thresh += usize::from(q.sqrt() == limits.thresh);
        }
    }

    fn less(&mut self, rms: f64, least: f64, best: f64) {
        self.infinite += usize::from(rms.is_infinite());
        self.below += usize::from(rms < best);
        self.told += usize::from(best <= least);
        self.not_told += usize::from(best <= rms && least < best);
        self.equal += usize::from(rms == best);
        self.one_above += usize::from(rms == step(best, 1));
        self.one_below += usize::from(rms == step(best, -1));
    }
}

/// The original's rms of the roots within.
fn original_rms(thresh: f64, list: &[f64]) -> f64 {
    let within = list.iter().map(|q| q.sqrt()).filter(|&d| d <= thresh);
    oracle::rms(&within.collect::<Vec<f64>>())
}

/// Counting, the rms by any count, and the rms if it is less.
fn compare_numbers(random: &mut Random, limits: &Limits, list: &[f64], tally: &mut Tally) {
    let thresh = limits.thresh;
    let right = scoring::places(thresh, list).len();
    assert_eq!(
        proved::count_inliers(thresh, list),
        right,
        "{thresh:e} {list:?}"
    );
    let ours = proved::rms(thresh, list, right as u32);
    assert!(
        same(ours, original_rms(thresh, list)),
        "{thresh:e} {list:?}"
    );
    for k in [right as u32, count(random, right)] {
        tally.wrong_count += usize::from(k != right as u32);
        let rms = scoring::rms(thresh, list, k);
        let ours = proved::rms(thresh, list, k);
        assert!(
            same(ours, rms) && !rms.is_nan(),
            "{thresh:e} {list:?} by {k}: {ours:e}, not {rms:e}"
        );
        let least = |list| limits.least_rms(list, k, f64::INFINITY);
        for _ in 0..3 {
            let some = random.below(list.len() as u64 + 1) as usize;
            let best = best(random, rms, least(list), least(&list[..some]));
            tally.less(rms, limits.least_rms(list, k, best), best);
            let less = if rms < best { rms } else { f64::NAN };
            let ours = proved::rms_if_less(thresh, list, k, best);
            assert!(
                same(ours, less),
                "{thresh:e} {list:?} by {k}, if less than {best:e}: {ours:e}, not {less:e}"
            );
        }
    }
}

fn junk_places(len: usize) -> Vec<u32> {
    (0..len).map(|place| u32::MAX - place as u32).collect()
}

/// The places, with the whole lent list.
fn compare_places(thresh: f64, list: &[f64], room: usize, tally: &mut Tally) {
    let mut theirs = junk_places(room);
    let mut told = 0;
    tally.no_room += usize::from(room < list.len());
    tally.too_many += usize::from(room >= list.len() && list.len() > 2000);
    if list.len() <= room && list.len() <= 2000 {
        let places = scoring::places(thresh, list);
        told = places.len();
        theirs[..told].copy_from_slice(&places);
    }
    let mut ours = junk_places(room);
    let number = proved::write_inliers(thresh, list, &mut ours);
    assert_eq!(number, told, "room {room}, {thresh:e} {list:?}");
    assert!(ours == theirs, "room {room}, {thresh:e} {list:?}");
}

fn compare(random: &mut Random, thresh: f64, list: &[f64], tally: &mut Tally) {
    let limits = Limits::of(thresh);
    tally.list(&limits, list);
    compare_numbers(random, &limits, list, tally);
    compare_places(thresh, list, room(random, list.len()), tally);
}

#[test]
fn random_lists() {
    let random = &mut Random::new(60);
    let mut tally = Tally::default();
    let lists = cases(100_000);
    for i in 0..lists {
        let kind = random.below(32) as usize;
        let thresh = thresh(random, kind);
        let list = squares(random, i, thresh);
        compare(random, thresh, &list, &mut tally);
    }
    println!("scoring: {tally:?}");
    if is_long(lists) {
        tally.met();
    }
}

/// For many thresholds every double up to 40 beside its square, each by itself
/// and all together.
#[test]
fn every_neighbour_of_the_square() {
    let random = &mut Random::new(61);
    let mut tally = Tally::default();
    for i in 0..cases(3_000) {
        let thresh = thresh(random, i);
        let list: Vec<f64> = (-40..=40).map(|k| step(thresh * thresh, k)).collect();
        for q in &list {
            compare(random, thresh, std::slice::from_ref(q), &mut tally);
        }
        compare(random, thresh, &list, &mut tally);
    }
    println!("scoring, neighbours: {tally:?}");
}

/// Every special threshold over every special square, alone and together.
#[test]
fn specials() {
    let random = &mut Random::new(62);
    let mut tally = Tally::default();
    let mut numbers = NANS.map(f64::from_bits).to_vec();
    for x in [
        0.0,
        5e-324,
        1.5e-162,
        step(f64::MIN_POSITIVE, -1),
        f64::MIN_POSITIVE,
        1.5e-154,
        1.0,
        2.0,
        4.0,
        1e154,
        1.4e154,
        step(f64::MAX, -1),
        f64::MAX,
        f64::INFINITY,
    ] {
        numbers.extend([x, -x]);
    }
    for &thresh in &numbers {
        for q in &numbers {
            compare(random, thresh, std::slice::from_ref(q), &mut tally);
            compare(random, thresh, &[*q, 1.0, *q], &mut tally);
        }
        compare(random, thresh, &numbers, &mut tally);
        for len in [1999, 2000, 2001] {
            compare(random, thresh, &vec![1.0; len], &mut tally);
            compare_places(thresh, &vec![1.0; len], len, &mut tally);
        }
    }
    println!("scoring, specials: {tally:?}");
}

// Measuring.

/// How often s, or Z, was of each kind, how often some marks of a list were beyond or
/// all, and how often there was no room.
#[derive(Debug, Default)]
struct Kinds {
    marks: usize,
    positive: usize,
    zero: usize,
    negative: usize,
    infinite: usize,
    nan: usize,
    nan_square: usize,
    some_beyond: usize,
    all_beyond: usize,
    no_room: usize,
    /// With marks beyond, of which none is told.
    no_room_beyond: usize,
    /// Squares that are others by ratio 1.
    decided: usize,
    ratios: Ratios,
}

impl Kinds {
    fn mark<F: Proved>(&mut self, family: &F, h: &F::Model, mark: &F::Mark, ratio: f64) {
        let s = F::divisor(h, mark);
        self.marks += 1;
        self.positive += usize::from(s > 0.0);
        self.zero += usize::from(s == 0.0);
        self.negative += usize::from(s < 0.0);
        self.infinite += usize::from(s.is_infinite());
        self.nan += usize::from(s.is_nan());
        let square = family.squared(h, mark, ratio);
        self.nan_square += usize::from(square.is_nan());
        self.decided += usize::from(!same(square, family.squared(h, mark, 1.0)));
        // Whatever the ratio is, no square is below 0, and none is -0.
        assert!(square.is_nan() || square.is_sign_positive());
    }

    /// A list of so many marks, and how many of them are beyond.
    fn list(&mut self, marks: usize, beyond: usize, room: usize) {
        self.some_beyond += usize::from(0 < beyond && beyond < marks);
        self.all_beyond += usize::from(0 < beyond && beyond == marks);
        self.no_room += usize::from(room < marks);
        self.no_room_beyond += usize::from(room < marks && beyond > 0);
    }

    fn met(&self) {
        assert!(
            all_came(&[
                self.positive,
                self.zero,
                self.negative,
                self.infinite,
                self.nan,
                self.nan_square,
                self.some_beyond,
                self.all_beyond,
                self.no_room,
                self.no_room_beyond,
                self.decided,
                self.marks
            ]),
            "{self:?}"
        );
        self.ratios.all_met();
    }
}

/// Measures, with the whole lent list and how many are beyond, counted or not;
/// each square's root is the distance.
fn measure<F: Proved>(
    family: &F,
    h: &F::Model,
    ratio: f64,
    marks: &[f64],
    room: usize,
    kinds: &mut Kinds,
) {
    let list = F::Mark::chunks(marks).0;
    let (mut theirs, mut told) = (junk(room), 0);
    let all_beyond = list.iter().filter(|mark| F::beyond(h, mark)).count();
    kinds.list(list.len(), all_beyond, room);
    kinds.ratios.add(ratio);
    for mark in list {
        kinds.mark(family, h, mark, ratio);
        let root = family.squared(h, mark, ratio).sqrt();
        assert!(same(root, family.distance(h, mark, ratio)));
    }
    if list.len() <= room {
        told = all_beyond;
        for (place, mark) in theirs.iter_mut().zip(list) {
            *place = family.squared(h, mark, ratio);
        }
    }
    for (counting, told) in [(true, told), (false, 0)] {
        let mut ours = junk(room);
        let number = family.squared_residuals(h, ratio, marks, &mut ours, counting);
        let about = || format!("{counting}, room {room}, {ratio:e} {family:?} {h:?} {marks:?}");
        assert_eq!(number, told, "{}", about());
        assert!(same_lists(&ours, &theirs), "{}", about());
    }
}

fn measuring<F: Proved>() {
    let random = &mut Random::new(63);
    let mut kinds = Kinds::default();
    let count = cases(200_000);
    for i in 0..count {
        let (family, h, marks) = measured::<F>(random, i);
        let ratio = match random.below(2) {
            0 => ratio_cases::accepted(random),
            _ => ratio_cases::any(random),
        };
        let room = room(random, marks.len() / F::WIDTH);
        measure(&family, &h, ratio, &marks, room, &mut kinds);
    }
    println!("measuring: {kinds:?}");
    if is_long(count) {
        kinds.met();
    }
}
