//! Runs to compare on, of any family: over the reference's whole domain, with
//! stop lists of any numbers, and damaged.

use crate::book::{
    FIT_AT, Fed, MODEL_AT, OPTIONS_BYTES, Options, SHORT_OPTIONS_BYTES, State, TRIAL_BYTES,
    WINNER_BYTES, Words, trial_record,
};
use crate::cases::{NANS, Random, asked, power_of_two, step, usually};
use crate::family::Numbers;
use crate::family_cases::{self, Cases, clash, identity, seen, settle};
use crate::ratio_cases;
use crate::records;
use crate::sheet::Sheet;
use crate::sheet_cases;
use crate::whole::Inputs;
use crate::{RansacOptions, Run, Trial, ransac_fit, stop_list};

/// How many runs: one costs as much as so many cases of a leaf, so
/// SALGHEMU_CASES is divided by that; or the test's own number, times
/// SALGHEMU_TIMES.
pub fn runs(usual: usize, cost: usize) -> usize {
    asked().map_or_else(|| usually(usual), |cases| cases / cost)
}

/// A run's inputs, none of them refused by itself.
#[derive(Clone, Debug)]
pub struct Case<F: Cases = Sheet> {
    pub family: F,
    pub options: Options,
    pub marks: Vec<f64>,
    pub stops: Vec<u32>,
    pub trials: Vec<Trial<F::Model>>,
}

impl<F: Cases> Case<F> {
    pub fn n(&self) -> usize {
        self.mark_list().len()
    }

    /// The marks as the original wants them.
    pub fn mark_list(&self) -> &[F::Mark] {
        F::Mark::chunks(&self.marks).0
    }

    /// The options as the original wants them; it has no ratio.
    pub fn ransac_options(&self) -> RansacOptions {
        RansacOptions::new(self.options.thresh)
            .with_confidence(self.options.confidence)
            .with_max_iters(self.options.max_iters as usize)
            .with_min_inliers(self.options.min_inliers as usize)
            .with_refit_on_inliers(self.options.refit)
    }

    /// What the original gives for it.
    pub fn ransac_fit(&self) -> Run<F::Model> {
        let (marks, options) = (self.mark_list(), self.ransac_options());
        ransac_fit(
            self.family,
            marks,
            &options,
            self.options.ratio,
            &self.trials,
        )
    }

    /// What the book is fed of its opening.
    pub fn fed(&self) -> Fed<F> {
        Fed {
            family: self.family,
            options: self.options,
            n: self.n() as u64,
        }
    }

    /// Its opening, by the book.
    pub fn open(&self) -> State<F> {
        let opening = State::open(self.family, self.options, &self.marks, &self.stops);
        opening.unwrap_or_else(|number| panic!("refused {number}: {self:?}"))
    }
}

impl Case {
    pub fn bytes(&self) -> Bytes {
        let trials: Vec<Vec<u8>> = self.trials.iter().map(trial_record).collect();
        Bytes {
            options: self.options.record().to_vec(),
            marks: self.marks.iter().flat_map(|x| x.to_le_bytes()).collect(),
            stops: self.stops.iter().flat_map(|k| k.to_le_bytes()).collect(),
            trials: trials.concat(),
        }
    }

    /// The same with options that have no ratio, where that is 1.
    pub fn short_bytes(&self) -> Option<Bytes> {
        let options = self.options.short_record()?.to_vec();
        Some(Bytes {
            options,
            ..self.bytes()
        })
    }
}

/// The same as bytes, which may be anything.
#[derive(Clone, Debug, Default)]
pub struct Bytes {
    pub options: Vec<u8>,
    pub marks: Vec<u8>,
    pub stops: Vec<u8>,
    pub trials: Vec<u8>,
}

impl Bytes {
    pub fn inputs(&self) -> Inputs<'_> {
        Inputs {
            options: &self.options,
            marks: &self.marks,
            stops: &self.stops,
            trials: &self.trials,
        }
    }
}

// Marks, each list with candidates for it.

/// A list of marks, and models.
type Marked<F> = (Vec<f64>, Vec<<F as crate::Family>::Model>);

/// Differences whose lengths are 0, 1, 3, 5, 13 and 17, exactly.
const EXACT: [[f64; 2]; 8] = [
    [0.0, 0.0],
    [0.0, 0.0],
    [0.0, -1.0],
    [0.0, 3.0],
    [3.0, 4.0],
    [-4.0, 3.0],
    [5.0, -12.0],
    [15.0, 8.0],
];

/// The identity; where points have a third coordinate, that is taken along x
/// and y by whole numbers.
fn plain<F: Cases>(random: &mut Random) -> F::Model {
    let mut h = identity::<F>();
    for row in 0..2 {
        for place in 2..F::ROW - 1 {
            h.as_mut()[row * F::ROW + place] = random.pick(&[0.0, -0.0, 1.0, -2.0]);
        }
    }
    h
}

/// A model moved.
fn moved<F: Cases>(mut h: F::Model, [across, down]: [f64; 2]) -> F::Model {
    h.as_mut()[F::ROW - 1] += across;
    h.as_mut()[2 * F::ROW - 1] += down;
    h
}

/// The same map written with other numbers, or with all signs changed: marks
/// that were ahead of the horizon then are beyond.
fn rescaled<M: Numbers>(random: &mut Random, h: M) -> M {
    let by = match random.below(6) {
        0 => -1.0,
        1 => power_of_two(random.from_to(-500, 500) as i32),
        2 => 3.0,
        _ => 1.0,
    };
    h.each(|a| a * by)
}

/// Whole numbers, so that distances are exact and thresholds are met.
fn whole<F: Cases>(random: &mut Random, family: &F, n: usize) -> Marked<F> {
    let truth = plain::<F>(random);
    let mut marks = Vec::new();
    for _ in 0..n {
        let point = F::Mark::from_fn(|_| random.from_to(-50, 50) as f64);
        let mark = seen(family, &truth, point, random.pick(&EXACT));
        marks.extend_from_slice(mark.as_ref());
    }
    settle::<F>(&mut marks);
    let pool = (0..random.from_to(1, 6)).map(|_| {
        let h = moved::<F>(truth, random.pick(&EXACT));
        rescaled(random, h)
    });
    (marks, pool.collect())
}

/// Pixels that a model gives, with some noise and with some marks wide of it;
/// the candidates are near it, or poor.
fn flattened<F: Cases>(random: &mut Random, family: &F, n: usize) -> Marked<F> {
    let (h, reach) = family.truth(random);
    let noise = random.pick(&[0.0, 0.0, 1e-9, 0.1, 1.0]);
    let wide = random.pick(&[0, 1, 4, 7]);
    let mut marks = Vec::new();
    for _ in 0..n {
        let point = F::Mark::from_fn(|_| reach * random.unit());
        let away = if random.below(8) < wide { 500.0 } else { noise };
        let off = [0; 2].map(|_| away * (random.unit() - 0.5));
        marks.extend_from_slice(seen(family, &h, point, off).as_ref());
    }
    let pool = (0..random.from_to(1, 6)).map(|_| {
        let off = random.pick(&[0.0, 1e-15, 1e-6, 1e-3, 1.0]);
        let near = h.each(|a| a + off * a * (random.unit() - 0.5));
        rescaled(random, near)
    });
    (marks, pool.collect())
}

/// The identity with one row under which marks that aren't small overflow: to
/// either infinity, or to a NaN. Of the last row it is s, of the others what is
/// divided by it.
fn steep<F: Cases>(random: &mut Random) -> F::Model {
    let mut h = identity::<F>();
    let row = F::ROW * random.pick(&[0, 1, 2, 2]);
    for k in row..row + 2 {
        h.as_mut()[k] = random.sign() * 1e308;
    }
    h
}

/// Marks of every size under models of every size: s of every kind, sums that
/// overflow, distances that are infinite or a NaN.
fn any_size<F: Cases>(random: &mut Random, family: &F, i: usize, n: usize) -> Marked<F> {
    let marks = F::few_marks(random, i, n);
    let mut pool = Vec::new();
    for _ in 0..random.from_to(1, 6) {
        let kind = random.below(40) as usize;
        let (h, _) = family_cases::distance(random, family, kind);
        if h.as_ref().iter().all(|a| a.is_finite()) {
            pool.push(h);
        }
    }
    pool.push(steep::<F>(random));
    pool.push(identity::<F>());
    (marks, pool)
}

/// Candidates that send every mark some 1e154 away, where the squares of a few
/// distances sum to infinity.
fn far<F: Cases>(random: &mut Random, family: &F, n: usize) -> Marked<F> {
    let (marks, mut pool) = whole(random, family, n);
    pool.truncate(1);
    for _ in 0..random.from_to(1, 3) {
        let away = random.sign() * 1.35e154 * random.unit();
        pool.push(moved::<F>(identity::<F>(), [away, 0.0]));
    }
    (marks, pool)
}

/// A horizon through the points, where one coordinate is 0: s is that
/// coordinate, a power of two, its negative or a zero, so that distances are
/// exact. Marks on either side have their pixels where the map has them, or a
/// whole number beside; the candidates are the map, moved or not, and those
/// with the signs changed.
fn folded<F: Cases>(random: &mut Random, family: &F, n: usize) -> Marked<F> {
    let across = random.below(F::ROW as u64 - 1) as usize;
    let mut map = identity::<F>();
    let last_row = 2 * F::ROW;
    map.as_mut()[last_row + across] = 1.0;
    map.as_mut()[F::SIZE - 1] = random.pick(&[0.0, 0.0, -0.0]);
    let mut marks = Vec::new();
    for _ in 0..n {
        let mut point = F::Mark::from_fn(|_| random.from_to(-20, 20) as f64);
        let s = random.pick(&[0.0, -0.0, 1.0, 2.0, 4.0, -1.0, -2.0, 0.5, 8.0]);
        point.as_mut()[across] = s;
        let mark = seen(family, &map, point, random.pick(&EXACT));
        marks.extend_from_slice(mark.as_ref());
    }
    settle::<F>(&mut marks);
    let pool = (0..random.from_to(2, 6)).map(|_| {
        let mut h = map;
        let off = random.pick(&EXACT);
        for (row, by) in off.into_iter().enumerate() {
            h.as_mut()[row * F::ROW + across] += by;
        }
        let sign = random.pick(&[1.0, 1.0, -1.0]);
        rescaled(random, h.each(|a| a * sign))
    });
    (marks, pool.collect())
}

fn marked<F: Cases>(random: &mut Random, family: &F, i: usize, n: usize) -> Marked<F> {
    match i % 9 {
        0..=2 => whole(random, family, n),
        3..=5 => flattened(random, family, n),
        6 => any_size(random, family, i / 9, n),
        7 => far(random, family, n),
        _ => folded(random, family, n),
    }
}

// Options.

/// A threshold: one that distances equal, one at or next to a distance that
/// occurs by the ratio, one of any size.
fn thresh<F: Cases>(random: &mut Random, family: &F, (marks, pool): &Marked<F>, ratio: f64) -> f64 {
    match random.below(10) {
        0..=3 => random.pick(&[1.0, 2.0, 3.0, 5.0, 13.0, 17.0]),
        4 | 5 => {
            let mark = random.pick(F::Mark::chunks(marks).0);
            let d = family.distance(&random.pick(pool), &mark, ratio);
            let d = step(d, random.pick(&[0, 0, -1, 1]));
            if d > 0.0 && d.is_finite() { d } else { 1.0 }
        }
        6 => random.sized(0, 2046).max(5e-324),
        7 => random.pick(&[f64::MAX, step(f64::MAX, -1), 5e-324, f64::MIN_POSITIVE]),
        8 => random.pick(&[1e153, 1.4e154, 1e200, 1e300, f64::MAX]),
        _ => 0.01 + 10.0 * random.unit(),
    }
}

fn confidence(random: &mut Random) -> f64 {
    match random.below(4) {
        0 => 0.99,
        1 => random.pick(&[0.5, 0.9, 0.999_999, step(1.0, -1)]),
        2 => random.pick(&[5e-324, 1e-300, 1e-9, 0.1]),
        _ => random.unit().max(5e-324),
    }
}

fn min_inliers(random: &mut Random, n: usize) -> u32 {
    let n = n as u64;
    let some = random.below(n + 1);
    let low = random.below(5);
    match random.below(64) {
        0 => u32::MAX,
        1 => n as u32 + 1,
        _ => random.pick(&[0, 0, 1, 1, 4, low, low, some, n]) as u32,
    }
}

fn options<F: Cases>(random: &mut Random, family: &F, marked: &Marked<F>) -> Options {
    let n = marked.0.len() / F::WIDTH;
    let most = if n > 100 { 8 } else { 40 };
    let ratio = ratio_cases::accepted(random);
    Options {
        thresh: thresh(random, family, marked, ratio),
        confidence: confidence(random),
        max_iters: random.from_to(1, most) as u32,
        min_inliers: min_inliers(random, n),
        refit: random.below(2) == 0,
        ratio,
    }
}

// Trials.

/// No fit, a fit, or a fit and a refit, each one of the candidates: the same
/// one comes up often.
fn trial<M: Numbers>(random: &mut Random, pool: &[M]) -> Trial<M> {
    match random.below(6) {
        0 => Trial::default(),
        1..=3 => Trial {
            fit: Some(random.pick(pool)),
            refit: None,
        },
        _ => Trial {
            fit: Some(random.pick(pool)),
            refit: Some(random.pick(pool)),
        },
    }
}

/// How many marks the i-th run has: some up to 12, and now and then up to the
/// most.
fn marks_count<F: Cases>(random: &mut Random, i: usize) -> usize {
    match i % 128 {
        0 => F::MOST,
        64 => random.from_to(13, F::MOST as i64) as usize,
        _ => random.from_to(F::FEWEST as i64, 12) as usize,
    }
}

/// The i-th run in the reference's domain: the stop list is the Rust's own,
/// and there is a trial for each iteration that it may make.
pub fn reference<F: Cases>(random: &mut Random, i: usize) -> Case<F> {
    let n = marks_count::<F>(random, i);
    let kind = random.below(54) as usize;
    let family = F::accepted(random);
    let marked = marked(random, &family, kind, n);
    let options = options(random, &family, &marked);
    let (marks, pool) = marked;
    let trials = (0..options.max_iters).map(|_| trial(random, &pool));
    let trials = trials.collect();
    Case {
        family,
        options,
        stops: stop_list::<F>(options.confidence, n),
        marks,
        trials,
    }
}

/// The i-th run with any stop list, and with trials that may run out.
pub fn any_stops<F: Cases>(random: &mut Random, i: usize) -> Case<F> {
    let mut case = reference::<F>(random, i);
    for stop in &mut case.stops {
        *stop = match random.below(4) {
            0 => random.pick(&[0, 1, u32::MAX, 100_000]),
            1 => random.word() as u32,
            _ => random.below(12) as u32,
        };
    }
    let left = random.below(case.trials.len() as u64 + 1) as usize;
    if random.below(3) == 0 {
        case.trials.truncate(left);
    }
    if random.below(4) == 0 {
        case.options.max_iters = random.pick(&[1, 2, 99_999, 100_000]);
    }
    case
}

// Damage.

/// Cuts a list or makes it longer.
fn relength<T: Clone>(random: &mut Random, list: &mut Vec<T>, value: T, most: u64) {
    let by = 1 + random.below(most) as usize;
    match random.below(3) {
        0 => list.truncate(list.len().saturating_sub(by)),
        1 => list.clear(),
        _ => list.resize(list.len() + by, value),
    }
}

fn put(bytes: &mut [u8], at: usize, value: &[u8]) {
    bytes[at..at + value.len()].copy_from_slice(value);
}

/// Lengths that options don't have: about both of theirs, and far from them.
pub const NOT_OPTIONS: [usize; 8] = [0, 1, 24, 31, 33, 39, 41, 64];

/// Whether a record of options has one of its two lengths.
fn has_options_length(record: &[u8]) -> bool {
    [SHORT_OPTIONS_BYTES, OPTIONS_BYTES].contains(&record.len())
}

/// Options that are refused, with or without a ratio.
pub fn damage_options(random: &mut Random, record: &mut Vec<u8>) {
    let nan = f64::from_bits(random.pick(&NANS));
    let bad = random.pick(&[nan, 0.0, -0.0, -1.0, f64::INFINITY, f64::NEG_INFINITY]);
    let byte = 1 + random.below(255) as u8;
    match random.below(7) {
        0 => record.resize(random.pick(&NOT_OPTIONS), 0),
        1 => record[24] = byte.max(2),
        2 => record[25 + random.below(7) as usize] = byte,
        3 => put(record, 0, &bad.to_le_bytes()),
        4 => {
            let bad = random.pick(&[bad, 1.0, step(1.0, 1), 2.0]);
            put(record, 8, &bad.to_le_bytes());
        }
        5 => {
            let bad: u32 = random.pick(&[0, 100_001, u32::MAX]);
            put(record, 16, &bad.to_le_bytes());
        }
        _ => {
            record.resize(OPTIONS_BYTES, 0);
            put(record, 32, &ratio_cases::refused(random).to_le_bytes());
        }
    }
}

/// A number that no mark may have.
fn bad_number(random: &mut Random) -> f64 {
    let nan = f64::from_bits(random.pick(&NANS));
    let over = random.pick(&[step(1e9, 1), 2e9, f64::MAX, f64::INFINITY]);
    random.pick(&[nan, over, -over])
}

/// Marks that are refused: their length, a number, two that clash, or too few of
/// them, of which two may clash.
pub fn damage_marks<F: Cases>(random: &mut Random, marks: &mut Vec<f64>) {
    match random.below(7) {
        0 => relength(random, marks, 1.5, 7),
        1 => {
            marks.truncate(F::WIDTH * random.below(F::FEWEST as u64) as usize);
            if random.below(2) == 0 {
                clash::<F>(random, marks);
            }
        }
        2 => clash::<F>(random, marks),
        3 => marks.resize(8000 + random.pick(&[1, F::WIDTH, 40]), 2.5),
        _ if marks.is_empty() => marks.push(0.0),
        _ => {
            let place = random.below(marks.len() as u64) as usize;
            marks[place] = bad_number(random);
        }
    }
}

/// The same for bytes, where a length may also cut a number.
fn damage_mark_bytes(random: &mut Random, bytes: &mut Vec<u8>) {
    let doubles = bytes.as_chunks().0.iter();
    let mut marks: Vec<f64> = doubles.map(|&eight| f64::from_le_bytes(eight)).collect();
    if random.below(4) == 0 {
        return relength(random, bytes, 0, 40);
    }
    damage_marks::<Sheet>(random, &mut marks);
    *bytes = marks.iter().flat_map(|x| x.to_le_bytes()).collect();
}

/// A trial record that is refused.
pub fn damage_trial<F: Cases>(random: &mut Random, record: &mut [u8]) {
    let byte = 1 + random.below(255) as u8;
    let nan = f64::from_bits(random.pick(&NANS));
    let bad = random.pick(&[nan, f64::INFINITY, f64::NEG_INFINITY]);
    let place = 8 * random.below(F::SIZE as u64) as usize;
    match random.below(8) {
        0 => record[0] = byte.max(2),
        1 => record[1] = byte.max(2),
        2 => record[2 + random.below(6) as usize] = byte,
        // A number that isn't finite, marked or not.
        3 => put(record, FIT_AT + place, &bad.to_le_bytes()),
        4 => put(record, F::REFIT_AT + place, &bad.to_le_bytes()),
        // A refit without a fit.
        5 => {
            record[..FIT_AT].copy_from_slice(&[0, 1, 0, 0, 0, 0, 0, 0]);
            record[FIT_AT..F::REFIT_AT].fill(0);
        }
        // Numbers that aren't marked: minus zero, and one byte anywhere.
        6 => {
            record[1] = 0;
            put(record, F::REFIT_AT + place, &(-0.0f64).to_le_bytes());
        }
        _ => {
            record[..2].fill(0);
            let place = random.below(16 * F::SIZE as u64) as usize;
            record[FIT_AT + place] = byte;
        }
    }
}

/// A record of another length than a trial's, the sheet's or a form's too.
pub fn other_length<F: Cases>(random: &mut Random, record: &mut Vec<u8>) {
    let len = F::TRIAL_BYTES;
    let lengths = [0, 1, 8, F::REFIT_AT, len - 1, len + 1, 2 * len, 152, 200];
    while record.len() == len {
        record.resize(random.pick(&lengths), 0);
    }
}

/// Damages a trial anywhere, the length of the list, or all from some trial on.
fn damage_trials(random: &mut Random, trials: &mut Vec<u8>) {
    let count = trials.len() / TRIAL_BYTES;
    let from = TRIAL_BYTES * random.below(count as u64 + 1) as usize;
    match random.below(4) {
        0 => relength(random, trials, 0, 151),
        1 if from > 0 => {
            let record = &mut trials[from - TRIAL_BYTES..from];
            damage_trial::<Sheet>(random, record);
        }
        2 => trials[from..].fill(0xff),
        _ => {
            trials.truncate(from);
            let more = random.below(TRIAL_BYTES as u64) as usize;
            trials.resize(from + more, 0xff);
        }
    }
}

/// Damages one of the four inputs.
fn damage(random: &mut Random, bytes: &mut Bytes) {
    match random.below(8) {
        0 | 1 => damage_options(random, &mut bytes.options),
        2 | 3 => damage_mark_bytes(random, &mut bytes.marks),
        4 => relength(random, &mut bytes.stops, 0, 9),
        _ => damage_trials(random, &mut bytes.trials),
    }
}

/// The i-th run as bytes, its options with a ratio or without, some of them
/// damaged in one place, some in two or three, so that the order of the
/// refusals shows.
pub fn damaged(random: &mut Random, i: usize) -> Bytes {
    let case: Case = any_stops(random, i);
    let short = case.short_bytes().filter(|_| random.below(2) == 0);
    let mut bytes = short.unwrap_or_else(|| case.bytes());
    for _ in 0..random.pick(&[0, 1, 1, 1, 2, 3]) {
        // A record that is no longer one can't be damaged again.
        if has_options_length(&bytes.options) {
            damage(random, &mut bytes);
        }
    }
    bytes
}

/// Lengths for the winner and the indices: what is needed, or not.
pub fn rooms(random: &mut Random, marks: &[u8]) -> [usize; 2] {
    let exact = [WINNER_BYTES, marks.len() / 8];
    let any = [
        sheet_cases::room(random, exact[0]),
        sheet_cases::room(random, exact[1]),
    ];
    match random.below(8) {
        0..=3 => exact,
        4 => [exact[0], any[1]],
        5 => [any[0], exact[1]],
        6 => any,
        _ => exact.map(|need| need + 1 + random.below(40) as usize),
    }
}

// Hand-made states.

/// Words of a state that no run gives: for a list of n marks, and built on
/// this run's state. Now and then it is one only for its threshold, under which
/// every mark lies or none, now and then only for its ratio, and now and then
/// only for what the marks are measured by.
pub fn hand_made<F: Cases>(random: &mut Random, words: &mut Words, pool: &[F::Model]) {
    match random.below(8) {
        0 => {
            let nan = random.pick(&NANS);
            return words[0] = random.pick(&[f64::INFINITY.to_bits(), nan]);
        }
        1 => return words[F::RATIO_AT] = ratio_cases::any(random).to_bits(),
        2 if F::NUMBERS > 0 => return put_any::<F>(random, words),
        _ => {}
    }
    for _ in 0..random.from_to(1, 4) {
        let place = match random.below(16) {
            15 => F::RATIO_AT,
            place => place as usize,
        };
        words[place] = match place {
            0 | 1 => hand_made_double(random),
            2 => random.pick(&[0, 1, 5, 100_000, 100_001, (1 << 32) - 1, (1 << 32) + 7]),
            3 => random.pick(&[0, 1, 4, (1 << 32) - 1, 1 << 32]),
            4 | 11 => random.below(2),
            5 if random.below(4) != 0 => words[5],
            5 => {
                let more = random.pick(&[1, 1 << 32, 1 << 62]);
                random.pick(&[0, 3, words[5].wrapping_add(more), u64::MAX])
            }
            6..=10 => hand_made_count(random),
            12 | 13 => random.pick(&[0, 1, 3, 4, 5, 2000, (1 << 32) - 1, (5 << 32) + 4]),
            14 => hand_made_double(random),
            _ => ratio_cases::any(random).to_bits(),
        };
    }
    if random.below(4) == 0 {
        put_any::<F>(random, words);
    }
    if words[11] == 1 {
        let model = random.pick(pool);
        records::put(words, MODEL_AT, model.as_ref());
        if random.below(6) == 0 {
            let place = random.below(F::SIZE as u64) as usize;
            words[MODEL_AT + place] = hand_made_double(random);
        }
    }
}

/// Measured by anything at all. Its NaNs are of any pattern.
fn put_any<F: Cases>(random: &mut Random, words: &mut Words) {
    let family = F::any(random);
    let places = words[F::RATIO_AT + 1..].iter_mut();
    for (place, number) in places.zip(family.numbers()) {
        *place = number.to_bits();
    }
}

fn hand_made_count(random: &mut Random) -> u64 {
    let top = (1 << 32) - 1;
    let list = [0, 1, 2, 5, 99_998, 99_999, 100_000, 100_001, top - 1, top];
    match random.below(6) {
        0 => random.word(),
        1 => 1 << 32,
        _ => random.pick(&list),
    }
}

/// Any double that a run's options and winner wouldn't hold.
fn hand_made_double(random: &mut Random) -> u64 {
    let nan = random.pick(&NANS);
    let special = [0.0, -0.0, -1.0, f64::INFINITY, f64::NEG_INFINITY, 2.0, 3.0];
    match random.below(4) {
        0 => nan,
        1 => random.word(),
        _ => random.pick(&special).to_bits(),
    }
}
