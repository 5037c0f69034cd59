//! The proved distance against plain formulas, and a sheet's residual and
//! projection: a number, that the mark is beyond, or the refusal; by row ratios
//! of every kind.

use compare::families::Proved;
use compare::ratios::Ratios;
use compare::{all_came, cases, for_each_family, is_long, same};
use oracle::cases::Random;
use oracle::entries;
use oracle::family_cases::distance;
use oracle::form_cases::{self, PLAIN, USUAL, camera_orders, camera_traps};
use oracle::ratio_cases;
use oracle::sheet_cases::{distance_traps, ratio_traps};
use oracle::{Form, Mark, Measure, Model, Numbers, Sheet, measure};
use proved::BEYOND;

for_each_family!(random_models, patterns);

#[derive(Debug, Default)]
struct Tally {
    record: usize,
    point: usize,
    ratio: usize,
    /// 6 and 16 hold, and 6 is told; 1 and 16, and 1 is told.
    point_before_ratio: usize,
    record_before_ratio: usize,
    /// Beyond by a ratio, and refused for it though it would be beyond.
    beyond_by_ratio: usize,
    ratio_before_beyond: usize,
    /// Refused for a form's camera; refused for something else though that is
    /// bad too; and refused for it though it would be beyond.
    value: usize,
    record_before_value: usize,
    point_before_value: usize,
    ratio_before_value: usize,
    value_before_beyond: usize,
    /// By this ratio another number than by 1.
    decided: usize,
    /// Numbers: finite, infinite, a NaN, and any with s = +inf.
    finite: usize,
    infinite: usize,
    nan: usize,
    inf_s: usize,
    /// Beyond, by s: 0, -0, negative, -inf, a NaN.
    zero_s: usize,
    minus_zero_s: usize,
    negative_s: usize,
    minus_inf_s: usize,
    nan_s: usize,
    ratios: Ratios,
}

/// s, and where the model has the point, by 01's formulas.
fn projection(h: &Model, x: f64, y: f64) -> [f64; 3] {
    let s = (h[6] * x + h[7] * y) + h[8];
    let across = ((h[0] * x + h[1] * y) + h[2]) / s;
    let down = ((h[3] * x + h[4] * y) + h[5]) / s;
    [s, across, down]
}

/// 01's own distance, which knows no ratio; a NaN where the mark is beyond.
fn of_01(h: &Model, &[x, y, u, v]: &Mark) -> f64 {
    let [s, across, down] = projection(h, x, y);
    let (du, dv) = (across - u, down - v);
    match s > 0.0 {
        true => (du * du + dv * dv).sqrt(),
        false => f64::NAN,
    }
}

/// What the proved code tells of an answer, and its number; a NaN stands for
/// none.
fn told(answer: Result<Measure, u32>) -> (u32, f64) {
    match answer {
        Ok(Measure::Distance(number)) => (0, number),
        Ok(Measure::Beyond) => (BEYOND, f64::NAN),
        Err(number) => (number, f64::NAN),
    }
}

/// Compares a sheet's residual, by this ratio and by 1, and its projection,
/// which refuse nothing.
fn compare_formulas(h: &Model, mark: &Mark, ratio: f64) {
    let (word, number) = told(Ok(measure(h, mark, ratio)));
    let ours = proved::residual_told(h, mark, ratio);
    assert_eq!(ours, word, "{h:?} {mark:?} {ratio:e}");
    let ours = proved::residual(h, mark, ratio);
    assert!(
        same(ours, number),
        "{h:?} {mark:?} {ratio:e}: {ours:e}, not {number:e}"
    );
    let ours = proved::residual(h, mark, 1.0);
    assert!(same(ours, of_01(h, mark)), "{h:?} {mark:?} by 1: {ours:e}");
    let [x, y, ..] = *mark;
    for (place, number) in (0..).zip(projection(h, x, y)) {
        let ours = proved::projection(h, &[x, y], place);
        assert!(
            same(ours, number),
            "place {place} of {h:?} {x:e} {y:e}: {ours:e}, not {number:e}"
        );
    }
}

fn compare<F: Proved>(family: &F, h: &F::Model, mark: &F::Mark, ratio: f64, tally: &mut Tally) {
    let (word, number) = told(entries::distance(family, h, mark, ratio));
    let ours = family.distance_told(h, mark, ratio);
    assert_eq!(ours, word, "{family:?} {h:?} {mark:?} {ratio:e}");
    let ours = family.proved_distance(h, mark, ratio);
    assert!(
        same(ours, number),
        "{family:?} {h:?} {mark:?} {ratio:e}: {ours:e}, not {number:e}"
    );
    let s = F::divisor(h, mark);
    match word {
        0 => tally.number(number, s),
        1 => tally.record += 1,
        6 => tally.point += 1,
        16 => tally.ratio += 1,
        17 => tally.value += 1,
        BEYOND => tally.beyond(s),
        _ => panic!("no answer of a distance: {word}"),
    }
    tally.by_ratio(family, h, mark, ratio, (word, number));
}

impl Tally {
    /// Counts what came by a ratio, beside what comes by 1.
    fn by_ratio<F: Proved>(
        &mut self,
        family: &F,
        h: &F::Model,
        mark: &F::Mark,
        ratio: f64,
        (word, number): (u32, f64),
    ) {
        let (word_by_one, by_one) = told(entries::distance(family, h, mark, 1.0));
        let refused = !(0.01..=100.0).contains(&ratio);
        self.ratios.add(ratio);
        self.record_before_ratio += usize::from(word == 1 && refused);
        self.point_before_ratio += usize::from(word == 6 && refused);
        self.beyond_by_ratio += usize::from(word == BEYOND && ratio != 1.0);
        self.ratio_before_beyond += usize::from(word == 16 && word_by_one == BEYOND);
        self.decided += usize::from(word == 0 && !same(number, by_one));
        let bad = family.tested().is_err();
        self.record_before_value += usize::from(word == 1 && bad);
        self.point_before_value += usize::from(word == 6 && bad);
        self.ratio_before_value += usize::from(word == 16 && bad);
        self.value_before_beyond += usize::from(word == 17 && F::beyond(h, mark));
    }

    fn number(&mut self, distance: f64, s: f64) {
        assert!(s > 0.0);
        self.finite += usize::from(distance.is_finite());
        self.infinite += usize::from(distance.is_infinite());
        self.nan += usize::from(distance.is_nan());
        self.inf_s += usize::from(s == f64::INFINITY);
    }

    fn beyond(&mut self, s: f64) {
        let minus_zero = s == 0.0 && s.is_sign_negative();
        self.zero_s += usize::from(s == 0.0 && !minus_zero);
        self.minus_zero_s += usize::from(minus_zero);
        self.negative_s += usize::from(s < 0.0 && s.is_finite());
        self.minus_inf_s += usize::from(s == f64::NEG_INFINITY);
        self.nan_s += usize::from(s.is_nan());
    }

    /// Sees that every answer came, by s of every kind.
    fn met<F: Proved>(&self) {
        let of_value = [
            self.value,
            self.record_before_value,
            self.point_before_value,
            self.ratio_before_value,
            self.value_before_beyond,
        ];
        assert!(F::NUMBERS == 0 || all_came(&of_value), "{self:?}");
        assert!(
            all_came(&[
                self.record,
                self.point,
                self.ratio,
                self.point_before_ratio,
                self.record_before_ratio,
                self.beyond_by_ratio,
                self.ratio_before_beyond,
                self.decided,
                self.finite,
                self.infinite,
                self.nan,
                self.inf_s,
                self.zero_s,
                self.minus_zero_s,
                self.negative_s,
                self.minus_inf_s,
                self.nan_s
            ]),
            "{self:?}"
        );
    }
}

#[test]
fn traps_of_sheets() {
    let mut tally = Tally::default();
    let mut one = |h, mark, ratio| {
        compare(&Sheet, &h, &mark, ratio, &mut tally);
        compare_formulas(&h, &mark, ratio);
    };
    for (h, mark) in distance_traps() {
        one(h, mark, 1.0);
        for ratio in ratio_cases::limits() {
            one(h, mark, ratio);
        }
    }
    for (h, mark, ratio) in ratio_traps() {
        one(h, mark, ratio);
    }
    println!("distance, traps: {tally:?}");
    tally.met::<Sheet>();
}

#[test]
fn traps_of_forms() {
    let mut tally = Tally::default();
    for (h, mark) in form_cases::distance_traps() {
        for camera in [PLAIN.camera, USUAL, [-0.5, 1e9, 0.1, -1e9], [0.0; 4]] {
            for ratio in ratio_cases::limits() {
                compare(&Form { camera }, &h, &mark, ratio, &mut tally);
            }
        }
        for camera in camera_traps() {
            compare(&Form { camera }, &h, &mark, 2.0, &mut tally);
        }
    }
    for (h, mark, ratio, camera) in camera_orders() {
        compare(&Form { camera }, &h, &mark, ratio, &mut tally);
    }
    println!("distance, traps of forms: {tally:?}");
    tally.met::<Form>();
}

/// A ratio that is mostly accepted.
fn ratio(random: &mut Random) -> f64 {
    let any = ratio_cases::any(random);
    let accepted = ratio_cases::accepted(random);
    random.pick(&[accepted, accepted, accepted, any])
}

fn random_models<F: Proved>() {
    let random = &mut Random::new(15);
    let mut tally = Tally::default();
    let count = cases(500_000);
    for i in 0..count {
        let family = match random.below(8) {
            0 => F::any(random),
            _ => F::accepted(random),
        };
        let (h, mark) = distance(random, &family, i);
        compare(&family, &h, &mark, ratio(random), &mut tally);
    }
    println!("distance: {tally:?}");
    if is_long(count) {
        tally.met::<F>();
        tally.ratios.all_met();
    }
}

/// A sheet's residual and projection by themselves.
#[test]
fn formulas() {
    let random = &mut Random::new(17);
    for i in 0..cases(500_000) {
        let (h, mark) = distance(random, &Sheet, i);
        compare_formulas(&h, &mark, ratio(random));
    }
}

/// Any bit pattern, and now and then one that is special.
fn pattern(random: &mut Random) -> f64 {
    match random.below(4) {
        0 => random.pick(&[
            f64::NAN,
            f64::INFINITY,
            f64::NEG_INFINITY,
            f64::MAX,
            0.0,
            -0.0,
            1.0,
            -1.0,
        ]),
        1 => random.sign() * random.sized(1000, 1040),
        _ => random.pattern(),
    }
}

/// Any numbers at all: most are refused.
fn patterns<F: Proved>() {
    let random = &mut Random::new(16);
    let mut tally = Tally::default();
    for _ in 0..cases(300_000) {
        let h = F::Model::from_fn(|_| pattern(random));
        let mark = F::Mark::from_fn(|_| pattern(random));
        let any = pattern(random);
        let family = F::any(random);
        compare(&family, &h, &mark, random.pick(&[1.0, any]), &mut tally);
    }
    println!("distance, any patterns: {tally:?}");
}

/// The residual and the projection answer for any numbers.
#[test]
fn formulas_of_patterns() {
    let random = &mut Random::new(18);
    for _ in 0..cases(300_000) {
        let h = [0; 9].map(|_| pattern(random));
        let mark = [0; 4].map(|_| pattern(random));
        let any = pattern(random);
        compare_formulas(&h, &mark, random.pick(&[1.0, any]));
    }
}

/// There are three places.
#[test]
fn no_fourth_place() {
    let h = [1.0; 9];
    for place in [3, 4, u32::MAX] {
        assert!(proved::projection(&h, &[1.0, 1.0], place).is_nan());
    }
}
