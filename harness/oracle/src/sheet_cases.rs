//! Sheets to compare on: lists of marks and models by hand, limits by rule, and
//! random lists.

use crate::cases::{Random, power_of_two, step};
use crate::double_cases;
use crate::family_cases::{settle, settle_or_part};
use crate::ratio_cases::{LEAST, MOST};
use crate::{Mark, Model, Point, Sheet};

/// 01's square without its middle.
pub const SQUARE: [Point; 4] = [[0.0, 0.0], [100.0, 0.0], [100.0, 100.0], [0.0, 100.0]];

/// Four points on a line.
pub const LINE: [Point; 4] = [[0.0, 0.0], [1.0, 0.0], [2.0, 0.0], [3.0, 0.0]];

/// Points on which the two closeness tests differ, each seen from the origin:
/// the first four are within 1e-9 by the root of the sum of squares alone, the
/// others by `hypot` alone.
pub const DIFFERING: [Point; 8] = [
    [1.170_417_781_865_231_8e-10, 9.931_269_919_597_076e-10],
    [1.615_294_644_246_162_5e-10, 9.868_678_899_035_56e-10],
    [1.305_718_271_531_2e-10, 9.914_388_523_524_263e-10],
    [3.316_559_036_330_68e-11, 9.994_498_704_866_861e-10],
    [9.598_158_834_829_647e-10, 2.806_304_862_516_121_4e-10],
    [9.078_386_819_528_439e-12, 9.999_587_905_972_702e-10],
    [1.964_681_588_031_140_8e-10, 9.805_102_052_383_314e-10],
    [2.806_304_862_516_121_4e-10, 9.598_158_834_829_647e-10],
];

/// Collinear by 01 and not by the Rust.
pub const HYPOT_YES: [Point; 4] = [[0.0, 0.0], [1e6, 0.0], DIFFERING[0], [2e6, 0.0]];

/// Collinear by the Rust and not by 01.
pub const HYPOT_NO: [Point; 4] = [[0.0, 0.0], [1e6, 0.0], DIFFERING[4], [2e6, 0.0]];

/// The flat list of marks with these sides.
pub fn pair(sheet: &[Point], pixel: &[Point]) -> Vec<f64> {
    let pairs = sheet.iter().zip(pixel);
    pairs.flat_map(|(s, p)| [s[0], s[1], p[0], p[1]]).collect()
}

/// The same points on both sides.
pub fn both(points: &[Point]) -> Vec<f64> {
    pair(points, points)
}

// Mark lists.

/// The square with a fifth point.
fn five(middle: Point) -> Vec<Point> {
    [SQUARE.as_slice(), &[middle]].concat()
}

/// Lists of at most five marks that 5 and 6 let through.
pub fn mark_traps() -> Vec<Vec<f64>> {
    [usual_traps(), spread_traps(), line_traps()].concat()
}

/// Few marks, the square, lines, and the largest and smallest numbers.
pub fn usual_traps() -> Vec<Vec<f64>> {
    let large = 1e9;
    let less = step(large, -1);
    let around = [[-1.0, -1.0], [1.0, -1.0], [1.0, 1.0], [-1.0, 1.0]];
    vec![
        Vec::new(),
        both(&[[3.0, 4.0]]),
        both(&[[0.0, 0.0], [3.0, 4.0]]),
        both(&SQUARE[..3]),
        both(&LINE[..3]),
        both(&SQUARE),
        // A centre mark, another at minus zero, and 01's square.
        both(&five([50.0, 50.0])),
        both(&[around.as_slice(), &[[-0.0, 0.0]]].concat()),
        pair(&five([50.0, 50.0]), &five([50.0, 53.0])),
        both(&[[1.0, 1.0]; 4]),
        pair(&LINE, &SQUARE),
        pair(&SQUARE, &LINE),
        both(&LINE),
        both(&around.map(|p| p.map(|x| large * x))),
        both(&[[large, large], [less, large], [large, less], [-0.0, 5e-324]]),
        both(&[[5e-324, -5e-324], [1e-300, 0.0], [0.0, 1e-310]]),
    ]
}

/// Around no spread, and minus zeros.
pub fn spread_traps() -> Vec<Vec<f64>> {
    let double = 2.0 * f64::EPSILON;
    vec![
        // Equal points: three have some by rounding, and five have none.
        both(&[[2.7, 2.7]; 3]),
        both(&[[-2.7, 2.7]; 5]),
        // A mean distance of exactly 2^-52, and its neighbours.
        both(&[[0.0, 0.0], [double, 0.0]]),
        both(&[[0.0, 0.0], [0.0, step(double, 1)]]),
        both(&[[0.0, 0.0], [step(double, -1), 0.0]]),
        both(&[[-0.0, 1.0], [-0.0, 3.0]]),
        both(&[[-0.0, -0.0]; 4]),
    ]
}

/// Around the limits of collinear.
pub fn line_traps() -> Vec<Vec<f64>> {
    let over = step(1e-6, 1);
    let fourth = |p: Point| both(&[[0.0, 0.0], [1.0, 0.0], [2.0, 0.0], p]);
    let mut list = vec![
        both(&[[0.0, 0.0], [0.0005, 0.0], [0.0, 0.001]]),
        // A cross product of 1e-6, and its neighbours.
        fourth([0.0, 1e-6]),
        fourth([5.0, -1e-6]),
        fourth([5.0, over]),
        fourth([-5.0, -over]),
    ];
    // A point 1e-9 from point 0, and its neighbours, before and behind far ones.
    for k in -1..=1 {
        let near = step(1e-9, k);
        list.push(both(&[[0.0, 0.0], [0.0, near], [1e6, 0.0], [-1e6, 0.0]]));
        list.push(both(&[[0.0, 0.0], [1e6, 0.0], [2e6, 0.0], [0.0, near]]));
    }
    list
}

/// Lists of at most 20 numbers that 5 or 6 refuses, and which of the two.
pub fn refused_traps() -> Vec<(Vec<f64>, u32)> {
    let over = step(1e9, 1);
    let mut list = Vec::new();
    for len in [1, 2, 7, 15] {
        list.push((both(&SQUARE)[..len].to_vec(), 5));
    }
    // 5 comes before 6.
    list.push((vec![f64::NAN; 7], 5));
    let mut damaged = |mut marks: Vec<f64>, place: usize, bad: f64| {
        marks[place] = bad;
        list.push((marks, 6));
    };
    damaged(both(&SQUARE), 0, 2e9);
    damaged(both(&SQUARE), 1, f64::NAN);
    damaged(both(&SQUARE), 2, over);
    damaged(both(&SQUARE), 7, -over);
    damaged(both(&SQUARE), 12, f64::NEG_INFINITY);
    damaged(both(&SQUARE), 15, f64::INFINITY);
    // 6 comes before 7, 12, 13 and 14.
    damaged(both(&SQUARE[..3]), 11, f64::MAX);
    damaged(both(&[[1.0, 1.0]; 4]), 14, -2e9);
    damaged(both(&LINE), 13, f64::NAN);
    list
}

/// Long lists: the most marks there may be, and more.
pub fn long_traps() -> Vec<Vec<f64>> {
    let random = &mut Random::new(9);
    let spread = both(&side(random, 0, 2000));
    let mut bad_last = spread.clone();
    bad_last[7999] = f64::NAN;
    let mut bad_first = [spread.as_slice(), &[0.0; 4]].concat();
    bad_first[0] = f64::NAN;
    let mut on_a_line = pair(&side(random, 10, 2000), &side(random, 0, 2000));
    settle::<Sheet>(&mut on_a_line);
    vec![
        bad_last,
        bad_first,
        [spread.as_slice(), &[0.0]].concat(),
        [spread.as_slice(), &[0.0; 4]].concat(),
        spread[..7999].to_vec(),
        spread,
        both(&side(random, 1, 2000)),
        both(&side(random, 6, 2000)),
        both(&[[0.1, 0.7]; 2000]),
        both(&[[1e9, -1e9]; 2000]),
        on_a_line,
        pair(&side(random, 0, 2000), &side(random, 10, 2000)),
    ]
}

/// All of these: usual, at a limit, refused and long; and those in which marks
/// clash, or nearly.
pub fn all_traps() -> Vec<Vec<f64>> {
    let refused = refused_traps().into_iter().map(|(marks, _)| marks);
    let doubles = double_cases::short::<Sheet>();
    [mark_traps(), refused.collect(), long_traps(), doubles].concat()
}

/// n marks of the i-th kind, not damaged; none clash.
pub fn few_marks(random: &mut Random, i: usize, n: usize) -> Vec<f64> {
    let mut marks = any_marks(random, i, n);
    settle_or_part::<Sheet>(random, &mut marks);
    marks
}

/// The same, and some may clash.
pub(crate) fn any_marks(random: &mut Random, i: usize, n: usize) -> Vec<f64> {
    let sheet = side(random, i, n);
    let pixel_kind = match random.below(4) {
        0 => i,
        1 => random.below(KINDS as u64) as usize,
        2 => 0,
        _ => 2,
    };
    pair(&sheet, &side(random, pixel_kind, n))
}

pub(crate) const KINDS: usize = 11;

fn points(n: usize, make: impl FnMut() -> Point) -> Vec<Point> {
    std::iter::repeat_with(make).take(n).collect()
}

/// n points of a kind.
pub(crate) fn side(random: &mut Random, kind: usize, n: usize) -> Vec<Point> {
    match kind % KINDS {
        0 => points(n, || [0; 2].map(|_| 2000.0 * random.unit() - 1000.0)),
        // Every size up to some 5e8.
        1 => points(n, || [0; 2].map(|_| random.sign() * random.sized(0, 1051))),
        2 => {
            let scale = random.pick(&[1.0, 0.1, 25.4, 1e8, -0.25, 1e-3, 1e-9]);
            points(n, || [0; 2].map(|_| scale * random.from_to(-4, 4) as f64))
        }
        3 => {
            // Far from the origin, a few patterns apart.
            let centre = [0; 2].map(|_| random.sign() * (1.0 + 9e8 * random.unit()));
            points(n, || centre.map(|c| step(c, random.from_to(-3, 3))))
        }
        4 => close(random, n),
        5 => crossed(random, n),
        6 => points(n, || [0; 2].map(|_| huge(random))),
        7 => tiny(random, n),
        8 => vec![[0; 2].map(|_| 20.0 * random.unit() - 10.0); n],
        9 => points(n, || [0; 2].map(|_| random.pick(&[0.0, -0.0, -0.0, 1.0]))),
        _ => line(random, n),
    }
}

/// 1e9, the doubles before it, and now and then something small.
fn huge(random: &mut Random) -> f64 {
    match random.below(8) {
        0 => random.pick(&[0.0, -0.0, 1.0, 5e-324]),
        _ => random.sign() * step(1e9, -random.from_to(0, 2)),
    }
}

/// Subnormal, up to some 1e-300, or of a spread around 2^-52.
fn tiny(random: &mut Random, n: usize) -> Vec<Point> {
    match random.below(3) {
        0 => points(n, || [0; 2].map(|_| random.sign() * random.sized(0, 0))),
        1 => points(n, || [0; 2].map(|_| random.sign() * random.sized(0, 27))),
        _ => {
            let unit = power_of_two(random.from_to(-54, -51) as i32);
            let mut number = || unit * random.from_to(-2, 2) as f64;
            points(n, || [number(), number()])
        }
    }
}

/// Points some 1e-9 from point 0, among points far away on a line: whether a
/// near one is passed over decides.
fn close(random: &mut Random, n: usize) -> Vec<Point> {
    let origin = random.pick(&[[0.0, 0.0], [0.0, 0.0], [-0.0, 1e-9], [0.5, -0.25]]);
    let mut list = points(n, || {
        let [dx, dy] = match random.below(24) {
            0 => differing(random),
            1..9 => [1e6 * random.from_to(-3, 3) as f64, 0.0],
            _ => about_1e_9(random),
        };
        [origin[0] + dx, origin[1] + dy]
    });
    if let Some(first) = list.first_mut() {
        *first = origin;
    }
    list
}

/// A step of length 1e-9 or a neighbour of it, along an axis or not.
fn about_1e_9(random: &mut Random) -> Point {
    let length = step(1e-9, random.from_to(-2, 2));
    let any = random.unit();
    let along = random.pick(&[0.0, 1.0, 0.6, any]);
    let across = (1.0 - along * along).sqrt();
    let [x, y] = [length * along, length * across];
    [random.sign() * x, random.sign() * y]
}

/// The same, and one on which the two closeness tests differ.
fn differing(random: &mut Random) -> Point {
    let [x, y] = random.pick(&DIFFERING);
    [random.sign() * x, random.sign() * y]
}

/// Points whose cross product with the baseline is some 1e-6.
fn crossed(random: &mut Random, n: usize) -> Vec<Point> {
    let length = match random.below(2) {
        0 => power_of_two(random.from_to(-20, 25) as i32),
        _ => 1e-3 + 1e3 * random.unit(),
    };
    let turned = random.below(2) == 0;
    let mut list = points(n, || {
        let height = random.sign() * step(1e-6 / length, random.from_to(-2, 1));
        let [x, y] = match random.below(4) {
            0 => [length * random.from_to(-9, 9) as f64, 0.0],
            _ => [length * random.from_to(-1, 1) as f64, height],
        };
        if turned { [y, x] } else { [x, y] }
    });
    let start = [[0.0, 0.0], [length, 0.0]].map(|[x, y]| if turned { [y, x] } else { [x, y] });
    for (place, p) in list.iter_mut().zip(start) {
        *place = p;
    }
    list
}

/// Points on a line, in any order, some of them equal.
fn line(random: &mut Random, n: usize) -> Vec<Point> {
    let [x, y, dx, dy] = [0; 4].map(|_| random.from_to(-100, 100) as f64);
    let scale = random.pick(&[1.0, 0.1, 1.0 / 3.0, 1024.0]);
    points(n, || {
        let t = random.from_to(-20, 20) as f64;
        [scale * (x + t * dx), scale * (y + t * dy)]
    })
}

/// A length for a lent list: what is needed, one less, none, or more.
pub fn room(random: &mut Random, need: usize) -> usize {
    match random.below(8) {
        0 => need.saturating_sub(1),
        1 => 0,
        2 => random.below(need as u64 + 1) as usize,
        3 | 4 => need + 1 + random.below(30) as usize,
        _ => need,
    }
}

// Models, each with a mark.

pub const IDENTITY: Model = [1.0, 0.0, 0.0, 0.0, 1.0, 0.0, 0.0, 0.0, 1.0];

/// The identity with some numbers replaced.
fn model<const N: usize>(changes: [(usize, f64); N]) -> Model {
    let mut h = IDENTITY;
    for (place, number) in changes {
        h[place] = number;
    }
    h
}

/// Cases by hand: refused ones, then s of every kind.
pub fn distance_traps() -> Vec<(Model, Mark)> {
    let mark = [50.0, 50.0, 50.0, 53.0];
    let inf = f64::INFINITY;
    let nan = f64::NAN;
    let over = step(1e9, 1);
    let far = [1e9, 1e9, 3.0, 4.0];
    vec![
        (IDENTITY, mark),
        (model([(5, 3.0)]), mark),
        (model([(8, -1.0)]), mark),
        (model([(0, nan)]), mark),
        (model([(4, inf)]), mark),
        (model([(8, -inf)]), mark),
        (model([(8, nan)]), mark),
        // 1 comes before 6.
        (model([(3, inf)]), [nan, 0.0, 0.0, 0.0]),
        (IDENTITY, [nan, 0.0, 0.0, 0.0]),
        (IDENTITY, [0.0, -inf, 0.0, 0.0]),
        (IDENTITY, [0.0, 0.0, over, 0.0]),
        (IDENTITY, [0.0, 0.0, 0.0, -2e9]),
        (IDENTITY, [1e9, -1e9, 1e9, -1e9]),
        // s is 0, -0, the smallest number, and its negative.
        (model([(8, 0.0)]), mark),
        (model([(8, -0.0)]), [0.0; 4]),
        (model([(6, -0.0), (7, -0.0), (8, -0.0)]), mark),
        (model([(8, 5e-324)]), mark),
        (model([(8, -5e-324)]), mark),
        (model([(8, 5e-324)]), [0.0; 4]),
        (model([(6, 1.0), (8, -50.0)]), mark),
        (model([(6, 1.0), (8, step(-50.0, -1))]), mark),
        (model([(6, 1.0), (8, step(-50.0, 1))]), mark),
        (model([(7, 1.0), (8, -50.0)]), mark),
        // s overflows: +inf with a finite distance and with none, -inf, NaN.
        (model([(6, 1e300)]), [1e9, 0.0, 3.0, 4.0]),
        (model([(6, 1e300), (7, 1e300)]), far),
        (model([(0, 1e300), (6, 1e300)]), far),
        (model([(0, 1e300), (3, -1e300), (8, 1.0)]), far),
        (model([(6, -1e300)]), far),
        (model([(6, 1e300), (7, -1e300)]), far),
        (model([(6, -1e300), (7, 1e300), (8, f64::MAX)]), far),
        // The numerators are NaN, and one of them is.
        (model([(0, 1e300), (1, -1e300)]), far),
        (model([(3, 1e300), (4, -1e300), (0, 1e300)]), far),
        // Squares overflow, and vanish.
        (model([(2, 1e200)]), mark),
        (model([(2, f64::MAX), (8, f64::MAX)]), [0.0; 4]),
        // Beyond where the number would be a NaN, and infinite.
        (model([(0, 1e300), (1, -1e300), (8, -1.0)]), far),
        (model([(2, 1e200), (8, -1.0)]), mark),
        (model([(0, 1e-200), (4, 1e-200)]), [1.0, 1.0, 0.0, 0.0]),
        // The orders of sums and the single roundings show.
        (model([(6, 1e16), (7, -1e16), (8, 1.0)]), [1.0; 4]),
        (model([(1, 1e16), (2, -1e16)]), [1.0; 4]),
        (model([(3, 1.0), (4, 1e16), (5, -1e16)]), [1.0; 4]),
        (model([(0, 0.1), (1, 0.2), (2, 0.3), (8, 0.7)]), [0.1; 4]),
        ([-0.0; 9], [0.0; 4]),
    ]
}

/// The same with row ratios: at both ends and next to them, between, and
/// refused ones; their place in the order; and where the single roundings show.
pub fn ratio_traps() -> Vec<(Model, Mark, f64)> {
    let (inf, nan) = (f64::INFINITY, f64::NAN);
    // Off by 4 and -3.
    let mark = [50.0, 50.0, 46.0, 53.0];
    let mut list = Vec::new();
    for end in [LEAST, MOST] {
        list.extend([-1, 0, 1].map(|k| (IDENTITY, mark, step(end, k))));
    }
    for ratio in [0.5, 1.0, 2.0, nan, inf, -inf, 0.0, -0.0, -1.0, -LEAST] {
        list.push((IDENTITY, mark, ratio));
    }
    let (behind, none) = (model([(8, -1.0)]), model([(8, nan)]));
    let wide = [50.0, 50.0, 46.0, 2e9];
    list.extend([
        // 1, then 6, then 16, and beyond after all of them.
        (none, wide, 0.0),
        (none, mark, 0.0),
        (IDENTITY, wide, 0.0),
        (behind, mark, 0.0),
        (behind, mark, 2.0),
        // A difference along u alone, and along v alone.
        (IDENTITY, [50.0, 50.0, 46.0, 50.0], 2.0),
        (IDENTITY, [50.0, 50.0, 50.0, 53.0], 2.0),
        // The product is rounded, vanishes and overflows; so does its square.
        (IDENTITY, [0.0, 0.1, 0.3, 0.7], 0.1),
        (IDENTITY, [0.0, 1.1, 0.3, 0.0], 1.0 / 3.0),
        (IDENTITY, [0.0, 0.0, 0.0, 5e-324], LEAST),
        (IDENTITY, [0.0, 0.0, 0.0, 1e-160], LEAST),
        (model([(5, 1e308)]), mark, MOST),
        (model([(5, 1e153)]), mark, MOST),
        (model([(5, 1e155)]), mark, LEAST),
        // A difference along v that is infinite, and one that is a NaN.
        (model([(3, 1e300)]), [1e9, 1e9, 3.0, 4.0], LEAST),
        (model([(3, 1e300), (4, -1e300)]), [1e9, 1e9, 3.0, 4.0], 2.0),
    ]);
    list
}
