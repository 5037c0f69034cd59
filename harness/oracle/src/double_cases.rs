//! Marks of one position and two pixels, 02's order 6: lists of any family that 18
//! refuses, and lists near them that it doesn't. Each is told by hand to clash or
//! not; nothing here asks the oracle. Where an entry asks how many marks there are,
//! those that are few are 7 before, as 02's order 7 has it.

use crate::cases::{Random, step};
use crate::family::{Family, Numbers};
use crate::family_cases::{clash, settle};
use crate::{FormMark, Mark};

/// A flat list of marks, and whether two of them clash.
pub type Doubled = (Vec<f64>, bool);

/// The origin seen at two pixels, and the ends of both axes: the smallest list of a
/// run that clashes, whose first two and first three do too, and are few.
pub const FOUR: [Mark; 4] = [
    [0.0, 0.0, 0.0, 0.0],
    [0.0, 0.0, 1.0, 0.0],
    [1.0, 0.0, 1.0, 0.0],
    [0.0, 1.0, 0.0, 1.0],
];

/// The same of a form, and two points more.
pub const SIX: [FormMark; 6] = [
    [0.0, 0.0, 0.0, 0.0, 0.0],
    [0.0, 0.0, 0.0, 1.0, 0.0],
    [1.0, 0.0, 0.0, 1.0, 0.0],
    [0.0, 1.0, 0.0, 0.0, 1.0],
    [0.0, 0.0, 1.0, 0.0, 0.0],
    [1.0, 1.0, 0.0, 1.0, 1.0],
];

/// How many of a mark's numbers say where it is; the pixel is behind them.
const fn coordinates<F: Family>() -> usize {
    F::WIDTH - 2
}

/// So many marks that have no number in common, on no line, in no order.
pub fn apart<F: Family>(n: usize) -> Vec<F::Mark> {
    // Whole numbers modulo a prime above the most marks: each is there once.
    let factors = [37, 911, 5, 1201, 640];
    let mark = |i| F::Mark::from_fn(|k| ((i + 1) * factors[k] % 2003) as f64);
    (0..n).map(mark).collect()
}

pub fn flat<M: Numbers>(marks: &[M]) -> Vec<f64> {
    let numbers = marks.iter().flat_map(|mark| mark.as_ref());
    numbers.copied().collect()
}

/// The list with a number at this place that none may have: one of seven, so that
/// the same number of the next mark, four or five places on, has another.
pub fn spoiled(marks: &[f64], place: usize) -> Vec<f64> {
    let bad = [
        f64::NAN,
        f64::INFINITY,
        -2e9,
        f64::NEG_INFINITY,
        2e9,
        step(1e9, 1),
        step(-1e9, 1),
    ];
    let mut marks = marks.to_vec();
    marks[place] = bad[place % bad.len()];
    marks
}

/// The mark with some of its numbers replaced.
fn with<M: Numbers>(mark: &M, changes: &[(usize, f64)]) -> M {
    let mut mark = *mark;
    for &(place, number) in changes {
        mark.as_mut()[place] = number;
    }
    mark
}

/// The mark at the same position with another u, another v or both, and the
/// mark itself: whether it then clashes with itself as it was.
fn at_the_same<F: Family>(mark: &F::Mark) -> [(F::Mark, bool); 4] {
    let [u, v] = [0, 1].map(|k| coordinates::<F>() + k);
    let [a, b] = [u, v].map(|k| mark.as_ref()[k]);
    [
        (*mark, false),
        (with(mark, &[(u, a + 1.0)]), true),
        (with(mark, &[(v, step(b, 1))]), true),
        (with(mark, &[(u, -a - 2.0), (v, b - 0.5)]), true),
    ]
}

/// The list with the mark at one place standing at another too, with the same
/// pixel and with others.
fn again<F: Family>(marks: &[F::Mark], from: usize, to: usize) -> [Doubled; 4] {
    at_the_same::<F>(&marks[from]).map(|(mark, clash)| {
        let mut list = marks.to_vec();
        list[to] = mark;
        (flat(&list), clash)
    })
}

/// Two places of a list: its ends, its middle, next to each other and far
/// apart; of a short list all there are.
fn places(n: usize) -> Vec<[usize; 2]> {
    let all = |i: usize| (0..i).map(move |k| [k, i]);
    if n <= 8 {
        return (1..n).flat_map(all).collect();
    }
    let (last, half, third) = (n - 1, n / 2, n / 3);
    vec![
        [0, 1],
        [last - 1, last],
        [half - 1, half],
        [half, half + 1],
        [0, last],
        [0, half],
        [half, last],
        [third, 2 * third],
        [1, last - 1],
    ]
}

/// A mark that stands twice in lists of these lengths, its first place before
/// the second or behind.
pub fn pairs<F: Family>(lengths: &[usize]) -> Vec<Doubled> {
    let mut list = Vec::new();
    for &n in lengths {
        let marks = apart::<F>(n);
        for [i, k] in places(n) {
            list.extend(again::<F>(&marks, i, k));
            list.extend(again::<F>(&marks, k, i));
        }
    }
    list
}

/// A mark that stands three times, with others between, in front and behind, or
/// with none: A B A, A A B, B A A, and A A A.
pub fn threes<F: Family>() -> Vec<Doubled> {
    let marks = apart::<F>(12);
    let (a, b) = (marks[0], marks[1]);
    let mut list = Vec::new();
    for (other, clash) in at_the_same::<F>(&a) {
        for three in [[a, b, other], [a, other, b], [b, a, other], [other, b, a]] {
            list.push((flat(&three), clash));
            list.push((flat(&[&three, &marks[2..]].concat()), clash));
            list.push((flat(&[&marks[2..], &three].concat()), clash));
            list.push((flat(&[&marks[2..7], &three, &marks[7..]].concat()), clash));
        }
        for three in [[a, a, other], [a, other, a], [other, a, a]] {
            list.push((flat(&three), clash));
            list.push((flat(&[&three, &marks[1..]].concat()), clash));
            list.push((flat(&[&marks[1..], &three].concat()), clash));
        }
        // Another mark stands twice, before, between and behind.
        for five in [
            [b, b, a, other, b],
            [a, b, b, other, b],
            [a, other, b, b, b],
        ] {
            list.push((flat(&five), clash));
            list.push((flat(&[&five, &marks[2..]].concat()), clash));
        }
    }
    list
}

/// Two marks that are alike but for the number at one place, alone and at both
/// ends of a longer list; then with another pixel besides.
fn but_for<F: Family>(mark: &F::Mark, place: usize, [x, y]: [f64; 2]) -> Vec<Doubled> {
    let (first, second) = (with(mark, &[(place, x)]), with(mark, &[(place, y)]));
    let is_pixel = place >= coordinates::<F>();
    let differ = x != y;
    let mut list = vec![(first, second, is_pixel && differ)];
    for k in coordinates::<F>()..F::WIDTH {
        if k != place {
            let pixel = second.as_ref()[k] + 3.0;
            let other = with(&second, &[(k, pixel)]);
            list.push((first, other, is_pixel || !differ));
        }
    }
    let between = apart::<F>(9);
    let lists = list.into_iter().flat_map(|(a, b, clash)| {
        let longer = [&[a], &between[..], &[b]].concat();
        [flat(&[a, b]), flat(&[b, a]), flat(&longer)].map(|list| (list, clash))
    });
    lists.collect()
}

/// Zeros of both signs are equal, at each place; the doubles next to a number
/// aren't, nor is its negative.
pub fn nearly_equal<F: Family>() -> Vec<Doubled> {
    let bases = [
        F::Mark::from_fn(|_| 0.0),
        F::Mark::from_fn(|_| -0.0),
        F::Mark::from_fn(|k| 5.0 + k as f64),
        F::Mark::from_fn(|_| 1.0),
    ];
    let mut numbers = vec![[0.0, -0.0], [-0.0, 0.0], [0.0, 5e-324], [-0.0, -5e-324]];
    numbers.extend([1.0, 0.1, -7.5, 1e-300, f64::MIN_POSITIVE, 123_456.789].map(|x| [x, -x]));
    for x in [1.0, -1.0, 0.1, -7.5, 1e-300, f64::MIN_POSITIVE, 99.0, 5e8] {
        numbers.extend([[x, step(x, 1)], [step(x, -1), x], [x, x]]);
    }
    numbers.extend([[1e9, step(1e9, -1)], [-1e9, step(-1e9, -1)], [1e9, 1e9]]);
    let mut list = Vec::new();
    for mark in bases {
        for place in 0..F::WIDTH {
            for &two in &numbers {
                list.extend(but_for::<F>(&mark, place, two));
            }
        }
    }
    list
}

/// Marks of different pixels whose positions have all coordinates but one in
/// common: of a form, those of one x and y. And positions of the same numbers in
/// another order. None clash, but where the last is given the first one's
/// position.
pub fn all_but_one<F: Family>(n: usize) -> Vec<Doubled> {
    let mut list = Vec::new();
    for place in 0..coordinates::<F>() {
        let marks: Vec<F::Mark> = apart::<F>(n)
            .iter()
            .map(|mark| {
                F::Mark::from_fn(|k| {
                    if k < F::WIDTH - 2 && k != place {
                        3.0
                    } else {
                        mark.as_ref()[k]
                    }
                })
            })
            .collect();
        list.push((flat(&marks), false));
        let mut one = marks.clone();
        let number = one[0].as_ref()[place];
        one[n - 1].as_mut()[place] = number;
        list.push((flat(&one), true));
        // One pixel for all of them is no clash.
        let pixel = |mark: &F::Mark| with(mark, &[(F::WIDTH - 2, 8.0), (F::WIDTH - 1, 9.0)]);
        one.iter_mut().for_each(|mark| *mark = pixel(mark));
        list.push((flat(&one), false));
    }
    let turned = |by: usize| {
        F::Mark::from_fn(|k| match k < coordinates::<F>() {
            true => ((k + by) % coordinates::<F>()) as f64,
            false => (10 * by + k) as f64,
        })
    };
    let turned: Vec<F::Mark> = (0..coordinates::<F>()).map(turned).collect();
    list.push((flat(&turned), false));
    list
}

/// A few lists of at most one mark more than the fewest of a run, for the answers
/// that are replayed: a mark that stands twice, with one pixel and with two, and
/// what comes before 18 and behind it.
pub fn few<F: Family>() -> Vec<Vec<f64>> {
    let marks = apart::<F>(F::FEWEST);
    let (first, u) = (marks[0], coordinates::<F>());
    let mut list = Vec::new();
    for (other, _) in at_the_same::<F>(&first) {
        list.push([&marks[..], &[other]].concat());
    }
    let other = with(&first, &[(u, 0.0)]);
    list.push(vec![first, other]);
    list.push(vec![first, marks[1], other]);
    list.push(vec![first, first, marks[1], other]);
    // No spread, and on a line.
    let mut one = vec![first; F::FEWEST];
    one[0] = with(&first, &[(u + 1, -0.0)]);
    list.push(one);
    let zeros = with(&first, &[(0, 0.0), (1, -0.0), (u, -0.0), (u + 1, 0.0)]);
    let opposite = with(&first, &[(0, -0.0), (1, 0.0), (u, 0.0), (u + 1, -0.0)]);
    let tiny = with(&opposite, &[(u, 5e-324)]);
    let beside = with(&tiny, &[(1, 5e-324)]);
    for last in [opposite, tiny, beside] {
        list.push([&[zeros], &marks[1..], &[last]].concat());
    }
    let mut list: Vec<Vec<f64>> = list.iter().map(|marks| flat(marks)).collect();
    // 5 and 6.
    list.push([&flat(&[first, other])[..], &[1.0]].concat());
    list.push(flat(&[first, with(&other, &[(u + 1, 2e9)])]));
    list
}

/// Short lists of all these kinds.
pub fn short<F: Family>() -> Vec<Vec<f64>> {
    let lists = [
        pairs::<F>(&[2, 3, F::FEWEST, F::FEWEST + 1]),
        threes::<F>(),
        all_but_one::<F>(F::FEWEST),
    ];
    let nearly = nearly_equal::<F>().into_iter().step_by(29);
    let all = lists.into_iter().flatten().chain(nearly);
    all.map(|(marks, _)| marks).collect()
}

/// The orders in which the places of a list may stand.
const ORDERS: usize = 4;

/// As they are, turned round, in turn from both ends, or with no order.
fn ordered<M: Numbers>(marks: &[M], order: usize) -> Vec<M> {
    let n = marks.len();
    let place = |i: usize| match order {
        0 => i,
        1 => n - 1 - i,
        2 if i.is_multiple_of(2) => i / 2,
        2 => n - 1 - i / 2,
        // No prime factor of the most marks is one of this prime.
        _ => i * 1103 % n,
    };
    (0..n).map(|i| marks[place(i)]).collect()
}

/// The most marks: of one position, of two in turn, on a grid, and each twice;
/// with one pixel for each position, and then with one mark's changed, at the
/// first, a middle and the last place.
pub fn the_most<F: Family>() -> Vec<Doubled> {
    let side = 45;
    let on_a_grid = |i: usize| {
        F::Mark::from_fn(|k| match k {
            0 => (i / side) as f64,
            1 => (i % side) as f64,
            _ if k < coordinates::<F>() => 1.0,
            _ => (i * (k + 1)) as f64,
        })
    };
    let grid: Vec<F::Mark> = (0..F::MOST).map(on_a_grid).collect();
    let half = &grid[..F::MOST / 2];
    let kinds = [
        (vec![grid[7]; F::MOST], true),
        ([grid[7], grid[8]].repeat(F::MOST / 2), true),
        (half.repeat(2), true),
        (half.iter().flat_map(|&mark| [mark; 2]).collect(), true),
        (grid, false),
    ];
    let mut list = Vec::new();
    for (marks, twice) in kinds {
        for order in 0..ORDERS {
            let marks = ordered(&marks, order);
            list.push((flat(&marks), false));
            for place in [0, F::MOST / 2, F::MOST - 1] {
                for (mark, clash) in &at_the_same::<F>(&marks[place])[1..3] {
                    let mut changed = marks.clone();
                    changed[place] = *mark;
                    list.push((flat(&changed), *clash && twice));
                }
            }
        }
    }
    list
}

/// n marks on few positions or many, in any order or by their positions, up or
/// down: of whole numbers of something, zeros of both signs among them, or of
/// doubles next to each other. No two clash; then some may, made so at random.
pub fn random<F: Family>(random: &mut Random, n: usize) -> Vec<f64> {
    let reach = random.pick(&[0, 1, 1, 2, 3, 10]);
    let one = random.pick(&[1.0, 1.0, 0.1, 1e-300, 5e-324, 1e8]);
    let beside = random.sign() * random.sized(20, 1051);
    let by_steps = random.below(4) == 0;
    let number = |random: &mut Random| match random.from_to(-reach, reach) {
        k if by_steps => step(beside, k),
        0 => random.sign() * 0.0,
        k => one * k as f64,
    };
    let mut marks: Vec<F::Mark> = (0..n)
        .map(|_| F::Mark::from_fn(|_| number(random)))
        .collect();
    match random.below(4) {
        0 => marks.sort_by(|a, b| a.as_ref().partial_cmp(b.as_ref()).expect("no NaN")),
        1 => marks.sort_by(|a, b| b.as_ref().partial_cmp(a.as_ref()).expect("no NaN")),
        _ => {}
    }
    let mut list = flat(&marks);
    if random.below(8) != 0 {
        settle::<F>(&mut list);
    }
    for _ in 0..random.pick(&[0, 0, 1, 1, 2]) {
        clash::<F>(random, &mut list);
    }
    list
}
