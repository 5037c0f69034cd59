//! The tests of a run's marks, by an opening that is accepted: the shape, the range
//! of every number, that the marks are enough, and that no two have one position and
//! two pixels. Beside plain Rust doing the same, which sorts places by std's unstable
//! sort and looks at neighbours.
//!
//! The opening writes a state besides, of some thirty words. The Rust's list of
//! places is allocated before the time runs.

use crate::cases::Timed;
use crate::{ROUNDS, median, nanoseconds};
use oracle::book::Options;
use oracle::cases::Random;
use oracle::family_cases::clash;
use oracle::{Family, Form, Numbers, Sheet};
use std::cmp::Ordering;
use std::hint::black_box;

/// The same tests: 0, or the refusal.
#[inline(never)]
fn plain<F: Timed>(marks: &[f64], places: &mut Vec<u16>) -> u32 {
    let (list, rest) = F::Mark::chunks(marks);
    if !rest.is_empty() || marks.len() > 8000 {
        return 5;
    }
    if !marks.iter().all(|x| x.abs() <= 1e9) {
        return 6;
    }
    if list.len() < F::FEWEST {
        return 7;
    }
    let sides = |place: u16| list[place as usize].as_ref().split_at(F::WIDTH - 2);
    let by_position = |p: &u16, q: &u16| sides(*p).0.partial_cmp(sides(*q).0);
    places.clear();
    places.extend(0..list.len() as u16);
    places.sort_unstable_by(|p, q| by_position(p, q).unwrap_or(Ordering::Equal));
    let clashes = |two: &[u16]| {
        let [(at, pixel), (other, other_pixel)] = [sides(two[0]), sides(two[1])];
        at == other && pixel != other_pixel
    };
    18 * u32::from(places.windows(2).any(clashes))
}

/// In which order positions stand. Ascending is by x and then by y, as the Rust here
/// compares. Row by row, on a grid with no negative number, they ascend by y and then
/// by x, and so by the proved ranks; and at the end of such rows two are exchanged,
/// so that the look for ranks that descend finds none before the last two.
const ORDERS: [&str; 7] = [
    "no order",
    "ascending",
    "descending",
    "all equal",
    "a grid",
    "row by row",
    "last two fall",
];

/// Marks on a grid of 45 by 45: the one at place i at the node of its number.
fn on_grid<F: Timed>(list: &mut [F::Mark], node: impl Fn(usize) -> usize) {
    for (i, mark) in list.iter_mut().enumerate() {
        let at = &mut mark.as_mut()[..F::WIDTH - 2];
        at.fill(0.0);
        (at[0], at[1]) = ((node(i) % 45) as f64, (node(i) / 45) as f64);
    }
}

/// n marks; a grid in no order.
fn marks<F: Timed>(n: usize, order: &str) -> Vec<f64> {
    let random = &mut Random::new(74);
    let one = |random: &mut Random| F::Mark::from_fn(|_| 1000.0 * random.unit());
    let mut list: Vec<F::Mark> = (0..n).map(|_| one(random)).collect();
    let up = |a: &F::Mark, b: &F::Mark| a.as_ref().partial_cmp(b.as_ref()).expect("no NaN");
    match order {
        "ascending" => list.sort_by(up),
        "descending" => list.sort_by(|a, b| up(b, a)),
        "all equal" => list = vec![list[0]; n],
        "a grid" => on_grid::<F>(&mut list, |i| i * 1103 % (45 * 45)),
        "row by row" => on_grid::<F>(&mut list, |i| i),
        "last two fall" => {
            on_grid::<F>(&mut list, |i| i);
            list.swap(n - 2, n - 1);
        }
        _ => {}
    }
    let numbers = list.iter().flat_map(|mark| mark.as_ref());
    numbers.copied().collect()
}

/// The opening over the marks: 0, or the refusal.
fn opened<F: Timed>(family: &F, marks: &[f64], stops: &[u32], state: &mut [u64]) -> u32 {
    family.open_options(&Options::new(2.0), marks, stops, state)
}

/// Microseconds of the two in turn, with the same answer.
fn row<F: Timed>(n: usize, order: &str) {
    let (family, _) = F::through();
    let (mut list, stops) = (marks::<F>(n, order), vec![9; n + 1]);
    let (mut state, mut places) = (vec![0; F::WORDS], Vec::with_capacity(n));
    let both = |list: &[f64], state: &mut [u64], places: &mut Vec<u16>| {
        let told = opened(&family, list, &stops, state);
        assert_eq!(told, plain::<F>(list, places), "{n} {order}");
        told
    };
    assert_eq!(both(&list, &mut state, &mut places), 0);
    let good = list.clone();
    clash::<F>(&mut Random::new(75), &mut list);
    assert_eq!(both(&list, &mut state, &mut places), 18);

    let passes = (20_000 / n).max(20);
    let mut times = [const { Vec::new() }; 2];
    for _ in 0..ROUNDS {
        times[0].push(nanoseconds(passes, || {
            black_box(opened(&family, black_box(&good), &stops, &mut state));
        }));
        times[1].push(nanoseconds(passes, || {
            black_box(plain::<F>(black_box(&good), &mut places));
        }));
    }
    let [p, o] = times.map(median);
    println!(
        "{n:<6} {order:<13} {:>10.2} {:>9.2} {:>15.1} {:>13.1} {:>12.2}",
        p / 1e3,
        o / 1e3,
        p / n as f64,
        o / n as f64,
        p / o
    );
}

fn rows<F: Timed>(title: &str, counts: &[usize]) {
    println!("the tests of the marks of {title}, by an opening");
    println!(
        "marks  positions      proved us   Rust us  proved ns/mark  Rust ns/mark  proved/Rust"
    );
    for &n in counts {
        for order in ORDERS {
            row::<F>(n, order);
        }
    }
}

pub fn run() {
    rows::<Sheet>("a sheet", &[4, 50, 500, Sheet::MOST]);
    println!();
    rows::<Form>("a form", &[Form::MOST]);
}
