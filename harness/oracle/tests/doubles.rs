//! Marks of one position and two pixels: that the oracle's test says of each case
//! what the case says of itself, what the originals answer for the smallest such
//! lists, which document 02's order 6 has refused, and which answers its order 7
//! changed.

use oracle::book::{Best, Call, Options, State, trial_record};
use oracle::cases::Random;
use oracle::double_cases::{
    Doubled, FOUR, SIX, all_but_one, apart, flat, nearly_equal, pairs, random, spoiled, the_most,
    threes,
};
use oracle::entries::{self, single};
use oracle::family_cases::{Cases, clash, identity, settle};
use oracle::form_cases::PLAIN;
use oracle::{
    Family, Form, FormMark, Mark, Numbers, Point, Point3, RansacOptions, Run, Sheet, Trial,
    dlt_rows, dlt_rows_3d, normalize_points_2d, normalize_points_3d, points_are_collinear,
    ransac_fit, whole,
};
use std::collections::BTreeSet;
use std::error::Error;

fn single_flat<F: Family>(marks: &[f64]) -> Result<(), u32> {
    single(F::Mark::chunks(marks).0)
}

fn as_told<F: Family>(lists: Vec<Doubled>) {
    let mut times = [0; 2];
    for (marks, clash) in lists {
        let answer = single_flat::<F>(&marks);
        let about = &marks[..marks.len().min(100)];
        assert_eq!(answer, if clash { Err(18) } else { Ok(()) }, "{about:?}");
        times[usize::from(clash)] += 1;
    }
    assert!(times.iter().all(|&times| times > 0), "{times:?}");
}

fn cases_are_as_they_say<F: Cases>() {
    as_told::<F>(pairs::<F>(&[2, 3, 4, 5, 6, 7, 8, 60, F::MOST]));
    as_told::<F>(threes::<F>());
    as_told::<F>(nearly_equal::<F>());
    as_told::<F>(all_but_one::<F>(F::FEWEST));
    as_told::<F>(all_but_one::<F>(200));
    as_told::<F>(the_most::<F>());
}

#[test]
fn cases_of_sheets() {
    cases_are_as_they_say::<Sheet>();
}

#[test]
fn cases_of_forms() {
    cases_are_as_they_say::<Form>();
}

/// Settled lists have no clash, and keep their lengths and positions; one that
/// is made to have one has it.
fn made_and_settled<F: Cases>() {
    let rng = &mut Random::new(80);
    let mut times = [0; 2];
    for i in 0..20_000 {
        let n = 2 + i % 40;
        let mut marks = random::<F>(rng, n);
        times[usize::from(single_flat::<F>(&marks).is_err())] += 1;
        let before = marks.clone();
        settle::<F>(&mut marks);
        assert_eq!(single_flat::<F>(&marks), Ok(()));
        let positions = |list: &[f64]| -> Vec<f64> {
            let marks = list.chunks_exact(F::WIDTH);
            marks
                .flat_map(|mark| &mark[..F::WIDTH - 2])
                .copied()
                .collect()
        };
        assert_eq!(positions(&marks), positions(&before));
        assert_eq!(single_flat::<F>(&F::few_marks(rng, i, n)), Ok(()));
        clash::<F>(rng, &mut marks);
        assert_eq!(single_flat::<F>(&marks), Err(18), "{marks:?}");
    }
    assert!(times.iter().all(|&times| times > 2_000), "{times:?}");
}

#[test]
fn made_and_settled_sheets() {
    made_and_settled::<Sheet>();
}

#[test]
fn made_and_settled_forms() {
    made_and_settled::<Form>();
}

// What the originals answer: docs/DIFFERENCES.md has these lists.

fn sides(marks: &[Mark]) -> [Vec<Point>; 2] {
    [0, 2].map(|k| marks.iter().map(|m| [m[k], m[k + 1]]).collect())
}

fn world(marks: &[FormMark]) -> Vec<Point3> {
    marks.iter().map(|&[x, y, z, ..]| [x, y, z]).collect()
}

/// Two marks already show it: the pixels have spread, the one position has none,
/// and two points aren't on a line.
#[test]
fn normalising_and_lines() {
    let two = &FOUR[..2];
    assert_eq!(single(two), Err(18));
    let [sheet, pixel] = sides(two);
    assert!(normalize_points_2d(&sheet).is_none());
    let (points, matrix) = normalize_points_2d(&pixel).expect("spread");
    let (half, scale) = (1.414_213_562_373_095_1, 2.828_427_124_746_190_3);
    assert_eq!(points, [[-half, 0.0], [half, 0.0]]);
    assert_eq!(matrix[0], [scale, 0.0, -half]);
    assert!(!points_are_collinear(&sheet) && !points_are_collinear(&pixel));
    // With a third the sheet's side has spread too, and all are on a line.
    let [sheet, pixel] = sides(&FOUR[..3]);
    assert!(normalize_points_2d(&sheet).is_some());
    assert!(points_are_collinear(&sheet) && points_are_collinear(&pixel));
}

#[test]
fn normalising_forms() {
    assert_eq!(single(&SIX[..2]), Err(18));
    assert!(normalize_points_3d(&world(&SIX[..2])).is_none());
    let (points, _) = normalize_points_3d(&world(&SIX[..3])).expect("spread");
    let [x, far] = [-1.299_038_105_676_657_8, 2.598_076_211_353_316];
    assert_eq!(points, [[x, 0.0, 0.0], [x, 0.0, 0.0], [far, 0.0, 0.0]]);
}

/// The fewest marks that have rows, and how many numbers these are. Of shorter lists
/// the original says that they are, and that is told before 18.
fn fewest_with_rows<F: Asking, E: Error>(
    marks: &[F::Mark],
    numbers: usize,
    original: impl Fn(&[F::Mark]) -> Result<Vec<f64>, E>,
) {
    assert_eq!(single(marks), Err(18));
    assert_eq!(original(marks).expect("rows").len(), numbers);
    assert_eq!(F::rows(&flat(marks)), 18);
    let few = format!("InsufficientData {{ need: {}", marks.len());
    for n in 2..marks.len() {
        let error = original(&marks[..n]).expect_err("few").to_string();
        assert!(error.contains(&few), "{error}");
        assert_eq!(F::rows(&flat(&marks[..n])), 7);
    }
}

#[test]
fn rows() {
    fewest_with_rows::<Sheet, _>(&FOUR, 72, dlt_rows);
    fewest_with_rows::<Form, _>(&SIX, 144, dlt_rows_3d);
}

/// Marks all at one position: the originals see the line, or that there is no
/// spread, and 18 is told before.
#[test]
fn rows_at_one_position() {
    for n in 4..=9 {
        let sheet: Vec<Mark> = apart::<Sheet>(n)
            .iter()
            .map(|&[.., u, v]| [3.0, 3.0, u, v])
            .collect();
        let error = dlt_rows(&sheet).expect_err("a line").to_string();
        assert!(error.contains("source points are collinear"), "{error}");
        let told = entries::rows(&flat(&sheet), &mut vec![0.0; 18 * n]);
        assert_eq!(told, Err(18));
        let one = flat(&vec![sheet[0]; n]);
        assert_eq!(entries::rows(&one, &mut vec![0.0; 18 * n]), Err(13));
    }
    for n in 6..=9 {
        let form: Vec<FormMark> = apart::<Form>(n)
            .iter()
            .map(|&[.., u, v]| [3.0, 3.0, 3.0, u, v])
            .collect();
        assert!(dlt_rows_3d(&form).is_err());
        let told = entries::rows_form(&flat(&form), &mut vec![0.0; 24 * n]);
        assert_eq!(told, Err(18));
        let one = flat(&vec![form[0]; n]);
        assert_eq!(entries::rows_form(&one, &mut vec![0.0; 24 * n]), Err(12));
    }
}

fn tries_nothing<M>(run: &Run<M>) -> bool {
    run.winner.is_none() && run.read == 0
}

/// The fewest marks that are tried: both of one position count, though one is off
/// by a pixel.
#[test]
fn runs() {
    let options = RansacOptions::new(2.0)
        .with_max_iters(1)
        .with_min_inliers(1);
    let trial = [fitted(identity::<Sheet>())];
    let run = |marks| ransac_fit(Sheet, marks, &options, 1.0, &trial);
    let winner = run(&FOUR).winner.expect("a winner");
    assert_eq!((winner.inliers, winner.rms), (vec![0, 1, 2, 3], 0.5));
    assert!((2..4).all(|n| tries_nothing(&run(&FOUR[..n]))));
    let opened = |n: usize| opening::<Sheet>(&flat(&FOUR[..n]));
    assert_eq!([2, 3, 4].map(opened), [7, 7, 18]);
    let trial = [fitted(identity::<Form>())];
    let run = |marks| ransac_fit(PLAIN, marks, &options, 1.0, &trial);
    let winner = run(&SIX).winner.expect("a winner");
    assert_eq!(winner.inliers, [0, 1, 2, 3, 4, 5]);
    assert_eq!(winner.rms, (1.0f64 / 6.0).sqrt());
    assert!((2..6).all(|n| tries_nothing(&run(&SIX[..n]))));
    let opened = |n: usize| opening::<Form>(&flat(&SIX[..n]));
    assert_eq!([2, 3, 4, 5, 6].map(opened), [7, 7, 7, 7, 18]);
}

/// What an opening tells of these marks, all else being in order.
fn opening<F: Cases>(marks: &[f64]) -> u32 {
    let case = F::example();
    let stops = vec![9; marks.len() / F::WIDTH + 1];
    number(State::open(case.family, case.options, marks, &stops))
}

fn fitted<M>(model: M) -> Trial<M> {
    Trial {
        fit: Some(model),
        refit: None,
    }
}

// Which answers document 02's order 7 changed.

/// What all entries that ask how many marks there are told before it of a list of
/// whole marks: 6, 18, 7, or of that nothing.
fn before(fewest: usize, marks: &[f64], width: usize) -> Option<u32> {
    let list: Vec<&[f64]> = marks.chunks_exact(width).collect();
    if !marks.iter().all(|x| x.abs() <= 1e9) {
        return Some(6);
    }
    for (place, a) in list.iter().enumerate() {
        for b in &list[..place] {
            let (at, pixel) = a.split_at(width - 2);
            let (other_at, other_pixel) = b.split_at(width - 2);
            if at == other_at && pixel != other_pixel {
                return Some(18);
            }
        }
    }
    (list.len() < fewest).then_some(7)
}

/// What a family's rows tell, and its whole run, which forms don't have: the
/// refusal or 0.
trait Asking: Cases {
    fn rows(marks: &[f64]) -> u32;
    fn run(_options: &Options, _marks: &[f64]) -> Option<u32> {
        None
    }
}

fn number<T>(answer: Result<T, u32>) -> u32 {
    answer.err().unwrap_or(0)
}

impl Asking for Sheet {
    fn rows(marks: &[f64]) -> u32 {
        number(entries::rows(marks, &mut [0.0; 108]))
    }

    fn run(options: &Options, marks: &[f64]) -> Option<u32> {
        let mut case = Self::example();
        (case.options, case.marks) = (*options, marks.to_vec());
        case.stops = vec![9; marks.len() / 4 + 1];
        let bytes = case.bytes();
        Some(whole::run(&bytes.inputs(), &mut [0; 88], &mut [0; 24]))
    }
}

impl Asking for Form {
    fn rows(marks: &[f64]) -> u32 {
        number(entries::rows_form(marks, &mut [0.0; 144]))
    }
}

/// A state of a run over n marks with a winner.
fn won<F: Cases>(options: Options, n: usize) -> State<F> {
    let case = F::example();
    let opened = State::open(case.family, options, &case.marks, &case.stops);
    let mut state = opened.expect("an opening");
    state.n = n as u64;
    state.book.winner = Some(Best {
        count: 1,
        number: 1,
        rms: 0.5,
        model: identity::<F>(),
    });
    state
}

/// Each entry that asks how many marks there are, by name: the number of a fault in
/// front of the marks, 0 for none, and what it tells.
fn all_told<F: Asking>(marks: &[f64]) -> Vec<(&'static str, u32, u32)> {
    let n = marks.len() / F::WIDTH;
    let stops = vec![9; n + 1];
    let case = F::example();
    let good = Options {
        min_inliers: 0,
        max_iters: 9,
        ..case.options
    };
    let mut list = vec![("rows", 0, F::rows(marks))];
    let faulty = [
        (0, good),
        (
            2,
            Options {
                thresh: 0.0,
                ..good
            },
        ),
        (
            3,
            Options {
                confidence: 1.0,
                ..good
            },
        ),
        (
            4,
            Options {
                max_iters: 0,
                ..good
            },
        ),
        (16, Options { ratio: 0.0, ..good }),
    ];
    for (front, options) in faulty {
        let opened = State::open(case.family, options, marks, &stops);
        list.push(("opening", front, number(opened)));
        if let Some(told) = F::run(&options, marks) {
            list.push(("whole run", front, told));
        }
    }
    let records: [&[u8]; 2] = [&good.record(), &case.family.record()];
    let opened = State::<F>::open_records(records, marks, &stops);
    list.push(("opening from records", 0, number(opened)));
    let cut = [&records[0][1..], records[1]];
    let opened = State::<F>::open_records(cut, marks, &stops);
    list.push(("opening from records", 1, number(opened)));
    let state = won::<F>(good, n);
    let record = trial_record(&fitted(identity::<F>()));
    let call = Call {
        record: &record,
        marks,
        stops: &stops,
    };
    let (mut first, mut ended, mut other, mut none) = (state, state, state, state);
    (ended.book.bound, other.n, none.book.winner) = (0, n as u64 + 1, None);
    list.push(("trial", 0, first.trial(&call).number()));
    list.push(("trial", 10, ended.trial(&call).number()));
    list.push(("trial", 5, other.trial(&call).number()));
    list.push(("indices", 0, number(state.winner_indices(marks, n))));
    list.push(("indices", 11, number(none.winner_indices(marks, n))));
    list
}

/// Every length to 6, with a clash at every two places and without, and with a bad
/// number at every place: an answer differs from before where the list is short and
/// clashes and nothing in front is wrong, and nowhere else.
fn exactly_these_change<F: Asking>(changing: &[usize]) {
    let mut changed = BTreeSet::new();
    let lists = (0..=6).flat_map(|n| {
        let alone = (flat(&apart::<F>(n)), false);
        [alone].into_iter().chain(pairs::<F>(&[n]))
    });
    for (marks, clash) in lists {
        let n = marks.len() / F::WIDTH;
        let bads = (0..marks.len()).map(Some).chain([None]);
        for bad in bads {
            let marks = bad.map_or_else(|| marks.clone(), |place| spoiled(&marks, place));
            for (name, front, now) in all_told::<F>(&marks) {
                let old = match front {
                    0 => before(F::FEWEST, &marks, F::WIDTH).unwrap_or(0),
                    _ => front,
                };
                let changes = front == 0 && bad.is_none() && clash && n < F::FEWEST;
                let expected = if changes { (18, 7) } else { (old, old) };
                assert_eq!((old, now), expected, "{name} behind {front}: {marks:?}");
                if old != now {
                    changed.insert((n, name));
                }
            }
        }
    }
    // At every entry, and at these lengths.
    let names: BTreeSet<&str> = all_told::<F>(&[]).iter().map(|told| told.0).collect();
    let each = changing
        .iter()
        .flat_map(|&n| names.iter().map(move |&name| (n, name)));
    assert_eq!(changed, each.collect());
}

#[test]
fn of_sheets_two_and_three_change() {
    exactly_these_change::<Sheet>(&[2, 3]);
}

#[test]
fn of_forms_two_to_five_change() {
    exactly_these_change::<Form>(&[2, 3, 4, 5]);
}
