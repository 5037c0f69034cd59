//! Marks of one position and two pixels, at every entry that takes a list of
//! marks: 18, directly after 7, or after 6 where an entry asks for no number of
//! marks. Each call is held to the oracle, whose test is two loops over all pairs,
//! and to what a case says of itself and the entry's order makes of it. A distance
//! has one mark, and reads none twice.

use compare::families::Proved;
use compare::lists::compare_lent;
use compare::{for_each_family, is_long, junk_bytes, junk_words, sets};
use oracle::book::{Best, Book, Call, Options, State, trial_record};
use oracle::cases::Random;
use oracle::double_cases::{
    self, Doubled, FOUR, SIX, all_but_one, apart, flat, nearly_equal, pairs, spoiled, the_most,
    threes,
};
use oracle::entries::{self, single};
use oracle::family_cases::{Cases, identity};
use oracle::pick_cases::{Bytes, runs};
use oracle::{Form, Numbers, Sheet, Trial, whole};
use proved::{form, pick};

for_each_family!(
    marks_that_stand_twice,
    marks_that_stand_three_times,
    nearly_equal_numbers,
    other_positions,
    the_most_marks,
    random_lists,
    long_random_lists,
    short_lists,
    one_position,
    sets_of_faults,
    not_the_runs_number,
    too_many,
);

// The entries.

/// What of a call is in order, besides its marks.
struct Setting {
    /// The run has ended; it has no winner.
    ended: bool,
    none: bool,
    /// The stop list has the right length, the trial's record the right bytes, and
    /// the lent lists have the places that they need.
    stops: bool,
    record: bool,
    room: bool,
}

const GOOD: Setting = Setting {
    ended: false,
    none: false,
    stops: true,
    record: true,
    room: true,
};

/// An entry by name, the order in which document 02 has it refuse, and the call:
/// what it answers, 0 for what is no refusal.
struct Entry<'a> {
    name: &'static str,
    order: &'static [u32],
    call: Box<dyn Fn() -> u32 + 'a>,
}

impl<'a> Entry<'a> {
    fn new(name: &'static str, order: &'static [u32], call: impl Fn() -> u32 + 'a) -> Self {
        let call = Box::new(call);
        Self { name, order, call }
    }

    /// The first fault in its order that holds, or 0.
    fn first(&self, holds: impl Fn(u32) -> bool) -> u32 {
        let first = self.order.iter().find(|&&number| holds(number));
        first.copied().unwrap_or(0)
    }
}

trait Entries: Proved {
    /// The entries that this family alone has.
    fn others<'a>(marks: &'a [f64], setting: &'a Setting) -> Vec<Entry<'a>>;
}

/// So many places, or one less.
fn places(need: usize, setting: &Setting) -> usize {
    need.saturating_sub(usize::from(!setting.room))
}

/// A call that lends a list, held to the oracle's; tells the refusal or 0.
fn lent<T>(
    room: usize,
    marks: &[f64],
    theirs: impl FnOnce(&mut [f64]) -> Result<T, u32>,
    ours: impl FnOnce(&mut [f64]) -> u32,
) -> u32 {
    let answer = compare_lent(room, &|| format!("{marks:?}"), theirs, ours);
    answer.err().unwrap_or(0)
}

/// The whole run over one good trial, held to the oracle's.
fn whole_run(marks: &[f64], setting: &Setting) -> u32 {
    let n = marks.len() / 4;
    let mut case = Sheet::example();
    case.options.min_inliers = 0;
    case.marks = marks.to_vec();
    case.stops = vec![9; if setting.stops { n + 1 } else { n }];
    case.trials.truncate(1);
    let bytes: Bytes = case.bytes();
    let rooms = [88, places(4 * n, setting)];
    let [mut winner, mut indices] = rooms.map(junk_bytes);
    let number = whole::run(&bytes.inputs(), &mut winner, &mut indices);
    let [mut ours, mut our_indices] = rooms.map(junk_bytes);
    let inputs = [&bytes.options, &bytes.marks, &bytes.stops, &bytes.trials];
    let inputs = inputs.map(Vec::as_slice);
    let told = pick::salghemu_run(inputs, &mut ours, &mut our_indices);
    assert_eq!(told, number, "{marks:?}");
    assert!(ours == winner && our_indices == indices, "{marks:?}");
    number
}

fn collinear(marks: &[f64], side: u32) -> u32 {
    let theirs = entries::collinear(marks, side);
    let told = theirs.map_or_else(|number| number, u32::from);
    let ours = proved::points_are_collinear(marks, side);
    assert_eq!(ours, told, "side {side} of {marks:?}");
    theirs.err().unwrap_or(0)
}

impl Entries for Sheet {
    fn others<'a>(marks: &'a [f64], setting: &'a Setting) -> Vec<Entry<'a>> {
        let n = marks.len() / 4;
        let normalising = move |side| {
            lent(
                places(2 * n, setting),
                marks,
                |lent| entries::normalize(marks, side, lent),
                |lent| proved::normalize_points_2d(marks, side, lent),
            )
        };
        let rows = move || {
            lent(
                places(18 * n, setting),
                marks,
                |lent| entries::rows(marks, lent),
                |lent| proved::dlt_rows(marks, lent),
            )
        };
        let run = || whole_run(marks, setting);
        vec![
            Entry::new("normalising", &[5, 6, 18, 12, 9], move || normalising(0)),
            Entry::new("of pixels", &[5, 6, 18, 12, 9], move || normalising(1)),
            Entry::new("collinear", &[5, 6, 18], || collinear(marks, 0)),
            Entry::new("pixels collinear", &[5, 6, 18], || collinear(marks, 1)),
            Entry::new("rows", &[5, 6, 7, 18, 13, 14, 9], rows),
            Entry::new("whole run", &[5, 6, 7, 18, 8, 9], run),
        ]
    }
}

impl Entries for Form {
    fn others<'a>(marks: &'a [f64], setting: &'a Setting) -> Vec<Entry<'a>> {
        let n = marks.len() / 5;
        let normalising = move || {
            lent(
                places(3 * n, setting),
                marks,
                |lent| entries::normalize_form(marks, lent),
                |lent| form::normalize_points_3d(marks, lent),
            )
        };
        let rows = move || {
            lent(
                places(24 * n, setting),
                marks,
                |lent| entries::rows_form(marks, lent),
                |lent| form::dlt_rows(marks, lent),
            )
        };
        vec![
            Entry::new("normalising", &[5, 6, 18, 12, 9], normalising),
            Entry::new("rows", &[5, 6, 7, 18, 12, 9], rows),
        ]
    }
}

/// A state of a run over n marks that has a winner.
fn state<F: Entries>(n: usize, setting: &Setting) -> State<F> {
    let case = F::example();
    let best = Best {
        count: 1,
        number: 1,
        rms: 0.5,
        model: identity::<F>(),
    };
    let mut book = Book::opened(&case.options);
    (book.read, book.scored) = (1, 1);
    book.winner = Some(best).filter(|_| !setting.none);
    if setting.ended {
        book.bound = 1;
    }
    State {
        family: case.family,
        options: Options {
            min_inliers: 0,
            ..case.options
        },
        n: n as u64,
        book,
    }
}

/// Opening from records and from the types; tells the refusal or 0.
fn opening<F: Entries>(marks: &[f64], stops: &[u32]) -> u32 {
    let case = F::example();
    let expected = State::open(case.family, case.options, marks, stops);
    let number = expected.as_ref().err().copied().unwrap_or(0);
    let mut theirs = junk_words(F::WORDS);
    if let Ok(state) = &expected {
        theirs.copy_from_slice(&state.words());
    }
    let [mut first, mut second] = [0; 2].map(|_| junk_words(F::WORDS));
    let records: [&[u8]; 2] = [&case.options.record(), &case.family.record()];
    let told = [
        F::open(records, marks, stops, &mut first),
        case.family
            .open_options(&case.options, marks, stops, &mut second),
    ];
    assert_eq!(told, [number; 2], "{marks:?}");
    assert!(first == theirs && second == theirs, "{marks:?}");
    number
}

/// A good trial on this state; tells the refusal or 0.
fn trial<F: Entries>(mut state: State<F>, marks: &[f64], stops: &[u32], setting: &Setting) -> u32 {
    let mut record = trial_record(&Trial {
        fit: Some(identity::<F>()),
        refit: None,
    });
    record[0] += u8::from(!setting.record);
    let mut out = junk_words(F::WORDS + 4);
    let words = state.words();
    assert_eq!(F::trial(&words, &record, marks, stops, &mut out), 0);
    let answer = state.trial(&Call {
        record: &record,
        marks,
        stops,
    });
    let expected = [state.words(), answer.words().to_vec()].concat();
    assert_eq!(out, expected, "{marks:?}");
    answer.number()
}

/// The winner's indices; tells the refusal or 0.
fn indices<F: Entries>(state: &State<F>, marks: &[f64], room: usize) -> u32 {
    let expected = state.winner_indices(marks, room);
    let mut ours = vec![u32::MAX; room];
    let told = F::winner_indices(&state.words(), marks, &mut ours);
    let mut theirs = vec![u32::MAX; room];
    match &expected {
        Ok(list) => {
            theirs[..list.len()].copy_from_slice(list);
            assert_eq!(told, list.len() as u64, "{marks:?}");
        }
        Err(number) => assert_eq!(told, (1 << 32) + u64::from(*number), "{marks:?}"),
    }
    assert_eq!(ours, theirs, "{marks:?}");
    expected.err().unwrap_or(0)
}

/// Every entry over these marks.
fn all<'a, F: Entries>(marks: &'a [f64], setting: &'a Setting) -> Vec<Entry<'a>> {
    let n = marks.len() / F::WIDTH;
    let stops = move || vec![9; if setting.stops { n + 1 } else { n }];
    let state = move || state::<F>(n, setting);
    let mut list = F::others(marks, setting);
    list.extend([
        Entry::new("opening", &[5, 6, 7, 18, 8], move || {
            opening::<F>(marks, &stops())
        }),
        Entry::new("trial", &[10, 5, 6, 7, 18, 8, 1], move || {
            trial(state(), marks, &stops(), setting)
        }),
        Entry::new("indices", &[11, 5, 6, 7, 18, 9], move || {
            indices(&state(), marks, places(n, setting))
        }),
    ]);
    list
}

/// With all else in order, every entry answers 7 where it asks for more marks, else
/// 18 where they clash.
fn check<F: Entries>(marks: &[f64], clash: bool) {
    for entry in all::<F>(marks, &GOOD) {
        is_told::<F>(&entry, marks, clash);
    }
}

/// Where neither is told, none is, but that the marks have no spread or lie on a
/// line, at the entries that see it. Which of these it is, or none, isn't asked
/// here: the call itself is held to the oracle's answer.
fn is_told<F: Entries>(entry: &Entry, marks: &[f64], clash: bool) {
    let number = (entry.call)();
    let few = marks.len() / F::WIDTH < F::FEWEST;
    let first = entry.first(|number| (number == 7 && few) || (number == 18 && clash));
    let of_places = [12, 13, 14].contains(&number) && entry.order.contains(&number);
    let (name, about) = (entry.name, &marks[..marks.len().min(60)]);
    assert!(
        number == first || (first == 0 && of_places),
        "{name}: {number}, not {first}, {about:?}"
    );
}

/// The same of long lists, which the oracle's loops take long for: one entry each,
/// in turn.
fn check_long<F: Entries>(lists: impl IntoIterator<Item = Doubled>) {
    for (turn, (marks, clash)) in lists.into_iter().enumerate() {
        let entries = all::<F>(&marks, &GOOD);
        is_told::<F>(&entries[turn % entries.len()], &marks, clash);
    }
}

fn check_all<F: Entries>(lists: Vec<Doubled>) {
    for (marks, clash) in lists {
        check::<F>(&marks, clash);
    }
}

// Lists by hand.

/// Those of docs/DIFFERENCES.md, to which the originals answer something.
#[test]
fn the_smallest_lists() {
    for n in 2..=4 {
        check::<Sheet>(&flat(&FOUR[..n]), true);
    }
    for n in 2..=6 {
        check::<Form>(&flat(&SIX[..n]), true);
    }
}

/// At the ends, next to each other and far apart; of short lists at all places.
/// Around the lengths at which a list is halved unevenly.
fn marks_that_stand_twice<F: Entries>() {
    check_all::<F>(pairs::<F>(&[2, 3, 4, 5, 6, 7, 8]));
    check_all::<F>(pairs::<F>(&[9, 12, 15, 16, 17, 31, 32, 33, 60]));
    check_all::<F>(pairs::<F>(&[63, 64, 65, 100, 127, 128, 129, 333]));
    check_long::<F>(pairs::<F>(&[F::MOST - 1, F::MOST]));
}

fn marks_that_stand_three_times<F: Entries>() {
    check_all::<F>(threes::<F>());
}

/// -0 is 0 at every place, and the double next to a number is another.
fn nearly_equal_numbers<F: Entries>() {
    check_all::<F>(nearly_equal::<F>());
}

/// One coordinate is another, or they are the same in another order.
fn other_positions<F: Entries>() {
    for n in [2, 3, F::FEWEST, 7, 100, 1000] {
        check_all::<F>(all_but_one::<F>(n));
    }
}

fn the_most_marks<F: Entries>() {
    check_long::<F>(the_most::<F>());
}

/// What is known of a short list.
#[derive(Clone, Copy, Debug)]
struct Short {
    n: usize,
    clash: bool,
    /// It has a number that none may have.
    bad: bool,
    /// Its marks are none, or all at one position.
    one: bool,
}

impl Short {
    /// Document 02's order 7, by hand: what an entry tells that asks for so many
    /// marks, or for no number of them; and for points with spread, or not.
    fn told(self, fewest: Option<usize>, spread: bool) -> u32 {
        match self {
            Short { bad: true, .. } => 6,
            Short { n, .. } if fewest.is_some_and(|fewest| n < fewest) => 7,
            Short { clash: true, .. } => 18,
            Short { one: true, .. } if spread => 12,
            _ => 0,
        }
    }
}

/// Short lists of every length to 6: marks apart, and one that stands at every two
/// places, with one pixel and with two. Of none and of one there are no two.
fn short<F: Entries>() -> Vec<(Vec<f64>, Short)> {
    let mut list = Vec::new();
    for n in 0..=6 {
        let pairs = pairs::<F>(&[n]);
        assert_eq!(pairs.len(), 4 * n * n.saturating_sub(1));
        let alone = [(flat(&apart::<F>(n)), false)];
        for (place, (marks, clash)) in alone.into_iter().chain(pairs).enumerate() {
            let one = n < 2 || (n == 2 && place > 0);
            let bad = false;
            list.push((marks, Short { n, clash, bad, one }));
        }
    }
    list
}

fn told_of_short<F: Entries>(marks: &[f64], short: Short) {
    for Entry { name, order, call } in all::<F>(marks, &GOOD) {
        let fewest = order.contains(&7).then_some(F::FEWEST);
        let told = short.told(fewest, order.contains(&12));
        assert_eq!(call(), told, "{name}: {short:?}, {marks:?}");
    }
}

/// Short comes first where an entry asks how many marks there are, doubled second;
/// a bad number at any place is before both.
fn short_lists<F: Entries>() {
    for (marks, short) in short::<F>() {
        told_of_short::<F>(&marks, short);
        for place in 0..marks.len() {
            let marks = spoiled(&marks, place);
            told_of_short::<F>(&marks, Short { bad: true, ..short });
        }
    }
}

/// Marks that are all at one position, from two on, with all pixels unequal, on a
/// line or not, or only one, at any place: 7 while they are few, and then 18, before
/// their line and their spread.
fn one_position<F: Entries>() {
    let last = F::WIDTH - 1;
    for n in (2..=12).chain([100]) {
        let marks = apart::<F>(n);
        let at_one = |mark: &F::Mark, bend: f64| {
            F::Mark::from_fn(|k| match k {
                k if k < F::WIDTH - 2 => 3.0,
                k if k == last => bend * mark.as_ref()[k],
                k => mark.as_ref()[k],
            })
        };
        for bend in [0.0, 1.0] {
            let pixels: Vec<F::Mark> = marks.iter().map(|mark| at_one(mark, bend)).collect();
            check::<F>(&flat(&pixels), true);
        }
        for place in 0..n {
            let mut marks = vec![at_one(&marks[0], 1.0); n];
            check::<F>(&flat(&marks), false);
            marks[place].as_mut()[last] += 1.0;
            check::<F>(&flat(&marks), true);
        }
    }
}

// Random lists.

/// One of n marks, and whether any clash, by the oracle's loops.
fn random_list<F: Entries>(random: &mut Random, n: usize) -> Doubled {
    let marks = double_cases::random::<F>(random, n);
    let clash = single(F::Mark::chunks(&marks).0).is_err();
    (marks, clash)
}

/// Every length from 0 to 60, many marks on few positions.
fn random_lists<F: Entries>() {
    let random = &mut Random::new(81);
    let mut times = [[0; 2]; 61];
    let count = runs(12_000, 50);
    for i in 0..count {
        let (marks, clash) = random_list::<F>(random, i % 61);
        check::<F>(&marks, clash);
        times[i % 61][usize::from(clash)] += 1;
    }
    println!("doubles: {times:?}");
    if is_long(count) {
        let both = |times: &[usize; 2]| times[0] > 0 && times[1] > 0;
        assert!(times[2..].iter().all(both));
        assert!(times[..2].iter().all(|times| times[0] > 0 && times[1] == 0));
    }
}

fn long_random_lists<F: Entries>() {
    let random = &mut Random::new(82);
    let mut times = [0; 2];
    let lists = (0..runs(400, 50)).map(|_| {
        let n = random.from_to(61, F::MOST as i64) as usize;
        let list = random_list::<F>(random, n);
        times[usize::from(list.1)] += 1;
        list
    });
    check_long::<F>(lists);
    println!("doubles, long: {times:?}");
}

// The orders.

/// Every fault that a call may have, in no entry's order.
const FAULTS: [u32; 12] = [10, 11, 5, 6, 7, 18, 13, 14, 12, 8, 1, 9];

/// Marks with these faults.
fn faulty<F: Entries>(bad: &dyn Fn(u32) -> bool) -> Vec<f64> {
    let coordinates = F::WIDTH - 2;
    let n = F::FEWEST + 1 - 2 * usize::from(bad(7));
    let mut marks = apart::<F>(n);
    for mark in &mut marks {
        let mark = mark.as_mut();
        if bad(13) {
            mark[1..coordinates].fill(3.0);
        }
        if bad(14) {
            mark[coordinates] = 3.0;
        }
    }
    if bad(12) {
        marks = vec![marks[0]; n];
    }
    if bad(18) {
        marks[n - 1] = marks[0];
        marks[n - 1].as_mut()[F::WIDTH - 1] += 1.0;
    }
    let mut list = flat(&marks);
    if bad(6) {
        list[F::WIDTH + 1] = f64::NAN;
    }
    list.extend(bad(5).then_some(0.0));
    list
}

/// Every set of faults, at every entry: the first in its order is told. Marks at one
/// position are on a line too.
fn sets_of_faults<F: Entries>() {
    for faults in sets(&FAULTS) {
        let bad = |number: u32| faults.contains(&number);
        let setting = Setting {
            ended: bad(10),
            none: bad(11),
            stops: !bad(8),
            record: !bad(1),
            room: !bad(9),
        };
        let marks = faulty::<F>(&bad);
        let list = F::Mark::chunks(&marks).0;
        assert_eq!(list.len() < F::FEWEST, bad(7), "{faults:?}");
        assert_eq!(single(list).is_err(), bad(18), "{faults:?}");
        for entry in all::<F>(&marks, &setting) {
            let first = entry.first(|k| bad(k) || ([13, 14].contains(&k) && bad(12)));
            assert_eq!((entry.call)(), first, "{}: {faults:?}", entry.name);
        }
    }
}

/// Another number of marks than the run's is 5, whether they clash or not.
fn not_the_runs_number<F: Entries>() {
    for n in [F::FEWEST - 1, F::FEWEST, 9] {
        for (marks, _) in pairs::<F>(&[n]) {
            for other in [n - 1, n + 1] {
                let (state, stops) = (state::<F>(other, &GOOD), vec![9; n + 1]);
                assert_eq!(indices(&state, &marks, n), 5);
                assert_eq!(trial(state, &marks, &stops, &GOOD), 5);
            }
        }
    }
}

/// More than the most marks are 5, though they clash.
fn too_many<F: Entries>() {
    let mut marks = apart::<F>(F::MOST + 1);
    marks[F::MOST] = marks[0];
    marks[F::MOST].as_mut()[F::WIDTH - 1] += 1.0;
    for Entry { name, call, .. } in all::<F>(&flat(&marks), &GOOD) {
        assert_eq!(call(), 5, "{name}");
    }
}
