//! Standing forms: that the original's lines really run, the order's formulas
//! and refusals by example, and the book and `ransac_fit` on a form.

use oracle::book::{Answer, Call, Options, State, trial_of_record, trial_record};
use oracle::cases::step;
use oracle::entries::{distance, normalize_form, rows_form};
use oracle::form_cases::{CUBE, PLAIN, USUAL, camera_traps, cube, refused_traps};
use oracle::{
    Camera, Family, Form, FormMark, Measure, Pose, RansacOptions, Trial, calculate_iterations,
    dlt_rows_3d, normalize_points_3d, ransac_fit, stop_list,
};

/// What a lent list holds before a call.
const BEFORE: f64 = 7.0;

/// X = x, Y = y, Z = z.
const AHEAD: Pose = [1.0, 0.0, 0.0, 0.0, 0.0, 1.0, 0.0, 0.0, 0.0, 0.0, 1.0, 0.0];

// Normalising.

#[test]
fn normalising() {
    let (list, matrix) = normalize_points_3d(&CUBE).expect("spread");
    let sum = CUBE.iter().fold(0.0, |sum, _| sum + 7500f64.sqrt());
    let scale = 3f64.sqrt() / (sum / 8.0);
    assert_eq!(list[1], [50.0 * scale, -50.0 * scale, -50.0 * scale]);
    let moved = -scale * 50.0;
    assert_eq!(matrix[0], [scale, 0.0, 0.0, moved]);
    assert_eq!(matrix[1], [0.0, scale, 0.0, moved]);
    assert_eq!(matrix[2], [0.0, 0.0, scale, moved]);
    assert_eq!(matrix[3], [0.0, 0.0, 0.0, 1.0]);
    assert!(normalize_points_3d(&[]).is_none());
    assert!(normalize_points_3d(&[[1.0; 3]; 6]).is_none());
    // A mean of exactly 2^-52 is none, along any axis.
    for k in 0..3 {
        let mut to = [0.0; 3];
        to[k] = 2f64.powi(-51);
        assert!(normalize_points_3d(&[[0.0; 3], to]).is_none());
        to[k] = step(to[k], 1);
        assert!(normalize_points_3d(&[[0.0; 3], to]).is_some());
    }
}

#[test]
fn normalising_into_a_list() {
    let mut lent = [BEFORE; 26];
    let (list, matrix) = normalize_points_3d(&CUBE).expect("spread");
    assert_eq!(normalize_form(&cube(8), &mut lent), Ok(matrix));
    assert_eq!(lent[..24], *list.as_flattened());
    assert_eq!(lent[24..], [BEFORE; 2]);
    let refused = |marks: &[f64], room: usize| {
        let mut lent = vec![BEFORE; room];
        let refusal = normalize_form(marks, &mut lent).expect_err("a refusal");
        assert_eq!(lent, vec![BEFORE; room]);
        refusal
    };
    // 5, 6, 18, 12, 9; few marks are no refusal here.
    for (marks, number) in refused_traps() {
        assert_eq!(refused(&marks, 0), number);
        assert_eq!(refused(&marks, 30), number);
    }
    assert_eq!(refused(&doubled(), 18), 18);
    assert_eq!(refused(&doubled()[..10], 0), 18);
    assert_eq!(refused(&[], 0), 12);
    assert_eq!(refused(&[1.0; 5], 3), 12);
    assert_eq!(refused(&[1.0; 30], 0), 12);
    assert_eq!(refused(&cube(8), 23), 9);
    assert!(normalize_form(&cube(2), &mut lent).is_ok());
    assert_eq!(refused(&[1.0; 8005], 0), 5);
    assert_eq!(refused(&[1.0; 8000], 0), 12);
}

// Rows.

#[test]
fn rows_in_their_places() {
    let marks: Vec<FormMark> = (0..6)
        .map(|i| {
            let [x, y, z] = CUBE[i];
            [x, y, z, 0.25 * i as f64, -3.0]
        })
        .collect();
    let rows = dlt_rows_3d(&marks).expect("rows");
    assert_eq!(rows.len(), 144);
    let points: Vec<_> = CUBE[..6].to_vec();
    let (list, _) = normalize_points_3d(&points).expect("spread");
    for (i, [x, y, z]) in list.into_iter().enumerate() {
        let [.., u, v] = marks[i];
        let two = &rows[24 * i..24 * i + 24];
        assert_eq!(two[..8], [x, y, z, 1.0, 0.0, 0.0, 0.0, 0.0]);
        assert_eq!(two[8..12], [-u * x, -u * y, -u * z, -u]);
        assert_eq!(two[12..20], [0.0, 0.0, 0.0, 0.0, x, y, z, 1.0]);
        assert_eq!(two[20..], [-v * x, -v * y, -v * z, -v]);
    }
    // The first mark's u is 0 and its x below 0: -u is -0, and (-u)·x is 0.
    assert!(rows[0] < 0.0);
    assert_eq!([rows[8].to_bits(), rows[11].to_bits()], [0, 1 << 63]);
    assert_eq!(rows[4].to_bits(), 0);
}

#[test]
fn rows_into_a_list() {
    let refused = |marks: &[f64], room: usize| {
        let mut lent = vec![BEFORE; room];
        let refusal = rows_form(marks, &mut lent).expect_err("a refusal");
        assert_eq!(lent, vec![BEFORE; room]);
        refusal
    };
    // 5, 6, 7, 18, 12, 9.
    for (marks, number) in refused_traps() {
        assert_eq!(refused(&marks, 0), number);
        assert_eq!(refused(&marks, 300), number);
    }
    assert_eq!(refused(&doubled(), 144), 18);
    assert_eq!(refused(&doubled()[..25], 0), 7);
    assert_eq!(refused(&doubled()[..10], 48), 7);
    assert_eq!(refused(&[], 0), 7);
    assert_eq!(refused(&cube(5), 0), 7);
    assert_eq!(refused(&[1.0; 25], 200), 7);
    assert_eq!(refused(&[1.0; 30], 0), 12);
    assert_eq!(refused(&[1.0; 30], 144), 12);
    assert_eq!(refused(&cube(6), 143), 9);
    assert_eq!(refused(&[1.0; 8005], 0), 5);
    assert_eq!(refused(&[1.0; 8000], 0), 12);
    let mut lent = [BEFORE; 146];
    assert_eq!(rows_form(&cube(6), &mut lent), Ok(()));
    assert_eq!(lent[144..], [BEFORE; 2]);
    assert_eq!(lent[3], 1.0);
    // Points on a line, and on a plane, are no refusal: the source finds that
    // out behind the rows.
    let line: Vec<f64> = (0..6)
        .flat_map(|i| [i.into(), 0.0, 0.0, 1.0, 2.0])
        .collect();
    assert_eq!(rows_form(&line, &mut lent), Ok(()));
}

// The distance.

fn by(camera: Camera) -> Form {
    Form { camera }
}

#[test]
fn pixels() {
    let mark = [50.0, 30.0, 20.0, 0.0, 0.0];
    assert_eq!(Form::divisor(&AHEAD, &mark), 20.0);
    assert_eq!(PLAIN.mapped(&AHEAD, &mark), [2.5, 1.5]);
    let form = by([2.0, 4.0, 10.0, 20.0]);
    assert_eq!(form.mapped(&AHEAD, &mark), [15.0, 26.0]);
    // Each number of a row has its coordinate.
    let rows = [
        2.0, 3.0, 5.0, 7.0, 11.0, 13.0, 17.0, 19.0, 0.0, 0.0, 0.0, 1.0,
    ];
    let mark = [1.0, 10.0, 100.0, 0.0, 0.0];
    assert_eq!(PLAIN.mapped(&rows, &mark), [539.0, 1860.0]);
    let mut rows = [0.0; 12];
    rows[8..].copy_from_slice(&[2.0, 3.0, 5.0, 7.0]);
    assert_eq!(Form::divisor(&rows, &mark), 539.0);
}

#[test]
fn roundings_in_the_orders_order() {
    let ones = [1.0; 5];
    let row = |row: [f64; 4]| {
        let mut h = AHEAD;
        h[..4].copy_from_slice(&row);
        PLAIN.mapped(&h, &ones)[0]
    };
    // ((a + b) + c) + d, where 1e16 + 1 is 1e16.
    assert_eq!(row([1e16, -1e16, 1.0, 1.0]), 2.0);
    assert_eq!(row([1.0, 1e16, -1e16, 1.0]), 1.0);
    assert_eq!(row([1.0, 1.0, 1e16, -1e16]), 2.0);
    assert_eq!(row([1e16, 1.0, 1.0, -1e16]), 0.0);
    // 49·(1 / 49) is below 1, and (49·1) / 49 is 1.
    let (mut h, form) = ([0.0; 12], by([49.0, 1.0, 0.0, 0.0]));
    (h[3], h[11]) = (1.0, 49.0);
    assert_eq!(form.mapped(&h, &ones)[0], step(1.0, -1));
    // The product is rounded before cx is added.
    let form = by([49.0, 1.0, -1.0, 0.0]);
    assert_eq!(form.mapped(&h, &ones)[0], step(1.0, -1) - 1.0);
}

#[test]
fn distances() {
    let mark = [50.0, 30.0, 20.0, 6.5, 4.5];
    assert_eq!(PLAIN.distance(&AHEAD, &mark, 1.0), 5.0);
    let mark = [50.0, 30.0, 20.0, 11.0, 29.0];
    assert_eq!(by([2.0, 4.0, 10.0, 20.0]).distance(&AHEAD, &mark, 1.0), 5.0);
    // The ratio is on v.
    let mark = [0.0, 0.0, 1.0, 4.0, 1.5];
    assert_eq!(PLAIN.distance(&AHEAD, &mark, 2.0), 5.0);
    // Beyond by Z alone: 0 of either sign, below 0, -inf and a NaN.
    for (z, is_beyond) in [
        (1.0, false),
        (5e-324, false),
        (0.0, true),
        (-0.0, true),
        (-5e-324, true),
        (-1.0, true),
    ] {
        let mark = [1.0, 1.0, z, 0.0, 0.0];
        assert_eq!(Form::beyond(&AHEAD, &mark), is_beyond, "{z:e}");
        assert_eq!(
            PLAIN.distance(&AHEAD, &mark, 1.0).is_infinite(),
            is_beyond || z < 1.0
        );
        let measured = PLAIN.measure(&AHEAD, &mark, 1.0);
        assert_eq!(measured == Measure::Beyond, is_beyond);
    }
    let far = [1e9, 1e9, 1e9, 0.0, 0.0];
    for (row, is_beyond) in [
        ([0.0, 0.0, 1e300, 0.0], false),
        ([0.0, 0.0, -1e300, 0.0], true),
        ([1e300, 0.0, -1e300, 0.0], true),
        ([0.0, 1e300, -1e300, f64::MAX], true),
    ] {
        let mut h = AHEAD;
        h[8..].copy_from_slice(&row);
        assert_eq!(Form::beyond(&h, &far), is_beyond, "{row:?}");
    }
}

/// 1, 6, 16, 17, and beyond behind them.
#[test]
fn distances_refuse_in_their_order() {
    let (mark, nan) = ([0.0, 0.0, 1.0, 3.0, 4.0], f64::NAN);
    let told = |h: &Pose, mark: &FormMark, ratio: f64, camera: Camera| {
        distance(&by(camera), h, mark, ratio)
    };
    let bad = [1.0, nan, 0.0, 0.0];
    for place in 0..12 {
        for x in [nan, f64::INFINITY, f64::NEG_INFINITY] {
            let mut h = AHEAD;
            h[place] = x;
            assert_eq!(told(&h, &[nan; 5], 0.0, bad), Err(1));
            assert_eq!(told(&h, &mark, 1.0, USUAL), Err(1));
        }
    }
    for place in 0..5 {
        for (x, accepted) in [
            (1e9, true),
            (-1e9, true),
            (step(1e9, 1), false),
            (nan, false),
        ] {
            let mut mark = mark;
            mark[place] = x;
            assert_eq!(told(&AHEAD, &mark, 1.0, USUAL).is_ok(), accepted);
            if !accepted {
                assert_eq!(told(&AHEAD, &mark, 0.0, bad), Err(6));
            }
        }
    }
    assert_eq!(told(&AHEAD, &mark, 0.0, bad), Err(16));
    assert_eq!(told(&AHEAD, &mark, 1.0, bad), Err(17));
    let behind = [0.0, 0.0, -1.0, 0.0, 0.0];
    assert_eq!(told(&AHEAD, &behind, 1.0, bad), Err(17));
    assert_eq!(told(&AHEAD, &behind, 1.0, USUAL), Ok(Measure::Beyond));
    let answer = told(&AHEAD, &mark, 1.0, PLAIN.camera);
    assert_eq!(answer, Ok(Measure::Distance(5.0)));
    // A model of any size is taken.
    assert!(told(&[f64::MAX; 12], &mark, 1.0, USUAL).is_ok());
}

/// Finite, and of magnitude at most 1e9: any sign, and zeros too.
#[test]
fn cameras() {
    let mut accepted = [0; 2];
    for camera in camera_traps() {
        let all = camera.iter().all(|x| (-1e9..=1e9).contains(x));
        assert_eq!(by(camera).tested(), if all { Ok(()) } else { Err(17) });
        accepted[usize::from(all)] += 1;
    }
    assert!(accepted.iter().all(|&count| count > 20), "{accepted:?}");
    let usual = by(USUAL);
    assert_eq!(usual.record().len(), 32);
    assert_eq!(Form::of_record(&usual.record()), Ok(usual));
    for len in [0, 1, 31, 33, 40, 64] {
        let mut record = usual.record();
        record.resize(len, 0);
        assert_eq!(Form::of_record(&record), Err(1), "{len} bytes");
    }
}

// Runs.

/// Six marks at Z = 1, the last one's pixel three too far down.
const MARKS: [f64; 30] = [
    0.0, 0.0, 1.0, 0.0, 0.0, //
    100.0, 0.0, 1.0, 100.0, 0.0, //
    100.0, 100.0, 1.0, 100.0, 100.0, //
    0.0, 100.0, 1.0, 0.0, 100.0, //
    50.0, 20.0, 1.0, 50.0, 20.0, //
    50.0, 50.0, 1.0, 50.0, 53.0,
];
const STOPS: [u32; 7] = [9, 9, 9, 9, 9, 3, 9];

/// The marks with the second at the first one's position.
fn doubled() -> [f64; 30] {
    let mut marks = MARKS;
    marks.copy_within(..3, 5);
    marks
}

/// The same moved down by three.
fn down() -> Pose {
    let mut h = AHEAD;
    h[7] = 3.0;
    h
}

/// Every mark is behind the camera.
fn behind() -> Pose {
    AHEAD.map(|a| -a)
}

fn options(thresh: f64, min_inliers: u32) -> Options {
    Options {
        thresh,
        confidence: 0.99,
        max_iters: 10,
        min_inliers,
        refit: true,
        ratio: 1.0,
    }
}

fn open(form: Form, options: Options) -> State<Form> {
    State::open(form, options, &MARKS, &STOPS).expect("an accepted opening")
}

fn fit(fit: Pose) -> Trial<Pose> {
    Trial {
        fit: Some(fit),
        refit: None,
    }
}

fn try_one(state: &mut State<Form>, trial: &Trial<Pose>) -> Answer {
    state.trial(&Call {
        record: &trial_record(trial),
        marks: &MARKS,
        stops: &STOPS,
    })
}

/// Which outcome, the count or the refusal, the rms, and how many are beyond.
fn told(answer: Answer) -> (u64, u64, f64, u64) {
    let [which, count, rms, beyond] = answer.words();
    (which, count, f64::from_bits(rms), beyond)
}

#[test]
fn trials() {
    let inf = f64::INFINITY;
    let both = |fit, refit| Trial {
        fit: Some(fit),
        refit: Some(refit),
    };
    for (thresh, min, trial, expected) in [
        (2.0, 5, fit(AHEAD), (4, 5, 0.0, 0)),
        (3.0, 5, fit(AHEAD), (4, 6, 1.5f64.sqrt(), 0)),
        (2.0, 1, fit(down()), (4, 1, 0.0, 0)),
        (2.0, 5, fit(down()), (2, 1, 0.0, 0)),
        (2.0, 1, fit(behind()), (2, 0, 0.0, 6)),
        (2.0, 0, fit(behind()), (4, 0, inf, 6)),
        (2.0, 0, both(AHEAD, behind()), (4, 0, inf, 0)),
        (2.0, 0, both(behind(), AHEAD), (4, 5, 0.0, 6)),
        (2.0, 5, both(AHEAD, down()), (4, 5, 0.0, 0)),
        (2.0, 0, Trial::default(), (1, 0, 0.0, 0)),
    ] {
        let mut state = open(PLAIN, options(thresh, min));
        assert_eq!(told(try_one(&mut state, &trial)), expected);
        assert_eq!(state.book.read, 1);
        if expected.0 == 4 {
            let indices = state.winner_indices(&MARKS, 6).expect("a winner");
            assert_eq!(indices.len() as u64, expected.1);
        }
    }
}

/// The camera is the opening's. A hand-made one is used as it is, and beyond
/// doesn't depend on it.
#[test]
fn trials_by_other_cameras() {
    let (inf, nan) = (f64::INFINITY, f64::NAN);
    for (camera, expected) in [
        ([1.0, 1.0, 0.0, -3.0], (2, 0, 0.0, 0)),
        ([1.0, 1.0, 0.0, 3.0], (2, 1, 0.0, 0)),
        // Five marks are 1 off, and the last 2.
        ([1.0, 1.0, 0.0, 1.0], (4, 6, 1.5f64.sqrt(), 0)),
        // All pixels are at (cx, cy): that of the first mark alone, and of
        // none.
        ([0.0, 0.0, 0.0, 0.0], (2, 1, 0.0, 0)),
        ([0.0, 0.0, 900.0, 0.0], (2, 0, 0.0, 0)),
        ([nan, 1.0, 0.0, 0.0], (2, 0, 0.0, 0)),
        ([1.0, 1.0, 0.0, nan], (2, 0, 0.0, 0)),
        ([inf, 1.0, 0.0, 0.0], (2, 0, 0.0, 0)),
        ([1.0, 1.0, -inf, 0.0], (2, 0, 0.0, 0)),
    ] {
        let mut state = open(PLAIN, options(2.0, 2));
        state.family = by(camera);
        let answer = told(try_one(&mut state, &fit(AHEAD)));
        assert_eq!(answer, expected, "{camera:?}");
        assert_eq!(try_one(&mut state, &fit(behind())).beyond, 6);
        let words = state.words();
        assert_eq!(words.len(), 32);
        let same = |word: u64, x: f64| f64::from_bits(word).to_bits() == x.to_bits() || x.is_nan();
        assert!(
            words[28..]
                .iter()
                .zip(camera)
                .all(|(&word, x)| same(word, x))
        );
    }
}

/// 1 of the options, 1 of the camera, 2, 3, 4, 16, 5, 6, 7, 18, 8, 17.
#[test]
fn openings_refuse_in_their_order() {
    let good = options(2.0, 4);
    let nan = f64::NAN;
    let by_options = |thresh, confidence, max_iters, ratio| Options {
        thresh,
        confidence,
        max_iters,
        ratio,
        ..good
    };
    let bad = by([nan, 0.0, 0.0, 0.0]);
    type Opening<'a> = (Options, &'a [f64], &'a [u32], Form, u32);
    let doubled = doubled();
    // At one x and y, and not at one z.
    let mut raised = doubled;
    raised[7] = 2.0;
    let cases: [Opening; 16] = [
        (by_options(nan, nan, 0, nan), &MARKS[..7], &[], bad, 2),
        (by_options(1.0, nan, 0, nan), &MARKS[..7], &[], bad, 3),
        (by_options(1.0, 0.5, 0, nan), &MARKS[..7], &[], bad, 4),
        (by_options(1.0, 0.5, 1, nan), &MARKS[..7], &[], bad, 16),
        (good, &[nan; 7], &[], bad, 5),
        (good, &[nan; 25], &[], bad, 6),
        (good, &doubled[..10], &[], bad, 7),
        (good, &doubled[..25], &[], bad, 7),
        (good, &doubled, &STOPS[..6], bad, 18),
        (good, &doubled, &STOPS, bad, 18),
        (good, &raised, &STOPS, PLAIN, 0),
        (good, &MARKS[..25], &[], bad, 7),
        (good, &MARKS, &STOPS[..6], bad, 8),
        (good, &MARKS, &STOPS, bad, 17),
        (good, &MARKS, &STOPS, by([1e9, -1e9, 0.0, -0.0]), 0),
        (good, &MARKS, &STOPS, by([step(1e9, 1), 0.0, 0.0, 0.0]), 17),
    ];
    for (options, marks, stops, form, number) in cases {
        let answer = State::open(form, options, marks, stops);
        assert_eq!(answer.err().unwrap_or(0), number, "{options:?}");
        let open = |options: &[u8], camera: &[u8]| {
            let answer = State::<Form>::open_records([options, camera], marks, stops);
            answer.err().unwrap_or(0)
        };
        let records = (options.record(), form.record());
        assert_eq!(open(&records.0, &records.1), number);
        assert_eq!(open(&records.0[..39], &records.1), 1);
        assert_eq!(open(&records.0, &records.1[..31]), 1);
        assert_eq!(open(&records.0, &[]), 1);
    }
    // Of 32 bytes the options have ratio 1.
    let short = good.short_record().expect("ratio 1");
    let opened = State::<Form>::open_records([&short, &PLAIN.record()], &MARKS, &STOPS);
    assert_eq!(
        opened.map(|state| state.words()),
        Ok(open(PLAIN, good).words())
    );
}

#[test]
fn how_many_marks() {
    let all = vec![1.0; 8005];
    let stops = vec![9; 1602];
    for (n, number) in [(0, 7), (5, 7), (6, 0), (1600, 0), (1601, 5)] {
        let opened = State::open(PLAIN, options(2.0, 4), &all[..5 * n], &stops[..n + 1]);
        assert_eq!(opened.err().unwrap_or(0), number, "{n} marks");
    }
}

/// 10, 5, 6, 7, 18, 8, 1, and for the indices 11, 5, 6, 7, 18, 9.
#[test]
fn calls_refuse_in_their_order() {
    let state = open(PLAIN, options(2.0, 4));
    let (good, mut bad) = (trial_record(&fit(AHEAD)), trial_record(&fit(AHEAD)));
    assert_eq!(good.len(), 200);
    bad[0] = 2;
    let mut wide = MARKS;
    wide[29] = 2e9;
    let refused = |mut state: State<Form>, marks: &[f64], stops: &[u32], record: &[u8]| {
        let before = state.words();
        let answer = state.trial(&Call {
            record,
            marks,
            stops,
        });
        assert_eq!(answer.beyond, 0);
        assert_eq!(before, state.words());
        answer.number()
    };
    assert_eq!(refused(state, &[f64::NAN; 25], &[], &bad), 5);
    assert_eq!(refused(state, &wide, &[], &bad), 6);
    assert_eq!(refused(state, &doubled(), &[], &bad), 18);
    let mut five = state;
    five.n = 5;
    assert_eq!(refused(five, &doubled()[..25], &[], &bad), 7);
    assert_eq!(refused(five, &MARKS[..25], &[], &bad), 7);
    assert_eq!(refused(state, &MARKS, &STOPS[..6], &bad), 8);
    assert_eq!(refused(state, &MARKS, &STOPS, &bad), 1);
    // A sheet's record is none of a form's.
    assert_eq!(refused(state, &MARKS, &STOPS, &good[..152]), 1);
    let mut ended = state;
    ended.book.bound = 0;
    assert_eq!(refused(ended, &[f64::NAN; 25], &[], &bad), 10);

    let mut won = state;
    assert_eq!(won.winner_indices(&[f64::NAN; 7], 0), Err(11));
    try_one(&mut won, &fit(AHEAD));
    assert_eq!(won.winner_indices(&[f64::NAN; 25], 0), Err(5));
    assert_eq!(won.winner_indices(&wide, 0), Err(6));
    assert_eq!(won.winner_indices(&doubled(), 0), Err(18));
    assert_eq!(won.winner_indices(&MARKS, 5), Err(9));
    assert_eq!(won.winner_indices(&MARKS, 6), Ok(vec![0, 1, 2, 3, 4]));
    won.n = 5;
    assert_eq!(won.winner_indices(&MARKS[..25], 0), Err(7));
    assert_eq!(won.winner_indices(&doubled()[..25], 0), Err(7));
}

#[test]
fn records_and_words_come_back() {
    let mut state = open(by(USUAL), options(2.0, 0));
    let numbers: Pose = std::array::from_fn(|k| 0.5 + k as f64);
    let trial = Trial {
        fit: Some(numbers),
        refit: Some([-0.0; 12]),
    };
    let record = trial_record(&trial);
    assert_eq!(record[8 + 11 * 8..8 + 12 * 8], 11.5f64.to_le_bytes());
    assert_eq!(record[104 + 8..104 + 16], (-0.0f64).to_le_bytes());
    let again = trial_of_record::<Form>(&record).expect("a record");
    assert_eq!(trial_record(&again), record);
    try_one(&mut state, &fit(numbers));
    let words = state.words();
    assert_eq!(words[11..14], [1, 0, 1]);
    for (k, word) in words[15..27].iter().enumerate() {
        assert_eq!(f64::from_bits(*word), numbers[k]);
    }
    assert_eq!(f64::from_bits(words[27]), 1.0);
    assert_eq!(words[28..], USUAL.map(f64::to_bits));
    assert_eq!(State::<Form>::of_words(&words).words(), words);
}

// The original.

#[test]
fn the_original_on_a_form() {
    let marks: &[FormMark] = MARKS.as_chunks().0;
    let options = RansacOptions::new(2.0)
        .with_max_iters(2)
        .with_min_inliers(1);
    let trials = [fit(down()), fit(AHEAD)];
    let run = ransac_fit(PLAIN, marks, &options, 1.0, &trials);
    let winner = run.winner.expect("a winner");
    assert_eq!((winner.model, winner.number, winner.rms), (AHEAD, 2, 0.0));
    assert_eq!(winner.inliers, [0, 1, 2, 3, 4]);
    // By a camera that has the last mark's pixel and no other's.
    let run = ransac_fit(
        by([1.0, 1.0, 0.0, 3.0]),
        marks,
        &options,
        1.0,
        &trials[1..2].repeat(2),
    );
    assert_eq!(run.winner.expect("a winner").inliers, [5]);
    // It takes six marks.
    let run = ransac_fit(PLAIN, &marks[..5], &options, 1.0, &trials);
    assert!(run.winner.is_none());
    assert_eq!(run.read, 0);
}

/// Of sample size 6: for half of the marks 1 in 64 samples is good.
#[test]
fn the_stop_list() {
    let stops = stop_list::<Form>(0.99, 6);
    assert_eq!(stops[0], u32::MAX);
    assert_eq!(
        stops[3],
        (0.01f64.ln() / (63.0f64 / 64.0).ln()).ceil() as u32
    );
    assert_eq!(stops[6], 1);
    assert!(stops.is_sorted_by(|a, b| a > b));
    let four = calculate_iterations(0.99, 0.5, 4, 0, usize::MAX);
    assert!((stops[3] as usize) > four);
}
