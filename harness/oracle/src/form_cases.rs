//! Standing forms to compare on: lists of marks, cameras, and models with a
//! mark, by hand and random.

use crate::cases::{NANS, Random, step};
use crate::double_cases;
use crate::family_cases::{Cases, identity, near_identity, settle, settle_or_part};
use crate::pick_cases::Case;
use crate::sheet_cases::{self, KINDS, side};
use crate::writing_cases::limits;
use crate::{Camera, Form, FormMark, Mark, Pose, Sheet, Trial};

// Lists of marks.

/// A sheet's list with a third coordinate for each mark; a cut-off mark at the
/// end stays as it is.
fn raised(marks: &[f64], mut z: impl FnMut(usize, &Mark) -> f64) -> Vec<f64> {
    let (list, rest) = marks.as_chunks();
    let marks = list.iter().enumerate();
    let mut raised: Vec<f64> = marks
        .flat_map(|(i, m)| [m[0], m[1], z(i, m), m[2], m[3]])
        .collect();
    raised.extend(rest);
    raised
}

/// Points with pixels that differ from one to the next; the same point has the
/// same pixel.
fn with_pixels(points: &[[f64; 3]]) -> Vec<f64> {
    let marks = points.iter().enumerate();
    let mut marks: Vec<f64> = marks
        .flat_map(|(i, &[x, y, z])| [x, y, z, 10.0 * i as f64, -3.0])
        .collect();
    settle::<Form>(&mut marks);
    marks
}

/// The corners of a cube, in any order.
pub const CUBE: [[f64; 3]; 8] = [
    [0.0, 0.0, 0.0],
    [100.0, 0.0, 0.0],
    [100.0, 100.0, 0.0],
    [0.0, 100.0, 0.0],
    [0.0, 0.0, 100.0],
    [100.0, 0.0, 100.0],
    [100.0, 100.0, 100.0],
    [0.0, 100.0, 100.0],
];

/// The cube's first n corners as marks.
pub fn cube(n: usize) -> Vec<f64> {
    with_pixels(&CUBE[..n])
}

/// Around no spread, and minus zeros.
fn spread_traps() -> Vec<Vec<f64>> {
    let double = 2.0 * f64::EPSILON;
    let apart = |to: [f64; 3]| with_pixels(&[[0.0; 3], to]);
    let mut list = vec![
        // Equal points, some by rounding with spread.
        with_pixels(&[[1.0; 3]; 6]),
        with_pixels(&[[2.7; 3]; 6]),
        with_pixels(&[[0.1, 0.7, -2.7]; 7]),
        with_pixels(&[[-0.0; 3]; 6]),
        with_pixels(&[[-0.0, 1.0, -0.0], [-0.0, 3.0, -0.0]]),
        with_pixels(&[[1e9, -1e9, 1e9]; 6]),
        with_pixels(&[[5e-324, -5e-324, 0.0]; 6]),
    ];
    // A mean distance of exactly 2^-52, and its neighbours, along each axis.
    for k in 0..3 {
        for by in -1..=1 {
            let mut to = [0.0; 3];
            to[k] = step(double, by);
            list.push(apart(to));
            // Three at each end, for the rows.
            list.push(with_pixels(&[[0.0; 3], to, [0.0; 3], to, [0.0; 3], to]));
        }
    }
    list
}

/// Lists that 5 or 6 refuses, and which of the two.
pub fn refused_traps() -> Vec<(Vec<f64>, u32)> {
    let over = step(1e9, 1);
    let mut list = Vec::new();
    for len in [1, 4, 6, 9, 29, 31, 39] {
        list.push((cube(8)[..len].to_vec(), 5));
    }
    // 5 comes before 6.
    list.push((vec![f64::NAN; 29], 5));
    let mut damaged = |mut marks: Vec<f64>, place: usize, bad: f64| {
        marks[place] = bad;
        list.push((marks, 6));
    };
    for place in 0..5 {
        damaged(cube(8), place, 2e9);
        damaged(cube(8), 25 + place, f64::NAN);
    }
    damaged(cube(6), 2, over);
    damaged(cube(6), 29, -over);
    damaged(cube(6), 12, f64::NEG_INFINITY);
    damaged(cube(6), 17, f64::INFINITY);
    // 6 comes before 7 and 12.
    damaged(cube(5), 24, f64::MAX);
    damaged(with_pixels(&[[1.0; 3]; 6]), 27, -2e9);
    list
}

/// Long lists: the most marks there may be, and more.
fn long_traps() -> Vec<Vec<f64>> {
    let random = &mut Random::new(19);
    let spread = Form::few_marks(random, 0, 1600);
    let mut bad_last = spread.clone();
    bad_last[7999] = f64::NAN;
    let mut bad_first = [spread.as_slice(), &[0.0; 5]].concat();
    bad_first[0] = f64::NAN;
    vec![
        bad_last,
        bad_first,
        [spread.as_slice(), &[0.0]].concat(),
        [spread.as_slice(), &[0.0; 5]].concat(),
        spread[..7999].to_vec(),
        spread[..7995].to_vec(),
        spread,
        Form::few_marks(random, 1, 1600),
        Form::few_marks(random, 6, 1600),
        with_pixels(&[[0.1, 0.7, 0.3]; 1600]),
        with_pixels(&[[1e9, -1e9, 1e9]; 1600]),
    ]
}

/// All of these, and the sheet's own with a third coordinate of several kinds.
pub fn traps() -> Vec<Vec<f64>> {
    let mut list: Vec<Vec<f64>> = (0..=8).map(cube).collect();
    list.extend(spread_traps());
    list.extend(refused_traps().into_iter().map(|(marks, _)| marks));
    list.extend(long_traps());
    for marks in sheet_cases::mark_traps() {
        // Twice, since few of them have six marks.
        let twice = [marks.as_slice(), &marks].concat();
        for marks in [marks, twice] {
            list.push(raised(&marks, |_, _| 0.0));
            list.push(raised(&marks, |_, m| m[0]));
            list.push(raised(&marks, |i, m| if i < 4 { -m[1] } else { 1.0 }));
        }
    }
    list
}

/// With those in which marks clash, or nearly.
pub fn all_traps() -> Vec<Vec<f64>> {
    [traps(), double_cases::short::<Form>()].concat()
}

// Cameras.

/// Each number at which a test turns at each place of a usual camera, and with
/// its opposite at another.
pub fn camera_traps() -> Vec<Camera> {
    let mut list = Vec::new();
    for x in limits() {
        for place in 0..4 {
            let mut camera = USUAL;
            camera[place] = x;
            list.push(camera);
            camera[3 - place] = -x;
            list.push(camera);
        }
    }
    list
}

/// A camera of whole numbers.
pub const USUAL: Camera = [800.0, 810.0, 640.0, 480.0];

/// One that has X / Z and Y / Z as the pixel.
pub const PLAIN: Form = Form {
    camera: [1.0, 1.0, 0.0, 0.0],
};

/// A camera that isn't accepted, often for being just outside.
pub fn refused_camera(random: &mut Random) -> Camera {
    let mut camera = Form::accepted(random).camera;
    let nan = f64::from_bits(random.pick(&NANS));
    let over = random.pick(&[step(1e9, 1), 2e9, f64::MAX, f64::INFINITY]);
    for _ in 0..random.from_to(1, 2) {
        camera[random.below(4) as usize] = random.pick(&[nan, over, -over]);
    }
    camera
}

/// The rotation by a quaternion of any four numbers, as rows.
fn rotation(random: &mut Random) -> [[f64; 3]; 3] {
    let q = [0; 4].map(|_| random.unit() - 0.5);
    let size: f64 = q.iter().map(|a| a * a).sum();
    let [w, x, y, z] = q.map(|a| a / size.sqrt());
    [
        [
            1.0 - 2.0 * (y * y + z * z),
            2.0 * (x * y - w * z),
            2.0 * (x * z + w * y),
        ],
        [
            2.0 * (x * y + w * z),
            1.0 - 2.0 * (x * x + z * z),
            2.0 * (y * z - w * x),
        ],
        [
            2.0 * (x * z - w * y),
            2.0 * (y * z + w * x),
            1.0 - 2.0 * (x * x + y * y),
        ],
    ]
}

/// A pose that has points of such a reach in depth; now and then some of them
/// are behind the camera.
fn pose(random: &mut Random, reach: f64) -> Pose {
    let rows = rotation(random);
    let nearest = random.pick(&[1.8, 1.8, 1.8, 0.2]);
    let moved = [
        0.4 * reach * (random.unit() - 0.5),
        0.4 * reach * (random.unit() - 0.5),
        reach * (nearest + 3.0 * random.unit()),
    ];
    std::array::from_fn(|k| match k % 4 {
        3 => moved[k / 4],
        place => rows[k / 4][place],
    })
}

impl Cases for Form {
    /// The sheet's square at any depth, since Z is 1, with a sixth mark that is
    /// off too, and its trials.
    fn example() -> Case<Self> {
        let sheet = Sheet::example();
        let square = [sheet.marks.as_slice(), &[20.0, 30.0, 20.0, 33.0]].concat();
        let mut down = identity::<Self>();
        down[7] = 3.0;
        let trials = [
            Some(identity::<Self>()),
            None,
            Some(down),
            Some(identity::<Self>()),
        ];
        Case {
            family: PLAIN,
            options: sheet.options,
            marks: raised(&square, |i, _| 10.0 * i as f64),
            stops: vec![9, 9, 9, 9, 3, 9, 9],
            trials: trials.map(|fit| Trial { fit, refit: None }).to_vec(),
        }
    }

    /// A sheet's marks with a third coordinate: of the same kind, of another,
    /// x again, or one for all. Marks of one x and y may have two pixels then.
    fn few_marks(random: &mut Random, i: usize, n: usize) -> Vec<f64> {
        let flat = sheet_cases::any_marks(random, i, n);
        let other = random.below(KINDS as u64) as usize;
        let one = random.pick(&[0.0, -0.0, 1.0, 0.1, 1e9]);
        let way = random.below(8);
        let deep = side(random, if way == 0 { other } else { i }, n);
        let mut marks = raised(&flat, |k, m| match way {
            1 => m[0],
            2 => one,
            _ => deep[k][0],
        });
        settle_or_part::<Self>(random, &mut marks);
        marks
    }

    /// One that keeps whole numbers whole, one as they are built, one at the
    /// limits, one of any size.
    fn accepted(random: &mut Random) -> Self {
        let any = |random: &mut Random| random.sign() * random.sized(0, 1051);
        let camera = match random.below(8) {
            0..=2 => {
                let [fx, fy] = [0; 2].map(|_| random.pick(&[1.0, 1.0, 1.0, 2.0, 0.5, -1.0]));
                let [cx, cy] = [0; 2].map(|_| random.pick(&[0.0, -0.0, 320.0, -7.0]));
                [fx, fy, cx, cy]
            }
            3..=5 => {
                let fx = 500.0 + 2000.0 * random.unit();
                let fy = fx * (0.99 + 0.02 * random.unit());
                let [cx, cy] = [640.0, 480.0].map(|c| c + 100.0 * (random.unit() - 0.5));
                [fx, fy, cx, cy]
            }
            6 => [0; 4].map(|_| {
                let limit = random.pick(&[0.0, 5e-324, 1e-300, 1.0, 1e9, step(1e9, -1)]);
                random.sign() * limit
            }),
            _ => [0; 4].map(|_| any(random)),
        };
        Self { camera }
    }

    fn any(random: &mut Random) -> Self {
        match random.below(4) {
            0 => Self {
                camera: [0; 4].map(|_| random.pattern()),
            },
            1 => Self {
                camera: refused_camera(random),
            },
            2 => Self {
                camera: random.pick(&camera_traps()),
            },
            _ => Self::accepted(random),
        }
    }

    fn truth(&self, random: &mut Random) -> (Pose, f64) {
        let reach = random.pick(&[1.0, 500.0]);
        match random.below(4) {
            0 => (near_identity::<Self>(random, 100.0), 1000.0),
            _ => (pose(random, reach), reach),
        }
    }
}

// Models, each with a mark.

/// [`identity`] with some numbers replaced.
fn model<const N: usize>(changes: [(usize, f64); N]) -> Pose {
    let mut h = identity::<Form>();
    for (place, number) in changes {
        h[place] = number;
    }
    h
}

/// Cases by hand, for a camera of any numbers: refused ones, then Z of every
/// kind.
pub fn distance_traps() -> Vec<(Pose, FormMark)> {
    let mark = [50.0, 50.0, 20.0, 50.0, 53.0];
    let (inf, nan) = (f64::INFINITY, f64::NAN);
    let (over, large) = (step(1e9, 1), 1e300);
    let far = [1e9, 1e9, 1e9, 3.0, 4.0];
    let mut list = vec![
        (identity::<Form>(), mark),
        (model([(7, 3.0)]), mark),
        // 1 comes before 6.
        (model([(3, inf)]), [nan, 0.0, 0.0, 0.0, 0.0]),
        (identity::<Form>(), [1e9, -1e9, 1e9, -1e9, 1e9]),
        // Z is 0, -0, the smallest number, and its negative.
        (model([(11, 0.0)]), mark),
        (model([(11, -0.0)]), [0.0; 5]),
        (model([(8, -0.0), (9, -0.0), (10, -0.0), (11, -0.0)]), mark),
        (model([(11, 5e-324)]), mark),
        (model([(11, -5e-324)]), mark),
        (model([(11, 5e-324)]), [0.0; 5]),
        (model([(11, -1.0)]), mark),
        // By each coordinate, at its limit and on both sides.
        (model([(8, 1.0), (11, -50.0)]), mark),
        (model([(8, 1.0), (11, step(-50.0, 1))]), mark),
        (model([(8, 1.0), (11, step(-50.0, -1))]), mark),
        (model([(9, 1.0), (11, -50.0)]), mark),
        (model([(10, 1.0), (11, -20.0)]), mark),
        (model([(10, 1.0), (11, step(-20.0, -1))]), mark),
        (model([(10, 1.0), (11, step(-20.0, 1))]), mark),
        // Z overflows: +inf with a finite distance and with none, -inf, NaN.
        (model([(8, large)]), [1e9, 0.0, 0.0, 3.0, 4.0]),
        (model([(9, large), (10, large)]), far),
        (model([(2, large), (10, large)]), far),
        (model([(0, large), (6, -large), (11, 1.0)]), far),
        (model([(10, -large)]), far),
        (model([(8, large), (10, -large)]), far),
        (model([(9, -large), (10, large), (11, f64::MAX)]), far),
        (model([(8, large), (9, -large), (10, nan)]), far),
        // The numerators are NaN, and one of them is.
        (model([(0, large), (2, -large)]), far),
        (model([(5, large), (6, -large), (0, large)]), far),
        // Squares overflow, and vanish.
        (model([(3, 1e200)]), mark),
        (model([(3, f64::MAX), (11, f64::MAX)]), [0.0; 5]),
        (model([(0, 1e-200), (5, 1e-200)]), [1.0, 1.0, 1.0, 0.0, 0.0]),
        // Beyond where the number would be a NaN, and infinite.
        (model([(0, large), (2, -large), (11, -1.0)]), far),
        (model([(3, 1e200), (11, -1.0)]), mark),
        // The orders of sums and the single roundings show.
        (model([(8, 1e16), (9, -1e16), (10, 1.0)]), [1.0; 5]),
        (model([(9, 1e16), (10, -1e16), (11, 1.0)]), [1.0; 5]),
        (model([(1, 1e16), (2, -1e16), (3, 1.0)]), [1.0; 5]),
        (model([(4, 1.0), (5, 1e16), (6, -1e16), (7, 1.0)]), [1.0; 5]),
        (
            model([(2, 1.0), (3, 1e16), (11, 3.0)]),
            [1.0, 1.0, -1e8, 0.3, 0.7],
        ),
        (model([(0, 0.1), (1, 0.2), (2, 0.3), (3, 0.7)]), [0.1; 5]),
        (
            model([(0, 0.1), (6, 0.3), (10, 0.7), (11, 0.9)]),
            [0.1, 1.1, 0.7, 0.3, 0.9],
        ),
        // X / Z vanishes or overflows where fx·X doesn't, and the other way.
        (model([(3, 1e-200), (11, 1e200)]), [0.0, 0.0, 0.0, 1.0, 1.0]),
        (model([(3, 1e200), (7, -1e200), (11, 1e-200)]), [0.0; 5]),
        (model([(3, 1e305), (7, 1e305), (11, 1e300)]), [0.0; 5]),
        ([-0.0; 12], [0.0; 5]),
    ];
    for place in 0..12 {
        list.extend([nan, inf, -inf].map(|bad| (model([(place, bad)]), mark)));
    }
    for place in 0..5 {
        for bad in [nan, inf, -inf, over, -over, 2e9] {
            let mut mark = mark;
            mark[place] = bad;
            list.push((identity::<Form>(), mark));
        }
    }
    list
}

/// The camera's place in the order, and where its single roundings show.
pub fn camera_orders() -> Vec<(Pose, FormMark, f64, Camera)> {
    let (nan, mark) = (f64::NAN, [0.1, 0.7, 0.3, 0.9, 1.1]);
    let (bad, behind) = ([nan, 1.0, 1.0, 1.0], model([(11, -1.0)]));
    let wide = [0.1, 0.7, 0.3, 0.9, 2e9];
    let third = model([(0, 0.1), (1, 0.7), (5, 0.3), (11, 3.0)]);
    vec![
        // 1, 6, 16, 17, and beyond after all of them.
        (model([(11, nan)]), wide, 0.0, bad),
        (model([(11, nan)]), mark, 1.0, bad),
        (identity::<Form>(), wide, 0.0, bad),
        (identity::<Form>(), wide, 1.0, bad),
        (identity::<Form>(), mark, 0.0, bad),
        (identity::<Form>(), mark, 1.0, bad),
        (behind, mark, 1.0, bad),
        (behind, mark, 1.0, USUAL),
        // fx·(X / Z) is not (fx·X) / Z, and the product is rounded before cx
        // is added.
        (third, mark, 1.0, [0.1, 0.7, 0.0, 0.0]),
        (third, mark, 1.0, [10.0, 7.0, 0.1, 0.3]),
        (third, mark, 0.3, [1e-3, 1e3, 1e9, -1e9]),
        (third, mark, 1.0, [0.0, -0.0, 0.9, 1.1]),
        // Off by nothing but the centre.
        (identity::<Form>(), [0.0; 5], 2.0, [1.0, 1.0, 3.0, 0.0]),
        (identity::<Form>(), [0.0; 5], 2.0, [1.0, 1.0, 0.0, 3.0]),
        // 0 times infinity.
        (
            model([(3, 1e300), (11, 1e-300)]),
            [0.0; 5],
            1.0,
            [0.0, 1.0, 0.0, 0.0],
        ),
        (
            model([(7, 1e300), (11, 1e-300)]),
            [0.0; 5],
            1.0,
            [1.0, -0.0, 0.0, 0.0],
        ),
        // Infinite by the camera alone.
        (model([(3, 1e300)]), [0.0; 5], 1.0, [1e9, 1.0, 0.0, 0.0]),
        (model([(7, -1e300)]), [0.0; 5], 1.0, [1.0, 1e9, 0.0, 1e9]),
    ]
}
