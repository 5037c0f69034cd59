//! Inputs to compare on: traps by hand, limits by rule, and random ones from
//! a fixed seed.

/// The whole number that a variable of the environment is set to.
fn set(name: &str) -> Option<usize> {
    let text = std::env::var(name).ok()?;
    Some(
        text.parse()
            .unwrap_or_else(|_| panic!("{name} is a whole number")),
    )
}

/// How many random cases SALGHEMU_CASES asks for, where it is set.
pub fn asked() -> Option<usize> {
    set("SALGHEMU_CASES")
}

/// A test's own number of random cases, times SALGHEMU_TIMES where it is set.
pub fn usually(usual: usize) -> usize {
    usual * set("SALGHEMU_TIMES").unwrap_or(1)
}

/// splitmix64.
pub struct Random(u64);

impl Random {
    pub fn new(seed: u64) -> Self {
        Self(seed)
    }

    pub fn word(&mut self) -> u64 {
        self.0 = self.0.wrapping_add(0x9e37_79b9_7f4a_7c15);
        let mut z = self.0;
        z = (z ^ (z >> 30)).wrapping_mul(0xbf58_476d_1ce4_e5b9);
        z = (z ^ (z >> 27)).wrapping_mul(0x94d0_49bb_1331_11eb);
        z ^ (z >> 31)
    }

    /// A whole number from 0 to n - 1.
    pub fn below(&mut self, n: u64) -> u64 {
        self.word() % n
    }

    /// A whole number from low to high.
    pub fn from_to(&mut self, low: i64, high: i64) -> i64 {
        low + self.below((high - low + 1) as u64) as i64
    }

    pub fn pick<T: Copy>(&mut self, list: &[T]) -> T {
        list[self.below(list.len() as u64) as usize]
    }

    /// Any bit pattern.
    pub fn pattern(&mut self) -> f64 {
        f64::from_bits(self.word())
    }

    /// A number from 0 to below 1.
    pub fn unit(&mut self) -> f64 {
        (self.word() >> 11) as f64 / (1u64 << 53) as f64
    }

    /// A random significand at an exponent field from low to high (0 is
    /// subnormal, 2046 the largest), positive.
    pub fn sized(&mut self, low: i64, high: i64) -> f64 {
        let field = self.from_to(low, high) as u64;
        f64::from_bits(field << 52 | self.word() >> 12)
    }

    /// 1 or -1.
    pub fn sign(&mut self) -> f64 {
        if self.below(2) == 0 { 1.0 } else { -1.0 }
    }
}

/// The double k patterns further from zero.
pub fn step(x: f64, k: i64) -> f64 {
    f64::from_bits(x.to_bits().wrapping_add_signed(k))
}

/// 2^exponent, for -1074 to 1023.
pub fn power_of_two(exponent: i32) -> f64 {
    if exponent < -1022 {
        f64::from_bits(1 << (exponent + 1074))
    } else {
        f64::from_bits(((exponent + 1023) as u64) << 52)
    }
}

fn with_neighbours(list: &[f64]) -> Vec<f64> {
    list.iter()
        .flat_map(|&x| [step(x, -1), x, step(x, 1)])
        .collect()
}

pub const NANS: [u64; 8] = [
    0x7ff8_0000_0000_0000,
    0xfff8_0000_0000_0000,
    0x7ff0_0000_0000_0001,
    0xfff0_0000_0000_0001,
    0x7fff_ffff_ffff_ffff,
    0xffff_ffff_ffff_ffff,
    0x7ff8_0000_dead_beef,
    0xfff7_1234_5678_9abc,
];

// Roots.

/// Zeros, infinities, NaNs, negatives, small squares, numbers around 1.
pub fn root_traps() -> Vec<f64> {
    let mut list = vec![
        0.0,
        -0.0,
        f64::INFINITY,
        f64::NEG_INFINITY,
        f64::MAX,
        step(f64::MAX, -1),
        -1.0,
        -2.0,
        -1e-300,
        -5e-324,
        -f64::MIN_POSITIVE,
        -f64::MAX,
        5e-324,
        1e-323,
        f64::MIN_POSITIVE,
        step(f64::MIN_POSITIVE, -1),
    ];
    list.extend(NANS.map(f64::from_bits));
    list.extend((-8..=8).map(|k| step(1.0, k)));
    list.extend((-4..=4).map(|k| step(4.0, k)));
    let wholes = [
        2.0,
        3.0,
        5.0,
        7.0,
        10.0,
        1e5,
        67_108_863.0,
        94_906_265.0,
        1e10,
        1e-10,
        1e150,
    ];
    list.extend(with_neighbours(&wholes.map(|k| k * k)));
    list.extend(wholes);
    list
}

/// Each power of two with its neighbours, and 2,000 squares with theirs.
pub fn root_limits() -> Vec<f64> {
    let powers: Vec<f64> = (-1074..=1023).map(power_of_two).collect();
    let squares: Vec<f64> = (1..=2000).map(|k| f64::from(k * k)).collect();
    let mut list = with_neighbours(&powers);
    list.extend(with_neighbours(&squares));
    list
}

/// The i-th random number to take the root of.
pub fn root(random: &mut Random, i: usize) -> f64 {
    match i % 6 {
        0 => random.pattern(),
        1 => f64::from_bits(random.word() >> (12 + random.below(52))),
        2 => {
            // A square, or its neighbour, at any even exponent.
            let k = random.from_to(1, 94_906_265) as f64;
            let scale = power_of_two(2 * random.from_to(-480, 470) as i32);
            step(k * k * scale, random.from_to(-1, 1))
        }
        3 => {
            let midpoint = near_midpoint(random);
            step(midpoint, random.from_to(-1, 1))
        }
        _ => {
            let field = (i / 6 % 2047) as i64;
            random.sized(field, field)
        }
    }
}

/// A double next to the square of the midpoint of two neighbouring doubles.
fn near_midpoint(random: &mut Random) -> f64 {
    let whole = u128::from(1u64 << 52 | random.word() >> 12);
    let square = (2 * whole + 1) * (2 * whole + 1);
    let shift = 128 - 53 - square.leading_zeros();
    let significand = (square >> shift) as u64 - (1 << 52);
    // The square is this significand times 2^(shift - 2), and any even scale.
    let field = u64::from((1023 + 52 + shift) % 2) + 2 * random.from_to(1, 1022) as u64;
    f64::from_bits(field << 52 | significand)
}

// Quadratics: the coefficients a, b, c.

pub type Coefficients = [f64; 3];

/// Cases by hand, among them those of 01.
pub fn quadratic_traps() -> Vec<Coefficients> {
    let e = 1e-12;
    let large = 1e100;
    let over = step(large, 1);
    let mut list = vec![
        [1.0, -3.0, 2.0],
        [-1.0, 3.0, -2.0],
        [1.0, 0.0, 0.0],
        [1.0, -0.0, 0.0],
        [-1.0, 0.0, 0.0],
        [-1.0, -0.0, -0.0],
        [1.0, 0.0, 1.0],
        [1.0, 0.0, -1.0],
        [0.0, 2.0, -4.0],
        [0.0, 2.0, 0.0],
        [0.0, 2.0, -0.0],
        [-0.0, -2.0, 0.0],
        [0.0, 0.0, 1.0],
        [0.0, -0.0, 0.0],
        [-1.0, large, 0.0],
        [large, 0.0, -1e-100],
        [-large, 0.0, 1e-100],
        [large, large, large],
        [large, large, -large],
        [-large, -large, large],
        [e, large, large],
        [step(e, -1), large, large],
        [e, e, -large],
        [1e-300, e, large],
        [0.0, step(e, -1), large],
        [0.0, e, large],
        [0.0, e, -large],
        [1e6, 0.0, -1e-12],
        [1e4, -2.0, 1e-4],
        [1e5, -1e-3, 0.0],
        [1e5, 1e-3, 0.0],
        [-1e5, 1e-3, 0.0],
        [1.0, -2.0, 1.0],
        [1.0, 1e-6, 0.0],
        [1.0, step(1e-6, -1), 0.0],
        [1.0, step(1e-6, 1), 0.0],
        [1.0, 0.0, 2.5e-13],
        [1.0, 0.0, -2.5e-13],
        [1.0, 0.0, step(2.5e-13, 1)],
        [1.0, 0.0, step(-2.5e-13, 1)],
        [1.0, 0.0, step(-2.5e-13, -1)],
        [5e-324, 5e-324, 5e-324],
        [1.0, 5e-324, 5e-324],
        [1.0, 5e-324, -5e-324],
        [1.0, 1.0, 5e-324],
        [1.0, -1e8, 1.0],
        [1.0, 1e8, 1.0],
    ];
    // Roots x / 2 and -x / 2, with x next to 1e-8 and at it.
    for x in with_neighbours(&[1e-8]) {
        list.extend([[128.0, 0.0, -32.0 * x * x], [-128.0, 0.0, 32.0 * x * x]]);
    }
    for bad in [
        over,
        -over,
        f64::INFINITY,
        f64::NEG_INFINITY,
        f64::NAN,
        f64::MAX,
    ] {
        list.extend([
            [bad, 1.0, 1.0],
            [1.0, bad, 1.0],
            [1.0, 1.0, bad],
            [0.0, 0.0, bad],
        ]);
    }
    list
}

/// Every triple of the special numbers.
pub fn quadratic_limits() -> Vec<Coefficients> {
    let mut numbers = vec![0.0, 1.0, 2.0, 1e-6, 1e-300, 5e-324, 1e-100, 3e50];
    numbers.extend(with_neighbours(&[1e-12, 1e100]));
    numbers.push(f64::INFINITY);
    numbers.extend(numbers.clone().iter().map(|x| -x));
    numbers.push(f64::NAN);
    let mut list = Vec::new();
    for &a in &numbers {
        for &b in &numbers {
            list.extend(numbers.iter().map(|&c| [a, b, c]));
        }
    }
    list
}

/// The i-th random quadratic.
pub fn quadratic(random: &mut Random, i: usize) -> Coefficients {
    // Exponent field 1354 is the last one wholly below 1e100.
    let any = |random: &mut Random| random.sign() * random.sized(0, 1354);
    let usual = |random: &mut Random| random.sign() * random.sized(1013, 1043);
    match i % 10 {
        // Of every size, each by itself, and all three about alike.
        0 => [any(random), any(random), any(random)],
        1 => {
            let field = random.from_to(20, 1334);
            [0; 3].map(|_| random.sign() * random.sized(field - 20, field + 20))
        }
        2 => [usual(random), usual(random), usual(random)],
        // Whole roots p and q.
        3 => {
            let a = random.sign() * random.from_to(1, 1000) as f64;
            let p = random.from_to(-1000, 1000) as f64;
            let q = random.from_to(-1000, 1000) as f64;
            [a, -a * (p + q), a * p * q]
        }
        // Two roots some 1e-8 apart.
        4 => {
            let a = random.sign() * 10f64.powi(random.from_to(2, 9) as i32);
            let r = 1e-4 * (random.unit() - 0.5);
            let apart = 1e-8 * (0.9 + 0.2 * random.unit());
            [a, -a * (2.0 * r + apart), a * r * (r + apart)]
        }
        // The discriminant near 1e-12 or -1e-12.
        5 => {
            let a = random.sign() * (0.1 + random.unit());
            let b = random.unit() * 1e-5;
            let near = random.sign() * 1e-12 * (1.0 + 1e-9 * (random.unit() - 0.5));
            [a, b, (b * b - near) / (4.0 * a)]
        }
        // a or b or both next to 1e-12.
        6 => {
            let mut near = || random.sign() * step(1e-12, random.from_to(-2, 2));
            let (a, b) = (near(), near());
            let c = usual(random);
            match random.below(3) {
                0 => [a, b, c],
                1 => [a, usual(random), c],
                _ => [random.pick(&[0.0, -0.0, 1e-13]), b, c],
            }
        }
        // Zeros of both signs, next to anything.
        7 => [0; 3].map(|_| match random.below(3) {
            0 => random.pick(&[0.0, -0.0]),
            1 => random.pick(&[1.0, -1.0, 2.0, -4.0]),
            _ => usual(random),
        }),
        // Next to 1e100, and subnormal.
        8 => [0; 3].map(|_| {
            random.sign()
                * match random.below(4) {
                    0 => step(1e100, random.from_to(-2, 1)),
                    1 => 1e-300 * random.unit(),
                    2 => random.sized(0, 0),
                    _ => random.sized(1300, 1354),
                }
        }),
        // Any pattern: most are refused.
        _ => [random.pattern(), random.pattern(), random.pattern()],
    }
}

// Ranks.

#[derive(Clone, Debug)]
pub struct Rank {
    pub values: Vec<f64>,
    pub cols: usize,
    pub null: usize,
    pub tolerance: f64,
}

/// Cases by hand, among them those of the traps: none has null = usize::MAX.
pub fn rank_traps() -> Vec<Rank> {
    let epsilon = f64::EPSILON;
    let inf = f64::INFINITY;
    let nan = f64::NAN;
    let max = usize::MAX;
    let rank = |values: &[f64], cols, null, tolerance| Rank {
        values: values.to_vec(),
        cols,
        null,
        tolerance,
    };
    vec![
        rank(&[], 0, 0, 0.0),
        rank(&[], 1, 0, -inf),
        rank(&[1.0], 1, 0, 1.0),
        rank(&[1.0], 1, 0, step(1.0, 1)),
        rank(&[1.0], 1, 0, nan),
        rank(&[1.0], 0, 0, 0.0),
        rank(&[1.0], 2, 0, 0.0),
        rank(&[1.0], 1, 1, 0.0),
        rank(&[1.0, -1.0], 3, 1, -inf),
        rank(&[1.0, -1.0], 3, 1, -1.0),
        rank(&[1.0, -1.0], 3, 1, step(-1.0, -1)),
        rank(&[inf, inf], 3, 1, 0.0),
        rank(&[inf, inf], 3, 1, -inf),
        rank(&[inf, 1.0], 3, 1, 0.0),
        rank(&[inf, 1.0], 3, 1, -0.0),
        rank(&[inf, -1.0], 3, 1, 0.0),
        rank(&[1.0, inf], 3, 1, inf),
        rank(&[1.0, inf], 3, 1, f64::MAX),
        rank(&[nan, 1.0], 3, 1, -inf),
        rank(&[nan], 1, 0, -inf),
        rank(&[1.0, nan], 3, 1, -inf),
        rank(&[1.0, nan], 2, 1, 0.5),
        rank(&[-1.0, -1.0], 3, 1, -inf),
        rank(&[-inf, 1.0], 3, 1, -inf),
        rank(&[0.0, 0.0], 3, 1, -inf),
        rank(&[epsilon, epsilon], 3, 1, 0.0),
        rank(&[step(epsilon, -1), epsilon], 3, 1, 0.0),
        rank(&[step(epsilon, 1), epsilon], 3, 1, 0.0),
        rank(&[step(epsilon, 1), f64::MAX], 3, 1, f64::MAX),
        rank(&[f64::MAX, 5e-324], 3, 1, 0.0),
        rank(&[f64::MAX, 5e-324], 3, 1, 5e-324),
        rank(&[1.0, 1e-7], 3, 1, 1e-7),
        rank(&[1.0, step(1e-7, -1)], 3, 1, 1e-7),
        rank(&[3.0, 1.0], 3, 1, 1.0 / 3.0),
        rank(&[3.0, 1.0], 3, 1, step(1.0 / 3.0, 1)),
        rank(&[6.0, 5.0, 4.0, 3.0, 2.0, 1.0], 7, 1, 1.0 / 6.0),
        rank(&[6.0, 5.0, 4.0, 3.0, 2.0, 1.0], 7, 0, 0.0),
        rank(&[6.0, 5.0, 4.0, 3.0, 2.0, 1.0], 7, 2, 0.3),
        rank(&[6.0, 5.0, 4.0, 3.0, 2.0, 1.0], 7, 6, 1.0),
        rank(&[6.0, 5.0, 4.0, 3.0, 2.0, 1.0], 7, 7, 0.0),
        rank(&[1.0], max, 0, 0.0),
        rank(&[1.0], max, max - 1, 1.0),
        rank(&[1.0, 0.5], max, max - 2, 0.5),
        rank(&[1.0], max - 1, max - 1, 0.0),
        rank(&[1.0], 0, max - 1, 0.0),
        rank(&[1.0], 1 << 32, (1 << 32) - 1, 1.0),
        rank(&[1.0], (1 << 32) + 1, 0, 1.0),
        rank(&[1.0], 1 << 63, (1 << 63) - 1, 1.0),
    ]
}

/// A random rank question of at most six values.
pub fn rank(random: &mut Random) -> Rank {
    let len = random.below(7) as usize;
    let mut values: Vec<f64> = (0..len).map(|_| value(random)).collect();
    if random.below(2) == 0 {
        values.iter_mut().for_each(|v| *v = v.abs());
        values.sort_by(|a, b| b.total_cmp(a));
    }
    let (cols, null) = match random.below(16) {
        0 => (usize::MAX, usize::MAX - 1 - random.below(8) as usize),
        1 => (random.word() as usize, random.word() as usize >> 1),
        _ => (random.below(9) as usize, random.below(3) as usize),
    };
    let place = cols.wrapping_sub(null).wrapping_sub(1);
    let tolerance = match (values.first(), values.get(place)) {
        // The quotient itself, or its neighbour.
        (Some(first), Some(other)) if random.below(2) == 0 => {
            step(other / first, random.from_to(-1, 1))
        }
        _ => random.pick(&[1e-7, 0.0, -0.0, 0.5, 1.0, -1.0, 1e300, -1e300, f64::NAN]),
    };
    Rank {
        values,
        cols,
        null,
        tolerance,
    }
}

fn value(random: &mut Random) -> f64 {
    match random.below(12) {
        0 => random.pick(&[
            0.0,
            -0.0,
            f64::NAN,
            f64::INFINITY,
            f64::NEG_INFINITY,
            f64::MAX,
        ]),
        1 => step(f64::EPSILON, random.from_to(-1, 1)),
        2 => random.pattern(),
        3 => -random.sized(1013, 1033),
        _ => random.sized(1000, 1043),
    }
}

// Lists of numbers, finite or not.

/// A list of each length to six with each special number at each place.
pub fn finite_traps() -> Vec<Vec<f64>> {
    let mut list = vec![Vec::new()];
    let special = [
        f64::NAN,
        f64::INFINITY,
        f64::NEG_INFINITY,
        f64::MAX,
        -0.0,
        5e-324,
    ];
    for len in 1..=6 {
        list.push(vec![1.0; len]);
    }
    for x in special {
        for place in 0..6 {
            let mut numbers = vec![f64::MAX; 6];
            numbers[place] = x;
            list.push(numbers);
        }
    }
    list
}

/// A random list, often of finite numbers alone.
pub fn finite(random: &mut Random, most: u64) -> Vec<f64> {
    let len = random.below(most + 1);
    let mut numbers: Vec<f64> = (0..len)
        .map(|_| random.sign() * random.sized(0, 2046))
        .collect();
    if len > 0 && random.below(2) == 0 {
        let place = random.below(len) as usize;
        let nan = f64::from_bits(random.pick(&NANS));
        numbers[place] = random.pick(&[nan, f64::INFINITY, f64::NEG_INFINITY]);
    }
    numbers
}
