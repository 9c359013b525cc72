//! Random and edge arguments for the comparison.
use crate::rule::Kernel;

/// splitmix64.
pub struct Random(pub u64);

impl Random {
    pub fn next(&mut self) -> u64 {
        self.0 = self.0.wrapping_add(0x9e37_79b9_7f4a_7c15);
        let mut z = self.0;
        z = (z ^ (z >> 30)).wrapping_mul(0xbf58_476d_1ce4_e5b9);
        z = (z ^ (z >> 27)).wrapping_mul(0x94d0_49bb_1331_11eb);
        z ^ (z >> 31)
    }

    /// A number below the limit, which is above 0.
    pub fn below(&mut self, limit: usize) -> usize {
        (self.next() % limit as u64) as usize
    }

    pub fn chance(&mut self, percent: usize) -> bool {
        self.below(100) < percent
    }

    pub fn of(&mut self, values: &[f64]) -> f64 {
        values[self.below(values.len())]
    }

    /// A positive double whose exponent lies between the two, ends included;
    /// below -1022 it is subnormal. One in four has a short fraction.
    pub fn scaled(&mut self, low: i32, high: i32) -> f64 {
        let exponent = low + self.below((high - low + 1) as usize) as i32;
        let mut fraction = self.next() & 0x000f_ffff_ffff_ffff;
        if self.chance(25) {
            fraction &= 0x000e_0000_0000_0000;
        }
        if exponent >= -1022 {
            f64::from_bits((((exponent + 1023) as u64) << 52) | fraction)
        } else {
            let leading = exponent + 1074;
            f64::from_bits((1 << leading) | (fraction >> (52 - leading)))
        }
    }

    /// A few units in the last place of a subnormal.
    pub fn ulps(&mut self) -> f64 {
        f64::from_bits(1 + self.below(40) as u64)
    }

    pub fn zero(&mut self) -> f64 {
        self.of(&[0.0, -0.0])
    }

    /// Finite and at least 0, of all magnitudes.
    pub fn fit(&mut self) -> f64 {
        match self.below(100) {
            0..=9 => self.zero(),
            10..=44 => self.scaled(-10, 10),
            45..=59 => self.below(65) as f64 / 8.0,
            60..=74 => self.scaled(-1074, 1023),
            75..=84 => self.ulps(),
            85..=89 => self.scaled(1015, 1023),
            _ => self.of(&FIT_EDGES),
        }
    }

    /// NaN, infinite or below 0.
    pub fn unfit(&mut self) -> f64 {
        f64::from_bits(UNFIT_EDGES[self.below(UNFIT_EDGES.len())])
    }

    /// Any edge.
    pub fn edge(&mut self) -> f64 {
        if self.chance(50) {
            self.unfit()
        } else {
            self.of(&FIT_EDGES)
        }
    }
}

/// 2 to the power of 59: the norm that takes 60 halvings.
pub const TWO_59: f64 = 576_460_752_303_423_488.0;

pub const FIT_EDGES: [f64; 20] = [
    0.0,
    -0.0,
    f64::from_bits(1),
    f64::from_bits(2),
    f64::from_bits(3),
    f64::from_bits(5),
    f64::from_bits(0x000f_ffff_ffff_ffff),
    f64::MIN_POSITIVE,
    f64::EPSILON,
    f64::EPSILON / 2.0,
    f64::EPSILON / 4.0,
    0.5,
    1.0 - f64::EPSILON / 2.0,
    1.0,
    1.0 + f64::EPSILON,
    2.0,
    TWO_59,
    TWO_59 + 128.0,
    f64::MAX / 2.0,
    f64::MAX,
];

/// Quiet and signalling NaN of both signs, infinities, values below 0.
pub const UNFIT_EDGES: [u64; 12] = [
    0x7ff8_0000_0000_0000,
    0xfff8_0000_0000_0000,
    0x7ff0_0000_0000_0001,
    0xfff0_0000_0000_0001,
    0x7fff_ffff_ffff_ffff,
    0x7ff0_0000_0000_0000,
    0xfff0_0000_0000_0000,
    0x8000_0000_0000_0001,
    0x8010_0000_0000_0000,
    0xbff0_0000_0000_0000,
    0xc000_0000_0000_0000,
    0xffef_ffff_ffff_ffff,
];

/// The arguments of `new`. Without a depot the absorption says nothing.
#[derive(Clone, Debug)]
pub struct Parameters {
    pub clearance: f64,
    pub volumes: Vec<f64>,
    pub exchange: Vec<f64>,
    pub depot: bool,
    pub absorption: f64,
}

/// Parameters, most of them ones that `new` takes.
pub fn parameters(random: &mut Random) -> Parameters {
    let n = 1 + random.below(4);
    let depot = n == 4 || (n > 1 && random.chance(50));
    let count = n - usize::from(depot);
    let mut drawn = Parameters {
        clearance: 0.0,
        volumes: vec![1.0; count],
        exchange: vec![0.0; count - 1],
        depot,
        absorption: 0.0,
    };
    let kind = random.below(100);
    let mut each = |values: fn(&mut Random) -> f64, volume: fn(&mut Random) -> f64| {
        drawn.clearance = values(random);
        drawn.volumes.iter_mut().for_each(|v| *v = volume(random));
        drawn.exchange.iter_mut().for_each(|q| *q = values(random));
        drawn.absorption = values(random);
    };
    match kind {
        // Ordinary values, some of them zero.
        0..=39 => each(
            |r| {
                if r.chance(8) {
                    r.zero()
                } else {
                    r.scaled(-6, 6)
                }
            },
            |r| r.scaled(-4, 6),
        ),
        // Exact quotients.
        40..=49 => each(
            |r| r.below(33) as f64 / 8.0,
            |r| [0.25, 0.5, 1.0, 2.0, 4.0, 8.0][r.below(6)],
        ),
        // Small fractions, whose quotients round.
        50..=57 => each(
            |r| r.below(30) as f64 / 10.0,
            |r| (1 + r.below(30)) as f64 / 10.0,
        ),
        // All exponents: rates from subnormal to overflowing.
        58..=65 => each(|r| r.scaled(-1074, 1000), |r| r.scaled(-40, 40)),
        // Subnormal rates beside ordinary ones.
        66..=77 => each(
            |r| {
                if r.chance(60) {
                    r.ulps()
                } else {
                    r.scaled(-3, 3)
                }
            },
            |r| if r.chance(60) { 1.0 } else { r.scaled(-2, 4) },
        ),
        // One rate just below, at or just above a power of two less one: with a
        // duration of a power of two the norm is at the edge of a halving count.
        78..=87 => {
            each(|r| r.zero(), |r| r.scaled(0, 3));
            let power = random.below(64) as i32;
            let edge = 2.0_f64.powi(power) - if power > 54 { 0.0 } else { 1.0 };
            let bits = edge.to_bits();
            let beside = [bits, bits + 1, bits.saturating_sub(1)][random.below(3)];
            let rate = f64::from_bits(beside) * 2.0_f64.powi(random.below(9) as i32 - 4);
            drawn.volumes[0] = 1.0;
            if drawn.depot && random.chance(50) {
                drawn.absorption = rate;
            } else {
                drawn.clearance = rate;
            }
        }
        // Any fit values.
        88..=93 => each(
            |r| r.fit(),
            |r| {
                if r.chance(20) {
                    r.ulps()
                } else {
                    r.scaled(-1074, 1023)
                }
            },
        ),
        // Quotients, or only their sum, overflow.
        _ => each(
            |r| r.scaled(1019, 1023),
            |r| if r.chance(50) { 1.0 } else { r.scaled(-3, 1) },
        ),
    }
    if random.chance(14) {
        spoil(random, &mut drawn);
    }
    drawn
}

/// One or two arguments of `new` made to fail, or nearly so.
fn spoil(random: &mut Random, drawn: &mut Parameters) {
    for _ in 0..1 + random.below(2) {
        match random.below(6) {
            0 => drawn.clearance = random.edge(),
            1 => drawn.absorption = random.edge(),
            2 => {
                let at = random.below(drawn.volumes.len().max(1));
                if let Some(v) = drawn.volumes.get_mut(at) {
                    *v = random.edge();
                }
            }
            3 => {
                let at = random.below(drawn.exchange.len().max(1));
                if let Some(q) = drawn.exchange.get_mut(at) {
                    *q = random.edge();
                }
            }
            4 => drawn.volumes.resize(random.below(7), 1.0),
            _ => drawn.exchange.resize(random.below(7), 1.0),
        }
    }
}

/// Amounts or input rates for n of at least 1: most of them n, finite and at least 0.
pub fn amounts(random: &mut Random, n: usize) -> Vec<f64> {
    let kind = random.below(100);
    let mut drawn: Vec<f64> = (0..n)
        .map(|_| match kind {
            0..=39 => random.scaled(-6, 6),
            40..=49 => random.below(33) as f64 / 8.0,
            50..=57 => 0.0,
            58..=65 => -0.0,
            66..=71 => random.zero(),
            72..=87 => random.fit(),
            _ => random.scaled(1018, 1023),
        })
        .collect();
    if random.chance(5) {
        let at = random.below(n);
        drawn[at] = random.unfit();
    }
    if random.chance(5) {
        drawn.resize(random.below(7), 1.0);
    }
    drawn
}

/// A duration. Most are drawn for a count of halvings, spread over 1 to 62.
pub fn duration(random: &mut Random, kernel: &Kernel) -> f64 {
    match random.below(100) {
        0..=2 => random.zero(),
        3..=7 => random.ulps(),
        8..=14 => random.scaled(-1074, 1023),
        15..=22 => random.fit(),
        23..=25 => random.unfit(),
        26..=35 => 2.0_f64.powi(random.below(13) as i32 - 6),
        _ => {
            let halvings = 1 + random.below(62) as i32;
            // The norm is the duration times this, and 1 more. It takes h
            // halvings where it is above 2^(h-2) and at most 2^(h-1).
            let rate = kernel.rate_norm();
            let product = match halvings {
                1 => random.scaled(-80, -55),
                2 => random.scaled(-50, -2),
                h => random.scaled(h - 2, h - 2),
            };
            let aimed = product / rate;
            let aimed = if random.chance(50) {
                // Down to a power of two.
                f64::from_bits(aimed.to_bits() & 0x7ff0_0000_0000_0000)
            } else {
                aimed
            };
            if aimed.is_finite() {
                aimed
            } else {
                random.fit()
            }
        }
    }
}

/// The length of a lent result: most at least what is asked for.
pub fn room(random: &mut Random, needed: usize) -> usize {
    match random.below(100) {
        0..=11 => random.below(needed.max(1)),
        12..=34 => needed + 1 + random.below(4),
        _ => needed,
    }
}

/// The cells of a kernel, some changed so that `new` did not make them, with
/// more cells behind the last or with the last ones missing.
pub fn forged(random: &mut Random, genuine: &[f64]) -> Vec<f64> {
    let mut cells = genuine.to_vec();
    let (count, depot) = (cells[0] as usize, cells[1] as usize);
    let n = count + depot;
    let rate = |i: usize, j: usize| 5 + 4 * i + j;
    for _ in 0..1 + random.below(2) {
        match random.below(9) {
            0 => {
                cells[0] = random.of(&[
                    0.0,
                    -0.0,
                    4.0,
                    1.5,
                    -1.0,
                    5.0,
                    1e300,
                    9.0e15,
                    f64::NAN,
                    f64::INFINITY,
                    1.0 + f64::EPSILON,
                ])
            }
            1 => {
                cells[1] = random.of(&[
                    0.5,
                    2.0,
                    -1.0,
                    5e-324,
                    f64::NAN,
                    f64::INFINITY,
                    1.0 - f64::EPSILON,
                ])
            }
            // A rate that counts is not finite.
            2 => {
                cells[rate(random.below(n), random.below(n))] =
                    random.of(&[f64::NAN, f64::INFINITY, f64::NEG_INFINITY])
            }
            // Rates outside of the n by n part say nothing.
            3 => {
                for i in 0..4 {
                    for j in 0..4 {
                        if i >= n || j >= n {
                            cells[rate(i, j)] = random.edge();
                        }
                    }
                }
            }
            // Volumes that are not used say nothing.
            4 => cells[2 + count..5]
                .iter_mut()
                .for_each(|v| *v = random.edge()),
            // A volume that `new` refuses.
            5 => cells[2 + random.below(count)] = random.edge(),
            // Another size over the same cells.
            6 => cells[0] = 1.0 + random.below(3) as f64,
            7 => cells[1] = random.below(2) as f64,
            // Finite rates of any sign.
            _ => {
                let (low, high) = [(-4, 3), (-1074, 1023), (-1, 6)][random.below(3)];
                for i in 0..n {
                    for j in 0..n {
                        if random.chance(60) {
                            let size = random.scaled(low, high);
                            cells[rate(i, j)] = if random.chance(50) { size } else { -size };
                        }
                    }
                }
            }
        }
    }
    if random.chance(12) {
        cells.truncate(random.below(21));
    } else if random.chance(25) {
        for _ in 0..1 + random.below(6) {
            let more = random.edge();
            cells.push(more);
        }
    }
    cells
}
