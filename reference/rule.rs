//! Document 01's arithmetic, written out plainly. Three uses: the answers for
//! kernels that the Rust cannot hold (cells that `new` did not make), the count
//! of halvings, and wrong readings, which show that a fixed case tells them from
//! the right one. Each call of the Rust is also held to it, so the answers for
//! other kernels rest on the same code.
use crate::entries::{KERNEL, RATES};

/// Which wrong readings to follow. The right one follows none.
#[derive(Clone, Copy)]
pub struct Reading {
    /// Block times term in the series.
    pub block_times_term: bool,
    /// The two products of a pair added to the sum one after the other.
    pub pairs_apart: bool,
    /// The block scaled by one power of two, not halved step by step.
    pub scaled_at_once: bool,
    /// Sums that start from +0.
    pub sum_from_plus_zero: bool,
}

/// Each wrong reading, with its name.
pub const WRONG: [(&str, Reading); 4] = [
    (
        "block times term",
        Reading {
            block_times_term: true,
            ..RIGHT
        },
    ),
    (
        "the pairs apart",
        Reading {
            pairs_apart: true,
            ..RIGHT
        },
    ),
    (
        "scaled at once",
        Reading {
            scaled_at_once: true,
            ..RIGHT
        },
    ),
    (
        "sums from +0",
        Reading {
            sum_from_plus_zero: true,
            ..RIGHT
        },
    ),
];

pub const RIGHT: Reading = Reading {
    block_times_term: false,
    pairs_apart: false,
    scaled_at_once: false,
    sum_from_plus_zero: false,
};

/// Volumes, depot and rates, as the cells of a kernel give them.
#[derive(Clone, Copy, Debug)]
pub struct Kernel {
    pub volume_count: usize,
    pub depot: usize,
    pub volumes: [f64; 3],
    pub rates: [[f64; 4]; 4],
}

impl Kernel {
    /// None where the cells are no kernel (1): too few, or a count or a depot
    /// that is none.
    pub fn read(cells: &[f64]) -> Option<Kernel> {
        if cells.len() < KERNEL {
            return None;
        }
        let volume_count = (1..=3).find(|&count| cells[0] == count as f64)?;
        let depot = (0..=1).find(|&depot| cells[1] == depot as f64)?;
        let mut rates = [[0.0; 4]; 4];
        for i in 0..4 {
            rates[i].copy_from_slice(&cells[RATES + 4 * i..RATES + 4 * i + 4]);
        }
        Some(Kernel {
            volume_count,
            depot,
            volumes: [cells[2], cells[3], cells[4]],
            rates,
        })
    }

    pub fn n(&self) -> usize {
        self.volume_count + self.depot
    }

    /// The kernel in the cells, or the number that each entry but `state_count`
    /// refuses them with: 1 where they are no kernel or a volume in use is not
    /// finite or not above 0, then 2 by a rate.
    pub fn sound(cells: &[f64]) -> Result<Kernel, u64> {
        let kernel = Kernel::read(cells).ok_or(1_u64)?;
        if !kernel.volumes_pass() {
            return Err(1);
        }
        if !kernel.finite() {
            return Err(2);
        }
        Ok(kernel)
    }

    /// Whether every volume in use is finite and above 0.
    pub fn volumes_pass(&self) -> bool {
        self.volumes[..self.volume_count]
            .iter()
            .all(|v| v.is_finite() && *v > 0.0)
    }

    /// Whether every rate of the n by n part is finite.
    pub fn finite(&self) -> bool {
        let n = self.n();
        self.rates[..n]
            .iter()
            .all(|row| row[..n].iter().all(|v| v.is_finite()))
    }

    /// The largest row sum of the magnitudes of the rates.
    pub fn rate_norm(&self) -> f64 {
        let n = self.n();
        self.rates[..n].iter().fold(0.0, |norm, row| {
            let sum: f64 = row[..n].iter().map(|v| v.abs()).sum();
            if sum > norm {
                sum
            } else {
                norm
            }
        })
    }
}

/// What `advance` gives: amounts in the first n places, or a number.
pub struct Advanced {
    pub answer: Result<[f64; 4], u64>,
    /// The halvings that the norm asks for, where it is finite; more than 60 is 21.
    pub halvings: Option<u32>,
}

type Block = [[f64; 8]; 8];

fn times(a: &Block, b: &Block, size: usize, start: f64) -> Block {
    let mut product = [[0.0; 8]; 8];
    for i in 0..size {
        for j in 0..size {
            let mut sum = start;
            for k in 0..size {
                sum += a[i][k] * b[k][j];
            }
            product[i][j] = sum;
        }
    }
    product
}

fn unfit(v: f64) -> bool {
    !v.is_finite() || v < 0.0
}

pub fn advance(
    kernel: &Kernel,
    amounts: &[f64],
    rates: &[f64],
    duration: f64,
    reading: Reading,
) -> Advanced {
    let n = kernel.n();
    let refuse = |number, halvings| Advanced {
        answer: Err(number),
        halvings,
    };
    if amounts.len() != n
        || rates.len() != n
        || unfit(duration)
        || amounts.iter().any(|&v| unfit(v))
        || rates.iter().any(|&v| unfit(v))
    {
        return refuse(3, None);
    }
    let mut result = [0.0; 4];
    if duration == 0.0 {
        result[..n].copy_from_slice(amounts);
        return Advanced {
            answer: Ok(result),
            halvings: Some(0),
        };
    }

    let start = if reading.sum_from_plus_zero {
        0.0
    } else {
        -0.0
    };
    let size = 2 * n;
    let mut block: Block = [[0.0; 8]; 8];
    for i in 0..n {
        for j in 0..n {
            block[i][j] = kernel.rates[i][j] * duration;
        }
        block[i][i + n] = 1.0;
    }
    let mut norm = 0.0;
    for row in &block[..size] {
        let mut sum = start;
        for v in &row[..size] {
            sum += v.abs();
        }
        if sum > norm {
            norm = sum;
        }
    }
    if !norm.is_finite() {
        return refuse(20, None);
    }
    let mut halvings = 0;
    while norm > 0.5 {
        norm *= 0.5;
        halvings += 1;
    }
    if halvings > 60 {
        return refuse(21, Some(halvings));
    }
    for v in block.iter_mut().flatten() {
        if reading.scaled_at_once {
            *v *= 0.5_f64.powi(halvings as i32);
        } else {
            for _ in 0..halvings {
                *v *= 0.5;
            }
        }
    }

    let mut propagator: Block = [[0.0; 8]; 8];
    for (i, row) in propagator.iter_mut().enumerate() {
        row[i] = 1.0;
    }
    let mut term = propagator;
    for k in 1..=20 {
        term = if reading.block_times_term {
            times(&block, &term, size, start)
        } else {
            times(&term, &block, size, start)
        };
        for i in 0..size {
            for j in 0..size {
                term[i][j] /= f64::from(k);
                propagator[i][j] += term[i][j];
            }
        }
    }
    for _ in 0..halvings {
        propagator = times(&propagator, &propagator, size, start);
    }

    let halvings = Some(halvings);
    if propagator[..size]
        .iter()
        .any(|row| row[..size].iter().any(|v| !v.is_finite()))
    {
        return refuse(22, halvings);
    }
    if rates.iter().any(|r| !(r * duration).is_finite()) {
        return refuse(22, halvings);
    }
    for i in 0..n {
        let mut sum = start;
        for j in 0..n {
            let kept = propagator[i][j] * amounts[j];
            let given = propagator[i][j + n] * (rates[j] * duration);
            sum = if reading.pairs_apart {
                sum + kept + given
            } else {
                sum + (kept + given)
            };
        }
        result[i] = sum;
    }
    if result[..n].iter().any(|&v| unfit(v)) {
        return refuse(22, halvings);
    }
    Advanced {
        answer: Ok(result),
        halvings,
    }
}

/// What `concentrations` gives: one for each volume, or a number.
pub fn concentrations(kernel: &Kernel, amounts: &[f64]) -> Result<[f64; 3], u64> {
    if amounts.len() != kernel.n() || amounts.iter().any(|&v| unfit(v)) {
        return Err(3);
    }
    let mut result = [0.0; 3];
    for i in 0..kernel.volume_count {
        result[i] = amounts[i + kernel.depot] / kernel.volumes[i];
        if !result[i].is_finite() {
            return Err(23);
        }
    }
    Ok(result)
}

/// Central's diagonal by a wrong reading: -(CL + q..)/V0.
pub fn diagonal_at_once(clearance: f64, volumes: &[f64], exchange: &[f64]) -> f64 {
    -exchange.iter().fold(clearance, |sum, q| sum + q) / volumes[0]
}
