//! Random and edge cycles for the comparison of folds.
use crate::cycle_entry::{made_cycle, Cycle, EVENTS, SAMPLES};
use crate::draw::{self, Parameters, Random};
use crate::rust_run::{BOLUS, EVENT, INFUSION, RESET};

/// What the ends of a cycle are like.
#[derive(Clone, Copy, PartialEq)]
enum Span {
    /// Multiples of a step.
    Grid,
    /// As a grid, with 0 at an end or inside.
    AroundZero,
    /// A period of tenths, whose multiples round.
    Tenths,
    /// Ends far apart in size, so that start and a period need not give the end.
    Uneven,
    /// Neighbouring doubles, subnormal ones too.
    Near,
    /// A whole period that is no power of two, for the longest infusions.
    Seven,
    /// Ends near the largest double.
    Huge,
    /// Ends of any size.
    Any,
}

fn parameters(random: &mut Random) -> Parameters {
    if random.chance(4) {
        return draw::parameters(random);
    }
    let n = 1 + random.below(4);
    let depot = n == 4 || (n > 1 && random.chance(50));
    let count = n - usize::from(depot);
    Parameters {
        clearance: random.scaled(-5, 3),
        volumes: (0..count).map(|_| random.scaled(-2, 5)).collect(),
        exchange: (1..count).map(|_| random.scaled(-5, 3)).collect(),
        depot,
        absorption: random.scaled(-5, 3),
    }
}

/// The ends of the cycle, and times in it that events and samples share.
fn ends(random: &mut Random, span: Span) -> (f64, f64, Vec<f64>) {
    let mut pool = vec![];
    let (start, end) = match span {
        Span::Grid | Span::AroundZero => {
            let step = random.of(&[0.25, 0.5, 1.0, 1.0, 2.0, 0.1, 0.3]);
            let count = 1 + random.below(12) as i64;
            let first = match span {
                Span::AroundZero => -(random.below(count as usize + 1) as i64),
                _ => random.below(9) as i64 - 4,
            };
            pool.extend((first + 1..first + count).map(|i| i as f64 * step));
            (first as f64 * step, (first + count) as f64 * step)
        }
        Span::Tenths => {
            let period = (1 + random.below(30)) as f64 / 10.0;
            let start = if random.chance(70) {
                0.0
            } else {
                (random.below(21) as f64 - 10.0) / 10.0
            };
            pool.extend((1..4).map(|i| start + period * (i as f64 / 4.0)));
            (start, start + period)
        }
        Span::Uneven => {
            let large = match random.below(3) {
                0 => 1.0,
                1 => 1.0 - f64::EPSILON / 2.0,
                _ => random.scaled(-2, 2),
            };
            let small = large * (random.below(40) as f64 / 4.0) * f64::EPSILON / 8.0;
            pool.extend([0.0, large / 2.0, -large / 2.0, small, -small]);
            if random.chance(50) {
                (-large, small)
            } else {
                (-small, large)
            }
        }
        Span::Near => {
            let mut at = match random.below(5) {
                0 => 0.0,
                1 => -random.ulps(),
                2 => 1.0 - f64::EPSILON,
                3 => random.scaled(-1074, 1020),
                _ => -random.scaled(-1074, 1020),
            };
            let start = at;
            for _ in 0..1 + random.below(9) {
                pool.push(at);
                at = at.next_up();
            }
            (start, at)
        }
        Span::Seven => {
            let period = [7.0, 7.0, 3.0, 5.0, 24.0, 0.7, 1e-3][random.below(7)];
            pool.extend((1..4).map(|i| period * (i as f64 / 4.0)));
            (0.0, period)
        }
        Span::Huge => {
            let large = [f64::MAX, f64::MAX / 2.0, 1e308, 0.75 * f64::MAX];
            let start = if random.chance(60) {
                -random.of(&large)
            } else {
                -random.fit()
            };
            let end = if random.chance(60) {
                random.fit()
            } else {
                random.of(&large)
            };
            pool.extend([start / 2.0, end / 2.0, 0.0, 1.0, -1.0]);
            (start, end)
        }
        Span::Any => {
            let side = |random: &mut Random| {
                let size = if random.chance(60) {
                    random.scaled(-6, 6)
                } else {
                    random.fit()
                };
                if random.chance(50) {
                    size
                } else {
                    -size
                }
            };
            let (one, other) = (side(random), side(random));
            pool.extend((1..4).map(|i| one + (other - one) * (i as f64 / 4.0)));
            (one, other)
        }
    };
    let (mut start, mut end) = if end < start {
        (end, start)
    } else {
        (start, end)
    };
    if start == end {
        end = start.next_up();
    }
    for bound in [&mut start, &mut end] {
        if *bound == 0.0 {
            *bound = random.zero();
        }
    }
    while pool.len() > 7 {
        pool.swap_remove(random.below(pool.len()));
    }
    pool.extend([start, start, end.next_down(), start.next_up()]);
    if start <= 0.0 && end >= 0.0 && random.chance(50) {
        pool.extend([0.0, -0.0]);
    }
    pool.retain(|t| *t >= start && *t < end);
    (start, end, pool)
}

/// Draws times in a cycle, most of them out of the pool or next to one of it.
struct Times {
    start: f64,
    end: f64,
    pool: Vec<f64>,
}

impl Times {
    fn one(&self, random: &mut Random) -> f64 {
        let fits = |time: f64| time >= self.start && time < self.end;
        if random.chance(20) {
            let part = random.below(1 << 20) as f64 / (1 << 20) as f64;
            let time = self.start + (self.end - self.start) * part;
            if fits(time) {
                return time;
            }
        }
        let time = random.of(&self.pool);
        let beside = match random.below(12) {
            0 => time.next_up(),
            1 => time.next_down(),
            // A zero of either sign.
            2..=4 if time == 0.0 => -time,
            _ => time,
        };
        if fits(beside) {
            beside
        } else {
            time
        }
    }
}

fn amount(random: &mut Random, span: Span) -> f64 {
    match random.below(100) {
        0..=7 => random.zero(),
        8..=59 => random.scaled(-4, 6),
        60..=74 => random.below(33) as f64 / 8.0,
        75..=84 => random.fit(),
        85..=89 => random.scaled(1019, 1023),
        _ if span == Span::Near => random.ulps(),
        _ => random.scaled(990, 1020),
    }
}

/// A duration: inside the cycle, around its end, around whole periods, of very
/// many periods, or just any.
fn duration(random: &mut Random, times: &Times, time: f64, span: Span) -> f64 {
    let period = times.end - times.start;
    let many = match (span, random.below(10)) {
        (Span::Seven, 0..=4) => 60,
        (_, 0..=5) => 4,
        (_, 6..=8) => 16,
        _ => 1024,
    };
    let count = 1.0 + random.below(many) as f64;
    let beside = |random: &mut Random, x: f64| match random.below(4) {
        0 => x.next_up(),
        1 => x.next_down(),
        _ => x,
    };
    let duration = match random.below(20) {
        0..=2 => times.one(random) - time,
        3..=4 => beside(random, times.end - time),
        5..=8 => beside(random, period * count),
        9..=13 => period * (count + random.below(8) as f64 / 8.0),
        14 => period * count - (time - times.start),
        15 => random.of(&[1e300, 1e300, 1e17, 1e40, f64::MAX / 2.0]),
        16 => random.scaled(-1074, 1023),
        17 => period * random.scaled(40, 70),
        _ => period * (random.below(1 << 12) as f64 / (1 << 9) as f64),
    };
    if duration > 0.0 && duration.is_finite() && time + duration > time {
        duration
    } else {
        // Past rounding, or refused by 17.
        times.end - time
    }
}

fn events(random: &mut Random, times: &mut Times, n: usize, span: Span) -> Vec<u64> {
    let count = match random.below(1000) {
        0..=979 => random.below(7),
        980..=993 => 7 + random.below(24),
        994..=995 => EVENTS - random.below(3),
        996 => EVENTS + 1 + random.below(4),
        _ => random.below(3),
    };
    let kinds: &[u64] = match random.below(10) {
        0 => &[BOLUS],
        1 => &[RESET],
        2..=4 => &[INFUSION],
        5..=7 => &[INFUSION, INFUSION, RESET],
        _ => &[BOLUS, INFUSION, RESET],
    };
    // Few targets make events meet.
    let targets = if random.chance(60) {
        1 + random.below(n)
    } else {
        n
    };
    let stopping = [20, 50, 90][random.below(3)];
    let mut words = Vec::with_capacity(count * EVENT);
    let mut used: Vec<(f64, u64)> = vec![];
    for _ in 0..count {
        let kind = kinds[random.below(kinds.len())];
        let time = times.one(random);
        if random.chance(30) {
            times.pool.push(time);
        }
        let target = random.below(targets) as u64;
        // Words that the kind lacks hold anything.
        let (fourth, fifth, sixth) = match kind {
            BOLUS => (amount(random, span), random.next(), random.next()),
            INFUSION => {
                let duration = duration(random, times, time, span);
                (amount(random, span), duration.to_bits(), random.next())
            }
            _ => {
                let mut order = random.below(5) as u64;
                for _ in 0..8 {
                    if !used.contains(&(time, order)) {
                        break;
                    }
                    order = match random.below(8) {
                        0 => 65_535,
                        1 => random.below(65_536) as u64,
                        _ => random.below(9) as u64,
                    };
                }
                used.push((time, order));
                let value = match random.below(20) {
                    0 => -random.fit(),
                    1..=3 => random.zero(),
                    _ => amount(random, span),
                };
                (value, order, u64::from(random.chance(stopping)))
            }
        };
        words.extend([kind, time.to_bits(), target, fourth.to_bits(), fifth, sixth]);
    }
    // A reset whose next time need not be after an infusion's.
    if span == Span::Uneven && count < EVENTS && random.chance(20) {
        let target = random.below(targets) as u64;
        words.extend([RESET, times.start.to_bits(), target, 0, 99, 1]);
    }
    words
}

/// As many infusions as a cycle can have, each of whole periods and over the end.
fn full(random: &mut Random, cycle: &mut Cycle) {
    (cycle.start, cycle.end) = (0.0, 8.0);
    cycle.samples.clear();
    let n = cycle.n();
    cycle.words.clear();
    for _ in 0..EVENTS {
        let time = (1 + random.below(31)) as f64 / 4.0;
        // A remainder that reaches over the end and leaves a tail.
        let left = 8.0 - time + 1.0 / 16.0;
        let duration = 8.0 * (1 + random.below(3)) as f64 + left;
        let amount = amount(random, Span::Grid).min(1e9);
        let target = random.below(n) as u64;
        cycle.words.extend([
            INFUSION,
            time.to_bits(),
            target,
            amount.to_bits(),
            duration.to_bits(),
            random.next(),
        ]);
    }
}

fn samples(random: &mut Random, times: &Times) -> Vec<f64> {
    let count = match random.below(1000) {
        0..=979 => random.below(5),
        980..=989 => 5 + random.below(30),
        990..=993 => SAMPLES - random.below(2),
        994..=995 => SAMPLES + 1 + random.below(3),
        _ => 0,
    };
    let sample = |random: &mut Random| {
        if random.chance(15) {
            times.end
        } else {
            times.one(random)
        }
    };
    (0..count).map(|_| sample(random)).collect()
}

/// The pieces that the cycle has with any budget.
fn pieces(cycle: &Cycle) -> usize {
    let mut ample = cycle.clone();
    ample.event_budget = usize::MAX;
    ample.answer().pieces.len()
}

/// A cycle, most of them ones that are folded.
pub fn cycle(random: &mut Random) -> Cycle {
    let span = match random.below(100) {
        0..=24 => Span::Grid,
        25..=39 => Span::AroundZero,
        40..=54 => Span::Tenths,
        55..=66 => Span::Uneven,
        67..=78 => Span::Near,
        79..=86 => Span::Seven,
        87..=92 => Span::Huge,
        _ => Span::Any,
    };
    let mut cycle = loop {
        if let Some(cycle) = made_cycle(&parameters(random)) {
            break cycle;
        }
    };
    let (start, end, pool) = ends(random, span);
    (cycle.start, cycle.end) = (start, end);
    cycle.rtol = random.of(&[1e-6, 1.0, f64::MIN_POSITIVE, f64::from_bits(1), f64::MAX]);
    cycle.atol = random.of(&[1e-9, 1.0, f64::MIN_POSITIVE, f64::from_bits(1), f64::MAX]);
    cycle.propagations = [0, 1000, u64::MAX][random.below(3)];
    cycle.output_budget = [0, 1000, usize::MAX][random.below(3)];
    if random.chance(4) {
        cycle.cells = draw::forged(random, &cycle.cells);
        cycle.rust = None;
    }
    let mut times = Times { start, end, pool };
    let n = cycle.n();
    cycle.words = events(random, &mut times, n, span);
    cycle.samples = samples(random, &times);
    if random.below(400) == 0 {
        full(random, &mut cycle);
    }
    if random.chance(30) {
        let spoils = [1, 1, 1, 1, 1, 2, 2, 3][random.below(8)];
        for _ in 0..spoils {
            spoil(random, &mut cycle);
        }
    }
    let count = cycle.event_count();
    cycle.event_budget = match random.below(10) {
        0..=2 => usize::MAX,
        3..=4 => count + random.below(300),
        5..=6 => count.max(pieces(&cycle)),
        7 => pieces(&cycle).max(1) - 1,
        8 => count,
        _ => random.below(count + 2),
    };
    cycle
}

/// A time that is unfit, or just outside of the cycle.
fn outside(random: &mut Random, cycle: &Cycle) -> f64 {
    match random.below(7) {
        0 => cycle.start.next_down(),
        // A zero of either sign.
        1 if cycle.end == 0.0 => random.zero(),
        1 => cycle.end,
        2 => cycle.end.next_up(),
        3 => f64::NAN,
        4 => cycle.end + (cycle.end - cycle.start),
        5 => random.unfit(),
        _ => random.edge(),
    }
}

/// One argument made to fail, or nearly so.
fn spoil(random: &mut Random, cycle: &mut Cycle) {
    let (n, count) = (cycle.n(), cycle.event_count());
    // The words of an event, where there is one.
    let event = (count > 0).then(|| EVENT * random.below(count));
    let of_kind = |random: &mut Random, cycle: &Cycle, kind: u64| {
        let found: Vec<usize> = (0..count)
            .map(|at| EVENT * at)
            .filter(|at| cycle.words[*at] == kind)
            .collect();
        (!found.is_empty()).then(|| found[random.below(found.len())])
    };
    match random.below(22) {
        0 => *[&mut cycle.rtol, &mut cycle.atol][random.below(2)] = random.edge(),
        1 => *[&mut cycle.start, &mut cycle.end][random.below(2)] = random.edge(),
        2 => match random.below(3) {
            0 => std::mem::swap(&mut cycle.start, &mut cycle.end),
            1 => cycle.end = cycle.start,
            _ => (cycle.start, cycle.end) = (-f64::MAX, f64::MAX),
        },
        3..=4 => {
            let at = random.below(cycle.samples.len() + 1);
            let time = if random.chance(30) {
                cycle.end.next_up()
            } else {
                outside(random, cycle)
            };
            cycle.samples.insert(at, time);
        }
        5..=6 => {
            if let Some(at) = event {
                cycle.words[at + 1] = outside(random, cycle).to_bits();
            }
        }
        // A stopping reset that 16 refuses, on the target of an infusion.
        7..=8 => {
            let (infusion, reset) = (
                of_kind(random, cycle, INFUSION),
                of_kind(random, cycle, RESET),
            );
            let time = outside(random, cycle).to_bits();
            if let (Some(infusion), Some(reset)) = (infusion, reset) {
                cycle.words[reset + 1] = time;
                cycle.words[reset + 2] = cycle.words[infusion + 2];
                cycle.words[reset + 5] = 1;
            } else if let Some(infusion) = infusion {
                let target = cycle.words[infusion + 2];
                cycle.words.extend([RESET, time, target, 0, 77, 1]);
            }
        }
        9 => {
            if let Some(at) = event {
                let n = n as u64;
                cycle.words[at + 2] = [n, n + 1, u64::MAX, 1 << 32, 1 << 63][random.below(5)];
            }
        }
        // An amount, or the value of a reset.
        10 => {
            if let Some(at) = event {
                cycle.words[at + 3] = random.unfit().to_bits();
            }
        }
        // A duration: unfit, lost in the sum, or the longest.
        11..=13 => {
            if let Some(at) = of_kind(random, cycle, INFUSION) {
                let duration = match random.below(5) {
                    0 => random.edge(),
                    1 => random.zero(),
                    2 => random.ulps(),
                    3 => f64::MAX,
                    _ => f64::MAX / 2.0,
                };
                cycle.words[at + 4] = duration.to_bits();
            }
        }
        // Another reset with the same time and order, on any target.
        14..=15 => {
            if let Some(at) = of_kind(random, cycle, RESET) {
                let mut words: Vec<u64> = cycle.words[at..at + EVENT].to_vec();
                let time = f64::from_bits(words[1]);
                if time == 0.0 {
                    words[1] = (-time).to_bits();
                }
                words[2] = random.below(n) as u64;
                cycle.words.extend(words);
            }
        }
        // Words that break the layout.
        16 => match event {
            Some(at) if random.chance(60) => {
                let word = random.next() | 3;
                match cycle.words[at] {
                    RESET if random.chance(80) => {
                        if random.chance(50) {
                            cycle.words[at + 4] = [65_536, u64::MAX, 1 << 32][random.below(3)];
                        } else {
                            cycle.words[at + 5] = [2, word, 1 << 32][random.below(3)];
                        }
                    }
                    _ => cycle.words[at] = [3, word, 1 << 32, 1 << 63][random.below(4)],
                }
            }
            _ => {
                let length = cycle.words.len() + 1 + random.below(5);
                cycle.words.resize(length, 0);
            }
        },
        17..=18 => {
            let genuine = made_cycle(&cycle.given).expect("parameters that new takes");
            cycle.cells = draw::forged(random, &genuine.cells);
            cycle.rust = None;
        }
        // Stop less time overflows, though the stop does not; with a reset too.
        19 => {
            let step = 2.0_f64.powi(970);
            cycle.start = -step * (3 + 4 * random.below(20)) as f64;
            cycle.end = random.of(&[0.0, -0.0, 1.0, 1e300]);
            let (time, target) = (cycle.start.to_bits(), random.below(n) as u64);
            cycle.words = vec![INFUSION, time, target, 0, f64::MAX.to_bits(), 0];
            if random.chance(40) {
                let time = outside(random, cycle).to_bits();
                cycle.words.extend([RESET, time, target, 0, 0, 1]);
            }
        }
        // The stop overflows, and a reset would shorten it.
        20 => {
            (cycle.start, cycle.end) = (random.zero(), random.of(&[1.5e308, f64::MAX]));
            let (time, target) = (random.scaled(1022, 1022), random.below(n) as u64);
            let duration = random.scaled(1023, 1023).to_bits();
            let reset = time * random.of(&[1.25, 1.0, 0.5]);
            cycle.words = vec![INFUSION, time.to_bits(), target, 0, duration, 0];
            let stops = u64::from(random.chance(80));
            cycle
                .words
                .extend([RESET, reset.to_bits(), target, 0, 0, stops]);
        }
        // Over a limit.
        _ => {
            if random.chance(50) {
                cycle
                    .samples
                    .resize(SAMPLES + 1 + random.below(2), f64::NAN);
            } else if random.chance(40) && !cycle.words.is_empty() {
                let words: Vec<u64> = cycle.words[..EVENT.min(cycle.words.len())].to_vec();
                while cycle.words.len() <= EVENT * EVENTS {
                    cycle.words.extend(&words);
                }
            }
        }
    }
}
