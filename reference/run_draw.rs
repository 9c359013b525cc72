//! Random and edge runs for the comparison.
use crate::draw::{self, Parameters, Random};
use crate::rule::Kernel;
use crate::run_entry::{made, Room, Run, BOLUS, EVENT, EVENTS, INFUSION, RESET, SAMPLES};

/// What the times of a run are like.
#[derive(Clone, Copy, PartialEq)]
enum Span {
    /// Multiples of a step, most of them small.
    Grid,
    /// As a grid, with 0 at an end or inside.
    AroundZero,
    /// Drawn for a count of halvings.
    Aimed,
    /// Neighbouring doubles, subnormal ones too.
    Near,
    /// Ends whose difference overflows, or nearly so.
    Huge,
    /// Ends of any size.
    Any,
}

/// The size of a run's doses.
#[derive(Clone, Copy, PartialEq)]
enum Size {
    Ordinary,
    Whole,
    Zero,
    /// Sums overflow.
    Huge,
    /// Rates of some infusions overflow when summed.
    Rates,
    Any,
}

fn parameters(random: &mut Random, span: Span) -> Parameters {
    if random.chance(12) {
        return draw::parameters(random);
    }
    let n = 1 + random.below(4);
    let depot = n == 4 || (n > 1 && random.chance(50));
    let count = n - usize::from(depot);
    // Without any flow the longest interval can be advanced.
    let still = match span {
        Span::Huge => 60,
        Span::Any => 20,
        _ => 4,
    };
    let still = random.chance(still);
    let whole = random.chance(30);
    let mut flow = || {
        if still || random.chance(6) {
            random.zero()
        } else if whole {
            random.below(33) as f64 / 8.0
        } else {
            random.scaled(-5, 3)
        }
    };
    let clearance = flow();
    let exchange = (1..count).map(|_| flow()).collect();
    let absorption = flow();
    let volume = |_| {
        if whole {
            [0.25, 0.5, 1.0, 2.0, 4.0, 8.0][random.below(6)]
        } else {
            random.scaled(-2, 5)
        }
    };
    Parameters {
        clearance,
        volumes: (0..count).map(volume).collect(),
        exchange,
        depot,
        absorption,
    }
}

/// The ends of the window, and times in it that events and samples share.
fn times(random: &mut Random, span: Span, kernel: &Kernel) -> (f64, f64, Vec<f64>) {
    let mut pool = vec![];
    let (start, end) = match span {
        Span::Grid | Span::AroundZero => {
            let step = random.of(&[0.25, 0.5, 1.0, 1.0, 2.0, 0.1, 0.3]);
            let count = 1 + random.below(12) as i64;
            let first = match span {
                Span::AroundZero => -(random.below(count as usize + 1) as i64),
                _ => random.below(9) as i64 - 4,
            };
            pool.extend((first + 1..first + count).map(|i| i as f64 * step));
            (first as f64 * step, (first + count) as f64 * step)
        }
        Span::Aimed => {
            let length = draw::duration(random, kernel);
            let start = if random.chance(80) {
                0.0
            } else {
                length * (random.below(17) as f64 - 8.0)
            };
            pool.extend((1..8).map(|i| start + length * (i as f64 / 8.0)));
            (start, start + length)
        }
        Span::Near => {
            let mut at = match random.below(5) {
                0 => 0.0,
                1 => -random.ulps(),
                2 => 1.0 - f64::EPSILON,
                3 => random.scaled(-1074, 1020),
                _ => -random.scaled(-1074, 1020),
            };
            let start = at;
            for _ in 0..1 + random.below(9) {
                pool.push(at);
                at = at.next_up();
            }
            (start, at)
        }
        Span::Huge => {
            let large = [f64::MAX, f64::MAX / 2.0, 1e308, 0.75 * f64::MAX];
            let start = -random.of(&large);
            let end = if random.chance(85) {
                random.of(&large)
            } else {
                random.fit()
            };
            pool.extend([start / 2.0, end / 2.0, 0.0, 1.0, -1.0]);
            (start, end)
        }
        Span::Any => {
            let side = |random: &mut Random| {
                let size = if random.chance(60) {
                    random.scaled(-6, 6)
                } else {
                    random.fit()
                };
                if random.chance(50) {
                    size
                } else {
                    -size
                }
            };
            let (one, other) = (side(random), side(random));
            pool.extend((1..4).map(|i| one + (other - one) * (i as f64 / 4.0)));
            (one, other)
        }
    };
    let (mut start, mut end) = if end < start {
        (end, start)
    } else {
        (start, end)
    };
    if start == end {
        end = start.next_up();
    }
    for bound in [&mut start, &mut end] {
        if *bound == 0.0 {
            *bound = random.zero();
        }
    }
    pool.retain(|t| *t >= start && *t <= end);
    while pool.len() > 7 {
        pool.swap_remove(random.below(pool.len()));
    }
    pool.extend([start, end, start.next_up(), end.next_down()]);
    if start <= 0.0 && end >= 0.0 && (span != Span::Grid || random.chance(50)) {
        pool.extend([0.0, -0.0]);
    }
    (start, end, pool)
}

/// Draws times in a window, most of them out of the pool.
struct Times {
    start: f64,
    end: f64,
    pool: Vec<f64>,
    /// Percent of times that are new.
    fresh: usize,
}

impl Times {
    fn one(&self, random: &mut Random) -> f64 {
        if random.chance(self.fresh) {
            let part = random.below(1 << 20) as f64 / (1 << 20) as f64;
            let time = self.start + (self.end - self.start) * part;
            if time >= self.start && time <= self.end {
                return time;
            }
        }
        let time = random.of(&self.pool);
        // A zero of either sign.
        if time == 0.0 && random.chance(30) {
            -time
        } else {
            time
        }
    }
}

fn dose(random: &mut Random, size: Size) -> f64 {
    match size {
        Size::Ordinary => random.scaled(-4, 6),
        Size::Whole => random.below(33) as f64 / 8.0,
        Size::Zero => random.zero(),
        Size::Huge => random.scaled(1019, 1023),
        Size::Rates => random.of(&[f64::MAX, f64::MAX / 2.0, 0.75 * f64::MAX, 1.0]),
        Size::Any => random.fit(),
    }
}

/// The duration of an infusion from the time on, to a time that others have too
/// where one is found.
fn length(random: &mut Random, times: &Times, time: f64, size: Size) -> f64 {
    for _ in 0..6 {
        let duration = if size == Size::Rates && random.chance(70) {
            random.of(&[1.0, 2.0, 0.75])
        } else if random.chance(90) {
            times.one(random) - time
        } else {
            random.scaled(-1074, 4)
        };
        if duration > 0.0 && time + duration > time && time + duration <= times.end {
            return duration;
        }
    }
    // To the end, or refused by 12.
    times.end - time
}

fn events(random: &mut Random, times: &mut Times, n: usize, size: Size) -> Vec<u64> {
    let count = match random.below(1000) {
        0..=979 => random.below(9),
        980..=993 => 9 + random.below(24),
        994..=995 => 60 + random.below(8),
        996 => EVENTS - random.below(2),
        997 => EVENTS + 1 + random.below(4),
        _ => random.below(3),
    };
    if count > 8 && random.chance(60) {
        times.fresh = 90;
    }
    let kinds: &[u64] = match (size, random.below(10)) {
        (Size::Rates, _) => &[INFUSION, INFUSION, INFUSION, RESET],
        (_, 0) => &[BOLUS],
        (_, 1) => &[RESET],
        (_, 2) => &[INFUSION],
        (_, 3..=5) => &[INFUSION, INFUSION, RESET],
        _ => &[BOLUS, INFUSION, RESET],
    };
    // Few targets make events meet.
    let targets = if random.chance(50) {
        1 + random.below(n)
    } else {
        n
    };
    let mut words = Vec::with_capacity(count * EVENT);
    let mut used: Vec<(f64, u64)> = vec![];
    for _ in 0..count {
        let kind = kinds[random.below(kinds.len())];
        let mut time = times.one(random);
        // An infusion at the end has no duration.
        for _ in 0..4 {
            if kind == INFUSION && time == times.end {
                time = times.one(random);
            }
        }
        let target = random.below(targets) as u64;
        // Words that the kind lacks hold anything.
        let (fourth, fifth, sixth) = match kind {
            BOLUS => (dose(random, size), random.next(), random.next()),
            INFUSION => {
                let duration = length(random, times, time, size);
                if time + duration <= times.end && random.chance(60) {
                    times.pool.push(time + duration);
                }
                (dose(random, size), duration.to_bits(), random.next())
            }
            _ => {
                let mut order = random.below(5) as u64;
                for _ in 0..8 {
                    if !used.contains(&(time, order)) {
                        break;
                    }
                    order = match random.below(8) {
                        0 => 65_535,
                        1 => random.below(65_536) as u64,
                        _ => random.below(9) as u64,
                    };
                }
                used.push((time, order));
                let value = match random.below(100) {
                    0 => -random.fit(),
                    1..=12 => random.zero(),
                    _ => dose(random, size),
                };
                (value, order, random.below(2) as u64)
            }
        };
        words.extend([kind, time.to_bits(), target, fourth.to_bits(), fifth, sixth]);
    }
    words
}

fn samples(random: &mut Random, times: &Times) -> Vec<f64> {
    let count = match random.below(1000) {
        0..=984 => random.below(11),
        985..=994 => 11 + random.below(30),
        995 => SAMPLES - random.below(2),
        996..=997 => SAMPLES + 1 + random.below(3),
        _ => 0,
    };
    let mut samples: Vec<f64> = (0..count).map(|_| times.one(random)).collect();
    // Equal ones, and ones that differ in the sign of a zero.
    for at in 1..samples.len() {
        if random.chance(12) {
            let other = samples[random.below(at)];
            samples[at] = if other == 0.0 { -other } else { other };
        }
    }
    samples
}

/// Lengths for the reckoned rows, some of them longer.
fn room(random: &mut Random, rows: usize, n: usize) -> Room {
    let mut more = |most: usize| {
        if random.chance(60) {
            0
        } else {
            random.below(most)
        }
    };
    Room {
        times: rows + more(4),
        sides: rows + more(4),
        values: rows * n + more(2 * n + 2),
    }
}

/// A run, most of them ones that begin.
pub fn run(random: &mut Random) -> Run {
    let span = match random.below(100) {
        0..=34 => Span::Grid,
        35..=54 => Span::AroundZero,
        55..=74 => Span::Aimed,
        75..=84 => Span::Near,
        85..=91 => Span::Huge,
        _ => Span::Any,
    };
    let size = match random.below(100) {
        0..=54 => Size::Ordinary,
        55..=74 => Size::Whole,
        75..=80 => Size::Zero,
        81..=87 => Size::Huge,
        88..=92 => Size::Rates,
        _ => Size::Any,
    };
    let (given, rust, cells) = loop {
        let given = parameters(random, span);
        if let Some((rust, cells)) = made(&given) {
            break (given, rust, cells);
        }
    };
    let kernel = Kernel::read(&cells).expect("a kernel");
    let (start, end, pool) = times(random, span, &kernel);
    let mut run = Run {
        given,
        rust: Some(rust),
        cells: cells.to_vec(),
        amounts: vec![],
        start,
        end,
        rtol: random.of(&[1e-6, 1.0, f64::MIN_POSITIVE, f64::from_bits(1), f64::MAX]),
        atol: random.of(&[1e-9, 1.0, f64::MIN_POSITIVE, f64::from_bits(1), f64::MAX]),
        propagations: match random.below(100) {
            0..=79 => 1000,
            80..=84 => u64::MAX,
            _ => random.below(12) as u64,
        },
        event_budget: 0,
        output_budget: 0,
        words: vec![],
        samples: vec![],
        room: Room {
            times: 0,
            sides: 0,
            values: 0,
        },
    };
    if random.chance(6) {
        run.cells = draw::forged(random, &run.cells);
        run.rust = None;
    }
    let n = run.n();
    run.amounts = (0..n)
        .map(|_| {
            if random.chance(15) {
                random.zero()
            } else {
                dose(random, size)
            }
        })
        .collect();
    let mut times = Times {
        start,
        end,
        pool,
        fresh: random.below(40),
    };
    run.words = events(random, &mut times, n, size);
    run.samples = samples(random, &times);

    let (count, rows) = (run.event_count(), run.reckoned());
    run.event_budget = match random.below(3) {
        0 => count,
        1 => usize::MAX,
        _ => count + random.below(300),
    };
    run.output_budget = match random.below(3) {
        0 => rows * n,
        1 => usize::MAX,
        _ => rows * n + random.below(5000),
    };
    run.room = room(random, rows, n);
    if random.chance(35) {
        let spoils = [1, 1, 1, 1, 1, 1, 2, 2, 2, 3][random.below(10)];
        for _ in 0..spoils {
            spoil(random, &mut run);
        }
    }
    run
}

/// One argument made to fail, or nearly so.
fn spoil(random: &mut Random, run: &mut Run) {
    let (n, count) = (run.n(), run.event_count());
    // The words of an event, where there is one.
    let event = (count > 0).then(|| EVENT * random.below(count));
    let kind = |run: &Run, at: usize| run.words[at];
    match random.below(19) {
        0 => *[&mut run.rtol, &mut run.atol][random.below(2)] = random.edge(),
        1 => *[&mut run.start, &mut run.end][random.below(2)] = random.edge(),
        2 => {
            if !run.samples.is_empty() {
                let at = random.below(run.samples.len());
                run.samples[at] = outside(random, run);
            }
        }
        3 => {
            if let Some(at) = event {
                run.words[at + 1] = outside(random, run).to_bits();
            }
        }
        4 => {
            if let Some(at) = event {
                let n = n as u64;
                run.words[at + 2] = [n, n + 1, u64::MAX, 1 << 32, 1 << 63][random.below(5)];
            }
        }
        // An amount, or the value of a reset.
        5 => {
            if let Some(at) = event {
                run.words[at + 3] = random.unfit().to_bits();
            }
        }
        // A duration: unfit, lost in the sum, or just past the window.
        6..=7 => {
            if let Some(at) = event.filter(|&at| kind(run, at) == INFUSION) {
                let left = run.end - f64::from_bits(run.words[at + 1]);
                let duration = match random.below(5) {
                    0 => random.edge(),
                    1 => random.zero(),
                    2 => random.ulps(),
                    3 => left.next_up(),
                    _ => left * 2.0,
                };
                run.words[at + 4] = duration.to_bits();
            }
        }
        // Another reset with the same time and order, on any target.
        8..=9 => {
            if let Some(at) = event.filter(|&at| kind(run, at) == RESET) {
                let mut words: Vec<u64> = run.words[at..at + EVENT].to_vec();
                let time = f64::from_bits(words[1]);
                if time == 0.0 {
                    words[1] = (-time).to_bits();
                }
                words[2] = random.below(n) as u64;
                // At the end, or in place of another event.
                if random.chance(50) {
                    run.words.extend(words);
                    run.room = room(random, run.reckoned(), n);
                    run.event_budget = run.event_budget.saturating_add(1);
                    run.output_budget = run.output_budget.saturating_add(4 * n);
                } else {
                    let other = EVENT * random.below(count);
                    run.words[other..other + EVENT].copy_from_slice(&words);
                }
            }
        }
        10 => run.event_budget = random.below(count + 1),
        11 => {
            let whole = run.reckoned() * n;
            run.output_budget = [whole - 1, whole - 1, random.below(whole), 0][random.below(4)];
        }
        12..=13 => short(random, run),
        14 => {
            run.amounts = draw::amounts(random, n);
        }
        15 => match random.below(3) {
            0 => {
                if !run.amounts.is_empty() {
                    let at = random.below(run.amounts.len());
                    run.amounts[at] = random.unfit();
                }
            }
            1 => {
                run.amounts.pop();
            }
            _ => run.amounts.push(1.0),
        },
        // Words that break the layout.
        16 => match event {
            Some(at) if random.chance(60) => {
                let word = random.next() | 3;
                match kind(run, at) {
                    RESET if random.chance(80) => {
                        if random.chance(50) {
                            run.words[at + 4] = [65_536, u64::MAX, 1 << 32][random.below(3)];
                        } else {
                            run.words[at + 5] = [2, word, 1 << 32][random.below(3)];
                        }
                    }
                    _ => run.words[at] = [3, word, 1 << 32, 1 << 63][random.below(4)],
                }
            }
            _ => {
                let length = run.words.len() + 1 + random.below(5);
                run.words.resize(length, 0);
            }
        },
        17 => {
            run.cells = draw::forged(random, &run.cells_of_new());
            run.rust = None;
        }
        // Over a limit.
        _ => {
            if random.chance(50) {
                run.samples.resize(SAMPLES + 1 + random.below(2), f64::NAN);
            } else if random.chance(20) && !run.words.is_empty() {
                let words: Vec<u64> = run.words[..EVENT.min(run.words.len())].to_vec();
                while run.words.len() <= EVENT * EVENTS {
                    run.words.extend(&words);
                }
            }
        }
    }
}

/// A time that is unfit, or just outside of the window.
fn outside(random: &mut Random, run: &Run) -> f64 {
    match random.below(4) {
        0 => run.start.next_down(),
        1 => run.end.next_up(),
        2 => random.unfit(),
        _ => random.edge(),
    }
}

/// A lent slice that is too short.
fn short(random: &mut Random, run: &mut Run) {
    let (rows, n) = (run.reckoned(), run.n());
    let less = |random: &mut Random, whole: usize| match random.below(4) {
        0 => whole - 1,
        1 => whole.saturating_sub(2),
        2 => 0,
        _ => random.below(whole),
    };
    match random.below(3) {
        0 => run.room.times = less(random, rows),
        1 => run.room.sides = less(random, rows),
        _ => {
            run.room.values = match random.below(3) {
                0 => rows * n - n,
                1 => rows * n - 1,
                _ => less(random, rows * n),
            }
        }
    }
}
