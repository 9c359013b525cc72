//! Random and edge closed cycles for the comparison.
use crate::cycle_draw;
use crate::cycle_entry::{made_cycle, Cycle, EVENTS};
use crate::draw::{self, Parameters, Random, TWO_59};
use crate::rust_run::{BOLUS, EVENT, INFUSION, RESET};
use crate::steady_entry::{Answer, Steady};

const MAX: f64 = f64::MAX;

/// What a closed cycle was made to be.
pub const KINDS: [&str; 14] = [
    "a patient",
    "a patient with resets on every state",
    "a cycle of the other comparison",
    "no clearance",
    "a pivot around the floor",
    "equal pivots",
    "doses near the largest double",
    "a tolerance at the greatest residual",
    "a tolerance just below the greatest residual",
    "a scale that overflows, or nearly so",
    "a budget at its edge",
    "a budget one below its edge",
    "rates that overflow, or take too many halvings",
    "64 events",
];

fn flow(random: &mut Random) -> f64 {
    if random.chance(6) {
        random.zero()
    } else if random.chance(30) {
        random.below(33) as f64 / 8.0
    } else {
        random.scaled(-4, 2)
    }
}

/// Parameters for some number of states.
fn parameters(random: &mut Random) -> Parameters {
    let n = 1 + random.below(4);
    let depot = n == 4 || (n > 1 && random.chance(50));
    let count = n - usize::from(depot);
    let volume = |random: &mut Random| {
        if random.chance(30) {
            [0.25, 0.5, 1.0, 2.0, 4.0, 8.0][random.below(6)]
        } else {
            random.scaled(-1, 5)
        }
    };
    Parameters {
        clearance: flow(random),
        volumes: (0..count).map(|_| volume(random)).collect(),
        exchange: (1..count).map(|_| flow(random)).collect(),
        depot,
        absorption: flow(random),
    }
}

/// A time of the cycle, most of them shared by others.
fn moment(random: &mut Random, start: f64, end: f64) -> f64 {
    let part = if random.chance(80) {
        random.below(8) as f64 / 8.0
    } else {
        random.below(1 << 20) as f64 / (1 << 20) as f64
    };
    let time = start + (end - start) * part;
    if time >= start && time < end {
        time
    } else {
        start
    }
}

fn dose(random: &mut Random) -> f64 {
    match random.below(10) {
        0 => random.zero(),
        1..=3 => random.below(65) as f64 / 8.0,
        _ => random.scaled(-3, 7),
    }
}

fn bolus(time: f64, target: usize, amount: f64) -> [u64; EVENT] {
    let target = target as u64;
    [BOLUS, time.to_bits(), target, amount.to_bits(), 0, 0]
}

fn infusion(time: f64, target: usize, amount: f64, duration: f64) -> [u64; EVENT] {
    let (target, duration) = (target as u64, duration.to_bits());
    [
        INFUSION,
        time.to_bits(),
        target,
        amount.to_bits(),
        duration,
        0,
    ]
}

fn reset(time: f64, target: usize, value: f64, order: u64, stops: u64) -> [u64; EVENT] {
    let target = target as u64;
    [RESET, time.to_bits(), target, value.to_bits(), order, stops]
}

/// An event of a cycle. Orders are the places in the list.
fn event(random: &mut Random, cycle: &Cycle, place: usize) -> [u64; EVENT] {
    let (start, end) = (cycle.start, cycle.end);
    let time = moment(random, start, end);
    let target = random.below(cycle.n());
    match random.below(8) {
        0..=2 => bolus(time, target, dose(random)),
        3..=5 => {
            let eighths = if random.chance(80) {
                1 + random.below(10)
            } else {
                1 + random.below(40)
            };
            let duration = (end - start) * (eighths as f64 / 8.0);
            infusion(time, target, dose(random), duration)
        }
        _ => {
            let value = if random.chance(50) {
                random.zero()
            } else {
                dose(random)
            };
            let stops = random.below(2) as u64;
            reset(time, target, value, place as u64, stops)
        }
    }
}

/// The pieces of the folded list, whatever the budget.
pub fn pieces(cycle: &Cycle) -> usize {
    let mut ample = cycle.clone();
    ample.event_budget = usize::MAX;
    ample.answer().pieces.len()
}

/// Budgets that are enough.
fn ample(random: &mut Random, cycle: &mut Cycle) {
    cycle.propagations = [1000, 10_000, u64::MAX][random.below(3)];
    cycle.event_budget = [1200, usize::MAX][random.below(2)];
    cycle.output_budget = [100_000, usize::MAX][random.below(2)];
}

/// Tolerances that a residual of some units in the last place passes.
fn tolerances(random: &mut Random) -> (f64, f64) {
    let absolute = random.of(&[1e-9, 1e-6, 1.0, f64::MIN_POSITIVE, 1e-12]);
    let relative = random.of(&[1e-9, 1e-6, 1e-12, 1.0, 0.0, -0.0]);
    (absolute, relative)
}

/// A patient whose cycle has these events at most.
fn patient_of(random: &mut Random, most: usize) -> Steady {
    let mut cycle = loop {
        if let Some(cycle) = made_cycle(&parameters(random)) {
            break cycle;
        }
    };
    cycle.start = random.of(&[0.0, 0.0, -0.0, -1.0, 2.5, -8.0]);
    cycle.end = cycle.start + random.of(&[1.0, 8.0, 24.0, 12.0, 0.5, 0.1, 3.0]);
    for place in 0..random.below(most + 1) {
        let words = event(random, &cycle, place);
        cycle.words.extend(words);
    }
    for _ in 0..random.below(3) {
        let sample = moment(random, cycle.start, cycle.end);
        cycle.samples.push(sample);
    }
    ample(random, &mut cycle);
    let (absolute, relative) = tolerances(random);
    Steady {
        cycle,
        absolute,
        relative,
    }
}

fn patient(random: &mut Random) -> Steady {
    patient_of(random, 4)
}

/// Mass that nothing takes away, over periods of all lengths.
fn no_clearance(random: &mut Random) -> Steady {
    let mut given = parameters(random);
    given.clearance = random.zero();
    for volume in &mut given.volumes {
        *volume = (1 + random.below(20)) as f64;
    }
    for q in given.exchange.iter_mut().chain([&mut given.absorption]) {
        *q = (1 + random.below(12)) as f64;
    }
    let mut steady = patient_of(random, 1);
    let cycle = made_cycle(&given).expect("a kernel");
    steady.cycle = Cycle {
        end: 2.0_f64.powi(random.below(40) as i32),
        ..cycle
    };
    ample(random, &mut steady.cycle);
    let n = steady.cycle.n();
    if random.chance(50) {
        let words = bolus(0.0, random.below(n), dose(random));
        steady.cycle.words.extend(words);
    }
    if random.chance(15) {
        let time = moment(random, 0.0, steady.cycle.end);
        let words = reset(time, random.below(n), 0.0, 0, 0);
        steady.cycle.words.extend(words);
    }
    steady.absolute = random.of(&[1e-9, 1.0, 1e300]);
    steady
}

/// Rate times period is some units of 2^-53, around the 128 of the floor.
fn small_pivot(random: &mut Random) -> Steady {
    let mut steady = patient_of(random, 0);
    let units = match random.below(4) {
        0 => random.below(400) as f64,
        1 => 256.0 + random.below(5) as f64 - 2.0,
        _ => 128.0 + random.below(9) as f64 - 4.0,
    };
    let rate = units * f64::EPSILON / 2.0;
    let n = 1 + random.below(3);
    let given = Parameters {
        clearance: rate,
        volumes: vec![1.0; n],
        exchange: (1..n).map(|_| random.of(&[0.0, rate, 1.0])).collect(),
        depot: random.chance(30),
        absorption: random.of(&[rate, 1.0]),
    };
    let cycle = made_cycle(&given).expect("a kernel");
    steady.cycle = Cycle {
        end: random.of(&[1.0, 1.0, 2.0, 0.5]),
        ..cycle
    };
    ample(random, &mut steady.cycle);
    if random.chance(60) {
        let target = random.below(steady.cycle.n());
        steady.cycle.words.extend(bolus(0.0, target, dose(random)));
    }
    steady
}

/// A depot whose whole content moves on, and resets at the start: entries of one
/// column with the same magnitude.
fn equal_pivots(random: &mut Random) -> Steady {
    let mut steady = patient_of(random, 0);
    let count = 1 + random.below(3);
    let still = random.chance(70);
    let given = Parameters {
        clearance: if still { 0.0 } else { flow(random) },
        volumes: (0..count).map(|_| random.scaled(-1, 3)).collect(),
        exchange: (1..count)
            .map(|_| if still { 0.0 } else { flow(random) })
            .collect(),
        depot: count < 3 || random.chance(70),
        absorption: random.of(&[0.5, 1.0, 0.125, 3.0, 40.0, 0.3]),
    };
    let Some(cycle) = made_cycle(&given) else {
        return patient(random);
    };
    steady.cycle = Cycle {
        end: random.of(&[1.0, 2.0, 8.0, 24.0, 0.5]),
        ..cycle
    };
    ample(random, &mut steady.cycle);
    let cycle = &mut steady.cycle;
    let n = cycle.n();
    for target in usize::from(n > 1)..n {
        if random.chance(80) {
            let words = reset(0.0, target, dose(random), target as u64, 0);
            cycle.words.extend(words);
        }
    }
    for _ in 0..1 + random.below(2) {
        let time = moment(random, cycle.start, cycle.end);
        let words = bolus(time, random.below(n), dose(random));
        cycle.words.extend(words);
    }
    steady
}

/// Every state is reset once, so that no unit amount is left.
fn all_reset(random: &mut Random) -> Steady {
    let mut steady = patient_of(random, 2);
    let cycle = &mut steady.cycle;
    let n = cycle.n();
    for target in 0..n {
        let time = moment(random, cycle.start, cycle.end);
        let value = if random.chance(6) {
            -dose(random)
        } else {
            dose(random)
        };
        let words = reset(time, target, value, 100 + target as u64, 0);
        cycle.words.extend(words);
    }
    steady
}

fn huge(random: &mut Random) -> Steady {
    let mut steady = patient_of(random, 1);
    let cycle = &mut steady.cycle;
    let n = cycle.n();
    for _ in 0..1 + random.below(3) {
        let time = moment(random, cycle.start, cycle.end);
        let amount = if random.chance(50) {
            MAX
        } else {
            random.scaled(1019, 1023)
        };
        let target = random.below(n);
        let words = if random.chance(50) {
            bolus(time, target, amount)
        } else {
            let part = random.of(&[1.0, 0.5, 0.25, 2.0]);
            infusion(time, target, amount, (cycle.end - cycle.start) * part)
        };
        cycle.words.extend(words);
    }
    steady
}

/// A tolerance that is the greatest residual, or one step below it.
fn tight(random: &mut Random, below: bool) -> Steady {
    let mut steady = patient_of(random, 3);
    (steady.absolute, steady.relative) = (1.0, 1.0);
    let greatest = |answer: &Answer| {
        let sizes = answer.residual.iter().map(|v| v.abs());
        sizes.fold(0.0, f64::max)
    };
    for _ in 0..12 {
        let answer = steady.answer();
        let size = greatest(&answer);
        if answer.number == 0 && size > 0.0 {
            steady.absolute = if below { size.next_down() } else { size };
            steady.relative = random.zero();
            return steady;
        }
        steady = patient_of(random, 3);
        (steady.absolute, steady.relative) = (1.0, 1.0);
    }
    steady
}

fn wide_scale(random: &mut Random) -> Steady {
    let mut steady = patient_of(random, 3);
    match random.below(4) {
        0 => steady.relative = MAX,
        1 => steady.relative = random.scaled(1010, 1023),
        2 => steady.absolute = MAX,
        _ => (steady.absolute, steady.relative) = (MAX, random.of(&[1e292, 1e291, 1e293])),
    }
    steady
}

/// The three budgets of a closed cycle that are just enough.
pub fn edges(steady: &Steady) -> Option<(u64, usize, usize)> {
    let n = steady.cycle.n();
    let count = pieces(&steady.cycle);
    let advances = crate::closed::advances(&steady.cycle)?;
    let by = n + 2;
    Some((advances * by as u64, count * by, (4 * count + 2) * n * by))
}

fn at_edge(random: &mut Random, below: bool) -> Steady {
    let mut steady = patient_of(random, 3);
    let Some((propagations, events, outputs)) = edges(&steady) else {
        return steady;
    };
    let less = u64::from(below);
    let cycle = &mut steady.cycle;
    match random.below(3) {
        0 => cycle.propagations = propagations.max(less) - less,
        1 => cycle.event_budget = events.max(less as usize) - less as usize,
        _ => cycle.output_budget = outputs.max(less as usize) - less as usize,
    }
    if !below && random.chance(50) {
        (cycle.propagations, cycle.event_budget) = (propagations, events);
        cycle.output_budget = outputs;
    }
    steady
}

fn fast(random: &mut Random) -> Steady {
    let mut steady = patient_of(random, 2);
    let mut given = steady.cycle.given.clone();
    given.volumes[0] = 1.0;
    given.clearance = match random.below(4) {
        0 => random.scaled(1018, 1023),
        1 => random.scaled(60, 900),
        2 => TWO_59 + 128.0 * random.below(4) as f64,
        _ => random.scaled(40, 58),
    };
    if let Some(cycle) = made_cycle(&given) {
        steady.cycle.cells = cycle.cells;
        steady.cycle.rust = cycle.rust;
        steady.cycle.given = cycle.given;
    }
    steady
}

fn long(random: &mut Random) -> Steady {
    let mut steady = patient_of(random, 0);
    let cycle = &mut steady.cycle;
    let count = EVENTS - random.below(2);
    for place in 0..count {
        let words = event(random, cycle, place);
        cycle.words.extend(words);
    }
    steady
}

fn of_cycle(random: &mut Random) -> Steady {
    let mut cycle = cycle_draw::cycle(random);
    if random.chance(60) {
        ample(random, &mut cycle);
    }
    let (absolute, relative) = tolerances(random);
    Steady {
        cycle,
        absolute,
        relative,
    }
}

/// One argument made to fail, or nearly so.
fn spoil(random: &mut Random, steady: &mut Steady) {
    match random.below(12) {
        0..=1 => steady.absolute = random.edge(),
        2..=3 => steady.relative = random.edge(),
        4 => steady.absolute = random.zero(),
        5 => steady.cycle.propagations = random.below(60) as u64,
        6 => steady.cycle.event_budget = random.below(20),
        7 => steady.cycle.output_budget = random.below(300),
        8 => {
            let end = steady.cycle.end;
            steady.cycle.samples.push(random.of(&[
                end,
                end.next_up(),
                f64::NAN,
                end + 1.0,
                f64::NEG_INFINITY,
            ]));
        }
        9 => {
            let genuine = made_cycle(&steady.cycle.given).expect("parameters that new takes");
            steady.cycle.cells = draw::forged(random, &genuine.cells);
            steady.cycle.rust = None;
        }
        10 => {
            // A value below 0, or two infusions whose rates overflow.
            let (time, n) = (steady.cycle.start, steady.cycle.n());
            let target = random.below(n);
            if random.chance(50) {
                let words = reset(time, target, -dose(random), 7777, 0);
                steady.cycle.words.extend(words);
            } else {
                let duration = steady.cycle.end - steady.cycle.start;
                for _ in 0..2 {
                    let amount = MAX.min(MAX * duration);
                    steady
                        .cycle
                        .words
                        .extend(infusion(time, target, amount, duration));
                }
            }
        }
        _ => {
            let cycle = &mut steady.cycle;
            *[&mut cycle.rtol, &mut cycle.atol][random.below(2)] = random.edge();
        }
    }
}

/// A closed cycle, and what it was made to be.
pub fn steady(random: &mut Random) -> (Steady, &'static str) {
    let (mut steady, kind) = match random.below(1000) {
        0..=329 => (patient(random), 0),
        330..=389 => (all_reset(random), 1),
        390..=509 => (of_cycle(random), 2),
        510..=589 => (no_clearance(random), 3),
        590..=639 => (small_pivot(random), 4),
        640..=709 => (equal_pivots(random), 5),
        710..=769 => (huge(random), 6),
        770..=809 => (tight(random, false), 7),
        810..=839 => (tight(random, true), 8),
        840..=879 => (wide_scale(random), 9),
        880..=919 => (at_edge(random, false), 10),
        920..=959 => (at_edge(random, true), 11),
        960..=997 => (fast(random), 12),
        _ => (long(random), 13),
    };
    let tuned = (7..=11).contains(&kind);
    if !tuned && random.chance(20) {
        for _ in 0..1 + random.below(2) {
            spoil(random, &mut steady);
        }
    }
    (steady, KINDS[kind])
}
