//! Random sheets for the comparison: runs of every kind, sheets that are made
//! for a number, and sheets that are changed at random.
use crate::draw::{Random, FIT_EDGES, UNFIT_EDGES};
use crate::run_draw;
use crate::run_entry::{Run, BOLUS, EVENT, INFUSION, RESET};
use crate::sheet::{Bodies, EVENTS, FIRST, HEAD, SAMPLES, WORDS};
use crate::sheet_broken::BROKEN;

const MAX: f64 = f64::MAX;
/// Places in the model's body.
const CLEARANCE: usize = 0;
pub const DEPOT: usize = 1;
const ABSORPTION: usize = 2;
pub const COUNT: usize = 3;
pub const VOLUMES: usize = 4;
/// Words of the window, and places in its body.
pub const WINDOW: usize = 9;
pub const START: usize = 0;
pub const END: usize = 1;
const RTOL: usize = 2;
const ATOL: usize = 3;
const PROPAGATIONS: usize = 4;
const EVENT_BUDGET: usize = 5;
const OUTPUT_BUDGET: usize = 6;

fn real(word: u64) -> f64 {
    f64::from_bits(word)
}

/// The words of a sheet with these bodies.
pub fn packed(bodies: &Bodies) -> Vec<u64> {
    let parts = [
        &bodies.model,
        &bodies.window,
        &bodies.amounts,
        &bodies.samples,
        &bodies.events,
    ];
    let mut words = vec![FIRST];
    let mut at = HEAD as u64;
    for part in parts {
        words.extend([at, part.len() as u64]);
        at += part.len() as u64;
    }
    words.extend(parts.into_iter().flatten());
    words
}

pub fn bytes(words: &[u64]) -> Vec<u8> {
    words.iter().flat_map(|word| word.to_le_bytes()).collect()
}

pub fn states(bodies: &Bodies) -> usize {
    (bodies.model[COUNT] + bodies.model[DEPOT]) as usize
}

fn event_count(bodies: &Bodies) -> usize {
    bodies.events.len() / EVENT
}

fn reckoned(bodies: &Bodies) -> usize {
    4 * event_count(bodies) + bodies.samples.len() + 2
}

/// Any pattern: a double of every kind, NaN with payloads, small whole numbers.
pub fn pattern(random: &mut Random) -> u64 {
    match random.below(10) {
        0 => random.next(),
        1 => 0x7ff0_0000_0000_0001 + (random.next() >> 13),
        2 => 0xfff0_0000_0000_0001 + (random.next() >> 13),
        3..=4 => UNFIT_EDGES[random.below(UNFIT_EDGES.len())],
        5..=6 => FIT_EDGES[random.below(FIT_EDGES.len())].to_bits(),
        7 => random.scaled(-1074, 1023).to_bits(),
        8 => random.below(9) as u64,
        _ => WHOLE[random.below(WHOLE.len())],
    }
}

/// Whole numbers that break a narrower or a signed arithmetic, or a limit.
pub const WHOLE: [u64; 24] = [
    0,
    1,
    2,
    3,
    4,
    5,
    6,
    9,
    11,
    63,
    64,
    65,
    255,
    256,
    257,
    65_535,
    65_536,
    1 << 32,
    (1 << 32) + 1,
    1 << 61,
    1 << 63,
    (1 << 63) + 1,
    u64::MAX - 1,
    u64::MAX,
];

// ---- bodies

/// The bodies of a run's arguments.
fn of_run(run: &Run, random: &mut Random) -> Bodies {
    let given = &run.given;
    let list = |values: &[f64]| -> Vec<u64> { values.iter().map(|v| v.to_bits()).collect() };
    let mut model = vec![
        given.clearance.to_bits(),
        u64::from(given.depot),
        given.absorption.to_bits(),
        given.volumes.len() as u64,
    ];
    model.extend(list(&given.volumes));
    model.extend(list(&given.exchange));
    let mut window = list(&[run.start, run.end, run.rtol, run.atol]);
    window.extend([
        run.propagations,
        run.event_budget as u64,
        run.output_budget as u64,
        pattern(random),
        pattern(random),
    ]);
    Bodies {
        model,
        window,
        amounts: list(&run.amounts),
        samples: list(&run.samples),
        events: run.words.clone(),
    }
}

/// A short sheet whose run reaches its end, but for rare overflows.
fn fit(random: &mut Random) -> Bodies {
    let n = 1 + random.below(4);
    let depot = n == 4 || (n > 1 && random.chance(50));
    let count = n - usize::from(depot);
    let flow = |random: &mut Random| {
        if random.chance(12) {
            random.zero()
        } else {
            random.scaled(-4, 2)
        }
    };
    let absorption = if depot {
        flow(random).to_bits()
    } else {
        pattern(random)
    };
    let mut model = vec![
        flow(random).to_bits(),
        u64::from(depot),
        absorption,
        count as u64,
    ];
    for _ in 0..count {
        model.push(random.scaled(-1, 5).to_bits());
    }
    for _ in 1..count {
        model.push(flow(random).to_bits());
    }
    let start = random.of(&[0.0, 0.0, -0.0, -1.0, 2.5, -8.0]);
    let end = start + random.of(&[1.0, 8.0, 24.0, 0.5, 0.1]);
    let mut bodies = Bodies {
        model,
        ..Bodies::default()
    };
    for _ in 0..n {
        let amount = if random.chance(15) {
            random.zero()
        } else {
            random.scaled(-3, 7)
        };
        bodies.amounts.push(amount.to_bits());
    }
    for _ in 0..random.below(5) {
        bodies.samples.push(moment(random, start, end).to_bits());
    }
    for place in 0..random.below(5) {
        let words = event(random, start, end, n, place as u64);
        bodies.events.extend(words);
    }
    let (events, values) = (event_count(&bodies) as u64, (reckoned(&bodies) * n) as u64);
    bodies.window = vec![
        start.to_bits(),
        end.to_bits(),
        random.of(&[1e-6, 1.0, f64::MIN_POSITIVE, MAX]).to_bits(),
        random.of(&[1e-9, 1.0, f64::from_bits(1)]).to_bits(),
        [0, 0, 1000, 64, u64::MAX][random.below(5)],
        [events, 64, u64::MAX][random.below(3)],
        [values, 10_000, u64::MAX][random.below(3)],
        pattern(random),
        pattern(random),
    ];
    bodies
}

/// A time in the window, ends included, most of them shared by others.
pub fn moment(random: &mut Random, start: f64, end: f64) -> f64 {
    let part = if random.chance(80) {
        random.below(9) as f64 / 8.0
    } else {
        random.below(1 << 20) as f64 / (1 << 20) as f64
    };
    let time = start + (end - start) * part;
    if time >= start && time <= end {
        time
    } else {
        start
    }
}

/// An event that the preparation takes. Orders are the places in the list, and
/// words that a kind lacks hold anything.
pub fn event(random: &mut Random, start: f64, end: f64, n: usize, place: u64) -> [u64; EVENT] {
    let time = moment(random, start, end);
    let target = random.below(n) as u64;
    let amount = if random.chance(10) {
        random.zero()
    } else {
        random.scaled(-3, 7)
    };
    let kind = random.below(3) as u64;
    if kind == INFUSION {
        let time = moment(random, start, start + (end - start) / 2.0);
        let duration = (end - time) / [1.0, 2.0, 4.0][random.below(3)];
        let fits = time + duration <= end && time + duration > time;
        if fits {
            let duration = duration.to_bits();
            return [
                INFUSION,
                time.to_bits(),
                target,
                amount.to_bits(),
                duration,
                pattern(random),
            ];
        }
    }
    if kind == RESET {
        let order = if random.chance(50) {
            place
        } else {
            65_535 - place
        };
        let stops = random.below(2) as u64;
        return [
            RESET,
            time.to_bits(),
            target,
            amount.to_bits(),
            order,
            stops,
        ];
    }
    let (fifth, sixth) = (pattern(random), pattern(random));
    [
        BOLUS,
        time.to_bits(),
        target,
        amount.to_bits(),
        fifth,
        sixth,
    ]
}

/// Enough budgets for the bodies as they now are.
fn ample(bodies: &mut Bodies) {
    bodies.window[PROPAGATIONS] = 0;
    bodies.window[EVENT_BUDGET] = u64::MAX;
    bodies.window[OUTPUT_BUDGET] = u64::MAX;
}

/// No flow, so that the longest interval can be advanced.
fn still(bodies: &mut Bodies) {
    let count = bodies.model[COUNT] as usize;
    bodies.model[CLEARANCE] = 0;
    bodies.model[ABSORPTION] = 0;
    bodies.model[VOLUMES + count..].fill(0);
}

fn set_window(bodies: &mut Bodies, start: f64, end: f64) {
    (bodies.window[START], bodies.window[END]) = (start.to_bits(), end.to_bits());
}

fn push_event(bodies: &mut Bodies, words: [u64; EVENT]) {
    bodies.events.extend(words);
    ample(bodies);
}

fn infusion(time: f64, amount: f64, duration: f64) -> [u64; EVENT] {
    [
        INFUSION,
        time.to_bits(),
        0,
        amount.to_bits(),
        duration.to_bits(),
        0,
    ]
}

/// The place of some event's words.
pub fn some_event(random: &mut Random, bodies: &mut Bodies, kind: Option<u64>) -> usize {
    let (start, end) = (real(bodies.window[START]), real(bodies.window[END]));
    let n = states(bodies);
    let found: Vec<usize> = (0..bodies.events.len())
        .step_by(EVENT)
        .filter(|at| kind.is_none_or(|kind| bodies.events[*at] == kind))
        .collect();
    if !found.is_empty() && random.chance(80) {
        return found[random.below(found.len())];
    }
    let at = bodies.events.len();
    let place = event_count(bodies) as u64 + 100;
    let mut words = event(random, start, end, n, place);
    // In a window that is none no infusion is found.
    for _ in 0..40 {
        if kind.is_some_and(|kind| words[0] != kind) {
            words = event(random, start, end, n, place);
        }
    }
    push_event(bodies, words);
    at
}

// ---- sheets that are made for a number

pub struct Recipe {
    pub name: &'static str,
    /// The number that the sheet is made for.
    pub number: u64,
    change: fn(&mut Random, &mut Bodies),
}

pub const RECIPES: [Recipe; 17] = [
    recipe("a run that reaches its end", 0, |_, _| {}),
    recipe("over a limit", 5, over_limit),
    recipe("a parameter of the model", 1, parameter),
    recipe("a rate that overflows", 2, rate),
    recipe("the amounts", 3, amounts),
    recipe("a window whose length overflows", 3, long_window),
    recipe("the window or its tolerances", 10, window),
    recipe("a sample", 11, sample),
    recipe("an event", 12, bad_event),
    recipe("the event budget", 13, |random, bodies| {
        let at = some_event(random, bodies, None);
        let below = 1 + at / EVENT;
        bodies.window[EVENT_BUDGET] = random.below(below) as u64;
    }),
    recipe("the output budget", 14, |random, bodies| {
        let values = reckoned(bodies) * states(bodies);
        let fewer = [values - 1, values - 1, 0, random.below(values)];
        bodies.window[OUTPUT_BUDGET] = fewer[random.below(4)] as u64;
    }),
    recipe("a norm that overflows", 20, |random, bodies| {
        still(bodies);
        bodies.model[CLEARANCE] = random.scaled(1018, 1023).to_bits();
        bodies.model[VOLUMES] = 1.0_f64.to_bits();
        quiet(random, bodies, 64.0);
    }),
    recipe("more than 60 halvings", 21, |random, bodies| {
        still(bodies);
        let clearance = if random.chance(50) {
            random.scaled(60, 900)
        } else {
            crate::draw::TWO_59 + 128.0 * (1 + random.below(9)) as f64
        };
        bodies.model[CLEARANCE] = clearance.to_bits();
        bodies.model[VOLUMES] = 1.0_f64.to_bits();
        quiet(random, bodies, 1.0);
    }),
    recipe("an amount or an integrated input", 22, |random, bodies| {
        still(bodies);
        quiet(random, bodies, 4.0);
        bodies.events.clear();
        let start = real(bodies.window[START]);
        if random.chance(50) {
            push_event(bodies, infusion(start, MAX, 4.0));
            push_event(bodies, infusion(start, MAX, 4.0));
        } else {
            bodies.amounts[0] = MAX.to_bits();
            push_event(bodies, infusion(start, MAX, 4.0));
        }
    }),
    recipe("the propagation budget", 30, |random, bodies| {
        let (start, end) = (real(bodies.window[START]), real(bodies.window[END]));
        for _ in 0..1 + random.below(4) {
            let inside = start + (end - start) * (1 + random.below(30)) as f64 / 32.0;
            bodies.samples.push(inside.to_bits());
        }
        ample(bodies);
        bodies.window[PROPAGATIONS] = 1 + random.below(2) as u64;
    }),
    recipe("a state", 31, |random, bodies| {
        if random.chance(50) {
            let at = some_event(random, bodies, Some(RESET));
            bodies.events[at + 3] = (-random.scaled(-1074, 1023)).to_bits();
        } else {
            still(bodies);
            let at = some_event(random, bodies, Some(BOLUS));
            bodies.events[at + 3] = MAX.to_bits();
            let target = bodies.events[at + 2] as usize;
            if let Some(amount) = bodies.amounts.get_mut(target) {
                *amount = MAX.to_bits();
            }
        }
    }),
    recipe("summed rates", 32, |random, bodies| {
        quiet(random, bodies, 2.0);
        bodies.events.clear();
        let start = real(bodies.window[START]);
        for _ in 0..3 {
            push_event(bodies, infusion(start, MAX, random.of(&[1.0, 2.0, 1.5])));
        }
    }),
];

const fn recipe(name: &'static str, number: u64, change: fn(&mut Random, &mut Bodies)) -> Recipe {
    Recipe {
        name,
        number,
        change,
    }
}

/// A window of this length from 0, and no event or sample that could be refused
/// first.
fn quiet(random: &mut Random, bodies: &mut Bodies, length: f64) {
    let start = random.zero();
    set_window(bodies, start, length);
    bodies.events.clear();
    bodies.samples.clear();
    if random.chance(30) {
        bodies.samples.push(random.zero().to_bits());
    }
    ample(bodies);
}

pub fn over_limit(random: &mut Random, bodies: &mut Bodies) {
    if random.chance(50) {
        let count = match random.below(10) {
            0..=6 => EVENTS + 1,
            7..=8 => EVENTS + 2 + random.below(8),
            _ => 200 + random.below(1100),
        };
        let at = some_event(random, bodies, None);
        let words = bodies.events[at..at + EVENT].to_vec();
        while event_count(bodies) < count {
            bodies.events.extend(&words);
        }
    } else {
        let count = match random.below(10) {
            0..=6 => SAMPLES + 1,
            7..=8 => SAMPLES + 2 + random.below(8),
            _ => 300 + random.below(7000),
        };
        let start = bodies.window[START];
        bodies.samples.resize(count, start);
    }
    ample(bodies);
}

pub fn parameter(random: &mut Random, bodies: &mut Bodies) {
    let count = bodies.model[COUNT] as usize;
    match random.below(4) {
        0 => bodies.model[CLEARANCE] = random.unfit().to_bits(),
        1 if count > 1 => {
            let at = VOLUMES + count + random.below(count - 1);
            bodies.model[at] = random.unfit().to_bits();
        }
        2 if bodies.model[DEPOT] == 1 => bodies.model[ABSORPTION] = random.unfit().to_bits(),
        _ => {
            let at = VOLUMES + random.below(count);
            bodies.model[at] = if random.chance(30) {
                random.zero().to_bits()
            } else {
                random.unfit().to_bits()
            };
        }
    }
}

pub fn rate(random: &mut Random, bodies: &mut Bodies) {
    let count = bodies.model[COUNT] as usize;
    let (large, small) = (random.scaled(1000, 1023), random.scaled(-1074, -30));
    match random.below(3) {
        // A peripheral's rate.
        0 if count > 1 => {
            let at = 1 + random.below(count - 1);
            bodies.model[VOLUMES + at] = small.to_bits();
            bodies.model[VOLUMES + count + at - 1] = large.to_bits();
        }
        // Only the sum on the diagonal.
        1 if count > 1 => {
            bodies.model[VOLUMES..VOLUMES + count].fill(1.0_f64.to_bits());
            bodies.model[CLEARANCE] = (0.75 * MAX).to_bits();
            bodies.model[VOLUMES + count] = (0.75 * MAX).to_bits();
        }
        _ => {
            bodies.model[CLEARANCE] = large.to_bits();
            bodies.model[VOLUMES] = small.to_bits();
        }
    }
}

fn amounts(random: &mut Random, bodies: &mut Bodies) {
    let n = states(bodies);
    if random.chance(40) {
        let at = random.below(n);
        bodies.amounts[at] = random.unfit().to_bits();
        return;
    }
    let mut count = n;
    while count == n {
        count = match random.below(20) {
            0..=9 => random.below(7),
            10..=17 => random.below(40),
            18 => random.below(1000),
            _ => {
                random.below(WORDS - HEAD - WINDOW - 9 - bodies.samples.len() - bodies.events.len())
            }
        };
    }
    let more = pattern(random);
    bodies.amounts.resize(count, more);
}

fn long_window(random: &mut Random, bodies: &mut Bodies) {
    still(bodies);
    quiet(random, bodies, 1.0);
    let large = [MAX, 0.75 * MAX, 1e308];
    set_window(bodies, -random.of(&large), random.of(&large));
}

fn window(random: &mut Random, bodies: &mut Bodies) {
    match random.below(6) {
        0 => bodies.window[RTOL] = not_positive(random),
        1 => bodies.window[ATOL] = not_positive(random),
        2 => bodies.window[START] = [f64::NAN, f64::NEG_INFINITY][random.below(2)].to_bits(),
        3 => bodies.window[END] = [f64::NAN, f64::INFINITY][random.below(2)].to_bits(),
        4 => {
            let start = real(bodies.window[START]);
            let end = if start == 0.0 { -start } else { start };
            bodies.window[END] = end.to_bits();
        }
        _ => bodies.window.swap(START, END),
    }
}

fn not_positive(random: &mut Random) -> u64 {
    if random.chance(30) {
        random.zero().to_bits()
    } else {
        random.unfit().to_bits()
    }
}

/// A time outside of the window, or none.
fn outside(random: &mut Random, bodies: &Bodies) -> u64 {
    let (start, end) = (real(bodies.window[START]), real(bodies.window[END]));
    match random.below(6) {
        0 => start.next_down().to_bits(),
        1 => end.next_up().to_bits(),
        2 => 0x7ff0_0000_0000_0001 + (random.next() >> 13),
        3 => f64::INFINITY.to_bits(),
        4 => f64::NEG_INFINITY.to_bits(),
        _ => MAX.to_bits(),
    }
}

fn sample(random: &mut Random, bodies: &mut Bodies) {
    let time = outside(random, bodies);
    let at = random.below(bodies.samples.len() + 1);
    bodies.samples.insert(at, time);
    ample(bodies);
}

fn bad_event(random: &mut Random, bodies: &mut Bodies) {
    let kind = random.below(9);
    match kind {
        0 => {
            let at = some_event(random, bodies, None);
            bodies.events[at + 1] = outside(random, bodies);
        }
        1 => {
            let at = some_event(random, bodies, None);
            let n = states(bodies) as u64;
            bodies.events[at + 2] = [n, n + 1, 1 << 32, 1 << 63, u64::MAX][random.below(5)];
        }
        // An amount that is not finite or below 0; a value that is not finite.
        2..=3 => {
            let wanted = [BOLUS, INFUSION][kind - 2];
            let at = some_event(random, bodies, Some(wanted));
            bodies.events[at + 3] = random.unfit().to_bits();
        }
        4 => {
            let at = some_event(random, bodies, Some(RESET));
            bodies.events[at + 3] = UNFIT_EDGES[random.below(7)];
        }
        5..=6 => {
            let at = some_event(random, bodies, Some(INFUSION));
            let left = real(bodies.window[END]) - real(bodies.events[at + 1]);
            let duration = [0.0, -0.0, -1.0, f64::NAN, f64::INFINITY, 2.0 * left + 1.0];
            bodies.events[at + 4] = random.of(&duration).to_bits();
        }
        // A rate that overflows.
        7 => {
            let at = some_event(random, bodies, Some(INFUSION));
            bodies.events[at + 1] = bodies.window[START];
            bodies.events[at + 3] = MAX.to_bits();
            bodies.events[at + 4] = (1.0 / 32.0_f64).to_bits();
        }
        // An order that is used twice.
        _ => {
            let at = some_event(random, bodies, Some(RESET));
            let mut words: [u64; EVENT] = bodies.events[at..at + EVENT].try_into().expect("six");
            words[2] = random.below(states(bodies)) as u64;
            words[5] = random.below(2) as u64;
            push_event(bodies, words);
        }
    }
}

/// More words in the amounts, or in the samples.
pub fn grow(random: &mut Random, bodies: &mut Bodies, more: usize) {
    let body = if random.chance(50) {
        &mut bodies.amounts
    } else {
        &mut bodies.samples
    };
    body.resize(body.len() + more, 0);
}

/// With several recipes at once.
pub fn spoil(random: &mut Random, bodies: &mut Bodies, most: usize) {
    for _ in 0..1 + random.below(most) {
        let recipe = &RECIPES[random.below(RECIPES.len())];
        let known = bodies.window.len() == WINDOW
            && bodies.amounts.len() == states(bodies)
            && bodies.model[DEPOT] <= 1
            && bodies.model.len() as u64 == 2 * bodies.model[COUNT] + 3
            && bodies.events.len() % EVENT == 0;
        if known {
            (recipe.change)(random, bodies);
        }
    }
}

/// The word with high bits set, which narrower or shifted arithmetic would lose.
pub fn wide(random: &mut Random, word: u64) -> u64 {
    let more = [
        1 << 32,
        1 << 61,
        1 << 62,
        1 << 63,
        7 << 61,
        0xffff_ffff << 32,
    ];
    word.wrapping_add(more[random.below(more.len())])
}

// ---- sheets that are changed at random

/// Up to three words of the bodies hold any pattern.
pub fn patterns(random: &mut Random, bodies: &mut Bodies) {
    for _ in 0..1 + random.below(3) {
        let body = [
            &mut bodies.model,
            &mut bodies.window,
            &mut bodies.amounts,
            &mut bodies.samples,
            &mut bodies.events,
        ];
        let body = body.into_iter().nth(random.below(5)).expect("a body");
        if !body.is_empty() {
            let at = random.below(body.len());
            body[at] = pattern(random);
        }
    }
}

pub fn changed(random: &mut Random, bodies: &Bodies) -> Vec<u8> {
    let mut words = packed(bodies);
    for _ in 0..1 + random.below(3) {
        if words.is_empty() {
            break;
        }
        let at = random.below(words.len());
        let other = random.below(words.len());
        match random.below(12) {
            0 => words[at] ^= 1 << random.below(64),
            1 => words[at] = pattern(random),
            2 => words[at] = words[at].wrapping_add(1),
            3 => words[at] = words[at].wrapping_sub(1),
            4 => words.swap(at, other),
            5 => words[at] = words[other],
            6 => {
                words.remove(at);
            }
            7 => words.insert(at, pattern(random)),
            8 => words.truncate(at),
            9 => {
                let part = words[at.min(other)..at.max(other)].to_vec();
                words.extend(part);
            }
            // A word of the head.
            10 => {
                let at = random.below(HEAD.min(words.len()));
                words[at] = WHOLE[random.below(WHOLE.len())];
            }
            _ => {
                let at = random.below(HEAD.min(words.len()));
                words[at] = wide(random, words[at]);
            }
        }
    }
    let mut all = bytes(&words);
    if random.chance(20) && !all.is_empty() {
        let at = random.below(all.len());
        match random.below(4) {
            0 => all[at] = random.below(256) as u8,
            1 => {
                all.remove(at);
            }
            2 => all.insert(at, random.below(256) as u8),
            _ => all.truncate(at),
        }
    }
    all
}

// ---- all

/// A sheet, and what it was made to be.
pub struct Drawn {
    pub bytes: Vec<u8>,
    pub kind: Kind,
}

pub enum Kind {
    /// Made for the number of a recipe, by its place.
    Recipe(usize),
    /// A broken layout, by its place.
    Broken(usize),
    /// Drawn or changed with no number in mind.
    Named(&'static str),
}

pub const NAMED: [&str; 8] = [
    "a run of the other comparison",
    "several recipes at once",
    "changed at random",
    "64 events and 256 samples",
    "8,192 words",
    "bytes of any kind",
    "a head and random bodies",
    "words of any pattern",
];

/// As many events and samples as a sheet can have.
fn longest(random: &mut Random) -> Bodies {
    let mut bodies = fit(random);
    ample(&mut bodies);
    set_window(&mut bodies, 0.0, 24.0);
    let n = states(&bodies);
    bodies.events.clear();
    for place in 0..EVENTS {
        let words = event(random, 0.0, 24.0, n, place as u64);
        bodies.events.extend(words);
    }
    bodies.samples = (0..SAMPLES)
        .map(|_| (24.0 * random.below(1 << 20) as f64 / (1 << 20) as f64).to_bits())
        .collect();
    bodies
}

pub fn sheet(random: &mut Random) -> Drawn {
    let named = |bytes: Vec<u8>, at: usize| Drawn {
        bytes,
        kind: Kind::Named(NAMED[at]),
    };
    match random.below(1000) {
        0..=229 => {
            let run = run_draw::run(random);
            let bodies = of_run(&run, random);
            named(bytes(&packed(&bodies)), 0)
        }
        230..=249 => {
            let mut bodies = fit(random);
            patterns(random, &mut bodies);
            named(bytes(&packed(&bodies)), 7)
        }
        250..=599 => {
            let at = random.below(RECIPES.len());
            let mut bodies = fit(random);
            (RECIPES[at].change)(random, &mut bodies);
            Drawn {
                bytes: bytes(&packed(&bodies)),
                kind: Kind::Recipe(at),
            }
        }
        600..=679 => {
            let mut bodies = fit(random);
            spoil(random, &mut bodies, 3);
            named(bytes(&packed(&bodies)), 1)
        }
        680..=829 => {
            let at = random.below(BROKEN.len());
            let bodies = fit(random);
            Drawn {
                bytes: (BROKEN[at].make)(random, bodies),
                kind: Kind::Broken(at),
            }
        }
        830..=979 => {
            let bodies = fit(random);
            named(changed(random, &bodies), 2)
        }
        980 => {
            let bodies = longest(random);
            named(bytes(&packed(&bodies)), 3)
        }
        981..=984 => {
            let mut bodies = fit(random);
            let more = WORDS - packed(&bodies).len();
            grow(random, &mut bodies, more);
            named(bytes(&packed(&bodies)), 4)
        }
        985..=989 => {
            let length = random.below(300);
            named((0..length).map(|_| random.below(256) as u8).collect(), 5)
        }
        _ => {
            let mut part = |count: usize| (0..count).map(|_| pattern(random)).collect();
            let bodies = Bodies {
                model: part(5),
                window: part(WINDOW),
                amounts: part(1),
                samples: part(2),
                events: part(EVENT),
            };
            named(bytes(&packed(&bodies)), 6)
        }
    }
}
