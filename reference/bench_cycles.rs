//! Times the fold and the closed cycle of the C interface beside the Rust's.
//!
//! The Rust's time has its fold, its preparation, its n + 2 runs with the vectors
//! of their rows, and its elimination; its list of events stands ready. Ours has
//! the reading of the events' words and every test as well; the slices stand
//! ready. The kernel is made ahead on both sides.
use crate::cycle_entry::{
    linear_pk_normalize_periodic_cycle, made_cycle, Cycle, Normalize, PIECES,
};
use crate::draw::Parameters;
use crate::rust_run::{decoded, BOLUS, EVENT, INFUSION, RESET};
use crate::steady_entry::{linear_pk_periodic_steady_state, Steady, SteadyState};
use crate::steady_run::steady;
use crate::{batch, median};
use qspquest_modeling::linear_pk::LinearPk;
use qspquest_modeling::Protocol;
use std::cell::RefCell;
use std::hint::black_box;

/// Batches of each side for one line of a table.
const BATCHES: usize = 51;
/// The least time of a batch, in nanoseconds.
const BATCH: f64 = 200_000.0;
/// The events of the tables' cycles.
const EVENTS: [usize; 3] = [1, 8, 64];

/// A kernel with n states, a depot only for 4, over a day.
fn empty(states: usize) -> Steady {
    let count = states.min(3);
    let given = Parameters {
        clearance: 4.2,
        volumes: [12.0, 25.5, 7.25][..count].to_vec(),
        exchange: [3.5, 1.75][..count - 1].to_vec(),
        depot: states == 4,
        absorption: 0.9,
    };
    let cycle = made_cycle(&given).expect("a model");
    Steady {
        cycle: Cycle {
            end: 24.0,
            rtol: 1e-6,
            atol: 1e-9,
            propagations: 100_000,
            event_budget: 10_000,
            output_budget: 1_000_000,
            ..cycle
        },
        absolute: 1e-6,
        relative: 1e-6,
    }
}

/// Boluses, infusions over a quarter of the day and resets in turn, spread evenly;
/// the last infusions reach over the end.
fn mixed(states: usize, events: usize) -> Steady {
    let mut steady = empty(states);
    for i in 0..events {
        let time = (24.0 * (i as f64 + 0.5) / events as f64).to_bits();
        let amount = (10.0 + (i % 7) as f64).to_bits();
        let (first, last) = (0, states as u64 - 1);
        let words = match i % 4 {
            0 => [BOLUS, time, first, amount, 0, 0],
            3 => [RESET, time, last, 2.0_f64.to_bits(), i as u64, 0],
            _ => [INFUSION, time, last.min(1), amount, 6.0_f64.to_bits(), 0],
        };
        steady.cycle.words.extend(words);
    }
    steady
}

/// The longest list: each infusion is three pieces.
pub fn full(states: usize) -> Steady {
    let mut steady = empty(states);
    for i in 0..64 {
        let time = 24.0 * (i as f64 + 0.5) / 64.0;
        let duration = 24.0 + (24.0 - time) + (1 + i) as f64 / 128.0;
        let target = (i % states) as u64;
        let words = [
            INFUSION,
            time.to_bits(),
            target,
            10.0_f64.to_bits(),
            duration.to_bits(),
            0,
        ];
        steady.cycle.words.extend(words);
    }
    assert_eq!(steady.cycle.answer().pieces.len(), PIECES);
    steady
}

/// The cells that are lent to a fold or a closed cycle.
pub struct Cells {
    folded: Vec<u64>,
    count: usize,
    amounts: [f64; 4],
    residual: [f64; 4],
    reply: [f64; 2],
}

impl Cells {
    pub fn new() -> Cells {
        Cells {
            folded: vec![0; EVENT * PIECES],
            count: 0,
            amounts: [0.0; 4],
            residual: [0.0; 4],
            reply: [0.0; 2],
        }
    }
}

/// A call of an entry with the parameters of a fold.
#[inline(never)]
pub fn fold(entry: Normalize, given: &Steady, cells: &mut Cells) -> u64 {
    let cycle = black_box(&given.cycle);
    unsafe {
        entry(
            cycle.cells.as_ptr(),
            cycle.cells.len(),
            cycle.start,
            cycle.end,
            cycle.rtol,
            cycle.atol,
            cycle.propagations,
            cycle.event_budget,
            cycle.output_budget,
            cycle.words.as_ptr(),
            cycle.words.len(),
            cycle.samples.as_ptr(),
            cycle.samples.len(),
            cells.folded.as_mut_ptr(),
            cells.folded.len(),
            &mut cells.count,
        )
    }
}

/// A call of an entry with the parameters of a closed cycle.
#[inline(never)]
pub fn close(entry: SteadyState, given: &Steady, cells: &mut Cells) -> u64 {
    let cycle = black_box(&given.cycle);
    let reply = cells.reply.as_mut_ptr();
    unsafe {
        entry(
            cycle.cells.as_ptr(),
            cycle.cells.len(),
            cycle.start,
            cycle.end,
            cycle.rtol,
            cycle.atol,
            cycle.propagations,
            cycle.event_budget,
            cycle.output_budget,
            cycle.words.as_ptr(),
            cycle.words.len(),
            cycle.samples.as_ptr(),
            cycle.samples.len(),
            given.absolute,
            given.relative,
            cells.amounts.as_mut_ptr(),
            4,
            cells.residual.as_mut_ptr(),
            4,
            reply,
            reply.add(1),
        )
    }
}

#[derive(Clone, Copy, PartialEq)]
enum Side {
    Fold,
    Closed,
}

/// One line of a table: both sides on the same arguments, and their times.
struct Point {
    side: Side,
    given: Steady,
    kernel: LinearPk,
    protocol: Protocol,
    pieces: usize,
    cells: RefCell<Cells>,
    calls: usize,
    rust_times: Vec<f64>,
    our_times: Vec<f64>,
}

fn plain(values: &[f64]) -> Vec<u64> {
    values.iter().map(|v| v.to_bits()).collect()
}

impl Point {
    fn new(side: Side, given: Steady) -> Point {
        let n = given.cycle.n();
        let events = decoded(&given.cycle.words).expect("events");
        let folded = given.cycle.answer();
        let mut point = Point {
            side,
            kernel: given.cycle.kernel(),
            protocol: given.cycle.protocol(events),
            pieces: folded.pieces.len(),
            cells: RefCell::new(Cells::new()),
            calls: 1,
            rust_times: vec![],
            our_times: vec![],
            given,
        };
        point.ours();
        let cells = point.cells.borrow();
        if side == Side::Fold {
            let words = folded.words();
            assert_eq!(cells.count, point.pieces);
            assert!(cells.folded[..words.len()] == words, "the folds differ");
        } else {
            let answer = point.given.answer();
            assert_eq!(answer.number, 0, "the cycle has an answer");
            assert_eq!(plain(&cells.amounts[..n]), plain(&answer.amounts));
            assert_eq!(plain(&cells.residual[..n]), plain(&answer.residual));
            assert_eq!(plain(&cells.reply), plain(&[0.0, answer.maximum]));
        }
        drop(cells);
        while batch(point.calls, || point.rust()) * point.calls as f64 <= BATCH {
            point.calls *= 2;
        }
        point
    }

    #[inline(never)]
    fn rust(&self) {
        let kernel = black_box(&self.kernel);
        let protocol = black_box(&self.protocol);
        let budgets = self.given.cycle.budgets();
        match self.side {
            Side::Fold => {
                let folded = kernel.periodic_cycle_protocol(protocol, budgets);
                black_box(folded.expect("a list"));
            }
            Side::Closed => {
                let (absolute, relative) = (self.given.absolute, self.given.relative);
                let state = steady(kernel, protocol, budgets, absolute, relative);
                black_box(state.expect("an answer"));
            }
        }
    }

    #[inline(never)]
    fn ours(&self) {
        let cells = &mut self.cells.borrow_mut();
        let reply = match self.side {
            Side::Fold => fold(linear_pk_normalize_periodic_cycle, &self.given, cells),
            Side::Closed => close(linear_pk_periodic_steady_state, &self.given, cells),
        };
        assert_eq!(reply, 0);
    }

    /// One batch of each side.
    fn time(&mut self) {
        let rust_time = batch(self.calls, || self.rust());
        let our_time = batch(self.calls, || self.ours());
        self.rust_times.push(rust_time);
        self.our_times.push(our_time);
    }

    fn print(&mut self) {
        let (rust_time, our_time) = (median(&mut self.rust_times), median(&mut self.our_times));
        // Two places for short times.
        let us = |time: f64| match time / 1000.0 {
            short if short < 10.0 => format!("{short:.2}"),
            long => format!("{long:.1}"),
        };
        println!(
            "| {} | {} | {} | {} | {} | {:.2} |",
            self.given.cycle.n(),
            self.given.cycle.event_count(),
            self.pieces,
            us(rust_time),
            us(our_time),
            our_time / rust_time
        );
    }
}

fn table(side: Side, states: &[usize]) {
    println!("| n | events | pieces | Rust us | ours us | ours/Rust |");
    println!("|---|---|---|---|---|---|");
    let cycles = states.iter().flat_map(|states| {
        let mixed = EVENTS.map(|events| mixed(*states, events));
        mixed.into_iter().chain([full(*states)])
    });
    let mut points: Vec<Point> = cycles.map(|given| Point::new(side, given)).collect();
    // Lines and sides take turns, so that a slow phase of the machine affects all alike.
    for _ in 0..BATCHES {
        points.iter_mut().for_each(Point::time);
    }
    points.iter_mut().for_each(Point::print);
}

pub fn tables() {
    println!(
        "folds: boluses, infusions and resets over 24 hours; the last line all in three pieces"
    );
    println!();
    table(Side::Fold, &[1]);
    println!();
    println!("closed cycles of the same lists");
    println!();
    table(Side::Closed, &[1, 2, 3, 4]);
}
