//! Times whole runs of the C interface beside the Rust's.
//!
//! The Rust's time has its binding of the amounts, its preparation, its run and
//! the vectors of its rows; its list of events stands ready. Ours has the
//! reading of the events' words, every test ahead of the run, and the run; the
//! slices stand ready. The kernel is made ahead on both sides.
use crate::draw::Parameters;
use crate::rule::{self, Kernel};
use crate::run_entry::*;
use crate::{batch, median};
use qspquest_modeling::{simulate_with_budgets, Protocol, Sample};
use std::hint::black_box;

/// Batches of each side for one line of a table.
const BATCHES: usize = 101;
/// The least time of a batch, in nanoseconds.
const BATCH: f64 = 200_000.0;
/// The time between neighbouring boundaries: exact in sums, and so short that
/// each advance takes 2 halvings.
const STEP: f64 = 0.25;

/// One compartment, or with 4 states three and a depot; no event and no sample.
pub fn empty(states: usize) -> Run {
    let whole = states == 4;
    let compartments = if whole { 3 } else { 1 };
    let given = Parameters {
        clearance: 4.2,
        volumes: [12.0, 25.5, 7.25][..compartments].to_vec(),
        exchange: [3.5, 1.75][..compartments - 1].to_vec(),
        depot: whole,
        absorption: 0.9,
    };
    let (rust, cells) = made(&given).expect("a model");
    Run {
        given,
        rust: Some(rust),
        cells: cells.to_vec(),
        amounts: [100.0, 20.0, 5.0, 1.5][..states].to_vec(),
        start: 0.0,
        end: STEP,
        rtol: 1e-6,
        atol: 1e-9,
        propagations: 1000,
        event_budget: 1000,
        output_budget: 1_000_000,
        words: vec![],
        samples: vec![],
        room: Room {
            times: 0,
            sides: 0,
            values: 0,
        },
    }
}

pub fn with_room(mut run: Run) -> Run {
    let rows = run.reckoned();
    run.room = Room {
        times: rows,
        sides: rows,
        values: rows * run.n(),
    };
    run
}

/// A day of boluses into the depot, infusions into central and resets in turn,
/// spread evenly, and so are the samples.
fn mixed(states: usize, events: usize, samples: usize) -> Run {
    let mut run = empty(states);
    let within = |target: u64| target.min(states as u64 - 1);
    run.end = 24.0;
    for i in 0..events {
        let time = 24.0 * (i as f64 + 0.5) / events as f64;
        let amount = 10.0 + (i % 7) as f64;
        // Infusions run over the next two events; one reset in four stops one.
        let duration = 60.0 / events as f64;
        let words = match i % 3 {
            0 => [BOLUS, time.to_bits(), 0, amount.to_bits(), 0, 0],
            1 if time + duration <= run.end => {
                let duration = duration.to_bits();
                [
                    INFUSION,
                    time.to_bits(),
                    within(1),
                    amount.to_bits(),
                    duration,
                    0,
                ]
            }
            1 => [BOLUS, time.to_bits(), within(1), amount.to_bits(), 0, 0],
            _ => {
                let (target, stops) = if i % 12 == 2 { (1, 1) } else { (2, 0) };
                let order = (i % 5) as u64;
                [
                    RESET,
                    time.to_bits(),
                    within(target),
                    2.0_f64.to_bits(),
                    order,
                    stops,
                ]
            }
        };
        run.words.extend(words);
    }
    run.samples = (0..samples)
        .map(|i| 24.0 * (i as f64 + 0.25) / samples as f64)
        .collect();
    with_room(run)
}

/// Infusions one behind the other with a gap between, so that each boundary is
/// a step from the next; the samples stand inside the intervals in turn.
pub fn even(infusions: usize, samples: usize) -> Run {
    let mut run = empty(4);
    for i in 0..infusions {
        let time = STEP * (2 * i + 1) as f64;
        let words = [
            INFUSION,
            time.to_bits(),
            (i % 2) as u64,
            10.0_f64.to_bits(),
            STEP.to_bits(),
            0,
        ];
        run.words.extend(words);
    }
    let intervals = 2 * infusions + 1;
    run.end = STEP * intervals as f64;
    let rounds = samples.div_ceil(intervals) + 1;
    run.samples = (0..samples)
        .map(|i| {
            let place = (i / intervals + 1) as f64 / rounds as f64;
            STEP * ((i % intervals) as f64 + place)
        })
        .collect();
    with_room(run)
}

/// The cells that are lent to a run.
pub struct Cells {
    pub times: Vec<f64>,
    pub sides: Vec<u8>,
    pub values: Vec<f64>,
    pub reply: [u64; REPLY],
}

impl Cells {
    pub fn new(run: &Run) -> Cells {
        Cells {
            times: vec![0.0; run.room.times],
            sides: vec![0; run.room.sides],
            values: vec![0.0; run.room.values],
            reply: [0; REPLY],
        }
    }
}

pub type Simulate = unsafe extern "C" fn(
    *const f64,
    usize,
    *const f64,
    usize,
    f64,
    f64,
    f64,
    f64,
    u64,
    usize,
    usize,
    *const u64,
    usize,
    *const f64,
    usize,
    *mut f64,
    usize,
    *mut u8,
    usize,
    *mut f64,
    usize,
    *mut f64,
    *mut usize,
    *mut u64,
) -> u64;

/// A call of an entry with the parameters of a run.
#[inline(never)]
pub fn call(entry: Simulate, run: &Run, cells: &mut Cells) -> u64 {
    let run = black_box(run);
    let reply = cells.reply.as_mut_ptr();
    unsafe {
        entry(
            run.cells.as_ptr(),
            run.cells.len(),
            run.amounts.as_ptr(),
            run.amounts.len(),
            run.start,
            run.end,
            run.rtol,
            run.atol,
            run.propagations,
            run.event_budget,
            run.output_budget,
            run.words.as_ptr(),
            run.words.len(),
            run.samples.as_ptr(),
            run.samples.len(),
            cells.times.as_mut_ptr(),
            cells.times.len(),
            cells.sides.as_mut_ptr(),
            cells.sides.len(),
            cells.values.as_mut_ptr(),
            cells.values.len(),
            reply.cast(),
            reply.add(1).cast(),
            reply.add(2),
        )
    }
}

/// One line of a table: both sides on the same arguments, and their times.
struct Point {
    run: Run,
    protocol: Protocol,
    advances: u64,
    cells: Cells,
    calls: usize,
    rust_times: Vec<f64>,
    our_times: Vec<f64>,
}

impl Point {
    fn new(run: Run) -> Point {
        let answer = run.answer(run.propagations);
        assert_eq!(answer.number, 0, "the run reaches its end");
        let mut cells = Cells::new(&run);
        assert_eq!(call(linear_pk_simulate, &run, &mut cells), 0);
        assert_eq!(cells.reply, [0, answer.rows.len() as u64, answer.advances]);
        for (k, row) in answer.rows.iter().enumerate() {
            let n = row.values.len();
            let ours = &cells.values[k * n..k * n + n];
            let same = |(a, b): (&f64, &f64)| a.to_bits() == b.to_bits();
            assert!(
                cells.times[k].to_bits() == row.time.to_bits()
                    && cells.sides[k] == side(row)
                    && row.values.iter().zip(ours).all(same),
                "the rows differ"
            );
        }
        let mut point = Point {
            protocol: run.protocol(decoded(&run.words).expect("events")),
            advances: answer.advances,
            cells,
            calls: 1,
            rust_times: vec![],
            our_times: vec![],
            run,
        };
        while batch(point.calls, || point.rust_rows()) * point.calls as f64 <= BATCH {
            point.calls *= 2;
        }
        point
    }

    #[inline(never)]
    fn rust_rows(&self) -> Vec<Sample> {
        let kernel = black_box(self.run.rust.as_ref().expect("the Rust's kernel"));
        let bound = kernel.bind(black_box(&self.run.amounts)).expect("amounts");
        let budgets = self.run.budgets(black_box(self.run.propagations));
        simulate_with_budgets(&bound, black_box(&self.protocol), budgets).expect("rows")
    }

    /// One batch of each side.
    fn time(&mut self) {
        let rust_time = batch(self.calls, || self.rust_rows());
        let (run, cells) = (&self.run, std::cell::RefCell::new(&mut self.cells));
        let our_time = batch(self.calls, || {
            let reply = call(linear_pk_simulate, run, &mut cells.borrow_mut());
            assert_eq!(reply, 0);
        });
        self.rust_times.push(rust_time);
        self.our_times.push(our_time);
    }

    fn print(&mut self, by_advance: bool) {
        let (rust_time, our_time) = (median(&mut self.rust_times), median(&mut self.our_times));
        let counts = format!(
            "{} | {} | {}",
            self.run.event_count(),
            self.run.samples.len(),
            self.advances
        );
        let (rust_us, our_us) = (rust_time / 1000.0, our_time / 1000.0);
        if by_advance {
            let advances = self.advances as f64;
            println!(
                "| {counts} | {rust_us:.1} | {our_us:.1} | {:.0} | {:.0} |",
                rust_time / advances,
                our_time / advances
            );
        } else {
            let ratio = our_time / rust_time;
            println!("| {counts} | {rust_us:.1} | {our_us:.1} | {ratio:.2} |");
        }
    }
}

fn measured(runs: Vec<Run>) -> Vec<Point> {
    let mut points: Vec<Point> = runs.into_iter().map(Point::new).collect();
    // Lines and sides take turns, so that a slow phase of the machine affects all alike.
    for _ in 0..BATCHES {
        points.iter_mut().for_each(Point::time);
    }
    points
}

/// Every advance of the even runs takes the same halvings.
fn two_halvings(run: &Run, least: f64) {
    let kernel = Kernel::read(&run.cells).expect("a kernel");
    for duration in [least, STEP] {
        let rates = [0.0; 4];
        let own = rule::advance(&kernel, &run.amounts, &rates, duration, rule::RIGHT);
        assert_eq!(own.halvings, Some(2));
    }
}

pub fn tables() {
    println!("boluses, infusions and resets spread over 24 hours");
    println!();
    println!("| n | events | samples | advances | Rust us | ours us | ours/Rust |");
    println!("|---|---|---|---|---|---|---|");
    let counts = [(8, 0), (8, 256), (64, 0), (64, 256), (192, 0), (192, 256)];
    for states in [1, 4] {
        let run = |(events, samples)| mixed(states, events, samples);
        let mut points = measured(counts.map(run).to_vec());
        for point in &mut points {
            print!("| {states} ");
            point.print(false);
        }
    }

    println!();
    println!("time by advances: 4 states, 2 halvings in every advance");
    println!();
    println!(
        "| events | samples | advances | Rust us | ours us | Rust ns by advance | ours ns by advance |"
    );
    println!("|---|---|---|---|---|---|---|");
    let lists = [4, 8, 16, 32, 64, 128, 192].map(|events| (events, 0));
    let readings = [8, 24, 56, 120, 256].map(|samples| (4, samples));
    let counts = lists.into_iter().chain([(192, 128), (192, 256)]);
    let runs = counts
        .chain(readings)
        .map(|(events, samples)| even(events, samples));
    two_halvings(&even(4, 256), STEP / 64.0);
    let mut points = measured(runs.collect());
    points.iter_mut().for_each(|point| point.print(true));
}
