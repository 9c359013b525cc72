//! Times `advance`, whole runs, cycles and sheets of the C interface beside the
//! Rust's, or measures the stack that each C entry uses.
//!
//!     bench [N..]      a table of medians, for these numbers of states (default: 1 2 3 4)
//!     bench --runs     tables of medians of whole runs
//!     bench --cycles   tables of medians of folds and closed cycles
//!     bench --sheets   tables of medians of sheets, in one process and as programs
//!     bench --stack    the stack of each entry
mod bench_cycles;
mod bench_runs;
mod bench_sheets;
#[allow(dead_code)]
mod closed;
#[allow(dead_code)]
mod cycle_entry;
#[allow(dead_code)]
mod draw;
#[allow(dead_code)]
mod entries;
#[allow(dead_code)]
mod fold;
#[allow(dead_code)]
mod rule;
#[allow(dead_code)]
mod run_draw;
#[allow(dead_code)]
mod run_entry;
#[allow(dead_code)]
mod rust_cycle;
#[allow(dead_code)]
mod rust_run;
#[allow(dead_code)]
mod sheet;
#[allow(dead_code)]
mod sheet_broken;
#[allow(dead_code)]
mod sheet_draw;
#[allow(dead_code)]
mod sheet_entry;
#[allow(dead_code)]
mod sheet_fixed;
#[allow(dead_code)]
mod sheet_run;
#[allow(dead_code)]
mod slices;
#[allow(dead_code)]
mod steady_entry;
#[allow(dead_code)]
mod steady_fixed;
#[allow(dead_code)]
mod steady_run;

use bench_runs::Simulate;
use cycle_entry::{linear_pk_normalize_periodic_cycle, Normalize};
use entries::*;
use qspquest_modeling::linear_pk::LinearPk;
use rule::Kernel;
use run_entry::linear_pk_simulate;
use sheet_entry::{rig_run_sheet, RunSheet, MOST};
use std::hint::black_box;
use std::time::Instant;
use steady_entry::{linear_pk_periodic_steady_state, rig_steady_sheet, SteadyState};

/// Batches of each side for one line of the table.
const BATCHES: usize = 501;
/// The least time of a batch, in nanoseconds.
const BATCH: f64 = 200_000.0;
/// Halving counts of the table.
const HALVINGS: [u32; 3] = [1, 5, 20];

/// A model with n states: a depot only for 4.
fn model(n: usize) -> LinearPk {
    let volumes = [12.0, 25.5, 7.25];
    let exchange = [3.5, 1.75];
    let count = n.min(3);
    let absorption = (n == 4).then_some(0.9);
    LinearPk::new(4.2, &volumes[..count], &exchange[..count - 1], absorption).expect("a model")
}

/// A duration whose norm takes exactly this many halvings.
fn duration_for(kernel: &Kernel, amounts: &[f64], rates: &[f64], halvings: u32) -> f64 {
    // The norm is the duration times the rates' norm, and 1 more.
    let product = if halvings == 1 {
        2.0_f64.powi(-60)
    } else {
        0.75 * 2.0_f64.powi(halvings as i32 - 1)
    };
    let duration = product / kernel.rate_norm();
    let own = rule::advance(kernel, amounts, rates, duration, rule::RIGHT);
    assert_eq!(own.halvings, Some(halvings));
    duration
}

fn median(times: &mut [f64]) -> f64 {
    times.sort_by(f64::total_cmp);
    times[times.len() / 2]
}

/// Nanoseconds of one call, over a batch of calls.
fn batch<T>(calls: usize, call: impl Fn() -> T) -> f64 {
    let start = Instant::now();
    for _ in 0..calls {
        black_box(call());
    }
    start.elapsed().as_nanos() as f64 / calls as f64
}

/// One line of the table: both sides on the same arguments, and their times.
struct Point {
    n: usize,
    halvings: u32,
    rust: LinearPk,
    cells: [f64; KERNEL],
    amounts: Vec<f64>,
    rates: Vec<f64>,
    duration: f64,
    calls: usize,
    rust_times: Vec<f64>,
    our_times: Vec<f64>,
}

impl Point {
    fn new(n: usize, halvings: u32) -> Point {
        let rust = model(n);
        let cells = cells_of(&rust);
        let amounts = [100.0, 20.0, 5.0, 1.5][..n].to_vec();
        let rates = [10.0, 0.0, 2.5, 0.125][..n].to_vec();
        let kernel = Kernel::read(&cells).expect("a kernel");
        let duration = duration_for(&kernel, &amounts, &rates, halvings);
        let mut point = Point {
            n,
            halvings,
            rust,
            cells,
            amounts,
            rates,
            duration,
            calls: 1,
            rust_times: vec![],
            our_times: vec![],
        };
        assert_eq!(
            plain(&point.rust_answer()),
            plain(&point.our_answer()[..n]),
            "the answers differ"
        );
        while batch(point.calls, || point.rust_answer()) * point.calls as f64 <= BATCH {
            point.calls *= 2;
        }
        point
    }

    #[inline(never)]
    fn rust_answer(&self) -> Vec<f64> {
        let answer = black_box(&self.rust).advance(
            black_box(&self.amounts),
            black_box(&self.rates),
            black_box(self.duration),
        );
        answer.expect("amounts")
    }

    #[inline(never)]
    fn our_answer(&self) -> [f64; 4] {
        let mut result = [0.0; 4];
        let reply = unsafe {
            linear_pk_advance(
                black_box(self.cells.as_ptr()),
                KERNEL,
                black_box(self.amounts.as_ptr()),
                black_box(self.n),
                black_box(self.rates.as_ptr()),
                black_box(self.n),
                black_box(self.duration),
                result.as_mut_ptr(),
                black_box(self.n),
            )
        };
        assert_eq!(reply, 0);
        result
    }

    /// One batch of each side.
    fn time(&mut self) {
        let rust_time = batch(self.calls, || self.rust_answer());
        let our_time = batch(self.calls, || self.our_answer());
        self.rust_times.push(rust_time);
        self.our_times.push(our_time);
    }

    fn print(&mut self) {
        let (rust_time, our_time) = (median(&mut self.rust_times), median(&mut self.our_times));
        let ratio = our_time / rust_time;
        println!(
            "| {} | {} | {rust_time:.0} | {our_time:.0} | {ratio:.2} |",
            self.n, self.halvings
        );
    }
}

fn plain(values: &[f64]) -> Vec<u64> {
    values.iter().map(|v| v.to_bits()).collect()
}

/// Bytes of stack that are painted below a frame.
const PAINTED: usize = 1 << 20;

/// Fills the stack below the caller's frame; gives the lowest address.
#[inline(never)]
fn paint(pattern: u8) -> usize {
    let mut area = std::mem::MaybeUninit::<[u8; PAINTED]>::uninit();
    let lowest = area.as_mut_ptr().cast::<u8>();
    for i in 0..PAINTED {
        unsafe { lowest.add(i).write_volatile(pattern) };
    }
    lowest as usize
}

/// The lowest address above this one that no longer holds the pattern.
#[inline(never)]
fn deepest(lowest: usize, pattern: u8) -> usize {
    let mut at = lowest as *const u8;
    while unsafe { at.read_volatile() } == pattern {
        at = at.wrapping_add(1);
    }
    at as usize
}

/// The lowest address that the call changes. Two patterns, since a call may
/// happen to write one of them.
#[inline(never)]
fn reach(call: &dyn Fn()) -> usize {
    [0xa5, 0x5a]
        .into_iter()
        .map(|pattern| {
            let lowest = paint(pattern);
            call();
            deepest(lowest, pattern)
        })
        .min()
        .expect("two patterns")
}

// Functions with the parameters of the entries, which use no stack of their own.
extern "C" fn no_new(
    _: f64,
    _: *const f64,
    _: usize,
    _: *const f64,
    _: usize,
    _: bool,
    _: f64,
    _: *mut f64,
    _: usize,
) -> u64 {
    0
}
extern "C" fn no_count(_: *const f64, _: usize) -> u64 {
    0
}
extern "C" fn no_advance(
    _: *const f64,
    _: usize,
    _: *const f64,
    _: usize,
    _: *const f64,
    _: usize,
    _: f64,
    _: *mut f64,
    _: usize,
) -> u64 {
    0
}
extern "C" fn no_slices(
    _: *const f64,
    _: usize,
    _: *const f64,
    _: usize,
    _: *mut f64,
    _: usize,
) -> u64 {
    0
}

extern "C" fn no_simulate(
    _: *const f64,
    _: usize,
    _: *const f64,
    _: usize,
    _: f64,
    _: f64,
    _: f64,
    _: f64,
    _: u64,
    _: usize,
    _: usize,
    _: *const u64,
    _: usize,
    _: *const f64,
    _: usize,
    _: *mut f64,
    _: usize,
    _: *mut u8,
    _: usize,
    _: *mut f64,
    _: usize,
    _: *mut f64,
    _: *mut usize,
    _: *mut u64,
) -> u64 {
    0
}

extern "C" fn no_fold(
    _: *const f64,
    _: usize,
    _: f64,
    _: f64,
    _: f64,
    _: f64,
    _: u64,
    _: usize,
    _: usize,
    _: *const u64,
    _: usize,
    _: *const f64,
    _: usize,
    _: *mut u64,
    _: usize,
    _: *mut usize,
) -> u64 {
    0
}

extern "C" fn no_steady_state(
    _: *const f64,
    _: usize,
    _: f64,
    _: f64,
    _: f64,
    _: f64,
    _: u64,
    _: usize,
    _: usize,
    _: *const u64,
    _: usize,
    _: *const f64,
    _: usize,
    _: f64,
    _: f64,
    _: *mut f64,
    _: usize,
    _: *mut f64,
    _: usize,
    _: *mut f64,
    _: *mut f64,
) -> u64 {
    0
}

extern "C" fn no_sheet(_: *const u8, _: usize, _: *mut u8, _: usize, _: *mut usize) -> u64 {
    0
}

type New = unsafe extern "C" fn(
    f64,
    *const f64,
    usize,
    *const f64,
    usize,
    bool,
    f64,
    *mut f64,
    usize,
) -> u64;
type Count = unsafe extern "C" fn(*const f64, usize) -> u64;
type Advance = unsafe extern "C" fn(
    *const f64,
    usize,
    *const f64,
    usize,
    *const f64,
    usize,
    f64,
    *mut f64,
    usize,
) -> u64;
type Slices = unsafe extern "C" fn(*const f64, usize, *const f64, usize, *mut f64, usize) -> u64;

/// Bytes below the frame of an empty function with the same parameters.
fn depth<F: Copy>(empty: F, entry: F, call: impl Fn(F)) -> usize {
    let lowest = |function: F| reach(&|| call(black_box(function)));
    lowest(empty).saturating_sub(lowest(entry))
}

/// Each entry on its longest path: 4 states, 60 halvings in `advance`, in a run
/// 192 events and 256 samples as well, in a sheet 64 and 256; in a cycle 64
/// infusions that are three pieces each.
fn stack() {
    // Rates of a few, so that 2^57 takes 60 halvings.
    let (volumes, exchange) = ([1.0, 2.0, 4.0], [1.0, 1.0]);
    let rust = LinearPk::new(1.0, &volumes, &exchange, Some(1.0)).expect("a model");
    let cells = cells_of(&rust);
    let amounts = [1.0, 2.0, 3.0, 4.0];
    let rates = [0.0; 4];
    let read = Kernel::read(&cells).expect("a kernel");
    let duration = duration_for(&read, &amounts, &rates, 60);

    println!("| entry | stack in bytes |");
    println!("|---|---|");
    let bytes = depth(no_new as New, linear_pk_new as New, |entry| {
        let mut kernel = [0.0; KERNEL];
        let reply = unsafe {
            entry(
                1.0,
                volumes.as_ptr(),
                3,
                exchange.as_ptr(),
                2,
                true,
                1.0,
                kernel.as_mut_ptr(),
                KERNEL,
            )
        };
        assert_eq!(black_box(reply), 0);
    });
    println!("| linear_pk_new | {bytes} |");
    let bytes = depth(no_count as Count, linear_pk_state_count as Count, |entry| {
        black_box(unsafe { entry(cells.as_ptr(), KERNEL) });
    });
    println!("| linear_pk_state_count | {bytes} |");
    let bytes = depth(
        no_advance as Advance,
        linear_pk_advance as Advance,
        |entry| {
            let mut result = [0.0; 4];
            let reply = unsafe {
                entry(
                    cells.as_ptr(),
                    KERNEL,
                    amounts.as_ptr(),
                    4,
                    rates.as_ptr(),
                    4,
                    duration,
                    result.as_mut_ptr(),
                    4,
                )
            };
            assert_eq!(black_box(reply), 0);
        },
    );
    println!("| linear_pk_advance | {bytes} |");
    let bytes = depth(
        no_slices as Slices,
        linear_pk_concentrations as Slices,
        |entry| {
            let mut result = [0.0; 3];
            let reply = unsafe {
                entry(
                    cells.as_ptr(),
                    KERNEL,
                    amounts.as_ptr(),
                    4,
                    result.as_mut_ptr(),
                    3,
                )
            };
            assert_eq!(black_box(reply), 0);
        },
    );
    println!("| linear_pk_concentrations | {bytes} |");
    let bytes = depth(no_slices as Slices, linear_pk_bind as Slices, |entry| {
        let mut bound = [0.0; BOUND];
        let reply = unsafe {
            entry(
                cells.as_ptr(),
                KERNEL,
                amounts.as_ptr(),
                4,
                bound.as_mut_ptr(),
                BOUND,
            )
        };
        assert_eq!(black_box(reply), 0);
    });
    println!("| linear_pk_bind | {bytes} |");
    let mut run = bench_runs::even(192, 256);
    let read = Kernel::read(&run.cells).expect("a kernel");
    run.end = duration_for(&read, &amounts, &rates, 60);
    let cells = std::cell::RefCell::new(bench_runs::Cells::new(&run));
    let bytes = depth(
        no_simulate as Simulate,
        linear_pk_simulate as Simulate,
        |entry| {
            let reply = bench_runs::call(entry, &run, &mut cells.borrow_mut());
            assert_eq!(black_box(reply), 0);
        },
    );
    println!("| linear_pk_simulate | {bytes} |");
    let sheet = bench_sheets::named("64 infusions and 256 samples");
    let out = std::cell::RefCell::new(vec![0; MOST]);
    let bytes = depth(no_sheet as RunSheet, rig_run_sheet as RunSheet, |entry| {
        black_box(bench_sheets::call(entry, &sheet, &mut out.borrow_mut()));
    });
    println!("| rig_run_sheet | {bytes} |");
    let cycle = bench_cycles::full(4);
    let cells = std::cell::RefCell::new(bench_cycles::Cells::new());
    let bytes = depth(
        no_fold as Normalize,
        linear_pk_normalize_periodic_cycle as Normalize,
        |entry| {
            let reply = bench_cycles::fold(entry, &cycle, &mut cells.borrow_mut());
            assert_eq!(black_box(reply), 0);
        },
    );
    println!("| linear_pk_normalize_periodic_cycle | {bytes} |");
    let bytes = depth(
        no_steady_state as SteadyState,
        linear_pk_periodic_steady_state as SteadyState,
        |entry| {
            let reply = bench_cycles::close(entry, &cycle, &mut cells.borrow_mut());
            assert_eq!(black_box(reply), 0);
        },
    );
    println!("| linear_pk_periodic_steady_state | {bytes} |");
    let sheets = steady_fixed::sheets();
    let long = sheets
        .iter()
        .find(|sheet| sheet.name == LONG)
        .expect("a sheet");
    let bytes = depth(
        no_sheet as RunSheet,
        rig_steady_sheet as RunSheet,
        |entry| {
            let reply = bench_sheets::call(entry, &long.bytes, &mut out.borrow_mut());
            assert!(black_box(reply).0 == 0);
        },
    );
    println!("| rig_steady_sheet | {bytes} |");
}

/// The sheet of the longest closed cycle.
const LONG: &str = "64 infusions for four states, a propagation word of 0";

pub fn main() {
    let arguments: Vec<String> = std::env::args().skip(1).collect();
    if arguments == ["--runs"] {
        bench_runs::tables();
        return;
    }
    if arguments == ["--cycles"] {
        bench_cycles::tables();
        return;
    }
    if arguments == ["--sheets"] {
        bench_sheets::tables();
        return;
    }
    if arguments == ["--stack"] {
        // A stack with room for the paint.
        let thread = std::thread::Builder::new()
            .stack_size(16 * PAINTED)
            .spawn(stack);
        thread.expect("a thread").join().expect("a measurement");
        return;
    }
    let mut sizes: Vec<usize> = arguments
        .iter()
        .filter_map(|word| word.parse().ok())
        .collect();
    if sizes.len() != arguments.len() || sizes.iter().any(|n| !(1..=4).contains(n)) {
        eprintln!("bench [N..] with N from 1 to 4, bench --runs, --cycles, --sheets, or --stack");
        std::process::exit(2);
    }
    if sizes.is_empty() {
        sizes = vec![1, 2, 3, 4];
    }
    println!("| n | halvings | Rust ns | ours ns | ours/Rust |");
    println!("|---|---|---|---|---|");
    let mut points: Vec<Point> = black_box(sizes)
        .into_iter()
        .flat_map(|n| HALVINGS.map(|halvings| Point::new(n, halvings)))
        .collect();
    // Lines and sides take turns, so that a slow phase of the machine affects all alike.
    for _ in 0..BATCHES {
        points.iter_mut().for_each(Point::time);
    }
    points.iter_mut().for_each(Point::print);
}
