//! Calls the closed cycle of the C interface and the Rust's on the same
//! arguments, and compares number, time, greatest scaled residual, amounts and
//! residuals by bits, and every other cell.
//!
//!     steady [SEED [CASES]]   the stand-ins, fixed cycles, then random ones
mod closed;
mod cycle_draw;
#[allow(dead_code)]
mod cycle_entry;
#[allow(dead_code)]
mod draw;
#[allow(dead_code)]
mod entries;
#[allow(dead_code)]
mod fold;
#[allow(dead_code)]
mod rule;
#[allow(dead_code)]
mod run_draw;
#[allow(dead_code)]
mod run_entry;
#[allow(dead_code)]
mod rust_cycle;
#[allow(dead_code)]
mod rust_run;
#[allow(dead_code)]
mod sheet;
#[allow(dead_code)]
mod sheet_broken;
#[allow(dead_code)]
mod sheet_draw;
#[allow(dead_code)]
mod sheet_fixed;
#[allow(dead_code)]
mod sheet_run;
mod slices;
mod steady_draw;
#[allow(dead_code)]
mod steady_entry;
mod steady_fixed;
mod steady_readings;
#[allow(dead_code)]
mod steady_run;
mod steady_shapes;

use closed::{Reading, WRONG};
use draw::Random;
use rust_run::EVENT;
use sheet_fixed::Fixed;
use slices::bits;
use std::collections::BTreeMap;
use std::process::exit;
use steady_entry::*;
use steady_readings::FAULTY;

/// The numbers that a closed cycle can reply.
const NUMBERS: [u64; 26] = [
    0, 1, 2, 4, 5, 10, 11, 12, 13, 14, 15, 16, 17, 18, 19, 20, 21, 22, 30, 31, 32, 33, 34, 35, 36,
    40,
];

/// The fixed cycles that are called with slices of many lengths: answers of one,
/// two and four states, a refusal ahead of 4, and some behind it.
const LENGTHS: [&str; 7] = [
    "a bolus into one state",
    "a pivot tie",
    "four states",
    "19 by an absolute of 0",
    "P9",
    "a scaled residual just above 1",
    "31 inside the candidate's run",
];

/// The counts of what came up.
#[derive(Default)]
struct Tally {
    calls: u64,
    numbers: BTreeMap<u64, u64>,
    kinds: BTreeMap<&'static str, (u64, u64)>,
    shapes: BTreeMap<&'static str, u64>,
    forged: u64,
}

fn hexadecimal(values: &[u64]) -> String {
    let words: Vec<_> = values.iter().map(|word| format!("{word:016x}")).collect();
    words.join(" ")
}

/// The whole case, in bits.
fn print(given: &Steady, expected: &Answer) {
    let cycle = &given.cycle;
    println!("  kernel {}", hexadecimal(&bits(&cycle.cells)));
    let window = [cycle.start, cycle.end, cycle.rtol, cycle.atol];
    println!("  start, end, rtol, atol {}", hexadecimal(&bits(&window)));
    println!(
        "  budgets: propagations {}, events {}, outputs {}",
        cycle.propagations, cycle.event_budget, cycle.output_budget
    );
    let tolerance = [given.absolute, given.relative];
    println!("  absolute, relative {}", hexadecimal(&bits(&tolerance)));
    println!("  {} words of events", cycle.words.len());
    for words in cycle.words.chunks(EVENT) {
        println!("    {}", hexadecimal(words));
    }
    println!(
        "  {} samples {}",
        cycle.samples.len(),
        hexadecimal(&bits(&cycle.samples))
    );
    println!(
        "  expected number {}, time and maximum {}",
        expected.number,
        hexadecimal(&bits(&[expected.time, expected.maximum]))
    );
    println!(
        "  expected amounts {}",
        hexadecimal(&bits(&expected.amounts))
    );
    println!(
        "  expected residuals {}",
        hexadecimal(&bits(&expected.residual))
    );
    let (mut amounts, mut residual, mut reply) = ([0.0; 4], [0.0; 4], [0.0; 2]);
    let number = unsafe {
        linear_pk_periodic_steady_state(
            cycle.cells.as_ptr(),
            cycle.cells.len(),
            cycle.start,
            cycle.end,
            cycle.rtol,
            cycle.atol,
            cycle.propagations,
            cycle.event_budget,
            cycle.output_budget,
            cycle.words.as_ptr(),
            cycle.words.len(),
            cycle.samples.as_ptr(),
            cycle.samples.len(),
            given.absolute,
            given.relative,
            amounts.as_mut_ptr(),
            4,
            residual.as_mut_ptr(),
            4,
            reply.as_mut_ptr(),
            reply.as_mut_ptr().add(1),
        )
    };
    println!(
        "  received number {number}, time and maximum {}",
        hexadecimal(&bits(&reply))
    );
    println!("  received amounts {}", hexadecimal(&bits(&amounts)));
    println!("  received residuals {}", hexadecimal(&bits(&residual)));
}

fn stop(place: &str, text: &str, given: &Steady, expected: &Answer) -> ! {
    println!("difference, {place}");
    println!("  {text}");
    print(given, expected);
    exit(1);
}

/// Stops the program unless document 01 written out gives the Rust's answer.
fn hold(place: &str, given: &Steady, expected: &Answer) {
    let own = given.own(Reading::Right);
    if !own.same(expected) {
        let text = format!("the writing out of document 01 gives {own:x?}");
        stop(place, &text, given, expected);
    }
}

impl Tally {
    /// Stops the program unless the entry does what it must with a closed cycle.
    fn compare(&mut self, random: &mut Random, place: &str, given: &Steady) -> Answer {
        let expected = given.answer();
        let entry = linear_pk_periodic_steady_state;
        if let Some(text) = difference(entry, random, given, &expected, &mut self.calls) {
            stop(place, &text, given, &expected);
        }
        expected
    }

    fn add(&mut self, given: &Steady, kind: &'static str, expected: &Answer) {
        *self.numbers.entry(expected.number).or_default() += 1;
        // Each that begins is also called with a slice that is too short.
        if expected.began() {
            *self.numbers.entry(4).or_default() += 1;
        }
        let counts = self.kinds.entry(kind).or_default();
        counts.0 += 1;
        counts.1 += u64::from(expected.number == 0);
        self.forged += u64::from(given.cycle.rust.is_none());
    }

    fn add_shapes(&mut self, given: &Steady, expected: &Answer) {
        for shape in steady_shapes::shapes(given, expected) {
            *self.shapes.entry(shape).or_default() += 1;
        }
    }
}

/// The fixed sheets as arguments, and the ones that no sheet can have.
fn fixed() -> Vec<(&'static str, Steady)> {
    let of_sheet = |sheet: &Fixed| {
        let words = sheet::words(&sheet.bytes)?;
        let given = Steady::of_bodies(&sheet::bodies(&words)?)?;
        Some((sheet.name, given))
    };
    let sheets = steady_fixed::sheets();
    let mut all: Vec<_> = sheets.iter().filter_map(of_sheet).collect();
    all.extend(steady_fixed::forged());
    all
}

/// The comparison takes the right stand-in and catches each wrong one, all by
/// the fixed cycles.
fn try_stand_ins(fixed: &[(&'static str, Steady)]) {
    let answers: Vec<Answer> = fixed.iter().map(|(_, given)| given.answer()).collect();
    let caught = |entry: SteadyState| {
        let mut random = Random(0);
        fixed.iter().zip(&answers).any(|((_, given), answer)| {
            difference(entry, &mut random, given, answer, &mut 0).is_some()
        })
    };
    assert!(
        !caught(steady_readings::entry(Reading::Right)),
        "the right stand-in differs"
    );
    let mut missed: Vec<&str> = vec![];
    for (name, reading) in WRONG {
        if !caught(steady_readings::entry(*reading)) {
            missed.push(name);
        }
    }
    let faulty = FAULTY.iter().filter(|(_, entry)| !caught(*entry));
    missed.extend(faulty.map(|(name, _)| name));
    if !missed.is_empty() {
        println!("not caught: {}", missed.join("; "));
        exit(1);
    }
    println!(
        "{} wrong readings and {} wrong ways with limits, order and lent cells are caught",
        WRONG.len(),
        FAULTY.len()
    );
}

/// Prints what came up; gives what did not.
fn report(tally: &Tally) -> Vec<String> {
    let mut missing = vec![];
    for number in NUMBERS {
        match tally.numbers.get(&number) {
            Some(count) => println!("number {number}: {count}"),
            None => missing.push(format!("number {number}")),
        }
    }
    let others = tally.numbers.keys().filter(|n| !NUMBERS.contains(n));
    missing.extend(others.map(|number| format!("number {number} is none of a closed cycle's")));
    for kind in steady_draw::KINDS {
        match tally.kinds.get(kind) {
            Some((all, answers)) => println!("{kind}: {all}, {answers} of them with an answer"),
            None => missing.push(kind.into()),
        }
    }
    for shape in steady_shapes::ALL {
        match tally.shapes.get(shape) {
            Some(count) => println!("cycles with {shape}: {count}"),
            None => missing.push(format!("a cycle with {shape}")),
        }
    }
    println!("cycles with cells that new did not make: {}", tally.forged);
    println!("{} calls compared", tally.calls);
    missing
}

pub fn main() {
    let arguments: Vec<String> = std::env::args().skip(1).collect();
    let usage = || -> ! {
        eprintln!("steady [SEED [CASES]]");
        exit(2)
    };
    let read = |word: &String| word.parse::<u64>().unwrap_or_else(|_| usage());
    if arguments.len() > 2 {
        usage();
    }
    let seed = arguments.first().map_or(1, read);
    let cases = arguments.get(1).map_or(40_000, read);

    let fixed = fixed();
    try_stand_ins(&fixed);
    let mut tally = Tally::default();
    let mut random = Random(seed);
    for (name, given) in &fixed {
        let expected = tally.compare(&mut random, name, given);
        hold(name, given, &expected);
    }
    let mut lengths = 0;
    for (name, given) in fixed.iter().filter(|(name, _)| LENGTHS.contains(name)) {
        let (expected, n) = (given.answer(), given.cycle.n());
        let rooms = (0..=n + 2).flat_map(|first| (0..=n + 2).map(move |second| [first, second]));
        for room in rooms {
            let entry = linear_pk_periodic_steady_state;
            if let Some(text) = call(entry, &mut random, given, &expected, room) {
                stop(name, &text, given, &expected);
            }
            lengths += 1;
        }
    }
    println!(
        "{} fixed cycles and {lengths} lengths of slices agree",
        fixed.len()
    );
    for case in 0..cases {
        // Each case has a seed of its own, so that no case moves the draws of the next.
        let mut random = Random(random.next());
        let place = format!("seed {seed}, case {case}");
        let (given, kind) = steady_draw::steady(&mut random);
        let expected = tally.compare(&mut random, &place, &given);
        tally.add(&given, kind, &expected);
        tally.add_shapes(&given, &expected);
        // Some, since it takes its time.
        if case % 4 == 0 {
            hold(&place, &given, &expected);
        }
    }
    let missing = report(&tally);
    // A short run need not come to everything.
    if cases >= 40_000 && !missing.is_empty() {
        println!("did not come up: {}", missing.join("; "));
        exit(1);
    }
    println!(
        "{} closed cycles, 0 differences",
        cases + fixed.len() as u64
    );
}
