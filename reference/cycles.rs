//! Calls the fold of the C interface and the Rust's on the same cycles, and
//! compares number, count, every piece by bits, and every other cell.
//!
//!     cycles [SEED [CASES]]        the stand-ins, fixed cycles, then random ones
//!     cycles --store FILE N SEED   write N folds of the Rust
mod cycle_draw;
mod cycle_entry;
mod cycle_fixed;
mod cycle_readings;
mod cycle_shapes;
mod cycle_store;
#[allow(dead_code)]
mod draw;
#[allow(dead_code)]
mod entries;
mod fold;
#[allow(dead_code)]
mod rule;
#[allow(dead_code)]
mod run_entry;
#[allow(dead_code)]
mod rust_cycle;
#[allow(dead_code)]
mod rust_run;
mod slices;

use cycle_entry::*;
use cycle_fixed::Fixed;
use cycle_readings::FAULTY;
use cycle_shapes::own;
use draw::Random;
use fold::{Reading, WRONG};
use rust_cycle::encoded;
use rust_run::EVENT;
use slices::bits;
use std::collections::BTreeMap;
use std::process::exit;

/// The numbers that a fold can reply.
const NUMBERS: [u64; 14] = [0, 1, 2, 4, 5, 10, 11, 12, 13, 15, 16, 17, 18, 40];

/// The counts of what came up.
#[derive(Default)]
struct Tally {
    calls: u64,
    numbers: BTreeMap<u64, u64>,
    causes: BTreeMap<(u64, String), u64>,
    shapes: BTreeMap<&'static str, u64>,
    readings: BTreeMap<&'static str, u64>,
    forged: u64,
    pieces: u64,
}

fn hexadecimal(values: &[u64]) -> String {
    let words: Vec<_> = values.iter().map(|word| format!("{word:016x}")).collect();
    words.join(" ")
}

fn print_list(words: &[u64]) {
    for words in words.chunks(EVENT) {
        println!("    {}", hexadecimal(words));
    }
}

/// The whole case, in bits.
fn print(cycle: &Cycle, expected: &Answer) {
    println!("  kernel {}", hexadecimal(&bits(&cycle.cells)));
    let window = [cycle.start, cycle.end, cycle.rtol, cycle.atol];
    println!("  start, end, rtol, atol {}", hexadecimal(&bits(&window)));
    println!(
        "  budgets: propagations {}, events {}, outputs {}",
        cycle.propagations, cycle.event_budget, cycle.output_budget
    );
    println!("  {} words of events", cycle.words.len());
    print_list(&cycle.words);
    println!(
        "  {} samples {}",
        cycle.samples.len(),
        hexadecimal(&bits(&cycle.samples))
    );
    println!(
        "  expected number {}, {} pieces",
        expected.number,
        expected.pieces.len()
    );
    print_list(&expected.words());
    let room = EVENT * PIECES;
    let mut folded = vec![0_u64; room];
    let mut count = 0;
    let reply = unsafe {
        linear_pk_normalize_periodic_cycle(
            cycle.cells.as_ptr(),
            cycle.cells.len(),
            cycle.start,
            cycle.end,
            cycle.rtol,
            cycle.atol,
            cycle.propagations,
            cycle.event_budget,
            cycle.output_budget,
            cycle.words.as_ptr(),
            cycle.words.len(),
            cycle.samples.as_ptr(),
            cycle.samples.len(),
            folded.as_mut_ptr(),
            room,
            &mut count,
        )
    };
    println!("  received number {reply}, {count} pieces");
    print_list(&folded[..EVENT * count.min(PIECES)]);
}

fn stop(place: &str, text: &str, cycle: &Cycle, expected: &Answer) -> ! {
    println!("difference, {place}");
    println!("  {text}");
    print(cycle, expected);
    exit(1);
}

/// The Rust's answer, which document 01 written out must give as well.
fn answer(place: &str, cycle: &Cycle) -> Answer {
    let expected = cycle.answer();
    let own = match own(cycle, Reading::Right) {
        Ok(pieces) => (0, encoded(&pieces)),
        Err(number) => (number, vec![]),
    };
    if own != (expected.number, expected.words()) {
        let text = format!("the writing out of document 01 gives {own:x?}");
        stop(place, &text, cycle, &expected);
    }
    expected
}

impl Tally {
    /// Stops the program unless the entry does what it must with a cycle.
    fn compare(&mut self, random: &mut Random, place: &str, cycle: &Cycle) -> Answer {
        let expected = answer(place, cycle);
        let entry = linear_pk_normalize_periodic_cycle;
        if let Some(text) = difference(entry, random, cycle, &expected, &mut self.calls) {
            stop(place, &text, cycle, &expected);
        }
        expected
    }

    fn add(&mut self, cycle: &Cycle, expected: &Answer) {
        *self.numbers.entry(expected.number).or_default() += 1;
        // Each with pieces is also called with one word too few.
        if !expected.pieces.is_empty() {
            *self.numbers.entry(4).or_default() += 1;
        }
        if !expected.cause.is_empty() {
            let cause = (expected.number, expected.cause.clone());
            *self.causes.entry(cause).or_default() += 1;
        }
        self.forged += u64::from(cycle.rust.is_none());
        self.pieces += expected.pieces.len() as u64;
        let mut shapes = cycle_shapes::shapes(cycle, expected);
        shapes.sort_unstable();
        shapes.dedup();
        for shape in shapes {
            *self.shapes.entry(shape).or_default() += 1;
        }
    }

    /// How often a wrong reading gives another answer.
    fn add_readings(&mut self, cycle: &Cycle, expected: &Answer) {
        let right = if expected.number == 0 {
            Ok(expected.words())
        } else {
            Err(expected.number)
        };
        for (name, reading) in WRONG {
            let other = own(cycle, *reading).map(|pieces| encoded(&pieces));
            *self.readings.entry(name).or_default() += u64::from(other != right);
        }
    }
}

/// The comparison takes the right stand-in and catches each wrong one, all by
/// the fixed cycles.
fn try_stand_ins(fixed: &[Fixed]) {
    let answers: Vec<Answer> = fixed
        .iter()
        .map(|case| answer(case.name, &case.cycle))
        .collect();
    let caught = |entry: Normalize| {
        let mut random = Random(0);
        fixed.iter().zip(&answers).any(|(case, answer)| {
            difference(entry, &mut random, &case.cycle, answer, &mut 0).is_some()
        })
    };
    assert!(
        !caught(cycle_readings::entry(Reading::Right)),
        "the right stand-in differs"
    );
    let mut missed: Vec<&str> = vec![];
    for (name, reading) in WRONG {
        if !caught(cycle_readings::entry(*reading)) {
            missed.push(name);
        }
    }
    let faulty = FAULTY.iter().filter(|(_, entry)| !caught(*entry));
    missed.extend(faulty.map(|(name, _)| name));
    if !missed.is_empty() {
        println!("not caught: {}", missed.join("; "));
        exit(1);
    }
    println!(
        "{} wrong readings and {} wrong ways with limits, order and lent cells are caught",
        WRONG.len(),
        FAULTY.len()
    );
}

/// Prints what came up; gives what did not.
fn report(tally: &Tally) -> Vec<String> {
    let mut missing = vec![];
    for number in NUMBERS {
        match tally.numbers.get(&number) {
            Some(count) => println!("number {number}: {count}"),
            None => missing.push(format!("number {number}")),
        }
    }
    let others = tally.numbers.keys().filter(|n| !NUMBERS.contains(n));
    missing.extend(others.map(|number| format!("number {number} is none of a fold's")));
    for ((number, cause), count) in &tally.causes {
        println!("{number} by \"{cause}\": {count}");
    }
    for shape in cycle_shapes::ALL {
        match tally.shapes.get(shape) {
            Some(count) => println!("cycles with {shape}: {count}"),
            None => missing.push(format!("a cycle with {shape}")),
        }
    }
    for (name, _) in WRONG {
        match tally.readings.get(name) {
            Some(count) if *count > 0 => println!("told from \"{name}\": {count}"),
            _ => missing.push(format!("a cycle that tells \"{name}\" apart")),
        }
    }
    println!("cycles with cells that new did not make: {}", tally.forged);
    println!(
        "{} calls compared; the cycles as drawn have {} pieces",
        tally.calls, tally.pieces
    );
    missing
}

pub fn main() {
    let arguments: Vec<String> = std::env::args().skip(1).collect();
    let usage = || -> ! {
        eprintln!("cycles [SEED [CASES]] | cycles --store FILE N SEED");
        exit(2)
    };
    let read = |word: &String| word.parse::<u64>().unwrap_or_else(|_| usage());
    if arguments.first().is_some_and(|word| word == "--store") {
        let [_, file, count, seed] = &arguments[..] else {
            usage()
        };
        cycle_store::write(file, read(count) as usize, read(seed));
        return;
    }
    if arguments.len() > 2 {
        usage();
    }
    let seed = arguments.first().map_or(1, read);
    let cases = arguments.get(1).map_or(200_000, read);

    let fixed = cycle_fixed::cases();
    try_stand_ins(&fixed);
    let mut tally = Tally::default();
    let mut random = Random(seed);
    for case in &fixed {
        let expected = tally.compare(&mut random, case.name, &case.cycle);
        case.hold(&expected);
    }
    let mut lengths = 0;
    for (cycle, most) in cycle_fixed::lengths() {
        let expected = answer("lengths", &cycle);
        for room in 0..=most {
            let entry = linear_pk_normalize_periodic_cycle;
            if let Some(text) = call(entry, &mut random, &cycle, &expected, room) {
                stop("lengths", &text, &cycle, &expected);
            }
            lengths += 1;
        }
    }
    println!(
        "{} fixed cycles and {lengths} lengths of slices agree",
        fixed.len()
    );
    for case in 0..cases {
        // Each case has a seed of its own, so that no case moves the draws of the next.
        let mut random = Random(random.next());
        let place = format!("seed {seed}, case {case}");
        let cycle = cycle_draw::cycle(&mut random);
        let expected = tally.compare(&mut random, &place, &cycle);
        tally.add(&cycle, &expected);
        // Some, since all readings take their time.
        if case % 4 == 0 {
            tally.add_readings(&cycle, &expected);
        }
    }
    let missing = report(&tally);
    // A short run need not come to everything.
    if cases >= 100_000 && !missing.is_empty() {
        println!("did not come up: {}", missing.join("; "));
        exit(1);
    }
    println!("{} cycles, 0 differences", cases + fixed.len() as u64);
}
