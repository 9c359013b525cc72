//! Runs sheets through the closed cycle of the C interface and over the Rust,
//! and compares the printouts byte for byte, with outputs of several lengths.
//!
//!     steady_sheets [SEED [CASES]]        the stand-ins, fixed sheets, then random ones
//!     steady_sheets --store FILE N SEED   write N printouts over the Rust
#[allow(dead_code)]
mod closed;
mod cycle_draw;
#[allow(dead_code)]
mod cycle_entry;
#[allow(dead_code)]
mod draw;
#[allow(dead_code)]
mod entries;
#[allow(dead_code)]
mod fold;
#[allow(dead_code)]
mod rule;
mod run_draw;
#[allow(dead_code)]
mod run_entry;
#[allow(dead_code)]
mod rust_cycle;
#[allow(dead_code)]
mod rust_run;
mod sheet;
mod sheet_broken;
#[allow(dead_code)]
mod sheet_draw;
#[allow(dead_code)]
mod sheet_entry;
#[allow(dead_code)]
mod sheet_fixed;
#[allow(dead_code)]
mod sheet_readings;
#[allow(dead_code)]
mod sheet_run;
#[allow(dead_code)]
mod slices;
mod steady_draw;
#[allow(dead_code)]
mod steady_entry;
#[allow(dead_code)]
mod steady_fixed;
mod steady_run;
mod steady_sheet_draw;
mod steady_sheet_readings;
mod steady_store;

use closed::{Reading, WRONG};
use draw::Random;
use sheet_entry::{difference, RunSheet};
use sheet_fixed::Fixed;
use sheet_readings::FAULTY;
use sheet_run::Printout;
use std::collections::BTreeMap;
use std::process::exit;
use steady_entry::rig_steady_sheet;
use steady_run::{printout, MOST};
use steady_sheet_draw::Drawn;
use steady_sheet_readings::{of_closed, READINGS};

/// The numbers that such a sheet can bring about. All others of document 01
/// belong to other entries, and 4 to the output alone.
pub const NUMBERS: [u64; 25] = [
    0, 1, 2, 5, 10, 11, 12, 13, 14, 15, 16, 17, 18, 19, 20, 21, 22, 30, 31, 32, 33, 34, 35, 36, 40,
];

/// Readings of the closed cycle that no sheet tells from the right one: a kernel
/// of `new` leaves at most two terms that are not 0 in a sum of back substitution.
const NOT_TOLD: [Reading; 1] = [Reading::Falling];

/// The counts of what came up.
#[derive(Default)]
struct Tally {
    numbers: BTreeMap<u64, u64>,
    /// By name: how many, and how many have an answer.
    kinds: BTreeMap<&'static str, (u64, u64)>,
    lines: u64,
}

impl Tally {
    fn add(&mut self, expected: &Printout) {
        *self.numbers.entry(expected.number).or_default() += 1;
        if expected.number == 0 {
            self.lines += expected.text.lines().count() as u64;
        }
    }

    fn add_kind(&mut self, drawn: &Drawn, expected: &Printout) {
        let counts = self.kinds.entry(drawn.kind).or_default();
        counts.0 += 1;
        counts.1 += u64::from(expected.number == 0);
        let kind = drawn.kind;
        assert!(
            !drawn.broken || expected.number == 40,
            "{kind} is not always 40"
        );
    }
}

fn hexadecimal(bytes: &[u8]) -> String {
    let words = bytes.chunks(8).map(|eight| {
        let digits = eight.iter().rev().map(|byte| format!("{byte:02x}"));
        digits.collect::<String>()
    });
    words.collect::<Vec<_>>().join(" ")
}

/// Stops the program unless the entry does what it must with a sheet.
fn compare(random: &mut Random, place: &str, bytes: &[u8], expected: &Printout) {
    let Some(text) = difference(rig_steady_sheet, random, bytes, expected, MOST) else {
        return;
    };
    println!("difference, {place}");
    println!("  {text}");
    println!(
        "  sheet of {} bytes, by words: {}",
        bytes.len(),
        hexadecimal(bytes)
    );
    println!("  expected:\n{}", expected.text);
    let mut out = vec![0; MOST];
    let mut length = 0;
    let number = unsafe {
        rig_steady_sheet(
            bytes.as_ptr(),
            bytes.len(),
            out.as_mut_ptr(),
            out.len(),
            &mut length,
        )
    };
    let text = String::from_utf8_lossy(&out[..length.min(out.len())]);
    println!("  received, number {number}:\n{text}");
    exit(1);
}

/// The comparison takes the right stand-in and catches each wrong one, all by
/// the fixed sheets.
fn try_stand_ins(fixed: &[Fixed]) {
    let right: Vec<Printout> = fixed.iter().map(|sheet| printout(&sheet.bytes)).collect();
    let caught = |entry: RunSheet| {
        let mut random = Random(0);
        fixed.iter().zip(&right).any(|(sheet, right)| {
            difference(entry, &mut random, &sheet.bytes, right, MOST).is_some()
        })
    };
    let entry = |printout: fn(&[u8]) -> Printout| sheet_readings::entry(printout);
    assert!(!caught(entry(printout)), "the Rust differs from itself");
    assert!(
        !caught(entry(of_closed(Reading::Right))),
        "document 01 written out differs"
    );
    let mut missed: Vec<&str> = vec![];
    let told = WRONG.iter().filter(|(_, wrong)| !NOT_TOLD.contains(wrong));
    for (name, reading) in told.clone() {
        if !caught(entry(of_closed(*reading))) {
            missed.push(name);
        }
    }
    for reading in READINGS {
        if !caught(entry(reading.printout)) {
            missed.push(reading.name);
        }
    }
    sheet_readings::entry(printout);
    let faulty = FAULTY.iter().filter(|(_, entry)| !caught(*entry));
    missed.extend(faulty.map(|(name, _)| name));
    if !missed.is_empty() {
        println!("not caught: {}", missed.join("; "));
        exit(1);
    }
    println!(
        "{} wrong readings and {} wrong ways with the lent cells are caught",
        told.count() + READINGS.len(),
        FAULTY.len()
    );
}

/// Prints what came up; gives what did not.
fn report(tally: &Tally) -> Vec<String> {
    let mut missing = vec![];
    for number in NUMBERS {
        match tally.numbers.get(&number) {
            Some(count) => println!("number {number}: {count}"),
            None => missing.push(format!("number {number}")),
        }
    }
    let others = tally.numbers.keys().filter(|n| !NUMBERS.contains(n));
    missing.extend(others.map(|number| format!("number {number} is none of such a sheet's")));
    for kind in steady_sheet_draw::kinds() {
        match tally.kinds.get(kind) {
            Some((all, 0)) => println!("{kind}: {all}"),
            Some((all, answers)) => println!("{kind}: {all}, {answers} of them with an answer"),
            None => missing.push(kind.into()),
        }
    }
    println!("{} lines in answers", tally.lines);
    missing
}

pub fn main() {
    let arguments: Vec<String> = std::env::args().skip(1).collect();
    let usage = || -> ! {
        eprintln!("steady_sheets [SEED [CASES]] | steady_sheets --store FILE N SEED");
        exit(2)
    };
    let read = |word: &String| word.parse::<u64>().unwrap_or_else(|_| usage());
    if arguments.first().is_some_and(|word| word == "--store") {
        let [_, file, count, seed] = &arguments[..] else {
            usage()
        };
        steady_store::write(file, read(count) as usize, read(seed));
        return;
    }
    if arguments.len() > 2 {
        usage();
    }
    let seed = arguments.first().map_or(1, read);
    let cases = arguments.get(1).map_or(100_000, read);

    let fixed = steady_fixed::sheets();
    try_stand_ins(&fixed);
    let mut tally = Tally::default();
    let mut random = Random(seed);
    for sheet in &fixed {
        let expected = printout(&sheet.bytes);
        sheet.hold(&expected);
        tally.add(&expected);
        compare(&mut random, sheet.name, &sheet.bytes, &expected);
    }
    // The sheets of the other comparison, and their cuts and single changes.
    let others = sheet_fixed::sheets().into_iter().map(|sheet| sheet.bytes);
    let others: Vec<Vec<u8>> = others.chain(sheet_fixed::changes()).collect();
    for (at, bytes) in others.iter().enumerate() {
        let expected = printout(bytes);
        let place = format!("sheet {at} of the other comparison");
        compare(&mut random, &place, bytes, &expected);
    }
    println!(
        "{} fixed sheets, and {} of the other comparison with their changes agree",
        fixed.len(),
        others.len()
    );
    for case in 0..cases {
        // Each case has a seed of its own, so that no case moves the draws of the next.
        let mut random = Random(random.next());
        let drawn = steady_sheet_draw::sheet(&mut random);
        let expected = printout(&drawn.bytes);
        tally.add(&expected);
        tally.add_kind(&drawn, &expected);
        let place = format!("seed {seed}, case {case}");
        compare(&mut random, &place, &drawn.bytes, &expected);
    }
    let missing = report(&tally);
    // A short run need not come to everything.
    if cases >= 100_000 && !missing.is_empty() {
        println!("did not come up: {}", missing.join("; "));
        exit(1);
    }
    let all = cases + (fixed.len() + others.len()) as u64;
    println!("{all} sheets, 0 differences");
}
