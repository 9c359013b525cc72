//! Runs sheets through the C interface and over the Rust, and compares the
//! printouts byte for byte, with outputs of several lengths.
//!
//!     sheets [SEED [CASES]]        the stand-ins, fixed sheets, then random ones
//!     sheets --store FILE N SEED   write N printouts over the Rust
#[allow(dead_code)]
mod draw;
#[allow(dead_code)]
mod entries;
#[allow(dead_code)]
mod rule;
mod run_draw;
#[allow(dead_code)]
mod run_entry;
mod rust_run;
#[allow(dead_code)]
mod sheet;
mod sheet_broken;
mod sheet_draw;
mod sheet_entry;
mod sheet_fixed;
mod sheet_readings;
mod sheet_run;
mod sheet_store;
#[allow(dead_code)]
mod slices;

use draw::Random;
use sheet_broken::BROKEN;
use sheet_draw::{Drawn, Kind, NAMED, RECIPES};
use sheet_entry::{difference, rig_run_sheet, RunSheet, MOST};
use sheet_fixed::Fixed;
use sheet_readings::{FAULTY, READINGS};
use sheet_run::{printout, Printout};
use std::collections::BTreeMap;
use std::process::exit;

/// The numbers that a sheet can bring about. All others of document 01 belong
/// to other entries, and 4 to the output alone.
const NUMBERS: [u64; 17] = [
    0, 1, 2, 3, 5, 10, 11, 12, 13, 14, 20, 21, 22, 30, 31, 32, 40,
];

/// The counts of what came up.
#[derive(Default)]
struct Tally {
    numbers: BTreeMap<u64, u64>,
    /// 3 with a time: in a run.
    in_run: u64,
    /// By name: how many, and how many have the number they were made for.
    kinds: BTreeMap<&'static str, (u64, u64)>,
    rows: u64,
    bytes: u64,
}

impl Tally {
    fn add(&mut self, expected: &Printout) {
        *self.numbers.entry(expected.number).or_default() += 1;
        self.in_run += u64::from(expected.number == 3 && !expected.text.contains(" 3 0000"));
        self.bytes += expected.text.len() as u64;
        if expected.number == 0 {
            self.rows += expected.text.lines().count() as u64 - 2;
        }
    }

    fn add_kind(&mut self, drawn: &Drawn, expected: &Printout) {
        let (name, number) = match drawn.kind {
            Kind::Recipe(at) => (RECIPES[at].name, RECIPES[at].number),
            Kind::Broken(at) => (BROKEN[at].name, 40),
            Kind::Named(name) => (name, expected.number),
        };
        let counts = self.kinds.entry(name).or_default();
        counts.0 += 1;
        counts.1 += u64::from(expected.number == number);
    }
}

fn hexadecimal(bytes: &[u8]) -> String {
    let words = bytes.chunks(8).map(|eight| {
        let digits = eight.iter().rev().map(|byte| format!("{byte:02x}"));
        digits.collect::<String>()
    });
    words.collect::<Vec<_>>().join(" ")
}

/// Stops the program unless the entry does what it must with a sheet.
fn compare(entry: RunSheet, random: &mut Random, place: &str, bytes: &[u8], expected: &Printout) {
    let Some(text) = difference(entry, random, bytes, expected, MOST) else {
        return;
    };
    println!("difference, {place}");
    println!("  {text}");
    println!(
        "  sheet of {} bytes, by words: {}",
        bytes.len(),
        hexadecimal(bytes)
    );
    println!("  expected:\n{}", expected.text);
    let mut out = vec![0; MOST];
    let mut length = 0;
    let number = unsafe {
        entry(
            bytes.as_ptr(),
            bytes.len(),
            out.as_mut_ptr(),
            out.len(),
            &mut length,
        )
    };
    let text = String::from_utf8_lossy(&out[..length.min(out.len())]);
    println!("  received, number {number}:\n{text}");
    exit(1);
}

/// The comparison takes the right stand-in and catches each wrong one, all by
/// the fixed sheets.
fn try_stand_ins(fixed: &[Fixed]) {
    let caught = |entry: RunSheet| {
        let mut random = Random(0);
        fixed.iter().any(|sheet| {
            let right = printout(&sheet.bytes);
            difference(entry, &mut random, &sheet.bytes, &right, MOST).is_some()
        })
    };
    assert!(!caught(sheet_readings::entry(printout)));
    let mut missed: Vec<&str> = vec![];
    for reading in READINGS {
        if !caught(sheet_readings::entry(reading.printout)) {
            missed.push(reading.name);
        }
    }
    sheet_readings::entry(printout);
    let faulty = FAULTY.iter().filter(|(_, entry)| !caught(*entry));
    missed.extend(faulty.map(|(name, _)| name));
    if !missed.is_empty() {
        println!("not caught: {}", missed.join("; "));
        exit(1);
    }
    println!(
        "{} wrong readings and {} wrong ways with the lent cells are caught",
        READINGS.len(),
        FAULTY.len()
    );
}

/// Prints what came up; gives what did not.
fn report(tally: &Tally) -> Vec<String> {
    let mut missing = vec![];
    for number in NUMBERS {
        match tally.numbers.get(&number) {
            Some(count) if number == 3 => {
                println!("number 3: {count}, {} of them in a run", tally.in_run)
            }
            Some(count) => println!("number {number}: {count}"),
            None => missing.push(format!("number {number}")),
        }
    }
    if tally.in_run == 0 {
        missing.push("number 3 in a run".into());
    }
    let others = tally.numbers.keys().filter(|n| !NUMBERS.contains(n));
    missing.extend(others.map(|number| format!("number {number} is none of a sheet's")));
    let counts = |name: &'static str| tally.kinds.get(name).copied();
    for recipe in &RECIPES {
        match counts(recipe.name) {
            Some((all, met)) if met > 0 => println!(
                "made for {} by {}: {all}, {met} of them came to it",
                recipe.number, recipe.name
            ),
            _ => missing.push(recipe.name.into()),
        }
    }
    for broken in &BROKEN {
        match counts(broken.name) {
            Some((all, met)) if met == all => println!("40 by {}: {all}", broken.name),
            Some(_) => missing.push(format!("{} is not always 40", broken.name)),
            None => missing.push(broken.name.into()),
        }
    }
    for name in NAMED {
        match counts(name) {
            Some((all, _)) => println!("{name}: {all}"),
            None => missing.push(name.into()),
        }
    }
    println!("{} rows in {} bytes of printouts", tally.rows, tally.bytes);
    missing
}

pub fn main() {
    let arguments: Vec<String> = std::env::args().skip(1).collect();
    let usage = || -> ! {
        eprintln!("sheets [SEED [CASES]] | sheets --store FILE N SEED");
        exit(2)
    };
    let read = |word: &String| word.parse::<u64>().unwrap_or_else(|_| usage());
    if arguments.first().is_some_and(|word| word == "--store") {
        let [_, file, count, seed] = &arguments[..] else {
            usage()
        };
        sheet_store::write(file, read(count) as usize, read(seed));
        return;
    }
    if arguments.len() > 2 {
        usage();
    }
    let seed = arguments.first().map_or(1, read);
    let cases = arguments.get(1).map_or(200_000, read);

    let fixed = sheet_fixed::sheets();
    try_stand_ins(&fixed);
    let mut tally = Tally::default();
    let mut random = Random(seed);
    for sheet in &fixed {
        let expected = printout(&sheet.bytes);
        sheet.hold(&expected);
        tally.add(&expected);
        compare(
            rig_run_sheet,
            &mut random,
            sheet.name,
            &sheet.bytes,
            &expected,
        );
    }
    let changes = sheet_fixed::changes();
    for (at, bytes) in changes.iter().enumerate() {
        let expected = printout(bytes);
        let place = format!("change {at}");
        compare(rig_run_sheet, &mut random, &place, bytes, &expected);
    }
    println!(
        "{} fixed sheets, and {} cuts and single changes of two more agree",
        fixed.len(),
        changes.len()
    );
    for case in 0..cases {
        // Each case has a seed of its own, so that no case moves the draws of the next.
        let mut random = Random(random.next());
        let drawn = sheet_draw::sheet(&mut random);
        let expected = printout(&drawn.bytes);
        tally.add(&expected);
        tally.add_kind(&drawn, &expected);
        let place = format!("seed {seed}, case {case}");
        compare(rig_run_sheet, &mut random, &place, &drawn.bytes, &expected);
    }
    let missing = report(&tally);
    // A short run need not come to everything.
    if cases >= 100_000 && !missing.is_empty() {
        println!("did not come up: {}", missing.join("; "));
        exit(1);
    }
    let all = cases + (fixed.len() + changes.len()) as u64;
    println!("{all} sheets, 0 differences");
}
