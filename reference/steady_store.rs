//! A list of sheets with their printouts over the Rust, of closed cycles, for
//! replay where the Rust is not at hand. README.md gives the layout of a line.
use crate::draw::Random;
use crate::sheet_entry::line;
use crate::sheet_run::Printout;
use crate::steady_run::printout;
use crate::{steady_fixed, steady_sheet_draw, NUMBERS};
use std::collections::BTreeSet;

/// The most bytes of a sheet that is drawn.
const SHORT: usize = 8 * 60;
/// The most tries to draw a sheet of a wanted kind.
const TRIES: usize = 1_000_000;

/// What a drawn sheet adds: its number, its states, and whether it has residuals.
fn shape(printout: &Printout) -> (u64, usize, bool) {
    let lines: Vec<&str> = printout.text.lines().collect();
    let last = lines.last().expect("a line");
    (
        printout.number,
        lines.len(),
        last.ends_with(" 0000000000000000"),
    )
}

/// The fixed sheets that are short enough, then drawn ones: each number in turn,
/// with an answer beside each refusal.
fn sheets(count: usize, seed: u64) -> Vec<Vec<u8>> {
    let mut random = Random(seed);
    let mut all: Vec<Vec<u8>> = steady_fixed::sheets()
        .into_iter()
        .filter(|fixed| fixed.stored())
        .map(|fixed| fixed.bytes)
        .collect();
    all.truncate(count);
    let others = NUMBERS
        .iter()
        .filter(|number| !matches!(number, 0 | 5 | 40));
    // Answers of each number of states, with residuals and without.
    let shapes = (2..=5).flat_map(|lines| [(0, lines, false), (0, lines, true)]);
    let mut answers = shapes.cycle();
    let mut refusals = others.cycle();
    while all.len() < count {
        let answer = answers.next().expect("no end of answers");
        let number = *refusals.next().expect("no end of numbers");
        for wanted in [Ok(answer), Err(number)] {
            let drawn = (0..TRIES)
                .map(|_| steady_sheet_draw::sheet(&mut random).bytes)
                .filter(|bytes| bytes.len() <= SHORT)
                .find(|bytes| {
                    let printout = printout(bytes);
                    match wanted {
                        Ok(answer) => shape(&printout) == answer,
                        Err(number) => printout.number == number,
                    }
                })
                .expect("a sheet of each kind is drawn in time");
            all.push(drawn);
        }
    }
    all.truncate(count);
    all
}

pub fn write(file: &str, count: usize, seed: u64) {
    let sheets = sheets(count, seed);
    let mut text = format!(
        "# Sheets and their printouts over the Rust, of closed cycles, unibio-intelligence/qspquest commit ea04d050d0, built with {}. Made by: steady_sheets --store FILE {count} {seed}\n",
        option_env!("RUSTC_VERSION").unwrap_or("a rustc of unknown version"),
    );
    let mut numbers = BTreeSet::new();
    for bytes in &sheets {
        let printout = printout(bytes);
        numbers.insert(printout.number);
        text.push('s');
        text.push_str(&line(bytes, &printout));
        text.push('\n');
    }
    assert!(
        NUMBERS.iter().all(|number| numbers.contains(number)),
        "each number is stored"
    );
    if let Err(error) = std::fs::write(file, text) {
        eprintln!("{file}: {error}");
        std::process::exit(1);
    }
    println!("{} sheets stored", sheets.len());
}
