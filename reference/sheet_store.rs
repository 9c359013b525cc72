//! A list of sheets with their printouts over the Rust, for replay where the
//! Rust is not at hand. README.md gives the layout of a line.
use crate::draw::Random;
use crate::sheet_entry::line;
use crate::sheet_run::{printout, Printout};
use crate::{sheet_draw, sheet_fixed, NUMBERS};
use std::collections::BTreeSet;

/// The most bytes of a sheet that is drawn, and of any stored printout.
const SHORT: usize = 8 * 60;
const TEXT: usize = 1500;
/// The most tries to draw a sheet of a wanted kind.
const TRIES: usize = 1_000_000;

/// What a drawn sheet adds: its number, its states, and how many rows it has.
fn shape(printout: &Printout) -> (u64, usize, usize) {
    let lines: Vec<&str> = printout.text.lines().collect();
    let words = lines.get(1).map_or(0, |row| row.split(' ').count());
    (printout.number, words, lines.len())
}

/// The fixed sheets that are short enough, then drawn ones: each number in
/// turn, and of each the shapes that are not there yet.
fn sheets(count: usize, seed: u64) -> Vec<Vec<u8>> {
    let mut random = Random(seed);
    let mut all: Vec<Vec<u8>> = sheet_fixed::sheets()
        .into_iter()
        .filter(|fixed| fixed.stored())
        .map(|fixed| fixed.bytes)
        .collect();
    all.truncate(count);
    let mut known: BTreeSet<_> = all.iter().map(|bytes| shape(&printout(bytes))).collect();
    // Runs that reach their end stand beside each refusal, but for those by layout and limits.
    let runs = NUMBERS
        .iter()
        .filter(|number| !matches!(number, 0 | 5 | 40));
    let mut wanted = runs.flat_map(|number| [0, *number]).cycle();
    while all.len() < count {
        let number = wanted.next().expect("no end of numbers");
        let drawn = (0..TRIES)
            .map(|_| sheet_draw::sheet(&mut random).bytes)
            .filter(|bytes| bytes.len() <= SHORT)
            .find(|bytes| {
                let printout = printout(bytes);
                printout.number == number
                    && printout.text.len() <= TEXT
                    && (number != 0 || known.insert(shape(&printout)))
            })
            .expect("a sheet of each kind is drawn in time");
        all.push(drawn);
    }
    all
}

pub fn write(file: &str, count: usize, seed: u64) {
    let sheets = sheets(count, seed);
    let mut text = format!(
        "# Sheets and their printouts over the Rust, unibio-intelligence/qspquest commit ea04d050d0, built with {}. Made by: sheets --store FILE {count} {seed}\n",
        option_env!("RUSTC_VERSION").unwrap_or("a rustc of unknown version"),
    );
    let mut numbers = BTreeSet::new();
    for bytes in &sheets {
        let printout = printout(bytes);
        assert!(printout.text.len() <= TEXT, "a printout is too long");
        numbers.insert(printout.number);
        text.push_str(&line(bytes, &printout));
        text.push('\n');
    }
    assert!(
        NUMBERS.iter().all(|number| numbers.contains(number)),
        "each number is stored"
    );
    if let Err(error) = std::fs::write(file, text) {
        eprintln!("{file}: {error}");
        std::process::exit(1);
    }
    println!("{} sheets stored", sheets.len());
}
