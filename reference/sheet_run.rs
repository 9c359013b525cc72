//! What `rig-run` does, over the Rust: the run of a sheet and its printout.
use crate::entries::{number, Entry};
use crate::rust_run::run_number;
use crate::sheet::{ordered, read, Sheet};
use qspquest_modeling::linear_pk::LinearPk;
use qspquest_modeling::{simulate_with_budgets, Sample};
use std::fmt::Write;

/// A refusal: its number and its time.
#[derive(Clone, Copy, Debug)]
pub struct Refusal {
    pub number: u64,
    pub time: f64,
}

impl Refusal {
    /// One that has no time.
    pub fn ahead(number: u64) -> Refusal {
        Refusal { number, time: 0.0 }
    }
}

/// The printout, and its number: 0 where the run reached its end.
#[derive(Clone, Debug, PartialEq)]
pub struct Printout {
    pub number: u64,
    pub text: String,
}

impl Printout {
    /// The number of a call whose output has so many bytes: an answer without
    /// room is 4, a refusal keeps its number.
    pub fn reply(&self, room: usize) -> u64 {
        if self.number == 0 && room < self.text.len() {
            4
        } else {
            self.number
        }
    }
}

/// The kernel of a sheet: 1, 2.
pub fn kernel(sheet: &Sheet) -> Result<LinearPk, Refusal> {
    LinearPk::new(
        sheet.clearance,
        &sheet.volumes,
        &sheet.exchange,
        sheet.absorption,
    )
    .map_err(|error| Refusal::ahead(number(Entry::New, &error)))
}

/// The rows of a kernel and a sheet: 3, then the run's own.
pub fn run(kernel: &LinearPk, sheet: &Sheet) -> Result<Vec<Sample>, Refusal> {
    let bound = kernel
        .bind(&sheet.amounts)
        .map_err(|error| Refusal::ahead(number(Entry::Bind, &error)))?;
    simulate_with_budgets(&bound, &sheet.protocol, sheet.budgets).map_err(|error| Refusal {
        number: run_number(&error),
        time: error.time.unwrap_or(0.0),
    })
}

pub fn bits(x: f64) -> String {
    format!("{:016x}", x.to_bits())
}

pub fn refused(refusal: Refusal) -> Printout {
    Printout {
        number: refusal.number,
        text: format!("refused {} {}\n", refusal.number, bits(refusal.time)),
    }
}

pub fn reached(rows: &[Sample], ordered: f64) -> Printout {
    let mut text = format!("rows {}\n", rows.len());
    for row in rows {
        let amounts: Vec<_> = row.values.iter().map(|amount| bits(*amount)).collect();
        let side = row.side.as_str();
        assert!(matches!(side, "pre" | "post"), "a side that is not known");
        writeln!(text, "{} {side} {}", bits(row.time), amounts.join(" ")).expect("a text");
    }
    writeln!(text, "ordered {}", bits(ordered)).expect("a text");
    Printout { number: 0, text }
}

/// The printout of a sheet that was read.
pub fn printed(sheet: &Sheet) -> Printout {
    match kernel(sheet).and_then(|kernel| run(&kernel, sheet)) {
        Ok(rows) => reached(&rows, ordered(&sheet.protocol.events)),
        Err(refusal) => refused(refusal),
    }
}

/// The printout of a file.
pub fn printout(bytes: &[u8]) -> Printout {
    match read(bytes) {
        Ok(sheet) => printed(&sheet),
        Err(number) => refused(Refusal::ahead(number)),
    }
}
