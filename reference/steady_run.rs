//! What `rig-steady` does, over the Rust: the steady state of a sheet and its
//! printout.
use crate::rust_cycle::steady_number;
use crate::sheet::{read, Sheet};
use crate::sheet_run::{bits, kernel, refused, Printout, Refusal};
use qspquest_modeling::linear_pk::{LinearPk, PeriodicSteadyState, SteadyStateTolerance};
use qspquest_modeling::{Budgets, Error, Protocol};
use std::fmt::Write;

/// The most bytes of a printout: four lines of amount and residual, then "max".
pub const MOST: usize = 4 * 34 + 21;

/// The refusal of a closed cycle.
pub fn refusal(error: &Error) -> Refusal {
    Refusal {
        number: steady_number(error),
        time: error.time.unwrap_or(0.0),
    }
}

/// The steady state of a kernel and a cycle, or its refusal.
pub fn steady(
    kernel: &LinearPk,
    cycle: &Protocol,
    budgets: Budgets,
    absolute: f64,
    relative: f64,
) -> Result<PeriodicSteadyState, Refusal> {
    let tolerance = SteadyStateTolerance { absolute, relative };
    kernel
        .periodic_steady_state(cycle, budgets, tolerance)
        .map_err(|error| refusal(&error))
}

pub fn solved(amounts: &[f64], residual: &[f64], maximum: f64) -> Printout {
    let mut text = String::new();
    for (amount, difference) in amounts.iter().zip(residual) {
        writeln!(text, "{} {}", bits(*amount), bits(*difference)).expect("a text");
    }
    writeln!(text, "max {}", bits(maximum)).expect("a text");
    Printout { number: 0, text }
}

/// The steady state of a sheet that was read; its amounts are passed over.
pub fn of_sheet(sheet: &Sheet) -> Result<PeriodicSteadyState, Refusal> {
    let kernel = kernel(sheet)?;
    let (absolute, relative) = (sheet.absolute, sheet.relative);
    steady(&kernel, &sheet.protocol, sheet.budgets, absolute, relative)
}

/// The printout of a sheet that was read.
pub fn printed(sheet: &Sheet) -> Printout {
    match of_sheet(sheet) {
        Ok(state) => solved(
            &state.amounts,
            &state.residual,
            state.maximum_scaled_residual,
        ),
        Err(refusal) => refused(refusal),
    }
}

/// The printout of a file.
pub fn printout(bytes: &[u8]) -> Printout {
    match read(bytes) {
        Ok(sheet) => printed(&sheet),
        Err(number) => refused(Refusal::ahead(number)),
    }
}
