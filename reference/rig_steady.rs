//! Does what `rig-steady` does, over the Rust: reads a sheet on standard input
//! to its end and writes its printout.
#[allow(dead_code)]
mod entries;
#[allow(dead_code)]
mod rust_cycle;
#[allow(dead_code)]
mod rust_run;
#[allow(dead_code)]
mod sheet;
#[allow(dead_code)]
mod sheet_run;
#[allow(dead_code)]
mod steady_run;

use std::io::{self, Read, Write};

fn main() -> io::Result<()> {
    let mut bytes = vec![];
    io::stdin().read_to_end(&mut bytes)?;
    let printout = steady_run::printout(&bytes);
    io::stdout().write_all(printout.text.as_bytes())
}
