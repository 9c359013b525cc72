//! Times the run of a sheet beside the same over the Rust: calls in one process,
//! and whole programs that read it on standard input.
//!
//! A call has the reading, the run and the printout. Ours writes into a lent
//! buffer; the Rust's side makes the text as a string.
use crate::sheet_entry::{rig_run_sheet, RunSheet, MOST};
use crate::sheet_fixed;
use crate::sheet_run::{printout, Printout};
use crate::{batch, median};
use std::cell::RefCell;
use std::fs::File;
use std::hint::black_box;
use std::path::{Path, PathBuf};
use std::process::{Command, Stdio};
use std::time::Instant;

/// Batches of each side for one line of a table.
const BATCHES: usize = 101;
/// The least time of a batch, in nanoseconds.
const BATCH: f64 = 200_000.0;
/// Programs of each side that are started for one line.
const STARTS: usize = 301;

/// The sheets of the tables, by their names among the fixed ones.
const SHEETS: [&str; 6] = [
    "the printout of document 01",
    "8,192 words",
    "8,192 words with 1,361 events",
    "8,193 words",
    "64 infusions and 256 samples for one state",
    "64 infusions and 256 samples",
];

/// A fixed sheet.
pub fn named(name: &str) -> Vec<u8> {
    let found = sheet_fixed::sheets()
        .into_iter()
        .find(|sheet| sheet.name == name);
    found.expect("a fixed sheet").bytes
}

/// A call of an entry with the parameters of a sheet's run.
#[inline(never)]
pub fn call(entry: RunSheet, sheet: &[u8], out: &mut [u8]) -> (u64, usize) {
    let sheet = black_box(sheet);
    let mut length = 0;
    let number = unsafe {
        entry(
            sheet.as_ptr(),
            sheet.len(),
            out.as_mut_ptr(),
            out.len(),
            &mut length,
        )
    };
    (number, length)
}

/// One line of a table: both sides on the same sheet, and their times.
struct Point {
    name: &'static str,
    sheet: Vec<u8>,
    expected: Printout,
    calls: usize,
    rust_times: Vec<f64>,
    our_times: Vec<f64>,
}

impl Point {
    fn new(name: &'static str) -> Point {
        let sheet = named(name);
        let expected = printout(&sheet);
        let mut point = Point {
            name,
            expected,
            sheet,
            calls: 1,
            rust_times: vec![],
            our_times: vec![],
        };
        let mut out = vec![0; MOST];
        let (number, length) = call(rig_run_sheet, &point.sheet, &mut out);
        assert_eq!(number, point.expected.number);
        assert_eq!(&out[..length], point.expected.text.as_bytes());
        while batch(point.calls, || point.rust_printout()) * point.calls as f64 <= BATCH {
            point.calls *= 2;
        }
        point
    }

    #[inline(never)]
    fn rust_printout(&self) -> Printout {
        printout(black_box(&self.sheet))
    }

    /// One batch of each side.
    fn time(&mut self, out: &RefCell<Vec<u8>>) {
        let rust_time = batch(self.calls, || self.rust_printout());
        let our_time = batch(self.calls, || {
            call(rig_run_sheet, &self.sheet, &mut out.borrow_mut())
        });
        self.rust_times.push(rust_time);
        self.our_times.push(our_time);
    }

    /// One program of each side, which must print what is expected.
    fn start(&mut self, programs: &[PathBuf; 2], file: &Path) {
        for (program, times) in programs
            .iter()
            .zip([&mut self.rust_times, &mut self.our_times])
        {
            let input = File::open(file).expect("the sheet");
            let start = Instant::now();
            let output = Command::new(program)
                .stdin(Stdio::from(input))
                .output()
                .expect("the program runs");
            times.push(start.elapsed().as_nanos() as f64);
            assert_eq!(output.stdout, self.expected.text.as_bytes());
        }
    }

    fn print(&mut self) {
        let (rust_time, our_time) = (median(&mut self.rust_times), median(&mut self.our_times));
        // Two places for short times.
        let us = |time: f64| match time / 1000.0 {
            short if short < 10.0 => format!("{short:.2}"),
            long => format!("{long:.1}"),
        };
        println!(
            "| {} | {} | {} | {} | {} | {} | {:.2} |",
            self.name,
            self.sheet.len().div_ceil(8),
            self.expected.number,
            self.expected.text.len(),
            us(rust_time),
            us(our_time),
            our_time / rust_time
        );
        self.rust_times.clear();
        self.our_times.clear();
    }
}

/// The program over the Rust, beside this one, and ours.
fn programs() -> [PathBuf; 2] {
    let own = std::env::current_exe().expect("this program");
    let folder = own.parent().expect("a folder");
    let ours = std::env::var_os("RIG_RUN").map(PathBuf::from);
    let ours = ours.unwrap_or_else(|| folder.join("../../crates/rig_run/out/rig_run"));
    let programs = [folder.join("rig_run"), ours];
    for program in &programs {
        if !program.exists() {
            eprintln!("{} is missing", program.display());
            std::process::exit(2);
        }
    }
    programs
}

fn head() {
    println!("| sheet | words | number | bytes printed | Rust us | ours us | ours/Rust |");
    println!("|---|---|---|---|---|---|---|");
}

pub fn tables() {
    let programs = programs();
    let mut points: Vec<Point> = SHEETS.map(Point::new).into();
    println!("calls in one process");
    println!();
    head();
    // Lines and sides take turns, so that a slow phase of the machine affects all alike.
    let out = RefCell::new(vec![0; MOST]);
    for _ in 0..BATCHES {
        points.iter_mut().for_each(|point| point.time(&out));
    }
    points.iter_mut().for_each(Point::print);

    println!();
    println!("programs, from their start to their end");
    println!();
    head();
    let folder = std::env::temp_dir().join(format!("bench-sheets-{}", std::process::id()));
    std::fs::create_dir(&folder).expect("a folder");
    let file = |at: usize| folder.join(at.to_string());
    for (at, point) in points.iter().enumerate() {
        std::fs::write(file(at), &point.sheet).expect("a file");
    }
    for _ in 0..STARTS {
        for (at, point) in points.iter_mut().enumerate() {
            point.start(&programs, &file(at));
        }
    }
    points.iter_mut().for_each(Point::print);
    std::fs::remove_dir_all(&folder).expect("the folder goes");
}
