//! The target of libFuzzer: a sheet through the C interface and over the Rust,
//! its run and its closed cycle, printouts compared, every buffer on the heap and of the exact size, so that
//! the address sanitizer sees each byte beyond it. A mutator keeps the head of
//! most sheets right, so that changes reach the model and the run.
#![no_main]
#[allow(dead_code)]
mod draw;
#[allow(dead_code)]
mod entries;
#[allow(dead_code)]
mod rule;
#[allow(dead_code)]
mod run_draw;
#[allow(dead_code)]
mod run_entry;
#[allow(dead_code)]
mod rust_cycle;
#[allow(dead_code)]
mod rust_run;
#[allow(dead_code)]
mod sheet;
#[allow(dead_code)]
mod sheet_broken;
#[allow(dead_code)]
mod sheet_draw;
#[allow(dead_code)]
mod sheet_entry;
#[allow(dead_code)]
mod sheet_run;
#[allow(dead_code)]
mod slices;
#[allow(dead_code)]
mod steady_run;

use draw::Random;
use rust_run::EVENT;
use sheet::{bodies, words, Bodies, EVENTS, SAMPLES};
use sheet_draw::{
    bytes, event, packed, pattern, states, COUNT, DEPOT, END, START, VOLUMES, WINDOW,
};
use sheet_entry::{rig_run_sheet, RunSheet};
use sheet_run::Printout;
use std::process::abort;
use std::sync::atomic::{AtomicU64, Ordering};

extern "C" {
    fn LLVMFuzzerMutate(data: *mut u8, size: usize, most: usize) -> usize;
    fn atexit(call: extern "C" fn()) -> i32;
    fn rig_steady_sheet(
        sheet: *const u8,
        sheet_length: usize,
        out: *mut u8,
        out_length: usize,
        length: *mut usize,
    ) -> u64;
}

/// An entry and what it must print.
struct Entry {
    name: &'static str,
    call: RunSheet,
    printout: fn(&[u8]) -> Printout,
}

const ENTRIES: [Entry; 2] = [
    Entry {
        name: "run",
        call: rig_run_sheet,
        printout: sheet_run::printout,
    },
    Entry {
        name: "steady",
        call: rig_steady_sheet,
        printout: steady_run::printout,
    },
];

/// What cells hold that the call must not write.
const CELL: u8 = 200;

/// How often each entry gave each number; the last place is for all others.
static NUMBERS: [[AtomicU64; 64]; 2] = [const { [const { AtomicU64::new(0) }; 64] }; 2];

extern "C" fn report() {
    for (entry, numbers) in ENTRIES.iter().zip(&NUMBERS) {
        for (number, count) in numbers.iter().enumerate() {
            let count = count.load(Ordering::Relaxed);
            if count > 0 {
                eprintln!("number {number} of {}: {count}", entry.name);
            }
        }
    }
}

#[no_mangle]
pub extern "C" fn LLVMFuzzerInitialize(_: *mut i32, _: *mut *mut *mut u8) -> i32 {
    unsafe { atexit(report) }
}

/// What a call leaves in an output of this many bytes.
fn call(entry: RunSheet, sheet: &[u8], room: usize) -> (u64, usize, Vec<u8>) {
    let mut out = vec![CELL; room].into_boxed_slice();
    let mut length = Box::new(usize::MAX);
    let number = unsafe {
        entry(
            sheet.as_ptr(),
            sheet.len(),
            out.as_mut_ptr(),
            out.len(),
            &mut *length,
        )
    };
    (number, *length, out.into_vec())
}

/// Compares an entry's printout with that over the Rust; gives its number.
fn compare(entry: &Entry, sheet: &[u8]) -> u64 {
    let expected = (entry.printout)(sheet);
    let text = expected.text.as_bytes();
    let exact = call(entry.call, sheet, text.len());
    if exact != (expected.number, text.len(), text.to_vec()) {
        eprintln!("{}: expected {expected:?}, received {exact:?}", entry.name);
        eprintln!("text: {}", String::from_utf8_lossy(&exact.2));
        abort();
    }
    let room = text.len() - 1;
    let short = call(entry.call, sheet, room);
    if short != (expected.reply(room), 0, vec![CELL; room]) {
        eprintln!(
            "{}: expected no room for {expected:?}, received {short:?}",
            entry.name
        );
        abort();
    }
    expected.number
}

#[no_mangle]
pub unsafe extern "C" fn LLVMFuzzerTestOneInput(data: *const u8, size: usize) -> i32 {
    let given = std::slice::from_raw_parts(data, size);
    let sheet: Box<[u8]> = given.into();
    for (entry, numbers) in ENTRIES.iter().zip(&NUMBERS) {
        let number = compare(entry, &sheet);
        numbers[number.min(63) as usize].fetch_add(1, Ordering::Relaxed);
    }
    if *sheet != *given {
        eprintln!("the sheet was changed");
        abort();
    }
    0
}

/// libFuzzer's own change of some bytes, to at most as many.
fn changed(part: &[u8], most: usize) -> Vec<u8> {
    let mut buffer = vec![0; most.max(part.len()).max(1)];
    buffer[..part.len()].copy_from_slice(part);
    let length = unsafe { LLVMFuzzerMutate(buffer.as_mut_ptr(), part.len(), most.max(1)) };
    buffer.truncate(length);
    buffer
}

fn body(bodies: &mut Bodies, k: usize) -> &mut Vec<u64> {
    match k {
        0 => &mut bodies.model,
        1 => &mut bodies.window,
        2 => &mut bodies.amounts,
        3 => &mut bodies.samples,
        _ => &mut bodies.events,
    }
}

/// A word of some body, where there is one.
fn some_word<'a>(random: &mut Random, bodies: &'a mut Bodies) -> Option<&'a mut u64> {
    let part = body(bodies, random.below(5));
    let length = part.len();
    (length > 0).then(|| &mut part[random.below(length)])
}

/// A time that the sheet has already, or one of its window.
fn some_time(random: &mut Random, bodies: &Bodies) -> u64 {
    let times = bodies.events.iter().skip(1).step_by(EVENT);
    let known: Vec<u64> = times
        .chain(&bodies.samples)
        .chain(bodies.window.iter().take(2))
        .copied()
        .collect();
    if known.is_empty() || random.chance(20) {
        let ends = [START, END].map(|at| bodies.window.get(at).copied().unwrap_or(0));
        let [start, end] = ends.map(f64::from_bits);
        return sheet_draw::moment(random, start, end).to_bits();
    }
    known[random.below(known.len())]
}

/// One change of the bodies that a reader of them can follow.
fn change(random: &mut Random, bodies: &mut Bodies) {
    match random.below(13) {
        0..=1 => {
            let k = random.below(5);
            let part = body(bodies, k);
            let before = bytes(part);
            let after = changed(&before, before.len() + 8 * EVENT);
            let length = part.len();
            *part = after
                .chunks_exact(8)
                .map(|eight| u64::from_le_bytes(eight.try_into().expect("eight bytes")))
                .collect();
            // A length that fits, most of the time.
            if random.chance(90) {
                match k {
                    0..=1 => part.resize(length, 1.0_f64.to_bits()),
                    4 => part.truncate(part.len() / EVENT * EVENT),
                    _ => {}
                }
            }
        }
        2..=3 => {
            let word = pattern(random);
            if let Some(place) = some_word(random, bodies) {
                *place = word;
            }
        }
        4 => {
            let step = random.below(3) as u64;
            if let Some(place) = some_word(random, bodies) {
                *place = place.wrapping_add(step).wrapping_sub(1);
            }
        }
        5 => {
            let from = some_word(random, bodies).copied();
            if let (Some(word), Some(place)) = (from, some_word(random, bodies)) {
                *place = word;
            }
        }
        6..=7 => {
            if bodies.window.len() == WINDOW && bodies.events.len() <= EVENT * EVENTS {
                let [start, end] = [START, END].map(|at| f64::from_bits(bodies.window[at]));
                let targets = 1 + random.below(4);
                let mut words = event(random, start, end, targets, 0);
                if random.chance(60) {
                    words[1] = some_time(random, bodies);
                }
                bodies.events.extend(words);
            }
        }
        8 => {
            let count = bodies.events.len() / EVENT;
            if count > 0 {
                let at = EVENT * random.below(count);
                let mut words: Vec<u64> = bodies.events.drain(at..at + EVENT).collect();
                if random.chance(60) {
                    words[0] = random.below(3) as u64;
                    words[5] = random.below(2) as u64;
                    words[1] = some_time(random, bodies);
                    bodies.events.extend(words);
                }
            }
        }
        9 => {
            if bodies.samples.len() <= SAMPLES {
                let time = some_time(random, bodies);
                bodies.samples.push(time);
            }
        }
        // Up to a limit, or one beyond it.
        10 if random.chance(10) => {
            let more = random.below(2);
            if random.chance(50) && !bodies.samples.is_empty() {
                let samples = bodies.samples.clone();
                let all = samples.iter().cycle().take(SAMPLES + more);
                bodies.samples = all.copied().collect();
            } else {
                let events = bodies.events.clone();
                let all = events.iter().cycle().take(EVENT * (EVENTS + more));
                bodies.events = all.copied().collect();
            }
        }
        10 => {
            bodies.samples.pop();
        }
        11 => {
            if bodies.model.len() > VOLUMES && bodies.model[COUNT] <= 3 && bodies.model[DEPOT] <= 1
            {
                let n = states(bodies);
                bodies.amounts.resize(n, 1.0_f64.to_bits());
            }
        }
        _ => {
            if bodies.model.len() > VOLUMES {
                bodies.model[COUNT] = 1 + random.below(3) as u64;
                bodies.model[DEPOT] = random.below(2) as u64;
                let length = 2 * bodies.model[COUNT] as usize + 3;
                bodies.model.resize(length, 1.0_f64.to_bits());
                let n = states(bodies);
                bodies.amounts.resize(n, 1.0_f64.to_bits());
            }
        }
    }
}

#[no_mangle]
pub unsafe extern "C" fn LLVMFuzzerCustomMutator(
    data: *mut u8,
    size: usize,
    most: usize,
    seed: u32,
) -> usize {
    let buffer = std::slice::from_raw_parts_mut(data, most);
    let mut random = Random(u64::from(seed));
    let read = words(&buffer[..size]).and_then(|words| bodies(&words));
    let after = match read {
        Some(mut bodies) if random.chance(80) => {
            for _ in 0..1 + random.below(3) {
                change(&mut random, &mut bodies);
            }
            bytes(&packed(&bodies))
        }
        _ => changed(&buffer[..size], most),
    };
    let length = after.len().min(most);
    buffer[..length].copy_from_slice(&after[..length]);
    length
}
