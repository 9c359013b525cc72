//! A list of the Rust's folds, for replay where the Rust is not at hand.
//! README.md gives the layout of a line.
use crate::cycle_entry::{Answer, Cycle};
use crate::draw::Random;
use crate::rust_run::{BOLUS, EVENT, INFUSION, RESET};
use crate::{cycle_draw, cycle_fixed, cycle_shapes};
use std::collections::BTreeSet;

/// The most events and samples of a stored cycle.
const STORED_EVENTS: usize = 6;
const STORED_SAMPLES: usize = 5;
/// The most numbers of a line.
const NUMBERS_OF_A_LINE: usize = 256;
/// The most tries to draw a cycle of a wanted kind.
const TRIES: usize = 1_000_000;

/// The numbers that a stored fold can have. A line has no cells of a kernel and
/// no slice, so 1, 2 and 4 are left out; and 5, since it is short.
const NUMBERS: [u64; 10] = [0, 10, 11, 12, 13, 15, 16, 17, 18, 40];

/// Words that a kind lacks are 0, and every NaN has one pattern. Whether a line
/// can hold the cycle.
fn storable(cycle: &mut Cycle) -> bool {
    if cycle.rust.is_none() || cycle.words.len() % EVENT != 0 {
        return false;
    }
    let one = |v: &mut f64| {
        if v.is_nan() {
            *v = f64::from_bits(0x7ff8_0000_0000_0000);
        }
    };
    let ends = [
        &mut cycle.start,
        &mut cycle.end,
        &mut cycle.rtol,
        &mut cycle.atol,
        &mut cycle.given.absorption,
    ];
    ends.into_iter().chain(&mut cycle.samples).for_each(one);
    for words in cycle.words.chunks_mut(EVENT) {
        let doubles: &[usize] = match words[0] {
            BOLUS => {
                words[4..].fill(0);
                &[1, 3]
            }
            INFUSION => {
                words[5] = 0;
                &[1, 3, 4]
            }
            RESET => &[1, 3],
            _ => &[],
        };
        for at in doubles {
            let mut value = f64::from_bits(words[*at]);
            one(&mut value);
            words[*at] = value.to_bits();
        }
    }
    cycle.event_count() <= STORED_EVENTS && cycle.samples.len() <= STORED_SAMPLES
}

/// Length, values, zeros to the width.
fn listed(line: &mut Vec<u64>, values: &[f64], width: usize) {
    assert!(values.len() <= width);
    line.push(values.len() as u64);
    line.extend(values.iter().map(|v| v.to_bits()));
    line.resize(line.len() + width - values.len(), 0);
}

fn line(cycle: &Cycle, answer: &Answer) -> String {
    let given = &cycle.given;
    let mut words = vec![given.clearance.to_bits()];
    listed(&mut words, &given.volumes, 3);
    listed(&mut words, &given.exchange, 2);
    words.push(u64::from(given.depot));
    words.push(given.absorption.to_bits());
    words.extend([cycle.start, cycle.end, cycle.rtol, cycle.atol].map(f64::to_bits));
    words.push(cycle.propagations);
    words.extend([cycle.event_budget as u64, cycle.output_budget as u64]);
    words.push(cycle.event_count() as u64);
    words.extend(&cycle.words);
    listed(&mut words, &cycle.samples, cycle.samples.len());
    words.extend([answer.number, answer.pieces.len() as u64]);
    words.extend(answer.words());
    assert!(words.len() <= NUMBERS_OF_A_LINE, "a line is too long");
    let words: Vec<_> = words.iter().map(|word| format!("{word:x}")).collect();
    words.join(" ")
}

/// A kind of cycle: what must hold of it and of the Rust's answer.
type Wanted = Box<dyn Fn(&Cycle, &Answer) -> bool>;

/// The kinds of one round: each refusal, folds with n and counts that go through
/// all, and the shapes in turn.
fn round(index: usize) -> Vec<Wanted> {
    let mut kinds: Vec<Wanted> = vec![];
    for number in NUMBERS.into_iter().filter(|number| *number != 0) {
        kinds.push(Box::new(move |cycle, answer| {
            answer.number == number && cycle.event_count() <= 4
        }));
    }
    for step in 0..4 {
        let (n, count) = (1 + step, (index + step) % (STORED_EVENTS + 1));
        kinds.push(Box::new(move |cycle, answer| {
            answer.number == 0 && cycle.n() == n && cycle.event_count() == count
        }));
    }
    // All shapes but those of long lists, twelve a round.
    let shapes = &cycle_shapes::ALL[..cycle_shapes::ALL.len() - 2];
    for step in 0..12 {
        let shape = shapes[(12 * index + step) % shapes.len()];
        kinds.push(Box::new(move |cycle, answer| {
            cycle.event_count() <= 3 && cycle_shapes::shapes(cycle, answer).contains(&shape)
        }));
    }
    kinds
}

pub fn write(file: &str, count: usize, seed: u64) {
    let mut random = Random(seed);
    let mut cycles: Vec<Cycle> = cycle_fixed::cases()
        .into_iter()
        .map(|case| case.cycle)
        .filter_map(|mut cycle| storable(&mut cycle).then_some(cycle))
        .collect();
    cycles.truncate(count);
    let mut kinds = (0..).flat_map(round);
    while cycles.len() < count {
        let wanted = kinds.next().expect("no end of rounds");
        let cycle = (0..TRIES)
            .map(|_| cycle_draw::cycle(&mut random))
            .filter_map(|mut cycle| storable(&mut cycle).then_some(cycle))
            .find(|cycle| wanted(cycle, &cycle.answer()))
            .expect("a cycle of each kind is drawn in time");
        cycles.push(cycle);
    }
    let mut text = format!(
        "# Folds of the Rust, unibio-intelligence/qspquest commit ea04d050d0, built with {}. Made by: cycles --store FILE {count} {seed}\n",
        option_env!("RUSTC_VERSION").unwrap_or("a rustc of unknown version"),
    );
    let mut numbers = BTreeSet::new();
    for cycle in &cycles {
        let answer = cycle.answer();
        numbers.insert(answer.number);
        text.push_str(&line(cycle, &answer));
        text.push('\n');
    }
    assert!(
        NUMBERS.iter().all(|number| numbers.contains(number)),
        "each number is stored"
    );
    if let Err(error) = std::fs::write(file, text) {
        eprintln!("{file}: {error}");
        std::process::exit(1);
    }
    println!("{} folds of the Rust stored", cycles.len());
}
