//! A list of the Rust's runs, for replay where the Rust is not at hand.
//! README.md gives the layout of a line.
use crate::draw::Random;
use crate::run_entry::{side, Answer, Room, Run, BOLUS, EVENT, INFUSION, RESET};
use crate::{run_draw, run_fixed, run_shapes};

/// The most events and samples of a stored run.
const STORED_EVENTS: usize = 6;
const STORED_SAMPLES: usize = 5;
/// The most tries to draw a run of a wanted kind.
const TRIES: usize = 1_000_000;

/// The numbers that a stored run can have, and whether it had begun. A line has
/// no lengths of slices and no cells of a kernel, so 4, 1 and 2 are left out;
/// and 5, since it is short.
const NUMBERS: [(u64, bool); 14] = [
    (3, false),
    (3, true),
    (10, false),
    (11, false),
    (12, false),
    (13, false),
    (14, false),
    (20, true),
    (21, true),
    (22, true),
    (30, true),
    (31, true),
    (32, true),
    (40, false),
];

/// Words that a kind lacks are 0, every NaN has one pattern, and the slices
/// have the reckoned lengths. Whether a line can hold the run.
fn storable(run: &mut Run) -> bool {
    if run.rust.is_none() || run.words.len() % EVENT != 0 {
        return false;
    }
    let one = |v: &mut f64| {
        if v.is_nan() {
            *v = f64::from_bits(0x7ff8_0000_0000_0000);
        }
    };
    let ends = [
        &mut run.start,
        &mut run.end,
        &mut run.rtol,
        &mut run.atol,
        &mut run.given.absorption,
    ];
    ends.into_iter()
        .chain(&mut run.amounts)
        .chain(&mut run.samples)
        .for_each(one);
    for words in run.words.chunks_mut(EVENT) {
        let doubles: &[usize] = match words[0] {
            BOLUS => {
                words[4..].fill(0);
                &[1, 3]
            }
            INFUSION => {
                words[5] = 0;
                &[1, 3, 4]
            }
            RESET => &[1, 3],
            _ => &[],
        };
        for at in doubles {
            let mut value = f64::from_bits(words[*at]);
            one(&mut value);
            words[*at] = value.to_bits();
        }
    }
    let rows = run.reckoned();
    run.room = Room {
        times: rows,
        sides: rows,
        values: rows * run.n(),
    };
    run.event_count() <= STORED_EVENTS
        && run.samples.len() <= STORED_SAMPLES
        && run.amounts.len() <= 4
}

/// Length, values, zeros to the width.
fn listed(line: &mut Vec<u64>, values: &[f64], width: usize) {
    assert!(values.len() <= width);
    line.push(values.len() as u64);
    line.extend(values.iter().map(|v| v.to_bits()));
    line.resize(line.len() + width - values.len(), 0);
}

fn line(run: &Run, answer: &Answer) -> String {
    let mut words = vec![run.given.clearance.to_bits()];
    listed(&mut words, &run.given.volumes, 3);
    listed(&mut words, &run.given.exchange, 2);
    words.push(u64::from(run.given.depot));
    words.push(run.given.absorption.to_bits());
    listed(&mut words, &run.amounts, 4);
    words.extend([run.start, run.end, run.rtol, run.atol].map(f64::to_bits));
    words.push(run.propagations);
    words.extend([run.event_budget as u64, run.output_budget as u64]);
    words.push(run.event_count() as u64);
    words.extend(&run.words);
    listed(&mut words, &run.samples, run.samples.len());
    words.extend([answer.number, answer.time.to_bits()]);
    words.extend([answer.rows.len() as u64, answer.advances]);
    for row in &answer.rows {
        words.extend([row.time.to_bits(), u64::from(side(row))]);
        words.extend(row.values.iter().map(|v| v.to_bits()));
    }
    let words: Vec<_> = words.iter().map(|word| format!("{word:x}")).collect();
    words.join(" ")
}

/// A kind of run: what must hold of it and of the Rust's answer.
type Wanted = Box<dyn Fn(&Run, &Answer) -> bool>;

/// The kinds of one round: each refusal, runs that reach the end with n and
/// counts that go through all, and the shapes in turn.
fn round(index: usize) -> Vec<Wanted> {
    let mut kinds: Vec<Wanted> = vec![];
    for (number, began) in NUMBERS {
        kinds.push(Box::new(move |_, answer| {
            (answer.number, answer.began) == (number, began)
        }));
    }
    for step in 0..4 {
        let (n, count) = (1 + step, (index + step) % (STORED_EVENTS + 1));
        kinds.push(Box::new(move |run, answer| {
            answer.number == 0 && run.n() == n && run.event_count() == count
        }));
    }
    // All shapes but those of long lists, ten a round.
    let shapes = &run_shapes::ALL[..run_shapes::ALL.len() - 2];
    for step in 0..10 {
        let shape = shapes[(10 * index + step) % shapes.len()];
        kinds.push(Box::new(move |run, answer| {
            let refusal = shape == "a refusal at -0";
            (answer.number == 0 || refusal) && run_shapes::shapes(run, answer).contains(&shape)
        }));
    }
    kinds
}

pub fn write(file: &str, count: usize, seed: u64) {
    let mut random = Random(seed);
    let mut runs: Vec<Run> = run_fixed::cases()
        .into_iter()
        .map(|case| case.run)
        .filter_map(|mut run| storable(&mut run).then_some(run))
        .collect();
    runs.truncate(count);
    let mut kinds = (0..).flat_map(round);
    while runs.len() < count {
        let wanted = kinds.next().expect("no end of rounds");
        let run = (0..TRIES)
            .map(|_| run_draw::run(&mut random))
            .filter_map(|mut run| storable(&mut run).then_some(run))
            .find(|run| wanted(run, &run.answer(run.propagations)))
            .expect("a run of each kind is drawn in time");
        runs.push(run);
    }
    let mut text = format!(
        "# Runs of the Rust, unibio-intelligence/qspquest commit ea04d050d0, built with {}. Made by: runs --store FILE {count} {seed}\n",
        option_env!("RUSTC_VERSION").unwrap_or("a rustc of unknown version"),
    );
    for run in &runs {
        text.push_str(&line(run, &run.answer(run.propagations)));
        text.push('\n');
    }
    if let Err(error) = std::fs::write(file, text) {
        eprintln!("{file}: {error}");
        std::process::exit(1);
    }
    println!("{} runs of the Rust stored", runs.len());
}
