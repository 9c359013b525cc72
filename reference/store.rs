//! A list of the Rust's answers, for replay where the Rust is not at hand.
//! README.md gives the layout of a line.
use crate::draw::{self, Parameters, Random};
use crate::entries::{cells_of, number, Entry, RATES};
use crate::fixed;
use crate::rule::{self, Kernel, Reading, RIGHT, WRONG};
use qspquest_modeling::linear_pk::LinearPk;

/// Answer cells of a line.
const CELLS: usize = 11;
/// The longest lent result.
const ROOM: usize = 6;
/// The most tries to draw a case of a wanted kind.
const TRIES: usize = 1_000_000;

#[derive(Clone, Copy, PartialEq, Debug)]
enum Op {
    New = 1,
    Advance = 2,
    Concentrations = 3,
}

/// The arguments of one call. `new` leaves those behind the parameters out.
struct Case {
    op: Op,
    given: Parameters,
    amounts: Vec<f64>,
    rates: Vec<f64>,
    duration: f64,
    room: usize,
}

/// What the Rust answers, with 4 by the rule that 4 follows 3.
struct Answer {
    reply: u64,
    cells: Vec<f64>,
    n: usize,
    halvings: Option<u32>,
}

fn made(given: &Parameters) -> Result<LinearPk, u64> {
    LinearPk::new(
        given.clearance,
        &given.volumes,
        &given.exchange,
        given.depot.then_some(given.absorption),
    )
    .map_err(|error| number(Entry::New, &error))
}

/// The result slice after the call: cell i held 100 + i before.
fn laid(room: usize, values: &[f64]) -> Vec<f64> {
    (0..room)
        .map(|i| values.get(i).copied().unwrap_or(100.0 + i as f64))
        .collect()
}

fn answer(case: &Case) -> Answer {
    let kernel = made(&case.given);
    if case.op == Op::New {
        return match kernel {
            Err(reply) => Answer {
                reply,
                cells: vec![],
                n: 0,
                halvings: None,
            },
            Ok(kernel) => {
                let n = kernel.state_count();
                let all = cells_of(&kernel);
                let rates = (0..n * n).map(|at| all[RATES + 4 * (at / n) + at % n]);
                Answer {
                    reply: 0,
                    cells: rates.take(CELLS).collect(),
                    n,
                    halvings: None,
                }
            }
        };
    }
    let kernel = kernel.expect("parameters that are taken");
    let n = kernel.state_count();
    let (given, needed) = if case.op == Op::Advance {
        let given = kernel.advance(&case.amounts, &case.rates, case.duration);
        (given.map_err(|error| number(Entry::Advance, &error)), n)
    } else {
        let given = kernel.concentrations(&case.amounts);
        (
            given.map_err(|error| number(Entry::Concentrations, &error)),
            case.given.volumes.len(),
        )
    };
    let given = match given {
        Err(3) => Err(3),
        _ if case.room < needed => Err(4),
        other => other,
    };
    let read = Kernel::read(&cells_of(&kernel)).expect("a kernel");
    Answer {
        reply: given.as_ref().map_or_else(|reply| *reply, |_| 0),
        cells: laid(case.room, given.as_deref().unwrap_or(&[])),
        n,
        halvings: if case.op == Op::Advance {
            rule::advance(&read, &case.amounts, &case.rates, case.duration, RIGHT).halvings
        } else {
            None
        },
    }
}

/// Length, values, zeros to the width.
fn listed(line: &mut Vec<u64>, values: &[f64], width: usize) {
    assert!(values.len() <= width);
    line.push(values.len() as u64);
    line.extend(values.iter().map(|v| v.to_bits()));
    line.resize(line.len() + width - values.len(), 0);
}

fn line(case: &Case, answer: &Answer) -> String {
    let mut words = vec![case.op as u64, case.given.clearance.to_bits()];
    listed(&mut words, &case.given.volumes, 4);
    listed(&mut words, &case.given.exchange, 4);
    words.push(u64::from(case.given.depot));
    words.push(case.given.absorption.to_bits());
    listed(&mut words, &case.amounts, 5);
    listed(&mut words, &case.rates, 5);
    words.push(case.duration.to_bits());
    words.push(case.room as u64);
    words.push(answer.reply);
    listed(&mut words, &answer.cells, CELLS);
    assert_eq!(words.len(), 41);
    let words: Vec<_> = words.iter().map(|word| format!("{word:x}")).collect();
    words.join(" ")
}

/// One pattern for every NaN, and lengths that a line can hold.
fn storable(case: &mut Case) -> bool {
    let given = &mut case.given;
    let one = |v: &mut f64| {
        if v.is_nan() {
            *v = f64::from_bits(0x7ff8_0000_0000_0000);
        }
    };
    one(&mut given.clearance);
    one(&mut given.absorption);
    one(&mut case.duration);
    [
        &mut given.volumes,
        &mut given.exchange,
        &mut case.amounts,
        &mut case.rates,
    ]
    .into_iter()
    .flatten()
    .for_each(one);
    given.volumes.len() <= 4
        && given.exchange.len() <= 4
        && case.amounts.len() <= 5
        && case.rates.len() <= 5
        && case.room <= ROOM
}

/// A random case for the op; none where it cannot be stored.
fn drawn(random: &mut Random, op: Op) -> Option<Case> {
    let given = draw::parameters(random);
    let mut case = Case {
        op,
        given,
        amounts: vec![],
        rates: vec![],
        duration: 0.0,
        room: 0,
    };
    if op != Op::New {
        let kernel = made(&case.given).ok()?;
        let n = kernel.state_count();
        case.amounts = draw::amounts(random, n);
        case.room = draw::room(
            random,
            if op == Op::Advance {
                n
            } else {
                case.given.volumes.len()
            },
        );
        if op == Op::Advance {
            case.rates = draw::amounts(random, n);
            case.duration = draw::duration(random, &Kernel::read(&cells_of(&kernel))?);
        }
    }
    storable(&mut case).then_some(case)
}

/// The fixed cases of the comparison.
fn fixed_cases() -> Vec<Case> {
    let stored = |fixed: fixed::Fixed| {
        let mut case = Case {
            op: Op::New,
            given: fixed.given,
            amounts: vec![],
            rates: vec![],
            duration: 0.0,
            room: 0,
        };
        if let Some(call) = fixed.call {
            case.op = Op::Advance;
            case.amounts = call.amounts;
            case.rates = call.rates;
            case.duration = call.duration;
            case.room = call.room;
        }
        assert!(storable(&mut case));
        case
    };
    fixed::cases().into_iter().map(stored).collect()
}

/// A kind of case: the op, and what else must hold.
struct Wanted {
    op: Op,
    fits: Box<dyn Fn(&Case, &Answer) -> bool>,
}

/// Whether a wrong reading changes the answer of `advance`.
fn told(case: &Case, reading: Reading) -> bool {
    let kernel = Kernel::read(&cells_of(&made(&case.given).expect("a kernel"))).expect("a kernel");
    let answer = |reading| {
        let answer =
            rule::advance(&kernel, &case.amounts, &case.rates, case.duration, reading).answer;
        answer.map(|amounts| amounts.map(f64::to_bits))
    };
    answer(RIGHT) != answer(reading)
}

/// The kinds of one round. Over the rounds n goes through 1 to 4, the halvings
/// through 1 to 60, five a round, and the wrong readings through all.
fn round(index: usize) -> Vec<Wanted> {
    fn want(op: Op, fits: impl Fn(&Case, &Answer) -> bool + 'static) -> Wanted {
        Wanted {
            op,
            fits: Box::new(fits),
        }
    }
    fn refused(op: Op, reply: u64) -> Wanted {
        want(op, move |_, answer| answer.reply == reply)
    }
    let n = 1 + index % 4;
    let mut kinds = vec![
        want(Op::New, move |_, answer| answer.reply == 0 && answer.n == n),
        refused(Op::New, 1),
        refused(Op::New, 2),
        refused(Op::Advance, 3),
        refused(Op::Advance, 4),
        refused(Op::Advance, 20),
        refused(Op::Advance, 21),
        // By rate times duration, and by the amounts.
        want(Op::Advance, |case, answer| {
            answer.reply == 22 && case.rates.iter().any(|r| !(r * case.duration).is_finite())
        }),
        want(Op::Advance, |case, answer| {
            answer.reply == 22 && case.rates.iter().all(|r| (r * case.duration).is_finite())
        }),
        want(Op::Concentrations, move |_, answer| {
            answer.reply == 0 && answer.n == n
        }),
        refused(Op::Concentrations, 3),
        refused(Op::Concentrations, 4),
        refused(Op::Concentrations, 23),
        want(Op::Advance, move |_, answer| {
            answer.reply == 0 && answer.n == n && answer.halvings == Some(0)
        }),
    ];
    for step in 0..5 {
        let at = 5 * index + step;
        let (n, halvings) = (1 + (at + at / 60) % 4, Some(1 + (at % 60) as u32));
        kinds.push(want(Op::Advance, move |_, answer| {
            answer.reply == 0 && answer.n == n && answer.halvings == halvings
        }));
    }
    let (_, reading) = WRONG[index % WRONG.len()];
    kinds.push(want(Op::Advance, move |case, answer| {
        answer.reply == 0 && told(case, reading)
    }));
    kinds
}

pub fn write(file: &str, count: usize, seed: u64) {
    let mut random = Random(seed);
    let mut cases = fixed_cases();
    cases.truncate(count);
    let mut kinds = (0..).flat_map(round);
    while cases.len() < count {
        let wanted = kinds.next().expect("no end of rounds");
        let case = (0..TRIES)
            .filter_map(|_| drawn(&mut random, wanted.op))
            .find(|case| (wanted.fits)(case, &answer(case)))
            .expect("a case of each kind is drawn in time");
        cases.push(case);
    }
    let mut text = format!(
        "# Answers of the Rust, unibio-intelligence/qspquest commit ea04d050d0, built with {}. Made by: compare --store FILE {count} {seed}\n",
        option_env!("RUSTC_VERSION").unwrap_or("a rustc of unknown version"),
    );
    for case in &cases {
        text.push_str(&line(case, &answer(case)));
        text.push('\n');
    }
    if let Err(error) = std::fs::write(file, text) {
        eprintln!("{file}: {error}");
        std::process::exit(1);
    }
    println!("{} answers of the Rust stored", cases.len());
}
