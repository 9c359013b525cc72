//! Calls each entry of the C interface and the Rust on the same arguments, and
//! compares every reply and every cell.
//!
//!     compare [SEED [CASES]]        fixed cases, then random ones
//!     compare --store FILE N SEED   write N answers of the Rust
mod draw;
mod entries;
mod fixed;
mod lent;
mod rule;
mod store;

use draw::{Parameters, Random};
use entries::*;
use lent::{Lent, SPAN};
use qspquest_modeling::linear_pk::LinearPk;
use qspquest_modeling::Model;
use rule::{Kernel, RIGHT};
use std::collections::BTreeMap;
use std::process::exit;

/// What a call must give: its reply, and the cells that it writes. The halvings
/// of `advance` stand beside, where its norm is finite.
struct Expected {
    reply: u64,
    answer: Vec<f64>,
    halvings: Option<u32>,
}

impl Expected {
    fn only(reply: u64) -> Expected {
        Expected {
            reply,
            answer: vec![],
            halvings: None,
        }
    }

    fn done(answer: &[f64]) -> Expected {
        Expected {
            reply: 0,
            answer: answer.to_vec(),
            halvings: None,
        }
    }
}

/// The counts of what came up, and the place in the run.
#[derive(Default)]
struct Tally {
    place: String,
    replies: BTreeMap<(&'static str, u64), u64>,
    /// By n and halvings: `advance` calls answered by amounts or by 21.
    halvings: BTreeMap<(usize, u32), u64>,
    /// The causes of 22.
    causes: BTreeMap<String, u64>,
    /// Calls whose answer a wrong reading changes.
    told: BTreeMap<&'static str, u64>,
    /// Calls with cells that `new` did not make.
    forged: u64,
}

impl Tally {
    /// Stops the program unless the call gave what was expected and left its
    /// inputs and all guard cells alone.
    fn judge(
        &mut self,
        entry: &'static str,
        scalars: &[(&str, u64)],
        inputs: &[&Lent],
        output: Option<&Lent>,
        expected: &Expected,
        reply: u64,
    ) {
        let same = reply == expected.reply
            && inputs.iter().all(|lent| lent.holds(&[]))
            && output.is_none_or(|lent| lent.holds(&expected.answer));
        *self.replies.entry((entry, expected.reply)).or_default() += 1;
        if same {
            return;
        }
        println!("difference in {entry}, {}", self.place);
        for (name, bits) in scalars {
            println!("  {name} {bits:016x}");
        }
        for lent in inputs.iter().copied().chain(output) {
            println!(
                "  {}, {} cells: {}",
                lent.name,
                lent.len,
                lent.part(&lent.before)
            );
            for i in 0..SPAN {
                let inside = i >= lent.first && i < lent.first + lent.len;
                let input = inputs.iter().any(|other| std::ptr::eq(*other, lent));
                if lent.cells[i] != lent.before[i] && (input || !inside) {
                    println!(
                        "    changed at {}: {:016x} to {:016x}",
                        i as i64 - lent.first as i64,
                        lent.before[i],
                        lent.cells[i]
                    );
                }
            }
        }
        println!("  expected reply {}", expected.reply);
        println!("  received reply {reply}");
        if let Some(lent) = output {
            let mut wanted = lent.before;
            for (i, v) in expected.answer.iter().enumerate() {
                wanted[lent.first + i] = v.to_bits();
            }
            println!("  expected {}: {}", lent.name, lent.part(&wanted));
            println!("  received {}: {}", lent.name, lent.part(&lent.cells));
        }
        exit(1);
    }
}

/// A kernel as the calls under test get it: its cells, and the Rust's kernel
/// unless the cells are forged.
struct Subject<'a> {
    cells: Vec<f64>,
    rust: Option<&'a LinearPk>,
}

impl Subject<'_> {
    /// The kernel in the cells, or the number that they are refused with.
    fn read(&self) -> Result<Kernel, u64> {
        Kernel::sound(&self.cells)
    }

    /// The number of states, for drawing arguments.
    fn n(&self) -> usize {
        Kernel::read(&self.cells).map_or(1, |kernel| kernel.n())
    }
}

/// The bits, every NaN as one.
fn plain(values: &[f64]) -> Vec<u64> {
    values
        .iter()
        .map(|v| {
            if v.is_nan() {
                f64::NAN.to_bits()
            } else {
                v.to_bits()
            }
        })
        .collect()
}

/// The first cells of an answer.
fn first<const N: usize>(answer: &Result<[f64; N], u64>, count: usize) -> Result<&[f64], u64> {
    match answer {
        Ok(values) => Ok(&values[..count]),
        Err(number) => Err(*number),
    }
}

/// The Rust and the plain arithmetic must agree; if not, the test itself is wrong.
fn agree(place: &str, rust: &Result<Vec<f64>, u64>, own: Result<&[f64], u64>) {
    let rust = rust
        .as_ref()
        .map(|values| plain(values))
        .map_err(|number| *number);
    assert_eq!(
        rust,
        own.map(plain),
        "the plain arithmetic differs from the Rust, {place}"
    );
}

fn check_new(
    tally: &mut Tally,
    random: &mut Random,
    given: &Parameters,
    room: usize,
) -> Option<LinearPk> {
    let absorption = given.depot.then_some(given.absorption);
    let made = LinearPk::new(given.clearance, &given.volumes, &given.exchange, absorption);
    let expected = match &made {
        Err(error) => Expected::only(number(Entry::New, error)),
        Ok(_) if room < KERNEL => Expected::only(4),
        Ok(kernel) => Expected::done(&cells_of(kernel)),
    };
    let volumes = Lent::holding("volumes", &given.volumes, random);
    let exchange = Lent::holding("exchange", &given.exchange, random);
    let mut kernel = Lent::filled("kernel", room, random);
    let reply = unsafe {
        linear_pk_new(
            given.clearance,
            volumes.lend(),
            volumes.len,
            exchange.lend(),
            exchange.len,
            given.depot,
            given.absorption,
            kernel.lend_mut(),
            kernel.len,
        )
    };
    let scalars = [
        ("clearance", given.clearance.to_bits()),
        ("depot", u64::from(given.depot)),
        ("absorption", given.absorption.to_bits()),
    ];
    tally.judge(
        "new",
        &scalars,
        &[&volumes, &exchange],
        Some(&kernel),
        &expected,
        reply,
    );
    made.ok()
}

fn check_state_count(tally: &mut Tally, random: &mut Random, subject: &Subject) {
    let n = Kernel::read(&subject.cells).map_or(0, |kernel| kernel.n());
    if let Some(rust) = subject.rust {
        assert_eq!(rust.state_count(), n);
    }
    let kernel = Lent::holding("kernel", &subject.cells, random);
    let reply = unsafe { linear_pk_state_count(kernel.lend(), kernel.len) };
    tally.judge(
        "state_count",
        &[],
        &[&kernel],
        None,
        &Expected::only(n as u64),
        reply,
    );
}

/// Returns what was expected, for the fixed cases.
fn check_advance(
    tally: &mut Tally,
    random: &mut Random,
    subject: &Subject,
    amounts: &[f64],
    rates: &[f64],
    duration: f64,
    room: usize,
) -> Expected {
    let expected = match subject.read() {
        Err(number) => Expected::only(number),
        Ok(kernel) => {
            let n = kernel.n();
            let own = rule::advance(&kernel, amounts, rates, duration, RIGHT);
            let mut cause = None;
            let answer = match subject.rust {
                None => own.answer.map(|result| result[..n].to_vec()),
                Some(rust) => {
                    let answer = rust.advance(amounts, rates, duration).map_err(|error| {
                        let number = number(Entry::Advance, &error);
                        cause = Some(error.message);
                        number
                    });
                    agree(&tally.place, &answer, first(&own.answer, n));
                    answer
                }
            };
            let expected = match answer {
                Err(3) => Expected::only(3),
                _ if room < n => Expected::only(4),
                Err(number) => Expected::only(number),
                Ok(result) => Expected::done(&result),
            };
            if matches!(expected.reply, 0 | 21) && subject.rust.is_some() {
                let halvings = own.halvings.expect("a finite norm");
                *tally.halvings.entry((n, halvings)).or_default() += 1;
            }
            if expected.reply == 22 {
                let cause = cause.unwrap_or("cells that new did not make".into());
                *tally.causes.entry(cause).or_default() += 1;
            }
            if expected.reply == 0 {
                for (name, reading) in rule::WRONG {
                    let wrong = rule::advance(&kernel, amounts, rates, duration, reading);
                    if wrong.answer.map(|r| plain(&r)) != own.answer.map(|r| plain(&r)) {
                        *tally.told.entry(name).or_default() += 1;
                    }
                }
            }
            Expected {
                halvings: own.halvings,
                ..expected
            }
        }
    };
    let kernel = Lent::holding("kernel", &subject.cells, random);
    let amounts = Lent::holding("amounts", amounts, random);
    let rates = Lent::holding("rates", rates, random);
    let mut result = Lent::filled("result", room, random);
    let reply = unsafe {
        linear_pk_advance(
            kernel.lend(),
            kernel.len,
            amounts.lend(),
            amounts.len,
            rates.lend(),
            rates.len,
            duration,
            result.lend_mut(),
            result.len,
        )
    };
    let scalars = [("duration", duration.to_bits())];
    tally.judge(
        "advance",
        &scalars,
        &[&kernel, &amounts, &rates],
        Some(&result),
        &expected,
        reply,
    );
    expected
}

fn check_concentrations(
    tally: &mut Tally,
    random: &mut Random,
    subject: &Subject,
    amounts: &[f64],
    room: usize,
) {
    let expected = match subject.read() {
        Err(number) => Expected::only(number),
        Ok(kernel) => {
            let count = kernel.volume_count;
            let own = rule::concentrations(&kernel, amounts);
            let answer = match subject.rust {
                None => own.map(|result| result[..count].to_vec()),
                Some(rust) => {
                    let answer = rust
                        .concentrations(amounts)
                        .map_err(|error| number(Entry::Concentrations, &error));
                    agree(&tally.place, &answer, first(&own, count));
                    answer
                }
            };
            match answer {
                Err(3) => Expected::only(3),
                _ if room < count => Expected::only(4),
                Err(number) => Expected::only(number),
                Ok(result) => Expected::done(&result),
            }
        }
    };
    let kernel = Lent::holding("kernel", &subject.cells, random);
    let amounts = Lent::holding("amounts", amounts, random);
    let mut result = Lent::filled("result", room, random);
    let reply = unsafe {
        linear_pk_concentrations(
            kernel.lend(),
            kernel.len,
            amounts.lend(),
            amounts.len,
            result.lend_mut(),
            result.len,
        )
    };
    tally.judge(
        "concentrations",
        &[],
        &[&kernel, &amounts],
        Some(&result),
        &expected,
        reply,
    );
}

fn check_bind(
    tally: &mut Tally,
    random: &mut Random,
    subject: &Subject,
    initial: &[f64],
    room: usize,
) {
    let expected = match subject.read() {
        Err(number) => Expected::only(number),
        Ok(kernel) => {
            // A run of no duration tests the amounts and nothing else.
            let own = rule::advance(&kernel, initial, &[0.0; 4][..kernel.n()], 0.0, RIGHT);
            let taken = match subject.rust {
                None => own.answer.map(|_| initial.to_vec()),
                Some(rust) => {
                    let taken = rust
                        .bind(initial)
                        .map(|bound| bound.initial())
                        .map_err(|error| number(Entry::Bind, &error));
                    agree(&tally.place, &taken, first(&own.answer, kernel.n()));
                    taken
                }
            };
            match taken {
                Err(number) => Expected::only(number),
                Ok(_) if room < BOUND => Expected::only(4),
                Ok(amounts) => {
                    let mut cells = subject.cells[..KERNEL].to_vec();
                    cells.extend(amounts);
                    cells.resize(BOUND, 0.0);
                    Expected::done(&cells)
                }
            }
        }
    };
    let kernel = Lent::holding("kernel", &subject.cells, random);
    let initial = Lent::holding("initial", initial, random);
    let mut bound = Lent::filled("bound", room, random);
    let reply = unsafe {
        linear_pk_bind(
            kernel.lend(),
            kernel.len,
            initial.lend(),
            initial.len,
            bound.lend_mut(),
            bound.len,
        )
    };
    tally.judge(
        "bind",
        &[],
        &[&kernel, &initial],
        Some(&bound),
        &expected,
        reply,
    );
}

/// Compares a fixed case, and holds the Rust to what is known of its answer.
fn fixed_case(tally: &mut Tally, random: &mut Random, case: &fixed::Fixed) {
    tally.place = case.name.into();
    let rust = check_new(tally, random, &case.given, KERNEL).expect("fixed parameters are taken");
    let cells = cells_of(&rust);
    let kernel = Kernel::read(&cells).expect("a kernel");
    let n = kernel.n();
    let subject = Subject {
        cells: cells.to_vec(),
        rust: Some(&rust),
    };
    let (expected, answer) = match &case.call {
        None => {
            let rates = kernel.rates[..n].iter().flat_map(|row| &row[..n]);
            (Expected::only(0), rates.copied().collect())
        }
        Some(call) => {
            let expected = check_advance(
                tally,
                random,
                &subject,
                &call.amounts,
                &call.rates,
                call.duration,
                call.room,
            );
            for reading in &case.tells {
                let wrong =
                    rule::advance(&kernel, &call.amounts, &call.rates, call.duration, *reading);
                let wrong = wrong.answer.expect("amounts");
                assert_ne!(plain(&wrong[..n]), plain(&expected.answer), "{}", case.name);
            }
            let answer = expected.answer.clone();
            (expected, answer)
        }
    };
    assert_eq!(expected.reply, case.reply, "{}", case.name);
    if case.halvings.is_some() {
        assert_eq!(expected.halvings, case.halvings, "{}", case.name);
    }
    if let Some(known) = &case.answer {
        assert_eq!(plain(&answer), plain(known), "{}", case.name);
    }
    if case.tells_diagonal {
        let given = &case.given;
        let wrong = rule::diagonal_at_once(given.clearance, &given.volumes, &given.exchange);
        let central = kernel.rates[kernel.depot][kernel.depot];
        assert_ne!(central.to_bits(), wrong.to_bits(), "{}", case.name);
    }
}

fn random_case(tally: &mut Tally, random: &mut Random) {
    let given = draw::parameters(random);
    let room = draw::room(random, KERNEL);
    let Some(rust) = check_new(tally, random, &given, room) else {
        return;
    };
    let cells = cells_of(&rust);
    let subject = |tally: &mut Tally, random: &mut Random| {
        if random.chance(18) {
            tally.forged += 1;
            Subject {
                cells: draw::forged(random, &cells),
                rust: None,
            }
        } else {
            Subject {
                cells: cells.to_vec(),
                rust: Some(&rust),
            }
        }
    };

    let kernel = subject(tally, random);
    check_state_count(tally, random, &kernel);

    let kernel = subject(tally, random);
    let n = kernel.n();
    let amounts = draw::amounts(random, n);
    let rates = draw::amounts(random, n);
    let duration = match Kernel::read(&kernel.cells) {
        Some(read) => draw::duration(random, &read),
        None => random.fit(),
    };
    let room = draw::room(random, n);
    check_advance(tally, random, &kernel, &amounts, &rates, duration, room);

    let kernel = subject(tally, random);
    let n = kernel.n();
    let amounts = draw::amounts(random, n);
    let room = draw::room(
        random,
        Kernel::read(&kernel.cells).map_or(1, |read| read.volume_count),
    );
    check_concentrations(tally, random, &kernel, &amounts, room);

    let kernel = subject(tally, random);
    let initial = draw::amounts(random, kernel.n());
    let room = draw::room(random, BOUND);
    check_bind(tally, random, &kernel, &initial, room);
}

/// The replies that each entry can give.
const REPLIES: [(&str, &[u64]); 5] = [
    ("new", &[0, 1, 2, 4]),
    ("advance", &[0, 1, 2, 3, 4, 20, 21, 22]),
    ("concentrations", &[0, 1, 2, 3, 4, 23]),
    ("bind", &[0, 1, 2, 3, 4]),
    ("state_count", &[0, 1, 2, 3, 4]),
];

/// Prints what came up; gives what did not.
fn report(tally: &Tally) -> Vec<String> {
    let mut missing = vec![];
    let columns = [0, 1, 2, 3, 4, 20, 21, 22, 23];
    print!("{:16}", "reply");
    columns.iter().for_each(|number| print!("{number:>8}"));
    println!();
    for (entry, replies) in REPLIES {
        print!("{entry:16}");
        for number in columns {
            match tally.replies.get(&(entry, number)) {
                Some(count) => print!("{count:>8}"),
                None => print!("{:>8}", "-"),
            }
        }
        println!();
        for number in replies {
            if !tally.replies.contains_key(&(entry, *number)) {
                missing.push(format!("{entry} {number}"));
            }
        }
    }
    println!("state_count replies n, or 0 for cells that are no kernel");
    println!("calls with cells that new did not make: {}", tally.forged);
    for (cause, count) in &tally.causes {
        println!("22 by \"{cause}\": {count}");
    }
    for (name, _) in rule::WRONG {
        match tally.told.get(name) {
            Some(count) => {
                println!("answers of advance that the wrong reading \"{name}\" changes: {count}")
            }
            None => missing.push(format!("an answer that tells \"{name}\"")),
        }
    }

    println!("\nhalvings of advance, calls for n 1, 2, 3, 4 (0: duration 0; above 60: reply 21)");
    let count = |n, halvings| tally.halvings.get(&(n, halvings)).copied().unwrap_or(0);
    let more = |n| {
        tally
            .halvings
            .range((n, 62)..(n + 1, 0))
            .map(|(_, calls)| *calls)
            .sum()
    };
    for row in 0..21 {
        let mut line = String::new();
        for halvings in [row, row + 21, row + 42] {
            let (name, calls) = if halvings <= 61 {
                (
                    halvings.to_string(),
                    [1, 2, 3, 4].map(|n| count(n, halvings)),
                )
            } else {
                ("more".into(), [1, 2, 3, 4].map(more))
            };
            line += &format!("{name:>4}:");
            calls
                .iter()
                .for_each(|calls| line += &format!("{calls:>5}"));
            line += "    ";
        }
        println!("{}", line.trim_end());
    }
    for n in 1..=4 {
        for halvings in 0..=61 {
            if count(n, halvings) == 0 {
                missing.push(format!("n {n}, {halvings} halvings"));
            }
        }
    }
    missing
}

pub fn main() {
    let arguments: Vec<String> = std::env::args().skip(1).collect();
    let usage = || -> ! {
        eprintln!("compare [SEED [CASES]] | compare --store FILE N SEED");
        exit(2)
    };
    let read = |word: &String| word.parse::<u64>().unwrap_or_else(|_| usage());
    if arguments.first().is_some_and(|word| word == "--store") {
        let [_, file, count, seed] = &arguments[..] else {
            usage()
        };
        store::write(file, read(count) as usize, read(seed));
        return;
    }
    if arguments.len() > 2 {
        usage();
    }
    let seed = arguments.first().map_or(1, read);
    let cases = arguments.get(1).map_or(150_000, read);

    let mut tally = Tally::default();
    let mut random = Random(seed);
    let fixed = fixed::cases();
    for case in &fixed {
        fixed_case(&mut tally, &mut random, case);
    }
    println!("{} fixed cases agree", fixed.len());
    for case in 0..cases {
        // Each case has a seed of its own, so that no case moves the draws of the next.
        let mut random = Random(random.next());
        tally.place = format!("seed {seed}, case {case}");
        random_case(&mut tally, &mut random);
    }
    let missing = report(&tally);
    let calls: u64 = tally.replies.values().sum();
    println!("\n{calls} calls compared");
    // A short run need not come to every reply.
    if cases >= 100_000 && !missing.is_empty() {
        println!("did not come up: {}", missing.join("; "));
        exit(1);
    }
    println!("{} cases, 0 differences", cases + fixed.len() as u64);
}
