//! Calls the run of the C interface and the Rust's on the same arguments, and
//! compares number, time, advances, every row, and every other cell.
//!
//!     runs [SEED [CASES]]        fixed cases, then random ones
//!     runs --store FILE N SEED   write N answers of the Rust
#[allow(dead_code)]
mod draw;
#[allow(dead_code)]
mod entries;
#[allow(dead_code)]
mod rule;
mod run_draw;
mod run_entry;
mod run_fixed;
mod run_shapes;
mod run_store;
mod rust_run;
mod slices;

use draw::Random;
use run_entry::*;
use slices::{bits, Cell, Slice};
use std::collections::BTreeMap;
use std::process::exit;

/// The counts of what came up, and the place in the run.
#[derive(Default)]
struct Tally {
    place: String,
    calls: u64,
    /// By number, and whether the run had begun.
    replies: BTreeMap<(u64, bool), u64>,
    causes: BTreeMap<(u64, String), u64>,
    shapes: BTreeMap<&'static str, u64>,
    forged: u64,
    rows: u64,
    advances: u64,
}

/// What the call left: its reply, and the slices.
struct Left {
    reply: u64,
    kernel: Slice<u64>,
    amounts: Slice<u64>,
    events: Slice<u64>,
    samples: Slice<u64>,
    times: Slice<u64>,
    sides: Slice<u8>,
    values: Slice<u64>,
    words: Slice<u64>,
}

fn call(random: &mut Random, run: &Run, propagations: u64) -> Left {
    let room = run.room;
    let mut left = Left {
        reply: 0,
        kernel: Slice::holding("kernel", &bits(&run.cells), random),
        amounts: Slice::holding("amounts", &bits(&run.amounts), random),
        events: Slice::holding("events", &run.words, random),
        samples: Slice::holding("samples", &bits(&run.samples), random),
        times: Slice::filled("times", room.times, random),
        sides: Slice::filled("sides", room.sides, random),
        values: Slice::filled("values", room.values, random),
        words: Slice::filled("reply", REPLY, random),
    };
    let words = left.words.lend_mut();
    left.reply = unsafe {
        linear_pk_simulate(
            left.kernel.lend().cast(),
            left.kernel.len,
            left.amounts.lend().cast(),
            left.amounts.len,
            run.start,
            run.end,
            run.rtol,
            run.atol,
            propagations,
            run.event_budget,
            run.output_budget,
            left.events.lend(),
            left.events.len,
            left.samples.lend().cast(),
            left.samples.len,
            left.times.lend_mut().cast(),
            left.times.len,
            left.sides.lend_mut(),
            left.sides.len,
            left.values.lend_mut().cast(),
            left.values.len,
            words.cast(),
            words.add(1).cast(),
            words.add(2),
        )
    };
    left
}

/// The first cell that differs, in words.
fn differs<T: Cell>(slice: &Slice<T>, answer: &[T]) -> Option<String> {
    slice.differs(answer).map(|(at, wanted, found)| {
        format!(
            "{} of {} cells, at {at}: expected {wanted:x}, received {found:x}",
            slice.name, slice.len
        )
    })
}

/// The first difference between what the call left and the answer.
fn difference(run: &Run, expected: &Answer, left: &Left) -> Option<String> {
    if left.reply != expected.number {
        return Some(format!(
            "number: expected {}, received {}",
            expected.number, left.reply
        ));
    }
    let words = [
        expected.time.to_bits(),
        expected.rows.len() as u64,
        expected.advances,
    ];
    // The reckoned rows, zero past those reached; nothing where no run began.
    let (mut times, mut sides, mut values) = (vec![], vec![], vec![]);
    if expected.began {
        let (rows, n) = (run.reckoned(), run.n());
        for row in &expected.rows {
            times.push(row.time.to_bits());
            sides.push(side(row));
            assert_eq!(row.values.len(), n);
            values.extend(row.values.iter().map(|v| v.to_bits()));
        }
        assert!(times.len() <= rows, "more rows than reckoned");
        times.resize(rows, 0);
        sides.resize(rows, 0);
        values.resize(rows * n, 0);
    }
    let inputs = [&left.kernel, &left.amounts, &left.events, &left.samples];
    differs(&left.words, &words)
        .or_else(|| differs(&left.times, &times))
        .or_else(|| differs(&left.sides, &sides))
        .or_else(|| differs(&left.values, &values))
        .or_else(|| inputs.into_iter().find_map(|input| differs(input, &[])))
}

fn hexadecimal(values: &[u64]) -> String {
    let words: Vec<_> = values.iter().map(|word| format!("{word:016x}")).collect();
    words.join(" ")
}

/// The whole case, in bits.
fn print(run: &Run, propagations: u64, expected: &Answer, left: &Left) {
    println!("  kernel {}", hexadecimal(&bits(&run.cells)));
    println!("  amounts {}", hexadecimal(&bits(&run.amounts)));
    let window = [run.start, run.end, run.rtol, run.atol];
    println!("  start, end, rtol, atol {}", hexadecimal(&bits(&window)));
    println!(
        "  budgets: propagations {propagations}, events {}, outputs {}",
        run.event_budget, run.output_budget
    );
    println!("  {} words of events", run.words.len());
    for words in run.words.chunks(EVENT) {
        println!("    {}", hexadecimal(words));
    }
    println!(
        "  {} samples {}",
        run.samples.len(),
        hexadecimal(&bits(&run.samples))
    );
    println!("  {:?}, reckoned rows {}", run.room, run.reckoned());
    println!(
        "  expected number {}, time {:016x}, rows {}, advances {}",
        expected.number,
        expected.time.to_bits(),
        expected.rows.len(),
        expected.advances
    );
    for row in &expected.rows {
        println!(
            "    {:016x} {} {}",
            row.time.to_bits(),
            side(row),
            hexadecimal(&bits(&row.values))
        );
    }
    let lent = |slice: &Slice<u64>| hexadecimal(&slice.cells[slice.first..][..slice.len]);
    println!(
        "  received number {}, reply {}",
        left.reply,
        lent(&left.words)
    );
    println!("  received times {}", lent(&left.times));
    println!(
        "  received sides {:?}",
        &left.sides.cells[left.sides.first..][..left.sides.len]
    );
    println!("  received values {}", lent(&left.values));
}

impl Tally {
    /// Stops the program unless the call gives what is expected.
    fn compare(&mut self, random: &mut Random, run: &Run, propagations: u64, expected: &Answer) {
        let left = call(random, run, propagations);
        self.calls += 1;
        *self
            .replies
            .entry((expected.number, expected.began))
            .or_default() += 1;
        if let Some(text) = difference(run, expected, &left) {
            println!("difference, {}", self.place);
            println!("  {text}");
            print(run, propagations, expected, &left);
            exit(1);
        }
    }

    /// One run: as it is, then with as many propagations as it makes advances,
    /// then with one fewer.
    fn check(&mut self, random: &mut Random, run: &Run) -> Answer {
        let expected = run.answer(run.propagations);
        self.compare(random, run, run.propagations, &expected);
        if matches!(expected.number, 12 | 22) {
            let cause = (expected.number, expected.cause.clone());
            *self.causes.entry(cause).or_default() += 1;
        }
        self.forged += u64::from(run.rust.is_none());
        self.rows += expected.rows.len() as u64;
        self.advances += expected.advances;
        for shape in run_shapes::shapes(run, &expected) {
            *self.shapes.entry(shape).or_default() += 1;
        }
        if expected.began {
            self.check_edge(random, run, &expected);
        }
        expected
    }

    /// The Rust does not report its advances: the count is that of the calls of
    /// its propagator, and the budget's edge has to be there too.
    fn check_edge(&mut self, random: &mut Random, run: &Run, expected: &Answer) {
        let place = self.place.clone();
        let advances = expected.advances;
        let with = |propagations, advances| {
            let known = run.answer_uncounted(propagations, advances);
            known.unwrap_or_else(|| run.answer(propagations))
        };
        if expected.number == 30 {
            assert_eq!(advances, run.propagations + 1, "{place}");
            // One more is made, whatever comes of it.
            let further = run.answer(advances);
            assert!(further.advances >= advances, "{place}");
            self.compare(random, run, advances, &further);
            return;
        }
        let enough = with(advances, advances);
        assert!(enough.same(expected), "{place}: {enough:?}");
        self.compare(random, run, advances, &enough);
        if advances > 0 {
            let short = with(advances - 1, advances);
            assert_eq!((short.number, short.began), (30, true), "{place}");
            self.compare(random, run, advances - 1, &short);
        }
    }
}

/// The numbers that must come up, and whether the run had begun.
const REPLIES: [(u64, bool); 19] = [
    (0, true),
    (1, false),
    (2, false),
    (3, false),
    (3, true),
    (4, false),
    (5, false),
    (10, false),
    (11, false),
    (12, false),
    (13, false),
    (14, false),
    (20, true),
    (21, true),
    (22, true),
    (30, true),
    (31, true),
    (32, true),
    (40, false),
];

/// Prints what came up; gives what did not.
fn report(tally: &Tally) -> Vec<String> {
    let mut missing = vec![];
    for key in REPLIES {
        let name = match key {
            (3, false) => "3 ahead of a run".into(),
            (3, true) => "3 in a run".into(),
            (number, _) => format!("{number}"),
        };
        match tally.replies.get(&key) {
            Some(count) => println!("reply {name}: {count}"),
            None => missing.push(format!("reply {name}")),
        }
    }
    for ((number, cause), count) in &tally.causes {
        println!("{number} by \"{cause}\": {count}");
    }
    for shape in run_shapes::ALL {
        match tally.shapes.get(shape) {
            Some(count) => println!("runs with {shape}: {count}"),
            None => missing.push(format!("a run with {shape}")),
        }
    }
    println!("runs with cells that new did not make: {}", tally.forged);
    println!(
        "{} calls compared; the runs as drawn have {} rows and {} advances",
        tally.calls, tally.rows, tally.advances
    );
    missing
}

pub fn main() {
    let arguments: Vec<String> = std::env::args().skip(1).collect();
    let usage = || -> ! {
        eprintln!("runs [SEED [CASES]] | runs --store FILE N SEED");
        exit(2)
    };
    let read = |word: &String| word.parse::<u64>().unwrap_or_else(|_| usage());
    if arguments.first().is_some_and(|word| word == "--store") {
        let [_, file, count, seed] = &arguments[..] else {
            usage()
        };
        run_store::write(file, read(count) as usize, read(seed));
        return;
    }
    if arguments.len() > 2 {
        usage();
    }
    let seed = arguments.first().map_or(1, read);
    let cases = arguments.get(1).map_or(100_000, read);

    let mut tally = Tally::default();
    let mut random = Random(seed);
    let fixed = run_fixed::cases();
    for case in &fixed {
        tally.place = case.name.into();
        let answer = tally.check(&mut random, &case.run);
        case.hold(&answer);
    }
    let lengths = run_fixed::lengths();
    for run in &lengths {
        tally.place = format!("slices of {:?}", run.room);
        let answer = run.answer(run.propagations);
        tally.compare(&mut random, run, run.propagations, &answer);
    }
    println!(
        "{} fixed cases and {} lengths of slices agree",
        fixed.len(),
        lengths.len()
    );
    for case in 0..cases {
        // Each case has a seed of its own, so that no case moves the draws of the next.
        let mut random = Random(random.next());
        tally.place = format!("seed {seed}, case {case}");
        let run = run_draw::run(&mut random);
        tally.check(&mut random, &run);
    }
    let missing = report(&tally);
    // A short run need not come to every reply.
    if cases >= 100_000 && !missing.is_empty() {
        println!("did not come up: {}", missing.join("; "));
        exit(1);
    }
    println!("{} runs, 0 differences", cases + fixed.len() as u64);
}
