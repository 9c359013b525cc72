//! The fold of the C interface, the arguments of a cycle, and what the Rust
//! answers to them.
use crate::draw::{Parameters, Random};
use crate::rule::Kernel;
use crate::run_entry::made;
use crate::rust_cycle::{encoded, fold_number};
use crate::rust_run::{decoded, EVENT};
use crate::slices::{bits, Cell, Slice};
use qspquest_modeling::linear_pk::LinearPk;
use qspquest_modeling::{Budgets, Event, Protocol};

/// The most events and samples of a cycle, and the most pieces of its list.
pub const EVENTS: usize = 64;
pub const SAMPLES: usize = 256;
pub const PIECES: usize = 192;

pub type Normalize = unsafe extern "C" fn(
    *const f64,
    usize,
    f64,
    f64,
    f64,
    f64,
    u64,
    usize,
    usize,
    *const u64,
    usize,
    *const f64,
    usize,
    *mut u64,
    usize,
    *mut usize,
) -> u64;

// Each slice is a pointer and a length; the reply is 0 or the refusal number of
// document 01.
extern "C" {
    pub fn linear_pk_normalize_periodic_cycle(
        kernel: *const f64,
        kernel_len: usize,
        start: f64,
        end: f64,
        rtol: f64,
        atol: f64,
        propagations: u64,
        event_budget: usize,
        output_budget: usize,
        events: *const u64,
        events_len: usize,
        samples: *const f64,
        samples_len: usize,
        folded: *mut u64,
        folded_len: usize,
        count: *mut usize,
    ) -> u64;
}

/// The arguments of a cycle.
#[derive(Clone)]
pub struct Cycle {
    /// What the kernel was made from.
    pub given: Parameters,
    /// The Rust's kernel; none where the cells are not the ones that `new` made.
    pub rust: Option<LinearPk>,
    pub cells: Vec<f64>,
    pub start: f64,
    pub end: f64,
    pub rtol: f64,
    pub atol: f64,
    pub propagations: u64,
    pub event_budget: usize,
    pub output_budget: usize,
    pub words: Vec<u64>,
    pub samples: Vec<f64>,
}

/// A cycle of these parameters from 0 to 1, with no event; none where `new`
/// refuses.
pub fn made_cycle(given: &Parameters) -> Option<Cycle> {
    let (rust, cells) = made(given)?;
    Some(Cycle {
        given: given.clone(),
        rust: Some(rust),
        cells: cells.to_vec(),
        start: 0.0,
        end: 1.0,
        rtol: 1.0,
        atol: 1.0,
        propagations: 0,
        event_budget: 0,
        output_budget: 0,
        words: vec![],
        samples: vec![],
    })
}

/// What a fold must give, room aside.
#[derive(Clone, Debug)]
pub struct Answer {
    pub number: u64,
    pub pieces: Vec<Event>,
    /// The text of the Rust's refusal.
    pub cause: String,
}

impl Answer {
    pub fn ahead(number: u64) -> Answer {
        Answer {
            number,
            pieces: vec![],
            cause: String::new(),
        }
    }

    /// The words of the pieces.
    pub fn words(&self) -> Vec<u64> {
        encoded(&self.pieces)
    }
}

impl Cycle {
    /// The events that the words have room for.
    pub fn event_count(&self) -> usize {
        self.words.len() / EVENT
    }

    /// The number of states, 1 where the cells are no kernel.
    pub fn n(&self) -> usize {
        Kernel::read(&self.cells).map_or(1, |kernel| kernel.n())
    }

    pub fn protocol(&self, events: Vec<Event>) -> Protocol {
        Protocol {
            start: self.start,
            end: self.end,
            rtol: self.rtol,
            atol: self.atol,
            samples: self.samples.clone(),
            events,
        }
    }

    pub fn budgets(&self) -> Budgets {
        Budgets {
            solver_callbacks: self.propagations,
            events: self.event_budget,
            output_values: self.output_budget,
        }
    }

    /// The events, or the numbers that come ahead of the Rust's: 40, 5, 1, 2.
    pub fn read(&self) -> Result<Vec<Event>, u64> {
        let events = decoded(&self.words).ok_or(40_u64)?;
        if events.len() > EVENTS || self.samples.len() > SAMPLES {
            return Err(5);
        }
        Kernel::sound(&self.cells)?;
        Ok(events)
    }

    /// The Rust's kernel; where the cells are not the ones that `new` made, any
    /// with as many states, which is all that a fold asks it for.
    pub fn kernel(&self) -> LinearPk {
        if let Some(rust) = &self.rust {
            return rust.clone();
        }
        let kernel = Kernel::read(&self.cells).expect("a kernel");
        let (volumes, exchange) = ([1.0; 3], [0.0; 2]);
        let count = kernel.volume_count;
        let absorption = (kernel.depot == 1).then_some(0.0);
        LinearPk::new(0.0, &volumes[..count], &exchange[..count - 1], absorption).expect("a kernel")
    }

    /// The Rust's answer, and the numbers that the Rust does not have where the
    /// order puts them.
    pub fn answer(&self) -> Answer {
        match self.read() {
            Ok(events) => self.answer_to(events),
            Err(number) => Answer::ahead(number),
        }
    }

    fn answer_to(&self, events: Vec<Event>) -> Answer {
        let protocol = self.protocol(events);
        match self
            .kernel()
            .periodic_cycle_protocol(&protocol, self.budgets())
        {
            Ok(folded) => {
                let same = |a: f64, b: f64| a.to_bits() == b.to_bits();
                assert!(
                    same(folded.start, self.start) && same(folded.end, self.end),
                    "the Rust moved the window"
                );
                Answer {
                    number: 0,
                    pieces: folded.events,
                    cause: String::new(),
                }
            }
            Err(error) => Answer {
                number: fold_number(&error),
                pieces: vec![],
                cause: error.message,
            },
        }
    }
}

/// The first cell that differs, in words.
pub fn first_difference<T: Cell>(slice: &Slice<T>, answer: &[T]) -> Option<String> {
    slice.differs(answer).map(|(at, wanted, found)| {
        format!(
            "{} of {} cells, at {at}: expected {wanted:x}, received {found:x}",
            slice.name, slice.len
        )
    })
}

/// The first difference of one call with a slice of this many words.
pub fn call(
    entry: Normalize,
    random: &mut Random,
    cycle: &Cycle,
    expected: &Answer,
    room: usize,
) -> Option<String> {
    let kernel = Slice::holding("kernel", &bits(&cycle.cells), random);
    let events = Slice::holding("events", &cycle.words, random);
    let samples = Slice::holding("samples", &bits(&cycle.samples), random);
    let mut folded = Slice::<u64>::filled("folded", room, random);
    let mut count = Slice::<u64>::filled("count", 1, random);
    let reply = unsafe {
        entry(
            kernel.lend().cast(),
            kernel.len,
            cycle.start,
            cycle.end,
            cycle.rtol,
            cycle.atol,
            cycle.propagations,
            cycle.event_budget,
            cycle.output_budget,
            events.lend(),
            events.len,
            samples.lend().cast(),
            samples.len,
            folded.lend_mut(),
            folded.len,
            count.lend_mut().cast(),
        )
    };
    // Without room for the pieces: 4, and nothing is written.
    let words = expected.words();
    let (number, words) = if expected.number == 0 && room < words.len() {
        (4, vec![])
    } else {
        (expected.number, words)
    };
    if reply != number {
        return Some(format!(
            "{room} words lent; number: expected {number}, received {reply}"
        ));
    }
    first_difference(&count, &[(words.len() / EVENT) as u64])
        .or_else(|| first_difference(&folded, &words))
        .or_else(|| {
            [&kernel, &events, &samples]
                .into_iter()
                .find_map(|input| first_difference(input, &[]))
        })
        .map(|text| format!("{room} words lent; {text}"))
}

/// The first difference between what the entry does with a cycle and the
/// answer: with slices of the exact length, one word shorter, longer, and now
/// and then of other lengths. The number of calls made is added.
pub fn difference(
    entry: Normalize,
    random: &mut Random,
    cycle: &Cycle,
    expected: &Answer,
    calls: &mut u64,
) -> Option<String> {
    let exact = expected.pieces.len() * EVENT;
    let mut rooms = if expected.number == 0 {
        vec![exact, exact + 1 + random.below(40)]
    } else {
        vec![random.below(3 * cycle.words.len() + 2)]
    };
    if exact > 0 {
        rooms.push(exact - 1);
    }
    match random.below(16) {
        0 => rooms.push(0),
        1..=2 => rooms.push(random.below(exact + 1)),
        3 => rooms.push(EVENT * PIECES + random.below(3)),
        4 => rooms.push(cycle.words.len()),
        _ => {}
    }
    *calls += rooms.len() as u64;
    rooms
        .into_iter()
        .find_map(|room| call(entry, random, cycle, expected, room))
}
