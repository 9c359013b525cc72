//! The run of the C interface, its arguments, and what the Rust answers to them.
use crate::draw::Parameters;
use crate::entries::{cells_of, linear_pk_new, KERNEL};
use crate::rule::{self, Kernel, RIGHT};
pub use crate::rust_run::*;
use qspquest_modeling::linear_pk::{BoundLinearPk, LinearPk};
use qspquest_modeling::{
    simulate_with_budgets, Budgets, Error, ErrorCode, Event, IntervalPropagator, Model, Protocol,
    Sample,
};
use std::cell::Cell;

/// What a reply gives beside its number: time, rows, advances.
pub const REPLY: usize = 3;
/// The most events and samples of a run.
pub const EVENTS: usize = 192;
pub const SAMPLES: usize = 256;

// Each slice is a pointer and a length; the reply is 0 or the refusal number of
// document 01. Sides: 1 pre, 2 post and readings, 0 not reached.
extern "C" {
    pub fn linear_pk_simulate(
        kernel: *const f64,
        kernel_len: usize,
        amounts: *const f64,
        amounts_len: usize,
        start: f64,
        end: f64,
        rtol: f64,
        atol: f64,
        propagations: u64,
        event_budget: usize,
        output_budget: usize,
        events: *const u64,
        events_len: usize,
        samples: *const f64,
        samples_len: usize,
        times: *mut f64,
        times_len: usize,
        sides: *mut u8,
        sides_len: usize,
        values: *mut f64,
        values_len: usize,
        time: *mut f64,
        rows: *mut usize,
        advances: *mut u64,
    ) -> u64;
}

/// The lengths of the lent slices.
#[derive(Clone, Copy, Debug, PartialEq)]
pub struct Room {
    pub times: usize,
    pub sides: usize,
    pub values: usize,
}

/// The arguments of a run.
#[derive(Clone)]
pub struct Run {
    /// What the kernel was made from.
    pub given: Parameters,
    /// The Rust's kernel; none where the cells are not the ones that `new` made.
    pub rust: Option<LinearPk>,
    pub cells: Vec<f64>,
    pub amounts: Vec<f64>,
    pub start: f64,
    pub end: f64,
    pub rtol: f64,
    pub atol: f64,
    pub propagations: u64,
    pub event_budget: usize,
    pub output_budget: usize,
    pub words: Vec<u64>,
    pub samples: Vec<f64>,
    pub room: Room,
}

/// What a run must give.
#[derive(Clone, Debug)]
pub struct Answer {
    pub number: u64,
    /// Whether the run began: all tests ahead of it passed.
    pub began: bool,
    pub time: f64,
    pub rows: Vec<Sample>,
    pub advances: u64,
    /// The text of the Rust's refusal.
    pub cause: String,
}

impl Answer {
    fn ahead(number: u64) -> Answer {
        Answer {
            number,
            began: false,
            time: 0.0,
            rows: vec![],
            advances: 0,
            cause: String::new(),
        }
    }

    /// Whether number, time, advances and every bit of the rows are the same.
    pub fn same(&self, other: &Answer) -> bool {
        let rows = |answer: &Answer| -> Vec<(u64, u8, Vec<u64>)> {
            let row = |row: &Sample| {
                let values = row.values.iter().map(|v| v.to_bits()).collect();
                (row.time.to_bits(), side(row), values)
            };
            answer.rows.iter().map(row).collect()
        };
        (self.number, self.began, self.advances) == (other.number, other.began, other.advances)
            && self.time.to_bits() == other.time.to_bits()
            && rows(self) == rows(other)
    }
}

/// The kernel of both sides, which must be the same; none where both refuse.
pub fn made(given: &Parameters) -> Option<(LinearPk, [f64; KERNEL])> {
    let absorption = given.depot.then_some(given.absorption);
    let rust = LinearPk::new(given.clearance, &given.volumes, &given.exchange, absorption);
    let mut cells = [0.0; KERNEL];
    let reply = unsafe {
        linear_pk_new(
            given.clearance,
            given.volumes.as_ptr(),
            given.volumes.len(),
            given.exchange.as_ptr(),
            given.exchange.len(),
            given.depot,
            given.absorption,
            cells.as_mut_ptr(),
            KERNEL,
        )
    };
    assert_eq!(rust.is_ok(), reply == 0, "new differs on {given:?}");
    let rust = rust.ok()?;
    assert_eq!(
        cells_of(&rust).map(f64::to_bits),
        cells.map(f64::to_bits),
        "new differs on {given:?}"
    );
    Some((rust, cells))
}

/// The Rust's bound patient, with the calls of its propagator counted. Where
/// the cells are not the ones that `new` made, `rule.rs` propagates in its
/// place, and all else is still the Rust's.
struct Patient {
    bound: BoundLinearPk,
    forged: Option<Kernel>,
    calls: Cell<u64>,
}

impl IntervalPropagator for Patient {
    fn propagate(&self, amounts: &[f64], rates: &[f64], duration: f64) -> Result<Vec<f64>, Error> {
        self.calls.set(self.calls.get() + 1);
        let Some(kernel) = &self.forged else {
            let kernel = self.bound.interval_propagator().expect("a propagator");
            return kernel.propagate(amounts, rates, duration);
        };
        let (code, text) = match rule::advance(kernel, amounts, rates, duration, RIGHT).answer {
            Ok(result) => return Ok(result[..kernel.n()].to_vec()),
            Err(3) => (
                ErrorCode::InvalidInput,
                "linear PK interval needs finite nonnegative amounts, inputs and duration",
            ),
            Err(20) => (ErrorCode::Domain, "linear PK interval matrix overflow"),
            Err(21) => (ErrorCode::Unsupported, ""),
            Err(_) => (ErrorCode::Domain, "linear PK exponential overflow"),
        };
        Err(Error::new(code, text))
    }
}

impl Model for Patient {
    fn interval_propagator(&self) -> Option<&dyn IntervalPropagator> {
        Some(self)
    }
    fn validate(&self) -> Result<(), Error> {
        self.bound.validate()
    }
    fn initial(&self) -> Vec<f64> {
        self.bound.initial()
    }
    fn dose_scale(&self, target: usize) -> Option<f64> {
        self.bound.dose_scale(target)
    }
    fn check_state(&self, time: f64, state: &[f64]) -> Result<(), Error> {
        self.bound.check_state(time, state)
    }
    fn rhs(&self, _: f64, _: &[f64], _: &[f64], _: &mut [f64]) -> Result<(), Error> {
        unreachable!("the analytic path has no equations")
    }
    fn jac_mul(&self, _: f64, _: &[f64], _: &[f64], _: &[f64], _: &mut [f64]) -> Result<(), Error> {
        unreachable!("the analytic path has no equations")
    }
}

impl Run {
    /// The events that the words have room for.
    pub fn event_count(&self) -> usize {
        self.words.len() / EVENT
    }

    /// The reckoned rows.
    pub fn reckoned(&self) -> usize {
        4 * self.event_count() + self.samples.len() + 2
    }

    /// The number of states, 1 where the cells are no kernel.
    pub fn n(&self) -> usize {
        Kernel::read(&self.cells).map_or(1, |kernel| kernel.n())
    }

    /// The cells that `new` made.
    pub fn cells_of_new(&self) -> [f64; KERNEL] {
        made(&self.given).expect("parameters that new takes").1
    }

    fn enough_room(&self) -> bool {
        let (rows, room) = (self.reckoned(), &self.room);
        room.times >= rows && room.sides >= rows && room.values >= rows * self.n()
    }

    pub fn protocol(&self, events: Vec<Event>) -> Protocol {
        Protocol {
            start: self.start,
            end: self.end,
            rtol: self.rtol,
            atol: self.atol,
            samples: self.samples.clone(),
            events,
        }
    }

    pub fn budgets(&self, propagations: u64) -> Budgets {
        Budgets {
            solver_callbacks: propagations,
            events: self.event_budget,
            output_values: self.output_budget,
        }
    }

    /// A patient for the Rust, or the number ahead of the preparation.
    fn patient(&self) -> Result<Patient, u64> {
        let kernel = Kernel::sound(&self.cells)?;
        let plain;
        let (rust, forged) = match &self.rust {
            Some(rust) => (rust, None),
            // Any kernel of the Rust with the same count of states: `rule.rs`
            // propagates, and nothing else asks it for its rates.
            None => {
                let (volumes, exchange) = ([1.0; 3], [0.0; 2]);
                let count = kernel.volume_count;
                let absorption = (kernel.depot == 1).then_some(0.0);
                plain = LinearPk::new(0.0, &volumes[..count], &exchange[..count - 1], absorption)
                    .expect("a kernel");
                (&plain, Some(kernel))
            }
        };
        Ok(Patient {
            bound: rust.bind(&self.amounts).map_err(|_| 3_u64)?,
            forged,
            calls: Cell::new(0),
        })
    }

    /// The Rust's answer with a budget of propagations, and the numbers that
    /// the Rust does not have where the order puts them.
    pub fn answer(&self, propagations: u64) -> Answer {
        let Some(events) = decoded(&self.words) else {
            return Answer::ahead(40);
        };
        if events.len() > EVENTS || self.samples.len() > SAMPLES {
            return Answer::ahead(5);
        }
        let patient = match self.patient() {
            Ok(patient) => patient,
            Err(number) => return Answer::ahead(number),
        };
        let protocol = self.protocol(events);
        let run = simulate_with_budgets(&patient, &protocol, self.budgets(propagations));
        self.judged(run, patient.calls.get())
    }

    /// The same by the Rust's own patient, where it holds the kernel. The count
    /// of advances is not seen there: it is the one that the caller knows.
    pub fn answer_uncounted(&self, propagations: u64, advances: u64) -> Option<Answer> {
        let bound = self.rust.as_ref()?.bind(&self.amounts).expect("amounts");
        let protocol = self.protocol(decoded(&self.words).expect("events"));
        let run = simulate_with_budgets(&bound, &protocol, self.budgets(propagations));
        let mut answer = self.judged(run, 0);
        answer.advances = advances;
        Some(answer)
    }

    fn judged(&self, run: Result<Vec<Sample>, Error>, calls: u64) -> Answer {
        let (number, time, rows, cause) = match run {
            Ok(rows) => (0, 0.0, rows, String::new()),
            Err(error) => {
                let number = run_number(&error);
                (number, error.time.unwrap_or(0.0), vec![], error.message)
            }
        };
        let began = !matches!(number, 10..=14);
        if began && !self.enough_room() {
            return Answer::ahead(4);
        }
        Answer {
            number,
            began,
            time,
            rows,
            // The one that the budget refuses is counted, and never made.
            advances: calls + u64::from(number == 30),
            cause,
        }
    }
}
