//! The closed cycle of the C interface, its arguments, what the Rust answers to
//! them, and the steady state of a sheet.
use crate::closed::{closed, Reading, Solved};
use crate::cycle_entry::{first_difference, made_cycle, Cycle};
use crate::draw::{Parameters, Random};
use crate::sheet::Bodies;
use crate::sheet_run::Refusal;
use crate::slices::{bits, Slice};
use crate::steady_run::steady;

pub type SteadyState = unsafe extern "C" fn(
    *const f64,
    usize,
    f64,
    f64,
    f64,
    f64,
    u64,
    usize,
    usize,
    *const u64,
    usize,
    *const f64,
    usize,
    f64,
    f64,
    *mut f64,
    usize,
    *mut f64,
    usize,
    *mut f64,
    *mut f64,
) -> u64;

// Each slice is a pointer and a length; the reply is 0 or the refusal number of
// document 01.
extern "C" {
    pub fn linear_pk_periodic_steady_state(
        kernel: *const f64,
        kernel_len: usize,
        start: f64,
        end: f64,
        rtol: f64,
        atol: f64,
        propagations: u64,
        event_budget: usize,
        output_budget: usize,
        events: *const u64,
        events_len: usize,
        samples: *const f64,
        samples_len: usize,
        absolute: f64,
        relative: f64,
        amounts: *mut f64,
        amounts_len: usize,
        residual: *mut f64,
        residual_len: usize,
        time: *mut f64,
        maximum: *mut f64,
    ) -> u64;
    pub fn rig_steady_sheet(
        sheet: *const u8,
        sheet_length: usize,
        out: *mut u8,
        out_length: usize,
        length: *mut usize,
    ) -> u64;
}

/// The arguments of a closed cycle, slices aside.
#[derive(Clone)]
pub struct Steady {
    pub cycle: Cycle,
    pub absolute: f64,
    pub relative: f64,
}

/// What a closed cycle must give, room aside.
#[derive(Clone, Debug)]
pub struct Answer {
    pub number: u64,
    pub time: f64,
    pub amounts: Vec<f64>,
    pub residual: Vec<f64>,
    pub maximum: f64,
}

impl Answer {
    pub fn of(answer: Result<Solved, Refusal>) -> Answer {
        match answer {
            Ok(solved) => Answer {
                number: 0,
                time: 0.0,
                amounts: solved.amounts,
                residual: solved.residual,
                maximum: solved.maximum,
            },
            Err(Refusal { number, time }) => Answer {
                number,
                time,
                amounts: vec![],
                residual: vec![],
                maximum: 0.0,
            },
        }
    }

    /// Whether the numbers that come ahead of 4 passed.
    pub fn began(&self) -> bool {
        !matches!(self.number, 1 | 2 | 5 | 10..=19 | 40)
    }

    pub fn same(&self, other: &Answer) -> bool {
        let all = |answer: &Answer| {
            let mut all = vec![answer.number];
            all.extend(bits(&[answer.time, answer.maximum]));
            all.extend(bits(&answer.amounts));
            all.extend(bits(&answer.residual));
            all
        };
        all(self) == all(other)
    }
}

impl Steady {
    /// The Rust's answer, and the numbers that the Rust does not have where the
    /// order puts them. Where the Rust cannot hold the kernel, that of document
    /// 01 written out.
    pub fn answer(&self) -> Answer {
        let cycle = &self.cycle;
        let events = match cycle.read() {
            Ok(events) => events,
            Err(number) => return Answer::of(Err(Refusal::ahead(number))),
        };
        let Some(rust) = &cycle.rust else {
            return self.own(Reading::Right);
        };
        let protocol = cycle.protocol(events);
        let state = steady(
            rust,
            &protocol,
            cycle.budgets(),
            self.absolute,
            self.relative,
        );
        Answer::of(state.map(|state| Solved {
            amounts: state.amounts,
            residual: state.residual,
            maximum: state.maximum_scaled_residual,
        }))
    }

    /// The answer of a reading.
    pub fn own(&self, reading: Reading) -> Answer {
        Answer::of(closed(&self.cycle, self.absolute, self.relative, reading))
    }

    /// The arguments that a sheet's bodies have, with the propagation word as it
    /// is; none where the model is none that `new` takes.
    pub fn of_bodies(bodies: &Bodies) -> Option<Steady> {
        let [clearance, depot, absorption, count, parts @ ..] = &bodies.model[..] else {
            return None;
        };
        let doubles = |words: &[u64]| -> Vec<f64> {
            words.iter().map(|word| f64::from_bits(*word)).collect()
        };
        let (volumes, exchange) = parts.split_at_checked(*count as usize)?;
        let given = Parameters {
            clearance: f64::from_bits(*clearance),
            volumes: doubles(volumes),
            exchange: doubles(exchange),
            depot: *depot == 1,
            absorption: f64::from_bits(*absorption),
        };
        let window: [u64; 9] = bodies.window[..].try_into().ok()?;
        let real = |place: usize| f64::from_bits(window[place]);
        Some(Steady {
            cycle: Cycle {
                start: real(0),
                end: real(1),
                rtol: real(2),
                atol: real(3),
                propagations: window[4],
                event_budget: window[5] as usize,
                output_budget: window[6] as usize,
                words: bodies.events.clone(),
                samples: doubles(&bodies.samples),
                ..made_cycle(&given)?
            },
            absolute: real(7),
            relative: real(8),
        })
    }
}

/// The first difference of one call with slices of these lengths.
pub fn call(
    entry: SteadyState,
    random: &mut Random,
    given: &Steady,
    expected: &Answer,
    room: [usize; 2],
) -> Option<String> {
    let cycle = &given.cycle;
    let kernel = Slice::holding("kernel", &bits(&cycle.cells), random);
    let events = Slice::holding("events", &cycle.words, random);
    let samples = Slice::holding("samples", &bits(&cycle.samples), random);
    let mut amounts = Slice::<u64>::filled("amounts", room[0], random);
    let mut residual = Slice::<u64>::filled("residual", room[1], random);
    let mut reply = Slice::<u64>::filled("time and maximum", 2, random);
    let words = reply.lend_mut();
    let received = unsafe {
        entry(
            kernel.lend().cast(),
            kernel.len,
            cycle.start,
            cycle.end,
            cycle.rtol,
            cycle.atol,
            cycle.propagations,
            cycle.event_budget,
            cycle.output_budget,
            events.lend(),
            events.len,
            samples.lend().cast(),
            samples.len,
            given.absolute,
            given.relative,
            amounts.lend_mut().cast(),
            amounts.len,
            residual.lend_mut().cast(),
            residual.len,
            words.cast(),
            words.add(1).cast(),
        )
    };
    let short = room.iter().any(|room| *room < cycle.n());
    let refused;
    let expected = if expected.began() && short {
        refused = Answer::of(Err(Refusal::ahead(4)));
        &refused
    } else {
        expected
    };
    let lent = |text: String| format!("slices of {room:?} cells; {text}");
    if received != expected.number {
        let wanted = expected.number;
        return Some(lent(format!(
            "number: expected {wanted}, received {received}"
        )));
    }
    first_difference(&reply, &bits(&[expected.time, expected.maximum]))
        .or_else(|| first_difference(&amounts, &bits(&expected.amounts)))
        .or_else(|| first_difference(&residual, &bits(&expected.residual)))
        .or_else(|| {
            [&kernel, &events, &samples]
                .into_iter()
                .find_map(|input| first_difference(input, &[]))
        })
        .map(lent)
}

/// The first difference between what the entry does with a closed cycle and the
/// answer: with slices that are long enough, and with one that is too short. The
/// number of calls made is added.
pub fn difference(
    entry: SteadyState,
    random: &mut Random,
    given: &Steady,
    expected: &Answer,
    calls: &mut u64,
) -> Option<String> {
    let n = given.cycle.n();
    let enough = match random.below(4) {
        0 => [n, n],
        1 => [n + 1 + random.below(5), n],
        2 => [n, n + 1 + random.below(5)],
        _ => [n + random.below(4), n + random.below(4)],
    };
    let short = match random.below(5) {
        0 => [n - 1, n],
        1 => [n, n - 1],
        2 => [0, n + random.below(3)],
        3 => [n + random.below(3), 0],
        _ => [random.below(n), random.below(n)],
    };
    *calls += 2;
    [enough, short]
        .into_iter()
        .find_map(|room| call(entry, random, given, expected, room))
}
