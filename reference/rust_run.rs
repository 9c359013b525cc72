//! The Rust's side of a run: events out of words, sides as codes, and the
//! numbers of its refusals.
use qspquest_core::ActiveInputs;
use qspquest_modeling::{Error, ErrorCode, Event, Sample};

/// Words of an event: kind, time, target, amount or value, duration or order, stops.
pub const EVENT: usize = 6;

pub const BOLUS: u64 = 0;
pub const INFUSION: u64 = 1;
pub const RESET: u64 = 2;

/// The code of a row's side.
pub fn side(row: &Sample) -> u8 {
    match row.side.as_str() {
        "pre" => 1,
        "post" => 2,
        other => panic!("a side that has no code: {other}"),
    }
}

/// The events in the words; none where they break the layout (40).
pub fn decoded(words: &[u64]) -> Option<Vec<Event>> {
    if words.len() % EVENT != 0 {
        return None;
    }
    let event = |word: &[u64]| {
        let time = f64::from_bits(word[1]);
        let target = word[2] as usize;
        let amount = f64::from_bits(word[3]);
        Some(match word[0] {
            BOLUS => Event::Bolus {
                time,
                target,
                amount,
            },
            INFUSION => Event::Infusion {
                time,
                target,
                amount,
                duration: f64::from_bits(word[4]),
            },
            RESET => Event::Reset {
                time,
                target,
                value: amount,
                order: u16::try_from(word[4]).ok()?,
                active_inputs: match word[5] {
                    0 => ActiveInputs::Continue,
                    1 => ActiveInputs::StopTarget,
                    _ => return None,
                },
            },
            _ => return None,
        })
    };
    words.chunks(EVENT).map(event).collect()
}

/// The number of a refusal of the Rust's run. Kind and text decide; a refusal
/// inside the run has a time, but for 32.
pub fn run_number(error: &Error) -> u64 {
    let timed = error.time.is_some();
    match (error.code, timed, error.message.as_str()) {
        (ErrorCode::WorkBudget, false, "event count exceeds budget") => 13,
        (ErrorCode::InvalidInput, false, "end and tolerances must be finite and positive") => 10,
        (ErrorCode::InvalidInput, false, "sample outside simulation window") => 11,
        (
            ErrorCode::InvalidInput,
            false,
            "invalid dose"
            | "reset value must be finite"
            | "simultaneous resets require distinct order values"
            | "invalid dose amount"
            | "invalid infusion duration or rate",
        ) => 12,
        (ErrorCode::OutputBudget, false, _) => 14,
        (ErrorCode::WorkBudget, true, "analytic propagation budget exhausted") => 30,
        // The arguments of the propagator: the duration is not finite.
        (
            ErrorCode::InvalidInput,
            true,
            "linear PK interval needs finite nonnegative amounts, inputs and duration",
        ) => 3,
        (ErrorCode::Domain, true, "linear PK interval matrix overflow") => 20,
        (ErrorCode::Unsupported, true, _) => 21,
        (
            ErrorCode::Domain,
            true,
            "linear PK exponential overflow"
            | "linear PK integrated input overflow"
            | "linear PK propagation produced nonfinite or negative amount",
        ) => 22,
        (ErrorCode::Invariant, true, _) => 31,
        (ErrorCode::InvalidInput, false, "combined event overflow") => 32,
        _ => panic!("a refusal without a number: {error:?}"),
    }
}
