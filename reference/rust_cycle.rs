//! The Rust's side of a cycle: words out of events, and the numbers of the
//! refusals of its fold and of its closed cycle.
use crate::rust_run::{run_number, BOLUS, EVENT, INFUSION, RESET};
use qspquest_core::ActiveInputs;
use qspquest_modeling::{Error, ErrorCode, Event};

/// The words of events; those that a kind lacks are 0.
pub fn encoded(events: &[Event]) -> Vec<u64> {
    let words = |event: &Event| -> [u64; EVENT] {
        match event {
            Event::Bolus {
                time,
                target,
                amount,
            } => [
                BOLUS,
                time.to_bits(),
                *target as u64,
                amount.to_bits(),
                0,
                0,
            ],
            Event::Infusion {
                time,
                target,
                amount,
                duration,
            } => [
                INFUSION,
                time.to_bits(),
                *target as u64,
                amount.to_bits(),
                duration.to_bits(),
                0,
            ],
            Event::Reset {
                time,
                target,
                value,
                order,
                active_inputs,
            } => [
                RESET,
                time.to_bits(),
                *target as u64,
                value.to_bits(),
                u64::from(*order),
                u64::from(*active_inputs == ActiveInputs::StopTarget),
            ],
        }
    };
    events.iter().flat_map(words).collect()
}

/// The number of a refusal that is the fold's own.
fn own_fold_number(error: &Error) -> Option<u64> {
    let number = match (error.code, error.message.as_str()) {
        (ErrorCode::InvalidInput, "periodic cycle must have finite increasing endpoints") => 15,
        (
            ErrorCode::WorkBudget,
            "periodic input event budget exceeded" | "wrapped periodic event budget exceeded",
        ) => 13,
        (ErrorCode::InvalidInput, "periodic events must lie in the half-open cycle") => 16,
        (
            ErrorCode::InvalidInput,
            "periodic infusion must have nonnegative finite amount and a finite representable positive duration",
        ) => 17,
        (ErrorCode::InvalidInput, "periodic overlap count overflow") => 18,
        _ => return None,
    };
    assert!(error.time.is_none(), "a refusal with a time: {error:?}");
    Some(number)
}

/// The number of a refusal of the Rust's fold. 10, 11 and 12 are those of a
/// run's preparation.
pub fn fold_number(error: &Error) -> u64 {
    own_fold_number(error).unwrap_or_else(|| match run_number(error) {
        number @ 10..=12 => number,
        _ => panic!("a refusal without a number: {error:?}"),
    })
}

/// The number of a refusal of the Rust's closed cycle: its own, those of the
/// fold, and those of a preparation or a run, but for 3, which no cycle meets.
pub fn steady_number(error: &Error) -> u64 {
    match (error.code, error.time.is_some(), error.message.as_str()) {
        (
            ErrorCode::InvalidInput,
            false,
            "steady-state tolerances must be finite, absolute positive and relative nonnegative",
        ) => 19,
        (
            ErrorCode::Unsupported,
            false,
            "periodic steady state is non-unique or numerically unresolved",
        ) => 33,
        (ErrorCode::Domain, false, "steady-state solution is not finite and nonnegative") => 34,
        (ErrorCode::InvalidInput, false, "steady-state tolerance scale overflow") => 35,
        (ErrorCode::Solver, false, "steady-state cycle residual exceeds tolerance") => 36,
        _ => own_fold_number(error).unwrap_or_else(|| match run_number(error) {
            3 => panic!("3 in a cycle: {error:?}"),
            number => number,
        }),
    }
}
