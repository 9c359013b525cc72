//! Entries that stand in for the closed cycle under test: a right one over the
//! writing out of document 01, its wrong readings, and wrong ways with limits,
//! order and the lent cells. The comparison must take the first and catch each
//! of the others.
use crate::closed::{closed, Reading, Solved};
use crate::cycle_entry::{Cycle, EVENTS, PIECES};
use crate::draw::Parameters;
use crate::rust_run::EVENT;
use crate::sheet_run::Refusal;
use crate::steady_entry::{Answer, SteadyState};
use std::cell::Cell;

thread_local! {
    static PRESENT: Cell<Reading> = const { Cell::new(Reading::Right) };
}

/// The lent slices of a call, and its other arguments.
struct Lent<'a> {
    cycle: Cycle,
    absolute: f64,
    relative: f64,
    kernel: &'a mut [f64],
    events: &'a mut [u64],
    samples: &'a mut [f64],
    amounts: &'a mut [f64],
    residual: &'a mut [f64],
    time: &'a mut f64,
    maximum: &'a mut f64,
}

type Closed = Result<Solved, Refusal>;

impl Lent<'_> {
    fn closed(&self, reading: Reading) -> Closed {
        closed(&self.cycle, self.absolute, self.relative, reading)
    }

    fn right(&self) -> Closed {
        self.closed(Reading::Right)
    }

    fn short(&self) -> bool {
        let n = self.cycle.n();
        self.amounts.len() < n || self.residual.len() < n
    }
}

fn began(answer: &Closed) -> bool {
    Answer::of(answer.clone()).began()
}

/// What an entry must do with an answer.
fn hand_out(answer: Closed, lent: Lent) -> u64 {
    let answer = if began(&answer) && lent.short() {
        Err(Refusal::ahead(4))
    } else {
        answer
    };
    let answer = Answer::of(answer);
    (*lent.time, *lent.maximum) = (answer.time, answer.maximum);
    if answer.number == 0 {
        let n = answer.amounts.len();
        lent.amounts[..n].copy_from_slice(&answer.amounts);
        lent.residual[..n].copy_from_slice(&answer.residual);
    }
    answer.number
}

/// An entry of its own way with the lent cells.
macro_rules! entry {
    ($name:ident, |$lent:ident| $body:expr) => {
        unsafe extern "C" fn $name(
            kernel: *const f64,
            kernel_len: usize,
            start: f64,
            end: f64,
            rtol: f64,
            atol: f64,
            propagations: u64,
            event_budget: usize,
            output_budget: usize,
            events: *const u64,
            events_len: usize,
            samples: *const f64,
            samples_len: usize,
            absolute: f64,
            relative: f64,
            amounts: *mut f64,
            amounts_len: usize,
            residual: *mut f64,
            residual_len: usize,
            time: *mut f64,
            maximum: *mut f64,
        ) -> u64 {
            use std::slice::from_raw_parts_mut;
            let kernel = from_raw_parts_mut(kernel.cast_mut(), kernel_len);
            let events = from_raw_parts_mut(events.cast_mut(), events_len);
            let samples = from_raw_parts_mut(samples.cast_mut(), samples_len);
            let cycle = Cycle {
                given: none(),
                rust: None,
                cells: kernel.to_vec(),
                start,
                end,
                rtol,
                atol,
                propagations,
                event_budget,
                output_budget,
                words: events.to_vec(),
                samples: samples.to_vec(),
            };
            #[allow(unused_mut)]
            let mut $lent = Lent {
                cycle,
                absolute,
                relative,
                kernel,
                events,
                samples,
                amounts: from_raw_parts_mut(amounts, amounts_len),
                residual: from_raw_parts_mut(residual, residual_len),
                time: &mut *time,
                maximum: &mut *maximum,
            };
            $body
        }
    };
}

/// Parameters that nobody looks at.
fn none() -> Parameters {
    Parameters {
        clearance: 0.0,
        volumes: vec![],
        exchange: vec![],
        depot: false,
        absorption: 0.0,
    }
}

entry!(present, |lent| {
    let answer = lent.closed(PRESENT.get());
    hand_out(answer, lent)
});

/// The entry of a reading, until the next.
pub fn entry(reading: Reading) -> SteadyState {
    PRESENT.set(reading);
    present
}

// ---- order and limits

entry!(tolerances_first, |lent| {
    let pass = lent.absolute.is_finite() && lent.absolute > 0.0;
    if !pass || !lent.relative.is_finite() || lent.relative < 0.0 {
        return hand_out(Err(Refusal::ahead(19)), lent);
    }
    hand_out(lent.right(), lent)
});
entry!(limit_of_a_run, |lent| {
    // More events than a cycle may have are taken.
    let over = lent.cycle.event_count() > EVENTS;
    if over && lent.cycle.event_count() <= PIECES && lent.cycle.samples.len() <= 256 {
        lent.cycle.words.truncate(EVENT * EVENTS);
    }
    hand_out(lent.right(), lent)
});
entry!(zero_stands_for_1000, |lent| {
    if lent.cycle.propagations == 0 {
        lent.cycle.propagations = 1000;
    }
    hand_out(lent.right(), lent)
});
entry!(candidate_is_3, |lent| {
    // A candidate that cannot be bound.
    let answer = match lent.right() {
        Err(Refusal { number: 34, .. }) => Err(Refusal::ahead(3)),
        other => other,
    };
    hand_out(answer, lent)
});
entry!(room_first, |lent| {
    if lent.short() {
        return hand_out(Err(Refusal::ahead(4)), lent);
    }
    hand_out(lent.right(), lent)
});
entry!(room_behind_the_fold, |lent| {
    // Ahead of 13 and 14 on the divided budgets.
    let answer = lent.right();
    let number = Answer::of(answer.clone()).number;
    if lent.short() && (number == 14 || number == 13 && lent.cycle.answer().number == 0) {
        return hand_out(Err(Refusal::ahead(4)), lent);
    }
    hand_out(answer, lent)
});
entry!(room_last, |lent| {
    let answer = lent.right();
    if answer.is_err() {
        let answer = Answer::of(answer);
        (*lent.time, *lent.maximum) = (answer.time, 0.0);
        return answer.number;
    }
    hand_out(answer, lent)
});
entry!(room_of_amounts_alone, |lent| {
    let n = lent.cycle.n();
    if lent.residual.len() < n && lent.amounts.len() >= n {
        let answer = Answer::of(lent.right());
        (*lent.time, *lent.maximum) = (answer.time, answer.maximum);
        return answer.number;
    }
    hand_out(lent.right(), lent)
});
entry!(room_of_residuals_alone, |lent| {
    let n = lent.cycle.n();
    if lent.amounts.len() < n && lent.residual.len() >= n {
        let answer = Answer::of(lent.right());
        (*lent.time, *lent.maximum) = (answer.time, answer.maximum);
        return answer.number;
    }
    hand_out(lent.right(), lent)
});
entry!(exact_room_refused, |lent| {
    let n = lent.cycle.n();
    let answer = lent.right();
    if began(&answer) && (lent.amounts.len() == n || lent.residual.len() == n) {
        return hand_out(Err(Refusal::ahead(4)), lent);
    }
    hand_out(answer, lent)
});
entry!(room_for_four, |lent| {
    let answer = lent.right();
    if began(&answer) && (lent.amounts.len() < 4 || lent.residual.len() < 4) {
        return hand_out(Err(Refusal::ahead(4)), lent);
    }
    hand_out(answer, lent)
});

// ---- cells

entry!(candidate_at_a_refusal, |lent| {
    // What was worked out is written ahead of 36.
    let answer = lent.right();
    if let Err(Refusal { number: 36, .. }) = answer {
        if let (Ok(solved), false) = (lent.closed(Reading::NoLimit), lent.short()) {
            lent.amounts[..solved.amounts.len()].copy_from_slice(&solved.amounts);
        }
    }
    hand_out(answer, lent)
});
entry!(residuals_at_a_refusal, |lent| {
    let answer = lent.right();
    if let Err(Refusal { number: 36, .. }) = answer {
        if let (Ok(solved), false) = (lent.closed(Reading::NoLimit), lent.short()) {
            lent.residual[..solved.residual.len()].copy_from_slice(&solved.residual);
        }
    }
    hand_out(answer, lent)
});
entry!(zeros_at_a_refusal, |lent| {
    let answer = lent.right();
    if answer.is_err() && began(&answer) {
        lent.amounts.fill(0.0);
    }
    hand_out(answer, lent)
});
entry!(zero_residuals_at_a_refusal, |lent| {
    let answer = lent.right();
    if answer.is_err() && began(&answer) {
        lent.residual.fill(0.0);
    }
    hand_out(answer, lent)
});
entry!(rows_in_the_slices, |lent| {
    // An inner run that stores its rows.
    let answer = lent.right();
    if began(&answer) {
        if let Some(cell) = lent.amounts.get_mut(lent.cycle.n()) {
            *cell = 1.0;
        }
    }
    hand_out(answer, lent)
});
entry!(zeros_behind, |lent| {
    let answer = lent.right();
    if let (Ok(solved), false) = (&answer, lent.short()) {
        lent.residual[solved.residual.len()..].fill(0.0);
    }
    hand_out(answer, lent)
});
entry!(turned_round, |lent| {
    let answer = lent.right().map(|solved| Solved {
        amounts: solved.residual,
        residual: solved.amounts,
        maximum: solved.maximum,
    });
    hand_out(answer, lent)
});
entry!(time_left_alone, |lent| {
    let (cell, before) = (lent.time as *mut f64, *lent.time);
    let reply = hand_out(lent.right(), lent);
    if reply == 0 {
        *cell = before;
    }
    reply
});
entry!(time_of_the_end, |lent| {
    let (cell, end) = (lent.time as *mut f64, lent.cycle.end);
    let reply = hand_out(lent.right(), lent);
    if reply == 0 {
        *cell = end;
    }
    reply
});
entry!(maximum_left_alone, |lent| {
    let (cell, before) = (lent.maximum as *mut f64, *lent.maximum);
    let reply = hand_out(lent.right(), lent);
    if reply != 0 {
        *cell = before;
    }
    reply
});
entry!(maximum_at_36, |lent| {
    let cell: *mut f64 = lent.maximum;
    let known = lent.closed(Reading::NoLimit).map_or(0.0, |s| s.maximum);
    let reply = hand_out(lent.right(), lent);
    if reply == 36 {
        *cell = known;
    }
    reply
});
entry!(a_cell_past_the_end, |lent| {
    let end = lent.amounts.as_mut_ptr().add(lent.amounts.len());
    let reply = hand_out(lent.right(), lent);
    *end = 0.0;
    reply
});
entry!(a_residual_past_the_end, |lent| {
    let end = lent.residual.as_mut_ptr().add(lent.residual.len());
    let reply = hand_out(lent.right(), lent);
    *end = 0.0;
    reply
});
entry!(samples_cleared, |lent| {
    lent.samples.fill(0.0);
    hand_out(lent.right(), lent)
});
entry!(events_zeroed, |lent| {
    for words in lent.events.chunks_mut(EVENT).filter(|w| w.len() == EVENT) {
        words[3] = 0;
    }
    hand_out(lent.right(), lent)
});
entry!(kernel_changed, |lent| {
    if let Some(cell) = lent.kernel.last_mut() {
        *cell = 1.0;
    }
    hand_out(lent.right(), lent)
});

pub const FAULTY: &[(&str, SteadyState)] = &[
    ("19 first", tolerances_first),
    ("65 events are taken", limit_of_a_run),
    (
        "a budget of 0 propagations stands for 1,000",
        zero_stands_for_1000,
    ),
    ("3 in the place of 34", candidate_is_3),
    ("4 first", room_first),
    (
        "4 ahead of 13 and 14 on the divided budgets",
        room_behind_the_fold,
    ),
    ("4 behind all refusals", room_last),
    ("only the amounts' slice is tested", room_of_amounts_alone),
    (
        "only the residuals' slice is tested",
        room_of_residuals_alone,
    ),
    ("the exact room is refused", exact_room_refused),
    ("room for four states is asked for", room_for_four),
    ("amounts are written at 36", candidate_at_a_refusal),
    ("residuals are written at 36", residuals_at_a_refusal),
    ("zero amounts at a refusal", zeros_at_a_refusal),
    ("zero residuals at a refusal", zero_residuals_at_a_refusal),
    ("an inner run writes behind the answer", rows_in_the_slices),
    ("zeros behind the residuals", zeros_behind),
    ("amounts and residuals turned round", turned_round),
    ("the time is left alone at 0", time_left_alone),
    ("the time of the end at 0", time_of_the_end),
    ("the maximum is left alone at a refusal", maximum_left_alone),
    ("the maximum at 36", maximum_at_36),
    ("a cell past the amounts is written", a_cell_past_the_end),
    (
        "a cell past the residuals is written",
        a_residual_past_the_end,
    ),
    ("the samples are changed", samples_cleared),
    ("the events are changed", events_zeroed),
    ("the kernel is changed", kernel_changed),
];
