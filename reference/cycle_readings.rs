//! Entries that stand in for the fold under test: a right one over the writing
//! out of document 01, its wrong readings, and wrong ways with limits, order and
//! the lent cells. The comparison must take the first and catch each of the
//! others.
use crate::cycle_entry::{Normalize, EVENTS, PIECES, SAMPLES};
use crate::fold::{folded, Reading};
use crate::rule::Kernel;
use crate::rust_cycle::encoded;
use crate::rust_run::{decoded, EVENT};
use qspquest_modeling::{Event, Protocol};
use std::cell::Cell;

thread_local! {
    static PRESENT: Cell<Reading> = const { Cell::new(Reading::Right) };
}

/// The lent slices of a call, and its other arguments.
struct Lent<'a> {
    kernel: &'a mut [f64],
    start: f64,
    end: f64,
    rtol: f64,
    atol: f64,
    event_budget: usize,
    output_budget: usize,
    events: &'a mut [u64],
    samples: &'a mut [f64],
    folded: &'a mut [u64],
    count: &'a mut usize,
}

type List = Result<Vec<Event>, u64>;

impl Lent<'_> {
    fn protocol(&self, events: Vec<Event>) -> Protocol {
        Protocol {
            start: self.start,
            end: self.end,
            rtol: self.rtol,
            atol: self.atol,
            samples: self.samples.to_vec(),
            events,
        }
    }

    fn decoded(&self) -> Result<Vec<Event>, u64> {
        decoded(self.events).ok_or(40)
    }

    fn limits(&self, events: &[Event]) -> Result<(), u64> {
        let over = events.len() > EVENTS || self.samples.len() > SAMPLES;
        if over {
            Err(5)
        } else {
            Ok(())
        }
    }

    fn states(&self) -> Result<usize, u64> {
        Kernel::sound(self.kernel).map(|kernel| kernel.n())
    }

    fn folded(&self, n: usize, events: Vec<Event>, reading: Reading) -> List {
        let protocol = self.protocol(events);
        folded(n, &protocol, self.event_budget, self.output_budget, reading)
    }

    /// The right order: 40, 5, 1, 2, then the fold.
    fn list(&self, reading: Reading) -> List {
        let events = self.decoded()?;
        self.limits(&events)?;
        let n = self.states()?;
        self.folded(n, events, reading)
    }
}

/// What an entry must do with a list.
fn hand_out(list: List, lent: Lent) -> u64 {
    *lent.count = 0;
    let pieces = match list {
        Ok(pieces) => pieces,
        Err(number) => return number,
    };
    let words = encoded(&pieces);
    if lent.folded.len() < words.len() {
        return 4;
    }
    lent.folded[..words.len()].copy_from_slice(&words);
    *lent.count = pieces.len();
    0
}

/// An entry of its own way with the lent cells.
macro_rules! entry {
    ($name:ident, |$lent:ident| $body:expr) => {
        unsafe extern "C" fn $name(
            kernel: *const f64,
            kernel_len: usize,
            start: f64,
            end: f64,
            rtol: f64,
            atol: f64,
            _propagations: u64,
            event_budget: usize,
            output_budget: usize,
            events: *const u64,
            events_len: usize,
            samples: *const f64,
            samples_len: usize,
            folded: *mut u64,
            folded_len: usize,
            count: *mut usize,
        ) -> u64 {
            use std::slice::from_raw_parts_mut;
            #[allow(unused_mut)]
            let mut $lent = Lent {
                kernel: from_raw_parts_mut(kernel.cast_mut(), kernel_len),
                start,
                end,
                rtol,
                atol,
                event_budget,
                output_budget,
                events: from_raw_parts_mut(events.cast_mut(), events_len),
                samples: from_raw_parts_mut(samples.cast_mut(), samples_len),
                folded: from_raw_parts_mut(folded, folded_len),
                count: &mut *count,
            };
            $body
        }
    };
}

entry!(present, |lent| {
    let list = lent.list(PRESENT.get());
    hand_out(list, lent)
});

/// The entry of a reading, until the next.
pub fn entry(reading: Reading) -> Normalize {
    PRESENT.set(reading);
    present
}

/// The right list.
fn right(lent: &Lent) -> List {
    lent.list(Reading::Right)
}

// ---- order and limits

entry!(limits_first, |lent| {
    let count = lent.events.len() / EVENT;
    if count > EVENTS || lent.samples.len() > SAMPLES {
        return hand_out(Err(5), lent);
    }
    hand_out(right(&lent), lent)
});
entry!(limits_behind_the_kernel, |lent| {
    let list = lent.decoded().and_then(|events| {
        let n = lent.states()?;
        lent.limits(&events)?;
        lent.folded(n, events, Reading::Right)
    });
    hand_out(list, lent)
});
entry!(limit_of_a_run, |lent| {
    let list = lent.decoded().and_then(|events| {
        if events.len() > PIECES || lent.samples.len() > SAMPLES {
            return Err(5);
        }
        let n = lent.states()?;
        lent.folded(n, events, Reading::Right)
    });
    hand_out(list, lent)
});
entry!(one_sample_more, |lent| {
    let list = lent.decoded().and_then(|events| {
        if events.len() > EVENTS || lent.samples.len() > SAMPLES + 1 {
            return Err(5);
        }
        let n = lent.states()?;
        lent.folded(n, events, Reading::Right)
    });
    hand_out(list, lent)
});
entry!(limits_below, |lent| {
    let list = right(&lent);
    let full = lent.events.len() == EVENT * EVENTS || lent.samples.len() == SAMPLES;
    hand_out(if full { Err(5) } else { list }, lent)
});
entry!(limit_of_pieces, |lent| {
    let list = right(&lent).and_then(|pieces| {
        if pieces.len() > EVENTS {
            Err(5)
        } else {
            Ok(pieces)
        }
    });
    hand_out(list, lent)
});
entry!(kernel_behind_the_cycle, |lent| {
    let list = lent.decoded().and_then(|events| {
        lent.limits(&events)?;
        let period = lent.end - lent.start;
        if !(period.is_finite() && period > 0.0) {
            return Err(15);
        }
        lent.folded(lent.states()?, events, Reading::Right)
    });
    hand_out(list, lent)
});
entry!(kernel_not_looked_at, |lent| {
    let list = lent.decoded().and_then(|events| {
        lent.limits(&events)?;
        let n = Kernel::read(lent.kernel).map_or(4, |kernel| kernel.n());
        lent.folded(n, events, Reading::Right)
    });
    hand_out(list, lent)
});
entry!(rates_not_looked_at, |lent| {
    let list = lent.decoded().and_then(|events| {
        lent.limits(&events)?;
        let kernel = Kernel::read(lent.kernel).ok_or(1_u64)?;
        if !kernel.volumes_pass() {
            return Err(1);
        }
        lent.folded(kernel.n(), events, Reading::Right)
    });
    hand_out(list, lent)
});
entry!(volumes_not_looked_at, |lent| {
    let list = lent.decoded().and_then(|events| {
        lent.limits(&events)?;
        let kernel = Kernel::read(lent.kernel).ok_or(1_u64)?;
        if !kernel.finite() {
            return Err(2);
        }
        lent.folded(kernel.n(), events, Reading::Right)
    });
    hand_out(list, lent)
});
entry!(every_target_there, |lent| {
    let list = lent.decoded().and_then(|events| {
        lent.limits(&events)?;
        lent.states()?;
        lent.folded(usize::MAX, events, Reading::Right)
    });
    hand_out(list, lent)
});
entry!(fits_behind_the_fold, |lent| {
    // A word outside its listed values is found when the event's turn comes.
    let whole = lent.events.len() / EVENT * EVENT;
    let fit = |words: &[u64]| decoded(words).is_some();
    let before = lent.events[..whole]
        .chunks(EVENT)
        .take_while(|words| fit(words))
        .count();
    if before < whole / EVENT {
        let first = decoded(&lent.events[..EVENT * before]).expect("events");
        let outside = |time: f64| !(time >= lent.start && time < lent.end);
        let early = first.iter().any(|event| outside(event.time()));
        return hand_out(Err(if early { 16 } else { 40 }), lent);
    }
    hand_out(right(&lent), lent)
});
entry!(words_behind_passed_over, |lent| {
    let whole = lent.events.len() / EVENT * EVENT;
    let list = decoded(&lent.events[..whole]).ok_or(40).and_then(|events| {
        lent.limits(&events)?;
        let n = lent.states()?;
        lent.folded(n, events, Reading::Right)
    });
    hand_out(list, lent)
});
entry!(propagations_divided, |lent| {
    // The budgets of the closed cycle.
    lent.event_budget /= 3;
    let list = right(&lent);
    hand_out(list, lent)
});

// ---- room

entry!(room_for_three_each, |lent| {
    let list = right(&lent);
    if list.is_ok() && lent.folded.len() < 3 * lent.events.len() {
        *lent.count = 0;
        return 4;
    }
    hand_out(list, lent)
});
entry!(room_for_all_pieces, |lent| {
    let list = right(&lent);
    if list.is_ok() && lent.folded.len() < EVENT * PIECES {
        *lent.count = 0;
        return 4;
    }
    hand_out(list, lent)
});
entry!(room_for_the_list, |lent| {
    // Ahead of 10, 11 and 12.
    let list = right(&lent);
    let late = matches!(list, Err(10..=12));
    if late && lent.folded.len() < lent.events.len() {
        *lent.count = 0;
        return 4;
    }
    hand_out(list, lent)
});
entry!(room_first, |lent| {
    if lent.folded.len() < lent.events.len() {
        *lent.count = 0;
        return 4;
    }
    hand_out(right(&lent), lent)
});
entry!(exact_room_refused, |lent| {
    let list = right(&lent);
    let words = list.as_ref().map_or(1, |pieces| EVENT * pieces.len());
    if list.is_ok() && words > 0 && lent.folded.len() == words {
        *lent.count = 0;
        return 4;
    }
    hand_out(list, lent)
});
entry!(room_by_pieces, |lent| {
    // A slice for whole events only.
    let list = right(&lent);
    if list.is_ok() && lent.folded.len() % EVENT != 0 {
        *lent.count = 0;
        return 4;
    }
    hand_out(list, lent)
});
entry!(no_room_without_pieces, |lent| {
    let list = right(&lent);
    if list.is_ok() && lent.folded.is_empty() {
        *lent.count = 0;
        return 4;
    }
    hand_out(list, lent)
});
entry!(writes_what_fits, |lent| {
    let list = right(&lent);
    if let Ok(pieces) = &list {
        let words = encoded(pieces);
        let room = words.len().min(lent.folded.len());
        lent.folded[..room].copy_from_slice(&words[..room]);
    }
    hand_out(list, lent)
});

// ---- cells

entry!(words_as_they_came, |lent| {
    // A copied event keeps the words that its kind lacks.
    let (list, events) = (right(&lent), lent.events.to_vec());
    let cells: *mut [u64] = lent.folded;
    let reply = hand_out(list.clone(), lent);
    if let (0, Ok(pieces)) = (reply, &list) {
        for (at, piece) in pieces.iter().enumerate() {
            let own = encoded(std::slice::from_ref(piece));
            let copied = events.chunks(EVENT).find(|words| words[..4] == own[..4]);
            if let (Event::Bolus { .. }, Some(words)) = (piece, copied) {
                (&mut *cells)[EVENT * at..EVENT * at + EVENT].copy_from_slice(words);
            }
        }
    }
    reply
});
entry!(count_of_words, |lent| {
    let cell: *mut usize = lent.count;
    let reply = hand_out(right(&lent), lent);
    *cell *= EVENT;
    reply
});
entry!(count_left_alone, |lent| {
    let (cell, before) = (lent.count as *mut usize, *lent.count);
    let reply = hand_out(right(&lent), lent);
    if reply != 0 {
        *cell = before;
    }
    reply
});
entry!(count_without_room, |lent| {
    let cell: *mut usize = lent.count;
    let list = right(&lent);
    let pieces = list.as_ref().map_or(0, Vec::len);
    let reply = hand_out(list, lent);
    if reply == 4 {
        *cell = pieces;
    }
    reply
});
entry!(count_of_the_list, |lent| {
    let (cell, events) = (lent.count as *mut usize, lent.events.len() / EVENT);
    let reply = hand_out(right(&lent), lent);
    if reply != 0 && reply != 4 {
        *cell = events;
    }
    reply
});
entry!(zeros_behind, |lent| {
    let list = right(&lent);
    let words = list.as_ref().map_or(0, |pieces| EVENT * pieces.len());
    if list.is_ok() && words <= lent.folded.len() {
        lent.folded[words..].fill(0);
    }
    hand_out(list, lent)
});
entry!(zeros_up_to_192, |lent| {
    let list = right(&lent);
    if list.is_ok() {
        let most = lent.folded.len().min(EVENT * PIECES);
        if most == EVENT * PIECES {
            lent.folded[..most].fill(0);
        }
    }
    hand_out(list, lent)
});
entry!(zeros_at_a_refusal, |lent| {
    let list = right(&lent);
    if list.is_err() {
        lent.folded.fill(0);
    }
    hand_out(list, lent)
});
entry!(pieces_so_far, |lent| {
    // The events ahead of a refused one are written.
    let list = right(&lent);
    if list.is_err() && lent.folded.len() >= EVENT && lent.events.len() >= EVENT {
        let words = lent.events[..EVENT].to_vec();
        lent.folded[..EVENT].copy_from_slice(&words);
    }
    hand_out(list, lent)
});
entry!(from_the_second_event, |lent| {
    let list = right(&lent);
    let words = list.as_ref().map_or(0, |pieces| EVENT * pieces.len());
    let cells: *mut [u64] = lent.folded;
    let reply = hand_out(list, lent);
    let cells = &mut *cells;
    if reply == 0 && cells.len() > words {
        cells[..=words].rotate_right(1);
    }
    reply
});
entry!(a_word_past_the_end, |lent| {
    let end = lent.folded.as_mut_ptr().add(lent.folded.len());
    let reply = hand_out(right(&lent), lent);
    *end = 0;
    reply
});
entry!(events_changed, |lent| {
    let list = right(&lent);
    if let Some(word) = lent.events.last_mut() {
        *word = 0;
    }
    hand_out(list, lent)
});
entry!(samples_cleared, |lent| {
    let list = right(&lent);
    lent.samples.fill(0.0);
    hand_out(list, lent)
});
entry!(kernel_changed, |lent| {
    let list = right(&lent);
    if let Some(cell) = lent.kernel.last_mut() {
        *cell = 1.0;
    }
    hand_out(list, lent)
});

pub const FAULTY: &[(&str, Normalize)] = &[
    ("5 ahead of 40", limits_first),
    ("1 and 2 ahead of 5", limits_behind_the_kernel),
    ("192 events are the limit", limit_of_a_run),
    ("257 samples are taken", one_sample_more),
    ("64 events or 256 samples are 5", limits_below),
    ("more than 64 pieces are 5", limit_of_pieces),
    ("15 ahead of 1 and 2", kernel_behind_the_cycle),
    (
        "a kernel that is none is not looked at",
        kernel_not_looked_at,
    ),
    (
        "rates that are not finite are not looked at",
        rates_not_looked_at,
    ),
    (
        "volumes that do not pass are not looked at",
        volumes_not_looked_at,
    ),
    ("every target is there", every_target_there),
    ("16 ahead of a later event's 40", fits_behind_the_fold),
    (
        "words behind the last event are passed over",
        words_behind_passed_over,
    ),
    ("the event budget is divided", propagations_divided),
    (
        "room for three pieces an event is asked for",
        room_for_three_each,
    ),
    ("room for 192 pieces is asked for", room_for_all_pieces),
    ("4 ahead of 10, 11 and 12", room_for_the_list),
    ("4 first, by the list", room_first),
    ("the exact room is refused", exact_room_refused),
    (
        "a length that is no multiple of 6 is refused",
        room_by_pieces,
    ),
    ("no cell for no piece is 4", no_room_without_pieces),
    ("writes what fits", writes_what_fits),
    ("words that a bolus lacks are copied", words_as_they_came),
    ("the count is that of the words", count_of_words),
    ("the count is left alone at a refusal", count_left_alone),
    ("the count of pieces without room", count_without_room),
    ("the count of the list at a refusal", count_of_the_list),
    ("zeros behind the pieces", zeros_behind),
    ("zeros up to 192 pieces", zeros_up_to_192),
    ("zeros at a refusal", zeros_at_a_refusal),
    ("an event is written at a refusal", pieces_so_far),
    ("the words start at the second cell", from_the_second_event),
    ("a word past the end is written", a_word_past_the_end),
    ("the events are changed", events_changed),
    ("the samples are changed", samples_cleared),
    ("the kernel is changed", kernel_changed),
];
